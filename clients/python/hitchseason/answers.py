"""What comes back: answers, and what is worked out of them, each with intervals, what it took, and what is left.

An interval at 95 of 100 holds the exact value in at least 95 of 100 answers, whatever the tables have. An answer's ends are whole numbers: those
of the value less and plus its noise's margin (noise.py). No end is moved to where values can be, as counts from 0 on.
"""
from decimal import ROUND_CEILING, ROUND_FLOOR, ROUND_HALF_EVEN, Decimal, localcontext
from fractions import Fraction
from math import inf, isfinite, nextafter

from . import grids, noise, pictures
from .borrowed import explain
from .shows import Drawn, Shown, lines_html

PERCENTS = ("50", "95", "99.9")


def written(number, rounding=ROUND_HALF_EVEN):
    """A number as it is told: whole, or with the digits that count, which are six, and two of them at least behind the point."""
    if isinstance(number, float) and not isfinite(number):
        return str(number)
    if number == int(number):
        return str(int(number))
    number = Fraction(number)
    with localcontext() as context:
        context.prec, context.rounding = max(6, len(str(abs(int(number)))) + 2), rounding
        return f"{(Decimal(number.numerator) / number.denominator).normalize():f}"


def ends_written(low, high):
    """An interval as it is told. It is rounded outwards, so that it holds as often as it says."""
    return f"{written(low, ROUND_FLOOR)} to {written(high, ROUND_CEILING)}"


def rounded(number, rounding=ROUND_HALF_EVEN):
    """With the digits that count."""
    return number if isinstance(number, int) else exact(float(written(number, rounding)))


def units(millionths):
    """Millionths as EPS is written."""
    return f"{Decimal(millionths) / 10**6:f}"


def for_person(millionths, rows):
    """Epsilon for a person, in units: what is said of a price where it is known how many rows a person may have."""
    return "" if rows is None else f" ({units(millionths * rows)} for a person)"


class Left:
    """What is spent of a budget, in millionths, and how many records there are; `person` is how many rows a person may have, or nothing."""

    def __init__(self, owner, spent, budget, records, time, person=None):
        self.owner, self.spent, self.budget, self.records, self.time, self.person = owner, spent, budget, records, time, person

    @property
    def left(self):
        return self.budget - self.spent

    def as_dict(self):
        told = {"owner": self.owner, "time": self.time, "spent": self.spent, "budget": self.budget, "left": self.left, "records": self.records}
        return told if self.person is None else {**told, "person_rows": self.person, "person_spent": self.spent * self.person}

    def _repr_html_(self):
        return lines_html(self)

    def __str__(self):
        said = f"{self.owner}: {units(self.left)} left of {units(self.budget)}, {units(self.spent)} spent; {self.records} records"
        if self.person is None:
            return said
        spent, budget = (units(millionths * self.person) for millionths in (self.spent, self.budget))
        return f"{said}; epsilon for a person, who has at most {rows_said(self.person)}: {spent} spent of {budget}"

    __repr__ = __str__


class Mine:
    """What the analyst's own asks of an owner cost, in millionths, what they may cost at most or nothing where there is no limit, and how many records
    there are."""

    def __init__(self, owner, spent, limit, records):
        self.owner, self.spent, self.limit, self.records = owner, spent, limit, records

    @property
    def left(self):
        """What is left to the analyst of its limit, or nothing where it has none. The budget may have less."""
        return None if self.limit is None else self.limit - self.spent

    def as_dict(self):
        return {"owner": self.owner, "spent": self.spent, "limit": self.limit, "left": self.left, "records": self.records}

    def _repr_html_(self):
        return lines_html(self)

    def __str__(self):
        of = "no limit of its own" if self.limit is None else f"{units(self.left)} left of a limit of {units(self.limit)}"
        return f"{self.owner}: {units(self.spent)} spent by the analyst, {of}; {self.records} records"

    __repr__ = __str__


def lesser(left, mine):
    """What is left to an analyst: the lesser of what is left of the budget and of the analyst's limit, as far as they are known."""
    rests = [rest for rest in (left and left.left, mine and mine.left) if rest is not None]
    return min(rests, default=None)


def rows_said(rows):
    return f"{rows} row{'' if rows == 1 else 's'}"


class Known(Shown):
    """A value with intervals: `value`, `interval(PERCENT)`, `taken` in millionths, `left` (a Left), the answers' `numbers`."""

    def at(self, level):
        """The ends at a level."""
        raise NotImplementedError

    def interval(self, percent=95):
        return self.at(noise.level_of(percent))

    def intervals(self):
        return {percent: self.interval(percent) for percent in PERCENTS}

    def as_dict(self):
        ends = {percent: [exact(end) for end in ends] for percent, ends in self.intervals().items()}
        left = self.left.left if self.left else None
        return {"value": exact(self.value), "intervals": ends, "taken": self.taken, "left": left, "numbers": self.numbers}

    def row(self):
        """As tools/askparts --csv has it."""
        ends = {f"{side}_{percent}": exact(end) for percent, ends in self.intervals().items() for side, end in zip(("low", "high"), ends)}
        number = {"number": self.numbers[0]} if isinstance(self, Answer) else {"numbers": self.numbers}
        return {"value": exact(self.value), **ends, **number, "taken": self.taken}

    def as_rows(self):
        return [self.row()]

    def table(self):
        ends = [(f"{percent} of 100", ends_written(*self.interval(percent))) for percent in PERCENTS]
        return ["value", *(head for head, _ in ends)], [[written(self.value), *(said for _, said in ends)]]

    def below(self):
        return paid(self)

    def __str__(self):
        return f"{written(self.value)} (95 of 100: {ends_written(*self.interval(95))}); {paid(self)}"


def paid(known):
    """Which numbers it has, what it took, and what is left."""
    left = f", {units(known.left.left)} left" if known.left else ""
    taken = "recalled" if known.taken is None else f"{units(known.taken)} taken{for_person(known.taken, known.left and known.left.person)}"
    return f"{numbers_said(known.numbers)}, {taken}{left}"


def numbers_said(numbers):
    """Numbers of reservations: those that follow one another by their ends."""
    if len(numbers) > 2 and numbers == list(range(numbers[0], numbers[0] + len(numbers))):
        return f"numbers {numbers[0]} to {numbers[-1]}"
    return f"number{'s' if len(numbers) > 1 else ''} {' '.join(map(str, numbers))}"


def exact(number):
    """A number as it is told: whole where it is whole, else with a point."""
    return int(number) if number == int(number) else float(number)


class Answer(Known):
    """An answer of one ask. `taken` is nothing where it was recalled: what it took isn't told again, and is at most ASK's charge."""

    def __init__(self, ask, number, value, taken, recalled=False):
        self.ask, self.number, self.value, self.taken, self.recalled, self.left = ask, number, value, taken, recalled, None

    @property
    def numbers(self):
        return [self.number]

    def margin(self, percent=95):
        return noise.margin(self.ask.e, noise.level_of(percent))

    def at(self, level):
        margin = noise.margin(self.ask.e, level)
        return self.value - margin, self.value + margin

    def as_dict(self):
        asked = {"owner": self.ask.owner, "part": self.ask.part, "eps": explain.in_units(self.ask.e), "sent": self.ask.sent}
        return {**super().as_dict(), "number": self.number, **asked, "recalled": self.recalled}


class Worked(Known):
    """What is worked out of several answers; ENDS gives the interval at a level."""

    def __init__(self, value, answers, ends):
        self.value, self.answers, self.ends = exact(value), answers, ends

    @property
    def taken(self):
        taken = [answer.taken for answer in self.answers]
        return None if None in taken else sum(taken)

    @property
    def left(self):
        return self.answers[-1].left

    @property
    def numbers(self):
        return [answer.number for answer in self.answers]

    def at(self, level):
        """The ends are whole, or rounded outwards."""
        low, high = self.ends(level)
        least, most = exact(low), exact(high)
        return (least if least <= low else nextafter(least, -inf)), (most if most >= high else nextafter(most, inf))


def total(answers):
    """The sum of counts, by the distribution of the sum of their noises."""
    if not answers:
        raise ValueError("a total is of one answer at least")
    value = sum(answer.value for answer in answers)

    def ends(level):
        margin = noise.sum_margin([answer.ask.e for answer in answers], level)
        return value - margin, value + margin

    return Worked(value, answers, ends)


class Groups(Drawn):
    """What is known of each key of a partition, in its order: an answer, or what is worked out of several."""

    def __init__(self, partition, answers):
        self.partition, self.answers = partition, answers

    def __getitem__(self, key):
        return self.answers[key]

    def __iter__(self):
        return iter(self.answers)

    def __len__(self):
        return len(self.answers)

    def items(self):
        return self.answers.items()

    @property
    def taken(self):
        taken = [answer.taken for answer in self.answers.values()]
        return None if None in taken else sum(taken)

    @property
    def left(self):
        return list(self.answers.values())[-1].left

    @property
    def numbers(self):
        return [number for answer in self.answers.values() for number in answer.numbers]

    def total(self, keys=None):
        """The sum over some keys, or all. Rows of no key aren't in it. Of what is worked out of several answers there is none."""
        keys = list(self.answers if keys is None else [keys] if isinstance(keys, str) else keys)
        if len(set(keys)) < len(keys):
            raise ValueError("each key of a total is named once: a key's answer has one noise")
        found = [self.answers[key] for key in keys]
        if not all(isinstance(answer, Answer) for answer in found):
            raise ValueError("a total is of counts or sums, of which each is one answer")
        return total(found)

    def together(self, percent=95):
        """Intervals, by key, that hold all at once at a level: the keys' noises are independent."""
        level = noise.each_of(len(self.answers), noise.level_of(percent))
        return {key: answer.at(level) for key, answer in self.items()}

    def top(self, count, percent=95):
        """The keys with the greatest answers, the greatest first: each with its answer, and whether it is surely among the so many greatest values,
        all that is said so being right at once at the level."""
        ends = self.together(percent)
        order = sorted(self.answers, key=lambda key: -self.answers[key].value)[:count]

        def sure(key):
            return sum(ends[other][1] >= ends[key][0] for other in self.answers if other != key) < count

        return Top(self, [(key, self.answers[key], sure(key)) for key in order], percent)

    def as_rows(self):
        return [{"key": key, **answer.row()} for key, answer in self.items()]

    def table(self):
        return ["", "value", "95 of 100"], [[key, written(answer.value), ends_written(*answer.interval(95))] for key, answer in self.items()]

    def below(self):
        return paid(self)

    def svg(self, title=None, percent="95"):
        """The histogram with its error bars, as tools/plot draws it; of what has a point in it, the digits that count."""
        groups, percent = self.as_dict(), str(percent)
        bars = [(key, rounded(value), rounded(low, ROUND_FLOOR), rounded(high, ROUND_CEILING)) for key, value, low, high in pictures.bars_of(groups, percent)]
        return pictures.histogram_svg(bars, title or self.partition, percent, pictures.eps_of(groups), pictures.least_of(groups, percent))

    def as_dict(self):
        return {"partition": self.partition, "taken": self.taken, "groups": {key: answer.as_dict() for key, answer in self.items()}}

    def __str__(self):
        return "\n".join(f"{key}: {answer}" for key, answer in self.items())


class Top(Shown):
    """Of GROUPS the keys with the greatest answers: each with its answer, and whether it is surely among the so many greatest."""

    def __init__(self, groups, found, percent):
        self.groups, self.found, self.percent = groups, found, percent
        self.taken, self.left, self.numbers = groups.taken, groups.left, groups.numbers

    def __getitem__(self, place):
        return self.found[place]

    def __len__(self):
        return len(self.found)

    def as_dict(self):
        found = [{"key": key, "surely": sure, **answer.as_dict()} for key, answer, sure in self.found]
        return {"partition": self.groups.partition, "taken": self.taken, "percent": str(self.percent), "top": found}

    def as_rows(self):
        return [{"key": key, "surely": sure, **answer.row()} for key, answer, sure in self.found]

    def table(self):
        return ["", "value", "among them"], [[key, short(answer), "surely" if sure else "perhaps"] for key, answer, sure in self.found]

    def below(self):
        return paid(self)

    def __str__(self):
        return laid_out([[key, short(answer), "surely" if sure else "perhaps"] for key, answer, sure in self.found])


class Crosstab(Groups):
    """Groups whose keys join those of two columns: cells by both, and totals."""

    def __init__(self, partition, answers, separator="."):
        super().__init__(partition, answers)
        parts = {key: key.split(separator) for key in answers}
        odd = [key for key, found in parts.items() if len(found) != 2]
        if odd:
            raise ValueError(f"`{odd[0]}` isn't two keys with one `{separator}` between them: {partition} is no partition by a joint column")
        self.separator = separator
        self.cells = {tuple(found): answers[key] for key, found in parts.items()}
        self.rows = list(dict.fromkeys(row for row, _ in self.cells))
        self.columns = list(dict.fromkeys(column for _, column in self.cells))

    def row_total(self, row):
        return total([answer for cell, answer in self.cells.items() if cell[0] == row])

    def column_total(self, column):
        return total([answer for cell, answer in self.cells.items() if cell[1] == column])

    def as_dict(self):
        rows = {row: self.row_total(row).as_dict() for row in self.rows}
        columns = {column: self.column_total(column).as_dict() for column in self.columns}
        return {**super().as_dict(), "totals": {"rows": rows, "columns": columns, "all": self.total().as_dict()}}

    def as_rows(self):
        return [{"row": row, "column": column, **answer.row()} for (row, column), answer in self.cells.items()]

    def svg(self, title=None, percent="95"):
        """The grid of cells, each shaded by its value, with totals."""
        groups, percent = self.as_dict(), str(percent)
        return grids.grid_svg(grids.table_of(groups, percent, self.separator), title or self.partition, percent, pictures.eps_of(groups))

    def table(self):
        head = ["", *self.columns, "total"]
        rows = [[row, *(self.cell(row, column) for column in self.columns), short(self.row_total(row))] for row in self.rows]
        rows.append(["total", *(short(self.column_total(column)) for column in self.columns), short(self.total())])
        return head, rows

    def __str__(self):
        head, rows = self.table()
        return laid_out([head, *rows])

    def cell(self, row, column):
        return short(self.cells[row, column]) if (row, column) in self.cells else ""


def laid_out(rows):
    """Rows of words in columns, the first to the left."""
    widths = [max(len(row[place]) for row in rows) for place in range(len(rows[0]))]
    return "\n".join("  ".join([row[0].ljust(widths[0]), *(word.rjust(width) for word, width in zip(row[1:], widths[1:]))]) for row in rows)


def short(known):
    """A value with its margin at 95 of 100."""
    return f"{written(known.value)} ±{written(known.interval(95)[1] - known.value)}"
