"""Statistics as programs: what is asked for each, and what its answers say.

A `where` is a condition on the row `p`, as `p.age <= 30`, or a list of conditions that all hold. A column is named, or is an expression of `p`.
Each takes a View and gives a Plan. What is worked out of several answers is given with an interval that holds as often as it says, by the joint
distribution of their noises:

- a mean c + s/n, of a sum S = s + a and a count N = n + b: all c + r with |S - r N| <= w, where |a - r b| <= w at the level for every such r;
- a variance: by the mean's interval at a level near 1, and a number that a combination of all three noises stays within at the rest of the level;
- a quantile: a bound is too low or too high where its answer says so by more than a margin that at the level no step passes to the wrong side.
"""
from collections import Counter
from decimal import ROUND_CEILING
from fractions import Fraction

from . import noise
from .answers import Crosstab, Groups, Worked, written
from .asks import Plan, divided, fraction_of
from .faults import Fault

MOST_SQUARED = 2**16 - 1
STEPS, MOST_STEPS = 8, 1000
# An EPS in millionths under which its rounding would cost more than 1 of 20.
FINE, SHRUNK = 20, 2**24


# Programs.


def condition(where):
    """One condition of many: all of them, halved so that many aren't deep."""
    if isinstance(where, str):
        return where
    if len(where) == 1:
        return where[0]
    middle = len(where) // 2
    return f"if ({condition(where[:middle])}) then ({condition(where[middle:])}) else false"


def chosen(table, where):
    return table if not where else f"(filter (fn (p : row {table}) => {condition(where)}) {table})"


def value_of(column):
    """A column, or an expression in parentheses."""
    return f"p.{column}" if column.isidentifier() else f"({column})"


def less(column, middle):
    return value_of(column) if middle == 0 else f"{value_of(column)} - {middle}"


def summed(table, row, low, high, where):
    return f"sum[{low},{high}] (map (fn (p : row {table}) => {row}) {chosen(table, where)})"


def halvings(number, bit, last, times):
    """What adds up `times` for each bit of a number, from one down to another: the language runs these `let`s in columns."""
    text = ""
    while bit >= last:
        text += f"let s = if {bit} <= {number} then s + {times(bit)} else s in "
        text += f"let {number} = if {bit} <= {number} then {number} - {bit} else {number} in "
        bit //= 2
    return text


def squares(table, column, low, high, unit, where):
    """The sum of the rows' squares around the bounds' middle, each in a unit, which is a power of 2, rounded down and less half of the greatest."""
    middle, size = middle_of(low, high)
    most = size * size // unit
    half = most // 2
    square = f"let square = fn (y : num) => let a = y in let s = 0 in {halvings('a', top_bit(size), 1, lambda bit: f'{bit} * y')}s in "
    units_in = halvings("q", top_bit(most) * unit, unit, lambda bit: str(bit // unit))
    shrink = f"let shrink = fn (q : num) => let s = 0 in {units_in}s in " if unit > 1 else ""
    row = f"let y = clip[{low - middle},{high - middle}] ({less(column, middle)}) in let y = if 0 <= y then y else 0 - y in "
    row += f"{'shrink (![inf] (square (![inf] y)))' if unit > 1 else 'square (![inf] y)'} - {half}"
    return square + shrink + summed(table, row, -half, most - half, where), half


def top_bit(number):
    return 1 << (number.bit_length() - 1)


def below(column, bound, share):
    """A row's part in the comparison of the rows at or below a bound with their share: u/v of all."""
    u, v = share.numerator, share.denominator
    return f"if {value_of(column)} <= {bound} then {v - u} else -{u}"


# Bounds and prices.


def bounds(low, high):
    if not (isinstance(low, int) and isinstance(high, int) and low < high):
        raise ValueError(f"bounds are whole numbers, the low one under the high one, and not {low} and {high}")
    return low, high


def middle_of(low, high):
    """The middle of bounds, and the greater distance of them from it."""
    middle = (low + high) // 2
    return middle, high - middle


# One answer.


def single(view, program, eps=None, charge=None, part=None):
    """A program of the language, in which a row may be `p : row TABLE` and its columns `p.COLUMN`; of the whole, or of a part (PARTITION, KEY)."""
    return Plan([view.ask(program, eps, charge, part)], lambda answers: answers[0])


def count(view, table, where=None, eps=None, charge=None, part=None):
    """How many rows there are."""
    view.table(table)
    return single(view, f"size {chosen(table, where)}", eps, charge, part)


def sum_of(view, table, column, low, high, where=None, eps=None, charge=None, part=None):
    """Of the column cut off at its bounds."""
    view.table(table)
    low, high = bounds(low, high)
    return single(view, summed(table, value_of(column), low, high, where), eps, charge, part)


# Parts.


def groups(view, partition, program, *words, keys=None, made=Groups, **more):
    """A program of each key of a partition, or of some, each once; or a statistic by its name, with its words but for the table, which is the
    partition's, and `part`: groups("areas", "mean", "income", 0, 5000, charge=1). The charge is each key's, and the highest alone is taken."""
    table, every = view.partition(partition)["table"], view.partition(partition)["keys"]
    keys = dict.fromkeys(every if keys is None else [keys] if isinstance(keys, str) else keys)
    if not keys:
        raise ValueError("of a partition one key at least is asked")
    of, first = (OF_KEYS[program], (table,)) if is_statistic(program) else (single, (program,))
    plans = {key: of(view, *first, *words, part=(partition, key), **more) for key in keys}
    asks, note = [ask for plan in plans.values() for ask in plan.asks], next((plan.note for plan in plans.values()), None)
    if any(isinstance(plan, Search) for plan in plans.values()):
        return Searches(partition, plans, asks, made, note)

    def worked(answers):
        rest = iter(answers)
        return made(partition, {key: plan.made([next(rest) for _ in plan.asks]) for key, plan in plans.items()})

    return Plan(asks, worked, note)


def is_statistic(program):
    """Whether it is a statistic's name, which is no program by itself."""
    return isinstance(program, str) and program in OF_KEYS


def histogram(view, partition, where=None, eps=None, charge=None, keys=None, made=Groups):
    """How many rows there are of each key of a partition, or of some."""
    table = view.partition(partition)["table"]
    return groups(view, partition, f"size {chosen(table, where)}", eps, charge, keys=keys, made=made)


def crosstab(view, partition, where=None, eps=None, charge=None, separator="."):
    """How many rows there are of each key of a partition by a joint column, as a table with its totals."""
    keys = view.partition(partition)["keys"]
    for key in keys:
        if key.count(separator) != 1:
            raise ValueError(f"`{key}` isn't two keys with one `{separator}` between them: {partition} is no partition by a joint column")
    plan = histogram(view, partition, where, eps, charge, made=lambda name, answers: Crosstab(name, answers, separator))
    plan.sums = [*cells_of("a row's total", keys, 0, separator), *cells_of("a column's total", keys, 1, separator), ("the total", len(keys))]
    return plan


def cells_of(name, keys, side, separator):
    """A total of rows, or of columns, with how many cells there are in it; in several sizes where some cells aren't there."""
    sizes = Counter(key.split(separator)[side] for key in keys).values()
    return [(name, size) for size in sorted(set(sizes))]


def top(view, partition, number, where=None, eps=None, charge=None, percent=95):
    """So many keys with the greatest answers of a histogram: each with its answer, and whether it is surely among them, at the level."""
    if not isinstance(number, int) or number < 1:
        raise ValueError(f"how many keys is a whole number over 0, and not {number!r}")
    noise.level_of(percent)
    plan = histogram(view, partition, where, eps, charge)
    return Plan(plan.asks, lambda answers: plan.made(answers).top(number, percent))


# Means.


def mean(view, table, column, low, high, where=None, charge=None, shares=(1, 1), part=None):
    """Of the column cut off at its bounds. The charge is divided between sum and count by the shares."""
    low, high = bounds(low, high)
    middle, size = middle_of(low, high)
    of_sum, of_count = divided(charge, shares, 2)
    total = single(view, summed(table, less(column, middle), low - middle, high - middle, where), charge=of_sum, part=part)
    rows = count(view, table, where, charge=of_count, part=part)
    asks = total.asks + rows.asks
    most = noise.ratio_margin(asks[0].e, asks[1].e, size, noise.LEVELS[1])
    note = f"The mean is off by at most {most} divided by the rows' number, in 95 of 100; by less where it is near {middle}."
    return Plan(asks, lambda answers: mean_of(*answers, low, high, middle), note)


def mean_of(total, rows, low, high, middle):
    def ends(level):
        least, most = ratios(total, rows, low - middle, high - middle, level)
        return middle + least, middle + most

    value = Fraction(total.value, rows.value) if rows.value > 0 else 0
    return Worked(middle + min(max(value, low - middle), high - middle), [total, rows], ends)


def ratios(total, rows, low, high, level):
    """The least and the greatest r from `low` to `high` with |S - r N| <= w. As r is known to be smaller, so is w."""
    ends = (Fraction(low), Fraction(high))
    for _ in range(3):
        w = noise.ratio_margin(total.ask.e, rows.ask.e, max(abs(end) for end in ends), level)
        if rows.value == 0:
            return ends
        found = sorted((Fraction(total.value - w, rows.value), Fraction(total.value + w, rows.value)))
        ends = tuple(min(max(end, ends[0]), ends[1]) for end in found)
    return ends


# Variances.


def variance(view, table, column, low, high, where=None, charge=None, shares=(1, 2, 1), part=None):
    """Of the column cut off at its bounds, divided by n. The charge is divided among sum, squares and count by the shares."""
    low, high = bounds(low, high)
    middle, size = middle_of(low, high)
    if size > MOST_SQUARED:
        raise ValueError(f"bounds of a variance are at most {2 * MOST_SQUARED} apart: ask of the column in a greater unit")
    of_sum, of_squares, of_count = divided(charge, shares, 3)
    unit = unit_of(size * size, Fraction(of_squares))
    total = summed(table, less(column, middle), low - middle, high - middle, where)
    program, half = squares(table, column, low, high, unit, where)
    asks = [view.ask(total, charge=of_sum, part=part), view.ask(program, charge=of_squares, part=part)]
    asks += count(view, table, where, charge=of_count, part=part).asks
    most = noise.margin(asks[1].e, noise.LEVELS[1]) * unit
    note = f"The variance is off by about {most} divided by the rows' number, in 95 of 100, and by what sum and count are off."
    return Plan(asks, lambda answers: variance_of(answers, half, size, unit), note)


def unit_of(most, charge):
    """The least power of 2 in which squares up to `most` can be asked at this charge: one, or one that leaves no more than SHRUNK of them."""
    unit = 1
    while 2 * unit <= most and (FINE * most > 2 * unit * 10**6 * charge or (unit > 1 and most // unit >= SHRUNK)):
        unit *= 2
    return unit


def variance_of(answers, half, size, unit=1):
    """Squares are rounded down to units, so that each has up to one more, but for units of 1."""
    total, squares, rows = answers
    n = max(1, rows.value)
    value = unit * (Fraction(squares.value, n) + half) + Fraction(unit - 1, 2) - Fraction(total.value, n) ** 2
    return Worked(min(max(value, 0), size * size), answers, lambda level: variances(answers, half, size, unit, level))


def variances(answers, half, size, unit, level):
    """The least and the greatest variance, by the mean's interval at a tenth of what is left of the level, and the triple's margin at the rest.

    With m = s/n, r = q/n and noises a, d and b of sum, squares and count: unit (Q - r N) - 2 m (S - m N) = unit d - 2 m a - (unit r - 2 m^2) b. That
    is unit Q + (unit half - v + m^2) N - 2 m S for the variance v = unit (r + half) - m^2; so v is unit (Q/N + half) - (S/N)^2 + (m - S/N)^2, less
    the noise by N."""
    total, squares, rows = answers
    found, n, left = (Fraction(0), Fraction(size * size)), rows.value, 1 - level
    if n <= 0:
        return found
    means, mean = ratios(total, rows, -size, size, 1 - left / 10), Fraction(total.value, n)
    far = max(abs(end - mean) for end in means) ** 2
    near = 0 if means[0] <= mean <= means[1] else min(abs(end - mean) for end in means) ** 2
    most, around = max(map(abs, means)), unit * (Fraction(squares.value, n) + half) - mean**2
    for _ in range(2):
        counted = max(abs(found[1] - unit * half), abs(found[0] - (unit - 1) - most**2 - unit * half))
        w = unit * noise.triple_margin(squares.ask.e, total.ask.e, rows.ask.e, 2 * most / unit, counted / unit, 1 - left * 9 / 10)
        ends = (around + near - Fraction(w, n), around + far + unit - 1 + Fraction(w, n))
        found = tuple(min(max(end, found[0]), found[1]) for end in ends)
    return found


# Quantiles.


def quantile(view, table, column, share, low, high, where=None, charge=None, steps=None, shares=None, part=None):
    """The least number that a share of the rows is at or below, the column being cut off at its bounds.

    The charge is divided evenly among the steps, or by shares, a share a step. There are 8 steps, fewer where the bounds are near, or as many as
    are said: more tell more where the bounds are wide, and each of them less."""
    low, high = bounds(low, high)
    share = share_of(share)
    if steps is not None and not (isinstance(steps, int) and 1 <= steps <= MOST_STEPS):
        raise ValueError(f"how many steps is a whole number from 1 to {MOST_STEPS}, and not {steps!r}")
    number = len(shares) if shares else steps or min((high - low).bit_length() + 2, STEPS)
    charges = divided(charge, shares or [1] * number, number)

    def ask(step, bound):
        program = summed(table, below(column, bound, share), -share.numerator, share.denominator - share.numerator, where)
        return view.ask(program, charge=charges[step], part=part)

    return Search([ask(step, (low + high) // 2) for step in range(number)], ask, low, high, share)


def share_of(given):
    share = fraction_of(given)
    if share is None or not 0 < share < 1 or share.denominator > 1000:
        raise ValueError(f"a share is over 0 and under 1, of at most a thousandth, as 0.9, and not {given}")
    return share


def median(view, table, column, low, high, where=None, charge=None, steps=None, shares=None, part=None):
    """The quantile of the share 1/2."""
    return quantile(view, table, column, Fraction(1, 2), low, high, where, charge, steps, shares, part)


class Search(Plan):
    """A search by bounds: each step asks of one, by how much the rows at or below it are more than their share."""

    def __init__(self, asks, ask, low, high, share):
        margin = noise.one_sided(min(ask.e for ask in asks), noise.each_of(len(asks), noise.LEVELS[1]))
        rows = written(Fraction(margin, share.denominator), ROUND_CEILING)
        note = f"A bound is distinguished from the quantile, in 95 of 100 searches, where the rows at or below it are over {rows} more or fewer than their share."
        super().__init__(asks, None, note)
        self.ask, self.low, self.high = ask, low, high

    def work(self, send, before=()):
        """BEFORE are answers of the same call, of searches that are done."""
        found = Found(self.low, self.high, [ask.e for ask in self.asks])
        for step in range(len(self.asks)):
            bound = found.next_bound()
            if bound is None:
                break
            try:
                found.add(bound, *send([self.ask(step, bound)]))
            except Fault as fault:
                paid = [*before, *found.answers()]
                fault.answers = [*paid, *fault.answers]
                if paid:
                    fault.add(before_said(paid))
                raise
        return found.worked()


def before_said(answers):
    """What is paid of a search that goes no further."""
    many = f"{len(answers)} asks of this call were" if len(answers) > 1 else "one ask of this call was"
    are, they = ("are", "them") if len(answers) > 1 else ("is", "it")
    return f"Before that {many} answered and {are} paid (`answers`): in Python `resume=fault.answers` in the same call goes on after {they}."


class Found:
    """What a search has found: the bounds with their answers, and by them where the quantile is."""

    def __init__(self, low, high, es):
        self.low, self.high, self.es, self.steps = low, high, es, []

    def add(self, bound, answer):
        self.steps.append((bound, answer))

    def answers(self):
        return [answer for _, answer in self.steps]

    def ends(self, level):
        """No answer is off to the wrong side by more than its margin, in so many searches: so where it is below 0 by more, the bound is too low."""
        each = noise.each_of(len(self.es), level)
        low, high = self.low, self.high
        for bound, answer in self.steps:
            margin = noise.one_sided(answer.ask.e, each)
            low = max(low, bound + 1) if answer.value < -margin else low
            high = min(high, bound) if answer.value >= margin else high
        return (low, high) if low <= high else (high, low)

    def next_bound(self):
        """The middle of what is open; where an answer there said neither, the middle of the longer way from an end to such bounds."""
        low, high = self.ends(noise.LEVELS[1])
        if low == high:
            return None
        unclear = [bound for bound, _ in self.steps if low <= bound < high]
        if not unclear:
            return (low + high) // 2
        before, behind = min(unclear) - low, high - 1 - max(unclear)
        if max(before, behind) <= 0:
            return sorted(unclear)[len(unclear) // 2]
        return low + (before - 1) // 2 if before >= behind else max(unclear) + 1 + (behind - 1) // 2

    def worked(self):
        """The value is between the greatest bound with an answer below 0 and the least with one from 0 on."""
        low, high = self.ends(noise.LEVELS[0])
        under = [bound + 1 for bound, answer in self.steps if answer.value < 0 and low <= bound + 1 <= high]
        over = [bound for bound, answer in self.steps if answer.value >= 0 and low <= bound <= high]
        value = (max(under, default=low) + min(over, default=high)) // 2
        return Worked(min(max(value, low), high), self.answers(), self.ends)


class Searches(Plan):
    """A search of each key, one after the other."""

    def __init__(self, partition, plans, asks, made, note):
        super().__init__(asks, None, note)
        self.partition, self.plans, self.made_of = partition, plans, made

    def work(self, send):
        found = {}
        for key, plan in self.plans.items():
            found[key] = plan.work(send, [answer for known in found.values() for answer in known.answers])
        return self.made_of(self.partition, found)


OF_KEYS = {"count": count, "sum": sum_of, "mean": mean, "variance": variance, "quantile": quantile, "median": median}
