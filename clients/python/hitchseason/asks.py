"""What is asked: a line's program with its columns' names written out, its EPS, its part, and what it costs at most.

    View(CATALOG, OWNER)          an owner's tables, by what tools/public gives; `ask` makes an Ask, or raises Refused
    price(..), divided(..)        EPS in millionths, of an EPS or of a charge; a charge, divided by shares
    fraction_of(NUMBER)           a number that somebody gave, exactly, or nothing
    Plan, Forecast                the asks of a statistic, and what is known of them before anything is asked
"""
from decimal import Decimal, InvalidOperation
from math import ceil

from . import faults, noise
from .answers import PERCENTS, for_person, rows_said, units
from .borrowed import bounds, explain, lines, names, program_parts, programs, public
from .shows import lines_html

# In millionths; no charge is greater than a budget.
MOST_EPS, MOST_CHARGE = bounds.MOST_EPS, bounds.MOST_BUDGET
# Numbers with more digits than that before or after the point are none that is meant.
FAR = 1000


def number_text(number):
    """As it is written without an exponent, if it is a number."""
    if isinstance(number, str):
        return number
    try:
        found = Decimal(str(number))
    except InvalidOperation:
        return str(number)
    return f"{found:f}" if found.is_finite() and abs(found.adjusted()) < FAR else str(number)


def fraction_of(number):
    """A number, exactly; nothing where it is none."""
    try:
        return lines.fraction_of(number_text(number))
    except (ValueError, ZeroDivisionError):
        return None


def millionths(number, what):
    """A positive decimal in millionths, exactly."""
    found = (fraction_of(number) or 0) * 10**6
    if not 0 < found <= MOST_CHARGE or found.denominator != 1:
        raise ValueError(f"{what} is a decimal over 0, and at most {units(MOST_CHARGE)}, with at most six places, as 0.5, and not {number}")
    return int(found)


def price(sensitivity, eps=None, charge=None):
    """EPS in millionths: the one that is given, or the greatest at which an ask of this sensitivity takes at most the charge."""
    if (eps is None) == (charge is None):
        raise ValueError("say either `eps`, of which the noise's scale is 1/EPS, or `charge`, which is sensitivity times EPS")
    if charge is None:
        e = lines.millionths(number_text(eps).encode())
        if e is None:
            raise ValueError(lines.why_no_epsilon(number_text(eps).encode()))
        return e
    e = int(millionths(charge, "a charge") / sensitivity) if sensitivity else MOST_EPS
    if e < 1:
        raise ValueError(f"at a sensitivity of {sensitivity} the least charge is {units(ceil(sensitivity))}, and not {charge}")
    return min(e, MOST_EPS)


def divided(charge, shares, number):
    """A charge in millionths, divided among so many asks by shares."""
    whole, shares = millionths(charge, "a charge"), [fraction_of(share) for share in shares]
    if len(shares) != number or not all(share and share > 0 for share in shares):
        raise ValueError(f"shares are numbers over 0, one for each of the {number} asks")
    total = sum(shares)
    found = [int(whole * share / total) for share in shares]
    if 0 in found:
        raise ValueError(f"a charge of {charge} can't be divided in {len(found)}")
    return [units(part) for part in found]


class Ask:
    def __init__(self, owner, written, sensitivity, e, part=None, closed=False):
        self.owner, self.written, self.sensitivity, self.e, self.part, self.closed = owner, written, sensitivity, e, part, closed

    @property
    def sent(self):
        """The program as it is sent, in one line."""
        return self.written.sent.decode().replace("\r", " ").replace("\n", " ")

    @property
    def charge(self):
        """In millionths; of a part the most that it can be."""
        return ceil(self.sensitivity * self.e)

    def line(self):
        of = f"askpart {self.owner} {' '.join(self.part)}" if self.part else f"ask {self.owner}"
        return f"{of} {explain.in_units(self.e)} {f'({self.sent})' if self.closed else self.sent}"


class Forgotten:
    """An ask of an earlier session: its owner and EPS, and its program and part where these are known."""

    def __init__(self, owner, e, sent=None, part=None):
        self.owner, self.e, self.sent, self.part = owner, e, sent, part


class View:
    """CLOSED: a line may be cut, and what came of it count as a line. So programs go in parentheses, of which no beginning is a program."""

    def __init__(self, catalog, owner, closed=False):
        self.catalog, self.entry, self.closed, self.known = catalog, owner, closed, {}

    @property
    def name(self):
        return self.entry["name"]

    @property
    def person(self):
        """How many rows a person may have in the owner's tables together, by which epsilon for a person is reckoned; nothing where that isn't said."""
        return public.rows_of_person(self.entry["tables"])

    def named(self, what, name, entries):
        found = next((entry for entry in entries if entry["name"] == name), None)
        if found is None:
            names_of = [entry["name"] for entry in entries]
            raise faults.Refused(f"{self.name} has no {what} `{name}`: {faults.known(name, names_of, 'it has')}")
        return found

    def table(self, name):
        return self.named("table", name, self.entry["tables"])

    def partition(self, name):
        return self.named("partition", name, self.entry["partitions"])

    def part(self, partition, key):
        """A partition and one of its keys, as an ask has them."""
        keys = self.partition(partition)["keys"]
        if key not in keys:
            raise faults.Refused(f"the partition {partition} has no key `{key}`: {faults.known(key, keys, 'it has')}")
        return partition, key

    def as_part(self, given):
        """The partition and the key of `part`."""
        if isinstance(given, (tuple, list)) and len(given) == 2 and all(isinstance(word, str) for word in given):
            return self.part(*given)
        partitions = self.entry["partitions"]
        partition = next((one for one in partitions if given in one["keys"]), partitions[0] if partitions else {"name": "PARTITION", "keys": ["KEY"]})
        key = given if given in partition["keys"] else partition["keys"][0]
        raise faults.BadCall(f'`part` is a partition and one of its keys, as part=("{partition["name"]}", "{key}"), and not {given!r}')

    def checked(self, program, partition=None):
        """A program as it is sent, and its sensitivity, over the owner's tables or those that a part shows."""
        if (program, partition) not in self.known:
            house = program_parts.House(self.catalog, self.entry, self.partition(partition) if partition else None)
            try:
                found = names.written(program, house.owner["tables"])
            except names.BadName as fault:
                raise faults.of_names(fault, program.encode()) from None
            words, said = explain.refused(house, found.sent)
            if words:
                raise faults.of_program(house, found, words, said)
            if self.closed and (words := explain.refused(house, b"(" + found.sent + b")")[0]):
                raise faults.Refused(f"no {' '.join(words)}: over a connection the program goes in parentheses, and with these it's beyond a limit.")
            self.known[program, partition] = found, said
        return self.known[program, partition]

    def ask(self, program, eps=None, charge=None, part=None):
        part = None if part is None else self.as_part(part)
        found, sensitivity = self.checked(program, part[0] if part else None)
        ask = Ask(self.name, found, sensitivity, price(sensitivity, eps, charge), part, self.closed)
        if len(ask.line().encode()) > bounds.LINE_LIMIT:
            raise faults.Refused(f"the line that asks it has over {bounds.LINE_LIMIT} bytes.")
        return ask


class Plan:
    """The asks of a statistic, and what is made of their answers; NOTE says what a forecast can't say in figures. SUMS are sums of answers that are told,
    too: pairs of a name and of how many answers there are in it."""

    def __init__(self, asks, made, note=None, sums=()):
        self.asks, self.made, self.note, self.sums = asks, made, note, sums

    def work(self, send):
        return self.made(send(self.asks))


def charge_of(asks):
    """What asks are charged together, in millionths; of parts the most that it can be."""
    of_parts = {}
    for ask in asks:
        partition, key = ask.part or (None, None)
        keys = of_parts.setdefault(partition, {})
        keys[key] = keys.get(key, 0) + ask.charge
    return sum(max(keys.values()) for keys in of_parts.values())


class Forecast:
    """Before anything is asked: the `charge` in millionths, of parts the most that it can be, and for each kind of ask its margins. `left` is what was
    left when that was told last, or nothing; the margins of `sums` are those of sums of answers, as totals; `person` is how many rows a person may have,
    or nothing."""

    def __init__(self, plan, left=None, budget=None, person=None):
        self.asks, self.note, self.sums, self.left, self.budget, self.person = plan.asks, plan.note, plan.sums, left, budget, person
        self.charge = charge_of(self.asks)

    def kinds(self):
        """Asks that differ in their part alone count as one: (ask, how many)."""
        found = {}
        for ask in self.asks:
            found.setdefault((ask.sent, ask.e), [ask, 0])[1] += 1
        return [tuple(kind) for kind in found.values()]

    def margin(self, percent=95, number=0):
        """By how much an answer is off at most, at this level; of several kinds of asks that of the kind with this number."""
        return noise.margin(self.kinds()[number][0].e, noise.level_of(percent))

    def at_most(self):
        """Whether the charge may be less: parts are charged where they have the highest cost of their partition."""
        return any(ask.part for ask in self.asks)

    def margins_of_sums(self):
        """By name: of so many answers of the first kind, by the distribution of the sum of their noises."""
        e = self.asks[0].e
        return [(name, count, {percent: noise.sum_margin([e] * count, noise.level_of(percent)) for percent in PERCENTS}) for name, count in self.sums]

    def too_much(self):
        """What is said where it takes more than what was left, or than the catalog's budget, to which the owner may have added grants."""
        most = self.budget if self.left is None else self.left
        if most is None or self.charge <= most:
            return []
        if self.left is None:
            return [f"But the budget is {units(most)}, unless the owner has granted more: it may be refused."]
        return [f"But {units(most)} is left: it {'may be' if self.at_most() else 'is'} refused."]

    def as_dict(self):
        kinds = [
            {
                "asks": count,
                "sent": ask.sent,
                "eps": explain.in_units(ask.e),
                "sensitivity": programs.sensitivity_text(ask.sensitivity),
                "charge": ask.charge,
                "part": ask.part and ask.part[0],
                "margins": {percent: noise.margin(ask.e, noise.level_of(percent)) for percent in PERCENTS},
            }
            for ask, count in self.kinds()
        ]
        sums = [{"name": name, "answers": count, "margins": margins} for name, count, margins in self.margins_of_sums()]
        told = {"charge": self.charge, "at_most": self.at_most(), "left": self.left, "too_much": bool(self.too_much())}
        if self.person is not None:
            told.update(person_rows=self.person, person_charge=self.charge * self.person)
        return {**told, "kinds": kinds, "sums": sums, "note": self.note}

    def __str__(self):
        most = "at most " if self.at_most() else ""
        said = [f"charge: {most}{units(self.charge)} ({len(self.asks)} {'ask' if len(self.asks) == 1 else 'asks'})"]
        if self.person is not None:
            said.append(f"epsilon for a person, who has at most {rows_said(self.person)}: {most}{units(self.charge * self.person)}")
        for ask, count in self.kinds():
            margins = {percent: noise.margin(ask.e, noise.level_of(percent)) for percent in PERCENTS}
            sensitivity = programs.sensitivity_text(ask.sensitivity)
            times = f"{count} times " if count > 1 else ""
            charge = f"{units(ask.charge)}{for_person(ask.charge, self.person)}"
            said.append(f"{times}EPS {explain.in_units(ask.e)}, sensitivity {sensitivity}, charge {charge}: {told(margins)}")
        said += [f"{name}, of {count} answers: {told(margins)}" for name, count, margins in self.margins_of_sums()]
        return "\n".join(said + ([self.note] if self.note else []) + self.too_much())

    __repr__ = __str__

    def _repr_html_(self):
        return lines_html(self)


def told(margins):
    return ", ".join(f"{percent} of 100 ±{margin}" for percent, margin in margins.items())
