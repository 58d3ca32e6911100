"""Derivations with a random change, for the comparisons beside.

    changed(RNG, DATA)    the name of a change, and the bytes of a derivation with it
    CHANGES               each change with what may be said of it where the derivation is a least one
"""
import re
from fractions import Fraction

NUMBER = re.compile(rb"(?<=[a-zA-Z0-9_] )(inf|\d+(?:/\d+)?)(?=\n| \|)")
NAME = re.compile(rb"(?<=\| )\w+")
ARROW = re.compile(rb"\(!\[inf\] (\w+) -o (\w+)\)")
AMOUNTS = [b"1", b"2", b"3", b"1/2", b"3/2", b"2/3", b"100", b"65536", b"4294967295", b"1/4294967295", b"4294967296", b"0", b"inf", b"4/6", b"01"]
NAMES = [b"people", b"stays", b"x", b"y", b"z", b"a", b"b", b"c", b"size2", b"_", b"n" * 32, b"n" * 33, b"num", b"Age", b"inn", b"x1"]
TYPES = [b"num", b"text", b"unit", b"bool", b"(num * num)", b"bag num", b"(num -o num)", b"(num -> num)", b"![2] num", b"(num & num)", b"bag bag num", b"nom", b""]
BEHIND = [b"\n", b" ", b"x", b"num\n", b"\0", b"num | people 1\n", b"\r", b"\r\n", b"|"]


def one_of(rng, found):
    return rng.choice(found) if found else None


def put(data, found, other):
    return data if found is None else data[: found.start()] + other + data[found.end() :]


def times(amount, factor):
    """A number that is so many times as great, in any terms."""
    if amount == b"inf":
        return b"4294967295" if factor < 1 else b"inf"
    value = Fraction(amount.decode()) * factor
    return f"{value.numerator}/{value.denominator}".encode() if value.denominator > 1 else str(value.numerator).encode()


def less(rng, data):
    found = one_of(rng, list(NUMBER.finditer(data)))
    return put(data, found, times(found[0], rng.choice([Fraction(1, 2), Fraction(2, 3), Fraction(65535, 65536)]))) if found else data


def more(rng, data):
    found = one_of(rng, list(NUMBER.finditer(data)))
    return put(data, found, rng.choice([times(found[0], Fraction(3, 2)), times(found[0], 2), b"inf"])) if found else data


def all_more(rng, data):
    """Every number, from a line on or in all, is made greater alike: so a sum stays right."""
    factor, from_on = rng.choice([2, 3, Fraction(3, 2)]), rng.choice([0, 0, rng.randrange(len(data))])
    return NUMBER.sub(lambda found: times(found[0], factor) if found.start() >= from_on else found[0], data)


def another_number(rng, data):
    return put(data, one_of(rng, list(NUMBER.finditer(data))), rng.choice(AMOUNTS))


def lines_changed(change):
    def made(rng, data):
        lines = data.split(b"\n")[:-1]
        change(rng, lines)
        return b"".join(line + b"\n" for line in lines)

    return made


def exchange(rng, lines):
    a, b = rng.randrange(len(lines)), rng.randrange(len(lines))
    lines[a], lines[b] = lines[b], lines[a]


def drop(rng, lines):
    del lines[rng.randrange(len(lines))]


def double(rng, lines):
    place = rng.randrange(len(lines))
    lines.insert(place, lines[place])


def another_line(rng, lines):
    lines[rng.randrange(len(lines))] = rng.choice(lines)


def says_more(rng, lines):
    """A line says one name more, in order or not."""
    place = rng.randrange(len(lines)) if rng.random() < 0.7 else 0
    first, *says = lines[place].split(b" | ")
    says.insert(rng.randint(0, len(says)), rng.choice(NAMES) + b" " + rng.choice(AMOUNTS))
    if rng.random() < 0.8:
        says = [said for at, said in enumerate(sorted(says)) if at == 0 or sorted(says)[at - 1].split()[0] != said.split()[0]]
    lines[place] = b" | ".join([first, *says])


def says_less(rng, lines):
    place = one_of(rng, [place for place, line in enumerate(lines) if b"|" in line])
    if place is not None:
        first, *says = lines[place].split(b" | ")
        del says[rng.randrange(len(says))]
        lines[place] = b" | ".join([first, *says])


def another_type(rng, lines):
    place = rng.randrange(len(lines))
    lines[place] = b" | ".join([rng.choice(TYPES), *lines[place].split(b" | ")[1:]])


def renamed(rng, data):
    return put(data, one_of(rng, list(NAME.finditer(data))), rng.choice(NAMES))


def flipped(rng, data):
    made = bytearray(data)
    for _ in range(rng.choice([1, 1, 2, 3])):
        place = rng.randrange(len(made))
        made[place : place + rng.choice([0, 1, 1])] = rng.choice([bytes([rng.randrange(256)]), rng.choice([b" ", b"(", b")", b"|", b"1", b"a", b"\n", b"-", b"!", b""])])
    return bytes(made)


def behind(rng, data):
    return data + rng.choice(BEHIND)


def cut(rng, data):
    return data[: rng.randrange(len(data))]


def other_words(rng, data):
    """The same types and numbers in other words."""
    ways = [
        lambda data: data.replace(b"(unit + unit)", b"bool"),
        lambda data: ARROW.sub(rb"(\1 -> \2)", data),
        lambda data: re.sub(rb"\bnum\b", lambda found: rng.choice([b"num", b"(num)", b" num\t", b"((num))"]), data),
        lambda data: data.replace(b" | ", rng.choice([b"|", b"\t|  ", b" \r| "])),
        lambda data: data.replace(b"\n", b"\r\n"),
        lambda data: re.sub(rb"(?m)^\((.*)\)(?= \||$)", lambda found: found[1] if balanced(found[1]) else found[0], data),
        lambda data: NUMBER.sub(lambda found: b"00" + found[0] if found[0] != b"inf" else found[0], data),
        lambda data: re.sub(rb"(?<=[a-zA-Z0-9_] )(\d+)(?=\n| \|)", rb"\1/1", data),
        lambda data: re.sub(rb"!\[(\d+)\] ", lambda found: b"! [ %d / 2 ]" % (2 * int(found[1])) if int(found[1]) < 2**31 else found[0], data),
    ]  # fmt: skip
    for way in rng.sample(ways, rng.choice([1, 2, 3])):
        data = way(data)
    return data


def balanced(text):
    """Whether the parentheses that a text stood in belong together."""
    deep = 0
    for sign in text:
        deep += {40: 1, 41: -1}.get(sign, 0)
        if deep < 0:
            return False
    return True


MADE = {
    "a number less": less, "a number greater": more, "all numbers greater": all_more, "another number": another_number,
    "lines exchanged": lines_changed(exchange), "a line dropped": lines_changed(drop), "a line doubled": lines_changed(double),
    "another line": lines_changed(another_line), "a name more": lines_changed(says_more), "a name less": lines_changed(says_less),
    "another type": lines_changed(another_type), "a name renamed": renamed, "bytes flipped": flipped, "bytes behind": behind, "cut": cut, "other words": other_words,
}  # fmt: skip
# Those of a least derivation to which nobody says yes, and those to which nobody says no.
NO_YES = {"a line dropped", "a line doubled", "bytes behind", "cut", "lines exchanged", "a number less", "a name less", "a name renamed"}
NO_NO = {"other words"}
CHANGES = [f"{name}: {said}" for name in MADE for said, none in (("yes", NO_YES), ("no", NO_NO)) if name not in none]


def changed(rng, data):
    name = rng.choice(list(MADE))
    made = MADE[name](rng, data)
    # Where there is nothing to be changed so.
    while made == data and name not in ("all numbers greater", "other words"):
        name = rng.choice(list(MADE))
        made = MADE[name](rng, data)
    return name, made
