#!/usr/bin/env python3
"""Compares what the program says of catalogs with what a second reader of them says (tools/lib/catalog.py, tools/lib/tables.py).

usage: tests/comparisons/compare_catalogs.py [COUNT [SEED]]     (PROGRAM=FILE compares another build than tools/build's)
COUNT random catalogs (5,000 where none is said): right ones in odd spelling, ones with a member, an item, a number, a name or a byte
changed, and lists and names at their limits, 64 and 65 owners and 4,000 and 4,001 keys among them. Each is given to `check` with the name
of an owner and a program of sensitivity 0, which says `ok 0`, or refuses the catalog, the owner or the first table's file that is absent or
isn't right. Ends with status 1 where the status or the line differs, or where a kind of fault, or a side of one of these two limits, didn't come.
"""
import json
import os
import random
import subprocess
import sys
import tempfile
from collections import Counter
from concurrent.futures import ThreadPoolExecutor

sys.path.insert(0, f"{os.path.dirname(os.path.abspath(__file__))}/../lib")
from places import TOP  # noqa: E402

PROGRAM = os.path.abspath(os.environ.get("PROGRAM", f"{TOP}/out/hitchseason"))
from beginning import begin  # noqa: E402
from catalog import KEYS, OWNERS, BadCatalog, read  # noqa: E402
from faults import walked  # noqa: E402
from programs import WORDS  # noqa: E402
from tables import BadTable, held  # noqa: E402

FILES = {
    "n.csv": (b"age\n20\n30\n", [("age", "num")]),
    "t.csv": (b'\xef\xbb\xbftown,age\r\nA,1\r\n"B ""x"", \xff",-2\r\n', [("town", "text"), ("age", "num")]),
    "e.csv": (b"age\n", [("age", "num")]),
}
KINDS = "Syntax Kind Missing Unknown Count Range Form Double NoSuch".split()
# Both sides of a limit of many items, by the member that has them.
SIDES = {"owners": (OWNERS, OWNERS + 1), "keys": (KEYS, KEYS + 1)}


class Members(list):
    """An object, as pairs: a member may stand twice."""


class Number(str):
    """A number, as it is written."""


# Right catalogs.


def name_of(rng, taken=(), reserved=True):
    while True:
        size = rng.choice([1, 2, 3, 5, 8, 31, 32])
        word = rng.choice("abcXYZ_") + "".join(rng.choice("abcXYZ_0189") for _ in range(size - 1))
        if reserved and rng.random() < 0.05:
            word = rng.choice(sorted(WORDS))
        if word not in taken and (reserved or word not in WORDS):
            return word


def names(rng, count, reserved=True):
    found = []
    for _ in range(count):
        found.append(name_of(rng, found, reserved))
    return found


def keys(rng, count):
    signs = "!#,\"\\'AZaz09~é\u00a0\u3000\U0001f600"
    found = {f"k{number}": None for number in range(count - 250)}
    while len(found) < count:
        found["".join(rng.choice(signs) for _ in range(rng.choice([1, 2, 3, 8, 16])))] = None
    return list(found)


def some(rng, most):
    return rng.choice([1, 1, 1, 2, 3, most]) if rng.random() < 0.2 else rng.randint(1, min(3, most))


def table(rng, name):
    file = rng.choice(sorted(FILES))
    columns = [Members([("name", column), ("type", kind)]) for column, kind in FILES[file][1]]
    if rng.random() < 0.03:
        file = rng.choice(["absent.csv", "n.csv/x", "é" * 127, "\x7f"])
    if rng.random() < 0.03:
        columns = [Members([("name", column), ("type", rng.choice(["num", "text"]))]) for column in names(rng, some(rng, 16))]
    return Members([("name", name), ("file", file), ("columns", columns)])


def partition(rng, name, tables):
    """Of a text column, if a table has one."""
    offered = [(table, column) for table in tables for column in dict(table)["columns"] if dict(column)["type"] == "text"]
    if not offered:
        return None
    of, column = rng.choice(offered)
    many = rng.choice(SIDES["keys"]) if rng.random() < 0.015 else rng.choice([1, 2, 5, 250])
    return Members([("name", name), ("table", dict(of)["name"]), ("column", dict(column)["name"]), ("keys", keys(rng, many))])


def limits(rng, analysts):
    """Of some of the analysts, each once; now and then none, or left out."""
    if rng.random() < 0.5:
        return []
    limited = rng.sample(analysts, rng.choice([0, 1, 1, len(analysts)]))
    many = [Members([("analyst", name), ("budget", Number(rng.choice([1, 10**18, rng.randint(1, 10**18)])))]) for name in limited]
    for made in many:
        rng.shuffle(made)
    return [("limits", many)]


def owner(rng, name, analysts):
    tables = [table(rng, name) for name in names(rng, some(rng, 8), reserved=False)]
    partitions = [partition(rng, name, tables) for name in names(rng, rng.choice([0, 0, 0, 1, 2, 8]))]
    return Members(
        [
            ("name", name),
            ("budget", Number(rng.choice([1, 10**7, 10**18, rng.randint(1, 10**18)]))),
            ("capacity", Number(rng.choice([2, 100, 262_144, rng.randint(2, 262_144)]))),
            ("tables", tables),
            ("partitions", [made for made in partitions if made is not None]),
            *limits(rng, analysts),
        ]
    )


def right(rng):
    many = rng.choice(SIDES["owners"]) if rng.random() < 0.02 else some(rng, 16)
    analysts = names(rng, some(rng, 64))
    owners = [owner(rng, name, analysts) for name in names(rng, many)]
    return Members([("analysts", analysts), ("owners", owners)])


# Changes of one value.

NUMBERS = """0 1 2 -0 -1 1.0 1e3 100E-2 0.5 999999999999999999 1000000000000000000 1000000000000000001 262144 262145 18446744073709551615
18446744073709551616 9223372036854775808 -9223372036854775809 1e308 1e309 -1e400 0e999 1e-999""".split()
TEXTS = ["", " ", "a b", "1a", "a-b", "é", "a" * 32, "a" * 33, "\x00", "\n", "\x7f", "a\x1f", "é" * 32, "é" * 33, "x" * 64, "x" * 65, "num", "text",
    "bag", "number", "Num", "n.csv", "x" * 255, "x" * 256, "ü" * 128, "\u2028", "A", "age", "people"]  # fmt: skip


def anything(rng):
    return rng.choice([
        None, True, False, [], Members(), [[]], Members([("", None)]), "", rng.choice(TEXTS), Number(rng.choice(NUMBERS)),
        [Number("1")], ["a", "b"], Members([("name", "a")]),
    ])  # fmt: skip


def places(value):
    """Each part of a value, as the list that holds it and its place there."""
    for at, part in enumerate(value):
        yield value, at
        inside = part[1] if isinstance(value, Members) else part
        if isinstance(inside, list):
            yield from places(inside)


def put(holder, at, value):
    holder[at] = (holder[at][0], value) if isinstance(holder, Members) else value


def change(rng, whole):
    holder, at = rng.choice(list(places(whole)))
    member = isinstance(holder, Members)
    inside = holder[at][1] if member else holder[at]
    ways = ["another", "another", "none", "twice", "order"]
    ways += ["unknown", "renamed", "hidden"] if member else []
    ways += ["text"] * 8 if isinstance(inside, str) and not isinstance(inside, Number) else []
    ways += ["number"] * 8 if isinstance(inside, Number) else []
    ways += ["empty", "longer", "alike"] * 2 if isinstance(inside, list) else []
    way = rng.choice(ways)
    if way in ("another", "text", "number"):
        made = {"another": lambda: anything(rng), "text": lambda: rng.choice(TEXTS), "number": lambda: Number(rng.choice(NUMBERS))}
        put(holder, at, made[way]())
    elif way == "none":
        del holder[at]
    elif way == "twice":
        holder.insert(rng.randrange(len(holder) + 1), holder[at])
    elif way == "order":
        rng.shuffle(holder)
    elif way == "unknown":
        holder.insert(at, (rng.choice(["", "more", "Name", "name ", "budget", "limits", "\x00", "\U0001f600", "\uffff"]), anything(rng)))
    elif way == "renamed":
        holder[at] = (rng.choice(["name", "file", "type", "more", "limits", "limit", "analyst"]), inside)
    elif way == "hidden":
        # The same member before, with another value: only the last counts.
        holder.insert(rng.randrange(at + 1), (holder[at][0], anything(rng)))
    elif way == "empty":
        inside.clear()
    elif inside:
        more = rng.choice([1, 3, 5, 8, 16, 64, 250])
        for _ in range(more):
            inside.append(inside[0] if way == "alike" else renamed(rng, rng.choice(inside)))


def renamed(rng, item):
    if isinstance(item, Members):
        return Members([(key, name_of(rng) if key == "name" else value) for key, value in item])
    return name_of(rng) if type(item) is str else item


# Texts.


def text_of(rng, word):
    made = json.dumps(word, ensure_ascii=rng.random() < 0.5)
    if rng.random() < 0.05:
        made = '"' + "".join(f"\\u{unit:04x}" for unit in memoryview(word.encode("utf-16-le")).cast("H")) + '"'
    return made


def written(rng, value, blank):
    if isinstance(value, Number):
        return str(value)
    if isinstance(value, str):
        return text_of(rng, value)
    if isinstance(value, Members):
        parts = [text_of(rng, key) + blank() + ":" + blank() + written(rng, inside, blank) for key, inside in value]
        return "{" + blank() + ("," + blank()).join(parts) + blank() + "}"
    if isinstance(value, list):
        return "[" + blank() + ("," + blank()).join(written(rng, inside, blank) for inside in value) + blank() + "]"
    return json.dumps(value)


def damaged(rng, data):
    at = rng.randrange(len(data))
    return rng.choice(
        [
            data[:at],
            data[:at] + data[at + 1 :],
            data[:at] + bytes([rng.choice(b'\x00\xff"\\{}[],:0a\xc3 -.e')]) + data[at + rng.randint(0, 1) :],
            b"\xef\xbb\xbf" + data,
            data + rng.choice([b" ", b"\n", b"\x00", b"{}", b",", b"\xff"]),
            data.replace(b'"', b'"\\', 1),
            data.replace(b'"', rng.choice([b'"\\ud83d', b'"\\ude00', b'"\\ud83d\\u0041', b'"\\ud83d\\ude00', b'"\xed\xa0\xbd']), 1),
            b"[" * rng.choice([126, 127, 128, 10_000]) + data,
            (lambda deep: b"[" * deep + b"]" * deep)(rng.choice([1, 126, 127, 128, 5_000])),
        ]
    )


def random_catalog(rng):
    whole = right(rng)
    for _ in range(rng.choice([0, 1, 1, 1, 1, 2])):
        if whole:
            change(rng, whole)
    blank = rng.choice([lambda: "", lambda: " ", lambda: rng.choice(["", " ", "\n", "\t", "\r\n"])])
    data = written(rng, whole, blank).encode("utf-8", "surrogatepass")
    return damaged(rng, data) if rng.random() < 0.1 else data


# The comparison.


class Room:
    def __init__(self, folder):
        self.folder = folder
        for name, (data, _) in FILES.items():
            self.file(name, data)
        self.file("seven", b"7")

    def file(self, name, data):
        with open(f"{self.folder}/{name}", "wb") as file:
            file.write(data)

    def said(self, number, data, owner):
        name = f"cat{number}.json"
        self.file(name, data)
        ran = subprocess.run([PROGRAM, "check", name, owner, "seven"], capture_output=True, cwd=self.folder)
        os.remove(f"{self.folder}/{name}")
        return ran.returncode, ran.stdout


class Absent(Exception):
    pass


def table_file(name):
    if name not in FILES:
        raise Absent
    return FILES[name][0]


def first_bad_table(catalog):
    for owner in catalog["owners"]:
        for table in owner["tables"]:
            try:
                held({"tables": [table]}, table_file)
            except (Absent, BadTable) as fault:
                return type(fault).__name__, table["file"]
    return None


def side_of(member, items):
    return f"{len(items)} {member}"


def wanted(rng, data, name, came):
    """An owner to ask for, what comes of that, the status, and the line."""
    try:
        catalog = read(data)
    except BadCatalog as fault:
        if fault.kind == "Count":
            came[side_of(fault.member, walked(json.loads(data), fault.path)[fault.member])] += 1
        return "census", fault.kind, 3, f"refused {name}\n".encode()
    came[side_of("owners", catalog["owners"])] += 1
    came.update(side_of("keys", part["keys"]) for one in catalog["owners"] for part in one["partitions"])
    owner = rng.choice(catalog["owners"])["name"]
    if rng.random() < 0.03:
        return owner + "x" * 32, "owner", 3, f"refused {owner + 'x' * 32}\n".encode()
    bad = first_bad_table(catalog)
    if bad:
        return owner, bad[0], 3, f"refused {bad[1]}\n".encode()
    return owner, "ok", 0, b"ok 0\n"


def main():
    count, seed = begin(__doc__, 5_000, 1)
    rng = random.Random(seed)
    came, sides, differences = Counter(), Counter(), 0
    with tempfile.TemporaryDirectory() as folder, ThreadPoolExecutor(2) as pool:
        room = Room(folder)
        for first in range(0, count, 200):
            numbers = range(first, min(first + 200, count))
            catalogs = [random_catalog(rng) for _ in numbers]
            asked = [wanted(rng, data, f"cat{number}.json", sides) for number, data in zip(numbers, catalogs)]
            for data, want, found in zip(catalogs, asked, pool.map(room.said, numbers, catalogs, [want[0] for want in asked])):
                came[want[1]] += 1
                if found != want[2:]:
                    differences += 1
                    print(f"{found}, wanted {want[2:]} by {want[1]}, of {data[:2000]}", flush=True)
    limits = [f"{many} {member}" for member, both in SIDES.items() for many in both]
    came.update({side: sides[side] for side in limits})
    print(f"{count} catalogs, {differences} differences: " + ", ".join(f"{kind} {many}" for kind, many in sorted(came.items())))
    lacking = [kind for kind in [*KINDS, "ok", "owner", "Absent", "BadTable", *limits] if not came[kind]]
    if lacking:
        print("none came of", ", ".join(lacking))
    sys.exit(1 if differences or lacking else 0)


main()
