#!/usr/bin/env python3
"""Catalogs read once more: what one holds, or its first fault and where that is.

    catalog.py FILE..       a line for each file: `ok`, or the fault's kind, member and place
    catalog.py --check      catalogs worked by hand
    read(BYTES)             the catalog as dictionaries and lists; BadCatalog, with `kind`, `member` and `at`, else
    census(..)              the bytes of a catalog with one owner

It shares nothing with the server but the rules. A catalog is a JSON object. Each of its objects has exactly the members of
its kind, in any order, but for an owner's `limits`, which may be left out; of a member that stands twice the last one counts. The first fault counts: an object's kind, then
the first member that is missing, then the first that is unknown in the order of their bytes, then the members one after
another, each whole; a list's count, then its items one after another, and an item that is right by itself may repeat one
before it. `at` is the number of the owner, of the item in it, and of the item in that; 0 where there is none.
"""
import json
import re
import sys

from bounds import ANALYSTS, COLUMN_LIMIT, FILE_NAME_BYTES, KEY_BYTES, KEYS, MOST_BUDGET, MOST_CAPACITY, NAME_BYTES, OWNERS, PARTITION_LIMIT, TABLES
from programs import WORDS

NESTS = 127
NAME = re.compile(f"[A-Za-z_][A-Za-z0-9_]{{0,{NAME_BYTES - 1}}}")
ESCAPE = re.compile(r"\\(?:u([0-9a-fA-F]{4})|.)", re.S)


class BadCatalog(Exception):
    """`path` has the lists, each with the number of an item, in which the fault stands, the outermost first."""

    def __init__(self, kind, member="", at=(0, 0, 0)):
        super().__init__(kind, member, at)
        self.kind, self.member, self.at, self.path = kind, member, at, []


# JSON, as the server's crate takes it.


class Other:
    """A number that is no whole one from 0 to 2^64 - 1."""


def whole(digits):
    # Of a number too large for a float the conversion fails.
    if digits.startswith("-") or int(digits) >= 2**64:
        return finite(digits)
    return int(digits)


def finite(digits):
    if float(digits) in (float("inf"), float("-inf")):
        raise ValueError(digits)
    return Other()


def no_constant(word):
    raise ValueError(word)


def surrogates_pair(text):
    """Whether each escape of a first half of a pair has one of a second half right after it, and no second half stands alone."""
    wanted = None
    for escape in ESCAPE.finditer(text):
        code = int(escape[1], 16) if escape[1] else 0
        second = 0xDC00 <= code < 0xE000
        if second != (wanted == escape.start()) or (wanted is not None and not second):
            return False
        wanted = escape.end() if 0xD800 <= code < 0xDC00 else None
    return wanted is None


def nests(text):
    """How deep lists and objects stand in one another, in a text that is JSON."""
    deep = most = 0
    for sign in re.findall(r'[\[{\]}]|"(?:[^"\\]|\\.)*"', text, re.S):
        deep += {"[": 1, "{": 1, "]": -1, "}": -1}.get(sign, 0)
        most = max(most, deep)
    return most


def json_value(data):
    try:
        text = data.decode("utf-8")
        value = json.loads(text, parse_int=whole, parse_float=finite, parse_constant=no_constant)
    except (ValueError, RecursionError) as fault:
        raise BadCatalog("Syntax") from fault
    if nests(text) > NESTS or not surrogates_pair(text):
        raise BadCatalog("Syntax")
    return value


# Values. Each reader takes a value, the member that it is of, and its place.


def of_kind(wanted, value, member, at):
    if type(value) is not wanted:
        raise BadCatalog("Kind", member, at)
    return value


def members(value, member, at, names, may_lack=()):
    of_kind(dict, value, member, at)
    for name in names:
        if name not in value:
            raise BadCatalog("Missing", name, at)
    for name in sorted(value):
        if name not in names and name not in may_lack:
            raise BadCatalog("Unknown", member, at)
    return value


def text(value, member, at, fits):
    if not fits(of_kind(str, value, member, at)):
        raise BadCatalog("Form", member, at)
    return value


def number(value, member, at, least, most):
    if not least <= of_kind(int, value, member, at) <= most:
        raise BadCatalog("Range", member, at)
    return value


def items(value, member, at, count, level, item, name=lambda found: found):
    """A list whose items' numbers stand at this level of the place, each of another name."""
    if len(of_kind(list, value, member, at)) not in count:
        raise BadCatalog("Count", member, at)
    found, names = [], set()
    for order, one in enumerate(value):
        there = (*at[:level], order, *at[level + 1 :])
        try:
            found.append(item(one, member, there))
            names.add(name(found[-1]))
            if len(names) < len(found):
                raise BadCatalog("Double", member, there)
        except BadCatalog as fault:
            fault.path.insert(0, (member, order))
            raise
    return found


def by_name(found):
    return found["name"]


def is_name(word):
    return NAME.fullmatch(word) is not None


def is_table_name(word):
    return is_name(word) and word not in WORDS


def is_file(word):
    return 1 <= len(word.encode()) <= FILE_NAME_BYTES and all(letter >= " " for letter in word)


def is_key(word):
    return 1 <= len(word.encode()) <= KEY_BYTES and all(letter > " " and letter != "\x7f" for letter in word)


# Objects.


def column(value, member, at):
    found = members(value, member, at, ["name", "type"])
    text(found["name"], "name", at, is_name)
    text(found["type"], "type", at, lambda word: word in ("num", "text"))
    return found


def table(value, member, at):
    found = members(value, member, at, ["name", "file", "columns"])
    text(found["name"], "name", at, is_table_name)
    text(found["file"], "file", at, is_file)
    items(found["columns"], "columns", at, range(1, COLUMN_LIMIT + 1), 2, column, by_name)
    return found


def chosen(value, member, at, offered):
    """One of what is offered, by its name."""
    of_kind(str, value, member, at)
    for one in offered:
        if one["name"] == value:
            return one
    raise BadCatalog("NoSuch", member, at)


def partition(value, member, at, tables):
    found = members(value, member, at, ["name", "table", "column", "keys"])
    text(found["name"], "name", at, is_name)
    of = chosen(found["table"], "table", at, tables)
    chosen(found["column"], "column", at, [one for one in of["columns"] if one["type"] == "text"])
    items(found["keys"], "keys", at, range(1, KEYS + 1), 2, lambda one, member, at: text(one, member, at, is_key))
    return found


def limit(value, member, at, analysts):
    found = members(value, member, at, ["analyst", "budget"])
    if of_kind(str, found["analyst"], "analyst", at) not in analysts:
        raise BadCatalog("NoSuch", "analyst", at)
    number(found["budget"], "budget", at, 1, MOST_BUDGET)
    return found


def owner_of(value, member, at, analysts):
    found = members(value, member, at, ["name", "budget", "capacity", "tables", "partitions"], may_lack=["limits"])
    text(found["name"], "name", at, is_name)
    number(found["budget"], "budget", at, 1, MOST_BUDGET)
    number(found["capacity"], "capacity", at, 2, MOST_CAPACITY)
    items(found["tables"], "tables", at, range(1, TABLES + 1), 1, table, by_name)
    items(found["partitions"], "partitions", at, range(PARTITION_LIMIT + 1), 1, lambda *one: partition(*one, found["tables"]), by_name)
    if "limits" in found:
        items(found["limits"], "limits", at, range(ANALYSTS + 1), 1, lambda *one: limit(*one, analysts), lambda one: one["analyst"])
    return found


def limits(owner):
    """The limits that an owner has, by the names of their analysts."""
    return {one["analyst"]: one["budget"] for one in owner.get("limits", ())}


def read(data):
    found = members(json_value(data), "", (0, 0, 0), ["analysts", "owners"])
    items(found["analysts"], "analysts", (0, 0, 0), range(1, ANALYSTS + 1), 1, lambda one, member, at: text(one, member, at, is_name))
    items(found["owners"], "owners", (0, 0, 0), range(1, OWNERS + 1), 0, lambda *one: owner_of(*one, found["analysts"]), by_name)
    return found


def said(data):
    try:
        read(data)
        return "ok"
    except BadCatalog as fault:
        return " ".join([fault.kind, fault.member or "catalog", *map(str, fault.at)])


# Catalogs of one owner.


def owner(
    name="census", tables=(("people", "people.csv", (("age", "num"),)),), budget=10_000_000, capacity=100, partitions=(), limits=None
):
    made = {
        "name": name,
        "budget": budget,
        "capacity": capacity,
        "tables": [
            {"name": table, "file": file, "columns": [{"name": column, "type": kind} for column, kind in columns]}
            for table, file, columns in tables
        ],
        "partitions": [
            {"name": partition, "table": table, "column": column, "keys": list(keys)} for partition, table, column, keys in partitions
        ],
    }
    if limits is not None:
        made["limits"] = [{"analyst": analyst, "budget": most} for analyst, most in limits.items()]
    return made


def catalog(*owners, analysts=("ann", "bob")):
    return json.dumps({"analysts": list(analysts), "owners": list(owners)}).encode()


def census(file="people.csv", columns=(("age", "num"),)):
    return catalog(owner(tables=(("people", file, columns),)))


# Checks.


def changed(path, value):
    """A catalog of two columns and a partition, and of two limits where the path goes there, with the value at this path put in place of
    what is there, or None: without it."""
    made = json.loads(
        catalog(
            owner(
                tables=(("people", "people.csv", (("town", "text"), ("age", "num"))),),
                partitions=(("area", "people", "town", ("A", "B")),),
                limits={"ann": 1_000_000, "bob": 2_000_000} if "limits" in path else None,
            )
        )
    )
    inside = made
    for step in path[:-1]:
        inside = inside[step]
    if value is None:
        del inside[path[-1]]
    else:
        inside[path[-1]] = value
    return json.dumps(made).encode()


OWNER = ("owners", 0)
TABLE = (*OWNER, "tables", 0)
PARTITION = (*OWNER, "partitions", 0)
LIMIT = (*OWNER, "limits", 1)
KNOWN = [
    (("analysts",), [f"a{number}" for number in range(64)], "ok"),
    (("analysts",), [f"a{number}" for number in range(65)], "Count analysts 0 0 0"),
    (("analysts",), [], "Count analysts 0 0 0"),
    (("analysts",), "ann", "Kind analysts 0 0 0"),
    (("analysts",), ["ann", "b b"], "Form analysts 0 1 0"),
    (("analysts",), ["ann", "bob", "ann"], "Double analysts 0 2 0"),
    (("analysts",), ["fun", "ann"], "ok"),
    (("analysts",), None, "Missing analysts 0 0 0"),
    (("more",), 1, "Unknown catalog 0 0 0"),
    (OWNER, 7, "Kind owners 0 0 0"),
    ((*OWNER, "name"), "n" * 32, "ok"),
    ((*OWNER, "name"), "n" * 33, "Form name 0 0 0"),
    ((*OWNER, "name"), "1n", "Form name 0 0 0"),
    ((*OWNER, "name"), None, "Missing name 0 0 0"),
    ((*OWNER, "budget"), 0, "Range budget 0 0 0"),
    ((*OWNER, "budget"), 10**18, "ok"),
    ((*OWNER, "budget"), 10**18 + 1, "Range budget 0 0 0"),
    ((*OWNER, "budget"), 2**64 - 1, "Range budget 0 0 0"),
    ((*OWNER, "budget"), 2**64, "Kind budget 0 0 0"),
    ((*OWNER, "budget"), -1, "Kind budget 0 0 0"),
    ((*OWNER, "budget"), 1.0, "Kind budget 0 0 0"),
    ((*OWNER, "budget"), True, "Kind budget 0 0 0"),
    ((*OWNER, "capacity"), 1, "Range capacity 0 0 0"),
    ((*OWNER, "capacity"), 2, "ok"),
    ((*OWNER, "capacity"), 262_144, "ok"),
    ((*OWNER, "capacity"), 262_145, "Range capacity 0 0 0"),
    ((*OWNER, "tables"), [], "Count tables 0 0 0"),
    ((*TABLE, "name"), "fun", "Form name 0 0 0"),
    ((*TABLE, "name"), "persons", "NoSuch table 0 0 0"),
    ((*TABLE, "file"), "", "Form file 0 0 0"),
    ((*TABLE, "file"), "\x7f" + 127 * "é", "ok"),
    ((*TABLE, "file"), 128 * "é", "Form file 0 0 0"),
    ((*TABLE, "file"), "a\nb", "Form file 0 0 0"),
    ((*TABLE, "columns", 1, "type"), "number", "Form type 0 0 1"),
    ((*TABLE, "columns", 1, "name"), "town", "Double columns 0 0 1"),
    ((*TABLE, "columns", 1, "name"), "text", "ok"),
    ((*PARTITION, "column"), "age", "NoSuch column 0 0 0"),
    ((*PARTITION, "column"), "city", "NoSuch column 0 0 0"),
    ((*PARTITION, "keys"), [], "Count keys 0 0 0"),
    ((*PARTITION, "keys"), [f"k{number}" for number in range(4000)], "ok"),
    ((*PARTITION, "keys"), [f"k{number}" for number in range(4001)], "Count keys 0 0 0"),
    ((*PARTITION, "keys"), [*(f"k{number}" for number in range(3999)), "k0"], "Double keys 0 0 3999"),
    ((*PARTITION, "keys"), ["A", "A"], "Double keys 0 0 1"),
    ((*PARTITION, "keys"), ["A", "a b"], "Form keys 0 0 1"),
    ((*PARTITION, "keys"), ["é" * 32], "ok"),
    ((*PARTITION, "keys"), ["é" * 32 + "a"], "Form keys 0 0 0"),
    ((*PARTITION, "keys"), ["\x7f"], "Form keys 0 0 0"),
    ((*OWNER, "partitions"), [], "ok"),
    ((*OWNER, "partitions"), None, "Missing partitions 0 0 0"),
    ((*OWNER, "limits"), None, "ok"),
    ((*OWNER, "limits"), [], "ok"),
    ((*OWNER, "limits"), {}, "Kind limits 0 0 0"),
    ((*OWNER, "limits"), 64 * [7], "Kind limits 0 0 0"),
    ((*OWNER, "limits"), 65 * [7], "Count limits 0 0 0"),
    (LIMIT, [], "Kind limits 0 1 0"),
    (LIMIT, {"analyst": "ann", "budget": 1}, "Double limits 0 1 0"),
    (LIMIT, {"analyst": "bob"}, "Missing budget 0 1 0"),
    (LIMIT, {"budget": 1, "more": 1}, "Missing analyst 0 1 0"),
    ((*LIMIT, "more"), 1, "Unknown limits 0 1 0"),
    ((*LIMIT, "analyst"), 7, "Kind analyst 0 1 0"),
    ((*LIMIT, "analyst"), "eve", "NoSuch analyst 0 1 0"),
    ((*LIMIT, "analyst"), "Bob", "NoSuch analyst 0 1 0"),
    ((*LIMIT, "budget"), "1", "Kind budget 0 1 0"),
    ((*LIMIT, "budget"), 0, "Range budget 0 1 0"),
    ((*LIMIT, "budget"), 1, "ok"),
    ((*LIMIT, "budget"), 10**18, "ok"),
    ((*LIMIT, "budget"), 10**18 + 1, "Range budget 0 1 0"),
]
NO_JSON = [
    b"", b" ", b"{", b"[1,]", b"{}{}", b"\xef\xbb\xbf{}", b"\xff", b'"\xed\xa0\x80"', b'"\\ud800"', b'"\\udc00"', b'"\\ud800\\u0041"',
    b'"a\nb"', b"NaN", b"-Infinity", b"01", b"+1", b"1.", b".5", b"1e999", b"-1e999", b"1" * 400, b"[" * 128 + b"]" * 128, b"[" * 100_000,
]  # fmt: skip
JSON = [b"1", b"-0", b"1e-999", b"0e999", b'"\\ud83d\\ude00"', b'"\\\\ud800"', b"[" * 127 + b"]" * 127, b" \t\r\n[]\n", b"1" * 300]


def check():
    for path, value, want in KNOWN:
        assert said(changed(path, value)) == want, (path, value, said(changed(path, value)), want)
    for data in NO_JSON:
        assert said(data) == "Syntax catalog 0 0 0", (data[:40], said(data))
    for data in JSON:
        assert said(data) == "Kind catalog 0 0 0", (data[:40], said(data))
    # Of a member that stands twice the last one counts, and what is in the first isn't looked at.
    twice = census().replace(b'"analysts"', b'"analysts": 7, "analysts"')
    assert said(twice) == "ok" and said(census().replace(b'"owners"', b'"analysts": 7, "owners"')) == "Kind analysts 0 0 0"
    assert said(catalog(owner(), owner())) == "Double owners 1 0 0"
    assert said(catalog(*[owner(name=f"o{number}") for number in range(64)])) == "ok"
    assert said(catalog(*[owner(name=f"o{number}") for number in range(65)])) == "Count owners 0 0 0"
    print("all as known")


def main():
    if sys.argv[1:] == ["--check"]:
        check()
        return
    for name in sys.argv[1:]:
        with open(name, "rb") as file:
            print(name, said(file.read()))


if __name__ == "__main__":
    main()
