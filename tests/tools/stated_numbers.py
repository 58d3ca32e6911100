#!/usr/bin/env python3
"""Compares the numbers that definitions state (crates/*/specs) with those of tools/lib/bounds.py, and with those of the pages.

usage: tests/tools/stated_numbers.py
A number of DEFINITIONS is found by what stands around it in a crate's specs; each such place must have the same one. A sentence of PAGES has numbers
where `#` stands, which are those named with it, in this order. Python has each number once: no other module of tools/, tools/lib/ or the client gives a
value to a name of bounds.py, but for tools/door and tools/judge.py, each of which stands alone as one file: their own are compared. It ends with status 1 where one differs, isn't
found, or is left out here.
"""
import ast
import glob
import os
import re
import sys

sys.path.insert(0, f"{os.path.dirname(os.path.abspath(__file__))}/../lib")
from places import TOP  # noqa: E402
import bounds  # noqa: E402

# What a definition is called, or what stands around its number.
DEFINITIONS = {
    "NUMBER_LIMIT": [("fz_ast", "greatest_number")], "HALF": [("fz_frac", "widest")],
    "NAME_BYTES": [("fz_ast", "IsName x = length x ≤ #"), ("owner_catalog", "name_limit"), ("wire_lines", "NAME_LIMIT")],
    "TEXT_LIMIT": [("fz_ast", "IsText s = length s ≤ #"), ("fz_lexer", "length inner ≤ #")],
    "PROGRAM_LIMIT": [("fz_lexer", "most_bytes")], "TOKEN_LIMIT": [("fz_lexer", "most_tokens")],
    "NEST_LIMIT": [("fz_parser", "deepest")], "DEPTH_LIMIT": [("row_functions", "depth_limit")], "TURN_LIMIT": [("shape_law", "turn_limit")],
    "WIDTH_LIMIT": [("shape_law", "width_limit")], "WALK_LIMIT": [("shape_law", "walk_limit")], "REACH_LIMIT": [("shape_law", "reach_limit")],
    "ANALYSTS": [("budget_core", "analyst_limit")], "OWNERS": [("owner_catalog", "owner_limit")], "TABLES": [("owner_catalog", "table_limit")],
    "COLUMN_LIMIT": [("table_store", "most_columns")], "PARTITION_LIMIT": [("partition_charge", "partition_limit")],
    "KEYS": [("partition_charge", "part_limit")], "KEY_BYTES": [("owner_catalog", "key_limit")],
    "FILE_NAME_BYTES": [("owner_catalog", "file_name_limit")], "MOST_BUDGET": [("budget_core", "budget_limit")],
    "MOST_CAPACITY": [("budget_core", "capacity_limit")],
    "FILE_LIMIT": [("fz_outside", "length read.items ≤ #"), ("fz_outside", "length bytes ≤ #"), ("fz_outside", "# < length bytes")],
    "ROW_LIMIT": [("table_store", "most_rows")], "SCRIPT_LIMIT": [("query_server", "script_limit"), ("session_serve", "session_limit")],
    "LINE_LIMIT": [("wire_lines", "line_limit")], "MOST_EPS": [("journal_records", "epsilon_limit")], "DRAW_LIMIT": [("exact_bernoulli", "draw_limit")],
    "WORKERS": [("worker_pool", "worker_limit")], "AMOUNT_LIMIT": [("command_words", "greatest_amount")],
    "PORT_LIMIT": [("command_words", "greatest_port")], "EACH_LIMIT": [("command_words", "greatest_each")],
    "SEED_LIMIT": [("command_words", "greatest_seed")], "ASKS_LIMIT": [("command_words", "greatest_asks")],
}  # fmt: skip
PAGES = [
    ("docs/reference.md", "of at most # bytes; a program has at most # |", "FILE_LIMIT PROGRAM_LIMIT"),
    ("docs/reference.md", "| from 1 to #; 1 unless given |", "WORKERS"),
    ("docs/reference.md", "| P | from 1 to # |", "PORT_LIMIT"),
    ("docs/reference.md", "of `serve` from 1 to #, of `gen` from 1 to # |", "EACH_LIMIT ASKS_LIMIT"),
    ("docs/reference.md", "| millionths of epsilon, from 1 to # |", "AMOUNT_LIMIT"),
    ("docs/reference.md", "| SEED | from 0 to # |", "SEED_LIMIT"),
    ("docs/reference.md", "a script of at most # bytes", "SCRIPT_LIMIT"),
    ("docs/reference.md", "A JSON object of at most # bytes", "FILE_LIMIT"),
    ("docs/reference.md", "`analysts`: 1 to # names; `owners`: 1 to # objects", "ANALYSTS OWNERS"),
    ("docs/reference.md", "`budget`: 1 to # millionths of epsilon; `capacity`: 2 to # records", "MOST_BUDGET MOST_CAPACITY"),
    ("docs/reference.md", "`tables`: 1 to # objects; `partitions`: 0 to # objects", "TABLES PARTITION_LIMIT"),
    ("docs/reference.md", "`file`: 1 to # bytes without control bytes (0x7F may stand); `columns`: 1 to # objects", "FILE_NAME_BYTES COLUMN_LIMIT"),
    ("docs/reference.md", "`keys`: 1 to # texts of 1 to # bytes", "KEYS KEY_BYTES"),
    ("docs/reference.md", "then letters, digits and `_`, at most # bytes", "NAME_BYTES"),
    ("docs/reference.md", "A CSV file of at most # bytes, with a header of the columns' names in the catalog's order, and at most # rows", "FILE_LIMIT ROW_LIMIT"),
    ("docs/reference.md", "is a whole number from -# to #:", "NUMBER_LIMIT NUMBER_LIMIT"),
    ("docs/reference.md", "A cell of a `text` column is any bytes, at most #.", "TEXT_LIMIT"),
    ("docs/reference.md", "`no 11` | the line has over # bytes", "LINE_LIMIT"),
    ("docs/reference.md", "no token begins, or it has over # bytes or # tokens", "PROGRAM_LIMIT TOKEN_LIMIT"),
    ("docs/reference.md", "the term is D deep, over # |", "NEST_LIMIT"),
    ("docs/reference.md", "in lowest terms a part of it is over # |", "HALF"),
    ("docs/reference.md", "would be at depth 129, over # |", "DEPTH_LIMIT"),
    ("docs/reference.md", "its visit would be turn 20,001, over # |", "TURN_LIMIT"),
    ("docs/reference.md", "the union there is W tables wide, over # |", "WIDTH_LIMIT"),
    ("docs/reference.md", "the noise of reservation N took over # draws", "DRAW_LIMIT"),
    ("docs/reference.md", "the script has over # bytes", "SCRIPT_LIMIT"),
    ("docs/reference.md", "the budget with a grant would be over #; it is BUDGET", "MOST_BUDGET"),
    ("docs/language.md", "A program has at most # bytes and # tokens", "PROGRAM_LIMIT TOKEN_LIMIT"),
    ("docs/language.md", "digits and `_` (ASCII), at most # bytes, and no reserved word", "NAME_BYTES"),
    ("docs/language.md", "digits, at most # = #; leading zeros pass", "NUMBER_LIMIT NUMBER_LIMIT"),
    ("docs/language.md", "`\"`, up to # bytes from 0x20", "TEXT_LIMIT"),
    ("docs/language.md", "After that a term is at most # deep", "NEST_LIMIT"),
    ("docs/language.md", "each from 1 to #\n", "HALF"),
    ("docs/language.md", "| depth # | a term is visited at depth 129", "DEPTH_LIMIT"),
    ("docs/language.md", "| # turns | a term is visited by turn 20,001", "TURN_LIMIT"),
    ("docs/language.md", "| width # | a `union`, its parts done, is over # wide", "WIDTH_LIMIT WIDTH_LIMIT"),
    ("docs/language.md", "the functions of a bag would take # walks", "WALK_LIMIT"),
    ("docs/language.md", "would be evaluated over # levels deep", "REACH_LIMIT"),
    ("README.md", "from at most # draws", "DRAW_LIMIT"),
]  # fmt: skip
# Each is one file of Python's standard library: the one runs under an ssh key, the other is read by auditors.
ALONE = ("tools/door", "tools/judge.py")
POWER = r"\d[\d,]*(?: ?\^ ?\d+)?(?: ?- ?1\b)?"
differences = 0


def differ(text):
    global differences
    differences += 1
    print(text)


def text_of(name):
    with open(f"{TOP}/{name}") as file:
        return file.read()


def value(text):
    """The number that a text is: digits, perhaps with commas, a power, and one less of it."""
    number, less, _ = re.sub(r"[ ,_]", "", text).partition("-1")
    base, _, exponent = number.partition("^")
    return int(base) ** int(exponent or 1) - len(less) // 2


def numbers_at(text, pattern):
    """All numbers that stand for `#` where the pattern is found, of each place a tuple."""
    found = re.escape(pattern).replace(r"\ ", r"\s+").replace(r"\#", "#").replace("#", f"({POWER})")
    return [tuple(map(value, one.groups())) for one in re.finditer(found, text)]


def definitions():
    for name, places in DEFINITIONS.items():
        for crate, what in places:
            text = "\n".join(text_of(place) for place in sorted(glob.glob(f"crates/{crate}/specs/**/*.antt", root_dir=TOP, recursive=True)))
            if "#" in what:
                found = {numbers[0] for numbers in numbers_at(text, what)}
            else:
                found = {value(one) for one in re.findall(rf"^{what} = (?:pos \()?({POWER})\)?$", text, re.M)}
            if found != {getattr(bounds, name)}:
                differ(f"{name} is {getattr(bounds, name)}, and by `{what}` of {crate}/specs {sorted(found)}")
    for name in stated():
        if name not in DEFINITIONS:
            differ(f"{name} isn't compared with any definition")


def pages():
    for name, sentence, of in PAGES:
        wanted = tuple(getattr(bounds, one) for one in of.split())
        found = numbers_at(text_of(name), sentence)
        if not found or set(found) != {wanted}:
            differ(f"{name}: `{sentence}` has {found}, wanted {wanted}")


def stated():
    return [name for name in vars(bounds) if name.isupper()]


def own_numbers(name):
    """A file's own numbers, by name: each must be that of bounds.py."""
    for one in ast.parse(text_of(name)).body:
        if isinstance(one, ast.Assign) and isinstance(one.targets[0], ast.Tuple) and isinstance(one.value, ast.Tuple):
            for target, number in zip(one.targets[0].elts, one.value.elts):
                if target.id in stated():
                    yield target.id, eval(compile(ast.Expression(number), name, "eval"), {})


def alone(file):
    found = dict(own_numbers(file))
    for name, number in found.items():
        if number != getattr(bounds, name):
            differ(f"{file}: {name} is {number}, and {getattr(bounds, name)} by tools/lib/bounds.py")
    used = {one.id for one in ast.walk(ast.parse(text_of(file))) if isinstance(one, ast.Name) and one.id in stated()}
    if used != set(found):
        differ(f"{file}: {sorted(used ^ set(found))} aren't compared")


def elsewhere():
    """Each name of bounds.py has its value there alone, but for what takes it from there and for what stands alone."""
    names = [*glob.glob("tools/*", root_dir=TOP), *glob.glob("tools/lib/*.py", root_dir=TOP), *glob.glob("clients/python/hitchseason/*.py", root_dir=TOP)]
    tried = 0
    for name in sorted(names):
        if name in ("tools/lib/bounds.py", *ALONE) or os.path.isdir(f"{TOP}/{name}") or not (name.endswith(".py") or "python3" in text_of(name)[:40]):
            continue
        tried += 1
        for one in ast.walk(ast.parse(text_of(name))):
            if isinstance(one, ast.Assign) and "bounds." not in ast.unparse(one.value):
                for target in ast.walk(ast.Tuple(one.targets, ast.Load())):
                    if isinstance(target, ast.Name) and target.id in stated():
                        differ(f"{name}:{one.lineno}: {target.id} has its value from tools/lib/bounds.py")
    return tried


def main():
    definitions()
    pages()
    for name in ALONE:
        alone(name)
    tried = elsewhere()
    print(f"{len(stated())} stated numbers, {len(PAGES)} sentences of pages, {tried} modules, {differences} differences")
    sys.exit(1 if differences else 0)


if __name__ == "__main__":
    main()
