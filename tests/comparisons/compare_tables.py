#!/usr/bin/env python3
"""Compares what the program makes of tables with what a second reader of them makes (tools/lib/tables.py).

usage: tests/comparisons/compare_tables.py [COUNT [SEED]]     (PROGRAM=FILE compares another build than tools/build's)
COUNT random tables (5,000 where none is said) of 1 to 4 columns of numbers and texts: right ones in odd spelling, and ones in which cells, fields,
records, names or bytes were changed, so that a good part is still a table. Each stands beside a right one with the same rows and one more, and is given
to `gap` with a program that counts rows and clips a column. It is refused, or its distance, its value and that of the other are the second reader's.
It ends with status 1 where an answer differs, where a kind of fault didn't come, or where fewer than a fifth are tables.
"""
import os
import random
import subprocess
import sys
import tempfile
from collections import Counter
from concurrent.futures import ThreadPoolExecutor

sys.path.insert(0, f"{os.path.dirname(os.path.abspath(__file__))}/../lib")
from places import TOP  # noqa: E402

PROGRAM = os.path.abspath(os.environ.get("PROGRAM", f"{TOP}/out/hitchseason"))
from beginning import begin  # noqa: E402
from catalog import catalog, owner, read  # noqa: E402
from tables import NUMBER_LIMIT, BadTable, cells, rows_of  # noqa: E402

KINDS = ("BadHeader", "BadRecord", "BadCell")
NAMES = ("age", "town", "nights", "ward")
MOST = 5
TEXTS = [b"", b"A", b"a b", b"it's", b'"', b'""', b",", b"\r\n", b"\xff\x00", b"t" * 64, "é".encode() * 32, b" A", b"'", b"#", b"1"]
BAD_TEXTS = [b"t" * 65, "é".encode() * 33]
NUMBERS = [0, 1, -1, 7, 10, NUMBER_LIMIT, -NUMBER_LIMIT]
BAD_NUMBERS = [b"", b" 1", b"1 ", b"+1", b"1.0", b"1e3", b"0x1", b"--1", b"-", b"1_0", b"1125899906842625", b"-1125899906842625", b"9" * 40, b"\xd9\xa1"]
PIECES = [b'"', b'""', b",", b"\n", b"\r", b"\r\n", b"\0", b"\xef\xbb\xbf", b" ", b"0", b"-", b"\xff", b";", b"\t"]


def number_of(rng):
    number = rng.choice(NUMBERS + [rng.randint(-99, 99)])
    return b"-" * (number < 0) + b"0" * rng.choice([0, 0, 0, 1, 9, 30]) + b"%d" % abs(number) if number or rng.random() < 0.9 else b"-0"


def field(rng, data):
    """A cell as it may be written: in quotes where it must be, and now and then where it needn't."""
    if data[:1] == b'"' or any(sign in data for sign in (b",", b"\r", b"\n")) or rng.random() < 0.2:
        return b'"' + data.replace(b'"', b'""') + b'"'
    return data


def cell(rng, kind):
    bad = rng.random() < 0.004
    return rng.choice(BAD_NUMBERS if bad else [number_of(rng)]) if kind == "num" else rng.choice(BAD_TEXTS if bad else TEXTS)


def written(rng, columns, rows):
    """The bytes of a table with this header and these rows of cells."""
    end = rng.choice([b"\n", b"\n", b"\r\n", b"\r"])
    header = b",".join(field(rng, column["name"].encode()) for column in columns)
    lines = [header] + [b",".join(field(rng, one) for one in row) for row in rows]
    # An empty line is no record; a record of one empty field is one in quotes.
    lines = [line or b'""' for line in lines]
    data = b"".join(line + end * rng.choice([1, 1, 1, 2]) for line in lines)
    if rng.random() < 0.3:
        data = data.rstrip(b"\r\n")
    return (b"\xef\xbb\xbf" if rng.random() < 0.2 else b"") + data


def changed(rng, data):
    at, way = rng.randrange(len(data) + 1), rng.randrange(7)
    if way == 0:
        return data[:at]
    if way == 1:
        return data[:at] + data[at + rng.choice([1, 1, 2, 9]) :]
    if way == 2:
        return data[:at] + rng.choice(PIECES) + data[at:]
    if way == 3:
        return data[:at] + bytes([rng.randrange(256)]) + data[at + 1 :]
    if way == 4:
        return data + rng.choice(PIECES)
    lines = data.split(b"\n")
    one = rng.randrange(len(lines))
    if way == 5:
        lines.insert(one, rng.choice(lines))
    else:
        fields = lines[one].split(b",")
        rng.shuffle(fields)
        lines[one] = b",".join(fields)
    return b"\n".join(lines)


class Case:
    """A table that may be wrong, a right one, and what is due of the two."""

    def __init__(self, rng, number):
        kinds = [rng.choice(["num", "num", "text"]) for _ in range(rng.randint(1, 4))]
        columns = list(zip(NAMES, kinds))
        self.names = [f"{number}{end}" for end in ("a.csv", "b.csv", "a.json", "b.json", ".fz")]
        self.catalogs = [catalog(owner(tables=(("people", name, tuple(columns)),))) for name in self.names[:2]]
        entry = read(self.catalogs[0])["owners"][0]["tables"][0]["columns"]
        rows = [[cell(rng, kind) for kind in kinds] for _ in range(rng.choice([0, 1, 2, 3, 5, 8, 40]))]
        self.table = written(rng, entry, rows)
        for _ in range(rng.choice([0, 0, 1, 1, 2])):
            self.table = changed(rng, self.table)
        other = [[b"1" if kind == "num" else b"A" for kind in kinds] for _ in range(rng.randint(0, 3))]
        self.other = written(rng, entry, other)
        self.place = kinds.index("num") if "num" in kinds else None
        self.program = self.counts(columns)
        self.due, self.kind = self.wanted(entry)

    def counts(self, columns):
        """A program that counts rows, and adds a column of numbers, clipped."""
        if self.place is None:
            return b"size people"
        kind = " * ".join(kind for _, kind in columns)
        apart = "".join(f"let (c{at}, r) = r in " for at in range(min(self.place + 1, len(columns) - 1)))
        cell = f"c{self.place}" if self.place < len(columns) - 1 else "r"
        return f"10 * size people + sum[0,{MOST}] (map (fn (r : {kind}) => {apart}{cell}) people)".encode()

    def value(self, rows, columns):
        if self.place is None:
            return len(rows)
        return 10 * len(rows) + sum(min(MOST, max(0, cells(row, len(columns))[self.place])) for row in rows)

    def wanted(self, columns):
        """The status and what is written, and of which kind that is."""
        try:
            found = rows_of(self.table, columns)
        except BadTable as fault:
            return (3, f"refused {self.names[0]}\n"), fault.kind
        other = rows_of(self.other, columns)
        here, there = Counter(found), Counter(other)
        apart = sum(((here - there) + (there - here)).values())
        one, two = self.value(found, columns), self.value(other, columns)
        r = 1 if self.place is None else 10 + MOST
        return (0, f"distance {apart}\nsensitivity {r}\nvalues {one} {two}\ngap {abs(one - two)}\n"), "a table"


def said(folder, case):
    held = [case.table, case.other, *case.catalogs, case.program]
    for name, data in zip(case.names, held):
        with open(f"{folder}/{name}", "wb") as file:
            file.write(data)
    ran = subprocess.run([PROGRAM, "gap", case.names[2], "census", case.names[3], case.names[4]], capture_output=True, cwd=folder)
    for name in case.names:
        os.remove(f"{folder}/{name}")
    return ran.returncode, ran.stdout.decode(errors="replace")


def main():
    count, seed = begin(__doc__, 5000, 1)
    rng, came, differences = random.Random(f"tables {seed}"), Counter(), 0
    with tempfile.TemporaryDirectory(dir="/dev/shm" if os.path.isdir("/dev/shm") else None) as folder, ThreadPoolExecutor(2) as pool:
        for first in range(0, count, 200):
            cases = [Case(rng, number) for number in range(first, min(first + 200, count))]
            for case, found in zip(cases, pool.map(lambda case: said(folder, case), cases)):
                came[case.kind] += 1
                if found != case.due:
                    differences += 1
                    print(f"{found}, wanted {case.due} by {case.kind}, of {case.table[:2000]} and {case.other[:300]}", flush=True)
    print(f"{count} tables, {differences} differences: " + ", ".join(f"{kind} {many}" for kind, many in sorted(came.items())))
    lacking = [kind for kind in KINDS if not came[kind]] + ["a table"] * (5 * came["a table"] < count)
    if lacking:
        print("too few of", ", ".join(lacking))
    sys.exit(1 if differences or (lacking and count >= 1000) else 0)


if __name__ == "__main__":
    main()
