#!/usr/bin/env python3
"""Tries tools/find_fault on bad catalogs, tables and keys: which file is refused, where, and why.

usage: tests/tools/find_fault.py [--alone]    (PROGRAM=FILE tries another build than tools/build's; --alone tries none)
The file that is refused is compared with the line of the program's `run`; the first fault of small random tables with that which tables.py
finds; and what is said of all bad cells, of texts and of keys with what was put there. It says how much processor time a table of 2^20 rows
takes. It ends with status 1 where one differs.
"""
import os
import random
import resource
import subprocess
import sys
import tempfile

sys.path.insert(0, f"{os.path.dirname(os.path.abspath(__file__))}/../lib")
from places import TOP  # noqa: E402

PROGRAM = os.path.abspath(os.environ.get("PROGRAM", f"{TOP}/out/hitchseason"))
from afresh import run_afresh  # noqa: E402
from catalog import OWNER, PARTITION, TABLE, changed  # noqa: E402
from scan import scan  # noqa: E402
from tables import BadTable, rows_of  # noqa: E402

GOOD_TABLE = "town,age\nA,20\nB,30\n"
# Where another value stands in the catalog, the value, and what is said.
CATALOGS = [
    (("owners",), [], "owners: 0 stand here, and 1 to 64 may"),
    (("owners",), {}, "owners: a list is wanted here"),
    (OWNER, [], "owners[0]: an object is wanted here"),
    (("analysts", 1), 7, "analysts[1]: a text is wanted here"),
    (("analysts", 1), "ann", "analysts[1]: a second one of the name ann"),
    (("analysts", 1), "bob smith", "analysts[1]: `bob smith`: a name is"),
    (("extra",), 1, "the whole file: `extra` is no member; here stand analysts, owners"),
    ((*OWNER, "budget"), 0, "owners[0].budget: 0 isn't from 1 to 1000000000000000000"),
    ((*OWNER, "budget"), 1.5, "owners[0].budget: a whole number from 0"),
    ((*OWNER, "capacity"), 262145, "owners[0].capacity: 262145 isn't from 2 to 262144"),
    ((*OWNER, "partitions"), None, "owners[0].partitions: this member is missing"),
    ((*TABLE, "name"), "sum", "owners[0].tables[0].name: `sum` is a word of the language"),
    ((*TABLE, "file"), "", "owners[0].tables[0].file: ``: a file's name has 1 to 255 bytes"),
    ((*TABLE, "colums"), [], "owners[0].tables[0]: `colums` is no member; here stand name, file, columns"),
    ((*TABLE, "columns", 1, "type"), "number", "owners[0].tables[0].columns[1].type: `number`: a type is `num` or `text`"),
    ((*TABLE, "columns", 1, "name"), "town", "owners[0].tables[0].columns[1]: a second one of the name town"),
    ((*PARTITION, "table"), "persons", "owners[0].partitions[0].table: the owner has no table `persons`"),
    ((*PARTITION, "column"), "age", "owners[0].partitions[0].column: `people` has no text column `age`"),
    ((*PARTITION, "keys", 1), "a b", "owners[0].partitions[0].keys[1]: `a b`: a key has 1 to 64 bytes"),
]
# A catalog's bytes, and what is said.
TEXTS = [
    (b'{"analysts": ["ann"],}', "the whole file: it is no JSON value: Expecting property name"),
    (b"\xff", "the whole file: it is no JSON value: 'utf-8' codec"),
    (128 * b"[" + 128 * b"]", "the whole file: it is no JSON value: it is nested over 127 deep"),
    (b"[]", "the whole file: an object is wanted here"),
]
# The table's file, and what is said.
TABLES = [
    (b"", "line 1: the header is '', and the catalog's columns are 'town,age'"),
    (b"town, age\nA,1\n", "line 1: the header is 'town, age'"),
    (b"age,town\n1,A\n", "line 1: the header is 'age,town'"),
    (b"town,age\nA,1\n\nB\n", "line 4, row 1 (the first is 0): the row has 1 fields, and the header 2"),
    (b"town,age\nA,1,\n", "line 2, row 0 (the first is 0): the row has 3 fields"),
    (b"town,age\nA,1\nB,1.5\n", "line 3, row 1 (the first is 0), column 1: age is '1.5': a whole number is wanted"),
    (b"town,age\nA, 1\n", "line 2, row 0 (the first is 0), column 1: age is ' 1'"),
    (b"town,age\nA,+1\n", "line 2, row 0 (the first is 0), column 1: age is '+1'"),
    (b"town,age\nA,\n", "line 2, row 0 (the first is 0), column 1: age is ''"),
    (b'town,age\nA,1\nB,"2\n3"\n', "line 3, row 1 (the first is 0), column 1: age is '2\\n3': a whole number is wanted"),
    (b"town,age\nA,1125899906842625\n", "line 2, row 0 (the first is 0), column 1: age is '1125899906842625': a number is within"),
    (b'town,age\n"A\nB",1\n' + 65 * b"x" + b",2\n", "line 4, row 1 (the first is 0), column 0: town is 'xxx"),
    (b"town,age\n" + b"A,1\n" * (2**20 + 1), "line 1048578, row 1048576 (the first is 0): there are over 1048576 rows"),
    (b"town,age\n" + b"A,1\n" * 2**24, "it has over 67108864 bytes"),
    (None, "there is no such file"),
]
# Tables that are read.
GOOD = [b"\xef\xbb\xbftown,age\r\nA,-007\r\n", b'town,age\n"a ""b"", c",1125899906842624\n\n\n,0', b"town,age", b"town,age\r\xff,1\r"]


# A table's file, whether it is refused, and lines that are said beside the first fault, each by a part of it.
BESIDE = [
    (b"town,age\nA,1.5\nB,\nA,1.5\nA,n/a\nB,1125899906842625\nB,3\n", True, [
        "    column age: no whole number in 3 cells: '1.5' twice (first in line 2), 'n/a' once (first in line 5)",
        "    column age: nothing, where a whole number is wanted, in 1 cell: '' once (first in line 3)",
        "    column age: a number that isn't within -2^50 and 2^50 in 1 cell: '1125899906842625' once (first in line 6)",
        "partition area of census: 6 rows in 2 parts, 0 in none",
    ]),
    (b"town,age\nA,1\nB,2,3\nA\nB,2,3\n" + 65 * b"x" + b",1\n", True, [
        "    rows with another number of fields than the header's 2: 1 field once (first in line 4), 3 fields twice (first in line 3)",
        "    column town: over 64 bytes in 1 cell: 'xxx",
    ]),
    (b'town,age\nA,1\n"B,2\nA,3\n', True, ["    a quote (`\"`) isn't closed: the record that begins in line 3 goes on to the end of the file"]),
    (b'town,age\nA,1\n"B,2\nA,3\nB,4\n"A",5\n', False, ["    note: column town: a text in quotes goes over several lines (first in line 3): is a `\"` "
        "missing there?"]),
    (b'town,age\nA,"1\nB,2\nA",3\n', True, ["the row has 3 fields, and the header 2 (it goes from line 2 to line 4: is a `\"` there that isn't closed?)"]),
    (b'town,age\nA,1\nB,"2', False, ["    a quote (`\"`) isn't closed: the record that begins in line 3 goes on"]),
    (b"Town,age \nA,1\n", True, ["'Town' differs from the column 'town'", "'age ' differs from the column 'age'", "the header lacks town, age; it has Town, "
        "age "]),
    (b"age,town\n1,A\n", True, ["    the header has the catalog's columns in another order"]),
    (b"\xef\xbb\xbftown,age\nA,1\n", False, ["    note: it begins with a byte order mark, which is passed over"]),
    (b'town,age\n"O""Brien",1\n"a\tb",1\nA b,1\n,1\n\xff,1\nA,1\n\xc3\xa9,1\na,1\n"O""Brien",1\n', False, [
        "    note: column town: 2 texts, in 3 rows, with a `\"` or a control byte, which no program can write between quotes: 'O\"Brien' twice (first in "
            "line 2), 'a\\tb' once",
        "    note: column town: 4 texts, in 4 rows, can't be keys of a partition (a blank, a control byte, empty, not UTF-8): 'a\\tb' once (first in line "
            "3), 'A b' once",
        "partition area of census: 1 rows in 2 parts, 8 in none",
        "    texts in no key: 'O\"Brien' twice (first in line 2), 'a\\tb' once (first in line 3), 'A b' once (first in line 4), '' once",
        "'a' once (first in line 9, like the key A)",
        "    keys without rows: B",
    ]),
    (b"town,age\n" + b"".join(b"T%d,1\n" % number for number in range(50)), False, ["partition area of census: 0 rows in 2 parts, 50 in none", ", and 30 "
        "more (--all tells them)"]),
]


class Trial:
    def __init__(self, room, alone):
        self.room, self.alone, self.differences, self.tried = room, alone, 0, 0

    def write(self, name, data):
        path = f"{self.room}/{name}"
        if data is None:
            os.remove(path)
        else:
            with open(path, "wb") as file:
                file.write(data)

    def one(self, data, table, key, want):
        """What is said of these files: the first line that begins with `refused`, or nothing."""
        self.tried += 1
        self.write("key", key)
        self.write("people.csv", table)
        self.write("catalog.json", data)
        ran = subprocess.run([f"{TOP}/tools/find_fault", "catalog.json", "key"], capture_output=True, cwd=self.room, text=True)
        refused = [line for line in ran.stdout.splitlines() if line.startswith("refused ")]
        first = refused[0] if refused else ""
        if not first.startswith(want) or ran.returncode != (1 if want else 0) or not all("rows read" in line for line in ran.stderr.splitlines()):
            self.differ(f"{ran.returncode} {first} {ran.stderr}", want)
        if not self.alone:
            ran = run_afresh(PROGRAM, "catalog.json", "key", b"", self.room)
            said = f"{want.split(':')[0]}\n" if want else ""
            if ran.stdout.decode() != said or ran.returncode != (3 if want else 0):
                self.differ(f"the program: {ran.returncode} {ran.stdout}", said)

    def beside(self, data, table, refused, said):
        self.tried += 1
        self.write("people.csv", table)
        self.write("catalog.json", data)
        ran = subprocess.run([f"{TOP}/tools/find_fault", "catalog.json", "key"], capture_output=True, cwd=self.room, text=True)
        lines = ran.stdout.splitlines()
        for part in said:
            if not any(line.startswith(part) if part.startswith((" ", "partition")) and not part.endswith("them)") else part in line for line in lines):
                self.differ(ran.stdout, part)
        if ran.returncode != (1 if refused else 0) or ran.stderr:
            self.differ(f"{ran.returncode} {ran.stdout}{ran.stderr}", refused)
        whole = subprocess.run([f"{TOP}/tools/find_fault", "--all", "catalog.json", "key"], capture_output=True, cwd=self.room, text=True)
        if "more (" in whole.stdout:
            self.differ("--all", "all texts")

    def at_random(self, count):
        """The first fault, its place and the number of rows of small tables of all kinds are those that are found row by row."""
        chance = random.Random(2026)
        for _ in range(count):
            kinds = [chance.choice(("text", "num")) for _ in range(chance.randrange(1, 4))]
            columns = [{"name": f"c{number}", "type": kind} for number, kind in enumerate(kinds)]
            data = random_table(chance, kinds)
            try:
                want, rows = None, len(rows_of(data, columns))
            except BadTable as fault:
                want = (fault.kind, fault.line, fault.row, fault.column)
            survey = scan(data, columns, {number: {"a"} for number, kind in enumerate(kinds) if kind == "text"})
            found = survey.first and (survey.first.kind, survey.first.line, survey.first.row, survey.first.column)
            self.tried += 1
            if found != want or (want is None and survey.rows != rows):
                self.differ(f"{found}, {survey.rows} rows of {data} with {kinds}", want)

    def largest(self, data):
        """2^20 rows of two columns: how long it takes, and that it says how far it is where it takes a while."""
        self.write("people.csv", b"town,age\n" + b"".join(b"%s,%d\n" % ((b"A", b"B", b"C")[number % 3], number % 97) for number in range(2**20)))
        self.write("catalog.json", data)
        before = resource.getrusage(resource.RUSAGE_CHILDREN)
        ran = subprocess.run([f"{TOP}/tools/find_fault", "catalog.json", "key"], capture_output=True, cwd=self.room, text=True)
        after = resource.getrusage(resource.RUSAGE_CHILDREN)
        print(f"2^20 rows of two columns: {after.ru_utime + after.ru_stime - before.ru_utime - before.ru_stime:.1f} s of processor time")
        want = "people.csv: table people of census, rows 1048576\npartition area of census: 699051 rows in 2 parts, 349525 in none\n"
        if ran.returncode != 0 or want not in ran.stdout or not all("rows read" in line for line in ran.stderr.splitlines()):
            self.differ(f"{ran.returncode} {ran.stdout}{ran.stderr}", want)

    def words(self):
        for words, status in (("--help", 0), ("", 2), ("a b c", 2), ("--what catalog.json", 2)):
            ran = subprocess.run([f"{TOP}/tools/find_fault", *words.split()], capture_output=True, cwd=self.room, text=True)
            if ran.returncode != status or "usage: tools/find_fault" not in ran.stdout + ran.stderr:
                self.differ(f"{words}: {ran.returncode} {ran.stdout}{ran.stderr}", status)

    def differ(self, found, want):
        self.differences += 1
        print(f"{found}\n    and not {want}")


NUMBERS = (b"1", b"-7", b'"3"', b'"1\n2"', b"", b"1.5", b"-", b"0000000000000000001", b"1125899906842625")
WORDS = (b"a", b'"a"', b'"a,b"', b'"a""b"', b"", b"x" * 65, b'"\n"', b"a\0", b'a"b', b'"a"b"', b'"')


def random_table(chance, kinds):
    """A small table, mostly of these columns, with all kinds of cells, rows and line ends."""
    data = (b"\xef\xbb\xbf" if chance.random() < 0.1 else b"") + b",".join(b"c%d" % number for number in range(len(kinds)))
    data += chance.choice((b"\n", b"\r\n", b"", b"\r", b"\n\n"))
    for _ in range(chance.randrange(6)):
        row = kinds if chance.random() < 0.95 else [*kinds, "text"]
        cells = [chance.choice(NUMBERS if kind == "num" and chance.random() < 0.9 else WORDS) for kind in row]
        data += b",".join(cells) if chance.random() < 0.9 else bytes(chance.choice(b'a1",\n\r-') for _ in range(chance.randrange(6)))
        data += chance.choice((b"\n", b"\n", b"\n", b"\r\n", b"\r", b"\n\n"))
    return data


def main():
    alone = sys.argv[1:] == ["--alone"]
    if not alone and "PROGRAM" not in os.environ:
        subprocess.run([f"{TOP}/tools/build"], check=True)
    good, table, key = changed((*OWNER, "budget"), 10), GOOD_TABLE.encode(), bytes(32)
    with tempfile.TemporaryDirectory() as room:
        trial = Trial(room, alone)
        trial.one(good, table, key, "")
        for path, value, said in CATALOGS:
            trial.one(changed(path, value), table, key, f"refused catalog.json: {said}")
        for data, said in TEXTS:
            trial.one(data, table, key, f"refused catalog.json: {said}")
        for data, said in TABLES:
            trial.one(good, data, key, f"refused people.csv: {said}")
        for data in GOOD:
            trial.one(good, data, key, "")
        for length in (0, 31, 33):
            trial.one(good, table, bytes(length), f"refused key: it has {length} bytes, and a key has 32")
        trial.write("key", key)
        for data, refused, said in BESIDE:
            trial.beside(good, data, refused, said)
        trial.at_random(4000)
        trial.largest(good)
        trial.words()
    print(f"{trial.tried} catalogs, tables and keys, {trial.differences} differences")
    sys.exit(1 if trial.differences else 0)


main()
