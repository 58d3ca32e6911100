#!/usr/bin/env python3
"""Tries what tools/prepare does with rows about persons, what a guess says and leaves alone, and what tools/public says of both.

usage: tests/tools/persons.py [--alone]    (PROGRAM=FILE tries another build than tools/build's; --alone tries none)
Rows that are kept are worked out here by the rule once more; tables of one row a person are written by hand. It ends with status 1 where one
differs.
"""
import csv
import hashlib
import hmac
import json
import os
import random
import resource
import subprocess
import sys
import tempfile
from collections import Counter

sys.path.insert(0, f"{os.path.dirname(os.path.abspath(__file__))}/../lib")
from places import TOP  # noqa: E402
from preparing import BASE, PROGRAM, Trial, flags, mode, prepare, run, tables_in, text_of, write  # noqa: E402

# Persons with several rows, equal ones among them, decimals, a missing cell, quoted commas, umlauts; the running number is in no table.
STAYS = [
    ("Müller-1", "Köln, Mitte", "1,5", "f"), ("Müller-1", "Köln, Mitte", "1,5", "f"), ("Müller-1", "Köln, Mitte", "1,5", "f"), ("Müller-1", "Bonn", "20", "f"),
    ("Öz-2", "Bonn", "3", "m"), ("Öz-2", "Düren", "", "m"), ("Öz-2", "Bonn", "7,25", "f"), ("Öz-2", "Düren", "2", "m"), ("Öz-2", "Bonn", "3", "m"),
    ("7", "Köln, Mitte", "4", ""), ("07", "Bonn", "4", "m"),
]  # fmt: skip
HEADER = ("No", "Person", "Ort, Straße", "Tage", "Sex")
OF_STAYS = [
    *BASE, "no.kind=leave out", "ort_strasse.name=ort", "ort.kind=key", 'ort.keys=["Bonn", "Köln, Mitte", "Düren"]', "tage.kind=number", "tage.decimal=,", "tage.scale=100",
    "tage.if_missing=-1", "sex.kind=key", 'sex.keys=["f", "m", "unknown"]', "person.column=person",
]  # fmt: skip
TOWNS = {"Köln, Mitte": "Köln_Mitte"}


def cells_of(stay):
    """A row as the table has it, worked out by hand."""
    _, town, days, sex = stay
    return [TOWNS.get(town, town), str(round(100 * float(days.replace(",", ".")))) if days else "-1", sex or "unknown"]


def raw_of(stays):
    lines = [HEADER, *((str(number), *stay) for number, stay in enumerate(stays, 1))]
    return "".join(";".join(f'"{cell}"' if "," in cell else cell for cell in line) + "\n" for line in lines).encode()


def kept_by_rule(stays, key, most):
    """Of each person the rows whose HMAC-SHA-256 is least."""
    ranks, seen = {}, Counter()
    for stay in stays:
        cells = cells_of(stay)
        said = json.dumps([stay[0], cells, seen[stay[0], *cells]]).encode()
        seen[stay[0], *cells] += 1
        ranks.setdefault(stay[0], []).append((hmac.new(key, said, hashlib.sha256).hexdigest(), cells))
    return sorted(",".join(cells) for rows in ranks.values() for _, cells in sorted(rows)[:most])


def rows_in(room, name="t.csv"):
    return text_of(f"{room}/{name}").splitlines()[1:]


def key_of(room, name="t.csv.key"):
    return bytes.fromhex(text_of(f"{room}/{name}").strip())


def cuts(trial):
    """At most so many rows a person, by the rule, whatever their order; the key is made once; the report says how many."""
    with tempfile.TemporaryDirectory() as room:
        write(f"{room}/raw.csv", raw_of(STAYS))
        ran = prepare(room, *flags(OF_STAYS), "--set", "person.rows=2")
        trial.same("a cut", (ran.returncode, ran.stderr), (0, ""))
        said = "at most 2 rows a person, by person: 5 rows are cut, which changes counts. They are chosen by t.csv.key: keep it with the spec"
        trial.has("a cut", ran.stdout, said)
        trial.same("its columns", text_of(f"{room}/t.csv").splitlines()[0], "ort,tage,sex")
        first, key = rows_in(room), key_of(room)
        trial.same("by the rule", sorted(first), kept_by_rule(STAYS, key, 2))
        trial.same("the key alone is its owner's", (mode(f"{room}/t.csv.key"), len(key)), (0o600, 32))
        report = text_of(f"{room}/t.report")
        how_many = "  how many persons have how many rows that nothing else puts out:\n    1 row: 2\n    4 rows: 1\n    5 rows: 1\n  rows cut: 5, of 2 persons\n"
        trial.has("the report of a cut", report, f"persons, by person: 4, of whom at most 2 rows each are kept\n{how_many}")
        trial.has("the report of a cut", report, "column person, from `Person`: text, which isn't kept; 11 cells")
        trial.answers("a cut", room, text_of(f"{room}/t.csv"))
        for seed in range(3):
            mixed = random.Random(seed).sample(STAYS, len(STAYS))
            write(f"{room}/raw.csv", raw_of(mixed))
            prepare(room, *flags(OF_STAYS), "--set", "person.rows=2")
            trial.same("whatever the order, and with the same key", (sorted(rows_in(room)), key_of(room)), (sorted(first), key))
        # One more person, by whom all rows after are numbered anew: nobody else's rows change.
        write(f"{room}/raw.csv", raw_of([("Ähn-0", "Bonn", "9", "f")] * 3 + STAYS))
        prepare(room, *flags(OF_STAYS), "--set", "person.rows=2")
        trial.same("another person changes nobody's rows", Counter(rows_in(room)) - Counter(first), Counter({"Bonn,900,f": 2}))
        for most in (1, 3, 5):
            write(f"{room}/raw.csv", raw_of(STAYS))
            prepare(room, *flags(OF_STAYS), "--set", f"person.rows={most}", "--set", "person.key=mine")
            trial.same(f"at most {most}", sorted(rows_in(room)), kept_by_rule(STAYS, key_of(room, "mine"), most))
        trial.same("nobody has more", rows_in(room), [",".join(cells_of(stay)) for stay in STAYS])


def distance(one, other):
    """How many rows two tables are apart."""
    one, other = Counter(one), Counter(other)
    return sum(((one - other) + (other - one)).values())


def apart(trial):
    """A person more is at most so many rows, a raw row more at most two; of a table per person one row, and two where it changes."""
    chance = random.Random(58)
    stays = [(f"p{chance.randrange(30)}", chance.choice(["Bonn", "Düren"]), chance.choice(["1", "2,5", ""]), chance.choice("fm")) for _ in range(120)]
    adds = ["--add", '{"name": "stays", "kind": "count"}', "--add", '{"name": "days", "kind": "sum", "of": "tage"}']
    each = [*flags(OF_STAYS), "--set", "table.per=person", "--set", "table.name=each", "--set", "table.file=each.csv", *adds]
    with tempfile.TemporaryDirectory() as room:

        def tables(rows):
            write(f"{room}/raw.csv", raw_of(rows))
            for words in ([*flags(OF_STAYS), "--set", "person.rows=3"], each):
                trial.same("both tables", prepare(room, *words).returncode, 0)
            return rows_in(room), rows_in(room, "each.csv")

        cut, per = tables(stays)
        for person in ("p0", "p7"):
            without = tables([stay for stay in stays if stay[0] != person])
            trial.same(f"without {person}", (distance(cut, without[0]) <= 3, distance(per, without[1])), (True, 1))
        for number in (3, 50):
            without = tables(stays[:number] + stays[number + 1 :])
            trial.same(f"without row {number}", (distance(cut, without[0]) <= 2, distance(per, without[1]) <= 2), (True, True))


def chosen_evenly(trial):
    """Of a thousand persons with rows 0 to 9 each row is kept as often as any other."""
    with tempfile.TemporaryDirectory() as room:
        write(f"{room}/raw.csv", "".join(["who,value\n", *(f"p{person},{value}\n" for person in range(1000) for value in range(10))]).encode())
        ran = prepare(room, *flags(BASE), "--set", "who.kind=text", "--set", "value.kind=number", "--set", "person.column=who", "--set", "person.rows=3")
        counts = Counter(rows_in(room))
        # 300 of each are meant; 70 is five standard deviations, sqrt(1000 * 0.3 * 0.7).
        trial.same(f"evenly: {counts}", (ran.returncode, sum(counts.values()), all(230 <= counts[str(value)] <= 370 for value in range(10))), (0, 3000, True))


def keys_of_persons(trial):
    """Their column is kept on purpose alone; a key may be long; a row without one is out or stops; a file that is no key is no key."""
    with tempfile.TemporaryDirectory() as room:
        long = hashlib.sha512(b"x").hexdigest()
        write(f"{room}/raw.csv", f"who,n\n{long},1\n{long},1\n ,2\nB,3\n".encode())
        words = [*flags(BASE), "--set", "person.column=who", "--set", "person.rows=1", "--set", "n.kind=number"]
        ran = prepare(room, *words)
        trial.same("no person", (ran.returncode, ran.stdout.splitlines()[0]), (1, "raw.csv: 4 rows, and nothing is written, for who: 1"))
        trial.same("and no key is made", os.path.exists(f"{room}/t.csv.key"), False)
        ran = prepare(room, *words, "--set", "who.if_missing=row out")
        trial.same("a row of nobody is out", (ran.returncode, text_of(f"{room}/t.csv")), (0, "n\n1\n3\n"))
        trial.same("which is said on the last line", ran.stdout.splitlines()[-1], "1 of 4 rows are out, more than one in 50: who 1")
        write(f"{room}/raw.csv", b"who,n\nA,1\nA,1\nB,3\n")
        ran = prepare(room, *words, "--set", "who.keep=true")
        trial.same("kept on purpose", (ran.returncode, text_of(f"{room}/t.csv")), (0, "who,n\nA,1\nB,3\n"))
        trial.has("and a warning", ran.stdout, "WARNING: who is kept. A person's key is a text that programs can compare")
        for data, bits, said in ((b"00\n", 0o600, "t.csv.key is there and has no key"), (b"0" * 64, 0o644, "others can read it: chmod 600 t.csv.key")):
            write(f"{room}/t.csv.key", data)
            os.chmod(f"{room}/t.csv.key", bits)
            ran = prepare(room, *words)
            trial.same(f"a key {data[:4]}", (ran.returncode, ran.stdout), (2, ""))
            trial.has(f"a key {data[:4]}", ran.stderr, said)
        write(f"{room}/raw.csv", b"Person,n\nA,1\n")
        ran = prepare(room, *flags(BASE), "--set", "person.kind=key", "--set", 'person.keys=["A"]')
        trial.same("a column that is called person", (ran.returncode, text_of(f"{room}/t.csv")), (0, "person,n\nA,1\n"))


VISITS = (
    "who,day,town,fee,note\n"
    "a,2024-03-01,Bonn,10,x\na,2024-01-05,Köln,,y\na,2024-02-01,Bonn,30,\n"
    "b,,Bonn,,u\nb,,,,\n"
    "c,2024-01-02,Köln,5,w\nc,2024-01-02,Köln,7,v\nc,,Köln,2,a\nc,2024-01-09,,999,b\n"
)
OF_VISITS = [
    *BASE, "table.per=person", "person.column=who", "who.kind=text", "day.kind=date", "day.format=YYYY-MM-DD", "day.since=2024-01-01", "day.if_missing=-1", "town.kind=key",
    'town.keys=["Bonn", "Köln", "unknown"]', "town.if_missing=unknown", "fee.kind=number", "fee.if_missing=-5", "note.kind=text", "note.if_missing=none",
]  # fmt: skip
PERSONAL = [
    {"name": "visits", "kind": "count", "top": 3},
    {"name": "fees", "kind": "sum", "of": "fee", "top": 100},
    {"name": "low", "kind": "least", "of": "fee", "bottom": 3},
    {"name": "last", "kind": "greatest", "of": "day"},
    {"name": "begun", "kind": "first", "of": "note", "by": "day"},
    {"name": "home", "kind": "shared", "of": "town", "if_mixed": "several"},
    {"name": "much", "kind": "bands", "of": "fees", "bounds": [20, 50]},
    {"name": "cell", "kind": "joint", "of": ["home", "much"]},
]
# a: fees 10 + 30, the missing one passed over; the first note is that of January 5, day 4. b: no fee, no day, so codes stand, and of one note that is
# known. c: fees 5 + 7 + 2 + 999 over the top, the least 2 under the bottom; two rows of day 1, of which `v` comes first; the missing town is passed over.
ONE_EACH = (
    "visits,fees,low,last,begun,home,much,cell\n"
    "3,40,10,60,y,several,from_20,several.from_20\n"
    "2,-5,-5,-1,u,Bonn,unknown,Bonn.unknown\n"
    "3,100,3,8,v,Köln,from_50,Köln.from_50\n"
)


def one_each(trial):
    """One row a person, whatever the order of the rows."""
    adds = [word for column in PERSONAL for word in ("--add", json.dumps(column))]
    with tempfile.TemporaryDirectory() as room:
        lines = VISITS.splitlines()
        for seed in range(3):
            rows = lines[1:] if seed == 0 else random.Random(seed).sample(lines[1:], len(lines) - 1)
            write(f"{room}/raw.csv", "\n".join([lines[0], *rows, ""]).encode())
            ran = prepare(room, *flags(OF_VISITS), *adds)
            trial.same("one row a person", (ran.returncode, ran.stderr, sorted(text_of(f"{room}/t.csv").splitlines())), (0, "", sorted(ONE_EACH.splitlines())))
        write(f"{room}/raw.csv", VISITS.encode())
        prepare(room, *flags(OF_VISITS), *adds)
        trial.same("in the order of their first rows", text_of(f"{room}/t.csv"), ONE_EACH)
        trial.same("its partitions", tables_in(room)[2], ["home", "much", "cell"])
        trial.answers("one row a person", room, ONE_EACH)
        fees = "column fees: sum of fee of a person's rows\n  values: from 40 to 1013, before clips\n  top 100: 1 person is over it"
        for words in (fees, "several: 1\n", "persons, by who: 3\n"):
            trial.has("its report", text_of(f"{room}/t.report"), words)
        trial.same("no key where nothing is cut", os.path.exists(f"{room}/t.csv.key"), False)
        ran = prepare(room, *flags(OF_VISITS), *adds, "--set", "person.rows=1", "--set", "who.keep=true")
        trial.same("one row of each", (ran.returncode, [row.split(",")[:2] for row in rows_in(room)]), (0, [["a", "1"], ["b", "1"], ["c", "1"]]))


GOOD = [*BASE, "who.kind=text", "n.kind=number", "k.kind=key", 'k.keys=["x", "y"]', "person.column=who"]
COUNT = '{"name": "rows", "kind": "count"}'
WRONG = [
    ([], "person: `rows` is missing: how many rows a person may have"),
    (["--set", "person.rows=0"], "person.rows: it is 1 or more"),
    (["--set", "person.rows=x"], "person.rows: a whole number is wanted here"),
    (["--set", "person.row=2"], "person: `row` is no member"),
    (["--set", "person.rows=2", "--set", "person.column=n", "--set", "n.kind=number"], "person.column: `n` is no column of the kind text"),
    (["--set", "person.rows=2", "--set", "person.column=nobody"], "person.column: `nobody` is no column of the kind text"),
    (["--set", "person.rows=2", "--set", "who.if_missing=none"], "person.column: `who.if_missing` is `row out` or `stop`"),
    (["--set", "person.rows=2", "--set", "person.key=t.csv"], "person.key is table.file itself"),
    (["--set", "person.rows=2", "--set", "table.per=row", "--add", COUNT], "table.per: it is `person`"),
    (["--set", "person.rows=2", "--add", COUNT], "`count` is made of a person's rows: `table.per` is \"person\" then"),
    (["--set", "table.per=person", "--add", '{"name": "s", "kind": "sum", "of": "k"}'], "columns[3] (s).of: `k` is no column of the kind number"),
    (["--set", "table.per=person", "--add", '{"name": "s", "kind": "shared", "of": "n"}'], "columns[3] (s).of: `n` is no column of the kind key"),
    (["--set", "table.per=person", "--add", '{"name": "s", "kind": "first", "of": "n", "by": "k"}'], "columns[3] (s).by: `k` is no column of the kind number or date"),
    (["--set", "table.per=person", "--add", '{"name": "s", "kind": "first", "of": "n"}'], "columns[3] (s): `by` is missing"),
    (["--set", "table.per=person", "--add", '{"name": "s", "kind": "shared", "of": "k", "if_mixed": "x"}'], "columns[3] (s): two of its keys are the same"),
    (["--set", "table.per=person", "--add", '{"name": "s", "kind": "least", "of": "n", "bottom": 3, "top": 2}'], "columns[3] (s).top: it is under the bottom"),
    (["--set", "table.per=person", "--add", COUNT, "--add", '{"name": "b", "kind": "bands", "of": "n", "bounds": [1]}'], "columns[4] (b).of: `n` is no column of the kind count or sum"),
]  # fmt: skip


def wrong_specs(trial):
    with tempfile.TemporaryDirectory() as room:
        write(f"{room}/raw.csv", b"who,n,k\nA,1,x\nA,2,y\n")
        for change, said in WRONG:
            ran = prepare(room, *flags(GOOD), *change)
            trial.same(f"{change}", (ran.returncode, ran.stdout, sorted(os.listdir(room))), (2, "", ["raw.csv"]))
            trial.has(f"{change}", ran.stderr, said)
        for spec, said in (
            ({"rows": 1, "key": "k"}, "person: `column` is missing"), ({}, "person: `rows` is missing"), ({"rows": -1}, "person.rows: it is 1 or more"),
            ([], "the spec.person: an object is wanted here"),
        ):  # fmt: skip
            prepare(room, "--guess", "s", *flags(GOOD[:-1]))
            whole = json.loads(text_of(f"{room}/s"))
            write(f"{room}/s", json.dumps({**whole, "person": spec}).encode())
            trial.has(f"{spec}", prepare(room, "--spec", "s").stderr, said)
            os.remove(f"{room}/s")
        # Rows of different persons, as is known of the table: nothing is cut, and no column is wanted.
        prepare(room, "--guess", "s", *flags(GOOD[:-1]), "--set", "person.rows=1")
        trial.same("a row each", (prepare(room, "--spec", "s").returncode, rows_in(room)), (0, ["A,1,x", "A,2,y"]))


def table(title, values):
    rows = [f"{value},{number % 3},{number / 8}" for number, value in enumerate(values)]
    return "\n".join([f"{title},k,amount", *rows, ""]).encode()


def guesses(trial):
    """A column that looks like a key of persons is said to, and both ways are proposed; others aren't."""
    several = [person for person in range(300) for _ in range(2)]
    for title, values, kind, warned in [
        ("Patienten-Nr", [100_000 + 7 * one for one in several], "text", True),
        ("pid", [f"{one:05}" for one in several], "text", True),
        ("ICD code", [f"K{one}" for one in several[:280]], "key", True),
        ("personKey", [f"K{one}" for one in several[:280]], "text", True),
        ("number of persons", several, "number", False),
        ("Ort", [f"K{one}" for one in several[:280]], "key", True),
        ("who", [f"0x{one:x}" for one in several], "text", True),
        ("income", several, "number", False),
        ("born", [1700 + one for one in several], "number", False),
        ("debt", [one - 150 for one in several], "number", False),
        ("Kunde", [one + 1 for one in several], "text", True),
        ("ticket", [one + 10_000 for one in several], "number", True),
        ("plot", [f"p{one % 101}" for one in several] * 20, "key", False),
        ("price", [one / 4 for one in several], "number", False),
        ("no", list(range(600)), "leave out", False),
        ("few", [one % 100 for one in several], "number", False),
        ("id", [*range(543), *range(57)], "number", False),
    ]:
        with tempfile.TemporaryDirectory() as room:
            write(f"{room}/raw.csv", table(title, values))
            ran = prepare(room, "--guess", "s")
            column = json.loads(text_of(f"{room}/s"))["columns"][0]
            name = column["name"]
            trial.same(f"{title}: a guess", (ran.returncode, column["kind"], f"WARNING: {name} looks like a key of persons" in ran.stdout), (0, kind, warned))
            trial.same(f"{title}: its note", "It looks like a key of persons" in column["note"], warned)
            trial.same(f"{title}: none of its cells is in the catalog", "keys" in column, kind == "key")
            if kind == "text":
                ran = prepare(room, "--spec", "s", "--set", f"person.column={name}", "--set", "person.rows=1")
                trial.same(f"{title}: a row each", (ran.returncode, f"at most 1 row a person, by {name}" in ran.stdout), (0, True))
    with tempfile.TemporaryDirectory() as room:
        write(f"{room}/raw.csv", table("Person", [f"p{one}" for one in several]))
        said = prepare(room, "--guess", "s", *flags(BASE)).stdout.splitlines()
        proposed = [line.split() for line in said if line.startswith("    tools/prepare") and "person" in line]
        cut, each = ["person.column=person", "person.rows=N"], ["person.column=person", "table.per=person", "table.name=persons", "table.file=persons.csv"]
        trial.same("both are proposed", [[word for word in line if "=" in word] for line in proposed], [cut, each])
        proposed_runs(trial, room, proposed)
        ran = prepare(room, *flags(BASE))
        trial.has("without a spec", ran.stdout, "WARNING: person looks like a key of persons: 300 values in 600 rows")


def proposed_runs(trial, room, proposed):
    """What a guess proposes does what it says."""
    cut, each = ([word.replace("=N", "=1") for word in words[1:]] for words in proposed)
    ran = run([f"{TOP}/tools/prepare", *cut], room)
    trial.same("the cut that is proposed", (ran.returncode, len(rows_in(room)), mode(f"{room}/s.key")), (0, 300, 0o600))
    trial.same("the guess that is proposed", run([f"{TOP}/tools/prepare", *each, *flags(BASE[2:]), "--set", "rows.top=1"], room).returncode, 0)
    ran = prepare(room, "--spec", "s.persons")
    trial.same("and its table", (ran.returncode, len(rows_in(room, "persons.csv"))), (0, 300))
    trial.same("by a flag for a column that it added", {row.split(",")[0] for row in rows_in(room, "persons.csv")}, {"1"})
    trial.same("of these columns", text_of(f"{room}/persons.csv").splitlines()[0], "rows,sum_k,sum_amount")


def nothing_thrown_away(trial):
    """A guess leaves no row out, and says how many rows it read; where a spec leaves many out, the last line says so, and analysts hear of which column."""
    with tempfile.TemporaryDirectory() as room:
        ages, towns = ["" if number % 20 == 7 else number % 80 for number in range(200)], ["x" if number % 9 else "" for number in range(200)]
        rows = [f"{ages[number]},{'' if number == 30 else 5},{towns[number]},2024-01-{number % 28 + 1:02}" for number in range(200)]
        write(f"{room}/raw.csv", "\n".join(["age,fee,town,day", *rows, ""]).encode())
        ran = prepare(room, "--guess", "s", *flags(BASE))
        trial.has("how many rows it read", ran.stdout, "s: a guess from all 200 rows, private.")
        columns = json.loads(text_of(f"{room}/s"))["columns"]
        trial.same("what becomes of missing cells", [column["if_missing"] for column in columns], ["stop", "stop", "unknown", "stop"])
        choice = "A missing cell stops, until `if_missing` says `row out`, or a code such as -1"
        trial.same("the choice is in the note", [choice in column["note"] for column in columns], [True, True, False, False])
        ran = prepare(room, "--spec", "s")
        trial.same("it stops", (ran.returncode, ran.stdout.splitlines()[0]), (1, "raw.csv: 200 rows, and nothing is written, for age: 10, fee: 1"))
        out = ["--set", "age.if_missing=row out", "--set", "fee.if_missing=row out"]
        ran = prepare(room, "--spec", "s", *out)
        trial.same("many rows out", (ran.returncode, ran.stdout.splitlines()[-1]), (0, "11 of 200 rows are out, more than one in 50: age 10, fee 1"))
        ran = prepare(room, "--spec", "s", "--set", "age.if_missing=-1", "--set", "fee.if_missing=row out")
        trial.same("few rows out", (ran.returncode, "more than one in" in ran.stdout), (0, False))
        spec = json.loads(text_of(f"{room}/s"))
        for column in spec["columns"]:
            column["if_missing"] = {"age": "row out", "day": "row out"}.get(column["name"], column["if_missing"])
        spec["columns"][3]["keep"] = False
        write(f"{room}/s", json.dumps(spec).encode())
        ran = prepare(room, "--spec", "s", "--set", "fee.if_missing=0")
        said = run([f"{TOP}/tools/public", "catalog.json", "s"], room)
        trial.has("analysts hear of which column", said.stdout, "    a row is left out where age or a column that isn't here is missing\n")
        trial.same("and never of how many", [line for line in said.stdout.splitlines() if "left out" in line and any(map(str.isdigit, line))], [])
        write(f"{room}/raw.csv", "".join(["No,n\n", *(f"{number},{number % 7}\n" for number in range(1, 60)), "Source: nobody,\n"]).encode())
        prepare(room, "--guess", "s3")
        trial.same("a running number over a footnote", json.loads(text_of(f"{room}/s3"))["columns"][0]["kind"], "leave out")
        write(f"{room}/raw.csv", b"a,b\n" + b"1,2\n" * 100_001)
        trial.has("of many rows the first", prepare(room, "--guess", "s2").stdout, "s2: a guess from the first 100000 rows, private.")


def unprintable(text):
    return [letter for letter in text if not letter.isprintable() and letter != "\n"]


def hostile(trial):
    """Titles with control characters, and 200,000 columns."""
    title = "a\x1b[31mred\x07\x9b2J\u202eb\x7f"
    with tempfile.TemporaryDirectory() as room:
        write(f"{room}/raw.csv", f"{title},n\nx,1\ny,2\n".encode())
        ran = prepare(room, "--guess", "s", *flags(BASE))
        trial.same("a guess prints no control character", (ran.returncode, unprintable(ran.stdout)), (0, []))
        trial.same("nor has the spec one", unprintable(text_of(f"{room}/s")), [])
        trial.same("it is the title", json.loads(text_of(f"{room}/s"))["columns"][0]["from"], title)
        first = json.loads(text_of(f"{room}/s"))["columns"][0]["name"]
        trial.same("and the report neither", (prepare(room, "--spec", "s").returncode, unprintable(text_of(f"{room}/t.report"))), (0, []))
        write(f"{room}/raw.csv", f"{title},n\nx\x1b[2J,1\ny,\x9b3\n".encode())
        ran = prepare(room, "--spec", "s", "--rows", "2", "--set", "n.if_bad=row out")
        trial.same("nor have rows that are asked for", (ran.returncode, unprintable(ran.stdout), unprintable(text_of(f"{room}/t.report"))), (0, [], []))
        ran = prepare(room, "--spec", "s", "--set", f"{first}.at=2")
        trial.same("nor what is refused", (ran.returncode, unprintable(ran.stderr)), (2, []))
        before = resource.getrusage(resource.RUSAGE_CHILDREN).ru_utime
        write(f"{room}/raw.csv", ",".join(["x"] * 200_000).encode() + b"\n" + ",".join(["1"] * 200_000).encode() + b"\n")
        ran = prepare(room, "--guess", "wide")
        said = "tools/prepare: raw.csv has 200000 columns, and of more than 10000 none is guessed: write a spec of those that you need\n"
        trial.same("200,000 columns", (ran.returncode, ran.stderr), (2, said))
        write(f"{room}/few", json.dumps({
            "raw": {"encoding": "utf-8", "delimiter": ","}, "table": {"name": "t", "file": "t.csv"},
            "catalog": {"file": "catalog.json", "analysts": ["ann"], "owner": "o", "budget": 1, "capacity": 2},
            "columns": [{"from": "x", "at": 200_000, "name": "last", "kind": "number"}],
        }).encode())  # fmt: skip
        trial.same("a spec of one of them", (prepare(room, "--spec", "few").returncode, rows_in(room)), (0, ["1"]))
        write(f"{room}/raw.csv", ",".join(["x"] * 10_000).encode() + b"\n" + ",".join(["1"] * 10_000).encode() + b"\n")
        trial.same("10,000 columns of one title", prepare(room, "--guess", "wide").returncode, 0)
        taken = resource.getrusage(resource.RUSAGE_CHILDREN).ru_utime - before
        trial.same(f"in {taken:.0f} s of a processor", taken < 60, True)


def told(trial):
    """What tools/public says of persons, and lines that are pasted."""
    with tempfile.TemporaryDirectory() as room:
        write(f"{room}/raw.csv", raw_of(STAYS))
        prepare(room, "--guess", "s", *flags(OF_STAYS), "--set", "person.rows=3")
        trial.same("stays", prepare(room, "--spec", "s").returncode, 0)
        lone = run([f"{TOP}/tools/public", "catalog.json", "s"], room).stdout
        trial.has("one table", lone, "  a person has at most 3 rows in all tables together: epsilon for a person is what is taken, times 3\n")
        trial.has("one table", lone, "  table t : bag (text * num * text)\n    at most 3 rows a person\n")
        each = ["table.per=person", "table.name=each", "table.file=each.csv", "sex.partition=x"]
        adds = ['{"name": "sum", "kind": "sum", "of": "tage", "top": 900}', '{"name": "p", "kind": "shared", "of": "sex", "partition": "sexes"}']
        prepare(room, "--guess", "each", *flags(OF_STAYS), *flags(each), *(word for one in adds for word in ("--add", one)))
        trial.same("a row each", prepare(room, "--spec", "each").returncode, 0)
        both = run([f"{TOP}/tools/public", "catalog.json", "s", "each"], room).stdout
        for words in (
            "  a person has at most 5 rows in all tables together: epsilon for a person is what is taken, times 5\n", "    one row a person; where it changes, that counts as two\n",
            "    sum : num, the sum of tage over the person's rows; the unit times 100; -1 where nothing is known; to 900, what is outside being the end itself\n",
            "    p : text, the sex of all the person's rows, or mixed; unknown where nothing is known\n",
            "    fn (p : text * num * text) => let (ort, p) = p in let (tage, sex) = p in\n", "    fn (p_ : num * text) => let (sum_, p) = p_ in\n",
        ):  # fmt: skip
            trial.has("both tables", both, words)
        part = run([f"{TOP}/tools/public", "catalog.json", "s"], room).stdout
        trial.same("of one table nothing is said: no sum", "in all tables together" in part, False)
        shown = json.loads(run([f"{TOP}/tools/public", "--json", "catalog.json", "s", "each"], room).stdout)["owners"][0]["tables"]
        trial.same("for the client", [one.get("person") for one in shown], [{"rows": 3}, {"rows": 1, "per": "person"}])
        pasted(trial, room, both)


def pasted(trial, room, said):
    """Each line is taken by the program as it stands, with a body after it."""
    lines = [line.strip() for line in said.splitlines() if line.strip().startswith("fn (")]
    trial.same("a line for each table", len(lines), 2)
    for name, line in zip(("t", "each"), lines):
        if not trial.alone:
            write(f"{room}/query", f"size (filter ({line} true) {name})".encode())
            ran = run([PROGRAM, "check", "catalog.json", "o", "query"], room)
            trial.same(f"{line}", (ran.returncode, ran.stdout), (0, "ok 1\n"))


def main():
    alone = sys.argv[1:] == ["--alone"]
    if not alone and "PROGRAM" not in os.environ:
        subprocess.run([f"{TOP}/tools/build"], check=True)
    trial = Trial(alone)
    for each in (cuts, apart, chosen_evenly, keys_of_persons, one_each, wrong_specs, guesses, nothing_thrown_away, hostile, told):
        each(trial)
    print(f"rows of persons: {len(WRONG)} wrong specs of persons, {trial.tried} comparisons, {trial.differences} differences")
    sys.exit(1 if trial.differences else 0)


main()
