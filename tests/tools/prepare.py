#!/usr/bin/env python3
"""Tries tools/prepare on awkward raw files, to a first answer of the program; on wrong specs; on modes of files; and what its report says.

usage: tests/tools/prepare.py [--alone]    (PROGRAM=FILE tries another build than tools/build's; --alone tries none)
Each raw file stands here with the table that is wanted of it, written by hand. The program then answers, at an EPS that leaves no noise, how
many rows there are and how many each key has. A report of random cells is compared with counts that are worked out in another way. Also
tools/ask with wrong names, tools/afresh over a program that stands in, and tools/public. It ends with status 1 where one differs.
"""
import csv
import datetime
import errno
import io
import json
import os
import random
import re
import resource
import signal
import subprocess
import sys
import tempfile
from decimal import ROUND_HALF_UP, Decimal

sys.path.insert(0, f"{os.path.dirname(os.path.abspath(__file__))}/../lib")
from places import TOP  # noqa: E402
from preparing import BASE, PROGRAM, Trial, flags, mode, prepare, run, tables_in, text_of, unread, write  # noqa: E402

REGISTER = f"{TOP}/examples/register"
# A name, the raw file's bytes, flags, the table that is wanted, and words that its report has.
FILES = [
    (
        "windows-1252, semicolons, 1.234,5, dates, a title and a source line",
        "Title;;;\r\n\r\nRégion;Né le;Revenu €;Sexe\r\nProvence, Alpes ;01.02.1980;1.234,56;f\r\nÎle-de-France;31.12.1999;-2.000,00;m\r\n"
        "Corse;1.1.2000;0,5;m\r\nSource: x\r\n".encode("cp1252"),
        ["raw.ragged=row out", "region.kind=key", 'region.keys=["Provence, Alpes", "Île-de-France"]', "revenu.scale=10", "sexe.kind=key", 'sexe.keys=["f", "m"]', "ne_le.unit=year"],
        "region,ne_le,revenu,sexe\nProvence_Alpes,1980,12346,f\nÎle-de-France,1999,-20000,m\nCorse,2000,5,m\n",
        ["'Provence, Alpes' -> Provence_Alpes: 1 time", "in no key: 1 cell, which stay in the table and in no part", "'Corse': 1 time, first at line 6", "rounded: 1 cell had", "row of another length: 1, first at line 7", "trimmed: 1 cell had"],
    ),
    (
        "a byte order mark, CR LF, quoted line ends, doubled quotes",
        b'\xef\xbb\xbf"name, of it",n\r\n"two\r\nlines",1\r\n"say ""hi""",2\r\n"a, b", 3 \r\n',
        ["name_of_it.kind=text"],
        'name_of_it,n\ntwo lines,1\nsay \'hi\',2\n"a, b",3\n',
        ["3 rows after the header of line 1", "'two\\r\\nlines' -> two lines: 1 time"],
    ),
    (
        "UTF-16 with tabs",
        "ort\tzahl\nKöln\t1\nBonn\t2\nBonn\t3\n".encode("utf-16"),
        ["ort.kind=key", 'ort.keys=["Bonn", "Köln"]'],
        "ort,zahl\nKöln,1\nBonn,2\nBonn,3\n",
        ["in utf-16, parted by tab", "Bonn: 2"],
    ),
    ("CR alone, no end of the last line", b"a|b\r1|2\r-3|4", [], "a,b\n1,2\n-3,4\n", ["2 rows after the header of line 1"]),
    (
        "rows too short and too long, delimiters at their ends, blank lines, rows of nothing",
        b"a,b,c\n1,2,3, ,\n\n4,5\n,,\n6,7,8\n9,8,7,6\n",
        ["raw.ragged=row out"],
        "a,b,c\n1,2,3\n6,7,8\n",
        ["rows without any cell, passed over: 1", "rows left out, for a row of another length: 2, first at lines 4, 7"],
    ),
    (
        "rows too short, filled",
        b"a,b,c\n1,2,3\n4,5\n6,7,8\n",
        ["raw.ragged=fill", "c.if_missing=-1"],
        "a,b,c\n1,2,3\n4,5,-1\n6,7,8\n",
        ["rows that were too short and were filled: 1, first at line 3", "missing: 1 ('' 1): `-1` stands there"],
    ),
    (
        "titles twice, without letters, or words of the language; 20 columns",
        (",".join(["sum", "Age", "age", "", "1990", "§§"] + ["x"] * 14) + "\n" + ",".join(map(str, range(20))) + "\n").encode(),
        [],
        "sum_,age,age_2,column_4,_1990,column_6,x,x_2,x_3,x_4,x_5,x_6,x_7,x_8,x_9,x_10\n" + ",".join(map(str, range(16))) + "\n",
        ["left out: x, x, x, x"],
    ),
    (
        "thousands, signs of money, all kinds of minus, exponents, a top code, bad cells out",
        "n,m\n\"$1,234\",1\n+5,.5\n\u2212600,1e3\n(7),2\n 85+ ,3.\n12%,4\n\"1,23\",5\n".encode(),
        ["n.kind=number", "n.strip=$%", "n.decimal=.", "n.scale=1", "n.thousands=,", "n.parentheses=false", 'n.map={"85+": "85"}', "n.top=1000", "n.bottom=-500", "n.if_bad=row out", "m.scale=2"],
        "n,m\n1000,2\n5,1\n-500,2000\n85,6\n12,8\n",
        ["bad: 2: the row is left out", "'(7)': 1 time, first at line 5: it is no number", "top 1000: 1 cell over it, which takes 234 off the sum", "bottom -500: 1 cell under it, which adds 100 to the sum"],
    ),
    (
        "dates of every form, ages, and dates that aren't",
        b"a,b,c,d\n3/14/2021,2021-03-14T10:00:00Z,01-Mar-69,2021-03\n2/29/2021,2020-12-31T,31-Dec-68,2020-12\n12/31/2020,2020-01-01T,28-February-70,2019-01\n",
        ["a.kind=date", "a.format=MM/DD/YYYY", "a.if_bad=row out", "b.unit=month", "b.since=2020-01-01", "c.unit=age", "c.since=2020-02-28", "d.unit=year"],
        "a,b,c,d\n18700,14,50,2021\n18627,0,50,2019\n",
        ["'2/29/2021': 1 time, first at line 3: it is no date of the form MM/DD/YYYY", "rows left out, for a: 1, first at line 3"],
    ),
    (
        "missing cells: codes, words, and rows out",
        b"k,n,m\nA,1,x\n-,999,y\nB,NA,\n C ,4,x\n",
        ["k.kind=key", 'k.keys=["A", "B", "unknown"]', "k.if_missing=unknown", 'n.missing=["999", "NA"]', "n.kind=number", "n.if_missing=-1", "m.kind=text", "m.if_missing=row out", 'k.missing=["-"]'],
        "k,n,m\nA,1,x\nunknown,-1,y\nC,4,x\n",
        ["missing: 2 ('999' 1, 'NA' 1): `-1` stands there", "missing: 1 ('' 1): the row is left out", "'C': 1 time, first at line 5", "in no key: 1 cell"],
    ),
    (
        "texts that become one, accents in two pieces, hard blanks, long texts, control bytes, broken bytes",
        "t,n\nGreat Marlow,1\nGreat_Marlow,2\nCafe\u0301,3\nCaf\u00e9,4\nA\u00a0B,5\nA\tB,6\n".encode() + 65 * b"x" + b",7\n\xff\xfe,8\n\"\"\"\"\"\",9\n" + "éééééééééé".encode() * 3 + b",10\n",
        ["raw.encoding=utf-8", "t.kind=key", "t.if_bad=bad", 't.keys=["Great Marlow", "Café", "A B", "bad"]'],
        "t,n\nGreat_Marlow,1\nGreat_Marlow,2\nCafé,3\nCafé,4\nA_B,5\nA_B,6\nbad,7\nbad,8\nbad,9\n" + "é" * 30 + ",10\n",
        ["one text now, and several before: Great_Marlow (from 'Great Marlow', 'Great_Marlow')", "bad: 3: `bad` stands there", "it has bytes that its encoding doesn't know", "A_B: 2", "Great_Marlow: 2"],
    ),
    (
        "amounts in parentheses, dates of two forms, a total at the end, which stops at no other column, capitals, and a key that is a code",
        b'Case,Born,Fee,Town\n1,3/14/1950,"$1,200.50",Bray\n2,12/31/49,($20),bray\n3,1/2/25,( 7.5 ),Slough\n4,5/6/2001,-3,\n5,1/2/24,(1),BRAY\nTotal,,"$1,169.00",\n',
        [
            "case_.kind=text", "case_.keep=false", 'case_.missing=["Total"]', "case_.if_missing=row out", "born.kind=date", 'born.format=["MM/DD/YYYY", "MM/DD/YY"]',
            "born.earliest=1925", "born.unit=year", "born.if_missing=stop", "fee.kind=number", "fee.scale=1", "fee.strip=$", "fee.thousands=,", "fee.parentheses=true",
            "town.kind=key", "town.case=upper", 'town.keys=["Bray", "unknown"]', "town.if_missing=unknown",
        ],
        "born,fee,town\n1950,1201,BRAY\n1949,-20,BRAY\n1925,-8,SLOUGH\n2001,-3,unknown\n2024,-1,BRAY\n",
        ["rows left out, for case_: 1, first at line 7\nBelow, cells of all rows are counted", "missing: 1 ('' 1): it stops, unless another column puts the row out", "unknown: 2\n", "in no key: 1 cell", "'Slough' -> SLOUGH: 1 time, first at line 4\n"],
    ),
    (
        "months of several languages, and names of two months",
        "d,n\n1. März 2020,1\n2 août 1999,2\n3 Sept. 2001,3\n4 JUIN 2001,4\n5 juillet 2001,5\n6 jui 2001,6\n7 Mayor 2001,7\n8 dic. 2001,8\n9 de 2001,9\n10 Okt 2001,1’000\n".encode(),
        ["d.kind=date", 'd.format=["DD Mon YYYY", "DD. Mon YYYY"]', "d.unit=month", "d.since=2001-01-01", "d.if_bad=0", "n.kind=number", "n.decimal=.", "n.thousands=’", "n.scale=1"],
        "d,n\n230,1\n-17,2\n8,3\n5,4\n6,5\n0,6\n0,7\n11,8\n0,9\n9,1000\n",
        ["bad: 3: `0` stands there", "'6 jui 2001': 1 time"],
    ),
    (
        "texts that are a key but for capitals, accents and signs",
        "n,t\n1,Hauts de France\n2,hauts-de-france\n3,ILE DE FRANCE\n4,Corse\n5,\n".encode(),
        ["t.kind=key", 't.keys=["Hauts-de-France", "Île-de-France", "Corsé", "(none)"]', "t.if_missing=none"],
        "n,t\n1,Hauts_de_France\n2,hauts-de-france\n3,ILE_DE_FRANCE\n4,Corse\n5,none\n",
        [
            "'Hauts de France' -> Hauts_de_France: 1 time, first at line 2; like the key Hauts-de-France, which `map` makes of it",
            "'hauts-de-france': 1 time, first at line 3; like the key Hauts-de-France, which `map` or `case` makes of it",
            "first at line 4; like the key Île-de-France", "first at line 5; like the key Corsé", "'' -> none: 1 time, first at line 6\n",
        ],
    ),
    (
        "one column, and the greatest numbers",
        b"n\n1125899906842624\n-1125899906842624\n1125899906842625\n-0\n007\n",
        ["n.kind=number", "n.if_bad=row out"],
        "n\n1125899906842624\n-1125899906842624\n0\n7\n",
        ["it is 1125899906842625, and a number is within"],
    ),
]  # fmt: skip
BANDS = '{"name": "band", "kind": "bands", "of": "age", "bounds": [18, 65], "partition": "bands"}'
JOINT = '{"name": "cell", "kind": "joint", "of": ["sex", "band"]}'
LONG = 254 * "x"
# Flags over a good spec, or a spec's bytes; and what is said.
WRONG = [
    (["--set", "raw.encoding=utf-9"], "raw.encoding: `utf-9` is no encoding"),
    (["--set", "raw.delimiter=."], "raw.delimiter: it is `,`, `;`, `|` or a tab"),
    (["--set", "raw.ragged=out"], "raw.ragged: it is `stop`, `row out` or `fill`"),
    (["--set", "raw.skip=1.5"], "raw.skip: a whole number is wanted here"),
    (["--set", "raw.skip=2"], "the header has no column `Age`"),
    (["--set", "table.name=sum"], "table.name: `sum` is no table's name"),
    (["--set", "table.file=raw.csv"], "table.file is the raw file itself"),
    (["--set", "table.file=no/t.csv"], "there is no folder no"),
    (["--set", "table.file=."], "can't be written: it is a folder"),
    (["--set", f"table.file={LONG}"], f"{LONG}.report can't be written: {os.strerror(errno.ENAMETOOLONG)}"),
    (["--set", "catalog.file="], "catalog.file: a file's name has 1 to 255 bytes"),
    (["--set", 'raw.encoding="a\\u0000b"'], "is no encoding that Python knows"),
    (["--set", "catalog.file=./t.csv"], "catalog.file is table.file itself"),
    (["--report", "good"], "the report is the spec itself"),
    (["--set", "catalog.budget=0"], "catalog.budget: 1 to 10^18"),
    (["--set", "catalog.capacity=1"], "catalog.capacity: 2 to 262144"),
    (["--set", 'catalog.analysts=["ann", "ann"]'], "catalog.analysts: a name stands twice"),
    (["--set", "catalog.owner=o o"], "catalog: `o o` is no name"),
    (["--set", "agee.scale=2"], "--set agee.scale=2: PART.MEMBER=VALUE is wanted"),
    (["--set", "age.scal=2"], "columns[0] (age): `scal` is no member; here may stand name, kind"),
    (["--set", "age.scale=0"], "columns[0] (age).scale: it is over 0"),
    (["--set", "age.scale=x"], "columns[0] (age).scale: a number is wanted here"),
    (["--set", "age.scale=1e9999"], "columns[0] (age).scale: a number is wanted here"),
    (["--set", "age.top=1.5"], "columns[0] (age).top: 1.5 times the scale 1 is no whole number"),
    (["--set", "age.bottom=9", "--set", "age.top=8"], "columns[0] (age).top: it is under the bottom"),
    (["--set", "age.decimal=;"], "columns[0] (age).decimal: it is `.` or `,`"),
    (["--set", "age.thousands=."], "columns[0] (age).thousands: it is one sign"),
    (["--set", "age.strip=$()"], "columns[0] (age).strip: without its parentheses (7) would be 7"),
    (["--set", "age.parentheses=()"], "columns[0] (age).parentheses: true or false is wanted here"),
    (["--set", "age.kind=date", "--set", 'age.format=["YYYY", "%d"]'], "columns[0] (age).format: it has YYYY"),
    (["--set", "age.kind=date", "--set", "age.format=[]"], "columns[0] (age).format: it has YYYY"),
    (["--set", "age.kind=date", "--set", "age.format=YY", "--set", "age.earliest=25"], "columns[0] (age).earliest: the first of the hundred years"),
    (["--set", "age.kind=date", "--set", "age.format=DD.DD.YYYY"], "columns[0] (age).format: `DD.DD.YYYY` has the year, the month or the day more than once"),
    (["--set", "age.kind=date", "--set", 'age.format=["YYYY", "Mon YY MM", "YYYY YY"]'], "columns[0] (age).format: `Mon YY MM, YYYY YY` has the year"),
    (["--set", "age.if_missing=none"], "columns[0] (age).if_missing: `row out`, `stop`, or a whole number"),
    (["--set", "age.missing=[-1]"], "columns[0] (age).missing: cells are texts"),
    (["--set", "age.at=2"], "the header has another column `Age` at 2; there stands `Sex`"),
    (["--set", "age.name=a b"], "columns[0] (a b).name: `a b` is no name"),
    (["--set", "age.name=sex"], "two columns are called `sex`"),
    (["--set", "age.kind=num"], "columns[0] (age).kind: it is one of number, date, text, key"),
    (["--set", 'age.kind=["key"]'], "columns[0] (age).kind: it is one of number, date, text, key"),
    (["--set", 'age.name=["a"]', "--set", "age.kind=text"], "--set age.kind=text: PART.MEMBER=VALUE is wanted"),
    (["--set", "age.kind=date"], "columns[0] (age): `format` is missing"),
    (["--set", "age.keys=[]"], "columns[0] (age): `keys` is no member of this kind (key may have it): take it away"),
    (["--set", "age.kind=date", "--set", "age.format=%d"], "columns[0] (age).format: it has YYYY"),
    (["--set", "age.kind=date", "--set", "age.format=YYYY", "--set", "age.unit=age"], "`since` is missing"),
    (["--set", "age.kind=date", "--set", "age.format=YYYY", "--set", "age.since=1.1.1970"], "columns[0] (age).since: a date is wanted here"),
    (["--set", 'sex.keys=["a b", "a_b"]'], "columns[1] (sex).keys: `a b` becomes `a_b`, and so does another key: take one of them away"),
    (["--set", 'sex.keys=[" "]'], "columns[1] (sex).keys: ` ` is no key"),
    (["--set", 'sex.keys=["\\udce9"]'], "columns[1] (sex).keys: `\\udce9` is no key"),
    (["--set", 'sex.if_bad="\\udce9"'], "columns[1] (sex).if_bad: `row out`, `stop`, or a text"),
    (["--set", "sex.if_other=x"], "columns[1] (sex).if_other: it is `kept`"),
    (["--set", "sex.if_missing=a b"], "columns[1] (sex).if_missing: `row out`, `stop`, or a text"),
    (["--set", "sex.case=Upper"], "columns[1] (sex).case: it is `lower` or `upper`"),
    (["--add", BANDS.replace("[18, 65]", "[65, 18]")], "columns[2] (band).bounds: whole numbers are wanted"),
    (["--add", BANDS.replace('"of": "age"', '"of": "sex"')], "columns[2] (band).of: `sex` is no column of the kind number or date"),
    (["--add", JOINT], "columns[2] (cell).of: `band` is no column of the kind key or bands"),
    (["--add", BANDS.replace('"bands", "of"', '"bands", "keep": 1, "of"')], "columns[2] (band).keep: true or false is wanted here"),
    (["--add", BANDS.replace("bands\"}", "sex\"}")], "would be no catalog (Double, partitions 0 1 0)"),
    (["--add", "{"], "it is no JSON value"),
    (["--add", '{"from": "Age", "name": "net", "kind": "number", "scale": 1e9999}'], "it is no JSON value: the exponent of 1e9999"),
    (["--set", "age.kind=leave out", "--set", "sex.kind=leave out"], "columns: 0 are kept, and a table has 1 to 16"),
    (b"[]", "the spec: an object is wanted here"),
    (b"{}", "the spec: `raw` is missing"),
    (b'{"raw": {,', "it is no JSON value"),
    (b"[" * 100_000, "it is no JSON value: it is nested too deep"),
    (b'{"raw": {}, "table": {}, "catalog": {}, "columns": [7]}', "columns[0].kind: it is one of"),
]  # fmt: skip
# Raw files that aren't read, with what is said.
UNREAD = [
    (None, "there is no raw.csv"),
    (b"PK\x03\x04" + 60 * b"\0", "raw.csv is a workbook (.xlsx, .ods) or a packed file, and no text: save or unpack it as CSV first"),
    (b"\xd0\xcf\x11\xe0" + 60 * b"\0", "raw.csv is a workbook (.xls), and no text"),
    (b"", "raw.csv has no record"),
    (b'Age,Sex\n1,f\n2,"m\n3,f\n', "a quote (\") is opened in the record of line 3 and never closed"),
]


def register(trial):
    """The example: its raw file, and what is made of it."""
    with tempfile.TemporaryDirectory() as room:
        run([f"{TOP}/tools/make_register", room], room, check=True)
        for name in ("raw.csv", "raw.spec"):
            with open(f"{REGISTER}/{name}", "rb") as file:
                there = file.read()
            if name == "raw.csv":
                with open(f"{room}/raw.csv", "rb") as file:
                    trial.same("examples/register/raw.csv", there == file.read(), True)
            write(f"{room}/{name}", there)
        ran = prepare(room, "--spec", "raw.spec", "--set", "catalog.budget=1000000000000")
        trial.same("the example", (ran.returncode, ran.stderr), (0, ""))
        for name in ("people.csv", "catalog.json"):
            text = text_of(f"{REGISTER}/{name}").replace('"budget": 1000000,', '"budget": 1000000000000,')
            trial.same(f"examples/register/{name}", text_of(f"{room}/{name}"), text)
        trial.answers("the example", room, text_of(f"{room}/people.csv"))


def wrong_specs(trial):
    with tempfile.TemporaryDirectory() as room:
        write(f"{room}/raw.csv", b"Age,Sex\n10,f\n70,m\n20,f\n30,m\n")
        trial.same("a good spec", prepare(room, "--guess", "good", *flags(BASE)).returncode, 0)
        before = sorted(os.listdir(room))
        for change, said in WRONG:
            if isinstance(change, bytes):
                write(f"{room}/bad", change)
                ran = prepare(room, "--spec", "bad")
                os.remove(f"{room}/bad")
            else:
                ran = prepare(room, "--spec", "good", *change)
            what = f"{change}"[:200]
            trial.has(what, ran.stderr, said)
            trial.same(f"{what}: status, output, files", (ran.returncode, ran.stdout, sorted(os.listdir(room))), (2, "", before))
        commands(trial, room)
        for data, said in UNREAD:
            os.remove(f"{room}/raw.csv") if data is None else write(f"{room}/raw.csv", data)
            ran = prepare(room, "--spec", "good") if data else prepare(room, "--guess", "new")
            trial.has(f"{data}", ran.stderr, said)
            trial.same(f"{data}: status", ran.returncode, 2)


def commands(trial, room):
    """Words that are no command, files that are there already, folders in service."""
    for words, said in [
        ([], "a spec is wanted"), (["--spec", "none"], "there is no none: tools/prepare raw.csv --guess none"), (["--guess", "good"], "good is there already"),
        (["--guess", "x", "--spec", "good"], "name one of them"), (["--verbose"], "usage"),
    ]:  # fmt: skip
        ran = prepare(room, *words)
        trial.has(f"{words}", ran.stderr, said)
        trial.same(f"{words}: status", ran.returncode, 2)
    trial.has("--help", prepare(room, "--help").stdout, "--set PART.MEMBER=VALUE")
    os.makedirs(f"{room}/service/journals")
    for words in (["--guess", "service/new"], ["--spec", "good", "--set", "table.file=service/t.csv"], ["--spec", "good", "--report", "service/r"]):
        trial.has("a file for a folder in service", prepare(room, *words).stderr, "service has journals")
    os.rename(f"{room}/service/journals", f"{room}/journals")
    for words in (["--spec", "good"], ["--guess", "new"]):
        trial.has("a folder in service", prepare(room, *words).stderr, "this folder has journals")
    os.rmdir(f"{room}/journals")
    trial.same("nothing is written there", (os.listdir(f"{room}/service"), os.path.exists(f"{room}/new")), ([], False))
    os.rmdir(f"{room}/service")


def outputs(trial):
    """Modes of files, rows that are printed, a stop, other tables of the owner."""
    with tempfile.TemporaryDirectory() as room:
        write(f"{room}/raw.csv", b"Age,Sex\n10,f\nx7,m\n20,f\n30,\n")
        for name in ("t.csv", "t.report"):
            write(f"{room}/{name}", b"old")
            os.chmod(f"{room}/{name}", 0o644)
        ran = prepare(room, *flags(BASE), "--set", "age.kind=number")
        trial.same("a stop", (ran.returncode, ran.stdout.splitlines()[0]), (1, "raw.csv: 4 rows, and nothing is written, for age: 1"))
        trial.same("a stop writes the report alone", (text_of(f"{room}/t.csv"), sorted(os.listdir(room))), ("old", ["raw.csv", "t.csv", "t.report"]))
        trial.same("no cell is printed", re.findall("x7|10|f,", ran.stdout), [])
        trial.has("a stop's report", text_of(f"{room}/t.report"), "NOTHING IS WRITTEN, for age: 1")
        ran = prepare(room, *flags(BASE), "--set", "age.kind=number", "--set", "age.if_bad=row out", "--rows", "1", "--report", "private")
        out = "1 of 4 rows are out, more than one in 50: age 1"
        trial.same("rows that are asked for", ran.stdout.splitlines()[3:], ["age,sex", "10,f", "line 3:,x7,m", out])
        trial.same("modes", [mode(f"{room}/{name}") for name in ("t.csv", "private", "t.report")], 3 * [0o600])
        ran = prepare(room, *flags(BASE), "--set", "age.kind=number", "--set", "age.if_bad=-1", "--add", BANDS, "--set", "sex.kind=text", "--rows", "4")
        trial.same("bands of codes", ran.stdout.splitlines()[3:8], ["age,sex,band", "10,f,under_18", "-1,m,unknown", "20,f,from_18", "30,unknown,from_18"])
        trial.has("the head", text_of(f"{room}/private").splitlines()[0], "PRIVATE")
        trial.has("the head", text_of(f"{room}/private"), "It does not cover what was chosen by looking at the rows: keys, tops")


def said_of_catalogs(trial):
    """What is said of rows in no part, of files that stay, and of a catalog that was changed by hand."""
    with tempfile.TemporaryDirectory() as room:
        write(f"{room}/raw.csv", b"Age,Sex\n10,f\n20,F\nx,d\n")
        words = [*flags(BASE), "--set", "age.kind=number", "--set", "age.if_bad=row out", "--set", "sex.kind=key", "--set", 'sex.keys=["f"]']
        ran, out = prepare(room, *words), "1 of 3 rows are out, more than one in 50: age 1"
        trial.same("rows in no part", ran.stdout.splitlines()[3:], ["rows in no part of a partition: sex 1. The report says by which texts", out])
        trial.same("no rows in no part", prepare(room, *words, "--set", "sex.case=lower").stdout.splitlines()[3:], [out])
        ran = prepare(room, *words, "--set", "age.if_bad=stop")
        trial.same("files that stay", (ran.returncode, ran.stdout.splitlines()[1]), (1, "t.csv and catalog.json: as before, and not by this spec"))
        other = ["--set", "catalog.budget=7", "--set", 'catalog.analysts=["bob"]']
        wanted = ["catalog.json: budget was 1000000000000, and is 7 by the spec", "catalog.json: analysts was ann spare1 spare2 spare3, and is bob by the spec", out]
        trial.same("another budget", prepare(room, *words, *other, "--set", "sex.case=lower").stdout.splitlines()[3:], wanted)
        write(f"{room}/catalog.json", text_of(f"{room}/catalog.json").replace('"name": "o"', '"name": "p"').encode())
        ran = prepare(room, *words, *other, "--set", "sex.case=lower")
        trial.same("another owner", ran.stdout.splitlines()[3:], ["catalog.json: owner was p, and is o by the spec", out])


def no_room(trial):
    """A disk without room, in whose place files of no byte are allowed: nothing is written, and nothing is left beside."""
    with tempfile.TemporaryDirectory() as room:
        write(f"{room}/raw.csv", b"Age,Sex\n10,f\n20,m\n")
        prepare(room, "--guess", "s", *flags(BASE))
        for words, name in ((["--spec", "s"], "t.csv"), (["--guess", "new"], "new")):
            ran = prepare(room, *words, preexec_fn=lambda: resource.setrlimit(resource.RLIMIT_FSIZE, (0, 0)))
            said = f"tools/prepare: {name} can't be written: {os.strerror(errno.EFBIG)}\n"
            trial.same(f"no room for {name}", (ran.returncode, ran.stdout, ran.stderr, sorted(os.listdir(room))), (2, "", said, ["raw.csv", "s"]))
        for words in (["--spec", "s"], ["--guess", "new"]):
            trial.same(f"{words}, and nobody reads it", unread([f"{TOP}/tools/prepare", "raw.csv", *words], room), (-signal.SIGPIPE, ""))
        trial.same("its files are there", sorted(os.listdir(room)), ["catalog.json", "new", "raw.csv", "s", "t.csv", "t.report"])


def by_flags(trial):
    """Flags that name a column, where one that is left out is called so, too, or others are made of it; and what analysts are told of these."""
    with tempfile.TemporaryDirectory() as room:
        write(f"{room}/raw.csv", b"Age,Sex\n10,f\n70,m\n20,f\n30,m\n")
        prepare(room, "--guess", "s", *flags(BASE), "--set", "sex.kind=key", "--set", 'sex.keys=["f", "m"]', "--add", BANDS, "--add", JOINT)
        spec = json.loads(text_of(f"{room}/s"))
        spec["columns"].append({"from": "Sex", "at": 2, "name": "age", "kind": "leave out"})
        write(f"{room}/s", json.dumps(spec).encode())
        tenth = '{"from": "Age", "name": "tenth", "kind": "number", "scale": 0.1}'
        ran = prepare(room, "--spec", "s", "--set", "age.top=25", "--set", "sex.name=gender", "--add", tenth)
        trial.same("by flags", (ran.returncode, ran.stderr), (0, ""))
        want = "age,gender,band,cell,tenth\n10,f,under_18,f.under_18,1\n25,m,from_18,m.from_18,7\n20,f,from_18,f.from_18,2\n25,m,from_18,m.from_18,3\n"
        trial.same("by flags", text_of(f"{room}/t.csv"), want)
        said = run([f"{TOP}/tools/public", "catalog.json", "s"], room)
        trial.has("tools/public of bands", said.stdout, "    band : text, bands of age; unknown where nothing is known\n")
        trial.same("tools/public, and nobody reads it", unread([f"{TOP}/tools/public", "catalog.json"], room), (-signal.SIGPIPE, ""))
        spec["columns"][0] = {"from": "Age", "name": "age", "kind": "date", "format": "YYYY YY"}
        write(f"{room}/s", json.dumps(spec).encode())
        said = run([f"{TOP}/tools/public", "catalog.json", "s"], room)
        trial.same("tools/public of a wrong form", (said.returncode, said.stdout), (1, ""))
        trial.has("tools/public of a wrong form", said.stderr, "tools/public: s: columns[0] (age).format: `YYYY YY` has the year")


def notes_of_guesses(trial):
    """What a guess says of capitals, parentheses, years of two digits and the last rows."""
    rows = [f'{number},{"Bray" if number % 3 else "bray"},{"($1.50)" if number == 4 else "$2"},{"1/31/49" if number == 5 else "1/31/2000"},"a\nb"' for number in range(30)]
    with tempfile.TemporaryDirectory() as room:
        write(f"{room}/raw.csv", "\n".join(["No,Town,Fee,Day,\"Two\nlines\"", *rows, "Total,,$59.50,,", "Source: nobody,,,,", ""]).encode())
        ran = prepare(room, "--guess", "s")
        trial.same("a guess says a line for each column", len(ran.stdout.splitlines()), 7)
        spec = json.loads(text_of(f"{room}/s"))
        trial.has("the last rows", spec["note"], "The last, of lines 63, 64, may be totals or footnotes")
        _, town, fee, day, _ = spec["columns"]
        trial.has("capitals", town["note"], "`Bray` and `bray` differ in capitals alone")
        trial.same("parentheses", (fee["parentheses"], fee["strip"], "1 in parentheses, read as under 0" in fee["note"]), (True, "$", True))
        trial.same("two forms", (day["format"], "1969 to 2068" in day["note"]), (["MM/DD/YYYY", "MM/DD/YY"], True))
        write(f"{room}/raw.csv", "\n".join(["No,Town,Fee,Day,x", *rows, ""]).encode())
        trial.same("a guess of rows alone", (prepare(room, "--guess", "s2").returncode, "totals" in text_of(f"{room}/s2")), (0, False))


def guesses_taken(trial):
    """A guess goes through where a key has a broken cell, and where more columns seem keys than a catalog takes."""
    with tempfile.TemporaryDirectory() as room:
        towns = ["Zürich", "Genève", "Bâle"]
        write(f"{room}/raw.csv", "\n".join(["town", *(towns[number % 3] for number in range(200)), ""]).encode() + b"Gen\xe8ve\n")
        trial.same("a broken cell among keys", prepare(room, "--guess", "s").returncode, 0)
        town = json.loads(text_of(f"{room}/s"))["columns"][0]
        trial.same("its keys", (town["kind"], town["keys"]), ("key", [*sorted(towns), "unknown"]))
        trial.has("its note", town["note"], "and in 1 are bytes that the encoding doesn't know")
        trial.same("it stops there", prepare(room, "--spec", "s").stdout.splitlines()[0], "raw.csv: 201 rows, and nothing is written, for town: 1")
        trial.same("unless it is told", prepare(room, "--spec", "s", "--set", "town.if_bad=unknown").returncode, 0)
    with tempfile.TemporaryDirectory() as room:
        rows = [",".join(["a" if number % 2 else "b"] * 10) for number in range(60)]
        write(f"{room}/raw.csv", "\n".join([",".join(f"c{number}" for number in range(10)), *rows, ""]).encode())
        said = "a catalog has at most 8 partitions, so these seemed keys and are texts: c8, c9"
        trial.same("many columns of keys", prepare(room, "--guess", "s").stdout.splitlines()[12:], [said])
        ran = prepare(room, "--spec", "s")
        trial.same("and a catalog of eight", (ran.returncode, ran.stderr, len(tables_in(room)[2])), (0, "", 8))
        trial.same("by flags", prepare(room, "--set", "c0.case=upper", "--set", 'c0.keys=["a"]').stdout.splitlines()[3], said)


def many_keys(trial):
    """How many keys count hardly shows in the time that 20,000 texts take."""
    with tempfile.TemporaryDirectory() as room:
        write(f"{room}/raw.csv", "\n".join(["t", *(f"t{number}" for number in range(20_000)), ""]).encode())
        times = []
        for count in (1, 4000):
            keys = json.dumps([f"t{number}" for number in range(count)])
            before = resource.getrusage(resource.RUSAGE_CHILDREN).ru_utime
            ran = prepare(room, *flags(BASE), "--set", "t.kind=key", "--set", f"t.keys={keys}", "--set", "t.missing=[]")
            times.append(resource.getrusage(resource.RUSAGE_CHILDREN).ru_utime - before)
            trial.same(f"{count} keys", (ran.returncode, ran.stdout.splitlines()[3].split(".")[0]), (0, f"rows in no part of a partition: t {20_000 - count}"))
        trial.same(f"4000 keys in {times[1]:.1f} s, and one in {times[0]:.1f} s", times[1] < 3 * times[0], True)


def other_tables(trial):
    """A catalog that is there: other tables stay, and this one is put anew."""
    with tempfile.TemporaryDirectory() as room:
        write(f"{room}/raw.csv", b"Age,Sex\n10,f\n20,f\n30,\n")
        first = [*flags(BASE), "--set", "age.kind=leave out", "--set", "sex.kind=text"]
        again = [*first, "--set", "catalog.owner=p", "--set", "table.name=v"]
        for words in (first, again):
            trial.same("a catalog of this table alone", prepare(room, *words).returncode, 0)
        trial.same("is made anew", tables_in(room), ("p", ["v"], []))
        trial.same("and back", (prepare(room, *first).returncode, tables_in(room)), (0, ("o", ["t"], [])))
        other = [*flags(BASE), "--set", "table.name=u", "--set", "table.file=u.csv", "--set", "sex.kind=key", "--set", 'sex.keys=["f"]', "--set", "sex.partition=by_sex"]
        for _ in range(2):
            trial.same("another table", (prepare(room, *other).returncode, tables_in(room)), (0, ("o", ["t", "u"], ["by_sex"])))
        trial.same("the first again", (prepare(room, *first).returncode, tables_in(room)), (0, ("o", ["u", "t"], ["by_sex"])))
        same = [*first, "--set", "sex.kind=key", "--set", 'sex.keys=["f"]', "--set", "sex.partition=by_sex"]
        trial.has("two partitions of one name", prepare(room, *same).stderr, "name this one's by `partition`")
        trial.has("another budget", prepare(room, *first, "--set", "catalog.budget=7").stderr, "make them equal")
        trial.has("another owner", prepare(room, *again).stderr, "one owner a folder")
        write(f"{room}/catalog.json", b"{")
        trial.has("a broken catalog", prepare(room, *first).stderr, "is there and is no catalog")


# A report of random cells, and the same counts worked out in another way.

CELLS = ["", "NA", " 12", "12.50", "-3.255", "1000", "1,000.25", "4000.5", "x", "12.5.5", "-20", "7.005", "1e3"]
TOWNS = ["Great Marlow", "Bray", "Bray ", "Great_Marlow", "a,b", "Slough", "", "bray"]
DAYS = ["2000-02-29", "1999-02-29", "2010-12-31", "", "2010-1-1", "soon"]
RANDOM = [
    "n.kind=number", "n.scale=100", "n.thousands=,", "n.bottom=-10", "n.top=2000", 'n.missing=["", "NA"]', "n.if_missing=-7", "n.if_bad=row out",
    "k.kind=key", 'k.keys=["Great Marlow", "Bray", "none"]', "k.if_missing=none", "d.kind=date", "d.format=YYYY-MM-DD", "d.if_missing=row out",
    "d.if_bad=row out", "d.unit=day", 'k.missing=[""]', 'd.missing=[""]',
]  # fmt: skip


def cents(text):
    try:
        return int((Decimal(text.strip().replace(",", "")) * 100).quantize(Decimal(1), ROUND_HALF_UP))
    except ArithmeticError:
        return None


def day(text):
    try:
        return (datetime.datetime.strptime(text, "%Y-%m-%d").date() - datetime.date(1970, 1, 1)).days
    except ValueError:
        return None


def random_report(trial):
    chance = random.Random(29)
    rows = list(filter(any, ((chance.choice(CELLS), chance.choice(TOWNS), chance.choice(DAYS)) for _ in range(3000))))
    out = io.StringIO()
    csv.writer(out).writerows([("n", "k", "d"), *rows])
    with tempfile.TemporaryDirectory() as room:
        write(f"{room}/raw.csv", out.getvalue().encode())
        ran = prepare(room, *flags(BASE), *flags(RANDOM))
        trial.same("random cells", (ran.returncode, ran.stderr), (0, ""))
        for words in counts_of(rows):
            trial.has("random cells", text_of(f"{room}/t.report"), words)
        want = table_of(rows)
        trial.same("the table of random cells", text_of(f"{room}/t.csv").splitlines()[1:], want)
        trial.answers("random cells", room, text_of(f"{room}/t.csv"))


def clip(cents_):
    return max(-1000, min(200_000, cents_))


def town(text):
    return re.sub("[ ,]", "_", text.strip()) or "none"


def table_of(rows):
    found = []
    for n, k, d in rows:
        value = -7 if n in ("", "NA") else cents(n)
        if value is not None and day(d) is not None:
            found.append(f"{value if n in ('', 'NA') else clip(value)},{town(k)},{day(d)}")
    return found


def lost_days(rows):
    """Rows that are out for their day alone."""
    return sum((n in ("", "NA") or cents(n) is not None) and day(d) is None for n, _, d in rows)


def counts_of(rows):
    numbers = [cents(n) for n, _, _ in rows if n not in ("", "NA")]
    good = [number for number in numbers if number is not None]
    over, under = [number for number in good if number > 200_000], [number for number in good if number < -1000]
    towns = [town(k) for _, k, _ in rows]
    finer = [n for n, _, _ in rows if n in ("-3.255", "7.005")]
    lines = [line for line, (n, _, _) in enumerate(rows, 2) if n == "x"]
    blanks = [n for n, _, _ in rows if n == "" or n == "NA"]
    others = [name for name in towns if name not in ("Great_Marlow", "Bray", "none")]
    bad_days = [d for _, _, d in rows if d and day(d) is None]
    return [
        f"raw.csv: {len(rows)} rows after", f"missing: {len(blanks)} (", f"'NA' {blanks.count('NA')}", f"bad: {len(numbers) - len(good)}: the row",
        f"'x': {len(lines)} times, first at line {lines[0]}: it is no number", f"values: from {min(good)} to {max(good)}, as",
        f"rounded: {len(finer)} cells", f"top 200000: {len(over)} cells over it, which takes {sum(over) - 200_000 * len(over)} off",
        f"bottom -1000: {len(under)} cells under it, which adds {-1000 * len(under) - sum(under)} to", "at least 200000 millionths",
        f"Great_Marlow: {towns.count('Great_Marlow')}\n", f"Bray: {towns.count('Bray')}\n", f"none: {towns.count('none')}\n", f"in no key: {len(others)} cells",
        f"'Slough': {towns.count('Slough')} times", f"'a,b' -> a_b: {towns.count('a_b')} times", f"bad: {len(bad_days)}: the row",
        f"rows left out, for n: {len(numbers) - len(good)}, first at lines", f"rows left out, for d: {lost_days(rows)}, first at lines",
    ]  # fmt: skip


# The small tools.

# In the program's place: it makes journals and says so, or names the files that it sees.
STAND_IN = """#!/bin/sh
for file in "$2" "$3"; do [ -e "$file" ] || { echo "refused $file"; exit 3; }; done
if [ "$1" = init ]; then mkdir journals && echo made; else ls -A; fi
"""


def rooms(trial):
    """tools/afresh gives the program the files of its folder, hidden ones too, but for journals; and it writes none of them."""
    with tempfile.TemporaryDirectory() as room:
        files = {"made": b"mine", ".key": b"k", "data/catalog.json": b"{}", "journals/0.bud": b"old", "program": STAND_IN.encode()}
        for name, data in files.items():
            os.makedirs(os.path.dirname(f"{room}/{name}"), exist_ok=True)
            write(f"{room}/{name}", data)
        os.chmod(f"{room}/program", 0o700)
        before = sorted(os.listdir(room))
        more = {"env": {**os.environ, "PROGRAM": "program", "TMPDIR": "."}}
        for catalog in ("data/catalog.json", "./data/../data/catalog.json", f"{room}/data/catalog.json"):
            ran = run([f"{TOP}/tools/afresh", catalog, ".key"], room, **more)
            seen = sorted(name for name in ran.stdout.splitlines() if not name.startswith("tmp."))
            trial.same(f"tools/afresh {catalog}", (ran.returncode, seen, ran.stderr), (0, before, ""))
        ran = run([f"{TOP}/tools/afresh", "none", ".key"], room, **more)
        trial.same("tools/afresh none", (ran.returncode, ran.stdout, ran.stderr), (3, "refused none\n", ""))
        stayed = {}
        for name in files:
            with open(f"{room}/{name}", "rb") as file:
                stayed[name] = file.read()
        trial.same("its files stay as they were", stayed, files)
        os.remove(f"{room}/made")
        os.mkdir(f"{room}/made")
        trial.same("a folder made", run([f"{TOP}/tools/afresh", "data/catalog.json", ".key"], room, **more).returncode, 0)
        trial.same("no room is left", sorted(os.listdir(room)), before)


def small_tools(trial):
    survey = "examples/survey"
    environment = {**os.environ, "PROGRAM": PROGRAM}
    for analyst, owner, epsilon, status, said in [
        ("mia", "labour", "0.5", 0, ""), ("mio", "labour", "0.5", 1, "has no analyst mio"), ("mia", "labor", "0.5", 1, "has no owner labor"),
        ("mia", "labour", ".5", 1, ".5 is no EPS"), ("mia", "labour", "900", 1, ""), ("mi a", "labour", "1", 2, "are single words"),
    ]:  # fmt: skip
        if trial.alone:
            break
        ran = run([f"{TOP}/tools/ask", f"{survey}/catalog.json", f"{survey}/key", analyst, owner, epsilon, f"{survey}/programs/everyone"], TOP, env=environment)
        trial.same(f"tools/ask {analyst} {owner} {epsilon}", ran.returncode, status)
        trial.has(f"tools/ask {analyst} {owner} {epsilon}", ran.stderr, said)
        trial.same("it says one sentence at most", len(ran.stderr.splitlines()), 1 if said else 0)
    for part, status, said in [
        (["areas", "north"], 0, ""), (["area", "north"], 1, "has no partition area"), (["areas", "nowhere"], 1, "has no key nowhere of areas"),
        (["areas", "no where"], 2, "with _ for blanks"), (["areas"], 2, "usage: tools/ask"),
    ]:  # fmt: skip
        if trial.alone:
            break
        ran = run([f"{TOP}/tools/ask", f"{survey}/catalog.json", f"{survey}/key", "mia", "labour", "20", f"{survey}/programs/everyone", *part], TOP, env=environment)
        trial.same(f"tools/ask {part}", (ran.returncode, len(ran.stderr.splitlines())), (status, 1 if said else 0))
        trial.has(f"tools/ask {part}", ran.stderr, said)
        if status == 0:
            with open(f"{TOP}/{survey}/persons.csv", encoding="utf-8") as persons:
                rows = sum(line.startswith("north,") for line in persons)
            trial.same(f"tools/ask {part}: the rows", ran.stdout.splitlines()[1], f"answer 0 {rows} 20000000")
    if not trial.alone and "PROGRAM" not in os.environ:
        ran = run([f"{TOP}/tools/ask", f"{survey}/catalog.json", f"{survey}/key", "mia", "labour", "0.5", f"{survey}/programs/everyone"], TOP)
        trial.same("the note on the quick build", ran.stderr.count("NOT proved"), 1)
    said = run([f"{TOP}/tools/public", f"{survey}/catalog.json"], TOP)
    with open(f"{TOP}/{survey}/catalog.json", "rb") as file:
        catalog = json.loads(file.read())
    names = [name for owner in catalog["owners"] for name in [owner["name"], str(owner["budget"]), *(part["name"] for part in owner["partitions"])]]
    names += catalog["analysts"] + [name for owner in catalog["owners"] for table in owner["tables"] for name in [table["name"], *(column["name"] for column in table["columns"])]]
    names += [key for owner in catalog["owners"] for part in owner["partitions"] for key in part["keys"]]
    trial.same("tools/public says all that is public", [name for name in names if name not in said.stdout], [])
    trial.same("tools/public says no file", (said.returncode, said.stderr, ".csv" in said.stdout), (0, "", False))
    register = "examples/register"
    said = run([f"{TOP}/tools/public", f"{register}/catalog.json", f"{register}/raw.spec"], TOP)
    for line in (
        "    region : text, unknown where nothing is known\n", "    age : num, an age in whole years, on 2026-01-01\n", "    group : text, sex and band\n",
        "    income : num, whole numbers; from 0 to 6000, what is outside being the end itself\n", "    at most 1 row a person\n",
        "    a row is left out where age or income is missing; or age can't be read\n", "epsilon for a person is what is taken, times 1\n",
    ):  # fmt: skip
        trial.has("tools/public of a spec", said.stdout, line)
    trial.same("and no title, map or file", [word for word in ("Income", "Bretange", "n/a", ".csv") if word in said.stdout], [])
    for spec, words in (("README.md", "it is no JSON value"), ("none", "can't be read"), (f"{register}/raw.spec", "the catalog has no table people")):
        said = run([f"{TOP}/tools/public", f"{survey}/catalog.json", spec], TOP)
        trial.same(f"tools/public by {spec}", (said.returncode, said.stdout, said.stderr.startswith(f"tools/public: {spec}")), (1, "", True))
        trial.has(f"tools/public by {spec}", said.stderr, words)
    for name in ("README.md", "none"):
        said = run([f"{TOP}/tools/public", name], TOP)
        trial.same(f"tools/public {name}", (said.returncode, said.stdout, len(said.stderr.splitlines())), (1, "", 1))


def main():
    alone = sys.argv[1:] == ["--alone"]
    if not alone and "PROGRAM" not in os.environ:
        subprocess.run([f"{TOP}/tools/build"], check=True)
    trial = Trial(alone)
    register(trial)
    for what, data, changes, table, words in FILES:
        trial.file(what, data, changes, table, words)
        trial.by_guess(what, data)
    wrong_specs(trial)
    outputs(trial)
    said_of_catalogs(trial)
    no_room(trial)
    by_flags(trial)
    notes_of_guesses(trial)
    guesses_taken(trial)
    many_keys(trial)
    other_tables(trial)
    random_report(trial)
    rooms(trial)
    small_tools(trial)
    print(f"{len(FILES) + 1} raw files, {len(WRONG)} wrong specs, {trial.tried} comparisons, {trial.differences} differences")
    sys.exit(1 if trial.differences else 0)


main()
