#!/usr/bin/env python3
"""Provokes each status of the program, and each cause of it that tools/why knows, and reads what tools/why says.

usage: tests/tools/why.py [--quick]    (PROGRAM=FILE tries another build than tools/build's; --quick tries every third cause of a status that has many)
Each case is a folder that is made ready twice: in the one the program runs by itself, in the other by tools/why. Output and status must be
the same, and standard error must have the words that are wanted, and none that aren't. Of journals that are damaged at random the line that is
found must be the program's, and damage must have a sentence. As root it also tries what a user without rights meets, a full disk and a read-only one.
It ends with status 1 where one differs, or where a status from 0 to 11 never came.
"""
import json
import os
import random
import shutil
import subprocess
import sys
import tempfile
import time
from collections import Counter

sys.path.insert(0, f"{os.path.dirname(os.path.abspath(__file__))}/../lib")
from places import TOP  # noqa: E402

PROGRAM = os.path.abspath(os.environ.get("PROGRAM", f"{TOP}/out/hitchseason"))
from catalog import catalog, owner  # noqa: E402
from causes import Command, Journals  # noqa: E402
from derivation_rows import doubling  # noqa: E402
from lines import harmless  # noqa: E402
from journal import GATE, HEAD, SLOT, VERSIONS, Grant, Refused, appended, capacity_in, contents, remade  # noqa: E402

TABLES = (("people", "people.csv", (("town", "text"), ("age", "num"))),)
SECOND = (("stays", "stays.csv", (("ward", "text"), ("nights", "num"))),)
AREAS = (("areas", "people", "town", ("A", "B")),)
FILES = {
    "catalog.json": catalog(owner(tables=TABLES, partitions=AREAS), owner(name="health", tables=SECOND, capacity=10), analysts=("ann", "bob", "spare")),
    "key": bytes(32),
    "people.csv": b"town,age\nA,20\nB,30\nA,40\n",
    "stays.csv": b"ward,nights\nsurgery,2\n",
    "program": b"size people\n",
    "script": b"hello ann\nask census 1 size people\nask census 1 2 * size people\nbye\n",
}
MORE = {"name": "more", "table": "people", "column": "town", "keys": ["A"]}
RUN, INIT, AUDIT = (f"{command} catalog.json key" for command in ("run", "init", "audit"))
CHECK, DERIVE = (f"{command} catalog.json census program" for command in ("check", "derive"))
# A bag's functions would take 64 walks for a row.
AGES, ONCE_MORE = b"let a = map (fn (p : text * num) => let (town, age) = p in age) people in ", b"let a = map (fn (x : num) => x + sum[0,1] a) a in "
WALKS = AGES + 7 * ONCE_MORE + b"0 * size a"
GRANT, MOST = "grant catalog.json key census", 10**18
LONG = 100 * 2**30


def write(name, data):
    os.makedirs(os.path.dirname(name) or ".", exist_ok=True)
    with open(name, "wb") as file:
        file.write(data)


def put(number, place, data):
    """Writes bytes into a journal."""
    with open(f"journals/{number}.bud", "r+b") as file:
        file.seek(place)
        file.write(data)


def put_in_slot(slot, place, data):
    put(0, HEAD + SLOT * slot + place, data)


def copy_slot(source, target):
    with open("journals/0.bud", "rb") as file:
        file.seek(HEAD + SLOT * source)
        put_in_slot(target, 0, file.read(SLOT))


def given(*grants, number=0):
    """Grants after a journal's records, each a number and an amount."""
    def lay():
        data = contents(f"journals/{number}.bud")
        write(f"journals/{number}.bud", appended(data, capacity_in(data), [Grant(*one) for one in grants]))
    return lay


def older(number=0):
    """Makes a journal one of version 1, with the same records."""
    name = f"journals/{number}.bud"
    write(name, remade(contents(name), 1))


def with_catalog(change):
    """Changes the catalog's value."""
    value = json.loads(FILES["catalog.json"])
    change(value)
    write("catalog.json", json.dumps(value).encode())


def of_owner(name, value, number=0):
    return lambda: with_catalog(lambda whole: whole["owners"][number].update({name: value}))


def drop_partition(whole):
    whole["owners"][0]["partitions"] = []


def swap_owners(whole):
    whole["owners"].reverse()


def link(target, name):
    shutil.rmtree(name, ignore_errors=True) if os.path.isdir(name) else os.path.lexists(name) and os.remove(name)
    os.symlink(target, name)


def emptied(folder="journals"):
    shutil.rmtree(folder)


def made_file():
    emptied()
    write("journals", b"")


def swap_journals():
    os.rename("journals/0.bud", "journals/x")
    os.rename("journals/1.bud", "journals/0.bud")
    os.rename("journals/x", "journals/1.bud")


def moved(name, other):
    return lambda: os.rename(name, other)


def written(name, data):
    return lambda: write(name, data)


def both(*steps):
    return lambda: [step() for step in steps]


def nothing():
    pass


def long_file():
    """A journal of 100 GB, nothing of which is on the disk but what was there."""
    os.truncate("journals/0.bud", LONG)


def of_table(name):
    return lambda: with_catalog(lambda whole: whole["owners"][0]["tables"][0].update(file=name))


GRANTS = [
    (nothing, GRANT, "", 2, ["`grant` takes 4 arguments, CATALOG KEY OWNER AMOUNT, and 3 stand there", "hitchseason grant CATALOG KEY OWNER AMOUNT"]),
    (nothing, f"{GRANT} 0", "", 2, [f"`0`: AMOUNT is a whole number of millionths from 1 to {MOST}, such as 500000"]),
    (nothing, f"{GRANT} {MOST + 1}", "", 2, [f"`{MOST + 1}`: AMOUNT is a whole number"]),
    (nothing, f"{GRANT} {5000 * '9'}", "", 2, ["AMOUNT is a whole number of millionths from 1 to"]),
    (nothing, f"{GRANT} 1.5", "", 2, ["`1.5`: AMOUNT is a whole number"]),
    (nothing, f"{GRANT} -1", "", 2, ["`-1` begins with a hyphen and is taken for an option, which `grant` hasn't", "!a file of this name"]),
    (nothing, "grant catalog.json key labour 5", "", 3, ["refused labour: the catalog has no owner of this name; it has census, health"]),
    (lambda: os.remove("people.csv"), f"{GRANT} 5", "", 3, ["refused people.csv: there is no such file"]),
    (lambda: os.remove("stays.csv"), f"{GRANT} 5", "", 0, []),
    (lambda: os.remove("journals/0.bud"), f"{GRANT} 5", "", 4, ["journal census uninitialised 0", "There is no journals/0.bud"]),
    (lambda: os.remove("journals/1.bud"), f"{GRANT} 5", "", 0, []),
    (lambda: write("key", bytes([1] * 32)), f"{GRANT} 5", "", 4, ["journal census changed"]),
    (given((1, 7)), f"{GRANT} 5", "", 4, ["journal census damaged 4", "it is grant number 1, and 0 is the next one"]),
    (nothing, f"{GRANT} 500000", "> /dev/full", 5, ["Standard output is /dev/full", "the record of grant 0, of 500000 millionths: it stands"]),
    (nothing, "grant . key census 5", "", 5, ["Is a directory", "nothing was granted"]),
    (made_file, f"{GRANT} 5", "", 6, ["disk census", "`journals` is a file, where a folder belongs", "nothing was granted"]),
    (nothing, f"{GRANT} {MOST}", "", 9, [f"The budget of census is 10000000 millionths, and {MOST} is the greatest: at most {MOST - 10**7} more may be"]),
    (given((0, MOST - 10**7)), f"{GRANT} 1", "", 9, [f"The budget of census is {MOST} millionths", "nothing more may be granted"]),
    (given(*((number, 1) for number in range(10)), number=1), "grant catalog.json key health 1", "", 10,
     ["The journal of health has 10 records, and room for 10"]),
    (given((0, 7)), f"{GRANT} 500000", "", 0, []),
]  # fmt: skip
def two(*steps):
    """Both disks have the journals, and then these things are done."""
    return both(lambda: shutil.copytree("journals", "mirrors"), *steps)


def with_reservation(folder, answer):
    """The answer of number 0 is another one, in this folder."""
    with open(f"{folder}/0.bud", "r+b") as file:
        file.seek(HEAD + SLOT + 15)
        file.write(bytes([answer]))


MIRROR = "--mirror"
MIRRORED = [
    (two(), f"{AUDIT} {MIRROR}", "", 0, []),
    (two(lambda: os.remove("journals/0.bud")), f"{RUN} {MIRROR}", "< script", 0, []),
    (two(), f"{AUDIT} {MIRROR} {MIRROR}", "", 2, ["`--mirror`: `--mirror` stands once, and takes no value"]),
    (two(), f"{AUDIT} {MIRROR}=yes", "", 2, ["`--mirror=yes`: `--mirror` stands once, and takes no value"]),
    (nothing, f"{CHECK} {MIRROR}", "", 2, ["`--mirror` is of init, run, serve, audit and grant: `check` opens no journal"]),
    (two(lambda: with_reservation("mirrors", 9)), f"{AUDIT} {MIRROR}", "", 4, ["journal census forked 1", "In journals/0.bud, slot 1 (from 0) is: settlement 0",
        "In mirrors/0.bud, slot 1 (from 0) is: settlement 0 answer 9", "A disk that had missed a run was put back", "The journal of health opens"]),
    (two(lambda: put(0, HEAD + 1, b"\7")), f"{AUDIT} {MIRROR}", "", 4, ["journal census damaged 0", "In journals/0.bud, slot 0"]),
    (two(lambda: write("mirrors/0.bud", contents("mirrors/0.bud")[:9])), f"{AUDIT} {MIRROR}", "", 4, ["journal census uninitialised 9", "mirrors/0.bud has 9 bytes"]),
    (two(lambda: write("mirrors/0.bud", contents("mirrors/1.bud"))), f"{AUDIT} {MIRROR}", "", 4, ["journal census changed", "mirrors/0.bud is a journal, but not that "
        "of census"]),
    (two(older), f"{AUDIT} {MIRROR}", "", 4, ["journal census changed", "journals/0.bud and mirrors/0.bud don't belong together", "of version 1 and the other's of "
        "version 3"]),
    (two(lambda: os.remove("journals/0.bud"), lambda: os.remove("mirrors/0.bud")), f"{AUDIT} {MIRROR}", "", 4, ["journal census uninitialised 0", "There is no "
        "journals/0.bud and no mirrors/0.bud"]),
    (two(lambda: os.remove("journals/0.bud")), AUDIT, "", 4, ["journal census uninitialised 0", "`--mirror` isn't among the arguments: `journals` alone"]),
    (two(), f"{INIT} {MIRROR}", "", 4, ["journal census exists 4224", "It is the journal that belongs here"]),
    (two(lambda: os.remove("mirrors/0.bud"), lambda: os.remove("journals/0.bud"), lambda: os.mkdir("journals/0.bud")), f"{AUDIT} {MIRROR}", "", 6, ["disk census",
        "journals/0.bud is a folder, where a file belongs"]),
    (both(emptied, lambda: link("nothing", "mirrors")), f"{INIT} {MIRROR}", "", 6, ["disk census", "`mirrors` is a link to nothing, where nothing is: is that disk "
        "mounted?"]),
]  # fmt: skip


# What is done to a folder with journals that have an answered ask, the program's words, the shell's words after them, the status, and words
# that are said. A word with ! in front of it must not be said. Cases after "more" are left out of the quick form.
MADE = [
    (nothing, "", "", 2, ["No arguments were given", "hitchseason gap CATALOG OWNER CATALOG2 FILE"]),
    (nothing, "walk catalog.json key", "", 2, ["`walk` is no command"]),
    (nothing, "Check catalog.json census program", "", 2, ["`Check` is no command: is `check` meant"]),
    (nothing, "-h", "", 2, ["the program has no help of its own"]),
    (nothing, f"hitchseason {AUDIT}", "", 2, ["tools/why takes the program's arguments alone"]),
    (nothing, "run catalog.json", "", 2, ["`run` takes 2 arguments, CATALOG KEY, and 1 stand there"]),
    (nothing, "check catalog.json census", "", 2, ["`check` takes 3 arguments, CATALOG OWNER FILE, and 2 stand there"]),
    (nothing, "derive catalog.json census", "", 2, ["`derive` takes 3 arguments, CATALOG OWNER FILE, and 2 stand there"]),
    (nothing, DERIVE.replace("derive", "judge"), "", 2, ["`judge` takes 4 arguments, CATALOG OWNER FILE DERIVATION, and 3 stand there"]),
    (nothing, f"{DERIVE} --mirror", "", 2, ["`derive` opens no journal"]),
    (nothing, f"{RUN} --workers 0", "", 2, ["`--workers 0`: `--workers` stands once, and takes a whole number from 1 to 16"]),
    (nothing, f"{RUN} --workers 17", "", 2, ["`--workers 17`: `--workers` stands once, and takes a whole number from 1 to 16"]),
    (nothing, "serve catalog.json key --port 70000 --each 10", "", 2, ["`--port 70000`: `--port` stands once", "!--each 10"]),
    (nothing, "serve catalog.json key --port 7000 --each 10 --workers 17", "", 2, ["`--workers 17`: `--workers` stands once", "!--each 10", "!--port 7000"]),
    (nothing, "serve catalog.json key --port=07000 --each +10 --addr", "", 2, ["`--addr`: `--addr` stands once", "!--each +10", "!--port=07000"]),
    (nothing, "serve catalog.json key --port 7000 --port 7000 --each 10", "", 2, ["`--port 7000`: `--port` stands once", "!--each 10"]),
    (nothing, "serve catalog.json key --port 7000", "", 2, ["`--each` is missing", "!--port 7000"]),
    (nothing, "serve catalog.json key --port 7000 --each 10 --worker 2", "", 2, ["`--worker` is no option: is `--workers` meant?", "!stand there"]),
    (nothing, "gen 7", "", 2, ["`gen` takes 2 or 3 arguments, SEED N [WORKERS], and 1 stand there", "hitchseason gen SEED N [WORKERS]"]),
    (nothing, "gen 4294967296 100001 17", "", 2, ["`4294967296`: SEED is a whole number from 0 to 4294967295", "`100001`: N is a whole number from 1 to "
        "100000", "`17`: WORKERS is a whole number from 1 to 16"]),
    (nothing, f"gen {5000 * '9'} 1", "", 2, ["SEED is a whole number from 0 to 4294967295"]),
    (nothing, "gen -1 2", "", 2, ["`-1` begins with a hyphen and is taken for an option, which `gen` hasn't", "!a file of this name"]),
    (nothing, "audit -x key", "", 2, ["`-x` begins with a hyphen", "`audit` takes 2 arguments, CATALOG KEY, and 1 stand there"]),
    (nothing, "audit catalog.json $'k\\xffy'", "", 2, ["Argument 2 isn't UTF-8"]),
    (nothing, "audit catalogue.json key", "", 3, ["refused catalogue.json: there is no such file in /", "Is `catalog.json` meant?"]),
    (nothing, "audit data/catalog.json key", "", 3, ["There is no folder `data` here"]),
    (nothing, "audit key/catalog.json key", "", 3, ["`key` is a file, and no folder"]),
    (written("catalog.json", b"{"), AUDIT, "", 3, ["refused catalog.json: the whole file: it is no JSON value"]),
    (written("key", bytes(31) + b"\n\n"), AUDIT, "", 3, ["refused key: it has 33 bytes, and a key has 32", "A line end stands after it"]),
    (written("people.csv", b"town,age\nA,1.5\nB,2\nA,n/a\n"), RUN, "< script", 3,
     ["refused people.csv: line 2, row 0 (the first is 0), column 1: age is '1.5'", "column age: no whole number in 2 cells", "'n/a' once (first in line 4)"]),
    (written("people.csv", b"town,age\n" + b"".join(b"A,x%d\n" % number for number in range(12))), RUN, "< script", 3,
     ["no whole number in 12 cells", "and 2 more (tools/find_fault --all tells them)"]),
    (of_owner("budget", 2**64), RUN, "< script", 3, ["owners[0].budget: a whole number from 0 on and below 2^64, without a point or an exponent, is wanted"]),
    (written("people.csv", b"Town,age\nA,1\n"), CHECK, "", 3, ["refused people.csv: line 1: the header is 'Town,age'", "'Town' differs from the column "
        "'town'"]),
    (lambda: os.remove("stays.csv"), AUDIT, "", 3, ["refused stays.csv: there is no such file"]),
    (nothing, "check catalog.json labour program", "", 3, ["refused labour: the catalog has no owner of this name; it has census, health"]),
    (nothing, "check catalog.json census query", "", 3, ["refused query: there is no such file"]),
    (nothing, "derive catalog.json census query", "", 3, ["refused query: there is no such file"]),
    (nothing, "judge catalog.json labour program derivation", "", 3, ["refused labour: the catalog has no owner of this name; it has census, health"]),
    (lambda: os.remove("stays.csv"), "judge catalog.json census program derivation", "", 3, ["refused derivation: there is no such file", "!stays.csv"]),
    (lambda: write("program", doubling(22)), DERIVE, "", 11, ["a derivation of over 67108864 bytes", "is twice as long as the other's each time"]),
    (lambda: write("second.json", FILES["catalog.json"].replace(b'"age"', b'"years"')), "gap catalog.json census second.json program", "", 3,
     ["refused census: its entries in the two catalogs don't fit: the columns of people are town text, age num in the first and town text, years num in the "
         "second"]),
    (lambda: os.truncate("people.csv", 2**26 + 1), CHECK, "", 3, ["refused people.csv: it has over 67108864 bytes"]),
    (nothing, "check <(head -c 5 key) census program", "", 3, ["it is a pipe or a device"]),
    (emptied, RUN, "< script", 4, ["journal census uninitialised 0", "There is no folder `journals` in /", "`init` was never run here"]),
    (lambda: os.remove("journals/0.bud"), AUDIT, "", 4, ["There is no journals/0.bud: those of health are there", "The journal of health opens, with 0 "
        "records", "!Runs were over these journals"]),
    (lambda: os.remove("journals/1.bud"), AUDIT, "", 4, ["journal health uninitialised 0", "The journal of census opens, with 4 records", "Runs were over "
        "these journals: that of census has records. Don't run `init`"]),
    (lambda: os.truncate("journals/1.bud", 0), AUDIT, "", 4, ["it is empty", "or somebody emptied it", "Runs were over these journals", "!zeros alone"]),
    (lambda: os.truncate("journals/0.bud", 100), AUDIT, "", 4, ["it is the beginning of this owner's journal", "all after it was cut off"]),
    (lambda: write("journals/0.bud", bytes(6528)), AUDIT, "", 4, ["journal census uninitialised 6528", "it has zeros alone"]),
    (lambda: put(1, 0, b"\0"), AUDIT, "", 4, ["journal health uninitialised 768", "its header is there but for the first byte"]),
    (lambda: put(0, 0, b"\x25"), AUDIT, "", 4, ["its first byte is 0x25, where 0xA5 belongs, but 4 slots are open: it was in service", "Don't run `init`"]),
    (lambda: put(0, 20, b"\1"), AUDIT, "", 4, ["Its header says number 0 (from 0), budget 9961856, capacity 100, and its digest is that of number 0, "
        "budget 10000000", "has written into the header", "!at init"]),
    (lambda: put(0, 70, b"\1\2"), AUDIT, "", 4, ["Its digest differs in 2 of 32 bytes", "has written into the header", "!Another than at init"]),
    (both(lambda: os.system("sha256sum catalog.json key *.csv > at_init"), lambda: put(0, 64, bytes(32))), AUDIT, "", 4,
     ["By the file at_init none of catalog.json, key, people.csv changed", "the journal is another one", "!Another than at init"]),
    (of_owner("budget", 20_000_000), AUDIT, "", 4, ["journal census changed", "The budget of the entry was 10000000 at init, and the catalog says "
        "20000000", "All else is as it was"]),
    (of_owner("capacity", 50), AUDIT, "", 4, ["The capacity of the entry was 100 at init, and the catalog says 50", "All else is as it was"]),
    (lambda: with_catalog(lambda whole: whole["analysts"].append("eve")), AUDIT, "", 4,
     ["At init the analysts were those of now without eve; with that", "The journal of health is refused, too: changed"]),
    (both(lambda: write("kept", FILES["key"]), lambda: write("key", bytes([1] * 32))), AUDIT, "", 4, ["At init the key was that of kept; with that"]),
    (lambda: write("key", bytes([1] * 32)), AUDIT, "", 4, ["Another than at init is one of these, or several: the key, the list of analysts, the entry of "
        "census", "people.csv"]),
    (lambda: write("people.csv", FILES["people.csv"] + b"B,50\nA,1\n"), AUDIT, "", 4, ["At init people.csv lacked the last 2 lines of now; with that"]),
    (lambda: write("people.csv", FILES["people.csv"].replace(b"\n", b"\r\n")), AUDIT, "", 4, ["At init people.csv had the line ends LF; with that"]),
    (lambda: write("people.csv", FILES["people.csv"].rstrip()), AUDIT, "", 4, ["At init people.csv had a line end after its last row; with that"]),
    (lambda: write("people.csv", FILES["people.csv"].replace(b"20", b"21")), AUDIT, "", 4,
     ["one of these, or several: the entry of census (but for its budget and capacity), people.csv", "The journal of health opens, so the key and the "
         "analysts", "!the list of analysts,"]),
    (both(moved("people.csv", "people.csv.bak"), lambda: write("people.csv", b"town,age\n")), AUDIT, "", 4, ["At init people.csv was as people.csv.bak is "
        "now"]),
    (both(lambda: os.system("sha256sum catalog.json key *.csv > at_init"), lambda: write("people.csv", b"town,age\nC,1\n")), AUDIT, "", 4,
     ["By the file at_init people.csv changed since its sums were taken"]),
    (lambda: with_catalog(drop_partition), AUDIT, "", 4, ["Another than at init is one of these", "the entry of census"]),
    (lambda: with_catalog(lambda whole: whole["owners"][0]["partitions"].append(MORE)), AUDIT, "", 4,
     ["At init the entry had no partition more; with that"]),
    (lambda: with_catalog(lambda whole: whole["owners"][0]["partitions"][0]["keys"].append("C")), AUDIT, "", 4, ["At init the partition areas had no key C; "
        "with that"]),
    (both(of_owner("partitions", []), lambda: write("old.json", FILES["catalog.json"])), AUDIT, "", 4, ["At init the catalog was as old.json is now; with "
        "that"]),
    (both(lambda: with_catalog(lambda whole: whole["analysts"].append("eve")), lambda: write("people.csv", FILES["people.csv"] + b"B,50\n")), AUDIT, "", 4,
     ["At init the analysts were those of now without eve", "At init people.csv lacked the last line of now"]),
    (swap_journals, AUDIT, "", 4, ["It is the journal of the owner health, made with the key, analysts and tables of now"]),
    (lambda: with_catalog(swap_owners), AUDIT, "", 4, ["It is the journal of the owner census"]),
    (lambda: put(0, 1, b"x"), AUDIT, "", 4, ["It is no journal: after its first byte `FUZZBUDG` doesn't stand"]),
    (lambda: put(0, 9, b"\4"), AUDIT, "", 4, ["It is a journal of version 4, and this program reads versions 1 to 3"]),
    (lambda: put(0, 96, b"\1"), AUDIT, "", 4, ["that are always zeros (26 to 63, and 96) aren't"]),
    (lambda: put(0, 98, bytes([GATE])), AUDIT, "", 4, ["A gate of its areas is out of order: byte 98 opens area 2, and area 1 before it isn't open"]),
    (lambda: put(0, 97, bytes([GATE] * 2)), AUDIT, "", 4, ["byte 98 opens area 2, and with capacity 100 the last one is area 1"]),
    (lambda: put(0, 97, bytes([GATE])), AUDIT, "", 4, ["journal census damaged 0", "the file has 4224 bytes, and 10624 are due: it ends in slot 0"]),
    (both(older, lambda: put(0, 127, b"\1")), AUDIT, "", 4, ["that are always zeros (26 to 63 and 96 to 127) aren't"]),
    (both(older, lambda: put(0, 20, b"\1")), AUDIT, "", 4, ["Its header says number 0 (from 0), budget 9961856", "has written into the header"]),
    (both(older, lambda: write("key", bytes([1] * 32)), lambda: write("kept", FILES["key"])), AUDIT, "", 4, ["At init the key was that of kept; with that"]),
    (older, INIT, "", 4, ["journal census exists 6528", "It is the journal that belongs here: census reservations 2 answered 2"]),
    (nothing, INIT, "", 4, ["journal census exists 4224", "It is the journal that belongs here: census reservations 2 answered 2"]),
    (lambda: os.remove("journals/0.bud"), INIT, "", 4, ["The journal of census wasn't there, and was made by this `init`", "journal health exists 768"]),
    (lambda: write("key", bytes([1] * 32)), INIT, "", 4, ["journal census exists 4224", "It doesn't open: changed"]),
    (lambda: os.truncate("journals/0.bud", 1000), AUDIT, "", 4, ["slot 13 (from 0): the file has 1000 bytes, and 4224 are due: it ends in slot 13"]),
    (both(older, lambda: os.truncate("journals/0.bud", 1000)), AUDIT, "", 4, ["slot 13 (from 0): the file has 1000 bytes, and 6528 are due: it ends in slot 13"]),
    (both(older, lambda: os.truncate("journals/0.bud", 6529)), AUDIT, "", 4, ["slot 100 (from 0): the file has 6529 bytes, and 6528 are due: 1 too many"]),
    (lambda: os.truncate("journals/0.bud", 4225), AUDIT, "", 0, []),
    (lambda: put_in_slot(0, 0, b"\x25"), AUDIT, "", 4, ["slot 1 (from 0): it is open after slot 0, which is closed: its first byte is 0x25", "the rest of "
        "it is a whole record"]),
    (lambda: copy_slot(1, 9), AUDIT, "", 4, ["slot 9 (from 0): it is open after slot 4, which is closed", "all of it is zeros"]),
    (lambda: put_in_slot(1, 1, b"\4"), AUDIT, "", 4, ["slot 1 (from 0): it is open, and holds no record: its kind (byte 1) is 4"]),
    (lambda: put_in_slot(1, 1, b"\3"), AUDIT, "", 4, ["slot 1 (from 0): it is open, and holds no record: bytes 2 and 3 of a grant are 1 and 0, where zeros"]),
    (given((0, 0)), AUDIT, "", 4, [f"slot 4 (from 0): its record may not stand there: its grant is of 0 millionths, and 1 to {MOST} are allowed"]),
    (both(given((0, 7)), lambda: put_in_slot(4, 16, b"\1")), AUDIT, "", 4, ["a grant has other bytes after its amount, where zeros belong"]),
    (given((0, 7), (2, 7)), AUDIT, "", 4, ["slot 5 (from 0): its record may not stand there: it is grant number 2, and 1 is the next one"]),
    (both(older, given((0, MOST))), AUDIT, "", 4, [f"with its grant of {MOST} the budget is {MOST + 10**7}, and {MOST} at most"]),
    (given((0, 7)), INIT, "", 4, ["journal census exists 4224", "census reservations 2 answered 2 exhausted 0 lost 0", "budget 10000007"]),
    (lambda: put_in_slot(1, 2, b"\4"), AUDIT, "", 4, ["the outcome of a settlement (byte 2) is 4"]),
    (lambda: put_in_slot(1, 63, b"\4"), AUDIT, "", 4, ["a settlement has other bytes than its own, where zeros belong"]),
    (lambda: put_in_slot(0, 2, b"\x09"), AUDIT, "", 4, ["a reservation's partition (byte 2) is 9 and its part (bytes 3 and 30) 0"]),
    (lambda: put_in_slot(0, 8, b"\xff"), AUDIT, "", 4, ["a reservation's epsilon is 42"]),
    (lambda: put_in_slot(0, 19, b"\0"), AUDIT, "", 4, ["a reservation's sensitivity is 1/0"]),
    (lambda: put_in_slot(0, 30, b"\1"), AUDIT, "", 4, ["a reservation's partition (byte 2) is 255 and its part (bytes 3 and 30) 256"]),
    (lambda: put_in_slot(0, 31, b"\1"), AUDIT, "", 4, ["byte 31 of a reservation is 1, where 0 belongs"]),
    (both(lambda: put_in_slot(0, 2, b"\0\xa0"), lambda: put_in_slot(0, 30, b"\x0f")), AUDIT, "", 4, ["(byte 2) is 0 and its part (bytes 3 and 30) 4000"]),
    (both(lambda: put_in_slot(0, 2, b"\0\1"), lambda: put_in_slot(0, 30, b"\1")), AUDIT, "", 4, ["it is a reservation of partition 0, part 257 (from 0), "
        "which the owner hasn't"]),
    (lambda: put_in_slot(0, 7, b"\1"), AUDIT, "", 4, ["it reserves number 1, and 0 is the next one"]),
    (lambda: put_in_slot(0, 29, b"\7"), AUDIT, "", 4, ["it is a reservation of analyst 7 (from 0), and there are 3"]),
    (lambda: put_in_slot(0, 2, b"\1\0"), AUDIT, "", 4, ["it is a reservation of partition 1, part 0 (from 0), which the owner hasn't"]),
    (lambda: put_in_slot(0, 27, b"\0"), AUDIT, "", 4, ["its reservation says that it took 999936, and by the records before it took 1000000"]),
    (lambda: put_in_slot(0, 15, b"\2"), AUDIT, "", 4, ["its reservation says that it took 1000000, and by the records before it took 2000000"]),
    (lambda: copy_slot(1, 4), AUDIT, "", 4, ["slot 4 (from 0): its record may not stand there: it settles number 0, which is settled already"]),
    (lambda: copy_slot(1, 0), AUDIT, "", 4, ["slot 0 (from 0): its record may not stand there: it settles number 0, which no record before it reserves"]),
    (nothing, "audit . key", "", 5, ["Is a directory"]),
    (both(lambda: os.remove("people.csv"), lambda: os.mkdir("people.csv")), CHECK, "", 5, ["people.csv: it can't be read: Is a directory"]),
    (nothing, RUN, "< .", 5, ["Standard input is a folder", "No journal has more records than before the run: nothing was asked"]),
    (nothing, RUN, "<&-", 5, ["Standard input is closed"]),
    (nothing, RUN, "< script > /dev/full", 5, ["Standard output is /dev/full", "journals/0.bud has 4 records more than before the run, 2 of them "
        "reservations, numbers 2 to 3: these are charged, and `recall census N` tells their answers."]),
    (nothing, AUDIT, ">&-", 5, ["Standard output is closed"]),
    (nothing, "gen 0 1", ">&-", 5, ["Standard output is closed", "!can't be read"]),
    (lambda: write("long", b"bye\n" * 10**6), RUN, "< long | head -n 1; exit ${PIPESTATUS[0]}", 5, ["Whoever reads standard output has gone", "nothing was "
        "asked"]),
    (made_file, AUDIT, "", 6, ["disk census", "`journals` is a file, where a folder belongs"]),
    (both(lambda: os.remove("journals/1.bud"), lambda: os.mkdir("journals/1.bud")), AUDIT, "", 6, ["disk health", "journals/1.bud is a folder, where a file "
        "belongs"]),
    (lambda: link("0.bud", "journals/0.bud"), AUDIT, "", 6, ["disk census", "a link that leads nowhere but to itself"]),
    (both(lambda: os.remove("journals/0.bud"), lambda: os.mkfifo("journals/0.bud")), AUDIT, "", 6, ["journals/0.bud can't be opened: it is a pipe or a device"]),
    (both(lambda: os.remove("journals/0.bud"), lambda: os.mkfifo("journals/0.bud")), RUN, "<script", 6, ["it is a pipe or a device, and isn't opened"]),
    (lambda: link("/dev/zero", "journals/1.bud"), AUDIT, "", 6, ["disk health", "journals/1.bud can't be opened: it is a pipe or a device"]),
    (both(older, long_file), AUDIT, "", 4, ["journal census damaged 100", f"the file has {LONG} bytes, and 6528 are due"]),
    (both(lambda: put(0, 0, b"\0"), long_file), AUDIT, "", 4, [f"journal census uninitialised {LONG}"]),
    (of_table("\x9b31m\u202e.csv"), AUDIT, "", 3, ["refused \\x9b31m\\u202e.csv: there is no such file", "!\x9b", "!\u202e"]),
    (made_file, INIT, "", 6, ["disk census", "`journals` is a file, where a folder belongs"]),
    (lambda: write("long", b"\n" * 2**24), RUN, "< long", 7, ["Its memory is limited to 140000 KiB", "nothing was asked"]),
    (lambda: write("program", WALKS), DERIVE, "", 7, ["`tools/explain catalog.json census program 'no 90'` says whether it does"]),
    (lambda: write("program", WALKS), CHECK, "", 7, ["`tools/explain catalog.json census program 'no 90'` says whether it does"]),
    (lambda: os.system("truncate -s 16777217 long"), RUN, "< long", 8, ["It has 16777217 bytes, and 16777216 are allowed", "nothing was asked"]),
    *GRANTS,
    (nothing, RUN, "< script", 0, []),
    (nothing, CHECK, "", 0, []),
    (nothing, "gen 0 2 2", "", 0, []),
    (lambda: write("program", b"size"), CHECK, "", 1, []),
    (lambda: write("program", b"size"), DERIVE, "", 1, []),
    (lambda: os.remove("stays.csv"), DERIVE, "", 0, []),
    (nothing, "judge catalog.json census program program", "", 1, []),
    (nothing, "judge catalog.json census program <(printf 'num | people 1\\nbag (text * num) | people 1\\n')", "", 0, []),
    (nothing, f"{AUDIT} | cat", "", 0, []),
    (nothing, "check <(cat catalog.json) census <(cat program)", "", 0, []),
]  # fmt: skip
# As a user without rights, and on disks of their own: the folder's preparation, what the shell does before, words, status, what is said.
NOBODY = "setpriv --reuid 65534 --regid 65534 --clear-groups"
RIGHTS = [
    (lambda: os.chmod("people.csv", 0o600), AUDIT, 5, ["people.csv: it can't be read: Permission denied for nobody"]),
    (both(lambda: os.chmod("journals", 0o755), lambda: os.chmod("journals/0.bud", 0o444)), AUDIT, 6, ["disk census", "nobody may not open journals/0.bud to read and write it", "`journals/0.bud` is "
        "-r--r--r--, of user 0"]),
    (lambda: os.chmod("journals", 0o700), RUN, 6, ["`journals` is drwx------"]),
    (emptied, INIT, 6, ["disk census", "nobody may not make files in `.`: `.` is drwxr-xr-x"]),
]
DISKS = [
    ("size=1m", "{{ head -c 2m /dev/zero >filler 2>/dev/null; true; }}", INIT, 6, ["disk census", "The disk is full: journals/0.bud takes 4224 bytes"]),
    ("size=40m", "{program} init catalog.json key >/dev/null && mount -o remount,ro .", AUDIT, 6, ["journals/0.bud lies on a file system that is read-only"]),
    ("size=40m", "mount -o remount,ro .", INIT, 6, ["is read-only"]),
]


def damaged(chance, whole):
    """A journal with some bytes changed, mostly of slots that are open, or another length."""
    data = bytearray(whole)
    for _ in range(chance.randrange(1, 4)):
        place = chance.choice((chance.randrange(HEAD), HEAD + SLOT * chance.randrange(28), HEAD + SLOT * chance.randrange(26) + chance.randrange(SLOT)))
        data[place] = chance.choice((0, 1, 2, 3, 0xA5, chance.randrange(256)))
    if chance.random() < 0.1:
        del data[chance.randrange(len(data)) :]
    elif chance.random() < 0.05:
        data += b"\0"
    return bytes(data)


class Trial:
    def __init__(self, room):
        self.room, self.differences, self.came, self.tried = room, 0, Counter(), 0
        self.kept = f"{room}/kept"
        os.mkdir(self.kept)
        for name, data in FILES.items():
            write(f"{self.kept}/{name}", data)
        for command in (INIT, RUN):
            subprocess.run(f"{PROGRAM} {command} <script >/dev/null", shell=True, cwd=self.kept, check=True)

    def ready(self, prepare):
        """A folder made ready."""
        folder = f"{self.room}/case"
        shutil.rmtree(folder, ignore_errors=True)
        shutil.copytree(self.kept, folder)
        os.chdir(folder)
        prepare()
        return folder

    def ran(self, prepare, line):
        folder = self.ready(prepare)
        ran = subprocess.run(["bash", "-c", line], cwd=folder, capture_output=True, stdin=subprocess.DEVNULL, env={**os.environ, "PROGRAM": PROGRAM})
        os.chdir(self.room)
        return ran

    def one(self, prepare, words, behind, status, said, before=""):
        self.tried += 1
        limit = "ulimit -v 140000; " if status == 7 else ""
        alone = self.ran(prepare, f"{limit}{before}{PROGRAM} {words} {behind}")
        why = self.ran(prepare, f"{limit}{before}{TOP}/tools/why {words} {behind}")
        self.came[status] += 1
        if (alone.returncode, alone.stdout) != (status, why.stdout) or why.returncode != status or alone.stderr:
            self.differ(words, f"{why.returncode} {why.stdout[:200]} {why.stderr[-300:]}", f"{alone.returncode} {alone.stdout[:200]}, and {status} is wanted")
        text = why.stderr.decode()
        told = alone.stdout.decode().splitlines()[:1]
        if status in (3, 4, 6) and "a pipe" not in text and not any(f"tools/why: {harmless(line)}" in text for line in told):
            self.differ(words, text, told)
        for part in said:
            if (part[1:] in text) if part.startswith("!") else (part not in text):
                self.differ(words, text, part)
        if bool(said) != bool(text) or "Traceback" in text or "no cause was found" in text:
            self.differ(words, text, "words" if said else "no words")

    def differ(self, words, found, want):
        self.differences += 1
        print(f"{words}: {found}\n    and not {want}")

    def with_rights(self):
        for room in (self.room, TOP):
            if not os.stat(room).st_mode & 1:
                os.chmod(room, 0o755) if room == self.room else None
        for prepare, words, status, said in RIGHTS:
            self.one(prepare, words, "", status, said, f"{NOBODY} ")

    def on_disks(self):
        for size, before, words, status, said in DISKS:
            large = FILES["catalog.json"].replace(b'"capacity": 100', b'"capacity": 262144')
            folder = self.ready(lambda: (emptied(), write("catalog.json", large)))
            before = before.format(program=PROGRAM)
            line = f"mount -t tmpfs -o {size} none /mnt && cp -r . /mnt && cd /mnt && {before or 'true'} && {TOP}/tools/why {words}"
            ran = subprocess.run(["unshare", "-m", "bash", "-c", line], cwd=folder, capture_output=True, env={**os.environ, "PROGRAM": PROGRAM})
            os.chdir(self.room)
            self.tried += 1
            self.came[status] += 1
            if ran.returncode != status or not all(part in ran.stderr.decode() for part in said) or "Traceback" in ran.stderr.decode():
                self.differ(line, f"{ran.returncode} {ran.stdout} {ran.stderr.decode()}", said)

    def at_random(self, count):
        """A journal of each version with asks of the whole and of parts, whose bytes are changed at random."""
        chance, folder = random.Random(2026), self.ready(nothing)
        asks = "".join(f"ask{part} 0.1 {program}\n" for program in ("size people", "2 * size people") for part in (" census", "part census areas A", "part "
            "census areas B"))
        subprocess.run([PROGRAM, *RUN.split()], input=f"hello ann\n{asks}hello bob\n{asks}".encode(), cwd=folder, capture_output=True, check=True)
        given((0, 7), (1, 10**6))()
        whole = [remade(contents("journals/0.bud"), version) for version in VERSIONS]
        kinds = Counter()
        for number in range(count):
            write("journals/0.bud", damaged(chance, whole[number % len(whole)]))
            ran = subprocess.run([PROGRAM, *AUDIT.split()], cwd=folder, capture_output=True, text=True)
            found = Journals(Command(AUDIT.split()))
            refused = [(number, book) for number, book in enumerate(found.books) if isinstance(book, Refused)]
            lines = [book.counts() for book in found.books] if not refused else [f"journal {found.entries[refused[0][0]]['name']} {refused[0][1]}"]
            said = [sentence for number, _ in refused for sentence in found.about(number)]
            kinds[lines[0].split()[2]] += 1
            self.tried += 1
            if ran.stdout.splitlines() != lines or refused and (not said or refused[0][1].how == "" and "damaged" in lines[0]):
                self.differ("a journal at random", f"{lines} {said}", ran.stdout)
        os.chdir(self.room)
        if len(kinds) < 3:
            self.differ("journals at random", kinds, "journals that open, that are changed and that are damaged")

    def copies(self):
        """An ask of a part that another part covers is given a smaller epsilon: the program opens that journal, and asks more of the part than
        the budget has, and a copy that is compared shows it."""
        folder = self.ready(of_owner("budget", 1_000_000))
        shutil.rmtree("journals")
        run = lambda words, script="": subprocess.run([*words], input=script, cwd=folder, capture_output=True, text=True)
        run([PROGRAM, *INIT.split()])
        ask = "hello ann\naskpart census areas {} 1 size people\n"
        run([PROGRAM, *RUN.split()], ask.format("A") + ask.format("B"))
        shutil.copytree("journals", "kept")
        compare = [f"{TOP}/tools/journal.py", "--compare", "kept", "catalog.json", "key"]
        before = run(compare)
        put_in_slot(2, 8, (1).to_bytes(4, "big"))
        more = run([PROGRAM, *RUN.split()], ask.format("B").replace(" 1 size", " 0.999999 size"))
        after, replies = run(compare), more.stdout.splitlines()
        wanted = ["census: records of the copy 4, changed 1, now 6", "    slot 2 was: reservation 1 part B of areas e 1000000 ", "    slot 2 is: "
            "reservation 1 part B of areas e 1 "]
        unchanged = "census: records of the copy 4, changed 0, now 4"
        if before.returncode != 0 or before.stdout.splitlines()[0] != unchanged or not replies[1].startswith("answer 2 "):
            self.differ("a copy", before.stdout + more.stdout, "no change, and an answer over the budget")
        if after.returncode != 1 or not all(line.startswith(part) for line, part in zip(after.stdout.splitlines(), wanted)):
            self.differ("a copy", after.stdout + after.stderr, wanted)
        # An older journal that is put back, with the copy and the audits; a file that isn't there; a header that somebody has changed.
        write("audits", run([PROGRAM, *AUDIT.split()]).stdout.encode())
        shutil.copytree("journals", "later")
        shutil.rmtree("journals")
        shutil.copytree("kept", "journals")
        with open("audits", "ab") as file:
            file.write(run([PROGRAM, *AUDIT.split()]).stdout.encode())
        put(1, 70, b"\1\2")
        journal = f"{TOP}/tools/journal.py"
        tries = [
            ([journal, "--compare", "later", "catalog.json", "key"], 1, "    the 2 records from slot 4 on are gone: an older journal was put back"),
            ([journal, "--compare", "later", "catalog.json", "key"], 1, "health: records of the copy 0, changed 0, now 0"),
            ([journal, "--audits", "audits"], 1, "line 3: census reservations fell from 3 to 2: an old journal was put back"),
            ([journal, "--audits", "none"], 2, "journal.py: none can't be read: No such file or directory"),
            ([journal, "--compare", "later", "none", "key"], 2, "journal.py: none can't be read"),
            ([journal, "key", "key"], 2, "journal.py: the catalog is none"),
            ([journal, "catalog.json"], 2, "    journal.py CATALOG KEY [FOLDER]"),
            ([f"{TOP}/tools/why", "--help"], 0, "usage: tools/why COMMAND WORDS.."),
        ]
        for words, status, part in tries:
            told = run(words)
            if told.returncode != status or not any(line.startswith(part) for line in (told.stdout + told.stderr).splitlines()) or "Traceback" in told.stderr:
                self.differ(" ".join(words), f"{told.returncode} {told.stdout}{told.stderr}", part)
        self.tried += 3 + len(tries)
        os.chdir(self.room)

    def signals(self, room):
        """A program that a signal ends, and one that is told to end."""
        folder = self.ready(nothing)
        write(f"{room}/killed", b"#!/bin/sh\nkill -9 $$\n")
        write(f"{room}/slow", b"#!/bin/sh\nexec sleep 20\n")
        for name, line, status, part in (("killed", f"{TOP}/tools/why {RUN}", 137, "SIGKILL ended it"), ("slow", f"timeout 2 {TOP}/tools/why "
            f"{RUN}", 124, "SIGTERM ended it")):
            os.chmod(f"{room}/{name}", 0o755)
            ran = subprocess.run(["bash", "-c", f"{line}; exit $?"], cwd=folder, capture_output=True, env={**os.environ, "PROGRAM": f"{room}/{name}"})
            self.tried += 1
            if ran.returncode != status or part not in ran.stderr.decode() or "nothing was asked" not in ran.stderr.decode():
                self.differ(line, f"{ran.returncode} {ran.stderr.decode()}", part)
        os.chdir(self.room)

    def told_to_end(self, room):
        """While a cause is looked for, in forty tables of a million rows, many seconds of work: the end is the program's."""

        def large():
            write("people.csv", FILES["people.csv"] + b"C,50\n" * (2**20 - 3))
            for number in range(40):
                os.link("people.csv", f"people{number}.csv")
            owners = (owner(name=f"house{number}", tables=(("people", f"people{number}.csv", TABLES[0][2]),)) for number in range(40))
            write("catalog.json", catalog(*owners, analysts=("ann",)))

        folder = self.ready(large)
        write(f"{room}/refuses", b"#!/bin/sh\nexit 3\n")
        os.chmod(f"{room}/refuses", 0o755)
        running = subprocess.Popen([f"{TOP}/tools/why", *AUDIT.split()], cwd=folder, stdin=subprocess.DEVNULL, stderr=subprocess.PIPE, text=True,
            env={**os.environ, "PROGRAM": f"{room}/refuses"})  # fmt: skip
        looked = next((line for line in running.stderr if "looking at the tables" in line), "")
        begun = time.monotonic()
        running.terminate()
        said, took = running.communicate(timeout=60)[1], time.monotonic() - begun
        self.tried += 1
        if running.returncode != 3 or not looked or "Nothing of that" in said or took > 5:
            self.differ("a signal while a cause is looked for", f"{running.returncode} {looked}{said} after {took:.0f} s", "status 3 at once")
        os.chdir(self.room)


def every_third(cases):
    """Every third case of the statuses that have many, and all of the others."""
    many = [case for case in cases if case[3] in (2, 3, 4)]
    return many[::3] + [case for case in cases if case not in many]


def main():
    quick = sys.argv[1:] == ["--quick"]
    if "PROGRAM" not in os.environ:
        subprocess.run([f"{TOP}/tools/build"], check=True)
    # In memory, where there is a folder of it: the program syncs each journal, and a busy disk takes its time for that.
    with tempfile.TemporaryDirectory(dir="/dev/shm" if os.access("/dev/shm", os.W_OK) else None) as room, tempfile.TemporaryDirectory() as scripts:
        trial = Trial(room)
        for case in every_third(MADE) if quick else MADE:
            trial.one(*case)
        for case in MIRRORED:
            trial.one(*case)
        if os.geteuid() == 0 and shutil.which("setpriv") and shutil.which("unshare"):
            trial.with_rights()
            trial.on_disks()
        else:
            print("not tried, for want of rights: what a user without rights meets, a full disk, a read-only one")
        trial.signals(scripts)
        trial.told_to_end(scripts)
        trial.copies()
        trial.at_random(40 if quick else 150)
        os.chdir(TOP)
    print(f"{trial.tried} ends of the program, {trial.differences} differences")
    lacking = [status for status in range(12) if not trial.came[status]]
    if lacking:
        print(f"never met: status {lacking}")
    sys.exit(1 if trial.differences or lacking else 0)


main()
