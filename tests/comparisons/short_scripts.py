#!/usr/bin/env python3
"""All scripts of up to three telling lines, and streams that only a process shows.

usage: tests/comparisons/short_scripts.py    (PROGRAM=FILE tries another build)
Each of the 2,197 scripts of three out of thirteen pieces, one of them empty, is run on a new journal under a key of the bytes 0 to 31; what it writes must be
what the second server (tools/lib/reference.py) says. Then a script of 2^24 ends of lines, the longest that there may be, must be answered to its end, and `check`
and `gap` must leave standard input untouched. It ends with status 1 at the first difference.
"""
import json
import os
import shutil
import subprocess
import sys
import tempfile
from itertools import product

sys.path.insert(0, f"{os.path.dirname(os.path.abspath(__file__))}/../lib")
from places import TOP  # noqa: E402

PROGRAM = os.path.abspath(os.environ.get("PROGRAM", f"{TOP}/out/hitchseason"))
from reference import ROWS, key_words, transcript, with_rows  # noqa: E402

TELLING = (
    b"", b"hello ann\n", b"hello bob\r\n", b"hello eve\n", b"hello ann x\n", b"ask census 1 size people\n", b"ask census 9.000001 size people\n",
    b"ask census 0.75 size people\n", b"ask census 01.1 size  people\n", b"ask nobody 0 x\n", b"ask census 0 size people\n", b"bye\n", b"\r",
)
KEY = bytes(range(32))
LONGEST = 2**24
TABLE = {"name": "people", "file": "people.csv", "columns": [{"name": "age", "type": "num"}]}
CATALOG = {"analysts": ["ann", "bob"], "owners": [{"name": "census", "budget": 10_000_000, "capacity": 100, "tables": [TABLE], "partitions": []}]}


def write(path, data):
    with open(path, "wb") as file:
        file.write(data)


def lay(room):
    """The catalog, its table, a key, a program and a journal that was made."""
    write(f"{room}/cat.json", json.dumps(CATALOG).encode())
    write(f"{room}/people.csv", b"age\n" + b"".join(b"%d\n" % row for row in ROWS))
    write(f"{room}/key", KEY)
    write(f"{room}/program", b"size people\n")
    subprocess.run([PROGRAM, "init", "cat.json", "key"], cwd=room, check=True, stdout=subprocess.DEVNULL)
    shutil.copytree(f"{room}/journals", f"{room}/made")


def ran(room, script):
    """The status of a run on the journal as it was made, and what it writes."""
    shutil.rmtree(f"{room}/journals")
    shutil.copytree(f"{room}/made", f"{room}/journals")
    done = subprocess.run([PROGRAM, "run", "cat.json", "key"], cwd=room, input=script, stdout=subprocess.PIPE)
    return done.returncode, done.stdout


def short(room):
    """How many scripts were compared."""
    for tried, pieces in enumerate(product(TELLING, repeat=3)):
        script = b"".join(pieces)
        wanted = transcript(script, with_rows(ROWS), key_words(KEY), ()).encode()
        if ran(room, script) != (0, wanted):
            sys.exit(f"after {tried} scripts another transcript of {script}: {ran(room, script)}, and not {wanted}")
    return tried + 1


def longest(room):
    if ran(room, b"\n" * LONGEST) != (0, b"no 10 0\n" * LONGEST):
        sys.exit("a script of the greatest length isn't answered to its end")


def untouched(room, *words):
    """Whether a command is done that leaves standard input where it was."""
    with open(f"{room}/input", "w+b") as file:
        file.write(b"hello ann\n")
        file.flush()
        file.seek(0)
        status = subprocess.run([PROGRAM, *words], cwd=room, stdin=file, stdout=subprocess.DEVNULL).returncode
        return status == 0 and os.lseek(file.fileno(), 0, os.SEEK_CUR) == 0


def main():
    with tempfile.TemporaryDirectory() as room:
        lay(room)
        tried = short(room)
        longest(room)
        commands = (("check", "cat.json", "census", "program"), ("gap", "cat.json", "census", "cat.json", "program"))
        for words in commands:
            if not untouched(room, *words):
                sys.exit(f"{words[0]} took something of standard input")
    print(f"{tried:,} scripts are answered as the second server says; {1 + len(commands)} streams of processes")


main()
