#!/usr/bin/env python3
"""Refuses allocation 1, 2, 3, .. of the proved program while it answers asks of programs over bags, of the whole and of parts, alone and
with all later ones.

usage: tests/faults/refused_runs.py     (PROGRAM=FILE tries another build). Needs cc. `tests/faults/refused_memory.sh --runs` calls it.
Each run must end with status 7 and the line 'memory' (or no line), before any ask was answered, or with status 0 and a reply to
each line, as the second implementation (tools/reference.py) gives it, but that an ask may be told 'no 90', and then took no
number and no charge, or, where it was granted number N, 'no 51 N', and then is charged and has both its records. The last ask
is over the budget, so that its reply shows what was spent and how many records there are. It ends with status 1 at a wrong
run, and where an ask of a program over bags was never told 'no 51'.
"""
import os
import subprocess
import sys
import tempfile
from collections import Counter
from math import ceil

sys.path.insert(0, f"{os.path.dirname(os.path.abspath(__file__))}/../lib")
from places import TOP  # noqa: E402

PROGRAM = os.path.abspath(os.environ.get("PROGRAM", f"{TOP}/crates/hitchseason/out/hitchseason"))
from afresh import renew  # noqa: E402
from catalog import catalog, census, owner  # noqa: E402
from programs import Refused  # noqa: E402
from reference import BUDGET, Server, cost_of, house_of, key_words, millionths  # noqa: E402
from runs import asked  # noqa: E402

DOUBLED = "let a = union people people in let b = union a a in let c = union b b in sum[0,100] c"
OF_PAIRS = "map (fn (x : num) => (x, <x, inl[unit] x>)) people"
PROGRAMS = [
    "sum[0,100] people",
    "size (filter (fn (x : num) => x <= 30) people)",
    "sum[0,100] (map (fn (x : num) => x + 1) people)",
    "let (a, b) = split (fn (x : num) => x <= 30) people in size a + 2 * size b",
    "size (union people people)",
    DOUBLED,
    f"size ({OF_PAIRS})",
    "let f = fun (x : num) => 1 + x in let g = fun (x : num) => f (f x) in g (size people)",
    "sum[0,9] (map (fn (t : text) => if t == \"a\" then 3 else 4) (map (fn (x : num) => if x <= 30 then \"a\" else \"b\") people))",
    "let !y = ![2] (size people) in case inl[text] y of inl n => n + 1 | inr t => 0",
    "7",
]


# A table with a partition, the asks of its parts and of the whole, and programs.
OF_TOWNS = (
    catalog(owner(tables=(("people", "people.csv", (("town", "text"), ("age", "num"))),), partitions=(("area", "people", "town", ("A", "B")),))),
    b"town,age\nA,20\nB,30\nA,40\nC,5\n",
)
OF_PARTS = ("askpart census area A 0.02", "askpart census area B 0.03", "ask census 0.01")
OF_PEOPLE = [
    "size people",
    "sum[0,100] (map (fn (p : text * num) => let (town, age) = p in age + 1) people)",
    "size (filter (fn (p : text * num) => let (town, age) = p in town == \"A\") people)",
]


class Wrong(Exception):
    pass


def ask_is(server, line, found):
    """Judges the reply to an ask, and moves the server by it: 'right', 'no 90' or 'no 51'."""
    if found == "no 90":
        return "no 90"
    owner = server.owners[b"census"]
    words = line.split(b" ", 5 if line.startswith(b"askpart ") else 3)
    view, epsilon, program = owner.part(words[2], words[3]) if len(words) == 6 else None, *words[-2:]
    if found == f"no 51 {len(owner.reservations)}":
        try:
            amount = ceil(asked(program, owner.shown(view)[0])[1] * millionths(epsilon))
        except Refused:
            raise Wrong("no 51 of a refused program") from None
        owner.charge(server.who, view, amount)
        if owner.spent > BUDGET:
            raise Wrong("no 51 over the budget")
        owner.records += 2
        owner.reservations.append((server.who, "lost"))
        return "no 51"
    want = server.reply(line)
    if found != want:
        raise Wrong(f"{found}, wanted {want}")
    return "right"


def judge(house, script, status, said):
    """What a run came to: 'memory', or what each ask was told."""
    if status == 7 and said in ("memory\n", ""):
        return ["memory"]
    lines, replies = script.splitlines(), said.splitlines()
    if status != 0 or len(lines) != len(replies):
        raise Wrong(f"status {status} and {said!r}")
    server, told = Server(house, key_words(bytes(32))), []
    for line, found in zip(lines, replies):
        if line.startswith((b"ask ", b"askpart ")):
            told.append(ask_is(server, line, found))
        elif found != server.reply(line):
            raise Wrong(f"{found} to {line.decode()}")
    return told


class Room:
    def __init__(self, folder):
        self.folder = folder
        words = ["cc", "-O1", "-shared", "-fPIC", "-o", f"{folder}/refuse.so", f"{TOP}/tests/faults/refuse_allocation.c", "-ldl"]
        subprocess.run(words, check=True)

    def hold(self, catalog, table):
        """From here on runs are over this catalog and table."""
        files = {"key": bytes(32), "cat.json": catalog, "people.csv": table}
        for name, data in files.items():
            with open(f"{self.folder}/{name}", "wb") as file:
                file.write(data)
        self.house = house_of(catalog, files.__getitem__)

    def run(self, script, **refusals):
        renew(PROGRAM, "cat.json", "key", self.folder)
        given = {**os.environ, "LD_PRELOAD": f"{self.folder}/refuse.so", **refusals}
        ran = subprocess.run([PROGRAM, "run", "cat.json", "key"], input=script, capture_output=True, cwd=self.folder, env=given)
        return ran.returncode, ran.stdout.decode("latin-1"), ran.stderr.decode("latin-1")


def turns(room, program, asks=("ask census 0.01", "ask census 0.01")):
    """Each allocation of a script that asks this program so refused in turn. Gives how many runs were wrong, and prints a row."""
    lines = ["hello ann", *[f"{ask} {program}" for ask in asks], "ask census 1000 size people", "bye"]
    script = "".join(f"{line}\n" for line in lines).encode()
    count, wrong, came = int(room.run(script, TELL="1")[2]), 0, Counter()
    for later in ({}, {"REFUSE_ALL": "1"}):
        for number in range(1, count + 1):
            status, said, _ = room.run(script, REFUSE=str(number), **later)
            try:
                told = judge(room.house, script, status, said)
            except Wrong as fault:
                wrong += 1
                print(f"allocation {number} {'and all later' if later else ''}: {fault}")
                continue
            came["right" if set(told) == {"right"} else "memory" if told == ["memory"] else "no 51" if "no 51" in told else "no 90"] += 1
    parts = ", ".join(f"{came[what]} {what}" for what in ("memory", "no 90", "no 51", "right"))
    print(f"{program[:44]:44} {count:5} allocations, of {2 * count:5} runs {parts}, {wrong} wrong", flush=True)
    return wrong + (came["no 51"] == 0 and "people" in program)


def main():
    if not os.access(PROGRAM, os.X_OK):
        print(f"there is no {PROGRAM}: run 'rt run' in crates/hitchseason first, which proves and builds it")
        sys.exit(2)
    with tempfile.TemporaryDirectory() as folder:
        room = Room(folder)
        room.hold(census(), b"age\n20\n30\n40\n")
        wrong = sum(turns(room, program) for program in PROGRAMS)
        room.hold(*OF_TOWNS)
        sys.exit(1 if wrong + sum(turns(room, program, OF_PARTS) for program in OF_PEOPLE) else 0)


if __name__ == "__main__":
    main()
