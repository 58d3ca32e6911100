#!/usr/bin/env python3
"""What a journal on two disks costs: answers and an opening with --mirror beside the same without, in turn; and without it beside a build from before.

usage: bench/mirror.py [ROUNDS [ASKS [FOLDER]]]    7 rounds of 2,000 asks in a folder on a real disk, out/ here, unless said (PROGRAM=FILE measures
another build; BEFORE=FILE is one that knows no --mirror)
Both folders lie on one device, so nothing is won by two. Each time is the least of the rounds, in which what is beside each other is run in turn, in either
order; of answers the time of a run of no ask is taken off. Bars:

- an answer with --mirror takes at most 2.2 times one without, on the disk and in memory (/dev/shm): eight writes with syncs in the place of four;
- an `audit` of 131,072 reservations with their settlements at most 2.2 times; how long one takes that brings up half of them is said;
- without the flag an answer and an `audit` take at most 1.02 times what BEFORE takes, if it is named.

It ends with status 1 where a bar isn't met, and with 2 where there is no program or no /dev/shm.
"""
import os
import shutil
import subprocess
import sys
import tempfile
import time
from functools import partial

TOP = os.path.dirname(os.path.dirname(os.path.abspath(__file__)))
os.environ.setdefault("PROGRAM", f"{TOP}/crates/hitchseason/out/hitchseason")
sys.path.insert(0, f"{TOP}/tests/lib")
import places  # noqa: E402,F401
from catalog import catalog, owner  # noqa: E402
from journal import ONE, WHOLE, Reservation, Settlement, appended, contents, header, made  # noqa: E402
from mirrors import FLAG, FOLDERS  # noqa: E402

PROGRAM, BEFORE, MEMORY = os.path.abspath(os.environ["PROGRAM"]), os.environ.get("BEFORE"), "/dev/shm"
FULL = 262_144
MIRRORED, WITHOUT = 2.2, 1.02


class Room:
    """A folder with a house whose journals are laid anew for each run."""

    def __init__(self, folder, capacity):
        self.folder, self.capacity = folder, capacity
        data = catalog(owner(budget=10**18, capacity=capacity))
        for name, held in (("catalog.json", data), ("key", bytes(32)), ("people.csv", b"age\n20\n30\n40\n")):
            with open(f"{folder}/{name}", "wb") as file:
                file.write(held)
        self.head = header(data, 0, bytes(32), lambda name: contents(f"{folder}/{name}"), 3)

    def filled(self, many):
        pairs = ((Reservation(number, WHOLE, 10**6, 1, 1, 10**6, 0, ONE), Settlement(number, 1, 3)) for number in range(many // 2))
        return appended(made(self.head, self.capacity), self.capacity, (record for pair in pairs for record in pair))

    def lay(self, *files):
        for name in FOLDERS:
            shutil.rmtree(f"{self.folder}/{name}", ignore_errors=True)
        for name, data in zip(FOLDERS, files):
            os.mkdir(f"{self.folder}/{name}")
            with open(f"{self.folder}/{name}/0.bud", "wb") as file:
                file.write(data)
                os.fsync(file.fileno())

    def seconds(self, program, command, script="", words=()):
        begun = time.monotonic()
        ran = subprocess.run([program, command, "catalog.json", "key", *words], cwd=self.folder, input=script.encode(), capture_output=True)
        if ran.returncode != 0:
            sys.exit(f"{command} {' '.join(words)} ended with {ran.returncode} and {ran.stdout[:200]!r}")
        return time.monotonic() - begun


def in_turn(rounds, *ways):
    """The least of each way's figures; every other round goes the other way about."""
    found = [[] for _ in ways]
    for number in range(rounds):
        for at in range(len(ways)) if number % 2 == 0 else reversed(range(len(ways))):
            found[at].append(ways[at]())
    return [min(figures) for figures in found]


def bar(what, figure, other, most, unit):
    met = figure <= most * other
    print(f"{what}: {figure:.2f} {unit}, beside {other:.2f}: {figure / other:.3f} times, at most {most} wanted{'' if met else ': MISSED'}")
    return met


def answers(folder, rounds, asks):
    """Microseconds an answer: on two disks, on one, and by the build from before."""
    with tempfile.TemporaryDirectory(dir=folder) as here:
        room = Room(here, min(FULL, 2 * asks + 10))
        empty, script = room.filled(0), "hello ann\n" + "ask census 0.000001 size people\n" * asks

        def of_one(program, files, words, lines):
            room.lay(*files)
            return room.seconds(program, "run", lines, words)

        ways = [(PROGRAM, (empty, empty), [FLAG]), (PROGRAM, (empty,), []), *([(BEFORE, (empty,), [])] if BEFORE else [])]
        found = in_turn(rounds, *(partial(of_one, *way, lines) for lines in (script, "hello ann\n") for way in ways))
        return [10**6 * (whole - none) / asks for whole, none in zip(found[: len(ways)], found[len(ways) :])]


def openings(rounds):
    """Milliseconds of an audit of a full journal: on two disks, on one, with a side that lags by an area, and by the build from before."""
    with tempfile.TemporaryDirectory(dir=MEMORY) as here:
        room = Room(here, FULL)
        full, half = room.filled(FULL), room.filled(FULL // 2)

        def of_one(program, files, words):
            room.lay(*files)
            return 1000 * room.seconds(program, "audit", "", words)

        ways = [(PROGRAM, (full, full), [FLAG]), (PROGRAM, (full,), []), (PROGRAM, (full, half), [FLAG]), *([(BEFORE, (full,), [])] if BEFORE else [])]
        return in_turn(rounds, *(partial(of_one, *way) for way in ways))


def main():
    if sys.argv[1:] == ["--help"]:
        print(__doc__.strip())
        return 0
    words = sys.argv[1:]
    rounds, asks = int(words[0]) if words else 7, int(words[1]) if len(words) > 1 else 2000
    disk = words[2] if len(words) > 2 else f"{TOP}/out"
    if not os.access(PROGRAM, os.X_OK) or not os.access(MEMORY, os.W_OK):
        print(f"there is no {PROGRAM}, which `rt run` in crates/hitchseason proves and builds, or no {MEMORY}", file=sys.stderr)
        return 2
    os.makedirs(disk, exist_ok=True)
    print(f"{os.cpu_count()} processors, load {os.getloadavg()[0]:.1f}, {rounds} rounds of {asks} asks")
    met = []
    for place, where in ((disk, "on the disk"), (MEMORY, "in memory")):
        two, one, *before = answers(place, rounds, asks)
        met.append(bar(f"an answer on two disks, {where}", two, one, MIRRORED, "us"))
        met += [bar(f"an answer without the flag, {where}, and before", one, figure, WITHOUT, "us") for figure in before]
    two, one, lagging, *before = openings(rounds)
    met.append(bar("an audit of 131,072 reservations on two disks", two, one, MIRRORED, "ms"))
    print(f"    and where one of them lags by half of these records {lagging:.1f} ms")
    met += [bar("an audit without the flag, and before", one, figure, WITHOUT, "ms") for figure in before]
    return 0 if all(met) else 1


if __name__ == "__main__":
    sys.exit(main())
