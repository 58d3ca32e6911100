#!/usr/bin/env python3
"""Compares what the program answers to programs with what a second implementation says (tools/lib/runs.py, tools/reference.py).

usage: tests/comparisons/compare_runs.py [COUNT [SEED]]            (PROGRAM=FILE compares another build than tools/build's)
       tests/comparisons/compare_runs.py --alone [COUNT [SEED]]    without the program: the second implementation beside the typing rules
COUNT random programs that the typing rules accept (50,000 where none is said), some 50 to a script, each script with a key and two
tables of its own, one of numbers, and one of texts with numbers. Each is asked: the reply is compared whole, that is code, number,
value with the noise of that number, charge, span and width. A part of them is given to `check`. It ends with status 1 at the first
difference, and where one of the forms of terms was evaluated in fewer programs than a fivehundredth of them.
--alone evaluates each program on two tables and on others with some rows more or less: the values are whole numbers within their ends,
and differ by at most the sensitivity times the rows that differ.
"""
import os
import random
import subprocess
import sys
import tempfile
from collections import Counter
from concurrent.futures import ThreadPoolExecutor
from math import ceil

sys.path.insert(0, f"{os.path.dirname(os.path.abspath(__file__))}/../lib")
from places import TOP  # noqa: E402

PROGRAM = os.path.abspath(os.environ.get("PROGRAM", f"{TOP}/out/hitchseason"))
from afresh import renew  # noqa: E402
from beginning import begin, numbers  # noqa: E402
from programs import RULES, Refused, sensitivity_text  # noqa: E402
from random_programs import CATALOG, TABLES, accepted_of  # noqa: E402
from reference import BUDGET, CAPACITY, Exhausted, key_draws, noise  # noqa: E402
from runs import NUMBER_LIMIT, Run, TooManySteps, asked  # noqa: E402

STEPS = 100_000
SHARE = 500


class Case:
    """A program, and what is said of it: a refusal, or a sensitivity and a value."""

    def __init__(self, rng, rows):
        self.forms = set()
        while not self.is_made(accepted_of(rng), rows):
            pass

    def is_made(self, program, rows):
        self.program, self.refusal, run = program, None, Run(STEPS)
        try:
            self.term, self.r = asked(program, TABLES)
            self.exact = run.value(self.term, rows)
        except Refused as refusal:
            self.refusal = f"no {refusal}"
        except TooManySteps:
            return False
        self.forms = run.forms
        return True

    def judged(self):
        return self.refusal or f"ok {sensitivity_text(self.r)}"


class Script:
    """Asks with the replies that are due."""

    def __init__(self, rng, count):
        self.rng, self.rows, self.key = rng, dataset_of(rng), rng.randbytes(32)
        self.spent = self.granted = 0
        self.cases, self.lines, self.replies = [], [b"hello ann"], ["hello ann"]
        while len(self.cases) < count and 2 * self.granted + 2 <= CAPACITY:
            self.add(Case(rng, self.rows))

    def epsilon_for(self, r):
        """In millionths: mostly so that some fifty of them stay within the budget."""
        if r == 0 or self.rng.random() < 0.01:
            return self.rng.choice([1, 10**6, 10**9, self.rng.randint(1, 10**9)])
        return max(1, min(10**9, int(self.rng.randint(1, 350_000) / r)))

    def add(self, case):
        e = 10**6 if case.refusal else self.epsilon_for(case.r)
        self.cases.append(case)
        self.lines.append(b"ask census %d.%06d %s" % (e // 10**6, e % 10**6, case.program))
        self.replies.append(case.refusal or self.reply(case, e))

    def reply(self, case, e):
        cost = ceil(case.r * e)
        if self.spent + cost > BUDGET:
            return f"no 40 {self.spent} {self.spent + cost} {BUDGET} {2 * self.granted}"
        number = self.granted
        self.granted += 1
        self.spent += cost
        try:
            return f"answer {number} {case.exact + noise(e, key_draws(self.key, 0, number))} {cost}"
        except Exhausted:
            return f"no 50 {number}"


def rows_of(rng):
    """Half of them small numbers that programs have, too."""
    most = rng.choice([1, 50, 50, 50, 10**6, 2**50])
    small = rng.random() < 0.5
    row = lambda: rng.choice([0, 1, 2, 3, 5, 7, 10, 100]) if small else rng.randint(-most if rng.random() < 0.5 else 0, most)  # noqa: E731
    return [row() for _ in range(60 if rng.random() < 0.03 else rng.choice([0, 1, 2, 3, 3, 4, 5, 8]))]


WARDS = [b"", b"a", b"it is", b"\xff", b"t" * 64, b'a "b", c', b"line\nend", b"\r\x00", "ward".encode("utf-16")]


def ward_of(rng):
    return rng.choice(WARDS[:4] if rng.random() < 0.7 else WARDS)


def dataset_of(rng):
    """The rows of each table."""
    return {"people": rows_of(rng), "stays": [(ward_of(rng), number) for number in rows_of(rng)]}


def neighbour(rng, rows):
    """A dataset with some rows more or less, and how many."""
    other, apart = {name: list(table) for name, table in rows.items()}, rng.choice([1, 1, 2, 3])
    for _ in range(apart):
        name, table = rng.choice(list(other.items()))
        if table and rng.random() < 0.5:
            table.pop(rng.randrange(len(table)))
        else:
            number = rng.choice([0, 1, 30, 99, -5, 2**50, -(2**50)])
            table.insert(rng.randrange(len(table) + 1), number if name == "people" else (ward_of(rng), number))
    return other, apart


def quoted(cell):
    return b'"' + cell.replace(b'"', b'""') + b'"'


class Counts:
    def __init__(self):
        self.programs, self.checked, self.codes, self.forms = 0, 0, Counter(), Counter()

    def add(self, case, code):
        self.programs += 1
        self.codes[code] += 1
        self.forms.update(case.forms)

    def told(self):
        """Prints what came, and says whether each form of terms was met often enough."""
        print(f"{self.programs} programs: " + ", ".join(f"{code} {many}" for code, many in sorted(self.codes.items())))
        print(f"of {len(self.forms)} forms, by programs in which one was evaluated:")
        print(", ".join(f"{form} {many}" for form, many in sorted(self.forms.items(), key=lambda it: it[1])))
        lacking = [form for form in RULES if self.forms[form] * SHARE < self.programs]
        if lacking:
            print("too few of", ", ".join(lacking))
        return not lacking


def differ(what, found, want, case, script=None):
    print(f"{what}: {found}, wanted {want}, of {case.program.decode('latin-1')}")
    if script:
        print(f"key {script.key.hex()}, rows {script.rows}")
    sys.exit(1)


def alone(rng, count):
    counts = Counts()
    for _ in range(count):
        rows = dataset_of(rng)
        case = Case(rng, rows)
        counts.add(case, case.judged().split()[1] if case.refusal else "evaluated")
        if case.refusal:
            continue
        other, apart = neighbour(rng, rows)
        try:
            moved = Run(4 * STEPS).value(case.term, other)
        except TooManySteps:
            continue
        for value in (case.exact, moved):
            if type(value) is not int or abs(value) > NUMBER_LIMIT:
                differ("value", value, "a number within its ends", case)
        if abs(case.exact - moved) > case.r * apart:
            differ("moved", f"{case.exact} on {rows}, {moved} on {other}", f"at most {case.r} a row", case)
    return counts


class Room:
    def __init__(self, folder):
        self.folder, self.turn = folder, 0

    def file(self, name, data):
        with open(f"{self.folder}/{name}", "wb") as file:
            file.write(data)

    def run(self, words, given=b""):
        ran = subprocess.run([PROGRAM, *words], input=given, capture_output=True, cwd=self.folder)
        return ran.returncode, ran.stdout.decode("latin-1").splitlines()

    def compare_script(self, script, counts):
        self.file("key", script.key)
        self.file("people.csv", b"age\n" + b"".join(b"%d\n" % row for row in script.rows["people"]))
        self.file("stays.csv", b"ward,nights\n" + b"".join(quoted(ward) + b",%d\n" % nights for ward, nights in script.rows["stays"]))
        renew(PROGRAM, "cat.json", "key", self.folder)
        status, lines = self.run(["run", "cat.json", "key"], b"\n".join(script.lines) + b"\n")
        for case, found, want in zip(script.cases, lines[1:], script.replies[1:]):
            if found != want:
                differ("ask", found, want, case, script)
            counts.add(case, want.split()[1] if want.startswith("no") else "answered")
        if status != 0 or len(lines) != len(script.replies):
            differ(f"run, status {status}", f"{len(lines)} replies", len(script.replies), script.cases[-1], script)

    def compare_check(self, number, case):
        name = f"program{number}"
        self.file(name, case.program)
        found, want = self.run(["check", "cat.json", "census", name]), (1 if case.refusal else 0, [case.judged()])
        os.remove(f"{self.folder}/{name}")
        return case, found, want


def beside_the_program(rng, count):
    counts = Counts()
    with tempfile.TemporaryDirectory() as folder, ThreadPoolExecutor(2) as pool:
        room = Room(folder)
        room.file("cat.json", CATALOG)
        while counts.programs < count:
            script = Script(rng, count - counts.programs)
            room.compare_script(script, counts)
            chosen = [case for at, case in enumerate(script.cases) if case.refusal or at % 5 == 0]
            for case, found, want in pool.map(room.compare_check, range(len(chosen)), chosen):
                counts.checked += 1
                if found != want:
                    differ("check", found, want, case)
    print(f"no difference, and none in {counts.checked} by check")
    return counts


def main():
    without = "--alone" in sys.argv
    count, seed = (numbers if without else begin)(__doc__, 50_000, 1, words=[word for word in sys.argv[1:] if word != "--alone"])
    sys.setrecursionlimit(20_000)
    counts = (alone if without else beside_the_program)(random.Random(seed), count)
    sys.exit(0 if counts.told() else 1)


if __name__ == "__main__":
    main()
