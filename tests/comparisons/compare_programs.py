#!/usr/bin/env python3
"""Compares what the program says of programs with what a second implementation says (tools/lib/programs.py, tools/lib/runs.py).

usage: tests/comparisons/compare_programs.py [COUNT [SEED]]     (PROGRAM=FILE compares another build than tools/build's)
COUNT random programs (20,000 where none is said): typed ones, the same with a token or a byte changed, terms of no type,
deep nests, heaps of tokens and of bytes, runs near a limit. Each is given to `check`, and each that fits a line to `ask`, many to
a script, at an epsilon that the budget doesn't allow. Ends with status 1 where an answer differs, or where a kind of answer didn't
come. What the answers are is compared by tests/comparisons/compare_runs.py.
"""
import os
import random
import subprocess
import sys
import tempfile
from collections import Counter
from concurrent.futures import ThreadPoolExecutor
from math import ceil

sys.path.insert(0, f"{os.path.dirname(os.path.abspath(__file__))}/../lib")
from places import TOP  # noqa: E402

PROGRAM = os.path.abspath(os.environ.get("PROGRAM", f"{TOP}/out/hitchseason"))
from afresh import run_afresh  # noqa: E402
from beginning import begin  # noqa: E402
from programs import Node, Refused, sensitivity_text  # noqa: E402
from random_programs import CATALOG, TABLES, program_of  # noqa: E402
from runs import asked  # noqa: E402

BUDGET = 10_000_000
FILES = [("people.csv", b"age\n20\n30\n40\n"), ("stays.csv", b"ward,nights\nA,3\n")]
EPSILON = 10**9
LINE_LIMIT = 16_384
WANTED = "20 21 22 30-unbound 30-mismatch 30-notground 30-notflat 31 32 33 34 35 36 37 40".split()


def forms_of(term):
    yield term.form
    for part in term.parts:
        if isinstance(part, Node):
            yield from forms_of(part)


def wanted_of(program):
    """What `check` and `ask` say of a program, by the second implementation, and an accepted one's term and sensitivity.

    An ask that the budget allows is None: tests/comparisons/compare_runs.py compares those."""
    try:
        term, r = asked(program, TABLES)
    except Refused as refusal:
        # Want of memory, of which `check` says a word of its own.
        said = "memory" if str(refusal) == "90" else f"no {refusal}"
        return said, f"no {refusal}", None, None
    cost = ceil(r * EPSILON)
    line = f"no 40 0 {cost} {BUDGET} 0" if cost > BUDGET else None
    return f"ok {sensitivity_text(r)}", line, term, r


def fits_a_line(program):
    return b"\n" not in program and not program.endswith(b"\r") and len(program) < LINE_LIMIT - 16


def kind_of(line):
    words = line.split()
    return "-".join(words[1:3]) if words[1] == "30" else words[1]


class Comparison:
    def __init__(self, room):
        self.room, self.differences = room, 0
        self.kinds, self.forms, self.sensitivities = Counter(), Counter(), Counter()

    def differ(self, by, program, found, want):
        self.differences += 1
        print(f"{by}: {found}, wanted {want}, of {program if len(program) < 600 else program[:600] + b'..'}", flush=True)

    def by_check(self, number, program):
        name = f"{self.room}/program{number}"
        with open(name, "wb") as file:
            file.write(program)
        ran = subprocess.run([PROGRAM, "check", "cat.json", "census", name], capture_output=True, cwd=self.room)
        os.remove(name)
        return ran.returncode, ran.stdout.decode().removesuffix("\n")

    def compare(self, programs, pool):
        wanted = [wanted_of(program) for program in programs]
        for program, (status, said), (want, _, term, r) in zip(programs, pool.map(self.by_check, range(len(programs)), programs), wanted):
            if said != want or status != (0 if want.startswith("ok") else 1):
                self.differ(f"check, status {status}", program, said, want)
            self.count(want, term, r)
        fits = [it for it, program in enumerate(programs) if wanted[it][1] and fits_a_line(program)]
        script = b"hello ann\n" + b"".join(b"ask census 1000 " + programs[it] + b"\n" for it in fits)
        ran = run_afresh(PROGRAM, "cat.json", "key", script, self.room)
        lines = ran.stdout.decode().splitlines()[1:]
        if ran.returncode or len(lines) != len(fits):
            self.differ(f"run, status {ran.returncode}", b"", f"{len(lines)} replies", len(fits))
        for it, said in zip(fits, lines):
            if said != wanted[it][1]:
                self.differ("ask", programs[it], said, wanted[it][1])
            self.kinds["asked"] += 1
            self.kinds["40"] += wanted[it][1].startswith("no 40 ")

    def count(self, want, term, r):
        if term is None:
            self.kinds[kind_of(want)] += 1
            return
        self.kinds["ok"] += 1
        self.forms.update(set(forms_of(term)))
        self.sensitivities["0" if r == 0 else "1" if r == 1 else "whole" if r.denominator == 1 else "fraction"] += 1


def main():
    count, seed = begin(__doc__, 20_000, 1)
    rng = random.Random(seed)
    with tempfile.TemporaryDirectory() as room, ThreadPoolExecutor(3) as pool:
        for name, data in (("key", bytes(32)), ("cat.json", CATALOG), *FILES):
            with open(f"{room}/{name}", "wb") as file:
                file.write(data)
        comparison = Comparison(room)
        for first in range(0, count, 500):
            comparison.compare([program_of(rng) for _ in range(min(500, count - first))], pool)
    print(f"{count} programs by check, {comparison.kinds.pop('asked', 0)} by ask, {comparison.differences} differences")
    print("answers:", ", ".join(f"{kind} {many}" for kind, many in sorted(comparison.kinds.items())))
    print("accepted, by sensitivity:", ", ".join(f"{kind} {many}" for kind, many in sorted(comparison.sensitivities.items())))
    print("accepted, by a form in them:", ", ".join(f"{form} {many}" for form, many in sorted(comparison.forms.items())))
    lacking = [kind for kind in ["ok", *WANTED] if not comparison.kinds[kind]]
    if lacking:
        print("none came of", ", ".join(lacking))
    sys.exit(1 if comparison.differences or lacking else 0)


main()
