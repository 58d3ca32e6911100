#!/usr/bin/env python3
"""Compares the lines of generated runs (`gen SEED N WORKERS`) with those that the second implementation works out (tools/reference.py).

usage: tests/comparisons/compare_gen.py [COUNT [SEED]]     50 runs, unless said (PROGRAM=FILE compares another build than tools/build's)
The first runs have the greatest and the least numbers that the words take, and sizes about those of a block; then come random ones, of up to 3,000 asks.
Each has another number of workers than the one before, from 1 to 16, and every third is made a second time by another number of them, since the
line hangs on SEED and N alone. From 200 runs on one of them asks 100,000 times. It ends with status 1 at the first difference.
"""
import os
import random
import subprocess
import sys
import time

sys.path.insert(0, f"{os.path.dirname(os.path.abspath(__file__))}/../lib")
from places import TOP  # noqa: E402

PROGRAM = os.path.abspath(os.environ.get("PROGRAM", f"{TOP}/out/hitchseason"))
from beginning import begin  # noqa: E402
from meanings import meaning  # noqa: E402
from reference import generated  # noqa: E402

WORKERS = 16
EDGES = [(0, 1), (0, 2), (2**32 - 1, 1), (2**32 - 1, 2), (2**31, 9), (1, 10), (256, 11), (65536, 19), (2**24, 20), (99, 21), (100, 160), (7, 2000)]
MOST_ASKS = 100_000


def cases(rng, count):
    found = EDGES + [(rng.randrange(2**32), int(10 ** rng.uniform(0, 3.47))) for _ in range(count - len(EDGES))]
    return found[:count] + ([(rng.randrange(2**32), MOST_ASKS)] if count >= 200 else [])


def said(seed, asks, workers):
    """The line of a run. One worker isn't said, now and then."""
    words = [str(seed), str(asks), *([str(workers)] if workers > 1 or seed % 2 else [])]
    ran = subprocess.run([PROGRAM, "gen", *words], stdin=subprocess.DEVNULL, capture_output=True, text=True)
    if (ran.returncode, ran.stderr) != (0, ""):
        sys.exit(f"gen {' '.join(words)} ended with {ran.returncode}, {ran.stdout[:200]!r} and {ran.stderr[:200]!r}")
    return ran.stdout


def main():
    count, seed = begin(__doc__, 50, 1)
    rng, begun, asked, runs = random.Random(f"gen {seed}"), time.monotonic(), 0, 0
    for number, (key, asks) in enumerate(cases(rng, count)):
        due = generated(key, asks)
        if meaning(due) is None:
            sys.exit(f"tools/lib/meanings.py doesn't know {due}")
        for workers in [number % WORKERS + 1] + ([rng.randint(1, WORKERS)] if number % 3 == 0 else []):
            found = said(key, asks, workers)
            if found != due + "\n":
                sys.exit(f"gen {key} {asks} {workers} wrote {found!r}, and {due!r} is due")
            asked, runs = asked + asks, runs + 1
    print(f"{runs} generated runs of {asked} asks by 1 to {min(count, WORKERS)} workers, seed {seed}: no difference ({time.monotonic() - begun:.0f} s)")


if __name__ == "__main__":
    main()
