#!/usr/bin/env python3
"""Refuses allocation 1, 2, 3, .. of the test of session_tests in which memory runs out, alone and with all later ones.

usage: tests/faults/refused_sessions.py     (PROGRAM=FILE tries another build of the tests). Needs cc. `tests/faults/refused_memory.sh --sessions` calls it.
The test judges its session itself: it ends unread, with nothing read or written and the passes as they were; or the replies are
right but that an ask may be told 'no 90' or 'no 51', with the numbers and charges that go with it. Here each run must pass that, or
have had no memory for what the test itself sets up. It ends with status 1 at another run, and where no session was unread, or no
ask was told 'no 90' or 'no 51'.
"""
import os
import subprocess
import sys
import tempfile
from collections import Counter

sys.path.insert(0, f"{os.path.dirname(os.path.abspath(__file__))}/../lib")
from places import TOP  # noqa: E402

PROGRAM = os.path.abspath(os.environ.get("PROGRAM", f"{TOP}/crates/session_tests/out/session_tests_tests"))
TEST = "memory::refused_memory"
PASSED = "test result: ok"
UNMADE = "error: AllocError"


def run(library, **refusals):
    given = {**os.environ, "LD_PRELOAD": library, **refusals}
    ran = subprocess.run([PROGRAM, TEST], capture_output=True, text=True, env=given)
    return ran.returncode, ran.stdout.split("\n"), ran.stderr


def came_of(status, said, faults):
    """What became of the session in a run, or None where the run is wrong."""
    if status == 0 and PASSED in said:
        return ", then ".join(line for line in said if line and line != PASSED) or None
    return "not made" if status != 0 and UNMADE in faults else None


def main():
    if not os.access(PROGRAM, os.X_OK):
        print(f"there is no {PROGRAM}: run 'rt test' in crates/session_tests first, which proves and builds it")
        sys.exit(2)
    with tempfile.TemporaryDirectory() as folder:
        library = f"{folder}/refuse.so"
        subprocess.run(["cc", "-O1", "-shared", "-fPIC", "-o", library, f"{TOP}/tests/faults/refuse_allocation.c", "-ldl"], check=True)
        count = int(run(library, TELL="1")[2])
        came, wrong = Counter(), 0
        for later in ({}, {"REFUSE_ALL": "1"}):
            for number in range(1, count + 1):
                outcome = run(library, REFUSE=str(number), **later)
                what = came_of(*outcome)
                came[what] += 1
                if what is None:
                    wrong += 1
                    print(f"allocation {number} {'and all later' if later else ''}: {outcome}")
    print(f"{count} allocations, of {2 * count} runs " + ", ".join(f"{came[what]} {what}" for what in sorted(came, key=str)))
    unseen = [what for what in ("unread, then right", "unread", "no 90", "no 51") if not came[what]]
    if unseen:
        print(f"never: {', '.join(unseen)}")
    sys.exit(1 if wrong or unseen else 0)


main()
