#!/usr/bin/env python3
"""A `serve` by sixteen workers whose threads can't all start: it listens at all its ports, or says so and listens at none.

usage: tests/faults/refused_threads.py [--all]     (PROGRAM=FILE tries another build than tools/build's)
- threads: it may have 1, 2, 3, .. threads (`ulimit -u`), as a user who has no other process. Only root can become one; anybody else leaves these out.
- memory: its address space is bounded (`ulimit -v`), from 20 MB to 1.5 GB: each thread takes its stack of it.
Each ends with status 7 and the line `memory` before any port is listened at, or listens at all sixteen. With --all at more bounds. It ends with status
1 otherwise, and where one of the two never came.
"""
import os
import resource
import subprocess
import sys
import tempfile
import time
from collections import Counter

sys.path.insert(0, f"{os.path.dirname(os.path.abspath(__file__))}/../lib")
from served import PROGRAM, Room, Wrong, free_ports, is_listened_at, need_program, place  # noqa: E402

MB = 10**6
WORKERS = 16
# A user who has no process, since root is bound by no number of threads.
NOBODY = 64_321
# Behind the last change of what is seen.
SETTLED = 3


def came_of(room, bound, user=None):
    """`7` or `all`, of a service that is bound so as it starts."""
    port = free_ports(WORKERS)
    words = [PROGRAM, "serve", "catalog.json", "key", "--port", str(port), "--workers", str(WORKERS), "--each", "1"]
    as_whom = {} if user is None else {"user": user, "group": user, "extra_groups": []}
    process = subprocess.Popen(
        words, cwd=room.folder, stdin=subprocess.DEVNULL, stdout=subprocess.PIPE, stderr=subprocess.STDOUT, preexec_fn=lambda: resource.setrlimit(*bound), **as_whom
    )
    most, since = 0, time.monotonic()
    try:
        while (ended := process.poll()) is None:
            found = sum(is_listened_at(port + worker) for worker in range(WORKERS))
            if found == WORKERS:
                return "all"
            if found > most:
                most, since = found, time.monotonic()
            if time.monotonic() > since + SETTLED + 20 * (most == 0):
                raise Wrong(f"it listens at {most} of {WORKERS} ports")
            time.sleep(0.005)
        said = process.stdout.read()
        if (ended, said) not in ((7, b"memory\n"), (7, b"")) or most:
            raise Wrong(f"it ended with {ended} and {said[:100]!r}, and listened at {most} ports")
        return "7"
    finally:
        process.kill()
        process.wait()
        process.stdout.close()


def tried(room, what, bounds, user=None):
    """A row, and how many were wrong."""
    came, wrong = Counter(), 0
    for name, bound in bounds:
        try:
            came[came_of(room, bound, user)] += 1
        except Wrong as fault:
            wrong += 1
            print(f"{what}, {name}: {fault}")
    lacking = [end for end in ("7", "all") if not came[end]]
    print(f"{what}: {came['7']} ended with 7, {came['all']} listened at all ports{''.join(f'; never {end}' for end in lacking)}", flush=True)
    return wrong + len(lacking), len(bounds)


def main():
    every = "--all" in sys.argv[1:]
    need_program()
    with tempfile.TemporaryDirectory(dir=place()) as folder:
        room, rows = Room(folder, capacity=64), []
        sizes = range(20, 1500, 10 if every else 60)
        rows.append(tried(room, "memory", [(f"{size} MB", (resource.RLIMIT_AS, (size * MB, size * MB))) for size in sizes]))
        if os.getuid() == 0:
            subprocess.run(["chown", "-R", str(NOBODY), folder], check=True)
            os.chmod(folder, 0o755)
            counts = range(1, WORKERS + 4, 1 if every else 3)
            rows.append(tried(room, "threads", [(f"{count} threads", (resource.RLIMIT_NPROC, (count, count))) for count in counts], NOBODY))
        else:
            print("threads: not tried, since this isn't root")
    wrong = sum(row[0] for row in rows)
    print(f"{sum(row[1] for row in rows)} services, {wrong} wrong")
    sys.exit(1 if wrong else 0)


main()
