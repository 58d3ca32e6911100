#!/usr/bin/env python3
"""Runs and services by several workers under a limit of address space, whose lines take what memory there is: each ends with a status of its own.

usage: tests/faults/limited_memory.py [--all]     24 runs and 6 services; with --all 200 and 50 (PROGRAM=FILE tries another build than tools/build's)
The limits go from 7 MB to 1.45 GB (`ulimit -v`). The lines are functions that are applied twice by one another, ten times over, to a union 64 wide, and
programs that hold as much as any that is known.
- A run by 2 or 4 workers ends with status 0 and a reply to each line, `answer`, `no 51` or `no 90`; or with status 7 and the line `memory`.
- A service by 4 workers, to each of which two connections come, ends with status 7 and the line `memory` before it listens; or once all were served, with 0,
  or with 7 where a connection was dropped, which then was told nothing.
A signal is never an end. It ends with status 1 otherwise, and where no run ended with 0, or none with 7.
"""
import os
import re
import resource
import socket
import subprocess
import sys
import tempfile
import threading
import time
from collections import Counter

sys.path.insert(0, f"{os.path.dirname(os.path.abspath(__file__))}/../lib")
from places import TOP  # noqa: E402
from catalog import catalog, owner  # noqa: E402
from served import AMPLE, PROGRAM, Wrong, free_ports, is_listened_at, need_program, place  # noqa: E402

sys.path.insert(0, f"{TOP}/bench")
from dearest_memory import holding, long_chain  # noqa: E402

MB = 10**6
LEAST, MOST = 7 * MB, 1450 * MB
BLOCKS = 8
WORKERS, EACH = 4, 2
REPLY = re.compile(rb"(hello ann|bye|answer \d+ -?\d+ \d+|no 51 \d+|no 90)$")
PEOPLE = b"age\n77\n" + b"20\n" * 63


class House:
    """A folder with a table of 64 rows, of which the first is 77, and journals."""

    def __init__(self, folder):
        self.folder = folder
        made = catalog(owner(budget=AMPLE, capacity=2**15), analysts=("ann",))
        for name, data in (("catalog.json", made), ("key", bytes(range(32))), ("people.csv", PEOPLE)):
            with open(f"{folder}/{name}", "wb") as file:
                file.write(data)
        subprocess.run([PROGRAM, "init", "catalog.json", "key"], cwd=folder, stdin=subprocess.DEVNULL, capture_output=True, check=True)


def limits(count):
    """So many, each as many times the one before."""
    return [int(LEAST * (MOST / LEAST) ** (n / (count - 1))) for n in range(count)]


def bound(limit):
    return lambda: resource.setrlimit(resource.RLIMIT_AS, (limit, limit))


def block_of(line):
    return f"hello ann\nask census 0.000001 {line}\nbye\n".encode()


def judge(replies, count, what):
    if len(replies) != count or not all(REPLY.match(reply) for reply in replies):
        raise Wrong(f"{what} was told {replies[:4]}, {len(replies)} replies")


def run(room, line, workers, limit):
    words = [PROGRAM, "run", "catalog.json", "key", "--workers", str(workers)]
    ran = subprocess.run(words, cwd=room.folder, input=block_of(line) * BLOCKS, capture_output=True, preexec_fn=bound(limit), timeout=600)
    if ran.returncode == 0:
        judge(ran.stdout.splitlines(), 3 * BLOCKS, "a run")
    elif (ran.returncode, ran.stdout) not in ((7, b"memory\n"), (7, b"")):
        raise Wrong(f"status {ran.returncode} and {ran.stdout[:100]!r}")
    return str(ran.returncode)


def told_at(port, lines):
    """What a connection is told until it ends."""
    told = b""
    with socket.create_connection(("127.0.0.1", port), timeout=300) as link:
        try:
            link.sendall(lines)
            while piece := link.recv(65_536):
                told += piece
        except ConnectionError:
            pass
    return told


def listens(process, port):
    until = time.monotonic() + 60
    while not all(is_listened_at(port + worker) for worker in range(WORKERS)):
        if process.poll() is not None:
            return False
        if time.monotonic() > until:
            raise Wrong("it doesn't listen at all ports")
        time.sleep(0.005)
    return True


def serve(room, line, limit):
    port = free_ports(WORKERS)
    words = [PROGRAM, "serve", "catalog.json", "key", "--port", str(port), "--workers", str(WORKERS), "--each", str(EACH)]
    process = subprocess.Popen(words, cwd=room.folder, stdin=subprocess.DEVNULL, stdout=subprocess.PIPE, stderr=subprocess.STDOUT, preexec_fn=bound(limit))
    told = []
    try:
        if listens(process, port):

            def comes(worker):
                for _ in range(EACH):
                    told.append(told_at(port + worker, block_of(line)))

            threads = [threading.Thread(target=comes, args=(worker,)) for worker in range(WORKERS)]
            for thread in threads:
                thread.start()
            for thread in threads:
                thread.join()
        said = process.communicate(timeout=60)[0]
    finally:
        process.kill()
        process.wait()
    if not told:
        if (process.returncode, said) not in ((7, b"memory\n"), (7, b"")):
            raise Wrong(f"status {process.returncode} and {said[:100]!r} before it listened")
        return "7 unserved"
    dropped = sum(not one for one in told)
    for one in told:
        if one:
            judge(one.splitlines(), 3, "a connection")
    if len(told) != WORKERS * EACH or (process.returncode, said) != ((7, b"memory\n") if dropped else (0, b"")):
        raise Wrong(f"status {process.returncode} and {said[:100]!r}, {len(told)} connections, {dropped} dropped")
    return "7 dropped" if dropped else "0"


def tried(what, works):
    """A row, and how many were wrong."""
    came, wrong = Counter(), 0
    for name, work in works:
        try:
            came[work()] += 1
        except (Wrong, OSError, subprocess.TimeoutExpired) as fault:
            wrong += 1
            print(f"{what}, {name}: {fault}")
    print(f"{len(works)} {what}: " + ", ".join(f"{came[end]} ended with {end}" for end in sorted(came)), flush=True)
    return wrong, came


def main():
    runs, services = (200, 50) if "--all" in sys.argv[1:] else (24, 6)
    need_program()
    lines = [long_chain(1023), *holding().values()]
    with tempfile.TemporaryDirectory(dir=place()) as folder:
        room = House(folder)
        works = [
            (f"{workers} workers, {limit // MB} MB", lambda n=n, workers=workers, limit=limit: run(room, lines[n % 2 and n // 2 % len(lines)], workers, limit))
            for n, (limit, workers) in enumerate((limit, workers) for limit in limits(runs // 2) for workers in (2, 4))
        ]
        wrong, came = tried("runs", works)
        works = [(f"{limit // MB} MB", lambda n=n, limit=limit: serve(room, lines[n % len(lines)], limit)) for n, limit in enumerate(limits(services))]
        more, _ = tried("services", works)
    lacking = [end for end in ("0", "7") if not came[end]]
    print(f"{wrong + more} of {runs + services} ended otherwise{''.join(f'; no run ended with {end}' for end in lacking)}")
    sys.exit(1 if wrong or more or lacking else 0)


main()
