#!/usr/bin/env python3
"""How long a service is away while the budget of one of its owners is raised: 16 owners with so many records each, `serve`, a SIGTERM, `grant`, and
`serve` again, up to the first reply over a connection.

usage: bench/away.py [ROUNDS [RECORDS [OWNERS]]]    7 rounds, 100,000 records each of 16 owners, unless said (PROGRAM=FILE measures another build)
Each figure is the median of the rounds, in milliseconds: from the signal to the service's end, the whole of `grant`, and from the start of the next
service to its reply to `left`. Journals lie in memory (/dev/shm). It ends with status 1 where a reply isn't the one that is due.
"""
import os
import signal
import subprocess
import sys
import tempfile
import time
from statistics import median

os.environ.setdefault("PROGRAM", f"{os.path.dirname(os.path.dirname(os.path.abspath(__file__)))}/crates/hitchseason/out/hitchseason")
sys.path.insert(0, f"{os.path.dirname(os.path.abspath(__file__))}/../tests/lib")
import places  # noqa: E402,F401
from beginning import numbers  # noqa: E402
import served  # noqa: E402
from journal import ONE, WHOLE, Reservation, Settlement, appended, made  # noqa: E402

BUDGET = 10**15
AMOUNT = 7


def filled(room, records):
    """The journal of each owner gets so many records, each reservation with its settlement."""
    pairs = [(Reservation(number, WHOLE, 10**6, 1, 1, 10**6, 0, ONE), Settlement(number, 1, 3)) for number in range(records // 2)]
    for order, head in enumerate(room.heads):
        with open(f"{room.folder}/journals/{order}.bud", "wb") as file:
            file.write(appended(made(head, 262144), 262144, (record for pair in pairs for record in pair)))


def one_reply(port, line):
    with served.socket.create_connection(("127.0.0.1", port)) as link:
        link.sendall(line)
        return link.makefile("rb").readline()


def begun(room):
    """A service that has told what is left of the first owner's budget, its reply, and the seconds up to that."""
    begin = time.perf_counter()
    service = served.Service(room)
    reply = one_reply(service.port, b"left " + room.names[0].encode() + b"\n")
    return service, reply, time.perf_counter() - begin


def granted(room):
    begin = time.perf_counter()
    ran = subprocess.run([served.PROGRAM, "grant", "catalog.json", "key", room.names[0], str(AMOUNT)], cwd=room.folder, capture_output=True)
    return ran.stdout, time.perf_counter() - begin


def stopped(service):
    begin = time.perf_counter()
    service.stop(signal.SIGTERM)
    return time.perf_counter() - begin


def away(room, records, rounds):
    """The seconds of each step, round after round; each reply is as is due."""
    found, spent = [], records // 2 * 10**6
    service, _, _ = begun(room)
    for number in range(1, rounds + 1):
        ended = stopped(service)
        said, took = granted(room)
        service, reply, opened = begun(room)
        budget, seen = BUDGET + AMOUNT * number, records + number
        due = b"granted census %d %d\n" % (budget, seen), b"left %d %d %d\n" % (spent, budget, seen)
        if (said, reply) != due:
            service.stop()
            raise served.Wrong(f"{said!r} and {reply!r}, and {due!r} is due")
        found.append((ended, took, opened))
    service.stop()
    return found


def main():
    rounds, records, owners = numbers(__doc__, 7, 100_000, 16)
    served.NAMES = ("census", *(f"owner_{at}" for at in range(1, owners)))
    with tempfile.TemporaryDirectory(dir=served.MEMORY) as folder:
        room = served.Room(folder, owners, capacity=262144, budget=BUDGET)
        filled(room, records)
        try:
            found = away(room, records, rounds)
        except served.Wrong as wrong:
            print(f"WRONG: {wrong}")
            sys.exit(1)
    end, grant, start = (1000 * median(step) for step in zip(*found))
    print(f"{owners} owners of {records:,} records, load {os.getloadavg()[0]:.1f}: {end + grant + start:.0f} ms away: the service's end {end:.1f}, `grant` {grant:.1f}, the next first reply {start:.1f}")


main()
