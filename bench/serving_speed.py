#!/usr/bin/env python3
"""How long an ask over a connection takes, beside a bare echo server in C; and how many answers four workers give, beside one.

usage: bench/serving_speed.py [ROUNDS [ASKS]]    9 rounds of 4,000 asks, unless said (PROGRAM=FILE measures another build). Needs cc.
Journals lie in memory (/dev/shm). Each figure is the median of the rounds, in which what is beside each other is run in turn, in either order. Bars:

- an ask of `size people` over a connection, line out and reply in, takes at most 30 microseconds more than a line of the same length that
  a bare server on the same loopback writes back (bench/lines_loop.c): the medians of all lines of a round;
- four workers with a client each on four owners, and a program over 2^14 rows (some 0.2 milliseconds by the proved program, and some 2 by the quick
  build), give at least 3 times the answers a second of one worker with one client. It wants four processors with nothing else to do.

It ends with status 1 where a bar isn't met, and with 2 where there is no program, no cc or no /dev/shm.
"""
import os
import subprocess
import sys
import tempfile
import time
from statistics import median

os.environ.setdefault("PROGRAM", f"{os.path.dirname(os.path.dirname(os.path.abspath(__file__)))}/crates/hitchseason/out/hitchseason")
sys.path.insert(0, f"{os.path.dirname(os.path.abspath(__file__))}/../tests/lib")
import places  # noqa: E402,F401
from beginning import numbers  # noqa: E402
from served import MEMORY, PROGRAM, TOP, Room, Service, Wrong, free_ports, is_listened_at  # noqa: E402

LONG = "sum[0,100] (map (fn (p : text * num) => let (t, age) = p in age + 1) (filter (fn (p : text * num) => let (t, age) = p in age <= 50) people))"
SHORT = "size people"
ROWS = b"town,age\n" + b"".join(b"A,%d\n" % (20 + at * 7919 % 80) for at in range(2**14))


class Loop:
    def __init__(self, folder):
        self.name = f"{folder}/lines_loop"
        subprocess.run(["cc", "-O2", "-o", self.name, f"{TOP}/bench/lines_loop.c"], check=True)

    def begin(self, port, count, hello, line):
        return subprocess.Popen([self.name, "ask", str(port), str(count), hello, line], stdout=subprocess.PIPE, text=True)

    def end(self, run):
        said = run.communicate()[0]
        if run.returncode != 0:
            raise Wrong(f"a client ended with {run.returncode}")
        return [float(word) for word in said.split()]

    def echo(self):
        port = free_ports(1)
        run = subprocess.Popen([self.name, "echo", str(port)])
        while not is_listened_at(port):
            time.sleep(0.01)
        return port, run


def ask_of(owner, program):
    return f"ask {owner} 0.000001 {program}"


def in_turn(rounds, *ways):
    """The median of each way's figure over the rounds; every other round goes the other way about."""
    found = [[] for _ in ways]
    for number in range(rounds):
        order = range(len(ways)) if number % 2 == 0 else range(len(ways) - 1, -1, -1)
        for at in order:
            found[at].append(ways[at]())
    for figures in found:
        print(f"    {min(figures):.2f} to {max(figures):.2f}")
    return [median(figures) for figures in found]


def missed(met):
    return "" if met else ": MISSED"


def beside_echo(loop, rounds, asks):
    with tempfile.TemporaryDirectory(dir=MEMORY) as folder:
        room = Room(folder, 1, capacity=min(2**18, 2 * rounds * asks + 100))
        port, echo = loop.echo()
        try:
            with Service(room) as service:
                line = ask_of("census", SHORT)
                ours = lambda: loop.end(loop.begin(service.port, asks, "hello ann", line))[0]
                theirs = lambda: loop.end(loop.begin(port, asks, "", line))[0]
                ours, theirs = in_turn(rounds, ours, theirs)
        finally:
            echo.kill()
            echo.wait()
    met = ours - theirs <= 30
    print(f"an ask over a connection {ours:.1f} us, a bare echo {theirs:.1f} us: {ours - theirs:.1f} us above, at most 30 wanted{missed(met)}")
    return met


def many_workers(loop, rounds, asks):
    asks = max(50, asks // 10)
    with tempfile.TemporaryDirectory(dir=MEMORY) as folder:
        room = Room(folder, 4, capacity=min(2**18, 4 * rounds * asks + 100), people=ROWS)
        with Service(room, 4) as service:

            def answers_by(workers):
                begun = time.monotonic()
                runs = [loop.begin(service.port + at, asks, "hello ann", ask_of(room.names[at], LONG)) for at in range(workers)]
                for run in runs:
                    loop.end(run)
                return workers * asks / (time.monotonic() - begun)

            four, one = in_turn(rounds, lambda: answers_by(4), lambda: answers_by(1))
    met = four >= 3 * one
    print(f"four workers {four:.0f} answers a second, one {one:.0f} ({1000 / one:.2f} ms each): {four / one:.2f} times, at least 3 wanted{missed(met)}")
    return met


def main():
    rounds, asks = numbers(__doc__, 9, 4000)
    if not os.access(PROGRAM, os.X_OK) or not os.access(MEMORY, os.W_OK):
        print(f"there is no {PROGRAM}, which `rt run` in crates/hitchseason proves and builds, or no {MEMORY}", file=sys.stderr)
        sys.exit(2)
    print(f"{os.cpu_count()} processors, load {os.getloadavg()[0]:.1f}, {rounds} rounds")
    with tempfile.TemporaryDirectory() as folder:
        loop = Loop(folder)
        try:
            met = [beside_echo(loop, rounds, asks), many_workers(loop, rounds, asks)]
        except Wrong as fault:
            print(fault)
            sys.exit(1)
    sys.exit(0 if all(met) else 1)


if __name__ == "__main__":
    main()
