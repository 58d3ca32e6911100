#!/usr/bin/env python3
"""What other workers feel of one that a program holds: a service of two workers, one of which walks rows within rows.

usage: bench/held.py [ROWS [ASKS]]    8,192 rows and 400 asks, unless said (PROGRAM=FILE tries another build than tools/build's)
One connection asks a program that is charged nothing and visits each row as often as there are rows; until it is answered, the other one asks
`size people` again and again, at most 50,000 times, of the same owner and then of another one. Next to that stand as many asks as are said with
nothing to hold anybody. Of each series it prints how many were answered, and the median, the 95th of a hundred and the greatest time of one, from
its line to its reply.
It ends with status 1 where the held program's reply isn't an answer, where fewer than ten asks were answered meanwhile, or where numbers aren't given
in turn.
"""
import os
import subprocess
import sys
import tempfile
import threading
import time

sys.path.insert(0, f"{os.path.dirname(os.path.abspath(__file__))}/../tests/lib")
import places  # noqa: E402,F401
from beginning import numbers
from served import NAMES, Room, Service, Wrong, need_program, place

# So many asks of one owner have room in its journal, twice over.
MOST = 50_000
HELD = "0 * sum[0,9] (map (fn (x : text * num) => let (s, a) = x in size (filter (fn (y : text * num) => let (t, b) = y in b <= a) people)) people)"


def asked(caller, name, times):
    """One ask more, its time, and its number."""
    begun = time.monotonic()
    reply = caller.ask(f"ask {name} 0.000001 size people").split()
    times.append(time.monotonic() - begun)
    if reply[0] != "answer":
        raise Wrong(f"an ask was answered {' '.join(reply)}")
    return int(reply[1])


def told(what, times):
    times = sorted(times)
    at = lambda part: f"{times[min(len(times) - 1, int(part * len(times)))] * 1000:.2f}"
    print(f"{what:<44} {len(times):>8} {at(0.5):>10} {at(0.95):>10} {times[-1] * 1000:>10.2f}", flush=True)


def beside(service, name):
    """The times of asks of an owner while a program of the first one is held, and how long that took."""
    replies, times, numbers = [], [], []
    with service.caller(0, "ann") as one, service.caller(1, "bob") as other:
        held = threading.Thread(target=lambda: replies.append(one.ask(f"ask {NAMES[0]} 0.000001 {HELD}")))
        begun = time.monotonic()
        held.start()
        # Its reservation comes first, and then the walk.
        time.sleep(0.1)
        while held.is_alive() and len(times) < MOST:
            numbers.append(asked(other, name, times))
        held.join()
        took = time.monotonic() - begun
    # The last ask may have been answered after the held one.
    if not replies or not replies[0].startswith("answer ") or len(times) < 10:
        raise Wrong(f"the held one was answered {replies}, and {len(times)} asks were answered meanwhile")
    if [number - numbers[0] for number in numbers] != list(range(len(numbers))):
        raise Wrong(f"numbers {numbers[:20]}")
    return times, took


def main():
    rows, asks = numbers(__doc__, 8192, 400)
    need_program()
    people = b"town,age\n" + b"".join(b"A,%d\n" % (number % 90) for number in range(rows))
    print(f"{rows} rows, {os.cpu_count()} processors, load {os.getloadavg()[0]:.1f}")
    print(f"{'asks':<44} {'answered':>8} {'median ms':>10} {'95 of 100':>10} {'greatest':>10}")
    try:
        with tempfile.TemporaryDirectory(dir=place()) as folder:
            room = Room(folder, owners=2, people=people, capacity=2**18)
            with Service(room, 2) as service:
                for name in NAMES[:2]:
                    times = []
                    with service.caller(1, "bob") as caller:
                        for _ in range(asks):
                            asked(caller, name, times)
                    told(f"of {name}, alone", times)
                    times, took = beside(service, name)
                    told(f"of {name}, next to {NAMES[0]}'s, held for {took:.1f} s", times)
            room.audited()
    except (Wrong, subprocess.SubprocessError, OSError) as fault:
        print(f"WRONG: {fault}")
        sys.exit(1)


if __name__ == "__main__":
    main()
