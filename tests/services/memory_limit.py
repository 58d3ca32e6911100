#!/usr/bin/env python3
"""A service by four workers under a limit of memory of 100 MB a worker: four analysts ask at once what takes most, and no answer is lost.

usage: tests/services/memory_limit.py [ROUNDS [SECONDS]]    1 round and 10 s, unless said (PROGRAM=FILE tries another build than tools/build's)
The limit is one of address space (`prlimit --as`), since a memory cgroup takes rights that tests haven't: what the service has once it listens, with
its table, the room for its records and four stacks, and 400 MB more. No process is resident with more than its address space, so the same number
as `MemoryMax` of examples/service/hitchseason.service refuses no more. The lines are the programs of bench/dearest_memory.py that hold most, over
1,024 rows. They are charged nothing.

- together: each line by all four at the same moment, each at its own port, ROUNDS times: each reply is an answer.
- others: three ask those lines without a pause for SECONDS, and the fourth what is plain: each reply is an answer, and the fourth never waits for over
  a second longer than it does where nobody else asks.
- little: the same with 4 MB in the place of 400. Answers are lost there (`no 51`, `no 90`, or a connection that is dropped), but none of the fourth's
  that was begun, the service goes on, and each port is answered again: so the limit is one that binds.
It ends with status 1 otherwise.
"""
import os
import re
import resource
import subprocess
import sys
import tempfile
import threading
import time
from collections import Counter

sys.path.insert(0, f"{os.path.dirname(os.path.abspath(__file__))}/../lib")
from places import TOP  # noqa: E402
from served import AMPLE, PROGRAM, Caller, Service, Wrong, need_program, place  # noqa: E402
from catalog import catalog, owner  # noqa: E402

sys.path.insert(0, f"{TOP}/bench")
from dearest_memory import holding  # noqa: E402

MB = 10**6
ENOUGH, LITTLE = 400 * MB, 4 * MB
ROWS = 1024
ANALYSTS = ("ann", "bob", "eve", "mia")
WORKERS = len(ANALYSTS)
PLAIN = "ask census 0.000001 size people"
REPLY = re.compile(r"(answer \d+ -?\d+ \d+|no 51 \d+|no 90)$")


class House:
    """A folder with a table of 1,024 rows, of which the first is 77, and journals."""

    def __init__(self, folder):
        self.folder = folder
        people = b"age\n77\n" + b"20\n" * (ROWS - 1)
        made = catalog(owner(budget=AMPLE, capacity=2**17), analysts=ANALYSTS)
        for name, data in (("catalog.json", made), ("key", bytes(range(32))), ("people.csv", people)):
            with open(f"{folder}/{name}", "wb") as file:
                file.write(data)
        subprocess.run([PROGRAM, "init", "catalog.json", "key"], cwd=folder, stdin=subprocess.DEVNULL, capture_output=True, check=True)


def address_space(service):
    with open(f"/proc/{service.process.pid}/status", encoding="ascii") as file:
        return 1024 * next(int(line.split()[1]) for line in file if line.startswith("VmSize"))


def bound(service, size):
    """Binds a service that listens: it has no memory to ask for before its first line."""
    resource.prlimit(service.process.pid, resource.RLIMIT_AS, (size, size))


def all_at_once(works):
    """Runs each in a thread; the first fault is raised."""
    faults = []

    def run(work):
        try:
            work()
        except (Wrong, OSError, threading.BrokenBarrierError) as fault:
            faults.append(fault)

    threads = [threading.Thread(target=run, args=(work,)) for work in works]
    for thread in threads:
        thread.start()
    for thread in threads:
        thread.join()
    if faults:
        raise next((fault for fault in faults if isinstance(fault, Wrong)), faults[0])


def answered(reply, what):
    if not reply.startswith("answer "):
        raise Wrong(f"{what} was answered {reply}")


def together(service, lines, rounds):
    meeting = threading.Barrier(WORKERS, timeout=300)

    def analyst(worker):
        try:
            with service.caller(worker, ANALYSTS[worker], seconds=300) as caller:
                for _ in range(rounds):
                    for name, line in lines.items():
                        meeting.wait()
                        answered(caller.ask(line), name)
        except BaseException:
            meeting.abort()
            raise

    all_at_once([lambda worker=worker: analyst(worker) for worker in range(WORKERS)])
    return f"{WORKERS * rounds * len(lines)} lines, four at once: all answered"


def longest_wait(caller, until):
    """The longest wait for a plain answer until then, in seconds, and how many there were."""
    longest, count = 0, 0
    while time.monotonic() < until:
        begun = time.monotonic()
        answered(caller.ask(PLAIN), "a plain ask")
        longest, count = max(longest, time.monotonic() - begun), count + 1
        time.sleep(0.002)
    return longest, count


def others(service, lines, seconds):
    with service.caller(3, ANALYSTS[3]) as caller:
        alone, _ = longest_wait(caller, time.monotonic() + 2)
    until, waits, came = time.monotonic() + seconds, [], Counter()

    def dear(worker):
        with service.caller(worker, ANALYSTS[worker], seconds=300) as caller:
            while time.monotonic() < until:
                for name, line in lines.items():
                    answered(caller.ask(line), name)
                    came[worker] += 1

    def plain():
        with service.caller(3, ANALYSTS[3]) as caller:
            waits.append(longest_wait(caller, until))

    all_at_once([plain, *(lambda worker=worker: dear(worker) for worker in range(3))])
    longest, count = waits[0]
    if longest > alone + 1:
        raise Wrong(f"a plain ask waited {longest:.2f} s, and {alone:.2f} s where nobody else asked")
    return f"{sum(came.values())} of three analysts, and {count} plain asks of a fourth meanwhile: the longest wait {longest:.3f} s, alone {alone:.3f} s"


def asked(service, worker, line):
    """The reply to a line over a connection of its own, or None where the connection is dropped."""
    try:
        with Caller(service.port + worker, ANALYSTS[worker], 300) as caller:
            return caller.ask(line)
    except ConnectionError:
        return None


def little(service, lines, seconds):
    until, lost, came = time.monotonic() + seconds, Counter(), Counter()

    def dear(worker):
        while time.monotonic() < until:
            for name, line in lines.items():
                reply = asked(service, worker, line)
                if reply is not None and not REPLY.match(reply):
                    raise Wrong(f"{name} was answered {reply}")
                lost["dropped" if reply is None else " ".join(reply.split()[:2]) if reply.startswith("no") else "answered"] += 1

    def plain():
        while time.monotonic() < until:
            reply = asked(service, 3, PLAIN)
            came["none" if reply is None else reply.split()[0]] += 1

    all_at_once([plain, *(lambda worker=worker: dear(worker) for worker in range(3))])
    if service.process.poll() is not None:
        raise Wrong(f"in little memory the service ended with {service.process.returncode}")
    if lost["answered"] == sum(lost.values()):
        raise Wrong(f"in {LITTLE // MB} MB no answer was lost: the limit doesn't bind")
    if not came["answer"]:
        raise Wrong(f"in little memory a plain ask was never answered: {dict(came)}")
    for worker in range(WORKERS):
        until = time.monotonic() + 30
        while not (asked(service, worker, PLAIN) or "").startswith("answer "):
            if time.monotonic() > until:
                raise Wrong(f"port {worker} answers nothing afterwards")
    said = ", ".join(f"{number} {what}" for what, number in sorted(lost.items()))
    return f"in {LITTLE // MB} MB: {said}; plain asks: {came['answer']} answered, {sum(came.values()) - came['answer']} not; each port answers afterwards"


def under(house, size, tries):
    """Tries a service that may have so much more memory than it has once it listens."""
    with Service(house, WORKERS) as service:
        began = address_space(service)
        bound(service, began + size)
        for what in tries:
            print(what(service), flush=True)
        print(f"    {began // MB} MB of address space at the start, {size // MB} more allowed; at most {service.peak() // 1000} MB were resident")


def main():
    rounds, seconds = ([int(word) for word in sys.argv[1:]] + [1, 10][len(sys.argv) - 1 :])[:2]
    need_program()
    lines = {name: f"ask census 1 {program}" for name, program in holding().items()}
    with tempfile.TemporaryDirectory(dir=place()) as folder:
        house = House(folder)
        try:
            under(house, ENOUGH, (lambda service: together(service, lines, rounds), lambda service: others(service, lines, seconds)))
            under(house, LITTLE, (lambda service: little(service, lines, seconds),))
        except Wrong as fault:
            print(f"wrong: {fault}")
            sys.exit(1)
    print(f"{WORKERS * rounds * len(lines)} lines of the highest memory under a limit: no answer was lost, and nobody else waited")


if __name__ == "__main__":
    main()
