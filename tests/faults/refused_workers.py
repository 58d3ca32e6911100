#!/usr/bin/env python3
"""Refuses allocation 1, 2, 3, .. of a run by four workers over two owners, alone and with all later ones.

usage: tests/faults/refused_workers.py [WORKERS]     (PROGRAM=FILE tries another build than the proved one). Needs cc
Each run must end with status 7 and the line `memory` (or no line), no journal being another, or with status 0 and a reply to each line: to an ask
`no 90`, which takes no number and no charge, or `no 51 N`, which is charged, or `answer N V T` with the value that the second implementation
(tools/reference.py) gives to number N. No number comes twice, an owner's numbers are 0, 1, 2, .., what was spent is what these cost, and `audit`
counts them so. Which allocation is refused hangs on how the threads run, so not every one is met in each run. It ends with status 1 at a wrong
run, and where no run ended with `memory`, or none with `no 90`, or none with `no 51`.
"""
import os
import subprocess
import sys
import tempfile
from collections import Counter

sys.path.insert(0, f"{os.path.dirname(os.path.abspath(__file__))}/../lib")
from places import TOP  # noqa: E402

PROGRAM = os.path.abspath(os.environ.get("PROGRAM", f"{TOP}/crates/hitchseason/out/hitchseason"))
from afresh import renew  # noqa: E402
from catalog import catalog, owner  # noqa: E402
from reference import Server, house_of, key_words  # noqa: E402
from refused_runs import Wrong  # noqa: E402

OWNERS = ("east", "west")
ASKS, BLOCKS = 3, 8
ASK = "1 size people"
FILES = {
    "key": bytes(32),
    "people.csv": b"age\n20\n30\n40\n",
    "cat.json": catalog(*[owner(name, budget=10**9, capacity=64) for name in OWNERS], analysts=("ann",)),
}


def block_of(number):
    return ["hello ann", *[f"ask {OWNERS[number % 2]} {ASK}"] * ASKS, "bye"]


LINES = [line for number in range(BLOCKS) for line in block_of(number)]
SCRIPT = "".join(f"{line}\n" for line in LINES).encode()


def answers_due():
    """The answer to each number of each owner."""
    server = Server(house_of(FILES["cat.json"], FILES.__getitem__), key_words(FILES["key"]))
    server.reply(b"hello ann")
    return {name: [server.reply(f"ask {name} {ASK}".encode()) for _ in range(ASKS * BLOCKS // 2)] for name in OWNERS}


class Room:
    def __init__(self, folder, workers):
        self.folder, self.workers, self.due = folder, workers, answers_due()
        words = ["cc", "-O1", "-shared", "-fPIC", "-o", f"{folder}/refuse.so", f"{TOP}/tests/faults/refuse_allocation.c", "-ldl"]
        subprocess.run(words, check=True)
        for name, data in FILES.items():
            with open(f"{folder}/{name}", "wb") as file:
                file.write(data)

    def run(self, **refusals):
        renew(PROGRAM, "cat.json", "key", self.folder)
        self.fresh = self.journals()
        given = {**os.environ, "LD_PRELOAD": f"{self.folder}/refuse.so", **refusals}
        words = [PROGRAM, "run", "cat.json", "key", "--workers", self.workers]
        ran = subprocess.run(words, input=SCRIPT, capture_output=True, cwd=self.folder, env=given)
        return ran.returncode, ran.stdout.decode("latin-1"), ran.stderr.decode("latin-1")

    def journals(self):
        found = []
        for order in range(len(OWNERS)):
            with open(f"{self.folder}/journals/{order}.bud", "rb") as file:
                found.append(file.read())
        return found

    def audit(self):
        ran = subprocess.run([PROGRAM, "audit", "cat.json", "key"], capture_output=True, cwd=self.folder, text=True)
        return ran.stdout

    def judge(self, status, said):
        """What a run came to: 'memory', or what its asks were told."""
        if status == 7 and said in ("memory\n", ""):
            if self.journals() != self.fresh:
                raise Wrong("memory, and a journal is another")
            return {"memory"}
        replies = said.splitlines()
        if status != 0 or len(replies) != len(LINES):
            raise Wrong(f"status {status} and {said!r}")
        told = {name: {} for name in OWNERS}
        for line, reply in zip(LINES, replies):
            if line.startswith("ask "):
                self.asked(told[line.split()[1]], line.split()[1], reply)
            elif reply != line:
                raise Wrong(f"{reply} to {line}")
        counted = ""
        for name in OWNERS:
            numbers, lost = sorted(told[name]), sum(reply.startswith("no 51 ") for reply in told[name].values())
            if numbers != list(range(len(numbers))):
                raise Wrong(f"the numbers of {name} are {numbers}")
            spent = len(numbers) * 10**6
            counted += f"{name} reservations {len(numbers)} answered {len(numbers) - lost} exhausted 0 lost {lost} spent {spent} budget {10**9}\n"
        if self.audit() != counted:
            raise Wrong(f"audit says {self.audit()!r}, and {counted!r} is due")
        return {reply.rsplit(" ", 1)[0] if reply.startswith("no 51") else reply.split()[0] for reply in replies} | {one for one in replies if one == "no 90"}

    def asked(self, told, name, reply):
        if reply == "no 90":
            return
        words = reply.split()
        number = int(words[2] if words[0] == "no" else words[1])
        if reply not in (f"no 51 {number}", self.due[name][number]):
            raise Wrong(f"{reply} of {name}, and {self.due[name][number]} is due")
        if number in told:
            raise Wrong(f"number {number} of {name} twice")
        told[number] = reply


def main():
    workers = sys.argv[1] if len(sys.argv) > 1 else "4"
    if not os.access(PROGRAM, os.X_OK):
        sys.exit(f"there is no {PROGRAM}: run 'rt run' in crates/hitchseason first, which proves and builds it")
    with tempfile.TemporaryDirectory() as folder:
        room, wrong, came = Room(folder, workers), 0, Counter()
        count = int(room.run(TELL="1")[2])
        for later in ({}, {"REFUSE_ALL": "1"}):
            for number in range(1, count + 1):
                status, said, _ = room.run(REFUSE=str(number), **later)
                try:
                    told = room.judge(status, said)
                except Wrong as fault:
                    wrong += 1
                    print(f"allocation {number} {'and all later' if later else ''}: {fault}")
                    continue
                came[next((what for what in ("memory", "no 51", "no 90") if what in told), "right")] += 1
    parts = ", ".join(f"{came[what]} {what}" for what in ("memory", "no 90", "no 51", "right"))
    print(f"{workers} workers, {count} allocations, of {2 * count} runs {parts}, {wrong} wrong")
    sys.exit(1 if wrong or not all(came[what] for what in ("memory", "no 90", "no 51")) else 0)


main()
