#!/usr/bin/env python3
"""Two processes on one folder at once, in all pairs of the commands init, run, audit and grant, and each of these, and a second `serve`, beside a `serve`.

usage: tests/services/two_processes.py [--mirror] [COUNT [SEED]]     (PROGRAM=FILE tries another build than tools/build's); 20 times each pair, unless
said. With --mirror each journal stands on two disks, and no file is moved away.
A journal is one process's at a time. Whatever the other one does:

- a process ends with 0; or with 6 and the line `disk OWNER` where the other one has the journal; or with 4 where an `init` was too early or too late;
- one of the two ends with 0, save where a journal was just being made;
- no number is told twice, each answer that was told is settled with its value (by a second reader, tools/journal.py), and what is spent is
  the sum of what the answers say that they took; each grant of 1 that was told made a budget of its own, and the budget is the greatest of them;
- beside a `serve` that listens every other one ends with 6, the connection's asks are answered, and at its end, or behind a kill, the folder is free;
- where a copy is moved over a `serve`'s journal, or its folder is moved away and an `init` makes another, the service's next ask is told 52 and the one
  behind 42, and nothing is written to the file that it holds: of a service and a `run` over the copy, the `run` alone gives the next number;
- `audit` then counts what is there, in the very words: a process that has ended, or was killed, has left no lock.

The files are for their owner alone to read and write, and the folder for nobody else to look into. It ends with status 1 at the first
difference, and where no process was ever refused.
"""
import os
import random
import shutil
import socket
import stat
import subprocess
import sys
import tempfile
import time
from collections import Counter
from itertools import combinations_with_replacement

sys.path.insert(0, f"{os.path.dirname(os.path.abspath(__file__))}/../lib")
from places import TOP  # noqa: E402

PROGRAM = os.path.abspath(os.environ.get("PROGRAM", f"{TOP}/out/hitchseason"))
from catalog import catalog, owner, read  # noqa: E402
from journal import Refused, book_in, contents, header  # noqa: E402
from mirrors import FLAG, FOLDERS  # noqa: E402
from served import free_ports, is_listened_at  # noqa: E402

COMMANDS = ("init", "run", "audit", "grant")
ASKS = 40
BUDGET = 10**17


class Wrong(Exception):
    pass


def check(holds, what):
    if not holds:
        raise Wrong(what)


class Trial:
    def __init__(self, folder, count, rng, mirrored):
        self.rng, self.came, self.told, self.granted, self.more_words = rng, Counter(), {}, [], [FLAG] if mirrored else []
        os.chdir(folder)
        tables = (("people", "people.csv", (("age", "num"),)),)
        made = catalog(owner(tables=tables, budget=BUDGET, capacity=2 * ASKS * (5 * count + 2) + 9 * count))
        script = b"hello ann\n" + b"ask census 1 size people\n" * ASKS
        for name, data in (("cat.json", made), ("key", rng.randbytes(32)), ("people.csv", b"age\n20\n30\n40\n"), ("script", script)):
            with open(name, "wb") as file:
                file.write(data)
        self.head, self.entry = header(made, 0, contents("key"), contents), read(made)["owners"][0]

    def begin(self, command):
        script = open("script") if command == "run" else subprocess.DEVNULL
        more = ["--port", str(free_ports(1)), "--each", "1"] if command == "serve" else ["census", "1"] if command == "grant" else []
        words = [PROGRAM, command, "cat.json", "key", *more, *self.more_words]
        return subprocess.Popen(words, stdin=script, stdout=subprocess.PIPE, stderr=subprocess.STDOUT, text=True)

    def ended(self, command, process):
        """How a command ended; the answers that it told are kept."""
        said = process.communicate()[0]
        status = process.returncode
        if status == 6:
            check(said == "disk census\n", f"{command} ended with 6 and said {said}")
        elif status == 4:
            exists = command == "init" and said.startswith("journal census exists ")
            check(exists or said == "journal census uninitialised 0\n", f"{command} ended with 4 and said {said}")
        else:
            check(status == 0, f"{command} ended with {status} and said {said[:200]}")
        if command == "run" and status == 0:
            self.keep(said)
        if command == "grant" and status == 0:
            words = said.split()
            check(words[:2] == ["granted", "census"] and len(words) == 4, f"grant said {said[:200]}")
            self.granted.append(int(words[2]))
        return {0: "done", 4: "too early or too late", 6: "refused"}[status]

    def keep(self, said):
        answers = [line.split() for line in said.splitlines() if line.startswith("answer ")]
        check(len(answers) == ASKS, f"{len(answers)} answers were told")
        for _, number, value, taken in answers:
            check(number not in self.told, f"number {number} was told twice")
            self.told[number] = (int(value), int(taken))

    def look(self, killed=False):
        """The journal has what was told, and `audit` counts what is there."""
        book = book_in(".", 0, self.head, self.entry, range(2))
        for number, (value, taken) in self.told.items():
            settled = book.settled.get(int(number))
            check(settled is not None and (settled.outcome, settled.answer) == (1, value), f"number {number} isn't settled with {value}")
            check(book.reserved[int(number)].taken == taken, f"number {number} hasn't taken {taken}")
        check(sorted(self.granted) == list(range(BUDGET + 1, book.budget + 1)), f"the budget is {book.budget}, and {self.granted} were told")
        if not killed:
            check(book.spent == sum(taken for _, taken in self.told.values()), f"{book.spent} is spent, and what was told has taken another sum")
        said = self.begin("audit").communicate()[0]
        check(said == book.counts() + "\n", f"audit said {said}, wanted {book.counts()}")

    def afresh(self):
        for name in FOLDERS:
            shutil.rmtree(name, ignore_errors=True)
        self.told, self.granted = {}, []

    def pair(self, one, other):
        first = self.begin(one)
        time.sleep(self.rng.choice([0, 0, self.rng.uniform(0, 0.02)]))
        second = self.begin(other)
        ends = (self.ended(one, first), self.ended(other, second))
        self.came.update(zip((one, other), ends))
        if "init" not in (one, other):
            check("done" in ends, f"{one} and {other}: neither was done")
        elif "done" not in ends:
            check(os.path.getsize("journals/0.bud") == 0, "neither was done, and there is a journal")
            self.came["a journal that another process had before its maker"] += 1
            check(self.ended("init", self.begin("init")) == "done", "an empty file is no journal")
        self.look()

    def pairs(self, count):
        for one, other in combinations_with_replacement(COMMANDS, 2):
            self.afresh()
            for turn in range(count):
                if "init" in (one, other):
                    self.afresh()
                elif turn == 0:
                    check(self.ended("init", self.begin("init")) == "done", "init wasn't done")
                    modes = [stat.S_IMODE(os.stat(path).st_mode) for path in ("journals", "journals/0.bud")]
                    check(modes == [0o700, 0o600], f"the modes are {[oct(mode) for mode in modes]}")
                self.pair(*self.rng.sample((one, other), 2))

    def beside_a_service(self, count):
        """A service that listens has the journals until its connection has ended, or until it is killed."""
        check(self.ended("init", self.begin("init")) == "done", "init wasn't done")
        for turn in range(count):
            service = self.begin("serve")
            port = int(service.args[service.args.index("--port") + 1])
            while not is_listened_at(port):
                check(service.poll() is None, "a service ended")
                time.sleep(0.005)
            for command in self.rng.sample((*COMMANDS, "serve"), 3):
                end = self.ended(command, self.begin(command))
                check(end == "refused", f"{command} beside a service: {end}")
                self.came[command, "refused beside a service"] += 1
            with socket.create_connection(("127.0.0.1", port), timeout=60) as link:
                link.sendall(b"hello ann\n" + b"ask census 1 size people\n" * ASKS + (b"" if turn % 2 else b"bye\n"))
                told = b""
                while told.count(b"\n") < ASKS + 1 + (turn + 1) % 2:
                    piece = link.recv(65_536)
                    check(piece, f"the connection ended behind {told[-50:]}")
                    told += piece
                self.keep(told.decode())
                if turn % 2:
                    service.kill()
            said = service.communicate(timeout=60)[0]
            check((service.returncode, said) == ((-9, "") if turn % 2 else (0, "")), f"the service ended with {service.returncode} and {said}")
            self.look()

    def hear(self, link, lines, many):
        """So many replies to these lines over a connection."""
        link.sendall(lines)
        told = b""
        while told.count(b"\n") < many:
            piece = link.recv(65_536)
            check(piece, f"the connection ended behind {told[-50:]}")
            told += piece
        return told.decode().splitlines()

    def another_file_in_its_place(self, away):
        """A copy of the journal is moved over it beside a service that holds it, or its folder is moved away."""
        self.afresh()
        check(self.ended("init", self.begin("init")) == "done", "init wasn't done")
        service = self.begin("serve")
        port = int(service.args[service.args.index("--port") + 1])
        while not is_listened_at(port):
            check(service.poll() is None, "a service ended")
            time.sleep(0.005)
        ask = b"ask census 1 size people\n"
        with socket.create_connection(("127.0.0.1", port), timeout=60) as link:
            told = self.hear(link, b"hello ann\n" + ask, 2)
            check(told[1].startswith("answer 0 "), f"a service told {told}")
            if away:
                os.rename("journals", "away")
                held = "away/0.bud"
                check(self.ended("init", self.begin("init")) == "done", "init wasn't done where no folder is")
            else:
                shutil.copyfile("journals/0.bud", "copy")
                held = "held"
                os.link("journals/0.bud", held)
                os.rename("copy", "journals/0.bud")
            before = contents(held)
            run = self.begin("run").communicate()[0].splitlines()
            numbers = [line.split()[1] for line in run if line.startswith("answer ")]
            check(numbers[:1] == ["0" if away else "1"] and len(numbers) == ASKS, f"a run told {run[:3]}")
            told = self.hear(link, ask + ask + b"left census\nbye\n", 4)
            check(told[:2] == ["no 52", "no 42 1"] and told[2].endswith(" 2"), f"a service whose journal was replaced told {told}")
            check(contents(held) == before, "a service wrote to a journal that isn't in its place")
        said = service.communicate(timeout=60)[0]
        check((service.returncode, said) == (0, ""), f"the service ended with {service.returncode} and {said}")
        shutil.rmtree("away", ignore_errors=True)
        if not away:
            os.remove(held)
        self.came["serve", "the folder was moved away" if away else "a copy was moved over the journal"] += 1

    def kills(self, count):
        """A killed process leaves no lock."""
        for _ in range(count):
            process = self.begin("run")
            time.sleep(self.rng.uniform(0, 0.03))
            process.kill()
            process.communicate()
            self.look(killed=True)


def main():
    if "PROGRAM" not in os.environ:
        subprocess.run([f"{TOP}/tools/build"], check=True)
    mirrored = sys.argv[1:2] == ["--mirror"]
    words = sys.argv[1 + mirrored :]
    count = int(words[0]) if words else 20
    seed = int(words[1]) if len(words) > 1 else 1
    os.makedirs(f"{TOP}/out", exist_ok=True)
    with tempfile.TemporaryDirectory(dir=f"{TOP}/out") as folder:
        trial = Trial(folder, count, random.Random(seed), mirrored)
        try:
            trial.pairs(count)
            trial.kills(count)
            trial.afresh()
            trial.beside_a_service(count)
            for _ in range(0 if mirrored else count):
                trial.another_file_in_its_place(False)
                trial.another_file_in_its_place(True)
        except (Wrong, Refused) as fault:
            sys.exit(f"seed {seed}: {fault}")
        finally:
            os.chdir(TOP)
    for what, times in sorted(trial.came.items(), key=str):
        print(f"  {what if isinstance(what, str) else ' '.join(what)}: {times}")
    if not any(end == "refused" for _, end in (what for what in trial.came if not isinstance(what, str))):
        sys.exit("no process was refused")
    print(f"{count} times each pair, {count} kills, and {count} services, seed {seed}: no difference")


main()
