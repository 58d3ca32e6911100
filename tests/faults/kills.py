#!/usr/bin/env python3
"""Kills runs of the program at random moments, and reads what is left in the journal.

usage: tests/faults/kills.py [--mirror] [COUNT [SEED [FOLDER]]]     (PROGRAM=FILE tries another build than tools/build's); 1,000 kills, and a folder on
the disk of this repository, unless said. With --mirror the journal stands on two disks, and behind every third kill the file of one of them, chosen at
random, is lost: the other one opens alone, and tools/mirror makes another.
Runs of 40 asks, of the whole and of parts of two partitions, continue one journal, and each is ended by SIGKILL at a random moment between its start and a little after its usual
end. After each one, by a second reader (tools/journal.py) that shares nothing with the program but the rules:

- the journal's bytes are a journal: its records are legal, and cost at most the budget;
- all records that were there before are there, with the very same bytes;
- `audit` counts what is there, in the very words;
- each answer that was printed is settled with its value, and by no other number;
- the next run's first number is new, and it tells of the last reservation what became of it.

A kill leaves what the system has taken in; it is no loss of power. It ends with status 1 at the first difference, and where some
kind of moment was never met.
"""
import os
import random
import subprocess
import sys
import tempfile
import time
from collections import Counter

sys.path.insert(0, f"{os.path.dirname(os.path.abspath(__file__))}/../lib")
from places import TOP  # noqa: E402

PROGRAM = os.path.abspath(os.environ.get("PROGRAM", f"{TOP}/out/hitchseason"))
from catalog import catalog, owner, read  # noqa: E402
from journal import Refused, begun, book_of, changes_since, contents, header, live_area, slots  # noqa: E402
from mirrors import FLAG, FOLDERS, side  # noqa: E402

ASKS = 40
PARTITIONS = (("area", "people", "town", ("A", "B")), ("age", "people", "town", ("A",)))
BUDGET = 10**18


class Wrong(Exception):
    pass


class Trial:
    def __init__(self, folder, runs, rng, mirrored):
        self.folder, self.rng, self.came, self.length, self.more_words = folder, rng, Counter(), 0.0, [FLAG] if mirrored else []
        os.chdir(folder)
        tables = (("people", "people.csv", (("town", "text"), ("age", "num"))),)
        made = catalog(owner(tables=tables, budget=BUDGET, capacity=2 * ASKS * (runs + 2 + runs // 100), partitions=PARTITIONS))
        for name, data in (("cat.json", made), ("key", rng.randbytes(32)), ("people.csv", b"town,age\nA,20\nB,30\nA,40\n")):
            with open(name, "wb") as file:
                file.write(data)
        self.head, self.entry = header(made, 0, contents("key"), contents), read(made)["owners"][0]
        said = self.ended("init")
        if said != f"owner census budget {BUDGET} capacity {self.entry['capacity']}\n":
            raise Wrong(f"init wrote {said}")
        self.kept, self.book = contents("journals/0.bud"), None
        self.look()

    def ended(self, command, script=b""):
        ran = subprocess.run([PROGRAM, command, "cat.json", "key", *self.more_words], input=script, capture_output=True)
        if ran.returncode != 0:
            raise Wrong(f"{command} ended with {ran.returncode} and {ran.stdout[:200]}")
        return ran.stdout.decode()

    def look(self):
        """Reads the journal, compares it with what was there before and with `audit`, and keeps it."""
        now, lost = self.left() if self.more_words else (contents("journals/0.bud"), None)
        if self.book is None:
            self.book = book_of(now, self.head, self.entry, range(2))
        before = len(self.book.records)
        if changes_since(self.kept, now, self.entry["capacity"]) != []:
            raise Wrong("an earlier record isn't what it was")
        book = self.book
        for record in slots(now, self.entry["capacity"], before):
            if not book.add(record):
                raise Wrong(f"record {len(book.records)} may not follow those before it")
        said = self.ended("audit")
        if said != book.counts() + "\n":
            raise Wrong(f"audit said {said}, wanted {book.counts()}")
        self.kept = now
        if self.more_words:
            self.is_on_both(lost)
        return len(book.records) - before

    def left(self):
        """The journal as the disks have it, of which one is lost now and then, and the lost file."""
        lost = self.rng.choice([*FOLDERS, None, None, None, None]) if self.book else None
        if lost:
            os.remove(f"{lost}/0.bud")
            self.came[f"{lost} is lost"] += 1
        there = [data for data in (side(f"{name}/0.bud") for name in FOLDERS) if data]
        first, second = (len(begun(data, self.entry["capacity"])) for data in (there[0], there[-1]))
        self.came["a side that lags"] += first != second
        return there[-1] if second > first else there[0], lost

    def is_on_both(self, lost):
        """Behind an audit both disks have all records; of a lost one tools/mirror makes another."""
        if lost:
            subprocess.run([f"{TOP}/tools/mirror"], capture_output=True, check=True)
        for name in FOLDERS:
            data = contents(f"{name}/0.bud")
            if slots(data, self.entry["capacity"]) and [one.encoded() for one in slots(data, self.entry["capacity"])] != [one.encoded() for one in self.book.records]:
                raise Wrong(f"{name} lacks a record behind an audit")

    def script(self):
        """What is asked, and what the first lines must be told."""
        last = len(self.book.reserved) - 1
        lines, due = ["hello ann", "left census"], ["hello ann", f"left {self.book.spent} {BUDGET} {len(self.book.records)}"]
        if last >= 0:
            settled = self.book.settled.get(last)
            lines.append(f"recall census {last}")
            due.append(f"recall {last} {settled.standing() if settled else 'lost'} {len(self.book.records)}")
        epsilon = lambda: f"{self.rng.randint(0, 9)}.{self.rng.randint(1, 999_999):06}"
        asked = lambda: self.rng.choice(["ask census", "askpart census area A", "askpart census area B", "askpart census age A"])
        lines += [f"{asked()} {epsilon()} size people" for _ in range(ASKS)]
        return lines, due

    def killed(self, lines):
        """What was printed until the kill, and whether the run had ended."""
        with open("script", "w") as file:
            file.write("".join(f"{line}\n" for line in lines))
        with open("script") as script, tempfile.TemporaryFile() as out:
            run = subprocess.Popen([PROGRAM, "run", "cat.json", "key", *self.more_words], stdin=script, stdout=out)
            time.sleep(self.rng.uniform(0, 1.15 * self.length))
            run.kill()
            status = run.wait()
            out.seek(0)
            return out.read().decode(), status

    def measure(self):
        """How long a run takes that nobody ends."""
        lines, _ = self.script()
        began = time.monotonic()
        said = self.ended("run", "".join(f"{line}\n" for line in lines).encode())
        self.length = time.monotonic() - began
        self.look()
        self.settled(said)

    def settled(self, said):
        """Each answer that was printed, whole or as the beginning of one, stands settled."""
        for line in said.splitlines(keepends=True):
            words = line.split()
            if not line.startswith("answer ") or not line.endswith("\n"):
                continue
            number, value, taken = map(int, words[1:])
            settled = self.book.settled.get(number)
            if settled is None or (settled.outcome, settled.answer) != (1, value) or self.book.reserved[number].taken != taken:
                raise Wrong(f"{line.strip()} isn't settled so")

    def turn(self):
        first = len(self.book.reserved)
        lines, due = self.script()
        said, status = self.killed(lines)
        grown = self.look()
        self.settled(said)
        told = said.splitlines()[: len(due)]
        if told != due[: len(told)] and said.endswith("\n"):
            raise Wrong(f"told {told}, wanted {due}")
        numbers = [int(line.split()[1]) for line in said.splitlines() if line.startswith("answer ")]
        if numbers and numbers[0] != first:
            raise Wrong(f"the first number is {numbers[0]} and not {first}")
        self.came["printed"] += len(numbers)
        self.count(status, grown, said)

    def count(self, status, grown, said):
        slot = live_area(self.kept, self.entry["capacity"]).slot(self.kept, len(self.book.records))
        if status == 0:
            moment = "had ended"
        elif said:
            moment = "replies, or a part of them, were written"
        elif grown == 0 and not any(slot):
            moment = "before the first record"
        elif any(slot):
            moment = "a record without its gate"
        elif grown % 2:
            moment = "a reservation alone"
        else:
            moment = "between two asks, or behind them"
        self.came[moment] += 1
        self.came["records"] += grown


MIRRORED = ["journals is lost", "mirrors is lost", "a side that lags"]
MOMENTS = ["had ended", "before the first record", "a record without its gate", "a reservation alone", "between two asks, or behind them"]


def main():
    if "PROGRAM" not in os.environ:
        subprocess.run([f"{TOP}/tools/build"], check=True)
    mirrored = sys.argv[1:2] == ["--mirror"]
    words = sys.argv[1 + mirrored :]
    count = int(words[0]) if words else 1000
    seed = int(words[1]) if len(words) > 1 else 1
    rng = random.Random(seed)
    os.makedirs(f"{TOP}/out", exist_ok=True)
    with tempfile.TemporaryDirectory(dir=words[2] if len(words) > 2 else f"{TOP}/out") as folder:
        trial = Trial(folder, count, rng, mirrored)
        trial.measure()
        for turn in range(count):
            if turn % 100 == 50:
                trial.measure()
            try:
                trial.turn()
            except (Wrong, Refused) as fault:
                print(f"kill {turn + 1} of seed {seed}: {fault}")
                sys.exit(1)
        kind = subprocess.run(["stat", "-f", "-c", "%T", folder], capture_output=True, text=True).stdout.strip()
        print(f"{count} kills on {kind}, seed {seed}: no difference. {trial.book.counts()}")
        print(f"{len(trial.book.records)} records, {trial.came.pop('records')} of runs that were to be killed; {trial.came.pop('printed')} answers were printed")
        print("moments: " + ", ".join(f"{moment} {trial.came[moment]}" for moment in sorted(trial.came)))
        os.chdir(TOP)
    lacking = [moment for moment in (*MOMENTS, *(MIRRORED if mirrored else ())) if not trial.came[moment]]
    if lacking and count >= 1000:
        print("never met: " + ", ".join(lacking))
        sys.exit(1)


main()
