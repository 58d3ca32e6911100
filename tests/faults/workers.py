#!/usr/bin/env python3
"""Sixteen workers on one owner, and on four: the budget, kills at random moments, and a disk that fails.

usage: tests/faults/workers.py [--runs N] [--kills N] [--faults N] [--seed S] [--plant]     (PROGRAM=FILE tries another build than tools/build's)
100 runs on one owner and 100 on four, 1,000 kills and 400 faults, unless said; half of the runs lie on the disk of this repository and half in
memory, where there is such a place. Needs cc. Judged by a second reader (tools/journal.py), the second server (tools/reference.py), and by
what is looked at here line by line:

- More asks than the budget allows. What is spent is the sum of what the answers say that they took, to the millionth, by the journal and by
  `audit`. No number comes twice, and every one from 0 on is told. A refused ask says `no 40` with the numbers that hold behind its SEEN first
  records. A later run by the same analysts recalls each answer with its value.
- Kills. Runs go on behind one another, and each is ended by SIGKILL at a random moment. Each owner's journal is one, within the budget; its
  earlier records are there with the very bytes; each new one is a line's, each line's once, with the value and noise that are due; `audit` counts
  what is there; each answer that was printed is settled so; and a run that ended was answered in some order behind what was found.
- The disk of one of four owners fails at a random call, alone or for good. It isn't opened, and all files are as they were; or one line
  is told 52, every later ask of that owner by the same worker 42, and the other owners' asks are all answered. Whatever was left is
  opened again, with at most one record more than was acknowledged, and each answer that was printed is recalled with its value.

What was told must also be what the second server gives in some order of the lines (tests/lib/orders.py). With --plant wrong replies and records are
planted in copies of what each run told and left, and each must be found wrong.
It ends with status 1 at the first difference, and where one of the ends was never met.
"""
import argparse
import hashlib
import os
import random
import shutil
import subprocess
import sys
import tempfile
import time
from collections import Counter
from copy import copy, deepcopy
from fractions import Fraction

sys.path.insert(0, f"{os.path.dirname(os.path.abspath(__file__))}/../lib")
from places import TOP  # noqa: E402

PROGRAM = os.path.abspath(os.environ.get("PROGRAM", f"{TOP}/out/hitchseason"))
from catalog import catalog, owner  # noqa: E402
from journal import SLOT, WHOLE, Refused, Reservation, Settlement, begun, book_of, capacity_in, changes_since, contents, header, live_area, slots  # noqa: E402
from orders import Wrong, blocks_of, judged  # noqa: E402
from reference import Exhausted, house_of, key_draws, key_words, noise  # noqa: E402
from runs import asked, value  # noqa: E402

WORKERS = 16
ANALYSTS = (b"ann", b"bob", b"eve")
NAMES = ("census", "labour", "health", "schools")
PEOPLE = b"town,age\nA,20\nB,30\nA,40\nC,5\n"
PARTS = (("area", "people", "town", ("A", "B")), ("age", "people", "town", ("A",)))
PROGRAMS = (b"size people", b"2 * size people", b"let !x = ![1/3] (size people) in x", b"size people + 7", b"size (union people (union people people))")
AMPLE = 10**15


class Ask:
    """An ask of an owner, by its number, of the whole or a part. No two of a script have one epsilon: so its record tells which one it is."""

    def __init__(self, room, rng, analyst, e):
        self.order, self.analyst, self.e = rng.randrange(len(room.names)), analyst, e
        self.program = rng.choice(PROGRAMS)
        self.name = room.names[self.order].encode()
        self.view = rng.choice([None, None, None, (0, 0), (0, 1), (1, 0)])
        self.sensitivity, self.exact = room.known(self.view, self.program)

    def line(self):
        epsilon = b"%d.%06d" % divmod(self.e, 10**6)
        if self.view is None:
            return b"ask %s %s %s" % (self.name, epsilon, self.program)
        partition, keys = PARTS[self.view[0]][0], PARTS[self.view[0]][3]
        return b"askpart %s %s %s %s %s" % (self.name, partition.encode(), keys[self.view[1]].encode(), epsilon, self.program)

    def reservation(self, number, taken):
        r = self.sensitivity
        digest = hashlib.sha256(self.program).digest()
        return Reservation(number, self.view or WHOLE, self.e, r.numerator, r.denominator, taken, ANALYSTS.index(self.analyst), digest)

    def settlement(self, key, number, returned):
        """What an exhausted number gives back hangs on the records before its settlement, and journal.py holds it."""
        try:
            return Settlement(number, 1, self.exact + noise(self.e, key_draws(key, self.order, number)))
        except Exhausted:
            return Settlement(number, 2, 0, returned)

    def charge(self):
        return -(-self.sensitivity.numerator * self.e // self.sensitivity.denominator)


class Script:
    """So many blocks of so many asks, with balances and recalls between them. `asks` has them by their line."""

    def __init__(self, room, rng, blocks, many, most, books=None):
        self.lines, self.asks = [], {}
        epsilons = iter(rng.sample(range(1, most), blocks * many))
        found = [len(book.reserved) for book in books or room.books()]
        for _ in range(blocks):
            analyst = rng.choice(ANALYSTS)
            self.lines.append(b"hello " + analyst)
            # The first block recalls the last reservations of earlier runs.
            if not self.asks:
                self.lines += [b"recall %s %d" % (name.encode(), number - 1) for name, number in zip(room.names, found) if number]
            for _ in range(many):
                ask = Ask(room, rng, analyst, next(epsilons))
                self.asks[len(self.lines)] = ask
                self.lines.append(ask.line())
                if rng.random() < 0.2:
                    self.lines.append(b"left " + ask.name)
                if rng.random() < 0.3:
                    self.lines.append(b"recall %s %d" % (ask.name, found[ask.order] + rng.randint(-1 if found[ask.order] else 0, 5)))
            self.lines.append(b"bye")
        self.bytes = b"".join(line + b"\n" for line in self.lines)


class Room:
    """A folder with a house and its journals."""

    def __init__(self, rng, names, budget, capacity):
        self.names, self.rng, self.key = names, rng, rng.randbytes(32)
        self.rename(budget, capacity)

    def rename(self, budget, capacity):
        """The house with this budget and room; its journals are made anew."""
        tables = (("people", "people.csv", (("town", "text"), ("age", "num"))),)
        made = catalog(*[owner(name, tables, budget, capacity, PARTS) for name in self.names], analysts=[name.decode() for name in ANALYSTS])
        for name, data in (("cat.json", made), ("key", self.key), ("people.csv", PEOPLE)):
            with open(name, "wb") as file:
                file.write(data)
        self.house = house_of(made, contents)
        self.entries = self.house.catalog["owners"]
        self.heads = [header(made, order, self.key, contents) for order in range(len(self.names))]
        self.values = {}
        shutil.rmtree("journals", ignore_errors=True)
        ended(self.ran("init"), 0)

    def known(self, view, program):
        """A program's sensitivity and its value on a view's rows."""
        if (view, program) not in self.values:
            tables, rows = self.house.owners()[self.names[0].encode()].shown(view)
            term, sensitivity = asked(program, tables)
            self.values[view, program] = Fraction(sensitivity), value(term, dict(rows))
        return self.values[view, program]

    def ran(self, command, script=b"", workers=None, **faults):
        words = ["--workers", str(workers)] if workers else []
        given = {**os.environ, **faults}
        return subprocess.run([PROGRAM, command, "cat.json", "key", *words], input=script, capture_output=True, env=given)

    def journals(self):
        return [contents(f"journals/{order}.bud") for order in range(len(self.names))]

    def books(self, journals=None):
        journals = journals or self.journals()
        return [book_of(data, head, entry, ANALYSTS) for data, head, entry in zip(journals, self.heads, self.entries)]

    def audited(self, books):
        said = "".join(f"{book.counts()}\n" for book in books)
        ran = self.ran("audit")
        if (ran.returncode, ran.stdout) != (0, said.encode()):
            raise Wrong(f"audit: {ran.returncode} {ran.stdout}, wanted {said}")

    def in_order(self, found, after, script, said, shut=()):
        return judged(self.house, key_words(self.key), found, after, script.bytes, said, WORKERS, shut=shut)


def ended(ran, status):
    if ran.returncode != status:
        raise Wrong(f"status {ran.returncode} and {ran.stdout[:200]!r}")
    return ran.stdout


def answers(script, replies, order):
    """Number, value and charge of each answer of an owner, with its ask."""
    for at, ask in script.asks.items():
        if ask.order == order and at < len(replies) and replies[at].startswith("answer "):
            number, told, taken = map(int, replies[at].split()[1:])
            yield number, told, taken, ask


def settled_so(room, script, replies, books):
    """Each answer that was printed is settled with its value, and is its ask's."""
    strangers = [at for at, reply in enumerate(replies) if reply.startswith("answer ") and at not in script.asks]
    if strangers:
        raise Wrong(f"{script.lines[strangers[0]]} was told {replies[strangers[0]]}")
    for order, book in enumerate(books):
        for number, told, taken, ask in answers(script, replies, order):
            if number not in book.settled or book.reserved[number].encoded() != ask.reservation(number, taken).encoded():
                raise Wrong(f"reservation {number} of {ask.name} isn't that of {ask.line()}")
            if (book.settled[number].outcome, book.settled[number].answer) != (1, told):
                raise Wrong(f"answer {number} {told} of {ask.name} isn't settled so")


def recalled(room, script, replies, workers):
    """A later run, by the same analysts, tells each answer again."""
    lines, due = [], []
    for order, book in enumerate(room.books()):
        for number, told, _, ask in answers(script, replies, order):
            lines += [b"hello " + ask.analyst, b"recall %s %d" % (ask.name, number), b"bye"]
            due += [f"hello {ask.analyst.decode()}", f"recall {number} answer {told} {len(book.records)}", "bye"]
    said = ended(room.ran("run", b"".join(line + b"\n" for line in lines), workers), 0)
    if said.decode().splitlines() != due:
        raise Wrong(f"recalled {said.decode().splitlines()}, wanted {due}")
    return len(due) // 3


# The budget.


def spent_exactly(room, script, said, journals):
    replies, books = said.decode().splitlines(), room.books(journals)
    if len(replies) != len(script.lines):
        raise Wrong(f"{len(replies)} replies to {len(script.lines)} lines")
    settled_so(room, script, replies, books)
    for order, book in enumerate(books):
        told = list(answers(script, replies, order))
        if sorted(number for number, _, _, _ in told) != list(range(len(book.reserved))):
            raise Wrong(f"of {len(book.reserved)} numbers were told {sorted(number for number, _, _, _ in told)}")
        if sum(taken for _, _, taken, _ in told) != book.spent or book.spent > book.entry["budget"]:
            raise Wrong(f"answers took {sum(taken for _, _, taken, _ in told)}, and {book.spent} are spent of {book.entry['budget']}")
        refused = [at for at, ask in script.asks.items() if ask.order == order and not replies[at].startswith("answer ")]
        refused_rightly(room, script, replies, order, book, refused)
    return books


def refused_rightly(room, script, replies, order, book, refused):
    """Each refusal holds behind as many records as it says, and the budget allows its ask no more in the end."""
    shown = {}
    for at in refused:
        words = replies[at].split()
        if words[:2] != ["no", "40"]:
            raise Wrong(f"{script.lines[at]} was told {replies[at]}")
        shown.setdefault(int(words[5]), []).append((at, tuple(map(int, words[2:5]))))
    behind = book_of(room.heads[order] + bytes(SLOT * book.entry["capacity"]), room.heads[order], book.entry, ANALYSTS)
    for length in range(len(book.records) + 1):
        for at, told in shown.pop(length, []):
            due = behind.spent, behind.spent_with(script.asks[at].reservation(0, 0)), book.entry["budget"]
            if told != due or due[1] <= due[2]:
                raise Wrong(f"{script.lines[at]} was told {replies[at]}, and {due} hold there")
            if book.spent_with(script.asks[at].reservation(0, 0)) <= book.entry["budget"]:
                raise Wrong(f"{script.lines[at]} would have been granted")
        if length < len(book.records):
            behind.keep(book.records[length])
    if shown:
        raise Wrong(f"refusals show {sorted(shown)} records, and there are {len(book.records)}")


def budgets(rng, names, plants, came):
    """One run, and what a later one recalls."""
    room = Room(rng, names, 1, 2)
    script = Script(room, rng, rng.randint(16, 24), 5, 10**6)
    asked_for = [sum(ask.charge() for ask in script.asks.values() if ask.order == order) for order in range(len(names))]
    room.rename(max(1, int(min(asked_for) * rng.uniform(0.2, 0.6))), 2 * len(script.asks))
    found = room.books()
    said = ended(room.ran("run", script.bytes, WORKERS), 0)
    journals = room.journals()
    books = spent_exactly(room, script, said, journals)
    room.audited(books)
    came.update(room.in_order(found, books, script, said))
    came["answers recalled"] += recalled(room, script, said.decode().splitlines(), rng.choice([None, WORKERS]))
    came["refused by the budget"] += sum(reply.startswith("no 40") for reply in said.decode().splitlines())
    if plants:
        judge = lambda said, journals: (spent_exactly(room, script, said, journals), room.in_order(found, room.books(journals), script, said))
        plant_replies(rng, script, said, journals, judge, came)
        only = lambda said, journals: spent_exactly(room, script, said, journals)
        plant_replies(rng, script, said, journals, only, came, exchanges=False)


# Kills.


def of_lines(room, script, order, book, first):
    """Each new record is a line's, each line's once, settled with the value and noise that are due."""
    unasked = {ask.e: ask for ask in script.asks.values() if ask.order == order}
    reserved = {}
    for record in book.records[first:]:
        if isinstance(record, Reservation):
            ask = reserved[record.number] = unasked.pop(record.e, None)
            due = ask and ask.reservation(record.number, record.taken)
        else:
            due = record.number in reserved and reserved[record.number].settlement(room.key, record.number, record.returned)
        if not due or record.encoded() != due.encoded():
            raise Wrong(f"of {room.names[order]} no line's is the record {record.said(book.entry, ANALYSTS)}")


class Kills:
    def __init__(self, room, rng, came):
        self.room, self.rng, self.came, self.length = room, rng, came, 0.0
        self.kept, self.found = room.journals(), room.books()

    def ran(self, script, until):
        """What was written until the kill, if one is to come, and the status."""
        with open("script", "wb") as file:
            file.write(script.bytes)
        with open("script") as given, tempfile.TemporaryFile() as out:
            run = subprocess.Popen([PROGRAM, "run", "cat.json", "key", "--workers", str(WORKERS)], stdin=given, stdout=out)
            if until is not None:
                time.sleep(until)
                run.kill()
            status = run.wait()
            out.seek(0)
            return out.read(), status

    def turn(self, measured=False):
        script = Script(self.room, self.rng, WORKERS, 3, 10**6, self.found)
        began = time.monotonic()
        said, status = self.ran(script, None if measured else self.rng.uniform(0, 1.15 * self.length))
        if measured:
            self.length = time.monotonic() - began
        journals = self.room.journals()
        books = self.judge(script, said, status, journals)
        self.room.audited(books)
        self.moment(said, status, journals, books, measured)
        self.kept, self.found = journals, books

    def grown(self, journals):
        """The books of these journals, which go on from those found: every earlier byte is there."""
        books = []
        for kept, now, found in zip(self.kept, journals, self.found):
            book = copy_of(found)
            if changes_since(kept, now, book.entry["capacity"]) != [] or len(now) < len(kept):
                raise Wrong(f"an earlier record of {found.entry['name']} isn't what it was")
            for record in slots(now, book.entry["capacity"], len(found.records)):
                if not book.add(record):
                    raise Wrong(f"of {found.entry['name']} record {len(book.records)} may not follow: {book.why_not(record)}")
            books.append(book)
        return books

    def judge(self, script, said, status, journals):
        books = self.grown(journals)
        for order, book in enumerate(books):
            of_lines(self.room, script, order, book, len(self.found[order].records))
        # The last line that was written may be the beginning of one.
        settled_so(self.room, script, said[: said.rfind(b"\n") + 1].decode().splitlines(), books)
        if status == 0:
            self.room.in_order(self.found, books, script, said)
        elif status != -9:
            raise Wrong(f"status {status}")
        return books

    def moment(self, said, status, journals, books, measured):
        grown = [len(book.records) - len(found.records) for book, found in zip(books, self.found)]
        torn = [any(live_area(data, book.entry["capacity"]).slot(data, len(book.records))) for data, book in zip(journals, books)]
        waiting = sum(len(book.reserved) - len(book.settled) - len(found.reserved) + len(found.settled) for book, found in zip(books, self.found))
        self.came["records"] += sum(grown)
        if measured:
            return
        if status == 0:
            self.came["had ended"] += 1
        elif said:
            self.came["replies, or a part of them, were written"] += 1
        else:
            self.came["before the first record"] += not any(grown) and not any(torn)
            self.came["a record without its gate"] += any(torn)
            self.came["records of several owners without their gate"] += sum(torn) > 1
            self.came["reservations alone"] += waiting > 0
            self.came["several reservations alone"] += waiting > 1
        self.came["answers printed"] += said.count(b"\nanswer ")


def copy_of(book):
    made = copy(book)
    made.records, made.reserved, made.settled = list(book.records), list(book.reserved), dict(book.settled)
    made.costs, made.own = deepcopy((book.costs, book.own))
    return made


MOMENTS = ["had ended", "before the first record", "a record without its gate", "records of several owners without their gate", "several reservations alone"]


def kills(rng, count, plants, came):
    room = Room(rng, NAMES, AMPLE, 2 * 20 * (count + count // 100 + 4))
    trial = Kills(room, rng, came)
    trial.turn(measured=True)
    for number in range(count):
        if number % 100 == 50:
            trial.turn(measured=True)
        try:
            before = trial.kept, trial.found
            trial.turn()
        except (Wrong, Refused) as fault:
            raise Wrong(f"kill {number + 1}: {fault}") from None
        if plants:
            plant_kills(rng, trial, *before)
    print(f"{count} kills on {place_of('.')}: no difference. {'; '.join(book.counts() for book in trial.found)}")


# A disk that fails.


class Faults:
    def __init__(self, room, rng, came, library):
        self.room, self.rng, self.came, self.library = room, rng, came, f"{library}/fail.so"
        subprocess.run(["cc", "-O1", "-shared", "-fPIC", "-o", self.library, f"{TOP}/tests/faults/fail_disk.c", "-ldl"], check=True)
        first = Script(room, rng, 4, 3, 10**6)
        ended(room.ran("run", first.bytes), 0)
        shutil.copytree("journals", "before")
        self.kept, self.found = room.journals(), room.books()
        calls = lambda order: int(room.ran("audit", LD_PRELOAD=self.library, ONLY=f"/{order}.bud", TELL="1").stderr)
        self.opening = [calls(order) for order in range(len(room.names))]

    def ran(self, script, order, **faults):
        shutil.rmtree("journals")
        shutil.copytree("before", "journals")
        return self.room.ran("run", script.bytes, WORKERS, LD_PRELOAD=self.library, ONLY=f"/{order}.bud", **faults)

    def turn(self, plants):
        room, rng = self.room, self.rng
        script, order = Script(room, rng, WORKERS, 4, 10**6), rng.randrange(len(room.names))
        calls = int(self.ran(script, order, TELL="1").stderr)
        # The first calls are those of the opening.
        call = rng.randint(1, self.opening[order]) if rng.random() < 0.1 else rng.randint(self.opening[order] + 1, calls)
        faults = {"FAIL": str(call), **({"FAIL_ALL": "1"} if rng.random() < 0.5 else {})}
        ran = self.ran(script, order, **faults)
        journals = room.journals()
        if ran.returncode == 6:
            if ran.stdout != f"disk {room.names[order]}\n".encode() or journals != self.kept:
                raise Wrong(f"{ran.stdout}, or files that aren't as they were")
            self.came["not opened"] += 1
            return
        said = ended(ran, 0)
        self.came.update(self.judge(script, order, said, journals))
        books = room.books(journals)
        room.audited(books)
        self.came["answers recalled"] += recalled(room, script, said.decode().splitlines(), WORKERS)
        self.goes_on(books)
        if plants:
            plant_faults(rng, self, script, order, said, journals)

    def judge(self, script, order, said, journals):
        room, replies, books, came = self.room, said.decode().splitlines(), self.room.books(journals), Counter()
        settled_so(room, script, replies, books)
        told = {place: [replies[at].split(" ")[:2] for at, ask in script.asks.items() if ask.order == place] for place in range(len(books))}
        for place, starts in told.items():
            if place != order and any(words[0] != "answer" for words in starts):
                raise Wrong(f"{room.names[place]}'s disk didn't fail, and {starts} were told")
        refused = [words for words in told[order] if words[0] != "answer"]
        if refused and (refused.count(["no", "52"]) != 1 or refused.count(["no", "42"]) != len(refused) - 1):
            raise Wrong(f"{room.names[order]}'s disk failed, and {refused} were told")
        self.found_again(script, order, replies, books[order], came)
        came += room.in_order(self.found, books, script, said, shut={room.names[order].encode()})
        came["a fault that no call met"] += not refused
        return came

    def found_again(self, script, order, replies, book, came):
        """What lines left that were told 42 or 52. It is one record more at most than was acknowledged, and the last one."""
        told = {ask.e: replies[at] for at, ask in script.asks.items() if ask.order == order}
        new = book.records[len(self.found[order].records) :]
        for place, record in enumerate(new):
            reply = told.get(book.reserved[record.number].e, "nothing")
            if isinstance(record, Settlement) and not reply.startswith("answer "):
                if reply != "no 52" or place != len(new) - 1:
                    raise Wrong(f"settlement {record.number} was told {reply}")
                came["a settlement more"] += 1
            if isinstance(record, Reservation) and record.number not in book.settled:
                if reply not in ("no 52", "no 42 1"):
                    raise Wrong(f"reservation {record.number} alone was told {reply}")
                came[f"a reservation alone, told {reply[:5]}"] += 1

    def goes_on(self, books):
        """The next run's first number of each owner is new."""
        for order, book in enumerate(books):
            ask = b"hello ann\nask %s 1 size people\n" % self.room.names[order].encode()
            said = ended(self.room.ran("run", ask), 0).decode().splitlines()[-1]
            if said.split()[:2] != ["answer", str(len(book.reserved))]:
                raise Wrong(f"the next run said {said}, and {len(book.reserved)} is the next number")


ENDS = ["not opened", "no 52", "no 42", "a settlement more", "a reservation alone, told no 42", "a reservation alone, told no 52"]


def faults(rng, count, plants, came):
    # No library is loaded from memory in some places.
    with tempfile.TemporaryDirectory() as library:
        trial = Faults(Room(rng, NAMES, AMPLE, 200), rng, came, library)
        for number in range(count):
            try:
                trial.turn(plants)
            except (Wrong, Refused) as fault:
                raise Wrong(f"fault {number + 1}: {fault}") from None


# Plants.


def must_be_wrong(name, judge, came, *planted):
    try:
        judge(*planted)
    except (Wrong, Refused):
        came[f"planted {name}"] += 1
        return
    raise Wrong(f"planted, and not noticed: {name}")


def with_reply(said, at, reply):
    lines = said.decode().splitlines()
    return "".join(line + "\n" for line in [*lines[:at], reply, *lines[at + 1 :]]).encode()


def with_byte(journals, order, at):
    data = bytearray(journals[order])
    data[at] ^= 1
    return [*journals[:order], bytes(data), *journals[order + 1 :]]


def plant_replies(rng, script, said, journals, judge, came, exchanges=True):
    replies = said.decode().splitlines()
    told = [at for at in script.asks if replies[at].startswith("answer ")]
    refused = [at for at in script.asks if replies[at].startswith("no 40 ")]
    plant = lambda name, *planted: must_be_wrong(name, judge, came, *planted)
    at = rng.choice(told)
    other = rng.choice([one for one in told if one != at and script.asks[one].order == script.asks[at].order])
    words = replies[at].split()
    plant("a value off by 1", with_reply(said, at, f"answer {words[1]} {int(words[2]) + 1} {words[3]}"), journals)
    plant("a charge off by 1", with_reply(said, at, f"answer {words[1]} {words[2]} {int(words[3]) + 1}"), journals)
    plant("a number twice", with_reply(said, at, f"answer {replies[other].split()[1]} {words[2]} {words[3]}"), journals)
    plant("an answer twice", with_reply(said, at, replies[other]), journals)
    no = replies[rng.choice(refused)] if refused else None
    if no:
        plant("an answer told as a refusal", with_reply(said, at, no), journals)
        at = rng.choice(refused)
        plant("a refusal told as an answer", with_reply(said, at, replies[other]), journals)
        spent, after, budget, seen = map(int, replies[at].split()[2:])
        plant("a refused ask that the budget allows", with_reply(said, at, f"no 40 {spent} {budget} {budget} {seen}"), journals)
        plant("a refusal that is off by 1", with_reply(said, at, f"no 40 {spent + 1} {after + 1} {budget} {seen}"), journals)
        plant("a refusal behind too many records", with_reply(said, at, f"no 40 {spent} {after} {budget} {seen + 10**6}"), journals)
    order = script.asks[told[0]].order
    capacity = capacity_in(journals[order])
    area = live_area(journals[order], capacity)
    plant("a settlement off by 1", said, with_byte(journals, order, area.place(1) + 15))
    plant("a record's program", said, with_byte(journals, order, area.place(0) + 40))
    plant("a record's analyst", said, with_byte(journals, order, area.place(0) + 29))
    last = len(begun(journals[order], capacity)) - 1
    plant("the last record's gate", said, with_byte(journals, order, area.place(last)))
    if exchanges:
        plant("two blocks exchanged", exchanged(rng, script, replies), journals)


def exchanged(rng, script, replies):
    """The replies to two blocks that differ, each reply to a line of the other one."""
    blocks = blocks_of(script.lines)
    one = rng.choice([block for block in blocks if any(replies[at].startswith("answer ") for at in block)])
    other = rng.choice([block for block in blocks if block != one])
    one, other = sorted([one, other], key=lambda two: two.start)
    planted = replies[: one.start] + replies[other.start : other.stop] + replies[one.stop : other.start] + replies[one.start : one.stop] + replies[other.stop :]
    return "".join(reply + "\n" for reply in planted).encode()


def plant_kills(rng, trial, kept, found):
    """Of a run that was killed: an earlier record, and an answer that isn't there."""
    came, room, now, books = trial.came, trial.room, trial.kept, trial.found
    trial.kept, trial.found = kept, found
    script = Script(room, random.Random(0), 2, 2, 10**6)
    judge = lambda said, journals: trial.judge(script, said, -9, journals)
    order = rng.randrange(len(kept))
    if found[order].records:
        place = live_area(kept[order], found[order].entry["capacity"]).place(rng.randrange(len(found[order].records)))
        must_be_wrong("an earlier record", judge, came, b"", with_byte(kept, order, place + rng.randrange(SLOT)))
    at, ask = next(iter(script.asks.items()))
    number = len(found[ask.order].reserved)
    must_be_wrong("an answer that isn't there", judge, came, b"bye\n" * at + b"answer %d 3 5\n" % number, kept)
    if any(len(book.records) != len(before.records) for book, before in zip(books, found)):
        must_be_wrong("records of another script", judge, came, b"", now)
    trial.kept, trial.found = now, books


def plant_faults(rng, trial, script, order, said, journals):
    replies, came = said.decode().splitlines(), trial.came
    judge = lambda said, journals: trial.judge(script, order, said, journals)
    shut = [at for at, ask in script.asks.items() if ask.order == order and replies[at].startswith("no ")]
    others = [at for at, ask in script.asks.items() if ask.order != order]
    must_be_wrong("42 of another owner", judge, came, with_reply(said, rng.choice(others), "no 42 1"), journals)
    for at in shut[:1]:
        fault = next(at for at in shut if replies[at] == "no 52")
        must_be_wrong("no 52 at all", judge, came, with_reply(said, fault, "no 42 1"), journals)
        if len(shut) > 1:
            at = next(at for at in shut if replies[at] != "no 52")
            must_be_wrong("52 twice", judge, came, with_reply(said, at, "no 52"), journals)
            must_be_wrong("42 of another count", judge, came, with_reply(said, at, "no 42 2"), journals)
        must_be_wrong("an answer of nothing", judge, came, with_reply(said, at, "answer 1000 3 5"), journals)


def place_of(folder):
    return subprocess.run(["stat", "-f", "-c", "%T", folder], capture_output=True, text=True).stdout.strip()


def in_folder(disk, what):
    """Does this in a new folder, on the disk of this repository or in memory."""
    place = f"{TOP}/out" if disk or not os.path.isdir("/dev/shm") else "/dev/shm"
    with tempfile.TemporaryDirectory(dir=place) as folder:
        os.chdir(folder)
        try:
            return what()
        finally:
            os.chdir(TOP)


def told(name, came, due):
    planted = {what: came.pop(what) for what in sorted(came) if what.startswith("planted ")}
    print(f"{name}: " + ", ".join(f"{what} {came[what]}" for what in sorted(came) if came[what]))
    if planted:
        print("    all found wrong: " + ", ".join(f"{what.removeprefix('planted ')} {many}" for what, many in planted.items()))
    lacking = [what for what in due if not came[what]]
    if lacking:
        print("never met: " + ", ".join(lacking))
        sys.exit(1)


def main():
    if "PROGRAM" not in os.environ:
        subprocess.run([f"{TOP}/tools/build"], check=True)
    words = argparse.ArgumentParser(usage=__doc__, add_help=False)
    for name, many in (("runs", 100), ("kills", 1000), ("faults", 400), ("seed", 1)):
        words.add_argument(f"--{name}", type=int, default=many)
    words.add_argument("--plant", action="store_true")
    given = words.parse_args()
    os.makedirs(f"{TOP}/out", exist_ok=True)
    meetings = ["settled behind another line's record", "behind records of another worker"]
    try:
        for names in (NAMES[:1], NAMES):
            came = Counter()
            for number in range(given.runs):
                rng = random.Random(f"budget {given.seed} {len(names)} {number}")
                in_folder(number % 2 == 0, lambda: budgets(rng, names, given.plant, came))
            told(f"{given.runs} runs on {len(names)}: spent to the millionth", came, meetings + ["refused by the budget"] if given.runs >= 100 else [])
        came = Counter()
        in_folder(True, lambda: kills(random.Random(f"kills {given.seed}"), given.kills, given.plant, came))
        told("moments", came, MOMENTS if given.kills >= 1000 else [])
        for disk in (True, False):
            came, count = Counter(), given.faults // 2
            in_folder(disk, lambda: faults(random.Random(f"faults {given.seed} {disk}"), count, given.plant, came))
            told(f"{count} faults {'on the disk' if disk else 'in memory'}: as wanted", came, ENDS if disk and count >= 200 else [])
    except (Wrong, Refused) as fault:
        print(f"seed {given.seed}: {fault}")
        sys.exit(1)


main()
