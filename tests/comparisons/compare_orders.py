#!/usr/bin/env python3
"""Compares what several workers do with a script with what a second server says (tools/reference.py), in whatever order their lines came.

usage: tests/comparisons/compare_orders.py [--plant] [RUNS [SEED [FIRST]]]     (PROGRAM=FILE compares another build than tools/build's)
So many runs (5,000 where none is said), of random houses from case FIRST (0) of SEED (1) on: those of tests/comparisons/compare_scripts.py, whose scripts
have many blocks here, by good and hostile analysts. Each script is answered by 1 to 16 workers. With 1 the text is the transcript and the journals
are the second server's, byte for byte. With more of them the replies and the journals that were left must be what the second server gives in some
order (tests/lib/orders.py), and the journals hold nothing else, byte for byte.

It ends with status 1 at the first difference, with the case kept in out/compare_scripts, and where one of the things that should come
came in fewer than one of a hundred runs, or, of those that come where two lines meet, never in 1,000. One of five houses lies on the disk of
this repository, where workers meet more often.

With --plant wrong replies and records are planted in copies of what each run wrote and left, and each copy must be found wrong.
"""
import os
import random
import sys
from collections import Counter

sys.path.insert(0, f"{os.path.dirname(os.path.abspath(__file__))}/../lib")
import places  # noqa: E402,F401
from beginning import begin
from compare_scripts import TOP, WANTED, Case, Differs, is_same
from journal import Grant, Refused, Reservation, Settlement, appended, book_of, contents
from orders import Wrong, blocks_of, check, judged
from programs import deep
from random_scripts import blocks_at_random
from reference import Server, key_words, lines_of

STEPS = 100_000
SHARE = 100
MEETINGS = ("behind records of another worker", "settled behind another line's record", "recall open", "no 41 with some that aren't settled")
OF_SCRIPTS = ("a run that goes on", "a record without its gate", "a grant behind 40", "an ask of 40 that is granted", "granted to nobody")
ARE_RUNS = [name for name in WANTED if name not in OF_SCRIPTS]


class Orders(Case):
    plants = False

    def run(self, turn):
        books = self.books()
        script = blocks_at_random(self.rng, self.house.catalog, self.made(books))
        workers = 1 if self.rng.random() < 0.1 else self.rng.randint(2, 16)
        words = ("--workers", str(workers))
        if workers == 1:
            self.answered(turn, script, books, words)
            self.came["runs by one worker"] += 1
            return
        self.put(turn, script)
        kept, said = self.kept, self.ran("run", script, words)
        self.file("found", said)
        self.kept = [contents(f"journals/{order}.bud") for order in range(len(kept))]
        self.came["an area that was opened"] += sum(len(data) > len(before) for before, data in zip(kept, self.kept))
        self.came.update(self.judged(kept, books, script, said, self.kept, workers))
        self.counted(books, script, said.decode().splitlines(), turn)
        if self.plants:
            Plants(self, kept, books, script, said, workers).all()

    def judged(self, kept, books, script, said, now, workers):
        """Whether this was said and left in some order of the script's lines."""
        analysts = self.house.catalog["analysts"]
        after = [book_of(data, head, entry, analysts) for data, head, entry in zip(now, self.heads, self.entries)]
        for before, data, book, new in zip(kept, now, books, after):
            if data != appended(before, book.entry["capacity"], new.records[len(book.records) :]):
                raise Wrong(f"the journal of {book.entry['name']} holds something else, too")
        return judged(self.house, key_words(self.key), books, after, script, said, workers, STEPS)

    def counted(self, books, script, replies, turn):
        server = Server(self.house, key_words(self.key), books, STEPS)
        self.count(server, lines_of(script), replies, turn)


class Plants:
    """Wrong copies of what a run said and left."""

    def __init__(self, case, kept, books, script, said, workers):
        self.case, self.given, self.workers, self.rng, self.kept = case, (kept, books, script), workers, case.rng, kept
        self.lines, self.replies, self.now = lines_of(script), said.decode().splitlines(), case.kept
        self.books, self.blocks = books, blocks_of(self.lines)
        self.answers = [at for at, reply in enumerate(self.replies) if reply.startswith("answer ")]

    def refused(self, name, replies=None, now=None):
        said = "".join(reply + "\n" for reply in replies or self.replies).encode()
        if (said, now or self.now) == ("".join(reply + "\n" for reply in self.replies).encode(), self.now):
            return
        try:
            self.case.judged(*self.given, said, now or self.now, self.workers)
        except (Wrong, Refused):
            self.case.came[f"planted {name}"] += 1
            return
        self.case.file("planted", said)
        raise Differs(f"{name} wasn't noticed")

    def changed(self, at, reply):
        return [*self.replies[:at], reply, *self.replies[at + 1 :]]

    def order_of(self, at):
        """The number of the owner that a line names."""
        return [entry["name"].encode() for entry in self.case.entries].index(self.lines[at].split(b" ")[1])

    def records(self, order):
        kept = self.now[order]
        book = book_of(kept, self.case.heads[order], self.case.entries[order], self.case.house.catalog["analysts"])
        return book.records

    def with_records(self, order, records):
        """The journals with these records of one owner, as a run would leave them that had found its first ones."""
        found, capacity = len(self.books[order].records), self.case.entries[order]["capacity"]
        return [*self.now[:order], appended(self.kept[order], capacity, records[found:]), *self.now[order + 1 :]]

    def all(self):
        if self.answers:
            at = self.rng.choice(self.answers)
            self.replies_of_one(at)
            self.records_of_one(at)
            self.last_of_one(at)
        self.stale()
        self.exchanged()

    def replies_of_one(self, at):
        words = self.replies[at].split(" ")
        number, value, taken = map(int, words[1:])
        by = self.rng.choice([1, -1])
        self.refused("value of a reply", self.changed(at, f"answer {number} {value + by} {taken}"))
        self.refused("number of a reply", self.changed(at, f"answer {number + by} {value} {taken}"))
        self.refused("charge of a reply", self.changed(at, f"answer {number} {value} {taken + by}"))
        self.refused("an answer told as a refusal", self.changed(at, f"no 40 {10**18 - 1} {10**18 + 1} {10**18} {len(self.records(self.order_of(at)))}"))
        other = self.rng.choice(self.answers)
        self.refused("a number twice", self.changed(at, self.replies[other]))
        self.refused("one reply more", [*self.replies, "bye"])
        self.refused("a reply left out", self.replies[:at] + self.replies[at + 1 :])

    def records_of_one(self, at):
        order, words = self.order_of(at), self.replies[at].split(" ")
        records = self.records(order)
        number, value = int(words[1]), int(words[2])
        reserved = next(k for k, one in enumerate(records) if isinstance(one, Reservation) and one.number == number)
        settled = next(k for k, one in enumerate(records) if isinstance(one, Settlement) and one.number == number)

        def put(place, record):
            return self.with_records(order, [*records[:place], record, *records[place + 1 :]])

        one = records[reserved]
        changed = Settlement(number, 1, value + 1)
        self.refused("value of a record", None, put(settled, changed))
        self.refused("value of a record and of its reply", self.changed(at, f"answer {number} {value + 1} {words[3]}"), put(settled, changed))
        self.refused("a settlement made a lost one", None, put(settled, Settlement(number, 3)))
        other = (one.analyst + 1) % len(self.case.house.catalog["analysts"])
        self.refused("analyst of a record", None, put(reserved, Reservation(number, one.view, one.e, one.p, one.q, one.taken, other, one.program)))
        program = bytes([one.program[0] ^ 1]) + one.program[1:]
        self.refused("program of a record", None, put(reserved, Reservation(number, one.view, one.e, one.p, one.q, one.taken, one.analyst, program)))
        other = Reservation(number, one.view, one.e + 1, one.p, one.q, one.taken, one.analyst, one.program)
        other.taken += other.charge() - one.charge()
        self.refused("epsilon of a record", None, put(reserved, other))
        moved = [*records[:reserved], records[settled], *records[reserved:settled], *records[settled + 1 :]]
        self.refused("a settlement before its reservation", None, self.with_records(order, moved))

    def last_of_one(self, at):
        """The last records go, or one more comes."""
        order = self.order_of(at)
        records, entry = self.records(order), self.case.entries[order]
        self.refused("a last record gone", None, self.with_records(order, records[:-1]))
        last = records[-1]
        if len(records) < entry["capacity"]:
            number = sum(isinstance(one, Reservation) for one in records)
            more = Reservation(number, (255, 0), 1, 0, 1, 0, 0, bytes(32))
            self.refused("a record that nobody asked", None, self.with_records(order, [*records, more]))
            self.refused("a grant by a run", None, self.with_records(order, [*records, Grant(len(self.books[order].grants), 1)]))
        # The last two records are one line's, which is told that the budget doesn't allow it, without them.
        if len(records) >= 2 + len(self.books[order].records) and isinstance(records[-2], Reservation) and records[-2].number == last.number:
            for place in self.answers:
                if self.order_of(place) == order and int(self.replies[place].split(" ")[1]) == last.number:
                    spent = sum(one.taken for one in records[:-2] if isinstance(one, Reservation))
                    told = f"no 40 {spent} {spent + records[-2].taken} {self.books[order].budget} {len(records) - 2}"
                    self.refused("a refused ask that the budget allows", self.changed(place, told), self.with_records(order, records[:-2]))

    def stale(self):
        """A worker is told what was left before its own earlier answer."""
        for at, reply in enumerate(self.replies):
            if reply.startswith(("left ", "mine ")) and any(self.order_of(before) == self.order_of(at) for before in self.own_before(at)):
                book, words = self.books[self.order_of(at)], reply.split(" ")
                self.refused("a balance behind too few records", self.changed(at, f"{words[0]} 0 {words[2]} {len(book.records)}"))

    def own_before(self, at):
        """The answers that the worker of a line had before it."""
        worker = next(number for number, block in enumerate(self.blocks) if at in block) % self.workers
        return [line for block in self.blocks[worker :: self.workers] for line in block if line < at and line in self.answers]

    def exchanged(self):
        """The replies to two blocks of as many lines are exchanged, of which one has an answer where the other has another line."""
        pairs = [(one, other) for one in self.blocks for other in self.blocks if one.start < other.start and len(one) == len(other)]
        pairs = [pair for pair in pairs if any(self.lines[a] != self.lines[b] and {a, b} & set(self.answers) for a, b in zip(*pair))]
        if pairs:
            one, other = self.rng.choice(pairs)
            replies = list(self.replies)
            replies[one.start : one.stop], replies[other.start : other.stop] = self.replies[other.start : other.stop], self.replies[one.start : one.stop]
            self.refused("two blocks exchanged", replies)


def compare(seed, number, came):
    """Whether a case's two sides are the same."""
    rng = random.Random(f"orders {seed} {number}")
    place = f"{TOP}/out" if rng.random() < 0.2 or not os.path.isdir("/dev/shm") else "/dev/shm"
    return is_same(
        place, f"case {number} of seed {seed}", f"orders-{seed}-{number}", came, (Differs, Wrong, Refused), lambda: Orders(rng, came).compared()
    )


def told(seed, came):
    """Prints what came, and says whether all that should come did often enough."""
    runs = came["runs"]
    planted = {name: came.pop(name) for name in sorted(came) if name.startswith("planted ")}
    said = f"seed {seed}: {runs} runs of {came.pop('cases')} cases and {came.pop('cut short', 0)} that were cut short: no difference"
    print(", ".join(f"{name} {came[name]}" for name in sorted(came)))
    if planted:
        print("all found wrong: " + ", ".join(f"{name.removeprefix('planted ')} {many}" for name, many in planted.items()))
    lacking = [name for name in ARE_RUNS if came[name] * SHARE < runs] + [name for name in MEETINGS if not came[name] and runs >= 1000]
    if lacking:
        print("too few of: " + ", ".join(lacking))
    print(said)
    return not lacking


def main():
    Orders.plants = "--plant" in sys.argv
    count, seed, number = begin(__doc__, 5000, 1, 0, words=[word for word in sys.argv[1:] if word != "--plant"])
    os.makedirs(f"{TOP}/out", exist_ok=True)
    check()
    came, same = Counter(), True
    while same and came["runs"] < count:
        same = deep(lambda: compare(seed, number, came))
        number += 1
    sys.exit(0 if same and told(seed, came) else 1)


main()
