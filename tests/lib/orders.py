"""Whether replies and journals are what a script's lines come to in SOME order in which several workers may have answered them.

    judged(HOUSE, DRAWS, FOUND, AFTER, SCRIPT, SAID, WORKERS)    what came of it, counted; Wrong where it is no such order
    blocks_of(LINES)                                             the numbers of the lines of each block, which ends with `bye`, or with the script
    check()                                                      orders worked by hand

HOUSE and DRAWS are as reference.py has them, FOUND and AFTER each owner's book (journal.py) before the run and after it, SAID the bytes that were
written. It shares nothing with the server but the rules. Held is, for each owner, that

- the records found are the first ones of those there are now, each of which may follow and is within the budget (journal.py);
- each reply is the one that the second server gives to its line behind some first records: as many as the reply's SEEN, or those before the
  reservation whose number it shows; and these grow along a worker's lines, and have all that its earlier lines were told and added;
- the records added are the second server's for those lines, byte for byte, a settlement wherever it stands behind its reservation, and each
  record is one line's; what an exhausted one gives back hangs on where it stands, and is journal.py's;
- a reply that no record changes (10 to 37, `hello`, `bye`) is the second server's own.

And for all owners together: there is one order of all that lines saw and added which is each worker's own and each owner's own.

Where a disk failed, SHUT has the names of the owners that may be shut: then 42 and 52 stand for an answer, one line is told 52 and is told it once,
no line of a worker adds a record behind its 42 or 52, and a reservation without an answer, or a settlement that nobody was told, is such a line's.
"""
import os
import sys
from collections import Counter, defaultdict
from itertools import repeat

from catalog import catalog, owner  # noqa: E402
from journal import Book, Grant, Reservation  # noqa: E402
from lines import lines_of  # noqa: E402
from reference import Server, by_view, house_of, key_words, own_by_view  # noqa: E402

SHOWN = {"recall": -1, "left": -1, "mine": -1, "no 40": -1, "no 41": 2, "no 43": -1, "no 60": -1, "no 61": -1}
NUMBERED = {"answer": 1, "no 50": 2}
DISK = ("no 42", "no 52")


class Wrong(Exception):
    pass


def blocks_of(lines):
    ends = [at + 1 for at, line in enumerate(lines) if line == b"bye" or at == len(lines) - 1]
    return [range(first, end) for first, end in zip([0] + ends, ends)]


def kind_of(reply):
    """A reply's first word, and a refusal's code with it."""
    words = reply.split(" ")
    return " ".join(words[:2]) if words[0] == "no" else words[0]


class Log:
    """An owner's records, and what the second server's owner is behind the first ones of them."""

    def __init__(self, owner, found, book, analysts, may_shut):
        self.owner, self.records, self.first, self.may_shut = owner, book.records, len(found.records), may_shut
        self.name = owner.entry["name"]
        if list(map(vars, found.records)) != list(map(vars, self.records[: self.first])):
            raise Wrong(f"{self.name}: the records found aren't the first ones now")
        if len(found.grants) < len(book.grants):
            raise Wrong(f"{self.name}: a run has granted something")
        self.start, self.places, self.settled, self.claimed = len(found.reserved), {}, {}, set()
        reservations, self.behind = [], []
        behind = Book(book.entry, book.analysts, book.version)
        for place, one in enumerate([*self.records, None]):
            if place >= self.first:
                open_ones = sum(said is None for _, said in reservations[self.start :])
                self.behind.append((by_view(behind.costs), own_by_view(behind, analysts), list(reservations), open_ones))
            if isinstance(one, Reservation):
                reservations.append((analysts[one.analyst], None))
                self.places[one.number] = place
            elif one and not isinstance(one, Grant):
                reservations[one.number] = (reservations[one.number][0], one.standing())
                self.settled[one.number] = place
            if one:
                behind.keep(one)
        # Lines that were told 42 or 52, with the least place that a record of theirs may have.
        self.unkept, self.faults, self.looked = [], 0, self.first

    def goes_to(self, length):
        """The second server's owner is as behind so many records."""
        charges, own, reservations, unsettled = self.behind[length - self.first]
        owner = self.owner
        owner.charges, owner.own, owner.records, owner.reservations, owner.added = dict(charges), dict(own), length, list(reservations), []
        owner.start, owner.unsettled = self.start, unsettled

    def shown(self, reply, knows):
        """Behind how many records this reply was given, by what it shows, where its worker knew of so many."""
        kind, words = kind_of(reply), reply.split(" ")
        if kind in NUMBERED:
            number = int(words[NUMBERED[kind]])
            if number < self.start or number not in self.places:
                raise Wrong(f"there is no new reservation {number} of {self.name}")
            length = self.places[number]
        else:
            length = int(words[SHOWN[kind]]) if kind in SHOWN else knows
        if not knows <= length <= len(self.records):
            raise Wrong(f"it was given behind {length} records of {self.name}, of {len(self.records)}, and its worker knew of {knows}")
        return length

    def claim(self, place):
        if place in self.claimed:
            raise Wrong(f"record {place} of {self.name} is another line's")
        self.claimed.add(place)


class Judge:
    def __init__(self, house, draws, found, after, steps, shut):
        self.server = Server(house, draws, found, steps)
        owners = self.server.owners.items()
        analysts = self.server.analysts
        self.logs = {name: Log(owner, one, now, analysts, name in shut) for (name, owner), one, now in zip(owners, found, after)}
        self.came, self.events = Counter(), []

    def worker(self, blocks, lines, replies):
        """Judges one worker's lines."""
        self.knows = {name: log.first for name, log in self.logs.items()}
        self.closed, self.steps = set(), []
        for block in blocks:
            self.server.who = None
            for at in block:
                try:
                    self.line(lines[at], replies[at])
                except (Wrong, ValueError, IndexError) as fault:
                    raise Wrong(f"line {at}, {lines[at][:80]!r}, was told {replies[at][:80]!r}: {fault}") from None
        self.events.append(self.steps)

    def line(self, line, reply):
        words = line.split(b" ", 2)
        log = self.logs.get(words[1]) if words[0] in (b"ask", b"askpart", b"recall", b"left", b"mine") and len(words) > 1 else None
        if log is None:
            return self.same(self.server.reply(line), reply)
        if log.may_shut and kind_of(reply) in DISK:
            return self.disk_refusal(log, line, reply)
        knows = self.knows[words[1]]
        length = log.shown(reply, knows)
        log.goes_to(length)
        self.same(self.server.reply(line), reply)
        if log.owner.added:
            self.added(log, words[1], length)
        elif kind_of(reply) in SHOWN:
            self.steps.append(("looks", words[1], length))
            log.looked = max(log.looked, length)
            self.knows[words[1]] = length
        self.count(log, reply, knows, length)

    def same(self, due, reply):
        if due != reply:
            raise Wrong(f"{due!r} is due there")

    def added(self, log, name, length):
        """The line's two records are where its number has them."""
        if name in self.closed:
            raise Wrong(f"its worker was told before that {log.name} is shut")
        reservation, settlement = log.owner.added
        place = log.settled.get(reservation.number)
        if place is None:
            raise Wrong(f"reservation {reservation.number} of {log.name} has no settlement")
        settlement.returned = log.records[place].returned
        for at, record in ((length, reservation), (place, settlement)):
            if log.records[at].encoded() != record.encoded():
                raise Wrong(f"record {at} of {log.name} is {log.records[at].encoded().hex()}, and {record.encoded().hex()} is due")
            log.claim(at)
            self.steps.append(("adds", name, at))
        self.knows[name] = place + 1
        self.came["settled behind another line's record"] += place > length + 1

    def disk_refusal(self, log, line, reply):
        """Behind what its worker knew the line would have been granted: what it may have left is that reservation, perhaps later."""
        name, knows = log.owner.entry["name"].encode(), self.knows[log.owner.entry["name"].encode()]
        log.goes_to(knows)
        due = self.server.reply(line)
        if not log.owner.added:
            raise Wrong(f"{due!r} is due there")
        if reply not in ("no 52", "no 42 1") or (reply == "no 52" and name in self.closed):
            raise Wrong("no such fault can have come there")
        log.unkept.append((knows, name in self.closed, reply == "no 52", line, log.owner.added[0], self.server.who))
        log.faults += reply == "no 52"
        self.closed.add(name)
        self.came[kind_of(reply)] += 1

    def count(self, log, reply, knows, length):
        self.came["behind records of another worker"] += length > knows
        if reply.startswith("recall ") and reply.split(" ")[2] == "open":
            self.came["recall open"] += 1
        if reply.startswith("no 41 ") and reply.split(" ")[3] != "0":
            self.came["no 41 with some that aren't settled"] += 1
        self.came["records added"] += 2 * bool(log.owner.added)

    def leftovers(self):
        """Each record is some line's. Returns the places of those that lines of a shut owner left."""
        free = set()
        for name, log in self.logs.items():
            rest = [place for place in range(log.first, len(log.records)) if place not in log.claimed]
            if rest and not log.unkept:
                raise Wrong(f"record {rest[0]} of {log.name} is no line's")
            if log.unkept and log.faults != 1:
                raise Wrong(f"{log.faults} lines of {log.name} were told 52, and {len(log.unkept)} 42 or 52")
            self.unanswered(log, rest)
            free |= {(name, place) for place in rest}
        return free

    def unanswered(self, log, rest):
        """Reservations that no line has an answer of are of lines that were told 42 or 52, each of another one, and one settlement may be there, the
        last record, of the line that was told 52."""
        lines = list(log.unkept)
        settlements = [place for place in rest if not isinstance(log.records[place], Reservation)]
        if len(settlements) > 1 or any(place < max(log.looked, len(log.records) - 1) for place in settlements):
            raise Wrong(f"settlements {settlements} of {log.name} are no line's")
        for place in rest:
            one = log.records[place]
            if place in settlements:
                continue
            settled = log.settled.get(one.number)
            fits = [left for left in lines if self.may_have_left(log, left, place, one, settled)]
            if not fits:
                raise Wrong(f"reservation {one.number} of {log.name} is no line's that was told 42 or 52")
            # A line that was told 52 may have left what nobody else has.
            lines.remove(min(fits, key=lambda left: (not left[2]) if settled is not None else left[2]))
            self.came["a reservation of a line that was told 42 or 52"] += 1

    def may_have_left(self, log, left, place, one, settled):
        knows, closed, is_fault, line, asked, who = left
        same = [(record.view, record.e, record.p, record.q, record.analyst, record.program) for record in (one, asked)]
        if closed or knows > place or same[0] != same[1] or (settled is not None and not is_fault):
            return False
        log.goes_to(place)
        self.server.who = who
        self.server.reply(line)
        if settled is not None:
            log.owner.added[1].returned = log.records[settled].returned
        due = [record.encoded() for record in log.owner.added]
        return due[:1] == [one.encoded()] and (settled is None or due[1] == log.records[settled].encoded())

    def ordered(self, free):
        """One order of all that was seen and added that is each worker's and each owner's."""
        now, looks, next_of = {name: log.first for name, log in self.logs.items()}, defaultdict(int), [0] * len(self.events)
        for kind, name, place in (step for steps in self.events for step in steps):
            looks[name, place] += kind == "looks"
        moved = True
        while moved:
            moved = False
            for name in now:
                while (name, now[name]) in free and not looks[name, now[name]]:
                    now[name] += 1
                    moved = True
            for worker, steps in enumerate(self.events):
                while next_of[worker] < len(steps):
                    kind, name, place = steps[next_of[worker]]
                    if now[name] != place or (kind == "adds" and looks[name, place]):
                        break
                    if kind == "adds":
                        now[name] += 1
                    else:
                        looks[name, place] -= 1
                    next_of[worker] += 1
                    moved = True
        if any(at < len(steps) for at, steps in zip(next_of, self.events)):
            raise Wrong("what the workers saw of several owners comes in no order")


def judged(house, draws, found, after, script, said, workers, steps=None, shut=()):
    lines, replies = lines_of(script), said.decode("utf-8", "replace").split("\n")
    if replies.pop() != "" or len(replies) != len(lines):
        raise Wrong(f"{len(replies)} replies to {len(lines)} lines")
    judge = Judge(house, draws, found, after, steps, shut)
    for worker in range(workers):
        judge.worker(blocks_of(lines)[worker::workers], lines, replies)
    judge.ordered(judge.leftovers())
    return judge.came


# Orders worked by hand.


class Pair:
    """Two blocks over two owners, of which each asks one: the second server's answers to their asks, and the books behind these."""

    def __init__(self, first, second):
        data = catalog(owner("a"), owner("b"))
        self.house, self.draws = house_of(data, {"people.csv": b"age\n20\n30\n40\n"}.__getitem__), key_words(bytes(32))
        self.script = b"hello ann\n" + first + b"bye\nhello ann\n" + second + b"bye\n"
        server = Server(self.house, self.draws)
        said = [server.reply(line) for line in lines_of(self.script)]
        self.answers = [reply for reply in said if reply.startswith("answer ")]
        self.found, self.after = ([Book(entry, range(2)) for entry in self.house.catalog["owners"]] for _ in range(2))
        for book, one in zip(self.after, server.owners.values()):
            assert all(book.add(record) for record in one.added)

    def fits(self, first, second, workers, after=None):
        said = "".join(f"hello ann\n{replies}\nbye\n" for replies in (first, second)).encode()
        try:
            judged(self.house, self.draws, self.found, after or self.after, self.script, said, workers)
            return True
        except Wrong:
            return False


def check():
    # Each asks one owner, and then looks at the other one. Whoever looks first may see nothing or a part, and the other one then sees all.
    pair = Pair(b"ask a 1 size people\nleft b\n", b"ask b 1 size people\nleft a\n")
    left = [f"left 0 {10**7} 0", f"left {10**6} {10**7} 1", f"left {10**6} {10**7} 2"]
    for of_b in range(3):
        for of_a in range(3):
            replies = f"{pair.answers[0]}\n{left[of_b]}", f"{pair.answers[1]}\n{left[of_a]}"
            assert pair.fits(*replies, 2) == (of_a == 2 or of_b == 2), replies
            assert pair.fits(*replies, 1) == ((of_b, of_a) == (0, 2)), replies
    # The same ask twice. Two workers may have either number, one has the first one first, and none is had twice or by nobody.
    pair = Pair(*[b"ask a 1 size people\n"] * 2)
    zero, one = pair.answers
    assert pair.fits(zero, one, 1) and pair.fits(zero, one, 2) and pair.fits(one, zero, 2) and not pair.fits(one, zero, 1)
    half = [Book(book.entry, range(2)) for book in pair.after]
    assert all(half[0].add(record) for record in pair.after[0].records[:2])
    for after in (half, pair.after):
        assert not any(pair.fits(zero, zero, workers, after) for workers in (1, 2))
    refused = f"no 40 {10**6} {2 * 10**6} {10**7} 2"
    assert not any(pair.fits(zero, refused, workers, half) for workers in (1, 2))
    check_exhausted()
    print("all as known")


def check_exhausted():
    """Of 10 part A takes 6, and its number is exhausted, behind part B's 4, or before. Two comes back, or six and B takes four."""
    data = catalog(owner("a", (("people", "people.csv", (("town", "text"), ("age", "num"))),), 10, 100, (("area", "people", "town", ("A", "B")),)))
    house, draws = house_of(data, {"people.csv": b"town,age\nA,20\nB,30\nA,40\n"}.__getitem__), key_words(bytes(32))
    words = lambda order, number: repeat(0) if number == 0 else draws(order, number)
    script = b"hello ann\naskpart a area A 0.000006 size people\nbye\nhello bob\naskpart a area B 0.000004 size people\nbye\n"
    server = Server(house, words)
    said = [server.reply(line) for line in lines_of(script)]
    assert said[1] == "no 50 0" and said[4].startswith("answer 1 ") and said[4].endswith(" 4"), said
    entry = house.catalog["owners"][0]
    asked, exhausted, other, answered = server.owners[b"a"].added
    for version, (back, spent) in {1: (0, 6), 2: (0, 6), 3: (2, 4)}.items():
        found, after = Book(entry, range(2), version), Book(entry, range(2), version)
        other.taken = 0
        assert all(after.add(record) for record in (asked, other, answered)) and after.settlement(0, 2).returned == back
        assert after.add(after.settlement(0, 2)) and after.spent == spent
        replies = [*said[:4], said[4][:-1] + "0", said[5]]
        for takes, fits in (("0", True), ("4", False)):
            replies[4] = said[4][:-1] + takes
            try:
                judged(house, words, [found], [after], script, "".join(f"{reply}\n" for reply in replies).encode(), 2)
                assert fits, (version, takes)
            except Wrong as fault:
                assert not fits, (version, takes, fault)
    other.taken = 4
    found, after = Book(entry, range(2)), Book(entry, range(2))
    assert exhausted.returned == 6 and all(after.add(record) for record in (asked, exhausted, other, answered)) and after.spent == 4
    for workers in (1, 2):
        judged(house, words, [found], [after], script, "".join(f"{reply}\n" for reply in said).encode(), workers)


if __name__ == "__main__":
    check()
