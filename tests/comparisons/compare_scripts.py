#!/usr/bin/env python3
"""Compares what the program does with whole scripts, and with grants between them, with what a second server says (tools/reference.py, tools/journal.py).

usage: tests/comparisons/compare_scripts.py [COUNT [SEED [FIRST]]]     (PROGRAM=FILE compares another build than tools/build's)
COUNT random houses (1,000 where none is said; 5,000 are some 10,000 runs), from case FIRST (0) of SEED (1) on. Each is a catalog of 1 to 4 owners with
their tables, a key, and 1 to 3 scripts by good and hostile analysts (random_scripts.py): `init`, then a run a script over the same journals, and `audit`.
Before and behind each run some owners are granted something: good amounts, ones that are too large, ones for which there is no room, and words that are no
amount; where a line was told 40 often just what it lacked, and then the next script asks it again.
Before the first run a journal may be made an older one, of version 1 or 2, and be given records that runs could have left. Between runs one may be left
as a stop leaves it, with its last record, or its next area, behind no gate, or a settlement be made an exhausted or a lost one. The next run finds
them. Compared are, byte by byte:

- what each of these commands writes, the second server going on behind the records that it finds in the journals;
- each owner's journal after `init`, after each run and after each grant, whole, with the records that the second server adds.

It ends with status 1 at the first difference, with the case kept in out/compare_scripts, and where one of the replies that should come
came in fewer than one of fifty cases. 42 and 52 want a disk that fails, and 51 and 90 an allocation: these have benches of their own. 50 wants
noise of over 4,096 draws, which no random key comes to: an exhausted settlement is laid in journals, and recalled.
"""
import os
import random
import shutil
import subprocess
import sys
import tempfile
import traceback
from collections import Counter

sys.path.insert(0, f"{os.path.dirname(os.path.abspath(__file__))}/../lib")
from places import TOP  # noqa: E402

PROGRAM = os.path.abspath(os.environ.get("PROGRAM", f"{TOP}/out/hitchseason"))
KEPT = f"{TOP}/out/compare_scripts"
from beginning import begin  # noqa: E402
from journal import GATE, SLOT, VERSIONS, Area, Book, Settlement, appended, area_slots, book_of, contents, header, in_version, live_area, made  # noqa: E402
from random_scripts import amount_at_random, house_at_random, lay_records, script_of  # noqa: E402
from programs import deep  # noqa: E402
from reference import Server, grant_by_words, house_of, key_words, lines_of  # noqa: E402
from runs import TooManySteps  # noqa: E402

STEPS = 100_000
SHARE = 50
REPLIES = ("hello", "answer", "recall", "left", "mine", "bye", "no")
GRANTS = ["granted", "too large", "full", "usage", "granted to nobody"]
KINDS = [b"hello", b"ask", b"askpart", b"recall", b"left", b"mine", b"bye"]
WANTED = (
    ["hello", "answer", "answer of a part", "answer of a part that took 0", "recall answer", "recall exhausted", "recall lost", "left", "mine", "mine without a limit", "bye"]
    + [f"no 10 {word}" for word in range(6)] + ["no 12 1", "no 12 2", "no 12 3"]
    + [f"no 30 {kind}" for kind in ("unbound", "mismatch", "notground", "notflat")]
    + [f"no {code}" for code in (11, 13, 14, 20, 21, 22, 31, 32, 33, 34, 35, 36, 37, 40, 41, 43, 60, 61)]
    + ["a run that goes on", "a record without its gate", "recall of an earlier run's", "journals of version 1", "journals of version 2"]
    + ["journals with records that gave back", "an area that was opened", "a grant behind 40", "an ask of 40 that is granted", *GRANTS]
)  # fmt: skip


class Differs(Exception):
    pass


def kind_of(line, reply):
    """The kind of a reply, by its words that aren't numbers of this case."""
    words = reply.split()
    if words[0] == "no":
        return " ".join(words[: 3 if words[1] in ("10", "12", "30") else 2])
    if words[0] == "recall":
        return f"recall {words[2]}"
    if words[0] == "mine":
        return "mine without a limit" if words[2] == "none" else "mine"
    if words[0] == "answer" and line.startswith(b"askpart "):
        return "answer of a part that took 0" if words[3] == "0" else "answer of a part"
    return words[0]


def first_difference(found, want):
    for number, (left, right) in enumerate(zip(found.split(b"\n"), want.split(b"\n"))):
        if left != right:
            return f"line {number}: {left[:200]!r}, wanted {right[:200]!r}"
    return f"{len(found)} bytes, wanted {len(want)}"


class Case:
    """One house with its journals in this folder, and the second server's books of them."""

    def __init__(self, rng, came):
        self.rng, self.came = rng, came
        catalog, files = house_at_random(rng)
        self.key = rng.randbytes(32)
        for name, data in {"cat.json": catalog, "key": self.key, **files}.items():
            self.file(name, data)
        self.house = house_of(catalog, files.__getitem__)
        self.entries = self.house.catalog["owners"]
        self.heads = [header(catalog, order, self.key, files.__getitem__, VERSIONS[-1]) for order in range(len(self.entries))]
        # Of owners by their names a line that was told 40, who asked it, and what it lacked; lines that the next script asks again.
        self.over, self.again = {}, set()
        said = "".join(f"owner {entry['name']} budget {entry['budget']} capacity {entry['capacity']}\n" for entry in self.entries)
        self.same("init", self.ran("init"), said.encode())
        self.kept = [made(head, entry["capacity"]) for head, entry in zip(self.heads, self.entries)]
        self.same_journals()

    @staticmethod
    def file(name, data):
        with open(name, "wb") as file:
            file.write(data)

    def ran(self, command, script=b"", words=()):
        ran = subprocess.run([PROGRAM, command, "cat.json", "key", *words], input=script, capture_output=True)
        if (ran.returncode, ran.stderr) != (0, b""):
            raise Differs(f"{command} ended with {ran.returncode}, {ran.stdout[:200]!r} and {ran.stderr[:200]!r}")
        return ran.stdout

    def same(self, what, found, want):
        if found != want:
            self.file("found", found)
            self.file("wanted", want)
            raise Differs(f"{what}: {first_difference(found, want)}")

    def same_journals(self):
        for order, kept in enumerate(self.kept):
            if contents(f"journals/{order}.bud") != kept:
                self.file(f"wanted{order}.bud", kept)
                raise Differs(f"journals/{order}.bud isn't wanted{order}.bud")

    def books(self):
        analysts = self.house.catalog["analysts"]
        return [book_of(kept, head, entry, analysts) for kept, head, entry in zip(self.kept, self.heads, self.entries)]

    def made(self, books):
        """How many reservations there are of each owner, by its name."""
        return {entry["name"].encode(): len(book.reserved) for entry, book in zip(self.entries, books)}

    def run(self, turn):
        books = self.books()
        again = b"".join(b"hello %s\n%s\n" % (who, line) for who, line, _ in self.over.values())
        self.again, self.over = {line for _, line, _ in self.over.values()}, {}
        self.answered(turn, again + script_of(self.rng, self.house.catalog, self.made(books)), books)

    def put(self, turn, script):
        """Keeps the script and the journals as they are before it."""
        self.file(f"script{turn}", script)
        shutil.copytree("journals", f"before{turn}/journals")

    def answered(self, turn, script, books, words=()):
        """Answers a script by both. Nothing is compared where a program takes the second server too long."""
        self.put(turn, script)
        server, lines = Server(self.house, key_words(self.key), books, STEPS), lines_of(script)
        replies = [self.heard(server, line) for line in lines]
        self.same(f"run {turn}", self.ran("run", script, words), "".join(reply + "\n" for reply in replies).encode())
        for order, owner in enumerate(server.owners.values()):
            self.kept[order] = self.with_records(order, owner.added)
        self.same_journals()
        self.count(server, lines, replies, turn)

    def heard(self, server, line):
        """The reply to a line. Of each owner the first line is kept that is told 40."""
        reply = server.reply(line)
        name = line.split(b" ", 2)[1] if reply.startswith("no 40 ") else None
        if name is not None and name not in self.over:
            self.over[name] = (server.who, line, int(reply.split(" ")[3]) - server.owners[name].budget)
        return reply

    def grants(self):
        """Some owners are granted something; nobody is now and then."""
        for order, book in enumerate(self.books()):
            name, near = book.entry["name"].encode(), len(book.records) + 1 >= book.entry["capacity"]
            if self.rng.random() < (0.7 if name in self.over else 0.4 if near else 0.2):
                self.grant(order, book)
        if self.rng.random() < 0.05:
            self.ends("grant to nobody", ["nobody", "1"], (3, "refused nobody\n"))
            self.came["granted to nobody"] += 1

    def grant(self, order, book):
        name = book.entry["name"]
        lacks = self.over[name.encode()][2] if name.encode() in self.over and self.rng.random() < 0.6 else None
        word = str(lacks) if lacks else amount_at_random(self.rng, book)
        status, said, records = grant_by_words(book, word)
        self.ends(f"grant {name} {word}", [name, word], (status, said))
        self.kept[order] = self.with_records(order, records)
        self.same_journals()
        self.came["too large" if status == 9 else said.split()[0]] += 1
        self.came["a grant behind 40"] += bool(lacks) and status == 0

    def ends(self, what, words, due):
        """A grant that is refused has no other words either."""
        ran = subprocess.run([PROGRAM, "grant", "cat.json", "key", *words], stdin=subprocess.DEVNULL, capture_output=True)
        if (ran.returncode, ran.stdout.decode(errors="replace"), ran.stderr) != (*due, b""):
            raise Differs(f"{what} ended with {ran.returncode}, {ran.stdout[:200]!r} and {ran.stderr[:200]!r}, and {due} is due")

    def count(self, server, lines, replies, turn):
        for line, reply in zip(lines, replies):
            words = line.split(b" ", 3)
            self.came[f"line {words[0].decode()}" if words[0] in KINDS else "line of no kind"] += 1
            self.came[kind_of(line, reply)] += 1
            self.came["an ask of 40 that is granted"] += line in self.again and reply.startswith("answer ")
            if reply.startswith("recall ") and int(words[2]) < server.owners[words[1]].start:
                self.came["recall of an earlier run's"] += 1
        self.came["runs"] += 1
        self.came["a run that goes on"] += any(owner.start for owner in server.owners.values())

    def with_records(self, order, records):
        """An owner's journal with these records behind its own."""
        kept = self.kept[order]
        more = appended(kept, self.entries[order]["capacity"], records)
        self.came["an area that was opened"] += len(more) > len(kept)
        return more

    def leave(self, order, kept):
        """A journal is this one now."""
        self.kept[order] = bytes(kept)
        self.file(f"journals/{order}.bud", kept)

    def lay(self):
        """Some journals are older ones, and some are given records that were there before."""
        for order, entry in enumerate(self.entries):
            capacity, version = entry["capacity"], self.rng.choice([VERSIONS[-1]] * 5 + [1, 1, 2])
            if version != VERSIONS[-1]:
                self.leave(order, made(in_version(self.heads[order], version), capacity))
                self.came[f"journals of version {version}"] += 1
            if self.rng.random() < (0.6 if capacity > 64 else 0.25):
                book = Book(entry, self.house.catalog["analysts"], version)
                lay_records(self.rng, book)
                self.leave(order, self.with_records(order, book.records))
                self.came["journals with records that were laid"] += 1
                self.came["journals with records that gave back"] += any(one.returned for one in book.settled.values())

    def stop(self):
        """Some journals are left as a stop leaves them, and some settlements are others."""
        for order, book in enumerate(self.books()):
            kept, records, capacity = bytearray(self.kept[order]), len(book.records), self.entries[order]["capacity"]
            area = live_area(kept, capacity)
            settled = [k for k, record in enumerate(book.records) if isinstance(record, Settlement)]
            for k in settled:
                # From version 3 on what an exhausted number takes comes back, and later reservations go by that: it stays exhausted.
                if self.rng.random() < 0.25 and (book.version < 3 or book.records[k].outcome != 2):
                    outcome = self.rng.choice([2, 3]) if book.version < 3 else 3
                    kept[area.place(k) : area.place(k + 1)] = Settlement(book.records[k].number, outcome).encoded()
            if records and self.rng.random() < 0.3:
                kept[area.place(records - 1)] = self.rng.choice([0, 0, GATE ^ 0x80, 0xFF])
                self.came["a record without its gate"] += 1
            elif records < area.slots and self.rng.random() < 0.1:
                kept[area.place(records) + 1 : area.place(records + 1)] = self.rng.randbytes(SLOT - 1)
            elif area.slots == records < capacity:
                self.begin_area(kept, area, capacity)
            self.leave(order, kept)

    def begin_area(self, kept, live, capacity):
        """Behind a full area a part of the next one, in which a stop leaves any bytes."""
        following = Area(live.version, capacity, live.number + 1)
        assert following.slots == area_slots(live.version, capacity, following.number) > live.slots
        kept[live.end :] = self.rng.choice([bytes, self.rng.randbytes, lambda many: bytes([GATE] * many)])(self.rng.randint(1, SLOT * following.slots))
        self.came["an area without its gate"] += 1

    def compared(self):
        runs = self.rng.choice([1, 2, 2, 3])
        self.lay()
        for turn in range(runs):
            if turn:
                self.stop()
            self.grants()
            self.run(turn)
        self.grants()
        said = "".join(f"{book.counts()}\n" for book in self.books())
        self.same("audit", self.ran("audit"), said.encode())
        self.same_journals()


def keep(room, name):
    os.makedirs(KEPT, exist_ok=True)
    shutil.rmtree(f"{KEPT}/{name}", ignore_errors=True)
    shutil.copytree(room, f"{KEPT}/{name}")
    print(f"kept in {KEPT}/{name}: scriptN was run behind the journals of beforeN. There what is wanted is said by")
    print(f"  {TOP}/tools/reference.py --catalog cat.json --key key --found beforeN < scriptN")


def is_same(place, what, name, came, differences, compared):
    """Whether a comparison in a folder of its own there finds none of these differences; where it finds one, the folder is kept under the name."""
    with tempfile.TemporaryDirectory(dir=place) as room:
        os.chdir(room)
        try:
            compared()
            came["cases"] += 1
        except TooManySteps:
            came["cut short"] += 1
        except Exception as fault:
            print(f"{what}: {fault}" if isinstance(fault, differences) else traceback.format_exc())
            keep(room, name)
            return False
        finally:
            os.chdir(TOP)
    return True


def compare(seed, number, came):
    """Whether a case's two sides are the same."""
    place = "/dev/shm" if os.path.isdir("/dev/shm") else None
    return is_same(
        place, f"case {number} of seed {seed}", f"{seed}-{number}", came, Differs, lambda: Case(random.Random(f"{seed} {number}"), came).compared()
    )


def told(seed, came):
    """Prints what came, and says whether all that should come did often enough."""
    cases = came["cases"]
    lines = {name for name in came if name.startswith("line ")}
    replies = {name for name in came if name.split()[0] in REPLIES}
    for names in (lines, replies, came.keys() - lines - replies - {"cases", "cut short", "runs"}):
        print(", ".join(f"{name} {came[name]}" for name in sorted(names)))
    accepted = sum(many for name, many in came.items() if name.startswith(("answer", "no 40", "no 41")))
    refused = sum(many for name, many in came.items() if name.startswith(("no 2", "no 3")))
    print(f"of {accepted + refused} programs that came to be read {accepted} were accepted")
    lacking = [name for name in WANTED if came[name] * SHARE < cases]
    if lacking:
        print("too few of: " + ", ".join(lacking))
    print(f"seed {seed}: {cases} cases and {came['cut short']} that were cut short, {came['runs']} runs: no difference")
    return not lacking


def main():
    count, seed, first = begin(__doc__, 1000, 1, 0)
    came = Counter()
    same = deep(lambda: all(compare(seed, number, came) for number in range(first, first + count)))
    sys.exit(0 if same and told(seed, came) else 1)


if __name__ == "__main__":
    main()
