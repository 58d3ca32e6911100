#!/usr/bin/env python3
"""Random files on two disks, of all versions, opened by the program (`--mirror`) and by the second reader (tools/lib/mirrors.py): the same counts, or the
same refusal with its place; and both files as they must be then.

usage: tests/comparisons/compare_mirrors.py [COUNT [SEED [FIRST]]]     2,000 cases, unless said, from case FIRST (0) of SEED (1) on (PROGRAM=FILE compares
another build than tools/build's)
Each case is one of compare_journals.py, whose journals are whole or spoilt. Next to each owner's file lies the same one; one with fewer records, in the same
version or another; one that goes on with other records; one of no byte, or none; another random one; or the same one, spoilt. Which is in `journals` is
left to chance.

- `audit --mirror` writes the counts of each, with status 0, or with 4 the first refusal. The file with fewer records then has all, byte for byte as a
  server writes them; files that are refused, and those of later owners, are as they were.
- Where all open, the program goes on with a few asks, or with a grant, as the second server (tools/reference.py), on both files.
It ends with status 1 at the first difference, with the case kept in out/compare_journals, and where some kind was never met.
"""
import os
import random
import shutil
import sys
import tempfile
import time
from collections import Counter

sys.path.insert(0, f"{os.path.dirname(os.path.abspath(__file__))}/../lib")
from places import TOP  # noqa: E402
from beginning import begin  # noqa: E402
from compare_journals import ASKS, KEPT, SPOILS, Case, Differs  # noqa: E402
from journal import HEAD, VERSION_AT, VERSIONS, Book, Refused, appended, areas, book_of, contents, live_area, made, slots, version_of  # noqa: E402
from mirrors import FLAG, FOLDERS, opened  # noqa: E402
from random_scripts import amount_at_random, reservation_at_random  # noqa: E402
from reference import Server, grant_by_words, key_words  # noqa: E402


class Two(Case):
    more_words = (FLAG,)

    def __init__(self, rng, came):
        super().__init__(rng, came)
        os.mkdir("mirrors")
        self.pairs = [self.pair(order, data) for order, data in enumerate(self.journals)]
        for order, pair in enumerate(self.pairs):
            for name, data in zip(FOLDERS, pair):
                os.path.exists(f"{name}/{order}.bud") and os.remove(f"{name}/{order}.bud")
                if data is not None:
                    self.file(f"{name}/{order}.bud", data)

    def pair(self, order, data):
        """A file, and another one, in either order."""
        way = self.rng.choice([self.alike, self.alike, self.shorter, self.shorter, self.shorter, self.forked, self.nothing, self.journal, self.spoilt])
        self.came[f"beside: {way.__name__}"] += 1
        found = [data, way(order) if way == self.journal else way(order, data)]
        self.rng.shuffle(found)
        return found

    def alike(self, order, data):
        return data

    def nothing(self, order, data):
        return self.rng.choice([None, b""])

    def records(self, order, data):
        try:
            return book_of(data, self.head(order), self.entries[order], self.analysts).records
        except Refused:
            return None

    def of(self, order, data, records):
        """A journal of these records, in a version that may stand beside the file's, mostly."""
        version = version_of(data)
        if self.rng.random() < 0.4:
            version = self.rng.choice(VERSIONS if self.rng.random() < 0.2 else [3] if version == 3 else [1, 2])
        return appended(made(self.head(order, version), self.entries[order]["capacity"]), self.entries[order]["capacity"], records)

    def shorter(self, order, data):
        records = self.records(order, data)
        return data if records is None else self.of(order, data, records[: self.rng.randint(0, len(records))])

    def forked(self, order, data):
        records = self.records(order, data)
        if records is None:
            return data
        kept = records[: self.rng.randint(0, min(len(records), self.entries[order]["capacity"] - 1))]
        book = Book(self.entries[order], self.analysts, version_of(data))
        for one in kept:
            book.keep(one)
        return self.of(order, data, [*kept, reservation_at_random(self.rng, book)])

    def spoilt(self, order, data):
        data = bytearray(data)
        capacity = self.entries[order]["capacity"]
        area = live_area(data, capacity) if len(data) >= HEAD else areas(2, capacity)[0]
        if data and area.number < len(areas(version_of(data) if len(data) > VERSION_AT else 2, capacity)):
            self.rng.choice(SPOILS)(self.rng, data, area)
        return bytes(data)

    def found(self):
        for order, (pair, entry) in enumerate(zip(self.pairs, self.entries)):
            try:
                yield opened([data or b"" for data in pair], self.head(order), entry, self.analysts)
            except Refused as refusal:
                yield refusal

    def compared(self):
        books = list(self.found())
        refused = [(entry["name"], book) for entry, book in zip(self.entries, books) if isinstance(book, Refused)]
        due = (4, f"journal {refused[0][0]} {refused[0][1]}\n", b"") if refused else (0, "".join(f"{book.counts()}\n" for book in books), b"")
        said = self.ran("audit")
        if said != due:
            raise Differs(f"audit: {said}, and by the second reader {due}")
        first = next((order for order, book in enumerate(books) if isinstance(book, Refused)), len(books))
        for order, book in enumerate(books[:first]):
            self.goes_on_with(order, book.records)
        self.same_pairs("audit")
        self.came.update(f"refused: {str(book).split()[0]}" for book in books if isinstance(book, Refused))
        self.came["opened"] += not refused
        if not refused and self.rng.random() < 0.5:
            self.asks(books)
        elif not refused:
            self.is_granted(books)

    def goes_on_with(self, order, records):
        """Each file that is there has all these records now."""
        for at, data in enumerate(self.pairs[order]):
            if data:
                known, capacity = len(slots(data, self.entries[order]["capacity"])), self.entries[order]["capacity"]
                self.came["levelled"] += known < len(records)
                self.pairs[order][at] = appended(data, capacity, records[known:])

    def same_pairs(self, what):
        for order, pair in enumerate(self.pairs):
            for name, data in zip(FOLDERS, pair):
                path = f"{name}/{order}.bud"
                if (contents(path) if os.path.exists(path) else b"") != (data or b""):
                    raise Differs(f"{name}/{order}.bud isn't as it should be behind {what}")

    def asks(self, books):
        names = [entry["name"] for entry in self.entries]
        lines = [f"hello {self.rng.choice(self.analysts)}", *(self.rng.choice(ASKS).format(self.rng.choice(names)) for _ in range(self.rng.randint(1, 6)))]
        server = Server(self.house, key_words(self.key), books)
        due = "".join(f"{server.reply(line.encode())}\n" for line in lines)
        said = self.ran("run", "".join(f"{line}\n" for line in lines).encode())
        if said != (0, due, b""):
            raise Differs(f"run: {said}, and by the second server {due!r}")
        for order, one in enumerate(server.owners.values()):
            self.goes_on_with(order, [*books[order].records, *one.added])
        self.same_pairs("run")
        self.came["runs that go on"] += 1

    def is_granted(self, books):
        order = self.rng.randrange(len(books))
        word = amount_at_random(self.rng, books[order])
        status, due, records = grant_by_words(books[order], word)
        said = self.ran("grant", words=(self.entries[order]["name"], word))
        if said != (status, due, b""):
            raise Differs(f"grant {word}: {said}, and {(status, due)} is due")
        self.goes_on_with(order, [*books[order].records, *records])
        self.same_pairs("grant")
        self.came[f"a grant that ends with {status}"] += 1


def compare(seed, number, came):
    """Whether a case's two sides are the same."""
    with tempfile.TemporaryDirectory(dir="/dev/shm" if os.path.isdir("/dev/shm") else None) as room:
        os.chdir(room)
        try:
            Two(random.Random(f"mirrors {seed} {number}"), came).compared()
            return True
        except Differs as fault:
            print(f"case {number} of seed {seed}: {fault}")
            shutil.rmtree(f"{KEPT}/mirrors-{seed}-{number}", ignore_errors=True)
            shutil.copytree(room, f"{KEPT}/mirrors-{seed}-{number}")
            print(f"kept in {KEPT}/mirrors-{seed}-{number}")
            return False
        finally:
            os.chdir(TOP)


WANTED = ["opened", "levelled", "runs that go on", *(f"refused: {word}" for word in ("changed", "damaged", "forked", "uninitialised")),
    *(f"beside: {way}" for way in ("alike", "shorter", "forked", "nothing", "journal", "spoilt"))]  # fmt: skip


def main():
    count, seed, first = begin(__doc__, 2000, 1, 0)
    came, begun = Counter(), time.monotonic()
    if not all(compare(seed, number, came) for number in range(first, first + count)):
        sys.exit(1)
    print(", ".join(f"{what} {came[what]}" for what in sorted(came) if what in WANTED or what.startswith("a grant")))
    lacking = [what for what in WANTED if not came[what]]
    if lacking and count >= 500:
        print("never met: " + ", ".join(lacking))
        sys.exit(1)
    print(f"{count} cases of two disks, seed {seed}, in {time.monotonic() - begun:.0f} s: no difference")


if __name__ == "__main__":
    main()
