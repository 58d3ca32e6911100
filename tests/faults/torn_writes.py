#!/usr/bin/env python3
"""Each prefix of what commands write to a journal, torn in many ways: files that a loss of power may leave, and what is found on them.

usage: tests/faults/torn_writes.py [--mirror] [MORE [SEED [FOLDER]]]     (PROGRAM=FILE tries another build than tools/build's). Needs cc. MORE files torn
at random for each prefix, 4 unless said, beside the four of `MemDisk::after_stop`. FOLDER lies in memory, where there is such a place, unless said: what a
disk would lose is made here. With --mirror each torn file is tried on either of two disks: the second one has the records before then, and the first one
has the record that is being written.
The writes and syncs of the program on its own journal are recorded (tests/faults/fail_disk.c): those of an `init`, and of three runs, one behind
the other, with asks of the whole and of parts, of several analysts, refused and granted, the last by two workers; of one that opens the journal's next
area, by one worker and by two; and of such runs over journals of versions 1 and 2. What was synced stays. Of each later write up to the prefix's
end any bytes may be there, and the file may end anywhere between its old end and its new one:

- the old bytes and the old end; the new ones; 0xFF or 0xA5 in each place;
- at random: each write there or not; pieces of 16 bytes there or not, and sectors of 512 and of 4,096; any bytes; a cut anywhere.

Each such file is put in the journal's place. By a second reader (tools/journal.py) and the program itself:

- before an `init` is done the file is refused, by `audit` too, or it is a journal without records; behind it, it is one;
- behind that, every record whose gate was synced is there, and at most one more, the very one that was being written; `audit` counts them;
- a run recalls each number with what stands for it, says what is spent, and gives the next ask a number that is new.

It ends with status 1 at the first difference, and where some kind of file was never met.
"""
import hashlib
import os
import random
import struct
import subprocess
import sys
import tempfile
from collections import Counter

sys.path.insert(0, f"{os.path.dirname(os.path.abspath(__file__))}/../lib")
from places import TOP  # noqa: E402

PROGRAM = os.path.abspath(os.environ.get("PROGRAM", f"{TOP}/out/hitchseason"))
from catalog import catalog, owner, read  # noqa: E402
from mirrors import FLAG, opened  # noqa: E402
from journal import FIRST_SLOTS, VERSION_AT, VERSIONS, WHOLE, Book, Refused, Reservation, appended, book_of, contents, header, in_version, made  # noqa: E402

JOURNAL, MIRROR = "journals/0.bud", "mirrors/0.bud"
ANALYSTS = ("ann", "bob")
ASK = "ask census 0.5 size people"
PART = "askpart census area {} 0.25 size people"
# One behind the other on one journal, each by so many workers.
RUNS = (
    ("1", ["hello ann", ASK, PART.format("A"), "ask census 1 x", "ask census 999 size people", "hello bob", PART.format("B"), "left census"]),
    ("1", ["hello bob", "recall census 2", PART.format("A"), "hello ann", "ask census 1 0 * size people", ASK]),
    ("2", ["hello ann", ASK, PART.format("A"), "bye", "hello bob", PART.format("B"), ASK, "bye"]),
)
CAPACITY = 80
# So many records stand before a run that opens the next area, where the version has any.
FULL, FEW = FIRST_SLOTS - 2, 16
ONE, TWO = ["hello ann", ASK, ASK], ["hello ann", ASK, "bye", "hello bob", ASK, "bye"]
# Runs over journals that are laid: the version, how many work, and how many records there are.
LAID = ((3, 1, FULL), (3, 2, FULL), (2, 1, FULL), (2, 2, FULL), (1, 1, FEW), (1, 2, FULL))


class Wrong(Exception):
    pass


def calls_in(data):
    """The recorded calls: a write as its place and bytes, a sync as None."""
    found, at = [], 0
    while at < len(data):
        if data[at : at + 1] == b"S":
            found.append(None)
            at += 1
        else:
            place, size = struct.unpack_from("=QQ", data, at + 1)
            found.append((place, data[at + 17 : at + 17 + size]))
            at += 17 + size
    return found


def overlaid(file, place, data):
    """A file with these bytes at a place, and zeros between its end and the place."""
    return file[:place] + bytes(max(0, place - len(file))) + data + file[place + len(data) :]


def filled(file, place, data, byte):
    end = file + bytes([byte]) * max(0, place - len(file))
    return overlaid(end, place, bytes([byte]) * len(data))


def whole_or_not(rng, file, place, data):
    return overlaid(file, place, data) if rng.random() < 0.5 else file


def in_pieces(size):
    """Pieces of this many bytes of the file are the old ones or the new ones."""

    def torn(rng, file, place, data):
        new = bytearray(overlaid(file, place, data))
        for at in range(place - place % size, len(new), size):
            if rng.random() < 0.5:
                old = file[at : at + size]
                new[at : at + len(old)] = old
        return bytes(new)

    return torn


def any_bytes(rng, file, place, data):
    """In the range and behind the old end any bytes, mostly such as tell something."""
    new = overlaid(file, place, data)
    old = file.ljust(len(new), b"\0")
    torn = bytearray(new)
    for at in [*range(place, place + len(data)), *range(len(file), place)]:
        torn[at] = rng.choice((old[at], new[at], new[at], 0xA5, rng.randrange(256)))
    return bytes(torn)


def cut_off(rng, file, place, data):
    new = overlaid(file, place, data)
    return new[: rng.randint(len(file), len(new))]


AT_RANDOM = (whole_or_not, in_pieces(16), in_pieces(512), in_pieces(4096), any_bytes, cut_off)
STOPS = {
    "the old bytes": lambda file, place, data: file,
    "the new bytes": overlaid,
    "ones": lambda file, place, data: filled(file, place, data, 0xFF),
    "gates": lambda file, place, data: filled(file, place, data, 0xA5),
}


def files_after(before, calls, more, rng):
    """The files that a stop behind these calls may leave, of those that are tried, each with its kind."""
    stable, later = before, []
    for call in calls:
        if call is None:
            for one in later:
                stable = overlaid(stable, *one)
            later = []
        else:
            later.append(call)
    for kind, torn in STOPS.items():
        file = stable
        for one in later:
            file = torn(file, *one)
        yield kind, file
    for _ in range(more if later else 0):
        file = stable
        for one in later:
            file = rng.choice(AT_RANDOM)(rng, file, *one)
        yield "at random", file


class Room:
    def __init__(self, folder, library, mirrored):
        os.chdir(folder)
        os.mkdir("journals")
        if mirrored:
            os.mkdir("mirrors")
        self.came, self.tried, self.library, self.mirrored = Counter(), set(), f"{library}/fail.so", mirrored
        tables = (("people", "people.csv", (("town", "text"), ("age", "num"))),)
        whole = catalog(owner(tables=tables, budget=10_000_000, capacity=CAPACITY, partitions=(("area", "people", "town", ("A", "B")),)))
        for name, data in (("key", bytes(32)), ("cat.json", whole), ("people.csv", b"town,age\nA,20\nB,30\nA,40\n")):
            with open(name, "wb") as file:
                file.write(data)
        subprocess.run(["cc", "-O1", "-shared", "-fPIC", "-o", self.library, f"{TOP}/tests/faults/fail_disk.c", "-ldl"], check=True)
        self.head, self.entry = header(whole, 0, bytes(32), contents, VERSIONS[-1]), read(whole)["owners"][0]

    def ran(self, command, lines=(), workers=None, **given):
        if given:
            given["LD_PRELOAD"] = self.library
        script = "".join(f"{line}\n" for line in lines)
        # What is recorded are the writes of one disk; those of two are the same on each.
        two = [FLAG] if self.mirrored and not given else []
        words = [PROGRAM, command, *(["--workers", workers] if workers else []), *two, "cat.json", "key"]
        return subprocess.run(words, input=script, capture_output=True, text=True, env={**os.environ, **given})

    def recorded(self, command, lines=(), workers=None):
        """What is there before a command, and the calls by which it writes."""
        before = contents(JOURNAL) if os.path.exists(JOURNAL) else b""
        if os.path.exists("record"):
            os.remove("record")
        ran = self.ran(command, lines, workers, RECORD="record")
        if ran.returncode != 0:
            raise Wrong(f"{command} ended with {ran.returncode} and {ran.stdout!r}")
        calls = calls_in(contents("record"))
        after = before
        for call in calls:
            after = overlaid(after, *call) if call else after
        if after != contents(JOURNAL):
            raise Wrong(f"{command}: its recorded writes don't make the journal")
        return before, calls

    def lay(self, records, version):
        """The journal in the program's place is one of this version, with these records."""
        with open(JOURNAL, "wb") as file:
            file.write(appended(made(in_version(self.head, version), CAPACITY), CAPACITY, records))

    def filled(self, records, version, many):
        """So many records, these first; those behind them are lost and exhausted by turns."""
        book = Book(self.entry, ANALYSTS, version)
        assert all(book.add(record) for record in records)
        while len(book.records) < many:
            number = len(book.reserved)
            book.keep(Reservation(number, WHOLE, 1, 1, 1, 1, 0, bytes(32)))
            book.keep(book.settlement(number, 2 + number % 2))
        return book.records

    def book(self, file):
        return book_of(file, self.head, self.entry, ANALYSTS)

    def found(self, files):
        return opened(files, self.head, self.entry, ANALYSTS) if self.mirrored else self.book(files[0])

    def other(self, records, version):
        """The file of the other disk, which was made and has these records."""
        return appended(made(in_version(self.head, version), CAPACITY), CAPACITY, map(Encoded, records))

    def disks(self, file, synced, records, there, version):
        """A torn file, by itself or on either of two disks."""
        if not self.mirrored:
            return [(file,)]
        return [(file, self.other(records[:synced], version) if there else b""), (self.other(records[: synced + there], version), file)]


class Encoded:
    def __init__(self, data):
        self.data = data

    def encoded(self):
        return self.data


def judge(room, files, synced, next_ones, made):
    """A file, or two, on which this many records were synced, of those that there are in the end; `made` says whether the `init` had ended."""
    for name, file in zip((JOURNAL, MIRROR), files):
        with open(name, "wb") as out:
            out.write(file)
    said = room.ran("audit")
    try:
        book = room.found(files)
    except Refused as refusal:
        if made:
            raise Wrong(f"the file is refused: {refusal}") from None
        if (said.returncode, said.stdout) != (4, f"journal census {refusal}\n"):
            raise Wrong(f"audit said {said.stdout!r}, wanted {refusal}") from None
        room.came["no journal yet"] += 1
        return
    if (said.returncode, said.stdout) != (0, book.counts() + "\n"):
        raise Wrong(f"audit said {said.stdout!r}, wanted {book.counts()}")
    found = [record.encoded() for record in book.records]
    if not made and found:
        raise Wrong(f"{len(found)} records before there was a journal")
    if found != next_ones[: len(found)] or not synced <= len(found) <= synced + 1:
        raise Wrong(f"{len(found)} records, of which {synced} were synced")
    room.came["one record more" if len(found) > synced else "the synced records"] += 1
    goes_on(room, book)


def goes_on(room, book):
    """What a run is told: of each number, of what is left, and of one ask more."""
    seen, lines, due = len(book.records), [], []
    for number in range(len(book.reserved) + 1):
        analyst = book.reserved[number].analyst if number < len(book.reserved) else 0
        lines += [f"hello {ANALYSTS[analyst]}", f"recall census {number}"]
        settled = book.settled.get(number)
        standing = settled.standing() if settled else "lost"
        due += [f"hello {ANALYSTS[analyst]}", f"recall {number} {standing} {seen}" if number < len(book.reserved) else f"no 60 {number} {seen}"]
    told = room.ran("run", [*lines, "left census", ASK]).stdout.splitlines()
    due.append(f"left {book.spent} {room.entry['budget']} {seen}")
    if told[:-1] != due or told[-1].split()[:2] != ["answer", str(len(book.reserved))]:
        raise Wrong(f"a run is told {told}, wanted {due} and number {len(book.reserved)}")


def synced_records(pairs, known, records, version):
    """How many records stand behind so many pairs of syncs. A record is its body and its gate, each of them synced, and so is an area."""
    opens = version > 1 and known <= FIRST_SLOTS < len(records) and known + pairs > FIRST_SLOTS
    return known + pairs - opens


def tried(room, name, before, calls, records, known, more, rng):
    """Each prefix of the calls of a command, torn; `known` records were there before it. How many files there were."""
    there, count, version = name != "init", 0, before[VERSION_AT] if before else VERSIONS[-1]
    for end in range(len(calls) + 1):
        synced = synced_records(calls[:end].count(None) // 2, known, records, version) if there else 0
        for kind, file in files_after(before, calls[:end], more, rng):
            mark = (hashlib.sha256(file).digest(), synced)
            if mark in room.tried:
                continue
            room.tried.add(mark)
            count += 1
            room.came[kind] += 1
            try:
                for files in room.disks(file, synced, records, there, version):
                    judge(room, files, synced, records, there or end == len(calls))
            except Wrong as fault:
                raise Wrong(f"{name}, {end} of {len(calls)} calls, {kind}: {fault}") from None
            room.came[f"version {version}"] += 1
            room.came["an area without its gate"] += there and version > 1 and len(file) > len(before) and file[97] == 0
            room.came["an area that was opened"] += there and version > 1 and file[97] != before[97]
    return count


def steps(room):
    """The commands: each with the journal before it, its calls, and the records that there are in the end."""
    found = [("init", *room.recorded("init"))] + [(f"run {k}", *room.recorded("run", lines, workers)) for k, (workers, lines) in enumerate(RUNS, 1)]
    whole = room.book(contents(JOURNAL)).records
    yield from ((*step, whole) for step in found)
    for version, workers, many in LAID:
        room.lay(room.filled(whole, version, many), version)
        step = room.recorded("run", *((TWO, "2") if workers == 2 else (ONE, None)))
        name = f"a run{' that opens an area' * (many == FULL and version > 1)} over version {version}, {workers} at work"
        yield name, *step, room.book(contents(JOURNAL)).records


MET = [*STOPS, *(f"version {version}" for version in VERSIONS), "at random", "no journal yet", "the synced records", "one record more",
    "an area without its gate", "an area that was opened"]  # fmt: skip


def main():
    if "PROGRAM" not in os.environ:
        subprocess.run([f"{TOP}/tools/build"], check=True)
    mirrored = sys.argv[1:2] == ["--mirror"]
    words = sys.argv[1 + mirrored :]
    more = int(words[0]) if words else 4
    rng = random.Random(int(words[1]) if len(words) > 1 else 1)
    place = words[2] if len(words) > 2 else "/dev/shm" if os.access("/dev/shm", os.W_OK) else None
    with tempfile.TemporaryDirectory(dir=place) as folder, tempfile.TemporaryDirectory() as library:
        room = Room(folder, library, mirrored)
        try:
            for name, before, calls, records in list(steps(room)):
                # The first sync of a run is its opening's.
                calls = calls if name == "init" else calls[calls.index(None) + 1 :]
                known, records = 0 if name == "init" else len(room.book(before).records), [record.encoded() for record in records]
                print(f"{name}: {len(calls)} calls, {tried(room, name, before, calls, records, known, more, rng)} files", flush=True)
        except Wrong as fault:
            sys.exit(f"WRONG: {fault}")
        os.chdir(TOP)
    print(", ".join(f"{kind} {many}" for kind, many in sorted(room.came.items())))
    lacking = [kind for kind in MET if not room.came[kind] and (more or kind != "at random")]
    if lacking:
        sys.exit("never met: " + ", ".join(lacking))


main()
