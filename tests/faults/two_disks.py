#!/usr/bin/env python3
"""A journal on two disks (`--mirror`): what is said and left where either disk fails, lags, is gone, is damaged or has other records.

usage: tests/faults/two_disks.py [--quick]    (PROGRAM=FILE tries another build than tools/build's). Needs cc. --quick tries every third call of all runs
but the first.
Rows are worked out by hand and judged by a second reader, too (tools/lib/mirrors.py), which shares nothing with the program but the rules:

- `init` makes both files or says why not: a file with bytes on either disk, the first before the second; a disk that fails; a link to nothing;
- either disk or both damaged, changed, with a closed header, empty, gone, held by a process, with other records (`forked`), of other versions;
- a side that lags is brought up, by an `audit` too, over areas too; a record that may not follow is never copied;
- each call of an ask on either disk fails, alone and with all later ones: the reply is that of a run whose disks are sound. Opened again with both, both
  have all records. The same of a script, of a grant and of a service, over journals of each version, also where an area is opened;
- each call on both disks fails with all later ones: 52, 42 and 6 come, and whatever was acknowledged is found again;
- the process is killed at each call: either disk alone and both together open with what was acknowledged;
- where a disk is gone and the other one fails, 52 and 42 come;
- a service whose disk failed, or whose file was moved away, answers all the same, and tools/watch says of a copy which side lags; tools/mirror makes a
  second file, of a journal that no process holds;
- a file is written and synced whole before the other one, and so is each record.

It ends with status 1 at the first difference.
"""
import fcntl
import os
import shutil
import subprocess
import sys
import tempfile
from collections import Counter

sys.path.insert(0, f"{os.path.dirname(os.path.abspath(__file__))}/../lib")
from places import TOP  # noqa: E402

PROGRAM = os.path.abspath(os.environ.get("PROGRAM", f"{TOP}/out/hitchseason"))
from catalog import census, read  # noqa: E402
from journal import HEAD, SLOT, VERSIONS, WHOLE, Grant, Refused, Reservation, Settlement, appended, book_of, contents, header, in_version, made  # noqa: E402
from mirrors import FLAG, FOLDERS, JOURNALS, MIRRORS, opened, side  # noqa: E402
from served import Caller, Service, Wrong  # noqa: E402

E = 10**6
ASK = "ask census 1 size people"
ONE_ASK = ["hello ann", ASK, "bye"]
ANSWERED = ["hello ann", "answer 0 5 1000000", "bye"]
DISK = (6, "disk census\n")
CAPACITY = 100
# Reservation and settlement of the one-ask script, and of a second one that nobody asked.
FIRST = [Reservation(0, WHOLE, E, 1, 1, E, 0, bytes(32)), Settlement(0, 1, 5)]
OTHER = [Reservation(0, WHOLE, 2 * E, 1, 1, 2 * E, 1, bytes(32)), Settlement(0, 3)]
OVER = Reservation(1, WHOLE, 10 * E, 1, 1, 10 * E, 0, bytes(32))
LAST = [Reservation(31, WHOLE, 1, 1, 1, 1, 0, bytes(32)), Settlement(31, 3)]
STOPPED, UNEVEN = Reservation(1, WHOLE, E, 1, 1, E, 0, bytes(32)), Reservation(5, WHOLE, E, 1, 1, E, 0, bytes(32))


def lines(script):
    return "".join(f"{line}\n" for line in script)


class Room:
    """A folder with a house of one owner, whose journals are laid anew for each try."""

    def __init__(self, folder, library):
        os.chdir(folder)
        self.folder, self.library, self.came, self.tried, self.more_words = folder, f"{library}/fail.so", Counter(), 0, [FLAG]
        for name, data in (("key", bytes(32)), ("catalog.json", census()), ("people.csv", b"age\n20\n30\n40\n")):
            with open(name, "wb") as file:
                file.write(data)
        subprocess.run(["cc", "-O1", "-shared", "-fPIC", "-o", self.library, f"{TOP}/tests/faults/fail_disk.c", "-ldl"], check=True)
        self.head, self.entry = header(census(), 0, bytes(32), contents, VERSIONS[-1]), read(census())["owners"][0]
        self.other_head = header(census(), 0, bytes([1] * 32), contents, VERSIONS[-1])

    def empty(self):
        for name in FOLDERS:
            if os.path.islink(name):
                os.unlink(name)
            shutil.rmtree(name, ignore_errors=True)

    def lay(self, *sides):
        """The files of both disks, None for one that isn't there."""
        self.empty()
        for name, data in zip(FOLDERS, sides):
            os.mkdir(name)
            if data is not None:
                with open(f"{name}/0.bud", "wb") as file:
                    file.write(data)

    def journal(self, records=(), version=VERSIONS[-1], head=None):
        return appended(made(in_version(head or self.head, version), CAPACITY), CAPACITY, records)

    def ran(self, command, script="", words=(), mirror=True, **faults):
        given = {**os.environ, **faults, **({"LD_PRELOAD": self.library} if faults else {})}
        words = [PROGRAM, command, "catalog.json", "key", *words, *([FLAG] if mirror else [])]
        self.tried += 1
        return subprocess.run(words, input=script, capture_output=True, text=True, env=given)

    def said(self, *words, **more):
        ran = self.ran(*words, **more)
        return ran.returncode, ran.stdout

    def sides(self):
        return [side(f"{name}/0.bud") for name in FOLDERS]

    def both(self):
        return opened(self.sides(), self.head, self.entry, range(2))

    def records(self):
        """The records of each disk, by itself."""
        return [[one.encoded() for one in book_of(data, self.head, self.entry, range(2)).records] for data in self.sides()]

    def level(self, what):
        """An audit over both disks, sound, counts what the second reader finds, and leaves both with all of it."""
        due = self.both()
        must(f"{what}: audit", self.said("audit"), (0, due.counts() + "\n"))
        first, second = self.records()
        must(f"{what}: each disk has all records", (first, second), ([one.encoded() for one in due.records],) * 2)
        return due


def must(what, found, wanted):
    if found != wanted:
        raise Wrong(f"{what}: {found!r}, wanted {wanted!r}")


# What a file may be.


def damaged(data, slot=0):
    place = HEAD + SLOT * slot
    return data[: place + 1] + b"\7" + data[place + 2 :]


def closed(data):
    return b"\0" + data[1:]


def refusals(room):
    """Files of the first and the second disk, and what `audit`, `run` and `grant` say of them; nothing is written."""
    one, more, other = room.journal(FIRST), room.journal([*FIRST, STOPPED]), room.journal(OTHER)
    changed, newer, older, oldest = room.journal(FIRST, head=room.other_head), room.journal(FIRST), room.journal(FIRST, 2), room.journal(FIRST, 1)
    over = room.journal([*FIRST, OVER])
    return {
        "both empty": (None, None, "uninitialised 0"),
        "both of no byte": (b"", b"", "uninitialised 0"),
        "none there, and one of no byte": (None, b"", "uninitialised 0"),
        "the first damaged": (damaged(one), one, "damaged 0"),
        "the second damaged": (one, damaged(one, 1), "damaged 1"),
        "both damaged": (damaged(one, 1), damaged(one), "damaged 1"),
        "the first damaged, the second changed": (damaged(one), changed, "damaged 0"),
        "the first changed": (changed, one, "changed"),
        "the second changed": (one, changed, "changed"),
        "the first changed, the second with a closed header": (changed, closed(one), "changed"),
        "the first with a closed header": (closed(one), one, f"uninitialised {len(one)}"),
        "the second with a closed header": (one, closed(one)[:99], "uninitialised 99"),
        "one empty and one damaged": (None, damaged(one), "damaged 0"),
        "one damaged and one empty": (damaged(one, 1), b"", "damaged 1"),
        "slot 0 differs": (one, other, "forked 0"),
        "slot 0 differs, and the second has more": (other, more, "forked 0"),
        "slot 2 differs": (more, room.journal([*FIRST, Grant(0, E)]), "forked 2"),
        "version 3 beside 2": (newer, older, "changed"),
        "version 2 beside 3": (older, newer, "changed"),
        "version 3 beside 1": (newer, oldest, "changed"),
        "a record that may not follow, of the second": (one, over, "damaged 2"),
        "a record that may not follow, of the first": (over, one, "damaged 2"),
        "a record that may not follow, of both": (over, over, "damaged 2"),
        "a record that may not follow, and the second damaged": (over, damaged(one), "damaged 0"),
        "a number that may not follow": (room.journal(), room.journal([UNEVEN]), "damaged 0"),
    }  # fmt: skip


def refused(room):
    for name, (first, second, why) in refusals(room).items():
        room.lay(first, second)
        before = room.sides()
        try:
            room.both()
            raise Wrong(f"{name}: the second reader opens it")
        except Refused as refusal:
            must(f"{name}: the second reader", str(refusal), why)
        due = (4, f"journal census {why}\n")
        for command, words in (("audit", ()), ("run", ()), ("grant", ("census", "1"))):
            must(f"{name}: {command}", room.said(command, lines(ONE_ASK), words), due)
            must(f"{name}: the files behind {command}", room.sides(), before)


def stands(path):
    """What is in a place: the bytes of a file, or whether there is anything else."""
    return contents(path) if os.path.isfile(path) else os.path.lexists(path)


def gone(room):
    """One disk's file isn't there, is empty, can't be opened or lies behind a link to nothing: the other is used alone, and nothing is made in its place."""
    one = room.journal(FIRST)
    counts = (0, "census reservations 1 answered 1 exhausted 0 lost 0 spent 1000000 budget 10000000\n")
    for at, name in enumerate(FOLDERS):
        sound = FOLDERS[1 - at]
        for what, spoil in {
            "isn't there": lambda: os.remove(f"{name}/0.bud"),
            "is empty": lambda: os.truncate(f"{name}/0.bud", 0),
            "is a folder": lambda: (os.remove(f"{name}/0.bud"), os.mkdir(f"{name}/0.bud")),
            "has no folder": lambda: shutil.rmtree(name),
            "is behind a link to nothing": lambda: (shutil.rmtree(name), os.symlink("nothing", name)),
        }.items():
            room.lay(one, one)
            spoil()
            before = stands(f"{name}/0.bud"), os.path.exists("nothing")
            must(f"{name} {what}: audit", room.said("audit"), counts)
            must(f"{name} {what}: run", room.said("run", lines(["hello ann", ASK]))[0], 0)
            must(f"{name} {what}: grant", room.said("grant", words=("census", "5")), (0, "granted census 10000005 5\n"))
            must(f"{name} {what}: nothing is made", (stands(f"{name}/0.bud"), os.path.exists("nothing")), before)
            must(f"{name} {what}: {sound} has all", len(book_of(side(f"{sound}/0.bud"), room.head, room.entry, range(2)).records), 5)


def faults(room):
    """One empty and one failing, both failing, and one that a process has: 6, and nothing is written."""
    one = room.journal(FIRST)
    for what, sides, given in (
        ("the first empty, the second failing", (b"", one), {"ONLY": MIRRORS}),
        ("the second not there, the first failing", (one, None), {"ONLY": JOURNALS}),
        ("both failing", (one, one), {}),
    ):
        for command, words in (("audit", ()), ("run", ()), ("grant", ("census", "1"))):
            room.lay(*sides)
            before = room.sides()
            must(f"{what}: {command}", room.said(command, lines(ONE_ASK), words, FAIL="1", FAIL_ALL="1", **given), DISK)
            must(f"{what}: the files behind {command}", room.sides(), before)
    for name in FOLDERS:
        for command, words in (("audit", ()), ("run", ()), ("grant", ("census", "1"))):
            room.lay(one, one)
            with open(f"{name}/0.bud", "r+b") as file:
                fcntl.flock(file, fcntl.LOCK_EX)
                must(f"{name}/0.bud is held: {command}", room.said(command, lines(ONE_ASK), words), DISK)
            must(f"{name}/0.bud is held: the files", room.sides(), [one, one])
    room.lay(one, None)
    os.mkdir(f"{MIRRORS}/0.bud")
    with open(f"{JOURNALS}/0.bud", "r+b") as file:
        fcntl.flock(file, fcntl.LOCK_EX)
        must("one held, and one a folder", room.said("audit"), DISK)


def makings(room):
    """`init`: both are made alike; or neither is written where either has bytes; or a disk fails."""
    made_line = (0, "owner census budget 10000000 capacity 100\n")
    room.empty()
    must("init", room.said("init"), made_line)
    must("init leaves both", room.sides(), [room.journal(), room.journal()])
    must("modes", [oct(os.stat(path).st_mode & 0o777) for name in FOLDERS for path in (name, f"{name}/0.bud")], ["0o700", "0o600"] * 2)
    must("init once more", room.said("init"), (4, "journal census exists 4224\n"))
    room.lay(b"", b"")
    must("init of files without bytes", room.said("init"), made_line)
    for what, sides, length in (("the first", (b"x", None), 1), ("the second", (None, b"xy"), 2), ("each", (b"x", b"xy"), 1), ("the second alone", (b"", b"xyz"), 3)):
        room.lay(*sides)
        before = room.sides()
        must(f"init where {what} has bytes", room.said("init"), (4, f"journal census exists {length}\n"))
        must(f"init where {what} has bytes: nothing is written", room.sides(), before)
    for name in FOLDERS:
        room.empty()
        os.symlink("nothing", name)
        must(f"init where {name} is a link to nothing", (*room.said("init"), os.path.exists("nothing")), (*DISK, False))
    room.empty()
    os.mkdir("elsewhere")
    os.symlink("elsewhere", MIRRORS)
    must("init where mirrors is a link to a folder", room.said("init"), made_line)
    must("both are there, behind the link too", room.sides(), [room.journal(), room.journal()])
    os.unlink(MIRRORS)
    shutil.rmtree("elsewhere")
    of_init(room)


def of_init(room):
    """Each call of `init` on either disk fails, and is the one at which it is killed: 6, and never a journal with records."""
    for name in FOLDERS:
        room.empty()
        count = int(room.ran("init", ONLY=name, TELL="1").stderr)
        for given in ({"FAIL": ""}, {"FAIL": "", "FAIL_ALL": "1"}, {"STOP": ""}):
            for call in range(1, count + 1):
                room.empty()
                said = room.said("init", ONLY=name, **{word: value or str(call) for word, value in given.items()})
                must(f"init, call {call} of {count} on {name}, {given}", said, (-9, "") if "STOP" in given else DISK)
                try:
                    must(f"init, call {call} on {name}: records", room.both().records, [])
                except Refused as refusal:
                    must(f"init, call {call} on {name}: audit", room.said("audit"), (4, f"journal census {refusal}\n"))


def usages(room):
    """Commands that have the flag, and those that haven't."""
    with open("query", "w") as file:
        file.write("size people")
    room.lay(room.journal(), room.journal())
    must("the flag in front", subprocess.run([PROGRAM, "audit", FLAG, "catalog.json", "key"], capture_output=True, text=True).returncode, 0)
    for words in (["check", "catalog.json", "census", "query"], ["gap", "catalog.json", "census", "catalog.json", "query"], ["gen", "0", "1"]):
        must(f"{words[0]} alone", subprocess.run([PROGRAM, *words], capture_output=True).returncode, 0)
        ran = subprocess.run([PROGRAM, *words, FLAG], capture_output=True, text=True)
        must(f"{words[0]} {FLAG}", (ran.returncode, ran.stdout), (2, "usage\n"))
    for words in ([FLAG, FLAG], [f"{FLAG}=yes"], ["--mirrors"]):
        ran = subprocess.run([PROGRAM, "audit", "catalog.json", "key", *words], capture_output=True, text=True)
        must(f"audit {words}", (ran.returncode, ran.stdout), (2, "usage\n"))


def levelled(room):
    """A side that lags gets what it lacks, by an `audit` too; both go on in their own version."""
    many = [one for number in range(32) for one in (Reservation(number, WHOLE, 1000, 1, 1, 1000, 0, bytes(32)), Settlement(number, 1, number))]
    many.append(Reservation(32, WHOLE, 1000, 1, 1, 1000, 0, bytes(32)))
    for what, long, short, versions in (
        ("a settlement", FIRST, FIRST[:1], (3, 3)),
        ("all", FIRST, [], (3, 3)),
        ("a grant", [*FIRST, Grant(0, 5)], FIRST, (3, 3)),
        ("an area", many, many[:9], (3, 3)),
        ("a record of the next area", many, many[:64], (3, 3)),
        ("some, version 1 beside 2", many, many[:63], (1, 2)),
        ("some, version 2 beside 1", many, many[:63], (2, 1)),
        ("some, both of version 1", FIRST, FIRST[:1], (1, 1)),
    ):
        for command, words, script in (("audit", (), ""), ("run", (), lines(["hello ann", "bye"])), ("grant", ("census", "7"), "")):
            for at in range(2):
                heads = versions[:: -1 if at else 1]
                sides = [room.journal(records, version) for records, version in zip((short, long)[:: -1 if at else 1], heads)]
                room.lay(*sides)
                must(f"{what} lacks: {command}", room.said(command, script, words)[0], 0)
                more = [Grant(sum(isinstance(one, Grant) for one in long), 7)] if command == "grant" else []
                due = [appended(data, CAPACITY, [*lacking, *more]) for data, lacking in zip(sides, ((long[len(short) :], [])[:: -1 if at else 1]))]
                must(f"{what} lacks on disk {at}: what {command} leaves", [data == wanted for data, wanted in zip(room.sides(), due)], [True, True])
                room.came["levelled"] += 1


# Calls that fail.


class Ask:
    """A command over journals on two disks: what it is told where no disk fails, and which calls are those behind its opening."""

    def __init__(self, room, name, records, versions, command="run", script=(), words=()):
        self.room, self.name, self.command, self.script, self.words = room, name, command, lines(script), words
        self.before = [room.journal(records, version) for version in versions]
        room.lay(*self.before)
        self.found = len(room.both().records)
        self.due = room.said(command, self.script, words)
        self.left = [one.encoded() for one in room.both().records]
        must(f"{name}: sound", self.due[0], 0)
        self.calls = {}
        for only in (*FOLDERS, ""):
            room.lay(*self.before)
            opening = int(room.ran("audit", ONLY=only, TELL="1").stderr)
            room.lay(*self.before)
            self.calls[only] = opening, int(room.ran(command, self.script, words, ONLY=only, TELL="1").stderr)

    def told(self, only, call, **faults):
        self.room.lay(*self.before)
        return self.room.said(self.command, self.script, self.words, ONLY=only, **{name: value or str(call) for name, value in faults.items()})

    def on_one_disk(self, step):
        """Each call on either disk, alone and with all later ones: nobody notices."""
        for only in FOLDERS:
            opening, count = self.calls[only]
            for faults in ({"FAIL": ""}, {"FAIL": "", "FAIL_ALL": "1"}):
                for call in range(1, count + 1, step):
                    what = f"{self.name}: call {call} of {count} ({opening} in its opening) on {only}, {faults}"
                    must(what, self.told(only, call, **faults), self.due)
                    sound = FOLDERS[only == JOURNALS]
                    book = book_of(side(f"{sound}/0.bud"), self.room.head, self.room.entry, range(2))
                    must(f"{what}: {sound} has all", [one.encoded() for one in book.records], self.left)
                    self.room.level(what)
                    self.room.came[f"{self.command}: one disk failed {'in its opening' if call <= opening else 'behind it'}"] += 1

    def on_both(self, step):
        """Each call of either and all later ones of both: 52 and 42, or 6."""
        opening, count = self.calls[""]
        for call in range(1, count + 1, step):
            what = f"{self.name}: call {call} of {count} on both"
            status, told = self.told("", call, FAIL="", FAIL_ALL="1")
            if status == 6:
                must(what, (told, call <= opening or self.command == "grant"), ("disk census\n", True))
            else:
                must(f"{what}: status", status, 0)
            self.acknowledged(what, told)
            self.room.came[f"{self.command}: both failed, status {status}"] += 1
            self.room.came["no 52, and then no 42"] += "no 52\nno 42 1\n" in told

    def acknowledged(self, what, told):
        """All that stood before and all that was answered is found, and of the ask or grant that failed at most what it adds. Of a run that was killed nothing
        is told."""
        records = self.room.level(what).records
        must(f"{what}: the records", [one.encoded() for one in records], self.left[: len(records)])
        least = self.found + 2 * told.count("answer ")
        if len(records) < least or (told and len(records) > least + 2):
            raise Wrong(f"{what}: {len(records)} records, and {least} were acknowledged")

    def killed(self, step):
        """Killed at each call: each disk by itself opens, and both together do."""
        count = self.calls[""][1]
        for call in range(1, count + 1, step):
            what = f"{self.name}: killed at call {call} of {count}"
            must(what, self.told("", call, STOP=""), (-9, ""))
            for name in FOLDERS:
                found = [one.encoded() for one in book_of(side(f"{name}/0.bud"), self.room.head, self.room.entry, range(2)).records]
                must(f"{what}: {name}", found, self.left[: len(found)])
            self.acknowledged(what, "")
            self.room.came[f"{self.command}: killed"] += 1


def calls(room, step):
    """The calls of commands over two disks. Every one of the first is tried."""
    many = [one for number in range(31) for one in (Reservation(number, WHOLE, 1000, 1, 1, 1000, 0, bytes(32)), Settlement(number, 1, number))]
    asks = ["hello ann", "ask census 0.1 size people", "ask census 0.1 size people", "ask census 0.1 size people", "left census"]
    one = Ask(room, "one ask", [], (3, 3), script=ONE_ASK)
    must("one ask", one.due, (0, lines(ANSWERED)))
    must("one ask: two slots", len(one.left), 2)
    tries = [
        (one, 1),
        (Ask(room, "asks that open an area", many, (3, 3), script=asks), step),
        (Ask(room, "asks over versions 1 and 2", many, (1, 2), script=asks), step),
        (Ask(room, "asks over versions 2 and 1", FIRST, (2, 1), script=asks), step),
        (Ask(room, "a grant", FIRST, (3, 3), "grant", words=("census", "500000")), step),
        (Ask(room, "a grant that opens an area", [*many, *LAST], (3, 3), "grant", words=("census", "1")), step),
        (Ask(room, "an audit", FIRST, (3, 3), "audit"), 1),
        (Ask(room, "a run by two workers", FIRST, (3, 3), script=["hello ann", ASK, "bye"], words=("--workers", "2")), step),
    ]  # fmt: skip
    for one, every in tries:
        one.on_one_disk(every)
        one.on_both(every)
        one.killed(every)


WHOLE_LIST = (0, "census reservations 1 answered 1 exhausted 0 lost 0 spent 1000000 budget 10000000\n")
SHORTER = (0, "census reservations 1 answered 0 exhausted 0 lost 1 spent 1000000 budget 10000000\n")


def lagging(room, step):
    """Each call fails while a side that lags is opened and brought up. Where the other one fails as it is read, the side that lags is all that is there: no
    disk with every acknowledged record is, which nobody can notice. The next opening of both finds them all, and brings it up."""
    one = room.journal(FIRST)
    for only in FOLDERS:
        sides = [room.journal(FIRST[: 2 - (name == only)]) for name in FOLDERS]
        for faulty in FOLDERS:
            room.lay(*sides)
            count = int(room.ran("audit", ONLY=faulty, TELL="1").stderr)
            for call in range(1, count + 1, step):
                room.lay(*sides)
                said = room.said("audit", ONLY=faulty, FAIL=str(call), FAIL_ALL="1")
                if said not in ((WHOLE_LIST,) if faulty == only else (WHOLE_LIST, SHORTER)):
                    raise Wrong(f"{only} lags, call {call} of {count} on {faulty} fails: {said}")
                must(f"{only} lags, call {call} on {faulty}: audit", room.said("audit"), WHOLE_LIST)
                must("both have all", room.sides(), [one, one])
                room.came[f"a side that lags: {'it' if faulty == only else 'the other'} failed"] += 1


def one_left(room):
    """One disk is gone, and the other fails behind its opening: 52 and 42. A third run, both sound, goes on."""
    script = lines(["hello ann", ASK, ASK, ASK])
    for at, name in enumerate(FOLDERS):
        sides = [None if at == other else room.journal() for other in range(2)]
        only = FOLDERS[1 - at]
        room.lay(*sides)
        opening = int(room.ran("audit", ONLY=only, TELL="1").stderr)
        room.lay(*sides)
        said = room.said("run", script, ONLY=only, FAIL=str(opening + 1), FAIL_ALL="1")
        must(f"{name} is gone, and the other fails", said, (0, "hello ann\nno 52\nno 42 1\nno 42 1\n"))
        room.came["one left"] += 1


def old_one_put_back(room):
    """A disk that missed a run and has records that the other lacks is put back, which nobody may do: `forked`. And an old disk used alone isn't noticed."""
    empty, one = room.journal(), room.journal(FIRST[:1])
    room.lay(one, empty)
    os.rename(f"{JOURNALS}/0.bud", "kept")
    status, said = room.said("run", lines(["hello bob", "ask census 2 size people"]))
    must("a run on the second alone", (status, said.split()[2:4]), (0, ["answer", "0"]))
    os.rename("kept", f"{JOURNALS}/0.bud")
    for command, words in (("audit", ()), ("run", ()), ("grant", ("census", "1"))):
        must(f"the first is put back: {command}", room.said(command, lines(ONE_ASK), words), (4, "journal census forked 0\n"))
    room.lay(empty, room.journal(FIRST))
    os.remove(f"{MIRRORS}/0.bud")
    must("an old disk alone", room.said("audit"), (0, "census reservations 0 answered 0 exhausted 0 lost 0 spent 0 budget 10000000\n"))


def served(room):
    """A service of one worker hears nothing of a disk that fails at any of its calls."""
    script = ["hello ann", ASK, "recall census 0", "left census", "bye"]
    due = None
    for only in ("none", *FOLDERS):
        for call in (1,) if only == "none" else (1, 5, 12, 20, 24, 28):
            room.lay(room.journal(), room.journal())
            given = {**os.environ, "LD_PRELOAD": room.library, "ONLY": only, "FAIL": str(call), "FAIL_ALL": "1"}
            with Service(room, each=1, env=given) as service, Caller(service.port) as caller:
                told = [caller.ask(line) for line in script[:-1]]
                watched(f"a service, call {call} on {only}", only)
                told.append(caller.ask(script[-1]))
                service.process.wait(60)
            due = due or told
            must(f"a service, call {call} on {only} and all later ones", (told, service.process.returncode), (due, 0))
            room.level(f"a service, call {call} on {only}")
            room.came["services"] += 1
    must("a service", due[1:4], ["answer 0 5 1000000", "recall 0 answer 5 2", "left 1000000 10000000 2"])


def watched(what, only):
    """A copy of a busy service's journals says which side lags, if any."""
    subprocess.run([f"{TOP}/tools/snapshot", "copy"], check=True)
    ran = subprocess.run([f"{TOP}/tools/watch", "catalog.json", "copy"], capture_output=True, text=True)
    shutil.rmtree("copy")
    lags = [line.split(" lags by ")[0] for line in ran.stdout.splitlines()[1:]]
    must(f"{what}: tools/watch", (ran.returncode, lags), (0, []) if only == "none" else (3, [f"census: {only}"]))


def moved(room):
    """A file that is moved away under a service, another one being put there, is given up, and the other disk goes on."""
    for name in FOLDERS:
        room.lay(room.journal(), room.journal())
        with Service(room, each=1) as service, Caller(service.port, "ann") as caller:
            must("the first ask", caller.ask(ASK), "answer 0 5 1000000")
            os.rename(f"{name}/0.bud", "aside")
            shutil.copy("aside", f"{name}/0.bud")
            must(f"{name} was moved: an ask", caller.ask(ASK).split(" ")[:2], ["answer", "1"])
            must(f"{name} was moved: left", caller.ask("left census"), "left 2000000 10000000 4")
            caller.ask("bye")
            service.process.wait(60)
        for path in (f"{name}/0.bud", "aside"):
            must(f"{path} has what it had", len(book_of(side(path), room.head, room.entry, range(2)).records), 2)
        room.level(f"{name} was moved")
        room.came["moved"] += 1


def copied(room):
    """tools/mirror: a second file where there is none, from either; nothing where both are there, one is held, or the one is no journal."""

    def mirrored():
        ran = subprocess.run([f"{TOP}/tools/mirror"], capture_output=True, text=True)
        return ran.returncode, ran.stdout, [line for line in ran.stderr.splitlines() if "one device" not in line]

    one = room.journal(FIRST)
    for at, name in enumerate(FOLDERS):
        for absent in (None, b""):
            room.lay(*(absent if at == other else one for other in range(2)))
            due = f"./{name}/0.bud is a copy of ./{FOLDERS[1 - at]}/0.bud, {len(one)} bytes\n"
            must(f"{name} is {absent}: tools/mirror", (mirrored(), room.sides()), ((0, due, []), [one, one]))
            must("its mode", oct(os.stat(f"{name}/0.bud").st_mode & 0o777), "0o600")
            room.level("tools/mirror")
    room.lay(one, room.journal())
    must("both are there: tools/mirror", (mirrored(), room.sides()), ((0, "", []), [one, room.journal()]))
    for what, data in (("a closed header", closed(one)), ("half of a journal", one[:1000]), ("a byte", b"x")):
        room.lay(data, None)
        status, said, fault = mirrored()
        must(f"{what}: tools/mirror", (status, said, len(fault), room.sides()), (1, "", 1, [data, b""]))
    room.lay(one, None)
    with open(f"{JOURNALS}/0.bud", "r+b") as file:
        fcntl.flock(file, fcntl.LOCK_EX)
        status, said, fault = mirrored()
        must("a file that is held: tools/mirror", (status, said, "is held by a process" in fault[0], room.sides()), (1, "", True, [one, b""]))
    must("nothing is left beside", sorted(os.listdir(JOURNALS) + os.listdir(MIRRORS)), ["0.bud"])
    room.came["copied"] += 1


def in_order(room):
    """What is written and synced in turn, writes in a row being one: each file whole before the other, and each record. Writes that put half of their bytes
    change nothing."""
    paths = [f"{room.folder}/{name}/0.bud" for name in FOLDERS]
    parts = [[f"write {path}", f"sync {path}"] for path in paths]
    makings = [[f"mkdir {name}", f"sync {room.folder}", f"sync {room.folder}/{name}", *part * 3] for name, part in zip(FOLDERS, parts)]
    openings = [f"sync {path}" for path in paths]
    left = []
    for faults in ({"LOG": "log"}, {"LOG": "log", "SHORT": "1"}):
        room.empty()
        for command, due in (("init", makings[0] + makings[1]), ("run", openings + (parts[0] * 2 + parts[1] * 2) * 2)):
            room.ran(command, lines(ONE_ASK), **faults)
            said = contents("log").decode().splitlines()
            os.remove("log")
            must(f"{command}: in order", [line for before, line in zip(["", *said], said) if line != before], due)
        left.append(room.sides())
    must("short writes: what is left", left[1], left[0])


ENDS = ["levelled", "moved", "copied", "one left", "services", "no 52, and then no 42", "a side that lags: it failed", "a side that lags: the other failed",
    *(f"{command}: {what}" for command in ("run", "grant") for what in ("one disk failed in its opening", "one disk failed behind it", "both failed, status 6",
    "killed")), "run: both failed, status 0"]  # fmt: skip


def main():
    step = 3 if sys.argv[1:] == ["--quick"] else 1
    if "PROGRAM" not in os.environ:
        subprocess.run([f"{TOP}/tools/build"], check=True)
    with tempfile.TemporaryDirectory(dir="/dev/shm" if os.access("/dev/shm", os.W_OK) else None) as folder, tempfile.TemporaryDirectory() as library:
        room = Room(folder, library)
        try:
            for rows in (usages, makings, refused, gone, faults, levelled, old_one_put_back, one_left, served, moved, copied, in_order):
                rows(room)
            lagging(room, step)
            calls(room, step)
        except (Wrong, Refused) as fault:
            sys.exit(f"WRONG: {fault}")
        finally:
            os.chdir(TOP)
    print(", ".join(f"{end} {many}" for end, many in sorted(room.came.items())))
    lacking = [end for end in ENDS if not room.came[end]]
    if lacking:
        sys.exit("never met: " + ", ".join(lacking))
    print(f"{room.tried:,} commands over two disks end as is wanted")


main()
