#!/usr/bin/env python3
"""Each call on a real journal file fails in turn, alone and with all later ones, and each is the one at which the program is killed.

usage: tests/faults/failing_disk.py [--mirror] [--quick]    (PROGRAM=FILE tries another build than tools/build's). Needs cc. --quick tries every fourth or
twelfth call of all runs but the first. With --mirror see below.
It counts the calls of `init`, and of a run of three asks that goes on behind one earlier answer, of one that goes on behind 31 and so opens the
journal's next area, of such runs over journals of versions 1 and 2, and of grants over the same, one of which opens an area; and then runs each again with
one call that fails, with all from that one on, and with a kill in the place of the call (a write has then put half of its bytes). Judged by a second reader
(tools/journal.py) and the second implementation of lines (tools/reference.py):

- `init` ends with 6 and its line, or is killed; what is left is no journal, or an empty one;
- an opening that fails ends with 6 and its line, and leaves the file as it was;
- where a record can't be written its ask is told 52 and all later ones 42; the lines behind, which recall and ask what is left, tell
  of the acknowledged records alone;
- a grant ends with 6 and its line, or is killed: its record is there whole or not at all, and a grant behind it has the next number;
- whatever happened, the next opening finds every record that was acknowledged, at most one more, and `audit` counts them;
- an answer that was printed stands settled with its value.

And writes that put half of their bytes change nothing that is said or left; the folder of a new journal and the one that this is in are
synced before its first write, and each part of a journal, an area or a record before the next part is written.

With --mirror the same runs and grants go over journals on two disks, and the calls are those on either of them: nobody is told anything but by a kill. The
disk that is sound has all records, which each disk has behind the next opening, and the next run goes on.

It ends with status 1 at the first difference, and where one of the ends was never met.
"""
import os
import subprocess
import sys
import tempfile
from collections import Counter

sys.path.insert(0, f"{os.path.dirname(os.path.abspath(__file__))}/../lib")
from places import TOP  # noqa: E402

PROGRAM = os.path.abspath(os.environ.get("PROGRAM", f"{TOP}/out/hitchseason"))
from catalog import census, read  # noqa: E402
from journal import VERSION_AT, VERSIONS, Grant, Refused, appended, book_of, contents, header, in_version, made  # noqa: E402
from mirrors import FLAG, FOLDERS, opened, side  # noqa: E402
from reference import ROWS, Server, granted, key_words, with_rows  # noqa: E402

E = 100_000
ASK = "ask census 0.1 size people"
# How many earlier answers there are: a few, and so many that the second ask finds the first area full.
FEW, MANY = 1, 31
CAPACITY = 100
NEWEST = VERSIONS[-1]
# The runs: behind so many answers, over a journal of this version. Those of the last version are over one that an `init` has made.
RUNS = ((FEW, NEWEST), (MANY, NEWEST), (FEW, 1), (FEW, 2), (MANY, 2))
QUICK = (1, 4, 4, 12, 12)
# The grants: the same. Behind 32 answers all of the first area is taken.
GRANTS, AMOUNT = ((FEW, NEWEST), (32, NEWEST), (FEW, 1), (32, 2)), 500_000


def asked(first):
    """The lines of a run behind so many answers."""
    return ["hello ann", *[ASK] * 3, "left census", *[f"recall census {number}" for number in range(first - 1, first + 4)]]


DISK = (6, "disk census\n")


class Wrong(Exception):
    pass


class Room:
    def __init__(self, folder, library):
        os.chdir(folder)
        self.came, self.library = Counter(), f"{library}/fail.so"
        for name, data in (("key", bytes(32)), ("cat.json", census()), ("people.csv", b"age\n20\n30\n40\n")):
            with open(name, "wb") as file:
                file.write(data)
        subprocess.run(["cc", "-O1", "-shared", "-fPIC", "-o", self.library, f"{TOP}/tests/faults/fail_disk.c", "-ldl"], check=True)
        self.head, self.entry = header(census(), 0, bytes(32), contents, NEWEST), read(census())["owners"][0]

    def ran(self, command, script="", words=(), **faults):
        given = {**os.environ, **faults}
        if faults:
            given["LD_PRELOAD"] = self.library
        return subprocess.run([PROGRAM, command, "cat.json", "key", *words], input=script, capture_output=True, text=True, env=given)

    def grant(self):
        """A grant that goes well, behind whatever is there."""
        book, ran = self.book(), self.ran("grant", words=("census", "1"))
        if (ran.returncode, ran.stdout) != granted(book, 1)[:2]:
            raise Wrong(f"the next grant ended with {ran.returncode} and {ran.stdout!r}")

    def made(self, first, version=NEWEST):
        """One journal with so many earlier answers."""
        subprocess.run(["rm", "-rf", "journals"], check=True)
        self.ran("init")
        if version != NEWEST:
            self.write(made(in_version(self.head, version), CAPACITY))
        self.ran("run", "hello ann\n" + f"{ASK}\n" * first)
        self.first, self.before = first, contents("journals/0.bud")
        if len(self.book().records) != 2 * first or self.before[VERSION_AT] != version:
            raise Wrong("the journal isn't what it should be")

    def anew(self):
        """That journal again."""
        os.makedirs("journals", exist_ok=True)
        self.write(self.before)

    @staticmethod
    def write(data):
        with open("journals/0.bud", "wb") as file:
            file.write(data)

    def book(self):
        return book_of(contents("journals/0.bud"), self.head, self.entry, range(2))

    def counted(self):
        """What a next opening finds, which `audit` counts."""
        book, said = self.book(), self.ran("audit")
        if (said.returncode, said.stdout) != (0, book.counts() + "\n"):
            raise Wrong(f"audit: {said.returncode} {said.stdout}, wanted {book.counts()}")
        return book


def judge_init(room, ran):
    if ran.returncode not in (-9, 6) or (ran.returncode == 6 and (ran.returncode, ran.stdout) != DISK):
        raise Wrong(f"status {ran.returncode} and {ran.stdout!r}")
    if not os.path.exists("journals/0.bud"):
        room.came["init: no file"] += 1
        return
    try:
        if room.counted().records:
            raise Wrong("records")
        room.came["init: a journal that nobody was told of"] += 1
    except Refused as refusal:
        said = room.ran("audit")
        if (said.returncode, said.stdout) != (4, f"journal census {refusal}\n") or not str(refusal).startswith("uninitialised"):
            raise Wrong(f"{refusal}, and audit said {said.stdout!r}") from None
        room.came["init: a file to be removed"] += 1


def due(first, failed):
    """The replies of a run in which the record `failed` (from 0, of those it adds) can't be written, and how many are acknowledged."""
    server = Server(with_rows(ROWS), key_words(bytes(32)))
    server.reply(b"hello ann")
    for _ in range(first):
        server.reply(ASK.encode())
    owner = server.owners[b"census"]
    owner.goes_on(owner.charges, owner.records, owner.reservations)
    replies = [server.reply(b"hello ann")]
    for at in range(3):
        if failed > 2 * at + 1:
            replies.append(server.reply(ASK.encode()))
        elif failed >= 2 * at:
            replies.append("no 52")
            if failed % 2:
                owner.charge(b"ann", None, E)
                owner.records += 1
                owner.reservations.append((b"ann", None))
        else:
            replies.append("no 42 1")
    replies += [server.reply(line.encode()) for line in asked(first)[4:]]
    return replies, owner.records


def judge_run(room, ran):
    first, before = room.first, book_of(room.before, room.head, room.entry, range(2)).records
    acknowledged = 2 * first
    if ran.returncode == 6:
        if (ran.returncode, ran.stdout) != DISK or contents("journals/0.bud") != room.before:
            raise Wrong(f"{ran.stdout!r}, or the file isn't as it was")
        room.came["run: not opened"] += 1
    elif ran.returncode == 0:
        told = ran.stdout.splitlines()
        found = [failed for failed in range(6) if told == due(first, failed)[0]]
        if not found:
            raise Wrong(f"told {told}")
        acknowledged = due(first, found[0])[1]
        room.came["run: 52 of a reservation" if found[0] % 2 == 0 else "run: 52 of a settlement"] += 1
    elif ran.returncode != -9 or ran.stdout:
        raise Wrong(f"status {ran.returncode} and {ran.stdout!r}")
    now, book = contents("journals/0.bud"), room.counted()
    more = len(book.records) - acknowledged
    if [one.encoded() for one in book.records[: 2 * first]] != [one.encoded() for one in before] or (ran.returncode != -9 and more not in (0, 1)):
        raise Wrong(f"{len(book.records)} records")
    if room.before[VERSION_AT] != now[VERSION_AT]:
        raise Wrong("its version is another")
    told_of_areas(room, now, book, 2 * first)
    room.came["one record more" if ran.returncode == 0 and more else "killed" if ran.returncode == -9 else "no record more"] += 1
    for line in ran.stdout.splitlines():
        words = line.split()
        if words[0] == "answer" and (int(words[1]) not in book.settled or book.settled[int(words[1])].answer != int(words[2])):
            raise Wrong(f"{line} isn't settled so")
    goes_on(room, now, book)


def judge_grant(room, ran):
    before = book_of(room.before, room.head, room.entry, range(2)).records
    if (ran.returncode, ran.stdout) not in (DISK, (-9, "")):
        raise Wrong(f"status {ran.returncode} and {ran.stdout!r}")
    now, book = contents("journals/0.bud"), room.counted()
    more = [one.encoded() for one in book.records[len(before) :]]
    if [one.encoded() for one in book.records[: len(before)]] != [one.encoded() for one in before] or more not in ([], [Grant(0, AMOUNT).encoded()]):
        raise Wrong(f"{len(book.records)} records")
    room.came[f"grant: {'killed' if ran.returncode == -9 else 'refused'}, {'written' if more else 'not written'}"] += 1
    told_of_areas(room, now, book, len(before))
    room.grant()
    goes_on(room, contents("journals/0.bud"), room.book())


def told_of_areas(room, now, book, first):
    """What there is of a next area: it, its gate, and records in it, or a part of it without the gate."""
    room.came[f"version {now[VERSION_AT]}"] += 1
    if now[VERSION_AT] == 1:
        return
    if now[: len(room.before)][97] != room.before[97]:
        room.came["an area that was opened, with no record more" if len(book.records) == 64 else "an area that was opened, with records"] += 1
    elif len(now) > len(room.before):
        room.came["an area, or a part of one, without its gate"] += 1


def goes_on(room, now, book):
    """The next run goes on with a new number, and adds its two records alone."""
    said = room.ran("run", f"hello ann\n{ASK}\n").stdout.splitlines()[-1]
    if said.split()[:2] != ["answer", str(len(book.reserved))]:
        raise Wrong(f"the next run said {said}")
    after = room.book().records[len(book.records) :]
    if contents("journals/0.bud") != appended(now, CAPACITY, after) or len(after) != 2:
        raise Wrong("the next run left something else")


def turns(room, command, script, prepare, judge, step=1, words=()):
    prepare()
    ran = room.ran(command, script, words, TELL="1")
    count = int(ran.stderr)
    for faults in FAULTS:
        for number in range(1, count + 1, step):
            prepare()
            try:
                judge(room, room.ran(command, script, words, **{name: value or str(number) for name, value in faults.items()}))
            except (Wrong, Refused) as fault:
                print(f"{command}, call {number} of {count}, {' '.join(faults)}: {fault}")
                sys.exit(1)
    return count


FAULTS = ({"FAIL": ""}, {"FAIL": "", "FAIL_ALL": "1"}, {"STOP": ""})


def laid_twice(room):
    for name in FOLDERS:
        os.makedirs(name, exist_ok=True)
        with open(f"{name}/0.bud", "wb") as file:
            file.write(room.before)


def on_each(room):
    """The records of each of two disks, by itself."""
    return [[one.encoded() for one in book_of(side(f"{name}/0.bud"), room.head, room.entry, range(2)).records] for name in FOLDERS]


def sound_after(room, what, ran, due, left, other):
    """Judges a command over two disks, of which one failed or at which it was killed, by what it says and leaves where both are sound."""
    before, now = len(book_of(room.before, room.head, room.entry, range(2)).records), on_each(room)
    killed = ran.returncode == -9
    if (ran.returncode, ran.stdout) != ((-9, "") if killed else (0, due)):
        raise Wrong(f"status {ran.returncode} and {ran.stdout!r}")
    if any(one != left[: len(one)] or len(one) < before for one in now) or (not killed and now[other] != left):
        raise Wrong(f"{list(map(len, now))} records, and {len(left)} where both are sound")
    book = opened([side(f"{name}/0.bud") for name in FOLDERS], room.head, room.entry, range(2))
    said = room.ran("audit", words=(FLAG,))
    if (said.returncode, said.stdout) != (0, book.counts() + "\n") or on_each(room) != [max(now, key=len)] * 2:
        raise Wrong(f"audit: {said.returncode} {said.stdout}, wanted {book.counts()}, and all on each disk")
    said = room.ran("run", f"hello ann\n{ASK}\n", words=(FLAG,)).stdout.splitlines()[-1]
    if said.split()[:2] != ["answer", str(len(book.reserved))] or [len(one) for one in on_each(room)] != [len(book.records) + 2] * 2:
        raise Wrong(f"the next run said {said}")
    room.came[f"{what}: killed" if killed else f"{what}: as if both were sound"] += 1


def on_either_disk(room, command, script, words, step):
    """Each call on either disk in turn."""
    laid_twice(room)
    sound = room.ran(command, script, (*words, FLAG))
    left = on_each(room)[0]
    if sound.returncode != 0 or on_each(room)[1] != left:
        raise Wrong(f"{command} over two sound disks: {sound.returncode} and {sound.stdout!r}")
    counts = []
    for other, only in enumerate(FOLDERS[::-1]):
        laid_twice(room)
        counts.append(int(room.ran(command, script, (*words, FLAG), ONLY=only, TELL="1").stderr))
        for faults in FAULTS:
            for number in range(1, counts[-1] + 1, step):
                laid_twice(room)
                ran = room.ran(command, script, (*words, FLAG), ONLY=only, **{name: value or str(number) for name, value in faults.items()})
                try:
                    sound_after(room, command, ran, sound.stdout, left, other)
                except (Wrong, Refused) as fault:
                    raise Wrong(f"call {number} of {counts[-1]} on {only}, {' '.join(faults)}: {fault}") from None
    return sound.stdout, counts


def over_two_disks(room, steps):
    """All runs and grants over two disks: how many calls there were on each."""
    told = []
    for (first, version), every in zip(RUNS, steps):
        room.made(first, version)
        said, counts = on_either_disk(room, "run", "".join(f"{line}\n" for line in asked(first)), (), every)
        if said.splitlines() != due(first, 6)[0]:
            raise Wrong(f"told {said}")
        told.append((f"a run behind {first} answers, version {version}", counts))
    for (first, version), every in zip(GRANTS, steps):
        room.made(first, version)
        told.append((f"a grant behind {first}, version {version}", on_either_disk(room, "grant", "", ("census", str(AMOUNT)), every)[1]))
    return told


def left_by(room, first, version, **faults):
    """What is said and left by a run behind so many answers, and by an `init`."""
    subprocess.run(["rm", "-rf", "journals"], check=True)
    ran = [room.ran("init", **faults)]
    left = contents("journals/0.bud")
    room.made(first, version)
    ran.append(room.ran("run", "".join(f"{line}\n" for line in asked(first)), **faults))
    return [(one.returncode, one.stdout) for one in ran], left, contents("journals/0.bud")


def short_writes(room):
    """Writes that put half of their bytes, and what is said and left then."""
    for first, version in RUNS:
        whole, short = left_by(room, first, version), left_by(room, first, version, SHORT="1")
        if whole != short:
            print(f"short writes: {short[0]}, and without {whole[0]}; the journal is {'the same' if whole[1:] == short[1:] else 'another'}")
            sys.exit(1)


def order_of_syncs(room):
    """What is written and synced in turn, by an `init` and by a run of one ask, and by one that opens an area. Writes in a row are one."""
    subprocess.run(["rm", "-rf", "journals", "log"], check=True)
    folder = os.getcwd()
    file = f"{folder}/journals/0.bud"
    part = [f"write {file}", f"sync {file}"]
    room.ran("init", LOG="log")
    room.ran("run", f"hello ann\n{ASK}\n", LOG="log")
    # Zeros, the header and its gate; opened; a reservation and its gate, a settlement and its gate.
    in_order("log", ["mkdir journals", f"sync {folder}", f"sync {folder}/journals", *part * 3, f"sync {file}", *part * 4])
    room.made(32)
    os.remove("log")
    room.ran("run", f"hello ann\n{ASK}\n", LOG="log")
    # Opened; an area and its gate; and the same.
    in_order("log", [f"sync {file}", *part * 2, *part * 4])


def in_order(log, wanted):
    lines = contents(log).decode().splitlines()
    told = [line for before, line in zip([""] + lines, lines) if line != before]
    # The sync of an opening stands behind the last one of the `init`.
    wanted = [line for before, line in zip([""] + wanted, wanted) if line != before]
    if told != wanted:
        print("written and synced: " + ", ".join(told) + "\nwanted: " + ", ".join(wanted))
        sys.exit(1)


ENDS = ["init: no file", "init: a file to be removed", "run: not opened", "run: 52 of a reservation", "run: 52 of a settlement", "killed", "one record more",
    *(f"version {version}" for version in VERSIONS), "an area that was opened, with no record more", "an area that was opened, with records",
    "an area, or a part of one, without its gate", "grant: killed, written", "grant: killed, not written", "grant: refused, not written"]  # fmt: skip


MIRRORED = [f"{command}: {end}" for command in ("run", "grant") for end in ("as if both were sound", "killed")]


def end(room, ends):
    print(", ".join(f"{end} {many}" for end, many in sorted(room.came.items())))
    lacking = [end for end in ends if not room.came[end]]
    if lacking:
        sys.exit("never met: " + ", ".join(lacking))


def main():
    steps = QUICK if "--quick" in sys.argv else (1,) * len(RUNS)
    if "PROGRAM" not in os.environ:
        subprocess.run([f"{TOP}/tools/build"], check=True)
    # In memory, where there is a folder of it: the calls are the same, and a busy disk takes its time for each sync.
    # No library is loaded from there in some places.
    with tempfile.TemporaryDirectory(dir="/dev/shm" if os.access("/dev/shm", os.W_OK) else None) as folder, tempfile.TemporaryDirectory() as library:
        room = Room(folder, library)
        if "--mirror" in sys.argv:
            try:
                told = over_two_disks(room, steps)
            except (Wrong, Refused) as fault:
                sys.exit(f"WRONG: {fault}")
            finally:
                os.chdir(TOP)
            said = ", ".join(f"{first} and {second} calls of {what}" for what, (first, second) in told)
            print(f"on the second disk and on the first, each failing, failing with all later ones, and killed: {said}: as wanted")
            return end(room, MIRRORED)
        calls = [turns(room, "init", "", lambda: subprocess.run(["rm", "-rf", "journals"], check=True), judge_init)]
        for (first, version), every in zip(RUNS, steps):
            room.made(first, version)
            calls.append(turns(room, "run", "".join(f"{line}\n" for line in asked(first)), room.anew, judge_run, every))
        of_grants = []
        for first, version in GRANTS:
            room.made(first, version)
            of_grants.append(turns(room, "grant", "", room.anew, judge_grant, words=("census", str(AMOUNT))))
        short_writes(room)
        order_of_syncs(room)
        os.chdir(TOP)
    print("short writes, and the order of syncs: as wanted")
    runs = (f"{calls} of a run{' that opens an area' * (first == MANY)}, version {version}" for (first, version), calls in zip(RUNS, calls[1:]))
    grants = (f"{calls} of a grant behind {2 * first} records, version {version}" for (first, version), calls in zip(GRANTS, of_grants))
    said = f"{calls[0]} calls of init, {', '.join((*runs, *grants))}"
    print(f"{said}, each failing, failing with all later ones, and killed: as wanted")
    end(room, ENDS)


main()
