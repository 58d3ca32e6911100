#!/usr/bin/env python3
"""Two workers over three owners, of whose journals one fails or stops at each of its calls in turn.

usage: tests/faults/failing_workers.py [--mirror] [--quick]    (PROGRAM=FILE tries another build than tools/build's). Needs cc. --quick tries every seventh
call of a run, and every twelfth of an audit and of a service. With --mirror each journal stands on two disks, and the calls are those on either of an
owner's two files: but for a kill nobody is told anything.
The owners' journals are of versions 1, 2 and 3, and each is so full that the lines that are tried open its next area, where the version has areas. The
calls of each owner's file are counted in turn (tests/faults/fail_disk.c), and the same lines are answered again with one call that fails, with all from
that one on, and with a kill in the place of the call, by

- a run, with --workers 2. Where the calls are those of an opening, as that of the second of the three owners is behind the first, it ends with 6 and
  that owner's line, or is killed, and all files are as they were. Else the replies and records are those of some order of the lines
  (tests/lib/orders.py), in which the failed owner's asks are told 52 once and then 42, and the other owners' are answered;
- an `audit`, each call of the second owner's opening failing;
- a service of two workers, each with a connection, which hears each answer before the next line is asked. So answers are written before a kill.

Whatever happened, each journal opens with every record that was acknowledged, `audit` counts them, and in the next run each answer that was written is
recalled with its value, `left` covers what was spent before and what the answers took, and the next number of each owner is new.
It ends with status 1 at the first difference, and where one of the ends was never met.
"""
import os
import subprocess
import sys
import tempfile
import threading
from collections import Counter

sys.path.insert(0, f"{os.path.dirname(os.path.abspath(__file__))}/../lib")
import places  # noqa: E402,F401
from served import TOP, PROGRAM, Caller, Service, Wrong, need_program, place
from catalog import catalog, owner
from journal import VERSIONS, WHOLE, Book, Refused, Reservation, appended, book_of, contents, header, in_version, made, that_counts
from mirrors import FLAG, FOLDERS
from orders import Wrong as NoOrder, blocks_of, judged
from reference import house_of, key_words

NAMES = ("census", "labour", "health")
ANALYSTS = ("ann", "bob")
TABLES = (("people", "people.csv", (("town", "text"), ("age", "num"))),)
PARTS = (("area", "people", "town", ("A", "B")),)
KEY = bytes(range(32))
BUDGET, CAPACITY, FULL, WORKERS = 10**9, 72, 62, 2
WHOLE_ASK, PART_ASK = "ask {} 0.5 size people", "askpart {} area A 0.25 size people"
FAULTS = ({"FAIL": ""}, {"FAIL": "", "FAIL_ALL": "1"}, {"STOP": ""})


def block(analyst, names, asks):
    """What one worker's connection says: each owner in turn, twice, and what is left."""
    lines = [ask.format(name) for ask in asks for name in names]
    return [f"hello {analyst}", *lines, *(f"left {name}" for name in NAMES), "bye"]


BLOCKS = (block("ann", NAMES, (WHOLE_ASK, PART_ASK)), block("bob", NAMES[::-1], (PART_ASK, WHOLE_ASK)))
LINES = [line for lines in BLOCKS for line in lines]
SCRIPT = "".join(f"{line}\n" for line in LINES).encode()


class Room:
    """A folder with the house and its journals, which are laid anew for each try."""

    def __init__(self, folder, library, mirrored=False):
        self.folder, self.came, self.library, self.more_words = folder, Counter(), f"{library}/fail.so", [FLAG] if mirrored else []
        self.folders = FOLDERS if mirrored else FOLDERS[:1]
        os.chdir(folder)
        data = catalog(*(owner(name, TABLES, BUDGET, CAPACITY, PARTS) for name in NAMES), analysts=ANALYSTS)
        for name, held in (("catalog.json", data), ("key", KEY), ("people.csv", b"town,age\nA,20\nB,30\nA,40\n")):
            with open(name, "wb") as file:
                file.write(held)
        subprocess.run(["cc", "-O1", "-shared", "-fPIC", "-o", self.library, f"{TOP}/tests/faults/fail_disk.c", "-ldl"], check=True)
        self.house = house_of(data, contents)
        self.entries = self.house.catalog["owners"]
        for name in self.folders:
            os.mkdir(name)
        self.heads = [in_version(header(data, order, KEY, contents), version) for order, version in enumerate(VERSIONS)]
        self.before = [self.laid(order, version) for order, version in enumerate(VERSIONS)]
        self.anew()
        self.found = self.books()

    def laid(self, order, version):
        """A journal of this version, so full that two asks more open its next area; every fourth number is exhausted, others are lost or answered."""
        book = Book(self.entries[order], ANALYSTS, version)
        for number in range(FULL // 2):
            view = WHOLE if number % 2 else (0, number % 4 // 2)
            one = Reservation(number, view, 1000 + number, 1, 1, 0, number % 2, bytes(32))
            one.taken = book.spent_with(one) - book.spent
            assert book.add(one)
            outcome = (1, 2, 3, 1)[number % 4]
            assert book.add(book.settlement(number, outcome, number if outcome == 1 else 0))
        return appended(made(self.heads[order], CAPACITY), CAPACITY, book.records)

    def anew(self):
        for order, data in enumerate(self.before):
            for name in self.folders:
                with open(f"{name}/{order}.bud", "wb") as file:
                    file.write(data)

    def journals(self):
        """What counts: of two files that with more records."""
        return [that_counts("journals", ".", order) for order in range(len(NAMES))]

    def books(self):
        return [book_of(data, head, entry, ANALYSTS) for data, head, entry in zip(self.journals(), self.heads, self.entries)]

    def ran(self, command, script=b"", words=(), **faults):
        given = {**os.environ, **faults, **({"LD_PRELOAD": self.library} if faults else {})}
        return subprocess.run([PROGRAM, command, "catalog.json", "key", *words, *self.more_words], input=script, capture_output=True, env=given)

    def files(self):
        """Each owner with the file, or each of two files, on which calls fail."""
        return [(order, f"{name}/{order}.bud") for order in range(len(NAMES)) for name in self.folders]

    def calls(self, file, command, script=b"", words=()):
        """How many calls a command makes on a file."""
        self.anew()
        return int(self.ran(command, script, words, ONLY=file, TELL="1").stderr)


def answers_in(replies):
    """Number, value and charge of each answer that was written, with the place of its line."""
    for at, reply in replies.items():
        if reply.startswith("answer "):
            yield at, *map(int, reply.split()[1:])


def kept(room, replies):
    """What is found afterwards: the second reader's books, what `audit` counts, and what a next run is told. REPLIES are by the place of their line."""
    for before, now in zip(room.before, room.journals()):
        if now[9] != before[9]:
            raise Wrong("a journal's version is another")
    books = room.books()
    said = room.ran("audit")
    if (said.returncode, said.stdout.decode()) != (0, "".join(f"{book.counts()}\n" for book in books)):
        raise Wrong(f"audit: {said.returncode} {said.stdout}")
    lines, due, spent = [], [], [book.spent for book in room.found]
    for at, number, value, taken in answers_in(replies):
        order = NAMES.index(LINES[at].split()[1])
        spent[order] += taken
        lines += [f"hello {ANALYSTS[at >= len(BLOCKS[0])]}", f"recall {NAMES[order]} {number}"]
        due += [lines[-2], f"recall {number} answer {value} {len(books[order].records)}"]
        room.came["answers recalled"] += 1
    lines += [f"left {name}" for name in NAMES]
    due += [f"left {book.spent} {BUDGET} {len(book.records)}" for book in books]
    lines.append("hello ann")
    lines += [WHOLE_ASK.format(name) for name in NAMES]
    ran = room.ran("run", "".join(f"{line}\n" for line in lines).encode())
    told = ran.stdout.decode().splitlines()
    if ran.returncode != 0 or told[: len(due)] != due:
        raise Wrong(f"the next run is told {told}, wanted {due}")
    for book, least, told_of, found in zip(books, spent, told[len(due) + 1 :], room.found):
        if book.spent < least:
            raise Wrong(f"{book.spent} are spent of {book.entry['name']}, and {least} were before and for the answers")
        if [one.encoded() for one in book.records[: len(found.records)]] != [one.encoded() for one in found.records]:
            raise Wrong("an earlier record isn't what it was")
        if told_of.split()[:2] != ["answer", str(len(book.reserved))]:
            raise Wrong(f"the next ask of {book.entry['name']} is told {told_of}, and {len(book.reserved)} is the next number")
    return books


def in_order(room, order, books, replies):
    """Replies and records are those of some order of the lines."""
    said = "".join(replies[at] + "\n" for at in range(len(LINES))).encode()
    room.came.update({f"told {word}": many for word, many in Counter(reply[:5] for reply in replies.values() if reply[:5] in ("no 42", "no 52")).items()})
    judged(room.house, key_words(KEY), room.found, books, SCRIPT, said, WORKERS, shut=set() if room.more_words else {NAMES[order].encode()})


def judge_run(room, order, ran, opening):
    """OPENING says whether the call is one of the opening."""
    replies = {}
    if ran.returncode == 6 and not room.more_words:
        if ran.stdout != f"disk {NAMES[order]}\n".encode() or room.journals() != room.before:
            raise Wrong(f"{ran.stdout!r}, or the files aren't as they were")
        room.came[f"not opened, owner {order}"] += 1
    elif ran.returncode == 0 and (not opening or room.more_words):
        replies = dict(enumerate(ran.stdout.decode().splitlines()))
        if len(replies) != len(LINES):
            raise Wrong(f"{len(replies)} replies")
    elif ran.returncode != -9 or ran.stdout:
        raise Wrong(f"status {ran.returncode} and {ran.stdout[:200]!r}")
    elif opening and room.journals() != room.before:
        raise Wrong("killed in the opening, and the files aren't as they were")
    room.came[f"run, version {VERSIONS[order]}: " + {6: "not opened", 0: "replies", -9: "killed"}[ran.returncode]] += 1
    books = kept_with(room, order, replies)
    if replies:
        in_order(room, order, books, replies)


def kept_with(room, order, replies):
    areas = room.journals()[order]
    room.came["an area that was opened"] += areas[97] != room.before[order][97]
    room.came["an area, or a part of one, without its gate"] += len(areas) > len(room.before[order]) and areas[97] == room.before[order][97]
    return kept(room, replies)


def runs(room, step):
    """Each call of each owner's file, in a run."""
    words, counts = ("--workers", str(WORKERS)), []
    for order, file in room.files():
        opening, count = room.calls(file, "audit"), room.calls(file, "run", SCRIPT, words)
        counts.append((opening, count))
        for faults in FAULTS:
            for call in range(1, count + 1, step):
                room.anew()
                ran = room.ran("run", SCRIPT, words, ONLY=file, **{name: value or str(call) for name, value in faults.items()})
                in_words(room, f"run, {file}, call {call} of {count}, {' '.join(faults)}", lambda: judge_run(room, order, ran, call <= opening))
    return counts


def audits(room, step):
    """Each call of the opening of the second of three owners, in an `audit`."""
    file = "journals/1.bud"
    count = room.calls(file, "audit")
    for call in range(1, count + 1, step):
        room.anew()
        ran = room.ran("audit", ONLY=file, FAIL=str(call))
        if room.more_words:
            must(f"audit, call {call} of {count}", (ran.returncode, ran.stdout.decode()), (0, "".join(f"{book.counts()}\n" for book in room.found)))
        elif (ran.returncode, ran.stdout, room.journals()) != (6, f"disk {NAMES[1]}\n".encode(), room.before):
            in_words(room, f"audit, call {call} of {count}", lambda: kept(room, {}))
            raise Wrong(f"audit, call {call}: {ran.returncode} and {ran.stdout!r}")
    return count


def must(what, found, wanted):
    if found != wanted:
        raise Wrong(f"{what}: {found!r}, wanted {wanted!r}")


def in_words(room, what, judge):
    try:
        judge()
    except (Wrong, NoOrder, Refused) as fault:
        raise Wrong(f"{what}: {fault}") from None


# A service.


def heard(service, worker, replies):
    """One connection, line by line, up to its end or the service's."""
    first = sum(len(lines) for lines in BLOCKS[:worker])
    try:
        with Caller(service.port + worker) as caller:
            for at, line in enumerate(BLOCKS[worker], first):
                replies[at] = caller.ask(line)
    except OSError:
        pass


def served(room, file, faults):
    """What two connections at once are told."""
    replies = {}
    given = {**os.environ, "LD_PRELOAD": room.library, "ONLY": file, **faults}
    with Service(room, WORKERS, each=1, env=given) as service:
        callers = [threading.Thread(target=heard, args=(service, worker, replies)) for worker in range(WORKERS)]
        for caller in callers:
            caller.start()
        for caller in callers:
            caller.join()
        service.process.wait(60)
        return service.process.returncode, replies


def judge_service(room, order, status, replies):
    if status == -9:
        room.came["service killed, with answers"] += any(answers_in(replies))
    elif status != 0 or len(replies) != len(LINES):
        raise Wrong(f"status {status}, and {len(replies)} replies")
    room.came[f"service, version {VERSIONS[order]}: " + {0: "replies", -9: "killed"}[status]] += 1
    books = kept_with(room, order, replies)
    if status == 0:
        in_order(room, order, books, replies)


def services(room, step, counts):
    """Each call behind the opening of each owner's file, in a service of two connections."""
    for (order, file), (opening, count) in zip(room.files(), counts):
        for faults in FAULTS:
            for call in range(opening + 1, count + 1, step):
                room.anew()
                status, replies = served(room, file, {name: value or str(call) for name, value in faults.items()})
                in_words(room, f"service, {file}, call {call}, {' '.join(faults)}", lambda: judge_service(room, order, status, replies))


ENDS = [f"run, version {version}: {end}" for version in VERSIONS for end in ("not opened", "replies", "killed")] + [
    *(f"service, version {version}: {end}" for version in VERSIONS for end in ("replies", "killed")), "service killed, with answers", "not opened, owner 1",
    "answers recalled", "an area that was opened", "an area, or a part of one, without its gate", "told no 42", "told no 52"]  # fmt: skip


def main():
    mirrored, quick = "--mirror" in sys.argv[1:], "--quick" in sys.argv[1:]
    assert [list(lines) for lines in blocks_of([line.encode() for line in LINES])] == [list(range(len(BLOCKS[0]))), list(range(len(BLOCKS[0]), len(LINES)))]
    need_program()
    with tempfile.TemporaryDirectory(dir=place()) as folder, tempfile.TemporaryDirectory() as library:
        room = Room(folder, library, mirrored)
        try:
            # Of every eighth one is the write of an area's gate.
            counts = runs(room, 7 if quick else 1)
            opened = audits(room, 12 if quick else 1)
            services(room, 12 if quick else 1, counts)
        except Wrong as fault:
            print(f"WRONG: {fault}")
            sys.exit(1)
        finally:
            os.chdir(TOP)
    print(", ".join(f"{end} {many}" for end, many in sorted(room.came.items())))
    # Where one of two disks fails nobody is told 42 or 52, and each command opens its journals.
    lacking = [end for end in ENDS if not room.came[end] and not (mirrored and ("not opened" in end or "no 42" in end or "no 52" in end))]
    if lacking:
        print("never met: " + ", ".join(lacking))
        sys.exit(1)
    said = ", ".join(f"{count} of version {version}, {opening} of them in its opening" for version, (opening, count) in zip(VERSIONS, counts[:: len(room.folders)]))
    print(f"calls of two workers' runs on a journal: {said}; {opened} of an audit's second opening: as wanted")


if __name__ == "__main__":
    main()
