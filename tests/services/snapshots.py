#!/usr/bin/env python3
"""Copies of journals beside a busy service (tools/snapshot): each must open, and say no less than was told before it was begun.

usage: tests/services/snapshots.py [--mirror] [COUNT [SEED]]    50 copies, unless said; 1,000 is the whole (PROGRAM=FILE tries another build than
tools/build's). With --mirror the journals of the busy service stand on two disks: of neither may a copy say that it lags.
Four connections ask four owners without a pause, and copies are made meanwhile. Of each copy:

- `audit` of the program opens it, in a folder of its own, and counts what the second reader (tools/journal.py) counts in it;
- it begins with all records of the copy before, byte for byte, and the journals at the end begin with all of its records;
- each answer that came before it was begun is in it;
- tools/watch says the same of it, in text, JSON and for Prometheus.

Copies that were read in another order are damaged now and then: beside every tenth a plain one is tried, from the first byte to the last by a slot at a
time, and how many of these don't open is said. Before that journals that no `init` ended, that are damaged, and copies that are there already, each beside
tools/watch and `tools/journal.py --compare`; a disk that is full and a signal, which leave nothing; audits of copies, of an ask that was being
answered; and `tools/journal.py --check`. It ends with status 1 at the first difference.
"""
import json
import os
import random
import resource
import shutil
import signal
import subprocess
import sys
import tempfile
import threading
import time

sys.path.insert(0, f"{os.path.dirname(os.path.abspath(__file__))}/../lib")
import places  # noqa: E402,F401
from beginning import numbers
from served import TOP, Caller, Room, Service, Wrong, contents, need_program, place
from journal import HEAD, ONE, SLOT, WHOLE, Book, Refused, Reservation, Settlement, appended, book_of, check_header, live_area, remade, slots

ANALYST = "ann"
# tools/snapshot on a disk that takes half a minute for each read, once a journal is copied.
SLOW = """
import os, runpy, sys, time
read = os.pread
def slow(*given):
    time.sleep(30 if os.path.exists(f"copy.part{{os.getpid()}}/0.bud") else 0)
    return read(*given)
os.pread, sys.argv = slow, ["snapshot", "copy"]
runpy.run_path("{snapshot}", run_name="__main__")
"""
SNAPSHOT, WATCH, JOURNAL = f"{TOP}/tools/snapshot", f"{TOP}/tools/watch", f"{TOP}/tools/journal.py"


class Load:
    """Asks an owner without a pause until it is told to end, or has `most` answers. `answered` has the last number that was told."""

    def __init__(self, service, room, order):
        self.service, self.name, self.order, self.answered, self.ends, self.fault, self.most = service, room.names[order], order, -1, False, None, 0
        self.thread = threading.Thread(target=self.run, daemon=True)
        self.thread.start()

    def run(self):
        try:
            with Caller(self.service.port + self.order % self.service.workers, ANALYST) as caller:
                while not self.ends:
                    while self.answered >= self.most and not self.ends:
                        time.sleep(0.001)
                    words = caller.ask(f"ask {self.name} 0.000001 size people").split(" ")
                    if words[0] != "answer":
                        raise Wrong(f"an ask was told {' '.join(words)}")
                    self.answered = int(words[1])
        except Exception as fault:
            self.fault = fault

    def end(self):
        self.ends = True
        self.thread.join()
        if self.fault:
            raise Wrong(f"{self.name}: {self.fault!r}")


def copied(room, name, status=0, **more):
    ran = subprocess.run([SNAPSHOT, name], cwd=room.folder, capture_output=True, text=True, **more)
    if ran.returncode != status:
        raise Wrong(f"tools/snapshot ended with {ran.returncode}: {ran.stderr}")
    return ran.stderr


def audited(room, copy):
    """What the program says of a copy, in a folder of its own."""
    with tempfile.TemporaryDirectory(dir=place()) as folder:
        for name in ("catalog.json", "key", "people.csv"):
            shutil.copy(f"{room.folder}/{name}", folder)
        shutil.copytree(f"{room.folder}/{copy}", f"{folder}/journals")
        if room.more_words:
            os.rename(f"{folder}/journals/mirrors", f"{folder}/mirrors")
        return room.ran("audit", folder)


def watched(room, copy, *words):
    ran = subprocess.run([WATCH, "catalog.json", copy, *words], cwd=room.folder, capture_output=True, text=True)
    if ran.returncode != 0:
        raise Wrong(f"tools/watch {words} ended with {ran.returncode}: {ran.stderr}")
    return ran.stdout


def judge_watch(room, copy, books):
    told = json.loads(watched(room, copy, "--json"))["owners"]
    text, lines = watched(room, copy), watched(room, copy, "--prometheus").splitlines()
    shares = json.loads(watched(room, copy, "--json", "--analysts"))["analysts"]
    for book in books:
        name, unsettled = book.entry["name"], len(book.reserved) - len(book.settled)
        wanted = {"spent_millionths": book.spent, "budget_millionths": book.budget, "records": len(book.records), "open": unsettled, "lost": 0}
        for what, value in wanted.items():
            if told[name][what] != value or f'hitchseason_{what}{{owner="{name}"}} {value}' not in lines:
                raise Wrong(f"tools/watch: {what} of {name} isn't {value}")
        if f"{name}: spent {book.spent} of" not in text or f"open {unsettled}, lost 0" not in text:
            raise Wrong(f"tools/watch said {text}")
        # One analyst asks everything, of the whole, and has no limit.
        if [tuple(one.values()) for one in shares[name].values()] != ([(book.spent, None)] if book.spent else []):
            raise Wrong(f"tools/watch --analysts said {shares[name]} of {name}, where {book.spent} is spent")


class Copies:
    """What the copies until now held: each owner's book, whose records each later copy begins with, and their bytes."""

    def __init__(self, room):
        self.room, self.entries = room, room.catalog["owners"]
        self.books = [Book(entry, room.analysts) for entry in self.entries]
        self.bytes = [bytearray() for _ in self.entries]

    def goes_on(self, order, data):
        """A copy, or the journal in the end, of one owner: the records that were there before, byte for byte, and more of them."""
        book, capacity = self.books[order], self.entries[order]["capacity"]
        if len(data) < HEAD or data[0] != 0xA5:
            raise Refused(f"uninitialised {len(data)}")
        check_header(data, self.room.heads[order], capacity)
        area, known = live_area(data, capacity), len(book.records)
        if data[area.begin : area.place(known)] != self.bytes[order]:
            raise Wrong(f"owner {order}: a record of the copy before isn't in this one")
        for record in slots(data, capacity, known):
            if not book.add(record):
                raise Wrong(f"owner {order}: record {len(book.records)} may not follow")
        self.bytes[order] += data[area.place(known) : area.place(len(book.records))]

    def judge(self, copy, told):
        """One copy; TOLD are the last numbers that were told before it was begun."""
        for order in range(len(self.entries)):
            self.goes_on(order, contents(f"{self.room.folder}/{copy}/{order}.bud"))
            if told[order] >= 0 and told[order] not in self.books[order].settled:
                raise Wrong(f"owner {order}: number {told[order]} was told before the copy, and isn't settled in it")
        said, due = audited(self.room, copy), "".join(f"{book.counts()}\n" for book in self.books)
        if said != due:
            raise Wrong(f"audit said {said}, and by the second reader it is {due}")


def plain(room, rng):
    """Whether a copy that is read from the first byte to the last, slowly, opens."""
    order = rng.randrange(len(room.names))
    with open(f"{room.folder}/journals/{order}.bud", "rb", buffering=0) as file:
        data = b"".join(iter(lambda: file.read(SLOT), b""))
    try:
        book_of(data, room.heads[order], room.catalog["owners"][order], room.analysts)
        return True
    except Refused:
        return False


def beside_a_service(rng, count, mirrored):
    with tempfile.TemporaryDirectory(dir=place()) as folder:
        capacity = min(2**18, 300 * count + 200)
        room = Room(folder, capacity=capacity, mirrored=mirrored)
        copies, plain_ones = Copies(room), 0
        with Service(room, len(room.names)) as service:
            loads = [Load(service, room, order) for order in range(len(room.names))]
            for number in range(count):
                # So much more room for each copy that the journals last until the last one.
                for load in loads:
                    load.most = (number + 1) * (capacity // 2 - 10) // count
                told, copy = [load.answered for load in loads], f"copy{number}"
                copied(room, copy)
                copies.judge(copy, told)
                if mirrored:
                    watched(room, copy)
                if number % 10 == 0:
                    judge_watch(room, copy, copies.books)
                    plain_ones += not plain(room, rng)
                shutil.rmtree(f"{folder}/{copy}")
            for load in loads:
                load.end()
        for order in range(len(room.names)):
            copies.goes_on(order, room.journal(order))
        if room.ran("audit") != "".join(f"{book.counts()}\n" for book in copies.books):
            raise Wrong("audit counts other records in the end")
        total = sum(len(book.records) for book in copies.books)
        print(f"{count} copies beside {total} records that were written meanwhile: all open; of {-(-count // 10)} plain ones {plain_ones} didn't")


def said_by(copy, room, order):
    try:
        return room.book(order, f"{room.folder}/{copy}").counts()
    except Refused as refusal:
        return str(refusal)


def put_there(room, order, data):
    with open(f"{room.folder}/journals/{order}.bud", "wb") as file:
        file.write(data)


def judge_tools(room, copy, data):
    """What is said of a copy whose journal of owner 1 has these bytes, by tools/watch and by a comparison with the journals, which are as it is."""
    said, name = said_by(copy, room, 1), room.names[1]
    refused = not said.startswith(f"{name} ")
    ran = subprocess.run([WATCH, "catalog.json", copy], cwd=room.folder, capture_output=True, text=True)
    if (ran.returncode, ran.stderr) != ((1, f"journal {name} {said}\n") if refused else (0, "")):
        raise Wrong(f"tools/watch ended with {ran.returncode} and {ran.stderr}, where the copy is {said}")
    ran = subprocess.run([JOURNAL, "--compare", copy, "catalog.json", "key"], cwd=room.folder, capture_output=True, text=True)
    short = f"{name}: the copy has {len(data)} bytes, and no journal has fewer than {HEAD}" in ran.stdout
    last = ran.stdout.splitlines()[-1:] == [f"{room.names[-1]}: records of the copy 0, changed 0, now 0"]
    if (ran.returncode, ran.stderr, short, last) != (int(len(data) < HEAD), "", len(data) < HEAD, True):
        raise Wrong(f"--compare of {len(data)} bytes ended with {ran.returncode}: {ran.stdout}{ran.stderr}")


def other_files():
    """What isn't a journal in service, and what can't be copied."""
    with tempfile.TemporaryDirectory(dir=place()) as folder:
        room = Room(folder, capacity=3000)
        whole = room.journal(1)
        damaged = bytearray(whole)
        damaged[-SLOT] = 0xA5
        older, written = remade(whole, 1), lambda data, place: data[:place] + b"\1" + data[place + 1 :]
        cases = [b"", bytes(500), b"\0" + whole[1:], bytes(damaged), whole[:-1], whole + b"\xa5", whole[: HEAD - 28], whole[:HEAD], older, older[:-1],
            older + b"\xa5", older[:-SLOT] + b"\xa5" + bytes(SLOT - 1), written(older, 100), written(whole, 96), written(whole, 100), remade(whole, 2),
            whole]  # fmt: skip
        for number, data in enumerate(cases):
            put_there(room, 1, data)
            copied(room, f"copy{number}")
            found, due = said_by(f"copy{number}", room, 1), said_by("journals", room, 1)
            if found != due or contents(f"{folder}/copy{number}/1.bud") != data:
                raise Wrong(f"the copy of {data[:10]!r} .. is {found}, and {due} is due")
            judge_tools(room, f"copy{number}", data)
        if "is there already" not in copied(room, "copy0", status=2):
            raise Wrong("a copy that is there isn't refused")
        put_there(room, 1, whole[:9] + b"\x09" + whole[10:])
        if "version 9" not in copied(room, "copy_of_another", status=2) or os.path.exists(f"{folder}/copy_of_another"):
            raise Wrong("a journal of a version that isn't known is copied")
        if [oct(os.stat(f"{folder}/copy0{name}").st_mode)[-3:] for name in ("", "/0.bud")] != ["700", "600"]:
            raise Wrong("others may read a copy")
    print(f"{len(cases)} other files are copied as they are, and what can't be is told")


def ended_early():
    """A disk that is full, and signals: nothing is left of what was copied."""
    with tempfile.TemporaryDirectory(dir=place()) as folder:
        room = Room(folder, capacity=3000)
        said = copied(room, "copy", status=2, preexec_fn=lambda: resource.setrlimit(resource.RLIMIT_FSIZE, (HEAD, HEAD)))
        if not said.endswith("/0.bud: File too large\n"):
            raise Wrong(f"of a full disk tools/snapshot says {said}")
        for number in (signal.SIGTERM, signal.SIGINT, signal.SIGHUP):
            # Behind other work a bench has some of them ignored.
            words = [sys.executable, "-c", SLOW.format(snapshot=SNAPSHOT)]
            running = subprocess.Popen(words, cwd=folder, preexec_fn=lambda: signal.signal(number, signal.SIG_DFL))
            wait_for(f"{folder}/copy.part{running.pid}/0.bud")
            running.send_signal(number)
            if running.wait(30) != 128 + number:
                raise Wrong(f"by signal {number} tools/snapshot ended with {running.returncode}")
        left = [name for name in os.listdir(folder) if name.startswith("copy")]
        if left:
            raise Wrong(f"left of copies that weren't made: {left}")
    print("a copy that ends early leaves nothing")


def no_plain_files():
    """A pipe, a device, a folder and a file of 100 GB that holds nothing, each in a journal's place."""
    with tempfile.TemporaryDirectory(dir=place()) as folder:
        room, made = Room(folder, capacity=3000), []
        lay = {"pipe": os.mkfifo, "device": lambda name: os.symlink("/dev/zero", name), "folder": os.mkdir}
        for what, make in lay.items():
            os.rename(f"{folder}/journals/1.bud", f"{folder}/kept")
            make(f"{folder}/journals/1.bud")
            said = copied(room, "copy", status=2, timeout=60)
            if not said.endswith(f"journals/1.bud: {'Is a directory' if what == 'folder' else 'it is a pipe or a device, and isn' + chr(39) + 't opened'}\n"):
                raise Wrong(f"of a {what} tools/snapshot says {said}")
            ran = subprocess.run([JOURNAL, "catalog.json", "key"], cwd=folder, capture_output=True, text=True, timeout=60)
            if ran.returncode != 2 or "journals/1.bud" not in ran.stderr:
                raise Wrong(f"of a {what} tools/journal.py ended with {ran.returncode}: {ran.stderr}")
            os.rename(f"{folder}/journals/1.bud", f"{folder}/{what}")
            os.rename(f"{folder}/kept", f"{folder}/journals/1.bud")
            made.append(what)
        os.truncate(f"{folder}/journals/1.bud", 100 * 2**30)
        copied(room, "copy", timeout=60)
        size = os.path.getsize(f"{folder}/copy/1.bud")
        if said_by("copy", room, 1) != said_by("journals", room, 1) or size > 2**20 or room.book(1).records:
            raise Wrong(f"the copy of a journal of 100 GB is {said_by('copy', room, 1)}, of {size} bytes")
    print(f"{len(made) + 1} files that are no plain journals are refused, or read as far as areas go")


def wait_for(name):
    until = time.monotonic() + 30
    while not os.path.exists(name):
        if time.monotonic() > until:
            raise Wrong(f"there is no {name}")
        time.sleep(0.01)


def audits_of_copies():
    """Two copies, of which the first is made while an ask is being answered, and the journal as it was before both."""
    with tempfile.TemporaryDirectory(dir=place()) as folder:
        room = Room(folder)
        begun = Reservation(0, WHOLE, 10**6, 1, 1, 10**6, 0, ONE)
        journals = [appended(room.journal(0), room.catalog["owners"][0]["capacity"], records) for records in ([begun], [begun, Settlement(0, 1, 4)], [])]
        kept = ""
        for number, (data, by_copies, otherwise) in enumerate(zip(journals, (0, 0, 1), (0, 1, 1))):
            put_there(room, 0, data)
            copied(room, f"copy{number}")
            kept += subprocess.run([JOURNAL, "catalog.json", "key", f"copy{number}"], cwd=folder, capture_output=True, check=True, text=True).stdout
            with open(f"{folder}/audits", "w") as file:
                file.write(kept)
            found = [subprocess.run([JOURNAL, "--audits", *words, "audits"], cwd=folder, capture_output=True).returncode for words in (["--copies"], [])]
            if found != [by_copies, otherwise]:
                raise Wrong(f"audits of {number + 1} copies: {found}, and {by_copies}, {otherwise} are due")
    ran = subprocess.run([JOURNAL, "--check"], capture_output=True, text=True)
    if (ran.returncode, ran.stdout, ran.stderr) != (0, "all as known\n", ""):
        raise Wrong(f"tools/journal.py --check: {ran.stdout}{ran.stderr}")
    print("audits of copies are held against one another")


def main():
    mirrored = sys.argv[1:2] == ["--mirror"]
    count, seed = numbers(__doc__, 50, 1, words=sys.argv[1 + mirrored :])
    need_program()
    try:
        other_files()
        ended_early()
        no_plain_files()
        audits_of_copies()
        beside_a_service(random.Random(f"snapshots {seed}"), count, mirrored)
    except (Wrong, Refused) as fault:
        print(f"seed {seed}: {fault}")
        sys.exit(1)


if __name__ == "__main__":
    main()
