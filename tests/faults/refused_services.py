#!/usr/bin/env python3
"""Refuses allocation 1, 2, 3, .. of an `init`, of a service that serves two connections, and of a generated run, alone and with all later ones.

usage: tests/faults/refused_services.py     (PROGRAM=FILE tries another build than the proved one). Needs cc. `tests/faults/refused_memory.sh --services` calls it.
- init: status 7 and the line `memory`, or all was done. Each journal is none that opens, or one without records, and where all was done they open.
- serve: its connections come one after another. Each asks the whole and a part, asks what is refused, recalls and looks at the balance. The service ends
  with status 7 and `memory` before it listens, or where a connection was dropped, which was told nothing; else with status 0. Each reply is the second
  server's (tools/reference.py), but that an ask may be told `no 90`, which takes nothing, or `no 51` with its number, which is charged. The journal is opened then, has all that was told, and nothing else; the next run's
  number is new.
- gen: status 7 and the line `memory`, or the line that is due.
It ends with status 1 at another end, and where one of these never came.
"""
import os
import socket
import subprocess
import sys
import tempfile
import time
from collections import Counter

sys.path.insert(0, f"{os.path.dirname(os.path.abspath(__file__))}/../lib")
import places  # noqa: E402,F401
from refused_runs import TOP, Wrong, ask_is
from served import PEOPLE, free_ports, is_listened_at, place

PROGRAM = os.path.abspath(os.environ.get("PROGRAM", f"{TOP}/crates/hitchseason/out/hitchseason"))
from catalog import catalog, owner, read  # noqa: E402
from journal import Refused, book_of, contents, header  # noqa: E402
from reference import Server, generated, house_of, key_words  # noqa: E402

TABLES = (("people", "people.csv", (("town", "text"), ("age", "num"))),)
HOUSE = catalog(owner(tables=TABLES, partitions=(("area", "people", "town", ("A", "B")),)), owner("labour", TABLES, capacity=70))
LINES = ["hello ann", "ask census 0.01 size (filter (fn (p : text * num) => let (t, n) = p in n <= 30) people)", "askpart census area A 0.02 size people",
    "ask census 0.01 size (people", "ask census 1000 size people", "recall census 0", "left census", "bye"]  # fmt: skip
EACH = 2
SEED, ASKS = 7, 12


class Room:
    def __init__(self, folder, library):
        os.chdir(folder)
        self.library = f"{library}/refuse.so"
        for name, data in (("key", bytes(32)), ("cat.json", HOUSE), ("people.csv", PEOPLE)):
            with open(name, "wb") as file:
                file.write(data)
        subprocess.run(["cc", "-O1", "-shared", "-fPIC", "-o", self.library, f"{TOP}/tests/faults/refuse_allocation.c", "-ldl"], check=True)
        self.house, self.entries = house_of(HOUSE, {"people.csv": PEOPLE}.__getitem__), read(HOUSE)["owners"]
        self.heads = [header(HOUSE, order, bytes(32), contents) for order in range(len(self.entries))]
        self.port = free_ports(1)
        self.afresh()
        self.ran("init")
        self.empty = self.files()

    @staticmethod
    def files():
        return {name: contents(f"journals/{name}") for name in sorted(os.listdir("journals"))} if os.path.isdir("journals") else {}

    @staticmethod
    def afresh(files=None):
        subprocess.run(["rm", "-rf", "journals"], check=True)
        if files:
            os.mkdir("journals")
        for name, data in (files or {}).items():
            with open(f"journals/{name}", "wb") as file:
                file.write(data)

    def given(self, refusals):
        return {**os.environ, "LD_PRELOAD": self.library, **refusals} if refusals else os.environ

    def ran(self, command, *words, script="", **refusals):
        words = words or ("cat.json", "key")
        ran = subprocess.run([PROGRAM, command, *words], input=script, capture_output=True, text=True, env=self.given(refusals))
        return ran.returncode, ran.stdout, ran.stderr

    def books(self):
        return [book_of(contents(f"journals/{order}.bud"), head, entry, range(2)) for order, (head, entry) in enumerate(zip(self.heads, self.entries))]


# What is tried: each makes its folder ready, does it with these refusals, and gives what came of it and what was written to standard error.


def making(room, refusals):
    room.afresh()
    status, said, faults = room.ran("init", **refusals)
    if status == 0:
        if room.files() != room.empty or any(book.records for book in room.books()):
            raise Wrong("the journals aren't as an init leaves them")
        return "right", faults
    if (status, said) not in ((7, "memory\n"), (7, "")):
        raise Wrong(f"status {status} and {said!r}")
    for order, (head, entry) in enumerate(zip(room.heads, room.entries)):
        data = room.files().get(f"{order}.bud", b"")
        try:
            if book_of(data, head, entry, range(2)).records:
                raise Wrong("records in a new journal")
        except Refused as refusal:
            if not str(refusal).startswith("uninitialised"):
                raise Wrong(f"owner {order}: {refusal}") from None
    return "memory", faults


def replies_of(port, process):
    """What each connection is told to all lines at once, once the service listens; nothing where it ended before."""
    until = time.monotonic() + 30
    while not is_listened_at(port):
        if process.poll() is not None:
            return None
        if time.monotonic() > until:
            raise Wrong("serve doesn't listen")
        time.sleep(0.002)
    return [told_at(port) for _ in range(EACH)]


def told_at(port):
    told = b""
    with socket.create_connection(("127.0.0.1", port), timeout=30) as link:
        try:
            link.sendall("".join(f"{line}\n" for line in LINES).encode())
            while piece := link.recv(65_536):
                told += piece
        except ConnectionError:
            pass
    return told.decode()


def serving(room, refusals):
    room.afresh(room.empty)
    words = [PROGRAM, "serve", "cat.json", "key", "--port", str(room.port), "--each", str(EACH)]
    process = subprocess.Popen(words, stdin=subprocess.DEVNULL, stdout=subprocess.PIPE, stderr=subprocess.PIPE, text=True, env=room.given(refusals))
    told = replies_of(room.port, process)
    said, faults = process.communicate(timeout=60)
    if (process.returncode, said) not in (((0, ""),) if told and all(told) else ((7, "memory\n"), (7, ""))):
        raise Wrong(f"status {process.returncode} and {said!r}, and the connections were told {told!r}")
    server, came = Server(room.house, key_words(bytes(32))), [] if told else ["memory"]
    for one in told or ():
        came += judged(server, one.splitlines()) if one else ["unread"]
    left(room, server)
    return next((what for what in ("memory", "unread", "no 51", "no 90") if what in came), "right"), faults


def judged(server, replies):
    if len(replies) != len(LINES):
        raise Wrong(f"{len(replies)} replies: {replies}")
    came = []
    for line, found in zip(LINES, replies):
        if line.startswith("ask"):
            came.append(ask_is(server, line.encode(), found))
        elif found != server.reply(line.encode()):
            raise Wrong(f"{found} to {line}")
    return came


def left(room, server):
    """The journals have what was told, and a run goes on."""
    census, other = room.books()
    due = list(server.owners[b"census"].reservations)
    found = [(b"ann", census.settled[one.number].standing() if one.number in census.settled else "lost") for one in census.reserved]
    if found != due or other.records or census.spent != server.owners[b"census"].spent:
        raise Wrong(f"the journal has {found}, and {due} was told")
    status, said, _ = room.ran("run", script="hello ann\nask census 0.01 size people\n")
    if status != 0 or said.splitlines()[-1].split()[:2] != ["answer", str(len(due))]:
        raise Wrong(f"the next run ended with {status} and said {said!r}")


def generating(room, refusals):
    status, said, faults = room.ran("gen", str(SEED), str(ASKS), **refusals)
    if (status, said) == (0, generated(SEED, ASKS) + "\n"):
        return "right", faults
    if (status, said) not in ((7, "memory\n"), (7, "")):
        raise Wrong(f"status {status} and {said!r}")
    return "memory", faults


def turns(room, name, what, wanted):
    """Each allocation so refused in turn. How many ends were wrong, and a row."""
    count, wrong, came = int(what(room, {"TELL": "1"})[1]), 0, Counter()
    for later in ({}, {"REFUSE_ALL": "1"}):
        for number in range(1, count + 1):
            try:
                came[what(room, {"REFUSE": str(number), **later})[0]] += 1
            except (Wrong, Refused) as fault:
                wrong += 1
                print(f"{name}, allocation {number} {'and all later' if later else ''}: {fault}")
    lacking = [end for end in wanted if not came[end]]
    parts = ", ".join(f"{came[end]} {end}" for end in wanted)
    print(f"{name}: {count} allocations, of {2 * count} ends {parts}, {wrong} wrong{'; never ' + ', '.join(lacking) if lacking else ''}", flush=True)
    return wrong + len(lacking)


def main():
    if not os.access(PROGRAM, os.X_OK):
        print(f"there is no {PROGRAM}: run 'rt run' in crates/hitchseason first, which proves and builds it")
        sys.exit(2)
    # No library is loaded from memory in some places.
    with tempfile.TemporaryDirectory(dir=place()) as folder, tempfile.TemporaryDirectory() as library:
        room = Room(folder, library)
        wrong = turns(room, "init", making, ["memory", "right"])
        wrong += turns(room, "serve", serving, ["memory", "unread", "no 90", "no 51", "right"])
        wrong += turns(room, "gen", generating, ["memory", "right"])
        os.chdir(TOP)
    sys.exit(1 if wrong else 0)


if __name__ == "__main__":
    main()
