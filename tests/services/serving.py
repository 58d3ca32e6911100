#!/usr/bin/env python3
"""A service among many connections: cut ones, silent ones, hostile ones, kills, and hours of all.

usage: tests/services/serving.py cut [N]                    100 connections to 16 ports, half of which are cut at random places
       tests/services/serving.py silent [PEERS [WORKERS]]   2 silent peers and 2 ports: each peer takes up to 30 s
       tests/services/serving.py hostile [N]                5,000 hostile lines
       tests/services/serving.py kills [N]                  20 kills of the service among connections
       tests/services/serving.py address                    one service at 127.0.0.2
       tests/services/serving.py soak [SECONDS [BUDGET [RECORDS]]]   20 s of all kinds of connections; with a budget of so many millionths, which ends soon, of
                                                   all owners, and room for so many records of each, which is full soon
       tests/services/serving.py [--quick]                  all of these, so short, or shorter, in less than a minute
--seed S with any of them (PROGRAM=FILE tries another build than tools/build's)

- cut: each answer that came is settled so in its owner's journal, with its epsilon, program and analyst, and no reservation is anything but one
  line that was sent. Each number that is charged is told by `recall`, by the service and by the one that is started behind it.
- silent: an honest client that comes to a port behind peers who say nothing, begin a line and don't end it, or send a byte now and then, is answered within
  30 s times those before it on its port, and 10 s more. (Whole: 200 peers on 16 ports, over six minutes.)
- hostile: each line has a reply that is a named one, and where the line is refused for itself by the second reader (tools/lib/lines.py), that very one.
  Peers that reset, half-close, send over 2^24 bytes or stop in the middle of a line take nothing from those behind them. (Whole: 1,000,000.)
- kills: the journals are journals, begin with what was there before, have each answer that came, and `audit` counts them. (Whole: 1,000.)
- address: a service at one address of this machine is answered there, at each worker's port, and refuses who comes by another address, or by the port
  behind the last worker's.
- soak: the greatest memory at the end is at most 1.1 times that after a tenth of the time, or after 4 s, less 128 bytes for each record that came
  meanwhile, whose room is asked for at the start and used as they come: none where the budget has ended. It is judged from
  60 s on, since a service that is new grows for a while. (Whole: 600.)
It ends with status 1 at the first difference.
"""
import argparse
import concurrent.futures
import hashlib
import os
import random
import shutil
import socket
import sys
import tempfile
import threading
import time
from collections import Counter

sys.path.insert(0, f"{os.path.dirname(os.path.abspath(__file__))}/../lib")
import places  # noqa: E402,F401
from served import AMPLE, ANALYSTS, Caller, Room, Service, Wrong, free_ports, need_program, place
from journal import Refused
from lines import LINE_LIMIT, Line
from meanings import meaning
from runs import chain, unions

WORKERS = 16
# No beginning of these that is shorter is a program.
PROGRAMS = ("size people", "size (union people people)", "let !x = ![1/3] (size people) in x")
HOSTILE = ("size", "", "0 * size people", "size people $", "(" * 65 + "1" + ")" * 65, "size people <= 3", "\0", "é", "1 + " * 4000 + "1",
    "(fun (x : num) => x + x) (size people)", "1125899906842624 * size people", " + ".join(["1"] * 65), '"a text"', "size nobody", "inl[num -o num] 1",
    chain(43, "0 + x", "0 + @ x", 1).decode(), chain(16, "x", "@ (@ x)", 1).decode(), unions(7).decode(), unions(6).decode(), "(" * 4096,
    "(" * 2047 + "1" + ")" * 2047)  # fmt: skip


# Asks, each with an epsilon of its own, by which its record is known.


class Asks:
    def __init__(self, room, rng):
        self.room, self.rng, self.next, self.made, self.lock = room, rng, 1, {}, threading.Lock()

    def ask(self, analyst):
        with self.lock:
            e, self.next = self.next, self.next + 1
            owner, program, part = self.rng.randrange(len(self.room.names)), self.rng.choice(PROGRAMS), self.rng.random() < 0.3
            self.made[owner, e] = (analyst, program)
        kind = f"askpart {self.room.names[owner]} area {'AB'[e % 2]}" if part else f"ask {self.room.names[owner]}"
        return owner, f"{kind} {e // 10**6}.{e % 10**6:06} {program}"


class Heard:
    """Answers that came whole: by owner and number, the value and the charge."""

    def __init__(self):
        self.answers, self.came, self.lock = {}, Counter(), threading.Lock()

    def reply(self, owner, reply):
        words = reply.split(" ")
        with self.lock:
            self.came[" ".join(words[:2]) if words[0] == "no" else words[0]] += 1
            if words[0] != "answer":
                return
            number, value, taken = map(int, words[1:])
            if (owner, number) in self.answers:
                raise Wrong(f"number {number} of owner {owner} was told twice")
            self.answers[owner, number] = value, taken


def judge_books(books, asks, heard):
    """Each answer that came is settled so, and each reservation is one line's, each line's once."""
    for (owner, number), (value, taken) in heard.answers.items():
        settled = books[owner].settled.get(number)
        if settled is None or (settled.outcome, settled.answer) != (1, value) or books[owner].reserved[number].taken != taken:
            raise Wrong(f"answer {number} {value} {taken} of owner {owner} isn't settled so")
    for owner, book in enumerate(books):
        seen = set()
        for one in book.reserved:
            analyst, program = asks.made.get((owner, one.e), (None, ""))
            digest = hashlib.sha256(program.encode()).digest()
            if one.e in seen or analyst is None or ANALYSTS[one.analyst] != analyst or one.program != digest:
                raise Wrong(f"reservation {one.number} of owner {owner} (e {one.e}) is no line's, or a line's twice")
            seen.add(one.e)


def judge_recalls(service, room, books, lost):
    """What `recall` tells each analyst of each number; LOST says what is told of one that has no settlement."""
    with Caller(service.port) as caller:
        for order, name in enumerate(room.names):
            book = books[order]
            for one in book.reserved:
                who, settled = ANALYSTS[one.analyst], book.settled.get(one.number)
                if caller.ask(f"hello {who}") != f"hello {who}":
                    raise Wrong("hello isn't answered")
                said, due = caller.ask(f"recall {name} {one.number}"), f"recall {one.number} {settled.standing() if settled else lost} {len(book.records)}"
                if said != due:
                    raise Wrong(f"{who} was told {said}, and {due} is due")


# Connections, half of which are cut.


class Script:
    """The lines of one connection, and the owner of each that asks."""

    def __init__(self, asks, rng, many):
        self.analyst = rng.choice(ANALYSTS)
        self.lines, self.owners = [f"hello {self.analyst}"], {}
        for _ in range(rng.randint(1, many)):
            owner, line = asks.ask(self.analyst)
            self.owners[len(self.lines)] = owner
            self.lines.append(line)
        self.lines.append("bye")
        self.bytes = "".join(f"{line}\n" for line in self.lines).encode()


def whole(port, script, heard):
    """All lines, one after another or all at once."""
    with Caller(port) as caller:
        caller.say(script.bytes)
        for place, line in enumerate(script.lines):
            said = caller.hear()
            if place in script.owners:
                heard.reply(script.owners[place], said)
            elif said != line:
                raise Wrong(f"{line} was told {said}")
        if not caller.is_at_end():
            raise Wrong("more came behind bye")


def cut(port, script, heard, rng):
    """So many bytes out, so many replies in, and then an end: by a reset, or in good order."""
    caller = Caller(port)
    try:
        caller.say(script.bytes[: rng.randint(0, len(script.bytes))])
        for place in range(rng.choice([0, 0, 1, 2, 5, len(script.lines)])):
            caller.link.settimeout(0.2)
            said = caller.hear()
            if place in script.owners:
                heard.reply(script.owners[place], said)
    except OSError:
        pass
    if rng.random() < 0.5:
        caller.reset()
    else:
        caller.link.close()


def one_connection(service, asks, heard, seed):
    rng = random.Random(f"connection {seed}")
    script, port = Script(asks, rng, 8), service.port + rng.randrange(service.workers)
    if seed % 2:
        cut(port, script, heard, rng)
    else:
        whole(port, script, heard)


def settled_down(service):
    """Each worker has served all that came before: one more on each port is answered, and goes."""
    for worker in range(service.workers):
        with service.caller(worker) as caller:
            if caller.ask("bye") != "bye":
                raise Wrong("bye isn't answered")


def cuts(rng, count):
    with tempfile.TemporaryDirectory(dir=place()) as folder:
        room, heard = Room(folder, capacity=min(2**18, 20 * count + 100)), Heard()
        asks = Asks(room, rng)
        with Service(room, WORKERS) as service, concurrent.futures.ThreadPoolExecutor(2 * WORKERS) as pool:
            for done in [pool.submit(one_connection, service, asks, heard, number) for number in range(count)]:
                done.result()
            settled_down(service)
            books = room.books()
            judge_books(books, asks, heard)
            judge_recalls(service, room, books, "open")
        books = room.audited()
        with Service(room) as service:
            judge_recalls(service, room, books, "lost")
        told = sum(len(book.reserved) for book in books)
        print(f"cut: {count} connections, {told} asks charged, {len(heard.answers)} answers came; {dict(heard.came)}: nothing is missing")


# Silent peers.


def silent_peer(port, kind, stop):
    """Says nothing, or the beginning of a line, or a byte now and then that ends no line."""
    try:
        with Caller(port, seconds=None) as caller:
            if kind == 1:
                caller.say(b"hello an")
            while kind == 2 and not stop.wait(3):
                caller.say(b"x")
            stop.wait()
    except OSError:
        pass


def honest(service, worker, before, limit):
    begun = time.monotonic()
    with service.caller(worker, "ann", seconds=limit + 30) as caller:
        took = time.monotonic() - begun
        caller.ask("bye")
    if took > limit:
        raise Wrong(f"behind {before} silent peers an honest client waited {took:.1f} s, and {limit} are allowed")
    return took


def silent(rng, peers, workers):
    with tempfile.TemporaryDirectory(dir=place()) as folder:
        room, stop = Room(folder), threading.Event()
        with Service(room, workers) as service, concurrent.futures.ThreadPoolExecutor(workers) as pool:
            before = Counter(number % workers for number in range(peers))
            places = [(service.port + number % workers, rng.randrange(3), stop) for number in range(peers)]
            threads = [threading.Thread(target=silent_peer, args=place, daemon=True) for place in places]
            try:
                for thread in threads:
                    thread.start()
                time.sleep(1)
                took = list(pool.map(lambda worker: honest(service, worker, before[worker], 30 * before[worker] + 10), range(workers)))
            finally:
                stop.set()
        allowed = 30 * max(before.values()) + 10
        print(f"silent: {peers} peers on {workers} ports; honest clients waited {min(took):.1f} to {max(took):.1f} s, at most {allowed} allowed")


# Hostile lines.


def hostile_line(rng, room):
    """A line without LF, mostly one that is nearly right."""
    kind = rng.random()
    if kind < 0.15:
        return bytes(rng.choices([byte for byte in range(256) if byte != 10], k=rng.randint(0, 60)))
    mostly = lambda right, *wrong: rng.choice(right) if rng.random() < 0.85 else rng.choice(wrong)
    name, number = mostly(room.names, "nobody", "", "CENSUS"), rng.randrange(20)
    eps = mostly(("1", "0.000001", "0.5"), "0", "1000.0000001", "1e3", "-1", "", "01")
    program, key = rng.choice([*PROGRAMS, *HOSTILE]), mostly("AB", "Z", "")
    asks = [f"ask {name} {eps} {program}", f"askpart {name} area {key} {eps} {program}"] * 4
    others = [f"hello {rng.choice(ANALYSTS)}", f"recall {name} {number}", f"left {name}", f"mine {name}"] * 2
    line = rng.choice([*asks, *others, "hello", f"recall {name} 9999999999", "bye now", "Bye", f" ask {name} 1 1", f"left  {name}"])
    data = bytearray(line.encode())
    for _ in range(rng.choice([0, 0, 0, 1, 2]) if data else 0):
        data[rng.randrange(len(data))] = rng.choice([byte for byte in range(256) if byte != 10])
    if rng.random() < 0.02:
        data += b" " * (LINE_LIMIT - len(data) + rng.randint(-1, 3)) if rng.random() < 0.8 else bytes(100_000)
    return bytes(data) + rng.choice([b"", b"", b"\r"])


def due_of(data, catalog, who):
    """What a line is told that is refused for itself, or nothing; and who speaks behind it."""
    line = Line(data.removesuffix(b"\r"), catalog, who)
    if line.refusal:
        return f"no {line.refusal}", who
    if line.kind == "hello":
        who = line.words["ANALYST"].decode()
        return f"hello {who}", who
    return ("bye" if line.kind == "bye" else None), who


def hostile_connection(service, room, seed, many):
    """So many lines on one connection, which are sent while replies are read; how often which reply came."""
    rng, came, who = random.Random(f"hostile {seed}"), Counter(), None
    lines = [line for line in (hostile_line(rng, room) for _ in range(many)) if line.removesuffix(b"\r") != b"bye"]
    with service.caller(seed % service.workers) as caller:
        sender = threading.Thread(target=lambda: caller.say(b"".join(line + b"\n" for line in lines) + b"bye\n"), daemon=True)
        sender.start()
        for line in lines:
            said = caller.hear()
            due, who = due_of(line, room.catalog, who)
            if meaning(said) is None or (due is not None and said != due):
                raise Wrong(f"{line[:80]!r} was told {said!r}, and {due or 'a named reply'} is due")
            came[" ".join(said.split(" ")[:2]) if said.startswith("no ") else said.split(" ")[0]] += 1
        if caller.hear() != "bye":
            raise Wrong("bye isn't answered")
        sender.join()
    return came


def rude(service, rng, kind):
    """A peer that resets, half-closes, sends too much, or stops in the middle of a line."""
    worker = rng.randrange(service.workers)
    with service.caller(worker) as caller:
        try:
            if kind == 0:
                caller.say(b"hello ann\nask census 1 si")
                caller.reset()
            elif kind == 1:
                caller.say(b"hello ann\r\nleft census")
                caller.link.shutdown(1)
                if caller.hear() != "hello ann" or not caller.hear().startswith("left ") or not caller.is_at_end():
                    raise Wrong("a half-closed connection isn't answered")
            elif kind == 2:
                sent = 0
                while sent <= 2**24:
                    caller.say(b"x" * 65_536)
                    sent += 65_536
                if not caller.is_at_end():
                    raise Wrong("a connection with too many bytes goes on")
        except ConnectionError:
            pass
    with service.caller(worker, "bob") as caller:
        if not caller.ask("left census").startswith("left "):
            raise Wrong("a client behind a rude one isn't answered")


def hostile(rng, count):
    many, came = 500, Counter()
    with tempfile.TemporaryDirectory(dir=place()) as folder:
        room = Room(folder, capacity=2**18)
        with Service(room, 4) as service, concurrent.futures.ThreadPoolExecutor(4) as pool:
            for kind in range(3):
                rude(service, rng, kind)
            seeds = [rng.randrange(2**32) for _ in range(-(-count // many))]
            for found in pool.map(lambda seed: hostile_connection(service, room, seed, min(many, count)), seeds):
                came += found
            settled_down(service)
            if service.process.poll() is not None:
                raise Wrong("the service ended")
        room.audited()
    print(f"hostile: {sum(came.values())} lines, each with a named reply: {', '.join(f'{what} {many}' for what, many in sorted(came.items()))}")


# Kills.


def asked_until_killed(service, asks, heard, seed, ends):
    rng = random.Random(f"kill {seed}")
    while not ends.is_set():
        try:
            whole(service.port + rng.randrange(service.workers), Script(asks, rng, 8), heard)
        except OSError:
            return


def one_kill(room, asks, heard, rng, seed):
    ends = threading.Event()
    with Service(room, 4) as service, concurrent.futures.ThreadPoolExecutor(6) as pool:
        running = [pool.submit(asked_until_killed, service, asks, heard, f"{seed} {number}", ends) for number in range(6)]
        time.sleep(rng.uniform(0, 0.3))
        service.stop()
        ends.set()
        for one in running:
            one.result()


def kills(rng, count):
    with tempfile.TemporaryDirectory(dir=place()) as folder:
        room, heard, times = Room(folder, capacity=2**15), Heard(), 0
        asks, kept, alone, answers = Asks(room, rng), [b""] * 4, 0, 0
        for number in range(count):
            one_kill(room, asks, heard, rng, number)
            books = room.audited()
            judge_books(books, asks, heard)
            for order, book in enumerate(books):
                now = b"".join(record.encoded() for record in book.records)
                if not now.startswith(kept[order]):
                    raise Wrong(f"kill {number + 1}: an earlier record of owner {order} isn't what it was")
                kept[order] = now
            now_alone = sum(len(book.reserved) - len(book.settled) for book in books)
            # Every eighth time the journals get long, since each kill is judged by all of their records.
            if max(len(book.records) for book in books) > (2**14 if times % 8 == 7 else 2**11) and number < count - 1:
                shutil.rmtree(f"{folder}/journals")
                room.ran("init")
                times, answers, alone = times + 1, answers + len(heard.answers), alone + now_alone
                asks, heard, kept = Asks(room, rng), Heard(), [b""] * 4
        with Service(room) as service:
            judge_recalls(service, room, books, "lost")
        print(f"kills: {count}, {answers + len(heard.answers)} answers came, {alone + now_alone} reservations were found without one: no difference")


# Hours.


def soak(rng, seconds, budget, capacity):
    with tempfile.TemporaryDirectory(dir=place()) as folder:
        room, heard = Room(folder, capacity=capacity, budget=budget), Heard()
        asks, first, begun, number = Asks(room, rng), None, time.monotonic(), 0
        # The greatest memory until now, in KiB, and how many records there are.
        measured = lambda: (service.peak(), sum(len(book.records) for book in room.books()))
        with Service(room, 4) as service, concurrent.futures.ThreadPoolExecutor(8) as pool:
            while time.monotonic() < begun + seconds:
                jobs = [pool.submit(one_connection, service, asks, heard, number + more) for more in range(24)]
                jobs += [pool.submit(hostile_connection, service, room, number + more, 50) for more in range(4)]
                for job in jobs:
                    job.result()
                number += 24
                if first is None and time.monotonic() > begun + max(4, seconds / 10):
                    first = measured()
            last = measured()
        (before, few), (after, many) = first or last, last
        said = f"{before} KiB at most at first, behind {few} records, and {after} KiB at the end, behind {many}"
        print(f"soak: {seconds} s, {number} connections and {number // 6} hostile ones; memory {said}")
        if seconds >= 60 and after - 128 * (many - few) / 1024 > 1.1 * before:
            raise Wrong("memory grew by over a tenth")


# Each with its usual numbers, and those of the quick form.
# Where a service listens.


def listens_at(addr, port):
    """Whether somebody listens there, by the system."""
    try:
        socket.create_connection((addr, port), timeout=10).close()
        return True
    except ConnectionRefusedError:
        return False


def address(rng):
    with tempfile.TemporaryDirectory(dir=place()) as folder:
        room, workers = Room(folder), 3
        port = free_ports(workers + 1)
        with Service(room, workers, port=port, addr="127.0.0.2"):
            for worker in range(workers + 1):
                if listens_at("127.0.0.1", port + worker):
                    raise Wrong(f"a service at 127.0.0.2 listens at 127.0.0.1, port {worker} of it")
                if listens_at("127.0.0.2", port + worker) != (worker < workers):
                    raise Wrong(f"port {worker} of a service of {workers} workers at 127.0.0.2")
            for worker in range(workers):
                with socket.create_connection(("127.0.0.2", port + worker), timeout=60) as link:
                    link.sendall(b"hello ann\nbye\n")
                    said = b"".join(iter(lambda: link.recv(4096), b""))
                if said != b"hello ann\nbye\n":
                    raise Wrong(f"a service at 127.0.0.2 told {said!r}")
    print(f"address: {workers} workers at 127.0.0.2, each at its own port, and nobody at 127.0.0.1")


KINDS = {
    "cut": (cuts, [100], [40]), "silent": (silent, [2, 2], [1, 1]), "hostile": (hostile, [5000], [3000]), "kills": (kills, [20], [4]),
    "address": (address, [], []),
    "soak": (soak, [20, AMPLE, 2**18], [8, AMPLE, 2**18]),
}  # fmt: skip


def main():
    words = argparse.ArgumentParser(usage=__doc__, add_help=False)
    words.add_argument("kind", nargs="?", choices=[*KINDS, "all"], default="all")
    words.add_argument("numbers", nargs="*", type=int)
    words.add_argument("--seed", type=int, default=1)
    words.add_argument("--quick", action="store_true")
    given = words.parse_args()
    need_program()
    begun = time.monotonic()
    for name in KINDS if given.kind == "all" else [given.kind]:
        kind, usual, quick = KINDS[name]
        usual = quick if given.quick else usual
        try:
            kind(random.Random(f"{name} {given.seed}"), *given.numbers, *usual[len(given.numbers) :])
        except (Wrong, Refused) as fault:
            print(f"{name}, seed {given.seed}: {fault}")
            sys.exit(1)
    print(f"connections: all as they should be, in {time.monotonic() - begun:.0f} s")


if __name__ == "__main__":
    main()
