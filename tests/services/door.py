#!/usr/bin/env python3
"""tools/door behind a real `sshd` on loopback, two keys and more: who speaks for whom, what gets through, and what doesn't.

usage: tests/services/door.py [COUNT [SEED]]    40 random streams of bytes, unless said (PROGRAM=FILE tries another build than tools/build's)
Needs Debian's openssh-server and openssh-client; it runs an sshd of its own, with keys of its own, for whoever starts it.

- The five lines of README.md, "To a colleague over ssh", in a copy of the repository, with the replies that stand behind them.
- Two keys ask under their own names, by the journal; an attempt to speak for the other, on a line, in the command or in the environment, is
  refused and told, and changes nothing; the other's numbers aren't recalled. A name that the catalog hasn't ends the session.
- `-L`, `-W`, `-D` and `-N` reach nothing, and a terminal isn't given.
- Random streams of bytes, in random pieces, have the replies that the service itself gives: CR LF, a last line without LF, lines at the limit.
- Programs that walk too deep or too much are refused before the service sees them; --tick holds replies; the log says who, when, which owner and what
  was charged, and no answer, and the program's text only where it is wanted. A service that is started late is waited for, one that ends while the
  door waits in its queue from its end on, and what ends each try after some seconds, as haproxy before no service, not without end.
- Names have workers in turn, and one whose worker is busy has another within 0.2 s. What a service never says doesn't go on.
It ends with status 1 at the first difference.
"""
import getpass
import importlib.machinery
import importlib.util
import json
import os
import random
import re
import shutil
import signal
import socket
import subprocess
import sys
import tempfile
import threading
import time
from contextlib import suppress

sys.path.insert(0, f"{os.path.dirname(os.path.abspath(__file__))}/../lib")
import places  # noqa: E402,F401
from beginning import numbers
from served import PROGRAM, TOP, Caller, Room, Service, Wrong, free_ports, is_listened_at, need_program
from lines import LINE_LIMIT

DOOR = f"{TOP}/tools/door"
ASK = "ask census 0.000001 size people"
DEEP = "ask census 1 0 * sum[0,9] (map (fn (x : text * num) => size (filter (fn (y : text * num) => true) people)) people)"
WORKERS = 4
CONFIG = """
Port {port}
ListenAddress 127.0.0.1
HostKey {folder}/host
AuthorizedKeysFile {authorized}
PidFile {folder}/pid
StrictModes no
UsePAM no
PasswordAuthentication no
KbdInteractiveAuthentication no
PermitRootLogin forced-commands-only
"""


def must(what, found, wanted):
    if found != wanted:
        raise Wrong(f"{what}: {found!r}, wanted {wanted!r}")


class Sshd:
    """An sshd of its own, and keys."""

    def __init__(self, folder, authorized):
        self.folder, self.port = folder, free_ports(1)
        self.key("host")
        with open(f"{folder}/sshd_config", "w") as file:
            file.write(CONFIG.format(port=self.port, folder=folder, authorized=authorized))
        if os.geteuid() == 0:
            os.makedirs("/run/sshd", exist_ok=True)
        self.log = open(f"{folder}/sshd.log", "w")
        self.process = subprocess.Popen([shutil.which("sshd", path="/usr/sbin:/sbin:/usr/bin"), "-D", "-e", "-f", f"{folder}/sshd_config"], stderr=self.log)
        until = time.monotonic() + 20
        while not is_listened_at(self.port):
            if self.process.poll() is not None or time.monotonic() > until:
                raise Wrong(f"sshd doesn't listen: {self.said()}")
            time.sleep(0.05)

    def key(self, name):
        subprocess.run(["ssh-keygen", "-q", "-t", "ed25519", "-N", "", "-C", name, "-f", f"{self.folder}/{name}"], check=True)
        with open(f"{self.folder}/{name}.pub") as file:
            return file.read().strip()

    def said(self):
        with open(f"{self.folder}/sshd.log") as file:
            return file.read()

    def words(self, name, *more):
        quiet = ("-F", "/dev/null", "-o", "BatchMode=yes", "-o", "StrictHostKeyChecking=no", "-o", "UserKnownHostsFile=/dev/null", "-o", "LogLevel=ERROR")
        return ["ssh", *quiet, "-o", "IdentitiesOnly=yes", *(("-i", f"{self.folder}/{name}") if name else ()), "-p", str(self.port), *more]

    def close(self):
        self.process.terminate()
        self.process.wait()
        self.log.close()


class Gateway(Sshd):
    """With a line in authorized_keys for each key."""

    def __init__(self, folder, service):
        super().__init__(folder, f"{folder}/authorized_keys")
        self.service = service
        self.options = {"ann": "", "bob": "", "dora": "", "eve": "--deepest any --tick 0.5 --programs", "mild": "--most 50000000"}
        with open(f"{folder}/authorized_keys", "w") as file:
            for name, more in self.options.items():
                catalog = "" if "any" in more else f"--catalog {service.room.folder}/catalog.json"
                who = "ann" if name == "mild" else name
                command = f"{DOOR} {who} {service.port} {WORKERS} {catalog} --log {folder}/log.{name} {more}"
                file.write(f'restrict,command="{command}" {self.key(name)}\n')

    def told(self, name, lines, *more, command=(), status=0):
        """The replies to lines, by ssh with a key."""
        data = lines if isinstance(lines, bytes) else "".join(f"{line}\n" for line in lines).encode()
        ran = subprocess.run([*self.words(name, *more), f"{getpass.getuser()}@127.0.0.1", *command], input=data, capture_output=True, timeout=120)
        if ran.returncode != status:
            raise Wrong(f"ssh by {name} ended with {ran.returncode}: {ran.stdout!r} {ran.stderr!r} {self.said()[-2000:]}")
        return ran.stdout.decode().splitlines()

# Who is who.


def names(gate, room):
    said = gate.told("ann", [ASK, "hello ann", "recall census 0", "bye", "left census"])
    must("ann's numbers", [line.split(" ")[:2] for line in said], [["answer", "0"], ["hello", "ann"], ["recall", "0"], ["bye"]])
    refused = "door hello: this key speaks for bob alone"
    said = gate.told("bob", ["hello ann", ASK, "recall census 0", "recall census 1", "hello", "hello  ann", "hello ann\r", "bye"])
    must("bob speaks for ann", [said[place] for place in (0, 4, 5, 6)], [refused] * 4)
    must("bob recalls", [said[1].split(" ")[:2], said[2], said[3].split(" ")[:3]], [["answer", "1"], "no 61 0 4", ["recall", "1", "answer"]])
    said = gate.told("bob", [ASK, "bye"], "-o", "SetEnv=NAME=ann LC_NAME=ann", command=("hello ann; tools/door", "ann", "--deepest", "any"))
    must("bob by a command and the environment", said[0].split(" ")[:2], ["answer", "2"])
    must("the journal's analysts", [room.analysts[one.analyst] for one in room.book(0).reserved], ["ann", "bob", "bob"])
    must("a name that isn't in the catalog", gate.told("dora", [ASK], status=1), ["door closed: the service refuses dora: no 12 1"])


def forwarding(gate, room, service):
    """Nothing is reached but the door."""
    before = [len(book.records) for book in room.books()]
    here, there = f"{getpass.getuser()}@127.0.0.1", f"127.0.0.1:{service.port}"
    ran = subprocess.run([*gate.words("ann", "-W", there), here], input=b"left census\n", capture_output=True, timeout=60)
    must("-W", (ran.returncode != 0, ran.stdout), (True, b""))
    for way, said in (("-L", b"left census\n"), ("-D", b"\5\1\0")):
        port = free_ports(1)
        words = gate.words("ann", "-N", way, f"{port}:{there}" if way == "-L" else str(port))
        tunnel = subprocess.Popen([*words, here], stdin=subprocess.DEVNULL, stderr=subprocess.PIPE)
        try:
            must(f"{way} gets through", through(port, said, service.port if way == "-D" else None), b"")
            must(f"-N with {way} ended", tunnel.poll(), None)
        finally:
            tunnel.kill()
            tunnel.wait()
            tunnel.stderr.close()
    words = gate.words("ann", "-N", "-o", "ExitOnForwardFailure=yes", "-R", f"0:{there}")
    must("-R", subprocess.run([*words, here], stdin=subprocess.DEVNULL, capture_output=True, timeout=60).returncode != 0, True)
    ran = subprocess.run([*gate.words("ann", "-tt"), here], input=b"bye\n", capture_output=True, timeout=60)
    must("a terminal is refused", b"PTY allocation request failed" in ran.stderr, True)
    must("records", [len(book.records) for book in room.books()], before)


def through(port, said, by_socks):
    """What comes back from a port that is forwarded, but for what ssh itself says of SOCKS."""
    until = time.monotonic() + 20
    while not is_listened_at(port):
        if time.monotonic() > until:
            raise Wrong("ssh doesn't listen")
        time.sleep(0.05)
    with socket.create_connection(("127.0.0.1", port), timeout=20) as link:
        try:
            link.sendall(said)
            if by_socks is None:
                return link.recv(100)
            must("SOCKS", link.recv(2), b"\5\0")
            link.sendall(b"\5\1\0\1\x7f\0\0\1" + by_socks.to_bytes(2, "big"))
            answer = link.recv(10)
            if answer[1:2] == b"\0":
                link.sendall(b"left census\n")
                return link.recv(100)
            return b""
        except ConnectionError:
            return b""


# What gets through.


def stream(rng):
    """Lines that change nothing, of all kinds of ends."""
    lines = []
    for _ in range(rng.randint(1, 8)):
        line = rng.choice([b"left census", b"", b"\r", b"left nobody", b"recall census 99", b"ask", b"no line", b"left census\r", b"\xff\0", b"hellox ann"])
        if rng.random() < 0.3:
            line += b" " * (LINE_LIMIT - len(line) + rng.randint(-2, 4)) + rng.choice([b"", b"\r", b"\r\r"])
        if rng.random() < 0.1:
            line = b"hello bob " + b"x" * 200_000
        lines.append(line)
    data = b"\n".join(lines) + rng.choice([b"", b"\n", b"\r", b"\nbye", b"\nbye\n"])
    return data


def by_door(service, data, rng, *words):
    """What the door says, to which bytes come in pieces."""
    pipes = {name: subprocess.PIPE for name in ("stdin", "stdout", "stderr")}
    ran = subprocess.Popen([DOOR, "ann", str(service.port), str(WORKERS), *(words or ("--deepest", "any"))], **pipes)

    def feed():
        try:
            at = 0
            while at < len(data):
                count = rng.choice([1, 7, 1000, 16_384, 100_000])
                ran.stdin.write(data[at : at + count])
                ran.stdin.flush()
                at += count
            ran.stdin.close()
        except OSError:
            pass

    feeder = threading.Thread(target=feed)
    feeder.start()
    said, noise = ran.stdout.read(), ran.stderr.read()
    feeder.join()
    status = ran.wait()
    for file in (ran.stdout, ran.stderr):
        file.close()
    must("the door's status and noise", (status, noise), (0, b""))
    return said


def by_service(service, data):
    """What the service says to the same bytes behind a hello."""
    with Caller(service.port, "ann") as caller:
        sender = threading.Thread(target=lambda: (caller.say(data), caller.link.shutdown(socket.SHUT_WR)), daemon=True)
        sender.start()
        said = b"".join(iter(lambda: caller.link.recv(65_536), b""))
        sender.join()
        return said


def streams(service, rng, count):
    for number in range(count):
        data = stream(rng)
        found, due = by_door(service, data, rng), by_service(service, data)
        if found != due:
            raise Wrong(f"stream {number}, {data[:200]!r} ..: by the door {found!r}, by the service {due!r}")


# What is refused, held and kept.


def limits(gate, room):
    before = len(room.book(0).records)
    said = gate.told("ann", [DEEP, "ask census 1 size (filter (fn (x : text * num) => true) people)", "bye"])
    must("a program that is too deep", said[0], "door deep 2: the program walks rows 2 deep, and 1 is allowed")
    must("a program that isn't", said[1].split(" ")[0], "answer")
    must("records", len(room.book(0).records), before + 2)
    must("a program without a limit", gate.told("eve", [DEEP, "bye"])[0].split(" ")[0], "answer")
    wide = "size (filter (fn (x : text * num) => true) (" + "union people (" * 20 + "people" + ")" * 20 + "))"
    said = gate.told("mild", [f"ask census 0.000001 {wide}", "ask census 0.000001 size people", "askpart census area A 1 size nobody", "bye"])
    must("a program that may visit too much", said[0].split(" ")[:2], ["door", "most"])
    must("others", [said[1].split(" ")[0], said[2].split(" ")[:2]], ["answer", ["no", "30"]])


def ticks(gate):
    run = subprocess.Popen([*gate.words("eve"), f"{getpass.getuser()}@127.0.0.1"], stdin=subprocess.PIPE, stdout=subprocess.PIPE)
    late = []
    for line in (b"left census\n", b"hello ann\n", b"left census\n", b"bye\n"):
        run.stdin.write(line)
        run.stdin.flush()
        run.stdout.readline()
        late.append(time.time() % 0.5)
    run.stdin.close()
    run.wait()
    run.stdout.close()
    if sorted(late)[len(late) // 2] > 0.1:
        raise Wrong(f"replies came {late} s behind a tick of 0.5 s")


def logs(gate, room):
    kept = {}
    for name in gate.options:
        with open(f"{gate.folder}/log.{name}") as file:
            kept[name] = [json.loads(line) for line in file]
        must("the log's mode", oct(os.stat(f"{gate.folder}/log.{name}").st_mode)[-3:], "600")
    asked = [one for one in kept["ann"] if one["kind"] == "ask"]
    first = {key: value for key, value in asked[0].items() if key != "time"}
    must("ann's first ask", first, {"analyst": "ann", "kind": "ask", "owner": "census", "eps": "0.000001", "reply": "answer", "number": 0, "taken": 1})
    must("a refusal of the door", [one["reply"] for one in asked if one["taken"] == 0], ["door deep"])
    must("bob's hello of another", [one["reply"] for one in kept["bob"] if one["kind"] == "hello"], ["door hello"] * 4)
    must("programs", [[one["kind"] for one in entries if "program" in one] for entries in kept.values()], [[], [], [], ["ask"], []])
    must("the charges", sum(one.get("taken") or 0 for entries in kept.values() for one in entries), room.book(0).spent)
    begun = [one for entries in kept.values() for one in entries if one["kind"] == "begin"]
    must("ports", {one["port"] - gate.service.port for one in begun} <= set(range(WORKERS)) and all(one["waited"] >= 0 for one in begun), True)


def late_service(room):
    """A door that is there before the service waits for it."""
    port = free_ports(WORKERS)
    words = [DOOR, "ann", str(port), str(WORKERS), "--deepest", "any"]
    run = subprocess.Popen(words, stdin=subprocess.PIPE, stdout=subprocess.PIPE)
    time.sleep(1.5)
    with Service(room, WORKERS, port=port):
        said = run.communicate(b"left census\nbye\n", timeout=60)[0]
    must("a service that is late", (said.split(b" ")[0], run.returncode), (b"left", 0))


def hurried(folder):
    """The door as a file of its own, which waits for 2 s."""
    with open(DOOR) as file:
        text = file.read()
    patience = "PATIENCE, TOLD_AFTER = 20, 5"
    must("the door's patience", text.count(patience), 1)
    with open(f"{folder}/door", "w") as file:
        file.write(text.replace(patience, "PATIENCE, TOLD_AFTER = 2, 5"))
    os.chmod(f"{folder}/door", 0o755)
    return f"{folder}/door"


def at_door(door, port):
    pipes = {name: subprocess.PIPE for name in ("stdin", "stdout")}
    return subprocess.Popen([door, "ann", str(port), "1", "--deepest", "any"], stderr=subprocess.DEVNULL, **pipes)


def service_comes_back(folder):
    """A service that isn't there at first, has the door in its queue for longer than it waits for one that is away, ends, and is started anew."""
    port = free_ports(1)
    run = at_door(hurried(folder), port)
    time.sleep(1)
    with socket.create_server(("127.0.0.1", port)):
        time.sleep(4)
    with socket.create_server(("127.0.0.1", port)) as service:
        service.settimeout(20)
        try:
            link = service.accept()[0]
        except OSError:
            raise Wrong(f"a service that comes back isn't waited for: {run.communicate()[0]!r}") from None
        with link:
            must("said to the service that comes back", link.recv(100), b"hello ann\n")
            link.sendall(b"hello ann\n")
            must("behind a service that comes back", (run.communicate(timeout=20)[0], run.returncode), (b"", 0))


def no_service_behind(folder):
    """What takes connections in and ends each after a while."""
    port = free_ports(1)
    with socket.create_server(("127.0.0.1", port)) as front:
        front.settimeout(0.2)
        run, until = at_door(hurried(folder), port), time.monotonic() + 30
        while run.poll() is None:
            if time.monotonic() > until:
                run.kill()
                raise Wrong("the door tries without end")
            try:
                link = front.accept()[0]
            except OSError:
                continue
            time.sleep(1.2)
            link.close()
    must("no service", (run.communicate()[0], run.returncode), (b"door closed: the service isn't there; nothing was asked\n", 1))


def bad_words():
    for words in (["ann", "7000"], ["ann", "7000", "17", "--deepest", "any"], ["ann", "7000", "4"], ["an\n", "7000", "4", "--deepest", "any"],
            ["ann", "7000", "4", "--deepest", "any", "--most", "9"], ["ann", "7000", "4", "--deepest", "any", "--tick", "0"]):  # fmt: skip
        ran = subprocess.run([DOOR, *words], stdin=subprocess.DEVNULL, capture_output=True)
        must(f"door {words}", (ran.returncode, ran.stdout), (2, b""))
    ran = subprocess.run([DOOR, "ann", "7000", "4", "--catalog", "/no/catalog"], stdin=subprocess.DEVNULL, capture_output=True, text=True)
    must("no catalog", (ran.returncode, ran.stdout), (1, "door closed: the catalog can't be read; tell the operator\n"))


# Whose worker is whose.


def dealt(room):
    """Names have workers in turn, by their places in the catalog, and each name all ports."""
    loader = importlib.machinery.SourceFileLoader("door", DOOR)
    door = importlib.util.module_from_spec(importlib.util.spec_from_loader("door", loader))
    loader.exec_module(door)
    for workers in range(1, 17):
        ports = [door.ports_of(name, 7000, workers, room.catalog) for name in room.analysts]
        must("first ports", [one[0] for one in ports], [7000 + place % workers for place in range(len(room.analysts))])
        must("all ports", [sorted(one) for one in ports], [list(range(7000, 7000 + workers))] * len(ports))
    must("without a catalog", door.ports_of("ann", 7000, 4, None), door.ports_of("ann", 7000, 4, None))


class Session:
    """A door that stays: `begun` is what its log says of its beginning."""

    def __init__(self, folder, name, service):
        self.log = f"{folder}/turns.{name}"
        words = [DOOR, name, str(service.port), str(service.workers), "--catalog", f"{service.room.folder}/catalog.json", "--log", self.log]
        self.process = subprocess.Popen(words, stdin=subprocess.PIPE, stdout=subprocess.PIPE, stderr=subprocess.PIPE)

    def begun(self, seconds):
        until = time.monotonic() + seconds
        while time.monotonic() < until:
            with suppress(FileNotFoundError, IndexError), open(self.log) as file:
                return json.loads(file.readlines()[0])
            time.sleep(0.02)
        return None

    def end(self):
        self.process.communicate(timeout=60)


def turns(folder, room):
    """Three analysts at two workers: ann's and eve's places are those of the first one. Nobody waits while a worker is idle; who waits for both has
    the first that is free. The longest wait is said."""
    with Service(room, 2) as service:
        waits = []
        for _ in range(3):
            sessions = []
            for name in ("ann", "eve"):
                sessions.append(Session(folder, name, service))
                begun = sessions[-1].begun(30)
                must(f"{name} is served", (begun or {}).get("kind"), "begin")
                waits.append(begun["waited"])
            must("two workers", len({one.begun(1)["port"] for one in sessions}), 2)
            third = Session(folder, "bob", service)
            must("bob waits for both", third.begun(1), None)
            sessions[1].end()
            must("bob has the one that is free", third.begun(10)["port"], sessions[1].begun(1)["port"])
            for one in (sessions[0], third):
                one.end()
            for name in ("ann", "bob", "eve"):
                os.unlink(f"{folder}/turns.{name}")
        if sorted(waits)[-2] > 0.2:
            raise Wrong(f"beside an idle worker analysts waited {waits} s")
    return max(waits)


def lying(folder):
    """A service that says what none says: none of it goes on, and the session ends."""
    long, rest = b"9" * 41, b"left 0 1 0\n"
    for hello in (True, False):
        for said in (b"no 52\x1b]0;x\x07\n", b"left \xc2\x9b31m\n", b"left 0 " + long + b" 0\n", b"x" * 20_000)[2 * hello :]:
            port = free_ports(1)
            with socket.create_server(("127.0.0.1", port)) as service:
                service.settimeout(20)
                run = at_door(DOOR, port)
                with service.accept()[0] as link:
                    must("said to the service", link.recv(100), b"hello ann\n")
                    link.sendall(said if hello else b"hello ann\n")
                    if not hello:
                        run.stdin.write(b"left census\n")
                        run.stdin.flush()
                        link.recv(100)
                        link.sendall(said)
                    with suppress(OSError):
                        link.sendall(rest)
                    found = run.communicate(timeout=30)[0]
            must(f"behind {said[:40]}", (found, run.returncode), (b"door closed: what the service said is no reply; tell the operator\n", 1))


# The page.


def five_lines(folder):
    """Those of README.md, as they stand there, but for the port, with a home of their own and an sshd that is found under the name HOST."""
    with open(f"{TOP}/README.md", encoding="utf-8") as file:
        found = re.search(r"## To a colleague over ssh.*?```console\n(.*?)```\n\n(.*?) come back", file.read(), re.S)
    lines, due = found[1].splitlines(), re.findall("`(.*?)`", found[2])
    must("lines", len(lines), 5)
    port, repository, home = str(free_ports(1)), f"{folder}/repository", f"{folder}/home"
    for name in subprocess.run(["git", "ls-files"], cwd=TOP, capture_output=True, check=True, text=True).stdout.split():
        os.makedirs(os.path.dirname(f"{repository}/{name}"), exist_ok=True)
        shutil.copy2(f"{TOP}/{name}", f"{repository}/{name}")
    os.mkdir(f"{repository}/out")
    shutil.copy(PROGRAM, f"{repository}/out/hitchseason")
    os.makedirs(f"{home}/.ssh")
    gate = Sshd(folder, f"{home}/.ssh/authorized_keys")
    try:
        gate.key("mia")
        for name in ("mia", "mia.pub"):
            shutil.copy(f"{folder}/{name}", f"{repository}/{name.upper().replace('PUB', 'pub')}")
        os.mkdir(f"{folder}/bin")
        with open(f"{folder}/bin/ssh", "w") as file:
            file.write(f"#!/bin/sh\nexec {' '.join([shutil.which('ssh'), *gate.words(None)[1:]])} -l {getpass.getuser()} -o Hostname=127.0.0.1 \"$@\"\n")
        os.chmod(f"{folder}/bin/ssh", 0o755)
        follow("\n".join(lines).replace("7000", port).splitlines(), due, repository, {**os.environ, "HOME": home, "PATH": f"{folder}/bin:{os.environ['PATH']}"})
    finally:
        gate.close()


def follow(lines, due, repository, given):
    shell = {"cwd": repository, "env": given, "stdin": subprocess.DEVNULL, "stderr": subprocess.PIPE, "text": True}
    with tempfile.TemporaryFile("w+") as out:
        ran = subprocess.run(["bash", "-ec", "\n".join([*lines[:4], "echo kept $!"])], stdout=out, **shell)
        out.seek(0)
        said = out.read().split()
    must(f"the first four lines said {said} {ran.stderr}", (ran.returncode, said[-2:-1]), (0, ["kept"]))
    try:
        ran = subprocess.run(["bash", "-ec", lines[4]], stdout=subprocess.PIPE, timeout=120, **shell)
        must(f"the last line {ran.stderr}", ran.stdout.splitlines(), due)
    finally:
        os.kill(int(said[-1]), signal.SIGTERM)


def tried(rng, count):
    bad_words()
    with tempfile.TemporaryDirectory() as folder:
        lying(folder)
        service_comes_back(folder)
        no_service_behind(folder)
    with tempfile.TemporaryDirectory() as folder:
        five_lines(folder)
    with tempfile.TemporaryDirectory() as folder:
        os.mkdir(f"{folder}/service")
        room = Room(f"{folder}/service")
        with Service(room, WORKERS) as service:
            gate = Gateway(folder, service)
            try:
                names(gate, room)
                forwarding(gate, room, service)
                limits(gate, room)
                ticks(gate)
                logs(gate, room)
            finally:
                gate.close()
            streams(service, rng, count)
        late_service(room)
        dealt(room)
        longest = turns(folder, room)
        room.audited()
    return longest


def main():
    count, seed = numbers(__doc__, 40, 1)
    if not all(shutil.which(name, path=f"{os.environ['PATH']}:/usr/sbin:/sbin") for name in ("sshd", "ssh", "ssh-keygen")):
        print("there is no sshd or no ssh: apt-get install -y openssh-server openssh-client", file=sys.stderr)
        sys.exit(2)
    need_program()
    try:
        longest = tried(random.Random(f"door {seed}"), count)
    except Wrong as fault:
        print(f"seed {seed}: {fault}")
        sys.exit(1)
    print(f"two keys ask under their own names, and nothing else is reached; beside an idle worker at most {longest:.3f} s are waited")
    print(f"{count} streams as by the service")


if __name__ == "__main__":
    main()
