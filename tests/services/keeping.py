#!/usr/bin/env python3
"""A service that is kept: started again after its end and after a kill, rolled over to another folder, and stopped (tools/keep_serving); the unit.

usage: tests/services/keeping.py    (PROGRAM=FILE tries another build than tools/build's)
- After `--each` connections, and after SIGKILL, the next connection is served, with new numbers, and what was answered before is recalled.
- A link that leads to another folder is followed at the next start, and both folders' journals open.
- A port in use and journals that another process has are waited for; tools/why says which process it is. A missing file ends it with 3, another key with 4.
- SIGTERM to the script ends both, with status 0, and gives the port and the journals back. It does so at once just behind a start, where the program
  isn't there yet, and before a pause, and a program that ends late is told some times, and waited for.
- A worker that has served its connections answers nobody while another one hasn't, until the program's time is over and it is started again.
- A relative folder is found where CDPATH is said.
- Beside `mirrors` it wants --mirror, and with that both files of each owner: it ends with 2, and with 6, but goes on with one where it is told ALONE=yes.
- examples/service: the unit passes `systemd-analyze verify`, the rules of loopback `nft -c`, where these are installed.
It ends with status 1 where one differs.
"""
import fcntl
import os
import re
import shutil
import signal
import socket
import subprocess
import sys
import tempfile
import time

sys.path.insert(0, f"{os.path.dirname(os.path.abspath(__file__))}/../lib")
import places  # noqa: E402,F401
from served import PROGRAM, TOP, Caller, Room, Wrong, free_ports, is_listened_at, need_program, place

ASK = "ask census 1 size people"
UNITS = [f"hitchseason{name}" for name in (".service", "-shut.service", "-shut.timer", "-page.service", "-page.timer")]
UNIT, RULES = f"{TOP}/examples/service/hitchseason.service", f"{TOP}/examples/service/loopback.nft"


def children(process):
    found = []
    for name in filter(str.isdigit, os.listdir("/proc")):
        try:
            with open(f"/proc/{name}/stat", encoding="ascii", errors="replace") as file:
                parent = int(file.read().rsplit(")", 1)[1].split()[1])
        except OSError:
            continue
        if parent == process:
            found.append(int(name))
    return found


def words_of(process):
    try:
        with open(f"/proc/{process}/cmdline", encoding="utf-8", errors="replace") as file:
            return file.read().split("\0")
    except OSError:
        return []


class Kept:
    """tools/keep_serving over a folder, and what it says on standard error; MORE is put into its environment."""

    def __init__(self, folder, each, port=None, workers=1, cwd=None, more_words=(), **more):
        self.port, self.said = port or free_ports(workers), tempfile.TemporaryFile()
        words = [f"{TOP}/tools/keep_serving", folder, "catalog.json", "key", "--port", str(self.port), "--workers", str(workers), "--each", str(each)]
        words += more_words
        given = {"stdin": subprocess.DEVNULL, "stderr": self.said, "env": {**os.environ, "PROGRAM": PROGRAM, **more}}
        self.process = subprocess.Popen(words, cwd=cwd, **given)

    def __enter__(self):
        return self

    def __exit__(self, *_):
        if self.process.poll() is None:
            self.stop()
        self.said.close()

    def program(self):
        """The number of the service's process, once it listens."""
        until = time.monotonic() + 30
        while time.monotonic() < until:
            running = [child for child in children(self.process.pid) if "serve" in words_of(child)]
            if running and is_listened_at(self.port):
                return running[0]
            if self.process.poll() is not None:
                raise Wrong(f"keep_serving ended with {self.process.returncode}: {self.told()}")
            time.sleep(0.02)
        raise Wrong(f"nobody listens: {self.told()}")

    def told(self):
        self.said.seek(0)
        return self.said.read().decode()

    def session(self, analyst, *lines):
        """The replies to lines of one connection, behind a hello; tried again where the service ends before it is greeted."""
        until = time.monotonic() + 30
        while True:
            try:
                with Caller(self.port) as caller:
                    greeted = caller.ask(f"hello {analyst}")
                    return [greeted, *(caller.ask(line) for line in lines)]
            except OSError:
                if time.monotonic() > until:
                    raise Wrong(f"nobody answers: {self.told()}") from None
                time.sleep(0.05)

    def stop(self):
        self.process.send_signal(signal.SIGTERM)
        return self.process.wait(30)


def must(what, found, wanted):
    if found != wanted:
        raise Wrong(f"{what}: {found}, wanted {wanted}")


def answered(number, replies):
    if replies[1].split(" ")[:2] != ["answer", str(number)]:
        raise Wrong(f"number {number} is due, and {replies} came")
    return replies[1].split(" ")[2]


def restarts(folder):
    """After each connection, and after a kill; and a stop."""
    room = Room(folder, 1)
    with Kept(folder, 1) as kept:
        values = [answered(number, kept.session("ann", ASK, "bye")) for number in range(3)]
        must("recalled", kept.session("ann", *(f"recall census {number}" for number in range(3)), "bye")[1:-1],
            [f"recall {number} answer {value} 6" for number, value in enumerate(values)])  # fmt: skip
        wait_for(lambda: kept.told().count(" start in ") == 5, kept.told)
        kept.stop()
    with Kept(folder, 1000) as kept:
        with Caller(kept.port if kept.program() else 0, "ann") as caller:
            value = caller.ask(ASK).split(" ")[2]
            with open(f"/proc/{kept.program()}/limits", encoding="ascii") as file:
                must("the core that it may leave", next(line.split()[4] for line in file if line.startswith("Max core file size")), "0")
            os.kill(kept.program(), signal.SIGKILL)
            must("the connection", caller.link.recv(1), b"")
        must("recalled behind a kill", kept.session("ann", "recall census 3", "bye")[1], f"recall 3 answer {value} 8")
        answered(4, kept.session("ann", ASK, "bye"))
        must("the end of keep_serving", kept.stop(), 0)
        must("somebody listens behind it", is_listened_at(kept.port), False)
        for due in ("status 137", "stopped"):
            must(f"`{due}` is told", due in kept.told(), True)
    must("reservations", len(room.audited()[0].reserved), 5)


def rolls_over(folder):
    """From one folder to another, by a link."""
    for name in ("first", "second"):
        os.mkdir(f"{folder}/{name}")
    first = Room(f"{folder}/first", 1)
    second = Room(f"{folder}/second", 1, analysts=("ann", "dora"), key=bytes(32))
    link = f"{folder}/current"
    os.symlink("first", link)
    with Kept(link, 2) as kept:
        must("dora, before", kept.session("dora")[0], "no 12 1")
        os.symlink("second", f"{link}.new")
        os.replace(f"{link}.new", link)
        answered(0, kept.session("ann", ASK, "bye"))
        answered(0, kept.session("dora", ASK, "bye"))
        os.kill(kept.program(), signal.SIGTERM)
        answered(1, kept.session("dora", ASK, "bye"))
        kept.stop()
    must("reservations of both", [len(one.audited()[0].reserved) for one in (first, second)], [1, 2])


def waits(folder):
    """For a port, and for the journals; tools/why says who has them."""
    Room(folder, 1)
    port = free_ports(1)
    with socket.create_server(("127.0.0.1", port)), Kept(folder, 10, port) as kept:
        wait_for(lambda: "status 5" in kept.told(), kept.told)
        must("why", f"port {port}, now: Address already in use" in why(folder, "serve", "--port", str(port), "--each", "1"), True)
        must("the end of keep_serving", kept.stop(), 0)
    with open(f"{folder}/journals/0.bud", "r+b") as held:
        fcntl.flock(held, fcntl.LOCK_EX)
        with Kept(folder, 10) as kept:
            wait_for(lambda: "status 6" in kept.told(), kept.told)
            said = why(folder, "audit")
            must(f"why names process {os.getpid()} in {said}", f"journals/0.bud is locked by process {os.getpid()}" in said, True)
            fcntl.flock(held, fcntl.LOCK_UN)
            answered(0, kept.session("ann", ASK, "bye"))
            said = why(folder, "run")
            named = f"process {kept.program()}, `" in said and " serve catalog.json key" in said
            must(f"why names {kept.program()} in {said}", named, True)


def begins_anew(folder):
    """Two ports, one of which has served its connection: the next one at it is answered behind the start that comes when the time is over."""
    Room(folder, 1)
    with Kept(folder, 1, workers=2, LONGEST="4") as kept:
        answered(0, kept.session("ann", ASK, "bye"))
        answered(1, kept.session("ann", ASK, "bye"))
        for due in ("told to end, 4 s after its start", "status 143"):
            must(f"`{due}` is told", due in kept.told(), True)
        must("the end of keep_serving", kept.stop(), 0)


def stand_in(folder, text):
    """A program in Python in the place of the real one."""
    with open(f"{folder}/program", "w", encoding="utf-8") as file:
        file.write(f"#!{sys.executable} -IS\n{text}\n")
    os.chmod(f"{folder}/program", 0o755)
    return f"{folder}/program"


def told_to_stop(folder):
    """At each moment behind a start, of a program that goes on for a while by itself."""
    program = stand_in(folder, "import time; time.sleep(15)")
    for number in range(40):
        with Kept(folder, 1, PROGRAM=program) as kept:
            wait_for(lambda: " start in " in kept.told(), kept.told, 0)
            time.sleep(number * 0.0002)
            begun = time.monotonic()
            must(f"the status, told to stop {number * 0.2:.1f} ms behind a start", kept.stop(), 0)
            if time.monotonic() > begun + 10:
                raise Wrong(f"told to stop {number * 0.2:.1f} ms behind a start it ended {time.monotonic() - begun:.0f} s later")


def told_before_a_pause(folder):
    """Behind an end while it looks at a slow clock; and of a program that takes its time to end."""
    with open(f"{folder}/date", "w", encoding="utf-8") as file:
        file.write(f"#!/bin/sh\nsleep 0.3\nexec {shutil.which('date')} \"$@\"\n")
    os.chmod(f"{folder}/date", 0o755)
    with Kept(folder, 1, PROGRAM=stand_in(folder, "import sys; sys.exit(5)"), PATH=f"{folder}:{os.environ['PATH']}") as kept:
        # The pause behind the third end has 4 s.
        wait_for(lambda: kept.told().count("status 5") == 3, kept.told, 0.01)
        begun = time.monotonic()
        must("the status, told to stop before a pause", kept.stop(), 0)
        if time.monotonic() > begun + 3:
            raise Wrong(f"told to stop before a pause it ended {time.monotonic() - begun:.0f} s later")
    late = "import signal, time; told = []; signal.signal(signal.SIGTERM, lambda *_: told.append(1)); open('ready', 'w')\nwhile not told: time.sleep(0.01)\n" \
        "time.sleep(1.5); open('told', 'w').write(str(len(told)))"  # fmt: skip
    with Kept(folder, 1, PROGRAM=stand_in(folder, late)) as kept:
        wait_for(lambda: os.path.exists(f"{folder}/ready"), kept.told)
        must("the status, of a program that ends late", kept.stop(), 0)
        with open(f"{folder}/told", encoding="utf-8") as file:
            must("a program that ends late was told at most ten times", int(file.read()) <= 10, True)


def elsewhere(folder):
    """By a relative name, where CDPATH is said."""
    os.mkdir(f"{folder}/served")
    with Kept("served", 1, cwd=folder, PROGRAM=stand_in(folder, "import sys; sys.exit(4)"), CDPATH=folder) as kept:
        must("the status of keep_serving", kept.process.wait(30), 4)


def two_disks(folder):
    """A stand-in in the place of the program says whether it was started."""
    Room(folder, 2)
    program = stand_in(folder, "import sys, time; open('started', 'w').write(' '.join(sys.argv[-1:])); time.sleep(60)")
    second = f"{folder}/mirrors/1.bud"
    must("tools/mirror", subprocess.run([f"{TOP}/tools/mirror", folder], capture_output=True).returncode, 0)

    def status(said, *more_words, **more):
        """What it ends with, and that it says this; or 0 where it starts the program."""
        with Kept(folder, 1, PROGRAM=program, more_words=more_words, **more) as kept:
            wait_for(lambda: kept.process.poll() is not None or os.path.exists(f"{folder}/started"), kept.told)
            if os.path.exists(f"{folder}/started"):
                os.remove(f"{folder}/started")
                return 0
            must(f"`{said}` is told", said in kept.told(), True)
            return kept.process.wait(30)

    must("without the flag", status("--mirror is wanted"), 2)
    must("with it", status("", "--mirror"), 0)
    for what, spoil in (("isn't there", lambda: os.rename(second, f"{folder}/kept")), ("is empty", lambda: open(second, "w").close())):
        spoil()
        must(f"one file {what}", status(f"mirrors/1.bud: it {what}", "--mirror"), 6)
        must(f"one file {what}, where that is told", status("", "--mirror", ALONE="yes"), 0)
        must(f"one file {what}, where no is told", status("ALONE=yes starts on the other", "--mirror", ALONE="no"), 6)
    open(f"{folder}/journals/1.bud", "w").close()
    must("both files empty", status("journals/1.bud: it is empty", "--mirror", ALONE="yes"), 6)
    shutil.rmtree(f"{folder}/mirrors")
    os.symlink("nothing", f"{folder}/mirrors")
    must("a link to nothing, without the flag", status("--mirror is wanted"), 2)


def wait_for(holds, said, nap=0.05):
    until = time.monotonic() + 20
    while not holds():
        if time.monotonic() > until:
            raise Wrong(f"waited in vain: {said()}")
        time.sleep(nap)


def why(folder, command, *words):
    ran = subprocess.run([f"{TOP}/tools/why", command, "catalog.json", "key", *words], cwd=folder, stdin=subprocess.DEVNULL, stdout=subprocess.DEVNULL,
        stderr=subprocess.PIPE, text=True, env={**os.environ, "PROGRAM": PROGRAM})  # fmt: skip
    return ran.stderr


def ends(folder):
    """What can't go on."""
    Room(folder, 1)
    for spoil, status in ((lambda: os.rename(f"{folder}/key", f"{folder}/kept"), 3), (lambda: shutil.copy(f"{folder}/catalog.json", f"{folder}/key"), 3),
            (lambda: open(f"{folder}/key", "wb").write(bytes(32)), 4)):  # fmt: skip
        spoil()
        with Kept(folder, 1) as kept:
            must("the status of keep_serving", kept.process.wait(30), status)
            must("it is told", "it can't go on" in kept.told(), True)


def files_of_a_service(folder):
    tried = []
    if shutil.which("systemd-analyze"):
        with open(UNIT, encoding="utf-8") as file:
            unit = file.read()
        command = re.search(r"^ExecStart=(\S+) serve catalog.json key --port 7000 --workers 4 --each 1000000$", unit, re.M)
        must("the unit's command", command and command[1], "/usr/local/bin/hitchseason")
        must("the unit's time", re.findall(r"^RuntimeMaxSec=(.*)$", unit, re.M), ["86400"])
        for name in UNITS:
            with open(f"{os.path.dirname(UNIT)}/{name}", encoding="utf-8") as unit, open(f"{folder}/{name}", "w", encoding="utf-8") as file:
                file.write(unit.read().replace("/usr/local/bin/hitchseason", PROGRAM).replace("/opt/hitchseason", TOP))
        ran = subprocess.run(["systemd-analyze", "verify", *(f"{folder}/{name}" for name in UNITS)], capture_output=True, text=True)
        must("systemd-analyze verify", (ran.returncode, ran.stderr), (0, ""))
        tried.append("systemd-analyze verify")
    if shutil.which("nft") and os.geteuid() == 0:
        with open(RULES, encoding="utf-8") as file:
            rules = file.read().replace('"door"', '"nobody"')
        ran = subprocess.run(["nft", "-c", "-f", "-"], input=rules, capture_output=True, text=True)
        if "Operation not permitted" not in ran.stderr:
            must("nft -c", (ran.returncode, ran.stderr), (0, ""))
            tried.append("nft -c")
    return tried


def main():
    if sys.argv[1:] == ["--help"]:
        print(__doc__.strip())
        return
    need_program()
    try:
        for what in (told_to_stop, told_before_a_pause, elsewhere, two_disks, restarts, rolls_over, waits, ends, begins_anew):
            with tempfile.TemporaryDirectory(dir=place()) as folder:
                what(folder)
        with tempfile.TemporaryDirectory() as folder:
            tried = files_of_a_service(folder)
    except Wrong as fault:
        print(f"tests/services/keeping.py: {fault}")
        sys.exit(1)
    print(f"a service is kept, rolled over and stopped as wanted; {', '.join(tried) or 'neither systemd-analyze nor nft is installed'}")


if __name__ == "__main__":
    main()
