"""What the benches of `serve` share: a folder with a house, a service in it on ports that are free, and connections that say lines and hear replies.

    Room(FOLDER, ..)      catalog, key, tables and journals, on two disks where MIRRORED, made anew; `books()` reads the journals by the second reader (tools/journal.py)
    Service(ROOM, ..)     `serve` in it, as a process; `stop()` kills it, `ended()` waits for it
    Caller(PORT)          a connection: `say`, `hear`, `ask`
PROGRAM=FILE in the environment names the program, else it is tools/build's.
"""
import os
import random
import signal
import socket
import subprocess
import sys
import time

from places import TOP

PROGRAM = os.path.abspath(os.environ.get("PROGRAM", f"{TOP}/out/hitchseason"))
from catalog import catalog, owner, read  # noqa: E402
from journal import book_of, contents, header, journal_bytes  # noqa: E402

TABLES = (("people", "people.csv", (("town", "text"), ("age", "num"))),)
PARTS = (("area", "people", "town", ("A", "B")),)
PEOPLE = b"town,age\nA,20\nB,30\nA,40\nC,5\n"
NAMES = ("census", "labour", "health", "schools")
ANALYSTS = ("ann", "bob", "eve")
AMPLE = 10**18
MEMORY = "/dev/shm"


class Wrong(Exception):
    pass


def need_program():
    """Builds the quick program where none is named; ends with 2 where it has no `serve`."""
    if "PROGRAM" not in os.environ:
        subprocess.run([f"{TOP}/tools/build"], check=True)
    words = [PROGRAM, "serve", "no catalog", "no key", "--port", "7000", "--each", "1"]
    said = subprocess.run(words, stdin=subprocess.DEVNULL, capture_output=True, timeout=60)
    if said.returncode != 3:
        print(f"{PROGRAM} serves nothing: `serve` ended with {said.returncode} and {said.stdout[:100]!r}")
        sys.exit(2)


def place():
    """Where folders of tries are made: in memory where there is such a place, since a journal is synced for each record."""
    return MEMORY if os.access(MEMORY, os.W_OK) else None


class Room:
    """A folder with a house of so many owners and its journals."""

    def __init__(self, folder, owners=4, capacity=2**16, budget=AMPLE, people=PEOPLE, key=bytes(range(32)), analysts=ANALYSTS, mirrored=False):
        self.folder, self.names, self.analysts, self.more_words = folder, NAMES[:owners], analysts, ["--mirror"] if mirrored else []
        self.data = catalog(*[owner(name, TABLES, budget, capacity, PARTS) for name in self.names], analysts=analysts)
        self.catalog = read(self.data)
        for name, data in (("catalog.json", self.data), ("key", key), ("people.csv", people)):
            with open(f"{folder}/{name}", "wb") as file:
                file.write(data)
        self.heads = [header(self.data, order, key, lambda name: contents(f"{folder}/{name}")) for order in range(owners)]
        self.ran("init")

    def ran(self, command, folder=None, status=0, **more):
        ran = subprocess.run([PROGRAM, command, "catalog.json", "key", *self.more_words], cwd=folder or self.folder, stdin=subprocess.DEVNULL, capture_output=True, **more)
        if ran.returncode != status:
            raise Wrong(f"{command} ended with {ran.returncode} and {ran.stdout[:200]!r}")
        return ran.stdout.decode()

    def journal(self, order, folder=None):
        return journal_bytes(f"{folder or self.folder + '/journals'}/{order}.bud")

    def book(self, order, folder=None):
        return book_of(self.journal(order, folder), self.heads[order], self.catalog["owners"][order], self.analysts)

    def books(self, folder=None):
        return [self.book(order, folder) for order in range(len(self.names))]

    def audited(self):
        """The books, which `audit` counts alike."""
        books, said = self.books(), self.ran("audit")
        due = "".join(f"{book.counts()}\n" for book in books)
        if said != due:
            raise Wrong(f"audit said {said}, and by the second reader it is {due}")
        return books


def free_ports(count):
    """The first of so many ports in a row at which nobody listens now."""
    rng = random.Random(os.urandom(8))
    while True:
        first, doors = rng.randrange(20_000, 30_000 - count), []
        try:
            for port in range(first, first + count):
                doors.append(socket.create_server(("127.0.0.1", port)))
            return first
        except OSError:
            continue
        finally:
            for door in doors:
                door.close()


def is_listened_at(port):
    """By the system's list, since a connection would count as one that is served."""
    local = f":{port:04X}"
    with open("/proc/net/tcp", encoding="ascii") as file:
        return any(row.split()[1].endswith(local) and row.split()[3] == "0A" for row in file.readlines()[1:])


class Service:
    def __init__(self, room, workers=1, each=10**6, port=None, addr=None, **more):
        self.room, self.workers, self.port = room, workers, port or free_ports(workers)
        words = ["serve", "catalog.json", "key", "--port", str(self.port), "--workers", str(workers), "--each", str(each), *(["--addr", addr] if addr else [])]
        words += getattr(room, "more_words", [])
        self.process = subprocess.Popen([PROGRAM, *words], cwd=room.folder, stdin=subprocess.DEVNULL, stdout=subprocess.PIPE, stderr=subprocess.STDOUT, **more)
        try:
            self.wait_until_open()
        except BaseException:
            self.stop()
            raise

    def __enter__(self):
        return self

    def __exit__(self, *_):
        self.stop()

    def wait_until_open(self, seconds=60):
        until = time.monotonic() + seconds
        while not all(is_listened_at(self.port + worker) for worker in range(self.workers)):
            if self.process.poll() is not None:
                raise Wrong(f"serve ended with {self.process.returncode} and {self.process.stdout.read()[:200]!r}")
            if time.monotonic() > until:
                raise Wrong("serve doesn't listen")
            time.sleep(0.01)

    def stop(self, number=signal.SIGKILL):
        if self.process.poll() is None:
            self.process.send_signal(number)
        self.process.wait()
        self.process.stdout.close()
        return self.process.returncode

    def ended(self, seconds=60):
        """Its status and what it wrote, where it ends by itself."""
        said = self.process.communicate(timeout=seconds)[0]
        return self.process.returncode, said

    def peak(self):
        """The most memory that it has had, in KiB."""
        with open(f"/proc/{self.process.pid}/status", encoding="ascii") as file:
            return next(int(line.split()[1]) for line in file if line.startswith("VmHWM"))

    def caller(self, worker=0, analyst=None, **more):
        return Caller(self.port + worker, analyst, **more)


class Caller:
    """A connection. ConnectionError where it ends before a reply is whole."""

    def __init__(self, port, analyst=None, seconds=60):
        self.link, self.told = socket.create_connection(("127.0.0.1", port), timeout=seconds), b""
        self.link.setsockopt(socket.IPPROTO_TCP, socket.TCP_NODELAY, 1)
        if analyst:
            said = self.ask(f"hello {analyst}")
            if said != f"hello {analyst}":
                raise Wrong(f"hello {analyst} was told {said}")

    def __enter__(self):
        return self

    def __exit__(self, *_):
        self.link.close()

    def say(self, data):
        self.link.sendall(data)

    def hear(self):
        while b"\n" not in self.told:
            data = self.link.recv(65_536)
            if not data:
                raise ConnectionResetError("the connection ended")
            self.told += data
        line, _, self.told = self.told.partition(b"\n")
        return line.decode()

    def ask(self, line):
        self.say(f"{line}\n".encode())
        return self.hear()

    def is_at_end(self):
        """Whether nothing more comes."""
        return not self.told and self.link.recv(1) == b""

    def reset(self):
        """Ends it by a reset, in the middle of whatever is said."""
        self.link.setsockopt(socket.SOL_SOCKET, socket.SO_LINGER, b"\1\0\0\0\0\0\0\0")
        self.link.close()
