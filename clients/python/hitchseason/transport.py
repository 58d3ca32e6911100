"""How lines come to the program and replies back: the seam between the client and where the journals are.

A transport has `public()`, which gives what tools/public --json gives, and `replies(LINES)`, which gives a reply for each line, or raises Stopped
where replies are missing and lines may have been answered all the same, or Failed where none was.

    Folder(FOLDER, ..)      runs `hitchseason run` in a folder, as an owner or who tries out does: the folder has the catalog, the key, the
                            tables and the journals. Who may read the key and the tables needs no answers.
    transport_of(PLACE)     the one that a place stands for: a folder's, or a service's (server.py)
    published(FILE)         what tools/public --json wrote into a file
"""
import fcntl
import json
import os
import re
import shutil
import signal
import subprocess
import time
from contextlib import contextmanager

from .borrowed import TOP, bounds, lines, meanings, public
from .faults import Failed

NEVER_ASKED = (2, 3, 4, 6, 8)
PAUSE = 0.1
SCRIPT_LIMIT, MOST_PORT = bounds.SCRIPT_LIMIT, 65_535
# A reply has printable ASCII alone, and no number of more digits.
LINE_LIMIT, DIGITS = bounds.LINE_LIMIT, 40
OTHER_BYTES, LONG_NUMBER = re.compile(rb"[^ -~]"), re.compile(f"[0-9]{{{DIGITS + 1},}}")
OF_OWNERS = {"name", "budget", "capacity", "tables", "partitions"}


class Stopped(Exception):
    """Replies are missing, and what became of their lines isn't known; HEARD are those that came, of the first lines in their order."""

    def __init__(self, said, heard=()):
        super().__init__(said)
        self.heard = list(heard)


def reply_of(line):
    """A line of a server as text. What isn't printable is escaped, and a number that is too long is cut, so that neither is taken for a reply's."""
    text = OTHER_BYTES.sub(lambda found: b"\\x%02x" % ord(found[0]), line[:LINE_LIMIT]).decode()
    return LONG_NUMBER.sub(lambda found: f"{found[0][:DIGITS]}..", text)


class Waited(KeyboardInterrupt):
    """Ctrl-C while another run on the folder was waited for: nothing was asked."""


class Folder:
    """`waiting` says whether another run on the folder is waited for: without an end, or for WAIT seconds."""

    def __init__(self, folder, program=None, catalog="catalog.json", key="key", public=None, wait=None):
        self.folder, self.catalog, self.key, self.program, self.given, self.wait = folder, catalog, key, program, public, wait
        self.waiting = False

    def public(self):
        if self.given is not None:
            return published(self.given)
        name = os.path.join(self.folder, self.catalog)
        try:
            with open(name, "rb") as file:
                return public.without_files(public.read(file.read()), {})
        except OSError as fault:
            raise Failed(f"{name} can't be read: {fault.strerror}") from None
        except public.BadCatalog:
            raise Failed(f"{name} is no catalog: tools/find_fault {name} says why") from None

    def replies(self, lines):
        script = "".join(f"{line}\n" for line in lines).encode()
        if len(script) > SCRIPT_LIMIT:
            raise Failed(f"a run takes a script of at most {SCRIPT_LIMIT} bytes, and these asks have {len(script)}: ask fewer in a call, as of some keys at a "
                "time. Nothing was asked.")
        with self.locked() as lock:
            ran = self.ran(script, lock)
        replies = [reply_of(line) for line in ran.stdout.split(b"\n")]
        said = replies[0].strip()
        if ran.returncode in NEVER_ASKED:
            more = f"`tools/why run {' '.join(self.words())} < /dev/null` in {self.folder} says more"
            raise Failed(f"the program ended with status {ran.returncode}: {meanings.STATUSES[ran.returncode]} ({said}). {more}.", said)
        found = replies[:-1]
        if ran.returncode != 0 or len(found) != len(lines):
            raise Stopped(ended(ran.returncode), found[: len(lines)])
        return found

    def words(self):
        """Of `run`. Where the folder has `mirrors`, its journals stand on two disks."""
        return [self.catalog, self.key, *(["--mirror"] if os.path.lexists(os.path.join(self.folder, "mirrors")) else [])]

    def ran(self, script, lock):
        """A run in a session of its own, which Ctrl-C at a terminal doesn't reach: what is asked isn't cut by it. It has the lock for as long as it lives."""
        try:
            return subprocess.run(
                [self.found(), "run", *self.words()], input=script, cwd=self.folder, stdout=subprocess.PIPE, stderr=subprocess.DEVNULL, check=False,
                start_new_session=True, pass_fds=(lock,),
            )  # fmt: skip
        except OSError as fault:
            raise Failed(f"{self.program} can't be run: {fault.strerror}") from None

    @contextmanager
    def locked(self):
        """Clients on a folder wait for one another. The program itself doesn't wait: it ends where another process has the journals."""
        try:
            file = open(os.path.join(self.folder, "journals.lock"), "a", encoding="ascii")
        except OSError as fault:
            raise Failed(f"{self.folder}/journals.lock can't be written: {fault.strerror}") from None
        with file:
            try:
                self.waiting = True
                self.lock(file)
                self.waiting = False
            except KeyboardInterrupt:
                raise Waited() from None
            finally:
                self.waiting = False
            yield file.fileno()

    def lock(self, file):
        if self.wait is None:
            return fcntl.flock(file, fcntl.LOCK_EX)
        until = time.monotonic() + self.wait
        while True:
            try:
                return fcntl.flock(file, fcntl.LOCK_EX | fcntl.LOCK_NB)
            except BlockingIOError:
                if time.monotonic() > until:
                    raise Failed(f"another run has worked on {self.folder} for {self.wait} s. Nothing was asked.") from None
            time.sleep(PAUSE)

    def found(self):
        """The program that was named, else `hitchseason` on the path, else tools/build's quick build."""
        named = self.program or os.environ.get("PROGRAM") or shutil.which("hitchseason")
        if named is None:
            named = f"{TOP}/out/hitchseason"
            if not os.path.exists(named):
                raise Failed("there is no program: name one (`program`, or PROGRAM=FILE), or build one by tools/build")
        self.program = os.path.abspath(named) if os.sep in named else named
        return self.program


def ended(status):
    if status < 0:
        return f"{signal.Signals(-status).name} ended the run"
    return f"the run ended with status {status}, {meanings.STATUSES.get(status, 'which the program never ends with')}" if status else "replies are missing"


def published(name):
    with open(name, encoding="utf-8") as file:
        try:
            found = json.load(file)
        except (ValueError, RecursionError):
            found = None
    owners = found.get("owners") if isinstance(found, dict) and isinstance(found.get("analysts"), list) else None
    if not (isinstance(owners, list) and owners and all(isinstance(owner, dict) and OF_OWNERS <= owner.keys() for owner in owners)):
        raise Failed(f"{name} isn't what tools/public --json writes")
    return found


def port_of(place, text):
    if not text.isascii() or not text.isdigit() or len(text) > len(str(MOST_PORT)) or not 1 <= int(text) <= MOST_PORT:
        raise Failed(f"{place}: a port is from 1 to {MOST_PORT}")
    return int(text)


def login_of(place):
    """The destination of `ssh://[USER@]HOST[:PORT]`, as ssh takes it, and the port or nothing. HOST may be a name of ~/.ssh/config, or an address of IPv6
    in brackets."""
    user, at, host = place.removeprefix("ssh://").removesuffix("/").rpartition("@")
    found = re.fullmatch(r"(\[[^]]*\]|[^:\[\]]*)(?::(.*))?", host)
    if not found or not found[1].strip("[]"):
        raise Failed(f"{place} is no ssh://USER@HOST:PORT; an address with colons stands in brackets")
    return f"{user}{at}{found[1].strip('[]')}", None if found[2] is None else str(port_of(place, found[2]))


def transport_of(place, public=None, ssh=("ssh",), words=(), wait=None, **of_folder):
    """A folder's; a service's at `ssh://USER@HOST:PORT`, for which WORDS are ssh's own, or at `HOST:PORT`."""
    from .server import Address, Login

    place = os.fspath(place)
    if place.startswith("ssh://"):
        destination, port = login_of(place)
        return Login(destination, public, ssh, (*(("-p", port) if port else ()), *words), wait)
    host, colon, port = place.rpartition(":")
    if colon and port.isascii() and port.isdigit() and not os.path.isdir(place):
        return Address(host.strip("[]"), port_of(place, port), public, wait)
    if not os.path.isdir(place):
        raise Failed(f"{place} is no folder, no HOST:PORT and no ssh://USER@HOST:PORT")
    return Folder(place, public=public, wait=wait, **of_folder)
