"""Lines to a service and replies back, over a connection, or by a login over ssh.

    Address(HOST, PORT, PUBLIC)        a connection to a worker's port, as on the machine of the service
    Login(DESTINATION, PUBLIC, ..)     `ssh DESTINATION`, where a door says the analyst's name (docs/operators-guide.md)

Both are transports (transport.py). A worker serves one connection at a time, so one is kept only for as long as a call asks (`kept`), and ends with
`bye`. The first line of each connection goes alone, and asks nothing: where it isn't answered nothing was asked, and another connection is tried for
a while, as the service may be started anew. Where replies to later lines are missing that is said (`Stopped`), and nothing is sent again.
Where a connection ends within a line, what came of the line is a line to the service. So programs are `closed`: they go in parentheses (asks.py).
"""
import select
import signal
import socket
import subprocess
import sys
import threading
import time
from collections import deque
from contextlib import contextmanager, suppress

from .borrowed import lines, meanings
from .faults import Failed, Refused
from .transport import LINE_LIMIT, Stopped, Waited, published, reply_of

# How long a service that isn't there is tried again, and after how long that is told; lines that are sent ahead of their replies.
PATIENCE, PAUSE, LATE = 20, 0.5, 1
# When somebody who waits behind another connection is told so.
TOLD_AFTER = 5
AHEAD = 16
CLOSED = "door closed"
# How much is told of what another program said.
TOLD = 60


class Ended(Exception):
    """The connection ended before a reply was whole, and why."""


def is_of_service(line, reply):
    """Whether a service, or its door, says this to the first line of a connection."""
    word = reply.split(" ")[0]
    return word == "door" or (word in ("no", line.split(" ")[0]) and meanings.meaning(reply) is not None)


def shown(reply):
    """What another program said, on one line and without what a terminal would take for a command."""
    said = "".join(one if one.isprintable() else one.encode("unicode_escape").decode() for one in reply.strip())
    return f"`{said if len(said) <= TOLD else said[: TOLD - 2] + '..'}`" if said else "an empty line"


def tell(said):
    """Says what is waited for, where somebody may read it."""
    with suppress(OSError, ValueError):
        if sys.stderr:
            print(said, file=sys.stderr, flush=True)
    return True


class Server:
    """JUDGED: lines that ask may be refused on their way, for their program."""

    closed, judged = True, False

    def __init__(self, given, wait=None):
        self.given, self.wait, self.link, self.depth, self.waiting = given, wait, None, 0, False

    def public(self):
        if self.given is None:
            raise Failed("what the owner made with `tools/public --json CATALOG` is wanted: public=FILE, or --public FILE")
        return published(self.given)

    @contextmanager
    def kept(self):
        """One connection for all that is asked in here, if it isn't cut."""
        self.depth += 1
        try:
            yield
        finally:
            self.depth -= 1
            if self.depth == 0:
                self.leave()

    def replies(self, lines):
        with self.kept():
            try:
                return self.heard(lines)
            except BaseException:
                self.drop()
                raise

    def heard(self, lines):
        """The first line alone, and then so many ahead of their replies."""
        if self.link is not None and self.link.is_over():
            self.drop()
        found = [self.first(lines[0]) if self.link is None else self.one(lines[0])]
        if lines[0].startswith("hello ") and found[0] != lines[0]:
            raise Refused(f"{found[0]}: nothing was asked.", found[0])
        sent, rest = deque(), iter(lines[1:])
        try:
            while len(found) < len(lines):
                while len(sent) < AHEAD and (line := next(rest, None)) is not None:
                    sent.append(line)
                    if not self.is_sent(line):
                        rest = iter(())
                found.append(self.link.hear())
                sent.popleft()
        except (OSError, Ended) as fault:
            raise Stopped(f"the connection ended: {fault}", found) from None
        except KeyboardInterrupt as ended:
            ended.heard = found
            raise
        return found

    def is_sent(self, line):
        """Whether a line goes out; where it doesn't, as the connection has ended, replies to those before may still be there."""
        try:
            self.link.say(line)
            return True
        except OSError:
            return False

    def one(self, line):
        """A line on a connection that is there. It asks nothing, so another connection may take it."""
        try:
            self.link.say(line)
            return self.link.hear()
        except (OSError, Ended):
            self.drop()
            return self.first(line)

    def first(self, line):
        """The reply to the first line of a new connection. A wait for one is told, once. What was waited behind another connection doesn't count."""
        begun, told = None, False
        while True:
            tried = time.monotonic()
            try:
                self.waiting = True
                self.link = self.behind_others(self.opened(PATIENCE if told else LATE))
                self.link.say(line)
                return self.known(line, self.link.hear())
            except KeyboardInterrupt:
                raise Waited() from None
            except (OSError, Ended) as fault:
                now = time.monotonic()
                if begun is None or (self.link and now - tried > TOLD_AFTER):
                    begun = now if self.link else tried
                self.drop()
                waited = now - begun
                if waited > PATIENCE or isinstance(fault, Refusal):
                    raise Failed(f"{self.name} can't be reached: {fault}. Nothing was asked.") from None
                told = told or (waited >= LATE and tell(f"waiting for {self.name.rstrip(',')}, up to {PATIENCE} s"))
                self.pause()
            finally:
                self.waiting = False

    def known(self, line, reply):
        """The first reply of a connection, if it is a service's: it may be that another program listens there."""
        if is_of_service(line, reply):
            return reply
        self.drop()
        raise Failed(f"What answers at {self.name} is no hitchseason service (it said {shown(reply)}). Nothing was asked.")

    def behind_others(self, link):
        """A link whose first reply is waited for: a worker that serves another connection replies to nobody else."""
        link.awaited = lambda: self.await_reply(link)
        return link

    def await_reply(self, link):
        """Says that it waits; past the limit it gives up."""
        is_there = lambda seconds: select.select([link], [], [], max(seconds, 0))[0]
        until = None if self.wait is None else time.monotonic() + self.wait
        if is_there(TOLD_AFTER if self.wait is None else min(TOLD_AFTER, self.wait)):
            return
        if until is None or until > time.monotonic():
            self.say_waits()
        if until is not None and not is_there(until - time.monotonic()):
            raise Failed(f"{self.name} has served another connection for {self.wait} s. Nothing was asked.")

    def say_waits(self):
        """A door says it itself."""

    @staticmethod
    def pause():
        try:
            time.sleep(PAUSE)
        except KeyboardInterrupt:
            raise Waited() from None

    def leave(self):
        """Says bye, so that the worker serves others."""
        link, self.link = self.link, None
        if link is not None:
            with suppress(OSError, Ended):
                link.say("bye")
                link.hear()
            link.close()

    def drop(self):
        link, self.link = self.link, None
        if link is not None:
            link.close()


class Refusal(Ended):
    """What another try can't mend."""


class Link:
    """Lines out and replies in. `read` gives some bytes, or none at the end."""

    told, awaited = b"", None

    def hear(self):
        if self.awaited:
            awaited, self.awaited = self.awaited, None
            awaited()
        while b"\n" not in self.told:
            if len(self.told) > LINE_LIMIT:
                raise Refusal(f"a line of over {LINE_LIMIT} bytes came, which is no reply")
            data = self.read()
            if not data:
                raise self.end()
            self.told += data
        line, _, self.told = self.told.partition(b"\n")
        reply = reply_of(line.removesuffix(b"\r"))
        if reply.startswith(CLOSED):
            raise (Refusal if "refuses" in reply else Ended)(reply)
        return reply

    def end(self):
        return Ended("no reply came")

    def is_over(self):
        """Whether it ended while nobody asked."""
        return False


class Address(Server):
    def __init__(self, host, port, public=None, wait=None):
        super().__init__(public, wait)
        self.host, self.port, self.name = host, port, f"{host}, port {port},"

    def opened(self, patience):
        return Connection(self.host, self.port, patience)

    def say_waits(self):
        tell(f"port {self.port} serves another connection; waiting")


class Connection(Link):
    """Once it is there, a reply is waited for as long as it takes."""

    def __init__(self, host, port, patience):
        self.socket = socket.create_connection((host, port), patience)
        self.socket.settimeout(None)
        self.socket.setsockopt(socket.IPPROTO_TCP, socket.TCP_NODELAY, 1)

    def fileno(self):
        return self.socket.fileno()

    def say(self, line):
        self.socket.sendall(f"{line}\n".encode())

    def read(self):
        return self.socket.recv(65_536)

    def is_over(self):
        try:
            self.socket.setblocking(False)
            return self.socket.recv(1, socket.MSG_PEEK) == b""
        except BlockingIOError:
            return False
        except OSError:
            return True
        finally:
            self.socket.setblocking(True)

    def close(self):
        self.socket.close()


class Login(Server):
    """WORDS stand before the destination, as ("-i", "FILE"). A door refuses programs that walk too deep."""

    judged = True

    def __init__(self, destination, public=None, ssh=("ssh",), words=(), wait=None):
        super().__init__(public, wait)
        self.name, self.command = destination, [*ssh, "-T", *words, "--", destination]

    def opened(self, _):
        return Process(self.command)


class Process(Link):
    """Ctrl-C at a terminal doesn't reach it, so that what is asked isn't cut by it; it asks at the terminal itself, as for a passphrase. What comes on its
    standard error, of which the server may have a part, is told without what a terminal would take for a command."""

    def __init__(self, command):
        quiet = {"preexec_fn": lambda: signal.signal(signal.SIGINT, signal.SIG_IGN)}
        self.process = subprocess.Popen(command, stdin=subprocess.PIPE, stdout=subprocess.PIPE, stderr=subprocess.PIPE, bufsize=0, **quiet)
        self.noise = threading.Thread(target=self.hand_on, daemon=True)
        self.noise.start()

    def hand_on(self):
        for line in iter(lambda: self.process.stderr.readline(LINE_LIMIT), b""):
            tell(lines.harmless(line.decode(errors="backslashreplace").rstrip("\r\n")))

    def fileno(self):
        return self.process.stdout.fileno()

    def say(self, line):
        data = f"{line}\n".encode()
        while data:
            data = data[self.process.stdin.write(data) :]

    def read(self):
        return self.process.stdout.read(65_536)

    def end(self):
        """Where ssh itself failed, as for want of a key, another try can't mend it."""
        status = self.process.wait()
        return Refusal("ssh failed") if status == 255 and not self.told else Ended(f"ssh ended with status {status}")

    def is_over(self):
        return self.process.poll() is not None

    def close(self):
        for file in (self.process.stdin, self.process.stdout):
            with suppress(OSError):
                file.close()
        try:
            self.process.wait(5)
        except subprocess.TimeoutExpired:
            self.process.kill()
            self.process.wait()
        # Another process may have its standard error, and keep it.
        self.noise.join(1)
        if not self.noise.is_alive():
            self.process.stderr.close()
