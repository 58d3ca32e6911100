#!/usr/bin/env python3
"""The case files of crates/run_cases over real files, journals and connections, by another reader: each command by a process of the program.

usage: tests/comparisons/cases.py [FILE ..]    (PROGRAM=FILE tries another build)
crates/run_cases/src/lines.rt says what the lines mean. Calls that fail, and how many bytes a connection leaves unread, are shown over memory alone: commands after
a `fail`, up to `new` or `back`, and those of an `each` are passed over. It ends with status 1 where something else comes than is wanted.
"""
import os
import re
import socket
import subprocess
import sys
import tempfile
import time

sys.path.insert(0, f"{os.path.dirname(os.path.abspath(__file__))}/../lib")
from places import TOP  # noqa: E402

PROGRAM = os.path.abspath(os.environ.get("PROGRAM", f"{TOP}/out/hitchseason"))
DATA = f"{TOP}/crates/run_cases/data"
FOLDERS = ("journals", "mirrors")
ENDS = {"n": b"\n", "r": b"\r"}


def copy_of(text, number):
    """The bytes of a text without copies, which is itself the copy of this number."""
    first, *parts = text.split("\\")
    found = first.encode()
    for part in parts:
        if part[0] == "x":
            found += bytes.fromhex(part[1:3]) + part[3:].encode()
        elif part[0] in "#+":
            found += b"%d" % (number + (part[0] == "+")) + part[1:].encode()
        else:
            found += ENDS[part[0]] + part[1:].encode()
    return found


def bytes_of(text):
    found = b""
    for part in text.split("\\]"):
        before, _, counted = part.partition("\\[")
        count, _, copy = counted.partition(" ")
        found += copy_of(before, 0)
        if re.search(r"\\[#+]", copy):
            found += b"".join(copy_of(copy, number) for number in range(int(count)))
        elif counted:
            found += copy_of(copy, 0) * int(count)
    return found


def lines_in(written):
    """The lines of what was written; one that isn't ended has a backslash after it."""
    ended = written.split(b"\n")
    last = ended.pop()
    return [line.decode() for line in ended] + ([last.decode() + "\\"] if last else [])


def free_port():
    with socket.create_server(("127.0.0.1", 0)) as server:
        return server.getsockname()[1]


def told(port, sent):
    """What is written to a connection that sends this."""
    for _ in range(1000):
        try:
            peer = socket.create_connection(("127.0.0.1", port))
            break
        except OSError:
            time.sleep(0.01)
    found = b""
    with peer:
        try:
            peer.sendall(sent)
            peer.shutdown(socket.SHUT_WR)
            while piece := peer.recv(65536):
                found += piece
        except OSError:
            pass
    return found


class Case:
    def __init__(self, room):
        # the journals of owners 0 and 1, and then their mirrors
        self.room, self.disks, self.kept = room, [b""] * 4, ([b""] * 4, False)
        self.commands, self.done, self.astray, self.same, self.tried, self.passed_over = [], False, False, True, 0, 0

    def path(self, disk):
        return f"{self.room}/{FOLDERS[disk // 2]}/{disk % 2}.bud"

    def lay(self):
        for folder in FOLDERS:
            os.makedirs(f"{self.room}/{folder}", exist_ok=True)
            for name in os.listdir(f"{self.room}/{folder}"):
                os.remove(f"{self.room}/{folder}/{name}")
        for disk, data in enumerate(self.disks):
            if data:
                with open(self.path(disk), "wb") as file:
                    file.write(data)

    def left(self):
        found = []
        for disk in range(4):
            try:
                with open(self.path(disk), "rb") as file:
                    found.append(file.read())
            except FileNotFoundError:
                found.append(b"")
        return found

    def came(self, words, inputs):
        """The status of a command, and the lines that it writes."""
        if words[:2] != ["serve", "cat.json"]:
            ran = subprocess.run([PROGRAM, *words], cwd=self.room, input=b"".join(inputs[:1]), stdout=subprocess.PIPE)
            return [f"= {ran.returncode}", *lines_in(ran.stdout)]
        port = free_port()
        words = [str(port) if word == "7000" else word for word in words]
        service = subprocess.Popen([PROGRAM, *words], cwd=self.room, stdin=subprocess.DEVNULL, stdout=subprocess.PIPE)
        lines = [line for sent in inputs for line in ["--", *lines_in(told(port, sent))]]
        out = service.communicate(timeout=60)[0]
        return [f"= {service.returncode}", *lines_in(out), *lines]

    def run(self, row=None):
        """What the commands come to, on the disks as they are."""
        self.lay()
        found = []
        for words, inputs in self.commands:
            filled = inputs if row is None else [sent.replace(b"@", row) for sent in inputs]
            found.append(self.came(words.split(" ") if words else [], filled))
            self.tried += 1
        left = self.left()
        self.same = left == self.disks
        if row is None:
            self.disks = left
        return found

    def change(self, word, rest):
        """Does what a line says of files and disks."""
        name, _, text = rest.partition(" ")
        if word == "file":
            with open(f"{self.room}/{name}", "wb") as file:
                file.write(bytes_of(text))
        elif word == "size":
            self.disks[0] = self.disks[0][: int(name)].ljust(int(name), b"\0")
        elif word == "put":
            data, piece, place = bytearray(self.disks[0]), bytes_of(text), int(name)
            data[place : place + len(piece)] = piece
            self.disks[0] = bytes(data)
        elif word == "keep":
            self.kept = (list(self.disks), self.astray)
        elif word == "back":
            self.disks, self.astray = list(self.kept[0]), self.kept[1]
        elif word == "new":
            self.disks, self.astray = [b""] * 4, False
        elif word == "swap":
            self.disks[0], self.disks[2] = self.disks[2], self.disks[0]
        elif word == "fail":
            self.astray = True

    def command(self, word, rest):
        """Does what a line says of a command and its input."""
        if word == "$":
            if self.done:
                self.commands, self.done = [], False
            self.commands.append((rest, []))
            return
        inputs = self.commands[-1][1]
        if word == "--" or not inputs:
            inputs.append(b"")
        if word != "--":
            inputs[-1] += bytes_of(rest) + (b"\n" if word == ">" else b"")

    def slots(self):
        data = self.disks[0]
        rows = [(place, data[place : place + 64].rstrip(b"\0")) for place in range(0, len(data), 64)]
        return [f"@ {len(data)} bytes"] + [f"@ {place}: {row.hex(' ').upper()}" for place, row in rows if row]


def seen(line):
    """A wanted line without what no process shows."""
    return re.sub(r"-- \d+ failed, \d+ unread", "--", line)


def results(lines, at):
    """The lines of results from one on, and the next one."""
    end = at
    while end < len(lines) and lines[end].split(" ")[0] in ("=", "<", "@"):
        end += 1
    return [seen(line) for line in lines[at:end]], end


def play(name, case):
    """The first difference of a case file: the line, what is wanted and what came."""
    with open(name, encoding="utf-8", newline="\n") as file:
        lines = file.read().split("\n")
    at = 0
    while at < len(lines):
        word, _, rest = lines[at].partition(" ")
        wanted, end = results(lines, at + (word != "=")) if word in ("=", "?", "bytes", "each") else ([], at + 1)
        found = wanted
        if case.astray and word in ("=", "?", "same"):
            case.passed_over += len(case.commands)
            case.commands = [] if word == "=" else case.commands
        elif word == "=":
            found = [line for first, *others in case.run() for line in [first, *(f"< {other}".rstrip() for other in others)]]
            case.commands = []
        elif word == "?":
            row = bytes_of(rest)
            case.change("file", f"row {rest}")
            found, case.done = [" | ".join(came) for came in case.run(row)], True
        elif word == "bytes":
            found = case.slots()
        elif word == "same":
            wanted, found, end = [lines[at]], [f"same {'yes' if case.same else 'no'}"], at + 1
        elif word == "each":
            case.passed_over += len(case.commands)
            case.commands = []
            while end < len(lines) and lines[end].split(" ")[0] in ("at", "="):
                end += 1
        elif word in ("$", ">", ">>", "--"):
            case.command(word, rest)
        else:
            case.change(word, rest)
        if [line.rstrip() for line in wanted] != [line.rstrip() for line in found]:
            return at + 1, wanted, found
        at = max(end, at + 1)
    return None


def main():
    names = [os.path.abspath(name) for name in sys.argv[1:]] or [f"{DATA}/{name}" for name in sorted(os.listdir(DATA))]
    tried = passed_over = 0
    for name in names:
        with tempfile.TemporaryDirectory() as room:
            case = Case(room)
            if difference := play(name, case):
                sys.exit("{}, line {}: wanted {}, and came {}".format(os.path.basename(name), *difference))
            tried, passed_over = tried + case.tried, passed_over + case.passed_over
    print(f"{tried:,} commands of {len(names)} case files end as is wanted; {passed_over} with calls that fail are run_cases' alone")


main()
