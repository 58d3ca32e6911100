"""What the tests of tools/prepare share: rooms with a raw file, comparisons, and the program's answers over the table that was made.

    prepare(ROOM, WORDS ..)    tools/prepare on ROOM/raw.csv
    Trial(ALONE)               counts comparisons; ALONE, the program isn't asked
"""
import csv
import io
import os
import stat
import subprocess
import tempfile

from places import TOP

PROGRAM = os.path.abspath(os.environ.get("PROGRAM", f"{TOP}/out/hitchseason"))
from afresh import run_afresh  # noqa: E402
from catalog import read  # noqa: E402

BASE = ["table.name=t", "table.file=t.csv", "catalog.owner=o", "catalog.budget=1000000000000"]


def run(words, room, **more):
    return subprocess.run(words, cwd=room, capture_output=True, text=True, stdin=subprocess.DEVNULL, **more)


def prepare(room, *words, **more):
    return run([f"{TOP}/tools/prepare", "raw.csv", *words], room, **more)


def unread(words, room):
    """The status and the errors of a command whose output nobody reads."""
    reader, writer = os.pipe()
    os.close(reader)
    ran = subprocess.run(words, cwd=room, stdin=subprocess.DEVNULL, stdout=writer, stderr=subprocess.PIPE, text=True)
    os.close(writer)
    return ran.returncode, ran.stderr


def flags(changes):
    return [word for change in changes for word in ("--set", change)]


def write(path, data):
    with open(path, "wb") as file:
        file.write(data)


def text_of(path):
    with open(path, encoding="utf-8") as file:
        return file.read()


class Trial:
    def __init__(self, alone):
        self.alone, self.tried, self.differences = alone, 0, 0

    def same(self, what, found, want):
        self.tried += 1
        if found != want:
            self.differences += 1
            print(f"{what}: {found!r}\n    and not {want!r}")

    def has(self, what, found, words):
        self.tried += 1
        if words not in found:
            self.differences += 1
            print(f"{what}: there is no {words!r} in\n{found[:2000]}")

    def answers(self, what, room, table):
        """The program's answers, of the whole and of each key, beside the rows that are wanted."""
        owner = read(text_of(f"{room}/catalog.json").encode())["owners"][0]
        header, *rows = list(csv.reader(io.StringIO(table)))
        asks, want = [f"ask {owner['name']} 1000 size {owner['tables'][0]['name']}"], [len(rows)]
        for part in owner["partitions"]:
            at = header.index(part["column"])
            for key in part["keys"]:
                asks.append(f"askpart {owner['name']} {part['name']} {key} 1000 size {part['table']}")
                want.append(sum(row[at] == key for row in rows))
        if not self.alone:
            write(f"{room}/key", bytes(32))
            ran = run_afresh(PROGRAM, "catalog.json", "key", "".join(f"{ask}\n" for ask in ["hello ann", *asks]).encode(), room)
            found = [int(line.split()[2]) for line in ran.stdout.decode().splitlines()[1:] if line.startswith("answer")]
            self.same(f"{what}: the program's answers", found, want)
            subprocess.run(["rm", "-r", f"{room}/journals"], check=True)

    def file(self, what, data, changes, table, words):
        with tempfile.TemporaryDirectory() as room:
            write(f"{room}/raw.csv", data)
            ran = prepare(room, *flags(BASE), *flags(changes))
            self.same(f"{what}: status and errors", (ran.returncode, ran.stderr), (0, ""))
            if ran.returncode != 0:
                return
            self.same(what, text_of(f"{room}/t.csv"), table)
            for word in words:
                self.has(what, text_of(f"{room}/t.report"), word)
            self.answers(what, room, table)

    def by_guess(self, what, data):
        """A guessed spec is a spec, and it goes through where nothing stops it."""
        with tempfile.TemporaryDirectory() as room:
            write(f"{room}/raw.csv", data)
            guessed = prepare(room, "--guess", "s")
            self.same(f"{what}: a guess", (guessed.returncode, guessed.stderr, mode(f"{room}/s")), (0, "", 0o600))
            self.same(f"{what}: by its guess", prepare(room, "--spec", "s").returncode in (0, 1), True)


def mode(path):
    return stat.S_IMODE(os.stat(path).st_mode)


def tables_in(room):
    owner = read(text_of(f"{room}/catalog.json").encode())["owners"][0]
    return owner["name"], [table["name"] for table in owner["tables"]], [part["name"] for part in owner["partitions"]]
