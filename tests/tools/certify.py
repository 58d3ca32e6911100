#!/usr/bin/env python3
"""Tries `tools/journal.py --certify`: what it says of reservations, by a derivation of their program, and how it ends.

usage: tests/tools/certify.py    (PROGRAM=FILE tries another build than tools/build's)
Journals are laid by the second writer (tools/lib/journal.py), with reservations whose numbers are those of the rules, less and more, of the whole and of parts,
of two owners and of other programs, in plain folders, in copies and on two disks. Then the program answers asks, and what it charged suffices by the derivations
that the second implementation writes. It ends with status 1 at the first difference.
"""
import os
import shutil
import subprocess
import sys
import tempfile

sys.path.insert(0, f"{os.path.dirname(os.path.abspath(__file__))}/../lib")
from places import TOP  # noqa: E402

PROGRAM = os.path.abspath(os.environ.get("PROGRAM", f"{TOP}/out/hitchseason"))
import hashlib  # noqa: E402

from afresh import run_afresh  # noqa: E402
from catalog import catalog, owner, read  # noqa: E402
from deriving import derived  # noqa: E402
from journal import WHOLE, Book, Reservation, appended, contents, header, made  # noqa: E402
from programs import NUM, TEXT, checked  # noqa: E402

CAPACITY = 20
PEOPLE, STAYS = ("people", "people.csv", (("town", "text"), ("age", "num"))), ("stays", "stays.csv", (("nights", "num"),))
CENSUS = owner("census", (PEOPLE, STAYS), 10**12, CAPACITY, (("area", "people", "town", ("A", "B")),))
WARDS = owner("wards", (STAYS,), 10**12, CAPACITY)
FILES = {"key": bytes(32), "people.csv": b"town,age\nA,20\nB,30\n", "stays.csv": b"nights\n3\n", "catalog.json": catalog(CENSUS, WARDS)}
TABLES = [("people", ("bag", ("*", TEXT, NUM))), ("stays", ("bag", NUM))]
SIZE, MORE = b"size people", b"(fun (x : ![3/2] num) => let ! y = x in y) (![3/2] (size stays))"
NIGHTS = b"size stays"


class Room:
    def __init__(self, folder):
        os.chdir(folder)
        self.tried = 0
        for name, data in FILES.items():
            self.write(name, data)

    @staticmethod
    def write(name, data):
        with open(name, "wb") as file:
            file.write(data)

    def lay(self, *owners):
        """A journal for each owner, of reservations of a view, e, p, q and program each."""
        for name in ("journals", "mirrors", "copy"):
            shutil.rmtree(name, ignore_errors=True)
        os.mkdir("journals")
        for order, reservations in enumerate(owners):
            book = Book(read(FILES["catalog.json"])["owners"][order], range(2))
            for view, e, p, q, program in reservations:
                one = Reservation(len(book.reserved), view, e, p, q, 0, 0, hashlib.sha256(program).digest())
                one.taken = book.spent_with(one) - book.spent
                assert book.add(one), one
            head = header(FILES["catalog.json"], order, FILES["key"], contents, 3)
            self.write(f"journals/{order}.bud", appended(made(head, CAPACITY), CAPACITY, book.records))

    def must(self, what, program, derivation, status, lines, *words):
        self.tried += 1
        self.write("program", program)
        self.write("derivation", derivation)
        ran = subprocess.run([sys.executable, f"{TOP}/tools/journal.py", "--certify", *(words or ("program", "derivation", "catalog.json", "key"))],
                             capture_output=True, text=True)  # fmt: skip
        found = ran.returncode, ran.stdout.splitlines() + ran.stderr.splitlines()
        if found != (status, lines):
            sys.exit(f"{what}: {found}, wanted {(status, lines)}")


def derivation_of(program):
    return derived(checked(program, TABLES)[0], TABLES)


def in_journals(room):
    one, size = b"num | people 1\nbag (text * num) | people 1\n", [(WHOLE, 10**6, 1, 1, SIZE)]
    suffices = "census reservation 0 whole e 1000000 r 1/1 charge 1000000 suffices"
    room.lay(size, [])
    room.must("as much", SIZE, one, 0, ["census yes 1", suffices])
    room.must("a line end behind the program", SIZE + b"\n", one, 0, ["census yes 1", suffices])
    room.must("CR and LF behind the program", SIZE + b"\r\n", one, 0, ["census yes 1", suffices])
    room.must("a derivation that shows more", SIZE, one.replace(b"num | people 1", b"num | people 3/2", 1), 1,
              ["census yes 3/2", "census reservation 0 whole e 1000000 r 1/1 charge 1000000 is of an r below 3/2, at which it is 1500000"])  # fmt: skip
    room.must("a derivation at fault", SIZE, one.replace(b"num | people 1", b"num", 1), 1, ["census no 0"])
    room.must("a derivation of no byte", SIZE, b"", 1, ["census no 0"])
    room.must("another program", b"size stays", b"num | stays 1\nbag num | stays 1\n", 1,
              [f"no journal has a reservation of the program {hashlib.sha256(b'size stays').hexdigest()}"])  # fmt: skip
    room.must("a program that isn't read", b"size", one, 1, [f"no journal has a reservation of the program {hashlib.sha256(b'size').hexdigest()}"])
    room.must("a blank more", SIZE + b" ", one, 1, [f"no journal has a reservation of the program {hashlib.sha256(SIZE + b' ').hexdigest()}"])


def of_many(room):
    one = b"num | people 1\nbag (text * num) | people 1\n"
    room.lay([((0, 0), 3, 1, 2, SIZE), (WHOLE, 7, 1, 1, NIGHTS), ((0, 1), 5, 4, 3, SIZE), (WHOLE, 9, 999, 1000, SIZE), (WHOLE, 1, 1, 1, SIZE)], [])
    room.must("less, more and as much, of parts and of the whole", SIZE, one, 1, [
        "census yes 1", "census reservation 0 part A of area e 3 r 1/2 charge 2 is of an r below 1, at which it is 3",
        "census reservation 2 part B of area e 5 r 4/3 charge 7 suffices",
        "census reservation 3 whole e 9 r 999/1000 charge 9 is of an r below 1, at which it is 9",
        "census reservation 4 whole e 1 r 1/1 charge 1 suffices"])  # fmt: skip
    room.lay([(WHOLE, 3, 3, 2, MORE)], [(WHOLE, 4, 2, 1, MORE)])
    of_both = ["census yes 3/2", "census reservation 0 whole e 3 r 3/2 charge 5 suffices", "wards yes 3/2", "wards reservation 0 whole e 4 r 2/1 charge 8 suffices"]
    room.must("two owners", MORE, derivation_of(MORE), 0, of_both)
    room.must("in a named folder", MORE, derivation_of(MORE), 0, of_both, "program", "derivation", "catalog.json", "key", ".")
    shutil.copytree("journals", "copy")
    room.must("in a copy", MORE, derivation_of(MORE), 0, of_both, "program", "derivation", "catalog.json", "key", "copy")
    shutil.copytree("journals", "mirrors")
    os.truncate("journals/0.bud", 0)
    room.must("on the disk that is left", MORE, derivation_of(MORE), 0, of_both)
    room.lay([], [(WHOLE, 4, 1, 1, SIZE)])
    room.must("an owner without the table", SIZE, one, 1, ["wards no 0"])
    room.lay([(WHOLE, 4, 1, 1, SIZE)], [])
    os.truncate("journals/1.bud", 100)
    room.must("a journal that is refused", SIZE, one, 1, ["census yes 1", "census reservation 0 whole e 4 r 1/1 charge 4 suffices", "journal wards uninitialised 100"])


def ends(room):
    room.lay([], [])
    words = ["program", "derivation", "catalog.json", "key"]
    for place in range(4):
        given = [*words[:place], "absent", *words[place + 1 :]]
        room.must(f"word {place} is absent", SIZE, b"", 2, ["journal.py: absent can't be read: No such file or directory"], *given)
    room.write("no.json", b"{")
    room.must("no catalog", SIZE, b"", 2, ["journal.py: the catalog is none; tools/find_fault says where it is wrong, and why"], *words[:2], "no.json", "key")
    for given in (words[:3], [*words, ".", "."]):
        ran = subprocess.run([sys.executable, f"{TOP}/tools/journal.py", "--certify", *given], capture_output=True, text=True)
        if (ran.returncode, ran.stdout) != (2, "") or "--certify" not in ran.stderr:
            sys.exit(f"{given}: {ran}")
        room.tried += 1


def by_the_program(room):
    """What the program charges suffices, and is no more than what the derivation shows."""
    programs = [SIZE, NIGHTS, b"2 * size people - sum[0,3] stays", b"if true then size people else size stays",
                b'size (filter (fn (r : text * num) => let (t, n) = r in t == "A") people)', b"case inr[text] (size stays) of inl x => 7 | inr y => 5 * y"]  # fmt: skip
    script = b"hello ann\n" + b"".join(b"ask census 0.7 %s\naskpart census area A 0.9 %s\n" % (one, one) for one in programs)
    ran = run_afresh(PROGRAM, "catalog.json", "key", script, ".")
    if ran.returncode != 0 or ran.stdout.count(b"answer") < len(programs):
        sys.exit(f"the program said {ran}")
    reserved = ran.stdout.splitlines()[1:]
    for at, program in enumerate(programs):
        r, lines = checked(program, TABLES)[1], []
        for reply, view, e in zip(reserved[2 * at : 2 * at + 2], ("whole", "part A of area"), (700_000, 900_000)):
            if reply.startswith(b"answer"):
                number, charge = reply.split()[1].decode(), -(-r.numerator * e // r.denominator)
                lines.append(f"census reservation {number} {view} e {e} r {r.numerator}/{r.denominator} charge {charge} suffices")
        room.must(f"the program, of {program}", program, derivation_of(program), 0, [f"census yes {r}", *lines])


def main():
    if "PROGRAM" not in os.environ:
        subprocess.run([f"{TOP}/tools/build"], check=True)
    with tempfile.TemporaryDirectory() as folder:
        room = Room(folder)
        for rows in (in_journals, of_many, ends, by_the_program):
            rows(room)
        os.chdir(TOP)
    print(f"{room.tried} calls of journal.py --certify say what they should")


main()
