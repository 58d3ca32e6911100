#!/usr/bin/env python3
"""Times the most expensive programs that are accepted, whose walks are 1, 2 and 3 deep, over tables of 2^10, 2^14 and 2^17 rows.

usage: bench/dearest.py [SECONDS]    (PROGRAM=FILE times another build; SECONDS of processor time, 60, after which a run is ended)
Of each depth there are two: the shortest program, a `filter` in `map`s of the table; and the longest, of nearly 20,000 turns in the innermost
function, over bags 64, 8 and 4 tables wide, since a program may walk 64 bags, by whichever of some bodies takes longest a turn. Next to them is a
`filter` of a `map` over a bag of 64 tables, which makes pairs. All are charged nothing. First a program is timed over tables of 1, 2, 4, .. rows
until it takes a second. By what it takes for each visit of a row or a term (tools/lib/walks.py says how many there are at most, and here
none is left out) the rest is worked out, in parentheses. What would then take over twice SECONDS isn't run.
It ends with status 1 where a program isn't accepted, has another depth, or isn't answered.
"""
import os
import random
import subprocess
import sys
import tempfile
import time
from functools import cache

sys.path.insert(0, f"{os.path.dirname(os.path.abspath(__file__))}/../tests/lib")
from places import TOP  # noqa: E402

PROGRAM = os.path.abspath(os.environ.get("PROGRAM", f"{TOP}/crates/hitchseason/out/hitchseason"))
import random_programs  # noqa: E402
from afresh import renew  # noqa: E402
from one_table import OneTable  # noqa: E402
from programs import PEOPLE, Refused, checked  # noqa: E402
from runs import TURN_LIMIT  # noqa: E402
from walks import walks  # noqa: E402

ROWS = (2**10, 2**14, 2**17)
FAR = 32 * "n"
# Bodies of the first of some functions, of which each calls the one before twice, and their turns.
BODIES = {
    "calls": ("x", 1),
    "pairs": ("fst < x , x >", 4),
    "pairs of pairs": ("fst ( fst < < x , 1 > , < x , 2 > > )", 9),
    "branches": ("case inl [ text ] x of inl a => a | inr b => 7", 5),
    "sums": ("x + 1 - 1", 5),
    "a far name": (random_programs.balanced(32 * [FAR], " - "), 63),
}
WIDEST = 64
MEMORY = 8 * 2**30


# The programs.


def shortest(depth, width=1):
    """A `filter` in so many `map`s less one, over the table."""
    text = "size (filter (fn (y : num) => y <= 30) people)" if depth == 1 else "size (filter (fn (y : num) => y <= x) people)"
    for _ in range(depth - 1):
        text = f"sum[0,9] (map (fn (x : num) => {text}) people)"
    return f"0 * {text}"


def bags(width):
    """Lets of a bag so many tables wide, a power of two, and its name."""
    text, name, wide = "", "people", 1
    while wide < width:
        text += f"let b{2 * wide} = union {name} {name} in "
        name, wide = f"b{2 * wide}", 2 * wide
    return text, name


def filled(body, turns):
    """A term of about so many turns, of the name x."""
    first, own = BODIES[body]
    random_programs.FIRST_BODIES[first] = own
    return random_programs.turning(random.Random(1), 12, first, turns, "x")


def nested(depth, width, inner, between):
    """The innermost function's body, in so many `map`s of such a bag, after a name with so many pairs of names between."""
    lets, bag = bags(width)
    text = f"( {inner} )"
    for _ in range(depth):
        text = f"sum [ 0 , 9 ] ( map ( fn ( x : num ) => {text} ) {bag} )"
    names = "".join(f"let ( {2 * place:n>32} , {2 * place + 1:n>32} ) = ( 1 , 1 ) in " for place in range(between))
    return f"let {FAR} = 1 in {names}{lets}0 * {text}"


def longest(body):
    """By depth and width, the program with as many names between and as many turns as there may be."""

    @cache
    def made(depth, width=WIDEST):
        between, turns = 40, 1000
        while True:
            program = nested(depth, width, filled(body, turns), between)
            try:
                spare = TURN_LIMIT - walked(program).turns
                if spare < 10:
                    return program
                turns += spare
            except Refused as refusal:
                if str(refusal).split()[0] == "22":
                    between -= 1
                else:
                    turns -= 1

    return made


def widest(depth, width=WIDEST):
    lets, bag = bags(width)
    return f"{lets}0 * size (filter (fn (p : num & num) => fst p <= 30) (map (fn (x : num) => <x, x>) {bag}))"


def walked(program, rows=1):
    """What is said of an accepted program; Refused else."""
    return walks(checked(program.encode(), PEOPLE)[0], PEOPLE, rows)


# Runs.


class Room(OneTable):
    bad = 0

    def over(self, rows):
        if self.is_new(rows, lambda row: 20 + row * 7919 % 80):
            renew(PROGRAM, "cat.json", "key", self.folder)
            self.alone = self.run(b"hello ann\n")[0]

    def run(self, script):
        """Processor time, greatest memory in KiB, and the last reply, or nothing where the run was ended."""
        with tempfile.TemporaryFile() as given, tempfile.TemporaryFile() as said:
            given.write(script)
            given.seek(0)
            child = subprocess.Popen([PROGRAM, "run", "cat.json", "key"], stdin=given, stdout=said, cwd=self.folder, preexec_fn=self.bound)
            status, used = os.wait4(child.pid, 0)[1:]
            child.returncode = os.waitstatus_to_exitcode(status)
            said.seek(0)
            reply = said.read().decode().splitlines()[-1:] if child.returncode == 0 else None
        return used.ru_utime + used.ru_stime, used.ru_maxrss, reply and reply[0]

    def ask(self, program, rows):
        """Seconds of the ask alone, memory, and whether it was ended; the run's own time is taken off."""
        self.over(rows)
        seconds, memory, reply = self.run(f"hello ann\nask census 1 {program}\n".encode())
        if reply is not None and not reply.startswith(("answer ", "no 51 ")):
            self.bad += 1
            print(f"{reply}, and not an answer, of {program[:300]}")
        return max(seconds - self.alone, 0), memory, reply


def visits(program, rows):
    found = walked(program, rows)
    return found.rows + found.most_turns


def unit_of(room, made, depth, width):
    """Nanoseconds for each visit of a row or a term, and over how many rows that was found."""
    program, rows = made(depth, width), 1
    while True:
        seconds, _, reply = room.ask(program, rows)
        if reply is None:
            sys.exit(f"over {room.seconds} s over {rows} rows: {program[:300]}")
        if seconds >= 1 or rows == ROWS[-1]:
            return seconds * 1e9 / visits(program, rows), rows
        rows *= 2


def plain(figure):
    return f"{figure:,.0f}" if figure >= 100 else f"{figure:.2g}"


def long_time(seconds):
    for unit, size in (("years", 365.25 * 86400), ("days", 86400), ("hours", 3600), ("minutes", 60)):
        if seconds >= 100_000 * size:
            return f"10^{len(str(int(seconds / size))) - 1} {unit} or more"
        if seconds >= 2 * size:
            return f"{plain(seconds / size)} {unit}"
    return f"{plain(seconds)} s"


def cell(room, program, rows, unit):
    """What an ask takes, measured or worked out, and what a visit took where it took a second."""
    due = unit * visits(program, rows) / 1e9
    if due > 2 * room.seconds:
        return f"({long_time(due)})", unit
    seconds, memory, reply = room.ask(program, rows)
    if reply is None:
        return f"over {room.seconds} s ({long_time(due)})", unit
    told = f"{long_time(seconds)}{', `' + reply + '`' if reply.startswith('no') else ''}, {memory // 1024} MiB"
    return told, seconds * 1e9 / visits(program, rows) if seconds >= 1 else unit


def row(room, name, made, depth, width):
    program = made(depth, width)
    if walked(program).walk_depth != depth:
        room.bad += 1
        print(f"{walked(program).walk_depth} deep, and not {depth}: {program[:300]}")
    unit, rows = unit_of(room, made, depth, width)
    cells, now = [], unit
    for many in ROWS:
        told, now = cell(room, program, many, now)
        cells.append(told)
    print(f"| {name} | {depth} | {plain(unit)} ns, over {rows} | {' | '.join(cells)} | {os.getloadavg()[0]:.1f} |", flush=True)


def main():
    seconds = int(sys.argv[1]) if len(sys.argv) > 1 else 60
    if not os.access(PROGRAM, os.X_OK):
        sys.exit(f"there is no {PROGRAM}: run 'rt run' in crates/hitchseason first, which proves and builds it")
    begun = time.monotonic()
    with tempfile.TemporaryDirectory() as folder:
        room = Room(folder, seconds, MEMORY)
        units = {body: unit_of(room, longest(body), 1, 1)[0] for body in BODIES}
        print("a visit by body:", ", ".join(f"{body} {unit:.0f} ns" for body, unit in units.items()))
        dearest = max(units, key=units.get)
        print(f"| Program | Depth | A visit, over rows | {' | '.join(f'2^{many.bit_length() - 1} rows' for many in ROWS)} | Load |\n|{7 * '---|'}")
        for depth in (1, 2, 3):
            row(room, "shortest", shortest, depth, 1)
        row(room, "widest", widest, 1, WIDEST)
        for depth, width in ((1, WIDEST), (2, 8), (3, 4)):
            row(room, f"longest, of {dearest}", longest(dearest), depth, width)
    print(f"in {time.monotonic() - begun:.0f} s")
    sys.exit(1 if room.bad else 0)


if __name__ == "__main__":
    main()
