#!/usr/bin/env python3
"""Compares derivations, and what is said of them: by the program's `derive` and `judge`, by tools/judge.py and by a second implementation (tests/lib/deriving.py).

usage: tests/comparisons/compare_derivations.py [--alone] [--rows] [COUNT [SEED]]    (PROGRAM=FILE compares another build than tools/build's)
First the rows that are worked out by hand (derivation_rows.py), with --rows these alone: each form of terms, each of its numbers made less and greater, scopes,
ranges, types in other words, lines and bytes that are wrong, and how the commands end. Then COUNT random programs (20,000 where none is said), of which the
program's `derive` writes what the second implementation does, or refuses them as `check` does. All judges say yes to it, with the sensitivity. Then something of
it is changed: a number, a line, a name, bytes, a type in other words, bytes behind it. All judges say the same of that.
--alone leaves out the program. It ends with status 1 where two differ, or where of 5,000 programs or more a kind of change, or of what is said, didn't come. With as many a derivation of 2^26 bytes is written and judged, too.
"""
import os
import random
import subprocess
import sys
import tempfile
from collections import Counter
from concurrent.futures import ThreadPoolExecutor
from fractions import Fraction

sys.path.insert(0, f"{os.path.dirname(os.path.abspath(__file__))}/../lib")
from places import TOP  # noqa: E402

sys.path.append(f"{TOP}/tools")
import judge  # noqa: E402
from beginning import begin, numbers  # noqa: E402
from catalog import catalog, owner  # noqa: E402
from bounds import FILE_LIMIT  # noqa: E402
from derivation_rows import BYTES, ENDS, FORMS, ROWS, TEXTS, TOO_LONG, UNREAD, of_size  # noqa: E402
from deriving import TooLong, derived, lines_of, size_of, verdict  # noqa: E402
from programs import Refused, deep, read, sensitivity_text  # noqa: E402
from random_derivations import CHANGES, changed  # noqa: E402
from random_programs import CATALOG, TABLES, accepted_of, program_of  # noqa: E402
from runs import asked  # noqa: E402

PROGRAM = os.path.abspath(os.environ.get("PROGRAM", f"{TOP}/out/hitchseason"))
JUDGE = f"{TOP}/tools/judge.py"
# Of so many programs on each kind of change must have come, with all that may be said of it.
ENOUGH = 5_000


def bytes_of(lines):
    return "".join(f"{line}\n" for line in lines).encode()


def by_page(program, derivation):
    """What tools/judge.py says, in this process."""
    try:
        tables = judge.tables_of(CATALOG, "census", "cat.json")
        return f"yes {judge.judged(judge.program_of(program), tables, derivation)}"
    except judge.Fault as fault:
        return fault.args[1]


def by_second(program, derivation):
    try:
        return verdict(deep(lambda: read(program)), TABLES, derivation)
    except Refused as refusal:
        return f"no {refusal}"


def measured(program):
    return size_of(lines_of(asked(program, TABLES)[0], TABLES))


class Comparison:
    def __init__(self, room, alone):
        self.room, self.alone, self.differences, self.rows = room, alone, 0, 0
        self.kinds, self.came = Counter(), Counter()

    def must(self, what, found, wanted):
        if found != wanted:
            self.differences += 1
            print(f"{what}: {str(found)[:2000]}, wanted {str(wanted)[:2000]}", flush=True)

    def write(self, name, data):
        with open(f"{self.room}/{name}", "wb") as file:
            file.write(data)
        return name

    def ran(self, *words):
        ran = subprocess.run([*words], capture_output=True, cwd=self.room)
        return ran.returncode, ran.stdout

    def by_program(self, number, program, derivation=None):
        """What `judge` says, or `derive` where there is no derivation, the files being of this number."""
        names = [self.write(f"p{number}", program)] + ([] if derivation is None else [self.write(f"d{number}", derivation)])
        ran = self.ran(PROGRAM, "derive" if derivation is None else "judge", "cat.json", "census", *names)
        for name in names:
            os.remove(f"{self.room}/{name}")
        return ran

    # The rows.

    def row(self, what, program, derivation, wanted):
        self.rows += 1
        due = (int(wanted.startswith("no")), f"{wanted}\n".encode())
        self.must(f"{what}, tools/judge.py, of {program[:80]}", by_page(program, derivation), wanted)
        if not self.alone:
            self.must(f"{what}, the program, of {program[:80]}", self.by_program(0, program, derivation), due)

    def form(self, text, lines, wanted, doubled):
        lines, program, doubled = lines.split(" ; "), text.encode(), [said for said in doubled.split(", ") if said]
        self.must(f"the second implementation, of {text}", derived(asked(program, TABLES)[0], TABLES), bytes_of(lines))
        if not self.alone:
            self.must(f"derive, of {text}", self.by_program(0, program), (0, bytes_of(lines)))
        self.row("the least derivation", program, bytes_of(lines), wanted)
        for place, line in enumerate(lines):
            first, *says = line.split(" | ")
            for at, said in enumerate(says):
                name, amount = said.split()
                less = "4294967295" if amount == "inf" else sensitivity_text(Fraction(amount) / 2)
                more = None if amount == "inf" else sensitivity_text(Fraction(amount) * 2)
                for other, due in ((less, f"no {place}"), (more, doubled.pop(0))):
                    if other is None:
                        self.must(f"inf of {text}", due, "-")
                        continue
                    made = " | ".join([first, *says[:at], f"{name} {other}", *says[at + 1 :]])
                    self.row(f"{name} at {other} in line {place}", program, bytes_of([*lines[:place], made, *lines[place + 1 :]]), due)
        self.must(f"numbers of {text}", doubled, [])

    def by_hand(self):
        for one in FORMS:
            self.form(*one)
        for what, text, lines, wanted in ROWS:
            self.row(what, text.encode(), bytes_of(lines.split(" ; ")), wanted)
        for what, text, data, wanted in BYTES:
            self.row(what, text.encode(), data, wanted)
        for program, wanted in UNREAD:
            self.row("read, or not", program, b"num\n", wanted)
        self.texts()
        self.ends()

    def texts(self):
        """How types are written, and that a derivation may be too long."""
        for program, wanted in TEXTS:
            self.rows += 1
            self.must(f"the second implementation, of {program[:80]}", derived(asked(program, TABLES)[0], TABLES).split(b"\n")[1].decode(), wanted)
            if not self.alone:
                self.must(f"derive, of {program[:80]}", self.by_program(0, program)[1].split(b"\n")[1].decode(), wanted)
        for program, is_too_long in TOO_LONG:
            self.rows += 1
            try:
                made = (0, derived(asked(program, TABLES)[0], TABLES))
            except TooLong:
                made = (11, b"derivation too long\n")
            self.must(f"the second implementation: too long, of {program[-80:]}", made[0] == 11, is_too_long)
            if not self.alone:
                self.must(f"derive: too long, of {program[-80:]}", self.by_program(0, program) == made, True)

    def at_the_limit(self):
        """A derivation of 2^26 bytes is written and judged, and one of a byte more isn't written."""
        for size in (FILE_LIMIT, FILE_LIMIT + 1):
            program = of_size(size, measured)
            self.must(f"a program whose derivation has {size} bytes", measured(program), size)
            status, said = self.by_program(0, program)
            if size > FILE_LIMIT:
                self.must("derive, of a byte too many", (status, said), (11, b"derivation too long\n"))
                continue
            self.must("derive, of 2^26 bytes", (status, said == derived(asked(program, TABLES)[0], TABLES)), (0, True))
            self.must("judge, of 2^26 bytes", self.by_program(0, program, said), (0, b"yes 0\n"))

    def ends(self):
        """Usage, and files that are absent, too long or wrong."""
        self.write("p", b"size people")
        self.write("d", b"num | people 1\nbag num | people 1\n")
        self.write("no.json", b"{")
        columns = (("a", "text"), ("b", "num"), ("c", "num"), ("d", "text"))
        tables = [(f"t{number}", "none.csv", columns[:number]) for number in range(1, 5)]
        self.write("wide.json", catalog(owner("narrow", tables[:1]), owner("wide", tables)))
        for number, row in enumerate(("text", "(text * num)", "(text * (num * num))", "(text * (num * (num * text)))"), 1):
            self.write(f"p{number}", b"size t%d" % number)
            self.write(f"d{number}", f"num | t{number} 1\nbag {row} | t{number} 1\n".encode())
        os.mkdir(f"{self.room}/folder")
        with open(f"{self.room}/long", "wb") as file:
            file.truncate(2**26 + 1)
        with open(f"{self.room}/zeros", "wb") as file:
            file.truncate(2**26)
        for words, status, said in ENDS:
            self.rows += 1
            due = status, said.encode()
            self.must(f"tools/judge.py {words}", self.ran(sys.executable, JUDGE, *words), due)
            if not self.alone:
                self.must(f"judge {words}", self.ran(PROGRAM, "judge", *words), due)

    # Programs at random.

    def compare(self, cases, pool):
        for what, wanted, said in pool.map(self.tried, range(len(cases)), cases) if not self.alone else ():
            self.must(what, said, wanted)
        for case in cases:
            case.told(self)

    def tried(self, number, case):
        """What the program says of a case's program and of both derivations, beside what is wanted."""
        return f"the program, of {case.program}", case.wanted(), [self.by_program(number, case.program), *(self.by_program(number, case.program, data) for data in case.data)]


class Case:
    """A program, its derivation, or any where it has none, and that with something changed."""

    def __init__(self, rng):
        self.program = program_of(rng) if rng.random() < 0.4 else accepted_of(rng)
        self.term, self.refusal, least = None, None, None
        try:
            self.term, self.r = asked(self.program, TABLES)
            least = derived(self.term, TABLES)
        except Refused as refusal:
            self.refusal = str(refusal)
        self.change, other = changed(rng, least or b"num | people 1\nnum | people 1\nbag num | people 1\n")
        self.data, self.least = ([least] if least else []) + [other], least
        self.said = [by_page(self.program, data) for data in self.data]

    def wanted(self):
        """What the program is to say: the derivation or why there is none, and of each derivation what is said of it."""
        first = (0, self.least) if self.least else (7, b"memory\n") if self.refusal == "90" else (1, f"no {self.refusal}\n".encode())
        return [first, *((int(said.startswith("no")), f"{said}\n".encode()) for said in self.said)]

    def told(self, comparison):
        if self.least:
            comparison.must(f"tools/judge.py, of the least derivation of {self.program}", self.said[0], f"yes {sensitivity_text(self.r)}")
        for data, said in zip(self.data, self.said):
            comparison.must(f"tools/judge.py, of {data} of {self.program}", said, by_second(self.program, data))
        comparison.kinds["accepted" if self.least else "not read" if self.refusal[:2] in ("20", "21", "22") else "refused"] += 1
        comparison.came[f"{self.change}: {self.said[-1].split()[0]}"] += self.least is not None


def main():
    alone, rows = "--alone" in sys.argv, "--rows" in sys.argv
    words = [word for word in sys.argv[1:] if not word.startswith("--")]
    count, seed = (numbers if alone else begin)(__doc__, 20_000, 1, words=words)
    rng = random.Random(seed)
    with tempfile.TemporaryDirectory() as room, ThreadPoolExecutor(3) as pool:
        comparison = Comparison(room, alone)
        comparison.write("cat.json", CATALOG)
        comparison.by_hand()
        print(f"{comparison.rows} rows by hand", flush=True)
        if count >= ENOUGH and not alone and not rows:
            comparison.at_the_limit()
        for first in range(0, 0 if rows else count, 200):
            comparison.compare([Case(rng) for _ in range(min(200, count - first))], pool)
    lacking = []
    if not rows:
        print(f"{sum(comparison.kinds.values())} programs:", ", ".join(f"{kind} {many}" for kind, many in sorted(comparison.kinds.items())))
        print("changed:", ", ".join(f"{kind} {many}" for kind, many in sorted(comparison.came.items())))
        lacking = [kind for kind in CHANGES if not comparison.came[kind] and count >= ENOUGH]
        lacking += [f"{kind}, which may not come" for kind in comparison.came if kind not in CHANGES and comparison.came[kind]]
    if lacking:
        print("none came of", ", ".join(lacking))
    print(f"{comparison.differences} differences")
    sys.exit(1 if comparison.differences or lacking else 0)


main()
