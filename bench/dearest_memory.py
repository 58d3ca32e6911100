#!/usr/bin/env python3
"""What accepted programs take of memory, and of time over one row: the worst that were made by hand, and the worst of some random ones.

usage: bench/dearest_memory.py [N] [SEED]    (PROGRAM=FILE tries another build; N random programs, 300, of this seed, 1)
Each is charged nothing, and runs over tables of one row and, unless it walks long chains often, of 1,024 rows. Memory is the peak of what is
resident, less that of `0 * size people` over the same table; time is processor time, less that of the same. The programs are also put in the
function of a `map`, where they run for a row: so whoever sets a limit of memory could tell that row by it. A run is ended after 60 s of
processor time. It says the most of each kind, and ends with status 1 where one takes over 100 MB, or over 2 s over one row, or isn't answered.
"""
import os
import random
import subprocess
import sys
import tempfile

sys.path.insert(0, f"{os.path.dirname(os.path.abspath(__file__))}/../tests/lib")
from places import TOP  # noqa: E402

PROGRAM = os.path.abspath(os.environ.get("PROGRAM", f"{TOP}/out/hitchseason"))
from afresh import renew  # noqa: E402
from one_table import OneTable  # noqa: E402

ROWS = (1, 1024)
MEMORY_BAR = 100.0
TIME_BAR = 2.0
ADDRESS_SPACE = 8 * 2**30
SECONDS = 60
LINE = 4000
HEAD = "let t = true in let g = fn (x : num) => x in let h = fn (x : num) => t in "
TRIVIAL = "0 * size people"


# Parts of programs.


def wide(name, doublings=6):
    """The name stands for the union of so many copies of its bag, a power of two."""
    return f"let {name} = union {name} {name} in " * doublings


def applied(form, count, bag):
    """Lets of functions that each apply the one before twice, and a term: the bag `bag` after the form, written of b, so many times."""
    lets, level = f"let m0 = fun (b : bag num) => {form} in ", 0
    while 2 ** (level + 1) <= count:
        level += 1
        lets += f"let m{level} = fun (b : bag num) => m{level - 1} (m{level - 1} b) in "
    term = bag
    for n in range(level, -1, -1):
        if count >> n & 1:
            term = f"m{n} ({term})"
    return lets, term


def nested(form, count):
    """A form of b within itself, so many times."""
    term = "b"
    for _ in range(count):
        term = f"{form} ({term})"
    return term


def tree(leaf, leaves, doublings):
    """Lets of functions that give pairs of pairs, so that many leaves, written of b, are held at once; and the last one's name."""
    pairs = leaf
    for _ in range(leaves - 1):
        pairs = f"<{leaf}, {pairs}>"
    lets = f"let c0 = fun (b : bag num) => {pairs} in "
    for n in range(1, doublings + 1):
        lets += f"let c{n} = fun (b : bag num) => <c{n - 1} b, c{n - 1} b> in "
    return lets, f"c{doublings}"


def walked(walk, times, doublings):
    """Lets of functions that add up so many walks, written of b, and twice as many each further one; and the last one's name."""
    lets = f"let c0 = fn (b : bag num) => {' + '.join(times * [walk])} in "
    for n in range(1, doublings + 1):
        lets += f"let c{n} = fn (b : bag num) => c{n - 1} (![inf] b) + c{n - 1} (![inf] b) in "
    return lets, f"c{doublings}"


# Whole programs.


def stages_held(stages, leaves, doublings):
    """So many maps of a table, united 64 wide, and split so many times, all of which is held."""
    lets, bag = applied("map g b", stages, "people")
    held, last = tree("split h b", leaves, doublings)
    return f"{HEAD}{lets}let p = {bag} in {wide('p')}{held}let n = {last} p in 0 * 1"


def long_chain(stages, form="map g b"):
    lets, bag = applied(form, stages, "p")
    return f"{HEAD}let p = people in {wide('p')}{lets}let q = {bag} in 0 * 1"


def splits_held(leaves, doublings):
    held, last = tree("split h b", leaves, doublings)
    return f"{HEAD}let p = people in {wide('p')}{held}let n = {last} p in 0 * 1"


def closures(stages):
    """Each map's function holds the bag before."""
    lets, bag = applied("map (fn (x : num) => let (b, y) = (b, 1) in x) people", stages, "people")
    return f"{lets}let q = {bag} in 0 * 1"


def long_names(pairs):
    names = "".join(f"let ({2 * n:n>32} , {2 * n + 1:n>32}) = (1, 1) in " for n in range(pairs))
    return f"{names}{long_chain(1000)}"


def walks(inner, forms, times, doublings, form="filter h", walk="size b"):
    """A bag 64 wide after so many forms, each nested so often, that is walked so many times."""
    lets, bag = applied(nested(form, inner), forms, "p")
    again, last = walked(walk, times, doublings)
    return f"{HEAD}let p = people in {wide('p')}{lets}let q = {bag} in {again}0 * {last} (![inf] q)"


def walks_within(inner, forms, times, doublings):
    """The same, walked once for each of 63 rows at each of those walks."""
    lets, bag = applied(nested("filter h", inner), forms, "p")
    again, last = walked("size b", times, doublings)
    outer = "let o = people in " + "let o = union o o in " * 5 + "let o = union o (" + "union people (" * 29 + "union people people" + ")" * 29 + ") in "
    made = "let r = map (fn (x : num) => size q) o in "
    return f"{HEAD}let p = people in {wide('p')}{lets}let q = {bag} in {outer}{made}{again.replace('size b', 'sum[0,1] b')}0 * {last} (![inf] r)"


def chain(pairs):
    return "(y, " * pairs + "y" + ")" * pairs


def columns(pairs, lets):
    """Columns in pairs of pairs, under so many lets."""
    body = "let z = x + x in " + "let p = f (![inf] z) in " * lets + "x"
    return f"let f = fn (y : num) => {chain(pairs)} in 0 * sum[0,1] (map (fn (x : num) => {body}) people)"


def inside_a_map(program):
    """The program in the function of a map, run for each row that is 77."""
    return f"0 * sum[0,9] (map (fn (v : num) => if v == 77 then ({program}) else 0) people)"


def holding():
    """Programs that hold stages, bags and columns, of nearly 20,000 turns; each also inside a map."""
    cases = {
        "a long chain, split and held": stages_held(1900, 7, 6),
        "a long chain, split and held more often": stages_held(1600, 7, 7),
        "splits held": splits_held(29, 7),
        "a chain of maps": long_chain(2200),
        "a chain of filters": long_chain(2200, "filter h b"),
        "the longest chain": long_chain(660, nested("map g", 8)),
        "functions that hold bags": closures(1530),
        "lets of long names": long_names(30),
        "columns in pairs": columns(38, 50),
    }
    cases.update({f"{name}, inside a map": inside_a_map(program) for name, program in cases.items()})
    return cases


def walking():
    """Programs that walk long chains often."""
    return {
        "64 tables, 2,400 filters, 120 walks": walks(8, 300, 30, 2),
        "64 tables, 2,400 maps, 120 sums": walks(8, 300, 30, 2, "map g", "sum[0,1] b"),
        "64 tables, 4,000 filters, 1,920 walks": walks(40, 100, 30, 6),
        "64 tables, 800 filters, 120 times 63 walks": walks_within(8, 100, 30, 2),
    }


# Random programs.


class Maker:
    """Programs that bind, take apart, unite, stage and hold bags, with as many stages and leaves as there may be."""

    def __init__(self, seed):
        self.random, self.names = random.Random(seed), 0

    def name(self):
        self.names += 1
        return self.random.choice(("v", "v", "v", 20 * "v")) + str(self.names)

    def stage(self, bag, depth=0):
        """A term of a bag, which has the name or term `bag` once."""
        kind = self.random.randrange(12 if depth <= 3 else 2)
        v, w, u = self.name(), self.name(), self.name()
        if kind < 3:
            return f"map g ({bag})"
        if kind < 5:
            return f"filter h ({bag})"
        if kind == 5:
            return f"let {v} = {bag} in {self.stage(v, depth + 1)}"
        if kind == 6:
            return f"let ({v}, {w}) = split h ({bag}) in {self.stage(v, depth + 1)}"
        if kind == 7:
            return f"map (fn (x : num) => let {v} = (x, x) in x) ({bag})"
        if kind == 8:
            return f"(fun ({v} : bag num) => {self.stage(v, depth + 1)}) ({bag})"
        if kind == 9:
            return f"fst <{self.stage(bag, depth + 1)}, {bag}>" if " " not in bag else self.stage(bag, depth + 1)
        if kind == 10:
            return f"case inl[num] ({bag}) of inl {v} => {self.stage(v, depth + 1)} | inr {w} => map g people"
        return f"let ({u}, {w}) = (1, 2) in {self.stage(bag, depth + 1)}"

    def leaf(self):
        kind = self.random.randrange(9)
        if kind < 4:
            return "split h b"
        if kind == 4:
            return self.stage("b")
        if kind == 5:
            return "fun (u : num) => b"
        if kind == 6:
            return "<b, b>"
        if kind == 7:
            return "map (fn (x : num) => x) (map g b)"
        return "split (fn (x : num) => true) b"

    def program(self, plan):
        form, leaf, doublings, leaves, deep, stages, after, ending, wrap = plan
        lets, bag = applied(form, max(stages, 1), "p" if after else "people")
        united = "let p = people in " + wide("p", doublings)
        made = f"{united}{lets}let p = {bag} in " if after else f"{lets}let p = {bag} in {wide('p', doublings)}"
        held, last = tree(leaf, leaves, deep)
        end = {"hold": "0 * 1", "size": "0 * size p", "sum": "0 * sum[0,9] p", "walks": None}[ending]
        if end is None:
            again, walk = walked("size b", leaves, min(deep, 5))
            end = f"{again}0 * {walk} (![inf] p)"
            held, kept = "", ""
        else:
            kept = f"let n = {last} p in "
        program = f"{HEAD}{made}{held}{kept}{end}"
        return inside_a_map(program) if wrap else program

    def plan(self):
        r = self.random
        ending = r.choice(("hold", "hold", "size", "sum", "walks"))
        sizes = [r.randrange(7), r.randrange(1, 17), r.randrange(0, 9), int(2 ** r.uniform(0, 12))]
        return [self.stage("b"), self.leaf(), *sizes, r.random() < 0.5, ending, r.random() < 0.2]

    def lesser(self, plan):
        """Fewer stages or leaves, for a program that was refused; nothing where there are no fewer."""
        deep, stages = plan[4], plan[5]
        if stages > 20 * deep and stages > 1:
            plan[5] = int(stages * 0.7)
        elif deep > 0:
            plan[4] = deep - 1
        elif stages > 1:
            plan[5] = int(stages * 0.7)
        elif plan[3] > 1:
            plan[3] //= 2
        else:
            return None
        return plan


# Runs.


class Room(OneTable):
    """The first row of its table is 77."""

    def over(self, rows):
        if self.is_new(rows, lambda row: 20 if row else 77):
            self.least_seconds, self.least_memory, _ = self.run(TRIVIAL)

    def run(self, program):
        """Processor time in seconds, the peak of resident memory in MB, and the reply."""
        renew(PROGRAM, "cat.json", "key", self.folder)
        script = f"hello ann\nask census 1 {program}\n".encode()
        with tempfile.TemporaryFile() as said:
            words = ["/usr/bin/time", "-o", "used", "-f", "%U %S %M", PROGRAM, "run", "cat.json", "key"]
            done = subprocess.run(words, input=script, stdout=said, stderr=subprocess.DEVNULL, cwd=self.folder, preexec_fn=self.bound)
            said.seek(0)
            replies = said.read().decode().splitlines()
        with open(f"{self.folder}/used", encoding="ascii") as file:
            user, system, peak = file.read().split("\n")[-2].split()
        reply = replies[-1] if replies and done.returncode == 0 else f"status {done.returncode}"
        return float(user) + float(system), int(peak) / 1000, reply

    def ask(self, program, rows):
        """The same, above what a trivial program takes."""
        self.over(rows)
        seconds, memory, reply = self.run(program)
        return max(seconds - self.least_seconds, 0), max(memory - self.least_memory, 0), reply


class Worst:
    """The most that was found, and how many programs missed a bar."""

    def __init__(self, room):
        self.room, self.missed, self.refused, self.answered = room, 0, {}, 0
        self.most = {(rows, what): (0, "", "") for rows in ROWS for what in ("MB", "s")}

    def take(self, name, program, rows, must_answer):
        seconds, memory, reply = self.room.ask(program, rows)
        answered = reply.startswith("answer ")
        if not answered:
            kind = " ".join(reply.split()[:2])
            self.refused[kind] = self.refused.get(kind, 0) + 1
        if is_refusal(reply) and not must_answer:
            return None
        self.answered += answered
        for what, figure in (("MB", memory), ("s", seconds)):
            if figure > self.most[rows, what][0]:
                self.most[rows, what] = (figure, name, program)
        over = memory > MEMORY_BAR or (rows == 1 and seconds > TIME_BAR) or not answered
        if over or must_answer:
            self.missed += over
            print(f"{name:<54} {rows:>5} rows {memory:>8.1f} MB {seconds:>7.2f} s  {reply[:24]}{'  MISSED' if over else ''}", flush=True)
        return seconds


def is_refusal(reply):
    """Whether the program is refused before it runs, so that it isn't an accepted one."""
    return reply.startswith("no ") and reply.split()[1] != "51"


def found(worst, number, seed):
    maker = Maker(seed)
    for n in range(number):
        plan = maker.plan()
        while plan is not None:
            program = maker.program(plan)
            seconds = worst.take(f"random program {n}", program, ROWS[0], False)
            if seconds is None:
                plan = maker.lesser(plan)
                continue
            if seconds * ROWS[1] < SECONDS:
                worst.take(f"random program {n}", program, ROWS[1], False)
            break


def main():
    number = int(sys.argv[1]) if len(sys.argv) > 1 else 300
    seed = int(sys.argv[2]) if len(sys.argv) > 2 else 1
    if not os.access(PROGRAM, os.X_OK):
        sys.exit(f"there is no {PROGRAM}: tools/build makes it")
    with tempfile.TemporaryDirectory() as folder:
        worst = Worst(Room(folder, SECONDS, ADDRESS_SPACE))
        for rows in ROWS:
            for name, program in holding().items():
                worst.take(name, program, rows, True)
        for name, program in walking().items():
            worst.take(name, program, 1, True)
        found(worst, number, seed)
    print(f"{worst.answered} runs were answered, {number} random programs among them; not answered: {worst.refused}")
    for (rows, what), (figure, name, program) in worst.most.items():
        print(f"the most over {rows} rows: {figure:.2f} {what}, {name}, {len(program)} bytes")
        if name.startswith("random"):
            print(f"    {program[:LINE]}")
    print("met" if worst.missed == 0 else f"{worst.missed} MISSED: over {MEMORY_BAR:.0f} MB, over {TIME_BAR:.0f} s over one row, or not answered")
    sys.exit(1 if worst.missed else 0)


if __name__ == "__main__":
    main()
