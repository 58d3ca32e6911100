#!/usr/bin/env python3
"""Tries what tools/lib/walks.py says without data, how deep rows are walked within rows and how much a run takes at most, beside runs on data.

usage: tests/tools/walks.py [COUNT [SEED]]
Cases worked by hand, the programs of docs/language.md's section on walks, and COUNT random programs (2,000 where none is said), half of them
with walks in functions that other walks run. Each is run on tables by the second evaluator, which counts: what it counts is at most what was
said, and the same where a program has no form by which less may be walked. Then tools/walks and tools/explain are called; the programs of
docs/first-programs.md are at most 1 deep. It ends with status 1 where one differs, or where too few of the random programs walk, walk within
walks, or come to what was said.
"""
import contextlib
import importlib.machinery
import importlib.util
import io
import os
import random
import sys
import tempfile
from collections import Counter

sys.path.insert(0, f"{os.path.dirname(os.path.abspath(__file__))}/../lib")
from places import TOP, page  # noqa: E402
from first_programs import CATALOG as SURVEY, PAGE, page_script, text_of  # noqa: E402
from language import rows_of_tables  # noqa: E402
from programs import NUM, Refused, checked, deep  # noqa: E402
from random_programs import TABLES, Writer, accepted_of  # noqa: E402
from runs import Bang, Run, TooManySteps, clamp, clipped, plan  # noqa: E402
from walks import count, walks  # noqa: E402

CATALOG = "examples/language/catalog.json"
STEPS = 40_000
# Tables of as many rows as a table has at most.
R = 4
FULL = {"people": [1, 2, 3, 4], "stays": [(b"a", 1), (b"b", 2), (b"a", 3), (b"c", 4)]}
# Forms by which a run may walk less than was said: rows that are left out, a branch that isn't taken, halves of which one is the wider.
LESSENING = {"filter", "split", "if", "case", "pair", "with", "let,", "fst", "snd"}

# A type of 2^28 numbers, each pair of it being one part, made twice.
PAIRS = "".join(f"let {name}0 = (0, 0) in " + "".join(f"let {name}{n} = ({name}{n - 1}, {name}{n - 1}) in " for n in range(1, 28)) for name in "ab")
ALL = "fn (y : num) => true"
SOME = "fn (y : num) => y <= x"
MAP = "0 * sum[0,9] (map (fn (x : num) => {}) people)"
# A program, its depth, and the visits of rows that are said; and those of a run on FULL where they are fewer.
CASES = [
    # What walks, and what doesn't.
    ("7", 0, 0),
    ("size people", 0, 0),
    ("let b = people in size b", 0, 0),
    ("sum[0,9] people", 1, R),
    ("size (map (fn (y : num) => y + 1) people)", 0, 0),
    ("size (map (fn (y : num) => y) (map (fn (y : num) => y) people))", 0, 0),
    ("sum[0,9] (map (fn (y : num) => y) (map (fn (y : num) => y) people))", 1, R),
    (f"size (filter ({ALL}) people)", 1, R),
    (f"size (map (fn (y : num) => y) (filter ({ALL}) people))", 1, R),
    (f"let (a, b) = split ({ALL}) people in size a + size b", 1, 2 * R),
    ("size (union people people)", 0, 0),
    ("size (union people (union people people))", 0, 0),
    ("sum[0,9] (union people people)", 1, 2 * R),
    (f"size (union people (filter ({ALL}) people))", 1, R),
    ("let a = sum[0,9] people in 1", 1, R),
    (f"{PAIRS}let c = if true then a27 else b27 in size people", 0, 0, 0),
    ("sum[0,9] people + sum[0,9] people", 1, 2 * R),
    # What a filter leaves out is visited all the same, both branches count, and of a pair the wider half is taken for both.
    ("sum[0,9] (filter (fn (y : num) => y <= 1) people)", 1, R),
    ("let (a, b) = split (fn (y : num) => y <= 1) people in sum[0,9] a + sum[0,9] b", 1, 2 * R),
    ("if true then size people else sum[0,9] people", 1, R, 0),
    ("case inl[unit] people of inl b => size b | inr u => sum[0,9] people", 1, R, 0),
    ("let (a, b) = (people, union people people) in sum[0,9] a + size b", 1, 2 * R, R),
    ("fst <sum[0,9] people, sum[0,9] people>", 1, 2 * R),
    # A side of a sum that never comes holds no bag, so nothing is walked.
    ("case inr[bag num] 5 of inl b => sum[0,9] b | inr n => n", 0, 0, 0),
    # In a function that is run for each row that a walk visits.
    (MAP.format("size people"), 1, R),
    (MAP.format("sum[0,9] people"), 2, R + R**2),
    (MAP.format(f"size (filter ({SOME}) people)"), 2, R + R**2),
    (MAP.format(f"let (a, b) = split ({SOME}) people in size a"), 2, R + R**2),
    (MAP.format("size (map (fn (y : num) => x + y) people)"), 1, R),
    (MAP.format("size (union people people)"), 1, R),
    (MAP.format("sum[0,9] people + sum[0,9] people"), 2, R + 2 * R**2),
    ("0 * size (filter (fn (x : num) => sum[0,9] people <= x) people)", 2, R + R**2),
    ("let (a, b) = split (fn (x : num) => 0 * sum[0,9] people <= x) people in size a", 2, R + R**2),
    (f"0 * size (filter (let n = size (filter ({ALL}) people) in fn (y : num) => y <= n) people)", 1, 2 * R),
    ("0 * size (map (fn (x : num) => sum[0,9] people) (map (fn (y : num) => y) people))", 0, 0),
    ("0 * sum[0,9] (map (fn (x : num) => sum[0,9] people) (map (fn (y : num) => y) people))", 2, R + R**2),
    ("0 * sum[0,9] (map (fn (x : num) => x) (union people people))", 1, 2 * R),
    ("sum[0,0] (map (fn (x : num) => sum[0,9] people) people)", 2, R + R**2),
    ("0 * size (map (fn (x : num) => sum[0,9] people) (union people people))", 0, 0),
    ("0 * sum[0,9] (map (fn (x : num) => sum[0,9] people) (union people people))", 2, 2 * R + 2 * R**2),
    # A bag is made where it is walked, wherever it was bound.
    (f"let b = filter ({ALL}) people in " + MAP.format("size b"), 2, R + R**2),
    (MAP.format(f"let b = filter ({ALL}) people in size b"), 2, R + R**2),
    (f"let b = filter ({ALL}) people in " + MAP.format("sum[0,9] b"), 2, R + R**2),
    ("let b = map (fn (y : num) => sum[0,9] people) people in 0 * (sum[0,9] b + sum[0,9] b)", 2, 2 * R + 2 * R**2),
    ("let n = sum[0,9] people in " + MAP.format("x + n"), 1, 2 * R),
    # A function walks where it is called, wherever it was made, and not where it isn't.
    (f"let f = fn (x : num) => size (filter ({SOME}) people) in f (![inf] 3)", 1, R),
    (f"let f = fn (x : num) => size (filter ({SOME}) people) in " + MAP.format("f (![inf] x)"), 2, R + R**2),
    (f"let f = fn (x : num) => size (filter ({SOME}) people) in 0 * size (map f people)", 0, 0),
    (f"let f = fn (x : num) => size (filter ({SOME}) people) in 0 * sum[0,9] (map f people)", 2, R + R**2),
    (f"let f = fn (x : num) => size (filter ({SOME}) people) in " + MAP.format("x"), 1, R),
    (MAP.format(f"let f = fn (x : num) => size (filter ({SOME}) people) in x"), 1, R),
    ("let g = fun (b : bag num) => sum[0,1] b in g people", 1, R),
    ("let g = fun (b : bag num) => sum[0,1] b in " + MAP.format("g people"), 2, R + R**2),
    ("let g = fun (h : num -o num) => h 1 in " + MAP.format("g (fun (n : num) => sum[0,9] people)"), 2, R + R**2),
    ("let p = (fun (b : bag num) => sum[0,1] b, people) in let (f, b) = p in f b", 1, R),
    ("let !b = ![2] people in sum[0,9] b + size b", 1, R),
    # Three deep.
    (MAP.format("size (filter (fn (y : num) => sum[0,9] people <= y) people)"), 3, R + R**2 + R**3),
    (MAP.format("sum[0,9] (map (fn (y : num) => y) people)"), 2, R + R**2),
    ("let f = fn (y : num) => sum[0,9] people in let g = fn (x : num) => sum[0,9] (map f people) in " + MAP.format("g (![inf] x)"), 3, R + R**2 + R**3),
]
# Seven maps, each of which sums the bag before for each row: too many walks. Bags that are doubled, and functions that are applied 2^n times.
HEAVY = "let z = let a = map (fn (x : num) => x + size people) people in " + 6 * "let a = map (fn (x : num) => x + sum[0,1] a) a in " + "0 * size a in "
DOUBLED = "let b = union people people in " + 5 * "let b = union b b in "
APPLIED = "let f = fun (x : num) => x in " + 12 * "let f = fun (x : num) => f (f x) in "
# What is told of a program: a limit that is passed before 90, whether it is passed before the walks or behind them.
ORDER = [
    (f"{HEAVY}{DOUBLED}size b", "90"),
    (f"{DOUBLED}{HEAVY}size b", "90"),
    (f"{HEAVY}{DOUBLED}let b = union b b in size b", "37 {} 128"),
    (f"{DOUBLED}let b = union b b in {HEAVY}size b", "37 {} 128"),
    (f"{HEAVY}{APPLIED}f 1", "36 {}"),
    (f"{APPLIED}let y = f 1 in {HEAVY}y", "36 {}"),
    (f"let f = fun (x : num) => {60 * '1 * '}x in let g = fun (x : num) => {50 * '1 * '}f x in {HEAVY}{20 * '1 * '}g 1", "35 {}"),
]
# Programs with the terms that they visit: in a body as often as it is run.
TURNS = [
    ("7", 1),
    ("size people", 2),
    ("sum[0,9] people", 2),
    ("size (map (fn (y : num) => y + 1) people)", 4),
    ("sum[0,99] (map (fn (y : num) => y + 1) people)", 4 + 3 * R),
    ("let f = fun (x : num) => x + 1 in f (f 2)", 13),
    (MAP.format(f"size (filter ({SOME}) people)"), 5 + 4 * R + 3 * R**2),
]


class Counting(Run):
    """A run on data that counts visits of rows, and keeps how deep they came to be within one another. A bag is a list of tables, each with the stages behind
    it: whether a function gives elements, or tells which are kept, and which those are."""

    def __init__(self):
        super().__init__(STEPS)
        self.visits = self.depth = self.around = 0

    @property
    def turns(self):
        return STEPS - self.steps

    def name(self, node, scope, name):
        found = super().name(node, scope, name)
        return [(found, ())] if name in FULL and isinstance(found, Rows) else found

    def over_bag(self, node, scope, f, b):
        function = self.value(f, scope)
        bag = self.value(b, scope)
        behind = lambda keeps: [(rows, (*stages, (function, keeps))) for rows, stages in bag]  # noqa: E731
        if node.form == "map":
            return behind(None)
        return behind(True) if node.form == "filter" else (behind(True), behind(False))

    def walked(self, rows, stages):
        """What the rows are behind the stages."""
        self.depth = max(self.depth, self.around + 1)
        for row in rows:
            self.visits += 1
            self.around += 1
            passed = self.passed(row, stages)
            self.around -= 1
            yield from passed

    def passed(self, row, stages):
        for function, keeps in stages:
            given = self.value(*function.entered(Bang(row)))
            if keeps is None:
                row = given
            elif given.left != keeps:
                return []
        return [row]

    def size(self, node, scope, e):
        lessened = lambda stages: any(keeps is not None for _, keeps in stages)  # noqa: E731
        many = [sum(1 for _ in self.walked(rows, stages)) if lessened(stages) else len(rows) for rows, stages in self.value(e, scope)]
        return clamp(sum(many))

    def clipped_sum(self, node, scope, low, high, e):
        return clamp(sum(clipped(low, high, row) for rows, stages in self.value(e, scope) for row in self.walked(rows, stages)))


class Rows(list):
    """A table."""


def counted(term, rows):
    run = Counting()
    run.value(term, {name: Rows(table) for name, table in rows.items()})
    return run


# Random programs with walks in functions.

AROUND = [
    "0 * sum [ 0 , 9 ] ( map ( fn ( x : num ) => {} ) people )",
    "0 * size ( filter ( fn ( x : num ) => {} <= x ) people )",
    "let ( a , b ) = split ( fn ( x : num ) => 0 * ( {} ) <= x ) people in size b",
    "let f = fn ( x : num ) => {} in 0 * sum [ 0 , 9 ] ( map f people )",
    "let f = fn ( x : num ) => {} in 0 * sum [ 0 , 9 ] ( map ( fn ( x : num ) => f ( ! [ inf ] x ) + x ) ( union people people ) )",
    "let f = fun ( x : num ) => 0 * ( {} ) in sum [ - 9 , 9 ] ( map ( fn ( x : num ) => f x - x ) people )",
    "let n = sum [ 0 , 9 ] ( map ( fn ( s : text * num ) => let ( t , x ) = s in {} ) stays ) in 3",
    "sum [ 0 , 0 ] ( map ( fn ( x : num ) => {} ) people )",
]


def within_walks(rng):
    """A number of the tables and of x, in a function that is run for each row; now and then that in another."""
    text = Writer(rng, 0).term(NUM, [("x", NUM), *TABLES], rng.randint(1, 5))
    for _ in range(rng.choice([1, 1, 2])):
        text = rng.choice(AROUND).format(f"( {text} )")
    return text.encode("latin-1")


def nested_of(rng):
    while True:
        program = within_walks(rng)
        try:
            checked(program, TABLES)
        except Refused:
            continue
        return program


def forms_of(node):
    yield node.form
    for part in node.parts:
        if hasattr(part, "form"):
            yield from forms_of(part)


def tables_of(rng, full):
    """Tables of at most so many rows, or of just so many."""
    most = rng.choice([1, 2, 3, 3])
    many = lambda: most if full else rng.randint(0, most)  # noqa: E731
    number = lambda: rng.choice([0, 1, 2, 3, 7, 50, 1000])  # noqa: E731
    return most, {"people": [number() for _ in range(many())], "stays": [(rng.choice([b"a", b"it is"]), number()) for _ in range(many())]}


class Trial:
    def __init__(self, room):
        self.room, self.differences, self.kinds = room, 0, Counter()

    def differ(self, what, program, found, want):
        self.differences += 1
        print(f"{what}: {found}, and not {want}, of {program if len(program) < 900 else program[:900] + ' ..'}")

    def same(self, what, program, found, want):
        if found != want:
            self.differ(what, program, found, want)

    def by_hand(self):
        for program, depth, said, *ran in CASES:
            term = checked(program.encode(), TABLES)[0]
            found, run = walks(term, TABLES, R), counted(term, FULL)
            self.same("said", program, (found.walk_depth, found.rows), (depth, said))
            self.same("counted", program, run.visits, ran[0] if ran else said)
            self.compare(program, found, run, not ran)
        for program, turns in TURNS:
            term = checked(program.encode(), TABLES)[0]
            self.same("turns", program, (walks(term, TABLES, R).most_turns, counted(term, FULL).turns), (turns, turns))
        for program, told in ORDER:
            found = self.outcome(lambda: plan(checked(program.encode(), TABLES)[0], TABLES))[0]
            self.same("order", program, found, told.format(" ".join(found.split()[1:3])))
        self.kinds.clear()

    def by_page(self):
        """The programs of the page, where a table has at most 1,000 rows."""
        with open(page("language.md")) as file:
            rows = [row for row in rows_of_tables(file.read()) if "Visits of rows" in row]
        for row in rows:
            found = walks(checked(row["Program"].encode(), TABLES)[0], TABLES, 1000)
            said = (found.walk_depth, found.rows, found.most_turns)
            self.same("the page", row["Program"], said, tuple(int(row[name].replace(",", "")) for name in ("Depth", "Visits of rows", "Turns")))
        if len(rows) < 8:
            self.differ("the page", "", len(rows), "8 programs or more")

    def by_chance(self, rng, program):
        full = rng.random() < 0.6
        limit, rows = tables_of(rng, full)
        term = checked(program, TABLES)[0]
        planned = self.outcome(lambda: plan(term, TABLES))[0]
        came, found = self.outcome(lambda: walks(term, TABLES, limit))
        self.same("the run without data", program.decode("latin-1"), came, planned)
        if found is None:
            self.kinds["refused"] += 1
            return
        try:
            run = counted(term, rows)
        except TooManySteps:
            self.kinds["longer"] += 1
            return
        self.compare(program.decode("latin-1"), found, run, full and not LESSENING & set(forms_of(term)))

    @staticmethod
    def outcome(call):
        """What a run without data comes to: its three figures and itself, or its refusal and nothing."""
        try:
            found = call()
            return (found.turns, found.depth, found.width), found
        except Refused as refusal:
            return str(refusal), None

    def compare(self, program, found, run, exact):
        said, came = (found.walk_depth, found.rows, found.most_turns), (run.depth, run.visits, run.turns)
        # What turns, walks, width and the most rows of a table say by themselves.
        plain = found.turns * (found.walks + 1) * (max(1, found.width) * found.limit) ** found.walk_depth
        if any(a > b for a, b in zip(came, said)) or max(found.rows, found.most_turns) > plain:
            self.differ("counted", program, came, f"within {said}, and these within {plain}")
        if exact:
            self.same("counted", program, came, said)
        self.kinds["run"] += 1
        self.kinds["exact"] += exact and found.walk_depth > 0
        self.kinds["exact within walks"] += exact and found.walk_depth > 1
        self.kinds[f"{min(found.walk_depth, 3)} deep"] += 1

    def tools(self):
        """tools/walks and tools/explain, on a program and on a script."""
        deeper, flat = MAP.format("sum[0,9] people"), "sum[0,9] people"
        said = "walks rows 2 deep: at most {} of rows, in {}"
        words = [said.format("1,001,000 visits", "2,005 turns"), "the `sum` in bytes 4 to 59:", "\n" + 39 * " " + 15 * "^" + "\n", "hint: "]
        self.called("walks", [CATALOG, "census", self.file(deeper), "--rows", "1000", "--deepest", "1"], 1, words)
        self.called("walks", [CATALOG, "census", self.file(deeper), "--rows", "1000", "--deepest", "2", "--most", "1003005"], 0, words)
        self.called("walks", [CATALOG, "census", self.file(deeper), "--rows", "1000", "--most", "1003004"], 1, words)
        first = MAP.format("sum[0,9] people + sum[0,1] people + x")
        self.called("walks", [CATALOG, "census", self.file(first)], 0, ["\n" + 39 * " " + 15 * "^" + "\n"])
        self.called("walks", [CATALOG, "census", self.file(flat), "--deepest", "1"], 0, ["rows 1 deep: at most 1,048,576 visits of rows, in 2 turns, where"])
        self.called("walks", [CATALOG, "census", self.file("7"), "--deepest", "0"], 0, ["It walks no rows: at most 1 turn, where"])
        self.called("walks", [CATALOG, "census", self.file("size nobody")], 1, ["no 30 unbound 5 11\n"])
        self.called("walks", [CATALOG, "nobody", self.file("7")], 2, [])
        self.called("walks", [CATALOG, "census"], 2, [])
        words = ["accepted", said.format("1,099,512,676,352 visits", "2,097,157 turns"), "hint: "]
        self.called("explain", [CATALOG, "census", self.file(deeper), "ok 0"], 0, words)
        self.called("explain", [CATALOG, "census", self.file("size people"), "ok 1"], 0, ["accepted", "It walks no rows: at most 2 turns, where"])
        script = f"ask census 1 {deeper}\nhello ann\nleft census\nask census 1 {flat}\nask census 1 {deeper}\nask census 1 size\nask nobody 1 {deeper}\n"
        self.called("walks", ["--script", CATALOG, self.file(script)], 0, ["line 1: walks rows 2 deep", "line 4: walks rows 1 deep", "line 5: "], 3)
        self.called("walks", ["--script", CATALOG, self.file(script), "--deepest", "1"], 1, ["line 1: walks", "line 5: walks"], 2)
        self.called("walks", ["--script", CATALOG, self.file(script), "--deepest", "2"], 0, [], 0)
        self.same("words", "10^15", (count(1, "row"), count(10**15 - 1, "row"), count(10**15, "row")), ("1 row", "999,999,999,999,999 rows", "over 10^15 rows"))

        asks = page_script(text_of(PAGE))
        self.called("walks", ["--script", SURVEY, self.file(asks), "--deepest", "1", "--most", "1000000000"], 0, [], 0)
        self.called("walks", ["--script", SURVEY, self.file(asks)], 0, ["walks rows 1 deep"], asks.count("\nask"))

    def file(self, text):
        name = f"{self.room}/{len(os.listdir(self.room))}"
        with open(name, "w") as file:
            file.write(text)
        return name

    def called(self, tool, words, status, said, lines=None):
        out = io.StringIO()
        sys.argv = [tool, *words]
        with contextlib.redirect_stdout(out), contextlib.redirect_stderr(io.StringIO()):
            try:
                found = tool_of(tool).main()
            except SystemExit as end:
                found = end.code
        text = out.getvalue()
        if found != status or any(part not in text for part in said) or lines not in (None, text.count("\n")):
            self.differ(f"tools/{tool}", " ".join(words), f"{found} {text}", f"{status} {said}")


def tool_of(name):
    """A tool as a module."""
    found = importlib.util.module_from_spec(importlib.util.spec_from_loader(name, importlib.machinery.SourceFileLoader(name, f"{TOP}/tools/{name}")))
    found.__spec__.loader.exec_module(found)
    return found


def main():
    many = int(sys.argv[1]) if len(sys.argv) > 1 else 2000
    rng = random.Random(int(sys.argv[2]) if len(sys.argv) > 2 else 1)
    os.chdir(TOP)
    sys.dont_write_bytecode = True
    with tempfile.TemporaryDirectory() as room:
        trial = Trial(room)
        trial.by_hand()
        trial.by_page()
        deep(lambda: [trial.by_chance(rng, rng.choice([accepted_of, nested_of])(rng)) for _ in range(many)])
        trial.tools()
    kinds = ", ".join(f"{name} {number}" for name, number in sorted(trial.kinds.items()))
    print(f"{len(CASES) + len(TURNS) + len(ORDER)} cases, {many} random programs ({kinds}), {trial.differences} differences")
    wanted = {"run": 0.6, "1 deep": 0.05, "2 deep": 0.05, "3 deep": 0.01, "exact": 0.02, "exact within walks": 0.01}
    lacking = [name for name, share in wanted.items() if trial.kinds[name] < share * many]
    if lacking:
        print("too few random programs of", ", ".join(lacking))
    sys.exit(1 if trial.differences or lacking else 0)


if __name__ == "__main__":
    main()
