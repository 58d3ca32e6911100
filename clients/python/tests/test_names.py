"""Columns by name: what is written out, beside the same programs written by hand.

A random program is a tree here. It is written three times: with `row TABLE` and `p.COLUMN`; by hand with each row taken apart behind its `=>`; and by
hand with each column taken out where it is used. The first is written out by the package, and its term, as the language's second reader has it, must
be that of the second but for what names are called. Sensitivities or refusals must be the same, and the values of all three.
"""
import random
import subprocess
import unittest

from common import PROGRAM, Place, often
from hitchseason import Refused, asks
from hitchseason.borrowed import names as written_names
from hitchseason.borrowed import programs, runs, tables

BadName, tokens_of, written = written_names.BadName, written_names.tokens_of, written_names.written

NAMES = "age income p q x y row _ p_ size in map people".split() + ["c" * 32, "C" * 31]
TEXTS = ("a", "b", "")


def random_tables(rng):
    """One to three tables of 1 to 16 columns, some of whose names are words of the language or alike."""
    found = []
    for name in rng.sample(["people", "stays", "row2", "t" * 32], rng.randint(1, 3)):
        count = rng.choice((1, 2, 3, 4, 5, 16))
        names = rng.sample(NAMES + [f"column_{number}" for number in range(16)], count)
        columns = [{"name": column, "type": rng.choice(("num", "num", "text"))} for column in names]
        columns[0]["type"] = "num" if count == 1 else columns[0]["type"]
        found.append({"name": name, "columns": columns})
    return found


class Binder:
    """A row that is bound: its name in the first writing, and its own in the others."""

    def __init__(self, name, table, own):
        self.name, self.table, self.own, self.used, self.whole = name, table, own, set(), False

    def type(self):
        return " * ".join(column["type"] for column in self.table["columns"])


class Maker:
    """Makes random programs: each part is a function of the way in which it is written, `named`, `apart` or `inside`."""

    def __init__(self, rng, found):
        self.rng, self.tables, self.count = rng, found, 0

    def own(self):
        self.count += 1
        return f"v{self.count}"

    def program(self):
        table = self.rng.choice(self.tables)
        body = self.with_helper(table) if self.rng.random() < 0.3 else self.of_bag(table, [], 3)
        return body

    def with_helper(self, table):
        """A function of a row that is used for the rows of a bag, which hands the whole row on."""
        helper, row = self.own(), self.binder(table)
        result = self.number([row], 2)
        inner = self.binder(table)
        inner.whole = True
        condition, bag = self.truth([inner], 2), self.bag(table, [], 1)
        head = self.function("fn", row, result)
        bound = lambda way: f"{helper} (![inf] {inner.name if way == 'named' else inner.own}) <= 5"  # noqa: E731
        both = self.function("fn", inner, lambda way: f"if {bound(way)} then ({condition(way)}) else false")
        return lambda way: f"let {helper} = {head(way)} in size (filter ({both(way)}) {bag(way)})"

    def binder(self, table):
        return Binder(self.rng.choice(["p", "q", "row", "x"]), table, self.own())

    def function(self, word, row, body):
        """`fn (p : row people) => ..`, or with the row taken apart as far as the last column that is used."""

        def write(way):
            text = body(way)
            if way == "named":
                return f"{word} ({row.name} : row {row.table['name']}) => {text}"
            return f"{word} ({row.own} : {row.type()}) => {self.apart(row) if way == 'apart' else ''}{text}"

        return write

    @staticmethod
    def apart(row):
        count = len(row.table["columns"])
        if count == 1 or not row.used:
            return ""
        text, of = "", row.own
        for place in range(min(max(row.used), count - 2) + 1):
            second = f"{row.own}c{count - 1}" if place == count - 2 and count - 1 in row.used else f"{row.own}r{place}"
            text += f"let ({row.own}c{place}, {second}) = {of} in "
            of = second
        return text

    def column(self, row, place):
        count = len(row.table["columns"])
        name = row.table["columns"][place]["name"]

        def write(way):
            row.used.add(place)
            if way == "named":
                return self.rng.choice((f"{row.name}.{name}", f"{row.name} . {name}", f"({row.name}).{name}"))
            if count == 1:
                return row.own
            if way == "apart":
                return f"{row.own}c{place}"
            steps = "".join(f"let (a{at}, {'b' if at < count - 2 else f'a{at + 1}'}) = {'b' if at else row.own} in " for at in range(min(place, count - 2) + 1))
            return f"({steps}a{place})"

        return write

    def visible(self, rows):
        """Rows that no later one hides in the first writing."""
        return [row for at, row in enumerate(rows) if row.name not in [later.name for later in rows[at + 1 :]]]

    def columns(self, rows, kind):
        return [(row, place) for row in self.visible(rows) for place, column in enumerate(row.table["columns"]) if column["type"] == kind]

    def number(self, rows, deep):
        known = self.columns(rows, "num")
        if known and self.rng.random() < (0.5 if deep > 0 else 0.8):
            return self.column(*self.rng.choice(known))
        if deep <= 0 or self.rng.random() < 0.2:
            value = self.rng.randint(-9, 9)
            return lambda way: f"({value})"
        way_of = self.rng.randrange(6)
        a, b = self.number(rows, deep - 1), self.number(rows, deep - 1)
        if way_of == 0:
            return lambda way: f"({a(way)} + {b(way)})"
        if way_of == 1:
            return lambda way: f"({a(way)} - {b(way)})"
        if way_of == 2:
            return lambda way: f"(3 * {a(way)})"
        if way_of == 3:
            return lambda way: f"(clip[-5,7] {a(way)})"
        if way_of == 4:
            name = self.own()
            return lambda way: f"(let {name} = {a(way)} in {name} + {b(way)})"
        condition = self.truth(rows, deep - 1)
        return lambda way: f"(if {condition(way)} then {a(way)} else {b(way)})"

    def truth(self, rows, deep):
        texts = self.columns(rows, "text")
        if texts and self.rng.random() < 0.4:
            one, text = self.column(*self.rng.choice(texts)), self.rng.choice(TEXTS)
            return lambda way: f'{one(way)} == "{text}"'
        if deep > 0 and self.rng.random() < 0.3:
            a, b = self.truth(rows, deep - 1), self.truth(rows, deep - 1)
            return lambda way: f"if ({a(way)}) then ({b(way)}) else false"
        if deep > 1 and self.rng.random() < 0.15:
            inner = self.of_bag(self.rng.choice(self.tables), rows, 1)
            return lambda way: f"({inner(way)}) <= 2"
        a, b = self.number(rows, deep - 1), self.number(rows, deep - 1)
        return lambda way: f"{a(way)} <= {b(way)}"

    def bag(self, table, rows, deep):
        if deep <= 0 or self.rng.random() < 0.5:
            return lambda way: table["name"]
        row, bag = self.binder(table), self.bag(table, rows, deep - 1)
        if self.rng.random() < 0.2:
            row.whole = True
            same = self.function("fn", row, lambda way: row.name if way == "named" else row.own)
            return lambda way: f"(map ({same(way)}) {bag(way)})"
        keep = self.function("fn", row, self.truth([*rows, row], deep))
        return lambda way: f"(filter ({keep(way)}) {bag(way)})"

    def of_bag(self, table, rows, deep):
        """A number of a bag."""
        bag, way_of = self.bag(table, rows, deep), self.rng.randrange(4)
        row = self.binder(table)
        if way_of == 0:
            return lambda way: f"size {bag(way)}"
        if way_of == 1:
            number = self.function("fn", row, self.number([*rows, row], deep))
            return lambda way: f"sum[-9,9] (map ({number(way)}) {bag(way)})"
        if way_of == 2:
            halves = self.function("fn", row, self.truth([*rows, row], deep))
            x, y = self.own(), self.own()
            return lambda way: f"(let ({x}, {y}) = split ({halves(way)}) {bag(way)} in size {x} - 2 * size {y})"
        typed = self.own()
        kind = " * ".join(column["type"] for column in table["columns"])
        return lambda way: f"((fun ({typed} : bag {'row ' + table['name'] if way == 'named' else f'({kind})'}) => size {typed}) {bag(way)})"


def shape(node, names=()):
    """A term without places, each bound name being how far its binder is away."""
    if not isinstance(node, programs.Node):
        return node
    parts = node.parts
    if node.form == "name":
        return ("bound", names.index(parts[0])) if parts[0] in names else ("free", parts[0])
    if node.form in ("fun", "fn"):
        return (node.form, shape(parts[1]), shape(parts[2], (parts[0], *names)))
    if node.form in ("let", "let!", "let,"):
        *bound, e, body = parts
        return (node.form, shape(e, names), shape(body, (*reversed(bound), *names)))
    return (node.form, *(shape(part, names) for part in parts))


def said_of(data, signature):
    """What the rules say of a program: its sensitivity, or the refusal's code."""
    try:
        return programs.checked(data, signature)[1]
    except programs.Refused as refusal:
        return " ".join(str(refusal).split()[:2]) if str(refusal).startswith("30") else str(refusal).split()[0]


def random_rows(rng, found):
    def cell(kind):
        return rng.randint(-10, 10) if kind == "num" else rng.choice(TEXTS).encode()

    def row(columns):
        first = cell(columns[0]["type"])
        return (first, row(columns[1:])) if len(columns) > 1 else first

    return {table["name"]: [row(table["columns"]) for _ in range(rng.randint(0, 5))] for table in found}


class Difference(Exception):
    pass


def compare(seed):
    """One random program: whether it is accepted, and how many columns it names; nothing where it is too deep or too long."""
    rng = random.Random(seed)
    found = random_tables(rng)
    make = Maker(rng, found).program()
    named, apart, inside = make("named"), make("apart").encode(), make("inside").encode()
    sent, signature = written(named, found).sent, tables.signature({"tables": found})
    said = said_of(sent, signature)
    if said in ("20", "22"):
        return None
    if shape(programs.read(sent)) != shape(programs.read(apart)):
        raise Difference(f"the terms differ: {named}")
    if said != said_of(apart, signature):
        raise Difference(f"what the rules say differs: {named}")
    rows = random_rows(rng, found)
    terms = [programs.Parser(programs.tokens_of(data)).whole() for data in (sent, apart, inside)]
    if len({runs.value(term, rows) for term in terms}) != 1:
        raise Difference(f"the values differ: {named}")
    return not isinstance(said, str), named.count(".")


class Random(unittest.TestCase):
    def test_beside_those_by_hand(self):
        found = programs.deep(lambda: [one for one in map(compare, range(often(250, 2000))) if one])
        accepted, columns = sum(one for one, _ in found), sum(count for _, count in found)
        self.assertGreater(accepted, len(found) * 0.8)
        print(f"    {accepted} accepted and {len(found) - accepted} refused programs, {columns} columns by name")


class ByTheProgram(unittest.TestCase):
    """What `check` of the real program says of programs that were written out: as the second implementation says."""

    def test_check(self):
        for seed in range(often(15, 300)):
            rng = random.Random(seed)
            found = random_tables(rng)
            sent = written(Maker(rng, found).program()("named"), found).sent
            owner = {"name": "census", "budget": 1, "capacity": 2, "tables": [{**table, "file": f"{table['name']}.csv"} for table in found], "partitions": []}
            headers = {f"{table['name']}.csv": [[column["name"] for column in table["columns"]]] for table in found}
            with Place({"analysts": ["ann"], "owners": [owner]}, headers) as place:
                with open(f"{place.folder}/query", "wb") as file:
                    file.write(sent)
                ran = subprocess.run([PROGRAM, "check", "catalog.json", "census", "query"], cwd=place.folder, capture_output=True, text=True)
                self.assertEqual(ran.stdout.rstrip("\n"), runs.judgement(sent, tables.signature({"tables": found})), sent)


PEOPLE = [{"name": "people", "columns": [{"name": name, "type": kind} for name, kind in (("sex", "text"), ("age", "num"), ("size", "num"))]}]


class ByHand(unittest.TestCase):
    def test_written_out(self):
        head = "fn (p : text * num * num) => "
        for program, sent in (
            ("size people", "size people"),
            ("fn (p : row people) => p.age <= 30", head + "let (_, p) = p in let (age, p) = p in age <= 30"),
            ("fn (p : row people) => p.size + p . sex", head + "let (sex, p) = p in let (_, size_2) = p in size_2 + sex"),
            ("fn (p : row people) => f p (p.sex)", head + "let (sex, p_) = p in f p (sex)"),
            ("fn (age : row people) => age.age", "fn (age : text * num * num) => let (_, age) = age in let (age_2, age) = age in age_2"),
            ("fn (p : row people) => fn (p : row people) => p.sex", head + "fn (p : text * num * num) => let (sex, p) = p in sex"),
            ("fn (b : bag row people) => 1", "fn (b : bag (text * num * num)) => 1"),
            ("fn (b : bag (row people)) => 1", "fn (b : bag (text * num * num)) => 1"),
            ("fn (b : row people * num) => 1", "fn (b : (text * num * num) * num) => 1"),
            ("fn (p : (row people)) =>\n (p.sex)", "fn (p : (text * num * num)) =>\n (let (sex, p) = p in sex)"),
            ("let row = 1 in row", "let row = 1 in row"),
            ("1.5", "1.5"),
        ):
            self.assertEqual(written(program, PEOPLE).sent.decode(), sent, program)

    def test_refused(self):
        for program, why, place in (
            ("fn (p : row people) => p.agee", "has no column `agee`: is `age` meant?", "p.agee"),
            ("fn (p : row peple) => p.age", "no table `peple`: is `people` meant?", "row peple"),
            ("fn (p : num) => p.age", "`p` is no row here", "p.age"),
            ("fn (p : row people) => let p = 1 in p.age", "`p` is no row here", "p.age"),
            ("people.age", "`people` is no row here", "people.age"),
        ):
            with self.assertRaises(BadName) as caught:
                written(program, PEOPLE)
            self.assertIn(why, str(caught.exception))
            self.assertEqual(program[slice(*caught.exception.place)], place)

    def test_marked(self):
        """A refusal of what is sent is marked in what was written."""
        view = asks.View({"owners": []}, {"name": "census", "tables": PEOPLE, "partitions": []})
        for program, code, marked in (
            ("size (filter (fn (p : row people) => p.sex <= 3) people)", "30", "p.sex"),
            ("size (filter (fn (p : row people) => p.age + 1) people)", "30", "fn (p : row people) => p.age + 1"),
            ("size (filter (fn (p : row people) => p.age < 3) people)", "21", ")"),
            ("size (filter (fn (p : row people) => p.age == 3 $) people)", "20", "$"),
            ("size (filter (fn (p : row people) => nobody == 3) people)", "30", "nobody"),
            ("if size (filter (fn (p : row people) => p.age <= 3) people) <= 2 then 1 else 2", "33", None),
        ):
            with self.assertRaises(Refused) as caught:
                view.ask(program, "0.5")
            self.assertEqual(caught.exception.reply.split()[1], code, program)
            if marked:
                self.assertEqual(program[slice(*caught.exception.place)], marked, program)
            self.assertIn("hint: ", str(caught.exception))

    def test_said(self):
        """Words first; then the reply, whose place is one of what is sent where columns are written out: there a row's type begins at byte 22 of the
        filters, and has 16 bytes."""
        view = asks.View({"owners": []}, {"name": "census", "tables": PEOPLE, "partitions": []})
        counts = "its place counts in the program as it was sent"
        for program, said in (
            ("size (filter (fn (p : row people) => p.age < 3) people)",
                f"no term begins with the program's tokens up to here, `)` (reply `no 21 18`; {counts})."),
            ("size (filter (fn (p : row people) => p.age == 3 $) people)", f"no token begins here (reply `no 20 50`; {counts})."),
            ("size (filter (fn (p : row people) => nobody == 3) people)",
                f"this name is neither bound nor a table of the owner (reply `no 30 unbound 43 49`; {counts})."),
            ("sum[0,9] (map (fn (p : row people) => p.age) people) + people",
                f"this part has another type than is wanted here (reply `no 30 mismatch 97 103`; {counts})."),
            ("let row = size people in fn (p : row people) => p.age", "the program's value is no number (reply `no 34`)."),
            ("size people * 2", "no term begins with the program's tokens up to token 2, `*` (reply `no 21 2`)."),
            ("size people $", "no token begins at byte 12 (reply `no 20 12`)."),
        ):
            with self.assertRaises(Refused) as caught:
                view.ask(program, "0.5")
            self.assertEqual(str(caught.exception).split("\n")[0], said)
            self.assertEqual(caught.exception.reply, said.split("`")[-2])

    def test_long(self):
        """Programs that are far too long for what is sent are refused as such, wherever they name columns."""
        view = asks.View({"owners": []}, {"name": "census", "tables": PEOPLE, "partitions": []})
        column = "(fn (p : row people) => p.age)"
        left, right = 31_000 * "(", 31_000 * ")"
        for program in (f"size {left}{column}{right}", f"{left}1{right} + {column}", 4 * f"size people + {column} + {4000 * ' 1 +'}"):
            with self.assertRaises(Refused) as caught:
                view.ask(program, "0.5")
            self.assertEqual(caught.exception.reply, "no 20 16000")
        # Three tokens for one: as many as fit are read.
        self.assertEqual(len(tokens_of(b"p.age " * 3000)), 9000)
        self.assertEqual(len(tokens_of(b"p.age " * 5000)), 3 * programs.TOKEN_LIMIT + 1)

    def test_hints(self):
        """They speak of the client's calls, and of columns by their names."""
        partitions = [{"name": "sexes", "table": "people", "column": "sex", "keys": ["f", "m"]}]
        view = asks.View({"owners": []}, {"name": "census", "tables": PEOPLE, "partitions": partitions})
        mean = "A mean is a call: `census.mean(\"people\", {0}, LOW, HIGH, charge=..)`, at the prompt `\\a mean people {1} LOW HIGH charge=..`."
        for program, hint in (
            ("SELECT AVG(age) FROM people", mean.format('"age"', "age")),
            ("avg people", mean.format("COLUMN", "COLUMN")),
            ("size (filter (fn (q : row people) => age <= 30) people)",
                "`age` is a column of `people`, and no name: write `q.age`, where `fn (q : row people)` binds the row."),
            ("sum[0,9] age", "`age` is a column of `people`, and no name: write `p.age`, where `fn (p : row people)` binds the row."),
            ("size (filter (age <= 29) people)", "`filter` takes a function, which is handed one row at a time: `fn (p : row people) => p.age <= 29`."),
            ('size (filter (sex == "f") people)', "`filter` takes a function, which is handed one row at a time: `fn (p : row people) => p.sex == \"f\"`."),
            ("size (filter (fn (p : people) => true) people)",
                "`people` is a table, and here stands a type. A row of it is written `row people`: `fn (p : row people) => ..`."),
            ("size people group by sex", "A program of each key of a partition is a call: `census.groups(\"sexes\", PROGRAM, eps=..)`, at the prompt "
                "`\\a groups sexes PROGRAM eps=..`."),
            ("size people * 2", "The factor stands on the left: write `2 * size people`."),
        ):
            with self.assertRaises(Refused) as caught:
                view.ask(program, "0.5")
            self.assertEqual(str(caught.exception).split("\n")[-1], f"hint: {hint}")
        # A table of one column has no rows to take apart.
        ages = asks.View({"owners": []}, {"name": "census", "tables": [{"name": "ages", "columns": [{"name": "age", "type": "num"}]}], "partitions": []})
        with self.assertRaises(Refused) as caught:
            ages.ask("size (filter (age <= 29) ages)", "0.5")
        self.assertIn("one element at a time: `fn (age : num) => age <= 29`", str(caught.exception))


class Wide(unittest.TestCase):
    """A table of 16 columns whose names are as long as names may be."""

    def test_sixteen_columns(self):
        names = [f"{letter}" * 32 for letter in "abcdefghijklmnop"]
        columns = [{"name": name, "type": "num"} for name in names]
        rows = [[rng.randint(0, 9) for _ in names] for rng in [random.Random(7)] for _ in range(300)]
        table = {"name": "people", "file": "people.csv", "columns": columns}
        owner = {"name": "census", "budget": 10**12, "capacity": 1000, "tables": [table], "partitions": []}
        with Place({"analysts": ["ann"], "owners": [owner]}, {"people.csv": [names, *rows]}) as place:
            client = place.client("ann", "census")
            where = [f"p.{name} <= 8" for name in names]
            exact = sum(all(cell <= 8 for cell in row) for row in rows)
            self.assertEqual(client.count("people", where, eps=1000).value, exact)
            last = names[-1]
            chosen = [row[-1] for row, keep in zip(rows, (all(cell <= 8 for cell in row) for row in rows)) if keep]
            self.assertEqual(client.sum("people", last, 0, 5, where, eps=1000).value, sum(min(5, cell) for cell in chosen))
            square = client.plan("variance", "people", last, 0, 131_070, where, charge=10**4)
            self.assertLess(max(len(ask.sent) for ask in square.asks), programs.PROGRAM_LIMIT)
            client.send(square.asks)


if __name__ == "__main__":
    unittest.main()
