#!/usr/bin/env python3
"""Compares what the program answers to programs with flat functions with what a second implementation says, as tests/comparisons/compare_runs.py
does, over tables whose rows end near the ends of chunks of 1,024.

usage: tests/comparisons/compare_columns.py [COUNT [SEED]]    (PROGRAM=FILE compares another build than tools/build's)
COUNT random programs (2,000 where none is said), some 50 to a script. It ends with status 1 at the first difference.
"""
import os
import random
import sys

sys.path.insert(0, f"{os.path.dirname(os.path.abspath(__file__))}/../lib")
import places  # noqa: E402,F401
import compare_runs  # noqa: E402
from beginning import begin  # noqa: E402

ROWS = [0, 1, 5, 1023, 1024, 1025, 2047, 2048, 2049]
NUMBERS = "0 1 2 3 5 7 10 99 100 1000 1125899906842624".split()
KINDS = ["num", "bool", "text"]
TEXTS = ['""', '"a"', '"it is"', '"\xff"']


class Flat:
    """Writes flat terms: of numbers `num`, of truths `bool`, of texts `text`, over names of these types."""

    def __init__(self, rng):
        self.rng, self.made = rng, 0

    def fresh(self):
        self.made += 1
        return f"v{self.made}"

    def named(self, scope, kind):
        return [name for name, its in scope if its == kind]

    def num(self, scope, deep):
        rng, names = self.rng, self.named(scope, "num")
        if deep <= 0 or rng.random() < 0.15:
            return rng.choice(names) if names and rng.random() < 0.8 else rng.choice(NUMBERS)
        a = lambda: self.num(scope, deep - 1)  # noqa: E731
        forms = [
            lambda: f"({a()} + {a()})",
            lambda: f"({a()} - {a()})",
            lambda: f"({rng.choice(['2', '3', '-1', '0', '7'])} * ({a()}))",
            lambda: f"(clip[{rng.choice(['0', '-5', '3'])},{rng.choice(NUMBERS)}] ({a()}))",
            lambda: f"(if {self.bool(scope, deep - 1)} then {a()} else {a()})",
            lambda: self.let(scope, deep, self.num),
            lambda: self.apart(scope, deep, self.num),
            lambda: self.call(scope, deep, "num"),
            lambda: f"({rng.choice(['least', 'greatest', 'fst', 'snd'])} <{a()}, {a()}>)",
            lambda: self.kept(a(), a()),
        ]
        return rng.choice(forms)()

    def kept(self, a, b):
        """A number of a pair that a name stands for."""
        pair = self.fresh()
        return f"(let {pair} = <{a}, {b}> in {self.rng.choice(['least', 'greatest', 'fst', 'snd'])} {pair})"

    def part(self, kind, scope, deep):
        return self.text(scope) if kind == "text" else (self.num if kind == "num" else self.bool)(scope, deep)

    def bool(self, scope, deep):
        rng, names = self.rng, self.named(scope, "bool")
        if deep <= 0 or rng.random() < 0.1:
            return rng.choice(names) if names and rng.random() < 0.6 else rng.choice(["true", "false"])
        forms = [
            lambda: f"({self.num(scope, deep - 1)} <= {self.num(scope, deep - 1)})",
            lambda: f"({self.num(scope, deep - 1)} == {self.num(scope, deep - 1)})",
            lambda: f"({self.text(scope)} == {self.text(scope)})",
            lambda: f"(if {self.bool(scope, deep - 1)} then {self.bool(scope, deep - 1)} else {self.bool(scope, deep - 1)})",
            lambda: self.let(scope, deep, self.bool),
            lambda: self.apart(scope, deep, self.bool),
            lambda: self.call(scope, deep, "bool"),
        ]
        return rng.choice(forms)()

    def text(self, scope):
        names = self.named(scope, "text")
        return self.rng.choice(names) if names and self.rng.random() < 0.7 else self.rng.choice(TEXTS)

    def let(self, scope, deep, body):
        name, kind = self.fresh(), self.rng.choice(KINDS)
        return f"(let {name} = {self.part(kind, scope, deep - 1)} in {body(scope + [(name, kind)], deep - 1)})"

    def apart(self, scope, deep, body):
        rows, t, n = self.named(scope, "row"), self.fresh(), self.fresh()
        if rows and self.rng.random() < 0.6:
            return f"(let ({t}, {n}) = {self.rng.choice(rows)} in {body(scope + [(t, 'text'), (n, 'num')], deep - 1)})"
        first, second = self.rng.choice(KINDS), self.rng.choice(KINDS)
        made = f"({self.part(first, scope, deep - 1)}, {self.part(second, scope, deep - 1)})"
        return f"(let ({t}, {n}) = {made} in {body(scope + [(t, first), (n, second)], deep - 1)})"

    def call(self, scope, deep, kind):
        functions = [its for _, its in scope if its[0] == kind and len(its) == 3]
        if not functions:
            return self.num(scope, deep - 1) if kind == "num" else self.bool(scope, deep - 1)
        _, name, wanted = self.rng.choice(functions)
        if wanted == "row":
            rows = self.named(scope, "row")
            return f"({name} (![inf] {self.rng.choice(rows)}))" if rows else self.num(scope, 0) if kind == "num" else self.bool(scope, 0)
        return f"({name} (![inf] {self.num(scope, deep - 1)}))"

    def function(self, scope, deep):
        """A function outside, and the scope with it: a `fn` of a number or of a row of `stays`."""
        name, x, kind = self.fresh(), self.fresh(), self.rng.choice(["num", "bool"])
        wanted, written = self.rng.choice([("num", "num"), ("row", "text * num")])
        body = (self.num if kind == "num" else self.bool)(scope + [(x, wanted)], deep)
        return f"let {name} = fn ({x} : {written}) => {body} in ", scope + [(name, (kind, name, wanted))]

    def pairs(self, scope, deep):
        """A bag of pairs of a number and a text, made by a map, and perhaps a filter of them."""
        rng, x, y, t, n = self.rng, self.fresh(), self.fresh(), self.fresh(), self.fresh()
        inside = scope + [(y, "row"), (t, "text"), (n, "num")]
        made = f"({self.num(inside, deep)}, {self.text(inside)})"
        bag = f"(map (fn ({y} : text * num) => let ({t}, {n}) = {y} in {made}) stays)"
        if rng.random() < 0.5:
            return bag
        inside = scope + [(n, "num"), (t, "text")]
        return f"(filter (fn ({x} : num * text) => let ({n}, {t}) = {x} in {self.bool(inside, deep)}) {bag})"

    def texts(self, scope, deep):
        """A bag of texts, made by a map, of which a filter keeps some."""
        x, y, t, n = self.fresh(), self.fresh(), self.fresh(), self.fresh()
        inside = scope + [(t, "text"), (n, "num")]
        bag = f"(map (fn ({y} : text * num) => let ({t}, {n}) = {y} in {self.text(inside)}) stays)"
        return f"(filter (fn ({x} : text) => {self.bool(scope + [(x, 'text')], deep)}) {bag})"

    def bag(self, scope, deep):
        """A bag of numbers by filters and maps of a table, seldom none."""
        rng, x = self.rng, self.fresh()
        if rng.random() < 0.15:
            n, t = self.fresh(), self.fresh()
            body = self.num(scope + [(n, "num"), (t, "text")], deep)
            return f"(map (fn ({x} : num * text) => let ({n}, {t}) = {x} in {body}) {self.pairs(scope, deep)})"
        if rng.random() < 0.05:
            return f"(map (fn ({x} : num) => {self.num(scope + [(x, 'num')], deep)}) (filter (fn ({x} : num) => false) people))"
        if rng.random() < 0.5:
            rows = "people"
            for _ in range(rng.choice([0, 1, 1, 2])):
                y = self.fresh()
                rows = f"({rng.choice(['filter', 'map'])} " + "(fn (%s : num) => %s) %s)" % (y, "%s", rows)
                rows = rows % (self.bool if rows.startswith("(filter") else self.num)(scope + [(y, "num")], deep)
            return rows
        rows = "stays"
        if rng.random() < 0.6:
            rows = f"(filter (fn ({x} : text * num) => {self.bool(scope + [(x, 'row')], deep)}) stays)"
        y = self.fresh()
        return f"(map (fn ({y} : text * num) => {self.num(scope + [(y, 'row')], deep)}) {rows})"

    def program(self):
        rng, before, scope = self.rng, "", [("k", "num"), ("w", "text")]
        before = f"let k = {rng.choice(NUMBERS)} in let w = {rng.choice(TEXTS)} in "
        for _ in range(rng.choice([0, 0, 1, 2])):
            made, scope = self.function(scope, 2)
            before += made
        lo, hi = rng.choice(["0", "-7", "-1000"]), rng.choice(["9", "100", "4000"])
        if rng.random() < 0.15:
            made = rng.choice([self.pairs, self.texts])(scope, rng.choice([1, 2]))
            return f"{before}size {made}"
        bag, way = self.bag(scope, rng.choice([1, 2, 3])), rng.random()
        if way < 0.2:
            x, a, b = self.fresh(), self.fresh(), self.fresh()
            halves = f"split (fn ({x} : num) => {self.bool(scope + [(x, 'num')], 2)}) {bag}"
            return f"{before}let ({a}, {b}) = {halves} in size {a} + 2 * size {b}"
        if way < 0.35:
            b = self.fresh()
            return f"{before}let {b} = {bag} in sum[{lo},{hi}] {b} - size (union {b} {b})"
        if way < 0.5:
            b, f, z = self.fresh(), self.fresh(), self.fresh()
            return f"{before}let {b} = {bag} in let {f} = fun ({z} : num) => {z} + sum[{lo},{hi}] {b} in {f} 3 + {f} (size people)"
        return before + rng.choice([f"size {bag}", f"sum[{lo},{hi}] {bag}"])


def rows_of(rng):
    most = rng.choice([1, 50, 100, 2**50])
    return [rng.randint(-most if rng.random() < 0.3 else 0, most) for _ in range(rng.choice(ROWS))]


def dataset_of(rng):
    return {"people": rows_of(rng), "stays": [(compare_runs.ward_of(rng), number) for number in rows_of(rng)]}


def main():
    count, seed = begin(__doc__, 2_000, 1)
    rng = random.Random(seed)
    sys.setrecursionlimit(20_000)
    compare_runs.dataset_of = dataset_of
    compare_runs.accepted_of = lambda rng: Flat(rng).program().encode("latin-1")
    compare_runs.STEPS = 2_000_000
    counts = compare_runs.beside_the_program(rng, count)
    print(f"{counts.programs} programs: " + ", ".join(f"{code} {many}" for code, many in sorted(counts.codes.items())))


if __name__ == "__main__":
    main()
