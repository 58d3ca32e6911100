"""Programs at random, for the comparisons beside: typed ones, changed ones, and ones near a limit.

    program_of(RNG)     any bytes: accepted or refused programs, and no programs
    accepted_of(RNG)    a program that the typing rules accept, most of them run; some pass a limit of the run without data
"""
import re

from catalog import catalog, owner
from programs import Refused, checked

NUM, TEXT, UNIT, BOOL = ("num",), ("text",), ("unit",), ("bool",)
BASES = (NUM, NUM, NUM, TEXT, UNIT, BOOL)
NAMES = "x y z a b c people stays size2 _ x1 inn Age".split() + ["n" * 32]
FACTORS = "1 1 2 2 3 1/2 3/2 2/3 4/6 5/3 7/4 10 inf inf 1/3 100 65536 65537/65536 4294967295 1/4294967295 0 4294967296".split()
NUMBERS = "0 1 2 3 5 7 10 100 007 1000 65535 65536 4294967295 4294967296 1125899906842624 1125899906842625".split()
TEXTS = ['""', '"a"', '"it is"', '"\xff"', '"' + "t" * 64 + '"', '"' + "t" * 65 + '"', '"a\tb"']
WORDS = (
    "fun fn let in case of inl inr if then else fst snd true false num text unit bool bag inf size sum clip least greatest"
    " map filter split union do release at ( ) < > [ ] , : = ! | + - * & / => -> -o <= == () x y people stays 1 2 0 \"a\" $ #"
).split()
PEOPLE = ("people", ("bag", NUM))
STAYS = ("stays", ("bag", ("*", TEXT, NUM)))
TABLES = [PEOPLE, STAYS]
# Their catalog, in files of their names.
CATALOG = catalog(
    owner(tables=(("people", "people.csv", (("age", "num"),)), ("stays", "stays.csv", (("ward", "text"), ("nights", "num")))))
)
TERM, COMPARISON, SUM, PRODUCT, CALL, ATOM = range(6)


class Writer:
    """Writes terms of a wanted type. A scope is a list of names and types, the last one first.

    At a part of the terms, `slips`, another type than the wanted one is written: with many, one fault comes before others.
    """

    def __init__(self, rng, slips=0.006, tables=TABLES):
        self.rng, self.slips, self.tables = rng, slips, tables

    def chance(self, part):
        return self.rng.random() < part

    def number(self):
        return self.rng.choice(NUMBERS[:9] if self.chance(0.93) else NUMBERS)

    def integer(self):
        return self.rng.choice(["", "", "- "]) + self.number()

    def factor(self):
        return self.rng.choice(FACTORS[:14] if self.chance(0.93) else FACTORS)

    # Types: a tuple whose first word is its form.

    def type(self, deep, flat=False, ground=False):
        if self.chance(0.05 + 3 * self.slips):
            flat = ground = False
        if deep <= 0 or self.chance(0.4):
            return self.rng.choice(BASES)
        forms = ["*", "&", "+", "!"] + ["bag"] * (not flat) + ["-o", "->"] * (not flat and not ground)
        form = self.rng.choice(forms)
        if form == "bag":
            return ("bag", self.type(deep - 1, flat=True))
        if form == "!":
            return ("!", self.factor(), self.type(deep - 1, flat, ground))
        ground = ground or form == "+"
        return (form, self.type(deep - 1, flat, ground), self.type(deep - 1, flat, ground))

    def written(self, t):
        text = self.written_bare(t)
        return f"( {text} )" if self.chance(0.05) else text

    def written_bare(self, t):
        if t == BOOL and self.chance(0.1):
            return "( unit + unit )"
        if len(t) == 1:
            return t[0]
        if t[0] == "bag":
            return f"bag ( {self.written(t[1])} )" if len(t[1]) > 1 else f"bag {self.written(t[1])}"
        if t[0] == "!":
            return f"! [ {t[1]} ] ( {self.written(t[2])} )"
        left = self.written(t[1]) if len(t[1]) == 1 else f"( {self.written(t[1])} )"
        return f"{left} {t[0]} {self.written(t[2]) if t[0] in ('-o', '->') else '( ' + self.written(t[2]) + ' )'}"

    # Terms.

    def term(self, t, scope, deep, level=TERM):
        own, text = self.at_any_level(t, scope, deep)
        if own < level or self.chance(0.03):
            return f"( {text} )"
        return text

    def at_any_level(self, t, scope, deep):
        if self.chance(self.slips):
            t = self.type(3 if self.slips > 0.1 else 1)
        fitting = [name for place, (name, u) in enumerate(scope) if u == t and name not in [n for n, _ in scope[:place]]]
        if fitting and self.chance(0.35 if deep > 0 else 0.75):
            return ATOM, self.rng.choice(fitting)
        if deep <= 0:
            return self.made(t, scope, deep - 1)
        ways = [self.made] * 6 + [self.with_let, self.with_pair, self.with_bang, self.with_case, self.with_if, self.applied]
        ways += [self.taken_apart] * 4 + [self.projected]
        return self.rng.choice(ways)(t, scope, deep - 1)

    def any_in(self, scope, deep):
        """A type that has something of it in scope, or any."""
        return self.rng.choice(scope)[1] if scope and self.chance(0.5) else self.type(3 if self.slips > 0.1 else min(deep, 2))

    def made(self, t, scope, deep):
        form = t[0]
        if form == "num":
            return self.made_number(scope, deep)
        if form == "text":
            return ATOM, self.rng.choice(TEXTS[:4] if self.chance(0.97) else TEXTS)
        if form == "unit":
            return ATOM, "()"
        if form == "bool":
            return self.made_bool(scope, deep)
        if form == "bag":
            return self.made_bag(t, scope, deep)
        if form in ("*", "&"):
            left, right = self.term(t[1], scope, deep), self.term(t[2], scope, deep)
            return ATOM, f"( {left} , {right} )" if form == "*" else f"< {left} , {right} >"
        if form == "+":
            side = self.rng.choice([1, 2])
            word = ("inl", "inr")[side - 1]
            return CALL, f"{word} [ {self.written(t[3 - side])} ] {self.term(t[side], scope, deep, ATOM)}"
        if form == "!":
            return CALL, f"! [ {t[1]} ] {self.term(t[2], scope, deep, ATOM)}"
        name = self.rng.choice(NAMES)
        word = "fun" if form == "-o" else "fn"
        return TERM, f"{word} ( {name} : {self.written(t[1])} ) => {self.term(t[2], [(name, t[1]), *scope], deep)}"

    def made_number(self, scope, deep):
        way = self.rng.randrange(12) if deep > -1 else self.rng.choice([0, 1, 9])
        if way == 0:
            return (PRODUCT, "- " + self.number()) if self.chance(0.3) else (ATOM, self.number())
        if way in (1, 9):
            return CALL, f"size {self.term(('bag', NUM) if self.chance(0.8) else ('bag', self.type(1, flat=True)), scope, deep, ATOM)}"
        if way in (2, 3):
            return SUM, f"{self.term(NUM, scope, deep, SUM)} {self.rng.choice('+-')} {self.term(NUM, scope, deep, PRODUCT)}"
        if way in (4, 5):
            return PRODUCT, f"{self.integer()} * {self.term(NUM, scope, deep, PRODUCT)}"
        if way == 6:
            return CALL, f"clip [ {self.integer()} , {self.integer()} ] {self.term(NUM, scope, deep, ATOM)}"
        if way == 7:
            return CALL, f"{self.rng.choice(['least', 'greatest'])} {self.term(('&', NUM, NUM), scope, deep, ATOM)}"
        if way in (8, 10):
            return CALL, f"sum [ {self.integer()} , {self.integer()} ] {self.term(('bag', NUM), scope, deep, ATOM)}"
        return self.applied(NUM, scope, deep)

    def made_bool(self, scope, deep):
        if deep <= -1 or self.chance(0.3):
            return ATOM, self.rng.choice(["true", "false"])
        if self.chance(0.1):
            return CALL, self.rng.choice(["inl [ unit ] ()", "inr [ unit ] ()"])
        sign = self.rng.choice(["<=", "=="])
        t = TEXT if sign == "==" and self.chance(0.4) else NUM
        return COMPARISON, f"{self.term(t, scope, deep, SUM)} {sign} {self.term(t, scope, deep, SUM)}"

    def made_bag(self, t, scope, deep):
        tables = [table for table in self.tables if table in scope]
        for name, u in tables:
            if u == t and (deep <= 0 or self.chance(0.6)):
                return ATOM, name
        way = self.rng.randrange(5) if deep > 0 else 0
        others = [table for table in tables if table[1] != t]
        if way == 0 and others:
            name, (_, row) = self.rng.choice(others)
            return CALL, f"map {self.term(('->', row, t[1]), scope, deep, ATOM)} {name}"
        if way <= 1:
            u = self.rng.choice([NUM, self.type(1, flat=self.chance(0.95))])
            if deep <= -3:
                return ATOM, self.tables[0][0]
            return CALL, f"map {self.term(('->', u, t[1]), scope, deep, ATOM)} {self.term(('bag', u), scope, deep, ATOM)}"
        if way == 2:
            return CALL, f"union {self.term(t, scope, deep, ATOM)} {self.term(t, scope, deep, ATOM)}"
        test = self.term(("->", t[1], BOOL), scope, deep, ATOM)
        if way == 3:
            return CALL, f"filter {test} {self.term(t, scope, deep, ATOM)}"
        x, y = self.rng.choice(NAMES), self.rng.choice(NAMES)
        body = self.term(t, [(y, t), (x, t), *scope], deep)
        return TERM, f"let ( {x} , {y} ) = split {test} {self.term(t, scope, deep, ATOM)} in {body}"

    def with_let(self, t, scope, deep):
        u, x = self.any_in(scope, deep), self.rng.choice(NAMES)
        return TERM, f"let {x} = {self.term(u, scope, deep)} in {self.term(t, [(x, u), *scope], deep)}"

    def with_pair(self, t, scope, deep):
        u, v, x, y = self.any_in(scope, deep), self.any_in(scope, deep), self.rng.choice(NAMES), self.rng.choice(NAMES)
        body = self.term(t, [(y, v), (x, u), *scope], deep)
        return TERM, f"let ( {x} , {y} ) = {self.term(('*', u, v), scope, deep)} in {body}"

    def with_bang(self, t, scope, deep):
        u, x = self.any_in(scope, deep), self.rng.choice(NAMES)
        return TERM, f"let ! {x} = {self.term(('!', self.factor(), u), scope, deep)} in {self.term(t, [(x, u), *scope], deep)}"

    def with_case(self, t, scope, deep):
        u, v, x, y = self.type(1, ground=True), self.type(1, ground=True), self.rng.choice(NAMES), self.rng.choice(NAMES)
        left, right = self.term(t, [(x, u), *scope], deep), self.term(t, [(y, v), *scope], deep)
        return TERM, f"case {self.term(('+', u, v), scope, deep)} of inl {x} => {left} | inr {y} => {right}"

    def with_if(self, t, scope, deep):
        return TERM, f"if {self.term(BOOL, scope, deep)} then {self.term(t, scope, deep)} else {self.term(t, scope, deep)}"

    def applied(self, t, scope, deep):
        u = ("!", self.factor(), self.any_in(scope, 1)) if self.chance(0.5) else self.any_in(scope, deep)
        if self.chance(0.2):
            argument = self.term(("!", "inf", u), scope, deep, ATOM)
            return CALL, f"{self.term(('->', u, t), scope, deep, ATOM)} {argument}"
        return CALL, f"{self.term(('-o', u, t), scope, deep, CALL)} {self.term(u, scope, deep, ATOM)}"

    def projected(self, t, scope, deep):
        u = self.any_in(scope, deep)
        word, pair = self.rng.choice([("fst", ("&", t, u)), ("snd", ("&", u, t))])
        return CALL, f"{word} {self.term(pair, scope, deep, ATOM)}"

    def taken_apart(self, t, scope, deep):
        """Takes something in scope apart by the rule of its type."""
        apart = [it for it in scope if it[1][0] in ("*", "&", "+", "!", "-o", "->")]
        if not apart:
            return self.made(t, scope, deep)
        name, u = self.rng.choice(apart)
        x, y = self.rng.choice(NAMES), self.rng.choice(NAMES)
        if u[0] == "*":
            return TERM, f"let ( {x} , {y} ) = {name} in {self.term(t, [(y, u[2]), (x, u[1]), *scope], deep)}"
        if u[0] == "!":
            return TERM, f"let ! {x} = {name} in {self.term(t, [(x, u[2]), *scope], deep)}"
        if u[0] == "+":
            left, right = self.term(t, [(x, u[1]), *scope], deep), self.term(t, [(y, u[2]), *scope], deep)
            return TERM, f"case {name} of inl {x} => {left} | inr {y} => {right}"
        if u[0] == "&":
            word, part = self.rng.choice([("fst", u[1]), ("snd", u[2])])
            return TERM, f"let {x} = {word} {name} in {self.term(t, [(x, part), *scope], deep)}"
        argument = self.term(u[1] if u[0] == "-o" else ("!", "inf", u[1]), scope, deep, ATOM)
        return TERM, f"let {x} = {name} {argument} in {self.term(t, [(x, u[2]), *scope], deep)}"


TOKEN = re.compile(r'"[^"]*"|[A-Za-z_]\w*|\d+|=>|->|-o\b|<=|==|\S')


def spaced(text, rng):
    """Other blanks, or none where a sign stands beside."""
    if rng.random() < 0.3:
        return text
    blanks = [" ", " ", " ", "  ", "\t", "\r", rng.choice(["\n", "\t", " ", " "])]
    parts = text.split(" ")
    made = parts[0]
    for part in parts[1:]:
        bare = made[-1:] in "()[],:" or part[:1] in "()[],:"
        made += rng.choice(["", "", " "] if bare else blanks) + part
    return made


def mutated(text, rng):
    """The text with some tokens dropped, doubled, exchanged or replaced."""
    tokens = TOKEN.findall(text)
    for _ in range(rng.choice([1, 1, 1, 2, 4])):
        if not tokens:
            break
        place, way = rng.randrange(len(tokens)), rng.randrange(6)
        if way == 0:
            del tokens[place]
        elif way == 1:
            tokens.insert(place, rng.choice(WORDS))
        elif way == 2:
            other = rng.randrange(len(tokens))
            tokens[place], tokens[other] = tokens[other], tokens[place]
        elif way == 3:
            tokens[place] = rng.choice(WORDS)
        else:
            alike = [it for it in set(tokens) if it[0].isalpha() == tokens[place][0].isalpha()]
            tokens[place] = rng.choice(sorted(alike))
    return " ".join(tokens)


def scratched(program, rng):
    """The bytes with some changed, dropped or doubled."""
    made = bytearray(program)
    for _ in range(rng.choice([1, 1, 2, 5])):
        place = rng.randrange(len(made) + 1)
        made[place : place + rng.choice([0, 1, 1])] = rng.choice([b"", rng.randbytes(1), rng.choice(WORDS).encode(), bytes(made[place : place + 3])])
    return bytes(made)


def deep_nest(rng):
    """About as deep as a term may be, in one form or in several."""
    many = rng.choice([30, 60, 61, 62, 63, 64, 65, 66, 100])
    t = rng.choice(["num", "bag num", "( num -o num )"])
    for _ in range(many - 2 if rng.random() < 0.5 else 2):
        t = rng.choice(["! [ 2 ] {}", "( {} )", "( num * {} )", "( {} & num )", "( num -o {} )"]).format(t)
    forms = [
        ("( {} , 1 )", 1), ("( {} )", 0), ("fst < {} , 1 >", 2), ("let x = {} in x", 1), ("let x = 1 in {}", 1), ("1 + {}", 1),
        ("{} + size people", 1), ("fun ( x : num ) => {}", 1), ("if true then 1 else {}", 1), ("! [ 3/2 ] ( {} )", 1), ("2 * {}", 1),
        ("case inl [ unit ] 1 of inl x => {} | inr y => x", 1), ("let ! x = ! [ 2 ] ( {} ) in x", 2), (f"fn ( f : {t} ) => {{}}", 1),
        ("let ( x , y ) = ( {} , 1 ) in x + y", 2), ("clip [ 0 , 9 ] ( {} )", 1), ("let a = ( 1 , x ) in {}", 1),
    ]  # fmt: skip
    used = [rng.choice(forms) for _ in range(rng.choice([1, 1, 1, 2, 4]))]
    made, depth = "size people", 2
    while depth < many:
        form, deeper = rng.choice(used)
        made, depth = form.format(f"( {made} )" if "{} +" in form or "+ {}" in form or "* {}" in form else made), depth + max(deeper, 0.1)
    return made


def large(rng):
    """About as long as a program may be: sums, lets or pairs of thousands of tokens."""
    part = rng.choice(["size people", "( 2 * x )", "( fst < x , y > )", "sum [ 0 , 3 ] people", "1", "( let ! x = ! [ 2 ] y in x )"])
    parts = [part] * rng.choice([32, 64, 128, 256, 400, 512, 1024, 2048])
    sign = rng.choice([" + ", " - "])
    while len(parts) > 1:
        parts = [f"( {sign.join(parts[at : at + 2])} )" for at in range(0, len(parts), 2)]
    return f"let x = size people in let y = 3 in {parts[0]}" + " " * rng.choice([0, 0, 3000])


def numbers_out_of_range(rng):
    """Products and sums of fractions near the edge of their range."""
    halves = [1, 2, 3, 5, 7, 65535, 65536, 65537, 92681, 2**31, 2**31 - 1, 2**32 - 1, 2**32 - 2, 4294967291, 641, 6700417]
    if rng.random() < 0.5:
        halves = halves[:5] * 9 + halves
    pick = lambda: rng.choice(halves)  # noqa: E731
    made = "size people"
    for _ in range(rng.randint(1, 5)):
        way = rng.randrange(5)
        if way == 0:
            made = f"{pick()} * ( {made} )"
        elif way == 1:
            made = f"let ! x = ! [ {pick()} / {pick()} ] ( {made} ) in x"
        elif way == 2:
            made = f"( fun ( x : ! [ {pick()} / {pick()} ] num ) => let ! y = x in y ) ( ! [ {pick()} / {pick()} ] ( {made} ) )"
        elif way == 3:
            made = f"( {made} ) + ( let ! x = ! [ {pick()} ] ( {made if len(made) < 500 else 'size people'} ) in {pick()} * x )"
        else:
            made = f"let ! z = ! [ {pick()} / {pick()} ] ( {made} ) in {rng.choice([1, 2, 3, 65536])} * z"
    return made


def program_of(rng):
    """One program's bytes."""
    way = rng.random()
    scope = TABLES
    if rng.random() < 0.01:
        return near_limit(rng).encode()
    writer = Writer(rng, rng.choice([0.006, 0.006, 0.006, 0.006, 0.15]))
    if way < 0.66:
        t = NUM if rng.random() < 0.95 else writer.type(2)
        text = writer.term(t, scope, rng.randint(2, 7))
        if way < 0.52:
            return spaced(text, rng).encode("latin-1")
        return spaced(mutated(text, rng), rng).encode("latin-1")
    if way < 0.76:
        return spaced(numbers_out_of_range(rng), rng).encode()
    if way < 0.81:
        return spaced(deep_nest(rng), rng).encode()
    if way < 0.82:
        return large(rng).encode()
    if way < 0.845:
        return " ".join(rng.choice(WORDS) for _ in range(rng.randint(0, 30))).encode()
    if way < 0.865:
        return rng.randbytes(rng.randint(0, 40))
    if way < 0.875:
        many, most = rng.choice([33, 65, 4096, 4097, 8000, 16000]), rng.choice([15_999, 16_000, 16_001, 17_000])
        return (rng.choice(WORDS + [" ", "n", "1", '"']) * many)[:most].encode()
    if way < 0.89:
        wild = Writer(rng, 0.3)
        return f"( fn ( x : {wild.written(wild.type(5))} ) => 1 ) 2".encode()
    text = writer.term(NUM, scope, rng.randint(2, 5))
    return scratched(spaced(text, rng).encode("latin-1"), rng)


# Programs near a limit of the run without data.


def balanced(parts, sign=" + "):
    """The parts joined by a sign, as a tree that is as flat as can be."""
    while len(parts) > 1:
        parts = [f"( {sign.join(parts[at : at + 2])} )" for at in range(0, len(parts), 2)]
    return parts[0]


def near_depth(rng):
    """Functions that call each other, to about 128 deep."""
    many = rng.randint(36, 43)
    pad = max(0, min(18, 128 - (3 * many + 2) + rng.choice([-2, -1, -1, 0, 0, 1, 1, 2])))
    first = "0 + ( " * pad + "x" + " )" * pad
    made = f"let f0 = fun ( x : num ) => {first} in "
    calls = ["1 + f{} x", "f{} ( x + 1 )", "2 + f{} x", "f{} x - 3", "clip [ 0 , 50 ] ( f{} x )", "least < 7 , f{} x >"]
    used = rng.choice([[calls[0]], calls[:4], calls])
    for name in range(1, many):
        made += f"let f{name} = fun ( x : num ) => {rng.choice(used).format(name - 1)} in "
    last = rng.choice(["f{} 1", "f{} ( size people )", "1 + f{} ( sum [ 0 , 9 ] people )", "size ( map ( fn ( x : num ) => f{} x ) people )"])
    return made + last.format(many - 1)


# First bodies, and the turns of one.
FIRST_BODIES = {"x": 1, "x + 1": 3, "clip [ 0 , 40 ] x": 2, "greatest < x , 3 >": 4, "if true then x else 3": 5}


def turning(rng, many, first, wanted, leaf="size people"):
    """So many functions that call the one before twice, called until so many turns are taken. A leaf stands among the calls."""
    turns, made = [FIRST_BODIES[first]], f"let f0 = fun ( x : num ) => {first} in "
    for name in range(1, many):
        made += f"let f{name} = fun ( x : num ) => f{name - 1} ( f{name - 1} x ) in "
        turns.append(5 + 2 * turns[-1])
    left, parts = wanted - 2 * many - len(leaf.split()), [leaf]
    for name in reversed(range(many)):
        while left >= turns[name] + 4 and len(parts) < 600:
            parts.append(f"f{name} {rng.randint(0, 9)}")
            left -= turns[name] + 4
    if left % 2 and left > 0:
        parts[0], left = f"2 * {leaf}", left - 1
    parts += ["1"] * (max(left, 0) // 2)
    rng.shuffle(parts)
    return made + balanced(parts)


def near_turns(rng):
    wanted = 20_000 + rng.choice([-2, -1, 0, 0, 0, 1, 1, 1, 2, 40])
    return turning(rng, rng.randint(7, 12), rng.choice(list(FIRST_BODIES)), wanted)


# Bags that are as wide as both, and some of which the run without data says so.
UNIONS = [
    "union ( filter ( fn ( x : num ) => x <= {n} ) {a} ) {b}", "map ( fn ( x : num ) => x + {n} ) ( union {b} {a} )",
    "fst < {a} , union {a} {b} >", "snd < union {a} {b} , {b} >", "if true then union {a} {b} else {b}", "if {n} <= 50 then {a} else union {a} {b}",
    "let ( p , q ) = ( {a} , {b} ) in union p q", "let ( p , q ) = ( {a} , union {b} {a} ) in p", "let ( p , q ) = ( union {b} {a} , {a} ) in q",
    "case inl [ text ] {a} of inl p => union p {b} | inr q => {b}", "case inr [ bag num ] {n} of inl p => union p {b} | inr q => union {a} {b}",
    "let ! p = ! [ 2 ] {a} in union p {b}", "( fun ( p : bag num ) => union p {b} ) {a}", "( fun ( p : bag num & bag num ) => fst p ) < {a} , union {b} {a} >",
    "let ( p , q ) = split ( fn ( x : num ) => x <= {n} ) {a} in union q {b}",
    "let f = ( {a} , fun ( p : bag num ) => union p {b} ) in let ( p , g ) = f in g p",
]  # fmt: skip


def near_width(rng):
    """Unions of unions, to about 64 tables wide."""
    widths, names, made = {"people": 1}, ["people"], ""
    while True:
        wanted = rng.choice([60, 63, 64, 64, 65, 65, 66, 70])
        a = rng.choice(names[-3:])
        fitting = [name for name in names if widths[name] + widths[a] <= wanted]
        b = rng.choice(fitting) if fitting and rng.random() < 0.9 else rng.choice(names)
        x = f"a{len(names)}"
        bag = "union {a} {b}" if rng.random() < 0.6 else rng.choice(UNIONS)
        bag = bag.format(a=a, b=b, n=rng.randint(0, 99))
        made += f"let {x} = {bag} in "
        widths[x] = widths[a] + widths[b]
        names.append(x)
        if widths[x] > 58 or len(names) > 20:
            return made + rng.choice(["size {}", "sum [ 0 , 50 ] {}", "sum [ - 5 , 5 ] ( map ( fn ( x : num ) => 2 * x ) {} )"]).format(x)


def near_limit(rng):
    return rng.choice([near_depth, near_depth, near_turns, near_width, near_width])(rng)


# Programs that the typing rules accept.


def of_large_numbers(rng):
    """Arithmetic that comes to the ends of the numbers, and something of the table."""
    near = [2**50, 2**50 - 1, 2**49, 2**49 + 1, 2**50 - 7, 2**32 - 1, 1, 0, 3, 2**25]

    def tree(deep):
        way = rng.randrange(7) if deep else 0
        if way == 0:
            return f"( {rng.choice(['', '', '- '])}{rng.choice(near)} )"
        if way <= 3:
            return f"( {tree(deep - 1)} {rng.choice('+-')} {tree(deep - 1)} )"
        if way == 4:
            return f"( {rng.choice(['', '- '])}{rng.choice(near[5:])} * {tree(deep - 1)} )"
        if way == 5:
            return f"( clip [ {rng.choice(['', '- '])}{rng.choice(near)} , {rng.choice(['', '- '])}{rng.choice(near)} ] {tree(deep - 1)} )"
        return f"( {rng.choice(['least', 'greatest'])} < {tree(deep - 1)} , {tree(deep - 1)} > )"

    deep = rng.randint(1, 4)
    some = rng.choice(["size people", "sum [ - 9 , 9 ] people", "sum [ 0 , 4294967295 ] people", "sum [ 4294967295 , 0 ] people", "2 * size people"])
    return rng.choice(["{} + {}", "{} - {}", "( fn ( x : num ) => {} ) ( ! [ inf ] ( {} ) )", "let x = {} in x - {}"]).format(tree(deep), some)


def over_elements(rng):
    """Maps, filters and splits of a table, whose functions have values."""
    scope = TABLES
    writer = Writer(rng, 0)
    u = writer.type(2, flat=True)
    table, (_, row) = rng.choice(TABLES)
    parts = [("x", row)] if row == NUM else [("t", TEXT), ("n", NUM), ("x", row)]
    apart = "" if row == NUM else "let ( t , n ) = x in "
    image = f"( fn ( x : {writer.written(row)} ) => {apart}{writer.term(u, parts, rng.randint(1, 4))} )"
    bag = f"( map {image} {table} )"
    test = f"( fn ( y : {writer.written(u)} ) => {writer.term(BOOL, [('y', u)], rng.randint(1, 4))} )"
    number = f"( fn ( z : {writer.written(u)} ) => {writer.term(NUM, [('z', u)], rng.randint(1, 4))} )"
    low, high = rng.randint(-99, 99), rng.randint(-99, 99)
    way = rng.randrange(4)
    if way == 0:
        return f"sum [ {low} , {high} ] ( map {number} ( filter {test} {bag} ) )".replace("[ -", "[ - ").replace(", -", ", - ")
    if way == 1:
        return f"let ( a , b ) = split {test} {bag} in size a - 2 * size b"
    if way == 2:
        return f"let ( a , b ) = split {test} {bag} in sum [ 0 , 9 ] ( map {number} ( union b a ) )"
    return f"size ( filter {test} {bag} ) + {writer.term(NUM, scope, 2)}"


def candidate(rng):
    way = rng.random()
    if way < 0.66:
        return Writer(rng, 0).term(NUM, TABLES, rng.randint(2, 7))
    if way < 0.84:
        return over_elements(rng)
    if way < 0.95:
        return of_large_numbers(rng)
    return near_limit(rng)


def accepted_of(rng):
    """The bytes of a program that the typing rules accept."""
    while True:
        program = spaced(candidate(rng), rng).replace("\n", " ").strip().encode("latin-1")
        try:
            checked(program, TABLES)
        except Refused:
            continue
        return program
