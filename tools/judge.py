#!/usr/bin/env python3
"""Judges a derivation: whether it shows that one row moves a program's value by at most R. It shares no line with the server, nor with another tool.

usage: tools/judge.py CATALOG OWNER FILE DERIVATION
It says what the program's `judge` says of the same files, and ends with the same status:
    0  yes R                       every line follows by its node's rule; R is the greatest number in line 0
    1  no LINE                     the least line, from 0, that is missing, too many or not of the form; where all are, the first whose rule fails
    1  no 20 P, no 21 T, no 22 D   the program in FILE isn't read
    3  refused NAME                a file is absent or over 2^26 bytes, or CATALOG hasn't OWNER, or no tables of it: no more of a catalog is looked at here
    2, 5, 7                        `usage`; a file can't be read; `memory`
The owner's tables are in the catalog, by name and type; no table's file is read. A program's term has a node for each of its forms, before those of its
parts, and these as they are written. A derivation has a line for each node, which may say more than its rule, and never less:
    TYPE | NAME NUMBER | NAME NUMBER   how far the node's value moves, at most, for each unit that NAME moves: 0 for names left out
"""
import json
import re
import sys
from collections import namedtuple
from fractions import Fraction
from functools import lru_cache, partial, reduce
from math import inf

WORDS = set("""fun fn let in case of inl inr if then else fst snd true false num text unit bool bag inf size sum clip least greatest map filter split
    union do release at""".split())  # fmt: skip
HALF, FILE_LIMIT, PROGRAM_LIMIT, TOKEN_LIMIT, NEST_LIMIT, NUMBER_LIMIT, NAME_BYTES = 2**32 - 1, 2**26, 16_000, 4096, 64, 2**50, 32


class Fault(Exception):
    """The status and the line with which all ends; or, with neither, that a rule fails."""


def need(holds, *fault):
    if not holds:
        raise Fault(*fault)


# Tokens are kinds and values. The kind of a word or a sign is itself; a number that is 0 or above HALF is `other`.
TOKEN = re.compile(rb'([ \t\r\n]+)|([A-Za-z_][A-Za-z0-9_]*)|([0-9]+)|("[ !#-~\x80-\xff]{0,64}")|(?:=>|->|-o(?![A-Za-z0-9_])|<=|==|[][()<>,:=!|+*&/-])')


def tokens_of(data, most=None):
    tokens, at = [], 0
    while at < len(data):
        found = TOKEN.match(data, at)
        blanks, word, digits, text = found.groups() if found else (None,) * 4
        if not blanks:
            number, is_name = int(digits.lstrip(b"0")[:17] or 0) if digits else 0, word and word.decode() not in WORDS
            if not found or number > NUMBER_LIMIT or (is_name and len(word) > NAME_BYTES) or len(tokens) == most:
                raise Fault(1, f"no 20 {at}")
            kind = ("number" if 1 <= number <= HALF else "other") if digits else "name" if is_name else "quoted" if text else found[0].decode()
            tokens.append((kind, number if digits else word.decode() if is_name else None))
        at = found.end()
    return [*tokens, ("end", None)]


# Types have numbers, equal ones the same. Of a bang the first part is its amount: a whole number, a fraction or inf. Ground is what has no function inside,
# flat what has no bag either.
Kind = namedtuple("Kind", "form parts ground flat formed depth")
NUMBER, KINDS, INNERHALF = {}, [], Kind("", (), True, True, True, 0)


def made(form, *parts):
    if (form, parts) not in NUMBER:
        a, b = (KINDS[parts[form == "!"]], KINDS[parts[-1]]) if parts else (INNERHALF, INNERHALF)
        ground, flat, formed = a.ground and b.ground, a.flat and b.flat, a.formed and b.formed
        formed = formed and (form != "+" or ground) and (form != "bag" or flat)
        NUMBER[form, parts] = len(KINDS)
        KINDS.append(Kind(form, parts, ground and form != "-o", flat and form not in ("-o", "bag"), formed, 1 + max(a.depth, b.depth)))
    return NUMBER[form, parts]


def parts_of(form, kind):
    need(KINDS[kind].form == form)
    return KINDS[kind].parts


NUM, TEXT, UNIT = made("num"), made("text"), made("unit")
BOOL, PAIR = made("+", UNIT, UNIT), made("&", NUM, NUM)


class Node:
    """A node of a term: its form, parts and names, what types or numbers are written in it, and which of its names are bound in each part."""

    def __init__(self, form, *values):
        self.form, self.names, self.parts = form, [one for one in values if isinstance(one, str)], [one for one in values if isinstance(one, Node)]
        self.given = [one for one in values if not isinstance(one, (str, Node))]
        self.depth = 1 + max([part.depth for part in self.parts] + [KINDS[kind].depth for kind in self.given if form in ("fun", "fn", "inl", "inr")], default=0)
        self.places = {"fun": [slice(2)], "fn": [slice(2)], "case": [slice(0), slice(1), slice(1, 2)]}.get(form, [slice(0), slice(2), slice(0)])


# Phrases and, by `or`, what each may be: that which begins with the next token, else that which begins with none, where there is one. A step makes of the
# last values, as many as its digit says, a term (@) or a type (~) of a form. The sign of a number changes no sensitivity.
GRAMMAR = """
TERM: fun ( name : TYPE ) => TERM @3fun or fn ( name : TYPE ) => TERM @3fn or let BOUND or if TERM then TERM else TERM @3if or
    case TERM of inl name => TERM | inr name => TERM @5case or SUM COMPARED ;
BOUND: ! name = TERM in TERM @3let! or ( name , name ) = TERM in TERM @4let, or name = TERM in TERM @3let ;
COMPARED: <= SUM @2<= or == SUM @2== or ;
SUM: PRODUCT SUMS ; SUMS: + PRODUCT @2+ SUMS or - PRODUCT @2- SUMS or ;
PRODUCT: - COUNT NEGATED or COUNT FACTOR or CALL ; NEGATED: * PRODUCT @2* or @1number ; FACTOR: * PRODUCT @2* or @1number ATOMS ;
CALL: fst ATOM @1fst or snd ATOM @1snd or size ATOM @1size or least ATOM @1least or greatest ATOM @1greatest or map ATOM ATOM @2map or
    filter ATOM ATOM @2filter or split ATOM ATOM @2split or union ATOM ATOM @2union or sum [ INTEGER , INTEGER ] ATOM @3sum or
    clip [ INTEGER , INTEGER ] ATOM @3clip or inl [ TYPE ] ATOM @2inl or inr [ TYPE ] ATOM @2inr or ! [ AMOUNT ] ATOM @2! or ATOM ATOMS ;
ATOMS: ATOM @2apply ATOMS or ;
ATOM: name @1name or COUNT @1number or quoted @0quoted or true @0true or false @0false or ( INSIDE or < TERM , TERM > @2with ;
INSIDE: ) @0unit or TERM BESIDE ; BESIDE: , TERM ) @2pair or ) ;
INTEGER: - COUNT or COUNT ; COUNT: number or other ;
TYPE: PLUS ARROW ; ARROW: -o TYPE ~2-o or -> TYPE ~2-> or ;
PLUS: PROD ADDED ; ADDED: + PLUS ~2+ or ;
PROD: PRE PAIRED ; PAIRED: * PROD ~2* or & PROD ~2& or ;
PRE: ! [ AMOUNT ] PRE ~2! or bag PRE ~1bag or num ~0num or text ~0text or unit ~0unit or bool ~0bool or ( TYPE ) ;
AMOUNT: inf ~0inf or number OVER ; OVER: / number ~2/ or ;
SAID: name AMOUNT"""
PHRASES = {name[:-1]: [one.split() for one in f" {' '.join(words)} ".split(" or ")] for name, *words in map(str.split, GRAMMAR.split(";"))}
MAKE = {"true": lambda: Node("inl", UNIT, Node("unit")), "false": lambda: Node("inr", UNIT, Node("unit")), "bool": lambda: BOOL, "inf": lambda: inf,
        "->": lambda a, b: made("-o", made("!", inf, a), b), "/": Fraction}  # fmt: skip
TABLE = {name: {} for name in PHRASES}


def begun(words):
    """The tokens with which words begin, None for none, each with the words as they go on then."""
    if not words or words[0] not in PHRASES:
        return [(words[0] if words and words[0][0] not in "@~" else None, words)]
    return [(token, [*first, *words[1:]]) for one in PHRASES[words[0]] for token, first in begun(one)]


for name in PHRASES:
    for token, words in begun([name]):
        makes = [MAKE.get(word[2:]) or partial(Node if word[0] == "@" else made, word[2:]) for word in words]
        steps = [(int(word[1]), make) if word[0] in "@~" else TABLE.get(word, word) for word, make in zip(words, makes)]
        TABLE[name].setdefault(token, steps[::-1])


@lru_cache(None)
def read(phrase, data, most=None):
    """The values of a phrase that all of the data is, in so many tokens. What is still to be read waits on a stack: nothing here recurses."""
    tokens, waits, values, at = tokens_of(data, most), ["end", TABLE[phrase]], [], 0
    while waits:
        step, (kind, value) = waits.pop(), tokens[at]
        if isinstance(step, tuple):
            first = len(values) - step[0]
            values[first:] = [step[1](*values[first:])]
        elif kind == step:
            values += [] if value is None else [value]
            at += 1
        elif isinstance(step, str) or not (kind in step or None in step):
            raise Fault(1, f"no 21 {at}")
        else:
            waits += step[kind if kind in step else None]
    return values


# What is used at names is an amount by each. Neither half of a fraction may be above HALF.


def fitting(amount):
    need(amount == inf or max(amount.numerator, amount.denominator) <= HALF)
    return amount


def add(a, b):
    return {x: fitting(a.get(x, 0) + b.get(x, 0)) for x in {**a, **b}}


def most(a, b):
    return {x: max(a.get(x, 0), b.get(x, 0)) for x in {**a, **b}}


def scaled(k, a):
    return {x: fitting(k * amount) if k and amount else 0 for x, amount in a.items()}


def divided(r, s):
    return (1 if r else 0) if s == inf else inf if r == inf else fitting(Fraction(r) / s)


def follow(node, lines, scope):
    """By a node's rule, of its parts' lines: its type, its uses, and the types of the names that it binds. A, B and C are the parts' types, a, b and c
    their uses of names in scope that it doesn't bind, r the most that a part uses one at that it binds, and g what is written in it, the greatest of it."""
    bound = [set(node.names[place]) for place in node.places]
    uses = [{x: amount for x, amount in says.items() if x in scope and x not in hidden} for (_, says), hidden in zip(lines, bound)]
    (A, B, C), (a, b, c) = ([*some, None, None, None][:3] for some in ([kind for kind, _ in lines], uses))
    r = max([says.get(x, 0) for (_, says), names in zip(lines, bound) for x in names], default=0)
    g, x = max(node.given, default=None), [*node.names, None][0]

    def over_bag(result):
        element, image = parts_of("-o", A)
        need(parts_of("!", element)[0] == inf and B == made("bag", KINDS[element].parts[1]))
        return result(image), add(scaled(inf, a), b)

    return {
        "name": lambda: need(x in scope) or (scope[x], {x: 1}),
        "number": lambda: (NUM, {}), "quoted": lambda: (TEXT, {}), "unit": lambda: (UNIT, {}),
        "pair": lambda: (made("*", A, B), add(a, b)), "with": lambda: (made("&", A, B), most(a, b)),
        "fst": lambda: (parts_of("&", A)[0], a), "snd": lambda: (parts_of("&", A)[1], a),
        "let,": lambda: (B, add(b, scaled(r, a)), *parts_of("*", A)),
        "inl": lambda: need(KINDS[g].formed and KINDS[g].ground and KINDS[A].ground) or (made("+", A, g), a),
        "inr": lambda: need(KINDS[g].formed and KINDS[g].ground and KINDS[A].ground) or (made("+", g, A), a),
        "case": lambda: need(B == C and KINDS[B].ground) or (B, add(most(b, c), scaled(r or 1, a)), *parts_of("+", A)),
        "if": lambda: need(A == BOOL and B == C and KINDS[B].ground) or (B, add(most(b, c), a)),
        "fun": lambda: need(KINDS[g].formed and r <= 1) or (made("-o", g, A), a, g), "fn": lambda: need(KINDS[g].formed) or (MAKE["->"](g, A), a, g),
        "apply": lambda: need(B == parts_of("-o", A)[0]) or (KINDS[A].parts[1], add(a, b)),
        "!": lambda: (made("!", g, A), scaled(g, a)), "let!": lambda: (B, add(b, scaled(divided(r, parts_of("!", A)[0]), a)), KINDS[A].parts[1]),
        "let": lambda: (B, add(b, scaled(r, a)), A),
        "+": lambda: need(A == B == NUM) or (NUM, add(a, b)), "-": lambda: need(A == B == NUM) or (NUM, add(a, b)),
        "*": lambda: need(A == NUM and g <= HALF) or (NUM, scaled(g, a)),
        "<=": lambda: need(A == B == NUM) or (BOOL, add(scaled(inf, a), scaled(inf, b))),
        "==": lambda: need(A == B and A in (NUM, TEXT)) or (BOOL, add(scaled(inf, a), scaled(inf, b)) if A == NUM else add(a, b)),
        "clip": lambda: need(A == NUM) or (NUM, a), "size": lambda: need(KINDS[A].form == "bag") or (NUM, a),
        "least": lambda: need(A == PAIR) or (NUM, a), "greatest": lambda: need(A == PAIR) or (NUM, a),
        "sum": lambda: need(A == made("bag", NUM) and g <= HALF) or (NUM, scaled(g, a)),
        "union": lambda: need(KINDS[A].form == "bag" and A == B) or (A, add(a, b)),
        "map": lambda: over_bag(lambda image: need(KINDS[image].flat) or made("bag", image)),
        "filter": lambda: over_bag(lambda image: need(image == BOOL) or B),
        "split": lambda: over_bag(lambda image: need(image == BOOL) or made("*", B, B)),
    }[node.form]()  # fmt: skip


def line_of(data):
    """A line's type, and its amount by each name."""
    pieces = data.split(b"|")
    kind, said = read("TYPE", pieces[0])[0], [read("SAID", piece) for piece in pieces[1:]]
    need(all(one[0] < other[0] for one, other in zip(said, said[1:])))
    return kind, dict(said)


def judged(term, tables, data):
    """R of a derivation's bytes, TABLES having the types of tables by name; Fault with the least line that is at fault."""
    nodes, left, lines = [], [term], []
    while left:
        nodes.append(left.pop())
        nodes[-1].line = len(nodes) - 1
        left += nodes[-1].parts[::-1]
    *pieces, rest = data.split(b"\n", len(nodes))
    term.scope = tables
    try:
        for piece in pieces:
            lines.append(line_of(piece))
        need(len(lines) == len(nodes) and not rest)
    except Fault:
        raise Fault(1, f"no {len(lines)}") from None
    for node, (kind, says) in zip(nodes, lines):
        try:
            found, uses, *bound = follow(node, [lines[part.line] for part in node.parts], node.scope)
            need(found == kind and says.keys() <= node.scope.keys() and all(amount <= says.get(x, 0) for x, amount in uses.items()))
            need(node.line or (kind == NUM and inf not in says.values()))
        except Fault:
            raise Fault(1, f"no {node.line}") from None
        for part, place in zip(node.parts, node.places):
            part.scope = {**node.scope, **dict(zip(node.names[place], bound[place]))} if node.names[place] else node.scope
    return max(lines[0][1].values(), default=0)


def program_of(data):
    """The term of a program's bytes."""
    need(len(data) <= PROGRAM_LIMIT, 1, f"no 20 {PROGRAM_LIMIT}")
    (term,) = read("TERM", data, TOKEN_LIMIT)
    need(term.depth <= NEST_LIMIT, 1, f"no 22 {term.depth}")
    return term


def tables_of(data, owner, name):
    """The types of an owner's tables, by name, from a catalog's bytes."""
    try:
        entries = {entry["name"]: entry["tables"] for entry in json.loads(data.decode())["owners"]}
        rows = {table["name"]: [{"num": NUM, "text": TEXT}[column["type"]] for column in table["columns"]] for table in entries.get(owner, ())}
        tables = {table: made("bag", reduce(lambda rest, cell: made("*", cell, rest), reversed(row))) for table, row in rows.items()}
    except (ValueError, LookupError, TypeError, RecursionError):
        raise Fault(3, f"refused {name}") from None
    need(owner in entries, 3, f"refused {owner}")
    return tables


def contents(name):
    try:
        with open(name, "rb") as file:
            data = file.read(FILE_LIMIT + 1)
    except (FileNotFoundError, NotADirectoryError):
        raise Fault(3, f"refused {name}") from None
    need(len(data) <= FILE_LIMIT, 3, f"refused {name}")
    return data


def main(words):
    if words == ["--help"]:
        return 0, __doc__.strip()
    need(len(words) == 4 and not re.search("[\udc80-\udcff]", "".join(words)), 2, "usage")
    tables, program, derivation = tables_of(contents(words[0]), words[1], words[0]), contents(words[2]), contents(words[3])
    return 0, f"yes {judged(program_of(program), tables, derivation)}"


if __name__ == "__main__":
    try:
        status, line = main(sys.argv[1:])
    except Fault as fault:
        status, line = fault.args
    except (OSError, MemoryError) as fault:
        status, line = (7, "memory") if isinstance(fault, MemoryError) else (5, "")
    sys.stdout.write(line and line + "\n")
    sys.exit(status)
