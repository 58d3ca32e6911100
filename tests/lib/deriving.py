"""Derivations, written and judged once more: by the second implementation of the typing rules (tools/lib/programs.py), at whose every node the type and the uses
are kept, or those of a line are taken instead.

    derived(TERM, TABLES)            the least derivation's bytes, for an accepted term; TooLong where there are more than 2^26
    verdict(TERM, TABLES, DATA)      what `judge` says of a derivation's bytes
    lines_of(TERM, TABLES)           a line's type and uses for each node of an accepted term, in preorder
    size_of(LINES)                   how many bytes such lines have
    line_text(TYPE, USES)            a line, without its end
    nodes_of(TERM)                   the nodes, in preorder
"""
from fractions import Fraction

from bounds import FILE_LIMIT
from programs import INF, NUM, Checker, Node, OutOfRange, Parser, Refused, at, deep, greater, run_of, same, sensitivity_text, token_at


class TooLong(Exception):
    pass


class Deriver(Checker):
    """Checks a term, and keeps of each node what the rules give."""

    def __init__(self, tables):
        super().__init__(tables)
        self.lines = []

    def check(self, node, scope):
        place = len(self.lines)
        self.lines.append(None)
        self.lines[place] = super().check(node, scope)
        return self.lines[place]


def lines_of(term, tables):
    def call():
        deriver = Deriver(tables)
        deriver.program(term)
        return deriver.lines

    return deep(call)


def nodes_of(term):
    found, left = [], [term]
    while left:
        found.append(left.pop())
        left += [part for part in found[-1].parts if isinstance(part, Node) and part.form != "type"][::-1]
    return found


def pieces(t):
    """The words of a type around its parts, one more than these, and the parts."""
    if t[0] in ("*", "&", "+", "-o"):
        return ["(", f" {t[0]} ", ")"], t[1:]
    if t[0] == "!":
        return [f"![{sensitivity_text(t[1])}] ", ""], t[2:]
    return ([t[0]], ()) if len(t) == 1 else ([f"{t[0]} ", ""], t[1:])


def length_of(t, known):
    """How many bytes the text of a type has. A part that stands in it many times is one tuple, and is counted once."""
    if id(t) not in known:
        words, parts = pieces(t)
        # The type is kept, so that no other one has its place.
        known[id(t)] = sum(map(len, words)) + sum(length_of(part, known) for part in parts), t
    return known[id(t)][0]


def type_text(t, known):
    if id(t) not in known:
        words, parts = pieces(t)
        known[id(t)] = "".join(word + part for word, part in zip(words, [*(type_text(part, known) for part in parts), ""])), t
    return known[id(t)][0]


def uses_text(uses):
    return "".join(f" | {name} {sensitivity_text(uses[name])}" for name in sorted(uses) if uses[name] != 0)


def line_text(t, uses):
    return type_text(t, {}) + uses_text(uses)


def size_of(lines):
    """How many bytes lines have."""
    known = {}
    return sum(length_of(t, known) + len(uses_text(uses)) + 1 for t, uses in lines)


def derived(term, tables):
    lines, known = lines_of(term, tables), {}
    if size_of(lines) > FILE_LIMIT:
        raise TooLong
    return "".join(f"{type_text(t, known)}{uses_text(uses)}\n" for t, uses in lines).encode()


# Judging.


class NoLine(Exception):
    """It isn't of the form."""


def tokens_in(text):
    found, place = [], run_of(text, 0, set(b" \t\r"))
    while place < len(text):
        token = token_at(text, place)
        if token is None:
            raise NoLine
        found.append(token)
        place = run_of(text, token[3], set(b" \t\r"))
    return found


def phrase_in(text, phrase):
    """What all the tokens of a text are, by one of the parser's procedures."""
    parser = Parser(tokens_in(text))
    try:
        found = phrase(parser)
    except Refused:
        raise NoLine from None
    if parser.next() is not None:
        raise NoLine
    return found


def line_in(text):
    first, *rest = text.split(b"|")
    kind = phrase_in(first, Parser.arrow)
    says = [phrase_in(piece, lambda parser: (parser.take("name"), parser.sensitivity())) for piece in rest]
    names = [name.encode() for name, _ in says]
    if names != sorted(set(names)):
        raise NoLine
    return kind, dict(says)


class Judge(Checker):
    """Checks a term by what its lines say: a rule is given the lines of the parts, and what it gives is held against the node's own."""

    def __init__(self, tables, term, lines):
        super().__init__(tables)
        self.lines, self.faults = {id(node): (place, *line) for place, (node, line) in enumerate(zip(nodes_of(term), lines))}, []

    def check(self, node, scope):
        place, kind, says = self.lines[id(node)]
        try:
            found, uses = super().check(node, scope)
            if not same(found, kind) or any(greater(at(uses, name), at(says, name)) != at(says, name) for name in uses) or not says.keys() <= scope.keys():
                self.faults.append(place)
        except (Refused, OutOfRange):
            self.faults.append(place)
        return kind, {name: amount for name, amount in says.items() if name in scope}


def verdict(term, tables, data):
    def call():
        lines, ended, nodes = [], data.split(b"\n"), nodes_of(term)
        for text in ended[:-1][: len(nodes)]:
            try:
                lines.append(line_in(text))
            except NoLine:
                return f"no {len(lines)}"
        if len(lines) < len(nodes) or len(ended) > len(nodes) + 1 or ended[-1]:
            return f"no {len(lines)}"
        judge = Judge(tables, term, lines)
        judge.check(term, dict(tables))
        if not same(lines[0][0], NUM) or INF in lines[0][1].values():
            return "no 0"
        return f"no {min(judge.faults)}" if judge.faults else f"yes {sensitivity_text(max(lines[0][1].values(), default=Fraction(0)))}"

    return deep(call)
