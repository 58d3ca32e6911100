"""The language of programs, read and checked once more: tokens, terms and types by their grammar, and the typing rules.

    checked(PROGRAM)        the term and the sensitivity of a program's bytes; Refused, with the words of the refusal, else

It shares nothing with the server but the rules. A term is read by a procedure a phrase, types are nested tuples, and what
a term's names are used at is a dictionary of fractions.
"""
import sys
import threading
from fractions import Fraction

from bounds import HALF, NAME_BYTES, NEST_LIMIT, NUMBER_LIMIT, PROGRAM_LIMIT, TEXT_LIMIT, TOKEN_LIMIT

WORDS = set(
    "fun fn let in case of inl inr if then else fst snd true false num text unit bool bag inf size sum clip least greatest"
    " map filter split union do release at".split()
)
SIGNS = ["=>", "->", "<=", "=="] + list("()<>[],:=!|+-*&/")
LETTERS = set(b"abcdefghijklmnopqrstuvwxyzABCDEFGHIJKLMNOPQRSTUVWXYZ_")
DIGITS = set(b"0123456789")
INF = "inf"


class Refused(Exception):
    """The words of a refusal. Of a mismatch it has the types too; the wanted one is a type, or the form of one."""

    found = wanted = None


# Tokens: (kind, value, from, to), the kinds being name, number, quoted (a text), and each word and sign by itself.


def run_of(text, at, bytes_in):
    end = at
    while end < len(text) and text[end] in bytes_in:
        end += 1
    return end


def token_at(text, at):
    first = text[at]
    if first in LETTERS:
        end = run_of(text, at, LETTERS | DIGITS)
        word = text[at:end].decode()
        if word in WORDS:
            return (word, word, at, end)
        return ("name", word, at, end) if end - at <= NAME_BYTES else None
    if first in DIGITS:
        end = run_of(text, at, DIGITS)
        digits = text[at:end].lstrip(b"0") or b"0"
        value = int(digits) if len(digits) <= len(str(NUMBER_LIMIT)) else NUMBER_LIMIT + 1
        return ("number", value, at, end) if value <= NUMBER_LIMIT else None
    if first == ord('"'):
        end = text.find(b'"', at + 1)
        inside = text[at + 1 : end]
        fits = end > 0 and len(inside) <= TEXT_LIMIT and all(0x20 <= b <= 0x7E or b >= 0x80 for b in inside)
        return ("quoted", inside, at, end + 1) if fits else None
    if text[at : at + 2] == b"-o" and not (at + 2 < len(text) and text[at + 2] in LETTERS | DIGITS):
        return ("-o", "-o", at, at + 2)
    for sign in SIGNS:
        if text.startswith(sign.encode(), at):
            return (sign, sign, at, at + len(sign))
    return None


def tokens_of(text):
    if len(text) > PROGRAM_LIMIT:
        raise Refused(f"20 {PROGRAM_LIMIT}")
    found, at = [], 0
    while True:
        at = run_of(text, at, set(b" \t\r\n"))
        if at == len(text):
            return found
        token = token_at(text, at)
        if token is None or len(found) == TOKEN_LIMIT:
            raise Refused(f"20 {at}")
        found.append(token)
        at = token[3]


# Types are tuples; terms are nodes with a span, a form and parts.

NUM, TEXT, UNIT = ("num",), ("text",), ("unit",)
BOOL = ("+", UNIT, UNIT)


def unlimited(a, b):
    return ("-o", ("!", INF, a), b)


class Node:
    def __init__(self, form, start, end, *parts):
        self.form, self.start, self.end, self.parts = form, start, end, parts

    def span(self):
        return f"{self.start} {self.end}"


class Parser:
    """Reads a term. What is read leaves its outer bounds, with parentheses, in `start` and `end`."""

    def __init__(self, tokens):
        self.tokens, self.at = tokens, 0

    def next(self):
        return self.tokens[self.at][0] if self.at < len(self.tokens) else None

    def take(self, *kinds):
        if self.next() not in kinds:
            raise Refused(f"21 {self.at}")
        self.at += 1
        self.end = self.tokens[self.at - 1][3]
        return self.tokens[self.at - 1][1]

    def begin(self):
        return self.tokens[self.at][2] if self.at < len(self.tokens) else 0

    def whole(self):
        term = self.term()
        if self.next() is not None:
            raise Refused(f"21 {self.at}")
        return term

    def term(self):
        start, kind = self.begin(), self.next()
        if kind in ("fun", "fn"):
            self.take(kind)
            self.take("(")
            name = self.take("name")
            self.take(":")
            written = self.written_type()
            self.take(")")
            self.take("=>")
            body = self.term()
            return Node(kind, start, self.end, name, written, body)
        if kind == "let":
            return self.binding(start)
        if kind == "case":
            self.take("case")
            parts = [self.term()]
            for before, side in (("of", "inl"), ("|", "inr")):
                self.take(before)
                self.take(side)
                parts.append(self.take("name"))
                self.take("=>")
                parts.append(self.term())
            return Node("case", start, self.end, *parts)
        if kind == "if":
            parts = []
            for word in ("if", "then", "else"):
                self.take(word)
                parts.append(self.term())
            return Node("if", start, self.end, *parts)
        return self.comparison()

    def binding(self, start):
        self.take("let")
        form, names = "let", []
        if self.next() == "!":
            self.take("!")
            form = "let!"
            names = [self.take("name")]
        elif self.next() == "(":
            self.take("(")
            form = "let,"
            names = [self.take("name")]
            self.take(",")
            names.append(self.take("name"))
            self.take(")")
        else:
            # Any of the three could stand here, so a wrong token is refused by the name that is missing.
            names = [self.take("name")]
        self.take("=")
        bound = self.term()
        self.take("in")
        body = self.term()
        return Node(form, start, self.end, *names, bound, body)

    def comparison(self):
        start = self.begin()
        left = self.addition()
        if self.next() in ("<=", "=="):
            sign = self.take("<=", "==")
            right = self.addition()
            return Node(sign, start, self.end, left, right)
        return left

    def addition(self):
        start = self.begin()
        left = self.multiplication()
        while self.next() in ("+", "-"):
            sign = self.take("+", "-")
            right = self.multiplication()
            left = Node(sign, start, self.end, left, right)
        return left

    def multiplication(self):
        start = self.begin()
        if self.next() == "-":
            self.take("-")
            number = -self.take("number")
            if self.next() != "*":
                return Node("number", start, self.end, number)
        elif self.next() == "number" and self.at + 1 < len(self.tokens) and self.tokens[self.at + 1][0] == "*":
            number = self.take("number")
        else:
            return self.application()
        self.take("*")
        factor = self.multiplication()
        return Node("*", start, self.end, number, factor)

    def application(self):
        start, kind = self.begin(), self.next()
        given = []
        if kind in ("fst", "snd", "size", "least", "greatest", "map", "filter", "split", "union"):
            self.take(kind)
        elif kind in ("sum", "clip"):
            self.take(kind)
            self.take("[")
            given.append(self.integer())
            self.take(",")
            given.append(self.integer())
            self.take("]")
        elif kind in ("inl", "inr"):
            self.take(kind)
            self.take("[")
            given.append(self.written_type())
            self.take("]")
        elif kind == "!":
            self.take("!")
            self.take("[")
            given.append(self.sensitivity())
            self.take("]")
        else:
            function = self.atom()
            while self.begins_atom():
                argument = self.atom()
                function = Node("apply", start, self.end, function, argument)
            return function
        for _ in range(2 if kind in ("map", "filter", "split", "union") else 1):
            given.append(self.atom())
        return Node(kind, start, self.end, *given)

    def begins_atom(self):
        return self.next() in ("name", "number", "quoted", "true", "false", "(", "<")

    def atom(self):
        start, kind = self.begin(), self.next()
        if not self.begins_atom():
            raise Refused(f"21 {self.at}")
        if kind in ("name", "number", "quoted"):
            value = self.take(kind)
            return Node("text" if kind == "quoted" else kind, start, self.end, value)
        if kind in ("true", "false"):
            self.take(kind)
            inner = Node("unit", start, self.end)
            return Node("inl" if kind == "true" else "inr", start, self.end, Node("type", start, self.end, UNIT), inner)
        if kind == "<":
            self.take("<")
            left = self.term()
            self.take(",")
            right = self.term()
            self.take(">")
            return Node("with", start, self.end, left, right)
        self.take("(")
        if self.next() == ")":
            self.take(")")
            return Node("unit", start, self.end)
        inner = self.term()
        if self.next() == ",":
            self.take(",")
            right = self.term()
            self.take(")")
            return Node("pair", start, self.end, inner, right)
        self.take(")")
        return inner

    def integer(self):
        if self.next() == "-":
            self.take("-")
            return -self.take("number")
        return self.take("number")

    def small(self):
        if self.next() == "number" and not 1 <= self.tokens[self.at][1] <= HALF:
            raise Refused(f"21 {self.at}")
        return self.take("number")

    def sensitivity(self):
        if self.next() == "inf":
            return self.take("inf")
        over = self.small()
        if self.next() == "/":
            self.take("/")
            return Fraction(over, self.small())
        return Fraction(over)

    # A type that is written in a term, with the span of it without parentheses around.
    def written_type(self):
        first = self.at
        value = self.arrow()
        first, last = self.inside(first, self.at - 1)
        return Node("type", self.tokens[first][2], self.tokens[last][3], value)

    def inside(self, first, last):
        """From which token to which a type goes without the parentheses around all of it, found by one look at each token."""
        ends, opened = {}, []
        for at in range(first, last + 1):
            if self.tokens[at][0] == "(":
                opened.append(at)
            elif self.tokens[at][0] == ")":
                ends[opened.pop()] = at
        while ends.get(first) == last:
            first, last = first + 1, last - 1
        return first, last

    def arrow(self):
        left = self.sum_type()
        if self.next() == "-o":
            self.take("-o")
            return ("-o", left, self.arrow())
        if self.next() == "->":
            self.take("->")
            return unlimited(left, self.arrow())
        return left

    def sum_type(self):
        left = self.product_type()
        if self.next() == "+":
            self.take("+")
            return ("+", left, self.sum_type())
        return left

    def product_type(self):
        left = self.prefix_type()
        if self.next() in ("*", "&"):
            sign = self.take("*", "&")
            return (sign, left, self.product_type())
        return left

    def prefix_type(self):
        kind = self.next()
        if kind == "!":
            self.take("!")
            self.take("[")
            r = self.sensitivity()
            self.take("]")
            return ("!", r, self.prefix_type())
        if kind == "bag":
            self.take("bag")
            return ("bag", self.prefix_type())
        if kind == "(":
            self.take("(")
            inner = self.arrow()
            self.take(")")
            return inner
        self.take("num", "text", "unit", "bool")
        return {"num": NUM, "text": TEXT, "unit": UNIT, "bool": BOOL}[kind]


def type_depth(t):
    return 1 + max([type_depth(x) for x in t[1:] if isinstance(x, tuple)], default=0)


def depth(node):
    if node.form == "type":
        return type_depth(node.parts[0])
    return 1 + max([depth(x) for x in node.parts if isinstance(x, Node)], default=0)


def read(text):
    term = Parser(tokens_of(text)).whole()
    if depth(term) > NEST_LIMIT:
        raise Refused(f"22 {depth(term)}")
    return term


# Types.


# A part that stands in a type many times is one tuple, so a type of a hundred parts may be of 2^60 where it is written out. Each part is looked at once,
# or each pair of parts.


def lacks(t, *forms):
    """Whether none of these forms is in a type."""
    seen, left = set(), [t]
    while left:
        one = left.pop()
        if id(one) in seen:
            continue
        if one[0] in forms:
            return False
        seen.add(id(one))
        left += [part for part in one[1:] if isinstance(part, tuple)]
    return True


def ground(t):
    return lacks(t, "-o")


def flat(t):
    return lacks(t, "-o", "bag")


def same(a, b):
    """Whether two types are equal."""
    seen, left = set(), [(a, b)]
    while left:
        a, b = left.pop()
        if a is b or (id(a), id(b)) in seen:
            continue
        if not (isinstance(a, tuple) and isinstance(b, tuple)):
            if a != b:
                return False
        elif len(a) != len(b):
            return False
        else:
            seen.add((id(a), id(b)))
            left += zip(a, b)
    return True


def well_formed(node):
    def visit(t):
        if t[0] == "+" and not (ground(t[1]) and ground(t[2])):
            raise Refused(f"30 notground {node.span()}")
        if t[0] == "bag" and not flat(t[1]):
            raise Refused(f"30 notflat {node.span()}")
        for x in t[1:]:
            if isinstance(x, tuple):
                visit(x)

    visit(node.parts[0])
    return node.parts[0]


# Sensitivities: a fraction, or INF. Each result is in range or raises.


class OutOfRange(Exception):
    pass


def in_range(x):
    if x != INF and (x.numerator > HALF or x.denominator > HALF):
        raise OutOfRange
    return x


def times(a, b):
    if a == 0 or b == 0:
        return Fraction(0)
    return INF if INF in (a, b) else in_range(a * b)


def plus(a, b):
    return INF if INF in (a, b) else in_range(a + b)


def greater(a, b):
    return INF if INF in (a, b) else max(a, b)


def at(uses, name):
    return uses.get(name, Fraction(0))


def without(uses, *names):
    return {name: r for name, r in uses.items() if name not in names}


def pointwise(f, a, b):
    return {name: f(at(a, name), at(b, name)) for name in a.keys() | b.keys()}


def scaled(r, uses):
    return {name: times(r, x) for name, x in uses.items()}


def added(a, b):
    return pointwise(plus, a, b)


def mismatch(node, found, wanted):
    refusal = Refused(f"30 mismatch {node.span()}")
    refusal.found, refusal.wanted = found, wanted
    return refusal


def want(node, found, wanted):
    if not same(found, wanted):
        raise mismatch(node, found, wanted)


def want_form(node, found, form):
    if found[0] != form:
        raise mismatch(node, found, form)
    return found[1:]


# The function of a bag primitive: the element's type and the result's.
def want_unlimited(node, found):
    if found[0] != "-o" or found[1][0] != "!" or found[1][1] != INF:
        raise mismatch(node, found, "->")
    return found[1][2], found[2]


class Checker:
    def __init__(self, tables):
        self.tables = tables

    def check(self, node, scope):
        """The type of a term and what each of its names is used at."""
        rule = getattr(self, RULES[node.form])
        try:
            return rule(node, scope, *node.parts)
        except OutOfRange:
            raise Refused(f"32 {node.span()}") from None

    def name(self, node, scope, name):
        if name not in scope:
            raise Refused(f"30 unbound {node.span()}")
        return scope[name], {name: Fraction(1)}

    def leaf(self, node, scope, *_):
        return {"number": NUM, "text": TEXT, "unit": UNIT}[node.form], {}

    def pair(self, node, scope, a, b):
        (A, Da), (B, Db) = self.check(a, scope), self.check(b, scope)
        return ("*", A, B), added(Da, Db)

    def with_pair(self, node, scope, a, b):
        (A, Da), (B, Db) = self.check(a, scope), self.check(b, scope)
        return ("&", A, B), pointwise(greater, Da, Db)

    def projection(self, node, scope, e):
        E, De = self.check(e, scope)
        A, B = want_form(e, E, "&")
        return (A if node.form == "fst" else B), De

    def let_pair(self, node, scope, x, y, e, b):
        E, De = self.check(e, scope)
        A, B = want_form(e, E, "*")
        T, Db = self.check(b, {**scope, x: A, y: B})
        r = greater(at(Db, x), at(Db, y))
        return T, added(without(Db, x, y), scaled(r, De))

    def injection(self, node, scope, written, e):
        E, De = self.check(e, scope)
        T = well_formed(written)
        for part, t in ((written, T), (e, E)):
            if not ground(t):
                raise Refused(f"30 notground {part.span()}")
        return (("+", E, T) if node.form == "inl" else ("+", T, E)), De

    def case(self, node, scope, e, x, a, y, b):
        E, De = self.check(e, scope)
        A, B = want_form(e, E, "+")
        T, Da = self.check(a, {**scope, x: A})
        U, Db = self.check(b, {**scope, y: B})
        want(b, U, T)
        if not ground(T):
            raise Refused(f"30 notground {node.span()}")
        r = greater(at(Da, x), at(Db, y))
        both = pointwise(greater, without(Da, x), without(Db, y))
        return T, added(both, scaled(Fraction(1) if r == 0 else r, De))

    def choice(self, node, scope, e, a, b):
        E, De = self.check(e, scope)
        T, Da = self.check(a, scope)
        U, Db = self.check(b, scope)
        want(e, E, BOOL)
        want(b, U, T)
        if not ground(T):
            raise Refused(f"30 notground {node.span()}")
        return T, added(pointwise(greater, Da, Db), De)

    def function(self, node, scope, x, written, e):
        E, De = self.check(e, {**scope, x: written.parts[0]})
        T = well_formed(written)
        if node.form == "fn":
            return unlimited(T, E), without(De, x)
        r = at(De, x)
        if r == INF or r > 1:
            raise Refused(f"31 {node.span()} {sensitivity_text(r)}")
        return ("-o", T, E), without(De, x)

    def apply(self, node, scope, f, a):
        (F, Df), (A, Da) = self.check(f, scope), self.check(a, scope)
        wanted, T = want_form(f, F, "-o")
        want(a, A, wanted)
        return T, added(Df, Da)

    def bang(self, node, scope, r, e):
        E, De = self.check(e, scope)
        return ("!", r, E), scaled(r, De)

    def let_bang(self, node, scope, x, e, b):
        E, De = self.check(e, scope)
        s, A = want_form(e, E, "!")
        T, Db = self.check(b, {**scope, x: A})
        t = at(Db, x)
        if s == INF:
            k = Fraction(0 if t == 0 else 1)
        else:
            k = INF if t == INF else in_range(t / s)
        return T, added(without(Db, x), scaled(k, De))

    def let(self, node, scope, x, e, b):
        E, De = self.check(e, scope)
        T, Db = self.check(b, {**scope, x: E})
        return T, added(without(Db, x), scaled(at(Db, x), De))

    def sum_of_numbers(self, node, scope, a, b):
        (A, Da), (B, Db) = self.check(a, scope), self.check(b, scope)
        want(a, A, NUM)
        want(b, B, NUM)
        return NUM, added(Da, Db)

    def multiple(self, node, scope, k, e):
        E, De = self.check(e, scope)
        want(e, E, NUM)
        return NUM, scaled(in_range(Fraction(abs(k))), De)

    def at_most(self, node, scope, a, b):
        (A, Da), (B, Db) = self.check(a, scope), self.check(b, scope)
        want(a, A, NUM)
        want(b, B, NUM)
        return BOOL, added(scaled(INF, Da), scaled(INF, Db))

    def equal(self, node, scope, a, b):
        (A, Da), (B, Db) = self.check(a, scope), self.check(b, scope)
        if A not in (NUM, TEXT):
            raise mismatch(a, A, "number or text")
        want(b, B, A)
        r = INF if A == NUM else Fraction(1)
        return BOOL, added(scaled(r, Da), scaled(r, Db))

    def clip(self, node, scope, low, high, e):
        E, De = self.check(e, scope)
        want(e, E, NUM)
        return NUM, De

    def extreme(self, node, scope, e):
        E, De = self.check(e, scope)
        want(e, E, ("&", NUM, NUM))
        return NUM, De

    def size(self, node, scope, e):
        E, De = self.check(e, scope)
        want_form(e, E, "bag")
        return NUM, De

    def clipped_sum(self, node, scope, low, high, e):
        E, De = self.check(e, scope)
        want(e, E, ("bag", NUM))
        return NUM, scaled(in_range(Fraction(max(abs(low), abs(high)))), De)

    def union(self, node, scope, a, b):
        (A, Da), (B, Db) = self.check(a, scope), self.check(b, scope)
        want_form(a, A, "bag")
        want(b, B, A)
        return A, added(Da, Db)

    def over_bag(self, node, scope, f, b):
        (F, Df), (B, Db) = self.check(f, scope), self.check(b, scope)
        element, T = want_unlimited(f, F)
        if node.form == "map":
            if not flat(T):
                raise Refused(f"30 notflat {f.span()}")
        else:
            want(f, F, unlimited(element, BOOL))
        want(b, B, ("bag", element))
        result = {"map": ("bag", T), "filter": B, "split": ("*", B, B)}[node.form]
        return result, added(scaled(INF, Df), Db)

    def program(self, node):
        T, uses = self.check(node, dict(self.tables))
        for table, _ in self.tables:
            if at(uses, table) == INF:
                raise Refused(f"33 {table}")
        if T != NUM:
            raise Refused("34")
        return max([at(uses, table) for table, _ in self.tables], default=Fraction(0))


RULES = {
    "name": "name", "number": "leaf", "text": "leaf", "unit": "leaf", "pair": "pair", "with": "with_pair",
    "fst": "projection", "snd": "projection", "let,": "let_pair", "inl": "injection", "inr": "injection", "case": "case",
    "if": "choice", "fun": "function", "fn": "function", "apply": "apply", "!": "bang", "let!": "let_bang", "let": "let",
    "+": "sum_of_numbers", "-": "sum_of_numbers", "*": "multiple", "<=": "at_most", "==": "equal", "clip": "clip",
    "least": "extreme", "greatest": "extreme", "size": "size", "sum": "clipped_sum", "union": "union", "map": "over_bag",
    "filter": "over_bag", "split": "over_bag",
}  # fmt: skip

PEOPLE = [("people", ("bag", NUM))]


def sensitivity_text(r):
    if r == INF:
        return "inf"
    return str(r.numerator) if r.denominator == 1 else f"{r.numerator}/{r.denominator}"


def deep(call):
    """Makes a call with room for thousands of parentheses. A call that was made so has the room for those within it."""
    if threading.current_thread().name == "deep":
        return call()
    result = []

    def run():
        try:
            result.append((call(), None))
        except BaseException as fault:
            result.append((None, fault))

    sys.setrecursionlimit(200_000)
    thread, size = threading.Thread(target=run, name="deep"), threading.stack_size(512 * 2**20)
    try:
        thread.start()
    finally:
        threading.stack_size(size)
    thread.join()
    value, fault = result[0]
    if fault is not None:
        raise fault
    return value


def checked(text, tables=PEOPLE):
    """The term and its sensitivity, or a refusal."""

    def call():
        term = read(text)
        return term, Checker(tables).program(term)

    return deep(call)
