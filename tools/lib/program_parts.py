"""What is said of a refused program's parts: places in its text, types in words, and the types that its parts have.

    Text(BYTES)                    `marked`: the line of a span with a mark below it; `of`: a span's words
    House(CATALOG, OWNER)          the tables that a program sees, and types in words; a part shows its partition's table alone
    Refusal(HOUSE, BYTES, ..)      a program with the words of its refusal
    place_of(REFUSAL)              the span that is marked
    traced(REFUSAL, TERM)          the types of a term's parts, as far as the refused one
"""
from lines import harmless
from programs import BOOL, INF, NUM, TEXT, UNIT, Checker, Node, Refused, at, deep, sensitivity_text, tokens_of
from tables import row_type, signature

WIDTH = 100


# The program's text, and places in it.


class Text:
    def __init__(self, data):
        self.data = data

    def marked(self, start, end):
        """The line in which a span begins, with a mark below it; of a long line the part around the mark."""
        begin = self.data.rfind(b"\n", 0, start) + 1
        stop = self.data.find(b"\n", start)
        stop = len(self.data) if stop < 0 else stop
        before, inside, after = (shown(self.data[a:b]) for a, b in ((begin, start), (start, min(end, stop)), (max(start, min(end, stop)), stop)))
        if len(before) > WIDTH // 2:
            before = ".. " + before[-WIDTH // 2 :]
        if len(inside) > WIDTH:
            inside, after = inside[:WIDTH], " .."
        after = after if len(after) <= WIDTH // 2 else after[: WIDTH // 2] + " .."
        line = 1 + self.data.count(b"\n", 0, start)
        last = 1 + self.data.count(b"\n", 0, max(start, end - 1))
        where = f"line {line}" if last == line else f"line {line}, to line {last}"
        return f"{where}:\n    {before}{inside}{after}\n    {' ' * len(before)}{'^' * max(1, len(inside))}"

    def of(self, start, end):
        return " ".join(shown(self.data[start:end]).split())


def shown(data):
    return harmless(data.decode(errors="backslashreplace").replace("\t", " ").replace("\r", " "))


# Types, as they are written and in words. Their parts are shared, so one may have 2^60 when it is written out: `..` stands for what is left out.

LONGEST = 600


def joined(t, pieces_of):
    """The words of a type, whose pieces are words, and its parts as tuples."""
    text, left = "", [t]
    while left and len(text) < LONGEST:
        piece = left.pop()
        if isinstance(piece, str):
            text += piece
        else:
            left += reversed(pieces_of(*piece))
    return f"{text.rstrip()} .." if left else text


def type_text(t, around=0):
    """A type as a program writes it. `around` is how strongly what stands around it holds: 1 an arrow's left side, 2 a sum's, 3 a product's."""
    return joined((t, around), written_pieces)


def written_pieces(t, around):
    if t == BOOL:
        return ["bool"]
    if len(t) == 1:
        return [t[0]]
    if t[0] == "bag":
        return ["bag ", (t[1], 4)]
    if t[0] == "!":
        return [f"![{sensitivity_text(t[1])}] ", (t[2], 4)]
    sign, left = t[0], t[1]
    if sign == "-o" and left[0] == "!" and left[1] == INF:
        sign, left = "->", left[2]
    strength = {"-o": 0, "->": 0, "+": 1, "*": 2, "&": 2}[sign]
    pieces = [(left, strength + 1), f" {sign} ", (t[2], strength)]
    return ["(", *pieces, ")"] if around > strength else pieces


FORMS = {
    "&": "a pair `<a, b>`", "*": "a pair `(a, b)`", "+": "one of two, by `inl` or `inr`", "-o": "a function", "!": "a scaled value `![r] ..`",
    "bag": "a bag", "->": "a function made by `fn`", "number or text": "a number or a text",
}  # fmt: skip
PLAIN = {NUM: "a number", TEXT: "a text", UNIT: "`()`", BOOL: "true or false"}


class House:
    """The catalog, and the owner whose tables a program sees: all of them, or where a part is asked its partition's alone."""

    def __init__(self, catalog, owner, partition=None):
        shown_tables = [table for table in owner["tables"] if partition is None or table["name"] == partition["table"]]
        self.catalog, self.partition, self.hidden = catalog, partition, [table["name"] for table in owner["tables"] if table not in shown_tables]
        self.owner = {**owner, "tables": shown_tables}
        self.tables = signature(self.owner)

    def shown_alone(self):
        """Of a part."""
        return f"A part of `{self.partition['name']}` shows the table `{self.tables[0][0]}` alone."

    def in_words(self, t):
        return joined((t,), self.pieces)

    def pieces(self, t):
        if len(t) == 1 or t == BOOL:
            return [PLAIN[t]]
        for table in self.owner["tables"]:
            if len(table["columns"]) > 1 and t == row_type(table["columns"]):
                return [f"a row of {table['name']} ({', '.join(column['name'] for column in table['columns'])})"]
        if t[0] in ("*", "&"):
            return [f"{FORMS[t[0]]} of ", (t[1],), " and ", (t[2],)]
        if t[0] == "+":
            return ["one of two: ", (t[1],), " on the left, or ", (t[2],), " on the right"]
        if t[0] == "bag":
            return ["a bag, each element of it ", (t[1],)]
        if t[0] == "!":
            return [(t[2],), f", for {'any use' if t[1] == INF else 'uses of ' + sensitivity_text(t[1]) + ' in all'}"]
        if t[1][0] == "!" and t[1][1] == INF:
            return ["a function made by `fn`, from ", (t[1][2],), " to ", (t[2],)]
        return ["a function made by `fun`, from ", (t[1],), " to ", (t[2],)]

    def told(self, t):
        return FORMS[t] if isinstance(t, str) else f"{self.in_words(t)}: `{type_text(t)}`"


# Terms.


def children(node):
    return [part for part in node.parts if isinstance(part, Node)]


def with_parents(node, parent=None):
    yield node, parent
    for child in children(node):
        yield from with_parents(child, node)


def traced(refusal, term):
    """The types and scopes of the term's parts, as far as the refused part."""
    tracing = Tracing(refusal.house.tables)
    try:
        deep(lambda: tracing.program(term))
    except Refused:
        pass
    return tracing


def parents_of(term, node):
    """What a part is a part of, the innermost first."""
    above = dict(with_parents(term))
    while (node := above[node]) is not None:
        yield node


def found_at(term, start, end):
    """The outermost part with this span, and what it is a part of."""
    return next(pair for pair in with_parents(term) if (pair[0].start, pair[0].end) == (start, end))


class Tracing(Checker):
    """Keeps the type of each part and what it uses."""

    def __init__(self, tables):
        super().__init__(tables)
        self.uses, self.types, self.scopes = {}, {}, {}

    def check(self, node, scope):
        self.scopes[node] = scope
        self.types[node], self.uses[node] = super().check(node, scope)
        return self.types[node], self.uses[node]

    def use(self, node, name):
        return at(self.uses[node], name) if node in self.uses else 0

    def culprit(self, node, name):
        """The part because of which the name is used at inf, and what the name is called there."""
        for part, known_as in self.below(node, name):
            if self.use(part, known_as) == INF:
                return self.culprit(part, known_as)
        return node, name

    def below(self, node, name):
        """The parts of a part, each with what stands there for the name: a name that is bound to what uses it comes behind."""
        if node.form in ("fun", "fn"):
            return [(node.parts[2], name)]
        if node.form == "case":
            e, x, a, y, b = node.parts
            return [(e, name), (a, name), (b, name)] + ([(a, x), (b, y)] if self.use(e, name) else [])
        if node.form in ("let", "let!", "let,"):
            *names, e, b = node.parts
            return [(e, name)] + ([(b, name)] if name not in names else []) + ([(b, x) for x in names] if self.use(e, name) else [])
        return [(child, name) for child in children(node)]


class Refusal:
    def __init__(self, house, data, words, exception):
        self.house, self.data, self.words, self.exception = house, data, words, exception
        self.text = Text(data)

    def numbers(self):
        return [int(word) for word in self.words if word.isdigit()]


def place_of(refusal):
    """The span that is marked, or nothing."""
    code, numbers = refusal.words[0], refusal.numbers()
    if code == "20":
        begun = refusal.data[numbers[1] :]
        return numbers[1], numbers[1] + 1 + len(begun[1:]) - len(begun[1:].lstrip(bytes(range(0x80, 0xC0))))
    if code == "21":
        tokens = tokens_of(refusal.data)
        end = len(refusal.data.rstrip(b" \t\r\n"))
        return tokens[numbers[1]][2:4] if numbers[1] < len(tokens) else (end, end + 1)
    return tuple(numbers[1:3]) if code in ("30", "31", "32", "35", "36", "37") else None
