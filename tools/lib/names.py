"""Columns by their names: programs with `row TABLE` for the type of a row and `p.COLUMN` for a column of it, written out to the language.

    written(PROGRAM, TABLES)      a Written: the program as it is sent, and the places of its parts in what the analyst wrote

The row is bound by `fn (p : row people) => ..` or `fun (p : row people) => ..`. There the type is written out, and the row is taken apart right
after the `=>`, as far as the last column that is used; a column is then a name, its own where no other name of the program is alike. All else is
left as it stands, and a program without such types is sent as it is. TABLES are those of an owner by what tools/public gives.
"""
import lines
import program_parts
import programs
from bounds import NAME_BYTES, TOKEN_LIMIT

# A token that is sent comes of three at most, as a column's name of `p.age`.
MOST_TOKENS = 3 * TOKEN_LIMIT


class BadName(programs.Refused):
    """A column or a table that isn't there, or a name that is no row; `place` is where, in the analyst's text."""

    def __init__(self, why, place):
        super().__init__(why)
        self.place = place


class Written:
    """SENT is the program's bytes; a piece is (from, to) in it and (from, to) in SOURCE, what the analyst wrote."""

    def __init__(self, source, changes=()):
        self.source, self.pieces, sent, at = source, [], b"", 0
        for start, end, text in sorted(changes, key=lambda change: change[:2]):
            for piece, of in ((source[at:start], (at, start)), (text.encode(), (start, end))):
                self.pieces.append((len(sent), len(sent) + len(piece), *of))
                sent += piece
            at = end
        self.pieces.append((len(sent), len(sent) + len(source) - at, at, len(source)))
        self.sent = sent + source[at:]
        self.named = bool(changes)

    def place(self, start, end):
        """Where a span of what is sent stands in the analyst's text."""
        touched = [piece for piece in self.pieces if piece[0] < end and start < piece[1]] or [self.pieces[-1]]
        first, last = touched[0], touched[-1]
        begin = start - first[0] + first[2] if self.as_it_was(first) else first[2]
        stop = end - last[0] + last[2] if self.as_it_was(last) else last[3]
        return begin, max(stop, begin + 1)

    def as_it_was(self, piece):
        return self.source[piece[2] : piece[3]] == self.sent[piece[0] : piece[1]] or piece is self.pieces[-1]


class Places(program_parts.Text):
    """The analyst's text, marked at spans of what is sent."""

    def __init__(self, written):
        super().__init__(written.source)
        self.written = written

    def marked(self, start, end):
        return super().marked(*self.written.place(start, end))

    def of(self, start, end):
        return super().of(*self.written.place(start, end))


def known(name, names, what):
    """What is said of a name that isn't there."""
    said = lines.or_all(str(name).encode(), names, what)
    return said if said.endswith("?") else f"{said}."


# Tokens and terms: those of the language, with `.` and with columns whose names are words of the language.


def tokens_of(data):
    """The tokens, up to the first place where none begins, or where there are so many that what is sent has too many, too."""
    found, at = [], 0
    while True:
        at = programs.run_of(data, at, set(b" \t\r\n"))
        if at == len(data) or len(found) > MOST_TOKENS:
            return found
        token = (".", ".", at, at + 1) if data[at : at + 1] == b"." else programs.token_at(data, at)
        if token is None:
            return found
        if found and found[-1][0] == "." and token[0] in programs.WORDS:
            token = ("name", *token[1:])
        found.append(token)
        at = token[3]


class Reader(programs.Parser):
    """Reads terms with columns. Forms besides the language's: `column` with a row's name and a column's, and the type ("row", TABLE)."""

    def __init__(self, tokens):
        super().__init__(tokens)
        self.rows = []

    def atom(self):
        start = self.begin()
        node = super().atom()
        if self.next() != ".":
            return node
        if node.form != "name":
            raise programs.Refused(f"21 {self.at}")
        self.take(".")
        column = self.take("name")
        return programs.Node("column", start, self.end, node.parts[0], column)

    def prefix_type(self):
        if self.next() != "name" or self.tokens[self.at][1] != "row":
            return super().prefix_type()
        start = self.begin()
        self.take("name")
        table = self.take("name")
        alone = self.tokens[self.at - 3][0] in (":", "(") and self.next() == ")"
        self.rows.append((start, self.end, table, alone))
        return ("row", table)


# A row that is bound, and what is taken of it.


class Row:
    def __init__(self, name, table, body):
        self.name, self.table, self.body, self.whole, self.used = name, table, body, False, {}

    def place_of(self, column):
        return [one["name"] for one in self.table["columns"]].index(column)


class Scopes:
    """Finds what each name stands for: the rows that are bound, where their columns are used, and what is no row."""

    def __init__(self, tables):
        self.tables, self.rows = {table["name"]: table for table in tables}, []

    def visit(self, node, scope):
        if node.form in ("fun", "fn"):
            name, kind, body = node.parts
            self.visit(body, {**scope, name: self.row(name, kind, body)})
        elif node.form == "column":
            self.column(node, scope)
        elif node.form == "name":
            if scope.get(node.parts[0]):
                scope[node.parts[0]].whole = True
        elif node.form in ("let", "let!", "let,"):
            *names, bound, body = node.parts
            self.visit(bound, scope)
            self.visit(body, {**scope, **dict.fromkeys(names)})
        elif node.form == "case":
            bound, x, left, y, right = node.parts
            self.visit(bound, scope)
            self.visit(left, {**scope, x: None})
            self.visit(right, {**scope, y: None})
        else:
            for part in node.parts:
                if isinstance(part, programs.Node) and part.form != "type":
                    self.visit(part, scope)

    def row(self, name, kind, body):
        """The row that is bound where the written type is a row's, or nothing."""
        if kind.parts[0][0] != "row":
            return None
        self.rows.append(Row(name, self.tables[kind.parts[0][1]], body))
        return self.rows[-1]

    def column(self, node, scope):
        name, column = node.parts
        place = (node.start, node.end)
        row = scope.get(name)
        if row is None:
            raise BadName(f"`{name}` is no row here: `fn ({name} : row TABLE) => ..` or `fun ({name} : row TABLE) => ..` binds one.", place)
        names = [one["name"] for one in row.table["columns"]]
        if column not in names:
            raise BadName(f"`{row.table['name']}` has no column `{column}`: {known(column, names, 'it has')}", place)
        row.used.setdefault(column, []).append(place)


class Names:
    """Gives names that stand nowhere else in the program."""

    def __init__(self, taken):
        self.taken = set(taken) | programs.WORDS

    def new(self, wanted):
        found, number = wanted[:NAME_BYTES], 1
        while found in self.taken:
            number += 1
            found = f"{wanted[: NAME_BYTES - len(f'_{number}')]}_{number}"
        self.taken.add(found)
        return found


def type_text(table, alone):
    kinds = [column["type"] for column in table["columns"]]
    text = " * ".join(kinds)
    return text if alone or len(kinds) == 1 else f"({text})"


def taken_apart(row, names):
    """The changes for a row: what stands before its body, and a name for each use of a column."""
    count = len(row.table["columns"])
    if count == 1:
        return [(*place, row.name) for places in row.used.values() for place in places]
    known = {row.place_of(column): (names.new(column), places) for column, places in row.used.items()}
    rest, of, text = names.new(f"{row.name}_") if row.whole else row.name, row.name, ""
    blank = names.new("_") if any(place not in known for place in range(max(known, default=0))) else None
    for place in range(min(max(known, default=-1), count - 2) + 1):
        first = known[place][0] if place in known else blank
        second = known[count - 1][0] if place == count - 2 and count - 1 in known else rest
        text += f"let ({first}, {second}) = {of} in "
        of = rest
    changes = [(*place, name) for name, places in known.values() for place in places]
    return changes + ([(row.body.start, row.body.start, text)] if text else [])


def changes_of(term, rows, tokens, tables):
    by_name = {table["name"]: table for table in tables}
    for start, end, table, _ in rows:
        if table not in by_name:
            raise BadName(f"there is no table `{table}`: {known(table, list(by_name), 'there are')}", (start, end))
    scopes = Scopes(tables)
    scopes.visit(term, {})
    columns = [token[1] for before, token in zip([None, *tokens], tokens) if token[0] == "name" and not (before and before[0] == ".")]
    names = Names([*columns, *by_name])
    changes = [(start, end, type_text(by_name[table], alone)) for start, end, table, alone in rows]
    for row in scopes.rows:
        changes += taken_apart(row, names)
    return changes


def loosely(tokens, tables):
    """The changes of a text that is no term: types and columns alone, so that its first fault is where the analyst's is."""
    by_name, changes = {table["name"]: table for table in tables}, []
    for number, (kind, value, start, end) in enumerate(tokens):
        following = [*tokens[number + 1 : number + 3], (None,) * 4, (None,) * 4]
        if kind == "name" and value == "row" and number and tokens[number - 1][0] in (":", "bag", "*", "&", "]", "->", "-o") and following[0][1] in by_name:
            changes.append((start, following[0][3], type_text(by_name[following[0][1]], tokens[number - 1][0] == ":")))
        if kind == "name" and following[0][0] == "." and following[1][0] == "name":
            changes.append((start, following[1][3], value))
    return changes


def has_names(tokens):
    """Whether a row's type or a column stands there."""
    kinds = [token[:2] for token in tokens]
    return any(kind[0] == "." or (kind == ("name", "row") and after[0] == "name") for kind, after in zip(kinds, kinds[1:]))


def written(program, tables):
    """A Written of a program's text, or BadName. Where it is no term it is written out loosely, and refused as what is sent would be."""
    source = program.encode() if isinstance(program, str) else program
    tokens = tokens_of(source)
    if not has_names(tokens):
        return Written(source)
    whole = tokens and not source[tokens[-1][3] :].strip(b" \t\r\n")
    try:
        if not whole:
            raise programs.Refused("20")
        reader = Reader(tokens)
        term = programs.deep(reader.whole)
    except programs.Refused:
        return Written(source, loosely(tokens, tables))
    return Written(source, programs.deep(lambda: changes_of(term, reader.rows, tokens, tables)))
