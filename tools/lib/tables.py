"""Table files read once more, and what programs see of an owner's tables.

    rows_of(BYTES, COLUMNS)       the rows of a table file, as programs have them; BadTable, with why and where, else
    signature(OWNER)              the owner's tables as programs.py takes them: names with the types of their bags
    held(OWNER, READ)             each table's rows by its name, READ giving a file's bytes by its name

It shares nothing with the server but the rules. Columns and owners are as catalog.py reads them. A row of several columns is
pairs in pairs, the first column next to the rest; a cell of text is bytes.
"""
import re

from bounds import NUMBER_LIMIT, ROW_LIMIT, TEXT_LIMIT
from programs import NUM, TEXT

BYTE_ORDER_MARK = b"\xef\xbb\xbf"
TYPES = {"num": NUM, "text": TEXT}


class BadTable(Exception):
    """kind is BadHeader, BadRecord, BadCell or TooManyRows; row counts from 0 after the header, line from 1 in the file."""

    def __init__(self, kind, why, line, row=None, column=None):
        super().__init__(why)
        self.kind, self.why, self.line, self.row, self.column = kind, why, line, row, column


# CSV: commas part fields, CR or LF ends a record, empty lines are none. A field may stand in quotes, which stand twice inside.

PLAIN, QUOTED = re.compile(rb"[^,\r\n]*"), re.compile(rb'"((?:[^"]|"")*)("|\Z)')


def field_at(data, at):
    """The field there, and where it ends. After the closing quote it goes on as a plain one."""
    quoted = QUOTED.match(data, at)
    inside = quoted[1].replace(b'""', b'"') if quoted else b""
    plain = PLAIN.match(data, quoted.end() if quoted else at)
    return inside + plain[0], plain.end()


def records_of(data):
    """The records, each with the place at which it begins."""
    at = len(BYTE_ORDER_MARK) if data.startswith(BYTE_ORDER_MARK) else 0
    begun, fields = at, []
    while at < len(data) or fields:
        if not fields and data[at : at + 1] in (b"\r", b"\n"):
            at += 1
            begun = at
            continue
        field, at = field_at(data, at)
        fields.append(field)
        if data[at : at + 1] == b",":
            at += 1
        else:
            yield begun, fields
            begun, fields = at, []


def cell_of(data, kind):
    """A cell's value and None, or None and why it is none."""
    if kind == "text":
        return (data, None) if len(data) <= TEXT_LIMIT else (None, f"it has {len(data)} bytes, and a text has at most {TEXT_LIMIT}")
    if not re.fullmatch(rb"-?[0-9]+", data):
        return None, "a whole number is wanted: digits, perhaps after a minus, without blanks, points or a plus sign"
    # So many digits are over the limit whatever they are; Python doesn't read some thousand digits.
    digits = data.lstrip(b"-").lstrip(b"0") or b"0"
    if len(digits) > 16 or int(digits) > NUMBER_LIMIT:
        return None, f"a number is within -{NUMBER_LIMIT} and {NUMBER_LIMIT} (2^50)"
    return int(digits) * (-1 if data.startswith(b"-") else 1), None


def line_at(data, place):
    return 1 + len(re.findall(rb"\r\n|\r|\n", data[:place]))


def shown(data):
    return data.decode(errors="backslashreplace")


def row_of(fields, columns, line, row):
    if len(fields) != len(columns):
        raise BadTable("BadRecord", f"the row has {len(fields)} fields, and the header {len(columns)}", line(), row)
    cells = []
    for number, (field, column) in enumerate(zip(fields, columns)):
        cell, why = cell_of(field, column["type"])
        if why:
            raise BadTable("BadCell", f"{column['name']} is {shown(field)[:80]!r}: {why}", line(), row, number)
        cells.append(cell)
    if row == ROW_LIMIT:
        raise BadTable("TooManyRows", f"there are over {ROW_LIMIT} rows (2^20)", line(), row)
    return nested(cells, tuple)


def rows_of(data, columns):
    data = data.removeprefix(BYTE_ORDER_MARK)
    records = records_of(data)
    names = [column["name"].encode() for column in columns]
    begun, header = next(records, (0, []))
    if header != names:
        why = f"the header is {shown(b','.join(header))!r}, and the catalog's columns are {shown(b','.join(names))!r}"
        raise BadTable("BadHeader", why, line_at(data, begun))
    return [row_of(fields, columns, lambda: line_at(data, begun), row) for row, (begun, fields) in enumerate(records)]


def nested(parts, join):
    """Parts as pairs in pairs: the first one next to the rest."""
    made = parts[-1]
    for part in reversed(parts[:-1]):
        made = join((part, made))
    return made


def cells(row, columns):
    """The cells of a row, which is nested pairs."""
    found = []
    for _ in range(columns - 1):
        first, row = row
        found.append(first)
    return found + [row]


def row_type(columns):
    return nested([TYPES[column["type"]] for column in columns], lambda pair: ("*", *pair))


def signature(owner):
    return [(table["name"], ("bag", row_type(table["columns"]))) for table in owner["tables"]]


def held(owner, read):
    return {table["name"]: rows_of(read(table["file"]), table["columns"]) for table in owner["tables"]}
