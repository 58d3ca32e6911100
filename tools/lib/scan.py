"""A table's file looked at as a whole and fast: every fault of it by column with counts, and what texts stand in it.

    scan(BYTES, COLUMNS, KEYS, TOLD)   a Survey; KEYS has sets of texts by a column's number, TOLD is told how many rows were read

The rules are those of tables.py, which reads a file up to its first fault; `Survey.first` is that fault. Rows that are plain and right are
taken by one regular expression, many at a time; what it doesn't match is read by Python's csv, whose records are the same.
"""
import csv
import re
import sys
from collections import Counter
from itertools import islice

from bounds import KEY_BYTES, ROW_LIMIT, TEXT_LIMIT
from catalog import is_key
from tables import BYTE_ORDER_MARK, cell_of, shown

BLOCK = 2**20
MOST = 2**14
KEPT = 10_000
POSSESSIVE = "+" if sys.version_info >= (3, 11) else ""
# Of a cell: nobody writes it in a program, since it has a quote or a control byte. Of a key: it has a blank or a control byte.
NO_QUOTED, BLANK = re.compile(r'[\x00-\x1f"\x7f]'), re.compile(r"[\x00-\x20\x7f]")
QUOTED, PLAIN = re.compile(r'"(?:[^"]+|"")*("|\Z)'), re.compile(r"[^,\r\n]*")
LINE = re.compile(r"[^\r\n]*(?:\r\n|\r|\n)|[^\r\n]+\Z")
SHORT, WHOLE = re.compile(r"-?[0-9]{1,15}"), re.compile(r"-?[0-9]+")
NUMBERS = re.compile(r"(?:-?[0-9]{1,15}\n)*" + POSSESSIVE + r"-?[0-9]{1,15}")
ROW_FORMS = {
    "text": r'(?:[^,"\r\n]{0,%d}|"[^,"\r\n]{0,%d}")' % (TEXT_LIMIT, TEXT_LIMIT),
    "num": r'(?:-?[0-9]{1,15}|"-?[0-9]{1,15}")',
}


def raw(text):
    return text.encode("latin-1")


class Fault:
    """A fault with its place: a BadTable's kind and words; the line from 1, the row after the header from 0, the column's number."""

    def __init__(self, kind, why, line, row=None, column=None):
        self.kind, self.why, self.line, self.row, self.column = kind, why, line, row, column

    def __str__(self):
        row = "" if self.row is None else f", row {self.row} (the first is 0)"
        column = "" if self.column is None else f", column {self.column}"
        return f"line {self.line}{row}{column}: {self.why}"


class Tally:
    """Texts with how often each stands there and the line of the first; of very many different ones the number of all alone is kept."""

    def __init__(self):
        self.counts, self.lines, self.cells = Counter(), {}, 0

    def add(self, text, line, count=1):
        self.cells += count
        if text in self.counts or len(self.counts) < KEPT:
            self.counts[text] += count
            self.lines.setdefault(text, line)

    def add_all(self, counts, column, lines):
        """Texts of a column with how often they stand there."""
        if len(self.counts) == KEPT:
            self.cells += sum(counts.values())
            for text in counts.keys() & self.counts.keys():
                self.counts[text] += counts[text]
            return
        first = first_lines(column, lines, counts.keys() - self.lines.keys())
        for text, count in counts.items():
            self.add(text, first.get(text), count)

    def texts(self):
        return f"over {KEPT}" if len(self.counts) == KEPT and sum(self.counts.values()) < self.cells else str(len(self.counts))


class Survey:
    """What was found of a table: `rows` after the header, `first` fault or nothing, cells that are no number or no text (`bad`, by a
    column's number and why), `widths` of rows that have too few fields or too many, `texts` and the first lines of those in no key (`lost`)
    by a column's number, `unquotable` texts and `unkeyed` ones, and the line of a quote that is `unclosed`."""

    def __init__(self, columns, keys):
        self.columns, self.keys = columns, keys
        self.rows, self.first, self.header, self.unclosed, self.marks = 0, None, None, None, 0
        self.bad, self.widths = {}, {}
        self.texts = {number: Counter() for number in keys}
        self.lost = {number: {} for number in keys}
        self.unquotable, self.unkeyed = ({number: Tally() for number, one in enumerate(columns) if one["type"] == "text"} for _ in range(2))

    def fault(self, *fault):
        """Keeps the first fault in the file's order: of a row its form comes before its cells, and these before the number of rows."""
        found = Fault(*fault)
        place = (found.row, -1 if found.kind == "BadRecord" else found.column if found.column is not None else len(self.columns))
        if self.first is None or place < self.place:
            self.first, self.place = found, place


class Reader:
    """The records from a place on, with the line of each, by Python's csv. The last one that was read begins at `begun` and ends at `at`."""

    def __init__(self, text, at):
        self.text, self.at, self.begun = text, at, at
        self.records = csv.reader(self.lines())

    def lines(self):
        for line in LINE.finditer(self.text, self.at):
            self.at = line.end()
            yield line[0]

    def take(self, count, line):
        """So many records, each with its line, this one being that of the reader's first; an empty line is no record."""
        found, lines = [], []
        end, before = self.at, self.records.line_num
        for fields in islice(self.records, count):
            if fields:
                found.append(fields)
                lines.append(line + before)
            self.begun, end, before = end, self.at, self.records.line_num
        return found, lines

    def ends_open(self):
        """Whether the last record ends with the file, in a field in quotes that nothing closes."""
        at, record = 0, self.text[self.begun :] if self.at == len(self.text) else ""
        while at < len(record):
            quoted = QUOTED.match(record, at)
            if quoted and quoted[1] == "":
                return True
            at = PLAIN.match(record, quoted.end() if quoted else at).end() + 1
        return False


def why_no_cell(cell, kind):
    """Why a cell is none of its column's kind, or nothing where it is one."""
    if kind == "text":
        return f"over {TEXT_LIMIT} bytes" if len(cell) > TEXT_LIMIT else None
    if SHORT.fullmatch(cell):
        return None
    if not WHOLE.fullmatch(cell):
        return "no whole number" if cell else "empty"
    return "out of range" if cell_of(raw(cell), kind)[1] else None


def all_right(column, kind):
    """Whether each cell of a column is one of its kind."""
    if kind == "text":
        return max(map(len, column), default=0) <= TEXT_LIMIT
    joined = "\n".join(column)
    # A number in quotes that has a line end in it would pass for two.
    return NUMBERS.fullmatch(joined) is not None and joined.count("\n") < len(column)


class Scan:
    def __init__(self, text, columns, keys, told):
        self.text, self.columns, self.told = text, columns, told
        self.found = Survey(columns, keys)
        self.kinds = [column["type"] for column in columns]
        row = ",".join(ROW_FORMS[kind] for kind in self.kinds)
        self.rows = re.compile(f"(?:{row}\\r?\\n)*{POSSESSIVE}")

    def plain(self, at, line):
        """Takes rows that are plain and right from a place on, and says where they end and how many there were."""
        end = self.rows.match(self.text, at, min(len(self.text), at + BLOCK)).end()
        # A line of nothing is a row for the expression where there is one column of texts, and none for the rules.
        block = self.text[at:end]
        if self.kinds == ["text"] and re.search(r"(?:\A|\n)\r?\n", block):
            end = at + re.search(r"(?:\A|\n)(?=\r?\n)", block).end()
            block = self.text[at:end]
        if end == at:
            return end, 0
        cells = block.replace("\r", "").replace('"', "").replace("\n", ",").split(",")
        cells.pop()
        width, count = len(self.kinds), block.count("\n")
        for number in self.found.unquotable:
            self.take_column(number, cells[number::width], range(line, line + count))
        self.found.rows += count
        return end, count

    def take_column(self, number, column, lines):
        """What is said of texts, of a column of right ones."""
        found = self.found
        if number in found.keys:
            found.texts[number].update(column)
            strange = set(column) - found.keys[number] - found.lost[number].keys()
            if strange:
                found.lost[number].update(first_lines(column, lines, strange))
        joined = "a".join(column)
        if BLANK.search(joined) or '"' in joined or not joined.isascii() or "" in column:
            counts = Counter(column)
            found.unquotable[number].add_all({text: count for text, count in counts.items() if NO_QUOTED.search(text)}, column, lines)
            found.unkeyed[number].add_all({text: count for text, count in counts.items() if why_no_key(text)}, column, lines)

    def others(self, count, at, line):
        """Reads so many records from a place on, whatever they are, and says where they end and in which line."""
        reader = Reader(self.text, at)
        records, lines = reader.take(count, line)
        width, first = len(self.kinds), self.found.rows
        rows = list(range(first, first + len(records)))
        self.found.rows += len(records)
        if not set(map(len, records)) <= {width}:
            even = [k for k, record in enumerate(records) if len(record) == width]
            for k, record in enumerate(records):
                if len(record) != width:
                    self.uneven(record, lines[k], rows[k])
            records, lines, rows = ([held[k] for k in even] for held in (records, lines, rows))
        for number, kind in enumerate(self.kinds):
            column = [record[number] for record in records]
            if not all_right(column, kind):
                self.cells(column, number, kind, lines, rows)
        self.short_texts(records, lines)
        if reader.ends_open():
            self.found.unclosed = lines_before_end(reader, line)
        return reader.at, line + reader.records.line_num

    def short_texts(self, records, lines):
        """What is said of texts, of records of which some may have a text that is too long: that is none."""
        for number in self.found.unquotable:
            column, at = [record[number] for record in records], lines
            if max(map(len, column), default=0) > TEXT_LIMIT:
                kept = [k for k, text in enumerate(column) if len(text) <= TEXT_LIMIT]
                column, at = [column[k] for k in kept], [lines[k] for k in kept]
            self.take_column(number, column, at)

    def uneven(self, record, line, row):
        over = over_lines(",".join(record), line)
        self.found.fault("BadRecord", f"the row has {len(record)} fields, and the header {len(self.kinds)}{over}", line, row)
        count, first = self.found.widths.get(len(record), (0, line))
        self.found.widths[len(record)] = count + 1, first

    def cells(self, column, number, kind, lines, rows):
        """Keeps what is wrong with the cells of a column."""
        wrong = {}
        for k, cell in enumerate(column):
            named = why_no_cell(cell, kind)
            if named:
                wrong.setdefault(named, []).append(k)
        for named, places in wrong.items():
            first = places[0]
            why = cell_of(raw(column[first]), kind)[1]
            said = f"{self.columns[number]['name']} is {shown(raw(column[first]))[:80]!r}: {why}{over_lines(column[first], lines[first])}"
            self.found.fault("BadCell", said, lines[first], rows[first], number)
            bad, at = [column[k][:200] for k in places], [lines[k] for k in places]
            self.found.bad.setdefault((number, named), Tally()).add_all(Counter(bad), bad, at)

    def run(self):
        at, line = self.header()
        if self.found.first:
            return self.found
        batch = 16
        while at < len(self.text):
            end, count = self.plain(at, line)
            line += count
            batch = 16 if count > 64 else min(2 * batch, MOST)
            at, line = (end, line) if count > 64 else self.others(batch, end, line)
            self.told(self.found.rows)
        if self.found.rows > ROW_LIMIT:
            self.found.fault("TooManyRows", f"there are over {ROW_LIMIT} rows (2^20)", self.line_of_row(ROW_LIMIT), ROW_LIMIT)
        return self.found

    def header(self):
        """Reads the header, and says where it ends and the line after it."""
        reader = Reader(self.text, 0)
        fields, line = [], 1
        while not fields and reader.at < len(self.text):
            records, lines = reader.take(1, 1)
            fields, line = (records[0], lines[0]) if records else ([], line)
        names = [column["name"].encode() for column in self.columns]
        found = [raw(field) for field in fields]
        if found != names:
            why = f"the header is {shown(b','.join(found))!r}, and the catalog's columns are {shown(b','.join(names))!r}"
            self.found.fault("BadHeader", why + over_lines(",".join(fields), line), line)
            self.found.header = found
        if reader.ends_open():
            self.found.unclosed = lines_before_end(reader, 1)
        return reader.at, 1 + reader.records.line_num

    def line_of_row(self, row):
        """The line of a row, looked for from the file's beginning."""
        reader, passed = Reader(self.text, 0), 0
        while True:
            _, lines = reader.take(MOST, 1)
            # The header is a record, too.
            if row + 1 < passed + len(lines):
                return lines[row + 1 - passed]
            passed += len(lines)


def first_lines(column, lines, texts):
    """The line of the first of each of these texts."""
    first = {}
    for text, line in zip(column, lines):
        if text in texts:
            first.setdefault(text, line)
    return first


def lines_before_end(reader, line):
    """The line in which the last record begins that was read."""
    return line + reader.records.line_num - len(LINE.findall(reader.text, reader.begun))


def over_lines(cell, line):
    """What is said next to a cell that goes over several lines, which is mostly a quote that nobody closed."""
    ends = len(re.findall(r"\r\n|\r|\n", cell))
    return f" (it goes from line {line} to line {line + ends}: is a `\"` there that isn't closed?)" if ends else ""


def why_no_key(text):
    """Why a right text can't be a key, or nothing where it can."""
    if text == "":
        return "empty"
    if BLANK.search(text):
        return "a blank" if " " in text else "a control byte"
    if not text.isascii():
        try:
            return None if is_key(raw(text).decode()) else f"over {KEY_BYTES} bytes"
        except UnicodeDecodeError:
            return "not UTF-8"
    return None


def scan(data, columns, keys=(), told=lambda rows: None):
    csv.field_size_limit(2**31 - 1)
    marks = 0
    while marks < 2 and data.startswith(BYTE_ORDER_MARK, 3 * marks):
        marks += 1
    wanted = {number: {key.encode().decode("latin-1") for key in texts} for number, texts in dict(keys).items()}
    text = data[3 * marks :].decode("latin-1")
    # Before 3.11 Python's csv reads no NUL. What is said of it holds of any control byte.
    found = Scan(text if sys.version_info >= (3, 11) else text.replace("\0", "\1"), columns, wanted, told).run()
    found.marks = marks
    return found
