"""What becomes of the cells of a raw column: a number or a text of the table, the row out, or a stop.

    reader_of(COLUMN)            a reader of cells by a column of a spec, as raw_spec.py has checked it
    Reader.judged(CELL, LINE)    what becomes of a cell, once for all cells alike: count, first line, what was found, value, fate
    NumberForm, DateForm         how numbers and dates are written; each reads a text, or gives nothing
    text_of, key_of              a text that a program can quote; a text that can be a key

A cell is trimmed, looked up in `map`, looked up among the missing ones, and read by its kind. Each cell is judged by itself: what
becomes of a row hangs on no other row.
"""
import datetime
import re
import unicodedata
from fractions import Fraction

from bounds import NUMBER_LIMIT
from tables import cell_of

CONTROL = re.compile("[\x00-\x1f\x7f-\x9f]+")
NO_KEY = re.compile("[\\s,\"\x00-\x20\x7f-\x9f]+")
BROKEN = re.compile("[\ud800-\udfff]")
# Blanks that offices put between thousands.
BLANKS = "[ \u00a0\u2009\u202f]"
CELL_LIMIT = 200
# The names of each month in English, French, German, Spanish, Italian, Portuguese and Dutch, without accents.
MONTHS = [
    "january janvier januar enero gennaio janeiro januari", "february fevrier februar febrero febbraio fevereiro februari",
    "march mars marz maerz marzo marco maart", "april avril abril aprile", "may mai mayo maggio maio mei",
    "june juin juni junio giugno junho", "july juillet juli julio luglio julho", "august aout agosto augustus",
    "september septembre septiembre settembre setembro", "october octobre oktober octubre ottobre outubro",
    "november novembre noviembre novembro", "december decembre dezember diciembre dicembre dezembro",
]  # fmt: skip
DATE_PARTS = {
    "YYYY": "(?P<year>[0-9]{4})", "YY": "(?P<year>[0-9]{2})", "MM": "(?P<month>[0-9]{1,2})",
    "DD": "(?P<day>[0-9]{1,2})", "Mon": r"(?P<month>[^\W\d_]{3,})\.?", "*": ".*",
}  # fmt: skip
EPOCH = datetime.date(1970, 1, 1)
EARLIEST = 1969
# What is found in a cell, and what becomes of its row.
READ, MISSING, BAD = "read", "missing", "bad"
KEPT, OUT, STOP = "kept", "row out", "stop"


class BadCell(Exception):
    """Why a cell isn't of its column's kind."""


def trimmed(text):
    """Without blanks at its ends, and with letters and their accents in one piece."""
    text = text.strip().strip("\ufeff")
    return text if text.isascii() else unicodedata.normalize("NFC", text)


# Numbers.


class NumberForm:
    """How a number is written: its decimal sign, the sign between thousands, other signs that are passed over, and (7) for -7."""

    def __init__(self, decimal=".", thousands="", strip="", parentheses=False):
        between = BLANKS if thousands == " " else re.escape(thousands)
        whole = f"[0-9]{{1,3}}(?:{between}[0-9]{{3}})+|[0-9]+" if thousands else "[0-9]+"
        self.form = re.compile(f"([-+]?)({whole})?(?:{re.escape(decimal)}([0-9]*))?(?:[eE]([-+]?[0-9]{{1,2}}))?")
        self.strip = re.compile(f"[{re.escape(strip)}]") if strip else None
        self.parentheses = parentheses

    def read(self, text):
        """(numerator, denominator), or nothing. The denominator is a power of ten."""
        if self.strip:
            text = self.strip.sub("", text).strip()
        if self.parentheses and text[:1] == "(" and text[-1:] == ")" and text[1:2] not in ("-", "+", "\u2212"):
            text = f"-{text[1:-1].strip()}"
        found = self.form.fullmatch(text.replace("\u2212", "-")) if len(text) <= CELL_LIMIT else None
        if not found or not (found[2] or found[3]):
            return None
        places, power = found[3] or "", int(found[4] or 0)
        above = int(re.sub("[^0-9]", "", found[2] or "") + places) * 10 ** max(power, 0)
        return (-above if found[1] == "-" else above), 10 ** (len(places) + max(-power, 0))


def rounded(above, below):
    """The nearest whole number, halves away from zero."""
    size = (2 * abs(above) + below) // (2 * below)
    return -size if above < 0 else size


# Dates.


class DateForm:
    """A date of one form. Of two digits a year is one of the hundred from `earliest` on."""

    def __init__(self, form, earliest=EARLIEST):
        pieces = re.split("(YYYY|YY|MM|DD|Mon|[*])", form)
        self.two_digits, self.earliest = "YY" in pieces, earliest
        self.form = re.compile("".join(DATE_PARTS.get(piece, re.escape(piece)) for piece in pieces), re.S)

    def read(self, text):
        """The date, or nothing."""
        found = self.form.fullmatch(text)
        if not found:
            return None
        parts = {"month": "1", "day": "1", **found.groupdict()}
        year = int(parts["year"])
        year = self.earliest + (year - self.earliest) % 100 if self.two_digits else year
        try:
            return datetime.date(year, month_of(parts["month"]), int(parts["day"]))
        except ValueError:
            return None


def month_of(text):
    """The month of a number, or of at least three letters with which names of one month alone begin; else 0."""
    if text.isdigit():
        return int(text)
    letters = unicodedata.normalize("NFKD", text.lower()).encode("ascii", "ignore").decode()
    months = [number for number, names in enumerate(MONTHS, 1) if any(name.startswith(letters) for name in names.split())]
    return months[0] if len(months) == 1 and len(letters) >= 3 else 0


def forms_of(column):
    """The forms of a column of dates, of which the first that fits a cell reads it."""
    return [column["format"]] if isinstance(column["format"], str) else column["format"]


def date_number(date, unit, since):
    if unit == "day":
        return (date - since).days
    if unit == "month":
        return 12 * (date.year - since.year) + date.month - since.month
    if unit == "year":
        return date.year
    return since.year - date.year - ((since.month, since.day) < (date.month, date.day))


# Texts.


def cased(text, case):
    return {"lower": text.lower, "upper": text.upper}.get(case, lambda: text)()


def text_of(text, case=None):
    """A text that a program can quote: without `"`, line ends and other control characters."""
    return CONTROL.sub(" ", cased(text, case)).replace('"', "'").strip()


def key_of(text, case=None):
    """A text that can be a key, each run of what can't stand in one being a `_`."""
    ends = re.compile(f"^(?:{NO_KEY.pattern})|(?:{NO_KEY.pattern})$")
    return NO_KEY.sub("_", ends.sub("", cased(text, case)))


def fitting(text):
    why = cell_of(text.encode(), "text")[1]
    if why:
        raise BadCell(why)
    return text


# Readers.


class Entry:
    """All cells of a column that are alike."""

    __slots__ = ("count", "line", "found", "value", "fate", "why", "is_rounded", "over")

    def __init__(self, line, found, value=None, fate=KEPT, why="", is_rounded=False, over=0):
        self.count, self.line, self.found, self.value, self.fate, self.why = 0, line, found, value, fate, why
        # By how much the value was over its top, or (below 0) under its bottom.
        self.is_rounded, self.over = is_rounded, over


class Reader:
    """Cells of one column. What stands in a cell decides, so each kind of cell is judged once."""

    kind = "text"

    def __init__(self, column):
        self.column, self.entries = column, {}
        self.map = {trimmed(text): value for text, value in column.get("map", {}).items()}
        self.missing = {trimmed(text) for text in column.get("missing", [""])}
        self.if_missing, self.if_bad = column.get("if_missing", STOP), column.get("if_bad", STOP)

    def judged(self, cell, line):
        text = trimmed(cell)
        text = self.map.get(text, text)
        if text in self.missing:
            return self.instead(line, MISSING, self.if_missing, "it is missing")
        try:
            if BROKEN.search(text):
                raise BadCell("it has bytes that its encoding doesn't know")
            return self.read(text, line)
        except BadCell as fault:
            return self.instead(line, BAD, self.if_bad, str(fault))

    def instead(self, line, found, what, why):
        """A cell that has no value of its own: the row is out, or it stops, or a code stands there."""
        if what in (OUT, STOP):
            return Entry(line, found, fate=what, why=why)
        return Entry(line, found, str(what), why=why)


class NumberReader(Reader):
    kind = "num"

    def __init__(self, column):
        super().__init__(column)
        self.form = NumberForm(*(column.get(name, usual) for name, usual in (("decimal", "."), ("thousands", ""), ("strip", ""), ("parentheses", False))))
        scale = Fraction(column.get("scale", 1))
        self.above, self.below = scale.numerator, scale.denominator
        self.limits(lambda bound: int(Fraction(bound) * scale))

    def limits(self, number):
        self.bottom, self.top = (number(self.column[end]) if end in self.column else None for end in ("bottom", "top"))

    def clipped(self, value):
        if self.top is not None and value > self.top:
            return self.top
        return self.bottom if self.bottom is not None and value < self.bottom else value

    def made(self, line, value, is_rounded=False):
        clipped = self.clipped(value)
        if abs(clipped) > NUMBER_LIMIT:
            raise BadCell(f"it is {value}, and a number is within -{NUMBER_LIMIT} and {NUMBER_LIMIT} (2^50)")
        return Entry(line, READ, str(clipped), is_rounded=is_rounded, over=value - clipped)

    def read(self, text, line):
        found = self.form.read(text)
        if found is None:
            raise BadCell("it is no number")
        above, below = found[0] * self.above, found[1] * self.below
        return self.made(line, rounded(above, below), above % below != 0)


class DateReader(NumberReader):
    def __init__(self, column):
        Reader.__init__(self, column)
        self.forms, self.unit = [DateForm(form, column.get("earliest", EARLIEST)) for form in forms_of(column)], column.get("unit", "day")
        self.since = datetime.date.fromisoformat(column["since"]) if "since" in column else EPOCH
        self.limits(self.number)

    def number(self, bound):
        return date_number(datetime.date.fromisoformat(bound), self.unit, self.since) if isinstance(bound, str) else bound

    def read(self, text, line):
        date = next(filter(None, (form.read(text) for form in self.forms)), None)
        if date is None:
            raise BadCell(f"it is no date of the form {' or '.join(forms_of(self.column))}")
        return self.made(line, date_number(date, self.unit, self.since))


class TextReader(Reader):
    def read(self, text, line):
        return Entry(line, READ, fitting(text_of(text, self.column.get("case"))))


class PersonReader(Reader):
    """A person's key, which isn't written: as it stands, however long it is."""

    def read(self, text, line):
        if not text:
            raise BadCell("it is empty, and no person's key")
        return Entry(line, READ, cased(text, self.column.get("case")))


class KeyReader(Reader):
    """`keys` has what counts, in the catalog's order, or nothing where all of it does."""

    def __init__(self, column):
        super().__init__(column)
        # There may be thousands, and each cell that differs from all before is looked for among them.
        self.keys = dict.fromkeys(column_keys(column))
        self.if_other = column.get("if_other", KEPT)

    def read(self, text, line):
        key = fitting(key_of(text, self.column.get("case")))
        if not key:
            raise BadCell("nothing is left of it without blanks, commas and quotes")
        if key in self.keys or self.if_other == KEPT:
            return Entry(line, READ, key)
        return self.instead(line, READ, self.if_other, "it is in no key")

    def is_other(self, entry):
        """Whether these cells are in no part, or would be if nothing had been put in their place."""
        return (entry.found == READ and entry.why != "") or (entry.fate == KEPT and entry.value not in self.keys)


def column_keys(column):
    """The keys that count. What stands in the place of a cell is as it is written, and so is a key that is the same."""
    codes = {column.get(name) for name in ("if_missing", "if_bad", "if_other")}
    return [key if key in codes else key_of(trimmed(key), column.get("case")) for key in column.get("keys", [])]


READERS = {"number": NumberReader, "date": DateReader, "text": TextReader, "key": KeyReader}


def reader_of(column):
    return READERS[column["kind"]](column)
