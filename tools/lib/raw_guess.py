"""A first spec of a raw file, by its looks: for a person to correct.

    guessed(NAME)           the spec of a file, lines for whoever asked for it, which rows were read, and what is proposed where rows are about
                            persons; there SPEC and RAW stand for the files' names
    made_per_person(SPEC)   adds what a table per person may have, where the spec is to be of one and has nothing of it

A column is a number or a date where nearly all its cells can be read so, a key where few texts stand in many rows, else a text. Nothing
is clipped, rounded or left out by a guess: a missing number or date stops, until somebody chooses. What it saw is in each column's `note`. No
more columns are kept, or are keys, than a catalog takes.
"""
import itertools
import os
import re
import unicodedata
from collections import Counter, deque
from fractions import Fraction

from bounds import COLUMN_LIMIT, PARTITION_LIMIT, TEXT_LIMIT
from programs import WORDS
from raw import BadRaw, RawFile, guessed_form
from raw_cells import BROKEN, OUT, STOP, DateForm, NumberForm, forms_of, key_of, trimmed
from raw_spec import LEFT_OUT, NUMBERS, PERSONAL, is_per_person

# So many rows are looked at, fewer where there are many columns, of which at most so many are taken.
ROWS, CELLS, COLUMNS = 100_000, 5_000_000, 10_000
MOST = 0.8
SAMPLE = 2000
# Of so many different texts, or more, nobody is told that they are keys, which whoever has the catalog reads: the owner says so.
MOST_GUESSED = 250
CODES = 12
MISSING = {"", "-", "--", ".", "..", "...", ":", "?", "na", "n/a", "n.a.", "#n/a", "nan", "null", "none", "missing", "k.a.", "k. a.", "n.d.", "\u2013", "\u2014"}
NUMBER_FORMS = [(".", ""), (".", ","), (",", "."), (",", ""), (",", " "), (".", " "), (".", "'"), (",", "'"), (".", "\u2019")]
SIGNS = "€$£¥%"
DATE_FORMS = [
    "YYYY-MM-DD", "DD.MM.YYYY", "DD/MM/YYYY", "MM/DD/YYYY", "DD-MM-YYYY", "YYYY/MM/DD", "YYYYMMDD", "DD Mon YYYY", "DD. Mon YYYY", "DD-Mon-YYYY", "DD-Mon-YY",
    "DD.MM.YY", "DD/MM/YY", "MM/DD/YY", "YYYY-MM", "YYYY-MM-DD*", "DD.MM.YYYY*", "DD/MM/YYYY*", "MM/DD/YYYY*",
]  # fmt: skip
CLOSED = "YYYYMMDD"
# Rows at a file's end that may be no rows: so many are looked at, and words that their first cell may begin with.
LAST = 5
TOTALS = ("total", "sum", "grand total", "subtotal", "all", "somme", "ensemble", "summe", "gesamt", "insgesamt", "suma", "totale", "totaal", "source")
SPARE = ["ann", "spare1", "spare2", "spare3"]


# How keys of persons are called, in some languages: by a word, or by a word and one of those that number something, unless it is a number of them.
PERSONS = set(
    "person pers pid id uid key patient client customer insured subject participant respondent proband kunde kennung pseudonym insee nir nss ssn ahv nhs "
    "mrn assure cliente paziente paciente persona personne".split()
)
OF_PERSONS = set("persons patients clients customers member members participants personen patienten kunden mitglied mitglieds versicherten probanden".split())
NUMBERED, NUMBER_OF = set("nr no num number nummer code schluessel".split()), set("of in per je par".split())
# Of fewer values, or of more rows each, nobody hears that they may be such keys.
FEWEST, UNLIKE, MOST_ROWS, DIGITS = 100, Fraction(9, 10), 100, 5


def name_of(text, taken, otherwise):
    """A name made of a text, another than those taken, of which each has the last number that was tried."""
    letters = unicodedata.normalize("NFKD", text.replace("ß", "ss")).encode("ascii", "ignore").decode().lower()
    name = re.sub("[^a-z0-9]+", "_", letters).strip("_")[:26] or otherwise
    name = f"_{name}" if name[0].isdigit() else name
    name = f"{name}_" if name in WORDS else name
    made = name
    while made in taken:
        taken[name] += 1
        made = f"{name}_{taken[name]}"
    taken[made] = 1
    return made


class Column:
    """The trimmed cells of a raw column, each with how many rows it stands in."""

    def __init__(self, cells):
        self.cells = cells
        self.missing = [cell for cell in cells if cell.lower() in MISSING]
        self.given = {cell: count for cell, count in cells.items() if cell.lower() not in MISSING}
        self.first = list(itertools.islice(self.given.items(), SAMPLE))
        self.rows, self.lost = sum(cells.values()), sum(cells[cell] for cell in self.missing)
        self.broken = sum(count for cell, count in self.given.items() if BROKEN.search(cell))

    def share(self, reads):
        """In how much of what is given a cell is read, by the first cells."""
        read = sum(count for cell, count in self.first if reads(cell) is not None)
        return read / sum(count for _, count in self.first)

    def unread(self, reads):
        cells = sorted((cell for cell in self.given if reads(cell) is None), key=lambda cell: -self.given[cell])
        return f", {sum(self.given[cell] for cell in cells)} that are none, as {', '.join(map(repr, cells[:3]))}" if cells else ""

    def lost_words(self):
        lost = f"{self.lost} of {self.rows} cells are missing" if self.lost else "no cell is missing"
        return lost + (f", and in {self.broken} are bytes that the encoding doesn't know" if self.broken else "")


def is_code(cell):
    """Digits behind a zero are a code, such as a postcode's, and no number."""
    return re.fullmatch("0[0-9]+", cell) is not None


def number_column(column, delimiter):
    if any(map(is_code, column.given)):
        return None
    strip = "".join(sign for sign in SIGNS if any(sign in cell for cell in column.given))
    below = any(cell.strip(strip + " ").startswith("(") for cell in column.given)
    forms = sorted(NUMBER_FORMS, key=lambda form: form[0] != ",") if delimiter == ";" else NUMBER_FORMS
    shares = [(column.share(NumberForm(*form, strip, below).read), form) for form in forms]
    best = max(share for share, _ in shares)
    if best < MOST:
        return None
    # Of those that read all alike the plainest: without a sign between thousands where none is needed.
    fits = [form for share, form in shares if share == best]
    decimal, thousands = min(fits, key=lambda form: (places_of(column, form, strip) > 2, form[1] != "", fits.index(form)))
    return number_words(column, decimal, thousands, strip, below)


def places_of(column, form, strip):
    """How many places stand behind the point at most."""
    found = [NumberForm(*form, strip).read(cell) for cell, _ in column.first]
    return max((len(str(read[1])) - 1 for read in found if read), default=0)


def number_words(column, decimal, thousands, strip, below):
    form, plain = NumberForm(decimal, thousands, strip, below), NumberForm(decimal, thousands, strip)
    in_parentheses = sum(count for cell, count in column.given.items() if form.read(cell) and not plain.read(cell))
    values = [read for read in map(form.read, column.given) if read]
    places = max(len(str(parts)) - 1 for _, parts in values)
    ends = min(values, key=lambda one: one[0] / one[1]), max(values, key=lambda one: one[0] / one[1])
    least, greatest = (above // parts if above % parts == 0 else above / parts for above, parts in ends)
    made = {"kind": "number", "scale": 10 ** min(places, 6)}
    usual = {"decimal": ".", "thousands": "", "strip": ""}
    made.update({name: value for name, value in (("decimal", decimal), ("thousands", thousands), ("strip", strip)) if value != usual[name]})
    made.update({"parentheses": True} if in_parentheses else {})
    if is_running(values, sum(count for cell, count in column.given.items() if form.read(cell))):
        return {"kind": LEFT_OUT, "note": f"{least} to {greatest}, each once: it seems to count the rows"}
    note = f"from {least} to {greatest}, {places} place{'' if places == 1 else 's'}{column.unread(form.read)}; {column.lost_words()}"
    note += f"; {in_parentheses} in parentheses, read as under 0" if in_parentheses else ""
    note += f"; only {len(column.given)} different ones: where they are codes, make it a key" if len(column.given) <= CODES else ""
    return {**made, "note": f"{note}. Set bottom and top from what is known, not from the data"}


def is_running(values, rows):
    """Whether nearly each whole number of a range stands, and stands once; ROWS have these values. A footnote below them is none."""
    numbers = {above for above, below in values if below == 1}
    return len(numbers) == len(values) == rows > 20 and MOST * (max(numbers) - min(numbers)) < len(numbers)


def looks_so(form):
    """Reads a date. Where nothing parts its numbers they have all their digits, else any number would be one."""
    reads = DateForm(form).read
    return reads if form != CLOSED else lambda cell: reads(cell) if len(cell) == len(CLOSED) else None


def date_column(column):
    shares = [(form, column.share(looks_so(form))) for form in DATE_FORMS]
    forms = [form for form, share in shares if share >= MOST]
    if not forms:
        return None
    best = max(forms, key=dict(shares).get)
    others = [form for form in forms if form != best and "*" not in form]
    doubt = f"; {', '.join(others)} would fit, too" if others else ""
    # The same with years of two digits, where some cells have these.
    short = best.replace("YYYY", "YY") if best != CLOSED else best
    form = [best, short] if short != best and any(DateForm(short).read(cell) and not DateForm(best).read(cell) for cell in column.given) else best
    reads = read_by(form)
    read = sorted(filter(None, map(reads, column.given)))
    note = f"from {read[0]} to {read[-1]}{column.unread(reads)}{doubt}; {column.lost_words()}"
    two_digits = any(DateForm(one).two_digits for one in forms_of({"format": form}))
    note += "; years of two digits are those of 1969 to 2068, unless `earliest` says another first one" if two_digits else ""
    return {"kind": "date", "format": form, "unit": "day", "note": f"{note}. Units: day, month, year, age"}


def read_by(form):
    forms = [DateForm(one) for one in forms_of({"format": form})]
    return lambda cell: next(filter(None, (one.read(cell) for one in forms)), None)


def text_column(column):
    given = column.given
    if column.lost > 0.9 * column.rows:
        return {"kind": LEFT_OUT, "note": f"{column.lost_words()}, and the others are texts"}
    if len(given) == sum(given.values()) > 20:
        return {"kind": LEFT_OUT, "note": "no text stands twice: is it a name or a number of somebody?"}
    if max(len(cell.encode(errors="surrogateescape")) for cell in given) > TEXT_LIMIT:
        return {"kind": LEFT_OUT, "note": f"some texts have over {TEXT_LIMIT} bytes; {len(given)} texts in {column.rows} rows"}
    keys = sorted({key_of(cell) for cell in given if not BROKEN.search(cell)} - {""})
    if len(keys) >= MOST_GUESSED or len(keys) > column.rows / 2:
        return {"kind": "text", "note": f"{len(given)} texts in {column.rows} rows; {column.lost_words()}"}
    unknown = [UNKNOWN] if UNKNOWN not in keys else []
    alike = differing_in_capitals(keys)
    note = f"{alike}{column.lost_words()}. These keys were seen in the data: write those that are publicly known in their place"
    return {"kind": "key", "keys": keys + unknown, "note": note}


UNKNOWN = "unknown"


def differing_in_capitals(keys):
    found = {}
    for key in keys:
        found.setdefault(key.casefold(), []).append(key)
    twice = [" and ".join(f"`{key}`" for key in same) for same in found.values() if len(same) > 1]
    return f"{', '.join(twice[:3])} differ in capitals alone, and are several keys unless `case` or `map` makes them one; " if twice else ""


def column_of(cells, delimiter):
    column = Column(cells)
    if not column.given:
        return {"kind": LEFT_OUT, "note": "every cell is missing"}
    made = date_column(column) or number_column(column, delimiter) or text_column(column)
    if made["kind"] != LEFT_OUT:
        made["missing"] = sorted({"", *column.missing})
        made["if_missing"] = UNKNOWN if made["kind"] in ("key", "text") else STOP
        if column.lost and made["if_missing"] == STOP:
            made["note"] += f". A missing cell stops, until `if_missing` says `{OUT}`, or a code such as -1"
    return {**made, "note": made.pop("note")}


# Keys of persons.


def is_called_persons(title):
    letters = unicodedata.normalize("NFKD", re.sub("([a-z])([A-Z])", r"\1 \2", title)).encode("ascii", "ignore").decode()
    words = set(re.findall("[a-z]+", letters.lower()))
    return bool(words & PERSONS or (words & OF_PERSONS and words & NUMBERED)) and not words & NUMBER_OF


def is_like_persons(title, column, made):
    """Whether many values stand, most of them in more rows than one: distinct in under nine of ten rows. Dates and amounts are no such keys. What isn't
    called one has not too many rows each, and of numbers, which amounts are as well, five digits or more, all of them as many."""
    rows, called = sum(column.given.values()), is_called_persons(title)
    if made["kind"] == "date" or not FEWEST < len(column.given) < UNLIKE * rows:
        return False
    if made["kind"] != "number":
        return called or rows <= MOST_ROWS * len(column.given)
    lengths = set(map(len, column.given))
    is_numbering = called or (len(lengths) == 1 and min(lengths) >= DIGITS and rows <= MOST_ROWS * len(column.given))
    return is_numbering and all(map(str.isdecimal, column.given))


def as_of_persons(title, column, made):
    """What is said of a column that looks like a key of persons; where it is called like one it is a text, and none of its cells is in the catalog."""
    is_called = is_called_persons(title)
    if is_called and made["kind"] != LEFT_OUT:
        made = {"kind": "text", "missing": made["missing"], "if_missing": STOP, "note": made["note"]}
    rows = sum(column.given.values())
    said = f"It looks like a key of persons: {len(column.given)} values in {rows} rows. If a row is about whom it names, say so by `person`"
    return {**made, "note": f"{said}. {made['note']}"}, (is_called, len(column.given), rows)


def proposals(found):
    """Both ways to say that rows are about persons, of the likeliest of some columns: pairs of a name and how likely, as as_of_persons says it."""
    if not found:
        return []
    found = sorted(found, key=lambda one: one[1], reverse=True)
    name, (_, values, rows) = found[0]
    others = [other for other, _ in found[1:6]]
    file = f"persons{'_table' if os.path.exists('persons.csv') else ''}.csv"
    return [
        f"WARNING: {name} looks like a key of persons: {values} values in {rows} rows. The promise speaks of rows: a person with several is several rows apart",
        "If a row is about whom it names, say how many rows a person may have (N, known of such tables and not taken from this one), or make one row a person:",
        f"    tools/prepare RAW --spec SPEC --set person.column={name} --set person.rows=N --save",
        f"    tools/prepare RAW --guess SPEC.persons --set person.column={name} --set table.per=person --set table.name=persons --set table.file={file}",
        *([f"Such keys may be {', '.join(others)}, too"] if others else []),
    ]


def made_per_person(spec):
    """What a table per person may have: how many rows, the sum of numbers, the ends of dates, keys that all rows share."""
    if not is_per_person(spec) or any(column.get("kind") in PERSONAL for column in spec["columns"]):
        return
    taken = {column.get("name"): 1 for column in spec["columns"]}
    made = [{"name": name_of("rows", taken, "rows"), "kind": "count", "note": "how many rows the person has. Set a top"}]
    for column in spec["columns"]:
        name, kind = column.get("name"), column["kind"]
        if kind in NUMBERS:
            kinds = ("sum",) if kind == "number" else ("least", "greatest")
            note = "of the person's rows. Set bottom and top"
            made += [{"name": name_of(f"{one}_{name}", taken, one), "kind": one, "of": name, "note": note} for one in kinds]
        if kind == "key":
            note = "the key of all rows of the person, or `mixed`"
            made.append({"name": name_of(f"shared_{name}", taken, "shared"), "kind": "shared", "of": name, "note": note})
    keys = [column for column in made if column["kind"] == "shared"][PARTITION_LIMIT:]
    spec["columns"] += [column for column in made if column not in keys][:COLUMN_LIMIT]


def counted(name, encoding, delimiter, skip):
    """The header, the trimmed cells of each column, how many rows are of another length (and not looked at), how many were read, and the last."""
    records = RawFile(name, encoding, delimiter).records()
    header = []
    for _, header in (next(records, (0, [])) for _ in range(skip + 1)):
        pass
    if len(header) > COLUMNS:
        raise BadRaw(f"{name} has {len(header)} columns, and of more than {COLUMNS} none is guessed: write a spec of those that you need")
    cells, uneven, rows, last = [Counter() for _ in header], 0, 0, deque(maxlen=LAST)
    most, whole = min(ROWS, max(CELLS // len(header), FEWEST)), True
    for line, fields in records:
        if rows == most:
            whole = False
            break
        if any(field.strip() for field in fields):
            rows += 1
            last.append((line, [field.strip() for field in fields]))
            if len(fields) < len(header) or any(field.strip() for field in fields[len(header) :]):
                uneven += 1
                continue
            for seen, field in zip(cells, fields):
                seen[field] += 1
    return header, [collected(seen) for seen in cells], uneven, f"{'all' if whole else 'the first'} {rows} rows", list(last) if whole else []


def totals_among(last, width):
    """The lines of rows at the end that seem to be totals or footnotes: by their first word, or with few of their cells given."""
    lines = []
    for line, fields in reversed(last):
        first = next(filter(None, fields), "").lower()
        if width > 1 and not (first.rstrip(": ") in TOTALS or first.startswith(("total ", "source:", "note:")) or 3 * sum(map(bool, fields)) <= width):
            return lines
        lines.insert(0, line)
    # Where so many rows are like that, they are rows.
    return []


def collected(seen):
    found = Counter()
    for cell, count in seen.items():
        found[trimmed(cell)] += count
    return found


def columns_of(header, cells, delimiter):
    """The columns, and those that look like keys of persons."""
    columns, names, persons = [], {}, []
    for number, (title, seen) in enumerate(zip(header, cells), 1):
        made, column, called = column_of(seen, delimiter), Column(seen), name_of(title, names, f"column_{number}")
        if column.given and is_like_persons(title, column, made):
            made, likely = as_of_persons(title, column, made)
            persons.append((called, likely))
        columns.append({"from": trimmed(title), "at": number, "name": called, **made})
    return columns, persons


def leave_plain(columns):
    """Makes columns of keys plain texts where a catalog has no room for their partitions, and says which."""
    plain = [column for column in columns if column["kind"] == "key"][PARTITION_LIMIT:]
    for column in plain:
        del column["keys"]
        column.update(kind="text", note=f"it seemed a key, and a catalog has at most {PARTITION_LIMIT} partitions, which the columns before it take")
    names = ", ".join(column["name"] for column in plain)
    return [f"a catalog has at most {PARTITION_LIMIT} partitions, so these seemed keys and are texts: {names}"] if plain else []


def guessed(name):
    encoding, delimiter, skip = guessed_form(name)
    header, cells, uneven, rows, last = counted(name, encoding, delimiter, skip)
    ends = totals_among(last, len(header))
    ends = f". The last, of line{'s' if len(ends) > 1 else ''} {', '.join(map(str, ends))}, may be totals or footnotes" if ends else ""
    columns, persons = columns_of(header, cells, delimiter)
    if all(column["kind"] == LEFT_OUT for column in columns):
        for column in columns:
            column.update(kind="text", missing=[""], if_missing=UNKNOWN)
    for column in [column for column in columns if column["kind"] != LEFT_OUT][COLUMN_LIMIT:]:
        column.update(kind=LEFT_OUT, note=f"a table has at most {COLUMN_LIMIT} columns; it seemed a {column['kind']}")
    lines = leave_plain(columns)
    table = name_of(os.path.splitext(os.path.basename(name))[0], {}, "people")
    return {
        "note": f"Guessed from {rows}, {uneven} of them of another length than the header{ends}. Private: it says what is in the data",
        "raw": {"encoding": encoding, "delimiter": delimiter, "skip": skip, "ragged": "stop"},
        "table": {"name": table, "file": f"{table}{'_table' if os.path.exists(f'{table}.csv') else ''}.csv"},
        "catalog": {"file": "catalog.json", "analysts": SPARE, "owner": "owner", "budget": 1_000_000, "capacity": 1000},
        "columns": [only_its_members(column) for column in columns],
    }, lines, rows, proposals(persons)


def only_its_members(column):
    """A column that is left out needs no more than its place."""
    if column["kind"] != LEFT_OUT:
        return column
    return {name: column[name] for name in ("from", "at", "name", "kind", "note") if name in column}
