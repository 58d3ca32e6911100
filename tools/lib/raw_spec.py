"""Specs: what shall become of a raw file. A JSON object that a person edits.

    read_spec(BYTES)     the spec as dictionaries and lists; BadSpec, with every fault in words, else
    json_of(TEXT)        a value as specs have it; ValueError, else
    changed(SPEC, ..)    with a member put at a path, as `income.top=5000`
    laid_out(VALUE)      a spec or a catalog as text, what is short in one line
    keys_of(SPEC, ..)    the keys of a column that has some, in the catalog's order

Every object may have a `note`, which nothing reads. Limits of names, keys and tables are those of catalogs.
"""
import codecs
import datetime
import json
import re
from collections import Counter
from decimal import Decimal
from fractions import Fraction

from bounds import ANALYSTS, COLUMN_LIMIT, FILE_NAME_BYTES, KEY_BYTES, KEYS, MOST_BUDGET, MOST_CAPACITY, NAME_BYTES, NUMBER_LIMIT, TEXT_LIMIT
from catalog import is_file, is_key, is_name, is_table_name
from raw import DELIMITERS
from raw_cells import BROKEN, DATE_PARTS, KEPT, OUT, STOP, column_keys, date_number, forms_of

POWER_LIMIT = 99
LINE = 120
UNITS = ("day", "month", "year", "age")
NUMBER = (int, Decimal)
CODE = (int, str)
LEFT_OUT = "leave out"
PARTS = ("raw", "table", "catalog", "person")
# What JSON leaves as it is, and no editor or terminal shows as it stands.
UNSHOWN = re.compile("[\ud800-\udfff\x7f-\x9f\u200e\u200f\u202a-\u202e\u2066-\u2069]")
# What stands once at most in a form of dates.
ONCE = ("YYYY|YY", "MM|Mon", "DD")
# The members of each object with the kinds of their values, those that must be there, and those of each kind of column.
RAW = {"encoding": (str,), "delimiter": (str,), "skip": (int,), "ragged": (str,)}
TABLE = {"name": (str,), "file": (str,), "per": (str,)}
PERSON = {"column": (str,), "rows": (int,), "key": (str,)}
CATALOG = {"file": (str,), "analysts": (list,), "owner": (str,), "budget": (int,), "capacity": (int,), "limits": (dict,)}
COLUMN = {"name": (str,), "kind": (str,), "keep": (bool,)}
CELLS = {"from": (str,), "at": (int,), "map": (dict,), "missing": (list,), "if_missing": CODE, "if_bad": CODE}
CLIPS = {"bottom": (*NUMBER, str), "top": (*NUMBER, str)}
WHOLE = {"of": (str,), "bottom": (int,), "top": (int,)}
KINDS = {
    "number": {**CELLS, **CLIPS, "decimal": (str,), "thousands": (str,), "strip": (str,), "parentheses": (bool,), "scale": NUMBER},
    "date": {**CELLS, **CLIPS, "format": (str, list), "earliest": (int,), "unit": (str,), "since": (str,)},
    "text": {**CELLS, "case": (str,)},
    "key": {**CELLS, "case": (str,), "keys": (list,), "partition": (str,), "if_other": (str,)},
    "bands": {"of": (str,), "bounds": (list,), "if_missing": (str,), "partition": (str,)},
    "joint": {"of": (list,), "partition": (str,)},
    "count": {"top": (int,)},
    "sum": WHOLE,
    "least": WHOLE,
    "greatest": WHOLE,
    "first": {"of": (str,), "by": (str,), "partition": (str,)},
    "shared": {"of": (str,), "if_mixed": (str,), "partition": (str,)},
}
# What is left out keeps whatever it had, so that a kind can be changed by one word.
KINDS[LEFT_OUT] = {name: (*NUMBER, str, bool, list, dict) for kind in KINDS.values() for name in kind}
MUST = {
    "number": [], "date": ["format"], "text": [], "key": [], "bands": ["of", "bounds"], "joint": ["of"],
    "count": [], "sum": ["of"], "least": ["of"], "greatest": ["of"], "first": ["of", "by"], "shared": ["of"],
}  # fmt: skip
NUMBERS, KEYED, DERIVED = ("number", "date"), ("key", "bands"), ("bands", "joint")
# Of what each column of a table per person is made, and which of these may be in bands and joints.
OF_ROWS = {"sum": ("number",), "least": NUMBERS, "greatest": NUMBERS, "first": (*NUMBERS, "text", "key"), "shared": ("key",)}
PERSONAL = ("count", *OF_ROWS)
PERSONAL_NUMBERS, PERSONAL_KEYED = ("count", "sum", "least", "greatest", "first"), ("first", "shared", "bands")
WORDS = {str: "a text", int: "a whole number", Decimal: "a number", list: "a list", dict: "an object", bool: "true or false"}


class BadSpec(Exception):
    """Every fault of a spec, a line each."""


class Faults:
    def __init__(self):
        self.lines = []

    def unless(self, right, place, why):
        if not right:
            self.lines.append(f"{place}: {why}")
        return right

    def members(self, value, place, wanted, must):
        """Whether an object has members of these kinds, and no other but a note."""
        if not self.unless(isinstance(value, dict), place, "an object is wanted here"):
            return False
        before = len(self.lines)
        for name in value:
            if name == "note":
                continue
            if self.unless(name in wanted, place, f"`{name}` is no member{of_kinds(name)}; here may stand {', '.join(wanted)}"):
                self.unless(type(value[name]) in wanted[name], f"{place}.{name}", f"{kind_words(wanted[name])} is wanted here")
        for name in must:
            self.unless(name in value, place, f"`{name}` is missing")
        return len(self.lines) == before

    def raise_any(self):
        if self.lines:
            raise BadSpec("\n".join(self.lines))


def of_kinds(name):
    """The kinds of columns that have a member."""
    kinds = [kind for kind, members in KINDS.items() if name in members and kind != LEFT_OUT]
    return f" of this kind ({', '.join(kinds)} may have it): take it away" if kinds else ""


def kind_words(kinds):
    return " or ".join(WORDS[kind] for kind in kinds if not (kind is int and Decimal in kinds))


def in_utf8(fits):
    """A rule of texts that are written into a table or a catalog, which no text keeps that UTF-8 hasn't."""
    return lambda text: not BROKEN.search(text) and fits(text)


is_right_key, is_right_file = in_utf8(is_key), in_utf8(is_file)
is_short = in_utf8(lambda text: len(text.encode()) <= TEXT_LIMIT)


# Columns.


def check_column(faults, column, place):
    kind = column.get("kind") if isinstance(column, dict) else None
    if not faults.unless(isinstance(kind, str) and kind in KINDS, f"{place}.kind", f"it is one of {', '.join(KINDS)}"):
        return
    must = [] if kind == LEFT_OUT else ["name", *MUST[kind], *(["from"] if "from" in KINDS[kind] else [])]
    if not faults.members(column, place, {**COLUMN, **KINDS[kind]}, must) or kind == LEFT_OUT:
        return
    faults.unless(is_name(column["name"]), f"{place}.name", f"`{column['name']}` is no name: a letter or `_`, then letters, digits and `_`, {NAME_BYTES} at most")
    faults.unless(column.get("at", 1) >= 1, f"{place}.at", "columns are counted from 1")
    faults.unless(is_name(column.get("partition", "_")), f"{place}.partition", "it is no name")
    faults.unless(column.get("case", "lower") in ("lower", "upper"), f"{place}.case", "it is `lower` or `upper`")
    CHECKS.get(kind, lambda *_: None)(faults, column, place)
    if "missing" in KINDS[kind]:
        check_cells(faults, column, place)


def check_cells(faults, column, place):
    for name, texts in (("missing", column.get("missing", [])), ("map", column.get("map", {}).values())):
        faults.unless(all(isinstance(text, str) for text in texts), f"{place}.{name}", "cells are texts, and stand in quotes")
    for name in ("if_missing", "if_bad"):
        code = column.get(name, STOP)
        if code in (OUT, STOP):
            continue
        if column["kind"] in NUMBERS:
            right = isinstance(code, int) and abs(code) <= NUMBER_LIMIT
            faults.unless(right, f"{place}.{name}", f"`{OUT}`, `{STOP}`, or a whole number as the table shall have it")
        else:
            fits = is_right_key if column["kind"] == "key" else is_short
            faults.unless(isinstance(code, str) and fits(code), f"{place}.{name}", f"`{OUT}`, `{STOP}`, or a text as the table shall have it")


def check_number(faults, column, place):
    scale, decimal, thousands = column.get("scale", 1), column.get("decimal", "."), column.get("thousands", "")
    right = faults.unless(scale > 0, f"{place}.scale", "it is over 0")
    faults.unless(decimal in (".", ","), f"{place}.decimal", "it is `.` or `,`")
    faults.unless(len(thousands) <= 1 and thousands != decimal, f"{place}.thousands", "it is one sign, another than the decimal one, or none: \"\"")
    stripped = set(column.get("strip", "")) & set("()")
    faults.unless(not stripped, f"{place}.strip", "without its parentheses (7) would be 7, and it often means -7: `parentheses` true reads it so")
    for end in ("bottom", "top"):
        bound = column.get(end, 0)
        if right and faults.unless(not isinstance(bound, str), f"{place}.{end}", "a number is wanted here, in the raw file's unit"):
            whole = (Fraction(bound) * Fraction(scale)).denominator == 1
            faults.unless(whole, f"{place}.{end}", f"{bound} times the scale {scale} is no whole number")
    check_ends(faults, place, *(Fraction(column[end]) if isinstance(column.get(end), NUMBER) else None for end in ("bottom", "top")))


def check_ends(faults, place, bottom, top):
    faults.unless(None in (bottom, top) or bottom <= top, f"{place}.top", "it is under the bottom")


def is_date(text):
    try:
        return bool(datetime.date.fromisoformat(text))
    except ValueError:
        return False


def check_forms(faults, column, place):
    forms = forms_of(column)
    fits = len(column["format"]) >= 1 and all(isinstance(one, str) and "YY" in one for one in forms)
    if faults.unless(fits, place, f"it has {', '.join(DATE_PARTS)} in it, as DD.MM.YYYY; `*` is whatever comes; or it is a list of such"):
        twice = [one for one in forms if any(len(re.findall(part, one)) > 1 for part in ONCE)]
        faults.unless(not twice, place, f"`{', '.join(twice)}` has the year, the month or the day more than once")


def check_date(faults, column, place):
    unit = column.get("unit", "day")
    faults.unless(unit in UNITS, f"{place}.unit", f"it is one of {', '.join(UNITS)}")
    check_forms(faults, column, f"{place}.format")
    faults.unless(1000 <= column.get("earliest", 1969) <= 9899, f"{place}.earliest", "the first of the hundred years that YY may mean, as 1925")
    right = faults.unless(is_date(column.get("since", "1970-01-01")), f"{place}.since", "a date is wanted here, as 1970-01-31")
    faults.unless(unit != "age" or "since" in column, place, "`since` is missing: the day on which ages are counted, as 2026-01-01")
    ends = []
    for end in ("bottom", "top"):
        bound = column.get(end)
        fits = bound is None or isinstance(bound, int) or (isinstance(bound, str) and is_date(bound))
        if faults.unless(fits, f"{place}.{end}", "a date is wanted here, as 1970-01-31, or a whole number as the table shall have it") and right and unit in UNITS:
            since = datetime.date.fromisoformat(column.get("since", "1970-01-01"))
            ends.append(date_number(datetime.date.fromisoformat(bound), unit, since) if isinstance(bound, str) else bound)
    if len(ends) == 2:
        check_ends(faults, place, *ends)


def check_key(faults, column, place):
    listed = column.get("keys", [])
    if not faults.unless(all(isinstance(key, str) for key in listed), f"{place}.keys", "keys are texts"):
        return
    keys = column_keys(column)
    counts = Counter(keys)
    for raw, key in zip(listed, keys):
        faults.unless(is_right_key(key), f"{place}.keys", f"`{raw}` is no key: 1 to {KEY_BYTES} bytes, once blanks and commas are changed")
        faults.unless(counts[key] == 1, f"{place}.keys", f"`{raw}` becomes `{key}`, and so does another key: take one of them away")
    faults.unless(len(keys) <= KEYS, f"{place}.keys", f"there are {len(keys)} keys, and a partition has at most {KEYS}")
    other = column.get("if_other", KEPT)
    faults.unless(other in (KEPT, OUT, STOP) or other in keys, f"{place}.if_other", f"it is `{KEPT}`, `{OUT}`, `{STOP}` or one of the keys")


def check_bands(faults, column, place):
    bounds = column["bounds"]
    right = len(bounds) >= 1 and all(type(bound) is int for bound in bounds) and sorted(set(bounds)) == bounds
    faults.unless(right, f"{place}.bounds", "whole numbers are wanted here, as the table has them, each over the one before")
    faults.unless(is_right_key(column.get("if_missing", "unknown")), f"{place}.if_missing", "a text is wanted here, without blanks")


CHECKS = {"number": check_number, "date": check_date, "key": check_key, "bands": check_bands}


# Columns that are made of others, and the keys of each.


def person_column(spec):
    """The name of the column that says whom a row is about, or nothing."""
    return spec.get("person", {}).get("column")


def is_per_person(spec):
    return "per" in spec["table"]


def kept(spec):
    """The table's columns. A person's key is among them only where it is kept on purpose; else a table per person has what is made of a person's rows."""
    person, per = person_column(spec), is_per_person(spec)

    def is_kept(column):
        if column["kind"] == LEFT_OUT or column["name"] == person:
            return column["kind"] != LEFT_OUT and column.get("keep", False)
        return column.get("keep", True) and (not per or column["kind"] in (*PERSONAL, *DERIVED))

    return [column for column in spec["columns"] if is_kept(column)]


def type_of(spec, column):
    """A column's type in the catalog."""
    if column["kind"] == "first":
        return type_of(spec, by_names(spec)[column["of"]])
    return "num" if column["kind"] in (*NUMBERS, *PERSONAL_NUMBERS) else "text"


def by_names(spec):
    """Columns by their names. One that is left out may be called like another, which is then the one that is meant."""
    found = {}
    for column in spec["columns"]:
        name = column.get("name")
        if isinstance(name, str) and (name not in found or column.get("kind") != LEFT_OUT):
            found[name] = column
    return found


def band(bounds, value):
    """The band of a number, which is called by its lower end."""
    under = [bound for bound in bounds if bound <= value]
    return f"from_{under[-1]}" if under else f"under_{bounds[0]}"


def keys_of(spec, column):
    if column["kind"] == "key":
        return column_keys(column)
    if column["kind"] == "bands":
        return [f"under_{column['bounds'][0]}", *(f"from_{bound}" for bound in column["bounds"]), column.get("if_missing", "unknown")]
    if column["kind"] == "joint":
        first, second = (keys_of(spec, by_names(spec)[name]) for name in column["of"])
        return [joint_of(one, other) for one in first for other in second]
    if column["kind"] in ("first", "shared"):
        keys = keys_of(spec, by_names(spec)[column["of"]])
        return keys + [mixed_of(column)] if keys and column["kind"] == "shared" else keys
    return []


def mixed_of(column):
    """What stands where a person's rows have several keys."""
    return column.get("if_mixed", "mixed")


def joint_of(one, other):
    return f"{one}.{other}"


def check_derived(faults, spec, place, column):
    """What a column is made of stands before it, and its keys are keys."""
    names = by_names(spec)
    of = [column["of"]] if column["kind"] == "bands" else column["of"]
    wanted, kind = (NUMBERS, "num") if column["kind"] == "bands" else (KEYED, "text")
    if is_per_person(spec):
        wanted = PERSONAL_NUMBERS if column["kind"] == "bands" else PERSONAL_KEYED
    if column["kind"] == "joint" and not faults.unless(len(of) == 2, f"{place}.of", "the names of two columns are wanted here"):
        return
    for name in of:
        right = isinstance(name, str) and name in names and names[name]["kind"] in wanted and type_of(spec, names[name]) == kind
        if not faults.unless(right, f"{place}.of", f"`{name}` is no column of the kind {' or '.join(wanted)}"):
            return
    check_keys(faults, spec, place, column)


def check_keys(faults, spec, place, column):
    keys = keys_of(spec, column)
    faults.unless(len(keys) <= KEYS, place, f"that makes {len(keys)} keys, and a partition has at most {KEYS}")
    faults.unless(column["kind"] != "joint" or keys, place, "its columns have no keys")
    faults.unless(all(is_key(key) for key in keys), place, f"some keys are over {KEY_BYTES} bytes")
    faults.unless(len(set(keys)) == len(keys), place, "two of its keys are the same")


# Persons.


def check_personal(faults, spec, place, column):
    """What is made of a person's rows is made of columns that are read."""
    if not faults.unless(is_per_person(spec), f"{place}.kind", f"`{column['kind']}` is made of a person's rows: `table.per` is \"person\" then"):
        return
    names, kind = by_names(spec), column["kind"]
    for member, wanted in (("of", OF_ROWS.get(kind, ())), ("by", NUMBERS if kind == "first" else ())):
        name = column.get(member)
        right = name is None or (name in names and names[name]["kind"] in wanted)
        if not faults.unless(right, f"{place}.{member}", f"`{name}` is no column of the kind {' or '.join(wanted)}"):
            return
    for end in ("bottom", "top"):
        faults.unless(abs(column.get(end, 0)) <= NUMBER_LIMIT, f"{place}.{end}", "a number is within -2^50 and 2^50")
    check_ends(faults, place, column.get("bottom"), column.get("top"))
    faults.unless(is_right_key(mixed_of(column)), f"{place}.if_mixed", "a text is wanted here, without blanks")
    check_keys(faults, spec, place, column)


def check_person(faults, spec):
    """Whom a row is about, and how many rows of a person are kept. So that no two persons become one, their key is read as a text."""
    person, per = spec.get("person"), is_per_person(spec)
    faults.unless(spec["table"].get("per", "person") == "person", "table.per", "it is `person`")
    if not faults.unless(person is not None or not per, "person", "a table per person wants it, with the `column` that says whom a row is about"):
        return
    if person is None:
        return
    rows, name = person.get("rows"), person.get("column")
    faults.unless(rows is not None or (per and name), "person", "`rows` is missing: how many rows a person may have")
    faults.unless(name is not None or not (per or "key" in person), "person", "`column` is missing")
    if name is None:
        faults.unless(0 <= (rows or 0) <= NUMBER_LIMIT, "person.rows", "it is 1 or more; 0 where no row is about a person")
        return
    faults.unless(rows is None or 1 <= rows <= NUMBER_LIMIT, "person.rows", "it is 1 or more")
    faults.unless(is_right_file(person.get("key", "-")), "person.key", NO_FILE)
    column = by_names(spec).get(name, {"kind": "none"})
    if faults.unless(column["kind"] == "text", "person.column", f"`{name}` is no column of the kind text, as which a person's key is read"):
        for member in ("if_missing", "if_bad"):
            why = f"`{name}.{member}` is `{OUT}` or `{STOP}`: under a code persons would be one"
            faults.unless(column.get(member, STOP) in (OUT, STOP), "person.column", why)


# Whole specs.


NO_FILE = f"a file's name has 1 to {FILE_NAME_BYTES} bytes and no control byte"


def check_catalog(faults, catalog):
    if not faults.members(catalog, "catalog", CATALOG, [name for name in CATALOG if name != "limits"]):
        return
    faults.unless(is_right_file(catalog["file"]), "catalog.file", NO_FILE)
    names = [*catalog["analysts"], catalog["owner"]]
    for name in names:
        right = isinstance(name, str) and is_name(name)
        faults.unless(right, "catalog", f"`{name}` is no name: a letter or `_`, then letters, digits and `_`, {NAME_BYTES} at most")
    faults.unless(1 <= len(catalog["analysts"]) <= ANALYSTS, "catalog.analysts", f"1 to {ANALYSTS} names are wanted here")
    faults.unless(len(set(map(str, catalog["analysts"]))) == len(catalog["analysts"]), "catalog.analysts", "a name stands twice")
    faults.unless(1 <= catalog["budget"] <= MOST_BUDGET, "catalog.budget", "1 to 10^18 millionths of epsilon")
    faults.unless(2 <= catalog["capacity"] <= MOST_CAPACITY, "catalog.capacity", f"2 to {MOST_CAPACITY} records, two for each answer")
    for name, most in catalog.get("limits", {}).items():
        faults.unless(name in catalog["analysts"], "catalog.limits", f"`{name}` is none of the analysts")
        whole = type(most) is int and 1 <= most <= MOST_BUDGET
        faults.unless(whole, f"catalog.limits.{name}", "1 to 10^18 millionths of epsilon, which this analyst may spend at most")


def is_encoding(word):
    try:
        return codecs.lookup(word)._is_text_encoding
    except (LookupError, ValueError):
        return False


def check_raw(faults, raw):
    if faults.members(raw, "raw", RAW, ["encoding", "delimiter"]):
        faults.unless(is_encoding(raw["encoding"]), "raw.encoding", f"`{raw['encoding']}` is no encoding that Python knows; `utf-8` and `windows-1252` are usual")
        faults.unless(raw["delimiter"] in DELIMITERS, "raw.delimiter", "it is `,`, `;`, `|` or a tab, which is written \\t")
        faults.unless(raw.get("skip", 0) >= 0, "raw.skip", "records before the header are counted from 0")
        faults.unless(raw.get("ragged", STOP) in (STOP, OUT, "fill"), "raw.ragged", f"it is `{STOP}`, `{OUT}` or `fill`")


def check_columns(faults, spec):
    for number, column in enumerate(spec["columns"]):
        name = f" ({column['name']})" if isinstance(column, dict) and isinstance(column.get("name"), str) else ""
        check_column(faults, column, f"columns[{number}]{name}")
    faults.raise_any()
    names = Counter(column["name"] for column in spec["columns"] if "name" in column and column["kind"] != LEFT_OUT)
    for name in sorted(names):
        faults.unless(names[name] == 1, "columns", f"two columns are called `{name}`")
    faults.raise_any()
    for kinds, check in ((PERSONAL, check_personal), (DERIVED, check_derived)):
        for number, column in enumerate(spec["columns"]):
            if column["kind"] in kinds:
                check(faults, spec, f"columns[{number}] ({column['name']})", column)
        faults.raise_any()
    check_person(faults, spec)
    faults.raise_any()
    faults.unless(1 <= len(kept(spec)) <= COLUMN_LIMIT, "columns", f"{len(kept(spec))} are kept, and a table has 1 to {COLUMN_LIMIT}: leave some out")


def check_spec(spec):
    faults = Faults()
    wanted = {"raw": (dict,), "table": (dict,), "catalog": (dict,), "columns": (list,), "person": (dict,)}
    if not faults.members(spec, "the spec", wanted, ["raw", "table", "catalog", "columns"]):
        faults.raise_any()
    check_raw(faults, spec["raw"])
    faults.members(spec.get("person", {}), "person", PERSON, [])
    if faults.members(spec["table"], "table", TABLE, ["name", "file"]):
        name, file = spec["table"]["name"], spec["table"]["file"]
        faults.unless(is_table_name(name), "table.name", f"`{name}` is no table's name: a letter or `_`, then letters, digits and `_`, {NAME_BYTES} at most, and no word of the language")
        faults.unless(is_right_file(file), "table.file", NO_FILE)
    check_catalog(faults, spec["catalog"])
    check_columns(faults, spec)
    faults.raise_any()
    return spec


def exact(digits):
    """A number with a point or an exponent, as it is written. Of a great exponent its digits would fill the memory."""
    try:
        number = Decimal(digits)
    except ArithmeticError:
        number = None
    if number is None or abs(number.adjusted()) > POWER_LIMIT:
        raise ValueError(f"the exponent of {digits[:40]} isn't within -{POWER_LIMIT} and {POWER_LIMIT}")
    return number


def json_of(text):
    try:
        return json.loads(text, parse_float=exact)
    except RecursionError:
        raise ValueError("it is nested too deep") from None


def read_spec(data):
    try:
        spec = json_of(data.decode("utf-8-sig"))
    except ValueError as fault:
        raise BadSpec(f"it is no JSON value: {fault}") from None
    return check_spec(spec)


def changed(spec, change):
    """With a member put at a path: of `raw`, `table` or `catalog`, or of the column that is called so."""
    path, equals, text = change.partition("=")
    of, point, member = path.partition(".")
    try:
        value = json_of(text)
    except ValueError:
        value = text
    columns = by_names(spec)
    # A column may well be called `person`.
    is_part = of in PARTS and (of != "person" or member in PERSON or of not in columns)
    found = columns.get(of) if not is_part else spec.setdefault(of, {}) if of == "person" else spec[of]
    if not (equals and point and found is not None):
        raise BadSpec(f"--set {change}: PART.MEMBER=VALUE is wanted, PART being {', '.join(PARTS)} or the name of a column: {', '.join(columns)}")
    found[member] = value
    if (of, member) == ("person", "column"):
        fit_to_person(columns.get(str(value), {}))
    if is_part:
        return spec
    if member == "name":
        rename(spec, of, value)
    if member == "kind" and isinstance(value, str) and value in KINDS and value != LEFT_OUT:
        fit_to_kind(found)
    return spec


def rename(spec, before, after):
    """Columns that are made of one go on being made of it, by its new name, and so is whom a row is about."""
    for column in [*spec["columns"], spec.get("person", {})]:
        for member in ("of", "by", "column"):
            of = column.get(member)
            if of == before:
                column[member] = after
            if isinstance(of, list):
                column[member] = [after if name == before else name for name in of]


def fit_to_kind(column):
    """Takes away what another kind of column had."""
    wanted = {**COLUMN, **KINDS[column["kind"]], "note": ()}
    for name in [name for name in column if name not in wanted]:
        del column[name]
    if column["kind"] in NUMBERS and column.get("if_missing") not in (OUT, STOP):
        column.pop("if_missing", None)


def fit_to_person(column):
    """A column whose texts are keys of persons."""
    if "from" in column:
        column["kind"] = "text"
        fit_to_kind(column)
        for member in ("if_missing", "if_bad"):
            if column.get(member) not in (OUT, STOP):
                column.pop(member, None)


# Texts.


def plain(value):
    return int(value) if value == value.to_integral_value() else float(value)


def laid_out(value, indent=""):
    """JSON, in which an object or a list stands in one line where it has room there."""
    line = UNSHOWN.sub(lambda found: f"\\u{ord(found[0]):04x}", json.dumps(value, ensure_ascii=False, default=plain))
    if len(indent) + len(line) <= LINE or not isinstance(value, (dict, list)) or not value:
        return line
    inner = indent + "  "
    if isinstance(value, dict):
        items = [f"{json.dumps(name, ensure_ascii=False)}: {laid_out(item, inner)}" for name, item in value.items()]
        ends = "{}"
    else:
        items, ends = [laid_out(item, inner) for item in value], "[]"
    return f"{ends[0]}\n{inner}" + f",\n{inner}".join(items) + f"\n{indent}{ends[1]}"
