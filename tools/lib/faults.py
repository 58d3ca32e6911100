"""What is wrong with a catalog, a key and tables, in words: why the program refuses a file, or what it stumbles over while it reads one.

    catalog_of(NAME)                   the catalog; Fault, with where and why, else
    check_key(NAME)                    Fault where it is no key
    table_of(TABLE, KEYS, TOLD)        a Survey of a table's file (scan.py); Fault where the file can't be read or is too long
    survey_lines(SURVEY, LIMIT)        what else is said of a survey than its first fault
    partition_lines(OWNER, PARTITION, SURVEY, LIMIT)

It goes by the rules alone, as catalog.py and tables.py do, and not by what the program says.
"""
import json
import os
import pwd

from bounds import ANALYSTS, COLUMN_LIMIT, FILE_LIMIT, FILE_NAME_BYTES, KEY_BYTES, KEYS, MOST_BUDGET, MOST_CAPACITY, NAME_BYTES, OWNERS, PARTITION_LIMIT, TABLES
from catalog import BadCatalog, read
from programs import WORDS
from scan import raw, scan, why_no_key
from tables import shown

KEY_LENGTH = 32
# What is wanted of each member: an object's members, a list's least and greatest number of items, a number's limits.
MEMBERS = {
    "": ["analysts", "owners"],
    "owners": ["name", "budget", "capacity", "tables", "partitions"],
    "tables": ["name", "file", "columns"],
    "columns": ["name", "type"],
    "partitions": ["name", "table", "column", "keys"],
    "limits": ["analyst", "budget"],
}
MAY_LACK = {"owners": ["limits"]}
COUNTS = {
    "analysts": (1, ANALYSTS), "owners": (1, OWNERS), "tables": (1, TABLES), "partitions": (0, PARTITION_LIMIT), "limits": (0, ANALYSTS),
    "columns": (1, COLUMN_LIMIT), "keys": (1, KEYS),
}  # fmt: skip
RANGES = {"budget": (1, MOST_BUDGET), "capacity": (2, MOST_CAPACITY)}
FORMS = {
    "file": f"a file's name has 1 to {FILE_NAME_BYTES} bytes and no control byte",
    "type": "a type is `num` or `text`",
    "keys": f"a key has 1 to {KEY_BYTES} bytes, and no blank and no control byte among them",
}
NAME_FORM = f"a name is a letter or `_`, then letters, digits and `_`, {NAME_BYTES} bytes at most, without other letters than a to z and A to Z"
# What tools/find_fault, whose option that is, says with what it leaves out.
ALL = "(--all tells them)"
NO_CAUSE = "it is nested over 127 deep, or has half of a pair of \\u escapes"


class Fault(Exception):
    """Why a file is refused."""


class Unreadable(Fault):
    """The system's error at a file that is there: the program ends with status 5, and refuses nothing."""


def whoever():
    try:
        return pwd.getpwuid(os.geteuid()).pw_name
    except KeyError:
        return f"the user {os.geteuid()}"


def bytes_of(name):
    try:
        with open(name, "rb") as file:
            data = file.read(FILE_LIMIT + 1)
    except (FileNotFoundError, NotADirectoryError):
        raise Fault(f"there is no such file in {os.getcwd()} (names are relative to the folder in which the program runs)") from None
    except PermissionError as fault:
        raise Unreadable(f"it can't be read: {fault.strerror} for {whoever()}; the program ends with status 5") from None
    except OSError as fault:
        raise Unreadable(f"it can't be read: {fault.strerror}; the program ends with status 5") from None
    if len(data) > FILE_LIMIT:
        raise Fault(f"it has over {FILE_LIMIT} bytes (2^26)")
    return data


# Catalogs.


def walked(value, path):
    for member, order in path:
        value = value[member][order]
    return value


def path_text(fault):
    steps = [f"{member}[{order}]" for member, order in fault.path]
    is_item = fault.path and fault.path[-1][0] == fault.member
    return ".".join(steps + ([] if is_item or not fault.member else [fault.member])) or "the whole file"


def wanted_kind(fault, is_item):
    if is_item or not fault.member:
        return "a text" if fault.member in ("analysts", "keys") else "an object"
    if fault.member in COUNTS:
        return "a list"
    return "a whole number from 0 on and below 2^64, without a point or an exponent," if fault.member in RANGES else "a text"


def reason(fault, data):
    is_item = bool(fault.path) and fault.path[-1][0] == fault.member
    if fault.kind == "Syntax":
        return f"it is no JSON value: {fault.__cause__ or NO_CAUSE}"
    if fault.kind == "Kind":
        return f"{wanted_kind(fault, is_item)} is wanted here"
    if fault.kind == "Missing":
        return "this member is missing"
    found = walked(json.loads(data), fault.path)
    if fault.kind == "Unknown":
        of = fault.path[-1][0] if fault.path else ""
        names = MEMBERS[of] + MAY_LACK.get(of, [])
        unknown = sorted(set(found) - set(names))[0]
        return f"`{unknown}` is no member; here stand {', '.join(names)}"
    if fault.kind == "Double":
        if fault.member == "limits":
            return f"a second limit for {found['analyst']}"
        return f"a second one of the name {found if isinstance(found, str) else found['name']}"
    value = found if is_item else found[fault.member]
    if fault.kind == "Count":
        return "{} stand here, and {} to {} may".format(len(value), *COUNTS[fault.member])
    if fault.kind == "Range":
        return "{} isn't from {} to {}".format(value, *RANGES[fault.member])
    if fault.kind == "NoSuch" and fault.member == "analyst":
        return f"the catalog has no analyst `{value}`"
    if fault.kind == "NoSuch":
        return f"the owner has no table `{value}`" if fault.member == "table" else f"`{found['table']}` has no text column `{value}`"
    if fault.member == "name" and value in WORDS:
        return f"`{value}` is a word of the language, so no table can have this name"
    return f"`{value}`: {FORMS.get(fault.member, NAME_FORM)}"


def catalog_of(name):
    data = bytes_of(name)
    try:
        return read(data)
    except BadCatalog as fault:
        raise Fault(f"{path_text(fault)}: {reason(fault, data)}") from None

# The key.


def check_key(name):
    data = bytes_of(name)
    if len(data) != KEY_LENGTH:
        ended = " A line end stands after it." if len(data) == KEY_LENGTH + 1 and data.endswith(b"\n") else ""
        raise Fault(f"it has {len(data)} bytes, and a key has {KEY_LENGTH}.{ended}" if ended else f"it has {len(data)} bytes, and a key has {KEY_LENGTH}")


# Tables.


def keys_of(owner, table):
    """The keys of all partitions of a table, by the number of their column: a text that is in one of them all needn't be told."""
    names, found = [column["name"] for column in table["columns"]], {}
    for partition in owner["partitions"]:
        if partition["table"] == table["name"]:
            number, keys = names.index(partition["column"]), set(partition["keys"])
            found[number] = found[number] & keys if number in found else keys
    return found


def table_of(owner, table, told=lambda rows: None):
    return scan(bytes_of(table["file"]), table["columns"], keys_of(owner, table), told)


def times(count):
    return {1: "once", 2: "twice"}.get(count, f"{count} times")


def plural(count, word):
    return f"{count} {word}" if count == 1 else f"{count} {word}s"


def listed(parts, limit):
    """Parts, of which at most so many are said, and how many are left out."""
    parts = list(parts)
    more = f", and {len(parts) - limit} more {ALL}" if len(parts) > limit else ""
    return ", ".join(parts[:limit]) + more


def text_of(text):
    return repr(shown(raw(text)))[:90]


def tallied(tally, limit):
    common = sorted(tally.counts, key=lambda text: (-tally.counts[text], tally.lines[text]))
    return listed((f"{text_of(text)} {times(tally.counts[text])} (first in line {tally.lines[text]})" for text in common), limit)


def survey_lines(survey, limit):
    """All bad cells by column, and what hinders nobody but whoever asks of texts."""
    names, lines = [column["name"] for column in survey.columns], []
    if survey.header is not None:
        return header_lines(survey.header, [name.encode() for name in names])
    for (number, why), tally in sorted(survey.bad.items()):
        lines.append(f"column {names[number]}: {WHY_BAD[why]} in {plural(tally.cells, 'cell')}: {tallied(tally, limit)}")
    if survey.widths:
        told = listed((f"{plural(width, 'field')} {times(count)} (first in line {line})" for width, (count, line) in sorted(survey.widths.items())), limit)
        lines.append(f"rows with another number of fields than the header's {len(names)}: {told}")
    if survey.unclosed is not None:
        lines.append(f"a quote (`\"`) isn't closed: the record that begins in line {survey.unclosed} goes on to the end of the file")
    for number, tally in survey.unquotable.items():
        if tally.cells:
            said = "a `\"` or a control byte, which no program can write between quotes"
            lines.append(f"note: column {names[number]}: {tally.texts()} texts, in {plural(tally.cells, 'row')}, with {said}: {tallied(tally, limit)}")
        over = [tally.lines[text] for text in tally.counts if "\n" in text or "\r" in text]
        if over:
            lines.append(f"note: column {names[number]}: a text in quotes goes over several lines (first in line {min(over)}): is a `\"` missing there? "
                f"Rows are swallowed so.")
    for number, tally in survey.unkeyed.items():
        if tally.cells:
            reasons = sorted({why_no_key(text) for text in tally.counts})
            said = f"can't be keys of a partition ({', '.join(reasons)})"
            lines.append(f"note: column {names[number]}: {tally.texts()} texts, in {plural(tally.cells, 'row')}, {said}: {tallied(tally, limit)}")
    if survey.marks:
        lines.append("note: it begins with a byte order mark, which is passed over")
    return lines


WHY_BAD = {
    "empty": "nothing, where a whole number is wanted,", "no whole number": "no whole number", "out of range": "a number that isn't within -2^50 and 2^50",
    f"over {KEY_BYTES} bytes": f"over {KEY_BYTES} bytes",
}  # fmt: skip


def header_lines(found, wanted):
    if sorted(found) == sorted(wanted):
        return ["the header has the catalog's columns in another order: they must stand in the same one"]
    lines = []
    lacking, more = ([name for name in a if name not in b] for a, b in ((wanted, found), (found, wanted)))
    for name in more:
        likely = [other for other in lacking if other.lower() == name.strip(b" \t\"").lower()]
        if likely:
            lines.append(f"{shown(name)!r} differs from the column {shown(likely[0])!r} by blanks, quotes, or upper and lower case")
    told = [f"the header lacks {shown(b', '.join(lacking))}"] * bool(lacking) + [f"it has {shown(b', '.join(more))}, which the catalog lacks"] * bool(more)
    return lines + ["; ".join(told)] if told else lines + ["a name stands in the header twice, or one too seldom"]


# Partitions.


def likely_key(text, keys):
    """A key from which a text differs by blanks, or upper and lower case alone."""
    plain = "".join(text.split()).lower()
    return next((key for key in keys if "".join(key.split()).lower() == plain), None)


def partition_lines(owner, partition, survey, limit):
    number = [column["name"] for column in survey.columns].index(partition["column"])
    keys = {key.encode().decode("latin-1"): key for key in partition["keys"]}
    counts, lines = survey.texts[number], survey.lost[number]
    lost = sorted((text for text in counts if text not in keys), key=lambda text: (-counts[text], lines[text]))
    inside = sum(count for text, count in counts.items() if text in keys)
    outside = sum(counts[text] for text in lost)
    yield f"partition {partition['name']} of {owner['name']}: {inside} rows in {len(keys)} parts, {outside} in none"

    def told(text):
        near = likely_key(text, keys)
        meant = f", like the key {keys[near]}" if near else ""
        return f"{text_of(text)} {times(counts[text])} (first in line {lines[text]}{meant})"

    if lost:
        yield f"    texts in no key: {listed(map(told, lost), limit)}"
    empty = [name for key, name in keys.items() if not counts[key]]
    if empty:
        yield f"    keys without rows: {listed(empty, limit)}"
