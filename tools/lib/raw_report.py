"""The private report of a preparation: what was read, changed, clipped, missing, bad, in no key or left out, with counts and places.

    report(SPEC, FOUND, STOPS)    its text; FOUND is the pass over the raw file, STOPS what kept the table from being written

Cells are counted over all rows that have as many fields as the header, those that are left out among them.
"""
import unicodedata

from lines import harmless
from raw import DELIMITERS
from raw_cells import BAD, KEPT, MISSING, OUT, READ, STOP, trimmed
from raw_persons import persons_part, personal_part
from raw_spec import DERIVED, LEFT_OUT, PERSONAL, kept, keys_of, type_of

SHOWN = 1000
LENGTH = 80
HEAD = """PRIVATE. This report counts rows, and no budget covers it: show it to nobody who may ask.
The promise covers answers from the table as it is written. It does not cover what was chosen by looking at the rows: keys, tops, bottoms,
bands, scales and codes that were taken from this report or from the data say something of the rows themselves, to whoever sees the catalog
or learns them. Take them from what is publicly known. What becomes of a row depends on that row alone, and, where a spec says whom rows
are about, on the other rows of the same person.
"""


def shown(cell):
    text = cell.encode(errors="backslashreplace").decode()
    return repr(text if len(text) <= LENGTH else text[:LENGTH] + "..")


def times(count, what="time"):
    return f"{count} {what}" if count == 1 else f"{count} {what}s"


def bare(text):
    """The letters and digits of a text, without accents and capitals."""
    return "".join(sign for sign in unicodedata.normalize("NFKD", text.casefold()) if sign.isalnum())


def near_words(near, value):
    """The key that a text is, but for capitals, accents and signs."""
    key = near.get(bare(value)) if value else None
    if not key or key == value:
        return ""
    return f"; like the key {key}, which `map`{' or `case`' if key.casefold() == value.casefold() else ''} makes of it"


def listed(lines, most=SHOWN):
    """The first of some lines, and how many more there are."""
    return lines[:most] + ([f"    and {len(lines) - most} more"] if len(lines) > most else [])


def total(entries):
    return sum(entry.count for _, entry in entries)


def becomes(what):
    return {OUT: "the row is left out", STOP: "it stops, unless another column puts the row out"}.get(what, f"`{what}` stands there")


class ColumnReport:
    """What became of the cells of one column."""

    def __init__(self, cell, is_kept):
        self.column, self.reader, self.is_kept = cell.column, cell.reader, is_kept
        # Cells that differ in blanks at their ends alone are told together.
        self.entries = []
        for raw, entry in cell.reader.entries.items():
            self.entries.append((trimmed(raw), entry))

    def of(self, found):
        return [one for one in self.entries if one[1].found == found]

    def together(self, entries):
        """Entries of equal texts, in the order of their first lines, as one row each: text, count, first line, value, why."""
        found = {}
        for text, entry in entries:
            row = found.setdefault(text, [text, 0, entry.line, entry.value, entry.why])
            row[1] += entry.count
        return sorted(found.values(), key=lambda row: (-row[1], row[2]))

    def lines(self):
        column = self.column
        wanted = "" if self.is_kept else ", which isn't kept"
        title = f"column {column['name']}, from `{harmless(column['from'])}`: {column['kind']}{wanted}; {times(total(self.entries), 'cell')}"
        parts = [self.missing(), self.bad(), self.trimmed_cells()]
        parts += [self.numbers()] if self.reader.kind == "num" else [self.texts()]
        return [title, *(f"  {line}" for part in parts for line in part)]

    def missing(self):
        entries = self.of(MISSING)
        if not entries:
            return []
        which = ", ".join(f"{shown(text)} {count}" for text, count, *_ in self.together(entries))
        return [f"missing: {total(entries)} ({which}): {becomes(self.reader.if_missing)}", *self.code_stands_twice()]

    def code_stands_twice(self):
        """A code that is a value as well can't be distinguished from it."""
        codes = {str(what) for what in (self.reader.if_missing, self.reader.if_bad)} - {OUT, STOP}
        same = [one for one in self.of(READ) if one[1].value in codes]
        return [f"the code {same[0][1].value} is also the value of {times(total(same), 'cell')}: they can't be distinguished"] if same else []

    def bad(self):
        entries = self.of(BAD)
        if not entries:
            return []
        lines = [f"    {shown(text)}: {times(count)}, first at line {line}: {why}" for text, count, line, _, why in self.together(entries)]
        return [f"bad: {total(entries)}: {becomes(self.reader.if_bad)}", *listed(lines)]

    def trimmed_cells(self):
        count = sum(entry.count for raw, entry in self.reader.entries.items() if raw != raw.strip())
        return [f"trimmed: {times(count, 'cell')} had blanks at their ends"] if count else []

    # Numbers.

    def numbers(self):
        read = [(int(entry.value), entry) for _, entry in self.of(READ)]
        if not read:
            return ["no number was read"]
        values = [value + entry.over for value, entry in read]
        lines = [f"values: from {min(values)} to {max(values)}, as the table has them but for clips"]
        halves = [entry for _, entry in read if entry.is_rounded]
        if halves:
            lines.append(f"rounded: {times(sum(entry.count for entry in halves), 'cell')} had more places than the scale keeps, first at line {min(entry.line for entry in halves)}")
        return lines + self.clips(read) + self.floor()

    def clips(self, read):
        lines = []
        for end, bound, sign, word in (("top", self.reader.top, 1, "over"), ("bottom", self.reader.bottom, -1, "under")):
            if bound is None:
                continue
            cut = [entry for _, entry in read if entry.over * sign > 0]
            by = sum(entry.over * sign * entry.count for entry in cut)
            verb = "takes" if sign > 0 else "adds"
            lines.append(f"{end} {bound}: {times(sum(entry.count for entry in cut), 'cell')} {word} it, which {verb} {by} {'off' if sign > 0 else 'to'} the sum")
        return lines

    def floor(self):
        """What a sum costs at the smallest EPS."""
        ends = [abs(bound) for bound in (self.reader.top, self.reader.bottom) if bound is not None]
        if self.reader.top is None or not ends:
            return ["no top: analysts choose the bounds of a sum themselves"]
        most = max(ends)
        return [f"a sum between these costs at least {most} millionths of the budget, at the smallest EPS"]

    # Texts.

    def texts(self):
        read = self.together(self.of(READ))
        altered = [row for row in read if row[3] is not None and row[0] != row[3]]
        lines = [f"texts: {len({row[3] for row in read if row[3] is not None})}"]
        if altered:
            changes = [f"    {shown(row[0])} -> {row[3]}: {times(row[1])}" for row in altered]
            lines += ["what became of texts:", *(changes if self.column["kind"] == "key" else listed(changes))]
        lines += self.merged(read)
        return lines + (self.in_keys() if self.column["kind"] == "key" else [])

    def merged(self, read):
        """Texts that became one."""
        found = {}
        for text, _, _, value, why in read:
            if not why:
                found.setdefault(value, []).append(text)
        return [f"one text now, and several before: {value} (from {', '.join(map(shown, texts))})" for value, texts in found.items() if len(texts) > 1]

    def in_keys(self):
        if not self.reader.keys:
            return ["no keys: it makes no partition"]
        counts = dict.fromkeys(self.reader.keys, 0)
        for _, entry in self.entries:
            if entry.fate == KEPT and entry.value in counts:
                counts[entry.value] += entry.count
        lines = ["rows by key (those that other columns put out among them):", *(f"    {key}: {count}" for key, count in counts.items())]
        others = self.together([one for one in self.entries if self.reader.is_other(one[1])])
        near = {bare(key): key for key in reversed(self.reader.keys)}
        if others:
            lines.append(f"in no key: {times(sum(row[1] for row in others), 'cell')}{self.what_of_others()}")
            for text, count, line, value, why in others:
                became = f" -> {value}" if value and value != text else ""
                lines.append(f"    {shown(text)}{became}: {times(count)}, first at line {line}{'' if why else near_words(near, value)}")
        return lines + ["These keys are known to whoever has the catalog"]

    def what_of_others(self):
        what = self.reader.if_other
        return ", which stay in the table and in no part" if what == KEPT else f": {becomes(what)}"


def places(title, found):
    lines = ", ".join(map(str, found.lines))
    return f"{title}: {found.count}, first at line {lines}" if found.count == 1 else f"{title}: {found.count}, first at lines {lines}"


def rows_part(spec, found, stops):
    lines = [f"{found.raw.name}: {found.rows} rows after the header of line {found.line}, in {spec['raw']['encoding']}, parted by {DELIMITERS[spec['raw']['delimiter']]}"]
    if stops:
        lines.append(f"NOTHING IS WRITTEN, for {', '.join(stops)}")
    else:
        lines.append(f"{spec['table']['file']}: {found.written} rows, columns {', '.join(column['name'] for column in kept(spec))}")
    if found.empty:
        lines.append(f"rows without any cell, passed over: {found.empty}")
    if found.short.count:
        lines.append(places("rows that were too short and were filled", found.short))
    for cause, there in found.out.items():
        lines.append(places(f"rows left out, for {cause}", there))
    for cause, there in found.stops.items():
        lines.append(places(f"stopped by {cause}", there))
    return [*lines, "Below, cells of all rows are counted, those of rows that are left out among them, but for `rows of the table`"]


def made_part(spec, column, counts):
    """A column that is made of others, with how many rows of the table each key has."""
    of = column["of"] if isinstance(column["of"], str) else " and ".join(column["of"])
    keys = dict.fromkeys(keys_of(spec, column))
    lines = [f"column {column['name']}, of {of}: {column['kind']}", "  rows of the table by key:"]
    lines += [f"    {key}: {counts.get(key, 0)}" for key in keys]
    others = sorted(((text, count) for text, count in counts.items() if text not in keys), key=lambda other: -other[1])
    return lines + ([f"  in no key: {sum(count for _, count in others)}", *(f"    {shown(text)}: {times(count)}" for text, count in others)] if others else [])


def report(spec, found, stops):
    parts = [HEAD.splitlines(), rows_part(spec, found, stops)]
    parts += [persons_part(spec, found.persons)] if found.persons else []
    parts += [ColumnReport(cell, cell.column in kept(spec)).lines() for cell in found.cells]
    numbers = [column for column in spec["columns"] if column["kind"] in PERSONAL and type_of(spec, column) == "num"]
    parts += [personal_part(column, found.persons.made) for column in numbers]
    parts += [made_part(spec, column, found.made[column["name"]]) for column in kept(spec) if column["kind"] in (*DERIVED, *PERSONAL) and keys_of(spec, column)]
    out = [harmless(column.get("from") or column.get("name", "")) for column in spec["columns"] if column["kind"] == LEFT_OUT]
    if out:
        parts.append([f"left out: {', '.join(out)}"])
    return "\n\n".join("\n".join(part) for part in parts) + "\n"
