"""Rows by the person whom they are about: which are kept where somebody has too many, and one row a person that is made of them.

    key_in(FILE)                a key that is there, or nothing; BadKey, else
    Persons(SPEC, KEY, NAMES)   takes rows with their persons; `rows` gives those of the table
    persons_part(..)            what the private report says of them

Of a person's rows those are kept whose HMAC-SHA-256 under the key is least: that of [person, cells, number] as Python's json.dumps writes it, in
which the number, from 0, says which of the person's equal rows it is. So what is kept depends on the key and on that person's rows alone,
and neither on their order nor on what is in them. A row's cells are those that its table has, so that the numbering of a raw file changes nothing.
"""
import hmac
import json
import os
import re
import secrets
from collections import Counter
from heapq import nsmallest
from operator import itemgetter

from raw_cells import MISSING, READ, Entry
from raw_spec import PERSONAL, by_names, is_per_person, kept, mixed_of, person_column, type_of
from bounds import NUMBER_LIMIT


DIGITS = 64


class BadKey(Exception):
    """Why a file has no key by which rows are chosen."""


def key_in(name):
    try:
        with open(name, encoding="ascii", errors="replace") as file:
            others = os.fstat(file.fileno()).st_mode & 0o077
            digits = file.read(DIGITS + 2).strip()
    except FileNotFoundError:
        return None
    except OSError as fault:
        raise BadKey(f"{name} can't be read: {fault.strerror}") from None
    if not re.fullmatch(f"[0-9a-f]{{{DIGITS}}}", digits):
        raise BadKey(f"{name} is there and has no key by which a person's rows are chosen: name another file by person.key")
    if others:
        raise BadKey(f"{name} has the key by which a person's rows are chosen, and others can read it: chmod 600 {name}")
    return bytes.fromhex(digits)


def new_key():
    return secrets.token_bytes(DIGITS // 2)


class Persons:
    """Rows as lists of texts, or, where one a person is made, of entries; NAMES are those of their columns."""

    def __init__(self, spec, key, names):
        self.key, self.most, self.rows_of, self.taken, self.cut = key, spec["person"].get("rows"), {}, 0, Counter()
        self.made = OnePerson(spec, names) if is_per_person(spec) else None

    def add(self, person, row):
        self.rows_of.setdefault(person, []).append((self.taken, row))
        self.taken += 1

    def kept_of(self, person, rows):
        """Of a person's rows at most so many."""
        if self.most is None or len(rows) <= self.most:
            return rows
        seen, ranked = Counter(), []
        for order, row in rows:
            cells = [cell if isinstance(cell, str) else shown(cell) for cell in row]
            number = seen[json.dumps(cells)]
            seen[json.dumps(cells)] += 1
            ranked.append((hmac.digest(self.key, json.dumps([person, cells, number]).encode(), "sha256"), (order, row)))
        self.cut[person] = len(rows) - self.most
        return sorted((row for _, row in nsmallest(self.most, ranked, key=itemgetter(0))), key=itemgetter(0))

    def rows(self):
        """The rows of the table: those that are kept in the raw file's order, or one a person, in that of their first ones."""
        found = {person: self.kept_of(person, rows) for person, rows in self.rows_of.items()}
        if self.made:
            return [self.made.row([row for _, row in rows]) for rows in found.values()]
        return [row for _, row in sorted((row for rows in found.values() for row in rows), key=itemgetter(0))]

    def counts(self):
        """How many persons have how many rows, before the cut."""
        return sorted(Counter(map(len, self.rows_of.values())).items())


def shown(entry):
    """A cell's value; a code differs from the same number that was read."""
    return entry.value if entry.found == READ else [entry.value]


# One row of all rows of a person.


def number_of(entry):
    return int(entry.value)


class OnePerson:
    """Makes the values of a person's columns. Cells for which a code stands are passed over, unless there are no others."""

    def __init__(self, spec, names):
        columns, person = by_names(spec), person_column(spec)
        wanted = [column for column in spec["columns"] if column["kind"] in PERSONAL]
        self.columns = [(column, names.index(column["of"]) if "of" in column else None) for column in wanted]
        self.numbers = {column["name"]: type_of(spec, column) == "num" for column in wanted}
        self.by = {column["name"]: names.index(column["by"]) for column in wanted if "by" in column}
        # The person's key, where it is kept.
        self.person = names.index(person) if columns[person] in kept(spec) else None
        self.names = [column["name"] for column in wanted] + ([person] if self.person is not None else [])
        # Of each column of numbers the least and the greatest value, and how many were under the bottom and over the top.
        self.ends = {column["name"]: [None, None, 0, 0] for column in wanted if self.numbers[column["name"]]}

    def row(self, rows):
        """An entry for each column."""
        made = [self.one(column, at, rows) for column, at in self.columns]
        return made + ([rows[0][self.person]] if self.person is not None else [])

    def one(self, column, at, rows):
        kind = column["kind"]
        if kind == "count":
            return self.number(column, len(rows))
        known = [row for row in rows if row[at].found == READ]
        if kind == "shared":
            texts = {row[at].value for row in known or rows}
            return Entry(None, READ if known else MISSING, texts.pop() if len(texts) == 1 else mixed_of(column))
        if kind == "first":
            return self.first(column, at, known or rows)
        if not known:
            return min((row[at] for row in rows), key=number_of)
        return self.number(column, {"sum": sum, "least": min, "greatest": max}[kind](number_of(row[at]) for row in known))

    def first(self, column, at, rows):
        """The cell of the row with the least number; of several such rows the least cell. A row whose number isn't known comes last."""
        by, is_number = self.by[column["name"]], self.numbers[column["name"]]

        def place(row):
            return row[by].found != READ, number_of(row[by]), number_of(row[at]) if is_number else row[at].value

        entry = min(rows, key=place)[at]
        return self.number(column, number_of(entry)) if is_number and entry.found == READ else entry

    def number(self, column, value):
        ends = self.ends[column["name"]]
        ends[:2] = (value if end is None else take(end, value) for take, end in zip((min, max), ends[:2]))
        bottom, top = column.get("bottom", -NUMBER_LIMIT), column.get("top", NUMBER_LIMIT)
        ends[2] += value < bottom
        ends[3] += value > top
        return Entry(None, READ, str(max(bottom, min(top, value))))


# The report.


def persons_part(spec, persons):
    """How many persons have how many rows, how many of these are cut, and what was made of them."""
    most, counts = persons.most, persons.counts()
    bound = f", of whom at most {most} rows each are kept" if most is not None else ""
    lines = [f"persons, by {person_column(spec)}: {len(persons.rows_of)}{bound}", "  how many persons have how many rows that nothing else puts out:"]
    lines += [f"    {rows} {'row' if rows == 1 else 'rows'}: {count}" for rows, count in counts]
    if most is not None:
        lines.append(f"  rows cut: {sum(persons.cut.values())}, of {len(persons.cut)} persons")
        lines.append("  Which of a person's rows are cut depends on that person's rows and the key alone. Cutting rows changes counts")
    lines.append("  Take the number of rows from what is known of such tables: these counts are private, and no budget covers them")
    return lines


def personal_part(column, made):
    """A column of numbers that is made of a person's rows."""
    least, greatest, under, over = made.ends[column["name"]]
    of = f" of {column['of']}" if "of" in column else ""
    lines = [f"column {column['name']}: {column['kind']}{of} of a person's rows"]
    lines.append("  no number is known" if least is None else f"  values: from {least} to {greatest}, before clips")
    for end, count, word in (("bottom", under, "under"), ("top", over, "over")):
        if end in column:
            lines.append(f"  {end} {column[end]}: {count} {'person is' if count == 1 else 'persons are'} {word} it")
    return lines
