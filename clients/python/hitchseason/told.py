"""What the shell shows, for a terminal of so many columns, or in plain lines where COLUMNS is nothing.

    folded(TEXT, COLUMNS)            lines folded at blanks; of a marked line that is too long, what stands around its mark
    answered(KNOWN, COLUMNS)         an answer, groups, a cross table or the greatest keys, with their intervals
    owner_told(VIEW), named(..)      an owner's tables and partitions, or those of one name
"""
import re
import textwrap

from . import borrowed, faults
from .answers import PERCENTS, Crosstab, Groups, Top, ends_written, laid_out, paid, rows_said, units, written

MARK = re.compile(r" *\^+")
LEAST = 20

harmless = borrowed.lines.harmless


def folded(text, columns):
    if not columns:
        return text
    lines, found, at, columns = harmless(text).split("\n"), [], 0, max(columns, LEAST)
    while at < len(lines):
        if at + 1 < len(lines) and MARK.fullmatch(lines[at + 1]):
            found += around(lines[at], lines[at + 1], columns)
            at += 2
        else:
            found += folded_line(lines[at], columns)
            at += 1
    return "\n".join(found)


def folded_line(line, columns):
    if len(line) <= columns:
        return [line]
    indent = " " * min(len(line) - len(line.lstrip(" ")) + 2, columns // 2)
    return textwrap.wrap(line, columns, subsequent_indent=indent, break_on_hyphens=False) or [""]


def around(line, mark, columns):
    """A line and its mark, both cut alike."""
    if len(line) <= columns:
        return [line, mark[:columns]]
    begin = max(0, min(mark.index("^") - columns // 3, len(line) - columns))
    shown = line[begin : begin + columns]
    shown = f"..{shown[2:]}" if begin else shown
    shown = shown if begin + columns >= len(line) else f"{shown[:-2]}.."
    return [shown, mark[begin : begin + columns]]


def pieces(words, columns):
    """Words with two blanks between them, in as few lines as the columns allow."""
    lines = [words[0]]
    for word in words[1:]:
        if columns and len(lines[-1]) + 2 + len(word) > columns:
            lines.append(f"  {word}")
        else:
            lines[-1] += f"  {word}"
    return "\n".join(lines)


# Answers.


def answered(known, columns):
    if isinstance(known, (Top, Crosstab)):
        return f"{known}\n{paid(known)}"
    if isinstance(known, Groups):
        return f"{groups_table(known, columns)}\n{paid(known)}"
    intervals = [f"{percent} of 100: {ends_of(known, percent)}" for percent in PERCENTS]
    return f"{pieces([written(known.value), *intervals], columns)}\n{paid(known)}"


def ends_of(known, percent):
    return ends_written(*known.interval(percent))


def groups_table(groups, columns):
    """A line a key, with all intervals where they fit, else with that of 95 of 100."""
    for percents in (PERCENTS, ("95",)):
        head = ["", "value", *(f"{percent} of 100" for percent in percents)]
        rows = [[key, written(answer.value), *(ends_of(answer, percent) for percent in percents)] for key, answer in groups.items()]
        text = laid_out([head, *rows])
        if not columns or len(text.split("\n", 1)[0]) <= columns:
            break
    return text


# Tables and partitions.


def owner_told(view, left=None):
    """With the budget of the catalog, or as it is now, by what `left` says."""
    entry = view.entry
    lines = [f"{view.name}: budget {units(entry['budget'])}, room for {entry['capacity'] // 2} answers"]
    if left is not None and left.budget != entry["budget"]:
        granted = f"{units(left.budget)}, of which {units(left.budget - entry['budget'])} were granted since"
        lines = [f"{view.name}: budget {granted}; {units(left.left)} left, room for {(entry['capacity'] - left.records) // 2} more answers"]
    if view.person is not None:
        lines.append(f"a person has at most {rows_said(view.person)} in all tables together: epsilon for a person is what is taken, times {view.person}")
    for table in entry["tables"]:
        lines.append(f"table {table['name']}: {', '.join(column['name'] + ' ' + column['type'] for column in table['columns'])}")
    return "\n".join([*lines, *map(partition_told, entry["partitions"])])


def partition_told(partition):
    keys = len(partition["keys"])
    return f"partition {partition['name']}: rows of {partition['table']} by {partition['column']}, {keys} key{'s' if keys > 1 else ''}"


def named(view, name, columns):
    """What has this name: a table, a partition, or both."""
    tables, partitions = ([one for one in view.entry[kind] if one["name"] == name] for kind in ("tables", "partitions"))
    if not tables + partitions:
        names = [one["name"] for kind in ("tables", "partitions") for one in view.entry[kind]]
        raise faults.Refused(f"{view.name} has no table and no partition `{name}`: {faults.known(name, names, 'it has')}")
    found = [table_told(table, view.entry["partitions"]) for table in tables]
    found += [f"{partition_told(one)}\n{pieces(one['keys'], columns)}" for one in partitions]
    return "\n".join(found)


def table_told(table, partitions):
    rows = [[f"  p.{column['name']}", column["type"], column.get("meaning", "")] for column in table["columns"]]
    widths = [max(len(row[place]) for row in rows) for place in range(2)]
    lines = [f"{row[0].ljust(widths[0])}  {row[1].ljust(widths[1])}  {row[2]}".rstrip() for row in rows]
    of_it = [line.strip() for line in borrowed.public.persons_line(table.get("person"))] + [table[name] for name in ("left_out",) if name in table]
    of_it += [partition_told(one) for one in partitions if one["table"] == table["name"]]
    return "\n".join([f"table {table['name']}, whose rows are bound by `fn (p : row {table['name']}) => ..`", *lines, *of_it])


def listed(rows, columns):
    """Pairs of a command and what it does, beside one another or, where that is narrow, below."""
    width = max(len(command) for command, _ in rows)
    if columns and columns < width + 40:
        return "\n".join(f"{command}\n  {said}" for command, said in rows)
    lines = []
    for command, said in rows:
        first, *more = textwrap.wrap(said, (columns or 140) - width - 2)
        lines += [f"{command.ljust(width)}  {first}", *(f"{' ' * width}  {line}" for line in more)]
    return "\n".join(lines)
