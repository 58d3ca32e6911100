"""Hints, which speak of the bare language, in what programs with columns by name have: rows and columns, and the client's calls.

    for_client(HINT, REFUSAL, SOURCE)    of a program that the analyst wrote as SOURCE
"""
import re

import program_parts
import sql_words
import tables


def for_client(hint, refusal, source):
    if hint is None:
        return None
    named = [table for table in refusal.house.owner["tables"] if len(table["columns"]) > 1]
    return of_column(hint, refusal, source, named) or of_rows(of_calls(hint, refusal, source), named)


def of_column(hint, refusal, source, named):
    """Of a column's name that stands alone, in no `p.`."""
    if refusal.words[:2] != ["30", "unbound"]:
        return None
    start, end = refusal.numbers()[1:3]
    name = refusal.data[start:end].decode()
    table = next((table["name"] for table in named if hint.startswith(f"`{name}` is a column of `{table['name']}`")), None)
    if table is None:
        return None
    # A row that is bound before it, if there is one.
    bound = re.findall(rf"\(\s*(\w+)\s*:\s*row\s+{re.escape(table)}\s*\)", source[: refusal.text.written.place(start, end)[0]].decode(errors="replace"))
    row = bound[-1] if bound else "p"
    return f"`{name}` is a column of `{table}`, and no name: write `{row}.{name}`, where `fn ({row} : row {table})` binds the row."


def of_rows(hint, named):
    """Rows are bound by `row TABLE`, and not taken apart."""
    kinds = [program_parts.type_text(tables.row_type(table["columns"])) for table in named]
    for table, kind in zip(named, kinds):
        if kinds.count(kind) > 1:
            continue
        names = [column["name"] for column in table["columns"]]
        for place in reversed(range(len(names))):
            apart = sql_words.taken_apart(table, names[place])[: -len(names[place])]
            taken = "|".join(names[: max(place, 1) + 1] if place >= len(names) - 2 else names[: place + 1])

            def by_name(found, table=table, taken=taken):
                return f"fn (p : row {table['name']}) => " + re.sub(rf"\b({taken})\b", r"p.\1", found[1])

            hint = re.sub(re.escape(apart) + "([^`]*)", by_name, hint)
        hint = hint.replace(f": {kind})", f": row {table['name']})").replace(f"`{kind}`", f"`row {table['name']}`")
    return hint


def of_calls(hint, refusal, source):
    """What SQL has and a program hasn't may be a call."""
    owner, words = refusal.house.owner, re.findall(r"\w+", source.decode(errors="replace"))
    table, column = meant(owner["tables"], words)
    calls = {
        "avg": ("A mean", "mean", (table, column, "LOW", "HIGH"), "charge"),
        "stddev": ("A variance, whose root is the standard deviation,", "variance", (table, column, "LOW", "HIGH"), "charge"),
        "median": ("A median", "median", (table, column, "LOW", "HIGH"), "charge"),
        "quantile": ("A quantile", "quantile", (table, column, "SHARE", "LOW", "HIGH"), "charge"),
    }
    if owner["partitions"]:
        partition = owner["partitions"][0]["name"]
        calls["histogram"] = ("A histogram of a partition's keys", "histogram", (partition,), "eps")
        calls["group"] = ("A program of each key of a partition", "groups", (partition, "PROGRAM"), "eps")
        calls["crosstab"] = ("A cross table of a joint column's keys", "crosstab", ("PARTITION",), "eps")
    for word, call in calls.items():
        hint = hint.replace(sql_words.SQL[word], called(owner["name"], *call))
    return hint


def called(owner, what, name, words, price):
    """As a client has it, and as the prompt has it."""
    given = ", ".join(word if word.isupper() else f'"{word}"' for word in words)
    return f"{what} is a call: `{owner}.{name}({given}, {price}=..)`, at the prompt `\\a {name} {' '.join(words)} {price}=..`."


def meant(tables_of_owner, words):
    """The table and the column of numbers that a program speaks of: COLUMN where it names none."""
    for word in words:
        for table in tables_of_owner:
            if any(column["name"] == word and column["type"] == "num" for column in table["columns"]):
                return table["name"], word
    return next((table["name"] for table in tables_of_owner if table["name"] in words), tables_of_owner[0]["name"]), "COLUMN"
