"""What is said to who writes a program in SQL's words."""
import re

from program_parts import type_text
from tables import row_type

SQL = {
    "count": "Counting is `size ..`.", "avg": "There is no mean: ask for the sum and for the count, and divide what you get.",
    "and": "`a AND b` is `if a then b else false`.", "or": "`a OR b` is `if a then true else b`.", "not": "`NOT a` is `if a then false else true`.",
    "min": "The smaller of two is `least <a, b>`; there is no least element of a bag.",
    "max": "The greater of two is `greatest <a, b>`; there is no greatest element of a bag.",
    "where": "Rows are chosen by `filter (fn (..) => ..) ..`.", "select": "Columns are chosen by `map (fn (..) => ..) ..`.",
    "abs": "`greatest <x, -1 * x>` is a number's size.", "between": "`x BETWEEN 15 AND 64` is `if 15 <= x then x <= 64 else false`.",
    "distinct": "There is no `DISTINCT`: rows that are alike all count.",
    "median": "There is no median: count the rows up to a bound, `size (filter (fn (x : num) => x <= 40) ..)`, and halve the range until about half of all "
        "are counted.",
    "histogram": "A histogram is a count a band, each in a line of its own; of a partition's keys, by `askpart` a line a key, which all together cost what "
        "the one with the highest cost does.",
    "group": "There is no `GROUP BY`: ask a line a group, of a partition's keys by `askpart`, which all together cost what the one with the highest cost does.",
    "having": "There is no `HAVING`: ask a line a group, and choose among the answers.",
    "order": "There is no order of rows, and no row is shown.", "limit": "There is no `LIMIT`: no row is shown, and a count counts all that are chosen.",
    "like": "There are no patterns: a text is compared whole, by `==`. Compare each text that is meant, or ask the owner for a column of what matters in it.",
    "from": "There is no `FROM`: a table's name stands where its rows are used, as in `size ..`.",
    "join": "There are no joins: a program sees the rows of each table by themselves.",
    "when": "`CASE WHEN a THEN 1 ELSE 5 END` is `if a then 1 else 5`.",
    "null": "There are no missing values: each cell is a number or a text. What the owner wrote for a missing one is compared by `==`.",
    "stddev": "There is no standard deviation: counts of bands show how a column is spread, and a sum of squares gives it "
        "(`docs/first-programs.md`, \"Correlation\").",
    "sum": "A sum is written in small letters, has bounds, and takes a bag of numbers: `sum[0,5000] (map (fn (..) => ..) ..)`.",
    "quantile": "There are no quantiles: count the rows up to a bound, `size (filter (fn (x : num) => x <= 40) ..)`, and halve the range until that is the "
        "share of all rows that is meant.",
    "corr": "There is no correlation: it is worked out from sums of products and squares (`docs/first-programs.md`, \"Correlation\").",
    "crosstab": "Each cell of a cross table is a count, in a line of its own; of a partition's keys, by `askpart` a line a key, which all together cost what the "
        "one with the highest cost does.",
    "len": "How many elements a bag has is `size ..`; how long a text is can't be asked.",
}  # fmt: skip
LIKE = {
    "avg": "mean average", "distinct": "unique", "quantile": "percentile percentile_cont percentile_disc ntile", "corr": "correlation correl covariance covar_pop covar_samp cov product",
    "crosstab": "pivot", "stddev": "std variance var", "null": "is isnull",
    "when": "case", "len": "length",
}  # fmt: skip
SQL.update({other: SQL[word] for word, others in LIKE.items() for other in others.split()})
# Those of which nothing else could be meant where the program is stuck at them, or after them.
STUCK = "and or not between where select distinct group having order limit like median histogram from join when is quantile percentile".split()


TOTALS = "sum avg median quantile corr stddev min max".split()
CLAUSES = "where join group having order limit".split()


def sql_statement(data, tables):
    """What is said of a program that is a statement of SQL: what it asks for, and each clause; nothing where it is none."""
    words = re.findall(r"\w+|\S", re.sub(r"\"[^\"]*\"|'[^']*'", "", data.decode(errors="replace")).lower())
    if words[:1] != ["select"] or "select" in tables:
        return None
    asked = words[1 : words.index("from")] if "from" in words else words[1:]
    table = next((name for name in tables if name.lower() in words), "..")
    said = []
    if asked == ["*"]:
        said.append(f"A program answers one number, and shows no row: `size {table}` counts rows.")
    if "count" in asked and "distinct" not in asked:
        said.append(f"Counting is `size {table}`.")
    said += [SQL[word] for word in asked if word == "distinct" or SQL.get(word) in [SQL[total] for total in TOTALS]]
    said = (said or [SQL["select"]]) + [SQL[word] for word in CLAUSES if word in words[len(asked) + 1 :]]
    return " ".join(dict.fromkeys(said))


def taken_apart(table, column, body=None):
    names = [c["name"] for c in table["columns"]]
    if len(names) == 1:
        return f"fn ({column} : {table['columns'][0]['type']}) => {body or '..'}"
    steps = []
    for number, name in enumerate(names[:-1]):
        rest = names[-1] if number == len(names) - 2 else "p"
        steps.append(f"let ({name}, {rest}) = p in ")
        if column in (name, rest):
            break
    return f"fn (p : {type_text(row_type(table['columns']))}) => {''.join(steps)}{body or column}"


def sql_word(tokens, place, tables=()):
    """What is said of the word of SQL at a place, which is no name that the program binds, nor a table's."""
    word = tokens[place][1].lower() if tokens[place][0] == "name" else ""
    named = tokens[place][1] in tables or binds(tokens[:place], tokens[place][1])
    return SQL[word] if word in STUCK and not named else None


def binds(tokens, name):
    """Whether a name stands in these tokens where a `let`, a function or a `case` binds it."""
    for place, token in enumerate(tokens):
        before = [one[0] for one in tokens[max(0, place - 4) : place]]
        behind = tokens[place + 1][0] if place + 1 < len(tokens) else ""
        if token[:2] == ("name", name):
            if before[-1:] == ["let"] or before[-2:] == ["let", "!"] or before[-1:] in (["inl"], ["inr"]) and behind == "=>":
                return True
            if before[-1:] == ["("] and behind == ":" or before[-2:] == ["let", "("] or before[-4:-2] == ["let", "("] and before[-1:] == [","]:
                return True
    return False
