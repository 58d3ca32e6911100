"""Hints next to programs that are no terms: the refusals 20 to 22. Each is given a Refusal, and answers a sentence or nothing."""
import re

from bounds import HALF, NAME_BYTES, NUMBER_LIMIT, PROGRAM_LIMIT, TEXT_LIMIT, TOKEN_LIMIT
from program_parts import place_of, shown, type_text
from programs import WORDS, tokens_of
from sql_words import SQL, binds, sql_statement, sql_word, taken_apart
from tables import row_type

NO_COMMENTS = "There are no comments."


def in_comment(data, place):
    """Whether the place's line has `--`, `//` or `/*` before it or there, outside texts. `--5` is two signs of a number."""
    line = re.sub(rb'"[^"]*"', b'""', data[data.rfind(b"\n", 0, place) + 1 : place + 2])
    return re.search(rb"--(?![0-9])|//|/\*", line) is not None


def hint_of_column(refusal, place):
    """Of the point in `p.age`."""
    name = re.match(rb"[A-Za-z0-9_]*", refusal.data[place + 1 :])[0].decode()
    for table in refusal.house.owner["tables"]:
        if name in [column["name"] for column in table["columns"]]:
            return f"Columns have no names in a program. A function takes one out of a row: `{taken_apart(table, name)}`."
    return "Columns have no names in a program. `let (x, p) = p in ..` takes the first one off a row."


def hint_of_token(refusal):
    """Of the place, and of the statement, or the call, of SQL that the program may be."""
    if len(refusal.data) > PROGRAM_LIMIT:
        return f"A program has at most {PROGRAM_LIMIT} bytes, and this one has {len(refusal.data)}."
    tables = [table for table, _ in refusal.house.tables]
    first = tokens_of(refusal.data[: int(refusal.words[1])])[:2]
    called = SQL.get(first[0][1].lower()) if [token[0] for token in first] == ["name", "("] and first[0][1] not in tables else None
    said = sql_statement(refusal.data, tables) or called
    return f"{hint_of_byte(refusal)} {said}" if said else hint_of_byte(refusal)


def hint_of_dots(data, place):
    """Of `sum[0..100]`."""
    before, after = re.search(rb"(sum|clip)\s*\[\s*(-?\s*[0-9]+)\s*$", data[:place]), re.match(rb"\.\.+\s*(-?\s*[0-9]+)?", data[place:])
    if not (before and after):
        return None
    word, low, high = before[1].decode(), before[2].decode(), (after[1] or b"100").decode()
    return f"A comma stands between the bounds of `{word}`: `{word}[{low},{high}] ..`."


def hint_of_quote(rest):
    """Of a text in single quotes."""
    found = re.match(rb"'([^'\"\n]{1,64})'", rest)
    return f'A text stands in `"`, as in `"{shown(found[1]) if found else "north"}"`.'


def hint_of_byte(refusal):
    data, place = refusal.data, int(refusal.words[1])
    first, rest = data[place], data[place:]
    if in_comment(data, place):
        return NO_COMMENTS
    if len(tokens_of(data[:place])) == TOKEN_LIMIT:
        return f"A program has at most {TOKEN_LIMIT} tokens. Give what is repeated a name by `let`."
    if chr(first).isdigit():
        return f"Numbers are at most {NUMBER_LIMIT}."
    if first < 0x80 and (chr(first).isalpha() or first == ord("_")):
        return f"A name has at most {NAME_BYTES} letters, digits and `_`."
    if first == ord('"'):
        inside = rest[1:].split(b'"')[0]
        if len(rest) < 2 or b'"' not in rest[1:]:
            return 'The text isn\'t closed: it ends at the next `"`, and there is none.'
        return f"A text has at most {TEXT_LIMIT} bytes." if len(inside) > TEXT_LIMIT else "A text has no line ends, tabs or other control bytes in it."
    if first == ord("."):
        bounds = hint_of_dots(data, place)
        if bounds:
            return bounds
    others = {
        "'": hint_of_quote(rest),
        ".": "Numbers are whole. Count in tenths or cents, say, in the table itself.",
        ";": "There are no statements: `let x = .. in ..` gives a part a name.",
        "#": NO_COMMENTS,
        "{": "Parentheses are round.",
        "}": "Parentheses are round.",
        "%": "There is no remainder, and no division.",
    }
    before = tokens_of(data[:place])[-1:]
    if first == ord(".") and before and before[0][0] == "name" and before[0][3] == place:
        return hint_of_column(refusal, place)
    if first >= 0x80:
        return "Letters outside ASCII stand in texts alone."
    return others.get(chr(first), f"`{shown(rest[:1])}` stands in texts alone.")


ATOM_ENDS = ("name", "number", "quoted", "true", "false", ")", ">")
TAKES_ATOMS = ("fst", "snd", "size", "least", "greatest", "map", "filter", "split", "union", "]")
LONG = ("fun", "fn", "let", "if", "case", "fst", "snd", "size", "least", "greatest", "map", "filter", "split", "union", "sum", "clip", "inl", "inr", "!")


def open_brackets(tokens):
    """The places of brackets that aren't closed, the innermost last."""
    closes, stack = {")": "(", "]": "[", ">": "<"}, []
    for place, token in enumerate(tokens):
        if token[0] in closes.values():
            stack.append(place)
        elif token[0] in closes and stack and tokens[stack[-1]][0] == closes[token[0]]:
            stack.pop()
    return stack


def operand_before(tokens, place):
    """Where what stands before a sign begins."""
    depth = 0
    while place > 0:
        kind = tokens[place - 1][0]
        depth += {")": 1, "]": 1, "(": -1, "[": -1}.get(kind, 0)
        if depth < 0 or (depth == 0 and kind not in ATOM_ENDS + LONG + ("(", "[", "]")):
            break
        place -= 1
    return place


def hint_of_times(refusal, tokens, place):
    if place + 1 < len(tokens) and tokens[place + 1][0] == "number" and place > 0:
        begin = operand_before(tokens, place)
        left = refusal.text.of(tokens[begin][2], tokens[place - 1][3])
        return f"The factor stands on the left: write `{tokens[place + 1][1]} * {left}`."
    return "One factor must be a number that is written in the program, and it stands on the left: `2 * ..`." + of_halvings(tokens, place, "multiplied")


def of_halvings(tokens, place, done):
    """What is said next to a product or quotient that stands in a function."""
    if not {"fun", "fn"} & set(open_parts(tokens[:place])):
        return ""
    return f" Numbers of one row are {done} by halvings (`docs/first-programs.md`, \"Correlation\")."


def open_parts(tokens):
    """What nothing has closed: `(`, `[`, `let` up to its `=`, this up to its `in`, and functions up to the end of what they stand in."""
    stack = []
    for token in tokens:
        kind, opened = token[0], {")": "(", "]": "[", "in": "="}.get(token[0])
        if kind in ("(", "[", "let", "fun", "fn"):
            stack.append(kind)
        elif kind == "=" and stack[-1:] == ["let"]:
            stack[-1] = "="
        elif opened in stack:
            while stack.pop() != opened:
                pass
    return stack


def of_total(refusal, tokens, place):
    """What is said next to a comparison that stands in no function."""
    if {"fun", "fn", "let"} & set(open_parts(tokens[:place])):
        return ""
    for table in refusal.house.owner["tables"]:
        for kind, name, *_ in tokens[max(0, place - 1) : place] + tokens[place + 1 : place + 3]:
            if kind == "name" and name in [column["name"] for column in table["columns"]] and not binds(tokens[:place], name):
                return f" `{name}` is a column, and rows are chosen by a function, which takes it out of a row: `{taken_apart(table, name, '..')}`."
    return " Outside a function a total is compared, and a total can't be: ask for it, and compare what you get."


def less_said(refusal, tokens, less):
    following = tokens[less + 1] if less + 1 < len(tokens) else ("",)
    total = of_total(refusal, tokens, less)
    if following[0] == ">":
        return f"`<>` is none: `x <> 30` is `if x == 30 then false else true`.{total}"
    if following[0] == "number":
        return f"`<` opens a pair `<a, b>`. Numbers are whole, so `x < {following[1]}` is `x <= {following[1] - 1}`.{total}"
    return f"`<` opens a pair `<a, b>`. Numbers are whole, so `a < b` is `a + 1 <= b`.{total}"


def hint_of_less(refusal, tokens, place):
    """Of a `<` that opens a pair where a comparison was meant."""
    opened = open_brackets(tokens[:place])
    less = next((p for p in reversed(opened) if tokens[p][0] == "<" and p > 0 and tokens[p - 1][0] in ATOM_ENDS), None)
    return less if less is None else less_said(refusal, tokens, less)


def joined(tokens, place):
    """What is said of `and` or `or` between a comparison and the one at a place."""
    depth = 0
    for token in reversed(tokens[:place]):
        depth += {")": 1, "]": 1, "(": -1, "[": -1}.get(token[0], 0)
        if depth < 0 or (depth == 0 and token[0] in ("=>", "=", "if", "then", "else", "in")):
            return None
        if depth == 0 and token[0] == "name" and token[1].lower() in ("and", "or"):
            return SQL[token[1].lower()]
    return None


def hint_of_habit(refusal, tokens, place):
    """Of what other languages have."""
    kinds = [token[0] for token in tokens]
    kind, behind = kinds[place], kinds[place + 1] if place + 1 < len(kinds) else ""
    called = [str(token[1]).lower() for token in tokens[max(0, place - 2) : place]]
    table = refusal.house.owner["tables"][0]["name"]
    if kind == "=>" and kinds[max(0, place - 1) : place] in (["name"], [")"]) or "lambda" in called:
        row = next(type_text(row_type(t["columns"])) for t in refusal.house.owner["tables"])
        return f"A function is written `fn (p : {row}) => ..`, with the type of what it takes."
    if kind == "*" and called == ["count", "("]:
        return f"Counting is `size {table}`."
    if kind == "*" and called[-1:] == ["select"]:
        return f"A program answers one number, and shows no row: `size {table}` counts rows."
    if kind == "in" and behind == "(":
        return IN
    if kind in ("&", "|"):
        return "`a && b` is `if a then b else false`." if kind == "&" else "`a || b` is `if a then true else b`."
    if kind in ("<=", "=="):
        return joined(tokens, place)
    tables = [name for name, _ in refusal.house.tables]
    if kind == "then" and "case" in kinds[:place] and any(str(token[1]).lower() == "when" for token in tokens[:place]):
        return SQL["when"]
    return sql_word(tokens, place, tables) or (sql_word(tokens, place - 1, tables) if place else None)


IN = '`x IN ("a", "b")` is `if x == "a" then true else x == "b"`.'
OTHER_TYPES = {
    "int": "num", "integer": "num", "number": "num", "float": "num", "string": "text", "str": "text", "char": "text", "varchar": "text",
    "boolean": "bool",
}  # fmt: skip


def hint_of_type(refusal, tokens, place):
    """Of a name where a type belongs, as in `fn (p : people)`."""
    before = tokens[place - 1][0] if place else ""
    if tokens[place][0] != "name" or before not in (":", "bag", "->", "-o", "*", "+", "&", "("):
        return None
    if before not in (":", "bag") and not in_type(tokens, place):
        return None
    name, tables = tokens[place][1], refusal.house.owner["tables"]
    for table in tables:
        row = type_text(row_type(table["columns"]))
        if name == table["name"]:
            return f"`{name}` is a table, and here stands a type. A row of it is written `{row}`: `fn (p : {row}) => ..`."
        if name in [column["name"] for column in table["columns"]]:
            kind = next(column["type"] for column in table["columns"] if column["name"] == name)
            return f"`{name}` is a column, and here stands a type: that of this column is `{kind}`."
    if name.lower() in OTHER_TYPES:
        return f"`{name}` is no type here: write `{OTHER_TYPES[name.lower()]}`."
    return (
        f"`{name}` is no type: types are `num`, `text`, `bool`, and what is made of them. A row of {tables[0]['name']} is "
        f"`{type_text(row_type(tables[0]['columns']))}`."
    )


def in_type(tokens, place):
    """Whether a place lies in the type after a `:`, or in the brackets of an `inl` or `inr`."""
    depth = 0
    for number in range(place - 1, -1, -1):
        kind = tokens[number][0]
        depth += {")": 1, "(": -1}.get(kind, 0)
        if kind == ":":
            return True
        if kind in ("=>", "=", "in", "then", "else", "if", ",") and depth <= 0:
            return False
    return False


def hint_of_brackets(refusal, tokens, place):
    """Of what stands in brackets: names of a `let`, an argument, bounds, and halves of a pair."""
    opened = open_brackets(tokens[:place])
    if not opened or opened[-1] == 0:
        return None
    kind, bracket, word = tokens[place][0], tokens[opened[-1]][0], tokens[opened[-1] - 1][0]
    if bracket == "(" and word == "let" and kind in (",", "("):
        return "A `let` takes two names: `let (a, p) = p in let (b, p) = p in ..`."
    if bracket == "(" and word in ("fun", "fn") and kind in (",", "("):
        row = next((type_text(row_type(t["columns"])) for t in refusal.house.owner["tables"] if len(t["columns"]) > 1), "num * num")
        return f"A function takes one argument, and a `let` takes two names: `{word} (p : {row}) => let (a, p) = p in ..`."
    if bracket == "[" and word in ("sum", "clip"):
        return f"The bounds of `{word}` are two whole numbers that are written in the program: `{word}[0,5000] ..`."
    if bracket == "<" and kind == ">" and word in ("fst", "snd", "least", "greatest"):
        none = f" There is no {word} element of a bag." if word in ("least", "greatest") else ""
        return f"A pair has two halves: `{word} <a, b>`.{none}"
    return None


def closed_at(tokens, place):
    """Where the bracket at a place is closed, or the end."""
    depth = 0
    for at in range(place, len(tokens)):
        depth += {"(": 1, "[": 1, "<": 1, ")": -1, "]": -1, ">": -1}.get(tokens[at][0], 0)
        if depth == 0:
            return at
    return len(tokens)


def parts_between(refusal, tokens, begin, end):
    """The texts between commas, of what stands between two brackets."""
    depth, first, parts = 0, begin + 1, []
    for at in range(begin + 1, end + 1):
        kind = tokens[at][0] if at < end else ","
        if depth == 0 and kind == "," and at > first:
            parts.append(refusal.text.of(tokens[first][2], tokens[at - 1][3]))
            first = at + 1
        depth += {"(": 1, "[": 1, "<": 1, ")": -1, "]": -1, ">": -1}.get(kind, 0)
    return parts


def hint_of_three(refusal, tokens, place):
    """Of a second comma in a pair."""
    opened = open_brackets(tokens[:place])
    if tokens[place][0] != "," or not opened or tokens[opened[-1]][0] not in ("(", "<"):
        return None
    begin = opened[-1]
    left, right = ("(", ")") if tokens[begin][0] == "(" else ("<", ">")
    word = str(tokens[begin - 1][1]) if begin else ""
    if left == "(" and word.lower() == "in":
        return IN
    of = f"{word} " if word in ("least", "greatest") else ""
    *first, last = parts_between(refusal, tokens, begin, closed_at(tokens, begin))
    for part in reversed(first):
        last = f"{of}{left}{part}, {last}{right}"
    return f"A pair has two halves, of which one may be a pair: `{last if len(last) <= 80 else f'{of}{left}a, {of}{left}b, c{right}{right}'}`."


def hint_of_sign(refusal, tokens, place):
    """Of a `-` before what is no number."""
    if not place or tokens[place - 1][0] != "-" or (place > 1 and tokens[place - 2][0] in ATOM_ENDS):
        return None
    kind = tokens[place][0]
    if kind == "(" and closed_at(tokens, place) < len(tokens):
        what = refusal.text.of(tokens[place][2], tokens[closed_at(tokens, place)][3])
    else:
        what = tokens[place][1] if kind == "name" else f"{kind} .."
    return f"A `-` with nothing before it stands before a number alone: `-1 * {what if len(what) <= 60 else '(..)'}`."


def hint_of_definition(refusal, tokens, place):
    """Of `let f (x : num) = ..`."""
    kinds = [token[0] for token in tokens[: place + 1]]
    if kinds[-3:-1] != ["let", "name"] or kinds[-1] not in ("(", "name"):
        return None
    end = closed_at(tokens, place)
    argument = refusal.text.of(tokens[place][2], tokens[end][3]) if kinds[-1] == "(" and end < len(tokens) else ""
    if not re.fullmatch(r"\(\w+ *:[^,()]+\)", argument):
        name = next((token[1] for token in tokens[place:] if token[0] == "name"), "x")
        argument = f"({name} : num)"
    return f"A function is bound by `let {tokens[place - 1][1]} = fun {argument} => .. in ..`."


BAGS = {"union": "two bags"}


def hint_of_bag_form(refusal, tokens, place):
    """Of a `map`, `filter`, `split` or `union` that is closed after its first argument."""
    opened = open_brackets(tokens[:place])
    word = tokens[opened[-1] + 1][0] if opened and opened[-1] + 1 < place else ""
    if tokens[place][0] != ")" or word not in ("map", "filter", "split", "union"):
        return None
    after = tokens[place + 1][1] if place + 1 < len(tokens) and tokens[place + 1][0] == "name" else None
    first = "(fn ..)" if word != "union" else refusal.text.of(tokens[opened[-1] + 2][2], tokens[place - 1][3]) if opened[-1] + 2 < place else ".."
    said = f"`{word}` takes {BAGS.get(word, 'a function and a bag')}"
    bag = after or refusal.house.owner["tables"][0]["name"]
    early = ", and this parenthesis ends it before the second" if after else ""
    return f"{said}{early}: `({word} {first} {bag})`."


CASE = "`case` takes one of two apart, `case .. of inl x => .. | inr y => ..`. "


def hint_of_case(tokens, place):
    """Of what stands after `of`."""
    if not place or tokens[place - 1][0] != "of" or tokens[place][0] == "inl":
        return None
    if tokens[place][0] in ("true", "false"):
        return f"{CASE}A truth value is taken by `if .. then .. else ..`."
    value = f'"{shown(tokens[place][1])}"' if tokens[place][0] == "quoted" else tokens[place][1] if tokens[place][0] == "number" else "3"
    return f"{CASE}Numbers and texts are compared: `if x == {value} then .. else ..`."


def hint_of_let(refusal, tokens, place):
    """Of a `let` whose `in` seems to be missing before a place."""
    opened = [part for part in open_parts(tokens[:place]) if part not in ("fun", "fn")]
    kind, before = tokens[place][0], tokens[place - 1]
    if opened[-1:] != ["="] or before[0] not in ATOM_ENDS or kind not in LONG + ATOM_ENDS + ("(", "<"):
        return None
    if kind not in LONG or kind == "let" or b"\n" in refusal.data[before[3] : tokens[place][2]]:
        return "Each `let` has its `in`: is it missing before this?"
    return f"What is longer than a word stands in parentheses here: `({kind} ..)`. Or is the `in` of the `let` missing before this?"


def hint_of_form(refusal, tokens, place):
    """Of forms that are nearly the language's."""
    for hint in (hint_of_three, hint_of_sign, hint_of_definition, hint_of_bag_form):
        said = hint(refusal, tokens, place)
        if said:
            return said
    return hint_of_case(tokens, place)


def hint_of_end(tokens):
    if not tokens:
        return "The program is empty."
    opened = open_brackets(tokens)
    kinds = [token[0] for token in tokens]
    if opened:
        return f"The `{kinds[opened[-1]]}` of token {opened[-1]} isn't closed."
    if kinds.count("let") > kinds.count("in"):
        return "Each `let` has its `in`, with what is made of the name after it."
    if kinds.count("if") > kinds.count("else"):
        return "Each `if` has its `then` and its `else`."
    return f"Something is missing after `{tokens[-1][1] if kinds[-1] != 'quoted' else 'the text'}`."


def hint_of_term(refusal):
    tokens, place = tokens_of(refusal.data), int(refusal.words[1])
    kinds = [token[0] for token in tokens]
    if in_comment(refusal.data, place_of(refusal)[0]):
        return NO_COMMENTS
    statement = sql_statement(refusal.data, [table for table, _ in refusal.house.tables])
    if statement:
        return statement
    less = hint_of_less(refusal, tokens, place)
    if less or place == len(tokens):
        return less or hint_of_end(tokens)
    special = hint_of_type(refusal, tokens, place) or hint_of_habit(refusal, tokens, place) or hint_of_brackets(refusal, tokens, place)
    special = special or hint_of_form(refusal, tokens, place)
    if special:
        return special
    kind, before, behind = kinds[place], kinds[place - 1] if place else "", kinds[place + 1] if place + 1 < len(kinds) else ""
    if kind == "*":
        return hint_of_times(refusal, tokens, place)
    if kind == ">":
        bound = tokens[place + 1][1] if behind == "number" else 30
        strict = f"There is no `>`: numbers are whole, so `x > {bound}` is `{bound + 1} <= x`."
        return ("There is no `>=`: `x >= 30` is `30 <= x`." if behind == "=" else strict) + of_total(refusal, tokens, place)
    if kind == "!" and behind == "=":
        return "There is no `!=`: `x != 30` is `if x == 30 then false else true`." + of_total(refusal, tokens, place)
    if kind == "<":
        return less_said(refusal, tokens, place)
    if kind == "=":
        return "`==` compares; `=` stands in `let` alone." + of_total(refusal, tokens, place)
    if before in ("sum", "clip"):
        return f"`{before}` wants its bounds: `{before}[0,100] ..`."
    if before in ("inl", "inr"):
        return f"`{before}` wants the type of the other side: `{before}[unit] ..`."
    if before == "!":
        return "The number of `!` stands in brackets: `![2] ..`."
    if before == "[" and kind == "number" and place > 1 and kinds[place - 2] == "!":
        return f"The number of `!` is from 1 to {HALF}."
    if before in ("fun", "fn") or (kind == ")" and kinds[place - 3 : place - 1] in (["fun", "("], ["fn", "("])):
        word = "fun" if "fun" in kinds[max(0, place - 3) : place] else "fn"
        return f"An argument stands in parentheses with its type: `{word} (x : num) => ..`."
    if kind in WORDS and (before == "let" or kinds[max(0, place - 2) : place] in (["fun", "("], ["fn", "("], ["let", "("])):
        return f"`{kind}` is a word of the language, and no name."
    if kind in ("<=", "=="):
        return "One comparison stands alone: `15 <= x <= 64` is `if 15 <= x then x <= 64 else false`."
    if kind == "-" and before in TAKES_ATOMS:
        return "A negative number stands in parentheses here."
    lacking = hint_of_let(refusal, tokens, place) if place else None
    if lacking:
        return lacking
    if kind in LONG and before in ATOM_ENDS + TAKES_ATOMS:
        return f"What is longer than a word stands in parentheses here: `({kind} ..)`."
    others = {
        "/": "There is no division: ask for both numbers, and divide what you get." + of_halvings(tokens, place, "divided"),
        ")": "Each `if` has its `else`, and each `let` its `in`." if kinds.count("if") > kinds.count("else") or kinds.count("let") > kinds.count("in") else None,
        "do": "This word is kept for later, and stands in no term.",
        "release": "This word is kept for later, and stands in no term.",
        "at": "This word is kept for later, and stands in no term.",
    }
    return others.get(kind)


def hint_of_depth(refusal):
    return "A chain of 65 parts is 65 deep. Group it in halves, `(a + b) + (c + d)`, which is as deep as one half and one more."
