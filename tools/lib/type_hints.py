"""Hints next to programs that the typing rules, or the run without data, refuse: 30 to 37. Each is given a Refusal, and answers a sentence
or nothing."""
import difflib

from bounds import HALF
from program_parts import found_at, parents_of, shown, traced, type_text, with_parents
from programs import BOOL, INF, NUM, TEXT, Checker, Refused, deep, same, sensitivity_text
from programs import read as read_term
from sql_words import SQL, sql_statement, taken_apart
from tables import row_type


def bag_of_function(refusal, term, node):
    """Where a part stands for the function of `map`, `filter` or `split`, or in what does, and in no function: what does, what takes it, and
    the type of an element of its bag, or nothing where the bag is refused, too."""
    below = node
    for above in parents_of(term, node):
        if below.form in ("fun", "fn"):
            return None
        if above.form in ("map", "filter", "split") and above.parts[0] is below:
            tables = refusal.house.tables
            try:
                bag = deep(lambda: Checker(tables).check(above.parts[1], traced(refusal, term).scopes[above])[0])
            except Refused:
                bag = ()
            return below, above, bag[1] if bag[:1] == ("bag",) else None
        below = above
    return None


def hint_of_bare(refusal, term, node, name):
    """Of a name that stands for an element in what should be a function."""
    found = bag_of_function(refusal, term, node)
    if not found or found[2] is None:
        return None
    given, taker, element = found
    body = refusal.text.of(given.start, given.end)
    body = "" if body == name and taker.form != "map" else body
    takes = f"`{taker.form}` takes a function, which is handed one"
    if element in (NUM, TEXT):
        return f"{takes} element at a time: `fn ({name} : {type_text(element)}) => {body or '..'}`."
    for table in refusal.house.owner["tables"]:
        if element == row_type(table["columns"]) and name in [column["name"] for column in table["columns"]]:
            return f"{takes} row at a time: `{taken_apart(table, name, body)}`."
    return None


def hint_of_unbound(refusal, name, near, term, node):
    house = refusal.house
    columns = {column["name"] for table in house.owner["tables"] for column in table["columns"]}
    if name in house.hidden:
        return f"{house.shown_alone()} What is made of `{name}` is asked by `ask`."
    if name.lower() in SQL and name not in columns:
        return sql_statement(refusal.data, [table for table, _ in house.tables]) or SQL[name.lower()]
    bare = hint_of_bare(refusal, term, node, name)
    if bare:
        return bare
    for table in house.owner["tables"]:
        if name in [column["name"] for column in table["columns"]]:
            return f"`{name}` is a column of `{table['name']}`, and no name. A function takes it out of a row: `{taken_apart(table, name)}`."
    for owner in house.catalog["owners"]:
        if name in [table["name"] for table in owner["tables"]]:
            return f"`{name}` is a table of the owner `{owner['name']}`; a program sees the tables of one owner alone."
    tables = [table for table, _ in house.tables]
    likely = difflib.get_close_matches(name.lower(), sorted(set(near + tables + ["true", "false"])), 1)
    compared = any(above.form == "==" for above in list(parents_of(term, node))[:1])
    if compared and (not likely or any(name in partition["keys"] for partition in house.owner["partitions"])):
        return f'A text stands in `"`, as in `"{name}"`.'
    if likely:
        return f"Is `{likely[0]}` meant?"
    return house.shown_alone() if house.partition else f"The owner's tables are {', '.join(f'`{table}`' for table in tables)}."


def names_around(term, node):
    """The names that some part of the program binds, which may be meant."""
    names = []
    for other, _ in with_parents(term):
        names += [part for part in other.parts if isinstance(part, str) and other.form in ("fun", "fn", "let", "let!", "let,", "case")]
    return names


def hint_of_pairs(found, wanted, parent):
    if wanted in ("&", ("&", NUM, NUM)) and found[0] == "*":
        if parent is not None and parent.form in ("least", "greatest"):
            return f"`{parent.form}` takes a pair of the other kind: `{parent.form} <a, b>`."
        return "Of a pair `(a, b)` the halves are taken by `let (x, y) = .. in ..`."
    if wanted == ("&", NUM, NUM) and parent is not None and parent.form in ("least", "greatest"):
        return SQL["min" if parent.form == "least" else "max"]
    if wanted == "*" and found[0] == "&":
        return "Of a pair `<a, b>` a half is taken by `fst` or `snd`; `let (x, y)` takes apart a pair `(a, b)`."
    return None


def hint_of_call(refusal, term, node, found):
    """Of a function where what it gives is wanted."""
    name, argument = refusal.text.of(node.start, node.end), found[1]
    if node.form != "name":
        return "This is a function: give it its argument."

    def called(by):
        return f"{name} (![inf] {by})" if argument[0] == "!" and argument[1] == INF else f"{name} {by}"

    within = next((above for above in parents_of(term, node) if above.form in ("fun", "fn")), None)
    if within:
        return f"`{name}` is a function: call it, as in `{called(within.parts[0])}`."
    bare = bag_of_function(refusal, term, node)
    if bare and bare[0] is not node and bare[2]:
        start, end = node.start - bare[0].start, node.end - bare[0].start
        body = refusal.data[bare[0].start : bare[0].end]
        body = " ".join(shown(body[:start] + called("p").encode() + body[end:]).split())
        return f"`{name}` is a function: call it, as in `{bare[1].form} (fn (p : {type_text(bare[2])}) => {body}) ..`."
    return f"`{name}` is a function: call it, as in `{called('p')}`."


def hint_of_functions(refusal, term, node, parent):
    found, wanted = refusal.exception.found, refusal.exception.wanted
    if wanted == "->" and found[0] == "-o":
        return f"`{parent.form}` takes a function that may use a row as often as it likes: write `fn` in the place of `fun`."
    if wanted == "->":
        bare = bag_of_function(refusal, term, node)
        takes = type_text(bare[2]) if bare and bare[2] else ".."
        return f"`{parent.form}` takes a function, which is handed one element at a time: `fn (x : {takes}) => ..`."
    if parent is not None and parent.form in ("filter", "split") and parent.parts[0] is node and found[0] == "-o":
        return f"The function of `{parent.form}` must say true or false of each element: compare by `<=` or `==`."
    if found[0] == "-o" and wanted in (NUM, TEXT, BOOL, "number or text", "bag", "*"):
        return hint_of_call(refusal, term, node, found)
    if wanted == "-o":
        return "What stands next to one another is a function and its argument. Is a sign missing between the two?"
    return None


def hint_of_bags(refusal, found, wanted, parent):
    if parent is not None and parent.form in ("map", "filter", "split") and found[0] == "bag" and wanted[0] == "bag":
        takes, element = refusal.house.in_words(wanted[1]), refusal.house.in_words(found[1])
        return f"The function takes {takes}, and an element here is {element}: `fn (p : {type_text(found[1])}) => ..`."
    if found[0] == "bag" and wanted == NUM:
        return "A bag becomes a number by `size ..` or, if it is of numbers, by `sum[0,100] ..`."
    if found == NUM and wanted == "bag":
        return "A number isn't a bag. Is its table meant, or a name that is bound to a bag?"
    if found[0] == "bag" and wanted == ("bag", NUM):
        return "Take a column of numbers out first: `sum[0,100] (map (fn (..) => ..) ..)`."
    return None


def hint_of_union(refusal, term, node, parent):
    """Of bags whose elements have two types."""
    found, wanted = refusal.exception.found, refusal.exception.wanted
    if parent is None or parent.form != "union" or found[0] != "bag" or wanted[0] != "bag":
        return None
    said = "`union` joins bags whose elements have one type. Take the same columns of both, by `map`"
    counts = next((above.form == "size" for above in parents_of(term, parent)), False)
    if not counts:
        return f"{said}."
    both = " + ".join(f"size {text if part.form == 'name' else f'({text})'}" for part in parent.parts for text in [refusal.text.of(part.start, part.end)])
    return f"{said}; or add up what each has: `{both if len(both) <= 100 else 'size .. + size ..'}`."


def hint_of_text(refusal, node, found, wanted):
    """Of a text where a bag is wanted."""
    if found != TEXT or wanted[:1] != ("bag",) and wanted != "bag":
        return None
    tables = [table for table, _ in refusal.house.tables]
    name = node.parts[0].decode(errors="replace") if node.form == "text" else ""
    if name in tables:
        return f"A table's name stands without `\"`: `{name}`."
    return f"A text isn't a bag. The owner's tables are {', '.join(f'`{table}`' for table in tables)}."


def function_called(term, call):
    """The `fn` that a call runs: the one that stands there, or that a `let` around the call binds."""
    function, below = call.parts[0], call
    if function.form != "name":
        return function if function.form == "fn" else None
    for above in parents_of(term, call):
        names = above.parts[:-2] if above.form.startswith("let") else above.parts[:1] if above.form in ("fun", "fn") else ()
        if function.parts[0] in names and above.parts[-1] is below:
            return above.parts[-2] if above.form == "let" and above.parts[-2].form == "fn" else None
        below = above
    return None


def is_of_table(refusal, term, tracing, part):
    """Whether a part's value hangs on a table, by itself or by a name that a `let` around it binds."""
    return any(uses and is_named_of_table(refusal, term, tracing, part, name) for name, uses in tracing.uses.get(part, {}).items())


def is_named_of_table(refusal, term, tracing, part, name):
    below = part
    for above in parents_of(term, part):
        if above.form.startswith("let") and above.parts[-1] is below and name in above.parts[:-2]:
            return is_of_table(refusal, term, tracing, above.parts[-2])
        if above.form in ("fun", "fn", "case") and name in above.parts:
            return False
        below = above
    return name in [table for table, _ in refusal.house.tables]


def hint_of_total(refusal, term, argument):
    """Of a number that hangs on a table, where it is handed to an `fn`; nothing of others."""
    tracing, call = traced(refusal, term), next(parents_of(term, argument), None)
    if call is None or call.form != "apply" or call.parts[1] is not argument or not is_of_table(refusal, term, tracing, argument):
        return None
    function = function_called(term, call)
    kind = type_text(function.parts[1].parts[0], 4) if function else "num"
    name = function.parts[0] if function else "x"
    uses = tracing.use(function.parts[2], name) if function and function.parts[2] in tracing.uses else 2
    if uses == INF:
        return f"An `fn` takes no total, and `{name}` is compared in this one: a total can't be. {ASK_FIRST}."
    if uses <= 1:
        return f"An `fn` takes no total, by `![inf]` neither. Write `fun ({name} : {kind}) => ..`, and hand it over as it is."
    times = sensitivity_text(uses)
    said = f"Name how often it is used: `fun ({name} : ![{times}] {kind}) => let !{name} = {name} in ..`, called with `![{times}] (..)`"
    return f"An `fn` takes no total, by `![inf]` neither. {said}."


def hint_of_case(node, parent, found):
    """Of what `case` takes apart."""
    if parent is None or parent.form != "case" or parent.parts[0] is not node:
        return None
    said = "`case` takes one of two apart, which `inl` or `inr` made"
    if found in (NUM, TEXT):
        value = "3" if found == NUM else '"a"'
        return f"{said}. {'A number' if found == NUM else 'A text'} is compared: `if x == {value} then .. else ..`."
    return f"{said}."


def hint_of_bangs(found, wanted):
    if wanted[0] == "!" and wanted != "!" and same(wanted[2], found):
        return f"It is handed over as `![{sensitivity_text(wanted[1])}] (..)`."
    if wanted == "!":
        return "`let !x` opens what stands after `![..]`. Here is nothing to open: write `let x = .. in ..`."
    if found[0] == "!" and same(found[2], wanted):
        return "Open it first: `let !x = .. in ..`."
    return None


def hint_of_mismatch(refusal, term, node, parent):
    found, wanted = refusal.exception.found, refusal.exception.wanted
    hint = hint_of_pairs(found, wanted, parent) or hint_of_functions(refusal, term, node, parent)
    hint = hint or hint_of_bags(refusal, found, wanted, parent) or hint_of_union(refusal, term, node, parent) or hint_of_text(refusal, node, found, wanted)
    if hint is None and wanted[:2] == ("!", INF) and same(wanted[2], found):
        hint = hint_of_total(refusal, term, node)
    hint = hint or hint_of_bangs(found, wanted) or hint_of_case(node, parent, found)
    if hint:
        return hint
    if parent is not None and parent.form == "<=" and found == TEXT and not (node.form == "text" and node.parts[0].isdigit()):
        return "Texts have no order: they are compared by `==` alone."
    if (found, wanted) in ((NUM, TEXT), (TEXT, NUM)):
        return 'A number is written without `"`, a text with: `30`, `"30"`.'
    if parent is not None and parent.form in ("if", "case") and wanted != BOOL:
        return "Both branches must have the same type."
    if wanted == BOOL:
        return "Truth values come of `<=`, `==`, `true` and `false`."
    return None


def hint_of_types(refusal):
    start, end = refusal.numbers()[1:]
    term = deep(lambda: read_term(refusal.data))
    node, parent = found_at(term, start, end)
    kind = refusal.words[1]
    if kind == "unbound":
        return hint_of_unbound(refusal, refusal.text.of(start, end), names_around(term, node), term, node)
    if kind == "mismatch":
        return hint_of_mismatch(refusal, term, node, parent)
    if kind == "notground":
        return "Call the function in each branch, and let the branches be its results."
    body = node.parts[2] if node.form in ("fun", "fn") else node
    given = traced(refusal, term).types.get(body, NUM)
    if given[0] == "-o":
        return hint_of_call(refusal, term, body, given)
    return "Elements of a bag are numbers, texts, truth values, and pairs of them. A bag inside becomes a number by `size` or `sum`."


def hint_of_argument(refusal):
    start, end = refusal.numbers()[1:3]
    term = deep(lambda: read_term(refusal.data))
    node, parent = found_at(term, start, end)
    name, written = node.parts[0], type_text(node.parts[1].parts[0], 4)
    if parent is not None and parent.form in ("map", "filter", "split"):
        return f"`{parent.form}` takes a function that may use a row as often as it likes: write `fn` in the place of `fun`."
    if refusal.words[3] == "inf":
        return f"`{name}` is compared, or used without bound. Write `fn ({name} : {type_text(node.parts[1].parts[0])}) => ..`, and call it with `![inf] (..)`."
    return f"Pay for the uses: `fun ({name} : ![{refusal.words[3]}] {written}) => let !{name} = {name} in ..`, called with `![{refusal.words[3]}] (..)`."


def hint_of_range(refusal):
    start, end = refusal.numbers()[1:3]
    node, _ = found_at(deep(lambda: read_term(refusal.data)), start, end)
    if node.form == "*" and abs(node.parts[0]) > HALF:
        return f"A factor is at most {HALF}."
    if node.form == "sum" and max(map(abs, node.parts[:2])) > HALF:
        return f"The bounds of a `sum` are at most {HALF}."
    return "Sensitivities are multiplied and added up here. Take smaller factors, bounds or numbers of `!`."


def unbounded_part(refusal):
    """The term, the part of it because of which a table has no bound, and what the table's numbers are called there."""
    term = deep(lambda: read_term(refusal.data))
    tracing = traced(refusal, term)
    return term, *deep(lambda: tracing.culprit(term, refusal.words[1]))


def bag_form_around(term, part):
    """The `map`, `filter` or `split` in whose function a part lies, the innermost; nothing where it lies in none."""
    below = part
    for above in parents_of(term, part):
        if above.form in ("map", "filter", "split") and above.parts[0] is below:
            return above
        below = above
    return None


def shortened(text):
    return text if len(text) <= 60 else f"{text[:58]}.."


ASK_FIRST = "Ask for that number first, by a line of its own, and write what you get into the program"


def hint_of_bound(refusal, term, part, name):
    table = refusal.words[1]
    hangs = f"`{name}` hangs on the table `{table}`" if name != table else f"it hangs on the table `{table}`"
    around = bag_form_around(term, part)
    if around is not None:
        said = f"looks at the whole table `{table}` for each element, in `{shortened(refusal.text.of(part.start, part.end))}`"
        return f"The function of `{around.form}` {said}: one row could turn it for all elements. A `let` outside doesn't help. {ASK_FIRST}."
    if part.form in ("<=", "=="):
        return f"A number is compared, and {hangs}: one row could turn the comparison. Ask for the number, and compare what you get."
    if part.form in ("map", "filter", "split"):
        return f"The function of `{part.form}` is run for each element, and {hangs}. A `let` outside doesn't help. {ASK_FIRST}."
    said = f"This is handed over for any use, by `![inf]` or to an `fn`, and {hangs}. Only what hangs on no table may be."
    total = hint_of_total(refusal, term, part) if part.form == "!" else None
    return f"{said} {total}" if total else said


def hint_of_number(refusal):
    found = refusal.found
    if found[0] == "bag":
        return "A bag becomes a number by `size ..` or, if it is of numbers, by `sum[0,100] ..`."
    if found == BOOL:
        return "A truth value becomes a number by `if .. then 1 else 0`."
    if found[0] in ("*", "&"):
        return "A program answers one number: ask twice, or make one number of both."
    if found[0] == "-o":
        return "A function becomes a number by its argument."
    if found == TEXT:
        return 'A program is written without `"` around it, and its value is a number.'
    return None


def hint_of_run(refusal):
    return {
        "35": "A function's body counts on from where it is called. Call fewer functions inside one another, or group long chains in halves.",
        "36": "A function that calls another one twice takes twice its turns. Give what is computed twice a name by `let`.",
        "37": "A table that is joined to itself counts each time. Multiply a count, in the place of joining a bag to itself: `2 * size ..`.",
        "90": f"A `size` or a `sum` in a function is a walk for each row. {ASK_FIRST}.",
    }[refusal.words[0]]
