"""How deep a program walks rows within rows, and how much its run takes at most: said of the program alone, without data.

    walks(TERM, TABLES, LIMIT)     a Walks of a term that the typing rules accept; Refused at a limit of the run without data
    walks_of(BYTES, TABLES, LIMIT) the same of a program's bytes; Refused where it is refused
    told(WALKS, BYTES, WRITTEN)    what is said of it, in lines; of a program with columns by name, WRITTEN (names.py) gives the places in it

`size` and `sum` walk their bag: its elements are made there, each row of its tables on its way through the functions of the `map`s, `filter`s
and `split`s that it has behind it. A bag that is used twice is walked twice. `size` walks only those tables of a bag behind which a `filter` or a
`split` stands; the others are as long as they are. A walk is at depth 1, and in a function that is run for its rows one deeper. A table has at most
LIMIT rows, so what a walk takes on whatever data is known from its bag. No table is read: all of this is as public as the program.
"""
from itertools import zip_longest
from typing import NamedTuple

from bounds import ROW_LIMIT
from names import Places
from program_parts import Text
from programs import PEOPLE, checked, deep
from runs import Ground, Plan

# Greater numbers are told by their power of ten.
EXACT = 10**15
HINT = "a function that walks rows for each row has no bound unless it is multiplied by 0 or isn't used, so no answer needs it."


class Flow(NamedTuple):
    """A table of a bag with its stages: for each row of the table at most so many visits of other rows, turns, and walks in one another; and whether rows
    may be left out."""

    rows: int = 0
    turns: int = 0
    deepest: tuple = ()
    lessened: bool = False


def flows_of(shape):
    return getattr(shape, "flows", (Flow(),) * shape)


def with_flows(shape, flows):
    shape.flows = tuple(flows)
    return shape


def deeper(one, other):
    return other if len(other) > len(one) else one


class Walks(Plan):
    """The run without data, which counts what a run on data takes at most: `rows` that are visited, and `most_turns`, its visits of terms.

    `deepest` is the first walk at the greatest depth, behind those in whose functions it stands, the outermost first."""

    def __init__(self, limit):
        super().__init__()
        self.limit, self.rows, self.most_turns, self.deepest = limit, 0, 0, ()

    @property
    def walk_depth(self):
        return len(self.deepest)

    def visit(self, node, scope, depth):
        self.most_turns += 1
        return super().visit(node, scope, depth)

    def tally(self, node, scope, depth, *parts):
        bag = self.visit(parts[-1], scope, depth)
        self.walk(bag, depth)
        for flow in flows_of(bag):
            if node.form == "sum" or flow.lessened:
                self.rows += self.limit * (1 + flow.rows)
                self.most_turns += self.limit * flow.turns
                self.deepest = deeper(self.deepest, (node, *flow.deepest))
        return Ground(0)

    def widest(self, left, right):
        """Of each table the one and the other may be meant."""
        both = zip_longest(flows_of(left), flows_of(right), fillvalue=Flow())
        flows = [Flow(max(a.rows, b.rows), max(a.turns, b.turns), deeper(a.deepest, b.deepest), a.lessened or b.lessened) for a, b in both]
        return with_flows(super().widest(left, right), flows)

    def union(self, node, scope, depth, a, b):
        left, right = self.visit(a, scope, depth), self.visit(b, scope, depth)
        return with_flows(self.joined(node, left, right), (*flows_of(left), *flows_of(right)))

    def behind(self, node, bag, enter):
        """What the function takes counts for each row of a walk, and not here, where it is entered once."""
        outside = self.rows, self.most_turns, self.deepest
        self.rows, self.most_turns, self.deepest = 0, 0, ()
        enter()
        flows = [
            Flow(flow.rows + self.rows, flow.turns + self.most_turns, deeper(flow.deepest, self.deepest), flow.lessened or node.form != "map")
            for flow in flows_of(bag)
        ]
        self.rows, self.most_turns, self.deepest = outside
        return with_flows(Ground(bag), flows)


def walks(term, tables=PEOPLE, limit=ROW_LIMIT):
    return Walks(limit).whole(term, tables)


def walks_of(data, tables=PEOPLE, limit=ROW_LIMIT):
    return deep(lambda: walks(checked(data, tables)[0], tables, limit))


# In words.


def count(number, what):
    written = f"{number:,}" if number < EXACT else f"over 10^{len(str(number)) - 1}"
    return f"{written} {what}{'' if number == 1 else 's'}"


def sentence(found):
    """Depth, rows and turns, in a line."""
    if not found.walk_depth:
        return f"walks no rows: at most {count(found.most_turns, 'turn')}"
    return f"walks rows {found.walk_depth} deep: at most {count(found.rows, 'visit')} of rows, in {count(found.most_turns, 'turn')}"


def told(found, data, written=None):
    """With the marked place of a walk within walks."""
    text, place = (Places(written), written.place) if written else (Text(data), lambda start, end: (start, end))
    said = f"It {sentence(found)}, where a table has at most {count(found.limit, 'row')}."
    if found.walk_depth < 2:
        return [said]
    *around, inner = found.deepest
    where = ", of ".join("the `{}` in bytes {} to {}".format(walk.form, *place(walk.start, walk.end)) for walk in reversed(around))
    return [said, f"This walk is run for each row of {where}:", text.marked(inner.start, inner.end), f"hint: {HINT}"]
