"""Programs run once more: the run without data with its limits, and the values of terms.

    judgement(PROGRAM)          what `check` says of a program's bytes: the sensitivity, or the words of the refusal
    asked(PROGRAM)              the term and the sensitivity of a program that `ask` answers; Refused where it refuses it
    plan(TERM)                  the turns, depth and width of a term that the typing rules accept; Refused at a limit
    value(TERM, {TABLE: ROWS})  its number on these tables

It shares nothing with the server but the rules, and stands on programs.py, which reads and checks.

A value is an int (a number), bytes (a text), () (unit), a tuple of two (a pair of either kind), an Injection, a Bang, a list
(a bag, in the order of its elements), or a Closure. A shape is a Ground, the greatest width of a ground value's bags, the walks that
their functions take for a row and how deep they are evaluated, a tuple of two, a Bang or a Closure. Both are shared wherever a name is used twice, so they stay as small as the run is long.
"""
from bounds import DEPTH_LIMIT, NUMBER_LIMIT, REACH_LIMIT, TURN_LIMIT, WALK_LIMIT, WIDTH_LIMIT
from programs import PEOPLE, Node, Refused, checked, sensitivity_text



class Closure:
    """A function with the values, or the shapes, of its names."""

    def __init__(self, node, scope):
        self.node, self.scope = node, scope

    def entered(self, argument):
        """The body and its scope. An `fn` takes what its argument's bang holds."""
        name, _, body = self.node.parts
        if self.node.form == "fn":
            argument = argument.inside if isinstance(argument, Bang) else argument
        return body, {**self.scope, name: argument}


class Bang:
    def __init__(self, inside):
        self.inside = inside


class Injection:
    """The left side, or else the right one, of a sum."""

    def __init__(self, left, inside):
        self.left, self.inside = left, inside


# The run without data.


class Ground(int):
    """How many tables wide a ground value's bags are, how many walks of bags their functions take where each table has one row, and how deep they are
    evaluated, the walks in them too."""

    def __new__(cls, width, walks=0, height=0):
        made = super().__new__(cls, width)
        made.walks, made.height = walks, height
        return made



class Plan:
    """Where a bag takes too many walks, that is noted and the run goes on: a limit that is passed, before it or behind it, is told and not 90."""

    def __init__(self):
        self.turns = self.depth = self.width = self.walks = self.reach = 0
        self.too_many = False

    def whole(self, term, tables):
        self.visit(term, {name: Ground(1) for name, _ in tables}, 1)
        if self.too_many:
            raise Refused("90")
        return self

    def visit(self, node, scope, depth):
        """The shape of a term that is visited at this depth."""
        if depth > DEPTH_LIMIT:
            raise Refused(f"35 {node.span()}")
        if self.turns == TURN_LIMIT:
            raise Refused(f"36 {node.span()}")
        self.turns += 1
        self.depth, self.reach = max(self.depth, depth), max(self.reach, depth)
        shape = getattr(self, SHAPES.get(node.form, "number"))(node, scope, depth + 1, *node.parts)
        self.width = max(self.width, width_of(shape))
        return shape

    def name(self, node, scope, depth, name):
        return scope[name]

    def number(self, node, scope, depth, *parts):
        """Whatever gives a number, a text, unit or a truth value: its parts are visited, and no bag is left."""
        for part in parts:
            if isinstance(part, Node):
                self.visit(part, scope, depth)
        return Ground(0)

    def tally(self, node, scope, depth, *parts):
        """A bag's size or sum."""
        self.walk(self.visit(parts[-1], scope, depth), depth)
        return Ground(0)

    def walk(self, bag, depth):
        """A walk, with those inside it, whose functions are evaluated from this depth on."""
        if depth + bag.height > REACH_LIMIT:
            self.too_many = True
            return
        self.walks += 1 + bag.walks
        self.reach = max(self.reach, depth + bag.height)

    def weighed(self, bag, walks, height):
        """The bag, whose functions take so many walks and are evaluated so deep, if that aren't too many."""
        if walks >= WALK_LIMIT:
            self.too_many, walks, height = True, 0, 0
        bag.walks, bag.height = walks, height
        return bag

    def pair(self, node, scope, depth, a, b):
        left, right = self.visit(a, scope, depth), self.visit(b, scope, depth)
        both_ground = isinstance(left, int) and isinstance(right, int)
        return self.widest(left, right) if both_ground else (left, right)

    def widest(self, left, right):
        return Ground(max(left, right), max(left.walks, right.walks), max(left.height, right.height))

    def half(self, node, scope, depth, e):
        return halves(self.visit(e, scope, depth))[0 if node.form == "fst" else 1]

    def let_pair(self, node, scope, depth, x, y, e, b):
        left, right = halves(self.visit(e, scope, depth))
        return self.visit(b, {**scope, x: left, y: right}, depth)

    def injection(self, node, scope, depth, written, e):
        return self.visit(e, scope, depth)

    def case(self, node, scope, depth, e, x, a, y, b):
        condition = self.visit(e, scope, depth)
        left = self.visit(a, {**scope, x: condition}, depth)
        right = self.visit(b, {**scope, y: condition}, depth)
        return self.widest(left, right)

    def choice(self, node, scope, depth, e, a, b):
        self.visit(e, scope, depth)
        left = self.visit(a, scope, depth)
        right = self.visit(b, scope, depth)
        return self.widest(left, right)

    def function(self, node, scope, depth, *_):
        return Closure(node, scope)

    def apply(self, node, scope, depth, f, a):
        function = self.visit(f, scope, depth)
        argument = self.visit(a, scope, depth)
        return self.visit(*function.entered(argument), depth)

    def bang(self, node, scope, depth, r, e):
        inside = self.visit(e, scope, depth)
        return inside if isinstance(inside, int) else Bang(inside)

    def let_bang(self, node, scope, depth, x, e, b):
        shape = self.visit(e, scope, depth)
        inside = shape if isinstance(shape, int) else shape.inside
        return self.visit(b, {**scope, x: inside}, depth)

    def let(self, node, scope, depth, x, e, b):
        return self.visit(b, {**scope, x: self.visit(e, scope, depth)}, depth)

    def union(self, node, scope, depth, a, b):
        return self.joined(node, self.visit(a, scope, depth), self.visit(b, scope, depth))

    def joined(self, node, left, right):
        if left + right > WIDTH_LIMIT:
            raise Refused(f"37 {node.span()} {left + right}")
        return self.weighed(Ground(left + right), left.walks + right.walks, max(left.height, right.height))

    def over_bag(self, node, scope, depth, f, b):
        function = self.visit(f, scope, depth)
        bag = self.visit(b, scope, depth)
        before = self.walks, self.reach
        self.walks, self.reach = 0, depth
        behind = self.behind(node, bag, lambda: self.visit(*function.entered(Ground(0)), depth))
        self.weighed(behind, bag.walks + bag * self.walks, max(bag.height, self.reach - depth))
        self.walks, self.reach = before
        return behind

    def behind(self, node, bag, enter):
        """The bag with one stage more, whose function is entered once."""
        enter()
        return Ground(bag)


SHAPES = {
    "name": "name", "pair": "pair", "with": "pair", "fst": "half", "snd": "half", "let,": "let_pair", "inl": "injection",
    "inr": "injection", "case": "case", "if": "choice", "fun": "function", "fn": "function", "apply": "apply", "!": "bang",
    "let!": "let_bang", "let": "let", "union": "union", "map": "over_bag", "filter": "over_bag", "split": "over_bag",
    "size": "tally", "sum": "tally",
}  # fmt: skip


def width_of(shape):
    return shape if isinstance(shape, int) else 0


def halves(shape):
    return (shape, shape) if isinstance(shape, int) else shape


def plan(term, tables=PEOPLE):
    return Plan().whole(term, tables)


# Values.


def clamp(number):
    return max(-NUMBER_LIMIT, min(NUMBER_LIMIT, number))


def clipped(low, high, number):
    return max(low, min(high, number))


class TooManySteps(Exception):
    pass


class Run:
    """Evaluates terms. It keeps the forms that were met, and ends with TooManySteps after so many nodes, if it is told how many. Bags are lists."""

    def __init__(self, steps=None):
        self.forms, self.steps = set(), steps

    def value(self, node, scope):
        if self.steps is not None:
            self.steps -= 1
            if self.steps < 0:
                raise TooManySteps
        self.forms.add(node.form)
        return getattr(self, MEANINGS[node.form])(node, scope, *node.parts)

    def name(self, node, scope, name):
        return scope[name]

    def itself(self, node, scope, written=()):
        return written

    def pair(self, node, scope, a, b):
        left = self.value(a, scope)
        return (left, self.value(b, scope))

    def half(self, node, scope, e):
        return self.value(e, scope)[0 if node.form == "fst" else 1]

    def let_pair(self, node, scope, x, y, e, b):
        left, right = self.value(e, scope)
        return self.value(b, {**scope, x: left, y: right})

    def injection(self, node, scope, written, e):
        return Injection(node.form == "inl", self.value(e, scope))

    def case(self, node, scope, e, x, a, y, b):
        chosen = self.value(e, scope)
        name, branch = (x, a) if chosen.left else (y, b)
        return self.value(branch, {**scope, name: chosen.inside})

    def choice(self, node, scope, e, a, b):
        return self.value(a if self.value(e, scope).left else b, scope)

    def function(self, node, scope, *_):
        return Closure(node, scope)

    def apply(self, node, scope, f, a):
        function = self.value(f, scope)
        argument = self.value(a, scope)
        return self.value(*function.entered(argument))

    def bang(self, node, scope, r, e):
        return Bang(self.value(e, scope))

    def let_bang(self, node, scope, x, e, b):
        return self.value(b, {**scope, x: self.value(e, scope).inside})

    def let(self, node, scope, x, e, b):
        return self.value(b, {**scope, x: self.value(e, scope)})

    def plus(self, node, scope, a, b):
        left = self.value(a, scope)
        return clamp(left + self.value(b, scope))

    def minus(self, node, scope, a, b):
        left = self.value(a, scope)
        return clamp(left - self.value(b, scope))

    def multiple(self, node, scope, k, e):
        return clamp(k * self.value(e, scope))

    def at_most(self, node, scope, a, b):
        left = self.value(a, scope)
        return Injection(left <= self.value(b, scope), ())

    def equal(self, node, scope, a, b):
        left = self.value(a, scope)
        return Injection(left == self.value(b, scope), ())

    def clip(self, node, scope, low, high, e):
        return clipped(low, high, self.value(e, scope))

    def least(self, node, scope, e):
        return min(self.value(e, scope))

    def greatest(self, node, scope, e):
        return max(self.value(e, scope))

    def size(self, node, scope, e):
        return clamp(len(self.value(e, scope)))

    def clipped_sum(self, node, scope, low, high, e):
        return clamp(sum(clipped(low, high, element) for element in self.value(e, scope)))

    def union(self, node, scope, a, b):
        left = self.value(a, scope)
        return left + self.value(b, scope)

    def over_bag(self, node, scope, f, b):
        function = self.value(f, scope)
        bag = self.value(b, scope)
        images = self.images(function, bag)
        if node.form == "map":
            return images
        kept = [element for element, image in zip(bag, images) if image.left]
        if node.form == "filter":
            return kept
        return (kept, [element for element, image in zip(bag, images) if not image.left])

    def images(self, function, bag):
        return [self.value(*function.entered(Bang(element))) for element in bag]


MEANINGS = {
    "name": "name", "number": "itself", "text": "itself", "unit": "itself", "pair": "pair", "with": "pair", "fst": "half",
    "snd": "half", "let,": "let_pair", "inl": "injection", "inr": "injection", "case": "case", "if": "choice",
    "fun": "function", "fn": "function", "apply": "apply", "!": "bang", "let!": "let_bang", "let": "let", "+": "plus",
    "-": "minus", "*": "multiple", "<=": "at_most", "==": "equal", "clip": "clip", "least": "least",
    "greatest": "greatest", "size": "size", "sum": "clipped_sum", "union": "union", "map": "over_bag",
    "filter": "over_bag", "split": "over_bag",
}  # fmt: skip


def value(term, rows):
    return Run().value(term, dict(rows))


# Programs.


def asked(text, tables=PEOPLE):
    term, r = checked(text, tables)
    plan(term, tables)
    return term, r


def judgement(text, tables=PEOPLE):
    try:
        return "ok " + sensitivity_text(asked(text, tables)[1])
    except Refused as refusal:
        return f"no {refusal}"


# Programs at the limits of a run.


def chain(names, first, more, last):
    """Lets of so many functions f0, f1, .., an @ standing for the one before, and then this call of the last one."""
    text = f"let f0 = fun (x : num) => {first} in "
    for name in range(1, names):
        text += f"let f{name} = fun (x : num) => {more.replace('@', f'f{name - 1}')} in "
    return (text + f"f{names - 1} {last}").encode()


def unions(names):
    """Lets of so many bags, each twice the one before, and then the size of the last one."""
    text = "let a0 = union people people in "
    for name in range(1, names):
        text += f"let a{name} = union a{name - 1} a{name - 1} in "
    return (text + f"size a{names - 1}").encode()
