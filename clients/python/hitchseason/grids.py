"""A cross table as a picture: a grid of cells, each shaded by its value and with its number in it.

    table_of(GROUPS)        a Table of what askparts --json writes, of a partition by a joint column
    grid_svg(TABLE, ..)     as SVG; totals stand at the edges, unshaded

A cell is the darker the greater its value is; what is below 0 is white. The picture is as wide as its numbers need. `tests/tools/pictures.py` looks at them in a browser.
"""
from math import ceil

from .pictures import BAR, EDGE, INK, PALE, TOP, WIDTH, breadth, document, escape, shortened, text_at, told

NAMES, HIGH, FLAT, GAP = 180, 44, 26, 2
# Sizes of a number, where there is room and at least, and of its margin.
VALUE, LEAST, MARGIN = 13, 10, 10


class Table:
    """CELLS by (row, column), and TOTALS by (row, None), (None, column) and (None, None): each (value, low, high)."""

    def __init__(self, cells, totals=()):
        self.cells, self.totals = cells, dict(totals)
        self.rows = list(dict.fromkeys(row for row, _ in cells))
        self.columns = list(dict.fromkeys(column for _, column in cells))

    def of(self, row, column):
        """A cell or a total; None in the place of a row or column is the total."""
        return (self.totals if row is None or column is None else self.cells).get((row, column))


def table_of(groups, percent="95", separator="."):
    """Totals are those that are in it."""
    def known(answer):
        return (answer["value"], *answer["intervals"][percent])

    keys = {key: tuple(key.split(separator)) for key in groups["groups"]}
    odd = [key for key, found in keys.items() if len(found) != 2]
    if odd or not keys:
        raise ValueError(f"`{odd[0]}` isn't two keys with one `{separator}` between them" if odd else "there is no answer in it")
    totals, said = {}, groups.get("totals")
    if said:
        totals = {(row, None): known(answer) for row, answer in said["rows"].items()}
        totals |= {(None, column): known(answer) for column, answer in said["columns"].items()}
        totals[None, None] = known(said["all"])
    return Table({keys[key]: known(answer) for key, answer in groups["groups"].items()}, totals)


def margin_of(cell):
    return f"±{told(cell[2] - cell[0])}"


def widest(texts, size):
    return max(breadth(text, size) for text in texts) + 2 * GAP


class Layout:
    """Where cells stand: names at the left and above, on end where they are long; numbers as large as they fit, with their margins where these fit."""

    def __init__(self, table):
        self.rows, self.columns = ([*names, None] if table.totals else names for names in (table.rows, table.columns))
        cells = [*table.cells.values(), *table.totals.values()]
        numbers = [told(cell[0]) for cell in cells]
        self.left = EDGE + 8 + max(breadth(shortened(self.named(row), NAMES, breadth)) for row in self.rows)
        self.slot = max(min(110, (WIDTH - EDGE - self.left) / len(self.columns)), widest(numbers, LEAST))
        self.wide = max(WIDTH, ceil(self.left + self.slot * len(self.columns) + EDGE))
        longest = max(breadth(self.named(column)) for column in self.columns)
        self.on_end = longest + 6 > self.slot
        self.top = TOP + (ceil(min(NAMES, longest)) + 4 if self.on_end else 14)
        self.size = next(size for size in range(VALUE, LEAST - 1, -1) if widest(numbers, size) <= self.slot)
        self.margins = widest(map(margin_of, cells), MARGIN) <= self.slot
        self.high = HIGH if self.margins else FLAT

    @staticmethod
    def named(name):
        return "total" if name is None else name

    def box(self, row, column):
        return self.left + self.slot * column, self.top + self.high * row


def grid_svg(table, title, percent="95", eps=None):
    at, most = Layout(table), max([1, *(cell[0] for cell in table.cells.values())])
    parts = [column_svg(at, place, column) for place, column in enumerate(at.columns)]
    for place, row in enumerate(at.rows):
        x, y = at.box(place, 0)
        parts.append(text_at(x - 8, y + at.high / 2 + 4, shortened(at.named(row), NAMES, breadth), "end"))
        for number, column in enumerate(at.columns):
            cell = table.of(row, column)
            if cell is not None:
                shade = None if None in (row, column) else max(0, cell[0] / most)
                parts += cell_svg(at, at.box(place, number), f"{at.named(row)}, {at.named(column)}", cell, shade)
    height = at.top + at.high * len(at.rows) + 34
    said = f"Noisy answers{f' at EPS {eps}' if eps else ''}, the darker the greater"
    said += f". The exact value is within ± of it in at least {percent} of 100 answers" if at.margins else ""
    parts.append(text_at(EDGE, height - 10, said, "start", ' font-size="11"'))
    return document(height, title, parts, at.wide)


def column_svg(at, place, column):
    x, y = at.box(0, place)
    name = at.named(column)
    if not at.on_end:
        return text_at(x + at.slot / 2, y - 8, name)
    return text_at(x + at.slot / 2 + 4, y - 6, shortened(name, NAMES, breadth), "start", f' transform="rotate(-90 {x + at.slot / 2 + 4:.1f} {y - 6:.1f})"')


def cell_svg(at, corner, name, cell, shade):
    """SHADE is from 0, white, to 1; nothing of a total."""
    x, y = corner
    value, low, high = cell
    fill, ink = ("white" if shade is None else mixed(shade)), ("white" if shade is not None and shade > 0.7 else INK)
    edge = f' stroke="{PALE}"' if shade is None or shade < 0.05 else ""
    box = f'x="{x + GAP / 2:.1f}" y="{y + GAP / 2:.1f}" width="{at.slot - GAP:.1f}" height="{at.high - GAP:.1f}"'
    drawn = [f'<rect {box} fill="{fill}"{edge}><title>{escape(name)}: {value} ({low} to {high})</title></rect>']
    middle = y + at.high / 2 + (-2 if at.margins else 4)
    drawn.append(text_at(x + at.slot / 2, middle, told(value), more=f' font-size="{at.size}" fill="{ink}"'))
    if at.margins:
        drawn.append(text_at(x + at.slot / 2, y + at.high - 9, margin_of(cell), more=f' font-size="{MARGIN}" fill="{ink}"'))
    return drawn


def mixed(share):
    """Between white and the bars' color."""
    return "#" + "".join(f"{round(255 + (int(BAR[place : place + 2], 16) - 255) * share):02x}" for place in (1, 3, 5))
