"""Pictures of what `--json` tells: a histogram with its error bars, and a budget over time; as SVG, and as text for a terminal.

    bars_of(GROUPS), points_of(LEFTS)      what is drawn, of the dictionaries that tools/askparts --json and tools/left --json write
    least_of(GROUPS)                       how far below 0 the axis goes
    histogram_svg, histogram_text          of bars: (key, value, low, high); LEAST is where the axis begins, at most 0
    budget_svg, budget_text                of points: (time or nothing, spent, budget), in millionths

A bar goes from 0 to the value. Its error bar is the interval at the level that is said below. The axis goes below 0 for what surely lies there, and
not for what noise alone puts there: an error bar that goes on below the axis has no foot. grids.py draws cross tables. `tests/tools/pictures.py` looks
at them in a browser.
"""
import html
import re
from datetime import datetime, timezone
from math import ceil
from unicodedata import category, east_asian_width

from .signs import never_negative

WIDTH, EDGE, TOP, BOTTOM, BAR_WIDE = 720, 16, 52, 56, 80
NAME, NAMES = 14, 280  # how high a name is, and how long one may be that stands on end
BAR, LINE, ERROR, PALE, INK = "#4c78a8", "#c44e52", "#222222", "#dddddd", "#222222"
COLUMNS, THIN = 72, "\u2009"


def bars_of(groups, percent="95"):
    found = []
    for key, answer in groups["groups"].items():
        if percent not in answer["intervals"]:
            raise ValueError(f"there are intervals at {', '.join(answer['intervals'])} of 100, and not at {percent}")
        found.append((key, answer["value"], *answer["intervals"][percent]))
    if not found:
        raise ValueError("there is no answer in it")
    return found


def least_of(groups, percent="95"):
    """The least end of those whose interval at 99.9 of 100 lies below 0, and whose program may have such a value; 0 where there is none."""
    answers = groups["groups"].values()
    below = [one for one in answers if one["intervals"].get("99.9", (0, 0))[1] < 0 and not never_negative(one.get("sent"))]
    return min([0, *(one["intervals"][percent][0] for one in below)])


def least_of_bars(bars):
    """The same of bars alone: the least end of those that lie below 0."""
    return min([0, *(low for _, _, low, high in bars if high < 0)])


def eps_of(groups):
    """The EPS of all answers, or nothing where they differ or none is said."""
    found = {answer.get("eps") for answer in groups["groups"].values()}
    return found.pop() if len(found) == 1 else None


def points_of(lefts):
    return [(one.get("time"), one["spent"], one["budget"]) for one in lefts]


# Scales.


def step_of(span, most=6):
    """A round step, so that at most so many fit in the span."""
    step = 1
    while span / step > most:
        step = step * 2 if str(step)[0] in "15" else step * 5 // 2
    return step


def scale_of(values):
    """Round ends around the values and 0, and the ticks between them."""
    low, high = min([0, *values]), max([1, *values])
    step = step_of(high - low)
    first, last = low // step * step, -(-high // step) * step
    return first, last, list(range(int(first), int(last) + 1, step))


def told(number):
    return f"{number:,}".replace(",", THIN).replace("-", "\u2212")


def units(number):
    whole, part = divmod(number, 10**6)
    return f"{whole}.{part:06}".rstrip("0").rstrip(".")


def told_units(number):
    whole, _, part = units(number).partition(".")
    return told(int(whole)) + (f".{part}" if part else "")


# How wide a text is.


def cells_of(text):
    """In cells of a terminal."""
    return sum(0 if category(sign) in ("Mn", "Me", "Cf") else 2 if east_asian_width(sign) in "WF" else 1 for sign in text)


def breadth(text, size=12):
    """About as wide as a browser draws it, in a wide font."""

    def wide(sign):
        cells = cells_of(sign)
        if cells != 1:
            return 0.55 * cells
        return 1 if sign in "mwMW@%" else 0.8 if sign.isupper() or sign in "<>&=+~" else 0.3 if sign == THIN else 0.65

    return size * sum(map(wide, text))


def shortened(text, room, wide):
    """What fits of its beginning and of its end, since keys often begin alike."""
    short, kept = text, len(text)
    while wide(short) > room and kept > 1:
        kept -= 1
        short = f"{text[: (kept + 1) // 2]}…{text[len(text) - kept // 2 :]}"
    return short


def lines_of(text, room, size):
    lines = [""]
    for word in text.split():
        longer = f"{lines[-1]} {word}".lstrip()
        if lines[-1] and breadth(longer, size) > room:
            lines.append(word)
        else:
            lines[-1] = longer
    return [shortened(line, room, lambda short: breadth(short, size)) for line in lines]


# SVG.


def escape(text):
    """As XML has it, in ASCII alone, whatever writes the file. What XML can't have becomes the sign of that."""
    text = re.sub("[^\t\n\r -\ud7ff\ue000-\ufffd\U00010000-\U0010ffff]", "\ufffd", text)
    return html.escape(text).encode("ascii", "xmlcharrefreplace").decode()


def text_at(x, y, text, anchor="middle", more=""):
    return f'<text x="{x:.1f}" y="{y:.1f}" text-anchor="{anchor}"{more}>{escape(text)}</text>'


def line_at(x1, y1, x2, y2, color, width=1, more=""):
    return f'<line x1="{x1:.1f}" y1="{y1:.1f}" x2="{x2:.1f}" y2="{y2:.1f}" stroke="{color}" stroke-width="{width:g}"{more}/>'


def document(height, title, parts, wide=WIDTH):
    """The title stands above the parts, in as many lines as it takes: all but the last are above 0."""
    lines = lines_of(title, wide - 2 * EDGE, 15)
    above = 18 * (len(lines) - 1)
    size = f'width="{wide:g}" height="{height + above:g}"'
    head = f'<svg xmlns="http://www.w3.org/2000/svg" viewBox="0 {-above} {wide:g} {height + above:g}" {size}'
    head += f' role="img" aria-label="{escape(title)}" font-family="sans-serif" font-size="12" fill="{INK}">'
    ground = f'<rect y="{-above}" {size} fill="white"/>'
    said = [text_at(EDGE, 22 - above + 18 * number, line, "start", ' font-size="15"') for number, line in enumerate(lines)]
    return "\n".join([head, f"<title>{escape(title)}</title>", ground, *said, *parts, "</svg>"]) + "\n"


def left_of(ticks, name):
    """Where the plot begins: right of what stands at the ticks."""
    return max(64, EDGE + 8 + max(breadth(name(tick)) for tick in ticks))


def grid(ticks, place, name, left):
    """Lines across at the ticks, with what stands at their left."""
    parts = []
    for tick in ticks:
        parts.append(line_at(left, place(tick), WIDTH - EDGE, place(tick), PALE if tick else INK))
        parts.append(text_at(left - 8, place(tick) + 4, name(tick), "end"))
    return parts


FOOTLESS = "An error bar without a foot goes on below the axis"


def histogram_svg(bars, title, percent="95", eps=None, least=None):
    """Bars side by side. Where there are many, names stand on end, and where there are very many not all of them."""
    least = least_of_bars(bars) if least is None else least
    first, last, ticks = scale_of([max(end, least) for bar in bars for end in bar[1:]])
    left = left_of(ticks, told)
    slot = (WIDTH - EDGE - left) / len(bars)
    longest = max(breadth(key) for key, *_ in bars)
    on_end, valued = longest + 6 > slot, max(breadth(told(bar[1]), 11) for bar in bars) + 4 <= slot
    floor = TOP + 300
    said = [f"Noisy answers{f' at EPS {eps}' if eps else ''}. Error bars: each holds the exact value in at least {percent} of 100 answers"]
    said += [FOOTLESS] if any(bar[2] < first for bar in bars) else []
    height = floor + (44 + ceil(min(NAMES, longest)) if on_end else 60) + 16 * (len(said) - 1)

    def place(value):
        return floor - max(0, value - first) / (last - first) * 300

    parts, each = grid(ticks, place, told, left), ceil(NAME / slot)
    for number, bar in enumerate(bars):
        parts += bar_svg(bar, left + slot * (number + 0.5), slot, place, valued, first)
        if number % each == 0:
            parts.append(name_svg(bar[0], left + slot * (number + 0.5), floor + 16, on_end))
    parts += [text_at(EDGE, height - 10 - 16 * number, line, "start", ' font-size="11"') for number, line in enumerate(reversed(said))]
    return document(height, title, parts)


def bar_svg(bar, middle, slot, place, valued, first):
    """Where bars are narrow, lines are thin, so that what is behind them is seen. An end below the axis isn't drawn."""
    key, value, low, high = bar
    wide, whisker, thin = min(BAR_WIDE, slot * 0.7), min(8, slot * 0.25), min(1.5, slot * 0.2)
    top, bottom = place(max(value, 0)), place(min(value, 0))
    said = f"<title>{escape(key)}: {value} ({low} to {high})</title>"
    drawn = f'<rect x="{middle - wide / 2:.1f}" y="{top:.1f}" width="{wide:.1f}" height="{max(0, bottom - top):.1f}" fill="{BAR}">{said}</rect>'
    ends = [line_at(middle - whisker, place(end), middle + whisker, place(end), ERROR, thin) for end in (low, high) if end >= first]
    label = [text_at(middle, place(max(high, 0)) - 6, told(value), more=' font-size="11"')] if valued else []
    return [drawn, line_at(middle, place(low), middle, place(high), ERROR, thin), *ends, *label]


def name_svg(key, x, y, on_end):
    if not on_end:
        return text_at(x, y, key)
    return text_at(x + 4, y - 6, shortened(key, NAMES, breadth), "end", f' transform="rotate(-90 {x + 4:.1f} {y - 6:.1f})"')


def budget_svg(points, title):
    """Steps of what is spent, under the budget's. Where times are known they are to scale, else the points follow one another."""
    places, names = across(points)
    first, last, ticks = scale_of([point[2] for point in points] + [point[1] for point in points])
    left, right, floor = left_of(ticks, told_units), WIDTH - EDGE, TOP + 260

    def place(value):
        return floor - (value - first) / (last - first) * 260

    xs = [left + (right - left) * x for x in places]

    def steps(which):
        path = f"M{left:.1f},{place(points[0][which]):.1f}"
        return path + "".join(f"H{x:.1f}V{place(point[which]):.1f}" for x, point in zip(xs[1:], points[1:])) + f"H{right:.1f}"

    _, spent, budget = points[-1]
    parts = grid(ticks, place, told_units, left)
    parts.append(f'<path d="{steps(1)}V{floor:.1f}H{left:.1f}Z" fill="{BAR}" fill-opacity="0.25"/>')
    parts.append(f'<path d="{steps(1)}" fill="none" stroke="{BAR}" stroke-width="2"/>')
    parts.append(f'<path d="{steps(2)}" fill="none" stroke="{LINE}" stroke-width="2" stroke-dasharray="6 4"/>')
    parts.append(text_at(right - 4, place(budget) - 6, f"budget {told_units(budget)}", "end", f' fill="{LINE}"'))
    under = place(spent) - 20 < place(budget)  # no room between what is spent and the budget
    parts.append(text_at(right - 4, place(spent) + (16 if under else -6), f"spent {told_units(spent)}", "end"))
    parts += [text_at(left, floor + 18, names[0], "start"), text_at(right, floor + 18, names[1], "end")]
    return document(floor + 40, title, parts)


def across(points):
    """Where each point is from left to right, from 0 to 1, and what the ends are called."""
    times = [moment(time) for time, _, _ in points]
    if None not in times and times[-1] > times[0]:
        span = (times[-1] - times[0]).total_seconds()
        return [max(0, (time - times[0]).total_seconds() / span) for time in times], [point[0] for point in (points[0], points[-1])]
    names = ["first", "last"] if len(points) > 1 else [points[0][0] or "", ""]
    return [number / max(1, len(points) - 1) for number in range(len(points))], names


def moment(text):
    if text is None:
        return None
    return datetime.strptime(text, "%Y-%m-%dT%H:%M:%SZ").replace(tzinfo=timezone.utc)


# Text.


def histogram_text(bars, title, percent="95", columns=COLUMNS, eps=None, least=None):
    """A line a bar: its key, its value, and the bar with its interval between `├` and `┤`, the value being at `┼`; `│` is at 0, unless that is at the
    left. What lies below the axis is at its beginning, and has no `├`."""
    keys = [shortened(key, columns // 2 - 4, cells_of) for key, *_ in bars]
    keys_wide, values = max(map(cells_of, keys)), max(len(str(bar[1])) for bar in bars)
    wide = max(16, columns - keys_wide - values - 4)
    low, high = least_of_bars(bars) if least is None else least, max([1, *(bar[3] for bar in bars)])

    def cell(value):
        return round((max(value, low) - low) / (high - low) * (wide - 1))

    lines = [f"{padded(key, keys_wide)}  {str(bar[1]).rjust(values)}  {bar_text(*bar[1:], cell, wide, low)}" for key, bar in zip(keys, bars)]
    said = f"{f'EPS {eps}; ' if eps else ''}{'│ is 0; ' if cell(0) else ''}each ├─┤ holds the exact value in at least {percent} of 100 answers"
    said += "; one without ├ goes on to the left" if any(bar[2] < low for bar in bars) else ""
    return "\n".join([title, *lines, said]) + "\n"


def padded(text, wide):
    return text + " " * (wide - cells_of(text))


def bar_text(value, low, high, cell, wide, first):
    cells = [" "] * wide
    for at in range(cell(min(value, 0)), cell(max(value, 0))):
        cells[at] = "█"
    for at in range(cell(low), cell(high) + 1):
        cells[at] = "─"
    if cell(0):
        cells[cell(0)] = "│"
    for end, sign in ((low, "├"), (high, "┤"), (value, "┼")):
        if end >= first:
            cells[cell(end)] = sign
    return "".join(cells).rstrip()


def budget_text(points, title, columns=COLUMNS):
    """A line a point: when, what is spent, and a bar of the budget."""
    names = [time or str(number) for number, (time, _, _) in enumerate(points)]
    spent = [units(point[1]) for point in points]
    names_wide, spent_wide = max(map(len, names)), max(map(len, spent))
    wide = max(16, columns - names_wide - spent_wide - 6)
    lines = []
    for name, said, (_, taken, budget) in zip(names, spent, points):
        full = min(wide, taken * wide // budget)
        lines.append(f"{name.ljust(names_wide)}  {said.rjust(spent_wide)}  {'█' * full}{'░' * (wide - full)}")
    return "\n".join([title, *lines, f"█ spent, ░ left of {units(points[-1][2])}"]) + "\n"
