"""The page of tools/watch: what each owner has spent, for a browser, in one file that needs nothing else and has no program of its own.

    page(FOUND)        the page's text, by what tools/watch found
    put(FILE, TEXT)    writes it, whole or not at all

Of each owner it has the budget and what is left, what was spent by analyst and by partition (whose most expensive part counts), how many numbers were
answered, number by number, the grants, the numbers that are lost, exhausted or open, whether the owner is shut, and whether one of two disks lags. It never has a row, an answer or a
program. Names are those of the catalog. A browser shows it light or dark, as it is set, and loads it anew each minute.
"""
import os
import time
from html import escape

from journal import WHOLE, Reservation

MOST_BARS, MOST_NUMBERS, MOST_POINTS, MOST_GRANTS = 20, 40, 400, 12
NEARLY = 0.9
STYLE = """
:root { --back: #f3f5f8; --card: #ffffff; --ink: #18202b; --soft: #566273; --edge: #d5dbe3; --mark: #1f6fb8; --part: #dbe7f3; --warn: #a3261a;
  --warn-back: #fdecea; color-scheme: light dark; }
@media (prefers-color-scheme: dark) { :root { --back: #10151c; --card: #19212b; --ink: #e7ecf2; --soft: #9fabbb; --edge: #313c4a; --mark: #6fb4f2;
  --part: #26364a; --warn: #ff9a8c; --warn-back: #3a1d1b; } }
* { box-sizing: border-box; }
body { margin: 0; padding: 1.25rem clamp(0.75rem, 3vw, 2.5rem) 2.5rem; background: var(--back); color: var(--ink);
  font: 15px/1.45 system-ui, "Segoe UI", Roboto, "DejaVu Sans", sans-serif; overflow-wrap: anywhere; }
h1 { font-size: 1.35rem; margin: 0; } h2 { font-size: 1.1rem; margin: 0; } h3 { font-size: 0.85rem; margin: 1.3rem 0 0.4rem; color: var(--soft); }
header p, .soft { color: var(--soft); margin: 0.2rem 0 0; font-size: 0.9rem; }
main { display: grid; gap: 1rem; grid-template-columns: repeat(auto-fit, minmax(min(100%, 25rem), 1fr)); margin-top: 1rem; align-items: start; }
section { background: var(--card); border: 1px solid var(--edge); border-radius: 10px; padding: 1rem 1.1rem 1.2rem; min-width: 0; }
.alert { background: var(--warn-back); color: var(--warn); border: 1px solid var(--warn); border-radius: 8px; padding: 0.5rem 0.75rem; margin: 0.8rem 0 0; }
.left { font-size: 1.9rem; font-weight: 650; margin: 0.5rem 0 0; line-height: 1.15; } .left small { font-size: 0.9rem; font-weight: 400; color: var(--soft); }
.bar { height: 0.55rem; background: var(--part); border-radius: 4px; overflow: hidden; margin: 0.3rem 0 0.15rem; }
.bar i { display: block; height: 100%; background: var(--mark); } .bar.warn i { background: var(--warn); }
dl { display: grid; grid-template-columns: repeat(auto-fill, minmax(6.5rem, 1fr)); gap: 0.6rem 0.8rem; margin: 1rem 0 0; }
dt { color: var(--soft); font-size: 0.8rem; } dd { margin: 0; font-size: 1.1rem; font-weight: 600; } dd.warn { color: var(--warn); }
dl div:last-child { grid-column: span 2; }
ul { list-style: none; margin: 0; padding: 0; } li { margin: 0.35rem 0 0; }
.row { display: flex; justify-content: space-between; gap: 1rem; font-size: 0.9rem; } .row b { font-weight: 600; white-space: nowrap; }
.plot { border-left: 1px solid var(--edge); border-bottom: 1px solid var(--edge); height: 7.5rem; }
.plot svg { display: block; width: 100%; height: 100%; overflow: visible; } .plot path { fill: none; stroke: var(--mark); stroke-width: 2px; }
.plot path, .plot line { vector-effect: non-scaling-stroke; } .plot line { stroke: var(--soft); stroke-dasharray: 3 4; }
.axis { display: flex; justify-content: space-between; gap: 1rem; font-size: 0.8rem; color: var(--soft); }
"""
SHUT = "is shut: its disk failed, and no ask of it is answered until the service is started anew."


def units(millionths):
    """An epsilon, as it is written in asks, with commas between thousands."""
    whole, part = divmod(abs(millionths), 10**6)
    return f"{'-' if millionths < 0 else ''}{whole:,}" + f".{part:06}".rstrip("0").rstrip(".")


def bar(part, whole, warns=False):
    share = 0 if whole == 0 else min(100, 100 * part / whole)
    return f'<div class="bar{" warn" if warns else ""}"><i style="width:{share:.2f}%"></i></div>'


# What is counted.


def spent_by_analyst(book, analysts):
    """What each one's asks took, less what came back."""
    found = {}
    for one in book.reserved:
        settled = book.settled.get(one.number)
        found[analysts[one.analyst]] = found.get(analysts[one.analyst], 0) + one.taken - (settled.returned if settled else 0)
    return sorted(((name, amount) for name, amount in found.items() if amount), key=lambda pair: -pair[1])


def spent_by_partition(book):
    whole = book.costs.sums.get(WHOLE, 0)
    found = [("all rows", whole)] if whole else []
    return found + [(one["name"], book.costs.dearest[place]) for place, one in enumerate(book.entry["partitions"]) if book.costs.dearest.get(place)]


def answers_by_number(book):
    """How many numbers up to each one are answered, at some of the numbers, the first and the last among them."""
    counts, total = [], 0
    for number in range(len(book.reserved)):
        settled = book.settled.get(number)
        total += bool(settled and settled.outcome == 1)
        counts.append((number, total))
    step = max(1, -(-len(counts) // MOST_POINTS))
    return counts[::step] + (counts[-1:] if counts and (len(counts) - 1) % step else [])


def numbers_that(book, holds):
    """The numbers of which something holds, neighbours joined: `3, 7 to 9`."""
    runs = []
    for number in (number for number in range(len(book.reserved)) if holds(book.settled.get(number))):
        if runs and runs[-1][1] == number - 1:
            runs[-1][1] = number
        else:
            runs.append([number, number])
    said = [str(first) if first == last else f"{first} to {last}" for first, last in runs]
    more = len(said) - MOST_NUMBERS
    return ", ".join(said[:MOST_NUMBERS]) + (f" and {more} more places" if more > 0 else "")


# What is shown.


def bars(title, rows):
    if not rows:
        return ""
    shown, others = rows[:MOST_BARS], rows[MOST_BARS:]
    most = max(amount for _, amount in rows)
    lines = [f'<li><div class="row"><span>{escape(name)}</span><b>{units(amount)}</b></div>{bar(amount, most)}</li>' for name, amount in shown]
    if others:
        lines.append(f'<li class="soft">{len(others)} others: {units(sum(amount for _, amount in others))}</li>')
    return f"<h3>{title}</h3><ul>{''.join(lines)}</ul>"


def plot(book):
    """A line of the answers, and a dashed one where each number were answered."""
    points = answers_by_number(book)
    if len(points) < 2:
        return ""
    last, total = points[-1]
    places = [f"{100 * number / last:.3f} {100 - 100 * max(count - 1, 0) / last:.3f}" for number, count in points]
    path = f"M{' L'.join(places)}"
    said = f"{total} of the numbers 0 to {last} are answered"
    drawn = f'<line x1="0" y1="100" x2="100" y2="0"/><path d="{path}"/>'
    svg = f'<svg viewBox="0 0 100 100" preserveAspectRatio="none" role="img" aria-label="{said}">{drawn}</svg>'
    axis = f'<div class="axis"><span>number 0</span><span>number {last:,}</span></div>'
    return f'<h3>Answers, number by number</h3><p class="soft">{said}; dashed: each number answered</p><div class="plot">{svg}</div>{axis}'


def grants(book):
    budget, rows = book.entry["budget"], []
    for one in book.grants:
        budget += one.amount
        rows.append(f'<li class="row"><span>grant {one.number}: {units(one.amount)}</span><b>budget {units(budget)}</b></li>')
    if not rows:
        return ""
    before = f'<li class="soft">{len(rows) - MOST_GRANTS} earlier ones</li>' if len(rows) > MOST_GRANTS else ""
    return f"<h3>Grants</h3><ul>{before}{''.join(rows[-MOST_GRANTS:])}</ul>"


def without_answer(book):
    kinds = (
        ("lost: charged, and no answer for ever", lambda settled: settled is not None and settled.outcome == 3),
        ("exhausted: no answer for ever", lambda settled: settled is not None and settled.outcome == 2),
        ("open: being answered, or lost by a stop", lambda settled: settled is None),
    )
    found = [(said, numbers_that(book, holds)) for said, holds in kinds]
    lines = [f'<li><div class="soft">{said}</div>{numbers}</li>' for said, numbers in found if numbers]
    return f"<h3>Numbers without an answer</h3><ul>{''.join(lines)}</ul>" if lines else ""


def of_owner(found, name):
    alert = f'<p class="alert">{escape(name)} {SHUT}</p>' if name in found.shut else ""
    book, one = found.books[name], found.owners[name]
    if book is None:
        return f'<section><h2>{escape(name)}</h2>{alert}<p class="alert">The copy is no journal of this owner.</p></section>'
    nearly, full = book.spent >= NEARLY * book.budget, len(book.records) + 2 > one["capacity_records"]
    counts = [
        ("answered", one["answered"], False), ("lost", one["lost"], one["lost"] > 0), ("exhausted", one["exhausted"], False), ("open", one["open"], False),
        ("asks", sum(isinstance(record, Reservation) for record in book.records), False), ("grants", len(book.grants), False),
        ("records", f"{one['records']:,} of {one['capacity_records']:,}", full),
    ]  # fmt: skip
    tiles = "".join(f"<div><dt>{what}</dt><dd{' class=warn' if warns else ''}>{value if isinstance(value, str) else f'{value:,}'}</dd></div>"
        for what, value, warns in counts)  # fmt: skip
    spent = f"{units(book.spent)} of {units(book.budget)} spent{', nearly all' if nearly else ''}"
    parts = [
        f"<h2>{escape(name)}</h2>{alert}",
        f'<p class="left">{units(book.budget - book.spent)} <small>left</small></p>{bar(book.spent, book.budget, nearly)}<p class="soft">{spent}</p>',
        f"<dl>{tiles}</dl>", plot(book), bars("Spent by analyst", spent_by_analyst(book, found.catalog["analysts"])),
        bars("Spent by partition, by its most expensive part", spent_by_partition(book)), grants(book), without_answer(book),
    ]  # fmt: skip
    return f"<section>{''.join(parts)}</section>"


def page(found):
    made = time.strftime("%Y-%m-%d %H:%M:%S", time.gmtime(found.made))
    alerts = "".join(f'<p class="alert" role="alert">{escape(said)}</p>' for said in (*(f"{name} {SHUT}" for name in found.shut), *found.lagging()))
    return f"""<!DOCTYPE html>
<html lang="en">
<head>
<meta charset="utf-8">
<meta name="viewport" content="width=device-width, initial-scale=1">
<meta http-equiv="refresh" content="60">
<meta http-equiv="Content-Security-Policy" content="default-src 'none'; style-src 'unsafe-inline'">
<title>Hitchseason: what is spent</title>
<style>{STYLE}</style>
</head>
<body>
<header><h1>Hitchseason: what is spent</h1><p>By a copy of the journals of {made} UTC. Amounts are epsilons.</p>{alerts}</header>
<main>
{chr(10).join(of_owner(found, name) for name in found.owners)}
</main>
</body>
</html>
"""


def put(name, text):
    """Beside it first, so that nobody reads a part."""
    part = f"{name}.part{os.getpid()}"
    try:
        with open(part, "x", encoding="utf-8") as file:
            file.write(text)
        os.replace(part, name)
    except OSError as fault:
        if os.path.lexists(part):
            os.unlink(part)
        raise OSError(fault.errno, fault.strerror, name) from None
