"""The commands of `tools/` that stand on the package: askparts, forecast, left and plot. Each gives its status."""
import argparse
import csv
import io
import json
import os
import sys

from . import grids, noise, pictures
from .answers import PERCENTS, Groups, for_person, laid_out, numbers_said, units
from .borrowed import options
from .client import connect
from .faults import Fault
from .told import harmless
from .transport import Waited

FOLDER = ("public", "program", "catalog", "key")
WRITES = {"histogram": "tools/askparts --json", "crosstab": "tools/askparts --json", "budget": "tools/left --json"}


def place_words(parser):
    parser.add_argument("place", metavar="FOLDER", help="with the catalog, the key, the tables and the journals; the program is started there. "
        "Or a service: ssh://DESTINATION, or HOST:PORT")
    parser.add_argument("--public", metavar="FILE", help="what `tools/public --json CATALOG SPEC ..` wrote: wanted of a service; it says what columns mean")
    parser.add_argument("--program", metavar="FILE", help="else PROGRAM=FILE, `hitchseason` on the path, or tools/build's quick build")
    parser.add_argument("--catalog", default="catalog.json", metavar="NAME", help="of the catalog in the folder: catalog.json, unless said")
    parser.add_argument("--key", default="key", metavar="NAME", help="of the key in the folder: key, unless said")


def client_of(given, analyst, owner):
    return connect(given.place, analyst, owner, **{name: getattr(given, name) for name in FOLDER})


def text_of(name):
    if name == "-" and sys.stdin is None:
        raise OSError("standard input is closed")
    try:
        with open(sys.stdin.fileno() if name == "-" else name, encoding="utf-8", closefd=name != "-") as file:
            return file.read()
    except UnicodeDecodeError as fault:
        raise ValueError(f"{'standard input' if name == '-' else name} is no UTF-8, from byte {fault.start} on") from None


def run(name, call, parser, words):
    """The status of a command: 1 where something was refused or failed, 2 where the words are none, 130 where Ctrl-C ended it. Where nobody can read
    what it says, nothing is asked."""
    given = parser.parse_intermixed_args(words)
    try:
        if sys.stdout is None:
            raise OSError("standard output is closed")
        sys.stdout.reconfigure(errors="backslashreplace")
        call(given)
        sys.stdout.flush()
        return 0
    except KeyboardInterrupt as ended:
        return failed(name, ended if isinstance(ended, Interrupted) else "given up; nothing was asked", 130)
    except (Fault, ValueError, OSError) as fault:
        return failed(name, fault, 1)


def failed(name, why, status):
    """Says why, after what was said before. What can't be written is let go, so that Python doesn't try it once more at its end."""
    for file, said in ((sys.stdout, ""), (sys.stderr, harmless(f"tools/{name}: {why}\n"))):
        try:
            if file:
                file.write(said)
                file.flush()
        except OSError:
            os.dup2(os.open(os.devnull, os.O_WRONLY), file.fileno())
    return status


class Interrupted(KeyboardInterrupt):
    """Ctrl-C, where something may have been asked."""


def parser_of(name, doc):
    return options.Parser(prog=f"tools/{name}", description=doc, formatter_class=argparse.RawDescriptionHelpFormatter)


# A program of each part.


def askparts(words, doc):
    parser = parser_of("askparts", doc)
    place_words(parser)
    for name in ("analyst", "owner", "partition", "eps", "file"):
        parser.add_argument(name, metavar=name.upper())
    parser.add_argument("keys", nargs="*", metavar="KEY", help="each once; all of the partition's, unless said")
    form = parser.add_mutually_exclusive_group()
    form.add_argument("--csv", action="store_const", const=csv_lines, dest="form", help="with a header, and both ends of each interval")
    form.add_argument("--json", action="store_const", const=json_lines, dest="form", help="as tools/plot histogram reads it")
    parser.add_argument("--level", default="95", metavar="PERCENT", help="of the interval in text: 95 of 100, unless said")
    parser.set_defaults(form=text_lines)

    def call(given):
        noise.level_of(given.level)
        client, program = client_of(given, given.analyst, given.owner), text_of(given.file)
        try:
            groups = client.groups(given.partition, program, eps=given.eps, keys=given.keys or None)
        except KeyboardInterrupt as ended:
            if isinstance(ended, Waited) and not client.pending:
                raise
            raise Interrupted("given up; what was asked may be answered and paid: tools/shell tells it again by its number (\\r N)") from None
        except Fault as fault:
            # What is answered is paid.
            if fault.answers:
                known = {answer.ask.part[1]: answer for answer in fault.answers}
                wanted = dict.fromkeys(given.keys or client.view.partition(given.partition)["keys"])
                tell(given.form, Groups(given.partition, known), given.level, [key for key in wanted if key not in known])
            raise
        tell(given.form, groups, given.level, [])

    return run("askparts", call, parser, words)


def tell(form, groups, percent, missing):
    try:
        print(form(groups, percent, missing), flush=True)
    except OSError as fault:
        told = f"what was answered is paid, and tools/shell tells it again (\\r N): {numbers_said(groups.numbers)}"
        raise OSError(f"what it says can't be written: {fault.strerror}; {told}") from None


def text_lines(groups, percent, missing):
    """A line a key, and one of what they took together, and of keys without an answer."""
    rows = [[key, str(answer.value), "{} to {}".format(*answer.interval(percent))] for key, answer in groups.items()]
    widths = [max(len(row[place]) for row in rows) for place in range(3)]
    lines = [f"{key.ljust(widths[0])}  {value.rjust(widths[1])}  {ends.rjust(widths[2])}" for key, value, ends in rows]
    taken = "some were recalled, and what they took isn't known"
    if groups.taken is not None:
        taken = f"taken {units(groups.taken)}{for_person(groups.taken, groups.left and groups.left.person)}"
    left = f"; {units(groups.left.left)} left" if groups.left else ""
    without = f"; without an answer: {', '.join(missing)}" if missing else ""
    return "\n".join([*lines, f"{percent} of 100; {taken}{left}{without}"])


def csv_lines(groups, _, missing):
    """A key without an answer has nothing after it."""
    file = io.StringIO()
    lines = csv.writer(file, lineterminator="\n")
    lines.writerow(["key", "value", *(f"{end}_{percent}" for percent in PERCENTS for end in ("low", "high")), "number", "taken"])
    for key, answer in groups.items():
        ends = [end for percent in PERCENTS for end in answer.interval(percent)]
        lines.writerow([key, answer.value, *ends, answer.number, answer.taken])
    lines.writerows([key, *[""] * (2 * len(PERCENTS) + 3)] for key in missing)
    return file.getvalue().rstrip("\n")


def json_lines(groups, _, missing):
    return json.dumps({**groups.as_dict(), **({"missing": missing} if missing else {})}, ensure_ascii=False)


# What costs nothing.


def left(words, doc):
    parser = parser_of("left", doc)
    place_words(parser)
    parser.add_argument("owner", metavar="OWNER")
    parser.add_argument("--json", action="store_true", help="a line, as tools/plot budget reads it")

    def call(given):
        found = client_of(given, None, given.owner).left()
        print(json.dumps(found.as_dict(), ensure_ascii=False) if given.json else found)

    return run("left", call, parser, words)


def forecast(words, doc):
    parser = parser_of("forecast", doc)
    place_words(parser)
    for name in ("owner", "eps", "file"):
        parser.add_argument(name, metavar=name.upper())
    parser.add_argument("partition", nargs="?", metavar="PARTITION", help="asked of each of its keys")
    form = parser.add_mutually_exclusive_group()
    form.add_argument("--json", action="store_true")
    form.add_argument("--sent", action="store_true", help="the program as it is sent, alone: columns' names are written out")

    def call(given):
        client, program = client_of(given, None, given.owner), text_of(given.file)
        if given.sent:
            print(client.sent(program).rstrip("\n"))
            return
        said = client.forecast("groups", given.partition, program, eps=given.eps) if given.partition else client.forecast("ask", program, eps=given.eps)
        print(json.dumps(said.as_dict(), ensure_ascii=False) if given.json else said)

    return run("forecast", call, parser, words)


# Pictures.


def plot(words, doc):
    parser = parser_of("plot", doc)
    parser.add_argument("what", choices=tuple(DRAWN))
    parser.add_argument("file", nargs="?", default="-", metavar="FILE", help="of tools/askparts --json, or of lines of tools/left --json; else standard input")
    parser.add_argument("--text", action="store_true", help="for a terminal; else SVG")
    parser.add_argument("--level", default="95", choices=PERCENTS, help="of the error bars, of 100")
    parser.add_argument("--title")

    def call(given):
        said = text_of(given.file)
        try:
            print(DRAWN[given.what](said, given), end="")
        except (KeyError, TypeError, AttributeError, IndexError):
            raise ValueError(f"this isn't what {WRITES[given.what]} writes") from None

    return run("plot", call, parser, words)


def histogram(said, given):
    groups = json.loads(said)
    bars, title, eps = pictures.bars_of(groups, given.level), given.title or groups["partition"], pictures.eps_of(groups)
    if given.text:
        return pictures.histogram_text(bars, title, given.level, columns(), eps, pictures.least_of(groups, given.level))
    return pictures.histogram_svg(bars, title, given.level, eps, pictures.least_of(groups, given.level))


def crosstab(said, given):
    """Of a partition by a joint column, whose keys are two with a point between them."""
    groups = json.loads(said)
    table, title, eps = grids.table_of(groups, given.level), given.title or groups["partition"], pictures.eps_of(groups)
    if not given.text:
        return grids.grid_svg(table, title, given.level, eps)
    cells = [[table.cells.get((row, column)) for column in table.columns] for row in table.rows]
    lines = [[row, *(f"{cell[0]} ±{cell[2] - cell[0]}" if cell else "" for cell in of_row)] for row, of_row in zip(table.rows, cells)]
    return f"{title}\n{laid_out([['', *table.columns], *lines])}\n± holds in at least {given.level} of 100 answers\n"


def budget(said, given):
    lefts = [json.loads(line) for line in said.splitlines() if line.strip()]
    points, title = pictures.points_of(lefts), given.title or f"{lefts[0].get('owner', 'budget')}: epsilon spent"
    return pictures.budget_text(points, title, columns()) if given.text else pictures.budget_svg(points, title)


DRAWN = {"histogram": histogram, "crosstab": crosstab, "budget": budget}


def columns():
    return max(40, min(160, os.get_terminal_size().columns)) if sys.stdout.isatty() else pictures.COLUMNS
