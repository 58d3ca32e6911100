r"""The prompt of tools/shell: programs and commands, and what is said of their answers.

A program is asked, and may have several lines: `;` or an empty line ends it. A command begins with `\` and ends with its line; it may stand
between the lines of a program. Nothing is asked twice, and nothing where input ends within a program.
"""
import json
import os
import re
import shlex
import sys
from contextlib import suppress

from .answers import Answer, Groups, units
from .asks import Forgotten, price
from .borrowed import bounds, explain
from .client import PLANS, form_of, takes_of
from .commands import client_of, parser_of, place_words
from .faults import BadCall, Cut, Failed, Fault, Refused, known
from .kept import Sessions, answers_file
from .prompt import GivenUp, Held, Plain, Terminal, candidates
from .told import answered, folded, harmless, listed, named, owner_told
from .transport import Waited

END = re.compile(r'"[^"]*"|;')
NAMED = re.compile(r"([a-z]+)=(?!=)(.*)", re.S)
MOST = 2**16
HELP = [
    ("PROGRAM;", "is asked at the epsilon that is set. It may have several lines; `;` or an empty line ends it"),
    ("\\e EPS", "sets the epsilon, of which the noise's scale is 1/EPS"),
    ("\\d [NAME]", "tables and partitions, or one of them: columns, keys"),
    ("\\p [PARTITION [KEY]]", "asks of one part from here on; without KEY of each key, once; alone of the whole again"),
    ("\\o [OWNER]", "asks another owner; alone: which there are"),
    ("\\f [PROGRAM]", "says what it would take and how far it would be off, and asks nothing. Alone: of what is typed above it, or was last"),
    ("\\s [PROGRAM]", "the program as it is sent, with the columns' names written out"),
    ("\\g", "asks what \\f or \\s was shown last, or what was refused"),
    ("\\a NAME ARGUMENTS", f"asks a statistic: {', '.join(list(PLANS)[1:])}; \\a NAME says its arguments"),
    ("\\r N [EPS]", "tells the answer with this number again, for nothing; \\r alone, what came of a run that was cut"),
    ("\\b", "the budget"),
    ("\\q", "ends, as `quit`, `exit` and Ctrl-D do; Ctrl-C gives up what is typed"),
]
WORDS = {"help": "\\h", "?": "\\h", "quit": "\\q", "exit": "\\q"}
NO_EPS = "no epsilon is set: \\e 0.5 sets one, and \\g asks then"


class Unsaid(ValueError):
    """What is typed is no command, or wants something else first."""


class Unread(Exception):
    """Nobody reads what is said, so that nothing more may be asked."""


class Shell:
    """LINES gives what is typed; CONNECT makes an owner's client. `part` is nothing, (PARTITION, KEY), or (PARTITION, None) for each key."""

    def __init__(self, connect, owner, lines=None, as_json=False, sessions=None):
        self.connect, self.clients, self.as_json, self.sessions = connect, {}, as_json, sessions
        self.client = self.client_of(owner)
        self.lines = lines or Terminal(lambda before, word: candidates(self, before, word), history_file())
        self.eps = self.part = self.left = self.unknown = self.program = None
        self.typed, self.told, self.faults, self.over, self.unasked, self.stopped = "", {}, 0, False, False, False

    def client_of(self, owner):
        """One client an owner: what came of its cut runs is known to it alone."""
        client = self.clients.get(owner) or self.connect(owner)
        return self.clients.setdefault(client.view.name, client)

    @property
    def columns(self):
        return None if self.as_json else self.lines.columns

    @property
    def plain(self):
        return isinstance(self.lines, Plain)

    # What is typed.

    def run(self):
        """Ends with a status: 1 where, of plain lines, something was refused."""
        while not self.over:
            try:
                text = self.lines.read(self.prompt)
                if text is None:
                    break
                for line in text.split("\n"):
                    if not self.over:
                        self.take(line)
            except KeyboardInterrupt as ended:
                self.typed = ""
                if isinstance(ended, Waited):
                    self.say(f"{'tools/shell: ' if self.plain else ''}given up; nothing was asked", sys.stderr)
                if self.plain:
                    return 130
        if self.typed and self.plain and not self.over:
            self.refuse("the input ended within a program, which isn't asked: `;` or an empty line ends one")
        return 1 if self.faults and self.plain else 0

    def prompt(self):
        if self.typed:
            return "...> "
        eps = f", eps {self.eps}" if self.eps else ""
        said = f"{self.where()} {self.left_said()}{eps}"
        # Where it would take the half of a line, a line of its own.
        return f"{said}> " if len(said) < self.lines.columns // 2 else f"{folded(said, self.lines.columns)}\n> "

    def where(self):
        name = self.client.view.name
        return name if not self.part else harmless(f"{name} {self.part[0]}.{short(self.part[1] or '*')}")

    def left_said(self):
        """As of the last answer; after a fault it is looked up, and why it can't be is said once."""
        if self.left is None:
            try:
                self.left, self.unknown = units(self.client.left().left), None
            except (Fault, OSError, KeyboardInterrupt) as fault:
                if str(fault) != self.unknown:
                    self.say(str(fault))
                self.unknown = str(fault)
                return "?"
        return self.left

    def take(self, line):
        """A line: a command, or a part of a program, or the ends of several. A word that other prompts have is no program by itself."""
        if not line.strip():
            return self.end_of_program()
        line = WORDS.get(line.strip().rstrip(";").lower(), line) if not self.typed else line
        begin = 0
        for end in () if line.lstrip().startswith("\\") else END.finditer(line):
            if end[0] == ";":
                self.type(line[begin : end.start()])
                self.end_of_program()
                begin = end.end()
        rest = line[begin:].strip()
        if rest.startswith("\\"):
            return self.tried(lambda: self.command(rest), rest)
        if rest:
            self.type(f"{line[begin:]}\n")

    def type(self, text):
        """What is far too long is kept as such up to its end, so that nothing of it is taken for a program."""
        if len(self.typed) <= MOST:
            self.typed += text

    def end_of_program(self):
        program = self.taken()
        if program:
            self.tried(lambda: self.ask(program), f"{program};")

    def taken(self, rest=""):
        """What is typed, with what is after it, and nothing is typed any more."""
        program, self.typed = f"{self.typed}{rest}".strip(), ""
        return program

    def tried(self, call, typed):
        """Does it, and tells what went wrong. Where Ctrl-C let an ask end, what is typed after it is given up."""
        self.lines.keep(" ".join(typed.split("\n")))
        try:
            said = call()
        except Fault as fault:
            self.left = self.left if told_here(fault) else None
            self.tell_answers(fault.answers)
            self.refuse(str(fault) + (" Here \\r alone does what recover() does." if isinstance(fault, Cut) and self.client.pending else ""))
        except UnicodeEncodeError:
            self.refuse("what is typed is no UTF-8")
        except (ValueError, OSError) as fault:
            self.refuse(str(fault))
        else:
            self.say(said)
        if self.stopped:
            self.stopped = False
            raise KeyboardInterrupt

    # What is shown.

    def say(self, said, file=None):
        if said:
            try:
                print(folded(said, self.columns), file=file, flush=True)
            except OSError as fault:
                raise Unread(fault.strerror) from None

    def refuse(self, said):
        self.faults += 1
        if self.plain:
            self.say(f"tools/shell: line {self.lines.number}: {said}", sys.stderr)
        else:
            self.say(said)

    def shown(self, known):
        """An answer as it is told; it is kept for \\r."""
        self.left = units(known.left.left) if known.left else None
        for answer in answers_of(known):
            self.told[self.client.view.name, answer.number] = answer
            if self.sessions:
                self.sessions.keep(self.client.view.name, answer)
        return self.in_form(known, lambda: answered(known, self.columns))

    def in_form(self, known, text):
        return json.dumps(known.as_dict(), ensure_ascii=False) if self.as_json else text()

    def tell_answers(self, answers):
        """What came before a fault and is paid."""
        if not answers:
            return
        parts = [answer.ask.part for answer in answers]
        if all(parts) and len(set(parts)) == len(parts):
            self.say(self.shown(Groups(parts[0][0], {answer.ask.part[1]: answer for answer in answers})))
        else:
            for answer in answers:
                self.say(self.shown(answer))

    def last(self):
        numbers = [number for owner, number in self.told if owner == self.client.view.name]
        return f"; the last answer has number {numbers[-1]}, and \\r {numbers[-1]} tells it in the next session" if numbers else ""

    # Asking.

    def ask(self, program):
        self.wait(program)
        if self.eps is None:
            raise Unsaid(NO_EPS)
        return self.asked(*self.call_of(program))

    def wait(self, program):
        """A program waits to be asked."""
        self.program = None
        if len(program) > MOST:
            raise Unsaid(f"a program has at most {bounds.PROGRAM_LIMIT} bytes, and this one has over {MOST}")
        self.program, self.unasked = program, True

    def call_of(self, program):
        """The client's call that asks it: of the whole, of a part, or of each key."""
        if self.part and self.part[1] is None:
            return "groups", [self.part[0], program], {"eps": self.eps}
        return "ask", [program], {"eps": self.eps, "part": self.part}

    def asked(self, name, words, more):
        client = self.client
        plan = client.plan(name, *words, **more)
        client.afford(plan)
        self.unasked = False
        held = Held(client)
        try:
            with held, client.kept():
                return self.shown(plan.work(held.send))
        except (Refused, Failed, GivenUp):
            self.unasked = not held.answers
            raise
        except KeyboardInterrupt:
            return self.interrupted(held)
        finally:
            self.stopped = held.times > 0

    def interrupted(self, held):
        """By Ctrl-C: what came before is paid, and what was on its way is recalled."""
        self.tell_answers(held.answers)
        if self.client.pending:
            return self.recovered("Ctrl-C ended the run. ")
        self.unasked = not held.answers
        raise Unsaid("Ctrl-C: nothing more was asked." if held.answers else "Ctrl-C: nothing was asked.")

    def recovered(self, why=""):
        """What came of a run that was cut."""
        try:
            found = self.client.recover(why)
        except KeyboardInterrupt:
            raise Cut("Ctrl-C: what came of the run that was cut isn't known yet.") from None
        self.tell_answers(found)
        return None

    # Commands.

    def command(self, typed):
        letter, rest = typed[1:2], typed[2:]
        # Ended as a program is; a key of \\p may end so itself.
        rest = rest if letter == "p" else rest.rstrip(";")
        call = getattr(self, f"do_{letter}", None) if letter.isascii() and letter.isalpha() else None
        if call is None or (rest and not rest[0].isspace()):
            word = typed.split()[0]
            raise Unsaid(f"`{word if len(word) <= 40 else word[:38] + '..'}` is no command: \\h says which there are")
        return call(rest.strip())

    def do_h(self, _):
        return listed(HELP, self.lines.columns)

    def do_q(self, _):
        self.over, self.typed = True, ""

    def do_d(self, name):
        """The budget is asked for, since the owner may have granted more; where nothing answers it is the catalog's."""
        view = self.client.view
        if name:
            return named(view, name, self.lines.columns)
        with suppress(Fault):
            self.left = units(self.client.left().left)
        return owner_told(view, self.client.known)

    def do_b(self, _):
        left = self.client.left()
        self.left = units(left.left)
        return self.in_form(left, lambda: str(left))

    def do_e(self, eps):
        if eps:
            self.eps = explain.in_units(price(1, eps=eps))
        elif self.eps is None:
            raise Unsaid("no epsilon is set: \\e 0.5 sets one")
        return None if eps else f"eps {self.eps}"

    def do_o(self, owner):
        if not owner:
            return "\n".join(one["name"] for one in self.client.catalog["owners"])
        if owner != self.client.view.name:
            self.client = self.client_of(owner)
            self.part = self.left = self.program = None
        return None

    def do_p(self, words):
        partition, *keys = words.split() or [""]
        if len(keys) > 1:
            raise Unsaid("\\p PARTITION KEY has one key: without it each is asked")
        view, partition, key = self.client.view, partition.rstrip(";"), "".join(keys)
        if partition and key not in view.partition(partition)["keys"]:
            key = key.rstrip(";")
        self.part = (view.part(partition, key) if key else (partition, None)) if partition else None

    def shown_program(self, rest):
        """The program of \\f and \\s: what is typed above and after it, or else the last one."""
        program = self.taken(rest).removesuffix(";")
        if program:
            self.wait(program)
        if self.program is None:
            raise Unsaid("there is no program yet")
        return self.program

    def do_f(self, rest):
        if rest.startswith("\\a"):
            name, words, more = self.statistic(rest[2:].strip())
        else:
            program = self.shown_program(rest)
            if self.eps is None:
                raise Unsaid(NO_EPS.replace("\\g asks", "\\f says"))
            name, words, more = self.call_of(program)
        forecast = self.client.forecast(name, *words, **more)
        return self.in_form(forecast, lambda: str(forecast))

    def do_s(self, rest):
        program = self.shown_program(rest)
        return self.client.view.checked(program, self.part and self.part[0])[0].sent.decode().strip("\r\n")

    def do_g(self, _):
        program = self.taken()
        if program:
            return self.ask(program)
        if not self.unasked or self.program is None:
            raise Unsaid("there is no program that waits to be asked: one that was asked is entered again")
        return self.ask(self.program)

    def do_r(self, rest):
        if not rest:
            return self.recovered()
        number, *eps = rest.split()
        if not re.fullmatch("[0-9]{1,10}", number) or len(eps) > 1:
            raise Unsaid(f"\\r N has a number, and may have the EPS at which it was asked; `{rest[:40]}` is none")
        number, e = int(number), price(1, eps=eps[0]) if eps else None
        value = self.client.recall(number)
        ask = Forgotten(self.client.view.name, e) if e else self.asked_before(number, value)
        if ask is None:
            return self.recalled_alone(number, value)
        again = Answer(ask, number, value, None, recalled=True)
        return self.in_form(again, lambda: answered(again, self.columns) + (f"\nasked: {ask.sent}" if ask.sent and isinstance(ask, Forgotten) else ""))

    def asked_before(self, number, value):
        """The ask of a number, of this session or of an earlier one."""
        found = self.told.get((self.client.view.name, number))
        if found is not None:
            return found.ask
        return self.sessions.of(self.client.view.name, number, value) if self.sessions else None

    def recalled_alone(self, number, value):
        if self.as_json:
            return json.dumps({"value": value, "number": number, "recalled": True})
        return f"{value}\nnumber {number}, recalled; \\r {number} EPS gives its interval, by the EPS at which it was asked"

    def do_a(self, rest):
        # What is asked, or refused, is no program, which \\g could ask.
        self.program = None
        return self.asked(*self.statistic(rest))

    def statistic(self, rest):
        """A statistic's name and words, as the client's calls have them."""
        name, *typed = shlex.split(rest) or [""]
        if name not in PLANS or name == "ask":
            raise Unsaid(f"there is no statistic `{name}`: {known(name, list(PLANS)[1:], 'there is')}")
        takes, words, more = takes_of(name, [word for word in typed if not NAMED.fullmatch(word)]), [], {}
        places = list(takes.parameters)[1:]
        for word in typed:
            found = NAMED.fullmatch(word)
            if found:
                more[found[1]] = read(found[1], found[2])
            else:
                words.append(read(places[len(words)] if len(words) < len(places) else "", word))
        try:
            takes.bind(None, *words, **more)
        except TypeError:
            raise Unsaid(f"its arguments are \\a {name} {form_of(name, words)}") from None
        return name, words, {**self.usual(name, words, takes.parameters, more), **more}

    def usual(self, name, words, takes, more):
        """The epsilon and the part that are set, where no other are said."""
        usual = {}
        if "eps" in takes and not {"eps", "charge"} & set(more):
            usual["eps"] = self.eps
        if "eps" not in takes and "charge" not in more:
            raise Unsaid(f"a charge is said, which is divided among its asks: \\a {name} {form_of(name, words)}")
        if "eps" in usual and self.eps is None:
            raise Unsaid("no epsilon is set: \\e 0.5 sets one, or eps=0.5 among its arguments")
        if self.part and "part" in takes:
            if self.part[1] is None:
                raise Unsaid("\\a asks no statistic of each key: \\p PARTITION KEY sets one, and \\p the whole")
            usual["part"] = self.part
        return usual


WHOLE = ("low", "high", "number", "steps")


def read(name, word):
    """A word of a statistic."""
    if name in WHOLE:
        if not re.fullmatch("-?[0-9]{1,20}", word):
            raise Unsaid(f"{name.upper()} is a whole number, and not `{word[:40]}`")
        return int(word)
    # A key may have commas in it, and a partition's name has none.
    return word.split(",") if name in ("keys", "shares") else tuple(word.split(",", 1)) if name == "part" else word


def told_here(fault):
    """Whether the server wasn't asked, so that what is left is what it was."""
    return isinstance(fault, BadCall) or isinstance(fault, Refused) and (fault.reply is None or fault.reply.split()[1] in (*explain.OF_PROGRAMS, "90"))


def answers_of(known):
    """The single answers of whatever was asked."""
    if isinstance(known, Answer):
        return [known]
    found = getattr(known, "answers", None) or known.groups.answers
    return [answer for one in found.values() for answer in answers_of(one)] if isinstance(found, dict) else found


def short(key):
    return key if len(key) <= 12 else f"{key[:10]}.."


def history_file():
    return os.environ.get("HITCHSEASON_HISTORY", os.path.expanduser("~/.hitchseason_history"))


# The command.


def shell(words, doc):
    parser = parser_of("shell", doc)
    place_words(parser)
    parser.add_argument("analyst", metavar="ANALYST")
    parser.add_argument("owner", nargs="?", metavar="OWNER", help="may be left out where there is one")
    parser.add_argument("--json", action="store_true", help="answers, forecasts and the budget as lines of JSON")
    given = parser.parse_intermixed_args(words)
    if not (sys.stdin and sys.stdout):
        return fail("standard input or output is closed")
    sys.stdin.reconfigure(encoding="utf-8", errors="surrogateescape")
    sys.stdout.reconfigure(errors="backslashreplace")
    is_terminal, prompt = sys.stdin.isatty() and sys.stdout.isatty(), None
    try:
        sessions = Sessions(answers_file(), given.place, given.analyst)
        prompt = Shell(lambda owner: client_of(given, given.analyst, owner), given.owner, None if is_terminal else Plain(), given.json, sessions)
        if is_terminal:
            prompt.say(f"{given.analyst} asks {prompt.client.view.name}: \\h says how, \\d what there is, and \\e EPS sets the epsilon first.")
        return prompt.run()
    except Unread as fault:
        os.dup2(os.open(os.devnull, os.O_WRONLY), sys.stdout.fileno())
        return fail(f"what it says can't be written: {fault}. Nothing more is asked{prompt.last() if prompt else ''}")
    except (Fault, ValueError, OSError) as fault:
        return fail(str(fault))


def fail(why):
    try:
        if sys.stderr:
            print(harmless(f"tools/shell: {why}"), file=sys.stderr, flush=True)
    except OSError:
        pass
    return 1
