"""Where the shell's lines come from, and how Ctrl-C is taken while something is asked.

    Plain()                          lines of standard input, without a prompt
    Terminal(CANDIDATES, HISTORY)    a prompt, with history and completion where Python has readline
    candidates(SHELL, BEFORE, WORD)  what a word may be completed to
    Held(CLIENT)                     while it asks, the first Ctrl-C waits for the answer, and the second cuts the run
"""
import os
import re
import shutil
import signal
import sys
from contextlib import suppress

from .borrowed import programs
from .client import PLANS
from .faults import Fault

try:
    import readline
except ImportError:
    readline = None

# What some editors write before the first line of a file.
MARK = "\ufeff"
HISTORY = 1000
LONGEST = 2**15
# How much of what stands before a word is looked at.
NEAR = 4000
# What parts words for completion: `.` and `-` don't, since keys have them.
APART = " \t\n()[]<>,;:=*&+|!\"'"
WAITS = b"\nWhat is asked can't be taken back: its answer is waited for. (Ctrl-C once more cuts the run, and may lose what is paid.)\n"


class Plain:
    columns = None

    def __init__(self):
        self.number = 0

    def read(self, _):
        """A line, or nothing at the end."""
        line = sys.stdin.readline()
        self.number += 1
        if self.number == 1:
            line = line.removeprefix(MARK)
        return line.rstrip("\n").removesuffix("\r") if line else None

    def keep(self, statement):
        """There is no history."""


class Terminal:
    def __init__(self, complete, history):
        self.history = history if readline else None
        if readline:
            readline.set_auto_history(False)
            readline.set_history_length(HISTORY)
            readline.set_completer_delims(APART)
            readline.set_completer(Completer(complete))
            readline.parse_and_bind("bind ^I rl_complete" if "libedit" in (readline.__doc__ or "") else "tab: complete")
        if self.history:
            self.open_history()

    def open_history(self):
        """Kept for the analyst alone to read; where it can't be, there is none."""
        try:
            os.close(os.open(self.history, os.O_RDWR | os.O_CREAT, 0o600))
            readline.read_history_file(self.history)
        except (OSError, ValueError):
            self.history = None

    @property
    def columns(self):
        return shutil.get_terminal_size().columns

    def read(self, prompt):
        try:
            return input(prompt())
        except (EOFError, OSError):
            print()
            return None
        except KeyboardInterrupt:
            print()
            raise

    def keep(self, statement):
        """A statement is one line of the history, the breaks of its lines being blanks."""
        if not readline or "\0" in statement or len(statement) > LONGEST or statement == readline.get_history_item(readline.get_current_history_length()):
            return
        readline.add_history(statement)
        if self.history and hasattr(readline, "append_history_file"):
            try:
                readline.append_history_file(1, self.history)
            except OSError:
                self.history = None


class Completer:
    """As readline calls it: with what is typed of a word, and a candidate's number."""

    def __init__(self, complete):
        self.complete, self.found = complete, []

    def __call__(self, word, number):
        if number == 0:
            self.found = self.complete(readline.get_line_buffer()[: readline.get_begidx()], word)
        return self.found[number] if number < len(self.found) else None


# Completion.


def candidates(shell, before, word):
    """BEFORE is what stands before the word in its line."""
    entry = shell.client.view.entry
    tables, partitions = ([one["name"] for one in entry[kind]] for kind in ("tables", "partitions"))
    command = re.match(r"\s*\\(\w)\s+(.*)", before, re.S)
    if not command and not before.strip() and word.startswith("\\"):
        return beginning(word, COMMANDS)
    if not command:
        return of_program(entry, f"{shell.typed} {before}", word)
    letter, rest = command[1], command[2].split()
    if letter == "p":
        keys = next((one["keys"] for one in entry["partitions"] if rest == [one["name"]]), [])
        return beginning(word, keys if rest else partitions)
    if letter == "a":
        columns = [column["name"] for table in entry["tables"] for column in table["columns"]]
        return beginning(word, [*tables, *partitions, *columns, "charge=", "eps="] if rest else PLANS)
    if letter in "fs":
        return of_program(entry, f"{shell.typed} {command[2]}", word)
    offered = {"d": [*tables, *partitions], "o": [owner["name"] for owner in shell.client.catalog["owners"]]}
    return beginning(word, offered.get(letter, []) if not rest else [])


COMMANDS = [f"\\{letter}" for letter in "abdefghopqrs"]


def beginning(word, names):
    return [name for name in dict.fromkeys(names) if name.startswith(word)]


def of_program(entry, before, word):
    """Columns behind a row's name, tables behind `row`, else words of the language, tables and names that are there."""
    ahead, word = re.fullmatch(r"(.*[-/])?([^-/]*)", word, re.S).groups("")
    row, point, _ = word.rpartition(".")
    before = before[-NEAR:]
    by_name = {table["name"]: [column["name"] for column in table["columns"]] for table in entry["tables"]}
    if point:
        bound = [table for name, table in re.findall(r"(\w+)\s*:\s*row\s+(\w+)", before) if name == row and table in by_name]
        found = [f"{row}.{column}" for table in bound[-1:] or by_name for column in by_name[table]]
    elif re.search(r"\brow\s+$", before):
        found = list(by_name)
    else:
        found = [*by_name, "row", *sorted(programs.WORDS), *re.findall(r"[A-Za-z_]\w*", before)] if word else list(by_name)
    return [ahead + one for one in beginning(word, found)]


# Ctrl-C.


class GivenUp(Fault):
    """By Ctrl-C, before the next of several asks."""


class Held:
    """Asks for a client. What is on its way can't be taken back: the first Ctrl-C lets it end, and what is still to be asked isn't, then.
    Where another's run is waited for nothing is asked yet, and the first ends that. `answers` are those that came."""

    def __init__(self, client):
        self.client, self.times, self.answers = client, 0, []

    def __enter__(self):
        self.before = signal.getsignal(signal.SIGINT)
        self.set(self.caught)
        return self

    def __exit__(self, *_):
        self.set(self.before)

    def set(self, handler):
        """Where the signal is ignored, as of a job in the background, it stays so."""
        if self.before != signal.SIG_IGN:
            signal.signal(signal.SIGINT, handler)

    def caught(self, *_):
        self.times += 1
        if self.times > 1 or getattr(self.client.transport, "waiting", False):
            raise KeyboardInterrupt
        with suppress(OSError):
            os.write(2, WAITS)

    def send(self, asks):
        if self.client.next is None and not self.client.pending:
            self.client.learn()
        if self.times:
            raise GivenUp("Ctrl-C: nothing more was asked; what was answered before is paid.")
        found = self.client.send(asks)
        self.answers += found
        return found
