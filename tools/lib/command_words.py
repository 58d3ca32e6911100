"""The program's arguments: which command they are, and why they are none, in words.

    Command(WORDS)        the command that words are, as far as they are one
    about_words(WORDS)    sentences about words that are no command
"""
import difflib
import os
import re

from bounds import ASKS_LIMIT, EACH_LIMIT, MOST_BUDGET, PORT_LIMIT, SEED_LIMIT, WORKERS
from lines import amount_of, whole_of
from meanings import COMMANDS
from mirrors import FLAG

# The commands that open journals, which may stand on two disks.
SERVICE = ("init", "run", "serve", "audit", "grant")

# Options that take a value: what each takes, the commands that have it, and the greatest number, or 0 where it takes a text.
OPTIONS = {
    "--workers": (f"a whole number from 1 to {WORKERS}. It may be left out", ("run", "serve"), WORKERS),
    "--port": (f"a whole number from 1 to {PORT_LIMIT}, the first worker's port", ("serve",), PORT_LIMIT),
    "--each": (f"a whole number from 1 to {EACH_LIMIT}, the connections that each worker serves", ("serve",), EACH_LIMIT),
    "--addr": ("an address of this machine. It may be left out", ("serve",), 0),
}
# The words of `gen`: the least and the greatest number of each.
GENERATED = {"SEED": (0, SEED_LIMIT), "N": (1, ASKS_LIMIT), "WORKERS": (1, WORKERS)}


def meant_by(word):
    """The option that a misspelt one is likely meant to be, which takes a value, too; or nothing."""
    return next(iter(difflib.get_close_matches(word, OPTIONS, 1, 0.75)), None) if word.startswith("--") and "=" not in word else None


class Command:
    """The command that words are, as far as they are one: its name, its words in order, what else is among them, and whether its journals stand on two
    disks."""

    def __init__(self, words):
        self.name, self.words, self.options = words[0] if words else None, [], []
        # The program looks at all words, those after `--`, too.
        self.mirrored = FLAG in words
        rest = iter(words[1:])
        for word in rest:
            if word == "--":
                self.words += rest
            elif word != FLAG and (word in OPTIONS or meant_by(word)):
                self.options.append(" ".join([word, *[next(rest, "")]]).strip())
            elif word.startswith("-") and word != "-":
                self.options.append(word)
            else:
                self.words.append(word)

    def wanted(self):
        return COMMANDS[self.name].split(" [")[0].split()

    def given(self, name):
        """The values of an option, one each time that it stands there."""
        parts = [option.replace("=", " ", 1).partition(" ") for option in self.options]
        return [value for option, _, value in parts if option == name]

    def option(self, name, default=None):
        """The value of an option, or the default."""
        return (self.given(name) or [default])[0]

    def is_right(self, name):
        """Whether an option of this name stands there once, with a value that it takes."""
        values, most = self.given(name), OPTIONS[name][2]
        if len(values) != 1:
            return False
        number = whole_of(values[0]) if most else None
        return bool(values[0]) if not most else number is not None and 1 <= number <= most


def about_words(words):
    """Why arguments are no command."""
    found = Command(words)
    for number, word in enumerate(words):
        if not is_utf8(word):
            yield f"Argument {number} isn't UTF-8, and so the program takes none of them."
    if not words:
        yield "No arguments were given."
    elif found.name not in COMMANDS:
        yield from about_name(found.name)
    else:
        yield from about_rest(found)
    forms = {found.name: COMMANDS[found.name]} if words and found.name in COMMANDS else COMMANDS
    yield "Its form is:" if len(forms) == 1 else "Its commands are:"
    yield from (f"    hitchseason {name} {wanted}" for name, wanted in forms.items())


def is_utf8(word):
    try:
        word.encode()
        return True
    except UnicodeEncodeError:
        return False


def shown(word):
    return word.encode("utf-8", "surrogateescape").decode(errors="backslashreplace")


def about_name(name):
    if os.path.basename(name) == "hitchseason":
        yield f"`{shown(name)}` is no command: tools/why takes the program's arguments alone, such as `tools/why run CATALOG KEY`."
    elif name in ("help", "--help", "-h", "--version", "-V"):
        yield f"`{name}` is no command: the program has no help of its own."
    else:
        likely = difflib.get_close_matches(name.lower(), COMMANDS, 1)
        yield f"`{shown(name)}` is no command{f': is `{likely[0]}` meant?' if likely else '.'}"


def about_numbers(found):
    """Of `gen`: which word isn't a number of its range."""
    for word, (name, (least, most)) in zip(found.words, GENERATED.items()):
        number = whole_of(word)
        if number is None or not least <= number <= most:
            yield f"`{shown(word)}`: {name} is a whole number from {least} to {most}."


def about_amount(found):
    """Of `grant`: whether AMOUNT is one."""
    for word in found.words[3:4]:
        if amount_of(word) is None:
            yield f"`{shown(word)}`: AMOUNT is a whole number of millionths from 1 to {MOST_BUDGET}, such as 500000 for half an epsilon."


def about_rest(found):
    wanted, most = found.wanted(), len(COMMANDS[found.name].split()) if found.name == "gen" else 0
    if not len(wanted) <= len(found.words) <= max(len(wanted), most):
        given = f"{len(found.words)} stand there" if found.words else "none stands there"
        takes = f"{len(wanted)} or {most} arguments, {COMMANDS[found.name]}" if most else f"{len(wanted)} arguments, {' '.join(wanted)}"
        yield f"`{found.name}` takes {takes}, and {given}."
    if found.name in ("gen", "grant"):
        yield from about_numbers(found) if found.name == "gen" else about_amount(found)
    for option in ("--port", "--each") if found.name == "serve" else ():
        if found.option(option) is None:
            yield f"`{option}` is missing: `serve` wants it."
    for option in dict.fromkeys(found.options):
        name = option.replace("=", " ", 1).split(" ")[0]
        if name == FLAG:
            yield from about_flag(found, option)
            continue
        takes, commands, _ = OPTIONS.get(name, (None, (), 0))
        if found.name in commands and found.is_right(name):
            continue
        if found.name in commands:
            yield f"`{shown(option)}`: `{name}` stands once, and takes {takes}."
        elif meant_by(name) and found.name in OPTIONS[meant_by(name)][1]:
            yield f"`{shown(name)}` is no option: is `{meant_by(name)}` meant?"
        else:
            file = "" if found.name == "gen" or re.fullmatch("-[0-9.]+", option) else f": a file of this name is written `./{shown(option)}`"
            yield f"`{shown(option)}` begins with a hyphen and is taken for an option, which `{found.name}` hasn't{file}."


def about_flag(found, option):
    """What is wrong with a word that is the flag, or begins with it."""
    if found.name not in SERVICE:
        yield f"`{FLAG}` is of {', '.join(SERVICE[:-1])} and {SERVICE[-1]}: `{found.name}` opens no journal."
    elif option != FLAG or found.options.count(FLAG) > 1:
        yield f"`{shown(option)}`: `{FLAG}` stands once, and takes no value."
