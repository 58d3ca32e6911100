"""What an analyst's prompts were answered, kept on their own machine: so that a later session knows at which EPS a number was asked, and its interval.

    Sessions(FILE, PLACE, ANALYST)      without FILE nothing is kept
    .keep(OWNER, ANSWER)                a line of JSON behind the others; where it can't be written, nothing is kept any more
    .of(OWNER, NUMBER, VALUE)           the ask of an answer, or nothing

A number is that of another journal where the owner began anew. So what is kept of it counts only where its value is the one that is recalled.
"""
import json
import os

from .asks import Forgotten, price
from .borrowed import explain

# How much of the file's end is read.
READ = 2**22
PLACES = ("place", "analyst", "owner", "number", "value")


def answers_file():
    """Readable for the analyst alone. An empty name keeps nothing."""
    return os.environ.get("HITCHSEASON_ANSWERS", os.path.expanduser("~/.hitchseason_answers"))


class Sessions:
    def __init__(self, file, place, analyst):
        self.file, self.analyst = file, analyst
        self.place = os.path.realpath(place) if os.path.isdir(place) else str(place)

    def named(self, owner, number, value):
        return {"place": self.place, "analyst": self.analyst, "owner": owner, "number": number, "value": value}

    def keep(self, owner, answer):
        """An answer that was recalled stands there already, or its EPS isn't known."""
        if not self.file or answer.recalled:
            return
        ask = answer.ask
        said = {**self.named(owner, answer.number, answer.value), "eps": explain.in_units(ask.e), "sent": ask.sent, "part": ask.part}
        try:
            with open(os.open(self.file, os.O_WRONLY | os.O_CREAT | os.O_APPEND, 0o600), "a", encoding="utf-8") as file:
                file.write(f"{json.dumps(said)}\n")
        except OSError:
            self.file = None

    def of(self, owner, number, value):
        wanted = self.named(owner, number, value)
        for line in reversed(self.lines()):
            try:
                said = json.loads(line)
                if {name: said[name] for name in PLACES} == wanted:
                    return Forgotten(owner, price(1, eps=said["eps"]), said["sent"], said["part"])
            except (ValueError, KeyError, TypeError):
                continue
        return None

    def lines(self):
        if not self.file:
            return []
        try:
            with open(self.file, "rb") as file:
                file.seek(max(0, os.fstat(file.fileno()).st_size - READ))
                return file.read(READ).decode(errors="replace").splitlines()
        except OSError:
            return []
