"""What goes wrong, as exceptions, in tools/explain's words.

    Fault                        all of them
    BadCall                      the words of a call don't fit it: nothing was asked
    Refused                      nothing is charged; OverShare is one that the analyst's own limit doesn't allow (43); `reply` is the line or nothing, `place` the part of the analyst's program
    Unanswered                   no answer comes: exhausted (50), whose charge comes back, or charged (51), or perhaps (52)
    Failed                       the program didn't run, or closed a journal: nothing of what was asked is known to be charged
    Cut                          the run was cut, and what came of it isn't known, or not which answer is whose, or a part of it came to nothing
"""
from .borrowed import explain, lines, meanings, name_hints, names, program_parts

known, Places = names.known, names.Places

OF_PROGRAMS = explain.OF_PROGRAMS
OF_LINES = ("10", "11", "12", "13", "14")


class Fault(Exception):
    """ANSWERS are those that came before it in the same asking, by what they were asked of, and are paid."""

    answers = ()

    def add(self, said):
        """Says more."""
        self.args = (f"{self} {said}",)


class BadCall(Fault, ValueError):
    """It is a ValueError, too."""


class Refused(Fault):
    def __init__(self, said, reply=None, place=None):
        super().__init__(said)
        self.reply, self.place = reply, place


class OverShare(Refused):
    """The analyst's own limit doesn't allow it: `limit` is what it may spend at most with this owner, and `spent` what it has spent, in millionths."""

    def __init__(self, said, reply):
        super().__init__(said, reply)
        self.spent, self.limit = int(reply.split(" ")[2]), int(reply.split(" ")[4])


class Unanswered(Fault):
    def __init__(self, said, reply, number=None):
        super().__init__(said)
        self.reply, self.number = reply, number


class Failed(Fault):
    def __init__(self, said, reply=None):
        super().__init__(said)
        self.reply = reply


class Cut(Fault):
    """NUMBERS are the new reservations of the analyst whose replies weren't heard, each with what `recall` says of it, where that is known;
    `answers` those that are known by what they were asked of, and UNASKED the asks that surely weren't reserved."""

    def __init__(self, said, numbers=None, answers=(), unasked=()):
        super().__init__(said)
        self.numbers, self.answers, self.unasked = numbers, list(answers), list(unasked)


def of_names(fault, source):
    """A column or a table that isn't there."""
    text = program_parts.Text(source)
    return Refused(f"{fault}\n{text.marked(*fault.place)}", place=fault.place)


def of_program(house, written, words, exception):
    """A program that the rules refuse, its place being marked in what the analyst wrote."""
    refusal = program_parts.Refusal(house, written.sent, words, exception)
    refusal.text = Places(written)
    explanation, reply = explain.Explanation(refusal), f"no {' '.join(words)}"
    explanation.hint = name_hints.for_client(explanation.hint, refusal, written.source)
    part = f"\n(Of a part: {house.shown_alone()})" if house.partition and house.hidden else ""
    place = written.place(*explanation.place) if explanation.place else None
    counts = "; its place counts in the program as it was sent" if written.named and program_parts.place_of(refusal) else ""
    first = f"{explain.what_of(refusal, counted=not written.named)} (reply `{reply}`{counts})."
    return Refused(explanation.lines(first) + part, reply, place)


def of_reply(reply, line, catalog, analyst, sensitivity):
    """What a refusal of a line that asks means, the program being one that the rules accept."""
    words = reply.split(" ")
    if words[0] == "door":
        return Refused(f"{reply}. The service didn't see it, and nothing is charged.", reply)
    code = words[1] if words[0] == "no" and len(words) > 1 else None
    said = meanings.meaning(reply)
    if said is None or code is None:
        return Failed(f"`{reply}` is no reply to `{line[:60]}`", reply)
    if code in OF_LINES:
        why = lines.Line(line.encode(), catalog, analyst).why
        return Refused(f"{reply}: {why or said}.", reply)
    if code in OF_PROGRAMS:
        return Failed(f"{reply}: {said}. The rules that this client reads accept the program: is its server another version?", reply)
    if code in ("40", "43"):
        charge = -(-sensitivity[0] * sensitivity[1] // 1)
        return (Refused if code == "40" else OverShare)(f"{reply}: {said}.{explain.affordable(words, sensitivity[0], int(charge))}", reply)
    if code in ("50", "51", "52"):
        return Unanswered(f"{reply}: {said}.", reply, int(words[2]) if len(words) > 2 else None)
    return (Refused if code in ("41", "60", "61") else Failed)(f"{reply}: {said}.", reply)


__all__ = ["BadCall", "Cut", "Failed", "Fault", "OverShare", "Refused", "Unanswered", "known", "of_names", "of_program", "of_reply"]
