"""What is known of asks whose run was cut, and calls that go on behind what is answered.

    Pending(ASKS, FIRST, LEFT)    asks that may have been answered: which of them were heard, and whether new numbers are surely theirs
    Kept(ANSWERS, SEND)           sends what isn't answered yet
    least_of(LEFT, ENTRY)         how many numbers there are at least, by what was left
"""
from collections import deque
from collections.abc import Iterable

from .answers import Answer
from .asks import Ask, charge_of
from .borrowed import meanings
from .faults import BadCall, Failed, Fault, Refused, Unanswered

# How much is told of a program; reservations that may be open at once, as there are at most so many workers.
SAID, OPEN = 60, 16


class Kept:
    """Asks for a call that goes on: answers that came before stand for the asks that they answer, and only the others are asked, by SEND."""

    def __init__(self, answers, send):
        self.answers, self.paid, self.send_others = {}, [], send
        for answer in answers if isinstance(answers, Iterable) else [answers]:
            if not isinstance(getattr(answer, "ask", None), Ask):
                raise BadCall("`resume` has the answers of a call that was cut, as a fault has them in `answers`")
            self.answers.setdefault(answer.ask.line(), deque()).append(answer)
            self.paid.append(answer.ask)

    def send(self, asks):
        found = [self.taken(ask) for ask in asks]
        others = [ask for ask, answer in zip(asks, found) if answer is None]
        if others and any(self.answers.values()):
            raise Refused("`resume` has answers that aren't of this call: nothing was asked.")
        try:
            came = iter(self.send_others(others) if others else [])
        except Fault as fault:
            fault.answers = [*(answer for answer in found if answer is not None), *fault.answers]
            raise
        return [next(came) if answer is None else answer for answer in found]

    def taken(self, ask):
        answers = self.answers.get(ask.line())
        return answers.popleft() if answers else None


def least_of(left, entry):
    """How many numbers there are at least: half as many as records, where none of these is a grant's. Those raise the budget."""
    return (left.records + 1) // 2 if left.budget <= entry["budget"] else 0


class Pending:
    """Asks that may have been answered, the number from which on the analyst had none, and what was left at a time before them. HEARD is what came of
    the first of them, as far as their replies were heard."""

    def __init__(self, asks, first, left):
        self.asks, self.first, self.left, self.heard = asks, first, left, []

    def keep(self, found):
        """What replies say, up to one that says nothing, or whose number isn't told: behind it nothing is sure."""
        for one in found:
            if isinstance(one, Failed) and meanings.meaning(one.reply) is None or isinstance(one, Unanswered) and one.number is None:
                self.left = None
                break
            self.heard.append(one)

    def rest(self):
        return self.asks[len(self.heard) :]

    def answers(self):
        return [one for one in self.heard if isinstance(one, Answer)]

    def numbers(self):
        return [one.number for one in self.heard if isinstance(one, (Answer, Unanswered))]

    def behind(self):
        """The number behind the last one that was heard."""
        return max([self.first - 1, *self.numbers()]) + 1

    def none_refused(self, after, found, now, entry, judged):
        """Whether surely none of the asks was refused: what was left before them was enough for all, and nobody else has reserved since, nor the owner
        granted anything, which takes room."""
        if self.left is None or now.budget != self.left.budget or not all(isinstance(one, (Answer, Unanswered)) for one in self.heard):
            return False
        if judged and len({(ask.sent, ask.part and ask.part[0]) for ask in self.asks}) > 1:
            return False
        # At that time there were at least so many numbers, and each open one was still to take another record.
        since, own = range(max(self.first, least_of(self.left, entry)), after), {*self.numbers(), *(number for number, _ in found)}
        room = self.left.records + OPEN + 2 * len(self.asks) <= entry["capacity"]
        return own.issuperset(since) and room and charge_of(self.asks) <= self.left.left

    def told(self, found, unasked=()):
        """Which asks are answered, in words, and which not."""
        called = calling(self.asks)
        answered = [called(one.ask) for one in found if isinstance(one, Answer)]
        said = f"Of {len(self.asks)} asks {len(answered)} {'is' if len(answered) == 1 else 'are'} answered"
        said += f" and paid (`answers`): {', '.join(answered)}. " if answered else ". "
        said += "".join(f"{called(ask)}: {one} " for ask, one in zip(self.asks, found) if isinstance(one, Fault))
        return said + (f"Not reserved, so that nothing is charged for them: {', '.join(map(called, unasked))}." if unasked else "")


def calling(asks):
    """How each of these asks is told: by its part, or the beginning of its program; by both where several programs are asked of parts."""
    several = len({ask.sent for ask in asks}) > 1

    def called(ask):
        program = f"`{ask.sent if len(ask.sent) <= SAID else ask.sent[: SAID - 2] + '..'}`"
        part = " ".join(ask.part or ())
        return f"{part} {program}" if part and several else part or program

    return called
