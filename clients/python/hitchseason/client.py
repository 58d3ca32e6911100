"""The client: asks of one owner as one analyst, and what became of a run that was cut.

    connect(PLACE, ANALYST, OWNER)      PLACE is a folder, or `ssh://DESTINATION` (transport.py); OWNER may be left out where there is one, and ANALYST
                                        where nothing is asked
    connect(HOST, PORT, ANALYST, OWNER) the same at a port of a service

**One client an analyst and owner at a time**: only so are an analyst's new reservations those of its client. The client never asks again by itself.
"""
import time
from contextlib import nullcontext
from inspect import Parameter, Signature, signature

from . import statistics
from .answers import Answer, Left, Mine, lesser, units
from .asks import Forecast, Forgotten, View, charge_of, price
from .borrowed import meanings
from .cuts import Kept, Pending, least_of
from .faults import BadCall, Cut, Failed, Fault, Refused, Unanswered, known, of_reply
from .shows import lines_html
from .told import owner_told
from .transport import Stopped, Waited, transport_of

RECALLS = 64
PLANS = {
    "ask": statistics.single, "count": statistics.count, "sum": statistics.sum_of, "mean": statistics.mean, "median": statistics.median,
    "quantile": statistics.quantile, "variance": statistics.variance, "groups": statistics.groups, "histogram": statistics.histogram,
    "crosstab": statistics.crosstab, "top": statistics.top,
}  # fmt: skip


def must_be_reply(reply):
    """A line that a service, or its door, says."""
    if meanings.meaning(reply) is None and not reply.startswith("door "):
        raise Failed(f"`{reply}` is no reply of a service.", reply)


def connect(place, *names, **words):
    """WORDS of a folder: `program`, `catalog`, `key`; of a service `public`, a file that tools/public --json wrote; of ssh `words`, its own. `wait`:
    for how many seconds another connection, or run on the folder, is waited for; without an end, unless said."""
    if names and isinstance(names[0], int):
        place, names = f"{place}:{names[0]}", names[1:]
    named = {name: words.pop(name) for name in ("analyst", "owner") if name in words}
    transport = transport_of(place, **words)
    return Client(transport, transport.public(), *names, **named)


def unasked(call):
    """What comes of lines that ask nothing."""
    try:
        return call()
    except Stopped as stopped:
        raise Failed(f"{stopped}; nothing had been asked, and nothing is charged.") from None


def asking(name):
    """The method of a client that asks a statistic, with the words that the statistic has."""

    def call(self, *words, **more):
        return self.work(name, *words, **more)

    plan = signature(PLANS[name])
    takes = [Parameter("self", Parameter.POSITIONAL_ONLY), *list(plan.parameters.values())[1:], Parameter("resume", Parameter.KEYWORD_ONLY, default=())]
    call.__name__, call.__doc__ = name, PLANS[name].__doc__
    call.__signature__ = plan.replace(parameters=sorted(takes, key=lambda one: one.kind))
    return call


# The words of calls.


def program_of(words, more):
    """What `groups` asks of each key."""
    return words[1] if len(words) > 1 else more.get("program")


def takes_of(name, words=(), more=()):
    """The signature of a call; where `groups` is given a statistic's name, with that one's words."""
    takes = list(signature(PLANS[name]).parameters.values())
    if name == "groups":
        program = program_of(words, dict(more))
        of = statistics.OF_KEYS[program] if statistics.is_statistic(program) else statistics.single
        own = [one for one in signature(of).parameters.values() if one.name not in ("view", "table", "program", "part")]
        takes = [*takes[:3], *own, Parameter("keys", Parameter.KEYWORD_ONLY, default=None)]
    return Signature([one for one in takes if one.name != "made"])


def form_of(name, words=(), more=()):
    """The words of a call, those that may be left out in brackets."""
    takes = list(takes_of(name, words, more).parameters.values())[1:]
    needed = [one.name.upper() for one in takes if one.default is Parameter.empty]
    said = " ".join(needed + [f"[{one.name}=]" for one in takes if one.default is not Parameter.empty])
    if name != "groups":
        return said
    program = program_of(words, dict(more))
    if statistics.is_statistic(program):
        return said.replace("PROGRAM", program)
    return f"{said}, or in PROGRAM's place a statistic's name and its arguments but for TABLE"


def fit(name, words, more):
    """Refuses words that aren't those of a call."""
    if name not in PLANS:
        raise BadCall(f"there is no call `{name}`: {known(name, list(PLANS), 'there is')}")
    takes = takes_of(name, words, more)
    try:
        bound = takes.bind(None, *words, **more).arguments
    except TypeError as fault:
        raise BadCall(f"{name}: {fault}. Its arguments are {name} {form_of(name, words, more)}") from None
    if "charge" in takes.parameters and "eps" not in takes.parameters and bound.get("charge") is None:
        raise BadCall(f"{name}: a charge is said, which is divided among its asks. Its arguments are {name} {form_of(name, words, more)}")


class Client:
    def __init__(self, transport, catalog, analyst=None, owner=None):
        names = [entry["name"] for entry in catalog["owners"]]
        if owner is None and len(names) > 1:
            raise Refused(f"there are several owners, and one is asked: {', '.join(f'`{name}`' for name in names)}.")
        owner = names[0] if owner is None else owner
        analysts = [*catalog["analysts"], None]
        for what, name, all_names in (("analyst", analyst, analysts), ("owner", owner, names)):
            if name not in all_names:
                raise Refused(f"there is no {what} `{name}`: {known(name, [one for one in all_names if one], 'there is')}")
        self.transport, self.catalog, self.analyst = transport, catalog, analyst
        self.view = View(catalog, catalog["owners"][names.index(owner)], getattr(transport, "closed", False))
        # The next number; what was left at a time when there was none after it that isn't another's; what isn't known yet; what was left at last, and of
        # the analyst's limit.
        self.next = self.before = self.pending = self.known = self.own = None

    # What is asked. Each takes `eps` or `charge`, and `part=(PARTITION, KEY)`, as statistics.py says, and `resume=ANSWERS` of a call that was cut.

    ask, count, sum, mean, variance = (asking(name) for name in ("ask", "count", "sum", "mean", "variance"))
    quantile, median = asking("quantile"), asking("median")
    groups, histogram, crosstab, top = (asking(name) for name in ("groups", "histogram", "crosstab", "top"))

    def work(self, name, *words, resume=(), **more):
        plan, kept = self.plan(name, *words, **more), Kept(resume, self.send)
        with self.kept():
            self.afford(plan, kept.paid)
            return plan.work(kept.send)

    def kept(self):
        """All that is asked in here goes over one connection, where there are any."""
        return self.transport.kept() if hasattr(self.transport, "kept") else nullcontext()

    def plan(self, name, *words, **more):
        fit(name, words, more)
        try:
            return PLANS[name](self.view, *words, **more)
        except (Fault, UnicodeError):
            raise
        except ValueError as fault:
            raise BadCall(str(fault)) from None
        except (TypeError, AttributeError) as fault:
            raise BadCall(f"{name}: one of its arguments is of another kind than is wanted ({fault}). Its arguments are {name} {form_of(name, words, more)}") from fault

    def afford(self, plan, paid=()):
        """Refuses asks of the whole that don't fit together, so that none of them is paid in vain. Of parts it can't be known. PAID are answered already."""
        if len(plan.asks) == 1 or any(ask.part for ask in plan.asks):
            return
        charge = Forecast(plan).charge - charge_of(paid)
        self.before, self.own = self.left(), self.share()
        rest = lesser(self.before, self.own)
        if charge > rest:
            of = " of the analyst's limit" if rest < self.before.left else ""
            raise Refused(f"its {len(plan.asks) - len(paid)} asks take up to {units(charge)} together, and {units(rest)} is left{of}: none of them was asked.")

    # What costs nothing.

    def __str__(self):
        """The owner's tables and partitions, and the budget as it was told last."""
        return owner_told(self.view, self.known)

    __repr__ = __str__

    def _repr_html_(self):
        return lines_html(self)

    def forecast(self, name, *words, **more):
        """What a call would be charged, and how far its answers are off: forecast("count", "people", eps=0.5). It asks nothing. What is left is known
        from the last answer or the last left(), and the analyst's limit from a mine() after which nothing was asked: the lesser rest counts. Else it is compared with the catalog's
        budget, which the owner may have raised since."""
        plan = self.plan(name, *words, **more)
        return Forecast(plan, lesser(self.known, self.own), self.view.entry["budget"], self.view.person)

    def sent(self, program):
        """A program as it is sent, with its columns' names written out."""
        return self.view.checked(program)[0].sent.decode()

    def left(self):
        return self.left_of(self.told([f"left {self.view.name}"])[0])

    def mine(self):
        """What the analyst's own asks of this owner cost, and what its limit leaves, where it has one. It costs nothing."""
        reply = self.told([self.hello(), f"mine {self.view.name}"])[1]
        must_be_reply(reply)
        words = reply.split(" ")
        if words[0] != "mine":
            raise Refused(f"{reply}: {meanings.meaning(reply)}.", reply)
        self.own = Mine(self.view.name, int(words[1]), None if words[2] == "none" else int(words[2]), int(words[3]))
        return self.own

    def share(self):
        """The same, or nothing where the service doesn't know the line: then it has no limits."""
        try:
            return self.mine()
        except Refused as refused:
            if refused.reply == "no 10 0":
                return None
            raise

    def limit_allows(self, asks):
        """Whether the analyst's limit surely refused none of these asks, whatever became of them: what is spent now is at least what was spent before.
        Where that isn't told, nothing is sure."""
        try:
            own = self.share()
        except Fault:
            return False
        return own is None or own.limit is None or own.spent + charge_of(asks) <= own.limit

    def recall(self, number, eps=None):
        """What became of a reservation: its value, or, by the EPS at which it was asked, an answer with its interval. Refused where it isn't the
        analyst's, Unanswered where it has none."""
        try:
            e = None if eps is None else price(1, eps=eps)
        except ValueError as fault:
            raise BadCall(str(fault)) from None
        reply = self.told([self.hello(), f"recall {self.view.name} {number}"])[1]
        must_be_reply(reply)
        words = reply.split(" ")
        if words[0] != "recall":
            raise Refused(f"{reply}: {meanings.meaning(reply)}.", reply)
        if words[2] != "answer":
            raise Unanswered(f"{reply}: {meanings.meaning(reply)}.", reply, number)
        return int(words[3]) if e is None else Answer(Forgotten(self.view.name, e), number, int(words[3]), None, recalled=True)

    def hello(self):
        if self.analyst is None:
            raise Refused("nobody asks: connect as an analyst.")
        return f"hello {self.analyst}"

    def told(self, wanted):
        """Replies to lines that ask nothing."""
        return unasked(lambda: self.transport.replies(wanted))

    def left_of(self, reply):
        words = reply.split(" ")
        must_be_reply(reply)
        if words[0] != "left":
            raise Failed(f"{reply}: {meanings.meaning(reply)}.", reply)
        self.known = Left(self.view.name, *map(int, words[1:4]), time.strftime("%Y-%m-%dT%H:%M:%SZ", time.gmtime()), self.view.person)
        return self.known

    # Asking.

    def send(self, asks):
        """An answer for each ask, all in one script. Whatever ends it before its replies are read, Ctrl-C among it, leaves `pending` for recover()."""
        hello = self.hello()
        if self.pending:
            raise Cut("a run before was cut, and what came of it isn't known yet: recover() first")
        if self.next is None:
            self.learn()
        self.pending, self.own = Pending(asks, self.next, self.before), None
        try:
            replies = self.transport.replies([hello, *(ask.line() for ask in asks), f"left {self.view.name}"])
        except Stopped as stopped:
            self.keep(stopped.heard)
            return self.recover(f"{stopped}. ")
        except (Failed, Refused, Waited):
            self.pending = None
            raise
        except KeyboardInterrupt as ended:
            self.keep(getattr(ended, "heard", ()))
            raise
        return self.taken(asks, replies[1:-1], self.left_of(replies[-1]))

    def keep(self, heard):
        """Replies that came before the run was cut, the first of them being that of the hello."""
        self.pending.keep(self.one(ask, reply, None) for ask, reply in zip(self.pending.asks, heard[1:]))

    def taken(self, asks, replies, left):
        """The answers, or the first fault with the answers with it."""
        found = [self.one(ask, reply, left) for ask, reply in zip(asks, replies)]
        numbers = [one.number for one in found if isinstance(one, (Answer, Unanswered))]
        self.next = None if None in numbers else max([self.next - 1, *numbers]) + 1
        self.before, self.pending = left, None
        return self.all_answered(asks, found)

    def one(self, ask, reply, left):
        words = reply.split(" ")
        if words[0] != "answer" or meanings.meaning(reply) is None:
            return of_reply(reply, ask.line(), self.catalog, self.analyst, (ask.sensitivity, ask.e))
        answer = Answer(ask, *map(int, words[1:4]))
        answer.left = left
        return answer

    @staticmethod
    def all_answered(asks, found):
        fault = next((one for one in found if isinstance(one, Fault)), None)
        if fault is None:
            return found
        fault.answers = [one for one in found if isinstance(one, Answer)]
        raise fault

    # After a run that was cut.

    def learn(self):
        """The next number."""
        left = unasked(self.left_of_analyst)
        self.next, _, self.before = unasked(lambda: self.numbers_from(self.reserved(left), left))

    def reserved(self, left):
        """How many numbers there are at least. Each has one record or two, and all records are theirs but those of grants; where the owner has granted
        something the numbers are tried, since those that are there are the first ones."""
        least, most = least_of(left, self.view.entry), self.room(left)
        while left.budget > self.view.entry["budget"] and most - least > RECALLS:
            tried = range(least, most, -(-(most - least) // RECALLS))
            gone = [number for number, words in zip(tried, self.recalls(tried)) if words[:2] == ["no", "60"]]
            least, most = max([least, *(number + 1 for number in tried if number not in gone)]), min([most, *gone])
        return least

    def room(self, left):
        """How many numbers there are at most: each has a record, and a journal has room for so many."""
        return min(left.records, self.view.entry["capacity"])

    def numbers_from(self, first, left):
        """The next number, those of the analyst from the first on with what `recall` says of each, and what is left. None is asked for that, by what was
        left at last, can't be there."""
        found, at = [], first
        while at < self.room(left):
            numbers = range(at, min(at + RECALLS, self.room(left)))
            for number, words in zip(numbers, replies := self.recalls(numbers)):
                if words[:2] == ["no", "60"]:
                    return number, found, self.left_of(" ".join(replies[-1]))
                if words[0] == "recall":
                    found.append((number, words[2:-1]))
                elif words[:2] != ["no", "61"]:
                    raise Failed(f"`{' '.join(words)}` is no reply to a recall.", " ".join(words))
            at, left = numbers.stop, self.left_of(" ".join(replies[-1]))
        if left.records > self.room(left):
            raise Failed("there are more records than there is room for: what answers is no hitchseason service, or its catalog is another.")
        return at, found, left

    def left_of_analyst(self):
        """What is left, if the analyst is one."""
        return self.left_of(" ".join(self.recalls(())[-1]))

    def recalls(self, numbers):
        """The words of the replies to a recall of each number, and to a `left` behind them."""
        hello = self.hello()
        replies = self.transport.replies([hello, *(f"recall {self.view.name} {number}" for number in numbers), f"left {self.view.name}"])
        if replies[0] != hello:
            raise Refused(f"{replies[0]}: nothing was asked.", replies[0])
        for reply in replies[1:-1]:
            must_be_reply(reply)
        return [reply.split(" ") for reply in replies[1:]]

    def recover(self, why=""):
        """What came of the asks of a run that was cut: the replies that were heard, and after them `recall`, which costs nothing. Their answers, where the
        analyst's new numbers are as many as the other asks; Failed where nothing was charged; else Cut, with the answers of those that are known."""
        if self.pending is None:
            raise Failed("no run was cut")
        pending = self.pending
        heard, rest = pending.heard, pending.rest()
        try:
            after, found, left = self.numbers_from(pending.behind(), self.left_of_analyst())
        except (Stopped, Failed) as fault:
            fault = str(fault).removesuffix(" Nothing was asked.").removesuffix(".")
            if not rest:
                self.next, self.pending = pending.behind(), None
                return self.all_answered(pending.asks, heard)
            known = pending.told(heard) if heard else ""
            said = f"What came of {'the others' if heard else 'it'} isn't known, since no recall is answered: {fault}. recover() tries once more, for nothing."
            raise Cut(f"{why}{known}{said}", answers=pending.answers()) from None
        for answer in pending.answers():
            answer.left = left
        if rest and any(said == ["open"] for _, said in found):
            known = pending.told(heard) if heard else ""
            raise Cut(f"{why}{known}A reservation is still open: recover() later.", found, pending.answers())
        self.next, self.before, self.pending = after, left, None
        recalled = [*heard, *(self.recalled(ask, number, said, left) for ask, (number, said) in zip(rest, found))]
        if not rest or len(found) == len(rest):
            return self.all_answered(pending.asks, recalled)
        if not found and not pending.numbers():
            none = f"None of the {len(rest)} asks was reserved: nothing is charged for them, and they" if len(rest) > 1 else (
                "The ask wasn't reserved: nothing is charged for it, and it")
            raise next(iter(heard), Failed(f"{why}{none} may be asked again."))
        judged = getattr(self.transport, "judged", False)
        surely = found and len(found) < len(rest) and pending.none_refused(after, found, left, self.view.entry, judged) and self.limit_allows(pending.asks)
        if not found or surely:
            unasked = rest[len(found) :]
            raise Cut(f"{why}{pending.told(recalled, unasked)}", found, [one for one in recalled if isinstance(one, Answer)], unasked)
        told = "; ".join(f"{number} {' '.join(said)}" for number, said in found)
        of = f"{pending.told(heard)}Of the {len(rest)} others" if heard else f"Of {len(rest)} asks"
        new = f"{len(found)} new reservation{'s' if len(found) > 1 else ''}"
        raise Cut(f"{why}{of} the analyst has {new}, and which is whose isn't known: {told}.", found, pending.answers())

    def recalled(self, ask, number, said, left):
        if said[0] != "answer":
            reply = f"recall {number} {said[0]} {left.records}"
            return Unanswered(f"{reply}: {meanings.meaning(reply)}.", reply, number)
        answer = Answer(ask, number, int(said[1]), None, recalled=True)
        answer.left = left
        return answer


__all__ = ["Client", "connect"]
