#!/usr/bin/env python3
"""Is a wake ever missed? All interleavings of a few callers of the owners' lock, over the functions on its word as the code has them.

usage: tests/faults/lock_states.py [CALLERS TURNS]    (all of the sizes below, unless said: some minutes)
The functions on the lock's word and their constants are read from crates/owner_lock/src/owned.rt; the kernel's sleep and each caller's steps are modelled as
they stand there: between any two of its single steps any other caller may go on. A caller that finds the turn taken tries again or goes to
wait, at any time, and a nap ends at any time; the looks of the one that is awake, and a nudge, are so no steps of their own. Some runs have
sleeps that end for no reason. It ends with status 1 where a state is met in which all callers that are left sleep until they are called, where two have the turn, or
where the last word says that somebody waits; where one of the mistakes that are planted, in the functions or in the steps, isn't found; and where a
function isn't found in the code.
"""
import re
import sys

sys.path.insert(0, f"{__file__.rpartition('/')[0] or '.'}/../lib")
from places import TOP  # noqa: E402

CODE = f"{TOP}/crates/owner_lock/src/owned.rt"
NAMES = ("is_taken", "is_owed", "is_called", "taken_word", "waiting_word")
FRESH, ASLEEP, WATCHER = "Fresh", "Sleeper", "Watcher"
SIZES = ((2, 3, 2), (3, 2, 2), (3, 3, 0), (4, 1, 1), (4, 2, 0))
# Mistakes in the functions on the word: what stands in the code, and what stands there with the mistake.
CHANGES = {
    "a caller that stays counted": ("(word / SLEEPER).saturating_sub(1)", "(word / SLEEPER)"),
    "one that takes the turn and stays awake": ("Waiter::Watcher => others + TAKEN", "Waiter::Watcher => others + word % SLEEPER / AWAKE * AWAKE + TAKEN"),
    "a sleeper that takes the turn and leaves another called": ("others + word % SLEEPER / AWAKE * AWAKE + TAKEN", "others + word % SLEEPER / 4 * 4 + TAKEN"),
    "a wake that looks at no count": ("word >= SLEEPER && word", "word"),
}
# And in the steps.
STEPS = (
    "no wake",
    "no look at the word before a sleep",
    "a sleep although one is called",
    "a sleep although the exchange failed",
)


class Word(int):
    """A number of 64 bits, with the operations that the functions use."""

    def __truediv__(self, other):
        return Word(int(self) // int(other))

    def __mod__(self, other):
        return Word(int(self) % int(other))

    def __mul__(self, other):
        return Word(int(self) * int(other))

    def __add__(self, other):
        return Word(int(self) + int(other))

    def __sub__(self, other):
        return Word(int(self) - int(other))

    def saturating_sub(self, other):
        return Word(max(int(self) - int(other), 0))

    def wrapping_add(self, other):
        return Word((int(self) + int(other)) % 2**64)


def expression(text):
    """An expression of the code as one of Python's: `if`, `match` on how a caller waits, and operations on words."""
    text = re.sub(r"\s+", " ", text.strip().rstrip(",")).replace(" .", ".")
    branches = re.fullmatch(r"if (.*?) \{ (.*?) \} else \{ (.*?) \}", text)
    if branches:
        condition, one, other = (expression(part) for part in branches.groups())
        return f"(({one}) if ({condition}) else ({other}))"
    arms = re.fullmatch(r"match waiter \{ (.*) \}", text)
    if arms:
        by_name = re.findall(r"Waiter::(\w+) => (.*?)(?:, (?=Waiter)|,?$)", arms[1])
        return "{" + ", ".join(f"'{name}': lambda: ({expression(value)})" for name, value in by_name) + "}[waiter]()"
    text = re.sub(r"Waiter::(\w+)", r"'\1'", text).replace("&&", "and")
    return re.sub(r"(?<![\w'])(\d+)\b", r"Word(\1)", text)


def function(code, name):
    """A function on the word, as the code has it."""
    found = re.search(rf"^fn {name}\((.*?)\) -> \w+(?:\n    ensures[^\n]*)*\s*\{{\n(.*?)^\}}", code, re.M | re.S)
    if not found:
        sys.exit(f"{CODE} has no function {name} that is understood")
    arguments = [argument.split(":")[0].strip() for argument in found[1].split(",")]
    *lets, last = re.split(r";\n", found[2].strip())
    lines = [f"def {name}({', '.join(arguments)}):"]
    for let in lets:
        bound, value = re.fullmatch(r"\s*let (\w+) = (.*)", let, re.S).groups()
        lines.append(f"    {bound} = {expression(value)}")
    return "\n".join([*lines, f"    return {expression(last)}"])


def functions(plant=None):
    """The functions on the word, by name, with a mistake or without."""
    with open(CODE, encoding="utf-8") as file:
        code = file.read()
    scope = {"Word": Word}
    for name, value in re.findall(r"^const (TAKEN|CALLED|AWAKE|SLEEPER): u64 = (\d+);", code, re.M):
        scope[name] = Word(value)
    stands, planted = CHANGES.get(plant, ("", ""))
    if stands not in code:
        sys.exit(f"{CODE} has no {stands}, in which a mistake is planted")
    code = code.replace(stands, planted) if plant in CHANGES else code
    for name in NAMES:
        exec(function(code, name), scope)
    return scope


class Caller(tuple):
    """Where it is, how it waits, the word that it read or wrote last, and the turns that are left."""

    def __new__(cls, at, waiter, word, left):
        return super().__new__(cls, (at, waiter, word, left))


def next_steps(state, plant, code):
    """The states that one step of one caller leads to."""
    word, spurious, callers = state
    is_taken, is_called, is_owed = code["is_taken"], code["is_called"], code["is_owed"]
    for place, (at, waiter, seen, left) in enumerate(callers):

        def goes(word, at, waiter, seen, left, spurious=spurious):
            return word, spurious, callers[:place] + (Caller(at, waiter, seen, left),) + callers[place + 1 :]

        over = ("try" if left > 1 else "done", FRESH, 0, left - 1)
        if at == "try":
            yield goes(word, *(("stays", waiter, 0, left) if is_taken(word) else ("takes", waiter, word, left)))
        elif at == "stays":
            yield goes(word, "try", waiter, 0, left)
            if waiter != WATCHER:
                yield goes(word, "goes to wait", waiter, 0, left)
        elif at == "takes":
            if word == seen:
                yield goes(code["taken_word"](word, waiter), "has the turn", FRESH, 0, left)
            else:
                yield goes(word, "stays", waiter, 0, left)
        elif at == "goes to wait":
            yield goes(word, *(("is counted", waiter, word, left) if is_taken(word) else ("try", waiter, 0, left)))
        elif at == "is counted":
            if word != seen and plant == "a sleep although the exchange failed":
                yield goes(word, "parks", ASLEEP, word, left)
            elif word != seen:
                yield goes(word, "try", waiter, 0, left)
            else:
                comes = is_called(word) and plant != "a sleep although one is called"
                counted = word + code["SLEEPER"] if waiter == FRESH else word
                waiting = code["waiting_word"](word, waiter) if comes or not is_called(word) else counted
                yield goes(waiting, *(("try", WATCHER, 0, left) if comes else ("parks", ASLEEP, waiting, left)))
        elif at == "parks":
            stays = word == seen or plant == "no look at the word before a sleep"
            yield goes(word, "sleeps" if stays else "try", ASLEEP, 0, left)
        elif at == "sleeps" and spurious:
            yield goes(word, "try", ASLEEP, 0, left, spurious - 1)
        elif at == "has the turn":
            freed = word - code["TAKEN"]
            yield goes(freed, *(("says that it calls", FRESH, freed, left) if is_owed(freed) else over))
        elif at == "says that it calls":
            yield goes(word + code["CALLED"], "wakes", FRESH, 0, left) if word == seen else goes(word, *over)
        elif at == "wakes":
            _, _, others = goes(word, *over)
            sleepers = [other for other, caller in enumerate(others) if caller[0] == "sleeps"] if plant != "no wake" else []
            for other in sleepers:
                woken = Caller("try", ASLEEP, 0, others[other][3])
                yield word, spurious, others[:other] + (woken,) + others[other + 1 :]
            if not sleepers:
                yield word, spurious, others


def fault_of(state):
    word, _, callers = state
    places = [at for at, _, _, _ in callers if at != "done"]
    if places.count("has the turn") > 1:
        return "two have the turn"
    if places and all(at == "sleeps" for at in places):
        return "all that are left sleep"
    return None if places or word == 0 else "the last word isn't 0"


def searched(count, turns, spurious, plant=None):
    """How many states there are, and the first that is wrong, if there is one."""
    code = functions(plant)
    begin = (Word(0), spurious, (Caller("try", FRESH, 0, turns),) * count)
    seen, left = {begin}, [begin]
    while left:
        state = left.pop()
        fault = fault_of(state)
        if fault:
            return len(seen), f"{fault}: {state}"
        for word, spurious, callers in next_steps(state, plant, code):
            # callers are alike, so their order is nothing
            found = word, spurious, tuple(sorted(callers))
            if found not in seen:
                seen.add(found)
                left.append(found)
    return len(seen), None


def main():
    words = tuple(int(word) for word in sys.argv[1:3])
    wrong = False
    for count, turns, spurious in ((words + (0,),) if words else SIZES):
        states, fault = searched(count, turns, spurious)
        print(f"{count} callers, {turns} turns each, {spurious} sleeps that end for no reason: {states} states, {fault or 'no wake is missed'}", flush=True)
        wrong = wrong or fault is not None
    for plant in (*CHANGES, *STEPS) if not words else ():
        states, fault = searched(3, 2, 0, plant)
        print(f"planted, {plant}: {fault or 'NOT FOUND'}", flush=True)
        wrong = wrong or fault is None
    sys.exit(1 if wrong else 0)


main()
