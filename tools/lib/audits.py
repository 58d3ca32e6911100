"""Audits that were kept, one after the other: whether a figure fell, as it does where an old journal is put back.

    fallen(LINES, COPIES)    a sentence for each figure that did; COPIES where the audits are of copies of a running service
    check_audits()           audits worked by hand
"""
import re

from bounds import WORKERS

FIGURES = ("reservations", "answered", "exhausted", "lost", "spent", "budget")
AUDIT = re.compile(r"(\w+) " + " ".join(f"{name} ([0-9]+)" for name in FIGURES))


def fallen(lines, copies=False):
    """A sentence for each figure of an owner that is less than in the audit before. What is spent may fall where there are more exhausted numbers.

    In a copy of a running service what is being answered counts as lost, and doesn't once it is answered: there `lost` may be less than it ever was, by
    one for each worker. No other figure falls."""
    # Each worker answers one ask at a time.
    last, being_answered = {}, WORKERS if copies else 0
    for number, line in enumerate(lines, 1):
        found = AUDIT.fullmatch(line.strip())
        if not found:
            continue
        figures, earlier = dict(zip(FIGURES, map(int, found.groups()[1:]))), last.get(found[1], {})
        for name, before in earlier.items():
            back = name == "spent" and figures["exhausted"] > earlier["exhausted"]
            least = before - being_answered if name == "lost" else before
            if figures[name] < least and not back:
                yield f"line {number}: {found[1]} {name} fell from {before} to {figures[name]}: an old journal was put back, or somebody has changed it"
        most_lost = max(figures["lost"], earlier.get("lost", 0)) if copies else figures["lost"]
        last[found[1]] = {**figures, "lost": most_lost}


def check_audits():
    audits = ["census reservations 2 answered 1 exhausted 0 lost 1 spent 9 budget 10", "a day", "health reservations 1 answered 1 exhausted 0 lost 0 spent 3 "
        "budget 9", "census reservations 2 answered 2 exhausted 0 lost 0 spent 9 budget 10"]  # fmt: skip
    back = ["a reservations 1 answered 0 exhausted 0 lost 1 spent 5 budget 9", "a reservations 1 answered 0 exhausted 1 lost 0 spent 0 budget 9"]
    assert len(list(fallen(back))) == 1 and " lost fell" in list(fallen(back))[0]
    less = [back[0].replace("budget 9", f"budget {budget}") for budget in (9, 12, 12, 9)]
    assert [line.split(":")[1] for line in fallen(less)] == [" a budget fell from 12 to 9"]
    assert [line.split(":")[1] for line in fallen(audits)] == [" census lost fell from 1 to 0"] and not list(fallen(audits[:3] * 2))
    # Of copies: an ask that was being answered was so by the next one; as many as there are workers; and more, at once or by and by.
    assert not list(fallen(audits, copies=True)) and not list(fallen(back, copies=True)) and len(list(fallen(less, copies=True))) == 1
    for lost, falls in (((16, 0), []), ((17, 0), [" a lost fell from 17 to 0"]), ((20, 10, 4), []), ((20, 10, 3), [" a lost fell from 20 to 3"])):
        copies = [f"a reservations 30 answered {30 - one} exhausted 0 lost {one} spent 5 budget 9" for one in lost]
        assert [line.split(":")[1] for line in fallen(copies, copies=True)] == falls and len(list(fallen(copies))) == len(lost) - 1
    older = ["a reservations 9 answered 8 exhausted 0 lost 1 spent 5 budget 9", "a reservations 8 answered 8 exhausted 0 lost 0 spent 4 budget 9"]
    assert [line.split(":")[1] for line in fallen(older, copies=True)] == [" a reservations fell from 9 to 8", " a spent fell from 5 to 4"]
