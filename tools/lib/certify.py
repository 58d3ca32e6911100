"""Whether what was charged for a program suffices, by a derivation of it: `journal.py --certify`.

    certified(PROGRAM, DERIVATION, CATALOG, KEY, FOLDER)    says it of each reservation of the program; whether there is one, and all suffice

The derivation is judged by tools/judge.py, with each owner's tables of whom there is one. A program that is asked ends before its line does, so the line end
that the file may have behind it counts or not.
"""
import hashlib
import os
import sys
from math import ceil

from catalog import read
from files import contents
from journal import books

sys.path.append(os.path.dirname(os.path.dirname(os.path.realpath(__file__))))
import judge  # noqa: E402


def shown(data, owner, program, derivation):
    """R of a derivation over an owner's tables, or None, and what a judge says."""
    try:
        r = judge.judged(judge.program_of(program), judge.tables_of(data, owner, owner), derivation)
        return r, f"yes {r}"
    except judge.Fault as fault:
        return None, fault.args[1]


def said_of(one, r):
    """Whether a reservation's number is at least R."""
    if one.p >= r * one.q:
        return "suffices"
    return f"is of an r below {r}, at which it is {ceil(r * one.e)}"


def certified(program_name, derivation_name, *words):
    program, derivation, data = contents(program_name), contents(derivation_name), contents(words[0])
    short = program.removesuffix(b"\n").removesuffix(b"\r")
    digests = {hashlib.sha256(one).digest() for one in (program, short)}
    found, good = 0, True
    for entry, book in zip(read(data)["owners"], books(*words)):
        if isinstance(book, str):
            print(book)
            good = False
            continue
        reserved = [one for one in book.reserved if one.program in digests]
        if not reserved:
            continue
        found += len(reserved)
        r, line = shown(data, entry["name"], program, derivation)
        print(f"{entry['name']} {line}")
        for one in reserved if r is not None else ():
            print(f"{entry['name']} reservation {one.number} {one.where(entry)} e {one.e} r {one.p}/{one.q} charge {one.charge()} {said_of(one, r)}")
        good = good and r is not None and all(one.p >= r * one.q for one in reserved)
    if not found:
        print(f"no journal has a reservation of the program {hashlib.sha256(program).hexdigest()}")
    return good and found > 0
