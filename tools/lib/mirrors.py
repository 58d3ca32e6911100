#!/usr/bin/env python3
"""Journals on two disks: each record stands in journals/N.bud and in mirrors/N.bud.

usage: mirrors.py --both CATALOG [--alone]    in a service folder: says which file isn't there, before a start with --mirror

A disk is gone where its file isn't there, is empty or can't be read; the other one is then used alone. Of two that are there the longer list counts, if
the shorter one begins it; the shorter one lags, and the next opening gives it what it lacks. `--both` ends with status 0 where both files of each
owner are there, with 1 where one isn't, and with 2 where the catalog can't be read. With `--alone` one of each owner's two is enough.
"""
import os
import sys

from catalog import BadCatalog, read
from files import contents
from journal import HEAD, Refused, book_of, check_header, journal_bytes, journals_of, length_of, slots, version_of
from lines import harmless

JOURNALS, MIRRORS = FOLDERS = ("journals", "mirrors")
FLAG = "--mirror"


def is_mirrored(folder="."):
    """Whether a service folder, or a copy, has a place for mirrors, be it a link to nothing."""
    return os.path.lexists(os.path.join(folder, MIRRORS))


def side(path):
    """A file's bytes, none where it isn't there, or the fault of reading it."""
    try:
        return journal_bytes(path)
    except FileNotFoundError:
        return b""
    except OSError as fault:
        return fault


def sides_in(folder, order):
    """What an owner's two files in a service folder, or a copy, are."""
    return [side(f"{place}/{order}.bud") for place in (journals_of(folder), f"{folder}/{MIRRORS}")]


def is_gone(data):
    return isinstance(data, OSError) or length_of(data) == 0


def listed(data, head, entry):
    """The records of one disk, whatever may follow what."""
    if len(data) < HEAD or data[0] != head[0]:
        raise Refused(f"uninitialised {length_of(data)}")
    check_header(data, head, entry["capacity"])
    return slots(data, entry["capacity"])


def fork(first, second):
    """The least slot below both lengths at which two lists of records differ, or nothing."""
    return next((slot for slot, (one, other) in enumerate(zip(first, second)) if one.encoded() != other.encoded()), None)


def used(sides):
    """The numbers of the disks that aren't gone; an OSError, or a refusal, where both are."""
    there = [at for at, data in enumerate(sides) if not is_gone(data)]
    if not there:
        faults = [data for data in sides if isinstance(data, OSError)]
        raise faults[0] if faults else Refused("uninitialised 0")
    return there


def opened(sides, head, entry, analysts):
    """The book of two disks. Each is refused as it would be alone, the first wholly before the second; then they are held against one another, and only the
    longer list is judged."""
    lists = {at: listed(sides[at], head, entry) for at in used(sides)}
    longer = max(lists, key=lambda at: (len(lists[at]), -at))
    if len(lists) == 2:
        versions = [version_of(data) for data in sides]
        if max(versions) == 3 and min(versions) < 3:
            raise Refused("changed", f"one disk's journal is of version {versions[0]} and the other's of version {versions[1]}, whose rules of cost differ")
        slot = fork(lists[0], lists[1])
        if slot is not None:
            raise Refused(f"forked {slot}", f"{JOURNALS} and {MIRRORS} have different records there: {AFTER_FORK}")
    book = book_of(sides[longer], head, entry, analysts)
    book.disks = {name: len(lists[at]) if at in lists else None for at, name in enumerate(FOLDERS)}
    return book


AFTER_FORK = "a disk that had missed a run was put back"


def lags(book):
    """By how many records each disk is behind the other: those that are, by folder, and None for one that is gone."""
    most = len(book.records)
    return {name: None if count is None else most - count for name, count in book.disks.items() if count != most}


def told_of_lags(name, book):
    """What is said of disks that lag, in sentences."""
    for folder, lacking in lags(book).items():
        if lacking is None:
            yield f"{name}: the file in {folder} is gone: the other one is all that there is"
        else:
            yield f"{name}: {folder} lags by {lacking} of {len(book.records)} records, which the next start gives it"


def missing(orders, folder="."):
    """The files that aren't there, are empty or can't be read: the owner's number, the file, and why."""
    for order in orders:
        for path in (os.path.join(folder, name, f"{order}.bud") for name in FOLDERS):
            data = side(path)
            if is_gone(data):
                yield order, path, data.strerror if isinstance(data, OSError) else "it is empty" if os.path.exists(path) else "it isn't there"


def device(path):
    """The device on which a place lies: of a partition its whole disk, where the system tells it."""
    number = os.stat(path).st_dev
    place = os.path.realpath(f"/sys/dev/block/{os.major(number)}:{os.minor(number)}")
    return os.path.dirname(place) if os.path.exists(f"{place}/partition") else place if os.path.exists(place) else str(number)


def main(words):
    alone = "--alone" in words
    words = [word for word in words if word != "--alone"]
    if words[:1] != ["--both"] or len(words) != 2:
        print(__doc__.strip().split("\n\n")[1], file=sys.stderr)
        return 2
    try:
        owners = len(read(contents(words[1]))["owners"])
    except (OSError, BadCatalog) as fault:
        print(harmless(f"mirrors.py: {words[1]}: {fault!r}"), file=sys.stderr)
        return 2
    found = list(missing(range(owners)))
    for _, path, why in found:
        print(harmless(f"{path}: {why}"))
    gone = [order for order, *_ in found]
    return int(any(gone.count(order) > alone for order in set(gone)))


if __name__ == "__main__":
    sys.exit(main(sys.argv[1:]))
