"""Owners that are shut: their disk failed, and they answer no asks until the service is started anew.

usage: shut.py --clear FOLDER                 takes all marks away, before a start
       shut.py --due CATALOG FOLDER           in the service folder: says whether an owner is shut whose disk takes writes now
       shut.py --end PROCESS CATALOG FOLDER   the same, and ends the service's process then

FOLDER has the marks: where tools/door hears `no 52` or `no 42` it leaves a file there that is named as the owner (--shut FOLDER). Names alone
are read, and no file is opened. A disk takes writes where the room that the owner's journal takes next, 64 KiB at least, can be reserved and synced
in `journals`, or in `mirrors` where each journal stands on two disks. That is all of the next area where there is one, so a start isn't tried before the
journal can grow. It ends with status 0 where a new start is due, with 1 where it isn't, or not yet, or there is no process (0), and with 2 where a file
can't be read.
"""
import os
import signal
import sys
from contextlib import suppress

from catalog import BadCatalog, read
from journal import HEAD, areas, capacity_in, contents, journal_bytes, live_number, version_of
from mirrors import FOLDERS, is_mirrored

LEAST_ROOM = 65_536


def marked(folder, names):
    """The owners among these names that have a mark."""
    found = set(os.listdir(folder))
    return [name for name in names if name in found]


def clear(folder):
    for name in os.listdir(folder):
        with suppress(OSError):
            os.unlink(f"{folder}/{name}")


def room_wanted(folder, order):
    """How many bytes the journal of this owner takes next at most, by its header in this folder."""
    data = journal_bytes(f"{folder}/{order}.bud")
    if len(data) < HEAD or version_of(data) == 1:
        return LEAST_ROOM
    later = areas(2, capacity_in(data))[live_number(data) + 1 :]
    return max([LEAST_ROOM, *(area.end - area.begin for area in later[:1])])


def reserved(folder, order):
    """The room that this owner's journal takes next, in a file of its own beside it, which has no name by then, so that nothing is left of it."""
    name = f"{folder}/{order}.room{os.getpid()}"
    file = os.open(name, os.O_WRONLY | os.O_CREAT | os.O_EXCL, 0o600)
    try:
        os.unlink(name)
        os.write(file, b"\1")
        os.posix_fallocate(file, 0, room_wanted(folder, order))
        os.fsync(file)
    except OSError:
        os.close(file)
        raise
    return file


def takes_writes(folder, orders):
    """Whether the journals of these owners have room all together in this folder."""
    files = []
    try:
        for order in orders:
            files.append(reserved(folder, order))
        return True
    except OSError:
        return False
    finally:
        for file in files:
            os.close(file)


def due(catalog, folder):
    """The owners because of which a new start is due now."""
    names = [entry["name"] for entry in read(contents(catalog))["owners"]]
    shut = marked(folder, names)
    orders = [names.index(name) for name in shut]
    return shut if any(takes_writes(place, orders) for place in (FOLDERS if is_mirrored() else FOLDERS[:1])) else []


def main(words):
    try:
        if words[:1] == ["--clear"] and len(words) == 2:
            clear(words[1])
            return 0
        process = words.pop(1) if words[:1] == ["--end"] and len(words) == 4 and words[1].isdigit() else None
        if words[0:1] in (["--due"], ["--end"]) and len(words) == 3:
            shut = due(*words[1:]) if process is None or int(process) > 1 else []
            if shut:
                print(f"a new start is due: {', '.join(shut)} shut, and the disk takes writes", flush=True)
            if shut and process:
                os.kill(int(process), signal.SIGTERM)
            return 0 if shut else 1
        print(__doc__.strip(), file=sys.stderr)
    except (OSError, BadCatalog) as fault:
        print(f"shut.py: {fault!r}", file=sys.stderr)
    return 2


if __name__ == "__main__":
    sys.exit(main(sys.argv[1:]))
