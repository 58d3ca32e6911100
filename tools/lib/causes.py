"""Why the program ended as it did: what is found on the disk now, in words.

    Before(COMMAND)                    what stands in the folder `journals`, and in `mirrors`, before a command
    causes(STATUS, WORDS, BEFORE, SCRIPT)   sentences about a command that ended with this status, its words without the program's name;
                                       SCRIPT is the number of what was its standard input, or nothing where that was closed

What a file is refused for is found by faults.py, what is wrong with a journal by journal.py, mirrors.py and journal_changes.py. The program itself says
less, and is not asked again. Where nothing is found, that is said: somebody may have changed the files since.
"""
import difflib
import errno
import fcntl
import os
import resource
import select
import socket
import stat

from bounds import MOST_BUDGET, OWNERS, SCRIPT_LIMIT, WORKERS
from command_words import SERVICE, Command, about_words
from faults import ALL, Fault, Unreadable, bytes_of, catalog_of, check_key, survey_lines, table_of, whoever
from files import contents
from journal import GATE, HEAD, SLOT, VERSION_AT, Area, Grant, Refused, Reservation, Settlement, begun, book_of, capacity_in, decoded
from journal import fields, header, journal_bytes, length_of, live_area, slots, that_counts, version_of
from holders import holders
from journal_changes import House, changes
from meanings import COMMANDS, STATUSES
from mirrors import FLAG, FOLDERS, MIRRORS, is_gone, is_mirrored, listed, opened, side, sides_in

MOST_TOLD = 10
IN_SERVICE = "Don't run `init`, which would begin the budget anew: go on as with `damaged`, its budget counts as spent."
ONE_PROCESS = (
    "One process at a time works on a folder of journals, and it keeps them until it ends. Nothing was written. To look at journals while it runs, copy them "
    "by tools/snapshot."
)


# Files, in the program's order.


class Unseen(Fault):
    """A file that isn't looked at: a pipe or a device, from which the program has read."""


def plain(name):
    """The name of a file that may be read once more."""
    try:
        mode = os.stat(name).st_mode
    except OSError:
        return name
    if not stat.S_ISREG(mode) and not stat.S_ISDIR(mode):
        raise Unseen("it is a pipe or a device and no plain file, so it isn't looked at once more")
    return name


class Files:
    """What is found of each file and owner that a command names, in the program's order: a name, its Fault or nothing, and more lines."""

    def __init__(self, command, told):
        self.command, self.told, self.catalogs = command, told, []

    def one(self, name, call):
        try:
            return name, None, call() or []
        except Fault as fault:
            return name, fault, []

    def catalog(self, name):
        def call():
            self.catalogs.append(catalog_of(plain(name)))

        return self.one(name, call)

    def table(self, owner, table):
        def call():
            plain(table["file"])
            survey = table_of(owner, table, self.told)
            if survey.first:
                raise BadTable(survey)

        return self.one(table["file"], call)

    def tables(self):
        owners = [catalog["owners"][number] for catalog in self.catalogs for number in numbers_of(self.command, catalog["owners"])]
        return [self.table(owner, table) for owner in owners for table in owner["tables"]]

    def owner(self, catalog, name):
        for one in catalog["owners"]:
            if one["name"] == name:
                return one
        raise Fault(f"the catalog has no owner of this name; it has {', '.join(one['name'] for one in catalog['owners'])}")

    def fitting(self, name):
        first, second = (self.owner(catalog, name) for catalog in self.catalogs)
        differing = tables_differ(first["tables"], second["tables"])
        if differing:
            raise Fault(f"its entries in the two catalogs don't fit: {differing}")

    def all(self):
        """A catalog that can't be read hides what is after it. `gen` names no file."""
        words, name = self.command.words, self.command.name
        if name == "gen":
            return
        yield self.catalog(words[0])
        if not self.catalogs:
            return
        if name == "grant":
            yield self.one(words[2], lambda: self.owner(self.catalogs[0], words[2]) and None)
        if name in SERVICE:
            yield self.one(words[1], lambda: check_key(plain(words[1])))
            yield from self.tables()
            return
        yield self.one(words[1], lambda: self.owner(self.catalogs[0], words[1]) and None)
        if name == "gap":
            yield self.catalog(words[2])
            if len(self.catalogs) == 1:
                return
            yield self.one(words[1], lambda: self.fitting(words[1]))
        # Of these two no table is read.
        if name not in ("derive", "judge"):
            yield from self.tables()
        for file in words[2:] if name in ("derive", "judge") else words[-1:]:
            yield self.one(file, lambda file=file: bytes_of(plain(file)) and None)


def numbers_of(command, entries):
    """The numbers of the owners whose tables and journals a command opens: of a grant its own owner's alone."""
    return [number for number, entry in enumerate(entries) if command.name != "grant" or entry["name"] in command.words[2:3]]


class BadTable(Fault):
    """The fault of a table, and all else that is found."""

    def __init__(self, survey):
        super().__init__(str(survey.first))
        self.lines = [f"    {line}".replace(ALL, ALL.replace("--all", "tools/find_fault --all")) for line in survey_lines(survey, MOST_TOLD)]


def tables_differ(first, second):
    """How the tables of two entries differ in names, order, columns and kinds, or nothing."""
    names = [[table["name"] for table in tables] for tables in (first, second)]
    if names[0] != names[1]:
        return f"the tables are {', '.join(names[0])} in the first and {', '.join(names[1])} in the second"
    for one, other in zip(first, second):
        said = [", ".join(f"{column['name']} {column['type']}" for column in table["columns"]) for table in (one, other)]
        if said[0] != said[1]:
            return f"the columns of {one['name']} are {said[0]} in the first and {said[1]} in the second"
    return None


NOTHING_FOUND = (
    "Nothing of that is found now: the files may have changed since. If it stays so, the program or this tool has a fault; please say so."
)


def about_refused(command, told):
    """Of status 3: the first file or owner that is refused, and why."""
    for name, fault, _ in Files(command, told).all():
        if isinstance(fault, Unseen):
            yield f"{name}: {fault}."
        elif fault and not isinstance(fault, Unreadable):
            yield f"refused {name}: {fault}"
            yield from getattr(fault, "lines", [])
            if not os.path.exists(name) and str(fault).startswith("there is no such file"):
                yield from about_absent(name)
            yield "`tools/find_fault CATALOG KEY` looks at every file, and tells all that is wrong with each."
            return
    yield NOTHING_FOUND


def about_absent(name):
    folder, base = os.path.split(name)
    if folder and os.path.isfile(folder):
        yield f"`{folder}` is a file, and no folder."
    elif folder and not os.path.isdir(folder):
        yield f"There is no folder `{folder}` here: is the program started in another folder than the names are meant from?"
    else:
        try:
            likely = difflib.get_close_matches(base, os.listdir(folder or "."), 1)
        except OSError:
            likely = []
        if likely:
            yield f"Is `{os.path.join(folder, likely[0])}` meant?"


# Journals.


class Before:
    """The length of each journal, and how many of its first slots are open, as they are now."""

    def __init__(self, command):
        self.found = {number: seen(number) for number in range(OWNERS)} if command in ("init", "run", "serve", "grant") else {}

    def length(self, number):
        return self.found.get(number, (0, 0))[0]

    def slots(self, number):
        return self.found.get(number, (0, 0))[1]


def path_of(number, folder=FOLDERS[0]):
    return f"{folder}/{number}.bud"


def paths_of(number, command):
    """The owner's file, or both."""
    return [path_of(number, folder) for folder in (FOLDERS if command.mirrored else FOLDERS[:1])]


def seen(number):
    """Of two files the length of the first that has bytes, as an `init` says it."""
    sides = sides_in(".", number) if is_mirrored() else [side(path_of(number))]
    there = [data for data in sides if not is_gone(data)]
    return (length_of(there[0]), max(len(open_slots(data)) for data in there)) if there else (0, 0)


def open_slots(data):
    """The first slots of a journal that are open, by its own header; where that names no capacity, of those after it."""
    if len(data) < HEAD:
        return []
    return begun(data, capacity_in(data) or (len(data) - HEAD) // SLOT)


def length_due(data, capacity):
    """How long a journal is at least: by what its header says, or as an `init` makes it."""
    return live_area(data, capacity).end if len(data) >= HEAD else Area(2, capacity, 0).end


class Journals:
    """The owners' journals as they are now: of each its bytes, or nothing where it isn't there, and its book or why it has none. A grant reads no table of
    another owner, so one may not be there."""

    def __init__(self, command):
        self.house, self.mirrored = House(*command.words[:2]), command.mirrored
        self.entries = self.house.catalog["owners"]
        self.bytes, self.books, self.paths = [], [], []
        for number, entry in enumerate(self.entries):
            path = self.that_is_judged(number, entry) if self.mirrored else path_of(number)
            kept = journal_bytes(path) if os.path.exists(path) else None
            self.paths.append(path)
            self.bytes.append(kept)
            self.books.append(self.book(number, entry, kept or b""))

    def that_is_judged(self, number, entry):
        """Of two files that which is refused by itself, or the one with more records."""
        sides = [(path_of(number, folder), data) for folder, data in zip(FOLDERS, sides_in(".", number)) if not is_gone(data)]
        for path, data in sides:
            try:
                listed(data, self.head(number), entry)
            except Refused:
                return path
        return max(sides, key=lambda one: len(open_slots(one[1])))[0] if sides else path_of(number)

    def head(self, number, kept=b""):
        """The header that a journal of these bytes would have, in the version that they name."""
        version = version_of(kept) if len(kept) > VERSION_AT else 2
        return header(self.house.data, number, self.house.key, contents, version)

    def book(self, number, entry, kept):
        analysts = self.house.catalog["analysts"]
        try:
            if self.mirrored:
                return opened(sides_in(".", number), self.head(number), entry, analysts)
            return book_of(kept, self.head(number), entry, analysts)
        except Refused as refusal:
            return refusal
        except OSError as fault:
            return Refused(f"{fault.filename} can't be read")

    def opened(self):
        return [number for number, book in enumerate(self.books) if not isinstance(book, Refused)]

    def about(self, number):
        """What is said of a journal that is refused."""
        refusal, kept = self.books[number], self.bytes[number]
        kind = str(refusal).split()[0]
        if kind == "forked" or "whose rules of cost differ" in refusal.how:
            yield from about_two(number, refusal, self.entries[number], self.house.catalog["analysts"])
        elif kind == "damaged":
            yield f"In {self.paths[number]}, slot {str(refusal).split()[1]} (from 0): {refusal.how}."
            yield "No stop of the program leaves that. Stop, and copy the file away; there is no repair, and its budget counts as spent."
        elif kind == "changed":
            yield f"{self.paths[number]} is a journal, but not that of {self.entries[number]['name']} with this entry, key and these tables."
            yield from changes(self.house, number, kept, self.opened())
        else:
            yield from self.unmade(number, kept)

    def unmade(self, number, kept):
        others = ", ".join(self.entries[other]["name"] for other in self.opened())
        if kept is None and not os.path.isdir("journals"):
            yield f"There is no folder `journals` in {os.getcwd()}: `init` was never run here, or this is the wrong folder."
        elif kept is None:
            made = f"those of {others} are there, so it was removed, or an `init` failed at it" if others else "no `init` made it here"
            yield f"There is no {' and no '.join([path_of(number), *([path_of(number, MIRRORS)] if self.mirrored else [])])}: {made}."
            yield from self.in_service()
        else:
            due = length_due(kept, self.entries[number]["capacity"])
            yield f"{self.paths[number]} has {length_of(kept)} bytes, of {due}, and is none that an `init` made and left: {self.half_made(number, kept)}"
            yield from [IN_SERVICE] if open_slots(kept) else self.in_service()

    def in_service(self):
        """A warning where the records of other journals show that runs were over this folder."""
        used = [self.entries[other]["name"] for other in self.opened() if self.books[other].records]
        if used:
            yield f"Runs were over these journals: that of {used[0]} has records. {IN_SERVICE}"

    def half_made(self, number, kept):
        open_now = len(open_slots(kept))
        if open_now:
            said = f"its first byte is 0x{kept[0]:02X}, where 0x{GATE:02X} belongs, but {open_now} slots are open"
            return f"{said}: it was in service, and somebody wrote into it."
        if not kept:
            return "it is empty. An `init` was stopped, or had no room, or somebody emptied it."
        if not any(kept):
            return "it has zeros alone. An `init` was stopped, or had no room."
        if len(kept) < HEAD and kept == self.head(number, kept)[: len(kept)]:
            return "it is the beginning of this owner's journal, which an `init` had made: all after it was cut off."
        if len(kept) >= HEAD and fields(kept)[1:] == fields(self.head(number, kept))[1:]:
            return "its header is there but for the first byte: an `init` was stopped at its last step."
        return "it has other bytes than an `init` leaves."


def about_two(number, refusal, entry, analysts):
    """Of two files that don't fit one another."""
    words = str(refusal).split()
    if words[0] != "forked":
        yield f"{path_of(number)} and {path_of(number, MIRRORS)} don't belong together: {refusal.how}. Somebody put one of them there; nothing was written."
        return
    for folder in FOLDERS:
        record = slots(journal_bytes(path_of(number, folder)), entry["capacity"])[int(words[1])]
        yield f"In {path_of(number, folder)}, slot {words[1]} (from 0) is: {record.said(entry, analysts)}"
    yield (
        "A disk that had missed a run was put back, and had records that the other hasn't. From both answers may have been given: stop, copy both files away, and "
        "count the budget as spent. There is no repair."
    )


def journals_of(command):
    """The journals, or why they can't be looked at."""
    try:
        return Journals(command), None
    except (OSError, Fault, ValueError) as fault:
        return None, f"The journals can't be judged now: {fault}."


def about_journals(command, before):
    """Of status 4: the first journal that isn't the one that is wanted."""
    found, why = journals_of(command)
    if why:
        yield why
        return
    if command.name == "init":
        yield from about_existing(found, before)
        return
    for number in numbers_of(command, found.entries):
        book = found.books[number]
        if isinstance(book, Refused):
            yield f"journal {found.entries[number]['name']} {book}"
            yield from found.about(number)
            yield from about_others(found, number) if command.name != "grant" else ()
            return
    yield NOTHING_FOUND


def about_others(found, told):
    """A word on each other owner's journal; where many open, how many do."""
    opened = [number for number in found.opened() if number != told]
    for number, book in enumerate(found.books):
        if number != told and (isinstance(book, Refused) or len(opened) <= MOST_TOLD):
            said = f"is refused, too: {book}" if isinstance(book, Refused) else f"opens, with {len(book.records)} records"
            yield f"The journal of {found.entries[number]['name']} {said}."
    if len(opened) > MOST_TOLD:
        yield f"The journals of {len(opened)} other owners open."


def about_existing(found, before):
    """Of an `init` that found a journal there."""
    for number, entry in enumerate(found.entries):
        if before.length(number) == 0:
            yield f"The journal of {entry['name']} wasn't there, and was made by this `init`: {found.paths[number]}."
            continue
        book = found.books[number]
        yield f"journal {entry['name']} exists {before.length(number)}"
        if isinstance(book, Refused):
            yield f"It doesn't open: {book}."
            yield from found.about(number)
        else:
            yield f"It is the journal that belongs here: {book.counts()}. `run` goes on with it."
        return
    yield NOTHING_FOUND


# The disk of a journal.


def mode_of(path):
    found = os.stat(path)
    return f"`{path}` is {stat.filemode(found.st_mode)}, of user {found.st_uid} and group {found.st_gid}"


def about_error(fault, path):
    """What is said of an error at a path."""
    if fault.errno in (errno.EACCES, errno.EPERM):
        places = [place for place in dict.fromkeys((os.path.dirname(path), path)) if os.path.lexists(place)]
        return f"{whoever()} may not open {path} to read and write it: {'; '.join(map(mode_of, places))}."
    if fault.errno == errno.EROFS:
        return f"{path} lies on a file system that is read-only."
    if fault.errno == errno.EISDIR:
        return f"{path} is a folder, where a file belongs."
    if fault.errno == errno.ENOTDIR:
        return f"`{os.path.dirname(path)}` is a file, where a folder belongs."
    if fault.errno == errno.ELOOP:
        return f"{path} is a link that leads nowhere but to itself."
    return f"{path} can't be opened: {fault.strerror}."


def opening_fault(path):
    """The error at which the program's opening of a journal fails, or nothing; a file that isn't there is none."""
    try:
        journal_bytes(path)
        os.close(os.open(path, os.O_RDWR | os.O_NONBLOCK))
    except FileNotFoundError:
        return None
    except OSError as fault:
        return fault
    return None


def about_disk(command, before):
    """Of status 6: the first journal whose disk fails, and how."""
    try:
        entries = catalog_of(command.words[0])["owners"]
    except Fault as fault:
        yield f"The catalog can't be read now: {fault}."
        return
    for number in numbers_of(command, entries):
        said = list(about_disk_of(command, number, entries[number]))
        if said:
            yield f"disk {entries[number]['name']}"
            yield from said
            return
    yield "Each journal can be opened and read now: the disk failed for a while, or at a sync. Look at the system's log (`dmesg`) before the next run."


def about_disk_of(command, number, entry):
    """What is wrong with the disk of this owner's journal, or with both."""
    paths = paths_of(number, command)
    faults = [(path, fault) for path, fault in ((path, opening_fault(path)) for path in paths) if fault]
    # With one disk sound, and no `init`, the other may fail.
    if faults and (command.name == "init" or all(fault or is_gone(side(path)) for path, fault in ((path, opening_fault(path)) for path in paths))):
        yield from (about_error(fault, path) for path, fault in faults)
        return
    held = [line for path in paths for line in holders(path)]
    if held:
        yield from [*held, ONE_PROCESS]
        return
    for path in paths if command.name == "init" else ():
        if not was_made(path, entry):
            yield from about_making(path, entry)
            return


def was_made(path, entry):
    """Whether an `init` ended on a journal, by its length and its first byte."""
    try:
        data = journal_bytes(path)
    except OSError:
        return False
    return len(data) >= length_due(data, entry["capacity"]) and data[0] == GATE


def about_making(path, entry):
    """Why a journal couldn't be made here."""
    due, home = Area(2, entry["capacity"], 0).end, os.path.dirname(path)
    there = os.path.getsize(path) if os.path.exists(path) else 0
    folder = home if os.path.isdir(home) else "."
    system = os.statvfs(folder)
    free = system.f_bavail * system.f_frsize
    if os.path.islink(home) and not os.path.exists(home):
        yield f"`{home}` is a link to {os.readlink(home)}, where nothing is: is that disk mounted?"
    elif system.f_flag & os.ST_RDONLY:
        yield f"The file system of {os.path.realpath(folder)} is read-only."
    elif not os.access(folder, os.R_OK | os.W_OK | os.X_OK, effective_ids=True):
        yield f"{whoever()} may not make files in `{folder}`: {mode_of(folder)}."
    elif free < due - there:
        yield f"The disk is full: {path} takes {due} bytes, {there} were written, and {free} are free."
    else:
        yield f"{path} couldn't be written or synced, and the folder can be written now, with {free} bytes free. Look at the system's log (`dmesg`)."
    if there:
        yield (
            f"What was begun lies in {path}, {there} of {due} bytes. If no run was ever over any of these journals, remove the folder "
            f"`{home}` before the next `init`."
        )


# What was asked before an end.


def about_asked(command, before):
    """Whether a run that ended early has left records, by what stood in the journals before it."""
    counts = {number: len(open_slots(data)) - before.slots(number) for number, data in journals_now()}
    more = {number: count for number, count in counts.items() if count > 0}
    if not more:
        yield "No journal has more records than before the run: nothing was asked, and nothing is charged."
        return
    names = names_of_owners(command)
    for number, data in journals_now():
        if number in more:
            records = [decoded(slot) for slot in open_slots(data)]
            asked = [record.number for record in records[before.slots(number) :] if isinstance(record, Reservation)]
            settled = {record.number for record in records if isinstance(record, Settlement)}
            lost = [str(one) for one in asked if one not in settled]
            told = f", numbers {asked[0]} to {asked[-1]}" if asked else ""
            yield (
                f"{path_of(number)} has {more[number]} records more than before the run, {len(asked)} of them reservations{told}: these are charged, and "
                f"`recall {names.get(number, 'OWNER')} N` tells their answers{', but for ' + ', '.join(lost) + ', which has none' if lost else ''}."
            )
    if command.name == "run":
        yield "Don't run the script again, which would ask and pay once more; see 'After a stop' in docs/operators-guide.md."


# Grants.


def about_grant(command, before):
    """Whether a grant that ended early stands, by what stood in its journal before it."""
    for number, data in journals_now():
        records = [decoded(slot) for slot in open_slots(data)[before.slots(number) :]]
        for one in records:
            if isinstance(one, Grant):
                yield f"{path_of(number)} has the record of grant {one.number}, of {one.amount} millionths: it stands. Don't grant it again."
                return
    yield "No journal has a grant more than before: nothing was granted."


def about_limit(command, status):
    """Of statuses 9 and 10: the budget, or the room, by the journal as it is now."""
    found, why = journals_of(command)
    if why:
        yield why
        return
    for number in numbers_of(command, found.entries):
        book, entry = found.books[number], found.entries[number]
        if isinstance(book, Refused):
            yield NOTHING_FOUND
        elif status == 9:
            more = f"at most {MOST_BUDGET - book.budget} more may be granted" if book.budget < MOST_BUDGET else "nothing more may be granted"
            yield f"The budget of {entry['name']} is {book.budget} millionths, and {MOST_BUDGET} is the greatest: {more}."
        else:
            yield (
                f"The journal of {entry['name']} has {len(book.records)} records, and room for {entry['capacity']}, which is fixed at init: no grant and no "
                f"ask has room any more. `left` and `recall` are answered still."
            )


def names_of_owners(command):
    try:
        return {number: entry["name"] for number, entry in enumerate(catalog_of(command.words[0])["owners"])}
    except (Fault, IndexError):
        return {}


def journals_now():
    for number in range(OWNERS):
        try:
            yield number, that_counts(FOLDERS[0], ".", number)
        except OSError:
            continue


# Files, standard input and output that fail.


def about_input(script):
    if script is None:
        yield "Standard input is closed: the script belongs there, `< SCRIPT`."
    elif stat.S_ISDIR(os.fstat(script).st_mode):
        yield "Standard input is a folder, and the script belongs there, `< SCRIPT`."
    elif fcntl.fcntl(script, fcntl.F_GETFL) & os.O_ACCMODE == os.O_WRONLY:
        yield "Standard input isn't open for reading."


def about_output():
    try:
        found = os.fstat(1)
    except OSError:
        yield "Standard output is closed, so nothing could be written."
        return
    if stat.S_ISCHR(found.st_mode) and found.st_rdev == os.makedev(1, 7):
        yield "Standard output is /dev/full, which takes nothing."
    elif stat.S_ISREG(found.st_mode):
        system = os.fstatvfs(1)
        if system.f_bavail * system.f_frsize < 2**16:
            yield f"The disk of the file that standard output is has {system.f_bavail * system.f_frsize} bytes free: it is full."
    elif stat.S_ISDIR(found.st_mode):
        yield "Standard output is a folder."
    else:
        waiting = select.poll()
        waiting.register(1, select.POLLOUT)
        if any(event & (select.POLLERR | select.POLLHUP) for _, event in waiting.poll(0)):
            yield "Whoever reads standard output has gone (as `head` does when it has enough), so the rest couldn't be written."


def about_failure(command, script, told):
    """Of status 5: each file that can't be read, and what is wrong with standard input and output."""
    said = []
    for name, fault, _ in Files(command, told).all() if command.name in COMMANDS and len(command.words) == len(command.wanted()) else ():
        if isinstance(fault, Unreadable):
            said.append(f"{name}: {fault}.")
        elif isinstance(fault, Unseen):
            said.append(f"{name}: {fault}.")
    said += about_output() if command.name != "serve" else about_doors(command)
    if command.name == "run":
        said += about_input(script)
    where = "a port" if command.name == "serve" else "standard input or output"
    yield from said or [f"Nothing that fails is found now: neither a file that the arguments or the catalog name, nor {where}."]


def about_doors(command):
    """The ports at which nobody can listen now."""
    addr, first, workers = command.option("--addr", "127.0.0.1"), command.option("--port", ""), command.option("--workers", "1")
    if not (first.isdigit() and workers.isdigit()):
        return
    for port in range(int(first), int(first) + min(int(workers), WORKERS)):
        try:
            family = socket.getaddrinfo(addr, port, type=socket.SOCK_STREAM)[0][0]
            with socket.socket(family, socket.SOCK_STREAM) as door:
                door.setsockopt(socket.SOL_SOCKET, socket.SO_REUSEADDR, 1)
                door.bind((addr, port))
                door.listen()
        except OSError as fault:
            yield f"Nobody can listen at {addr}, port {port}, now: {fault.strerror}."


# Memory, and scripts.


def kibibytes(name):
    with open("/proc/meminfo", encoding="ascii") as file:
        return next(line.split()[1] for line in file if line.startswith(name))


def about_memory():
    limit = resource.getrlimit(resource.RLIMIT_AS)[0]
    if limit != resource.RLIM_INFINITY:
        yield f"Its memory is limited to {limit // 1024} KiB (`ulimit -v`): allow more."
    try:
        yield f"The machine has {kibibytes('MemAvailable')} KiB of memory free now."
    except (OSError, StopIteration):
        pass


def about_walks(command):
    asked = " ".join([*command.words[:2], command.words[-1], "'no 90'"])
    yield f"Where the program walks bags too often or too deep no memory helps: `tools/explain {asked}` says whether it does."


def about_length(script):
    found = os.fstat(script)
    if stat.S_ISREG(found.st_mode):
        yield f"It has {found.st_size} bytes, and {SCRIPT_LIMIT} are allowed."
    yield "Cut it between lines, and begin each piece with its own `hello`."


def causes(status, words, before, script, told=lambda rows: None):
    """Sentences about a command that ended with a status from 2 to 11."""
    command = Command(words)
    yield f"status {status}: {STATUSES[status]}."
    if status == 2:
        yield from about_words(words)
    elif status == 3:
        yield from about_refused(command, told)
    elif status == 4:
        yield from about_journals(command, before)
    elif status == 5:
        yield from about_failure(command, script, told)
    elif status == 6:
        yield from about_disk(command, before)
    elif status == 7:
        yield from about_memory()
        if command.name in ("check", "gap", "derive"):
            yield from about_walks(command)
    elif status == 8:
        yield from about_length(script)
    elif status in (9, 10):
        yield from about_limit(command, status)
    else:
        yield "The types of names are written out in it: where `let b = (a, a) in` stands often, the one's type is twice as long as the other's each time."
    if command.name in SERVICE and status in (4, 6) and is_mirrored() and not command.mirrored:
        yield f"This folder has `{MIRRORS}`, and `{FLAG}` isn't among the arguments: `{FOLDERS[0]}` alone was looked at."
    if command.name == "grant" and status in (5, 6, 7):
        yield from about_grant(command, before)
    if command.name in ("run", "serve") and status in (5, 7, 8):
        yield from about_asked(command, before)


def killed(signal_name, words, before):
    """Sentences about a command that a signal ended."""
    command = Command(words)
    if command.name == "serve":
        yield f"{signal_name} ended it: what was being answered is `lost`, if it was reserved; it is charged, and `recall` tells so."
    else:
        yield f"{signal_name} ended it: it has written nothing, or a part of what was due."
    if command.name == "grant":
        yield from about_grant(command, before)
    if command.name in ("run", "serve"):
        yield from about_asked(command, before)
