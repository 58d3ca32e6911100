"""A journal that is `changed`: which of what it is bound to is another than at its `init`.

    changes(HOUSE, ORDER, HEAD, OTHERS)    sentences about the header of owner ORDER's journal

A header has the owner's number, budget and capacity as they are, and all else as one SHA-256: of the key, the list of analysts, the owner's
entry and the tables' bytes. So what changed is found by trying: where the digest comes out of other files that lie there, or of the
present ones with a small change taken back, that is what was there at `init`, since nobody finds two texts of one SHA-256. Where nothing
comes out, what is left is said: another owner's journal that opens shows that the key and the analysts are those of `init`.
"""
import hashlib
import json
import os
from io import TextIOWrapper

from bounds import FILE_LIMIT
from catalog import BadCatalog, read
from files import contents, plain
from journal import GATE, GATES_AT, HEAD, VERSIONS, compact, stray_gate

MAGIC = b"FUZZBUDG"
KEY_LENGTH = 32
MOST_FILES, MOST_BYTES, MOST_ROWS, MOST_TRIED, MOST_KEYS = 200, 2**28, 1000, 200_000, 250
MOST_BYTES_WRITTEN = 8
SOMEBODY = "somebody, or the disk, has written into the header. Nothing else has changed; go on as with `damaged`."


class House:
    """A catalog's bytes and what it says, by its name, and a key, as they are now; tables are read when they are wanted."""

    def __init__(self, catalog_name, key_name):
        self.catalog_name, self.key_name = catalog_name, key_name
        self.data, self.key = contents(catalog_name), contents(key_name)
        self.catalog, self.whole, self.digests = read(self.data), json.loads(self.data), {}

    def digest(self, name):
        if name not in self.digests:
            self.digests[name] = hashlib.sha256(contents(name)).digest()
        return self.digests[name]

    def digest_of(self, analysts, entry):
        tables = b"".join(self.digest(table["file"]) for table in entry["tables"])
        return hashlib.sha256(self.key + compact(analysts) + b"\n" + compact(entry) + b"\n" + tables).digest()


class Header:
    def __init__(self, data):
        number = lambda a, b: int.from_bytes(data[a:b], "big")
        self.gate, self.magic, self.version = data[0], data[1:9], data[9]
        self.order, self.budget, self.capacity = number(10, 14), number(14, 22), number(22, 26)
        self.digest, self.rest = data[64:96], data[26:64] + data[GATES_AT : HEAD if self.version == 1 else GATES_AT + 1]
        self.stray = stray_gate(data, self.capacity) if self.version > 1 else None

    def is_one(self):
        """Whether these are the bytes of some header, whatever it is of."""
        return self.gate == GATE and self.magic == MAGIC and self.version in VERSIONS and not any(self.rest) and not self.stray


def form_faults(found):
    if found.magic != MAGIC:
        return ["It is no journal: after its first byte `FUZZBUDG` doesn't stand."]
    if found.version not in VERSIONS:
        return [f"It is a journal of version {found.version}, and this program reads versions 1 to 3."]
    if any(found.rest):
        zeros = f"26 to 63 and {GATES_AT} to {HEAD - 1}" if found.version == 1 else f"26 to 63, and {GATES_AT}"
        return [f"Bytes of its header that are always zeros ({zeros}) aren't: somebody has written into the file."]
    return [f"A gate of its areas is out of order: {found.stray}. Somebody has written into the file, or the disk has."]


# Files that may be what was there.


def beside(*names):
    """Plain files in this folder and in those of the names."""
    found = []
    for folder in dict.fromkeys(["."] + [os.path.dirname(name) or "." for name in names]):
        try:
            found += sorted((os.path.join(folder, name) if folder != "." else name) for name in os.listdir(folder))
        except OSError:
            continue
    return [name for name in dict.fromkeys(found) if os.path.isfile(name)][:MOST_FILES]


def readable(name, most):
    try:
        return contents(name) if os.path.getsize(name) <= most else None
    except OSError:
        return None


def keys_beside(house):
    """Other files of a key's length."""
    for name in beside(house.key_name):
        data = readable(name, KEY_LENGTH)
        if data is not None and len(data) == KEY_LENGTH and data != house.key:
            yield f"the key was that of {name}", data


def catalogs_beside(house):
    for name in beside(house.catalog_name):
        data = readable(name, 2**20)
        if data is None or data == house.data or not data.lstrip()[:1] == b"{":
            continue
        try:
            read(data)
        except BadCatalog:
            continue
        yield name, json.loads(data)


# Small changes taken back. Each is a sentence and what was there.


def without_some(items, say):
    """A list without one of its items, or without some of the last: of a long one its last items alone are taken away."""
    for number in range(max(0, len(items) - MOST_KEYS), len(items)):
        yield say([items[number]]), items[:number] + items[number + 1 :]
    for count in range(2, min(len(items), MOST_KEYS)):
        yield say(items[-count:]), items[:-count]


def earlier_analysts(house):
    analysts = house.whole["analysts"]
    yield from without_some(analysts, lambda more: f"the analysts were those of now without {', '.join(more)}")
    for number in range(len(analysts) - 1):
        swapped = analysts[:number] + [analysts[number + 1], analysts[number]] + analysts[number + 2 :]
        yield f"the analysts {analysts[number]} and {analysts[number + 1]} stood the other way round", swapped


def earlier_partitions(entry):
    partitions = entry["partitions"]
    yield from ((f"the entry had no partition {said}", {**entry, "partitions": kept}) for said, kept in without_some(partitions, names_of))
    if partitions:
        yield "the entry had no partitions", {**entry, "partitions": []}
    for number, partition in enumerate(partitions):
        for said, kept in without_some(partition["keys"], ", ".join):
            changed = partitions[:number] + [{**partition, "keys": kept}] + partitions[number + 1 :]
            yield f"the partition {partition['name']} had no key {said}", {**entry, "partitions": changed}


def earlier_limits(entry):
    """A limit that wasn't there; and none, as an empty list or left out, of which each is another text."""
    limits, without = entry.get("limits", []), {name: value for name, value in entry.items() if name != "limits"}
    for said, kept in without_some(limits, lambda more: ", ".join(one["analyst"] for one in more)):
        yield f"the entry had no limit for {said}", {**entry, "limits": kept}
    if "limits" in entry:
        yield "the entry had no limits", without
    else:
        yield "the entry had an empty list of limits", {**entry, "limits": []}


def names_of(objects):
    return ", ".join(one["name"] for one in objects)


def earlier_tables(entry):
    for said, kept in without_some(entry["tables"], names_of):
        yield f"the entry had no table {said}", {**entry, "tables": kept}


def forms_of(data):
    """The bytes of a table with another end, other line ends, or a byte order mark or none."""
    mark, lines = b"\xef\xbb\xbf", data.replace(b"\r\n", b"\n")
    yield "had no line end after its last row", data.rstrip(b"\r\n")
    yield "had a line end after its last row", data.rstrip(b"\r\n") + b"\n"
    yield "had the line ends LF", lines
    yield "had the line ends CR LF", lines.replace(b"\n", b"\r\n")
    yield "had no byte order mark", data.removeprefix(mark)
    yield "had a byte order mark", mark + data


def shorter(data):
    """The digests of a table without some of its last lines, the shortest first, each with how many lines are missing."""
    ends = [len(data) - data.endswith(b"\n")]
    while len(ends) <= MOST_ROWS and ends[-1] >= 0:
        ends.append(data.rfind(b"\n", 0, ends[-1]))
    hashed, done = hashlib.sha256(), 0
    for count in range(len(ends) - 1, 0, -1):
        end = ends[count] + 1
        hashed.update(data[done:end])
        done = end
        if end:
            yield count, hashed.digest()


def earlier_files(house, name):
    """What a table's file may have been: each with a digest."""
    data = contents(name)
    for said, bytes_of in forms_of(data):
        if bytes_of != data:
            yield f"{name} {said}", hashlib.sha256(bytes_of).digest()
    for count, digest in shorter(data):
        yield f"{name} lacked the last {'line' if count == 1 else f'{count} lines'} of now", digest
    left, head = MOST_BYTES, first_line(name)
    for other in beside(name):
        if os.path.samefile(other, name) or first_line(other) != head:
            continue
        found = readable(other, min(FILE_LIMIT, left))
        if found is not None and found != data:
            left -= len(found)
            yield f"{name} was as {other} is now", hashlib.sha256(found).digest()


def first_line(name):
    """The beginning of a file up to its first line end, without a byte order mark and line end; nothing where it can't be read."""
    try:
        with plain(name) as file:
            return file.readline(2**16).removeprefix(b"\xef\xbb\xbf").strip()
    except OSError:
        return None


# The search.


def entries_to_try(house, entry, others):
    """Analysts and the owner's entry together: as they are, those of other catalogs, and those of now with a small change taken back."""
    analysts, numbers = house.whole["analysts"], ("budget", "capacity")
    fits = lambda one: all(one[name] == entry[name] for name in numbers)
    yield None, (analysts, entry)
    for name, whole in others:
        for one in whole["owners"]:
            if one["name"] == entry["name"] and fits(one):
                yield f"the catalog was as {name} is now", (whole["analysts"], one)
    for said, earlier in earlier_analysts(house):
        yield said, (earlier, entry)
    for one in house.whole["owners"]:
        if one["name"] != entry["name"] and fits(one):
            yield f"it was made for the owner {one['name']}", (analysts, one)
    for earlier in (earlier_partitions, earlier_tables, earlier_limits):
        for said, one in earlier(entry):
            yield said, (analysts, one)


def tables_to_try(house, entry, told):
    """Digests of an entry's tables, with one of them as it may have been."""
    names = [table["file"] for table in entry["tables"]]
    now = [house.digest(name) for name in names]
    for name in dict.fromkeys(names):
        if name not in told:
            told[name] = list(earlier_files(house, name))
        for said, digest in told[name]:
            yield said, [digest if other == name else kept for other, kept in zip(names, now)]


def with_numbers(entry, found):
    return {**entry, "budget": found.budget, "capacity": found.capacity}


class Search:
    """Tries what may have been there at `init`, until the digest of a header comes out."""

    def __init__(self, house, order, found):
        self.house, self.wanted, self.tried, self.told = house, found.digest, 0, {}
        self.keys = [(None, house.key), *keys_beside(house)]
        entry = with_numbers(house.whole["owners"][order], found)
        self.entry, self.others = entry, list(catalogs_beside(house))

    def entries(self):
        """Made anew for each search, since a long list of keys is another list in each of them."""
        for said, (analysts, one) in entries_to_try(self.house, self.entry, self.others):
            if are_there(one):
                yield said, compact(analysts), one

    def fits(self, begun, tables):
        """Whether the digest comes out of what is hashed already, by `begun`, and these tables after it."""
        self.tried += 1
        hashed = begun.copy()
        hashed.update(b"".join(tables))
        return hashed.digest() == self.wanted

    def by(self, most):
        """The sentences of so many changes by which the digest comes out, or nothing: first those without a table's, then with one table's."""
        return self.without_tables(most) or self.with_a_table(most)

    def pairs(self, count):
        """Keys and entries that differ from those of now in so many sentences."""
        for by_key, key in self.keys:
            for by_entry, analysts, one in self.entries():
                changed = [said for said in (by_key, by_entry) if said]
                if len(changed) == count:
                    yield changed, key, analysts, one

    def without_tables(self, most):
        for changed, key, analysts, one in self.pairs(most):
            if self.fits(begun(key, analysts, one), [self.house.digest(table["file"]) for table in one["tables"]]):
                return changed
        return None

    def with_a_table(self, most):
        self.tried = 0
        for changed, key, analysts, one in self.pairs(most - 1):
            hashed = begun(key, analysts, one)
            for said, tables in tables_to_try(self.house, one, self.told):
                if self.tried > MOST_TRIED:
                    return None
                if self.fits(hashed, tables):
                    return [*changed, said]
        return None


def begun(key, analysts, entry):
    """The hash of a header's digest up to the tables, of which many are tried after one entry."""
    return hashlib.sha256(key + analysts + b"\n" + compact(entry) + b"\n")


def are_there(entry):
    return all(os.path.isfile(table["file"]) for table in entry["tables"])


def search(house, order, found):
    """The fewest changes by which the digest comes out, as sentences; nothing where none of what is tried gives it."""
    trying = Search(house, order, found)
    return next((said for said in map(trying.by, (1, 2, 3)) if said), None)


# What is said.


def at_init(house, entry):
    """Which files are others by `at_init`, the checksums that an operator takes after `init`: names, or nothing where there are none."""
    try:
        with TextIOWrapper(plain("at_init"), encoding="utf-8", errors="surrogateescape") as file:
            sums = {line[66:].rstrip("\n"): line[:64] for line in file if len(line) > 66}
    except OSError:
        return None
    wanted = [house.catalog_name, house.key_name, *(table["file"] for table in entry["tables"])]
    known = {name: sums[os.path.normpath(name)] for name in wanted if os.path.normpath(name) in sums}
    return {name: hashlib.sha256(contents(name)).hexdigest() == digest for name, digest in known.items()}


def header_written(house, order, found):
    """Whether a header is that of the entry, key and tables of now but for some bytes: what else was there gives a digest with hardly a byte alike."""
    entry, wanted = house.whole["owners"][order], house.digest_of(house.whole["analysts"], house.whole["owners"][order])
    other = sum(one != now for one, now in zip(found.digest, wanted))
    numbers = (found.order, found.budget, found.capacity)
    if other == 0:
        said = (f"number {found.order} (from 0), budget {found.budget}, capacity {found.capacity}", f"number {order}, budget {entry['budget']}, "
            f"capacity {entry['capacity']}")  # fmt: skip
        return [f"Its header says {said[0]}, and its digest is that of {said[1]}, as the catalog has it: {SOMEBODY}"]
    if other <= MOST_BYTES_WRITTEN and numbers == (order, entry["budget"], entry["capacity"]):
        return [f"Its digest differs in {other} of 32 bytes from that of now, and with another entry, key or table it would in nearly all: {SOMEBODY}"]
    return None


def numbers_changed(entry, order, found):
    for name, then in (("budget", found.budget), ("capacity", found.capacity)):
        if entry[name] != then:
            yield f"The {name} of the entry was {then} at init, and the catalog says {entry[name]}."
    if order != found.order:
        yield f"It was made for the owner of number {found.order}, and stands in the place of number {order} (from 0)."


def what_is_left(house, order, opened):
    """What may have changed, where other owners' journals open, as `opened` says by their numbers."""
    entry = house.whole["owners"][order]
    others = [house.whole["owners"][number] for number in opened]
    files = [table["file"] for table in entry["tables"]]
    same = {table["file"] for other in others for table in other["tables"]}
    may = [] if others else ["the key", "the list of analysts"]
    may += [f"the entry of {entry['name']} (but for its budget and capacity)"] + [name for name in dict.fromkeys(files) if name not in same]
    known = f" The journal of {others[0]['name']} opens, so the key and the analysts are those with which that one was made." if others else ""
    return f"Another than at init is one of these, or several: {', '.join(may)}.{known}"


def changes(house, order, data, opened):
    """Sentences about a journal's bytes whose header isn't that of the owner of this number."""
    found, entry, analysts = Header(data), house.whole["owners"][order], house.whole["analysts"]
    if not found.is_one():
        return form_faults(found)
    for number, one in enumerate(house.whole["owners"]):
        if number != order and found.digest != house.digest_of(analysts, entry) and house.digest_of(analysts, one) == found.digest:
            return [f"It is the journal of the owner {one['name']}, made with the key, analysts and tables of now."]
    written = header_written(house, order, found)
    if written:
        return written
    sentences = list(numbers_changed(entry, order, found))
    if house.digest_of(analysts, with_numbers(entry, found)) == found.digest:
        return sentences + (["All else is as it was: with that its digest comes out."] if sentences else [])
    said = search(house, order, found)
    if said:
        return sentences + [f"At init {sentence}; with that the journal's digest comes out." for sentence in said]
    known = at_init(house, entry)
    if known and not all(known.values()):
        return sentences + [f"By the file at_init {', '.join(name for name, same in known.items() if not same)} changed since its sums were taken."]
    if known and {house.catalog_name, house.key_name, *(table["file"] for table in entry["tables"])} <= known.keys():
        return sentences + [
            f"By the file at_init none of {', '.join(known)} changed since its sums were taken: so the journal is another one, from elsewhere or made "
            f"again with another key or table, or somebody has written into its header."
        ]
    same = f" By the file at_init {', '.join(known)} didn't change since its sums were taken." if known else ""
    return sentences + [what_is_left(house, order, opened) + same]
