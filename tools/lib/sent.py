"""A program of a file as it is sent: rows and columns by name are written out.

    written_of(HOUSE, DATA)      a Written (names.py): of a program without names, as it stands
    bad_name(WHY, DATA)          what is said of a BadName, its place being marked

usage: python3 tools/lib/sent.py CATALOG OWNER FILE [PARTITION]     writes the program in one line
It ends with status 1 where a name is none, and says why. Where the catalog can't be read, or has no such owner, the program stands as it is.
"""
import sys

from catalog import BadCatalog, read
from names import BadName, Written, written
from program_parts import House, Text


def written_of(house, data):
    return written(data, house.owner["tables"])


def bad_name(fault, data):
    return f"{fault}\n{Text(data).marked(*fault.place)}"


def house_of(catalog_name, owner, partition=None):
    """The house of an owner, or of a part; nothing where there is none."""
    try:
        with open(catalog_name, "rb") as file:
            catalog = read(file.read())
    except (OSError, BadCatalog):
        return None
    entry = next((one for one in catalog["owners"] if one["name"] == owner), None)
    of = next((one for one in entry["partitions"] if one["name"] == partition), None) if entry else None
    return House(catalog, entry, of) if entry else None


def sent_of(catalog_name, owner, data, partition=None):
    house = house_of(catalog_name, owner, partition)
    return Written(data) if house is None else written_of(house, data)


def main():
    catalog, owner, name, *partition = sys.argv[1:]
    with open(name, "rb") as file:
        data = file.read()
    try:
        sent = sent_of(catalog, owner, data, *partition).sent
    except BadName as fault:
        print(f"tools/ask: {bad_name(fault, data)}", file=sys.stderr)
        return 1
    sys.stdout.buffer.write(sent.replace(b"\r", b" ").replace(b"\n", b" "))
    return 0


if __name__ == "__main__":
    sys.exit(main())
