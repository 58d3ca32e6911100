"""What the tests share: folders with journals, the program, and how often something must hold.

LONG=1 in the environment tries more of everything. Keys and seeds are fixed: a test comes out alike each time.
"""
import csv
import hashlib
import json
import os
import socket
import subprocess
import sys
import tempfile
import threading
from math import sqrt

TOP = os.path.dirname(os.path.dirname(os.path.dirname(os.path.dirname(os.path.abspath(__file__)))))
sys.path.insert(0, f"{TOP}/clients/python")
PROGRAM = os.path.abspath(os.environ.get("PROGRAM", f"{TOP}/out/hitchseason"))
LONG = os.environ.get("LONG") == "1"
SURVEY = f"{TOP}/examples/survey"
BUDGET, CAPACITY = 10**15, 2**18
# What prompts keep of their answers, which is nobody's own here.
KEPT = tempfile.TemporaryDirectory()
os.environ["HITCHSEASON_ANSWERS"] = f"{KEPT.name}/answers"


def often(short, long):
    return long if LONG else short


class Between:
    """Takes connections at a port, which is its own unless said, and has `serve` serve each with what `taken` says of it, in a thread of its own."""

    def __init__(self, to, port=0):
        self.to, self.door = to, socket.create_server(("127.0.0.1", port))
        self.port = self.door.getsockname()[1]
        threading.Thread(target=self.run, daemon=True).start()

    def run(self):
        while True:
            try:
                link, _ = self.door.accept()
            except OSError:
                return
            threading.Thread(target=self.serve, args=(link, *self.taken()), daemon=True).start()

    def close(self):
        self.door.close()


class Place:
    """A folder with a catalog, tables, a key and journals, which goes when it is left."""

    def __init__(self, catalog, tables, key="a key of the tests"):
        # In memory, where the machine has such a folder: a journal is synced for each answer.
        self.room = tempfile.TemporaryDirectory(dir="/dev/shm" if os.access("/dev/shm", os.W_OK) else None)
        self.folder = self.room.name
        with open(f"{self.folder}/catalog.json", "w") as file:
            json.dump(catalog, file)
        with open(f"{self.folder}/key", "wb") as file:
            file.write(hashlib.sha256(key.encode()).digest())
        for name, rows in tables.items():
            with open(f"{self.folder}/{name}", "w", newline="") as file:
                csv.writer(file, lineterminator="\n").writerows(rows)
        subprocess.run([PROGRAM, "init", "catalog.json", "key"], cwd=self.folder, check=True, stdout=subprocess.DEVNULL)

    def __enter__(self):
        return self

    def __exit__(self, *_):
        self.room.cleanup()

    def client(self, analyst="mia", owner="labour", program=PROGRAM):
        from hitchseason import connect

        return connect(self.folder, analyst, owner, program=program)

    def wrapped(self, text):
        """A program of these lines, in which REAL is the real one."""
        name = f"{self.folder}/wrapped"
        with open(name, "w") as file:
            file.write("#!/bin/sh\n" + text.replace("REAL", PROGRAM))
        os.chmod(name, 0o755)
        return name


def survey(budget=BUDGET, capacity=CAPACITY, key="a key of the tests"):
    """The survey with another budget."""
    with open(f"{SURVEY}/catalog.json") as file:
        catalog = json.load(file)
    for owner in catalog["owners"]:
        owner["budget"], owner["capacity"] = budget, capacity
        for table in owner["tables"]:
            table["file"] = os.path.basename(table["file"])
    return Place(catalog, {name: rows_of(f"{SURVEY}/{name}") for name in ("persons.csv", "stays.csv")}, key)


def published(place):
    """The name of a file in a place's folder that tools/public wrote of its catalog."""
    name = f"{place.folder}/public.json"
    with open(name, "wb") as file:
        subprocess.run([f"{TOP}/tools/public", "--json", "catalog.json"], cwd=place.folder, check=True, stdout=file)
    return name


def rows_of(name):
    with open(name, newline="") as file:
        return list(csv.reader(file))


def persons():
    with open(f"{SURVEY}/persons.csv") as file:
        return [{**row, "age": int(row["age"]), "income": int(row["income"])} for row in csv.DictReader(file)]


def enough(hits, tries, level):
    """Whether something held as often as is said, but for what happens in less than 1 of 30,000 tests."""
    return hits >= tries * level - 4 * sqrt(tries * level * (1 - level))


def register():
    """The register, with its partition by a joint column."""
    with open(f"{TOP}/examples/register/catalog.json") as file:
        return Place(json.load(file), {"people.csv": rows_of(f"{TOP}/examples/register/people.csv")})
