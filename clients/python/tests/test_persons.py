"""Epsilon for a person: next to each price, by how many rows a person may have, as tools/public says it by the specs of an owner's tables."""
import json
import subprocess
import sys
import unittest

from common import PROGRAM, TOP, Place
from hitchseason import connect

CATALOG = {
    "analysts": ["ann"],
    "owners": [
        {
            "name": "clinic", "budget": 10_000_000, "capacity": 1000,
            "tables": [
                {"name": "stays", "file": "stays.csv", "columns": [{"name": "town", "type": "text"}, {"name": "days", "type": "num"}]},
                {"name": "persons", "file": "persons.csv", "columns": [{"name": "stays_of_it", "type": "num"}]},
            ],
            "partitions": [{"name": "towns", "table": "stays", "column": "town", "keys": ["Köln", "Bonn"]}],
        }
    ],
}  # fmt: skip
TABLES = {"stays.csv": [["town", "days"], ["Köln", 3], ["Bonn", 4], ["Bonn", 1]], "persons.csv": [["stays_of_it"], [1], [2]]}
WHO = {"from": "Person", "name": "who", "kind": "text"}
STAYS = {
    "person": {"column": "who", "rows": 3}, "table": {"name": "stays", "file": "stays.csv"},
    "columns": [WHO, {"from": "Ort", "name": "town", "kind": "key"}, {"from": "Tage", "name": "days", "kind": "number", "if_missing": "row out"}],
}  # fmt: skip
PERSONS = {
    "person": {"column": "who"}, "table": {"name": "persons", "file": "persons.csv", "per": "person"},
    "columns": [WHO, {"name": "stays_of_it", "kind": "count", "top": 9}],
}  # fmt: skip
REST = {
    "raw": {"encoding": "utf-8", "delimiter": ","},
    "catalog": {"file": "catalog.json", "analysts": ["ann"], "owner": "clinic", "budget": 10_000_000, "capacity": 1000},
}


def public_of(place, *specs):
    """What tools/public --json prints by these specs, in a file."""
    names = [f"{number}.spec" for number, _ in enumerate(specs)]
    for name, spec in zip(names, specs):
        with open(f"{place.folder}/{name}", "w") as file:
            json.dump({**spec, **REST}, file)
    with open(f"{place.folder}/public.json", "wb") as file:
        subprocess.run([f"{TOP}/tools/public", "--json", "catalog.json", *names], cwd=place.folder, check=True, stdout=file)
    return f"{place.folder}/public.json"


class Persons(unittest.TestCase):
    """Three rows of stays, and one row of a person, which counts as two: five in all."""

    def setUp(self):
        self.place = Place(CATALOG, TABLES)
        self.public = public_of(self.place, STAYS, PERSONS)

    def tearDown(self):
        self.place.__exit__()

    def client(self):
        return connect(self.place.folder, "ann", program=PROGRAM, public=self.public)

    def test_forecasts(self):
        said = self.client().forecast("sum", "stays", "days", 0, 30, eps="0.01")
        self.assertEqual(said.person, 5)
        lines = str(said).splitlines()
        self.assertEqual(lines[:2], ["charge: 0.3 (1 ask)", "epsilon for a person, who has at most 5 rows: 1.5"])
        self.assertTrue(lines[2].startswith("EPS 0.01, sensitivity 30, charge 0.3 (1.5 for a person): "), lines[2])
        told = said.as_dict()
        self.assertEqual((told["charge"], told["person_rows"], told["person_charge"]), (300_000, 5, 1_500_000))
        parts = str(self.client().forecast("histogram", "towns", eps=0.2)).splitlines()
        self.assertEqual(parts[:2], ["charge: at most 0.2 (2 asks)", "epsilon for a person, who has at most 5 rows: at most 1"])

    def test_answers(self):
        client = self.client()
        self.assertIn("; number 0, 0.5 taken (2.5 for a person), 9.5 left", str(client.count("stays", eps=0.5)))
        self.assertIn("; numbers 1 2, 1 taken (5 for a person), 8.5 left", str(client.mean("stays", "days", 0, 20, charge=1)))
        self.assertIn("number 3, 0.5 taken (2.5 for a person), 8 left", str(client.histogram("towns", eps=0.5)))
        left = client.left()
        said = "clinic: 8 left of 10, 2 spent; 10 records; epsilon for a person, who has at most 5 rows: 10 spent of 50"
        self.assertEqual(str(left), said)
        self.assertEqual((left.as_dict()["person_rows"], left.as_dict()["person_spent"]), (5, 10_000_000))

    def test_prompt_and_commands(self):
        lines = "\\b\n\\d\n\\d stays\n\\d persons\n\\e 0.5\n\\f size stays\nsize stays;\n".encode()
        ran = subprocess.run([f"{TOP}/tools/shell", self.place.folder, "ann", "--program", PROGRAM, "--public", self.public], input=lines, capture_output=True)
        said = ran.stdout.decode()
        self.assertEqual((ran.returncode, ran.stderr), (0, b""), said)
        for words in (
            "epsilon for a person, who has at most 5 rows: 0 spent of 50\n",
            "a person has at most 5 rows in all tables together: epsilon for a person is what is taken, times 5\n",
            "at most 3 rows a person\na row is left out where days is missing\n", "one row a person; where it changes, that counts as two\n",
            "charge: 0.5 (1 ask)\nepsilon for a person, who has at most 5 rows: 2.5\n", "number 0, 0.5 taken (2.5 for a person), 9.5 left",
        ):  # fmt: skip
            self.assertIn(words, said)
        with open(f"{self.place.folder}/query", "w") as file:
            file.write("size stays")
        query = ["ann", "clinic", "towns", "0.5", f"{self.place.folder}/query"]
        for tool, more, words in (("left", ["clinic"], "2.5 spent of 50"), ("askparts", query, "taken 0.5 (2.5 for a person)")):
            command = [f"{TOP}/tools/{tool}", self.place.folder, *more, "--program", PROGRAM, "--public", self.public]
            ran = subprocess.run(command, capture_output=True, text=True)
            self.assertIn(words, ran.stdout, ran.stderr)

    def test_not_known(self):
        """Where of one table nothing is said, nothing is said of persons."""
        for specs in ((), (STAYS,), (PERSONS,)):
            self.public = public_of(self.place, *specs)
            client = self.client()
            self.assertIsNone(client.view.person)
            self.assertNotIn("person", f"{client.left()} {client.forecast('count', 'stays', eps=0.5)}")
        self.assertNotIn("person_rows", client.left().as_dict())

    def test_one_row(self):
        """A row each, as the owner says, and tables without persons."""
        for rows, said in ((1, "who has at most 1 row: 0.5"), (0, "who has at most 0 rows: 0")):
            other = {"person": {"rows": 0}, "table": {"name": "persons", "file": "p"}, "columns": STAYS["columns"]}
            self.public = public_of(self.place, {**STAYS, "person": {"rows": rows}}, other)
            self.assertIn(said, str(self.client().forecast("count", "stays", eps=0.5)))


if __name__ == "__main__":
    sys.exit(unittest.main())
