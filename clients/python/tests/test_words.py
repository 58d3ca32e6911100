"""Words of calls that are none, how numbers are told, and what importing the package leaves as it was: nothing here is asked."""
import json
import os
import subprocess
import sys
import time
import unittest
from decimal import Decimal
from fractions import Fraction
from math import inf
from pathlib import Path

from common import TOP, published, survey
from hitchseason import BadCall, Failed, connect, noise, statistics, transport
from hitchseason.answers import Answer, Groups, Worked, ends_written, rounded, written
from hitchseason.told import answered

MEAN, MEDIAN = ("mean", "persons", "income", 0, 5000), ("median", "persons", "income", 0, 5000)


class OfEps:
    """What an answer was asked of, as far as it counts here."""

    owner, part, sent = "labour", None, "size persons"

    def __init__(self, e):
        self.e = e


class Words(unittest.TestCase):
    @classmethod
    def setUpClass(cls):
        cls.place = survey(budget=20_000_000, capacity=10)
        cls.client = cls.place.client()

    @classmethod
    def tearDownClass(cls):
        cls.place.__exit__()

    def bad(self, why, name, *words, **more):
        with self.assertRaises(BadCall, msg=(name, words, more)) as caught:
            self.client.forecast(name, *words, **more)
        self.assertIn(why, str(caught.exception), (name, words, more))

    def test_prices(self):
        """Numbers that are none, or far beyond what is allowed, are told so at once."""
        begun = time.monotonic()
        for eps, why in (
            ("1e400", "`1e400` is over 1000"), ("1e999999999", "is over 1000"), ("1e-999999999", "is under 0.000001"), (310 * "9", "is over 1000"),
            (4300 * "9", "is over 1000"), (5000 * "9", "has too many digits"), (10**400, "is over 1000"), (Decimal("1e999999"), "is over 1000"),
            (inf, "is no number"), (Fraction(1, 2), "write 0.5"), (True, "is no number"), ("1/0", "is no number"), ("", "is no number"),
        ):  # fmt: skip
            self.bad(why, "count", "persons", eps=eps)
        for charge in ("1e999999999", "1e-999999999", "nan", "1/0", "x", inf, -1, 0, "0.0000001", 10**13):
            self.bad("a charge is a decimal over 0", "count", "persons", charge=charge)
        self.assertLess(time.monotonic() - begun, 10)
        self.assertEqual(self.client.forecast("count", "persons", charge=Fraction(1, 2)).charge, 500_000)

    def test_shares(self):
        for shares in (["1/0", 2], ["x", 1], (0, 1), (-1, 2), (1, 2, 3), (1,), "1,2", ["1e999999999", "nan"]):
            self.bad("shares are numbers over 0, one for each of the 2 asks", *MEAN, charge=1, shares=shares)
        self.bad("can't be divided in 2", *MEAN, charge=1, shares=["1e999999999", "1"])
        self.bad("one for each of the 3 asks", "variance", "persons", "age", 0, 100, charge=1, shares=(1, 1))
        asks = [self.client.plan(*MEAN, charge=1, shares=shares).asks for shares in (["1", "2"], (1, 2), ["0.5", "1"])]
        self.assertEqual([[ask.charge for ask in each] for each in asks], 3 * [[332_500, 666_666]])

    def test_quantiles(self):
        for share in ("1/0", "x", 0, 1, 1.5, "0.00001", None):
            self.bad("a share is over 0 and under 1", "quantile", "persons", "income", share, 0, 5000, charge=1)
        for steps in (-1, 0, 10**20, 2.0, "3"):
            self.bad("how many steps is a whole number from 1 to 1000", *MEDIAN, charge=1, steps=steps)
        # The margin is that of the step with the greatest noise, in halves of a row.
        most = noise.one_sided(100_000, noise.each_of(2, noise.LEVELS[1]))
        for shares in ((1, 9), (9, 1)):
            note = self.client.forecast(*MEDIAN, charge=1, shares=shares).note
            self.assertIn(f"over {written(Fraction(most, 2))} more or fewer", note)

    def test_variances(self):
        """Where the charge is so small that the unit of squares is nearly the greatest of them."""
        forecast = self.client.forecast("variance", "persons", "age", 0, 6, charge="0.00002")
        self.assertEqual([ask.sensitivity for ask in forecast.asks], [3, 1, 1])

    def test_keys(self):
        for call in (("histogram", "areas"), ("groups", "areas", "size persons")):
            for keys in ([], (), iter(())):
                self.bad("one key at least", *call, eps=1, keys=keys)
        for percent in ("nan", "inf", "1e9999999", "-1", 0, 100, "x"):
            self.bad("a level is over 0", "top", "areas", 2, eps=1, percent=percent)

    def test_places(self):
        self.assertIsNone(connect(self.place.folder, owner="labour").analyst)
        self.assertEqual(connect(Path(self.place.folder), "mia", "labour").view.name, "labour")
        public = published(self.place)
        for port in ("0", "65536", "70000", "9" * 5000):
            with self.assertRaises(Failed) as caught:
                connect(f"127.0.0.1:{port}", "mia", "labour", public=public)
            self.assertIn("a port is from 1 to 65535", str(caught.exception))
        with self.assertRaises(Failed) as caught:
            connect("127.0.0.1", 70_000, "mia", "labour", public=public)
        self.assertIn("a port is from 1 to 65535", str(caught.exception))

    def test_public(self):
        """A file that tools/public --json didn't write."""
        name = f"{self.place.folder}/other"
        for data in (b"", b"[1", b"[]", b"7", b"\xff", b'{"analysts": ["mia"]}', b'{"analysts": ["mia"], "owners": []}',
                     b'{"analysts": ["mia"], "owners": [{"name": "labour"}]}', b'{"analysts": 7, "owners": [7]}'):  # fmt: skip
            Path(name).write_bytes(data)
            for place in (self.place.folder, "127.0.0.1:7000"):
                with self.assertRaises(Failed) as caught:
                    connect(place, "mia", "labour", public=name)
                self.assertEqual(str(caught.exception), f"{name} isn't what tools/public --json writes")

    def test_long_script(self):
        """Asks that no script has room for are told before a run."""
        limit, transport.SCRIPT_LIMIT = transport.SCRIPT_LIMIT, 4000
        self.addCleanup(setattr, transport, "SCRIPT_LIMIT", limit)
        with self.assertRaises(Failed) as caught:
            self.client.groups("areas", f"size persons + 0 *{1000 * ' '}1", eps=1)
        self.assertIn("a run takes a script of at most 4000 bytes, and these asks have 5", str(caught.exception))
        self.assertIsNone(self.client.pending)


class Numbers(unittest.TestCase):
    def test_written(self):
        for number, said, ends in (
            (7, "7", "7 to 7"), (7.0, "7", "7 to 7"), (0.5, "0.5", "0.5 to 0.5"), (Fraction(2, 3), "0.666667", "0.666666 to 0.666667"),
            (Fraction(-2, 3), "-0.666667", "-0.666667 to -0.666666"), (1234.5678, "1234.57", "1234.56 to 1234.57"),
            (Fraction(100_001_234, 10), "10000123.4", "10000123.4 to 10000123.4"), (99_999.999, "100000", "99999.99 to 100000"),
            (123_456.789, "123456.79", "123456.78 to 123456.79"), (2.0**50 + 0.25, "1125899906842624.25", "1125899906842624.25 to 1125899906842624.25"),
            (inf, "inf", "inf to inf"), (-inf, "-inf", "-inf to -inf"), (float("nan"), "nan", "nan to nan"),
        ):  # fmt: skip
            self.assertEqual((written(number), ends_written(number, number)), (said, ends))
        self.assertEqual([rounded(number) for number in (3, 2.5, Fraction(1, 3))], [3, 2.5, 0.333333])

    def test_intervals(self):
        """A mean of numbers over a million, told with places behind the point; ends that are no float are moved outwards, and others stay."""
        answers = Answer(OfEps(1000), 0, -376_300, 0), Answer(OfEps(500_000), 1, 1001, 0)
        mean = statistics.mean_of(*answers, 10_000_000, 10_001_000, 10_000_500)
        self.assertRegex(str(mean), r"^10000124\.08 \(95 of 100: 1000012\d\.\d\d to 1000012\d\.\d\d\); ")
        self.assertIn("99.9 of 100: 1000011", answered(mean, None))
        worked = Worked(1, [], lambda level: (Fraction(1, 3), Fraction(3, 2)))
        low, high = worked.interval(95)
        self.assertTrue(Fraction(low) < Fraction(1, 3) and high == 1.5)
        for percent in ("nan", float("nan"), "1e9999999", "sNaN", inf):
            with self.assertRaises(ValueError):
                worked.interval(percent)

    def test_totals(self):
        groups = Groups("areas", {key: Answer(OfEps(500_000), number, 100, 0) for number, key in enumerate(("north", "south"))})
        self.assertEqual([groups.total(keys).value for keys in (None, ["north"], "north", iter(["south", "north"]))], [200, 100, 100, 200])
        for keys, why in ((["north", "north"], "named once"), ([], "one answer at least")):
            with self.assertRaises(ValueError) as caught:
                groups.total(keys)
            self.assertIn(why, str(caught.exception))
        self.assertEqual(groups.svg(percent=95), groups.svg(percent="95"))


class Imports(unittest.TestCase):
    """Who imports the package may have modules by the names of tools, before it or behind it, and finds them by sys.path as it was."""

    SCRIPT = """
import sys
{before}
path = list(sys.path)
from hitchseason import connect
import journal, tables
print(tables.own, journal.own, sys.path == path, "programs" in sys.modules)
"""

    def test_names(self):
        with survey(capacity=10) as place:
            for name in ("journal", "tables", "lines"):
                Path(f"{place.folder}/{name}.py").write_text(f"own = {name[0]!r}\n")
            environment = {**os.environ, "PYTHONPATH": f"{TOP}/clients/python", "PYTHONDONTWRITEBYTECODE": "1"}
            for before in ("", "import tables, lines, journal"):
                Path(f"{place.folder}/own.py").write_text(self.SCRIPT.format(before=before))
                ran = subprocess.run([sys.executable, "own.py"], cwd=place.folder, env=environment, capture_output=True, text=True)
                self.assertEqual((ran.stdout, ran.stderr), ("t j True False\n", ""))


if __name__ == "__main__":
    unittest.main()
