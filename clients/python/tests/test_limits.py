"""An analyst's limit: what mine() tells, what is refused beyond it, and what is forecast. The second server answers, over no journal."""
import sys
import unittest

from common import TOP

sys.path.insert(0, f"{TOP}/tools/lib")
from catalog import catalog, owner, read  # noqa: E402
from hitchseason import OverShare, Refused  # noqa: E402
from hitchseason.client import Client  # noqa: E402
from reference import House, Server, key_words  # noqa: E402


class Reference:
    """A transport to the second server."""

    def __init__(self, **words):
        self.house = House(read(catalog(owner(**words))), [{"people": [20, 30, 40]}])
        self.server, self.asked = Server(self.house, key_words(bytes(32))), []

    def replies(self, lines):
        self.asked += lines
        self.server.who = None
        return [self.server.reply(line.encode()) for line in lines]

    def client(self, analyst="ann"):
        return Client(self, self.house.catalog, analyst, "census")


class Old(Reference):
    """A service that doesn't know the line."""

    def replies(self, lines):
        return ["no 10 0" if line.startswith("mine") else reply for line, reply in zip(lines, super().replies(lines))]


class Limits(unittest.TestCase):
    def test_mine(self):
        place = Reference(limits={"ann": 10**6})
        ann, bob = place.client(), place.client("bob")
        ann.ask("size people", eps=0.6)
        self.assertEqual(ann.mine().as_dict(), {"owner": "census", "spent": 600_000, "limit": 10**6, "left": 400_000, "records": 2})
        self.assertEqual((bob.mine().spent, bob.mine().limit, bob.mine().left), (0, None, None))
        self.assertEqual(str(ann.mine()), "census: 0.6 spent by the analyst, 0.4 left of a limit of 1; 2 records")

    def test_over_share(self):
        ann = Reference(limits={"ann": 10**6}).client()
        ann.ask("size people", eps=0.6)
        with self.assertRaises(OverShare) as caught:
            ann.ask("size people", eps=0.5)
        fault = caught.exception
        self.assertEqual((fault.spent, fault.limit, fault.reply), (600_000, 10**6, "no 43 600000 1100000 1000000 2"))
        self.assertIn("an EPS of 0.4 is the greatest that fits now", str(fault))
        ann.ask("size people", eps=0.4)

    def test_budget_first(self):
        ann = Reference(limits={"ann": 10**6}, budget=10**6).client()
        with self.assertRaises(Refused) as caught:
            ann.ask("size people", eps=2)
        self.assertNotIsInstance(caught.exception, OverShare)

    def test_asks_that_go_together(self):
        """None of them is asked where the limit hasn't room for all, and a mean is asked where it has."""
        place = Reference(limits={"ann": 10**6, "bob": 3 * 10**6})
        with self.assertRaises(Refused) as caught:
            place.client().mean("people", "age", 0, 100, charge=2)
        self.assertIn("1 is left of the analyst's limit: none of them was asked", str(caught.exception))
        self.assertFalse(any(line.startswith("ask") for line in place.asked))
        place.client("bob").mean("people", "age", 0, 100, charge=2)

    def test_forecast(self):
        """The lesser rest counts, once it is known."""
        ann = Reference(limits={"ann": 10**6}).client()
        self.assertFalse(ann.forecast("count", "people", eps=2).too_much())
        ann.left(), ann.mine()
        self.assertEqual(ann.forecast("count", "people", eps=2).too_much(), ["But 1 is left: it is refused."])
        self.assertFalse(ann.forecast("count", "people", eps=1).too_much())

    def test_old_service(self):
        with self.assertRaises(Refused):
            Old().client().mine()
        Old().client().mean("people", "age", 0, 100, charge=2)


if __name__ == "__main__":
    unittest.main()
