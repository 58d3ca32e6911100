"""Answers of the real program on the survey: each interval holds the exact value as often as it says.

The asks of many tries stand in one script, and the searches of many quantiles go on step by step together.
"""
import re
import unittest
from fractions import Fraction
from xml.etree import ElementTree

from common import enough, often, persons, survey
from hitchseason import Refused, noise, statistics

PERCENTS = (50, 95, 99.9)


def held_by(worked, exact, percent):
    low, high = worked.interval(percent)
    return low <= exact <= high


class Statistics(unittest.TestCase):
    @classmethod
    def setUpClass(cls):
        cls.place, cls.rows = survey(capacity=often(2**14, 2**18)), persons()
        cls.client = cls.place.client()

    @classmethod
    def tearDownClass(cls):
        cls.place.__exit__()

    def tries(self, plan, number):
        """What so many tries of a plan say, asked in one script."""
        answers = self.client.send(plan.asks * number)
        size = len(plan.asks)
        return [plan.made(answers[at : at + size]) for at in range(0, len(answers), size)]

    def judge(self, what, found, exact):
        hits = {percent: sum(held_by(worked, exact, percent) for worked in found) for percent in PERCENTS}
        print(f"    {what}: of {len(found)} " + ", ".join(f"{count} at {percent} of 100" for percent, count in hits.items()))
        for percent, count in hits.items():
            self.assertTrue(enough(count, len(found), percent / 100), f"{what}: at {percent} of 100 {count} of {len(found)}")

    def test_answers(self):
        """As often as the exact probability, neither less nor more."""
        for eps in ("0.05", "0.5", "1", "2"):
            plan = self.client.plan("count", "persons", eps=eps)
            found = self.tries(plan, often(300, 5000))
            self.judge(f"count at EPS {eps}", found, 1000)
            e = plan.asks[0].e
            for percent in PERCENTS:
                margin = noise.margin(e, noise.level_of(percent))
                within = 2 * noise.at_most(e, margin) - 1
                hits = sum(held_by(one, 1000, percent) for one in found)
                spread = 4 * (len(found) * within * (1 - within)) ** 0.5
                self.assertLessEqual(hits, len(found) * within + spread + 1, (eps, percent))

    def test_counts_and_sums(self):
        employed = [row for row in self.rows if row["work"] == "employed"]
        young = [row for row in employed if row["age"] <= 30 and row["region"] != "capital"]
        where = ['p.work == "employed"', "p.age <= 30", 'if p.region == "capital" then false else true']
        self.judge("count of three columns", self.tries(self.client.plan("count", "persons", where, charge=1), often(60, 1000)), len(young))
        exact = sum(min(5000, row["income"]) for row in employed)
        self.judge("sum", self.tries(self.client.plan("sum", "persons", "income", 0, 5000, where[0], charge=1), often(60, 1000)), exact)

    def test_means(self):
        for column, low, high, number in (("income", 0, 5000, often(30, 1000)), ("age", 15, 65, often(20, 500))):
            clipped = [min(max(row[column], low), high) for row in self.rows]
            found = self.tries(self.client.plan("mean", "persons", column, low, high, charge=1), number)
            self.judge(f"mean of {column}", found, Fraction(sum(clipped), len(clipped)))

    def test_means_of_few(self):
        """Of a handful of rows, where the count's noise is as large as the count."""
        few = [row["age"] for row in self.rows if row["income"] >= 4000 and row["region"] == "north"]
        plan = self.client.plan("mean", "persons", "age", 0, 100, ["4000 <= p.income", 'p.region == "north"'], charge="0.2")
        self.judge(f"mean of {len(few)} rows", self.tries(plan, often(30, 500)), Fraction(sum(few), len(few)))

    def test_variances(self):
        for column, low, high in (("age", 0, 100), ("age", 17, 60), ("income", 0, 5000)):
            clipped = [min(max(row[column], low), high) for row in self.rows]
            n = len(clipped)
            exact = Fraction(sum(value * value for value in clipped), n) - Fraction(sum(clipped), n) ** 2
            self.judge(f"variance of {column}", self.tries(self.client.plan("variance", "persons", column, low, high, charge=1), often(30, 500)), exact)

    def test_quantiles(self):
        for share, column, low, high in (("0.5", "income", 0, 5000), ("0.9", "income", 0, 5000), ("0.25", "age", 0, 100)):
            ordered = sorted(min(max(row[column], low), high) for row in self.rows)
            exact = next(value for place, value in enumerate(ordered, 1) if place >= Fraction(share) * len(ordered))
            self.judge(f"quantile {share} of {column}", self.searches(share, column, low, high, often(30, 500)), exact)

    def searches(self, share, column, low, high, number):
        plan = self.client.plan("quantile", "persons", column, share, low, high, charge=1)
        found = [statistics.Found(low, high, [ask.e for ask in plan.asks]) for _ in range(number)]
        for step in range(len(plan.asks)):
            open_ones = [(one, one.next_bound()) for one in found]
            open_ones = [(one, bound) for one, bound in open_ones if bound is not None]
            answers = self.client.send([plan.ask(step, bound) for _, bound in open_ones]) if open_ones else []
            for (one, bound), answer in zip(open_ones, answers):
                one.add(bound, answer)
        return [one.worked() for one in found]

    def test_one_search(self):
        """As it is asked by itself: the charge is what was forecast."""
        median = self.client.median("persons", "income", 0, 5000, charge=100, steps=14)
        self.assertEqual(median.value, sorted(row["income"] for row in self.rows)[499])
        self.assertEqual(median.interval(95), (median.value, median.value))
        self.assertLessEqual(median.taken, self.client.forecast("median", "persons", "income", 0, 5000, charge=100, steps=14).charge)

    def test_parts(self):
        exact = {key: sum(row["region"] == key for row in self.rows) for key in ("north", "south", "east", "west", "capital")}
        found = self.tries(self.client.plan("histogram", "areas", eps="0.5"), often(30, 1000))
        for key in exact:
            self.judge(f"histogram, {key}", [groups[key] for groups in found], exact[key])
        self.judge("its total", [groups.total() for groups in found], 1000)
        self.judge("total of two", [groups.total(["north", "west"]) for groups in found], exact["north"] + exact["west"])
        together = sum(all(low <= exact[key] <= high for key, (low, high) in groups.together(95).items()) for groups in found)
        self.assertTrue(enough(together, len(found), 0.95))
        best = sorted(exact, key=lambda key: -exact[key])[:2]
        wrong = sum(any(sure and key not in best for key, _, sure in groups.top(2)) for groups in found)
        self.assertTrue(enough(len(found) - wrong, len(found), 0.95))

    def test_statistics_of_each(self):
        """Means and sums of each key; of a mean of charge 1 each key is charged half for the sum and half for the count, and the first key's is taken alone."""
        rows = {key: [row for row in self.rows if row["region"] == key] for key in ("north", "south", "east", "west", "capital")}
        incomes = {key: [min(5000, row["income"]) for row in found] for key, found in rows.items()}
        plan = self.client.plan("groups", "areas", "mean", "income", 0, 5000, charge=1)
        self.assertEqual([ask.part[1] for ask in plan.asks], [key for key in rows for _ in range(2)])
        found = self.tries(plan, often(30, 500))
        for key, mine in incomes.items():
            self.judge(f"mean of {key}", [groups[key] for groups in found], Fraction(sum(mine), len(mine)))
        exact = {key: Fraction(sum(mine), len(mine)) for key, mine in incomes.items()}
        together = sum(all(low <= exact[key] <= high for key, (low, high) in groups.together(95).items()) for groups in found)
        self.assertTrue(enough(together, len(found), 0.95))
        forecast = self.client.forecast("groups", "areas", "mean", "income", 0, 5000, charge=1)
        self.assertEqual((forecast.charge, len(forecast.asks), [count for _, count in forecast.kinds()]), (10**6, 10, [5, 5]))
        one = self.client.groups("areas", "mean", "income", 0, 5000, 'p.work == "employed"', charge=1)
        self.assertEqual((one.taken, [answer.taken for _, answer in one.items()]), (10**6, [10**6, 0, 0, 0, 0]))
        self.assertEqual(one.numbers, list(range(one.numbers[0], one.numbers[0] + 10)))
        self.assertEqual(list(one.as_dict()["groups"]["east"]["numbers"]), one["east"].numbers)
        with self.assertRaises(ValueError):
            one.total()
        sums = self.tries(self.client.plan("groups", "areas", "sum", "income", 0, 5000, eps="0.0005", keys=["east", "west"]), often(30, 500))
        self.judge("total of sums", [groups.total() for groups in sums], sum(incomes["east"] + incomes["west"]))
        self.assertEqual(len(self.client.groups("areas", "count", where="p.age <= 30", eps=1, keys="north")), 1)
        spread = self.client.groups("areas", "variance", "age", 0, 100, charge=4, keys=["south"])["south"]
        self.assertEqual(len(spread.numbers), 3)

    def test_medians_of_each(self):
        """At a charge of 100 each is exact, and where there is no room any more, what was answered is told."""
        found = self.client.groups("areas", "median", "age", 0, 63, charge=100)
        for key, known in found.items():
            ages = sorted(row["age"] for row in self.rows if row["region"] == key)
            self.assertEqual(known.value, ages[(len(ages) - 1) // 2])
        with survey(capacity=20) as place, self.assertRaises(Refused) as caught:
            place.client().groups("areas", "median", "income", 0, 5000, charge=1)
        # Ten answers have room: eight steps of the first key, or fewer, and some of the next ones.
        self.assertEqual([answer.number for answer in caught.exception.answers], list(range(10)))

    def test_picture_of_each(self):
        """Bars of means have the digits that count."""
        drawn = ElementTree.fromstring(self.client.groups("areas", "mean", "income", 0, 5000, charge=1).svg())
        svg = "{http://www.w3.org/2000/svg}"
        self.assertEqual(len(drawn.findall(f"{svg}rect")), 1 + 5)
        told = [found.text for found in drawn.iter(f"{svg}title")][1:]
        self.assertTrue(all(re.fullmatch(r"[a-z]+: [0-9.]{1,7} \([0-9.]{1,7} to [0-9.]{1,7}\)", one) for one in told), told)

    def test_of_a_part(self):
        north = [row["age"] for row in self.rows if row["region"] == "north"]
        plan = self.client.plan("mean", "persons", "age", 0, 100, charge=1, part=("areas", "north"))
        self.judge("mean of a part", self.tries(plan, often(30, 500)), Fraction(sum(north), len(north)))


if __name__ == "__main__":
    unittest.main()
