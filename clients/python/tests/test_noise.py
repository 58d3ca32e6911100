"""Margins beside sums of the exact distribution, and intervals of what is worked out of two answers beside all cases."""
import unittest
from decimal import Decimal, localcontext
from fractions import Fraction
from math import ceil, exp

from common import often
from hitchseason import noise, statistics
from hitchseason.answers import Answer

ES = (1, 37, 1000, 50_000, 333_333, 500_000, 10**6, 2_500_000, 10**7, 10**9)


class OfEps:
    """An ask, of which the EPS alone counts here."""

    def __init__(self, e):
        self.e = e


def law(e, most):
    """The probabilities of a noise from -most to most."""
    q = exp(-e / 10**6)
    return {k: (1 - q) / (1 + q) * q ** abs(k) for k in range(-most, most + 1)}


def joined(one, other):
    found = {}
    for a, p in one.items():
        for b, r in other.items():
            found[a + b] = found.get(a + b, 0) + p * r
    return found


class Margins(unittest.TestCase):
    def test_one_answer(self):
        """The tails are summed up in 120 digits, which margin() doesn't do."""
        for e in ES:
            for level in (*noise.LEVELS, Decimal("0.99999")):
                m = noise.margin(e, level)
                with localcontext() as context:
                    context.prec = 120
                    q = (-Decimal(e) / 10**6).exp()
                    # The mass outside -m to m, as a geometric sum on both sides.
                    outside = [2 * (1 - q) / (1 + q) * q ** (at + 1) / (1 - q) for at in (m, m - 1)]
                    self.assertLessEqual(outside[0], 1 - level, (e, level))
                    self.assertTrue(m == 0 or outside[1] > 1 - level, (e, level))

    def test_readme_table(self):
        levels = (Decimal("0.5"), Decimal("0.95"), Decimal("0.999"))
        for e, margins in ((100_000, [7, 30, 69]), (10**6, [1, 3, 7]), (10**7, [0, 0, 0])):
            self.assertEqual([noise.margin(e, level) for level in levels], margins)

    def test_one_side(self):
        for e in (200_000, 10**6, 3 * 10**6):
            probabilities = law(e, 400)
            for level in noise.LEVELS:
                m = noise.one_sided(e, level)
                self.assertGreaterEqual(sum(p for k, p in probabilities.items() if k <= m), float(level) - 1e-12)
                self.assertTrue(m == 0 or sum(p for k, p in probabilities.items() if k <= m - 1) < float(level))

    def test_each_of(self):
        for count in (1, 2, 3, 16, 250, 4000):
            for level in noise.LEVELS:
                with localcontext() as context:
                    context.prec = 100
                    self.assertGreaterEqual(noise.each_of(count, level) ** count, level)
                    self.assertLess(noise.each_of(count, level) ** count, level + Decimal("1e-30"))

    def test_sums(self):
        for es in ([500_000] * 2, [500_000] * 5, [10**6, 250_000], [2 * 10**6, 10**6, 700_000], [10**9] * 3):
            whole = {0: 1}
            for e in es:
                whole = joined(whole, law(e, 25 + 30 * 10**6 // e))
            for level in noise.LEVELS:
                m = noise.sum_margin(es, level)
                within = [sum(p for k, p in whole.items() if abs(k) <= at) for at in (m, m - 1)]
                self.assertGreaterEqual(within[0], float(level), (es, level))
                self.assertTrue(m == 0 or within[1] < float(level) + 2 * noise.SLACK, (es, level))

    def test_wide_sums(self):
        """Of two alike of a scale of 100,000 the sum's law is nearly (1 + t/2) exp(-t) outside t scales."""
        for level in noise.LEVELS:
            t = noise.sum_margin([10, 10], level) / 10**5
            self.assertAlmostEqual((1 + t / 2) * exp(-t), 1 - float(level), delta=1e-4)

    def test_ratios(self):
        for a, b, most in ((300_000, 500_000, Fraction(7, 2)), (10**6, 10**6, 1), (200_000, 10**7, 10)):
            left, right = law(a, 200), law(b, 80)
            for level in noise.LEVELS:
                w = noise.ratio_margin(a, b, most, level)
                for tenth in range(0, 11):
                    r = most * Fraction(tenth, 10)
                    within = sum(p * sum(left.get(k, 0) for k in range(ceil(r * other - w), int((r * other + w) // 1) + 1)) for other, p in right.items())
                    self.assertGreaterEqual(within, float(level) - 1e-9, (a, b, r, level))


    def test_triples(self):
        for d, a, b, x, y in ((500_000, 10**6, 10**6, 2, Fraction(7, 3)), (300_000, 2 * 10**6, 10**6, Fraction(1, 2), 4)):
            laws = [law(e, 20 * 10**6 // e) for e in (d, a, b)]
            for level in noise.LEVELS:
                w = noise.triple_margin(d, a, b, x, y, level)
                for part, other in ((1, 1), (1, -1), (Fraction(1, 3), Fraction(2, 3)), (0, 1), (Fraction(9, 10), 0)):
                    within = 0
                    for i, p in laws[1].items():
                        for j, r in laws[2].items():
                            t = x * part * i + y * other * j
                            low, high = ceil(t - w), int((t + w) // 1)
                            within += p * r * sum(laws[0].get(k, 0) for k in range(low, high + 1))
                    self.assertGreaterEqual(within, float(level) - 1e-7, (d, a, b, part, other, level))


class Worked(unittest.TestCase):
    """Each pair of noises that is likely enough, with the exact probability that the interval holds the exact value."""

    def test_means(self):
        cases = [(0, 1, 10**6, 2 * 10**6, -5, 5), (31, 10, 10**6, 10**6, -9, 9), (-40, 5, 500_000, 10**6, -8, 8), (2, 2, 10**6, 500_000, 0, 3)]
        for s, n, e_sum, e_count, low, high in cases[: often(1, 4)]:
            held = dict.fromkeys(noise.LEVELS, 0.0)
            for a, p in law(e_sum, 16 * 10**6 // e_sum).items():
                for b, r in law(e_count, 16 * 10**6 // e_count).items():
                    worked = statistics.mean_of(Answer(OfEps(e_sum), 0, s + a, 0), Answer(OfEps(e_count), 1, n + b, 0), low, high, 0)
                    for level in held:
                        least, most = worked.ends(level)
                        held[level] += p * r * (least <= Fraction(s, n) <= most)
            for level, probability in held.items():
                self.assertGreaterEqual(probability, float(level), (s, n, level))

    def test_variances(self):
        rows = [-3, -1, 0, 2, 5, 6]
        half, size = 18, 6
        s, q, n = sum(rows), sum(row * row - half for row in rows), len(rows)
        exact = Fraction(sum(row * row for row in rows), n) - Fraction(s, n) ** 2
        es = often((2 * 10**6, 10**6, 3 * 10**6), (10**6, 10**6, 2 * 10**6))
        held = dict.fromkeys(noise.LEVELS, 0.0)
        laws = [law(e, 9 * 10**6 // e) for e in es]
        for a, p in laws[0].items():
            for b, r in laws[1].items():
                for c, t in laws[2].items():
                    answers = [Answer(OfEps(e), 0, value, 0) for e, value in zip(es, (s + a, q + b, n + c))]
                    worked = statistics.variance_of(answers, half, size)
                    for level in held:
                        least, most = worked.ends(level)
                        held[level] += p * r * t * (least <= exact <= most)
        for level, probability in held.items():
            self.assertGreaterEqual(probability, float(level) - 4e-4, level)


if __name__ == "__main__":
    unittest.main()
