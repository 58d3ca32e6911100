#!/usr/bin/env python3
"""How many lists of draws give which noise, counted apart from the proofs.

A plain sampler reads lists of draws below 4, 8 and 16, all of them, and a walk over the places of the reading counts the same
lists without reading them. Where both agree, the walk counts lists of draws below 2^64 and of more draws, and the laws of
crates/draw_counts are compared with these counts. Each wrong sampler must break the law that is named next to it.
Exit status 1 where anything differs."""
import itertools
import sys
from collections import Counter
from fractions import Fraction

FAULTS = {
    "limit": "a draw more is kept than there are whole rounds",
    "minus_zero": "minus zero is kept",
    "early": "a trial of exp stops a draw early",
    "sign": "the sign is taken from the draw that ended the ones",
}


class Sampler:
    """Noise of scale t/s from draws below `words`, with at most one fault."""

    def __init__(self, words, t, s, fault=None):
        self.words, self.t, self.s, self.fault = words, t, s, fault

    def limit(self, m):
        whole = self.words - self.words % m
        return whole + 1 if self.fault == "limit" and whole < self.words else whole

    def noise(self, draws):
        """The noise that stands in front of these draws, or None where they don't suffice."""
        draws = iter(draws)
        last = [0]

        def uniform(m):
            for draw in draws:
                if draw < self.limit(m):
                    last[0] = draw
                    return draw % m
            raise StopIteration

        def exp(u, t):
            trials = 1
            while uniform(t * trials) < u:
                trials += 1
                if self.fault == "early" and trials == 3:
                    return False
            return trials % 2 == 1

        try:
            while True:
                u = uniform(self.t)
                if not exp(u, self.t):
                    continue
                v = 0
                while exp(1, 1):
                    v += 1
                negative = last[0] % 2 == 0 if self.fault == "sign" else uniform(2) == 0
                size = (u + self.t * v) // self.s
                if negative and size == 0 and self.fault != "minus_zero":
                    continue
                return -size if negative else size
        except StopIteration:
            return None

    def numbers(self, m):
        """How many draws give each number below m, where they are not the same for all (number 0), and how many are rejected."""
        kept = self.limit(m)
        return kept // m, kept % m, self.words - kept

    def counts(self, n):
        """How many lists of n draws give each noise, and under None those that give none, by a walk over places."""
        if self.fault == "sign":
            raise ValueError("the walk has no place for it")
        found, places = Counter(), Counter({("u",): 1})
        for left in range(n - 1, -1, -1):
            after = Counter()
            for place, lists in places.items():
                for place2, draws in self.step(place):
                    if place2[0] == "noise":
                        found[place2[1]] += lists * draws * self.words**left
                    else:
                        after[place2] += lists * draws
            places = after
        found[None] += sum(places.values())
        return Counter({noise: lists for noise, lists in found.items() if lists})

    def step(self, place):
        if place[0] == "u":
            each, more, rejected = self.numbers(self.t)
            steps = [(("start", u, 1), each + (u < more)) for u in range(self.t)]
        elif place[0] == "start":
            _, u, k = place
            steps, rejected = self.trial(u, self.t * k, ("start", u, k + 1), ("ones", u, 0, 1) if k % 2 else ("u",), k, ("u",))
        elif place[0] == "ones":
            _, u, v, k = place
            steps, rejected = self.trial(1, k, ("ones", u, v, k + 1), ("ones", u, v + 1, 1) if k % 2 else ("sign", u, v), k, ("sign", u, v))
        else:
            _, u, v = place
            each, more, rejected = self.numbers(2)
            size = (u + self.t * v) // self.s
            minus = ("u",) if size == 0 and self.fault != "minus_zero" else ("noise", -size)
            steps = [(minus, each + (more > 0)), (("noise", size), each)]
        return [step for step in steps + [(place, rejected)] if step[1]]

    def trial(self, n, d, one, zero, k, early):
        each, more, rejected = self.numbers(d)
        ones = each * n + min(more, n)
        if self.fault == "early" and k == 2:
            one = early
        return [(one, ones), (zero, each * d + more - ones)], rejected


def least_fraction(exponent):
    """A fraction a little above e^exponent: a partial sum of the series, and twice the next term."""
    term, total, n = Fraction(1), Fraction(0), 0
    while n < 2 * exponent + 40:
        total, n = total + term, n + 1
        term = term * exponent / n
    return total + 2 * term


def excess(counts, lists, e, d):
    """The least delta for which no set of answers is likelier by more than e times and delta: over values d apart."""
    worst = Fraction(0)
    for shift in (d, -d):
        more = sum((max(Fraction(0), counts[z] - e * counts[z - shift]) for z in counts if z is not None), Fraction(0))
        worst = max(worst, more / lists)
    return worst


def excess_of_two(counts, e, x, y, own):
    """The same of two answers, for data that give x and y: a first value, and a second one by the first answer. Each answer has its
    own draws, or both have the same."""
    lists = sum(counts.values())

    def answers(first, second):
        found = Counter()
        for z1, c1 in counts.items():
            answer = None if z1 is None else first + z1
            for z2, c2 in counts.items() if own else ((z1, lists),):
                found[answer, None if z2 is None else second(answer) + z2] += c1 * c2
        return found

    of_x, of_y = answers(*x), answers(*y)
    more = sum(max(0, e.denominator * c - e.numerator * of_y[a]) for a, c in of_x.items())
    return Fraction(more, e.denominator * lists**2)


def is_even(counts):
    return all(lists == counts[-z] for z, lists in counts.items() if z is not None)


def main():
    failed = []

    def check(what, holds):
        print("ok  " if holds else "FAIL", what, flush=True)
        if not holds:
            failed.append(what)

    for words, n, m in ((4, 5, 3), (8, 4, 3), (8, 4, 5), (16, 3, 5)):
        for fault in (None, "limit"):
            numbers, sampler = Counter(), Sampler(words, m, 1, fault)
            for draws in itertools.product(range(words), repeat=n):
                kept = [draw for draw in draws if draw < sampler.limit(m)]
                if kept:
                    numbers[kept[0] % m] += 1
            same = len(set(numbers[i] for i in range(m))) == 1
            check(f"draws below {words}: numbers below {m} come equally often: {not fault}" + (f" ({FAULTS[fault]})" if fault else ""), same == (not fault))

    for words, n, t, s in ((4, 8, 1, 1), (4, 8, 2, 1), (8, 5, 1, 1), (8, 5, 3, 2), (16, 4, 3, 1), (16, 4, 1, 2)):
        for fault in (None, "limit", "minus_zero", "early"):
            sampler = Sampler(words, t, s, fault)
            read = Counter(sampler.noise(draws) for draws in itertools.product(range(words), repeat=n))
            check(f"draws below {words}, {n} of them, scale {t}/{s}, {FAULTS.get(fault, 'no fault')}: the walk counts what is read", read == sampler.counts(n))
            if fault is None:
                check("    a noise and its opposite come equally often", is_even(read))
    read = Counter(Sampler(4, 1, 1, "sign").noise(draws) for draws in itertools.product(range(4), repeat=8))
    check(f"    not so where {FAULTS['sign']}", not is_even(read))

    for t, s in ((1, 1), (1, 3), (2, 1), (3, 2), (10, 1)):
        for n in (5, 12, 24):
            counts = Sampler(2**64, t, s).counts(n)
            check(f"scale {t}/{s}, {n} draws below 2^64: all lists are counted", sum(counts.values()) == 2 ** (64 * n))
            check("    those that give none are within the bound", counts[None] * 26**n <= 100 * (25 * 2**64) ** n)

    for s, furthest in ((1, 3), (2, 2), (3, 2)):
        for fault, n in ((None, 160), ("minus_zero", 40), ("early", 40)):
            # a trial that stops early leaves no ones, so no noise but zero
            counts, lists = Sampler(2**64, 1, s, fault).counts(n), 2 ** (64 * n)
            for d in range(1, furthest + 1):
                delta = excess(counts, lists, least_fraction(s * d), d)
                what = f"EPS {s}, values {d} apart, {n} draws, {FAULTS.get(fault, 'no fault')}"
                check(f"{what}: private but for a delta below 2^-16: {not fault}", (delta * 2**16 < 1) == (not fault))
                if not fault:
                    check("    and no delta at all is not enough", delta > 0)
    # the first values are one apart; the second ones are where the first answer was positive
    counts = Sampler(2**64, 1, 1).counts(120)
    x = 0, lambda answer: 7
    y = 1, lambda answer: 8 if answer is not None and answer > 0 else 7
    for own in (True, False):
        delta = excess_of_two(counts, least_fraction(2), x, y, own)
        draws = "draws of its own" if own else "the same draws"
        check(f"two answers of cost 2, each with {draws}: private but for a delta below 2^-16: {own}", (delta * 2**16 < 1) == own)
    print(f"{len(failed)} of the checks failed" if failed else "all as they should be")
    return 1 if failed else 0


if __name__ == "__main__":
    sys.exit(main())
