"""The noise of answers, as far as it is known exactly: discrete Laplace, its margins, and those of what is made of several answers.

    margin(E, LEVEL)              the least m for which the noise is off by at most m in LEVEL of all answers
    one_sided(E, LEVEL)           the same, off by at most m to one side
    sum_margin(ES, LEVEL)         the same of the sum of several noises, by the product of their characteristic functions
    ratio_margin(A, B, R, LEVEL)  one by which a - r b is off at most, whatever r up to R in size, for noises a and b
    triple_margin(D, A, B, ..)    the same of d - x a - y b
    each_of(COUNT, LEVEL)         the level that each of so many independent answers needs, so that all hold at LEVEL

An answer at EPS, which is E millionths, has the noise K where P(K = k) is proportional to exp(-|k| EPS). Levels are decimals: 0.95 is 95 of
100. `margin`, `one_sided` and `each_of` are computed to 60 digits, and go up where a border is nearer than 10^-40. The others sum up
probabilities in floating point, and want a level by SLACK greater than is asked for, which is far over their error: so no margin is too small.
Neither knows that a noise which takes over 4,096 draws has no answer, which hardly ever happens and leaves out the greatest noises alone.
"""
from decimal import Decimal, localcontext
from fractions import Fraction
from functools import lru_cache
from math import ceil, exp, expm1, floor, log, pi, sin, sinh, sqrt

LEVELS = (Decimal("0.5"), Decimal("0.95"), Decimal("0.999"))
DIGITS, NEAR = 60, Decimal("1e-40")
MOST, SLACK, FINE, COARSE, NEARLY = Decimal("0.99999"), 2e-7, 0.02, 0.12, 0.005


def level_of(percent):
    """95 of 100 as 0.95."""
    try:
        level = Decimal(str(percent)) / 100
    except ArithmeticError:
        level = Decimal(0)
    if not (level.is_finite() and 0 < level <= MOST):
        raise ValueError(f"a level is over 0 and at most {100 * MOST} of 100, as 95 or 99.9, and not {percent}")
    return level


# One answer: P(K >= m + 1) = q^(m + 1) / (1 + q), q being exp(-EPS).


@lru_cache(maxsize=1024)
def least(e, share, level):
    """The least m >= 0 for which share * q^(m + 1) / (1 + q) is at most 1 - level."""
    with localcontext() as context:
        context.prec = DIGITS
        epsilon = Decimal(e) / 10**6
        steps = (Decimal(share) / ((1 + (-epsilon).exp()) * (1 - level))).ln() / epsilon
        return max(0, ceil(steps + NEAR) - 1)


def margin(e, level):
    return least(e, 2, level)


def one_sided(e, level):
    return least(e, 1, level)


def each_of(count, level):
    """At least the count-th root of a level."""
    with localcontext() as context:
        context.prec = DIGITS
        return min(1 - NEAR, level ** (Decimal(1) / count) + NEAR)


def spread(e):
    """The standard deviation."""
    return sqrt(2 * exp(-e / 10**6)) / -expm1(-e / 10**6)


# Sums. Of independent noises P(|sum| <= m) is the mean over M angles of the product of their transforms times the kernel of -m to m, but for
# what lies M - m and further away, which is under 10^-12 for M of 60 spreads. The transform of one is (1 - q)^2 / (1 + q^2 - 2 q cos(angle)).


def transform(e, half):
    """That of one noise at twice the angle `half`: 1 / (1 + (sin(half) / sinh(EPS / 2))^2)."""
    return 1 / (1 + (sin(half) / sinh(e / 2e6)) ** 2)


def waves(es):
    """M, and for each angle that counts its weight and the half of it. What is left out is at most SLACK / 2 together."""
    count = 2 * floor(30 * sqrt(sum(spread(e) ** 2 for e in es)) + 30) + 1
    found = []
    for k in range(1, (count + 1) // 2):
        half = pi * k / count
        weight = 2 / count / sin(half)
        for e in es:
            weight *= transform(e, half)
        found.append((weight, half))
        # Weights fall: those behind are no greater.
        if weight * (count // 2 - k) < SLACK / 4:
            break
    return count, found


def sum_margin(es, level):
    """The least m, or at most one more, by which the sum of such noises is off at that level."""
    return margin(es[0], level) if len(es) == 1 else margin_of_sum(tuple(sorted(es)), level)


@lru_cache(maxsize=1024)
def margin_of_sum(es, level):
    count, found = waves(es)

    def within(m):
        return (2 * m + 1) / count + sum(weight * sin((2 * m + 1) * half) for weight, half in found)

    return first(lambda m: within(m) >= float(level) + SLACK)


def first(holds, high=1, part=0):
    """The least number from 0 on for which it holds, where it holds from some number on; or one that is at most this part of it greater."""
    low = -1
    while not holds(high):
        low, high = high, 2 * high
    while high - low > max(1, int(part * high)):
        middle = (low + high) // 2
        low, high = (low, middle) if holds(middle) else (middle, high)
    return high


# Noises times numbers that aren't known, but for how great they are at most.


def at_most(e, number):
    """P(K <= number)."""
    q = exp(-e / 10**6)
    return 1 - exp(-e / 10**6 * (number + 1)) / (1 + q) if number >= 0 else exp(e / 10**6 * number) / (1 + q)


def blocks(e, part):
    """The sizes of a noise in ranges, each this part of its distance from 0 wide: the greatest of each and how likely it is. The rarest are left out."""
    most, scale = ceil(log(4 / SLACK) * 10**6 / e), 10**6 / e
    found, below = [(0, 2 * at_most(e, 0) - 1)], 0
    while below < most:
        end = below + max(1, int(part * (below + scale / 2)))
        found.append((end, 2 * (at_most(e, end) - at_most(e, below))))
        below = end
    return found


def rounded_up(number, digits):
    """A fraction from 0 on, up to one of so many binary digits: so that the same margins come again and are kept."""
    number = Fraction(number)
    shift = digits - (number.numerator.bit_length() - number.denominator.bit_length()) if number else 0
    scale = Fraction(2) ** shift
    return Fraction(ceil(number * scale)) / scale


def apart(e, middles, level):
    """1 and nearly the least w for which K is within w of a middle at that level, the middles being whole numbers with how likely they are.

    So K - t is within w + 1 at that level for every t that is never further from 0 than a middle: t is less than 1 from a whole number that isn't
    further, and K is the less likely within w of a number the further that is from 0, since its law falls to both sides alike."""
    shares = {}
    for middle, share in middles:
        shares[middle] = shares.get(middle, 0) + share

    def within(w):
        return sum(share * (at_most(e, middle + w) - at_most(e, middle - w - 1)) for middle, share in shares.items())

    return 1 + first(lambda w: within(w) >= float(level) + SLACK, 1 + 10**6 // e, NEARLY)


def ratio_margin(a, b, most, level):
    """A number w for which |a - r b| <= w at that level, for each r up to `most` in size."""
    return margin_of_ratio(a, b, rounded_up(most, 8), level)


@lru_cache(maxsize=4096)
def margin_of_ratio(a, b, most, level):
    return apart(a, [(ceil(most * size), share) for size, share in blocks(b, FINE)], level)


def triple_margin(d, a, b, most_a, most_b, level):
    """A number w for which |d - x a - y b| <= w at that level, for each x and y up to `most_a` and `most_b` in size."""
    return margin_of_triple(d, a, b, rounded_up(most_a, 6), rounded_up(most_b, 6), level)


@lru_cache(maxsize=4096)
def margin_of_triple(d, a, b, most_a, most_b, level):
    """Of sizes i and j half of the cases have one sign, and x i + y j is their sum's size; in the other half it is at most the greater of both."""
    middles, others = [], [(ceil(most_b * size), share / 2) for size, share in blocks(b, COARSE)]
    for size, share in blocks(a, COARSE):
        x = ceil(most_a * size)
        for y, other in others:
            middles += [(x + y, share * other), (max(x, y), share * other)]
    return apart(d, middles, level)
