"""Exact fractions in place of rounded probabilities, as `exact_chances` takes them."""
from fractions import Fraction
from math import isqrt

import efg
import files

MOST_DENOMINATOR = 100_000
LEAST_DIGITS = 2
NEAR_A_DOUBLE = Fraction(1, 2**52)


class Unmendable(files.Fault):
    """Why a set's probabilities can't be mended."""


def numerators(ranges, values, denominator):
    """For a common denominator, whole numbers within the ranges whose sum is it, nearest to the values; or None."""
    lows, highs = [], []
    for low, high in ranges:
        lows.append(max(-(-low.numerator * denominator // low.denominator), 1 if high else 0))
        highs.append(high.numerator * denominator // high.denominator)
        if lows[-1] > highs[-1]:
            return None
    if not sum(lows) <= denominator <= sum(highs):
        return None
    wanted = [value * denominator for value in values]
    found = [min(max(round(it), low), high) for it, low, high in zip(wanted, lows, highs)]
    while sum(found) != denominator:
        step = 1 if sum(found) < denominator else -1
        free = [k for k in range(len(found)) if lows[k] <= found[k] + step <= highs[k]]
        best = min(free, key=lambda k: abs(found[k] + step - wanted[k]) - abs(found[k] - wanted[k]))
        found[best] += step
    return found


def mended(values, digits):
    """Fractions that add up to 1 in place of these values; `digits` has how many each has after the point, or None."""
    told = [it for it in digits if it is not None]
    if min(values) < 0:
        raise Unmendable("a probability is below 0")
    if not told:
        raise Unmendable(f"none is a decimal, and they add up to {sum(values)}")
    if max(told) < LEAST_DIGITS:
        raise Unmendable(f"they add up to {decimal(sum(values))}, and have too few digits to tell what was meant")
    is_explained = False
    for counts in ([it if it is None else max(told) for it in digits], digits):
        explained = [it for it in (rounded(values, counts), cut_off(values, counts)) if can_be_one(it)]
        is_explained = is_explained or bool(explained)
        for denominator in range(1, MOST_DENOMINATOR + 1) if explained else ():
            for ranges in explained:
                found = numerators(ranges, values, denominator)
                if found:
                    return [Fraction(it, denominator) for it in found]
    if not is_explained:
        raise Unmendable(f"they add up to {decimal(sum(values))}, which no rounding explains")
    raise Unmendable(f"no fractions over {MOST_DENOMINATOR} or less are near enough to them and add up to 1")


def looks_rounded(values, digits):
    """Simpler fractions that add up to 1 where decimals that do so look rounded from them, or None: so simple ones are
    near decimals of so many digits by chance in few cases."""
    told = [it for it in digits if it is not None]
    if not told or max(told) < LEAST_DIGITS or sum(values) != 1 or min(values) < 0:
        return None
    ranges = rounded(values, digits)
    for denominator in range(1, isqrt(10 ** min(max(told), 10) // 4) + 1):
        found = numerators(ranges, values, denominator)
        if found:
            exact = [Fraction(it, denominator) for it in found]
            return exact if exact != list(values) else None
    return None


def unit_of(value, digits):
    """The unit of the last digit, 0 where the value is exact."""
    return Fraction(0) if digits is None or value == 0 else max(Fraction(1, 10**digits), NEAR_A_DOUBLE)


def rounded(values, counts):
    """Where the exact probabilities lie if these were rounded to so many digits."""
    halves = [unit_of(*it) / 2 for it in zip(values, counts)]
    return [(max(value - half, 0), value + half) for value, half in zip(values, halves)]


def cut_off(values, counts):
    return [(value, value + unit_of(value, count)) for value, count in zip(values, counts)]


def can_be_one(ranges):
    return sum(low for low, _ in ranges) <= 1 <= sum(high for _, high in ranges)


def decimal(value):
    return str(value.numerator) if value.denominator == 1 else f"{float(value):.15g}"


def fewest_digits(spellings):
    """The digits after the point of a probability that is written so; None where one is a fraction or whole."""
    counts = [efg.decimals(it) for it in spellings]
    return None if None in counts else min(counts)
