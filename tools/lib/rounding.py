"""Bounds as people read them: LOW is rounded down and HIGH up, so that what is shown holds too."""
from decimal import ROUND_CEILING, ROUND_FLOOR, ROUND_HALF_UP, Context, Decimal

DOWN, UP, NEAREST = ROUND_FLOOR, ROUND_CEILING, ROUND_HALF_UP


def to_digits(value, digits, rounding):
    """The number with so many digits that count, on this side of the value."""
    return Context(prec=digits, rounding=rounding).divide(Decimal(value.numerator), Decimal(value.denominator))


def to_places(value, places, rounding):
    """How many units of the last place, so many behind the point, a value has."""
    scaled = value * 10**places
    if rounding == DOWN:
        return scaled.numerator // scaled.denominator
    if rounding == UP:
        return -(-scaled.numerator // scaled.denominator)
    nearest = (2 * abs(scaled.numerator) + scaled.denominator) // (2 * scaled.denominator)
    return -nearest if scaled < 0 else nearest
