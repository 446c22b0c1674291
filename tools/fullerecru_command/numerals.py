"""Numbers in texts, exactly: decimals to whole numbers of a base unit, and back."""
import re
from fractions import Fraction

DECIMAL = r"[+-]?\d+(?:\.\d+)?"
THOUSAND = 1000


class Unfit(Exception):
    """Why a numeral serves for no whole number."""


def whole(numeral, size, base):
    """How many of the base unit, if it has one, a numeral is, its own unit being so many of them."""
    if not re.fullmatch(DECIMAL, numeral, re.ASCII):
        raise Unfit(f"{numeral!r} is no number such as 12, -0.5 or 3.25")
    exact = Fraction(numeral) * size
    if exact.denominator != 1:
        if base is None:
            raise Unfit(f"{numeral} is not a whole number")
        raise Unfit(f"{numeral} is not a whole number of {base}: it would be {float(exact):.9g}")
    return exact.numerator


def thousandths(number):
    """A whole number of thousandths as a decimal, with no more decimals than it needs."""
    units, rest = divmod(abs(number), THOUSAND)
    decimals = f".{rest:03d}".rstrip("0") if rest else ""
    return f"{'-' if number < 0 else ''}{units}{decimals}"
