"""Numbers as a user writes them, read exactly. Every form is bounded before it is converted, so that none takes long."""

import math
import re
from fractions import Fraction

from lib.cli import Mistake, shown

FIXED_POINT = 65536  # document 01's grains in a unit
LONGEST = 100  # characters of a number
LARGEST_EXPONENT = 999

WHOLE = re.compile(r"[+-]?(0[xX][0-9a-fA-F]+|[0-9]+)")
DECIMAL = re.compile(r"[+-]?([0-9]+\.?[0-9]*|\.[0-9]+)([eE]([+-]?[0-9]+))?")
FRACTION = re.compile(r"([+-]?[0-9]+)/([0-9]+)")


def bounded(field, word):
    if len(word) > LONGEST:
        raise Mistake(f"{field} {shown(word)} has more than {LONGEST} characters")


def whole(field, word):
    """A whole number: decimal digits, or hexadecimal ones after 0x."""
    bounded(field, word)
    if not WHOLE.fullmatch(word):
        raise Mistake(f"{field} {shown(word)} is not a whole number")
    return int(word, 16 if "x" in word.lower() else 10)


def decimal(field, word):
    """A decimal, with an exponent or not, or a fraction such as 1/3."""
    bounded(field, word)
    fraction = FRACTION.fullmatch(word)
    if fraction:
        if int(fraction[2]) == 0:
            raise Mistake(f"{field} {shown(word)} divides by 0")
        return Fraction(int(fraction[1]), int(fraction[2]))
    found = DECIMAL.fullmatch(word)
    if not found:
        raise Mistake(f"{field} {shown(word)} is not a number")
    if found[3] and abs(int(found[3])) > LARGEST_EXPONENT:
        raise Mistake(f"{field} {shown(word)} has an exponent beyond {LARGEST_EXPONENT}")
    return Fraction(word)


def double(field, word):
    """The double nearest to a decimal or a fraction."""
    try:
        return float(decimal(field, word))
    except OverflowError:
        raise Mistake(f"{field} {shown(word)} does not fit a double") from None


def nearest(value):
    """The nearest whole 65,536th, the upper one of two that are as near: R of document 01."""
    return math.floor(value * FIXED_POINT + Fraction(1, 2))


def brief(number):
    """A whole number in a message."""
    digits = str(number)
    return digits if len(digits) <= 40 else f"{digits[:20]}... ({len(digits.lstrip('-'))} digits)"


def readable(value):
    """A number of the user's units: six digits, and no whole unit rounded away."""
    return f"{float(value):.6g}" if abs(value) < 10**6 else f"{float(value):.12g}"


def counted(number, noun):
    return f"{number} {noun}{'' if int(number) == 1 else 's'}"
