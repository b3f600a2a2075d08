"""Narrow fractions: operations that raise Wide, numerals, and how a number is printed."""
import re
from fractions import Fraction
from math import gcd

MOST = 2 ** 127 - 1
NUMERAL = re.compile(r'([+-]?)(?:(\d+)(?:\.(\d*))?|\.(\d+))(?:[eE]([+-]?\d+))?(%?)\Z', re.ASCII)
HALF = Fraction(1, 2)


class Wide(Exception):
    """A number that isn't narrow was met."""


def is_narrow(value):
    return -MOST <= value.numerator <= MOST and value.denominator <= MOST


def narrow(value):
    if not is_narrow(value):
        raise Wide
    return value


def add(x, y):
    divisor = gcd(x.denominator, y.denominator)
    left = x.numerator * (y.denominator // divisor)
    right = y.numerator * (x.denominator // divisor)
    if max(abs(left), abs(right), abs(left + right)) > MOST:
        raise Wide
    return narrow(x + y)


def subtract(x, y):
    return add(x, -y)


def multiply(x, y):
    return narrow(x * y)


def divide(x, y):
    return narrow(x / y)


def power(x, exponent):
    if exponent == 0:
        return Fraction(1)
    if max(abs(x.numerator), x.denominator) == 1:
        return x ** exponent
    if abs(exponent) > 127:
        if x == 0:
            return x
        raise Wide
    return narrow(x ** exponent)


def floor(x):
    return Fraction(x.numerator // x.denominator)


def numeral(text):
    """The value of a numeral, None where the text is none, and Wide where it isn't narrow."""
    parts = NUMERAL.match(text)
    if not parts:
        return None
    sign, whole, tail, bare, exponent, percent = parts.groups()
    tail = bare or tail or ''
    digits = ((whole or '') + tail).lstrip('0')
    core = digits.rstrip('0')
    if not core:
        return Fraction(0)
    if len(core) > 39 or int(core) > MOST:
        raise Wide
    shift = shift_of(exponent) - len(tail) + len(digits) - len(core) - (2 if percent else 0)
    if abs(shift) > 400:
        raise Wide
    value = narrow(int(core) * Fraction(10) ** shift)
    return -value if sign == '-' else value


def shift_of(exponent):
    """An exponent, which may have more digits than int() reads; past a million all are alike, as a text has 8,192 bytes."""
    if not exponent:
        return 0
    digits = exponent.lstrip('+-').lstrip('0')
    size = 10 ** 6 if len(digits) > 6 else int(digits or '0')
    return -size if exponent.startswith('-') else size


def narrow_numeral(text):
    """The value of a numeral that is narrow, or None."""
    try:
        return numeral(text)
    except Wide:
        return None


def printed(value):
    number, divisor = value.numerator, value.denominator
    if divisor == 1:
        return str(number)
    for places in range(1, 19):
        if 10 ** places % divisor == 0:
            digits = abs(number) * (10 ** places // divisor)
            if digits > MOST:
                break
            text = str(digits).rjust(places + 1, '0')
            return '-' * (number < 0) + text[:-places] + '.' + text[-places:]
    return '%d/%d' % (number, divisor)
