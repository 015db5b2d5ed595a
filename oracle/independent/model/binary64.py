"""Numbers: binary64 with its NaN rules, the root in whole numbers, and the two series.

Python's float is binary64 and its +, - and * round once, to nearest, ties to even. Division is `divide`,
since Python raises where IEEE 754 gives an infinity or NaN.

Specification: chapter 2
"""

import math
import struct

INFINITY = float("inf")
NAN = float("nan")
NAN_BITS = 0x7FF8000000000000


def from_bits(whole):
    """The real that has these 64 bits."""
    return struct.unpack(">d", struct.pack(">Q", whole))[0]


def bits(x):
    """The 64 bits as a whole number; of every NaN 7ff8000000000000. Specification: #binary64-helpers"""
    if x != x:
        return NAN_BITS
    return struct.unpack(">Q", struct.pack(">d", x))[0]


def same(x, y):
    """Both NaN, or equal bits. Specification: #binary64-nan"""
    return bits(x) == bits(y)


def negative(x):
    """Whether the sign is minus, also of a zero."""
    return math.copysign(1.0, x) < 0.0


def divide(x, y):
    """IEEE 754's division. Specification: #binary64"""
    if y != 0.0:
        return x / y
    if x != x or y != y or x == 0.0:
        return NAN
    return -INFINITY if negative(x) != negative(y) else INFINITY


def finite(x):
    """Neither an infinity nor NaN. Specification: #binary64-helpers"""
    return x == x and abs(x) != INFINITY


def within(m, x):
    """Whether abs(x) <= m. Specification: #binary64-helpers"""
    return abs(x) <= m


def minimum(x, y):
    """Of two equal numbers the first; of a NaN and a number the number. Specification: #binary64-helpers"""
    if x != x:
        return y
    return y if y < x else x


def maximum(x, y):
    """Of two equal numbers the first; of a NaN and a number the number. Specification: #binary64-helpers"""
    if x != x:
        return y
    return y if x < y else x


def clamp(x, low, high):
    """A NaN passes unchanged. Specification: #binary64-helpers"""
    if x < low:
        return low
    return high if high < x else x


def whole_units(x):
    """n of a finite x above 0 that is n / 2^1074. Specification: #root"""
    whole = bits(x)
    exponent, fraction = whole >> 52, whole & (2**52 - 1)
    if exponent == 0:
        return fraction
    return (fraction | 2**52) << (exponent - 1)


def from_units(n):
    """The real n / 2^1074, for a whole number n that has such a real (53 digits at most)."""
    shift = max(n.bit_length() - 53, 0)
    head = n >> shift
    if head.bit_length() < 53:
        return from_bits(head)
    return from_bits(((shift + 1) << 52) | (head - 2**52))


def root(x):
    """The square root, decided in whole numbers. Specification: #root"""
    if x != x or x < 0.0:
        return NAN
    if x == 0.0 or x == INFINITY:
        return x
    n = whole_units(x) << 1074
    q = math.isqrt(n)
    d = max(q.bit_length() - 53, 0)
    k = q >> d
    middle = (2 * k + 1) << d
    if 4 * n > middle * middle:
        k += 1
    return from_units(k << d)


def nearest(numerator, denominator):
    """The binary64 nearest to a fraction from 2^-1000 to 1, both whole numbers above 0, ties to even."""
    shift = 53 - (numerator.bit_length() - denominator.bit_length())
    head, rest = divmod(numerator << shift, denominator)
    while head.bit_length() > 53:
        shift -= 1
        head, rest = divmod(numerator << shift, denominator)
    if 2 * rest > denominator or (2 * rest == denominator and head % 2 == 1):
        head += 1
    value = float(head)
    for _ in range(shift):
        value = value * 0.5
    return value


def make_coefficients():
    """The sixteen numbers of both series. Specification: #series-coefficients"""
    table = []
    for n in range(16):
        value = nearest(1, math.factorial(n))
        table.append(value if n % 4 in (0, 1) else -value)
    return tuple(table)


COEFFICIENTS = make_coefficients()


def series(x, first):
    """The sum in q = x * x over every second coefficient, from entry `first` down. Specification: #series"""
    q = x * x
    s = COEFFICIENTS[first]
    for n in range(first - 2, -1, -2):
        s = s * q + COEFFICIENTS[n]
    return s


def cosine(x):
    """The sum itself, for every number. Specification: #series"""
    return series(x, 14)


def sine(x):
    """The sum itself, for every number. Specification: #series"""
    return series(x, 15) * x


def trig_numbers(tilt_x, tilt_y):
    """sin_x, cos_x, sin_y, cos_y of a pair of tilts. Specification: #series"""
    return (sine(tilt_x), cosine(tilt_x), sine(tilt_y), cosine(tilt_y))


def too_far(x):
    """Where the calls of the series refuse: NaN, or above 0.5 in size. Specification: #series"""
    return x != x or abs(x) > 0.5
