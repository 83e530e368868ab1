#!/usr/bin/env python3
"""Prints the section of singles: a run, a tab, and the eight hex digits of the nearest
single's bits, or `far`.

Nothing here rounds by a float. A run is taken apart into its sign, c and k, and
c * 10^k is an exact Fraction. A single without its sign is worth a whole number
of 2^-149, which its bits give. The two neighbouring singles that enclose the
fraction are found by halving the row of all finite bits, and the one at the
smaller exact distance is taken; at a tie, the one whose bits are even.

A real is near if k is from -18 to 18 and, for k above 0, c * 10^k is below
10^18; others are far. Every run here is a real within its limits: c below
10^18, k from -99 to 99, and no integer of 32 bits.

The cases are the same at each run: the random ones are seeded.
"""

import random
from fractions import Fraction

INFINITE = 0x7F800000
SMALLEST = Fraction(1, 2**149)
LIMIT = 10**18


def worth(bits):
    """What finite bits without a sign are worth."""
    field, low = divmod(bits, 2**23)
    units = low if field == 0 else (2**23 + low) * 2 ** (field - 1)
    return units * SMALLEST


def nearest(value):
    """The bits nearest to a value from 0 up to the greatest finite single."""
    below, above = 0, INFINITE - 1
    assert 0 <= value <= worth(above)
    while above - below > 1:
        middle = (below + above) // 2
        if worth(middle) <= value:
            below = middle
        else:
            above = middle
    down = value - worth(below)
    up = worth(above) - value
    if down != up:
        return below if down < up else above
    return below if below % 2 == 0 else above


def parts(run):
    """The sign, c and k of a run that has the form of a real."""
    minus = run.startswith("-")
    body = run.lstrip("+-").replace("E", "e")
    digits, _, exponent = body.partition("e")
    before, _, after = digits.partition(".")
    c = int(before + after)
    k = int(exponent or "0") - len(after)
    return minus, c, k if c else 0


def answer(run):
    minus, c, k = parts(run)
    assert c < LIMIT and -99 <= k <= 99, run
    if not -18 <= k <= 18 or (k > 0 and c * 10**k >= LIMIT):
        return "far"
    value = Fraction(c) * Fraction(10) ** k
    return f"{nearest(value) + (2**31 if minus else 0):08X}"


def written(c, k):
    """A run for c * 10^k with a dot, where that takes no more than the digits of c."""
    digits = str(c)
    if k == 0:
        return digits + "."
    if k > 0:
        return f"{digits}e{k}"
    if -k <= len(digits):
        return f"{digits[:k]}.{digits[k:]}"
    return f"{digits}e{k}"


def decimals_at(value):
    """The decimals of at most 18 digits and k from -18 that lie at a value or just beside it."""
    for k in range(-18, 19):
        scaled = value / Fraction(10) ** k
        c = scaled.numerator // scaled.denominator
        if c >= LIMIT or (k > 0 and c * 10**k >= LIMIT):
            continue
        if c == 0:
            return
        exact = scaled.denominator == 1
        # the finest scale that holds it
        for step in ((-1, 0, 1) if exact else (0, 1)):
            if 0 < c + step < LIMIT:
                yield written(c + step, k)
        return


def named():
    """Runs that show one rule each."""
    yield from ("0.1", "16777217.", "16777219.", "-0.", "0.", "+0.", "0e999", "-0e-999", "0.000")
    yield from ("16777215.", "16777216.", "16777218.", "16777220.", "16777221.", "33554434.", "33554435.", "33554437.", "33554438.")
    yield from ("1.", "-1.", "+1.", "1e0", "1E0", "1e+0", "1e-0", ".5", "-.5", "5.", "-5.", "1.5", "2.5")
    yield from ("2147483648", "-2147483649", "4294967295.", "4294967296.", "2147483647.", "2147483583.", "2147483584.", "2147483585.")
    yield from ("999999999999999999", "999999999999999999.", "99999999999999999.9", ".999999999999999999")
    yield from ("0.99999997", "0.99999998", "0.999999970197677612", "0.999999970197677611", "0.999999970197677613")


def borders():
    """Where near ends and far begins."""
    for sign in ("", "-"):
        for e in range(-20, 21):
            yield f"{sign}1e{e}"
            yield f"{sign}9e{e}"
        for e in (-99, -98, -50, -19, -18, 18, 19, 50, 98, 99):
            for c in (1, 3, 99, 123456789, LIMIT - 1):
                yield f"{sign}{c}e{e}"
    for k in range(1, 19):
        most = LIMIT // 10**k
        for c in (most - 1, most, most + 1, most // 10, most // 10 + 1):
            if 0 < c < LIMIT:
                yield f"{c}e{k}"
    for c in (1, 2, 5, 9, 10, 99, LIMIT - 2, LIMIT - 1, LIMIT // 10, LIMIT // 2):
        for k in (-19, -18, -17, -1, 0, 1):
            yield written(c, k)
    for digits in range(1, 19):
        yield "." + "0" * (digits - 1) + "1"
        yield "9" * digits + "."
        yield "." + "9" * digits
        yield "1" + "0" * (digits - 1) + "."


def halfway(seeded):
    """Points halfway between two singles, and the decimals next to them, at each scale that near reals reach."""
    for exponent in range(-59, 60, 2):
        field = exponent + 127
        picked = [0, 2**23 - 1, seeded.randrange(2**23), seeded.randrange(2**23)]
        for low in picked:
            bits = field * 2**23 + low
            yield from decimals_at((worth(bits) + worth(bits + 1)) / 2)


def whole_halves(seeded):
    """Whole numbers and short fractions that are exactly halfway."""
    for shift in range(1, 37):
        for _ in range(4):
            q = seeded.randrange(2**23, 2**24)
            n = (2 * q + 1) * 2 ** (shift - 1)
            if n + 1 < LIMIT:
                for step in (-1, 0, 1):
                    yield f"{n + step}."
    for places in range(1, 9):
        for _ in range(6):
            q = seeded.randrange(2**23, 2**24)
            # (2q + 1) / 2^(places + 1), which ends after places + 1 decimals
            c = (2 * q + 1) * 5 ** (places + 1)
            for step in (-1, 0, 1):
                if c + step < LIMIT:
                    yield written(c + step, -(places + 1))


def at_random(seeded):
    for _ in range(500):
        c = seeded.randrange(1, 10 ** seeded.randrange(1, 19))
        k = seeded.randrange(-18, 1)
        yield seeded.choice(("", "-", "+")) + written(c, k)
    for _ in range(150):
        c = seeded.randrange(1, 10 ** seeded.randrange(1, 12))
        yield seeded.choice(("", "-")) + f"{c}{seeded.choice('eE')}{seeded.randrange(-30, 25)}"


def in_limits(run):
    minus, c, k = parts(run)
    plain = "." not in run and "e" not in run and "E" not in run
    if plain and c <= 2**31 - (0 if minus else 1):
        return False
    return c < LIMIT and -99 <= k <= 99


def cases():
    seeded = random.Random(20240607)
    seen = set()
    for rows in (named(), borders(), halfway(seeded), whole_halves(seeded), at_random(seeded)):
        for run in rows:
            if run not in seen and in_limits(run):
                seen.add(run)
                yield run


print("# singles")
for case in cases():
    print(case, answer(case), sep="\t")
