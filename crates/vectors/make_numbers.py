#!/usr/bin/env python3
"""Prints the section of number runs: a run, a tab, and its reading.

Each run is classified from the rules for number runs alone, by regular expressions and whole
numbers of any size:

- integer: optional sign, digits, value from -2147483648 to 2147483647
- radix: decimal digits of value 2 to 36, `#`, digits or letters below the base, no sign; a value
  below 2^32 is the integer of the same 32 bits, one from 2^32 on is past the limits
- real: a run that is no integer, of optional sign, digits with at most one dot and at least one
  digit, perhaps `e` or `E`, optional sign and digits; c is all digits before the exponent as one
  number, k the exponent less the count of digits after the dot, and 0 where c is 0; c from 10^18 on
  or k beyond -99 to 99 is past the limits
- any other run is a name
"""

import random
import re
import sys

INTEGER = re.compile(rb"([+-]?)([0-9]+)")
RADIX = re.compile(rb"([0-9]+)#([0-9A-Za-z]+)")
REAL = re.compile(rb"([+-]?)([0-9]*)(?:\.([0-9]*))?(?:[eE]([+-]?[0-9]+))?")

# python refuses long texts of digits unless told otherwise
sys.set_int_max_str_digits(0)


def integer(run):
    match = INTEGER.fullmatch(run)
    if not match:
        return None
    value = int(match[2])
    if match[1] == b"-":
        value = -value
    return f"integer {value}" if -(2**31) <= value < 2**31 else None


def radix(run):
    match = RADIX.fullmatch(run)
    if not match:
        return None
    base = int(match[1])
    if not 2 <= base <= 36:
        return None
    digits = [int(chr(b), 36) for b in match[2]]
    if max(digits) >= base:
        return None
    value = 0
    for digit in digits:
        value = value * base + digit
    if value >= 2**32:
        return "limits"
    return f"integer {value - 2**32 if value >= 2**31 else value}"


def real(run):
    match = REAL.fullmatch(run)
    if not match:
        return None
    fraction = match[3] or b""
    digits = match[2] + fraction
    if not digits:
        return None
    c = int(digits)
    k = int(match[4] or b"0") - len(fraction) if c else 0
    if c >= 10**18 or not -99 <= k <= 99:
        return "limits"
    sign = "-" if match[1] == b"-" else ""
    return f"real {sign}{c}e{k}"


def reading(run):
    return integer(run) or radix(run) or real(run) or "name"


def in_base(value, base):
    digits = "0123456789abcdefghijklmnopqrstuvwxyz"
    text = ""
    while True:
        text = digits[value % base] + text
        value //= base
        if not value:
            return text


def integers():
    for value in (0, 1, 9, 10, 2147483646, 2147483647, 2147483648, 2147483649, 4294967295, 4294967296, 9999999999):
        for sign in ("", "+", "-"):
            for zeros in ("", "0", "000", "0" * 40):
                for tail in ("", ".", "e0", ".e0", "e1", "e-1", "E+0"):
                    yield f"{sign}{zeros}{value}{tail}"


def radixes():
    for base in range(0, 40):
        for value in (0, 1, 2, 35, 2**31 - 1, 2**31, 2**31 + 1, 2**32 - 1, 2**32, 2**32 + 1, 10**30):
            digits = in_base(value, min(max(base, 2), 36))
            yield f"{base}#{digits}"
        for digit in (base - 1, base, base + 1):
            if 0 <= digit < 36:
                yield f"{base}#{in_base(digit, 36)}"
                yield f"{base}#1{in_base(digit, 36)}0".upper()
    for head in ("016", "00002", "0036", "037", "000", "1", "2", "36", "37", "10000000000000000000000016", "4294967312", "272"):
        for digits in ("1", "10", "F", "Zz", "zZ", "0000000000000000000000000000000000000001", ""):
            yield f"{head}#{digits}"
    for sign in ("+", "-"):
        for run in ("16#1", "2#1", "8#-1", "16#+1"):
            yield sign + run
    for run in ("16#1#1", "16##1", "#", "#1", "1#", "16#.5", "16#1.", "16#1e5", "2#1e5", "16#-1", "16.#1", "1e1#1", ".2#1"):
        yield run
    for run in ("16#" + "F" * 8, "16#" + "f" * 9, "16#" + "F" * 8 + "G", "16#" + "F" * 9 + "G", "16#" + "F" * 60 + "G", "16#" + "0" * 1000 + "1", "2#" + "1" * 31, "2#" + "1" * 32, "2#" + "1" * 33, "36#1z141z3", "36#1Z141Z4"):
        yield run


def with_dot(digits, at):
    return digits[:at] + "." + digits[at:]


def mantissas():
    for value in (10**17 - 1, 10**17, 10**17 + 1, 10**18 - 1, 10**18, 10**18 + 1, 10**19, 2**64 - 1, 2**64, 2**64 + 1, 123456789012345678):
        digits = str(value)
        yield digits
        yield f"-{digits}e5"
        for at in range(len(digits) + 1):
            yield with_dot(digits, at)
            yield "-" + with_dot("0000" + digits, at + 4)
            yield with_dot(digits, at) + f"e{len(digits) - at}"
    for value in (0, 1, 10**18 - 1, 10**18):
        for zeros in (17, 18, 19, 1000):
            yield "0" * zeros + str(value)
            yield "0" * zeros + "." + str(value)
            yield "." + "0" * zeros + str(value) + f"e{zeros}"
            yield str(value) + "." + "0" * zeros
            yield str(value) + "." + "0" * zeros + f"e{zeros}"


def scales():
    for c in ("0", "1", "0.0", "0.1", ".01", "1.0", "00.00", "999999999999999999", "99999999999999999.9", "1000000000000000000", "-0", "-1", "+.5"):
        for k in (0, 1, 9, 10, 97, 98, 99, 100, 101, 102, 127, 128, 255, 256, 65536, 2**31, 2**32, 2**63, 2**64, 10**10, 10**20):
            for sign in ("", "+", "-"):
                yield f"{c}e{sign}{k}"
    for places in (1, 2, 98, 99, 100, 101, 198, 199, 200, 999, 1000, 1001):
        for exponent in (-1, 0, places - 100, places - 99, places, places + 99, places + 100):
            yield "." + "0" * (places - 1) + f"1e{exponent}"
            yield "0." + "0" * places + f"E{exponent}"
    for digit in "0123456789":
        for c in ("1", "0", "-0.0", "1." + "0" * 17):
            yield f"{c}e{digit * 1000}"
            yield f"{c}e-{digit * 1000}"
    for zeros in (1, 10, 100, 1000):
        for exponent in (0, 5, 99, 100):
            yield f"1e{'0' * zeros}{exponent}"
            yield f"1e-{'0' * zeros}{exponent}"


def names():
    for run in (
        "23A + - . -. +. .e5 -.e5 +.e5 1e 1E 1e+ 1e- 1e5. 1e5.5 -16#1 1# #1 16#FFFFFFFFFG 1.2.3 --1 ++1 +-1 -+1 1- 1+ 1-1 "
        "e e5 E5 e+5 .e .. ... .1. 1.. 1..2 1.e 1.e5 .1e5 -.5 +.5 -0. -0 -00 +0 -0.0 1ee5 1e5e5 1eE5 1e--5 1e+-5 1e5- 1e5+ "
        "0x10 1_000 1,5 Infinity NaN inf nan add 3dup 1e5a 1.5a 5. .5 0 00 . 0. .0 1e99 1e100 0e999 999999999999999999 "
        "1000000000000000000 2147483648 -2147483648 -2147483649 16#FFFFFFFF 37#1 16777217. 0.1 1e+0 1e-0 -1e-0 $ 1$ "
        "1*2 1=2 !1 1! 1~ ~1 1@ 1^2 1& 1| 1; 1: 1' 1\" 1\\ 1` 1?"
    ).split():
        yield run
    for byte in range(0x21, 0x7F):
        other = chr(byte)
        if other in "()<>[]{}/%":
            continue
        for run in (f"{other}", f"1{other}", f"{other}1", f"1{other}1", f"1.{other}", f"1e{other}", f"16#{other}"):
            yield run


def scattered(random_runs):
    source = random.Random(20)
    alphabet = "0123456789+-.eE#aAfFgzZ"
    for _ in range(random_runs):
        yield "".join(source.choice(alphabet) for _ in range(source.randint(1, 7)))
    # runs that are near to numbers
    for _ in range(random_runs):
        digits = "".join(source.choice("0123456789") for _ in range(source.randint(0, 20)))
        run = source.choice(("", "+", "-")) + digits
        if source.random() < 0.6:
            run = run + "." + "".join(source.choice("0123456789") for _ in range(source.randint(0, 12)))
        if source.random() < 0.5:
            run = run + source.choice("eE") + source.choice(("", "+", "-")) + str(source.randint(0, 130))
        if source.random() < 0.1:
            at = source.randint(0, len(run))
            run = run[:at] + source.choice(alphabet) + run[at:]
        if run:
            yield run


def cases():
    seen = set()
    for group in (integers(), radixes(), mantissas(), scales(), names(), scattered(350)):
        for run in group:
            if run not in seen:
                seen.add(run)
                yield run


def main():
    print("# numbers")
    for run in cases():
        print(f"{run}\t{reading(run.encode())}")


main()
