#!/usr/bin/env python3
"""The listing of a job, worked out from docs/RULES.md apart from the scanner.

    list_by_rules.py < job.ps     print the listing
    list_by_rules.py --check      compare every listing stored beside this file
"""

import re
import sys
from pathlib import Path

MOST = 65536
GAP = re.compile(rb"(?:[\x00\t\n\x0c\r ]|%[^\n\x0c\r]*|<<|>>)*")
RUN = re.compile(rb"[^\x00\t\n\x0c\r ()<>\[\]{}/%]*")
COMMENT = re.compile(rb"%[^\n\x0c\r]*")
PARENS = re.compile(rb"\\.|[()]", re.DOTALL)
INTEGER = re.compile(rb"[+-]?[0-9]+")
RADIX = re.compile(rb"([0-9]+)#([0-9A-Za-z]+)")
REAL = re.compile(rb"([+-]?)([0-9]*)(?:\.([0-9]*))?(?:[eE]([+-]?[0-9]+))?")


class Refused(Exception):
    """Carries the number of the refusal."""


def string_end(job, at):
    """Where the string that opens at this place ends."""
    if job.startswith(b"(", at):
        depth = 0
        for token in PARENS.finditer(job, at):
            depth += (token[0] == b"(") - (token[0] == b")")
            if depth == 0:
                return token.end()
    elif job.startswith(b"<~", at):
        tilde = job.find(b"~", at + 2)
        if tilde >= 0 and job.startswith(b">", tilde + 1):
            return tilde + 2
    else:
        close = job.find(b">", at + 1)
        if close >= 0:
            return close + 1
    raise Refused(2)


def array_end(job, at):
    """Where the array that opens at this place ends."""
    depth = 0
    while at < len(job):
        byte = job[at : at + 1]
        if job.startswith(b"<<", at):
            at += 2
        elif byte in b"(<":
            at = string_end(job, at)
        elif byte == b"%":
            at = COMMENT.match(job, at).end()
        else:
            depth += (byte == b"[") - (byte == b"]")
            at += 1
            if depth == 0:
                return at
    raise Refused(2)


def read_run(run):
    """Kind and value of a run: 1 integer, 2 real, 3 executable name."""
    if INTEGER.fullmatch(run) and -(2**31) <= int(run) < 2**31:
        return 1, int(run)
    radix = RADIX.fullmatch(run)
    if radix and 2 <= int(radix[1]) <= 36:
        base = int(radix[1])
        if all(int(chr(digit), 36) < base for digit in radix[2]):
            bits = int(radix[2], base)
            if bits >= 2**32:
                raise Refused(5)
            return 1, bits - 2**32 if bits >= 2**31 else bits
    real = REAL.fullmatch(run)
    if real and (real[2] or real[3]):
        fraction = real[3] or b""
        c = int(real[2] + fraction)
        k = int(real[4] or b"0") - len(fraction) if c else 0
        if c >= 10**18 or abs(k) > 99:
            raise Refused(5)
        return 2, f"{'-' if real[1] == b'-' else ''}{c}e{k}"
    return 3, len(run)


def take(job, at):
    """Kind, end and value of the object that begins at this place."""
    first = job[at : at + 1]
    if first == b"[":
        end = array_end(job, at)
        return 8, end, end - at - 2
    if first in b"(<":
        end = string_end(job, at)
        if job.startswith(b"<~", at):
            return 7, end, end - at - 4
        return (5 if first == b"(" else 6), end, end - at - 2
    if first == b"/":
        end = RUN.match(job, at + 1).end()
        return 4, end, end - at - 1
    if first == b"{":
        raise Refused(6)
    if first in b")]}>":
        raise Refused(3)
    end = RUN.match(job, at).end()
    kind, value = read_run(job[at:end])
    return kind, end, value


def listing(job):
    """The lines of the listing, joined."""
    if len(job) > MOST:
        return "refused,8,0\n"
    lines = []
    at = GAP.match(job).end()
    while at < len(job):
        try:
            kind, end, value = take(job, at)
        except Refused as refused:
            return "".join(lines) + f"refused,{refused.args[0]},{at}\n"
        lines.append(f"{kind},{at},{end},{value}\n")
        at = GAP.match(job, end).end()
    return "".join(lines) + f"end,{at}\n"


def check():
    """Compare each stored listing with its job; the status is 1 where one differs."""
    here = Path(__file__).resolve().parent
    pairs = [(job, job.with_suffix(".listing")) for job in sorted(here.glob("*.ps"))]
    pairs += [(case, case.with_suffix(".out")) for case in sorted(here.glob("cases/*.in"))]
    wrong = [job for job, kept in pairs if listing(job.read_bytes()).encode() != kept.read_bytes()]
    for job in wrong:
        print(f"differs: {job.relative_to(here)}")
    print(f"{len(pairs) - len(wrong)} of {len(pairs)} listings agree")
    return 1 if wrong else 0


if __name__ == "__main__":
    if hasattr(sys, "set_int_max_str_digits"):
        sys.set_int_max_str_digits(0)
    if sys.argv[1:] == ["--check"]:
        sys.exit(check())
    sys.stdout.write(listing(sys.stdin.buffer.read()))
