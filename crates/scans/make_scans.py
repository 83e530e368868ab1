#!/usr/bin/env python3
"""Scans with clean and faulty ends, worked out from docs/RULES.md apart from the scanner.

    make_scans.py cases      print the cases: c or f (clean or faulty end), and bytes in hex
    make_scans.py answers    print each case, its listing, and what one more parse_object answers

Every string of up to three bytes over an alphabet that reaches each rule is a case, with both ends,
and the longer ones named below. Strings and arrays are found here by searching for a closer that a
regular expression of the whole construct accepts, runs by `samples/list_by_rules.py`.
"""

import itertools
import re
import sys
from pathlib import Path

sys.path.insert(0, str(Path(__file__).resolve().parents[2] / "samples"))
import list_by_rules as rules  # noqa: E402

ALPHABET = [b"(", b")", b"[", b"]", b"<", b">", b"~", b"%", b"\\", b"/", b"{", b"\x0c", b"1", b"a"]
LONGER = [
    b"[%]\x0c]", b"[(a]]", b"[<]>]", b"[<<~a~b]", b"<~>", b"<~~>", b"<~a~~>", b"[[<~a~b~>]]", b"(\\)", b"(\\\\)", b"//a",
    b">>>", b"<", b">", b"[%a\n]", b"[%a\r]", b"[%]", b"(a(b)c)", b"((a)", b"[[a]", b"<~ab~>", b"<~ab~ >", b"[<~ab~ >]",
    b"<41>", b"<41", b"<<41", b"<<<41>", b"%a\x0c1", b"%a\x0a1", b"%a\x0d1", b"%a", b"1e100", b"1 1e100 2", b"16#100000000 1",
    b"{ 1", b"} 1", b"1 2 3", b"/a/b", b"/", b"a", b"12", b"12 ", b"[ (a]) ]", b"[\\(a\\)]", b">> >> 1", b"<< 1 >>",
    b"[(]", b"[<]", b"[<~]", b"[<~a~", b"[<~a~x", b"(a\\", b"[{]}]", b"[}]", b"\x00\t\r\n 1", b"a%b", b"a(b)c", b"1[2]3",
]
FAULT = ",9,7"


def string_end(job, at):
    """Past the string at this place: an end, or the place after a ~ that lacks its >, or nothing."""
    if job.startswith(b"(", at):
        try:
            return rules.string_end(job, at), None
        except rules.Refused:
            return None, None
    if job.startswith(b"<~", at):
        found = re.compile(rb"<~[^~]*~(>|(?=[^>]))", re.DOTALL).match(job, at)
        if not found:
            return None, None
        return (found.end(), None) if found[1] else (None, found.end())
    found = re.compile(rb"<[^>]*>", re.DOTALL).match(job, at)
    return (found.end(), None) if found else (None, None)


def array_end(job, at):
    """The same of an array: items are passed one by one."""
    depth = 0
    while at < len(job):
        if job[at : at + 1] == b"(" or (job[at : at + 1] == b"<" and not job.startswith(b"<<", at)):
            end, lacking = string_end(job, at)
            if end is None:
                return None, lacking
            at = end
            continue
        item = re.compile(rb"<<|%[^\n\x0c\r]*(?:[\n\x0c\r]|\Z)|.", re.DOTALL).match(job, at)[0]
        depth += (item == b"[") - (item == b"]")
        at += len(item)
        if depth == 0:
            return at, None
    return None, None


def one(job, at, faulty):
    """One parse_object: its line or its refusal, the place after it, and whether it was refused."""
    at = rules.GAP.match(job, at).end()
    end_of_bytes = f"refused,7,{at}" if faulty else None
    first = job[at : at + 1]
    if not first:
        return end_of_bytes or f"refused,1,{at}", len(job), True
    if first in b"(<[":
        end, lacking = (array_end if first == b"[" else string_end)(job, at)
        if lacking is not None:
            return f"refused,2,{at}", lacking, True
        if end is None:
            return end_of_bytes or f"refused,2,{at}", len(job), True
        closers = 4 if job.startswith(b"<~", at) else 2
        kind = {b"(": 5, b"[": 8, b"<": 7 if closers == 4 else 6}[first]
        return f"{kind},{at},{end},{end - at - closers}", end, False
    if first in b")]}" or (first == b">" and not (faulty and at + 1 == len(job))):
        return f"refused,3,{at}", at, True
    if first == b">":
        return end_of_bytes, len(job), True
    if first == b"{":
        return f"refused,6,{at}", at + 1, True
    end = rules.RUN.match(job, at + (first == b"/")).end()
    if faulty and end == len(job):
        return end_of_bytes, end, True
    if first == b"/":
        return f"4,{at},{end},{end - at - 1}", end, False
    try:
        kind, value = rules.read_run(job[at:end])
    except rules.Refused as refused:
        return f"refused,{refused.args[0]},{at}", end, True
    return f"{kind},{at},{end},{value}", end, False


def answers(job, faulty):
    """The lines of a listing, and of one more call."""
    lines, at, refused = [], 0, False
    while not refused:
        at = rules.GAP.match(job, at).end()
        if at == len(job) and not faulty:
            lines.append(f"end,{at}")
            break
        line, at, refused = one(job, at, faulty)
        lines.append(line)
    more, _, refused = one(job, at, faulty)
    if refused:
        number = more.split(",")[1]
        lines.append(f"again,{number}{FAULT if number == '7' else ''}")
    else:
        lines.append(f"again,object,{more.split(',')[0]}")
    return lines


def cases():
    """All cases: bytes, and whether the end is faulty."""
    short = [b"".join(row) for n in range(4) for row in itertools.product(ALPHABET, repeat=n)]
    for job in short + LONGER:
        for faulty in (False, True):
            yield job, faulty


for case, cut in cases():
    print(f"{'f' if cut else 'c'} {case.hex()}")
    if sys.argv[1] == "answers":
        print("\n".join(answers(case, cut)))
