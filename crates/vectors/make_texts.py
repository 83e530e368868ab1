#!/usr/bin/env python3
"""Prints the sections of texts: literal texts, and what each decodes to; then, for a buffer one byte
shorter than the text, that it is too short, or that the text is lone, which is tested first.

A line is a case: the text's bytes in hexadecimal, a tab, and the decoded bytes in hexadecimal, or
the word lone for a text that ends in a backslash with nothing to escape.

What a text decodes to is found here by regular expressions, which follow the rules of PostScript's
literal strings and not the scanner's code:

- ESCAPES says that each backslash has a byte after it; a text that does not match is lone.
- PIECE is one alternation of all that a text is made of. Python takes the first alternative that
  fits, and quantifiers take as much as they can, so 0D 0A is one newline, and a backslash takes up
  to three octal digits.
- One substitution replaces every piece by what it stands for.

The texts that are not written out below are drawn from a fixed seed, so the section comes out the
same each time.
"""

import random
import re
import sys

NEWLINE = rb"\r\n|\r|\n"
ESCAPES = re.compile(rb"(?:[^\\]|\\.)*", re.DOTALL)
PIECE = re.compile(
    rb"\\(?P<octal>[0-7]{1,3})"
    rb"|\\(?:" + NEWLINE + rb")"
    rb"|\\(?P<escaped>.)"
    rb"|(?P<newline>" + NEWLINE + rb")",
    re.DOTALL,
)
NAMED = {b"n": b"\x0a", b"r": b"\x0d", b"t": b"\x09", b"b": b"\x08", b"f": b"\x0c"}


def stands_for(piece):
    if piece["octal"] is not None:
        return bytes([int(piece["octal"], 8) % 256])
    if piece["escaped"] is not None:
        return NAMED.get(piece["escaped"], piece["escaped"])
    if piece["newline"] is not None:
        return b"\n"
    return b""


def decoded(text):
    """The decoded bytes, or None for a lone backslash."""
    if ESCAPES.fullmatch(text) is None:
        return None
    return PIECE.sub(stands_for, text)


# Cases whose results are written out by hand, so that the expressions are held to the rules too.
KNOWN = [
    (b"", b""),
    (b"a\r\n\nb", b"a\n\nb"),
    (b"\\\r\n\n", b"\n"),
    (b"\\0533", b"\x2b3"),
    (b"\\400", b"\x00"),
    (b"\\777", b"\xff"),
    (b"\\401\\376", b"\x01\xfe"),
    (b"\\8", b"8"),
    (b"\\9", b"9"),
    (b"\\08", b"\x008"),
    (b"\\058", b"\x058"),
    (b"\\5", b"\x05"),
    (b"\\53", b"\x2b"),
    (b"\\053", b"\x2b"),
    (b"\\0005", b"\x005"),
    (b"\\1234567", b"\x534567"),
    (b"\\7\\7", b"\x07\x07"),
    (b"\\77\n", b"\x3f\n"),
    (b"\\7\r\n7", b"\x07\n7"),
    (b"\\n\\r\\t\\b\\f", b"\n\r\t\b\f"),
    (b"\\N\\R\\T\\B\\F", b"NRTBF"),
    (b"\\a\\v\\e\\x41", b"avex41"),
    (b"\\(\\)\\\\", b"()\\"),
    (b"a(b)c", b"a(b)c"),
    (b"\r", b"\n"),
    (b"\n", b"\n"),
    (b"\r\n", b"\n"),
    (b"\n\r", b"\n\n"),
    (b"\r\r", b"\n\n"),
    (b"\n\n", b"\n\n"),
    (b"\r\r\n", b"\n\n"),
    (b"\r\n\r\n", b"\n\n"),
    (b"\r\n\r", b"\n\n"),
    (b"a\r", b"a\n"),
    (b"\\\n", b""),
    (b"\\\r", b""),
    (b"\\\r\n", b""),
    (b"a\\\nb", b"ab"),
    (b"a\\\rb", b"ab"),
    (b"a\\\r\nb", b"ab"),
    (b"\\\n\r", b"\n"),
    (b"\\\n\n", b"\n"),
    (b"\\\r\r", b"\n"),
    (b"\\\r\r\n", b"\n"),
    (b"\\\r\\\n", b""),
    (b"\\\r\n\\\r\n", b""),
    (b"\r\\\n", b"\n"),
    (b"\r\\n", b"\n\n"),
    (b"\\r\n", b"\r\n"),
    (b"\\\\n", b"\\n"),
    (b"\\\\\n", b"\\\n"),
    (b"\\\\\\n", b"\\\n"),
    (b"\\\\053", b"\\053"),
    (b"\\", None),
    (b"a\\", None),
    (b"\\\\\\", None),
    (b"\\\n\\", None),
    (b"\\7\\", None),
    (b"\r\\", None),
    (b"\\\\", b"\\"),
    (b"\\\\\\\\", b"\\\\"),
    (b"\x00\x7f\x80\xff", b"\x00\x7f\x80\xff"),
    (b"\\\x00\\\x7f\\\x80\\\xff", b"\x00\x7f\x80\xff"),
]

LETTERS = b"\\0178nrtbf()a\n\r"
COUNT = 210


def texts():
    chosen = [text for text, _ in KNOWN]
    # every byte as it is; and after a backslash, with a byte between that is no digit
    chosen.append(bytes(range(256)))
    chosen.append(b"".join(bytes([0x5C, b, 0x2E]) for b in range(256)))
    draw = random.Random(1)
    while len(chosen) < COUNT:
        # a backslash as often as all else, so that most texts have escapes next to each other
        size = draw.randrange(1, 25)
        weights = [len(LETTERS) - 1 if b == 0x5C else 2 for b in LETTERS]
        text = bytes(draw.choices(LETTERS, weights, k=size))
        if text not in chosen:
            chosen.append(text)
    return chosen


def line(text):
    plain = decoded(text)
    return f"{text.hex()}\t{'lone' if plain is None else plain.hex()}\n"


def main():
    for text, plain in KNOWN:
        assert decoded(text) == plain, (text, plain, decoded(text))
    sys.stdout.write("# texts\n")
    sys.stdout.writelines(line(text) for text in texts())
    sys.stdout.write("# short texts\n")
    for text in texts():
        if text:
            sys.stdout.write(f"{text.hex()}\t{'lone' if decoded(text) is None else 'short'}\n")


if __name__ == "__main__":
    main()
