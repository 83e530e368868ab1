#!/usr/bin/env python3
"""Make font.t1, a small Type 1 font whose private part is encrypted in binary.

The file is the clear part, which ends in `currentfile eexec` and one newline,
and then the encrypted part up to the end of the file. Every run writes the
same bytes. The outlines are our own: upright bars, cut with one tool width.
"""

from pathlib import Path

C1, C2 = 52845, 22719
FILE_KEY, CHAR_KEY = 55665, 4330
LEAD = bytes(4)  # four bytes in front of each encrypted part; the first then comes out as D9

CLEAR = b"""\
%!PS-AdobeFont-1.0: TagLine 001.000
%%Title: TagLine
% Letters for engraved tags.
10 dict begin
/FontInfo 6 dict dup begin
/version (001.000) readonly def
/FullName (Tag Line) readonly def
/FamilyName (Tag Line) readonly def
/Weight (Bold) readonly def
/ItalicAngle 0 def
/isFixedPitch false def
end readonly def
/FontName /TagLine def
/PaintType 0 def
/FontType 1 def
/FontMatrix [0.001 0 0 0.001 0 0] readonly def
/Encoding StandardEncoding def
/FontBBox [0 0 560 700] readonly def
currentdict end
currentfile eexec
"""

OPERATORS = {
    "vmoveto": b"\x04", "rlineto": b"\x05", "hlineto": b"\x06", "vlineto": b"\x07",
    "closepath": b"\x09", "callsubr": b"\x0a", "return": b"\x0b", "hsbw": b"\x0d",
    "endchar": b"\x0e", "rmoveto": b"\x15", "hmoveto": b"\x16",
    "callothersubr": b"\x0c\x10", "pop": b"\x0c\x11", "setcurrentpoint": b"\x0c\x21",
}

SUBRS = [
    "3 0 callothersubr pop pop setcurrentpoint return",
    "0 1 callothersubr return",
    "0 2 callothersubr return",
    "return",
    # an upright bar, 80 wide and 700 high
    "80 hlineto 700 vlineto -80 hlineto closepath return",
    # a lying bar, 300 wide and 80 high
    "300 hlineto 80 vlineto -300 hlineto closepath return",
]

GLYPHS = {
    ".notdef": "0 250 hsbw endchar",
    "space": "0 250 hsbw endchar",
    "E": "60 480 hsbw 0 hmoveto 4 callsubr"
    " 80 -700 rmoveto 5 callsubr 0 230 rmoveto 5 callsubr 0 230 rmoveto 5 callsubr endchar",
    "H": "60 560 hsbw 0 hmoveto 4 callsubr 80 -390 rmoveto 5 callsubr 300 -390 rmoveto 4 callsubr endchar",
    "I": "60 200 hsbw 0 hmoveto 4 callsubr endchar",
    "L": "60 480 hsbw 0 hmoveto 4 callsubr 80 -700 rmoveto 5 callsubr endchar",
    "T": "60 420 hsbw 110 hmoveto 4 callsubr -110 -80 rmoveto 5 callsubr endchar",
    "one": "110 300 hsbw 0 hmoveto 4 callsubr endchar",
}


def encrypt(plain, key):
    """Both Type 1 encryptions; they differ in the key alone."""
    out = bytearray()
    for byte in LEAD + plain:
        cipher = byte ^ (key >> 8)
        key = ((cipher + key) * C1 + C2) % 65536
        out.append(cipher)
    return bytes(out)


def decrypt(cipher, key):
    out = bytearray()
    for byte in cipher:
        out.append(byte ^ (key >> 8))
        key = ((byte + key) * C1 + C2) % 65536
    return bytes(out[len(LEAD):])


def operand(number):
    """A charstring number."""
    if -107 <= number <= 107:
        return bytes([number + 139])
    high, low = divmod(abs(number) - 108, 256)
    assert high < 4
    return bytes([high + (247 if number > 0 else 251), low])


def charstring(words):
    """A charstring from its words, encrypted."""
    plain = b"".join(OPERATORS.get(word) or operand(int(word)) for word in words.split())
    return encrypt(plain, CHAR_KEY)


def entry(before, words, after):
    """A row with a count, RD, one blank, so many bytes, and what closes it."""
    data = charstring(words)
    return b"%s %d RD %s %s\n" % (before.encode(), len(data), data, after.encode())


def private():
    """The plain text of the encrypted part."""
    subrs = b"".join(entry(f"dup {i}", words, "NP") for i, words in enumerate(SUBRS))
    glyphs = b"".join(entry(f"/{name}", words, "ND") for name, words in GLYPHS.items())
    return b"""\
dup /Private 10 dict dup begin
/RD {string currentfile exch readstring pop} executeonly def
/ND {noaccess def} executeonly def
/NP {noaccess put} executeonly def
/BlueValues [-10 0 700 710] def
/MinFeature {16 16} def
/StdHW [80] def
/StdVW [80] def
/password 5839 def
/lenIV 4 def
/Subrs %d array
%sND
2 index /CharStrings %d dict dup begin
%send
end
readonly put
noaccess put
dup /FontName get exch definefont pop
mark currentfile closefile
""" % (len(SUBRS), subrs, len(GLYPHS), glyphs)


def main():
    plain = private()
    cipher = encrypt(plain, FILE_KEY)
    assert decrypt(cipher, FILE_KEY) == plain
    font = CLEAR + cipher
    assert len(font) < 4096
    Path(__file__).resolve().with_name("font.t1").write_bytes(font)
    print(f"clear {len(CLEAR)}, encrypted {len(cipher)}, plain {len(plain)}")


if __name__ == "__main__":
    main()
