#!/usr/bin/env python3
"""Respells this repository's own definitions and lemmas as the library spells its own.

usage: tools/respell.py [--list]        once, at the top of the repository, after the toolchain's port.py

Facts and types in upper camel case, all other words in snake case, and no question mark in a name. It goes by
the text of specs/, of proofs/ and of the clauses and ghost items in src/. Names that the toolchain makes (goals, steps,
declared types) and names of its library stay as they are; so do comments, but for names in backticks. The crate `hex`, of
which the toolchain's library has one, is named `hexdigits`. With --list it prints the old and new names and writes nothing.
"""

import os
import re
import subprocess
import sys

NAME = re.compile(r"(?<![\w'?+·◌-])[A-Za-z][\w'?+·-]*")
ODD = re.compile(r"[-?]")
# where the rule alone would give a name that is taken, or none
BY_HAND = {"T-from": "t_from", "T-not-from": "t_not_from", "joined-++": "joined_append"}
OWN = ()
RESERVED = set("data record deriving module where use mod pub package open as unfoldable abbrev axiom unfold unfolding ruleset mutual infix infixl infixr elim let in do Type coe fcoe tcoe hcom com".split())


def respelled(name):
    if name in BY_HAND:
        return BY_HAND[name]
    if name[0].isupper():
        return "".join(w[:1].upper() + w[1:] for w in name.split("-"))
    return name.replace("-", "_").replace("?", "_test")


def own_module(path):
    """Whether a use line's path is a module of this repository that a person wrote."""
    parts = path.split(".")
    if len(parts) < 4 or parts[0] != "Rattle" or parts[1] not in OWN or parts[2] not in ("specs", "proofs"):
        return False
    return parts[3] not in ("declared", "contracts") and parts[-1] not in ("Goals", "Given")


def foreign(text):
    """The names that a file takes from modules that no person here wrote."""
    names = set()
    for path, items in re.findall(r"use ([\w'+·.-]+)\.\{([^}]*)\}", text):
        if own_module(path):
            continue
        for item in items.split(","):
            names.add(item.split(" as ")[0].strip().strip("«»"))
    for name in re.findall(r"\bgo?al\.([\w'+·-]+)|\bgiven\.([\w'+·-]+)", text):
        names.update(n for n in name if n)
    return names


def parts(text):
    """The fields of the records and the constructors of the data types that a file declares."""
    out, inside = set(), False
    for line in text.split("\n"):
        if re.match(r"\s*(pub )?(record|data)\b", line):
            inside = True
        elif inside and line.strip() and not line.startswith((" ", "\t")):
            inside = False
        elif inside:
            m = re.match(r"\s+(?:pub )?([\w'?-]+) :", line)
            if m:
                out.add(m.group(1))
    return out


def turn(text, skip, own_parts, said):
    """A stretch of antt with no comment in it."""
    def one(m):
        name = m.group(0)
        if not ODD.search(name) or "+" in name and name not in BY_HAND or name in skip:
            return name
        if m.start() and text[m.start() - 1] == "." and name not in own_parts:
            return name
        said[name] = respelled(name)
        return said[name]
    return NAME.sub(one, text)


def backticked(text, said):
    return re.sub(r"`([^`]+)`", lambda m: "`" + said.get(m.group(1), m.group(1)) + "`", text)


def turn_antt(text, own_parts, said):
    skip = foreign(text)
    out = []
    for line in text.split("\n"):
        m = re.search(r"(^|\s)--(\s|$)", line)
        code, comment = (line[: m.start()], line[m.start():]) if m else (line, "")
        out.append(turn(code, skip, own_parts, said) + comment)
    return "\n".join(out)


def ghost_parts(text):
    """The stretches of a .rt file that are antt: clauses, ghost items and ghost use lines."""
    for m in re.finditer(r"ghost use [^;]*;", text):
        yield m.start(), m.end()
    for m in re.finditer(r"\b(?:(?:ensures|requires)\*?(?: [\w]+)?|ghost \w+(?: \w+)?\s*[:=])\s*\{", text):
        depth, i = 1, m.end()
        while depth:
            depth += {"{": 1, "}": -1}.get(text[i], 0)
            i += 1
        yield m.end(), i - 1


def turn_rt(text, own_parts, said):
    skip = foreign(text)
    parts = sorted(ghost_parts(text))
    out, at = [], 0
    for start, end in parts:
        out.append(text[at:start])
        part = text[start:end]
        if part.startswith("ghost use"):
            part = re.sub(r"«([^»]*)»", lambda m: m.group(0) if m.group(1) in RESERVED else m.group(1), part)
        out.append(turn(part, skip, own_parts, said))
        at = end
    out.append(text[at:])
    return "".join(out)


def files(root, ends):
    for folder, dirs, names in os.walk(os.path.join(root, "crates")):
        dirs[:] = sorted(d for d in dirs if d != "out")
        for n in sorted(names):
            if n.endswith(ends):
                yield os.path.join(folder, n)


def read(path):
    with open(path, encoding="utf-8") as f:
        return f.read()


def rename_hex(root):
    subprocess.run(["git", "mv", "crates/hex", "crates/hexdigits"], cwd=root, check=True)
    for path in [os.path.join(root, "crates.txt"), *files(root, ".rt")]:
        old = read(path)
        new = re.sub(r"\bhex(?=::|:$)", "hexdigits", old, flags=re.M) if path.endswith(".rt") else re.sub(r"\bhex\b", "hexdigits", old)
        if new != old:
            with open(path, "w", encoding="utf-8") as f:
                f.write(new)


def main(argv):
    global OWN
    root = subprocess.run(["git", "rev-parse", "--show-toplevel"], capture_output=True, text=True, check=True).stdout.strip()
    OWN = tuple(sorted(os.listdir(os.path.join(root, "crates"))))
    paths = list(files(root, (".antt", ".rt")))
    texts = {p: read(p) for p in paths}
    own_parts = set().union(*(parts(t) for p, t in texts.items() if p.endswith(".antt")))
    said, new = {}, {}
    for p, t in texts.items():
        new[p] = (turn_antt if p.endswith(".antt") else turn_rt)(t, own_parts, said)
    for p in new:
        new[p] = backticked(new[p], said) if p.endswith(".antt") else new[p]
    # two names that fall together, or one that falls on a name that was there
    there = set()
    for t in texts.values():
        there.update(n for n in NAME.findall(t))
    back = {}
    for old, word in sorted(said.items()):
        back.setdefault(word, []).append(old)
    for word, olds in sorted(back.items()):
        if len(olds) > 1 or word in there:
            print(f"look: {', '.join(olds)} became {word}{', which was there' if word in there else ''}", file=sys.stderr)
    if "--list" in argv:
        for old in sorted(said):
            print(old, said[old])
        return 0
    for p in paths:
        if new[p] != texts[p]:
            with open(p, "w", encoding="utf-8") as f:
                f.write(new[p])
    rename_hex(root)
    return 0


if __name__ == "__main__":
    raise SystemExit(main(sys.argv[1:]))
