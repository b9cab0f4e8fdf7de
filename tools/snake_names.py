#!/usr/bin/env python3
"""Respells the repository's own names in specs/ and proofs/: words in snake case, types in camel case.

usage: tools/snake_names.py        at the top of the repository

Every name with a dash that a file of specs/ or proofs/ declares is respelled, there and in the clauses of src/.
Names that the prover makes (in Answers.antt, Invariants.antt) and names of the library keep their spelling.
A second run changes nothing.
"""
import os
import re
import sys

WORD = re.compile(r"(?<![\w'\-])[A-Za-z][\w'\-]*")
DECLARED = re.compile(r"^\s*(?:(?:abbrev|unfoldable|pub|data|record)\s+)*([A-Za-z][\w'\-]*(?:\s+[a-z][\w'\-]*)*)\s*(?:[({:].*)?:")
MADE = ("Answers.antt", "Invariants.antt", "Proof.antt")
# Names that would fall together with one of the library or that are types under a small letter.
OTHER = {"bit-or": "bit_of_or"}
# Names that only these crates declare, and that elsewhere are the library's.
ONLY_IN = {"take-set-lt": ("leaning",), "on": ("backward", "upstream")}
IN_THESE = {"take-set-lt": "take_set_lt", "on": "OnChainOf"}


def files(ending):
    for folder, dirs, names in os.walk("crates"):
        dirs[:] = sorted(d for d in dirs if d != "out")
        for name in sorted(names):
            if name.endswith(ending):
                yield os.path.join(folder, name)


def declared():
    names = set()
    for path in files(".antt"):
        if "/specs/" not in path and path.endswith(MADE):
            continue
        for line in open(path, encoding="utf-8"):
            line = line.split("--")[0]
            found = DECLARED.match(line)
            if found and not line.strip().startswith("use"):
                names.update(n for n in found.group(1).split() if "-" in n)
    return names


def spelled(name):
    if name in OTHER:
        return OTHER[name]
    if name[0].isupper():
        return "".join(part[:1].upper() + part[1:] for part in name.split("-"))
    return name.replace("-", "_")


def turn(text, names, crate):
    def one(found):
        word = found.group(0)
        if word in ONLY_IN:
            return IN_THESE[word] if crate in ONLY_IN[word] else word
        return spelled(word) if word in names else word

    return WORD.sub(one, text)


def turn_antt(text, names, crate):
    lines = []
    for line in text.split("\n"):
        code, dashes, comment = line.partition("--")
        head = re.match(r"     ([\w'\-]+)", comment)
        if head:  # a line of a file's list of words
            comment = turn(comment[: head.end()], names, crate) + comment[head.end():]
        lines.append(turn(code, names, crate) + dashes + comment)
    return "\n".join(lines)


def turn_rt(text, names, crate):
    """Only clauses, ghost items and ghost uses have names with dashes: code is laid out with blanks around a minus."""
    lines = []
    for line in text.split("\n"):
        code, slashes, comment = line.partition("//")
        ghost = re.match(r"\s*(ghost|ensures|requires)\b", code) or "-" in code
        own = names if ghost else set()
        if re.match(r"\s*(ghost|ensures|requires)\b", code):
            code = turn(code, own, crate)
        elif ghost:
            code = WORD.sub(lambda m: spelled(m.group(0)) if m.group(0) in own else m.group(0), code)
        lines.append(code + slashes + comment)
    return "\n".join(lines)


def main():
    names = declared()
    for path in list(files(".antt")) + list(files(".rt")):
        crate = path.split("/")[1]
        text = open(path, encoding="utf-8").read()
        new = turn_antt(text, names, crate) if path.endswith(".antt") else turn_rt(text, names, crate)
        if new != text:
            open(path, "w", encoding="utf-8").write(new)
    print(f"{len(names)} names respelled", file=sys.stderr)


main()
