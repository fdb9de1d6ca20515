#!/usr/bin/env python3
"""Brings the names of this repository's own definitions and lemmas to today's spelling.

Run once, at the top of the repository, after the kit's own script:

    python3 tools/spell.py [--list]

A fact or a type is in upper camel case (Bits-of becomes BitsOf); a function, a lemma, a field or a constructor in snake case
(bytes-for becomes bytes_for). A lemma on a list function keeps the dash behind that function's name (length-page). Only names that
specs/ or proofs/ declare are touched; functions of src/, goals, strings, inputs and outputs keep theirs. It stops where two names
would fall together.
"""
import glob
import os
import re
import sys

LIST_FUNCTIONS = ("length", "take", "drop", "getD", "joined")

DECLARED = re.compile(
    r"^(?:pub )?(?:abbrev |unfoldable )?(?:pub )?(?:data |record )?([^\s:(){}.,;]+)\s*(?=[:({])"
)
MEMBER = re.compile(r"^\s+(?:pub )?([^\s:(){}.,;]+)\s+:\s")
ALIAS = re.compile(r" as ([^\s(){}.,;]+)")
TOKEN = re.compile(r"[^\s(){}\[\].,;:«»◌`\"]+")


def antt_files():
    return sorted(
        glob.glob("crates/*/specs/**/*.antt", recursive=True)
        + glob.glob("crates/*/proofs/**/*.antt", recursive=True)
    )


def declared_in(path):
    """The names that a file declares at its top level, the fields and constructors in it, and its aliases."""
    for line in open(path, encoding="utf-8"):
        if line.startswith("use "):
            yield from ALIAS.findall(line)
        if "goal." in line or line.startswith(("use ", "mod ", "pub mod ", "--")):
            continue
        found = DECLARED.match(line) or MEMBER.match(line)
        if found:
            yield found.group(1)


def spelled(name):
    if "-" not in name:
        return name
    words = name.split("-")
    if name[0].isupper():
        return "".join(word[0].upper() + word[1:] for word in words)
    if words[0] in LIST_FUNCTIONS:
        return words[0] + "-" + "_".join(words[1:])
    return "_".join(words)


def main():
    names = {name for path in antt_files() for name in declared_in(path)}
    new = {name: spelled(name) for name in names if spelled(name) != name}
    together = [n for n in new if new[n] in names or list(new.values()).count(new[n]) > 1]
    if "--list" in sys.argv:
        for name in sorted(new):
            print(name, new[name])
        print("together:", *together)
        return
    if together:
        sys.exit("these would fall together: " + " ".join(sorted(together)))
    pages = sorted(glob.glob("docs/*.md")) + ["README.md"]
    sources = sorted(glob.glob("crates/*/src/**/*.rt", recursive=True))
    for path in antt_files() + sources + pages:
        old = open(path, encoding="utf-8").read()
        text = TOKEN.sub(lambda t: new.get(t.group(0), t.group(0)), old)
        if path.endswith(".md"):
            text = re.sub(r"`[^`\n]*`", lambda t: TOKEN.sub(lambda u: new.get(u.group(0), u.group(0)), t.group(0)), old)
        if path.endswith(".rt"):
            text = "\n".join(
                new_line if not line.lstrip().startswith("//") else line
                for line, new_line in zip(old.split("\n"), text.split("\n"))
            )
        if text != old:
            open(path, "w", encoding="utf-8").write(text)


main()
