#!/usr/bin/env python3
"""Turns this repository's own definitions and lemmas to the spelling of today's Rattle.

usage: python3 tools/respell.py      at the top of the repository, once, right after the kit's port.py

port.py respells what the kit's libraries name. This script does the rest, everywhere the names stand (specs/,
proofs/, the clauses of src/, must-fail edits, docs/ and README.md):
- values, constructors, fields and lemmas are in snake case, and a dash stays only behind the name of a function
  or relation that the lemma is about;
- the crate `bytes` is called `byte_kind`, since the kit has a library of that name.
Functions of src/, strings, inputs and outputs keep their names. A new name that was in use already is an error:
those have a name of their own in OVERRIDES.
"""
import glob
import os
import re
import subprocess
import sys

TOKEN = re.compile(r"[A-Za-z_][A-Za-z0-9_'-]*")
# What a lemma can be about: a dash behind one of these stays.
HEADS = ("bit", "Member", "member", "members", "length", "gathered", "class_of", "word_of")
# Names that the checker makes from the code.
MADE = re.compile(r"(loop|returns|invariant|decreases|overflow)[-_]")
CLAUSE = re.compile(r"\s*(ghost|ensures|requires)\b")
# Names that would fall together with another.
OVERRIDES = {
    "atom-cut": "cut_of_atom",
    "operator-cut": "cut_of_operator",
    "joined-count": "count_of_joined",
    "noAtom": "no_atom_at",
    "side-of": "narrowing_of",
    "Written-Read": "written_is_read",
    "tokens-at": "tokens_before",
    "tooLarge": "is_too_large",
}


def snake(name):
    out = re.sub(r"(?<=[a-z0-9])([A-Z])", lambda m: "_" + m.group(1).lower(), name)
    for head in HEADS:
        if out.startswith(head + "-"):
            return head + "-" + out[len(head) + 1:].replace("-", "_")
    return out.replace("-", "_")


def antt_files():
    return sorted(glob.glob("crates/*/specs/**/*.antt", recursive=True) + glob.glob("crates/*/proofs/**/*.antt", recursive=True))


def read(path):
    with open(path, encoding="utf-8") as f:
        return f.read()


def own_names():
    """The names of this repository that are not in today's spelling: all that .antt files declare, and, outside
    of the folders of functions, every dashed name that is not imported from a library of the kit."""
    found, foreign = set(), set()
    for path in antt_files():
        code = "\n".join(l.split("--")[0] for l in read(path).splitlines())
        for used, names in re.findall(r"^use ([\w.+]+)\.\{([^}]*)\}", code, re.M):
            if not os.path.isdir("crates/" + used.split(".")[1]):
                foreign |= set(TOKEN.findall(names))
        for line in code.splitlines():
            m = re.match(r"\s*(?:(?:pub|abbrev|unfoldable)\s+)*([^\s:(){}]+)\s*:\s", line)
            if m and not MADE.match(m.group(1)) and TOKEN.fullmatch(m.group(1)):
                found.add(m.group(1))
        if path.count("/") == 3:
            found |= {n for n in TOKEN.findall(code) if "-" in n}
    return {n for n in found - foreign if "-" in n or re.match(r"[a-z].*[A-Z]", n)}


def renames():
    names = {n: OVERRIDES.get(n, snake(n)) for n in own_names()}
    names = {old: new for old, new in names.items() if old != new}
    used = set()
    # a definition may have the name of the function that it speaks of, so the code of src/ doesn't count
    for path in antt_files() + glob.glob("crates/*/src/**/*.rt", recursive=True):
        lines = [l for l in read(path).splitlines() if path.endswith(".antt") or CLAUSE.match(l)]
        code = "\n".join(l.split("--")[0].split("//")[0] for l in lines)
        used |= set(TOKEN.findall(re.sub(r"Rattle\.[\w.+]+", "", code)))
    together = sorted(f"{old} -> {new}" for old, new in names.items() if new in used or list(names.values()).count(new) > 1)
    if together:
        sys.exit("names that fall together:\n" + "\n".join(together))
    return names


def turn_tokens(text, names):
    return TOKEN.sub(lambda m: names.get(m.group(0), m.group(0)), text)


def turn_rt(text, names):
    """In source a dashed name can only stand in a clause; a camel-case name may stand in a comment too."""
    out = []
    for line in text.splitlines(keepends=True):
        out.append(turn_tokens(line, names if CLAUSE.match(line) else {o: n for o, n in names.items() if "-" not in o}))
    return "".join(out)


def turn_doc(text, names):
    return re.sub(r"`[^`\n]+`", lambda m: turn_tokens(m.group(0), names), text)


def move_bytes():
    if os.path.isdir("crates/bytes"):
        subprocess.run(["git", "mv", "crates/bytes", "crates/byte_kind"], check=True)
    paths = glob.glob("crates/*/src/**/*.rt", recursive=True) + antt_files() + glob.glob("crates/*/must-fail/*.edit")
    for path in paths:
        text = read(path)
        new = text.replace("Rattle.bytes.", "Rattle.byte_kind.")
        if path.endswith(".rt"):
            new = re.sub(r"\buse bytes::", "use byte_kind::", new)
        if new != text:
            open(path, "w", encoding="utf-8").write(new)
    lines = [re.sub(r"\bbytes\b", "byte_kind", l) if not l.startswith("#") else l for l in read("crates.txt").splitlines(keepends=True)]
    open("crates.txt", "w").write("".join(lines))


def main():
    names = renames()
    for path in antt_files():
        text = read(path)
        open(path, "w", encoding="utf-8").write(turn_tokens(text, names))
    for path in glob.glob("crates/*/src/**/*.rt", recursive=True) + glob.glob("crates/*/must-fail/*.edit"):
        text = read(path)
        open(path, "w", encoding="utf-8").write(turn_rt(text, names))
    for path in glob.glob("docs/*.md") + ["README.md"]:
        text = read(path)
        open(path, "w", encoding="utf-8").write(turn_doc(text, names))
    move_bytes()
    print(f"{len(names)} names respelled")


if __name__ == "__main__":
    main()
