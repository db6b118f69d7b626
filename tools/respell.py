#!/usr/bin/env python3
"""Brings the definitions and lemmas of this repository to today's spelling.

Run once at the top, after the kit's own script: facts in camel case, all else in
snake case, and a dash only where a lemma's name joins two names, as in `length-drop`.
It touches specs/, proofs/, the clauses and imports of src/, and what pages quote
in backticks. Names that Rattle makes (goals, steps) and names of src/ stay.
"""
import glob
import re
import sys

# facts and relations are spelled like types
FACTS = {
    "At-cursor": "AtCursor",
    "Ended-in-time": "EndedInTime",
    "Entry-stored": "EntryStored",
    "Read-from": "ReadFrom",
    "Read_from": "ReadFrom",
    "Reads-turned": "ReadsTurned",
    "Record-stored": "RecordStored",
    "Same-parts": "SameParts",
    "Same-shape": "SameShape",
    "Serial-order": "SerialOrder",
    "Word-stored": "WordStored",
    "Writes-turned": "WritesTurned",
}

# lemmas named by the left side of their equation: the dash joins two names
JOINED = {
    "among-append": "among-append",
    "answers-append": "answers-append",
    "targets-append": "targets-append",
    "written-append": "written-append",
    "run-append": "run-append",
    "length-addresses": "length-addresses",
    "addresses-placed": "addresses-placed",
    "lookup-placed": "lookup-placed",
    "contains-among": "contains-among",
    "length_front": "length-front",
    "bit-or": "bit-or",
    "bit-pow-same": "bit-pow_same",
    "bit-pow-other": "bit-pow_other",
}

DECLARED = re.compile(
    r"^\s*(?:abbrev |unfoldable |opaque )?(?:pub )?(?:record |data )?"
    r"([^\s():{}]+(?: [^\s():{}]+)*)\s*(?:[({].*)?:(?:\s|$)(.*)"
)
EDGE = r"(?<![^\s(){}.;,`])%s(?![^\s(){}.;,`])"


def proof_texts():
    return glob.glob("crates/*/specs/*.antt") + glob.glob("crates/*/proofs/**/*.antt", recursive=True)


def declared(path):
    """The dashed names that a file declares, but for the goals that Rattle names."""
    for line in open(path, encoding="utf-8"):
        if line.startswith("use ") or line.lstrip().startswith("--"):
            continue
        found = DECLARED.match(line)
        if found and "goal." not in found[2]:
            yield from (n for n in found[1].split() if "-" in n)


def renamings():
    names = {n for path in proof_texts() for n in declared(path)}
    every = {n: n.replace("-", "_") for n in names}
    every.update(FACTS)
    every.update(JOINED)
    return {old: new for old, new in every.items() if old != new}


def main():
    renamed = renamings()
    # the longest first, so that no name is taken for a part of another
    olds = sorted(renamed, key=len, reverse=True)
    any_old = re.compile(EDGE % ("(" + "|".join(map(re.escape, olds)) + ")"))
    quoted = re.compile(r"`[^`\n]*`")
    turn = lambda text: any_old.sub(lambda m: renamed[m[1]], text)
    for path in proof_texts() + glob.glob("crates/*/src/**/*.rt", recursive=True):
        text = open(path, encoding="utf-8").read()
        words = set(re.split(r"[\s(){}.;,`]+", text))
        for old in words & renamed.keys():
            if renamed[old] in words:
                print(f"look: {path}: {old} becomes {renamed[old]}, which stands there too", file=sys.stderr)
        if turn(text) != text:
            open(path, "w", encoding="utf-8").write(turn(text))
    for path in ["README.md"] + glob.glob("docs/*.md"):
        text = open(path, encoding="utf-8").read()
        new = quoted.sub(lambda m: turn(m[0]), text)
        if new != text:
            open(path, "w", encoding="utf-8").write(new)


if __name__ == "__main__":
    main()
