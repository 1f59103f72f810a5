#!/usr/bin/env python3
"""Brings the names of definitions and lemmas to today's spelling: snake case for what is no type and no module.

usage: tools/spelling.py          in the repository, once, behind the kit's port.py: rewrites the .rt and .antt files of crates/
       tools/spelling.py names    prints each old name beside its new one

A name that begins with a small letter and has a capital behind a small letter or a digit is respelled, wherever it stands outside a string. Names of
src/ have no such letters. Where a lemma had in snake case the name that its definition gets, it gets `_lem` behind it.
"""

import os
import re
import sys

TOKEN = re.compile(r"[^\W\d][\w']*(?:-[\w'+*≤<≡]+)*")
STRING = re.compile(r'b?"(?:[^"\\]|\\.)*"')
# A name that a definition gets and another had, in the files that have or cite that other: a lemma, or the constructor of job_rules/specs/Claim and of
# room_claims/specs/Jobs.
OTHERS = {
    ("from_last", "from_last_lem"): ["price/proofs/Totals.antt"],
    ("both_stored", "both_stored_lem"): ["machine/proofs/Instance.antt"],
    ("same_place", "same_place_lem"): ["machine/proofs/Entries.antt"],
    ("left_over", "left_over_lem"): [
        "answer/proofs/Going.antt",
        "answer/proofs/answer_patches/Proof.antt",
        "answer_groups/proofs/answer_patches/Proof.antt",
    ],
    ("left_over", "bytes_left"): [
        "job_rules/specs/Claim.antt",
        "job_rules/proofs/Claimed.antt",
        "job_rules/proofs/Enough.antt",
        "room_claims/specs/Jobs.antt",
        "room_claims/proofs/Done.antt",
        "room_claims/proofs/Enough.antt",
    ],
    ("in_opening", "in_opening_lem"): ["answer/proofs/Numbers.antt", "room_claims/proofs/Numbers.antt"],
    ("in_place", "in_place_lem"): ["answer/proofs/Numbers.antt"],
    ("in_entry", "in_entry_lem"): ["answer/proofs/Numbers.antt"],
    ("no_start", "no_start_lem"): ["examine_rules/proofs/Examined.antt"],
    ("after_read", "after_read_lem"): ["answer/proofs/SomeLine.antt"],
    ("kept_writer", "kept_writer_lem"): ["visits/proofs/Writers.antt"],
}


def snake(word):
    return re.sub(r"(?<=[a-z0-9])(?=[A-Z])", "_", word).lower()


def respelled(name):
    """The name with each of its parts that begins small in snake case."""
    parts = name.split("-")
    return "-".join(snake(p) if re.match(r"[a-z]", p) and re.search(r"[a-z0-9][A-Z]", p) else p for p in parts)


def files(root):
    for folder, dirs, names in os.walk(os.path.join(root, "crates")):
        dirs[:] = sorted(d for d in dirs if d != "out")
        for n in sorted(names):
            if n.endswith((".rt", ".antt")):
                yield os.path.join(folder, n)


def turned(text, others, code):
    def word(m):
        return others.get(m.group(0)) or respelled(m.group(0))

    if not code:
        return TOKEN.sub(word, text)
    out, at = [], 0
    for m in STRING.finditer(text):
        out += [TOKEN.sub(word, text[at : m.start()]), m.group(0)]
        at = m.end()
    return "".join(out + [TOKEN.sub(word, text[at:])])


def main(argv):
    root = os.getcwd()
    names = {}
    for p in files(root):
        with open(p, encoding="utf-8") as f:
            text = f.read()
        rel = os.path.relpath(p, os.path.join(root, "crates"))
        others = {old: new for (old, new), where in OTHERS.items() if rel in where}
        new = turned(text, others, p.endswith(".rt"))
        for m in TOKEN.finditer(text):
            if respelled(m.group(0)) != m.group(0):
                names[m.group(0)] = respelled(m.group(0))
        if not argv and new != text:
            with open(p, "w", encoding="utf-8") as f:
                f.write(new)
    if argv == ["names"]:
        for old in sorted(names):
            print(old, names[old])
    return 0


if __name__ == "__main__":
    raise SystemExit(main(sys.argv[1:]))
