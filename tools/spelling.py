#!/usr/bin/env python3
"""Spells the repository's own definitions and lemmas as today's Rattle does: words in snake case, facts in camel case.

usage: python3 tools/spelling.py [--dry]    at the top of a checkout, once, right after the kit's port.py

It goes by whole names, in .antt and .rt files, must-fail edits and documents. What Rattle makes of the code (goals, steps)
keeps its name, and so do functions of src/ and texts. It stops where a new name stands already.
"""
import re
import sys
from pathlib import Path

WORDS = """
add-to all-each answer-no answer-path answer-yes back-steady backs-within bank-laws bank-withdrawals beq-true
bit-turned by-bounds by-target carry-from-run changed-lawful changes-apart code-rule count-is counted-in
counted-word counts-moved counts-only counts-t dated-map dated-map-laws dated-map-withdrawals day-count
did-not-run digit-xor does-so either-both empty-days empty-held empty-many ends-in equal-same exact-in
exact-on fair-trace filtered-laws filtered-withdrawals first-in first-members fit-added fit-never fit-still
fit-taken fits-before found-is found-told get-put get-second halved-record has-q held-is held-only held-other
held-within in-range is-amount is-count is-old is-reading k-in k-is key-is key-set-laws key-set-withdrawals
last-key latest-of latest-right latest-unique lawful-get lawful-put lawful-s laws-a laws-b left-right
lost-count lower-bit m-is mapped-some member-bit members-many members-of members-turned moved-moved
moves-apart moves-commute never-in never-past next-is next-within no-count not-not nowhere-runs old-is on-key
ones-le ones-more only-days only-holds only-members other-bit own-bit paired-laws paired-withdrawals
passed-record placed-laws placed-withdrawals plain-a plain-answers plain-b provided-is put-get put-over
put-put ran-in ran-past rest-passes restored-after right-left right-more row-family run-bounded run-from
run-lawful run-lawful-in run-lawful-on run-lawful-past run-moves run-span run-steady run-told runs-above
runs-at runs-below runs-in runs-lawful runs-somewhere runs-within same-change same-content same-equal same-is
same-same same-state same-t same-trace saw-day saw-key saw-only seen-is set-days set-members shift-refused
shifted-is shown-count shown-days shown-key sight-at size-counted size-first size-most size-replicate size-set
size-with size-without small-bits small-max small-min small-sum sound-in sound-on sound-past span-of-run
span-of-withdrawal square-one square-two stands-lawful still-in still-on still-p still-past still-q
subject-laws t-many take-from tested-on tested-on-one-key tested-past there-in told-p told-q turn-made
turned-back turned-from turned-is turned-key turned-words undo-in undo-on undo-past with-key withdraw-lawful
withdraw-lawful-in withdraw-lawful-on withdraw-lawful-past withdrawal-as withdrawal-bounded withdrawal-span
withdrawn-by withdrawn-in withdrawn-on withdrawn-past withdraws-in withdrew-in written-by written-told
wrote-changed x-is yes-test yes-verdict zero-within zeros-each
""".split()

FACTS = """
Finds-the-latest Is-latest Latest-of Never-posted Plain-withdrawals Ran-in Runs-as Runs-in Runs-on Runs-past
Withdrawn-as
""".split()

# constructors of the worked examples' own types
CASES = {"Bank": "counter_bank", "Keys": "keys", "Dates": "dates", "Aliases": "aliases", "Pair": "pair"}

# fields that a dot may stand before in an answer; any other dotted name there is one that Rattle made
FIELDS = {"run-lawful", "withdraw-lawful"}


def camel(name):
    return "".join(part[:1].upper() + part[1:] for part in name.split("-"))


# `last_key` is a field of the code's
OTHERS = {"last-key": "last_key_of"}

TABLE = {w: w.replace("-", "_") for w in WORDS} | {f: camel(f) for f in FACTS} | OTHERS
NAME = re.compile(r"(?<![\w'-])(" + "|".join(sorted(map(re.escape, TABLE), key=len, reverse=True)) + r")(?![\w'-])")
CASE = re.compile(r"(?<![\w'.-])(" + "|".join(CASES) + r")(?![\w'-])")


def respelled(path, text):
    answer = path.name in ("Answers.antt", "Invariants.antt", "Proof.antt")

    def new(m):
        dotted = text[: m.start()].endswith(".")
        if answer and dotted and m[1] not in FIELDS:
            return m[1]
        return TABLE[m[1]]

    text = NAME.sub(new, text)
    if path.suffix in (".antt", ".edit") and any(p.startswith("worked") for p in path.parts):
        text = CASE.sub(lambda m: CASES[m[1]], text)
    return text


def files():
    for top in ("crates", "docs"):
        for path in sorted(Path(top).rglob("*")):
            if path.suffix in (".antt", ".rt", ".edit", ".md") and "out" not in path.parts and path.name != "PORT.md":
                yield path
    yield Path("README.md")


def main():
    texts = {path: path.read_text(encoding="utf-8") for path in files()}
    code = "\n".join(t for p, t in texts.items() if p.suffix == ".antt")
    for old, new in sorted(TABLE.items()):
        if re.search(r"(?<![\w'-])" + re.escape(new) + r"(?![\w'-])", code) and NAME.search(code):
            print(f"look: {new} stands already, beside {old}")
    changed = 0
    for path, text in texts.items():
        new = respelled(path, text)
        if new != text:
            changed += 1
            if "--dry" not in sys.argv:
                path.write_text(new, encoding="utf-8")
    print(f"{changed} files respelled")


main()
