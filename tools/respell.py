#!/usr/bin/env python3
"""Respells this repository's own definitions and lemmas: words in snake case, facts and types in camel case.

usage: tools/respell.py [TOP]     run once, after the toolchain's own script, at the top of the repository (or of TOP)

It was run once, with the port to today's Rattle (docs/PORT.md). It changes .rt and .antt files, the edits and the pages of docs/ but for the
landing notes and the page on the port. Functions of src/, exported names, strings, inputs and outputs have no such names.
"""
import os
import re
import sys

# Names that are neither made by the rule nor to be left: `first_of` is a tactic of today's antt.
BY_HAND = {
    "firstOf": "first_below",
    "first_of": "first_below",
    "Terms-ok": "TermsOk",
    "Offer-ok": "OfferOk",
    "Links-ok": "LinksOk",
    "Lent-ok": "LentOk",
    "Window-ok": "WindowOk",
    "Region-ok": "RegionOk",
    "Lent-links": "LentLinks",
    "Opened-alike": "OpenedAlike",
    "Reported-alike": "ReportedAlike",
    "Changed-alike": "ChangedAlike",
    "Answers-alike": "AnswersAlike",
    "Made-passes": "MadePasses",
    "Made-enters": "MadeEnters",
    "Demand-3": "Demand3",
    "None-to": "NoneTo",
    "same-figures": "SameFigures",
    "is_bound": "IsBound",
    "first_out": "first_out-is",
    "left_by": "left_by-is",
    "seen_by": "seen_by-is",
    "first_below": "first_below-lt",
    "getD-tabulate": "get_or-tabulate",
    "get_d_tabulate": "get_or-tabulate",
    "get_d_any": "get_or-any",
    "getD": "get_or",
    "libFuzzer": "libFuzzer",
}
# Names that are respelt in these files alone, since a definition that the file uses comes to their spelling.
ONLY = {
    "first_out": ["schedule/proofs/Runs.antt"],
    "is_bound": ["routes/proofs/Limits.antt"],
    "left_by": ["face/proofs/Answers.antt", "capi/proofs/"],
    "seen_by": ["face/proofs/Answers.antt", "capi/proofs/"],
    "first_below": ["interval_rewriter/proofs/"],
}
# Functions of src/ that have a name of BY_HAND: they keep it, and so do their proofs and edits.
KEPT = {"first_of": ["schedule/src/pass.rt", "schedule/edits/later_bad_kept.edit", "schedule/proofs/pass/"]}
# A part of a name that its dashes leave, where the whole is not by hand: `firstOf-split`.
PARTS = {"firstOf": "first_below", "first_of": "first_below", "getD": "get_or"}
WORD = re.compile(r"(?<![\w'′-])[A-Za-z_][\w'′₀-₉-]*")
CAMEL = re.compile(r"^[a-z][a-z0-9]*(?:[A-Z][a-z0-9]*)+[₀-₉]*['′]*$")


def snake(word):
    return re.sub(r"([A-Z])", lambda m: "_" + m.group(1).lower(), word)


def respelt(word):
    if word in BY_HAND:
        return BY_HAND[word]
    parts = [PARTS.get(p, snake(p) if CAMEL.match(p) else p) for p in word.split("-")]
    return "-".join(parts).replace("′", "'")


def turned(path, text):
    def one(m):
        w = m.group(0)
        if w in ONLY and not any(part in path for part in ONLY[w]):
            return w
        if w in KEPT and any(part in path for part in KEPT[w]):
            return w
        return respelt(w)

    return WORD.sub(one, text)


def files(top):
    for folder, dirs, names in os.walk(os.path.join(top, "crates")):
        dirs[:] = sorted(d for d in dirs if d != "out")
        for n in sorted(names):
            if n.endswith((".rt", ".antt", ".edit")):
                yield os.path.join(folder, n)
    for n in sorted(os.listdir(os.path.join(top, "docs"))):
        if n.endswith(".md") and not n.startswith("PORT"):
            yield os.path.join(top, "docs", n)
    yield os.path.join(top, "README.md")


def main():
    top = sys.argv[1] if len(sys.argv) > 1 else "."
    for path in files(top):
        with open(path, encoding="utf-8") as f:
            was = f.read()
        now = turned(path, was)
        if now != was:
            with open(path, "w", encoding="utf-8") as f:
                f.write(now)


main()
