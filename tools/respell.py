#!/usr/bin/env python3
"""Brings the names of specs/ and proofs/ to the spelling of the library.

usage: tools/respell.py [FILE..]    at the top of the repository; FILE: further files, as must-fail edits and pages, whose words go with them

A word that a definition, a field, a constructor or a lemma of the repository declares in camel case from a small letter on is written in
snake case, each part of a lemma's name alike: `mapWidth` becomes `map_width`, `weightBelow-agree` becomes `weight_below-agree`. Types,
modules and names of other libraries stay. Names that fall together with another one of the repository are printed.
"""

import glob
import re
import sys

WORD = re.compile(r"[A-Za-z0-9_'₀-₉]+")
DECLARED = re.compile(
    r"(\s*)((?:pub|abbrev|unfoldable|data|record|ruleset|let)\s+)*([^\s:(){}\[\],;.`«»|\\]+)\s*((?:\{[^}]*\}|\([^)]*\))\s*)*:\s"
)
# Definitions whose names were spelled as lemmas' are, and names that an import gives.
WORDS = {"past-answer": "past_answer", "past-list": "past_list", "with-high": "with_high", "with-n": "with_n",
         "with-top": "with_top", "with-w": "with_w", "columnOf": "column_of", "digitOf": "digit_of"}


def sources():
    return sorted(glob.glob("crates/*/specs/*.antt") + glob.glob("crates/*/proofs/**/*.antt", recursive=True))


def declared():
    """Each word that is declared, a lemma's name by its parts."""
    found = set()
    for path in sources():
        with open(path, encoding="utf-8") as f:
            for line in f:
                line = line.split("--")[0]
                m = DECLARED.match(line)
                if m:
                    found.update(WORD.findall(m.group(3)))
    return found


def in_snake(word):
    word = re.sub(r"([a-z0-9₀-₉])([A-Z])", r"\1_\2", word)
    return word.lower()


def main():
    words = declared()
    renamed = {w: in_snake(w) for w in words if w[0].islower() and w != in_snake(w)}
    for w, to in sorted(renamed.items()):
        print(w, to, "falls together" if to in words else "")
    for path in sources() + sorted(glob.glob("crates/*/src/**/*.rt", recursive=True)) + sys.argv[1:]:
        with open(path, encoding="utf-8") as f:
            text = f.read()
        new = WORD.sub(lambda m: renamed.get(m.group(0), m.group(0)), text)
        for old, to in WORDS.items():
            new = re.sub(r"(?<![\w-])" + old + r"(?![\w-])", to, new)
        if new != text:
            with open(path, "w", encoding="utf-8") as f:
                f.write(new)


main()
