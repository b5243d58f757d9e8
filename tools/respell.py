#!/usr/bin/env python3
"""Brings this repository's own definitions and lemmas to snake case.

usage: python3 tools/respell.py     at the top of the repository, once, right after /opt/rattle/port/port.py

What is declared in specs/ or proofs/ with a small first letter gets the name in snake case: `ownerOf` becomes `owner_of`, `put-list`
becomes `put_list`. A lemma that would then have the name of a definition gets `_lem` (LEMMAS). Types and facts (`OwnerIs`), modules, goals of
Rattle's making, and names of src/ stay. It turns .antt files, the clauses and `ghost use` items of .rt files, and the code spans of docs/ and
README.md. It is for one run: a second would turn the definitions after_frame and goes_on where LEMMAS speaks of lemmas of that name.
"""

import glob
import re

# Where two names would fall together, by file: the lemma's old name, its new one.
LEMMAS = {
    "crates/bearer/proofs/Kept.antt": {"after_frame": "after_frame_lem", "goes_on": "goes_on_lem", "stays-over": "stays_over_lem"},
    "crates/bearer/proofs/Slots.antt": {"alignment-in": "alignment_in_lem", "envelope-in": "envelope_in_lem", "word-at": "word_at_lem"},
    "crates/bearer/proofs/Square.antt": {"own-bit": "own_bit_lem"},
    "crates/bearer/proofs/Runs.antt": {"own-padding": "own_padding_lem"},
    "crates/bearer/proofs/Clean.antt": {"is-fair": "is_fair_lem"},
    "crates/channel_plan/proofs/Owners.antt": {"is-channel": "is_channel_lem"},
    "crates/reception/proofs/Hunted.antt": {"phase-with": "phase_with_lem"},
}
# Ghost fields and an import's other name, and names that hold the library's older word getD, today get_or.
OTHERS = {
    "oneRate": "one_rate",
    "outFits": "out_fits",
    "inFits": "in_fits",
    "placeRole": "place_role",
    "getD-turned": "get_or_turned",
    "get_d_part": "get_or_part",
    "get_d_set": "get_or_set",
    "getD-none": "get_or_none",
}

WORD = re.compile(r'[^\s(){}.;:,@"«»`]+')
DECLARED = re.compile(r"^[ \t]*(?:(?:abbrev|unfoldable|pub|ruleset) )*([a-z][^\s:(){}.;,]*)(?:[ \t]+[({][^=\n]*?[)}])*[ \t]*:(?![:=])[ \t]*([^\n]*)", re.M)
QUIET = re.compile(r'"(?:[^"\\\n]|\\.)*"')
CLAUSE = re.compile(r"ghost\s+use\b[^;]*;|(?:\brequires|\bensures|\bghost)\s*\*?\s*(?:\w+\s*)?[:=]?\s*\{")


def snake(name):
    name = re.sub(r"(?<=[a-z0-9])([A-Z])", lambda m: "_" + m[1].lower(), name.replace("′", "'"))
    return name.replace("-", "_")


def read(path):
    with open(path, encoding="utf-8") as f:
        return f.read()


def table(files):
    """The names to turn, and all that are declared, in snake case."""
    turned, declared = dict(OTHERS), set()
    for path in files:
        for name, kind in DECLARED.findall(read(path)):
            # what Rattle makes: goals, invariants and measures
            if not re.match(r"(?:goal|given)\.", kind):
                declared.add(snake(name))
                if snake(name) != name:
                    turned.setdefault(name, snake(name))
    return turned, declared


def turn(text, words):
    def one(m):
        word = m[0]
        if word not in words:
            return word
        before = text[: m.start()]
        # a step or a goal of Rattle's making, as in `c.place-at.result`
        if before.endswith(".") and "-" in word and re.search(r"(?<![\w.])(?:c|w|l|g|v|goal|given|args|initial|fn|new|auto)\.$", before):
            return word
        return words[word]

    return WORD.sub(one, text)


def clauses(text, words):
    out, at = [], 0
    while True:
        m = CLAUSE.search(text, at)
        if not m:
            return "".join(out) + text[at:]
        end = m.end()
        if m[0].endswith("{"):
            depth = 1
            while depth:
                depth += {"{": 1, "}": -1}.get(text[end], 0)
                end += 1
        out.append(text[at : m.start()] + turn(text[m.start() : end], words))
        at = end


def spans(text, declared):
    def one(m):
        return snake(m[0]) if snake(m[0]) in declared else m[0]

    return re.sub(r"`[^`\n]+`", lambda m: re.sub(r"\b[a-z][a-z0-9]*[A-Z]\w*", one, m[0]), text)


def main():
    antt = [p for p in sorted(glob.glob("crates/*/**/*.antt", recursive=True)) if "/out/" not in p]
    words, declared = table(antt)
    for path in antt + sorted(glob.glob("crates/*/src/**/*.rt", recursive=True)) + sorted(glob.glob("docs/*.md")) + ["README.md"]:
        text = read(path)
        own = words | LEMMAS.get(path, {})
        new = clauses(text, own) if path.endswith(".rt") else spans(text, declared) if path.endswith(".md") else turn(text, own)
        if new != text:
            with open(path, "w", encoding="utf-8") as f:
                f.write(new)


main()
