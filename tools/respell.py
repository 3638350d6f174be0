#!/usr/bin/env python3
"""Spells this repository's own definitions and lemmas as today's Rattle does.

usage: python3 tools/respell.py     at the top of the repository, once, right after port.py

A fact is spelled like a type, in camel case; any other name in snake case. A dash stays where it joins two names,
as in `length-paid`, the length of what is paid. Two names would have fallen together with another, `Is-set` with
mathlib's word for a set in the sense of homotopy and `first_of` with a tactic; and `good?` has a sign that is no letter.
Strings, comments but for names in backquotes, and names that Rattle makes itself (goals, steps behind a dot) are left alone.
"""

import glob
import re

FACTS = """Answers-back Calls-back Calls-differ Fields-back Fronts-refused Is-answer Is-call Longest-front More-coins
Most-large Never-spoilt Not-otherwise Opened-by Place-right Reads-fields Refusal-keeps Search-answers Search-right
Shorter-sale Smallest-is-one Smallest-pair Smallest-spoilt So-far Spells-call Spells-open Where-to-look Writes-call
Writes-if""".split()

WORDS = """all-bytes all-counts all-fields all-to all-to-first all-to-more amount-is and-more answer-bytes answer-meant
answer-of answer-read answers-back answers-back-stands answers-forth are-counts as-many-largest as-many-reaches
begins-at-most begins-empty begins-up-to best-is-paid call-bytes call-fields call-is call-meant call-number call-of
call-whole calls-back-stands calls-can calls-differ calls-forth count-more each-divides every-up-to falls-last falls-step
few-least few-pays fewest-at-most fewest-is fewest-stands field-more field-number fields-back-stands fields-of-call
first-coin first-number first-spoilt fronts-refused good-j is-best is-reason k-is kept-stands kind-number kind-small
largest-first largest-least largest-next largest-zero last-coin lone-field may-have may-have-call more-coins-stands
more-spoilt most-large-stands never-spoilt no-coins no-larger none-some not-counts not-garbled not-otherwise-stands
number-field numbers-back numbers-none only-sale opening-refused over-front own-least own-pays own-way paid-is-way
paid-most-large paid-pays pair-smallest passes-spoilt place-right read-call read-cut reason-number rest-small sale-bytes
scan-first scan-none search-answers search-right shorter-sale smallest-below smallest-is-one some-at-most some-value
spoilt-more spoilt-passes spoilt-positive t-is take-one takes-is takes-pays takes-zero told-by tried-is-paid two-of
two-parts u-is where-to-look with-some within-trans worked-stands worth-none writes-call writes-if writes-sale x-is
y-is""".split()

OTHERS = {
    "Is-set": "IsCoinSet",
    "spoilt": "Spoilt",
    "first_of": "first_and_rest",
    "good?": "good_or_not",
    "getD-to": "get_or-all_to",
    "all-to-append": "all_to-append",
    "all-to-replicate": "all_to-replicate",
    "all-to-take": "all_to-take",
    "length_fields": "length-fields",
}

FIELDS = {"calls-can"}

NAMES = {n: "".join(w[0].upper() + w[1:] for w in n.split("-")) for n in FACTS}
NAMES |= {n: n.replace("-", "_") for n in WORDS}
NAMES |= OTHERS

TOKEN = re.compile(r"[^\s(){}\[\],;.|\"«»]+")
QUOTED = re.compile(r"`([^`]*)`")


def respelled(code):
    def one(m):
        name, behind_dot = m.group(0), m.start() > 0 and code[m.start() - 1] == "."
        if behind_dot and name not in FIELDS:
            return name
        return NAMES.get(name, name)

    return TOKEN.sub(one, code)


def text_respelled(text, comment):
    """All but strings, which may have several lines, and comments but for names in backquotes."""
    parts = re.split(r'("[^"]*"|' + comment + r"[^\n]*)", text)
    for i, part in enumerate(parts):
        if i % 2 == 0:
            parts[i] = respelled(part)
        elif not part.startswith('"'):
            parts[i] = QUOTED.sub(lambda m: "`" + NAMES.get(m.group(1), m.group(1)) + "`", part)
    return "".join(parts)


def main():
    paths = glob.glob("crates/*/specs/*.antt") + glob.glob("crates/*/proofs/**/*.antt", recursive=True)
    for path in sorted(paths + glob.glob("crates/*/src/*.rt")):
        comment = "--" if path.endswith(".antt") else "//"
        with open(path, encoding="utf-8") as f:
            old = f.read()
        new = text_respelled(old, comment)
        if new != old:
            with open(path, "w", encoding="utf-8") as f:
                f.write(new)


main()
