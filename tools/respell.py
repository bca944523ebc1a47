#!/usr/bin/env python3
"""Brings the names of the repository's own definitions and lemmas to today's spelling: words in snake case.

Run once at the top of the repository, after /opt/rattle/port/port.py. Names that join a lemma's left side, as
`length-overwrite`, keep their dash; names that Rattle makes, as `loop-x-init`, are not touched; nor is docs/PORT.md, which
sets the old names beside the new.
"""

import os
import re

NAMES = """
    admits-number among-lower answer-line ask-verdict at-link at-most-refl at-most-since between-overwrite
    both-axiom both-fine both-from-links both-link both-more both-none both-of-links both-of-pairs both-pair
    build-verdict by-form-kept by-from by-has by-is by-under card-line card-of card-verdict card-with
    cards-in-range cards-verdict chain-axiom classify-verdict cut-once decimal-first decimal-plain
    decimal-thousand decimal-three decimal-two decimal-utf8 digit-every digit-facts digit-list digit-of
    digit-once digit-plain fault-verdict file-broken file-length file-room file-rows file-verdict
    form-in-range from-axiom grade-bytes grade-forms grade-no-slash grade-order has-axiom has-slash
    highest-of-meets in-links in-range is-axiom kept-in-words kinds-of length-line length-ranked lengths-are
    lengths-fit line-pieces link-cell link-derived link-inside link-of link-of-place link-parts link-size
    lower-greatest lower-left lower-of-low lower-right mark-in mille-bytes mille-every mille-forms mille-laws
    mille-once mille-one mille-order mille-three mille-two mille-whole mille-within not-fine numbered-laws
    numbers-verdict of-classified of-draft one-in-range pair-antisym pair-cell pair-derived pair-laws
    pair-of-place pair-order pair-parts-inside pair-total pair-trans parse-decimal parses-back part-overwrite
    parts-inside place-fine printed-append printed-same printed-then raised-met raised-now raised-stays
    raises-more raises-none raises-one range-of ranked-bytes ranked-cut ranked-distinct ranked-forms
    ranked-slash ranked-within reads-mille refusal-of refused-first rise-raised risen-more risen-none
    risen-raised risen-set room-verdict route-line row-false rule-both rule-from rule-has rule-is rule-number
    rule-of said-by same-statement saturated-of-meets says-form settled-saturated shown-card stands-in
    stands-in-words stands-later started-more statement-of statement-verdict strength-of switch-order
    tops-rise turn-both two-of under-axiom verdict-broken verdict-fine verdict-of weight-falls within-limits
""".split()

TOKEN = re.compile(r"(?<![\w'-])(" + "|".join(sorted(map(re.escape, NAMES), key=len, reverse=True)) + r")(?![\w'-])")
TICKED = re.compile(r"`[^`\n]*`")


def respelled(text):
    return TOKEN.sub(lambda m: m.group(1).replace("-", "_"), text)


def code(text):
    """A source or a proof file: all but its comments, its strings and the library's names."""
    out = []
    for line in text.split("\n"):
        if "use Rattle.std." in line:
            out.append(re.sub(r"(?<= as )[^ ,}]+", lambda m: respelled(m.group(0)), line))
            continue
        parts = re.split(r'("(?:[^"\\\\]|\\\\.)*"|//.*$|--\s.*$)', line)
        out.append("".join(p if i % 2 else respelled(p) for i, p in enumerate(parts)))
    return "\n".join(out)


def page(text):
    """A page: what stands between backticks."""
    return TICKED.sub(lambda m: respelled(m.group(0)), text)


def files(ends, *tops):
    for top in tops:
        for folder, dirs, names in os.walk(top):
            dirs[:] = sorted(d for d in dirs if d not in ("out", ".git", "target"))
            for name in sorted(names):
                if name.endswith(ends):
                    yield os.path.join(folder, name)


def turn(path, how):
    with open(path, encoding="utf-8") as f:
        old = f.read()
    new = how(old)
    if new != old:
        with open(path, "w", encoding="utf-8") as f:
            f.write(new)


for path in files((".rt", ".antt", ".edit"), "crates"):
    turn(path, code)
for path in list(files((".md",), "docs")) + ["README.md"]:
    if path != os.path.join("docs", "PORT.md"):
        turn(path, page)
