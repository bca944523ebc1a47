#!/usr/bin/env python3
"""Writes the input and the expected output of crates/closure_cases.

What the cells hold is worked out here in another way than the library does it, from what docs/LOGIC.md and
docs/CALLS.md say alone: for each mark t, from the highest down, the cards of at least t are taken as plain axioms
without a mark, and what follows from them is collected in sets; a cell holds the highest t at which it is reached.
The catalogues come from a generator of random numbers that is written out here, so that they stay the same.

    python3 tools/closures.py stdin >crates/closure_cases/stdin
    python3 tools/closures.py stdout >crates/closure_cases/stdout
"""

import sys

ANY, NONE = 0, 1
HIGHEST = 1000
CATALOGUES = 200

# What the three numbers of a form are: a term, a link, or unused.
KINDS = {1: "tt-", 2: "ttt", 3: "tlt", 4: "ltt", 5: "ll-", 6: "lll"}


class Generator:
    """Random numbers, by a linear congruence."""

    def __init__(self, seed):
        self.state = seed

    def below(self, bound):
        self.state = (self.state * 6364136223846793005 + 1442695040888963407) % 2**64
        return (self.state >> 33) % bound


def number(rng, kind, bound):
    """A number of a kind; of the terms, `none` comes seldom, since what falls under it falls under everything."""
    drawn = rng.below(max(1, bound))
    return rng.below(bound) if kind == "t" and drawn == NONE and rng.below(3) > 0 else drawn


def catalogue(rng):
    n, k = 2 + rng.below(5), rng.below(4)
    bounds = {"t": n, "l": k, "-": 1}
    marks = [1, 250, 400, 550, 700, 999, 1000]
    # Links are rarer in closures than in cards, so there are more cards that make and chain them.
    forms = [1, 1, 2, 3, 3, 3, 4, 5, 6, 6, 6] if k > 0 else [1, 1, 1, 1, 2, 2, 2, 2, 3, 6]
    cards = []
    for _ in range(rng.below(16)):
        form = forms[rng.below(len(forms))]
        numbers = [number(rng, kind, bounds[kind]) for kind in KINDS[form]]
        mark = marks[rng.below(len(marks))]
        # Seldom an unknown form, a number out of range, the lowest mark, or a statement once more.
        slip = rng.below(40)
        if slip == 0:
            form = 7 * rng.below(2)
        elif slip in (1, 2, 3):
            for at in range(slip - 1, 3, 1 + rng.below(2)):
                numbers[at] += bounds[KINDS[form][at]]
        elif slip == 4:
            mark = 0
        elif slip in (5, 6) and cards:
            form, *numbers, _ = cards[rng.below(len(cards))]
        cards.append((form, *numbers, mark))
    return n, k, 8 + rng.below(8), cards


def refusal(n, k, c, standing, card):
    """The number of the refusal that filing the card meets, and the place that 4 carries; or None."""
    form, *numbers, mark = card
    if form not in KINDS:
        return "3"
    bounds = {"t": n, "l": k, "-": 1}
    out = [place for place, kind in enumerate(KINDS[form], 1) if numbers[place - 1] >= bounds[kind]]
    if out:
        return f"4 {min(out)}"
    if mark == 0:
        return "5"
    if any(other[:4] == card[:4] for other in standing):
        return "6"
    if len(standing) == c:
        return "7"
    return None


def plain_closure(n, axioms):
    """The pairs and the links that follow from axioms without marks."""
    pairs = {(x, x) for x in range(n)} | {(x, ANY) for x in range(n)}
    links = set()
    while True:
        new_pairs, new_links = set(), set()
        for form, a, b, c in axioms:
            if form == 1:
                new_pairs |= {(x, b) for x in range(n) if (x, a) in pairs}
            elif form == 2:
                new_pairs |= {(x, c) for x in range(n) if (x, a) in pairs and (x, b) in pairs}
            elif form == 3:
                new_links |= {(x, b, c) for x in range(n) if (x, a) in pairs}
            elif form == 4:
                new_pairs |= {(x, c) for (x, r, y) in links if r == a and y == b}
            elif form == 5:
                new_links |= {(x, b, y) for (x, r, y) in links if r == a}
            else:
                new_links |= {(x, c, z) for (x, r, y) in links if r == a for (u, q, z) in links if q == b and u == y}
        for x, r, y in links:
            new_links |= {(x, r, z) for (u, z) in pairs if u == y and z != NONE}
            if (y, NONE) in pairs:
                new_pairs.add((x, NONE))
        if new_pairs <= pairs and new_links <= links:
            return pairs, links
        pairs |= new_pairs
        links |= new_links


def closure(n, cards):
    pairs, links = {}, {}
    for level in sorted({HIGHEST} | {card[4] for card in cards}, reverse=True):
        at_level = plain_closure(n, [card[:4] for card in cards if card[4] >= level])
        for cells, reached in zip((pairs, links), at_level):
            for cell in reached:
                cells.setdefault(cell, level)
    return pairs, links


def answers(n, k, c, cards):
    yield f"terms {n} links {k} cards {c}"
    standing = []
    for place, card in enumerate(cards):
        refused = refusal(n, k, c, standing, card)
        if refused is None:
            standing.append(card)
        else:
            yield f"card {place} refused {refused}"
    pairs, links = closure(n, standing)
    terms = range(n)
    yield " ".join(["pairs"] + [str(pairs.get((x, y), 0)) for x in terms for y in terms])
    yield " ".join(["links"] + [str(links.get((x, r, y), 0)) for r in range(k) for x in terms for y in terms])
    yield " ".join(
        ["best"] + [str(HIGHEST if pairs.get((a, NONE), 0) > 0 else pairs.get((a, b), 0)) for a in terms for b in terms]
    )


def stdin(catalogues):
    for n, k, c, cards in catalogues:
        yield " ".join(map(str, [n, k, c, *(part for card in cards for part in card)]))


def stdout(catalogues):
    for given in catalogues:
        yield from answers(*given)


def main():
    rng = Generator(2026)
    catalogues = [catalogue(rng) for _ in range(CATALOGUES)]
    parts = {"stdin": stdin, "stdout": stdout}
    if len(sys.argv) != 2 or sys.argv[1] not in parts:
        sys.exit(__doc__)
    for line in parts[sys.argv[1]](catalogues):
        print(line)


if __name__ == "__main__":
    main()
