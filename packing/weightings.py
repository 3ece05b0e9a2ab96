#!/usr/bin/env python3
"""Makes the table of weightings of crates/packing/src/weights.rt anew.

Usage: weightings.py            the rows, one to a line, in the table's order
       weightings.py --table    the digits as the lines of weights.rt have them
       weightings.py --check    compares with weights.rt: 0 if all is the same, else 1 and a line for what differs

It takes half a minute, and needs Python 3 and no packages.

A combination is a mask of six active segments, and a family of combinations is a number whose bit m says that mask m is in it. The
weights by which each combination of a family weighs at least 1 make a polyhedron, which stays the same when combinations are added
that have one of the family in them: so the families are those that are closed upwards.

A corner of the polyhedron is a weighting for which the combinations of weight 1, as rows of 0s and 1s over the active segments that
weigh more than 0, have full rank. In whole numbers such a combination weighs d, and d and the weights are determinants of at most
six rows of 0s and 1s, or parts of these.

The table has the corners of all families whose active segments come in falling order of `holders` (how many combinations of the
family have the segment in them), equal ones in any order: the engine sorts its active segments likewise. Its rows come by their last
digit above 0, since the engine stops after the rows for as many active segments as there are; then by their sum, then as numbers.
"""
import re
import sys
from itertools import combinations_with_replacement, permutations
from math import gcd
from pathlib import Path

SEGMENTS = 6
DETERMINANT = 9  # the greatest of six rows of 0s and 1s
ACROSS = 102  # digits on a line of weights.rt
CODE = Path(__file__).resolve().parent.parent / "crates" / "packing" / "src" / "weights.rt"


def closed_upwards(segments):
    """The families of combinations of so many active segments that are closed upwards."""
    families = [0, 1]
    for i in range(segments):
        # `high` has what is in it with the segment i, `low` what is in it without
        families = [low | high << (1 << i) for high in families for low in families if low & ~high == 0]
    return families


def holders(family, segments):
    return [sum(family >> m & m >> i & 1 for m in range(1 << segments)) for i in range(segments)]


def falling_families():
    """The families that are closed upwards, their active segments in falling order of `holders`.

    A family is put together from `low` and `high`, as above for the last segment. By how much a segment has more holders than the
    next is the sum of two differences. All five sums are taken at once, each in a byte of its own with 128 added, so that the byte's
    highest bit says that the sum is not below 0."""
    rest = SEGMENTS - 1

    def differences(counts):
        return sum((a - b + 64) << 8 * i for i, (a, b) in enumerate(zip(counts, counts[1:])))

    falling = sum(128 << 8 * i for i in range(rest))
    parts = closed_upwards(rest)
    as_low = {f: differences(holders(f, rest) + [0]) for f in parts}
    as_high = {f: differences(holders(f, rest) + [bin(f).count("1")]) for f in parts}
    families = []
    for low in parts:
        given = as_low[low]
        families += [low | high << (1 << rest) for high in parts if low & ~high == 0 and (given + as_high[high]) & falling == falling]
    return [f for f in families if f and not f & 1]  # some combination, and not the empty one


def weighs(weights, mask):
    return sum(w for i, w in enumerate(weights) if mask >> i & 1)


def rank(masks):
    rows = [[mask >> i & 1 for i in range(SEGMENTS)] for mask in masks]
    found = 0
    for i in range(SEGMENTS):
        pivot = next((row for row in rows if row[i]), None)
        if pivot:
            found += 1
            rows.remove(pivot)
            rows = [[x * pivot[i] - p * row[i] for x, p in zip(row, pivot)] for row in rows]
    return found


def candidates():
    """All weights, in falling order, and d: the combinations of weight d have full rank over the weights above 0.

    So each of these weights stands in a combination of weight d, and none is above d."""
    for above in range(1, SEGMENTS + 1):
        for d in range(1, DETERMINANT + 1):
            for weights in combinations_with_replacement(range(d, 0, -1), above):
                if gcd(d, *weights) == 1 and rank(m for m in range(1 << above) if weighs(weights, m) == d) == above:
                    yield weights + (0,) * (SEGMENTS - above), d


def is_corner(weights, d, families):
    """Whether the weights are a corner for one of the families, where the combinations of weight d are those that weigh least."""
    above = sum(1 << i for i, w in enumerate(weights) if w)
    masks = range(1 << SEGMENTS)
    less = sum(1 << m for m in masks if weighs(weights, m) < d)
    least = sum(1 << m for m in masks if weighs(weights, m) == d)
    full = bin(above).count("1")
    tried = set()
    for tight in {family & least for family in families if not family & less}:
        rows = frozenset(m & above for m in masks if tight >> m & 1)
        if len(rows) >= full and rows not in tried and rank(rows) == full:
            return True
        tried.add(rows)
    return False


def last_above(weights):
    return max(i + 1 for i, w in enumerate(weights) if w)


def corners():
    families = falling_families()
    found = set()
    for sorted_weights, d in candidates():
        for weights in set(permutations(sorted_weights)):
            if weights not in found and is_corner(weights, d, families):
                found.add(weights)
    return sorted(found, key=lambda weights: (last_above(weights), sum(weights), weights))


def in_lines(digits):
    return "\\\n    ".join(digits[at : at + ACROSS] for at in range(0, len(digits), ACROSS))


def differences(rows):
    """What weights.rt has otherwise, a line for each."""
    code = CODE.read_text()
    table = re.search(r'const WEIGHTS: \[u8; DIGITS\] =\s*\*b"([^"]*)";', code)
    count = re.search(r"const WEIGHTINGS: usize = (\d+);", code)
    body = re.search(r"\nfn first_rows\(.*?\n}", code, re.S)
    if not (table and count and body):
        return ["weights.rt: no WEIGHTS, WEIGHTINGS or first_rows in the form that this script reads"]
    lines = []
    if int(count.group(1)) != len(rows):
        lines.append(f"WEIGHTINGS is {count.group(1)}, and there are {len(rows)} corners")
    arms = {int(n): int(r) for n, r in re.findall(r"(\d+) => (\d+),", body.group(0))}
    for segments in range(SEGMENTS):
        due = sum(last_above(row) <= segments for row in rows)
        if arms.get(segments) != due:
            lines.append(f"first_rows({segments}) is {arms.get(segments)}, and {due} rows have digits above 0 for so many active segments")
    digits = re.sub(r"[^0-9]", "", table.group(1))
    there = [digits[at : at + SEGMENTS] for at in range(0, len(digits), SEGMENTS)]
    due = ["".join(map(str, row)) for row in rows]
    first = next((n for n, (a, b) in enumerate(zip(there, due)) if a != b), None)
    if first is not None:
        lines.append(f"row {first} is {there[first]}, and due is {due[first]}")
    elif len(there) != len(due):
        lines.append(f"the table has {len(there)} rows, and {len(due)} are due")
    return lines


def main(arguments):
    if arguments not in ([], ["--table"], ["--check"]):
        print(__doc__, file=sys.stderr)
        return 2
    rows = corners()
    if arguments == ["--check"]:
        lines = differences(rows)
        print("\n".join(lines) if lines else f"weights.rt has the {len(rows)} corners, in order")
        return 1 if lines else 0
    digits = ["".join(map(str, row)) for row in rows]
    print(in_lines("".join(digits)) if arguments else "\n".join(digits))
    return 0


if __name__ == "__main__":
    sys.exit(main(sys.argv[1:]))
