#!/usr/bin/env python3
"""Writes a van der Waerden formula: can 1 to N have two colours without K equidistant numbers of
the first, or L of the second?

    waerden.py K L N

Variable k is true if the number k has the first colour; a comment `c first(k) k` names it for
show.awk. W(4, 6) is 73: `waerden.py 4 6 73` writes an unsatisfiable formula; with 72 it is
satisfiable."""
import sys
from typing import List


def progressions(length: int, last: int, sign: int) -> List[str]:
    """A clause for each progression: not all of its numbers have the colour."""
    steps = range(1, (last - 1) // (length - 1) + 1)
    return [" ".join(str(sign * (first + step * k)) for k in range(length)) + " 0\n"
            for step in steps for first in range(1, last - step * (length - 1) + 1)]


def main(words: List[str]) -> int:
    if len(words) != 3 or not all(word.isdigit() for word in words) or min(map(int, words[:2])) < 2:
        is_asked = words == ["--help"]
        print("usage: waerden.py K L N, with 2 or more for K and L",
              file=sys.stdout if is_asked else sys.stderr)
        return 0 if is_asked else 2
    first, second, last = map(int, words)
    clauses = progressions(first, last, -1) + progressions(second, last, 1)
    names = [f"c first({number}) {number}\n" for number in range(1, last + 1)]
    sys.stdout.write(f"p cnf {last} {len(clauses)}\n" + "".join(names + clauses))
    return 0


sys.exit(main(sys.argv[1:]))
