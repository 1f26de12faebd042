#!/usr/bin/env python3
"""generate.py KIND [MEGABYTES]

Writes a formula or a stream of additions for measuring, 40 MB by default, the same bytes each time.

    random  a formula of random clauses of three literals
    wide    a formula of clauses of 100,000 literals
    short   a stream with 1 to 3 literals and 1 to 5 hints a line
    long    a stream with 20 to 100 literals and 40 to 200 hints a line
    huge    a stream with 100 literals and 50,000 hints a line, some 380 KB, more than a piece"""

import random
import sys
from typing import Callable, Dict, Tuple

Limits = Tuple[int, int]

# the least and the most literals of a line, and the least and the most hints
STREAMS: Dict[str, Tuple[Limits, Limits]] = {
    "short": ((1, 3), (1, 5)), "long": ((20, 100), (40, 200)),
    "huge": ((100, 100), (50_000, 50_000))}
# the literals in a clause, its approximate size in bytes, and the number of variables, given the
# number of clauses
FORMULAS: Dict[str, Tuple[int, float, Callable[[int], int]]] = {
    "random": (3, 25.5, lambda clauses: max(3, int(clauses / 4.26))),
    "wide": (100_000, 840_000, lambda clauses: 2_000_000),
}
VARIABLES = 20_000
FIRST = 1_000_000


def literal(variables: int) -> int:
    return random.choice((-1, 1)) * random.randint(1, variables)


def write_formula(size: int, bytes_each: float, variables_for: Callable[[int], int],
                  left: int) -> None:
    clauses = max(1, int(left / bytes_each))
    variables = variables_for(clauses)
    sys.stdout.write(f"p cnf {variables} {clauses}\n")
    for _ in range(clauses):
        sys.stdout.write(" ".join(str(literal(variables)) for _ in range(size)) + " 0\n")


def line(identity: int, literals: Limits, hints: Limits) -> str:
    words = [literal(VARIABLES) for _ in range(random.randint(*literals))]
    cited = [random.randint(1, identity - 1) for _ in range(random.randint(*hints))]
    return " ".join(map(str, [identity, *words, 0, *cited, 0])) + "\n"


def write_stream(literals: Limits, hints: Limits, left: int) -> None:
    identity = FIRST
    while left > 0:
        text = line(identity, literals, hints)
        sys.stdout.write(text)
        left -= len(text)
        identity += 1


def main() -> None:
    if len(sys.argv) not in (2, 3) or sys.argv[1] not in [*FORMULAS, *STREAMS]:
        sys.exit(__doc__)
    kind = sys.argv[1]
    left = int(float(sys.argv[2]) * 1e6) if len(sys.argv) == 3 else 40_000_000
    random.seed(1)
    if kind in FORMULAS:
        write_formula(*FORMULAS[kind], left)
    else:
        write_stream(*STREAMS[kind], left)


if __name__ == "__main__":
    main()
