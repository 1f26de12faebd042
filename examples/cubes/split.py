#!/usr/bin/env python3
"""Splits a formula into cubes, by its most frequent variables, for `lrup-solve --cubes`.

    split.py COUNT FORMULA > CUBES

There are at least COUNT cubes, unless the formula has too few variables. Cubes that unit
propagation refutes are left out, since any solver refutes them, too; if none is left, the empty one
stands for the whole formula. Look-ahead splitters such as march_cu make better cubes, in the same
form."""
import sys
from collections import Counter
from typing import Dict, List, Optional, Set


def read(path: str) -> List[List[int]]:
    with open(path) as file:
        words = [word for line in file if line[0] not in "cp" for word in line.split()]
    clauses: List[List[int]] = [[]]
    for word in words:
        if word == "0":
            clauses.append([])
        else:
            clauses[-1].append(int(word))
    return clauses[:-1]


class Formula:
    def __init__(self, clauses: List[List[int]]) -> None:
        self.clauses = clauses
        self.places: Dict[int, List[int]] = {}
        for place, clause in enumerate(clauses):
            for literal in clause:
                self.places.setdefault(literal, []).append(place)

    def variables(self) -> List[int]:
        """The most frequent first; short clauses count more."""
        weights: Dict[int, int] = Counter()
        for clause in self.clauses:
            for literal in clause:
                weights[abs(literal)] += 2 ** (20 - min(20, len(clause)))
        return sorted(weights, key=lambda variable: -weights[variable])

    def propagated(self, cube: List[int]) -> Optional[Set[int]]:
        """The literals that are true under the cube; None if it is refuted."""
        true, next_one = set(cube), list(cube)
        while next_one:
            for place in self.places.get(-next_one.pop(), []):
                clause = self.clauses[place]
                if any(literal in true for literal in clause):
                    continue
                left = [literal for literal in clause if -literal not in true]
                if not left:
                    return None
                if len(left) == 1:
                    true.add(left[0])
                    next_one.append(left[0])
        return true


def split(formula: Formula, count: int) -> List[List[int]]:
    """Repeatedly splits the shortest cube, by the most frequent variable without a value there."""
    order = formula.variables()
    cubes: List[List[int]] = [[]]
    while cubes and len(cubes) < count:
        cube = cubes.pop(0)
        true = formula.propagated(cube) or set()
        variable = next((one for one in order if one not in true and -one not in true), None)
        if variable is None:
            return [cube, *cubes]
        cubes += [longer for longer in ([*cube, variable], [*cube, -variable])
                  if formula.propagated(longer) is not None]
    return cubes


def main(words: List[str]) -> int:
    if len(words) != 2 or not words[0].isdigit():
        is_asked = words == ["--help"]
        print("usage: split.py COUNT FORMULA",
              file=sys.stdout if is_asked else sys.stderr)
        return 0 if is_asked else 2
    for cube in split(Formula(read(words[1])), int(words[0])) or [[]]:
        print("a", *cube, 0)
    return 0


sys.exit(main(sys.argv[1:]))
