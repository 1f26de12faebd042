#!/usr/bin/env python3
"""Writes a formula in DIMACS CNF on standard output.

    generate.py random VARIABLES SEED [RATIO]    3-SAT with 4.26 clauses for each variable, or RATIO
    generate.py pigeons HOLES        one pigeon too many: unsatisfiable
    generate.py order ELEMENTS       a strict order without a least element: unsatisfiable
"""
import random
import sys


def random_clauses(variables, seed, ratio=4.26):
    numbers = random.Random(int(seed))
    variables = int(variables)
    clauses = []
    for _ in range(round(float(ratio) * variables)):
        chosen = numbers.sample(range(1, variables + 1), 3)
        clauses.append([variable * numbers.choice((-1, 1)) for variable in chosen])
    return variables, clauses


def pigeon_clauses(holes):
    holes = int(holes)
    pigeons = range(holes + 1)
    sits = lambda pigeon, hole: pigeon * holes + hole + 1
    clauses = [[sits(pigeon, hole) for hole in range(holes)] for pigeon in pigeons]
    clauses += [[-sits(one, hole), -sits(other, hole)]
                for hole in range(holes) for one in pigeons for other in pigeons if one < other]
    return len(pigeons) * holes, clauses


def order_clauses(elements):
    elements = range(int(elements))
    pairs = {}
    for one in elements:
        for other in elements:
            if one < other:
                pairs[one, other] = len(pairs) // 2 + 1
                pairs[other, one] = -pairs[one, other]
    least = [[pairs[other, one] for other in elements if other != one] for one in elements]
    # No cycle of three elements, in either direction; each cycle begins at its least element.
    circles = [[-pairs[one, two], -pairs[two, three], -pairs[three, one]]
               for one in elements for two in elements for three in elements
               if one < two and one < three and two != three]
    return len(pairs) // 2, least + circles


def main():
    kinds = {"random": random_clauses, "pigeons": pigeon_clauses, "order": order_clauses}
    if len(sys.argv) < 3 or sys.argv[1] not in kinds:
        sys.exit(__doc__)
    variables, clauses = kinds[sys.argv[1]](*sys.argv[2:])
    print("p cnf", variables, len(clauses))
    for clause in clauses:
        print(*clause, 0)


main()
