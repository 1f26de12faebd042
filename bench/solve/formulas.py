#!/usr/bin/env python3
"""Writes a formula in DIMACS CNF to standard output, unsatisfiable unless a line says otherwise.

    formulas.py commute BITS            two array multipliers, a times b and b times a, differ
    formulas.py divide BITS             a restoring divider's quotient times the divisor, plus the
                                        remainder, isn't the dividend
    formulas.py sort NUMBERS BITS       two sorting networks, bubble sort and odd-even transposition
                                        sort, differ
    formulas.py pipeline STEPS BITS     a pipeline with forwarding and a machine without one differ
    formulas.py factor NUMBER           the number has two factors above 1; satisfiable unless it
                                        is prime
    formulas.py distribute BITS         (a + b) c isn't a c + b c, for words
    formulas.py squares BITS            (a + b) (a - b) isn't a a - b b, for words
    formulas.py count BITS              the ones of a word, counted one by one and in a tree, differ
    formulas.py gripper BALLS STEPS     a plan for a robot with two hands that brings balls from one
                                        room to the other; satisfiable with 2 BALLS - 1 steps or
                                        more if BALLS is even, 2 BALLS + 1 if it is odd
    formulas.py tiles STEPS             a plan for eight tiles that need 31 moves; satisfiable with
                                        31 steps or more
    formulas.py chessboard SIZE         dominoes cover a board without two opposite corners
    formulas.py waerden A B COUNT       COUNT numbers in two colours, without A evenly spaced ones
                                        of the first, and B of the second; satisfiable below van der
                                        Waerden's number
    formulas.py pigeons HOLES           the formula of examples/solver/generate.py
    formulas.py random VARIABLES SEED   the formula of examples/solver/generate.py"""
import os
import subprocess
import sys

sys.dont_write_bytecode = True
import circuits
import classical
import planning

HERE = os.path.dirname(os.path.abspath(__file__))
GENERATOR = os.path.join(HERE, "..", "..", "examples", "solver", "generate.py")
# The formulas that table.py times. CaDiCaL refutes each in some seconds.
FAMILIES = {
    # Two multipliers are equal, and a divider and a multiplier are inverses of each other.
    "arithmetic": (("commute 8", "a b = b a, 8 bits"), ("divide 12", "a divider, 12 bits"),
                   ("divide 13", "a divider, 13 bits")),
    # Two sorting networks are equal.
    "sorters": (("sort 6 12", "6 numbers of 12 bits"), ("sort 7 4", "7 numbers of 4 bits"),
                ("sort 8 3", "8 numbers of 3 bits")),
    # A pipeline with forwarding equals the machine that it implements.
    "pipelines": (("pipeline 4 8", "4 steps"), ("pipeline 6 8", "6 steps"),
                  ("pipeline 8 8", "8 steps")),
    # A prime has no factors.
    "factoring": (("factor 4294967291", "32 bits"), ("factor 8589934583", "33 bits"),
                  ("factor 17179869143", "34 bits")),
    # Identities over bit vectors, bit-blasted as in an SMT solver.
    "bit vectors": (("distribute 7", "(a + b) c = a c + b c, 7 bits"),
                    ("squares 9", "(a + b) (a - b) = a a - b b, 9 bits"),
                    ("count 72", "the ones of 72 bits")),
    # Too few steps for any plan.
    "planning": (("gripper 7 14", "7 balls in 14 steps"), ("gripper 8 14", "8 balls in 14 steps"),
                 ("tiles 18", "8 tiles in 18 steps")),
    # Combinatorial problems without a solution.
    "classical": (("pigeons 9", "pigeonholes, 9"), ("chessboard 13", "a mutilated chessboard, 13"),
                  ("waerden 3 11 114", "van der Waerden, 3 and 11")),
    # 3-SAT with 4.26 clauses for each variable.
    "random": (("random 250 8", "250 variables"), ("random 260 8", "260 variables"),
               ("random 280 6", "280 variables")),
}
KINDS = {name: getattr(home, name) for home, names in (
    (circuits, ("commute", "divide", "sort", "pipeline", "factor", "distribute",
                "squares", "count")),
    (planning, ("gripper", "tiles")), (classical, ("chessboard", "waerden"))) for name in names}


def main() -> None:
    if len(sys.argv) > 1 and sys.argv[1] in ("pigeons", "random"):
        sys.exit(subprocess.run([sys.executable, GENERATOR, *sys.argv[1:]]).returncode)
    if len(sys.argv) < 3 or sys.argv[1] not in KINDS:
        sys.exit(__doc__)
    variables, clauses = KINDS[sys.argv[1]](*map(int, sys.argv[2:]))
    print("p cnf", variables, len(clauses))
    for clause in clauses:
        print(*clause, 0)


if __name__ == "__main__":
    main()
