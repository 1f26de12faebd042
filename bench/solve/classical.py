"""Combinatorial formulas: the number of variables, and the clauses."""
from itertools import combinations
from typing import Dict, List, Tuple

Clauses = List[Tuple[int, ...]]
Square = Tuple[int, int]


def chessboard(size: int) -> Tuple[int, Clauses]:
    """Dominoes cover a board without two opposite corners."""
    squares = [(row, column) for row in range(size) for column in range(size)][1:-1]
    dominoes: Dict[Square, List[int]] = {square: [] for square in squares}
    variables = 0
    for row, column in squares:
        for other in ((row + 1, column), (row, column + 1)):
            if other in dominoes:
                variables += 1
                dominoes[row, column].append(variables)
                dominoes[other].append(variables)
    clauses: Clauses = []
    for near in dominoes.values():
        clauses += [tuple(near), *((-one, -other) for one, other in combinations(near, 2))]
    return variables, clauses


def waerden(first: int, second: int, count: int) -> Tuple[int, Clauses]:
    """The numbers up to `count` have two colours, without `first` evenly spaced numbers of the
    first colour, or `second` of the second."""
    clauses: Clauses = []
    for length, sign in ((first, -1), (second, 1)):
        for distance in range(1, (count - 1) // (length - 1) + 1):
            for start in range(1, count - distance * (length - 1) + 1):
                clauses.append(tuple(sign * (start + distance * place) for place in range(length)))
    return count, clauses
