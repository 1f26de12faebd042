"""Small formulas that take a solver a while: parity on a graph, and the comparison of two
multipliers."""
import random
from typing import Callable, List, Sequence

from harness import dimacs

Bits = List[int]


def parity(numbers: random.Random, vertices: int, is_odd: bool) -> str:
    """A variable for each edge of a graph whose vertices have three edges each. The sum of each
    vertex's edges has to be even. If `is_odd`, the first vertex's sum has to be odd instead; no
    assignment achieves this, since each edge counts twice."""
    ends = [vertex for vertex in range(vertices) for _ in range(3)]
    pairs = list(zip(ends[::2], ends[1::2]))
    while any(one == other for one, other in pairs):
        numbers.shuffle(ends)
        pairs = list(zip(ends[::2], ends[1::2]))
    clauses = []
    for vertex in range(vertices):
        edges = [number for number, pair in enumerate(pairs, 1) if vertex in pair]
        clauses += table(lambda *bits: sum(bits) % 2 == (is_odd and vertex == 0), edges)
    return dimacs(len(pairs), clauses)


def table(holds: Callable[..., bool], variables: Sequence[int]) -> List[List[int]]:
    """A clause for each row of the truth table in which the function is false."""
    rows = [[number >> place & 1 for place in range(len(variables))]
            for number in range(1 << len(variables))]
    return [[-variable if bit else variable for variable, bit in zip(variables, row)]
            for row in rows if not holds(*row)]


class Circuit:
    def __init__(self) -> None:
        self.variables = 0
        self.clauses: List[List[int]] = []

    def inputs(self, count: int) -> Bits:
        self.variables += count
        return list(range(self.variables - count + 1, self.variables + 1))

    def gate(self, function: Callable[..., int], *wires: int) -> int:
        out = self.inputs(1)[0]
        self.clauses += table(lambda value, *bits: value == function(*bits), [out, *wires])
        return out

    def product(self, one: Bits, other: Bits, from_the_end: bool) -> Bits:
        """Multiplies by adding the bits of each column, three or two at a time; the caller chooses
        from which end of a column they are taken."""
        columns: List[Bits] = [[] for _ in range(len(one) + len(other))]
        for place, wire in enumerate(one):
            for more, second in enumerate(other):
                columns[place + more].append(self.gate(lambda *bits: all(bits), wire, second))
        found = []
        for place, column in enumerate(columns):
            while len(column) > 1:
                taken = [column.pop(-1 if from_the_end else 0) for _ in range(min(3, len(column)))]
                column.append(self.gate(lambda *bits: sum(bits) & 1, *taken))
                if place + 1 < len(columns):
                    columns[place + 1].append(self.gate(lambda *bits: sum(bits) >> 1, *taken))
            found += column or [self.gate(lambda: 0)]
        return found


def miter(bits: int, numbers: random.Random, is_faulty: bool) -> str:
    """A formula that says that two multipliers differ. If `is_faulty`, one output of the second is
    replaced by the output before it."""
    circuit = Circuit()
    one, other = circuit.inputs(bits), circuit.inputs(bits)
    first, second = circuit.product(one, other, False), circuit.product(other, one, True)
    if is_faulty:
        place = numbers.randrange(1, len(second) - 1)
        second[place] = second[place - 1]
    circuit.clauses.append([circuit.gate(lambda *bits: sum(bits) & 1, *wires)
                            for wires in zip(first, second)])
    return dimacs(circuit.variables, circuit.clauses)
