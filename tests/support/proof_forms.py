"""Proofs in each form that the filter reads, made from the steps of a stream."""
import random
from pathlib import Path
from typing import Callable, Dict, Iterable, Iterator, List, NamedTuple, Tuple, Union

Clause = List[int]


class Step(NamedTuple):
    """The hints of a deletion are the deleted identities; an import has no hints."""
    kind: str
    identity: int
    literals: Clause
    hints: List[int]


def read_formula(path: Path) -> List[Clause]:
    """The clauses, as written."""
    with open(path) as file:
        words = [word for line in file if not line.startswith(("c", "p")) for word in line.split()]
    clauses: List[Clause] = []
    literals: Clause = []
    for word in words:
        if word != "0":
            literals.append(int(word))
        else:
            clauses.append(literals)
            literals = []
    return clauses


def read_steps(path: Path) -> List[Step]:
    """The lines of a stream."""
    steps = []
    with open(path) as file:
        for line in file:
            words = line.split()
            if words[1] in ("d", "i"):
                numbers = list(map(int, words[2:-1]))
                steps.append(Step("d", int(words[0]), [], numbers) if words[1] == "d"
                             else Step("i", int(words[0]), numbers, []))
            else:
                numbers = list(map(int, words))
                end = numbers.index(0)
                steps.append(Step("a", numbers[0], numbers[1:end], numbers[end + 1:-1]))
    return steps


def line(*words: Union[str, int]) -> bytes:
    return " ".join(map(str, words)).encode() + b"\n"


def lrat(step: Step) -> bytes:
    if step.kind == "a":
        return line(step.identity, *step.literals, 0, *step.hints, 0)
    return line(step.identity, step.kind, *step.literals, *step.hints, 0)


def varint(number: int) -> bytes:
    found = bytearray()
    while number > 127:
        found.append(number & 127 | 128)
        number >>= 7
    found.append(number)
    return bytes(found)


def code(number: int) -> bytes:
    """The code of a literal, or of an identity."""
    return varint(2 * abs(number) + (number < 0))


def codes(numbers: Iterable[int]) -> bytes:
    return b"".join(map(code, numbers)) + b"\0"


def binary_lrat(step: Step, identity: Callable[[int], bytes] = code) -> bytes:
    """Some solvers write identities as literals, others as plain numbers."""
    hints = b"".join(map(identity, step.hints)) + b"\0"
    return (b"d" + hints if step.kind == "d"
            else b"a" + identity(step.identity) + codes(step.literals) + hints)


class Deletions:
    """The proof without hints: deleted clauses are named by their literals."""

    def __init__(self, formula: List[Clause]) -> None:
        self.clauses = dict(enumerate(formula, 1))

    def steps(self, steps: List[Step]) -> Iterator[Tuple[str, Clause]]:
        """The literals of each addition and deletion, in order."""
        for step in steps:
            if step.kind == "a":
                self.clauses[step.identity] = step.literals
                yield "a", step.literals
            for identity in step.hints if step.kind == "d" else []:
                yield "d", self.clauses.pop(identity)


def drat(formula: List[Clause], steps: List[Step]) -> List[bytes]:
    return [line(*["d"] * (kind == "d"), *literals, 0)
            for kind, literals in Deletions(formula).steps(steps)]


def binary_drat(formula: List[Clause], steps: List[Step]) -> List[bytes]:
    return [kind.encode() + codes(literals) for kind, literals in Deletions(formula).steps(steps)]


class Frat:
    """A FRAT proof with identities of its own, unordered and with gaps. The formula's clauses, and
    their literals, come in another order."""

    def __init__(self, formula: List[Clause], steps: List[Step], seed: int, hinted: float,
                 gap: int = 3) -> None:
        self.numbers = random.Random(seed)
        self.hinted = hinted
        names = [*range(1, len(formula) + 1),
                 *(step.identity for step in steps if step.kind == "a")]
        self.names = dict(zip(names, self.numbers.sample(range(1, gap * len(names)), len(names))))
        self.clauses = dict(enumerate(formula, 1))
        self.lines = [self.clause("o", identity) for identity in self.clauses]
        self.numbers.shuffle(self.lines)
        for step in steps:
            self.add(step)
        self.lines += [self.clause("f", identity) for identity in self.clauses]

    def clause(self, letter: str, identity: int) -> bytes:
        literals = list(self.clauses[identity])
        self.numbers.shuffle(literals)
        return line(letter, self.names[identity], *literals, 0)

    def add(self, step: Step) -> None:
        if step.kind == "d":
            for identity in step.hints:
                self.lines.append(self.clause("d", identity))
                del self.clauses[identity]
            return
        self.clauses[step.identity] = step.literals
        hints = [self.names[hint] for hint in step.hints]
        words: List[Union[str, int]] = (["l", *hints, 0]
                                        if self.numbers.random() < self.hinted else [])
        self.lines.append(line("a", self.names[step.identity], *step.literals, 0, *words))


def frat(formula: List[Clause], steps: List[Step], seed: int, hinted: float,
         gap: int = 3) -> List[bytes]:
    """`hinted` is the share of additions with hints; about one number in `gap` is an identity."""
    return Frat(formula, steps, seed, hinted, gap).lines


# The forms, with the argument of --format for each.
Form = Tuple[str, Callable[[List[Clause], List[Step]], List[bytes]]]
FORMS: Dict[str, Form] = {
    "LRAT text": ("lrat", lambda formula, steps: [lrat(step) for step in steps]),
    "DRAT text": ("drat", drat),
    "binary DRAT": ("binary-drat", binary_drat),
    "binary LRAT, identities as literals": (
        "binary-lrat", lambda formula, steps: [binary_lrat(step) for step in steps]),
    "binary LRAT, identities as they are": (
        "binary-lrat", lambda formula, steps: [binary_lrat(step, varint) for step in steps]),
    "FRAT with hints": ("frat", lambda formula, steps: frat(formula, steps, 1, 1)),
    "FRAT with some hints": ("frat", lambda formula, steps: frat(formula, steps, 2, 0.5)),
    "FRAT without hints": ("frat", lambda formula, steps: frat(formula, steps, 3, 0)),
}
