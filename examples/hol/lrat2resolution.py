#!/usr/bin/env python3
"""Turns LRAT text without RAT steps into a resolution proof as MiniSat-p 1.14 writes it.

    lrat2resolution.py FORMULA PROOF.lrat > PROOF

The formula's clauses come first, sorted and without tautologies. Then each step is a chain: the
clauses of its hints are resolved, from the conflict back to the first hint. The resulting clause
may be shorter than the step's; later chains use it as it is."""
import sys
from typing import Dict, Iterator, List, Set, Tuple

Clause = Set[int]
# A clause's id, and the variable on which it is resolved (0 for the first clause).
Chain = List[Tuple[int, int]]


def coded(value: int) -> bytes:
    """A number in one to four bytes; the first bits say how many."""
    if value < 0x80:
        return bytes([value])
    for more, mark in ((1, 0x80), (2, 0xA0), (3, 0xC0)):
        if value < 0x20 << 8 * more:
            return (mark << 8 * more | value).to_bytes(more + 1, "big")
    sys.exit("lrat2resolution.py: the proof is too long")


def clauses_of(path: str) -> Iterator[Clause]:
    clause: List[int] = []
    with open(path) as lines:
        for word in (word for line in lines if line[0] not in "cp" for word in line.split()):
            if word != "0":
                clause.append(int(word))
                continue
            yield set(clause)
            clause = []


def root(clause: Clause) -> bytes:
    """The first literal, then the distances to the next ones."""
    literals = sorted(2 * (abs(literal) - 1) + (literal < 0) for literal in clause)
    return coded(2 * literals[0]) + b"".join(coded(one - before)
                                             for before, one in zip(literals, literals[1:])) + b"\0"


def resolved(clauses: Dict[int, Clause], literals: List[int],
             hints: List[int]) -> Tuple[Clause, Chain]:
    false, units = set(literals), []
    for hint in hints:
        left = [literal for literal in clauses[hint] if literal not in false]
        if not left:
            break
        units.append((hint, left[0]))
        false.add(-left[0])
    clause, chain = set(clauses[hint]), [(hint, 0)]
    for hint, literal in reversed(units):
        if -literal in clause:
            clause = clause - {-literal} | clauses[hint] - {literal}
            chain.append((hint, abs(literal)))
    return clause, chain


def main() -> None:
    if len(sys.argv) != 3:
        sys.exit(__doc__)
    out = sys.stdout.buffer
    clauses: Dict[int, Clause] = {}
    place: Dict[int, int] = {}      # in the resolution proof
    count = 0
    for identity, clause in enumerate(clauses_of(sys.argv[1]), 1):
        if not any(-literal in clause for literal in clause):
            clauses[identity], place[identity], count = clause, count, count + 1
            out.write(root(clause))
    with open(sys.argv[2]) as lines:
        for words in (line.split() for line in lines):
            if words[1] == "d":
                for word in words[2:-1]:
                    clauses.pop(int(word), None)
                continue
            identity, end = int(words[0]), words.index("0", 1)
            clauses[identity], chain = resolved(clauses, list(map(int, words[1:end])),
                                                list(map(int, words[end + 1:-1])))
            first = count - place[chain[0][0]]
            place[identity] = count
            if len(chain) == 1:
                place[identity] = place[chain[0][0]]
                continue
            out.write(coded(2 * first + 1))
            out.write(b"".join(coded(variable) + coded(count - place[hint])
                               for hint, variable in chain[1:]) + b"\0")
            count += 1


main()
