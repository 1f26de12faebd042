"""A checker of LRAT text without RAT steps, written from the paper on LRAT (docs/RELATED.md), not
from this repository.

    id literals 0 hints 0       derives a clause by reverse unit propagation
    id d ids 0                  deletes clauses

Identities are positive, and those of additions increase. All hints but the last are unit in turn,
and the last one is the conflict."""
import re
from typing import List, Optional

NUMBER = "[1-9][0-9]*"
GRAMMAR = re.compile(f"{NUMBER}( -?{NUMBER})* 0( {NUMBER})* 0\n|{NUMBER} d( {NUMBER})* 0\n")


def lrat_fault(formula: List[List[int]], proof: str) -> str:
    """The fault in the first wrong line; empty if all lines are right and one of them derives the
    empty clause."""
    clauses, last, is_refuted = dict(enumerate(formula, 1)), len(formula), False
    for number, line in enumerate(proof.splitlines(True), 1):
        if not GRAMMAR.fullmatch(line):
            return f"line {number}: not of LRAT's grammar"
        words = line.split()
        if words[1] == "d":
            if any(clauses.pop(int(word), None) is None for word in words[2:-1]):
                return f"line {number}: no clause to delete"
            continue
        end = words.index("0", 1)
        identity, clause, hints = (int(words[0]), [int(word) for word in words[1:end]],
                                   [int(word) for word in words[end + 1:-1]])
        if identity <= last:
            return f"line {number}: the identity {identity} after {last}"
        if not is_implied(clause, [clauses.get(hint) for hint in hints]):
            return f"line {number}: not shown by its hints"
        clauses[identity], last, is_refuted = clause, identity, is_refuted or not clause
    return "" if is_refuted else "no empty clause"


def is_implied(clause: List[int], hinted: List[Optional[List[int]]]) -> bool:
    """Checks by unit propagation over the hinted clauses, in order."""
    false = set(clause)
    for place, hint in enumerate(hinted, 1):
        if hint is None:
            return False
        left = set(hint) - false
        if not left:
            return place == len(hinted)
        if len(left) > 1 or any(-literal in false for literal in left):
            return False
        false.update(-literal for literal in left)
    return False
