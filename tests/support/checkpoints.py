"""The checkpoint of a run, computed from the rules, not by the program."""
import re
import shutil
from pathlib import Path
from typing import Dict, Iterable, List, Sequence, Set, Tuple

import pytest

from proof_forms import Clause, read_formula, read_steps

Entry = Tuple[int, Clause]
MOST_CLAUSES = 16_777_215  # of a formula


def printed(variables: int, entries: Iterable[Entry]) -> str:
    """A formula with these clauses. A comment before a clause gives the clause's identity, unless
    that is the clause's number in the formula."""
    lines = []
    for place, (identity, literals) in enumerate(entries, 1):
        note = f"c id {identity}\n" if identity != place else ""
        lines.append(note + "".join(f"{literal} " for literal in literals) + "0\n")
    return f"p cnf {variables} {len(lines)}\n" + "".join(lines)


def variables_of(formula: Path) -> int:
    return int(next(line for line in formula.read_text().splitlines()
                    if line.startswith("p")).split()[2])


def live(formula: Path, streams: Sequence[Path]) -> List[Entry]:
    """The clauses that are live if all lines are right: neither deleted by their owners nor dropped
    by all streams."""
    clauses: Dict[int, Clause] = dict(enumerate(read_formula(formula), 1))
    count = len(clauses)
    retired: Set[int] = set()
    dropped: List[Set[int]] = [set() for _ in streams]
    for number, stream in enumerate(streams):
        for step in read_steps(stream):
            if step.kind == "a":
                clauses[step.identity] = step.literals
            for identity in step.hints if step.kind == "d" else []:
                is_own = identity > count and (identity - count - 1) % len(streams) == number
                (retired if is_own else dropped[number]).add(identity)
    left_out = retired | set.intersection(*dropped)
    return [(identity, literals) for identity, literals in sorted(clauses.items())
            if identity not in left_out]


def sorted_literals(text: str) -> List[str]:
    """The lines, with the literals of each clause sorted and without repetitions: no rule fixes
    their order."""
    lines = []
    for line in text.split("\n"):
        if line and line[0] not in "cp":
            assert re.fullmatch(r"(-?[1-9]\d* )*0", line), f"a clause is misspelled: {line}"
            line = " ".join(sorted(set(line.split()[:-1]), key=int))
        lines.append(line)
    return lines


def want_checkpoint(path: Path, wanted: str) -> None:
    """The file has this text, except for the order of literals."""
    assert sorted_literals(path.read_text()) == sorted_literals(wanted)


def most_clauses(work: Path) -> Path:
    """A formula with as many clauses as a formula may have."""
    formula = work / "formula"
    if shutil.disk_usage(work).free < 300_000_000:
        pytest.skip("less than 300 MB are free for files")
    with open(formula, "w") as file:
        file.write(f"p cnf 1 {MOST_CLAUSES}\n")
        for _ in range(15):
            file.write("1 0\n" * (MOST_CLAUSES // 15))
    return formula
