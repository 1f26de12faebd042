#!/usr/bin/env python3
"""Lets one of ACL2's verified checkers judge an LRAT proof from lrup-trim --lrat.

    acl2.py [--stobj] FORMULA PROOF

The checker is the incremental one from ACL2's books, or, with --stobj, the stobj-based one. The
script prints 's VERIFIED', with status 0, or 's NOT VERIFIED' and ACL2's message, with status 1. It
needs Debian's packages acl2, acl2-books and acl2-books-certs.

The checkers' theorems don't cover their parsers, which don't read all of DIMACS CNF and LRAT. So
the checkers get the formula in a simpler form: the header first, no comments, one clause on each
line, no repeated literal, and a copy of another clause in place of a tautology. The proof's
literals are sorted by variable, and the incremental checker gets compressed LRAT."""
import os
import re
import shutil
import subprocess
import sys
import tempfile
from typing import Dict, Iterator, List, NamedTuple, Sequence, Tuple

INCREMENTAL, STOBJ = "incremental", "stobj-based"
PACKAGES = "it needs Debian's packages acl2, acl2-books and acl2-books-certs"


class Verdict(NamedTuple):
    is_verified: bool
    seconds: float      # user time of the check, as ACL2 counts it
    fault: str


def clauses_of(path: str) -> Iterator[List[int]]:
    clause: List[int] = []
    with open(path) as lines:
        for word in (word for line in lines if line[0] not in "cp" for word in line.split()):
            if word != "0":
                clause.append(int(word))
                continue
            yield clause
            clause = []


def is_tautology(clause: List[int]) -> bool:
    """Whether a clause without repeated literals has complementary ones."""
    return len({abs(literal) for literal in clause}) < len(clause)


def narrow_formula(path: str) -> str:
    with open(path) as lines:
        variables = int(next(line for line in lines if line[0] == "p").split()[2])
    clauses = [sorted(set(clause), key=abs) for clause in clauses_of(path)]
    proper: List[int] = next((clause for clause in clauses if not is_tautology(clause)), [])
    kept = [proper if is_tautology(clause) else clause for clause in clauses]
    return f"p cnf {variables} {len(kept)}\n" + "".join(" ".join(map(str, [*clause, 0])) + "\n"
                                                        for clause in kept)


def sorted_steps(path: str) -> Iterator[List[str]]:
    """The words of each line, with an addition's literals sorted by variable."""
    with open(path) as lines:
        for line in lines:
            words = line.split()
            if words[1] != "d":
                end = words.index("0", 1)
                words[1:end] = sorted(words[1:end], key=lambda word: abs(int(word)))
            yield words


def compressed_number(word: str) -> bytes:
    """Twice the absolute value, plus one if the number is negative, in bytes of seven bits, the
    lowest first."""
    rest, code = 2 * abs(int(word)) + (word[0] == "-"), bytearray()
    while rest > 127:
        code.append(rest & 127 | 128)
        rest >>= 7
    code.append(rest)
    return bytes(code)


def compressed_proof(path: str) -> Iterator[bytes]:
    codes: Dict[str, bytes] = {}
    for words in sorted_steps(path):
        kind, numbers = (b"d", words[2:]) if words[1] == "d" else (b"a", words)
        for word in numbers:
            if word not in codes:
                codes[word] = compressed_number(word)
        yield kind + b"".join(map(codes.__getitem__, numbers))


def converted(kind: str, formula: str, proof: str, work: str) -> Tuple[str, str]:
    """The paths of formula and proof, in the forms that this checker reads."""
    narrow, steps = os.path.join(work, "formula"), os.path.join(work, kind)
    with open(narrow, "w") as file:
        file.write(narrow_formula(formula))
    with open(steps, "wb") as out:
        lines = (" ".join(words).encode() + b"\n" for words in sorted_steps(proof))
        out.writelines(compressed_proof(proof) if kind == INCREMENTAL else lines)
    return narrow, steps


def judged(kind: str, files: Sequence[Tuple[str, str]]) -> List[Verdict]:
    """Judges formulas and proofs in the checker's forms. ACL2 ends after a proof that it accepts,
    and continues after any other."""
    found: List[Verdict] = []
    while len(found) < len(files):
        checks = "".join(f'(lrat::lrat-check "{formula}" "{proof}")\n(cw "~%next~%")\n'
                         for formula, proof in files[len(found):])
        forms = f'(include-book "projects/sat/lrat/{kind}/run" :dir :system)\n{checks}(exit 1)\n'
        done = subprocess.run(["acl2"], input=forms, stdout=subprocess.PIPE,
                              stderr=subprocess.STDOUT, text=True)
        if "FAILED" in done.stdout:
            sys.exit(f"acl2.py: acl2 can't load projects/sat/lrat/{kind}: {PACKAGES}")
        *refused, last = done.stdout.split("\nnext\n")
        found += [Verdict(False, 0, fault_in(said)) for said in refused]
        if len(found) < len(files):
            seconds = re.findall(r"([0-9.]+) seconds runtime", last)
            is_verified = (done.returncode == 0
                           and re.search(r"^s VERIFIED$", last, re.M) is not None)
            found.append(Verdict(is_verified, float(seconds[-1]) if seconds else 0,
                                 "" if is_verified else "acl2 ended"))
    return found


def fault_in(said: str) -> str:
    fault = re.search(r"^HARD ACL2 ERROR in (.*?)\n\n", said, re.M | re.S)
    return " ".join(fault[1].split()) if fault else "no verdict"


def main() -> int:
    words = sys.argv[1:]
    kind = STOBJ if words[:1] == ["--stobj"] else INCREMENTAL
    if len(words) != 2 + (kind == STOBJ):
        is_asked = words == ["--help"]
        print("usage: acl2.py [--stobj] FORMULA PROOF",
              file=sys.stdout if is_asked else sys.stderr)
        return 0 if is_asked else 2
    with tempfile.TemporaryDirectory() as work:
        try:
            files = converted(kind, words[-2], words[-1], work)
        except (OSError, ValueError, IndexError, StopIteration) as fault:
            sys.exit(f"acl2.py: FORMULA or PROOF can't be read: {str(fault) or 'no header'}")
        if not shutil.which("acl2"):
            sys.exit(f"acl2.py: no acl2 on the PATH: {PACKAGES}")
        found, = judged(kind, [files])
    print("s VERIFIED" if found.is_verified else f"s NOT VERIFIED\nc {found.fault}")
    return 0 if found.is_verified else 1


if __name__ == "__main__":
    sys.exit(main())
