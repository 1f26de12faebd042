#!/usr/bin/env python3
"""Compares lrupd with ACL2's verified LRAT checkers, in time and in what they accept.

    peers.py [--rounds N] [--work FOLDER] PROGRAM TRIM SOLVE

SOLVE, lrup-solve with two engines, and TRIM, lrup-trim, make the proofs, which FOLDER keeps. lrupd,
both checkers of ACL2, and check.c, an unverified one, have to accept all of them; each runs N times
in turn, 3 by default, and the least user time counts. With N = 0, nothing is timed. Then copies of
an LRAT proof get one fault each. The tables of RESULTS are printed. The status is 1 if a good proof
is refused, if lrupd accepts a faulty proof that both others refuse, except a proof with a literal
twice, or if lrupd accepts a proof for a satisfiable formula. It needs Python 3, a C compiler, and
Debian's acl2, acl2-books and acl2-books-certs."""
import argparse
import collections
import os
import random
import re
import resource
import shlex
import shutil
import subprocess
import sys
import tempfile
from typing import Callable, DefaultDict, Dict, List, Sequence, Sized, Tuple

sys.dont_write_bytecode = True
HERE = os.path.dirname(os.path.abspath(__file__))
ROOT = os.path.dirname(os.path.dirname(HERE))
EXAMPLES = os.path.join(ROOT, "examples")
sys.path.insert(0, ROOT)
from bench.program.measure import run
from examples import acl2

KINDS = (acl2.INCREMENTAL, acl2.STOBJ)
FORMULAS = ("pigeons 8", "random 200 8", "commute 6", "squares 7", "pipeline 4 8", "gripper 6 10",
            "factor 268435399", "random 250 8", "divide 12", "commute 7", "pigeons 9", "sort 6 4")
FAULTY = 50
SHORTEST = 0.05     # seconds
# ACL2's incremental checker skips a literal after a line end or a tab.
SATISFIABLE = {"a clause over two lines": "p cnf 2 2\n1\n2 0\n-1 0\n",
               "a tab in a clause": "p cnf 2 2\n1\t2 0\n-1 0\n"}
ITS_PROOF = "3 0 1 2 0\n"


# Proofs.


def output_of(words: Sequence[str]) -> str:
    """A tool's output; its status has to be 0 or 20."""
    done = subprocess.run(words, stdout=subprocess.PIPE, text=True)
    if done.returncode not in (0, 20):
        sys.exit(f"status {done.returncode}: {shlex.join(words)}")
    return done.stdout


def trimmed(given: argparse.Namespace, formula: str, streams: Sequence[str],
            proof: str) -> List[str]:
    """lrupd's command on the trimmed proof."""
    if os.path.exists(proof):
        os.unlink(proof)
    said = output_of([given.trim, "--lrat", proof, formula, *streams])
    return [given.program, *shlex.split(re.findall(r": lrupd (.*)", said)[0])]


def solved(given: argparse.Namespace, words: str, work: str) -> Tuple[str, str, List[str]]:
    """The formula, its LRAT proof, and lrupd's command."""
    name = os.path.join(work, words.replace(" ", "-"))
    formula, kept = name + ".cnf", name + ".kept"
    with open(formula, "w") as out:
        subprocess.run([sys.executable, os.path.join(HERE, "..", "solve", "formulas.py"),
                        *words.split()],
                       stdout=out, check=True)
    if not os.path.exists(os.path.join(kept, "command")):
        said = output_of([given.solve, "--lrupd", given.program, "-q", "-j", "2", "--replace",
                          "--proofs", kept, formula])
        if said != "s UNSATISFIABLE\n":
            sys.exit(f"lrup-solve on {words}: {said}")
    return formula, name + ".lrat", trimmed(given, formula, [kept], name + ".lrat")


# Times.


def user_time(words: List[str]) -> Tuple[float, float]:
    """The user time of a checker that has to accept the proof, and its peak memory in MiB."""
    before = resource.getrusage(resource.RUSAGE_CHILDREN).ru_utime
    _, _, memory, (out, status) = run(words)
    if status != 0 or b"s UNSATISFIABLE" not in out:
        sys.exit(f"not accepted: {shlex.join(words)}")
    return resource.getrusage(resource.RUSAGE_CHILDREN).ru_utime - before, memory


def verified_time(kind: str, formula: str, proof: str) -> float:
    found, = acl2.judged(kind, [(formula, proof)])
    if not found.is_verified:
        sys.exit(f"{kind}: {formula}: {found.fault}")
    return found.seconds


def ratio(seconds: float, others: float) -> str:
    """The ratio as text; '-' if the divisor is too short for the system's ticks."""
    return f"{seconds / others:.1f}" if others >= SHORTEST else "-"


def time_formula(given: argparse.Namespace, words: str, work: str) -> None:
    """Prints a row of the table."""
    formula, proof, lrupd = solved(given, words, work)
    own = {kind: acl2.converted(kind, formula, proof, os.path.join(work, kind)) for kind in KINDS}
    c = [os.path.join(work, "check"), *lrupd[1:3], formula, proof]
    least = dict.fromkeys(("lrupd", "--serial", "check.c", *KINDS), float("inf"))
    for _ in range(given.rounds):
        for name, command in (("lrupd", lrupd), ("--serial", [lrupd[0], "--serial", *lrupd[1:]]),
                              ("check.c", c)):
            least[name] = min(least[name], user_time(command)[0])
        for kind in KINDS:
            least[kind] = min(least[kind], verified_time(kind, *own[kind]))
    with open(proof, "rb") as lines:
        steps = sum(1 for _ in lines)
    ratios = [ratio(least["lrupd"], least["check.c"]),
              *(ratio(least[kind], least["lrupd"]) for kind in KINDS)]
    print(f"| {words} | {steps:,} | {os.path.getsize(proof) / 1e6:.1f} | "
          + " | ".join(f"{seconds:.2f}" for seconds in least.values()) + " | "
          + " | ".join(ratios) + " |", flush=True)


# Faulty proofs.


class Line:
    """A line of LRAT. A deletion keeps its text."""

    def __init__(self, text: str) -> None:
        self.text, words = text, text.split()
        self.is_deletion = words[1] == "d"
        end = 1 if self.is_deletion else words.index("0", 1)
        self.identity, self.literals, self.hints = words[0], words[1:end], words[end + 1:-1]

    def __str__(self) -> str:
        return (self.text if self.is_deletion
                else " ".join([self.identity, *self.literals, "0", *self.hints, "0"]))


def place(numbers: random.Random, items: Sized) -> int:
    return numbers.randrange(len(items))


def other_clause(numbers: random.Random, line: Line) -> str:
    return str(numbers.randrange(1, int(line.identity)))


def negated(word: str) -> str:
    return word[1:] if word[0] == "-" else "-" + word


# Each of these changes a line with literals and at least two hints, but not the last line.
FAULTS: Dict[str, Callable[[Line, random.Random], object]] = {
    "a hint left out": lambda line, numbers: line.hints.pop(place(numbers, line.hints)),
    "two hints in another order": lambda line, numbers: line.hints.insert(
        place(numbers, line.hints[1:]), line.hints.pop()),
    "another clause as hint": lambda line, numbers: line.hints.__setitem__(
        place(numbers, line.hints), other_clause(numbers, line)),
    "a hint after the conflict": lambda line, numbers: line.hints.append(
        other_clause(numbers, line)),
    "a negative hint": lambda line, numbers: line.hints.append(negated(line.hints.pop())),
    "a literal left out": lambda line, numbers: line.literals.pop(place(numbers, line.literals)),
    "a literal negated": lambda line, numbers: line.literals.append(negated(line.literals.pop())),
    "a literal twice": lambda line, numbers: line.literals.append(numbers.choice(line.literals)),
    "an id that was used": lambda line, numbers: setattr(line, "identity",
                                                         other_clause(numbers, line)),
}
# Each of these changes the list of lines at one line's index.
LIST_FAULTS: Dict[str, Callable[[List[Line], int, random.Random], object]] = {
    "a line left out": lambda lines, at, numbers: lines.pop(at),
    "a line twice": lambda lines, at, numbers: lines.insert(at, lines[at]),
    "a deletion too early": lambda lines, at, numbers: lines.insert(
        at, Line(f"{int(lines[at].identity) - 1} d {lines[at].hints[0]} 0")),
    "a deletion twice": lambda lines, at, numbers: lines.insert(
        at, next(line for line in lines[at:] if line.is_deletion)),
    "the end cut off": lambda lines, at, numbers: lines.__delitem__(slice(at, None)),
}
DOUBLED = "a literal twice"


def faulty_proof(text: str, kind: str, numbers: random.Random) -> str:
    lines = list(map(Line, text.splitlines()))
    at = numbers.choice([k for k, line in enumerate(lines[:-1])
                         if line.literals and len(line.hints) > 1 and not line.is_deletion])
    if kind in FAULTS:
        FAULTS[kind](lines[at], numbers)
    else:
        LIST_FAULTS[kind](lines, at, numbers)
    return "".join(f"{line}\n" for line in lines)


def verdicts(lrupd: Sequence[str], formula: str, proofs: Sequence[str],
             work: str) -> List[Tuple[bool, ...]]:
    """For each proof, whether lrupd and the two others accept it."""
    ended = [subprocess.run([*lrupd[:-2], formula, proof], stdout=subprocess.PIPE,
                            stderr=subprocess.PIPE) for proof in proofs]
    found = [[done.returncode == 0 for done in ended]]
    for kind in KINDS:
        own = []
        for number, proof in enumerate(proofs):
            folder = os.path.join(work, kind, str(number))
            os.makedirs(folder, exist_ok=True)
            own.append(acl2.converted(kind, formula, proof, folder))
        found.append([verdict.is_verified for verdict in acl2.judged(kind, own)])
    return list(zip(*found))


def judge_faulty(given: argparse.Namespace, work: str) -> None:
    """Uses the recorded streams of four solvers, so that each run has the same proofs."""
    formula, proof = os.path.join(EXAMPLES, "bmc.cnf"), os.path.join(work, "bmc.lrat")
    lrupd = trimmed(given, formula,
                    [os.path.join(EXAMPLES, f"bmc-four.{number}") for number in range(1, 5)], proof)
    lrupd[1:5] = []     # the default sizes, with room for one more line
    with open(proof) as file:
        text = file.read()
    kinds = [*FAULTS, *LIST_FAULTS]
    proofs: List[str] = []
    found: DefaultDict[str, List[Tuple[bool, ...]]] = collections.defaultdict(list)
    for number in range(FAULTY):
        proofs.append(os.path.join(work, f"faulty-{number}"))
        with open(proofs[-1], "w") as file:
            file.write(faulty_proof(text, kinds[number % len(kinds)], random.Random(number)))
    for number, accepted in enumerate(verdicts(lrupd, formula, proofs, work)):
        found[kinds[number % len(kinds)]].append(accepted)
    print("\n| One fault | Proofs | `lrupd` accepts | incremental | stobj-based |\n"
          "|---|---|---|---|---|")
    for kind, judged in found.items():
        print(f"| {kind} | {len(judged)} | "
              + " | ".join(str(sum(column)) for column in zip(*judged)) + " |")
    same = sum(len(set(one)) == 1 for judged in found.values() for one in judged)
    print(f"\n{same} of {FAULTY} times all three say the same.", flush=True)
    wrong = [kind for kind, judged in found.items()
             if kind != DOUBLED and (True, False, False) in judged]
    if wrong:
        sys.exit(f"lrupd accepts what both others refuse: {', '.join(wrong)}")


# Satisfiable formulas.


def judge_satisfiable(given: argparse.Namespace, work: str) -> None:
    """ACL2's checkers get the formula's bytes as they are, since this tests the parsers."""
    print("\n| A satisfiable formula, with | `lrupd` | incremental | stobj-based |\n"
          "|---|---|---|---|")
    for name, text in SATISFIABLE.items():
        for path, content in (("satisfiable", text), ("its-proof", ITS_PROOF)):
            with open(os.path.join(work, path), "w") as file:
                file.write(content)
        formula, proof = os.path.join(work, "satisfiable"), file.name
        is_accepted = subprocess.run([given.program, formula, proof],
                                     stdout=subprocess.DEVNULL).returncode == 0
        steps = (acl2.converted(kind, formula, proof, os.path.join(work, kind))[1]
                 for kind in KINDS)
        own = (acl2.judged(kind, [(formula, path)])[0].is_verified
               for kind, path in zip(KINDS, steps))
        print(f"| {name} | " + " | ".join("accepts" if one else "refuses"
                                          for one in (is_accepted, *own)) + " |", flush=True)
        if is_accepted:
            sys.exit("lrupd accepts a satisfiable formula")


def main() -> None:
    arguments = argparse.ArgumentParser(description=__doc__.splitlines()[0])
    arguments.add_argument("--rounds", type=int, default=3)
    arguments.add_argument("--work")
    for name in ("program", "trim", "solve"):
        arguments.add_argument(name, type=lambda word: os.path.abspath(word))
    given = arguments.parse_args()
    if not shutil.which("acl2"):
        sys.exit(f"peers.py: no acl2 on the PATH: {acl2.PACKAGES}")
    with tempfile.TemporaryDirectory() as temporary:
        work = os.path.abspath(given.work or temporary)
        for kind in KINDS:
            os.makedirs(os.path.join(work, kind), exist_ok=True)
        check, compiler = (os.path.join(HERE, "..", "program", "check.c"),
                           os.environ.get("CC", "cc").split())
        subprocess.run([*compiler, "-std=c11", "-O2", "-pthread", "-o", os.path.join(work, "check"),
                        check], check=True)
        if given.rounds > 0:
            print("| Formula | Steps | MB | `lrupd`, s | `--serial` | `check.c` | incremental | "
                  "stobj-based | `lrupd` to C | incremental to `lrupd` | stobj-based |\n"
                  + "|---" * 11 + "|", flush=True)
        for words in FORMULAS if given.rounds > 0 else ():
            time_formula(given, words, work)
        judge_faulty(given, work)
        judge_satisfiable(given, work)


main()
