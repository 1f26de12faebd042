#!/usr/bin/env python3
"""Compares the filter's time with a checker's and with the solver's, and prints the ratios.

    ./table.py [--rounds N] [--work FOLDER] FILTER

The formulas are random 3-SAT, pigeonholes, and the bounded model check of examples/. CaDiCaL
refutes each of them, and the filter makes a stream of its proof. Then, N times (5 by default),
check.c of bench/program checks the stream, and the filter reads it as it is, with its hints
shuffled and with as many wrong ones added, and the solver's proof as text and in binary. All files
are cached, and for each program the run with the least processor time counts. Needs Python 3, a C
compiler and `cadical` on the PATH."""
import argparse
import os
import random
import subprocess
import sys
import tempfile
from typing import Dict, List, Tuple

sys.dont_write_bytecode = True
HERE = os.path.dirname(os.path.abspath(__file__))
ROOT = os.path.dirname(os.path.dirname(HERE))
sys.path.insert(0, ROOT)
from bench.program.measure import run

GENERATOR = os.path.join(ROOT, "examples", "solver", "generate.py")
FORMULAS = [("random 200 2", "random 3-SAT, 200 variables"),
            ("random 200 3", "random 3-SAT, another"),
            ("pigeons 8", "pigeonholes, 8"), ("bmc.cnf", "the bounded model check")]
REFUTED = 20 << 8       # a solver's status, as wait returns it
Command = Tuple[List[str], int]     # with its status


def make_formula(words: str, path: str) -> str:
    if words.endswith(".cnf"):
        return os.path.join(ROOT, "examples", words)
    with open(path, "w") as out:
        subprocess.run([sys.executable, GENERATOR] + words.split(), stdout=out, check=True)
    return path


def with_other_hints(stream: str, more: bool, out: str) -> None:
    """Writes the stream with the hints of each line shuffled and, if `more`, with as many random
    ones added."""
    numbers = random.Random(1)
    with open(stream) as lines, open(out, "w") as file:
        for line in lines:
            words = line.split()
            if words[1] != "d":
                end = words.index("0", 1)
                hints = words[end + 1:-1]
                if more:
                    hints += [str(numbers.randrange(1, int(words[0]))) for _ in hints]
                numbers.shuffle(hints)
                words[end + 1:-1] = hints
            file.write(" ".join(words) + "\n")


def wanted(words: List[str], status: int) -> Tuple[float, bytes]:
    """Runs the command, which has to end with the status. Returns its processor time and its
    output."""
    _, seconds, _, (out, found) = run(words)
    if found != status:
        sys.exit(f"status {found}: {' '.join(words)}")
    return seconds, out


def write(path: str, data: bytes) -> str:
    with open(path, "wb") as file:
        file.write(data)
    return path


def commands_of(given: argparse.Namespace, words: str, work: str) -> Tuple[Dict[str, Command], int]:
    """The commands by name, and the number of the stream's lines."""
    name = os.path.join(work, words.replace(" ", "-").replace(".cnf", ""))
    formula = make_formula(words, name + ".cnf")
    solver = ["cadical", "-q", formula, name + ".binary"]
    wanted(["cadical", "-q", "--no-binary", formula, name + ".drat"], REFUTED)
    wanted(solver, REFUTED)
    exact = [given.filter, formula]
    stream = write(name + ".lrup", wanted(exact + [name + ".drat"], 0)[1])
    with_other_hints(stream, False, name + ".shuffled")
    with_other_hints(stream, True, name + ".more")
    with open(stream) as file:
        lines = sum(1 for _ in file)
    return {
        "solver": (solver, REFUTED),
        "check": ([os.path.join(work, "check"), "--lines", str(lines), formula, stream], 0),
        "exact": (exact + [stream], 0),
        "shuffled": (exact + [name + ".shuffled"], 0),
        "more": (exact + [name + ".more"], 0),
        "text": (exact + [name + ".drat"], 0),
        "binary": ([given.filter, "--format", "binary-drat", formula, name + ".binary"], 0),
    }, lines


def main() -> None:
    arguments = argparse.ArgumentParser(description=__doc__.splitlines()[0])
    arguments.add_argument("--rounds", type=int, default=5)
    arguments.add_argument("--work")
    arguments.add_argument("filter")
    given = arguments.parse_args()
    given.filter = os.path.abspath(given.filter)
    compiler = os.environ.get("CC", "cc").split()
    with tempfile.TemporaryDirectory() as temporary:
        work = given.work or temporary
        os.makedirs(work, exist_ok=True)
        check = os.path.join(HERE, "..", "program", "check.c")
        subprocess.run(
            compiler + ["-std=c11", "-O2", "-pthread", "-o", os.path.join(work, "check"), check],
            check=True)
        print("| Formula | Lines | `check.c`, s | Exact hints | Shuffled | As many more | CaDiCaL, "
              "s | DRAT text | Binary DRAT |")
        print("|---|---|---|---|---|---|---|---|---|", flush=True)
        for words, title in FORMULAS:
            commands, lines = commands_of(given, words, work)
            least = dict.fromkeys(commands, float("inf"))
            for _ in range(given.rounds):
                for name, command in commands.items():
                    least[name] = min(least[name], wanted(*command)[0])
            to_check = " | ".join(f"{least[name] / least['check']:.2f}"
                                  for name in ("exact", "shuffled", "more"))
            to_solver = " | ".join(f"{least[name] / least['solver']:.2f}"
                                   for name in ("text", "binary"))
            print(f"| {title} | {lines:,} | {least['check']:.3f} | {to_check} | "
                  f"{least['solver']:.3f} | {to_solver} |", flush=True)


main()
