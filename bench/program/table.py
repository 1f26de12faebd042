#!/usr/bin/env python3
"""Compares lrupd's time with an unverified checker's, check.c, on the example solver's streams.

    ./table.py [--rounds N] [--work FOLDER] PROGRAM SOLVER

It makes the formulas and the streams first, unless FOLDER has them from an earlier run. Then, for
each set, the program and the checker run in turn, with a thread for each stream, and on one thread
if all streams are accepted there. It prints the ratios of the medians. The outputs have to be the
same. Needs Python 3 and a C compiler."""
import argparse
import os
import subprocess
import sys
import tempfile
from typing import List, Sequence, Tuple

sys.dont_write_bytecode = True
HERE = os.path.dirname(os.path.abspath(__file__))
ROOT = os.path.dirname(os.path.dirname(HERE))
sys.path.insert(0, ROOT)
from bench.program.measure import Ran, medians, run

GENERATOR = os.path.join(ROOT, "examples", "solver", "generate.py")

# The words of generate.py, the number of streams, and the name in the table.
SETS = [
    ("random 250 5", 1, "random 3-SAT, one stream"),
    ("random 250 5", 4, "random 3-SAT, four"),
    ("pigeons 9", 1, "pigeonholes, one"),
    ("pigeons 9", 4, "pigeonholes, four"),
    ("order 25", 1, "an ordering formula, one"),
    ("order 25", 4, "an ordering formula, four"),
]


def make(work: str, solver: str, words: str, count: int) -> Tuple[str, List[str]]:
    """The paths of the formula and of the streams."""
    name = os.path.join(work, words.replace(" ", "-"))
    formula, streams = name + ".cnf", [f"{name}-{count}.{number}" for number in range(1, count + 1)]
    if not os.path.exists(formula):
        with open(formula, "w") as out:
            subprocess.run([sys.executable, GENERATOR] + words.split(), stdout=out, check=True)
    if not all(map(os.path.exists, streams)):
        partial = [stream + ".partial" for stream in streams]
        if subprocess.run([solver, formula] + partial, stdout=subprocess.DEVNULL).returncode != 20:
            sys.exit(f"the solver didn't refute {words}")
        for old, new in zip(partial, streams):
            os.rename(old, new)
    return formula, streams


def sizes(formula: str, streams: Sequence[str]) -> Tuple[int, int]:
    """The --lines and the --room that the streams need."""
    with open(formula) as text:
        clauses = int(next(line for line in text if line.startswith("p")).split()[3])
    lines = room = 1
    for stream in streams:
        last = literals = 0
        with open(stream, "rb") as data:
            for line in data:
                head = line.partition(b" 0 ")[0]
                if b"d" not in head:
                    literals += head.count(b" ")
                    last = int(head.split(b" ", 1)[0])
        lines = max(lines, -(-(last - clauses) // len(streams)))
        room = max(room, literals)
    return lines, room


def compare(ours: List[str], theirs: List[str],
            rounds: int) -> Tuple[List[float], List[float]]:
    """For each command, the medians of wall time, processor time and memory."""
    results: Tuple[List[Ran], List[Ran]] = [], []
    for _ in range(rounds):
        for command, found in zip((ours, theirs), results):
            found.append(run(command))
    outputs = {result[3] for found in results for result in found}
    if len(outputs) > 1:
        sys.exit("the outputs differ: " + " ".join(ours))
    return medians(results[0]), medians(results[1])


def main() -> None:
    arguments = argparse.ArgumentParser(description=__doc__.splitlines()[0])
    arguments.add_argument("--rounds", type=int, default=5)
    arguments.add_argument("--work")
    arguments.add_argument("program")
    arguments.add_argument("solver")
    given = arguments.parse_args()
    with tempfile.TemporaryDirectory() as temporary:
        work = given.work or temporary
        os.makedirs(work, exist_ok=True)
        check = os.path.join(work, "check")
        compiler = os.environ.get("CC", "cc").split()
        subprocess.run(
            compiler + ["-std=c11", "-O2", "-pthread", "-o", check, os.path.join(HERE, "check.c")],
            check=True)
        print("| Streams | MB | `--serial` | Threads, wall time | Threads, processor time | "
              "Seconds, ours with threads |")
        print("|---|---|---|---|---|---|", flush=True)
        for words, count, name in SETS:
            formula, streams = make(work, os.path.abspath(given.solver), words, count)
            lines, room = sizes(formula, streams)
            program = [os.path.abspath(given.program), "--lines", str(lines), "--room", str(room)]
            files, checker = [formula] + streams, [check, "--lines", str(lines)]
            one = "-"
            # The solvers ran at the same time, so with --serial a cited clause may come too late.
            if run(program + ["--serial"] + files)[3][0].count(b", ended\n") == count:
                ours, theirs = compare(program + ["--serial"] + files,
                                       checker + files, given.rounds)
                one = f"{ours[0] / theirs[0]:.2f}"
            ours, theirs = compare(program + ["--tries", "1000000"] + files,
                                   checker + ["--threads"] + files, given.rounds)
            megabytes = sum(map(os.path.getsize, streams)) / 1e6
            print(f"| {name} | {megabytes:.0f} | {one} | {ours[0] / theirs[0]:.2f} | "
                  f"{ours[1] / theirs[1]:.2f} | {ours[0]:.2f} |", flush=True)


main()
