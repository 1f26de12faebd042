#!/usr/bin/env python3
"""Compares lrup-solve with and without cubes, and prints a table in Markdown.

    cubes.py [--rounds N] [--engines N] SOLVE LRUPD

examples/cubes/split.py splits each formula, which is then solved without and with the cubes, in
turn and on the same cores. The shortest time by the clock counts."""
import argparse
import subprocess
import sys
import tempfile
import time
from pathlib import Path
from typing import List, NamedTuple

HERE = Path(__file__).resolve().parent
SPLIT = HERE.parent.parent / "examples" / "cubes" / "split.py"
UNSATISFIABLE = 20


class Split(NamedTuple):
    words: str          # of formulas.py
    title: str
    cubes: int


FORMULAS = (Split("waerden 4 6 73", "van der Waerden, 4 and 6", 200),
            Split("waerden 3 12 135", "van der Waerden, 3 and 12", 100),
            Split("commute 9", "two multipliers of 9 bits", 64))


def output_of(words: List[object], to: Path) -> Path:
    with to.open("w") as file:
        subprocess.run([sys.executable, *map(str, words)], stdout=file, check=True)
    return to


def seconds(words: List[object]) -> float:
    began = time.monotonic()
    status = subprocess.run(list(map(str, words)), stdout=subprocess.DEVNULL).returncode
    took = time.monotonic() - began
    return took if status == UNSATISFIABLE else sys.exit(f"{words}: status {status}")


def main() -> None:
    parser = argparse.ArgumentParser(description=__doc__,
                                     formatter_class=argparse.RawDescriptionHelpFormatter)
    parser.add_argument("--rounds", type=int, default=3)
    parser.add_argument("--engines", type=int, default=2)
    parser.add_argument("solve")
    parser.add_argument("lrupd")
    given = parser.parse_args()
    print("| Formula | Cubes | Without, s | With, s | Ratio |\n|---|---|---|---|---|")
    with tempfile.TemporaryDirectory() as folder:
        for words, title, count in FORMULAS:
            formula = output_of([HERE / "formulas.py", *words.split()], Path(folder, "formula"))
            cubes = output_of([SPLIT, count, formula], Path(folder, "cubes"))
            solve = [given.solve, "--lrupd", given.lrupd, "-q", "-j", given.engines]
            ways = [solve + [formula], solve + ["--cubes", cubes, formula]]
            times = [[seconds(way) for way in ways] for _ in range(given.rounds)]
            without, with_cubes = (min(column) for column in zip(*times))
            number = sum(line.startswith("a ") for line in cubes.read_text().splitlines())
            print(f"| {title} | {number} | {without:.1f} | {with_cubes:.1f} | "
                  f"{with_cubes / without:.2f} |", flush=True)


if __name__ == "__main__":
    main()
