#!/usr/bin/env python3
"""Compares lrup-check with one and with several filters, and prints a table in Markdown.

    check.py [--rounds N] [--filters 1,2,4] [--formulas 'commute 8,sort 7 4']
             [--solver 'cadical -q --lrat'] CHECK LRUPD

CaDiCaL writes a proof of each formula, which is then checked with each number of filters in turn,
on the same cores. The shortest time by the clock counts, and the least processor time. The last
column compares the last number of filters with CaDiCaL's own time by the clock. The last row has
the averages of ratios."""
import argparse
import resource
import subprocess
import sys
import tempfile
import time
from pathlib import Path
from typing import Dict, List, Tuple

HERE = Path(__file__).resolve().parent
FORMULAS = ("commute 8", "divide 12", "sort 7 4", "distribute 7", "squares 9", "pipeline 6 8",
            "factor 4294967291", "gripper 7 14", "waerden 3 11 114", "random 250 8")


def processor_seconds() -> float:
    used = resource.getrusage(resource.RUSAGE_CHILDREN)
    return used.ru_utime + used.ru_stime


def proof_of(words: str, solver: str, folder: Path) -> Tuple[Path, Path, float]:
    """The files of the formula and its proof, and the seconds by the clock that CaDiCaL took."""
    formula, proof = folder / "formula", folder / "proof"
    with formula.open("w") as file:
        subprocess.run([sys.executable, str(HERE / "formulas.py"), *words.split()], stdout=file,
                       check=True)
    began = time.monotonic()
    subprocess.run([*solver.split(), str(formula), str(proof)], check=False,
                   stdout=subprocess.DEVNULL)
    return formula, proof, time.monotonic() - began


def measure(words: List[str]) -> Tuple[float, float]:
    """Seconds by the clock, and of the processor."""
    began, used = time.monotonic(), processor_seconds()
    status = subprocess.run(words, stdout=subprocess.DEVNULL, check=False).returncode
    if status != 0:
        sys.exit(f"{' '.join(words)}: status {status}")
    return time.monotonic() - began, processor_seconds() - used


def main() -> None:
    parser = argparse.ArgumentParser(description=__doc__,
                                     formatter_class=argparse.RawDescriptionHelpFormatter)
    parser.add_argument("--rounds", type=int, default=3)
    parser.add_argument("--filters", default="1,2,4")
    parser.add_argument("--formulas", default=",".join(FORMULAS))
    parser.add_argument("--solver", default="cadical -q")
    parser.add_argument("check")
    parser.add_argument("lrupd")
    given = parser.parse_args()
    filters: List[str] = given.filters.split(",")
    print("| Formula | Proof, MB | CaDiCaL, s |" + "".join(f" {count}, s |" for count in filters)
          + "".join(f" {count} to {filters[0]} |" for count in filters[1:])
          + " processor | to CaDiCaL |\n" + "|---" * (2 * len(filters) + 4) + "|")
    rows: List[List[float]] = []
    for words in given.formulas.split(","):
        with tempfile.TemporaryDirectory() as folder:
            formula, proof, solving = proof_of(words, given.solver, Path(folder))
            clock: Dict[str, float] = {}
            used: Dict[str, float] = {}
            for _ in range(given.rounds):
                for count in filters:
                    seconds, processor = measure([given.check, "--lrupd", given.lrupd, "-q", "-j",
                                                  count, str(formula), str(proof)])
                    clock[count] = min(clock.get(count, seconds), seconds)
                    used[count] = min(used.get(count, processor), processor)
            first, last = filters[0], filters[-1]
            rows.append([clock[count] / clock[first] for count in filters[1:]]
                        + [used[last] / used[first], clock[last] / solving])
            print(f"| {words} | {proof.stat().st_size / 1e6:.0f} | {solving:.1f} |"
                  + "".join(f" {clock[count]:.1f} |" for count in filters)
                  + "".join(f" {ratio:.2f} |" for ratio in rows[-1]), flush=True)
    print("| average | | |" + " |" * len(filters)
          + "".join(f" {sum(ratios) / len(rows):.3f} |" for ratios in zip(*rows)))


if __name__ == "__main__":
    main()
