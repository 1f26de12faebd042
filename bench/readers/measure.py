#!/usr/bin/env python3
"""measure.py [--rounds N] FILE..

Times `dimacs` on formulas (FILE.cnf), `lrup_text` on streams (any other file), and a C program that
only adds up their numbers. A formula is read as a whole, a stream in pieces of 65,536 bytes. The
reader and the C program run in turn; each round takes the best pass of each, and the figures are
medians over the rounds. Needs the toolchain's `rt`, and `cc`."""

import argparse
import os
import shutil
import statistics
import subprocess
import tempfile
from pathlib import Path

HERE = Path(__file__).resolve().parent
ROOT = HERE.parents[1]
CRATES = ("lrup_model", "dimacs", "lrup_text")


def build_reader(work: Path) -> Path:
    """Proves and builds readers.rt.in in a repository of its own. The source ends in .in, since rt
    refuses a .rt file that no crate of this repository has."""
    crate = work / "crates" / "readers"
    (crate / "src").mkdir(parents=True)
    for name in CRATES:
        shutil.copytree(ROOT / "crates" / name, work / "crates" / name,
                        ignore=shutil.ignore_patterns("must-fail"))
    shutil.copy(HERE / "readers.rt.in", crate / "src" / "main.rt")
    shutil.copy(ROOT / "HANDLES", work)
    lines = (ROOT / "crates.txt").read_text().splitlines()
    uses = [line for line in lines if line.partition(":")[0] in CRATES]
    (work / "crates.txt").write_text("\n".join([*uses, "readers: dimacs lrup_text", ""]))
    subprocess.run(["git", "init", "-q", work], check=True)
    built = subprocess.run(["rt", "run"], cwd=crate, capture_output=True, text=True)
    program = crate / "out" / "readers"
    if not program.exists():
        raise SystemExit(built.stdout + built.stderr)
    return program


def build_numbers(work: Path) -> Path:
    program = work / "numbers"
    subprocess.run([os.environ.get("CC", "cc"), "-O3", "-march=native", "-o", program,
                    HERE / "numbers.c"], check=True)
    return program


def speed(program: Path, path: str) -> float:
    """The best pass, in MB/s."""
    way = "whole" if path.endswith(".cnf") else "pieces"
    lines = subprocess.run([program, way, path], check=True, capture_output=True,
                           text=True).stdout.splitlines()
    passes = [int(line.rsplit(" ", 2)[-2]) for line in lines]
    return os.path.getsize(path) * 1e3 / min(passes)


def main() -> None:
    parser = argparse.ArgumentParser(description=__doc__,
                                     formatter_class=argparse.RawDescriptionHelpFormatter)
    parser.add_argument("--rounds", type=int, default=5)
    parser.add_argument("files", nargs="+")
    arguments = parser.parse_args()
    with tempfile.TemporaryDirectory() as work:
        reader, numbers = build_reader(Path(work)), build_numbers(Path(work))
        print(f"{'file':24} {'reader, MB/s':>14} {'numbers in C, MB/s':>20} "
              f"{'time, reader to C':>18}")
        for path in arguments.files:
            pairs = [(speed(reader, path), speed(numbers, path)) for _ in range(arguments.rounds)]
            ours, theirs = (statistics.median(side) for side in zip(*pairs))
            print(f"{os.path.basename(path):24} {ours:14.0f} {theirs:20.0f} {theirs / ours:18.2f}")


if __name__ == "__main__":
    main()
