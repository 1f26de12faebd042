#!/usr/bin/env python3
"""Runs two commands in turn, and compares their times and memory.

    ./measure.py [--rounds N] 'COMMAND' 'OTHER COMMAND'

Prints the medians of each command's wall and processor time in seconds and of its peak memory in
MiB, and the ratios of the first to the second. Both commands have to print the same output and
end with the same status in every run. On a busy machine only the ratios within one run count."""
import argparse
import os
import shlex
import statistics
import sys
import tempfile
import time
from typing import List, Sequence, Tuple

# Wall seconds, processor seconds, peak MiB, and the output with the status.
Ran = Tuple[float, float, float, Tuple[bytes, int]]


def run(words: List[str]) -> Ran:
    with tempfile.TemporaryFile() as out:
        start = time.perf_counter()
        child = os.fork()
        if child == 0:
            os.dup2(out.fileno(), 1)
            os.execvp(words[0], words)
        _, status, usage = os.wait4(child, 0)
        wall = time.perf_counter() - start
        out.seek(0)
        return wall, usage.ru_utime + usage.ru_stime, usage.ru_maxrss / 1024, (out.read(), status)


def medians(results: Sequence[Ran]) -> List[float]:
    """Of wall time, processor time and memory."""
    return [statistics.median(column) for column in list(zip(*results))[:3]]


def main() -> None:
    arguments = argparse.ArgumentParser(description=__doc__.splitlines()[0])
    arguments.add_argument("--rounds", type=int, default=11)
    arguments.add_argument("commands", nargs=2)
    given = arguments.parse_args()
    commands = [shlex.split(command) for command in given.commands]
    found: Tuple[List[Ran], List[Ran]] = [], []
    for _ in range(given.rounds):
        for command, results in zip(commands, found):
            results.append(run(command))
    if len({result[3] for results in found for result in results}) > 1:
        sys.exit("the outputs differ")
    for name, one, other in zip(("wall", "processor", "memory"), *map(medians, found)):
        print(f"{name:10} {one:10.3f} {other:10.3f}   ratio {one / other:.2f}")


if __name__ == "__main__":
    main()
