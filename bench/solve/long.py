#!/usr/bin/env python3
"""Runs lrup-solve for a long time, and shows each round's figures.

    long.py [--time SECONDS] [--memory SIZE] [--engines N] [--svg FILE]
            [--proofs DIR [--kills N] [--after SECONDS]] SOLVE LRUPD FORMULA

It prints a line for each round: the row, the clauses that were derived and those that were carried
over, and the pause; and each process's own peak memory, in MB. --svg draws the clauses that each
round carried over, and the memory over time. With --proofs, the run keeps a record; its size is
printed, and how long its check takes. With --kills, the run is killed N times, each time after
SECONDS, and resumed."""
import argparse
import re
import subprocess
import sys
import threading
import time
from pathlib import Path
from typing import Dict, List, NamedTuple, Tuple

ROUND = re.compile(r"^c round (\d+): ([\d,]+) clauses .* in a row of ([\d,]+) words; ([\d,]+) "
                   r"carried over; a pause of ([\d.]+) s", re.M)
COLOURS = {"engine 1": "#1f5a8a", "engine 2": "#4f94c4", "filter 1": "#a35a00",
           "filter 2": "#d99b3d", "lrupd": "#3a7d44"}
WIDTH, HEIGHT, LEFT = 640, 180, 60


class Round(NamedTuple):
    number: int
    clauses: int
    words: int
    carried: int
    pause: float


Samples = Dict[str, List[Tuple[float, float]]]      # by the process's name: seconds, and MB


def rounds_of(text: str) -> List[Round]:
    found = [[word.replace(",", "") for word in match.groups()] for match in ROUND.finditer(text)]
    return [Round(int(number), int(clauses), int(words), int(carried), float(pause))
            for number, clauses, words, carried, pause in found]


def children_of(pid: str) -> List[str]:
    """The process's children, and their children."""
    children = Path(f"/proc/{pid}/task/{pid}/children").read_text().split()
    return children + [other for child in children for other in children_of(child)]


def size_of(record: Path) -> float:
    """The record's size in MB."""
    return sum(path.stat().st_size for path in record.rglob("*") if path.is_file()) / 1e6


def look(pid: int, began: float, samples: Samples) -> None:
    try:
        for child in [str(pid), *children_of(str(pid))]:
            facts = dict(re.findall(r"^(\w+):\s+(.*)$",
                                    Path(f"/proc/{child}/status").read_text(), re.M))
            samples.setdefault(facts["Name"], []).append((time.monotonic() - began,
                                                          int(facts["RssAnon"].split()[0]) / 1000))
    except (OSError, KeyError):
        pass        # the process has ended


def axes(top: int, title: str, most: float, unit: str) -> List[str]:
    return [f'<text x="{LEFT}" y="{top - 8}" font-size="12">{title}</text>',
            f'<path d="M{LEFT} {top}V{top + HEIGHT}H{LEFT + WIDTH}" fill="none" stroke="#888"/>',
            f'<text x="{LEFT - 6}" y="{top + 10}" text-anchor="end" '
            f'font-size="10">{most:,.0f}{unit}</text>',
            f'<text x="{LEFT - 6}" y="{top + HEIGHT}" text-anchor="end" font-size="10">0</text>']


def chart(rounds: List[Round], samples: Samples) -> str:
    most = max(one.carried for one in rounds)
    step = WIDTH / len(rounds)
    lines = axes(30, "clauses carried over, by round", most, "")
    for k, one in enumerate(rounds):
        height = HEIGHT * one.carried / most
        lines.append(f'<rect x="{LEFT + k * step + 1:.1f}" y="{30 + HEIGHT - height:.1f}" '
                     f'width="{step - 2:.1f}" height="{height:.1f}" fill="#1f5a8a"/>')
    top, last = 60 + HEIGHT, max(at for points in samples.values() for at, _ in points)
    size = max(much for name in COLOURS for _, much in samples.get(name, [(0, 0)]))
    lines += axes(top, f"memory of each process, over {last / 60:.0f} minutes", size, " MB")
    for k, (name, colour) in enumerate(COLOURS.items()):
        points = " ".join(
            f"{LEFT + WIDTH * at / last:.1f},{top + HEIGHT - HEIGHT * much / size:.1f}"
            for at, much in samples.get(name, []))
        lines += [f'<polyline points="{points}" fill="none" stroke="{colour}"/>',
                  f'<text x="{LEFT + 120 * k}" y="{top + HEIGHT + 18}" font-size="11" '
                  f'fill="{colour}">{name}</text>']
    head = (f'<svg xmlns="http://www.w3.org/2000/svg" width="{LEFT + WIDTH + 20}" '
            f'height="{top + HEIGHT + 30}" font-family="sans-serif">')
    return "\n".join([head, *lines, "</svg>", ""])


def solve(words: List[str], seconds: float, began: float,
          samples: Samples) -> Tuple[int, List[str]]:
    """Runs lrup-solve, and kills it after this many seconds. Returns its status and its output."""
    run = subprocess.Popen(words, stdout=subprocess.PIPE, text=True)
    said: List[str] = []
    assert run.stdout
    reading = threading.Thread(target=lambda: said.extend(run.stdout or []))
    reading.start()
    end = time.monotonic() + seconds
    while reading.is_alive():
        look(run.pid, began, samples)
        reading.join(min(5, max(0.1, end - time.monotonic())))
        if time.monotonic() > end:
            run.kill()
            reading.join()
    return run.wait(), said


def main() -> None:
    arguments = argparse.ArgumentParser(description=__doc__,
                                        formatter_class=argparse.RawDescriptionHelpFormatter)
    for name, usual in (("--time", "1200"), ("--memory", "64M"), ("--engines", "2"), ("--svg", ""),
                        ("--proofs", ""), ("--kills", "0"), ("--after", "600")):
        arguments.add_argument(name, default=usual)
    for name in ("solve", "lrupd", "formula"):
        arguments.add_argument(name)
    given = arguments.parse_args()
    if int(given.kills) and not given.proofs:
        arguments.error("--kills needs --proofs")
    words = [given.solve, "--lrupd", given.lrupd, "-v", "-j", given.engines, "--memory",
             given.memory, "--time", given.time]
    record = ["--proofs", given.proofs] if given.proofs else []
    samples: Samples = {}
    began, status, said, kills = time.monotonic(), -1, [""], int(given.kills)
    for k in range(kills + 1):
        seconds = float(given.after) if k < kills else float("inf")
        status, more = solve([*words, *record, given.formula], seconds, began, samples)
        said += more
        print(f"after {time.monotonic() - began:.0f} s: status {status}")
        if status >= 0:
            break
        record = ["--resume", given.proofs]
    rounds = rounds_of("".join(said))
    for one in rounds:
        print(f"round {one.number}: row {one.words:,} words, {one.clauses:,} clauses, "
              f"{one.carried:,} carried over, pause {one.pause:.2f} s")
    for letter in "cs":
        print([line for line in said if line.startswith(letter)][-1], end="")
    for name, points in samples.items():
        print(f"{name}: at most {max(much for _, much in points):.1f} MB")
    if given.proofs:
        began = time.monotonic()
        check = subprocess.run(["sh", f"{given.proofs}/command"], stdout=subprocess.DEVNULL)
        print(f"the record: {size_of(Path(given.proofs)):.0f} MB; its check: status "
              f"{check.returncode} after {time.monotonic() - began:.0f} s")
    if given.svg and rounds:
        Path(given.svg).write_text(chart(rounds, samples))
    sys.exit(status)


if __name__ == "__main__":
    main()
