"""The numbers of instructions that lrupd takes, by valgrind, compared with the recorded figures.

lrupd is built by LLVM. With --serial, runs over the same files take the same number of
instructions. Only the lines are to be counted, so a run over empty streams is subtracted. Each
count has to be within 5 % of its figure: the toolchain is fixed, and the margin is for other C
libraries and processors. If a change is meant to move a count, replace its figure with the printed
one. How the work grows with an assumed cube is checked by ratios, which need no figure."""
import os
import re
from pathlib import Path
from typing import Sequence

from harness import SMALL_ROW, enough_for, example, needs, report, run, written

FOUR_SOLVERS, LONG_LINES = 6_259_316, 9_082_910
MARGIN = 0.05
LITERALS, HINTS = 65_535, 65_536    # the most in one line
ASSUMED, LINES = 20_000, 400


def counted(program: str, words: Sequence[object], wanted: str) -> int:
    """The number of instructions of a run, which has to end with this report."""
    needs("valgrind")
    done = run(["valgrind", "--tool=callgrind", f"--callgrind-out-file={os.devnull}", program,
                "--serial", *words])
    assert done.out == wanted
    found = re.search(r"^==\d+== Collected : (\d+)$", done.err, re.M)
    assert found, done.err
    return int(found[1])


def want_count(program: str, formula: Path, streams: Sequence[Path], wanted: str,
               figure: int) -> None:
    """The lines take as many instructions as recorded."""
    nothing = report(["0 added, 0 deleted, ended"] * len(streams), 3)
    words = [*enough_for(streams), formula]
    empty = counted(program, [*words, *[os.devnull] * len(streams)], nothing)
    count = counted(program, [*words, *streams], wanted) - empty
    print(f"{count} instructions, of {figure}, or 5 % more or less")
    assert abs(count - figure) <= MARGIN * figure


def test_four_solvers(program: str) -> None:
    """3,000 lines of some 70 bytes, each whole within one read."""
    streams = [example(f"bmc-four.{number}") for number in range(1, 5)]
    want_count(program, example("bmc.cnf"), streams, example("bmc-four.out").read_text(),
               FOUR_SOLVERS)


def test_long_lines(program: str, tmp_path: Path) -> None:
    """A line with the most literals, and one with the most hints, neither of which fits into a
    read. The third hint is one too many."""
    stream = written(f"5 {'2 ' * LITERALS}0 1 2 0\n6 2 0 1 2 {'100001 ' * (HINTS - 2)}0\n",
                     tmp_path)
    want_count(program, example("four-clause.cnf"), [stream],
               report(["1 added, 0 deleted, bad line 2 (excess 100001)"], 3), LONG_LINES)


def assumed(program: str, literals: int, lines: int, tmp_path: Path) -> int:
    """Some additions under that many assumed literals; no addition contradicts them."""
    formula = written(f"p cnf {LITERALS} 2\n1 2 0\n-1 2 0\n", tmp_path)
    cube = written("".join(f"{literal} " for literal in range(1, literals + 1)) + "0\n", tmp_path,
                   "cube")
    stream = written("".join(f"{number} 2 0 1 2 0\n" for number in range(3, 3 + lines)), tmp_path,
                     "stream")
    return counted(program, [*SMALL_ROW, "--assume", cube, formula, stream],
                   report([f"{lines} added, 0 deleted, ended"], 3))


def test_lines_under_a_cube(program: str, tmp_path: Path) -> None:
    """A cube is searched by bisection: lines under a large cube need only a few more instructions
    than under a small one."""
    few, many = [assumed(program, count, LINES, tmp_path) - assumed(program, count, 0, tmp_path)
                 for count in (1, ASSUMED)]
    print(f"{many} instructions under {ASSUMED:,} literals, {few} under one")
    assert many <= 2 * few


def test_a_large_cube(program: str, tmp_path: Path) -> None:
    """A cube is sorted once: twice as many literals take little more than twice as long."""
    none, small, large = [assumed(program, count, 0, tmp_path) for count in (0, 4_000, 8_000)]
    print(f"{large - none} instructions for 8,000 literals, {small - none} for 4,000")
    assert large - none <= 3 * (small - none)
