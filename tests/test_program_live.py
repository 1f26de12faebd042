"""lrupd over pipes that are written while it runs.

Four recorded solvers each write their lines into a pipe, at a steady pace, and lrupd checks them
all at the same time. With --watch, a bad line is reported while its pipe is open, and a pipe
without a writer is named after a second. A checkpoint stays empty until all streams have ended."""
import re
import subprocess
import time
from pathlib import Path
from typing import Iterator, List, NamedTuple, Union

import pytest

from checkpoints import live, printed, variables_of, want_checkpoint
from harness import (FOUR, LIMIT, Ran, example, feed, held, piped, report, run, started, until,
                     unwatched, written)
from rounds import last, stream_name

PAUSE = 0.004  # seconds, after each of some 750 lines
BAD = "lrupd: stream 1: 0 added, 0 deleted, bad line 1 (spelling)\n"


class Late(NamedTuple):
    """The arguments, the pipes, the pipes whose writers come late, in the order of opening, and the
    answer without the lines of --watch."""
    words: str
    pipes: List[str]
    late: List[str]
    answer: Ran


LATE = 1.5  # seconds for which a late pipe has no writer; with --watch, after it is named
TEXTS = {"formula": FOUR, "cube": "-2 0\n", "one": "5 2 0 1 2 0\n7 0 5 3 4 0\n",
         "other": "6 -2 0 3 4 0\n", stream_name(1): "5 2 0 1 2 0\n", "d/round-2.sizes": "1 9 9\n",
         stream_name(2): "6 0 5 3 4 0\n"}
ROUNDS = [stream_name(1), "d/round-2.sizes", stream_name(2)]
SAID = ["2 added, 0 deleted, ended", "1 added, 0 deleted, ended"]
ALONE, BOTH, IN_ROUND_2 = (Ran(out, "", 0)
                           for out in (report(SAID[:1], 0), report(SAID, 0), last(2, SAID[1:], 0)))
LATE_WRITERS = [
    Late("formula one", ["formula", "one"], ["formula", "one"], ALONE),
    Late("--watch formula one other", ["formula", "one", "other"], [], BOTH),
    Late("--watch --assume cube formula one other", ["formula", "cube", "one", "other"],
         ["formula", "cube", "other"], BOTH),
    Late("--watch --serial formula one other", ["formula", "one", "other"], ["one", "other"], BOTH),
    Late(f"--watch --rounds d formula {ROUNDS[0]}", ["formula", *ROUNDS], ROUNDS[1:], IN_ROUND_2),
]


def lines_of(number: int) -> Iterator[Union[bytes, float]]:
    for line in example(f"bmc-four.{number}").read_bytes().splitlines(keepends=True):
        yield line
        yield PAUSE


def test_four_solvers(program: str, tmp_path: Path) -> None:
    pipes = [piped(tmp_path / str(number)) for number in range(1, 5)]
    for number, pipe in enumerate(pipes, 1):
        feed(pipe, lines_of(number))
    found = run([program, "--tries", "1000000", example("bmc.cnf"), *pipes])    # some five seconds
    assert found == Ran(example("bmc-four.out").read_text(), "", 0)


def test_a_bad_line_is_reported_while_pipes_are_open(program: str, tmp_path: Path) -> None:
    pipes, errors = [tmp_path / "bad", tmp_path / "open"], tmp_path / "errors"
    words = [program, "--watch", example("four-clause.cnf"), *pipes]
    with held(pipes[0]) as bad, held(pipes[1]) as end, open(errors, "wb") as err, \
            started(words, stdout=subprocess.PIPE, stderr=err, text=True) as checker:
        bad.write(b"no line\n")
        until(f"standard error has {BAD}", lambda: errors.read_text() == BAD)
        bad.close()
        end.close()
        out, _ = checker.communicate(timeout=LIMIT)
        status = checker.returncode
    ends = BAD + "lrupd: stream 2: 0 added, 0 deleted, ended\n"
    assert errors.read_text() == ends
    assert out == re.sub("^lrupd:", "c", ends, flags=re.M) + "s UNKNOWN\n"
    assert status == 3


def test_a_checkpoint_is_written_at_the_end(program: str, tmp_path: Path) -> None:
    halves = [written("".join(example(f"bmc-four.{number}").read_text().splitlines(True)[:370]),
                      tmp_path, f"half{number}") for number in range(1, 5)]
    pipes, saved, formula = ([tmp_path / str(number) for number in range(1, 5)], tmp_path / "saved",
                             example("bmc.cnf"))
    words = [program, "--tries", "1000000", "--checkpoint", saved, formula, *pipes]
    ends = list(map(held, pipes))
    with started(words, stdout=subprocess.PIPE, text=True) as checker:
        for half, end in zip(halves, ends):
            end.write(half.read_bytes())
        until("the checkpoint is created", saved.exists)
        assert checker.poll() is None
        assert saved.read_text() == ""
        for end in ends:
            end.close()
        out, _ = checker.communicate(timeout=LIMIT)
    assert out.count(" 370 added, 0 deleted, ended\n") == 4
    assert checker.returncode == 3, out
    want_checkpoint(saved, printed(variables_of(formula), live(formula, halves)))


@pytest.mark.parametrize("row", [
    pytest.param(row, id=f"{row.words}, and late are {' and '.join(row.late) or 'none'}")
    for row in LATE_WRITERS])
def test_late_writers(program: str, row: Late, tmp_path: Path) -> None:
    """With --watch, each pipe that has no writer for a second is named; otherwise no pipe is. Each
    late pipe gets its writer after some time, with --watch after the line that names the pipe."""
    for name in row.pipes:
        pipe = piped(tmp_path / name)
        if name not in row.late:
            feed(pipe, [TEXTS[name].encode()])
    errors, words = tmp_path / "errors", [program, *row.words.split()]
    expected: List[str] = []

    def named() -> List[str]:
        return re.findall("^lrupd: (.*): waits for a writer$", errors.read_text(), re.M)

    began = time.monotonic()
    with open(errors, "wb") as err, started(words, cwd=tmp_path, stdout=subprocess.PIPE,
                                            stderr=err, text=True) as checker:
        for name in row.late:
            if "--watch" in words:
                expected.append(name)
                until(f"{name} is named on standard error", lambda: named() == expected)
                assert time.monotonic() - began >= 1
            time.sleep(LATE)
            assert named() == expected      # before the writer comes
            began = time.monotonic()
            written(TEXTS[name], tmp_path, name)
        out, _ = checker.communicate(timeout=LIMIT)
    assert Ran(out, unwatched(errors.read_text()), checker.returncode) == row.answer
    assert named() == expected
