"""What lrup-solve shows during a run: the progress line of a terminal, which no comment may touch,
and the lines of JSON for programs."""
import contextlib
import json
import os
import pty
import re
import select
import subprocess
import termios
import time
from pathlib import Path
from typing import Any, Dict, List, Optional, Sequence

import pytest

from harness import EXAMPLES, FOUR, Ran, generated, named, run, written
from solving import command

pytestmark = pytest.mark.usefixtures("lrup_solve")
COLUMNS = 80
PROGRESS = r"[\d.]+ s, .*"
SPLIT = EXAMPLES / "cubes" / "split.py"
HARD = "pigeons 11"     # isn't solved within the seconds of these runs


def on_terminal(words: Sequence[object], work: Path) -> str:
    """All bytes that a terminal of 80 columns gets, from standard output and standard error."""
    ours, theirs = pty.openpty()
    termios.tcsetwinsize(theirs, (24, COLUMNS))
    with subprocess.Popen(command(words), stdin=subprocess.DEVNULL, stdout=theirs, stderr=theirs,
                          cwd=work) as process:
        os.close(theirs)
        found = b""
        end = time.monotonic() + 60
        while time.monotonic() < end:
            if select.select([ours], [], [], 1)[0]:
                try:
                    found += os.read(ours, 4096)
                except OSError:     # nobody has the terminal open any more
                    break
        process.kill()
    os.close(ours)
    return found.decode()


def screen(raw: str) -> List[str]:
    """The lines that stay on the screen, without wrapping: CR goes to the first column, and ESC [ K
    clears from there."""
    lines, line, column = [], "", 0
    for piece in re.findall(r"\x1b\[K|[\s\S]", raw):
        if piece == "\x1b[K":
            line = line[:column]
        elif piece == "\r":
            column = 0
        elif piece == "\n":
            lines.append(line.rstrip())
            line, column = "", 0
        else:
            line = line[:column].ljust(column) + piece + line[column + 1:]
            column += 1
    return [*lines, line.rstrip()]


OFTEN = ["-j", 1, "--save-every", 1, "--time", 6]


@pytest.mark.parametrize("words, said", named([
    ("comments of lrupd", ["-v", *OFTEN, "--proofs", "kept"], "c lrupd: stream 1"),
    ("a resumed run", [*OFTEN, "--resume", "kept"], "begins, with")]))
def test_progress_line(words: Sequence[object], said: str, tmp_path: Path) -> None:
    """Each line on the screen is a comment or an answer, and a comment with this text comes while
    the progress is shown."""
    formula = generated(HARD, tmp_path)
    if "--resume" in words:
        before = ["-q", "-j", 1, "--time", 2, "--save-every", 1, "--proofs", "kept", formula]
        assert run(command(before), cwd=tmp_path).status == 0
    raw = on_terminal([*words, formula], tmp_path)
    lines = screen(raw)
    for line in lines:
        assert line == "" or re.match("[csv] ", line), (line, raw[-3000:])
    assert any(said in line for line in lines), lines
    shown = re.findall(rf"\r({PROGRESS}?)\x1b\[K", raw)
    assert len(shown) > 5, raw[:2000]
    for line in shown:
        assert len(line) < COLUMNS, line
        assert "reading" in line or re.match(r"[\d.]+ s, [\d.]+ GB free, ", line), line


@pytest.mark.parametrize("words, with_cubes", named([
    ("usual", [], False), ("quiet", ["-q"], False), ("with a record", ["--proofs", "kept"], False),
    ("with cubes", [], True)]))
def test_json(words: Sequence[object], with_cubes: bool, tmp_path: Path) -> None:
    """One object a second, whose numbers never become smaller, and a last one with the answer."""
    formula = generated(HARD, tmp_path)
    cubes = 0
    if with_cubes:
        (tmp_path / "cubes").write_text(run([SPLIT, 8, formula]).out)
        cubes = (tmp_path / "cubes").read_text().count("\n")
        words = [*words, "--cubes", "cubes"]
    done = run(command([*words, "-j", 2, "--progress", "json", "--time", 4.5, formula]),
               cwd=tmp_path)
    assert done.out.splitlines()[-1] == "s UNKNOWN"
    assert done.status == 0
    objects: List[Dict[str, Any]] = [json.loads(line) for line in done.err.splitlines()]
    assert 4 <= len(objects) <= 6, done.err
    names = ["seconds", "clauses_checked", "round", "bytes_behind", "bytes_free", "cubes_refuted",
             "cubes", "answer"]
    assert [found["answer"] for found in objects] == [None] * (len(objects) - 1) + ["s UNKNOWN"]
    for found in objects:
        assert list(found) == names
        assert found["cubes"] == cubes
        assert (found["bytes_free"] is None) == ("--proofs" not in words)
    for name in ("seconds", "clauses_checked", "round", "cubes_refuted"):
        values = [found[name] for found in objects]
        assert values == sorted(values), name
    assert objects[-1]["clauses_checked"] > 0 and 0.9 < objects[0]["seconds"] < 3, objects


@pytest.mark.parametrize("words, text, line, status", named([
    ("unsatisfiable", ["-q"], FOUR, "s UNSATISFIABLE", 20),
    ("satisfiable", [], "p cnf 2 1\n1 2 0\n", "s SATISFIABLE", 10),
    ("assumed", ["--assume", "assumed"], "p cnf 2 2\n-1 2 0\n-1 -2 0\n",
     "s UNSATISFIABLE UNDER ASSUMPTIONS", 20),
    ("no solver", ["--solver", "none"], FOUR, None, 1),
    ("no formula", [], "p cnf 1 1\n2 0\n", None, 1)]))
def test_the_answer_in_json(words: Sequence[object], text: str, line: Optional[str], status: int,
                            tmp_path: Path) -> None:
    """The last object has the answer's line; a run without an answer has no such object."""
    written("1 0\n", tmp_path, "assumed")
    done = run(command([*words, "--progress", "json", written(text, tmp_path)]), cwd=tmp_path)
    answer = [] if line is None else [line]
    assert done.status == status
    objects = [json.loads(text) for text in done.err.splitlines() if text.startswith("{")]
    assert [found["answer"] for found in objects][-1:] == answer, done
    assert [text for text in done.out.splitlines() if text.startswith("s ")] == answer


@pytest.mark.parametrize("words, text, status", [
    (["--time", 3, "-j", 1], None, 0), ([], FOUR, 20)], ids=["out of time", "proved"])
def test_json_that_nobody_reads(words: Sequence[object], text: Optional[str], status: int,
                                tmp_path: Path) -> None:
    """The pipe is full. The run goes on without these lines."""
    formula = written(text, tmp_path) if text else generated(HARD, tmp_path)
    ends = os.pipe()
    os.set_blocking(ends[1], False)
    with contextlib.suppress(BlockingIOError):
        while os.write(ends[1], bytes(4096)):
            pass
    os.set_blocking(ends[1], True)
    begun = time.monotonic()
    with subprocess.Popen(command([*words, "--progress", "json", formula]), stderr=ends[1],
                          stdout=subprocess.DEVNULL) as process:
        try:
            assert process.wait(60) == status
        finally:
            os.close(ends[0])
            os.close(ends[1])
    assert time.monotonic() - begun < 10


def test_another_form_than_json(tmp_path: Path) -> None:
    done = run(command(["--progress", "xml", generated(HARD, tmp_path)]))
    assert done == Ran("", "lrup-solve: --progress takes json, not xml\n", 1)
