"""Runs the filter, and the program on its output."""
import re
from pathlib import Path
from typing import List, Sequence, Tuple, Union

from harness import FILTER, Ran, enough_for, report, run, written

Text = Union[str, bytes]
FIRST = "5 2 0 1 2 0\n"      # the first line of a proof over the four clauses
ONE_OF_TWO = ["--stream", "1", "--streams", "2"]


def exact(words: Sequence[object], given: Text = b"") -> Ran:
    """The filter's standard output, standard error and status."""
    return run([FILTER, *words], given)


def is_refuting(path: object) -> bool:
    """Whether the stream's last line adds the empty clause. The filter writes it as soon as unit
    propagation finds a conflict."""
    lines = Path(str(path)).read_text().splitlines()
    return bool(lines) and lines[-1].split()[1] == "0"


def check(program: str, formula: Path, streams: Sequence[Tuple[object, int]]) -> None:
    """Checks that the formula is refuted, and that each stream has the expected number of
    additions, or fewer if it ends with the empty clause."""
    paths = [Path(str(path)) for path, _ in streams]
    done = run([program, "--tries", "1000000", *enough_for(paths), formula, *paths])
    *lines, verdict = done.out.splitlines() or [""]
    assert (verdict, done.status) == ("s UNSATISFIABLE", 0), done.out + done.err
    assert len(lines) == len(streams), done.out
    for number, (line, (path, wanted)) in enumerate(zip(lines, streams), 1):
        found = re.fullmatch(rf"c stream {number}: (\d+) added, \d+ deleted, ended", line)
        count = int(found[1]) if found else -1
        assert count == wanted or 0 <= count < wanted and is_refuting(path), (
            f"expected {wanted} additions, but found\n{line}")


def at_place(stream: Tuple[object, int], place: int, count: int) -> List[Tuple[object, int]]:
    """This stream as number `place` of `count`, and empty streams as the others."""
    return [stream if number == place else ("/dev/null", 0) for number in range(1, count + 1)]


def sorted_hints(text: str) -> List[Tuple[List[str], List[str]]]:
    """Each line, with its hints sorted."""
    lines = [line.split() for line in text.splitlines()]
    heads = [words.index("0", 1) for words in lines]
    return [(words[:end], sorted(words[end:])) for words, end in zip(lines, heads)]


def check_report(program: str, formula: Path, text: str, said: str, work: Path) -> None:
    """The program's report begins with these words about the stream."""
    done = run([program, *enough_for([text.encode()]), formula, written(text, work, "exact")])
    assert done.out.splitlines()[:1] == report([said], 3).splitlines()[:1], done.err
