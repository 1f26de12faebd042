"""lrupd's report and status on small formulas and streams that Hypothesis makes, compared with what
reference.py computes from the page FORMAT: with --serial, and for one stream also with threads.
Most lines follow by resolution; some are changed, and so are some bytes."""
import tempfile
from pathlib import Path
from typing import Dict, List, NamedTuple, Optional, Sequence, Tuple

import pytest

pytest.importorskip("hypothesis")
from hypothesis import example, given
from hypothesis import strategies as st

from harness import PROGRAM, Ran, dimacs, run, written
from properties import checked
from reference import expected

BYTES = ["", *list(" 0123456789-di\n")]
CHANGES = ["a hint less", "a hint twice", "hints swapped", "another hint", "a hint more",
           "another literal", "a literal less", "another identity"]


class Given(NamedTuple):
    """A run. If literals are assumed, there is a file with them."""
    variables: int
    formula: List[List[int]]
    streams: List[str]
    lines: int
    room: int
    assumed: Optional[List[int]] = None


def resolved(known: Dict[int, List[int]], one: int, other: int) -> Tuple[List[int], List[int]]:
    """A clause and its hints: the resolvent, or the first clause again."""
    for literal in known[one]:
        if -literal in known[other]:
            rest = [left for left in known[one] if left != literal]
            rest += [left for left in known[other] if left != -literal and left not in rest]
            if not any(-left in rest for left in rest):
                return rest, [one, other]
    return known[one], [one]


@st.composite
def runs(draw: st.DrawFn, most_streams: int) -> Given:
    variables = draw(st.integers(1, 4))
    literal = st.sampled_from([sign * one for one in range(1, variables + 1) for sign in (1, -1)])
    formula = draw(st.lists(st.lists(literal, max_size=3), min_size=1, max_size=8))
    count = draw(st.integers(1, most_streams))
    lines, room = draw(st.integers(1, 9)), draw(st.integers(0, 16))
    most = len(formula) + count * lines + 2
    known = dict(enumerate(formula, 1))
    last = [len(formula) + number + 1 - count for number in range(count)]
    streams = [""] * count

    def any_identity() -> int:
        return draw(st.sampled_from(sorted(known)) | st.integers(1, most))

    def addition(number: int) -> str:
        one, other = draw(st.sampled_from(sorted(known))), draw(st.sampled_from(sorted(known)))
        literals, hints = resolved(known, one, other)
        identity = last[number] + count * draw(st.sampled_from([1, 1, 1, 2]))
        change = draw(st.sampled_from([""] * 8 + CHANGES))
        if change == "a hint less":
            hints = hints[:-1]
        elif change == "a hint twice":
            hints = [hints[0], *hints]
        elif change == "hints swapped":
            hints = hints[::-1]
        elif change == "another hint":
            hints = [any_identity(), *hints[1:]]
        elif change == "a hint more":
            hints = [*hints, any_identity()]
        elif change == "another literal":
            literals = [*literals, draw(literal | st.just(variables + 1))]
        elif change == "a literal less":
            literals = literals[1:]
        elif change == "another identity":
            identity = any_identity()
        last[number] = identity
        known[identity] = literals
        return " ".join(map(str, [identity, *literals, 0, *hints, 0])) + "\n"

    def deletion(number: int) -> str:
        gone = [any_identity() for _ in range(draw(st.integers(0, 2)))]
        return " ".join(map(str, [1, "d", *gone, 0])) + "\n"

    def taken_over(number: int) -> str:
        identity = any_identity()
        literals = known.get(identity, [1])[::draw(st.sampled_from([1, -1]))]
        more = draw(st.sampled_from([0, 0, 0, 1, -1]))
        return " ".join(map(str, [identity, "i", *literals, *[more] * abs(more), 0])) + "\n"

    for _ in range(draw(st.integers(0, 8))):
        for number in range(count):
            made = draw(st.sampled_from([addition] * 5 + [deletion, taken_over]))
            streams[number] += made(number)
    for number, text in enumerate(streams):
        if text and draw(st.sampled_from([False] * 5 + [True])):
            at = draw(st.integers(0, len(text) - 1))
            streams[number] = text[:at] + draw(st.sampled_from(BYTES)) + text[at + 1:]
    assumed = draw(st.none() | st.lists(literal, max_size=2, unique_by=abs))
    return Given(variables, formula, streams, lines, room, assumed)


def want_report(one: Given, ways: Sequence[Sequence[str]]) -> None:
    out, status = expected(one.variables, one.formula, one.streams, one.lines, one.room,
                           one.assumed)
    with tempfile.TemporaryDirectory() as name:
        folder = Path(name)
        words: List[object] = ["--tries", 0, "--lines", one.lines, "--room", one.room]
        if one.assumed is not None:
            cube = " ".join(map(str, [*one.assumed, 0])) + "\n"
            words += ["--assume", written(cube, folder, "cube")]
        words.append(written(dimacs(one.variables, one.formula), folder))
        words += [written(text, folder, f"stream-{number}")
                  for number, text in enumerate(one.streams, 1)]
        for way in ways:
            assert run([PROGRAM, *way, *words]) == Ran(out, "", status), way


FOUR_CLAUSES = [[1, 2], [-1, 2], [1, -2], [-1, -2]]


@checked(1000)
@given(runs(3))
@example(Given(2, FOUR_CLAUSES, ["5 2 0 1 2 0\n6 i -2 0\n7 0 5 6 0\n",
                                 "6 -2 0 3 4 0\n6 d 3 4 0\n"], 2, 2))
@example(Given(2, FOUR_CLAUSES, ["5 2 0 1 2 0\n5 d 5 0\n", "6 1 0 1 3 0\n8 0 5 3 4 0\n"], 2, 2))
@example(Given(2, FOUR_CLAUSES, ["5 2 0 -1", "1000000000000000000", "7 2 0 1 2 0\n5 d 4"], 2, 2))
def test_streams_in_turn(one: Given) -> None:
    want_report(one, [["--serial"]])


@checked(400)
@given(runs(1))
@example(Given(2, FOUR_CLAUSES, ["5 2 0 1 2 0\n6 0 5 3 4 0\n"], 2, 2))
def test_one_stream(one: Given) -> None:
    want_report(one, [[], ["--serial"]])
