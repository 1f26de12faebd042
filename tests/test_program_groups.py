"""Two groups of streams, checked separately and together.

Streams 1 and 2 cite each other, and so do 3 and 4, but neither group cites the other. So the report
on a group is the same with /dev/null in place of the other's streams."""
from typing import List, Sequence

import pytest

from harness import Ran, enough_for, example, run

STREAMS = [example(f"two-groups.{number}") for number in range(1, 5)]


@pytest.mark.parametrize("given", [
    pytest.param([1, 2], id="the first group"), pytest.param([3, 4], id="the second group"),
    pytest.param([1, 2, 3, 4], id="both")])
def test_a_groups_report_is_the_same_without_the_other(program: str, given: Sequence[int]) -> None:
    *lines, verdict = example("two-groups.out").read_text().splitlines()
    report: List[str] = [line if number in given
                         else f"c stream {number}: 0 added, 0 deleted, ended"
                         for number, line in enumerate(lines, 1)]
    streams = [stream if number in given else "/dev/null"
               for number, stream in enumerate(STREAMS, 1)]
    found = run([program, "--tries", "1000000", *enough_for(STREAMS), example("two-groups.cnf"),
                 *streams])
    assert found == Ran("\n".join([*report, verdict, ""]), "", 0)
