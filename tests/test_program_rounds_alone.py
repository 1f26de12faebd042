"""lrupd --rounds, compared with a run of each round alone, with --checkpoint, on the checkpoint of
the round before: the report has to be the last of these runs', and each checkpoint has to have the
same bytes.

Recorded streams are cut into rounds, and random streams are written round by round, with some wrong
lines."""
import random
import shutil
import sys
from pathlib import Path
from typing import Any, Iterator, List, NamedTuple, Optional, Sequence, Tuple

import pytest

from harness import EXAMPLES, Ran, dimacs, enough_for, example, random_clauses, run, written
from proof_forms import Clause, read_formula
from rounds import first_words, saved_name, stream_name

TRIES = ["--tries", "1000000"]
WAYS: List[List[str]] = [[], ["--serial"]]
# Each proof with the numbers of rounds into which it is cut.
RECORDED = [("four-clause.cnf", ["four-clause.lrup"], (1, 2)),
            ("pigeonhole.cnf", ["pigeonhole.lrup"], (2, 7)), ("bmc.cnf", ["bmc.lrup"], (3, 9)),
            ("pigeonhole.cnf", ["pigeonhole-two.1", "pigeonhole-two.2"], (3,)),
            ("bmc.cnf", [f"bmc-four.{number}" for number in range(1, 5)], (2, 7)),
            ("two-groups.cnf", [f"two-groups.{number}" for number in range(1, 5)], (3,))]


class Sizes(NamedTuple):
    streams: int
    lines: int
    room: int


def options_of(sizes: Optional[Sizes]) -> List[object]:
    return ["--lines", sizes.lines, "--room", sizes.room] if sizes else []


class Alone(NamedTuple):
    """The answers of runs of one round each, and their checkpoints."""
    answers: List[Ran]
    saved: List[bytes]


def round_alone(program: str, options: Sequence[object], number: int, streams: int, folder: Path,
                alone: Alone) -> bool:
    """Runs one round; returns whether another round would follow."""
    formula = folder / (f"alone-{number}" if number > 1 else "formula")
    saved = folder / f"alone-{number + 1}"
    words = [folder / stream_name(number, stream) for stream in range(1, streams + 1)]
    answer = run([program, *options, "--checkpoint", saved, formula, *words])
    assert answer.err == ""
    assert answer.status in (0, 3, 8)
    alone.answers.append(answer)
    alone.saved.append(saved.read_bytes())
    return answer.status == 3 and answer.out.count(", ended\n") == streams


def want_same(program: str, options: Sequence[object], streams: int, folder: Path,
              alone: Alone) -> None:
    """A run in rounds, over the streams in the folder d, does the same as the runs of single
    rounds."""
    found = run([program, *options, *first_words([[""] * streams])], cwd=folder)
    count, last = len(alone.answers), alone.answers[-1]
    assert found == last._replace(out=f"c round {count}\n" * (count > 1) + last.out)
    for number, saved in enumerate(alone.saved, 2):
        assert (folder / saved_name(number)).read_bytes() == saved
    assert not (folder / saved_name(count + 2)).exists()


def recorded() -> Iterator[Any]:
    """With --serial only one stream: several cite each other's lines before their turn."""
    for formula, names, counts in RECORDED:
        for way in WAYS if len(names) == 1 else WAYS[:1]:
            for count in counts:
                yield pytest.param(way, formula, names, count,
                                   id=" ".join([names[0], *way, f"in {count} rounds"]))


@pytest.mark.parametrize("way, formula, names, count", recorded())
def test_recorded(program: str, way: List[str], formula: str, names: Sequence[str], count: int,
                  tmp_path: Path) -> None:
    cut = run([sys.executable, EXAMPLES / "chain.py", count, example(formula), tmp_path / "d",
               *map(example, names)])
    assert cut == Ran("", "", 0)
    for path in (tmp_path / "d").glob("*.sizes"):
        path.unlink()
    shutil.copy(example(formula), tmp_path / "formula")
    options, alone = [*TRIES, *way, *enough_for(map(example, names))], Alone([], [])
    went_on = [round_alone(program, options, number, len(names), tmp_path, alone)
               for number in range(1, count + 1)]
    assert went_on == [True] * (count - 1) + [False]
    assert alone.answers[-1].status == 0
    want_same(program, options, len(names), tmp_path, alone)


# Random rounds.


class Writer:
    """Writes a random stream of a round: additions by resolution, copies, imports and deletions."""

    def __init__(self, numbers: random.Random, formula: List[Clause], number: int,
                 streams: int) -> None:
        self.numbers, self.clauses = numbers, dict(enumerate(formula, 1))
        self.next, self.streams = len(formula) + number, streams
        self.lines: List[str] = []

    def resolvent(self) -> Optional[Tuple[Clause, List[int]]]:
        """A short resolvent of two clauses that clash in one variable: the first clause becomes
        unit, and the second is the conflict."""
        found: List[Tuple[Clause, List[int]]] = []
        for _ in range(50):
            first, second = self.numbers.sample(sorted(self.clauses), 2)
            left, right = self.clauses[first], self.clauses[second]
            clashes = [literal for literal in left if -literal in right]
            if len(clashes) == 1:
                found.append((sorted({*left, *right} - {clashes[0], -clashes[0]}, key=abs),
                              [first, second]))
        return min(found[:12], key=lambda step: len(step[0])) if found else None

    def add(self, literals: Clause, hints: List[int]) -> None:
        self.lines.append(" ".join(map(str, [self.next, *literals, 0, *hints, 0])))
        self.clauses[self.next] = literals
        self.next += self.streams * self.numbers.choice((1, 1, 1, 2))

    def write_line(self) -> None:
        kind, live = self.numbers.random(), sorted(self.clauses)
        # The first kind of line is usually wrong. Clauses of other streams aren't cited, since
        # their timing is unknown.
        if kind < 0.004:
            self.lines.append(f"{self.next} {self.numbers.choice((1, -2, 99))} 0 "
                              f"{self.numbers.choice([*live, 10 ** 9])} 0")
        elif len(live) < 4 or kind < 0.1:
            chosen = self.numbers.choice(live)
            self.add(self.clauses[chosen], [chosen])
        elif kind < 0.2:
            chosen = min(live)      # a clause of the formula: a stream can't import its own
            literals = self.numbers.sample(self.clauses[chosen], len(self.clauses[chosen]))
            self.lines.append(" ".join(map(str, [chosen, "i", *literals, 0])))
        elif kind < 0.3:
            chosen_ones = self.numbers.sample(live, self.numbers.randint(1, 2))
            self.lines.append(" ".join(map(str, [self.next, "d", *chosen_ones, 0])))
            for identity in chosen_ones:
                del self.clauses[identity]
        else:
            found = self.resolvent()
            if found:
                self.add(*found)

    def text(self, count: int) -> str:
        for _ in range(count):
            self.write_line()
        return "".join(line + "\n" for line in self.lines if " i 0" not in line)


@pytest.mark.seeds(60)
def test_random(program: str, way: List[str], seed: int, tmp_path: Path) -> None:
    """Up to eight rounds of one to three streams, with sizes that suffice or don't; some under
    assumptions."""
    numbers, alone = random.Random(seed), Alone([], [])
    variables = numbers.randint(3, 7)
    clauses = random_clauses(numbers, variables,
                             numbers.randint(3 * variables, 5 * variables), (2, 3, 3))
    written(dimacs(variables, clauses), tmp_path, "formula")
    written(f"{numbers.choice((-1, 1)) * numbers.randint(1, variables)} 0\n", tmp_path, "cube")
    options: List[object] = [*way, *numbers.choice(((), (), ("--assume", tmp_path / "cube")))]
    sizes = Sizes(numbers.randint(1, 3), 100, 1000)
    first = sizes
    for number in range(1, numbers.randint(2, 9)):
        if number > 1 and numbers.random() < 0.4:
            sizes = Sizes(numbers.randint(1, 3), numbers.choice((100, 100, 100, 9)),
                          numbers.choice((1000, 1000, 1000, 9)))
            written("{} {} {}\n".format(*sizes), tmp_path, f"d/round-{number}.sizes")
        formula = read_formula(tmp_path / (f"alone-{number}" if number > 1 else "formula"))
        for stream in range(1, sizes.streams + 1):
            writer = Writer(numbers, formula, stream, sizes.streams)
            written(writer.text(numbers.randint(0, 20) if formula else 0), tmp_path,
                    stream_name(number, stream))
        if not round_alone(program, [*options, *options_of(sizes)], number,
                           sizes.streams, tmp_path, alone):
            written("\n", tmp_path, stream_name(number + 1))
            break
    want_same(program, [*options, *options_of(first)], first.streams, tmp_path, alone)
