"""Streams of the example solver, and garbled streams."""
import random
import re
from pathlib import Path
from typing import Callable, List, Optional, Sequence, Tuple

from harness import SOLVER, dimacs, random_clauses, run, written
from proof_forms import Clause

UNSATISFIABLE, SATISFIABLE = 20, 10


def solved(formula: Path, count: int, options: Sequence[object],
           work: Path) -> Optional[List[Path]]:
    """The streams of `count` solvers; None if the formula is satisfiable."""
    streams = [work / f"stream{number}" for number in range(1, count + 1)]
    status = run([SOLVER, *options, formula, *streams]).status
    assert status in (UNSATISFIABLE, SATISFIABLE)
    return streams if status == UNSATISFIABLE else None


def random_formula(numbers: random.Random) -> Tuple[int, List[Clause]]:
    variables = numbers.randrange(15, 70)
    lengths: Sequence[int] = numbers.choice(((3,), (3,), (2, 3, 3, 3, 4), (1, 2, 3, 4, 5, 6)))
    return variables, random_clauses(numbers, variables,
                                     round(numbers.uniform(4.5, 7) * variables), lengths)


def refuted(numbers: random.Random, count: int, options: Sequence[object],
            work: Path) -> Tuple[Path, List[Path]]:
    """A random unsatisfiable formula, and the streams of `count` solvers."""
    while True:
        formula = written(dimacs(*random_formula(numbers)), work)
        streams = solved(formula, count, options, work)
        if streams:
            return formula, streams


def garbled_text(text: str, numbers: random.Random) -> str:
    lines = text.splitlines(True) or ["\n"]
    at, other, place = (numbers.randrange(len(lines)), numbers.randrange(len(lines)),
                        numbers.randrange(len(text) + 1))
    words = lines[at].split(" ")
    word = numbers.randrange(len(words))
    number = (int(re.sub(r"[^-0-9]", "", words[word]) or 0)
              if words[word].strip("-\n").isdigit() else 0)
    kinds: List[Callable[[], str]] = [
        lambda: text[:place] + chr(numbers.randrange(256)) + text[place + 1:],
        lambda: text[:place] + text[place + numbers.randrange(40):],
        lambda: text[:place],
        lambda: "".join(lines[:at] + lines[at + 1:]),
        lambda: "".join(lines[:at] + [lines[other]] + lines[at:]),
        lambda: "".join([*lines[:at], lines[other], *lines[at + 1:]]),
        lambda: "".join([*lines[:at], " ".join(words[:word] + words[word + 1:]), *lines[at + 1:]]),
        lambda: "".join([*lines[:at],
                         " ".join([*words[:word], numbers.choice(wrong_numbers(number, numbers)),
                                   *words[word + 1:]]),
                         *lines[at + 1:]]),
        lambda: text[:place] + numbers.choice((" ", "\n", "-", "0 ", "d ", "i ", "\0", "\r\n", "00",
                                               "c x\n")) + text[place:]]
    return numbers.choice(kinds)()


def wrong_numbers(number: int, numbers: random.Random) -> List[str]:
    near = [number + 1, number - 1, -number, number + numbers.randrange(-20, 20),
            numbers.randrange(1, 300)]
    return [str(found) for found in [*near, *near, 1 << 20, 1 << 32, 10 ** 17, 10 ** 18, 10 ** 30]]
