"""lrup-solve --cubes FILE: cubes that cover a formula or don't, that overlap or are contradictory,
and wrong files.

There are one to four engines, rounds, assumptions and a killed engine; random formulas with random
cubes; and the example. Cubes aren't trusted: each answer has to be right for the formula."""
import itertools
import random
import re
from pathlib import Path
from typing import Callable, Iterable, List, Mapping, Optional, Sequence

import pytest

from harness import (FOUR, ROOT, dimacs, example, generated, named, random_clauses, run, until,
                     written)
from lrat import lrat_fault
from proof_forms import read_formula
from solving import (EARLY, Answer, check_again, children_of, end_group, end_of, kill_children,
                     solve, started_run, want_answer)

pytestmark = pytest.mark.usefixtures("solve_for_tests")
EXAMPLES = ROOT / "examples" / "cubes"
UNDER = "s UNSATISFIABLE UNDER ASSUMPTIONS"
IN_ROUNDS = {"FIRST_WORDS": 20000, "SAME_WORDS": 1, "SLICE": 40}
Cubes = Iterable[Sequence[int]]
Solved = Callable[..., None]    # the fixture `solved`


def cubes_file(cubes: Cubes, folder: Path) -> Path:
    lines = (" ".join(map(str, ["a", *cube, 0])) + "\n" for cube in cubes)
    return written("".join(lines), folder, "cubes")


def covering(*variables: int) -> List[List[int]]:
    return [list(signs) for signs in itertools.product(*([-one, one] for one in variables))]


SIX, SOME = covering(1, 9, 17, 25, 33, 41), covering(1, 8, 15)[:5]


def counts(pattern: str, answer: Answer) -> List[int]:
    """The numbers in the answer's comments that match this pattern."""
    found = [re.fullmatch(pattern, line) for line in answer.comments]
    return [int(number.replace(",", "")) for one in found if one for number in one.groups()]


def refuted(answer: Answer) -> List[int]:
    """How many cubes were refuted, and how many there were."""
    return counts(r"([\d,]+) of ([\d,]+) cubes? refuted", answer)


def handed_on(answer: Answer) -> List[int]:
    return counts(r"cubes: [\d,]+ dealt out, [\d,]+ refuted, ([\d,]+) handed on from lost engines",
                  answer)


@pytest.fixture
def solved(tmp_path: Path) -> Solved:
    """Solves with these cubes, and checks the answer, the record and the LRAT text."""
    def solved(words: str, cubes: List[List[int]], status: int, options: Sequence[object],
               tested: Optional[Mapping[str, object]] = None) -> None:
        formula = generated(words, tmp_path)
        kept, lrat = tmp_path / "kept", tmp_path / "proof.lrat"
        answer = solve(["-v", "--cubes", cubes_file(cubes, tmp_path), "--proofs", kept, "--lrat",
                        lrat, *options, formula], tested=tested)
        want_answer(answer, status, formula)
        assert answer.lost() == []
        assert ("engines take cubes" in answer.comments) != ("--cubes-in-order" in options)
        count, of_all = refuted(answer)
        assert of_all == len(cubes)
        if status == 20:
            check_again(kept)
            assert lrat_fault(read_formula(formula), lrat.read_text()) == ""
            assert count <= of_all
    return solved


@pytest.mark.parametrize("engines", [1, 2, 4])
@pytest.mark.parametrize("words, status", named([
    ("unsatisfiable", "pigeons 7", 20), ("satisfiable", "random 200 22 4.2", 10)]))
@pytest.mark.parametrize("cubes", named([
    ("covering", SIX), ("not covering", SOME), ("the whole", [[]]),
    ("overlapping", [*SOME, *SIX, *SOME]),
    ("contradicting each other", [[1], [-1], [1, 2], [-1, -2]])]))
def test_answers(solved: Solved, cubes: List[List[int]], words: str, status: int,
                 engines: int) -> None:
    solved(words, cubes, status, ["-j", engines])


@pytest.mark.parametrize("engines", [1, 2, 4])
def test_rounds(solved: Solved, engines: int) -> None:
    solved("pigeons 7", SIX, 20, ["-j", engines], IN_ROUNDS)


# Cubes in order.


@pytest.mark.parametrize("engines, tested", [(1, {}), (2, IN_ROUNDS), (4, {"SLICE": 40})])
@pytest.mark.parametrize("cubes", named([("covering", SIX), ("not covering", SOME)]))
def test_all_in_order(solved: Solved, cubes: List[List[int]], engines: int,
                      tested: Mapping[str, object]) -> None:
    solved("pigeons 7", cubes, 20, ["-j", engines, "--cubes-in-order"], tested)


@pytest.mark.seeds(12)
def test_the_first_cube_that_can_be_satisfied(seed: int, tmp_path: Path) -> None:
    """Comments name the cubes before, and the model satisfies this one. The formula has few
    assignments, which most engines would find in another order."""
    numbers, size = random.Random(f"{seed} cubes in order"), 12
    clauses = random_clauses(numbers, size, 40)
    cubes = [[variable * numbers.choice((-1, 1))
              for variable in numbers.sample(range(1, size + 1), 4)] for _ in range(30)]
    models = [set(signed) for signed in itertools.product(*((-k, k) for k in range(1, size + 1)))
              if all(not set(clause).isdisjoint(signed) for clause in clauses)]
    wanted = next((k for k, cube in enumerate(cubes) if any(model >= set(cube)
                                                            for model in models)), None)
    file = written("".join(f"c the {k}th\na {' '.join(map(str, cube))} 0\n"
                           for k, cube in enumerate(cubes)), tmp_path, "cubes")
    formula = written(dimacs(size, clauses), tmp_path)
    answer = solve(["-j", 1 + seed % 4, "--cubes-in-order", "--cubes", file, formula])
    want_answer(answer, 10 if models else 20, formula)
    found = [re.sub(r"^\d+\.\d\d s: ", "", line) for line in answer.comments if "the " in line]
    if wanted is None:
        assert found == [f"the {k}th refuted" for k in range(30)]
    else:
        assert found == [*(f"the {k}th refuted" for k in range(wanted)),
                         f"the {wanted}th satisfied"]
        assert set(cubes[wanted]) <= set(map(int, answer.values))


def test_names_of_cubes(tmp_path: Path) -> None:
    """A comment right above a cube names it; a contradictory cube is left out."""
    cubes = written("p inccnf\nc one\na 1 0\na -1 0\nc none\n\na 2 -2 0\na 2 0\nc \033[2J\na 3 0\n",
                    tmp_path, "cubes")
    answer = solve(["-j", "1", "--cubes-in-order", "--cubes", cubes,
                    written(FOUR.replace("2 4", "3 4"), tmp_path)])
    want_answer(answer, 20)
    assert [line.partition(": ")[2] for line in answer.comments if " s: " in line] == [
        "one refuted", "cube 2 refuted", "cube 3 refuted", "?[2J refuted"]


def test_beside_a_solver(solved: Solved) -> None:
    solved("pigeons 7", SOME, 20, ["-j", 2, "--solver", "cadical -q %formula %proof"])


@pytest.mark.parametrize("engines", [1, 3])
def test_cubes_that_contradict_assumptions_are_left_out(engines: int, tmp_path: Path) -> None:
    """The formula without assumptions is satisfiable."""
    clauses = [[9999, *clause] for clause in random_clauses(random.Random(7), 130, 600)]
    formula = written(dimacs(9999, clauses), tmp_path)
    cubes = cubes_file(covering(9999, 3, 4, 5), tmp_path)
    for literal, status in (("-9999", 20), ("9999", 10)):
        assumed = written(f"{literal} 0\n", tmp_path, "assumed")
        answer = solve(["-v", "-j", engines, "--assume", assumed, "--cubes", cubes, formula],
                       tested={"SLICE": 40})
        want_answer(answer, status, formula, UNDER if status == 20 else None)
        assert refuted(answer)[1] == 8, answer.out


@pytest.mark.seeds(60)
def test_random_cubes(seed: int, tmp_path: Path) -> None:
    """The answer isn't 'unknown', with cubes of any kind: an assignment is evaluated here, and a
    record is checked again."""
    numbers = random.Random(f"{seed} cubes of a file")
    size = numbers.randrange(60, 150)
    formula = written(dimacs(size, random_clauses(
        numbers, size, round(numbers.uniform(4, 4.6) * size))), tmp_path)
    cubes = (covering(*numbers.sample(range(1, size + 1), numbers.randrange(1, 6)))
             if numbers.random() < 0.5 else [])
    for _ in range(numbers.randrange(12)):
        cubes.append([one * numbers.choice((-1, 1))
                      for one in numbers.choices(range(1, size + 1), k=numbers.randrange(9))])
    numbers.shuffle(cubes)
    file, kept = cubes_file(cubes or [[]], tmp_path), tmp_path / "kept"
    tested = {"SET": EARLY, "SLICE": numbers.choice((5, 10, 30)),
              "FIRST_WORDS": numbers.choice((1000, 1 << 20)), "SAME_WORDS": 1}
    answer = solve(["-v", "--seed", seed, "-j", numbers.randint(1, 4), "--proofs", kept, "--cubes",
                    file, formula], tested=tested)
    assert answer.lost() == []
    assert answer.status in (10, 20)
    want_answer(answer, answer.status, formula)
    if answer.status == 20:
        check_again(kept)


# The others may refute everything before the process is killed.
@pytest.mark.flaky(reruns=2)
@pytest.mark.parametrize("name, engines", [("engine 2", 2), ("filter 3", 4)])
def test_another_engine_gets_the_cube_of_a_lost_one(name: str, engines: int,
                                                    tmp_path: Path) -> None:
    """The lost engine has had its first cube since before it was started."""
    formula = generated("pigeons 8", tmp_path)
    file = cubes_file(covering(1, 9, 17), tmp_path)
    words = ["-v", "-j", engines, "--cubes", file, formula]
    with started_run(words, start_new_session=True) as process:
        try:
            until(f"{name} is there", lambda: name in children_of(process.pid))
            kill_children(children_of(process.pid), [name])
            answer = end_of(process)
        finally:
            end_group(process)
    want_answer(answer, 20, formula)
    assert len(answer.lost()) == 1, answer.out
    assert handed_on(answer) == [1], answer.out


def test_what_a_lost_engine_has_refuted_stays_refuted(tmp_path: Path) -> None:
    formula, kept = generated("pigeons 8", tmp_path), tmp_path / "kept"
    answer = solve(["-v", "-j", 3, "--memory", "20K,100K", "--proofs", kept, "--cubes",
                    cubes_file(covering(1, 9, 17, 25), tmp_path), formula])
    want_answer(answer, 20)
    assert len(answer.lost()) < 3, answer.out
    check_again(kept)


# Files and arguments.


@pytest.mark.parametrize("text, count", [
    ("p inccnf\nc a\n1 -2 0\na 1 0\n\na -1 0\n", 2), ("a 1 -1 0\na 1 1 2 0", 1),
    ("a 1 -1 0\n", 0), ("  a 3 -4 0\r\n", 1)])
def test_other_lines_are_skipped(text: str, count: int, tmp_path: Path) -> None:
    """Headers, comments, clauses and empty lines are, and so are contradictory cubes."""
    answer = solve(["-j", "2", "--cubes", written(text, tmp_path, "cubes"), example("bmc.cnf")])
    want_answer(answer, 20)
    assert refuted(answer)[1] == count, answer.out


def refusal(cubes: Path, options: Sequence[str] = ()) -> str:
    """The message of a run that these cubes, or these options, end."""
    answer = solve(["--cubes", cubes, *options, example("bmc.cnf")])
    assert (answer.out, answer.status) == ("", 1)
    return answer.said


@pytest.mark.parametrize("text, line", [
    ("a 1 2\n", 1), ("a 1 0\na 117 0\n", 2), ("a x 0\n", 1), ("b 1 0\n", 1), ("a 1 0 2\n", 1),
    ("a 1 0\n\na 1.5 0\n", 3)])
def test_a_line_that_is_refused(text: str, line: int, tmp_path: Path) -> None:
    path = written(text, tmp_path, "cubes")
    assert refusal(path) == (f"lrup-solve: {path}, line {line}: not a cube of the formula's "
                             "literals, like 'a 1 -2 0'\n")


@pytest.mark.parametrize("text", ["", "\n", "1 2 0\n", "p cnf 2 1\nc a 1 0\n"])
def test_a_file_without_a_cube(text: str, tmp_path: Path) -> None:
    path = written(text, tmp_path, "cubes")
    assert refusal(path) == f"lrup-solve: {path}: no cube: no line is like 'a 1 -2 0'\n"


def test_a_folder(tmp_path: Path) -> None:
    assert refusal(tmp_path) == f"lrup-solve: cannot read {tmp_path}: Is a directory\n"


def test_no_file(tmp_path: Path) -> None:
    path = tmp_path / "cubes"
    assert refusal(path) == f"lrup-solve: {path}: No such file or directory\n"


@pytest.mark.parametrize("options, said", [
    (["--no-share", "-j", "2"], "--cubes and --no-share: refuted cubes are shared"),
    (["--cubes-in-order", "-j", "1", "--solver", "cadical %formula %proof"],
     "--cubes-in-order takes only engines of this host"),
    (["--solver", "x %formula %proof"], "--cubes without engines: -j sets their number")])
def test_options_that_exclude_cubes(options: List[str], said: str, tmp_path: Path) -> None:
    assert refusal(cubes_file([[1]], tmp_path), options) == f"lrup-solve: {said}\n"


def test_a_file_of_cubes_in_the_record_is_not_overwritten(tmp_path: Path) -> None:
    """It has the name of a stream."""
    kept = tmp_path / "kept"
    kept.mkdir()
    file = written("a 1 0\n", kept, "round-1.stream-1")
    answer = solve(["--cubes", file, "--proofs", kept, example("bmc.cnf")])
    assert (answer.answers, answer.status) == ([], 1), answer.said
    assert file.read_text() == "a 1 0\n"


def test_the_example(tmp_path: Path) -> None:
    """The example's cubes cover its formula."""
    made = run([EXAMPLES / "waerden.py", "4", "5", "55"])
    assert made.status == 0
    formula = written(made.out, tmp_path)
    split = run([EXAMPLES / "split.py", "50", formula])
    assert split.status == 0, split.err
    cubes = [[int(word) for word in line.split()[1:-1]] for line in split.out.splitlines()]
    assert len(cubes) >= 50
    uncovered = dimacs(55, [*read_formula(formula),
                            *([-literal for literal in cube] for cube in cubes)])
    want_answer(solve(["-j", "1", written(uncovered, tmp_path, "uncovered")]), 20)
    want_answer(solve(["-j", "2", "--cubes", written(split.out, tmp_path, "cubes"), formula]), 20)
