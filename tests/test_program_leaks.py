"""lrupd under valgrind: each block of memory is freed, and no invalid memory is used."""
from pathlib import Path
from typing import List, Sequence, Tuple

import pytest

from harness import SMALL_ROW, enough_for, example, needs, run, write_all
from rounds import ONE, TWO, Texts, first_words, round_files

VALGRIND = ["valgrind", "--quiet", "--error-exitcode=99", "--leak-check=full",
            "--show-leak-kinds=all", "--errors-for-leak-kinds=all"]
FOUR, FIRST = example("four-clause.cnf"), example("four-clause.lrup")
SOLVERS = [example(f"bmc-four.{number}") for number in range(1, 5)]
SIZES = enough_for(SOLVERS)
RUNS: List[Tuple[int, List[object]]] = [
    (0, [FOUR, FIRST]),
    (0, ["--tries", "1000000", *SIZES, example("bmc.cnf"), *SOLVERS]),
    (8, [*SMALL_ROW, "--assume", example("assumed.cube"), example("assumed.cnf"),
         example("assumed.lrup")]),
    (3, ["--tries", "0", *SIZES, example("bmc.cnf"), *SOLVERS[:2]]),
    (3, ["--tries", "0", *SIZES, "--checkpoint", "saved", example("bmc.cnf"), *SOLVERS[:2]]),
    (5, [*SMALL_ROW, "--checkpoint", ".", FOUR, FIRST]),
    (4, [FIRST, FIRST]),
    (5, [FOUR, FIRST, example("no such file")]),
]


def want_freed(program: str, status: int, words: Sequence[object], folder: Path) -> None:
    """valgrind finds no leak and no error, so the status is lrupd's."""
    needs("valgrind")
    found = run([*VALGRIND, program, *words], cwd=folder)
    assert found.status == status, found.err


@pytest.mark.parametrize("status, words", [
    pytest.param(status, words, id=" ".join(getattr(word, "name", str(word)) for word in words))
    for status, words in RUNS])
def test_one_round(program: str, way: List[str], status: int, words: Sequence[object],
                   tmp_path: Path) -> None:
    want_freed(program, status, [*way, *words], tmp_path)


@pytest.mark.parametrize("status, texts, sizes", [
    pytest.param(0, ONE.texts, "1 9 9\n", id="the empty clause"),
    pytest.param(0, TWO.texts, "2 9 9\n", id="the empty clause, of two streams"),
    pytest.param(3, TWO.texts[:2], "2 9 9\n", id="no empty clause"),
    pytest.param(3, [*ONE.texts[:2], ["5 1 0 0\n"]], "1 9 9\n", id="a wrong line"),
    pytest.param(2, TWO.texts, "2 268435456 9\n", id="sizes too large"),
    pytest.param(2, TWO.texts, "2 9\n", id="wrong sizes"),
    pytest.param(5, TWO.texts, "3 9 9\n", id="a missing stream")])
def test_rounds(program: str, way: List[str], status: int, texts: Texts, sizes: str,
                tmp_path: Path) -> None:
    """Round 2 has these sizes."""
    write_all({**round_files(texts), "d/round-2.sizes": sizes}, tmp_path)
    words = ["--tries", "1000000", *SMALL_ROW, *way, *first_words(texts)]
    want_freed(program, status, words, tmp_path)


def test_help(program: str, tmp_path: Path) -> None:
    want_freed(program, 2, ["--help"], tmp_path)
