"""tools/build/completions.sh: what bash completes for each program."""
from pathlib import Path
from typing import Sequence

import pytest

from harness import BIN, ROOT, Ran, built, executable, run

NAMES = ["lrup-exact", "lrup-trim", "lrup-explain", "lrup-solve", "lrup-check"]
EXPECTED = ["sat", "unsat", "unsat-under-assumptions"]
FORMS = ["lrat", "drat", "frat", "binary-lrat", "binary-drat"]


@pytest.fixture
def completions(tmp_path: Path) -> Path:
    """The folder of the programs' completions."""
    place = tmp_path / "completions"
    place.mkdir()
    for name in NAMES:
        executable(f'exec {built([BIN / name])[0]} "$@"', tmp_path / "bin", name)
    script = ROOT / "tools" / "build" / "completions.sh"
    assert run(["sh", script, tmp_path / "bin", place]) == Ran("", "", 0)
    return place


@pytest.mark.parametrize("program, word, before, wanted, others", [
    pytest.param("lrup-solve", "--", "lrup-solve",
                 ["--cubes", "--mpi", "--proofs", "--time", "--version"], ["--bind-to", "--host"],
                 id="options"),
    pytest.param("lrup-solve", "--re", "formula.cnf", ["--re-hint", "--replace", "--resume"],
                 ["--mpi"], id="a part of an option"),
    pytest.param("lrup-check", "--", "lrup-check", ["--expect", "--lrat"], ["--cubes", "--mpi"],
                 id="options of lrup-check"),
    pytest.param("lrup-exact", "--", "lrup-exact",
                 ["--stream", "--streams", "--other", "--format"], [], id="options of lrup-exact"),
    pytest.param("lrup-solve", "", "--expect", EXPECTED, ["--mpi"], id="answers"),
    pytest.param("lrup-check", "unsat", "--expect", EXPECTED[1:], ["sat"],
                 id="a part of an answer"),
    pytest.param("lrup-solve", "", "--progress", ["json"], [], id="a form of progress"),
    pytest.param("lrup-exact", "", "--format", FORMS, [], id="forms"),
    pytest.param("lrup-exact", "f", "lrup-exact", [], FORMS, id="a file")])
def test_completion(completions: Path, program: str, word: str, before: str, wanted: Sequence[str],
                    others: Sequence[str]) -> None:
    """After the word `before`, bash completes `word` to these words, and not to the others."""
    function = "_" + program.replace("-", "_")
    done = run(["bash", "-c", f"source {completions / program}; {function} {program} "
                f"'{word}' '{before}'; printf '%s\n' \"${{COMPREPLY[@]}}\""])
    found = set(done.out.split())
    assert found >= set(wanted)
    assert not found & set(others)
