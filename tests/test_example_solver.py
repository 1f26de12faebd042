"""The example solver on small formulas with one to eight streams, which lrupd checks.

Each report has to say that each stream ended, with the numbers of additions and deletions that the
solver printed; if the formula is unsatisfiable, the status has to be 0. If nothing is shared, the
streams also go to files, for which --serial has to give the same report. Imports change none of
this. All imports of a run also form a stream of their own, once as they are and once followed by a
garbled import. Then solvers are killed midway: each stream ends, or is truncated."""
import re
import select
import subprocess
import time
from pathlib import Path
from typing import IO, Callable, List, NamedTuple, Optional, Sequence, Tuple

import pytest

from harness import (LIMIT, SOLVER, VERDICTS, generated, held, piped, run, started, until, written)

OPTIONS = ["--tries", "1000000"]
LARGE = OPTIONS + ["--lines", "1000000", "--room", "10000000"]
UNSATISFIABLE, SATISFIABLE = 20, 10

class Run(NamedTuple):
    """The generator's arguments, the answer, the number of streams, and the LBD up to which clauses
    are shared. The seed is the run's number."""
    words: str
    answer: int
    streams: int
    share: int


RUNS = [
    Run("random 100 1", UNSATISFIABLE, 1, 4),
    Run("random 100 1", UNSATISFIABLE, 2, 4),
    Run("random 120 2 3.8", SATISFIABLE, 3, 4),
    Run("pigeons 6", UNSATISFIABLE, 4, 4),
    Run("pigeons 6", UNSATISFIABLE, 2, 0),
    Run("order 12", UNSATISFIABLE, 5, 4),
    Run("random 140 4 4.8", UNSATISFIABLE, 6, 100),
    Run("random 100 5 3.6", SATISFIABLE, 1, 4),
    Run("order 10", UNSATISFIABLE, 7, 2),
    Run("random 120 6 5", UNSATISFIABLE, 8, 4),
    Run("pigeons 6", UNSATISFIABLE, 8, 1),
    Run("random 120 7 3.8", SATISFIABLE, 4, 0),
    Run("order 15", UNSATISFIABLE, 1, 4),
    Run("random 120 8 5", UNSATISFIABLE, 3, 0),
]

# Runs with imports: the solvers run long enough to import clauses.
IMPORTING = [
    Run("random 170 4", UNSATISFIABLE, 3, 100),
    Run("random 200 9", SATISFIABLE, 4, 4),
    Run("pigeons 7", UNSATISFIABLE, 2, 100),
    Run("order 15", UNSATISFIABLE, 5, 4),
    Run("random 180 3", UNSATISFIABLE, 8, 2),
]


def each_run(runs: Sequence[Run], which: Callable[[Run], bool] = lambda chosen: True
             ) -> pytest.MarkDecorator:
    """A test of each of these runs, as the arguments `chosen` and `seed`."""
    return pytest.mark.parametrize("chosen, seed", [
        pytest.param(one, seed, id=f"{one.words}, {one.streams} streams, shared up to {one.share}")
        for seed, one in enumerate(runs, 1) if which(one)])


def clauses_of(path: Path) -> List[List[str]]:
    return [line.split()[:-1] for line in path.read_text().splitlines()][1:]


def report_of(said: str, status: Optional[int], answer: int, path: Path) -> Tuple[str, int]:
    """The report that the solver's output implies, and lrupd's status."""
    assert status == answer
    if answer == SATISFIABLE:
        true = {line.split()[1] for line in said.splitlines() if line.startswith("v ")}
        for clause in clauses_of(path):
            assert true & set(clause), "the assignment doesn't satisfy the clause"
    ended = [line + ", ended" for line in said.splitlines() if line.startswith("c stream")]
    wanted = 0 if answer == UNSATISFIABLE else 3
    return "\n".join([*ended, VERDICTS[wanted], ""]), wanted


def want_live(program: str, options: Sequence[object], chosen: Run, folder: Path) -> None:
    """lrupd checks the solvers' streams while they are written."""
    path = generated(chosen.words, folder)
    pipes = [piped(folder / f"pipe{number}") for number in range(1, chosen.streams + 1)]
    words = [SOLVER, "--share", chosen.share, *options, path, *pipes]
    with started(words, stdout=subprocess.PIPE, text=True) as solvers:
        found = run([program, *OPTIONS, path, *pipes])
        said, _ = solvers.communicate(timeout=LIMIT)
    wanted = report_of(said, solvers.returncode, chosen.answer, path)
    assert (found.out, found.status) == wanted, found.err


@each_run(RUNS)
def test_live(program: str, chosen: Run, seed: int, tmp_path: Path) -> None:
    want_live(program, ["--seed", seed], chosen, tmp_path)


@each_run(IMPORTING)
def test_live_with_imports(program: str, chosen: Run, seed: int, tmp_path: Path) -> None:
    want_live(program, ["--imports", "--seed", seed], chosen, tmp_path)


class Recorded(NamedTuple):
    """The formula, the streams' files, the solver's output, and the expected report and status."""
    formula: Path
    files: List[Path]
    said: str
    report: str
    status: int


def recorded(options: Sequence[object], chosen: Run, folder: Path) -> Recorded:
    formula = generated(chosen.words, folder)
    files = [folder / f"stream{number}" for number in range(1, chosen.streams + 1)]
    out, _, status = run([SOLVER, "--share", chosen.share, *options, formula, *files])
    return Recorded(formula, files, out, *report_of(out, status, chosen.answer, formula))


@each_run(RUNS, which=lambda chosen: chosen.streams == 1 or chosen.share == 0)
@pytest.mark.parametrize("options", [OPTIONS, ["--serial"]], ids=["threads", "serial"])
def test_recorded(program: str, options: Sequence[str], chosen: Run, seed: int,
                  tmp_path: Path) -> None:
    """Nothing is shared."""
    found = recorded(["--seed", seed], chosen, tmp_path)
    done = run([program, *options, found.formula, *found.files])
    assert (done.out, done.status) == (found.report, found.status), done.err


def garbled(line: str) -> str:
    """An import without its first literal, or with the complement of its only literal."""
    identity, kind, literal, *rest = line.split()
    if rest == ["0"]:
        rest = [str(-int(literal)), "0"]
    return " ".join([identity, kind, *rest])


def recorded_imports(chosen: Run, seed: int, folder: Path) -> Tuple[Recorded, List[str]]:
    """A run with imports. If a thread has the answer before the others begin, there are none, and
    another seed is tried."""
    for tried in [seed, *range(101, 120)]:
        options = ["--imports", "--seed", tried, "--streams", chosen.streams + 1]
        found = recorded(options, chosen, folder)
        imports = [line for file in found.files for line in file.read_text().splitlines()
                   if " i " in line]
        assert f"c {len(imports)} imports" in found.said.splitlines()
        if imports:
            return found, imports
    raise AssertionError("no seed leads to imports")


@each_run(IMPORTING)
def test_a_stream_of_all_imports(program: str, chosen: Run, seed: int, tmp_path: Path) -> None:
    """Checks the streams together with another stream, which has all their imports; then again with
    a garbled import at that stream's end."""
    found, imports = recorded_imports(chosen, seed, tmp_path)
    *reports, verdict = found.report.splitlines()
    bad = imports[len(imports) // 2]
    differs = f"bad line {len(imports) + 1} (differs {bad.split()[0]})"
    for lines, ending in ((imports, "ended"), ([*imports, garbled(bad)], differs)):
        others = written("".join(line + "\n" for line in lines), tmp_path, "imports")
        done = run([program, *OPTIONS, found.formula, *found.files, others])
        said = f"c stream {chosen.streams + 1}: 0 added, 0 deleted, {ending}"
        assert done.out.splitlines() == [*reports, said, verdict]
        assert done.status == found.status


def has_bytes(pipe: IO[bytes]) -> bool:
    return bool(select.select([pipe], [], [], 0)[0])


@pytest.mark.parametrize("streams, seconds", [(1, 0.2), (3, 0.4), (8, 0.6)])
def test_killed_solvers(program: str, streams: int, seconds: float, tmp_path: Path) -> None:
    """The formula takes them much longer. lrupd begins when all streams have lines."""
    path = generated("pigeons 12", tmp_path)
    pipes = [tmp_path / f"pipe{number}" for number in range(1, streams + 1)]
    ends = list(map(held, pipes))   # so that each pipe has a writer in any case
    solver = [SOLVER, "--imports", "--share", 100, path, *pipes]
    with started(solver, stdout=subprocess.DEVNULL) as solvers:
        until("all streams have lines",
              lambda: all(map(has_bytes, ends)) or solvers.poll() is not None)
        with started([program, *LARGE, path, *pipes], stdout=subprocess.PIPE, text=True) as checker:
            time.sleep(seconds)
            solvers.kill()
            until("lrupd has opened them",
                  lambda: not any(map(has_bytes, ends)) or checker.poll() is not None)
            for end in ends:
                end.close()
            out, _ = checker.communicate(timeout=LIMIT)
    *lines, verdict = out.splitlines()
    assert len(lines) == streams
    for line in lines:
        assert re.fullmatch(r"c stream \d+: [1-9]\d* added, \d+ deleted, "
                            r"(ended|bad line \d+ \(truncated\))", line)
    assert verdict == VERDICTS[3]
