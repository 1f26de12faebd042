"""examples/chain.py, which cuts streams into rounds, and examples/ids.awk.

Recorded streams, and streams of the example solver with imports and deletions, are cut into one to
nine rounds, which lrup-recheck checks. The last round has to end with status 0, and the rounds
together have to have as many additions as a single run. With the sizes of the largest round, a
single run can't hold all additions. If an addition loses its hints, its round has to be the last,
with a bad line."""
import sys
from pathlib import Path
from typing import List, NamedTuple, Sequence

import pytest

from harness import (EXAMPLES, LRUP_RECHECK, SOLVER, VERDICTS, Ran, added, example, generated,
                     named, run, unwatched, watched_ends, written)

CHAIN = EXAMPLES / "chain.py"
TRIES = ["--tries", "1000000"]
FOUR_SOLVERS = [f"bmc-four.{number}" for number in range(1, 5)]
TWO_GROUPS = [f"two-groups.{number}" for number in range(1, 5)]
TWO = ["pigeonhole-two.1", "pigeonhole-two.2"]
RECORDED = [("four-clause.cnf", ["four-clause.lrup"], (1, 2, 3)),
            ("pigeonhole.cnf", ["pigeonhole.lrup"], (2, 7)),
            ("bmc.cnf", ["bmc.lrup"], (3, 9)), ("pigeonhole.cnf", TWO, (1, 3)),
            ("bmc.cnf", FOUR_SOLVERS, (1, 2, 3, 7)), ("two-groups.cnf", TWO_GROUPS, (3,))]


class Chained(NamedTuple):
    """The number of rounds, the last round's report, how each stream of each round ended, the rest
    of standard error, and the status."""
    rounds: int
    report: List[str]
    ends: List[str]
    err: str
    status: object


def chain(program: str, count: int, formula: Path, streams: Sequence[Path], options: List[str],
          folder: Path) -> Chained:
    """Cuts the streams into this many rounds, and checks these."""
    cut = run([sys.executable, CHAIN, count, formula, folder / "rounds", *streams])
    assert cut == Ran("", "", 0)
    done = run([LRUP_RECHECK, "--lrupd", program, "--watch", *options, folder / "rounds", formula])
    ends = watched_ends(done.err)
    return Chained(len(ends) // len(streams), done.out.splitlines(), ends,
                   unwatched(done.err), done.status)


def want_refuted(chained: Chained, count: int) -> None:
    """The last of all rounds refutes the formula."""
    assert (chained.err, chained.status) == ("", 0)
    assert chained.rounds == count
    assert chained.report[-1] == "s UNSATISFIABLE"
    if count > 1:
        assert chained.report[0] == f"c round {count}"


def want_same_additions(program: str, formula: Path, streams: Sequence[Path], count: int,
                        folder: Path) -> None:
    """The rounds together have the additions of a run in one piece."""
    whole = run([program, *TRIES, "--watch", formula, *streams])
    assert (unwatched(whole.err), whole.status) == ("", 0)
    chained = chain(program, count, formula, streams, TRIES, folder)
    want_refuted(chained, count)
    assert added(chained.ends) == added(watched_ends(whole.err))


@pytest.mark.parametrize("formula, streams, count", [
    pytest.param(formula, streams, count, id=f"{streams[0]} in {count} rounds")
    for formula, streams, counts in RECORDED for count in counts])
def test_recorded(program: str, formula: str, streams: Sequence[str], count: int,
                  tmp_path: Path) -> None:
    want_same_additions(program, example(formula), list(map(example, streams)), count, tmp_path)


@pytest.mark.parametrize("words, streams, share, count", [
    ("random 170 4", 3, 100, 4), ("pigeons 7", 2, 100, 5), ("order 15", 5, 4, 3),
    ("random 180 3", 8, 2, 6), ("random 150 1", 1, 4, 5)])
def test_the_example_solvers(program: str, words: str, streams: int, share: int, count: int,
                             tmp_path: Path) -> None:
    """Clauses are shared up to this LBD."""
    formula = generated(words, tmp_path)
    files = [tmp_path / f"stream{number}" for number in range(1, streams + 1)]
    assert run([SOLVER, "--imports", "--share", share, formula, *files]).status == 20
    want_same_additions(program, formula, files, count, tmp_path)


@pytest.mark.parametrize("place, option, fault, count", [
    (1, "--lines", "(identity)", 3), (1, "--lines", "(identity)", 8),
    (2, "--room", "(no room)", 3)])
def test_too_much_for_one_run(program: str, place: int, option: str, fault: str, count: int,
                              tmp_path: Path) -> None:
    """In rounds, the streams refute the formula; a single run with the rounds' largest size stops.
    That run uses --serial, so that no stream gives up before another stream is full."""
    formula, streams = example("bmc.cnf"), list(map(example, FOUR_SOLVERS))
    want_refuted(chain(program, count, formula, streams, TRIES, tmp_path), count)
    sizes = [int(path.read_text().split()[place])
             for path in (tmp_path / "rounds").glob("*.sizes")]
    assert len(sizes) == count
    whole = run([program, "--serial", option, max(sizes), formula, *streams])
    assert whole.status == 3
    assert fault in whole.out


@pytest.mark.parametrize("at, bad", [(200, 1), (2000, 2), (3000, 3)])
def test_a_wrong_step(program: str, at: int, bad: int, tmp_path: Path) -> None:
    """An addition loses its hints: the round with that line is the last one."""
    lines = example("bmc.lrup").read_text().splitlines(True)
    at = next(place for place in range(at, len(lines)) if " d " not in lines[place])
    words = lines[at].split()
    end = words.index("0", 1)
    lines[at] = " ".join([*words[:end + 1], "0"]) + "\n"
    chained = chain(program, 3, example("bmc.cnf"),
                    [written("".join(lines), tmp_path, "stream")], TRIES, tmp_path)
    assert (chained.err, chained.status) == ("", 3)
    assert chained.rounds == bad
    before = len(lines) * (bad - 1) // 3
    assert chained.report[-2].endswith(f"bad line {at - before + 1} (no conflict)")


FORMULA, STREAM = "p cnf 2 4\n1 2 0\n-1 2 0\n1 -2 0\n-1 -2 0\n", "5 2 0 1 2 0\n6 0 5 3 4 0\n"
USAGE = "usage: chain.py ROUNDS FORMULA FOLDER STREAM..., with 1 round or more\n"
HEADER = "chain.py: formula: no header 'p cnf VARIABLES CLAUSES' with at most 16777215 clauses\n"
STEP = "chain.py: stream: line {} isn't one of a stream\n"
GIVEN = ["2", "formula", "d", "stream"]


@pytest.mark.parametrize("words, formula, stream, said", named([
    ("no words", [], FORMULA, STREAM, USAGE), ("no stream", GIVEN[:3], FORMULA, STREAM, USAGE),
    ("no round", ["0", *GIVEN[1:]], FORMULA, STREAM, USAGE),
    ("no number", ["\u00b2", *GIVEN[1:]], FORMULA, STREAM, USAGE),
    ("a long number", ["1" * 5000, *GIVEN[1:]], FORMULA, STREAM, USAGE),
    ("help", ["--help"], FORMULA, STREAM, USAGE), ("no header", GIVEN, "1 2 0\n", STREAM, HEADER),
    ("half a header", GIVEN, "p cnf 2\n", STREAM, HEADER),
    ("no number of clauses", GIVEN, "p cnf 2 x\n", STREAM, HEADER),
    ("too many", GIVEN, "p cnf 2 16777216\n", STREAM, HEADER),
    ("an empty formula", GIVEN, "", STREAM, HEADER), ("bytes", GIVEN, "\udcff\n", STREAM, HEADER),
    ("an empty line", GIVEN, FORMULA, STREAM[:13] + "\n", STEP.format(2)),
    ("one word", GIVEN, FORMULA, "5\n", STEP.format(1)),
    ("no end", GIVEN, FORMULA, "5 2 1 2\n", STEP.format(1)),
    ("a letter", GIVEN, FORMULA, "x 2 0 1 2 0\n", STEP.format(1)),
    ("a long identity", GIVEN, FORMULA, "1" * 5000 + " 2 0 1 2 0\n", STEP.format(1)),
    ("bytes in a stream", GIVEN, FORMULA, STREAM + "\udcff\n", STEP.format(3)),
    ("the folder is there", ["1", "formula", ".", "stream"], FORMULA, STREAM,
     "chain.py: [Errno 17] File exists: '.'\n"),
    ("no such file", [*GIVEN, "none"], FORMULA, STREAM,
     "chain.py: [Errno 2] No such file or directory: 'none'\n")]))
def test_refused(words: List[str], formula: str, stream: str, said: str, tmp_path: Path) -> None:
    for name, text in (("formula", formula), ("stream", stream)):
        (tmp_path / name).write_text(text, errors="surrogateescape")
    assert run([sys.executable, CHAIN, *words], cwd=tmp_path) == Ran("", said, 1)
    assert not (tmp_path / "d").exists()


def test_assumptions(program: str, tmp_path: Path) -> None:
    """The last round has status 8."""
    options = ["--assume", str(example("assumed.cube"))]
    chained = chain(program, 2, example("assumed.cnf"), [example("assumed.lrup")], options,
                    tmp_path)
    assert (chained.rounds, chained.status) == (2, 8)
    assert chained.report[-1] == VERDICTS[8]


def test_a_clause_that_nobody_derives(program: str, tmp_path: Path) -> None:
    """Streams cite a clause of a stream that isn't given."""
    chained = chain(program, 3, example("bmc.cnf"), [example("bmc-four.1"), Path("/dev/null")],
                    ["--tries", "10"], tmp_path)
    assert (chained.rounds, chained.status) == (1, 3)
    assert "missing" in chained.report[0]


def test_ids_of_saved_clauses(program: str, tmp_path: Path) -> None:
    """examples/ids.awk lists the old and the new id of each saved clause."""
    stream, saved = written("7 2 0 1 2 0\n7 d 1 2 0\n", tmp_path, "stream"), tmp_path / "saved"
    run([program, "--checkpoint", saved, example("four-clause.cnf"), stream])
    assert run(["awk", "-f", EXAMPLES / "ids.awk", saved]) == Ran("3 1\n4 2\n7 3\n", "", 0)
