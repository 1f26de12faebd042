"""lrupd --checkpoint: the answers and the checkpoints, with threads and with --serial.

Tables give the checkpoint's expected bytes; for recorded streams, they are computed from the rules.
If no file may be created, nothing is touched; if saving fails, there is still a report. A
checkpoint is a formula that lrupd accepts; a part of a checkpoint, as a full disk leaves it,
isn't."""
import os
import shutil
from pathlib import Path
from typing import Dict, Iterator, List, Optional, Sequence, Tuple

import pytest

from checkpoints import MOST_CLAUSES, live, most_clauses, printed, variables_of, want_checkpoint
from harness import (FOUR, RECORDED, SMALL_ROW, Ran, Wanted, answered, enough_for, example, held,
                     report, run, run_by_another, runs_in_both_ways, small, within, written)

ONE, TWO = "5 2 0 1 2 0\n", "5 2 0 1 2 0\n6 0 5 3 4 0\n"
DROPPING = "5 2 0 1 2 0\n7 d 1 0\n"
FILES = {"formula": FOUR, "one": ONE, "two": TWO, "dropping": DROPPING}
ADDED = "1 added, 0 deleted, ended"
NOTHING = "0 added, 0 deleted, ended"
# The four clauses, and the clause of the first line.
SAVED_FOUR = "p cnf 2 4\n1 2 0\n-1 2 0\n1 -2 0\n-1 -2 0\n"
SAVED_ONE = "p cnf 2 5\n1 2 0\n-1 2 0\n1 -2 0\n-1 -2 0\n2 0\n"
SAVED_DROPPING = "p cnf 2 4\nc id 2\n-1 2 0\nc id 3\n1 -2 0\nc id 4\n-1 -2 0\nc id 5\n2 0\n"
NOT_CREATED = "lrupd: cannot create checkpoint\n"
NOT_WRITTEN = "lrupd: checkpoint not written\n"
NO_REPORT = "lrupd: cannot write report\n"
Named = Tuple[str, Wanted]


# Saved checkpoints.


def saved(name: str, status: int, said: Sequence[str], texts: Sequence[str], wanted: str,
          formula: str = FOUR, options: str = "") -> Named:
    """Streams with these texts, their lines in the report, and the checkpoint."""
    names = [f"stream{number}" for number in range(1, len(texts) + 1)]
    files = {"formula": formula, "cube": "-2 0\n", **dict(zip(names, texts))}
    words = [*small(options.split()), "--checkpoint", "saved", "formula", *names]
    return name, Wanted(words, status, report(said, status), files=files,
                        left={"saved": wanted, "formula": formula})


@runs_in_both_ways
def test_one_stream() -> Iterator[Named]:
    yield saved("an addition and a drop", 3, ["1 added, 1 deleted, ended"], [DROPPING],
                SAVED_DROPPING)
    yield saved("nothing", 3, [NOTHING], [""], SAVED_FOUR)
    yield saved("an addition", 3, [ADDED], [ONE], SAVED_ONE)
    yield saved("an addition with a gap before it", 3, [ADDED], ["7 2 0 1 2 0\n"],
                SAVED_FOUR.replace("2 4", "2 5") + "c id 7\n2 0\n")
    yield saved("its own clause deleted", 3, ["2 added, 1 deleted, ended"],
                [ONE + "6 2 0 1 2 0\n5 d 5 0\n"],
                SAVED_FOUR.replace("2 4", "2 5") + "c id 6\n2 0\n")
    yield saved("all clauses dropped", 3, ["0 added, 4 deleted, ended"],
                ["1 d 4 3 2 1 0\n"], "p cnf 2 0\n")
    yield saved("a bad line after a drop", 3, ["1 added, 1 deleted, bad line 3 (no conflict)"],
                [DROPPING + "6 1 0 3 0\n"], SAVED_DROPPING)
    yield saved("a bad deletion, after a drop in its line", 3,
                ["0 added, 1 deleted, bad line 1 (not live 1)"], ["1 d 1 1 2 0\n"],
                "p cnf 2 3\nc id 2\n-1 2 0\nc id 3\n1 -2 0\nc id 4\n-1 -2 0\n")
    yield saved("an import", 3, [NOTHING], ["1 i 2 1 0\n"], SAVED_FOUR)
    yield saved("the empty clause", 0, ["2 added, 0 deleted, ended"], [TWO], "")
    yield saved("a drop and the empty clause", 0, ["2 added, 1 deleted, ended"],
                ["5 2 0 1 2 0\n6 0 5 3 4 0\n1 d 1 0\n"], "")
    yield saved("a clause that contradicts the assumption", 8, [ADDED], [ONE], SAVED_ONE,
                options="--assume cube")
    yield saved("the empty clause, and assumptions", 0, ["2 added, 0 deleted, ended"], [TWO],
                "", options="--assume cube")
    yield saved("none that contradicts it", 3, [NOTHING], [""], SAVED_FOUR,
                options="--assume cube")


@runs_in_both_ways
def test_formulas() -> Iterator[Named]:
    """Only the clauses of a formula are kept."""
    yield saved("no clauses", 3, [NOTHING], [""], "p cnf 0 0\n", formula="p cnf 0 0\n")
    yield saved("no clauses of many variables", 3, [NOTHING], [""], "p cnf 16777215 0\n",
                formula="p cnf 16777215 0\n")
    yield saved("an empty clause", 3, [NOTHING], [""], "p cnf 0 1\n0\n",
                formula="p cnf 0 1\n0\n")
    yield saved("comments and lines", 3, [NOTHING], [""], "p cnf 3 2\n1 2 0\n-3 0\n",
                formula="c a comment\nc id 7\np  cnf\t3 2\n1\nc within\n2 0 -3\r\n0\nc id 9\n")
    yield saved("a checkpoint", 3, [NOTHING], [""],
                SAVED_DROPPING.replace("c id 2\n", "").replace("c id 3\n", "")
                .replace("c id 4\n", "").replace("c id 5\n", ""), formula=SAVED_DROPPING)
    yield saved("a checkpoint, and what refutes it", 0, [ADDED], ["5 0 4 2 3 0\n"], "",
                formula=SAVED_DROPPING)
    yield saved("a literal twice", 3, [NOTHING], [""], "p cnf 2 1\n2 0\n",
                formula="p cnf 2 1\n2 2 2 0\n")
    yield saved("a tautology", 3, [NOTHING], [""], "p cnf 2 2\n1 -1 0\n2 0\n",
                formula="p cnf 2 2\n1 -1 0\n2 0\n")
    yield saved("the largest variable", 3, [NOTHING], [""], "p cnf 16777215 1\n-16777215 0\n",
                formula="p cnf 16777215 1\n-16777215 0\n")


@runs_in_both_ways
def test_several_streams() -> Iterator[Named]:
    """Clauses that all streams dropped are left out, but not those that only some dropped;
    identities are in order, no matter who owns them."""
    both = ["5 d 1 2 0\n", "6 d 3 1 0\n"]
    kept = "c id 2\n-1 2 0\nc id 3\n1 -2 0\nc id 4\n-1 -2 0\n"
    yield saved("what both streams have dropped", 3, ["0 added, 2 deleted, ended"] * 2, both,
                "p cnf 2 3\n" + kept)
    yield saved("what two of three have dropped", 3,
                ["0 added, 2 deleted, ended"] * 2 + [NOTHING], [*both, ""], SAVED_FOUR)
    yield saved("identities in order", 3, [ADDED] * 2, ["7 2 0 1 2 0\n", "6 -2 0 3 4 0\n"],
                SAVED_FOUR.replace("2 4", "2 6") + "c id 6\n-2 0\nc id 7\n2 0\n")
    yield saved("another's clause dropped", 3, ["0 added, 1 deleted, ended", ADDED],
                ["5 d 6 0\n", "6 -2 0 3 4 0\n"],
                SAVED_FOUR.replace("2 4", "2 5") + "c id 6\n-2 0\n")
    yield saved("a stream that is bad at once drops nothing", 3,
                ["0 added, 2 deleted, ended", "0 added, 0 deleted, bad line 1 (spelling)"],
                ["5 d 1 2 0\n", "\n"], SAVED_FOUR)
    yield "a folder as a stream drops nothing", Wanted(
        [*SMALL_ROW, "--checkpoint", "saved", "formula", "dropping", "."], 3,
        report(["1 added, 1 deleted, ended", "0 added, 0 deleted, read failed at line 1"], 3),
        files=FILES, left={"saved": SAVED_ONE})
    many = [f"{number} 2 0 1 2 0\n{number} d 1 0\n" for number in range(5, 69)]
    derived = "".join(f"c id {number}\n2 0\n" for number in range(5, 69))
    yield saved("64 streams", 3, ["1 added, 1 deleted, ended"] * 64, many,
                "p cnf 2 67\n" + kept + derived)


# Checkpoints that aren't created: nothing is touched.


@runs_in_both_ways
def test_a_checkpoint_that_is_not_created() -> Iterator[Named]:
    links = 'ln -s absent dangling; ln -s one link; mkdir folder; exec "$@"'
    left: Dict[str, Optional[str]] = {**FILES, "absent": None, "saved": None}
    for path in ["one", "formula", "dropping", "/dev/full", "/dev/null", ".", "link", "dangling",
                 "folder", "absent/saved", "formula/saved", ""]:
        yield f"at '{path}'", Wanted(["--checkpoint", path, "formula", "one"], 5,
                                     err=NOT_CREATED, files=FILES, shell=links, left=left)


@runs_in_both_ways
def test_the_order_of_work() -> Iterator[Named]:
    """The file is created once everything has been opened and there is a layout."""
    refused = {**FILES, "refused": "p cnf 1\n", "cube": "-2  0\n"}
    for cause, status, words in [
            ("cannot read formula", 5, ["absent", "one"]),
            ("formula refused: bad header", 4, ["refused", "one"]),
            ("cannot read assumptions", 5, ["--assume", "absent", "formula", "one"]),
            ("assumptions refused: spelling", 4, ["--assume", "cube", "formula", "one"]),
            ("cannot open stream 2", 5, ["formula", "one", "absent"]),
            ("row too long", 2, ["--lines", "268435456", "formula", "one"]),
            ("stream count", 2, ["formula", *["one"] * 65])]:
        for path, left in ("saved", None), ("one", ONE):
            yield (f"{cause}, {path}",
                   Wanted(["--checkpoint", path, *words], status, err=f"lrupd: {cause}\n",
                          files=refused, left={path: left}))


def test_a_checkpoint_is_created_before_the_check(program: str, way: List[str],
                                                  tmp_path: Path) -> None:
    """If it can't be created, the message comes while the stream is still silent."""
    with held(tmp_path / "silent"):
        found = run([program, *way, "--checkpoint", "absent/saved", written(FOUR, tmp_path),
                     "silent"], cwd=tmp_path)
    assert found == Ran("", NOT_CREATED, 5)


@pytest.mark.parametrize("words", [
    "--checkpoint", "--checkpoint saved", "--checkpoint saved formula",
    "--checkpoint saved --checkpoint other formula one"])
def test_usage(program: str, words: str, tmp_path: Path) -> None:
    out, err, status = answered(program, Wanted(words.split(), 2, files=FILES), tmp_path)
    assert (out, status) == ("", 2)
    assert err != ""
    assert sorted(os.listdir(tmp_path)) == sorted(FILES)


# Saving or the report fails.


@runs_in_both_ways
def test_watched() -> Iterator[Named]:
    told = Wanted(["--watch", "--checkpoint", "saved", "formula", "dropping"], 3,
                  report(["1 added, 1 deleted, ended"], 3),
                  "lrupd: stream 1: 1 added, 1 deleted, ended\n", files=FILES,
                  left={"saved": SAVED_DROPPING})
    yield "watched", told
    yield ("watched, with no input and no standard error",
           told._replace(err="", shell='exec "$@" <&- 2>&-'))


@runs_in_both_ways
def test_full_outputs() -> Iterator[Named]:
    none = 'trap "" XFSZ; ulimit -f 0; exec "$@"'
    words = [*SMALL_ROW, "--checkpoint", "saved", "formula", "one"]
    unsaved = Wanted(words, 9, report([ADDED], 3), NOT_WRITTEN, files=FILES, shell=none,
                     left={"saved": ""})
    yield "a full disk", unsaved
    yield "a full disk, under assumptions", unsaved.under(["--assume", "cube"])._replace(
        out=report([ADDED], 8), files={**FILES, "cube": "-2 0\n"})
    yield "a full disk, and nothing to save", unsaved._replace(
        words=[*words[:-1], "two"], status=0, out=report(["2 added, 0 deleted, ended"], 0), err="")
    yield ("a full disk and a full standard error",
           unsaved._replace(err="", shell=none + " 2> /dev/full"))
    yield "a full disk and a full output", unsaved._replace(
        status=7, out="", err=NOT_WRITTEN + NO_REPORT, shell=none + " > /dev/full")
    unreported = unsaved._replace(status=7, out="", err=NO_REPORT, left={"saved": SAVED_ONE})
    yield "a full output", unreported._replace(shell='exec "$@" > /dev/full')
    yield "a closed output", unreported._replace(shell='exec "$@" >&-')


def want_refused(program: str, torn: Path) -> None:
    """lrupd refuses the file as a formula."""
    again = run([program, torn, "/dev/null"])
    assert (again.out, again.status) == ("", 4)
    assert again.err.startswith("lrupd: formula refused: ")


def want_torn(program: str, way: List[str], path: Path, limit: Optional[int]) -> None:
    """lrupd leaves a part of the checkpoint there, which isn't a formula."""
    formula = example("bmc.cnf")
    words = [*SMALL_ROW, *way, "--checkpoint", path, formula, "/dev/null"]
    found = run([program, *words], preexec_fn=lambda: within(limit))
    assert found == Ran(report([NOTHING], 3), NOT_WRITTEN, 9)
    whole = printed(variables_of(formula), live(formula, [Path("/dev/null")]))
    left = path.read_text()
    assert 0 < len(left) < len(whole)
    assert whole.startswith(left)
    want_refused(program, path)


@pytest.mark.parametrize("limit", [1, 512, 4096])
def test_a_limit_on_the_size_of_files(program: str, way: List[str], limit: int,
                                      tmp_path: Path) -> None:
    want_torn(program, way, tmp_path / "saved", limit)


@pytest.fixture
def small_disk(tmp_path: Path) -> Iterator[Path]:
    """A file system of 4,096 bytes."""
    place = tmp_path / "disk"
    place.mkdir()
    mount = ["mount", "-t", "tmpfs", "-o", "size=4096", "none", place]
    if not shutil.which("mount") or run(mount).status:
        pytest.skip("no file system can be mounted")
    yield place
    run(["umount", place])


def test_a_disk_that_gets_full(program: str, way: List[str], small_disk: Path) -> None:
    want_torn(program, way, small_disk / "saved", None)


def test_no_beginning_is_a_formula(program: str, tmp_path: Path) -> None:
    """No proper prefix of a checkpoint is a formula, except the one without the last LF."""
    for size in range(len(SAVED_DROPPING) - 1):
        want_refused(program, written(SAVED_DROPPING[:size], tmp_path, "torn"))


def test_a_folder_that_may_not_be_written(program: str, tmp_path: Path) -> None:
    folder = tmp_path / "folder"
    for name, text in ("formula", FOUR), ("one", ONE):
        written(text, tmp_path, name).chmod(0o644)
    folder.mkdir(mode=0o555)
    found = run_by_another(program, ["--checkpoint", "folder/saved", "formula", "one"], tmp_path)
    assert found == Ran("", NOT_CREATED, 5)
    assert os.listdir(folder) == []


@pytest.mark.usefixtures("much_memory")
@pytest.mark.parametrize("count, fault", [
    pytest.param(0, "", id="the most clauses"),
    pytest.param(1, "lrupd: checkpoint refused: limit\n", id="a clause too many")])
def test_the_most_clauses(program: str, count: int, fault: str, tmp_path: Path) -> None:
    """As many clauses as a formula may have, and one more."""
    formula, clauses = most_clauses(tmp_path), MOST_CLAUSES
    stream = written("".join(f"{clauses + number} 1 0 1 0\n" for number in range(1, count + 1)),
                     tmp_path, "stream")
    found = run([program, "--lines", "10", "--room", "10", "--checkpoint", tmp_path / "saved",
                 formula, stream])
    said = report([f"{count} added, 0 deleted, ended"], 3)
    assert found == Ran(said, fault, 9 if fault else 3)
    is_right = (tmp_path / "saved").read_bytes() == (b"" if fault else formula.read_bytes())
    assert is_right     # 67 MB, too long to be shown


# Checkpoints of recorded streams.


@pytest.mark.parametrize("part", [0.1, 0.3, 0.5])
@pytest.mark.parametrize("formula, names", [pytest.param(formula, names, id=names[0])
                                            for formula, names in RECORDED[1:]])
def test_recorded(program: str, way: List[str], formula: str, names: List[str], part: float,
                  tmp_path: Path) -> None:
    """Runs the first lines of each stream, so that none derives the empty clause. Another run, over
    the checkpoint, saves the same clauses again."""
    streams = []
    for name in names:
        lines = example(name).read_text().splitlines(True)
        # All streams keep the same number of lines, so that, if streams take turns, each line comes
        # after what it cites.
        count = int(part * min(len(example(other).read_text().splitlines()) for other in names))
        streams.append(written("".join(lines[:count]), tmp_path, name))
    entries, saved = live(example(formula), streams), tmp_path / "saved"
    options = [*enough_for(streams), "--tries", "1000000", *way]
    found = run([program, *options, "--checkpoint", saved, example(formula), *streams])
    assert (found.err, found.status) == ("", 3)
    assert found.out.count(", ended\n") == len(names)
    want_checkpoint(saved, printed(variables_of(example(formula)), entries))
    again = run([program, *options, "--checkpoint", tmp_path / "again", saved, "/dev/null"])
    assert again == Ran(report([NOTHING], 3), "", 3)
    clauses = "".join(line for line in saved.read_text().splitlines(True)
                      if not line.startswith("c"))
    assert (tmp_path / "again").read_text() == clauses
