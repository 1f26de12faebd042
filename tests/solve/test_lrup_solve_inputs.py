"""What lrup-solve reads and keeps, depending on its arguments: formulas by path and by pipe,
assumptions, records and their folders. Then come arguments, formulas and assumptions that are
refused: messages on texts have lrupd's words, and say more."""
import os
import re
import shlex
import shutil
import signal
import socket
import subprocess
import time
from pathlib import Path
from typing import Any, Callable, Dict, Iterator, List, Mapping, NamedTuple, Sequence, Union

import pytest

from harness import (COMPRESSED, FILTER, FOUR, LIMIT, MODEL, PROGRAM, SMALL_ROW, VERDICTS, Ran,
                     compiled, example, generated, in_shell, named, output_of, piped, run, started,
                     until, written)
from lrat import lrat_fault
from proof_forms import read_formula
from solving import (SOLVE, Answer, before_lrupd, check_again, command, end_of, in_place_of_lrupd,
                     listed, none_left, solve, started_run, until_there, want_answer)

pytestmark = pytest.mark.usefixtures("solve_for_tests")
Text = Union[str, bytes]
IN_ROUNDS = {"SAME_WORDS": 1, "SLICE": 40, "FIRST_WORDS": 20000}
UNDER = "s UNSATISFIABLE UNDER ASSUMPTIONS"


@pytest.fixture
def kept(tmp_path: Path) -> Path:
    """The folder of a record, which isn't there yet."""
    return tmp_path / "kept"


def content(folder: Path) -> Dict[str, bytes]:
    return {path.name: path.read_bytes() for path in folder.iterdir()}


def want_refused(words: Sequence[object], said: str, **how: Any) -> None:
    """The run is refused, with one line on standard error, which says this."""
    answer = solve(words, limit=60, **how)
    assert (answer.out, answer.status) == ("", 1)
    assert re.fullmatch(r"lrup-solve: .*\n", answer.said)
    assert said in answer.said


# Where the formula is.


as_standard_input = pytest.mark.parametrize("words", [[], ["-"]], ids=["no name", "-"])


@as_standard_input
def test_standard_input_is_a_pipe(words: List[str]) -> None:
    want_answer(solve(words, given=example("bmc.cnf").read_text()), 20)


@as_standard_input
def test_standard_input_is_a_file(words: List[str]) -> None:
    with open(example("bmc.cnf")) as file:
        want_answer(solve(words, stdin=file), 20)


def solve_in_shell(how: str, words: Sequence[object], cwd: Path) -> Answer:
    """A shell opens $formula, and starts lrup-solve as "$@"."""
    return Answer(in_shell(how, "sh", *command(words), cwd=cwd,
                           env={**os.environ, "formula": str(example("bmc.cnf"))}))


@pytest.mark.parametrize("how", named([("a file", '"$@" < "$formula"'),
                                       ("a pipe", 'cat "$formula" | "$@"')]))
@pytest.mark.parametrize("words", [["/dev/stdin"], ["/proc/self/fd/0"], ["link"], ["--", "-"],
                                   ["--proofs", "kept", "/dev/stdin"]], ids=" ".join)
def test_other_names_of_standard_input(words: List[str], how: str, tmp_path: Path) -> None:
    """lrupd couldn't open standard input by such a name."""
    (tmp_path / "link").symlink_to("/dev/stdin")
    want_answer(solve_in_shell(how, words, tmp_path), 20)


def test_another_open_file(tmp_path: Path) -> None:
    how = '"$@" 5< "$formula" < "$formula"'
    want_answer(solve_in_shell(how, ["/dev/fd/5"], tmp_path), 20)


def test_a_fifo(tmp_path: Path) -> None:
    fifo = piped(tmp_path / "fifo")
    with started(["cp", example("bmc.cnf"), fifo]):
        want_answer(solve([fifo]), 20)


# Where programs are, and what is printed.


each_program = pytest.mark.parametrize("name", ["lrupd", "lrup-model"])


def solve_with(name: str, place: str, work: Path) -> Ran:
    """Runs lrup-solve in the folder `beside`, which has the other programs, too. The program with
    this name is in the folder `place`, and the PATH is `path`."""
    for folder in ("beside", "path", "elsewhere"):
        (work / folder).mkdir()
    for own in (SOLVE, SOLVE.with_name("lrup-engines")):
        shutil.copy(own, work / "beside")
    for other, program in (("lrupd", PROGRAM), ("lrup-model", MODEL)):
        (work / (place if other == name else "beside") / other).symlink_to(program)
    return run([work / "beside" / SOLVE.name, example("four-clause.cnf")],
               env={**os.environ, "PATH": str(work / "path")})


@each_program
@pytest.mark.parametrize("place", ["beside", "path"])
def test_where_a_program_is_found(name: str, place: str, tmp_path: Path) -> None:
    done = solve_with(name, place, tmp_path)
    assert (done.err, done.status) == ("", 20)
    assert done.out.splitlines()[-1] == "s UNSATISFIABLE"


@each_program
def test_a_program_that_is_not_found(name: str, tmp_path: Path) -> None:
    said = f"lrup-solve: no {name} that can be run: none beside lrup-solve or on PATH\n"
    assert solve_with(name, "elsewhere", tmp_path) == Ran("", said, 1)


@pytest.mark.parametrize("words", [["-q"], ["--quiet"], ["-qv"], ["-vq"], ["-v", "-q"],
                                   ["--quiet", "--verbose"]], ids=" ".join)
def test_quiet(words: List[str]) -> None:
    """Only the answer is printed, even with -v."""
    assert solve([*words, example("bmc.cnf")]).out == "s UNSATISFIABLE\n"


@pytest.mark.parametrize("word", ["-v", "-vv", "--verbose"])
def test_verbose(word: str) -> None:
    answer = solve([word, example("bmc.cnf")])
    want_answer(answer, 20)
    assert any(line.startswith("engine 1: ") for line in answer.comments), answer.out


# Assumptions.


# The formula implies 2, and not 1.
IMPLIES_2 = "p cnf 3 3\n1 2 0\n-1 2 0\n3 -3 0\n"
each_number_of_engines = pytest.mark.parametrize("engines", [1, 3])


def solve_assuming(literals: str, formula: Path, engines: int) -> Answer:
    cube = written(literals, formula.parent, "cube")
    return solve(["-j", engines, "--assume", cube, formula])


@each_number_of_engines
@pytest.mark.parametrize("text, literals", named([
    ("one", IMPLIES_2, "-2 0\n"), ("one of three", IMPLIES_2, "3 1 -2 0\n"),
    ("against a unit clause", "p cnf 1 1\n1 0\n", "-1 0\n")]))
def test_assumptions_that_contradict_the_formula(text: str, literals: str, engines: int,
                                                 tmp_path: Path) -> None:
    answer = solve_assuming(literals, written(text, tmp_path), engines)
    want_answer(answer, 20, verdict=UNDER)


@each_number_of_engines
@pytest.mark.parametrize("literals", ["2 -1 0\n", "0\n"])
def test_assumptions_that_fit(literals: str, engines: int, tmp_path: Path) -> None:
    formula = written(IMPLIES_2, tmp_path)
    answer = solve_assuming(literals, formula, engines)
    want_answer(answer, 10, formula)
    assert set(map(int, literals.split())) <= set(answer.values)


@each_number_of_engines
def test_assumptions_without_need_of_them(engines: int, tmp_path: Path) -> None:
    formula = written(FOUR.replace("cnf 2", "cnf 3"), tmp_path)
    want_answer(solve_assuming("3 0\n", formula, engines), 20)


def test_assumptions_that_contradict_each_other(tmp_path: Path) -> None:
    answer = solve_assuming("3 1 -1 0\n", written(IMPLIES_2, tmp_path), 2)
    want_answer(answer, 0)
    said = "assumptions 1 and -1 contradict each other, which no proof can show"
    assert answer.comments[:-1] == [said]


# Records.


@pytest.mark.parametrize("options", [[], ["-j", "4"]], ids=["usual options", "four engines"])
def test_a_record_is_checked_again(options: List[str], tmp_path: Path) -> None:
    kept, formula = tmp_path / "what's kept", tmp_path / "a formula"
    shutil.copy(example("bmc.cnf"), formula)
    want_answer(solve([*options, "--proofs", kept, formula]), 20)
    check_again(kept)


@pytest.mark.parametrize("words", ["pigeons 7", "random 150 1"])
def test_the_stream_of_one_engine_is_lrat(words: str, kept: Path, tmp_path: Path) -> None:
    """If there is one round, the stream is LRAT for any LRAT checker."""
    formula = generated(words, tmp_path)
    want_answer(solve(["-j", "1", "--memory", "256M", "--proofs", kept, formula],
                      tested={"FIRST_WORDS": 1 << 24}), 20)
    assert sorted(os.listdir(kept)) == ["about", "command", "files", "formula.sha256", "report",
                                        "round-1.sizes", "round-1.stream-1"]
    assert lrat_fault(read_formula(formula), (kept / "round-1.stream-1").read_text()) == ""


def test_a_record_has_a_copy_of_standard_input(kept: Path) -> None:
    text = example("bmc.cnf").read_text()
    want_answer(solve(["--proofs", kept], given=text), 20)
    assert (kept / "formula.cnf").read_text() == text
    check_again(kept)


@pytest.mark.parametrize("is_checked", [False, True], ids=["lrup-solve", "lrup-check"])
@pytest.mark.parametrize("assumed", [False, True], ids=["no assumptions", "assumptions"])
def test_a_record_with_copies_of_its_inputs(assumed: bool, is_checked: bool, kept: Path,
                                            tmp_path: Path) -> None:
    """With --with-formula a record needs no other file, even if its inputs are removed at once."""
    text = example("assumed.cnf").read_text() if assumed else FOUR
    formula, cube = written(text, tmp_path), written("-2 0\n", tmp_path, "cube")
    proof = example("assumed.lrup" if assumed else "four-clause.lrup")
    program: List[object] = ([SOLVE.with_name("lrup-check")] if is_checked
                             else [SOLVE, "-j", "1"])
    words = [*program, "-q", "--with-formula", "--proofs", kept, *["--assume", cube] * assumed,
             formula, *[proof] * is_checked]
    checks = 8 if assumed else 0
    assert in_shell('"$@"; status=$?; rm formula.cnf cube; exit $status', "sh", *words,
                    cwd=tmp_path) == Ran(f"{VERDICTS[checks]}\n", "", checks if is_checked else 20)
    assert (kept / "formula.cnf").read_text() == text
    assert (kept / "assumptions").exists() == assumed
    assert {"formula.cnf", *["assumptions"] * assumed} <= set(listed(kept))
    done = run(["sh", kept.rename(tmp_path / "moved") / "command"])
    assert (done.err, done.status) == ("", checks)


def test_a_record_for_each_run(tmp_path: Path) -> None:
    """In place of %n comes the first number for which there is no folder, or file, yet; runs that
    begin at the same time get different ones."""
    formula = written(FOUR, tmp_path)
    (tmp_path / "kept-2%n").write_text("")
    words = command(["-j", "1", "--proofs", "kept-%n%n", formula])
    assert in_shell('for k in 1 2 3 4; do "$@" & done; wait', "sh", *words,
                    cwd=tmp_path).out.count("s UNSATISFIABLE\n") == 4
    assert sorted(path.name for path in tmp_path.iterdir() if path.is_dir()) == [
        f"kept-{number}%n" for number in (1, 3, 4, 5)]
    answer = solve(["-j", "1", "--proofs", "kept-%n%n", formula], cwd=tmp_path)
    want_answer(answer, 20)
    assert "the record is kept-6%n" in answer.comments
    for number in (1, 3, 4, 5, 6):
        check_again(tmp_path / f"kept-{number}%n")
    want_refused(["--resume", "kept-%n", formula], "kept-%n: No such file or directory",
                 cwd=tmp_path)


def test_names_relative_to_another_folder(tmp_path: Path) -> None:
    """The record's command works in any folder, even if formula, checker and record were named
    relative to another one."""
    written("0\n", tmp_path, "cube")
    (tmp_path / "lrupd").symlink_to(PROGRAM)
    shutil.copy(example("bmc.cnf"), tmp_path / "formula.cnf")
    done = run([SOLVE, "--lrupd", "./lrupd", "--proofs", "a record", "--assume", "cube",
                "formula.cnf"], cwd=tmp_path)
    assert (done.err, done.status) == ("", 20)
    check_again(tmp_path / "a record")


@pytest.mark.parametrize("tested", named([
    ("one round", {"SLICE": 50}),
    ("rounds", {"SLICE": 50, "FIRST_WORDS": 4000, "SAME_WORDS": 1})]))
@pytest.mark.parametrize("assumed", named([("no assumptions", b""), ("assumptions", b"cube\xe9")]))
@pytest.mark.parametrize("record", named([("no record", b""), ("a record", b"kept"),
                                          ("a record's name, too", b"kept\xff")]))
def test_names_that_are_not_utf8(assumed: bytes, record: bytes, tested: Mapping[str, object],
                                 tmp_path: Path) -> None:
    """Names of the formula, the assumptions, the record and the current folder, which lrupd would
    refuse."""
    folder = tmp_path / os.fsdecode(b"\xff \xed\xa0\x80")
    formula = written(example("bmc.cnf").read_text(), folder, os.fsdecode(b"formula\xc0\x80"))
    words: List[object] = ["-v", "-j", "2"]
    if assumed:
        words += ["--assume", written("0\n", folder, os.fsdecode(assumed)).name]
    if record:
        words += ["--proofs", os.fsdecode(record)]
    answer = solve([*words, formula.name], cwd=folder, tested=tested,
                   env_more={"TMPDIR": str(folder)})
    want_answer(answer, 20)
    assert list(folder.glob("lrup-solve-*")) == []
    if record:
        check_again(folder / os.fsdecode(record))


def test_a_formula_whose_name_is_of_a_saved_round(kept: Path, tmp_path: Path) -> None:
    """In the record's folder the formula has a name that lrupd gives to the clauses of a round. A
    run with several rounds leaves it alone, and so does a run that replaces the record."""
    formula = written(generated("random 180 3", tmp_path).read_bytes(), kept, "round-1.cnf")
    text = formula.read_text()
    for _ in range(2):
        want_answer(solve(["-j", "2", "--replace", "--proofs", kept, formula], tested=IN_ROUNDS),
                    20)
        assert len(list(kept.glob("round-*.sizes"))) > 1
        check_again(kept)
        assert formula.read_text() == text


def test_a_report_that_cannot_be_kept(kept: Path, tmp_path: Path) -> None:
    """The answer is still printed, and the status is the answer's."""
    lrupd = before_lrupd(f"mkdir {kept}/report", tmp_path)
    answer = solve(["--lrupd", lrupd, "--proofs", kept, example("bmc.cnf")])
    assert (answer.answers, answer.status) == (["s UNSATISFIABLE"], 20)
    assert answer.said == f"lrup-solve: cannot write {kept}/report: File exists\n"
    found = [name for name in os.listdir(kept) if not name.startswith("round-1.")]
    assert sorted(found) == ["files", "formula.sha256", "report"]


# Folders of records.


@pytest.mark.parametrize("mode", [0o777, 0o757], ids="{:o}".format)
def test_a_folder_where_others_may_write(mode: int, kept: Path) -> None:
    """They may remove files, and so may replace a stream."""
    kept.mkdir()
    kept.chmod(mode)
    want_refused(["-j", "1", "--proofs", kept, example("bmc.cnf")],
                 f"{kept}: others may write there: choose another --proofs")


@pytest.mark.parametrize("mode", [0o1777, 0o775, 0o700], ids="{:o}".format)
def test_a_folder_where_others_may_remove_nothing(mode: int, kept: Path) -> None:
    kept.mkdir()
    kept.chmod(mode)
    want_answer(solve(["-j", "1", "--proofs", kept, example("bmc.cnf")]), 20)
    check_again(kept)


def test_mode_of_a_folder_that_is_made(kept: Path) -> None:
    words = command(["-j", "1", "--proofs", kept, example("bmc.cnf")])
    assert in_shell('umask 0; exec "$@"', "sh", *words).status == 20
    assert f"{kept.stat().st_mode & 0o7777:o}" == "775"
    check_again(kept)


@pytest.mark.parametrize("name, words", [
    ("formula.cnf", ""), ("formula.cnf", "kept/formula.cnf"),
    ("round-1.stream-1", "kept/round-1.stream-1"),
    ("round-12.stream-64", "kept/round-12.stream-64"), ("round-3.sizes", "kept/round-3.sizes"),
    ("report", "link"), ("command", "other"), ("round-1.stream-2", "/dev/stdin"),
    ("x", "--assume kept/assumptions kept/x")])
def test_an_input_is_not_overwritten(name: str, words: str, kept: Path, tmp_path: Path) -> None:
    """It is in the record's folder, and has the name of a record's file. Standard input is the same
    file."""
    path = written(example("bmc.cnf").read_text(), kept, name)
    written("0\n", kept, "assumptions")
    (tmp_path / "link").symlink_to(path)
    os.link(path, tmp_path / "other")
    before = content(kept)
    with open(path) as file:
        want_refused(["--proofs", "kept", *words.split()],
                     " would be overwritten: choose another --proofs\n", cwd=tmp_path, stdin=file)
    assert content(kept) == before


def test_links_in_a_record(kept: Path, tmp_path: Path) -> None:
    """Links that the record lists are removed, and their targets stay."""
    targets = [written("text", tmp_path, name) for name in ("one", "two", "three")]
    written("files\nround-1.stream-1\nreport\n.report.new\nround-1.stream-2\n", kept, "files")
    for target, name in zip(targets, ("round-1.stream-1", "report", ".report.new")):
        (kept / name).symlink_to(target)
    os.link(targets[1], kept / "round-1.stream-2")
    want_answer(solve(["-j", "2", "--proofs", kept, example("bmc.cnf")]), 20)
    assert [target.read_text() for target in targets] == ["text"] * 3
    check_again(kept)


@pytest.mark.parametrize("name, ends", named([
    ("Terminated", "kept", signal.SIGTERM), ("Killed, named by a link", "link", signal.SIGKILL)]))
def test_the_folder_of_another_run(name: str, ends: signal.Signals, kept: Path, mark: str,
                                   tmp_path: Path) -> None:
    """A run locks its folder until it ends, however it ends. A second run is refused at once, and
    touches nothing."""
    words = ["-j", "1", "--proofs", tmp_path / name, example("bmc.cnf")]
    (tmp_path / "link").symlink_to("kept")
    with started(command(["-j", "1", "--proofs", kept, generated("pigeons 11", tmp_path)]),
                 stdout=subprocess.DEVNULL) as running:
        until("lrupd's sizes are there",
              lambda: (kept / "round-1.sizes").exists() or running.poll() is not None)
        before = sorted(os.listdir(kept))
        want_refused(words, f"{tmp_path / name}: another run has its files there, and hasn't ended:"
                            " choose another --proofs")
        assert running.poll() is None
        assert sorted(os.listdir(kept)) == before
        running.send_signal(ends)
        running.wait(LIMIT)
        none_left(mark)
    assert set(before) - set(listed(kept)) == set()
    want_answer(solve(["--replace", *words]), 20)       # the first run may have saved a round
    check_again(kept)


# A record's folder has such files, too, but no record lists them.
OTHERS = ["another", "round-0.sizes", "round-1.stream-", "round-1.stream-x", "round-2.cnf",
          "round-2.cnf.old", "round.cnf", "stream1"]


def write_others(kept: Path) -> None:
    for name in OTHERS:
        written("of an earlier run\n", kept, name)


def want_others(kept: Path) -> None:
    """The files that no record lists are as they were."""
    found = {name: (kept / name).read_text() for name in OTHERS if (kept / name).exists()}
    assert found == dict.fromkeys(OTHERS, "of an earlier run\n")


def test_an_earlier_record_is_removed(kept: Path) -> None:
    """A new run leaves nothing of the old record; its formula may come from that record, through a
    pipe. What the record doesn't list isn't removed."""
    rounds = [f"round-{k}.{name}" for k in (1, 2, 9, 10, 123)
              for name in ("sizes", "stream-1", "stream-2", "stream-64")]
    names = ["about", "report", "command", "formula.sha256", "formula.cnf", "assumptions",
             ".round-9.sizes.new", *rounds]
    for name in names:
        written("of an earlier run\n", kept, name)
    write_others(kept)
    # The run was killed in the middle of writing a name, and before round 7 was there.
    written("\n".join(["files", *names, "round-7.sizes", "round-1.str"]), kept, "files")
    shutil.copy(example("bmc.cnf"), kept / "formula.cnf")
    done = in_shell('cat "$0"/formula.cnf | "$@"', kept,
                    *command(["-j", 2, "--replace", "--proofs", kept, "-"]))
    want_answer(Answer(done), 20)
    found = ["about", "command", "files", "formula.cnf", "formula.sha256", "report",
             "round-1.sizes", "round-1.stream-1", "round-1.stream-2"]
    assert sorted(os.listdir(kept)) == sorted([*OTHERS, *found])
    assert [name for name in listed(kept) if name[0] != "."] == found
    assert (kept / "formula.cnf").read_text() == example("bmc.cnf").read_text()
    want_others(kept)
    check_again(kept)


def test_a_run_without_an_answer_replaces_a_proof(kept: Path, tmp_path: Path) -> None:
    """It is ended by a signal, and leaves nothing but what it has saved."""
    write_others(kept)
    want_answer(solve(["-j", 2, "--proofs", kept], given=example("bmc.cnf").read_text()), 20)
    words = ["-j", 1, "--replace", "--proofs", kept, generated("pigeons 11", tmp_path)]
    one_round = {"FIRST_WORDS": 1 << 24}      # no machine fills this row before the run ends
    with started_run(words, one_round) as running:
        until_there("lrupd", running)
        running.terminate()
        answer = end_of(running)
    assert answer.out.splitlines()[-1:] == ["s UNKNOWN"]
    assert answer.status == -signal.SIGTERM
    assert sorted(os.listdir(kept)) == sorted([
        *OTHERS, "checkpoint-2.cnf", "files", "formula.sha256", "round-1.sizes", "round-1.stream-1",
        "rounds.sha256"])
    want_others(kept)


@pytest.fixture
def own(tmp_path: Path) -> Path:
    """A folder of the user's, without a record."""
    (tmp_path / "own").mkdir()
    return tmp_path / "own"


@pytest.mark.parametrize("name", [
    "about", "formula.cnf", "formula.sha256", "assumptions", "report", "command", ".report.new",
    "round-7.sizes", "round-2.stream-3"])
def test_a_file_of_the_user(name: str, own: Path) -> None:
    """A file that has the name of a record's file, but isn't part of a record, is left alone."""
    path = written("mine\n", own, name)
    want_refused(["--proofs", own, example("bmc.cnf")],
                 f"{path} is there, but isn't from an earlier run: choose another --proofs\n")
    assert content(own) == {name: b"mine\n"}


def test_another_file_of_the_user(own: Path) -> None:
    """It stays beside the record."""
    mine = written("mine\n", own, "round-5.cnf")
    want_answer(solve(["--proofs", own, example("bmc.cnf")]), 20)
    assert mine.read_text() == "mine\n"
    check_again(own)


def test_a_record_without_its_list(kept: Path) -> None:
    """It isn't removed."""
    want_answer(solve(["--proofs", kept, example("bmc.cnf")]), 20)
    (kept / "files").unlink()
    want_refused(["--proofs", kept, example("bmc.cnf")],
                 f"{kept}/about is there, but isn't from an earlier run: choose another --proofs\n")
    check_again(kept)


def test_each_run_leaves_a_record(kept: Path) -> None:
    """The next run can replace what a run leaves, even one that has refused its formula."""
    for text, status in ((FOUR, 20), ("x", 1), ("p cnf 1 0\n", 10), ("p cnf 1 1\n2 0\n", 1),
                         (FOUR, 20)):
        answer = solve(["--replace", "--proofs", kept, "-"], given=text)
        assert answer.status == status, answer.said


def want_list_refused(own: Path) -> None:
    """The user's list isn't a record's, so nothing is removed."""
    report = written("mine\n", own, "report")
    want_refused(["--proofs", own, example("bmc.cnf")],
                 f"{own}/files is there, but isn't from an earlier run: choose another --proofs\n")
    assert report.read_text() == "mine\n"
    assert sorted(os.listdir(own)) == ["files", "report"]


@pytest.mark.parametrize("text", [
    "", "\n", "files", "report\n", "files\n../mine\n", "files\n\nreport\n", "files\nround-1.cnf\n",
    "files\nmine\n", "files\nround-1.stream-0\n", "files\n.new\n", "files\nreport\0\n",
    "files\nfiles/../report\n"])
def test_a_list_of_the_user(text: str, own: Path, tmp_path: Path) -> None:
    path, mine = written(text, own, "files"), written("mine\n", tmp_path, "mine")
    want_list_refused(own)
    assert path.read_text() == text
    assert mine.read_text() == "mine\n"


@pytest.mark.parametrize("link", [os.symlink, os.link], ids=["link", "hard link"])
def test_a_link_as_list(link: Callable[[Path, Path], None], own: Path, tmp_path: Path) -> None:
    """Its target isn't written to."""
    target = written("files\nreport\n", tmp_path, "target")
    link(target, own / "files")
    want_list_refused(own)
    assert target.read_text() == "files\nreport\n"


def test_a_fifo_as_list(own: Path) -> None:
    os.mkfifo(own / "files")
    want_list_refused(own)


@pytest.mark.parametrize("assumes", [False, True], ids=["a proof", "under assumptions"])
def test_a_proof_is_only_replaced_by_request(assumes: bool, kept: Path, tmp_path: Path) -> None:
    formula = written("p cnf 2 2\n1 2 0\n-1 2 0\n", tmp_path)
    cube = written("-2 0\n", tmp_path, "cube")
    inputs = ["--assume", cube, formula] if assumes else [example("bmc.cnf")]
    assert solve(["-j", "1", "--proofs", kept, *inputs]).status == 20
    before, words = content(kept), ["-j", "1", "--proofs", kept, example("four-clause.cnf")]
    want_refused(words, f"{kept} has the proof of an earlier run: add --replace, or choose another "
                        "--proofs\n")
    assert content(kept) == before
    want_answer(solve(["--replace", *words]), 20)


def test_a_record_without_a_proof_is_replaced(kept: Path, tmp_path: Path) -> None:
    words = ["-j", "1", "--proofs", kept]
    satisfiable = written("p cnf 1 1\n1 0\n", tmp_path)
    want_answer(solve([*words, example("four-clause.cnf")]), 20)
    want_answer(solve([*words, "--replace", satisfiable]), 10, satisfiable)
    want_answer(solve([*words, satisfiable]), 10, satisfiable)
    want_answer(solve([*words, example("four-clause.cnf")]), 20)


def test_a_packed_stream_that_no_record_lists(kept: Path) -> None:
    words = ["-j", "1", "--replace", "--proofs", kept, example("four-clause.cnf")]
    want_answer(solve(words), 20)
    other = written(b"", kept, "round-9.stream-1.xz")
    want_refused(words,
                 f"{other} is there, but isn't from an earlier run: choose another --proofs\n")
    assert other.exists()


def test_a_packed_stream_of_the_record_is_removed(kept: Path) -> None:
    words = ["-j", "1", "--replace", "--proofs", kept, example("four-clause.cnf")]
    want_answer(solve(words), 20)
    stream = (kept / "round-1.stream-1").rename(kept / "round-1.stream-1.xz")
    want_answer(solve(words), 20)
    assert not stream.exists()


# Names that aren't for a terminal.


each_name = pytest.mark.parametrize("name, shown", [
    (b"a\x1b[31m", "a?[31m"), (b"a\xc2\x9b31m", "a?31m"), (b"a\x9b", "a?"),
    (b"a\x07\x7f\b", "a???"), (b"a\xc3\xa9", "a\xe9"), (b"a\xe2\x9b\x80", "a\u26c0"),
    (b"a\xe9", "a\udce9")])


@each_name
def test_names_on_standard_error(name: bytes, shown: str, tmp_path: Path) -> None:
    """No control byte reaches a terminal, and letters beyond ASCII do."""
    answer = solve([os.fsdecode(name)], cwd=tmp_path)
    assert answer.said.endswith(f"{shown}': No such file or directory\n")


@each_name
def test_words_on_standard_error(name: bytes, shown: str, tmp_path: Path) -> None:
    answer = solve([written(FOUR, tmp_path), os.fsdecode(name)])
    assert answer.said.endswith(f"unexpected argument: '{shown}'\n")


@each_name
def test_assumptions_on_standard_error(name: bytes, shown: str, tmp_path: Path) -> None:
    cube = written(name + b" 0\n", tmp_path, "cube")
    answer = solve(["--assume", cube, written(FOUR, tmp_path)])
    assert answer.said.endswith(f": not a number: {shown})\n")


@each_name
def test_names_in_comments(name: bytes, shown: str, tmp_path: Path) -> None:
    """Comments are in ASCII."""
    formula = written(FOUR, tmp_path, os.fsdecode(name))
    answer = solve(["-v", "-j", "1", formula.name], cwd=tmp_path)
    assert re.sub(rb"[^ -~]", b"?", os.fsencode(shown)).decode() in answer.out


def test_names_with_a_line_feed(tmp_path: Path) -> None:
    kept, formula = tmp_path / "a\nrecord", written("p cnf 1 2\n1 0\n-1 0\n", tmp_path,
                                                    "a\nformula")
    answer = solve(["-v", "-j", "1", "--proofs", kept, formula])
    want_answer(answer, 20)
    assert [line for line in answer.out.splitlines() if line[:2] not in ("c ", "s ")] == []
    assert sum("1 clause checked" in line for line in answer.comments) == 1, answer.out
    check_again(kept)


# Formulas with an unusual spelling.


each_spelling = pytest.mark.parametrize("text, status", [
    ("p cnf 1 2\n1 0\n-1 0", 20), ("p cnf 1 2\r\n1 0\r\n-1 0\r\n", 20),
    ("\n \t\r\nc x\n\t p  cnf\t1 2 \t\n1\t0 -1 \r 0\n", 20),
    ("p cnf 2 2\n1\nc 0 2 -2 x\n2 0\n-1 0\n", 10), ("p cnf 2 3\n1 2\n0 -1 0 -2\n\n0", 20),
    ("p cnf 1 2\n1 0\n-1 0\nc no LF", 20),
    (b"c \0\xff\nc\ncnf 1 1\np cnf 1 2\nc\0\n1 0 -1 0\n", 20), ("p cnf 0 1\n0\n", 20),
    ("p cnf 0 0", 10), ("p cnf 3 0\n\n", 10), ("p cnf 1 2\n1 1 1 0\n-1 -1 0\n", 20),
    ("p cnf 1 2\n1 -1 0\n-1 0\n", 10)])


@each_spelling
def test_lrup_solve_accepts(text: Text, status: int, tmp_path: Path) -> None:
    formula = written(text, tmp_path)
    want_answer(solve([formula]), status, formula)


@each_spelling
def test_lrup_exact_and_lrupd_accept(text: Text, status: int, tmp_path: Path) -> None:
    """If the formula is unsatisfiable, the filter finds the empty clause by unit propagation."""
    formula, is_refuted = written(text, tmp_path), status == 20
    exact = output_of(run([FILTER, "--format", "drat", formula], "0\n" * is_refuted))
    assert exact.count("\n") == is_refuted
    done = run([PROGRAM, *SMALL_ROW, formula, written(exact, tmp_path, "stream")])
    assert (done.err, done.status) == ("", 0 if is_refuted else 3)
    assert done.out.splitlines()[-1] == VERDICTS[done.status]


# What is refused.


@pytest.mark.parametrize("words, said", named((" ".join(words), words, said) for words, said in (
    (["--nothing", "formula"], "--nothing"), (["-vx", "formula"], "-vx"),
    (["formula", "formula"], "unexpected argument"),
    (["--", "formula", "-v"], "unexpected argument: -v"),
    (["-j"], "no value after -j"), (["-j", "0", "formula"], "-j takes 1 to 64, not 0"),
    (["-j", "65", "formula"], "-j takes 1 to 64, not 65"), (["-j", "x", "formula"], "not x"),
    (["--time", "-1", "formula"], "--time takes seconds above 0, not -1"),
    (["--time", "nan", "formula"], "not nan"), (["--time", "0", "formula"], "not 0"),
    (["--memory", "", "formula"], "not ''"),
    (["--memory", "2g", "formula"], "2000M or 2G, not 2g"),
    (["--memory", "3G", "formula"], "--memory takes at most 2147483648 bytes, not 3G"),
    (["--memory", "2147483649", "formula"], "at most"),
    (["--memory", "99999999999999999999", "formula"], "at most"),
    (["--memory", "2M,1M", "formula"],
     "--memory takes a second number that isn't below the first, not 1M"),
    (["--memory", "1M,", "formula"], "not ''"), (["--memory", "1M,3G", "formula"], "at most"),
    (["--share-size", "-1", "formula"], "--share-size takes 0 to 1000, not -1"),
    (["--seed", "1.5", "formula"], "--seed takes 0 to 1000000000, not 1.5"),
    (["--lrupd", "./none", "formula"], "none"), (["--lrupd", "", "formula"], "not ''"),
    (["--lrupd", "./", "formula"], "no lrupd"), (["--lrupd", "none", "formula"], "no lrupd"),
    (["--proofs", "none/none", "formula"], "none/none"),
    (["--proofs", "", "formula"], "not ''"),
    (["--proofs", "formula", "formula"], "Not a directory"),
    (["--replace", "formula"], "--replace without --proofs"),
    (["--cubes-in-order", "formula"], "--cubes-in-order without --cubes"),
    (["--replace", "--proofs", "%n", "formula"],
     "--replace and %n in --proofs: each run has a folder of its own"),
    (["--proofs", "none/%n", "formula"], "cannot make none/1: No such file or directory"),
    (["--with-formula", "formula"], "--with-formula without --proofs or --resume"),
    (["none"], "none: No such file or directory"),
    (["a\nb"], "a\\nb': No such file or directory"),
    (["--assume", "none", "formula"], "none: No such file or directory"),
    (["--proofs", "new", "none"], "none: No such file or directory"))))
def test_arguments_that_are_refused(words: List[str], said: str, tmp_path: Path) -> None:
    written(FOUR, tmp_path, "formula")
    want_refused(words, said, cwd=tmp_path)


@pytest.mark.parametrize("words, said", [
    (["socket"], "socket: No such device or address"),
    (["--assume", "socket", "formula"], "socket: No such device or address"),
    (["/dev/fd/99"], "/dev/fd/99: No such file or directory"),
    (["--assume", "/dev/fd/99", "formula"], "/dev/fd/99: No such file or directory")])
def test_inputs_that_cannot_be_opened(words: List[str], said: str, tmp_path: Path,
                                      monkeypatch: pytest.MonkeyPatch) -> None:
    monkeypatch.chdir(tmp_path)
    written(FOUR, tmp_path, "formula")
    with socket.socket(socket.AF_UNIX) as place:
        place.bind("socket")
        assert solve(words).ran == Ran("", f"lrup-solve: {said}\n", 1)


@pytest.mark.parametrize("name", ["packed", "packed.GZ", "packed.lzma"])
@pytest.mark.parametrize("how", COMPRESSED)
def test_a_compressed_formula(how: str, name: str, tmp_path: Path) -> None:
    """Its name doesn't say that it is compressed."""
    written(COMPRESSED[how], tmp_path, name)
    want_refused([name], f"{name}: compressed: unpack it with {how}\n", cwd=tmp_path)


def test_a_folder_in_place_of_the_formula(tmp_path: Path) -> None:
    said = f"lrupd: cannot read formula ({tmp_path}: Is a directory)\n"
    assert solve([tmp_path]).ran == Ran("", said, 1)


class Refused(NamedTuple):
    """A formula, lrupd's words, and the line and the words that lrup-exact and lrup-solve add."""
    text: str
    fault: str
    line: int
    known: str


def refused_formulas() -> Iterator[Refused]:
    header, more = ("no header 'p cnf VARIABLES CLAUSES': not DIMACS CNF",
                    "more clauses than the header's 1")
    for text, line, word in (
            ("1 x 0", 2, "x"), ("1 -0", 2, "-0"), ("c 0\n1 -0", 3, "-0"), ("-", 2, "-"),
            ("+1 0", 2, "+1"), ("01 0", 2, "01"), ("-01 0", 2, "-01"), ("1 00", 2, "00"),
            ("1 0\n%\n0", 3, "%: SATLIB's files end with it, and sed '/^%/,$d' removes it"),
            ("1 0 c", 2, "c"), (" c x\n1 0", 2, "c"), ("1\v2 0", 2, "1?2"), ("1 2\f0", 2, "2?0"),
            ("1\0 0", 2, "1?"), ("1 0\0", 2, "0?"), ("1 0\n\x1a", 3, "?"), ("1,2 0", 2, "1,2"),
            ("1 2.0 0", 2, "2.0"), ("1 0x2 0", 2, "0x2")):
        yield Refused(f"p cnf 2 1\n{text}\n", f"bad number in line {line}", line,
                      f"not a number: {word}")
    for text, line in (
            ("", 1), ("c x\n", 2), ("1 2 0\n", 1), ("pcnf 1 1\n1 0\n", 1), ("P CNF 1 1\n1 0\n", 1),
            (" c x\np cnf 1 1\n1 0\n", 1), ("c\n\ufeffp cnf 1 1\n1 0\n", 2),
            ("p\vcnf 1 1\n1 0\n", 1), ("p\0 cnf 1 1\n1 0\n", 1), ("%\np cnf 1 1\n1 0\n", 1)):
        yield Refused(text, "no header", line, header)
    for text, line in (
            ("c x\np cnf 2\n", 2), ("p cnf 02 1\n1 0\n", 1), ("p cnf 1 01\n1 0\n", 1),
            ("p cnf 00 0\n", 1), ("p cnf +1 1\n1 0\n", 1), ("p cnf 1 -1\n1 0\n", 1),
            ("p cnf -0 0\n", 1), ("p cnf 1 x\n1 0\n", 1), ("p cnf\n1 1\n1 0\n", 1),
            ("p\ncnf 1 1\n1 0\n", 1), ("p cnf 1 1\v\n1 0\n", 1), ("p cnf 1\f1\n1 0\n", 1),
            ("p", 1), ("p\t\n", 1)):
        yield Refused(text, "bad header", line, header)
    for text, word in (("p CNF 1 1\n1 0\n", "CNF"), ("p wcnf 1 1 2\n2 1 0\n", "wcnf"),
                       ("p sat 1\n", "sat"), ("p cnf\v1 1\n1 0\n", "cnf?1"),
                       ("p " + "x" * 30, "x" * 21 + ".."), ("p \ufeff\n", "???")):
        yield Refused(text, "bad header", 1, f"the header begins with 'p {word}', not 'p cnf'")
    for text in ("\ufeff", "\ufeffp cnf 1 1\n1 0\n", "\ufeffc x\np cnf 1 1\n1 0\n", "\ufeff\n"):
        yield Refused(text, "no header", 1,
                      "a byte-order mark comes first: tail -c +4 removes it")
    for text in ("p cnf 2 1 1 2 0\n", "p cnf 1 1 c x\n1 0\n", "p cnf 1 1\r1 0\r",
                 "p cnf 1 1 \v\n1 0\n", "p cnf 1 1 1\n1 0\n"):
        yield Refused(text, "bad header", 1,
                      "unexpected words after the header 'p cnf VARIABLES CLAUSES'")
    yield Refused("p cnf 2 2\n1 0\n", "too few clauses", 3, "file ends after 1 of 2 clauses; "
                  "truncated? If not, the header should be 'p cnf 2 1'")
    for text, known in (
            ("2 0\n", f"{more}: the header should be 'p cnf 2 2'"),
            ("0\nc\n-2 1\n0 -1 0", f"{more}: the header should be 'p cnf 2 4'"),
            ("2 0\n1 7 0", f"{more}: the header should be 'p cnf 7 3'"),
            ("2 0\n1 x 0", more), ("2 0\n1", more)):
        yield Refused(f"p cnf 2 1\n1 0\n{text}", "too many clauses in line 3", 3, known)
    for text, variable in (
            ("1 -3 0\n", "3, above the header's 2: the header should be 'p cnf 3 1'"),
            ("1 0 3 0\n", "3, above the header's 2: the header should be 'p cnf 3 2'"),
            ("1 3\n-16777215 0\n9 0\n",
             "3, above the header's 2: the header should be 'p cnf 16777215 2'"),
            ("1 3 16777216 0\n", "3, above the header's 2"),
            ("1 99999999999999999999 0\n", "99999999999999999999, above the header's 2"),
            ("-18446744073709551617 2 0\n", "18446744073709551617, above the header's 2"),
            ("-" + "1" * 30 + " 2 0\n", "1" * 20 + ".., above the header's 2")):
        yield Refused(f"p cnf 2 1\n{text}", "variable out of range in line 2", 2,
                      f"variable {variable}")
    yield Refused("p cnf 2 1\n1 2", "open clause", 2, "the last clause doesn't end with 0")
    for text, line, known in (
            ("p cnf 99999999 1\n1 0\n", 1, "99999999 variables, above lrupd's limit of 16777215"),
            ("p cnf 1 16777216\n1 0\n", 1, "16777216 clauses, above lrupd's limit of 16777215"),
            ("p cnf 1 1\n" + "1 " * 1048576 + "0\n", 2,
             "more than 1048575 literals in a clause, lrupd's limit")):
        yield Refused(text, "limit", line, known)


each_refused_formula = pytest.mark.parametrize(
    "refused", [*refused_formulas()], ids=lambda refused: repr(refused.text[:40]))


@each_refused_formula
def test_lrupd_refuses(refused: Refused, tmp_path: Path) -> None:
    done = run([PROGRAM, written(refused.text, tmp_path), "/dev/null"])
    assert done == Ran("", f"lrupd: formula refused: {refused.fault}\n", 4)


@each_refused_formula
def test_lrup_exact_refuses(refused: Refused, tmp_path: Path) -> None:
    formula = written(refused.text, tmp_path, "a formula")
    done = run([FILTER, "--format", "drat", formula, "/dev/null"])
    assert done == Ran("", f"lrup-exact: {formula}, line {refused.line}: {refused.known}\n", 1)


def refusal(refused: Refused, name: str) -> str:
    """What lrup-solve says of the formula with this name."""
    return (f"lrupd: formula refused: {refused.fault} ({name}, line {refused.line}: "
            f"{refused.known})\n")


@each_refused_formula
def test_lrup_solve_refuses(refused: Refused, tmp_path: Path) -> None:
    formula = written(refused.text, tmp_path, "a formula")
    assert solve([formula]).ran == Ran("", refusal(refused, f"'{formula}'"), 1)


@each_refused_formula
def test_lrup_solve_refuses_standard_input(refused: Refused) -> None:
    assert solve(["-"], given=refused.text).ran == Ran("", refusal(refused, "standard input"), 1)


SPACED = "more than single spaces between its literals"


def beyond(literal: object) -> str:
    return f"the literal {literal}, but the formula has the variables 1 to 2"


@pytest.mark.parametrize("formula", ["formula.cnf", "-"])
@pytest.mark.parametrize("literals, fault, known", [
    ("-2 x 0\n", "spelling", "not a number: x"), ("1  2 0\n", "spelling", SPACED),
    ("1 2 0 \n", "spelling", SPACED), ("1\t2 0\n", "spelling", SPACED),
    ("1 2 0\r\n", "spelling", "it has a CR, but lines must end with LF only"),
    ("1 2 0", "spelling", "no LF at its end"), ("1 0\n2 0\n", "spelling", "a second line"),
    ("1 2\n", "spelling", "no line of literals that ends with 0"),
    ("-7 0\n", "variable out of range", beyond(-7)),
    (f"{-(1 << 63)} 0\n", "too long", beyond(-(1 << 63))),
    (f"{-(1 << 64) - 1} 0\n", "too long", beyond(-(1 << 64) - 1)),
    pytest.param("1" * 100 + " 0\n", "too long", beyond("1" * 21 + ".."), id="100 digits")])
def test_assumptions_that_are_refused(literals: str, fault: str, known: str, formula: str,
                                      tmp_path: Path) -> None:
    written(FOUR, tmp_path)
    written(literals, tmp_path, "cube")
    answer = solve(["--assume", "cube", formula], cwd=tmp_path, given=FOUR)
    assert answer.ran == Ran("", f"lrupd: assumptions refused: {fault} (cube: {known})\n", 1)


def test_a_folder_in_place_of_assumptions(tmp_path: Path) -> None:
    (tmp_path / "cube").mkdir()
    said = "lrupd: cannot read assumptions (cube: no line of literals that ends with 0)\n"
    answer = solve(["--assume", "cube", written(FOUR, tmp_path)], cwd=tmp_path)
    assert answer.ran == Ran("", said, 1)


# lrupd reads the formula in a process of its own, before it is needed.


def in_the_reading(what: str, work: Path) -> Path:
    """A program that does this in place of the lrupd that only reads the formula."""
    return in_place_of_lrupd(f"case \"$*\" in *' /dev/null') {what};; esac\n"
                             f"exec {shlex.quote(PROGRAM)} \"$@\"", work)


def solve_unread(text: str, work: Path) -> Answer:
    """lrupd doesn't finish reading the formula: --time ends the waiting at once."""
    lrupd, begun = in_the_reading("exec sleep 100", work), time.monotonic()
    answer = solve(["--lrupd", lrupd, "-j", "1", "--time", "1", written(text, work)])
    assert 1 <= time.monotonic() - begun < 5
    return answer


def test_a_formula_that_is_not_read_in_time(tmp_path: Path) -> None:
    want_answer(solve_unread("p cnf 1 1\n1 0\n", tmp_path), 0)


def test_a_formula_that_only_engines_refuse_in_time(tmp_path: Path) -> None:
    answer = solve_unread("p cnf 1 1\n2 0\n", tmp_path)
    assert (answer.answers, answer.status) == ([], 1)
    assert answer.said == (f"lrup-solve: {tmp_path / 'formula.cnf'}, line 2: variable 2, above the "
                           "header's 1: the header should be 'p cnf 2 1'\n")


def test_lrupd_is_killed_while_it_reads(tmp_path: Path) -> None:
    """That is like any other death of lrupd."""
    lrupd = in_the_reading("kill -9 $$", tmp_path)
    answer = solve(["--lrupd", lrupd, "-j", "1", written("p cnf 1 0\n", tmp_path)])
    want_answer(answer, 0)
    assert "lrupd ended by a signal: Killed" in answer.comments


@pytest.fixture
def late(tmp_path: Path) -> Path:
    """A program in place of lrupd, which refuses the formula after the solving has ended."""
    return in_place_of_lrupd("case \"$*\" in *' /dev/null') touch read; sleep 2; echo 'lrupd: "
                             "formula refused: limit' >&2;; esac\nexit 4", tmp_path)


each_solved = pytest.mark.parametrize("text", named([("unsatisfiable", FOUR),
                                                     ("satisfiable", "p cnf 1 0\n")]))


@each_solved
def test_lrupd_refuses_late(text: str, late: Path, tmp_path: Path) -> None:
    formula = written(text, tmp_path)
    answer = solve(["--lrupd", late, "-j", "1", formula], cwd=tmp_path)
    assert answer.ran == Ran("", f"lrupd: formula refused: limit ({formula})\n", 1)


@each_solved
def test_a_signal_while_only_lrupd_reads(text: str, late: Path, tmp_path: Path) -> None:
    """It ends the waiting."""
    words = ["--lrupd", late, "-j", "1", written(text, tmp_path)]
    with started_run(words, cwd=tmp_path) as running:
        until("the formula is read", lambda: (tmp_path / "read").exists())
        time.sleep(0.5)
        running.terminate()
        answer = end_of(running)
    assert answer.out.splitlines()[-1:] == ["s UNKNOWN"]
    assert answer.status == -signal.SIGTERM


LATE_THREAD = """#define _GNU_SOURCE
#include <dlfcn.h>
#include <pthread.h>
#include <unistd.h>

typedef int Create(pthread_t *, const pthread_attr_t *, void *(*)(void *), void *);

int pthread_create(pthread_t *thread, const pthread_attr_t *how, void *(*work)(void *), void *to) {
    Create *create = (Create *)dlsym(RTLD_NEXT, "pthread_create");
    int status = create(thread, how, work, to);
    usleep(200000);
    return status;
}
"""


def test_only_one_thread_waits_for_lrupds_refusal(tmp_path: Path) -> None:
    """The reading thread refuses the formula before the main thread has that thread's id, and lrupd
    refuses it later. The front's message can be read only once."""
    source = written(LATE_THREAD, tmp_path, "late.c")
    late = compiled(tmp_path / "late.so", [source], "-shared", "-fPIC", "-ldl")
    formula = written("p cnf 2 1\n1000000000000000000 2 0\n", tmp_path)
    lrupd = in_place_of_lrupd(f"sleep 1\nexec {shlex.quote(PROGRAM)} \"$@\"", tmp_path)
    answer = solve(["-q", "--lrupd", lrupd, formula], env_more={"LD_PRELOAD": str(late)})
    assert answer.ran == Ran(
        "", f"lrupd: formula refused: variable out of range in line 2 ({formula}, line 2: variable "
        "1000000000000000000, above the header's 2)\n", 1)
