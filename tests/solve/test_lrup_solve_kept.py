"""What lrup-solve keeps of a run: a core by --core, LRAT text by --lrat, and a record by --proofs.

Both outputs have to be reported and correct: the core's clauses are those of the formula with the
given numbers, and lrupd refutes the core; an independent LRAT checker accepts the text, and so does
lrupd. A record's check works wherever the record is, notices another formula, and leaves nothing,
however it ends. If lrupd refuses a line, lrup-explain is run."""
import hashlib
import os
import re
import shlex
import shutil
import signal
import subprocess
import time
from pathlib import Path
from typing import Any, Dict, List, Mapping, NamedTuple, Optional, Sequence, Tuple

import pytest

from harness import (EXPLAIN, FILTER, FOUR, LRUP_RECHECK, NONE_BAD, PACKERS, PROGRAM, ROOT, TRIM,
                     VERSION, Ran, by_another, example, executable, generated, in_shell, named,
                     needs, output_of, pack, run, started, until, written)
from lrat import lrat_fault
from proof_forms import Clause, read_formula
from records import only_with
from solving import (MODELS, SOLVE, Answer, before_lrupd, check_again, command, in_environment,
                     in_place_of_lrupd, none_left, solve, want_answer)

pytestmark = pytest.mark.usefixtures("solve_for_tests")
PROVED, PROVED_UNDER = "s UNSATISFIABLE", "s UNSATISFIABLE UNDER ASSUMPTIONS"
IN_ROUNDS = {"SAME_WORDS": 1, "SLICE": 40, "FIRST_WORDS": 20000}
IN_MANY_ROUNDS = {"SAME_WORDS": 1, "SLICE": 50, "FIRST_WORDS": 4000}
Hooks = Optional[Mapping[str, object]]


@pytest.fixture
def formula(tmp_path: Path) -> Path:
    return generated("pigeons 5", tmp_path)


@pytest.fixture
def temporary(tmp_path: Path) -> Path:
    """A folder for temporary files."""
    (tmp_path / "temporary").mkdir()
    return tmp_path / "temporary"


def with_temporary(folder: Path) -> Dict[str, str]:
    return {**os.environ, "TMPDIR": str(folder)}


def digest(path: Path) -> str:
    return hashlib.sha256(path.read_bytes()).hexdigest()


# A core and LRAT text.


def core_of(path: Path, formula: List[Clause]) -> List[Clause]:
    """The clauses in the file, each of which has to be one of the formula's: the line above it has
    its number there."""
    header, *lines = path.read_text().splitlines()
    numbers = [int(line[len("c id "):]) for line in lines[::2]]
    clauses = [list(map(int, line.split()[:-1])) for line in lines[1::2]]
    assert header.split()[3] == str(len(clauses))
    assert clauses == [formula[number - 1] for number in numbers]
    return clauses


def keep_outputs(words: Sequence[object], formula: Path, tested: Hooks = None,
                 verdict: str = PROVED, names: Sequence[str] = ("core.cnf", "proof.lrat"),
                 given: Optional[str] = None) -> Answer:
    """Keeps a core and LRAT text under these names, and checks both. No temporary file is left."""
    work = formula.parent
    files = work / "temporary"
    files.mkdir()
    answer = solve(["--core", names[0], "--lrat", names[1], *words], tested=tested, cwd=work,
                   given=given, env_more={"TMPDIR": str(files)})
    want_answer(answer, 20, verdict=verdict)
    said = f": lrupd's verdict: {verdict}"
    assert sum(line.endswith(said) for line in answer.comments) == 2, answer.out
    clauses = read_formula(formula)
    core = core_of(work / names[0], clauses)
    counts = rf"{len(core)} of {len(clauses)} clauses, \d+ lines of \d+"
    assert any(re.fullmatch(counts, line) for line in answer.comments), answer.out
    fault = lrat_fault(clauses, (work / names[1]).read_text())
    assert fault == ("" if verdict == PROVED else "no empty clause")
    until("its files are removed", lambda: not os.listdir(files), 10)
    return answer


each_run = pytest.mark.parametrize("words, options, tested", named([
    ("one engine", "random 150 1", ["-j", 1], {}), ("two engines", "random 170 4", ["-j", 2], {}),
    ("rounds", "random 180 3", ["-j", 2], IN_ROUNDS)]))


@each_run
def test_core_and_lrat(words: str, options: List[object], tested: Hooks, tmp_path: Path) -> None:
    """Comments name both, and the core is refuted by itself."""
    formula = generated(words, tmp_path)
    answer = keep_outputs([*options, formula], formula, tested)
    assert "core.cnf: lrupd's verdict: s UNSATISFIABLE" in answer.comments
    assert "proof.lrat: lrupd's verdict: s UNSATISFIABLE" in answer.comments
    want_answer(solve([tmp_path / "core.cnf"]), 20)


@each_run
def test_the_printed_command_checks_the_lrat_text(words: str, options: List[object], tested: Hooks,
                                                  tmp_path: Path) -> None:
    formula = generated(words, tmp_path)
    answer = keep_outputs([*options, formula], formula, tested)
    printed, = [line.split(": lrupd ")[1] for line in answer.comments
                if line.startswith("proof.lrat: ") and ": lrupd --" in line]
    done = run([PROGRAM, *shlex.split(printed)], cwd=tmp_path)
    assert output_of(done).splitlines()[-1] == PROVED


def test_outputs_for_standard_input(formula: Path) -> None:
    keep_outputs(["-j", 1], formula, given=formula.read_text())


def test_outputs_beside_a_record(tmp_path: Path) -> None:
    formula = generated("pigeons 6", tmp_path)
    keep_outputs(["-j", 2, "--proofs", "d", "--re-hint", formula], formula)
    check_again(tmp_path / "d")


@pytest.mark.parametrize("record, place", [("d", "d/"), ("./d", "d/"), ("d/", "./d//"),
                                           ("d", "WORK/d/"), ("d", "d/../d/")])
def test_outputs_in_the_record(record: str, place: str, formula: Path, tmp_path: Path) -> None:
    """The record's folder doesn't exist yet."""
    place = place.replace("WORK", str(tmp_path))
    keep_outputs(["-j", 1, "--proofs", record, formula], formula,
                 names=(f"{place}core.cnf", f"{place}proof.lrat"))


def test_outputs_under_assumptions(tmp_path: Path) -> None:
    formula = written("p cnf 2 2\n1 2 0\n-1 2 0\n", tmp_path)
    cube = written("-2 0\n", tmp_path, "cube")
    keep_outputs(["--assume", cube, formula], formula, verdict=PROVED_UNDER)


@pytest.mark.parametrize("option", ["--core", "--lrat"])
def test_one_output(option: str, formula: Path, tmp_path: Path) -> None:
    answer = solve(["-j", 1, option, "there", formula], cwd=tmp_path)
    want_answer(answer, 20)
    assert "there: lrupd's verdict: s UNSATISFIABLE" in answer.comments
    assert (tmp_path / "there").exists()


def want_no_outputs(work: Path) -> None:
    assert not (work / "core").exists()
    assert not (work / "lrat").exists()


def test_no_outputs_without_a_proof(tmp_path: Path) -> None:
    formula = written("p cnf 1 1\n1 0\n", tmp_path)
    answer = solve(["--core", "core", "--lrat", "lrat", formula], cwd=tmp_path)
    want_answer(answer, 10, formula)
    assert "no proof, and so no core and no LRAT text" in answer.comments
    want_no_outputs(tmp_path)


def test_an_output_that_exists_already(tmp_path: Path) -> None:
    written("mine", tmp_path, "core")
    answer = solve(["--core", "core", written(FOUR, tmp_path)], cwd=tmp_path)
    assert (answer.answers, answer.status) == ([], 1)
    assert answer.said == "lrup-solve: core: exists, not overwritten\n"
    assert (tmp_path / "core").read_text() == "mine"


@pytest.mark.parametrize("words, said", [
    ("--core none/core", "none/core: No such file or directory"),
    ("--proofs d --core none/core", "none/core: No such file or directory"),
    ("--lrat /proc/lrat", "/proc/lrat: No such file or directory"),
    ("--core one --lrat folder/lrupd/x", "folder/lrupd/x: Not a directory"),
    ("--core one --lrat ./one", "./one: File exists"),
    pytest.param(f"--lrat {'x' * 300}", f"{'x' * 300}: File name too long", id="a long name")])
def test_outputs_that_cannot_be_written(words: str, said: str, formula: Path,
                                        tmp_path: Path) -> None:
    """They are refused before the run, and nothing is left."""
    (tmp_path / "folder").mkdir()
    lrupd = before_lrupd(f"touch {tmp_path}/began", tmp_path / "folder")
    before = sorted(os.listdir(tmp_path))
    answer = solve(["--lrupd", lrupd, *words.split(), formula], cwd=tmp_path)
    assert answer.ran == Ran("", f"lrup-solve: cannot write {said}\n", 1)
    assert sorted(os.listdir(tmp_path)) == before


def programs_beside(tools: Mapping[str, str], work: Path) -> Path:
    """Copies of lrup-solve, lrup-engines and lrup-model, with these shell scripts in place of other
    tools."""
    (work / "bin").mkdir()
    for path in (SOLVE, SOLVE.with_name("lrup-engines"), MODELS / "lrup-model"):
        shutil.copy(path, work / "bin")
    for name, body in tools.items():
        executable(body, work, f"bin/{name}")
    return work / "bin" / "lrup-solve"


def keep_with(tools: Mapping[str, str], work: Path) -> Ran:
    """Keeps the outputs `core` and `lrat` with these tools, and no others."""
    return run([programs_beside(tools, work), "--lrupd", PROGRAM, "-j", 1, "--core", "core",
                "--lrat", "lrat", written(FOUR, work)],
               cwd=work, env={**os.environ, "PATH": "/usr/bin:/bin"})


WRONG_TRIM = r"""while [ "$1" != -- ]; do
    case $1 in --core) core=$2;; --stream) stream=$2;; --lrat) lrat=$2;; esac
    shift
done
printf 'p cnf 2 1\n1 2 0\n' > "$core"; printf '2 0 1 0\n' > "$stream"; printf '5 0 1 0\n' > "$lrat"
echo 1 0 1 1
echo "c 1 of 4 clauses, 1 lines of 2"
echo "c $lrat: 1 bytes of 1: lrupd --lines 1 --room 0 $2 $lrat"
"""


@pytest.mark.parametrize("body, said", named([
    ("wrong outputs", WRONG_TRIM, "lrupd rejects lrat, which was removed"),
    ("no outputs", "echo lrup-trim: no line derives the empty clause >&2; exit 1",
     "no core and no LRAT text: lrup-trim: no line derives the empty clause"),
    ("killed", "kill -9 $$",
     "no core and no LRAT text: lrup-trim ended by a signal: Killed")]))
def test_another_lrup_trim(body: str, said: str, tmp_path: Path) -> None:
    """The answer and its status are still lrupd's; an output that lrupd rejects isn't kept, and
    standard error says so."""
    done = keep_with({"lrup-trim": body}, tmp_path)
    assert done.err.splitlines()[-1] == f"lrup-solve: {said}"
    assert PROVED in done.out.splitlines()
    assert done.status == 20
    want_no_outputs(tmp_path)


def test_no_lrup_trim(tmp_path: Path) -> None:
    done = keep_with({}, tmp_path)
    said = "no lrup-trim next to this program or on the PATH: `make trim` builds it"
    assert done.err.splitlines()[-1] == f"lrup-solve: {said}"
    assert PROVED not in done.out.splitlines()
    assert done.status == 1
    want_no_outputs(tmp_path)


# Where a record and its formula are.


def number_of_rounds(record: Path) -> int:
    return len(list(record.glob("round-*.sizes")))


def record_of(formula: Path, *options: object, tested: Hooks = None,
              is_piped: bool = False) -> Path:
    """The record of a run that refutes the formula, with hooks in several rounds. It is in the
    folder d, beside the formula."""
    record, words = formula.parent / "d", [*options, "--proofs", "d"]
    want_answer(solve([*words, *([] if is_piped else [formula])], tested=tested,
                      cwd=formula.parent, given=formula.read_text() if is_piped else None), 20)
    assert (number_of_rounds(record) > 1) == bool(tested)
    return record


@pytest.fixture
def record(formula: Path) -> Path:
    return record_of(formula, "-j", 1)


def check(record: Path, *words: object, **how: Any) -> Ran:
    """The record's check, from the folder that the record is in."""
    return run(["sh", f"{record.name}/command", *words], cwd=record.parent, **how)


def refused(said: str) -> Ran:
    return Ran("", f"lrup-recheck: {said}\n", 1)


def first_line(formula: Path) -> str:
    return f"c formula {formula}, SHA-256 {digest(formula)}"


def want_proved(done: Ran, formula: Path) -> None:
    """A check has the verdict, and its first line names the formula that is checked."""
    assert (done.err, done.status) == ("", 0)
    assert done.out.splitlines()[0] == first_line(formula)
    assert done.out.splitlines()[-1] == PROVED


file_or_pipe = pytest.mark.parametrize("is_piped", [False, True], ids=["a file", "a pipe"])


@file_or_pipe
def test_the_formulas_digest(is_piped: bool, formula: Path) -> None:
    """The record has the SHA-256 of the formula, as sha256sum writes it."""
    record = record_of(formula, "-j", 1, is_piped=is_piped)
    place = record / "formula.cnf" if is_piped else formula
    assert (record / "formula.sha256").read_text() == f"{digest(formula)}  {place}\n"


@file_or_pipe
def test_another_formula(is_piped: bool, formula: Path) -> None:
    """The record's check notices it."""
    record = record_of(formula, "-j", 1, is_piped=is_piped)
    check_again(record)
    place = record / "formula.cnf" if is_piped else formula
    place.write_text(place.read_text() + "c another one\n")
    said = f"{place} isn't the formula of this record, or was changed since"
    assert check(record) == refused(said)


def move(record: Path) -> Path:
    folder = record.parent / "another folder"
    folder.mkdir()
    return record.rename(folder / "it's moved")


@pytest.mark.parametrize("words, is_piped, tested", named([
    ("a file", "pigeons 5", False, None), ("a pipe", "pigeons 5", True, None),
    ("a pipe, rounds", "random 180 3", True, IN_ROUNDS)]))
def test_a_moved_record(words: str, is_piped: bool, tested: Hooks, tmp_path: Path) -> None:
    """A record's names are relative to its folder, so the record can be checked anywhere, from any
    folder, even by just the name of its script."""
    record = move(record_of(generated(words, tmp_path), "-j", 2, tested=tested, is_piped=is_piped))
    check_again(record)
    done = run(["sh", "command"], cwd=record, env={**os.environ, "CDPATH": str(tmp_path)})
    assert done.out.splitlines()[-1] == PROVED
    assert done.status == 0


@pytest.mark.parametrize("words, tested", named([("one round", "pigeons 5", None),
                                                 ("rounds", "random 180 3", IN_ROUNDS)]))
def test_another_formula_in_a_moved_record(words: str, tested: Hooks, tmp_path: Path) -> None:
    record = move(record_of(generated(words, tmp_path), "-j", 2, tested=tested, is_piped=True))
    place = written("p cnf 1 1\n1 0\n", record)
    done = run(["sh", record / "command"], cwd=tmp_path)
    assert done == refused(f"{place} isn't the formula of this record, or was changed since")


@pytest.mark.parametrize("name, is_piped", [
    ("formula.cnf", False), ("d/formula.cnf", True), ("d/round-1.stream-1", False),
    ("d/formula.sha256", False)])
def test_a_file_that_is_missing(name: str, is_piped: bool, formula: Path, tmp_path: Path) -> None:
    """It is reported as missing."""
    record, missing = record_of(formula, "-j", 1, is_piped=is_piped), tmp_path / name
    missing.rename(tmp_path / "elsewhere")
    for cwd in (tmp_path, Path("/")):
        done = run(["sh", record / "command"], cwd=cwd)
        assert done == refused(f"{missing} isn't there, or can't be read")


@pytest.mark.parametrize("name", ["formula.cnf", "d/formula.sha256", "d/round-1.stream-1",
                                  "d/round-1.sizes"])
def test_a_pipe_in_place_of_a_file(name: str, record: Path, tmp_path: Path) -> None:
    """Only regular files are read: nothing hangs."""
    (tmp_path / name).unlink()
    os.mkfifo(tmp_path / name)
    assert check(record, limit=20) == refused(f"{tmp_path / name} isn't a regular file")


@pytest.mark.parametrize("words", [[TRIM, "--core", "core"], [EXPLAIN]],
                         ids=["lrup-trim", "lrup-explain"])
def test_a_pipe_of_digests_for_tools(words: List[object], record: Path, formula: Path,
                                     tmp_path: Path) -> None:
    (record / "formula.sha256").unlink()
    os.mkfifo(record / "formula.sha256")
    done = run([*words, formula, "d"], cwd=tmp_path, limit=20)
    assert done.status == 1
    assert done.err.endswith(
        "d/formula.sha256: has to be a regular file, since it is read more than once\n")


def test_a_name_that_sha256sum_escapes(tmp_path: Path) -> None:
    """A backslash and an LF are in it."""
    formula = written(generated("pigeons 5", tmp_path).read_bytes(), tmp_path, "a\\ b\nc.cnf")
    record = record_of(formula, "-j", 1)
    check_again(record)
    assert run(["sha256sum", "--quiet", "-c", "d/formula.sha256"], cwd=tmp_path).status == 0


@pytest.mark.parametrize("name, shown", [
    ("a\ns UNSATISFIABLE", "a?s UNSATISFIABLE"), ("a\033[31m\r\177b", "a?[31m??b"),
    ("gr\u00f6\u00dfe", "gr\u00f6\u00dfe")])
def test_the_first_line(name: str, shown: str, tmp_path: Path) -> None:
    """It names the formula, whose name can't add a line."""
    formula = written(generated("pigeons 5", tmp_path).read_bytes(), tmp_path, name)
    lines = check(record_of(formula, "-j", 1)).out.splitlines()
    assert lines[0] == first_line(formula).replace(name, shown)


def test_the_check_finds_the_formula(record: Path, formula: Path) -> None:
    want_proved(check(record), formula)


def test_the_check_gets_the_formula(record: Path, formula: Path, tmp_path: Path) -> None:
    """It has moved, and is named from each folder."""
    here = tmp_path / "here"
    here.mkdir()
    copy = formula.rename(here / "-copy;ran")
    want_proved(run(["sh", "../d/command", copy.name], cwd=here), copy)
    want_proved(run(["sh", record / "command", copy], cwd="/"), copy)
    want_proved(run(["sh", "command", copy], cwd=record), copy)


@pytest.mark.parametrize("name, said", [
    ("", "WORK/ isn't a regular file"), ("none", "WORK/none isn't there, or can't be read"),
    ("other", "WORK/other isn't the formula of this record, or was changed since"),
    ("--help", "WORK/--help isn't there, or can't be read")])
def test_the_check_gets_another_formula(name: str, said: str, record: Path, formula: Path,
                                        tmp_path: Path) -> None:
    """The record is checked against the named formula, and against no other."""
    written("p cnf 1 1\n1 0\n", tmp_path, "other")
    assert check(record, name) == refused(said.replace("WORK", str(tmp_path)))


@pytest.mark.parametrize("words", [["formula.cnf", "formula.cnf"], ["--serial", "formula.cnf"]],
                         ids=" ".join)
def test_the_check_gets_more_than_a_formula(words: List[str], record: Path) -> None:
    done = check(record, *words)
    assert done.err.startswith("usage: lrup-recheck [")
    assert done.status == 2


def test_a_truncated_command(record: Path, formula: Path) -> None:
    """Its status isn't 0, which would be a verdict."""
    text = (record / "command").read_text()
    for length in range(2, len(text) - 1, 61):
        (record / "command").write_text(text[:length])
        assert check(record, formula).status != 0, f"{length} bytes"


@pytest.fixture
def project(tmp_path: Path) -> Path:
    """A folder with a formula and assumptions, and a folder for records."""
    project = tmp_path / "project"
    written(generated("pigeons 5", tmp_path).read_bytes(), project, "f.cnf")
    written("1 0\n", project / "cubes", "cube")
    (project / "records").mkdir()
    return project


def move_project(project: Path) -> Path:
    """Moves everything; other files are now where the formula and the assumptions were."""
    moved = project.rename(project.parent / "it's moved")
    written("p cnf 1 1\n1 0\n", project, "f.cnf")
    written("2 0\n", project / "cubes", "cube")
    return moved


def test_a_record_that_has_moved_with_its_formula(project: Path) -> None:
    """Paths relative to the record come first."""
    want_answer(solve(["-j", 1, "--proofs", "records/d", "f.cnf"], cwd=project), 20)
    moved = move_project(project)
    want_proved(run(["sh", moved / "records" / "d" / "command"], cwd="/"), moved / "f.cnf")


def move_assuming(project: Path) -> Path:
    """Keeps a record under assumptions, and moves everything."""
    words = ["-j", 1, "--proofs", "records/d", "--assume", "cubes/cube", "f.cnf"]
    want_answer(solve(words, cwd=project), 20, verdict=PROVED_UNDER)
    return move_project(project)


def test_a_record_that_has_moved_with_its_assumptions(project: Path) -> None:
    moved = move_assuming(project)
    done = run(["sh", moved / "records" / "d" / "command"], cwd="/")
    assert (done.err, done.status) == ("", 8)
    formula, cube, *_, verdict = done.out.splitlines()
    assert formula == first_line(moved / "f.cnf")
    assert cube == f"c assumptions {moved}/cubes/cube, SHA-256 {digest(moved / 'cubes' / 'cube')}"
    assert verdict == PROVED_UNDER


def test_other_assumptions(project: Path) -> None:
    moved = move_assuming(project)
    cube = written("-1 0\n", moved / "cubes", "cube")
    said = f"{cube} isn't the assumptions of this record, or was changed since"
    assert run(["sh", moved / "records" / "d" / "command"]) == refused(said)


@pytest.mark.parametrize("tool", ["sha256sum", "shasum", "openssl"])
def test_digests_by_another_tool(tool: str, record: Path, formula: Path, tmp_path: Path) -> None:
    """Whichever tool computes SHA-256s, another formula is noticed."""
    needs(tool)
    only_it = only_with([tool], tmp_path)
    want_proved(check(record, env=only_it), formula)
    formula.write_text(formula.read_text() + "c another one\n")
    said = f"{formula} isn't the formula of this record, or was changed since"
    assert check(record, env=only_it) == refused(said)


def test_digests_by_no_tool(record: Path, tmp_path: Path) -> None:
    """Nothing is checked."""
    said = "no sha256sum, shasum or openssl on the PATH to find SHA-256s"
    assert check(record, env=only_with([], tmp_path)) == refused(said)


# Where lrup-recheck and lrupd are.


class Moved(NamedTuple):
    """A record with several rounds, its formula, and a folder with lrupd and lrup-recheck. The
    record's command names this lrup-recheck, and an lrupd that is gone."""
    record: Path
    formula: Path
    programs: Path


@pytest.fixture
def moved(tmp_path: Path) -> Moved:
    lrupd, programs = tmp_path / "bin" / "lrupd", tmp_path / "elsewhere"
    lrupd.parent.mkdir()
    shutil.copy(PROGRAM, lrupd)
    formula = generated("random 180 3", tmp_path)
    record = record_of(formula, "--lrupd", lrupd, "-j", 2, tested=IN_ROUNDS)
    lrupd.parent.rename(programs)
    shutil.copy(LRUP_RECHECK, programs)
    text = (record / "command").read_text()
    recheck = re.search(r"^recheck=(.*)", text, re.M)
    assert recheck
    (record / "command").write_text(text.replace(recheck[1], str(programs / "lrup-recheck")))
    return Moved(record, formula, programs)


def on_the_path(*folders: Path) -> Dict[str, str]:
    return {**os.environ, "PATH": ":".join([*map(str, folders), os.environ["PATH"]])}


def test_the_lrupd_beside_lrup_recheck(moved: Moved, tmp_path: Path) -> None:
    want_proved(check(moved.record, env=only_with(["sha256sum"], tmp_path)), moved.formula)


def test_both_on_the_path(moved: Moved, tmp_path: Path) -> None:
    """They are in different folders."""
    other = tmp_path / "other"
    other.mkdir()
    (moved.programs / "lrup-recheck").rename(other / "lrup-recheck")
    want_proved(check(moved.record, env=on_the_path(other, moved.programs)), moved.formula)


def test_no_lrupd(moved: Moved, tmp_path: Path) -> None:
    (moved.programs / "lrupd").unlink()
    done = check(moved.record, env=only_with(["sha256sum"], tmp_path))
    assert done == Ran("", "lrup-recheck: lrupd: no such program; --lrupd names another\n", 127)


def test_no_lrup_recheck(moved: Moved, tmp_path: Path) -> None:
    """The script prints a command that checks a copy of the record."""
    (moved.programs / "lrup-recheck").unlink()
    done = check(moved.record, env=only_with(["sha256sum"], tmp_path))
    assert (done.out, done.status) == ("", 1)
    assert done.err.startswith("no lrup-recheck,")
    by_hand = done.err.splitlines()[-1].replace("FORMULA", shlex.quote(str(moved.formula)))
    copy = shutil.copytree(moved.record, tmp_path / "a copy")
    checked = run(["sh", "-c", by_hand], cwd=copy, env=on_the_path(moved.programs))
    assert checked == Ran((moved.record / "report").read_text(), "", 0)


# What a record says of its run.


each_about = pytest.mark.parametrize("engines, is_piped, tested", named([
    ("one engine", 1, False, None), ("a pipe", 2, True, None), ("rounds", 2, False, IN_ROUNDS)]))


def about(engines: int, is_piped: bool, tested: Hooks, work: Path) -> Tuple[Path, str]:
    """A formula whose name has a space, and what the record's file `about` has."""
    formula = written(generated("random 180 3", work).read_bytes(), work, "a formula")
    record = record_of(formula, "-j", engines, tested=tested, is_piped=is_piped)
    return formula, (record / "about").read_text()


@each_about
def test_the_fields_of_about(engines: int, is_piped: bool, tested: Hooks, tmp_path: Path) -> None:
    """Time, arguments, place, versions and result of the run."""
    formula, text = about(engines, is_piped, tested, tmp_path)
    fields = dict(line.split(": ", 1) for line in text.partition("\n\n")[0].splitlines())
    assert list(fields) == ["date", "words", "folder", "programs", "kit", "machine", "verdict",
                            "record"]
    then = time.mktime(time.strptime(fields["date"], "%Y-%m-%d %H:%M:%S UTC")) - time.timezone
    assert abs(time.time() - then) < 60
    assert fields["words"].endswith("--proofs d" if is_piped else f"--proofs d '{formula}'")
    assert fields["folder"] == str(tmp_path)
    assert fields["verdict"] == PROVED
    assert fields["programs"].startswith(f"lrupd {VERSION}; lrup-solve {VERSION}, with CaDiCaL ")
    assert fields["kit"].startswith("rattle-kit-")
    assert f"`{fields['kit']}`" in (ROOT / "README.md").read_text()
    assert fields["record"].split(" round")[0] == str(number_of_rounds(tmp_path / "d"))


@each_about
def test_the_digests_of_about(engines: int, is_piped: bool, tested: Hooks, tmp_path: Path) -> None:
    """The SHA-256 of lrupd, and of each file except the list and `about`."""
    _, text = about(engines, is_piped, tested, tmp_path)
    files = {path.name: path for path in (tmp_path / "d").iterdir()
             if path.name not in ("about", "files")}
    wanted = {name: digest(path) for name, path in {**files, PROGRAM: Path(PROGRAM)}.items()}
    lines = [line.split("  ", 1) for line in text.partition("\n\n")[2].splitlines()]
    assert {name: found for found, name in lines} == wanted


# Packed records.


class Packed(NamedTuple):
    """A record, of which some streams are packed, and its formula."""
    record: Path
    formula: Path
    first: Path     # its first stream

    def packer(self) -> str:
        return PACKERS[self.first.suffix[1:]]


@pytest.fixture(params=named((f"{' and '.join(forms)}{', rounds' * bool(tested)}", (forms, tested))
                             for forms in (["xz"], ["gz"], ["zst"], ["xz", "gz", "zst"])
                             for tested in (None, IN_MANY_ROUNDS)))
def packed(mark: str, request: pytest.FixtureRequest, tmp_path: Path) -> Packed:
    """Streams are packed in these forms in turn; then one isn't."""
    forms, tested = request.param
    formula = generated("random 150 3", tmp_path)
    record = record_of(formula, "-j", 2, tested=tested)
    streams = sorted(record.glob("round-*.stream-*"))
    for number, path in enumerate(streams):
        if number % (len(forms) + 1) < len(forms):
            pack(path, forms[number % (len(forms) + 1)])
    return Packed(record, formula, streams[0].with_name(f"{streams[0].name}.{forms[0]}"))


def test_a_packed_record_is_checked(packed: Packed, mark: str, temporary: Path) -> None:
    """Streams are unpacked while they are read. No file is left, and no process."""
    check_again(packed.record, {"TMPDIR": str(temporary)})
    assert os.listdir(temporary) == []
    none_left(mark)


def test_tools_read_a_packed_record(packed: Packed, tmp_path: Path) -> None:
    names = sorted(os.listdir(packed.record))
    assert run([TRIM, "--lrat", "lrat", packed.formula, "d"], cwd=tmp_path).status == 0
    assert lrat_fault(read_formula(packed.formula), (tmp_path / "lrat").read_text()) == ""
    explained = run([EXPLAIN, packed.formula, "d"], cwd=tmp_path)
    assert explained == Ran(f"{NONE_BAD}\n", "", 0)
    want_proved(run([LRUP_RECHECK, "--lrupd", PROGRAM, "d"], cwd=tmp_path), packed.formula)
    assert sorted(os.listdir(packed.record)) == names


def test_a_packed_record_without_the_unpacking_program(packed: Packed, tmp_path: Path) -> None:
    done = check(packed.record, env=only_with(["sha256sum"], tmp_path))
    assert done.err == f"lrup-recheck: no {packed.packer()} on the PATH for {packed.first}\n"
    assert done.status == 1


def halve(path: Path) -> None:
    path.write_bytes(path.read_bytes()[:path.stat().st_size // 2])


def test_a_truncated_packed_stream(packed: Packed, mark: str, temporary: Path) -> None:
    """There is a message, and nothing is left."""
    halve(packed.first)
    done = run([LRUP_RECHECK, "--lrupd", PROGRAM, "--tries=20000", "d"],     # waits for a second
               cwd=packed.record.parent, env=with_temporary(temporary))
    assert done.err != ""
    assert os.listdir(temporary) == []
    none_left(mark)


@pytest.mark.parametrize("tool, words", [(TRIM, ["--core", "core"]), (EXPLAIN, [])],
                         ids=["lrup-trim", "lrup-explain"])
def test_tools_refuse_a_truncated_packed_stream(tool: Path, words: List[str], packed: Packed,
                                                tmp_path: Path) -> None:
    halve(packed.first)
    done = run([tool, *words, packed.formula, "d"], cwd=tmp_path)
    assert done.err.endswith(
        f"{tool.name}: d/{packed.first.name}: {packed.packer()} can't unpack it\n")
    assert done.status == 1
    assert not (tmp_path / "core").exists()


@pytest.mark.parametrize("closing", ["<&-", "<&- 2>&-"])
def test_streams_are_unpacked_though_a_standard_stream_is_closed(
        closing: str, record: Path, formula: Path, tmp_path: Path) -> None:
    pack(record / "round-1.stream-1", "xz")
    tools: List[List[object]] = [[TRIM, "--lrat", "lrat"], [EXPLAIN]]
    for words in tools:
        output_of(in_shell(f'exec "$@" {closing}', "sh", *words, formula, "d", cwd=tmp_path))
    assert lrat_fault(read_formula(formula), (tmp_path / "lrat").read_text()) == ""


# Several checks, and checks that are ended.


def test_two_checks_at_a_time(tmp_path: Path) -> None:
    """By a user who can't write into the record."""
    shutil.copy(PROGRAM, tmp_path / "lrupd")
    record = record_of(generated("random 180 3", tmp_path), "--lrupd", "./lrupd", "-j", 2,
                       tested=IN_ROUNDS)
    record.chmod(0o555)
    check_again(record)
    done = by_another(["sh", "-c", "sh d/command > /dev/null & sh d/command && wait \"$!\""],
                      tmp_path)
    assert output_of(done).splitlines()[-1] == PROVED


@pytest.fixture
def hanging(mark: str, tmp_path: Path) -> Path:
    """A record with several rounds. Its lrupd hangs as long as the file `slow` is there, once it
    has made the file `begun`."""
    slow, begun = tmp_path / "slow", tmp_path / "begun"
    lrupd = before_lrupd(f"[ ! -e {slow} ] || {{ touch {begun}; exec sleep 100; }}", tmp_path)
    record = record_of(generated("random 180 3", tmp_path), "--lrupd", lrupd, "-j", 2,
                       tested=IN_ROUNDS)
    slow.touch()
    return record


def interrupt(number: signal.Signals, record: Path, temporary: Path) -> None:
    """Sends this signal to a check while its lrupd hangs. The check ends, and leaves nothing."""
    with started(["sh", "d/command"], cwd=record.parent, env=with_temporary(temporary),
                 stdout=subprocess.DEVNULL) as checking:
        until("lrupd runs", (record.parent / "begun").exists)
        assert len(os.listdir(temporary)) == 1
        checking.send_signal(number)
        assert checking.wait(20) == 143
    assert os.listdir(temporary) == []


def each_signal(*numbers: signal.Signals) -> pytest.MarkDecorator:
    return pytest.mark.parametrize("number", numbers, ids=lambda number: str(number.name))


@each_signal(signal.SIGTERM, signal.SIGINT, signal.SIGHUP)
def test_a_check_that_gets_a_signal(number: signal.Signals, hanging: Path, mark: str,
                                    temporary: Path, tmp_path: Path) -> None:
    """It ends with its lrupd, and can be repeated."""
    interrupt(number, hanging, temporary)
    none_left(mark)
    (tmp_path / "slow").unlink()
    check_again(hanging, {"TMPDIR": str(temporary)})


@each_signal(signal.SIGTERM, signal.SIGINT)
def test_a_signal_while_streams_are_unpacked(number: signal.Signals, hanging: Path, mark: str,
                                             temporary: Path) -> None:
    """The unpacking programs end, too, even if lrupd hasn't opened their pipes yet."""
    for stream in hanging.glob("round-*.stream-*"):
        pack(stream, "xz")
    interrupt(number, hanging, temporary)
    none_left(mark)


@pytest.mark.parametrize("line", named([
    ("a program that unpacks", r'^ *unpack "\$k" &$'), ("lrupd", r'^ *"\$lrupd" .* &$')]))
def test_a_signal_right_after_a_program_is_started(line: str, hanging: Path, mark: str,
                                                   temporary: Path, tmp_path: Path) -> None:
    """It ends this program, too, though nothing else has happened since."""
    for stream in hanging.glob("round-1.stream-*"):
        pack(stream, "xz")
    text, count = re.subn(line, r"\g<0> kill -TERM $$", LRUP_RECHECK.read_text(), flags=re.M)
    assert count == 1
    done = run(["sh", written(text, tmp_path, "edited"), "--lrupd", tmp_path / "lrupd", hanging],
               env=with_temporary(temporary), limit=20)
    assert done.status == 143, done.err
    assert os.listdir(temporary) == []
    none_left(mark)


def test_a_check_that_nobody_reads(temporary: Path, tmp_path: Path) -> None:
    """Nothing is left."""
    record_of(generated("random 180 3", tmp_path), "-j", 2, tested=IN_ROUNDS)
    run(["sh", "-c", "{ sleep 0.5; sh d/command; } | true"], cwd=tmp_path,
        env=with_temporary(temporary))
    assert os.listdir(temporary) == []


def test_temporary_files_where_others_may_write(record: Path, temporary: Path) -> None:
    temporary.chmod(0o777)
    said = f"{temporary}: others may write there: choose another TMPDIR"
    assert check(record, env=with_temporary(temporary)) == refused(said)
    assert os.listdir(temporary) == []


# Strange names.


STRANGE = [("$(ran).cnf", "FORMULA;.cube"), ("`ran`;ran;", "ASSUME "), ("-$(ran)", "-x"),
           ("%s%proof %formula", "it's \"a\" $(ran)"), ("a\n$(ran)\nran", "\nFORMULA;\n"),
           ("'$(ran)'", "';ran;'"), (os.fsdecode(b"\xe9;ran;"), os.fsdecode(b"$(ran)\xe9"))]


@pytest.mark.parametrize("tested", [None, IN_MANY_ROUNDS], ids=["one round", "rounds"])
@pytest.mark.parametrize("assumes", [False, True], ids=["a solver", "assumptions"])
@pytest.mark.parametrize("names", STRANGE, ids=repr)
def test_no_shell_runs_a_part_of_a_name(names: Tuple[str, str], assumes: bool, tested: Hooks,
                                        tmp_path: Path) -> None:
    """Neither in the record's command, nor in the output of -v, nor in a solver's command. A
    program with such a name would leave a mark."""
    mark, programs = tmp_path / "mark", tmp_path / "programs"
    executable(": > \"$MARK\"", programs, "ran")
    more = {"MARK": str(mark), "PATH": f"{programs}:{os.environ['PATH']}"}
    folder = tmp_path / names[0]
    formula = written(example("bmc.cnf").read_text(), folder, names[0])
    cube = written("0\n", folder, names[1])
    if not assumes:
        needs("cadical")
    words = (["--assume", f"./{cube.name}"] if assumes
             else ["--solver", "cadical -q %formula %proof"])
    answer = solve(["-v", "-j", 2, "--proofs", "kept", *words, "--", formula.name], tested=tested,
                   env_more=more, cwd=folder)
    want_answer(answer, 20)
    assert (number_of_rounds(folder / "kept") > 1) == bool(tested)
    check_again(folder / "kept", more)
    shown, = [line for line in answer.comments
              if " --tries 1000000 " in line and "lrup-" not in line]
    done = run(["sh", "-c", shown], cwd=folder, env={**os.environ, **more})
    if "\n" not in "".join(names) and "".join(names).isascii():     # other bytes are shown as ?
        assert done.out.splitlines()[-1:] == ["s UNKNOWN" if tested else PROVED], done.err
    assert not mark.exists()


# A core, LRAT text, and a formula.
OUTPUTS = [("-.core", "-.lrat", "-f"), ("a\ncore", "an\nlrat", "a\nformula"),
           (" x --lines 0 --room 0 y", "x --lines 0 --room 0 y", " --lines 0"),
           (os.fsdecode(b"\xe9core"), os.fsdecode(b"\xffl rat"), os.fsdecode(b"\xc0\x80 f")),
           ("it's", "$(ran)", "a;b"),
           ("c: 1 bytes of 2: lrupd --lines 1", ": lrupd --lines 0 --room 0 x", "core")]
each_output = pytest.mark.parametrize("core, lrat, name", named(
    (repr(core), core, lrat, name) for core, lrat, name in OUTPUTS))


@each_output
@pytest.mark.parametrize("assumes", [False, True], ids=["no assumptions", "assumptions"])
def test_strange_names_of_outputs(core: str, lrat: str, name: str, assumes: bool,
                                  tmp_path: Path) -> None:
    """Correct outputs are kept, whatever names they and the formula have. lrupd accepts the LRAT
    text by the printed command."""
    formula = written(generated("pigeons 5", tmp_path).read_bytes(), tmp_path, name)
    cube = written("1 0\n", tmp_path, f"cube of {name}")
    verdict = PROVED_UNDER if assumes else PROVED
    answer = keep_outputs(["-j", 1, *["--assume", cube.name] * assumes, "--", name], formula,
                          verdict=verdict, names=(core, lrat))
    printed = [re.search(r": \d+ bytes of \d+: (lrupd .*)", line) for line in answer.comments
               if ": lrupd's verdict: " not in line]
    by_hand, = [found[1] for found in printed if found]
    if (core + lrat + name).isprintable() and (core + lrat + name).isascii():
        lrupd = f"lrupd() {{ {shlex.quote(PROGRAM)} \"$@\"; }}"
        done = run(["sh", "-c", f"{lrupd}; {by_hand}"], cwd=tmp_path)
        assert done.err == ""
        assert done.out.splitlines()[-1] == verdict


@each_output
@pytest.mark.parametrize("first", named([("no row suffices", "1 1 0 0"), ("no size", "c")]))
def test_outputs_that_are_checked_in_rounds(first: str, core: str, lrat: str, name: str,
                                            tmp_path: Path) -> None:
    """They are if lrup-trim's first line says that no row suffices, or says nothing."""
    trim = f"{shlex.quote(str(TRIM))} \"$@\" | sed '1s/.*/{first}/'"
    program = programs_beside(
        {"lrup-trim": trim, "lrup-exact": f"exec {shlex.quote(str(FILTER))} \"$@\""}, tmp_path)
    formula = written(generated("pigeons 5", tmp_path).read_bytes(), tmp_path, name)
    done = run([program, "--lrupd", PROGRAM, "-j", 1, "--core", core, "--lrat", lrat, "--", name],
               cwd=tmp_path)
    assert (done.err, done.status) == ("", 20)
    assert done.out.count(f": lrupd's verdict: {PROVED}\n") == 2
    core_of(tmp_path / core, read_formula(formula))
    assert lrat_fault(read_formula(formula), (tmp_path / lrat).read_text()) == ""


# Records that are replaced.


def want_not_replaced(words: Sequence[str], record: Path, given: Optional[str] = None,
                      program: Path = SOLVE) -> None:
    """Nothing of a record with a proof is removed before the inputs and the programs of the run
    that replaces it are accepted."""
    before = {path: path.read_bytes() for path in record.iterdir()}
    for name, text in (("bad", "p cnf 1 1\n2 0\n"), ("packed", "\x1f\x8b garbled"),
                       ("cubes", "a 99999 0\n"), ("cube", "99999 0\n")):
        written(text, record.parent, name)
    in_place_of_lrupd("exit 5", record.parent)
    done = run([program, "--lrupd", PROGRAM, "--proofs", "d", "--replace", *words], given,
               cwd=record.parent)
    assert (done.out, done.status) == ("", 1)
    assert re.fullmatch(".+\n", done.err)
    assert {path: path.read_bytes() for path in record.iterdir()} == before
    check_again(record)


@pytest.fixture
def proved_record(formula: Path) -> Path:
    """A record with a proof, and a copy of the formula."""
    return record_of(formula, "-j", 1, is_piped=True)


@pytest.mark.parametrize("words", [
    "bad", "none", "packed", "--cubes cubes formula.cnf", "--cubes none formula.cnf",
    "--assume cube formula.cnf", "--solver 'none %formula %proof' formula.cnf",
    "--lrupd ./lrupd formula.cnf"])
def test_a_refused_run_replaces_no_record(words: str, proved_record: Path) -> None:
    want_not_replaced(shlex.split(words), proved_record)


@pytest.mark.parametrize("words, given", named([
    ("a bad formula", [], "p cnf 1 1\n2 0\n"), ("no formula", ["-"], ""),
    ("another lrupd", ["--lrupd", "./lrupd"], FOUR)]))
def test_refused_standard_input_replaces_no_record(words: List[str], given: str,
                                                   proved_record: Path) -> None:
    want_not_replaced(words, proved_record, given)


@pytest.mark.parametrize("proof", [".", "none"])
def test_a_refused_proof_replaces_no_record(proof: str, proved_record: Path) -> None:
    want_not_replaced(["formula.cnf", proof], proved_record,
                      program=SOLVE.with_name("lrup-check"))


# Space.


def test_comments_say_how_much_space_a_record_takes(tmp_path: Path) -> None:
    answer = solve(["-j", 1, "--proofs", "d", generated("pigeons 6", tmp_path)], cwd=tmp_path)
    found = [re.fullmatch(r"d: ([\d.]+) MB kept, [\d,]+ MB free", line) for line in answer.comments]
    kept, = [float(line[1]) for line in found if line]
    size = sum(path.stat().st_size for path in (tmp_path / "d").iterdir())
    assert round(kept - size / 1e6) == 0


@pytest.mark.parametrize("words", [[], ["--lrat", "lrat"]], ids=["no output", "LRAT text"])
def test_no_comment_on_space_without_a_record(words: List[str], formula: Path,
                                              tmp_path: Path) -> None:
    answer = solve(["-j", 1, *words, formula], cwd=tmp_path)
    assert [line for line in answer.comments if " MB " in line] == []


def solve_on_a_disk(kilobytes: int, words: Sequence[object], tested: Hooks, work: Path) -> Answer:
    """Runs lrup-solve with a disk of this size for the record or, without a record, for temporary
    files."""
    (work / "full").mkdir()
    how = ["unshare", "-m" if os.getuid() == 0 else "-rm", "sh", "-c"]
    mounts = f"mount -t tmpfs -o size={kilobytes}k tmpfs full"
    if run([*how, mounts], cwd=work).status != 0:
        pytest.skip("no file system can be mounted")
    formula = generated("random 180 3", work)
    more = {"TMPDIR": f"{work}/full"} if "--proofs" not in words else {}
    return Answer(run(
        [*how, mounts + ' && exec "$@"', "sh", *command([*words, formula], tested)], cwd=work,
        env=in_environment(tested, more)))


def want_lost(answer: Answer, what: str) -> None:
    """Neither the verdict nor its status is lost, and the message says what is."""
    assert (answer.answers, answer.status) == ([PROVED], 20), answer.out + answer.said
    assert re.fullmatch(f"lrup-solve: {what}: No space left on device\n", answer.said)


LOST = r"the record is lost: cannot write \S+/full/d/round-\d+\.\S+"
each_small_disk = pytest.mark.parametrize("kilobytes", [8, 16, 64, 300, 700])
one_or_three_engines = pytest.mark.parametrize("engines", [1, 3])


@each_small_disk
@one_or_three_engines
def test_a_disk_that_is_full_in_a_round(kilobytes: int, engines: int, tmp_path: Path) -> None:
    answer = solve_on_a_disk(kilobytes, ["-j", engines, "--proofs", "full/d"], None, tmp_path)
    want_lost(answer, LOST)
    assert " rounds with " not in answer.out


@each_small_disk
@one_or_three_engines
def test_a_disk_that_is_full_after_some_rounds(kilobytes: int, engines: int,
                                               tmp_path: Path) -> None:
    """A comment says meanwhile that the record is lost."""
    answer = solve_on_a_disk(kilobytes, ["-j", engines, "--proofs", "full/d"], IN_ROUNDS, tmp_path)
    want_lost(answer, LOST)
    assert " rounds with " in answer.out
    said = "the record is lost: cannot write "
    assert any(line.startswith(said) for line in answer.comments), answer.out


def test_a_disk_that_is_full_for_lrat_text(tmp_path: Path) -> None:
    answer = solve_on_a_disk(64, ["-j", 2, "--lrat", "lrat"], None, tmp_path)
    want_lost(answer, r"no core and no LRAT text: cannot write \S+/full/lrup-solve-\d+/kept/"
                      r"round-1\.stream-\d")
    assert " rounds with " not in answer.out


def test_a_disk_on_which_lrupd_cannot_save_a_round(tmp_path: Path) -> None:
    """The message says where."""
    answer = solve_on_a_disk(16, ["-j", 2], IN_ROUNDS, tmp_path)
    assert (answer.answers, answer.status) == (["s UNKNOWN"], 0), answer.out + answer.said
    assert f"lrupd ended with status 9: TMPDIR ({tmp_path}/full) has 0 MB left" in answer.comments


# Why a line is bad.


def solve_rejected(words: Sequence[object], before: str, formula: Path) -> Answer:
    """In place of lrupd, something is done first, and then line 1 is said to be bad."""
    said = "c stream 1: 0 added, 0 deleted, bad line 1 (no conflict)"
    lrupd = before_lrupd(f"{before}echo '{said}'; echo s UNKNOWN; exit 3", formula.parent)
    answer = solve(["--lrupd", lrupd, "-v", "-j", 1, *words, formula], cwd=formula.parent)
    assert (answer.status, answer.said) == (0, ""), answer.out
    return answer


def test_a_bad_line_is_explained(formula: Path) -> None:
    """Line 1 lacks its last hint: comments say why it is bad."""
    stream = "d/round-1.stream-1"
    lacks = f"[ ! -f {stream} ] || sed -i '1s/ [0-9]* 0$/ 0/' {stream}; "
    answer = solve_rejected(["--proofs", "d"], lacks, formula)
    said = f"stream 1 ({stream}), line 1: no conflict"
    assert said in answer.comments
    explained = "\n".join(answer.comments[answer.comments.index(said):])
    assert "  why: " in explained
    assert "  a right chain: " in explained


def test_a_bad_line_without_a_record(formula: Path) -> None:
    answer = solve_rejected([], "", formula)
    assert "lrup-explain shows why, if --proofs DIR keeps the streams" in answer.comments
