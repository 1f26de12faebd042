"""Runs the filter with --rounds beside lrupd --rounds, with rows so small that proofs take many
rounds.

There are recorded proofs in each form, and proofs of CaDiCaL and CryptoMiniSat if these are on the
PATH. Each run has to end with status 0, with as many additions as the proof has, and leave only an
empty file. Then come proofs that are truncated, have a wrong line, or continue after the empty
clause; formulas without clauses, or too large for a row; folders that aren't empty; and runs in
which either side is killed at any time. Neither side may wait for the other forever. The filter is
also built for tests, with -fsanitize=address,undefined if the compiler supports it."""
import contextlib
import functools
import os
import re
import shlex
import signal
import subprocess
import threading
import time
from pathlib import Path
from typing import IO, Dict, Iterator, List, NamedTuple, Optional, Sequence, Set, Tuple, Union

import pytest

from harness import (BUILDS, FILTER, FOUR, LIMIT, LRUP_RECHECK, PROGRAM, SANITIZE, SANITIZING, Ran,
                     added, dimacs, example, for_tests, generated, lacking, link_over, named, needs,
                     output_of, piped, report, run, sanitized, sanitizer, sources_of, started,
                     until, unwatched, waiting, watched_ends, written)
from proof_forms import FORMS, Step, read_formula, read_steps
from rounds import last
from solving import in_place_of_lrupd, of_process

Text = Union[str, bytes]
WORDS = 4000    # the words of lrupd's largest row, as one build assumes
GONE = "the reader of standard output, which runs lrupd, ended before it read "


class Checked(NamedTuple):
    """How each round's stream ended; lrupd's report, messages and status; the filter's messages and
    status."""
    rounds: List[str]
    out: str
    said: str
    status: Optional[int]
    filter_said: str
    filter_status: Optional[int]

    def added(self) -> int:
        return added(self.rounds)

    def ends(self) -> Set[str]:
        return {words.split(" deleted, ")[1] for words in self.rounds}


@contextlib.contextmanager
def filtering(words: Sequence[object], work: Path, given: object = subprocess.DEVNULL,
              program: Path = FILTER) -> "Iterator[subprocess.Popen[bytes]]":
    """The filter, in the folder d, with pipes for its outputs."""
    with started([program, "--rounds", "d", *words], cwd=work, stdin=given, stdout=subprocess.PIPE,
                 stderr=subprocess.PIPE, bufsize=0, env={**os.environ, **SANITIZING}) as running:
        yield running


def end_of(running: "subprocess.Popen[bytes]") -> Tuple[str, Optional[int]]:
    """The filter's messages and status, once nobody reads its standard output any more."""
    assert running.stdout and running.stderr
    running.stdout.close()
    status = running.wait(LIMIT)
    return running.stderr.read().decode(), status


def lrupd_words(formula: Path) -> List[object]:
    return ["--rounds", "d", formula, "d/round-1.stream-1"]


def check_beside(running: "subprocess.Popen[bytes]", formula: Path, work: Path,
                 lrupd: object = PROGRAM) -> Checked:
    """lrupd begins when the filter says so, and keeps the pipe from the filter's standard output
    open until it ends. Its report has to be that of the last round."""
    assert running.stdout
    ready = running.stdout.readline()
    if not ready:
        return Checked([], "", "", None, *end_of(running))
    assert ready == b"d/round-1.stream-1\n"
    done = run([lrupd, "--watch", *lrupd_words(formula)], cwd=work, stdin=running.stdout)
    rounds = watched_ends(done.err)
    if rounds:
        assert done.out == last(len(rounds), rounds[-1:], done.status or 0)
    return Checked(rounds, done.out, unwatched(done.err), done.status, *end_of(running))


def check(formula: Path, proof: Text, words: Sequence[object], work: Path, program: Path = FILTER,
          lrupd: object = PROGRAM) -> Checked:
    with open(written(proof, work, "a proof"),
              "rb") as file, filtering([*words, formula], work, file, program) as running:
        return check_beside(running, formula, work, lrupd)


def left(work: Path) -> List[str]:
    return sorted(os.listdir(work / "d"))


def want_refuted(checked: Checked, least: int, most: int, work: Path) -> None:
    """The formula is refuted, in `least` to `most` rounds. The only file left is the empty one to
    which lrupd would have saved the last round's checkpoint."""
    count = len(checked.rounds)
    assert checked.ends() == {"ended"}
    assert checked[2:] == ("", 0, "", 0)
    assert least <= count <= most
    assert left(work) == [f"round-{count + 1}.cnf"]
    assert (work / "d" / f"round-{count + 1}.cnf").read_text() == ""


# Right proofs.


def tidied(steps: Sequence[Step]) -> List[Step]:
    """Each clause is deleted after its last use, so that little is carried over."""
    additions = [step for step in steps if step.kind == "a"]
    last: Dict[int, int] = {}
    for place, step in enumerate(additions):
        last.update({hint: place for hint in step.hints})
        last.setdefault(step.identity, place)
    found: List[Step] = []
    for place, step in enumerate(additions):
        unused = sorted(identity for identity, use in last.items() if use == place)
        found += ([step, Step("d", step.identity, [], unused)]
                  if unused and step.literals else [step])
    return found


RECORDED = [("four-clause.cnf", "four-clause.lrup", "1K", 1, 1),
            ("pigeonhole.cnf", "pigeonhole.lrup", "3K", 3, 15),
            ("pigeonhole.cnf", "pigeonhole.lrup", "4K", 3, 10),
            ("bmc.cnf", "bmc.lrup", "48K", 5, 50)]


def proof_of(formula: str, stream: str, form: str) -> Tuple[bytes, str, int]:
    """The proof, the argument of --format, and how many additions it has."""
    word, make = FORMS[form]
    steps = tidied(read_steps(example(stream)))
    return (b"".join(make(read_formula(example(formula)), steps)), word,
            sum(step.kind == "a" for step in steps))


def want_added(checked: Checked, count: int, form: str) -> None:
    """There are as many additions as in the proof, or fewer if it has no hints, since the filter
    adds the empty clause as soon as unit propagation finds a conflict."""
    is_whole = "LRAT" in form or form == "FRAT with hints"
    assert (count if is_whole else 1) <= checked.added() <= count


def want_recorded(name: str, stream: str, memory: str, least: int, most: int, form: str,
                  is_named: bool, program: Path, work: Path) -> None:
    proof, word, count = proof_of(name, stream, form)
    words = ["--memory", memory, *(["--format", word] if is_named else [])]
    checked = check(example(name), proof, words, work, program)
    if not is_named and form.startswith("binary") and "--format" in checked.filter_said:
        # The form isn't clear.
        assert (checked.filter_status, checked.status, checked.added()) == (1, 3, 0)
    else:
        want_refuted(checked, least, most, work)
        want_added(checked, count, form)


@pytest.mark.parametrize("is_named", [True, False], ids=["named", "the form detected"])
@pytest.mark.parametrize("form", FORMS)
@pytest.mark.parametrize("name, stream, memory, least, most", RECORDED)
def test_recorded(name: str, stream: str, memory: str, least: int, most: int, form: str,
                  is_named: bool, tmp_path: Path) -> None:
    want_recorded(name, stream, memory, least, most, form, is_named, FILTER, tmp_path)


@pytest.mark.parametrize("name, stream, memory, least, most, form", [
    *((*RECORDED[1], form) for form in FORMS), (*RECORDED[3], "binary DRAT")])
def test_sanitized(name: str, stream: str, memory: str, least: int, most: int, form: str,
                   tmp_path: Path) -> None:
    if not sanitizer():
        lacking(f"the C compiler doesn't build with {SANITIZE[3]}")
    want_recorded(name, stream, memory, least, most, form, True, sanitized(FILTER), tmp_path)


# The solver's command, the form if it has to be given, the generator's arguments, the memory, and
# the least and the largest number of rounds.
EARLY = "cadical -q --reduceint=20 --elimint=10 --probeint=10 --subsumeint=10"
SOLVED = [("cadical -q", "binary-drat", "random 180 3", "500K", 3, 8),
          ("cadical -q --no-binary", "", "random 180 3", "600K", 3, 8),
          (EARLY, "binary-drat", "random 170 4", "300K", 3, 50),
          (EARLY + " --no-binary", "", "pigeons 7", "200K", 3, 50),
          ("cadical -q", "binary-drat", "order 15", "1M", 1, 1),
          ("cadical -q", "binary-drat", "random 150 1", None, 1, 1),
          ("cryptominisat5 --verb 0", "", "random 170 4", "900K", 2, 8),
          ("cryptominisat5 --verb 0", "frat", "order 15", "1M", 2, 8)]


@pytest.mark.parametrize("live", [False, True], ids=["from a file", "live"])
@pytest.mark.parametrize("command, form, words, memory, least, most", SOLVED)
def test_solved(command: str, form: str, words: str, memory: Optional[str], least: int, most: int,
                live: bool, tmp_path: Path) -> None:
    """The proof comes through a pipe while the solver writes it, or from a file."""
    solver = shlex.split(command)
    needs(solver[0])
    formula = generated(words, tmp_path)
    proof = piped(tmp_path / "proof") if live else tmp_path / "proof"
    given = [*(["--memory", memory] if memory else []), *(["--format", form] if form else []),
             formula, proof]
    with started([*solver, formula, proof], stdout=subprocess.DEVNULL,
                 stderr=subprocess.DEVNULL) as solving:
        if not live:
            assert solving.wait(LIMIT) == 20
        with filtering(given, tmp_path) as running:
            want_refuted(check_beside(running, formula, tmp_path), least, most, tmp_path)
        assert solving.wait(LIMIT) == 20


def test_after_the_empty_clause(tmp_path: Path) -> None:
    """What follows the empty clause needs no round, but is checked."""
    formula = written(FOUR, tmp_path)
    proof = "2 0\n0\n" + "1 2 0\n" * 1000
    want_refuted(check(formula, proof, ["--memory", "1K"], tmp_path), 1, 1, tmp_path)
    (tmp_path / "d" / "round-2.cnf").unlink()
    checked = check(formula, proof + "3 0\n", ["--memory", "1K"], tmp_path)
    assert (checked.status, checked.filter_status) == (0, 1)
    assert checked.filter_said == ("lrup-exact: line 1003: a variable that the formula doesn't "
                                   "have: 3, above the header's 2\n")


def test_rows_grow(tmp_path: Path) -> None:
    """The first row has 2^20 words, and is made for clauses of 16 literals. The next row is twice
    as large, and is made for clauses as long as the earlier ones, but of at most 200 literals. A
    row has enough lines for clauses of half that length."""
    literals = list(range(3, 1003))
    formula = written(dimacs(1002, [[1, 2], [-1, 2], [1, -2], [-1, -2], literals]), tmp_path)
    text = " ".join(map(str, literals))
    proof = "".join(f"{number} {text} 0 5 0\n{number} d {number} 0\n" for number in range(6, 3206))
    checked = check(formula, proof + "3206 2 0 1 2 0\n3207 0 3206 3 4 0\n", [], tmp_path)
    want_refuted(checked, 3, 3, tmp_path)
    rooms = [words - int(words / (1 + length / 2))
             for words, length in ((1 << 20, 16), (1 << 21, 200))]
    fit = [room // len(literals) for room in rooms]
    assert [added([words]) for words in checked.rounds] == [*fit, 3202 - sum(fit)]


EMPTY = "p cnf 2 2\n1 2 0\n0\n"


@pytest.mark.parametrize("formula, proof, status, said", named([
    ("no clauses", "p cnf 0 0\n", "", 3, ""),
    ("no clauses, and a step", "p cnf 1 0\n", "1 0\n", 3, "lrup-exact: line 1: no conflict by "
     "unit propagation: the clause 1 0 is a RAT step, which lrupd doesn't check\n"),
    ("an empty clause, and no step", EMPTY, "", 3, ""), ("an empty clause", EMPTY, "0\n", 0, ""),
    ("the empty clause alone", "p cnf 0 1\n0\n", "0\n", 0, ""),
    ("four clauses", FOUR, "2 0\n0\n", 0, ""),
    ("no step", FOUR, "", 3, ""), ("one step", FOUR, "2 0\n", 3, "")]))
def test_few_lines(formula: str, proof: str, status: int, said: str, tmp_path: Path) -> None:
    checked = check(written(formula, tmp_path), proof, [], tmp_path)
    assert len(checked.rounds) == 1
    assert checked.status == status
    assert checked.filter_said == said
    assert left(tmp_path) == ["round-2.cnf"]


# Wrong proofs.


each_kind = pytest.mark.parametrize("form", ["LRAT text", "DRAT text", "binary DRAT"])


@each_kind
@pytest.mark.parametrize("parts", [4, 8])
def test_cut(parts: int, form: str, tmp_path: Path) -> None:
    """So many tenths of a proof: all whole steps are checked; the last round has status 3."""
    proof, word, count = proof_of("bmc.cnf", "bmc.lrup", form)
    whole = proof[:len(proof) * parts // 10]
    checked = check(example("bmc.cnf"), whole, ["--memory", "48K", "--format", word], tmp_path)
    rounds = len(checked.rounds)
    assert checked.ends() == {"ended"}
    assert checked.said == ""
    assert checked.status == 3
    assert 1 < rounds < 50
    assert 0 < checked.added() < count
    assert left(tmp_path) == [f"round-{rounds + 1}.cnf"]
    if checked.filter_said:
        assert checked.filter_status == 1, checked.filter_said
        assert "the proof ends within a step" in checked.filter_said


@each_kind
def test_a_wrong_step(form: str, tmp_path: Path) -> None:
    """A step in the middle doesn't follow: the message has that step's place in the whole proof."""
    at, (word, make) = 2500, FORMS[form]
    formula, steps = read_formula(example("bmc.cnf")), tidied(read_steps(example("bmc.lrup")))
    before = make(formula, steps[:at])
    place = (f"step {len(before) + 1}, byte {len(b''.join(before)) + 1}"
             if form.startswith("binary") else f"line {len(before) + 1}")
    steps[at:at] = [Step("a", steps[at].identity, [1], [])]
    checked = check(example("bmc.cnf"), b"".join(make(formula, steps)),
                    ["--memory", "48K", "--format", word], tmp_path)
    assert checked.status == 3
    assert checked.ends() == {"ended"}
    assert checked.filter_status == 1
    count = sum(step.kind == "a" for step in steps[:at])
    assert checked.added() == count
    assert len(checked.rounds) > 2
    assert checked.filter_said.startswith(f"lrup-exact: {place}: no conflict")


@functools.lru_cache(maxsize=None)
def largest_row() -> Path:
    return for_tests(BUILDS / "lrup-exact-largest-row", sources_of("lrup-exact"),
                     f"-DMOST_WORDS={WORDS}")


def test_no_room(tmp_path: Path) -> None:
    """If lrupd can't make a larger row, there may be no room for the formula or for carried
    clauses."""
    said = "leave{} no room in a row of " + f"{8 * WORDS} bytes\n"
    checked = check(generated("random 400 1", tmp_path), "", [], tmp_path, largest_row())
    assert checked == Checked([], "", "", None, f"lrup-exact: the formula {said.format('s')}", 1)
    assert left(tmp_path) == []
    proof = "".join(line for line in example("bmc.lrup").read_text().splitlines(True)
                    if " d " not in line)
    checked = check(example("bmc.cnf"), proof, ["--memory", "20K"], tmp_path, largest_row())
    assert (checked.status, checked.filter_status) == (3, 1), checked.filter_said
    line = checked.added() + 1
    assert checked.filter_said == (f"lrup-exact: line {line}: the solver's clauses "
                                   + said.format(""))
    (tmp_path / "d" / f"round-{len(checked.rounds) + 1}.cnf").unlink()
    want_refuted(check(example("bmc.cnf"), proof, ["--memory", "20K"], tmp_path), 3, 20, tmp_path)


def test_room_for_one_clause(tmp_path: Path) -> None:
    """Whatever --memory says, there is room for the formula, and for one clause."""
    literals = " ".join(map(str, range(1, 201)))
    formula = written(f"p cnf 201 2\n{literals} 201 0\n-201 0\n", tmp_path)
    checked = check(formula, f"{literals} 0\n", ["--memory", "1"], tmp_path)
    assert checked.added() == 1
    assert checked[2:] == ("", 3, "", 0)


def test_an_import(tmp_path: Path) -> None:
    """An import is refused, as in lrup-solve for a single solver."""
    checked = check(written(FOUR, tmp_path), "1 i 1 2 0\n", [], tmp_path)
    assert checked.status == 3
    assert checked.filter_said == "lrup-exact: line 1: an import, but the solver shares nothing\n"


# The folder and the arguments.


@pytest.mark.parametrize("name", ["round-1.stream-1", "round-1.stream-2", "round-1.sizes",
                                  "round-2.cnf", "round-7.sizes"])
def test_files_of_rounds_are_there(name: str, tmp_path: Path) -> None:
    """A folder with files of rounds is refused, and nothing is touched."""
    (tmp_path / "d").mkdir()
    path = written("mine", tmp_path / "d", name)
    checked = check(written(FOUR, tmp_path), "0\n", [], tmp_path)
    said = f"lrup-exact: d/{name}: exists, but --rounds needs a folder without files of rounds\n"
    assert checked == Checked([], "", "", None, said, 1)
    assert path.read_text() == "mine"
    assert left(tmp_path) == [name]


def test_other_files(tmp_path: Path) -> None:
    """The folder exists and has other files, one of which is the formula."""
    (tmp_path / "d").mkdir()
    formula = written(FOUR, tmp_path / "d", "formula of round-1")
    checked = check(formula, "2 0\n0\n", [], tmp_path)
    assert checked[2:] == ("", 0, "", 0)
    assert left(tmp_path) == ["formula of round-1", "round-2.cnf"]


@pytest.mark.parametrize("mode, taken", [
    pytest.param(mode, taken, id=f"{mode:o}")
    for mode, taken in ((0o777, False), (0o757, False), (0o1777, True), (0o775, True),
                        (0o700, True))])
def test_mode_of_the_folder(mode: int, taken: bool, tmp_path: Path) -> None:
    """If other users may remove files, they may replace a stream; if the folder is sticky, they
    can't."""
    (tmp_path / "d").mkdir()
    (tmp_path / "d").chmod(mode)
    checked = check(written(FOUR, tmp_path), "2 0\n0\n", [], tmp_path)
    wanted = ((0, "", 0) if taken
              else (None, "lrup-exact: d: other users may write to this folder\n", 1))
    assert (checked.status, checked.filter_said, checked.filter_status) == wanted


def test_mode_of_a_folder_that_is_made(tmp_path: Path) -> None:
    formula = written(FOUR, tmp_path)
    with started(["sh", "-c", 'umask 0; exec "$@"', "sh", FILTER, "--rounds", "d", formula,
                  "/dev/null"],
                 cwd=tmp_path, stdout=subprocess.DEVNULL):
        until("the first stream", lambda: (tmp_path / "d" / "round-1.stream-1").exists())
        assert (tmp_path / "d").stat().st_mode & 0o7777 == 0o775


@pytest.mark.parametrize("how", ["link", "file"])
def test_a_file_in_place_of_the_fifo(how: str, tmp_path: Path) -> None:
    """A file that replaces the FIFO isn't written to."""
    mine = written("mine", tmp_path, "mine")
    proof = written("2 0\n0\n", tmp_path, "proof")
    with filtering([written(FOUR, tmp_path), proof], tmp_path) as running:
        assert running.stdout and running.stderr
        running.stdout.readline()
        link_over(tmp_path / "d" / "round-1.stream-1", mine, how)
        said, status = running.stderr.read().decode(), running.wait(LIMIT)
    assert said == "lrup-exact: d/round-1.stream-1: another file is in its place\n"
    assert status == 1
    assert mine.read_text() == "mine"


def test_another_folder_takes_the_name(tmp_path: Path) -> None:
    """If another folder takes the folder's name, nothing in it is written or removed."""
    formula = written(FOUR, tmp_path)
    names = ["round-1.sizes", "round-1.stream-1", "round-2.sizes", "round-2.stream-1"]
    with filtering([formula, written("2 0\n0\n", tmp_path, "proof")], tmp_path) as running:
        assert running.stdout
        running.stdout.readline()
        (tmp_path / "d").rename(tmp_path / "moved")
        mine = [written("mine", tmp_path / "other", name) for name in names]
        (tmp_path / "d").symlink_to("other")
        output_of(run([PROGRAM, "--rounds", "moved", formula, "moved/round-1.stream-1"],
                      cwd=tmp_path, stdin=running.stdout))
        assert end_of(running) == ("", 0)
    assert [path.read_text() for path in mine] == ["mine"] * len(mine)
    assert left(tmp_path) == names
    assert os.listdir(tmp_path / "moved") == ["round-2.cnf"]


@pytest.mark.parametrize("closing", ["2>&-", "<&- 2>&-"])
def test_standard_error_is_closed(closing: str, tmp_path: Path) -> None:
    """Messages don't get into the stream."""
    formula, proof = written(FOUR, tmp_path), written("2 0\n3 0\n", tmp_path, "proof")
    with started(["sh", "-c", f'exec "$@" {closing}', "sh", FILTER, "--rounds", "d",
                  formula, proof],
                 cwd=tmp_path, stdin=subprocess.DEVNULL, stdout=subprocess.PIPE,
                 stderr=subprocess.PIPE, bufsize=0) as running:
        checked = check_beside(running, formula, tmp_path)
    assert checked.ends() == {"ended"}
    assert checked.added() == 1
    assert checked.status == 3
    assert checked.filter_status == 1


def test_the_folder_of_another_run(tmp_path: Path) -> None:
    """A run locks its folder until it ends, however it ends, even between rounds. The lock holds
    for runs that use another name for the folder, too."""
    os.symlink("d", tmp_path / "link")
    with in_a_round(tmp_path) as sides:
        for name in ("d", "link"):
            done = run([FILTER, "--rounds", name, example("bmc.cnf"), "/dev/null"], cwd=tmp_path)
            assert done == Ran("", f"lrup-exact: {name}: another run uses this folder\n", 1)
        sides.running.kill()
        sides.running.wait(LIMIT)
        said = run([FILTER, "--rounds", "d", example("bmc.cnf"), "/dev/null"], cwd=tmp_path).err
        assert "but --rounds needs a folder without files of rounds" in said


def test_no_folder(tmp_path: Path) -> None:
    formula = written(FOUR, tmp_path, "d")
    assert check(formula, "0\n", [], tmp_path)[4:] == ("lrup-exact: d: Not a directory\n", 1)
    done = run([FILTER, "--rounds", "a/b", formula], cwd=tmp_path)
    assert done == Ran("", "lrup-exact: a/b: No such file or directory\n", 1)


USAGE = [("--rounds", "no value after --rounds"), ("--rounds= FORMULA", "no folder after --rounds"),
         ("--rounds d", "no FORMULA"),
         ("--rounds d --stream 1 --streams 2 FORMULA", "--rounds takes one stream"),
         ("--rounds=d --stream 2 --streams 2 FORMULA", "--rounds takes one stream"),
         ("--rounds d --other 2=x FORMULA", "--rounds takes one stream, and no --other"),
         ("--memory 1G FORMULA", "--memory without --rounds"),
         ("--rounds d FORMULA --memory", "no value after --memory"),
         ("--rounds d --memory 3G FORMULA", "more than 2147483648 bytes: 3G"),
         ("--rounds d --memory 99999999999999999999999 FORMULA",
          "more than 2147483648 bytes: 99999999999999999999999")]
USAGE += [(f"--rounds d --memory {word} FORMULA", f"not a size like 500000000, 500M or 2G: {word}")
          for word in ("0", "0G", "x", "1x", "1GB", "G", "-1", "1.5G", "+1")]


@pytest.mark.parametrize("words, cause", USAGE)
def test_usage(words: str, cause: str, tmp_path: Path) -> None:
    formula = written(FOUR, tmp_path)
    done = run(
        [FILTER, *(formula if word == "FORMULA" else word for word in words.split())], cwd=tmp_path)
    assert (done.out, done.status) == ("", 2)
    assert done.err.startswith("usage: ")
    assert done.err.splitlines()[-1] == f"lrup-exact: error: {cause}"
    assert not (tmp_path / "d").exists()


# If either side ends early, the other doesn't wait forever.


def gone(number: int) -> str:
    return GONE + f"d/round-{number}.stream-1\n"


@pytest.mark.parametrize("body, status, awaited", named([
    ("status 9", "cat $stream > /dev/null; exit 9", 9, 2), ("not opened", "exit 6", 6, 1)]))
def test_lrupd_ends(body: str, status: int, awaited: int, tmp_path: Path) -> None:
    """lrupd ends in round 1, for a reason of its own. The filter notices that at the FIFO of that
    round or of the next one."""
    proof, word, _ = proof_of("bmc.cnf", "bmc.lrup", "binary DRAT")
    lrupd = in_place_of_lrupd(f"for stream; do :; done; {body}", tmp_path)
    checked = check(example("bmc.cnf"), proof, ["--memory", "48K", "--format", word],
                    tmp_path, lrupd=lrupd)
    assert (checked.status, checked.filter_status) == (status, 1)
    place = "((step [0-9]+, )?byte [0-9]+: )?"
    assert re.fullmatch(f"lrup-exact: {place}{gone(awaited)}", checked.filter_said)
    assert left(tmp_path) == []


class Sides(NamedTuple):
    """The filter, midway in a round and with the proof's pipe open, and lrupd beside it."""
    running: "subprocess.Popen[bytes]"
    checking: "subprocess.Popen[str]"
    pipe: IO[bytes]
    rest: bytes

    def go_on(self) -> None:
        """Writes the rest of the proof, until nobody reads it any more."""
        def write() -> None:
            with contextlib.suppress(OSError):
                self.pipe.write(self.rest)
        threading.Thread(target=write, daemon=True).start()

    def ends(self) -> Tuple[str, Optional[int], str, Optional[int]]:
        """Returns lrupd's messages and status, and the filter's."""
        _, said = self.checking.communicate(timeout=LIMIT)
        return said, self.checking.returncode, *end_of(self.running)


def is_on(pipe: IO[bytes], work: Path) -> bool:
    """Whether everything is read, and the current round is the third or a later one."""
    time.sleep(0.05)
    return waiting(pipe.fileno()) == 0 and [int(re.sub(r"round-(\d+)\.cnf|.*", r"\1", name) or 0)
                                            > 3 for name in left(work)] == [True]


@contextlib.contextmanager
def in_a_round(work: Path) -> Iterator[Sides]:
    """The filter has read half a proof, and waits for more; some rounds have ended."""
    proof, word, _ = proof_of("bmc.cnf", "bmc.lrup", "binary DRAT")
    path, half = piped(work / "proof"), len(proof) // 2
    with filtering(["--memory", "48K", "--format", word, example("bmc.cnf"), path],
                   work) as running, open(path, "wb", buffering=0) as pipe:
        assert running.stdout
        assert running.stdout.readline() == b"d/round-1.stream-1\n"
        with started([PROGRAM, *lrupd_words(example("bmc.cnf"))], cwd=work,
                     stdin=running.stdout, stdout=subprocess.DEVNULL, stderr=subprocess.PIPE,
                     text=True) as checking:
            pipe.write(proof[:half])
            until("a round is on", lambda: all(is_on(pipe, work) for _ in range(5)))
            yield Sides(running, checking, pipe, proof[half:])


def test_lrupd_is_killed(tmp_path: Path) -> None:
    """Nobody will read the next stream. The current stream can't be written, or was written just
    before lrupd was killed."""
    with in_a_round(tmp_path) as sides:
        sides.checking.kill()
        sides.go_on()
        said, status, filter_said, filter_status = sides.ends()
    assert (said, status, filter_status) == ("", -signal.SIGKILL, 1), filter_said
    assert re.fullmatch(r"lrup-exact: (cannot write the stream: Broken pipe|"
                        rf"step \d+, byte \d+: {GONE}d/round-\d+\.stream-1)\n", filter_said)


@pytest.mark.parametrize("by", [signal.SIGKILL, signal.SIGTERM])
def test_the_filter_is_killed(by: signal.Signals, tmp_path: Path) -> None:
    with in_a_round(tmp_path) as sides:
        os.kill(sides.running.pid, by)
        assert sides.ends() == ("", 3, "", -by)


each_signal = pytest.mark.parametrize("by", [signal.SIGTERM, signal.SIGINT, signal.SIGHUP])


@each_signal
def test_ended_before_lrupd_begins(by: signal.Signals, tmp_path: Path) -> None:
    """A signal ends the filter while it waits for lrupd to start."""
    with filtering([example("bmc.cnf"), "/dev/null"], tmp_path) as running:
        assert running.stdout
        running.stdout.readline()
        assert left(tmp_path) == ["round-1.sizes", "round-1.stream-1"]
        os.kill(running.pid, by)
        assert end_of(running) == ("", -by)
        assert left(tmp_path) == []


def sleeps(pid: int) -> bool:
    time.sleep(0.05)
    return of_process(pid, "stat").rsplit(")", 1)[-1].split()[:1] == ["S"]


@each_signal
def test_ended_while_lrupd_waits(by: signal.Signals, tmp_path: Path) -> None:
    """lrupd is at the FIFO, but the filter isn't yet: lrupd gets an empty stream."""
    formula = example("bmc.cnf")
    with filtering([formula, "/dev/null"], tmp_path) as running:
        assert running.stdout
        running.stdout.readline()
        os.kill(running.pid, signal.SIGSTOP)
        with started([PROGRAM, *lrupd_words(formula)], cwd=tmp_path, stdin=subprocess.DEVNULL,
                     stdout=subprocess.PIPE, stderr=subprocess.PIPE, text=True) as checking:
            until("lrupd is at the FIFO", lambda: all(sleeps(checking.pid) for _ in range(6)))
            for number in (by, signal.SIGCONT):
                os.kill(running.pid, number)
            out, said = checking.communicate(timeout=LIMIT)
        assert (said, checking.returncode) == ("", 3)
        assert out == report(["0 added, 0 deleted, ended"], 3)
        assert end_of(running) == ("", -by)
        assert left(tmp_path) == ["round-2.cnf"]


def test_the_reader_ends_before_lrupd_begins(tmp_path: Path) -> None:
    with filtering([example("bmc.cnf"), "/dev/null"], tmp_path) as running:
        assert running.stdout
        running.stdout.readline()
        time.sleep(0.2)
        assert running.poll() is None
        assert end_of(running) == ("lrup-exact: " + gone(1), 1)
        assert left(tmp_path) == []


def test_without_a_pipe(tmp_path: Path) -> None:
    """Standard output is a file, and lrup-recheck begins once the first stream exists."""
    formula, (text, _, _) = example("pigeonhole.cnf"), proof_of(
        "pigeonhole.cnf", "pigeonhole.lrup", "LRAT text")
    words = [FILTER, "--rounds=d", "--memory=3K", formula, written(text, tmp_path, "proof")]
    with open(tmp_path / "out", "wb") as out, started(words, cwd=tmp_path, stdout=out) as running:
        until("the first stream", lambda: (tmp_path / "d" / "round-1.stream-1").exists())
        output_of(run([LRUP_RECHECK, "--lrupd", PROGRAM, "d", formula], cwd=tmp_path))
        assert running.wait(LIMIT) == 0
        assert left(tmp_path) == []
    assert (tmp_path / "out").read_text() == "d/round-1.stream-1\n"


def test_an_ignored_signal(tmp_path: Path) -> None:
    """A signal that is ignored when the filter starts stays ignored."""
    def ignore() -> None:
        signal.signal(signal.SIGHUP, signal.SIG_IGN)
    with started([FILTER, "--rounds", "d", example("bmc.cnf"), "/dev/null"], cwd=tmp_path,
                 stdout=subprocess.DEVNULL, preexec_fn=ignore) as running:
        until("the first stream", lambda: (tmp_path / "d" / "round-1.stream-1").exists())
        os.kill(running.pid, signal.SIGHUP)
        time.sleep(0.2)
        assert running.poll() is None
