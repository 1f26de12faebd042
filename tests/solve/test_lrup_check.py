"""lrup-check on right and wrong proofs of several forms, its options, and how it ends.

Proofs are written by CaDiCaL, CryptoMiniSat and PicoSAT, by the example solver, and by hand. They
come from files, pipes and standard input, alone and several at once, in one round and in many. A
step that doesn't follow gives no verdict, and its line and clause are named."""
import contextlib
import fcntl
import os
import pty
import random
import re
import resource
import shlex
import shutil
import signal
import subprocess
import termios
import threading
import time
from gzip import compress
from pathlib import Path
from typing import Iterator, List, NamedTuple

import pytest

from harness import (FOUR, LIMIT, PROGRAM, VERDICTS, VERSION, ZCAT, Ran, example, executable, feed,
                     generated, named, needs, piped, run, started, until, written)
from lrat import lrat_fault
from proof_forms import read_formula
from solving import SOLVE, Answer, check, check_again, none_left, processes_of

pytestmark = pytest.mark.usefixtures("lrup_solve")
CHECK = SOLVE.with_name("lrup-check")
FIRST = "p cnf 2 1\n1 2 0\n"
PROOF = "2 0\n0\n"                      # of FOUR
SHORT = "1 2 0\n"                       # a step that follows from FOUR, which leaves it open
EARLY_END = "the proof ends without the empty clause"


def want_proved(answer: Answer, verdict: str = VERDICTS[0], status: int = 0) -> None:
    assert answer.answers == [verdict], answer.out
    assert (answer.status, answer.said) == (status, "")


def want_unknown(answer: Answer, cause: str) -> None:
    """There is no verdict, and the first comment says why."""
    assert answer.answers == ["s UNKNOWN"], answer.out
    assert (answer.status, answer.said) == (3, "")
    assert answer.comments[0] == cause


def check_texts(formula: str, proof: str, work: Path) -> Answer:
    """The answer on files with these texts."""
    return check([written(formula, work), written(proof, work, "proof")])


# Proofs by solvers.


CADICAL, CADICAL_TEXT = "cadical -q formula proof", "cadical -q --no-binary formula proof"
PICOSAT = "picosat formula -R proof"
SOLVERS = [CADICAL, CADICAL_TEXT, "cryptominisat5 --verb 0 formula proof", PICOSAT]


def proof_by(command: str, formula: Path, work: Path) -> Path:
    """A solver's proof. In the command, `formula` and `proof` stand for the files."""
    words, files = command.split(), {"formula": formula, "proof": work / "proof"}
    needs(words[0])
    assert run([files.get(word, word) for word in words]).status == 20
    return files["proof"]


class Solved(NamedTuple):
    """A formula, and CaDiCaL's proof."""
    formula: Path
    proof: Path


@pytest.fixture
def solved(tmp_path: Path) -> Solved:
    formula = generated("random 150 1", tmp_path)
    return Solved(formula, proof_by(CADICAL, formula, tmp_path))


@pytest.mark.parametrize("command", SOLVERS)
def test_a_solvers_proof_of_a_random_formula(command: str, tmp_path: Path) -> None:
    formula = generated("random 150 1", tmp_path)
    want_proved(check([formula, proof_by(command, formula, tmp_path)]))


@pytest.mark.parametrize("command", SOLVERS)
def test_a_solvers_proof_of_bounded_model_checking(command: str, tmp_path: Path) -> None:
    want_proved(check([example("bmc.cnf"), proof_by(command, example("bmc.cnf"), tmp_path)]))


def test_a_proof_from_standard_input(solved: Solved) -> None:
    with solved.proof.open("rb") as file:
        want_proved(check([solved.formula, "-"], stdin=file))


def test_a_formula_from_standard_input(solved: Solved) -> None:
    with solved.formula.open("rb") as file:
        want_proved(check(["-", solved.proof], stdin=file))


def test_a_proof_from_a_pipe(solved: Solved, tmp_path: Path) -> None:
    pipe = piped(tmp_path / "pipe")
    feed(pipe, [solved.proof.read_bytes()])
    want_proved(check([solved.formula, pipe]))


@pytest.mark.usefixtures("solve_for_tests")
def test_rounds(solved: Solved, tmp_path: Path) -> None:
    """The record of a check in several rounds is checked again."""
    kept = tmp_path / "kept"
    answer = check(["-v", "--proofs", kept, *solved], tested={"FIRST_WORDS": 4000, "SAME_WORDS": 1})
    want_proved(answer)
    assert sum(line.startswith("round ") for line in answer.comments) >= 2, answer.out
    check_again(kept)


def test_core_and_lrat(solved: Solved, tmp_path: Path) -> None:
    core, lrat = tmp_path / "core", tmp_path / "lrat"
    want_proved(check(["--core", core, "--lrat", lrat, *solved]))
    assert lrat_fault(read_formula(solved.formula), lrat.read_text()) == ""


# Streams, which cite each other, and proofs side by side.


@pytest.mark.parametrize("names", [["bmc.lrup"], [f"bmc-four.{stream}" for stream in range(1, 5)]],
                         ids=["one", "four"])
def test_the_example_solvers_streams(names: List[str]) -> None:
    want_proved(check([example("bmc.cnf"), *map(example, names)]))


def test_short_streams() -> None:
    """A filter reads each stream whole before it writes anything. One has no empty clause, and the
    other one needs its lines. Each run is another race."""
    streams = [example(f"pigeonhole-two.{stream}") for stream in (1, 2)]
    for _ in range(10):
        want_proved(check([example("pigeonhole.cnf"), "--time", "60", *streams]))


def test_a_truncated_proof_beside_three_proofs(tmp_path: Path) -> None:
    """The proofs are by two solvers, in three forms."""
    formula = generated("pigeons 6", tmp_path)
    proofs = [proof_by(command, formula, tmp_path).rename(tmp_path / f"proof-{number}")
              for number, command in enumerate((CADICAL, CADICAL_TEXT, PICOSAT))]
    cut = written("".join(proofs[1].read_text().splitlines(True)[:5]), tmp_path, "cut")
    answer = check([formula, cut, *proofs])
    want_proved(answer)
    assert [line for line in answer.comments if line.startswith(f"{cut}: ")] == [
        f"{cut}: {EARLY_END}"]


@pytest.mark.parametrize("comes_first", [True, False], ids=["before it", "after it"])
def test_a_proof_beside_one_that_cannot_be_read(comes_first: bool) -> None:
    """A read error of one proof, which ends its process, ends no other one: a good proof is
    checked. Each run is another race."""
    proofs = [example("pigeonhole.lrup"), "/proc/self/mem"][::1 if comes_first else -1]
    unread = "/proc/self/mem: it can't be read: Input/output error"
    for _ in range(10):
        answer = check([example("pigeonhole.cnf"), *proofs])
        want_proved(answer)
        # lrupd may have accepted the good proof before the other one is read.
        assert [line for line in answer.comments if "/proc" in line] in ([], [unread])


# Proofs by hand.


@pytest.mark.parametrize("formula, proof", named([
    ("DRUP", FOUR, PROOF), ("LRAT", FOUR, "5 2 0 1 2 0\n6 0 5 3 4 0\n"),
    ("no empty clause, and one follows", FOUR, "2 0\n"),
    ("an empty proof, and one follows", "p cnf 1 2\n1 0\n-1 0\n", "")]))
def test_a_proof_by_hand(formula: str, proof: str, tmp_path: Path) -> None:
    want_proved(check_texts(formula, proof, tmp_path))


@pytest.mark.parametrize("proof, said", named([
    ("right", "5 2 0 1 2 0\n6 0 5 3 4 0\n", []), ("none", "5 2 0 0\n6 0 0\n", []),
    ("one too many, which is unit", "5 2 0 1 2 0\n6 1 0 5 3 0\n7 0 6 5 4 0\n", []),
    ("one missing", "5 2 0 1 2 0\n6 0 5 3 0\n", ["1 line had other hints"]),
    ("another order", "5 2 0 1 2 0\n6 0 3 4 5 0\n", ["1 line had other hints"]),
    ("two lines", "5 2 0 2 0\n6 0 3 4 0\n", ["2 lines had other hints"])]))
def test_hints(proof: str, said: List[str], tmp_path: Path) -> None:
    """Wrong hints don't matter, since right ones are found, but a comment counts the lines that
    have them."""
    answer = check_texts(FOUR, proof, tmp_path)
    want_proved(answer)
    assert [line for line in answer.comments if "hints" in line] == said


@pytest.mark.parametrize("options, status", [
    ("--assume cube", 8), ("--assume=cube", 8),
    ("--assume cube --expect unsat-under-assumptions", 0)])
def test_a_proof_under_assumptions(options: str, status: int, tmp_path: Path) -> None:
    written("1 -3 0\n", tmp_path, "cube")
    written("p cnf 3 2\n-1 2 0\n-2 3 0\n", tmp_path, "formula")
    written("-1 3 0\n", tmp_path, "proof")
    answer = check([*options.split(), "formula", "proof"], cwd=tmp_path)
    want_proved(answer, VERDICTS[8], status)


def test_a_proof_without_the_assumptions_that_are_given(tmp_path: Path) -> None:
    words = ["--assume", written("1 0\n", tmp_path, "cube"), written(FOUR, tmp_path)]
    want_proved(check([*words, written(PROOF, tmp_path, "proof")]))


# Faulty proofs.


NONE = "no conflict by unit propagation: the clause "
RAT = " is a RAT step, which lrupd doesn't check"
NOT_RAT = " doesn't follow from those that weren't deleted, and it isn't RAT"
TRYING = "trying whether it would follow if no clause had been deleted before it"
WOULD, WOULD_NOT = "it would: see lrup-exact's --ignore-deletions", "it wouldn't"
TOO_EARLY = "d 1 2 0\n2 0\n"            # of FOUR: a deletion
FAULT = f"line 2: {NONE}2 0{NOT_RAT}"


@pytest.mark.parametrize("option", ["--time=100", "-v"])
@pytest.mark.parametrize("formula, proof, said", named([
    ("a clause that doesn't follow", "p cnf 2 3\n1 2 0\n-1 2 0\n1 -2 0\n", "2 0\n-1 0\n",
     [f"line 2: {NONE}-1 0{NOT_RAT}", TRYING, WOULD_NOT]),
    ("a RAT step", FIRST, "1 0\n", [f"line 1: {NONE}1 0{RAT}"]),
    ("a deletion that came too early", FOUR, TOO_EARLY, [FAULT, TRYING, WOULD]),
    ("the same in LRAT", FOUR, "4 d 1 0\n5 2 0 0\n", [FAULT, TRYING, WOULD]),
    ("the same in FRAT", FOUR, "o 1 1 2 0\no 2 -1 2 0\nd 1 1 2 0\na 5 2 0\n",
     [FAULT.replace("2", "4", 1), TRYING, WOULD]),
    ("the same in binary", FOUR, "d\2\4\0a\4\0",
     [FAULT.replace("line 2", "step 2, byte 5"), TRYING, WOULD]),
    ("a proof that ends early", FOUR, SHORT, [EARLY_END]),
    ("a new variable", FIRST, "3 0\n",
     ["line 1: a variable that the formula doesn't have: 3, above the header's 2"])]))
def test_a_faulty_proof(formula: str, proof: str, said: List[str], option: str,
                        tmp_path: Path) -> None:
    """There are a line that shows the step, and one or two on a trial without deletions."""
    path = written(proof, tmp_path, "proof")
    answer = check([option, written(formula, tmp_path), path])
    assert (answer.answers, answer.said, answer.status) == (["s UNKNOWN"], "", 3)
    assert [line for line in answer.comments if line.startswith(f"{path}:")] == [
        f"{path}: {line}" for line in said]


def test_a_faulty_proof_is_not_tried_if_nothing_is_said(tmp_path: Path) -> None:
    answer = check(["-q", written(FOUR, tmp_path), written(TOO_EARLY, tmp_path, "proof")])
    assert answer.ran == Ran("s UNKNOWN\n", "", 3)


# Clauses that take a filter some time, and that no other clause needs.
LONG, MANY = "p cnf 5 4\n1 2 0\n-1 2 0\n3 4 0\n-2 5 0\n", "3 4 0\n" * 300000


def time_of_filters(proof: str, work: Path) -> float:
    """Seconds of processor time, as the last line says."""
    found = re.search(r"filters (\d+\.\d+)", check_texts(LONG, proof, work).comments[-1])
    assert found
    return float(found[1])


def test_the_trials_processor_time_is_counted(tmp_path: Path) -> None:
    """A RAT step isn't tried."""
    untried = time_of_filters(MANY + "3 0\n", tmp_path)
    assert time_of_filters(MANY + TOO_EARLY, tmp_path) > 1.5 * untried


def test_a_trial_ends_at_the_step(tmp_path: Path) -> None:
    """Steps after it cost no processor time."""
    def used() -> float:
        return resource.getrusage(resource.RUSAGE_CHILDREN).ru_utime

    before = used()
    check_texts(LONG, MANY, tmp_path)
    whole = used() - before
    answer = check_texts(LONG, TOO_EARLY + 3 * MANY, tmp_path)
    assert answer.comments[1:3] == [f"{tmp_path}/proof: {line}" for line in (TRYING, WOULD)]
    assert used() - before - whole < whole


@contextlib.contextmanager
def begun_trial(words: List[str], work: Path) -> Iterator["subprocess.Popen[str]"]:
    """A check of a packed proof, which is unpacked once: a trial never gets a byte. The step, and
    that it is tried, is said at once."""
    gzip = executable(f"if [ -e {work}/unpacked ]; then exec sleep 100; fi\n"
                      f'touch {work}/unpacked\nexec {shutil.which("gzip")} "$@"', work / "bin",
                      "gzip")
    proof = work / "proof.gz"
    proof.write_bytes(compress(TOO_EARLY.encode()))
    with started([CHECK, "--lrupd", PROGRAM, *words, written(FOUR, work), proof], text=True,
                 stdout=subprocess.PIPE, stderr=subprocess.PIPE,
                 env={**os.environ, "PATH": f"{gzip.parent}:{os.environ['PATH']}"}) as running:
        assert running.stdout
        assert [running.stdout.readline() for _ in range(2)] == [
            f"c {proof}: {line}\n" for line in (FAULT, TRYING)]
        yield running


@pytest.mark.parametrize("words", [[], ["--time", "100"]], ids=" ".join)
def test_a_trial_that_takes_too_long(words: List[str], mark: str, tmp_path: Path) -> None:
    """It ends after a second, which counts, or after as much time as the check has taken."""
    with begun_trial(words, tmp_path) as running:
        out, said = running.communicate(timeout=LIMIT)
    comments = Answer(Ran(out, said, running.returncode)).comments
    assert comments[0] == f"{tmp_path}/proof.gz: that isn't known"
    assert float(comments[-1].split()[0]) >= 1
    assert (said, running.returncode) == ("", 3)
    none_left(mark)


def test_a_signal_ends_a_trial(mark: str, tmp_path: Path) -> None:
    with begun_trial([], tmp_path) as running:
        running.terminate()
        out, said = running.communicate(timeout=LIMIT)
    assert (out.splitlines()[-1], said, running.returncode) == ("s UNKNOWN", "", -signal.SIGTERM)
    none_left(mark)


NO_STEP = "line 1: neither a step of LRAT text nor one of DRUP or DRAT text"
each_file_that_is_no_proof = pytest.mark.parametrize("proof, cause", named([
    ("empty", b"", EARLY_END), ("comments", b"c nothing\n\n", EARLY_END),
    ("gzip", b"\x1f\x8b garbled", f"byte 1: compressed: unpack it with {ZCAT}"),
    ("xz", b"\xfd7zXZ\0 garbled",
     "byte 1: compressed: unpack it with xzcat, or end its name with .xz"),
    ("zip", b"PK\3\4\x14\0\xff", "line 1: neither text nor a binary proof"),
    ("a program", b"\x7fELF\2\1\1\0\0\xff", "line 1: neither text nor a binary proof"),
    ("a formula", FIRST.encode(), NO_STEP), ("an answer", b"s UNSATISFIABLE\n", NO_STEP)]))


@each_file_that_is_no_proof
def test_a_file_that_is_no_proof_gives_no_answer(proof: bytes, cause: str, tmp_path: Path) -> None:
    path = written(proof, tmp_path, "proof")
    answer = check([written(FIRST, tmp_path), path])
    assert (answer.answers, answer.status) == ([], 1), answer.out
    assert answer.said == f"lrup-check: {path}: {cause}\n"


@each_file_that_is_no_proof
def test_a_file_that_is_no_proof_does_not_count_beside_a_proof(proof: bytes, cause: str,
                                                               tmp_path: Path) -> None:
    """The proof has a step that doesn't follow."""
    path, other = written(proof, tmp_path, "proof"), written("-2 0\n", tmp_path, "other")
    answer = check([written(FIRST, tmp_path), path, other])
    assert (answer.answers, answer.said, answer.status) == (["s UNKNOWN"], "", 3)
    assert any(line == f"{path}: {cause}" for line in answer.comments)


@pytest.mark.parametrize("seed", [1, 2, 3])
def test_a_proof_of_another_formula(seed: int, tmp_path: Path) -> None:
    """It never refutes a satisfiable one."""
    (tmp_path / "other").mkdir()
    other = generated(f"random 60 {seed} 6.0", tmp_path / "other")
    proof = proof_by(CADICAL_TEXT, other, tmp_path)
    answer = check([generated(f"random 60 {seed} 3.0", tmp_path), proof])
    assert (answer.answers, answer.status) == (["s UNKNOWN"], 3), answer.out


@pytest.mark.parametrize("seed", range(1, 41))
def test_a_mutated_proof(seed: int, tmp_path: Path) -> None:
    """There is a verdict only if all lines follow, as another checker confirms for the LRAT
    text."""
    formula, numbers = generated(f"random 40 {seed} 7.0", tmp_path), random.Random(seed)
    lines = proof_by(CADICAL_TEXT, formula, tmp_path).read_text().splitlines(True)
    for at in numbers.choices([at for at, line in enumerate(lines) if line != "0\n"], k=3):
        words = lines[at].split()
        words[numbers.randrange(len(words) - 1)] = str(
            numbers.choice((-1, 1)) * numbers.randrange(1, 41))
        lines[at] = " ".join(words) + "\n"
    proof, lrat = written("".join(lines), tmp_path, "proof"), tmp_path / "lrat"
    answer = check(["--lrat", lrat, formula, proof])
    assert answer.status in (0, 3), answer.out
    if answer.status == 0:
        assert lrat_fault(read_formula(formula), lrat.read_text()) == ""


# Words and statuses.


def check_with(options: str, proof: str, work: Path) -> Answer:
    return check([*options.split(), written(FOUR, work), written(proof, work, "proof")], cwd=work)


@pytest.mark.parametrize("options, status", [
    ("", 0), ("--expect unsat", 0), ("-q --expect unsat", 0), ("--proofs=--expect", 0),
    ("--proofs=--assume --", 0), ("--expect unsat-under-assumptions", 1)])
def test_status_of_a_proof(options: str, status: int, tmp_path: Path) -> None:
    """It is 0 unless another answer is expected. Values after = may look like options."""
    answer = check_with(options, PROOF, tmp_path)
    assert (answer.answers, answer.status) == (["s UNSATISFIABLE"], status), answer.said


@pytest.mark.parametrize("options, status", [
    ("-q", 3), ("--expect=unsat", 1), ("--expect unsat", 1),
    ("--proofs=--expect", 3), ("--proofs=--help", 3)])
def test_status_of_a_proof_that_ends_early(options: str, status: int, tmp_path: Path) -> None:
    """It isn't 0, whatever words there are."""
    answer = check_with(options, SHORT, tmp_path)
    assert (answer.answers, answer.status) == (["s UNKNOWN"], status), answer.said


NO_PROOF = "no proof: lrup-check FORMULA PROOF"
STARTS_NONE = "is lrup-solve's: lrup-check starts no engine"


@pytest.mark.parametrize("words, said", [
    ("formula", NO_PROOF), ("", NO_PROOF),
    ("none proof", "none: No such file or directory"),
    ("formula none", "none: No such file or directory"), ("formula folder", "folder is a folder"),
    ("- -", "standard input can be read only once"),
    ("--mpi mpirun formula proof", f"--mpi {STARTS_NONE}"),
    ("--solver 'x %formula %proof' formula proof", f"--solver {STARTS_NONE}"),
    ("--seed 1 formula proof", f"--seed {STARTS_NONE}"),
    ("--share-size 4 formula proof", f"--share-size {STARTS_NONE}"),
    ("--no-share formula proof", f"--no-share {STARTS_NONE}"),
    ("formula proof --seed=1", f"--seed {STARTS_NONE}"),
    ("-j 0 formula proof", "-j takes 1 to 64, not 0"),
    ("--proofs --expect=unsat formula proof", "no value after --proofs"),
    ("--expect sat formula proof",
     "--expect takes unsat or unsat-under-assumptions, not sat")])
def test_words_that_are_refused(words: str, said: str, tmp_path: Path) -> None:
    written(FOUR, tmp_path, "formula")
    written("0\n", tmp_path, "proof")
    (tmp_path / "folder").mkdir()
    answer = check(shlex.split(words), cwd=tmp_path)
    assert (answer.out, answer.said, answer.status) == ("", f"lrup-check: {said}\n", 1)


def test_help() -> None:
    answer = check(["--help"])
    assert answer.out.startswith("usage: lrup-check [OPTIONS] FORMULA PROOF")
    assert (answer.said, answer.status) == ("", 2)


def test_version() -> None:
    answer = check(["--version"])
    assert answer.out == f"lrup-check {VERSION}\n"
    assert (answer.said, answer.status) == ("", 2)


def test_names_that_begin_with_a_minus(tmp_path: Path) -> None:
    """They follow `--`. The command is a link, in another folder than the program."""
    link = tmp_path / "link"
    link.symlink_to(CHECK)
    written(FOUR, tmp_path, "-formula")
    written(PROOF, tmp_path, "-proof")
    want_proved(Answer(run([link, "--lrupd", PROGRAM, "--", "-formula", "-proof"], cwd=tmp_path)))


def test_without_lrup_solve(tmp_path: Path) -> None:
    program = Path(shutil.copy(CHECK, tmp_path))
    assert run([program, written(FOUR, tmp_path), "/dev/null"]) == Ran(
        "", f"lrup-check: cannot start {tmp_path}/lrup-solve: No such file or directory\n", 1)


def test_it_is_no_script() -> None:
    """A shell that can't read a script ends with 0, which is a verdict."""
    assert CHECK.read_bytes()[:4] == b"\x7fELF"


# Pipes, terminals and signals.


def test_a_pipe_without_a_writer(tmp_path: Path) -> None:
    """The run ends after --time."""
    formula, pipe, began = written(FOUR, tmp_path), piped(tmp_path / "pipe"), time.monotonic()
    want_unknown(check(["--time", "1", formula, pipe]), "time is up")
    assert time.monotonic() - began < 6


def test_a_pipe_whose_writer_is_late(tmp_path: Path) -> None:
    formula, pipe = written(FOUR, tmp_path), piped(tmp_path / "pipe")
    writer = threading.Timer(1, pipe.write_text, [PROOF])
    writer.daemon = True
    writer.start()
    want_proved(check([formula, pipe]))


def test_process_substitution(tmp_path: Path) -> None:
    formula, proof = written(FOUR, tmp_path), written(PROOF, tmp_path, "proof")
    want_proved(Answer(run(["bash", "-c", '"$0" --lrupd "$1" <(cat "$2") <(cat "$3")', CHECK,
                            PROGRAM, formula, proof])))


@pytest.mark.parametrize("name, shown", [("-", "standard input"), ("/dev/stdin", "/dev/stdin"),
                                         ("/dev/tty", "/dev/tty")])
def test_a_proof_at_a_terminal(name: str, shown: str, tmp_path: Path) -> None:
    """The process that would read the proof is in the background, where a terminal stops it."""
    leader, terminal = pty.openpty()

    def take_terminal() -> None:
        os.setsid()
        fcntl.ioctl(0, termios.TIOCSCTTY, 0)

    try:
        answer = check([written(FOUR, tmp_path), name], stdin=terminal, preexec_fn=take_terminal,
                       limit=20)
    finally:
        os.close(leader)
        os.close(terminal)
    said = f"lrup-check: {shown} is a terminal: name a file, or use a pipe\n"
    assert answer.ran == Ran("", said, 1)


@pytest.mark.parametrize("number", [signal.SIGTERM, signal.SIGINT, signal.SIGHUP, signal.SIGKILL],
                         ids=lambda number: str(number.name))
def test_a_signal_ends_the_whole_run(number: signal.Signals, mark: str, tmp_path: Path) -> None:
    pipe = piped(tmp_path / "pipe")
    with started([CHECK, "--lrupd", PROGRAM, written(FOUR, tmp_path), pipe],
                 stdout=subprocess.PIPE, stderr=subprocess.PIPE, text=True) as running:
        until("it runs", lambda: len(processes_of(mark)) >= 6)
        running.send_signal(number)
        out, said = running.communicate(timeout=20)
    answers = [line for line in out.splitlines() if line.startswith("s ")]
    assert (running.returncode, said) == (-number, "")
    assert answers == ([] if number == signal.SIGKILL else ["s UNKNOWN"])
    none_left(mark)
