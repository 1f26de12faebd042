"""Runs lrup-solve --mpi in two to eight processes on one host, and under failures between them.

Runs find each answer, with and without sharing, with rows so small that a run takes many rounds,
and with a record; or they are refused. Each kind of process is killed or stopped, in process 0 and
in another one, and so are mpirun and the front. Tests with long waits or races are marked as long,
and `make test` leaves them out. Without MPI, or mpirun, everything is skipped."""
import contextlib
import itertools
import os
import random
import re
import shlex
import shutil
import signal
import subprocess
import time
from pathlib import Path
from typing import Dict, List, Mapping, Optional, Sequence, Set

import pytest

from harness import (FILTERS, FOUR, LIBRARY, ROOT, SUPPORT, Ran, compiled, dimacs, example,
                     generated, lacking, named, output_of, random_clauses, run, until, written)
from lrat import lrat_fault
from proof_forms import read_formula
from records import recorded, saved_rounds, way_on, whole
from solving import (Answer, built, check_again, children_of, command, end_of, in_environment,
                     is_alive, marked, of_process, says, want_answer)

# Now and then mpirun itself (Open MPI 4.1.4) ends by a segmentation fault after the answer: it
# calls code that isn't mapped any more. It says so on standard error, where tests want nothing.
pytestmark = [pytest.mark.usefixtures("mpi"), pytest.mark.flaky(reruns=2)]
# Rows that don't grow, and frequent exchanges.
SMALL = {"SAME_WORDS": 1, "SLICE": 100, "EXCHANGING": 50}
# Seconds that mpirun waits before it kills processes, so that they can still report the cause.
PATIENCE = ["--mca", "odls_base_sigkill_timeout", "3"]
ENDED = 30      # seconds within which a hopeless run has to end; it takes ten on an idle machine
# Words before a command that delay it in process 0.
LATE = ["sh", "-c", 'test "$OMPI_COMM_WORLD_RANK" != 0 || sleep 2; exec "$@"', "sh"]
BROKEN = "bad line|hasn't accepted|hasn't saved"
# The cause is whichever of these is seen first.
ENGINE_KILLED = "the engine ended by a signal: Killed|its filter stopped: .*the proof ends "
LRUPD_KILLED = "lrupd ended by a signal: Killed"
GROWING = 16_000_000    # bytes: two streams with 4 MB on the way, 2 MB waiting, and the pipes


@pytest.fixture(scope="session")
def mpi() -> None:
    if not shutil.which("mpirun") or "Open MPI" not in run(["mpirun", "--version"]).out:
        lacking("all of lrup-solve --mpi: no mpirun of Open MPI is on the PATH: in Debian the "
                "package openmpi-bin")
    built("solve-mpi", for_tests=False)


@pytest.fixture(scope="session")
def mpi_for_tests(mpi: None) -> None:
    """For tests that set hooks."""
    built("solve-mpi", for_tests=True)


def by_mpi(processes: int, before: Sequence[str] = (), more: Sequence[str] = ()) -> List[str]:
    """Words that start that many processes on this host, even as root; for 0 processes, no words.
    mpirun's own lines are left out."""
    as_root = ["--allow-run-as-root"] * (os.getuid() == 0)
    launcher = ["mpirun", "-q", *as_root, "--oversubscribe", "--bind-to", "none", *more, "-n",
                str(processes), *before]
    return ["--mpi", shlex.join(launcher)] if processes else []


def launched(processes: int, words: Sequence[object], tested: Optional[Mapping[str, object]] = None,
             before: Sequence[str] = (), more: Sequence[str] = ()) -> List[str]:
    return command([*by_mpi(processes, before, more), *words], tested)


def solve(processes: int, words: Sequence[object], tested: Optional[Mapping[str, object]] = None,
          env_more: Optional[Mapping[str, str]] = None) -> Answer:
    return Answer(run(launched(processes, words, tested), env=in_environment(tested, env_more)))


def formula_of(words: str, work: Path) -> Path:
    return example(words) if words.endswith(".cnf") else generated(words, work)


def rounds_of(answer: Answer) -> int:
    found = re.search(r" engines?, (\d+) rounds with ", answer.comments[-1])
    return int(found[1]) if found else 1


def of_processes(answer: Answer, what: str) -> List[int]:
    """This figure in the line of each process."""
    return [int(number.replace(",", ""))
            for number in re.findall(rf"^c process \d+: .*?([\d,]+) {what}", answer.out, re.M)]


def test_an_exchange_without_mpi(tmp_path: Path) -> None:
    """Sends and places clauses without MPI."""
    tool = ROOT / "tools" / "lrup-engines"
    includes = [f"-I{folder}" for folder in (tool, LIBRARY, FILTERS)]
    outbox = compiled(tmp_path / "outbox.o", [tool / "outbox.c"], "-std=c11", "-c", *includes)
    sources = [SUPPORT / "exchange.cpp", tool / "mpi" / "mpi_exchange.cpp", outbox]
    output_of(run([*shlex.split(os.environ.get("CXX", "c++")), "-std=c++17", "-Wall", "-Wextra",
                   "-o", tmp_path / "exchange", *includes, *sources]))
    assert run([tmp_path / "exchange"]) == Ran("", "", 0)


# Answers.


each_small_formula = pytest.mark.parametrize("words, status", [
    ("bmc.cnf", 20), ("pigeonhole.cnf", 20), ("random 200 22 4.2", 10)])


def assert_solved(processes: int, engines: int, words: str, status: int, work: Path,
                  options: Sequence[str] = ()) -> None:
    """No engine is lost, and each is listed."""
    formula = formula_of(words, work)
    answer = solve(processes, ["-v", "-j", engines, *options, formula])
    want_answer(answer, status, formula)
    assert answer.lost() == []
    listed = [line for line in answer.comments if re.match(r"engine \d+: ", line)]
    assert len(listed) == processes * engines


@pytest.mark.parametrize("processes", [1, 2, 4])
@each_small_formula
def test_small_formulas(words: str, status: int, processes: int, tmp_path: Path) -> None:
    assert_solved(processes, 1, words, status, tmp_path)


@pytest.mark.long
@pytest.mark.parametrize("processes, engines", [(2, 2), (8, 1)])
@each_small_formula
def test_small_formulas_and_many_engines(words: str, status: int, processes: int, engines: int,
                                         tmp_path: Path) -> None:
    assert_solved(processes, engines, words, status, tmp_path)


@pytest.mark.long
@pytest.mark.parametrize("processes, engines", [(1, 1), (2, 1), (2, 2), (4, 1), (8, 1)])
def test_pigeons(processes: int, engines: int, tmp_path: Path) -> None:
    assert_solved(processes, engines, "pigeons 9", 20, tmp_path)


@pytest.mark.long
def test_nothing_is_shared(tmp_path: Path) -> None:
    assert_solved(2, 1, "pigeons 8", 20, tmp_path, ["--no-share"])


# On a busy machine few clauses may come in time, so that 0 % of the lines cite them.
@pytest.mark.flaky(reruns=2)
@pytest.mark.long
@pytest.mark.usefixtures("mpi_for_tests")
@pytest.mark.parametrize("options, is_shared", [([], True), (["--no-share"], False)],
                         ids=["shared", "not shared"])
def test_clauses_are_sent(options: List[str], is_shared: bool, tmp_path: Path) -> None:
    """Clauses that are sent arrive or are late; some are used. Without sharing, none are sent."""
    answer = solve(3, ["-v", "-j", "1", *options, generated("pigeons 8", tmp_path)],
                   {"EXCHANGING": 50})
    want_answer(answer, 20)
    sent, came = of_processes(answer, "sent"), of_processes(answer, "received")
    citing = of_processes(answer, "% of lines cite another process")
    assert (len(sent), len(came)) == (3, 3), answer.out
    assert (all(sent), all(came), any(citing)) == (is_shared, is_shared, is_shared), answer.out
    # Each clause is sent to two others.
    assert sum(came) + sum(of_processes(answer, "late")) <= 2 * sum(sent), answer.out


@pytest.mark.long
@pytest.mark.usefixtures("mpi_for_tests")
def test_cubes(tmp_path: Path) -> None:
    """Each process divides the formula among its engines; process 0 reports its own."""
    answer = solve(2, ["-v", "-j", "3", generated("pigeons 9", tmp_path)], {"SLICE": 20})
    want_answer(answer, 20)
    assert answer.lost() == []
    assert "engines take cubes" in answer.comments


@pytest.mark.long
@pytest.mark.usefixtures("mpi_for_tests")
@pytest.mark.parametrize("processes, engines", [(2, 1), (3, 1), (2, 3)])
def test_cubes_of_a_file(processes: int, engines: int, tmp_path: Path) -> None:
    """Engines of all processes take cubes, and process 0 knows which cubes are refuted."""
    formula, kept = generated("random 200 3 4.6", tmp_path), tmp_path / "kept"
    signs = itertools.product(*((-one, one) for one in range(1, 7)))
    file = written("".join(f"a {' '.join(map(str, cube))} 0\n" for cube in signs), tmp_path,
                   "cubes")
    answer = solve(processes, ["-v", "-j", engines, "--proofs", kept, "--cubes", file, formula],
                   {"SLICE": 20, "EXCHANGING": 10})
    want_answer(answer, 20)
    check_again(kept)
    assert answer.lost() == []
    refuted, dealt = (int(re.findall(pattern, answer.out, re.M)[0])
                      for pattern in (r"^c (\d+) of 64 cubes refuted$", r"^c cubes: (\d+) "))
    assert dealt > 0, "cubes of process 0"
    if engines == 1:    # of several, some halve cubes, and each half counts
        assert dealt < 64, "cubes of process 0"
    assert refuted >= 64 - processes * engines, "cubes of all"


@pytest.mark.long
@pytest.mark.usefixtures("mpi_for_tests")
def test_assumptions(tmp_path: Path) -> None:
    """The formula without assumptions is satisfiable."""
    clauses = [[9999, *clause] for clause in random_clauses(random.Random(7), 130, 600)]
    formula = written(dimacs(9999, clauses), tmp_path)
    for literal, status in (("-9999", 20), ("9999", 10)):
        cube = written(f"{literal} 0\n", tmp_path, "cube")
        answer = solve(2, ["-j", "1", "--assume", cube, formula], {**SMALL, "FIRST_WORDS": 3000})
        want_answer(answer, status, formula,
                    "s UNSATISFIABLE UNDER ASSUMPTIONS" if status == 20 else None)


@pytest.mark.long
def test_engines_go(tmp_path: Path) -> None:
    """If a row has no room for everyone's clauses, engines of other processes end, too; the last
    engine stays."""
    kept = tmp_path / "kept"
    answer = solve(3, ["-v", "-j", "1", "--memory", "20K,100K", "--proofs", kept,
                       generated("pigeons 8", tmp_path)])
    want_answer(answer, 20)
    check_again(kept)
    causes = [line.split(" is lost: ")[1] for line in answer.lost()]
    assert len(causes) in (1, 2), answer.out
    assert set(causes) == {"the clauses of all engines leave no room in a row of 100,000 bytes"}


@pytest.mark.long
def test_time_is_up(tmp_path: Path) -> None:
    answer = solve(2, ["-j", "1", "--time", "2", generated("pigeons 11", tmp_path)])
    want_answer(answer, 0)
    assert "time is up" in answer.comments


# Cores, rounds and records.


def assert_core(processes: int, words: str, work: Path,
                tested: Optional[Mapping[str, object]] = None) -> None:
    """The core comes from the streams of all processes, which process 0 keeps in the run's
    folder."""
    formula, files = generated(words, work), work / "temporary"
    files.mkdir()
    core, lrat = work / "core.cnf", work / "proof.lrat"
    answer = solve(processes, ["-j", "1", "--core", core, "--lrat", lrat, formula], tested,
                   {"TMPDIR": str(files)})
    want_answer(answer, 20)
    for path in (core, lrat):
        assert f"{path}: lrupd's verdict: s UNSATISFIABLE" in answer.comments
    clauses = read_formula(formula)
    assert [clause for clause in read_formula(core) if clause not in clauses] == []
    assert lrat_fault(clauses, lrat.read_text()) == ""
    until("its files are removed", lambda: not list(files.glob("lrup-solve-*")))


def test_a_core(tmp_path: Path) -> None:
    assert_core(2, "pigeons 6", tmp_path)


@pytest.mark.long
@pytest.mark.usefixtures("mpi_for_tests")
def test_a_core_of_rounds(tmp_path: Path) -> None:
    assert_core(3, "random 170 4", tmp_path, {**SMALL, "FIRST_WORDS": 36000})


def assert_solved_in_rounds(processes: int, words: str, size: int, status: int, work: Path,
                            options: Sequence[str] = ()) -> None:
    """Several rounds in all processes; the record is checked again."""
    formula, kept = formula_of(words, work), work / "a record"
    answer = solve(processes, ["-v", "-j", "1", "--proofs", kept, *options, formula],
                   {**SMALL, "FIRST_WORDS": size})
    want_answer(answer, status, formula)
    assert answer.lost() == []
    if status == 20:
        assert rounds_of(answer) >= 4, answer.out
        check_again(kept)


@pytest.mark.long
@pytest.mark.usefixtures("mpi_for_tests")
@pytest.mark.parametrize("processes", [1, 2, 4])
@pytest.mark.parametrize("words, size, status", named([
    ("bmc", "bmc.cnf", 1500, 20), ("pigeonholes", "pigeons 8", 20000, 20),
    ("random", "random 170 4", 12000, 20), ("satisfiable", "random 260 5 4.15", 30000, 10)]))
def test_rounds(words: str, size: int, status: int, processes: int, tmp_path: Path) -> None:
    """The size of a row is for each engine."""
    assert_solved_in_rounds(processes, words, size * processes, status, tmp_path)


@pytest.mark.long
@pytest.mark.usefixtures("mpi_for_tests")
def test_rounds_without_sharing(tmp_path: Path) -> None:
    assert_solved_in_rounds(2, "pigeons 8", 40000, 20, tmp_path, ["--no-share"])


def assert_resumed(processes: int, kept: Path, formula: Path, options: Sequence[str],
                   tested: Optional[Mapping[str, object]], work: Path) -> None:
    """A run with this many processes goes on from the saved rounds, to the whole proof."""
    saved = saved_rounds(kept)
    answer = solve(processes, ["-v", "-j", "1", *options, "--resume", kept, formula], tested)
    want_answer(answer, 20)
    assert answer.lost() == []
    assert says(answer, f"^{kept}: round {saved} begins, with "), answer.out
    assert says(answer, "^lrupd has read what was saved"), answer.out
    whole(kept, formula, work)


OFTEN = ["--save-every", "0.1"]


def test_a_killed_run_is_resumed(tmp_path: Path) -> None:
    marked(tmp_path)
    formula, kept = generated("pigeons 8", tmp_path), tmp_path / "kept"
    recorded([*by_mpi(2), "-j", "1", *OFTEN, formula], kept, 1, None)
    assert_resumed(2, kept, formula, OFTEN, None, tmp_path)


@pytest.mark.long
@pytest.mark.usefixtures("mpi_for_tests")
@pytest.mark.parametrize("first, second", [(2, 2), (2, 4), (0, 3), (3, 0), (1, 2)])
def test_a_killed_run_is_resumed_by_other_processes(first: int, second: int,
                                                    tmp_path: Path) -> None:
    """0 means without MPI."""
    marked(tmp_path)
    tested = {**SMALL, "FIRST_WORDS": 20000}
    formula, kept = generated("pigeons 8", tmp_path), tmp_path / "kept"
    recorded([*by_mpi(first), "-j", "1", formula], kept, 1, tested)
    assert_resumed(second, kept, formula, [], tested, tmp_path)


@pytest.mark.long
@pytest.mark.usefixtures("mpi_for_tests")
@pytest.mark.parametrize("rule, late", [("lateness", "gifts"), ("passing", "saved")])
def test_late_messages(rule: str, late: str, tmp_path: Path) -> None:
    """They break nothing, and are dropped. Without this rule, nearly all runs break."""
    broken = 0
    for seed in range(3):
        words = ["-v", "-j", "1", generated(f"random 250 {seed} 5", tmp_path)]
        tested = {**SMALL, "FIRST_WORDS": 150000, "EXCHANGING": 10, "LATE": late}
        answer = solve(3, words, tested)
        want_answer(answer, 20)
        assert not says(answer, BROKEN), answer.out
        assert sum(of_processes(answer, "late")) > 0, answer.out
        without = {**tested, "WITHOUT": rule, "TRIES": 20000}
        broken += says(solve(3, ["--time", "20", *words], without), BROKEN)
    assert broken > 1, f"{broken} of 3 runs broke without the rule"


@pytest.mark.long
@pytest.mark.usefixtures("mpi_for_tests")
@pytest.mark.parametrize("more, takes_over", named([
    ("with the rule", {}, False), ("without the rule", {"WITHOUT": "clearing"}, True)]))
def test_lines_come_before_what_follows_from_them(more: Mapping[str, object], takes_over: bool,
                                                  tmp_path: Path) -> None:
    """Streams are sent only once they are whole, and clauses that rest on them only after that: in
    a run of one round, engine 1 gets no clause. Without the rule, it gets some."""
    tested = {**SMALL, "FIRST_WORDS": 8000000, "EXCHANGING": 10, "LATE": "lines", **more}
    answer = solve(3, ["-v", "-j", "1", generated("random 220 0 5", tmp_path)], tested)
    want_answer(answer, 20)
    taken = re.search("^c engine 1: .* clauses: ([0-9,]+) taken over", answer.out, re.M)
    assert (taken is not None and taken[1] != "0") == takes_over, answer.out


# Refusals.


@pytest.mark.parametrize("processes, words, said, before", named([
    ("65 engines", 5, ["-j", "13"], "65 engines in all processes: at most 64", []),
    ("no engine", 3, ["-j", "0"], "-j takes 1 to 64, not 0", []),
    ("no engine, process 0 is late", 3, ["-j", "0"], "-j takes 1 to 64, not 0", LATE),
    ("another word", 3, ["-j", "1", "--", "{tmp_path}/none"], "unexpected argument: formula.cnf",
     []),
    ("a solver", 2, ["--solver", "cadical %formula %proof"],
     "--solver and --mpi: a solver shares nothing with engines elsewhere", [])]))
def test_words_that_are_refused(processes: int, words: List[str], said: str, before: Sequence[str],
                                tmp_path: Path) -> None:
    """The message is one line, from process 0, even if that process starts after the others. The
    formula is the last word."""
    given = [word.format(tmp_path=tmp_path) for word in words]
    done = run(launched(processes, [*given, written(FOUR, tmp_path)], before=before))
    assert (done.out, done.status) == ("", 1)
    assert re.sub(r"/\S*/", "", done.err) == f"lrup-solve: {said}\n"


@pytest.mark.parametrize("word, beginning", [
    ("--help", "usage: lrup-solve "), ("--version", "lrup-solve ")])
def test_help_and_version(word: str, beginning: str) -> None:
    """The text is printed once."""
    out = output_of(run(launched(3, [word])))
    assert out.startswith(beginning)
    assert out.count(beginning) == 1


def test_a_formula_that_lrupd_refuses(tmp_path: Path) -> None:
    """The message has lrupd's words, with details about the file."""
    formula = written("p cnf 2 1\n1 3 0\n", tmp_path)
    assert solve(2, ["-j", "1", formula]).ran == Ran(
        "", f"lrupd: formula refused: variable out of range in line 2 ({formula}, line 2: variable "
        "3, above the header's 2: the header should be 'p cnf 3 1')\n", 1)


@pytest.mark.parametrize("body, end", [
    ("echo why >&2; exit 1", "with status 1"),
    ("echo why >&2; kill -KILL $$", "by a signal: Killed")])
def test_nothing_is_started(body: str, end: str, tmp_path: Path) -> None:
    """MPI's command ends before any process exists, like mpirun when it refuses root."""
    assert run(command(["--mpi", f"sh -c '{body}' sh", written(FOUR, tmp_path)])) == Ran(
        f"c MPI's command ended {end}\ns UNKNOWN\n", "why\n", 0)


# Deaths.


class Running:
    """A long run, with the ids of its processes, by name, for each MPI process; the front and its
    children are among those of process 0. The front is killed when the block is left."""

    def __init__(self, formula: Path, processes: int, tested: Optional[Mapping[str, object]] = None,
                 more: Sequence[str] = (), options: Sequence[object] = ()) -> None:
        words = launched(processes, ["-v", "-j", "1", *options, formula], tested, more=more)
        self.folder = formula.parent / "temporary"
        self.folder.mkdir()
        self.processes = processes
        self.main = subprocess.Popen(words, stdout=subprocess.PIPE, stderr=subprocess.PIPE,
                                     text=True,
                                     env=in_environment(tested, {"TMPDIR": str(self.folder)}))
        self.ids: List[Dict[str, int]] = []

    def __enter__(self) -> "Running":
        try:
            until("processes at work", self.is_at_work)
        except AssertionError:
            self.__exit__()
            raise
        return self

    def __exit__(self, *_: object) -> None:
        self.main.kill()

    def is_at_work(self) -> bool:
        assert self.main.poll() is None
        found, fronts = {}, {"front": self.main.pid, **children_of(self.main.pid)}
        for pid in children_of_all(fronts.get("mpirun", 0)):
            rank = re.search(r"\0OMPI_COMM_WORLD_RANK=(\d+)\0", of_process(pid, "environ"))
            if rank:
                found[int(rank[1])] = {"run": pid, **children_of(pid),
                                       **(fronts if rank[1] == "0" else {})}
        self.ids = [found[rank] for rank in sorted(found)]
        return (len(self.ids) == self.processes and "lrupd" in self.ids[0]
                and all(names_of(number).issubset(ids) for number, ids in enumerate(self.ids, 1)))

    def kill(self, process: int, name: str, number: int = signal.SIGKILL) -> None:
        os.kill(self.ids[process][name], number)

    def segments(self) -> int:
        """Open MPI's files for shared memory, in the processes' folders."""
        return len(list(self.folder.glob("lrup-solve-*/vader_segment*")))

    def end(self) -> Answer:
        """No process is left, and no folder of the front."""
        began = time.monotonic()
        answer = end_of(self.main)
        self.seconds = time.monotonic() - began
        pids = [pid for ids in self.ids for pid in ids.values()]
        until("all have ended", lambda: not any(map(is_alive, pids)))
        until("its folder is removed", lambda: not list(self.folder.glob("lrup-solve-*")))
        return answer


def names_of(number: int) -> Set[str]:
    """What runs in an MPI process with one engine, which has this number."""
    return {"carrier", f"engine {number}", f"filter {number}"}


def children_of_all(pid: int) -> List[int]:
    return [int(word) for word in of_process(pid, f"task/{pid}/children").split()]


def assert_ended(process: int, name: str, number: signal.Signals, cause: str, work: Path) -> None:
    """A run whose process gets this signal ends soon, without an answer, and says why."""
    with Running(generated("pigeons 11", work), 2, more=PATIENCE) as running:
        running.kill(process, name, number)
        answer = running.end()
    assert running.seconds < ENDED
    assert answer.answers == ["s UNKNOWN"], answer.out + answer.said
    assert answer.status == (-number if name == "front" else 0)
    assert says(answer, cause), answer.out


@pytest.mark.parametrize("process, name, cause", [
    (0, "lrupd", f"^{LRUPD_KILLED}$"), (1, "run", "Terminated"),
    (0, "run", "MPI's command ended with status "),
    (0, "mpirun", "MPI's command ended by a signal: Killed")])
def test_a_process_is_killed(process: int, name: str, cause: str, tmp_path: Path) -> None:
    assert_ended(process, name, signal.SIGKILL, cause, tmp_path)


@pytest.mark.long
@pytest.mark.parametrize("process, name, number, cause", [
    (1, "carrier", signal.SIGKILL, "Terminated|MPI's process"),
    (0, "carrier", signal.SIGKILL, "MPI's process here ended by a signal"),
    (0, "run", signal.SIGTERM, "Terminated"),
    (1, "run", signal.SIGSTOP, "no message from process 1 for 8 seconds"),
    (1, "carrier", signal.SIGSTOP, "no message from process 1 for 8 seconds"),
    (0, "mpirun", signal.SIGINT, "Terminated"), (0, "mpirun", signal.SIGTERM, "Terminated"),
    (0, "front", signal.SIGINT, "ended by a signal: Interrupt")])
def test_a_process_gets_a_signal(process: int, name: str, number: signal.Signals, cause: str,
                                 tmp_path: Path) -> None:
    assert_ended(process, name, number, cause, tmp_path)


def test_the_front_is_killed(tmp_path: Path) -> None:
    with Running(generated("pigeons 11", tmp_path), 2, more=PATIENCE) as running:
        running.kill(0, "front")
        answer = running.end()
    assert running.seconds < ENDED
    assert (answer.answers, answer.status) == ([], -signal.SIGKILL)


def test_all_are_killed_at_once(tmp_path: Path) -> None:
    """Open MPI's files are removed when the processes end, even if all but the cleaners are killed
    at once."""
    with Running(generated("pigeons 11", tmp_path), 2) as running:
        until("each process has its file", lambda: running.segments() == 2)
        for pid in {pid for ids in running.ids for name, pid in ids.items() if name != "cleaner"}:
            with contextlib.suppress(ProcessLookupError):
                os.kill(pid, signal.SIGKILL)
        running.end()


@pytest.mark.long
@pytest.mark.parametrize("processes, process, name, lost", [
    (3, 0, "engine 1", f"engine 1 is lost: ({ENGINE_KILLED})"),
    (3, 1, "engine 2", f"engine 2 is lost: ({ENGINE_KILLED})"),
    (3, 1, "filter 2", "engine 2 is lost: "), (2, 1, "filter 2", "engine 2 is lost: ")])
def test_others_go_on(processes: int, process: int, name: str, lost: str, tmp_path: Path) -> None:
    """The remaining engines find the answer."""
    with Running(generated("pigeons 9", tmp_path), processes) as running:
        running.kill(process, name)
        answer = running.end()
    want_answer(answer, 20)
    assert len([line for line in answer.lost() if re.match(lost, line)]) == 1, answer.out


@pytest.mark.parametrize("processes", [2, 0])
def test_lrupd_is_killed_and_the_run_resumed(processes: int, tmp_path: Path) -> None:
    """With a record, the run ends without an answer, and says why, and how another one goes on. It
    does, also without MPI."""
    formula, kept = generated("pigeons 9", tmp_path), tmp_path / "kept"
    often = ["--save-every", "0.5"]
    with Running(formula, 2, options=[*often, "--proofs", kept]) as running:
        until("a round has ended", lambda: saved_rounds(kept) > 1)
        running.kill(0, "lrupd")
        answer = running.end()
    want_answer(answer, 0)
    assert LRUPD_KILLED in answer.comments, answer.out
    assert way_on(answer, kept, formula) == (saved_rounds(kept) - 1, True)
    assert_resumed(processes, kept, formula, often, None, tmp_path)


def bytes_kept(pid: int) -> int:
    """The bytes of a process's files in memory, including streams that are kept there."""
    files = [f"/proc/{pid}/fd/{name}" for name in os.listdir(f"/proc/{pid}/fd")]
    return sum(os.stat(file).st_size for file in files if "memfd:" in os.readlink(file))


def stands_still(pids: List[int]) -> bool:
    kept = [bytes_kept(pid) for pid in pids]
    time.sleep(2)
    return [bytes_kept(pid) for pid in pids] == kept


@pytest.mark.long
@pytest.mark.usefixtures("mpi_for_tests")
def test_lrupd_is_stopped(tmp_path: Path) -> None:
    """While it is, no file grows; once it continues, the run continues, too."""
    with Running(generated("pigeons 9", tmp_path), 2, {"AHEAD": 2000000}) as running:
        runs = [ids["run"] for ids in running.ids]
        running.kill(0, "lrupd", signal.SIGSTOP)
        kept = [bytes_kept(pid) for pid in runs]

        def grown() -> int:
            return max(bytes_kept(pid) - before for pid, before in zip(runs, kept))

        try:
            until("nothing grows", lambda: grown() >= GROWING or stands_still(runs))
            found = grown()
        finally:
            running.kill(0, "lrupd", signal.SIGCONT)
        want_answer(running.end(), 20)
    assert found < GROWING, "bytes that came while lrupd was stopped"
