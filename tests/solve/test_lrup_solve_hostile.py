"""Refuses each call of lrup-solve's front, sends random signals, and runs hostile programs.

Whatever fails or dies, the answer is right or 's UNKNOWN', or there is a message with status 1, or
nothing if a signal ended the front. Each run ends, and leaves no process and no file, unless a
program says otherwise. About 60 (or --count) signals are sent; with 600, each call is also refused
in each kind of run."""
import contextlib
import errno
import os
import random
import re
import resource
import signal
import subprocess
import tempfile
import time
from pathlib import Path
from typing import Dict, Iterator, List, NamedTuple, Sequence, Tuple

import pytest

from harness import (BUILDS, COUNT, FOUR, MODEL, ROOT, SUPPORT, alone, compiled, dimacs, is_newer,
                     random_clauses, run, until, written)
from hostile import (ANY_SIGNAL, DEADLY, FOUND, PROOF, PROVED, SATISFIABLE, STATUSES, STOPS, UNDER,
                     UNKNOWN, is_model, printed, run_with)
from hostile_programs import COMMON, PROGRAMS, PROVING, SATISFYING, Program, programs
from solving import (EARLY, FRONT, FRONTS_FLAGS, SOLVE, Answer, end_all, end_of, marked, of_process,
                     processes_of, processes_of_run, solve, started_run, with_model)

pytestmark = pytest.mark.usefixtures("solve_for_tests")
SIGNALS = COUNT or 60
A_SECOND = ["-q", "--time", "1"]


@pytest.fixture(scope="module", autouse=True)
def no_cores() -> None:
    resource.setrlimit(resource.RLIMIT_CORE, (0, 0))


def assert_no_other(answer: Answer, right: str, formula: Path) -> None:
    """There is no verdict other than this one, but there may be 's UNKNOWN' at any time, or a
    message that says why there is no answer."""
    found, is_killed = answer.answers, answer.status < 0
    assert found in ([], [right], [UNKNOWN]), printed(answer)
    if found and not is_killed:
        assert answer.status == STATUSES[found[0]], printed(answer)
    if not found and not is_killed:
        assert answer.status in (1, 127) and answer.said != "", printed(answer)
    if answer.status == 10:
        assert is_model(answer, formula), printed(answer)


# Failing calls of the front.

SOURCES = ROOT / "tools" / "lrup-solve"
WRAPPERS = SUPPORT / "refuse_front.c"
WRAPPED = set(re.findall(r"CALL\((\w+), ", WRAPPERS.read_text()))
# Besides the wrapped functions, the front calls only these library functions, as the linker shows.
CANNOT_FAIL = set("""__assert_fail __errno_location __isoc23_strtoul __stack_chk_fail _exit
    clock_gettime dirname err errx exit ferror fileno getenv getopt_long getpid getppid optarg
    opterr optind program_invocation_short_name sigaddset sigemptyset sigfillset stdout strchr
    strcmp strcspn strlen strncat strncmp strrchr strsep strsignal strspn strtod strtoul supervise
    unsetenv warnx""".split())
ERRORS: Dict[str, Tuple[str, ...]] = {
    "read": ("EIO", "EINTR", "short"), "write": ("ENOSPC", "EINTR", "short"),
    "pread": ("EIO", "EINTR", "short"),
    **{name: ("ENOMEM", "EINTR") for name in ("close", "dup2", "fcntl", "fopen", "open", "poll",
                                              "sigwaitinfo", "waitid", "waitpid")}}
MOST = 12       # the most calls of one function
WHOLE = 600     # the least SIGNALS for which each function is refused in each kind of run
LIES = """signal.alarm(10)
stream(1, {proof!r})
check()
for line in ('s UNSATISFIABLE', 's UNSATISFIABLE UNDER ASSUMPTIONS'):
    forge(line)
    say(line)
hears('lrupd')
forge('s UNSATISFIABLE')
model({signs!r})
time.sleep(1000)"""
CHANGES = """signal.alarm(10)
try:
    os.pwrite(os.open(formula, os.O_RDWR), b"p cnf 1 2\\n1 0\\n-1 0\\n", 0)
    os.truncate(formula, 19)
except OSError:
    pass
stream(1, "3 0 1 2 0\\n")
check()
hears("lrupd")"""
ENGINES = str(SOLVE.with_name("lrup-engines"))
UNDER_PROOF = "5 2 0 1 2 0\n"       # for SATISFIABLE, under the assumption -2


class Kind(NamedTuple):
    """A kind of run whose calls are refused, and its answer if no call is. If functions are named,
    the gate refuses only those."""
    text: str
    body: str
    right: str
    assumed: str = ""
    is_piped: bool = False
    is_packed: bool = False
    functions: str = ""


def proving(proof: str) -> str:
    return f"signal.alarm(10)\nstream(1, {proof!r})\ncheck()\nhears('lrupd')"


KINDS = {
    "a proof": Kind(FOUR, proving(PROOF), PROVED),
    "lies": Kind(SATISFIABLE, LIES.format(proof=PROOF, signs="---"), UNKNOWN),
    "solved": Kind(
        FOUR, f"signal.alarm(10)\nos.execv({ENGINES!r}, [{ENGINES!r}, '-j', '1', *sys.argv[1:]])",
        PROVED, functions="close dup2 kill pipe2 prctl setenv sigprocmask"),
    "a model": Kind(SATISFIABLE, "model('++-')", FOUND,
                    functions="calloc close dup2 execv fcntl fdopen fflush fork fprintf fputs "
                              "lseek memfd_create pidfd_open poll prctl pread puts read setpgid "
                              "signal sigprocmask vasprintf waitid"),
    "a proof under assumptions": Kind(SATISFIABLE, proving(UNDER_PROOF), UNDER, "-2 0\n",
                                      functions="execv fstat open pread vasprintf"),
    "lies under assumptions": Kind(
        SATISFIABLE, LIES.format(proof=UNDER_PROOF, signs="++-"), UNKNOWN, "2 3 0\n",
        functions="fputs fstat open pread vasprintf"),
    "lies by a pipe": Kind(SATISFIABLE, CHANGES, UNKNOWN, is_piped=True,
                           functions="fcntl fstat memfd_create open read write"),
    "lies, packed": Kind(
        SATISFIABLE, LIES.format(proof=PROOF, signs="---"), UNKNOWN, is_packed=True,
        functions="access close dup2 execv fcntl fork fstat memfd_create open pipe2 read waitpid")}


@pytest.fixture(scope="session")
def refusing_front(solve_for_tests: None) -> Path:
    """Wraps the functions that the front calls; none is inlined or replaced by the compiler. One
    worker builds that front."""
    flags = [*FRONTS_FLAGS, "-O0", "-g", "-fno-builtin", "-U_FORTIFY_SOURCE"]
    place = BUILDS / "refusing"
    front = place / "lrup-solve"
    with alone(place / "lock"):
        if not is_newer(front, [WRAPPERS, *SOURCES.glob("*.[ch]")]):
            objects = [compiled(place / f"{name}.o", [SOURCES / f"{name}.c"], "-c", *flags)
                       for name in ("front", "supervisor")]
            called = set(re.findall(r"\bU (\w+)", run(["nm", "-u", *objects]).out))
            assert called - WRAPPED - CANNOT_FAIL == set(), "they aren't refused, and may fail"
            wraps = [f"-Wl,--wrap={name}" for name in sorted(WRAPPED)]
            compiled(front, [*objects, WRAPPERS], *flags, *wraps)
    return front


def refusals() -> Iterator[Tuple[str, str, str]]:
    """If a function's name depends on the C library, each of its two names is there; the front
    calls one of them."""
    for function in sorted(WRAPPED):
        for how in ERRORS.get(function, ("ENOMEM",)):
            for name, kind in KINDS.items():
                if SIGNALS >= WHOLE or not kind.functions or function in kind.functions.split():
                    yield function, how, name


def run_of(kind: Kind, front: Path, work: Path) -> Answer:
    words = ["--assume", written(kind.assumed, work, "cube")] if kind.assumed else []
    return run_with(kind.body, words, kind.text, work, front=front, is_packed=kind.is_packed,
                    given=kind.text if kind.is_piped else None)


@pytest.mark.parametrize("function, how, name", refusals())
def test_each_call_refused(function: str, how: str, name: str, refusing_front: Path, tmp_path: Path,
                           monkeypatch: pytest.MonkeyPatch) -> None:
    """Refuses each call of the function in turn, until a run makes no further call."""
    for number in range(1, MOST + 1):
        folder = Path(tempfile.mkdtemp(dir=tmp_path))       # its name marks the processes
        monkeypatch.setenv("REFUSE", f"{function}:{number}:{getattr(errno, how, how)}")
        monkeypatch.setenv("MARK", str(folder / "refused"))
        print(f"call {number}")
        answer = run_of(KINDS[name], refusing_front, folder)
        assert_no_other(answer, KINDS[name].right, folder / "formula.cnf")
        if not (folder / "refused").exists():
            assert answer.answers == [KINDS[name].right], printed(answer)
            return


# Random signals.

SOON = 20       # seconds within which everything ends once the front is killed
A_TEST = 6      # signals per test


def sent(numbers: random.Random, pid: int) -> Tuple[str, str]:
    """Sends a random signal to a random process of this front's run, and returns both names. A
    stopped process may be continued soon."""
    name, chosen = numbers.choice(sorted(processes_of_run(pid).items()))
    number, goes_on = numbers.choice(ANY_SIGNAL), numbers.random() < 0.5
    with contextlib.suppress(ProcessLookupError):
        os.kill(chosen, number)
        if number in STOPS and goes_on:
            time.sleep(numbers.uniform(0, 0.2))
            os.kill(chosen, signal.SIGCONT)
    return number.name, name


def may_leave_files(history: Sequence[Tuple[str, str]]) -> bool:
    """Whether all processes that remove files may have been killed."""
    killed = {name for number, name in history if number in [deadly.name for deadly in DEADLY]}
    return "cleaner" in killed and not killed.isdisjoint(("lrup-engines", "supervisor", FRONT))


def is_over(running: "subprocess.Popen[str]") -> bool:
    """Whether the front has ended. A front that was stopped for good is continued."""
    if of_process(running.pid, "stat").rsplit(")", 1)[-1].split()[:1] == ["T"]:
        running.send_signal(signal.SIGCONT)
    return running.poll() is not None


def are_gone(mark: str, front_was_killed: bool) -> bool:
    """Whether all processes have ended. If the front can't continue those that were stopped for
    good, this function does."""
    left = processes_of(mark)
    for pid in left if front_was_killed else []:
        with contextlib.suppress(ProcessLookupError):
            os.kill(pid, signal.SIGCONT)
    return not left


class Given(NamedTuple):
    """A run's arguments, its answer, and how many seconds it takes."""
    words: Sequence[object]
    formula: Path
    right: str
    lasts: float


def signalled(numbers: random.Random, most: int, given: Given, work: Path) -> int:
    """Sends at most `most` signals to a run; returns how many the run got before its end."""
    files, mark, limit = work / "temporary", marked(work), numbers.choice((2, 3, 4))
    history: List[Tuple[str, str]] = []
    files.mkdir()
    hooks = {"SET": EARLY, "SLICE": 50, "FIRST_WORDS": numbers.choice((1000, 10000))}
    with started_run([*given.words, "--time", limit, given.formula], hooks, {"TMPDIR": str(files)},
                     cwd=work) as running:
        begun = time.monotonic()
        for moment in sorted(numbers.uniform(0, given.lasts) for _ in range(most)):
            time.sleep(max(0, begun + moment - time.monotonic()))
            if running.poll() is not None:
                break
            history.append(sent(numbers, running.pid))
        try:
            until("the run ends", lambda: is_over(running), limit + 40)
            is_killed = running.returncode == -signal.SIGKILL
            until("all processes end", lambda: are_gone(mark, is_killed), SOON)
            answer = end_of(running)
            assert_no_other(answer, given.right, given.formula)
            if not may_leave_files(history):
                until("its files are removed", lambda: not os.listdir(files), SOON)
        except AssertionError as found:
            left = [of_process(pid, "stat")[:40] for pid in processes_of(mark)]
            raise AssertionError(
                f"{found}\nafter {history}; left {left}, {os.listdir(files)}") from found
        finally:
            end_all(mark)
    return len(history)


@pytest.mark.parametrize("seed", range(SIGNALS // A_TEST))
def test_signals(seed: int, tmp_path: Path) -> None:
    """Sends signals to runs on one formula: satisfiable, unsatisfiable, or unsatisfiable only under
    assumptions."""
    numbers, words = random.Random(f"{seed} signals"), ["-j", "2", "--memory", "64M"]
    size, is_assumed = numbers.randrange(120, 220), numbers.random() < 0.4
    clauses = random_clauses(numbers, size, round(numbers.uniform(4, 4.6) * size))
    if is_assumed:
        clauses = [[*clause, size + 1] for clause in clauses]
        words += ["--assume", str(written(f"-{size + 1} 0\n", tmp_path, "cube"))]
    formula, begun = written(dimacs(size + is_assumed, clauses), tmp_path), time.monotonic()
    whole = solve([*words, formula], tested={"SET": EARLY, "SLICE": 50})
    assert whole.answers in ([FOUND], [UNDER if is_assumed else PROVED])
    given = Given(words, formula, whole.answers[0], time.monotonic() - begun)
    left = A_TEST
    for _ in range(4):
        if left > 0:
            left -= signalled(numbers, left, given, Path(tempfile.mkdtemp(dir=tmp_path)))


# More hostile programs.

LIMITS = ("RLIMIT_NOFILE", "RLIMIT_AS", "RLIMIT_FSIZE", "RLIMIT_DATA", "RLIMIT_NPROC")
SLOW = f'sleep 0.5\nexec {MODEL} "$@"'


def run_program(hostile: Program, words: Sequence[object], text: str, work: Path) -> Answer:
    """Runs the front with this program, which mustn't crash."""
    front = with_model(SLOW, SOLVE, work) if hostile.is_slow else SOLVE
    answer = run_with(hostile.body, words, text, work, front=front, may_leave=hostile.may_leave,
                      stderr=subprocess.DEVNULL if hostile.may_leave else subprocess.PIPE)
    assert "Traceback" not in answer.said
    return answer


def each_of(text: str) -> pytest.MarkDecorator:
    return pytest.mark.parametrize("hostile", programs(text), ids=lambda one: str(one.name))


@each_of(PROGRAMS)
def test_no_proof_and_no_model(hostile: Program, tmp_path: Path) -> None:
    answer = run_program(hostile, A_SECOND, SATISFIABLE, tmp_path)
    assert_no_other(answer, UNKNOWN, tmp_path / "formula.cnf")


@each_of(PROVING)
def test_a_proof(hostile: Program, tmp_path: Path) -> None:
    answer = run_program(hostile, ["--time", "3"], FOUR, tmp_path)
    assert_no_other(answer, PROVED, tmp_path / "formula.cnf")


@each_of(SATISFYING)
def test_a_model(hostile: Program, tmp_path: Path) -> None:
    answer = run_program(hostile, [], SATISFIABLE, tmp_path)
    assert_no_other(answer, FOUND, tmp_path / "formula.cnf")


@pytest.mark.parametrize("name", LIMITS)
def test_the_front_is_limited(name: str, tmp_path: Path) -> None:
    """The program leaves the front no more files, memory or processes."""
    body = f"resource.prlimit(int(front), resource.{name}, (0, 0)); proves()"
    hostile = Program(name, COMMON + body, False, False)
    answer = run_program(hostile, A_SECOND, SATISFIABLE, tmp_path)
    assert_no_other(answer, UNKNOWN, tmp_path / "formula.cnf")


@pytest.mark.parametrize("line", [PROVED, UNDER])
@pytest.mark.parametrize("number", [signal.SIGFPE, signal.SIGQUIT, signal.SIGABRT, signal.SIGTERM])
def test_lrupd_is_killed_and_a_line_forged(number: signal.Signals, line: str,
                                           tmp_path: Path) -> None:
    """SIGFPE has the number of lrupd's status under assumptions."""
    assume = ["--assume", written("2 0\n", tmp_path, "cube")] if line == UNDER else []
    body = f"waits(); forge({line!r}); os.kill(pid, {int(number)}); ends({line!r})"
    hostile = Program(line, COMMON + body, False, False)
    answer = run_program(hostile, assume, SATISFIABLE, tmp_path)
    assert_no_other(answer, UNKNOWN, tmp_path / "formula.cnf")
