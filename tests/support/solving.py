"""Shared by the tests of lrup-solve: its two builds, runs, and the expected answers.

`make` builds both, with --flags for the compilers, in a folder for these flags. The first worker
builds what is out of date."""
import contextlib
import os
import random
import re
import shlex
import shutil
import signal
import subprocess
import time
from pathlib import Path
from typing import (Any, Callable, Dict, Iterator, List, Mapping, Optional, Sequence, Tuple,
                    TypeVar)

from harness import (BUILDS, FLAGS, LIMIT, MODEL, OUT, PROGRAM, ROOT, USUAL_FLAGS, VERDICTS, Ran,
                     alone, dimacs, executable, is_newer, lacking, random_clauses, run,
                     sanitizing_with, started, until)
from proof_forms import read_formula
from refused import refusing

COMPILERS = [os.environ.get(name, "") for name in ("CC", "CXX")]
# Where `make` builds: the usual place, unless there are --flags; and for tests, with hooks.
HAS_FLAGS = FLAGS != USUAL_FLAGS
NAME = re.sub(r"\W+", "", "".join(["solve", *COMPILERS, FLAGS]))
BUILD, TESTED_BUILD = BUILDS / NAME if HAS_FLAGS else OUT, BUILDS / f"{NAME}-tested"
SOLVE, TESTED = BUILD / "bin" / "lrup-solve", TESTED_BUILD / "bin" / "lrup-solve"
EARLY = "elimint=10 probeint=10 subsumeint=10 compactint=10 reduceint=20 rephase=1 rephaseint=20"
ELIMINATING = "elimint=1 compact=0"
FRONT, READING = "lrup-solve", "its reading"      # the front, and the lrupd that only reads
ANSWERS = {0: VERDICTS[3], 10: "s SATISFIABLE", 20: VERDICTS[0]}
# A front that is alone in its folder finds lrup-model, and nothing else, on the PATH.
MODELS = BUILDS / "models"
os.environ["PATH"] = f"{MODELS}:{os.environ['PATH']}"
# The front includes the texts of --help, which `make` has put beside the first build's objects.
FRONTS_FLAGS = ["-std=c11", f"-I{BUILD / 'objects'}", '-DVERSION="of a test"']


class Answer:
    """A run's outputs and status."""

    def __init__(self, done: Ran) -> None:
        self.ran = done
        self.out, self.said, self.status = done
        lines = self.out.splitlines()
        self.answers = [line for line in lines if line.startswith("s ")]
        self.comments = [line[2:] for line in lines if line.startswith("c ")]
        self.values = [int(word) for line in lines if line.startswith("v ")
                       for word in line.split()[1:]]

    def lost(self) -> List[str]:
        return [line for line in self.comments if " is lost: " in line]


def command(words: Sequence[object], tested: Optional[Mapping[str, object]] = None) -> List[str]:
    """lrup-solve's command. With `tested` it names a build for tests, whose hooks `in_environment`
    sets."""
    return [str(word)
            for word in (TESTED if tested is not None else SOLVE, "--lrupd", PROGRAM, *words)]


def hooks(tested: Mapping[str, object]) -> str:
    """The value of LRUP_SOLVE_HOOKS, with names from `lrup-engines/test_hooks.h`; the values of
    WITHOUT and LATE are parts of such names."""
    named = {
        f"{name}_{word}" if name in ("WITHOUT",
                                     "LATE") else name: 1 if name in ("WITHOUT", "LATE") else word
        for name, word in tested.items()}
    return ";".join(f"{name.lower()}={word}" for name, word in named.items())


def in_environment(tested: Optional[Mapping[str, object]] = None,
                   more: Optional[Mapping[str, str]] = None) -> Dict[str, str]:
    """The environment of lrup-solve. In a build for tests, all engines start at once."""
    given = {} if tested is None else {"LRUP_SOLVE_HOOKS": hooks({"AT_ONCE": 1, **tested})}
    return {**os.environ, **(more or {}), **given}


def solve(words: Sequence[object], tested: Optional[Mapping[str, object]] = None,
          env_more: Optional[Mapping[str, str]] = None, **how: Any) -> Answer:
    return Answer(run(command(words, tested), env=in_environment(tested, env_more), **how))


@contextlib.contextmanager
def started_run(words: Sequence[object], tested: Optional[Mapping[str, object]] = None,
                env_more: Optional[Mapping[str, str]] = None,
                **how: Any) -> Iterator["subprocess.Popen[str]"]:
    """A run that has begun, with pipes for its outputs."""
    how = {"stdout": subprocess.PIPE, "stderr": subprocess.PIPE, **how}
    with started(command(words, tested), env=in_environment(tested, env_more), text=True,
                 **how) as running:
        yield running


def end_of(running: "subprocess.Popen[str]", limit: float = LIMIT) -> Answer:
    return Answer(Ran(*running.communicate(timeout=limit), running.returncode))


def check(words: Sequence[object], tested: Optional[Mapping[str, object]] = None,
          more: Optional[Mapping[str, str]] = None, **how: Any) -> Answer:
    program = (TESTED if tested is not None else SOLVE).with_name("lrup-check")
    return Answer(run([str(word) for word in (program, "--lrupd", PROGRAM, *words)],
                      env=in_environment(tested, more), **how))


def want_answer(answer: Answer, status: int, formula: Optional[Path] = None,
                verdict: Optional[str] = None) -> None:
    """Checks the status and the answer's line and, for a satisfiable formula, that the assignment
    makes each clause true."""
    wanted = ([verdict or ANSWERS[status]], status, "")
    assert (answer.answers, answer.status, answer.said) == wanted, answer.out[-2000:]
    if status != 10 or formula is None:
        assert answer.values == []
        return
    header = re.search(r"^p cnf +(\d+)", formula.read_text(), re.M)
    assert header
    assert [abs(value) for value in answer.values] == [*range(1, int(header[1]) + 1), 0]
    true = set(answer.values)
    for clause in read_formula(formula):
        assert true & set(clause), f"the assignment makes the clause {clause} false"


def says(answer: Answer, cause: str) -> bool:
    """Whether a comment has this pattern."""
    return any(re.search(cause, line) for line in answer.comments)


def want_cause(answer: Answer, cause: str) -> None:
    assert says(answer, cause), f"expected a message on '{cause}', but found\n{answer.out}"


def random_formula(seed: int) -> str:
    numbers = random.Random(seed)
    variables = numbers.randrange(20, 130)
    lengths: Tuple[int, ...] = numbers.choice(((3,), (3,), (2, 3, 3, 3, 4, 5), (1, 2, 3, 4, 5, 6)))
    ratio = numbers.uniform(3.9, 5) if lengths == (3,) else numbers.uniform(2, 6)
    return dimacs(variables, random_clauses(numbers, variables, round(ratio * variables), lengths))


def check_again(kept: Path, env_more: Optional[Mapping[str, str]] = None) -> None:
    """Runs the record's command, which checks the streams again, from another folder. The last
    report has to be the record's, and no file may change."""
    before = {path: path.lstat().st_mtime_ns for path in [kept, *kept.iterdir()]}
    done, report = (run(["sh", kept / "command"], cwd="/", env=in_environment(more=env_more)),
                    (kept / "report").read_text())
    assert (done.out[-len(report):], done.status) == (report, 0), done.err
    assert {path: path.lstat().st_mtime_ns for path in [kept, *kept.iterdir()]} == before


def listed(kept: Path) -> List[str]:
    """The files of a record, from its list."""
    return sorted(set((kept / "files").read_text().splitlines()))


def rests_on(rule: str, found: str, most: int, formula: Callable[[int], Path],
             tested: Callable[[int], Mapping[str, object]]) -> None:
    """Without this rule of sharing, some run breaks, which depends on timing: up to `most` formulas
    are tried. With all rules, neither a run on that formula breaks, nor one on the first twelve.
    Without the rule, a stream waits a second, not a minute, for a clause that never comes, and what
    sanitizers report is no failure."""
    def answer(seed: int, more: Mapping[str, object]) -> Answer:
        return solve(["-v", "--memory", "64M", "--time", "40", "-j", "3", formula(seed)],
                     tested={**tested(seed), **more},
                     env_more=sanitizing_with("log_path=stderr") if more else None)

    def has_broken(answer: Answer) -> bool:
        return any(re.search(found, line) for line in answer.comments)

    without = {"WITHOUT": rule, "TRIES": 20000}
    broken = next((seed for seed in range(most) if has_broken(answer(seed, without))), None)
    assert broken is not None, f"none of {most} runs broke without the rule"
    for seed in sorted({*range(12), broken}):
        whole = answer(seed, {})
        assert not has_broken(whole), f"it breaks with all rules\n{whole.out[-2000:]}"
        want_answer(whole, whole.status if whole.status in (10, 20) else 20, formula(seed))


def in_place_of_lrupd(body: str, work: Path) -> Path:
    return executable(body, work, "lrupd")


def with_model(body: str, front: Path, work: Path) -> Path:
    """A copy of the front, with this program beside it in place of lrup-model."""
    return Path(shutil.copy(front, executable(body, work / "beside", "lrup-model").parent))


def before_lrupd(what: str, work: Path) -> Path:
    """A program that does this before it becomes lrupd, except in the probe."""
    return in_place_of_lrupd(
        f"case \"$*\" in *' /dev/null') ;; *) {what};; esac\nexec {shlex.quote(PROGRAM)} \"$@\"",
        work)


def engines_refusing(refused: str, work: Path) -> Tuple[Path, Path]:
    """lrup-engines, built for tests, in which a call is refused or late, as refuse.c describes it;
    each process counts its own calls. Also the file that exists from then on."""
    mark = work / "refused"
    return executable(f"export LD_PRELOAD={refusing()} REFUSE={refused} MARK={mark}\n"
                      f"exec {TESTED.with_name('lrup-engines')} \"$@\"", work, "engines"), mark


# Processes.


def of_process(pid: int, name: str) -> str:
    """What this file of /proc says about a process; empty if the process doesn't exist."""
    try:
        return Path(f"/proc/{pid}/{name}").read_text()
    except OSError:
        return ""


def children_of(pid: int) -> Dict[str, int]:
    """The names and ids of a process's descendants. Of several lrupds, only the one that reads
    streams is included."""
    found = {}
    for child in map(int, of_process(pid, f"task/{pid}/children").split()):
        title = of_process(child, "comm").strip()
        if title and (title != "lrupd" or "--rounds" in of_process(child, "cmdline")):
            found[title] = child
        if title in ("supervisor", "lrup-engines"):
            found.update(children_of(child))
    return found


def processes_of_run(pid: int) -> Dict[str, int]:
    """The names and ids of a run's processes, including the front and the probe, which is a child
    of lrup-engines."""
    found = {**children_of(pid), FRONT: pid}
    engines = found.get("lrup-engines", 0)
    for child in map(int, of_process(engines, f"task/{engines}/children").split()):
        title, words = of_process(child, "comm").strip(), of_process(child, "cmdline")
        if title == "lrupd" and "--rounds" not in words:
            found[READING] = child
    return found


def until_there(name: str, running: "subprocess.Popen[Any]") -> None:
    """Waits until the run has this process, or has ended."""
    until(f"{name} is there",
          lambda: name in processes_of_run(running.pid) or running.poll() is not None)


def end_group(process: "subprocess.Popen[Any]") -> None:
    """Ends the process and its whole group."""
    with contextlib.suppress(ProcessLookupError):
        os.killpg(process.pid, signal.SIGKILL)
    process.wait()


def waits_of(pid: int) -> int:
    """How many times the process has waited for something."""
    found = re.search(r"^voluntary_ctxt_switches:\s+(\d+)", of_process(pid, "status"), re.M)
    return int(found[1]) if found else 0


def sleep(pids: Sequence[int]) -> None:
    """Waits until none of the processes has woken up for a second, according to the system's count
    of their waits, and none waits for a processor."""
    def waits() -> List[Tuple[int, str]]:
        return [(waits_of(pid), of_process(pid, "stat").rsplit(")", 1)[-1][1:2]) for pid in pids]

    def all_sleep() -> bool:
        before = waits()
        time.sleep(1)
        return before == waits() and all(state != "R" for _, state in before)
    until("they sleep", all_sleep, 60)


def goes_on(process: "subprocess.Popen[Any]") -> None:
    """Waits until the run's loop has waited several more times, or the run has ended."""
    looping = children_of(process.pid).get("lrup-engines", 0)
    before = waits_of(looping)
    until("the program continues",
          lambda: process.poll() is not None or waits_of(looping) > before + 10)


def is_alive(pid: int) -> bool:
    state = of_process(pid, "stat").rsplit(")", 1)[-1].split()
    return bool(state) and state[0] not in "ZX"


def marked(work: Path) -> str:
    """Marks the environment of everything started from now on."""
    os.environ["LRUP_MARK"] = work.name
    return f"LRUP_MARK={work.name}"


def processes_of(mark: str) -> List[int]:
    found = []
    for place in Path("/proc").glob("[0-9]*"):
        try:
            if mark.encode() in (place / "environ").read_bytes() and is_alive(int(place.name)):
                found.append(int(place.name))
        except OSError:
            pass
    return found


def none_left(mark: str) -> None:
    try:
        until("no process of the run is left", lambda: not processes_of(mark))
    except AssertionError as found:
        left = [of_process(pid, "stat")[:40] for pid in processes_of(mark)]
        raise AssertionError(f"{found}, but {left}") from found


def end_all(mark: str) -> None:
    """After a run's front has ended, ends the processes that the run left, even stopped ones."""
    for number in (signal.SIGCONT, signal.SIGKILL):
        for pid in processes_of(mark):
            with contextlib.suppress(ProcessLookupError):
                os.kill(pid, number)


def kill_children(children: Mapping[str, int], names: Sequence[str],
                  number: int = signal.SIGKILL) -> None:
    """Kills these processes; raises ProcessLookupError if one has already ended."""
    for name in names:
        pid = children.get(name, 0)
        if not is_alive(pid):
            raise ProcessLookupError(f"{name} has ended")
        os.kill(pid, number)


Begun = TypeVar("Begun", bound="Run")


class Run:
    """A run with -v and this temporary folder. It has its own process group, which is killed when
    the block is left."""

    def __init__(self, words: Sequence[object], tested: Mapping[str, object], folder: Path,
                 more: Mapping[str, str] = {}, **how: Any) -> None:
        self.folder = folder
        self.process = subprocess.Popen(
            command(["-v", *words], tested), text=True, stdout=subprocess.PIPE,
            stderr=subprocess.PIPE, start_new_session=True,
            env=in_environment(tested, {"TMPDIR": str(folder), **more}), **how)
        self.children: Dict[str, int] = {}

    def get_ready(self) -> None:
        """Waits until the run is as far as the test needs it, or has ended."""

    def __enter__(self: Begun) -> Begun:
        try:
            self.get_ready()
        except AssertionError:
            self.__exit__()
            raise
        return self

    def __exit__(self, *_: object) -> None:
        end_group(self.process)

    def end(self, limit: float = LIMIT) -> Answer:
        """The run's output; none of its children is left, and no file."""
        answer = end_of(self.process, limit)
        until("its children end", lambda: not any(map(is_alive, self.children.values())))
        until("its files are removed", lambda: not os.listdir(self.folder))
        return answer


# The builds.


def is_built(path: Path) -> bool:
    """Whether the build is newer than its sources."""
    files = ("Makefile", "VERSION", "tools/lrup-recheck", "tools/build/help.awk",
             "tools/lrup-solve/options.def")
    globs = ("man/lrup-*.1", "tools/*/*.[ch]*", "tools/*/mpi/*.[ch]*")
    return is_newer(path, [*(ROOT / name for name in files),
                           *(source for glob in globs for source in ROOT.glob(glob))])


def built(target: str, for_tests: bool) -> None:
    """One worker builds what is out of date, with `make`. If a package is missing, rows are
    skipped."""
    usual = [f"OUT={BUILD}", f"CFLAGS={FLAGS}", f"CXXFLAGS={FLAGS}"] if HAS_FLAGS else []
    flags = f"{FLAGS} -DSOLVE_TESTS -DCHECKED"
    tested = [f"OUT={TESTED_BUILD}", f"CFLAGS={flags}", f"CXXFLAGS={flags}"]
    with alone(BUILDS / "solve.lock"):
        if Path(MODEL).exists() and not is_newer(MODELS / "lrup-model", [Path(MODEL)]):
            MODELS.mkdir(exist_ok=True)
            shutil.copy(MODEL, MODELS / "new")
            (MODELS / "new").replace(MODELS / "lrup-model")
        for folder, words in ((BUILD, usual), (TESTED_BUILD, tested))[:1 + for_tests]:
            if is_built(folder / "bin" / ("lrup-engines" if target == "solve"
                                          else "lrup-engines-mpi")):
                continue
            out, err, status = run(["make", "-s", f"-j{os.cpu_count()}", "-C", ROOT, target,
                                    *words], limit=600)
            if status and re.search("libcadical-dev|libmd-dev|libopenmpi-dev", out + err):
                lacking(f"all of lrup-{target}: {(out + err).splitlines()[0]}")
            assert not status and not re.search(r"warning: .*\[-W", err), out + err
