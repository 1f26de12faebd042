"""lrup-solve with the program: its answers, also with cubes of its own; and processes that are
killed, signals, terminals, full disks and closed outputs.

One to eight engines solve known formulas with each status, and random ones with early inprocessing.
In a build for tests, the rules of sharing are left out one by one: each omission has to be
noticed."""
import contextlib
import fcntl
import os
import pty
import random
import re
import resource
import signal
import struct
import tempfile
import termios
import time
from pathlib import Path
from typing import Any, Iterator, List, Optional, Sequence, Set, Tuple

import pytest

from harness import (EXAMPLES, FOUR, LIMIT, PROGRAM, ROOT, VERDICTS, dimacs, example, generated,
                     in_shell, named, needs, random_clauses, run, until, written)
from proof_forms import read_formula
from solving import (EARLY, ELIMINATING, SOLVE, Answer, Run, check_again, children_of, command,
                     end_group, end_of, goes_on, in_environment, in_place_of_lrupd, kill_children,
                     of_process, random_formula, rests_on, says, solve, started_run, until_there,
                     want_answer, want_cause)

pytestmark = pytest.mark.usefixtures("solve_for_tests")
MITERS = EXAMPLES / "miter"
TRIES = 10      # runs, since a run may end before the test intervenes
SOON = 9        # seconds, fewer than a filter has for its last line


# Answers.


each_way = pytest.mark.parametrize("options", [
    ["-j", "1"], ["-j", "2"], ["-j", "3"], ["-j", "5"], ["-j", "8"], ["-j", "3", "--no-share"],
    ["-v"], ["--share-size", "0"], []], ids=" ".join)


@each_way
@pytest.mark.parametrize("text, status", named([
    ("four clauses", FOUR, 20), ("empty clause", "p cnf 2 2\n1 2 0\n0\n", 20),
    ("no clauses", "p cnf 3 0\n", 10), ("nothing", "p cnf 0 0\n", 10),
    ("the empty clause alone", "p cnf 0 1\n0\n", 20),
    ("units", "p cnf 2 3\n1 0\n-1 2 0\n-2 0\n", 20),
    ("tautologies", "p cnf 3 4\n1 -1 0\n2 2 3 0\n-2 3 3 0\n-3 -3 0\n", 20)]))
def test_small_formulas(text: str, status: int, options: List[str], tmp_path: Path) -> None:
    formula = written(text, tmp_path)
    want_answer(solve([*options, formula]), status, formula)


@each_way
def test_an_unsatisfiable_example(options: List[str]) -> None:
    want_answer(solve([*options, example("bmc.cnf")]), 20)


@each_way
def test_a_satisfiable_formula(options: List[str], tmp_path: Path) -> None:
    formula = generated("random 120 7 3.6", tmp_path)
    want_answer(solve([*options, formula]), 10, formula)


@pytest.mark.parametrize("load, running, busy", [
    (1, 9, 0), (49, 9, 0), (50, 9, 1), (149, 9, 1), (150, 9, 2), (800, 1, 0), (800, 2, 1),
    (800, 3, 2), (800, 9, 8)])
def test_usual_engines(load: int, running: int, busy: int) -> None:
    """Half of the free cores, or three quarters if CaDiCaL gives hints: the load of the last
    minute, rounded, isn't free, unless fewer other processes run."""
    answer = solve(["-v", example("bmc.cnf")], tested={"LOAD": load, "RUNNING": running})
    want_answer(answer, 20)
    free = len(os.sched_getaffinity(0)) - busy
    has_hints = "which gives hints" in answer.out
    engines = max(1, (3 * free + 2) // 4 if has_hints else free // 2)
    assert re.search(rf" s, {engines} engines?, ", answer.out), answer.out


@pytest.mark.parametrize("attempt", range(5))
def test_lrupd_ends_before_its_streams(attempt: int, tmp_path: Path) -> None:
    """Otherwise it would save its clauses once the time is up."""
    body = f"""case "$*" in *' /dev/null') exec {PROGRAM} "$@";; esac
for stream; do :; done
cat "$stream" > /dev/null
touch {tmp_path}/ended
sleep 100"""
    answer = solve(["-j", "1", "--time", "1", "--lrupd", in_place_of_lrupd(body, tmp_path),
                    generated("random 300 1", tmp_path)], tested={"FIRST_WORDS": 1 << 20})
    want_answer(answer, 0)
    assert answer.comments[0] == "time is up"
    assert not (tmp_path / "ended").exists()


@pytest.mark.parametrize("options, is_shared", [([], True), (["--no-share"], False)],
                         ids=["shared", "not shared"])
def test_clauses_are_shared(options: List[str], is_shared: bool, tmp_path: Path) -> None:
    """Engines give clauses away, and others take them over, unless nothing is shared: then no line
    cites another stream, either."""
    answer = solve(["-v", "-j", "3", *options, generated("pigeons 8", tmp_path)],
                   tested={"SLICE": 50})
    want_answer(answer, 20)
    figures = re.findall(r"clauses: ([\d,]+) taken over, .*, ([\d,]+) given away; "
                         r"[\d,]+ lines, (\d+) % of them cite", answer.out)
    assert len(figures) == 3, answer.out
    taken, given, citing = zip(*figures)
    assert any(number != "0" for number in taken) == is_shared, f"taken over: {taken}"
    assert any(number != "0" for number in given) == is_shared, f"given away: {given}"
    assert is_shared or set(citing) == {"0"}, f"% of lines that cite another stream: {citing}"


@pytest.mark.parametrize("words, engines", [("random 200 2", 4), ("pigeons 7", 3), ("order 20", 2)])
def test_an_unsatisfiable_formula(words: str, engines: int, tmp_path: Path) -> None:
    want_answer(solve(["-j", engines, generated(words, tmp_path)]), 20)


def test_an_unsatisfiable_formula_without_one_of_its_clauses(tmp_path: Path) -> None:
    clauses = read_formula(example("pigeonhole.cnf"))
    formula = written(dimacs(30, clauses[1:]), tmp_path)
    want_answer(solve([formula]), 10, formula)


def test_a_formula_with_comments(tmp_path: Path) -> None:
    text = "c a comment\n" + FOUR.replace("-1 2 0\n", "c another\n-1 2 0\n")
    want_answer(solve([written(text, tmp_path)]), 20)


@pytest.mark.seeds(300)
def test_random(seed: int, tmp_path: Path) -> None:
    """The answer isn't 'unknown', with early inprocessing: an assignment is evaluated here, and a
    kept proof is checked again."""
    numbers = random.Random(f"{seed} engines")
    formula, kept = written(random_formula(seed), tmp_path), tmp_path / "proofs"
    words = ["-v", "--memory", "64M", "--seed", seed, "-j", numbers.randint(2, 4), formula]
    keeps = seed % 10 == 0
    early = {"SET": EARLY, "SLICE": numbers.choice((20, 50, 200)),
             "FIRST_WORDS": numbers.choice((1000, 1 << 20))}
    answer = solve([*["--proofs", kept] * keeps, *words], tested=early)
    assert answer.lost() == []
    assert answer.status in (10, 20), answer.out
    want_answer(answer, answer.status, formula)
    if keeps and answer.status == 20:
        check_again(kept)


# CaDiCaL's own search.


def conflicts_of(words: Sequence[object], **how: Any) -> int:
    """The conflicts of CaDiCaL, from the last row of its report."""
    done = run(words, **how)
    found = re.findall(r"^c [01] +[\d.]+ +\d+ +\d+ +\d+ +\d+ +(\d+) .*$", done.out + done.err, re.M)
    assert len(found) == 1, done.out + done.err
    return int(found[0])


def unordered(text: str, seed: int) -> str:
    """The formula with its clauses, and the literals of each, in another order. Some of both are
    repeated, and a few tautologies are added."""
    numbers, (header, *lines) = random.Random(seed), text.splitlines()
    clauses = [[int(word) for word in line.split()[:-1]] for line in lines]
    clauses += [[1, *numbers.choice(clauses), -1] for _ in range(5)] + numbers.sample(clauses, 5)
    for clause in clauses:
        clause += numbers.sample(clause, numbers.randrange(2))
        numbers.shuffle(clause)
    numbers.shuffle(clauses)
    return dimacs(int(header.split()[2]), clauses)


@pytest.mark.parametrize("words", ["order 20", "pigeons 7", "random 150 1", "random 150 7 3.6"])
@pytest.mark.parametrize("order", [None, 1, 2], ids=["as generated", "shuffled", "another order"])
def test_one_engine_searches_as_cadical_does(words: str, order: Optional[int],
                                             tmp_path: Path) -> None:
    """On the same file, whatever the order of its clauses."""
    needs("cadical")
    formula = generated(words, tmp_path)
    if order is not None:
        formula = written(unordered(formula.read_text(), order), tmp_path)
    alone, engine = conflicts_of(["cadical", formula]), {"SET": "quiet=0 report=1"}
    found = conflicts_of(command(["-j", "1", formula], engine), env=in_environment(engine))
    assert abs(found - alone) <= alone / 10, f"{found} conflicts in place of {alone}"


def test_as_many_holes_as_pigeons(tmp_path: Path) -> None:
    """A lucky assignment satisfies the formula. CaDiCaL tries lucky assignments only once."""
    names = [[pigeon * 40 + hole + 1 for pigeon in range(40)] for hole in range(40)]
    clauses = [list(pigeon) for pigeon in zip(*names)] + [
        [-one, -other] for hole in names for one in hole for other in hole if one < other]
    formula = written(dimacs(1600, clauses), tmp_path)
    answer = solve(["-v", "-j", "2", formula])
    want_answer(answer, 10, formula)
    seconds, = re.findall(r"^c engine 1: ([\d.]+) s, .*; 0 conflicts;", answer.out, re.M)
    assert float(seconds) < 0.3


# Other programs in place of lrupd.


UNTAKEN = "lrupd (hasn't accepted the proof|ended with status 3)"


@pytest.mark.parametrize("body, cause", [
    ("exit 3", UNTAKEN), ("exit 6", "ended with status 6"), ("exit 10", "ended with status 10"),
    ("echo s UNSATISFIABLE; exit 3", UNTAKEN), ("kill -9 $$", "ended by a signal"),
    ("echo 'c stream 1: 0 added, 0 deleted, bad line 1 (missing 555)'; echo s UNKNOWN; exit 3",
     "missing 555")])
def test_another_lrupd(body: str, cause: str, tmp_path: Path) -> None:
    """In place of lrupd there is a program that accepts the formula and proves nothing."""
    path = in_place_of_lrupd(f"case \"$*\" in *' /dev/null') exit 3;; esac\n{body}", tmp_path)
    answer = solve(["--lrupd", path, example("bmc.cnf")])
    want_answer(answer, 0)
    want_cause(answer, cause)


# Processes that are killed, and signals.


class Running(Run):
    """A run whose engines, filters and lrupd have all been started. A build for tests starts lrupd
    as soon as a stream has a line, before a fast machine can finish."""

    def __init__(self, formula: Path, work: Path, ignored: Sequence[int] = ()) -> None:
        def ignore() -> None:
            for number in ignored:
                signal.signal(number, signal.SIG_IGN)
        folder = Path(tempfile.mkdtemp(dir=work))
        super().__init__(["-j", "2", formula], {"FIRST_WORDS": 1 << 22}, folder, cwd=folder,
                         preexec_fn=ignore)

    def get_ready(self) -> None:
        until("five children, or the end",
              lambda: self.process.poll() is not None or self.has_all())

    def has_all(self) -> bool:
        self.children = children_of(self.process.pid)
        return {"engine 1", "engine 2", "filter 1", "filter 2", "lrupd"} <= set(self.children)


@pytest.fixture
def running(tmp_path: Path) -> Iterator[Running]:
    """A run that takes long."""
    with Running(generated("pigeons 11", tmp_path), tmp_path) as running:
        yield running


def kill(names: List[str], number: int, status: int, cause: str, work: Path) -> None:
    """Kills children of a run. If one has already ended, the run is tried again."""
    formula = generated("random 220 5", work) if status else generated("pigeons 11", work)
    said = []
    for _ in range(TRIES):
        with Running(formula, work) as running:
            try:
                kill_children(running.children, names, number)
            except ProcessLookupError as error:
                said.append(repr(error))
                continue
            answer = running.end()
        want_answer(answer, status, formula)
        if says(answer, cause):
            return
        said.append(answer.out)
    raise AssertionError(f"expected a message on '{cause}', but found\n" + "\n".join(said))


@pytest.mark.parametrize("name, number, cause", [
    ("engine 1", signal.SIGKILL, "engine 1 is lost"),
    ("engine 2", signal.SIGTERM, "engine 2 is lost"),
    ("filter 1", signal.SIGKILL, "engine 1 is lost"),
    ("filter 2", signal.SIGTERM, "engine 2 is lost")])
def test_the_other_engine_continues(name: str, number: signal.Signals, cause: str,
                                    tmp_path: Path) -> None:
    kill([name], number, 20, cause, tmp_path)


@pytest.mark.parametrize("names, cause", named([
    ("lrupd", ["lrupd"], "lrupd ended by a signal"),
    ("an engine and a filter", ["engine 1", "filter 2"], "no engine is left")]))
def test_killed_without_an_answer(names: List[str], cause: str, tmp_path: Path) -> None:
    kill(names, signal.SIGKILL, 0, cause, tmp_path)


def want_ended_by(number: int, answer: Answer) -> None:
    assert (answer.answers, answer.status) == (["s UNKNOWN"], -number)


@pytest.mark.parametrize("number", [signal.SIGINT, signal.SIGTERM, signal.SIGHUP],
                         ids=lambda number: str(number.name))
def test_ended_by_a_signal(running: Running, number: signal.Signals) -> None:
    began = time.monotonic()
    running.process.send_signal(number)
    want_ended_by(number, running.end())
    assert time.monotonic() - began < SOON


@pytest.mark.parametrize("number", [signal.SIGHUP, signal.SIGINT],
                         ids=lambda number: str(number.name))
def test_an_ignored_signal(number: signal.Signals, tmp_path: Path) -> None:
    """A signal that was ignored at the start stays ignored, as under nohup."""
    with Running(generated("pigeons 11", tmp_path), tmp_path,
                 ignored=[number, signal.SIGCHLD]) as running:
        running.process.send_signal(number)
        goes_on(running.process)
        assert running.process.poll() is None
        running.process.send_signal(signal.SIGTERM)
        answer = running.end()
    want_ended_by(signal.SIGTERM, answer)
    assert "ended by a signal: Terminated" in answer.comments


def test_stopped_and_continued(running: Running) -> None:
    """Ctrl-Z stops engines and filters with the front, which has its own process group, and they
    continue with it."""
    pids = [running.process.pid,
            *(running.children[name] for name in ("lrup-engines", "engine 1", "filter 2"))]

    def states() -> Set[str]:
        return {of_process(pid, "stat").rsplit(")", 1)[-1].split()[0] for pid in pids}

    running.process.send_signal(signal.SIGTSTP)
    until("all are stopped", lambda: states() == {"T"})
    running.process.send_signal(signal.SIGCONT)
    until("all continue", lambda: "T" not in states())
    running.process.terminate()
    want_ended_by(signal.SIGTERM, running.end())


def test_stopped_processes_are_ended(running: Running) -> None:
    """The run removes its files, too."""
    os.kill(running.children["lrup-engines"], signal.SIGSTOP)
    running.process.terminate()
    want_ended_by(signal.SIGTERM, running.end())


def test_the_front_is_killed(running: Running) -> None:
    """The others end, too."""
    running.process.kill()
    assert running.end().status == -signal.SIGKILL


def test_engines_and_filters_give_way(running: Running) -> None:
    """If memory is short, the system kills them first: their oom_score_adj is 1000, the maximum,
    and nobody lowers it."""
    pids = {name: pid for name, pid in running.children.items()
            if name[:6] in ("engine", "filter")}
    until("engines and filters give way", lambda: {
        of_process(pid, "oom_score_adj") for pid in pids.values()} == {"1000\n"})
    own = of_process(os.getpid(), "oom_score_adj")
    assert of_process(running.process.pid, "oom_score_adj") == own
    assert of_process(running.children["lrupd"], "oom_score_adj") == own


def test_time_is_up(tmp_path: Path) -> None:
    formula, began = generated("pigeons 11", tmp_path), time.monotonic()
    answer = solve(["--time", "0.7", formula])
    want_answer(answer, 0)
    assert "time is up" in answer.comments
    assert 0.7 <= time.monotonic() - began < SOON


# Cubes.


def cubes_of(answer: Answer) -> List[int]:
    """How many cubes were dealt out, refuted, and handed on."""
    found = [re.findall(r"\d[\d,]*", line) for line in answer.comments
             if line.startswith("cubes: ")]
    return [int(number.replace(",", "")) for number in found[0]] if found else [0, 0, 0]


@pytest.mark.parametrize("engines", [3, 4, 6])
@pytest.mark.parametrize("words, status", [("random 200 2", 20), ("pigeons 8", 20),
                                           ("order 20", 20), ("random 260 3 4.1", 10)])
def test_cubes(words: str, status: int, engines: int, tmp_path: Path) -> None:
    """Engines divide the formula, and an engine that satisfies its part satisfies the formula. If
    there is an answer before any engine has a cube, the run is tried again."""
    formula = generated(words, tmp_path)
    for _ in range(TRIES):
        answer = solve(["-v", "-j", engines, formula], tested={"SLICE": 20})
        assert answer.lost() == []
        want_answer(answer, status, formula)
        dealt_out, refuted, _ = cubes_of(answer)
        if dealt_out >= engines and (status == 10 or refuted > 0):
            return
    raise AssertionError(f"no cubes were dealt out, or none refuted\n{answer.out}")


@pytest.mark.seeds(100)
def test_random_with_cubes(seed: int, tmp_path: Path) -> None:
    """As in `test_random`, the answer isn't 'unknown'; here in rounds and with assumptions."""
    numbers = random.Random(f"{seed} cubes")
    size = numbers.randrange(60, 150)
    formula = written(dimacs(size, random_clauses(
        numbers, size, round(numbers.uniform(4, 4.6) * size))), tmp_path)
    literals = [variable * numbers.choice((-1, 1))
                for variable in numbers.sample(range(1, size), numbers.choice((0, 0, 1, 3)))]
    assumed = written(" ".join(map(str, [*literals, 0])) + "\n", tmp_path, "cube")
    early = {"SET": EARLY, "SLICE": numbers.choice((5, 10, 30)),
             "FIRST_WORDS": numbers.choice((1000, 1 << 20))}
    answer = solve(["-v", "--memory", "64M", "--seed", seed, "-j", numbers.choice((3, 4)),
                    "--assume", assumed, formula], tested=early)
    assert answer.lost() == []
    assert answer.status in (10, 20), answer.out
    if answer.status == 10:
        assert set(literals) <= set(answer.values)
    is_under = answer.status == 20 and answer.answers == [VERDICTS[8]]
    want_answer(answer, answer.status, formula, VERDICTS[8] if is_under else None)


# The others may refute everything before the process is killed.
@pytest.mark.flaky(reruns=2)
@pytest.mark.parametrize("name", ["engine 2", "engine 3", "filter 4"])
def test_another_engine_gets_the_cube_of_a_lost_one(name: str, tmp_path: Path) -> None:
    """Slices are long, so the engine is killed before it has refuted its cube."""
    formula = generated("pigeons 8", tmp_path)
    with started_run(["-v", "-j", "4", formula], start_new_session=True) as process:
        try:
            assert process.stdout
            before = ""
            while "engines take cubes" not in before:
                before = process.stdout.readline() or "engines take cubes: never"
            kill_children(children_of(process.pid), [name])
            answer = end_of(process)
        finally:
            end_group(process)
    want_answer(answer, 20, formula)
    assert len(answer.lost()) == 1, answer.out
    assert cubes_of(answer)[2] >= 1, answer.out


# Outputs that can't be written.


def want_one_line(answer: Answer, cause: str) -> None:
    """There is no answer: a line of standard error says why."""
    assert (answer.answers, answer.status, answer.said.count("\n")) == ([], 1, 1)
    assert cause in answer.said


def test_a_full_disk_for_streams(tmp_path: Path) -> None:
    limit = lambda: resource.setrlimit(resource.RLIMIT_FSIZE, (4096, 4096))
    answer = solve(["-j", "1", "--proofs", tmp_path, example("bmc.cnf")], preexec_fn=limit)
    want_one_line(answer, "round-1.stream-1: File too large")


def test_a_full_disk_for_the_answer() -> None:
    with open("/dev/full", "w") as full:
        answer = solve([example("bmc.cnf")], stdout=full)
    want_one_line(answer, "cannot write the answer")


@pytest.mark.parametrize("name", ["bmc.cnf", "assumed.cnf"], ids=["unsatisfiable", "satisfiable"])
def test_a_closed_output(name: str) -> None:
    done = in_shell('exec "$0" --lrupd "$1" "$2" >&-', SOLVE, PROGRAM, example(name))
    want_one_line(Answer(done), "")


def want_to_end_without_a_reader(formula: Path) -> None:
    """If nobody can read the answer, the run ends without a message, as other programs do."""
    reader, writer = os.pipe()
    os.close(reader)
    answer = solve([formula], stdout=writer, limit=60)
    os.close(writer)
    assert (answer.status, answer.said) == (-signal.SIGPIPE, "")


def test_an_answer_that_nobody_can_read() -> None:
    want_to_end_without_a_reader(example("bmc.cnf"))


def test_nobody_could_read_an_answer(tmp_path: Path) -> None:
    """The run ends long before it has one."""
    want_to_end_without_a_reader(generated("pigeons 11", tmp_path))


# Terminals.


PROGRESS = re.compile(rb"\r([^\r\n\x1b]* conflicts[^\r\n\x1b]*)\x1b\[K")


class Terminal:
    """A terminal, which a run has as its standard error."""

    def __init__(self) -> None:
        self.leader, self.end = pty.openpty()
        fcntl.fcntl(self.leader, fcntl.F_SETFL, os.O_NONBLOCK)
        self.text = b""

    def shown(self) -> bytes:
        """All that it has shown so far."""
        with contextlib.suppress(OSError):     # nothing more, or no writer
            while chunk := os.read(self.leader, 65536):
                self.text += chunk
        return self.text


@pytest.fixture
def terminal() -> Iterator[Terminal]:
    terminal = Terminal()
    yield terminal
    os.close(terminal.leader)
    os.close(terminal.end)


def run_on(terminal: Terminal, options: List[str], count: int, work: Path) -> List[str]:
    """Ends a run once its loop has taken some turns and it has shown `count` lines of progress;
    returns the lines of its standard output."""
    with started_run(["-j", "2", *options, generated("pigeons 11", work)],
                     stderr=terminal.end) as running:
        until_there("engine 1", running)
        goes_on(running)
        until(f"{count} lines of progress",
              lambda: len(PROGRESS.findall(terminal.shown())) >= count
              or running.poll() is not None)
        running.terminate()
        out: str = running.communicate(timeout=LIMIT)[0]
    assert out.splitlines()[-1] == "s UNKNOWN"
    return out.splitlines()


@pytest.mark.parametrize("options", [[], ["-v"]], ids=" ".join)
@pytest.mark.parametrize("columns", [0, 30, 120])
def test_progress(columns: int, options: List[str], terminal: Terminal, tmp_path: Path) -> None:
    """On a terminal, progress is one line within its columns, overwritten and finally removed."""
    fcntl.ioctl(terminal.end, termios.TIOCSWINSZ, struct.pack("HHHH", 24, columns, 0, 0))
    lines = run_on(terminal, options, 3, tmp_path)
    shown, progress = terminal.shown(), PROGRESS.findall(terminal.shown())
    assert len(progress) >= 3
    assert b"\n" not in shown
    assert shown.endswith(b"\r\x1b[K")
    width = (columns or 80) - 1
    for line in progress:
        is_cut_off = len(line) == width
        assert is_cut_off or len(line) < width and columns != 30 and line.endswith(b" %")
    comments = sum(line.startswith("c ") for line in lines)
    assert shown.count(b"\r\x1b[K") <= comments + 1, "hidden more often than lines are printed"


def test_no_progress(terminal: Terminal, tmp_path: Path) -> None:
    run_on(terminal, ["-q"], 0, tmp_path)
    assert terminal.shown() == b""


def test_a_terminal_that_stops_background_processes(terminal: Terminal, tmp_path: Path) -> None:
    """As after `stty tostop`, if they write to it; only the front is in the foreground."""
    settings = termios.tcgetattr(terminal.end)
    settings[3] |= termios.TOSTOP
    termios.tcsetattr(terminal.end, termios.TCSANOW, settings)
    answer = solve(["--time", "1", generated("pigeons 11", tmp_path)], stderr=terminal.end,
                   start_new_session=True,
                   preexec_fn=lambda: fcntl.ioctl(terminal.end, termios.TIOCSCTTY, 0))
    assert "time is up" in answer.comments
    assert PROGRESS.search(terminal.shown())


@pytest.fixture
def large_formula(tmp_path: Path) -> Path:
    """A formula of 300 MB, nearly all of which are comments."""
    path = tmp_path / "large"
    with path.open("w") as file:
        file.write("p cnf 2 4\n")
        for _ in range(300):
            file.write(("c" + "x" * 98 + "\n") * 10000)
        file.write(FOUR.split("\n", 1)[1])
    return path


@pytest.mark.parametrize("options, number, why", [
    pytest.param([], signal.SIGTERM, "ended by a signal: Terminated", id="a signal"),
    pytest.param(["--time", "0.3"], 0, "time is up, but the formula hasn't been read yet",
                 id="the time")])
def test_ended_while_a_large_formula_is_read(options: List[str], number: int, why: str,
                                             large_formula: Path, terminal: Terminal) -> None:
    """A terminal shows that the formula is read; a signal ends the run at once, and so does
    --time."""
    reading = f"reading {large_formula} ..".encode()
    with started_run([*options, large_formula], stderr=terminal.end) as running:
        until("that it is read",
              lambda: reading in terminal.shown() or running.poll() is not None)
        began = time.monotonic()
        if number:
            running.send_signal(number)
        out = running.communicate(timeout=LIMIT)[0]
        lasted = time.monotonic() - began
    assert (out, running.returncode) == (f"c {why}\ns UNKNOWN\n", -number)
    assert lasted < 4
    assert terminal.shown().endswith(b"\r\x1b[K"), "the line isn't erased"


# Formulas by yosys.


def formula_by(script: Path, verilog: str, work: Path, *words: str) -> Path:
    """The formula that a script of the examples makes of a circuit, in files whose names have
    spaces."""
    needs("yosys")
    formula = work / "a formula.cnf"
    made = run(["sh", script, written(verilog, work, "the circuits.v"), *words, formula])
    assert made.status == 0, made.out + made.err
    return formula


def values_of(formula: Path, answer: Answer) -> List[Tuple[str, str]]:
    """The names and values of the circuit's signals in a model, as show.awk lists them."""
    said = run([EXAMPLES / "show.awk", formula, "-"], answer.out).out
    return [(name, value) for line in said.splitlines() for name, value in [line.split(" = ")]]


@pytest.mark.parametrize("name", ["adders", "multipliers", "sorters"])
def test_equal_circuits(name: str, tmp_path: Path) -> None:
    formula = formula_by(MITERS / "miter.sh", (MITERS / f"{name}.v").read_text(), tmp_path)
    want_answer(solve([formula]), 20)


@pytest.mark.parametrize("name, right, wrong", [
    ("adders", "(a[k] & b[k]) |", "(a[k] | b[k]) &"), ("multipliers", " + row5", ""),
    ("sorters", "exchange second(b,", "exchange second(a,")])
def test_a_wrong_circuit(name: str, right: str, wrong: str, tmp_path: Path) -> None:
    """In the model, an output differs from that of the right circuit."""
    text = (MITERS / f"{name}.v").read_text()
    assert text.count(right) == 1
    formula = formula_by(MITERS / "miter.sh", text.replace(right, wrong), tmp_path)
    answer = solve([formula])
    want_answer(answer, 10, formula)
    values = dict(values_of(formula, answer))
    outputs = set(re.findall(r"output (?:\[\S*\] )?(\w+)", text))
    assert any(values[f"one.{name}"] != values[f"other.{name}"] for name in outputs
               if f"one.{name}" in values), values


def two_modules(one: str, other: str) -> str:
    """Two circuits with these outputs, in which nothing drives the bit w."""
    ports = "(input a, output [1:0] z); wire w; assign z ="
    return f"module one{ports} {one}; endmodule\nmodule other{ports} {other}; endmodule\n"


@pytest.mark.parametrize("one, other", [("2'bxx", "{2{a}}"), ("{2{a}}", "2'bxx"),
                                        ("{a, w}", "{a, a}"), ("2'b1x", "{2{a}}")])
def test_an_undefined_bit_differs_from_any_other(one: str, other: str, tmp_path: Path) -> None:
    """A bit is undefined if it is x, or has no driver. The model names all signals, also those that
    nothing reads."""
    formula = formula_by(MITERS / "miter.sh", two_modules(one, other), tmp_path)
    answer = solve([formula])
    want_answer(answer, 10, formula)
    names = sorted(name for name, _ in values_of(formula, answer))
    assert names == ["a", "one.w", "one.z", "other.w", "other.z"]


def test_an_undefined_bit_on_which_no_output_depends(tmp_path: Path) -> None:
    circuits = two_modules("{a, a & 1'bx & 1'b0}", "{a, 1'b0}")
    want_answer(solve([formula_by(MITERS / "miter.sh", circuits, tmp_path)]), 20)


@pytest.mark.parametrize("depth, status", [("6", 20), ("7", 10)])
def test_bounded_model_checking_of_a_queue(depth: str, status: int, tmp_path: Path) -> None:
    """The queue's seventh step is bad if the queue is never full."""
    fifo = (EXAMPLES / "fifo" / "fifo.v").read_text().replace("push && !full", "push")
    formula = formula_by(EXAMPLES / "fifo" / "bmc.sh", fifo, tmp_path, depth)
    want_answer(solve([formula]), status, formula)


# The documents.


def test_the_manuals_options() -> None:
    """--help and the manual page have the same options."""
    summary = solve(["--help"])
    assert (summary.said, summary.status) == ("", 0)
    listed = re.findall(r"^  (?:(-\w), )?(--?[a-z-]+)", summary.out, re.M)
    tagged = re.findall(r"^\.It (Fl .*)$", (ROOT / "man" / "lrup-solve.1").read_text(), re.M)
    in_manual = {"-" + word for line in tagged for word in re.findall(r"Fl ([\w-]+)", line)}
    assert in_manual == {word for pair in listed for word in pair if word}


# Rules of sharing.


@pytest.mark.parametrize("rule, found, sizes, early", named([
    ("witnesses", "guard", r"is lost: .*no conflict by unit propagation", (110, 160), ELIMINATING),
    ("imports first", "order", r"is lost: its filter stopped: ", (60, 140), EARLY),
    ("kept clauses", "keeping", r"bad line \d+ \(retired ", (60, 140), EARLY)]))
def test_rules_of_sharing(rule: str, found: str, sizes: Tuple[int, int], early: str,
                          tmp_path: Path) -> None:
    def formula(seed: int) -> Path:
        numbers = random.Random(seed)
        size = numbers.randrange(*sizes)
        count = round(numbers.uniform(4, 4.9) * size)
        return written(dimacs(size, random_clauses(numbers, size, count)), tmp_path)
    rests_on(rule, found, 300, formula, lambda _: {"SET": early, "SLICE": 30})


def test_nobody_sees_a_clause_before_it_is_in_the_stream(tmp_path: Path) -> None:
    """The filter of engine 1 dies after giving away a clause that is still in its buffer."""
    rests_on("flush", "missing", 120, lambda seed: generated(f"random 70 {seed}", tmp_path),
             lambda seed: {"SLICE": 30, "LAST_GIFT": 20 + seed % 40})
