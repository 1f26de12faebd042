"""Runs lrup-solve in small rows, and kills each of its processes in turn, and lrupd repeatedly.

Each of 10 (or --count) formulas is solved in an undisturbed run, and then once for each name of a
process, which is killed some time after it starts. The answer has to be right, or 's UNKNOWN'; if
the front is killed, it may be missing, but not wrong. No process and no file may be left. If a run
keeps a record, lrupd is killed in up to five runs, each of which resumes the one before: the last
answer has to be right, and the record is checked again. A program in lrupd's place is started once,
however it ends."""
import os
import random
import signal
import subprocess
import time
from pathlib import Path
from typing import Callable, Mapping, Optional, Sequence, Tuple

import pytest

from hard_formulas import miter, parity
from harness import (LIMIT, Ran, dimacs, example, executable, generated, named, random_clauses,
                     until, written)
from records import saved_rounds, want_no_other, way_on
from solving import (EARLY, FRONT, READING, Answer, before_lrupd, check_again, end_of,
                     engines_refusing, is_alive, marked, none_left, of_process, processes_of_run,
                     solve, started_run, until_there, want_answer)

pytestmark = pytest.mark.usefixtures("solve_for_tests")
NAMES = [FRONT, "supervisor", "lrup-engines", "engine 1", "engine 2", "filter 1", "filter 2",
         "lrupd", READING, "cleaner"]
FIRST, EARLY_KILLS = [FRONT, "supervisor", "lrup-engines", "cleaner"], 10
SOON = 6        # seconds in which files are removed after a run's end
KILLED = "lrupd ended by a signal: Killed"


def killed_one(name: str, after: float, formula: Path, hooks: Mapping[str, object],
               work: Path) -> Answer:
    """Runs lrup-solve, and kills this process some seconds after it has started, unless the run has
    ended by then."""
    files, mark = work / name.replace(" ", "-"), marked(work)
    files.mkdir()
    with started_run(["-j", "2", "--memory", "64M", formula], hooks,
                     {"TMPDIR": str(files)}) as running:
        until_there(name, running)
        time.sleep(after)
        pid = processes_of_run(running.pid).get(name)
        if pid and is_alive(pid):
            os.kill(pid, signal.SIGKILL)
        answer = end_of(running)
    none_left(mark)
    until("its files are removed", lambda: not os.listdir(files), SOON)
    return answer


@pytest.mark.seeds(10)
def test_each_process_is_killed(seed: int, tmp_path: Path) -> None:
    numbers = random.Random(f"{seed} kills")
    size = numbers.randrange(100, 150)
    formula = written(dimacs(size, random_clauses(
        numbers, size, round(numbers.uniform(4, 4.6) * size))), tmp_path)
    hooks = {"SET": EARLY, "SLICE": numbers.choice((20, 50, 200)),
             "FIRST_WORDS": numbers.choice((1000, 10000))}
    begun = time.monotonic()
    whole = solve(["-j", "2", "--memory", "64M", formula], tested=hooks)
    lasts = time.monotonic() - begun
    want_answer(whole, whole.status if whole.status in (10, 20) else 20, formula)
    for name in NAMES:
        # Most processes start some time after their run, and reading is brief.
        after = numbers.uniform(0, 0.8 * lasts) if name != READING else 0
        answer = killed_one(name, after, formula, hooks, tmp_path)
        assert answer.status in (0, whole.status, -signal.SIGKILL), f"{name}: {answer.said}"
        answer.said = ""        # has a message about the killed process
        if answer.status == -signal.SIGKILL:
            assert name == FRONT, answer.out
            assert answer.answers in ([], whole.answers), answer.out
        else:
            want_answer(answer,
                        answer.status if answer.status in (0, whole.status) else whole.status,
                        formula)


@pytest.mark.parametrize("name", FIRST)
def test_killed_at_once(name: str, tmp_path: Path) -> None:
    """The process is killed as soon as there is a folder, which is removed nevertheless. Each of
    these is the first child of the one before; names of processes may come later. The cleaner
    isn't needed."""
    formula, mark = generated("pigeons 7", tmp_path), marked(tmp_path)
    for number in range(EARLY_KILLS):
        files = tmp_path / str(number)
        files.mkdir()
        with started_run(["-j", "2", formula], {}, {"TMPDIR": str(files)},
                         stdout=subprocess.DEVNULL, stderr=subprocess.DEVNULL) as running:
            while not os.listdir(files):
                pass
            pid = running.pid
            for _ in range(FIRST.index(name)):
                pid = int(of_process(pid, f"task/{pid}/children").split()[0])
            os.kill(pid, signal.SIGKILL)
            running.wait(timeout=LIMIT)
        none_left(mark)
        assert running.returncode == 20 or name != "cleaner"
        until("the folder is removed", lambda: not os.listdir(files), SOON)


# lrupd is killed in a run that keeps a record.


def lrupd_killed(words: Sequence[object], hooks: Optional[Mapping[str, object]], files: Path,
                 moment: Callable[[], None]) -> Answer:
    """A run whose lrupd is killed at a moment, unless the run has ended by then."""
    with started_run(words, hooks, {"TMPDIR": str(files)}) as running:
        until_there("lrupd", running)
        moment()
        pid = processes_of_run(running.pid).get("lrupd", 0)
        if pid and is_alive(pid):
            os.kill(pid, signal.SIGKILL)
        return end_of(running)


def has_ended_killed(answer: Answer, kept: Path, formula: Path) -> None:
    """The run has no answer, and says why and, if a round was saved, how to go on."""
    want_answer(answer, 0)
    assert any(line.startswith(KILLED) for line in answer.comments), answer.out
    if saved_rounds(kept) > 1:
        assert way_on(answer, kept, formula)[0] == saved_rounds(kept) - 1


def hard(words: str, work: Path) -> Path:
    """An unsatisfiable formula of this kind and size."""
    kind, size = words.split()
    if kind == "pigeons":
        return generated(words, work)
    numbers = random.Random(words)
    return written(
        parity(numbers, int(size), True) if kind == "parity" else miter(int(size), numbers, False),
        work)


SMALL = {"SET": EARLY, "SAME_WORDS": 1, "SLICE": 50, "FIRST_WORDS": 30000}


# The first run may end before lrupd is killed.
@pytest.mark.flaky(reruns=2)
@pytest.mark.parametrize("words, count, most, hooks, options", named([
    ("pigeons 7, small rows", "pigeons 7", 1, 0.1, SMALL, []),
    ("pigeons 8, small rows", "pigeons 8", 3, 0.3, SMALL, ["-j", "3"]),
    ("miter 7, small rows", "miter 7", 5, 0.3, SMALL, []),
    ("parity 74, small rows", "parity 74", 2, 1.5, SMALL, []),
    ("pigeons 9, one row", "pigeons 9", 2, 1.5, None, []),
    ("miter 8, saved often", "miter 8", 3, 1.5, None, ["--save-every", "0.3"])]))
def test_lrupd_is_killed_again(words: str, count: int, most: float,
                               hooks: Optional[Mapping[str, object]], options: Sequence[str],
                               tmp_path: Path) -> None:
    """Each run ends once lrupd is killed, and another run goes on from the record. The record's
    command checks all rounds."""
    numbers, mark = random.Random(f"{words} {count}"), marked(tmp_path)
    kept, files = tmp_path / "kept", tmp_path / "temporary"
    files.mkdir()
    formula, runs = hard(words, tmp_path), 0
    answer = Answer(Ran("", "", 0))
    while answer.status == 0 and runs < count:
        record = "--resume" if kept.exists() else "--proofs"
        answer = lrupd_killed(["-v", "-j", "2", *options, record, kept, formula], hooks, files,
                              lambda: time.sleep(numbers.uniform(0, most)))
        none_left(mark)
        until("its files are removed", lambda: not os.listdir(files), SOON)
        if answer.status == 0:
            has_ended_killed(answer, kept, formula)
        runs += 1
    assert runs > 1 or answer.status == 0, answer.out
    if answer.status == 0:
        answer = solve(["-j", "2", "--resume", kept, formula], tested=hooks)
    want_answer(answer, 20)
    check_again(kept)


def after_rounds(count: int, change: Callable[[Path], object], work: Path) -> Tuple[Path, Path]:
    """A record of this many rounds or more, which is changed before lrupd is killed, and the
    formula."""
    marked(work)
    kept, files, formula = work / "kept", work / "temporary", generated("pigeons 11", work)
    files.mkdir()

    def moment() -> None:
        until(f"{count} rounds have ended", lambda: saved_rounds(kept) > count)
        change(kept)

    answer = lrupd_killed(["-j", "2", "--proofs", kept, formula],
                          {"SAME_WORDS": 1, "FIRST_WORDS": 5000}, files, moment)
    has_ended_killed(answer, kept, formula)
    return kept, formula


def test_a_stream_is_gone(tmp_path: Path) -> None:
    """A stream that another lrupd would have to read has been packed meanwhile: the run that would
    go on says so."""
    kept, formula = after_rounds(
        2, lambda kept: (kept / "round-1.stream-2").rename(tmp_path / "packed"), tmp_path)
    want_no_other(solve(["-j", "2", "--resume", kept, formula]), 20, formula, kept,
                  "round-1.stream-2")


def spoilt(kept: Path) -> None:
    path = kept / "round-2.stream-1"
    path.write_bytes(b"x" + path.read_bytes())


def test_a_stream_was_changed(tmp_path: Path) -> None:
    """The record ends before a stream that was changed."""
    kept, formula = after_rounds(3, spoilt, tmp_path)
    answer = solve(["-j", "2", "--resume", kept, formula])
    want_answer(answer, 0)
    said = [f"{kept}/round-2.stream-1 was changed since it was saved",
            f"{kept} has 1 round, but not what came after: lrup-solve --resume {kept} {formula} "
            "continues the run"]
    assert [line for line in said if line not in answer.comments] == [], answer.out


# lrupd is killed while a round is being saved.


# The calls with which the saver of one stream's round brings files to disk: the round's two files,
# the checkpoint, the list, and the folder.
SIZES, LIST, FOLDER = 1, 4, 5
BOUND = 6       # seconds for which a run that ends waits for a save


def killed_in_a_save(refused: str, signals: Sequence[int], work: Path) -> Tuple[Answer, float]:
    """A run with one engine whose lrupd is killed once a call of its first saver is late. Then come
    signals. Also the seconds from then on until the run has ended."""
    mark, files, formula = marked(work), work / "temporary", generated("pigeons 11", work)
    files.mkdir()
    engines, is_late = engines_refusing(refused, work)
    hooks = {"SAME_WORDS": 1, "FIRST_WORDS": 5000}
    words = ["--engines", engines, "-j", "1", "--proofs", work / "kept", formula]
    with started_run(words, hooks, {"TMPDIR": str(files)}) as running:
        until("a call is late", is_late.exists)
        os.kill(processes_of_run(running.pid)["lrupd"], signal.SIGKILL)
        begun = time.monotonic()
        for number in signals:
            time.sleep(0.3)
            running.send_signal(number)
        answer = end_of(running)
    seconds = time.monotonic() - begun
    none_left(mark)
    until("its files are removed", lambda: not os.listdir(files), SOON)
    return answer, seconds


@pytest.mark.parametrize("call", [SIZES, LIST, FOLDER])
def test_a_save_is_waited_for(call: int, tmp_path: Path) -> None:
    """The save ends, and the last message names the round."""
    answer, _ = killed_in_a_save(f"sync:{call}:2", [], tmp_path)
    has_ended_killed(answer, tmp_path / "kept", tmp_path / "formula.cnf")
    assert saved_rounds(tmp_path / "kept") == 2
    assert not any(" couldn't be saved" in line for line in answer.comments), answer.out


def test_a_save_that_hangs(tmp_path: Path) -> None:
    """The run ends nevertheless, and says that the round wasn't saved."""
    answer, seconds = killed_in_a_save(f"sync:{SIZES}:60", [], tmp_path)
    has_ended_killed(answer, tmp_path / "kept", tmp_path / "formula.cnf")
    assert saved_rounds(tmp_path / "kept") == 1
    assert "round 1 couldn't be saved: its process ended by a signal: Killed" in answer.comments
    assert BOUND - 1 < seconds < 3 * BOUND


def test_signals_during_a_save_that_hangs(tmp_path: Path) -> None:
    """The second signal ends the run at once."""
    answer, seconds = killed_in_a_save(f"sync:{SIZES}:60", [signal.SIGTERM, signal.SIGINT],
                                       tmp_path)
    assert (answer.answers, answer.said, answer.status) == (["s UNKNOWN"], "", -signal.SIGTERM)
    assert seconds < BOUND - 1


# The front is killed before it starts anything else.


def test_an_unpacker_ends_with_the_front(monkeypatch: pytest.MonkeyPatch, tmp_path: Path) -> None:
    """The program that unpacks the formula hangs, so a closed pipe doesn't end it."""
    mark, begun = marked(tmp_path), tmp_path / "begun"
    executable(f"touch {begun}\nexec sleep 1000", tmp_path, "zstd")
    monkeypatch.setenv("PATH", str(tmp_path), prepend=":")
    with started_run([written("", tmp_path, "formula.cnf.zst")], stdout=subprocess.DEVNULL,
                     stderr=subprocess.DEVNULL) as running:
        until("it unpacks", begun.exists)
        running.kill()
    none_left(mark)


# Programs in lrupd's place.


SEARCHING = {"FIRST_WORDS": 1 << 20}    # engines search while lrupd ends
KEPT = ["--proofs", "{tmp_path}/kept"]


@pytest.mark.parametrize("body, cause, hooks, options", named([
    ("a record", "kill -9 $$", KILLED, None, KEPT),
    ("a record, while engines search", "kill -9 $$", KILLED, SEARCHING, KEPT),
    ("a record, with SIGSEGV", "kill -SEGV $$",
     "lrupd ended by a signal: Segmentation fault", SEARCHING, KEPT),
    ("a record, once", "[ $count -gt 1 ] || kill -9 $$", KILLED, None, ["-v", *KEPT]),
    ("a record, twice", "[ $count -gt 2 ] || kill -9 $$", KILLED, SEARCHING, ["-v", *KEPT]),
    ("a record, and lines",
     "[ $count -gt 1 ] || { echo 'c stream 1: 9 added'; printf 's UNSAT'; kill -9 $$; }",
     KILLED, None, KEPT),
    ("a record, and a verdict",
     "[ $count -gt 1 ] || { echo 's UNSATISFIABLE'; kill -9 $$; }; exit 0", KILLED, SEARCHING,
     KEPT),
    ("no record", "kill -9 $$", KILLED, None, []),
    ("no record, once", "[ $count -gt 1 ] || kill -9 $$", KILLED, None, []),
    ("no record, while engines search", "kill -9 $$", KILLED, SEARCHING, []),
    ("a record, and status 137", "exit 137", "lrupd ended with status 137", SEARCHING, KEPT),
    ("a record, and status 9", "exit 9", "lrupd ended with status 9", SEARCHING, KEPT),
    ("a record, and status 6", "exit 6", "lrupd ended with status 6", None, KEPT)]))
def test_in_place_of_lrupd(body: str, cause: str, hooks: Optional[Mapping[str, object]],
                           options: Sequence[str], tmp_path: Path) -> None:
    """A program in lrupd's place is started once to check streams."""
    marked(tmp_path)
    counts = f"echo x >> {tmp_path}/starts; count=$(wc -l < {tmp_path}/starts)"
    lrupd = before_lrupd(f"case \"$*\" in *--rounds*) {counts}; {body};; esac", tmp_path)
    formula = example("bmc.cnf") if hooks is None else generated("pigeons 11", tmp_path)
    words = [word.format(tmp_path=tmp_path) for word in options]
    answer = solve(["-j", "2", "--lrupd", lrupd, *words, formula], tested=hooks)
    want_answer(answer, 0)
    assert len((tmp_path / "starts").read_text().splitlines()) == 1, answer.out
    assert cause == "" or any(cause in line for line in answer.comments), (
        f"whether '{cause}' is said in\n{answer.out}")
