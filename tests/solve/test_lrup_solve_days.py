"""Kills processes of lrup-solve at random moments, and resumes the run from its record, until there
is a verdict.

Any process of a run may be killed, including the first one and the front, and one run may lose
several. Each time, everything that was saved before has to be there, and nothing else may be left:
no file, process or shared memory. Some records are copied, and changed, truncated or swapped, or
resumed with another formula: that must not lead to a wrong answer, and a message has to name the
file. The disk of some records is full now and then. The verdict is checked by the assignment, or by
the record's command and by the LRAT text that lrup-trim makes.

--seed, 1 by default, determines the formulas and the options; much of the rest depends on timing.
With --minutes, larger formulas are solved, from this seed on, until that time has passed; otherwise
there is one test of each kind, which takes less than a minute."""
import contextlib
import functools
import os
import random
import re
import shutil
import signal
import subprocess
import time
from pathlib import Path
from typing import Callable, Dict, Iterator, List, Optional, Tuple

import pytest

from hard_formulas import miter, parity
from harness import (LIMIT, MINUTES, SEED, Ran, dimacs, generated, random_clauses, run, until,
                     within, written)
from records import CHANGES, UNKNOWN, saved_rounds, want_no_other, whole
from solving import (ANSWERS, EARLY, Answer, is_alive, marked, none_left, of_process,
                     processes_of_run, solve, started_run, want_answer)

pytestmark = pytest.mark.usefixtures("solve_for_tests", "in_time")
SIZE = 1 if MINUTES else 0
RUNS = 100      # of one formula, at most
SOON = 10       # seconds after which files have to be removed
KILOBYTE = 1024


# Formulas, each with its right status, or None if only a run can find it.


def of_pigeons(numbers: random.Random, work: Path) -> Tuple[Path, Optional[int]]:
    return generated(f"pigeons {8 + SIZE}", work), 20


def of_fewer(numbers: random.Random, work: Path) -> Tuple[Path, Optional[int]]:
    return generated(f"pigeons {7 + SIZE}", work), 20


def of_parity(numbers: random.Random, work: Path) -> Tuple[Path, Optional[int]]:
    is_odd = numbers.random() < 0.8
    return (written(parity(numbers, numbers.randrange(70, 78, 2) + 14 * SIZE, is_odd), work),
            20 if is_odd else 10)


def at_random(numbers: random.Random, work: Path) -> Tuple[Path, Optional[int]]:
    size = numbers.randrange(190, 210) + 50 * SIZE
    return written(dimacs(size,
                          random_clauses(numbers, size, round(numbers.uniform(4.2, 4.4) * size))),
                   work), None


def of_multipliers(numbers: random.Random, work: Path) -> Tuple[Path, Optional[int]]:
    is_faulty = numbers.random() < 0.2
    return written(miter(7 + SIZE, numbers, is_faulty), work), 10 if is_faulty else 20


KINDS = {"pigeons": of_pigeons, "fewer pigeons": of_fewer, "parity": of_parity, "random": at_random,
         "miter": of_multipliers}


# Runs, and the processes that are killed.


def has_begun_nothing(answer: Answer) -> bool:
    """Whether all engines were killed before their first lines: then the run says that none could
    run."""
    return re.search(r"^lrup-solve: nothing could run: the \w+ ended by a signal: ", answer.said,
                     re.M) is not None


class Chain:
    """A record, and the runs that resume from it."""

    def __init__(self, kind: str, seed: int, work: Path) -> None:
        self.mark, self.work = marked(work), work
        self.numbers = random.Random(f"{seed} {kind}")
        self.formula, self.status = KINDS[kind](self.numbers, work)
        self.kept = work / "kept"
        self.temporary, self.here = work / "temporary", work / "here"
        self.temporary.mkdir()
        self.here.mkdir()
        slice_size, words = (self.numbers.choice((20, 50, 200)),
                             self.numbers.choice((10000, 30000, 100000)))
        small = {"SET": EARLY, "SAME_WORDS": 1, "SLICE": slice_size, "FIRST_WORDS": words}
        self.tested = small if self.numbers.random() < 0.7 else None
        self.names: List[str] = []      # of the processes that were killed in the last run

    def words(self) -> List[object]:
        """The words of the next run, whose options are different each time."""
        numbers = self.numbers
        how = ["--resume" if (self.kept / "files").exists() else "--proofs", self.kept]
        clock = ["--save-every", numbers.choice((0.1, 0.3))] if self.tested is None else []
        alone = ["--no-share"] * (numbers.random() < 0.2)
        return ["-j", numbers.randint(1, 3), *alone, "--seed", numbers.randrange(5), *clock,
                *how, self.formula]

    def killed(self, pause: Optional[float], before: Callable[[], None] = lambda: None) -> Answer:
        """A run in which a process is killed after each pause; without `pause`, no process is. No
        saved round may be lost."""
        saved, names = saved_rounds(self.kept), []
        with started_run(self.words(), self.tested, {"TMPDIR": str(self.temporary)}, cwd=self.here,
                         preexec_fn=before) as running:
            while running.poll() is None:
                try:
                    out, said = running.communicate(
                        timeout=self.numbers.uniform(0, pause) if pause else LIMIT)
                    break
                except subprocess.TimeoutExpired:
                    assert pause is not None, f"it hasn't ended within {LIMIT} seconds"
                    names += self.kill_one(running.pid)
            else:
                out, said = running.communicate()
        print(f"{', '.join(names) or 'nothing'}: status {running.returncode}, "
              f"{saved_rounds(self.kept) - 1} rounds")
        self.names = names
        self.none_left("cleaner" in names)
        is_proved = (self.kept / "command").exists()
        assert is_proved or saved_rounds(self.kept) >= saved
        return Answer(Ran(out, said, running.returncode))

    def kill_one(self, front: int) -> List[str]:
        found = processes_of_run(front)
        shared = [line for pid in found.values() for line in of_process(pid, "maps").splitlines()
                  if "/dev/shm/" in line or "/SYSV" in line]
        assert shared == []
        name = self.numbers.choice(sorted(found))
        if not is_alive(found[name]):
            return []
        with contextlib.suppress(ProcessLookupError):
            os.kill(found[name], signal.SIGKILL)
        return [name]

    def none_left(self, is_unclean: bool) -> None:
        """A killed run leaves its folder only if its cleaner was killed, too."""
        none_left(self.mark)
        if is_unclean:
            for path in self.temporary.iterdir():
                shutil.rmtree(path)
        until("files of the run are removed", lambda: not os.listdir(self.temporary), SOON)
        assert os.listdir(self.here) == []

    # Answers.

    def is_answered(self, answer: Answer) -> bool:
        """Whether there is an answer, which has to be right."""
        if answer.said.endswith(" checks it\n"):        # it was killed once it had the proof
            self.found(20)
            return True
        if not answer.answers or answer.answers == [UNKNOWN]:
            statuses = (1,) if has_begun_nothing(answer) else (0, -signal.SIGKILL)
            assert answer.status in statuses, answer.out + answer.said
            return False
        status = {line: number for number, line in ANSWERS.items()}[answer.answers[0]]
        if answer.status == -signal.SIGKILL:        # the front had printed the answer by then
            return False
        answer.said = ""        # may have an engine's last words
        want_answer(answer, status, self.formula)
        if status == 20 and "lrup-engines" in self.names and not (self.kept / "command").exists():
            assert self.status in (None, 20)
            self.status = 20    # a resumed run completes the record
            return False
        self.found(status)
        return True

    def found(self, status: int) -> None:
        assert self.status in (None, status)
        self.status = status
        if status == 10:
            return
        whole(self.kept, self.formula, self.work)
        done = run(["sh", self.kept / "command", self.formula], cwd=self.here)
        assert done.out.splitlines()[-1:] == [ANSWERS[20]], done.err
        assert done.status == 0, done.err


def solved(kind: str, seed: int, work: Path) -> None:
    chain = Chain(kind, seed, work)
    print(f"{chain.formula.read_text().splitlines()[0]}, "
          f"{'small rows' if chain.tested else 'one row'}")
    has_changed = False
    for count in range(RUNS):
        answer = chain.killed(0.3 * 1.4 ** count)
        if chain.is_answered(answer):
            return
        if saved_rounds(chain.kept) > 1000:     # to check many more would take too long
            chain.tested = None
        if (saved_rounds(chain.kept) > 2
                and (not has_changed or chain.numbers.random() < 0.2 * SIZE)):
            has_changed = True
            changed(chain)
            of_another(chain)
    raise AssertionError(f"no answer by {RUNS} runs")


# Records that aren't what they were.


def changed(chain: Chain) -> None:
    """Changes a copy of the record, and resumes from that for some seconds."""
    kept, numbers = chain.work / "changed", chain.numbers
    shutil.copytree(chain.kept, kept)
    name, change = numbers.choice(sorted(CHANGES.items()))
    try:
        names = change(kept, numbers)
    except (IndexError, ValueError):        # there is no such file, or an empty one
        return shutil.rmtree(kept)
    print(f"a copy with {name}, {names}")
    began = time.monotonic()
    answer = solve(["-j", 2, "--time", 3, "--resume", kept, chain.formula], tested=chain.tested,
                   env_more={"TMPDIR": str(chain.temporary)})
    # Eight seconds after the time is up, the front ends lrup-engines, which then gives no cause.
    is_up = "time is up" in answer.comments or time.monotonic() - began > 3 + 8
    if answer.status in (10, 20) and chain.status is None:
        want_answer(answer, answer.status, chain.formula)
    elif answer.status != 0 or not is_up:
        want_no_other(answer, -1 if chain.status is None else chain.status,
                      chain.formula, kept, names)
    if answer.status == 20:
        whole(kept, chain.formula, chain.work)
    chain.none_left(False)
    shutil.rmtree(kept)


def contents(folder: Path) -> "dict[str, bytes]":
    return {path.name: path.read_bytes() for path in folder.iterdir()}


def of_another(chain: Chain) -> None:
    """With another formula, the record is refused, and nothing in it is touched."""
    other, before = (written(chain.formula.read_text() + "c more\n", chain.work, "other.cnf"),
                     contents(chain.kept))
    answer = solve(["--resume", chain.kept, other], tested=chain.tested)
    said = f"lrup-solve: {other} isn't the formula of {chain.kept}, or was changed since\n"
    assert (answer.out, answer.said, answer.status) == ("", said, 1)
    assert contents(chain.kept) == before


# Disks that fill up.


@contextlib.contextmanager
def disk(place: Path) -> Iterator[Callable[[int], None]]:
    """Mounts a separate file system on this folder; the yielded function sets its size in
    kilobytes."""
    def sized(kilobytes: int, how: str = "remount,") -> bool:
        return run(["mount", "-t", "tmpfs", "-o", f"{how}size={kilobytes}k", "none",
                    place]).status == 0

    def resize(kilobytes: int) -> None:
        assert sized(kilobytes)

    place.mkdir()
    if not shutil.which("mount") or not sized(64, ""):
        pytest.skip("no file system can be mounted")
    try:
        yield resize
    finally:
        run(["umount", "-l", place])


def with_little(chain: Chain, why: str, limited: Callable[[int], Callable[[], None]]) -> None:
    """The first run isn't killed: its answer is right, or it has none, and it reports what it
    couldn't write. Later runs have more and more space, and are killed, except the last ones."""
    for count in range(RUNS):
        kilobytes = 100 * 3 ** min(count, 10)
        answer = chain.killed(1.5 if 0 < count < 5 else None, limited(kilobytes))
        text = answer.out + answer.said
        is_refused = ("lrup-solve: " in answer.said and not has_begun_nothing(answer)
                      and not answer.said.endswith(" checks it\n"))
        if count == 0 or is_refused:
            assert "cannot write " in text
            assert why in text
            assert answer.answers in ([], [UNKNOWN], [ANSWERS[20]]), text
        elif chain.is_answered(answer):
            return
    raise AssertionError(f"no answer by {RUNS} runs")


def on_disks(seed: int, work: Path) -> None:
    chain = Chain("fewer pigeons", seed, work)
    chain.tested = chain.tested or {"SAME_WORDS": 1, "FIRST_WORDS": 20000}
    with disk(work / "disk") as sized:
        chain.kept = work / "disk" / "kept"

        def limited(kilobytes: int) -> Callable[[], None]:
            sized(kilobytes)
            return lambda: None
        with_little(chain, "No space left on device", limited)


def in_small_files(seed: int, work: Path) -> None:
    chain = Chain("fewer pigeons", seed, work)
    chain.tested = chain.tested or {"SAME_WORDS": 1, "FIRST_WORDS": 20000}
    with_little(chain, "File too large",
                lambda kilobytes: lambda: within(kilobytes * KILOBYTE // 20))


# The tests.

# No seed takes less than a second.
SEEDS = range(SEED, SEED + 1 + int(60 * MINUTES))
WAYS: Dict[str, Callable[[int, Path], None]] = {
    **{kind: functools.partial(solved, kind) for kind in KINDS if kind != "fewer pigeons"},
    "a full disk": on_disks, "small files": in_small_files}


@pytest.mark.parametrize("way", WAYS)
@pytest.mark.parametrize("seed", SEEDS)
def test_killed_until_there_is_a_verdict(seed: int, way: str, tmp_path: Path) -> None:
    """What is printed is shown if the test fails: how to repeat it, and what happened before."""
    print(f"again: make days SEED={seed} MINUTES={0.01 * SIZE}")
    WAYS[way](seed, tmp_path)
