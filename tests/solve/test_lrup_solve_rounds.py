"""Runs lrup-solve with rows so small that a run takes many rounds, and with failures in and between
rounds.

One to four engines find each answer, with and without sharing; the record is checked again by lrupd
and lrup-recheck. A child is killed in a round or in the pause after it; checkpoints can't be
written; there are signals; nothing grows from round to round. The rules of sharing between rounds
are left out one by one."""
import contextlib
import glob
import os
import random
import re
import resource
import shutil
import signal
import subprocess
from pathlib import Path
from typing import Dict, List, Mapping, Sequence

import pytest

from harness import (LIMIT, LRUP_RECHECK, PROGRAM, Ran, dimacs, example, generated, link_over,
                     named, output_of, random_clauses, run, sanitizing_with, until, written)
from solving import (EARLY, Answer, Run, check_again, children_of, end_group, in_place_of_lrupd,
                     is_alive, kill_children, of_process, random_formula, rests_on, says, sleep,
                     solve, want_answer, want_cause)

pytestmark = pytest.mark.usefixtures("solve_for_tests")
SMALL = {"SAME_WORDS": 1, "SLICE": 40}      # rows that don't grow
TRIES = 10
KILLED = "lrupd ended by a signal: Killed$"


def rounds_of(answer: Answer) -> int:
    found = re.search(r" engines?, (\d+) rounds with ", answer.comments[-1])
    return int(found[1]) if found else 1


# Answers.


each_number_of_engines = pytest.mark.parametrize("options", [
    ["-j", "1"], ["-j", "2"], ["-j", "3"], ["-j", "4"], ["-j", "2", "--no-share"],
    ["-j", "4", "--no-share"]], ids=" ".join)


@each_number_of_engines
@pytest.mark.parametrize("words, size, most, status", named([
    ("bmc", "bmc.cnf", 1500, 200, 20), ("pigeonholes", "pigeons 7", 3000, 300, 20),
    ("random", "random 170 4", 12000, 300, 20),
    ("satisfiable", "random 260 5 4.15", 30000, 500, 10)]))
def test_rounds(words: str, size: int, most: int, options: List[str], status: int,
                tmp_path: Path) -> None:
    """Several rounds, with this size of a row for each engine; the record is checked again."""
    kept = tmp_path / "a record"
    formula = example(words) if words.endswith(".cnf") else generated(words, tmp_path)
    answer = solve(["-v", "--proofs", kept, *options, formula],
                   tested={**SMALL, "FIRST_WORDS": size * int(options[1])})
    want_answer(answer, status, formula)
    assert answer.lost() == []
    # An assignment may be found at any time.
    rounds, least = rounds_of(answer), 3 if status == 20 else 1
    assert least <= rounds <= most, f"{rounds} rounds, from {least} to {most}"
    listed = sum(re.match(r"round \d+: ", line) is not None for line in answer.comments)
    assert rounds - listed in ((1,) if status == 20 else (1, 2)), answer.out
    if status == 20:
        check_again(kept)
        names = [f"round-{number}.{name}" for number in range(1, rounds + 1)
                 for name in ("sizes", "stream-1")]
        assert [name for name in names if not (kept / name).exists()] == []
        assert not (kept / f"round-{rounds + 1}.stream-1").exists()
        found = output_of(run([LRUP_RECHECK, "--lrupd", PROGRAM, kept]))
        assert found.split("\n", 1)[1] == (kept / "report").read_text()


@each_number_of_engines
def test_no_record(options: List[str], tmp_path: Path) -> None:
    """Without a record, and without -v. No file is left."""
    files = tmp_path / "files"
    files.mkdir()
    answer = solve([*options, generated("random 170 4", tmp_path)],
                   tested={**SMALL, "FIRST_WORDS": 30000}, env_more={"TMPDIR": str(files)})
    want_answer(answer, 20)
    assert rounds_of(answer) > 2
    assert len(answer.comments) == 1
    assert os.listdir(files) == []


@pytest.mark.seeds(150)
def test_random(seed: int, tmp_path: Path) -> None:
    """The answer isn't 'unknown', with early inprocessing: an assignment is evaluated here, and a
    record is checked again."""
    numbers = random.Random(f"{seed} rounds")
    formula, kept = written(random_formula(seed), tmp_path), tmp_path / "kept"
    words = ["-v", "--seed", seed, "-j", numbers.randint(1, 4),
             *["--no-share"] * numbers.choice((0, 0, 0, 1)), "--proofs", kept, formula]
    tested = {"SET": EARLY, "SLICE": numbers.choice((5, 20, 50)),
              "FIRST_WORDS": numbers.choice((300, 1000, 3000)), "SAME_WORDS": 1,
              "OUTBOX": numbers.choice((100, 1000, 1 << 20))}
    answer = solve(words, tested=tested)
    assert answer.lost() == []
    want_answer(answer, answer.status if answer.status in (10, 20) else 20, formula)
    if answer.status == 20:
        check_again(kept)


@pytest.mark.parametrize("engines", [1, 2, 4])
def test_under_assumptions(engines: int, tmp_path: Path) -> None:
    """The clause that contradicts the assumptions comes after some rounds; the formula without
    assumptions is satisfiable. The record's check has the same verdict."""
    clauses = [[9999, *clause] for clause in random_clauses(random.Random(7), 130, 600)]
    formula = written(dimacs(9999, clauses), tmp_path)
    for literal, status in (("-9999", 20), ("9999", 10)):
        cube, kept = written(f"{literal} 0\n", tmp_path, "cube"), tmp_path / f"record of {literal}"
        answer = solve(["-j", engines, "--assume", cube, "--proofs", kept, formula],
                       tested={**SMALL, "FIRST_WORDS": 3000})
        want_answer(answer, status, formula,
                    "s UNSATISFIABLE UNDER ASSUMPTIONS" if status == 20 else None)
        if status == 20:
            assert rounds_of(answer) > 4, answer.out
            done = run(["sh", kept / "command"], cwd="/")
            assert done.out.splitlines()[-1] == "s UNSATISFIABLE UNDER ASSUMPTIONS"
            assert done.status == 8


def test_rows_grow(tmp_path: Path) -> None:
    """Each row, including the formula, is twice as large as the one before, up to --memory."""
    answer = solve(["-v", "-j", "2", "--memory", "3200K", generated("random 220 5", tmp_path)],
                   tested={"FIRST_WORDS": 10000})
    want_answer(answer, 20)
    rows = [int(row.replace(",", ""))
            for row in re.findall(r"^c round \d+: .* in a row of ([\d,]+) words", answer.out, re.M)]
    carried = [int(count.replace(",", ""))
               for count in re.findall(r"; ([\d,]+) carried over", answer.out)]
    assert len(rows) > 4
    assert max(rows) <= 400000
    assert rows[-1] > 380000        # the sixth row may be a little smaller than --memory
    for number, row in enumerate(rows):
        least = min(10000 << number, 399000)
        assert row > least, f"the row of round {number + 1} with its formula, {row}"
    assert min(carried) > 0


def test_rows_stay_large(tmp_path: Path) -> None:
    """Rows stay large, however often they are doubled."""
    answer = solve(["-v", "-j", "1", "--memory", "1M", generated("pigeons 8", tmp_path)],
                   tested={"FIRST_WORDS": 1 << 62})
    want_answer(answer, 20)
    rows = re.findall(r"^c round \d+: .* in a row of ([\d,]+) words", answer.out, re.M)
    assert len(rows) > 3
    assert {row for row in rows if row not in ("125,000", "124,999")} == set()


def test_a_row_without_room_for_a_clause(tmp_path: Path) -> None:
    """If a row has no room for a clause, the next row has room for it."""
    clauses = [[-k for k in range(1, 400)], *([k, 1000 + k] for k in range(1, 400)),
               *([k, -1000 - k] for k in range(1, 400))]
    answer = solve(["-j", "1", written(dimacs(1400, clauses), tmp_path)],
                   tested={**SMALL, "FIRST_WORDS": 64})
    want_answer(answer, 20)


def test_doubled_literals(tmp_path: Path) -> None:
    """A row has each literal of a clause only once, so 1,500 words are enough for these clauses."""
    formula = written(
        dimacs(2, [[one] * 300 + [other] * 300 for one in (1, -1) for other in (2, -2)]), tmp_path)
    for engines in ("1", "3"):
        want_answer(solve(["-j", engines, "--memory", "12K", formula]), 20)


@pytest.mark.parametrize("memory, words, engines", [
    ("1M", "pigeons 8", 3), ("12K", "pigeons 8", 1), ("20K", "pigeons 8", 3)])
def test_small_memory(memory: str, words: str, engines: int, tmp_path: Path) -> None:
    """However small --memory is, a row has room for the live clauses, and as much again. If that is
    more than --memory, a comment says so."""
    answer = solve(["-v", "-j", engines, "--memory", memory, generated(words, tmp_path)])
    want_answer(answer, 20)
    assert answer.lost() == []
    rows = re.findall(r"^c round \d+: .* in a row of ([\d,]+) words(, more than --memory)?;",
                      answer.out, re.M)
    usual = int(memory[:-1]) * {"K": 125, "M": 125000}[memory[-1]]
    for row, larger in rows:
        assert (int(row.replace(",", "")) > usual) == bool(larger), row
    assert any(larger for _, larger in rows), answer.out


@pytest.mark.parametrize("engines, options", [(2, []), (4, []), (4, ["--no-share"])])
def test_engines_go(engines: int, options: List[str], tmp_path: Path) -> None:
    """If no row may be larger, engines end one after the other; the last one stays, and its row may
    be larger."""
    kept = tmp_path / "kept"
    answer = solve(["-v", "-j", engines, "--memory", "20K,100K", "--proofs", kept, *options,
                    generated("pigeons 8", tmp_path)])
    want_answer(answer, 20)
    check_again(kept)
    lost = answer.lost()
    wanted = re.compile(
        r"engine \d+ is lost: the clauses of all engines leave no room in a row of 100,000 bytes")
    assert 1 <= len(lost) < engines
    assert [line for line in lost if not wanted.fullmatch(line)] == []
    assert f", {engines - len(lost)} of {engines} engines, " in answer.comments[-1]
    sizes = [[int(word) for word in (kept / f"round-{k}.sizes").read_text().split()]
             for k in range(1, rounds_of(answer) + 1)]
    streams = [count for count, _, _ in sizes]
    assert streams[0] == engines
    assert streams[-1] == engines - len(lost)
    assert sorted(streams, reverse=True) == streams
    assert [words for words in sizes
            if words[0] > 1 and words[0] * (words[1] + words[2]) > 12500] == []


@pytest.mark.parametrize("engines", [1, 3])
def test_the_largest_row(engines: int, tmp_path: Path) -> None:
    """If lrupd makes no larger row, and one engine is left, there is no answer."""
    answer = solve(["-j", engines, "--memory", "16K,16K", generated("pigeons 10", tmp_path)],
                   tested={"LARGEST": 10000, "SLICE": 40})
    want_answer(answer, 0)
    assert len(answer.lost()) == engines - 1, answer.out
    want_cause(answer, "^the remaining clauses leave no room in a row of 80,000 bytes$")


def test_the_largest_formula(tmp_path: Path) -> None:
    formula = generated("pigeons 8", tmp_path)
    answer = solve(["-j", "2", formula], tested={"LARGEST": 500})
    assert ((answer.answers, answer.status, answer.said)
            == ([], 1, "lrup-solve: the formula leaves no room in a row of 4,000 bytes\n"))
    want_answer(solve(["-j", "2", "--memory", "1K,1K", formula]), 20)


# Events in a round, and between rounds.


class Running(Run):
    """A run that has reached that round or a later one, at whose end lrupd will save round-N.cnf.
    With `pause`, lrupd is then stopped, and the run stays in the pause at the round's end until
    `go_on`; slices are long, so that few clauses are taken over before the pause."""

    def __init__(self, words: Sequence[object], number: int, work: Path, pause: bool = False,
                 **tested: object) -> None:
        self.number, self.work, self.pause = number, work, pause
        (work / "folder").mkdir(exist_ok=True)
        super().__init__(words, {"SLICE": 5000 if pause else 40, "SAME_WORDS": 1, **tested},
                         work / "folder",
                         sanitizing_with("quarantine_size_mb=1"))    # or freed memory is kept
        self.next = 0       # the round that follows the pause

    def get_ready(self) -> None:
        until(f"round {self.number}, or the end", self.has_come)
        if self.pause:
            until("the pause, or the end",
                  lambda: self.is_paused() or self.process.poll() is not None)

    def files(self, what: str) -> Dict[int, Path]:
        """The files of this name in lrupd's folder, by their rounds."""
        names = [name for place in (".rounds-*", "lrup-solve-*")
                 for name in glob.glob(f"{self.work}/*/{place}/round-*.{what}")]
        return {int(re.findall(r"\d+", name)[-1]): Path(name) for name in names}

    def rounds(self, what: str) -> List[int]:
        return list(self.files(what))

    def has_come(self) -> bool:
        self.children = {**self.children, **children_of(self.process.pid)}
        return max(self.rounds("cnf"), default=0) > self.number or self.process.poll() is not None

    def is_paused(self) -> bool:
        """Whether lrupd is stopped after a round's end, and has saved nothing of it. If it has, it
        goes on."""
        self.stop_lrupd()
        pid = self.children.get("lrupd", 0)
        until("lrupd stops", lambda: of_process(pid, "stat").rsplit(")", 1)[-1][1:2] in "TZ")
        numbers = self.rounds("sizes")
        for number in numbers:
            with contextlib.suppress(KeyError, FileNotFoundError):      # others have removed it
                if self.files("cnf")[number].stat().st_size == 0:
                    self.next = number
                    return True
        if numbers:
            self.stop_lrupd(signal.SIGCONT)
        return False

    def is_fed(self) -> bool:
        """Whether lrup-engines has closed its pipes to lrupd, which can then save without it."""
        opened = Path(f"/proc/{self.children['lrup-engines']}/fd")
        try:
            return not any(".stream-" in os.readlink(file) and file.is_fifo()
                           for file in opened.iterdir())
        except FileNotFoundError:       # it has just closed one
            return False

    def stop_lrupd(self, number: int = signal.SIGSTOP) -> None:
        with contextlib.suppress(ProcessLookupError, KeyError):
            os.kill(self.children["lrupd"], number)

    def go_on(self) -> None:
        if self.pause:
            self.stop_lrupd(signal.SIGCONT)


def kill(words: Sequence[object], number: int, pause: bool, first_words: int, names: List[str],
         status: int, cause: str, work: Path) -> None:
    """Kills children of a run in that round. If one has already ended, the run is tried again."""
    formula = generated("random 220 5", work) if status else generated("pigeons 11", work)
    said = []
    for _ in range(TRIES):
        with Running([*words, "-j", "3", formula], number, work, pause,
                     FIRST_WORDS=first_words) as running:
            try:
                kill_children(running.children, names)
                until("they have ended",
                      lambda: not any(is_alive(running.children[name]) for name in names))
                running.go_on()
                answer = running.end(LIMIT / 2)
            except (ProcessLookupError, subprocess.TimeoutExpired) as error:
                said.append(repr(error))
                end_group(running.process)
                running.end()
                continue
        want_answer(answer, status, formula)
        if says(answer, cause):
            return
        said.append(answer.out)
    raise AssertionError(f"expected a message on '{cause}', but found\n" + "\n".join(said))


def test_lrupd_is_killed(tmp_path: Path) -> None:
    kill([], 4, False, 40000, ["lrupd"], 0, KILLED, tmp_path)


@pytest.mark.parametrize("names, status, cause", named([
    ("lrupd", ["lrupd"], 0, "continues the run$"),
    ("an engine", ["engine 2"], 20, "engine 2 is lost"),
    ("a filter", ["filter 1"], 20, "engine 1 is lost"),
    ("two", ["engine 3", "filter 2"], 20, "engine 2 is lost"),
    ("all", ["filter 1", "filter 2", "filter 3"], 0, "no engine is left")]))
def test_killed_with_a_record(names: List[str], status: int, cause: str, tmp_path: Path) -> None:
    words = ["--proofs", tmp_path / "kept", "--replace"]
    kill(words, 4, False, 40000, names, status, cause, tmp_path)
    if status == 20:
        check_again(tmp_path / "kept")


@pytest.mark.parametrize("names, status, cause, has_record", named([
    ("a filter", ["filter 2"], 20, "engine 2 is lost", False),
    ("lrupd, with a record", ["lrupd"], 0, KILLED, True),
    ("lrupd and a filter, with a record", ["lrupd", "filter 2"], 0, KILLED, True),
    ("all filters", ["filter 1", "filter 2", "filter 3"], 0, "no engine is left", False)]))
def test_killed_in_a_pause(names: List[str], status: int, cause: str, has_record: bool,
                           tmp_path: Path) -> None:
    """A filter dies while it waits for lrupd to save: others may still take over what it gave
    away."""
    words = ["--proofs", tmp_path / "kept", "--replace"] if has_record else []
    kill(words, 1, True, 150000, names, status, cause, tmp_path)


@pytest.mark.parametrize("round_number, pause", [(3, False), (1, True), (2, True)])
@pytest.mark.parametrize("number", [signal.SIGINT, signal.SIGTERM, signal.SIGHUP, signal.SIGKILL])
def test_ended_by_a_signal(number: signal.Signals, round_number: int, pause: bool,
                           tmp_path: Path) -> None:
    """A signal in a round, or in the pause after it. SIGKILL goes to all processes at once."""
    with Running(["-j", "2", generated("pigeons 11", tmp_path)], round_number, tmp_path, pause,
                 FIRST_WORDS=50000) as running:
        if number == signal.SIGKILL:
            os.killpg(running.process.pid, number)
        else:
            running.process.send_signal(number)
        answer = running.end()
    assert answer.status == -number
    if number != signal.SIGKILL:
        assert answer.answers == ["s UNKNOWN"]


@pytest.mark.parametrize("pause, tested", named([
    ("in a round, since streams are far ahead", False, {"FIRST_WORDS": 1 << 24, "AHEAD": 1000}),
    ("in a pause, until lrupd saves", True, {"FIRST_WORDS": 150000})]))
def test_filters_wait_while_lrupd_is_stopped(pause: bool, tested: Dict[str, int],
                                             tmp_path: Path) -> None:
    """With AHEAD and a stopped lrupd a round wouldn't come to its pause."""
    with Running(["-j", "2", generated("pigeons 11", tmp_path)], 1, tmp_path, pause,
                 **tested) as running:
        running.stop_lrupd()
        sleep([running.children[name] for name in ("filter 1", "filter 2")])


def test_the_folder_is_removed(tmp_path: Path) -> None:
    """The folder is removed during the run, so no more files can be created in it."""
    with Running(["-j", "2", generated("pigeons 11", tmp_path)], 2, tmp_path,
                 FIRST_WORDS=50000) as running:
        for folder in running.folder.iterdir():
            while folder.exists():
                shutil.rmtree(folder, ignore_errors=True)
        answer = running.end()
    if answer.status == 1:      # the next round's files can't be made
        assert answer.answers == []
        assert re.search(r"cannot (open|make) \S*/round-\d+\.", answer.said), answer.said
    else:
        want_answer(answer, 0)
        want_cause(answer,
                   r"^lrupd ended with status [459](: TMPDIR .*)?$|^lrupd hasn't accepted|"
                   r"^engine \d is lost: its filter stopped: ")


def is_whole(path: Path) -> bool:
    """Whether a formula has as many clauses as its header says."""
    lines = [line for line in path.read_text().splitlines(True) if line[0] != "c"]
    return bool(lines) and lines[0].endswith(f" {len(lines) - 1}\n")


def test_a_forged_checkpoint(tmp_path: Path) -> None:
    """A contradiction replaces lrupd's checkpoint before anybody has read it: the filters miss
    their clauses. lrupd doesn't read the replacement, so no verdict depends on it."""
    with Running(["-j", "2", generated("pigeons 11", tmp_path)], 1, tmp_path, True,
                 FIRST_WORDS=50000) as running:
        until("all is fed", running.is_fed)
        os.kill(running.children["lrup-engines"], signal.SIGSTOP)
        running.go_on()
        saved = running.files("cnf")[running.next]
        until("it is saved", lambda: is_whole(saved))
        saved.unlink()
        written("p cnf 2 2\n1 0\n-1 0\n", saved.parent, saved.name)
        os.kill(running.children["lrup-engines"], signal.SIGCONT)
        answer = running.end()
    want_answer(answer, 0)
    assert len(answer.lost()) == 2, answer.out
    for line in answer.lost():
        assert re.search(r"lrupd hasn't saved the clause \d+, which the solver has$", line), line


@pytest.mark.parametrize("how", ["link", "file"])
def test_a_file_in_place_of_a_stream(how: str, tmp_path: Path) -> None:
    """A file that replaces a stream of the next round, just before a filter opens it, isn't written
    to."""
    mine, kept = written("mine", tmp_path, "mine"), tmp_path / "kept"
    with Running(["--proofs", kept, "-j", "2", generated("pigeons 11", tmp_path)], 1, tmp_path,
                 True, FIRST_WORDS=150000) as running:
        os.kill(running.children["filter 1"], signal.SIGSTOP)
        running.go_on()
        place = kept / f"round-{running.next}.stream-1"
        until("it is made", place.exists)
        link_over(place, mine, how)
        os.kill(running.children["filter 1"], signal.SIGCONT)
        answer = running.end()
    assert ((answer.answers, answer.said, answer.status)
            == ([], f"lrup-solve: cannot write {place}: replaced by another file\n", 1))
    assert mine.read_text() == "mine"


def test_another_folder_takes_the_name(tmp_path: Path) -> None:
    """If another folder takes the record's name, nothing in it is overwritten, and the record is
    complete where it is now."""
    kept, moved, other = tmp_path / "kept", tmp_path / "moved", tmp_path / "other"
    names = [f"round-{number}.{what}" for number in range(1, 9)
             for what in ("sizes", "stream-1", "stream-2")]
    names += ["formula.sha256", "report", ".report.new", "command"]
    with Running(["--proofs", kept, "-j", "2", generated("random 220 5", tmp_path)], 1, tmp_path,
                 True, FIRST_WORDS=40000) as running:
        kept.rename(moved)
        mine = [written("mine", other, name) for name in names]
        kept.symlink_to(other)
        running.go_on()
        answer = running.end()
    want_answer(answer, 20)
    assert [path.read_text() for path in mine] == ["mine"] * len(names)
    assert len(os.listdir(other)) == len(names)
    check_again(moved)


def test_no_folder(tmp_path: Path) -> None:
    none = tmp_path / "none"
    answer = solve(["-j", "2", generated("pigeons 11", tmp_path)],
                   tested={**SMALL, "FIRST_WORDS": 50000}, env_more={"TMPDIR": str(none)})
    assert answer.ran == Ran("", f"lrup-solve: cannot make a folder {none}/lrup-solve-XXXXXX: "
                             "No such file or directory\n", 1)


def test_a_full_disk(tmp_path: Path) -> None:
    """The disk has no room for checkpoints, since files have at most 500,000 bytes. The streams of
    a round fit."""
    clauses = random_clauses(random.Random(3), 2000, 30000, (6,))
    formula = written(dimacs(2000, clauses + read(generated("pigeons 11", tmp_path))), tmp_path)
    limit = lambda: resource.setrlimit(resource.RLIMIT_FSIZE, (500000, 500000))
    answer = solve(["-j", "2", formula], tested={**SMALL, "FIRST_WORDS": 20000}, preexec_fn=limit)
    want_answer(answer, 0)
    want_cause(answer, "^lrupd: (round [0-9]+: )?checkpoint not written")
    want_cause(answer, r"^lrupd ended with status 9: TMPDIR \(.*\) has \d+ MB left$")


def read(path: Path) -> List[List[int]]:
    return [[int(word) for word in line.split()[:-1]] for line in path.read_text().splitlines()[1:]]


UNTAKEN, WAITS = "^lrupd hasn't accepted the proof$", "exec sleep 1000 < $next.sizes"


@pytest.mark.parametrize("body, status, cause", [
    ("exit 3", 0, UNTAKEN), ("exit 9", 0, "ended with status 9"),
    ("kill -9 $$", 0, "ended by a signal"), ("cp $formula $saved; exit 3", 0, UNTAKEN),
    (WAITS, 1, "/round-2.cnf: No such file or directory"),
    (f"echo p cnf 2 1 > $saved; {WAITS}", 1, ".*/round-2.cnf: not a checkpoint of lrupd"),
    (f"cp $formula $saved; {WAITS}", 0, "lrupd hasn't saved the clause|no engine is left")])
def test_another_lrupd(body: str, status: int, cause: str, tmp_path: Path) -> None:
    """In place of lrupd there is a program that reads the streams of round 1. It may save `$saved`,
    and wait for the next round."""
    path = in_place_of_lrupd("""case "$*" in *' /dev/null') exit 3;; esac
while case "$1" in --rounds=*) false;; esac; do shift; done
next=${1#--rounds=}/round-2 formula=$2; shift 2
cat "$@" > /dev/null
saved=$next.cnf
""" + body, tmp_path)
    answer = solve(["--lrupd", path, "-j", "1", generated("pigeons 11", tmp_path)],
                   tested={**SMALL, "FIRST_WORDS": 50000})
    assert (answer.status, answer.answers) == (status, ["s UNKNOWN"] * (status == 0)), answer.said
    assert any(re.search(cause, line) for line in [*answer.comments, answer.said]), (
        answer.out + answer.said)


# Memory doesn't grow from round to round.


def resident(pid: int) -> int:
    """The process's resident memory, in kilobytes."""
    found = re.search(r"^VmRSS:\s+(\d+)", of_process(pid, "status"), re.M)
    return int(found[1]) if found else 0


def in_files(pid: int) -> int:
    """The kilobytes of the process's open files in memory, which no other figure includes."""
    total = 0
    for link in Path(f"/proc/{pid}/fd").iterdir():
        if os.readlink(link).startswith("/memfd:"):
            total += link.stat().st_blocks // 2
    return total


# What a process has in memory depends on when it is looked at.
@pytest.mark.flaky(reruns=2)
def test_memory_stays_small(tmp_path: Path) -> None:
    """Memory doesn't grow from round 10 to round 60, with streams of some 500 KB each, whose
    clauses the engines soon delete."""
    with Running(["-j", "2", generated("random 300 5", tmp_path)], 10, tmp_path, FIRST_WORDS=100000,
                 SET="reduceint=20 reducetarget=95") as running:
        def sizes() -> Dict[str, int]:
            return {"files": in_files(running.children["lrup-engines"]),
                    "front": resident(running.process.pid),
                    **{name: resident(pid) for name, pid in running.children.items()
                       if "engine" in name or "filter" in name}}

        before = sizes()
        running.number = 60
        until("round 60", running.has_come)
        after = sizes()
        running.process.terminate()
        running.end()
    for name, size in after.items():
        assert size < 1.3 * before[name] + 6000, (
            f"kilobytes of {name}, {before[name]} and then {size}")


# Rules of sharing between rounds.


SHARING = {**SMALL, "FIRST_WORDS": 20000, "SLICE": 30}


@pytest.mark.parametrize("rule, found, tested", named([
    ("identities of gifts", "renewal", r"bad line|hasn't accepted", SHARING),
    ("floors of gifts", "floor", r"bad line|hasn't accepted|hasn't saved",
     {**SHARING, "OUTBOX": 200})]))
def test_rules_of_sharing(rule: str, found: str, tested: Mapping[str, object],
                          tmp_path: Path) -> None:
    def formula(seed: int) -> Path:
        return generated(f"random {random.Random(seed).randrange(90, 140)} {seed}", tmp_path)
    rests_on(rule, found, 100, formula, lambda _: tested)
