"""lrupd where calls of the system are refused: each allocation, read, write, thread, open, creation
of a file and flush in turn. Each answer and checkpoint has to be a permitted one.

The loader puts refuse.c before the C library. The first call of a kind is refused, then the second,
and so on until a run meets no refusal; that run has to give the normal answer. The same is done
with a few of the crates' tests: runs without the program around them, calls that can be repeated,
and calls that allocate nothing. Tests that `rt ci` built are used as they are; others are built
with --rt."""
import itertools
import os
import re
import resource
import subprocess
from pathlib import Path
from typing import Iterable, Iterator, List, NamedTuple, Optional, Sequence, Set, Tuple

import pytest

from harness import (BUILDS, EXAMPLES, FOUR, ROOT, RT, SMALL_ROW, SUPPORT, alone, compiled,
                     enough_for, lacking, piped, report, run, waiting, write_all)
from refused import (ERRORS_OF_READS, FOUR_CLAUSE, SECONDS, SHORT, Answer, Input, InRounds, Machine,
                     complaints, complaints_in_rounds, is_right, not_started)
from rounds import ONE, TWO, Proof

ERRORS_OF_WRITES = ["EIO", "ENOSPC", "EPIPE"]
ERRORS_OF_OPENINGS = ["EACCES", "EMFILE", "ELOOP", "ENOENT"]
ERRORS_OF_CREATIONS = ["EACCES", "EMFILE", "ENOSPC"]
ERRORS_OF_FLUSHES = ["EIO", "ENOSPC"]
MOST = 1_000  # no run makes as many calls of a kind
HELD = 100  # seconds after which a run that waits for a pipe counts as hanging
# Milliseconds by which threads start late in the program that has to be found wrong.
VERY_LATE = 1000


# Inputs.


def clauses(count: int) -> str:
    """A formula with `count` clauses, short and long ones in turn."""
    return f"p cnf 12 {count}\n" + count // 2 * "1 2 0\n1 2 3 4 5 6 7 8 9 10 11 12 0\n"


MANY = 5_000
# The hints of the first line of bmc.lrup; the import of the first clause of bmc.cnf.
LINES = [f"{number} 101 -107 -108 -109 0 487 490 0\n1 i 13 -1 5 0\n"
         for number in range(534, 534 + MANY)]
DROP = "534 d 2 0\n"
FILES = {
    "one": "5 2 0 1 2 0\n7 0 5 3 4 0\n",
    "other": "6 -2 0 3 4 0\n",
    "dropping": "5 d 1 0\n5 2 0 1 2 0\n",
    "drops": "5 d 1 0\n",
    "first": "5 2 0 1 2 0\n",
    "dropping_last": "5 2 0 1 2 0\n7 d 1 0\n",
    "drops_after": "5 2 0 1 2 0\n5 d 5 1 0\n",
    "importing": "5 2 0 1 2 0\n2 i 2 -1 0\n6 i -2 0\n7 0 5 6 0\n",
    "other_importing": "6 -2 0 3 4 0\n5 i 2 2 0\n",
    "bad": "p cnf 2 1\n1 x 0\n",
    "bad_cube": "-2  0\n",
    "few_clauses": clauses(2),
    "many_clauses": clauses(MANY),
    "line": LINES[0],
    "many_lines": "".join(LINES),
    "drop_and_line": DROP + LINES[0],
    "drop_and_many_lines": DROP + "".join(LINES),
}
ROW_ONE = EXAMPLES / "four-clause.lrup"
BMC = EXAMPLES / "bmc.cnf"
FOUR_SOLVERS = [EXAMPLES / f"bmc-four.{number}" for number in range(1, 5)]
CUBE = EXAMPLES / "assumed.cube"
ASSUMED = [EXAMPLES / "assumed.cnf", EXAMPLES / "assumed.lrup"]
AT_ONCE = "0 added, 0 deleted, out of memory at line 1"
WAYS: List[List[str]] = [[], ["--serial"]]
# The last round drops a clause, and derives none.
UNKNOWN = Proof([*ONE.texts[:2], ["5 d 2 0\n"]], [*ONE.said[:2], ["0 added, 1 deleted, ended"]],
                [*ONE.saved[:2], "p cnf 2 3\n1 -2 0\nc id 3\n2 0\nc id 4\n1 0\n"])


def given(name: str, words: Sequence[object], streams: int = 0, dropped: Sequence[Answer] = (),
          waits: bool = False, out: Optional[str] = None) -> Input:
    files = {str(word): FILES[str(word)] for word in words if str(word) in FILES}
    shown = name + " --serial" * ("--serial" in words)
    return Input(shown, words, streams, dropped, waits, out, files)


def dropped(*said: str, saved: Optional[str] = None) -> List[Answer]:
    """The answer if there is no memory for an identity that is dropped."""
    return [Answer(report(said, 3), "", 3, saved)]


def streams(way: List[str]) -> Iterator[Input]:
    """`row 1` has a row of the default size."""
    small = [*SMALL_ROW, *way]
    yield given("two streams", [*small, FOUR_CLAUSE, "one", "other"], 2)
    yield given("a dropped clause", [*small, FOUR_CLAUSE, "dropping"], 1, dropped(AT_ONCE))
    yield given("a dropped clause beside another stream",
                [*small, FOUR_CLAUSE, "dropping", "other"], 2,
                dropped(AT_ONCE, "1 added, 0 deleted, ended"))
    yield given("a drop alone", [*small, FOUR_CLAUSE, "drops"], 1, dropped(AT_ONCE))
    yield given("a drop after a deletion", [*small, FOUR_CLAUSE, "drops_after"], 1,
                dropped("1 added, 1 deleted, out of memory at line 2"))
    yield given("row 1", [*way, FOUR_CLAUSE, ROW_ONE], 1)
    yield given("a dropped clause, watched", [*small, "--watch", FOUR_CLAUSE, "dropping"], 1,
                dropped(AT_ONCE))
    # These tries take a third of a second if the other stream fails.
    few = ["--lines", "100", "--room", "100", *(way or ["--tries", "5000"])]
    yield given("imports", [*few, FOUR_CLAUSE, "importing", "other_importing"], 2)
    yield given("assumptions", [*few, "--assume", CUBE, *ASSUMED], 1)
    yield given("bad assumptions", [*few, "--assume", "bad_cube", *ASSUMED], 1)
    yield given("four solvers",
                [*enough_for(FOUR_SOLVERS), *(way or ["--tries", "1000000"]), BMC, *FOUR_SOLVERS],
                4, waits=not way)


def checkpoints(way: List[str]) -> Iterator[Input]:
    """Runs that save something, and some that have nothing to save, or nowhere to save it."""
    words = ["--lines", "100", "--room", "100", *(way or ["--tries", "5000"]), "--checkpoint",
             "saved"]
    one = FOUR.replace("2 4", "2 5") + "2 0\n"
    yield given("a checkpoint after a drop", [*words, FOUR_CLAUSE, "dropping_last"], 1,
                dropped("1 added, 0 deleted, out of memory at line 2", saved=one))
    yield given("a checkpoint, watched", [*words, "--watch", FOUR_CLAUSE, "first", os.devnull], 2)
    yield given("a checkpoint of many clauses", [*words, "many_clauses", os.devnull], 1)
    yield given("a checkpoint under assumptions", [*words, "--assume", CUBE, *ASSUMED], 1)
    yield given("a checkpoint where the formula is refuted",
                [*words, FOUR_CLAUSE, "importing", "other_importing"], 2)
    yield given("a checkpoint and a full device", [*words, FOUR_CLAUSE, os.devnull], 1,
                out="/dev/full")
    yield given("a checkpoint where a folder is",
                [*SMALL_ROW, *way, "--checkpoint", ".", FOUR_CLAUSE, ROW_ONE], 1)
    yield given("a checkpoint and a missing stream", [*words, FOUR_CLAUSE, "missing"], 1)


def in_rounds(way: List[str]) -> Iterator[Input]:
    """Three rounds to the empty clause, and three that derive less."""
    for name, proof, more in (("one", ONE, ()), ("two", TWO, ()), ("unknown", UNKNOWN, ()),
                              ("watched", ONE, ("--watch",))):
        yield InRounds(" ".join(["three rounds,", name, *way]),
                       [*(way or ["--tries", "20000"]), *more], proof)


def inputs() -> Iterator[Input]:
    for way in WAYS:
        yield from streams(way)
        yield from checkpoints(way)
        yield from in_rounds(way)
    yield given("help", ["--help"])
    yield given("a mistake in the words", ["--tries", "x", FOUR_CLAUSE, ROW_ONE])
    yield given("a bad formula", ["bad", ROW_ONE], 1)
    yield given("missing assumptions", ["--assume", "missing", FOUR_CLAUSE, ROW_ONE], 1)
    yield given("a missing stream", [FOUR_CLAUSE, "missing"], 1)
    yield given("a full device", [*SMALL_ROW, FOUR_CLAUSE, ROW_ONE], 1, out="/dev/full")


# Calls that are refused in turn.


@pytest.fixture
def machine(program: str, tmp_path: Path) -> Machine:
    return Machine(program, tmp_path)


def run_twice(machine: Machine, given: Input, refuse: str) -> Tuple[Answer, bool, float]:
    """Runs again if a clause is missing: a machine may delay a thread for longer than another
    thread's tries last."""
    found = machine.run(given.words, refuse, given.out)
    return machine.run(given.words, refuse, given.out) if " (missing " in found[0].out else found


def sweep(machine: Machine, given: Input, kind: str, how: str = "") -> int:
    """Refuses each call of this kind in turn. Each answer is right, there are as many refusals as
    there may be, and messages that have to come do come. Returns how many calls were refused."""
    write_all(given.files, machine.folder)
    ample, _, _ = run_twice(machine, given, "")
    wrong: List[str] = []
    answers: List[Answer] = []
    for number in range(1, MOST):
        refuse = f"{kind}:{number}:{how}".rstrip(":")
        answer, was_refused, seconds = run_twice(machine, given, refuse)
        if not was_refused:
            break
        answers.append(answer)
        if not is_right(kind, how, number, answer, ample, given, seconds, machine):
            wrong.append(f"{refuse}, {seconds:.1f} s: {answer}{machine.threads()}")
    assert not wrong, "\n".join(wrong)
    assert not was_refused, f"{MOST} calls"
    assert answer == ample and answer.status is not None, "the answer if nothing is refused"
    found = (complaints_in_rounds(kind, how, ample, answers, given) if isinstance(given, InRounds)
             else complaints(kind, how, ample, answers, given))
    assert list(found) == []
    return len(answers)


INPUTS = list(inputs())
each_input = pytest.mark.parametrize("given", INPUTS, ids=[given.name for given in INPUTS])


def each_way(pairs: Iterable[Tuple[Input, Sequence[str]]]) -> pytest.MarkDecorator:
    """A test of each input, and of each way in which its calls fail."""
    return pytest.mark.parametrize("given, how", [
        pytest.param(given, how, id=f"{given.name}, {how}") for given, ways in pairs
        for how in ways])


@each_input
def test_each_allocation_refused(machine: Machine, given: Input) -> None:
    sweep(machine, given, "allocate")


@each_input
def test_each_thread_refused(machine: Machine, given: Input) -> None:
    """Those that were started end before that is reported."""
    sweep(machine, given, "thread")


@each_way((given, [*SHORT, *ERRORS_OF_READS * (not given.waits)]) for given in INPUTS)
def test_each_read_refused(machine: Machine, given: Input, how: str) -> None:
    sweep(machine, given, "read", how)


@each_way((given, [*SHORT, *ERRORS_OF_WRITES]) for given in INPUTS)
def test_each_write_refused(machine: Machine, given: Input, how: str) -> None:
    sweep(machine, given, "write", how)


@each_way((given, ERRORS_OF_OPENINGS if isinstance(given, InRounds) else ["EACCES"])
          for given in INPUTS)
def test_each_opening_refused(machine: Machine, given: Input, how: str) -> None:
    sweep(machine, given, "open", how)


@each_input
def test_each_opening_for_a_closed_standard_stream_refused(machine: Machine, given: Input) -> None:
    sweep(machine, given, "hold", "EMFILE")


def saves(given: Input) -> bool:
    return given.has_checkpoint or isinstance(given, InRounds)


@each_way((given, ERRORS_OF_CREATIONS[:None if saves(given) else 1]) for given in INPUTS)
def test_each_creation_refused(machine: Machine, given: Input, how: str) -> None:
    sweep(machine, given, "create", how)


@each_way((given, ERRORS_OF_FLUSHES[:None if saves(given) else 1]) for given in INPUTS)
def test_each_flush_refused(machine: Machine, given: Input, how: str) -> None:
    sweep(machine, given, "sync", how)


@pytest.mark.parametrize("few, many, options", [
    pytest.param("line", "many_lines", [], id="lines"),
    pytest.param("drop_and_line", "drop_and_many_lines", ["--assume", CUBE],
                 id="lines under assumptions, after a drop")])
def test_lines_and_imports_need_no_allocation(machine: Machine, way: List[str], few: str, many: str,
                                              options: List[object]) -> None:
    """One line and an import need as many as 5,000."""
    words = ["--lines", MANY, "--room", 10 * MANY, *way, *options, BMC]
    one, all_of_them = (sweep(machine, given(name, [*words, name], 1, dropped(AT_ONCE)
                                             if options else ()), "allocate")
                        for name in (few, many))
    assert one == all_of_them


def test_clauses_need_few_allocations(machine: Machine, way: List[str]) -> None:
    """They take some thirty, since lists double."""
    few, many = (sweep(machine, given(name, [*SMALL_ROW, *way, name, os.devnull], 1), "allocate")
                 for name in ("few_clauses", "many_clauses"))
    assert many <= few + 100


# Threads that aren't started.


def test_a_program_that_waits_for_no_thread_is_found_wrong(tmp_path: Path) -> None:
    program = compiled(tmp_path / "unjoined", [SUPPORT / "unjoined.c"], "-std=gnu11", "-pthread")
    machine, found = Machine(str(program), tmp_path, VERY_LATE), []
    for number in range(1, 7):
        answer, _, _ = machine.run([], f"thread:{number}")
        if answer == not_started((number - 1) % 3 + 1) and not machine.has_waited_for(number - 1):
            found.append(number)
    assert found == [2, 3, 4, 5, 6]


@pytest.mark.parametrize("count", [1, 2, 8])
def test_each_thread_refused_beside_pipes_that_stay_open(machine: Machine, count: int,
                                                         tmp_path: Path) -> None:
    """The pipes have a line each. The run ends all the same, and reads no pipe."""
    line = b"5 2 0 1 2 0\n"
    paths = [piped(tmp_path / f"pipe {number}") for number in range(1, count + 1)]
    pipes = [os.open(path, os.O_RDWR) for path in paths]
    try:
        for pipe in pipes:
            os.write(pipe, line)
        for number in range(1, 2 * count + 1):
            answer, _, _ = machine.run([*SMALL_ROW, str(FOUR_CLAUSE), *map(str, paths)],
                                       f"thread:{number}", limit=HELD)
            assert answer == not_started((number - 1) % count + 1), machine.threads()
            assert machine.has_waited_for(number - 1), machine.threads()
            assert [waiting(pipe) for pipe in pipes] == [len(line)] * count
    finally:
        for pipe in pipes:
            os.close(pipe)


# Tests of crates.


class CratesTest(NamedTuple):
    """A crate's test, its answers if an allocation is refused, each of which has to occur, and for
    how many streams it starts threads. `always`: it reports each refusal, since all its allocations
    are made by calls that report refusals. `last`: the sweep ends at this allocation, since later
    ones are for threads of the test that wait for each other."""
    crate: str
    name: str
    causes: List[str]
    streams: int = 0
    always: bool = False
    last: Optional[int] = None


def runs_of_portfolio() -> Iterator[CratesTest]:
    memory = ["AllocError", "Memory"]  # the test's own, and the run's

    def reported(added: int, ending: str) -> str:
        return (f"Report {{ added: {added}, deleted: 0, empty: false, within: false, ending: "
                f"{ending} }}")

    refused, other = reported(0, "Memory(1)"), reported(1, "Ended")
    runs: List[Tuple[str, int, List[str]]] = [
        ("two_streams", 2, []), ("a_dropped_clause", 1, [f"[{refused}]"]),
        ("a_dropped_clause_beside_another", 2, [f"[{refused}, {other}]"])]
    for name, count, reports in runs:
        starts = [f"Spawn({number})" for number in range(1, count + 1)]
        yield CratesTest("portfolio", f"memory::{name}_by_threads", memory + starts + reports,
                         count)
        yield CratesTest("portfolio", f"memory::{name}_on_one_thread", memory + reports)


TESTS = [
    *runs_of_portfolio(),
    # Calls that can be repeated after a refusal.
    CratesTest("lrup_model", "a_refused_push_changes_nothing", []),
    CratesTest("lrup_model", "a_refused_open_can_be_made_again", []),
    CratesTest("lrup_model", "a_refused_cube_can_be_made_again", []),
    CratesTest("dimacs", "a_refused_text_can_be_parsed_again", []),
    CratesTest("clause_store", "memory::a_refused_store_can_be_opened_again", []),
    CratesTest("checkpoint", "worked::a_refused_save_can_be_made_again", ["AllocError"]),
    CratesTest("stream_threads", "ring::a_refused_ring_can_be_made_again", []),
    CratesTest("stream_threads", "jobs::refused_jobs_can_be_made_again", ["AllocError"], last=20),
    # Some allocations are the test's own; each later one is for the set of dropped identities, and
    # its refusal ends the stream.
    CratesTest("stream_check", "memory::a_refused_growth_ends_the_reading", ["AllocError"]),
    # The last allocation is the test's own, and comes after a thousand calls of each kind.
    CratesTest("propagate", "the_ninth_allocation_comes_after_all_calls",
               ["AllocError", "AllocFailed { .. }"], always=True),
    CratesTest("clause_store", "memory::the_last_allocation_comes_after_all_calls", ["AllocError"],
               always=True)]


def program_of_tests(crate: str) -> str:
    folder = ROOT / "crates" / f"{crate}_tests"
    program = folder / "out" / f"{crate}_tests_tests"
    with alone(BUILDS / f"{crate}.lock"):
        if not program.exists():
            if not RT:
                lacking(f"the tests of {crate} aren't built, and there is no --rt")
            subprocess.run([RT, "test"], cwd=folder, stdout=subprocess.DEVNULL, check=True)
    return str(program)


def cause_of(answer: Answer) -> str:
    """The cause that a failed test gives; empty if it passed."""
    found = re.fullmatch(r"error: (.*)\nthe test failed: its result gives status 1\n", answer.err)
    return "" if answer.status == 0 else found[1] if found else str(answer)


def causes_of(machine: Machine, test: CratesTest, kind: str) -> Iterator[str]:
    """The causes that the test gives as each call of this kind is refused in turn. It passes if
    none is refused."""
    for number in itertools.count(1):
        answer, was_refused, seconds = machine.run([f"tests::{test.name}"], f"{kind}:{number}")
        cause = cause_of(answer)
        if not was_refused or number == test.last:
            assert cause == ""
            return
        assert "Spawn" not in cause or seconds < SECONDS, machine.threads()
        yield cause


@pytest.mark.of_crates
@pytest.mark.parametrize("test", TESTS, ids=lambda test: str(test.name))
def test_each_allocation_of_a_crates_test_refused(test: CratesTest, tmp_path: Path) -> None:
    seen: Set[str] = set()
    for cause in causes_of(Machine(program_of_tests(test.crate), tmp_path), test, "allocate"):
        assert cause in test.causes or not (cause or test.always)
        seen.add(cause)
    assert seen >= set(test.causes)
    assert seen, "nothing was refused"


@pytest.mark.of_crates
@pytest.mark.parametrize("test", [test for test in TESTS if not test.last],
                         ids=lambda test: str(test.name))
def test_each_thread_of_a_crates_test_refused(test: CratesTest, tmp_path: Path) -> None:
    """Those that were started have ended before that is reported."""
    machine, count = Machine(program_of_tests(test.crate), tmp_path), 0
    for cause in causes_of(machine, test, "thread"):
        assert count < 2 * test.streams
        assert cause == f"Spawn({count % test.streams + 1})"
        assert machine.has_waited_for(count), machine.threads()
        count += 1
    assert count == 2 * test.streams


def refused_in_runs_with_files(kind: str, first: int, step: int, work: Path) -> int:
    """Refuses each step-th call of a crate's test, from the first one on: it passes, since it
    checks itself that files are kept or discarded. Returns how many were refused."""
    machine, count, was_refused = Machine(program_of_tests("command"), work), 0, True
    while was_refused:
        refuse = f"{kind}:{first + count * step}"
        answer, was_refused, _ = machine.run(["tests::refusals::memory_that_runs_out"], refuse)
        assert answer.status == 0, f"{refuse}: {answer}"
        count += was_refused
    return count


@pytest.mark.of_crates
@pytest.mark.parametrize("first", range(1, 11))
def test_files_are_kept_or_discarded_without_memory(first: int, tmp_path: Path) -> None:
    """There are nearly a thousand allocations: each row refuses one in ten."""
    assert refused_in_runs_with_files("allocate", first, 10, tmp_path) > 0


@pytest.mark.of_crates
def test_files_are_kept_or_discarded_without_a_thread(tmp_path: Path) -> None:
    assert refused_in_runs_with_files("thread", 1, 1, tmp_path) == 12


@pytest.mark.of_crates
def test_the_memory_of_a_store_is_given_back() -> None:
    """A test opens and drops a store of 16 million words four times. Opening takes 128,000,000
    bytes for the row, and as much again until it returns. 307,200,000 are allowed; if either of
    these were still there, the next opening would need 384,000,000."""
    limit = lambda: resource.setrlimit(resource.RLIMIT_AS, (307_200_000, 307_200_000))
    done = run([program_of_tests("clause_store"), "tests::memory::a_large_store_is_given_back"],
               preexec_fn=limit)
    assert done.status == 0, done
