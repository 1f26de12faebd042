"""Runs lrup-check with several filters that share a proof, in windows of a few additions.

What it says is the same for any number of filters and any size of windows: on proofs of random
formulas in each form, in one round and in many, from a file and from a pipe, and on 200 (or
--count) mutated proofs, from number --first on."""
import contextlib
import os
import random
import re
import signal
import subprocess
import threading
import time
from pathlib import Path
from typing import Any, Dict, Iterator, List, Mapping, Tuple, Union

import pytest

import harness
from harness import (FILTER, dimacs, feed, generated, held, needs, piped, random_clauses, run,
                     started, until, written)
from lrat import lrat_fault
from mutations import mutated_bytes, mutated_steps
from proof_forms import FORMS, Clause, Step, read_formula, read_steps
from solving import (TESTED, Answer, check, check_again, children_of, end_of, in_environment,
                     is_alive, marked, none_left, sleep)

Hooks = Mapping[str, object]
WINDOWS = (1, 2, 7)
SUMMARY = re.compile(r"\d+\.\d\d s, ")
COUNT = harness.COUNT or 200
A_TEST = 20     # mutants in a test

pytestmark = pytest.mark.usefixtures("solve_for_tests")


def said(answer: Answer) -> Tuple[object, ...]:
    """All that an answer says, except for times."""
    comments = [line for line in answer.comments if not SUMMARY.match(line)]
    return answer.answers, answer.status, answer.said, comments


def with_units(numbers: random.Random) -> str:
    """A formula that is unsatisfiable by few resolutions, with units and long clauses."""
    size = numbers.randrange(12, 30)
    return dimacs(size, random_clauses(numbers, size, 6 * size, (1, 2, 3, 3, 4, 6)))


def three_literals(numbers: random.Random) -> str:
    size = numbers.randrange(20, 70)
    return dimacs(size, random_clauses(numbers, size, 6 * size, (3,)))


def refuted(seed: int, work: Path) -> Tuple[Path, List[Clause], List[Step]]:
    """A random formula, and the steps of a refutation, with deletions."""
    needs("cadical")
    for attempt in range(100):
        numbers = random.Random(f"{seed} {attempt}")
        formula = written(numbers.choice((with_units, three_literals))(numbers), work)
        proof = work / "drat"
        done = run(["cadical", "-q", "--no-binary", "--reduceint=10", formula, proof])
        stream = run([FILTER, formula, proof]).out if done.status == 20 else ""
        if len(stream.splitlines()) > 3:
            steps = read_steps(written(stream, work, "stream"))
            return formula, read_formula(formula), steps
    raise AssertionError("no formula was refuted by more than three lines")


def in_form(form: str, seed: int, work: Path) -> Tuple[Path, Path]:
    formula, clauses, steps = refuted(seed, work)
    return formula, written(b"".join(FORMS[form][1](clauses, steps)), work, "proof")


@pytest.mark.parametrize("window", WINDOWS)
@pytest.mark.parametrize("form", FORMS)
def test_right_proofs(form: str, window: int, tmp_path: Path) -> None:
    for seed in range(3):
        formula, proof = in_form(form, seed, tmp_path)
        for filters in (1, 2, 3, 5):
            answer = check(["-j", filters, formula, proof], tested={"WINDOW": window})
            assert said(answer) == (["s UNSATISFIABLE"], 0, "", [])


def long_proof(form: str, work: Path) -> Tuple[Path, Path]:
    needs("cadical")
    formula, drat = generated("random 150 1", work), work / "drat"
    assert run(["cadical", "-q", "--no-binary", formula, drat]).status == 20
    steps = read_steps(written(run([FILTER, formula, drat]).out, work, "stream"))
    return formula, written(b"".join(FORMS[form][1](read_formula(formula), steps)), work, "proof")


def test_before_lrupd_starts(tmp_path: Path) -> None:
    """lrupd starts late, since the streams are short, but filters don't wait for it."""
    answer = check(["-j", 2, *long_proof("binary DRAT", tmp_path)], tested={"WINDOW": 1})
    assert said(answer) == (["s UNSATISFIABLE"], 0, "", [])


@pytest.mark.parametrize("comes_from", ["a file", "a pipe"])
@pytest.mark.parametrize("megabytes", [1, 3])
def test_usual_filters(megabytes: int, comes_from: str, tmp_path: Path) -> None:
    """One for each free core, if a file has a megabyte for each. A pipe's writer needs a core."""
    formula, cores = written("p cnf 2 1\n1 2 0\n", tmp_path), len(os.sched_getaffinity(0))
    steps = b"1 2 0\n" * (megabytes * 180000)
    for busy in {0, 1, cores}:
        path = tmp_path / f"proof-{busy}"
        if comes_from == "a pipe":
            feed(piped(path), [steps])
        else:
            path.write_bytes(steps)
        answer = check(["-v", formula, path], tested={"LOAD": 100 * cores, "RUNNING": 1 + busy})
        free = max(1, cores - busy)
        filters = min(16, megabytes, free) if comes_from == "a file" else max(1, min(17, free) - 1)
        command, = [line for line in answer.comments if " --tries" in line]
        assert command.count("round-1.stream-") == filters, answer.out


@pytest.mark.parametrize("form", FORMS)
def test_usual_filters_of_a_form(form: str, tmp_path: Path) -> None:
    """A proof whose first steps have hints has at most two."""
    formula, proof = in_form(form, 1, tmp_path)
    steps, cores = proof.read_bytes(), len(os.sched_getaffinity(0))
    proof.write_bytes(steps * (cores * 1100000 // len(steps)))
    answer = check(["-v", formula, proof], tested={"LOAD": 1, "RUNNING": 1})
    command, = [line for line in answer.comments if " --tries" in line]
    most = 2 if "LRAT" in form or re.search("with .*hints", form) else 16
    assert command.count("round-1.stream-") == min(most, cores), answer.out


@pytest.mark.parametrize("window", (1, 7, 40))
@pytest.mark.parametrize("form", ("LRAT text", "DRAT text", "binary DRAT", "FRAT with some hints"))
def test_in_rounds(form: str, window: int, tmp_path: Path) -> None:
    """Filters end each round at the same step, and the record is checked again."""
    formula, proof = long_proof(form, tmp_path)
    hooks = {"WINDOW": window, "FIRST_WORDS": 6000, "SAME_WORDS": 1}
    answer = check(["-v", "-j", 3, "--proofs", tmp_path / "kept", formula, proof], tested=hooks)
    assert (answer.answers, answer.status) == (["s UNSATISFIABLE"], 0), answer.out
    assert not any("one filter" in line for line in answer.comments), answer.out
    assert sum(line.startswith("round ") for line in answer.comments) >= 2, answer.out
    check_again(tmp_path / "kept")


def test_core_and_lrat(tmp_path: Path) -> None:
    formula, proof = in_form("binary DRAT", 1, tmp_path)
    outputs = ["--core", tmp_path / "core", "--lrat", tmp_path / "lrat"]
    answer = check(["-j", 3, *outputs, formula, proof], tested={"WINDOW": 2})
    assert (answer.answers, answer.status) == (["s UNSATISFIABLE"], 0), answer.out
    assert lrat_fault(read_formula(formula), (tmp_path / "lrat").read_text()) == ""


@pytest.mark.parametrize("filters", (1, 2, 4))
def test_assumptions(filters: int, tmp_path: Path) -> None:
    """The clause that contradicts the assumptions isn't empty, and ends the proof for all."""
    formula = written("p cnf 4 3\n-1 2 0\n-2 3 0\n-3 4 0\n", tmp_path)
    proof = written("-1 3 0\n-1 4 0\nnonsense\n", tmp_path, "proof")
    assumed = written("1 -4 0\n", tmp_path, "assumptions")
    answer = check(["-j", filters, "--assume", assumed, formula, proof], tested={"WINDOW": 1})
    assert said(answer) == (["s UNSATISFIABLE UNDER ASSUMPTIONS"], 8, "", [])


# Proofs that can't be read again.


WAYS = ("a FIFO", "a FIFO, with pauses", "standard input", "/dev/stdin", "/dev/fd")


def check_once(way: str, words: List[object], formula: Path, proof: Path, tested: Hooks,
               **how: Any) -> Answer:
    """The proof comes in this way, in which it can't be read again."""
    data = proof.read_bytes()
    if way.startswith("a FIFO"):
        pipe = piped(proof.with_name("pipe"))
        pieces: List[Union[bytes, float]] = [data]
        if "pauses" in way:
            size = len(data) // 20 + 1
            pieces.clear()
            for k in range(0, len(data), size):
                pieces += [data[k:k + size], 0.01]
        feed(pipe, pieces)
        return check([*words, formula, pipe], tested=tested, **how)
    if way == "standard input":
        return check([*words, formula, "-"], tested=tested, given=data, **how)
    with proof.open("rb") as file:
        if way == "/dev/stdin":     # a file, which another process can't open by this name
            return check([*words, formula, way], tested=tested, stdin=file, **how)
        return check([*words, formula, f"/dev/fd/{file.fileno()}"], tested=tested,
                     pass_fds=[file.fileno()], **how)


@pytest.mark.parametrize("way", WAYS)
def test_once(way: str, tmp_path: Path) -> None:
    formula, proof = in_form("binary DRAT", 2, tmp_path)
    answer = check_once(way, ["-j", 3], formula, proof, {"WINDOW": 2})
    assert said(answer) == (["s UNSATISFIABLE"], 0, "", [])


@pytest.mark.parametrize("way", WAYS)
def test_once_in_rounds(way: str, tmp_path: Path) -> None:
    formula, proof = long_proof("LRAT text", tmp_path)
    answer = check_once(way, ["-v", "-j", 3, "--proofs", tmp_path / "kept"], formula, proof,
                        {"WINDOW": 7, "FIRST_WORDS": 6000, "SAME_WORDS": 1})
    assert (answer.answers, answer.status) == (["s UNSATISFIABLE"], 0), answer.out
    assert sum(line.startswith("round ") for line in answer.comments) >= 2, answer.out
    check_again(tmp_path / "kept")


ONE_CHECKS = "one filter checks it, from its beginning"


@pytest.mark.parametrize("way", WAYS)
def test_once_and_from_the_beginning(way: str, tmp_path: Path) -> None:
    """One filter takes the proof, of which several have read a part."""
    formula, proof = too_long_for_windows(tmp_path, 1000)
    answer = check_once(way, ["-v", "-j", 2], formula, proof, {"WINDOW": 1})
    assert (answer.answers, answer.status) == (["s UNSATISFIABLE"], 0), answer.out
    assert any(line.endswith(ONE_CHECKS) for line in answer.comments), answer.out


@pytest.mark.parametrize("hooks, proved", (({}, True), ({"PROOF_KEPT": 100000}, True),
                                           ({"PROOF_KEPT": 100}, False)))
def test_how_much_is_kept(hooks: Hooks, proved: bool, tmp_path: Path) -> None:
    """A proof that takes too much room isn't kept, so no other filter can take it."""
    files = tmp_path / "files"
    files.mkdir()
    formula, proof = too_long_for_windows(tmp_path, 1000)
    assert 100 < proof.stat().st_size < 100000
    answer = check_once("a FIFO", ["-j", 2], formula, proof, {"WINDOW": 1, **hooks},
                        more={"TMPDIR": str(files)})
    assert (answer.status == 0) == proved, answer.out
    assert proved or "longer than a line may be" in answer.comments[0]
    assert not list(files.iterdir())
    formula, proof = in_form("binary DRAT", 2, tmp_path)
    answer = check_once("standard input", ["-j", 3], formula, proof, {"WINDOW": 2, **hooks})
    assert said(answer) == (["s UNSATISFIABLE"], 0, "", [])


def test_a_fifo_has_no_writer(tmp_path: Path) -> None:
    """Before a writer comes, a FIFO isn't at its end; nor is it without a reader later."""
    formula, proof = too_long_for_windows(tmp_path, 1000)
    pipe, data = piped(tmp_path / "pipe"), proof.read_bytes()
    writer = threading.Timer(1, pipe.write_bytes, [data])
    writer.daemon = True
    writer.start()
    answer = check(["-j", 3, formula, pipe], tested={"WINDOW": 1})
    assert said(answer) == (["s UNSATISFIABLE"], 0, "", [])


# Wrong proofs.


def mutant(number: int, work: Path) -> Tuple[Path, Path]:
    numbers = random.Random(f"mutant {number}")
    form = numbers.choice(list(FORMS))
    word, make = FORMS[form]
    formula, clauses, steps = refuted(numbers.randrange(40), work)
    proof = mutated_steps(make(clauses, steps), numbers)
    if numbers.random() < 0.6:
        proof = mutated_bytes(proof, "binary" in word, numbers)
    return formula, written(proof, work, "proof")


@pytest.mark.parametrize("first", range(harness.FIRST, harness.FIRST + COUNT, A_TEST))
def test_mutated_proofs(first: int, tmp_path: Path) -> None:
    """The first wrong step is the same, and is told in the same words."""
    for number in range(first, min(first + A_TEST, harness.FIRST + COUNT)):
        numbers = random.Random(number)
        formula, proof = mutant(number, tmp_path)
        one = check(["-j", 1, formula, proof], tested={})
        filters, window = numbers.choice((2, 3, 5)), numbers.choice(WINDOWS)
        hooks: Dict[str, object] = {"WINDOW": window}
        if numbers.random() < 0.3:
            hooks.update(FIRST_WORDS=2000, SAME_WORDS=1)
        several = check(["-j", filters, formula, proof], tested=hooks)
        assert said(several) == said(one), f"mutant {number}, -j {filters}, {hooks}"
        if number % 4 == 0:
            once = [said(check(["-j", count, formula, "-"], tested=hooks, given=proof.read_bytes()))
                    for count in (1, filters)]
            assert once[1] == once[0], f"mutant {number}, from a pipe, -j {filters}, {hooks}"


WRONG_LATER = "1 2 0\n3 0\n4 0\n0\n"


@pytest.mark.parametrize("filters", (1, 2, 3))
def test_the_first_wrong_step_counts(filters: int, tmp_path: Path) -> None:
    """Each of three steps is wrong, in the windows of three filters."""
    formula = written(dimacs(4, [[1, 2, 3], [-1, 2, 4], [3, 4]]), tmp_path)
    proof = written(WRONG_LATER, tmp_path, "proof")
    answer = check(["-j", filters, formula, proof], tested={"WINDOW": 1})
    assert (answer.answers, answer.status) == (["s UNKNOWN"], 3)
    assert answer.comments[0].startswith(
        f"{proof}: line 1: no conflict by unit propagation: the clause 1 2 0 ")


def too_long_for_windows(work: Path, before: int) -> Tuple[Path, Path]:
    """A proof with so many easy steps, and then a chain that needs many lemmas."""
    size = 70000
    clauses = [[k, -(k + 1)] for k in range(1, size)] + [[-1], [size, size + 1], [size, -size - 1]]
    formula = written(dimacs(size + 3, [*clauses, [size + 2, size + 3]]), work)
    easy = f"{size + 2} {size + 3} 0\n" * before
    return formula, written(f"{easy}{size} 0\n0\n", work, "proof")


def test_a_clause_too_long_for_windows(tmp_path: Path) -> None:
    """One filter checks the proof."""
    formula, proof = too_long_for_windows(tmp_path, 0)
    answer = check(["-v", "-j", 2, formula, proof], tested={"WINDOW": 1})
    assert (answer.answers, answer.status) == (["s UNSATISFIABLE"], 0), answer.out
    assert f"{proof}: {ONE_CHECKS}" in answer.comments


def test_no_room_for_several_filters(tmp_path: Path) -> None:
    """The clauses that several filters keep don't fit into a row; those of one filter do."""
    formula, proof = long_proof("binary DRAT", tmp_path)
    words = ["-v", "--memory", "20000,40000", formula, proof]
    hooks = {"WINDOW": 7, "FIRST_WORDS": 6000}
    answer = check(["-j", 3, *words], tested=hooks)
    assert (answer.answers, answer.status) == (["s UNSATISFIABLE"], 0), answer.out
    cause = f"{proof}: the remaining clauses leave no room in a row of .* bytes, so {ONE_CHECKS}"
    assert any(re.fullmatch(cause, line) for line in answer.comments), answer.out


# Ends of processes.


@contextlib.contextmanager
def running_check(formula: Path, proof: object, hooks: Hooks,
                  *options: object) -> Iterator["subprocess.Popen[str]"]:
    """lrup-check with three filters."""
    words = [str(word) for word in (TESTED.with_name("lrup-check"), "--lrupd", harness.PROGRAM,
                                    "-v", "-j", 3, *options, formula, proof)]
    with started(words, env=in_environment(hooks), stdin=subprocess.DEVNULL,
                 stdout=subprocess.PIPE, stderr=subprocess.PIPE, text=True) as running:
        yield running


FILTERS = ("filter 1", "filter 2", "filter 3")


@pytest.mark.parametrize("name", (*FILTERS, "engine 1"))
def test_killed(name: str, tmp_path: Path) -> None:
    """If a filter is killed, one filter checks the proof, which comes from a pipe, from its
    beginning. Without the process that reads the proof, there is no answer."""
    mark, (formula, proof) = marked(tmp_path), in_form("LRAT text", 1, tmp_path)
    pipe, data = held(tmp_path / "pipe"), proof.read_bytes()
    half = data.index(b"\n", len(data) // 2) - 1
    with running_check(formula, tmp_path / "pipe", {"WINDOW": 1}) as running:
        pipe.write(data[:half])
        until(f"{name} is there", lambda: name in children_of(running.pid))
        time.sleep(0.2)
        os.kill(children_of(running.pid)[name], signal.SIGKILL)
        time.sleep(0.2)
        pipe.write(data[half:])
        pipe.close()
        answer = end_of(running)
    none_left(mark)
    if name == "engine 1":
        assert (answer.answers, answer.status) == (["s UNKNOWN"], 3), answer.out
        cause = f"{tmp_path}/pipe: it can't be read: its process ended by a signal: Killed"
        assert cause in answer.comments, answer.out
    else:
        cause = f"{tmp_path}/pipe: a filter ended by a signal: Killed, so {ONE_CHECKS}"
        assert cause in answer.comments, answer.out
        assert (answer.answers, answer.status) == (["s UNSATISFIABLE"], 0), answer.out


@pytest.mark.parametrize("seed", range(16))
def test_filters_killed_at_random(seed: int, tmp_path: Path) -> None:
    """The answer is right, whatever the others are doing, in a round or between two, unless the one
    that has taken the proof is killed. No process is left."""
    mark, numbers = marked(tmp_path), random.Random(seed)
    formula, proof = in_form(numbers.choice(list(FORMS)), seed, tmp_path)
    hooks = {"WINDOW": numbers.choice(WINDOWS), "FIRST_WORDS": 3000, "SAME_WORDS": 1}
    kept, given = tmp_path / "kept", proof
    if seed % 2:
        given = piped(tmp_path / "pipe")
        feed(tmp_path / "pipe", [proof.read_bytes()])
    with running_check(formula, given, hooks, "--proofs", kept) as running:
        time.sleep(numbers.uniform(0, 0.15))
        pid = children_of(running.pid).get(f"filter {numbers.randrange(1, 4)}", 0)
        if is_alive(pid):
            with contextlib.suppress(ProcessLookupError):
                os.kill(pid, signal.SIGKILL)
        answer = end_of(running)
    none_left(mark)
    if (answer.answers, answer.status) != (["s UNSATISFIABLE"], 0):
        assert (answer.answers, answer.status) == (["s UNKNOWN"], 3), answer.out
        assert any(line.endswith(ONE_CHECKS) and "Killed" not in line
                   for line in answer.comments), answer.out
    else:
        check_again(kept)


def of_rounds(kept: Path) -> Dict[str, bytes]:
    """A record's streams and sizes."""
    return {path.name: path.read_bytes() for path in kept.glob("round-*")}


@pytest.mark.parametrize("moment", ("ENDING", "SAVING"))
@pytest.mark.parametrize("name", FILTERS)
def test_killed_between_rounds(name: str, moment: str, tmp_path: Path) -> None:
    """A filter is killed once all have ended a round, which lrupd can't save yet; or once another
    one has. The record is what one filter would have left."""
    mark, (formula, proof) = marked(tmp_path), long_proof("LRAT text", tmp_path)
    kept, by_one = tmp_path / "kept", tmp_path / "by one"
    hooks = {"WINDOW": 7, "FIRST_WORDS": 6000, "SAME_WORDS": 1, "TRIES": 1000000}
    stopped = "lrupd" if moment == "SAVING" else FILTERS[FILTERS.index(name) - 1]
    pipe, data = held(tmp_path / "pipe"), proof.read_bytes()
    with running_check(formula, tmp_path / "pipe", hooks, "--proofs", kept) as running:
        until("all are there", lambda: {*FILTERS} <= {*children_of(running.pid)})
        pipe.write(data[:2000])
        until("lrupd is there", lambda: "lrupd" in children_of(running.pid))
        children = children_of(running.pid)
        os.kill(children[stopped], signal.SIGSTOP)
        writer = threading.Thread(target=lambda: (pipe.write(data[2000:]), pipe.close()))
        writer.start()
        sleep([children[name]])
        os.kill(children[name], signal.SIGKILL)
        answer = end_of(running)
        writer.join()
    none_left(mark)
    assert (answer.answers, answer.status) == (["s UNSATISFIABLE"], 0), answer.out
    assert any("Killed" in line and line.endswith(ONE_CHECKS)
               for line in answer.comments), answer.out
    assert check(["-j", 1, "--proofs", by_one, formula, proof], tested=hooks).status == 0
    assert of_rounds(kept) == of_rounds(by_one)
    check_again(kept)


def test_a_stop_while_a_filter_waits(tmp_path: Path) -> None:
    """Filter 2 waits, as far ahead as it may be of filter 1, which hasn't begun. Then filter 3
    refutes the formula at an earlier step. Until filter 1 has caught up, lrupd gets nothing that
    cites filter 1's clauses, for which it wouldn't wait long."""
    size, last = 300, 101      # a step of filter 3
    clauses = [[1], *([-k, k + 1] for k in range(1, size)), [-size]]
    steps = [f"{len(clauses) + k} {k + 1} 0 {1 if k == 1 else len(clauses) + k - 1} {k + 1} 0\n"
             for k in range(1, size - 1)]
    steps[last] = f"{len(clauses) + last + 1} {last + 2} 0 0\n"       # needs propagation
    formula = written(dimacs(size, clauses), tmp_path)
    pipe = held(tmp_path / "pipe")
    hooks = {"WINDOW": 1, "FIRST_WORDS": 1 << 20, "TRIES": 1000}
    with running_check(formula, tmp_path / "pipe", hooks) as running:
        until("all are there", lambda: {*FILTERS} <= {*children_of(running.pid)})
        children = children_of(running.pid)
        for name in ("filter 1", "filter 3"):
            os.kill(children[name], signal.SIGSTOP)
        pipe.write("".join(steps).encode())
        pipe.close()
        sleep([children["filter 2"]])
        for name in ("filter 3", "filter 1"):
            os.kill(children[name], signal.SIGCONT)
            time.sleep(1)
        answer = end_of(running)
    assert (answer.status, answer.said) == (0, ""), answer.out
