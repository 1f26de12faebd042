"""Kills runs of lrup-solve that keep a record, and resumes them, until there is a verdict.

Whatever is killed, and however often, the answer has to be that of an undisturbed run; the whole
record is checked again, and lrup-trim has to accept it. Three (or --count) formulas are solved in
this way. A record that was changed, truncated or swapped, even with matching digests, has to lead
to the right answer, to 's UNKNOWN', or to a message that names the file; the record of another
formula is refused, and nothing in it is touched."""
import os
import random
import re
import shutil
import signal
import subprocess
import time
from pathlib import Path
from typing import Callable, List, Mapping, Optional, Sequence

import pytest

from harness import (COUNT, FOUR, PROGRAM, ROOT, Ran, dimacs, generated, named, needs, pack,
                     random_clauses, run, started, until, written)
from records import (CHANGES, UNKNOWN, checkpoints, recorded, saved_rounds, want_no_other,
                     way_on, whole, with_digests)
from solving import (ANSWERS, EARLY, SOLVE, Answer, before_lrupd, check_again, children_of, command,
                     end_all, end_group, end_of, engines_refusing, in_environment, listed, marked,
                     none_left, solve, started_run, want_answer)

pytestmark = pytest.mark.usefixtures("solve_for_tests", "mark")
SMALL = {"SAME_WORDS": 1, "SLICE": 20, "FIRST_WORDS": 4000}
PROVED, UNDER = "s UNSATISFIABLE", "s UNSATISFIABLE UNDER ASSUMPTIONS"
SCRIPT = ROOT / "examples" / "resume" / "slurm.sh"
NOT_RESUMED = (": the run can't be resumed: restore the file, or begin again with --proofs and "
               "--replace")
SOON = 20       # seconds after which a run should have ended


def ended(words: Sequence[object], tested: Mapping[str, object], after: float,
          number: int = signal.SIGKILL) -> Answer:
    """A run that gets a signal this many seconds after its start, unless it has ended by then. No
    process is left."""
    with started_run(words, tested) as running:
        try:
            answer = end_of(running, after)
        except subprocess.TimeoutExpired:
            running.send_signal(number)
            answer = end_of(running)
    none_left(f"LRUP_MARK={os.environ['LRUP_MARK']}")
    return answer


# Runs that are killed.


@pytest.mark.seeds(3)
def test_killed(seed: int, tmp_path: Path) -> None:
    """Kills a run again and again, each time with a random number of engines."""
    numbers = random.Random(f"{seed} resumed")
    size = numbers.randrange(130, 190)
    formula = written(dimacs(size, random_clauses(
        numbers, size, round(numbers.uniform(4.1, 4.6) * size))), tmp_path)
    tested = {"SET": EARLY, "SAME_WORDS": 1, "SLICE": numbers.choice((20, 50)),
              "FIRST_WORDS": numbers.choice((1000, 3000, 10000)),
              "PACKED_FROM": numbers.choice((1, 5000))}
    begun, kept = time.monotonic(), tmp_path / "kept"
    right = solve([formula], tested=tested)
    lasts, words = time.monotonic() - begun, ["--proofs", kept]
    want_answer(right, right.status if right.status in (10, 20) else 20, formula)
    for count in range(1, 60):
        options = ["-j", numbers.randint(1, 3), *["--no-share"] * (numbers.random() < 0.2),
                   "--seed", numbers.randrange(5)]
        answer = ended([*options, *words, formula], tested,
                       numbers.uniform(0, lasts) * (0.3 + count / 10))
        if answer.said.endswith(" checks it\n") and right.status == 20:
            return whole(kept, formula, tmp_path)       # it was killed once it had the proof
        # The engines of a killed front may say something.
        said = "" if answer.status == -signal.SIGKILL else answer.said
        assert answer.answers in ([], right.answers), answer.out[-2000:]
        assert said == "", answer.out[-2000:]
        if answer.answers:
            break
        if (kept / "files").exists():
            words = ["--resume", kept]
    want_answer(answer, right.status, formula)
    if right.status == 20:
        assert checkpoints(kept) == []
        whole(kept, formula, tmp_path)


@pytest.mark.parametrize("first, second, text", [
    pytest.param(first, second, text, id=f"{' '.join(first)}, then {' '.join(second)}")
    for first, second, text in (
        (["-j", "1"], ["-j", "3"], PROVED), (["-j", "3"], ["-j", "1"], PROVED),
        (["-j", "2", "--no-share"], ["-j", "2"], PROVED),
        (["-j", "2"], ["-j", "2", "--no-share"], PROVED),
        (["-j", "2", "--assume", "CUBE"], ["-j", "3", "--assume", "CUBE"], UNDER),
        (["-j", "1"], ["--solver", "cadical -q %formula %proof"], PROVED))])
def test_other_options(first: Sequence[str], second: Sequence[str], text: str,
                       tmp_path: Path) -> None:
    """Resumes with other options than before, and with more or fewer streams."""
    if "--solver" in second:
        needs("cadical")
    kept, formula, cube = (tmp_path / "kept", generated("pigeons 7", tmp_path),
                           written("1 0\n", tmp_path, "cube"))
    words = [[word.replace("CUBE", str(cube)) for word in some] for some in (first, second)]
    recorded([*words[0], formula], kept, 3, SMALL)
    answer = solve(["-v", *words[1], "--resume", kept, formula], tested=SMALL)
    want_answer(answer, 20, verdict=text)
    begun = re.search(r"^c \S+: round (\d+) begins, with ", answer.out, re.M)
    assert begun is not None and int(begun[1]) > 3, answer.out[:2000]
    assert "lrupd has read what was saved" in answer.comments, answer.out[-2000:]
    if text == PROVED:
        whole(kept, formula, tmp_path)
    else:
        done = run(["sh", kept / "command"], cwd="/")
        assert done.out.splitlines()[-1] == text, done.err
        assert done.status == 8, done.err


def test_a_formula_by_a_pipe(tmp_path: Path) -> None:
    """The formula comes from a pipe again, or from the record."""
    text, kept = generated("pigeons 7", tmp_path).read_text(), tmp_path / "kept"
    for given, words in ((text, ()), (None, (kept / "formula.cnf",))):
        with started(command(["--proofs", kept, "--replace"], SMALL), env=in_environment(SMALL),
                     stdin=subprocess.PIPE, stdout=subprocess.DEVNULL) as running:
            assert running.stdin
            running.stdin.write(text.encode())
            running.stdin.close()
            until("a round is saved", lambda: saved_rounds(kept) > 1 or running.poll() is not None)
        none_left(f"LRUP_MARK={os.environ['LRUP_MARK']}")
        answer = solve(["--resume", kept, *words], tested=SMALL, given=given)
        want_answer(answer, 20)
        whole(kept, kept / "formula.cnf", tmp_path)


@pytest.mark.parametrize("is_same", [True, False], ids=["the copy", "another copy"])
def test_a_copy_in_the_record_stays(is_same: bool, tmp_path: Path) -> None:
    """A resumed run that names another file with the formula keeps the record's copy of it, but no
    copy that was changed."""
    formula, kept = generated("pigeons 7", tmp_path), tmp_path / "kept"
    copy = kept / "formula.cnf"
    recorded(["-j", "2", pack(Path(shutil.copy(formula, tmp_path / "packed")), "xz")], kept, 1,
             SMALL)
    assert copy.read_bytes() == formula.read_bytes()
    if not is_same:
        copy.write_text(FOUR)
    want_answer(solve(["-j", "2", "--resume", kept, formula], tested=SMALL), 20)
    assert copy.exists() == is_same
    if is_same:
        formula.rename(tmp_path / "moved")
    check_again(kept)


@pytest.mark.parametrize("first, second", [
    ([], ["--with-formula"]), (["--with-formula"], ["--with-formula"])], ids=["later", "always"])
def test_a_copy_of_a_formula_that_stays(first: List[str], second: List[str], tmp_path: Path
                                        ) -> None:
    """Whichever run had --with-formula, the record has a copy at the end."""
    formula, kept = generated("pigeons 7", tmp_path), tmp_path / "kept"
    text = formula.read_bytes()
    recorded(["-j", "2", *first, formula], kept, 1, SMALL)
    assert (kept / "formula.cnf").exists() == bool(first)
    if first:
        formula = kept / "formula.cnf"
    want_answer(solve(["-j", "2", *second, "--resume", kept, formula], tested=SMALL), 20)
    assert (kept / "formula.cnf").read_bytes() == text
    generated("pigeons 7", tmp_path).unlink()
    check_again(kept)


@pytest.mark.parametrize("place, folder, formula, cube", [
    ("", "kept", "kept/formula.cnf", ""), ("", "kept/", "kept/formula.cnf", ""),
    ("", "kept", "./kept//formula.cnf", ""), ("kept", ".", "formula.cnf", ""),
    ("kept", "./", "../kept/formula.cnf", ""), ("", "./kept", "link", ""),
    ("", "kept", "WORK/kept/formula.cnf", ""), ("", "linked", "kept/formula.cnf", ""),
    ("", "kept", "kept/../kept/formula.cnf", "./kept/assumptions"),
    ("kept", "../kept", "formula.cnf", "assumptions")])
def test_names_of_inputs_in_the_record(place: str, folder: str, formula: str, cube: str,
                                       tmp_path: Path) -> None:
    """The record has the only copies of inputs that came from pipes. They stay, whatever names lead
    to them."""
    kept, text = tmp_path / "kept", generated("pigeons 7", tmp_path).read_text()
    ends = os.pipe()
    os.write(ends[1], b"1 0\n")
    os.close(ends[1])
    words = ["--proofs", kept, *["--assume", f"/dev/fd/{ends[0]}"] * bool(cube)]
    with started(command(words, SMALL), env=in_environment(SMALL), stdin=subprocess.PIPE,
                 stdout=subprocess.DEVNULL, pass_fds=[ends[0]]) as running:
        assert running.stdin
        running.stdin.write(text.encode())
        running.stdin.close()
        until("a round is saved", lambda: saved_rounds(kept) > 1)
    os.close(ends[0])
    none_left(f"LRUP_MARK={os.environ['LRUP_MARK']}")
    for name, target in (("link", kept / "formula.cnf"), ("linked", kept)):
        (tmp_path / name).symlink_to(target)
    folder, formula, cube = (word.replace("WORK", str(tmp_path))
                             for word in (folder, formula, cube))
    answer = solve(["--resume", folder, *["--assume", cube] * bool(cube), formula],
                   tested=SMALL, cwd=tmp_path / place)
    assert (kept / "formula.cnf").read_text() == text, answer.said
    want_answer(answer, 20, verdict=UNDER if cube else None)
    if cube:
        assert (kept / "assumptions").read_text() == "1 0\n"
        assert run(["sh", kept / "command"]).status == 8
    else:
        whole(kept, kept / "formula.cnf", tmp_path)


def test_a_file_of_the_record_as_cubes(tmp_path: Path) -> None:
    """No other file of the record can be an input, since it would be removed or overwritten."""
    formula, kept = generated("pigeons 7", tmp_path), tmp_path / "d"
    recorded(["-j", "2", formula], kept, 1, SMALL)
    cubes = kept / "round-1.stream-1"
    (tmp_path / "link").symlink_to(cubes)
    refused(["--resume", "d", "--cubes", "link", formula],
            "d/round-1.stream-1 would be overwritten: name a copy of it", tmp_path)


TOO_LONG = f" is longer than a run writes it{NOT_RESUMED}"


@pytest.mark.parametrize("name, how, said", [
    ("formula.sha256", "a FIFO", f" isn't a regular file{NOT_RESUMED}"),
    ("formula.sha256", "/dev/zero", f": Too many levels of symbolic links{NOT_RESUMED}"),
    ("formula.sha256", "long", TOO_LONG), ("rounds.sha256", "long", TOO_LONG),
    ("rounds.sha256", "a FIFO", f" isn't a regular file{NOT_RESUMED}"),
    ("files", "long", " is there, but isn't from an earlier run: choose another --proofs")])
def test_endless_files(name: str, how: str, said: str, tmp_path: Path) -> None:
    """A FIFO in the place of a record's text isn't waited for, a device without end isn't read, nor
    is a file that is larger than memory."""
    formula, path = generated("pigeons 7", tmp_path), tmp_path / "d" / name
    recorded(["-j", "2", formula], tmp_path / "d", 1, SMALL)
    path.unlink(missing_ok=True)
    if how == "a FIFO":
        os.mkfifo(path)
    elif how == "/dev/zero":
        path.symlink_to(how)
    else:
        path.touch()
        os.truncate(path, 1 << 40)
    answer = solve(["--resume", "d", formula], tested=SMALL, cwd=tmp_path, limit=SOON)
    assert (answer.out, answer.said, answer.status) == ("", f"lrup-solve: d/{name}{said}\n", 1)


def test_moved(tmp_path: Path) -> None:
    """The record and the formula were renamed meanwhile."""
    formula, kept = generated("pigeons 7", tmp_path), tmp_path / "kept"
    recorded(["-j", "2", formula], kept, 2, SMALL)
    formula, kept = formula.rename(tmp_path / "an other;name"), kept.rename(tmp_path / "-d")
    want_answer(
        solve(["-j", "2", "--resume", "-d", "--", formula.name], tested=SMALL, cwd=tmp_path), 20)
    whole(kept, formula, tmp_path)


def test_nothing_was_saved(tmp_path: Path) -> None:
    formula, kept = generated("pigeons 7", tmp_path), tmp_path / "kept"
    with started(command(["--proofs", kept, formula]), stdout=subprocess.DEVNULL) as running:
        until("streams are there", lambda: (kept / "formula.sha256").exists())
        running.kill()
    answer = solve(["--resume", kept, formula])
    want_answer(answer, 20)
    assert answer.comments[0] == f"{kept}: no round was saved, so the run begins anew"
    whole(kept, formula, tmp_path)


def test_a_slow_lrupd(tmp_path: Path) -> None:
    """lrupd gets the saved rounds late: meanwhile engines fill a row, and wait for lrupd."""
    formula, kept = generated("pigeons 7", tmp_path), tmp_path / "kept"
    recorded(["-j", "2", formula], kept, 3, SMALL)
    lrupd = before_lrupd("sleep 1", tmp_path)
    answer = solve(["-v", "-j", "2", "--lrupd", lrupd, "--resume", kept, formula],
                   tested={**SMALL, "AHEAD": 1000})
    want_answer(answer, 20)
    whole(kept, formula, tmp_path)


# Runs that have to end.


@pytest.mark.parametrize("number, tested", named([
    ("Terminated, small rows", signal.SIGTERM, SMALL), ("Terminated, one row", signal.SIGTERM, {}),
    ("Interrupt, one row", signal.SIGINT, {}), ("Hangup, small rows", signal.SIGHUP, SMALL),
    ("time is up, one row", None, {}), ("time is up, small rows", None, SMALL)]))
def test_saved_at_the_end(number: Optional[signal.Signals], tested: Mapping[str, object],
                          tmp_path: Path) -> None:
    """The current round is saved, within some seconds, and the run can be resumed from there."""
    formula, kept, words = generated("pigeons 10", tmp_path), tmp_path / "kept", ["--proofs"]
    rounds = 0
    for _ in range(2):
        limit = ["--time", "1.5"] if number is None else []
        with started_run(["-j", "2", *limit, *words, kept, formula], tested) as running:
            if number is not None:
                until("there is something to save",
                      lambda: any(path.stat().st_size > 0
                                  for path in kept.glob(f"round-{rounds + 1}.stream-*")))
                time.sleep(1)
                running.send_signal(number)
            answer = end_of(running, SOON)
        none_left(f"LRUP_MARK={os.environ['LRUP_MARK']}")
        assert (answer.answers, answer.status) == ([UNKNOWN], -number if number else 0), (
            answer.out + answer.said)
        before, (rounds, is_lost) = rounds, way_on(answer, kept, formula)
        assert not is_lost, answer.out
        assert rounds > before, answer.out
        assert saved_rounds(kept) - 1 == rounds, answer.out
        words = ["--resume"]


def test_saved_while_lrupd_reads(tmp_path: Path) -> None:
    """A signal comes while lrupd still reads the saved rounds: the current one is saved, too."""
    marked(tmp_path)
    formula, kept = generated("pigeons 10", tmp_path), tmp_path / "kept"
    recorded(["-j", "2", formula], kept, 2, SMALL)
    before = saved_rounds(kept)
    for path in kept.glob(f"round-{before}.stream-*"):  # what the killed run didn't save
        path.unlink()
    words = ["-j", "2", "--lrupd", before_lrupd("sleep 2", tmp_path), "--resume", kept, formula]
    with started(command(words, {}), env=in_environment({}), text=True, stdout=subprocess.PIPE,
                 stderr=subprocess.PIPE) as running:
        until("there is something to save", lambda: any(
            path.stat().st_size > 0 for path in kept.glob(f"round-{before}.stream-*")))
        running.send_signal(signal.SIGINT)
        answer = Answer(Ran(*running.communicate(timeout=SOON), running.returncode))
    assert way_on(answer, kept, formula) == (before, False), answer.out
    assert saved_rounds(kept) - 1 == before, answer.out


def test_a_second_signal(tmp_path: Path) -> None:
    """While lrupd is stopped, nothing can be saved: the second signal ends the run at once."""
    formula, kept = generated("pigeons 11", tmp_path), tmp_path / "kept"
    recorded(["-j", "2", formula], kept, 1, SMALL)
    for count in (1, 2):
        before = saved_rounds(kept)
        with started_run(["-j", "2", "--resume", kept, formula], SMALL) as running:
            until("a round more is saved", lambda: saved_rounds(kept) > before)
            os.kill(children_of(running.pid)["lrupd"], signal.SIGSTOP)
            time.sleep(0.5)         # so that a round is in progress
            running.send_signal(signal.SIGTERM)
            begun = time.monotonic()
            if count == 2:
                time.sleep(0.5)
                running.send_signal(signal.SIGINT)
            answer = end_of(running, SOON)
        lasted = time.monotonic() - begun
        assert (answer.answers, answer.status) == ([UNKNOWN], -signal.SIGTERM), (
            answer.out + answer.said)
        assert (lasted < 4) if count == 2 else 4 < lasted < 12
        assert saved_rounds(kept) > before


def test_saved_by_the_clock(tmp_path: Path) -> None:
    """--save-every ends a round although its row has room."""
    formula, kept = generated("pigeons 11", tmp_path), tmp_path / "kept"
    answer = solve(["-v", "-j", "2", "--time", "3", "--save-every", "0.25", "--proofs",
                    kept, formula])
    want_answer(answer, 0)
    rounds, is_lost = way_on(answer, kept, formula)
    assert 4 <= rounds <= 13, answer.out
    assert not is_lost, answer.out
    rows = [int(row.replace(",", ""))
            for row in re.findall(r"^c round \d+: .* in a row of ([\d,]+) words", answer.out, re.M)]
    # A fast machine may fill a row.
    assert max(rows) < 6 * min(rows)
    answer = solve(["-j", "2", "--time", "2", "--resume", kept, formula])
    assert answer.comments[0].startswith(f"{kept}: round {rounds + 1} begins, with "), answer.out
    assert answer.status == 0, answer.out


def test_in_jobs(tmp_path: Path) -> None:
    """The script for Slurm, under a batch system that ends each job after its time: the system
    warns the script with a signal, or kills everything at once."""
    numbers, mark = random.Random(3), marked(tmp_path)
    formula, kept = generated("pigeons 9", tmp_path), tmp_path / "it's kept"
    path = ":".join([str(SOLVE.parent), str(Path(PROGRAM).parent), os.environ["PATH"]])
    for count in range(1, 100):
        with started(["sh", SCRIPT, formula, kept],
                     env={**os.environ, "PATH": path, "SLURM_CPUS_PER_TASK": "4"},
                     start_new_session=True, stdout=subprocess.DEVNULL,
                     stderr=subprocess.DEVNULL) as job:
            try:
                job.wait(0.5 + 0.3 * count)
            except subprocess.TimeoutExpired:
                is_warned = numbers.random() < 0.7
                if is_warned:
                    job.terminate()
                    assert job.wait(SOON) == 0
                end_group(job)
        end_all(mark)
        if (tmp_path / "it's kept.answer").exists():
            break
    assert (tmp_path / "it's kept.answer").read_text().splitlines()[-1] == PROVED
    assert count > 1
    whole(kept, formula, tmp_path)


# Records that were changed.


@pytest.mark.parametrize("seed", range(1 + (COUNT or 3) // 50))
@pytest.mark.parametrize("status", [10, 20])
def test_changed(status: int, seed: int, tmp_path: Path) -> None:
    """Makes each change to a copy of one record."""
    numbers, first = random.Random(seed), tmp_path / "first"
    formula = hard(status, tmp_path)
    recorded(["-j", "2", formula], first, 3, SMALL)
    for name, change in CHANGES.items():
        kept = tmp_path / "kept"
        shutil.copytree(first, kept)
        names = change(kept, numbers)
        answer = solve(["-j", "2", "--resume", kept, formula], tested=SMALL)
        try:
            want_no_other(answer, status, formula, kept, names)
        except AssertionError as found:
            raise AssertionError(f"{name}, {names}: {found}") from found
        shutil.rmtree(kept)


@pytest.mark.parametrize("number", [1, 2, 3])
def test_a_stream_was_changed(number: int, tmp_path: Path) -> None:
    """If a stream of that round was changed, the record keeps the rounds before it, and the run can
    be resumed from there."""
    formula, kept = generated("pigeons 7", tmp_path), tmp_path / "kept"
    recorded(["-j", "2", formula], kept, 3, SMALL)
    path, rounds = kept / f"round-{number}.stream-2", saved_rounds(kept)
    path.write_bytes(b"x" + path.read_bytes())
    # A run that was killed may leave the checkpoint before the last one, too.
    names = [f"checkpoint-{rounds}.cnf", "rounds.sha256"]
    before = {name: (kept / name).read_bytes() for name in names}
    answer = solve(["-j", "2", "--resume", kept, formula], tested=SMALL)
    want_answer(answer, 0)
    end = NOT_RESUMED if number == 1 else ""
    said = f"{path} was changed since it was saved{end}"
    assert said in answer.comments, answer.out
    if number == 1:     # the record is as it was
        assert saved_rounds(kept) == rounds
        assert {name: (kept / name).read_bytes() for name in names} == before
        return
    assert way_on(answer, kept, formula) == (number - 1, True), answer.out
    assert saved_rounds(kept) == number, answer.out
    want_answer(solve(["-j", "2", "--resume", kept, formula], tested=SMALL), 20)
    whole(kept, formula, tmp_path)


def hard(status: int, work: Path) -> Path:
    """A formula that takes some rounds in small rows."""
    return (generated("pigeons 7", work) if status == 20
            else written(dimacs(230, random_clauses(random.Random(17), 230, 975)), work))


def contradictory(kept: Path) -> None:
    """Makes the checkpoint contradictory, so that every engine refutes it."""
    checkpoint = kept / f"checkpoint-{saved_rounds(kept)}.cnf"
    text = checkpoint.read_text()
    found = re.match(r"p cnf (\d+) (\d+)\n", text)
    assert found
    checkpoint.write_text(f"p cnf {found[1]} {int(found[2]) + 2}\n{text[found.end():]}1 0\n-1 0\n")


def another_beginning(kept: Path) -> None:
    """Replaces each clause of the checkpoint with a tautology, so that assignments that are found
    satisfy another formula."""
    checkpoint = kept / f"checkpoint-{saved_rounds(kept)}.cnf"
    lines = checkpoint.read_text().splitlines(True)
    checkpoint.write_text(
        "".join([lines[0], *("1 -1 0\n" if line[0] != "c" else line for line in lines[1:])]))


def refuting_stream(kept: Path) -> None:
    path = kept / f"round-{saved_rounds(kept) - 1}.stream-1"
    first = path.read_text().split(" ", 1)[0]
    path.write_text(f"{first} 0 1 2 0\n" + path.read_text())


def empty_streams(kept: Path) -> None:
    for path in kept.glob("round-*.stream-*"):
        path.write_text("")


def large_sizes(kept: Path) -> None:
    (kept / "round-1.sizes").write_text("64 268435456 268435456\n")


FORGED = [contradictory, another_beginning, refuting_stream, empty_streams, large_sizes]


@pytest.mark.parametrize("status", [10, 20])
@pytest.mark.parametrize("change", FORGED)
def test_forged(status: int, change: Callable[[Path], None], tmp_path: Path) -> None:
    """A forger of records may also choose the digests."""
    kept, formula = tmp_path / "kept", hard(status, tmp_path)
    recorded(["-j", "2", formula], kept, 3, SMALL)
    change(kept)
    with_digests(kept)
    answer = solve(["-j", "2", "--resume", kept, formula], tested={**SMALL, "TRIES": 1000})
    answer.said = answer.said if answer.status == 1 else ""
    assert answer.answers in ([], [UNKNOWN], [ANSWERS[status]]), answer.out
    assert answer.status in (0, 1, status), answer.out
    if answer.status == status:
        want_answer(answer, status, formula)


# Refusals.


def refused(words: Sequence[object], said: str, work: Path) -> None:
    """Nothing is touched."""
    before = {path: path.read_bytes() for path in work.rglob("*") if path.is_file()}
    answer = solve(words, tested=SMALL, cwd=work)
    assert (answer.out, answer.said, answer.status) == ("", f"lrup-solve: {said}\n", 1)
    assert {path: path.read_bytes() for path in work.rglob("*") if path.is_file()} == before


def test_other_inputs_and_records(tmp_path: Path) -> None:
    """A formula or assumptions other than the record's, and records that can't be resumed."""
    formula, cube, other = (generated("pigeons 8", tmp_path), written("1 0\n", tmp_path, "cube"),
                            written("2 0\n", tmp_path, "other"))
    recorded(["-j", "2", "--assume", cube, formula], tmp_path / "d", 2, SMALL)
    more = written(formula.read_text() + "c more\n", tmp_path, "more.cnf")
    under = ["--assume", cube, "--resume", "d"]
    refused([*under, more], f"{more} isn't the formula of d, or was changed since", tmp_path)
    refused([*under, tmp_path / "d" / "round-1.stream-1"],
            f"{tmp_path}/d/round-1.stream-1 isn't the formula of d, or was changed since", tmp_path)
    refused(["--assume", other, "--resume", "d", formula],
            f"{other} isn't the assumptions of d, or was changed since", tmp_path)
    refused(["--resume", "d", formula], "d is the record of a run with --assume", tmp_path)
    refused(["--proofs", "d", *under, formula],
            "--resume and --proofs: a resumed run keeps its streams where it kept them before",
            tmp_path)
    refused(["--replace", *under, formula], "--resume and --replace: nothing is replaced", tmp_path)
    refused(["--save-every", "0", *under, formula],
            "--save-every takes seconds above 0, not 0", tmp_path)
    refused(["--save-every", "1", formula], "--save-every without --proofs or --resume", tmp_path)
    refused(["--resume", "none", formula], "none: No such file or directory", tmp_path)
    (tmp_path / "empty").mkdir()
    refused(["--resume", "empty", formula], "empty has no record: --proofs makes one", tmp_path)
    digest = (tmp_path / "d" / "formula.sha256").read_text()
    (tmp_path / "d" / "formula.sha256").write_text("x\n")
    refused([*under, formula], f"{formula} isn't the formula of d, or was changed since", tmp_path)
    (tmp_path / "d" / "formula.sha256").unlink()
    refused([*under, formula],
            f"d/formula.sha256 doesn't have the SHA-256 of the formula{NOT_RESUMED}", tmp_path)
    (tmp_path / "d" / "formula.sha256").write_text(digest)
    want_answer(solve([*under, formula], tested=SMALL, cwd=tmp_path), 20, verdict=UNDER)
    refused([*under, formula], "d already has a proof: sh d/command checks it", tmp_path)


def test_a_record_of_another_user(tmp_path: Path) -> None:
    if os.getuid() != 0:
        pytest.skip("only root can give a file to another user")
    formula, kept = generated("pigeons 7", tmp_path), tmp_path / "d"
    recorded(["-j", "2", formula], kept, 1, SMALL)
    os.chown(kept / "files", 65534, 65534)
    said = "d/files is another user's: copy the folder, or name another one"
    for word in ("--proofs", "--resume"):
        refused([word, "d", formula], said, tmp_path)
    os.rename(kept, tmp_path / "theirs")
    shutil.copytree(tmp_path / "theirs", kept)
    want_answer(solve(["-j", "2", "--resume", kept, formula], tested=SMALL), 20)


def test_saved_rounds_stay(tmp_path: Path) -> None:
    """Saved rounds of an unfinished run stay, even if lrup-check is run, unless --replace is
    given."""
    formula, kept = generated("pigeons 8", tmp_path), tmp_path / "d;"
    proof = written("", tmp_path, "proof")
    recorded(["-j", "2", formula], kept, 2, SMALL)
    rounds = saved_rounds(kept) - 1
    said = (f"d; has {rounds} rounds of an earlier run: lrup-solve --resume 'd;' continues it, "
            "--replace removes it")
    refused(["--proofs", "d;", formula], said, tmp_path)
    refused(["--proofs", "d;", written(FOUR, tmp_path)], said, tmp_path)
    done = run([SOLVE.parent / "lrup-check", "--lrupd", PROGRAM, "--proofs", "d;", formula, proof],
               cwd=tmp_path)
    assert done == Ran("", f"lrup-check: {said}\n", 1)
    path = kept / "rounds.sha256"
    lines = path.read_text().splitlines(True)
    path.write_text("".join(line for line in lines if re.search(r"round-1\.|checkpoint", line)))
    refused(["--proofs", "d;", formula], said.replace(f"{rounds} rounds", "1 round"), tmp_path)
    path.write_text("".join(lines))
    want_answer(solve(["--proofs", "d;", "--replace", written(FOUR, tmp_path)], cwd=tmp_path), 20)
    assert sorted(os.listdir(kept)) == [name for name in listed(kept) if name[0] != "."]


def test_no_formula_is_named(tmp_path: Path) -> None:
    """If the formula isn't named, it has to come from standard input."""
    formula, kept = generated("pigeons 7", tmp_path), tmp_path / "d"
    recorded(["-j", "2", formula], kept, 1, SMALL)
    name = "lrup-solve: name the formula: lrup-solve --resume d FORMULA\n"
    for given in ("", FOUR):
        answer = solve(["--resume", "d"], tested=SMALL, cwd=tmp_path, given=given)
        assert (answer.out, answer.said, answer.status) == ("", name, 1)
        answer = solve(["--resume", "d", "-"], tested=SMALL, cwd=tmp_path, given=given)
        said = "lrup-solve: standard input isn't the formula of d, or was changed since\n"
        assert (answer.out, answer.said, answer.status) == ("", said, 1)
    want_answer(solve(["--resume", "d"], tested=SMALL, cwd=tmp_path, given=formula.read_text()), 20)


def test_two_runs(tmp_path: Path) -> None:
    """A record is refused while another run has it, but not right after that run is killed."""
    formula, kept = generated("pigeons 11", tmp_path), tmp_path / "d"
    with started(command(["-j", "1", "--proofs", kept, formula]),
                 stdout=subprocess.DEVNULL) as running:
        until("it has begun", lambda: (kept / "formula.sha256").exists())
        answer = solve(["--resume", kept, formula])
        said = (f"lrup-solve: {kept}: another run has its files there, and hasn't ended: choose "
                "another --proofs\n")
        assert (answer.said, answer.status) == (said, 1)
        running.kill()
        answer = solve(["--resume", kept, "--time", "1", formula])
        want_answer(answer, 0)


def test_a_round_cannot_be_saved(tmp_path: Path) -> None:
    """A comment says what can't be saved, and the run continues."""
    formula, kept = generated("pigeons 7", tmp_path), tmp_path / "kept"
    lrupd = before_lrupd(f"mkdir -p {kept}/checkpoint-2.cnf", tmp_path)
    answer = solve(["-j", "2", "--lrupd", lrupd, "--proofs", kept, formula], tested=SMALL)
    want_answer(answer, 20)
    expected = f"round 1 couldn't be saved: cannot write {kept}/checkpoint-2.cnf: "
    assert any(line.startswith(expected) for line in answer.comments), answer.out
    check_again(kept)


def test_not_on_disk(tmp_path: Path) -> None:
    """A round's file that can't be brought to disk may have lost bytes: what was saved before it
    stays, and a comment says so. Each saver's first call is refused."""
    formula, kept = generated("pigeons 11", tmp_path), tmp_path / "kept"
    recorded(["-j", "1", formula], kept, 2, SMALL)
    rounds, names = saved_rounds(kept), [f"checkpoint-{saved_rounds(kept)}.cnf", "rounds.sha256"]
    before = {name: (kept / name).read_bytes() for name in names}
    engines, mark = engines_refusing("sync:1:EIO", tmp_path)
    answer = solve(["--engines", engines, "-j", "1", "--time", "4", "--resume", kept, formula],
                   tested=SMALL)
    assert mark.exists()
    assert (answer.answers, answer.said) == ([UNKNOWN], ""), answer.out
    assert [line for line in answer.comments if " couldn't be saved: " in line] == [
        f"round {rounds} couldn't be saved: cannot write {kept}/round-1.sizes: Input/output error, "
        "nor can any later one"]
    assert {name: (kept / name).read_bytes() for name in names} == before
    assert way_on(answer, kept, formula) == (rounds - 1, True)
