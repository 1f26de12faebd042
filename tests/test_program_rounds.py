"""lrupd --rounds: the answers, and the checkpoint after each round, with threads and with --serial.

The first round and later ones end with each verdict and with wrong lines; streams and sizes are
files and pipes, and a checkpoint is replaced between two rounds. What stops a round is in
test_program_rounds_faults.py."""
import re
import shutil
import subprocess
import time
from pathlib import Path
from typing import Any, Callable, Dict, Iterator, List, Sequence

import pytest

from checkpoints import printed
from harness import (FOUR, LIMIT, SMALL_ROW, Pieces, Ran, Wanted, answered, dimacs, held, piped,
                     read_from, run, runs_in_both_ways, small, started, until, waiting, write_all,
                     written)
from rounds import (ADDED, BAD, BAD_SAID, DERIVING, NOTHING, ONE, OTHER, REFUTING, SAVED, SAVED_ONE,
                    TRIES, TWO, Named, Proof, Texts, dropped_first, fault, first_words, last, plain,
                    round_files, rounds, saved_name, stream_name)

UNREAD = "0 added, 0 deleted, read failed at line 1"
REFUTING_OTHER = "5 0 1 2 0\n"   # refutes only the other formula
HEARD: Dict[str, Any] = {"stdout": subprocess.PIPE, "stderr": subprocess.PIPE, "text": True}


# Ends.


@runs_in_both_ways
def test_ends() -> Iterator[Named]:
    for proof, count in (ONE, "one"), (TWO, "two"):
        texts, said, saved = proof
        yield rounds(f"three rounds, {count}", 0, texts, last(3, said[2], 0),
                     saved=saved, options=TRIES)
        yield rounds(f"two rounds, {count}", 3, texts[:2], last(2, said[1], 3),
                     saved=saved[:2])
        yield rounds(f"one round, {count}", 3, texts[:1], last(1, said[0], 3), saved=saved[:1])
    texts, said, saved = ONE
    end = last(3, said[2], 0)
    yield rounds("rounds after the last one", 0, [*texts, [BAD]], end, saved=saved)
    yield rounds("a round that is left out", 3, texts[:1], last(1, said[0], 3),
                 saved=saved[:1], others={stream_name(3): texts[2][0]})
    yield rounds("no round but the first", 0, [[REFUTING], [BAD]],
                 last(1, ["2 added, 0 deleted, ended"], 0), saved=[""])
    yield rounds("the empty clause in round 2", 0, [[DERIVING], ["6 0 5 3 4 0\n"], [BAD]],
                 last(2, [ADDED], 0), saved=[SAVED_ONE, ""])
    yield rounds("nothing", 3, [[""]] * 3, last(3, [NOTHING], 3), saved=[FOUR] * 3)
    yield rounds("a stream that isn't one of the round's", 0, texts, end, saved=saved,
                 others={stream_name(2, 2): BAD, stream_name(3, 0): BAD,
                         "d/round-2.stream-01": BAD})
    # Round 1 is given by arguments: its files in the folder are ignored, and so are round 5's.
    yield rounds("sizes and a formula of round 1, and sizes of round 5", 0, texts, end,
                 saved=saved, others={"d/round-1.sizes": "x", "d/round-1.cnf": OTHER,
                                      "d/round-5.sizes": "x", "d/round-02.sizes": "x"})
    yield rounds("stream 1 leads nowhere", 3, texts[:1], last(1, said[0], 3), saved=saved[:1],
                 do="ln -s absent d/round-2.stream-1; ")


@runs_in_both_ways
def test_places() -> Iterator[Named]:
    """The folder is a path like any other, and so are the arguments of round 1."""
    texts, said, saved = ONE
    given = round_files(texts)
    for folder, do in (("d/", ""), ("./d", ""), ("d//", ""), ("link", "ln -s d link; "),
                       ("../$(basename $PWD)/d", "")):
        shell = f'{do}exec "$@" --rounds {folder} formula {stream_name(1)}'
        yield (f"the folder '{folder}'",
               Wanted([], 0, last(3, said[2], 0), files=given, shell=shell,
                      left={saved_name(2): saved[0], saved_name(3): saved[1]}))
    named = {name.replace("d/", "-d\n *é/"): text for name, text in given.items()}
    yield ("a folder with an odd name",
           Wanted(["--rounds=-d\n *é", "--", "formula", "-d\n *é/round-1.stream-1"], 0,
                  last(3, said[2], 0), files=named, left={"-d\n *é/round-3.cnf": saved[1]}))
    here = {name.replace("d/", ""): text for name, text in given.items()}
    yield "this folder", Wanted(["--rounds=.", "formula", "round-1.stream-1"], 0,
                                last(3, said[2], 0), files=here, left={"round-3.cnf": saved[1]})
    yield ("words elsewhere",
           Wanted(["--rounds", "d", "/dev/stdin", "e/first"], 0, last(3, said[2], 0), given=FOUR,
                  files={**given, "e/first": texts[0][0], stream_name(1): BAD},
                  left={saved_name(2): saved[0], "e/round-2.cnf": None}))
    yield ("a stream from standard input",
           Wanted(["--rounds", "d", "formula", "/dev/stdin"], 0, last(3, said[2], 0), files=given,
                  given=texts[0][0], left={saved_name(2): saved[0]}))


@runs_in_both_ways
def test_formulas() -> Iterator[Named]:
    """Only the clauses and the header's variables are carried over; the next identities follow the
    numbers of the checkpoint's clauses."""
    def formula(text: str) -> Dict[str, str]:
        return {"formula": text}

    yield rounds("no clauses", 3, [[""]] * 2, last(2, [NOTHING], 3), saved=["p cnf 0 0\n"] * 2,
                 others=formula("p cnf 0 0\n"))
    yield rounds("all clauses dropped", 3, [["1 d 4 3 2 1 0\n"], [""]], last(2, [NOTHING], 3),
                 saved=["p cnf 2 0\n"] * 2)
    yield rounds("an empty clause", 0, [[""], ["2 0 1 0\n"]], last(2, [ADDED], 0),
                 saved=["p cnf 0 1\n0\n", ""], others=formula("p cnf 0 1\n0\n"))
    yield rounds(
        "comments and lines", 3, [["7 2 0 1 2 0\n"], [""]], last(2, [NOTHING], 3),
        saved=[FOUR.replace("2 4", "2 5") + "c id 7\n2 0\n", SAVED_ONE],
        others=formula("c a\np  cnf\t2 4\n1\nc b\n2 0 -1 2\r\n0 1 -2 0 -1 -2 0\nc id 9\n"))
    yield rounds("a literal twice", 3, [[""], ["2 2 2 0 1 0\n"], [""]], last(3, [NOTHING], 3),
                 saved=["p cnf 2 1\n2 0\n", *["p cnf 2 2\n2 0\n2 0\n"] * 2],
                 others=formula("p cnf 2 1\n2 2 2 0\n"))
    tautology = "p cnf 2 2\n1 -1 0\n2 0\n"
    yield rounds("a tautology", 3, [[""], ["3 2 0 2 0\n"]], last(2, [ADDED], 3),
                 others=formula(tautology),
                 saved=[tautology, tautology.replace("2 2", "2 3") + "2 0\n"])
    yield rounds("the largest variable", 3, [[""], ["2 -16777215 0 1 0\n"]],
                 last(2, [ADDED], 3), saved=["p cnf 16777215 1\n-16777215 0\n",
                                             "p cnf 16777215 2\n-16777215 0\n-16777215 0\n"],
                 others=formula("p cnf 16777215 1\n-16777215 0\n"))
    yield rounds("a variable of no formula", 3, [[""], ["5 3 -3 0 1 0\n"]],
                 last(2, ["0 added, 0 deleted, bad line 1 (literal)"], 3), saved=[FOUR] * 2)
    yield rounds("the identity of the round before", 3, [ONE.texts[0], ["5 1 0 5 3 0\n"]],
                 last(2, ["0 added, 0 deleted, bad line 1 (missing 5)"], 3),
                 saved=[SAVED, plain(SAVED)])
    yield rounds("a clause that was deleted", 3, [[DERIVING + "5 d 5 0\n"], ["6 0 5 3 4 0\n"]],
                 last(2, ["0 added, 0 deleted, bad line 1 (missing 5)"], 3), saved=[FOUR] * 2)
    yield rounds("clauses of the round before imported", 3,
                 [ONE.texts[0], ["4 i 2 2 0\n1 i 2 -1 0\n"]], last(2, [NOTHING], 3),
                 saved=[SAVED, plain(SAVED)])
    # No stream owns saved clauses: each drops them for itself.
    yield rounds("what one of two drops", 3, [[DERIVING, ""], ["5 d 5 0\n", ""]],
                 last(2, ["0 added, 1 deleted, ended", NOTHING], 3), saved=[SAVED_ONE] * 2)
    seven = FOUR.replace("2 4", "2 7") + "2 0\n-2 0\n2 0\n"
    yield rounds(
        "the identities of two streams", 3,
        [["5 2 0 1 2 0\n7 2 0 1 2 0\n", "6 -2 0 3 4 0\n"], ["8 2 0 5 0\n", "9 2 0 5 0\n"]],
        last(2, [ADDED] * 2, 3), saved=[seven, seven.replace("2 7", "2 9") + "2 0\n2 0\n"])


@runs_in_both_ways
def test_assumptions() -> Iterator[Named]:
    """Assumptions hold in each round; a round that refutes the formula under them is the
    last."""
    def under(name: str, cube: str, status: int, texts: Texts, out: str,
              saved: Sequence[str]) -> Named:
        return rounds(f"under {name}", status, texts, out, saved=saved,
                      options=f"{TRIES} --assume cube", others={"cube": cube})

    texts, said, saved = ONE
    yield under("what round 1 contradicts", "-2 0\n", 8, texts, last(1, said[0], 8),
                saved=saved[:1])
    yield under("what round 2 contradicts", "-1 0\n", 8, texts, last(2, said[1], 8),
                saved=saved[:2])
    yield under("what round 3 contradicts", "-2 0\n", 8, [[""], [""], [DERIVING], [REFUTING]],
                last(3, [ADDED], 8), saved=[FOUR, FOUR, SAVED_ONE])
    yield under("what round 2 contradicts, and the next streams aren't there", "-1 0\n", 8,
                texts[:2], last(2, said[1], 8), saved=saved[:2])
    yield under("what no round contradicts", "1 0\n", 0, texts,
                last(3, said[2], 0), saved=saved)
    yield under("what no round contradicts, unknown", "2 0\n", 3, texts[:2],
                last(2, said[1], 3), saved=saved[:2])
    yield under("none", "0\n", 0, texts, last(3, said[2], 0), saved=saved)
    yield under("what round 2 contradicts, with the empty clause", "-2 0\n", 0,
                [[""], [REFUTING]], last(2, ["2 added, 0 deleted, ended"], 0),
                saved=[FOUR, ""])
    yield under("what the second stream contradicts in round 2", "2 0\n", 8,
                [["", ""], ["", "6 -2 0 3 4 0\n"]], last(2, [NOTHING, ADDED], 8),
                saved=[FOUR, SAVED_ONE.replace("\n2 0", "\nc id 6\n-2 0")])
    yield under("what a round contradicts beside a bad line", "-2 0\n", 8,
                [["", ""], [DERIVING, BAD.replace("5", "6")]], last(2, [ADDED, BAD_SAID], 8),
                saved=[FOUR, SAVED_ONE])
    yield rounds("under a pipe of assumptions", 8, texts, last(2, said[1], 8), saved=saved[:2],
                 options="--assume pipe", pipes={"pipe": [b"-1", b" 0\n"]})


@runs_in_both_ways
def test_wrong_lines() -> Iterator[Named]:
    """The round with a wrong line is the last one, and its checkpoint is there."""
    for number in 1, 2, 3:
        before = [FOUR, *ONE.saved][number - 1]
        saved = [*ONE.saved[:number - 1], plain(before)]
        texts = [*ONE.texts[:number - 1], [BAD], *ONE.texts[number:], [BAD]]
        yield rounds(f"a wrong line in round {number}", 3, texts,
                     last(number, [BAD_SAID], 3), saved=saved)
        texts[number - 1] = ["5 d 1 1 0\n"]
        yield rounds(f"a wrong deletion in round {number}", 3, texts,
                     saved=[*saved[:-1], dropped_first(before)],
                     out=last(number, ["0 added, 1 deleted, bad line 1 (not live 1)"], 3))
        stream = stream_name(number)
        yield rounds(f"a folder as stream 1 of round {number}", 3, ONE.texts,
                     last(number, [UNREAD], 3), saved=saved,
                     do=f"rm {stream}; mkdir {stream}; ", gone=[stream])
    yield rounds("a wrong line in stream 2 of round 2", 3,
                 [TWO.texts[0], ["5 d 1 0\n", "6 1 0 4 0\n"], TWO.texts[2]],
                 last(2, ["0 added, 1 deleted, ended", BAD_SAID], 3),
                 saved=[SAVED, plain(SAVED)])
    yield rounds(
        "a folder as stream 2 of round 2", 3, TWO.texts,
        last(2, ["0 added, 1 deleted, ended", UNREAD], 3), saved=[SAVED, plain(SAVED)],
        do="rm d/round-2.stream-2; mkdir d/round-2.stream-2; ", gone=[stream_name(2, 2)])
    yield rounds("a wrong line beside a refutation in round 2", 0,
                 [["", ""], [REFUTING.replace("6 0", "7 0"), BAD.replace("5", "6")],
                  [BAD, BAD]],
                 last(2, ["2 added, 0 deleted, ended", BAD_SAID], 0), saved=[FOUR, ""])
    yield rounds("a wrong line after a refutation in round 2", 0,
                 [[""], [REFUTING + "\n"], [BAD]],
                 last(2, ["2 added, 0 deleted, bad line 3 (spelling)"], 0), saved=[FOUR, ""])
    yield rounds("half a line in round 2", 3, [[""], [REFUTING[:-1]], [BAD]],
                 saved=[FOUR, SAVED_ONE],
                 out=last(2, ["1 added, 0 deleted, bad line 2 (truncated)"], 3))


# Pipes.


def late(name: str, text: str, seconds: float = 0.3) -> str:
    """For the shell: a pipe replaces the file, and is opened for writing late. The pipe gets the
    file's text, or this text if there was no file."""
    return (f"[ -e {name} ] || echo {text} > {name}; mv {name} late; mkfifo {name}; (sleep "
            f"{seconds}; cat late > {name}) & ")


@runs_in_both_ways
def test_pipes() -> Iterator[Named]:
    texts, said, saved = TWO
    end = last(3, said[2], 0)
    streams = {stream_name(number, stream): [text.encode()]
               for number, round_texts in enumerate(texts, 1)
               for stream, text in enumerate(round_texts, 1)}
    more: Dict[str, Pieces] = {
        "d/round-2.sizes": [b"2 ", 0.1, b"65536 1048576", 0.1, b"\n", 0.1],
        "d/round-3.sizes": [b"2 9 9\n"]}
    yield rounds("pipes", 0, texts, end, saved=saved, options=TRIES, pipes=streams)
    yield rounds("pipes, of sizes too", 0, texts, end, saved=saved, options=TRIES,
                 pipes={**streams, **more})
    in_pieces = {name: [bytes([byte]) for byte in pieces[0]] for name, pieces in streams.items()}
    sizes_in_pieces = {"d/round-2.sizes": [bytes([byte]) for byte in b"2 65536 1048576\n"]}
    yield rounds("pipes, a byte at a time", 0, texts, end, saved=saved, options=TRIES,
                 pipes={**in_pieces, **sizes_in_pieces})
    yield rounds("pipes of sizes, and no stream", 3, texts[:1], last(1, said[0], 3),
                 saved=saved[:1], pipes={"d/round-2.sizes": [b"2 9 9\n"]})
    for name, wrong in ("nothing", ()), ("half", (b"2 9",)), ("too much", (b"2 9 9\n2",)):
        yield rounds(f"{name} in a pipe of sizes", 2, texts, err=fault(2, "sizes"),
                     saved=saved[:1], pipes={"d/round-2.sizes": wrong})
    # A writer comes late.
    for name in ("d/round-2.sizes", "d/round-3.sizes",
                 *(stream_name(number, stream) for number in (2, 3) for stream in (1, 2))):
        gone = [] if name.endswith("sizes") else [name]
        yield rounds(f"{name} comes late", 0, texts, end, saved=saved, options=TRIES,
                     do=late(name, "2 9 9"), gone=gone)


def lay(texts: Texts, folder: Path) -> None:
    """Puts the formula and the rounds' streams there."""
    write_all(round_files(texts), folder)


def test_a_checkpoint_is_whole_once_the_next_sizes_are_opened(program: str, way: List[str],
                                                              tmp_path: Path) -> None:
    """A producer makes the pipe of a round's sizes before the previous round ends, and the round's
    streams once that pipe is opened."""
    texts, said, saved = TWO
    lay(texts[:1], tmp_path)
    piped(tmp_path / "d/round-2.sizes")
    with started([program, *SMALL_ROW, *TRIES.split(), *way, *first_words(texts)], cwd=tmp_path,
                 **HEARD) as running:
        for number in 2, 3:
            with read_from(tmp_path / f"d/round-{number}.sizes") as pipe:
                assert (tmp_path / saved_name(number)).read_text() == saved[number - 2]
                assert not (tmp_path / saved_name(number + 1)).exists()
                if number == 2:
                    piped(tmp_path / "d/round-3.sizes")
                for stream, text in enumerate(texts[number - 1], 1):
                    written(text, tmp_path, stream_name(number, stream))
                pipe.write(b"2 4 4\n")
        out, err = running.communicate(timeout=LIMIT)
    assert Ran(out, err, running.returncode) == Ran(last(3, said[2], 0), "", 0)


def rename(place: Path) -> None:
    written(OTHER, place.parent, "other").replace(place)


def overwrite(place: Path) -> None:
    place.write_text(OTHER)


def become_folder(place: Path) -> None:
    place.unlink()
    place.mkdir()


@pytest.mark.parametrize("forge", [
    pytest.param(rename, id="another is moved there"),
    pytest.param(overwrite, id="another is written there"),
    pytest.param(Path.unlink, id="it is removed"),
    pytest.param(become_folder, id="a folder is there")])
@pytest.mark.parametrize("at", ["d/round-2.sizes", stream_name(2), stream_name(2, 2)])
def test_replacing_a_checkpoint_has_no_effect(program: str, way: List[str], at: str,
                                              forge: Callable[[Path], None],
                                              tmp_path: Path) -> None:
    """While round 2 is held back, the formulas of rounds 1 and 2 are replaced: that changes neither
    the answer on a right proof, nor that on one that refutes the replacement."""
    unproved = ["0 added, 0 deleted, bad line 1 (not unit 1)", NOTHING]
    for texts, out, status in ((TWO.texts, last(3, TWO.said[2], 0), 0),
                               ([TWO.texts[0], [REFUTING_OTHER, ""]], last(2, unproved, 3), 3)):
        folder = tmp_path / str(status)
        lay(texts, folder)
        held_back = folder / at
        text = held_back.read_bytes() if held_back.exists() else b"2 9 9\n"
        held_back.unlink(missing_ok=True)
        piped(held_back)
        with started([program, *SMALL_ROW, *TRIES.split(), *way, *first_words(texts)], cwd=folder,
                     **HEARD) as running:
            with read_from(held_back) as pipe:
                assert (folder / saved_name(2)).read_text() == SAVED
                forge(folder / saved_name(2))
                (folder / "formula").write_text(OTHER)
                pipe.write(text)
            found, err = running.communicate(timeout=LIMIT)
        assert Ran(found, err, running.returncode) == Ran(out, "", status)


@pytest.mark.parametrize("size", [64, 65, 1000])
def test_a_pipe_of_sizes_that_stays_open_delays_nothing(program: str, way: List[str], size: int,
                                                        tmp_path: Path) -> None:
    """No more than 64 bytes of it are read."""
    lay(ONE.texts, tmp_path)
    with held(tmp_path / "d/round-2.sizes") as pipe:
        pipe.write(b"1 1 1\n".ljust(size, b"\n"))
        found = run([program, *SMALL_ROW, *way, *first_words(ONE.texts)], cwd=tmp_path)
        assert found == Ran("", fault(2, "sizes"), 2)
        assert waiting(pipe.fileno()) == size - 64


def test_another_run_continues_where_one_was_killed(program: str, way: List[str],
                                                    tmp_path: Path) -> None:
    """A run that is killed in round 2 leaves round 1's checkpoint."""
    texts, said, saved = TWO
    lay([texts[0], ["", texts[1][1]]], tmp_path)
    (tmp_path / stream_name(2)).unlink()
    words = [program, *SMALL_ROW, *TRIES.split(), *way, *first_words(texts)]
    with held(tmp_path / stream_name(2)), started(words, cwd=tmp_path, **HEARD) as running:
        until("the checkpoint of round 2 is created", (tmp_path / saved_name(3)).exists)
        running.kill()
        assert running.communicate(timeout=LIMIT) == ("", "")
    assert (tmp_path / saved_name(2)).read_text() == SAVED
    assert (tmp_path / saved_name(3)).read_text() == ""
    lay(texts[1:], tmp_path / "next")
    shutil.move(tmp_path / saved_name(2), tmp_path / "next/formula")
    assert run(words, cwd=tmp_path / "next") == Ran(last(2, said[2], 0), "", 0)
    assert (tmp_path / "next" / saved_name(2)).read_text() == saved[1]


# Reports during the run.


def in_any_order(lines: Sequence[str]) -> List[List[str]]:
    """The lines of each round, sorted, since the streams of a round may end in any order."""
    found: List[List[str]] = [[]]
    for line in lines:
        if line.startswith("lrupd: round "):
            found += [[line], []]
        else:
            found[-1] = sorted([*found[-1], line])
    return found


@pytest.mark.parametrize("proof", [pytest.param(ONE, id="one stream"),
                                   pytest.param(TWO, id="two streams")])
def test_watched(program: str, way: List[str], proof: Proof, tmp_path: Path) -> None:
    """With --watch, standard error has a line for each stream of each round, and one before each
    round but the first. Rounds 2 and 3 have 4 clauses, with 7 and 6 literals."""
    texts, said, _ = proof
    lay(texts, tmp_path)
    found = run([program, "--watch", *SMALL_ROW, *TRIES.split(), *way, *first_words(texts)],
                cwd=tmp_path)
    assert (found.out, found.status) == (last(3, said[2], 0), 0)
    lines: List[str] = []
    for number, literals in (1, 8), (2, 7), (3, 6):
        if number > 1:
            lines.append(f"lrupd: round {number}: 4 clauses, {literals} literals, paused")
        lines += [f"lrupd: stream {stream}: {words}"
                  for stream, words in enumerate(said[number - 1], 1)]
    err = re.sub(r"paused for \d+ ms$", "paused", found.err, flags=re.M)
    assert in_any_order(err.splitlines()) == in_any_order(lines)


def test_a_round_that_is_held_back_is_paused(program: str, way: List[str], tmp_path: Path) -> None:
    """--watch says for how long each round waited for its sizes."""
    texts, said, _ = ONE
    lay(texts, tmp_path)
    piped(tmp_path / "d/round-2.sizes")
    began, held_back = time.monotonic(), 0.5
    with started([program, "--watch", *SMALL_ROW, *way, *first_words(texts)], cwd=tmp_path,
                 **HEARD) as running:
        with read_from(tmp_path / "d/round-2.sizes") as pipe:
            time.sleep(held_back)
            pipe.write(b"1 9 9\n")
        out, err = running.communicate(timeout=LIMIT)
    most = 1000 * (time.monotonic() - began)
    assert (out, running.returncode) == (last(3, said[2], 0), 0)
    second, third = map(int, re.findall(
        r"^lrupd: round \d: 4 clauses, \d literals, paused for (\d+) ms$", err, re.M))
    assert 1000 * held_back <= second <= most
    assert third <= most


# Many rounds.


@pytest.mark.parametrize("count, limits, options", [
    pytest.param(200, "ulimit -n 32", "", id="200 rounds, few files"),
    pytest.param(20, "ulimit -s 8192 && ulimit -v 1000000", "--room 16000000",
                 id="20 rounds, little memory")])
def test_many_rounds(program: str, way: List[str], count: int, limits: str, options: str,
                     tmp_path: Path) -> None:
    """The formula says that x1 holds, that each variable implies the next, and that the last
    doesn't hold: round R derives the next variable, and drops what it used. No file stays open, and
    no memory is kept; otherwise the limits would suffice for only a few rounds."""
    texts, saved = [], []
    for number in range(1, count):
        clauses = count + 2 - number
        texts.append([f"{clauses + 1} {number + 1} 0 {clauses} 1 0\n1 d 1 {clauses} 0\n"])
        entries = [(place, [-variable, variable + 1])
                   for place, variable in enumerate(range(number + 1, count), 2)]
        saved.append(printed(count,
                             [*entries, (clauses - 1, [-count]), (clauses + 1, [number + 1])]))
    texts.append(["3 0 2 1 0\n"])
    formula = dimacs(count,
                     [*([-variable, variable + 1] for variable in range(1, count)), [-count], [1]])
    lay(texts, tmp_path)
    written(formula, tmp_path, "formula")
    words = [*way, *small(options.split()), *first_words(texts)]
    found = answered(program, Wanted(words, 0, shell=f'{limits} && exec "$@"'), tmp_path)
    assert found == Ran(last(count, [ADDED], 0), "", 0)
    for number, text in enumerate([*saved, ""], 2):
        assert (tmp_path / saved_name(number)).read_text() == text
