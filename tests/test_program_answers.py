"""lrupd's answers: what a run writes to standard output and standard error, and its status.

Runs of one stream and of several, over files and pipes; refused arguments, files and assumptions;
--watch; large inputs, little memory, and outputs that can't be written."""
import re
import socket
import subprocess
import sys
from pathlib import Path
from typing import Any, Dict, Iterator, List, Tuple

import pytest

from harness import (FOUR, ROOT, SMALL_ROW, VERSION, Pieces, Wanted, answered, answers, example,
                     report, runs, small, started, write_all)

sys.path.append(str(ROOT / "gate"))
import interface

Named = Tuple[str, Wanted]
WAYS = ["", "--serial"]
ONE, TWO = "5 2 0 1 2 0\n", "5 2 0 1 2 0\n6 0 5 3 4 0\n"
FILES = {"formula": FOUR, "one": ONE, "two": TWO}
FOUR_SOLVERS = [f"bmc-four.{number}" for number in range(1, 5)]
ASSUMED = [example("assumed.cnf"), example("assumed.lrup")]
CUBE = example("assumed.cube")
ADDED = "1 added, 0 deleted, ended"
BOTH_ADDED = "2 added, 0 deleted, ended"


# Kinds of runs.


def recorded(name: str, options: str, *files: str) -> Named:
    """A run of the examples in a row of the default size, with the report in NAME.out."""
    words = [*options.split(), *map(example, files)]
    return f"{name} {options}", Wanted(words, 0, example(f"{name}.out").read_text())


def streams(name: str, options: str, status: int, *said_and_text: Any,
            formula: str = FOUR) -> Named:
    """A run of these streams, each given as its line in the report, and its text or the function
    that makes it."""
    said, texts = said_and_text[::2], said_and_text[1::2]
    names = [f"stream{number}" for number in range(1, len(texts) + 1)]
    files = {"formula": formula, **dict(zip(names, texts))}
    return name, Wanted([*small(options.split()), "formula", *names], status,
                        report(said, status), files=files)


def refused(cause: str, status: int, *words: object, shell: str = 'exec "$@"') -> Named:
    """No report, but this cause."""
    files = {**FILES, "refused": "p cnf 1\n"}
    return cause, Wanted(words, status, err=f"lrupd: {cause}\n", files=files, shell=shell)


def assumed(name: str, status: int, text: str, options: str) -> Named:
    """A stream that derives the clause 2 from two clauses, under the assumptions in this text."""
    words = [*SMALL_ROW, "--assume", "cube", *options.split(), *ASSUMED]
    return f"{name} {options}", Wanted(words, status, report([ADDED], status), files={"cube": text})


# Tables of runs.


@runs
def test_examples() -> Iterator[Named]:
    yield recorded("four-clause", "", "four-clause.cnf", "four-clause.lrup")
    yield recorded("pigeonhole", "", "pigeonhole.cnf", "pigeonhole.lrup")
    yield recorded("bmc", "", "bmc.cnf", "bmc.lrup")
    for options in ["--tries 1000000", "--serial"]:
        yield recorded("pigeonhole-two", options, "pigeonhole.cnf", "pigeonhole-two.1",
                       "pigeonhole-two.2")
        yield recorded("bmc-four", options, "bmc.cnf", *FOUR_SOLVERS)


@runs
def test_one_stream() -> Iterator[Named]:
    """Streams over the four clauses of two literals: each assignment makes one of these clauses
    false."""
    yield streams("two additions", "", 0, BOTH_ADDED, TWO)
    yield streams("a bad line after the empty clause", "", 0,
                  "2 added, 0 deleted, bad line 3 (no conflict)", TWO + "7 2 0 1 0\n")
    yield streams("no identities left", "--lines 1", 3,
                  "1 added, 0 deleted, bad line 2 (identity)", TWO)
    yield streams("no room", "--room 0", 3, "0 added, 0 deleted, bad line 1 (no room)", ONE)
    yield streams("imports of the formula", "", 0, BOTH_ADDED, f"1 i 2 1 1 0\n{TWO}2 i -1 2 0\n")


@runs
def test_several_streams() -> Iterator[Named]:
    other = "6 -2 0 3 4 0\n"
    yield streams("a stream that adds nothing", "", 3, "0 added, 0 deleted, bad line 1 (identity)",
                  "6 2 0 1 2 0\n", "0 added, 0 deleted, ended", "")
    for options in ["--serial", "--tries 1000000"]:
        yield streams(f"the other stream's clause {options}", options, 0, BOTH_ADDED,
                      ONE + "7 0 5 6 0\n", ADDED, other)
        yield streams(f"the other stream's clause, imported {options}", options, 0,
                      BOTH_ADDED, ONE + "6 i -2 0\n7 0 5 6 0\n", ADDED, other + "5 i 2 2 0\n")
        yield streams(f"other literals imported than the other stream's {options}", options, 3,
                      "1 added, 0 deleted, bad line 2 (differs 6)",
                      ONE + "6 i 2 0\n7 0 5 6 0\n", ADDED, other)
    yield streams("an import of the other stream's clause, too early", "--serial", 3,
                  "0 added, 0 deleted, bad line 1 (missing 6)", "6 i -2 0\n", ADDED, other)
    deleted = ["1 added, 1 deleted, ended", other + "6 d 6 0\n"]
    yield streams("an import of the other stream's clause, deleted by it", "--serial", 3,
                  "2 added, 0 deleted, bad line 3 (retired 6)",
                  ONE + "7 2 0 1 2 0\n6 i -2 0\n", *deleted)
    yield streams("the other stream's clause, too early", "--serial --tries 0", 3,
                  "0 added, 0 deleted, bad line 1 (missing 6)", "5 0 6 0\n", ADDED, other)
    yield streams("the other stream's clause, deleted by it", "--serial", 3,
                  "2 added, 0 deleted, bad line 3 (retired 6)",
                  ONE + "7 2 0 1 2 0\n9 0 5 6 0\n", *deleted)
    yield streams("the other stream's clause, dropped by this one", "", 3,
                  "0 added, 1 deleted, bad line 2 (dropped 6)", "5 d 6 0\n5 0 6 0\n", ADDED, other)
    many = [(ADDED, f"{number} 2 0 1 2 0\n") for number in range(5, 69)]
    yield streams("64 streams", "--lines 1 --room 1", 3, *(word for pair in many for word in pair))


@runs
def test_pipes() -> Iterator[Named]:
    """Pipes that are opened in the order of the arguments, and written while they are checked; also
    a file named twice, and a folder."""
    both: Dict[str, Pieces] = {"pipe1": [b"5 2 0 1 2 0\n7", 0.2, b" 0 5 6 0\n"],
                               "pipe2": [b"6 -2 0 3", 0.1, b" 4 0\n"]}
    yield "two pipes", Wanted([*SMALL_ROW, "--tries", "1000000", "formula", "pipe1", "pipe2"], 0,
                              report([BOTH_ADDED, ADDED], 0), files=FILES, pipes=both)
    for size in 1, 2:
        pieces = [TWO.encode()[at:at + size] for at in range(0, len(TWO), size)]
        yield f"a pipe, in pieces of {size}", Wanted(
            [*SMALL_ROW, "formula", "pipe"], 0, report([BOTH_ADDED], 0), files=FILES,
            pipes={"pipe": pieces})
    said = [ADDED, "0 added, 0 deleted, bad line 1 (identity)"]
    yield "a stream named twice", Wanted(["formula", "one", "one"], 3, report(said, 3), files=FILES)
    unread = report(["0 added, 0 deleted, read failed at line 1"], 3)
    yield "a folder as the stream", Wanted(["formula", "."], 3, unread, files=FILES)


@runs
def test_paths() -> Iterator[Named]:
    """A path is taken literally: a hyphen isn't standard input, and spaces are kept."""
    absent = [("a formula at a hyphen that is not there", "lrupd: cannot read formula\n",
               ["-", "one"]),
              ("a stream at a hyphen that is not there", "lrupd: cannot open stream 1\n",
               ["formula", "-"])]
    for name, cause, words in absent:
        yield name, Wanted(words, 5, err=cause, files=FILES, given=TWO)
    added = report([ADDED], 3)
    yield "a stream at a hyphen", Wanted(["formula", "-"], 3, added,
                                         files={**FILES, "-": ONE}, given=TWO)
    yield ("a formula at a hyphen",
           Wanted(["-", "one"], 3, added, files={**FILES, "-": FOUR}, given=TWO))
    spaced = {"a  folder/ a formula ": FOUR, "a  folder/ a stream ": ONE}
    yield "paths with spaces", Wanted([*spaced], 3, added, files=spaced)
    yield "paths with spaces, from here", Wanted(["./" + name for name in spaced], 3, added,
                                                 files=spaced, given=TWO)


@runs
def test_refused_files() -> Iterator[Named]:
    """The order in which arguments, formula and streams are checked."""
    yield refused("cannot read formula", 5, "absent", "one")
    yield refused("cannot read formula", 5, "absent", "absent")
    yield refused("cannot read formula", 5, ".", "one")
    yield refused("formula refused: bad header", 4, "refused", "absent")
    yield refused("cannot open stream 1", 5, "formula", "absent", "absent")
    yield refused("cannot open stream 2", 5, "formula", "one", "absent")
    yield refused("cannot open stream 1", 5, "--lines", "268435456", "formula", "absent")
    yield refused("row too long", 2, "--lines", "268435456", "formula", "one")
    yield refused("row too long", 2, "--room", "268435456", "formula", "one")
    for count in 65, 110:
        yield refused("stream count", 2, "formula", *["one"] * count)


def test_version(program: str, tmp_path: Path) -> None:
    answers(program, Wanted(["--version"], 2, err=f"lrupd {VERSION}\n"), tmp_path)


@runs
def test_assumptions() -> Iterator[Named]:
    for options in WAYS:
        yield assumed("a clause within the cube", 8, "-2 0\n", options)
        yield assumed("the clause itself assumed", 3, "2 0\n", options)
        wide = {"cube": "".join(f"-{number} " for number in range(1, 65536)) + "0\n",
                "wide": "p cnf 65535 2\n1 2 0\n-1 2 0\n"}
        yield (f"65,535 assumed literals {options}",
               Wanted([*SMALL_ROW, *options.split(), "--assume", "cube", "wide", ASSUMED[1]], 8,
                      report([ADDED], 8), files=wide))
    yield "assumed", Wanted(["--assume", CUBE, *ASSUMED], 8, example("assumed.out").read_text())
    empty = report([BOTH_ADDED], 0)
    yield ("the empty clause under assumptions",
           Wanted(["--assume", CUBE, "formula", "two"], 0, empty, files=FILES))
    yield "a pipe of assumptions", Wanted(["--assume", "pipe", *ASSUMED], 8, report([ADDED], 8),
                                          pipes={"pipe": [b"-2", 0.1, b" 0\n"]})


@runs
def test_refused_assumptions() -> Iterator[Named]:
    fault = "assumptions refused: variable out of range"
    yield fault, Wanted(["--assume", "cube", *ASSUMED], 4, err=f"lrupd: {fault}\n",
                        files={"cube": "3 0\n"})
    yield refused("cannot read assumptions", 5, "--assume", "absent", "formula", "absent")
    yield refused("cannot read assumptions", 5, "--assume", ".", "formula", "one")
    yield refused("formula refused: bad header", 4, "--assume", "absent", "refused", "one")
    yield refused("cannot open stream 1", 5, "--assume", CUBE, "formula", "absent")


@runs
def test_watched() -> Iterator[Named]:
    """With --watch, standard error has lines during the run; standard output and the status are the
    same."""
    said = ["0 added, 0 deleted, bad line 1 (spelling)", "0 added, 0 deleted, ended"]
    lines = "".join(f"lrupd: stream {number}: {words}\n" for number, words in enumerate(said, 1))
    words = [*SMALL_ROW, "--watch", "--serial", "formula", "stream", "/dev/null"]
    yield ("two streams with --serial, watched",
           Wanted(words, 3, report(said, 3), lines, files={"formula": FOUR, "stream": "\n"}))
    for options in WAYS:
        one = Wanted(["--watch", *SMALL_ROW, *options.split(), "formula", "two"], 0,
                     report([BOTH_ADDED], 0), files=FILES)
        yield f"one stream, watched {options}", one._replace(err=f"lrupd: stream 1: {BOTH_ADDED}\n")
        yield (f"a full standard error, watched {options}",
               one._replace(shell='exec "$@" 2> /dev/full'))
    yield refused("cannot open stream 2", 5, "--watch", "formula", "one", "absent")


@runs
def test_large() -> Iterator[Named]:
    """The marks of 16,000,000 variables, a set of 1,100,000 dropped identities, and a row with room
    for 16,000,000 literals; streams longer than a ring: 200,000 line ends, and 20,000 lines."""
    yield streams("16,000,000 variables", "", 3, ADDED, "2 16000000 0 1 0\n",
                  formula="p cnf 16000000 1\n16000000 0\n")
    drops = lambda: "".join(f"5 d {identity} 0\n" for identity in range(6, 2200005, 2))
    yield streams("1,100,000 identities dropped", "--lines 1100000", 3,
                  "0 added, 1100000 deleted, ended", drops, "0 added, 0 deleted, ended", "")
    lines = "".join(f"{identity} 2 0 1 2 0\n" for identity in range(5, 20005))
    for options in WAYS:
        yield streams(f"a room of 16,000,000 literals {options}", f"--room 16000000 {options}", 0,
                      BOTH_ADDED, TWO)
        yield streams(f"200,000 line ends {options}", options, 3,
                      "0 added, 0 deleted, bad line 1 (spelling)", "\n" * 200000)
        yield streams(f"20,000 lines {options}", f"--lines 20000 --room 20000 {options}", 3,
                      "20000 added, 0 deleted, ended", lines)


@pytest.mark.usefixtures("much_memory")
@runs
def test_largest() -> Iterator[Named]:
    """Up to 2 GB: a row with room for 110,000,000 literals, and a formula of more than 1 GB, which
    has one long comment before the four clauses."""
    for options in WAYS:
        yield streams(f"a room of 110,000,000 literals {options}", f"--room 110000000 {options}", 0,
                      BOTH_ADDED, TWO)
    pieces = [b"c ", *[b"x" * 1_000_000] * 1_100, f"\n{FOUR}".encode()]
    yield "a formula of 1,100,000,000 bytes", Wanted(["pipe", "two"], 0, report([BOTH_ADDED], 0),
                                                     files=FILES, pipes={"pipe": pieces})


@runs
def test_little_memory() -> Iterator[Named]:
    """The program runs in a small address space, with stacks of 8 MB."""
    within = 'ulimit -s 8192 && ulimit -v {} && exec "$@"'
    yield refused("out of memory", 6, "--room", "268000000", "formula", "one",
                  shell=within.format(1000000))
    yield refused("worker 1 not started", 6, "--lines", "1", "--room", "1", "formula", "one",
                  shell=within.format(9000))


@runs
def test_full_outputs() -> Iterator[Named]:
    """If standard error can't be written, the status is the same."""
    cut = "lrupd: cannot write report\n"
    for name, shell, status, words, err in [
            ("a full output", 'exec "$@" > /dev/full', 7, ["formula", "one"], cut),
            ("a closed output", 'exec "$@" >&-', 7, ["formula", "one"], cut),
            ("a full standard error", 'exec "$@" 2> /dev/full', 5, ["absent", "one"], ""),
            ("a full standard error for help", 'exec "$@" 2> /dev/full', 2, ["--help"], ""),
            ("both full", 'exec "$@" > /dev/full 2> /dev/full', 7, ["formula", "one"], "")]:
        yield name, Wanted(words, status, err=err, files=FILES, shell=shell)


# Messages that aren't compared literally, and --watch.


@pytest.mark.parametrize("words", [
    pytest.param([], id="no words"),
    pytest.param(["formula"], id="no stream"),
    pytest.param(["--help"], id="help"),
    pytest.param(["--tries", "1000001", "absent", "absent"], id="too many tries"),
    pytest.param(["--lines", "268435457", "absent", "absent"], id="too many lines"),
    pytest.param(["--room", "x", "absent", "absent"], id="no number"),
    pytest.param(["--fast", "absent", "absent"], id="no such option"),
    pytest.param(["\udcff", "absent"], id="a word that is no UTF-8"),
    pytest.param(["--assume", "cube", "--assume", "cube", "formula", "one"],
                 id="assumptions twice"),
    pytest.param(["--watch", "--watch", "formula", "one"], id="watched twice"),
    pytest.param(["--rounds", ".", "--rounds", ".", "formula", "one"], id="rounds twice"),
    pytest.param(["--rounds", ".", "formula"], id="rounds without a stream")])
def test_usage(program: str, words: List[str], tmp_path: Path) -> None:
    """There is no report, but the help or one usage fault. No line begins with 'lrupd: ', and the
    first line isn't repeated."""
    files = {**FILES, "cube": CUBE.read_text()}
    out, err, status = answered(program, Wanted(words, 2, files=files), tmp_path)
    assert (out, status) == ("", 2)
    first, *others = err.splitlines()
    assert first not in others
    assert not any(line.startswith("lrupd: ") for line in [first, *others]), err


def test_help_has_the_manuals_words(program: str, tmp_path: Path) -> None:
    """Options and sizes, except for line breaks."""
    err = answered(program, Wanted(["--help"], 2), tmp_path).err
    shown = re.findall(r"^ {6}--(\w+)(?: <(\w+)>)?\n((?: {10}.*\n)+)", err, re.M)
    items = re.findall(r"^\.It Fl -(\w+)(?: Ar (\w+))?\n((?:(?!\.It).*\n)*)",
                       interface.part(interface.MANUAL, "options"), re.M)
    in_help, on_page = ([(name, value.lower(), interface.words_in(text))
                         for name, value, text in options] for options in (shown, items))
    assert in_help == on_page
    sizes, words = (" ".join(interface.words_in(text))
                    for text in (interface.part(interface.MANUAL, "sizes"), err))
    assert sizes in words


def test_each_of_64_streams_is_watched(program: str, tmp_path: Path) -> None:
    """The end of each stream has a line, in any order."""
    words = [*SMALL_ROW, "formula", *["one"] * 64]
    plain = answered(program, Wanted(words, 3, files=FILES), tmp_path)
    out, err, status = answered(program, Wanted(["--watch", *words], 3, files=FILES), tmp_path)
    assert (out, status) == (plain.out, 3)
    ends = [line for line in plain.out.splitlines() if line.startswith("c ")]
    assert sorted(err.splitlines()) == sorted(line.replace("c ", "lrupd: ", 1) for line in ends)


@pytest.mark.parametrize("words, lines", [
    pytest.param("formula one", 1, id="one stream"),
    pytest.param("formula one one one one one", 5, id="five streams"),
    pytest.param("--rounds d formula d/round-1.stream-1", 3, id="two rounds")])
def test_a_watched_line_is_one_write(program: str, way: List[str], words: str, lines: int,
                                     tmp_path: Path) -> None:
    """There is a line at the end of each stream in each round, and one at the start of each round
    but the first. A packet socket keeps writes apart."""
    write_all({**FILES, "d/round-1.stream-1": ONE, "d/round-2.stream-1": "6 0 5 3 4 0\n"}, tmp_path)
    reader, writer = socket.socketpair(socket.AF_UNIX, socket.SOCK_SEQPACKET)
    command = [program, "--watch", *way, *SMALL_ROW, *words.split()]
    with reader, started(command, cwd=tmp_path, stdout=subprocess.DEVNULL, stderr=writer):
        writer.close()
        packets = [*iter(lambda: reader.recv(65536), b"")]
    assert len(packets) == lines
    for packet in packets:
        assert packet.index(b"\n") == len(packet) - 1
