"""lrup-trim: cores and smaller proofs, which lrupd and an independent LRAT checker have to accept.

There are random runs of one to five solvers, with and without imports, in one to seven rounds, some
under an assumption, some with new hints; and as many garbled records. The core has to consist of
clauses of the formula; lines have to be numbered densely, and each clause has to be cited, and
deleted right after its last use. With the commands that lrup-trim prints, lrupd has to accept the
lines over the core and over the formula. For garbled streams, it has to accept both or neither, as
the LRAT checker does; if the formula is satisfiable, neither. Records of lrup-solve are trimmed if
CaDiCaL's library is installed. While streams are rewritten and truncated, all outputs or none are
written. lrup-trim is built for tests, with -fsanitize=address,undefined if the compiler supports
it."""
import functools
import hashlib
import mmap
import os
import random
import re
import shlex
import signal
import sys
import tempfile
from pathlib import Path
from typing import Callable, Dict, List, NamedTuple, Optional, Sequence, Tuple

import pytest

from harness import (COMPRESSED, EXAMPLES, FILTER, FOUR, GENERATOR, SANITIZE, SANITIZING, TRIM,
                     VERDICTS, VERSION, ZCAT, Ran, dimacs, example, generated, lacking, named,
                     output_of, piped, random_clauses, run, sanitized, sanitizer, within, write_all,
                     written)
from faulty import garbled_text, refuted, solved
from lrat import lrat_fault
from proof_forms import Clause, Step, read_formula, read_steps
from refused import refusing
from rewriting import cut_while_read, withstands
from rounds import ONE, TWO, Proof, round_files
from solving import solve

CHAIN = EXAMPLES / "chain.py"
OUTPUTS = ["core", "stream", "lrat"]
FOUR_SOLVERS = [f"bmc-four.{number}" for number in range(1, 5)]
TWO_SOLVERS = ["pigeonhole-two.1", "pigeonhole-two.2"]
Trimmed = Callable[..., str]    # the fixture `trimmed`


def trim(words: Sequence[object], folder: Path, before: Optional[Callable[[], None]] = None) -> Ran:
    """Runs the build for tests in this folder."""
    return run([sanitized(TRIM), *words], cwd=folder, env={**os.environ, **SANITIZING},
               preexec_fn=before)


def outputs_of(folder: Path) -> List[object]:
    return [word for name in OUTPUTS for word in (f"--{name}", folder / name)]


def texts_of_outputs(folder: Path) -> List[str]:
    return [(folder / name).read_text() for name in OUTPUTS]


# Outputs.


def core_of(path: Path) -> Tuple[int, List[int], List[Clause]]:
    """The header's number of variables; each clause's number and literals, on a line each."""
    header, *lines = path.read_text().splitlines()
    numbers = [int(line[len("c id "):]) for line in lines[::2] if line.startswith("c id ")]
    clauses = [[int(word) for word in line.split()] for line in lines[1::2]]
    _, _, variables, count = header.split()
    assert header == f"p cnf {variables} {count}"
    assert int(count) == len(numbers) == len(clauses)
    ends = [clause.pop() for clause in clauses]
    assert not any(ends)
    return int(variables), numbers, clauses


def want_tight(steps: Sequence[Step], clauses: int) -> None:
    """Lines are numbered densely; each clause but the last is cited, and deleted right after the
    line that cites it last."""
    last: Dict[int, int] = {}
    for step in steps:
        last.update({hint: step.identity for hint in step.hints if step.kind == "a"})
    added = [step.identity for step in steps if step.kind == "a"]
    assert added == list(range(clauses + 1, clauses + len(added) + 1))
    assert sorted(last) == list(range(1, clauses + len(added)))
    deleted, now = {}, 0
    for step in steps:
        now = step.identity if step.kind == "a" else now
        deleted.update({hint: now for hint in step.hints if step.kind == "d"})
    assert deleted == {hint: use for hint, use in last.items() if use != added[-1]}


def over_formula(steps: Sequence[Step], core: List[int], clauses: int) -> List[Step]:
    """The lines over the core, with the formula's identities."""
    def now(identity: int) -> int:
        return (core[identity - 1] if identity <= len(core)
                else identity - len(core) + clauses)
    return [Step(step.kind, now(step.identity), step.literals, list(map(now, step.hints)))
            for step in steps]


def verdicts(program: str, said: str, folder: Path) -> List[Ran]:
    """lrupd's verdicts on both outputs, with the printed arguments."""
    commands = re.findall(r"^c \S+: \d+ bytes of \d+: lrupd (.*)$", said, re.M)
    assert len(commands) == 2, said
    return [run([program, *shlex.split(words)], cwd=folder) for words in commands]


def want_right(program: str, formula: Path, said: str, folder: Path, status: int = 0) -> None:
    """All three outputs and the printed lines are right, and lrupd accepts them with this
    status."""
    clauses = read_formula(formula)
    variables, core, literals = core_of(folder / "core")
    assert literals == [clauses[k - 1] for k in core]
    assert variables == int(formula.read_text().split()[2])
    assert core == sorted(set(core))
    steps = read_steps(folder / "stream")
    want_tight(steps, len(core))
    lrat = read_steps(folder / "lrat")
    outside = sorted(set(range(1, len(clauses) + 1)) - set(core))
    first = [Step("d", len(clauses), [], outside)] if outside else []
    assert lrat == first + over_formula(steps, core, len(clauses))
    fault = lrat_fault(clauses, (folder / "lrat").read_text())
    assert fault == ("no empty clause" if status == 8 else "")
    added = sum(step.kind == "a" for step in steps)
    assert said.startswith(f"c {len(core)} of {len(clauses)} clauses, {added} lines of ")
    for done in verdicts(program, said, folder):
        assert (done.err, done.status) == ("", status)
        assert done.out.splitlines()[-1] == VERDICTS[status]


@pytest.fixture
def trimmed(program: str, tmp_path: Path) -> Trimmed:
    """Trims a proof, checks all outputs, and returns the lines that lrup-trim prints."""
    def trimmed(formula: Path, proof: Sequence[Path], assumptions: Optional[Path] = None,
                rehints: bool = False) -> str:
        words = [*(["--assume", assumptions] if assumptions else []), *["--re-hint"] * rehints]
        out = output_of(trim([*outputs_of(tmp_path), *words, formula, *proof], tmp_path))
        assert not (tmp_path / "lrat.re-hint").exists()
        want_right(program, formula, out, tmp_path, 8 if assumptions else 0)
        return out
    return trimmed


# Runs.


def proof_in_rounds(formula: Path, streams: List[Path], rounds: int, folder: Path) -> List[Path]:
    """The streams if `rounds` is 0, otherwise a folder with that many rounds."""
    if rounds == 0:
        return streams
    done = run([sys.executable, CHAIN, rounds, formula, folder / "rounds", *streams])
    assert done == Ran("", "", 0)
    return [folder / "rounds"]


@pytest.mark.parametrize("rounds", [0, 1, 2, 9])
@pytest.mark.parametrize("formula, streams", [
    pytest.param("bmc.cnf", ["bmc.lrup"], id="one solver"),
    pytest.param("bmc.cnf", FOUR_SOLVERS, id="four solvers"),
    pytest.param("pigeonhole.cnf", TWO_SOLVERS, id="two solvers")])
def test_recorded(trimmed: Trimmed, formula: str, streams: Sequence[str], rounds: int,
                  tmp_path: Path) -> None:
    trimmed(example(formula),
            proof_in_rounds(example(formula), list(map(example, streams)), rounds, tmp_path))


def selected(path: Path, literal: int) -> None:
    """Adds this literal of a new variable to each clause, so the streams derive the literal."""
    lines = []
    for line in path.read_text().splitlines():
        words = line.split()
        if words[0] == "p":
            words[2] = str(literal)
        elif words[1] != "d":
            words.insert(words.index("0", 1 if path.name.startswith("stream") else 0), str(literal))
        lines.append(" ".join(words) + "\n")
    path.write_text("".join(lines))


@pytest.mark.seeds(300)
def test_random(trimmed: Trimmed, seed: int, tmp_path: Path) -> None:
    """One to five solvers, in one run or in one to seven rounds."""
    numbers = random.Random(f"{seed} trim")
    options = ["--seed", seed, "--share", numbers.choice((0, 2, 4, 100)),
               *["--imports"] * (seed % 2)]
    formula, streams = refuted(numbers, 1 + seed % 5, options, tmp_path)
    literal = int(formula.read_text().split()[2]) + 1 if numbers.randrange(8) == 0 else 0
    for path in [formula, *streams] if literal else []:
        selected(path, literal)
    proof = proof_in_rounds(formula, streams, seed % 8, tmp_path)
    cube = written(f"-{literal} 0\n", tmp_path, "cube") if literal else None
    trimmed(formula, proof, cube, rehints=numbers.randrange(4) == 0)


@pytest.mark.parametrize("output, formula", [("stream", "core"), ("lrat", "bmc.cnf")])
def test_a_large_output_is_checked_in_rounds(program: str, trimmed: Trimmed, output: str,
                                             formula: str, tmp_path: Path) -> None:
    """With the command that lrup-trim prints for large outputs, in small rows."""
    trimmed(example("bmc.cnf"), [example("bmc.lrup")])
    os.symlink(example("bmc.cnf"), tmp_path / "bmc.cnf")
    command = (f'"$1" --rounds live --memory 48K {formula} {output} | {{ read ready && '
               f'"$2" --rounds live {formula} live/round-1.stream-1; }}')
    out = output_of(run(["sh", "-c", command, "sh", FILTER, program], cwd=tmp_path))
    rounds = re.fullmatch(r"c round (\d+)\n.*\ns UNSATISFIABLE\n", out)
    assert rounds, out
    assert int(rounds[1]) > 5


@pytest.mark.parametrize("count, rounds", [(1, 0), (3, 0), (2, 4)])
def test_a_core_is_within_the_unsatisfiable_half(trimmed: Trimmed, count: int, rounds: int,
                                                 tmp_path: Path) -> None:
    """A pigeonhole formula, and a satisfiable one over other variables: the core has clauses of the
    first only."""
    pigeons = written(run([sys.executable, GENERATOR, "pigeons", "5"]).out, tmp_path, "pigeons")
    first, numbers = read_formula(pigeons), random.Random(count)
    below = max(abs(literal) for clause in first for literal in clause)
    second = [[literal + below if literal > 0 else literal - below for literal in clause]
              for clause in random_clauses(numbers, 40, 120)]
    assert solved(written(dimacs(below + 40, second), tmp_path), 1, [], tmp_path) is None
    clauses = first + second
    numbers.shuffle(clauses)
    formula = written(dimacs(below + 40, clauses), tmp_path)
    streams = solved(formula, count, [], tmp_path)
    assert streams
    trimmed(formula, proof_in_rounds(formula, streams, rounds, tmp_path))
    literals = {abs(literal) for clause in core_of(tmp_path / "core")[2] for literal in clause}
    assert max(literals) <= below


def test_two_streams_of_four(trimmed: Trimmed) -> None:
    """They cite only each other."""
    streams = [example("two-groups.1"), example("two-groups.2"), Path("/dev/null"),
               Path("/dev/null")]
    trimmed(example("two-groups.cnf"), streams)


@pytest.mark.parametrize("pages", [1, 2, 16])
def test_a_stream_that_ends_at_a_page_boundary(trimmed: Trimmed, pages: int,
                                               tmp_path: Path) -> None:
    lines = "5 2 0 1 2 0\n6 0 5 3 4 0\n"
    rest = pages * mmap.PAGESIZE - len(lines)
    stream = written("10 d 0\n" * (rest % 6) + "1 d 0\n" * (rest // 6 - rest % 6) + lines,
                     tmp_path, "a stream")
    assert stream.stat().st_size == pages * mmap.PAGESIZE
    trimmed(written(FOUR, tmp_path), [stream])


def test_new_hints_need_fewer_lines(trimmed: Trimmed, tmp_path: Path) -> None:
    streams = list(map(example, FOUR_SOLVERS))

    def lines(rehints: bool) -> int:
        said = trimmed(example("bmc.cnf"), streams, rehints=rehints)
        for name in OUTPUTS:
            (tmp_path / name).unlink()
        return int(said.split()[5])

    assert lines(rehints=True) < lines(rehints=False)


# By hand.

CORE = "p cnf 2 4\nc id 1\n1 2 0\nc id 2\n-1 2 0\nc id 3\n1 -2 0\nc id 4\n-1 -2 0\n"
BEGINS = "5 2 0 1 2 0\n5 d 1 2 0\n"
OF_ONE = BEGINS + "6 1 0 5 3 0\n6 d 3 0\n7 0 5 6 4 0\n"
OF_TWO = BEGINS + "6 1 0 5 3 0\n6 d 3 0\n7 -1 0 5 4 0\n7 d 5 4 0\n8 0 7 6 0\n"
OF_FEWER = BEGINS + "6 1 0 5 3 0\n6 d 3 0\n7 0 6 5 4 0\n"
SORTED = "5 -1 2 0 2 0\n5 d 2 0\n6 2 0 1 5 0\n6 d 1 5 0\n7 0 6 3 4 0\n"
OF_THREE = BEGINS + "6 -1 0 5 4 0\n6 d 4 0\n7 0 5 6 3 0\n"
FIVE = "p cnf 3 5\n1 2 0\n-1 2 0\n3 1 0\n1 -2 0\n-1 -2 0\n"


@pytest.mark.parametrize("streams, core, stream, lrat, formula", [
    pytest.param(["5 2 0 1 2 0\n6 0 5 3 4 0\n"], CORE, BEGINS + "6 0 5 3 4 0\n",
                 BEGINS + "6 0 5 3 4 0\n", FOUR, id="four clauses"),
    pytest.param(["7 2 0 1 2 0\n9 3 1 0 3 0\n11 1 3 0 3 0\n20 0 7 4 5 0\n"],
                 "p cnf 3 4\nc id 1\n1 2 0\nc id 2\n-1 2 0\nc id 4\n1 -2 0\nc id 5\n-1 -2 0\n",
                 BEGINS + "6 0 5 3 4 0\n", "5 d 3 0\n6 2 0 1 2 0\n6 d 1 2 0\n7 0 6 4 5 0\n", FIVE,
                 id="a clause more, lines more, gaps"),
    pytest.param(["8 0 7 9 3 0\n", "7 i 2 0\n9 -1 0 7 4 0\n", "7 2 0 1 2 0\n"], CORE, OF_THREE,
                 OF_THREE, FOUR, id="streams that wait for each other"),
    pytest.param(["5 2 -1 2 -1 0 2 0\n6 2 2 0 1 5 0\n7 0 6 3 4 0\n"], CORE, SORTED, SORTED, FOUR,
                 id="literals in another order, and twice"),
    pytest.param(["3 0 2 0\n"], "p cnf 1 1\nc id 2\n0\n", "2 0 1 0\n", "2 d 1 0\n3 0 2 0\n",
                 "p cnf 1 2\n1 0\n0\n", id="an empty clause in the formula"),
    pytest.param(["2 0 1 0\n"], "p cnf 0 1\nc id 1\n0\n", "2 0 1 0\n", "2 0 1 0\n",
                 "p cnf 0 1\n0\n", id="an empty clause alone")])
def test_few_lines(trimmed: Trimmed, streams: Sequence[str], core: str, stream: str, lrat: str,
                   formula: str, tmp_path: Path) -> None:
    proof = [written(text, tmp_path, f"f{number}") for number, text in enumerate(streams, 1)]
    trimmed(written(formula, tmp_path), proof)
    assert texts_of_outputs(tmp_path) == [core, stream, lrat]


@pytest.mark.parametrize("proof, stream", [
    pytest.param(ONE, OF_ONE, id="one stream"), pytest.param(TWO, OF_TWO, id="two streams")])
def test_few_lines_in_rounds(trimmed: Trimmed, proof: Proof, stream: str, tmp_path: Path) -> None:
    write_all(round_files(proof.texts), tmp_path)
    trimmed(tmp_path / "formula", [tmp_path / "d"])
    assert texts_of_outputs(tmp_path) == [CORE, stream, stream]


def test_fewer_streams(program: str, trimmed: Trimmed, tmp_path: Path) -> None:
    """According to its sizes, round 2 has fewer streams; the file of another stream is ignored, and
    so is a file after the round with the empty clause."""
    write_all({"round-1.stream-1": "5 2 0 1 2 0\n5 d 1 0\n", "round-1.stream-2": "6 d 4 1 0\n",
               "round-2.sizes": "1 9 9\n", "round-2.stream-1": "5 1 0 4 2 0\n6 0 5 4 3 0\n",
               "round-2.stream-2": "x", "round-3.stream-1": "x"}, tmp_path / "d")
    formula = written(FOUR, tmp_path)
    output_of(run([program, "--rounds", "d", formula, "d/round-1.stream-1", "d/round-1.stream-2"],
                  cwd=tmp_path))
    trimmed(formula, [tmp_path / "d"])
    assert (tmp_path / "stream").read_text() == OF_FEWER


def test_assumptions(trimmed: Trimmed, tmp_path: Path) -> None:
    """Lines after the clause that contradicts the assumptions aren't needed, and neither is one
    before it."""
    stream = written("3 2 1 0 1 0\n4 2 0 1 2 0\n5 1 2 0 4 0\n", tmp_path, "a stream")
    trimmed(example("assumed.cnf"), [stream], example("assumed.cube"))
    assert (tmp_path / "stream").read_text() == "3 2 0 1 2 0\n"


# Wrong streams.


class Garbled(NamedTuple):
    """A formula, and the files of a record of rounds or of a run, by name."""
    formula: Path
    files: Dict[str, str]


BASES = [("four-clause.cnf", ["four-clause.lrup"], 0), ("pigeonhole.cnf", ["pigeonhole.lrup"], 0),
         ("pigeonhole.cnf", TWO_SOLVERS, 0),
         ("four-clause.cnf", ["four-clause.lrup"], 2),
         ("pigeonhole.cnf", TWO_SOLVERS, 3),
         ("pigeonhole.cnf", ["pigeonhole.lrup"], 4),
         ("two-groups.cnf", [f"two-groups.{number}" for number in range(1, 5)], 2)]


@functools.lru_cache(maxsize=None)
def recorded(number: int) -> Dict[str, str]:
    name, streams, rounds = BASES[number]
    with tempfile.TemporaryDirectory() as work:
        found, = proof_in_rounds(example(name), list(map(example, streams)), max(rounds, 1),
                                 Path(work))
        return {path.name: path.read_text() for path in sorted(found.iterdir())
                if rounds or "stream" in path.name}


def base(number: int, folder: Path) -> Garbled:
    """A record that the test may change; its folder is empty."""
    (folder / "rounds").mkdir()
    place = number % len(BASES)
    return Garbled(example(BASES[place][0]), dict(recorded(place)))


FAULTY_LINE = (r"spelling|too long|truncated|rat hint|identity|"
               r"an identity above that of the last addition|missing \d+|"
               r"a cycle of lines that cite each other: \d+")
FAULT = (rf"lrup-trim: (\S+, line \d+: ({FAULTY_LINE})|no line derives the empty clause|"
         r"the run ends in round \d+, at that line|"
         r"needed line \d+: (no conflict by unit propagation: .*|"
         r"a variable that the formula doesn't have: \d+, above the header's \d+)|"
         r"\S+: not STREAMS LINES ROOM|\S+: compressed: unpack it with [^|]+|"
         r"\S+: No such file or directory)")


def garbled_trim(program: str, found: Garbled, formula: Path, rehints: bool,
                 folder: Path) -> Optional[Tuple[bool, List[int]]]:
    """Whether the LRAT checker accepts, and lrupd's statuses on both outputs; None if there is only
    a message."""
    for name, text in found.files.items():
        (folder / "rounds" / name).write_bytes(text.encode("latin-1"))
    is_record = any("sizes" in name for name in found.files)
    proof = [folder / "rounds"] if is_record else [folder / "rounds" / name for name in found.files]
    done = trim([*outputs_of(folder), *["--re-hint"] * rehints, formula, *proof], folder)
    left = [name for name in [*OUTPUTS, "lrat.re-hint"] if (folder / name).exists()]
    for line in done.err.splitlines():
        assert re.fullmatch(FAULT, line)
    if done.status == 1:
        assert done.err != ""
        assert done.out == ""
        assert left == []
        return None
    assert done.status == 0, done.err
    assert left == OUTPUTS
    fault = lrat_fault(read_formula(formula), (folder / "lrat").read_text())
    return fault == "", [lrupd.status for lrupd in verdicts(program, done.out, folder)]


@pytest.mark.seeds(300)
def test_garbled(program: str, seed: int, tmp_path: Path) -> None:
    """Either lrupd accepts both outputs and the LRAT checker accepts the LRAT text, or neither
    checker accepts anything."""
    numbers = random.Random(f"{seed} garbled")
    found = base(seed, tmp_path)
    for name in numbers.sample(sorted(found.files), numbers.randint(1, min(2, len(found.files)))):
        for _ in range(numbers.choice((1, 1, 1, 2, 5))):
            found.files[name] = garbled_text(found.files[name], numbers)
    answers = garbled_trim(program, found, found.formula, seed % 4 == 0, tmp_path)
    assert answers in (None, (True, [0, 0]), (False, [3, 3]))


def test_no_hints(program: str, tmp_path: Path) -> None:
    """A line that cites nothing is copied, but lrupd refuses it."""
    formula, stream = written(FOUR, tmp_path), written("5 0 0\n", tmp_path, "stream")
    output_of(trim(["--lrat", "lrat", formula, stream], tmp_path))
    assert (tmp_path / "lrat").read_text() == "4 d 1 2 3 4 0\n5 0 0\n"
    assert run([program, formula, tmp_path / "lrat"]).status == 3


@pytest.mark.seeds(100)
def test_satisfiable(program: str, seed: int, tmp_path: Path) -> None:
    """Streams of another formula, garbled or not: this one has a copy of another clause in place of
    a needed one. Nothing is accepted; the filter finds no hints."""
    numbers = random.Random(f"{seed} satisfiable")
    found = base(seed % 6, tmp_path)      # all clauses are needed
    clauses = read_formula(found.formula)
    left_out, again = numbers.sample(range(len(clauses)), 2)
    clauses[left_out] = clauses[again]
    variables = max(abs(literal) for clause in clauses for literal in clause)
    formula = written(dimacs(variables, clauses), tmp_path)
    assert solved(formula, 1, [], tmp_path) is None
    is_garbled, rehints = numbers.randrange(3) == 0, numbers.randrange(4) == 0
    for name in found.files if is_garbled else []:
        found.files[name] = garbled_text(found.files[name], numbers)
    answers = garbled_trim(program, found, formula, rehints, tmp_path)
    assert answers in (None, (False, [3, 3]))
    if rehints:
        assert answers is None
    elif not is_garbled:
        assert answers is not None


FIRST = "5 2 0 1 2 0\n"


@pytest.mark.parametrize("streams, said", named([
    ("spelling", [FIRST + "6  0 5 3 4 0\n"], ["f1, line 2: spelling"]),
    ("an empty line", ["\n"], ["f1, line 1: spelling"]),
    ("a word", ["c a comment\n"], ["f1, line 1: spelling"]),
    ("DRAT", ["2 0\n0\n"], ["f1, line 1: spelling"]),
    ("no end", [FIRST + "6 0 5 3 4 0"], ["f1, line 2: truncated"]), ("no line", [""], []),
    ("CR LF", [FIRST.replace("\n", "\r\n")], ["f1, line 1: spelling"]),
    ("after 0", [FIRST + "6 0 5 3 4 0 7\n"], ["f1, line 2: spelling"]),
    ("three ends", ["5 2 0 1 0 2 0\n"], ["f1, line 1: spelling"]),
    ("a RAT step", ["5 2 0 1 -2 3 0\n"], ["f1, line 1: rat hint"]),
    ("identity of the formula", ["4 2 0 1 2 0\n"], ["f1, line 1: identity"]),
    ("not above the one before", ["6 2 0 1 2 0\n5 0 6 3 4 0\n"],
     ["f1, line 1: an identity above that of the last addition"]),
    ("twice", [FIRST + "5 1 0 5 3 0\n"], ["f1, line 2: identity"]),
    ("beyond all identities", [f"{5 + (1 << 28)} 2 0 1 2 0\n"], ["f1, line 1: identity"]),
    ("another stream's", ["6 2 0 1 2 0\n", ""], ["f1, line 1: identity"]),
    ("missing", [FIRST + "6 0 5 3 7 0\n"], ["f1, line 2: missing 7"]),
    ("itself", ["5 2 0 1 5 0\n"], ["f1, line 1: missing 5"]),
    ("in a gap", [FIRST + "7 1 0 5 3 0\n8 0 6 7 4 0\n"], ["f1, line 3: missing 6"]),
    ("of a stream that ends", ["5 0 6 3 4 0\n", ""], ["f1, line 1: missing 6"]),
    ("of a stream with a fault", ["5 0 6 3 4 0\n", "6 x 0\n"],
     ["f2, line 1: spelling", "f1, line 1: missing 6"]),
    ("a circle", ["5 2 0 6 2 0\n", "6 1 0 5 3 0\n"],
     ["f2, line 1: a cycle of lines that cite each other: 5", "f1, line 1: missing 6"]),
    ("too many hints", ["5 0 " + "1 " * 65537 + "0\n"], ["f1, line 1: too long"]),
    ("bytes", ["\0\0\0\0"], ["f1, line 1: truncated"]),
    ("a deletion without an end", ["4 d 1\n"], ["f1, line 1: spelling"]),
    ("an import without an end", ["4 i 1\n"], ["f1, line 1: spelling"])]))
def test_faults(streams: Sequence[str], said: Sequence[str], tmp_path: Path) -> None:
    """These faulty lines are reported; without them, nothing refutes the four clauses."""
    names = [written(text, tmp_path, f"f{number}").name for number, text in enumerate(streams, 1)]
    done = trim([*outputs_of(tmp_path), written(FOUR, tmp_path), *names], tmp_path)
    last = "no line derives the empty clause"
    assert done == Ran("", "".join(f"lrup-trim: {line}\n" for line in [*said, last]), 1)
    assert sorted(os.listdir(tmp_path)) == [*names, "formula.cnf"]


def test_a_fault_beside_the_proof(program: str, tmp_path: Path) -> None:
    """Another stream has the empty clause."""
    for name, text in (("f1", "5 1 0 9 0\n"), ("f2", "6 2 0 1 2 0\n8 0 6 3 4 0\n")):
        written(text, tmp_path, name)
    done = trim([*outputs_of(tmp_path), written(FOUR, tmp_path), "f1", "f2"], tmp_path)
    assert (done.err, done.status) == ("lrup-trim: f1, line 1: missing 9\n", 0)
    want_right(program, tmp_path / "formula.cnf", done.out, tmp_path)


ROUND = {"round-1.stream-1": FIRST, "round-2.stream-1": "6 0 5 3 4 0\n"}
WRONG_SIZES = ["", "1 2", "1 2\n", "1 2 3 4\n", "0 2 3\n", "65 2 3\n", "x 2 3\n", "1 2 3\n\n",
               "-1 2 3\n", "1  2 3\n"]


@pytest.mark.parametrize("files, said", [
    pytest.param({"other": ""}, "d has no record: lrup-solve --proofs makes one", id="no round"),
    pytest.param({"files": ""}, "d/round-1.stream-1: No such file or directory", id="no stream"),
    pytest.param({**ROUND, "round-1.stream-1": FIRST + "x\n"},
                 "the run ends in round 1, at that line", id="a fault"),
    pytest.param({**ROUND, "round-2.sizes": "2 1 1\n"},
                 "d/round-2.stream-2: No such file or directory", id="no stream 2"),
    *(pytest.param({**ROUND, "round-2.sizes": text}, "d/round-2.sizes: not STREAMS LINES ROOM",
                   id=f"sizes {text!r}") for text in WRONG_SIZES)])
def test_bad_rounds(files: Dict[str, str], said: str, tmp_path: Path) -> None:
    write_all(files, tmp_path / "d")
    done = trim([written(FOUR, tmp_path), "d"], tmp_path)
    assert (done.out, done.status) == ("", 1)
    assert done.err.splitlines()[-1] == f"lrup-trim: {said}"


@pytest.mark.parametrize("length", [9, 100000])
@pytest.mark.parametrize("change, is_right", [
    pytest.param(lambda digest: digest, True, id="right"),
    pytest.param(lambda digest: "\\" + digest, True, id="with a backslash, as of an odd name"),
    pytest.param(lambda digest: digest[:-1] + f"{15 - int(digest[-1], 16):x}", False, id="wrong"),
    pytest.param(lambda digest: "", False, id="none")])
def test_digests(change: Callable[[str], str], is_right: bool, length: int, tmp_path: Path) -> None:
    """The formula is compared with the record's SHA-256; another formula is refused."""
    write_all(ROUND, tmp_path / "d")
    formula = written("c" + "x" * (length - 2) + "\n" + FOUR, tmp_path)
    digest = hashlib.sha256(formula.read_bytes()).hexdigest()
    written(f"{change(digest)}  {formula}\n", tmp_path, "d/formula.sha256")
    done = trim([formula, "d"], tmp_path)
    said = (f"lrup-trim: {formula} isn't the formula of d, or was changed since: its digest isn't "
            "the one in d/formula.sha256\n")
    assert (done.err, done.status) == (("", 0) if is_right else (said, 1))


# Files and the command line.


@pytest.mark.parametrize("words, status, said", [
    ("", 2, "error: no FORMULA"), ("f", 2, "error: no DIR or STREAM"),
    ("--cores x f s", 2, "error: no such option: --cores"),
    ("--core", 2, "error: no value after --core"),
    ("--core --lrat x f s", 2, "error: no value after --core"),
    ("--core --=x f s", 2, "error: no value after --core"),
    ("--stream x f s", 2, "error: --stream without --core"),
    ("--core x --core y f s", 2, "error: given twice: --core"),
    ("f" + " s" * 65, 2, "error: more than 64 streams, from s"),
    ("-x f s", 2, "error: no such option: -x"),
    ("--core there f s", 1, "there: exists, not overwritten"),
    ("--lrat f f s", 1, "f: exists, not overwritten"),
    ("--core x --stream=s f s", 1, "s: exists, not overwritten"),
    ("f d s", 1, "d: a folder has to be the only input"),
    ("f d", 1, "d has no record: lrup-solve --proofs makes one"),
    ("f p", 1, "p: has to be a regular file, since it is read more than once"),
    ("p s", 1, "p: has to be a regular file, since it is read more than once"),
    ("f none", 1, "none: No such file or directory"),
    ("none s", 1, "none: No such file or directory"),
    ("f z", 1, f"z: compressed: unpack it with {ZCAT}"),
    ("z s", 1, f"z: compressed: unpack it with {ZCAT}"),
    ("f s", 1, "no line derives the empty clause"),
    ("s s", 1, "s, line 1: no header 'p cnf VARIABLES CLAUSES': not DIMACS CNF"),
    ("--assume none f s", 1, "none: No such file or directory"),
    ("--assume there f s", 1,
     "there: not one line of literals over FORMULA's variables and a final 0"),
    ("--lrat d/none/x f s", 1, "no line derives the empty clause"),
    ("--re-hint f s", 2, "error: --re-hint without --core or --lrat"),
    ("--re-hint=1 f s", 2, "error: no such option: --re-hint=1"),
    ("--re-hint --core r f s", 1, "r.re-hint: exists, not overwritten")])
def test_refused(words: str, status: int, said: str, tmp_path: Path) -> None:
    """Runs in a folder with a formula f, a stream s, a pipe p, a folder d without rounds, files
    there and r.re-hint, and a compressed file z."""
    files = {"f": FOUR.encode(), "s": FIRST.encode(), "there": b"mine", "r.re-hint": b"",
             "z": COMPRESSED[ZCAT]}
    write_all(files, tmp_path)
    piped(tmp_path / "p")
    (tmp_path / "d").mkdir()
    done = trim(words.split(), tmp_path)
    assert (done.out, done.status) == ("", status)
    assert done.err.splitlines()[-1] == f"lrup-trim: {said}"
    assert sorted(os.listdir(tmp_path)) == sorted([*files, "d", "p"])
    assert (tmp_path / "there").read_text() == "mine"


def test_a_file_that_is_cut(tmp_path: Path) -> None:
    cut_while_read([TRIM, "--lrat", "lrat"], "lrup-trim", tmp_path)


@pytest.mark.parametrize("seed", range(4))
def test_files_that_are_rewritten(seed: int, tmp_path: Path) -> None:
    """Meanwhile lrup-trim writes all outputs or none."""
    if not sanitizer():
        lacking(f"the C compiler doesn't build with {SANITIZE[3]}")
    command = lambda number, folder: [sanitized(TRIM), *outputs_of(folder),
                                      *["--re-hint"] * (number % 4 == 3)]
    for status, folder in withstands(command, (0, 1), 15, seed, tmp_path):
        assert sorted(os.listdir(folder)) == (sorted(OUTPUTS) if status == 0 else [])


@pytest.mark.parametrize("output", ["--core", "--lrat"])
def test_a_signal_leaves_no_file(output: str, tmp_path: Path) -> None:
    """It comes once a file is created."""
    done = run([TRIM, output, "made", example("bmc.cnf"), example("bmc.lrup")], cwd=tmp_path,
               env={**os.environ, "LD_PRELOAD": str(refusing()), "REFUSE": "create:1:SIGTERM",
                    "MARK": str(tmp_path / "mark")})
    assert done.status == -signal.SIGTERM, done.err
    assert os.listdir(tmp_path) == ["mark"]


@pytest.mark.parametrize("place, cause", [
    pytest.param("none/x", "No such file or directory", id="a missing folder"),
    pytest.param("core", "File exists", id="one name for two outputs")])
def test_no_place(place: str, cause: str, tmp_path: Path) -> None:
    """What was made before is removed."""
    done = trim(["--core", "core", "--stream", "stream", "--lrat", place,
                 example("four-clause.cnf"), example("four-clause.lrup")], tmp_path)
    assert done == Ran("", f"lrup-trim: {place}: {cause}\n", 1)
    assert os.listdir(tmp_path) == []


@pytest.mark.parametrize("limit", [0, 20000, 200000])
@pytest.mark.parametrize("options", [pytest.param([], id="plain"), ["--re-hint"]])
def test_a_limit_on_the_size_of_files(limit: int, options: Sequence[object],
                                      tmp_path: Path) -> None:
    """No part of an output is left."""
    words = [*outputs_of(tmp_path), *options, example("bmc.cnf"), example("bmc.lrup")]
    done = trim(words, tmp_path, lambda: within(limit))
    assert (done.out, done.status) == ("", 1)
    assert re.fullmatch(r"lrup-trim: \S+/(core|stream|lrat)(\.re-hint)?: File too large\n",
                        done.err)
    assert os.listdir(tmp_path) == []


@pytest.mark.parametrize("word", ["--help", "-h"])
def test_help(word: str, tmp_path: Path) -> None:
    assert output_of(trim([word], tmp_path)).startswith("usage: lrup-trim ")


def test_version() -> None:
    assert run([TRIM, "--version"]) == Ran(f"lrup-trim {VERSION}\n", "", 0)


# Records of lrup-solve.


IN_ROUNDS = {"SAME_WORDS": 1, "SLICE": 40, "FIRST_WORDS": 20000}


@pytest.mark.usefixtures("solve_for_tests")
@pytest.mark.parametrize("engines, tested, words, assumes", [
    pytest.param(1, {}, "random 150 1", False, id="one engine"),
    pytest.param(2, {}, "random 170 4", False, id="two engines"),
    pytest.param(1, IN_ROUNDS, "pigeons 7", False, id="one engine in rounds"),
    pytest.param(3, IN_ROUNDS, "random 180 3", False, id="three in rounds"),
    pytest.param(2, IN_ROUNDS, "random 170 4", True, id="two in rounds, assuming")])
def test_records_of_lrup_solve(trimmed: Trimmed, engines: int, tested: Dict[str, object],
                               words: str, assumes: bool, tmp_path: Path) -> None:
    """Records that lrup-solve --proofs keeps, of one round or of several."""
    formula, kept = generated(words, tmp_path), tmp_path / "kept"
    options: List[object] = ["-j", engines, "--proofs", kept]
    cube = None
    if assumes:
        literal = int(formula.read_text().split()[2]) + 1
        selected(formula, literal)
        cube = written(f"-{literal} 0\n", tmp_path, "cube")
        options += ["--assume", cube]
    assert solve([*options, formula], tested=tested).status == 20
    rounds = len(list(kept.glob("round-*.stream-1")))
    assert (rounds > 2) == bool(tested)
    trimmed(formula, [kept], cube)
