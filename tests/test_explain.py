"""lrup-explain: what it says about streams, compared with what lrupd says.

There are faulty runs of one to five solvers: hints are left out, doubled and reordered, literals
get wrong signs, deletions and imports are inserted, or bytes are garbled. Then come mutants of
proofs in other forms. For each stream, the fault and its line have to be those that lrupd --serial
reports; if no stream deletes what others cite, lrupd has to report the same faults with threads,
too. Each chain that is offered has to be right: lrupd accepts the line with this chain as its
hints. If only hints are wrong, a chain has to be offered.
lrup-explain also has to end while streams are rewritten and truncated. It is built for tests, with
-fsanitize=address,undefined if the compiler supports it; three of four runs on faulty streams use
the normal build."""
import functools
import os
import random
import re
import shutil
import sys
import tempfile
from pathlib import Path
from typing import Callable, Dict, List, NamedTuple, Optional, Sequence, Set, Tuple

import pytest

from faulty import garbled_text, refuted
from harness import (COMPRESSED, EXAMPLES, EXPLAIN, FOUR, NONE_BAD, ROOT, SANITIZING, VERSION, ZCAT,
                     Ran, compiler, enough_for, example, generated, named, output_of, piped, run,
                     sanitized, write_all, written)
from mutations import Mutant
from rewriting import cut_while_read, withstands

PAGE = ROOT / "man" / "lrup-explain.1"
FOUR_SOLVERS = [f"bmc-four.{number}" for number in range(1, 5)]
BAD = 3         # the status if a line is bad
# The sources that the example solver shares with the filter.
LIBRARY = [ROOT / "tools" / "lib" / name
           for name in ("errors.c", "formula.c", "lists.c", "literals.c", "packed.c")]
QUICK = 4       # one run in four uses the build for tests
TRIES = 20000   # so that waiting for a clause that never comes takes a second

Faults = Dict[int, Tuple[int, str]]     # by stream: the line, and the fault's words


def explain(words: Sequence[object], tmp_path: Path, quick: bool = False) -> Ran:
    """Runs the build for tests, or the normal one, which is faster."""
    return run([EXPLAIN if quick else sanitized(EXPLAIN), *words], cwd=tmp_path,
               env={**os.environ, **SANITIZING})


# Reports.

NONE_BAD_OF_STREAMS = NONE_BAD + "; were --lines and --room the same?\n"
TITLE = re.compile(r"^(?:round \d+, )?stream (\d+) \(.*\), line (\d+): "
                   r"(.+?)(?:, of stream \d+, whose line \d+ is bad"
                   r"|, for a reason of its own: .*)?$", re.M)
CHAIN = re.compile(r"^  a right chain:((?: \d+)*)(?:    \(if (\d+) isn't deleted\))?$", re.M)


def faults_in(done: Ran) -> Faults:
    found = {int(stream): (int(line), words) for stream, line, words in TITLE.findall(done.out)}
    assert (done.err, done.status) == ("", BAD if found else 0)
    if not found:
        assert done.out in (NONE_BAD_OF_STREAMS, f"{NONE_BAD}\n")
    return found


def reported(done: Ran) -> Faults:
    """The faults in lrupd's report."""
    assert done.status in (0, 3), f"lrupd's status {done.status}: {done.err}"
    return {int(stream): (int(line), words)
            for stream, line, words in re.findall(r"^c stream (\d+): .*, bad line (\d+) \((.*)\)$",
                                                  done.out, re.M)}


# Faulty streams.


class Base(NamedTuple):
    """The texts of the formula and of streams; the formula's number of clauses."""
    formula: str
    streams: List[str]
    clauses: int


@functools.lru_cache(maxsize=None)
def base(number: int) -> Base:
    """A run of one to five solvers, some with imports."""
    numbers = random.Random(f"{number} base")
    with tempfile.TemporaryDirectory() as name:
        options = ["--seed", number, "--share", numbers.choice((2, 4, 100)),
                   *["--imports"] * (number % 2)]
        formula, streams = refuted(numbers, 1 + number % 5, options, Path(name))
        text = formula.read_text()
        return Base(text, [path.read_text() for path in streams], int(text.split()[3]))


BASES = 40


def is_addition(words: List[str]) -> bool:
    return len(words) > 2 and words[1] not in ("d", "i")


def with_other_hints(words: List[str], numbers: random.Random) -> List[str]:
    """Reorders the hints, leaves one out, doubles one, or adds one."""
    end = words.index("0") + 1
    hints = words[end:-1]
    at = numbers.randrange(len(hints)) if hints else 0
    kinds: List[Callable[[], List[str]]] = [
        lambda: hints[:at] + hints[at + 1:],
        lambda: hints[:at] + hints[at:at + 1] + hints[at:],
        lambda: numbers.sample(hints, len(hints)),
        lambda: hints[::-1],
        lambda: hints[:at] + [str(numbers.randrange(1, int(words[0]) + 9))] + hints[at:]]
    return [*words[:end], *numbers.choice(kinds)(), "0"]


def with_other_literals(words: List[str], numbers: random.Random) -> List[str]:
    end = words.index("0")
    literals = words[1:end]
    if not literals:
        return [words[0], str(numbers.choice((-1, 1)) * numbers.randrange(1, 90)), *words[1:]]
    at = numbers.randrange(len(literals))
    kinds: List[Callable[[], List[str]]] = [
        lambda: [*literals[:at], str(-int(literals[at])), *literals[at + 1:]],
        lambda: literals[:at] + literals[at + 1:],
        lambda: [*literals, literals[at]],
        lambda: [*literals, str(-int(literals[at]))],
        lambda: [*literals, str(numbers.randrange(1, 90))]]
    return [words[0], *numbers.choice(kinds)(), *words[end:]]


def with_other_identity(words: List[str], numbers: random.Random) -> List[str]:
    return [
        str(max(1, int(words[0]) + numbers.choice((-9, -2, -1, 1, 2, 3, 100, 70000)))), *words[1:]]


def cited_in(lines: List[List[str]]) -> List[str]:
    return [word for words in lines if is_addition(words)
            for word in (words[0], *words[words.index("0") + 1:-1])] or ["1"]


def deletion(line: List[str], lines: List[List[str]], numbers: random.Random) -> List[str]:
    """A deletion, usually of something that the line cites, otherwise of anything."""
    hints = line[line.index("0") + 1:-1]
    named = hints if hints and numbers.random() < 0.7 else cited_in(lines)
    return ["1", "d", *numbers.choices(named, k=numbers.choice((1, 1, 1, 2))), "0"]


def import_of(lines: List[List[str]], numbers: random.Random) -> List[str]:
    """An import of some clause, with its literals or others."""
    words = numbers.choice([words for words in lines if is_addition(words)]
                           or [["1", "1", "0", "0"]])
    literals = words[1:words.index("0")]
    identity = numbers.choice((words[0], words[0], numbers.choice(cited_in(lines)), "999999"))
    return [identity, "i", *(literals[::-1] if numbers.random() < 0.7 else literals[1:]), "0"]


def with_a_fault(streams: List[str], numbers: random.Random, hints_only: bool = False) -> List[str]:
    """The streams with one change in one line, usually a fault."""
    everywhere = [[line.split() for line in text.splitlines()] for text in streams]
    number = numbers.choice([place for place, lines in enumerate(everywhere)
                             if any(map(is_addition, lines))])
    lines = list(everywhere[number])
    at = numbers.choice([place for place, words in enumerate(lines) if is_addition(words)])
    what = 0 if hints_only else numbers.randrange(8)
    if what < 3:
        lines[at] = with_other_hints(lines[at], numbers)
    elif what == 3:
        lines[at] = with_other_literals(lines[at], numbers)
    elif what == 4:
        lines[at] = with_other_identity(lines[at], numbers)
    elif what < 7:
        lines.insert(at, deletion(lines[at], sum(everywhere, []), numbers))
    else:
        lines.insert(at, import_of(sum(everywhere, []), numbers))
    return [*streams[:number], "".join(" ".join(words) + "\n" for words in lines),
            *streams[number + 1:]]


def sizes_for(found: Base, numbers: random.Random) -> List[str]:
    """Sizes that are usually large enough, otherwise a bit too small."""
    additions = [line.split() for text in found.streams for line in text.splitlines()
                 if is_addition(line.split())]
    lines = max(
        [(int(words[0]) - found.clauses) // len(found.streams) + 1 for words in additions] or [1])
    room = sum(words.index("0") for words in additions)
    if numbers.random() < 0.1:
        lines = numbers.randrange(lines + 1)
    if numbers.random() < 0.1:
        room = numbers.randrange(room + 1)
    return ["--lines", str(lines), "--room", str(room)]


# Comparisons with lrupd.


def without_identity(text: str, identity: str) -> str:
    """The stream without this identity in its deletions."""
    lines = [line.split(" ") for line in text.split("\n")]
    for words in lines:
        if words[1:2] == ["d"]:
            words[2:-1] = [word for word in words[2:-1] if word != identity]
    return "\n".join(" ".join(words) for words in lines)


def mended(done: Ran, texts: List[str], clauses: int) -> Optional[Tuple[int, int, List[str]]]:
    """The stream and line for which a chain is offered, and the streams with that chain."""
    chain, title = CHAIN.search(done.out), TITLE.search(done.out)
    if not chain or not title:
        return None
    stream, number, test_faults = int(title[1]) - 1, int(title[2]), title[3]
    texts = list(texts)
    lines = texts[stream].split("\n")
    words = lines[number - 1].split(" ")
    lines[number - 1] = " ".join([*words[:words.index("0") + 1], *chain[1].split(), "0"])
    texts[stream] = "\n".join(lines)
    if chain[2]:
        deleting = (stream if test_faults.startswith("dropped")
                    else (int(chain[2]) - clauses - 1) % len(texts))
        texts[deleting] = without_identity(texts[deleting], chain[2])
    return stream + 1, number, texts


def want_mended(program: str, done: Ran, texts: List[str], options: Sequence[str], formula: Path,
                clauses: int, folder: Path) -> None:
    """With the chain that is offered, if any, lrupd accepts the line."""
    found = mended(done, texts, clauses)
    if not found:
        return
    stream, number, now = found
    paths = [written(text.encode("latin-1"), folder, f"mended{place}")
             for place, text in enumerate(now, 1)]
    faults = reported(run([program, "--serial", *options, formula, *paths]))
    assert stream not in faults or faults[stream][0] > number, done.out


def compared(program: str, texts: List[str], options: Sequence[str], formula: Path, clauses: int,
             quick: bool, folder: Path) -> Ran:
    """What lrup-explain says; the faults have to be those of lrupd --serial."""
    paths = [written(text.encode("latin-1"), folder, f"s{place}")
             for place, text in enumerate(texts, 1)]
    options = options or enough_for(paths)
    done = explain(["--serial", *options, formula, *paths], folder, quick)
    lrupd = run([program, "--serial", *options, formula, *paths])
    assert faults_in(done) == reported(lrupd), done.out
    want_mended(program, done, texts, options, formula, clauses, folder)
    return done


@pytest.mark.seeds(2000)
def test_faulty_streams(program: str, seed: int, tmp_path: Path) -> None:
    numbers = random.Random(f"{seed} faulty")
    found = base(seed % BASES)
    texts = found.streams
    for _ in range(numbers.choice((1, 1, 1, 2, 4))):
        texts = with_a_fault(texts, numbers)
    if numbers.random() < 0.3:
        at = numbers.randrange(len(texts))
        texts = [*texts[:at], garbled_text(texts[at], numbers), *texts[at + 1:]]
    formula = written(found.formula, tmp_path)
    compared(program, texts, sizes_for(found, numbers), formula, found.clauses, seed % QUICK != 0,
             tmp_path)


REVERSED = "       these hints are right in the reverse order\n"


@pytest.mark.seeds(40)
def test_hints_in_the_reverse_order(program: str, seed: int, tmp_path: Path) -> None:
    """One line's hints are reversed, perhaps with another fault: lrup-explain says so if lrupd
    accepts the line as it was."""
    numbers = random.Random(f"{seed} reversed")
    found = base(5 * numbers.randrange(BASES // 5))
    lines = [line.split() for line in found.streams[0].splitlines()]
    places = [place for place, words in enumerate(lines) if is_addition(words)]
    several = [place for place in places if len(lines[place][lines[place].index("0"):]) > 4]
    at = numbers.choice(several or places)
    if seed % 2:
        lines[at] = with_other_hints(lines[at], numbers)
    right, end = lines[:at + 1], lines[at].index("0") + 1
    wrong = [*lines[:at], [*lines[at][:end], *lines[at][end:-1][::-1], "0"]]
    formula = written(found.formula, tmp_path)
    texts = ["".join(" ".join(words) + "\n" for words in some) for some in (right, wrong)]
    stream = written(texts[0], tmp_path, "right")
    faults = reported(run([program, "--serial", *enough_for([stream]), formula, stream]))
    done = compared(program, texts[1:], [], formula, found.clauses, True, tmp_path)
    assert (REVERSED in done.out) == (faults == {} and faults_in(done) != {}), done.out


@pytest.mark.seeds(100)
def test_a_chain_is_offered_if_only_hints_are_wrong(program: str, seed: int,
                                                    tmp_path: Path) -> None:
    """One solver, without deletions, and at most three bad lines: each gets the chain that is
    offered."""
    numbers = random.Random(f"{seed} hints")
    found = base(5 * numbers.randrange(BASES // 5))
    text = "".join(line + "\n" for line in found.streams[0].splitlines() if line.split()[1] == "a"
                   or is_addition(line.split()))
    texts = [text]
    for _ in range(3):
        texts = with_a_fault(texts, numbers, hints_only=True)
    formula = written(found.formula, tmp_path)
    for _ in range(3):
        done = compared(program, texts, [], formula, found.clauses, True, tmp_path)
        if not faults_in(done):
            return
        now = mended(done, texts, found.clauses)
        assert now, done.out
        texts = now[2]
    done = compared(program, texts, [], formula, found.clauses, True, tmp_path)
    assert faults_in(done) == {}


# Threads.


def cited_by(text: str) -> Set[int]:
    """The identities in hints and imports, except those that aren't numbers."""
    found: Set[int] = set()
    for line in text.splitlines():
        words = line.split()
        if words[1:2] == ["i"]:
            found |= {int(words[0])} if words[0].isdigit() else set()
        elif words[1:2] != ["d"] and "0" in words:
            found |= {int(word) for word in words[words.index("0") + 1:] if word.isdigit()}
    return found


def deleted_by(text: str) -> Set[int]:
    return {int(word) for line in text.splitlines() if line.split()[1:2] == ["d"]
            for word in line.split()[2:-1] if word.isdigit()}


@pytest.mark.seeds(100)
def test_threads(program: str, seed: int, tmp_path: Path) -> None:
    """No stream deletes a clause of its own that others cite, so threads can give only one
    report."""
    numbers = random.Random(f"{seed} threads")
    found = base(1 + seed % (BASES - 1))
    texts = with_a_fault(found.streams, numbers)
    count = len(texts)

    def owner(identity: int) -> int:
        return (identity - found.clauses - 1) % count if identity > found.clauses else -1
    for number, text in enumerate(texts):
        others = set().union(*(cited_by(other) for place, other in enumerate(texts)
                               if place != number))
        for identity in deleted_by(text) & others:
            if owner(identity) == number:
                texts[number] = without_identity(texts[number], str(identity))
    formula = written(found.formula, tmp_path)
    paths = [written(text, tmp_path, f"s{place}") for place, text in enumerate(texts, 1)]
    words = ["--tries", TRIES, *enough_for(paths), formula, *paths]
    done = explain(words, tmp_path)
    assert faults_in(done) == reported(run([program, *words])), done.out


@pytest.mark.seeds(1000)
def test_mutants(program: str, seed: int, tmp_path: Path) -> None:
    """A mutant of a proof in another form is given as a stream."""
    found = Mutant(seed, tmp_path)
    stream = written(found.proof, tmp_path, "stream")
    names = [stream if place == found.stream else "/dev/null"
             for place in range(1, found.streams + 1)]
    words = ["--serial", *enough_for([found.proof]), found.formula, *names]
    lrupd = run([program, *words])
    done = explain(words, tmp_path, seed % QUICK != 0)
    if lrupd.status == 4:    # not a formula
        assert (done.out, done.status) == ("", 1)
        assert done.err.count("\n") == 1
    else:
        assert faults_in(done) == reported(lrupd), done.out


# Faults by hand.

FIRST = "5 2 0 1 2 0\n"
HINTS = "     hint           its clause: ! made true by it, T true, F false, ? neither\n"


def row(hint: object, word: str, clause: str, place: str) -> str:
    return f"  {hint:>7}  {word:<9}{clause:<36}  {place}\n"


def of_formula(number: int) -> str:
    return f"clause {number} of the formula"


ONE_FALSE = ("  derives  2    so at first -2 is true\n" + HINTS
             + row(1, "-> 1", "1! 2F", of_formula(1)))
RIGHT = "  a right chain: 1 2\n"
UNENDED = "  why: each hint is unit, and none has all its literals false: the conflict is missing\n"
NO_CHAIN = ("  no chain: unit propagation over all clauses that the line may cite ends without a "
            "conflict: {} literals are true\n"
            "       then, and {} clauses have none of these. The clause is wrong, or another one "
            "is missing\n")
EMPTY = "  derives  the empty clause\n" + HINTS

# The formula is the four clauses over two variables.
@pytest.mark.parametrize("streams, options, said", named([
    ("excess", ["5 2 0 1 2 3 4 0\n"], "", "stream 1 (f1), line 1: excess 3\n" + ONE_FALSE
     + row(2, "conflict", "-1F 2F", of_formula(2)) + row(3, "BAD", "1T -2T", of_formula(3))
     + "        4  unread\n"
     "  why: hint 2, 2, is the conflict, and none may follow: 2 too many\n" + RIGHT),
    ("no conflict", ["5 2 0 1 0\n"], "",
     "stream 1 (f1), line 1: no conflict\n" + ONE_FALSE + UNENDED + "       all literals are false "
     "in 2 (clause 2 of the formula), which isn't a hint of the line\n" + RIGHT),
    ("no hints", ["5 2 0 0\n"], "",
     "stream 1 (f1), line 1: no conflict\n  derives  2    so at first -2 is true\n"
     "  why: the line has no hints\n" + RIGHT),
    ("a wrong sign", ["5 2 0 1 3 0\n"], "", "stream 1 (f1), line 1: not unit 3\n" + ONE_FALSE
     + row(3, "BAD", "1T -2T", of_formula(3)) + "  why: 1 is true already, by hint 1, 1\n" + RIGHT),
    ("the clause's complement", ["5 2 0 3 2 0\n"], "", "stream 1 (f1), line 1: not unit 3\n"
     "  derives  2    so at first -2 is true\n" + HINTS + row(3, "BAD", "1? -2T", of_formula(3))
     + "        2  unread\n  why: -2 is true already, since the new clause has 2\n"
     "  a right chain: 2 1\n"),
    ("a hint twice", ["5 2 0 1 1 2 0\n"], "",
     "stream 1 (f1), line 1: not unit 1\n" + ONE_FALSE + row(1, "BAD", "1T 2F", of_formula(1))
     + "        2  unread\n"
     "  why: 1 is true already, by hint 1, the same clause: once is enough\n" + RIGHT),
    ("in another order", [FIRST + "6 0 3 5 4 0\n"], "",
     "stream 1 (f1), line 2: not unit 3\n" + EMPTY + row(3, "BAD", "1? -2?", of_formula(3))
     + "        5  unread   .. 1 more\n  why: 2 literals are neither true nor false: 1 -2\n"
     "       2 would follow here from 5 (stream 1, line 1), hint 2 of the line, which comes too "
     "late\n  a right chain: 5 3 4\n"),
    ("in the reverse order", [FIRST + "6 0 4 3 5 0\n"], "",
     "stream 1 (f1), line 2: not unit 4\n" + EMPTY + row(4, "BAD", "-1? -2?", of_formula(4))
     + "        3  unread   .. 1 more\n  why: 2 literals are neither true nor false: -1 -2\n"
     "       2 would follow here from 5 (stream 1, line 1), hint 3 of the line, which comes too "
     "late\n       these hints are right in the reverse order\n  a right chain: 5 4 3\n"),
    ("in the reverse order, but for one more", [FIRST + "6 0 1 4 3 5 0\n"], "",
     "stream 1 (f1), line 2: not unit 1\n" + EMPTY + row(1, "BAD", "1? 2?", of_formula(1))
     + "        4  unread   .. 2 more\n  why: 2 literals are neither true nor false: 1 2\n"
     "  a right chain: 5 4 3\n"),
    ("one left out", [FIRST + "6 0 3 4 0\n"], "",
     "stream 1 (f1), line 2: not unit 3\n" + EMPTY + row(3, "BAD", "1? -2?", of_formula(3))
     + "        4  unread\n  why: 2 literals are neither true nor false: 1 -2\n"
     "       2 would follow here from 5 (stream 1, line 1), which isn't a hint of the line\n"
     "  a right chain: 5 3 4\n"),
    ("a clause that doesn't follow", ["5 0 1 2 0\n"], "",
     "stream 1 (f1), line 1: not unit 1\n" + EMPTY + row(1, "BAD", "1? 2?", of_formula(1))
     + "        2  unread\n"
     "  why: 2 literals are neither true nor false: 1 2\n" + NO_CHAIN.format(0, 4)),
    ("dropped", ["4 d 3 1 0\n" + FIRST], "", "stream 1 (f1), line 2: dropped 1\n"
     "  derives  2    so at first -2 is true\n" + HINTS + row(1, "BAD", "1? 2F", of_formula(1))
     + "        2  unread\n  why: this stream deleted 1 in its line 1, for this stream only\n"
     "  a right chain: 1 2    (if 1 isn't deleted)\n"),
    ("retired", [FIRST + "5 d 5 0\n6 0 5 3 4 0\n"], "",
     "stream 1 (f1), line 3: retired 5\n" + EMPTY + row(5, "BAD", "2?", "stream 1, line 1")
     + "        3  unread   .. 1 more\n"
     "  why: its owner deleted 5 in stream 1, line 2, for all streams\n"
     "  a right chain: 5 3 4    (if 5 isn't deleted)\n"),
    ("retired by another",
     [FIRST + "5 d 5 0\n", "2 i -1 2 0\n2 i 2 -1 0\n6 0 5 3 4 0\n"], "--serial",
     "stream 2 (f2), line 3: retired 5\n" + EMPTY + row(5, "BAD", "2?", "stream 1, line 1")
     + "        3  unread   .. 1 more\n  why: its owner deleted 5 in stream 1, line 2, for all "
     "streams\n"
     "       threads may reach that line earlier or later: don't delete a clause that others cite\n"
     "  a right chain: 5 3 4    (if 5 isn't deleted)\n"),
    ("missing, never derived", ["5 2 0 1 9 0\n"], "", "stream 1 (f1), line 1: missing 9\n"
     + ONE_FALSE + row(9, "BAD", "-", "stream 1, no such line so far")
     + "  why: 9 belongs to stream 1, this one, and none of its lines derives it\n" + RIGHT),
    ("missing, the line's own", ["5 2 0 1 5 0\n"], "", "stream 1 (f1), line 1: missing 5\n"
     + ONE_FALSE + row(5, "BAD", "-", "stream 1, no such line so far")
     + "  why: 5 is what this line derives: no line cites itself\n" + RIGHT),
    ("missing, derived later", ["5 2 0 1 7 0\n7 2 0 1 2 0\n"], "",
     "stream 1 (f1), line 1: missing 7\n" + ONE_FALSE
     + row(7, "BAD", "-", "stream 1, no such line so far")
     + "  why: 7 belongs to stream 1, this one, which derives it later, in its line 2\n" + RIGHT),
    ("missing, beyond the last", ["5 2 0 1 9 0\n"], "--lines 3",
     "stream 1 (f1), line 1: missing 9\n" + ONE_FALSE
     + row(9, "BAD", "-", "above the last identity, 7")
     + "  why: 9 is above 7, the last identity with --lines 3\n"
     "       --lines 5 would be enough\n" + RIGHT),
    ("missing, of another one", ["5 2 0 1 8 0\n", "6 2 0 1 2 0\n"], "",
     "stream 1 (f1), line 1: missing 8\n" + ONE_FALSE
     + row(8, "BAD", "-", "stream 2, no such line so far")
     + "  why: 8 belongs to stream 2, and none of its lines derives it\n" + RIGHT),
    ("missing with --serial", ["5 2 0 1 6 0\n", "6 2 0 1 2 0\n"], "--serial",
     "stream 1 (f1), line 1: missing 6\n" + ONE_FALSE
     + row(6, "BAD", "-", "stream 2, no such line so far") + "  why: 6 belongs to stream 2, which "
     "derives it in its line 1, but with --serial only later: threads wait for it\n" + RIGHT),
    ("a circle", ["5 2 0 6 0\n", "6 2 0 7 0\n", "7 2 0 6 0\n"], "",
     "stream 2 (f2), line 1: missing 7\n  derives  2    so at first -2 is true\n" + HINTS
     + row(7, "BAD", "-", "stream 3, no such line so far")
     + "  why: 7 belongs to stream 3, whose line 1 waits for 6, in a cycle that leads back to this "
     "line\n" + RIGHT + "stream 1 (f1), line 1: missing 6, of stream 2, whose line 1 is bad\n"
     "stream 3 (f3), line 1: missing 6, of stream 2, whose line 1 is bad\n"),
    ("a consequence of another fault", ["5 0 6 8 0\n", "6 2 0 1 0\n8 -2 0 3 4 0\n", "7 x\n"], "",
     "stream 2 (f2), line 1: no conflict\n" + ONE_FALSE + UNENDED + "       all literals are false "
     "in 2 (clause 2 of the formula), which isn't a hint of the line\n" + RIGHT
     + "stream 1 (f1), line 1: missing 6, of stream 2, whose line 1 is bad\n"
     "stream 3 (f3), line 1: spelling, for a reason of its own: --all says why\n"),
    ("a stream that is cut", ["5 0 6 0\n", "6 2 0 1"], "",
     "stream 2 (f2), line 1: truncated\n"
     "  why: the stream ends within this line, after 7 bytes: expected a digit or a space\n"
     "      6 2 0 1\n             ^ byte 8\n"
     "       was the solver killed, or its buffer not flushed?\n"
     "stream 1 (f1), line 1: missing 6, of stream 2, whose line 1 is bad\n"),
    ("each by itself", ["5 0 6 8 0\n", "6 2 0 1 0\n8 -2 0 3 4 0\n", "7 x\n"], "--all",
     "stream 2 (f2), line 1: no conflict\n" + ONE_FALSE + UNENDED
     + "       all literals are false in 2 (clause 2 of the formula), which isn't a hint "
     "of the line\n" + RIGHT + "stream 3 (f3), line 1: spelling\n"
     "  why: expected a literal, 0, d or i, found 'x'\n      7 x\n        ^ byte 3\n"
     + "stream 1 (f1), line 1: missing 6, of stream 2, whose line 1 is bad\n"),
    ("identity of the formula", ["4 2 0 1 2 0\n"], "",
     "stream 1 (f1), line 1: identity\n  derives  2\n"
     "  why: 4 belongs to the formula, whose clauses are 1 to 4\n"
     "       all its identities would be right if the formula had 3 clauses; it has 4\n"
     "       valid here: 5, or after a gap 6, 7 and so on\n"),
    ("one clause too few", ["5 2 0 1 2 0\n", "5 2 0 1 2 0\n9 1 0 1 3 0\n"], "",
     "stream 2 (f2), line 1: identity\n  derives  2\n"
     "  why: 5 belongs to stream 1: 2 streams take turns above 4\n"
     "       all its identities belong to stream 1: are the streams in the solvers' order?\n"
     "       all its identities would be right if the formula had 3 clauses; it has 4\n"
     "       valid here: 6, or after a gap 8, 10 and so on\n"),
    ("one clause too many", ["6 2 0 1 2 0\n", "7 2 0 1 2 0\n", "8 2 0 1 2 0\n"], "",
     "stream 1 (f1), line 1: identity\n  derives  2\n"
     "  why: 6 belongs to stream 2: 3 streams take turns above 4\n"
     "       all its identities would be right if the formula had 5 clauses; it has 4\n"
     "       valid here: 5, or after a gap 8, 11 and so on\n"
     "stream 2 (f2), line 1: identity, for a reason of its own: --all says why\n"
     "stream 3 (f3), line 1: identity, for a reason of its own: --all says why\n"),
    ("one clause too many, but not at first", ["8 2 0 1 2 0\n", ""], "",
     "stream 1 (f1), line 1: identity\n  derives  2\n"
     "  why: 8 belongs to stream 2: 2 streams take turns above 4\n"
     "       valid here: 5, or after a gap 7, 9 and so on\n"),
    ("one clause too many, but not later", ["6 2 0 1 2 0\n9 2 0 1 2 0\n", ""], "",
     "stream 1 (f1), line 1: identity\n  derives  2\n"
     "  why: 6 belongs to stream 2: 2 streams take turns above 4\n"
     "       valid here: 5, or after a gap 7, 9 and so on\n"),
    ("swapped streams of one line", ["6 2 0 1 2 0\n", FIRST], "",
     "stream 1 (f1), line 1: identity\n  derives  2\n"
     "  why: 6 belongs to stream 2: 2 streams take turns above 4\n"
     "       valid here: 5, or after a gap 7, 9 and so on\n"
     "stream 2 (f2), line 1: identity, for a reason of its own: --all says why\n"),
    ("numbered as one stream", [FIRST + "6 1 0 1 3 0\n7 -1 0 2 4 0\n", ""], "",
     "stream 1 (f1), line 2: identity\n  derives  1\n"
     "  why: 6 belongs to stream 2: 2 streams take turns above 4\n"
     "       the identities of stream 1 go up by 1, as with 1 stream, but 2 are given: does its "
     "solver know of all?\n"
     "       valid here: 7, or after a gap 9, 11 and so on\n"),
    ("almost as one stream", [FIRST + "6 1 0 1 3 0\n9 -1 0 2 4 0\n", ""], "",
     "stream 1 (f1), line 2: identity\n  derives  1\n"
     "  why: 6 belongs to stream 2: 2 streams take turns above 4\n"
     "       valid here: 7, or after a gap 9, 11 and so on\n"),
    ("identity of another stream", [FIRST + "8 2 0 1 2 0\n", ""], "",
     "stream 1 (f1), line 2: identity\n  derives  2\n"
     "  why: 8 belongs to stream 2: 2 streams take turns above 4\n"
     "       valid here: 7, or after a gap 9, 11 and so on\n"),
    ("swapped streams", ["6 2 0 1 2 0\n8 1 0 1 3 0\n", FIRST], "",
     "stream 1 (f1), line 1: identity\n  derives  2\n"
     "  why: 6 belongs to stream 2: 2 streams take turns above 4\n"
     "       all its identities belong to stream 2: are the streams in the solvers' order?\n"
     "       valid here: 5, or after a gap 7, 9 and so on\n"
     "stream 2 (f2), line 1: identity, for a reason of its own: --all says why\n"),
    ("swapped, but not all", ["6 2 0 1 2 0\n7 1 0 1 3 0\n", ""], "",
     "stream 1 (f1), line 1: identity\n  derives  2\n"
     "  why: 6 belongs to stream 2: 2 streams take turns above 4\n"
     "       valid here: 5, or after a gap 7, 9 and so on\n"),
    ("identity below the last", ["9 2 0 1 2 0\n7 2 0 1 2 0\n", ""], "",
     "stream 1 (f1), line 2: identity\n  derives  2\n"
     "  why: 7 isn't above 9, the identity of line 1\n"
     "       valid here: 11, or after a gap 13, 15 and so on\n"),
    ("identity beyond the last", ["5 2 0 1 2 0\n7 2 0 1 2 0\n", ""], "--lines 1",
     "stream 1 (f1), line 2: identity\n  derives  2\n"
     "  why: 7 is above 6, the last identity with --lines 1\n       --lines 2 would be enough\n"),
    ("identity beyond the last, and more",
     ["5 2 0 1 2 0\n7 2 0 1 2 0\nx\n13 2 0 1 2 0\n14 2 0 1 2 0\n9 2 0 1 2 0\n", ""], "--lines 1",
     "stream 1 (f1), line 2: identity\n  derives  2\n"
     "  why: 7 is above 6, the last identity with --lines 1\n"
     "       --lines 2 is enough for this line, and 5 for all lines of the stream\n"),
    ("identity, and none is left", [FIRST + "6 2 0 1 2 0\n", ""], "--lines 1",
     "stream 1 (f1), line 2: identity\n  derives  2\n"
     "  why: 6 belongs to stream 2: 2 streams take turns above 4\n"
     "       stream 1 has no identity left: its next one would be 7\n"
     "       --lines 2 would be enough\n"),
    ("an import of its own clause", [FIRST + "5 i 2 0\n"], "",
     "stream 1 (f1), line 2: identity\n  states   2\n"
     "  why: 5 is this stream's own: an import names a clause of another stream, or of "
     "the formula\n"),
    ("an import of a stream that isn't given",
     [FIRST + "8 i 2 0\n9 1 0 1 3 0\n13 -1 0 2 4 0\n", "", ""], "",
     "stream 1 (f1), line 2: identity\n  states   2\n"
     "  why: 8 is this stream's own: an import names a clause of another stream, or of "
     "the formula\n"
     "       the identities of stream 1 go up by 4, as with 4 streams, but 3 are given: was one "
     "left out? 8 would be stream 4's\n"),
    ("an import of a later stream that isn't given",
     [FIRST + "12 i 2 0\n9 1 0 1 3 0\n13 -1 0 2 4 0\n", "6 2 0 1 2 0\n", ""], "",
     "stream 1 (f1), line 2: missing 12\n  states   2\n"
     "  why: 12 belongs to stream 2, and none of its lines derives it\n"
     "       the identities of stream 1 go up by 4, as with 4 streams, but 3 are given: was one "
     "left out? 12 would be stream 4's\n"),
    ("an import beyond the last", ["9 i 2 0\n"], "--lines 3",
     "stream 1 (f1), line 1: identity\n  states   2\n"
     "  why: 9 is above 7, the last identity\n       --lines 5 would be enough\n"),
    ("literal", ["5 3 -4 0 1 0\n"], "", "stream 1 (f1), line 1: literal\n  derives  3 -4\n"
     "  why: 2 literals are above 2, the number of variables in the formula's header: "
     "the first is 3\n"),
    ("tautology", ["5 1 2 -1 0 1 0\n"], "", "stream 1 (f1), line 1: tautology\n  derives  1 2 -1\n"
     "  why: the clause has 1 and -1, so it is always true: leave the line out\n"),
    ("no room", [FIRST + "6 1 2 1 0 1 0\n7 1 0 3 5 0\n"], "--room 2",
     "stream 1 (f1), line 2: no room\n  derives  1 2 1\n"
     "  why: the clause has 2 different literals, and 1 of --room 2 is left: 1 too few\n"
     "       --room 3 is enough for this line, and 5 for all lines of the stream\n"),
    ("not live, deleted before", ["1 d 2 0\n1 d 1 2 0\n"], "", "stream 1 (f1), line 2: not live 2\n"
     "  why: this stream already deleted 2, in its line 1\n"),
    ("not live, twice", ["1 d 2 1 2 0\n"], "",
     "stream 1 (f1), line 1: not live 2\n  why: 2 is in this line twice\n"),
    ("not live, never derived", ["1 d 5 0\n" + FIRST], "", "stream 1 (f1), line 1: not live 5\n"
     "  why: no line of this stream has derived 5; line 2 does, which comes later\n"),
    ("not live, never at all", ["1 d 5 0\n"], "",
     "stream 1 (f1), line 1: not live 5\n  why: no line of this stream has derived 5\n"),
    ("not live, beyond the last", ["1 d 9 0\n"], "--lines 3", "stream 1 (f1), line 1: not live 9\n"
     "  why: 9 is above 7, the last identity\n       --lines 5 would be enough\n"),
    ("differs", ["2 i -1 -2 0\n"], "",
     "stream 1 (f1), line 1: differs 2\n  states   -1 -2\n"
     "  why: 2 is -1 2 (clause 2 of the formula)\n       the import leaves out 2\n"
     "       only the import has -2\n"),
    ("an import that is missing", ["6 i 2 0\n", "8 2 0 1 2 0\n"], "",
     "stream 1 (f1), line 1: missing 6\n  states   2\n"
     "  why: 6 belongs to stream 2, and none of its lines derives it\n"),
    ("an import of a stream without lines", ["6 i 2 0\n", ""], "",
     "stream 1 (f1), line 1: missing 6\n  states   2\n"
     "  why: 6 belongs to stream 2, and none of its lines derives it\n"
     "       stream 2 has no lines: was it left out?\n"),
    ("one of four streams", ["5 2 0 1 6 0\n9 2 0 1 2 0\n13 2 0 1 2 0\n"], "",
     "stream 1 (f1), line 1: missing 6\n" + ONE_FALSE
     + row(6, "BAD", "-", "stream 1, no such line so far")
     + "  why: 6 belongs to stream 1, this one, and none of its lines derives it\n"
     "       the identities of stream 1 go up by 4, as with 4 streams, but 1 is given: was "
     "one left out? 6 would be stream 2's\n" + RIGHT),
    ("one stream with a gap", ["5 2 0 1 7 0\n6 2 0 1 2 0\n9 2 0 1 2 0\n"], "",
     "stream 1 (f1), line 1: missing 7\n" + ONE_FALSE
     + row(7, "BAD", "-", "stream 1, no such line so far")
     + "  why: 7 belongs to stream 1, this one, and none of its lines derives it\n" + RIGHT),
    ("two of three streams", [FIRST, "7 2 0 1 2 0\n10 2 0 1 2 0\n16 2 0 1 2 0\n"], "",
     "stream 2 (f2), line 1: identity\n  derives  2\n"
     "  why: 7 belongs to stream 1: 2 streams take turns above 4\n"
     "       the identities of stream 2 go up by 3, as with 3 streams, but 2 are given: was one "
     "left out?\n"
     "       valid here: 6, or after a gap 8, 10 and so on\n"),
    ("an import that was dropped", ["1 d 2 0\n2 i -1 2 0\n"], "",
     "stream 1 (f1), line 2: dropped 2\n  states   -1 2\n"
     "  why: this stream deleted 2 in its line 1, for this stream only\n")]))
def test_faults(program: str, streams: Sequence[str], options: str, said: str,
                tmp_path: Path) -> None:
    """lrupd reports the same fault with threads and with --serial, and waits only a moment for a
    clause that never comes."""
    names = [written(text, tmp_path, f"f{number}").name for number, text in enumerate(streams, 1)]
    words = [*options.split(), written(FOUR, tmp_path), *names]
    done = explain(words, tmp_path)
    assert done == Ran(said, "", BAD)
    lrupds = [word for word in words if word != "--all"]
    assert faults_in(done) == reported(run([program, "--tries", TRIES, *lrupds], cwd=tmp_path))


PLACE = "expected {1}, found {0}"
LIST_ENDS = "LF after the 0 that ends the list"
# The line, the fault, the explanation, the line's bytes with ^ before the deciding one, and the
# place of that byte.
FORMS = [
    ("5  2 0 1 2 0\n", "spelling", PLACE.format("a space", "a literal, 0, d or i"),
     "5 ^ 2 0 1 2 0", 3),
    ("5 2 0 1 2 0\r\n", "spelling", PLACE.format("a carriage return", LIST_ENDS),
     "5 2 0 1 2 0^\\r", 12),
    ("\n", "spelling", PLACE.format("the line's end", "an identity"), "^\\n", 1),
    ("c x\n", "spelling", PLACE.format("'c'", "an identity"), "^c x", 1),
    ("05 2 0 1 2 0\n", "spelling", PLACE.format("'0'", "an identity"), "^05 2 0 1 2 0", 1),
    ("5 +2 0 1 2 0\n", "spelling", PLACE.format("'+'", "a literal, 0, d or i"), "5 ^+2 0 1 2 0", 3),
    ("5 -0 0 1 2 0\n", "spelling", PLACE.format("'0'", "a digit from 1 to 9"), "5 -^0 0 1 2 0", 4),
    ("5 2\t0 1 2 0\n", "spelling", PLACE.format("a tab", "a digit or a space"),
     "5 2^\\t0 1 2 0", 4),
    ("2 0\n", "spelling",
     PLACE.format("the line's end", "a space, and then the hints and another 0"), "2 0^\\n", 4),
    ("5 2 0 1 2\n", "spelling", PLACE.format("the line's end", "a digit or a space"),
     "5 2 0 1 2^\\n", 10),
    ("5 2 0 1 2 0 \n", "spelling", PLACE.format("a space", LIST_ENDS), "5 2 0 1 2 0^ ", 12),
    ("5 2 0 0 1 0\n", "spelling", PLACE.format("a space", LIST_ENDS), "5 2 0 0^ 1 0", 8),
    ("5 2 0 1 02 0\n", "spelling", PLACE.format("'2'", LIST_ENDS), "5 2 0 1 0^2 0", 10),
    ("5 d -1 0\n", "spelling", PLACE.format("'-'", "an identity or 0"), "5 d ^-1 0", 5),
    ("5 d1 0\n", "spelling", PLACE.format("'1'", "a space"), "5 d^1 0", 4),
    ("2 i 1 d 0\n", "spelling", PLACE.format("'d'", "a literal or 0"), "2 i 1 ^d 0", 7),
    ("a\x0c\x04\0\n", "spelling", PLACE.format("'a'", "an identity"), "^a\\x0c\\x04\\x00", 1),
    ("5 \xff\n", "spelling", PLACE.format("byte 0xff", "a literal, 0, d or i"), "5 ^\\xff", 3),
    ("5 2 0 -2 3 0\n", "rat hint",
     "a negative hint: a RAT step, which lrupd doesn't check; switch off what makes such steps",
     "5 2 0 ^-2 3 0", 7),
    ("5 2 0 1 2", "truncated",
     "the stream ends within this line, after 9 bytes: expected a digit or a space",
     "5 2 0 1 2^", 10),
    ("12345678901234567890 2 0 1 0\n", "too long",
     "20 digits of a number, 2 too many: a number may have 18",
     "123456789012345678^90 2 0 1 0", 19),
    ("5 " + "1 " * 65600 + "0 0\n", "too long",
     "65600 literals, 65 too many: a line may have 65535", ".." + "1 " * 24 + "^" + "1 " * 8 + "..",
     2 * 65535 + 3),
    ("5 0 " + "1 " * 65537 + "0\n", "too long", "65537 hints, 1 too many: a line may have 65536",
     ".." + "1 " * 24 + "^1 0", 2 * 65536 + 5),
    ("5 d " + "1 " * 65538 + "0\n", "too long",
     "65538 identities, 2 too many: a line may have 65536", ".." + "1 " * 24 + "^1 1 0",
     2 * 65536 + 5),
    ("2 i " + "1 " * 65536 + "0\n", "too long", "65536 literals, 1 too many: a line may have 65535",
     ".." + "1 " * 24 + "^1 0", 2 * 65535 + 5)]


@pytest.mark.parametrize("text, words, why, shown, place",
                         [pytest.param(*form, id=repr(form[0][:40])) for form in FORMS])
def test_misspelled_lines(program: str, text: str, words: str, why: str, shown: str, place: int,
                          tmp_path: Path) -> None:
    """The explanation shows the line's bytes."""
    formula, stream = written(FOUR, tmp_path), written(text.encode("latin-1"), tmp_path, "f1")
    caret = " " * shown.index("^") + f"^ byte {place}"
    done = explain([formula, stream.name], tmp_path)
    assert (done.err, done.status) == ("", BAD)
    assert done.out.startswith(
        f"stream 1 (f1), line 1: {words}\n  why: {why}\n      {shown.replace('^', '')}\n"
        f"      {caret}\n")
    assert reported(run([program, formula, stream])) == {1: (1, words)}


@pytest.mark.parametrize("streams", [pytest.param(["bmc.lrup"], id="one"),
                                     pytest.param(FOUR_SOLVERS, id="four")])
def test_good_streams(streams: Sequence[str], tmp_path: Path) -> None:
    done = explain([example("bmc.cnf"), *map(example, streams)], tmp_path)
    assert done == Ran(NONE_BAD_OF_STREAMS, "", 0)


# Records of rounds.


@pytest.mark.seeds(40)
def test_rounds(program: str, seed: int, tmp_path: Path) -> None:
    """Two solvers in three rounds, with a fault in one round; the rounds after that one are
    removed."""
    numbers = random.Random(f"{seed} rounds")
    formula = example("pigeonhole.cnf")
    cut = run([sys.executable, EXAMPLES / "chain.py", 3, formula, tmp_path / "d",
               example("pigeonhole-two.1"), example("pigeonhole-two.2")])
    assert cut == Ran("", "", 0)
    bad = 1 + seed % 3
    names = [tmp_path / "d" / f"round-{bad}.stream-{stream}" for stream in (1, 2)]
    for path, text in zip(names, with_a_fault([path.read_text() for path in names], numbers)):
        path.write_text(text)
    for later in range(bad + 1, 4):
        for path in (tmp_path / "d").glob(f"round-{later}.*"):
            path.unlink()
    done = explain(["--serial", formula, "d"], tmp_path)
    lrupd = run([program, "--serial", "--rounds", "d", formula, "d/round-1.stream-1",
                 "d/round-1.stream-2"], cwd=tmp_path)
    assert faults_in(done) == reported(lrupd), done.out
    rounds = set(re.findall(r"^(?:round (\d+), )?stream \d+", done.out, re.M))
    assert rounds <= set(re.findall(r"^c round (\d+)$", lrupd.out, re.M) or [""])


CARRIED = {"round-1.stream-1": FIRST + "4 d 1 2 0\n", "round-2.sizes": "2 5 5\n",
           "round-2.stream-1": "4 2 0 3 0\n6 1 0 1 0\n", "round-2.stream-2": "5 0 3 2 0\n"}
SAID_OF_CARRIED = (
    "round 2, stream 2 (d/round-2.stream-2), line 1: no conflict\n" + EMPTY
    + row(3, "-> 2", "2!", "stream 1, line 1 of round 1")
    + row(2, "-> -1", "-1! -2F", of_formula(4)) + UNENDED + "       all literals are false in 1 "
    "(clause 3 of the formula), which isn't a hint of the line\n"
    "  a right chain: 3 2 1\n"
    "round 2, stream 1 (d/round-2.stream-1), line 2: no conflict, for a reason of its own: "
    "--all says why\n")


def test_carried_clauses(tmp_path: Path) -> None:
    """A clause that is carried over from the previous round is described by its origin."""
    write_all(CARRIED, tmp_path / "d")
    assert explain([written(FOUR, tmp_path), "d"], tmp_path) == Ran(SAID_OF_CARRIED, "", BAD)


# The example solver leaves out a hint: the last of a chain's unit clauses of level 0.

RIGHT_LINE = "for (size_t k = 0; k < level_zero.length; k++) PUSH(hints, level_zero.items[k]);"
LEFT_OUT = (r"^       (-?\d+ would follow here from|"
            r"all literals are false in) \d+ \(.*\), which isn't a hint of the line$")
WRONG_LINE = "for (size_t k = 1; k < level_zero.length; k++) PUSH(hints, level_zero.items[k]);"


def test_the_example_solver_with_a_hint_left_out(program: str, tmp_path: Path) -> None:
    """If each bad line gets the hints that are offered for it, the stream becomes good."""
    learn = (EXAMPLES / "solver" / "learn.c").read_text()
    assert learn.count(RIGHT_LINE) == 1
    sources = shutil.copytree(EXAMPLES / "solver", tmp_path / "solver",
                              ignore=shutil.ignore_patterns("out"))
    written(learn.replace(RIGHT_LINE, WRONG_LINE), sources, "learn.c")
    wrong = tmp_path / "wrong"
    flags = compiler("-std=c11", "-O1", "-pthread", "-I", str(ROOT / "tools" / "lib"))
    assert run([*flags, "-o", wrong, *sources.glob("*.c"), *LIBRARY]).status == 0
    formula = generated("random 70 1 6", tmp_path)
    assert run([wrong, formula, tmp_path / "stream"]).status == 20
    texts, clauses = [(tmp_path / "stream").read_text()], int(formula.read_text().split()[3])
    mended_lines = 0
    for _ in range(200):
        done = compared(program, texts, [], formula, clauses, True, tmp_path)
        if not faults_in(done):
            break
        found = mended(done, texts, clauses)
        assert found, done.out
        assert re.search(LEFT_OUT, done.out, re.M)
        texts, mended_lines = found[2], mended_lines + 1
    assert faults_in(done) == {}
    assert mended_lines > 0
    assert run([program, formula, written(texts[0], tmp_path, "right")]).status == 0


# Arguments and files.


def test_the_manuals_example(tmp_path: Path) -> None:
    """The manual page's example is the beginning of the output, which USING has in full."""
    paths = [shutil.copy(example(name), tmp_path / f"f{number}.lrup")
             for number, name in enumerate(FOUR_SOLVERS, 1)]
    lines = paths[1].read_text().splitlines(True)
    lines[59] = lines[59].replace(" 207 ", " ")
    paths[1].write_text("".join(lines))
    done = explain([example("bmc.cnf"), *(path.name for path in paths)], tmp_path)
    shown = "".join(done.out.splitlines(True)[:11])
    assert shown in PAGE.read_text()


def test_a_file_that_is_cut(tmp_path: Path) -> None:
    cut_while_read([EXPLAIN, "--lines", 10 ** 6], "lrup-explain", tmp_path)


@pytest.mark.parametrize("seed", range(4))
def test_files_that_are_rewritten(seed: int, tmp_path: Path) -> None:
    command = lambda number, _: [sanitized(EXPLAIN), "--all" if number % 2 else "--serial"]
    withstands(command, (0, 1, BAD), 30, seed, tmp_path)


@pytest.mark.parametrize("words, status, said", [
    ("", 2, "error: no FORMULA"), ("f", 2, "error: no DIR or STREAM"),
    ("--line 1 f s", 2, "error: no such option: --line"),
    ("--lines", 2, "error: no value after --lines"),
    ("--room 1 --room 2 f s", 2, "error: given twice: --room"),
    ("--lines x f s", 2, "error: not a number: x"), ("--lines= f s", 2, "error: no number"),
    ("--tries 1000001 f s", 2, "error: too large: 1000001"),
    ("--room 268435457 f s", 2, "error: too large: 268435457"),
    ("f" + " s" * 65, 2, "error: more than 64 streams, from s"),
    ("f d s", 1, "d: a folder has to be the only input"),
    ("f d", 1, "d has no record: lrup-solve --proofs makes one"),
    ("f p", 1, "p: has to be a regular file, since it is read more than once"),
    ("f none", 1, "none: No such file or directory"),
    ("none s", 1, "none: No such file or directory"),
    ("z s", 1, f"z: compressed: unpack it with {ZCAT}"),
    ("--lines 268435456 f s", 1,
     "row too long: 269484045 words, but lrupd takes at most 268435456: use smaller --lines or "
     "--room")])
def test_refused(words: str, status: int, said: str, tmp_path: Path) -> None:
    """Runs in a folder with a formula f, a stream s, a pipe p, a folder d without rounds, and a
    compressed formula z."""
    write_all({"f": FOUR, "s": FIRST, "z": COMPRESSED[ZCAT]}, tmp_path)
    piped(tmp_path / "p")
    (tmp_path / "d").mkdir()
    done = explain(words.split(), tmp_path)
    assert (done.out, done.status) == ("", status)
    assert done.err.splitlines()[-1] == f"lrup-explain: {said}"


@pytest.mark.parametrize("how", COMPRESSED)
def test_compressed(how: str, tmp_path: Path) -> None:
    """A compressed stream: lrupd says that its first byte is misspelled."""
    written(COMPRESSED[how], tmp_path, "f1")
    done = explain([written(FOUR, tmp_path), "f1"], tmp_path)
    assert faults_in(done) == {1: (1, "spelling")}
    assert done.out.splitlines()[-1] == f"       compressed: unpack it with {how}"


@pytest.mark.parametrize("word", ["--help", "-h"])
def test_help(word: str, tmp_path: Path) -> None:
    assert output_of(explain([word], tmp_path)).startswith("usage: lrup-explain ")


def test_version() -> None:
    assert run([EXPLAIN, "--version"]) == Ran(f"lrup-explain {VERSION}\n", "", 0)
