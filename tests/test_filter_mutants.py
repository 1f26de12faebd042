"""The filter on mutated proofs, and the program on what the filter writes.

There are 10,000 (or --count) mutants, from number --first on; a number always gives the same
mutant. In small proofs of each form, bytes are flipped, cut off, inserted and removed, steps
doubled, swapped and left out, numbers made huge and words replaced by letters. Some formulas and
files of --other are mutated, too.

The filter is built with -fsanitize=address,undefined, by clang, $CC or cc, and checks its
invariants; mutants.c forks it for each mutant. A mutant that fails is kept in
out/tests/mutants."""
import os
import re
import shutil
import signal
import subprocess
import tempfile
from pathlib import Path
from typing import Iterator, List, Sequence

import pytest

from harness import (BUILDS, COUNT, FILTER, FIRST, PROGRAM, SANITIZE, SANITIZING, SMALL_ROW,
                     SUPPORT, Ran, enough_for, feed, for_tests, lacking, piped, run, sanitized,
                     sanitizer, sources_of, started, text_of, written)
from mutations import Mutant

KEPT, FORKING = BUILDS / "mutants", BUILDS / "lrup-exact-forking"
SECONDS = 120
A_ROW = 100     # mutants per row


# Runs of the filter.


@pytest.fixture(scope="module")
def filters() -> "Iterator[subprocess.Popen[str]]":
    """The filter with the main of mutants.c, which forks it for each line of standard input."""
    if not sanitizer():
        lacking(f"the C compiler doesn't build with {SANITIZE[3]}")
    program = for_tests(FORKING, [*sources_of("lrup-exact"), SUPPORT / "mutants.c"],
                        libraries=["-Wl,--wrap=main"])
    with started([program, SECONDS], env={**os.environ, **SANITIZING}, stdin=subprocess.PIPE,
                 stdout=subprocess.PIPE, text=True) as filters:
        yield filters


def filtered(mutant: Mutant, filters: "subprocess.Popen[str]") -> Ran:
    """The answer of a fork, which reads the proof from a pipe or from a file."""
    given, out, err = (mutant.folder / name for name in ("given", "out", "err"))
    if mutant.is_piped:
        feed(piped(given), [mutant.proof])
    assert filters.stdin and filters.stdout
    print(given if mutant.is_piped else os.devnull, out, err, *mutant.words, sep="\t",
          file=filters.stdin, flush=True)
    status = int(filters.stdout.readline())
    given.unlink(missing_ok=True)
    return Ran(text_of(out.read_bytes()), text_of(err.read_bytes()), status)


# What has to be true of each run.


NUMBER = rb"[1-9][0-9]{0,17}"
LINE = re.compile(rb"(?:" + NUMBER + rb" (?:-?" + NUMBER + rb" )*0 (?:" + NUMBER + rb" )*0|"
                  + NUMBER + rb" d (?:" + NUMBER + rb" )*0|" + NUMBER + rb" i (?:-?"
                  + NUMBER + rb" )*0)")


def want_to_end_well(done: Ran) -> None:
    """The filter ends soon, with status 0 and no message, or with status 1 and a line of standard
    error."""
    assert done.status != -signal.SIGALRM, f"no end after {SECONDS} seconds"
    assert done.status in (0, 1), done.err[:3000]
    if done.status == 0:
        assert done.err == ""
    else:
        assert re.fullmatch(r"lrup-exact: .*\n", done.err), done.err[:3000]


def want_lines(text: bytes) -> None:
    """The text consists of whole lines of a stream, none of which is too long."""
    *lines, rest = text.split(b"\n")
    assert rest == b""
    for line in lines:
        assert LINE.fullmatch(line), line[:200]
        if line.count(b" ") > 65535:
            counts = [part.count(b" ") for part in line.split(b" 0")]
            assert counts[0] <= 65535 and max(counts) <= 65536, line[:200]


def want_accepted(mutant: Mutant, text: bytes) -> None:
    """The program accepts the stream to its end, or up to an identity beyond --lines or a clause of
    a stream that isn't there."""
    path = written(text, mutant.folder, "stream")
    streams = [path if number == mutant.stream else "/dev/null"
               for number in range(1, mutant.streams + 1)]
    done = run([PROGRAM, "--tries", "0", *enough_for([text], 20000, 100000), mutant.formula,
                *streams], limit=SECONDS)
    assert re.search(rf"^c stream {mutant.stream}: \d+ added, \d+ deleted, (ended|"
                     r"bad line \d+ \((identity|no room|missing \d+)\))$", done.out, re.M), done


def want_the_same_formula(mutant: Mutant, said: str) -> None:
    """The filter refuses the formula if and only if the program does."""
    done = run([PROGRAM, *SMALL_ROW, mutant.formula, "/dev/null"], limit=SECONDS)
    is_refused = said.startswith(f"lrup-exact: {mutant.formula}")
    assert is_refused == (done.status == 4), f"the filter says: {said}\nthe program: {done}"


def want_right(mutant: Mutant, filters: "subprocess.Popen[str]") -> None:
    done = filtered(mutant, filters)
    want_to_end_well(done)
    text = done.out.encode(errors="surrogateescape")
    want_lines(text)
    if mutant.is_formula_mutated:
        want_the_same_formula(mutant, done.err)
    if text:
        want_accepted(mutant, text)


def kept(mutant: Mutant) -> str:
    """Keeps the mutant's files, and returns the command that runs the filter on them."""
    place = KEPT / str(mutant.number)
    shutil.rmtree(place, ignore_errors=True)
    shutil.copytree(mutant.folder, place)
    words = " ".join(word.replace(str(mutant.folder), str(place)) for word in mutant.words)
    if not mutant.is_piped:
        return f"{sanitized(FILTER)} {words}"
    return f"{sanitized(FILTER)} {words} < {written(mutant.proof, place, 'proof')}"


def rows(count: int, first: int) -> List[range]:
    return [range(start, min(start + A_ROW, first + count))
            for start in range(first, first + count, A_ROW)]


@pytest.mark.parametrize("numbers", rows(COUNT or 10000, FIRST),
                         ids=lambda numbers: f"{numbers[0]} to {numbers[-1]}")
def test_mutants(numbers: Sequence[int], filters: "subprocess.Popen[str]", tmp_path: Path) -> None:
    faults = []
    for number in numbers:
        with tempfile.TemporaryDirectory(dir=tmp_path) as folder:
            mutant = Mutant(number, Path(folder))
            try:
                want_right(mutant, filters)
            except AssertionError as fault:
                faults.append(f"mutant {number}: {kept(mutant)}\n{fault}")
    assert not faults, "\n".join(faults)
