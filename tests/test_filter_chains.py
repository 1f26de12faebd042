"""Runs the filter, and lrup-solve, on formulas with long chains, and lrupd on the output.

There are chains of 10 to 1,000,000 steps, from a unit clause or a failed literal, and the other
formulas of bench/solve/easy.py. lrupd has to accept each stream to its end, with the verdict
'unsatisfiable', and a stream's bytes and lines have to be linear in the formula's. Proofs are
written by hand, or by CaDiCaL if it is on the PATH. Some have chains of more hints than a line may
have, clauses with that many literals, root units that chains need in the worst order, or streams
without identities to spare. A build that allows only six hints in a line, made with
-fsanitize=address,undefined if the compiler supports it, splits nearly all chains of recorded
proofs and of random formulas, in one round and in several."""
import functools
import os
import random
import re
import subprocess
import sys
from pathlib import Path
from typing import Iterable, List, Sequence, Tuple, Union

import pytest

from harness import (BUILDS, FILTER, PROGRAM, PROOFS, ROOT, SANITIZING, Ran, dimacs, enough_for,
                     example, for_tests, generated, needs, output_of, random_clauses, run,
                     sources_of, started, unwatched, watched_ends, written)
from lrat import lrat_fault
from proof_forms import FORMS, read_formula, read_steps
from solving import solve, want_answer

sys.path.insert(0, str(ROOT / "bench" / "solve"))
import easy

MOST = 65536            # the most hints in a line
FEW = 6                 # the most in the build that splits nearly all chains
STEPS = (10, 65535, 65536, 65537, 1000000)
RANDOM = 300            # formulas, half of which have a proof
KINDS = ["units", "failed"]
# Formulas of bench/solve/easy.py: a kind, its numbers, and whether clauses are in reverse order.
FORMULAS = [(kind, (steps,), False) for kind in KINDS for steps in STEPS] + [
    (kind, numbers, backwards) for kind, numbers in (("units", (200000,)), ("failed", (70000,)),
                                                     ("corridor", (60, 55)), ("lfsr", (32, 20000)))
    for backwards in (False, True)]
each_formula = pytest.mark.parametrize("kind, numbers, backwards", [
    pytest.param(kind, numbers, backwards,
                 id=" ".join(map(str, (kind, *numbers))) + ", reversed" * backwards)
    for kind, numbers, backwards in FORMULAS])
TOO_LONG = "lrup-exact: line 1: longer than a line may be\n"
Text = Union[str, bytes]


def longest_line(text: str) -> int:
    """The number of hints, or deleted clauses, in the longest line."""
    return max((len(words) - (words.index("0", 1) + 2 if words[1] != "d" else 3)
                for words in map(str.split, text.splitlines())), default=0)


def check(formula: Path, text: str, work: Path, stream: int = 1, streams: int = 1) -> None:
    """lrupd accepts each line of this stream, the others being empty, and the formula is
    refuted."""
    added = sum(" d " not in line for line in text.splitlines())
    paths = [written(text, work, "stream") if number == stream else "/dev/null"
             for number in range(1, streams + 1)]
    done = run([PROGRAM, *enough_for([text.encode()], added + 1, 4000000), formula, *paths])
    lines = done.out.splitlines()
    wanted = (f"c stream {stream}: {added} added, "
              f"{text.count(' d ') and lines[stream - 1].split()[5] or 0} deleted, ended")
    assert lines[stream - 1:stream] == [wanted], done.err
    assert lines[-1:] == ["s UNSATISFIABLE"], done.err
    assert done.status == 0, done.err


def filtered(words: Sequence[object], given: Text, program: Path = FILTER) -> str:
    return output_of(run([program, *words], given, env={**os.environ, **SANITIZING}))


def want_linear(text: str, formula: Path, proof_lines: int, steps: int) -> None:
    """The stream has only a few more bytes than the formula, and a few more lines than the
    proof."""
    most = (formula.stat().st_size + 4096, proof_lines + 2 + steps // 16384)
    found = (len(text), len(text.splitlines()))
    assert all(one <= other for one, other in zip(found, most)), (found, most)
    assert longest_line(text) <= MOST


text_of_formula = functools.lru_cache(maxsize=None)(easy.dimacs)


def make(work: Path, kind: str, *numbers: int, backwards: bool = False) -> Path:
    return written(text_of_formula(kind, *numbers, backwards=backwards), work)


@pytest.mark.parametrize("form", ["drat", "lrat"])
@pytest.mark.parametrize("steps", STEPS)
@pytest.mark.parametrize("kind", KINDS)
def test_by_hand(kind: str, steps: int, form: str, tmp_path: Path) -> None:
    """A proof without hints, and LRAT whose list of hints is as long as the chain."""
    formula = make(tmp_path, kind, steps)
    clauses = steps + 1 if kind == "units" else steps + 3
    if kind == "units":
        proof = ("0\n" if form == "drat"
                 else f"{clauses + 1} 0 " + " ".join(map(str, range(1, clauses + 1))) + " 0\n")
    else:
        chain = " ".join(map(str, range(1, steps + 2)))
        last = f"{clauses + 2} 0 {clauses + 1} {clauses - 1} {clauses} 0\n"
        proof = "-1 0\n0\n" if form == "drat" else f"{clauses + 1} -1 0 {chain} 0\n{last}"
    text = filtered(["--format", form, formula], proof)
    want_linear(text, formula, proof.count("\n"), steps)
    check(formula, text, tmp_path)


@each_formula
def test_by_cadical(kind: str, numbers: Sequence[int], backwards: bool, tmp_path: Path) -> None:
    needs("cadical")
    formula, proof = make(tmp_path, kind, *numbers, backwards=backwards), tmp_path / "proof"
    assert run(["cadical", "-q", "--no-binary", formula, proof]).status == 20
    text = filtered([formula, proof], b"")
    want_linear(text, formula, proof.read_text().count("\n") if kind == "failed" else 16,
                formula.stat().st_size // 8)
    check(formula, text, tmp_path)


@each_formula
@pytest.mark.usefixtures("lrup_solve")
def test_by_solve(kind: str, numbers: Sequence[int], backwards: bool, tmp_path: Path) -> None:
    """No engine is lost, and the size of each stream is linear in the formula's."""
    formula = make(tmp_path, kind, *numbers, backwards=backwards)
    answer = solve(["-v", "-j", "2", "--proofs", tmp_path / "kept", formula])
    want_answer(answer, 20, formula)
    assert answer.lost() == []
    for path in (tmp_path / "kept").glob("round-*.stream-*"):
        want_linear(path.read_text(), formula, formula.stat().st_size // 64,
                    formula.stat().st_size // 8)


def test_a_simulation_by_yosys(tmp_path: Path) -> None:
    needs("yosys")
    formula = written(easy.simulation(100), tmp_path)
    check(formula, filtered(["--format", "drat", formula], "0\n"), tmp_path)


# Units at the root.


AFTER = "{0} 1 2 0\n{0} 1 -2 0\n{0} -1 2 0\n{0} -1 -2 0\n"


@pytest.mark.parametrize("order", ["alone", "backwards", "every third"])
def test_units_that_are_needed(order: str, tmp_path: Path) -> None:
    """Units from variable 3 on, each implying the next, without a contradiction. The proof needs
    the last unit first, or one in between."""
    steps = 20000
    last = steps + 2
    chain = "".join(f"-{variable} {variable + 1} 0\n" for variable in range(3, last))
    formula = written(f"p cnf {last} {steps + 4}\n3 0\n{chain}{AFTER.format(-last)}", tmp_path)
    asked = {"backwards": range(last, 3, -1), "alone": (), "every third": range(last, 3, -3)}[order]
    proof = "".join(f"{variable} 0\n" for variable in asked) + "1 0\n0\n"
    text = filtered(["--format", "drat", formula], proof)
    lines = steps + len(asked) + 2
    assert len(text.splitlines()) <= lines
    assert len(text) <= 48 * lines
    check(formula, text, tmp_path)


def circuit(gates: Iterable[Tuple[int, int]], given: Sequence[int], first: int) -> List[List[int]]:
    """Exclusive ors, whose variables are numbered from `first` on. If the given variables are true,
    the value of the last gate leads to a conflict."""
    clauses, value, variable = [], dict.fromkeys(given, True), first
    for variable, (one, other) in enumerate(gates, first):
        value[variable] = value[one] != value[other]
        clauses += [[-variable, one, other], [-variable, -one, -other], [variable, -one, other],
                    [variable, one, -other]]
    last = -variable if value[variable] else variable
    return [*clauses, [last, variable + 1], [last, -variable - 1]]


def test_a_clause_of_many_literals_over_exclusive_ors(tmp_path: Path) -> None:
    """A clause whose chain needs all gates. A gate's inputs are the gate before it and a random
    earlier variable, so it depends on most of the clause's literals."""
    count, gates = 200, 66000
    numbers, inputs = random.Random(count), range(1, count + 1)
    clauses = circuit(((last, numbers.randrange(1, last)) for last in range(count, count + gates)),
                      inputs, count + 1)
    free = count + gates + 2
    clauses += [[variable, literal] for variable in inputs for literal in (free, -free)]
    formula = written(dimacs(free, clauses), tmp_path)
    text = filtered(["--format", "drat", formula],
                    " ".join(f"-{variable}" for variable in inputs) + f" 0\n{free} 0\n0\n")
    want_linear(text, formula, 3, gates)
    assert len(text) < 16 * gates
    check(formula, text, tmp_path)


def test_many_literals_at_once(tmp_path: Path) -> None:
    """One literal implies many others, and each gate of a tree derives one literal from two: more
    literals are needed at once than a line may have hints."""
    count = 70000
    inputs = range(2, count + 2)
    first, leaves = count + 2, 2 * count + 1
    gates = [(variable, variable + 1) for variable in inputs[:-1]] + [(inputs[-1], inputs[0])]
    gates += [(first + 2 * node, first + 2 * node + 1) for node in range(count - 1)]
    clauses = circuit(gates, inputs, first)
    free = leaves + count + 1
    clauses += [[-1, variable] for variable in inputs] + [[1, free], [1, -free]]
    formula = written(dimacs(free, clauses), tmp_path)
    text = filtered(["--format", "drat", formula], "-1 0\n0\n")
    assert len(text) < formula.stat().st_size
    check(formula, text, tmp_path)


def refute_wide(count: int, work: Path) -> Tuple[Path, Ran]:
    """The filter on a clause whose literals are all false."""
    units = "".join(f"{variable} 0\n" for variable in range(1, count + 1))
    clause = " ".join(f"-{variable}" for variable in range(1, count + 1))
    formula = written(f"p cnf {count} {count + 1}\n{units}{clause} 0\n", work)
    return formula, run([FILTER, "--format", "drat", formula], "0\n")


@pytest.mark.parametrize("count", [65535, 65536, 131070])
def test_a_wide_clause(count: int, tmp_path: Path) -> None:
    formula, (text, said, status) = refute_wide(count, tmp_path)
    assert (said, status) == ("", 0)
    assert longest_line(text) <= MOST
    check(formula, text, tmp_path)


def test_a_clause_that_is_too_wide(tmp_path: Path) -> None:
    """If two lines can't hold the units that make the literals false, the filter stops."""
    _, done = refute_wide(131071, tmp_path)
    assert done == Ran("", TOO_LONG, 1)


def test_lrat_of_two_streams(tmp_path: Path) -> None:
    """The streams may cite each other, so there are no identities to spare."""
    formula = make(tmp_path, "units", MOST + 1)
    words = ["--stream", "1", "--streams", "2", formula]
    assert run([FILTER, *words], f"{MOST + 3} 0 0\n") == Ran("", TOO_LONG, 1)
    check(formula, filtered(["--format", "drat", *words], "0\n"), tmp_path, 1, 2)


# At most six hints in a line.


@functools.lru_cache(maxsize=None)
def short_lines() -> Path:
    return for_tests(BUILDS / "lrup-exact-short-lines", sources_of("lrup-exact"),
                     f"-DIDENTITIES_OF_A_LINE={FEW}")


def want_short(formula: Path, proof: Text, form: str, work: Path) -> None:
    text = filtered(["--format", form, formula], proof, short_lines())
    assert lrat_fault(read_formula(formula), text) == ""
    assert longest_line(text) <= FEW
    check(formula, text, work)


def proof_of(name: str, stream: str, form: str) -> Tuple[str, bytes]:
    """The recorded stream as a proof in another form, and what --format calls the form."""
    word, make_proof = FORMS[form]
    return word, b"".join(make_proof(read_formula(example(name)), read_steps(example(stream))))


@pytest.mark.parametrize("form", FORMS)
@pytest.mark.parametrize("name", ["four-clause", "pigeonhole", "bmc"])
def test_short_lines(name: str, form: str, tmp_path: Path) -> None:
    formula = f"{name}.cnf"
    word, proof = proof_of(formula, f"{name}.lrup", form)
    want_short(example(formula), proof, word, tmp_path)


@pytest.mark.parametrize("form", FORMS)
def test_short_lines_in_rounds(form: str, tmp_path: Path) -> None:
    formula = example("pigeonhole.cnf")
    word, proof = proof_of("pigeonhole.cnf", "pigeonhole.lrup", form)
    with started([short_lines(), "--rounds", "d", "--memory", "12K", "--format", word, formula,
                  written(proof, tmp_path, "proof")],
                 cwd=tmp_path, stdout=subprocess.PIPE, stderr=subprocess.PIPE, bufsize=0,
                 env={**os.environ, **SANITIZING}) as running:
        assert running.stdout and running.stderr
        assert running.stdout.readline() == b"d/round-1.stream-1\n"
        done = run([PROGRAM, "--watch", "--rounds", "d", formula, "d/round-1.stream-1"],
                   cwd=tmp_path, stdin=running.stdout)
        running.stdout.close()
        assert (running.stderr.read(), running.wait()) == (b"", 0)
    assert (unwatched(done.err), done.status) == ("", 0)
    assert len(watched_ends(done.err)) >= 2     # rounds


def test_short_lines_of_random_drat(tmp_path: Path) -> None:
    want_short(generated("random 60 2 5", tmp_path), (PROOFS / "random.drat").read_bytes(), "drat",
               tmp_path)


def random_formula(seed: int) -> str:
    """A formula with units, and with clauses that are too long for lines of six hints."""
    numbers = random.Random(seed)
    variables = numbers.randrange(8, 50)
    clauses = random_clauses(numbers, variables, round(numbers.uniform(3, 5.5) * variables),
                             (2, 3, 3, 3, 4, 5, 9))
    clauses += random_clauses(numbers, variables, numbers.randrange(4), (1,))
    implied = list(range(1, variables + 1))
    numbers.shuffle(implied)
    clauses += [[implied[place], *(-literal for literal in numbers.sample(implied[:place], min(
        place, numbers.choice((1, 2, 9)))))] for place in range(1, numbers.choice((1, variables)))]
    numbers.shuffle(clauses)
    return dimacs(variables, clauses)


@pytest.mark.parametrize("first", range(0, RANDOM, 50))
def test_short_lines_of_random_formulas(first: int, tmp_path: Path) -> None:
    """CaDiCaL's proofs of 50 formulas as DRUP, as FRAT, and as LRAT with long lines. A third of the
    additions in LRAT have no hints."""
    needs("cadical")
    checked = 0
    for seed in range(first, first + 50):
        formula, numbers = written(random_formula(seed), tmp_path), random.Random(seed)
        if run(["cadical", "-q", "--no-binary", formula, tmp_path / "proof"]).status != 20:
            continue
        proof = (tmp_path / "proof").read_text()
        lrat = "".join(line if numbers.randrange(3) or " d " in line
                       else re.sub(r" 0 .*", " 0 0", line)
                       for line in filtered(["--format", "drat", formula], proof).splitlines(True))
        frat = "".join(f"a {2 * number} {line}\n"
                       for number, line in enumerate(proof.splitlines(), 1) if line[0] != "d")
        for form, text in (("drat", proof), ("lrat", lrat), ("frat", frat)):
            try:
                want_short(formula, text, form, tmp_path)
            except AssertionError as found:
                raise AssertionError(f"formula {seed}, {form}: {found}") from found
        checked += 1
    assert checked > 50 // 4
