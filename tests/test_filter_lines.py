"""Runs the filter on proofs of a few lines. The program has to accept what the filter writes; if
the filter refuses a proof, its message has to name the line or byte."""
import random
from pathlib import Path
from typing import List, Tuple

import pytest

from filtering import FIRST, ONE_OF_TWO, Text, at_place, check, check_report, exact, sorted_hints
from harness import (COMPRESSED, FILTER, FOUR, VERSION, Ran, dimacs, enough_for, named, output_of,
                     run, written)
from proof_forms import code, codes, varint

UNITS = "p cnf 3 4\n1 0\n-1 2 0\n-2 3 0\n-3 -2 0\n"
LATER = "p cnf 5 7\n1 0\n-1 2 0\n-2 3 0\n-3 4 5 0\n-3 4 -5 0\n-3 -4 5 0\n-3 -4 -5 0\n"
FALSE_FOR_GOOD = "p cnf 7 8\n1 0\n7 0\n2 3 4 0\n2 3 -4 0\n-2 5 0\n-2 -5 0\n-3 6 0\n-3 -6 0\n"
TOLD = "o 9 -1 -2 0\no 20 2 1 0\no 7 2 -1 0\no 1 1 -2 0\n"     # the four clauses, in another order
NO_CLAUSE = "no conflict by unit propagation, and the step cites the clause"
# A formula, a proof and options, after the case's name; in `Refused`, also what the message names
# and the lines that are written before; in `ComesOut`, the lines that are written.
Refused = Tuple[str, str, Text, str, str, List[str]]
ComesOut = Tuple[str, str, Text, str, List[str]]


def want_stop(formula: str, proof: Text, cause: str, lines: str, words: List[str],
              work: Path) -> None:
    """The filter stops at the line or byte in `cause`, after writing these lines."""
    text, said, status = exact([*words, written(formula, work)], proof)
    assert (text, status) == (lines, 1)
    assert said.startswith("lrup-exact: ")
    assert said.count("\n") == 1
    assert cause in said


def refusals() -> List[Refused]:
    """Refused proofs in LRAT, DRUP and DRAT text."""
    return [
        ("a RAT step with hints", FOUR, FIRST + "6 1 0 -3 4 0\n", "line 2: a RAT step", FIRST, []),
        ("a RAT step without hints", "p cnf 2 1\n1 2 0\n", "1 2 0\n1 0\n",
         "line 2: no conflict by unit propagation: the clause 1 0 is a RAT step, which lrupd "
         "doesn't check\n", "2 1 2 0 1 0\n", []),
        ("RAT by a resolvent", "p cnf 2 2\n1 2 0\n-1 2 0\n", "1 0\n",
         "line 1: no conflict by unit propagation: the clause 1 0 is a RAT step, which lrupd "
         "doesn't check\n", "", []),
        ("RAT by a tautology", "p cnf 2 1\n-1 -2 0\n", "1 2 0\n",
         "line 1: no conflict by unit propagation: the clause 1 2 0 is a RAT step, which lrupd "
         "doesn't check\n", "", []),
        ("no RAT step", "p cnf 2 2\n1 2 0\n-1 2 0\n", "-2 0\n",
         "line 1: no conflict by unit propagation: the clause -2 0 doesn't follow from those that "
         "weren't deleted, and it isn't RAT\n", "", []),
        ("a clause of another stream", FOUR, "5 0 6 3 4 0\n",
         f"line 1: {NO_CLAUSE} 6 of stream 2: it needs an import, or --other 2=STREAM\n", "",
         ONE_OF_TWO),
        ("a clause of another stream, which isn't in its file", FOUR, "5 0 6 3 4 0\n",
         f"line 1: {NO_CLAUSE} 6, which isn't in --other 2\n", "",
         ONE_OF_TWO + ["--other", "2=/dev/null"]),
        ("a clause of another stream, of one", FOUR, "5 0 6 3 4 0\n",
         f"line 1: {NO_CLAUSE} 6, which isn't there: if it is another stream's, use --streams "
         f"and --other\n", "", []),
        ("a clause that was deleted", FOUR, "5 d 1 0\n6 2 0 1 2 0\n",
         f"line 2: {NO_CLAUSE} 1, which isn't there\n", "1 d 1 0\n", []),
        ("an import that was deleted", FOUR, "6 i 2 0\n5 d 6 0\n5 0 6 3 4 0\n",
         f"line 3: {NO_CLAUSE} 6, which isn't there\n", "6 i 2 0\n1 d 6 0\n", ONE_OF_TWO),
        ("both kinds", FOUR, FIRST + "0\n", "line 2: a step of DRUP or DRAT text", FIRST, []),
        ("a line of PicoSAT's that isn't the first", FOUR, "2 0\n%RUPD32 2 4\n",
         "line 2: ", FIRST, []),
        ("not text", FOUR, FIRST + "a\x02\x04\x00", "line 2: ", FIRST, []),
        ("a variable that isn't there", FOUR, "3 0\n", "line 1: a variable", "", []),
        ("an identity of the formula's", FOUR, "4 2 0 1 2 0\n", "line 1: the identity 4", "", []),
        ("an identity twice", FOUR, FIRST + FIRST, "line 2: the identity 5", FIRST, []),
        ("an identity below the one before", FOUR, "7 2 0 1 2 0\n6 0 7 3 4 0\n",
         "line 2: the identity 6", "7 2 0 1 2 0\n", []),
        ("an import of its own", FOUR, FIRST + "5 i 2 0\n",
         "line 2: an import of 5, which isn't a clause", FIRST, []),
        ("an import of nothing", FOUR, "0 i 2 0\n",
         "line 1: an import of 0, which isn't a clause", "", []),
        ("an import of another clause", FOUR, "1 i 1 2 1 0\n1 i 1 0\n",
         "line 2: the literals of the import aren't those of the clause 1", "1 i 1 2 1 0\n", []),
        ("two imports that differ", FOUR, "6 i 1 2 0\n6 i 2 0\n",
         "line 2: the literals of the import aren't those of the clause 6", "6 i 1 2 0\n",
         ONE_OF_TWO),
        ("an import of what was deleted", FOUR, "5 d 1 0\n1 i 1 2 0\n",
         "line 2: an import of 1, which was deleted", "1 d 1 0\n", []),
        ("an import of another's that was deleted", FOUR, "6 i 1 2 0\n5 d 6 0\n6 i 1 2 0\n",
         "line 3: an import of 6, which was deleted", "6 i 1 2 0\n1 d 6 0\n", ONE_OF_TWO),
        ("an import with a variable that isn't there", FOUR, "6 i 3 0\n", "line 1: a variable", "",
         ONE_OF_TWO),
        ("an import after other numbers", FOUR, "9 2 0 1 2 0\n6 i -2 0\n", "line 2: an import, but",
         FIRST, ONE_OF_TWO),
        ("an import in DRUP", FOUR, "2 0\n6 i -2 0\n", "line 2: a step of LRAT text", FIRST,
         ONE_OF_TWO),
        ("a step without its end", FOUR, FIRST + "6 0 5 3 4\n", "line 2: ", FIRST, []),
        ("a step that is cut", FOUR, FIRST + "6 0 5 3",
         "line 2: the proof ends within a step", FIRST, []),
        ("a clause that is cut", FOUR, "2 0\n-1",
         "line 2: the proof ends within a step", FIRST, []),
        ("a deletion without its end", FOUR, FIRST + "6 d 5\n", "line 2: ", FIRST, []),
        ("three lists", FOUR, "5 2 0 1 2 0 3 0\n", "line 1: ", "", []),
        ("a word that is no number", FOUR, FIRST + "6 x 0 5 3 4 0\n", "line 2: ", FIRST, []),
        ("a hint that is no number", FOUR, FIRST + "6 0 5 3 +4 0\n", "line 2: ", FIRST, []),
        ("a zero with a sign", FOUR, "5 2 -0 0 1 2 0\n", "line 1: ", "", []),
        ("no header", "1 2 0\n", "", "formula.cnf, line 1: no header", "", []),
        ("a formula that is too short", "p cnf 2 5\n1 2 0\n", FIRST,
         "formula.cnf, line 3: file ends after 1 of 5 clauses", "", []),
        ("a formula with a variable too many", "p cnf 1 1\n1 2 0\n", FIRST,
         "formula.cnf, line 2: variable 2, above the header's 1", "", []),
        ("a clause of another's file that isn't there", "p cnf 2 1\n1 2 0\n",
         "2 1 2 0 1 0\n4 1 0 3 0\n", f"line 2: {NO_CLAUSE} 3,", "2 1 2 0 1 0\n",
         ONE_OF_TWO + ["--other", "2=/dev/null"]),
    ]


def refusals_of_frat() -> List[Refused]:
    late = TOLD + "a 10 2 0 l 20 7 0\n"
    return [
        ("no clause of the formula's", FOUR, "o 9 1 2 0\no 3 1 0\n", "line 2: ", "", []),
        ("a clause more often than the formula has it", FOUR, "o 9 1 2 0\no 3 2 1 0\n",
         "line 2: ", "", []),
        ("a derived clause as one of the formula's", FOUR, late + "o 11 2 0\n",
         "line 6: ", FIRST, []),
        ("an identity twice", FOUR, late + "a 10 0 l 10 1 9 0\n",
         "line 6: the identity 10", FIRST, []),
        ("an identity of the formula's twice", FOUR, late + "a 9 0 l 10 1 9 0\n",
         "line 6: the identity 9", FIRST, []),
        ("a clause that isn't there", FOUR, TOLD + "a 10 0 l 99 20 0\n",
         f"line 5: {NO_CLAUSE} 99, which isn't there\n", "", []),
        ("a variable that isn't there", FOUR, late + "a 11 -1 3 0\n",
         "line 6: a variable", FIRST, []),
        ("a negative hint", FOUR, late + "a 11 1 0 l -7 0\n",
         "line 6: a RAT step", FIRST, []),
        ("a clause that doesn't follow", "p cnf 2 1\n1 2 0\n", "o 1 1 2 0\na 2 1 0\n",
         "line 2: no conflict", "", []),
        ("a new identity twice", FOUR, late + "r 10 9 0\n",
         "line 6: the identity 9", FIRST, []),
        ("an identity without a new one", FOUR, late + "r 10 0\n", "line 6: ", FIRST, []),
        ("another letter", FOUR, late + "x 11 0\n", "line 6: ", FIRST, []),
        ("a line of LRAT", FOUR, late + "6 0 5 3 4 0\n", "line 6: ", FIRST, []),
        ("hints without a letter", FOUR, late + "a 11 0 10 1 9 0\n", "line 6: ", FIRST, []),
        ("hints without an end", FOUR, late + "a 11 0 l 10 1 9\n", "line 6: ", FIRST, []),
        ("a step that is cut", FOUR, late + "a 11 0 l 10 1",
         "line 6: the proof ends within a step", FIRST, []),
        ("no identity", FOUR, late + "a\n", "line 6: ", FIRST, []),
        ("a word that is no number", FOUR, late + "a 11 0 l 10 y 9 0\n",
         "line 6: ", FIRST, []),
    ]


def refusals_in_binary() -> List[Refused]:
    drat, lrat = ["--format", "binary-drat"], ["--format", "binary-lrat"]
    two, five = b"a" + codes([2]), b"a" + code(5) + codes([2]) + codes([1, 2])
    return [
        ("binary, another letter", FOUR, two + b"b\0", "step 2, byte 4: ", FIRST, drat),
        ("binary, a variable that isn't there", FOUR, two + b"a" + codes([3]),
         "step 2, byte 4: a variable", FIRST, drat),
        ("binary, a zero with a sign", FOUR, two + b"a\1\0", "step 2, byte 4: ", FIRST, drat),
        ("binary, an end within a number", FOUR, two + b"a\x80", "step 2, byte 4: ", FIRST, drat),
        ("binary, an end within a clause", FOUR, two + b"a\4", "step 2, byte 4: ", FIRST, drat),
        ("binary, a number without an end", FOUR, two + b"a" + b"\xff" * 1000, "step 2, byte 4: ",
         FIRST, drat),
        ("binary, a variable beyond 64 bits", FOUR, two + b"a" + codes([(1 << 64) + 1]),
         "step 2, byte 4: ", FIRST, drat),
        ("binary, a clause that doesn't follow", "p cnf 2 1\n1 2 0\n",
         b"a" + codes([1, 2]) + b"a" + codes([1]), "step 2, byte 5: no conflict",
         "2 1 2 0 1 0\n", drat),
        ("binary LRAT, a negative hint", FOUR, five + b"a" + code(6) + codes([1]) + codes([-3, 4]),
         "step 2, byte 8: a RAT step", FIRST, lrat),
        ("binary LRAT, an identity twice", FOUR, five + five, "step 2, byte 8: the identity 5",
         FIRST, lrat),
        ("binary LRAT, an end before the hints", FOUR, five + b"a" + code(6) + b"\0",
         "step 2, byte 8: ", FIRST, lrat),
        ("binary, no step after a deletion", FOUR, b"d" + codes([1, 2]) + b"x\0",
         "--format", "", []),
    ]


@pytest.mark.parametrize("formula, proof, cause, lines, words", named([
    *refusals(), *((f"FRAT, {name}", *rest) for name, *rest in refusals_of_frat()),
    *refusals_in_binary()]))
def test_refused(formula: str, proof: Text, cause: str, lines: str, words: List[str],
                 tmp_path: Path) -> None:
    """Messages about binary proofs name the step and the byte at which it begins; both count
    from 1."""
    want_stop(formula, proof, cause, lines, words, tmp_path)


def ordered() -> List[ComesOut]:
    five = b"a" + code(5) + codes([2]) + codes([1, 2])
    return [
        ("imports", FOUR,
         "1  i 2 1 0\n5 2 0 2 1 1 0\n6 i -2 -2 0\n7 0 6 1 5 0\n11 0 5 6 0\n",
         "1 i 2 1 0\n5 2 0 2 1 0\n6 i -2 -2 0\n7 0 6 5 0\n11 0 5 6 0\n", ONE_OF_TWO),
        ("a tautology, which is of no use", FOUR, "1 -1 0\n2 0\n", FIRST, []),
        ("FRAT, in another order", FOUR,
         TOLD + "a 10 2 0 l 20 7 0\nd 20 1 2 0\na 12 0 l 10 1 9 0\nf 12 0\n",
         FIRST + "5 d 1 0\n6 0 5 3 4 0\n", []),
        ("FRAT, as the second of three", FOUR,
         TOLD + "a 10 2 0 l 20 7 0\na 12 0 l 10 1 9 0\nf 10 2 0\n", "6 2 0 1 2 0\n9 0 6 3 4 0\n",
         ["--stream", "2", "--streams", "3"]),
        ("FRAT, an original after an addition", FOUR,
         "o 8 1 2 0\no 6 2 -1 0\na 7 2 0 l 8 6 0\no 5 1 -2 0\no 4 -2 -1 0\n"
         "a 9 0 l 7 5 4 0\n", FIRST + "6 0 5 3 4 0\n", []),
        ("binary DRAT, by a number below the formula's last", FOUR,
         b"a" + codes([2]) + b"d" + codes([1, 2]), FIRST + "5 d 1 0\n", []),
        ("binary DRAT, a deletion first", FOUR,
         b"d" + codes([-2, 1]) + b"a" + codes([2]), "1 d 3 0\n" + FIRST, []),
        ("binary LRAT, a deletion first", FOUR, b"d" + codes([9]) + five, FIRST, []),
        ("FRAT, new identities", FOUR,
         TOLD + "a 10 2 0 l 20 7 0\nr 10 30 1 9 9 1 77 78 0\na 12 0 l 30 9 1 0\n",
         FIRST + "6 0 5 3 4 0\n", []),
        ("comments in the formula",
         "c p cnf\nc\n" + FOUR.replace("\n-1 2", "\nc 1 0\n-1 2"), FIRST, FIRST, []),
        ("binary LRAT, by a number that is no literal", FOUR, five, FIRST, []),
        ("binary LRAT, by its lists", FOUR,
         b"a" + varint(5) + codes([2]) + varint(1) + varint(2) + b"\0", FIRST, []),
        ("binary LRAT, only identities of additions as numbers", FOUR,
         b"a" + varint(5) + codes([2]) + codes([1, 2]) + b"a" + varint(6) + codes([-2])
         + codes([3, 4]) + b"d" + codes([1, 2]) + b"a" + varint(7) + codes([]) + codes([5, 6]),
         FIRST + "6 -2 0 3 4 0\n6 d 1 2 0\n7 0 5 6 0\n", []),
        ("a last line of LRAT without LF", FOUR, "5 2 0 1 2 0\n6 0 5 3 4 0",
         FIRST + "6 0 5 3 4 0\n", []),
    ]


@pytest.mark.parametrize("formula, proof, lines, words", named(ordered()))
def test_output(formula: str, proof: Text, lines: str, words: List[str], tmp_path: Path) -> None:
    assert exact([*words, written(formula, tmp_path)], proof) == (lines, "", 0)


def reordered() -> List[ComesOut]:
    unit = "5 d 5 0\n"
    return [
        ("FRAT, hints that aren't there", FOUR, TOLD + "a 10 2 0 l 33 34 0\na 11 0 l 0\n",
         FIRST + "6 0 3 4 5 0\n", []),
        ("FRAT, no hints", FOUR, TOLD + "a 10 2 0\na 12 0\n", FIRST + "6 0 3 4 5 0\n", []),
        ("FRAT, an identity again after a deletion that is left out", FOUR,
         TOLD + "a 10 2 0\nd 10 2 0\na 10 0\n", FIRST + "6 0 3 4 5 0\n", []),
        ("FRAT, an identity again after its deletion", FOUR,
         TOLD + "a 10 2 0 l 20 7 0\nd 20 1 2 0\na 20 0 l 10 1 9 0\n",
         FIRST + "5 d 1 0\n6 0 3 4 5 0\n", []),
        ("FRAT, no originals", FOUR, "a 10 2 0\nd 4 1 2 0\na 12 0 l 10 0\nf 12 0\n",
         FIRST + "6 0 3 4 5 0\n", []),
        ("a unit that is deleted", FOUR, "2 0\nd 2 0\n0\n", FIRST + "6 0 3 4 5 0\n", []),
        ("a unit that is deleted, binary", FOUR, b"a" + codes([2]) + b"d" + codes([2]) + b"a\0",
         FIRST + "6 0 3 4 5 0\n", ["--format", "binary-drat"]),
        ("a reason that is deleted", UNITS, "d -1 2 0\n0\n", "5 0 1 2 3 4 0\n", []),
        ("a unit of the formula that is deleted", UNITS, "d 1 0\n3 0\n0\n", "5 0 1 2 3 4 0\n", []),
        ("a reason that is deleted, before its literal has a unit clause", LATER,
         "1 4 0\nd 2 -1 0\n4 0\n", "8 1 4 0 1 0\n9 2 0 1 2 0\n10 3 0 9 3 0\n11 4 0 10 4 5 0\n", []),
        ("a reason that is deleted, after that", LATER, "4 0\nd 2 -1 0\n0\n",
         "8 2 0 1 2 0\n9 3 0 8 3 0\n10 4 0 9 4 5 0\n10 d 2 0\n11 0 9 10 6 7 0\n", []),
        ("units that hold before the proof has them", LATER, "4 0\n3 0\n",
         "8 2 0 1 2 0\n9 3 0 8 3 0\n10 4 0 9 4 5 0\n11 0 9 10 6 7 0\n", []),
        ("clauses with literals that are false for good", FALSE_FOR_GOOD,
         "-1 -7 2 3 0\n-1 -7 -2 0\n0\n",
         "9 -1 -7 2 3 0 3 4 0\n10 -1 -7 -2 0 5 6 0\n11 0 1 2 10 9 7 8 0\n", []),
        ("lines that LRAT doesn't have, and its numbers after them", LATER,
         "8 4 0 0\n9 5 1 0 1 0\n20 -4 5 0 8 6 0\n",
         "8 2 0 1 2 0\n9 3 0 8 3 0\n10 4 0 9 4 5 0\n11 5 1 0 1 0\n12 0 9 10 6 7 0\n", []),
        ("LRAT of two streams, which has no numbers to spare", LATER, "8 4 0 0\n10 0 0\n",
         "8 4 0 1 2 3 4 5 0\n10 0 1 2 3 6 7 8 0\n", ONE_OF_TWO),
        ("steps after the empty clause", FOUR, "2 0\n0\nd 1 2 0\n1 0\n",
         FIRST + "6 0 3 4 5 0\n", []),
        ("a unit that is deleted, LRAT without hints", FOUR, "5 2 0 0\n" + unit + "6 0 0\n",
         FIRST + "6 0 3 4 5 0\n", []),
        ("a deletion of nothing", FOUR, "d 1 0\nd 1 2 -1 0\n2 0\n", FIRST, []),
        ("a deletion in another order", FOUR, "2 0\nd 2 1 0\n0\n",
         FIRST + "5 d 1 0\n6 0 3 4 5 0\n", []),
        ("a literal twice", FOUR, "2 2 0\n", FIRST, []),
        ("a first line of PicoSAT's", FOUR, "%RUPD32 2 4" + 245 * " " + "\n2 0\n0\n",
         FIRST + "6 0 3 4 5 0\n", []),
        ("a first line of PicoSAT's alone", FOUR, "%RUPD32 2 4\n", "", []),
        ("CR LF", FOUR, "2 0\r\nd 1 2 0\r\n", FIRST + "5 d 1 0\n", []),
        ("no LF at the end", FOUR, "2 0\n0", FIRST + "6 0 3 4 5 0\n", []),
        ("no step at all", FOUR, "", "", []),
        ("other numbers", FOUR,
         "c x\no proof DRUP\n 70  2 0 2 1 2 0\n70 d 1 99 0\n\n71 0 4 3 70 0\n",
         "6 2 0 2 1 0\n6 d 1 0\n8 0 6 4 3 0\n", ["--stream", "2", "--streams", "2"]),
    ]


@pytest.mark.parametrize("formula, proof, lines, words", named(reordered()))
def test_output_in_some_order(program: str, formula: str, proof: Text, lines: str,
                              words: List[str], tmp_path: Path) -> None:
    """The order of hints isn't fixed; lrupd has to accept it."""
    path = written(formula, tmp_path)
    text = output_of(exact([*words, path], proof))
    assert sorted_hints(text) == sorted_hints(lines)
    stream, count = (int(words[1]), int(words[3])) if "--stream" in words else (1, 1)
    streams = [path for path, _ in at_place((written(text, tmp_path, "exact"), 0), stream, count)]
    deleted = text.count(" d ")
    added = len(text.splitlines()) - deleted
    found = run([program, *enough_for([text.encode()]), path, *streams]).out
    assert (found.splitlines()[stream - 1]
            == f"c stream {stream}: {added} added, {deleted} deleted, ended")


def test_a_clause_that_the_formula_has_twice(tmp_path: Path) -> None:
    """Two `o` lines name both copies of a clause that the formula has twice: one is deleted, and
    the other stays."""
    formula = written("p cnf 2 5\n1 2 0\n-1 2 0\n1 -2 0\n-1 -2 0\n2 1 0\n", tmp_path)
    text = output_of(exact(
        [formula], "o 3 1 2 0\no 8 2 1 0\no 4 -1 2 0\nd 8 2 1 0\na 9 2 0 l 3 4 0\n"))
    deletion, addition = ("1", "5") if text.startswith("1 d 1 ") else ("5", "1")
    assert text == f"1 d {deletion} 0\n6 2 0 {addition} 2 0\n"


def test_names_far_from_each_other(program: str, tmp_path: Path) -> None:
    """Few but large identities of FRAT, added and deleted in any order: each clause is found by its
    identity."""
    count, formula, proof = 1000, written(FOUR, tmp_path), TOLD
    numbers, names = random.Random(count), []
    for name in numbers.sample(range(10 ** 9, 10 ** 12), count):
        proof += f"a {name} 1 2 0 l 20 0\n"
        names.append(name)
        while names and numbers.randrange(2):
            proof += f"d {names.pop(numbers.randrange(len(names)))} 1 2 0\n"
    numbers.shuffle(names)
    proof += "".join(f"d {name} 1 2 0\n" for name in names)
    text = output_of(exact([formula], proof))
    assert text.count(" d ") == count
    check_report(program, formula, text, f"{count} added, {count} deleted, ended", tmp_path)


def test_hints_that_are_held(program: str, tmp_path: Path) -> None:
    """In many steps over the same literals, hints come before the hints that make them unit: no
    step affects the next."""
    count, proof = 100, ""
    numbers = random.Random(count)
    clauses = [[-variable, -variable - 1, -variable - 2, variable + 3]
               for variable in range(1, count + 1)]
    formula = written(dimacs(count + 3, clauses), tmp_path)
    for identity in range(count + 1, 2 * count + 1):
        first = numbers.randrange(1, count + 1)
        hints = list(range(first, numbers.randrange(first, count + 1) + 1))
        last = hints[-1] + 3
        numbers.shuffle(hints)
        proof += (f"{identity} -{first} -{first + 1} -{first + 2} {last} 0 "
                  f"{' '.join(map(str, hints))} 0\n")
    text = output_of(exact([formula], proof))
    check_report(program, formula, text, f"{count} added, 0 deleted, ended", tmp_path)


@pytest.mark.parametrize("words", [[], ["--format", "drat"]], ids=" ".join)
@pytest.mark.parametrize("how", COMPRESSED)
def test_compressed(how: str, words: List[str], tmp_path: Path) -> None:
    """A compressed formula or proof: the message names the program that unpacks it."""
    formula = written(FOUR, tmp_path)
    packed = written(COMPRESSED[how] + b"\0" * 100, tmp_path, "packed")
    assert (exact([*words, packed, "/dev/null"])
            == ("", f"lrup-exact: {packed}: compressed: unpack it with {how}\n", 1))
    assert (exact([*words, formula, packed])
            == ("", f"lrup-exact: byte 1: compressed: unpack it with {how}\n", 1))


@pytest.mark.parametrize("line", ["6 3 0 1 0", "6 x 0 1 0", "6 2 1"])
def test_the_stream_of_another_is_wrong(line: str, tmp_path: Path) -> None:
    """The file of --other isn't LRAT text with increasing identities over the formula's
    literals."""
    other = written(f"{line}\n8 2 0 1 2 0\n", tmp_path, "other")
    want_stop(FOUR, FIRST + "7 1 -2 0 8 0\n", f"line 2: {other}: ", FIRST,
              ONE_OF_TWO + ["--other", f"2={other}"], tmp_path)


def test_the_stream_of_another_is_long(program: str, tmp_path: Path) -> None:
    """Another stream has so many clauses that the filter gives memory back."""
    formula, count = written(FOUR, tmp_path), 9000
    theirs = ("".join(f"{6 + 2 * number} 1 2 0 1 0\n" for number in range(count))
              + f"{6 + 2 * count} 2 0 1 2 0\n")
    ours = "".join(f"{5 + 2 * number} 1 2 0 {6 + 2 * number} 0\n" for number in range(count))
    ours += f"{5 + 2 * count} 0 {6 + 2 * count} 3 4 0\n"
    other = written(theirs, tmp_path, "other")
    text = output_of(exact([*ONE_OF_TWO, "--other", f"2={other}", formula], ours))
    assert text == ours
    check(program, formula, [(written(text, tmp_path, "exact"), count + 1), (other, count + 1)])


def test_summary_and_version() -> None:
    assert output_of(exact(["--help"])).startswith("usage: lrup-exact ")
    assert run([FILTER, "--version"]) == Ran(f"lrup-exact {VERSION}\n", "", 0)
