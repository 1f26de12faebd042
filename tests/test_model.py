"""lrup-model: its answers beside those of another evaluation, on random files; models as solvers
print them; its words, files and statuses; and each call that may fail, refused in turn.

`evaluated` says, from the manual page and the specifications of crates/model_check, what the
program has to answer. Each seed has A_SEED random runs; --count says how many seeds there are."""
import os
import random
import re
import resource
import shutil
from pathlib import Path
from typing import Iterator, List, NamedTuple, Optional, Sequence, Tuple

import pytest

from harness import (FOUR, MODEL, Ran, by_another, dimacs, needs, piped, random_clauses, run,
                     written)
from refused import SHORT, Machine

A_SEED, MOST = 50, 1000     # runs; calls of a kind, of which no run makes as many
FOUND = Ran("s SATISFIABLE\n", "", 10)
# The clauses 1 -2, 2 3 and -3 -1, in this order.
THREE = "p cnf 3 3\n1 -2 0\n2 3 0\n-3 -1 0\n"
USAGE = "usage: lrup-model [--assume FILE] FORMULA MODEL\n"


class Fault(Exception):
    """Why a file is refused."""


def number_of(token: str) -> Optional[int]:
    """A number has one spelling: no plus sign, no leading zero, no -0."""
    return int(token) if re.fullmatch(r"0|-?[1-9][0-9]*", token) else None


def literals_of(text: str, variables: int) -> List[int]:
    """The literals of a model's text. The first fault in it is an exception."""
    found: List[int] = []
    has_ended = False
    for place, line in enumerate(text.split("\n"), 1):
        tokens = [] if line.startswith("c") else re.split(r"[ \t\r]+", line.strip(" \t\r"))
        if tokens in ([], [""]) or tokens[0] == "s":
            continue
        if tokens[0] != "v":
            raise Fault(f"model refused: line {place} begins with neither v, s nor c")
        for token in tokens[1:]:
            number = number_of(token)
            if has_ended:
                raise Fault(f"model refused: literal after the 0 in line {place}")
            if number is None:
                raise Fault(f"model refused: bad number in line {place}")
            if abs(number) > variables:
                raise Fault(f"model refused: variable out of range in line {place}")
            has_ended = number == 0
            found += [number] * (number != 0)
    if not has_ended:
        raise Fault("model refused: no 0 at the end")
    return found


def evaluated(variables: int, clauses: Sequence[Sequence[int]], assumed: Sequence[int],
              text: str) -> Ran:
    """What lrup-model has to answer. Of several causes the first counts, and of assumed literals
    that aren't true that of the smallest variable, the positive one first."""
    try:
        literals = literals_of(text, variables)
    except Fault as fault:
        return Ran("", f"lrup-model: {fault}\n", 4)
    for place, literal in enumerate(literals):
        if -literal in literals[:place]:
            return Ran(f"c the complement of literal {literal} stands before it\n", "", 3)
    for number, clause in enumerate(clauses, 1):
        if not set(clause) & set(literals):
            return Ran(f"c clause {number} has no true literal\n", "", 3)
    for literal in sorted(set(assumed), key=lambda literal: (abs(literal), literal < 0)):
        if literal not in literals:
            return Ran(f"c assumed literal {literal} isn't true\n", "", 3)
    return FOUND


class Files(NamedTuple):
    """The files of a run."""
    formula: Path
    model: Path
    cube: Optional[Path] = None

    def words(self) -> List[object]:
        assume = ["--assume", self.cube] if self.cube else []
        return [MODEL, *assume, self.formula, self.model]


def files(work: Path, formula: str, model: str, cube: Optional[str] = None) -> Files:
    return Files(written(formula, work), written(model, work, "model"),
                 written(cube, work, "cube") if cube is not None else None)


def checked(given: Files) -> Ran:
    return run(given.words(), limit=60)


# Random files.


def random_model(numbers: random.Random, variables: int) -> List[int]:
    """Mostly one literal for each variable; sometimes without one, or with another."""
    found = [numbers.choice((-1, 1)) * variable for variable in range(1, variables + 1)]
    if numbers.random() < 0.3:
        found = [literal for literal in found if numbers.random() < 0.9]
    if numbers.random() < 0.3:
        numbers.shuffle(found)
    if numbers.random() < 0.1:
        found.insert(numbers.randrange(len(found) + 1), numbers.choice((-1, 1)) *
                     numbers.randrange(1, variables + 2))
    return found


def text_of(numbers: random.Random, literals: Sequence[int]) -> str:
    """The literals on lines as a solver might print them, sometimes with a fault."""
    tokens = [*map(str, literals), "0"]
    if numbers.random() < 0.1:
        tokens[numbers.randrange(len(tokens))] = numbers.choice(
            ("+1", "01", "-0", "1.", "x", "0", "--1", "v", "99999999999999999999", "-"))
    if numbers.random() < 0.05:
        tokens.pop()
    lines = [["v"]]
    for token in tokens:
        if numbers.random() < 0.2:
            lines.append(["v"])
        lines[-1].append(token)
    text = [numbers.choice((" ", "  ", "\t")).join(line) for line in lines]
    for _ in range(numbers.randrange(4)):
        text.insert(numbers.randrange(len(text) + 1), numbers.choice(
            ("c a comment", "c", "", "s SATISFIABLE", " ", "cv 1 0", "s", "s 1 2",
             *["SAT", " c x", "V 1", "v1", "sat", "0"] * (numbers.random() < 0.1))))
    end = numbers.choice(("\n", "\n", "\n", "\r\n"))
    return end.join(text) + numbers.choice((end, "", end + end))


@pytest.mark.seeds(6)
def test_answers_on_random_files(seed: int, tmp_path: Path) -> None:
    numbers = random.Random(f"{seed} models")
    statuses = set()
    for _ in range(A_SEED):
        variables = numbers.randrange(1, 12)
        literals = random_model(numbers, variables)
        clauses = random_clauses(numbers, variables, numbers.randrange(20), (1, 2, 3, 4))
        if numbers.random() < 0.7:      # then the model often satisfies them
            clauses = [[*clause, numbers.choice(literals)] if literals else clause
                       for clause in clauses]
            clauses = [[literal for literal in clause if abs(literal) <= variables]
                       for clause in clauses]
        assumed = sorted({numbers.choice((-1, 1)) * numbers.randrange(1, variables + 1)
                          for _ in range(numbers.randrange(3))})
        cube = "".join(f"{literal} " for literal in assumed) + "0\n"
        model = text_of(numbers, literals)
        given = files(tmp_path, dimacs(variables, clauses), model,
                      cube if assumed or numbers.random() < 0.3 else None)
        expected = evaluated(variables, clauses, assumed, model)
        assert checked(given) == expected, (given.formula.read_text(), cube, model)
        statuses.add(expected.status)
    assert statuses == {3, 4, 10}


@pytest.mark.parametrize("model, expected", [
    ("v 1 2 -3 0\n", FOUND),
    ("c found by chance\ns SATISFIABLE\nv 1 2\nv -3 0\n", FOUND),
    ("v 1 2 -3 0", FOUND),
    ("v\t1  2\r\nv -3 0\r\n", FOUND),
    ("v -3 2 1 1 2 0\n", FOUND),
    ("s UNSATISFIABLE\nv 1 2 -3 0\n", FOUND),
    ("v 1 2 -1 0\n", Ran("c the complement of literal -1 stands before it\n", "", 3)),
    ("v 1 2 0\n", Ran("c clause 3 has no true literal\n", "", 3)),
    ("v 0\n", Ran("c clause 1 has no true literal\n", "", 3)),
    ("", Ran("", "lrup-model: model refused: no 0 at the end\n", 4)),
    ("v 1 2 -3\n", Ran("", "lrup-model: model refused: no 0 at the end\n", 4)),
    ("v 1 0\nv 2\n", Ran("", "lrup-model: model refused: literal after the 0 in line 2\n", 4)),
    ("v 1 +2 0\n", Ran("", "lrup-model: model refused: bad number in line 1\n", 4)),
    ("v 1\nv 4 0\n", Ran("", "lrup-model: model refused: variable out of range in line 2\n", 4)),
    ("s\ncv 4 0\nv 1 2 -3 0\n", FOUND),
    *((f"{line}\nv 1 2 -3 0\n",
       Ran("", "lrup-model: model refused: line 1 begins with neither v, s nor c\n", 4))
      for line in ("SAT", "sat", "ss", " c x", "v1")),
    ("v 1 2 -3 0\n\0",
     Ran("", "lrup-model: model refused: line 2 begins with neither v, s nor c\n", 4)),
])
def test_answers_on_one_formula(model: str, expected: Ran, tmp_path: Path) -> None:
    given = files(tmp_path, THREE, model)
    assert checked(given) == expected


@pytest.mark.parametrize("cube, expected", [
    ("0\n", FOUND), ("2 0\n", FOUND), ("1 2 -3 0\n", FOUND),
    ("-2 3 0\n", Ran("c assumed literal -2 isn't true\n", "", 3)),
    ("3 -2 0\n", Ran("c assumed literal -2 isn't true\n", "", 3)),
    ("3 0\n", Ran("c assumed literal 3 isn't true\n", "", 3)),
    ("3 -3 0\n", Ran("c assumed literal 3 isn't true\n", "", 3)),
])
def test_assumed_literals(cube: str, expected: Ran, tmp_path: Path) -> None:
    given = files(tmp_path, THREE, "v 1 2 -3 0\n", cube)
    assert checked(given) == expected


@pytest.mark.parametrize("cube", ["", "2\n", "2  0\n", "4 0\n", "2 0\n0\n", "c 2 0\n", "2 0\r\n"])
def test_a_cube_that_is_refused(cube: str, tmp_path: Path) -> None:
    done = checked(files(tmp_path, THREE, "v 1 2 -3 0\n", cube))
    assert (done.out, done.status) == ("", 4)
    assert re.fullmatch(r"lrup-model: assumptions refused: .+\n", done.err)


def test_a_formula_that_no_assignment_satisfies(tmp_path: Path) -> None:
    for signs in ("1 2", "1 -2", "-1 2", "-1 -2"):
        assert checked(files(tmp_path, FOUR, f"v {signs} 0\n")).status == 3


@pytest.mark.parametrize("formula", ["", "p cnf 1 1\n1 -2 0\n", "p cnf 2 1\n1 x 2 0\n",
                                     "p cnf 2 3\n1 0\n", "p cnf 1 1\n1\n", "1 0\n"])
def test_a_formula_that_is_refused(formula: str, tmp_path: Path) -> None:
    """The first file that isn't a text is named, and the formula comes first."""
    done = checked(files(tmp_path, formula, "nor is this a model\n"))
    assert (done.out, done.status) == ("", 4)
    assert re.fullmatch(r"lrup-model: formula refused: .+\n", done.err)


def test_a_formula_without_variables(tmp_path: Path) -> None:
    assert checked(files(tmp_path, "p cnf 0 0\n", "v 0\n")) == FOUND
    assert checked(files(tmp_path, "p cnf 0 1\n0\n", "v 0\n")).status == 3


def test_the_largest_variable(tmp_path: Path) -> None:
    formula, most = "p cnf 16777215 2\n16777215 0\n-1 0\n", 16777215
    assert checked(files(tmp_path, formula, f"v {most} -1 0\n")) == FOUND
    assert checked(files(tmp_path, formula, f"v {most + 1} 0\n")).status == 4


# Words and files.


@pytest.mark.parametrize("words", [[], ["formula"], ["formula", "model", "more"], ["--help"],
                                   ["--assume", "formula", "model"], ["-h"], ["--version"],
                                   ["--assume=cube", "formula", "model"],
                                   ["formula", "--assume", "cube", "model"],
                                   ["--assume", "cube", "--formula", "model"],
                                   ["--assume", "cube", "formula", "model", "more"]])
def test_words_that_it_does_not_take(words: Sequence[str]) -> None:
    done = run([MODEL, *words])
    assert (done.out, done.err[:len(USAGE)], done.status) == ("", USAGE, 2)


def test_words_that_are_not_text(tmp_path: Path) -> None:
    done = run([MODEL, os.fsdecode(b"\xff"), "model"])
    assert done == Ran("", "lrup-model: an argument isn't UTF-8\n", 2)


@pytest.mark.parametrize("missing, role", [("formula.cnf", "formula"), ("model", "model"),
                                           ("cube", "assumptions")])
def test_files_that_cannot_be_read(missing: str, role: str, tmp_path: Path) -> None:
    """A file that isn't there, a folder, and a file that only others may read."""
    said = Ran("", f"lrup-model: cannot read {role}\n", 5)
    given = files(tmp_path, THREE, "v 1 2 -3 0\n", "2 0\n")
    path = tmp_path / missing
    path.chmod(0)
    program = shutil.copy(MODEL, tmp_path / "lrup-model")
    assert by_another([program, *given.words()[1:]], tmp_path) == said
    path.unlink()
    assert checked(given) == said
    path.mkdir()
    assert checked(given) == said


def test_standard_input_and_pipes(tmp_path: Path) -> None:
    given = files(tmp_path, THREE, "v 1 2 -3 0\n")
    assert run([MODEL, given.formula, "-"], "v 1 2 -3 0\n") == FOUND
    assert run([MODEL, "-", given.model], THREE) == FOUND
    pipe = piped(tmp_path / "pipe")
    script = 'cat "$1" > "$2" & "$0" "$3" "$2"'
    assert run(["sh", "-c", script, MODEL, given.model, pipe, given.formula]) == FOUND


def test_an_answer_that_cannot_be_written(tmp_path: Path) -> None:
    with open("/dev/full", "w") as full:
        done = run(files(tmp_path, THREE, "v 1 2 -3 0\n").words(), stdout=full)
    assert (done.err, done.status) == ("lrup-model: cannot write answer\n", 7)


def test_closed_standard_streams(tmp_path: Path) -> None:
    """No file that is opened is taken for standard output."""
    given = files(tmp_path, THREE, "v 1 2 -3 0\n")
    done = run(["sh", "-c", 'exec "$@" >&- <&- 2>&-', "sh", *given.words()])
    assert done.status in (7, 10)
    assert given.formula.read_text() == THREE and given.model.read_text() == "v 1 2 -3 0\n"


def test_little_memory(tmp_path: Path) -> None:
    given = files(tmp_path, "p cnf 16777215 1\n1 0\n", "v 1 0\n")
    done = run(given.words(), preexec_fn=lambda: resource.setrlimit(resource.RLIMIT_AS,
                                                                    (1 << 24, 1 << 24)))
    assert done == Ran("", "lrup-model: out of memory\n", 6)


# Solvers.


def model_of_minisat(formula: Path, tmp_path: Path) -> str:
    """The file that MiniSat writes has lines without `v`, of which the first is SAT."""
    run(["minisat", formula, tmp_path / "answer"])
    return run(["sed", "1d; s/^/v /", tmp_path / "answer"]).out


@pytest.mark.parametrize("words", [["cadical", "-q"], ["cadical"], ["cryptominisat5"],
                                   ["cryptominisat5", "--verb", "0"], ["picosat"],
                                   ["z3", "-dimacs"], ["minisat"]], ids=" ".join)
def test_models_as_solvers_print_them(words: Sequence[str], tmp_path: Path) -> None:
    """What a solver prints is taken as it is, and, once a literal is complemented, only if the
    formula doesn't need it."""
    needs(words[0])
    for seed in range(5):
        numbers = random.Random(f"{seed} solvers")
        clauses = random_clauses(numbers, 100, 380)
        formula = written(dimacs(100, clauses), tmp_path)
        text = (model_of_minisat(formula, tmp_path) if words == ["minisat"]
                else run([*words, formula]).out)
        text += "v 0\n" * (words[0] == "z3")    # which leaves out the 0 at the end
        assert evaluated(100, clauses, [], text) == FOUND
        assert checked(files(tmp_path, dimacs(100, clauses), text)) == FOUND
        wrong = re.sub(r"(?<= )(-?)(7)\b", lambda found: ("" if found[1] else "-") + "7", text)
        expected = evaluated(100, clauses, [], wrong)
        assert checked(files(tmp_path, dimacs(100, clauses), wrong)) == expected


# Calls that fail.


def calls() -> Iterator[Tuple[str, str, List[Ran]]]:
    """Kinds of calls, how each fails, and the answers that are right then, beside the usual one."""
    unread = [Ran("", f"lrup-model: cannot read {role}\n", 5)
              for role in ("formula", "assumptions", "model")]
    unwritten = Ran("", "lrup-model: cannot write answer\n", 7)
    yield "allocate", "", [Ran("", "lrup-model: out of memory\n", 6), *unread]
    yield "read", "EIO", unread
    for how in ("EINTR", *SHORT):       # then the rest is read
        yield "read", how, []
    for how in SHORT:
        yield "write", how, []
    for how in ("EIO", "EINTR", "ENOSPC", "EPIPE"):
        yield "write", how, [unwritten]
    for how in ("EACCES", "EMFILE", "ELOOP", "ENOENT"):
        yield "open", how, unread
    yield "hold", "EMFILE", []


@pytest.mark.parametrize("kind, how, others", calls())
def test_each_call_refused(kind: str, how: str, others: Sequence[Ran], tmp_path: Path) -> None:
    """Refuses the first call, then the second, and so on, until a run meets no refusal."""
    machine = Machine(MODEL, tmp_path)
    given = files(tmp_path, THREE, "c a comment\nv 1 2\nv -3 0\n", "2 0\n")
    words = list(map(str, given.words()[1:]))
    answers = []
    for number in range(1, MOST):
        answer, was_refused, _ = machine.run(words, f"{kind}:{number}:{how}".rstrip(":"))
        found = Ran(answer.out, answer.err, answer.status or 0)
        if not was_refused:
            break
        answers.append(found)
        assert found in [*others, FOUND], f"call {number}"
    assert found == FOUND and number < MOST
    assert answers, "no call was refused"
    if others:
        assert set(answers) & set(others), "each refused call is ignored"
    if kind == "open":
        assert answers == others
