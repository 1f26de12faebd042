"""The commands that pages show, run in order, with one shell and one folder for each page; and the
examples' scripts with wrong arguments, files and answers.

A command comes after '$ ' in a block that is indented by four spaces or more. If its line ends with
a backslash, a bar or '&&', it continues on the next one. The text below it is the expected output,
including standard error: a line '..' stands for any lines, and in a line that begins with
lrup-solve's time, each number stands for any other. If there is no text, any output is fine. Some
commands aren't run, since they would prove the program, or fetch packages: see NOT_RUN."""
import os
import re
import shutil
import subprocess
from pathlib import Path
from typing import Iterator, List, Mapping, NamedTuple, Sequence, Tuple

import pytest

from harness import (EXAMPLES, EXPLAIN, FILTER, LRUP_RECHECK, ROOT, TRIM, Ran, generated, lacking,
                     needs, output_of, run, write_all, written)
from solving import SOLVE

LIMIT = 120  # seconds for a page
NOT_RUN = ["make try", "make test", "make install PREFIX=$HOME/.local",
           "sh gate/cadicals.sh cadicals sid", "make install CADICAL=cadicals/sid"]
# Each page, with the files in its folder besides the examples, which are copies and generated
# formulas; and with the packages that its commands need.
PAGES: List[Tuple[str, List[str], List[str]]] = [
    ("README.md", ["random 150 1 > formula.cnf"], ["cadical"]),
    ("docs/USING.md", ["random 150 1 > formula.cnf"], ["cadical", "cryptominisat5"]),
    ("docs/EMITTING.md", ["examples/bmc.cnf > formula.cnf", "examples/bmc.lrup > proof"], []),
    ("docs/TRUST.md", ["random 150 1 > formula.cnf"], []),
    ("examples/README.md", [], ["yosys"]),
    ("examples/planning/README.md", [], []),
    ("examples/lemma/README.md", [], []),
    ("examples/smt/README.md", [], ["python3-z3"]),
    ("examples/cubes/README.md", [], []),
    ("examples/fifo/README.md", [], ["yosys"]),
    ("examples/cbmc/README.md", [], []),
]
CBMC = ROOT / "tests" / "support" / "cbmc.sh"   # where there is no CBMC


class Command(NamedTuple):
    line: int
    text: str
    wanted: List[str]


def commands_of(page: Path) -> Iterator[Command]:
    """Each command, with the number of its first line."""
    lines = [*page.read_text().splitlines(), ""]
    at = 0
    while at < len(lines):
        begun = re.match(r"( {4,})\$ (.*?)( {2,}#.*)?$", lines[at])
        if not begun:
            at += 1
            continue
        first, indent, text = at, begun[1], begun[2]
        while re.search(r"(\\|\||&&)$", lines[at]):
            at += 1
            text += "\n" + lines[at].strip()
        at += 1
        begin = at
        while lines[at].startswith(indent) and not lines[at].startswith(indent + "$ "):
            at += 1
        yield Command(first + 1, text, [line[len(indent):] for line in lines[begin:at]])


def pattern(wanted: Sequence[str]) -> str:
    """A regular expression for the expected output."""
    return "".join(r"(.*\n)*" if line == ".."
                   else (timed(line) if is_timed(line) else re.escape(line)) + "\n"
                   for line in wanted)


def timed(line: str) -> str:
    """A pattern for the line with any numbers, and with `engine` or `clause` in the singular,
    too."""
    return re.sub(r"\b(engine|clause)s\b", r"\1s?",
                  re.sub(r"\d(\\?[.,\d])*", r"[\\d.,]+", re.escape(line)))


def is_timed(line: str) -> bool:
    return re.match(r"c [\d,.]+ s(: |, .* of processor time)", line) is not None


@pytest.mark.usefixtures("lrup_solve")
@pytest.mark.parametrize("name, files, packages", [pytest.param(*page, id=page[0])
                                                   for page in PAGES])
def test_page(program: str, model: str, name: str, files: Sequence[str], packages: Sequence[str],
              tmp_path: Path) -> None:
    """The page's commands print what the page shows."""
    for package in packages:
        if package != "python3-z3":
            needs(package)
        elif run(["/usr/bin/python3", "-c", "import z3"]).status:
            lacking("there is no module z3")
    for file in files:
        words, _, place = file.partition(" > ")
        if words.startswith("examples/"):
            shutil.copy(ROOT / words, tmp_path / place)
        else:
            generated(words, tmp_path, place)
    os.symlink(EXAMPLES, tmp_path / "examples")
    (tmp_path / "bin").mkdir()
    for path in [SOLVE, SOLVE.with_name("lrup-check"), FILTER, TRIM, EXPLAIN, LRUP_RECHECK]:
        os.symlink(path, tmp_path / "bin" / path.name)
    if not shutil.which("cbmc"):
        os.symlink(CBMC, tmp_path / "bin" / "cbmc")
    os.symlink(program, tmp_path / "bin" / "lrupd")
    os.symlink(model, tmp_path / "bin" / "lrup-model")
    commands = [command for command in commands_of(ROOT / name) if command.text not in NOT_RUN]
    script = "exec 2>&1\n" + "".join(f"{command.text}\nprintf '\\n-- %s\\n' {number}\n"
                                     for number, command in enumerate(commands))
    surroundings = {**os.environ, "PATH": f"{tmp_path / 'bin'}:{os.environ['PATH']}"}
    done = run(["bash", "-c", script], limit=LIMIT, cwd=tmp_path, env=surroundings,
               stderr=subprocess.STDOUT)
    pieces = re.split(r"\n-- \d+\n", done.out)
    assert len(pieces) == len(commands) + 1, done.out
    for command, said in zip(commands, pieces):
        said += "\n" * (said != "" and not said.endswith("\n"))
        if command.wanted and not re.fullmatch(pattern(command.wanted), said):
            shown = "".join(f"{line}\n" for line in command.wanted)
            assert said == shown, f"line {command.line}, $ {command.text}"


@pytest.mark.parametrize("text", NOT_RUN)
def test_a_command_that_is_not_run_is_on_a_page(text: str) -> None:
    assert text in [command.text for name, *_ in PAGES for command in commands_of(ROOT / name)]


# Scripts of examples with wrong input: one line on standard error, and nothing on standard output.

DOMAIN, PROBLEM = (str(EXAMPLES / "planning" / name)
                   for name in ("gripper.pddl", "four-balls.pddl"))
USAGES: List[Tuple[str, str, List[List[str]]]] = [
    ("smt/smt2cnf.py", "smt2cnf.py PROBLEM.smt2 > FORMULA.cnf", [[], ["one", "two"]]),
    ("lemma/lemma.py", "lemma.py WIDTH LEMMA",
     [[], ["8"], ["0", "a <= b"], ["x", "a <= b"], ["8", "a <= b", "c"]]),
    ("show.awk", "show.awk FORMULA ANSWER [TRACE.vcd] | show.awk FORMULA CORE",
     [[], ["formula.cnf"], ["formula.cnf", "answer", "more"]]),
    ("acl2.py", "acl2.py [--stobj] FORMULA PROOF",
     [[], ["--stobj", "f"], ["f"], ["f", "p", "x"]]),
    ("miter/miter.sh", "miter.sh FILE FORMULA", [[], ["x.v"]]),
    ("fifo/bmc.sh", "bmc.sh [--induction] FILE DEPTH FORMULA | bmc.sh --to DEPTH FILE FORMULA CUBES"
     ", with 2 or more steps for DEPTH",
     [[], ["x.v", "5"], ["x.v", "x", "f"], ["x.v", "", "f"], ["x.v", "0", "f"],
      ["x.v", "5", "f", "g"], ["x.v", "-5", "f"], ["x.v", "1", "f"], ["--induction", "x.v", "5"],
      ["--induction", "x.v", "1", "f"], ["--to", "5", "x.v", "f"], ["--to", "1", "x.v", "f", "c"],
      ["--to", "x", "x.v", "f", "c"], ["--to", "5", "x.v", "f", "c", "g"]]),
    ("cubes/waerden.py", "waerden.py K L N, with 2 or more for K and L",
     [[], ["3", "3"], ["3", "1", "9"], ["3", "x", "9"]]),
    ("cubes/split.py", "split.py COUNT FORMULA",
     [[], ["5"], ["x", "formula.cnf"], ["5", "a", "b"]]),
    ("planning/plan.py", "plan.py DOMAIN PROBLEM STEPS",
     [[], [DOMAIN, PROBLEM], [DOMAIN, PROBLEM, "x"], [DOMAIN, PROBLEM, "-1"],
      [DOMAIN, PROBLEM, "1", "2"]])]


@pytest.mark.parametrize("script, usage, words", [
    pytest.param(script, usage, words, id=" ".join(Path(word).name for word in [script, *words]))
    for script, usage, every in USAGES for words in every])
def test_usage(script: str, usage: str, words: Sequence[str], tmp_path: Path) -> None:
    done = run([EXAMPLES / script, *words], b"", cwd=tmp_path)
    assert done == Ran("", f"usage: {usage}\n", 2)


@pytest.mark.parametrize("script, usage", [
    pytest.param(script, usage, id=script) for script, usage, _ in USAGES
    if not script.endswith(".awk")])    # awk itself takes the option
def test_help(script: str, usage: str, tmp_path: Path) -> None:
    done = run([EXAMPLES / script, "--help"], b"", cwd=tmp_path)
    assert done == Ran(f"usage: {usage}\n", "", 0)


def want_refused(script: str, words: Sequence[object], said: str, folder: Path,
                 given: bytes = b"", files: Mapping[str, str] = {}) -> None:
    """In a folder with these files, the script says this."""
    write_all(files, folder)
    done = run([EXAMPLES / script, *words], given, cwd=folder)
    assert done == Ran("", f"{Path(script).name}: {said}\n", 1)


# Answers that aren't ones to a satisfiable formula; one is too short for its formula, and one has
# both values of each variable.
@pytest.mark.parametrize("answer", [
    b"s UNSATISFIABLE\n", b"", b"c time is up\ns UNKNOWN\n", b"\0garbage\n\377",
    b"s SATISFIABLE\nv 1 2 0\n", b"s UNKNOWN\nv 1 2 -3 -4 -5 6 -7 0\n",
    b"s SATISFIABLE\nv 1 -1 2 -2 3 -3 4 -4 5 -5 6 -6 7 -7 0\n"])
def test_show_refuses_an_answer(answer: bytes, tmp_path: Path) -> None:
    formula = written("p cnf 7 2\nc a[0] 1\n3 -4 0\n5 -1 0\n", tmp_path)
    want_refused("show.awk", [formula, "-"],
                 "the answer isn't s SATISFIABLE with an assignment of this formula", tmp_path,
                 answer)


def test_show_reads_names_of_words(tmp_path: Path) -> None:
    """The bits follow one name, as CBMC writes them; no core has a constant."""
    formula = written("p cnf 4 3\n1 0\n-2 3 0\n-3 0\nc x!0@1#2 1 -2 FALSE 3 TRUE\nc y TRUE\n"
                      "c z[0] 4\nc z[1] -4\n", tmp_path)
    answer = written("s SATISFIABLE\nv 1 -2 -3 4 0\n", tmp_path, "answer")
    assert (output_of(run([EXAMPLES / "show.awk", formula, answer])) ==
            "x!0@1#2 = 5'b10011\ny = 1'b1\nz = 2'b01\n")
    core = written("p cnf 4 1\nc id 2\n-2 3 0\n", tmp_path, "core")
    assert output_of(run([EXAMPLES / "show.awk", formula, core])) == "x!0@1#2\n"


def test_show_writes_a_trace(tmp_path: Path) -> None:
    """A VCD file: only changes; instances as scopes; x for a bit, or a step, without a name."""
    formula = written("p cnf 3 1\nc in@1[1] 1\nc in@2[1] 1\nc a.b.c@2 -2\nc a.b.c@3 2\n"
                      "c other 3\n-2 1 0\n", tmp_path)
    answer = written("s SATISFIABLE\nv 1 2 -3 0\n", tmp_path, "answer")
    trace = tmp_path / "trace.vcd"
    assert run([EXAMPLES / "show.awk", formula, answer, trace]) == Ran("", "", 0)
    assert trace.read_text() == """$timescale 1 ns $end
$scope module top $end
$var wire 2 ! in [1:0] $end
$scope module a $end
$scope module b $end
$var wire 1 " c $end
$upscope $end
$upscope $end
$upscope $end
$enddefinitions $end
#1
b1x !
x"
#2
0"
#3
bx !
1"
#4
"""
    assert "in@1 = 2'b1x\n" in output_of(run([EXAMPLES / "show.awk", formula, answer]))


def test_show_refuses_a_trace_without_steps(tmp_path: Path) -> None:
    write_all({"formula": "p cnf 1 1\nc a 1\n1 0\n", "answer": "s SATISFIABLE\nv 1 0\n"}, tmp_path)
    want_refused("show.awk", ["formula", "answer", "trace.vcd"],
                 "the formula has no comments with steps, 'c NAME@STEP LITERAL'", tmp_path)
    assert not (tmp_path / "trace.vcd").exists()


@pytest.mark.parametrize("text", [
    "p cnf 2 1\n1 2 0\n", "c generated from Yosys RTL\np cnf 2 1\n1 2 0\n", ""])
def test_show_refuses_a_formula(text: str, tmp_path: Path) -> None:
    want_refused("show.awk", [written(text, tmp_path), "-"],
                 "the formula has no comments 'c NAME LITERAL'", tmp_path,
                 b"s SATISFIABLE\nv 1 2 0\n")


@pytest.mark.parametrize("formula, cause", [
    ("none", "[Errno 2] No such file or directory: 'none'"), ("/dev/null", "no header")])
def test_acl2_refuses_a_formula(formula: str, cause: str, tmp_path: Path) -> None:
    want_refused("acl2.py", [formula, "none"], f"FORMULA or PROOF can't be read: {cause}", tmp_path)


# Problems of SMT-LIB.

WORD, TRUTH = "(declare-const x (_ BitVec 8))", "(declare-const p Bool)"


@pytest.mark.parametrize("text, said", [
    (f"{TRUTH}(push)(assert p)(check-sat)", "'push' isn't supported"),
    (f"{TRUTH}(; a comment\npush 1)(assert p)(pop 1)", "'push' isn't supported"),
    (f"{TRUTH}(check-sat-assuming (p))", "'check-sat-assuming' isn't supported"),
    (f"{TRUTH}(assert p)(check-sat)(assert (not p))(check-sat)",
     "'assert' isn't supported after check-sat"),
    (f"{TRUTH}(assert p)(check-sat)(check-sat)", "'check-sat' isn't supported after check-sat"),
    (f"{TRUTH}(assert p)(|check-sat|)(reset)(|push| 1)", "'|check-sat|' isn't supported"),
    ("(declare-const n Int)(assert (and (> n 3) (< n 2)))(check-sat)",
     "Int isn't supported, only Bool and BitVec"),
    (f"{WORD}(assert (= (bv2int x) 3))(check-sat)", "Int isn't supported, only Bool and BitVec"),
    (f"{TRUTH}(declare-fun f (Bool) Bool)(assert (distinct (f p) (f p)))(check-sat)",
     "the function f isn't defined"),
    (f"{WORD}(declare-fun f ((_ BitVec 8)) (_ BitVec 8))(assert (distinct (f x) (f x)))",
     "the function f isn't defined"),
    ("(declare-const m (Array Bool Bool))(assert (distinct (select m true) (select m true)))",
     "Array(Bool, Bool) isn't supported, only Bool and BitVec"),
    ("(declare-sort S 0)(declare-const a S)(assert (distinct a a))",
     "'declare-sort' isn't supported"),
    ("(assert (exists ((y (_ BitVec 4))) (bvult y #x1)))", "quantifiers aren't supported"),
    (f"{TRUTH}(declare-const q Bool)(assert ((_ at-most 1) p q))(check-sat)",
     "not a problem of QF_BV"),
    ("(assert nothing)",
     '(error "line 1 column 9: unknown constant nothing")')])
def test_smt2cnf_refuses_a_problem(text: str, said: str, tmp_path: Path) -> None:
    """Z3's bit-blaster would leave something out."""
    want_refused("smt/smt2cnf.py", ["p.smt2"], f"p.smt2: {said}", tmp_path, files={"p.smt2": text})


def test_smt2cnf_without_a_file(tmp_path: Path) -> None:
    want_refused("smt/smt2cnf.py", ["none"],
                 "none: [Errno 2] No such file or directory: 'none'", tmp_path)


@pytest.mark.parametrize("text, lines", [
    (f"{WORD}(assert (= (bvadd x #x01) x))", ["p cnf 1 2", "1 0", "-1 0"]),
    (f"{TRUTH}(assert false)", ["p cnf 1 2", "1 0", "-1 0"]),
    (f"{TRUTH}(assert (not p))", ["p cnf 1 1", "c p 1", "-1 0"]),
    ("(declare-fun p () Bool)(assert (not p))(check-sat)(get-model)(exit)",
     ["p cnf 1 1", "c p 1", "-1 0"])])
def test_smt2cnf_writes_a_formula(text: str, lines: Sequence[str], tmp_path: Path) -> None:
    made = run([EXAMPLES / "smt" / "smt2cnf.py", written(text, tmp_path)])
    assert output_of(made).splitlines() == lines


# Lemmas that lemma.py refuses, for eight bits. The first ones would do something else as Python.
LEMMAS = [(text, f"a LEMMA can't have {refused}: the top of lemma.py says what it can have")
          for text, refused in (
              ('__import__("os").system("touch ran")', "__import__('os').system('touch ran')"),
              ('both(a < b, open("ran", "w"))', "open('ran', 'w')"),
              ("a.__class__ == b", "a.__class__"),
              ("(lambda: a < b)()", "(lambda: a < b)()"), ("[a < b][0]", "[a < b][0]"),
              ("a <= e", "e"), ("a <= b <= c", "a <= b <= c"), ("a is b", "a is b"),
              ("a < b and b < c", "a < b and b < c"), ("not a < b", "not a < b"),
              ("a * b == c", "a * b"), ("a in b", "a in b"), ("-a == b", "-a"), ("a == 1.0", "1.0"),
              ("a == True", "True"), ("when(a < b)", "when(a < b)"), ("both(*a)", "both(*a)"))]
LEMMAS += [
    ("a == 256", "256 has more than 8 bits"),
    ("a + b", "'a + b' is a number, which has no counterexample"),
    ("a + (b < c) == d", "a + (b < c) isn't of two numbers"),
    ("when(a, b < c)", "when(a, b < c) isn't of two truth values"),
    ("a & (b < c) == d", "a & (b < c) isn't of two numbers or two truth values"),
    ("a << b == c", "a << b isn't a number that is shifted by a constant"),
    ("(a < b) << 1 == c", "(a < b) << 1 isn't a number that is shifted by a constant"),
    ("a <", "LEMMA isn't an expression: invalid syntax"),
    ("~" * 5000 + "a == b", "LEMMA is nested too deeply")]


@pytest.mark.parametrize("text, cause", [pytest.param(text, cause, id=text[:40])
                                         for text, cause in LEMMAS])
def test_lemma_refuses_a_lemma(text: str, cause: str, tmp_path: Path) -> None:
    want_refused("lemma/lemma.py", ["8", text], cause, tmp_path)
    assert not any(tmp_path.iterdir())


# Circuits and planning.

REGISTER = """module NAME(input clock, input reset, input in, output reg last);
  always @(posedge clock) last <= reset ? 0 : in;
endmodule
"""


@pytest.mark.parametrize("script, words, text, said", [
    pytest.param("fifo/bmc.sh", ["x.v", "5", "f"], REGISTER, "the circuit has no output bad",
                 id="no output"),
    pytest.param("fifo/bmc.sh", ["x.v", "5", "f"],
                 REGISTER.replace("last", "bad").replace("reset", "clear"),
                 "the circuit has no input reset", id="no reset"),
    pytest.param("miter/miter.sh", ["x.v", "f"],
                 REGISTER.replace("NAME", "one") + REGISTER.replace("NAME", "other"),
                 "a circuit with registers, which bmc.sh is for", id="registers")])
def test_refused_circuits(script: str, words: Sequence[str], text: str, said: str,
                          tmp_path: Path) -> None:
    written(text, tmp_path, "x.v")
    done = run([EXAMPLES / script, *words], b"", cwd=tmp_path)
    assert done == Ran("", f"aiger2cnf.awk: {said}\n", 1)


@pytest.mark.parametrize("text, what", [
    (b"(define (domain d) (:action a :parameters (?x - (either s t)) :effect (p ?x)))", "either"),
    (b"(define (domain d) (:requirements :negative-preconditions))", "not in preconditions"),
    (b"(define (domain d) (:requirements :equality))", "equality"),
    (b"(define (domain d) (:action a :precondition (not (= ?x ?y))))", "equality"),
    (b"(define (domain d) (:action a :precondition (or (p) (q))))", "more than conjunctions"),
    (b"(define (domain d) (:action a :effect (forall (?x) (p ?x))))", "more than conjunctions"),
    (b"(define (domain d) (:requirements :adl))", "more than conjunctions")])
def test_plan_refuses_a_domain(text: bytes, what: str, tmp_path: Path) -> None:
    want_refused("planning/plan.py", ["/dev/stdin", PROBLEM, "3"],
                 f"/dev/stdin: {what} isn't supported, only STRIPS and types", tmp_path, text)


TYPED = """(define (domain d) (:types van lorry - vehicle vehicle - object place - place)
  (:constants depot - place)
  (:action drive :parameters (?v - vehicle ?from ?to - place)
    :precondition (and (at ?v ?from)) :effect (and (at ?v ?to) (not (at ?v ?from))))
  (:action load :parameters (?v - van ?any) :effect (full ?v ?any)))
"""
JOURNEY = """(define (problem p) (:domain d) (:objects v - van l - lorry town - place what)
  (:init (at v depot)) (:goal (and (at v town) (full v what))))
"""


def test_plan_reads_types(tmp_path: Path) -> None:
    """Parameters range over objects and constants of their types, of types below these, and without
    a type over all."""
    write_all({"domain": TYPED, "problem": JOURNEY}, tmp_path)
    made = run([EXAMPLES / "planning" / "plan.py", "domain", "problem", "2"], cwd=tmp_path)
    names = re.findall(r"^c (\S+)@1 ", output_of(made), re.M)
    places = ["depot,depot", "depot,town", "town,depot", "town,town"]
    assert sorted(names) == [*(f"drive({one},{two})" for one in "lv" for two in places),
                             *(f"load(v,{one})" for one in ("depot", "l", "town", "v", "what"))]
    needs("cadical")
    for steps, status in ((1, 20), (2, 10)):
        made = run([EXAMPLES / "planning" / "plan.py", "domain", "problem", steps], cwd=tmp_path)
        formula = written(output_of(made), tmp_path)
        assert run(["cadical", "-q", formula]).status == status


@pytest.mark.parametrize("words, given, cause", [
    pytest.param([DOMAIN, "none"], b"",
                 "DOMAIN or PROBLEM can't be read: [Errno 2] No such file or directory: 'none'",
                 id="no file"),
    pytest.param([DOMAIN, "/dev/stdin"], b"(define (problem empty))",
                 "DOMAIN or PROBLEM can't be read: ':init'", id="no init"),
    pytest.param([DOMAIN, "/dev/stdin"],
                 b"(define (problem p) (:objects a) (:init (p a)) (:goal (not (room a))))",
                 "not in preconditions and goals isn't supported, only STRIPS and types",
                 id="a goal with not"),
    pytest.param([PROBLEM, DOMAIN], b"", f"{PROBLEM}: not a domain in PDDL", id="swapped"),
    pytest.param([DOMAIN, DOMAIN], b"", f"{DOMAIN}: not a problem in PDDL", id="two domains"),
    pytest.param([DOMAIN, "/dev/null"], b"", "/dev/null: not a problem in PDDL", id="nothing")])
def test_plan_refuses_a_problem(words: Sequence[str], given: bytes, cause: str,
                                tmp_path: Path) -> None:
    want_refused("planning/plan.py", [*words, "3"], cause, tmp_path, given)
