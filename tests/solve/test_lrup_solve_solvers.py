"""Runs lrup-solve --solver with common solvers, and with misbehaving scripts.

CaDiCaL, CryptoMiniSat and PicoSAT, if they are on the PATH, and the example solver run alone,
together and beside engines, on known formulas and random ones, in one round and in many. A solver
that dies, lies, writes nonsense or hangs is lost: alone, it gives no verdict, and it doesn't keep a
good solver from answering. No process of a command outlives the run."""
import os
import random
import re
import shlex
import shutil
import signal
from pathlib import Path
from typing import Dict, List, Mapping, Sequence, Tuple

import pytest

from harness import (FOUR, LIMIT, SOLVER, SUPPORT, compiled, dimacs, example, executable, generated,
                     named, needs, run, until, written)
from lrat import lrat_fault
from proof_forms import read_formula
from solving import (SOLVE, Answer, check_again, children_of, marked, none_left, of_process,
                     processes_of, random_formula, solve, started_run, want_answer)

pytestmark = pytest.mark.usefixtures("solve_for_tests")
CADICAL, AS_TEXT = "cadical -q %formula %proof", "cadical -q --no-binary %formula %proof"
CRYPTOMINISAT = "cryptominisat5 --verb 0 %formula %proof"
PICOSAT = "picosat %formula -R %proof"
EARLY = ["--elimint=10", "--probeint=10", "--subsumeint=10", "--reduceint=20"]
COMMANDS = [[CADICAL], [AS_TEXT], [CRYPTOMINISAT], [PICOSAT], [CADICAL, CRYPTOMINISAT, PICOSAT],
            [CADICAL, CADICAL + " --seed=2", AS_TEXT + " --seed=3"]]
FORMULAS = [("four clauses", FOUR, 20), ("no clauses", "p cnf 3 0\n", 10),
            ("nothing", "p cnf 0 0\n", 10), ("an empty clause", "p cnf 2 2\n1 2 0\n0\n", 20),
            ("the empty clause alone", "p cnf 0 1\n0\n", 20),
            ("units", "p cnf 2 3\n1 0\n-1 2 0\n-2 0\n", 20), ("one unit", "p cnf 3 1\n-3 0\n", 10),
            ("a form that isn't clear",
             dimacs(40, [[39, 40], [-39, 40], [39, -40], [-39, -40]]), 20),
            ("tautologies", "p cnf 3 4\n1 -1 0\n2 2 3 0\n-2 3 3 0\n-3 -3 0\n", 20)]
LARGER = [("bmc.cnf", 20), ("random 150 1", 20), ("pigeons 7", 20), ("random 120 7 3.6", 10)]
MANY_ROUNDS = {"FIRST_WORDS": 4000, "SAME_WORDS": 1}


def by(commands: Sequence[str]) -> List[str]:
    for name in ("cadical", "cryptominisat5", "picosat"):
        if any(name in command.split() for command in commands):
            needs(name)
    return [word for command in commands for word in ("--solver", command)]


def example_solver(work: Path) -> str:
    """The command of the example solver, which writes LRUP text with hints."""
    program = shutil.copy(SOLVER, work / "example solver")
    return f"{shlex.quote(str(program))} %formula %proof"


def given(words_or_name: str, work: Path) -> Path:
    return (example(words_or_name) if words_or_name.endswith(".cnf")
            else generated(words_or_name, work))


# Answers.


each_command = pytest.mark.parametrize("commands", COMMANDS, ids=" and ".join)
alone_and_beside_engines = pytest.mark.parametrize("words", named([("alone", []),
                                                                   ("engines", ["-j", "2"])]))


@each_command
@alone_and_beside_engines
@pytest.mark.parametrize("text, status", named(FORMULAS))
def test_small_formulas(text: str, status: int, commands: List[str], words: List[str],
                        tmp_path: Path) -> None:
    formula = written(text, tmp_path)
    want_answer(solve([*words, *by(commands), formula]), status, formula)


def want_answer_of(name: str, status: int, commands: List[str], words: List[str],
                   work: Path) -> None:
    formula = given(name, work)
    answer = solve([*words, *by(commands), formula])
    want_answer(answer, status, formula)
    assert answer.lost() == []


@each_command
@alone_and_beside_engines
@pytest.mark.parametrize("name, status", LARGER)
def test_larger_formulas(name: str, status: int, commands: List[str], words: List[str],
                         tmp_path: Path) -> None:
    want_answer_of(name, status, commands, words, tmp_path)


@pytest.mark.parametrize("name, status", LARGER)
def test_the_example_solver(name: str, status: int, tmp_path: Path) -> None:
    want_answer_of(name, status, [example_solver(tmp_path)], [], tmp_path)


def want_rounds(name: str, commands: List[str], words: List[str], work: Path) -> None:
    """Rows so small that a formula takes many rounds; the record has them all."""
    formula, kept = given(name, work), work / "kept"
    answer = solve(["-v", "--proofs", kept, *words, *by(commands), formula], tested=MANY_ROUNDS)
    want_answer(answer, 20)
    assert answer.lost() == []
    saved = sum(line.startswith("round ") for line in answer.comments)
    assert saved >= 2, answer.out
    check_again(kept)


@each_command
def test_rounds(commands: List[str], tmp_path: Path) -> None:
    want_rounds("random 150 1", commands, [], tmp_path)


def test_rounds_of_the_example_solver(tmp_path: Path) -> None:
    want_rounds("random 150 1", [example_solver(tmp_path)], [], tmp_path)


def test_rounds_beside_engines(tmp_path: Path) -> None:
    want_rounds("random 170 4", [CADICAL, CRYPTOMINISAT], ["-j", "2"], tmp_path)


# The engine may refute the formula before the solver's proof has 100 lines.
@pytest.mark.flaky(reruns=2)
@pytest.mark.parametrize("form", ["DRAT", "DRUP", "FRAT", "LRAT", "PicoSAT"])
def test_a_proof_that_begins_late(form: str, tmp_path: Path) -> None:
    """The proof begins after some rounds, while the engine is still running. LRAT names the
    formula's clauses, in order."""
    formula = given("random 220 5", tmp_path)
    commands = {"DRAT": CADICAL, "DRUP": AS_TEXT, "FRAT": CRYPTOMINISAT, "PicoSAT": PICOSAT}
    if form == "LRAT":
        commands[form] = with_gaps(formula, tmp_path)
    begins = f"until [ -e {tmp_path}/kept/round-4.sizes ]; do sleep 0.01; done; {commands[form]}"
    answer = solve(["-v", "-j", "1", "--proofs", tmp_path / "kept", *by([begins]), formula],
                   tested={"FIRST_WORDS": 20000, "SAME_WORDS": 1, "SLICE": 100})
    want_answer(answer, 20)
    lines = re.findall(r"^c solver 2: .* ([\d,]+) lines?, ", answer.out, re.M)
    rounds = sum(line.startswith("round ") for line in answer.comments)
    assert answer.lost() == []
    assert rounds > 3, answer.out[-3000:]
    assert [int(count.replace(",", "")) > 100 for count in lines] == [True], answer.out[-3000:]


def with_gaps(formula: Path, work: Path) -> str:
    """A solver writes LRAT, and leaves out two identities after each clause."""
    want_answer(solve(["--proofs", work / "exact", *by_filters(1, CADICAL), formula],
                      tested={"FIRST_WORDS": 1 << 24}), 20)
    lines = (work / "exact" / "round-1.stream-1").read_text().splitlines()
    first = int(lines[0].split()[0])
    gaps = {str(first + number): str(first + 3 * number) for number in range(len(lines))}
    text = "".join(" ".join(renamed(line.split(), gaps)) + "\n" for line in lines)
    return f"cat {written(text, work, 'proof')} > %proof; exit 20 # %formula"


def test_identities_are_left_out(tmp_path: Path) -> None:
    formula = given("random 150 1", tmp_path)
    want_answer(solve([*by([with_gaps(formula, tmp_path)]), formula]), 20)


# The engines may be done before each has given enough away.
@pytest.mark.flaky(reruns=2)
def test_a_small_outbox(tmp_path: Path) -> None:
    """Engines beside a solver, which reads no outbox: more clauses go through a small outbox than
    it holds at once; each clause has three words or more. The proof is longer than what a pipe
    holds, so that engines don't get ahead of their filters, which are slow in a build for tests."""
    answer = solve(["-v", "-j", "2", *by(["sleep 1000 # %formula %proof"]),
                    given("random 235 3", tmp_path)],
                   tested={"OUTBOX": 240, "SLICE": 100})
    want_answer(answer, 20)
    given_away = [int(found.replace(",", ""))
                  for found in re.findall(r"([\d,]+) given away", answer.out)]
    assert min(given_away[:2]) > 240 // 3, answer.out[-3000:]


def renamed(words: List[str], names: Mapping[str, str]) -> List[str]:
    """Renumbers an addition or a deletion; the literals don't change."""
    end = words.index("0") if words[1] != "d" else 1
    return [names.get(words[0], words[0]), *words[1:end + 1],
            *(names.get(word, word) for word in words[end + 1:])]


def early(seed: int) -> str:
    """The options for early inprocessing that this CaDiCaL has."""
    has = run(["cadical", "--help"]).out if shutil.which("cadical") else ""
    options = [option for option in EARLY if option.split("=")[0] + "=" in has]
    return " ".join(["cadical -q", *options, f"--seed={seed} %formula %proof"])


@pytest.mark.seeds(60)
def test_random(seed: int, tmp_path: Path) -> None:
    numbers = random.Random(f"{seed} solvers")
    formula, kept = written(random_formula(seed), tmp_path), tmp_path / "kept"
    commands = [early(seed), AS_TEXT, CRYPTOMINISAT, CRYPTOMINISAT + f" --random {seed}",
                PICOSAT + f" -s {seed}"]
    chosen = numbers.sample(commands, numbers.randint(1, 3))
    words = ["-j", "2"] * numbers.randint(0, 1) + ["--proofs", kept] * (seed % 5 == 0)
    tested = {"SLICE": 50, "FIRST_WORDS": numbers.choice((2000, 1 << 20)),
              "WINDOW": numbers.choice((1, 7, 1000))}
    answer = solve(["-v", "--memory", "64M", *words, *by(chosen), formula], tested=tested)
    assert answer.lost() == []
    want_answer(answer, answer.status if answer.status in (10, 20) else 20, formula)
    if seed % 5 == 0 and answer.status == 20:
        check_again(kept)


def test_names(tmp_path: Path) -> None:
    """The formula's name is one word for the shell, quoted in any way; standard input is a file for
    the solver."""
    for name in ("it's $a \"formula\"\nof `two` lines", "x$(touch $MADE).cnf", "x`touch $MADE`",
                 "x; touch $MADE; \\", "%proof %formula", "a%proof.cnf", "größe.cnf"):
        formula, made = shutil.copy(example("bmc.cnf"), tmp_path / name), tmp_path / "made"
        for command in (CADICAL, 'cadical -q "%formula" "%proof"', "cadical -q '%formula' %proof",
                        "sh -c 'cadical -q %formula %proof'",
                        "eval 'cadical -q \"%formula\" %proof'"):
            want_answer(solve([*by([command]), formula], env_more={"MADE": str(made)}), 20)
        assert not made.exists(), name
    for word in ("-", "/dev/stdin"):
        want_answer(
            solve([*by([CADICAL, AS_TEXT]), word], given=example("bmc.cnf").read_text()), 20)
    want_answer(solve([*by([CADICAL]), "--proofs", tmp_path / "kept"],
                      given=example("bmc.cnf").read_text()), 20)
    check_again(tmp_path / "kept")


def test_a_formula_is_sealed(tmp_path: Path) -> None:
    """If a formula comes from a pipe, a solver can't write to its copy, and so can't have a changed
    copy refuted."""
    text = generated("random 120 7 3.6", tmp_path).read_text()
    writing = ("(printf 'p cnf 1 2\\n1 0\\n-1 0\\n' > %formula; printf '1 0' 1<> %formula) "
               "2> /dev/null; " + CADICAL)
    answer = solve([*by([writing]), "-"], given=text)
    want_answer(answer, 10, tmp_path / "formula.cnf")


# Solvers that misbehave.

UNFOUNDED = "it says 'satisfiable', but gives no assignment in lines v"
MODEL = "echo s SATISFIABLE; echo v {}; exit 10"
# A command, and the cause that is reported if it is the only solver.
NOTHING = [("exit 1 # %formula %proof", "the solver ended with status 1"),
           ("exit 127 # %formula %proof", "the solver ended with status 127: command not found"),
           ("kill -9 $$ # %formula %proof", "the solver ended by a signal: Killed"),
           ("kill -PIPE $$ # %formula %proof", "the solver ended by a signal: Broken pipe"),
           ("no-such-solver %formula %proof", "the solver ended with status 127: "),
           ("exec > /dev/null < /dev/null; exit 1 # %formula %proof",
            "the solver ended with status 1"),
           ("(echo one; echo; echo last words; echo) >&2; exit 2 # %formula %proof",
            "the solver ended with status 2: last words"),
           ("printf 'no end\\033' >&2; exit 2 # %formula %proof",
            "the solver ended with status 2: no end?"),
           ("yes 1 | head -c 1000000 | tr -d '\\n' >&2; exit 2 # %formula %proof",
            "the solver ended with status 2: 11111")]
WRONG = [
    ("exit 0 # %formula %proof", "the solver ended with status 0"),
    ("exit 20 # %formula %proof", "its filter stopped: the proof ends without the empty clause"),
    ("echo s UNSATISFIABLE # %formula %proof",
     "its filter stopped: the proof ends without the empty clause"),
    ("echo s SATISFIABLE; exit 20 # %formula %proof", "the solver ended with status 20"),
    ("echo s UNSATISFIABLE; exit 10 # %formula %proof", "the solver ended with status 10"),
    ("echo s UNSATISFIABLE; kill -ABRT $$ # %formula %proof", "the solver ended by a signal: "
     "Aborted; its filter stopped: the proof ends without the empty clause"),
    ("exit 10 # %formula %proof", UNFOUNDED),
    ("echo s SATISFIABLE; exit 10 # %formula %proof", UNFOUNDED),
    ("echo s SATISFIABLE # %formula %proof", UNFOUNDED),
    (MODEL.format("x -") + " # %formula %proof", UNFOUNDED),
    (MODEL.format("1 -2 3 0") + " # %formula %proof", "its assignment doesn't satisfy the formula"),
    (MODEL.format("0") + " # %formula %proof", "its assignment doesn't satisfy the formula"),
    (MODEL.format("99999999999999999999 x -0 1e5 0") + " # %formula %proof",
     "its assignment doesn't satisfy the formula"),
    (MODEL.format(f"-{1 << 63} {1 << 63} -{(1 << 64) + 1} 0") + " # %formula %proof",
     "its assignment doesn't satisfy the formula"),
    ("head -c 300000 /dev/urandom > %proof # %formula", "its filter stopped: "),
    ("cat %formula > %proof", "its filter stopped: "),
    ("yes '1 0' > %proof # %formula",
     "its filter stopped: line 1: no conflict by unit propagation"),
    ("yes > %proof # %formula", "its filter stopped: line 1: "),
    ("cat /dev/zero > %proof # %formula",
     "its filter stopped: line 1: a line of more than 268435456 bytes"),
    ("echo 0 > %proof # %formula", "its filter stopped: line 1: no conflict by unit propagation"),
    ("printf a > %proof # %formula", "its filter stopped: "),
    ("echo '1 i 1 2 0' > %proof # %formula", "its filter stopped: line 1: an import"),
    ("yes s UNSATISFIABLE | head -n 100000; yes v 1 | head -n 100000; exit 3 # %formula %proof",
     "the solver ended with status 3; its filter stopped: ")]
STANDING = ["sleep 1000 # %formula %proof", "sleep 1000 > %proof # %formula",
            "yes # %formula %proof", "cat %formula; sleep 1000 # %proof",
            "trap '' TERM INT HUP; while :; do sleep 1; done # %formula %proof",
            "setsid sleep 1000 & wait # %formula %proof"]


@pytest.mark.parametrize("command, cause", WRONG)
def test_a_wrong_solver(command: str, cause: str, tmp_path: Path) -> None:
    """Alone, a wrong solver gives a reason, not a verdict; it doesn't keep a good solver from
    answering."""
    formula = given("random 120 5", tmp_path)
    answer = solve(["--time", "60", *by([command]), formula])
    want_answer(answer, 0)
    assert answer.comments[0].startswith("solver 1 is lost: " + cause), answer.out
    assert answer.comments[1] == "no engine is left"
    beside_others(command, formula)


@pytest.mark.parametrize("command, cause", NOTHING)
def test_nothing_runs(command: str, cause: str, tmp_path: Path) -> None:
    """If the only solver exits as soon as it is started, that is an error, not an answer."""
    formula = given("random 120 5", tmp_path)
    answer = solve(by([command]) + [formula])
    said = f"lrup-solve: nothing could run: {cause}"
    assert (answer.answers, answer.status) == ([], 1), answer.said
    assert answer.said.count("\n") == 1
    assert answer.said.startswith(said)
    assert answer.comments[0].startswith("solver 1 is lost: " + cause), answer.out
    refused = solve([*by([command]), written("p cnf 1 1\n", tmp_path, "bad")])
    assert refused.status == 1, refused.said
    assert "too few clauses" in refused.said
    beside_others(command, formula)


def beside_others(command: str, formula: Path) -> None:
    want_answer(solve([*by([command, CADICAL]), formula]), 20)
    want_answer(solve(["-j", "2", *by([command]), formula]), 20)


def test_a_missing_solver(tmp_path: Path) -> None:
    """A missing solver beside a good one: the loss is reported, and the summary counts the
    remaining solvers."""
    answer = solve([*by(["sleep 1; " + CADICAL, "no-such-solver %formula %proof"]),
                    given("random 120 5", tmp_path)])
    want_answer(answer, 20)
    said = "solver 2 is lost: the solver ended with status 127: "
    assert answer.comments[0].startswith(said), answer.out
    assert ", 1 of 2 engines, " in answer.comments[-1], answer.out


def test_after_an_assignment(tmp_path: Path) -> None:
    """A wrong assignment is noticed, and the other solvers continue; a right one counts, whichever
    solver has it. Variables that an assignment leaves out are false."""
    formula = written("p cnf 3 3\n1 2 0\n-1 2 0\n-3 1 0\n", tmp_path)
    want_answer(solve(by(["echo s SATISFIABLE; echo v 2; echo v 0; exit 10 # %formula %proof"])
                      + [formula]), 10, formula)
    want_answer(solve(by(["echo s SATISFIABLE; echo v 2 7 -9 0 # %formula %proof"]) + [formula]),
                10, formula)
    long = ("printf 's SATISFIABLE\\nv'; yes ' 2' | head -n 100000 | tr -d '\\n'; echo ' 0'; exit "
            "10 # %formula %proof")
    want_answer(solve([*by([long]), formula]), 10, formula)
    want_answer(
        solve([*by([MODEL.format("-2 0") + " # %formula %proof", CADICAL]), formula]), 10, formula)


@pytest.mark.parametrize("command", STANDING)
def test_a_silent_solver(command: str, tmp_path: Path) -> None:
    """A solver that neither reads nor answers until the run ends. Alone, it uses up the time;
    next to a good solver, it doesn't keep that one from answering. The silent one is ended, with
    its children."""
    mark, formula = marked(tmp_path), given("random 120 5", tmp_path)
    answer = solve(["--time", "1", *by([command]), formula])
    assert answer.answers == ["s UNKNOWN"]
    assert answer.comments[0] == "time is up"
    assert answer.status == 0
    none_left(mark)
    want_answer(solve([*by([command, CADICAL]), formula]), 20)
    none_left(mark)


def test_background_processes(tmp_path: Path) -> None:
    """Background processes of a command delay nobody, and are ended."""
    mark = marked(tmp_path)
    want_answer(solve([*by(["sleep 1000 & " + CADICAL]), example("bmc.cnf")]), 20)
    none_left(mark)


def test_a_group_is_signalled_in_time(tmp_path: Path) -> None:
    """The solver's process group is signalled before anybody waits for the group's leader, whose id
    is the group's only as long as it isn't waited for."""
    mark = tmp_path / "mark"
    shim = compiled(tmp_path / "late.so", [SUPPORT / "signal_late.c"], "-std=gnu11", "-O2",
                    "-shared", "-fPIC")
    engines = executable(f"export LD_PRELOAD={shim} MARK={mark}\n"
                         f"exec {SOLVE.with_name('lrup-engines')} \"$@\"", tmp_path, "engines")
    solver = "sleep 0.1; exit 0 # %formula %proof"
    answer = solve(["--engines", engines, "--solver", solver, example("bmc.cnf")])
    assert answer.answers == ["s UNKNOWN"]
    assert not mark.exists()


@pytest.mark.parametrize("number", [signal.SIGTERM, signal.SIGKILL])
@pytest.mark.parametrize("whom", ["first", "engine 1", "cadical"])
def test_killed(number: signal.Signals, whom: str, tmp_path: Path) -> None:
    """The first process or an engine's process is killed: no process of the command is left. The
    formula is too hard to be solved meanwhile, and the filter has written lines: a solver that ends
    before that couldn't run."""
    mark, words = marked(tmp_path), by(["sleep 1000 & " + CADICAL])
    with started_run([*words, given("pigeons 11", tmp_path)]) as running:
        at_work: Dict[str, int] = {}

        def has_lines() -> bool:
            at_work.update({of_process(found, "comm").strip(): found
                            for found in processes_of(mark)})
            written_by = of_process(at_work.get("filter 1", 0), "io")
            return "cadical" in at_work and bool(re.search(r"^wchar: \d{4}", written_by, re.M))

        until("the filter has written lines", has_lines)
        os.kill(running.pid if whom == "first" else at_work[whom], number)
        out = running.communicate(timeout=LIMIT)[0]
        none_left(mark)
    if whom != "first":
        assert "solver 1 is lost: " in out
        assert out.endswith("s UNKNOWN\n")
    elif number != signal.SIGKILL:
        assert out.endswith("s UNKNOWN\n")
        assert running.returncode == -number


def test_a_solver_is_stopped_with_engines(tmp_path: Path) -> None:
    """A solver is stopped and continued when engines are, for instance while another engine's
    filter catches up."""
    mark = marked(tmp_path)
    with started_run([*by([CADICAL]), given("pigeons 11", tmp_path)]) as running:
        found: Dict[str, int] = {}

        def all_there() -> bool:
            found.update({of_process(one, "comm").strip(): one for one in processes_of(mark)})
            return {"cadical", "engine 1"} <= set(found)

        until("the solver is there", all_there)
        assert of_process(found["cadical"], "oom_score_adj") == "1000\n"

        def state() -> str:
            return of_process(found["cadical"], "stat").rsplit(")", 1)[-1].split()[0]

        os.kill(found["engine 1"], signal.SIGTSTP)
        until("the solver is stopped", lambda: state() == "T")
        os.kill(found["engine 1"], signal.SIGCONT)
        until("the solver continues", lambda: state() != "T")
        os.kill(found["engine 1"], signal.SIGTSTP)
        until("the solver is stopped again", lambda: state() == "T")
        running.terminate()
        running.communicate(timeout=LIMIT)
    none_left(mark)


# Several filters of a single solver's proof.


FILTERS = (1, 2, 3, 5)


def by_filters(count: int, command: str) -> List[str]:
    return ["--filters", str(count), *by([command])]


def said(answer: Answer) -> Tuple[object, ...]:
    """All that an answer says, except for the summary, which has times."""
    return answer.answers, answer.status, answer.said, answer.comments[:-1]


each_solver = pytest.mark.parametrize("command", [CADICAL, AS_TEXT, CRYPTOMINISAT, PICOSAT])


@each_solver
@pytest.mark.parametrize("filters", FILTERS)
def test_several_filters(filters: int, command: str, tmp_path: Path) -> None:
    for name, text, status in FORMULAS:
        formula = written(text, tmp_path, name)
        answer = solve([*by_filters(filters, command), formula], tested={"WINDOW": 2})
        want_answer(answer, status, formula)
        assert answer.lost() == []


@each_solver
@pytest.mark.parametrize("name, status", LARGER)
def test_several_filters_of_larger_proofs(name: str, status: int, command: str,
                                          tmp_path: Path) -> None:
    formula, outputs = given(name, tmp_path), ["--core", tmp_path / "core", "--lrat",
                                               tmp_path / "lrat"]
    answer = solve([*by_filters(3, command), *outputs, formula], tested={"WINDOW": 100})
    want_answer(answer, status, formula)
    assert answer.lost() == []
    if status == 20:
        assert lrat_fault(read_formula(formula), (tmp_path / "lrat").read_text()) == ""


@pytest.mark.seeds(5)
@each_solver
def test_rounds_of_several_filters(command: str, seed: int, tmp_path: Path) -> None:
    """Each ends a round before the same step. The last round ends in each run at another moment,
    while some filters aren't as far as the one that refutes the formula."""
    formula, kept = given("random 150 1", tmp_path), tmp_path / "kept"
    answer = solve(["-v", "--proofs", kept, *by_filters(3, command), formula],
                   tested={**MANY_ROUNDS, "WINDOW": 7})
    want_answer(answer, 20)
    assert answer.lost() == []
    assert sum(line.startswith("round ") for line in answer.comments) >= 2, answer.out
    check_again(kept)


@pytest.mark.parametrize("command, cause", WRONG)
def test_a_wrong_solver_of_several_filters(command: str, cause: str, tmp_path: Path) -> None:
    """What is said is the same for any number of filters."""
    formula = given("random 120 5", tmp_path)
    answers = [solve(["--time", "60", *by_filters(count, command), formula],
                     tested={"WINDOW": 1}) for count in (1, 3)]
    assert answers[0].comments[0].startswith("solver 1 is lost: " + cause), answers[0].out
    assert "urandom" in command or said(answers[1]) == said(answers[0])


SLOW = """#!/usr/bin/env python3
import subprocess, sys, time
formula, proof, pause = sys.argv[1:]
words = ["cadical", "-q", formula, "/dev/stdout"]
data = subprocess.run(words, stdout=subprocess.PIPE).stdout
with open(proof, "wb", buffering=0) as pipe:
    for k in range(0, len(data), 1000):
        pipe.write(data[k:k + 1000])
        time.sleep(0.002)
        if k // 1000 == len(data) // 2000:
            time.sleep(float(pause))
sys.exit(20)
"""


def slow(work: Path, pause: float) -> str:
    """A solver that writes CaDiCaL's proof in pieces, with a pause in the middle."""
    needs("cadical")
    return f"{executable(SLOW, work, 'slow')} %formula %proof {pause}"


def test_rounds_end_early(tmp_path: Path) -> None:
    """A round ends although its row isn't full, also while the solver writes nothing."""
    formula, kept = given("random 170 4", tmp_path), tmp_path / "kept"
    answer = solve(["-v", "--proofs", kept, "--save-every", "0.2",
                    *by_filters(3, slow(tmp_path, 1)), formula], tested={"WINDOW": 7})
    want_answer(answer, 20)
    assert answer.lost() == []
    assert sum(line.startswith("round ") for line in answer.comments) >= 3, answer.out
    check_again(kept)


@pytest.mark.parametrize("filters", [(3, 3), (3, 1), (1, 3), (2, 5)])
def test_resumed_by_several_filters(filters: Tuple[int, int], tmp_path: Path) -> None:
    """A run is ended, saves its last round, and is resumed with one filter, whatever was asked."""
    mark, formula, kept = marked(tmp_path), given("random 170 4", tmp_path), tmp_path / "kept"
    words = [*by_filters(filters[0], slow(tmp_path, 60)), "--proofs", kept, formula]
    with started_run(words, {"WINDOW": 7}) as running:
        until("there is a stream", lambda: any(path.stat().st_size > 10000
                                               for path in kept.glob("round-1.stream-*")))
        running.terminate()
        out = running.communicate(timeout=LIMIT)[0]
    none_left(mark)
    assert "continues the run" in out, out
    answer = solve(["-v", "--resume", kept, *by_filters(filters[1], CADICAL), formula],
                   tested={"WINDOW": 7, "FIRST_WORDS": 4000})
    want_answer(answer, 20)
    assert "lrupd has read what was saved" in answer.comments, answer.out
    assert any(re.match(r"solver 1: [\d.]+ s, its filter ", line) for line in answer.comments)
    check_again(kept)


@pytest.mark.parametrize("whom", ["filter 1", "filter 2", "filter 3", "copier", "engine 1"])
def test_killed_with_several_filters(whom: str, tmp_path: Path) -> None:
    """If a filter is killed, one filter checks the whole proof. Without the process that copies the
    proof, or the solver's, there is no answer."""
    mark, formula, kept = marked(tmp_path), given("random 170 4", tmp_path), tmp_path / "kept"
    words = ["-v", *by_filters(3, slow(tmp_path, 3)), "--proofs", kept, formula]
    with started_run(words, {"WINDOW": 7}) as running:
        until("there is a stream", lambda: any(path.stat().st_size > 100000
                                               for path in kept.glob("round-1.stream-*")))
        os.kill(children_of(running.pid)[whom], signal.SIGKILL)
        out = running.communicate(timeout=LIMIT)[0]
    none_left(mark)
    if whom.startswith("filter"):
        assert ("c solver 1: a filter ended by a signal: Killed, so one filter checks it, from "
                "its beginning\n") in out, out
        assert out.endswith("s UNSATISFIABLE\n"), out
        assert not [*kept.glob("round-*.stream-2")]
        check_again(kept)
    else:
        what = "the process that copies its proof" if whom == "copier" else "the solver"
        assert f"c solver 1 is lost: {what} ended by a signal: Killed" in out, out
        assert out.endswith("s UNKNOWN\n")


def test_usual_filters(tmp_path: Path) -> None:
    """A single solver's proof has a filter for each core that the solver leaves idle."""
    cores = sorted(os.sched_getaffinity(0))
    formula = given("random 120 5", tmp_path)
    for count in {1, 2, len(cores)}:
        for busy in {0, 1, count}:
            answer = solve(["-v", *by([CADICAL]), formula],
                           tested={"LOAD": 100 * len(cores), "RUNNING": 1 + busy},
                           preexec_fn=lambda: os.sched_setaffinity(0, cores[:count]))
            want_answer(answer, 20)
            filters = max(1, min(16, count - busy - 1))
            its = "filter" if filters == 1 else f"{filters} filters"
            assert re.search(rf"^c solver 1: [\d.]+ s, its {its} ", answer.out, re.M), answer.out
    answer = solve(["-v", "-j", "1", *by([CADICAL]), formula])
    assert re.search(r"^c solver 2: [\d.]+ s, its filter ", answer.out, re.M), answer.out


# Arguments.


NEED = "--solver takes a command with both %formula and %proof, not "
ONLY = "--filters takes a single --solver, and no engines"


@pytest.mark.parametrize("words, cause", [
    (["--solver", "cadical"], NEED + "cadical"),
    (["--solver", ""], "--solver takes a value, not ''"),
    (["--solver=cadical %formula"], NEED + "'cadical %formula'"),
    (["--solver", "cadical %proof"], NEED + "'cadical %proof'"),
    (["--solver", CADICAL, "--assume", "{cube}"],
     "--assume and --solver: a solver doesn't get the assumptions"),
    (["--solver", CADICAL, "-j", "64"], "more than 64 engines, including solvers"),
    (["--solver", CADICAL, "--filters", "0"], "--filters takes 1 to 64, not 0"),
    (["--solver", CADICAL, "--filters", "65"], "--filters takes 1 to 64, not 65"),
    (["--solver", CADICAL, "-j", "1", "--filters", "2"], ONLY),
    (["--solver", CADICAL] * 2 + ["--filters", "2"], ONLY), (["--filters", "2"], ONLY),
    (["--solver", CADICAL] * 65, "more than 64 engines, including solvers")])
def test_refused(words: List[str], cause: str, tmp_path: Path) -> None:
    cube = written("1 0\n", tmp_path, "cube")
    answer = solve([*(word.format(cube=cube) for word in words), example("bmc.cnf")])
    assert (answer.out, answer.said, answer.status) == ("", f"lrup-solve: {cause}\n", 1)


def test_the_summary(tmp_path: Path) -> None:
    """-v shows the command; the summary counts engines and solvers."""
    answer = solve(["-v", "-j", "2", *by([CADICAL]), example("bmc.cnf")])
    want_answer(answer, 20)
    commands = [line for line in answer.comments if line.startswith("solver 3: cadical -q ")
                and "/dev/fd/" in line]
    assert len(commands) == 1, answer.out
    assert ", 3 engines, " in answer.comments[-1], answer.out
