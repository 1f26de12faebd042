"""The formulas that examples' scripts write, compared with other programs' answers on random input.

Problems in SMT-LIB are compared with Z3's solver, lemmas on bit vectors with their values for all
numbers of two bits, and bounded model checking with yosys's own. CaDiCaL solves the formulas, and
the counterexamples that show.awk prints have to be ones. SMT-LIB, circuits and answers that the
scripts refuse are in test_shown.py."""
import importlib.util
import itertools
import os
import random
import re
import sys
from pathlib import Path
from typing import Any, Callable, Dict, List, NamedTuple, Optional, Tuple

import pytest

from harness import EXAMPLES, Ran, lacking, needs, output_of, run, written

SMT, LEMMA = EXAMPLES / "smt" / "smt2cnf.py", EXAMPLES / "lemma" / "lemma.py"
BMC, MITER = EXAMPLES / "fifo" / "bmc.sh", EXAMPLES / "miter" / "miter.sh"
SHOW = EXAMPLES / "show.awk"
PROBLEMS = 50   # of a seed


def shown(formula: Path) -> Optional[Dict[str, str]]:
    """The bits of each name, according to show.awk, in the assignment that CaDiCaL finds; None if
    it finds none."""
    needs("cadical")
    done = run(["cadical", "-q", formula])
    assert done.status in (10, 20), done
    if done.status == 20:
        return None
    shown = output_of(run([SHOW, formula, written(done.out, formula.parent, "answer")]))
    return dict(re.fullmatch(r"(\S+) = \d+'b([01]+)", line).groups()   # type: ignore
                for line in shown.splitlines())


# Problems in SMT-LIB, with words of up to eight bits.

BINARY = ("bvand bvor bvxor bvnand bvnor bvxnor bvadd bvsub bvmul bvudiv bvurem bvsdiv bvsrem "
          "bvsmod bvshl bvlshr bvashr").split()
COMPARISONS = "bvult bvule bvugt bvuge bvslt bvsle bvsgt bvsge = distinct".split()


def word(numbers: random.Random, bits: int, depth: int) -> str:
    """A random term of this many bits."""
    def part(width: int = bits) -> str:
        return word(numbers, width, depth - 1)
    if depth == 0 or numbers.random() < 0.15:
        constant = "#b" + "".join(numbers.choice("01") for _ in range(bits))
        return numbers.choice([f"x{bits}", f"y{bits}", constant])
    kind = numbers.randrange(8)
    if kind < 2 and bits > 1:
        lower = numbers.randrange(1, bits)
        extension = f"(_ {numbers.choice(['zero_extend', 'sign_extend'])} {bits - lower})"
        return (f"(concat {part(lower)} {part(bits - lower)})" if kind
                else f"({extension} {part(lower)})")
    if kind == 2:
        more = numbers.randrange(3)
        low = numbers.randrange(more + 1)
        return f"((_ extract {low + bits - 1} {low}) {part(bits + more)})"
    if kind == 3:
        rotation = numbers.choice(["rotate_left", "rotate_right"])
        return f"((_ {rotation} {numbers.randrange(bits + 2)}) {part()})"
    if kind == 4:
        return f"(ite {truth(numbers, depth - 1)} {part()} {part()})"
    if kind == 5:
        return f"({numbers.choice(['bvnot', 'bvneg'])} {part()})"
    return f"({numbers.choice(BINARY)} {part()} {part()})"


def truth(numbers: random.Random, depth: int) -> str:
    """A random truth value."""
    def part() -> str:
        return truth(numbers, depth - 1)
    if depth == 0 or numbers.random() < 0.1:
        return numbers.choice(["p", "q", "|an [odd] name|", "true", "false"])
    kind = numbers.randrange(6)
    if kind == 0:
        connective = numbers.choice(["and", "or", "xor", "=>", "=", "distinct"])
        return f"({connective} {part()} {part()})"
    if kind == 1:
        return f"(not {part()})"
    if kind == 2:
        return f"(ite {part()} {part()} {part()})"
    bits = numbers.randrange(1, 7)
    return (f"({numbers.choice(COMPARISONS)} {word(numbers, bits, depth - 1)} "
            f"{word(numbers, bits, depth - 1)})")


DECLARED = ("(set-logic QF_BV)\n"
            + "".join(f"(declare-const {name} Bool)\n" for name in ("p", "q", "|an [odd] name|"))
            + "".join(f"(declare-const {name}{bits} (_ BitVec {bits}))\n"
                      for name in "xy" for bits in range(1, 17)))


def problem(numbers: random.Random) -> str:
    return DECLARED + "".join(f"(assert {truth(numbers, numbers.randrange(1, 5))})\n"
                              for _ in range(numbers.randrange(1, 7)))


@pytest.mark.seeds(4)
def test_problems_in_smt_lib(seed: int, tmp_path: Path) -> None:
    """Z3's solver and CaDiCaL agree. The counterexample's values, asserted in the problem, are one
    for Z3, too."""
    try:
        import z3
    except ImportError:
        lacking("there is no module z3")
    found = importlib.util.spec_from_file_location("smt2cnf", SMT)
    assert found and found.loader
    smt2cnf: Any = importlib.util.module_from_spec(found)
    found.loader.exec_module(smt2cnf)
    numbers = random.Random(seed)

    def answer(text: str) -> str:
        solver = z3.Solver()
        solver.add(z3.parse_smt2_string(text))
        return str(solver.check())
    for _ in range(PROBLEMS):
        text = problem(numbers)
        formula = written("\n".join(smt2cnf.formula(text + "(check-sat)\n")) + "\n", tmp_path)
        if not re.search("^c ", formula.read_text(), re.M) and answer(text) == "sat":
            continue    # no word is used: show.awk has nothing to show
        values = shown(formula)
        assert answer(text) == ("unsat" if values is None else "sat"), text
        for name, bits in (values or {}).items():
            name = name.replace("%20", " ").replace("%5B", "[").replace("%5D", "]")
            value = f"#b{bits}" if name[0] in "xy" else "true" if bits == "1" else "false"
            text += f"(assert (= |{name}| {value}))\n"
        assert answer(text) == ("unsat" if values is None else "sat"), text


# Lemmas on numbers of two bits.

Valued = Tuple[str, Callable[[Dict[str, int]], int]]
WIDTH = 2
ALL = (1 << WIDTH) - 1
CONNECTIVES: List[Tuple[str, Callable[[int, int], int]]] = [
    ("&", lambda x, y: x & y), ("|", lambda x, y: x | y), ("^", lambda x, y: x ^ y)]
ON_NUMBERS: List[Tuple[str, Callable[[int, int], int]]] = [
    *CONNECTIVES, ("+", lambda x, y: x + y & ALL), ("-", lambda x, y: x - y & ALL)]
COMPARED: List[Tuple[str, Callable[[int, int], int]]] = [
    ("==", lambda x, y: x == y), ("<", lambda x, y: x < y), ("<=", lambda x, y: x <= y)]
MORE_COMPARED: List[Tuple[str, Callable[[int, int], int]]] = [
    ("!=", lambda x, y: x != y), (">", lambda x, y: x > y), (">=", lambda x, y: x >= y)]
CALLED: List[Tuple[str, Callable[[int, int], int]]] = [
    ("both", lambda x, y: x & y), ("when", lambda x, y: 1 - x | y)]


def joined(operator: str, apply: Callable[[int, int], int], one: Valued, other: Valued) -> Valued:
    (text, value), (text_of_other, value_of_other) = one, other
    words = (f"{operator}({text}, {text_of_other})" if operator.isalpha()
             else f"({text}) {operator} ({text_of_other})")
    return words, lambda names: int(apply(value(names), value_of_other(names)))


def number(numbers: random.Random, depth: int) -> Valued:
    """A random number, and its value if the names have these values."""
    if depth == 0 or numbers.random() < 0.1:
        name, constant = numbers.choice("abcd"), numbers.randrange(ALL + 1)
        return numbers.choice([(name, lambda names: names[name]),
                               (str(constant), lambda names: constant)])
    if numbers.random() < 0.3:
        text, value = number(numbers, depth - 1)
        count = numbers.randrange(4)
        return numbers.choice([(f"~({text})", lambda names: ~value(names) & ALL),
                               (f"({text}) << {count}", lambda names: value(names) << count & ALL),
                               (f"({text}) >> {count}", lambda names: value(names) >> count)])
    return joined(*numbers.choice(ON_NUMBERS), number(numbers, depth - 1),
                  number(numbers, depth - 1))


def statement(numbers: random.Random, depth: int) -> Valued:
    if depth > 1 and numbers.random() < 0.5:
        if numbers.random() < 0.2:
            text, value = statement(numbers, depth - 1)
            return f"~({text})", lambda names: 1 - value(names)
        return joined(*numbers.choice([*CONNECTIVES, *CALLED, COMPARED[0], MORE_COMPARED[0]]),
                      statement(numbers, depth - 1), statement(numbers, depth - 1))
    return joined(*numbers.choice([*COMPARED, *MORE_COMPARED]), number(numbers, depth - 1),
                  number(numbers, depth - 1))


@pytest.mark.seeds(4)
def test_lemmas(seed: int, tmp_path: Path) -> None:
    numbers = random.Random(seed)
    for _ in range(PROBLEMS // 2):
        text, value = statement(numbers, 4)
        done = run([sys.executable, LEMMA, WIDTH, text])
        assert (done.err, done.status) == ("", 0), text
        holds = all(value(dict(zip("abcd", values)))
                    for values in itertools.product(range(ALL + 1), repeat=4))
        if holds or not re.search("^c ", done.out, re.M):
            continue
        found = shown(written(done.out, tmp_path))
        assert found is not None, f"{text} has a counterexample"
        names = {name: int(bits, 2) for name, bits in found.items()}
        assert value({**dict.fromkeys("abcd", 0), **names}) == 0, f"{text} with {names}"


# Circuits.

FIFO = (EXAMPLES / "fifo" / "fifo.v").read_text()
SHIFTED = """module shifted(input clock, input reset, input in, output bad);
  reg [2:0] last;
  reg began = 0;
  always @(posedge clock) begin
    last <= reset ? 0 : {last, in};
    began <= 1;
  end
  assign bad = began && last == 5;
endmodule
"""
# Registers that may hold anything at first, unless the circuit says what they hold.
ENABLED = """module enabled(input clock, input reset, input enable, output bad);
  reg a;
  always @(posedge clock) if (enable) a <= 1;
  assign bad = !a;
endmodule
"""
TWINS = """module twins(input clock, input reset, input enable, input in, output bad);
  reg a, b;
  always @(posedge clock) if (enable) begin a <= in; b <= in; end
  assign bad = a != b;
endmodule
"""
DELAYED = """module delayed(input clock, input reset, output bad);
  reg a, b;
  always @(posedge clock) begin a <= 1; b <= a; end
  assign bad = !b;
endmodule
"""
DELAYED_TWINS = """module delayed_twins(input clock, input reset, input in, output bad);
  reg a, b, differ;
  always @(posedge clock) begin a <= in; b <= in; differ <= a ^ b; end
  assign bad = differ;
endmodule
"""
COMPARED_ENABLES = """module one(input clock, input enable, input in, output reg data);
  always @(posedge clock) if (enable) data <= in;
endmodule
module other(input clock, input enable, input in, output reg data);
  always @(posedge clock) data <= enable ? in : data;
endmodule
module compared(input clock, input reset, input enable, input in, output bad);
  wire a, b;
  one first(clock, enable, in, a);
  other second(clock, enable, in, b);
  assign bad = a != b;
endmodule
"""
CREDITS = """module credits(input clock, input reset, input less, input more, output bad);
  reg [2:0] count;
  always @(posedge clock)
    if (reset) count <= 0;
    else begin
      if (less) count <= count - 1;
      if (more) count <= count + 1;
    end
  assign bad = count == 7;
endmodule
"""
BEGUN = """module begun(input clock, input reset, output bad);
  reg [3:0] count = 0;
  always @(posedge clock) if (reset) count <= 0; else count <= count + 1;
  assign bad = count == 12;
endmodule
"""
TABLE = """module table(input clock, input reset, input [1:0] in, output bad);
  reg [1:0] memory [0:3];
  reg [1:0] at;
  initial begin memory[0] = 1; memory[1] = 2; memory[2] = 1; memory[3] = 2; end
  always @(posedge clock) at <= in;
  assign bad = memory[at] == 3 - FIRST;
endmodule
"""
BEYOND = """module beyond(input clock, input reset, input [1:0] at, input [2:0] in, output bad);
  reg last;
  always @(posedge clock) last <= in[at];
  assign bad = last && at == 3 && in == 0;
endmodule
"""
AROUND = """module inner(input clk, input rst_n, input less, input more, output reg [2:0] count);
  always @(posedge clk)
    if (!rst_n) count <= 0;
    else count <= count + more - less;
endmodule
module around(input clk, input reset, input less, input more, output bad);
  wire [2:0] count;
  inner only(.clk(clk), .rst_n(!reset), .less(less), .more(more), .count(count));
  reg came;
  always @(posedge clk) came <= !reset && (came || less);
  assign bad = count == LAST && !came && !less;
endmodule
"""
CIRCUITS = {"a queue": FIFO, "a queue without a limit": FIFO.replace("push && !full", "push"),
            "a queue without a lower limit": FIFO.replace("pop && !empty", "pop"),
            "a shift register": SHIFTED, "a shift register with 1s":
            SHIFTED.replace("began = 0", "began = 1").replace("last == 5", "last[0]"),
            "a register that only ever gets a 1": ENABLED,
            "two registers with the same input": TWINS,
            "two registers with the same initial value and input":
            TWINS.replace("a, b", "a = 0, b = 0"),
            "a register that gets a 1 a step later": DELAYED,
            "the difference of two registers with the same input": DELAYED_TWINS,
            "two modules with registers without a reset": COMPARED_ENABLES,
            "a counter with two assignments": CREDITS,
            "a counter at a falling edge": CREDITS.replace("posedge", "negedge"),
            "an asynchronous reset": CREDITS.replace("clock)", "clock or posedge reset)"),
            "a counter that begins at 0": BEGUN, "a table": TABLE.replace("FIRST", "0"),
            "a table with 2s": TABLE.replace("FIRST", "1"), "a bit beyond a word's end": BEYOND,
            "a register that nothing assigns": ENABLED.replace("reg a", "reg a = 1").replace(
                "  always @(posedge clock) if (enable) a <= 1;\n", ""),
            "an active-low reset and inputs that are excluded": AROUND.replace("LAST", "2"),
            "a number that excluded inputs would reach": AROUND.replace("LAST", "7")}
EVERY_CIRCUIT = [pytest.param(text, id=name) for name, text in CIRCUITS.items()]


def satisfiable_by_yosys(circuit: Path, depth: int, induction: bool) -> bool:
    """Whether the formula of yosys's own command `sat` is, without any pass that simplifies. What
    is undefined may be 0 or 1."""
    own = circuit.with_name("own.cnf")
    own.unlink(missing_ok=True)
    asked = (f"-prove-skip {depth - 1} " + " ".join(f"-set-at {step} bad 0"
                                                    for step in range(1, depth))
             if induction else "-prove-skip 1 -set-at 1 reset 1")
    script = ("hierarchy -auto-top; proc -norom; async2sync; memory_collect; memory_map -keepdc; "
              "flatten; setundef -undriven -anyseq; techmap; setundef -undriven -anyseq; "
              f"{'setattr -unset init w:*; ' if induction else ''}"
              f"sat -timeout 1 -seq {depth} -prove bad 0 {asked} -dump_cnf {own}")
    done = run(["yosys", "-q", "-f", "verilog", "-p", script, circuit],
               env={**os.environ, "HOME": str(circuit.parent)})
    assert own.exists(), done
    needs("cadical")
    return run(["cadical", "-q", own]).status == 10


def values_of_bmc(circuit: Path, depth: int, induction: bool) -> Optional[Dict[str, str]]:
    """The bits of each wire in each step, in an assignment of the formula of bmc.sh, if it has one.
    Then `bad` is 1 where it was asked for."""
    formula = circuit.with_name("one.cnf")
    done = run([BMC, *["--induction"] * induction, circuit, depth, formula])
    assert done == Ran("", "", 0)
    values = shown(formula)
    if values is not None:
        found = [values[f"bad@{step}"] for step in range(1, depth + 1)]
        assert found == ["0"] * (depth - 1) + ["1"] if induction else "1" in found[1:], values
    return values


@pytest.mark.parametrize("depth, induction", [
    *(pytest.param(depth, False, id=f"{depth} steps") for depth in (2, 3, 4, 8)),
    *(pytest.param(depth, True, id=f"{depth} steps, --induction") for depth in (2, 3))])
@pytest.mark.parametrize("text", EVERY_CIRCUIT)
def test_bounded_model_checking(text: str, depth: int, induction: bool, tmp_path: Path) -> None:
    """The formula of bmc.sh is satisfiable if the one of yosys's own command `sat` is. With
    --induction, registers may hold anything at first."""
    needs("yosys")
    circuit = written(text, tmp_path, "one.v")
    values = values_of_bmc(circuit, depth, induction)
    assert (values is not None) == satisfiable_by_yosys(circuit, depth, induction)


# Step by step, and SystemVerilog.


def first_step(circuit: Path, depth: int) -> Optional[int]:
    """The step of the first cube of bmc.sh --to that can be satisfied."""
    needs("cadical")
    formula, cubes = circuit.with_name("one.cnf"), circuit.with_name("one cubes")
    assert run([BMC, "--to", depth, circuit, formula, cubes]) == Ran("", "", 0)
    lines = cubes.read_text().splitlines()
    assert lines[::2] == [f"c step {step}" for step in range(2, depth + 1)]
    header, *clauses = formula.read_text().splitlines()
    variables, count = map(int, header.split()[2:])
    for step, line in enumerate(lines[1::2], 2):
        literal = line.replace("a ", "", 1)
        one = written("\n".join([f"p cnf {variables} {count + 1}", literal, *clauses, ""]),
                      circuit.parent, "step.cnf")
        if run(["cadical", "-q", "-n", one]).status == 10:
            return step
    return None


@pytest.mark.seeds(6)
def test_the_first_step_of_random_circuits(seed: int, tmp_path: Path) -> None:
    """It is the first depth at which a search through all states finds a `bad`."""
    needs("yosys")
    circuit = random_circuit(random.Random(seed))
    wanted = next((depth for depth in range(2, 5) if can_be_bad(circuit, depth, False)), None)
    assert first_step(written(circuit.text, tmp_path, "one.v"), 4) == wanted, circuit.text


COUNTER = """module counter(input clock, input reset, input logic in, output logic [1:0] bad);
  logic [2:0] count;
  always_ff @(posedge clock) if (reset) count <= 0; else count <= count + in;
  ASKED
endmodule
"""


SYSTEM_VERILOG = {
    "an assert": ("always_comb assert (count != 3); assign bad = 0;", False, 5),
    "an assert at the clock": (
        "always @(posedge clock) if (!reset) named: assert (count < 3); assign bad = 0;", False, 6),
    "two asserts": ("always_comb begin assert (count < 4); assert (count != 2); end "
                    "assign bad = 0;", False, 4),
    "the second bit of bad": ("assign bad = {count == 3, 1'b0};", False, 5),
    "an assert beside bad": ("always_comb assert (count != 4); assign bad = {1'b0, count == 2};",
                             False, 4),
    "an assume": ("always_comb assume (!in); assign bad = count;", False, None),
    "an assume that can't hold later": (
        "always_comb assume (in && count < 4); assign bad = count == 3;", False, 5),
    "an assume that can't hold so long": (
        "always_comb assume (in && count < 2); assign bad = count == 3;", False, None),
    "an assume at the clock": (
        "always @(posedge clock) if (!reset) assume (!in); assign bad = count == 3;", False, None),
    "a cover": ("always_comb cover (count == 3); assign bad = 0;", False, None),
    "FORMAL": ("`ifdef FORMAL\n  assign bad = 1;\n`else\n  assign bad = 0;\n`endif", False, 2),
    "induction": ("always_comb assert (count != 3); assign bad = 0;", True, 2),
    "induction with an assume": ("always_comb begin assume (!in && !reset); assert (count != 3); "
                                 "end assign bad = 0;", True, None),
    "induction with two bits": ("assign bad = {count == 3, in};", True, 2),
    "induction with two bits and an assume": (
        "always_comb assume (!in && !reset); assign bad = {count == 3, in};", True, None)}


@pytest.mark.parametrize("asked, induction, wanted", [
    pytest.param(*row, id=name) for name, row in SYSTEM_VERILOG.items()])
def test_system_verilog(asked: str, induction: bool, wanted: Optional[int], tmp_path: Path) -> None:
    needs("yosys")
    circuit = written(COUNTER.replace("ASKED", asked), tmp_path / "a b", "one.sv")
    if not induction:
        assert first_step(circuit, 8) == wanted
    formula = circuit.with_name("own.cnf")
    assert run([BMC, *["--induction"] * induction, circuit, 2 if induction else 8, formula]
               ) == Ran("", "", 0)
    assert (shown(formula) is not None) == (wanted is not None)


def test_names_of_asserts(tmp_path: Path) -> None:
    """An assert's name is its label, or its place in the file."""
    needs("yosys")
    text = COUNTER.replace("ASKED",
                           "always_comb begin assert (count < 3); one: assert (!count); end")
    (tmp_path / "folder").mkdir()
    formula = tmp_path / "formula"
    assert run([BMC, written(text, tmp_path / "folder", "one.sv"), 5, formula]) == Ran("", "", 0)
    names = set(re.findall(r"^c (\S+fails)@5 ", formula.read_text(), re.M))
    assert len(names) == 2 and "one.fails" in names
    assert any(re.fullmatch(r"one\.sv:4\.\S+\.fails", name) for name in names), names


# Circuits that the scripts refuse, and what is known of a formula.

TWO_CLOCKS = """module clocks(input clock, input another, input reset, input in, output bad);
  reg a, b, late;
  always @(posedge clock) begin a <= in; b <= a; end
  always @(posedge another) late <= a;
  assign bad = late != b;
endmodule
"""
DRIVEN = """module driven(input clock, input reset, input a, input b, output bad);
  wire w;
  assign w = a;
  assign w = b;
  assign bad = a != b;
endmodule
"""
DRIVEN_BY_BLOCKS = """module driven(input clock, input reset, input a, input b, output bad);
  reg last, other;
  always @(posedge clock) last <= a;
  always @(posedge clock) last <= b;
  always @(posedge clock) other <= a;
  assign bad = last != other;
endmodule
"""
INPUT_OF_A_PART = """module part(input a, output b);
  assign a = 0;
  assign b = a;
endmodule
module driven(input clock, input reset, input a, output bad);
  part only(a, b);
  assign bad = a;
endmodule
"""
LOOP = """module loop(input clock, input reset, input a, output bad);
  wire w;
  assign w = !(w && a);
  assign bad = w;
endmodule
"""
CLOCKS, DRIVERS = "Assertion failed: selection ", "multiple conflicting drivers for "
REFUSED = {
    "two clocks": (TWO_CLOCKS, CLOCKS + "contains 2 elements"),
    "both edges of a clock": (TWO_CLOCKS.replace("posedge another", "negedge clock"),
                              CLOCKS + "is not empty: @clocks_with_both_edges"),
    "a gated clock": (TWO_CLOCKS.replace("edge clock", "edge gated").replace("edge another",
                      "edge gated").replace("reg a", "wire gated = clock && reset; reg a"),
                      CLOCKS + "is not empty: @clocks_that_are_no_inputs"),
    "two clocks in a word": (TWO_CLOCKS.replace("clock,", "[1:0] clock,").replace(
        "edge clock", "edge clock[0]").replace("edge another", "edge clock[1]"),
                             CLOCKS + "is not empty: @clocks_of_several_bits"),
    "two inputs at a wire": (DRIVEN, DRIVERS),
    "an input and a constant at a wire": (DRIVEN.replace("w = b", "w = 0"), DRIVERS),
    "two constants at a wire": (DRIVEN.replace("w = a", "w = 1").replace("w = b", "w = 0"),
                                DRIVERS),
    "a register with two blocks": (DRIVEN_BY_BLOCKS, DRIVERS),
    "a part that drives its input": (INPUT_OF_A_PART, DRIVERS),
    "a loop": (LOOP, "found logic loop"),
    "a loop of one gate": (LOOP.replace("(w && a)", "w"), "found logic loop"),
    "no Verilog": ("module\n", "syntax error"),
    "no output": (LOOP.replace("bad", "good").replace("w && a", "a"), "no output bad")}
ONE = """module one(input a, input b, output c);
  assign c = a;
endmodule
"""


def check_refused(script: Path, words: List[object], text: str, said: str, folder: Path) -> None:
    """Nothing is left in the folder, not even an older formula."""
    circuit, formula = written(text, folder, "one.v"), folder / "one.cnf"
    for old in ("", "p cnf 1 2\n1 0\n-1 0\n"):
        if old:
            formula.write_text(old)
        done = run([script, circuit, *words, formula])
        assert (done.out, done.status) == ("", 1)
        assert said in done.err
        assert list(folder.iterdir()) == [circuit]


@pytest.mark.parametrize("text, said", [pytest.param(*row, id=name)
                                        for name, row in REFUSED.items()])
def test_bmc_refuses_a_circuit(text: str, said: str, tmp_path: Path) -> None:
    needs("yosys")
    check_refused(BMC, [3], text, said, tmp_path)


@pytest.mark.parametrize("text, said", [
    pytest.param("  wire w;\n  assign w = a;\n  assign w = b;\n  assign c = a;\n", DRIVERS,
                 id="two inputs at a wire"),
    pytest.param("  wire w;\n  assign w = !w;\n  assign c = a;\n", "found logic loop",
                 id="a loop"),
    pytest.param("  reg last;\n  always @(posedge b) last <= 1;\n  assign c = a & last;\n",
                 "a circuit with registers", id="a register that only ever gets a 1"),
    pytest.param("  reg last;\n  always @* if (b) last = a;\n  assign c = last;\n", "_DLATCH_",
                 id="a latch")])
def test_miter_refuses_a_circuit(text: str, said: str, tmp_path: Path) -> None:
    needs("yosys")
    check_refused(MITER, [], ONE + ONE.replace("one", "other").replace("  assign c = a;\n", text),
                  said, tmp_path)


def test_a_register_that_nothing_reads_has_a_name(tmp_path: Path) -> None:
    needs("yosys")
    text = CREDITS.replace("bad = count == 7", "bad = count == 1").replace(
        "  reg", "  reg seen;\n  always @(posedge clock) if (more) seen <= 1;\n  reg")
    values = values_of_bmc(written(text, tmp_path, "one.v"), 3, induction=False)
    assert values is not None
    assert {f"seen@{step}" for step in (1, 2, 3)} <= set(values)


TIED = CREDITS.replace("output bad);", "output bad);\n  wire [7:0] zero = 8'h00;\n  wire one = 1;")


def test_a_core_has_no_tied_wires(tmp_path: Path) -> None:
    """Not even one with the clause for constants."""
    needs("yosys")
    circuit = written(TIED.replace("== 7", "== 1"), tmp_path, "one.v")
    formula = tmp_path / "one.cnf"
    values = values_of_bmc(circuit, 3, induction=False)
    assert values is not None
    assert (values["zero@2"], values["one@2"]) == ("00000000", "1")
    lines = formula.read_text().splitlines(keepends=True)
    tied = next(abs(int(line.split()[2])) for line in lines if line.startswith("c one@2 "))
    assert [line for line in lines if line[0] not in "cp" and str(tied) in
            line.replace("-", "").split()[:-1]] == [f"-{tied} 0\n"]
    core = written("".join(line for line in lines if line != f"-{tied} 0\n"), tmp_path, "core")
    shown = output_of(run([SHOW, formula, core])).split()
    assert {"count@2", "less@1"} <= set(shown)
    assert not {name.partition("@")[0] for name in shown} & {"zero", "one"}


def test_a_formula_on_standard_output(tmp_path: Path) -> None:
    needs("yosys")
    circuit, formula = written(FIFO, tmp_path, "one.v"), tmp_path / "one.cnf"
    assert run([BMC, circuit, 3, formula]) == Ran("", "", 0)
    assert run([BMC, circuit, 3, "/dev/stdout"]) == Ran(formula.read_text(), "", 0)
    assert Path("/dev/stdout").is_symlink()


def test_nothing_is_written_to_home(tmp_path: Path) -> None:
    """yosys keeps a history there."""
    needs("yosys")
    circuit, home = written(FIFO, tmp_path, "one.v"), tmp_path / "home"
    home.mkdir()
    done = run([BMC, circuit, 3, tmp_path / "one.cnf"], env={**os.environ, "HOME": str(home)})
    assert done == Ran("", "", 0)
    assert list(home.iterdir()) == []


def test_a_circuit_whose_name_begins_with_a_dash(tmp_path: Path) -> None:
    needs("yosys")
    written(FIFO, tmp_path, "-w.v")
    assert run([BMC, "-w.v", 3, "one.cnf"], cwd=tmp_path) == Ran("", "", 0)
    assert (tmp_path / "one.cnf").exists()


def test_a_formula_does_not_replace_its_circuit(tmp_path: Path) -> None:
    circuit = written(FIFO, tmp_path, "one.v")
    assert run([BMC, circuit, 3, circuit]) == Ran(
        "", "verilog2cnf.sh: FORMULA would replace FILE.v\n", 2)
    assert circuit.read_text() == FIFO


# Random circuits with words of two bits: two registers, sometimes a memory of two words, inputs.

Values = Dict[str, int]


class Assignment(NamedTuple):
    text: str
    assigns: Callable[[Values], int]    # whether it does
    value: Callable[[Values], int]


class Circuit(NamedTuple):
    text: str
    at_first: Dict[str, List[int]]      # what a register may hold
    following: Callable[[Values], Values]
    is_bad: Callable[[Values], int]


def chosen(when: Callable[[Values], int], one: Callable[[Values], int],
           other: Callable[[Values], int]) -> Callable[[Values], int]:
    return lambda values: one(values) if when(values) else other(values)


def expression(numbers: random.Random, terms: List[Valued], depth: int) -> Valued:
    """A word of two bits. It is often only a term, so that registers have the same input."""
    if depth == 0 or numbers.random() < 0.5:
        return numbers.choice(terms)
    one, other = (expression(numbers, terms, depth - 1) for _ in range(2))
    if numbers.random() < 0.3:
        when, holds = condition(numbers, terms, depth - 1)
        return f"({when}) ? ({one[0]}) : ({other[0]})", chosen(holds, one[1], other[1])
    return joined(*numbers.choice(ON_NUMBERS), one, other)


def condition(numbers: random.Random, terms: List[Valued], depth: int) -> Valued:
    if depth == 0 or numbers.random() < 0.5:
        return named(numbers.choice(["reset", "enable", "enable"]))
    return compared(numbers, terms, depth - 1)


def compared(numbers: random.Random, terms: List[Valued], depth: int) -> Valued:
    """Not of two constants: to yosys a register that is then never assigned is a constant, too."""
    different: Tuple[str, Callable[[int, int], int]] = ("!=", lambda x, y: x != y)
    two = [numbers.choice(terms[:3]), expression(numbers, terms, depth)]
    numbers.shuffle(two)
    return joined(*numbers.choice([*COMPARED, different, different]), *two)


def named(name: str) -> Valued:
    return name, lambda values: values[name]


def assignment(numbers: random.Random, place: str, terms: List[Valued]) -> Assignment:
    """An assignment, perhaps with conditions and other assignments."""
    text, value = expression(numbers, terms, 2)
    made = Assignment(f"{place} <= {text};", lambda values: 1, value)
    for _ in range(numbers.randrange(3)):
        made = guarded(numbers, place, terms, made)
    return made


def guarded(numbers: random.Random, place: str, terms: List[Valued],
            inner: Assignment) -> Assignment:
    when, holds = condition(numbers, terms, 1)
    if numbers.random() < 0.5:
        return Assignment(f"if ({when}) {inner.text}",
                          lambda values: holds(values) and inner.assigns(values), inner.value)
    text, value = numbers.choice(terms)
    return Assignment(f"if ({when}) {place} <= {text}; else {inner.text}",
                      lambda values: holds(values) or inner.assigns(values),
                      chosen(holds, value, inner.value))


def word_at(address: str) -> Valued:
    """The word of the memory at this register's or input's last bit."""
    return (f"memory[{address}[0]]",
            lambda values: values[f"memory[{values[address] & 1}]"])


def random_circuit(numbers: random.Random) -> Circuit:
    has_memory = numbers.random() < 0.4
    terms = [named("a"), named("b"), named("in"), ("2'd0", lambda values: 0),
             ("2'd1", lambda values: 1)]
    if has_memory:
        terms += [word_at("a"), word_at("in")]
    every = list(range(ALL + 1))
    registers = {name: [numbers.choice(every)] if numbers.random() < 0.3 else every
                 for name in "ab"}
    words = {f"memory[{k}]": every for k in range(2) if has_memory}
    if numbers.random() < 0.4:
        words = {name: [numbers.choice(every)] for name in words}
    seeds = [numbers.random(), numbers.random()]
    if numbers.random() < 0.3:
        seeds[1] = seeds[0]     # the same for both registers
    assigned = {name: assignment(random.Random(seed), name, terms)
                for name, seed in zip("ab", seeds)}
    address = numbers.choice(["a", "in"])
    stored = assignment(numbers, f"memory[{address}[0]]", terms)
    bad, is_bad = joined(*CONNECTIVES[0], compared(numbers, terms, 0), compared(numbers, terms, 1))

    def following(values: Values) -> Values:
        after = {name: made.value(values) if made.assigns(values) else values[name]
                 for name, made in assigned.items()}
        for k, name in enumerate(words):
            is_stored = values[address] & 1 == k and stored.assigns(values)
            after[name] = stored.value(values) if is_stored else values[name]
        return after
    lines = ["module circuit(input clock, input reset, input enable, input [1:0] in,",
             "               output bad);",
             *(f"  reg [1:0] {name}{f' = {first[0]}' if len(first) == 1 else ''};"
               for name, first in registers.items()),
             *["  reg [1:0] memory [0:1];"] * has_memory,
             *(f"  initial {name} = {first[0]};"
               for name, first in words.items() if len(first) == 1),
             "  always @(posedge clock) begin",
             *(f"    {made.text}" for made in [*assigned.values(), *[stored] * has_memory]),
             "  end", f"  assign bad = {bad};", "endmodule"]
    return Circuit("\n".join(lines) + "\n", {**registers, **words}, following, is_bad)


def can_be_bad(circuit: Circuit, depth: int, induction: bool) -> bool:
    """Whether `bad` can be 1 where bmc.sh asks, by going through all states and inputs."""
    names = list(circuit.at_first)
    states = set(itertools.product(*([range(ALL + 1)] * len(names) if induction
                                     else circuit.at_first.values())))
    for step in range(1, depth + 1):
        after = set()
        for state, reset, enable, value in itertools.product(
                states, range(2), range(2), range(ALL + 1)):
            if step == 1 and not induction and not reset:
                continue
            values = {**dict(zip(names, state)), "reset": reset, "enable": enable, "in": value}
            bad = circuit.is_bad(values)
            if bad and (step == depth if induction else step > 1):
                return True
            if not (bad and induction):
                following = circuit.following(values)
                after.add(tuple(following[name] for name in names))
        states = after
    return False


@pytest.mark.seeds(20)
@pytest.mark.parametrize("induction", [False, True], ids=["from a reset", "induction"])
def test_random_circuits(seed: int, induction: bool, tmp_path: Path) -> None:
    """bmc.sh, yosys's own command and a search through all states agree."""
    needs("yosys")
    numbers = random.Random(seed)
    circuit, depth = random_circuit(numbers), numbers.choice([2, 3, 4])
    file = written(circuit.text, tmp_path, "one.v")
    wanted = can_be_bad(circuit, depth, induction)
    assert satisfiable_by_yosys(file, depth, induction) == wanted, circuit.text
    assert (values_of_bmc(file, depth, induction) is not None) == wanted, circuit.text
