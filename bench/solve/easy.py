#!/usr/bin/env python3
"""Writes a large, easily refuted formula in DIMACS CNF to standard output.

    easy.py units VARIABLES [reversed]
        a chain: each variable implies the next one, the first holds, and the last doesn't
    easy.py failed STEPS [reversed]
        a failed literal: no unit clause, and one literal implies a conflict in STEPS steps
    easy.py corridor CELLS HORIZON [reversed]
        a plan to walk to the last cell of a corridor; refuted if HORIZON is below CELLS
    easy.py lfsr BITS STEPS [reversed]
        a feedback shift register, from a known state, isn't in the right state after STEPS steps
    easy.py simulation STEPS
        a register of 32 bits in Verilog, unrolled by yosys, becomes 0 in STEPS steps; needs yosys

With 'reversed' the last clause comes first. Unit propagation refutes all these formulas except
those of `failed`."""
import subprocess
import sys
import tempfile
from pathlib import Path
from typing import Callable, Dict, List, Tuple

Clauses = List[Tuple[int, ...]]
VERILOG = """\
module register(input clk, output reg [31:0] state, output wrong);
  initial state = 1;
  always @(posedge clk) state <= {state[30:0], state[31] ^ state[21] ^ state[1] ^ state[0]};
  assign wrong = state == 0;
endmodule
"""
# The formulas that table.py times.
FORMULAS = ["units 60000", "units 60000 reversed", "failed 70000", "corridor 300 250",
            "lfsr 32 20000 reversed", "simulation 400"]
SCRIPT = ("read_verilog {folder}/register.v; prep -top register; sat -timeout 1 -seq {steps} "
          "-set-at {steps} wrong 1 -dump_cnf {folder}/cnf")


def units(variables: int) -> Tuple[int, Clauses]:
    """Unit propagation visits all variables, one after the other."""
    steps = [(-variable, variable + 1) for variable in range(1, variables)]
    return variables, [(1,), *steps, (-variables,)]


def failed(steps: int) -> Tuple[int, Clauses]:
    """Variable 1 implies variables 2 to `steps`, and the last of them a conflict; if variable 1 is
    false, two clauses conflict at once."""
    last, other = steps + 1, steps + 2
    chain = [(-variable, variable + 1) for variable in range(1, steps)]
    return other, [*chain, (-steps, last), (-steps, -last), (1, other), (1, -other)]


def corridor(cells: int, horizon: int) -> Tuple[int, Clauses]:
    """Someone who is in a cell at some time was there before, or walked there; a step begins in the
    current cell."""
    width = 3 * (cells + 1)

    def at(cell: int, time: int) -> int:
        return width * time + 3 * cell + 1

    def right(cell: int, time: int) -> int:
        return at(cell, time) + 1

    def left(cell: int, time: int) -> int:
        return at(cell, time) + 2

    clauses: Clauses = [(at(0, 0),), *((-at(cell, 0),) for cell in range(1, cells + 1))]
    for time in range(horizon):
        for cell in range(cells + 1):
            reasons = ([at(cell, time)] + [right(cell - 1, time)] * (cell > 0)
                       + [left(cell + 1, time)] * (cell < cells))
            clauses.append((-at(cell, time + 1), *reasons))
            for step, target in ((right(cell, time), cell + 1), (left(cell, time), cell - 1)):
                clauses.append((-step, at(cell, time)))
                clauses.append((-step, at(target, time + 1)) if 0 <= target <= cells else (-step,))
    clauses.append((at(cells, horizon),))
    return width * (horizon + 1), clauses


def lfsr(bits: int, steps: int) -> Tuple[int, Clauses]:
    """Each step shifts the state, and adds the exclusive or of its first and its last bit."""
    state, value = list(range(1, bits + 1)), [1] + [0] * (bits - 1)
    variables = bits
    clauses: Clauses = [(variable if bit else -variable,) for variable, bit in zip(state, value)]
    for _ in range(steps):
        variables += 1
        one, other = state[0], state[-1]
        clauses += [(-variable_sign * variables, one * one_sign, other * other_sign)
                    for variable_sign, one_sign, other_sign in ((1, 1, 1), (1, -1, -1),
                                                                (-1, 1, -1), (-1, -1, 1))]
        state, value = [*state[1:], variables], [*value[1:], value[0] ^ value[-1]]
    clauses.append(tuple(-variable if bit else variable for variable, bit in zip(state, value)))
    return variables, clauses


def simulation(steps: int) -> str:
    """The formula as text, from yosys."""
    with tempfile.TemporaryDirectory() as name:
        folder = Path(name)
        (folder / "register.v").write_text(VERILOG)
        subprocess.run(["yosys", "-q", "-p", SCRIPT.format(folder=folder, steps=steps)], check=True,
                       stdout=subprocess.DEVNULL)
        return (folder / "cnf").read_text()


KINDS: Dict[str, Tuple[Callable[..., Tuple[int, Clauses]], int]] = {
    "units": (units, 1), "failed": (failed, 1), "corridor": (corridor, 2), "lfsr": (lfsr, 2)}


def dimacs(kind: str, *numbers: int, backwards: bool = False) -> str:
    """The formula's text."""
    variables, clauses = KINDS[kind][0](*numbers)
    lines = [" ".join(map(str, clause)) + " 0"
             for clause in (reversed(clauses) if backwards else clauses)]
    return "\n".join([f"p cnf {variables} {len(lines)}", *lines, ""])


def main() -> None:
    kind, *words = sys.argv[1:] or [""]
    backwards = words[-1:] == ["reversed"]
    numbers = [int(word) for word in words[:len(words) - backwards] if word.isdigit()]
    if kind == "simulation" and len(numbers) == len(words) == 1:
        sys.stdout.write(simulation(*numbers))
    elif kind in KINDS and len(numbers) == KINDS[kind][1] == len(words) - backwards:
        sys.stdout.write(dimacs(kind, *numbers, backwards=backwards))
    else:
        sys.exit(__doc__)


if __name__ == "__main__":
    main()
