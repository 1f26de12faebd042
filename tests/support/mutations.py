"""Mutations of proofs in any form, first of steps, then of bytes; and mutants by their numbers:
mutated proofs, some of them with mutated formulas."""
import functools
import random
import re
from pathlib import Path
from typing import Callable, List, Tuple

from harness import example, written
from proof_forms import FORMS, Clause, Step, frat, read_formula, read_steps, varint

HUGE = [1 << 31, (1 << 31) - 1, 1 << 32, (1 << 63) - 1, 1 << 63, 1 << 64, 10 ** 17, 10 ** 18 - 1,
        10 ** 18, 10 ** 40, 16777215, 16777216, 65536, (1 << 57) - 1]
LETTERS = [b"a", b"d", b"i", b"l", b"o", b"f", b"r", b"c", b"x", b"-", b"+1", b"0", b"00", b"-0",
           b"07", b"0x1", b"1.5"]


def mutated_steps(steps: List[bytes], numbers: random.Random) -> bytes:
    steps = list(steps)
    for _ in range(numbers.choice((0, 0, 1, 1, 2, 5))):
        one, other = numbers.randrange(len(steps)), numbers.randrange(len(steps))
        what = numbers.randrange(4)
        if what == 0:
            steps.insert(other, steps[one])
        elif what == 1:
            steps[one], steps[other] = steps[other], steps[one]
        elif what == 2 and len(steps) > 1:
            del steps[one]
        else:
            steps[one:one] = [steps[other]] * numbers.choice((2, 3, 300))
    return b"".join(steps)


def other_word(proof: bytes, numbers: random.Random) -> bytes:
    """Replaces a word of the text by another one."""
    words = list(re.finditer(rb"[^ \n]+", proof))
    if not words:
        return proof
    word = numbers.choice(words)
    new = (numbers.choice(LETTERS) if numbers.random() < 0.5
           else numbers.choice((b"", b"-")) + str(numbers.choice(HUGE)).encode())
    return proof[:word.start()] + new + proof[word.end():]


def other_bytes(proof: bytes, numbers: random.Random) -> bytes:
    """Inserts, removes or flips bytes."""
    at = numbers.randrange(len(proof) + 1)
    what = numbers.randrange(5)
    if what == 0:
        return proof[:at] + proof[at + 1:]
    if what == 1:
        return (proof[:at]
                + bytes(numbers.choices(range(256), k=numbers.choice((1, 2, 9)))) + proof[at:])
    if what == 2:
        return proof[:at] + varint(numbers.choice(HUGE)) + proof[at:]
    if what == 3:
        byte = numbers.choice((b"\xff", b"\x80", b"\0", b" ", b"\n", b"9"))
        return proof[:at] + byte * numbers.choice((1, 30, 5000)) + proof[at:]
    return (proof[:at] + bytes(byte ^ 1 << numbers.randrange(8) for byte in proof[at:at + 1])
            + proof[at + 1:])


def mutated_bytes(proof: bytes, binary: bool, numbers: random.Random) -> bytes:
    for _ in range(numbers.choice((0, 1, 1, 1, 2, 4))):
        proof = (other_bytes(proof, numbers) if binary or numbers.random() < 0.5
                 else other_word(proof, numbers))
    if numbers.random() < 0.2:
        proof = proof[:numbers.randrange(len(proof) + 1)]
    return proof


# Mutants.


# The argument of --format, the formula and the steps.
Base = Tuple[str, bytes, List[bytes]]
# The formula, the stream, and how many of its first lines may be mutated.
BASES = [("four-clause.cnf", "four-clause.lrup", 2), ("pigeonhole.cnf", "pigeonhole.lrup", 12),
         ("pigeonhole.cnf", "pigeonhole.lrup", 60), ("bmc.cnf", "bmc.lrup", 20)]
LONG = 9000             # the clauses of a long proof, enough for the filter to give memory back
LONG_ONES = 0.02        # the share of long proofs
FAR = 10 ** 12          # the usual distance between names of FRAT
WORDS = ["lrat", "drat", "frat", "binary-lrat", "binary-drat"]


def in_each_form(name: str, steps_of: Callable[[List[Clause]], List[Step]]) -> List[Base]:
    formula = read_formula(example(name))
    text = example(name).read_bytes()
    return [(word, text, make(formula, steps_of(formula))) for word, make in FORMS.values()]


def copies(formula: List[Clause]) -> List[Step]:
    """Adds the formula's clauses again and again, and deletes each at once."""
    steps: List[Step] = []
    for number in range(LONG):
        original, identity = number % len(formula), len(formula) + 1 + number
        steps += [Step("a", identity, formula[original], [original + 1]),
                  Step("d", identity, [], [identity])]
    return steps


def backwards(step: Step) -> Step:
    """The step with its hints in the wrong order."""
    return step._replace(hints=step.hints[::-1])


@functools.lru_cache(maxsize=None)
def proofs() -> Tuple[List[Base], List[Base]]:
    """Short proofs and long ones."""
    short: List[Base] = []
    for formula, name, count in BASES:
        short += in_each_form(formula, lambda _: read_steps(example(name))[:count])
    steps = read_steps(example("pigeonhole.lrup"))
    short += in_each_form("pigeonhole.cnf", lambda _: list(map(backwards, steps[:60])))
    short += [("frat", example("pigeonhole.cnf").read_bytes(),
               frat(read_formula(example("pigeonhole.cnf")), steps, seed, 1, FAR))
              for seed in range(3)]
    return short, in_each_form("pigeonhole.cnf", copies)


class Mutant:
    """The arguments of the filter's command, and the files that they name, which are in a folder of
    the mutant's own."""

    def __init__(self, number: int, folder: Path) -> None:
        numbers, (short, long) = random.Random(number), proofs()
        self.number, self.folder = number, folder
        word, formula, steps = numbers.choice(long if numbers.random() < LONG_ONES else short)
        self.proof = mutated_bytes(mutated_steps(steps, numbers), "binary" in word, numbers)
        self.streams = numbers.choice((1, 1, 1, 2, 3))
        self.stream = numbers.randint(1, self.streams)
        self.words = (["--stream", str(self.stream), "--streams", str(self.streams)]
                      if self.streams > 1 else [])
        if numbers.random() < 0.7:
            self.words += ["--format", word if numbers.random() < 0.9 else numbers.choice(WORDS)]
        if self.streams > 1 and numbers.random() < 0.3:
            steps = numbers.choice(short)[2]
            other = written(mutated_bytes(mutated_steps(steps, numbers), False, numbers), folder,
                            "other")
            self.words += ["--other", f"{self.stream % self.streams + 1}={other}"]
        self.is_formula_mutated = numbers.random() < 0.1
        if self.is_formula_mutated:
            formula = mutated_bytes(formula, False, numbers)
        self.formula = written(formula, folder)
        self.words.append(str(self.formula))
        self.is_piped = numbers.random() < 0.5
        if not self.is_piped:
            self.words.append(str(written(self.proof, folder, "proof")))
