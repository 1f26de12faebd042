#!/usr/bin/env python3
"""Asks, as DIMACS CNF, whether a lemma on bit vectors has a counterexample.

    lemma.py WIDTH LEMMA > lemma.cnf

LEMMA is an expression over constants and the unsigned numbers a, b, c, d of WIDTH bits. Its
operators are those of Python: + - & | ^ ~, << and >> by a constant, and == != < <= > >=. Sums and
differences wrap. `when(P, Q)` is 'if P then Q', `both(P, Q)` is 'P and Q'. The formula's comments
`c NAME LITERAL` name the bits a[0], a[1] .. of the numbers, for show.awk."""
import ast
import itertools
import re
import sys

TRUE = 1                # the variable that is true; -1 is false
clauses, fresh = [[TRUE]], itertools.count(TRUE + 1)


def gate(truth, inputs):
    """A variable that is this function of the inputs: Tseitin's clauses, one for each row of its
    truth table."""
    output = next(fresh)
    for values in itertools.product((0, 1), repeat=len(inputs)):
        clauses.append([-x if value else x for x, value in zip(inputs, values)]
                       + [output if truth(*values) else -output])
    return output


# A number or a truth value is a list of bits, lowest first; a truth value has one bit.


def total(one, other, carry):
    """The sum of two lists of bits, and the carry after it."""
    found = []
    for x, y in zip(one, other, strict=True):
        found.append(gate(lambda x, y, c: x ^ y ^ c, [x, y, carry]))
        carry = gate(lambda x, y, c: x + y + c > 1, [x, y, carry])
    return found, carry


def complement(bits):
    return [-x for x in bits]


def bit_by_bit(truth):
    return lambda one, other: [gate(truth, [x, y]) for x, y in zip(one, other, strict=True)]


def at_most(one, other):
    return [total(other, complement(one), TRUE)[1]]     # no borrow


def below(one, other):
    return complement(at_most(other, one))


def equal(one, other):
    return conjunction(at_most(one, other), at_most(other, one))


conjunction = bit_by_bit(lambda x, y: x & y)
NUMBERS, TRUTH_VALUES = "numbers", "truth values"
EITHER = f"{NUMBERS} or two {TRUTH_VALUES}"
# What an operation does, two of what it wants, and one of what it gives; EITHER: of what it got.
OPERATIONS = {
    ast.Add: (lambda one, other: total(one, other, -TRUE)[0], NUMBERS, NUMBERS),
    ast.Sub: (lambda one, other: total(one, complement(other), TRUE)[0], NUMBERS, NUMBERS),
    ast.BitAnd: (conjunction, EITHER, EITHER),
    ast.BitOr: (bit_by_bit(lambda x, y: x | y), EITHER, EITHER),
    ast.BitXor: (bit_by_bit(lambda x, y: x ^ y), EITHER, EITHER),
    ast.LtE: (at_most, NUMBERS, TRUTH_VALUES),
    ast.Lt: (below, NUMBERS, TRUTH_VALUES),
    ast.GtE: (lambda one, other: at_most(other, one), NUMBERS, TRUTH_VALUES),
    ast.Gt: (lambda one, other: below(other, one), NUMBERS, TRUTH_VALUES),
    ast.Eq: (equal, EITHER, TRUTH_VALUES),
    ast.NotEq: (lambda one, other: complement(equal(one, other)), EITHER, TRUTH_VALUES),
    "both": (conjunction, TRUTH_VALUES, TRUTH_VALUES),
    "when": (bit_by_bit(lambda x, y: (1 - x) | y), TRUTH_VALUES, TRUTH_VALUES)}


class Refused(Exception):
    pass


def constant(node):
    """The value of a whole number; None for all else."""
    return node.value if isinstance(node, ast.Constant) and type(node.value) is int else None


def operation(node):
    """What the expression's operation is, by its key in OPERATIONS, and its two operands."""
    if isinstance(node, ast.BinOp):
        return type(node.op), [node.left, node.right]
    if isinstance(node, ast.Compare) and len(node.ops) == 1:
        return type(node.ops[0]), [node.left, *node.comparators]
    if isinstance(node, ast.Call) and isinstance(node.func, ast.Name) and not node.keywords:
        return node.func.id, node.args
    return None, []


def value(node, names, width):
    """The bits of an expression, and whether it is one of NUMBERS or of TRUTH_VALUES."""
    text, (key, operands) = ast.unparse(node), operation(node)
    if isinstance(node, ast.Name) and node.id in names:
        return names[node.id], NUMBERS
    if constant(node) is not None:
        if constant(node) >> width:
            raise Refused(f"{text} has more than {width} bits")
        return [TRUE if constant(node) >> k & 1 else -TRUE for k in range(width)], NUMBERS
    if isinstance(node, ast.UnaryOp) and isinstance(node.op, ast.Invert):
        bits, kind = value(node.operand, names, width)
        return complement(bits), kind
    if key in (ast.LShift, ast.RShift):
        bits, kind = value(operands[0], names, width)
        if kind != NUMBERS or constant(operands[1]) is None:
            raise Refused(f"{text} isn't a number that is shifted by a constant")
        zeros = [-TRUE] * min(constant(operands[1]), width)
        return ((zeros + bits)[:width] if key is ast.LShift else (bits + zeros)[-width:]), NUMBERS
    if key not in OPERATIONS or len(operands) != 2:
        raise Refused(f"a LEMMA can't have {text}: the top of lemma.py says what it can have")
    apply, wants, gives = OPERATIONS[key]
    (one, kind), (other, another) = (value(operand, names, width) for operand in operands)
    if kind != another or wants not in (kind, EITHER):
        raise Refused(f"{text} isn't of two {wants}")
    return apply(one, other), kind if gives == EITHER else gives


def main(width, lemma):
    names = {name: [next(fresh) for _ in range(width)] for name in "abcd"}
    holds, kind = value(ast.parse(lemma.strip(), mode="eval").body, names, width)
    if kind != TRUTH_VALUES:
        raise Refused(f"{lemma.strip()!r} is a number, which has no counterexample")
    clauses.append(complement(holds))
    print(f"p cnf {next(fresh) - 1} {len(clauses)}",
          *(f"c {name}[{k}] {bit}" for name, bits in names.items()
            if re.search(rf"\b{name}\b", lemma) for k, bit in enumerate(bits)),
          *(" ".join(map(str, clause)) + " 0" for clause in clauses), sep="\n")


if len(sys.argv) != 3 or not re.fullmatch("[1-9][0-9]*", sys.argv[1]):
    is_asked = sys.argv[1:] == ["--help"]
    print("usage: lemma.py WIDTH LEMMA", file=sys.stdout if is_asked else sys.stderr)
    sys.exit(0 if is_asked else 2)
try:
    main(int(sys.argv[1]), sys.argv[2])
except SyntaxError as fault:
    sys.exit(f"lemma.py: LEMMA isn't an expression: {fault.msg}")
except (RecursionError, MemoryError):
    sys.exit("lemma.py: LEMMA is nested too deeply")
except (Refused, ValueError) as fault:
    sys.exit(f"lemma.py: {fault}")
