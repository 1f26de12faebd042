"""Circuits, as clauses. Each function but `factor` makes two equal circuits, and asks for
a difference."""
from typing import List, Optional, Tuple

Clauses = List[Tuple[int, ...]]
Word = List[int]


class Circuit:
    """Gates, as clauses. A word is a list of literals, the lowest bit first."""

    def __init__(self) -> None:
        self.variables = 0
        self.clauses: Clauses = []
        self.true = self.fresh()
        self.add(self.true)

    def fresh(self) -> int:
        self.variables += 1
        return self.variables

    def word(self, bits: int) -> Word:
        return [self.fresh() for _ in range(bits)]

    def number(self, value: int, bits: int) -> Word:
        return [self.true if value >> bit & 1 else -self.true for bit in range(bits)]

    def add(self, *clause: int) -> None:
        self.clauses.append(clause)

    def both(self, one: int, other: int) -> int:
        out = self.fresh()
        self.add(-one, -other, out)
        self.add(one, -out)
        self.add(other, -out)
        return out

    def either(self, one: int, other: int) -> int:
        return -self.both(-one, -other)

    def differ(self, one: int, other: int) -> int:
        out = self.fresh()
        for signs in ((1, 1, -1), (1, -1, 1), (-1, 1, 1), (-1, -1, -1)):
            self.add(*(sign * literal for sign, literal in zip(signs, (one, other, out))))
        return out

    def choose(self, condition: int, then: Word, other: Word) -> Word:
        """The first word if the condition is true, otherwise the second."""
        return [self.either(self.both(condition, a), self.both(-condition, b))
                for a, b in zip(then, other)]

    def sum(self, one: Word, other: Word, carry: int) -> Tuple[Word, int]:
        """The sum, with the same number of bits, and the carry."""
        bits = []
        for a, b in zip(one, other):
            half = self.differ(a, b)
            bits.append(self.differ(half, carry))
            carry = self.either(self.both(a, b), self.both(half, carry))
        return bits, carry

    def difference(self, one: Word, other: Word) -> Tuple[Word, int]:
        """The difference, with the same number of bits, and whether it is at least zero."""
        return self.sum(one, [-bit for bit in other], self.true)

    def product(self, one: Word, other: Word, width: Optional[int] = None) -> Word:
        """The product, computed row by row: all its bits, or the lowest ones."""
        width = width or len(one) + len(other)
        total = [-self.true] * width
        for place, factor in enumerate(other):
            row = [self.both(factor, bit) for bit in one[:width - place]]
            part, carry = self.sum(total[place:place + len(row)], row, -self.true)
            total[place:place + len(row) + 1] = [*part, carry][:width - place]
        return total

    def less(self, one: Word, other: Word) -> int:
        return -self.difference(one, other)[1]

    def equal(self, one: Word, other: Word) -> int:
        out = self.true
        for a, b in zip(one, other):
            out = self.both(out, -self.differ(a, b))
        return out

    def assert_differ(self, one: Word, other: Word) -> None:
        self.add(*(self.differ(a, b) for a, b in zip(one, other)))


def commute(bits: int) -> Tuple[int, Clauses]:
    circuit = Circuit()
    one, other = circuit.word(bits), circuit.word(bits)
    circuit.assert_differ(circuit.product(one, other), circuit.product(other, one))
    return circuit.variables, circuit.clauses


def divide(bits: int) -> Tuple[int, Clauses]:
    circuit = Circuit()
    dividend, divisor = circuit.word(bits), circuit.word(bits)
    circuit.add(*divisor)
    rest = [-circuit.true] * (bits + 1)
    quotient: Word = []
    wide = [*divisor, -circuit.true]
    for bit in reversed(dividend):
        rest = [bit, *rest[:-1]]
        less, difference = circuit.difference(rest, wide)
        rest = circuit.choose(difference, less, rest)
        quotient.insert(0, difference)
    back = circuit.product(quotient, divisor)
    total, carry = circuit.sum(back, [*rest, *[-circuit.true] * (bits - 1)], -circuit.true)
    circuit.assert_differ([*total, carry], [*dividend, *[-circuit.true] * (bits + 1)])
    return circuit.variables, circuit.clauses


def sort(count: int, bits: int) -> Tuple[int, Clauses]:
    circuit = Circuit()
    numbers = [circuit.word(bits) for _ in range(count)]

    def exchange(words: List[Word], place: int) -> None:
        swaps = circuit.less(words[place + 1], words[place])
        low, high = (circuit.choose(swaps, words[place + 1], words[place]),
                     circuit.choose(swaps, words[place], words[place + 1]))
        words[place:place + 2] = [low, high]

    bubbles, oddly = list(numbers), list(numbers)
    for last in range(count - 1, 0, -1):
        for place in range(last):
            exchange(bubbles, place)
    for turn in range(count):
        for place in range(turn % 2, count - 1, 2):
            exchange(oddly, place)
    circuit.assert_differ(sum(bubbles, []), sum(oddly, []))
    return circuit.variables, circuit.clauses


def pipeline(steps: int, bits: int, registers: int = 4) -> Tuple[int, Clauses]:
    """Each step writes the sum, or the exclusive or, of two registers into a register. The pipeline
    writes the result two steps later."""
    circuit = Circuit()
    start = [circuit.word(bits) for _ in range(registers)]
    code = [(circuit.fresh(), circuit.word(2), circuit.word(2), circuit.word(2))
            for _ in range(steps)]

    def read(words: List[Word], register: Word) -> Word:
        low = (circuit.choose(register[0], words[1], words[0]),
               circuit.choose(register[0], words[3], words[2]))
        return circuit.choose(register[1], low[1], low[0])

    def write(words: List[Word], register: Word, value: Word) -> List[Word]:
        return [circuit.choose(circuit.equal(register, circuit.number(place, 2)), value, word)
                for place, word in enumerate(words)]

    def compute(adds: int, one: Word, other: Word) -> Word:
        return circuit.choose(adds, circuit.sum(one, other, -circuit.true)[0],
                              [circuit.differ(a, b) for a, b in zip(one, other)])

    words = start
    for adds, target, one, other in code:
        words = write(words, target, compute(adds, read(words, one), read(words, other)))
    late = start
    ahead: List[Tuple[Word, Word]] = []
    for adds, target, one, other in code:
        values = []
        for source in (one, other):
            value = read(late, source)
            for register, result in ahead:
                value = circuit.choose(circuit.equal(register, source), result, value)
            values.append(value)
        ahead.append((target, compute(adds, *values)))
        if len(ahead) > 2:
            late = write(late, *ahead.pop(0))
    for register, result in ahead:
        late = write(late, register, result)
    circuit.assert_differ(sum(words, []), sum(late, []))
    return circuit.variables, circuit.clauses


def factor(number: int) -> Tuple[int, Clauses]:
    """Asks for two factors of the number, both above 1, with one multiplier."""
    circuit = Circuit()
    bits = number.bit_length()
    small = (bits + 1) // 2
    one, other = circuit.word(bits - 1), circuit.word(small)
    for word in (one, other):
        circuit.add(*word[1:])
    wide = [*other, *[-circuit.true] * (bits - 1 - small)]
    for bit, literal in zip(circuit.product(one, wide), circuit.number(number, 2 * bits - 2)):
        circuit.add(bit if literal > 0 else -bit)
    return circuit.variables, circuit.clauses


def distribute(bits: int) -> Tuple[int, Clauses]:
    circuit = Circuit()
    factor, one, other = (circuit.word(bits) for _ in range(3))
    together = circuit.product(circuit.sum(one, other, -circuit.true)[0], factor, bits)
    apart = circuit.sum(circuit.product(one, factor, bits), circuit.product(other, factor, bits),
                        -circuit.true)[0]
    circuit.assert_differ(together, apart)
    return circuit.variables, circuit.clauses


def squares(bits: int) -> Tuple[int, Clauses]:
    circuit = Circuit()
    one, other = circuit.word(bits), circuit.word(bits)
    total, difference = circuit.sum(one, other, -circuit.true)[0], circuit.difference(one, other)[0]
    of_squares = circuit.difference(circuit.product(one, one, bits),
                                    circuit.product(other, other, bits))[0]
    circuit.assert_differ(circuit.product(total, difference, bits), of_squares)
    return circuit.variables, circuit.clauses


def count(bits: int) -> Tuple[int, Clauses]:
    circuit = Circuit()
    word, none = circuit.word(bits), [-circuit.true] * bits.bit_length()
    total = none
    for bit in word:
        total = circuit.sum(total, none, bit)[0]
    parts = [[bit, *none[1:]] for bit in word]
    while len(parts) > 1:
        pairs = zip(parts[::2], parts[1::2])
        parts = ([circuit.sum(one, other, -circuit.true)[0] for one, other in pairs]
                 + parts[len(parts) // 2 * 2:])
    circuit.assert_differ(total, parts[0])
    return circuit.variables, circuit.clauses
