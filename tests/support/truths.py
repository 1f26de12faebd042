"""Small formulas whose truth is known without a solver, their texts, and proofs by resolution."""
import random
from typing import Dict, FrozenSet, List, NamedTuple, Optional, Sequence, Tuple

from harness import random_clauses

Clauses = Sequence[Sequence[int]]
MOST = 9        # variables of formulas of which all assignments are tried


class Formula(NamedTuple):
    """`text` is what lrupd reads, or refuses, if there are no clauses. `model` is an assignment
    that satisfies the formula, or None if none does."""
    text: str
    variables: int
    clauses: Optional[Clauses]
    model: Optional[Sequence[int]]


def satisfies(model: Sequence[int], clauses: Clauses, assumed: Sequence[int] = ()) -> bool:
    true = set(model)
    return (true.issuperset(assumed) and not any(-literal in true for literal in true)
            and all(true.intersection(clause) for clause in clauses))


def model_of(variables: int, clauses: Clauses, assumed: Sequence[int] = ()) -> Optional[List[int]]:
    """Tries all assignments."""
    units = [[literal] for literal in assumed]
    masks = [(sum(1 << literal - 1 for literal in set(clause) if literal > 0),
              sum(1 << -literal - 1 for literal in set(clause) if literal < 0))
             for clause in [*clauses, *units]]
    for signs in range(1 << variables):
        if all(signs & true or ~signs & false for true, false in masks):
            return [variable if signs >> variable - 1 & 1 else -variable
                    for variable in range(1, variables + 1)]
    return None


def refutation(variables: int, clauses: Clauses, assumed: Sequence[int] = ()) -> Optional[str]:
    """A stream that derives the empty clause, or one that contradicts the assumptions, by
    resolution; None if an assignment satisfies both."""
    known: Dict[int, FrozenSet[int]] = {
        number: frozenset(clause) for number, clause in enumerate(clauses, 1)}
    lines: List[str] = []

    def add(literals: FrozenSet[int], *hints: int) -> int:
        number = len(known) + 1
        known[number] = literals
        lines.append(" ".join(map(str, [number, *sorted(literals), 0, *hints, 0])) + "\n")
        return number

    def refuted(true: Tuple[int, ...]) -> Optional[int]:
        """A clause that these literals make false."""
        false = {-literal for literal in true}
        for number, clause in known.items():
            if clause <= false:
                return number
        free = [one for one in range(1, variables + 1) if one not in true and -one not in true]
        if not free:
            return None
        ends: List[int] = []
        for literal in (free[0], -free[0]):
            found = refuted((*true, literal))
            if found is None or -literal not in known[found]:
                return found
            ends.append(found)
        return add((known[ends[0]] | known[ends[1]]) - {free[0], -free[0]}, *ends)

    last = refuted(tuple(dict.fromkeys(assumed)))
    if last is None:
        return None
    if not lines:
        add(known[last], last)
    return "".join(lines)


# Texts.


def layout(numbers: random.Random, variables: int, clauses: Clauses) -> str:
    """The formula with comments, and with clauses that span lines, or share one."""
    text = f"p cnf {variables} {len(clauses)}\n"
    if numbers.random() < 0.3:
        text = numbers.choice(("c\n", "c p cnf 1 1\n", "c s UNSATISFIABLE\n", "cc\n" * 9999)) + text
    is_plain = numbers.random() < 0.5
    for clause in clauses:
        if not is_plain and numbers.random() < 0.1 and text.endswith("\n"):
            text += numbers.choice(("c 1 0\n", "c a comment\n", "c\n"))
        for word in [*map(str, clause), "0"]:
            end = "\n" if word == "0" else " "
            if not is_plain and numbers.random() < 0.1:
                end = numbers.choice((" ", "\n"))
            text += word + end
    return text if text.endswith("\n") or is_plain else text.rstrip(" ") + "\n"


REFUSED = ("", "\n", "p cnf 1 1\n1 -2 0\n", "p cnf 2 1\n1 x 2 0\n", "p cnf 2 3\n1 0\n", "1 0\n",
           "p cnf 1 1\n1\n", "s UNSATISFIABLE\n", "p dnf 1 1\n1 0\n", "p cnf 1 2\n1 0\n-1 0\n2 0\n")


def few_variables(numbers: random.Random) -> Formula:
    variables = numbers.randrange(1, MOST + 1)
    lengths = numbers.choice(((1, 2, 3), (2, 3), (2,), (3,), (0, 1, 2, 3, 4)))
    clauses = random_clauses(numbers, variables, numbers.randrange(6 * variables), lengths)
    if numbers.random() < 0.1:      # a tautology, and repeated literals
        clauses += [[1, -1], [variables, variables, -1]]
    return Formula(layout(numbers, variables, clauses), variables, clauses,
                   model_of(variables, clauses))


def planted(numbers: random.Random) -> Formula:
    """Each clause has a literal of the model."""
    variables = numbers.randrange(20, 120)
    model = [variable * numbers.choice((-1, 1)) for variable in range(1, variables + 1)]
    clauses = random_clauses(numbers, variables, round(numbers.uniform(3, 5) * variables), (3, 4))
    for clause in clauses:
        place = numbers.randrange(len(clause))
        clause[place] = model[abs(clause[place]) - 1]
    return Formula(layout(numbers, variables, clauses), variables, clauses, model)


def pigeons(numbers: random.Random) -> Formula:
    """One pigeon more than holes."""
    holes = numbers.randrange(2, 6)
    sits = [[pigeon * holes + hole + 1 for hole in range(holes)] for pigeon in range(holes + 1)]
    clauses = [*sits, *([-one[hole], -other[hole]] for hole in range(holes)
                        for place, one in enumerate(sits) for other in sits[:place])]
    numbers.shuffle(clauses)
    variables = holes * (holes + 1)
    return Formula(layout(numbers, variables, clauses), variables, clauses, None)


def refused(numbers: random.Random) -> Formula:
    return Formula(numbers.choice(REFUSED), 1, None, None)


def short_refutation(formula: Formula) -> str:
    """Of a formula whose last two clauses are units that contradict each other."""
    count = len(formula.clauses or ())
    return f"{count + 1} 0 {count - 1} {count} 0\n"
