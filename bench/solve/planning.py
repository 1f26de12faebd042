"""Plans, encoded for a SAT solver: facts and actions of each step, with too few steps for the goal.

All actions of a step may happen in any order. Only an action changes a fact (Kautz and Selman's
explanatory frame axioms)."""
from collections import defaultdict
from itertools import permutations
from typing import Dict, FrozenSet, Hashable, Iterable, List, NamedTuple, Set, Tuple

Fact = Hashable
Clauses = List[Tuple[int, ...]]


class Action(NamedTuple):
    needs: FrozenSet[Fact]
    adds: FrozenSet[Fact]
    removes: FrozenSet[Fact]


def action(needs: Iterable[Fact], adds: Iterable[Fact], removes: Iterable[Fact]) -> Action:
    return Action(frozenset(needs), frozenset(adds), frozenset(removes))


def collisions(actions: List[Action]) -> Set[Tuple[int, int]]:
    """Pairs of actions of which one removes what the other needs."""
    needed = defaultdict(list)
    for place, one in enumerate(actions):
        for fact in one.needs:
            needed[fact].append(place)
    pairs = {(place, other) for place, one in enumerate(actions) for fact in one.removes
             for other in needed[fact]}
    return {(min(pair), max(pair)) for pair in pairs if pair[0] != pair[1]}


class Steps:
    """Numbers the facts and actions of each step."""

    def __init__(self, facts: Iterable[Fact], actions: List[Action]) -> None:
        self.facts: Dict[Fact, int] = {fact: place
                                       for place, fact in enumerate(dict.fromkeys(facts))}
        self.actions, self.size = actions, len(self.facts) + len(actions)

    def fact(self, step: int, fact: Fact) -> int:
        return step * self.size + self.facts[fact] + 1

    def action(self, step: int, place: int) -> int:
        return step * self.size + len(self.facts) + place + 1

    def change(self, step: int) -> Clauses:
        """Clauses that say what an action needs and does, and that only an action changes a
        fact."""
        clauses: Clauses = []
        adding, removing = defaultdict(list), defaultdict(list)
        for place, one in enumerate(self.actions):
            happens = self.action(step, place)
            clauses += [(-happens, self.fact(step, fact)) for fact in one.needs]
            clauses += [(-happens, self.fact(step + 1, fact)) for fact in one.adds]
            clauses += [(-happens, -self.fact(step + 1, fact)) for fact in one.removes]
            for fact in one.adds:
                adding[fact].append(happens)
            for fact in one.removes:
                removing[fact].append(happens)
        for fact in self.facts:
            before, after = self.fact(step, fact), self.fact(step + 1, fact)
            clauses += [(before, -after, *adding[fact]), (-before, after, *removing[fact])]
        return clauses


def plan(actions: List[Action], start: Set[Fact], goal: Iterable[Fact],
         count: int) -> Tuple[int, Clauses]:
    """The number of variables, and the clauses: there is a plan of `count` steps."""
    # Sorted, since the order of sets varies between runs.
    steps = Steps(sorted(start.union(*(one.needs | one.adds | one.removes for one in actions)),
                         key=str), actions)
    clauses: Clauses = [(steps.fact(0, fact) if fact in start else -steps.fact(0, fact),)
                        for fact in steps.facts]
    pairs = sorted(collisions(actions))
    for step in range(count):
        clauses += steps.change(step)
        clauses += [(-steps.action(step, one), -steps.action(step, other)) for one, other in pairs]
    clauses += [(steps.fact(count, fact),) for fact in goal]
    return count * steps.size + len(steps.facts), clauses


def gripper(balls: int, count: int) -> Tuple[int, Clauses]:
    """A robot with two hands brings balls from one room to the other: take two, go, put them down,
    go back."""
    rooms, hands = ("here", "there"), ("left", "right")
    actions = [action([("robot", one)], [("robot", other)], [("robot", one)])
               for one, other in permutations(rooms)]
    for ball in range(balls):
        for room in rooms:
            for hand in hands:
                lies, held, free = ("ball", ball, room), ("ball", ball, hand), ("free", hand)
                actions += [action([lies, free, ("robot", room)], [held], [lies, free]),
                            action([held, ("robot", room)], [lies, free], [held])]
    start: Set[Fact] = {("robot", "here"), *(("free", hand) for hand in hands),
                        *(("ball", ball, "here") for ball in range(balls))}
    return plan(actions, start, [("ball", ball, "there") for ball in range(balls)], count)


def tiles(count: int) -> Tuple[int, Clauses]:
    """The puzzle of eight tiles, from one of the two positions that take the most moves, 31."""
    start, places = (8, 6, 7, 2, 5, 4, 3, 0, 1), range(9)
    near = [(one, other) for one in places for other in places
            if abs(one // 3 - other // 3) + abs(one % 3 - other % 3) == 1]
    actions = [action([(tile, one), (0, other)], [(tile, other), (0, one)],
                      [(tile, one), (0, other)]) for tile in range(1, 9) for one, other in near]
    return plan(actions, {(tile, place) for place, tile in enumerate(start)},
                [(tile, tile - 1) for tile in range(1, 9)], count)
