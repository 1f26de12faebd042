#!/usr/bin/env python3
"""Cuts recorded streams into rounds, for lrupd --rounds to check.

    chain.py ROUNDS FORMULA FOLDER STREAM...

The lines are ordered so that each comes after those that derive the clauses that it cites, and
before those that retire these clauses; this order is cut into ROUNDS pieces, at least 1. A round
saves the clauses that are live at its end, in the order of their identities, and a clause's number
in this order is its identity in the next round: so each piece is renumbered. FOLDER, a new one,
gets the streams and the sizes of all rounds, and

    lrup-recheck --tries 1000000 FOLDER FORMULA

checks them with lrupd. You needn't trust this script: lrupd reports what is wrong in a round.
"""
import sys
from collections import Counter
from pathlib import Path
from typing import Dict, List, NamedTuple, Set

USAGE = "usage: chain.py ROUNDS FORMULA FOLDER STREAM..., with 1 round or more"
MOST_CLAUSES = 16777215
# An identity that no clause has: cited in place of a clause that no stream derived, or that a
# checkpoint lacks.
NOWHERE = 10 ** 18 - 1


class Fault(Exception):
    pass


class Line(NamedTuple):
    stream: int
    kind: str  # a: addition, d: deletion, i: import
    identity: int
    literals: List[str]
    cited: List[int]


def read_line(stream: int, text: str) -> Line:
    identity, *words = text.split()
    if words[0] == "d":
        return Line(stream, "d", 0, [], list(map(int, words[1:-1])))
    if words[0] == "i":
        return Line(stream, "i", 0, words[1:-1], [int(identity)])
    end = words.index("0")
    return Line(stream, "a", int(identity), words[:end], list(map(int, words[end + 1:-1])))


def read_stream(stream: int, name: str) -> List[Line]:
    lines = []
    with open(name, errors="replace") as file:
        for number, text in enumerate(file, 1):
            try:
                lines.append(read_line(stream, text))
            except (ValueError, IndexError):
                raise Fault(f"{name}: line {number} isn't one of a stream") from None
    return lines


def clauses_of(formula: Path) -> int:
    with formula.open(errors="replace") as file:
        header = next((text.split() for text in file if text.startswith("p")), [])
    if (len(header) != 4 or not header[3].isdecimal() or len(header[3]) > 8
            or int(header[3]) > MOST_CLAUSES):
        raise Fault(
            f"{formula}: no header 'p cnf VARIABLES CLAUSES' with at most {MOST_CLAUSES} clauses")
    return int(header[3])


def in_order(streams: List[List[Line]]) -> List[Line]:
    """The lines of all streams ordered as described above. If no line is ready, takes one anyway:
    lrupd will report its fault."""
    owners = {line.identity: line.stream for lines in streams for line in lines if line.kind == "a"}
    cites = Counter(identity for lines in streams for line in lines if line.kind != "d"
                    for identity in line.cited)
    due, left, order = set(owners), [lines[::-1] for lines in streams], []

    def is_ready(line: Line) -> bool:
        retired = [identity for identity in line.cited if line.kind == "d"
                   and owners.get(identity) == line.stream]
        return due.isdisjoint(line.cited) and not any(cites[identity] for identity in retired)

    while any(left):
        ready = [lines for lines in left if lines and is_ready(lines[-1])]
        for lines in ready or [lines for lines in left if lines][:1]:
            line = lines.pop()
            order.append(line)
            due.discard(line.identity)
            cites.subtract(line.cited if line.kind != "d" else [])
    return order


def renumbered(line: Line, now: Dict[int, int]) -> Line:
    """The line with new identities; without deletions of clauses that a checkpoint lacks."""
    cited = [now.get(identity, NOWHERE) for identity in line.cited if line.kind != "d"
             or identity in now]
    return line._replace(identity=now.get(line.identity, 0), cited=cited)


def pieces(lines: List[Line], now: Dict[int, int], count: int, streams: int) -> List[List[Line]]:
    """The streams of a round whose formula has `count` clauses. Enters the identities of new
    clauses in `now`."""
    identities = [iter(range(count + number, NOWHERE, streams)) for number in range(1, streams + 1)]
    found: List[List[Line]] = [[] for _ in range(streams)]
    for line in lines:
        if line.kind == "a":
            now[line.identity] = next(identities[line.stream])
        found[line.stream].append(renumbered(line, now))
    return found


def text_of(line: Line) -> str:
    cited = list(map(str, line.cited))
    if line.kind == "a":
        return " ".join([str(line.identity), *line.literals, "0", *cited, "0\n"])
    return " ".join(["1", "d", *cited, "0\n"] if line.kind == "d"
                    else [*cited, "i", *line.literals, "0\n"])


def sizes_of(streams: List[List[Line]]) -> str:
    """The number of streams, and the identities and literals that each needs."""
    derived = [[line for line in lines if line.kind == "a"] for lines in streams]
    return (f"{len(streams)} {max(map(len, derived))} "
            f"{max(sum(len(line.literals) for line in lines) for lines in derived)}\n")


def live(streams: List[List[Line]], count: int) -> List[int]:
    """The identities of saved clauses: all except those that their owner, or every stream, has
    deleted."""
    derived: List[Set[int]] = [{line.identity for line in lines if line.kind == "a"}
                               for lines in streams]
    deleted = [{identity for line in lines if line.kind == "d" for identity in line.cited}
               for lines in streams]
    retired = [own & gone for own, gone in zip(derived, deleted)]
    return sorted(set(range(1, count + 1)).union(*derived).difference(*retired)
                  - set.intersection(*deleted))


def main() -> int:
    if (len(sys.argv) < 5 or not sys.argv[1].isdecimal() or len(sys.argv[1]) > 9
            or int(sys.argv[1]) < 1):
        sys.exit(USAGE)
    rounds, formula, folder, names = (int(sys.argv[1]), Path(sys.argv[2]),
                                      Path(sys.argv[3]), sys.argv[4:])
    try:
        count = clauses_of(formula)
        order = in_order([read_stream(number, name) for number, name in enumerate(names)])
        folder.mkdir()
    except (OSError, Fault) as error:
        sys.exit(f"chain.py: {error}")
    now = {identity: identity for identity in range(1, count + 1)}
    for number in range(1, rounds + 1):
        streams = pieces(order[len(order) * (number - 1) // rounds:len(order) * number // rounds],
                         now, count, len(names))
        (folder / f"round-{number}.sizes").write_text(sizes_of(streams))
        for stream, lines in enumerate(streams, 1):
            (folder / f"round-{number}.stream-{stream}").write_text("".join(map(text_of, lines)))
        places = {identity: place for place, identity in enumerate(live(streams, count), 1)}
        now = {identity: places[last] for identity, last in now.items() if last in places}
        count = len(places)
    return 0


if __name__ == "__main__":
    sys.exit(main())
