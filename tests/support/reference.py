"""The report of lrupd --serial --tries 0, computed from the page FORMAT, and not by the program. It
takes a line of each stream in turn."""
import re
from typing import Dict, FrozenSet, Iterable, List, NamedTuple, Optional, Sequence, Set, Tuple

Clause = FrozenSet[int]
VERDICTS = {0: "s UNSATISFIABLE", 3: "s UNKNOWN", 8: "s UNSATISFIABLE UNDER ASSUMPTIONS"}


def beginnings(number: str, hint: str) -> "re.Pattern[str]":
    """The beginnings of lines with such numbers, and with such hints of additions."""
    literal, signed = f"-?{number}", "-" if hint.startswith("-") else number
    numbers = f"( ({number} )*({number}|0\n?)?)?"
    hints = f"( ({hint} )*({signed}|{hint}|0\n?)?)?"
    literals = f"( ({literal} )*(-|{literal}|0\n?)?)?"
    return re.compile(f"({number}( ({literal} )*(-|{literal}|0{hints})?)?"
                      f"|{number} d{numbers}|{number} i{literals})?")


NUMBER, LONG = "[1-9][0-9]{0,17}", "[1-9][0-9]*"
RIGHT, TOO_LONG, RAT = (beginnings(NUMBER, NUMBER), beginnings(LONG, LONG),
                        beginnings(LONG, f"-?{LONG}"))


class Bad(Exception):
    """A line's fault, in the words of the report."""


class Layout(NamedTuple):
    """What a run's formula, streams and options say."""
    variables: int
    clauses: int
    streams: int
    lines: int
    room: int

    def owner(self, identity: int) -> Optional[int]:
        """The stream that owns the identity, 0 for the formula, None for nobody."""
        if identity <= self.clauses:
            return 0
        if identity > self.clauses + self.streams * self.lines:
            return None
        return (identity - self.clauses - 1) % self.streams + 1


class Stream:
    """A stream of which some lines have been read."""

    def __init__(self, number: int, text: str, layout: Layout) -> None:
        self.number, self.rest, self.layout = number, text, layout
        self.last, self.free = layout.clauses, layout.room
        self.dropped: Set[int] = set()
        self.line = 1
        self.added = self.deleted = 0
        self.end: Optional[str] = None

    def next_line(self) -> str:
        """The next line; '' at the stream's end."""
        for end in range(1, len(self.rest) + 1):
            read = self.rest[:end]
            if not RIGHT.fullmatch(read):
                raise Bad("too long" if TOO_LONG.fullmatch(read) else
                          "rat hint" if RAT.fullmatch(read) else "spelling")
            if read.endswith("\n"):
                self.rest = self.rest[end:]
                return read
        if self.rest:
            raise Bad("truncated")
        return ""

    def found(self, identity: int, clauses: Dict[int, Clause], retired: Set[int]) -> Clause:
        """The clause of a hint or an import."""
        if identity in self.dropped:
            raise Bad(f"dropped {identity}")
        if self.layout.owner(identity) is None or identity not in clauses:
            raise Bad(f"missing {identity}")
        if identity in retired:
            raise Bad(f"retired {identity}")
        return clauses[identity]

    def add(self, identity: int, literals: Clause, hints: Sequence[int],
            clauses: Dict[int, Clause], retired: Set[int]) -> None:
        if self.layout.owner(identity) != self.number or identity <= self.last:
            raise Bad("identity")
        self.want_variables(literals)
        if any(-literal in literals for literal in literals):
            raise Bad("tautology")
        if len(literals) > self.free:
            raise Bad("no room")
        false, has_conflict = set(literals), False
        for hint in hints:
            if has_conflict:
                raise Bad(f"excess {hint}")
            clause = self.found(hint, clauses, retired)
            left = clause - false
            if not left:
                has_conflict = True
            elif len(left) == 1 and -min(left) not in false:
                false.add(-min(left))
            else:
                raise Bad(f"not unit {hint}")
        if not has_conflict:
            raise Bad("no conflict")
        clauses[identity] = literals
        self.last, self.free, self.added = identity, self.free - len(literals), self.added + 1

    def take_over(self, identity: int, literals: Clause, clauses: Dict[int, Clause],
                  retired: Set[int]) -> None:
        """Checks an import."""
        if self.layout.owner(identity) in (None, self.number):
            raise Bad("identity")
        self.want_variables(literals)
        if self.found(identity, clauses, retired) != literals:
            raise Bad(f"differs {identity}")

    def delete(self, identity: int, clauses: Dict[int, Clause], retired: Set[int]) -> None:
        owner = self.layout.owner(identity)
        is_own = owner == self.number
        if (owner is None or identity in (retired if is_own else self.dropped)
                or is_own and identity not in clauses):
            raise Bad(f"not live {identity}")
        (retired if is_own else self.dropped).add(identity)
        self.deleted += 1

    def want_variables(self, literals: Iterable[int]) -> None:
        if any(abs(literal) > self.layout.variables for literal in literals):
            raise Bad("literal")

    def take_line(self, clauses: Dict[int, Clause], retired: Set[int]) -> Optional[Clause]:
        """Checks the next line. Returns the clause that it adds."""
        try:
            words = self.next_line().split()
            if not words:
                self.end = "ended"
                return None
            if words[1] == "d":
                for word in words[2:-1]:
                    self.delete(int(word), clauses, retired)
            elif words[1] == "i":
                self.take_over(int(words[0]), frozenset(map(int, words[2:-1])), clauses, retired)
            else:
                end = words.index("0")
                literals = frozenset(map(int, words[1:end]))
                self.add(int(words[0]), literals, list(map(int, words[end + 1:-1])), clauses,
                         retired)
                self.line += 1
                return literals
            self.line += 1
        except Bad as fault:
            self.end = f"bad line {self.line} ({fault})"
        return None


def expected(variables: int, formula: Sequence[Sequence[int]], texts: Sequence[str], lines: int,
             room: int, assumed: Optional[Sequence[int]] = None) -> Tuple[str, int]:
    """The report and the status."""
    layout = Layout(variables, len(formula), len(texts), lines, room)
    clauses = {number: frozenset(clause) for number, clause in enumerate(formula, 1)}
    retired: Set[int] = set()
    streams = [Stream(number, text, layout) for number, text in enumerate(texts, 1)]
    added: List[Clause] = []
    while any(stream.end is None for stream in streams):
        for stream in streams:
            clause = stream.take_line(clauses, retired) if stream.end is None else None
            if clause is not None:
                added.append(clause)
    status = 3
    if frozenset() in added:
        status = 0
    elif assumed is not None and any(clause <= {-one for one in assumed} for clause in added):
        status = 8
    return "".join(f"c stream {stream.number}: {stream.added} added, {stream.deleted} deleted, "
                   f"{stream.end}\n" for stream in streams) + VERDICTS[status] + "\n", status
