"""Two proofs over the four clauses, in three rounds, with one stream and with two; lrupd's reports
and checkpoints for these proofs, all written by hand; and what is expected of runs with
--rounds."""
from typing import Dict, List, Mapping, NamedTuple, Optional, Sequence, Tuple

from harness import FOUR, Pieces, Wanted, report, small

Texts = Sequence[Sequence[str]]  # for each round, the texts of its streams
Named = Tuple[str, Wanted]


class Proof(NamedTuple):
    """For each round, the streams, their lines in the report, and the next round's checkpoint.
    Round 3 derives the empty clause."""
    texts: List[List[str]]
    said: List[List[str]]
    saved: List[str]


# From the four clauses, round 1 derives the unit clause 2 and drops the clause 1 2; then round 2
# derives the unit clause 1 and drops the clause -1 2.
SAVED = "p cnf 2 4\nc id 2\n-1 2 0\nc id 3\n1 -2 0\nc id 4\n-1 -2 0\nc id 5\n2 0\n"
ONE = Proof([["5 2 0 1 2 0\n5 d 1 0\n"], ["5 1 0 4 2 0\n5 d 1 0\n"], ["5 0 3 4 2 0\n"]],
            [["1 added, 1 deleted, ended"], ["1 added, 1 deleted, ended"],
             ["1 added, 0 deleted, ended"]],
            [SAVED, "p cnf 2 4\nc id 2\n1 -2 0\nc id 3\n-1 -2 0\nc id 4\n2 0\nc id 5\n1 0\n", ""])
# Round 1 keeps clause 4, which only one stream drops; in round 3, stream 2 cites stream 1's clause.
TWO = Proof([["5 2 0 1 2 0\n5 d 1 0\n", "6 d 4 1 0\n"], ["5 d 1 0\n", "6 1 0 4 2 0\n6 d 1 0\n"],
             ["5 -1 0 3 2 0\n", "6 0 5 4 0\n"]],
            [["1 added, 1 deleted, ended", "0 added, 2 deleted, ended"],
             ["0 added, 1 deleted, ended", "1 added, 1 deleted, ended"],
             ["1 added, 0 deleted, ended", "1 added, 0 deleted, ended"]],
            [SAVED, "p cnf 2 4\nc id 2\n1 -2 0\nc id 3\n-1 -2 0\nc id 4\n2 0\nc id 6\n1 0\n", ""])


def stream_name(number: int, stream: int = 1) -> str:
    return f"d/round-{number}.stream-{stream}"


def saved_name(number: int) -> str:
    """The file of a round's formula, which the round before saves."""
    return f"d/round-{number}.cnf"


def first_words(texts: Texts) -> List[str]:
    """The command line, without options."""
    return ["--rounds", "d", "formula",
            *(stream_name(1, stream) for stream in range(1, len(texts[0]) + 1))]


def round_files(texts: Texts) -> Dict[str, str]:
    streams = {stream_name(number, stream): text for number, streams in enumerate(texts, 1)
               for stream, text in enumerate(streams, 1)}
    return {"formula": FOUR, **streams}


def fault(number: int, cause: str) -> str:
    return f"lrupd: round {number}: {cause}\n" if number > 1 else f"lrupd: {cause}\n"


def last(number: int, said: Sequence[str], status: int) -> str:
    """The report, if this is the last round."""
    return f"c round {number}\n" * (number > 1) + report(said, status)


# Tables of runs.

TRIES = "--tries 1000000"
ADDED, NOTHING = "1 added, 0 deleted, ended", "0 added, 0 deleted, ended"
DERIVING, REFUTING = "5 2 0 1 2 0\n", "5 2 0 1 2 0\n6 0 5 3 4 0\n"     # over the four clauses
BAD, BAD_SAID = "5 1 0 0\n", "0 added, 0 deleted, bad line 1 (no conflict)"
SAVED_ONE = FOUR.replace("2 4", "2 5") + "2 0\n"
OTHER = "p cnf 2 2\n2 0\n-2 0\n"    # another formula
LEFT = range(2, 7)  # rounds whose formulas are looked for at the end


def rounds(name: str, status: int, texts: Texts, out: str = "", err: str = "",
           saved: Sequence[str] = (), options: str = "", others: Mapping[str, str] = {},
           gone: Sequence[str] = (), do: str = "", how: str = "",
           pipes: Mapping[str, Pieces] = {}) -> Named:
    """A run with streams of these texts, and what has to be saved after each round; no other
    round's formula may exist, and no file may have changed.

    The shell first executes `do`; streams in `gone` or `pipes` aren't files at the end."""
    given = {name: text for name, text in {**round_files(texts), **others}.items()
             if name not in pipes}
    formulas: Dict[str, Optional[str]] = {saved_name(number): None for number in LEFT}
    left = {**formulas, **given,
            **{saved_name(number): text for number, text in enumerate(saved, 2)},
            **dict.fromkeys(gone)}
    words = [*small(options.split()), *first_words(texts)]
    return name, Wanted(words, status, out, err, given, pipes, shell=f'{do}exec "$@" {how}',
                        left=left)


def plain(text: str) -> str:
    """The checkpoint of a saved formula if nothing is derived or dropped."""
    return "".join(line for line in text.splitlines(True) if not line.startswith("c"))


def dropped_first(text: str) -> str:
    """The checkpoint of a formula of four clauses after a line that drops the first one."""
    clauses = plain(text).splitlines(True)[2:]
    return "p cnf 2 3\n" + "".join(f"c id {identity}\n{clause}"
                                   for identity, clause in enumerate(clauses, 2))
