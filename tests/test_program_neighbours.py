"""lrupd on a good proof of some thousand lines beside hostile neighbours, one after the other.

The proof cites no other stream, so its line in the report has to be the same each time as beside an
empty stream, with threads and with --serial. For some neighbours, the line of the neighbour is
known, too."""
import os
import random
import subprocess
import time
from pathlib import Path
from typing import Any, Callable, Iterator, List, NamedTuple, Optional, Union

import pytest

from harness import LIMIT, Pieces, example, feed, piped, started, written

FORMULA = example("bmc.cnf")
CLAUSES = 533
MEGABYTES = 10
Process = Any


def own(identity: int) -> str:
    """Renumbers an identity of a single stream for the first of two streams."""
    return str(identity if identity <= CLAUSES else CLAUSES + 1 + 2 * (identity - CLAUSES - 1))


def renumbered(line: str) -> str:
    """Renumbers a line of a single stream for the first of two streams."""
    words = line.split()
    if words[1] == "d":
        return " ".join([own(int(words[0])), "d",
                         *(own(int(word)) for word in words[2:-1]), "0"]) + "\n"
    end = words.index("0") + 1
    return " ".join([own(int(words[0])), *words[1:end],
                     *(own(int(word)) for word in words[end:-1]), "0"]) + "\n"


def endless(process: Process, serial: bool) -> Pieces:
    """Writes these bytes for a second, or until nobody reads."""
    ends = time.monotonic() + 1
    while time.monotonic() < ends:
        yield b"c" * 65_536


def is_alone(process: Process) -> bool:
    """Whether only the program's first thread and stream 1's two threads are left, for a while."""
    for _ in range(20):
        if len(os.listdir(f"/proc/{process.pid}/task")) != 3:
            return False
        time.sleep(0.01)
    return True


def silent(process: Process, serial: bool) -> Pieces:
    """Writes nothing until stream 1 has ended. With --serial, stream 1 waits for this stream, which
    then stays silent for only a second."""
    yield 1.0
    while not serial and process.poll() is None and not is_alone(process):
        yield 0.01


def imports(lines: List[str]) -> Iterator[str]:
    """An import for each line of the proof: of the line's clause if that is never deleted,
    otherwise of the formula's first clause."""
    clause = next(line for line in FORMULA.read_text().splitlines() if line[0] not in "cp").split()
    deleted = {identity for line in lines if line.split()[1] == "d"
               for identity in line.split()[2:-1]}
    for line in lines:
        words = line.split()
        if words[1] == "d" or words[0] in deleted:
            yield " ".join(["1", "i", *clause]) + "\n"
        else:
            yield " ".join([words[0], "i", *words[1:words.index("0")], "0"]) + "\n"


class Neighbour(NamedTuple):
    """A neighbour: the bytes of its stream or their writer, the options, and its line in the
    report, if known."""
    name: str
    what: Union[bytes, Callable[[Process, bool], Pieces]]
    known: Optional[str] = None
    options: List[str] = []


def neighbours(proof: str) -> Iterator[Neighbour]:
    lines = proof.splitlines(keepends=True)
    derived = [line.split()[0] for line in lines if line.split()[1] != "d"]
    first = CLAUSES + 2  # the first identity of stream 2
    never = int(derived[-1]) + 2_000  # an identity of stream 1, which doesn't get that far
    size = 1_000_000
    yield Neighbour("nothing", b"", "0 added, 0 deleted, ended")
    yield Neighbour("endless bytes", endless)
    yield Neighbour("empty lines", b"\n" * (MEGABYTES * size))
    yield Neighbour("a line that never ends",
                    f"{first} 1 ".encode() + b"1 " * (MEGABYTES * size // 2))
    yield Neighbour("random bytes", random.Random(1).getrandbits(8 * size).to_bytes(size, "little"))
    yield Neighbour("the same proof", proof.encode(), "0 added, 0 deleted, bad line 1 (identity)")
    yield Neighbour("deletions of its clauses",
                    "".join(f"{first} d {identity} 0\n" for identity in derived).encode(),
                    f"0 added, {len(derived)} deleted, ended")
    yield Neighbour("imports of its clauses", "".join(imports(lines)).encode(),
                    "0 added, 0 deleted, ended", ["--tries", "1000000"])
    yield Neighbour("hints in a circle",
                    f"{first} 1 0 {first + 2} 0\n{first + 2} 1 0 {first} 0\n".encode())
    yield Neighbour("a hint that never comes", f"{first} 1 0 {never} {derived[-1]} 0\n".encode(),
                    f"0 added, 0 deleted, bad line 1 (missing {never})")
    yield Neighbour("silence", silent, "0 added, 0 deleted, ended")


LINES = example("bmc.lrup").read_text().splitlines()
PROOF = "".join(map(renumbered, LINES))


@pytest.mark.parametrize("neighbour", [pytest.param(neighbour, id=neighbour.name)
                                       for neighbour in neighbours(PROOF)])
def test_a_neighbour_changes_nothing(program: str, way: List[str], neighbour: Neighbour,
                                     tmp_path: Path) -> None:
    own, other, what = written(PROOF, tmp_path, "proof"), tmp_path / "other", neighbour.what
    if isinstance(what, bytes):
        other.write_bytes(what)
    else:
        piped(other)
    words = [program, *way, *neighbour.options, FORMULA, own, other]
    with started(words, stdout=subprocess.PIPE, stderr=subprocess.PIPE, text=True) as process:
        feeds = None if isinstance(what, bytes) else feed(other, what(process, "--serial" in way))
        out, err = process.communicate(timeout=LIMIT)
    if feeds:
        feeds.join(LIMIT)
    assert process.returncode == 0, err
    of_proof, of_neighbour, verdict = out.splitlines()
    added = sum(" d " not in line for line in LINES)
    deleted = sum(len(line.split()) - 3 for line in LINES if " d " in line)
    assert of_proof == f"c stream 1: {added} added, {deleted} deleted, ended"
    if neighbour.known:
        assert of_neighbour == f"c stream 2: {neighbour.known}"
    else:
        assert of_neighbour.startswith("c stream 2: ")
    assert verdict == "s UNSATISFIABLE"
