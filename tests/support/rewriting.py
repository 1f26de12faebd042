#!/usr/bin/env python3
"""Overwrites parts of files while other programs read them, until it is killed or a minute has
passed.

    rewriting.py SEED FILE...

It prints a line when it begins. Each change is undone a moment later, so that readers can
continue."""
import contextlib
import os
import random
import subprocess
import sys
import time
from pathlib import Path
from typing import Callable, Iterator, List, Sequence, Tuple

sys.dont_write_bytecode = True
from harness import FOUR, LIMIT, SANITIZING, Words, run, started, written

FILLINGS = b" 0123456789\n\0-di"
WITHOUT_ENDS, WITHOUT_SPACES = bytes.maketrans(b"\n", b" "), bytes.maketrans(b" ", b"1")
PAUSES = (0, 0.0002, 0.001)     # seconds
LINES = 30000
CUT = "a file was truncated while it was read\n"


def changed(text: bytes, numbers: random.Random) -> bytes:
    """Replaces digits, joins all lines, all numbers or both, writes one byte everywhere, or writes
    random bytes."""
    digits = bytes(numbers.sample(b"123456789", 9))
    kinds: List[Callable[[], bytes]] = [
        lambda: text.translate(bytes.maketrans(b"123456789", digits)),
        lambda: text.translate(bytes.maketrans(b"123456789", digits)),
        lambda: text.translate(WITHOUT_ENDS), lambda: text.translate(WITHOUT_SPACES),
        lambda: text.translate(WITHOUT_SPACES).translate(WITHOUT_ENDS),
        lambda: bytes([numbers.choice(FILLINGS)]) * len(text),
        lambda: bytes(numbers.choices(FILLINGS, k=len(text)))]
    return numbers.choice(kinds)()


def rewrite(paths: Sequence[str], numbers: random.Random) -> None:
    files = [(os.open(path, os.O_WRONLY), Path(path).read_bytes()) for path in paths]
    print("begins", flush=True)
    end = time.monotonic() + 60
    while time.monotonic() < end:
        file, text = numbers.choice(files)
        at = numbers.randrange(len(text))
        if numbers.randrange(20) == 0:
            os.ftruncate(file, at)
        else:
            at *= numbers.randrange(2)
            length = numbers.choice((1, 8, 500, len(text)))
            os.pwrite(file, changed(text[at:at + length], numbers), at)
        time.sleep(numbers.choice(PAUSES))
        os.pwrite(file, text, 0)
        time.sleep(numbers.uniform(0, 0.02))


@contextlib.contextmanager
def rewritten(seed: int, paths: Sequence[Path]) -> Iterator[None]:
    """Rewrites the files while the block runs."""
    words = [sys.executable, __file__, seed, *paths]
    with started(words, stdout=subprocess.PIPE, text=True) as process:
        assert process.stdout
        assert process.stdout.readline() == "begins\n"
        yield


def chained(streams: int, lines: int, work: Path) -> List[Path]:
    """Streams over the four clauses. In turn they get the lines of one chain, in which each line
    cites the line before it, and the last one derives the empty clause. A stream uses only every
    second identity of its own."""
    identities = [5 + 2 * (place - place % streams) + place % streams for place in range(lines)]
    texts = ["5 1 2 0 1 0\n"]
    texts += [f"{now} 1 2 0 {before} 0\n" for before, now in zip(identities, identities[1:-2])]
    before, last_but_one, last = identities[-3:]
    texts += [f"{last_but_one} 2 0 {before} 2 0\n", f"{last} 0 {last_but_one} 3 4 0\n"]
    return [written("".join(texts[number::streams]), work, f"stream{number + 1}")
            for number in range(streams)]


def withstands(command: Callable[[int, Path], Words], statuses: Sequence[int], runs: int, seed: int,
               work: Path) -> List[Tuple[int, Path]]:
    """Runs a program over streams that are rewritten, with a folder for each run. The output
    doesn't matter, but each run has to end with one of these statuses. Returns the statuses and the
    folders."""
    paths, formula, ended = chained(1 + seed % 2, LINES, work), written(FOUR, work), []
    with rewritten(seed, paths):
        for number in range(runs):
            folder = work / str(number)
            folder.mkdir()
            words = [*command(number, folder), formula, *paths]
            done = run(words, limit=60, env={**os.environ, **SANITIZING})
            assert done.status in statuses, f"run {number} ends with {done.status}: {done.err}"
            ended.append((done.status, folder))
    return ended


def cut_while_read(command: Words, name: str, work: Path) -> None:
    """Truncates a stream while the program reads it; the program must leave no file. A run that
    ends before that is tried again."""
    formula, found = written(FOUR, work), []
    for number in range(20):
        stream, = chained(1, 10 * LINES, work)
        folder = work / str(number)
        folder.mkdir()
        with started([*command, formula, stream], cwd=folder, stdout=subprocess.DEVNULL,
                     stderr=subprocess.PIPE, text=True) as running:
            time.sleep(0.01)
            os.truncate(stream, 0)
            found.append((running.communicate(timeout=LIMIT)[1], running.returncode))
        if found[-1] == (f"{name}: {CUT}", 1):
            assert os.listdir(folder) == []
            return
    raise AssertionError(f"no run said that the file was truncated: {found}")


if __name__ == "__main__":
    rewrite(sys.argv[2:], random.Random(sys.argv[1]))
