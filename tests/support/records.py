"""What tests of records share: the rounds in a record, the check of a complete record, and changes
to records."""
import hashlib
import os
import random
import re
import shutil
import signal
import subprocess
from pathlib import Path
from typing import Callable, Dict, List, Mapping, Optional, Sequence, Tuple

from harness import TRIM, run, started, until
from lrat import lrat_fault
from proof_forms import read_formula
from solving import (MODELS, Answer, check_again, command, in_environment, none_left,
                     want_answer)

UNKNOWN = "s UNKNOWN"
TRIES = 20


def saved_rounds(kept: Path) -> int:
    """The round with which a resumed run would begin; 1 if nothing is saved. A run that begins may
    remove the list of the run before at any time."""
    try:
        listed = (kept / "rounds.sha256").read_text()
    except FileNotFoundError:
        return 1
    found = re.search(r"  checkpoint-(\d+)\.cnf\n$", listed)
    return int(found[1]) if found else 1


def recorded(words: Sequence[object], kept: Path, least: int,
             tested: Optional[Mapping[str, object]]) -> None:
    """Makes the record of a run that is killed once it has saved this many rounds."""
    killed_once(f"{least} rounds are saved", lambda: saved_rounds(kept) > least, words, kept,
                tested)


def killed_once(what: str, holds: Callable[[], bool], words: Sequence[object], kept: Path,
                tested: Optional[Mapping[str, object]]) -> None:
    """Makes the record of a run that is killed once this holds. A run that ends before that is
    tried again."""
    for _ in range(TRIES):
        with started(command(["--proofs", kept, "--replace", *words], tested),
                     env=in_environment(tested), stdout=subprocess.DEVNULL) as running:
            until(what, lambda: holds() or running.poll() is not None)
            running.kill()
        none_left(f"LRUP_MARK={os.environ['LRUP_MARK']}")
        if running.returncode == -signal.SIGKILL and holds():
            return
    raise AssertionError(f"the run ended {TRIES} times before this: {what}")


def only_with(tools: Sequence[str], work: Path) -> Dict[str, str]:
    """The environment with a PATH that has only these programs, lrup-model, and what lrup-recheck
    may call."""
    place = work / "programs"
    place.mkdir()
    for name in [*tools, "sh", "tr", "sed", "cat", "head", "find", "mktemp", "mkfifo", "ln", "rm",
                 "perl"]:
        found = shutil.which(name)
        if found:
            (place / name).symlink_to(os.path.realpath(found))
    (place / "lrup-model").symlink_to(MODELS / "lrup-model")
    return {**os.environ, "PATH": str(place)}


def checkpoints(kept: Path) -> List[str]:
    return sorted(path.name for path in kept.iterdir()
                  if re.match(r"\.|checkpoint|rounds", path.name))


def way_on(answer: Answer, kept: Path, formula: Path) -> Tuple[int, bool]:
    """What the comment says: the number of saved rounds, and whether something is lost. It also
    shows the command that resumes the run."""
    said = [re.fullmatch(rf"{kept} has (\d+) rounds?(, but not what came after)?: lrup-solve "
                         rf"--resume {kept} {formula} continues the run",
                         line) for line in answer.comments]
    found = [one for one in said if one]
    assert len(found) == 1, f"one comment should say how to continue\n{answer.out}{answer.said}"
    return int(found[0][1]), found[0][2] is not None


def whole(kept: Path, formula: Path, work: Path) -> None:
    """Checks a record that has the whole proof."""
    check_again(kept)
    lrat = work / "lrat"
    done = run([TRIM, "--lrat", lrat, formula, kept])
    assert done.status == 0, done.err
    assert lrat_fault(read_formula(formula), lrat.read_text()) == ""
    lrat.unlink()


# Changes. Each returns the names of files, one of which a message has to name.

Change = Callable[[Path, random.Random], str]


def any_of(kept: Path, numbers: random.Random, pattern: str) -> Path:
    """A file of the saved rounds. Streams may be packed."""
    named = [line[66:] for line in (kept / "rounds.sha256").read_text().splitlines()]
    name = numbers.choice([name for name in named if re.fullmatch(pattern, name)])
    return [path for path in (kept / name, kept / f"{name}.zst") if path.exists()][0]


def listed_name(path: Path) -> str:
    """The name by which the record's list and messages call a file of the saved rounds."""
    return path.stem if path.suffix == ".zst" else path.name


def flipped(pattern: str) -> Change:
    def change(kept: Path, numbers: random.Random) -> str:
        path = any_of(kept, numbers, pattern)
        data = bytearray(path.read_bytes())
        data[numbers.randrange(len(data))] ^= 1 << numbers.randrange(8)
        path.write_bytes(data)
        return listed_name(path)
    return change


def filled(pattern: str) -> Change:
    """Puts bad lines at the beginning of a file, more of them than fit into a pipe."""
    def change(kept: Path, numbers: random.Random) -> str:
        path = any_of(kept, numbers, pattern)
        path.write_bytes(b"x\n" * (1 << 20) + path.read_bytes())
        return listed_name(path)
    return change


def cut(pattern: str) -> Change:
    def change(kept: Path, numbers: random.Random) -> str:
        path = any_of(kept, numbers, pattern)
        os.truncate(path, numbers.randrange(path.stat().st_size))
        return listed_name(path)
    return change


def swapped(pattern: str) -> Change:
    def change(kept: Path, numbers: random.Random) -> str:
        one = any_of(kept, numbers, pattern)
        other = one
        while other == one:
            other = any_of(kept, numbers, pattern)
        texts = one.read_bytes(), other.read_bytes()
        one.write_bytes(texts[1])
        other.write_bytes(texts[0])
        return f"{listed_name(one)}|{listed_name(other)}"
    return change


def removed(pattern: str, then: Callable[[Path], object] = lambda path: None) -> Change:
    def change(kept: Path, numbers: random.Random) -> str:
        path = any_of(kept, numbers, pattern)
        path.unlink()
        then(path)
        return listed_name(path)
    return change


def written_anew(name: str, text: str) -> Change:
    def change(kept: Path, numbers: random.Random) -> str:
        (kept / name).write_text(text)
        return name
    return change


def list_changed(pattern: str, by: str) -> Change:
    def change(kept: Path, numbers: random.Random) -> str:
        path = kept / "rounds.sha256"
        path.write_text(re.sub(pattern, by, path.read_text(), flags=re.M))
        return "rounds.sha256|round-1"
    return change


STREAM, SIZES, CHECKPOINT = r"round-\d+\.stream-\d+", r"round-\d+\.sizes", r"checkpoint-\d+\.cnf"
CHANGES: Dict[str, Change] = {
    **{f"{what} of {pattern}": made for pattern in (STREAM, SIZES, CHECKPOINT) for what, made in (
        ("a bit", flipped(pattern)), ("another bit", flipped(pattern)), ("the end", cut(pattern)),
        ("all", removed(pattern)))},
    "a long beginning": filled(STREAM), "streams swapped": swapped(STREAM),
    "sizes swapped": swapped(SIZES), "a pipe as a stream": removed(STREAM, os.mkfifo),
    "a folder as sizes": removed(SIZES, os.mkdir),
    "a link as a checkpoint": removed(CHECKPOINT, lambda path: path.symlink_to("/dev/zero")),
    "an empty list": written_anew("rounds.sha256", ""),
    "a list of nothing": written_anew("rounds.sha256", "x\n"),
    "a list without its end": list_changed(r"\n\Z", ""),
    "a list without its last line": list_changed(r"^.*checkpoint.*\n", ""),
    "a list that lacks a stream": list_changed(r"^.*round-1.stream-1\n", ""),
    "a list with two of one": list_changed(r"stream-2$", "stream-1"),
    "another folder's file": list_changed(r"checkpoint-", "../checkpoint-"),
    "another digest": list_changed(r"^[0-9a-f]", "g"),
    "digests of nothing": list_changed(r"^[0-9a-f]{64}", "0" * 64)}


def want_no_other(answer: Answer, status: int, formula: Path, kept: Path, names: str) -> None:
    """Checks that the answer is right, or that there is no answer and a message names one of these
    files."""
    if answer.status == status:
        answer.said = ""
        return want_answer(answer, status, formula)
    assert answer.status in (0, 1), answer.out + answer.said
    assert answer.answers == [UNKNOWN] * (answer.status == 0), answer.out + answer.said
    said = answer.said if answer.status == 1 else answer.out
    assert any(f"{kept}/{name}" in said for name in names.split("|")), (
        f"none of {names} is named\n{answer.out}{answer.said}")


def with_digests(kept: Path) -> None:
    """Writes the list again, with the digests that the files have now."""
    lines = (kept / "rounds.sha256").read_text().splitlines()
    names = [line[66:] for line in lines if (kept / line[66:]).exists()]
    (kept / "rounds.sha256").write_text("".join(
        f"{hashlib.sha256((kept / name).read_bytes()).hexdigest()}  {name}\n" for name in names))
