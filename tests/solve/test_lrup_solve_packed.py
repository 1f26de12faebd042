"""Records whose streams are packed: by lrup-solve itself, which packs the streams of saved rounds,
or by the user.

Runs are killed, also while they pack, and resumed: the answer has to be right, the record has to
pass its own check, and the tools have to read it. If streams can't be packed, they stay as they
are."""
import hashlib
import os
import random
import re
import shlex
import shutil
import signal
import subprocess
from pathlib import Path
from typing import Dict, List, Optional, Sequence

import pytest

from harness import (EXPLAIN, LRUP_RECHECK, NONE_BAD, PACKERS, PROGRAM, Ran, executable, generated,
                     needs, output_of, pack, run, until)
from records import (CHANGES, checkpoints, killed_once, only_with, recorded, saved_rounds,
                     want_no_other, way_on, whole)
from solving import (Answer, children_of, end_of, is_alive, listed, none_left, solve, started_run,
                     want_answer)

pytestmark = pytest.mark.usefixtures("solve_for_tests", "zstd")
SMALL = {"SAME_WORDS": 1, "SLICE": 20, "FIRST_WORDS": 4000, "PACKED_FROM": 1}
UNPACKED = {**SMALL, "PACKED_FROM": 1 << 40}
NOT_YET = "streams aren't packed yet: zstd couldn't"
NOTE = "packed: streams by zstd, whose SHA-256s are those of the unpacked ones"


@pytest.fixture
def zstd() -> None:
    """lrup-solve packs by zstd."""
    needs("zstd")


@pytest.fixture
def formula(tmp_path: Path) -> Path:
    return generated("pigeons 7", tmp_path)


@pytest.fixture
def kept(mark: str, tmp_path: Path) -> Path:
    """The folder of the record, of a run in small rows."""
    return tmp_path / "kept"


def packed(kept: Path) -> List[str]:
    return sorted(path.name for path in kept.glob("round-*.stream-*.zst"))


def plain(kept: Path) -> List[str]:
    return sorted(path.name for path in kept.glob("round-*.stream-*")
                  if re.search(r"stream-\d+$", path.name))


def replaced(kept: Path) -> List[str]:
    """The packed streams whose streams are gone. Until then a run that ends removes what it has
    packed."""
    streams = plain(kept)
    return [name for name in packed(kept) if name[:-len(".zst")] not in streams]


def round_of(name: str) -> int:
    return int(name[len("round-"):].split(".")[0])


def unpacked(path: Path) -> bytes:
    done = subprocess.run(["zstd", "-dcq", path], check=True, stdout=subprocess.PIPE)
    return done.stdout


def with_zstd(body: str, work: Path, packs: bool = True) -> Dict[str, str]:
    """An environment in which zstd does this first if it packs, or if it unpacks a stream of
    round 3."""
    own = shlex.quote(str(shutil.which("zstd")))
    case = "case $1 in -1*)" if packs else "case $(readlink /proc/$$/fd/0) in */round-3.*)"
    path = executable(f"{case} {body};; esac\nexec {own} \"$@\"", work, "bin/zstd")
    return {"PATH": f"{path.parent}:{os.environ['PATH']}"}


def recorded_packed(words: Sequence[object], kept: Path) -> None:
    """Makes the record of a run that is killed once it has packed something."""
    killed_once("something is packed", lambda: replaced(kept) != [], words, kept, SMALL)


def pack_saved(forms: Sequence[Optional[str]], kept: Path) -> None:
    """Packs the streams of saved rounds in these forms in turn; None leaves a stream as it is."""
    for number, name in enumerate(plain(kept)):
        form = forms[number % len(forms)]
        if form and round_of(name) < saved_rounds(kept):
            pack(kept / name, form)


def want_tidy(kept: Path) -> None:
    """No stream is there twice, and nothing is unfinished."""
    assert {name[:-len(".zst")] for name in packed(kept)} & set(plain(kept)) == set()
    assert [path.name for path in kept.iterdir() if path.name.startswith(".")] == []


def want_proved(kept: Path, formula: Path, work: Path) -> None:
    """The whole record is read by its command and by all tools, and `about` has the digests of the
    unpacked streams."""
    want_tidy(kept)
    whole(kept, formula, work)
    assert run([EXPLAIN, formula, kept]) == Ran(f"{NONE_BAD}\n", "", 0)
    checked = run([LRUP_RECHECK, "--lrupd", PROGRAM, kept])
    assert output_of(checked).splitlines()[-1] == "s UNSATISFIABLE"
    about = (kept / "about").read_text().splitlines()
    assert (NOTE in about) == bool(packed(kept))
    for name in packed(kept):
        digest = hashlib.sha256(unpacked(kept / name)).hexdigest()
        assert f"{digest}  {name[:-len('.zst')]}" in about
        assert name in listed(kept)


# Runs that pack.


@pytest.mark.parametrize("options", [["-j", "1"], ["-j", "2"], ["-j", "3", "--no-share"]],
                         ids=" ".join)
def test_a_killed_run_that_has_packed_is_resumed(options: List[str], formula: Path, kept: Path,
                                                 tmp_path: Path) -> None:
    recorded_packed([*options, formula], kept)
    answer = solve(["-v", *options, "--resume", kept, formula], tested=SMALL)
    want_answer(answer, 20)
    assert "lrupd has read what was saved" in answer.comments
    want_proved(kept, formula, tmp_path)


def test_runs_that_get_a_signal_pack_what_they_add(mark: str, kept: Path, tmp_path: Path) -> None:
    """Each run goes on from the packed rounds of the ones before."""
    formula, rounds = generated("pigeons 10", tmp_path), 0
    for word in ("--proofs", "--resume", "--resume"):
        with started_run(["-j", "2", word, kept, formula], SMALL) as running:
            first = f"round-{rounds + 1}.stream-1.zst"
            until(f"{first} is there", lambda: first in replaced(kept))
            running.send_signal(signal.SIGTERM)
            answer = end_of(running, 60)
        none_left(mark)
        before, (rounds, is_lost) = rounds, way_on(answer, kept, formula)
        assert rounds > before, answer.out
        assert not is_lost, answer.out
        assert first in packed(kept)
        want_tidy(kept)


def test_only_large_streams_are_packed(kept: Path, tmp_path: Path) -> None:
    """Without a hook only streams of 1 MB or more are packed."""
    formula = generated("pigeons 11", tmp_path)
    answer = solve(["-j", "2", "--save-every", "2", "--time", "9", "--proofs", kept, formula])
    want_answer(answer, 0)
    want_tidy(kept)
    assert packed(kept), os.listdir(kept)
    small = [name for name in packed(kept) if len(unpacked(kept / name)) < 1 << 20]
    assert small == []
    saved = way_on(answer, kept, formula)[0]
    large = [name for name in plain(kept) if (kept / name).stat().st_size >= 1 << 20]
    # A run that ends waits for a save that is under way, but not for the packer.
    assert [name for name in large if round_of(name) < saved - 1] == []


def tree(pid: int) -> Dict[str, int]:
    """The run's processes, and what the packer has started."""
    found = children_of(pid)
    for name in ("packer", "unpacker"):
        if name in found:
            found.update(children_of(found[name]))
    return found


@pytest.mark.parametrize("name", ["packer", "zstd"])
def test_a_packer_that_is_killed(name: str, mark: str, kept: Path, tmp_path: Path) -> None:
    """The run goes on, tells it once, and packs these streams with the next round's."""
    formula, slow = generated("pigeons 8", tmp_path), with_zstd("sleep 1", tmp_path)
    with started_run(["-j", "2", "--proofs", kept, formula], SMALL, slow) as running:
        for _ in range(2):
            until("something is packed", lambda: name in tree(running.pid)
                  or running.poll() is not None)
            pid = tree(running.pid).get(name, 0)
            if pid:
                os.kill(pid, signal.SIGKILL)
                until("it has ended", lambda: not is_alive(pid))
        answer = end_of(running)
    none_left(mark)
    want_answer(answer, 20)
    assert answer.comments.count(NOT_YET) == 1, answer.out
    want_proved(kept, formula, tmp_path)


def test_a_run_that_is_killed_while_it_packs(formula: Path, mark: str, kept: Path,
                                             tmp_path: Path) -> None:
    """Everything is killed at once. The resumed run leaves no trace of that."""
    slow = with_zstd("head -c 1000; sleep 100", tmp_path)
    with started_run(["-j", "2", "--proofs", kept, formula], SMALL, slow,
                     stdout=subprocess.DEVNULL) as running:
        until("something is packed", lambda: list(kept.glob(".*.zst.new")) != []
              and saved_rounds(kept) > 3)
        running.kill()
    none_left(mark)
    assert packed(kept) == []
    want_answer(solve(["-j", "2", "--resume", kept, formula], tested=SMALL), 20)
    assert checkpoints(kept) == []
    want_proved(kept, formula, tmp_path)


@pytest.mark.parametrize("body", ["ulimit -f 0", "exit 1", "head -c 100; exit 1", "kill -9 $$"])
def test_zstd_fails(body: str, formula: Path, kept: Path, tmp_path: Path) -> None:
    """As if the disk were full: the streams stay, and the run isn't disturbed."""
    answer = solve(["-j", "2", "--proofs", kept, formula], tested=SMALL,
                   env_more=with_zstd(body, tmp_path))
    want_answer(answer, 20)
    assert answer.comments.count(NOT_YET) == 1, answer.out
    assert packed(kept) == []
    want_proved(kept, formula, tmp_path)


def test_without_zstd_nothing_is_packed(formula: Path, kept: Path, tmp_path: Path) -> None:
    answer = solve(["-j", "2", "--proofs", kept, formula], tested=SMALL,
                   env_more=only_with([], tmp_path))
    want_answer(answer, 20)
    assert NOT_YET not in answer.comments
    assert packed(kept) == []
    want_proved(kept, formula, tmp_path)


def test_without_zstd_a_packed_record_is_not_resumed(formula: Path, kept: Path,
                                                     tmp_path: Path) -> None:
    """The record stays as it is, and can be resumed once zstd is there."""
    recorded_packed(["-j", "2", formula], kept)
    before = {path: path.read_bytes() for path in kept.iterdir()}
    words = ["-j", "2", "--resume", kept, formula]
    answer = solve(words, tested=SMALL, env_more=only_with([], tmp_path))
    said = f"lrup-solve: {kept}/{packed(kept)[0]}: no zstd on the PATH\n"
    assert answer.ran == Ran("", said, 1)
    assert {path: path.read_bytes() for path in kept.iterdir()} == before
    want_answer(solve(words, tested=SMALL), 20)
    want_proved(kept, formula, tmp_path)


# Records that are packed by others, or were changed.


def test_a_stream_that_was_left_beside_its_packed_form(formula: Path, kept: Path,
                                                       tmp_path: Path) -> None:
    """A killed run may leave both, of which a resumed run removes one."""
    recorded(["-j", "2", formula], kept, 3, UNPACKED)
    assert run(["zstd", "-q", *(kept / name for name in plain(kept)[:3])]).status == 0
    want_answer(solve(["-j", "2", "--resume", kept, formula], tested=UNPACKED), 20)
    assert packed(kept) == []
    want_proved(kept, formula, tmp_path)


@pytest.mark.parametrize("forms", [["zst"], ["gz", "bz2", None], ["xz", "zst", "gz"]],
                         ids=["zst", "gz, bz2 and none", "xz, zst and gz"])
def test_streams_that_the_user_has_packed(forms: List[Optional[str]], formula: Path, kept: Path,
                                          tmp_path: Path) -> None:
    recorded(["-j", "2", formula], kept, 3, UNPACKED)
    pack_saved(forms, kept)
    want_answer(solve(["-j", "2", "--resume", kept, formula], tested=SMALL), 20)
    want_tidy(kept)
    whole(kept, formula, tmp_path)


@pytest.fixture
def packed_record(formula: Path, kept: Path) -> Path:
    """The record of a killed run, with four saved rounds or more, whose streams were packed."""
    recorded(["-j", "2", formula], kept, 4, UNPACKED)
    pack_saved(["zst"], kept)
    return kept


def change(path: Path, how: str) -> None:
    """A packed stream is truncated, or isn't packed, or is that of another engine."""
    text = path.read_bytes()
    if how == "truncated":
        path.write_bytes(text[:len(text) // 2])
    elif how == "garbled":
        path.write_bytes(b"no zstd\n" + text)
    else:
        other, = set(path.parent.glob(re.sub(r"\d\.zst", "*.zst", path.name))) - {path}
        path.write_bytes(other.read_bytes())


def longest_stream(record: Path, number: int) -> Path:
    """An engine that starts late may have written nothing in a round."""
    return max(record.glob(f"round-{number}.stream-*.zst"), key=lambda path: path.stat().st_size)


def resume_changed(path: Path, how: str, formula: Path) -> Answer:
    """Resumes a run after this packed stream was changed. The run notices that, and ends."""
    change(path, how)
    answer = solve(["-j", "2", "--resume", path.parent, formula], tested=SMALL)
    want_answer(answer, 0)
    said = f"{path.with_suffix('')} was changed since it was saved"
    assert any(line.startswith(said) for line in answer.comments), answer.out
    return answer


each_ending = pytest.mark.parametrize("ending", PACKERS)
each_change = pytest.mark.parametrize("how", ["truncated", "garbled", "another"])


@each_change
def test_a_changed_stream_of_round_1(how: str, packed_record: Path, formula: Path,
                                     tmp_path: Path) -> None:
    """The run can be resumed once the stream is as it was."""
    stream = longest_stream(packed_record, 1)
    text = stream.read_bytes()
    resume_changed(stream, how, formula)
    stream.write_bytes(text)
    want_answer(solve(["-j", "2", "--resume", packed_record, formula], tested=SMALL), 20)
    want_proved(packed_record, formula, tmp_path)


@pytest.mark.parametrize("name", [name for name in CHANGES if "stream" in name])
def test_changed_streams(name: str, packed_record: Path, formula: Path) -> None:
    """A change of any round's stream is found, as it is if streams aren't packed."""
    names = CHANGES[name](packed_record, random.Random(1))
    answer = solve(["-j", "2", "--resume", packed_record, formula], tested=SMALL)
    want_no_other(answer, -1, formula, packed_record, names)


@each_change
def test_a_changed_stream_of_round_3(how: str, packed_record: Path, formula: Path,
                                     tmp_path: Path) -> None:
    """The record ends before this round, and the run can be resumed from there."""
    answer = resume_changed(longest_stream(packed_record, 3), how, formula)
    assert way_on(answer, packed_record, formula) == (2, True), answer.out
    assert saved_rounds(packed_record) == 3
    want_answer(solve(["-j", "2", "--resume", packed_record, formula], tested=SMALL), 20)
    want_proved(packed_record, formula, tmp_path)


@pytest.mark.parametrize("body, end", [
    ("exit 11", "ended with status 11"), ("kill -9 $$", "ended by a signal: Killed"),
    ("echo zstd: Not enough memory >&2; echo x >&2; exit 1",
     "ended with status 1: zstd: Not enough memory"),
    ("head -c 100; exit 127", "ended with status 127")])
def test_an_unpacker_that_fails(body: str, end: str, packed_record: Path, formula: Path,
                                tmp_path: Path) -> None:
    """That isn't a change of the stream. The run ends, and all rounds stay."""
    rounds = saved_rounds(packed_record) - 1
    words = ["-j", "2", "--resume", packed_record, formula]
    answer = solve(words, tested=SMALL, env_more=with_zstd(body, tmp_path, packs=False))
    want_answer(answer, 0)
    said = rf"{packed_record}/round-3\.stream-\d\.zst: zstd {end}"
    assert [line for line in answer.comments if re.fullmatch(said, line)], answer.out
    assert way_on(answer, packed_record, formula)[0] == rounds, answer.out
    assert saved_rounds(packed_record) == rounds + 1
    want_answer(solve(words, tested=SMALL), 20)
    want_proved(packed_record, formula, tmp_path)


@each_ending
@pytest.mark.parametrize("how", ["truncated", "garbled"])
def test_what_each_program_says_of_a_changed_stream(ending: str, how: str, formula: Path,
                                                    kept: Path) -> None:
    recorded(["-j", "2", formula], kept, 4, UNPACKED)
    resume_changed(pack(kept / "round-3.stream-2", ending), how, formula)
    assert saved_rounds(kept) == 3


@each_ending
def test_options_in_the_environment_are_not_for_unpackers(ending: str, formula: Path,
                                                          kept: Path) -> None:
    """Nor for the packer."""
    recorded(["-j", "2", formula], kept, 4, UNPACKED)
    pack_saved([ending], kept)
    more = {"XZ_DEFAULTS": "--memlimit-decompress=4KiB", "GZIP": "--none", "BZIP2": "--none",
            "ZSTD_CLEVEL": "none"}
    want_answer(solve(["-j", "2", "--resume", kept, formula], tested=SMALL, env_more=more), 20)
    want_tidy(kept)
