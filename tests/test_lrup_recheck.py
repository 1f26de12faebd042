"""lrup-recheck with lrupd, in each installed shell, and under failures.

lrupd decides the verdict; the tests check which arguments lrupd gets, that its report and status
are passed on, and which files are left. A file that replaces a round's formula changes nothing.
Records are made by hand here; test_lrup_solve_kept.py has those of lrup-solve. Then come wrong
scripts, each an edit of the right one: for each, some test has to fail. Expected results follow
from the clauses and the rules of rounds."""
import contextlib
import hashlib
import os
import re
import shutil
import signal
import subprocess
import threading
from functools import partial
from pathlib import Path
from typing import (Any, Callable, Dict, Iterator, List, Mapping, NamedTuple, Optional, Sequence,
                    Tuple)

import pytest

from harness import (FOUR, LIMIT, LRUP_RECHECK, PACKERS, ROOT, SMALL_ROW, Ran, Wanted, answers,
                     each_of, executable, held, named, pack, piped, report, run, small, started,
                     until, within, write_all, written)
from rounds import ONE, fault, last, round_files, saved_name

SHELLS = {"dash": ["dash"], "bash": ["bash"], "busybox": ["busybox", "sh"]}
INSTALLED = [name for name in SHELLS if shutil.which(name)]
ROUNDS, FOUND, SAVED = [streams for streams, in ONE.texts], ONE.said[0][0], ONE.saved
REFUTED = last(3, ONE.said[2], 0)
BAD, BAD_SAID = "5 1 0 0\n", "0 added, 0 deleted, bad line 1 (no conflict)"
OTHER = "p cnf 1 2\n1 0\n-1 0\n"        # another formula, which other streams refute
REFUTING = "5 2 0 1 2 0\n7 0 5 3 4 0\n"
USAGE = ("usage: lrup-recheck [--keep] [--lrupd PATH] [--tries N] [--lines N] [--room N] [--assume "
         "FILE] [--serial] [--watch] DIR [FORMULA]\n       lrup-recheck --help | --version\n")
NO_SIZES = "lrup-recheck: d/round-1.sizes: not STREAMS LINES ROOM\n"
Named = Tuple[str, Wanted]


class Recheck(NamedTuple):
    """lrup-recheck, or a wrong script, in a shell, with an lrupd."""
    shell: Sequence[str]
    script: Path
    lrupd: str

    def command(self, *words: object) -> List[object]:
        return [*self.shell, self.script, "--lrupd", self.lrupd, *words]

    def __call__(self, words: Sequence[object], **how: Any) -> Ran:
        return run(self.command(*words), **how)


@pytest.fixture(params=INSTALLED)
def recheck(request: pytest.FixtureRequest, program: str) -> Recheck:
    return Recheck(SHELLS[request.param], LRUP_RECHECK, program)


def files(streams: Sequence[str], others: Mapping[str, str] = {}) -> Dict[str, str]:
    """One stream in each round."""
    return {**round_files([[text] for text in streams]), **others}


def lay(folder: Path, streams: Sequence[str] = ROUNDS, others: Mapping[str, str] = {}) -> None:
    write_all(files(streams, others), folder)


def left(saved: Mapping[int, str] = {}) -> Dict[str, Optional[str]]:
    """The rounds' formulas that are expected at the end, and None for those that don't exist."""
    return {"formula": FOUR, **{saved_name(number): saved.get(number) for number in range(1, 6)}}


def run_of(name: str, status: int, streams: Sequence[str], out: str, err: str = "",
           saved: Mapping[int, str] = {}, words: Sequence[str] = (), others: Mapping[str, str] = {},
           shell: str = 'exec "$@"') -> Named:
    """Without a file of sizes, most runs are in a small row."""
    sized = words if "d/round-1.sizes" in others else small(words)
    return name, Wanted([*sized, "d", "formula"], status, out, err, files(streams, others),
                        shell=shell, left=left(saved))


# How runs end, and the files left.


RUNS: Dict[str, Wanted] = {}


def want_run(recheck: Recheck, wanted: Wanted, tmp_path: Path) -> None:
    shell, *words = map(str, recheck.command())
    answers(shell, wanted.under(words), tmp_path)


def runs(table: Callable[[], Iterator[Named]]) -> Callable[..., None]:
    """Makes a test of a function that yields named runs, which are also in RUNS."""
    found = dict(table())
    RUNS.update(found)

    @each_of(found.items())
    def test(recheck: Recheck, wanted: Wanted, tmp_path: Path) -> None:
        want_run(recheck, wanted, tmp_path)
    return test


@runs
def test_ends() -> Iterator[Named]:
    both = {2: SAVED[0], 3: SAVED[1]}
    yield run_of("three rounds", 0, ROUNDS, REFUTED)
    yield run_of("three rounds kept", 0, ROUNDS, REFUTED, saved=both, words=["--keep"])
    yield run_of("rounds after the last one", 0, [*ROUNDS, BAD], REFUTED)
    yield run_of("two rounds", 3, ROUNDS[:2], last(2, [FOUND], 3), saved={3: SAVED[1]})
    yield run_of("two rounds kept", 3, ROUNDS[:2], last(2, [FOUND], 3), saved=both,
                 words=["--keep"])
    yield run_of("one round", 3, ROUNDS[:1], report([FOUND], 3), saved={2: SAVED[0]})
    yield run_of("refuted in one round", 0, [REFUTING.replace("7", "6")],
                 report(["2 added, 0 deleted, ended"], 0))
    yield run_of("a round that is left out", 3, ROUNDS[:1], report([FOUND], 3), saved={2: SAVED[0]},
                 others={"d/round-3.stream-1": ROUNDS[2]})
    yield run_of("no folder", 1, [], "", "lrup-recheck: d: no such folder\n")
    yield run_of("no stream", 1, [], "", "lrup-recheck: d/round-1.stream-1: no such file\n",
                 others={"d/round-1.sizes": "1 1 1\n"})
    cube = {"cube": "-2 0\n"}
    yield run_of("under assumptions", 8, ROUNDS, report([FOUND], 8), saved={2: SAVED[0]},
                 words=["--assume", "cube"], others=cube)
    yield run_of("under assumptions in the last round", 8,
                 [ROUNDS[1].replace("4 2", "1 3"), "5 2 0 4 1 0\n"],
                 last(2, ["1 added, 0 deleted, ended"], 8), words=["--assume=cube"], others=cube,
                 saved={3: "p cnf 2 5\n-1 2 0\n1 -2 0\n-1 -2 0\n1 0\n2 0\n"})
    plain = "".join(line + "\n" for line in SAVED[0].splitlines() if line[0] != "c")
    yield run_of("a wrong line", 3, [ROUNDS[0], BAD, ROUNDS[2]], last(2, [BAD_SAID], 3),
                 saved={3: plain})
    yield run_of("a wrong line beside a refutation", 0, [REFUTING],
                 report(["2 added, 0 deleted, ended", BAD_SAID], 0),
                 others={"d/round-1.stream-2": BAD.replace("5", "6")})


@runs
def test_sizes() -> Iterator[Named]:
    """Sizes of round 1; lrupd itself reads the sizes of later rounds."""
    yield run_of("sizes", 0, ROUNDS, REFUTED,
                 others={"d/round-1.sizes": "1 1 1\n", "d/round-2.sizes": "1 1 1\n",
                         "d/round-3.sizes": "1 1 0\n"})
    yield run_of("sizes without a line feed", 0, ROUNDS, REFUTED,
                 others={"d/round-1.sizes": "1 1 1"})
    yield run_of("no line", 3, ROUNDS, report(["0 added, 0 deleted, bad line 1 (identity)"], 3),
                 saved={2: FOUR}, others={"d/round-1.sizes": "1 0 1\n"})
    yield run_of("no room", 3, ROUNDS, report(["0 added, 0 deleted, bad line 1 (no room)"], 3),
                 saved={2: FOUR}, others={"d/round-1.sizes": "1 1 0\n"})
    yield run_of("sizes of round 2", 2, ROUNDS, "", fault(2, "sizes"), {2: SAVED[0]},
                 others={"d/round-2.sizes": "1 1\n"})
    yield run_of("sizes by words", 0, ROUNDS, REFUTED,
                 words=["--lines", "1", "--room=1", "--tries", "0", "--serial"])
    yield run_of("too large", 2, ROUNDS, "", "lrupd: row too long\n",
                 others={"d/round-1.sizes": "1 268435456 1"})
    yield run_of("of an earlier lrup-chain", 2, ROUNDS, "", NO_SIZES,
                 others={"d/round-1.sizes": "250 2000\n"})
    for words in (["--lines", "1"], ["--lines=1"], ["--room", "1"],
                  ["--tries", "1", "--room=1", "--serial"]):
        option = next(word for word in words if word[2:6] in ("line", "room")).split("=")[0]
        yield run_of(f"sizes and {' '.join(words)}", 2, ROUNDS, "",
                     f"lrup-recheck: {option}: refused, since d/round-1.sizes gives it\n",
                     words=words, others={"d/round-1.sizes": "1 1 1\n"})
    yield run_of("no sizes", 2, ROUNDS, "", NO_SIZES, others={"d/round-1.sizes": ""})
    yield ("fewer streams",
           Wanted(["d", "formula"], 0, last(2, ["1 added, 0 deleted, ended"], 0), left=left(),
                  files=files([ROUNDS[0], "6 0 5 3 4 0\n"],
                              {"d/round-1.stream-2": "", "d/round-2.sizes": "1 1 0\n"})))


@pytest.mark.parametrize("text", [
    "1 1 x", "1 x 1", "1 1 1 1", "1 -1 1", "1 1 -1", "1 1 1 --serial", "1 --serial x", "1 1 *",
    "1 1 $(id)", "1 \u0661 1"])
def test_refused_sizes(recheck: Recheck, text: str, tmp_path: Path) -> None:
    """If anything but two numbers follows the number of streams, lrupd refuses the sizes."""
    lay(tmp_path, others={"d/round-1.sizes": text, "d/round-1.stream-2": "", "x": ""})
    done = recheck(["d", "formula"], cwd=tmp_path)
    assert (done.out, done.status) == ("", 2)
    assert not (tmp_path / "d/round-2.cnf").exists()


@runs
def test_a_name_that_is_taken() -> Iterator[Named]:
    """If a checkpoint can't be created, nothing is touched."""
    refused = "cannot create checkpoint"
    yield run_of("round-2.cnf is there", 5, ROUNDS, "", fault(1, refused), {2: OTHER},
                 others={"d/round-2.cnf": OTHER})
    yield run_of("round-3.cnf is there", 5, ROUNDS, "", fault(2, refused), {2: SAVED[0], 3: OTHER},
                 others={"d/round-3.cnf": OTHER})
    yield run_of("round-5.cnf is there", 0, ROUNDS, REFUTED, saved={5: OTHER},
                 others={"d/round-5.cnf": OTHER})
    yield ("its own checkpoint for the formula",
           Wanted(["d", "d/round-2.cnf"], 5, err=fault(1, refused), left=left({2: FOUR}),
                  files=files(ROUNDS, {"d/round-2.cnf": FOUR})))
    yield "a formula that isn't there", Wanted(
        ["d", "absent"], 5, err="lrupd: cannot read formula\n", files=files(ROUNDS), left=left())
    yield run_of("a full disk", 9, ROUNDS, report([FOUND], 3), "lrupd: checkpoint not written\n",
                 {2: ""}, shell='ulimit -f 0; exec "$@"')


@pytest.mark.parametrize("how", ["> /dev/full", ">&-"])
def test_a_report_that_cannot_be_written(recheck: Recheck, how: str, tmp_path: Path) -> None:
    """There is no verdict, and nothing is removed."""
    lay(tmp_path)
    done = run(["sh", "-c", f'exec "$@" {how}', "sh", *recheck.command(*SMALL_ROW, "d", "formula")],
               cwd=tmp_path)
    assert (done.out, done.status) == ("", 7)
    assert (tmp_path / "d/round-2.cnf").exists()


def test_a_full_disk_in_round_2(recheck: Recheck, tmp_path: Path) -> None:
    """Files are limited to the size of round 1's checkpoint; round 2's is larger."""
    streams = [ROUNDS[0], "".join(f"{number} 2 0 4 0\n" for number in range(5, 25)), ROUNDS[2]]
    lay(tmp_path, streams)
    done = recheck([*SMALL_ROW, "d", "formula"], cwd=tmp_path,
                   preexec_fn=lambda: within(len(SAVED[0])))
    assert done == Ran(last(2, ["20 added, 0 deleted, ended"], 3),
                       fault(2, "checkpoint not written"), 9)


# Compressed streams.


def lay_packed(forms: Sequence[str], folder: Path) -> List[str]:
    """Writes three rounds, with streams compressed in different forms; returns the names in the
    folder d."""
    lay(folder)
    for number, form in enumerate(forms, 1):
        pack(folder / "d" / f"round-{number}.stream-1", form)
    return sorted(os.listdir(folder / "d"))


@pytest.mark.parametrize("formula", ["formula", "/dev/stdin"])
@pytest.mark.parametrize("forms", [["xz"], ["gz", "zst"], ["xz", "gz", "xz"]], ids=" ".join)
def test_packed_streams(recheck: Recheck, forms: Sequence[str], formula: str,
                        tmp_path: Path) -> None:
    """A pipe takes each stream's place until the end; the formula may be standard input."""
    names = lay_packed(forms, tmp_path)
    done = recheck([*SMALL_ROW, "d", formula], given=FOUR, cwd=tmp_path)
    assert done == Ran(REFUTED, "", 0)
    assert sorted(os.listdir(tmp_path / "d")) == names


@pytest.mark.parametrize("form", PACKERS)
def test_a_packed_stream_that_is_truncated(recheck: Recheck, form: str, tmp_path: Path) -> None:
    """The file is named, after what its program says of it."""
    names = lay_packed([form], tmp_path)
    path = tmp_path / "d" / names[0]
    path.write_bytes(path.read_bytes()[:20])
    done = recheck([*SMALL_ROW, "d", "formula"], cwd=tmp_path)
    said = f"lrup-recheck: {PACKERS[form]} can't unpack d/{names[0]}"
    assert (done.out, done.err.splitlines()[-1], done.status) == ("", said, 1)
    left = sorted(name for name in os.listdir(tmp_path / "d") if not name.endswith(".cnf"))
    assert left == names


@pytest.mark.parametrize("body", ["exit 11", "head -c 3; exit 1", "kill -9 $$"])
def test_an_unpacking_program_that_fails(recheck: Recheck, body: str, tmp_path: Path) -> None:
    """A shell may say before that the program was killed."""
    names = lay_packed(["gz", "zst"], tmp_path)
    path = executable(body, tmp_path, "bin/zstd").parent
    done = recheck([*SMALL_ROW, "d", "formula"], cwd=tmp_path,
                   env={**os.environ, "PATH": f"{path}:{os.environ['PATH']}"})
    said = f"lrup-recheck: zstd can't unpack d/{names[-2]}"
    assert (done.out, done.err.splitlines()[-1], done.status) == ("", said, 1)


def test_a_proof_that_does_without_a_stream(recheck: Recheck, tmp_path: Path) -> None:
    """If a stream that can't be unpacked isn't needed, lrupd's verdict stands."""
    lay(tmp_path, [REFUTING], {"d/round-1.stream-2.xz": "no xz\n"})
    done = recheck([*SMALL_ROW, "d", "formula"], cwd=tmp_path)
    assert (done.out.splitlines()[-1], done.status) == ("s UNSATISFIABLE", 0)


@pytest.mark.parametrize("name, value", [
    ("XZ_DEFAULTS", "--memlimit-decompress=4KiB"), ("XZ_OPT", "--memlimit-decompress=4KiB"),
    ("GZIP", "--none"), ("BZIP", "--none"), ("BZIP2", "--none"), ("ZSTD_CLEVEL", "none")])
def test_options_in_the_environment_are_not_for_us(recheck: Recheck, name: str, value: str,
                                                   tmp_path: Path) -> None:
    lay_packed(["xz", "gz", "bz2"] if name[0] != "Z" else ["zst"], tmp_path)
    done = recheck([*SMALL_ROW, "d", "formula"], cwd=tmp_path, env={**os.environ, name: value})
    assert done == Ran(REFUTED, "", 0)


def test_without_the_unpacking_program_nothing_is_checked(recheck: Recheck,
                                                          tmp_path: Path) -> None:
    names = lay_packed(["xz"], tmp_path)
    for tool in ("tr", "sed"):
        (tmp_path / tool).symlink_to(str(shutil.which(tool)))
    shell = [str(shutil.which(recheck.shell[0])), *recheck.shell[1:]]
    done = recheck._replace(shell=shell)(["d", "formula"], cwd=tmp_path,
                                         env={"PATH": str(tmp_path)})
    assert done == Ran("", f"lrup-recheck: no xz on the PATH for d/{names[0]}\n", 1)


def processes_in(folder: Path) -> List[str]:
    """The names of the processes whose working directory this is."""
    found = []
    for process in Path("/proc").glob("[0-9]*"):
        with contextlib.suppress(OSError):      # it has ended, or is another user's
            if os.readlink(process / "cwd") == str(folder.resolve()):
                found.append((process / "comm").read_text().strip())
    return sorted(found)


def test_a_signal_while_packed_streams_are_checked(recheck: Recheck, tmp_path: Path) -> None:
    """It comes while lrupd waits: no pipe and no process is left."""
    names = lay_packed(["xz", "gz"], tmp_path)
    slow = executable("exec sleep 1000", tmp_path, "slow")
    with started(recheck._replace(lrupd=str(slow)).command("d", "formula"), cwd=tmp_path,
                 stdout=subprocess.DEVNULL) as running:
        until("lrupd runs", lambda: "sleep" in processes_in(tmp_path))
        running.terminate()
        assert running.wait(LIMIT) == 143
    assert processes_in(tmp_path) == []
    assert sorted(os.listdir(tmp_path / "d")) == names


# Records.


def digest_line(path: Path) -> str:
    """As sha256sum prints it."""
    digest, name = hashlib.sha256(path.read_bytes()).hexdigest(), str(path)
    shown = name.replace("\\", "\\\\").replace("\n", "\\n").replace("\r", "\\r")
    return f"{'' if shown == name else chr(92)}{digest}  {shown}\n"


def shown(path: Path) -> str:
    return re.sub("[\x01-\x1f\x7f-\x9f]", "?", str(path))


def first_line(what: str, path: Path) -> str:
    return f"c {what} {shown(path)}, SHA-256 {hashlib.sha256(path.read_bytes()).hexdigest()}\n"


def lay_record(folder: Path, streams: Sequence[str] = ROUNDS, name: str = "formula",
               cube: str = "") -> Path:
    """Returns the formula's path."""
    formula = written(FOUR, folder / "there", name)
    lay(folder, streams, {f"d/round-{k}.sizes": "1 1 1\n" for k in range(1, len(streams) + 1)})
    (folder / "formula").unlink()
    lines = digest_line(formula)
    if cube:
        lines += digest_line(written(cube, folder / "there", "cube"))
    written(lines, folder, "d/formula.sha256")
    return formula


def times_in(folder: Path) -> Dict[Path, int]:
    return {path: path.stat().st_mtime_ns for path in [folder, *folder.iterdir()]}


def want_answer(recheck: Recheck, words: Sequence[object], wanted: Ran, folder: Path,
                cwd: Optional[Path] = None, env: Optional[Mapping[str, str]] = None) -> None:
    """The answer is this one, nothing in the record changes, and no temporary file is left."""
    before = times_in(folder / "d")
    (folder / "temporary").mkdir(exist_ok=True)
    done = recheck(words, cwd=cwd or folder, env=env or {**os.environ, "TMPDIR": "temporary"})
    assert done == wanted
    assert times_in(folder / "d") == before
    assert os.listdir(folder / "temporary") == []


@pytest.mark.parametrize("name", [pytest.param("formula", id="plain"),
                                  pytest.param("a\\b\nc \n", id="odd"),
                                  pytest.param("\xe9\x9b31m\u26c0\x80", id="controls")])
def test_a_record(recheck: Recheck, name: str, tmp_path: Path) -> None:
    """From any folder. The formula is where formula.sha256 says, or has moved."""
    formula = lay_record(tmp_path, name=name)
    wanted = Ran(first_line("formula", formula) + REFUTED, "", 0)
    for words, cwd in ((("d",), tmp_path), (("--serial", "--", "./d/"), tmp_path),
                       ((tmp_path / "d",), Path("/"))):
        want_answer(recheck, words, wanted, tmp_path, cwd=cwd, env=os.environ)
    moved = formula.rename(tmp_path / "-moved\r")
    wanted = wanted._replace(out=first_line("formula", moved) + REFUTED)
    for more in (("--", "d", moved.name), ("d", moved), ("d", f"d/../{moved.name}")):
        want_answer(recheck, more, wanted, tmp_path)
    said = f"lrup-recheck: {shown(formula)} isn't there, or can't be read\n"
    want_answer(recheck, ["d"], Ran("", said, 1), tmp_path)
    shutil.copy(moved, tmp_path / "d" / "formula.cnf")
    wanted = wanted._replace(out=first_line("formula", tmp_path / "d" / "formula.cnf") + REFUTED)
    want_answer(recheck, ["d"], wanted, tmp_path)


def test_an_unproved_record(recheck: Recheck, tmp_path: Path) -> None:
    formula = lay_record(tmp_path, ROUNDS[:2])
    wanted = first_line("formula", formula) + last(2, [FOUND], 3)
    want_answer(recheck, ["d"], Ran(wanted, "", 3), tmp_path)


def test_a_record_of_another_formula(recheck: Recheck, tmp_path: Path) -> None:
    formula = lay_record(tmp_path)
    other = written(OTHER, tmp_path, "other")
    for words in (["d", "other"], ["d"]):
        said = f"{other if words[1:] else formula} isn't the formula of this record, or was changed"
        want_answer(recheck, words, Ran("", f"lrup-recheck: {said} since\n", 1), tmp_path)
        formula.write_text(OTHER)


def test_a_record_whose_digests_do_not_end(recheck: Recheck, tmp_path: Path) -> None:
    """They are read only up to the length that a run may have written."""
    lay_record(tmp_path)
    os.truncate(tmp_path / "d" / "formula.sha256", 1 << 40)
    done = recheck(["d"], cwd=tmp_path, limit=20)
    assert (done.out, done.status) == ("", 1)
    assert done.err.endswith("x isn't there, or can't be read\n")


def test_a_temporary_folder_that_is_not_in_utf_8(recheck: Recheck, tmp_path: Path) -> None:
    """lrupd refuses its name, so it isn't asked."""
    lay_record(tmp_path)
    place = tmp_path / os.fsdecode(b"a\xff")
    place.mkdir()
    done = recheck(["d"], cwd=tmp_path, env={**os.environ, "TMPDIR": str(place)})
    said = f"lrup-recheck: {place} isn't UTF-8, as lrupd needs it: choose another TMPDIR\n"
    assert done == Ran("", said, 1)
    assert os.listdir(place) == []


def test_a_record_whose_formula_is_replaced(recheck: Recheck, tmp_path: Path) -> None:
    """lrupd reads the open file whose digest was checked."""
    formula = lay_record(tmp_path)
    wanted = Ran(first_line("formula", formula) + REFUTED, "", 0)
    for name in ("sha256sum", "shasum", "openssl"):
        executable(f"'{shutil.which('sha256sum')}' && echo > replaced.new && "
                   f"mv replaced.new '{formula}'", tmp_path / "tools", name)
    path = f"{tmp_path}/tools:{os.environ['PATH']}"
    want_answer(recheck, ["d"], wanted, tmp_path,
                env={**os.environ, "TMPDIR": "temporary", "PATH": path})
    assert formula.read_text() == "\n"


def test_a_record_under_assumptions(recheck: Recheck, tmp_path: Path) -> None:
    """Assumptions are checked like the formula."""
    formula = lay_record(tmp_path, ROUNDS[:1], cube="-2 0\n")
    cube = tmp_path / "there" / "cube"
    wanted = Ran(first_line("formula", formula) + first_line("assumptions", cube)
                 + report([FOUND], 8), "", 8)
    want_answer(recheck, ["d"], wanted, tmp_path)
    moved = cube.rename(tmp_path / "a cube")
    wanted = wanted._replace(out=wanted.out.replace(str(cube), str(moved)))
    want_answer(recheck, ["--assume", "a cube", "d", formula], wanted, tmp_path)
    moved.write_text("2 0\n")
    said = f"lrup-recheck: {moved} isn't the assumptions of this record, or was changed since\n"
    want_answer(recheck, ["--assume=a cube", "d"], Ran("", said, 1), tmp_path)


def without(name: str, then: Callable[[Path], Any] = lambda path: None) -> Callable[[Path], Any]:
    def change(folder: Path) -> None:
        (folder / name).unlink()
        then(folder / name)
    return change


REFUSED_RECORDS: List[Tuple[str, Callable[[Path], Any], List[str], str, int]] = [
    ("without a stream", without("round-2.stream-1"), [],
     "DIR/round-2.stream-1 isn't there, or can't be read", 1),
    ("with a FIFO", without("round-2.stream-1", os.mkfifo), [],
     "DIR/round-2.stream-1 isn't a regular file", 1),
    ("without sizes", without("round-3.sizes"), [],
     "DIR/round-3.sizes isn't there, or can't be read", 1),
    ("with a FIFO for digests", without("formula.sha256", os.mkfifo), [],
     "DIR/formula.sha256 isn't a regular file", 1),
    ("that has lost its digests",
     without("formula.sha256", lambda path: written("", path.parent, "command")), [],
     "DIR/formula.sha256 isn't there, or can't be read", 1),
    ("and --keep", lambda folder: None, ["--keep"],
     "--keep: refused, since nothing is written into a record", 2),
    ("and --lines", lambda folder: None, ["--lines=1"],
     "--lines: refused, since DIR/round-1.sizes gives it", 2),
    ("and --assume", lambda folder: None, ["--assume", "formula"],
     "--assume: refused, since the record has no assumptions", 2)]


@pytest.mark.parametrize("change, words, said, status", named(REFUSED_RECORDS))
def test_a_refused_record(recheck: Recheck, change: Callable[[Path], Any], words: Sequence[str],
                          said: str, status: int, tmp_path: Path) -> None:
    lay_record(tmp_path)
    change(tmp_path / "d")
    said = said.replace("DIR", str(tmp_path / "d"))
    want_answer(recheck, [*words, "d"], Ran("", f"lrup-recheck: {said}\n", status), tmp_path)


def test_a_packed_record(recheck: Recheck, tmp_path: Path) -> None:
    formula = lay_record(tmp_path)
    for number, form in enumerate(("xz", "gz"), 1):
        pack(tmp_path / "d" / f"round-{number}.stream-1", form)
    want_answer(recheck, ["d"], Ran(first_line("formula", formula) + REFUTED, "", 0), tmp_path)


# Arguments and names.


@runs
def test_words() -> Iterator[Named]:
    other = files(["3 0 1 2 0\n", ""], {"other": OTHER})
    misused: List[List[str]] = [
        [], ["--help"], ["-h"], ["--help", "d", "formula"], ["-x", "d", "formula"],
        ["--tries"], ["--lrupd"], ["--assume"], ["--lines"], ["d", "formula", "other"],
        ["--checkpoint", "x", "d", "formula"], ["--rounds=x", "d", "formula"],
        ["d", "--keep", "formula"], ["--", "--keep", "d", "formula"],
        ["--keep=1", "d", "formula"], ["--serial", "--", "d", "formula", "other"]]
    for given in misused:
        yield f"words {given}", Wanted(given, 2, err=USAGE, files=other, left=left())
    none = "d has no formula.sha256, so name the formula: lrup-recheck DIR FORMULA"
    for given, status, said in (
            (["d"], 2, none), (["--keep", "--", "d"], 2, none),
            (["formula", "d"], 1, "formula: no such folder"), (["", "d"], 1, ": no such folder"),
            (["--tries", "d", "formula"], 1, "formula: no such folder")):
        yield (f"words {given}", Wanted(given, status, err=f"lrup-recheck: {said}\n", files=other,
                                        left=left()))
    for given in (["--version"], ["--version", "d", "formula"],
                  ["--keep", "--version", "d", "formula"]):
        yield f"words {given}", Wanted(given, 2, err="lrup-recheck of the sources\n",
                                       files=other, left=left())
    names = {"-f*o\n r": FOUR,
             **{f"-d\n *x/round-{number}.stream-1": text for number, text in enumerate(ROUNDS, 1)}}
    yield "names", Wanted(["--", "-d\n *x", "-f*o\n r"], 0, REFUTED, files=names)
    yield "names kept", Wanted(["--keep", "--", "-d\n *x", "-f*o\n r"], 0, REFUTED, files=names,
                               left={"-d\n *x/round-2.cnf": SAVED[0]})
    yield "a cube's name", Wanted(["--assume", "a *\nb", "d", "formula"], 8, report([FOUND], 8),
                                  files=files(ROUNDS[:1], {"a *\nb": "-2 0\n"}))
    yield "standard input", Wanted(["d", "/dev/stdin"], 0, REFUTED, files=files(ROUNDS), given=FOUR)
    yield "the folder of the formula", Wanted(["d/", "d/formula"], 0, REFUTED,
                                              files={**files(ROUNDS), "d/formula": FOUR})
    yield "watched", Wanted(["--watch", "d", "formula"], 3, report([FOUND], 3),
                            f"lrupd: stream 1: {FOUND}\n", files=files(ROUNDS[:1]))
    many = {f"a b/round-1.stream-{number}": f"{number + 4} 2 0 1 2 0\n" for number in range(1, 13)}
    yield ("twelve streams",
           Wanted(["a b", "formula"], 3, report(["1 added, 0 deleted, ended"] * 12, 3),
                  files={"formula": FOUR, **many, "a b/round-1.sizes": "12 1 1\n"}))
    del many["a b/round-1.stream-3"]
    yield ("streams up to the third",
           Wanted(["a b", "formula"], 3, report(["1 added, 0 deleted, ended"] * 2, 3),
                  files={"formula": FOUR, **many}))


def test_where_lrupd_is(recheck: Recheck, tmp_path: Path) -> None:
    """lrupd is looked for in the script's folder, and then on the PATH."""
    lay(tmp_path)
    for folder in ("a b", "c"):
        (tmp_path / folder).mkdir()
    copy = shutil.copy(recheck.script, tmp_path / "a b" / "lrup-recheck")
    command = [*recheck.shell, copy]
    assert run(command) == Ran("", USAGE, 2)
    absent = run([*command, "d", "formula"], cwd=tmp_path)
    assert (absent.out, absent.status) == ("", 127)
    path = {**os.environ, "PATH": f"{tmp_path / 'c'}:{os.environ['PATH']}"}
    os.symlink(recheck.lrupd, tmp_path / "c" / "lrupd")
    assert run([*command, "d", "formula"], cwd=tmp_path, env=path) == Ran(REFUTED, "", 0)
    os.symlink(recheck.lrupd, tmp_path / "a b" / "lrupd")
    (tmp_path / "c" / "lrupd").unlink()
    os.symlink("/bin/false", tmp_path / "c" / "lrupd")
    assert run([*command, "d", "formula"], cwd=tmp_path, env=path) == Ran(REFUTED, "", 0)


# Other programs in place of lrupd, and signals.


def test_another_lrupd(recheck: Recheck, tmp_path: Path) -> None:
    """The status and the output are those of the program in lrupd's place."""
    lay(tmp_path)
    for status in range(256):
        executable(f"echo s UNSATISFIABLE; echo said >&2; exit {status}", tmp_path, "lrupd")
        done = recheck._replace(lrupd="./lrupd")(["d", "formula"], cwd=tmp_path)
        assert done == Ran("s UNSATISFIABLE\n", "said\n", status)


@pytest.mark.parametrize("body, out", [pytest.param("", "", id="nothing"),
                                       pytest.param("echo s UNKNOWN", "s UNKNOWN\n", id="unknown")])
def test_status_0_is_no_verdict(recheck: Recheck, body: str, out: str, tmp_path: Path) -> None:
    """It has to come with the verdict of lrupd. Nothing is removed."""
    lay(tmp_path, others={"d/round-2.cnf": OTHER})
    executable(body, tmp_path, "lrupd")
    done = recheck._replace(lrupd="./lrupd")(["d", "formula"], cwd=tmp_path)
    said = "lrup-recheck: ./lrupd ended with status 0, but without the verdict of lrupd\n"
    assert done == Ran(out, said, 1)
    assert (tmp_path / "d/round-2.cnf").exists()


@pytest.mark.parametrize("source", ["/dev/zero", "yes 1 | tr -d '\\n'", "yes '1 ' | tr -d '\\n'"])
def test_endless_sizes(recheck: Recheck, source: str, tmp_path: Path) -> None:
    """They are read only up to the length that sizes may have."""
    lay(tmp_path)
    sizes, pipe = tmp_path / "d/round-1.sizes", piped(tmp_path / "pipe")
    sizes.symlink_to("/dev/zero" if source == "/dev/zero" else pipe)
    with started(["sh", "-c", f"{source} > pipe"], cwd=tmp_path, stderr=subprocess.DEVNULL):
        done = recheck(["d", "formula"], cwd=tmp_path, limit=20)
    assert (done.out, done.status) == ("", 2)


@pytest.mark.parametrize("number", [1, 2, 3])
@pytest.mark.parametrize("by", [signal.SIGKILL, signal.SIGTERM, signal.SIGINT],
                         ids=lambda by: str(by.name))
def test_a_killed_lrupd(recheck: Recheck, number: int, by: signal.Signals, tmp_path: Path) -> None:
    """lrupd is killed in this round, while it reads an unfinished stream. Nothing is removed."""
    lay(tmp_path)
    (tmp_path / f"d/round-{number}.stream-1").unlink()
    with held(tmp_path / f"d/round-{number}.stream-1") as pipe:
        pipe.write(ROUNDS[number - 1].encode())
        with started(recheck.command(*SMALL_ROW, "d", "formula"), cwd=tmp_path,
                     stdout=subprocess.PIPE, stderr=subprocess.PIPE, text=True) as running:
            place = Path(f"/proc/{running.pid}/task/{running.pid}/children")
            until("lrupd is there", lambda: (tmp_path / f"d/round-{number + 1}.cnf").exists())
            child, = map(int, place.read_text().split())
            os.kill(child, by)
            out, _ = running.communicate(timeout=LIMIT)
    assert out == ""
    # After SIGINT a shell may end itself by that signal, too.
    assert running.returncode in [128 + by] + [-by] * (by == signal.SIGINT)
    left = sorted(path.name for path in (tmp_path / "d").glob("*.cnf"))
    assert left == [f"round-{k}.cnf" for k in range(2, number + 2)]


# Pipes.

LIVE = [["5 2 0 1 2 0\n", "6 -2 0 3 4 0\n"], ["7 d 4 3 2 1 0\n", "8 d 1 2 3 4 0\n"],
        ["", "4 0 1 2 0\n"]]
LIVE_SAVED = {2: FOUR.replace("2 4", "2 6") + "2 0\n-2 0\n",
              3: "p cnf 2 2\nc id 5\n2 0\nc id 6\n-2 0\n"}
LIVE_SAID = last(3, ["0 added, 0 deleted, ended", "1 added, 0 deleted, ended"], 0)


def make_pipes(folder: Path, number: int) -> List[Path]:
    return [piped(folder / f"round-{number}.stream-{stream}") for stream in (1, 2)]


def test_pipes(recheck: Recheck, tmp_path: Path) -> None:
    """Before a round's pipes are closed, the pipe for the next round's sizes is made. Once lrupd
    has opened that pipe, the next round's formula is whole. That formula is removed, and the next
    round's pipes are made, before the sizes are written."""
    folder, seen = tmp_path / "d", {}
    folder.mkdir()
    pipes = make_pipes(folder, 1)

    def write(paths: List[Path]) -> None:
        for number, texts in enumerate(LIVE, 1):
            opened = [open(path, "w") for path in paths]
            sizes = piped(folder / f"round-{number + 1}.sizes") if number < len(LIVE) else None
            for file, text in zip(opened, texts):
                file.write(text)
                file.close()
            if sizes:
                with open(sizes, "w") as file:
                    formula = folder / f"round-{number + 1}.cnf"
                    seen[number + 1] = formula.read_text()
                    formula.unlink()
                    paths = make_pipes(folder, number + 1)
                    file.write("2 1 1\n")

    writer = threading.Thread(target=write, args=(pipes,), daemon=True)
    writer.start()
    done = recheck([*SMALL_ROW, "--tries", "1000000", folder, written(FOUR, tmp_path)])
    writer.join(LIMIT)
    assert done == Ran(LIVE_SAID, "", 0)
    assert seen == LIVE_SAVED


# A file that replaces a round's formula.

SATISFIABLE = "p cnf 2 3\n1 2 0\n-1 2 0\n1 -2 0\n"


@pytest.mark.parametrize("formula, forgery, stream, status, ending", [
    pytest.param(SATISFIABLE, "p cnf 2 4\n1 2 0\n-1 2 0\n2 0\n-2 0\n", "5 0 3 4 0\n", 3,
                 "bad line 1 (not unit 3)", id="unsatisfiable"),
    pytest.param(SATISFIABLE, OTHER, "3 0 1 2 0\n", 3, "bad line 1 (identity)",
                 id="a contradiction"),
    pytest.param(FOUR, "p cnf 2 1\n1 0\n", "6 0 5 3 4 0\n", 0, "ended", id="satisfiable"),
    pytest.param(FOUR, "p cnf\n", "6 0 5 3 4 0\n", 0, "ended", id="no formula"),
    pytest.param(FOUR, None, "6 0 5 3 4 0\n", 0, "ended", id="nothing")])
def test_a_forged_checkpoint(recheck: Recheck, formula: str, forgery: Optional[str], stream: str,
                             status: int, ending: str, tmp_path: Path) -> None:
    """Round 1 derives the clause 2 from the formula. Before round 2, while lrupd waits at a pipe,
    the forgery replaces round 1's checkpoint. The verdict is about the clauses that were
    checked."""
    folder, count, seen = tmp_path / "d", formula.count("\n") - 1, []
    written(f"{count + 1} 2 0 1 2 0\n", folder, "round-1.stream-1")
    sizes, saved = piped(folder / "round-2.sizes"), folder / "round-2.cnf"

    def forge() -> None:
        with open(sizes, "w") as file:
            seen.append(saved.read_text())
            saved.unlink()
            if forgery is not None:
                written(forgery, folder, saved.name)
            written(stream, folder, "round-2.stream-1")
            file.write("1 1 1\n")

    forger = threading.Thread(target=forge, daemon=True)
    forger.start()
    done = recheck([*SMALL_ROW, "--keep", folder, written(formula, tmp_path)])
    forger.join(LIMIT)
    assert seen == [formula.replace(f"2 {count}", f"2 {count + 1}", 1) + "2 0\n"]
    ended = last(2, [f"{int(status == 0)} added, 0 deleted, {ending}"], status)
    assert done == Ran(ended, "", status)
    assert (saved.read_text() if saved.exists() else None) == forgery


# Wrong scripts, each with a test that has to fail. A text names a run of the tables.


WRONG = [
    ("exec \"$lrupd\" \"$@\"", 'exec "$lrupd" "$@" 2> /dev/null', test_another_lrupd),
    ("status=$?", "status=$?; [ $status -ne 9 ] || status=3", "a full disk"),
    ('exit "$status"', "exit", "two rounds"), ('exit "$status"', "exit 0", test_another_lrupd),
    ("|| exit 7", "", partial(test_a_report_that_cannot_be_written, how="> /dev/full")),
    ('*) refuse "$lrupd ended', '*) : "$lrupd ended',
     partial(test_status_0_is_no_verdict, body="echo s UNKNOWN", out="s UNKNOWN\n")),
    ("printf '%s\\n' \"$report\"", 'echo $report', "one round"),
    ("trap '' XFSZ", ":", "a full disk"), ('--rounds="$place" ', "", "three rounds"),
    ('--rounds="$place"', '--rounds "$place"', "names"), ('-- "$formula"', '"$formula"', "names"),
    ('-- "$formula"', '-- $formula', "names"),
    ('set -- "$@" "$place/round-1.stream-$k"', 'set -- "$@" $place/round-1.stream-$k',
     "twelve streams"),
    ('[ "$k" -le "$first" ]', '[ "$k" -lt 10 ]', "twelve streams"),
    ('--assume "$assume"', '--assume $assume', "a cube's name"),
    ('--lines="$lines" --room="$room"', '--lines="$room" --room="$lines"', "no line"),
    ('--lines="$lines" --room="$room"', "--lines=$lines --room=$room",
     partial(test_refused_sizes, text="1 1 1 --serial")),
    ("read -r streams lines room", "read -r lines room streams", "no line"),
    ('[ -n "$room" ] ||', "[ -n 1 ] ||", "of an earlier lrup-chain"),
    ('sized=${1%%=*}', 'sized=$1', "sizes and --lines=1"),
    ('[ -z "$sized" ] ||', "true ||", "sizes and --lines 1"),
    ('[ -d "$folder" ] ||', "true ||", "no folder"),
    ('[ "$first" -gt 0 ] ||', "true ||", "no stream"),
    ('[ "$status" -ne 0 ] ||', "[ 1 -eq 1 ] ||", "three rounds"),
    ('[ "$status" -ne 0 ] ||', "", "two rounds"),
    ('rm -f -- "$place/round-$((last + 1)).cnf"', 'rm -f "$place"/round-*.cnf',
     "round-5.cnf is there"),
    ('rm -f -- "$place/round-$((last + 1)).cnf"', 'rm -f "$place"/round-*.cnf',
     "three rounds kept"),
    ("rm -f --", "rm -f", "names"), ('[ -z "$keep" ] &&', "", "two rounds kept"),
    ('[ -z "$keep" ] &&', "false &&", "two rounds"),
    ("last=1 ;;", "last=3 ;;", "round-3.cnf is there"),
    ("    exit 2\n} >&2", "    exit 0\n} >&2", "words ['--help']"),
    ('$version" >&2; exit 2', '$version" >&2; exit 0', "words ['--version']"),
    ("-*) usage ;;", '-*) set -- "$@" "$1" ;;', "words ['-x', 'd', 'formula']"),
    ('[ "$left" -eq 2 ] || usage', "true", "words ['d', 'formula', 'other']"),
    ("--serial | --watch)", "--serial | --watch | --rounds=*)",
     "words ['--rounds=x', 'd', 'formula']"),
    ("[ ! -x \"${0%/*}/lrupd\" ] || lrupd=${0%/*}/lrupd", ":", test_where_lrupd_is),
    ('[ "$found" = "${wanted#\\\\}" ] ||', "true ||", test_a_record_of_another_formula),
    ("formula=/dev/fd/3", "formula=$file", test_a_record_whose_formula_is_replaced),
    ('[ -z "$is_record" ] || readable "$file"', ":",
     partial(test_a_refused_record, change=without("round-2.stream-1"), words=[], status=1,
             said="DIR/round-2.stream-1 isn't there, or can't be read")),
    ("file=$(printf '%b.' \"$file\")", ":", partial(test_a_record, name="a\\b\nc \n")),
    ('place=$made', ":", test_an_unproved_record)]


@pytest.mark.parametrize("old, new, finds", [
    pytest.param(old, new, finds, id=f"{new or 'no'} {old}") for old, new, finds in WRONG])
def test_a_wrong_script_is_found(program: str, old: str, new: str, finds: Any,
                                 tmp_path: Path) -> None:
    text = LRUP_RECHECK.read_text()
    assert old in text
    edited = written(text.replace(old, new), tmp_path, "edited")
    (tmp_path / "run").mkdir()
    test = partial(want_run, wanted=RUNS[finds]) if isinstance(finds, str) else finds
    with pytest.raises(AssertionError):
        test(recheck=Recheck(SHELLS[INSTALLED[0]], edited, program), tmp_path=tmp_path / "run")


# The script itself, and its page.


def test_a_truncated_script(recheck: Recheck, tmp_path: Path) -> None:
    """What is left of it doesn't end with status 0, which is a verdict."""
    lay_record(tmp_path)
    whole = recheck.script.read_bytes()
    assert recheck(["d"], cwd=tmp_path).status == 0
    for length in (*range(12, len(whole) - 2, 97), len(whole) - 2):
        cut = written(whole[:length], tmp_path, "cut")
        done = recheck._replace(script=cut)(["d"], cwd=tmp_path)
        assert done.out == "", length
        assert done.status != 0, length


def test_the_manuals_options(program: str) -> None:
    """The usage and the manual page have the same options; lrupd's help has the options that are
    passed on."""
    page, given = (ROOT / "man" / "lrup-recheck.1").read_text(), set(re.findall(r"--[a-z]+", USAGE))
    tagged = {"-" + word for line in re.findall(r"^\.It (Fl .*)$", page, re.M)
              for word in re.findall(r"Fl (-[a-z]+)", line)}
    listed = {"-" + word for word in re.findall(r"^\.Op Fl (-[a-z]+)", page, re.M)}
    assert tagged == given
    assert listed | {"--help", "--version"} == given
    lrupds = set(re.findall(r"--[a-z]+", run([program, "--help"]).err))
    assert given - {"--keep", "--lrupd"} <= lrupds
