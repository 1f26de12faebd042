"""Formulas, proofs and streams in xz, gzip, bzip2 and zstd: the tools read them as if they weren't
compressed, if the file's name has the program's ending. The outputs have to be those for the plain
files. A file that can't be unpacked is named; nothing else is said but what the program says."""
import os
import re
import shutil
import signal
from pathlib import Path
from typing import Callable, Dict, List

import pytest

from harness import EXPLAIN, FILTER, PACKERS, TRIM, Ran, example, output_of, pack, run, written
from solving import SOLVE, check_again

pytestmark = pytest.mark.usefixtures("lrup_solve")
CHECK = SOLVE.with_name("lrup-check")
NAME: Callable[[Path], str] = lambda path: path.name


@pytest.fixture(params=PACKERS)
def ending(request: pytest.FixtureRequest) -> str:
    """Of the names of compressed files."""
    return str(request.param)


def packed(path: Path, ending: str) -> Path:
    """The packed file; the plain one gets another name, so that nothing can read it instead."""
    shutil.copy(path, path.with_name(f"{path.name}-plain"))
    return pack(path, ending)


def copied(folder: Path) -> List[Path]:
    """A formula, and a stream that is also an LRAT proof."""
    return [Path(shutil.copy(example(name), folder)) for name in ("bmc.cnf", "bmc.lrup")]


def test_lrup_exact(ending: str, tmp_path: Path) -> None:
    formula, proof = copied(tmp_path)
    # Without hints, so that the filter has something to find.
    steps = re.findall(r"^\d+ ((?:-?[1-9]\d* )*0) .*", proof.read_text(), re.M)
    proof.write_text("".join(f"{step}\n" for step in steps))
    plain = output_of(run([FILTER, formula, proof]))
    assert output_of(run([FILTER, packed(formula, ending), packed(proof, ending)])) == plain


def test_another_stream_of_lrup_exact(ending: str, tmp_path: Path) -> None:
    """--other reads a packed stream."""
    streams = [Path(shutil.copy(example(f"pigeonhole-two.{number}"), tmp_path))
               for number in (1, 2)]
    words = [FILTER, "--stream", 1, "--streams", 2, "--other"]
    rest = [example("pigeonhole.cnf"), streams[0]]
    plain = output_of(run([*words, f"2={streams[1]}", *rest]))
    assert output_of(run([*words, f"2={packed(streams[1], ending)}", *rest])) == plain


def test_lrup_explain(ending: str, tmp_path: Path) -> None:
    formula, stream = copied(tmp_path)
    stream.write_text(stream.read_text().replace(" 533 ", " ", 1))
    plain = run([EXPLAIN, formula, stream])
    found = run([EXPLAIN, packed(formula, ending), packed(stream, ending)])
    assert found._replace(out=found.out.replace(f"{stream}.{ending}", str(stream))) == plain


def test_lrup_trim(program: str, ending: str, tmp_path: Path) -> None:
    """The command that lrup-trim prints for its LRAT text unpacks the formula."""
    formula, stream = copied(tmp_path)
    words = [TRIM, "--core", "core", "--lrat", "lrat"]
    core, lrat = tmp_path / "core", tmp_path / "lrat"
    assert run([*words, formula, stream], cwd=tmp_path).status == 0
    plain = core.read_text(), lrat.read_text()
    core.unlink()
    lrat.unlink()
    out = output_of(run([*words, packed(formula, ending), packed(stream, ending)], cwd=tmp_path))
    assert (core.read_text(), lrat.read_text()) == plain
    command = out.splitlines()[-1].split(": ")[-1]
    checked = run(["bash", "-c", command.replace("lrupd", program, 1)], cwd=tmp_path)
    assert output_of(checked).splitlines()[-1] == "s UNSATISFIABLE"


def test_a_records_formula(program: str, ending: str, tmp_path: Path) -> None:
    """A record's digest is that of the plain formula. Another formula is refused."""
    formula = copied(tmp_path)[0]
    done = run([SOLVE, "--lrupd", program, "-q", "--proofs", tmp_path / "kept", formula])
    assert done.status == 20
    other = written(formula.read_text().replace("-", "", 1), tmp_path, "other.cnf")
    small, large = packed(formula, ending), packed(other, ending)
    commands: List[List[object]] = [[EXPLAIN], [TRIM, "--core", tmp_path / "core"]]
    for words in commands:
        assert run([*words, small, tmp_path / "kept"]).status == 0
        (tmp_path / "core").unlink(missing_ok=True)
        done = run([*words, large, tmp_path / "kept"])
        assert "was changed since" in done.err
        assert done.status == 1


def test_lrup_check(program: str, ending: str, tmp_path: Path) -> None:
    formula, proof = copied(tmp_path)
    done = run([CHECK, "--lrupd", program, "-q", formula, packed(proof, ending)])
    assert done == Ran("s UNSATISFIABLE\n", "", 0)


def test_lrup_solve(program: str, ending: str, tmp_path: Path) -> None:
    """lrup-solve and lrup-check unpack formulas and assumptions, even if they inherit that ended
    children are ignored. A record keeps the plain formula, and a run that resumes it accepts the
    packed one."""
    formula, proof = copied(tmp_path)
    small, cube = packed(formula, ending), packed(written("1 0\n", tmp_path, "cube"), ending)
    plain = formula.with_name("bmc.cnf-plain")
    other = packed(written(plain.read_text().replace("-", "", 1), tmp_path, "other.cnf"), ending)
    words = [SOLVE, "--lrupd", program, "-q"]
    done = run([*words, "--assume", cube, small],
               preexec_fn=lambda: signal.signal(signal.SIGCHLD, signal.SIG_IGN))
    assert (done.err, done.status) == ("", 20)
    assert run([CHECK, "--lrupd", program, "-q", small, proof]) == Ran("s UNSATISFIABLE\n", "", 0)
    kept = tmp_path / "kept"
    assert run([*words, "--proofs", kept, small]) == Ran("s UNSATISFIABLE\n", "", 20)
    assert (kept / "formula.cnf").read_bytes() == plain.read_bytes()
    check_again(kept)
    (kept / "command").unlink()
    done = run([*words, "--resume", kept, other])
    assert "isn't the formula of" in done.err
    assert done.status == 1
    assert run([*words, "--resume", kept, small]) == Ran("s UNSATISFIABLE\n", "", 20)
    check_again(kept)


@pytest.mark.parametrize("tool", [FILTER, EXPLAIN, SOLVE, CHECK], ids=NAME)
def test_options_in_the_environment_are_not_for_unpackers(
        program: str, tool: Path, ending: str, tmp_path: Path) -> None:
    formula, stream = copied(tmp_path)
    options = ["-q", "--lrupd", program] * (tool in (SOLVE, CHECK))
    words = [tool, *options, packed(formula, ending), *[packed(stream, ending)] * (tool != SOLVE)]
    more = {"XZ_DEFAULTS": "--memlimit-decompress=4KiB", "GZIP": "--none", "BZIP2": "--none",
            "ZSTD_CLEVEL": "none"}
    plain = run(words)
    assert plain.status in (0, 20)
    assert run(words, env={**os.environ, **more}) == plain


# Files that can't be unpacked.


def halved(path: Path, ending: str) -> Path:
    """The first half of the packed file."""
    found = packed(Path(shutil.copy(path, path.with_name(f"cut-{path.name}"))), ending)
    found.write_bytes(found.read_bytes()[:found.stat().st_size // 2])
    return found


@pytest.mark.parametrize("tool", [FILTER, TRIM, EXPLAIN, SOLVE, CHECK], ids=NAME)
def test_half_a_formula(program: str, tool: Path, ending: str, tmp_path: Path) -> None:
    """The last line names the file."""
    formula, stream = copied(tmp_path)
    cut = halved(formula, ending)
    options: Dict[Path, List[object]] = {TRIM: ["--core", tmp_path / "core"],
                                         SOLVE: ["--lrupd", program], CHECK: ["--lrupd", program]}
    done = run([tool, *options.get(tool, []), cut, *[stream] * (tool != SOLVE)])
    said = f"{tool.name}: {cut}: {PACKERS[ending]} can't unpack it"
    assert (done.err.splitlines()[-1], done.status) == (said, 1)


def test_half_a_proof_of_lrup_exact(ending: str, tmp_path: Path) -> None:
    formula, stream = copied(tmp_path)
    cut = halved(stream, ending)
    done = run([FILTER, formula, cut])
    said = f"lrup-exact: {cut}: {PACKERS[ending]} can't unpack it"
    assert (done.err.splitlines()[-1], done.status) == (said, 1)


def test_half_a_proof_of_lrup_check(program: str, ending: str, tmp_path: Path) -> None:
    """The proof can't be read, so the formula isn't refuted."""
    formula, stream = copied(tmp_path)
    cut = halved(stream, ending)
    done = run([CHECK, "--lrupd", program, formula, cut])
    assert f"{cut}: it can't be read: {PACKERS[ending]} can't unpack it\n" in done.out
    assert "UNSAT" not in done.out
    assert done.status in (1, 3)


@pytest.mark.parametrize("tool", [FILTER, CHECK], ids=NAME)
def test_not_compressed(program: str, tool: Path, ending: str, tmp_path: Path) -> None:
    formula, stream = copied(tmp_path)
    wrong = formula.rename(f"{formula}.{ending}")
    done = run([tool, *["--lrupd", program] * (tool == CHECK), wrong, stream])
    said = f"{tool.name}: {wrong}: {PACKERS[ending]} can't unpack it"
    assert (done.out, done.status) == ("", 1)
    assert done.err.splitlines()[-1] == said


@pytest.mark.parametrize("tool", [FILTER, TRIM, EXPLAIN, CHECK], ids=NAME)
def test_without_the_unpacking_program(program: str, tool: Path, ending: str,
                                       tmp_path: Path) -> None:
    formula, stream = copied(tmp_path)
    small = packed(formula, ending)
    done = run([tool, *["--lrupd", program] * (tool == CHECK), small, stream],
               env={"PATH": str(tmp_path)})
    said = f"{tool.name}: {small}: no {PACKERS[ending]} on the PATH\n"
    assert done == Ran("", said, 1)
