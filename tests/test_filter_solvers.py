"""Runs common solvers beside the filter and the program.

Those of CaDiCaL, CryptoMiniSat and PicoSAT that are on the PATH write their proofs to pipes, and
the filter's output is checked while they run."""
import os
import re
import shutil
import signal
import subprocess
from pathlib import Path

import pytest

from harness import (FILTER, LIMIT, Ran, example, generated, named, needs, output_of, piped,
                     read_line, started)

SIZES = "--lines 4000000 --room 60000000 "
CADICAL = f"""\
cadical -q formula.cnf proof > answer &
lrupd {SIZES}formula.cnf \\
    <(lrup-exact --format binary-drat formula.cnf proof)
"""
CADICAL_TWICE = f"""\
cadical -q formula.cnf proof1 > answer1 &
cadical -q --seed=2 formula.cnf proof2 > answer2 &
lrupd {SIZES}formula.cnf \\
    <(lrup-exact --stream 1 --streams 2 --format binary-drat formula.cnf proof1) \\
    <(lrup-exact --stream 2 --streams 2 --format binary-drat formula.cnf proof2)
"""
CRYPTOMINISAT = f"""\
cryptominisat5 --verb 0 formula.cnf proof > answer &
lrupd {SIZES}formula.cnf <(lrup-exact formula.cnf proof)
"""
CRYPTOMINISAT_TWICE = f"""\
cryptominisat5 --verb 0 formula.cnf proof1 > answer1 &
cryptominisat5 --verb 0 --random 2 formula.cnf proof2 > answer2 &
lrupd {SIZES}formula.cnf \\
    <(lrup-exact --stream 1 --streams 2 formula.cnf proof1) \\
    <(lrup-exact --stream 2 --streams 2 formula.cnf proof2)
"""
PICOSAT = f"""\
picosat formula.cnf -R proof > answer &
lrupd {SIZES}formula.cnf <(lrup-exact formula.cnf proof)
"""
BOTH = f"""\
cadical -q formula.cnf proof1 > answer1 &
cryptominisat5 --verb 0 formula.cnf proof2 > answer2 &
lrupd {SIZES}formula.cnf \\
    <(lrup-exact --stream 1 --streams 2 --format binary-drat formula.cnf proof1) \\
    <(lrup-exact --stream 2 --streams 2 formula.cnf proof2)
"""
IN_ROUNDS = """\
cadical -q formula.cnf proof > answer &
lrup-exact --rounds live --format binary-drat formula.cnf proof |
    { read ready && lrupd --rounds live formula.cnf live/round-1.stream-1; }
"""
COMMANDS = [("CaDiCaL", CADICAL), ("two of CaDiCaL", CADICAL_TWICE),
            ("CryptoMiniSat", CRYPTOMINISAT), ("two of CryptoMiniSat", CRYPTOMINISAT_TWICE),
            ("PicoSAT", PICOSAT), ("CaDiCaL and CryptoMiniSat", BOTH)]
FORMULAS = ["random 150 1", "pigeons 7", "order 15", "bmc.cnf"]


def wanted_on_path(commands: str) -> None:
    for solver in ("cadical", "cryptominisat5", "picosat"):
        if solver in commands:
            needs(solver)


def make_formula(words: str, work: Path) -> Path:
    if words.endswith(".cnf"):
        return Path(shutil.copy(example(words), work / "formula.cnf"))
    return generated(words, work)


def in_bash(program: str, commands: str, work: Path) -> Ran:
    """Runs the commands in a folder with the repository's tools; returns outputs and status."""
    os.symlink(FILTER, work / "lrup-exact")
    os.symlink(program, work / "lrupd")
    for pipe in ("proof", "proof1", "proof2"):
        piped(work / pipe)
    path = os.pathsep.join([str(work), os.environ["PATH"]])
    with subprocess.Popen(["bash", "-c", commands], cwd=work, env={**os.environ, "PATH": path},
                          stdout=subprocess.PIPE, stderr=subprocess.PIPE, text=True,
                          start_new_session=True) as running:
        try:
            out, err = running.communicate(timeout=LIMIT)
            return Ran(out, err, running.returncode)
        finally:
            if running.returncode is None:
                os.killpg(running.pid, signal.SIGKILL)


def want_refuted(program: str, commands: str, words: str, work: Path) -> None:
    """Each stream ends, and the formula is refuted."""
    wanted_on_path(commands)
    make_formula(words, work)
    out = output_of(in_bash(program, commands, work))
    *lines, verdict = out.splitlines()
    assert verdict == "s UNSATISFIABLE"
    assert len(lines) == commands.count("lrup-exact")
    assert all(line.endswith(", ended") for line in lines), out


@pytest.mark.parametrize("words", FORMULAS)
@pytest.mark.parametrize("commands", named(COMMANDS))
def test_beside(program: str, commands: str, words: str, tmp_path: Path) -> None:
    """With the default sizes."""
    want_refuted(program, commands.replace(SIZES, ""), words, tmp_path)


@pytest.mark.usefixtures("much_memory")
def test_more_than_the_default_sizes_hold(program: str, tmp_path: Path) -> None:
    want_refuted(program, CADICAL, "pigeons 9", tmp_path)


@pytest.mark.parametrize("memory, least", [("500K", 3), ("512M", 1)])
def test_rounds(program: str, memory: str, least: int, tmp_path: Path) -> None:
    """The proof is checked in at least that many rounds."""
    wanted_on_path(IN_ROUNDS)
    make_formula("random 180 3", tmp_path)
    out = output_of(in_bash(
        program, IN_ROUNDS.replace("exact --rounds live", f"exact --rounds live --memory {memory}"),
        tmp_path))
    found = re.fullmatch(
        r"(?:c round (\d+)\n)?c stream 1: \d+ added, \d+ deleted, ended\ns UNSATISFIABLE\n", out)
    assert found, out
    number = int(found[1] or 1)
    assert number >= least
    assert os.listdir(tmp_path / "live") == [f"round-{number + 1}.cnf"]


@pytest.mark.parametrize("commands", named([("CaDiCaL", CADICAL),
                                            ("CryptoMiniSat", CRYPTOMINISAT)]))
def test_the_first_line_comes_while_the_solver_runs(commands: str, tmp_path: Path) -> None:
    """The solver writes more than the pipes hold, and nobody reads further lines."""
    wanted_on_path(commands)
    formula, proof = make_formula("random 200 3", tmp_path), piped(tmp_path / "proof")
    solver = commands.splitlines()[0].split(" > ")[0].split()
    form = ["--format", "binary-drat"] * (solver[0] == "cadical")
    with started(solver, cwd=tmp_path, stdout=subprocess.DEVNULL) as running, started(
            [FILTER, *form, formula, proof], stdout=subprocess.PIPE, bufsize=0) as filtering:
        assert filtering.stdout
        assert read_line(filtering.stdout).endswith(" 0\n")
        assert running.poll() is None
