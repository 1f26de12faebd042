"""Targets of make, one after the other, as a person types them.

Each chain runs in a copy of the repository, with the programs that are here: its last target has
the right status, the proved programs stay, and no link is left, since rt refuses links. In most
tests a script stands for rt. The others need --rt, and the programs that `make build` or `make
gate` has proved here: then nothing is proved again."""
import filecmp
import os
import re
import shutil
import signal
import subprocess
import sys
from pathlib import Path
from typing import Any, Dict, List, Sequence, Set

import pytest

from harness import (BIN, OUT, ROOT, Ran, executable, named, run, started, text_of, until,
                     write_all, written)

LIMIT = 600
# Where rt leaves the programs.
PROVED = {"lrupd": "crates/lrupd/out/lrupd",
          "lrup-model": "crates/lrup_model_check/out/lrup_model_check"}
# A rt that proves nothing. `rt ci` removes what was built, as the real one does, and ends as its
# word in the file `ci` says.
FALSE_RT = """\
top=$(cd "$(dirname "$0")" && pwd)
case "$*" in
    ci) rm -rf "$top"/tree/crates/*/out; sleep "$(cat "$top/seconds")"; cat "$top/ci"
        grep -q ' 0 failed' "$top/ci" || exit 1
        for crate in lrupd lrup_model_check; do
            mkdir -p "$top/tree/crates/$crate/out" && cp "$top/$crate" "$top/tree/crates/$crate/out"
        done ;;
    run*) crate=$(basename "$PWD") && mkdir -p out && cp "$top/$crate" out && shift 4 &&
        exec "out/$crate" "$@" ;;
    lib*) mkdir -p out/rlib && touch out/rlib/stamp ;;
    version) echo 'rattle-kit logic' ;;
esac
"""


def clean() -> Dict[str, str]:
    """The environment without variables of a make that may have started the tests."""
    return {name: value for name, value in os.environ.items()
            if name not in ("MAKEFLAGS", "MAKELEVEL", "MFLAGS", "CI")}


def copied(folder: Path, is_proved: bool) -> Path:
    """A copy of the repository's files and of what `make` has built."""
    tree = folder / "tree"
    listed = run(["git", "ls-files", "-z", "--cached", "--others", "--exclude-standard"], cwd=ROOT)
    names = [name for name in listed.out.split("\0") if (ROOT / name).is_file()]
    for name in [*names, *list(PROVED.values()) * is_proved]:
        (tree / name).parent.mkdir(parents=True, exist_ok=True)
        shutil.copy2(ROOT / name, tree / name)
    for folder in (BIN, OUT / "objects"):
        shutil.copytree(folder, tree / folder.relative_to(ROOT))
    for name in PROVED if not is_proved else ():
        (tree / f"out/bin/{name}.proved").unlink(missing_ok=True)
    run(["git", "init", "-q", tree])
    return tree


@pytest.fixture
def tested(program: str, model: str) -> Dict[str, str]:
    return {"lrupd": program, "lrup-model": model}


@pytest.fixture
def false_rt(tested: Dict[str, str], tmp_path: Path) -> Path:
    """A script for rt, and what it copies: the programs that are tested."""
    for name, path in tested.items():
        shutil.copy2(path, tmp_path / Path(PROVED[name]).name)
    written("1 passed, 0 failed\n", tmp_path, "ci")
    written("0", tmp_path, "seconds")
    return executable(FALSE_RT, tmp_path, "rt")


def prefix(tree: Path) -> Path:
    return tree.parent / "prefix"


def make(tree: Path, rt: object, target: str) -> List[str]:
    return ["make", f"RT={rt}", f"PREFIX={prefix(tree)}", target,
            *["TESTS=program_groups"] * (target in ("test", "gate"))]


def in_tree(tree: Path, rt: object, target: str) -> Ran:
    return run(make(tree, rt, target), limit=LIMIT, cwd=tree, env=clean())


def want_whole(tree: Path, tested: Dict[str, str]) -> None:
    """The proved programs are there, and no link."""
    for name, path in tested.items():
        for place in (PROVED[name], f"out/bin/{name}"):
            assert filecmp.cmp(tree / place, path, shallow=False)
    assert [path for path in tree.rglob("*") if path.is_symlink()] == []


def last_line(done: Ran) -> str:
    return (done.out.splitlines() or [""])[-1]


def want_made(tree: Path, rt: object, targets: Sequence[str]) -> None:
    """Each target ends well."""
    for target in targets:
        done = in_tree(tree, rt, target)
        assert done.status == 0, f"make {target}:\n{done.out}{done.err}"
        if target in ("test", "gate"):
            assert re.fullmatch(r"\d+ passed, 0 failed", last_line(done))


@pytest.mark.parametrize("targets", ["install, test", "test, test", "solve, build", "deb, install"])
def test_targets(tested: Dict[str, str], rt: str, targets: str, tmp_path: Path) -> None:
    tree = copied(tmp_path, is_proved=True)
    want_made(tree, rt, targets.split(", "))
    want_whole(tree, tested)


@pytest.mark.parametrize("targets", [
    "build, gate, install, gate, test",
    "build, built, exact, trim, explain, solver, install, uninstall"])
def test_targets_with_a_script_for_rt(tested: Dict[str, str], false_rt: Path, targets: str,
                                      tmp_path: Path) -> None:
    """What `make install` has installed stays, but for `make uninstall`."""
    tree = copied(tmp_path, is_proved=False)
    want_made(tree, false_rt, targets.split(", "))
    want_whole(tree, tested)
    left = {path.name for path in prefix(tree).rglob("*") if path.is_file()}
    assert "lrupd" in left if not targets.endswith("uninstall") else left == set()


def test_what_make_build_proves_again(tested: Dict[str, str], false_rt: Path,
                                      tmp_path: Path) -> None:
    """Nothing after a change of a test crate's line, and all after one of a program's source."""
    tree = copied(tmp_path, is_proved=False)
    want_made(tree, false_rt, ["build"])
    only_version = executable('[ "$*" = version ] && echo "rattle-kit logic"', tmp_path, "version")
    lines = (tree / "crates.txt").read_text()
    assert "\ncommand_tests: " in lines
    written(lines.replace("\ncommand_tests: ", "\ncommand_tests: judge "), tree, "crates.txt")
    want_made(tree, only_version, ["build"])
    with (tree / "crates/lrupd/src/main.rt").open("a") as source:
        source.write("// A comment.\n")
    assert in_tree(tree, only_version, "build").status == 2
    want_whole(tree, tested)


# What stands in HOME, and what a run of tests does there.
HOME = {".bashrc": "# settings\n", ".gitconfig": "[user]\n", ".local/bin/lrupd": "1.0\n",
        ".local/bin/other": "1\n", ".local/share/man/man1/other.1": "page\n", ".history": "make\n",
        ".cache/other/file": "1\n", ".config/other/settings": "1\n", "text": "1\n"}
TESTS_CHANGE = """\
cd "$HOME" && rm .local/bin/lrupd && chmod 700 .local/bin/other && echo more >> .gitconfig &&
touch -d 2020-01-01 .bashrc && mkdir .local/libexec .openmpi .config/new && echo 1 > .new &&
ln -s text .local/share/man/man1/new.1"""
OTHERS_CHANGE = """\
cd "$HOME" && echo more >> .history && echo more >> text && touch -d 2020-01-01 .cache/other/file &&
mkdir folder .cache/new && echo more >> .config/other/settings && echo 1 > .text.swp"""


@pytest.mark.parametrize("does, changed", named([
    ("what tests mustn't do", TESTS_CHANGE,
     {".local/bin/lrupd", ".local/bin/other", ".gitconfig", ".bashrc", ".local/libexec",
      ".openmpi", ".config/new", ".new", ".local/share/man/man1/new.1"}),
    ("what other programs do", OTHERS_CHANGE, set())]))
def test_what_changes_in_home(does: str, changed: Set[str], tmp_path: Path) -> None:
    """A run of tests fails if programs or settings in HOME have changed meanwhile, and names each
    file or folder. Histories, caches and documents may change."""
    tree, home = copied(tmp_path, is_proved=False), tmp_path / "home"
    write_all(HOME, home)
    tests = executable(f"{does}\necho 1 passed", tmp_path, "tests")
    done = run([sys.executable, "gate/tests.py", "--program=none", f"--pytest={tests}", "quotes"],
               cwd=tree, env={**clean(), "HOME": str(home)})
    found = re.findall(rf"^{re.escape(str(home))}/(\S+): ", done.out, re.M)
    assert sorted(found) == sorted(changed)
    if changed:
        assert (last_line(done), done.status) == ("1 passed, 1 failed", 1)


def test_a_gate_that_fails(tested: Dict[str, str], false_rt: Path, tmp_path: Path) -> None:
    """The programs are there afterwards, and can be installed without rt."""
    tree = copied(tmp_path, is_proved=False)
    want_made(tree, false_rt, ["build"])
    written("0 passed, 1 failed\n", tmp_path, "ci")
    done = in_tree(tree, false_rt, "gate")
    assert (last_line(done), done.status) == ("1 passed, 1 failed", 2)
    want_made(tree, "none", ["install"])
    want_whole(tree, tested)


@pytest.mark.parametrize("number", [signal.SIGINT, signal.SIGTERM], ids=["SIGINT", "SIGTERM"])
def test_an_interrupted_gate(tested: Dict[str, str], false_rt: Path, number: int,
                             tmp_path: Path) -> None:
    """A gate that is interrupted while rt works can be run again."""
    tree = copied(tmp_path, is_proved=False)
    want_made(tree, false_rt, ["build"])
    written("100", tmp_path, "seconds")
    how: Dict[str, Any] = {"stdout": subprocess.PIPE, "stderr": subprocess.STDOUT, "cwd": tree,
                           "env": clean(), "start_new_session": True}
    with started(make(tree, false_rt, "gate"), **how) as running:
        until("rt ci removes the programs",
              lambda: not any((tree / name).exists() for name in PROVED.values()), LIMIT)
        os.killpg(running.pid, number)
        text = text_of(running.communicate(timeout=LIMIT)[0])
        assert running.returncode != 0, text
    want_whole(tree, tested)
    written("0", tmp_path, "seconds")
    want_made(tree, false_rt, ["gate"])
