"""lrup-solve's temporary folder, of which nothing is left, and the folders of the programs that it
runs."""
import contextlib
import os
import resource
import shutil
import signal
import subprocess
from pathlib import Path
from typing import List

import pytest

from harness import FOUR, PROGRAM, by_another, example, executable, generated, run, written
from solving import (MODELS, SOLVE, Answer, before_lrupd, children_of, solve, started_run,
                     until_there, want_answer)

pytestmark = pytest.mark.usefixtures("solve_for_tests")


@pytest.mark.parametrize("mode, taken", [
    pytest.param(mode, taken, id=f"{mode:o}")
    for mode, taken in ((0o777, False), (0o757, False), (0o1777, True), (0o775, True))])
def test_mode_of_tmpdir(mode: int, taken: bool, tmp_path: Path) -> None:
    """The rule for the folder of --proofs holds for TMPDIR, too."""
    files = tmp_path / "files"
    files.mkdir()
    files.chmod(mode)
    answer = solve(["-j", "1", example("bmc.cnf")], env_more={"TMPDIR": str(files)})
    if taken:
        want_answer(answer, 20)
    else:
        assert (answer.said
                == f"lrup-solve: {files}: others may write there: choose another TMPDIR\n")
    assert os.listdir(files) == []


@pytest.mark.parametrize("ends", [signal.SIGKILL, signal.SIGTERM])
def test_another_folder_in_place(ends: signal.Signals, tmp_path: Path) -> None:
    """Another folder that has the temporary folder's name when the run ends isn't removed, nor is
    the target of a link in the temporary folder. The run's own files are removed."""
    files, mine = tmp_path / "files", written("mine", tmp_path / "mine", "mine")
    files.mkdir()
    with started_run(["-j", "1", generated("pigeons 11", tmp_path)],
                     env_more={"TMPDIR": str(files)}, stdout=subprocess.DEVNULL) as running:
        until_there("lrupd", running)
        found, (folder,) = children_of(running.pid), files.iterdir()
        engines = found["lrup-engines"]
        for pid in (engines, found["lrupd"]):   # or the run may end before its process is killed,
            os.kill(pid, signal.SIGSTOP)        # or lrupd make a file once the others are removed
        moved = folder.rename(tmp_path / "moved")
        (moved / "a link").symlink_to(mine.parent)
        written("", moved / "folder", "file")
        written("mine", folder, "mine")
        os.kill(engines, ends)
        with contextlib.suppress(ProcessLookupError):
            os.kill(engines, signal.SIGCONT)
        running.wait(60)
    assert os.listdir(moved) == []
    assert (folder / "mine").read_text() == "mine"
    assert mine.read_text() == "mine"


def test_limits_on_processes(tmp_path: Path) -> None:
    """A run by another user, with a limit on processes, leaves no file, no matter which process
    can't be started."""
    (tmp_path / "bin").mkdir()
    for path in (SOLVE, SOLVE.with_name("lrup-engines"), Path(PROGRAM)):
        shutil.copy(path, tmp_path / "bin")
    formula, files, proved = written(FOUR, tmp_path), tmp_path / "files", 0
    files.mkdir(mode=0o1777)
    files.chmod(0o1777)
    for most in range(1, 25):
        answer = Answer(by_another([tmp_path / "bin" / "lrup-solve", "-j", "1", formula], tmp_path,
                                   60000 + (32 * os.getpid() + most) % 5000,
                                   lambda: resource.setrlimit(resource.RLIMIT_NPROC, (most, most)),
                                   limit=60, env={**os.environ, "TMPDIR": str(files)}))
        proved += answer.status == 20
        assert os.listdir(files) == [], (
            f"the files left by at most {most} processes, with {answer.said}{answer.out}")
    assert 0 < proved < 24      # some, not all


def test_a_stopped_cleaner(tmp_path: Path) -> None:
    """The cleaner, which removes the folder if the run is killed, is stopped: the run ends without
    waiting for it."""
    files, go = tmp_path / "files", tmp_path / "go"
    files.mkdir()
    lrupd = before_lrupd(f"while [ ! -e {go} ]; do sleep 0.1; done", tmp_path)
    with started_run(["--lrupd", lrupd, "-j", "1", written(FOUR, tmp_path)],
                     env_more={"TMPDIR": str(files)}) as running:
        until_there("cleaner", running)
        os.kill(children_of(running.pid)["cleaner"], signal.SIGSTOP)
        go.touch()
        out = running.communicate(timeout=60)[0]
    assert out.splitlines()[-1:] == ["s UNSATISFIABLE"]
    assert running.returncode == 20
    assert os.listdir(files) == []


@pytest.mark.parametrize("how", ["PATH", "own path"])
def test_tools_in_the_current_folder(how: str, tmp_path: Path) -> None:
    """A tool in the current folder isn't run, even if the PATH has that folder, or if the program's
    own path is too long and therefore unknown."""
    for name in ("lrup-trim", "lrup-explain", "lrup-model", "lrupd", "-mpi"):
        executable(f"{f': > {tmp_path}/ran' * (name != 'lrupd')}\nexit 3", tmp_path, name)
    (tmp_path / "bin").mkdir()
    for path in (SOLVE, SOLVE.with_name("lrup-engines"), MODELS / "lrup-model"):
        shutil.copy(path, tmp_path / "bin")
    place = os.open(tmp_path / "bin", os.O_PATH)
    for _ in range(30 if how != "PATH" else 0):
        os.mkdir("x" * 200, dir_fd=place)
        place = os.open("x" * 200, os.O_PATH, dir_fd=place)
    if how != "PATH":
        with open(os.open("lrup-engines", os.O_WRONLY | os.O_CREAT, 0o755, dir_fd=place),
                  "wb") as copy:
            copy.write(SOLVE.with_name("lrup-engines").read_bytes())
    formula = written(FOUR, tmp_path)
    words: List[object] = [tmp_path / "bin" / "lrup-solve",
                           *["--engines", f"/proc/self/fd/{place}/lrup-engines"] * (how != "PATH")]
    no_mpi = ": cannot be run: " if how == "PATH" else "cannot find this program"
    for more, said in (
            (("--lrupd", PROGRAM, "--core", "core"), "no lrup-trim next to this program"),
            ((), "no lrupd that can be run"), (("--lrupd", PROGRAM, "--mpi", "echo"), no_mpi)):
        done = run([*words, *more, formula], cwd=tmp_path,
                   env={**os.environ, "PATH": ":.:bin/..:/usr/bin:/bin:"}, pass_fds=[place])
        assert (done.out, done.status) == ("", 1), (more, done.err)
        assert said in done.err, more
    assert not (tmp_path / "ran").exists()
    if how != "PATH":
        shutil.rmtree(tmp_path / "bin")
