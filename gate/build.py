#!/usr/bin/env python3
"""Proves lrupd and lrup-model and all libraries that they use, independent crates in parallel.

    python3 gate/build.py RT LRUPD

rt allows one run at a time in a crate and those below it, and nearly all crates use lrup_model. So
each library is proved in a lane: a folder with copies of its sources and of the libraries below it;
meanwhile the library's out/ is there, too. Crates with the longest path to a program, by SECONDS,
come first, and the others get a smaller share of the cores. `rt run` proves and runs each program
where its sources are. After an interruption, the next build keeps what was proved. At the end a
copy of lrupd is put at the path LRUPD, and one of lrup-model beside it. rt recognizes proved
libraries by checksums, and proves all others again, so no proof depends on this script. Beside each
copy a file says from which sources and by which rt it was proved and built: as long as these stay
the same, there is nothing to do."""
import fcntl
import hashlib
import os
import re
import shutil
import signal
import subprocess
import sys
import tempfile
import time
from pathlib import Path
from typing import List, NamedTuple, Optional, Sequence, Set, Tuple

ROOT = Path(__file__).resolve().parent.parent
CRATES = ROOT / "crates"


class Program(NamedTuple):
    """A program that is proved: its name, its crate, and files on which it ends with a status."""
    name: str
    crate: str
    files: List[Path]
    status: int

    def built(self) -> Path:
        """Where rt leaves it."""
        return CRATES / self.crate / "out" / self.crate

    def place(self, lrupd: Path) -> Path:
        """Where its copy is, if lrupd's copy is at this path."""
        return lrupd.with_name(self.name) if self.name != "lrupd" else lrupd


PROGRAMS = [
    Program("lrupd", "lrupd", [ROOT / "examples/four-clause.cnf",
                               ROOT / "examples/four-clause.lrup"], 0),
    Program("lrup-model", "lrup_model_check", [CRATES / "lrup_model_check/data/three.cnf",
                                               CRATES / "lrup_model_check/data/three.model"], 10)]
# The lanes aren't next to the sources, where rt ci would refuse copies left by a killed build.
LANES = (ROOT / ".git" if (ROOT / ".git").is_dir() else ROOT / "out") / "lanes"
PARTS = ("src", "specs", "proofs")
CORES = len(os.sched_getaffinity(0))
# The jobs of a crate beside which others are proved. Each job reads all that the crate uses.
JOBS = min(2, CORES)
GB_EACH = 3.5  # of memory for a lane with four jobs; the most that was measured is 3.3
SECONDS_EACH = 40  # of spare processor time for each step of nice

TEXT = (ROOT / "crates.txt").read_text()
LINES = {name: line for line, name in re.findall(r"^((\w+):.*)", TEXT, re.M)}
# The repository's crates that each crate uses.
USES = {name: [word for word in line.split() if word in LINES] for name, line in LINES.items()}
# How many processor seconds it takes to prove a crate from nothing, as measured by `make building`.
# Elapsed time says less, since it also depends on what else runs.
SECONDS = {name: int(seconds) for name, seconds in re.findall(
    r"^crate (\w+) (\d+)$", (ROOT / "gate/seconds.txt").read_text(), re.M)}


def below(name: str) -> Set[str]:
    return {crate for use in USES[name] for crate in {use, *below(use)}}


LIBRARIES = {crate for program in PROGRAMS for crate in below(program.crate)}
OF_CRATE = {program.crate: program for program in PROGRAMS}
ALL = {*LIBRARIES, *OF_CRATE}


def seconds(*names: str) -> int:
    return sum(SECONDS.get(name, 60) for name in names)


def way(name: str) -> int:
    """The seconds of the longest path from the crate to a program."""
    return seconds(name) + max((way(above) for above in ALL if name in USES[above]), default=0)


def is_young(name: str) -> bool:
    """Whether the library is newer than its sources. If it still doesn't match them, `rt run`
    notices."""
    stamp = CRATES / name / "out/rlib/stamp"
    parts = [CRATES / crate / part for crate in {name, *below(name)} for part in PARTS]
    files = [file for part in parts for file in part.rglob("*") if file.suffix != ".md"]
    return stamp.is_file() and stamp.stat().st_mtime > max(file.stat().st_mtime for file in files)


def lanes_at_once() -> int:
    available = re.findall(r"MemAvailable: +(\d+)", Path("/proc/meminfo").read_text())
    return max(1, min(CORES, int(int(available[0]) / 1e6 / GB_EACH)))


def link(one: str, other: str) -> None:
    try:
        os.link(one, other)
    except OSError:
        shutil.copy2(one, other)


def locked(folder: Path) -> int:
    """Waits until no rt works in the folder, and keeps any other rt out until the returned file is
    closed."""
    held = os.open(folder, os.O_RDONLY)
    try:
        fcntl.flock(held, fcntl.LOCK_EX | fcntl.LOCK_NB)
    except BlockingIOError:
        print(f"waiting for another rt in {folder.relative_to(ROOT)}", file=sys.stderr, flush=True)
        fcntl.flock(held, fcntl.LOCK_EX)
    return held


class Proof:
    """A crate that is being proved. A program is proved where its sources are, and then runs."""

    def __init__(self, name: str) -> None:
        self.name, self.began, self.used = name, time.monotonic(), 0
        self.run: Optional[subprocess.Popen[bytes]] = None
        self.said = tempfile.TemporaryFile("w+", errors="replace")

    def start(self, *words: str) -> None:
        self.start_in(CRATES / self.name, words)

    def start_in(self, folder: Path, words: Sequence[str]) -> None:
        self.run = subprocess.Popen(words, cwd=folder, stdin=subprocess.DEVNULL,
                                    stdout=self.said, stderr=subprocess.STDOUT)

    def has_ended(self) -> bool:
        """Whether the started run has ended. If so, `used` has its processor seconds."""
        assert self.run
        if self.run.returncode is None:
            pid, status, usage = os.wait4(self.run.pid, os.WNOHANG)
            if pid:
                self.run.returncode = os.waitstatus_to_exitcode(status)
                self.used = round(usage.ru_utime + usage.ru_stime)
        return self.run.returncode is not None

    def end(self) -> Tuple[int, str]:
        """Ends the run, if it was started, and returns its status and its output."""
        if self.run and not self.has_ended():
            self.run.terminate()
            self.run.wait()
        self.said.seek(0)
        return self.run.returncode if self.run else 1, self.said.read()


class Lane(Proof):
    """A library that is being proved in a lane."""

    def __init__(self, name: str) -> None:
        super().__init__(name)
        self.home, self.top = CRATES / name, LANES / name
        self.here = self.top / "crates" / name
        self.lock = locked(self.home)

    def start(self, *words: str) -> None:
        self.go_home()  # takes back what a killed build left in the lane
        names = {self.name, *below(self.name)}
        for crate in names:
            to = self.top / "crates" / crate
            for part in PARTS:
                if (CRATES / crate / part).is_dir():
                    shutil.copytree(CRATES / crate / part, to / part)
            if crate != self.name and (CRATES / crate / "out/rlib").is_dir():
                shutil.copytree(CRATES / crate / "out/rlib", to / "out/rlib", copy_function=link)
        (self.top / "crates.txt").write_text("".join(LINES[crate] + "\n" for crate in names))
        shutil.copy(ROOT / "HANDLES", self.top)
        if (self.home / "out").is_dir():
            os.rename(self.home / "out", self.here / "out")
        self.start_in(self.here, words)

    def go_home(self) -> None:
        if self.here.is_dir():
            lock = locked(self.here)
            if (self.here / "out").is_dir() and not (self.home / "out").exists():
                os.rename(self.here / "out", self.home / "out")
            os.close(lock)
        shutil.rmtree(self.top, ignore_errors=True)

    def end(self) -> Tuple[int, str]:
        status, said = super().end()
        self.go_home()
        stamp = self.home / "out/rlib/stamp"
        if status == 0 and stamp.is_file():
            os.utime(stamp)
        os.close(self.lock)
        return status, said


def left(done: Set[str]) -> int:
    """The percentage of the SECONDS that is left."""
    return 100 * seconds(*ALL - done) // seconds(*ALL)


def print_proved(done: Set[str], name: str, began: float, used: int) -> None:
    """Prints the line of a proved crate, with its elapsed time and its processor seconds."""
    took = int(time.monotonic() - began)
    rest = f"; {left(done)} % left" * bool(left(done))
    clock = f"{took // 60}:{took % 60:02}"
    print(f"{len(done)} of {len(ALL)}: {name}, {clock}, processor {used} s{rest}", flush=True)


def start(rt: str, name: str, jobs: int, nice: int) -> Proof:
    """Starts to prove the crate. More jobs than one don't make a program faster."""
    proof = Lane(name) if name in LIBRARIES else Proof(name)
    words = (["lib", "--jobs", str(jobs)] if name in LIBRARIES else
             ["run", "--jobs", "1", "--", *map(str, OF_CRATE[name].files)])
    proof.start("nice", "-n", str(nice), rt, *words)
    return proof


def prove(rt: str, done: Set[str]) -> Tuple[int, str]:
    """Proves the crates that aren't done, of which the programs then run. Prints a line for each,
    but for a program that was proved before, as all libraries were. Returns whether one failed, and
    its output."""
    todo = sorted(ALL - done, key=way, reverse=True)
    were_libraries = not LIBRARIES <= done
    if were_libraries:
        print(f"{len(done)} of {len(ALL)} were proved before; {left(done)} % left", flush=True)
    running: List[Proof] = []
    most = lanes_at_once()
    try:
        while todo or running:
            ready = [name for name in todo if below(name) <= done]
            for name in ready[:most - len(running)]:
                todo.remove(name)
                jobs = JOBS if running else CORES
                names = [name, *todo, *(proof.name for proof in running)]
                spare = max(map(way, names)) - way(name)
                running.append(start(rt, name, jobs, min(19, spare // SECONDS_EACH)))
            time.sleep(0.1)
            for proof in [proof for proof in running if proof.has_ended()]:
                running.remove(proof)
                status, said = proof.end()
                program = OF_CRATE.get(proof.name)
                if status != (program.status if program else 0):
                    return 1, said
                done.add(proof.name)
                if were_libraries or re.search(rf"^crate {proof.name}:", said, re.M):
                    print_proved(done, proof.name, proof.began, proof.used)
    except BaseException:
        # A second signal would leave a library's out/ in the lane.
        for number in (signal.SIGINT, signal.SIGTERM):
            signal.signal(number, signal.SIG_IGN)
        raise
    finally:
        for proof in running:
            proof.end()
    return 0, ""


def sum_of_sources(rt: str) -> str:
    """A checksum of all that the programs are proved and built from, and of rt's version."""
    found = hashlib.sha256(subprocess.run([rt, "version"], stdout=subprocess.PIPE).stdout)
    parts = [CRATES / name / part for name in sorted(ALL) for part in PARTS]
    files = sorted(file for part in parts for file in part.rglob("*") if file.is_file())
    found.update("".join(LINES[name] + "\n" for name in sorted(ALL)).encode())
    for file in [ROOT / "HANDLES", *files]:
        text = file.read_bytes()
        found.update(f"{file.relative_to(ROOT)} {len(text)}\n".encode() + text)
    return found.hexdigest()


def words_of(sources: str, place: Path) -> str:
    return f"{sources} {hashlib.sha256(place.read_bytes()).hexdigest()}\n"


def is_proved(sources: str, place: Path) -> bool:
    """Whether the program there was proved and built from these sources."""
    said = place.with_suffix(".proved")
    return place.is_file() and said.is_file() and said.read_text() == words_of(sources, place)


def put_program(rt: str, sources: str, built: Path, place: Path) -> None:
    """Copies the program to its place, where it may be running. It was proved and built since the
    sources had this checksum; if they have changed meanwhile, nothing is said of them."""
    said = place.with_suffix(".proved")
    place.parent.mkdir(parents=True, exist_ok=True)
    said.unlink(missing_ok=True)
    shutil.copy2(built, f"{place}.new")
    os.replace(f"{place}.new", place)
    if sum_of_sources(rt) == sources:
        said.write_text(words_of(sources, place))


def put_programs(rt: str, sources: str, lrupd: Path) -> None:
    for program in PROGRAMS:
        put_program(rt, sources, program.built(), program.place(lrupd))


def main() -> None:
    signal.signal(signal.SIGTERM, lambda *_: sys.exit(143))
    rt, lrupd = sys.argv[1], ROOT / sys.argv[2]
    sources = sum_of_sources(rt)
    if all(is_proved(sources, program.place(lrupd)) for program in PROGRAMS):
        return
    failed, said = prove(rt, {name for name in LIBRARIES if is_young(name)})
    if failed:
        sys.exit(re.sub(r".*: proved\n", "", said))
    put_programs(rt, sources, lrupd)


if __name__ == "__main__":
    try:
        main()
    except KeyboardInterrupt:
        sys.exit(130)
