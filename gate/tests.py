#!/usr/bin/env python3
"""Runs the tests of programs, and says what it does at least every half minute.

    python3 gate/tests.py --program LRUPD [--after build | --after ci] [NAME..] [-- OPTION..]

NAME is a file test_NAME.py below tests/; without names all are run. Each has a pytest of its own,
which gets the OPTIONs; one that takes long by the clock, according to gate/seconds.txt, has
several, each for a part of its rows. What takes longest begins first.

With --after build the tools are built, and the programs are proved by gate/build.py; files that
need no lrupd run meanwhile. With --after ci, `rt ci` proves everything, tries the edits and tests
the crates, and then come the tests of programs. Both also check the pages, C's warnings and
Python's types, unless names are given. Any run fails if something OUTSIDE the repository has
changed meanwhile. The last line is 'N passed, M failed': rows of tests, what rt ci counts, and each
other step. With --write, the seconds of the tests that were run go into gate/seconds.txt."""
import argparse
import contextlib
import glob
import os
import re
import shutil
import signal
import stat
import subprocess
import sys
import tempfile
import time
from collections import Counter
from pathlib import Path
from typing import Dict, Iterator, List, NamedTuple, Optional, Sequence, Tuple

sys.dont_write_bytecode = True
import build

ROOT = build.ROOT
SECONDS_FILE = ROOT / "gate" / "seconds.txt"
CORES = build.CORES
AT_ONCE = CORES + 2     # pytests, since most tests wait now and then
A_PART = 150            # seconds by the clock that a part of a file of tests may take
UNKNOWN = (20, 20)      # the seconds of a file of tests that was never measured
QUIET = 30              # seconds after which a line says what is going on
NO_ROWS = 5             # pytest's status if all rows of a file are left out
CI_SECONDS = 9000       # processor seconds of rt ci from nothing
PROOFS = ("build", "ci")
CHECKS = ("warnings", "pages", "types")
SIGNALS = (signal.SIGINT, signal.SIGTERM)
# Files of tests that need no lrupd: their rows run while it is being proved.
WITHOUT_LRUPD = ("builds", "quotes")
# What no test may change: where programs are installed, and settings. Elsewhere in HOME other
# programs write at any time: histories, caches, documents. But a program that runs for the first
# time makes a hidden file or folder there: of these the names and modes count.
OUTSIDE = ("/usr/local", "/etc", "~/.local/bin", "~/.local/libexec", "~/.local/share/man",
           "~/.local/share/doc", "~/.local/share/bash-completion", "~/.config/git")
SETTINGS = ("~/.gitconfig", "~/.profile", "~/.bashrc", "~/.bash_profile")
HIDDEN = ("~/.*", "~/.config/*")
# Python's compiled modules, files of /etc that services write, and editors' temporary files.
IGNORED = re.compile(r"__pycache__|resolv\.conf|adjtime|.*\.sw[a-p]|.*\.tmp|.*~")
MOST_CHANGES = 20   # that are printed


def seconds_of_tests() -> Dict[str, Tuple[int, int]]:
    """The processor seconds of each file of tests, and its seconds by the clock."""
    return {name: (int(used), int(elapsed)) for name, used, elapsed in re.findall(
        r"^tests (\w+) (\d+) (\d+)$", SECONDS_FILE.read_text(), re.M)}


def clock(seconds: float) -> str:
    return f"{int(seconds) // 60}:{int(seconds) % 60:02}"


def about(path: str) -> str:
    """A file's mode, size and time. A folder's time also changes with a file that comes and goes,
    such as another program's lock, so only the mode counts."""
    found = os.lstat(path)
    mode = stat.filemode(found.st_mode)
    return mode if mode[0] == "d" else f"{mode} {found.st_size} {found.st_mtime_ns}"


def matching(names: Sequence[str]) -> List[str]:
    return [path for name in names for path in glob.glob(os.path.expanduser(name))
            if not IGNORED.fullmatch(os.path.basename(path))]


def outside() -> Dict[str, str]:
    """What stands where no test may write. What stands in a folder in which this run may not write
    is left out, since tests can't change it either."""
    paths = matching([*SETTINGS, *OUTSIDE])
    for top in matching(OUTSIDE):
        for folder, folders, files in os.walk(top):
            folders[:] = [name for name in folders if not IGNORED.fullmatch(name)]
            if os.access(folder, os.W_OK):
                paths += [os.path.join(folder, name) for name in [*folders, *files]
                          if not IGNORED.fullmatch(name)]
    found = {path: about(path).split()[0] for path in matching(HIDDEN)}
    for path in paths:
        with contextlib.suppress(FileNotFoundError):
            found[path] = about(path)
    return found


class Tests(NamedTuple):
    """Each N-th row of a file of tests, from the K-th on, and the seconds that these take."""
    file: str
    part: str       # K/N
    used: int
    elapsed: int

    def title(self) -> str:
        return self.file if self.part == "1/1" else f"{self.file} {self.part}"


def parts_of(file: str, seconds: Tuple[int, int]) -> List[Tests]:
    """The whole file, or parts that take as long as each other, and not too long."""
    used, elapsed = seconds
    count = 1 + elapsed // A_PART
    return [Tests(file, f"{part}/{count}", used // count, elapsed // count)
            for part in range(1, count + 1)]


class Step:
    """A command that runs, or has ended: rows of tests, a proof, or a check."""

    def __init__(self, name: str, words: Sequence[object], reckoned: int, nice: int = 0,
                 tests: Optional[Tests] = None) -> None:
        self.name, self.reckoned, self.tests = name, reckoned, tests
        self.began, self.used, self.took = time.monotonic(), 0, 0
        self.said = tempfile.TemporaryFile()
        self.status: Optional[int] = None
        self.shown = 0      # the characters of its output that show_lines has looked at
        self.process = subprocess.Popen(
            ["nice", "-n", str(nice), *map(str, words)], cwd=ROOT, stdin=subprocess.DEVNULL,
            stdout=self.said, stderr=subprocess.STDOUT, start_new_session=True,
            env={**os.environ, "PYTHONUNBUFFERED": "1"})

    def output(self) -> str:
        """What it has printed; the place at which it writes on is left alone."""
        file = self.said.fileno()
        return os.pread(file, os.fstat(file).st_size, 0).decode(errors="replace")

    def has_ended(self) -> bool:
        if self.status is None:
            pid, status, usage = os.wait4(self.process.pid, os.WNOHANG)
            if pid:
                self.status = self.process.returncode = os.waitstatus_to_exitcode(status)
                self.used = round(usage.ru_utime + usage.ru_stime)
                self.took = round(time.monotonic() - self.began)
        return self.status is not None

    def elapsed(self) -> str:
        return clock(time.monotonic() - self.began)

    def end(self) -> None:
        """Ends the step's processes, if it hasn't ended. pytest ends what a row has started only
        after SIGINT, and rt ends only after SIGTERM."""
        if not self.has_ended():
            with contextlib.suppress(ProcessLookupError):
                os.killpg(self.process.pid, signal.SIGINT if self.tests else signal.SIGTERM)
            self.process.wait()


class Run:
    """What has been done, what is being done, and what is left."""

    def __init__(self, options: argparse.Namespace) -> None:
        self.options = options
        self.running: List[Step] = []
        self.done: Dict[str, Step] = {}
        self.skipped: Counter[str] = Counter()
        self.passed = self.failed = 0
        self.files = {path.stem[5:]: path for path in ROOT.glob("tests/**/test_*.py")}
        named = options.names or sorted(self.files)
        if not shutil.which(options.pytest.split()[0]):
            self.skipped["all tests of programs: pytest isn't installed"] += 1
            named = []
        seconds = seconds_of_tests()
        self.todo = sorted((tests for name in named
                            for tests in parts_of(name, seconds.get(name, UNKNOWN))),
                           key=lambda tests: -tests.elapsed)
        self.began = self.said = time.monotonic()
        self.all_seconds = (sum(tests.used for tests in self.todo)
                            + sum(self.proving().values()))

    def proving(self) -> Dict[str, int]:
        if self.options.after == "build":
            return {name: build.seconds(name) for name in build.ALL}
        return {"ci": CI_SECONDS} if self.options.after == "ci" else {}

    def say(self, text: str) -> None:
        print(text, flush=True)
        self.said = time.monotonic()

    # Steps.

    def start(self, name: str, words: Sequence[object], reckoned: int = 0, nice: int = 0) -> Step:
        self.running.append(Step(name, words, reckoned, nice))
        return self.running[-1]

    def start_tests(self, tests: Tests, nice: int) -> None:
        self.todo.remove(tests)
        options = self.options
        left_out = {"build": ["-m", "not long and not nightly and not of_crates"],
                    "ci": ["-m", "not long and not nightly"]}
        words = [*options.pytest.split(), f"--program={options.program}", f"--rt={options.rt}",
                 f"--part={tests.part}", *left_out.get(options.after, ["-m", "not nightly"]),
                 *options.options, self.files[tests.file]]
        self.running.append(Step(tests.title(), words, tests.used, nice, tests))

    def wait(self) -> None:
        """Waits a moment, and counts the steps that have ended."""
        time.sleep(0.1)
        ended = [step for step in self.running if step.has_ended()]
        for step in self.running:
            if step.name in PROOFS:
                self.show_lines(step)
        for step in ended:
            self.running.remove(step)
            self.done[step.name] = step
            self.count(step)
        if time.monotonic() - self.said > QUIET:
            self.say(self.state())

    def show_lines(self, step: Step) -> None:
        """Prints what a proof has printed since the last call: whole lines, of `rt ci` only those
        that say what it has done."""
        text = step.output()
        end = text.rfind("\n") + 1
        for line in text[step.shown:end].splitlines():
            if step.name != "ci" or line.startswith("rt: "):
                self.say(line)
        step.shown = end

    def count(self, step: Step) -> None:
        """Counts what passed and failed in a step that has ended, and prints it."""
        text = step.output()
        passed, failed = int(not step.status), int(bool(step.status))
        if step.tests or step.name == "ci":
            last = text.rstrip().rpartition("\n")[2]
            passed, failed = (sum(map(int, re.findall(rf"(\d+) {word}", last)))
                              for word in ("passed", "(?:failed|error)"))
            if not failed and step.status not in (0, NO_ROWS):
                failed = 1
        self.passed += passed
        self.failed += failed
        for number, why in re.findall(r"^SKIPPED \[(\d+)\] \S+: (.*)", text, re.M):
            self.skipped[why] += int(number)
        if failed:
            self.say(f"{text[step.shown if step.name == 'build' else 0:].rstrip()}\n"
                     f"{step.name}: {failed} failed")
        elif step.name != "build":
            left = f"; {self.left()} % left" if self.left() else ""
            self.say(f"{step.name}: {passed} passed, {step.elapsed()}{left}")

    # Words.

    def left(self) -> int:
        """The percentage of the processor seconds that is left."""
        seconds = sum(tests.used for tests in self.todo)
        for step in self.running:
            if step.name == "build":
                found = re.findall(r"; (\d+) % left", step.output()) or ["100"]
                seconds += int(found[-1]) * step.reckoned // 100
            else:
                passed = (time.monotonic() - step.began) * (CORES if step.name == "ci" else 0.5)
                seconds += round(max(step.reckoned / 20, step.reckoned - passed))
        return 100 * seconds // max(1, self.all_seconds)

    def state(self) -> str:
        names = ", ".join(f"{step.name} ({step.elapsed()})" for step in self.running)
        return f"running: {names}; {self.left()} % left"

    # The whole.

    def everything(self) -> None:
        options, before = self.options, outside()
        if options.after:
            self.run_alone("tools", ["make", "-s", "-k", f"-j{CORES}", "tools"])
        proof: Optional[Step] = None
        sources = build.sum_of_sources(options.rt) if options.after == "ci" else ""
        if options.after == "build":
            words = [sys.executable, "gate/build.py", options.rt, options.program]
            proof = self.start("build", words, sum(self.proving().values()))
        elif options.after == "ci":
            proof = self.start("ci", [options.rt, "ci"], CI_SECONDS)
        if options.after and not options.names:     # on cores that the proof leaves idle
            self.start("checks", ["make", "-s", "-k", f"-j{CORES}", *CHECKS], nice=19)
        while proof in self.running:
            self.start_ready(CORES if options.after == "build" else 0, 19,
                             [tests for tests in self.todo if tests.file in WITHOUT_LRUPD])
            self.wait()
        if proof and proof.status:
            self.skipped.update(f"{file}: lrupd isn't proved"
                                for file in {tests.file for tests in self.todo})
            self.todo = []
        elif options.after == "ci":
            build.put_programs(options.rt, sources, ROOT / options.program)
        while self.todo or self.running:
            self.start_ready(AT_ONCE, 0, self.todo)
            self.wait()
        self.find_links()
        self.find_changes(before)

    def run_alone(self, name: str, words: Sequence[object]) -> None:
        self.start(name, words)
        while self.running:
            self.wait()

    def find_changes(self, before: Dict[str, str]) -> None:
        after = outside()
        changes = [f"{path}: {before.get(path, 'not there')}, then {after.get(path, 'not there')}"
                   for path in sorted({*before, *after}) if before.get(path) != after.get(path)]
        if changes:
            self.failed += 1
            more = [f".. and {len(changes) - MOST_CHANGES} more"] * (len(changes) > MOST_CHANGES)
            self.say("\n".join(["changed while tests ran, outside the repository:",
                                *changes[:MOST_CHANGES], *more]))

    def find_links(self) -> None:
        """The next `rt ci` would refuse a link that a test has left among what is built."""
        links = [str(path) for path in (ROOT / "out").rglob("*") if path.is_symlink()]
        if links:
            self.failed += 1
            self.say("\n".join(["links, which rt refuses:", *links]))

    def start_ready(self, most: int, nice: int, ready: Sequence[Tests]) -> None:
        """Starts some of these tests, so that at most this many pytests run at once."""
        running = sum(step.tests is not None for step in self.running)
        for tests in ready[:max(0, most - running)]:
            self.start_tests(tests, nice)

    def end(self) -> None:
        for step in self.running:
            step.end()

    def tell(self) -> None:
        if self.skipped:
            whys = ", ".join(f"{why} ({number})" for why, number in self.skipped.most_common())
            print(f"left out: {whys}")
        print(f"took {clock(time.monotonic() - self.began)}")
        print(f"{self.passed} passed, {self.failed} failed", flush=True)

    def write_seconds(self) -> None:
        used: Counter[str] = Counter()
        elapsed: Counter[str] = Counter()
        for step in self.done.values():
            if step.tests:
                used[step.tests.file] += step.used
                elapsed[step.tests.file] += step.took
        found = {**seconds_of_tests(), **{file: (used[file], elapsed[file]) for file in used}}
        text = re.sub(r"^tests .*\n", "", SECONDS_FILE.read_text(), flags=re.M)
        SECONDS_FILE.write_text(text + "".join(f"tests {file} {one} {other}\n" for
                                               file, (one, other) in sorted(found.items())))


@contextlib.contextmanager
def kept(programs: Sequence[Path]) -> Iterator[None]:
    """rt ci removes the programs before it proves them: if one is then not built again, the one
    that was there comes back."""
    with tempfile.TemporaryDirectory() as folder:
        copies = {program: shutil.copy2(program, folder) for program in programs
                  if program.is_file()}
        try:
            yield
        finally:
            for program, copy in copies.items():
                if not program.exists():
                    program.parent.mkdir(parents=True, exist_ok=True)
                    shutil.copy2(copy, program)


def end_by_signal(number: int, _: object) -> None:
    """Ends after what was started has ended. make passes a signal on, so it may come twice."""
    for other in SIGNALS:
        signal.signal(other, signal.SIG_IGN)
    sys.exit(128 + number)


def main() -> int:
    parser = argparse.ArgumentParser(allow_abbrev=False)
    parser.add_argument("--program", required=True)
    parser.add_argument("--pytest", default="pytest-3")
    parser.add_argument("--rt", default="rt")
    parser.add_argument("--after", choices=("build", "ci"))
    parser.add_argument("--write", action="store_true")
    parser.add_argument("names", nargs="*")
    words = sys.argv[1:]
    at = words.index("--") if "--" in words else len(words)
    options = parser.parse_args(words[:at])
    options.options = words[at + 1:]
    for number in SIGNALS:
        signal.signal(number, end_by_signal)
    run = Run(options)
    with kept([program.built() for program in build.PROGRAMS]):
        try:
            run.everything()
        finally:
            run.end()
    run.tell()
    if options.write:
        run.write_seconds()
    return int(run.failed > 0)


if __name__ == "__main__":
    sys.exit(main())
