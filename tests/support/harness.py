"""Shared by the tests of programs: runs, files and pipes, builds, and tables of runs. conftest.py
has the options and the fixtures."""
import contextlib
import fcntl
import functools
import hashlib
import os
import random
import re
import resource
import select
import shlex
import shutil
import signal
import struct
import subprocess
import sys
import tempfile
import termios
import threading
import time
from pathlib import Path
from typing import (IO, Any, Callable, Dict, Iterable, Iterator, List, Mapping, NamedTuple,
                    NoReturn, Optional, Sequence, Tuple, Union)

import pytest

SUPPORT = Path(__file__).resolve().parent
ROOT = SUPPORT.parents[1]
PROOFS = ROOT / "tests" / "proofs"
EXAMPLES = ROOT / "examples"
GENERATOR = EXAMPLES / "solver" / "generate.py"
LRUP_RECHECK = ROOT / "tools" / "lrup-recheck"
TOOLS = ROOT / "tools"
LIBRARY, FILTERS = TOOLS / "lib", TOOLS / "filter"
# `make tools` builds programs into BIN. What tests build, and nobody else uses, is in BUILDS.
OUT = ROOT / "out"
BIN, BUILDS = OUT / "bin", OUT / "tests"
SOLVER, FILTER = BIN / "example-solver", BIN / "lrup-exact"
TRIM, EXPLAIN = BIN / "lrup-trim", BIN / "lrup-explain"
VERSION = (ROOT / "VERSION").read_text().strip()
USUAL_FLAGS = "-O2"
# The options of conftest.py, and lrup-model, which is beside PROGRAM. COUNT is the number of random
# rows; each file has its own default.
PROGRAM, MODEL, FLAGS = "", "", USUAL_FLAGS
COUNT: Optional[int] = None
FIRST, SEED, MINUTES = 0, 1, 0.0
BEGUN = time.monotonic()
RT: Optional[str] = None
LIMIT = 300  # seconds after which a run counts as hanging, even on a slow and busy machine
FOUR = "p cnf 2 4\n1 2 0\n-1 2 0\n1 -2 0\n-1 -2 0\n"
# Formulas and streams among the examples.
RECORDED = [("four-clause.cnf", ["four-clause.lrup"]), ("pigeonhole.cnf", ["pigeonhole.lrup"]),
            ("bmc.cnf", ["bmc.lrup"]), ("pigeonhole.cnf", ["pigeonhole-two.1", "pigeonhole-two.2"]),
            ("bmc.cnf", [f"bmc-four.{number}" for number in range(1, 5)]),
            ("two-groups.cnf", [f"two-groups.{number}" for number in range(1, 5)])]
# What lrup-explain prints if no line is bad; without a folder, it also asks about sizes.
NONE_BAD = "no line is bad\n  if lrupd found one: missing and retired may depend on time"
# The first bytes of files that these programs unpack.
# How files that begin like this can be unpacked, in messages.
COMPRESSED = {"zcat, or end its name with .gz": b"\x1f\x8b\x08\0",
              "xzcat, or end its name with .xz": b"\xfd7zXZ\0",
              "bzcat, or end its name with .bz2": b"BZh9",
              "zstdcat, or end its name with .zst": b"\x28\xb5\x2f\xfd",
              "xzcat": b"]\0\0\x80\0"}
ZCAT = [*COMPRESSED][0]
# By the endings of files that they pack.
PACKERS = {"xz": "xz", "gz": "gzip", "bz2": "bzip2", "zst": "zstd"}
VERDICTS = {0: "s UNSATISFIABLE", 3: "s UNKNOWN", 8: "s UNSATISFIABLE UNDER ASSUMPTIONS"}

# A shell starts background processes with the first two of these signals ignored, and nohup starts
# a program with the third one ignored. Programs under test would inherit that, but they don't
# inherit handlers.
signal.signal(signal.SIGINT, signal.default_int_handler)
signal.signal(signal.SIGQUIT, signal.SIG_DFL)
if signal.getsignal(signal.SIGHUP) == signal.SIG_IGN:
    signal.signal(signal.SIGHUP, lambda *_: None)

Words = Iterable[object]
Pieces = Iterable[Union[bytes, float]]


class Ran(NamedTuple):
    """A program's standard output, standard error and status."""
    out: str
    err: str
    status: int


# Running programs.


def text_of(data: Optional[bytes]) -> str:
    return (data or b"").decode(errors="surrogateescape")


def built(words: Words) -> List[str]:
    """The words of a command. Without a package of Debian `make tools` can't build all tools, and
    a row that runs such a tool is skipped."""
    found = list(map(str, words))
    if Path(found[0]).parent == BIN and not Path(found[0]).exists():
        lacking(f"{Path(found[0]).name} isn't built")
    return found


def run(words: Words, given: Union[str, bytes, None] = None, limit: float = LIMIT,
        **how: Any) -> Ran:
    """Runs a program to its end, with these bytes on its standard input."""
    if given is not None:
        how["input"] = given.encode() if isinstance(given, str) else given
    else:
        how.setdefault("stdin", subprocess.DEVNULL)
    how = {"stdout": subprocess.PIPE, "stderr": subprocess.PIPE, **how}
    done = subprocess.run(built(words), timeout=limit, **how)
    return Ran(text_of(done.stdout), text_of(done.stderr), done.returncode)


def output_of(done: Ran) -> str:
    """What the program printed. It had nothing to say on standard error, and ended with 0."""
    assert (done.err, done.status) == ("", 0)
    return done.out


def in_shell(command: str, *words: object, **how: Any) -> Ran:
    return run(["sh", "-c", command, *words], **how)


@contextlib.contextmanager
def started(words: Words, **how: Any) -> Iterator["subprocess.Popen[Any]"]:
    """A running program, which is killed if it hasn't ended when the block is left."""
    with subprocess.Popen(built(words), **how) as process:
        try:
            yield process
        finally:
            process.kill()


def may_become(user: int) -> bool:
    """Whether root may become this user, which some containers forbid."""
    try:
        run(["true"], preexec_fn=lambda: os.setuid(user))
    except subprocess.SubprocessError:
        return False
    return True


def by_another(words: Words, work: Path, user: int = 65534,
               before: Callable[[], None] = lambda: None, **how: Any) -> Ran:
    """Runs a program in this folder, as another user if root runs the tests, since root may do
    anything."""
    work.chmod(0o755)
    is_root = os.getuid() == 0
    if is_root and not may_become(user):
        lacking("the superuser can't become another user")

    def become_another() -> None:
        before()
        if is_root:
            os.setuid(user)

    return run(words, cwd=work, preexec_fn=become_another, **how)


def run_by_another(program: str, words: Words, work: Path) -> Ran:
    """Runs a copy of the program as `by_another` does."""
    return by_another([shutil.copy(program, work / "lrupd"), *words], work)


def within(limit: Optional[int]) -> None:
    """Limits the size of files that the program about to start may write."""
    if limit is not None:
        signal.signal(signal.SIGXFSZ, signal.SIG_IGN)
        resource.setrlimit(resource.RLIMIT_FSIZE, (limit, limit))


def until(what: str, condition: Callable[[], bool], seconds: float = LIMIT) -> None:
    end = time.monotonic() + seconds
    while not condition():
        assert time.monotonic() <= end, f"not within {seconds} seconds: {what}"
        time.sleep(0.01)


# Files and pipes.


def example(name: str) -> Path:
    return EXAMPLES / name


def written(text: Union[str, bytes], folder: Path, name: str = "formula.cnf") -> Path:
    path = folder / name
    path.parent.mkdir(parents=True, exist_ok=True)
    path.write_bytes(text.encode() if isinstance(text, str) else text)
    return path


def write_all(files: Mapping[str, Union[str, bytes]], folder: Path) -> None:
    for name, text in files.items():
        written(text, folder, name)


def executable(text: str, folder: Path, name: str) -> Path:
    """A program with this text, which is in shell unless it says otherwise."""
    path = written(text if text.startswith("#!") else f"#!/bin/sh\n{text}\n", folder, name)
    path.chmod(0o755)
    return path


def pack(path: Path, ending: str) -> Path:
    """Puts the packed file, whose name has this ending, in the place of the plain one."""
    needs(PACKERS[ending])
    output_of(run([PACKERS[ending], "-q", *["--rm"] * (ending == "zst"), path]))
    return path.with_name(f"{path.name}.{ending}")


def link_over(place: Path, target: Path, how: str) -> None:
    """Replaces a file by a symbolic link ("link") or a hard link ("file") to another one, in one
    step: a program that looks at the place never finds it empty."""
    with tempfile.TemporaryDirectory(dir=target.parent) as folder:
        new = Path(folder) / "new"
        if how == "link":
            new.symlink_to(target)
        else:
            os.link(target, new)
        new.rename(place)


def piped(path: Path) -> Path:
    path.parent.mkdir(exist_ok=True)
    os.mkfifo(path)
    return path


def held(path: Path) -> IO[bytes]:
    """A pipe's writing end, opened before anybody reads. The pipe stays open until this end is
    closed."""
    return os.fdopen(os.open(piped(path), os.O_RDWR), "wb", buffering=0)


def read_from(path: Path) -> IO[bytes]:
    """A pipe's writing end, as soon as somebody reads the pipe."""
    ends: List[int] = []

    def is_open() -> bool:
        with contextlib.suppress(OSError):
            ends.append(os.open(path, os.O_WRONLY | os.O_NONBLOCK))
        return bool(ends)

    until(f"{path} is read", is_open)
    os.set_blocking(ends[0], True)
    return os.fdopen(ends[0], "wb", buffering=0)


def waiting(pipe: int) -> int:
    """How many bytes in a pipe haven't been read."""
    count: int = struct.unpack("i", fcntl.ioctl(pipe, termios.FIONREAD, bytes(4)))[0]
    return count


def read_line(file: IO[bytes]) -> str:
    """The next line; it has to come while the pipe is open."""
    ready, _, _ = select.select([file], [], [], LIMIT)
    assert ready, "no line came while the pipe was open"
    return file.readline().decode()


def feed(path: Path, pieces: Pieces) -> threading.Thread:
    """Writes these pieces into a pipe as soon as somebody reads it; a number is a pause in
    seconds."""
    def write() -> None:
        try:
            with open(path, "wb", buffering=0) as pipe:
                for piece in pieces:
                    if isinstance(piece, bytes):
                        pipe.write(piece)
                    else:
                        time.sleep(piece)
        except OSError:
            pass  # nobody reads, or the program has ended
    thread = threading.Thread(target=write, daemon=True)
    thread.start()
    return thread


@functools.lru_cache(maxsize=None)
def text_generated(words: str) -> str:
    return output_of(run([sys.executable, GENERATOR, *words.split()]))


def generated(words: str, folder: Path, name: str = "formula.cnf") -> Path:
    """A formula from the generator."""
    return written(text_generated(words), folder, name)


def dimacs(variables: int, clauses: Sequence[Sequence[int]]) -> str:
    return f"p cnf {variables} {len(clauses)}\n" + "".join(" ".join(map(str, clause)) + " 0\n"
                                                           for clause in clauses)


def random_clauses(numbers: random.Random, variables: int, count: int,
                   lengths: Sequence[int] = (3,)) -> List[List[int]]:
    """`count` random clauses over this many variables, each with one of these lengths."""
    clauses = []
    for _ in range(count):
        chosen = numbers.sample(range(1, variables + 1), min(variables, numbers.choice(lengths)))
        clauses.append([variable * numbers.choice((-1, 1)) for variable in chosen])
    return clauses


# Building programs.


def compiler(*flags: str) -> List[str]:
    """$CC or cc, with these flags."""
    return [*shlex.split(os.environ.get("CC", "cc")), *flags]


def compiled(program: Path, sources: Sequence[Path], *flags: str, by: Sequence[str] = ()) -> Path:
    """Compiles a program, and replaces it atomically, since it may be running."""
    new = program.with_name(f"{program.name}-{os.getpid()}")
    subprocess.run([*(by or compiler()), "-o", str(new), *map(str, sources), *flags], check=True)
    new.replace(program)
    return program


@contextlib.contextmanager
def alone(lock: Path) -> Iterator[IO[str]]:
    """One worker builds, and the others wait."""
    lock.parent.mkdir(parents=True, exist_ok=True)
    with lock.open("a+") as file:
        fcntl.flock(file, fcntl.LOCK_EX)
        file.seek(0)
        yield file


def is_newer(program: Path, sources: Iterable[Path]) -> bool:
    return program.exists() and all(program.stat().st_mtime > path.stat().st_mtime
                                    for path in sources)


SANITIZE = ["-std=c11", "-O1", "-g", "-fsanitize=address,undefined,pointer-overflow",
            "-fno-sanitize-recover=all"]
# The environment of sanitized programs.
SANITIZING = {"ASAN_OPTIONS": "exitcode=99", "UBSAN_OPTIONS": "exitcode=99:print_stacktrace=1"}


def sanitizing_with(option: str) -> Dict[str, str]:
    """Variables in which sanitizers also have this option."""
    names = ("ASAN_OPTIONS", "TSAN_OPTIONS", "UBSAN_OPTIONS")
    return {name: ":".join(filter(None, (os.environ.get(name), option))) for name in names}


@functools.lru_cache(maxsize=None)
def sanitizer() -> List[str]:
    """The command of a compiler that has the sanitizers, or an empty list. Clang comes first, since
    it finds more, such as an offset applied to a null pointer. Then $CC or cc is tried, but not in
    CI."""
    with tempfile.TemporaryDirectory() as work:
        source, one = (written("int main(void) { return 0; }\n", Path(work), "one.c"),
                       Path(work) / "one")
        for found in (["clang"], *[compiler()] * (not has_packages())):
            if (shutil.which(found[0]) and run([*found, *SANITIZE, "-o", one, source]).status == 0
                    and run([one]).status == 0):
                return found
    return []


def objects_for_tests(sources: Sequence[Path], words: Sequence[str]) -> List[Path]:
    """The sources' objects, in a folder for these words, so that programs share them."""
    command = [*(sanitizer() or compiler()), *words]
    folders = [LIBRARY, FILTERS, OUT / "objects"]
    name = hashlib.sha256(shlex.join(command).encode()).hexdigest()[:16]
    folder, objects = BUILDS / "objects" / name, []
    headers = [path for place in {*folders, *(source.parent for source in sources)}
               for path in place.glob("*.h")]
    with alone(folder / "lock"):
        for source in sources:
            place = folder / source.parent.name / f"{source.stem}.o"
            place.parent.mkdir(exist_ok=True)
            if not is_newer(place, [source, *headers]):
                compiled(place, [source], "-c", *(f"-I{include}" for include in folders), *words,
                         by=sanitizer())
            objects.append(place)
    return objects


def for_tests(program: Path, sources: Iterable[Path], *flags: str,
              libraries: Sequence[str] = ()) -> Path:
    """A build that checks its invariants, and reports undefined behaviour if the compiler supports
    that. It is made if it is out of date, or was made by another command."""
    words = ["-DCHECKED", *flags, *(SANITIZE if sanitizer() else ["-std=c11", "-O1"])]
    with alone(program.with_name(f"{program.name}.lock")) as lock:
        objects = objects_for_tests(sorted(sources), words)
        command = shlex.join([*map(str, objects), *words, *libraries])
        if lock.read() != command or not is_newer(program, objects):
            compiled(program, objects, *words, *libraries, by=sanitizer())
            lock.truncate(0)
            lock.write(command)
    return program


def sources_of(tool: str) -> List[Path]:
    """The tool's own sources, the library's and the filter's. lines.c, which reads records, needs
    libmd, so lrup-exact doesn't have it."""
    return [path for folder in (TOOLS / tool, LIBRARY, FILTERS) for path in folder.glob("*.c")
            if tool != "lrup-exact" or path.name != "lines.c"]


@functools.lru_cache(maxsize=None)
def sanitized(tool: Path) -> Path:
    return for_tests(BUILDS / f"{tool.name}-sanitized", sources_of(tool.name),
                     libraries=["-lmd"] * (tool != FILTER))


# The answers expected of the checker.


# lrupd's default sizes, and sizes for short streams. lrupd fills its row first, which takes 20 ms
# with the default sizes.
LINES, ROOM = 65536, 1048576
SMALL_ROW = ["--lines", "1000", "--room", "10000"]


def small(options: Sequence[str]) -> List[str]:
    """These options of lrupd, with small sizes if they give none."""
    given = {word.split("=")[0] for word in options}
    return [*([] if given & {"--lines", "--room"} else SMALL_ROW), *options]


def enough_for(streams: Iterable[Union[bytes, Path]], lines: int = LINES,
               room: int = ROOM) -> List[str]:
    """Sizes that aren't larger than these streams, or files, need, and with which lrupd says the
    same as with the given sizes: no identity is above the largest number, and clauses have fewer
    literals than the streams have spaces."""
    texts = [text.read_bytes() if isinstance(text, Path) else text for text in streams]
    most = max((int(number) for text in texts for number in re.findall(rb"\d{1,18}", text)),
               default=0)
    spaces = sum(text.count(b" ") for text in texts)
    return ["--lines", str(min(lines, most)), "--room", str(min(room, spaces))]


def report(said: Sequence[str], status: int) -> str:
    """A report that says this about the streams, with the verdict for this status."""
    return ("".join(f"c stream {number}: {words}\n" for number, words in enumerate(said, 1))
            + VERDICTS[status] + "\n")


def watched_ends(err: str) -> List[str]:
    """What --watch printed at the end of each stream, in all rounds."""
    return re.findall(r"^lrupd: stream \d+: (\d+ added, \d+ deleted, .*)$", err, re.M)


def unwatched(err: str) -> str:
    """Standard error without the lines of --watch."""
    lines = (r"stream \d+: .*|round \d+: \d+ clauses?, \d+ literals?, paused for \d+ ms|"
             r".*: waits for a writer")
    return re.sub(rf"^lrupd: ({lines})\n", "", err, flags=re.M)


def added(said: Iterable[str]) -> int:
    """The total number of additions, from texts such as `3 added, 1 deleted, ended`."""
    return sum(int(words.split(" added, ")[0]) for words in said)


class Wanted(NamedTuple):
    """A run in a folder with these files and pipes: its arguments, the expected status and outputs,
    and the expected contents of some files at the end, None for a file that isn't there. A long
    text comes from a function."""
    words: Words
    status: int
    out: str = ""
    err: str = ""
    files: Mapping[str, Union[str, Callable[[], str]]] = {}
    pipes: Mapping[str, Pieces] = {}
    given: Optional[str] = None
    shell: str = 'exec "$@"'
    left: Mapping[str, Optional[str]] = {}

    def under(self, options: Sequence[object]) -> "Wanted":
        """The same run with these options before its own."""
        return self._replace(words=[*options, *self.words])


def answered(program: str, wanted: Wanted, work: Path) -> Ran:
    for name, text in wanted.files.items():
        written(text() if callable(text) else text, work, name)
    for name, pieces in wanted.pipes.items():
        feed(piped(work / name), pieces)
    return run(["sh", "-c", wanted.shell, "sh", program, *wanted.words], wanted.given, cwd=work)


def answers(program: str, wanted: Wanted, work: Path) -> None:
    """The program's answer is the expected one, and so are the files left."""
    found = answered(program, wanted, work)
    assert found == Ran(wanted.out, wanted.err, wanted.status)
    for name, text in wanted.left.items():
        path = work / name
        left = text_of(path.read_bytes()) if path.is_file() else None
        assert left == text, f"the content of {name}"


def named(table: Iterable[Sequence[Any]]) -> List[Any]:
    """What `parametrize` takes, of a table whose first column names the cases."""
    return [pytest.param(*values, id=name.strip()) for name, *values in table]


def each_of(table: Iterable[Tuple[str, Wanted]]) -> pytest.MarkDecorator:
    """A test of each run in this table, as the argument `wanted`."""
    return pytest.mark.parametrize("wanted", named(table))


Runs = Callable[[], Iterable[Tuple[str, Wanted]]]


def runs(table: Runs) -> Callable[..., None]:
    """Makes a test of a function that yields named runs: each has the expected answer."""
    @each_of(table())
    def test(program: str, wanted: Wanted, tmp_path: Path) -> None:
        answers(program, wanted, tmp_path)
    return test


def runs_in_both_ways(table: Runs) -> Callable[..., None]:
    """The same, with threads and with --serial."""
    @each_of(table())
    def test(program: str, way: List[str], wanted: Wanted, tmp_path: Path) -> None:
        answers(program, wanted.under(way), tmp_path)
    return test


def need_much_memory() -> None:
    available = re.search(r"^MemAvailable: +(\d+)", Path("/proc/meminfo").read_text(), re.M)
    if not available or int(available[1]) < 4_000_000:
        pytest.skip("less than 4 GB are free")


def has_packages() -> bool:
    """Whether CI runs the tests."""
    return bool(os.environ.get("CI"))


def lacking(why: str) -> NoReturn:
    """Skips a test whose package is missing. In CI, which installs all packages, the test fails."""
    pytest.skip(why)


def needs(command: str) -> None:
    """Skips the test if this command isn't installed."""
    if not shutil.which(command):
        lacking(f"there is no {command} on the PATH")
