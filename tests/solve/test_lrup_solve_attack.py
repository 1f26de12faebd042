"""Attacks lrup-solve and lrup-check at random: there is no wrong answer, whatever happens.

The truth of each formula is known without a solver. The words are random, and so are the spellings
of names in them; in place of lrup-engines, or of a solver, there may be a hostile program; system
calls fail, and processes get signals. Each answer has to be true, and the status has to say the
same; no file of the user's may change, but for a record's own; no process may stay; and each run
has to end.

--seed, 1 by default, determines all of this, but not when things happen. With --minutes, attacks
begin with this seed, until that time has passed; otherwise there are a few."""
import contextlib
import os
import re
import resource
import shlex
import signal
import stat
import subprocess
import tempfile
import threading
import time
from pathlib import Path
from typing import Dict, Iterator, List, NamedTuple, Set, Tuple

import pytest

from attacks import EXPECTED, OPTIONS, PACKERS, Attack, Records
from harness import COUNT, MINUTES, SEED, dimacs, feed, generated, until
from hostile import ANY_SIGNAL, FOUND, PROVED, STATUSES, UNDER, UNKNOWN
from limits import Limited, limited
from proof_forms import read_formula
from records import recorded
from solving import is_alive, marked, of_process, solve
from truths import Formula, satisfies

pytestmark = pytest.mark.usefixtures("solve_for_tests")
FEW = 12        # seeds without --minutes
SEEDS = range(SEED, SEED + (1 + int(600 * MINUTES) if MINUTES else COUNT or FEW))
LIMIT = 60      # seconds within which each run has to end
SOON = 20       # seconds in which all processes have to end after the front
LARGEST = 1 << 28       # bytes of a file
STATUSES_OF_CHECK = {UNKNOWN: 3, PROVED: 0, UNDER: 8}
SHOWN = re.compile(r"usage: lrup-|lrup-(solve|check) \d")       # help, or a version
Files = Dict[Path, Tuple[object, ...]]


@pytest.fixture(scope="module")
def records(solve_for_tests: None) -> Iterator[Records]:
    with tempfile.TemporaryDirectory() as folder:
        work = Path(folder)
        marked(work)
        holes = 7
        formula, done, begun = generated(f"pigeons {holes}", work), work / "done", work / "begun"
        assert solve(["--proofs", done, generated("pigeons 5", work, "small.cnf")]).status == 20
        recorded(["-j", "2", formula], begun, 2,
                 {"SAME_WORDS": 1, "SLICE": 20, "FIRST_WORDS": 4000})
        clauses, variables = read_formula(formula), holes * (holes + 1)
        # The first pigeon needs no hole, and each other one has its own.
        others = [[1, -1], *clauses[1:]]
        sits = {pigeon * (holes + 1) for pigeon in range(1, holes + 1)}
        model = [one if one in sits else -one for one in range(1, variables + 1)]
        assert satisfies(model, others)
        yield Records(Formula(formula.read_text(), variables, clauses, None), done, begun,
                      Formula(dimacs(variables, others), variables, others, model))


# Runs.


class Ended(NamedTuple):
    out: str
    said: str
    status: int
    signals: List[Tuple[str, str]]      # that were sent, each to a process with this name


def fed(data: bytes) -> int:
    """The reading end of a pipe into which these bytes are written."""
    reading, writing = os.pipe()

    def write() -> None:
        with contextlib.suppress(OSError), open(writing, "wb", buffering=0) as file:
            file.write(data)

    threading.Thread(target=write, daemon=True).start()
    return reading


def words_of(attack: Attack) -> List[str]:
    """With strace, the front is still this process's child, and strace isn't one of its own."""
    call = attack.fault.partition(":")[0]
    injects = ["strace", "-f", "-DDD", "--seccomp-bpf", "-o", "/dev/null", "-e", f"trace={call}",
               "-e", f"inject={attack.fault}", "--"]
    return [*(injects if attack.fault else []), *attack.words]


def name_of(pid: int) -> str:
    return of_process(pid, "comm").strip()


def running(group: Limited) -> Dict[int, str]:
    """All processes of a run, with their names."""
    return {pid: name_of(pid) for pid in group.processes()
            if is_alive(pid) and name_of(pid) != "strace"}


def send(attack: Attack, group: Limited) -> List[Tuple[str, str]]:
    """Sends a random signal to a random process."""
    found = sorted((name, pid) for pid, name in running(group).items())
    if not found:
        return []
    name, pid = attack.numbers.choice(found)
    number = attack.numbers.choice(ANY_SIGNAL)
    with contextlib.suppress(ProcessLookupError):
        os.kill(pid, number)
    return [(number.name, name)]


def unpackers(attack: Attack) -> Set[str]:
    """Names of the processes that may unpack a file for the front: before they become another
    program, they have the front's name."""
    names = {packer for ending, packer in PACKERS if any(attack.work.rglob("*" + ending))}
    return names | {"lrup-solve"} if names else names


def has_ended(front: "subprocess.Popen[bytes]", group: Limited, names: Set[str]) -> bool:
    """Continues a front that is stopped, and stopped processes with these names: as for a pipe, the
    front waits for what unpacks a file."""
    stopped = [pid for pid, name in running(group).items() if name in names]
    for pid in (front.pid, *stopped):
        with contextlib.suppress(ProcessLookupError):
            os.kill(pid, signal.SIGCONT)
    time.sleep(0.05)
    return front.poll() is not None


def has_none_left(group: Limited) -> bool:
    """Continues stopped processes, which a killed front can't do."""
    left = running(group)
    for pid in left:
        with contextlib.suppress(ProcessLookupError):
            os.kill(pid, signal.SIGCONT)
    return not left


def may_leave(attack: Attack, signals: List[Tuple[str, str]]) -> bool:
    """Whether the supervisor may not have ended the processes."""
    return attack.may_leave or "supervisor" in [name for _, name in signals]


def run_of(attack: Attack) -> Ended:
    """Runs the program, and waits until all processes have ended."""
    work, signals = attack.work, []
    for fifo, data in attack.fifos:
        feed(fifo, [data])
    given, names = attack.stdin, unpackers(attack)
    stdin = os.open("/dev/null", os.O_RDONLY) if given is None else fed(given)
    out_path = Path("/dev/full" if attack.out == "full" else work / "out")
    with limited(work) as group, open(out_path, "wb") as out, open(work / "said", "wb") as said:
        def before() -> None:
            group.join()
            resource.setrlimit(resource.RLIMIT_CORE, (0, 0))
            resource.setrlimit(resource.RLIMIT_FSIZE, (LARGEST, LARGEST))
            for file in (*attack.closes, *[1] * (attack.out == "closed")):
                os.close(file)

        began = time.monotonic()
        front = subprocess.Popen(
            words_of(attack), cwd=attack.home, stdin=stdin, stdout=out, stderr=said,
            pass_fds=attack.opened, start_new_session=True, preexec_fn=before,
            env={**os.environ, "LRUP_MARK": work.name, "TMPDIR": str(work / "temporary")})
        for moment in attack.signals:
            time.sleep(max(0, began + moment - time.monotonic()))
            if front.poll() is None:
                signals += send(attack, group)
        try:
            until("the run ends", lambda: has_ended(front, group, names), LIMIT)
            if not may_leave(attack, signals):
                until("all processes end", lambda: has_none_left(group), SOON)
        finally:
            print(f"signals {signals}, processes at the end {running(group)}")
            front.kill()
    for file in (stdin, *attack.opened):
        os.close(file)
    for fifo, _ in attack.fifos:    # ends the thread that waits for a reader
        with contextlib.suppress(OSError):
            os.close(os.open(fifo, os.O_RDONLY | os.O_NONBLOCK))
    printed = "" if attack.out == "full" else (work / "out").read_bytes().decode(errors="replace")
    return Ended(printed, (work / "said").read_bytes()[-5000:].decode(errors="replace"),
                 front.returncode, signals)


# What has to hold.


def files_of(folder: Path) -> Files:
    """What is there, without following links."""
    found: Files = {}
    for path in sorted(folder.rglob("*")):
        status = path.lstat()
        kind = stat.S_IFMT(status.st_mode)
        what = (path.read_bytes() if stat.S_ISREG(kind)
                else os.readlink(path) if stat.S_ISLNK(kind) else "")
        found[path] = kind, what
    return found


def own_files(record: Path, files: Files) -> Set[Path]:
    """The files of a record that its list names, and the list."""
    text = files.get(record / "files", ("", b""))[1]
    names = text.decode(errors="replace").splitlines() if isinstance(text, bytes) else []
    if names[:1] != ["files"] or any("/" in name or name == "mine" for name in names):
        return set()
    return {record / (name + ending) for name in names
            for ending in ("", ".gz", ".xz", ".bz2", ".zst")}


def assert_files_are_left(attack: Attack, before: Files, after: Files) -> None:
    own = {path for record in attack.made for path in own_files(record, before)}
    for path in before:
        if path not in own:
            assert after.get(path) == before[path], f"{path} was changed, or removed"
    for path in after.keys() - before.keys():
        assert attack.made & {path, path.parent}, f"{path} was made"


def assert_answer_is_true(attack: Attack, answers: List[str], lines: List[str]) -> None:
    assert len(answers) <= 1
    true = attack.truths()
    for answer in answers:
        assert answer == UNKNOWN or answer in true, "it isn't true"
    values = [word for line in lines if line.startswith("v") for word in line.split()[1:]]
    if answers != [FOUND]:
        assert values == []
    elif values[-1:] == ["0"]:
        assert satisfies([int(word) for word in values[:-1]], attack.formula.clauses or [],
                         attack.assumed or [])


def assert_status_says_the_same(attack: Attack, ended: Ended, answers: List[str],
                                values: List[str]) -> None:
    """If an answer can't be written, or isn't printed to its end, there is a message."""
    status, is_whole = ended.status, answers and (answers != [FOUND] or values[-1:] == ["0"])
    if status < 0:
        is_disturbed = attack.fault or attack.body is not None or ended.signals
        assert is_disturbed or "--solver" in " ".join(attack.words), "it was killed"
    elif SHOWN.match(ended.out):
        assert attack.expected is None and status == (2 if attack.is_check else 0)
    elif attack.expected in EXPECTED and status == 0:
        assert is_whole and answers == [EXPECTED[attack.expected]]
    elif attack.expected is not None or not is_whole:
        may_show = attack.is_check and attack.out != "file"
        assert status in (1, 127) or status == 2 and may_show
        # A hostile program may tell the front that it has said something.
        assert ended.said or 2 in attack.closes or attack.body is not None or attack.fault
    else:
        expected = (STATUSES_OF_CHECK if attack.is_check else STATUSES)[answers[0]]
        assert status == expected or status == 1 and ended.said and attack.fault


def test_each_option_can_be_given(records: Records, tmp_path: Path) -> None:
    attack = Attack(SEED, tmp_path, records)
    for name in OPTIONS:
        attack.option(name)


@pytest.mark.nightly
@pytest.mark.usefixtures("in_time")
@pytest.mark.parametrize("seed", SEEDS)
def test_no_wrong_answer(seed: int, records: Records, tmp_path: Path) -> None:
    """What is printed is shown if the test fails: how to repeat it, and what was done."""
    print(f"again: make attack SEED={seed} MINUTES=0.001")
    attack = Attack(seed, tmp_path, records)
    print(f"{shlex.join(attack.words)}\nfault {attack.fault!r}, signals at {attack.signals}, "
          f"output {attack.out}, closed {attack.closes}, model {attack.formula.model}, assumed "
          f"{attack.assumed}, refused {attack.is_refused}\n{attack.formula.text[:500]}\n"
          f"{attack.body}")
    before = files_of(attack.home)
    ended = run_of(attack)
    print(f"status {ended.status}, signals {ended.signals}\n{ended.out[-2000:]}\n{ended.said}")
    lines = ended.out.split("\n")[:-1]      # the last one may have been cut
    answers = [line for line in lines if line.startswith("s ")]
    values = [word for line in lines if line.startswith("v") for word in line.split()[1:]]
    assert_answer_is_true(attack, answers, lines)
    assert_status_says_the_same(attack, ended, answers, values)
    if not SHOWN.match(ended.out):
        assert [line for line in lines if line[:2] not in ("c ", "s ", "v ")] == []
    assert_files_are_left(attack, before, files_of(attack.home))
