"""Hostile programs in place of lrup-engines, for tests of the front.

A program is Python: a common beginning, and a body."""
import gzip
import os
import signal
import subprocess
import sys
from pathlib import Path
from typing import Optional, Sequence

from harness import PROGRAM, executable, run, written
from proof_forms import read_formula
from solving import SOLVE, Answer, end_all, marked, none_left

UNKNOWN, FOUND, PROVED = "s UNKNOWN", "s SATISFIABLE", "s UNSATISFIABLE"
UNDER = "s UNSATISFIABLE UNDER ASSUMPTIONS"
STATUSES = {UNKNOWN: 0, FOUND: 10, PROVED: 20, UNDER: 20}
# Satisfied by 1 2 3 and by 1 2 -3.
SATISFIABLE = "p cnf 3 4\nc a comment\n1 2 0\n-1\n2 0 1 -3 0\nc 3 0\n3 -2 1 0\n"
LONG = 60       # seconds within which a run has to end, also on a busy machine
PROOF = "5 2 0 1 2 0\n6 0 5 3 4 0\n"                         # refutes FOUR
DEADLY = (signal.SIGHUP, signal.SIGINT, signal.SIGQUIT, signal.SIGABRT, signal.SIGFPE,
          signal.SIGUSR1, signal.SIGALRM, signal.SIGTERM, signal.SIGPIPE, signal.SIGSEGV,
          signal.SIGXCPU, signal.SIGKILL)
STOPS = (signal.SIGSTOP, signal.SIGTSTP, signal.SIGTTOU)
ANY_SIGNAL = (*DEADLY, *STOPS, signal.SIGCHLD, signal.SIGCONT)

# Finds the id of a checker that is the front's child, and starts an orphan that gets the same id
# and ends with a status. If the program may choose ids, that takes a moment; otherwise it forks for
# some seconds, until a process has the id.
AGAIN = """
import ctypes, os, signal, time

def checker_of(front, word):
    while True:
        for child in open(f"/proc/{front}/task/{front}/children").read().split():
            try:
                words = open(f"/proc/{child}/cmdline").read().split("\\0")
                if any(found.startswith(word) for found in words):
                    return int(child)
            except OSError:
                pass

def process(pid):
    ids = (ctypes.c_int * 1)(pid)
    place = ctypes.addressof(ids)
    numbers = (ctypes.c_uint64 * 11)(0, 0, 0, 0, signal.SIGCHLD, 0, 0, 0, place, 1, 0)
    made, end = ctypes.CDLL(None).syscall(435, numbers, 88), time.monotonic() + 12      # clone3
    while made < 0 and time.monotonic() < end:
        made = os.fork()
        if made == 0 and os.getpid() != pid:
            os._exit(0)
        if made not in (0, pid):
            os.waitpid(made, 0)
            made = -1
    return made

def again(pid, status, mark):
    if os.fork() == 0:
        made = process(pid)
        if made == 0:
            open(mark, "w")
            time.sleep(0.3)
            os._exit(status)
        os._exit(0)
    os.wait()
    time.sleep(1)
"""
# The common beginning. `say` sends a line to the front, and `write` any bytes.
BEGINS = f"""#!{sys.executable} -SE
import os, signal, subprocess, sys, time
here = os.path.dirname(sys.argv[0])
TO_ENGINES, FROM_ENGINES, of_lrupd, *others = os.environ["LRUP_FRONT"].split(" ", 5)
formula, assumptions, lrupd = others
front = formula.split("/")[2]
FRONT = os.open(f"/proc/{{front}}/fd/{{TO_ENGINES}}", os.O_RDONLY)
os.dup2(os.open(f"/proc/{{front}}/fd/{{FROM_ENGINES}}", os.O_WRONLY), 1)
folder = here + "/folder"
os.mkdir(folder)
FOLDER = os.open(folder, os.O_PATH | os.O_DIRECTORY)

def write(data):
    os.write(1, data)

def say(line):
    write(line.encode()[:4096].ljust(4096, b"\\0"))

def check(words="1 10 10 0"):
    say(f"check {{words}} {{os.getpid()}} {{FOLDER}}")

def model(signs):
    say("v " + signs)
    say("model")

def stream(number, text):
    open(folder + f"/round-1.stream-{{number}}", "w").write(text)

def hears(name):
    text = ""
    while True:
        more = os.read(FRONT, 1 << 16).decode()
        text += more
        if not more or any(line.startswith(name + " ") for line in text.splitlines()):
            return text

def in_memory(name):    # the front's files with this name
    found, files = [], f"/proc/{{front}}/fd/"
    for number in os.listdir(files):
        try:
            if f"memfd:{{name}} " in os.readlink(files + number):
                found.append(files + number)
        except OSError:     # it has been closed
            pass
    return found

def forge(line):        # after all that lrupd, or lrup-model, has written
    for path in in_memory("output"):
        with open(path, "ab") as file:
            file.write(line.encode() + b"\\n")

def everywhere(data):
    for name in os.listdir("/proc/self/fd"):
        try:
            if int(name) != 2:
                os.set_blocking(int(name), False)
                os.write(int(name), data)
        except OSError:
            pass

"""


def program(body: str, work: Path) -> Path:
    return executable(f"{BEGINS}{body}\n", work, "engines")


def run_with(body: str, words: Sequence[object], text: str, work: Path, lrupd: object = PROGRAM,
             front: object = SOLVE, may_leave: bool = False, given: Optional[str] = None,
             is_packed: bool = False, stderr: int = subprocess.PIPE) -> Answer:
    """Runs the front, on a packed copy of the formula if `is_packed`. The run must leave its own
    temporary folder empty, and no process behind; with `may_leave` it may leave processes, which
    are ended here. Each output line has to be an answer, a value or a comment."""
    formula, files, mark = written(text, work), work / "temporary", marked(work)
    files.mkdir()
    word: object = "-" if given is not None else formula
    if is_packed:
        word = formula.with_name(f"{formula.name}.gz")
        formula.with_name(f"{formula.name}.gz").write_bytes(gzip.compress(text.encode()))
    answer = Answer(run([front, "--lrupd", lrupd, "--engines", program(body, work), *words, word],
                        given, LONG, env={**os.environ, "TMPDIR": str(files)}, stderr=stderr))
    if may_leave:
        end_all(mark)
    none_left(mark)
    assert os.listdir(files) == []
    strange = [line for line in answer.out.splitlines() if line[:2] not in ("c ", "s ", "v ")]
    assert strange == []
    assert len(answer.answers) < 2
    return answer


def printed(answer: Answer) -> str:
    """The end of both outputs, for messages: some programs print without end."""
    return f"status {answer.status}, of\n{answer.out[-2000:]}{answer.said[-2000:]}"


def assert_answer(answer: Answer, line: str) -> None:
    """This line is the only answer, and the status says the same."""
    assert (answer.answers, answer.status) == ([line], STATUSES[line]), printed(answer)


def is_model(answer: Answer, formula: Path, assumed: Sequence[int] = ()) -> bool:
    true = set(answer.values)
    return (true.issuperset(assumed) and not any(-literal in true for literal in true - {0})
            and all(true & set(clause) for clause in read_formula(formula)))
