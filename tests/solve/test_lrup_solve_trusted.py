"""Leaves out, one by one, each line of lrup-solve's front that is marked as trusted.

A hostile program gets a wrong answer from each front that lacks such a line, but none from the
whole front. Nightly tests leave out each statement without a marked line, and try all those
programs: there is no wrong answer."""
import contextlib
import errno
import functools
import multiprocessing
import os
import re
import shlex
import shutil
import subprocess
import tempfile
from concurrent.futures import Future, ProcessPoolExecutor
from pathlib import Path
from typing import IO, Any, Callable, Dict, Iterator, List, Optional, Sequence, Tuple

import pytest

from harness import (BUILDS, FLAGS, MODEL, PROGRAM, ROOT, Ran, alone, compiled, is_newer, named,
                     started, text_of, written)
from hostile import SATISFIABLE, is_model, program
from hostile_programs import COMMON
from limits import limited
from solving import FRONTS_FLAGS, Answer, in_place_of_lrupd, with_model

pytestmark = pytest.mark.usefixtures("lrup_solve")
FOLDER = ROOT / "tools" / "lrup-solve"
MARK = re.compile(r"// trusted \(([^)]*)\)")
LINES = (FOLDER / "front.c").read_text().splitlines(keepends=True)
# The words of each mark, by the number of its line, counting from 0.
MARKS = {number: found[1] for number, line in enumerate(LINES) for found in MARK.finditer(line)}
COMPILES = [*FRONTS_FLAGS, "-w", f"-I{FOLDER}", *shlex.split(FLAGS)]
UNSATISFIABLE, UNDER = "s UNSATISFIABLE", "s UNSATISFIABLE UNDER ASSUMPTIONS"
FOUND = "s SATISFIABLE"
# Another formula, and its proof as the only stream, or as the second one.
OTHER, PROVES, PROVES_SECOND = "p cnf 1 2\n1 0\n-1 0\n", "3 0 1 2 0\n", "4 0 1 2 0\n"
# While the front is stopped, lrupd ends, and a line is added after lrupd's last one.
FORGES = """os.kill(int(front), signal.SIGSTOP)
{end}
time.sleep(0.3)
forge({line!r})
os.kill(int(front), signal.SIGCONT)
hears('lrupd')"""
TIME, LIMIT = 10, 60    # seconds: --time, and when a front is ended
Attack = Callable[[Path, Path], bool]


def printed(pipe: Optional[IO[bytes]]) -> str:
    """What has been written into the pipe, which other processes may have open."""
    if pipe is None:
        return ""
    os.set_blocking(pipe.fileno(), False)
    return text_of(pipe.read())


def ran(words: Sequence[object], given: str = "", **how: Any) -> Ran:
    """Runs a front to its end, in a session of its own, since without some line it signals its
    process group. Processes that it leaves aren't awaited, even if they keep its outputs open."""
    how = {"stdin": subprocess.PIPE, "stdout": subprocess.PIPE, "stderr": subprocess.PIPE, **how}
    with started(words, start_new_session=True, **how) as process:
        assert process.stdin
        with contextlib.suppress(BrokenPipeError), process.stdin as pipe:
            pipe.write(given.encode())
        status = process.wait(LIMIT)
        return Ran(printed(process.stdout), printed(process.stderr), status)


def answer_of(front: Path, work: Path, body: str, words: Sequence[object] = (),
              text: str = SATISFIABLE, lrupd: object = PROGRAM, **how: Any) -> Answer:
    word = "-" if "given" in how else written(text, work)
    return Answer(ran([front, "--lrupd", lrupd, "--engines", program(body, work), "--time", TIME,
                       *words, word], **how))


def says(line: str, *how: Any, **more: Any) -> Attack:
    """The front prints this line for a satisfiable formula."""
    return lambda front, work: line in answer_of(front, work, *how, **more).out.splitlines()


def accepts(body: str, text: str = SATISFIABLE) -> Attack:
    """The front accepts a model that doesn't satisfy the formula, or prints none, or not to its
    end."""
    def attack(front: Path, work: Path) -> bool:
        answer = answer_of(front, work, body, text=text)
        is_whole = answer.values[-1:] == [0] and is_model(answer, work / "formula.cnf")
        return (FOUND in answer.answers or answer.status == 10) and not is_whole
    return attack


def gives(signs: str, text: str = SATISFIABLE) -> Attack:
    return accepts(f"model({signs!r})\ntime.sleep(0.5)", text)


def meanwhile(signs: str, body: str) -> Attack:
    """The front accepts a wrong model since something happens when lrup-model has checked it, and
    the front doesn't know that yet."""
    return lambda front, work: accepts(STOPS.format(signs=signs, body=body))(
        with_model(f'{UNTIL_STOPPED}\nexec {MODEL} "$@"', front, work), work)


def assumes(body: str, literals: str) -> Callable[[Path, Path], Answer]:
    return lambda front, work: answer_of(front, work, body,
                                         ["--assume", written(literals, work, "cube")])


def breaks(literals: str) -> Attack:
    """The front accepts the model 1 2 -3, which contradicts these assumptions."""
    return lambda front, work: assumes("model('++-')\ntime.sleep(0.5)",
                                       literals)(front, work).status == 10


def killed_by_its_status(front: Path, work: Path) -> bool:
    """SIGFPE has the number of the status for a proof under assumptions."""
    body = ("os.mkfifo(folder + '/round-1.stream-1')\ncheck()\n"
            "open(folder + '/round-1.stream-1', 'w')\n"
            + "pid = int(open(f'/proc/{front}/task/{front}/children').read().split()[-1])\n"
            + FORGES.format(end="os.kill(pid, signal.SIGFPE)", line=UNDER))
    return assumes(body, "2 0\n")(front, work).answers == [UNDER]


def planted(work: Path, *names: str) -> Path:
    """The user's current folder, with hostile programs in it."""
    folder = work / "here"
    folder.mkdir()
    in_place_of_lrupd("echo s UNSATISFIABLE", folder)
    for name in names:
        program("stream(1, '')\ncheck()\nhears('lrupd')", folder).rename(folder / name)
    return folder


def in_the_current_folder(front: Path, work: Path) -> bool:
    """The running program was removed, so its path is unknown."""
    folder, formula, copy = (planted(work, "lrup-engines"), written(SATISFIABLE, work),
                             Path(shutil.copy(front, work / "removed")))
    with open(copy) as file:
        copy.unlink()
        done = ran([f"/proc/self/fd/{file.fileno()}", formula], cwd=folder,
                   pass_fds=[file.fileno()])
    return UNSATISFIABLE in done.out.splitlines()


def looked_up(words: Sequence[str], path: str) -> Attack:
    def attack(front: Path, work: Path) -> bool:
        folder, formula = planted(work, "engines"), written(SATISFIABLE, work)
        shutil.copy(MODEL, front.parent)
        done = ran([front, "--engines", folder / "engines", *words, formula], cwd=folder,
                   env={**os.environ, "PATH": path})
        return UNSATISFIABLE in done.out.splitlines()
    return attack


def prints(front: Path, work: Path) -> bool:
    engines = in_place_of_lrupd("echo s UNSATISFIABLE", work)
    return UNSATISFIABLE in ran([front, "--lrupd", PROGRAM, "--engines", engines,
                                 written(SATISFIABLE, work)]).out.splitlines()


def as_expected(*words: str) -> Attack:
    """No answer is printed, but the status says that the expected one was."""
    return lambda front, work: answer_of(front, work, "", words).status == 0


def without_value(front: Path, work: Path) -> bool:
    """The same, where the option is the last word, or comes after one that lacks its value."""
    words = [front, "--lrupd", PROGRAM, "--engines", program("", work), written(SATISFIABLE, work)]
    return any(ran([*words, *more], cwd=work).status == 0
               for more in (["--expect"], ["--proofs", "--expect=unsat"]))


def on_standard_input(*words: str) -> Attack:
    """Another formula is checked than the one whose name follows these words."""
    def attack(front: Path, work: Path) -> bool:
        body = f"stream(1, {PROVES!r})\ncheck()\nhears('lrupd')"
        done = ran([front, "--lrupd", PROGRAM, "--engines", program(body, work), "--time", TIME,
                    *words, written(SATISFIABLE, work)], OTHER)
        return UNSATISFIABLE in done.out.splitlines()
    return attack


def in_place_of_a_number(front: Path, work: Path) -> bool:
    """A file in the current folder has the name of a number that lrupd gets."""
    body = (f"open('10', 'w').write({OTHER!r})\nstream(1, {PROVES_SECOND!r})\n"
            "check('1 10 10 10')\nhears('lrupd')")
    return UNSATISFIABLE in answer_of(front, work, body, cwd=work).answers


def unproved(front: Path, work: Path) -> bool:
    """As lrup-check: nothing is proved, but the status says so."""
    return ran([front, "--check", "--lrupd", PROGRAM, "--engines", program("", work),
                written(SATISFIABLE, work), os.devnull]).status == 0


def begun_again(front: Path, work: Path) -> bool:
    """A program in lrupd's place says the answer, and is killed. The next one just ends."""
    says_it = f"[ -e {work}/said ] && exit 0; echo {UNSATISFIABLE}; touch {work}/said; sleep 100"
    body = (f"check()\nwhile not os.path.exists({str(work / 'said')!r}): time.sleep(0.01)\n"
            "say('over')\nhears('over')\ncheck()\nhears('lrupd')")
    return UNSATISFIABLE in answer_of(front, work, body,
                                      lrupd=in_place_of_lrupd(says_it, work)).answers


def unread(front: Path, work: Path) -> bool:
    """The same, where a front that doesn't read its words finds lrupd and a hostile program in its
    own folder, and the formula on standard input."""
    program("", front.parent).rename(front.with_name("lrup-engines"))
    front.with_name("lrupd").symlink_to(PROGRAM)
    return ran([front, "--expect", "unsat"], SATISFIABLE).status == 0


def helped(front: Path, work: Path) -> bool:
    return ran([front, "--expect", "unsat", "--help"]).status == 0


def half_unpacked(front: Path, work: Path) -> bool:
    """The program that unpacks the formula fails after it has written another one."""
    gzip = program("", work).rename(written("", work / "unpacks", "gzip"))
    gzip.write_text(f"#!/bin/sh\necho '{OTHER}'\nexit 1\n")
    body = f"stream(1, {PROVES!r})\ncheck()\nhears('lrupd')"
    done = ran([front, "--lrupd", PROGRAM, "--engines", program(body, work), "--time", TIME,
                written(SATISFIABLE, work, "formula.cnf.gz")],
               env={**os.environ, "PATH": f"{gzip.parent}:{os.environ['PATH']}"})
    return UNSATISFIABLE in done.out.splitlines()


def cut(front: Path, work: Path) -> bool:
    """The disk is full after the first words of the answer, which are another answer."""
    out = work / "out"
    with open(out, "w") as file:
        done = answer_of(front, work, CUTS, ["--assume", written("-2 0\n", work, "cube")],
                         stdout=file)
    return done.status == 20 and out.read_text() == UNSATISFIABLE


ENDS = ("os.mkfifo(folder + '/round-1.stream-1')\ncheck()\n"
        "feeding = open(folder + '/round-1.stream-1', 'w')\n")
CHANGES = f"""os.truncate(formula, 0)
open(formula, "w").write({OTHER!r})
stream(1, {PROVES!r})
check()
hears("lrupd")"""
# The pipe has the formula while lrupd reads it, and a folder's number once lrupd opens streams.
PIPES = f"""signal.alarm(4)
stream(1, {PROVES_SECOND!r})
os.mkfifo(here + "/pipe")
number = os.open(here + "/pipe", os.O_PATH)
say(f"check 1 10 10 10 {{os.getpid()}} {{number}}")
with open(here + "/pipe", "w") as pipe:
    pipe.write({OTHER!r})
    pipe.flush()
    os.dup2(FOLDER, number)
hears("lrupd")"""
CUTS = f"""stream(1, '5 2 0 1 2 0\\n')
check()
hears('lrupd')
import resource
resource.prlimit(int(front), resource.RLIMIT_FSIZE, 2 * ({len(UNSATISFIABLE)},))"""
STOPS = COMMON.replace("{", "{{").replace("}", "}}") + """\
signal.signal(signal.SIGTERM, signal.SIG_IGN)
model({signs!r})
survives()
os.kill(int(front), signal.SIGSTOP)
while ' Z ' not in open(f'/proc/{{pid}}/stat').read(): time.sleep(0.01)
{body}
os.kill(int(front), signal.SIGCONT)"""
# lrup-model begins once the front is stopped, or after some seconds.
UNTIL_STOPPED = """for k in $(seq 300); do
    grep -q '^State:.T' /proc/$PPID/status && break
    sleep 0.01
done"""
FORGED = ENDS + FORGES.format(end="feeding.close()", line=UNSATISFIABLE)
# Others write to the model before it is sealed: the same one, and a line that lrup-model skips.
ADDS = """overwrites(in_memory('model')[0], b'v 1 2 -3 0\\ns UNSATISFIABLE\\n')
model('++-')
time.sleep(0.5)"""
# The attacks, by the words of the marks.
ATTACKS: Dict[str, Attack] = {
    "current folder": in_the_current_folder, "PATH": looked_up([], f".::{os.environ['PATH']}"),
    "output": prints,
    "copy": says(UNSATISFIABLE, CHANGES, given=SATISFIABLE), "unpacked": half_unpacked,
    "assume": breaks("2 3 0\n"), "seal": meanwhile(
        "++-", "tries(overwrites, in_memory('model')[0], b'v -1 -2 -3 0\\n')"),
    "lines": says(UNSATISFIABLE, COMMON + ADDS),
    "values": gives("++-"),
    "formula": says(UNSATISFIABLE, f"stream(1, {OTHER!r})\nstream(2, {PROVES!r})\n"
                                   "check('2 10 10 0')\nhears('lrupd')"),
    "file": on_standard_input(), "word": on_standard_input(), "after --": on_standard_input("--"),
    "one line": says(UNSATISFIABLE, "say('c x\\ns UNSATISFIABLE')"),
    "expected": as_expected("--expect", "unsat"), "answer": as_expected("--expect", "unsat"),
    "name": as_expected("--expct=unsat"), "empty": as_expected("--expect="),
    "no value": without_value, "unproved": unproved, "options": unread, "words": unread,
    "help": helped,
    "end": cut, "signal": killed_by_its_status, "status": says(UNSATISFIABLE, FORGED),
    "exit": says(UNSATISFIABLE, FORGED), "emptied": begun_again,
    "last line": lambda front, work: UNSATISFIABLE in answer_of(
        front, work, "stream(1, '')\ncheck()\nhears('lrupd')",
        lrupd=in_place_of_lrupd("echo another program", work)).answers,
}
# Attacks that no single line keeps off.
OTHER_ATTACKS: Dict[str, Attack] = {
    "a name": looked_up(["--lrupd", "lrupd"], "/usr/bin"),
    "a formula in place of a number": in_place_of_a_number,
    "a formula in place of the folder": says(UNSATISFIABLE, PIPES),
    "a verdict in place of a comment": says(UNSATISFIABLE, "say('s UNSATISFIABLE')"),
    "no model": gives(""), "no variable is true": gives("---"), "one clause isn't": gives("+--"),
    "too many variables": gives("++-+"),
    "a clause on two lines": gives("++", "p cnf 2 2\n1 2 0\n-1 0\n"),
    "a formula that is refused": gives("+", "p cnf 1 1\n1 -2 0\n"),
    "against an assumption": breaks("-2 0\n"), "assumptions that are refused": breaks("c 3 0\n"),
    "a forged line of lrup-model": meanwhile("---", f"forge({FOUND!r})"),
}


@functools.lru_cache(maxsize=None)
def unchanged() -> Tuple[Path, Path]:
    """The whole front, and the supervisor's object. One worker builds both."""
    place = BUILDS / "unchanged"
    front, supervisor = place / "lrup-solve", place / "supervisor.o"
    with alone(place / "lock"):
        if not is_newer(front, FOLDER.glob("*.[chd]*")):
            compiled(supervisor, [FOLDER / "supervisor.c"], "-c", *COMPILES)
            compiled(front, [FOLDER / "front.c", supervisor], *COMPILES)
    return front, supervisor


def whole_front(work: Path) -> Path:
    """A copy of the whole front, alone in its folder: some attacks put other programs beside it."""
    (work / "bin").mkdir()
    return Path(shutil.copy(unchanged()[0], work / "bin"))


def source_without(lines: range) -> str:
    """The front's text with an empty statement in place of these lines."""
    return "".join([*LINES[:lines.start], ";\n", *LINES[lines.stop:]])


def compiled_front(source: str, work: Path) -> Path:
    """A front with this text, alone in its folder."""
    (work / "bin").mkdir()
    text = written(source, work, "front.c")
    return compiled(work / "bin" / "lrup-solve", [text, unchanged()[1]], *COMPILES)


def test_each_mark_has_an_attack_and_each_attack_a_mark() -> None:
    assert sorted(MARKS.values()) == sorted(ATTACKS)


@pytest.mark.parametrize("number, name", named(
    (name, number, name) for number, name in MARKS.items() if name in ATTACKS))
def test_a_wrong_answer_without_a_trusted_line(number: int, name: str, tmp_path: Path) -> None:
    """The same attack gets none from the whole front. There are up to three on the one without the
    line, since on a busy machine an attack may come too late."""
    def succeeds(attempt: int) -> bool:
        without = tmp_path / f"without-{attempt}"
        without.mkdir()
        front = compiled_front(source_without(range(number, number + 1)), without)
        return ATTACKS[name](front, without)

    assert any(map(succeeds, range(3))), LINES[number]
    whole = tmp_path / "whole"
    whole.mkdir()
    assert not ATTACKS[name](whole_front(whole), whole)


@pytest.mark.parametrize("name", OTHER_ATTACKS)
def test_no_wrong_answer_of_the_whole_front(name: str, tmp_path: Path) -> None:
    assert not OTHER_ATTACKS[name](whole_front(tmp_path), tmp_path)


# Statements without a mark.

AT_ONCE = 12 * (os.cpu_count() or 1)    # attacks, which mostly wait
PROCESSES, MEMORY = 100, 2 << 30        # of an attack: without some line a front may fork forever
EVERY_ATTACK = {**ATTACKS, **OTHER_ATTACKS}
WRONG = "a wrong answer"


def code_of(line: str) -> str:
    """The line without strings, characters and comments."""
    return re.sub(r'"(\\.|[^"\\])*"|\'(\\.|[^\'\\])*\'|//.*', "", line).strip()


def end_of(first: int) -> int:
    """The last line of the statement that begins in this line; an `else` belongs to an `if` of the
    statement, if there is one."""
    depth, has_if = 0, False
    for number in range(first, len(LINES)):
        code = code_of(LINES[number])
        depth += code.count("{") + code.count("(") - code.count("}") - code.count(")")
        has_if = has_if or code.startswith(("if", "else if"))
        goes_on = has_if and code_of(LINES[number + 1]).startswith("else")
        if depth == 0 and code.endswith((";", "}")) and not goes_on:
            return number
    raise AssertionError(f"line {first + 1} begins no statement")


def statements() -> List[range]:
    """The lines of each statement without a marked line, simple or not, in the front's functions.
    Labels aren't statements."""
    found, before = [], ""
    for number, line in enumerate(LINES):
        code = code_of(line)
        if not code or line.startswith("#"):
            continue
        follows = before.endswith((";", "{", "}", ":")) and not before.endswith("= {")
        is_inner = re.match(r"(if|for|while|else)\b.*\)$", before) is not None
        is_label = code.endswith(":") or code.startswith("}")
        if line.startswith("    ") and (follows or is_inner) and not is_label:
            lines = range(number, end_of(number) + 1)
            if not any(k in MARKS for k in lines):
                found.append(lines)
        before = code
    return found


def tried(attack: Attack, front: Path, work: Path) -> str:
    """If the front can't run, or doesn't end, there is no wrong answer."""
    (work / "bin").mkdir()
    try:
        return WRONG if attack(Path(shutil.copy(front, work / "bin")), work) else ""
    except (subprocess.TimeoutExpired, OSError):
        return ""
    except Exception as found:
        return repr(found)


def attacked(attack: Attack, front: Path) -> str:
    """WRONG, or what has happened to the attack itself, or nothing. The attack has a folder and a
    control group of its own, of which nothing is left."""
    with tempfile.TemporaryDirectory() as folder:
        work = Path(folder)
        found = written("it hasn't ended", work, "found")
        with limited(work, PROCESSES, MEMORY) as group:
            child = os.fork()
            if child == 0:
                try:
                    group.join()
                    found.write_text(tried(attack, front, work))
                finally:
                    os._exit(0)
            os.waitpid(child, 0)
        return found.read_text()


def starts_itself(front: Path, work: Path) -> bool:
    """The front, named as lrup-engines, starts itself until there can't be more processes."""
    done = ran([front, "--lrupd", PROGRAM, "--engines", front, written(SATISFIABLE, work)])
    return os.strerror(errno.EAGAIN) in done.err


@pytest.mark.nightly
def test_a_front_that_starts_itself_ends(tmp_path: Path) -> None:
    """It does without the statement by which a front refuses to be started by another one."""
    refusal, = [number for number, line in enumerate(LINES) if 'getenv("LRUP_FRONT")' in line]
    front = compiled_front(source_without(range(refusal, refusal + 1)), tmp_path)
    assert attacked(starts_itself, front) == WRONG
    assert attacked(starts_itself, unchanged()[0]) == ""


# What each attack finds, once it has ended.
Findings = Dict[str, "Future[str]"]


def attacked_by(name: str, front: Path) -> str:
    return attacked(EVERY_ATTACK[name], front)


def front_without(lines: range, work: Path) -> Optional[Path]:
    """None if the front can't be compiled without these lines."""
    work.mkdir()
    try:
        return compiled_front(source_without(lines), work)
    except subprocess.CalledProcessError:
        return None


@pytest.fixture(scope="session")
def findings(request: pytest.FixtureRequest) -> Iterator[Dict[range, Findings]]:
    """Attacks the front without the `lines` of each test that uses this. The attacks of all tests
    are done side by side, by one pool of processes."""
    chosen: List[Any] = [item.callspec.params["lines"] for item in request.session.items
                         if isinstance(item, pytest.Function) and "findings" in item.fixturenames]
    unchanged()
    with tempfile.TemporaryDirectory() as folder, \
            ProcessPoolExecutor(AT_ONCE, multiprocessing.get_context("fork")) as pool:
        os.chmod(folder, 0o755)     # an attack may be another user's
        places = [Path(folder) / str(lines.start) for lines in chosen]
        fronts = zip(chosen, pool.map(front_without, chosen, places))
        yield {lines: {name: pool.submit(attacked_by, name, front) for name in EVERY_ATTACK
                       if front is not None} for lines, front in fronts}
        pool.shutdown(cancel_futures=True)


def found(findings: Findings) -> Dict[str, str]:
    """What there is, by the attacks' names."""
    results = {name: finding.result() for name, finding in findings.items()}
    return {name: result for name, result in results.items() if result}


@pytest.mark.nightly
@pytest.mark.parametrize("lines, name", named(
    (name, range(number, number + 1), name) for number, name in MARKS.items()))
def test_attacks_side_by_side(lines: range, name: str, findings: Dict[range, Findings]) -> None:
    """Without a marked line, its attack gets a wrong answer here, too."""
    assert found(findings[lines]).get(name) == WRONG


@pytest.mark.nightly
@pytest.mark.parametrize("lines", named(
    (f"line {lines.start + 1}: {LINES[lines.start].strip()[:50]}", lines)
    for lines in statements()))
def test_no_wrong_answer_without_an_unmarked_statement(
        lines: range, findings: Dict[range, Findings]) -> None:
    assert found(findings[lines]) == {}, "".join(LINES[lines.start:lines.stop])
