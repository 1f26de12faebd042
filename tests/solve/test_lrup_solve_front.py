"""Runs lrup-solve with programs that lie, die, and write to whatever they can, in place of
lrup-engines.

Whatever they do, 's UNSATISFIABLE' is printed only if lrupd has ended with status 0 on the named
formula, and 's SATISFIABLE' only with a model for which lrup-model has ended with status 10; each
other line begins with c; no process is left, and no file is made."""
import os
import re
import signal
import subprocess
import sys
import time
from pathlib import Path
from typing import Iterator, List, Sequence

import pytest

from harness import (FOUR, LIMIT, PROGRAM, ROOT, VERSION, Ran, executable, named, output_of, run,
                     started, until, written)
from hostile import (AGAIN, FOUND, PROOF, PROVED, SATISFIABLE, UNDER, UNKNOWN, assert_answer,
                     is_model, printed, program, run_with)
from solving import (SOLVE, Answer, before_lrupd, check, children_of, in_place_of_lrupd, marked,
                     none_left, with_model)

pytestmark = pytest.mark.usefixtures("lrup_solve")
FRONT = ROOT / "tools" / "lrup-solve" / "front.c"
UNCHECKED = "c the run ended before lrup-model had checked the model\ns UNKNOWN\n"
ENDS = "hears('lrupd')\n"
PROVES = f"stream(1, {PROOF!r})\ncheck()\n"             # FOUR
PROVES_NOTHING = f"stream(1, '')\ncheck()\n{ENDS}"
HAS_MODEL = "model('++-')"                               # of SATISFIABLE
# SATISFIABLE has no assignment that makes this literal true.
PROVES_UNDER = f"stream(1, '5 2 0 1 2 0\\n')\ncheck()\n{ENDS}"
UNDER_LITERAL = "-2 0\n"
A_SECOND = ["--time", "1"]
# lrupd waits for its stream, and is killed.
KILLED = AGAIN + """
def killed():
    os.mkfifo(folder + '/round-1.stream-1')
    check()
    feeding = open(folder + '/round-1.stream-1', 'w')
    pid = checker_of(front, '--rounds')
    os.kill(pid, signal.SIGKILL)
    hears('lrupd')
    for name in os.listdir(folder):     # the pipe, and the file for what it would have saved
        os.unlink(folder + '/' + name)
    return pid
"""


# Answers.


@pytest.mark.parametrize("body", named([
    ("it ends", PROVES + ENDS), ("it crashes", f"{PROVES}{ENDS}os.abort()"),
    ("it stays", f"{PROVES}while True: time.sleep(100)")]))
def test_a_proof(body: str, tmp_path: Path) -> None:
    assert_answer(run_with(body, [], FOUR, tmp_path), PROVED)


@pytest.mark.parametrize("body, text", named([
    ("in one piece", HAS_MODEL, SATISFIABLE),
    ("in pieces", "for k in '+', '', '+-': say('v ' + k)\nsay('model')", SATISFIABLE),
    ("of what clauses need", "model('++')", SATISFIABLE),
    ("of no variables", "model('')", "p cnf 0 0\n"),
    ("of a hundred variables", "model('+-' * 50)", "p cnf 100 2\n1 -100 0\n-2 99 0\n")]))
def test_a_model(body: str, text: str, tmp_path: Path) -> None:
    answer = run_with(body, [], text, tmp_path)
    assert_answer(answer, FOUND)
    assert is_model(answer, tmp_path / "formula.cnf"), answer.values


@pytest.mark.parametrize("literals, body, line", named([
    ("a proof", UNDER_LITERAL, PROVES_UNDER, UNDER),
    ("a proof that doesn't contradict them", "2 0\n",
     f"stream(1, '5 1 0 1 2 0\\n')\ncheck()\n{ENDS}", UNKNOWN),
    ("a model", "2 -3 0\n", HAS_MODEL, FOUND),
    ("a model that breaks them", "2 3 0\n", HAS_MODEL, UNKNOWN),
    ("a model without them", "2 3 0\n", "model('++')", UNKNOWN)]))
def test_assumptions(literals: str, body: str, line: str, tmp_path: Path) -> None:
    cube = written(literals, tmp_path, "cube")
    assert_answer(run_with(body, ["--assume", cube], SATISFIABLE, tmp_path), line)


# Wrong requests, proofs and models.


@pytest.mark.parametrize("words", [
    "1 99999999999999999999 1 1", "1 268435457 1 1", "99 1 1 1", "65 1 1 1", "0 1 1 1",
    "1 1 1 1000001", "1 -1 1 1", "-1 1 1 1", "1 1 1", "", "1", "1 1 1 1 1", "1 1 1 1 --help",
    "1 1 1 1;", "x 1 1 1", "1 0x10 1 1", "1 1 1 x1", "1 1e3 1 1", "1 1.5 1 1"])
def test_a_request_with_wrong_numbers(words: str, tmp_path: Path) -> None:
    """lrupd isn't started, although there is a proof."""
    body = f"stream(1, {PROOF!r})\ncheck({words!r})\ntime.sleep(100)"
    assert_answer(run_with(body, A_SECOND, FOUR, tmp_path), UNKNOWN)


@pytest.mark.parametrize("numbers", [
    " PID 3", " -1 3", " 0 3", " 4294967297 3", " 99999999999999999999 3", " PID -1",
    " PID 99999999999999999999", " PID 18446744073709551619", " PID 2147483648", " +1 3",
    "  PID 3", " PID 3 ", " PID 3x", " PID 3 3", " PID", " 0x1 3", "\tPID 3"])
def test_a_request_with_a_wrong_process_or_file(numbers: str, tmp_path: Path) -> None:
    """lrupd is started only for the first of these."""
    lrupd = in_place_of_lrupd(f"echo x >> {tmp_path}/starts", tmp_path)
    body = f"say('check 1 10 10 0{numbers}')\ntime.sleep(100)"
    answer = run_with(body.replace("PID", "' + str(os.getpid()) + '"), ["--time", "5"], FOUR,
                      tmp_path, lrupd)
    assert answer.answers == [UNKNOWN], printed(answer)
    assert (tmp_path / "starts").exists() == (numbers == " PID 3")


def test_a_second_request(tmp_path: Path) -> None:
    body = f"{PROVES}check()\ntime.sleep(100)"
    assert_answer(run_with(body, A_SECOND, SATISFIABLE, tmp_path), UNKNOWN)


@pytest.mark.parametrize("body", named([
    ("verdicts", "say('s UNSATISFIABLE')\nsay('s SATISFIABLE')\nsay('lrupd 0')"),
    ("verdicts everywhere", "everywhere(b's UNSATISFIABLE\\n' * 3)"),
    ("garbage everywhere", "everywhere(os.urandom(100000))")]))
def test_words_that_are_no_answer(body: str, tmp_path: Path) -> None:
    assert_answer(run_with(body, ["--time", "20"], SATISFIABLE, tmp_path), UNKNOWN)


@pytest.mark.parametrize("body", named([
    ("of another formula", PROVES + ENDS),
    ("garbage", f"stream(1, os.urandom(5000).hex())\ncheck()\n{ENDS}"),
    ("without an end", f"stream(1, '5 2 0 1')\ncheck()\n{ENDS}"),
    ("a folder", f"os.mkdir(folder + '/round-1.stream-1')\ncheck()\n{ENDS}"),
    ("none", f"check()\n{ENDS}"),
    ("a round that is forged", f"""stream(1, '')
open(folder + '/round-2.sizes', 'w').write('1 10 10\\n')
open(folder + '/round-2.cnf', 'w').write('p cnf 1 2\\n1 0\\n-1 0\\n')
open(folder + '/round-2.stream-1', 'w').write('3 0 1 2 0\\n')
check()
{ENDS}"""),
    ("a second round", f"""stream(1, '')
open(folder + '/round-2.sizes', 'w').write('1 10 10\\n')
open(folder + '/round-2.stream-1', 'w').write('3 0 1 2 0\\n')
check()
{ENDS}"""),
    ("a report", f"""{PROVES_NOTHING}
for name in os.listdir(folder): open(folder + '/' + name, 'w').write('s UNSATISFIABLE\\n')"""),
    ("in another folder", f"""stream(1, {PROOF!r})
FOLDER = os.open('/', os.O_PATH)
check()
{ENDS}"""),
    ("in no file of its own", f"stream(1, {PROOF!r})\nFOLDER = 99\ncheck()\n{ENDS}"),
    ("in no folder", f"subprocess.run(['rm', '-rf', folder])\ncheck()\n{ENDS}")]))
def test_a_wrong_proof(body: str, tmp_path: Path) -> None:
    assert_answer(run_with(body, ["--time", "20"], SATISFIABLE, tmp_path), UNKNOWN)


@pytest.mark.parametrize("body", named([
    ("wrong", "model('---')"), ("partial", "model('+')"), ("partial, but longer", "model('+-')"),
    ("wrong later", "model('--+')"), ("empty", "say('model')"),
    ("of too many variables", "model('++-+')"), ("of other variables", "model('   ++-')"),
    ("no signs", "model('1 2 -3 0')"), ("without an end", "say('v ++-')"),
    ("without v", "say('++-')\nsay('model')"),
    ("of empty lines", "say('v ')\nsay('v')\nsay('')\nsay('model')"),
    ("in a line", "write(b'v ++-\\nmodel\\n')"),
    ("endless", "for k in range(6000): say('v ' + 4094 * '+')\nsay('model')")]))
def test_a_wrong_model(body: str, tmp_path: Path) -> None:
    assert_answer(run_with(body, ["--time", "20"], SATISFIABLE, tmp_path), UNKNOWN)


@pytest.mark.parametrize("body, line", named([
    ("the model is first", f"model('++')\n{PROVES}{ENDS}", UNKNOWN),
    ("the proof is first", f"{PROVES}{ENDS}model('++')", PROVED)]))
def test_a_wrong_model_and_a_proof(body: str, line: str, tmp_path: Path) -> None:
    """A model ends the solving, and so a proof that comes after it isn't checked."""
    assert_answer(run_with(body, [], FOUR, tmp_path), line)


def test_a_pipes_formula_is_sealed(tmp_path: Path) -> None:
    """If a formula comes from a pipe, the program can't write to its sealed copy, and so can't make
    the copy unsatisfiable."""
    body = f"""files = f"/proc/{{front}}/fd/"
copies = [files + name for name in os.listdir(files)
          if "memfd:lrup-solve" in os.readlink(files + name)]
for path in [formula, *copies]:
    try:
        file = os.open(path, os.O_RDWR)
        os.pwrite(file, b"p cnf 1 2\\n1 0\\n-1 0\\n", 0)
    except OSError:
        pass
    try:
        os.truncate(path, 19)
    except OSError:
        pass
open({str(tmp_path / "seen")!r}, "a").write(open(formula).read())
stream(1, "3 0 1 2 0\\n")
check()
{ENDS}"""
    answer = run_with(body, [], SATISFIABLE, tmp_path, given=SATISFIABLE)
    assert_answer(answer, UNKNOWN)
    assert (tmp_path / "seen").read_text() == SATISFIABLE


def test_an_endless_formula() -> None:
    """An endless input is copied only up to the largest size of a formula."""
    free = re.search(r"MemAvailable:\s+(\d+)", Path("/proc/meminfo").read_text())
    if not free or int(free[1]) < 5000000:
        pytest.skip("less than 5 GB of memory are free")
    assert run([SOLVE, "--lrupd", PROGRAM, "/dev/zero"]) == Ran(
        "", "lrup-solve: /dev/zero: more than 2684354560 bytes, which lrup-solve doesn't copy: "
        "give a file\n", 1)


# Ends, and programs that don't end.


@pytest.mark.parametrize("body", named([
    ("at once", ""), ("status 20", "os._exit(20)"), ("status 10", "os._exit(10)"),
    ("status 1", "os._exit(1)"), ("a crash", "os.abort()"),
    ("with its group", "os.killpg(0, signal.SIGKILL)"),
    ("children stay", "if not os.fork():\n    os.fork()\n    os.fork()\n    time.sleep(1000)")]))
def test_an_end_without_an_answer(body: str, tmp_path: Path) -> None:
    assert_answer(run_with(body, ["--time", "20"], SATISFIABLE, tmp_path), UNKNOWN)


@pytest.mark.parametrize("body", named([
    ("sleeps", "time.sleep(1000)"), ("stopped", "os.kill(os.getpid(), signal.SIGSTOP)"),
    ("closes all", "os.closerange(0, 1000)\ntime.sleep(1000)"),
    ("no end of pieces", "while True: write(b'c ' + b'x' * 1000)"),
    ("no end of comments", "while True: say('c x' * 1000)"),
    ("no end of nonsense", "while True: write(b'x\\n' * 1000)"),
    ("heeds nothing", "for k in range(1, 65):\n    try: signal.signal(k, signal.SIG_IGN)\n"
     "    except (OSError, ValueError): pass\ntime.sleep(1000)"),
    ("its children stay", "if os.fork(): os._exit(0)\ntime.sleep(1000)"),
    ("lrupd waits", "os.mkfifo(folder + '/round-1.stream-1')\ncheck()\ntime.sleep(1000)")]))
def test_no_end(body: str, tmp_path: Path) -> None:
    assert_answer(run_with(body, ["-q", *A_SECOND], SATISFIABLE, tmp_path), UNKNOWN)


def test_lrup_engines_is_late(tmp_path: Path) -> None:
    answer = run_with("time.sleep(1000)", A_SECOND, SATISFIABLE, tmp_path)
    assert answer.ran == Ran("c no answer: lrup-engines is late\ns UNKNOWN\n", "", 0)


@pytest.mark.parametrize("end", named([
    ("killed", "os.kill(os.getpid(), 9)"), ("a crash", "os.kill(os.getpid(), 11)"),
    ("status 0", "os._exit(0)"), ("status 1", "os._exit(1)"), ("status 20", "os._exit(20)"),
    ("a child holds its files", "os.fork() or time.sleep(1000)")]))
@pytest.mark.parametrize("steps", range(6))
def test_an_end_on_the_way_to_a_verdict(steps: int, end: str, tmp_path: Path) -> None:
    """The program ends after that many of its steps."""
    way = [f"stream(1, {PROOF[:14]!r})", "stream(2, '')", "check('2 10 10 1000000')",
           f"stream(1, {PROOF!r})", ENDS]
    answer = run_with("\n".join([*way[:steps], end]), ["--time", "3"], FOUR, tmp_path)
    may_be_proved = [[PROVED]] * (steps == len(way))
    assert answer.answers in [[], [UNKNOWN], *may_be_proved], printed(answer)


@pytest.mark.parametrize("body", named([
    ("ends", "say('refused')"), ("crashes", "say('refused')\nos.abort()")]))
def test_inputs_are_refused(body: str, tmp_path: Path) -> None:
    answer = run_with(body, [], FOUR, tmp_path)
    assert (answer.answers, answer.status) == ([], 1), printed(answer)


def test_the_report_cannot_be_kept(tmp_path: Path) -> None:
    """The verdict and its status don't depend on that."""
    answer = run_with(f"{PROVES}{ENDS}say('refused')", [], FOUR, tmp_path)
    assert_answer(answer, PROVED)


@pytest.mark.parametrize("words", [[], ["-q"]], ids=str)
def test_the_program_cannot_be_run(words: List[str], tmp_path: Path) -> None:
    """lrup-engines, or MPI's command, can't: there is no answer."""
    answer = run_with("os._exit(127)", words, FOUR, tmp_path)
    assert (answer.out, answer.said, answer.status) == (
        "", "lrup-solve: lrup-engines ended with status 127, so nothing could run\n", 1)


@pytest.mark.parametrize("name", ["none", "folder", "text"])
@pytest.mark.parametrize("option, program_name", [
    ("--engines", "lrup-engines"), ("--lrupd", "lrupd")])
def test_no_program(option: str, program_name: str, name: str, tmp_path: Path) -> None:
    """A missing file, a folder, and a file that nobody may run."""
    (tmp_path / "folder").mkdir()
    written("", tmp_path, "text")
    assert run([SOLVE, "--lrupd", PROGRAM, option, tmp_path / name, written(FOUR, tmp_path)]) == (
        Ran("", f"lrup-solve: no {program_name} that can be run: {tmp_path}/{name}\n", 1))


def test_in_little_memory(tmp_path: Path) -> None:
    """The front allocates no memory for a model before there is one."""
    done = run(["sh", "-c", "ulimit -v 16000 && exec \"$@\"", "sh", SOLVE, "--lrupd",
                in_place_of_lrupd("kill -9 $$", tmp_path), "--engines", "/bin/true",
                written(FOUR, tmp_path)])
    assert done == Ran("s UNKNOWN\n", "", 0)


# Other checkers.


@pytest.mark.parametrize("body, said", named([
    ("status 0", "echo s SATISFIABLE; exit 0", "with status 0: s SATISFIABLE"),
    ("status 3", "echo s SATISFIABLE; exit 3", "with status 3: s SATISFIABLE"),
    ("status 20", "echo s SATISFIABLE; exit 20", "with status 20: s SATISFIABLE"),
    ("no line", "exit 10", "with status 10: "),
    ("unknown", "echo s UNKNOWN; exit 10", "with status 10: s UNKNOWN"),
    ("another last line", "echo s SATISFIABLE; echo; exit 10", "with status 10: s SATISFIABLE"),
    ("half a line", "printf 's SATISFIABLE'; exit 10", "with status 10: s SATISFIABLE"),
    ("lrupd's answer", "echo s UNSATISFIABLE; exit 0", "with status 0: s UNSATISFIABLE"),
    ("lrupd's line", "echo s UNSATISFIABLE; exit 10", "with status 10: s UNSATISFIABLE"),
    ("a cause", "echo c clause 7 has no true literal; exit 3",
     "with status 3: clause 7 has no true literal"),
    ("a message", "echo lrup-model: out of memory >&2; exit 6",
     "with status 6: lrup-model: out of memory"),
    ("killed", "echo s SATISFIABLE; kill -9 $$", "by a signal: Killed"),
    ("a signal with the status's number", "echo s SATISFIABLE; kill -USR1 $$",
     "by a signal: User defined signal 1")]))
def test_lrup_model_ends_otherwise(body: str, said: str, tmp_path: Path) -> None:
    """In place of lrup-model there is a program that ends in this way. Only status 10 and the right
    last line accept a model."""
    front = with_model(body, SOLVE, tmp_path)
    answer = run_with(HAS_MODEL, [], SATISFIABLE, tmp_path, front=front)
    assert_answer(answer, UNKNOWN)
    assert answer.said == ""
    assert answer.comments == [f"lrup-model ended {said}"]


def test_what_lrup_model_gets(tmp_path: Path) -> None:
    """It gets the formula, and the model's lines in a file that nobody can write to."""
    body = f"""cat "$1" "$2" > {tmp_path}/seen
(echo x >> "$2") 2> /dev/null || echo fails > {tmp_path}/said
echo s SATISFIABLE
exit 10"""
    answer = run_with(f"model({'+-' * 10 + '+'!r})", [], SATISFIABLE, tmp_path,
                      front=with_model(body, SOLVE, tmp_path))
    values = [number if number % 2 else -number for number in range(1, 22)]
    lines = "".join(f"v {' '.join(map(str, part))}\n"
                    for part in (values[:10], values[10:20], [*values[20:], 0]))
    assert (answer.out, answer.status) == (f"s SATISFIABLE\n{lines}", 10)
    assert (tmp_path / "seen").read_text() == SATISFIABLE + lines
    assert (tmp_path / "said").read_text() == "fails\n"


@pytest.mark.parametrize("text, signs", named([
    ("a variable out of range", "p cnf 1 1\n1 -2 0\n", "+"),
    ("a bad number", "p cnf 2 1\n1 x 2 0\n", "++"), ("too few clauses", "p cnf 2 3\n1 0\n", "++"),
    ("empty", "", "+")]))
def test_a_formula_that_lrup_model_refuses(text: str, signs: str, tmp_path: Path) -> None:
    answer = run_with(f"model({signs!r})\ntime.sleep(1)", [], text, tmp_path)
    assert_answer(answer, UNKNOWN)
    assert answer.said == ""
    cause, = answer.comments
    assert cause.startswith("lrup-model ended with status 4: lrup-model: formula refused: ")


def test_lrup_check_takes_no_model(tmp_path: Path) -> None:
    """It has no status for one that is right."""
    answer = check(["--engines", program(HAS_MODEL, tmp_path), written(SATISFIABLE, tmp_path),
                    os.devnull])
    assert answer.ran == Ran("s UNKNOWN\n", "", 3)


@pytest.mark.parametrize("body", ["sleep 100", "kill -STOP $$"])
def test_lrup_model_is_late(body: str, tmp_path: Path) -> None:
    """--time ends it, even if it is stopped."""
    answer = run_with(HAS_MODEL, A_SECOND, SATISFIABLE, tmp_path,
                      front=with_model(body, SOLVE, tmp_path))
    assert (answer.out, answer.status) == (UNCHECKED, 0)


def test_a_signal_while_lrup_model_checks(tmp_path: Path) -> None:
    """A check that takes long doesn't keep a signal waiting."""
    formula, mark = tmp_path / "formula.cnf", marked(tmp_path)
    body = f"""with open({str(formula)!r}, 'ab') as file:
    for _ in range(200): file.write(b'c\\n' * 500000)
{HAS_MODEL}
time.sleep(100)"""
    with started([SOLVE, "--lrupd", PROGRAM, "--engines", program(body, tmp_path),
                  written(SATISFIABLE, tmp_path)], stdout=subprocess.PIPE, stderr=subprocess.PIPE,
                 text=True) as running:
        until("lrup-model reads the formula", lambda: "lrup-model" in children_of(running.pid)
              and formula.stat().st_size > 200000000)
        begun = time.monotonic()
        running.send_signal(signal.SIGTERM)
        out, _ = running.communicate(timeout=LIMIT)
    assert (out, running.returncode) == (UNCHECKED, -signal.SIGTERM)
    assert time.monotonic() - begun < 1
    none_left(mark)


def test_an_empty_file_as_lrup_model(tmp_path: Path) -> None:
    """A shell would run it, with status 0."""
    front = with_model("", SOLVE, tmp_path)
    front.with_name("lrup-model").write_text("")
    answer = run_with(HAS_MODEL, [], SATISFIABLE, tmp_path, front=front)
    assert_answer(answer, UNKNOWN)
    assert answer.said == ""
    cause, = answer.comments
    assert cause.startswith("lrup-model ended with status 127: ")


@pytest.mark.parametrize("is_named", [True, False], ids=["named", "on the PATH"])
def test_an_empty_file_as_lrupd(is_named: bool, tmp_path: Path,
                                monkeypatch: pytest.MonkeyPatch) -> None:
    """Likewise. A name without a slash is looked up on the PATH."""
    lrupd = written("", tmp_path, "lrupd")
    lrupd.chmod(0o755)
    monkeypatch.setenv("PATH", str(tmp_path), prepend=":")
    answer = run_with(PROVES_NOTHING, [], SATISFIABLE, tmp_path, lrupd if is_named else "lrupd")
    assert_answer(answer, UNKNOWN)
    assert answer.said == ""


@pytest.mark.parametrize("status, words, line", named([
    ("0", 0, [], PROVED), ("1", 1, [], UNKNOWN), ("3", 3, [], UNKNOWN), ("8", 8, [], UNKNOWN),
    ("8 under assumptions", 8, ["--assume", "{cube}"], UNDER), ("10", 10, [], UNKNOWN),
    ("20", 20, [], UNKNOWN)]))
def test_lrupds_status(status: int, words: List[str], line: str, tmp_path: Path) -> None:
    """Status 0 counts, and status 8 only under assumptions."""
    lrupd = before_lrupd(
        f"echo s UNSATISFIABLE{' UNDER ASSUMPTIONS' * (status == 8)}; exit {status}", tmp_path)
    cube = written("2 0\n", tmp_path, "cube")
    answer = run_with(f"stream(1, '')\ncheck('1 1 1 0')\n{ENDS}",
                      [word.format(cube=cube) for word in words], SATISFIABLE, tmp_path, lrupd)
    assert answer.answers == [line], printed(answer)


# lrupd is started once, unless a proof is begun again, and its status is its own.


def skip_if_no_process_had(tmp_path: Path) -> None:
    """Skips the rest if no process could have lrupd's id again."""
    if not (tmp_path / "again").exists():
        pytest.skip("no process could have that id again")


def asks_after(body: str, then: str = PROVES_NOTHING) -> str:
    return f"{KILLED}{body}\n{then}"


FORGES = "forge('s UNSATISFIABLE')\n"
TAKES_ID = "again(killed(), 0, here + '/again')\n"


@pytest.mark.parametrize("is_piped", [False, True], ids=["named", "by a pipe"])
@pytest.mark.parametrize("body, text", named([
    ("and a proof", asks_after("killed()", PROVES + ENDS), FOUR),
    ("twice, and a proof", asks_after("killed()\nkilled()", PROVES + ENDS), FOUR),
    ("and no proof", asks_after("killed()"), FOUR),
    ("and another's proof", asks_after("killed()", PROVES + ENDS), SATISFIABLE),
    ("and a forged line", asks_after(f"killed()\n{FORGES}", PROVES_NOTHING + FORGES), SATISFIABLE),
    ("its id again", asks_after(f"pid = killed()\n{FORGES}again(pid, 0, here + '/again')"),
     SATISFIABLE),
    ("its id again, and nothing", asks_after(TAKES_ID, FORGES), SATISFIABLE)]))
def test_lrupd_is_killed_and_requested_again(body: str, text: str, is_piped: bool,
                                             tmp_path: Path) -> None:
    """There is no other lrupd."""
    answer = run_with(body, ["--time", "15"], text, tmp_path, given=text if is_piped else None)
    assert_answer(answer, UNKNOWN)
    if "again(" in body.removeprefix(KILLED):
        skip_if_no_process_had(tmp_path)


@pytest.mark.parametrize("body", named([
    ("without end", "while True: killed()"), ("once, and it stays", "killed()\ntime.sleep(1000)")]))
def test_lrupd_is_killed_until_time_is_up(body: str, tmp_path: Path) -> None:
    assert_answer(run_with(KILLED + body, A_SECOND, SATISFIABLE, tmp_path), UNKNOWN)


IS_SECOND, SAYS_AND_DIES = "[ $count -gt 1 ]", "echo s UNSATISFIABLE; kill -9 $$"


@pytest.mark.parametrize("body", [
    "kill -9 $$", "kill -SEGV $$", "exit 3", "exit 0", "exit 137",
    f"{IS_SECOND} || kill -9 $$; exit 3", SAYS_AND_DIES,
    f"{IS_SECOND} || {{ {SAYS_AND_DIES}; }}; exit 0",
    f"{IS_SECOND} || {{ {SAYS_AND_DIES}; }}; echo s UNKNOWN; exit 0",
    f"{IS_SECOND} || {{ printf 's UNSAT'; kill -9 $$; }}; echo ISFIABLE; exit 0",
    f"{IS_SECOND} || {{ echo s UNKNOWN; kill -9 $$; }}; echo s UNSATISFIABLE; exit 0",
    f"{IS_SECOND} || {{ {SAYS_AND_DIES}; }}; echo s UNSATISFIABLE; exit 3"])
def test_lrupd_is_started_once(body: str, tmp_path: Path) -> None:
    """A program in lrupd's place, which counts its starts, is started once, however it ends, and
    though it is requested three times."""
    starts = tmp_path / "starts"
    lrupd = in_place_of_lrupd(f"echo x >> {starts}; count=$(wc -l < {starts})\n{body}", tmp_path)
    asks = f"{PROVES_NOTHING}check()\ntime.sleep(0.5)\ncheck()\ntime.sleep(0.5)"
    assert_answer(run_with(asks, [], SATISFIABLE, tmp_path, lrupd), UNKNOWN)
    assert len(starts.read_text().splitlines()) == 1


# lrupd waits for its stream, and the front kills it. Nothing is left in the folder.
AGAIN_ASKED = """
def begins_again():
    os.mkfifo(folder + '/round-1.stream-1')
    check()
    feeding = open(folder + '/round-1.stream-1', 'w')
    say('over')
    hears('over')
    for name in os.listdir(folder):
        os.unlink(folder + '/' + name)
"""


def begins(body: str) -> str:
    return f"{AGAIN_ASKED}{body}\n"


@pytest.mark.parametrize("is_piped", [False, True], ids=["named", "by a pipe"])
@pytest.mark.parametrize("body, text, line", named([
    ("and there is a proof", begins("begins_again()") + PROVES + ENDS, FOUR, PROVED),
    ("twice", begins("begins_again()\nbegins_again()") + PROVES + ENDS, FOUR, PROVED),
    ("and there is none", begins("begins_again()") + PROVES_NOTHING, FOUR, UNKNOWN),
    ("and there is another's", begins("begins_again()") + PROVES + ENDS, SATISFIABLE, UNKNOWN),
    ("and lines are forged", begins(f"begins_again()\n{FORGES}") + PROVES_NOTHING + FORGES,
     SATISFIABLE, UNKNOWN),
    ("and none is requested", begins(f"begins_again()\n{FORGES}"), SATISFIABLE, UNKNOWN),
    ("and there is a model", begins("begins_again()") + HAS_MODEL, SATISFIABLE, FOUND),
    ("before one is requested", f"say('over')\n{PROVES}{ENDS}", FOUR, PROVED),
    ("once it has a verdict", f"{PROVES}{ENDS}say('over')\ncheck()\ntime.sleep(1)", FOUR, PROVED),
    ("once it has ended", f"{PROVES_NOTHING}say('over')\n{PROVES}{ENDS}", FOUR, UNKNOWN),
    ("once it was killed", f"{KILLED}killed()\nsay('over')\n{PROVES}{ENDS}", FOUR, UNKNOWN)]))
def test_lrupd_is_started_again(body: str, text: str, line: str, is_piped: bool,
                                tmp_path: Path) -> None:
    """The front has killed an lrupd that ran, since lrup-engines has asked for that."""
    answer = run_with(body, ["--time", "15"], text, tmp_path, given=text if is_piped else None)
    assert_answer(answer, line)


@pytest.mark.parametrize("said, then", [
    ("s UNSATISFIABLE\\n", "exit 0"), ("s UNSATISFIABLE\\n", "exit 3"),
    ("s UNSATISFIABLE\\n", "echo s UNKNOWN; exit 0"), ("s UNSAT", "echo ISFIABLE; exit 0")])
def test_the_first_output_does_not_count(said: str, then: str, tmp_path: Path) -> None:
    """Programs in lrupd's place: the first one says the answer, or its beginning, and is killed."""
    there = tmp_path / "said"
    lrupd = in_place_of_lrupd(
        f"[ -e {there} ] && {{ {then}; }}; printf '{said}'; touch {there}; sleep 100", tmp_path)
    body = (f"check()\nwhile not os.path.exists({str(there)!r}): time.sleep(0.01)\n"
            f"say('over')\nhears('over')\ncheck()\n{ENDS}")
    assert_answer(run_with(body, ["--time", "20"], SATISFIABLE, tmp_path, lrupd), UNKNOWN)


def test_a_process_with_lrupds_id(tmp_path: Path) -> None:
    """After lrupd has ended with status 3, an orphan with lrupd's process id ends with status 0."""
    answer = run_with(AGAIN + f"""os.mkfifo(folder + '/round-1.stream-1')
check()
feeding = open(folder + '/round-1.stream-1', 'w')
pid = checker_of(front, '--rounds')
feeding.close()
{ENDS}
{FORGES}
again(pid, 0, here + '/again')""", [], SATISFIABLE, tmp_path)
    assert_answer(answer, UNKNOWN)
    skip_if_no_process_had(tmp_path)


def test_a_solver_with_lrupds_id(tmp_path: Path) -> None:
    """A solver stops lrup-engines and kills lrupd; a process with lrupd's id ends with status 0."""
    attack = written(AGAIN + f"""
def parent_of(pid):
    return int(open(f"/proc/{{pid}}/stat").read().rsplit(")", 1)[1].split()[1])

def name_of(pid):
    return open(f"/proc/{{pid}}/comm").read().strip()

def ancestor(name):
    pid = os.getpid()
    while name_of(pid) != name:
        pid = parent_of(pid)
    return pid

import sys
with open(sys.argv[1], "w") as proof:
    for _ in range(200000):
        print("1 2 0", file=proof, flush=_ % 1000 == 0)
    engine, engines, front = map(ancestor, ("engine 1", "lrup-engines", "lrup-solve"))
    pid = checker_of(front, "--rounds")
    os.kill(engines, signal.SIGSTOP)
    os.setpgid(0, 0)
    os.kill(engine, signal.SIGKILL)     # orphans would be its children
    os.kill(pid, signal.SIGKILL)
    time.sleep(0.3)
    again(pid, 0, {str(tmp_path / "again")!r})
    os.kill(engines, signal.SIGCONT)
""", tmp_path, "attack.py")
    solver = f"{sys.executable} {attack} %proof; : %formula"
    answer = Answer(run([SOLVE, "--lrupd", PROGRAM, "--time", "20", "--solver", solver,
                         written(SATISFIABLE, tmp_path)], limit=60))
    assert_answer(answer, UNKNOWN)
    skip_if_no_process_had(tmp_path)


# The measured processor time depends on how busy the machine is.
@pytest.mark.flaky(reruns=2)
def test_lrupd_is_traced(tmp_path: Path) -> None:
    """Another process traces lrupd, and doesn't let the front collect its end. The front doesn't
    use the processor meanwhile."""
    body = f"""import ctypes
def ticks():
    return sum(map(int, open(f"/proc/{{front}}/stat").read().rsplit(")", 1)[1].split()[11:13]))
os.mkfifo(folder + '/round-1.stream-1')
check()
feeding = open(folder + '/round-1.stream-1', 'w')
pid = int(open(f'/proc/{{front}}/task/{{front}}/children').read().split()[-1])
held = ctypes.CDLL(None).ptrace(0x4206, pid, 0, 0)       # PTRACE_SEIZE
os.kill(pid, signal.SIGKILL)
before = ticks()
time.sleep(2)
open({str(tmp_path / 'used')!r}, 'w').write(f"{{held}} {{ticks() - before}}")"""
    assert_answer(run_with(body, ["--time", "10"], FOUR, tmp_path), UNKNOWN)
    held, used = map(int, (tmp_path / "used").read_text().split())
    if held != 0:
        pytest.skip("no process may trace another")
    assert used < 20, "hundredths of a second"


# --expect.


EXPECTED = {"unsat": PROVED, "sat": FOUND, "unsat-under-assumptions": UNDER}


@pytest.mark.parametrize("expected", EXPECTED)
@pytest.mark.parametrize("body, line, text", named([
    ("a proof", PROVES + ENDS, PROVED, FOUR), ("a model", HAS_MODEL, FOUND, SATISFIABLE),
    ("nothing", "", UNKNOWN, FOUR), ("a wrong model", "model('---')", UNKNOWN, SATISFIABLE),
    ("a proof under assumptions", PROVES_UNDER, UNDER,
     "p cnf 2 4\n1 2 0\n-1 2 0\n1 2 0\n1 2 0\n")]))
def test_expect(body: str, line: str, text: str, expected: str, tmp_path: Path) -> None:
    """Only the printed line decides: the status is 0 if it is the expected line, otherwise 1, with
    a message."""
    assume = ["--assume", written(UNDER_LITERAL, tmp_path, "cube")] if line == UNDER else []
    answer = run_with(body, ["--expect", expected, *assume], text, tmp_path)
    assert answer.answers == [line], printed(answer)
    assert answer.status == int(line != EXPECTED[expected]), printed(answer)
    said = f"lrup-solve: --expect {expected}, but the answer is {line}"
    assert answer.said.splitlines()[-1:] == [said] * answer.status


@pytest.mark.parametrize("expected", EXPECTED)
@pytest.mark.parametrize("body", named([
    ("status 0", "os._exit(0)"), ("status 20", "os._exit(20)"), ("refused", "say('refused')"),
    ("verdicts", "say('s UNSATISFIABLE')\nsay('s SATISFIABLE')"), ("a crash", "os.abort()")]))
def test_expect_without_an_answer(body: str, expected: str, tmp_path: Path) -> None:
    """No status claims the expected answer."""
    answer = run_with(body, ["--expect", expected], FOUR, tmp_path)
    assert answer.status == 1, printed(answer)
    assert answer.answers in ([], [UNKNOWN]), printed(answer)


def expecting(words: Sequence[str], tmp_path: Path) -> Iterator[Ran]:
    """Runs with --expect unsat at each place among these words. lrupd can't run, and engines do
    nothing. It is the last --expect that counts."""
    written(UNDER_LITERAL, tmp_path, "cube")
    rest = ["--lrupd", str(in_place_of_lrupd("kill -9 $$", tmp_path)), "--engines",
            str(executable("exit 0", tmp_path, "engines")), str(written(SATISFIABLE, tmp_path))]
    for given in (["--expect", "unsat"], ["--expect=unsat"]):
        for line in ([*given, *words, *rest], [*words, *given, *rest], [*words, *rest, *given],
                     [*rest, *words, *given], [*rest, *given, *words]):
            yield run([SOLVE, *line], cwd=tmp_path)


@pytest.mark.parametrize("words, cause", [
    (["--seed="], "--seed takes a value, not ''"),
    (["--cubes", ""], "--cubes takes a value, not ''"),
    (["-j", ""], "-j takes a value, not ''"), (["--assume="], "--assume takes a value, not ''"),
    (["--proofs"], "no value after --proofs"), (["-j"], "no value after -j"),
    (["-qj"], "no value after -qj"), (["--seed", "--"], "no value after --seed"),
    (["--nothing"], "no such option: --nothing (--help lists them)"),
    (["-t", "5"], "no such option: -t (did you mean --time?)"),
    (["-t5"], "no such option: -t5 (did you mean --time?)"),
    (["--timeout", "5"], "no such option: --timeout (did you mean --time?)"),
    (["--timeout=5"], "no such option: --timeout=5 (did you mean --time?)"),
    (["--seeds", "1"], "no such option: --seeds (--help lists them)"),
    (["--see=1"], "no such option: --see=1 (--help lists them)"),
    (["--exp", "sat"], "no such option: --exp (--help lists them)"),
    (["--quiet=1"], "no such option: --quiet=1 (--help lists them)"),
    (["-x"], "no such option: -x (--help lists them)"),
    (["-qx"], "no such option: -qx (--help lists them)"),
    (["-q", "--check"], "no such option: --check (--help lists them)"),
    (["--a\nb"], "no such option: '--a?b' (--help lists them)"),
    (["-", "-"], "unexpected argument: "), (["--time", "x"], "--time takes seconds above 0, not x"),
    (["--time=0"], "--time takes seconds above 0, not 0"),
    (["--time", "1e3"], "--time takes seconds above 0, not 1e3"),
    (["--time=.."], "--time takes seconds above 0, not .."),
    (["--help"], "--expect, but nothing is solved"), (["-h"], "--expect, but nothing is solved"),
    (["--version"], "--expect, but nothing is solved"),
    (["--version", "--seeds", "1"], "no such option: --seeds (--help lists them)")], ids=str)
def test_expect_and_wrong_words(words: List[str], cause: str, tmp_path: Path) -> None:
    """Wherever --expect stands, no wrong word hides it."""
    for out, said, status in expecting(words, tmp_path):
        assert (out, status) == ("", 1), said
        assert cause in said
        assert said.count("\n") == 1


@pytest.mark.parametrize("words", [
    ["--seed", "1"], ["--seed=x"], ["--cubes=none"], ["-j", "2"], ["-j0"], ["-qv"], ["--no-share"],
    ["--share-size", "3"], ["--memory=x"], ["--proofs", "none"], ["--core", "none"],
    ["--lrat", "none"], ["--re-hint"], ["--replace"], ["--resume=none"], ["--save-every", "1"],
    ["--with-formula"],
    ["--solver", "%formula %proof"], ["--solver", "x"], ["--time", "5"], ["--mpi", "none"],
    ["--assume", "cube"], ["--assume", "none"], ["--expect", "sat"], ["--time", "0.000001"]],
    ids=str)
def test_expect_and_words_that_the_front_takes(words: List[str], tmp_path: Path) -> None:
    for out, said, status in expecting(words, tmp_path):
        assert (out.splitlines()[-1:], status) == ([UNKNOWN], 1), said
        assert said.count("\n") == 1


@pytest.mark.parametrize("word, said", [
    ("x", "x"), ("", "''"), ("unsat: s UNKNOWN", "'unsat: s UNKNOWN'"), ("uns", "uns"),
    ("UNSAT", "UNSAT")])
def test_expect_something_else(word: str, said: str, tmp_path: Path) -> None:
    taken = "sat, unsat or unsat-under-assumptions" if word else "a value"
    assert run([SOLVE, "--lrupd", PROGRAM, f"--expect={word}", written(FOUR, tmp_path)]) == Ran(
        "", f"lrup-solve: --expect takes {taken}, not {said}\n", 1)


# Comments, help, and other words of the front.


@pytest.mark.parametrize("words, comments", [
    ([], ["one?[2J?s UNSATISFIABLE??", "s UNSATISFIABLE", 40 * "x"]), (["-q"], [])], ids=str)
def test_comments(words: List[str], comments: List[str], tmp_path: Path) -> None:
    """They are printed one by one, without control bytes, and cut at a block's end; with -q, none
    is printed."""
    body = r"""say("c one\x1b[2J\ns UNSATISFIABLE\r\x07\x00two")
say("c s UNSATISFIABLE")
say("s UNSATISFIABLE\nv +++\nmodel")
write(b"c " + 10000 * b"x")"""
    answer = run_with(body, words, FOUR, tmp_path)
    assert_answer(answer, UNKNOWN)
    assert [line for line in answer.comments if len(line) > 4094] == []
    assert [line[:40] for line in answer.comments if "lrup-engines" not in line] == comments


@pytest.mark.parametrize("word", ["--help", "--version", "-h", "-qh", "-hv"])
def test_help_and_version(word: str, tmp_path: Path) -> None:
    """No other program is asked for them, so none can print a verdict."""
    engines = in_place_of_lrupd("echo s UNSATISFIABLE; exit 20", tmp_path)
    formula = written(SATISFIABLE, tmp_path)
    for line in ([word, "--engines", engines, formula], ["--engines", engines, formula, word],
                 ["-q", "--engines", engines, word]):
        out = output_of(run([SOLVE, *line]))
        if word == "--version":
            assert re.fullmatch(f"lrup-solve {re.escape(VERSION)}, with CaDiCaL [^\n]+\n", out)
        else:
            assert out.startswith("usage: lrup-solve ")


def test_help_that_cannot_be_written() -> None:
    with open("/dev/full", "w") as full:
        done = run([SOLVE, "--help"], stdout=full)
    assert (done.err, done.status) == (
        "lrup-solve: cannot write to standard output: No space left on device\n", 1)


def test_a_front_that_a_front_starts(tmp_path: Path) -> None:
    """It refuses to run, or it could start itself without end."""
    assert run([SOLVE, "--lrupd", PROGRAM, written(FOUR, tmp_path)],
               env={**os.environ, "LRUP_FRONT": "1 2 3 /proc/4/fd/5 - lrupd"}) == Ran(
        "", "lrup-solve: started by another lrup-solve\n", 1)


@pytest.mark.parametrize("body, comment", named([
    ("busy", "for k in range(12):\n    say('busy')\n    time.sleep(1)\nsay('c written')",
     "written"),
    ("late", "time.sleep(100)",
     "the file of --core or --lrat is missing: lrup-engines is late")]))
def test_a_core(body: str, comment: str, tmp_path: Path) -> None:
    """After the verdict, lrup-engines gets some seconds for a core, and more while it says that it
    is busy. Then the verdict is printed."""
    answer = run_with(f"{PROVES}{ENDS}{body}", ["--core", "none"], FOUR, tmp_path)
    assert_answer(answer, PROVED)
    assert answer.comments == [comment]


def test_what_the_front_includes() -> None:
    """Only the supervisor, the texts of --help and --version, and lists of options and of programs
    that unpack are compiled with the trusted code. Beside its list the last has one function, which
    takes variables out of a program's environment."""
    included = re.findall(r'^#include "(.*)"$', FRONT.read_text(), re.M)
    assert included == ["../lib/packers.h", "supervisor.h", "with_cadical.h", "lrup-solve.help.h",
                        "lrup-check.help.h", "options.def"]
    packers = (FRONT.parent / included[0]).read_text()
    assert re.findall(r"^static.*", packers, re.M) == [
        "static const struct {", "static inline void packers_forget_options(void) {"]
    assert re.findall(r"(\w+)\(", re.sub(r"^//.*", "", packers, flags=re.M)) == [
        "packers_forget_options", "unsetenv"]
    option = r"""(FLAG|VALUES?)\(\w+, "[a-z-]+", ([A-Z_]+|'\w'), [01]\)"""
    lines = FRONT.with_name("options.def").read_text().splitlines()
    assert [line for line in lines if line[:2] != "//" and not re.fullmatch(option, line)] == [
        "#undef FLAG", "#undef VALUE", "#undef VALUES"]


# Signals.


@pytest.mark.parametrize("body", named([
    ("it sleeps", "time.sleep(1000)"), ("it writes", "while True: say('c x')")]))
@pytest.mark.parametrize("to_group", [False, True], ids=["the front", "all of its group"])
@pytest.mark.parametrize("number", [signal.SIGTERM, signal.SIGINT, signal.SIGQUIT, signal.SIGKILL])
def test_a_signal(number: signal.Signals, to_group: bool, body: str, tmp_path: Path) -> None:
    """The front, or its process group, gets a signal. The program ignores it, and the run still
    ends."""
    formula, files, mark = written(FOUR, tmp_path), tmp_path / "temporary", marked(tmp_path)
    files.mkdir()
    begins = f"open({str(tmp_path / 'begun')!r}, 'w')\n"
    with started([SOLVE, "--lrupd", PROGRAM, "--engines", program(begins + body, tmp_path),
                  formula], env={**os.environ, "TMPDIR": str(files)}, stdout=subprocess.PIPE,
                 stderr=subprocess.DEVNULL, text=True, start_new_session=True) as running:
        until("it has begun", lambda: (tmp_path / "begun").exists())
        (os.killpg if to_group else os.kill)(running.pid, number)
        out = running.communicate(timeout=LIMIT)[0]
    assert running.returncode == -number
    if number != signal.SIGKILL:
        assert out.splitlines()[-1] == UNKNOWN
    none_left(mark)
    assert os.listdir(files) == []


def test_signals_of_the_end(tmp_path: Path) -> None:
    """Each process gets a signal a few times, not for as long as it exists."""
    signals = tmp_path / "signals"
    body = f"""def count(*_):
    open({str(signals)!r}, 'a').write('x')
signal.signal(signal.SIGTERM, count)
if os.fork() == 0:
    os.setsid()
while True: time.sleep(1)"""
    assert_answer(run_with(body, ["-q", *A_SECOND], SATISFIABLE, tmp_path), UNKNOWN)
    assert 2 <= len(signals.read_text()) <= 8, "signals that two processes got"
