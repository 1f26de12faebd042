"""Runs the filter on proofs without exact hints, and the program on the output.

The recorded streams of examples/, with their hints shuffled, doubled and missing, with comments and
extra spaces, have to become good streams with as many additions as before. The same goes for
streams of several solvers with an import of each clause that they cite from another stream, for the
recorded streams in each other form, and for CaDiCaL's DRAT text. Then come limits from both sides,
truncated proofs, pipes that stay open, and outputs that fail. Proofs of a few lines are in
test_filter_lines.py."""
import os
import random
import resource
import subprocess
from pathlib import Path
from typing import Any, Callable, Dict, Iterable, List, Tuple

import pytest

from filtering import FIRST, ONE_OF_TWO, Text, at_place, check, check_report, exact, sorted_hints
from harness import (FILTER, FOUR, LIMIT, PROOFS, RECORDED, Ran, example, generated, output_of,
                     read_line, run, started, written)
from lrat import lrat_fault
from proof_forms import FORMS, Step, code, codes, drat, read_formula, read_steps, varint


# Recorded streams with inexact hints.


def additions_of(path: Path) -> int:
    return sum(" d " not in line for line in path.read_text().splitlines())


def clauses_of(path: Path) -> Dict[str, List[str]]:
    """The literals of each clause that a stream derives, by identity."""
    lines = [line.split() for line in path.read_text().splitlines()]
    return {words[0]: words[1:words.index("0", 1)] for words in lines if words[1] != "d"}


def with_imports(path: Path, others: Iterable[Path], seed: str, out: Path) -> None:
    """The stream, with an import of each clause of another stream before the line that cites
    it first."""
    numbers = random.Random(seed)
    foreign = {identity: literals for other in others
               for identity, literals in clauses_of(other).items()}
    with open(path) as stream, open(out, "w") as file:
        for line in stream:
            words = line.split()
            for hint in words[words.index("0", 1):] if words[1] != "d" else []:
                if hint in foreign:
                    literals = foreign.pop(hint)
                    numbers.shuffle(literals)
                    file.write(" ".join([hint, "i", *literals, "0"]) + "\n")
            file.write(line)


def mangle(path: Path, seed: str, keep: Callable[[int], bool], out: Path) -> None:
    """Shuffles hints, doubles some, and adds spaces. A third of the lines lose one hint or all of
    them, but never a hint that has to be kept."""
    numbers = random.Random(seed)
    with open(path) as stream, open(out, "w") as file:
        file.write("c a comment\n\n")
        for line in stream:
            words = line.split()
            if words[1] not in ("d", "i"):
                end = words.index("0", 1)
                hints = words[end + 1:-1]
                chance = numbers.randrange(6)
                if chance == 0:
                    hints = [hint for hint in hints if keep(int(hint))]
                elif chance == 1:
                    dropped = numbers.choice(hints)
                    hints = [hint for hint in hints if hint != dropped or keep(int(hint))]
                hints += numbers.choices(hints, k=2) if hints else []
                numbers.shuffle(hints)
                words[end + 1:-1] = hints
            file.write(numbers.choice(("", " ", "\t"))
                       + numbers.choice((" ", "  ", "\t")).join(words))
            file.write(numbers.choice(("\n", " \n", "\r\n", "\n\nc more\n")))


def imports_in(text: str) -> List[List[str]]:
    return [line.split() for line in text.splitlines() if " i " in line]


def exact_stream(name: str, number: int, names: List[str], formula: Path, seed: int, imports: bool,
                 work: Path) -> Path:
    """A recorded stream, mangled and then filtered. With imports, the filter sees only that stream,
    otherwise all streams."""
    source, loose = example(name), work / f"loose{number}"
    clauses, count = len(read_formula(formula)), len(names)
    others = {other: example(names[other - 1]) for other in range(1, count + 1) if other != number}
    # A clause of another stream isn't known unless an import or a hint names it.
    foreign = lambda hint: (not imports and hint > clauses
                            and (hint - clauses - 1) % count != number - 1)
    if imports:
        source = work / f"imports{number}"
        with_imports(example(name), others.values(), f"{seed} {number}", source)
    mangle(source, f"{seed} {number}", foreign, loose)
    seen = ([word for other, path in others.items() for word in ("--other", f"{other}={path}")]
            if not imports else [])
    text, said, status = exact(["--stream", str(number), "--streams", str(count), *seen,
                                formula, loose])
    assert (said, status) == ("", 0), name
    assert imports_in(text) == imports_in(source.read_text()), name
    return written(text, work, f"exact{number}")


@pytest.mark.parametrize("formula, names, imports, seed", [
    pytest.param(formula, names, imports, seed, id=names[0] + ", imports" * imports)
    for seed, (formula, names) in enumerate(RECORDED)
    for imports in ((False, True) if len(names) > 1 else (False,))])
def test_mangled(program: str, formula: str, names: List[str], imports: bool, seed: int,
                 tmp_path: Path) -> None:
    streams = [(exact_stream(name, number, names, example(formula), seed, imports, tmp_path),
                additions_of(example(name))) for number, name in enumerate(names, 1)]
    check(program, example(formula), streams)


@pytest.fixture(params=["pigeonhole.drat", "random.drat"])
def proved(request: pytest.FixtureRequest, tmp_path: Path) -> Tuple[Path, Path]:
    """A formula, and CaDiCaL's proof as DRAT text. The first one's steps are those of the recorded
    stream, whose deletions get the literals in another order, as CaDiCaL writes them."""
    if request.param == "random.drat":
        return generated("random 60 2 5", tmp_path), PROOFS / "random.drat"
    formula = example("pigeonhole.cnf")
    lines = drat(read_formula(formula), read_steps(example("pigeonhole.lrup")))
    return formula, written(b"".join(
        b" ".join([b"d", *line.split()[-2:0:-1], b"0\n"]) if line.startswith(b"d") else line
        for line in lines), tmp_path, request.param)


@pytest.mark.parametrize("stream, count", [(1, 1), (2, 3)])
def test_without_hints(program: str, proved: Tuple[Path, Path], stream: int, count: int,
                       tmp_path: Path) -> None:
    formula, proof = proved
    text = output_of(exact(["--stream", str(stream), "--streams", str(count), formula, proof]))
    added = sum(not line.startswith("d") for line in proof.read_text().splitlines())
    check(program, formula, at_place((written(text, tmp_path, "exact"), added), stream, count))


def test_as_lrat(proved: Tuple[Path, Path]) -> None:
    """An LRAT checker accepts the output for a single proof, and finds faults in changed output."""
    formula, proof = proved
    text = output_of(exact([formula, proof]))
    clauses, lines = read_formula(formula), text.splitlines(True)
    assert lrat_fault(clauses, text) == ""
    *others, last = lines
    first = next(number for number, line in enumerate(lines, 1) if " d " not in line)
    head, _, hints = lines[first - 1].rpartition(" 0 ")
    without = "".join([*lines[:first - 1], " ".join([head, "0", *hints.split()[:-2], "0\n"]),
                       *lines[first:]])
    for changed, fault in (("".join(others), "no empty clause"), (without, f"line {first}: not "),
                           (text + last, f"line {len(lines) + 1}: the identity "),
                           (f"1 i 1 0\n{text}", "line 1: not of LRAT's")):
        assert lrat_fault(clauses, changed).startswith(fault)


@pytest.mark.parametrize("is_named", [True, False], ids=["named", "the form detected"])
@pytest.mark.parametrize("form", FORMS)
@pytest.mark.parametrize("name", ["four-clause", "pigeonhole", "bmc"])
def test_forms(program: str, name: str, form: str, is_named: bool, tmp_path: Path) -> None:
    """A recorded stream in another form, as the only stream and as the second of three."""
    word, make = FORMS[form]
    formula, stream = example(f"{name}.cnf"), example(f"{name}.lrup")
    proof = b"".join(make(read_formula(formula), read_steps(stream)))
    for number, count in ((1, 1), (2, 3)):
        options = ["--stream", str(number), "--streams", str(count)] + ["--format", word] * is_named
        text, said, status = exact([*options, formula], proof)
        if (not is_named and form.startswith("binary") and status == 1 and said.count("\n") == 1
                and "--format" in said):
            continue        # the form may be unclear
        assert (said, status) == ("", 0)
        check(program, formula,
              at_place((written(text, tmp_path, "exact"), additions_of(stream)), number, count))


# Limits.


@pytest.mark.parametrize("count", [65535, 65536])
def test_the_longest_clause(program: str, count: int, tmp_path: Path) -> None:
    """A proof with a clause of this length."""
    literals = range(1, count + 1)
    numbers = " ".join(map(str, literals))
    formula = written(f"p cnf {count + 1} 2\n{numbers} {count + 1} 0\n-{count + 1} 0\n", tmp_path)
    line = f"3 {numbers} 0 2 1 0\n"
    proofs: List[Tuple[str, Text]] = [("lrat", line), ("drat", numbers + " 0\n"),
                                      ("binary-drat", b"a" + codes(literals))]
    for form, proof in proofs:
        one_line(program, form, formula, proof, line, count <= 65535, tmp_path)


def one_line(program: str, form: str, formula: Path, proof: Text, line: str, fits: bool,
             work: Path) -> None:
    text, said, status = exact(["--format", form, formula], proof)
    if not fits:
        assert (text, status) == ("", 1)
        assert said.count("\n") == 1
        return
    assert (text, said, status) == (line, "", 0)
    check_report(program, formula, text, "1 added, 0 deleted, ended", work)


def test_the_longest_chain(program: str, tmp_path: Path) -> None:
    """A proof of the empty clause from as many clauses as a line may have hints."""
    count = 65536
    last = count - 1
    clauses = (["1 0"] + [f"-{variable} {variable + 1} 0" for variable in range(1, last)]
               + [f"-{last} 0"])
    formula = written("\n".join([f"p cnf {last} {count}", *clauses, ""]), tmp_path)
    hints = " ".join(map(str, range(1, count + 1)))
    for proof in (f"{count + 1} 0 {hints} 0\n", f"{count + 1} 0 0\n"):
        text = output_of(exact([formula], proof))
        assert len(text.split()) == count + 3
        check_report(program, formula, text, "1 added, 0 deleted, ended", tmp_path)


@pytest.mark.parametrize("count", [65536, 65537])
def test_many_deletions(program: str, count: int, tmp_path: Path) -> None:
    """As many deletions as one line may have, and one more."""
    formula = written(f"p cnf 2 {count + 4}\n" + "1 2 0\n" * count + FOUR.split("\n", 1)[1],
                      tmp_path)
    identities = " ".join(map(str, range(1, count + 1)))
    text = output_of(exact([formula], f"{count + 5} d {identities} 0\n"
                                      f"{count + 5} 2 0 {count + 1} {count + 2} 0\n"))
    assert max(len(line.split()) for line in text.splitlines()) <= 65536 + 3
    check_report(program, formula, text, f"1 added, {count} deleted, ended", tmp_path)


def test_the_largest_variable(program: str, tmp_path: Path) -> None:
    """The largest variable and identity."""
    most = 16777215
    formula = written(f"p cnf {most} 2\n1 {most} 0\n-1 {most} 0\n", tmp_path)
    makes: Dict[str, Callable[[int], Text]] = {
        "drat": "{} 0\n".format, "binary-drat": lambda literal: b"a" + codes([literal])}
    for form, make in makes.items():
        one_line(program, form, formula, make(most), f"3 {most} 0 1 2 0\n", True, tmp_path)
        for literal in (most + 1, -most - 1, 1 << 31, -1 << 31, (1 << 32) + 1, 1 << 62, -1 << 62):
            one_line(program, form, formula, make(literal), "", False, tmp_path)


@pytest.mark.parametrize("digits, fits", [(18, True), (19, False), (30, False)])
def test_the_largest_identity(digits: int, fits: bool, tmp_path: Path) -> None:
    """A proof's identities may have 18 digits, as in a stream."""
    name, formula = int("9" * digits), written(FOUR, tmp_path)
    binary = [b"a" + coding(name) + codes([2]) + coding(1) + coding(2) + b"\0"
              for coding in (code, varint)]
    proofs: List[Tuple[str, Text]] = [("lrat", f"{name} 2 0 1 2 0\n"), ("binary-lrat", binary[0]),
                                      ("binary-lrat", binary[1])]
    for word, proof in proofs:
        text, said, status = exact(["--format", word, formula], proof)
        wanted = (f"{name} 2 0 1 2 0\n", "", 0) if fits else ("", said, 1)
        assert (text, said, status) == wanted
        assert said.count("\n") == (0 if fits else 1)


MEMORY = 1 << 30        # bytes, enough for any hopeless proof


@pytest.mark.parametrize("words, source, cause", [
    ("{formula} /dev/zero", ":", "line 1: a line of more than 268435456 bytes"),
    ("{formula}", "yes | tr -d '\\n'", "line 1: a line of more than 268435456 bytes"),
    ("{formula}", "(echo 2 0; yes 1 | tr '\\n' ' ')",
     "line 2: a line of more than 268435456 bytes"),
    ("{formula}", "(echo 'a 5 2 0'; yes 1 | tr '\\n' ' ')",
     "line 2: a line of more than 268435456 bytes"),
    ("{formula}", "yes c", "byte 1: the first 268435456 bytes don't show the form of the proof"),
    ("{formula}", "yes ''", "byte 1: the first 268435456 bytes don't show the form of the proof"),
    ("--format binary-drat {formula}", "(printf a; yes | tr -d '\\n')",
     "step 1, byte 1: a step of more than 33554432 numbers"),
    ("--format binary-lrat {formula}", "(printf a; yes | tr -d '\\n')",
     "step 1, byte 1: a step of more than 33554432 numbers"),
    ("/dev/zero", ":", "/dev/zero, line 1: no header 'p cnf VARIABLES CLAUSES': not DIMACS CNF")])
def test_without_an_end(words: str, source: str, cause: str, tmp_path: Path) -> None:
    """An endless proof or formula: the filter's memory and time are bounded."""
    formula = written(FOUR, tmp_path)
    limit = lambda: resource.setrlimit(resource.RLIMIT_AS, (MEMORY, MEMORY))
    done = run(["sh", "-c", f"{source} | exec \"$@\"", "sh", FILTER,
                *words.format(formula=formula).split()],
               limit=60, preexec_fn=limit)
    assert done == Ran(FIRST if "line 2" in cause else "", f"lrup-exact: {cause}\n", 1)


def test_a_line_of_64_mb(tmp_path: Path) -> None:
    """Its hints are repeated."""
    done = exact([written(FOUR, tmp_path)], "5 2 0 " + "1 2 " * (1 << 24) + "0\n")
    assert done == Ran(FIRST, "", 0)


# Truncated proofs, pipes that stay open, outputs that fail, wrong arguments.


STEPS = [Step("a", 5, [2], [1, 2]), Step("d", 5, [], [1]), Step("a", 6, [], [5, 3, 4])]
LINES = ["5 2 0 1 2 0", "5 d 1 0", "6 0 3 4 5 0"]


def parts_of(form: str) -> Tuple[List[bytes], bytes]:
    """The lines of the three steps, the first with all that precedes it; and what follows them."""
    _, make = FORMS[form]
    parts = make(read_formula(example("four-clause.cnf")), STEPS)
    before = len([part for part in parts if part.startswith(b"o ")])
    return ([b"".join(parts[:before + 1]), *parts[before + 1:before + 3]],
            b"".join(parts[before + 3:]))


def is_whole(form: str, proof: bytes, length: int) -> bool:
    """Whether a proof in a text form ends with a whole step if it is cut to this length. The step's
    LF may be missing, and so may FRAT's hints."""
    line = proof[:length].rsplit(b"\n", 1)[-1]
    without_hints = form.startswith("FRAT") and line.startswith(b"a ") and line.split()[-1] == b"0"
    return not line or proof[length:length + 1] == b"\n" or without_hints


@pytest.mark.parametrize("form", FORMS)
def test_cut(form: str, tmp_path: Path) -> None:
    """A proof that is truncated at each byte: its whole steps are written, and if it ends within a
    step, standard error says so."""
    word, _ = FORMS[form]
    parts, rest = parts_of(form)
    proof, formula = b"".join(parts) + rest, written(FOUR, tmp_path)
    ends = [len(b"".join(parts[:count])) for count in range(4)]
    for length in range(len(proof) + 1):
        text, said, status = exact(["--format", word, formula], proof[:length])
        whole = sum(end <= length for end in ends[1:])
        at_end = length in ends if "binary" in form else is_whole(form, proof, length)
        lines = sorted_hints(text)
        assert lines[:whole] == sorted_hints("\n".join(LINES[:whole])), length
        assert len(lines) <= whole + at_end, length
        assert text == "" or text.endswith("\n"), length
        assert (status, said.count("\n")) == ((0, 0) if at_end else (1, 1)), length


@pytest.mark.parametrize("form, options", [
    *(pytest.param(form, ["--format", word], id=f"{form}, named")
      for form, (word, _) in FORMS.items()),
    *(pytest.param(form, [], id=form) for form in FORMS if not form.startswith("binary"))])
def test_an_open_pipe(form: str, options: List[str], tmp_path: Path) -> None:
    """Each line is written while the proof's pipe is still open."""
    parts, rest = parts_of(form)
    command = [FILTER, *options, written(FOUR, tmp_path)]
    with started(command, stdin=subprocess.PIPE, stdout=subprocess.PIPE, bufsize=0) as running:
        assert running.stdin and running.stdout
        for part, line in zip(parts, LINES):
            for half in (part[:len(part) // 2], part[len(part) // 2:]):
                running.stdin.write(half)
            assert sorted_hints(read_line(running.stdout)) == sorted_hints(line)
        running.stdin.write(rest)
        running.stdin.close()
        assert running.stdout.read() == b""
        assert running.wait(LIMIT) == 0


def test_standard_input_is_closed(tmp_path: Path) -> None:
    """With standard input closed, the file of --other isn't read as the proof."""
    formula, other = written(FOUR, tmp_path), written("8 2 0 1 2 0\n", tmp_path, "other")
    words = [FILTER, "--format", "lrat", *ONE_OF_TWO, "--other", f"2={other}", formula]
    assert run(["sh", "-c", 'exec "$@" <&-', "sh", *words]) == Ran("", "", 0)


def fails(proof: str, out: Any, work: Path) -> None:
    """The stream can't be written: there is a message of one line, and status 1."""
    done = run([FILTER, written(FOUR, work)], proof, stdout=out)
    assert (done.err.count("\n"), done.status) == (1, 1), done.err
    assert done.err.startswith("lrup-exact: ")


@pytest.mark.parametrize("proof", ["2 0\n0\n", "2 0\n" * 100000], ids=["at the end", "soon"])
def test_a_full_output(proof: str, tmp_path: Path) -> None:
    if not os.path.exists("/dev/full"):
        pytest.skip("there is no /dev/full")
    with open("/dev/full", "wb") as file:
        fails(proof, file, tmp_path)


def test_a_reader_that_goes_away(tmp_path: Path) -> None:
    reader, writer = os.pipe()
    os.close(reader)
    fails("2 0\n" * 100000, writer, tmp_path)
    os.close(writer)


@pytest.mark.parametrize("words", [
    "{folder}/none", "{folder}", "{formula} {folder}/none", "{formula} {folder}",
    "--other 2={folder}/none {formula}"])
def test_unreadable(words: str, tmp_path: Path) -> None:
    """A file can't be read: there is a message of one line, and status 1."""
    formula = written(FOUR, tmp_path)
    text, said, status = exact(words.format(formula=formula, folder=tmp_path).split())
    assert (text, status) == ("", 1)
    assert said.count("\n") == 1
    assert said.startswith("lrup-exact: ")


@pytest.mark.parametrize("words, cause", [
    ("", "no FORMULA"), ("--help-me {formula}", "no such option: --help-me"),
    ("--format dimacs {formula}", "unknown form: dimacs"),
    ("{formula} x y", "unexpected argument: y"), ("{formula} -", "no such option: -"),
    ("--stream", "no value after --stream"),
    ("--other --stream=1 {formula}", "no value after --other"),
    ("--stream x {formula}", "not a stream's number: x"),
    ("--stream 3 --streams 2 {formula}", "--stream takes 1 to the number of --streams"),
    ("--stream 2 {formula}", "--stream takes 1 to the number of --streams"),
    ("--stream 0 {formula}", "--stream takes 1 to the number of --streams"),
    ("--other x=/dev/null {formula}", "not T=STREAM: x=/dev/null"),
    ("--other 2= {formula}", "not T=STREAM: 2="),
    ("{formula} --format", "no value after --format")])
def test_usage(words: str, cause: str, tmp_path: Path) -> None:
    """A wrong command line: the message has the name under which the program is installed."""
    formula = written(FOUR, tmp_path)
    text, said, status = exact(words.format(formula=formula).split())
    assert (text, status) == ("", 2)
    assert said.startswith("usage: lrup-exact ")
    assert said.splitlines()[-1] == f"lrup-exact: error: {cause}"
