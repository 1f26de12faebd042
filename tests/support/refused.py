"""The permitted answers of the program when a system call is refused, and `Machine`, which runs the
program with one call refused."""
import functools
import itertools
import os
import re
import subprocess
import time
from pathlib import Path
from typing import Dict, Iterator, List, Mapping, NamedTuple, Optional, Sequence, Set, Tuple, Union

from harness import (BUILDS, EXAMPLES, FOUR, SUPPORT, Words, alone, compiled, is_newer, run,
                     written)
from rounds import Proof, fault, last, round_files, saved_name, stream_name

Saved = Union[None, str, Tuple[Optional[str], ...]]


class Answer(NamedTuple):
    """The two outputs, the status, and the text of the checkpoint, if one was created; in rounds,
    the texts of all checkpoints."""
    out: str
    err: str
    status: Optional[int]
    saved: Saved = None


def stopped(status: int, cause: str, saved: Saved = None) -> Answer:
    return Answer("", f"lrupd: {cause}\n", status, saved)


FOUR_CLAUSE = EXAMPLES / "four-clause.cnf"
OUT_OF_MEMORY = stopped(6, "out of memory")
NO_FORMULA = stopped(5, "cannot read formula")
NO_ASSUMPTIONS = stopped(5, "cannot read assumptions")
NOT_CREATED = stopped(5, "cannot create checkpoint")
NOT_WRITTEN = "lrupd: checkpoint not written\n"
NO_MEMORY_TO_SAVE = "lrupd: checkpoint not written: out of memory\n"
ERRORS_OF_READS = ["EIO", "EINTR"]
SHORT = ["short", "half"]
EACH = ["thread", "open", "create", "hold", "sync"]  # kinds in which each call has its own answer
HELD = 3  # opens of /dev/null, for closed standard streams
# A run has to end within this time if a thread isn't started; other threads would retry for a
# minute.
SECONDS = 20
HANGS = 300  # seconds after which a run counts as hanging
LATE = 50  # milliseconds before a thread begins, in runs where another thread isn't started


class Input:
    """Arguments, which end with the streams; the texts of files that they name, which are in the
    run's folder; and answers that are also permitted when something is refused."""

    def __init__(self, name: str, words: Words, streams: int = 0, dropped: Sequence[Answer] = (),
                 waits: bool = False, out: Optional[str] = None,
                 files: Mapping[str, str] = {}) -> None:
        self.name, self.words, self.streams, self.out = name, list(map(str, words)), streams, out
        self.files = files
        self.dropped = dropped  # answers if the set of dropped identities can't grow
        self.waits = waits  # for a minute, if a stream that others cite fails
        self.assumes = "--assume" in self.words
        self.has_checkpoint = "--checkpoint" in self.words
        self.created = "" if self.has_checkpoint else None  # before anything is saved


class InRounds(Input):
    """A run in rounds, with each round's sizes in a file."""

    def __init__(self, name: str, options: Sequence[str], proof: Proof) -> None:
        self.proof, self.count = proof, len(proof.texts)
        sizes = {f"d/round-{number}.sizes": f"{len(texts)} 100 100\n"
                 for number, texts in enumerate(proof.texts, 1)}
        streams = [stream_name(1, stream) for stream in range(1, len(proof.texts[0]) + 1)]
        words = ["--lines", "100", "--room", "100", *options, "--rounds", "d", FOUR_CLAUSE,
                 *streams]
        super().__init__(name, words, len(streams), files={**sizes, **round_files(proof.texts)})
        self.status = 3 if proof.saved[-1] else 0
        self.reports = [last(number, said, 3) for number, said in enumerate(proof.said[:-1], 1)]
        self.reports.append(last(self.count, proof.said[-1], self.status))
        self.reached = self.count + (self.status == 3)  # the last round that opens a file
        self.watch_lines = 0
        if "--watch" in options:
            self.watch_lines = sum(map(len, proof.texts)) + self.count - 1

    def before(self, number: int, *more: str) -> Saved:
        """What was saved before a round, and `more`, the file that this round created."""
        found = [*self.proof.saved[:number - 1], *more]
        return tuple(found + [None] * (MOST_SAVED - len(found)))

    def stopped(self, number: int, cause: str, status: int, *more: str) -> Answer:
        """The answer without a report."""
        return Answer("", fault(number, cause), status, self.before(number, *more))

    def ended(self, number: int) -> Answer:
        """The answer if this round is the last."""
        return Answer(self.reports[number - 1], "", 3 if number < self.count else self.status,
                      self.before(number + 1))

    def unsaved(self, number: int, cause: str, left: str) -> Answer:
        return Answer(self.reports[number - 1], fault(number, cause), 9, self.before(number, left))

    def saving(self) -> List[int]:
        """The rounds that save something."""
        return [number for number, text in enumerate(self.proof.saved, 1) if text]


MOST_SAVED = 4  # the number of checkpoints to look for after a run in rounds


def places_of(words: Sequence[str]) -> List[str]:
    """The paths at which something may be saved."""
    if "--rounds" in words:
        return [saved_name(number) for number in range(2, 2 + MOST_SAVED)]
    return [words[words.index("--checkpoint") + 1]] if "--checkpoint" in words else []


@functools.lru_cache(maxsize=None)
def refusing() -> Path:
    """refuse.c, which the loader puts before the C library."""
    source, library = SUPPORT / "refuse.c", BUILDS / "refuse.so"
    with alone(BUILDS / "refuse.lock"):
        if not is_newer(library, [source]):
            compiled(library, [source], "-std=gnu11", "-O2", "-shared", "-fPIC")
    return library


class Machine:
    """Runs the program in a folder, with one call refused."""

    def __init__(self, program: str, folder: Path, late: int = LATE) -> None:
        self.program, self.folder, self.late = program, folder, late
        self.mark, self.stump = folder / "mark", folder / "stump"
        self.ends: Dict[Tuple[str, int, int, str], Answer] = {}

    def run(self, words: Sequence[str], refuse: str = "", out: Optional[str] = None,
            limit: float = HANGS) -> Tuple[Answer, bool, float]:
        """The answer, whether a call was refused, and how many seconds the run took. Lines of
        `--watch` are compared with the report, and left out of the answer if they agree."""
        checkpoints = [self.folder / name for name in places_of(words)]
        for path in [self.mark, *checkpoints]:
            if path.is_file():
                path.unlink()
        surroundings = {"LD_PRELOAD": str(refusing()), "REFUSE": refuse, "MARK": str(self.mark),
                        "PATH": os.environ["PATH"],
                        "LATE": str(self.late if refuse.startswith("thread") else 0)}
        began = time.monotonic()
        with open(out or os.devnull, "wb") as full:
            try:
                where = full if out else subprocess.PIPE
                answer = Answer(*run([self.program, *words], limit=limit, cwd=self.folder,
                                     env=surroundings, stdout=where))
            except subprocess.TimeoutExpired:
                answer = Answer("", f"no end in {limit} seconds", None)
        saved = tuple(path.read_text() if path.is_file() else None for path in checkpoints)
        answer = answer._replace(
            saved=saved if "--rounds" in words else saved[0] if saved else None)
        if "--watch" in words:
            in_rounds = "--rounds" in words
            answer = (without_lines(answer) if in_rounds
                      else without_watched_ends(answer, refuse, "--serial" not in words))
        return answer, self.mark.exists(), time.monotonic() - began

    def threads(self) -> str:
        """Says how many threads were started before the refused one, and how many of them had begun
        and ended."""
        counts = self.mark.read_text().split() if self.mark.exists() else []
        return "; of {} threads {} had begun, and {} ended".format(*counts) if counts else ""

    def has_waited_for(self, count: int) -> bool:
        """Whether `count` threads were started before the refused one, and all had begun and
        ended when the refusal was reported."""
        return self.mark.read_text().split() == [str(count)] * 3

    def answer_without(self, given: Input, number: int, line: int,
                       cause: str = "read failed") -> Answer:
        """The answer if reading a stream fails in a line: as if the stream ended before that
        line."""
        if (given.name, number, line, cause) not in self.ends:
            words, place = list(given.words), number - 1 - given.streams
            before = (self.folder / words[place]).read_bytes().splitlines(keepends=True)
            self.stump.write_bytes(b"".join(before[:line - 1]))
            words[place] = str(self.stump)
            answer, _, _ = self.run(words)
            ended = rf"(c stream {number}: .*), ended\n"
            out = re.sub(ended, rf"\1, {cause} at line {line}\n", answer.out)
            self.ends[given.name, number, line, cause] = answer._replace(out=out)
        return self.ends[given.name, number, line, cause]


def mixtures(lines: Sequence[str], how: str) -> Iterator[str]:
    """The lines of threads in each order that is possible if one line is written in two parts, with
    some of the other lines between them."""
    for cut, line in enumerate(lines):
        length = 1 if how == "short" else len(line) // 2
        for end in range(cut + 2, len(lines) + 1):
            yield "".join([*lines[:cut], line[:length], *lines[cut + 1:end], line[length:],
                           *lines[end:]])


def unmixed(err: str, watched: Set[str], how: str) -> str:
    for lines in itertools.permutations(watched):
        for mixture in mixtures(lines, how):
            if err.startswith(mixture):
                return "".join(lines) + err[len(mixture):]
    return err


def without_watched_ends(answer: Answer, refuse: str, mixes: bool) -> Answer:
    """Removes the lines of --watch about how each stream ended. If they don't agree with the
    report, the returned answer has no status. A truncated report may say less, and so may these
    lines if a write fails. Lines of several threads may mix only if a write is short."""
    kind, _, how = (refuse.split(":") + ["", ""])[:3]
    is_short, fails = kind == "write" and how in SHORT, kind == "write" and how not in SHORT
    reported = {re.sub("^c", "lrupd:", line) for line in answer.out.splitlines(keepends=True)
                if line.startswith("c stream ")}
    lines = (unmixed(answer.err, reported, how) if is_short and mixes
             else answer.err).splitlines(keepends=True)
    watched = {line for line in lines if line.startswith("lrupd: stream ")}
    if (watched == reported or answer.status == 7 and watched > reported
            or fails and watched < reported):
        return answer._replace(err="".join(line for line in lines if line not in watched))
    return Answer(answer.out, f"watched {sorted(watched)}", None)


def without_lines(answer: Answer) -> Answer:
    """Removes the lines of --watch about streams and rounds, but not an incomplete line."""
    lines = r"^lrupd: (stream \d+: .*|round \d+: \d+ clauses, \d+ literals, paused for \d+ ms)\n"
    return answer._replace(err=re.sub(lines, "", answer.err, flags=re.M))


def is_cut(answer: Answer, ample: Answer) -> bool:
    """Whether only a prefix of the report could be written, after the checkpoint."""
    return (answer.status == 7 and answer.err == "lrupd: cannot write report\n"
            and ample.out.startswith(answer.out) and answer.saved == ample.saved)


def is_unsaved(answer: Answer, ample: Answer, cause: str) -> bool:
    """Whether only a prefix of the checkpoint could be written, with the usual report."""
    wanted = ample._replace(err=cause + ample.err, status=7 if ample.status == 7 else 9,
                            saved=answer.saved)
    return (ample.status in [3, 7, 8] and answer == wanted and isinstance(answer.saved, str)
            and isinstance(ample.saved, str) and ample.saved.startswith(answer.saved))


def openings(given: Input) -> List[Answer]:
    """The answer for each open that may be refused, in order."""
    streams = [stopped(5, f"cannot open stream {number}") for number in range(1, given.streams + 1)]
    return [NO_FORMULA, *[NO_ASSUMPTIONS] * given.assumes, *streams]


def is_unopened(answer: Answer, given: Input) -> bool:
    return answer in openings(given) or answer == NOT_CREATED and given.has_checkpoint


def not_started(number: int, saved: Optional[str] = None) -> Answer:
    return stopped(6, f"worker {number} not started", saved)


def is_unstarted(answer: Answer, given: Input) -> bool:
    return answer in [not_started(number, given.created) for number in range(1, given.streams + 1)]


def calls(kind: str, ample: Answer, given: Input) -> int:
    """How many calls of this kind a run makes. It starts threads that watch openings, then the
    streams' checking threads, then their reading threads; before it opens files, it opens
    /dev/null; and it creates and flushes a checkpoint."""
    goes_on = ample.status in [0, 3, 7, 8]
    if kind == "hold":
        return HELD
    if kind == "open":
        files_opened = [answer.err for answer in openings(given)]
        return (0 if ample.status == 2 else files_opened.index(ample.err) + 1 if ample.err
                in files_opened else (len(files_opened) if goes_on or ample == NOT_CREATED
                                      else 1 + (ample.err.startswith("lrupd: assumptions"))))
    if kind == "thread":
        return (watching(ample, given)
                + (2 * given.streams if "--serial" not in given.words and goes_on else 0))
    if kind == "create":
        return int(given.has_checkpoint and (goes_on or ample == NOT_CREATED))
    return int(given.has_checkpoint and bool(ample.saved))


def watching(ample: Answer, given: Input) -> int:
    """How many threads watch openings: with --watch, one per opening."""
    return calls("open", ample, given) if "--watch" in given.words else 0


def is_refused_allocation(answer: Answer, ample: Answer, given: Input) -> bool:
    return (answer in [OUT_OF_MEMORY, OUT_OF_MEMORY._replace(saved=given.created), *given.dropped]
            or is_unopened(answer, given) or is_unstarted(answer, given) or is_cut(answer, ample)
            or is_unsaved(answer, ample, NO_MEMORY_TO_SAVE))


def is_failed_read(answer: Answer, given: Input, machine: Machine) -> bool:
    """Whether the formula or the assumptions weren't read; or whether one stream failed, and the
    other streams' results are as if the rest of that stream were missing."""
    if answer == NO_FORMULA or answer == NO_ASSUMPTIONS and given.assumes:
        return True
    failed = re.findall(r"^c stream (\d+): .*, read failed at line (\d+)$", answer.out, re.M)
    return (len(failed) == 1
            and answer == machine.answer_without(given, int(failed[0][0]), int(failed[0][1])))


def is_failed_write(answer: Answer, ample: Answer) -> bool:
    """Whether a write to the checkpoint, standard output or standard error failed. On standard
    error, that doesn't change the status."""
    return (is_cut(answer, ample)
            or is_unsaved(answer, ample, NOT_WRITTEN) and answer.saved != ample.saved
            or (answer == ample._replace(err=answer.err) and ample.err.startswith(answer.err)))


def may_be_ample(kind: str, how: str, ample: Answer, given: Input) -> bool:
    """Whether the answer may be as if nothing had been refused. A failed call is reported, unless
    it reads what follows a bad line, or the report goes to a full device anyway."""
    if how in SHORT or kind == "allocate":
        return True
    return (kind == "read" and "bad line" in ample.out or kind in ["read", "write"]
            and given.out is not None)


def are_due(kind: str, ample: Answer, given: Input) -> bool:
    """Whether the run must make calls of this kind. A run that opens the formula has to read, and a
    run that reports something has to write."""
    return (kind in ["allocate", "write"] or kind == "read" and given.streams > 0
            and ample != NO_ASSUMPTIONS)


def is_right(kind: str, how: str, number: int, answer: Answer, ample: Answer, given: Input,
             seconds: float, machine: Machine) -> bool:
    if isinstance(given, InRounds):
        return is_right_in_rounds(kind, how, number, answer, ample, given, seconds, machine)
    if kind == "open":
        return number <= len(openings(given)) and answer == openings(given)[number - 1]
    if kind == "thread":
        other = number - watching(ample, given)  # threads that only watch aren't missed
        return seconds < SECONDS and (answer == ample if other < 1 else (
            answer == not_started((other - 1) % given.streams + 1, given.created)
            and machine.has_waited_for(number - 1)))
    if kind == "hold":
        return answer == ample
    if kind == "create":
        return answer == NOT_CREATED
    if kind == "sync":
        return is_unsaved(answer, ample, NOT_WRITTEN) and answer.saved == ample.saved
    if answer == ample and may_be_ample(kind, how, ample, given):
        return True
    if kind == "allocate":
        return (is_refused_allocation(answer, ample, given)
                and (seconds < SECONDS or not is_unstarted(answer, given)))
    if how in SHORT:
        return False
    return (is_failed_read(answer, given, machine) if kind == "read"
            else is_failed_write(answer, ample))


# Runs in rounds.


def failed_opening(number: int, stream: int, how: str, given: InRounds) -> Answer:
    """If stream 1 of a later round doesn't exist, the run ends; with any other cause, or for any
    other stream, a failed opening is a fault."""
    if how == "ENOENT" and stream == 1 and number > 1:
        return given.ended(number - 1)
    return given.stopped(number, f"cannot open stream {stream}", 5)


def in_turn(kind: str, how: str, given: InRounds) -> List[Answer]:
    """The answer for each refused call of this kind, in order."""
    numbers, streams = range(1, given.count + 1), range(1, given.streams + 1)
    if kind == "thread":
        return [answer for number in range(1, given.reached + 1)
                for answer in threads_of_round(number, given)]
    if kind == "hold":
        return [given.ended(given.count)] * HELD
    if kind == "create":
        return [given.stopped(number, "cannot create checkpoint", 5) for number in numbers]
    if kind == "sync":
        return [given.unsaved(number, "checkpoint not written", given.proof.saved[number - 1])
                for number in given.saving()]
    found = [given.stopped(1, "cannot read formula", 5)]
    for number in range(1, given.reached + 1):
        if number > 1:
            # If a file of sizes seems missing, the previous round's sizes apply, which are equal.
            found.append(given.ended(given.count) if how == "ENOENT"
                         else given.stopped(number, "cannot read sizes", 5))
        found += [failed_opening(number, stream, how, given) for stream in streams
                  if number <= given.count or stream == 1]
    return found


def threads_of_round(number: int, given: InRounds) -> Iterator[Answer]:
    """For each thread of a round, the answer if it isn't started. With --watch, the first threads
    watch the opening of the formula or of the sizes, and of each stream; without such a thread the
    run ends as usual. Then come the streams' own threads."""
    streams = range(1, given.streams + 1) if number <= given.count else []
    if "--watch" in given.words:
        yield from [given.ended(given.count)] * (1 + max(1, len(streams)))
    if "--serial" not in given.words:
        yield from (given.stopped(number, f"worker {stream} not started", 6, "")
                    for stream in [*streams, *streams])


def parts(given: InRounds, cause: str) -> Iterator[Answer]:
    """The answers if saving fails: a prefix is saved."""
    for number in given.saving():
        text = given.proof.saved[number - 1]
        yield from (given.unsaved(number, cause, text[:length]) for length in range(len(text)))


def without_memory(given: InRounds) -> Iterator[Answer]:
    yield given.stopped(1, "cannot read formula", 5)
    for number in range(1, given.reached + 1):
        yield from (given.stopped(number, "out of memory", 6, *created) for created in ((), ("",)))
        yield given.stopped(number, "cannot create checkpoint", 5)
        for stream in range(1, given.streams + 1):
            yield given.stopped(number, f"cannot open stream {stream}", 5)
            yield given.stopped(number, f"worker {stream} not started", 6, "")
        if number > 1:
            yield given.stopped(number, "cannot read sizes", 5)
    yield from parts(given, NO_MEMORY_TO_SAVE[len("lrupd: "):-1])


def is_failed_stream(answer: Answer, cause: str, given: InRounds, machine: Machine) -> bool:
    """Whether one stream ended with this cause at a line, no round follows, and the answer and
    checkpoint are those of a run of this round only, in which the stream ends there."""
    failed = re.findall(rf"^c stream (\d+): .*, {cause} at line (\d+)$", answer.out, re.M)
    number = int((re.findall(r"^c round (\d+)$", answer.out, re.M) or [1])[0])
    if len(failed) != 1 or number > given.count:
        return False
    stream, line = map(int, failed[0])
    formula = written([FOUR, *given.proof.saved][number - 1], machine.folder,
                      "formula of the round")
    streams = [stream_name(number, other) for other in range(1, given.streams + 1)]
    place = given.words.index("--rounds")
    words = [*given.words[:place], "--checkpoint", "saved", formula, *streams]
    alone = machine.answer_without(
        Input(f"{given.name}, round {number} alone", words, given.streams), stream, line, cause)
    out = f"c round {number}\n" * (number > 1) + alone.out
    return (isinstance(alone.saved, str)
            and answer == alone._replace(out=out, saved=given.before(number, alone.saved)))


def is_right_in_rounds(kind: str, how: str, number: int, answer: Answer, ample: Answer,
                       given: InRounds, seconds: float, machine: Machine) -> bool:
    if kind in EACH:
        wanted = in_turn(kind, how, given)
        return (number <= len(wanted) and answer == wanted[number - 1] and seconds < SECONDS
                and (kind != "thread" or answer == ample or machine.has_waited_for(number - 1)))
    if answer == ample and may_be_ample(kind, how, ample, given):
        return True
    if how in SHORT:
        return False
    if kind == "allocate":
        return (answer in without_memory(given) or is_cut(answer, ample)
                or is_failed_stream(answer, "out of memory", given, machine)) and seconds < SECONDS
    if kind == "read":
        unread = [given.stopped(place, "cannot read sizes", 5)
                  for place in range(2, given.count + 1)]
        return (answer in [NO_FORMULA._replace(saved=given.before(1)), *unread]
                or is_failed_stream(answer, "read failed", given, machine))
    return (is_cut(answer, ample) or answer in parts(given, "checkpoint not written")
            or given.watch_lines > 0 and answer == ample)


def due_in_rounds(kind: str, how: str, given: InRounds) -> Set[str]:
    """What standard error must have reported if these calls were refused."""
    numbers = range(1, given.count + 1)
    if how in SHORT:
        return set()
    if kind == "allocate":
        unsaved = {fault(number, NO_MEMORY_TO_SAVE[len("lrupd: "):-1]) for number in given.saving()}
        return unsaved | {fault(number, "out of memory") for number in numbers}
    if kind == "read":
        return {NO_FORMULA.err, "",
                *(fault(number, "cannot read sizes") for number in numbers if number > 1)}
    if kind == "write":
        return {"lrupd: cannot write report\n",
                *(fault(number, "checkpoint not written") for number in given.saving())}
    return set()


def complaints_in_rounds(kind: str, how: str, ample: Answer, answers: List[Answer],
                         given: InRounds) -> Iterator[str]:
    if ample != given.ended(given.count):
        yield f"{ample} where nothing is refused"
    if kind in EACH and len(answers) != len(in_turn(kind, how, given)):
        yield f"{len(answers)} calls refused, not {len(in_turn(kind, how, given))}"
    for said in due_in_rounds(kind, how, given) - {answer.err for answer in answers}:
        yield f"never said: {said!r}"
    if kind == "write" and how not in SHORT and answers.count(ample) != given.watch_lines:
        changeless = answers.count(ample)
        yield f"{changeless} writes refused that change nothing, not {given.watch_lines}"


# The calls of a run.


def are_in_order(causes: List[str], ample: Answer, given: Input) -> bool:
    """Whether standard error names the right files for the first reads: the formula, then the
    assumptions, then no file."""
    wanted = [NO_FORMULA.err] + [NO_ASSUMPTIONS.err] * given.assumes + [ample.err]
    found = [cause for cause, _ in itertools.groupby(causes)]
    reads_assumptions = given.assumes and ample != NO_ASSUMPTIONS
    return found == wanted[:len(found)] and (not found or len(found) > reads_assumptions)


def complaints(kind: str, how: str, ample: Answer, answers: List[Answer],
               given: Input) -> Iterator[str]:
    """Complaints if too few or too many calls were refused, or an expected message never came."""
    causes = [answer.err for answer in answers]
    if not answers and are_due(kind, ample, given):
        yield "nothing of this kind is ever refused"
    if (kind == "allocate" and given.dropped
            and not any(answer in given.dropped for answer in answers)):
        yield "the growth for a dropped identity is never refused"
    fails = kind == "allocate" or kind == "write" and how not in SHORT
    if ample.saved and fails and not any(NOT_WRITTEN[:-1] in cause for cause in causes):
        yield "the saving is never refused"
    if kind in EACH and len(answers) != calls(kind, ample, given):
        yield f"{len(answers)} calls refused, not {calls(kind, ample, given)}"
    if how in ERRORS_OF_READS and kind == "read" and not are_in_order(causes, ample, given):
        yield f"{causes} are said where reads are refused"
