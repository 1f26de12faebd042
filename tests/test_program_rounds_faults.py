"""lrupd --rounds: what stops a round, with threads and with --serial.

Streams, sizes and checkpoints can't be opened or created, in the first round and in later ones;
sizes are spelled in each wrong way, or are just too small; and a checkpoint or the report can't be
written."""
from pathlib import Path
from typing import Any, Dict, Iterator, List

import pytest

from checkpoints import MOST_CLAUSES, most_clauses
from harness import (FOUR, SMALL_ROW, Ran, Wanted, run, run_by_another, runs_in_both_ways, within,
                     write_all, written)
from rounds import (ADDED, BAD, BAD_SAID, NOTHING, ONE, OTHER, REFUTING, SAVED, SAVED_ONE, TRIES,
                    TWO, Named, dropped_first, fault, first_words, last, round_files, rounds,
                    saved_name, stream_name)

NO_REPORT = "lrupd: cannot write report\n"


def sized(number: int, text: str) -> Dict[str, str]:
    """The file of a round's sizes."""
    return {f"d/round-{number}.sizes": text}


def rm(number: int, stream: int) -> Dict[str, Any]:
    """The arguments of a run before which that stream is removed."""
    name = stream_name(number, stream)
    return {"do": f"rm {name}; ", "gone": [name]}


# Faults in each round: there is no report, and earlier checkpoints stay.


def stopped(number: int, cause: str, status: int, why: str = "", proof: str = "two",
            **how: Any) -> Named:
    texts, _, saved = {"one": ONE, "two": TWO}[proof]
    return rounds(f"{cause} in round {number}, {why}", status, texts, err=fault(number, cause),
                  saved=saved[:number - 1], **how)


@runs_in_both_ways
def test_unopened() -> Iterator[Named]:
    for number in 1, 2, 3:
        for stream in 1, 2:
            name, cause = stream_name(number, stream), f"cannot open stream {stream}"
            for why, where in (("which leads to itself", name[2:]),
                               ("which leads through a file", "../formula/x")):
                yield stopped(number, cause, 5, why,
                              do=f"rm {name}; ln -s {where} {name}; ", gone=[name])
            if stream == 2 or number == 1:
                yield stopped(number, cause, 5, "which isn't there",
                              do=f"rm {name}; ", gone=[name])
                yield stopped(number, cause, 5, "which leads nowhere",
                              do=f"rm {name}; ln -s absent {name}; ", gone=[name])
        name, cause = f"d/round-{number}.sizes", "cannot read sizes"
        for why, do in (("which lead to themselves", f"ln -s {name[2:]} {name}; "),
                        ("which are a folder", f"mkdir {name}; "),
                        ("which lead through a file", f"ln -s ../formula/x {name}; ")):
            if number > 1:
                yield stopped(number, cause, 5, why, do=do)
        for device in "null", "zero":
            if number > 1:
                yield stopped(number, "sizes", 2, f"which are /dev/{device}",
                              do=f"ln -s /dev/{device} {name}; ")
    # A path has at most 4,095 bytes. The path of round 2's formula has 4,095; or it has 4,093, and
    # the path of round 2's sizes 4,095.
    for cause, times in ("cannot read sizes", 2041), ("cannot open stream 1", 2040):
        words = ["--rounds", "d" + "/." * times, "formula", stream_name(1)]
        yield (f"{cause}, whose path is too long",
               Wanted(words, 5, err=fault(2, cause), files=round_files(ONE.texts),
                      left={saved_name(2): SAVED, saved_name(3): None}))


@runs_in_both_ways
def test_a_name_that_is_taken() -> Iterator[Named]:
    """If a checkpoint can't be created, nothing is touched."""
    for number in 1, 2, 3:
        name, cause = saved_name(number + 1), "cannot create checkpoint"
        yield stopped(number, cause, 5, "a formula is there", others={name: OTHER})
        yield stopped(number, cause, 5, "an empty file is there", others={name: ""})
        for what, do, shown in (("link", "ln -s ../formula", FOUR),
                                ("link that leads nowhere", "ln -s ../x", None),
                                ("folder", "mkdir", None), ("pipe", "mkfifo", None)):
            row, wanted = stopped(number, cause, 5, f"a {what} is there", do=f"{do} {name}; ")
            yield row, wanted._replace(left={**wanted.left, name: shown, "x": None})
    yield rounds("the formula of round 5 is there", 0, ONE.texts, last(3, ONE.said[2], 0),
                 saved=ONE.saved, others={saved_name(5): OTHER})
    given, said = round_files(ONE.texts), fault(1, "cannot create checkpoint")
    for folder in "absent", "formula", "d/round-1.stream-1", "absent/d", "d" + "/." * 2042:
        yield (f"the folder '{folder[:50]}'",
               Wanted(["--rounds", folder, "formula", stream_name(1)], 5, err=said, files=given,
                      left={**given, saved_name(2): None, "absent": None}))
    own = {**given, saved_name(2): FOUR}
    yield ("its own checkpoint for the formula",
           Wanted(["--rounds", "d", saved_name(2), stream_name(1)], 5, err=said, files=own,
                  left={**own, saved_name(3): None}))


@runs_in_both_ways
def test_the_order_of_work() -> Iterator[Named]:
    """The sizes, the streams, the layout, and then the checkpoint: the first fault is reported."""
    texts, said, saved = TWO
    for number in 2, 3:
        end = last(number - 1, said[number - 2], 3)
        without = rm(number, 1)
        for text in "2 1 1\n", "2 268435456 1\n", "64 1 1\n":
            yield rounds(f"sizes {text!r} of round {number}, and no stream", 3, texts, end,
                         saved=saved[:number - 1], others=sized(number, text), **without)
        yield stopped(number, "sizes", 2, "and no stream",
                      others=sized(number, "2 1 1"), **without)
        yield stopped(number, "cannot read sizes", 5, "and no stream", gone=without["gone"],
                      do=f"{without['do']}mkdir d/round-{number}.sizes; ")
        yield stopped(number, "cannot open stream 2", 5, "and sizes too large",
                      others=sized(number, "2 268435456 1\n"), **rm(number, 2))
        taken = {saved_name(number + 1): OTHER}
        yield stopped(number, "row too long", 2, "and a name that is taken",
                      others={**sized(number, "2 268435456 1\n"), **taken})
        yield stopped(number, "sizes", 2, "and a name that is taken",
                      others={**sized(number, "2 1 1"), **taken})
        yield rounds(f"no stream of round {number}, and a name that is taken", 3, texts, end,
                     saved=saved[:number - 1], others=taken, **without)
    yield stopped(1, "cannot open stream 2", 5, "and a name that is taken",
                  others={saved_name(2): OTHER}, **rm(1, 2))
    for cause, status, options, others in [
            ("formula refused: bad header", 4, "", {"formula": "p cnf 1\n"}),
            ("cannot read assumptions", 5, "--assume absent", {}),
            ("assumptions refused: spelling", 4, "--assume cube", {"cube": "-2  0\n"}),
            ("row too long", 2, "--lines 268435456", {}),
            ("row too long", 2, "--room 268435456", {})]:
        yield stopped(1, cause, status, options, options=options, others=others)
    yield stopped(1, "cannot read formula", 5, do="rm formula; ", gone=["formula"])
    yield rounds("stream count", 2, [["x"] * 65], err=fault(1, "stream count"))


@runs_in_both_ways
def test_two_ways_to_save() -> Iterator[Named]:
    given, names, cause = (round_files(ONE.texts), ["formula", stream_name(1)],
                           "--checkpoint and --rounds exclude each other")
    for options in (["--checkpoint", "saved", "--rounds", "d"],
                    ["--rounds=d", "--checkpoint=saved"]):
        yield (f"{options}",
               Wanted([*options, *names], 2, err=fault(1, cause), files=given,
                      left={**given, "saved": None, saved_name(2): None}))
        # A fault of the command line, so no file is opened.
        yield f"{options}, and no formula", Wanted(
            [*options, "absent", stream_name(1)], 2, err=fault(1, cause), files=given,
            left={**given, "saved": None, saved_name(2): None})


# Sizes.

WRONG_SIZES = [
    "", "\n", " ", "1", "1\n", "1 1", "1 1\n", "1 1 1", "1 1 1\n\n", "1 1 1\n ", "\n1 1 1\n",
    "1 1 1 \n", " 1 1 1\n", "1  1 1\n", "1 1  1\n", "1 1 1\r\n", "1 1 1\r", "1\t1 1\n", "1 1\t1\n",
    "1\n1 1\n", "1 1\n1\n", "1 1 1 1\n", "1 1 1\n1 1 1\n", "1 1 1\nx", "1 1 1\0", "1 1 1\n\0",
    "\0" * 6, "c\n1 1 1\n", "1 1 1 c\n", "1,1,1\n", "1 1 1.0\n", "1e0 1 1\n", "0x1 1 1\n",
    "1_0 1 1\n", "a b c\n", "x 1 1\n", "1 x 1\n", "1 1 x\n", "٣ 1 1\n", "１ 1 1\n", "\ufeff1 1 1\n",
    "\u00a01 1 1\n",
    # Signs, and leading zeros.
    "+1 1 1\n", "1 +1 1\n", "1 1 +1\n", "-1 1 1\n", "1 -1 1\n", "1 1 -1\n", "1 -0 1\n", "1 1 -0\n",
    "01 1 1\n", "1 01 1\n", "1 1 01\n", "1 00 1\n", "1 1 00\n", "00 1 1\n", "1 0000000001 1\n",
    # Above an option's limit, and numbers that are 1 modulo 2^32 or 2^64.
    "0 1 1\n", "65 1 1\n", "100 1 1\n", "257 1 1\n", "1 268435457 1\n", "1 1 268435457\n",
    "1 268435460 1\n", "1 300000000 1\n", "1 1000000000 1\n", "1 1 1000000000\n",
    "4294967297 1 1\n", "1 4294967297 1\n", "1 1 4294967297\n", "18446744073709551617 1 1\n",
    "1 18446744073709551617 1\n", "1 1 18446744073709551617\n",
    "1 340282366920938463463374607431768211457 1\n",
    # The first 64 bytes of a longer file are read, not its end.
    *("1 1 1\n".ljust(length, fill) for fill in "\n1 \0"
      for length in (63, 64, 65, 66, 127, 128, 129, 1_000_000)),
    *("1 1 1\n".rjust(length, fill) for fill in "0 \n" for length in (63, 64, 65, 66, 128)),
    "1 1 " + "1" * 60, "1 1 " + "1" * 59 + "\n", "1 1 " + "1" * 60 + "\n",
    "1 1 " + "9" * 1_000_000 + "\n",
]


@runs_in_both_ways
def test_wrong_sizes() -> Iterator[Named]:
    for text in WRONG_SIZES:
        yield stopped(2, "sizes", 2, f"{text[:70]!r}, {len(text)} characters", "one",
                      others=sized(2, text))
    for text in "", "1 1 1", "0 1 1\n", "1 1 1\n\n":
        yield stopped(3, "sizes", 2, repr(text), "one",
                      others={**sized(2, "1 1 1\n"), **sized(3, text)})


# Two lines over the four clauses, with three literals in all: they derive the clauses 2 and 2 1.
LINES, LINES_SAID = "5 2 0 1 2 0\n6 2 1 0 5 0\n", "2 added, 0 deleted, ended"
LINES_SAVED = FOUR.replace("2 4", "2 6") + "2 0\n2 1 0\n"
NO_LINE = "1 added, 0 deleted, bad line 2 (identity)"
NO_ROOM = "1 added, 0 deleted, bad line 2 (no room)"


@runs_in_both_ways
def test_sizes() -> Iterator[Named]:
    """Each limit from both sides; without a file of sizes, the previous round's sizes apply."""
    def second(text: str, said: str, saved: str, options: str = "") -> Named:
        """The two lines in round 2, whose file of sizes has this text; no file if it is ''."""
        return rounds(f"sizes {text!r} {options}", 3, [[""], [LINES]], last(2, [said], 3),
                      saved=[FOUR, saved], options=options,
                      others=sized(2, text) if text else {})

    def too_long(text: str) -> Named:
        return rounds(f"sizes {text!r}", 2, [[""], [LINES]], err=fault(2, "row too long"),
                      saved=[FOUR], others=sized(2, text))

    yield second("1 2 3\n", LINES_SAID, LINES_SAVED)
    yield second("1 1 3\n", NO_LINE, SAVED_ONE)
    yield second("1 2 2\n", NO_ROOM, SAVED_ONE)
    yield second("1 0 3\n", "0 added, 0 deleted, bad line 1 (identity)", FOUR)
    yield second("1 2 0\n", "0 added, 0 deleted, bad line 1 (no room)", FOUR)
    yield second("1 0 0\n", "0 added, 0 deleted, bad line 1 (identity)", FOUR)
    yield second("1 10 100\n", LINES_SAID, LINES_SAVED)
    yield second("1 65536 1048576\n", LINES_SAID, LINES_SAVED)
    yield second("", NO_LINE, SAVED_ONE, "--lines 1")
    yield second("", NO_ROOM, SAVED_ONE, "--room 2")
    yield second("1 2 3\n", LINES_SAID, LINES_SAVED, "--lines 0 --room 0")
    yield second("1 1 3\n", NO_LINE, SAVED_ONE, "--lines 2 --room 3")
    # The options' limits are allowed in a file of sizes, but are too large for a row.
    for text in "1 268435456 0\n", "1 0 268435456\n", "1 268435456 268435456\n":
        yield too_long(text)
    # The formula has 4 clauses and 8 literals; the total is at most 268,435,455.
    yield too_long("1 1 268435443\n")
    yield too_long("1 268435443 1\n")
    again, third = LINES_SAVED.replace("2 6", "2 7"), ["7 2 0 5 0\n8 2 0 5 0\n"]
    yield rounds("identities that stay", 3, [[""], [LINES], [third[0] + "9 2 0 5 0\n"]],
                 last(3, ["2 added, 0 deleted, bad line 3 (identity)"], 3),
                 others=sized(2, "1 2 3\n"),
                 saved=[FOUR, LINES_SAVED, again.replace("2 7", "2 8") + "2 0\n2 0\n"])
    yield rounds("room that stays", 3, [[""], [LINES], ["7 2 1 0 5 0\n8 2 1 0 5 0\n"]],
                 last(3, [NO_ROOM], 3), others=sized(2, "1 3 3\n"),
                 saved=[FOUR, LINES_SAVED, again + "2 1 0\n"])
    yield rounds("sizes that change", 3, [[""], [LINES], third], last(3, [NO_LINE], 3),
                 saved=[FOUR, LINES_SAVED, again + "2 0\n"],
                 others={"d/round-2.sizes": "1 2 3\n", "d/round-3.sizes": "1 1 1\n"})
    yield rounds("sizes, and the round after the next one", 3, [[""], [""], [LINES]],
                 last(3, [NO_LINE], 3), saved=[FOUR, FOUR, SAVED_ONE],
                 others=sized(2, "1 1 9\n"))
    yield rounds("just what each round needs", 0, ONE.texts, last(3, ONE.said[2], 0), "",
                 ONE.saved, "--lines 1 --room 1",
                 {"d/round-2.sizes": "1 1 1\n", "d/round-3.sizes": "1 1 0\n"})


@runs_in_both_ways
def test_numbers_of_streams() -> Iterator[Named]:
    """Without a file of sizes, the number of streams stays the same, too."""
    def derived(count: int, first: int = 5) -> List[str]:
        return [f"{number} 2 0 1 2 0\n" for number in range(first, first + count)]

    def after(count: int, more: str = "") -> str:
        return f"p cnf 2 {4 + count}\n" + FOUR.split("\n", 1)[1] + "2 0\n" * count + more

    for before, count in (1, 2), (2, 1), (1, 3), (3, 1), (1, 64), (64, 1), (64, 64), (9, 11):
        texts = [[""] * before, derived(count), derived(count, 5 + count)]
        yield rounds(f"{before} streams, and then {count}", 3, texts,
                     last(3, [ADDED] * count, 3), saved=[FOUR, after(count), after(2 * count)],
                     others=sized(2, f"{count} 1 1\n"), options="--lines 1 --room 1")
    yield rounds("1, 2 and 1 streams", 3, [derived(1), derived(2, 6), derived(1, 8)],
                 last(3, [ADDED], 3), saved=[after(1), after(3), after(4)],
                 others={"d/round-2.sizes": "2 1 1\n", "d/round-3.sizes": "1 1 1\n"})
    yield rounds("fewer streams than there are", 3, [["", ""], ["", BAD]],
                 last(2, [NOTHING], 3), saved=[FOUR, FOUR], others=sized(2, "1 1 1\n"))
    for count, there in (2, 1), (64, 63), (64, 1):
        yield rounds(f"{there} of {count} streams", 5, [[""], [""] * there],
                     err=fault(2, f"cannot open stream {there + 1}"), saved=[FOUR],
                     others=sized(2, f"{count} 1 1\n"))
    yield rounds("1 of 2 streams that stay", 5, [["", ""], [""]],
                 err=fault(2, "cannot open stream 2"), saved=[FOUR])
    yield rounds("65 streams", 2, [[""], [""] * 65], "", fault(2, "sizes"), [FOUR],
                 others=sized(2, "65 1 1\n"))
    # Two of three streams drop clause 1 in round 1; then there is one stream.
    yield rounds("what two of three have dropped", 3,
                 [["1 d 1 0\n", "1 d 1 0\n", ""], ["1 d 1 0\n"]],
                 last(2, ["0 added, 1 deleted, ended"], 3), saved=[FOUR, dropped_first(FOUR)],
                 others=sized(2, "1 1 1\n"))


# Saving or the report fails.


@runs_in_both_ways
def test_full_outputs() -> Iterator[Named]:
    """No byte of a checkpoint can be written, or the report can't be written."""
    none, unwritten = 'trap "" XFSZ; ulimit -f 0; ', fault(1, "checkpoint not written")
    texts, said, saved = TWO
    yield rounds("a full disk", 9, texts, last(1, said[0], 3), unwritten, [""], do=none)
    yield rounds("a full disk and a wrong line", 9, [[BAD], [""]], last(1, [BAD_SAID], 3),
                 unwritten, [""], do=none)
    yield rounds("a full disk, under assumptions", 9, texts, last(1, said[0], 8), unwritten,
                 [""], "--assume cube", {"cube": "-2 0\n"}, do=none)
    refuted = last(1, ["2 added, 0 deleted, ended"], 0)
    yield rounds("a full disk, and nothing to save", 0, [[REFUTING]], refuted,
                 "", [""], do=none)
    yield rounds("a full disk and a full standard error", 9, texts, last(1, said[0], 3), "",
                 [""], do=none, how="2> /dev/full")
    yield rounds("a full disk and a full output", 7, texts, err=unwritten + NO_REPORT,
                 saved=[""], do=none, how="> /dev/full")
    for what, how in ("full", "> /dev/full"), ("closed", ">&-"):
        for count in 1, 2, 3:
            yield rounds(f"a {what} output, {count} rounds", 7, texts[:count], "", NO_REPORT,
                         saved[:count], TRIES, how=how)
    yield rounds("a full output, under assumptions", 7, ONE.texts, err=NO_REPORT,
                 saved=ONE.saved[:2], options="--assume cube", others={"cube": "-1 0\n"},
                 how="> /dev/full")
    for status, count in (0, 3), (3, 2):
        yield rounds(f"a full standard error, {count} rounds", status, texts[:count],
                     last(count, said[count - 1], status), saved=saved[:count],
                     options=f"{TRIES} --watch", how="2> /dev/full")
    yield rounds("a full standard error, and a fault", 5, texts[:1], saved=saved[:1],
                 do="mkdir d/round-2.sizes; ", how="2> /dev/full")


@runs_in_both_ways
def test_little_memory() -> Iterator[Named]:
    """In a small address space, with stacks of 8 MB. A row just below the limit takes a
    gigabyte."""
    do = "ulimit -s 8192 && ulimit -v 1000000 && "
    yield rounds("out of memory in round 1", 6, ONE.texts, "", fault(1, "out of memory"), [""],
                 "--room 268000000", do=do)
    yield rounds("out of memory in round 2", 6, [[""], [LINES]], err=fault(2, "out of memory"),
                 saved=[FOUR, ""], do=do, others=sized(2, "1 1 268435442\n"))


def formulas_in(folder: Path) -> List[Path]:
    return sorted((folder / "d").glob("*.cnf"))


def formulas_up_to(count: int, folder: Path) -> List[Path]:
    """Where that many rounds save their checkpoints."""
    return [folder / saved_name(number) for number in range(2, count + 2)]


@pytest.mark.parametrize("number", [1, 2, 3])
@pytest.mark.parametrize("assumed", [pytest.param(False, id="no assumptions"),
                                     pytest.param(True, id="assumptions")])
def test_a_disk_that_gets_full(program: str, way: List[str], assumed: bool, number: int,
                               tmp_path: Path) -> None:
    """Files are limited to the size of the formula; the checkpoint after this round is larger."""
    texts = ([[""]] * (number - 1)
             + [["".join(f"{identity} 2 0 1 2 0\n" for identity in range(5, 25))], [REFUTING]])
    write_all({**round_files(texts), "cube": "-2 0\n"}, tmp_path)
    words = [*SMALL_ROW, *way, *["--assume", "cube"] * assumed, *first_words(texts)]
    found = run([program, *words], cwd=tmp_path, preexec_fn=lambda: within(len(FOUR)))
    out = last(number, ["20 added, 0 deleted, ended"], 8 if assumed else 3)
    assert found == Ran(out, fault(number, "checkpoint not written"), 9)
    whole = FOUR.replace("2 4", "2 24") + "2 0\n" * 20
    left = (tmp_path / saved_name(number + 1)).read_text()
    assert len(left) <= len(FOUR)
    assert whole.startswith(left)
    assert formulas_in(tmp_path) == formulas_up_to(number, tmp_path)


@pytest.mark.parametrize("which, cause", [
    ("d/round-2.sizes", "cannot read sizes"), (stream_name(1), "cannot open stream 1"),
    (stream_name(2), "cannot open stream 1"), (stream_name(2, 2), "cannot open stream 2"),
    (stream_name(3), "cannot open stream 1")])
def test_a_file_that_may_not_be_read(program: str, which: str, cause: str, tmp_path: Path) -> None:
    texts = [["", ""]] * 3
    for name, text in {**round_files(texts), "d/round-2.sizes": "2 1 1\n"}.items():
        written(text, tmp_path, name).chmod(0o644)
    (tmp_path / "d").chmod(0o777)
    (tmp_path / which).chmod(0)
    number = int(which[len("d/round-")])
    found = run_by_another(program, [*SMALL_ROW, *first_words(texts)], tmp_path)
    assert found == Ran("", fault(number, cause), 5)
    assert formulas_in(tmp_path) == formulas_up_to(number - 1, tmp_path)


@pytest.mark.usefixtures("much_memory")
@pytest.mark.parametrize("number", [1, 2])
def test_a_clause_too_many(program: str, way: List[str], number: int, tmp_path: Path) -> None:
    """As many clauses as a formula may have are carried over, and in this round there is one
    more."""
    clauses = MOST_CLAUSES
    texts = [[""]] * (number - 1) + [[f"{clauses + 1} 1 0 1 0\n"], [BAD]]
    write_all(round_files(texts), tmp_path)
    formula = most_clauses(tmp_path).read_bytes()
    found = run([program, *way, "--lines", "10", "--room", "10", *first_words(texts)],
                cwd=tmp_path)
    assert found == Ran(last(number, [ADDED], 3), fault(number, "checkpoint refused: limit"), 9)
    *carried_over, refused = formulas_up_to(number, tmp_path)
    are_whole = [path.read_bytes() == formula for path in carried_over]     # 67 MB each
    assert all(are_whole), are_whole
    assert refused.read_bytes() == b""
