#!/usr/bin/env python3
"""Checks that pages agree with the code and the definitions about lrupd's options, faults, causes,
limits and defaults, and about lrup-model's usage.

    python3 gate/interface.py [--write]

With --write it copies the faults in USING to the manual page lrupd.1. Each part of a page that is
compared as a whole begins and ends with a comment that names the part. Each page that
FIGURES lists for a figure has to give that figure.
"""
import re
import sys
import textwrap
from typing import Dict, Iterator, List, Set

sys.dont_write_bytecode = True
import antt
from antt import ROOT

FAULTS = "crates/stream_check/specs/Faults.antt"
CAUSES = ["crates/run_files/specs/Faults.antt", "crates/lrup_model/specs/Layout.antt"]
COMMAND, MODEL, LINE = "crates/command_line/src", "crates/lrup_model/src", "crates/lrup_text/src"
HELP, MANUAL = f"{COMMAND}/help.rt", "man/lrupd.1"
USING, EMITTING, FORMAT = "docs/USING.md", "docs/EMITTING.md", "docs/FORMAT.md"
SOLVE, EXACT, EXPLAIN = "man/lrup-solve.1", "man/lrup-exact.1", "man/lrup-explain.1"
LIBRARY, FILTER = "tools/lib", "tools/lrup-exact"
OF_MODELS, USAGE = "man/lrup-model.1", "crates/lrup_model_check/src/failure.rt"
EXPLAINER, FRONT = "tools/lrup-explain/main.c", "tools/lrup-solve/front.c"
# The manual pages of tools, and the sources that read the tools' options.
READERS = {SOLVE: ["tools/lrup-solve/options.def"], EXACT: [f"{FILTER}/main.c"],
           EXPLAIN: [EXPLAINER], "man/lrup-trim.1": ["tools/lrup-trim/main.c"]}
NUMBER = r"(UINT64_C\(1\) << \d+|[\d_]+)"
# Each figure's name in the table of limits; the files that contain the figure, each with the text
# around it, where `?` is the figure; and the pages that give it.
FIGURES = [
    ("Variables of the formula", [f"{MODEL}/lit.rt MAX_VARIABLE: u32 = ?"], f"README.md {USING}"),
    ("Clauses of the formula", [f"{MODEL}/formula.rt MAX_CLAUSES: u32 = ?"], f"README.md {USING}"),
    ("Literals written in one clause of the formula",
     [f"{MODEL}/formula.rt MAX_CLAUSE_LITERALS: u32 = ?", f"{LIBRARY}/formula.c MOST_LITERALS = ?"],
     USING),
    ("Streams", [f"{MODEL}/layout.rt MAX_STREAMS: u64 = ?",
                 f"{COMMAND}/sizes.rt MAX_STREAMS: u64 = ?",
                 "tools/lrup-engines/shared.h MOST_ENGINES = ?", f"{FRONT} MOST_STREAMS = ?"],
     f"README.md {USING} {FORMAT} {MANUAL} {HELP} {SOLVE} {EXPLAIN} man/lrup-trim.1"),
    ("Literals written in one line", [f"{LINE}/partial_line.rt MAX_LITERALS: usize = ?",
                                      f"{LIBRARY}/line_limits.h LITERALS_OF_A_LINE = ?"],
     f"{USING} {FORMAT} {EXACT}"),
    ("Hints, or deleted ids, in one line", [f"{LINE}/partial_line.rt MAX_IDENTITIES: usize = ?",
                                            f"{LIBRARY}/line_limits.h IDENTITIES_OF_A_LINE ?"],
     f"{USING} {FORMAT} {EMITTING} {EXACT}"),
    ("Digits of a number in a stream", [f"{LINE}/partial_line.rt MAX_DIGITS: usize = ?",
                                        f"{LIBRARY}/line_limits.h DIGITS = ?"], USING),
    ("Words of 8 bytes in a row", [f"{MODEL}/layout.rt MAX_ROW_WORDS: u64 = ?",
                                   f"{COMMAND}/arguments.rt MAX_LINES: u64 = ?",
                                   f"{COMMAND}/arguments.rt MAX_ROOM: u64 = ?",
                                   f"{LIBRARY}/row.h MOST_WORDS (?)"], f"{USING} {MANUAL} {HELP}"),
    ("--lines", [f'{COMMAND}/words.rt "lines", ?)', f"{EXPLAINER} USUAL_LINES = ?",
                 f"{FILTER}/chain.c USUAL_LINES = ?"],
     f"{USING} {EMITTING} {MANUAL} {EXPLAIN} {HELP}"),
    ("--room", [f'{COMMAND}/words.rt "room", ?)', f"{EXPLAINER} USUAL_ROOM = ?"],
     f"{USING} {EMITTING} {MANUAL} {EXPLAIN} {HELP}"),
    ("--tries", [f'{COMMAND}/words.rt "tries", ?)'], f"{USING} {MANUAL} {HELP}"),
    ("the most --tries", [f"{COMMAND}/arguments.rt MAX_TRIES: u64 = ?", f"{FRONT} MOST_TRIES = ?",
                          f"{EXPLAINER} MOST_TRIES = ?"], f"{USING} {EMITTING} {MANUAL} {HELP}"),
    ("the least --memory", [f"{LIBRARY}/row.c LEAST_MEMORY (?)"], f"{USING} {SOLVE} {EXACT}"),
    ("the usual --memory", [f"{LIBRARY}/row.c USUAL_MEMORY (?)"], f"{USING} {SOLVE} {EXACT}"),
    ("the most --memory", [f"{FILTER}/main.c more than ? bytes:"],
     f"{SOLVE} {EXACT} tools/lrup-engines/options.cpp"),
    ("bytes of a formula from a pipe", [f"{FRONT} more than ? bytes, which"], SOLVE),
]


def text_of(name: str) -> str:
    return (ROOT / name).read_text()


def part(name: str, what: str) -> str:
    """The text between the two comments of a part."""
    ends = rf"^.*\b{what}: gate/interface.py.*\n([\s\S]*?)^.*\bend of {what}\b"
    found: List[str] = re.findall(ends, text_of(name), re.M)
    return found[0] if len(found) == 1 else sys.exit(
        f"{name}: no comments '{what}: gate/interface.py compares' and 'end of {what}'")


def items_in(what: str, head: str) -> Dict[str, str]:
    """The list items with this head in a part of the manual page."""
    return dict(re.findall(rf"^\.It {head}.*\n((?:(?!\.It).*\n)*)", part(MANUAL, what), re.M))


def texts_of(name: str, identity: str) -> Set[str]:
    """The texts in a file's definitions `.._text`; `identity` replaces each decimal number."""
    row = r'^\w+_text .* =\s+(codes "[^"]*"(?: \+\+ (?:codes "[^"]*"|decimal \w+))*)$'
    lines = [line for declared in antt.read(ROOT / name).declarations for line in declared.lines]
    found = re.sub(r"decimal \w+", identity, "\n".join(re.findall(row, "\n".join(lines), re.M)))
    return set(re.sub(r'codes "([^"]*)"', r"\1", found).replace(" ++ ", "").splitlines())


def words_in(text: str) -> List[str]:
    """The words, without the manual page's macros."""
    return re.findall(r"\w+", re.sub(r"^\.\w+", "", text, flags=re.M).lower())


def of_manual(fault: str, meaning: str) -> str:
    """Turns a row of USING's table of faults into an item of the manual page."""
    macros = {"--": ".Fl -", "H": ".Ar H"}
    words = re.sub(r" ?`(--|H)(\w*)`([;,]?) ?", lambda found: "\n" + " ".join(
        [macros[found[1]] + found[2], *found[3]]) + "\n", meaning)
    lines = [line for text in words.split("\n") for line in textwrap.wrap(text, 80)]
    return "\n".join([".It " + fault.replace(" H", " Ar H"), *lines, ""])


def wrong_faults() -> Iterator[str]:
    rows = dict(re.findall(r"^\| `([^`]+)` \| ([^|]*) \|", part(USING, "faults"), re.M))
    defined = texts_of(FAULTS, "H")
    for fault in sorted(rows.keys() ^ defined):
        what = f"not in {FAULTS}: remove it" if fault in rows else "missing: add it"
        yield f"{USING}: the fault `{fault}` is {what}"
    old, new = part(MANUAL, "faults"), "".join(of_manual(*row) for row in rows.items())
    if old != new and "--write" in sys.argv:
        (ROOT / MANUAL).write_text(text_of(MANUAL).replace(old, new))
    elif old != new:
        yield f"{MANUAL}: its faults differ from those in {USING}: make quotes copies them"


def is_cause(span: str, text: str) -> bool:
    """Whether the part in backticks is the text, the end of the text after a colon, or, if the part
    ends with two dots, the beginning of the text."""
    is_start = span.endswith(" ..") and text.startswith(span[:-2])
    return is_start or f": {text}".endswith(f": {span}")


def wrong_causes() -> Iterator[str]:
    said = set(re.findall("`([^`]+)`", part(USING, "causes")))
    defined = {text for name in CAUSES for text in texts_of(name, "S")}
    missing = [text for text in sorted(defined) if not any(is_cause(one, text) for one in said)]
    made_up = [one for one in sorted(said) if not any(is_cause(one, text) for text in defined)]
    yield from (f"{USING}: the cause `{text}` is missing: add it" for text in missing)
    yield from (f"{USING}: no definition has the cause `{one}`: remove it" for one in made_up)


def wrong_options() -> Iterator[str]:
    constant = r'^pub const (\w+): &str = "\\?\n?((?:[^"\\]|\\.)*)";$'
    texts = dict(re.findall(constant, text_of(HELP), re.M))
    texts["EXAMPLE"] = texts["EXAMPLE"].partition("\n\n")[0]
    items = {name.upper(): text for name, text in items_in("options", r"Fl -(\w+)").items()}
    items["EXAMPLE"] = part(MANUAL, "sizes")
    synopsis = {"EXAMPLE", *re.findall(r"^\.OP FL -(\w+)", part(MANUAL, "synopsis").upper(), re.M)}
    names = texts.keys() | items.keys() | synopsis
    for name in sorted(names - {"VERSION", "PROGRAM", "FORMULA", "STREAM"}):
        same = words_in(texts.get(name, "")) == words_in(items.get(name, ""))
        if not same or name not in synopsis:
            yield (f"{MANUAL}: {HELP} has other words for {name}: use the same in both, and name "
                   "the option in the synopsis")


def wrong_rows() -> Iterator[str]:
    """Options that a tool's code reads, but that its manual page, from which --help is made,
    doesn't list; and listed options that the code doesn't read."""
    row = r'"([a-z][a-z-]*)", (?:\.value|\.flag|(?:[A-Z_]+|\'\w\'), [01]\))'
    for page, sources in READERS.items():
        items = " ".join(re.findall(r"^\.It Fl .*", text_of(page), re.M))
        listed = set(re.findall(r"Fl -([\w-]+)", items)) | {"check", "help", "version"}
        for source in sources:
            read = set(re.findall(row, text_of(source))) | {"check", "help", "version"}
            yield from (f"{source}: it lacks --{name} of {page}" for name in sorted(listed - read))
            yield from (f"{page}: it lacks --{name} of {source}" for name in sorted(read - listed))


def wrong_usage() -> Iterator[str]:
    """What lrup-model's usage says, the manual page says, too: the same words, or, of a status, an
    item that begins with them."""
    usage: List[str] = re.findall(r'^const USAGE: &str = "usage: lrup-model([^"]*)";$',
                                  text_of(USAGE), re.M)
    synopsis, description, statuses = usage[0].split("\n\n")
    texts = {"synopsis": synopsis, "description": description,
             **dict(re.findall(r"(\d+): ([^.]*)\.", statuses))}
    items = {"synopsis": re.sub(r" (Fl|Ar) ", " ", part(OF_MODELS, "synopsis")),
             "description": part(OF_MODELS, "description"),
             **dict(re.findall(r"^\.It (\d+)\n((?:(?!\.It).*\n)*)", part(OF_MODELS, "statuses"),
                               re.M))}
    for name in sorted(texts.keys() | items.keys()):
        words, found = words_in(texts.get(name, "none")), words_in(items.get(name, ""))
        if words != (found[:len(words)] if name.isdigit() else found):
            yield f"{OF_MODELS}: {USAGE} has other words for {name}: use the same"


def number_at(place: str) -> int:
    name, _, text = place.partition(" ")
    found = re.findall(rf"(?<!\w){re.escape(text)}".replace(r"\?", NUMBER), text_of(name))
    if len(found) != 1:
        sys.exit(f"{name}: FIGURES of gate/interface.py says that it has '{text}' once")
    power = found[0].partition("<< ")[2]
    return 1 << int(power) if power else int(found[0].replace("_", ""))


def wrong_figures() -> Iterator[str]:
    rows = dict(re.findall(r"^\| ([^|]+) \| ([\d,]+) \|", part(USING, "limits"), re.M))
    yield from (f"{USING}: FIGURES of gate/interface.py lacks '{row}': add it"
                for row in rows.keys() - {what for what, _, _ in FIGURES})
    for what, places, pages in FIGURES:
        number, *others = sorted({number_at(place) for place in places})
        if others:
            yield f"{places[0].split()[0]}: not one number of '{what}': {[number, *others]}"
        if rows.get(what, f"{number:,}") != f"{number:,}":
            yield f"{USING}: the limit '{what}' is {number:,}"
        units = [f"{number >> power} {unit}" for power, unit in ((20, "MiB"), (30, "GiB"))
                 if number % (1 << power) == 0]
        spelt = rf"(?<![\d,.])({number:,}|{'|'.join([str(number), *units])})(?!,?\d)"
        yield from (f"{page}: it lacks the figure of '{what}', {number:,}" for page in pages.split()
                    if not re.search(spelt, " ".join(text_of(page).split())))


def main() -> None:
    wrong = [*wrong_faults(), *wrong_causes(), *wrong_options(), *wrong_rows(), *wrong_usage(),
             *wrong_figures()]
    print("\n".join([*wrong, f"interface: {len(wrong)} faults"]))
    sys.exit(bool(wrong))


if __name__ == "__main__":
    main()
