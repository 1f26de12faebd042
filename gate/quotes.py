#!/usr/bin/env python3
"""Checks the pages of PAGES, which quote theorems, and quote or list what theorems reach.

    quotes.py            names each place that is wrong, and says what to do
    quotes.py --write    first puts the source's text in place of each definition that differs

A block of ```agda or ```rust is a quote; the last link in the paragraph above leads to its source.
A definition is quoted once, whole and with its comment. In code, `..` replaces what is left out.
What isn't quoted is named beside a link to its file. On a page with a list of files, for a
definition that no quote names itself, the file suffices. A section says that the contracts quoted
there 'use N definitions', and a page says that it 'quotes N definitions', if it does. A page, or
one before it in PAGES, has a list that explains names from libraries.
"""
import re
import sys
from itertools import takewhile, zip_longest
from os.path import normpath
from pathlib import Path
from typing import Dict, Iterator, List, NamedTuple, Set, Tuple

sys.dont_write_bytecode = True
import antt
from antt import ROOT, Thing, shown

DOCS = ROOT / "docs"
PAGES = ["AUDIT", "THEOREMS", "STORE_CALLS", "PROOFS_AND_ROUNDS"]
LINK = r"\[`([^`\]]+)`\]\(([^)\s#]*)[^)\s]*\)"
LISTED = re.compile(r"^- \[`[^`]+`\]\(([^)\s#]+)\)((?: \((?:`\w+`[,\s]*)+\))?):", re.M)


def file_of(link: str) -> Path:
    return Path(normpath(DOCS / link))


class Quote(NamedTuple):
    page: Path
    first: int      # the number of its first line on the page, counting from 0
    section: int    # the line of the heading above it
    file: Path
    lines: List[str]

    def at(self, number: int) -> str:
        return f"{shown(self.page)}:{number + 1}"

    def source(self) -> antt.Source:
        lines = self.lines if self.file.suffix == ".antt" else []
        return antt.Source(lines, self.page, self.first)

    def things(self) -> Set[Thing]:
        """The things that the quote names, if it is code."""
        text = "\n".join(self.lines) if self.file.suffix == ".rt" else ""
        return antt.things_in(text, self.file) if text else set()


class Page:
    def __init__(self, name: str, folder: Path) -> None:
        self.path, self.folder = DOCS / f"{name}.md", folder
        text = self.file().read_text()
        empty = lambda block: "\n" * block[0].count("\n")
        self.text = re.sub(r"^```\w+\n(?:.*\n)*?```$", empty, text, flags=re.M)
        self.listed = {file_of(item[1]) for item in LISTED.finditer(self.text)}
        self.text = LISTED.sub(     # each name in parentheses becomes a link of its own
            lambda item: re.sub(r"`\w+`(?=[,\s)])", rf"[\g<0>]({item[1]})", item[0]), self.text)
        numbered = enumerate(self.text.split("\n"), 1)
        self.headings = [1] + [number for number, line in numbered if line.startswith("#")]
        self.quotes: List[Quote] = []
        for block in re.finditer(r"^((?:.+\n)*)\n?```\w+\n((?:.*\n)*?)```$", text, re.M):
            files = re.findall(r"\]\((\.\./[^)#]+)\)", block[1]) or ["."]
            first = text.count("\n", 0, block.start(2))
            section = max(heading for heading in self.headings if heading <= first)
            lines = block[2].split("\n")[:-1]
            self.quotes.append(Quote(self.path, first, section, file_of(files[-1]), lines))

    def file(self) -> Path:
        """The file with the page's text."""
        return self.folder / self.path.name

    def paragraphs(self) -> Iterator[Tuple[int, str]]:
        """Each paragraph as one line, with the number of its first line."""
        for found in re.finditer(r"(?:.+\n)+", self.text):
            yield self.text.count("\n", 0, found.start()) + 1, " ".join(found[0].split())


    def links(self) -> Iterator[Tuple[int, str, str, Path, str]]:
        """Each link of code in prose: the line where its paragraph begins, the words that it is
        said to have, what it says, its file, and the name that this file declares."""
        for number, text in self.paragraphs():
            for words, said, target in re.findall(rf"(?:`([^`]+)` in )?{LINK}", text):
                file = file_of(target) if target else self.path
                yield number, words, said, file, re.sub(r"^\w+::|\..*", "", said)


def places_of(name: str) -> str:
    found = [shown(path) for path in sorted(ROOT.glob("crates/*/specs/**/*.antt"))
             if name in antt.read(path).owners]
    return f"{' and '.join(found) or 'no file'} has {name}"


def wrong_definitions(quote: Quote) -> Iterator[str]:
    source, quoted, file = antt.read(quote.file), quote.source(), shown(quote.file)
    for declared in quoted.declarations:
        own, name = source.owners.get(declared.name), declared.name
        if own is None:
            yield f"{quote.at(declared.place)}: {file} doesn't declare {name}: {places_of(name)}"
        elif own.shown() != declared.shown():
            pairs = zip_longest(declared.shown(), own.shown(), fillvalue="")
            here, there = next(pair for pair in pairs if pair[0] != pair[1])
            yield (f"{quote.at(declared.place)}: {name} differs from {file}:{own.place + 1}: "
                   f"'{here.strip()}' instead of '{there.strip()}': run make quotes")


def of_code(lines: List[str]) -> List[str]:
    """The lines except empty ones, attributes and `ghost use`."""
    empty = re.compile(r"\s*(///?|#\[.*\]|ghost use .*;)?\s*")
    return [line.rstrip() for line in lines if not empty.fullmatch(line)]


def wrong_code(quote: Quote) -> Iterator[str]:
    """Lines that the file doesn't have in this order, and functions' premises that are left out.
    The lines that `..` replaces are indented at least as far as `..`, so the next line belongs to
    the same item."""
    source, at, indent = of_code(quote.file.read_text().split("\n")), 0, 0
    for line in of_code(quote.lines):
        place, said = quote.at(quote.first + quote.lines.index(line)), line.strip()
        if said == "..":
            indent = len(line) - 2
            continue
        left_out = list(takewhile(lambda text: text != line, source[at:]))
        at += len(left_out) + 1
        if at > len(source) or any(not text.startswith(" " * indent) for text in left_out):
            yield f"{place}: {shown(quote.file)} doesn't have '{said}' there: quote it as it is"
            return
        indent = 1000
        head = takewhile(lambda text: not re.fullmatch(r" *\{\}?", text), source[at:])
        for text in head if said.startswith("pub fn ") else []:
            if re.match(r" *requires\b", text) and text not in quote.lines:
                yield f"{place}: this function's premise '{text.strip()}' is left out: quote it"


def wrong_choice(pages: List[Page]) -> Iterator[str]:
    """Definitions that are quoted twice, that no statement reaches, or that a statement reaches but
    no page quotes or names."""
    places: Dict[Thing, str] = {}
    quotes = [quote for page in pages for quote in page.quotes]
    for quote in quotes:
        for declared in quote.source().declarations:
            thing, place = Thing(shown(quote.file), declared.name), quote.at(declared.place)
            if thing in places:
                yield f"{place}: {thing.name} is quoted at {places[thing]}, too: remove one of them"
            places[thing] = place
    reached = antt.closure(thing for quote in quotes for thing in quote.things())
    yield from (f"{places[thing]}: no statement reaches {thing.name}: remove it"
                for thing in sorted(places.keys() - reached.keys()))
    for quote in quotes:
        crate = shown(quote.file).partition("/src/")[0]
        for line in quote.lines:
            for name in re.findall(r"^ *pub (?:struct|enum|trait) (\w+)", line):
                places[Thing(f"{crate}/src", name)] = ""
    named: Set[Thing] = set(places)
    listed: Set[str] = set()
    for page in pages:
        for _, _, _, file, name in page.links():
            crate = shown(file).partition("/src/")[0]
            named.add(Thing(shown(file) if file.suffix == ".antt" else f"{crate}/src", name))
        listed.update(map(shown, page.listed))
        roots = {thing for quote in page.quotes for thing in quote.things()}
        reached = antt.closure(roots)
        for place in sorted({*map(shown, page.listed)} - {thing.place for thing in reached}):
            if place.endswith(".antt"):
                yield f"{shown(page.path)}: no statement reaches {place}: remove it from the list"
        for thing, user in sorted(reached.items()):
            if not (thing.is_definition() or thing.is_of_code()) or thing in named:
                continue
            if not page.listed or thing.is_of_code() or thing in roots or thing.place not in listed:
                yield (f"{shown(page.path)}: {user.name} names {thing.name}, which no page quotes: "
                       f"quote it, or name it beside a link to its file in {thing.place}")


def wrong_counts(page: Page) -> Iterator[str]:
    count = sum(len(quote.source().declarations) for quote in page.quotes)
    lines = page.text.split("\n")
    said = [str(count)] if count else []
    if re.findall(r"\bquotes (\d+) definitions", " ".join(page.text.split())) != said:
        yield (f"{shown(page.path)}:1: say once on the page that it 'quotes {count} definitions', "
               "unless there are none")
    for first, last in zip(page.headings, [*page.headings[1:], len(lines) + 1]):
        roots = {thing for quote in page.quotes if quote.section == first
                 if re.search(r"^ *pub fn ", "\n".join(quote.lines), re.M)
                 for thing in quote.things()}
        count = sum(thing.is_definition() for thing in antt.closure(roots))
        text = " ".join(lines[first - 1:last - 1])
        if re.findall(r"\buses? (\d+) definitions", text) != [str(count)] * bool(roots):
            yield (f"{shown(page.path)}:{first}: say once in this section that its contracts "
                   f"'use {count} definitions'")


def wrong_text(page: Page, pages: Dict[Path, Page]) -> Iterator[str]:
    """Links that don't lead to what they name, and quoted words that their link's target lacks."""
    for number, words, said, file, name in page.links():
        lines = file.read_text().split("\n") if file.is_file() else []
        if file.suffix == ".antt" and lines:
            own = antt.read(file).owners.get(name)
            lines = own.shown() if own else []
        elif file.suffix == ".md" and lines:
            other = pages.get(file) or Page(file.stem, page.folder)
            lines = [line for quote in other.quotes for line in quote.lines]
        place, pattern = f"{shown(page.path)}:{number}", rf"^ *([a-z]+ )*{name}\b"
        if name != file.stem and not re.search(pattern, "\n".join(lines), re.M):
            yield (f"{place}: the link of {said} leads to {shown(file)}, which doesn't declare it: "
                   f"{places_of(name)}")
        elif words not in " ".join(" ".join(lines).split()):
            yield f"{place}: {said} doesn't have `{words}`: quote the page's words"


def unexplained(page: Page, known: Set[str]) -> Iterator[str]:
    lists = " ".join(text for _, text in page.paragraphs() if text.startswith("- `"))
    known.update(*(re.split(r"[\s;()]+", span) for span in re.findall(r"`([^`]+)`", lists)))
    reached = {thing for quote in page.quotes for thing in quote.things()}
    if page.listed:
        reached = set(antt.closure(reached))
    for quote in page.quotes:
        code = [line for declared in quote.source().declarations for line in declared.lines]
        reached |= antt.things_in("\n".join(code), quote.file)
    for thing in sorted(reached):
        parts = set(thing.name.strip("◌").split("◌"))
        if not thing.is_definition() and not thing.is_of_code() and not parts <= known:
            yield (f"{shown(page.path)}: nothing explains `{thing.name}` of {thing.place}: add a "
                   "line to a list of the page")
            known.update(parts)


def write(page: Page) -> None:
    lines = page.file().read_text().split("\n")
    for quote in reversed(page.quotes):
        for declared in reversed(quote.source().declarations):
            own = antt.read(quote.file).owners.get(declared.name)
            end = declared.place + len(declared.lines)
            if own and own.shown() != declared.shown():
                lines[end - len(declared.shown()):end] = own.shown()
    page.file().write_text("\n".join(lines))


def main(words: List[str], folder: Path = DOCS) -> None:
    """Tests give another folder, with copies of the pages."""
    if words not in ([], ["--write"]):
        sys.exit(__doc__)
    for name in PAGES if words else []:
        write(Page(name, folder))
    pages = [Page(name, folder) for name in PAGES]
    known: Set[str] = set()
    quotes, by_path = ([quote for page in pages for quote in page.quotes],
                       {page.path: page for page in pages})
    fence = "a fence shares its line with other text, or a block isn't closed: fix it"
    wrong = [f"{shown(page.path)}: {fence}" for page in pages if "```" in page.text]
    wrong += [f"{quote.at(quote.first)}: a quote of no file: link to its file above it"
              for quote in quotes if not quote.file.is_file()]
    if not wrong:
        for quote in quotes:
            wrong += (wrong_definitions if quote.file.suffix == ".antt" else wrong_code)(quote)
        wrong += wrong_choice(pages)
        for page in pages:
            wrong += [*wrong_counts(page), *wrong_text(page, by_path), *unexplained(page, known)]
    print("\n".join([*wrong, f"quotes: {len(wrong)} faults"]))
    sys.exit(bool(wrong))


if __name__ == "__main__":
    main(sys.argv[1:])
