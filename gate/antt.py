"""Reads sources: what a file of definitions, lemmas and proofs (.antt) declares, what names in such
files and in contracts (.rt) mean, and which definitions a text uses, directly or indirectly."""
import functools
import re
import sys
from pathlib import Path
from typing import Dict, Iterable, Iterator, List, NamedTuple, Sequence, Set, Tuple

ROOT = Path(__file__).resolve().parent.parent
HEAD = re.compile(r"(?P<marks>(?:(?:abbrev|unfoldable|pub|record|data) )*)"
                  r"(?P<name>[^\s:({]+)(?P<rest>[\s:({].*)?$")
TYPES = {"record", "data"}
WORD = re.compile(
    r"(?<![\w.'-])([^\s(){}⟦⟧\[\];,.:λ→×⊎≡≢¬↔↦≤<>+*/%^∷&|=]+)(?:\.([A-Za-z_][\w'-]*))?")


def shown(path: Path) -> str:
    return str(path.relative_to(ROOT))


@functools.lru_cache(maxsize=None)
def crates() -> Dict[str, List[str]]:
    """The crates in crates.txt, each with the crates and the toolchain's libraries that it uses."""
    lines = re.findall(r"^(\w+):(.*)", (ROOT / "crates.txt").read_text(), re.M)
    return {crate: uses.split() for crate, uses in lines}


def in_one_line(lines: Sequence[str]) -> str:
    return " ".join(word for line in lines for word in re.sub(r"(^| )-- .*", "", line).split())


class Declaration(NamedTuple):
    """A definition, a type or a lemma, with its clauses."""

    name: str
    marks: Sequence[str]  # `abbrev`, `pub`, ..
    comment: List[str]    # the lines above it
    place: int            # the number of its first line, counting from 0
    lines: List[str]
    indent: int           # more than 0 in a block `module _`

    def is_type(self) -> bool:
        return not TYPES.isdisjoint(self.marks)

    def is_lemma(self) -> bool:
        """Whether it is a lemma, which has a statement (its type) and a proof."""
        return set(self.marks) <= {"pub"}

    def head(self) -> List[str]:
        """The lines with its name and its type."""
        ends = (at for at, line in enumerate(self.lines) if at > 0 and line[self.indent] != " ")
        return self.lines[:next(ends, len(self.lines))]

    def statement(self) -> str:
        """The type in one line, without comments."""
        return in_one_line(self.head()).partition(" : ")[2]

    def text(self) -> str:
        """The whole declaration in one line, without comments."""
        return in_one_line(self.lines)

    def shown(self) -> List[str]:
        """The text as pages quote it: with its comment, without the prover's marks."""
        marks = r"^( *)(?:(?:abbrev|unfoldable|pub) )+"
        lines = [*self.comment, *(re.sub(marks, r"\1", line) for line in self.lines)]
        return [line.rstrip() for line in lines]

    def members(self) -> Iterator[str]:
        """The fields of a record, and the constructors of a `data`."""
        for line in self.lines if self.is_type() else []:
            match = re.match(r"  (?:pub )?([^\s:({][^:({]*) :(?: |$)", line[self.indent:])
            yield from match[1].split() if match else []


class Source:
    """A file or a part of one, from line `first` on: its `use` lines, and what it declares."""

    def __init__(self, lines: Iterable[str], path: Path, first: int = 0) -> None:
        self.path = path
        self.uses: List[str] = []
        self.declarations: List[Declaration] = []
        self.read(lines, first)
        types = [declared for declared in self.declarations if "data" in declared.marks]
        self.owners = {name: declared for declared in types for name in declared.members()}
        self.owners.update((declared.name, declared) for declared in self.declarations)

    def read(self, lines: Iterable[str], first: int) -> None:
        comment: List[str] = []
        indent, opens = 0, False    # `opens`: inside the head of a `module`
        for place, line in enumerate(lines, first):
            if line.strip():
                indent = min(indent, len(line) - len(line.lstrip()))
            inner = line[indent:]
            if inner.startswith("--"):
                comment.append(inner)
                continue
            if not line.strip():
                comment = []
            elif inner.startswith(("mod ", "pub mod ")):
                continue
            elif opens or inner.startswith("module "):
                opens = not line.endswith(" where")
                indent += 0 if opens else 2
            elif inner.startswith(("use ", "pub use ")):
                self.uses.append(inner.removeprefix("pub "))
            elif self.uses and self.uses[-1].count("{") > self.uses[-1].count("}"):
                self.uses[-1] += line.strip()
            elif self.begins(inner):
                head = HEAD.match(inner)
                assert head
                item = head["name"], head["marks"].split(), comment, place, [line], indent
                self.declarations.append(Declaration(*item))
                comment = []
            elif self.declarations:
                self.declarations[-1].lines.append(line)
            else:
                sys.exit(f"{shown(self.path)}:{place + 1}: a line that belongs to no declaration")

    @staticmethod
    def begins(line: str) -> bool:
        """Whether a declaration begins on this line. A clause has neither a mark nor a type."""
        head = HEAD.match(line)
        return head is not None and bool(head["marks"] or re.match(" :( |$)", head["rest"] or ""))


@functools.lru_cache(maxsize=None)
def read(path: Path) -> Source:
    return Source(path.read_text().split("\n"), path)


# What names mean. Each name in a text is declared in the text's file, brought in by a `use` line,
# or bound by the text itself.


class Thing(NamedTuple):
    """A definition in a file; a type or a trait in the code below a crate's `src`; or something in
    a library: then the place is the name of a module."""

    place: str
    name: str

    def is_definition(self) -> bool:
        return self.place.endswith(".antt")

    def is_of_code(self) -> bool:
        return self.place.endswith("/src")

    def declaration(self) -> Declaration:
        return read(ROOT / self.place).owners[self.name]


Scope = Dict[str, Tuple[str, str]]


def scope_of(uses: Iterable[str]) -> Scope:
    """The words that `use` lines bring in, each with its module and its name there. The name is
    empty if the word means the module itself."""
    scope: Scope = {}
    for line in uses:
        use = r"use (?:Rattle\.)?([\w.]+?)(?:\.\{ ?(.*?),? ?\})?(?: as ([\w-]+))?;?$"
        match = re.match(use, line)
        if not match:
            sys.exit(f"this line can't be read: {line}")
        for item in match[2].split(",") if match[2] else []:
            name, _, other = item.strip().partition(" as ")
            scope[other or name] = (match[1], name)
        if not match[2]:
            scope[match[3] or match[1].split(".")[-1]] = (match[1], "")
    return scope


@functools.lru_cache(maxsize=None)
def scope_at(path: Path) -> Scope:
    """The scope of a file of definitions, or of the contracts in a file of code."""
    if path.suffix == ".antt":
        return scope_of(read(path).uses)
    lines = re.findall(r"^ *ghost (use [^;]*;)", path.read_text(), re.M)
    return scope_of(" ".join(line.split()) for line in lines)


def meaning(word: str, member: str, path: Path) -> Set[Thing]:
    """What a word in a file means, together with the word after its dot, if any; the set is empty
    if the text itself binds the word."""
    owners = read(path).owners if path.suffix == ".antt" else {}
    if word in owners:
        return {Thing(shown(path), owners[word].name)}
    if word not in scope_at(path):
        return set()
    module, name = scope_at(path)[word]
    crate, _, rest = module.partition(".specs.")
    if crate not in crates() or rest.startswith("contracts."):
        return {Thing(module, name or member)}
    if rest.startswith("declared."):
        return {Thing(f"crates/{crate}/src", rest.removesuffix(".TheVariants").split(".")[-1])}
    file = ROOT / "crates" / crate / "specs" / (rest.replace(".", "/") + ".antt")
    return meaning(name or member, "", file)


def things_in(text: str, path: Path) -> Set[Thing]:
    """What the names in a text from a file mean. Fields that are given a value don't count as
    names, and all operators come from libraries."""
    text = re.sub(r'--.*|//.*|"(?:[^"\\]|\\.)*"', "", text)
    words = set(WORD.findall(re.sub(r"([{;]\s*)\w+ =", r"\1", text)))
    words |= {(word, "") for word in scope_at(path)
              if "◌" in word and all(part in text for part in word.split("◌"))}
    return {thing for word, member in words for thing in meaning(word, member, path)}


@functools.lru_cache(maxsize=None)
def uses(thing: Thing) -> Set[Thing]:
    """What a definition names, except itself."""
    if not thing.is_definition():
        return set()
    return things_in("\n".join(thing.declaration().lines), ROOT / thing.place) - {thing}


def closure(roots: Iterable[Thing]) -> Dict[Thing, Thing]:
    """These things and all that they reach, each with one thing that names it (a root: itself)."""
    found = {thing: thing for thing in roots}
    todo = sorted(found)
    while todo:
        user = todo.pop()
        new = sorted(thing for thing in uses(user) if thing not in found)
        found.update((thing, user) for thing in new)
        todo += new
    return found
