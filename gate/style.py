#!/usr/bin/env python3
"""Checks what neither the prover nor the compiler checks. The status is 1 if anything is wrong.

In the pages: unknown names in backticks, links that lead nowhere, quotations that are neither in
TRUST nor in README, and misspelt words. In the sources: lines that are too wide, lemmas that are
stated twice, names with two meanings, definitions in the wrong folder, and edits that can't be
applied. It also checks the picture of the crates and the version numbers.
"""
import functools
import os
import re
import shutil
import subprocess
import sys
from collections import defaultdict
from pathlib import Path
from typing import DefaultDict, Dict, Iterator, List, Optional, Set, Tuple

sys.dont_write_bytecode = True
import antt
from antt import ROOT, shown

# Names from the toolchain, the system or other programs, or made up by a page.
FOREIGN = set(("bazel glibc hugetlb mutex_round_the_store my_lemma no-unwinding-assertions "
               "plm_rsh_agent sha socat unwind veth wait_sets_the_signal").split())
# Words that codespell doesn't know.
SPELLINGS = ("anothers", "bu", "crate", "grat", "lits", "nd", "somes")


@functools.lru_cache(maxsize=None)
def files(pattern: str = r".*") -> List[Path]:
    """The repository's files whose paths match the pattern, sorted, without build output."""
    found: List[Path] = []
    for folder, folders, names in os.walk(ROOT):
        folders[:] = [name for name in folders if name not in ("out", ".git", "__pycache__")]
        found += [Path(folder, name) for name in names]
    return sorted(path for path in found if re.fullmatch(pattern, shown(path)))


# Pages.


def without(pattern: str, text: str) -> str:
    """The text with empty lines in place of each match."""
    return re.sub(pattern, lambda found: "\n" * found[0].count("\n"), text, flags=re.M)


def prose(path: Path) -> str:
    """A page without its blocks of code."""
    return without(r"(?<=\n\n)(?:    .*\n)+", without(r"^ *```[\s\S]*?^ *```$", path.read_text()))


@functools.lru_cache(maxsize=None)
def anchors(path: Path) -> Set[str]:
    """The anchors that GitHub gives to headings. A repeated heading gets a number."""
    titles = re.findall(r"^#+ (.*)$", prose(path).lower(), re.M)
    slugs = [re.sub(r"[^\w\- ]", "", title).replace(" ", "-") for title in titles]
    counts = [slugs[:at].count(slug) for at, slug in enumerate(slugs)]
    return {f"{slug}-{count}" if count else slug for slug, count in zip(slugs, counts)}


def dead_links() -> Iterator[str]:
    for path in files(r".*\.md"):
        for place in re.findall(r"\]\((?!https?:)([^)\s]+)\)", re.sub(r"`[^`]*`", "", prose(path))):
            name, _, anchor = place.partition("#")
            target = (path.parent / name).resolve() if name else path
            if not target.exists() or anchor and anchor not in anchors(target):
                yield f"{shown(path)}: a link to {place}, which isn't there"


def false_quotations() -> Iterator[str]:
    """Sentences that these pages quote, but that are neither in TRUST nor in README."""
    pages = (ROOT / "README.md").read_text(), (ROOT / "docs/TRUST.md").read_text()
    sources = " ".join(" ".join(pages).lower().split())
    for path in files(r"docs/(AUDIT|THEOREMS|PROOFS_AND_ROUNDS)\.md"):
        for quotation in re.findall(r"^> [\s\S]*?(?=\n\n)", path.read_text(), re.M):
            text = " ".join(quotation.replace("\n>", " ")[2:].split())
            for sentence in re.split(r"(?<=\.) ", text):
                if sentence.removeprefix("This holds unless ").strip(".").lower() not in sources:
                    yield f"{shown(path)}: neither TRUST nor README has '{sentence}'"


@functools.lru_cache(maxsize=None)
def known_names() -> Set[str]:
    """All words in code, definitions, scripts and file names."""
    names = FOREIGN.union(re.findall(r"[^\W\d][\w-]*", "\n".join(map(shown, files()))))
    endings = r".*(\.(rt|antt|c|cpp|h|py|sh|awk|in|toml|txt|v|1)|/[^.]*|Makefile)"
    for path in files(rf"(?!gate/style){endings}"):
        code = path.read_text()
        if path.suffix == ".rt":
            code = re.sub(r"(?<!:)//.*", "", code)
        names.update(re.findall(r"[^\W\d][\w'-]*", code), re.findall(r"[^\W\d]\w*", code))
    return names


def unknown_names() -> Iterator[str]:
    """Unknown names in backticks. In a span of several words, only options and words with an
    underscore, an inner capital, `::` or a slash count."""
    targets = re.findall(r"^([a-z-]+):", (ROOT / "Makefile").read_text(), re.M)
    for path in files(r".*\.md"):
        text = prose(path)
        for match in re.finditer(r"`([^`]+)`", text):
            place = f"{shown(path)}:{text.count(chr(10), 0, match.start()) + 1}"
            words = match[1].split()
            if re.fullmatch(r"make [a-z-]+", match[1]) and words[1] not in targets:
                yield f"{place}: the Makefile has no target of `{match[1]}`"
            if len(words) > 1:
                special = r"[^\W\d]_|[a-z][A-Z]|::|[a-z]/|^--[a-z]"
                words = [word for word in words if re.search(special, word)]
            for word in words if not match[1].startswith("rt ") else []:
                word = re.sub(r"/(dev|sys|proc)/.*|\d+[A-Za-z]+|.*out/.*", "", word)
                for part in re.findall(r"[^\W\d][\w'-]*", word):
                    names = {part, part.strip("-'"), re.sub(r"\d+$", "", part)} & known_names()
                    if not names and not re.fullmatch(r"[A-Z_]+(_tests)?|[a-z]|\w+_", part):
                        yield f"{place}: nothing is called `{part}` (in `{match[1]}`)"
                        break


def misspelt() -> Iterator[str]:
    """What codespell finds in pages, code and comments. Without codespell nothing is checked, and
    that is an error in CI."""
    if shutil.which("codespell"):
        names = map(str, files(r".*\.(md|1|rt|antt|py|sh|awk|c|cpp|h)|Makefile|tools/[^.]*"))
        words = ["codespell", "-q", "3", "-L", ",".join(SPELLINGS), *names]
        says = subprocess.run(words, cwd=ROOT, capture_output=True, text=True, check=False).stdout
        yield from says.replace(f"{ROOT}/", "").splitlines()
    elif os.environ.get("CI"):
        yield "codespell isn't installed: run make packages"


# Sources.


def crate_of(path: Path) -> str:
    return path.relative_to(ROOT).parts[1]


def wide_lines() -> Iterator[str]:
    """Lines of Python, clauses, definitions and lemmas' statements that are over 100 columns wide,
    and lines of proofs over 140."""
    for path in files(r".*\.py|crates/\w+/(src/.*\.rt|(specs|proofs)/.*\.antt)"):
        lines = path.read_text().splitlines()
        limited: List[int] = []
        if path.suffix == ".py" or "/proofs/" in shown(path):
            limited += range(len(lines))
        elif path.suffix == ".antt":
            for declared in antt.read(path).declarations:
                parts = declared.head() if declared.is_lemma() else declared.lines
                limited += range(declared.place, declared.place + len(parts))
        else:
            depth = 0
            for at, line in enumerate(lines):
                if depth > 0 or re.match(r" *(requires|ensures)\b", line):
                    limited.append(at)
                    depth += line.count("{") - line.count("}")
        most = 140 if "/proofs/" in shown(path) else 100
        for at in limited:
            if len(lines[at]) > most:
                yield f"{shown(path)}:{at + 1}: {len(lines[at])} columns, of at most {most}"


@functools.lru_cache(maxsize=None)
def all_below(crate: str) -> Set[str]:
    """The crate, and those of the repository that it uses, directly or indirectly."""
    return {crate}.union(*map(all_below, antt.crates().keys() & antt.crates()[crate]))


def normal(statement: str) -> Optional[str]:
    """A lemma's statement, with numbers replacing the names that it binds; None for a function,
    whose type says nothing about its arguments."""
    found = re.findall(r"[({]([^(){}:]+) :|λ ([^\s.]+)\.", statement)
    bound = " ".join(names + single for names, single in found).split()
    words = r"[^\s(){}\[\],;.]+"
    if not set(bound) & set(re.findall(words, statement.split(" → ")[-1])):
        return None
    numbers = {name: f"#{number}" for number, name in enumerate(dict.fromkeys(bound))}
    return re.sub(words, lambda word: numbers.get(word[0], word[0]), statement)


def repeated() -> Iterator[str]:
    """Lemmas that are stated twice, in one crate or in two that have a crate below in common; and
    names with two meanings."""
    lemmas: DefaultDict[Optional[str], List[Tuple[Set[str], str]]] = defaultdict(list)
    meanings: DefaultDict[str, Dict[str, str]] = defaultdict(dict)
    for path in files(r"crates/\w+/(specs|proofs)/.*\.antt"):
        for declared in antt.read(path).declarations:
            place = f"{shown(path)}:{declared.place + 1} {declared.name}"
            if declared.indent:
                continue
            if declared.is_lemma() and normal(declared.statement()):
                lemmas[normal(declared.statement())].append((all_below(crate_of(path)), place))
            if "/specs/" in shown(path):
                meanings[declared.name][declared.text()] = place
    for found in lemmas.values():
        same = [place for below, place in found
                if any(below & others for others, other in found if other != place)]
        if same:
            yield f"{same[0]}: stated also at {', '.join(same[1:])}: keep it in the lowest crate"
    for places in meanings.values():
        if len(places) > 1:
            yield f"{' and '.join(places.values())}: one name, two meanings"


def misplaced() -> Iterator[str]:
    """What is in the wrong folder: specs/ has definitions for contracts of public functions,
    specs/internal/ those for private functions, and specs/lemmas/ the lemmas."""
    for path in files(r"crates/\w+/(specs|src)/.*\.(antt|rt)"):
        page, folder = shown(path), path.relative_to(ROOT).parts[3]
        own = "." if folder.endswith(".antt") else crate_of(path).removesuffix("_tests") + "."
        for module, name in antt.scope_at(path).values():
            if ".specs.internal" in module and not module.startswith(own):
                yield f"{page}: it uses {name or module} of {module}: move that out of internal/"
        for lemma in antt.read(path).declarations if page.endswith(".antt") else []:
            if lemma.is_lemma() and folder != "lemmas":
                yield f"{page}:{lemma.place + 1}: {lemma.name} is a lemma: move it to specs/lemmas/"


def misfits() -> Iterator[str]:
    """Edits that can't be applied. rt finds those of the gate, too, but only after the proofs."""
    for edit in files(r"gate/edits/.*|crates/\w+/must-fail/.*"):
        is_gates = edit.parent.name == "must-fail"
        crate = edit.parent.parent if is_gates else ROOT / "crates" / edit.parent.name
        texts: Dict[str, str] = {}
        block = r"^file: (.*)\n((?:(?:old|new):.*\n?|\n)*)"
        for file, changes in re.findall(block, edit.read_text(), re.M):
            texts.setdefault(file, (crate / file).read_text() if (crate / file).is_file() else "")
            for old, new in re.findall(r"^old: (.*)\nnew: ?(.*)", changes, re.M):
                count = texts[file].count(old)
                if count != 1:
                    yield f"{shown(edit)}: {file} has '{old.strip()}' {count} times"
                texts[file] = texts[file].replace(old, new)
        if not texts or not is_gates and (crate / "must-fail" / edit.name).exists():
            yield f"{shown(edit)}: it changes nothing, or the gate has it, too"


def uncaught() -> Iterator[str]:
    """Wrong bodies on PROMISES without an edit or a test of that name in each crate of their row.
    One that can't be written has a reason in place of crates."""
    page = (ROOT / "docs/PROMISES.md").read_text()
    rows = re.findall(r"^\| `(\w+)` \|.*\| (.*) \|$", page, re.M)
    for name, caught in rows:
        for crate in re.findall(r"`([a-z_]+)`", caught):
            tests = files(rf"crates/{crate}/src/.*") if crate.endswith("_tests") else []
            test = rf"#\[test\]\nfn {name}\("
            if not ((ROOT / f"crates/{crate}/must-fail/{name}.edit").is_file()
                    or any(re.search(test, path.read_text()) for path in tests)):
                yield f"docs/PROMISES.md: {crate} has no edit or test {name}"
    if not rows:
        yield "docs/PROMISES.md: there is no table of wrong bodies"


# Numbers and pictures.


def wrong_arrows() -> Iterator[str]:
    """The picture in ARCHITECTURE has an arrow from each crate, except those for tests, to each
    crate that it uses directly and not through another crate."""
    below = {crate: all_below(crate) - {crate} for crate in antt.crates()
             if not crate.endswith(("_tests", "_support"))}
    wanted = {(crate, name) for crate, names in below.items() for name in names
              if not any(name in all_below(other) for other in names - {name})}
    page = ROOT / "docs/ARCHITECTURE.md"
    drawn = set(re.findall(r"^ *(\w+) --> (\w+)$", page.read_text(), re.M))
    for crate, name in sorted(wanted ^ drawn):
        where = "crates.txt has no" if (crate, name) in drawn else "the picture lacks"
        yield f"{shown(page)}: {where} {crate} --> {name}"


def wrong_versions() -> Iterator[str]:
    """README names the logic of the rt on the PATH, and the program has the version in the file
    VERSION."""
    if shutil.which("rt"):
        says = subprocess.check_output(["rt", "version"], text=True).strip()
        logic = re.search(r"`rattle-kit-\w+ (logic \w+)`", (ROOT / "README.md").read_text())
        if not logic or not says.endswith(logic[1]):
            yield f"README.md: rt version says '{says}'"
    version, code = (ROOT / "VERSION").read_text().strip(), ROOT / "crates/command_line/src/help.rt"
    if f'const VERSION: &str = "{version}";' not in code.read_text():
        yield f"{shown(code)}: the file VERSION has {version}"


def main() -> None:
    checks = (unknown_names, dead_links, false_quotations, misspelt, wide_lines, repeated,
              misplaced, misfits, uncaught, wrong_arrows, wrong_versions)
    found = {check.__name__.replace("_", " "): list(check()) for check in checks}
    counts = ", ".join(f"{len(lines)} {name}" for name, lines in found.items())
    print("\n".join([*(line for lines in found.values() for line in lines), f"style: {counts}"]))
    sys.exit(any(found.values()))


if __name__ == "__main__":
    main()
