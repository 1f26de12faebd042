#!/usr/bin/env python3
"""Lists what the functions of crates promise, and the edits that make these functions wrong.

    promises.py [CRATE..]

For each function with clauses it prints their names, and how many have no name; the comments above
the function and above its clauses; the gate's edits that change the function; and those of
gate/edits, in brackets. A public function that no edit changes is marked 'no edit', unless it is a
law, which has no body. An edit belongs to the function that contains its first old text.
"""
import re
import sys
import textwrap
from pathlib import Path
from typing import Dict, Iterator, List, NamedTuple

sys.dont_write_bytecode = True
import antt
from antt import ROOT


class Function(NamedTuple):
    name: str           # with its type or trait
    is_public: bool
    first: int          # its first and last line, counting from 0
    last: int
    clauses: List[str]  # '' for one without a name
    comments: Dict[str, str]    # of the function ('') and of its clauses, in one line each


def sources(crate: str) -> List[Path]:
    return sorted((ROOT / "crates" / crate / "src").rglob("*.rt"))


def comment_above(lines: List[str], at: int) -> str:
    """The comment above a line and its attributes, in one line."""
    words: List[str] = []
    while at > 0 and re.match(r" *(///?( |$)|#\[)", lines[at - 1]):
        at -= 1
        words[:0] = re.sub(r" *(///?|#\[.*)", "", lines[at]).split()
    return " ".join(words)


def functions(path: Path) -> Iterator[Function]:
    lines, holder = path.read_text().splitlines(), ""
    for at, line in enumerate(lines):
        block = re.match(r"(?:pub.*? )?(?:impl(?:<.*?>)? (?:[^{]* for )?|trait )(\w+)", line)
        holder = f"{block[1]}::" if block else "" if line.startswith("}") else holder
        found = re.match(r"( *)(pub )?(?:pub\(\w+\) )?(?:const )?fn (\w+)", line)
        if found:
            ends = re.compile(rf"{found[1]}\{{?\}}|.*\}};")
            last = next((k for k in range(at, len(lines)) if ends.fullmatch(lines[k])), at)
            is_public = found[2] is not None and lines[last] != "{}"
            clauses, comments = [], {"": comment_above(lines, at)}
            for place in range(at, last + 1):
                clause = re.match(r" +ensures\*?(?: (\w+))? \{", lines[place])
                if clause:
                    clauses.append(clause[1] or "")
                    comments[clause[1] or "(no name)"] = comment_above(lines, place)
            yield Function(holder + found[3], is_public, at, last, clauses, comments)


def list_promises(crate: str) -> None:
    print(crate)
    edits, home = [], ROOT / "crates" / crate
    for folder, form in (home / "must-fail", "{}"), (ROOT / "gate" / "edits" / crate, "[{}]"):
        for path in sorted(folder.glob("*.edit")):
            file, old = (re.findall(rf"^{word}: (.*)$", path.read_text(), re.M)[0]
                         for word in ("file", "old"))
            before = (home / file).read_text().partition(old)[0]
            edits.append((form.format(path.stem), home / file, before.count("\n")))
    for path in sources(crate):
        for function in functions(path):
            lines = range(function.first, function.last + 1)
            mine = [edit for edit in edits if edit[1] == path and edit[2] in lines]
            edits = [edit for edit in edits if edit not in mine]
            if function.clauses or mine:
                named, count = [*filter(None, function.clauses)], function.clauses.count("")
                clauses = ", ".join([*named, *[f"{count} without a name"] * bool(count)])
                print(f"  {function.name} ({antt.shown(path)}:{function.first + 1}): {clauses}")
                for name, text in function.comments.items():
                    text = f"{name}: {text}" if name and text else text
                    print(textwrap.indent(textwrap.fill(text, 94), " " * 6), end="\n" * bool(text))
            if mine or function.clauses and function.is_public:
                print("      " + (", ".join(edit[0] for edit in mine) or "no edit"))
    print("".join(f"  outside of functions: {edit[0]}\n" for edit in edits), end="")


def main(words: List[str]) -> None:
    for name in words:
        if name not in antt.crates():
            sys.exit(f"promises: crates.txt has no '{name}'")
    for name in words or antt.crates():
        if words or not name.endswith(("_tests", "_support")):
            list_promises(name)


if __name__ == "__main__":
    main(sys.argv[1:])
