"""gate/quotes.py, which checks the pages' quotations of definitions, on wrong pages."""
import contextlib
import io
import shutil
import sys
from pathlib import Path
from typing import List

import pytest

from harness import ROOT, Ran

sys.path.append(str(ROOT / "gate"))
import quotes

COMMENT, TYPE = ("-- no assignment satisfies all clauses of the formula\n",
                 "IsUnsatisfiable : Cnf → Type 0\n")
MEANS = (
    "IsUnsatisfiable formula = (assignment : Assignment) → SatisfiesAll assignment formula → ⊥\n")
WHOLE = COMMENT + TYPE + MEANS
ANOTHER = "-- the negation of a test\nnegation : Bool → Bool\nnegation x = not x\n\n"
FILE = "](../crates/lrup_model/specs/Entailment.antt)\n\n```agda\n" + WHOLE


def checked(words: List[str], folder: Path) -> Ran:
    """The answer of quotes.py on the pages in this folder. The sources are read once for all
    tests."""
    out, err = io.StringIO(), io.StringIO()
    with contextlib.redirect_stdout(out), contextlib.redirect_stderr(err):
        with pytest.raises(SystemExit) as end:
            quotes.main(words, folder)
    return Ran(out.getvalue(), err.getvalue(), int(end.value.code or 0))


DIFFERS = ["IsUnsatisfiable differs from crates/lrup_model/specs/Entailment.antt",
           "run make quotes"]


def want_said(name: str, old: str, new: str, said: List[str], folder: Path) -> None:
    """In a copy of the pages, this text is replaced on a page: these words are said, or nothing is
    wrong if there are none. --write corrects quotes that differ, but nothing else."""
    page = Path(shutil.copytree(quotes.DOCS, folder / "docs")) / name
    before = page.read_text()
    assert before.count(old) == 1
    page.write_text(before.replace(old, new))
    done = checked([], page.parent)
    assert (done.err, done.status) == ("", 1 if said else 0)
    for text in said:
        assert text in done.out
    mended = checked(["--write"], page.parent)
    is_put_right = not said or "run make quotes" in said
    assert mended.status == (0 if is_put_right else 1), mended.out
    assert (page.read_text() == before) == is_put_right


@pytest.mark.parametrize("old, new, said", [
    pytest.param(WHOLE, WHOLE, [], id="as it is"),
    pytest.param(MEANS, MEANS.replace("formula → ⊥", "formula"), DIFFERS, id="one word changed"),
    pytest.param(COMMENT, COMMENT.replace("all", "some"), DIFFERS, id="a comment changed"),
    pytest.param("\n```agda\n" + WHOLE + "```\n", "", ["IsUnsatisfiable, which no page quotes"],
                 id="a definition left out"),
    pytest.param(WHOLE, ANOTHER + WHOLE, ["no statement reaches negation"],
                 id="a definition that nothing reaches"),
    pytest.param(WHOLE, WHOLE + "\n" + WHOLE, ["IsUnsatisfiable is quoted at docs/AUDIT.md"],
                 id="a definition twice"),
    pytest.param(FILE, FILE.replace("Entailment", "Clause"),
                 ["crates/lrup_model/specs/Clause.antt doesn't declare IsUnsatisfiable: "
                  "crates/lrup_model/specs/Entailment.antt has"],
                 id="a wrong file"),
    pytest.param("[`plain_words`](../crates/command_line/", "[`plain_words`](../crates/dimacs/",
                 ["the link of plain_words leads to crates/dimacs/src/laws.rt"], id="a wrong link"),
    pytest.param("uses 31 definitions", "uses 30 definitions",
                 ["its contracts 'use 31 definitions'"], id="a wrong count"),
    pytest.param("result ≡ 0 → Name", "result ≡ 3 → Name", ["doesn't have 'result ≡ 3"],
                 id="a wrong clause"),
    pytest.param("[`is_set`](../crates/command_line/specs/CommandLine.antt),\n", "",
                 ["IsSaidBy names is_set, which no page quotes"],
                 id="a definition neither quoted nor named")])
def test_audit(old: str, new: str, said: List[str], tmp_path: Path) -> None:
    want_said("AUDIT.md", old, new, said, tmp_path)


@pytest.mark.parametrize("old, new, said", [
    pytest.param("- [`Spelling`](../crates/idwords/specs/", "- Spelling (",
                 ["Calls names LieWithin, which no page quotes"], id="a file that isn't listed"),
    pytest.param("- [`Spelling`]",
                 "- [`Turns`](../crates/run_laws/specs/TurnsLaws.antt): turns.\n- [`Spelling`]",
                 ["no statement reaches crates/run_laws/specs/TurnsLaws.antt"],
                 id="a file that nothing reaches"),
    pytest.param("(`pass_caller_view`)", "",
                 ["pass_caller_view names pass_caller_view, which no page quotes"],
                 id="a name that isn't listed"),
    pytest.param(" (`Fetched`)", "", ["names Fetched, which no page quotes"],
                 id="a type that isn't listed"),
    pytest.param("(`clip_clause`, ", "(`clip_clauses`, ",
                 ["the link of clip_clauses leads to crates/lrup_model/specs/CallerView.antt"],
                 id="a name of another file")])
def test_a_page_that_lists_the_files_of_its_definitions(old: str, new: str, said: List[str],
                                                        tmp_path: Path) -> None:
    want_said("STORE_CALLS.md", old, new, said, tmp_path)
