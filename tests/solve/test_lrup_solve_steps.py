"""Records of lrup-solve in orders of steps that Hypothesis chooses: runs that begin, are killed, go
on, or replace a record; streams that are packed; a folder that moves.

After each step a record with a proof is checked again, no saved round is lost, and no process and
no temporary file is left. At last a run goes on to the answer."""
import os
import shutil
import signal
import subprocess
import tempfile
from pathlib import Path
from typing import Dict, List

import pytest

pytest.importorskip("hypothesis")
from hypothesis import strategies as st
from hypothesis.stateful import (RuleBasedStateMachine, initialize, invariant, rule,
                                 run_state_machine_as_test)

from harness import PACKERS, generated, pack, started, until
from properties import checked
from records import saved_rounds, whole
from solving import (check_again, command, in_environment, marked, none_left, solve, want_answer)

pytestmark = pytest.mark.usefixtures("solve_for_tests")
SMALL = {"SAME_WORDS": 1, "SLICE": 20, "FIRST_WORDS": 4000}
SOON = 20       # seconds within which files are removed after a run's end
engines = st.integers(1, 3)


class Record(RuleBasedStateMachine):
    """A record, which may be moved, of runs on one formula."""

    def __init__(self) -> None:
        super().__init__()
        self.work = Path(tempfile.mkdtemp())
        self.mark, self.moves = marked(self.work), 0
        self.kept, self.temporary = self.work / "kept", self.work / "temporary"
        self.temporary.mkdir()
        self.saved = 1      # the round with which a run would go on

    @initialize(pigeons=st.sampled_from([6, 7]))
    def given(self, pigeons: int) -> None:
        self.formula = generated(f"pigeons {pigeons}", self.work)

    def is_proved(self) -> bool:
        return (self.kept / "command").exists()

    def environment(self) -> Dict[str, str]:
        return in_environment(SMALL, {"TMPDIR": str(self.temporary)})

    def killed(self, words: List[object], rounds: int) -> None:
        """Kills a run once it has saved this round, unless it ends before."""
        with started(command(words, SMALL), env=self.environment(), stdout=subprocess.DEVNULL,
                     stderr=subprocess.DEVNULL) as running:
            until(f"round {rounds} is saved", lambda: saved_rounds(self.kept) > rounds
                  or running.poll() is not None)
            running.kill()
        assert running.returncode in (20, -signal.SIGKILL)

    def proved(self, words: List[object]) -> None:
        want_answer(solve(words, tested=SMALL, env_more={"TMPDIR": str(self.temporary)}), 20)
        assert self.is_proved()

    def refused(self, words: List[object], said: str) -> None:
        answer = solve(words, env_more={"TMPDIR": str(self.temporary)})
        assert (answer.out, answer.said, answer.status) == ("", f"lrup-solve: {said}\n", 1)

    # Which steps can be taken depends on how far killed runs got, which differs from time to time.
    # Hypothesis doesn't know that, so that it can repeat steps.

    @rule(number=engines, more=st.integers(0, 3), is_killed=st.booleans())
    def a_run_goes_on(self, number: int, more: int, is_killed: bool) -> None:
        """Or begins."""
        how = "--resume" if (self.kept / "files").exists() else "--proofs"
        words = ["-j", number, how, self.kept, self.formula]
        if self.is_proved():
            self.refused(words,
                         f"{self.kept} already has a proof: sh {self.kept}/command checks it")
        elif is_killed:
            self.killed(words, self.saved + more)
        else:
            self.proved(words)

    @rule(number=engines, rounds=st.integers(1, 3), is_killed=st.booleans())
    def a_run_replaces_the_record(self, number: int, rounds: int, is_killed: bool) -> None:
        words = ["-j", number, "--proofs", self.kept, "--replace", self.formula]
        self.saved = 1
        if is_killed:
            self.killed(words, rounds)
        else:
            self.proved(words)

    @rule()
    def no_other_run_begins(self) -> None:
        words = ["--proofs", self.kept, self.formula]
        rounds = self.saved - 1
        if self.is_proved():
            self.refused(words, f"{self.kept} has the proof of an earlier run: add --replace, or "
                         "choose another --proofs")
        elif rounds:
            self.refused(words, f"{self.kept} has {rounds} round{'s' * (rounds > 1)} of an earlier "
                         f"run: lrup-solve --resume {self.kept} continues it, --replace removes it")

    @rule(ending=st.sampled_from(sorted(PACKERS)), place=st.integers(0, 20))
    def a_stream_is_packed(self, ending: str, place: int) -> None:
        """One of those that are saved."""
        plain = sorted(path for path in self.kept.glob("round-*.stream-?")
                       if self.is_proved() or int(path.name[6:].split(".")[0]) < self.saved)
        if plain and shutil.which(PACKERS[ending]):
            pack(plain[place % len(plain)], ending)

    @rule()
    def the_folder_moves(self) -> None:
        if self.kept.exists():
            self.moves += 1
            self.kept = self.kept.rename(self.work / f"moved-{self.moves}")

    @invariant()
    def is_right(self) -> None:
        none_left(self.mark)
        until("files of the run are removed", lambda: not os.listdir(self.temporary), SOON)
        if self.is_proved():
            check_again(self.kept)
        else:
            before, self.saved = self.saved, saved_rounds(self.kept)
            assert self.saved >= before, "a saved round is lost"

    def teardown(self) -> None:
        if hasattr(self, "formula"):
            if not self.is_proved():
                self.a_run_goes_on(2, 0, False)
            whole(self.kept, self.formula, self.work)
        shutil.rmtree(self.work)


def steps(examples: int, most: int) -> None:
    run_state_machine_as_test(      # type: ignore[no-untyped-call]
        Record, settings=checked(examples, stateful_step_count=most))


def test_steps() -> None:
    steps(3, 6)


@pytest.mark.nightly
def test_many_steps() -> None:
    steps(100, 12)
