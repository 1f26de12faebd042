#!/usr/bin/env python3
"""Runs what the gate leaves out, step by step, and says what failed.

    night.py [STEP..]

A step is a command of the shell, with a limit of time; its output goes to out/night/STEP.txt. After
a failure the next step is run. A step is left out if a command that it needs isn't installed. The
last lines say what was left out and what failed; if anything failed, the status is 1."""
import os
import re
import shutil
import signal
import subprocess
import sys
import tempfile
import time
from pathlib import Path
from typing import List, NamedTuple

ROOT = Path(__file__).resolve().parent.parent
LOGS = ROOT / "out" / "night"


class Step(NamedTuple):
    name: str
    minutes: int        # its limit
    needs: List[str]    # commands
    command: str        # it may write to the folder $work


CLANG = "make CC=clang CXX=clang++ CFLAGS='-O2 -Werror' CXXFLAGS='-O2 -Werror'"


def sanitized(by: str, first: str = "true", more: str = "") -> str:
    """A report of the sanitizer is a failure, although lrup-solve replaces a process that dies.
    What `make leaks` finds isn't looked for."""
    flags = f"-O1 -g -fsanitize={by} -fno-sanitize-recover=all"
    return f"""
        flags='{flags}'
        export ASAN_OPTIONS=detect_leaks=0:log_path=$work/report
        export TSAN_OPTIONS=log_path=$work/report UBSAN_OPTIONS=log_path=$work/report
        {first} &&
        make rows TESTS='lrup_solve lrup_solve_cubes lrup_solve_rounds lrup_check_filters' \
            MORE="--flags='$flags' {more}"
        status=$?
        ! cat "$work"/report* 2> /dev/null || exit 1
        exit $status"""


STEPS = (
    Step("build", 90, [], "make build tools"),
    Step("try", 20, [], "make try run demo"),
    Step("scripts", 30, [], """
        make help promises dist quotes && sh gate/pre-push origin < /dev/null &&
        make quick CRATE=idwords"""),
    Step("readers", 30, [], """
        for kind in random wide; do
            bench/readers/generate.py $kind 1 > "$work/$kind.cnf" || exit 1
        done
        for kind in short long huge; do
            bench/readers/generate.py $kind 1 > "$work/$kind" || exit 1
        done
        bench/readers/measure.py --rounds 1 "$work"/*"""),
    Step("program", 30, [], """
        bench/program/table.py --rounds 1 out/bin/lrupd out/bin/example-solver &&
        bench/program/live.py out/bin/lrupd &&
        bench/program/measure.py 'out/bin/lrupd examples/bmc.cnf examples/bmc.lrup' \\
            'out/bin/lrupd --serial examples/bmc.cnf examples/bmc.lrup'"""),
    Step("filter", 30, ["cadical"], "bench/filter/table.py --rounds 1 out/bin/lrup-exact"),
    Step("solve", 60, ["cadical"], """
        for words in 'commute 3' 'divide 3' 'sort 3 3' 'pipeline 2 2' 'factor 13' 'distribute 2' \\
            'squares 3' 'count 4' 'gripper 2 2' 'tiles 2' 'chessboard 4' 'waerden 3 3 9' \\
            'pigeons 3' 'random 60 1'; do
            bench/solve/formulas.py $words > "$work/formula" &&
            out/bin/lrup-solve -q --expect unsat "$work/formula" || exit 1
        done
        programs='out/bin/lrup-solve out/bin/lrupd'
        bench/solve/table.py --rounds 1 --formulas 'pipeline 4 8' --svg "$work/svg" $programs &&
        bench/solve/table.py --rounds 1 --easy $programs &&
        bench/solve/cubes.py --rounds 1 $programs &&
        bench/solve/check.py --rounds 1 --formulas 'commute 6,sort 5 4' out/bin/lrup-check \
            out/bin/lrupd &&
        bench/solve/formulas.py commute 8 > "$work/formula" &&
        bench/solve/long.py --memory 1M --svg "$work/svg" --proofs "$work/record" --kills 1 \\
            --after 3 $programs "$work/formula"
        [ $? -eq 20 ]"""),
    Step("building", 90, [], """
        git clone -q . "$work/clone" && make -C "$work/clone" building"""),
    Step("peers", 60, ["acl2"], "make peers"),
    Step("hol", 60, ["hol-light"], "make hol"),
    Step("rows", 120, ["valgrind"], "make sweep leaks instructions neighbours"),
    Step("models", 30, [], "make rows TESTS=model MORE=--count=200"),
    Step("mutants", 90, [], "make rows TESTS=filter_mutants MORE='--first=10000 --count=40000'"),
    Step("filters", 90, ["cadical"],
         "make rows TESTS=lrup_check_filters MORE='-k mutated --first=200 --count=4800'"),
    Step("properties", 90, [], """
        make rows TESTS=program_reports MORE=--count=20000 &&
        make rows TESTS=lrup_solve_steps MORE='-m nightly'"""),
    Step("xdist", 60, [], """
        pytest-3 -n auto --dist load --max-worker-restart=0 tests \\
            -m 'not long and not nightly and not of_crates'"""),
    Step("mpi", 60, ["mpicxx"], "make rows TESTS=lrup_solve_mpi MORE='-m long'"),
    Step("cadicals", 150, ["apt-get", "dpkg-deb"], """
        sh gate/cadicals.sh "$work/cadicals" > "$work/found" 2> "$work/left_out"
        cat "$work/left_out"
        for folder in $(cat "$work/found"); do
            PATH="$folder/usr/bin:$PATH" \\
                make CADICAL="$folder" warnings tools solve-test || exit 1
        done
        make tools      # with the installed one"""),
    Step("clang", 90, ["clang++"], f"""
        {CLANG} tools && {{ ! command -v mpicxx || {CLANG} solve-mpi; }} && {CLANG} rows \\
            TESTS='example_solver explain filter_streams lrup_solve lrup_solve_kept trim'
        status=$?
        make tools      # by the usual compiler
        exit $status"""),
    # The sanitizer of threads doesn't know those of C11, which the example solver has.
    Step("address", 90, [], sanitized("address,undefined", """
        make OUT="$work" CFLAGS="$flags" solver &&
        { "$work/bin/example-solver" examples/bmc.cnf "$work/1" "$work/2"; [ $? -eq 20 ]; } &&
        out/bin/lrupd --tries 1000 examples/bmc.cnf "$work/1" "$work/2"
        """.strip())),
    # This sanitizer changes the timing on which it depends whether a run that breaks a rule fails.
    Step("thread", 90, [], sanitized("thread", more="-k 'not rules_of_sharing'")),
    Step("edits", 120, [], "make edits"),
    Step("days", 90, [], "make days"),
    Step("attack", 90, ["strace"], "make attack"),
    Step("unmarked", 60, [], "make unmarked"),
)


def run(step: Step) -> List[str]:
    """Runs the step. Returns what it left out, and whether it failed."""
    missing = [name for name in step.needs if not shutil.which(name)]
    if missing:
        return [f"{step.name}: left out: {', '.join(missing)} isn't installed"]
    log, began = LOGS / f"{step.name}.txt", time.monotonic()
    print(f"{step.name}: ", end="", flush=True)
    with tempfile.TemporaryDirectory() as work, log.open("w") as said:
        words = ["timeout", "-k", "60", f"{step.minutes}m", "sh", "-c", step.command]
        process = subprocess.Popen(words, cwd=ROOT, stdin=subprocess.DEVNULL, stdout=said,
                                   stderr=subprocess.STDOUT, env={**os.environ, "work": work})
        try:
            status = process.wait()
        except BaseException:
            process.terminate()     # timeout passes it on
            process.wait()
            raise
    took = int(time.monotonic() - began)
    print(f"{'failed' if status else 'passed'}, {took // 60}:{took % 60:02}", flush=True)
    text = log.read_text(errors="replace")
    found = [f"{step.name}: {line}" for line in re.findall(r"^left out: .*", text, re.M)]
    if status:
        why = f"no end after {step.minutes} minutes" if status in (124, 137) else f"status {status}"
        found.append(f"{step.name}: failed: {why}: {log.relative_to(ROOT)}")
    return found


def main(names: List[str]) -> int:
    signal.signal(signal.SIGTERM, lambda *_: sys.exit(143))
    unknown = set(names) - {step.name for step in STEPS}
    if unknown:
        sys.exit(f"night: no step is called {', '.join(sorted(unknown))}")
    LOGS.mkdir(parents=True, exist_ok=True)
    found = [line for step in STEPS if not names or step.name in names for line in run(step)]
    print("\n".join(found or ["night: nothing failed"]))
    return int(any(": failed: " in line for line in found))


if __name__ == "__main__":
    sys.exit(main(sys.argv[1:]))
