#!/usr/bin/env python3
"""Measures the first build, and writes bench/building.md and the seconds of gate/seconds.txt.

    python3 bench/first_build.py RT

Builds a clone of HEAD from nothing. rt shares proofs among the checkouts of a machine: measure on a
machine that hasn't built this repository, with nothing else running.
"""
import os
import platform
import re
import resource
import subprocess
import sys
import tempfile
import time
from datetime import date
from pathlib import Path

PAGE = Path(__file__).with_name("building.md")
ROOT = PAGE.parent.parent
SECONDS = ROOT / "gate" / "seconds.txt"


def clock(seconds: float) -> str:
    return f"{int(seconds) // 60}:{int(seconds) % 60:02}"


def processor() -> str:
    found = re.search(r"^model name\s*: (.*)", Path("/proc/cpuinfo").read_text(), re.M)
    return found[1] if found else platform.machine()


def main() -> None:
    commit = subprocess.check_output(["git", "rev-parse", "--short", "HEAD"], cwd=ROOT,
                                     text=True).strip()
    with tempfile.TemporaryDirectory() as clone:
        subprocess.run(["git", "clone", "-q", ROOT, clone], check=True)
        began = time.monotonic()
        words = [sys.executable, "gate/build.py", sys.argv[1], "out/bin/lrupd"]
        printed = subprocess.run(words, cwd=clone, check=True, stdout=subprocess.PIPE,
                                 text=True).stdout
        took = time.monotonic() - began
    rows = re.findall(r"^\d+ of \d+: (\w+), ([\d:]+), processor (\d+) s", printed, re.M)
    usage = resource.getrusage(resource.RUSAGE_CHILDREN)
    table = "".join(f"| `{name}` | {by_clock} | {seconds} |\n" for name, by_clock, seconds in rows)
    SECONDS.write_text(re.sub(r"^crate .*\n", "", SECONDS.read_text(), flags=re.M) + "".join(
        f"crate {name} {seconds}\n" for name, _, seconds in rows))
    first, _, rest = PAGE.read_text().partition("## Before")
    first = first[:first.index("## Now")]
    PAGE.write_text(f"""{first}## Now

{date.today()}, at {commit}, {len(os.sched_getaffinity(0))} cores ({processor()}), \
Python {platform.python_version()}: **{clock(took)} by the clock**,
{clock(usage.ru_utime)} of user and {clock(usage.ru_stime)} of system time.

| Crates, in the order in which they finished | By the clock | Processor seconds |
|---|---|---|
{table}
## Before{rest}""")


if __name__ == "__main__":
    main()
