"""Runs CaDiCaL and lrup-solve on formulas, and keeps each run's result as a line of a file."""
import hashlib
import json
import os
import re
import resource
import shutil
import signal
import subprocess
import sys
import time
from pathlib import Path
from typing import Any, Dict, List, NamedTuple, Tuple

ALONE = 0               # in place of a number of engines
UNSATISFIABLE = 20
MOMENT = 0.5            # seconds without a run of ours, to measure other work
TICKS = os.sysconf("SC_CLK_TCK")


class Formula(NamedTuple):
    words: str
    title: str
    family: str


class Result(NamedTuple):
    """One run. Times are in seconds; `filters` and `lrupd` are ratios to the engines' processor
    time, and `others` is how many cores other processes used on average. A status other than 20
    means no answer in time."""
    words: str
    engines: int
    status: int
    others: float
    clock: float
    processor: float        # of all processes
    path: float             # of the engine or filter that took the most
    filters: float          # processor time, relative to the engines'
    lrupd: float
    verdict: float          # by the clock, after an engine's answer


def busy_seconds() -> float:
    """Busy seconds of all cores together, since the machine started."""
    words = Path("/proc/stat").read_text().split("\n", 1)[0].split()[1:]
    idle = int(words[3]) + int(words[4])
    return (sum(map(int, words[:8])) - idle) / TICKS


def own_seconds() -> float:
    used = resource.getrusage(resource.RUSAGE_CHILDREN)
    return used.ru_utime + used.ru_stime


def others_now() -> float:
    """How many cores are busy while none of our processes runs."""
    before = busy_seconds()
    time.sleep(MOMENT)
    return (busy_seconds() - before) / MOMENT


def run(command: List[str]) -> Tuple[int, str]:
    """Runs the command, and ends it if this script is interrupted."""
    process = subprocess.Popen(command, stdout=subprocess.PIPE, stderr=subprocess.STDOUT, text=True)
    try:
        said, _ = process.communicate()
    except BaseException:
        process.terminate()
        process.wait()
        raise
    return process.returncode, said


def numbers(pattern: str, text: str) -> List[float]:
    found = re.search(pattern, text)
    if not found:
        sys.exit(f"no '{pattern}' in\n{text}")
    return [float(number) for number in found.groups()]


def parts_of(said: str) -> Dict[str, float]:
    """The shares of processor time that `lrup-solve -v` prints."""
    pairs = re.findall(r"^c engine \d+: ([\d.]+) s, its filter ([\d.]+) s", said, re.M)
    engines, filters, lrupd = numbers(
        r"s of processor time: engines ([\d.]+), filters ([\d.]+), lrupd ([\d.]+)", said)
    verdict, = numbers(r"the verdict came ([\d.]+) s after", said)
    most = max(engines, 0.01)       # the least time that is printed
    path = max(float(part) for pair in pairs for part in pair)
    return {"path": path, "filters": filters / most, "lrupd": lrupd / most, "verdict": verdict}


class Bench:
    """The programs, and the results of all their runs so far."""

    def __init__(self, solve: str, lrupd: str, limit: int, results: str) -> None:
        self.solve, self.lrupd, self.limit, self.path = solve, lrupd, limit, results
        self.results: List[Result] = []
        digest = hashlib.sha256(
            b"".join(Path(program).read_bytes()
                     for program in (shutil.which("cadical") or "cadical", solve, lrupd)))
        self.programs = {"programs": digest.hexdigest()[:16]}
        if results and os.path.exists(results):
            self.read()
        elif results:
            self.write(self.programs)

    def read(self) -> None:
        text = Path(self.path).read_text()
        first, *lines = text.split("\n")
        if json.loads(first) != self.programs:
            sys.exit(f"{self.path} has the results of other programs: name another file")
        # The last line may be cut off.
        self.results = [Result(**json.loads(line)) for line in lines if line.endswith("}")]
        if not text.endswith("\n"):
            with open(self.path, "a") as out:
                out.write("\n")

    def write(self, line: Dict[str, Any]) -> None:
        if self.path:
            with open(self.path, "a") as out:
                out.write(json.dumps(line) + "\n")

    def of(self, formula: Formula, engines: int, most_others: float) -> List[Result]:
        return [one for one in self.results if (one.words, one.engines) == (formula.words, engines)
                and one.others <= most_others]

    def command(self, path: str, engines: int) -> List[str]:
        if engines == ALONE:
            return ["timeout", str(self.limit), "cadical", "-q", "-n", path]
        return [self.solve, "--lrupd", self.lrupd, "-v", "-j", str(engines), "--time",
                str(self.limit), path]

    def measure(self, formula: Formula, path: str, engines: int) -> Result:
        began, busy, own = time.monotonic(), busy_seconds(), own_seconds()
        status, said = run(self.command(path, engines))
        clock, processor = time.monotonic() - began, own_seconds() - own
        # The system counts busy time in hundredths of a second.
        others = max(0.0, (busy_seconds() - busy - processor) / max(clock, MOMENT))
        parts = {"path": processor, "filters": 0.0, "lrupd": 0.0, "verdict": 0.0}
        if engines != ALONE and status == UNSATISFIABLE:
            parts = parts_of(said)
        if status != UNSATISFIABLE:
            print(f"{formula.words}, {engines} engines: status {status}\n{said[-2000:]}",
                  file=sys.stderr)
        result = Result(formula.words, engines, status, others, clock, processor, **parts)
        self.results.append(result)
        self.write({name: round(value, 4) if isinstance(value, float) else value
                    for name, value in result._asdict().items()})
        return result


def stop_gently() -> None:
    """Lets SIGTERM and SIGINT end the script with an exception, so that the running command is
    ended, too."""
    for number in (signal.SIGTERM, signal.SIGINT):
        signal.signal(number, lambda *_: sys.exit("stopped"))
