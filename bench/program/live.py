#!/usr/bin/env python3
"""Measures the program's processor time while its streams are slow, and how soon it checks a line.

    live.py PROGRAM

It prints the processor time of 64 silent pipes; of a hint that is tried 1,000,000 times in vain,
with nothing after it, and with more bytes after it than its ring holds; the time from a line after
silence to the report; and, for 1,000 and 10,000 lines a second, the processor time of a line and
the time from the last line to the report."""
import os
import statistics
import subprocess
import sys
import tempfile
import threading
import time
from pathlib import Path
from typing import Sequence, Tuple

FORMULA = Path(__file__).resolve().parents[2] / "examples" / "four-clause.cnf"
SECONDS = 8


def busy(process: "subprocess.Popen[bytes]") -> float:
    """The process's processor time so far, in seconds."""
    fields = Path(f"/proc/{process.pid}/stat").read_text().rsplit(")", 1)[1].split()
    return (int(fields[11]) + int(fields[12])) / os.sysconf("SC_CLK_TCK")


def busy_meanwhile(process: "subprocess.Popen[bytes]") -> float:
    """The processor time during SECONDS, which begin after one second."""
    time.sleep(1)
    before = busy(process)
    time.sleep(SECONDS)
    return busy(process) - before


class Run:
    """The program with pipes as streams, and their writing ends."""

    def __init__(self, folder: str, count: int, *options: str) -> None:
        pipes = [f"{folder}/{number}" for number in range(count)]
        for pipe in pipes:
            Path(pipe).unlink(missing_ok=True)
            os.mkfifo(pipe)
        words = [sys.argv[1], *options, str(FORMULA), *pipes]
        self.process = subprocess.Popen(words, stdout=subprocess.PIPE)
        self.ends = [os.open(pipe, os.O_WRONLY) for pipe in pipes]

    def write(self, text: str) -> None:
        os.write(self.ends[0], text.encode())

    def report_after(self, began: float) -> Tuple[float, float]:
        """Closes the pipes. Returns the milliseconds until the report came, and the whole run's
        processor time in seconds."""
        for end in self.ends:
            os.close(end)
        assert self.process.stdout
        self.process.stdout.read()
        late = (time.monotonic() - began) * 1e3
        _, _, used = os.wait4(self.process.pid, 0)
        return late, used.ru_utime + used.ru_stime


def silent(folder: str) -> float:
    run = Run(folder, 64, "--lines", "10", "--room", "10")
    taken = busy_meanwhile(run.process)
    run.report_after(time.monotonic())
    return taken


def behind_a_hint(folder: str, behind: int) -> float:
    """The processor time while stream 1 waits for a clause of stream 2, which writes none, with
    this number of bytes after the hint."""
    run = Run(folder, 2, "--tries", "1000000")
    run.write("5 0 6 0\n")
    if behind:
        # While the hint is tried, the pipe holds only a part of these bytes; the write fails when
        # the program ends.
        threading.Thread(target=lambda: run.write("\n" * behind), daemon=True).start()
    taken = busy_meanwhile(run.process)
    run.process.kill()
    run.process.wait()
    return taken


def after_silence(folder: str) -> float:
    run = Run(folder, 1, "--lines", "10", "--room", "10")
    time.sleep(0.2)
    began = time.monotonic()
    run.write("5 2 0 1 2 0\n6 0 5 3 4 0\n")
    return run.report_after(began)[0]


def trickling(folder: str, rate: int) -> Tuple[float, float]:
    """The milliseconds from the last line to the report, and the processor time of a line in
    microseconds."""
    run = Run(folder, 1, "--lines", "200000", "--room", "200000")
    count, due = 2 * rate, time.monotonic()
    for number in range(5, 5 + count):
        run.write(f"{number} 2 0 1 2 0\n")
        due += 1 / rate
        time.sleep(max(0, due - time.monotonic()))
    late, taken = run.report_after(time.monotonic())
    return late, taken * 1e6 / count


def spread(times: Sequence[float]) -> str:
    return f"{min(times):.2f} to {max(times):.2f} ms, median {statistics.median(times):.2f}"


def main() -> None:
    if len(sys.argv) != 2:
        sys.exit(__doc__)
    # A write to a pipe whose reader was killed fails, and ends the writing thread.
    threading.excepthook = lambda _: None
    print(f"load {os.getloadavg()[0]:.1f}", flush=True)
    with tempfile.TemporaryDirectory() as folder:
        print(
            f"64 silent pipes: {silent(folder):.2f} s of processor time in {SECONDS} s", flush=True)
        for behind in [0, 300_000]:
            taken = behind_a_hint(folder, behind)
            print(
                f"a hint that never comes, {behind:,} bytes after it: {taken:.2f} s in {SECONDS} s",
                flush=True)
        late = [after_silence(folder) for _ in range(30)]
        print(f"from a line after 0.2 s of silence to the report: {spread(late)}", flush=True)
        for rate in [1_000, 10_000]:
            runs = [trickling(folder, rate) for _ in range(5)]
            line = statistics.median(taken for _, taken in runs)
            print(f"{rate:,} lines a second: {line:.1f} us a line; from the last line to the "
                  f"report: {spread([late for late, _ in runs])}", flush=True)
    print(f"load {os.getloadavg()[0]:.1f}")


main()
