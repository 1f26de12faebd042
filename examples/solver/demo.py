#!/usr/bin/env python3
"""Four solvers that share clauses, checked by lrupd through FIFOs while they run.

    demo.py PROGRAM SOLVER [FORMULA]

Shows once a second how many lines each stream has, and lrupd's messages; then the solvers' output,
the report, and how long after the solvers' last byte the report came. Without FORMULA the solvers
get a random 3-SAT formula that takes some ten seconds. The status is lrupd's."""
import os
import subprocess
import sys
import tempfile
import threading
import time

STREAMS = 4
OPTIONS = ["--tries", "1000000", "--lines", "500000", "--room", "10000000", "--watch"]


def show(lines, begin, times):
    """Shows each line as it comes, with the seconds since `begin`, and adds the time to `times`."""
    for line in lines:
        times.append(time.monotonic())
        print("%5.1f s  %s" % (times[-1] - begin, line.rstrip("\n")), flush=True)


def main():
    if len(sys.argv) not in (3, 4):
        sys.exit(__doc__)
    program, solver = (os.path.abspath(path) for path in sys.argv[1:3])
    with tempfile.TemporaryDirectory() as work:
        formula = os.path.join(work, "formula.cnf")
        if len(sys.argv) == 4:
            formula = sys.argv[3]
        else:
            generator = os.path.join(os.path.dirname(os.path.abspath(__file__)), "generate.py")
            with open(formula, "w") as out:
                subprocess.run([sys.executable, generator, "random", "270", "5"],
                               stdout=out, check=True)
        pipes = [os.path.join(work, f"proof{number}") for number in range(1, STREAMS + 1)]
        for pipe in pipes:
            os.mkfifo(pipe)
        print("solver --progress formula.cnf proof1 proof2 proof3 proof4 &")
        print("lrupd", *OPTIONS, "formula.cnf proof1 proof2 proof3 proof4", flush=True)
        times = []
        begin = time.monotonic()
        solving = [solver, "--progress", formula] + pipes
        checking = [program] + OPTIONS + [formula] + pipes
        with subprocess.Popen(solving, stdout=subprocess.PIPE, text=True) as solvers, \
                subprocess.Popen(checking, stdout=subprocess.PIPE, stderr=subprocess.PIPE,
                                 text=True) as checker:
            shows = threading.Thread(target=show, args=(checker.stderr, begin, times))
            shows.start()
            said = solvers.stdout.readline()    # comes when all streams are closed
            last_byte = time.monotonic()
            said += solvers.stdout.read()
            report = checker.stdout.read()
            waited = time.monotonic() - last_byte
            shows.join()
        print("\nThe solvers:",
              "".join(line for line in said.splitlines(True) if line[0] != "v"), sep="\n")
        early = sum(moment < last_byte for moment in times)
        print("Of %d messages of lrupd, %d came before the last byte." % (len(times), early))
        print("The report, %.3f s after the last byte:" % waited, report, sep="\n")
        print("status", checker.returncode)
        return checker.returncode


sys.exit(main())
