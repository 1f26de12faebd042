#!/usr/bin/env python3
"""Compares lrup-solve's time with CaDiCaL's, and prints the ratios as tables in Markdown.

    table.py [OPTIONS] SOLVE LRUPD

    --rounds N              how many times each runs, 3 by default; the medians count. 0 only
                            prints FILE's results
    --results FILE          keep each run's result there, and continue from those that it has: a
                            call may be stopped at any time
    --formulas NAME,..      only these: a family's name, a formula's words, or its first word
    --engines N,..          the numbers of engines, 1,2,4 by default
    --others CORES          repeat runs during which other work used more cores, and wait for a
                            quieter moment before each turn
    --limit SECONDS         the time limit of a run, 600 by default
    --svg FILE              draw the first table
    --easy                  easy.py's formulas, which CaDiCaL refutes at once
    --work FOLDER           keep the formulas there

`cadical -q` solves each formula without a proof, and lrup-solve with each number of engines, in
turn. Time by the clock means little if other work uses the cores, so the last column has the most
cores that other work used. 'Longest part' is the processor time of the engine or filter that took
the most: no run takes less, on any number of cores. 'All' is the sum over all processes. Both are
relative to CaDiCaL's processor time. Needs Python 3 on Linux, and `cadical` on the PATH."""
import argparse
import math
import os
import statistics
import subprocess
import sys
import tempfile
import time
from functools import lru_cache, partial
from typing import Callable, Dict, List, Optional

sys.dont_write_bytecode = True
import chart
import formulas
from runs import ALONE, UNSATISFIABLE, Bench, Formula, Result, others_now, stop_gently

HERE = os.path.dirname(os.path.abspath(__file__))
CORES = os.cpu_count() or 1
EASY = "easy"
TIMES, SECONDS = 3, 0.2     # the limit for easy formulas: CaDiCaL's time, times TIMES, plus SECONDS
MEASURES = {"By the clock": "clock", "Longest part": "path", "All": "processor"}
SHARES = {"Verdict after, s": "verdict", "`lrupd` by engines": "lrupd",
          "Filters by engines": "filters"}
Medians = Dict[int, Optional[Result]]
Cells = List[Optional[float]]


def arguments() -> argparse.Namespace:
    parser = argparse.ArgumentParser(description=__doc__,
                                     formatter_class=argparse.RawDescriptionHelpFormatter)
    for name, usual in (("--rounds", 3), ("--limit", 600), ("--others", math.inf)):
        parser.add_argument(name, type=type(usual), default=usual)
    for name, word in (("--results", ""), ("--formulas", ""), ("--engines", "1,2,4"),
                       ("--svg", ""), ("--work", "")):
        parser.add_argument(name, default=word)
    parser.add_argument("--easy", action="store_true")
    parser.add_argument("solve")
    parser.add_argument("lrupd")
    given = parser.parse_args()
    given.engines = [int(count) for count in given.engines.split(",")]
    given.formulas = [name for name in given.formulas.split(",") if name]
    return given


def chosen(given: argparse.Namespace) -> List[Formula]:
    if given.easy:
        import easy
        every = [Formula(words, words, EASY) for words in easy.FORMULAS]
    else:
        every = [Formula(words, title, family) for family, its in formulas.FAMILIES.items()
                 for words, title in its]
    wanted = set(given.formulas)
    found = [one for one in every if not wanted
             or wanted & {one.family, one.words, one.words.split()[0]}]
    return found or sys.exit(f"no formula is called {' or '.join(given.formulas)}")


@lru_cache
def make(formula: Formula, folder: str) -> str:
    """The formula's path; empty if it can't be made, e.g. without yosys."""
    path = os.path.join(folder, formula.words.replace(" ", "-") + ".cnf")
    script = "easy.py" if formula.family == EASY else "formulas.py"
    with open(path, "w") as out:
        made = subprocess.run(
            [sys.executable, os.path.join(HERE, script), *formula.words.split()], stdout=out)
    return path if made.returncode == 0 else ""


def wait_for_quiet(most: float) -> float:
    """Waits until other work uses at most `most` cores. Returns how many it uses."""
    others = others_now()
    if others > most:
        print(f"other work has {others:.1f} of {CORES} cores: waiting", file=sys.stderr)
    while others > most:
        time.sleep(5)
        others = others_now()
    return others


def measure(given: argparse.Namespace, bench: Bench, every: List[Formula], folder: str) -> None:
    for turn in range(1, given.rounds + 1):
        for formula in every:
            missing = [engines for engines in [ALONE, *given.engines]
                       if len(bench.of(formula, engines, given.others)) < turn]
            if not missing:
                continue
            path = make(formula, folder)
            if not path:
                print(f"{formula.words} can't be made, and is left out", file=sys.stderr)
                continue
            print(f"round {turn}, {formula.words}: other work has "
                  f"{wait_for_quiet(given.others):.1f} of {CORES} cores",
                  file=sys.stderr)
            for engines in missing:
                result = bench.measure(formula, path, engines)
                print(f"    {engines or 'CaDiCaL alone'}: {result.clock:.2f} s by the clock, "
                      f"{result.processor:.2f} of processor time; other work had "
                      f"{result.others:.1f} cores",
                      file=sys.stderr)


def median(results: List[Result]) -> Optional[Result]:
    """The medians of the runs; None if there is no run, or if any run found no answer."""
    if not results or any(result.status != UNSATISFIABLE for result in results):
        return None
    middle = {name: statistics.median(getattr(result, name) for result in results)
              for name in Result._fields[4:]}
    return Result(results[0].words, results[0].engines, UNSATISFIABLE,
                  max(result.others for result in results), **middle)


def shown(value: Optional[float], digits: int = 2) -> str:
    return "-" if value is None else f"{value:.{digits}f}"


def line(*cells: str) -> None:
    print("| " + " | ".join(cells) + " |")


def head(*cells: str) -> None:
    line(*cells)
    print("|" + "---|" * len(cells))


def counted(engines: int) -> str:
    return f"{engines} engine" + "s" * (engines > 1)


def ratio(medians: Medians, engines: int, name: str) -> Optional[float]:
    alone, its = medians[ALONE], medians[engines]
    return (max(getattr(its, name), 0.01) / max(getattr(alone, name), 0.01)
            if alone and its else None)


def mean(medians: List[Medians], engines: int, name: str) -> Optional[float]:
    ratios = [value for its in medians if (value := ratio(its, engines, name)) is not None]
    return statistics.geometric_mean(ratios) if ratios else None


def over_all(rows: List[Cells], of: Callable[[List[float]], float]) -> List[str]:
    """The figure of each column, over all rows."""
    columns = [[value for value in column if value is not None] for column in zip(*rows)]
    return [shown(of(column) if column else None) for column in columns]


def most_others(medians: Medians) -> Optional[float]:
    return max((one.others for one in medians.values() if one), default=None)


def times(engines: List[int], every: List[Formula], medians: List[Medians]) -> None:
    columns = [(count, title) for count in engines for title in MEASURES]
    titles = [f"{counted(count)}: {title.lower()}" if title == "By the clock" else title
              for count, title in columns]
    head("Formula", "CaDiCaL alone: by the clock, s", "Processor time, s", *titles,
         "Other work, cores")
    rows = [[ratio(its, count, MEASURES[title]) for count, title in columns] for its in medians]
    for formula, its, cells in zip(every, medians, rows):
        alone = its[ALONE]
        seconds: Cells = [alone.clock, alone.processor] if alone else [None, None]
        line(f"{formula.family}: {formula.title}", *(shown(value, 1) for value in seconds),
             *map(shown, cells), shown(most_others(its), 1))
    line("**geometric mean**", "", "",
         *(shown(mean(medians, count, MEASURES[title])) for count, title in columns), "")
    line("**worst**", "", "", *over_all(rows, max), "")


def shares(engines: List[int], every: List[Formula], medians: List[Medians]) -> None:
    """Prints how late the verdict comes, and the processor time of filters and lrupd relative to
    the engines', for each number of engines."""
    head(f"Formula; engines: {', '.join(map(str, engines))}", *SHARES)
    rows: List[Cells] = []
    for formula, its in zip(every, medians):
        ends = [(its[count], name) for name in SHARES.values() for count in engines]
        rows.append([getattr(one, name) if one else None for one, name in ends])
        line(f"{formula.family}: {formula.title}",
             *together(list(map(shown, rows[-1])), len(engines)))
    line("**median**", *together(over_all(rows, statistics.median), len(engines)))
    line("**most**", *together(over_all(rows, max), len(engines)))


def together(cells: List[str], count: int) -> List[str]:
    """Joins every `count` cells into one."""
    return [", ".join(cells[place:place + count]) for place in range(0, len(cells), count)]


def cheap(alone: Optional[Result], its: Optional[Result]) -> bool:
    return (alone is not None and its is not None
            and its.processor <= TIMES * alone.processor + SECONDS)


def easy_times(engines: List[int], every: List[Formula], medians: List[Medians]) -> None:
    """Prints seconds, since ratios mean little below a tenth of one."""
    head("Formula", "CaDiCaL alone: processor time, s",
         *(f"{counted(count)}: all processes, s" for count in engines),
         *(f"{counted(count)}: by the clock, s" for count in engines), "Other work, cores")
    for formula, its in zip(every, medians):
        alone, ends = its[ALONE], [its[count] for count in engines]
        cells = [getattr(one, name) if one else None for name in ("processor", "clock")
                 for one in ends]
        line(formula.title, shown(alone.processor if alone else None), *map(shown, cells),
             shown(most_others(its), 1))
    for count in engines:
        good = [cheap(its[ALONE], its[count]) for its in medians if its[ALONE]]
        print(f"\n{counted(count)}: {sum(good)} of {len(good)} take at most {TIMES} times "
              f"CaDiCaL's processor time and {SECONDS} s.")


def note(given: argparse.Namespace, bench: Bench, every: List[Formula],
         medians: List[Medians]) -> str:
    """Describes the runs whose medians the table shows."""
    counts = [len(bench.of(formula, engines, given.others)) for formula in every
              for engines in (ALONE, *given.engines)]
    runs = (f"{max(counts)} runs" if min(counts) == max(counts)
            else f"{min(counts)} to {max(counts)} runs")
    others = max(most_others(its) or 0 for its in medians)
    return (f"{'one run' if max(counts) == 1 else 'medians of ' + runs}, on {CORES} cores, of "
            f"which other work had at most {others:.1f}")


def panels_of(engines: List[int],
              of: Callable[[int, str], Optional[float]]) -> List[Dict[int, float]]:
    """For each measure, a dot for each number of engines that has a value."""
    panels = [{count: of(count, name) for count in engines} for name in MEASURES.values()]
    return [{count: value for count, value in panel.items() if value is not None}
            for panel in panels]


def draw(path: str, engines: List[int], every: List[Formula], medians: List[Medians],
         said: str) -> None:
    rows: List[chart.Row] = []
    family = ""
    for formula, its in zip(every, medians):
        if formula.family != family:
            family = formula.family
            rows.append(chart.Row(family, []))
        rows.append(chart.Row(formula.title, panels_of(engines, partial(ratio, its))))
    rows += [chart.Row("all", []),
             chart.Row("geometric mean", panels_of(engines, partial(mean, medians)))]
    titles = ["by the clock", "processor time: longest part", "processor time: all"]
    with open(path, "w") as out:
        out.write(chart.chart(rows, titles, engines, said))


def main() -> None:
    given = arguments()
    stop_gently()
    every = chosen(given)
    bench = Bench(given.solve, given.lrupd, given.limit, given.results)
    with tempfile.TemporaryDirectory() as temporary:
        folder = given.work or temporary
        os.makedirs(folder, exist_ok=True)
        measure(given, bench, every, folder)
    medians = [{engines: median(bench.of(formula, engines, given.others))
                for engines in (ALONE, *given.engines)} for formula in every]
    said = note(given, bench, every, medians)
    if given.easy:
        easy_times(given.engines, every, medians)
    else:
        times(given.engines, every, medians)
        print()
        shares(given.engines, every, medians)
    print(f"\n{said[0].upper()}{said[1:]}.")
    if given.svg:
        draw(given.svg, given.engines, every, medians, said)


if __name__ == "__main__":
    main()
