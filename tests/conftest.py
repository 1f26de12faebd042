"""Options, fixtures and hooks of all tests of programs."""
import difflib
import itertools
import os
import sys
import tempfile
import time
from pathlib import Path
from typing import Any, Generator, Iterator, List, Optional, Tuple, Union

import pytest

SUPPORT = Path(__file__).with_name("support")
sys.path.insert(0, str(SUPPORT))
pytest.register_assert_rewrite(*(path.stem for path in SUPPORT.glob("*.py")))
import harness

LONG = 300      # characters of a line that a failure shows
# pytest cuts what it says about a failed assertion, unless this is set, as in CI.
os.environ.setdefault("BUILD_NUMBER", "none")


def pytest_addoption(parser: pytest.Parser) -> None:
    given = parser.getgroup("lrupd")
    given.addoption("--program", default=str(harness.BIN / "lrupd"),
                    help="the lrupd that is tested, and beside it lrup-model")
    given.addoption("--rt", help="Rattle's command, for the crates' tests if they aren't built")
    given.addoption("--flags", default=harness.USUAL_FLAGS,
                    help="flags for lrup-solve's compilers, such as "
                    "--flags='-O1 -g -fsanitize=thread'")
    given.addoption("--count", type=int, help="how many seeds a random test has, or how many "
                    "mutants a file")
    given.addoption("--first", type=int, default=0, help="the first mutant of a proof")
    given.addoption("--part", default="1/1", metavar="K/N",
                    help="only each N-th test, from the K-th on")
    given.addoption("--seed", type=int, default=1,
                    help="the first seed of test_lrup_solve_days and test_lrup_solve_attack")
    given.addoption("--minutes", type=float, default=0, help="how long these two last")


def pytest_configure(config: pytest.Config) -> None:
    """Puts the options into harness, where modules find them on import."""
    harness.PROGRAM = os.path.abspath(config.getoption("program"))
    harness.MODEL = os.path.join(os.path.dirname(harness.PROGRAM), "lrup-model")
    for name in ("rt", "flags", "count", "first", "seed", "minutes"):
        setattr(harness, name.upper(), config.getoption(name))


def pytest_generate_tests(metafunc: pytest.Metafunc) -> None:
    """Runs a test with the mark seeds(COUNT) for each seed below COUNT, or --count."""
    mark = metafunc.definition.get_closest_marker("seeds")
    if mark:
        count = metafunc.config.getoption("count")
        metafunc.parametrize("seed", range(mark.args[0] if count is None else count))


@pytest.fixture
def in_time(request: pytest.FixtureRequest) -> None:
    """With --minutes, no test but the first begins after that time."""
    session, minutes = request.session, harness.MINUTES
    is_first = request.node is session.items[0]
    if minutes and not is_first and time.monotonic() > harness.BEGUN + 60 * minutes:
        session.shouldstop = f"{minutes} minutes have passed"
        pytest.skip(f"{minutes} minutes have passed")


@pytest.hookimpl(trylast=True)  # type: ignore[misc]
def pytest_collection_modifyitems(config: pytest.Config, items: List[pytest.Item]) -> None:
    """Leaves the tests of --part, once others have been left out."""
    part, parts = map(int, config.getoption("part").split("/"))
    chosen, others = items[part - 1::parts], items[:]
    del others[part - 1::parts]
    config.hook.pytest_deselected(items=others)
    items[:] = chosen


Reported = Generator[None, Any, None]


@pytest.hookimpl(hookwrapper=True)  # type: ignore[misc]
def pytest_runtest_makereport() -> Reported:
    outcome = yield
    report = outcome.get_result()
    fail_if_skipped_in_ci(report)
    crash = getattr(report.longrepr, "reprcrash", None)
    if crash:   # the summary has a line for each failure
        crash.message = crash.message.partition("\n")[0]


@pytest.hookimpl(hookwrapper=True)  # type: ignore[misc]
def pytest_report_to_serializable() -> Reported:
    """Workers of xdist can't send what isn't Unicode, such as a program's bytes in a message."""
    outcome = yield
    outcome.force_result(as_unicode(outcome.get_result()))


def as_unicode(value: Any) -> Any:
    if isinstance(value, str):
        return value.encode(errors="backslashreplace").decode()
    if isinstance(value, dict):
        return {key: as_unicode(one) for key, one in value.items()}
    if isinstance(value, (list, tuple)):
        return type(value)(map(as_unicode, value))
    return value


@pytest.hookimpl(hookwrapper=True)  # type: ignore[misc]
def pytest_make_collect_report() -> Reported:
    outcome = yield
    fail_if_skipped_in_ci(outcome.get_result())


def fail_if_skipped_in_ci(report: Union[pytest.TestReport, pytest.CollectReport]) -> None:
    """CI installs all packages and has to run all tests, so no skip may hide one."""
    if report.skipped and harness.has_packages() and isinstance(report.longrepr, tuple):
        report.outcome = "failed"
        report.longrepr = f"skipped in CI: {report.longrepr[2]}"


def pytest_assertrepr_compare(op: str, left: object, right: object) -> Optional[List[str]]:
    """In what two runs differ: first the status and the first such line of each output, in a line
    that the summary has, too; then the lines around."""
    if op != "==" or not isinstance(left, harness.Ran) or not isinstance(right, harness.Ran):
        return None
    said: List[str] = []
    texts: List[str] = []
    if left.status != right.status:
        said.append(f"status {left.status}, not {right.status}")
    for name in ("out", "err"):
        found, wanted = (getattr(ran, name).splitlines(True) for ran in (left, right))
        lines = enumerate(itertools.zip_longest(found, wanted, fillvalue=""), 1)
        for number, (one, other) in [line for line in lines if line[1][0] != line[1][1]][:1]:
            said.append(f"{name}, line {number}: {one[:LONG]!r}, not {other[:LONG]!r}")
            around = slice(max(0, number - 5), number + 20)
            texts += difflib.ndiff(wanted[around], found[around])
    return ["; ".join(said), *(text.rstrip("\n")[:LONG] for text in texts)]


def pytest_report_teststatus(report: pytest.TestReport) -> Optional[Tuple[str, str, str]]:
    """Tests that pass are counted, but not shown."""
    return ("passed", "", "PASSED") if report.passed and report.when == "call" else None


def pytest_terminal_summary(terminalreporter: Any) -> None:
    """Says why tests were tried again."""
    for report in terminalreporter.stats.get("rerun", []):
        terminalreporter.write_line(f"{report.nodeid}, tried again: {report.longreprtext}")


@pytest.fixture(scope="session")
def program() -> str:
    """The lrupd that is tested."""
    return harness.PROGRAM


@pytest.fixture(scope="session")
def model() -> str:
    """The lrup-model that is tested."""
    return harness.MODEL


@pytest.fixture(scope="session")
def rt() -> str:
    """Rattle's command."""
    if not harness.RT:
        pytest.skip("no --rt")
    return harness.RT


@pytest.fixture
def tmp_path() -> Iterator[Path]:
    """A folder, removed when the test ends. Before version 7.3, pytest's own fixture keeps those of
    three sessions, which some tests fill with gigabytes."""
    with tempfile.TemporaryDirectory() as folder:
        yield Path(folder)


@pytest.fixture(params=[[], ["--serial"]], ids=["threads", "serial"])
def way(request: pytest.FixtureRequest) -> List[str]:
    """The two ways in which lrupd checks streams: each in threads of its own, or in turn."""
    return list(request.param)


@pytest.fixture
def much_memory() -> Iterator[None]:
    """For a test that takes up to 2 GB. No other one runs at the same time."""
    with harness.alone(harness.BUILDS / "memory.lock"):
        harness.need_much_memory()
        yield


@pytest.fixture
def mark(tmp_path: Path) -> str:
    """What the environment of each process has that the test starts."""
    import solving
    return solving.marked(tmp_path)


@pytest.fixture(scope="session")
def lrup_solve() -> None:
    """Builds lrup-solve, or says why its tests can't run."""
    import solving
    solving.built("solve", for_tests=False)


@pytest.fixture(scope="session")
def solve_for_tests() -> None:
    """Builds lrup-solve for use and for tests."""
    import solving
    solving.built("solve", for_tests=True)


def pytest_sessionfinish(session: pytest.Session) -> None:
    """A session that ends only because its --minutes have passed hasn't failed."""
    if "minutes have passed" in str(session.shouldstop) and not session.testsfailed:
        session.exitstatus = pytest.ExitCode.OK
