"""Limits of processes and memory, in which hostile programs, mutants and attacks run."""
import contextlib
import itertools
import os
import resource
import signal
import time
from pathlib import Path
from typing import Callable, Iterator, List, NamedTuple

import pytest

GROUPS = Path("/sys/fs/cgroup")
numbers = itertools.count()


class Limited(NamedTuple):
    """`join` puts its caller, and the children that it will have, under the limits; `processes` are
    the ids of all that has joined and still runs."""
    join: Callable[[], None]
    processes: Callable[[], List[int]]


def new_groups(processes: int, memory: int) -> List[Path]:
    """Control groups of version 2 or 1 that limit processes and, if possible, memory; none if this
    process may make none."""
    found: List[Path] = []
    name = f"lrup-{os.getpid()}-{next(numbers)}"
    for place, limit, most in ((GROUPS, "pids.max", processes), (GROUPS, "memory.max", memory),
                               (GROUPS / "pids", "pids.max", processes),
                               (GROUPS / "memory", "memory.limit_in_bytes", memory)):
        group = place / name
        try:
            group.mkdir(exist_ok=True)
            with open(group / limit, "r+") as file:
                file.write(str(most))
        except OSError:
            if group not in found:
                with contextlib.suppress(OSError):
                    group.rmdir()
            continue
        if group not in found:
            found.append(group)
    return found if any((group / "pids.max").exists() for group in found) else []


def members(group: Path) -> List[int]:
    return [int(word) for word in (group / "cgroup.procs").read_text().split()]


def end_groups(groups: List[Path]) -> None:
    end = time.monotonic() + 20
    for group in groups:
        with contextlib.suppress(OSError):      # it may limit only memory
            (group / "pids.max").write_text("0")
        while True:
            for pid in members(group):
                with contextlib.suppress(ProcessLookupError):
                    os.kill(pid, signal.SIGKILL)
            try:
                group.rmdir()
                break
            except OSError:
                assert time.monotonic() < end, f"processes are left: {members(group)}"
                time.sleep(0.01)


def processes_of_user(user: int) -> List[int]:
    found = []
    for place in Path("/proc").glob("[0-9]*"):
        with contextlib.suppress(OSError):
            if place.stat().st_uid == user:
                found.append(int(place.name))
    return found


@contextlib.contextmanager
def limited(work: Path, processes: int = 300, memory: int = 4 << 30) -> Iterator[Limited]:
    """Limits processes by a control group or, if there is none, by a user of their own, who gets
    this folder. At the end all are killed."""
    groups = new_groups(processes, memory)
    if groups:
        def join() -> None:
            resource.setrlimit(resource.RLIMIT_AS, (memory, memory))
            for group in groups:
                (group / "cgroup.procs").write_text(str(os.getpid()))

        try:
            yield Limited(join, lambda: members(groups[0]))
        finally:
            end_groups(groups)
        return
    if os.getuid() != 0:
        pytest.skip("no control group, and no user of its own, limits processes")
    user = 100000 + os.getpid()
    for path in (work, *work.rglob("*")):
        os.chown(path, user, user, follow_symlinks=False)

    def become() -> None:
        resource.setrlimit(resource.RLIMIT_AS, (memory, memory))
        resource.setrlimit(resource.RLIMIT_NPROC, (processes, processes))
        os.setgid(user)
        os.setuid(user)

    try:
        yield Limited(become, lambda: processes_of_user(user))
    finally:
        if os.fork() == 0:
            os.setuid(user)
            os.kill(-1, signal.SIGKILL)
            os._exit(0)
        os.wait()
