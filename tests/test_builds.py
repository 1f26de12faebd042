"""What make builds and installs: the compilers' commands, with flags from the command line and from
the environment; what is compiled again after a change; and the installed files."""
import os
import re
import shutil
import stat
from pathlib import Path
from typing import Dict, List, Sequence, Set

import pytest

from harness import (BUILDS, EXPLAIN, FILTER, LIMIT, ROOT, TRIM, VERSION, Ran, alone, executable,
                     named, needs, output_of, run, sanitized)
from solving import built

C = {"CC": "one-cc", "CFLAGS": "-DFLAG_OF_C", "CPPFLAGS": "-DFLAG_OF_BOTH", "LDFLAGS": "-Lflag",
     "LDLIBS": "-lflag"}
WORDS = {**C, "CXX": "one-cxx", "CXXFLAGS": "-DFLAG_OF_CXX"}
# Targets, and the commands that compile and link their C and C++ programs.
TARGETS = {"exact": ["one-cc"], "trim": ["one-cc"], "solver": ["one-cc"],
          "solve": ["one-cc", "one-cxx"], "solve-mpi": ["one-cc", "one-cxx", "mpicxx"]}


def clean(more: Dict[str, str]) -> Dict[str, str]:
    """The environment, without variables of a make that may have started this script."""
    return {**{name: value for name, value in os.environ.items()
               if name not in (*WORDS, "MAKEFLAGS", "MAKELEVEL", "MFLAGS")}, **more}


def commands(target: str, words: Sequence[str], env: Dict[str, str]) -> List[List[str]]:
    """The compilers' commands that make would run if nothing were built."""
    made = run(["make", "-n", "-C", ROOT, target, "OUT=out/none", *words], env=clean(env))
    found = [re.split(r" && |; ", line) for line in output_of(made).splitlines()]
    return [words for line in found for part in line for words in [part.split()]
            if " -o " in part and words]


@pytest.mark.parametrize("target", TARGETS)
@pytest.mark.parametrize("by", ["environment", "command line"])
def test_given_flags(target: str, by: str) -> None:
    """Each command has its language's flags, but no flags of another language, and no -O2."""
    words = [f"{name}={value}" for name, value in WORDS.items()]
    found = commands(target, [], WORDS) if by == "environment" else commands(target, words, {})
    compilers = {word for line in found for word in line[:2]
                 if "=" not in word and not word.startswith("-")}
    assert compilers == set(TARGETS[target])
    for line in found:
        is_c, links = line[0] == "one-cc", "-c" not in line
        flags = {word for word in line if word in WORDS.values()} - {"one-cc", "one-cxx"}
        wanted = {WORDS["CFLAGS" if is_c else "CXXFLAGS"],
                  *([C["LDFLAGS"], C["LDLIBS"]] if links else [C["CPPFLAGS"]])}
        assert flags == wanted, line
        assert "-O2" not in line


@pytest.mark.parametrize("target", TARGETS)
def test_usual_flags(target: str) -> None:
    """By default each command has -O2."""
    for line in commands(target, [], {}):
        assert "-O2" in line


# Flags that protect the front.
STACK, BUFFERS, ANYWHERE = "-fstack-protector-strong", "-D_FORTIFY_SOURCE=2", "-fPIE"
TABLES = "-Wl,-z,relro,-z,now"


@pytest.mark.parametrize("user, compiling, linking", [
    *((user, {STACK, BUFFERS, ANYWHERE}, {TABLES, "-pie"})
      for user in ("-O2", "-O3 -g", "-O0 -O1", "-O2 -fno-stack-protector")),
    *((user, {STACK, ANYWHERE}, {TABLES, "-pie"})
      for user in ("-O0", "-O2 -O0", "-g", "-O1 -D_FORTIFY_SOURCE=3", "-O1 -U_FORTIFY_SOURCE")),
    *((user, {STACK, BUFFERS}, {TABLES})
      for user in ("-O2 -static", "-O2 -no-pie", "-O2 -fno-pie"))],
    ids=lambda value: value if isinstance(value, str) else "")
def test_the_fronts_flags(user: str, compiling: Set[str], linking: Set[str]) -> None:
    """With CFLAGS of the user, the commands of lrup-solve's front and of lrup-check, and no others,
    have these flags. The user's come later, and so win."""
    every = {STACK, BUFFERS, ANYWHERE, TABLES, "-pie"}
    for line in commands("solve", [f"CFLAGS={user}", "CXXFLAGS=-O2"], {}):
        is_front = any(re.search("/lrup-(solve|check)/", word) for word in line)
        found = [word for word in line if word in every]
        wanted = (compiling if "-c" in line else linking) if is_front else set()
        assert set(found) == wanted, line
        if found:
            last = max(map(line.index, found))
            assert user.split()[-1] in line[last + 1:]


def test_the_front_is_protected(tmp_path: Path) -> None:
    """The front is loaded anywhere, with its tables read-only, and checks its stack and buffers."""
    needs("readelf")
    front = tmp_path / "lrup-solve"
    output_of(run(["make", "-s", "-C", ROOT, f"SOLVE={front}", f"OBJECTS={tmp_path}/objects",
                   front], env=clean({})))
    found = run(["readelf", "-W", "-hlds", front]).out
    for pattern in (r"Type:\s+DYN", "GNU_RELRO", r"FLAGS.*\bNOW\b", "__stack_chk_fail",
                    r"__\w+_chk\b"):
        assert re.search(pattern, found), pattern


# Recompilation.


def compiled(tree: Path, words: Sequence[str] = ()) -> Set[str]:
    """The sources that make has compiled, and the program if it was linked."""
    def files() -> Dict[Path, int]:
        return {path: path.stat().st_mtime_ns
                for path in [*tree.rglob("*.o"), *tree.rglob("bin/lrup-exact")]}
    before = files()
    done = run(["make", "-s", "-j2", "exact", "CFLAGS=-O0", *words], cwd=tree, env=clean({}))
    assert (done.out, done.err, done.status) == ("", "", 0)
    return {path.stem for path, time in files().items() if before.get(path) != time}


def including(header: str, tools: Path) -> Set[str]:
    """The sources that include the header, directly or not."""
    found = {header}
    while True:
        more = {path.name for path in tools.glob("*/*.[ch]")
                if any(f'"{name}"' in path.read_text() for name in found)} - found
        if not more:
            return {name[:-2] for name in found if name.endswith(".c")} - {"lines"}
        found |= more


@pytest.fixture
def tree(tmp_path: Path) -> Path:
    """A copy of what lrup-exact is built from."""
    for name in ("build", "lib", "filter", "lrup-exact"):
        shutil.copytree(ROOT / "tools" / name, tmp_path / "tools" / name)
    (tmp_path / "man").mkdir()
    for name in ("Makefile", "VERSION", "man/lrup-exact.1"):
        shutil.copy(ROOT / name, tmp_path / name)
    return tmp_path


def test_what_is_compiled_again(tree: Path) -> None:
    tools = tree / "tools"
    every = {path.stem for path in tools.glob("*/*.c")} - {"lines"} | {"lrup-exact"}
    assert compiled(tree) == every
    assert compiled(tree) == set()
    for name in ("filter/hints.h", "lib/errors.h", "filter/lemmas.h"):
        (tools / name).touch()
        assert compiled(tree) == including(Path(name).name, tools) | {"lrup-exact"}
    (tools / "lib" / "words.c").touch()
    assert compiled(tree) == {"words", "lrup-exact"}
    # A header is renamed.
    (tools / "filter" / "lemmas.h").rename(tools / "filter" / "other.h")
    for path in tools.glob("*/*.c"):
        path.write_text(path.read_text().replace('"lemmas.h"', '"other.h"'))
    assert compiled(tree) == every
    # Flags and libraries change.
    assert compiled(tree, ["CPPFLAGS=-DOTHER"]) == every
    assert compiled(tree, ["CPPFLAGS=-DOTHER"]) == set()
    assert "lrup-exact" in compiled(tree, ["CPPFLAGS=-DOTHER", "LDLIBS=-lm"])


# Installed files.


def in_its_build(words: Sequence[object], umask: int = -1) -> Ran:
    """Runs make, without the toolchain, in a build of its own."""
    place = BUILDS / "installed"
    given = [f"OUT={place}", "PREFIX=/usr", "RT=none", "CFLAGS=-O0", "CXXFLAGS=-O0", *words]
    with alone(place / "lock"):
        return run(["make", "-s", f"-j{os.cpu_count()}", "-C", ROOT, *given], limit=2 * LIMIT,
                   env=clean({}), umask=umask)


def test_install_and_uninstall(tmp_path: Path) -> None:
    """Installs built programs without the toolchain. `make -n install` changes nothing; `make
    install` installs each program, with a manual page and a completion, the pages and the
    examples. Uninstalling leaves nothing. A missing program is reported."""
    program, model = (executable(f"echo 'usage: {usage}'", tmp_path, usage.split()[0])
                      for usage in ("lrupd [--lines N] [--help]", "lrup-model [--assume FILE]"))
    place = tmp_path / "a place"

    def files() -> List[Path]:
        return [path for path in place.rglob("*") if path.is_file()]

    def make(*more: str) -> Ran:
        return in_its_build([*more, f"DESTDIR={place}"])
    assert make("-n", "install", f"PROGRAM={program}").status == 0
    assert not place.exists()
    said = output_of(make("install", f"PROGRAM={program}"))
    pages = place / "usr/share/doc/lrupd"
    for name in ("README.md", "USING.md", "examples/fifo/bmc.sh", "examples/bmc.cnf"):
        assert (pages / name).is_file()
    solving = {"lrup-solve", "lrup-check"} if "left out" not in said else set()
    names = {"lrupd", "lrup-model", "lrup-recheck", "lrup-exact", "lrup-trim",
             "lrup-explain"} | solving
    wanted = {f"usr/{form.format(name)}" for name in names for form in
              ("bin/{}", "share/man/man1/{}.1", "share/bash-completion/completions/{}")}
    found = {str(path.relative_to(place)) for path in files() if pages not in path.parents}
    assert found - {"usr/libexec/lrupd/lrup-engines"} == wanted
    completion = (place / "usr/share/bash-completion/completions/lrupd").read_text()
    assert '-W "--help --lines"' in completion
    done = run([place / "usr/bin/lrup-recheck", "--version"])
    assert (done.err, done.status) == (f"lrup-recheck {VERSION}\n", 2)
    assert make("uninstall").err == ""
    assert files() == []
    model.unlink()
    for given, missing in ((tmp_path / "none", tmp_path / "none"), (program, model)):
        done = make("install", f"PROGRAM={given}")
        assert done.status == 2
        assert f"{missing} isn't built" in done.out


def put(place: Path, umask: int = -1) -> None:
    """Installs what is built; the filter stands for the proved programs."""
    output_of(in_its_build(["install", f"PROGRAM={FILTER}", f"MODEL={FILTER}", f"DESTDIR={place}"],
                           umask))


def packed(place: Path, umask: int = -1) -> Path:
    """The Debian package of what is installed there."""
    for command in ("dpkg-deb", "dpkg-shlibdeps"):
        needs(command)
    done = run(["sh", ROOT / "tools" / "build" / "deb.sh", place, "1"], umask=umask)
    assert done.status == 0, done.err
    (package,) = place.parent.glob("*.deb")
    return package


@pytest.mark.parametrize("umask", [0o000, 0o077], ids=["umask 000", "umask 077"])
def test_modes(umask: int, tmp_path: Path) -> None:
    """Whatever the umask, all may read what is installed and packed, and run programs, and only the
    owner may write it."""
    place, pages = tmp_path / "some" / "place", Path("usr/share/doc/lrupd")
    put(place, umask)
    programs = {path for folder in ("usr/bin", "usr/libexec/lrupd")
                for path in (place / folder).iterdir()}
    scripts = {place / pages / path.relative_to(ROOT) for path in (ROOT / "examples").rglob("*")
               if os.access(path, os.X_OK)}
    paths = [place.parent, *place.parent.rglob("*")]
    assert len(paths) > 100
    wrong = {path: oct(mode) for path in paths for mode in [stat.S_IMODE(path.stat().st_mode)]
             if mode != (0o755 if path.is_dir() or path in programs | scripts else 0o644)}
    assert wrong == {}
    package = packed(place, umask)
    assert stat.S_IMODE(package.stat().st_mode) == 0o644
    modes = [line.split()[0] for line in output_of(run(["dpkg-deb", "-c", package])).splitlines()]
    assert len(modes) > 100
    assert set(modes) == {"drwxr-xr-x", "-rwxr-xr-x", "-rw-r--r--"}


def test_a_folder_keeps_its_mode(tmp_path: Path) -> None:
    """As that of /usr/local/bin, in which a group may write on many machines."""
    folder = tmp_path / "usr" / "bin"
    folder.mkdir(parents=True)
    folder.chmod(0o2775)
    put(tmp_path)
    assert (folder / "lrupd").is_file()
    assert stat.S_IMODE(folder.stat().st_mode) == 0o2775


def test_the_packages_links(tmp_path: Path) -> None:
    """Each link on the package's pages leads to a file in the package."""
    place = tmp_path / "package"
    put(place)
    packed(place)
    links = [(page, target) for page in (place / "usr/share/doc/lrupd").glob("**/*.md")
             for target in re.findall(r"\]\(([^)#]+)", page.read_text())]
    assert len(links) > 10
    for page, target in links:
        assert target.startswith("http") or (page.parent / target).exists(), page


# Missing libraries.

# A compiler that finds a library once its package is installed, and makes programs that do nothing.
FALSE_COMPILER = """\
top=$(dirname "$0")
case "$*" in
    *sha256.h*) exec test -e "$top/libmd-dev" ;;
    *cadical.hpp*) exec test -e "$top/libcadical-dev" ;;
esac
while [ "$1" != -o ]; do shift; done
cp "$top/it" "$2"
"""
FALSE_APT = """\
top=$(dirname "$0")
echo "$*" >> "$top/asked"
[ "$(id -u)" = 0 ] || [ -n "$BY_SUDO" ] || exit 100
[ -e "$top/online" ] || { echo "E: Unable to fetch" >&2; exit 100; }
[ "$1" != install ] || for word; do
    case $word in lib*) touch "$top/$word" ;; esac
done
"""
FALSE_COMMANDS = {"cc": FALSE_COMPILER, "apt-get": FALSE_APT, "dpkg-query": "exit 1",
                  "it": 'echo "usage: it [--help]"'}
SUDO = 'BY_SUDO=yes exec "$@"'
ALL_TOOLS = ["lrup-check", "lrup-explain", "lrup-solve", "lrup-trim"]
ALL_PACKAGES = "libmd-dev libcadical-dev"
NO_CADICAL = ["lrup-explain", "lrup-trim"]


def machine(folder: Path, user: str, there: str) -> Path:
    """A folder that has all commands, and may stand for PATH on a machine of this user, with these
    packages."""
    folder.mkdir()
    for place in reversed(os.environ["PATH"].split(":")):
        for path in Path(place).glob("*"):
            if path.name not in ("sudo", "su", "id", *FALSE_COMMANDS):
                (folder / path.name).unlink(missing_ok=True)
                (folder / path.name).symlink_to(path)
    for name, text in FALSE_COMMANDS.items():
        executable(text, folder, name)
    executable(f"echo {0 if user == 'root' else 1000}", folder, "id")
    if user == "sudo":
        executable(SUDO, folder, "sudo")
    for name in there.split():
        (folder / name).touch()
    return folder


@pytest.mark.parametrize("user, there, words, asked, tools, adding", named([
    ("root", "root", "online", [], ALL_PACKAGES, ALL_TOOLS, ""),
    ("root, offline", "root", "", [], ALL_PACKAGES, [],
     f"apt-get install {ALL_PACKAGES} && make install"),
    ("root, one library", "root", "online libmd-dev", [], "libcadical-dev", ALL_TOOLS, ""),
    ("root, both libraries", "root", "online libmd-dev libcadical-dev", [], "", ALL_TOOLS, ""),
    ("root, in CI", "root", "", ["CI=yes"], ALL_PACKAGES, [],
     f"apt-get install {ALL_PACKAGES} && make install"),
    ("no C++", "root", "online libmd-dev", ["CXX=none"], "libcadical-dev g++", NO_CADICAL,
     "apt-get install libcadical-dev g++ && make install"),
    ("a packager", "root", "online", ["DESTDIR=/"], "", [],
     f"apt-get install {ALL_PACKAGES} && make install DESTDIR=/"),
    ("sudo", "sudo", "online", [], ALL_PACKAGES, ALL_TOOLS, ""),
    ("sudo, offline", "sudo", "", [], ALL_PACKAGES, [],
     f"sudo apt-get install {ALL_PACKAGES} && make install"),
    ("a user", "user", "online", [], "", [],
     f"su -c 'apt-get install {ALL_PACKAGES}' && make install"),
    ("a user, one library", "user", "online libmd-dev", [], "", NO_CADICAL,
     "su -c 'apt-get install libcadical-dev' && make install")]))
def test_missing_libraries(user: str, there: str, words: List[str], asked: str, tools: List[str],
                           adding: str, tmp_path: Path) -> None:
    """make install installs packages where it may, unless they are there, or a packager runs it.
    What can't be built is left out, and the last line is the command that adds it."""
    path, prefix = machine(tmp_path / "commands", user, there), tmp_path / "prefix"
    given = {"RT": "none", "OUT": tmp_path / "out", "CC": path / "cc", "CXX": path / "cc",
             "PROGRAM": path / "it", "MODEL": path / "it", "PREFIX": prefix}
    done = run(["make", "-s", "-C", ROOT, *(f"{name}={value}" for name, value in given.items()),
                *words, "install"], env={**clean({"PATH": str(path)}), "CI": ""})
    said = output_of(done).splitlines()
    done_by_apt = path / "asked"
    assert (done_by_apt.read_text() if done_by_apt.exists() else "") == (
        f"update -qq\ninstall -y --no-install-recommends {asked} -qq\n" if asked else "")
    found = {tool.name for tool in (prefix / "bin").iterdir()}
    assert sorted(found & {*ALL_TOOLS}) == tools
    assert said[-2:] == ([f"left out: {' '.join(sorted({*ALL_TOOLS} - found))}. This adds them:",
                          f"    {adding} PREFIX={prefix}"] if adding else said[-2:])
    assert ("left out" in done.out) == bool(adding)


def test_a_package_asks_for_no_other(tmp_path: Path) -> None:
    """make deb installs no libraries, either."""
    path = machine(tmp_path / "commands", "root", "online")
    done = run(["make", "-n", "-C", ROOT, "RT=none", f"CC={path}/cc", f"CXX={path}/cc", "deb"],
               env=clean({"PATH": str(path)}))
    assert "deb.sh" in output_of(done)
    assert "packages.sh" not in done.out


def test_builds_for_tests() -> None:
    """What other tests run is built now: while lrupd is being proved, they can't run."""
    built("solve", for_tests=True)
    for tool in (FILTER, TRIM, EXPLAIN):
        assert sanitized(tool).is_file()
