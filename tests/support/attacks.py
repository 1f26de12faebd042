"""Attacks on lrup-solve and lrup-check, each from a seed: a formula whose truth is known, names of
its files, words, hostile programs, calls that fail, and signals."""
import contextlib
import hashlib
import os
import random
import re
import shlex
import shutil
import signal
import stat
import subprocess
from pathlib import Path
from typing import Any, Callable, Dict, List, NamedTuple, Optional, Sequence, Set, Tuple

from harness import PROGRAM, ROOT, written
from hostile import ANY_SIGNAL, FOUND, PROOF, PROVED, UNDER, program
from hostile_programs import COMMON, PROGRAMS, PROVING, SATISFYING, programs
from records import CHANGES, with_digests
from solving import SOLVE
from truths import (MOST, Formula, few_variables, model_of, pigeons, planted, refutation, refused,
                    short_refutation)


class Option(NamedTuple):
    has_value: bool
    is_alone: bool      # lrup-check refuses it


OPTION = re.compile(r'^(FLAG|VALUES?)\(\w+, "([a-z-]+)", (?:[A-Z_]+|\'\w\'), ([01])\)', re.M)
LISTED = (ROOT / "tools" / "lrup-solve" / "options.def").read_text()
OPTIONS = {name: Option(kind != "FLAG", alone == "1")
           for kind, name, alone in OPTION.findall(LISTED)}
EXPECTED = {"unsat": PROVED, "sat": FOUND, "unsat-under-assumptions": UNDER}
LINES = ["s UNSATISFIABLE", "s SATISFIABLE", "s UNSATISFIABLE UNDER ASSUMPTIONS", "s UNKNOWN"]
PACKERS = ((".gz", "gzip"), (".xz", "xz"), (".bz2", "bzip2"), (".zst", "zstd"))
FOLDERS_ENDS = ("", "", "", "/", "//", "/.", "/./")
# Names of files and folders.
NAMES = ["formula.cnf", "a b", "line\nfeed", "-x", "--proofs", "%formula %proof", "it's $HOME `x`",
         os.fsdecode(b"\xff\x80"), "ü", "x" * 200, "..", "...", ".new", "a=b", "{}", "tab\t",
         "#1;"]
FOLDERS = ["d", "sp ace", "-d", os.fsdecode(b"\xfe"), "x" * 100, "new\nline"]
# What a record may be, beside what a user may have in its folder.
RECORDS = ["none", "empty", "foreign", "listed", "done", "begun", "changed", "of another"]
UNLISTED = ["round-1.stream-1", "report", "command", "formula.cnf", "checkpoint-2.cnf", "about"]
LISTS = ["files\n../mine\n", "files\nmine\n", "files\n/etc/hostname\n", "mine\n", "",
         "files\nround-1.stream-1\n../mine\n"]
CUBES = [b"a 1 0\na -1 0\n", b"a 1 0\n", b"a 0\n", b"p inccnf\n1 0\na 1 0\n"]
COUNTS, WRONG_COUNTS = ["1", "2", "3", "4"], ["0", "1x", "65", "-1"]     # of engines, or filters
VALUES: Dict[str, Sequence[object]] = {
    "engines": (SOLVE.with_name("lrup-engines"),), "expect": (*EXPECTED,), "filters": COUNTS,
    "memory": ("1K", "64K", "1M", "20K,100K", "1M,2M", "64M"),
    "mpi": ("env", "exec sh -c 'exit 1'"), "progress": ("json",),
    "save-every": ("0.05", "1", "300"), "seed": (0, 1, 2, 1000000000),
    "share-size": (0, 1, 4, 1000), "time": ("0.5", "3", "0.001", "100")}
WRONG_VALUES: Dict[str, Sequence[object]] = {
    "engines": ("none", "/", "/bin/true", "./none"), "expect": ("x", "s UNSATISFIABLE", "UNSAT"),
    "filters": WRONG_COUNTS,
    "memory": ("x", "0", "99G", "2M,1M", "-1"), "mpi": ("x", "kill -9 $$;", "false"),
    "progress": ("x",), "save-every": ("x", "0", "1e9"), "seed": ("x", -1, 1 << 64),
    "share-size": (1001, "x"), "time": ("x", "0", "1e3", "nan", "-1"), "lrupd": ("none", "/"),
    "solver": ("x", "cadical -q %formula"), "cubes": ("none", "/dev/null"), "assume": ("none",)}
# Words that are refused, wherever they stand.
WRONG_WORDS = ["--nothing", "-x", "--exp", "--quiet=1", "", "--=", "extra", "--expect=", "--check",
               "-qx", "--a\nb", "-", "--time=", os.fsdecode(b"--\xff"), "-q-", "--no-share=1",
               "--mpi=", "-jx", "-j65"]
# Calls that fail, and how.
ERRORS = ["EIO", "ENOMEM", "EINTR", "ENOSPC", "EACCES", "EMFILE", "EAGAIN", "ENOENT", "EBADF",
          "EPERM", "EINVAL"]
CALLS = """openat read write pread64 close dup2 fcntl memfd_create pipe2 poll clone execve mmap brk
    newfstatat lseek unlinkat renameat mkdir mkdirat ftruncate fsync fdatasync getdents64 readlink
    munmap signalfd4 pidfd_open ioctl writev access fallocate mprotect futex flock getcwd uname
    sysinfo statfs fstatfs clock_nanosleep""".split()
# Without these, processes may stay.
CONTROL = """kill prctl setpgid wait4 waitid rt_sigaction rt_sigprocmask rt_sigtimedwait clone3
    vfork setsid""".split()
# Of hostile programs: all processes of the run, and all their files in memory.
HELPERS = COMMON + """
import mmap, random

def processes():
    for name in os.listdir('/proc'):
        try:
            with open(f'/proc/{name}/environ', 'rb') as file:
                if name != str(os.getpid()) and os.environ['LRUP_MARK'].encode() in file.read():
                    yield int(name), open(f'/proc/{name}/comm').read().strip()
        except OSError: pass

def files_in_memory():
    for pid, _ in processes():
        try:
            for number in os.listdir(f'/proc/{pid}/fd'):
                path = f'/proc/{pid}/fd/{number}'
                if os.readlink(path).startswith('/memfd:'): yield path
        except OSError: pass

def writes(data, place=0):
    for path in files_in_memory():
        try:
            file = os.open(path, os.O_RDWR)
            os.pwrite(file, data, place if place >= 0 else os.fstat(file).st_size)
            os.close(file)
        except OSError: pass

kept = []

def maps(least):
    for path in files_in_memory():
        try:
            file = os.open(path, os.O_RDWR)
            if os.fstat(file).st_size < least: os.ftruncate(file, least)
            kept.append(mmap.mmap(file, least))
        except (OSError, ValueError): pass

def spoils(data):
    for one in kept:
        one[:len(data)] = data

def signals(number, *names):
    for pid, name in processes():
        if name in names: tries(os.kill, pid, number)

def pipes(data):
    for name in TO_ENGINES, FROM_ENGINES:
        for flags in os.O_WRONLY, os.O_RDONLY:
            try: file = os.open(f'/proc/{front}/fd/{name}', flags | os.O_NONBLOCK)
            except OSError: continue
            if flags == os.O_WRONLY: os.write(file, data)
            else: os.read(file, 5000)
"""


class Records(NamedTuple):
    """Folders with records of a formula that no assignment satisfies, of runs that ended, and that
    were killed after some rounds; and a formula that differs in one clause, and is satisfiable."""
    formula: Formula
    done: Path
    begun: Path
    other: Formula


class Attack:
    """The user's files are in `home`, the current folder of the run."""

    def __init__(self, seed: int, work: Path, records: Records) -> None:
        self.numbers = random.Random(f"{seed} attack")
        self.work, self.records = work, records
        self.home, self.place = work / "home", work / "hostile"
        for folder in (self.home, self.place, work / "temporary"):
            folder.mkdir()
        self.count = 0
        self.opened: List[int] = []             # files that the run inherits
        self.fifos: List[Tuple[Path, bytes]] = []
        self.stdin: Optional[bytes] = None      # None: it is /dev/null
        self.assumed: Optional[List[int]] = []  # None: the file is refused
        self.is_refused = False                 # an input can't be used
        self.made: Set[Path] = set()            # what the run may make, or change
        self.may_leave = False                  # processes, since the supervisor may be killed
        self.is_check = self.chance(0.3)
        self.has_record = self.chance(0.3)
        self.formula = self.chosen_formula()
        self.body = self.hostile_body() if self.chance(0.5) else None
        self.words = self.all_words()
        self.fault = self.chosen_fault() if self.chance(0.5) and shutil.which("strace") else ""
        lasts = self.choice(0.05, 0.2, 1, 2)
        self.signals = sorted(self.numbers.uniform(0, lasts) for _ in range(self.choice(
            0, 0, 0, 0, 0, 0, 1, 2, 4)))
        self.out = self.numbers.choice(["file"] * 20 + ["full", "closed"])
        self.closes = [file for file in (0, 2) if self.chance(0.03) and not self.fault]

    def chance(self, part: float) -> bool:
        return self.numbers.random() < part

    def choice(self, *these: Any) -> Any:
        return self.numbers.choice(these)

    def number(self) -> int:
        self.count += 1
        return self.count

    # Truth.

    def chosen_formula(self) -> Formula:
        if self.has_record:
            return self.records.other if self.chance(0.5) else self.records.formula
        make: Callable[[random.Random], Formula] = self.choice(
            few_variables, few_variables, few_variables, planted, pigeons,
            *[refused] * self.chance(0.2))
        return make(self.numbers)

    def truths(self) -> Set[str]:
        """All answers that are true, but for 's UNKNOWN'. lrup-check takes no model."""
        formula, found = self.formula, set() if self.is_check else {FOUND}
        if self.is_refused or formula.clauses is None or self.assumed is None:
            return set()
        if formula.model is None:
            return {PROVED, UNDER}
        if formula.variables <= MOST and model_of(formula.variables, formula.clauses,
                                                  self.assumed) is None:
            return {UNDER}
        return found

    def literals(self) -> List[int]:
        """Literals to assume. Whether a model makes them true is known, too."""
        formula, most = self.formula, self.numbers.randrange(4)
        if formula.model is not None and (formula.variables > MOST or self.chance(0.5)):
            return self.numbers.sample(list(formula.model), min(most, formula.variables))
        return [self.numbers.choice((-1, 1)) * self.numbers.randint(1, formula.variables)
                for _ in range(most)]

    def cube(self) -> str:
        literals = self.literals()
        if self.chance(0.1):
            self.assumed = None
            return str(self.choice("", "1\n", "1  0\n", "99999 0\n", "1 0\n0\n", "c 1 0\n",
                                   "1 0\r\n"))
        self.assumed = literals
        return " ".join(map(str, [*literals, 0])) + "\n"

    def stream(self) -> str:
        """A stream of lrupd, which may be right."""
        formula = self.formula
        right: Optional[str] = None
        if formula.clauses is not None and formula.variables <= MOST and self.chance(0.8):
            right = refutation(formula.variables, formula.clauses, self.assumed or [])
        found = right if right is not None else str(self.choice(
            short_refutation(formula), PROOF, "", "0\n", "1 0\n", "a 1 0\n", "s UNSATISFIABLE\n",
            "\n"))
        if found and self.chance(0.2):
            place = self.numbers.randrange(len(found))
            found = found[:place] + self.choice("0", " ", "1", "-", "\n", "d") + found[place + 1:]
        return found[:self.numbers.randrange(len(found) + 1)] if self.chance(0.1) else found

    def proof(self) -> bytes:
        """A proof of any form, which may be right."""
        formula = self.formula
        if formula.clauses and formula.model is None and self.chance(0.7) and (
                shutil.which("cadical")):
            path, proof = written(formula.text, self.place, "unsatisfiable"), self.place / "proof"
            subprocess.run(["cadical", "-q", *self.choice([], ["--no-binary"]), path, proof],
                           stdout=subprocess.DEVNULL)
            return proof.read_bytes()
        return self.stream().encode()

    # Names.

    def new_path(self, ending: str = "") -> Path:
        """Of no file, in the user's folder or in one below it."""
        folder = self.home
        if self.chance(0.3):
            folder = folder / self.numbers.choice(FOLDERS)
            folder.mkdir(exist_ok=True)
        name = self.numbers.choice(NAMES)
        while name == ".." or os.path.lexists(folder / (name + ending)):
            name += str(self.number())
        return folder / (name + ending)

    def new_file(self, data: bytes, ending: str = "") -> Path:
        path = self.new_path(ending)
        path.write_bytes(data)
        return path

    def linked(self, path: Path) -> Path:
        """Another name of what is there."""
        link = self.home / f"link{self.number()}"
        way = self.numbers.randrange(4)
        if way == 0 and path.is_file():
            os.link(path, link)
        elif way == 1:
            link.symlink_to(path)
        elif way == 2:
            link.symlink_to(os.path.relpath(path, self.home))
        else:
            link.symlink_to(path.parent)
            return link / path.name
        return link

    def spelled(self, path: Path, is_there: bool = True) -> str:
        """A word that names this file or folder; of one that isn't there, only its folder is linked
        to."""
        while self.chance(0.3):
            path = self.linked(path) if is_there else self.linked(path.parent) / path.name
        if is_there and self.chance(0.1):
            self.opened.append(os.open(path, os.O_RDONLY))
            return f"{self.choice('/proc/self/fd', '/dev/fd')}/{self.opened[-1]}"
        name = os.path.relpath(path.parent, self.home) + "/" + path.name
        if name.startswith("./") and self.chance(0.7):
            name = name[2:]
        if self.chance(0.3):
            name = f"{self.home}/{name}"
        if self.chance(0.2):
            (self.home / "up").mkdir(exist_ok=True)
            name = "up/../" + name if not name.startswith("/") else name
        if self.chance(0.1):
            name = name.replace("/", str(self.choice("//", "/./", "///")))
        return "./" + name if name.startswith("-") and self.chance(0.5) else name

    def of_folder(self, path: Path) -> str:
        return self.spelled(path, path.exists()) + self.numbers.choice(FOLDERS_ENDS)

    def input_word(self, data: bytes) -> str:
        """A word from which these bytes can be read, or mostly."""
        way = self.numbers.random()
        if way < 0.6:
            return self.spelled(self.new_file(data))
        if way < 0.7 and self.stdin is None:
            self.stdin = data
            return self.numbers.choice(("-", "-", "/dev/stdin", "/proc/self/fd/0"))
        if way < 0.8:
            fifo = self.new_path()
            os.mkfifo(fifo)
            self.fifos.append((fifo, data))
            return self.spelled(fifo, False)
        if way < 0.95:
            ending, packer = self.numbers.choice(PACKERS)
            packed = subprocess.run([packer, "-c"], input=data, stdout=subprocess.PIPE)
            return self.spelled(self.new_file(packed.stdout, ending))
        misnamed: Callable[[], str] = lambda: self.spelled(self.new_file(data, ".gz"))
        name: Callable[[], str] = self.numbers.choice((
            lambda: self.spelled(self.new_path(), False), lambda: self.of_folder(self.home),
            lambda: "/dev/null", lambda: "/proc/self/mem",
            lambda: self.spelled(self.new_file(data), False) + "/", misnamed))
        word = name()
        # By another name, which doesn't say that it is packed, the file can be read.
        self.is_refused |= name is not misnamed or word.endswith(".gz")
        return word

    def other_word(self, data: bytes) -> str:
        """The same for a file on which no answer depends."""
        is_refused = self.is_refused
        word = self.input_word(data)
        self.is_refused = is_refused
        return word

    # Records, and other files that a run makes.

    def record(self) -> str:
        """A folder for a record. The run may change what is the record's own."""
        kind, folder = self.numbers.choice(RECORDS), self.new_path()
        if self.has_record and self.chance(0.7):
            kind = self.numbers.choice(("begun", "changed", "of another"))
        if kind in ("begun", "changed", "of another", "done"):
            shutil.copytree(self.records.done if kind == "done" else self.records.begun, folder)
        elif kind != "none":
            folder.mkdir()
        if kind == "changed":
            self.change(folder)
        if kind == "of another":
            self.forge(folder)
        if kind == "listed":
            (folder / "files").write_text(self.numbers.choice(LISTS))
        if folder.exists() and self.chance(0.5):
            (folder / "mine").write_text("mine\n")
        if kind == "foreign":
            name = folder / self.numbers.choice(UNLISTED)
            make: Any = self.numbers.choice((
                lambda: name.write_text("mine\n"), lambda: name.symlink_to("mine"),
                lambda: name.symlink_to(self.home), name.mkdir, lambda: os.mkfifo(name)))
            make()
        self.made.add(folder)
        return self.of_folder(folder)

    def change(self, folder: Path) -> None:
        with contextlib.suppress(IndexError, ValueError, OSError):  # there is no such file, or byte
            CHANGES[self.numbers.choice(sorted(CHANGES))](folder, self.numbers)
            are_files = all(stat.S_ISREG(path.lstat().st_mode) for path in folder.iterdir())
            if are_files and self.chance(0.5):
                with_digests(folder)

    def forge(self, folder: Path) -> None:
        """Makes the record look like one of this formula."""
        digest = hashlib.sha256(self.formula.text.encode()).hexdigest()
        path = folder / "formula.sha256"
        path.write_text(re.sub(r"^[0-9a-f]{64}", digest, path.read_text()))

    def output_word(self) -> str:
        """A file for a core or a proof: a new one, mostly."""
        if self.chance(0.7):
            path = self.new_path()
            self.made.add(path)
            return self.spelled(path, False)
        name: Callable[[], str] = self.numbers.choice((
            lambda: self.spelled(self.new_file(b"mine\n")), lambda: self.of_folder(self.home),
            lambda: "/dev/null", lambda: "/dev/full", lambda: self.record() + "/round-1.stream-1",
            lambda: self.record() + "/core", lambda: self.spelled(self.new_path(), False) + "/"))
        return name()

    # Words.

    def value(self, name: str) -> str:
        """A value of this option, mostly a right one."""
        made: Dict[str, Callable[[], str]] = {
            "assume": lambda: self.input_word(self.cube().encode()), "core": self.output_word,
            "cubes": lambda: self.other_word(self.numbers.choice(CUBES)), "lrat": self.output_word,
            "lrupd": self.checker, "proofs": self.record, "resume": self.record,
            "solver": self.solver}
        if name in WRONG_VALUES and self.chance(0.03):
            self.is_refused = self.is_refused or name == "assume"
            return str(self.numbers.choice(WRONG_VALUES[name]))
        return made[name]() if name in made else str(self.numbers.choice(VALUES[name]))

    def checker(self) -> str:
        """lrupd. A name without a slash isn't looked up in the current folder."""
        word = self.spelled(Path(PROGRAM))
        return word if "/" in word else "./" + word

    def hostile_program(self, body: str) -> Path:
        folder = self.place / str(self.number())
        folder.mkdir()
        return program(HELPERS + body, folder)

    def solver(self) -> str:
        proof = shlex.quote(str(self.new_file(self.proof())))
        make: Callable[[], str] = self.numbers.choice((
            lambda: "cadical -q %formula %proof", lambda: "cadical -q --no-binary %formula %proof",
            lambda: "false %formula %proof",
            lambda: f"cat {proof} > %proof; : %formula",
            lambda: f"cat {proof} > %proof; : %formula; exit 20",
            lambda: "echo s UNSATISFIABLE; : %formula %proof", lambda: ": %formula %proof; exit 20",
            lambda: "echo s SATISFIABLE; echo v -1 0; : %formula %proof; exit 10",
            lambda: "sleep 100; : %formula %proof",
            lambda: f"{self.hostile_program(self.hostile_body())} %formula %proof"))
        return make()

    def option(self, name: str) -> List[str]:
        if not OPTIONS[name].has_value:
            short = {"help": ["-h"], "quiet": ["-q"], "verbose": ["-v"]}.get(name, [])
            return [self.numbers.choice([f"--{name}", *short])]
        value = self.value(name)
        return self.numbers.choice(([f"--{name}={value}"], [f"--{name}", value]))

    def options(self) -> List[List[str]]:
        """Each is one word, or two."""
        often = {"help": 0.01, "version": 0.01, "expect": 0.4, "lrupd": 0.8, "proofs": 0.3,
                 "resume": 0.5 if self.has_record else 0.02, "assume": 0.25, "mpi": 0.02,
                 "solver": 0.15, "time": 0.02, "engines": 0.02}
        alone = 0.02 if self.is_check else 1
        chosen = [name for name, kind in OPTIONS.items()
                  if self.chance(often.get(name, 0.1) * (alone if kind.is_alone else 1))]
        if self.chance(0.9):
            chosen = self.without_contradictions(chosen)
        if self.chance(0.05):       # twice
            chosen += [name for name in chosen if name != "assume"]
        options = [self.option(name) for name in chosen]
        if self.body is not None:
            options.append(["--engines", str(self.hostile_program(self.body))])
        if self.chance(0.6):
            count = self.numbers.choice(WRONG_COUNTS if self.chance(0.03) else COUNTS)
            options.append(self.numbers.choice((["-j", count], [f"-j{count}"], [f"-qj{count}"])))
        if self.chance(0.05):
            options.append([self.numbers.choice(WRONG_WORDS)])
        self.numbers.shuffle(options)
        # It is the last one that counts.
        return [*options, ["--time", self.numbers.choice(("0.3", "1", "2"))]]

    def without_contradictions(self, names: Sequence[str]) -> List[str]:
        """Leaves out options that are refused beside others, or without others."""
        refused_beside = {"proofs": {"resume"}, "replace": {"resume"}, "mpi": {"solver"},
                          "assume": set() if self.is_check else {"solver"},
                          "no-share": {"cubes"}, "cubes-in-order": {"solver", "mpi"}}
        needs = {"replace": {"proofs"}, "save-every": {"proofs", "resume"},
                 "with-formula": {"proofs", "resume"}, "cubes-in-order": {"cubes"},
                 "re-hint": {"core", "lrat"}, "filters": {"solver"}}
        left = [name for name in names if not refused_beside.get(name, set()) & set(names)]
        return [name for name in left if name not in needs or needs[name] & set(left)]

    def all_words(self) -> List[str]:
        options = self.options()
        files = [self.input_word(self.formula.text.encode())]
        if self.is_check:
            files += [self.other_word(self.proof()) for _ in range(self.choice(1, 1, 1, 2, 3))]
        is_plain = not any(word.startswith("-") and word != "-" for word in files)
        groups = options
        if is_plain and self.chance(0.8):
            places = sorted(self.numbers.randint(0, len(options)) for _ in files)
            for place, word in reversed(list(zip(places, files))):
                groups.insert(place, [word])
            if self.chance(0.02):       # there is no value
                groups.append([self.numbers.choice(("--seed", "-j", "--assume", "--expect"))])
        else:
            groups += [["--"]] * (not is_plain or self.chance(0.5)) + [[word] for word in files]
        expects = [group for group in groups if group[0].startswith("--expect")]
        self.expected = expects[-1][-1].replace("--expect=", "") if expects else None
        front = SOLVE.with_name("lrup-check") if self.is_check else SOLVE
        return [str(front), *(word for group in groups for word in group)]

    # Disturbance.

    def chosen_fault(self) -> str:
        """What strace injects."""
        call = self.numbers.choice([*CALLS, *CALLS, *CONTROL])
        self.may_leave = self.may_leave or call in CONTROL
        when = self.choice(1, 2, 3, 4, 5, 8, 13, 21, 40, "2+", "5+", "10+3")
        return f"?{call}:error={self.numbers.choice(ERRORS)}:when={when}"

    def hostile_body(self) -> str:
        """A program in place of lrup-engines, or of a solver."""
        if self.chance(0.2):
            # This one writes to the user's formula, which isn't sealed.
            known = [one for text in (PROGRAMS, PROVING, SATISFYING) for one in programs(text)
                     if one.name != "the front's files are written, all but two"]
            one = self.numbers.choice(known)
            self.may_leave = True
            return "signal.alarm(3)\n" + one.body.removeprefix(COMMON)
        steps = [self.step() for _ in range(self.numbers.randint(1, 12))]
        alarm = f"signal.alarm({self.choice(1, 1, 2)})\n" if self.chance(0.95) else ""
        end = self.choice("", "", f"os._exit({self.choice(0, 1, 10, 20, 127)})", "os.abort()",
                          "time.sleep(100)", "while True: say('c x')")
        lines = [f"try:\n    {step}\nexcept Exception: pass" for step in steps]
        return alarm + "\n".join([*lines, str(end)])

    def signs(self) -> str:
        """Of a model, which may be right."""
        formula = self.formula
        if formula.model is not None and self.chance(0.5):
            literals = [literal if self.chance(0.97) else -literal for literal in formula.model]
        else:
            literals = [variable * self.numbers.choice((-1, 1))
                        for variable in range(1, formula.variables + 1)]
        signs = "".join("+" if literal > 0 else "-" for literal in literals)
        return signs + str(self.choice("", "", "", "", "+", " "))

    def step(self) -> str:
        line, signs = self.numbers.choice(LINES), self.signs()
        proof = self.stream()
        data = (line + "\n") * self.numbers.choice((1, 2, 100))
        name = self.choice("lrupd", "lrup-model", "lrup-solve", "engines", "cleaner",
                           "supervisor")
        number = int(self.numbers.choice(ANY_SIGNAL))
        limit = self.choice("NOFILE", "AS", "FSIZE", "DATA", "NPROC", "CPU", "STACK", "MEMLOCK")
        step = self.numbers.choice((
            f"stream(1, {proof!r}); check(); hears('lrupd')",
            f"stream(1, {proof!r}); check(); hears('lrupd')",
            f"stream(1, {proof!r}); check()", f"stream({self.choice(1, 2)}, {proof!r})",
            "check()", f"check('{self.choice(1, 2, 64, 65)} 10 10 {self.choice(0, 1000)}')",
            "hears('lrupd')", "hears('lrup-model')", f"model({signs!r})", f"model({signs!r})",
            f"model({signs!r}); hears('lrup-model')", f"say('v {signs}')", "say('model')",
            f"say({line!r})", f"say('c ' + {line!r})", "say('busy')", "say('refused')",
            "say('over')",
            f"write({data.encode()!r})", "write(os.urandom(5000))", f"forge({line!r})",
            f"children(1, always, tries, forge, {line!r})", f"writes({data.encode()!r}, -1)",
            f"writes({data.encode()!r})", f"children(1, always, writes, {data.encode()!r}, -1)",
            f"maps({self.choice(1, 20, 4096)})", f"spoils({line.encode()!r})",
            f"maps(4096); children(1, always, spoils, {line.encode()!r})",
            f"everywhere({data.encode()!r})", "everywhere(os.urandom(100000))",
            f"os.closerange(0, {self.choice(3, 1000)})", f"signals({number}, {name!r})",
            f"signals({number}, {name!r})", f"os.kill(os.getppid(), {number})",
            f"os.killpg(0, {number})", f"time.sleep({self.choice(0.01, 0.1, 0.5)})", "os.setsid()",
            "children(20, daemon)", "children(5, os.setsid)", "waits()", "ends()",
            f"waits(); signals({number}, 'lrupd'); forge({line!r}); ends({line!r})",
            f"waits(); again(pid, {self.choice(0, 8, 10)}, here + '/again')",
            f"model({signs!r}); survives(); forge({line!r}); signals({number}, 'lrup-model')",
            f"resource.prlimit(int(front), resource.RLIMIT_{limit}, (0, 0))",
            f"named(here + '/engines', '#!/bin/sh\\necho {line}\\nexit 20\\n')",
            f"pipes({data.encode()!r})", "os.truncate(OUTPUT, 0)", "os.truncate(OUTPUT, 1 << 40)",
            "children(1, always, os.truncate, OUTPUT, 0)", "subprocess.run(['rm', '-rf', folder])",
            "os.mkfifo(folder + '/round-1.stream-1'); check()",
            "named(folder + '/round-2.cnf', 'p cnf 1 2\\n1 0\\n-1 0\\n')",
            "named(folder + '/round-2.sizes', '1 10 10\\n')", "turns(os.getppid())",
            "libc.prctl(1, 0); os.setpgid(0, 0)", "os.setpgid(0, os.getpgid(int(front)))"))
        self.may_leave = self.may_leave or any(word in step for word in (
            "supervisor", "getppid", "killpg", "survives", "getpgid"))
        return str(step)
