"""How ./replay and build.sh prove and build. Libraries are in a folder of their own, with only their statements, as `rt ci`
leaves them: a check that also loads their proofs, which `rt lib` keeps, needs several times the memory. So `rattle` is
called as `rt ci` calls it.

Next to each built file NAME is NAME.sum: checksums of the sources that it was made from, and of itself. So what was copied
with a checkout, or was built in another one, counts as built here, whatever the times of its files."""

from __future__ import annotations

import contextlib
import ctypes
import fcntl
import functools
import hashlib
import json
import os
import re
import resource
import shutil
import signal
import subprocess
import time
from collections.abc import Callable, Sequence
from typing import IO, Any, Optional

from fintaqush_tools import errors
from fintaqush_tools.errors import Interrupted, Refusal
from fintaqush_tools.places import HOME, IS_CHECKOUT, TOP
from fintaqush_tools.progress import say, show

# A folder that git ignores, or outside a clone the user's cache.
CACHE = os.environ.get("XDG_CACHE_HOME") or os.path.expanduser("~/.cache")
BUILT = f"{TOP}/.git/built" if os.path.isdir(f"{TOP}/.git") else f"{CACHE}/fintaqush/{TOP.replace('/', '%')}"
LIBC = ctypes.CDLL(None)
PARENT = os.getpid()
# What archives and programs are built for (scripts/install.sh --target), else x86-64. The kit has no C library of arm64: there Debian's cross
# compiler links, and GLUE has the few C functions that the kit's archives have for x86-64.
TARGET = os.environ.get("FINTAQUSH_TARGET", "")
TRIPLES = {"": "x86_64-unknown-linux-gnu", "arm64": "aarch64-unknown-linux-gnu"}
CROSS = "aarch64-linux-gnu-gcc"
GLUE = [f"{TOP}/glue/heap.c", f"{TOP}/glue/os.c"]
# The processor that archives are compiled for, by the names of `rattle build --cpu`; else x86-64-v2, or all of arm64.
CPU = os.environ.get("FINTAQUSH_CPU", "")
KILLED = -signal.SIGKILL
OLDEST_NODE = 18
NONE = f"""no rt on PATH (the kit), which proves and builds the program; without it only an installed program runs, or one of web/fintaqush.wasm \
by node {OLDEST_NODE} or later"""


class Sums(dict[str, list[Any]]):
    """Checksums of files by their paths below the top, each with the times and the size of its file: while these stay the same, the file
    isn't read again."""

    def __init__(self) -> None:
        super().__init__()
        self.kept, self.is_changed = f"{BUILT}/sums", False
        with contextlib.suppress(OSError, ValueError):
            self.update(json.loads(read(self.kept)))

    def of(self, path: str) -> str:
        at, found = path.removeprefix(TOP), os.stat(path)
        state = [found.st_mtime_ns, found.st_ctime_ns, found.st_size]
        if self.get(at, [])[:3] == state:
            return str(self[at][3])
        with open(path, "rb") as file:
            sum = hashlib.sha256(file.read()).hexdigest()
        # a file that was changed just now may be changed again without a change of its time, because times have a resolution
        if time.time_ns() - max(state[:2]) > 10**9:
            self[at], self.is_changed = [*state, sum], True
        return sum

    def keep(self) -> None:
        """Keeps the checksums for later calls, if this call may write."""
        if self.is_changed:
            with contextlib.suppress(OSError):
                with open(f"{self.kept}.{os.getpid()}", "w", encoding="utf-8") as file:
                    json.dump(self, file)
                os.replace(file.name, self.kept)
        self.is_changed = False


def read(path: str) -> str:
    with open(path, encoding="utf-8", errors="replace") as file:
        return file.read()


def write(text: bytes, end: int = 1) -> bool:
    """Writes the whole text, and returns whether that succeeded."""
    with contextlib.suppress(OSError), open(end, "wb", closefd=False) as file:
        file.write(text)
        return True
    return False


def run(call: Callable[[Sequence[str]], int], words: Sequence[str]) -> None:
    """Runs a call of the launcher or of the build, and ends the process, and its child processes with it."""

    def main(words: Sequence[str]) -> int:
        try:
            return call(words)
        except OSError as error:
            raise Refusal(f"this couldn't be done: {error}", 70) from None
        except Interrupted as signalled:
            number = signal.SIGTERM if signalled.number == signal.SIGHUP else signalled.number
            raise Interrupted(number, signalled.more) from None

    errors.run(os.environ.get("FINTAQUSH_NAME", "replay"), main, words)


def child(memory: int = 0, nice: int = 0) -> None:
    """What a child process does first: it arranges to end with its parent, however the parent ends, limits its memory to this many MiB,
    and lowers its priority."""
    os.nice(nice)
    LIBC.prctl(1, signal.SIGTERM)  # PR_SET_PDEATHSIG
    with contextlib.suppress(OSError):  # else the prover's processes wake, and stop, each other all the time
        os.sched_setscheduler(0, os.SCHED_BATCH, os.sched_param(0))
    if os.getppid() != PARENT:
        os._exit(1)
    signal.signal(signal.SIGPIPE, signal.SIG_DFL)
    soft, hard = resource.getrlimit(resource.RLIMIT_AS)
    if memory and (soft == resource.RLIM_INFINITY or soft > memory << 20):
        resource.setrlimit(resource.RLIMIT_AS, (memory << 20, hard))


@functools.cache
def kit() -> str:
    """Returns the folder of the toolchain."""
    if not shutil.which("rt"):
        raise Refusal(f"there is {NONE}: see 'What it needs' in README.md", 69)
    return os.path.dirname(subprocess.run(["rt", "doc"], stdout=subprocess.PIPE, text=True, check=False).stdout.strip())


@functools.cache
def sums() -> Sums:
    return Sums()


@functools.cache
def crates() -> dict[str, Crate | Installed]:
    """Returns the crates of crates.txt by their names, or the programs of an installation."""
    if not IS_CHECKOUT:
        return {name: Installed(name) for name in ("napi_serial", "napi_replay")}
    rows = re.findall(r"^ *(\w+)([^#:\n]*):([^#\n]*)", read(f"{TOP}/crates.txt"), re.M)
    return {name: Crate(name, kind.strip(), uses.split()) for name, kind, uses in rows}


def all_crates() -> list[Crate]:
    return [it for it in crates().values() if isinstance(it, Crate)]


def sum_of(texts: Sequence[str]) -> str:
    return hashlib.sha256("\n".join(texts).encode()).hexdigest()


def sum_below(name: str) -> str:
    """Returns a checksum of the sources of a program, as they are now, and of those of the crates below it."""
    crate = crates()[name]
    return sum_of([it.sources for it in crate.all]) if isinstance(crate, Crate) else ""


def in_module(name: str, is_same: bool = False) -> Optional[tuple[str, str]]:
    """Returns the path of a program of web/fintaqush.wasm, with what to say of it, if node can run it; with `is_same` only if it was made
    from the present sources."""
    path, node = f"{TOP}/web/{name}", shutil.which("node")
    if not node or not os.path.exists(path):
        return None
    found = subprocess.run([node, "--version"], stdout=subprocess.PIPE, text=True, check=False).stdout
    sums = dict(line.split() for line in read(f"{TOP}/web/fintaqush.sum").splitlines())
    is_own = sums.get(name) == sum_below(name)
    if int((re.findall(r"^v(\d+)", found) or [0])[0]) < OLDEST_NODE or is_same and not is_own:
        return None
    of = "the proved sources" if is_own else "OTHER sources, not from these,"
    return path, f"web/fintaqush.wasm, compiled from {of} in a way that the kit doesn't offer"


def elsewhere(name: str) -> Optional[tuple[str, str]]:
    """Returns the path of a program that wasn't proved here, with what to say of it: of an installed one, or of the module. With the kit, by
    which it can be proved, only a module of these sources counts."""
    has_kit = bool(shutil.which("rt"))
    path = None if has_kit else shutil.which(name)
    found = (path, f"the installed {path}") if path else in_module(name, is_same=has_kit)
    why = "isn't proved here" if has_kit else "isn't proved here, which takes the kit"
    return (found[0], f"{name} {why}: this is {found[1]}") if found else None


class Installed:
    """A program that was proved and built before it was installed."""

    def __init__(self, name: str) -> None:
        # of what pip installs, which has no programs
        own = os.path.abspath(os.environ.get("PROGRAM") or f"{HOME}/bin/{name}")
        self.name, self.made = name, f"{TOP}/programs/{name}" if os.path.isdir(f"{TOP}/programs") else own

    def is_built(self) -> bool:
        return os.path.isfile(self.made) and os.access(self.made, os.X_OK)


class Crate:
    def __init__(self, name: str, kind: str, uses: list[str]) -> None:
        self.name, self.kind, self.uses = name, kind, uses
        self.folder, self.log = f"{TOP}/crates/{name}", f"{BUILT}/{name}.log"
        self.is_program, self.is_archive = os.path.exists(f"{self.folder}/src/main.rt"), "staticlib" in kind
        self.is_library = not self.is_program and not self.is_archive
        parts = ["out", TARGET, CPU if self.is_archive else "", name if self.is_program else f"lib{name}.a"]
        self.made = f"{BUILT}/{name}.rlib" if self.is_library else "/".join([self.folder, *filter(None, parts)])

    @functools.cached_property
    def all(self) -> list[Crate]:
        """Returns its dependencies in this checkout, lowest first, and itself."""
        below = (crates()[name] for name in self.uses if name in crates())
        return [*dict.fromkeys(it for crate in below if isinstance(crate, Crate) for it in crate.all), self]

    def texts(self) -> list[str]:
        """Returns the paths of its files in its folder."""
        return sorted(
            os.path.relpath(f"{at}/{name}", self.folder)
            for part in ("src", "specs", "proofs")
            for at, _, names in os.walk(f"{self.folder}/{part}")
            for name in names
        )

    def times(self) -> dict[str, int]:
        return {it: os.stat(f"{self.folder}/{it}").st_mtime_ns for it in self.texts()}

    @functools.cached_property
    def size(self) -> int:
        return sum(os.path.getsize(f"{self.folder}/{it}") for it in self.texts())

    def own(self) -> str:
        """Returns a checksum of its line in crates.txt and of its files, as they are now."""
        files = (f"{it} {sums().of(f'{self.folder}/{it}')}" for it in self.texts())
        return sum_of([self.name, self.kind, *self.uses, *files])

    @functools.cached_property
    def sources(self) -> str:
        """The same checksum, as it was at the first use."""
        return self.own()

    def sum(self) -> str:
        """Returns a checksum of its sources, of those of the crates below it, and of what was built; of a library, which another kit can't
        read, also of the kit."""
        made = [sums().of(f"{self.made}/format" if self.is_library else self.made)]
        made += [read(f"{kit()}/KIT-ID")] if self.is_library else []
        made += map(read, GLUE) if TARGET and self.is_program else []
        return sum_of([*(it.sources for it in self.all), *made])

    def is_built(self) -> bool:
        """Returns whether its files were built from these sources."""
        try:
            return read(f"{self.made}.sum") == self.sum()
        except OSError:
            return False

    def stands(self, times: dict[str, int]) -> None:
        """Records that its files were built from these sources, unless one of them, or of a library below it, has changed since these
        times."""
        if self.own() == self.sources and self.times() == times and all(it.is_built() for it in self.all[:-1]):
            with open(f"{self.made}.sum", "w", encoding="utf-8") as file:
                file.write(self.sum())

    def words(self, verb: str, jobs: int) -> list[str]:
        """Returns the prover's command that checks or builds it with this many processes, over the libraries that are built."""
        root, at = "src/main.rt" if self.is_program else "src/lib.rt", kit()
        words = [f"{at}/bin/rattle", verb, "--crate-name", self.name, root, "--jobs", str(jobs)]
        words += ["-L", f"dependency={BUILT}"]
        words += ["--antt-project", f"{at}/rattle/logic/antt-project.json", "--logic-built", f"{at}/logic_built"]
        uses = (f"{name}={BUILT if name in crates() else f'{at}/rlibs'}/{name}.rlib" for name in ("std", *self.uses))
        return [*words, "-L", f"dependency={at}/rlibs", *(word for it in uses for word in ("--extern", it))]

    def begin(self, jobs: int, place: int) -> subprocess.Popen[bytes]:
        """Starts to prove and build it, with this many processes, at a lower priority than that of crates before it."""
        command = [*self.words("build", jobs), "-o", f"{self.made}.new"]
        command += ["--crate-type", "staticlib"] * self.is_archive
        command += ["--statements"] if self.is_library else ["--toolchain", f"{kit()}/toolchain", "--backend", "llvm"]
        command += ["--target", TRIPLES[TARGET]] if TARGET and not self.is_library else []
        command += ["--cpu", CPU] if CPU and self.is_archive else []
        self.begun = self.times()
        with open(self.log, "wb") as log:
            ends: dict[str, Any] = {"stdin": subprocess.DEVNULL, "stdout": log, "stderr": log}
            ends |= {"preexec_fn": lambda: child(nice=min(4 * place, 19)), "cwd": self.folder}
            process: subprocess.Popen[bytes] = subprocess.Popen(command, **ends)
            return process

    def end(self, status: int) -> None:
        """Moves the built files into place. If a source has changed meanwhile, the next call builds the crate again."""
        new = f"{self.made}.new"
        if status == 0 and self.is_program:
            os.replace(new, f"{BUILT}/{self.name}.o")
            command = [f"{kit()}/bin/rattle-link", "--target", TRIPLES[TARGET]]
            command += ["--toolchain", f"{kit()}/toolchain", "-o", new]
            command += [f"{BUILT}/{self.name}.o", f"{kit()}/c/libos_c.a", f"{kit()}/c/liblibc_c.a"]
            if TARGET:
                command = [CROSS, "-O2", "-pthread", "-o", new, f"{BUILT}/{self.name}.o", *GLUE]
            with open(self.log, "ab") as log:
                status = subprocess.run(command, stdout=log, stderr=log, preexec_fn=child, check=False).returncode
        if status != 0:
            why = "\n".join((re.findall(".*error.*", said := read(self.log)) or said.splitlines()[-5:])[:5])
            where = f"{self.log} has all that was said"
            raise Refusal(f"{self.name} couldn't be built, status {status}; {where}:\n{why}", 70)
        os.rename(new, self.made)
        self.stands(self.begun)


def to_build(asked: Sequence[Crate]) -> list[Crate]:
    """Returns which of these crates and of those below them have to be built; the crate with the longest chain of crates above it comes
    first."""
    every: list[Crate] = []
    chain: dict[Crate, int] = {}
    for crate in dict.fromkeys(it for crate in asked for it in crate.all):
        if not crate.is_built() or any(it in every for it in crate.all):
            every.append(crate)
    for crate in reversed(every):
        chain[crate] = crate.size + max((chain[it] for it in chain if crate in it.all), default=0)
    return sorted(every, key=lambda crate: chain[crate], reverse=True)


class Proving:
    """A build of these crates, and of those below them, as far as that isn't done."""

    def __init__(self, asked: Sequence[Crate]) -> None:
        self.names, self.since = " and ".join(it.name for it in asked), time.time_ns()
        self.every = self.left = to_build(asked)
        self.at_work: dict[Crate, subprocess.Popen[bytes]] = {}
        self.processors = len(os.sched_getaffinity(0))
        free = int(re.findall(r"MemAvailable: *(\d+)", read("/proc/meminfo"))[0])
        self.lanes = min(max(free // 2_500_000, 1), self.processors)  # kB of a check

    def seconds(self) -> int:
        return (time.time_ns() - self.since) // 10**9

    def remove_old(self) -> None:
        """Removes old libraries, which aren't used with new sources, nor libraries that were built with others than the present ones."""
        every = set(self.every)
        old = [it.made for it in all_crates() if not every.isdisjoint(it.all) and (it.is_library or it in every)]
        subprocess.run(["rm", "-rf", *old, *(f"{it}.sum" for it in old)], check=False)

    def end(self) -> None:
        """Ends the crates whose processes have ended."""
        for crate in [it for it, process in self.at_work.items() if process.poll() is not None]:
            status = self.at_work.pop(crate).returncode
            if status == KILLED and self.lanes > 1:  # most likely for memory: it is begun again, alone
                self.lanes, self.left = 1, [crate, *self.left]
            else:
                crate.end(status)

    def begin(self) -> bool:
        """Begins the crates that can begin, each by several processes, for which memory was counted: when one crate leaves some idle at its
        end, others use them; the crate with the longest chain above it gets as many as there are processors, because the others wait for it
        in the end. Returns whether there was any."""
        others = {*self.left, *self.at_work}
        ready = [it for it in self.left if others.isdisjoint(it.all[:-1])][: max(self.lanes - len(self.at_work), 0)]
        few = max(2, 6 - len(self.at_work) - len(ready))
        for crate in ready:
            place = self.every.index(crate)
            is_first = all(place < self.every.index(it) for it in self.at_work)
            jobs = 1 if self.lanes == 1 else min(self.processors, 4, 4 if is_first else few)
            self.at_work[crate] = crate.begin(jobs, place)
        self.left = [it for it in self.left if it not in self.at_work]
        return bool(ready)

    def time_left(self) -> str:
        """Estimates the time that is left from the sizes of the crates that were built; those in progress count half. Returns nothing before
        the first one is built."""
        sizes = {it: it.size or 1 for it in self.every}
        whole, at_work = sum(sizes.values()), sum(sizes[it] for it in self.at_work)
        built = whole - sum(sizes[it] for it in self.left) - at_work
        if not built:
            return ""
        rest = self.seconds() * (whole - built - at_work / 2) / (built + at_work / 2)
        return f", about {rest:.0f} s left" if rest < 100 else f", about {rest / 60:.0f} min left"

    def tell(self, has_begun: bool) -> None:
        count, names = len(self.every) - len(self.left), " ".join(it.name for it in self.at_work)
        line = f"crate {count} of {len(self.every)}, {self.seconds()} s{self.time_left()}: {names}"
        if os.isatty(2):
            show(line if self.at_work else "")
        elif has_begun:
            say(line)

    def prove(self, beside: Callable[[], None]) -> None:
        """Proves and builds; meanwhile calls `beside` again and again."""
        count = len(self.every)
        about = f"{count} crates: on 4 cores some {count // 3 + 1} minutes"
        say(f"proving and building {self.names} and what they stand on, {about}")
        self.remove_old()
        try:
            while self.left or self.at_work:
                self.end()
                self.tell(self.begin())
                beside()
                time.sleep(0.1)
        except Interrupted as signalled:
            signalled.more = "; each crate that was proved is kept" * bool(self.at_work)
            raise
        say(f"{self.names}: proved and built, in {self.seconds()} s")


def lock(file: IO[bytes], beside: Callable[[], None]) -> None:
    """Waits until no other build runs in this checkout."""
    is_told = False
    while True:
        try:
            fcntl.flock(file, fcntl.LOCK_EX | fcntl.LOCK_NB)
            return
        except BlockingIOError:
            if not is_told:
                say("another build is at work in this checkout: waiting for it")
            is_told = True
            beside()
            time.sleep(0.1)


def not_built(names: Sequence[str]) -> list[Crate]:
    """Returns those of these crates that aren't built. What is installed is."""
    return [it for it in map(crates().__getitem__, names) if isinstance(it, Crate) and not it.is_built()]


def build(names: Sequence[str], beside: Callable[[], None] = lambda: None) -> int:
    """Ensures that these crates are built. Only one build runs at a time in a checkout: a second one waits, and mostly finds everything
    built. While it waits, it calls `beside` again and again."""
    if unknown := [it for it in names if it not in crates()]:
        raise Refusal(f"there is no crate {unknown[0]!r} in crates.txt", 64)
    if TARGET not in TRIPLES:
        raise Refusal(f"there is no target {TARGET!r}, only arm64", 64)
    asked = not_built(names)
    sums().keep()
    if not asked:
        return 0
    kit()  # is there
    try:
        for folder in (BUILT, *(os.path.dirname(it.made) for it in asked)):
            os.makedirs(folder, exist_ok=True)
            if not os.access(folder, os.W_OK):
                raise PermissionError(None, None, folder)
        file = open(f"{BUILT}/lock", "ab")
    except OSError as error:
        why = f"the program is to be built, and {error.filename} can't be written: build in a checkout of your own"
        raise Refusal(why, 73) from None
    with file:
        lock(file, beside)
        crates.cache_clear()  # whose sources may have been changed while this one waited
        if asked := not_built(names):
            Proving(asked).prove(beside)
        sums().keep()
    return 0


def start(words: Sequence[str]) -> None:
    """Builds these crates, and ends the process."""
    run(build, words)
