"""The program built without proving it: the kit compiles it, and its LLVM optimises it. What a step made is kept, so that a build that was ended goes on there.

It takes the module that `rt try` compiles before it runs it, which rests on how this kit works, ends `rt try` there, and leaves out the checks that
stand before each index, sum and move, as a proved program has none: so build code that is proved, or is known to run.
"""
import contextlib
import fcntl
import hashlib
import json
import os
import pathlib
import re
import shutil
import signal
import subprocess
import tempfile
import time
from dataclasses import dataclass
from typing import IO, Callable, Iterator, Optional

from fcoe.errors import Refused, note

from .pace import processor_seconds, step

KEPT = 4  # builds of other sources that stay
POLL = 0.2  # seconds
TRAP = "call void @llvm.trap()"
MAIN = re.compile(rb"^define .*@main\(", re.M)


@dataclass(frozen=True)
class Kit:
    """Rattle's kit, by its `rt`."""

    rt: str
    home: pathlib.Path

    @property
    def clang(self) -> str:
        return str(self.home / "toolchain/bin/clang")

    @property
    def identity(self) -> bytes:
        return (self.home / "KIT-ID").read_bytes()

    @property
    def archives(self) -> list[str]:
        return [str(self.home / "c" / name) for name in ("libos_c.a", "liblibc_c.a")]


def kit() -> Kit:
    found = shutil.which("rt")
    if not found:
        raise Refused("no rt on PATH: the kit builds the program; `tools/install --program FILE` takes one that is built")
    home = pathlib.Path(os.path.realpath(found)).parents[1]
    if not (home / "toolchain/bin/clang").exists():
        raise Refused(f"{found}: its kit has no toolchain/bin/clang: `tools/install --program FILE` takes a program that is built")
    return Kit(found, home)


def top_of(folder: pathlib.Path) -> pathlib.Path:
    """The repository of a crate."""
    return next((it for it in folder.parents if (it / "crates.txt").exists()), folder)


def sources_of(folder: pathlib.Path) -> list[pathlib.Path]:
    """What the module of a crate depends on: all sources, as it may use any crate."""
    crates = [*(top_of(folder) / "crates").glob("*"), folder]
    return sorted({it for crate in crates for part in ("src", "specs") for it in (crate / part).rglob("*") if it.is_file()} | {*top_of(folder).glob("crates.txt")})


def key_of(folder: pathlib.Path, identity: bytes) -> str:
    """Which kit and which text a build is of."""
    found = hashlib.sha256(identity)
    top = top_of(folder)
    for file in sources_of(folder):
        found.update(f"{file.relative_to(top)}\0{file.stat().st_size}\0".encode())
        found.update(file.read_bytes())
    found.update(folder.name.encode())
    return found.hexdigest()[:24]


def cache() -> pathlib.Path:
    room = os.environ.get("XDG_CACHE_HOME")
    return (pathlib.Path(room) if room else pathlib.Path.home() / ".cache") / "wegcapho"


@contextlib.contextmanager
def locked(room: pathlib.Path) -> Iterator[None]:
    """One build of a text at a time; a second one waits for its result."""
    with open(room / "lock", "w", encoding="ascii") as file:
        fcntl.flock(file, fcntl.LOCK_EX)
        yield


class Times:
    """How many seconds of a processor each step took on this machine the last time; before that, what they took where this was written."""

    USUAL = {"compiles": 90.0, "optimises": 65.0}

    def __init__(self) -> None:
        self.file = cache() / "seconds.json"
        self.seconds = dict(self.USUAL)
        with contextlib.suppress(OSError, ValueError):
            self.seconds.update({str(step): float(it) for step, it in json.loads(self.file.read_text(encoding="utf-8")).items()})

    def took(self, what: str, seconds: float) -> None:
        self.seconds[what] = round(seconds, 1)
        self.file.write_text(json.dumps(self.seconds), encoding="utf-8")


def whole(path: pathlib.Path, write: Callable[[pathlib.Path], object]) -> None:
    """A file that is there whole or not at all."""
    made = path.with_name(f"{path.name}.{os.getpid()}")
    try:
        write(made)
        made.replace(path)
    finally:
        made.unlink(missing_ok=True)


def last_lines(log: pathlib.Path) -> str:
    lines = log.read_text(encoding="utf-8", errors="replace").strip().splitlines()
    return "; ".join(lines[-3:]) or "it said nothing"


def ends(job: "subprocess.Popen[bytes]") -> None:
    """Ends a job with what it began."""
    if job.poll() is None:
        job.send_signal(signal.SIGTERM)  # rt then ends its own
        with contextlib.suppress(subprocess.TimeoutExpired):
            job.wait(10)
    with contextlib.suppress(ProcessLookupError):
        os.killpg(job.pid, signal.SIGKILL)
    job.wait()


def begun(words: list[str], folder: pathlib.Path, log: IO[bytes], room: Optional[pathlib.Path] = None) -> "subprocess.Popen[bytes]":
    env = {**os.environ, "TMPDIR": str(room)} if room else None
    return subprocess.Popen(words, cwd=folder, stdin=subprocess.DEVNULL, stdout=log, stderr=log, env=env, start_new_session=True)


class Modules:
    """Looks for the module that `rt try` compiled: a file that is still written, or has no program, is passed over."""

    def __init__(self, tools: Kit, room: pathlib.Path) -> None:
        self.tools, self.room = tools, room
        self.sizes: dict[pathlib.Path, int] = {}
        self.tried: dict[pathlib.Path, int] = {}

    def text(self) -> Optional[bytes]:
        """The module's text, once it is there."""
        for file in self.room.rglob("module.bc"):
            with contextlib.suppress(OSError):
                size = file.stat().st_size
                is_still = size and self.sizes.get(file) == size
                self.sizes[file] = size
                if is_still and self.tried.get(file) != size:
                    self.tried[file] = size
                    found = self.read(file)
                    if found:
                        return found
        return None

    def read(self, file: pathlib.Path) -> Optional[bytes]:
        words = [self.tools.clang, "-S", "-emit-llvm", "-Xclang", "-disable-llvm-passes", "-x", "ir", str(file), "-o", "-"]
        ran = subprocess.run(words, capture_output=True, check=False)
        return ran.stdout if not ran.returncode and MAIN.search(ran.stdout) else None


class Build:
    """The build of one text of a crate, with what is kept of it."""

    def __init__(self, folder: pathlib.Path) -> None:
        if not (folder / "src/main.rt").exists():
            raise Refused(f"{folder}: no program crate (no src/main.rt)")
        self.folder, self.tools, self.times = folder.resolve(), kit(), Times()
        self.room = cache() / key_of(self.folder, self.tools.identity)
        self.room.mkdir(parents=True, exist_ok=True)
        self.module, self.program = self.room / "module.ll", self.room / "program"

    def made(self) -> pathlib.Path:
        """The program; what is there already isn't made again."""
        with locked(self.room):
            if not self.program.exists():
                self.compiled()
                self.optimised()
            os.utime(self.room)
        self.prune()
        return self.program

    def text(self) -> pathlib.Path:
        """The module's text before it is optimised."""
        with locked(self.room):
            self.compiled()
        return self.module

    def compiled(self) -> None:
        if self.module.exists():
            note("goes on behind the compiling, which an earlier build did")
            return
        with tempfile.TemporaryDirectory() as made, step("compiles", f"{self.folder.name} and the crates that it uses, as one module", self.times.seconds["compiles"]) as seen:
            room = pathlib.Path(made)
            modules, log = Modules(self.tools, room), room / "log"
            with open(log, "wb") as file:
                job = begun([self.tools.rt, "try", "--", "none"], self.folder, file, room)
                try:
                    text = self.waited(job, modules, seen.shown)
                finally:
                    ends(job)
            if text is None:
                raise Refused(f"rt compiled no module of {self.folder.name}: {last_lines(log)}")
            lines = b"\n".join(it for it in text.split(b"\n") if TRAP.encode() not in it)
            whole(self.module, lambda path: path.write_bytes(lines))
        self.times.took("compiles", seen.seconds)

    @staticmethod
    def waited(job: "subprocess.Popen[bytes]", modules: Modules, shown: Callable[[float], None]) -> Optional[bytes]:
        """The module's text, or nothing where `rt try` ended without one."""
        while True:
            is_ended = job.poll() is not None
            text = modules.text()
            if text or is_ended:
                return text
            shown(processor_seconds(job.pid))
            time.sleep(POLL)

    def optimised(self) -> None:
        with tempfile.TemporaryDirectory() as made, step("optimises", "the module", self.times.seconds["optimises"]) as seen:
            log, out = pathlib.Path(made) / "log", pathlib.Path(made) / "program"
            words = [self.tools.clang, "-O3", "-x", "ir", str(self.module), "-x", "none", *self.tools.archives, "-o", str(out)]
            with open(log, "wb") as file:
                job = begun(words, self.folder, file)
                try:
                    while job.poll() is None:
                        seen.shown(processor_seconds(job.pid))
                        time.sleep(POLL)
                finally:
                    ends(job)
            if job.returncode:
                raise Refused(f"clang can't make the program: {last_lines(log)}")
            whole(self.program, lambda path: shutil.copy(out, path))
        self.module.unlink()
        self.times.took("optimises", seen.seconds)

    def prune(self) -> None:
        """Removes builds of other texts but the last few."""
        rooms = sorted((it for it in cache().iterdir() if it.is_dir()), key=lambda it: it.stat().st_mtime, reverse=True)
        for it in rooms[KEPT:]:
            shutil.rmtree(it, ignore_errors=True)
