"""A folder with the program in it, and how a command there ends."""
import os
import pathlib
import resource
import subprocess
from typing import Callable, NamedTuple, Sequence


class Ended(NamedTuple):
    status: int
    line: str
    told: str  # on standard error


def wanted(what: str, holds: object) -> None:
    if not holds:
        raise AssertionError(what)


class Room:
    """A folder, and the program in it."""

    def __init__(self, program: pathlib.Path, folder: pathlib.Path) -> None:
        self.program, self.folder = program, folder
        folder.mkdir()

    def put(self, **files: bytes) -> None:
        for name, data in files.items():
            (self.folder / name).write_bytes(data)

    def has(self, name: str, data: bytes | None) -> bool:
        """Whether a file has these bytes; None is no file."""
        path = self.folder / name
        return path.read_bytes() == data if data is not None else not path.exists()

    def ends(self, words: Sequence[str | bytes], first: Callable[[], None] | None = None, say: object = subprocess.PIPE) -> Ended:
        """How a command ends; `first` is called in its process before it begins."""
        command = [os.fsencode(self.program)] + [os.fsencode(word) for word in words]
        done = subprocess.run(command, cwd=self.folder, stdin=subprocess.DEVNULL, stdout=say, stderr=subprocess.PIPE, preexec_fn=first, check=False)  # type: ignore[call-overload]
        return Ended(done.returncode, (done.stdout or b"").decode(), done.stderr.decode())

    def must(self, status: int, line: str, words: Sequence[str | bytes], **more: object) -> None:
        ended = self.ends(words, **more)  # type: ignore[arg-type]
        shown = b" ".join(os.fsencode(word) for word in words)[:60]
        wanted(f"{shown!r} ended with {ended}, not with {status} and {line!r}", (ended.status, ended.line) == (status, line))
        wanted(f"{shown!r} said {ended.told!r}", status in (2, 3, 4) or not ended.told)


def limited(what: int, most: int) -> Callable[[], None]:
    return lambda: resource.setrlimit(what, (most, most))


def by_shell(room: Room, line: str) -> Ended:
    """How a command ends that a shell starts, `fcoe_tool` in its words being the program."""
    command = ["sh", "-c", line.replace("fcoe_tool", f"'{room.program}'")]
    done = subprocess.run(command, cwd=room.folder, stdin=subprocess.DEVNULL, capture_output=True, check=False)
    return Ended(done.returncode, done.stdout.decode(), done.stderr.decode())
