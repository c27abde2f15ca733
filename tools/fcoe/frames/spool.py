"""Captures that aren't plain files: what comes through a pipe is spooled, and what is packed is unpacked."""
import bz2
import filecmp
import gzip
import lzma
import os
import select
import shutil
import signal
import stat
import subprocess
import sys
import tempfile
import time
import zlib
from types import FrameType
from typing import IO, BinaryIO, Callable, Iterable, Iterator, Optional

from ..errors import Refused, counted, note
from ..progress import PROGRESS
from .limits import Count

PROGRAMS = {b"\x28\xb5\x2f\xfd": "zstd", b"\x04\x22\x4d\x18": "lz4"}
PIECE = 1 << 20
LZMA_ROOM = 256 << 20  # bytes of memory that unpacking .xz may take
LEAST = 24  # bytes of a capture that has a head
IDLE = 1000  # bytes of captures without frames, which may be alike
PAUSE, GRACE = 0.2, 1.0  # seconds: between two looks at an idle pipe, and that a writer has behind an interrupt


class Patience:
    """Lets the first interrupt end the writer of a pipe alone, so that what came is looked at; the second one counts."""

    def __init__(self) -> None:
        self.before = signal.getsignal(signal.SIGINT)
        self.until: Optional[float] = None  # when an interrupted spool ends, though its writer goes on

    def __enter__(self) -> "Patience":
        signal.signal(signal.SIGINT, self.first)
        return self

    def first(self, _: int, __: Optional[FrameType]) -> None:
        signal.signal(signal.SIGINT, self.before)
        self.until = time.monotonic() + GRACE
        note("interrupted: looks at what came, once the writer ends or nothing comes any more; interrupt again to stop")

    def read(self, come: int) -> bytes:
        """What comes next: nothing at the writer's end, or where an interrupt finds the pipe idle."""
        while not select.select([come], [], [], PAUSE)[0]:
            if self.until is not None and time.monotonic() >= self.until:
                return b""
        return os.read(come, PIECE)

    def __exit__(self, *_: object) -> None:
        signal.signal(signal.SIGINT, self.before)


def copy_to(there: str, come: BinaryIO, shown: str) -> None:
    """Spools what comes, up to the end of its writer."""
    count = Count(shown, (*PACKERS, *PROGRAMS))
    with open(there, "wb") as file, Patience() as patience:
        while piece := patience.read(come.fileno()):
            count.take(piece)
            file.write(piece)
            PROGRESS.say(f"{shown}: {count.size >> 20} MiB came; the look begins at its end")


def spooled(name: str, room: str) -> str:
    """A plain file with what the name stands for: `-` is standard input, and FIFOs and `<(..)` are read to their end."""
    if name == "-":
        if sys.stdin is None:
            raise Refused("-: standard input is closed: pipe a capture into it, `tcpdump -i eth0 -s 0 -w - | look -`")
        if sys.stdin.isatty():
            raise Refused("-: standard input is a terminal: pipe a capture into it, `tcpdump -i eth0 -s 0 -w - | look -`")
    elif not os.path.exists(name) or stat.S_ISREG(os.stat(name).st_mode):
        return name
    elif stat.S_ISCHR(os.stat(name).st_mode) or stat.S_ISBLK(os.stat(name).st_mode):
        raise Refused(f"{name}: a device: save what comes from it as a capture, and name that")
    there = os.path.join(room, f"spooled{len(os.listdir(room))}")
    if name == "-":
        copy_to(there, sys.stdin.buffer, "standard input")
        return there
    PROGRESS.say(f"{name}: waits for its writer")
    with open(name, "rb") as come:
        copy_to(there, come, name)
    return there


def xz_pieces(file: BinaryIO) -> Iterator[bytes]:
    """What an .xz has, by pieces; its streams may stand one behind the other, with zeros between."""
    data = file.read(PIECE)
    while data:
        unpacker = lzma.LZMADecompressor(memlimit=LZMA_ROOM)
        while not unpacker.eof:
            yield unpacker.decompress(data, PIECE)
            data = file.read(PIECE) if unpacker.needs_input else b""  # pylint: disable=using-constant-test # a property
            if unpacker.needs_input and not data and not unpacker.eof:
                raise EOFError("it ends too soon")
        data = (unpacker.unused_data or file.read(PIECE)).lstrip(b"\0")


def first_pieces(packed: gzip.GzipFile | bz2.BZ2File) -> Iterator[bytes]:
    """What is there up to a spoiled place."""
    return iter(lambda: packed.read1(PIECE), b"")


def file_pieces(come: IO[bytes]) -> Iterator[bytes]:
    return iter(lambda: come.read(PIECE), b"")


PACKERS: dict[bytes, Callable[[BinaryIO], Iterator[bytes]]] = {
    b"\x1f\x8b": lambda file: first_pieces(gzip.GzipFile(fileobj=file)),
    b"BZ": lambda file: first_pieces(bz2.BZ2File(file)),
    b"\xfd7": xz_pieces,
}


def program_pieces(program: str, name: str, shown: str) -> Iterator[bytes]:
    """What a program unpacks, where it is there."""
    if not shutil.which(program):
        raise Refused(f"{shown}: packed with {program}, which isn't there: unpack it with `{program} -d` (apt-get install {program})")
    with tempfile.TemporaryFile() as said, subprocess.Popen([program, "-dc", name], stdout=subprocess.PIPE, stderr=said) as process:
        try:
            assert process.stdout is not None
            yield from file_pieces(process.stdout)
        except GeneratorExit:
            process.kill()
            raise
        if process.wait():
            said.seek(0)
            lines = said.read(PIECE).decode("utf-8", "replace").strip().splitlines() or [f"status {process.returncode}"]
            raise EOFError(lines[-1])


def unpacked(name: str, room: str, shown: Optional[str] = None) -> str:
    """The file itself, or what is packed in it; of a spoiled one what comes before the spoiled place."""
    shown = shown or name
    with open(name, "rb") as file:
        head = file.read(4)
        packer, program = PACKERS.get(head[:2]), PROGRAMS.get(head)
        if packer is None and program is None:
            return name
        file.seek(0)
        there, count = os.path.join(room, f"unpacked{len(os.listdir(room))}"), Count(shown)
        pieces = packer(file) if packer is not None else program_pieces(program or "", name, shown)
        with open(there, "wb") as out:
            try:
                for piece in pieces:
                    count.take(piece)
                    out.write(piece)
                    PROGRESS.say(f"{shown}: {count.size >> 20} MiB unpacked")
            except (EOFError, lzma.LZMAError, zlib.error, gzip.BadGzipFile) as why:
                spoiled(shown, count.size, why)
            except OSError as why:
                if why.errno is not None:  # of a disk; BZ2File says so what it can't read
                    raise
                spoiled(shown, count.size, why)
    return there


def spoiled(shown: str, size: int, why: Exception) -> None:
    """What can't be unpacked from some place on is refused where there is nothing before it."""
    if size < LEAST:
        raise Refused(f"{shown}: can't be unpacked ({why}): copy it again") from None
    note(f"{shown}: can't be unpacked behind its first {counted(size, 'byte')} ({why}): the frames before are taken; copy it again")


def refuse_twice(names: Iterable[str]) -> None:
    """A capture is a port: one that is named twice, or a copy of it, would be two."""
    seen: dict[str, os.stat_result] = {}
    for name in names:
        if name == "-" and name in seen:
            raise Refused("-: is named twice: name each capture once")
        if name != "-" and not os.path.isfile(name):
            continue
        own = os.stat(name) if name != "-" else os.stat_result(range(10))
        for other, known in seen.items():
            if name == other:
                raise Refused(f"{name}: is named twice: name each capture once")
            if os.path.samestat(own, known):
                raise Refused(f"{name}: is the file {other} once more: name each capture once")
            if own.st_size == known.st_size > IDLE and "-" not in (name, other) and filecmp.cmp(name, other, shallow=False):
                raise Refused(f"{name}: holds the same bytes as {other}: name each capture once")
        seen[name] = own
