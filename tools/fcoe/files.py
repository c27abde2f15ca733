"""Files of the user: opened by their kind, read up to a bound, and written whole or not at all."""
import contextlib
import errno
import json
import os
import pathlib
import stat
import tempfile
from typing import Any, BinaryIO, Iterable, Iterator, Union

from .errors import Refused
from .printing import visible

Name = Union[str, pathlib.Path]
TEXT = 64 << 20  # bytes of a configuration, a zoning, a list of logins
PIECE = 1 << 20
LINE = 1 << 20  # bytes of a line


def plain(name: Name) -> int:
    """A descriptor of a plain file; a FIFO or a device, which may never end, is refused."""
    descriptor = os.open(name, os.O_RDONLY | os.O_NONBLOCK | os.O_CLOEXEC)
    kind = os.fstat(descriptor).st_mode
    if not stat.S_ISREG(kind):
        os.close(descriptor)
        raise OSError(errno.EISDIR, os.strerror(errno.EISDIR), str(name)) if stat.S_ISDIR(kind) else Refused(f"{name}: no plain file: copy what comes from it into one, and name that")
    return descriptor


def opened(name: Name) -> BinaryIO:
    """A plain file, to read."""
    return os.fdopen(plain(name), "rb")


def check_plain(names: Iterable[Name]) -> None:
    """Refuses what isn't plain of files that a folder should have."""
    for name in names:
        os.close(plain(name))


def bytes_of(name: Name, most: int = TEXT, is_plain: bool = False) -> bytes:
    """What a file has, also one that is a pipe."""
    with opened(name) if is_plain else open(name, "rb") as file:
        data = file.read(most + 1)
    if len(data) > most:
        raise Refused(f"{name}: more than {most >> 20} MiB, which no file of this kind has: name another one")
    return data


def text_of(name: Name) -> str:
    """The text of a configuration, whose lines may end as anywhere."""
    return bytes_of(name).decode("latin-1").replace("\r\n", "\n").replace("\r", "\n")


def json_of(name: Name, most: int = TEXT, is_plain: bool = False) -> Any:
    """The value of a file of JSON; ValueError where it's none."""
    try:
        return json.loads(bytes_of(name, most, is_plain))
    except RecursionError:
        raise Refused(f"{name}: its JSON is nested too deep: name another file") from None


def lines_of(name: Name) -> Iterator[bytes]:
    """The lines of a file, each with its end."""
    with open(name, "rb") as file:
        number = 0
        while line := file.readline(LINE):
            number += 1
            if len(line) == LINE and not line.endswith(b"\n"):
                raise Refused(f"{name}: line {number} has more than {LINE >> 20} MiB: that is no file of lines")
            yield line


@contextlib.contextmanager
def renamed(name: Name) -> Iterator[str]:
    """Where a file is to be written: it gets its name once it is whole, so that the name has all of it or what it had before."""
    path = pathlib.Path(os.path.realpath(name))
    if path.exists() and not path.is_file():  # a device or a pipe: there is nothing to keep
        yield str(path)
        return
    try:
        descriptor, there = tempfile.mkstemp(prefix=f".{path.name[:100]}.", dir=path.parent)
        os.close(descriptor)
        try:
            yield there
            os.chmod(there, path.stat().st_mode & 0o7777 if path.exists() else 0o666 & ~mask())
            os.replace(there, path)
        finally:
            with contextlib.suppress(FileNotFoundError):
                os.unlink(there)
    except OSError as why:
        why.filename, why.filename2 = str(name), None
        raise


def write_whole(name: Name, text: str) -> None:
    """Writes a file of text, whole or not at all. What can't be in a text is written out."""
    with renamed(name) as there:
        pathlib.Path(there).write_bytes(visible(text).encode("utf-8"))


def mask() -> int:
    """The bits that a new file doesn't get."""
    found = os.umask(0o077)
    os.umask(found)
    return found
