"""The folder of a session of `live`: its files by name, and whether it runs."""
import fcntl
import json
import os
import pathlib
import time
from dataclasses import asdict, dataclass, field
from typing import IO, Any, Optional

from ..errors import Refused
from ..files import json_of, opened
from ..numerals import MOST

MOST_PORTS, MOST_TOLD = 64, 1 << 20  # ports, and bytes of session.json


@dataclass
class Told:
    """What session.json says: the interfaces in the order of the ports, when it began, and how it ended."""

    interfaces: list[str] = field(default_factory=list)
    begun: int = 0  # milliseconds since 1970
    ended: Optional[int] = None
    status: Optional[int] = None
    line: str = ""
    by: str = ""  # what ended it


@dataclass
class Folder:
    """fabric.conf, journal, inK.pcap, outK.pcap, session.json and, where it was asked for, stream.pcapng."""

    path: pathlib.Path

    @property
    def config(self) -> pathlib.Path:
        return self.path / "fabric.conf"

    @property
    def journal(self) -> pathlib.Path:
        return self.path / "journal"

    @property
    def stream(self) -> pathlib.Path:
        return self.path / "stream.pcapng"

    @property
    def told(self) -> pathlib.Path:
        return self.path / "session.json"

    def heard(self, port: int) -> pathlib.Path:
        return self.path / f"in{port}.pcap"

    def sent(self, port: int) -> pathlib.Path:
        return self.path / f"out{port}.pcap"

    def pairs(self, ports: int) -> list[str]:
        """The captures as `replay` takes them."""
        return [str(it) for port in range(1, ports + 1) for it in (self.heard(port), self.sent(port))]


def new_folder(name: Optional[str]) -> Folder:
    """A folder that is new or empty; without a name one with the time."""
    path = pathlib.Path(name or time.strftime("live-%Y%m%d-%H%M%S"))
    path.mkdir(parents=True, exist_ok=True)
    if any(path.iterdir()):
        raise Refused(f"{path}: has files, which a session would overwrite: name a new folder with --record")
    return Folder(path)


class Running:
    """A session that runs: its session.json is locked, so that a session that was killed doesn't seem to run."""

    def __init__(self, folder: Folder, interfaces: list[str]) -> None:
        self.said = Told(interfaces, time.time_ns() // 1_000_000)
        self.file: IO[str] = open(folder.told, "w", encoding="utf-8")  # pylint: disable=consider-using-with
        fcntl.flock(self.file, fcntl.LOCK_EX)
        self.write()

    def write(self) -> None:
        self.file.seek(0)
        self.file.truncate()
        json.dump(asdict(self.said), self.file, indent=1)
        self.file.write("\n")
        self.file.flush()

    def end(self, status: int, line: str, by: str) -> None:
        self.said.ended, self.said.status, self.said.line, self.said.by = time.time_ns() // 1_000_000, status, line, by
        try:
            self.write()
        except OSError:  # a full disk: the status is told on standard error
            pass
        self.file.close()


def told_in(folder: Folder, said: Any) -> Told:
    """What was told, if it's that."""
    try:
        found = Told(**said)
        numbers = [it or 0 for it in (found.begun, found.ended, found.status)]
        is_told = isinstance(found.interfaces, list) and len(found.interfaces) <= MOST_PORTS and all(isinstance(it, str) for it in (*found.interfaces, found.line, found.by))
        is_told = is_told and all(isinstance(it, int) and abs(it) <= MOST for it in numbers)
    except TypeError:
        is_told = False
    if not is_told:
        raise Refused(f"{folder.told}: is nothing that `live` wrote: copy the session's folder again")
    return found


def told_of(folder: Folder) -> Told:
    """What session.json says; a folder without one is no session."""
    if not folder.told.is_file():
        raise Refused(f"{folder.path}: no session of `live`: name the folder that --record named")
    try:
        return told_in(folder, json_of(folder.told, MOST_TOLD, is_plain=True))
    except ValueError:  # `live` was ended while it wrote
        ports = len([it for it in os.listdir(folder.path) if it.startswith("in") and it.endswith(".pcap")])
        return Told([f"port {it}" for it in range(1, ports + 1)])


def is_running(folder: Folder) -> bool:
    with opened(folder.told) as file:
        try:
            fcntl.flock(file, fcntl.LOCK_SH | fcntl.LOCK_NB)
        except BlockingIOError:
            return True
    return False
