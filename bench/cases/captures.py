"""Captures, journals and configurations for the scripts beside this file."""
import struct
from dataclasses import dataclass
from pathlib import Path
from typing import Iterable, Iterator

HEAD = bytes.fromhex("d4c3b2a1020004000000000000000000ffff000001000000")
MAGICS = {b"\xd4\xc3\xb2\xa1": ("<", 1000), b"\xa1\xb2\xc3\xd4": (">", 1000), b"\x4d\x3c\xb2\xa1": ("<", 1000000), b"\xa1\xb2\x3c\x4d": (">", 1000000)}
LONGEST = 65535


class Fault(Exception):
    """Why a command ends otherwise: its status, and the line that it prints."""

    def __init__(self, status: int, line: str) -> None:
        super().__init__(line)
        self.status, self.line = status, line


@dataclass
class Record:
    moment: int
    data: bytes
    whole: bool = True


def whole_records(file: bytes, order: str = "<") -> Iterator[tuple[int, int, int, bytes]]:
    """Seconds, fraction, length on the wire and stored bytes of each record, up to the first that isn't whole."""
    at = len(HEAD)
    while at + 16 <= len(file):
        seconds, fraction, stored, original = struct.unpack_from(order + "IIII", file, at)
        at += 16 + stored
        if at > len(file):
            return
        yield seconds, fraction, original, file[at - stored : at]


def records_of(file: bytes, port: int = 1) -> list[Record]:
    """The records of a capture's bytes; moments in whole milliseconds, which don't go back. A fault is that of this port's capture."""

    def fault(place: int, why: str) -> Fault:
        return Fault(1, f"capture {port} {place} {why}")

    if len(file) < 24:
        raise fault(0, "short")
    if file[:4] not in MAGICS:
        raise fault(0, "magic")
    order, unit = MAGICS[file[:4]]
    if struct.unpack_from(order + "HH", file, 4) != (2, 4):
        raise fault(0, "version")
    if struct.unpack_from(order + "I", file, 20) != (1,):
        raise fault(0, "link")
    records, at, greatest = [], len(HEAD), 0
    for seconds, fraction, original, data in whole_records(file, order):
        if len(data) > LONGEST:
            raise fault(at, "long")
        greatest = max(greatest, seconds * 1000 + fraction // unit)
        records.append(Record(greatest, data, len(data) >= original))
        at += 16 + len(data)
    if at < len(file):
        raise fault(at, "long" if at + 16 <= len(file) and struct.unpack_from(order + "I", file, at + 8)[0] > LONGEST else "cut")
    return records


def record_bytes(moment: int, data: bytes) -> bytes:
    return struct.pack("<IIII", moment // 1000, moment % 1000 * 1000, len(data), len(data)) + data


def capture_of(sent: Iterable[tuple[int, bytes]]) -> bytes:
    """The bytes of a capture of these pairs of moment and frame."""
    return HEAD + b"".join(record_bytes(moment, data) for moment, data in sent)


def read(path: Path) -> list[Record]:
    return records_of(path.read_bytes())


def write(path: Path, records: Iterable[Record]) -> None:
    path.write_bytes(capture_of((it.moment, it.data) for it in records))


def merged(captures: Iterable[list[Record]]) -> list[Record]:
    """The records of some captures by moment; of one moment those of the first capture come first."""
    return sorted((it for records in captures for it in records), key=lambda it: it.moment)


def later(records: Iterable[Record], much: int) -> list[Record]:
    return [Record(it.moment + much, it.data, it.whole) for it in records]


@dataclass
class Entry:
    """A line of a journal of format 2: a tick, whose port is 0 and whose words are the addresses that it ends, or a frame."""

    clock: int
    port: int
    index: int
    words: list[str]


def journal_of(path: Path) -> list[Entry]:
    entries = []
    for line in path.read_text().splitlines()[1:]:
        words = line.split(" ")
        if words[1] == "tick":
            entries.append(Entry(int(words[0]), 0, 0, words[2:]))
        else:
            entries.append(Entry(int(words[0]), int(words[1]), int(words[2]), words[3:]))
    return entries


@dataclass
class Forwarder:
    """What a configuration says of the forwarder."""

    mac: bytes
    vlan: int
    fc_map: bytes
    window: int


def forwarder_of(text: str) -> Forwarder:
    said = {"fc-map": "0e:fc:00", "window": "100"}
    said.update((words[0], words[1]) for line in text.splitlines() if len(words := line.split()) == 2 and not line.startswith("#"))
    return Forwarder(bytes.fromhex(said["fcf-mac"].replace(":", "")), int(said["vlan"]), bytes.fromhex(said["fc-map"].replace(":", "")), int(said["window"]))
