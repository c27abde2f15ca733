"""pcapng files: which packets they have, of which interface, and when (draft-ietf-opsawg-pcapng)."""
import struct
from array import array
from dataclasses import dataclass
from typing import Iterator, Optional

from .columns import SCANNED, Row, Source

MAGIC = b"\x0a\x0d\x0d\x0a"
SECTION, INTERFACE, OBSOLETE, SIMPLE, PACKET = 0x0A0D0D0A, 1, 2, 3, 6
ORDERS = {b"\x1a\x2b\x3c\x4d": ">", b"\x4d\x3c\x2b\x1a": "<"}
IF_NAME, IF_DESCRIPTION, IF_RESOLUTION, IF_OFFSET, IF_HARDWARE = 2, 3, 9, 14, 15
SECOND = 1_000_000_000


@dataclass
class Interface:
    """An interface: its link type, its name, and how its time counts."""

    link: int
    snap_length: int
    name: str = ""
    resolution: int = 6  # tens, or with 128 added twos
    offset: int = 0  # nanoseconds

    def moment(self, count: int) -> int:
        """Nanoseconds since 1970."""
        if self.resolution & 0x80:
            return (count * SECOND >> (self.resolution & 0x7F)) + self.offset
        return count * SECOND // int(10**self.resolution) + self.offset


def options(body: bytes, order: str) -> dict[int, bytes]:
    """The options of a block, the first of each code."""
    found: dict[int, bytes] = {}
    at = 0
    while at + 4 <= len(body):
        code, size = struct.unpack_from(order + "HH", body, at)
        if code == 0:
            break
        found.setdefault(code, body[at + 4 : at + 4 + size])
        at += 4 + size + -size % 4
    return found


def interface_of(body: bytes, order: str) -> Interface:
    """The interface of an Interface Description Block."""
    link, _, snap_length = struct.unpack_from(order + "HHI", body)
    told = options(body[8:], order)
    name = next((told[it] for it in (IF_NAME, IF_DESCRIPTION, IF_HARDWARE) if told.get(it)), b"")
    found = Interface(link, snap_length, name.decode("utf-8", "replace"))
    if told.get(IF_RESOLUTION):
        found.resolution = told[IF_RESOLUTION][0]
    if len(told.get(IF_OFFSET, b"")) == 8:
        found.offset = struct.unpack(order + "q", told[IF_OFFSET])[0] * SECOND
    return found


class Reader:
    """The packets of a file, with the interfaces of all its sections; `fault` says what ended the reading before the file's end."""

    def __init__(self, source: Source) -> None:
        self.source = source
        self.order = "<"
        self.interfaces: list[Interface] = []
        self.first = 0  # of the section's interfaces
        self.interface_of: "array[int]" = array("I")
        self.fault = ""

    def blocks(self) -> Iterator[tuple[int, int, bytes, int, int]]:
        """Each block: its type, its place, bytes that hold its body, and where in them the body begins and ends."""
        place, want = 0, SCANNED
        while place < self.source.size:
            asked, data, at = want, self.source.read(place, want), 0
            want = SCANNED
            while at + 12 <= len(data):
                if data[at : at + 4] == MAGIC:
                    self.order = ORDERS.get(data[at + 8 : at + 12], "")
                if not self.order:
                    self.fault = f"no byte order at byte {place + at + 8}"
                    return
                kind, size = struct.unpack_from(self.order + "II", data, at)
                if size < 12 or size % 4:
                    self.fault = f"no length of a block at byte {place + at + 4}"
                    return
                if at + size > len(data):
                    want = max(size, want)
                    break
                yield kind, place + at, data, at + 8, at + size - 4
                at += size
            if not at and (len(data) < asked or place + want > self.source.size):
                self.fault = f"cut at byte {place}"
                return
            place += at

    def rows(self) -> Iterator[Row]:
        """The packets."""
        for kind, place, data, begin, end in self.blocks():
            row = self.packet(kind, place, data, begin, end) if kind in (PACKET, SIMPLE, OBSOLETE) else None
            if kind == SECTION:
                self.first = len(self.interfaces)
            elif kind == INTERFACE and end - begin >= 8:
                self.interfaces.append(interface_of(data[begin:end], self.order))
            elif row is not None:
                yield row
            if self.fault:
                return

    def packet(self, kind: int, place: int, data: bytes, begin: int, end: int) -> Optional[Row]:
        """The packet of a block; none where the block has no room for it."""
        number, moment, body = 0, 0, begin + (4 if kind == SIMPLE else 20)
        if body > end:
            self.fault = f"no packet in the block at byte {place}"
            return None
        if kind == SIMPLE:
            length = size = struct.unpack_from(self.order + "I", data, begin)[0]
        else:
            number, high, low, size, length = struct.unpack_from(self.order + ("IIIII" if kind == PACKET else "HxxIIII"), data, begin)
            moment = high << 32 | low
        if self.first + number >= len(self.interfaces):
            self.fault = f"no interface {number} at byte {place}"
            return None
        interface = self.interfaces[self.first + number]
        if kind == SIMPLE:
            size = min(length, interface.snap_length or length)
        if body + size > end:
            self.fault = f"no packet in the block at byte {place}"
            return None
        self.interface_of.append(self.first + number)
        return interface.moment(moment) if kind != SIMPLE else 0, place + body - begin + 8, data, body, size, length
