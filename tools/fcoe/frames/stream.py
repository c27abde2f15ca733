"""The stream that `fcoe_tool live` reads: pcapng in one section, little-endian, nanoseconds, an interface a port."""
import struct
from typing import Iterable

SECTION, INTERFACE, PACKET = 0x0A0D0D0A, 1, 6
ORDER, ETHERNET = 0x1A2B3C4D, 1
IF_NAME, IF_TSRESOL, END = 2, 9, 0
MARK = bytes(12) + b"\x88\xb5"  # a frame of IEEE 802's first Ethertype for local experiments, which never was on a wire


def padded(data: bytes) -> bytes:
    return data + bytes(-len(data) % 4)


def block(kind: int, body: bytes) -> bytes:
    body = padded(body)
    size = struct.pack("<I", 12 + len(body))
    return struct.pack("<I", kind) + size + body + size


def option(code: int, value: bytes) -> bytes:
    return struct.pack("<HH", code, len(value)) + padded(value)


def head(names: Iterable[str]) -> bytes:
    """The section's head, and an interface for each port."""
    section = block(SECTION, struct.pack("<IHHq", ORDER, 1, 0, -1))
    faces = (struct.pack("<HHI", ETHERNET, 0, 0) + option(IF_NAME, name.encode()) + option(IF_TSRESOL, b"\x09") + option(END, b"") for name in names)
    return section + b"".join(block(INTERFACE, face) for face in faces)


def packet(face: int, moment: int, frame: bytes, length: int) -> bytes:
    """A frame of an interface at a moment in nanoseconds; `length` is what it had on the wire."""
    stored = len(frame)
    size = 32 + stored + -stored % 4
    return struct.pack("<IIIIIII", PACKET, size, face, moment >> 32, moment & 0xFFFFFFFF, stored, length) + frame + bytes(-stored % 4) + struct.pack("<I", size)
