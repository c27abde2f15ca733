"""The limits of `run`, told as soon as a capture passes them: before all of it is unpacked or read."""
import struct
from typing import Iterable, Optional

from ..errors import Refused

MOST_FRAMES, MOST_BYTES, MOST_SPAN = 4_000_000, 1 << 30, 21_600_000
BOTH = 2  # directions: what a switch sent is in a capture too, and in no run
MOST_PACKED = 4 << 30  # bytes that are unpacked, or come through a pipe
NEXT = {
    "limit span": "the captures span more than six hours: cut them with `editcap -A START -B STOP`",
    "limit frames": "more than 4,000,000 frames: keep FIP and FCoE alone, `tshark -r IN -Y 'fip or fcoe' -w OUT`",
    "limit bytes": "more than 1 GiB: cut data frames, `editcap -A START -B STOP`",
}
CLASSIC = {b"\xd4\xc3\xb2\xa1": "<", b"\x4d\x3c\xb2\xa1": "<", b"\xa1\xb2\xc3\xd4": ">", b"\xa1\xb2\x3c\x4d": ">"}  # magic: byte order
SECTION, SECTION_ORDER = b"\x0a\x0d\x0d\x0a", {b"\x4d\x3c\x2b\x1a": "<", b"\x1a\x2b\x3c\x4d": ">"}
MODIFIED = (b"\x34\xcd\xb2\xa1", b"\xa1\xb2\xcd\x34")  # captures of an old patched libpcap, which editcap reads
HEAD, BLOCK = 24, 32  # bytes of a classic capture's head, and of a pcapng packet beside the frame


def refuse(shown: str, limit: str, most: int) -> None:
    raise Refused(f"{shown}: {limit} {most}: {NEXT[limit]}")


def no_capture(shown: str, magic: bytes) -> Refused:
    return Refused(f"{shown}: no capture (it begins with {magic.hex()}): save it as pcap or pcapng, for example with `tshark -r FILE -w OUT.pcapng`")


class Count:
    """Counts the frames of a capture that comes in pieces, by their heads. What is none ends at once: it may have no end of its own."""

    def __init__(self, shown: str, packed: Iterable[bytes] = ()) -> None:
        self.shown, self.uncounted = shown, (*MODIFIED, *packed)
        self.size = self.frames = self.bytes = 0
        self.is_begun = False
        self.next = 0  # where the next head begins in the piece that comes
        self.held = b""
        self.head: Optional[struct.Struct] = None  # of a record or a block, whose last field is its length
        self.more = self.around = 0  # bytes of a record that its length leaves out, and that aren't the frame's

    def begin(self, head: bytes) -> None:
        """Tells the form, by the bytes of a classic capture's head."""
        if head[:4] in CLASSIC:
            self.head, self.more, self.around, self.next = struct.Struct(CLASSIC[head[:4]] + "8xI4x"), 16, 16, HEAD
        elif head[:4] == SECTION and head[8:12] in SECTION_ORDER:
            self.head, self.around = struct.Struct(SECTION_ORDER[head[8:12]] + "4xI"), BLOCK
        elif head[:4] != SECTION and not head.startswith(self.uncounted):
            raise no_capture(self.shown, head[:4])

    def take(self, piece: bytes) -> None:
        """Counts the frames that begin in a piece; refuses what passes a limit."""
        self.size += len(piece)
        if self.size > MOST_PACKED:
            raise Refused(f"{self.shown}: more than {MOST_PACKED >> 30} GiB came: save a part of it (`tcpdump -c`, `editcap -A -B`) and look at that")
        if not self.is_begun:
            self.held += piece
            if len(self.held) < HEAD:
                return
            piece, self.held, self.is_begun = self.held, b"", True
            self.begin(piece)
        if self.head is None:
            return
        data, at, frames = self.held + piece, self.next, 0
        unpack, size, more = self.head.unpack_from, self.head.size, self.more
        while at + size <= len(data):
            length = unpack(data, at)[0] + more
            if length < 12:  # no block: who reads it says where
                self.head = None
                return
            at += length
            frames += 1
        self.frames += frames
        self.bytes += at - self.next - frames * self.around
        if self.frames > BOTH * MOST_FRAMES:
            refuse(self.shown, "limit frames", MOST_FRAMES)
        if self.bytes > BOTH * MOST_BYTES:
            refuse(self.shown, "limit bytes", MOST_BYTES)
        self.held, self.next = (data[at:], 0) if at < len(data) else (b"", at - len(data))
