"""A frame as the rules of `look check` look at it, and frames by their moments."""
from bisect import bisect_left, bisect_right
from dataclasses import dataclass
from typing import ClassVar, Optional

from ..frames.heard import Fc, Heard, hear, number
from ..runs.inputs import Port

LONGEST = 65535  # bytes of a frame: a length on the wire that is spoiled takes no room


class Decoded:
    """What a frame is, read anew each time; a frame that keeps it has it in its own dictionary, which comes first."""

    def __get__(self, it: "Shown", _owner: type) -> Heard:
        frames = it.port.frames
        return frames.heard(it.at) if it.is_whole else hear(frames.data(it.at).ljust(min(frames.lengths[it.at], LONGEST), b"\0"))


@dataclass(eq=False)
class Shown:
    """A frame of a capture: where it stands, its moment in milliseconds, and whether the switch sent it."""

    port: Port
    at: int
    clock: float
    is_switch: bool
    heard: ClassVar[Decoded] = Decoded()

    def keep(self) -> "Shown":
        """Stays decoded."""
        self.__dict__["heard"] = self.heard
        return self

    @property
    def fc(self) -> Optional[Fc]:
        return self.heard.fc

    @property
    def number(self) -> int:
        """As Wireshark shows it; below 0 that of a frame in the output of a run."""
        return self.port.frames.number(self.at)

    @property
    def place(self) -> str:
        return str(self.number) if self.number > 0 else f"{-self.number} of out{self.port.number}"

    @property
    def payload(self) -> bytes:
        return self.heard.fc.payload if self.heard.fc else b""

    @property
    def is_whole(self) -> bool:
        return self.port.frames.is_whole(self.at)

    @property
    def known(self) -> bytes:
        """The payload, where nothing of the frame is cut off: what rules on other frames may read of it."""
        return self.payload if self.is_whole else b""


class Timed:
    """Frames in their order, found by their moments."""

    def __init__(self, frames: list[Shown]) -> None:
        self.frames, self.clocks = frames, [it.clock for it in frames]

    def within(self, begin: float, end: float) -> list[Shown]:
        """Those between two moments."""
        return self.frames[bisect_left(self.clocks, begin) : bisect_right(self.clocks, end)]


def mac_in(heard: Heard) -> Optional[bytes]:
    """The MAC of a message's MAC descriptor."""
    found = heard.descriptor(2)
    return found.data[2:8] if found and len(found.data) >= 8 else None


def vx_in(heard: Heard) -> list[tuple[bytes, int, bytes]]:
    """MAC, address and port name of each Vx_Port descriptor."""
    return [(it.data[2:8], number(it.data[9:12]), it.data[12:20]) for it in heard.descriptors if it.kind == 11 and len(it.data) >= 20]


def period_in(heard: Heard) -> Optional[tuple[int, bool]]:
    """The keep alive period of an advertisement in milliseconds, and its D bit."""
    found = heard.descriptor(12)
    return (number(found.data[4:8]), bool(found.data[3] & 1)) if found and len(found.data) >= 8 else None
