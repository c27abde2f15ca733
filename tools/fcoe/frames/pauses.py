"""Pause frames: who holds whom still, by priority (IEEE 802.1Qbb) or as a whole (IEEE 802.3), and for how much of the time."""
from dataclasses import dataclass, field
from typing import Iterator

from .columns import Frames
from .heard import number

CONTROL, PAUSE, PRIORITY_PAUSE = 0x8808, 0x0001, 0x0101
QUANTUM = 51.2  # nanoseconds of 512 bits at 10 Gb/s, the slowest link that carries FCoE
ALL = -1  # a pause of the whole link


@dataclass
class Pauses:
    """The pauses that one station sends for one priority, as a port has them."""

    source: bytes
    priority: int
    count: int = 0
    held: float = 0  # nanoseconds for which the other side was held still
    since: int = 0
    until: int = 0
    ends: int = 0  # of the latest pause
    places: list[int] = field(default_factory=list)  # in the capture

    def add(self, moment: int, quanta: int, at: int) -> None:
        """A pause holds from here on for so long; a further one begins anew, and one of 0 ends it."""
        if not self.count:
            self.since = moment
        self.held -= max(self.ends - moment, 0)
        self.ends = moment + int(quanta * QUANTUM)
        self.held += self.ends - moment
        self.count += bool(quanta)
        self.until = moment
        if len(self.places) < 200:
            self.places.append(at)

    @property
    def share(self) -> float:
        """How much of the time between the first and the end of the last one."""
        return min(self.held / max(self.ends - self.since, self.until - self.since, 1), 1)


def quanta_in(data: bytes) -> Iterator[tuple[int, int]]:
    """Priority and duration of each pause in a frame."""
    if number(data[14:16]) == PAUSE:
        yield ALL, number(data[16:18])
    elif number(data[14:16]) == PRIORITY_PAUSE:
        for priority in range(8):
            if data[17] >> priority & 1:
                yield priority, number(data[18 + 2 * priority : 20 + 2 * priority])


def pauses_in(frames: Frames) -> list[Pauses]:
    """The pauses of a capture."""
    control = [it.heard.ethertype == CONTROL for it in frames.flows]
    found: dict[tuple[bytes, int], Pauses] = {}
    for at, flow in enumerate(frames.flow_of) if any(control) else ():
        if not control[flow]:
            continue
        data = frames.bytes_at(at, 0, 34)
        for priority, quanta in quanta_in(data) if len(data) >= 34 else ():
            found.setdefault((data[6:12], priority), Pauses(data[6:12], priority)).add(frames.moments[at], quanta, at)
    return list(found.values())
