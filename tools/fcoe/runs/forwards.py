"""Which data frames the switch of the captures sent on: header and payload of such a frame stay the same."""
from array import array
from typing import Iterator, Optional, Sequence

from ..frames.heard import Heard
from .inputs import Port
from .program import Run

Ends = tuple[int, int, int, int]  # R_CTL, D_ID, S_ID and TYPE of data frames


def data_ends(heard: Heard) -> Optional[Ends]:
    """What data frames between two N_Ports have in common."""
    fc = heard.fc
    return (fc.r_ctl, fc.d_id, fc.s_id, fc.kind) if heard.is_fcoe and fc is not None and fc.d_id < 0xFF0000 and fc.s_id < 0xFF0000 else None


def data_key(data: bytes, at: int) -> int:
    """What stays the same of a data frame that goes on: header and payload."""
    return hash(data[at:-8])


class Marked:
    """Some frames of the captures, by port and place."""

    def __init__(self, ports: list[Port]) -> None:
        self.by_port = {port.number: bytearray(len(port.frames)) for port in ports}

    def add(self, port: int, at: int) -> None:
        self.by_port[port][at] = 1

    def has(self, port: int, at: int) -> bool:
        return bool(self.by_port[port][at])


def by_ends(port: Port, places: Sequence[int], found: "dict[Ends, array[int]]") -> None:
    """Puts data frames of a port to those of the same ends; a frame is its port's number and its place in one number."""
    frames, first = port.frames, port.number << 32
    own = [data_ends(it.heard) for it in frames.flows]
    for at in places:
        ends = own[frames.flow_of[at]]
        if ends is not None:
            found.setdefault(ends, array("Q")).append(first + at)


def keyed(run: Run, found: "array[int]") -> Iterator[tuple[int, int, int]]:
    """Each frame with its key: port, place and key."""
    for it in found:
        port, at = it >> 32, it & 0xFFFFFFFF
        frames = run.ports[port - 1].frames
        heard = frames.flows[frames.flow_of[at]].heard
        if heard.fc is not None:
            yield port, at, data_key(frames.data(at), heard.fc.at)


def sent_on(run: Run, used: Marked) -> Marked:
    """The frames that the switch sent on: each that it sent counts once, and is used."""
    went = Marked(run.ports)
    gone: "dict[Ends, array[int]]" = {}
    came: "dict[Ends, array[int]]" = {}
    for port in run.ports:
        by_ends(port, port.replies, gone)
        by_ends(port, port.hosts, came)
    for ends, own in came.items():
        there: dict[int, list[tuple[int, int]]] = {}
        for number_, at, key in keyed(run, gone.get(ends, array("Q"))):
            there.setdefault(key, []).append((number_, at))
        for number_, at, key in keyed(run, own) if there else ():
            if there.get(key):
                used.add(*there[key].pop(0))
                went.add(number_, at)
    return went


def data_entries(run: Run) -> Iterator[tuple[int, Port, int]]:
    """The entries of data frames between two N_Ports: place in the journal, port, and place in its capture."""
    is_data = {port.number: [data_ends(it.heard) is not None for it in port.frames.flows] for port in run.ports}
    for place, (number_, index) in enumerate(zip(run.entries.ports, run.entries.indexes)):
        if number_:
            port = run.ports[number_ - 1]
            at = port.hosts[index]
            if is_data[number_][port.frames.flow_of[at]]:
                yield place, port, at
