"""Edits of captures for bench/tools/faults.py: one frame changed, dropped, moved or put in, with a right check sequence again."""
from dataclasses import dataclass, replace
from typing import Callable, Optional

import wire
import machine  # pylint: disable=unused-import # it sets the path for what follows

from fcoe.frames.columns import Record
from fcoe.frames.heard import Heard, fc_check, hear

SWITCH = bytes.fromhex("00051e000002")
SECOND = 1_000_000_000
Tape = list[Record]
Edit = Callable[[Tape], Tape]
Where = Callable[[Heard], int]


@dataclass(frozen=True)
class Pick:
    """A frame: the Nth of a kind, of a host or of the switch, at or behind some seconds of the capture, of one S_ID."""

    kind: str
    nth: int = 0
    by_switch: bool = False
    behind: float = 0.0
    s_id: Optional[int] = None

    def place(self, tape: Tape) -> int:
        found = [at for at, it in enumerate(tape) if self.fits(hear(it.data), (it.moment - tape[0].moment) / SECOND)]
        if len(found) <= self.nth:
            raise SystemExit(f"no frame {self}")
        return found[self.nth]

    def fits(self, heard: Heard, seconds: float) -> bool:
        is_alike = heard.kind == self.kind and (heard.source == SWITCH) == self.by_switch and seconds >= self.behind
        return is_alike and (self.s_id is None or heard.fc is not None and heard.fc.s_id == self.s_id)


def checked(data: bytes) -> bytes:
    """The bytes with the check sequence that FCoE then has."""
    heard, made = hear(data), bytearray(data)
    if heard.is_fcoe and heard.fc:
        made[heard.fc.end : heard.fc.end + 4] = fc_check(data[heard.fc.at : heard.fc.end])
    return bytes(made)


def with_data(record: Record, data: bytes) -> Record:
    return replace(record, data=data, length=len(data))


def put(pick: Pick, where: Where, new: bytes, is_checked: bool = True) -> Edit:
    """Other bytes at a place of a frame."""

    def edit(tape: Tape) -> Tape:
        at = pick.place(tape)
        place, data = where(hear(tape[at].data)), bytearray(tape[at].data)
        data[place : place + len(new)] = new
        return [*tape[:at], with_data(tape[at], checked(bytes(data)) if is_checked else bytes(data)), *tape[at + 1 :]]

    return edit


def drop(*picks: Pick) -> Edit:
    def edit(tape: Tape) -> Tape:
        gone = {pick.place(tape) for pick in picks}
        return [it for at, it in enumerate(tape) if at not in gone]

    return edit


def drop_all(*kinds: str, by_switch: bool = False, behind: float = 0.0) -> Edit:
    """Drops each frame of some kinds, of hosts or of the switch, behind some seconds."""

    def is_kept(it: Record, first: int) -> bool:
        heard = hear(it.data)
        return heard.kind not in kinds or (heard.source == SWITCH) != by_switch or (it.moment - first) / SECOND < behind

    return lambda tape: [it for it in tape if is_kept(it, tape[0].moment)]


def before(seconds: float) -> Edit:
    """The capture up to a moment."""
    return lambda tape: [it for it in tape if (it.moment - tape[0].moment) / SECOND < seconds]


def ordered(tape: Tape) -> Tape:
    return sorted(tape, key=lambda it: it.moment)


def move(pick: Pick, seconds: float) -> Edit:
    """A frame at another moment, in seconds of the capture."""

    def edit(tape: Tape) -> Tape:
        at = pick.place(tape)
        return ordered([*tape[:at], replace(tape[at], moment=tape[0].moment + int(seconds * SECOND)), *tape[at + 1 :]])

    return edit


def add(seconds: float, data: bytes) -> Edit:
    """A frame at a moment, in seconds of the capture."""
    return lambda tape: ordered([*tape, Record(tape[0].moment + int(seconds * SECOND), data, len(data), 0)])


def again(pick: Pick, seconds: float, change: Callable[[bytes], bytes] = lambda data: data) -> Edit:
    """A frame once more at a moment, maybe changed."""

    def edit(tape: Tape) -> Tape:
        return add(seconds, checked(change(tape[pick.place(tape)].data)))(tape)

    return edit


def cut(pick: Pick, count: int) -> Edit:
    """A frame without its last bytes."""

    def edit(tape: Tape) -> Tape:
        at = pick.place(tape)
        return [*tape[:at], with_data(tape[at], tape[at].data[:-count]), *tape[at + 1 :]]

    return edit


def resized(pick: Pick, change: Callable[[bytes], bytes]) -> Edit:
    """An FC frame with another payload."""

    def edit(tape: Tape) -> Tape:
        at = pick.place(tape)
        data = tape[at].data
        fc = hear(data).fc
        assert fc is not None
        made = data[: fc.payload_at] + change(fc.payload) + data[fc.end : fc.end + 8]
        return [*tape[:at], with_data(tape[at], checked(made)), *tape[at + 1 :]]

    return edit


def all_of(*edits: Edit) -> Edit:
    def edit(tape: Tape) -> Tape:
        for one in edits:
            tape = one(tape)
        return tape

    return edit


def each(kind: str, where: Where, new: bytes, by_switch: bool = False) -> Edit:
    """Other bytes at a place of each frame of a kind."""

    def edit(tape: Tape) -> Tape:
        made = []
        for it in tape:
            heard, data = hear(it.data), bytearray(it.data)
            if heard.kind == kind and (heard.source == SWITCH) == by_switch:
                place = where(heard)
                data[place : place + len(new)] = new
            made.append(replace(it, data=checked(bytes(data))))
        return made

    return edit


def frame(place: int) -> Where:
    """A byte of the frame."""
    return lambda heard: place


def body(place: int) -> Where:
    """A byte behind the Ethertype."""
    return lambda heard: heard.at + place


def header(place: int) -> Where:
    """A byte of the FC header."""
    return lambda heard: heard.fc.at + place if heard.fc else 0


def payload(place: int) -> Where:
    return lambda heard: heard.fc.payload_at + place if heard.fc else 0


def behind_fc(place: int) -> Where:
    """A byte behind the FC frame: 0 is the CRC, 4 the EOF."""
    return lambda heard: heard.fc.end + place if heard.fc else 0


def descriptor(kind: int, place: int) -> Where:
    """A byte of the first descriptor of a type."""

    def where(heard: Heard) -> int:
        found = heard.descriptor(kind)
        assert found is not None
        return found.at + place

    return where


def in_fcoe(source: bytes, there: bytes, header_and_payload: bytes, vlan: int = 100) -> bytes:
    """An FCoE frame of one frame: SOFi3, EOFt."""
    return wire.ethernet(there, source, wire.FCOE, wire.fcoe(header_and_payload), vlan, priority=0, least=0)


def fc_frame(r_ctl: int, ids: tuple[int, int], kind: int, f_ctl: int, ox_id: int, content: bytes) -> bytes:
    """An FC header and a payload; the IDs are D_ID and S_ID."""
    return wire.Head(r_ctl, *ids, kind, f_ctl, ox_id).bytes() + content


def fip(source: bytes, there: bytes, operation: tuple[int, int], flags: int, descriptors: bytes, vlan: int = 100) -> bytes:
    """A FIP message."""
    return wire.ethernet(there, source, wire.FIP, wire.fip(operation, flags, [descriptors]), vlan, priority=0, least=0)
