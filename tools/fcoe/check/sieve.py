"""Which frames of a long capture the rules look at: of commands that are alike in all that rules ask about, a few, so that time and memory stay small.

A command and what belongs to it is told by the flows of its frames, F_CTL, delimiters, whether check sequence, counts, offsets, lengths and residual are
right, and its flags. It is left out where one that is alike was taken since the last message other than a keep alive or an advertisement, its frames aren't
larger, and each of its senders was taken in this second; of those that have no answer one is taken every ten seconds. All else is taken."""
import struct
from typing import Hashable, NamedTuple, Optional
from zlib import crc32

from ..frames.columns import Flow, Frames
from ..frames.heard import ADVERTISE, KEEP_ALIVE, Fc, number

FCP, DATA, READY, COMMAND, RESPONSE = 0x08, 0x01, 0x05, 0x06, 0x07
BASIC, OX_ID_AT = 0x00, 16  # TYPE of ABTS and its answers; where OX_ID stands in the FC header
RESPONDER, END_SEQUENCE, OFFSET_HELD, FILL, UNGIVEN = 0x800000, 0x080000, 0x000008, 3, 0xFFFF
WRITES, SENSE_HELD, CODE_HELD, UNDER = 0x01, 0x02, 0x01, 0x08
HEAD = struct.Struct(">IBBHHHI")  # TYPE and F_CTL, SEQ_ID, DF_CTL, SEQ_CNT, OX_ID, RX_ID, PARAMETER
HEAD_AT, HEAD_SIZE, BEHIND = 8, 24, 8  # where these stand in the FC header, its size, and bytes behind the payload
LEAST = {COMMAND: 32, READY: 8, RESPONSE: 24, DATA: 0}  # bytes of a payload that can be told
MOST_OPEN = 20_000
SECOND, OPEN_SPAN = 1_000_000_000, 10_000_000_000
Key = tuple[int, int, int]


class Known(NamedTuple):
    """What a flow of FCP says of its frames."""

    fc_at: int
    kind: int
    s_id: int
    d_id: int
    sender: int


class Head(NamedTuple):
    """What the header of a frame says beside its flow."""

    f_ctl: int
    seq_id: int
    df_ctl: int
    seq_cnt: int
    ox_id: int
    rx_id: int
    offset: int


def head_of(data: bytes, fc_at: int) -> Head:
    typed, *others = HEAD.unpack_from(data, fc_at + HEAD_AT)
    return Head(typed & 0xFFFFFF, *others)


def soundness(data: bytes, fc_at: int) -> tuple[bytes, bool]:
    """EOF with what is reserved behind it, and whether the CRC is right."""
    return data[-4:], crc32(data[fc_at:-8]) == int.from_bytes(data[-8:-4], "little")


class Unit:
    """A command and what belongs to it."""

    __slots__ = ("places", "signs", "senders", "epoch", "is_taken", "has_command", "rx_id", "running", "length", "flags", "moved", "begin", "end")

    def __init__(self, epoch: int, has_command: bool) -> None:
        self.places: list[int] = []
        self.signs: list[Hashable] = []
        self.senders: set[int] = set()
        self.epoch, self.is_taken, self.has_command = epoch, False, has_command
        self.rx_id = UNGIVEN
        self.running: dict[int, tuple[int, int, int]] = {}  # by RESPONDER: SEQ_ID, and the SEQ_CNT and the offset that are due
        self.length = self.flags = self.moved = self.begin = self.end = 0

    def given(self, rx_id: int) -> int:
        """How an RX_ID stands to the one that was given."""
        if rx_id == UNGIVEN:
            return 0
        if self.rx_id == UNGIVEN:
            self.rx_id = rx_id
            return 1
        return 2 if rx_id == self.rx_id else 3

    def order(self, head: Head) -> Hashable:
        """How a frame stands to the one before it in its sequence."""
        due = self.running.get(head.f_ctl & RESPONDER)
        return head.seq_cnt == 0 if due is None else (head.seq_id == due[0], head.seq_cnt - due[1], head.offset == due[2])

    def told(self, known: Known, head: Head, data: bytes, size: int) -> Hashable:
        """What rules ask about the payload."""
        if known.kind == DATA:
            return self.data(head.offset, size - (head.f_ctl & FILL)) if head.f_ctl & OFFSET_HELD else size
        content = data[known.fc_at + HEAD_SIZE :]
        if size >= LEAST[known.kind] > len(content):
            return None  # cut, so that no rule reads it
        if size < LEAST[known.kind]:
            self.is_taken = True
            return None
        return self.command(content, size) if known.kind == COMMAND else self.ready(content, size) if known.kind == READY else self.response(content, size)

    def command(self, content: bytes, size: int) -> Hashable:
        self.length, self.flags = number(content[28:32]), content[11]
        return content[9] & 7, content[10], content[11], self.length > 0, size == 32 + 4 * (content[11] >> 2)

    def ready(self, content: bytes, size: int) -> Hashable:
        at, burst = number(content[:4]), number(content[4:8])
        self.begin, self.end = at, at + burst
        return size == 12, at == self.moved, 0 < burst, self.end <= self.length

    def response(self, content: bytes, size: int) -> Hashable:
        flags = content[10]
        told = (number(content[16:20]) if flags & SENSE_HELD else 0) + (number(content[20:24]) if flags & CODE_HELD else 0)
        under = number(content[12:16]) if flags & UNDER else 0
        return flags, content[11], size == 24 + told, under == self.length - self.moved

    def data(self, offset: int, size: int) -> Hashable:
        self.moved += size
        return offset + size <= self.length, self.begin <= offset and offset + size <= self.end



class Sieve:
    """Goes over the frames of a port once."""

    def __init__(self, frames: Frames, is_two_way: bool) -> None:
        self.frames, self.is_two_way = frames, is_two_way
        self.taken = bytearray(len(frames))
        self.left_out = 0
        self.epoch = 0
        self.seen: set[Hashable] = set()
        self.largest: dict[int, int] = {}
        self.second, self.heard_from = -1, set[int]()
        self.open: dict[Key, Unit] = {}
        self.unanswered: set[Hashable] = set()  # what was taken of commands that have no answer
        self.answered: dict[Key, tuple[int, bool]] = {}  # where the latest responses stand, and whether they were taken
        self.senders: dict[bytes, int] = {}
        self.known = [self.known_of(it) for it in frames.flows]
        self.basic = [it.heard.fc if it.heard.is_fcoe and it.heard.fc and it.heard.fc.kind == BASIC else None for it in frames.flows]
        self.is_beat = [it.heard.operation in (KEEP_ALIVE, ADVERTISE) or not it.heard.is_fabric for it in frames.flows]

    def known_of(self, flow: Flow) -> Optional[Known]:
        fc = flow.heard.fc if flow.heard.is_fcoe else None
        if fc is None or fc.kind != FCP or fc.r_ctl not in (DATA, READY, COMMAND, RESPONSE):
            return None
        who = flow.heard.data[6 : flow.heard.at] + flow.heard.data[fc.at + 4 : fc.at + 8]  # source and tag, CS_CTL and S_ID
        return Known(fc.at, fc.r_ctl, fc.s_id, fc.d_id, self.senders.setdefault(who, len(self.senders)))

    def sifted(self) -> bytearray:
        """For each place 1 where the rules look at it."""
        moments = self.frames.moments
        for at, flow in enumerate(self.frames.flow_of):
            known = self.known[flow]
            if known is not None and self.frames.sizes[at] >= known.fc_at + HEAD_SIZE:
                if moments[at] // SECOND != self.second:
                    self.second = moments[at] // SECOND
                    self.heard_from.clear()
                self.take(at, flow, known)
                continue
            self.taken[at] = 1
            self.take_basic(at, self.basic[flow])
            if not self.is_beat[flow]:
                self.epoch += 1
                self.seen.clear()
                self.largest.clear()
        for unit in self.open.values():
            self.abandon(unit)
        return self.taken

    def take_basic(self, at: int, fc: Optional[Fc]) -> None:
        """The command that an ABTS is of is taken too."""
        if fc is None:
            return
        ox_id = number(self.frames.data(at)[fc.at + OX_ID_AT : fc.at + OX_ID_AT + 2])
        for key in ((fc.s_id, fc.d_id, ox_id), (fc.d_id, fc.s_id, ox_id)):
            if key in self.open:
                self.open[key].is_taken = True

    def abandon(self, unit: Unit) -> None:
        """Of commands without an answer that are alike one is taken every ten seconds, and of each sender one every second."""
        moment = self.frames.moments[unit.places[0]]
        marks: set[Hashable] = {(unit.epoch, tuple(unit.signs), moment // OPEN_SPAN), *((moment // SECOND, it) for it in unit.senders)}
        if unit.is_taken or not marks <= self.unanswered:
            self.unanswered |= marks
            self.keep(unit)
        else:
            self.left_out += len(unit.places)

    def keep(self, unit: Unit) -> None:
        for at in unit.places:
            self.taken[at] = 1

    def take(self, at: int, flow: int, known: Known) -> None:
        """A frame of FCP, with the command that it belongs to."""
        data, length = self.frames.data(at), self.frames.lengths[at]
        head, size = head_of(data, known.fc_at), length - known.fc_at - HEAD_SIZE - BEHIND
        back = head.f_ctl & RESPONDER
        key = (known.d_id, known.s_id, head.ox_id) if back else (known.s_id, known.d_id, head.ox_id)
        if known.kind == RESPONSE and self.is_sent_on(at, known, key):
            return
        is_command = known.kind == COMMAND and not back
        unit = self.unit_of(key, is_command and not self.is_again(at, known, key))
        unit.has_command |= is_command
        sound = soundness(data, known.fc_at) if len(data) == length else None
        sign = (flow, head.f_ctl, head.df_ctl, sound, size & 3, unit.order(head), unit.given(head.rx_id), unit.told(known, head, data, size))
        if not unit.signs or unit.signs[-1] != sign:
            unit.signs.append(sign)
            unit.senders.add(known.sender)
        unit.places.append(at)
        if size > self.largest.get(flow, -1):
            self.largest[flow] = size
            unit.is_taken = True
        if head.f_ctl & END_SEQUENCE:
            unit.running.pop(back, None)
            self.may_close(key, unit, known.kind, bool(back))
        else:
            unit.running[back] = head.seq_id, (head.seq_cnt + 1) & 0xFFFF, head.offset + size - (head.f_ctl & FILL)

    def is_alike(self, at: int, known: Known, there: int) -> bool:
        """The same FC frame as at another place, as the switch sends on what goes to another N_Port of a link."""
        other = self.known[self.frames.flow_of[there]]
        return other is not None and other.sender != known.sender and self.frames.data(at)[known.fc_at :] == self.frames.data(there)[other.fc_at :]

    def is_again(self, at: int, known: Known, key: Key) -> bool:
        """The command that is open, sent on."""
        return key in self.open and self.is_alike(at, known, self.open[key].places[0])

    def is_sent_on(self, at: int, known: Known, key: Key) -> bool:
        """A response that was there, sent on; it is taken where that was."""
        there, is_taken = self.answered.get(key, (-1, False))
        if key in self.open or there < 0 or not self.is_alike(at, known, there):
            return False
        self.taken[at] = is_taken
        self.left_out += not is_taken
        return True

    def unit_of(self, key: Key, is_command: bool) -> Unit:
        """The command that a frame belongs to; a further one with the OX_ID of an open one is taken with it."""
        found = self.open.get(key)
        if found is not None and not is_command:
            return found
        made = Unit(self.epoch, is_command)
        if found is not None and self.is_two_way:
            self.keep(found)
            made.is_taken = True
        elif found is not None:
            self.close(found)
        elif len(self.open) >= MOST_OPEN:
            self.abandon(self.open.pop(next(iter(self.open))))
        self.open[key] = made
        return made

    def may_close(self, key: Key, unit: Unit, kind: int, is_back: bool) -> None:
        """A command ends with its response; where one direction is there alone, with what its own side sends. One that isn't there ends with each sequence."""
        is_over = kind == RESPONSE or not unit.has_command
        if kind == RESPONSE and not unit.has_command and self.is_two_way:
            unit.is_taken = True
        if not self.is_two_way and not is_back and (not unit.flags & WRITES or unit.moved >= unit.length):
            is_over = True
        if is_over:
            is_taken = self.close(unit)
            self.open.pop(key, None)
            if kind == RESPONSE:
                if len(self.answered) >= MOST_OPEN:
                    self.answered.clear()
                self.answered[key] = unit.places[-1], is_taken

    def close(self, unit: Unit) -> bool:
        """Takes a command, or leaves it out; whether it's taken."""
        signs = tuple(unit.signs)
        is_alike = unit.epoch == self.epoch and signs in self.seen and unit.senders <= self.heard_from
        if is_alike and not unit.is_taken:
            self.left_out += len(unit.places)
            return False
        self.keep(unit)
        self.heard_from |= unit.senders
        if unit.epoch == self.epoch:
            self.seen.add(signs)
        return True
