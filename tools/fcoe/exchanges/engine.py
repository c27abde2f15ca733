"""Exchanges out of FC frames, as they come: open ones are kept, ended ones are handed on, so that memory follows what is open and not the capture."""
from collections import Counter, OrderedDict
from dataclasses import dataclass, field
from typing import Callable, Iterable, Optional

from .exchange import NO_BYTES, UNKNOWN, End, Exchange, Kind, Sequence, View
from .frame import CT_REPLY, DATA, ELS, END_SEQUENCE, EXTENDED, FCP, FROM_RESPONDER, HAS_OFFSET, LAST_SEQUENCE, NVME, RESPONSE, FcFrame
from .reading import (
    concerned,
    kind_of,
    number,
    opened,
    place_text,
    take_basic,
    take_ct_reply,
    take_els_reply,
    take_link_control,
    take_response,
)
from .spans import Spans

Key = tuple[int, bytes, int, int, int]  # VLAN, ENode (in FIP), originator, responder, OX_ID
SECOND = 1_000_000_000
LINGERS, LINGERS_AMISS = SECOND // 10, 30 * SECOND  # that an ended exchange waits for a late copy, and for the abort that follows what is amiss
FLUSHES = SECOND // 100
AT_ONCE = SECOND  # a host that has no answer waits longer (E_D_TOV is 2 s) before it gives another request the same numbers
EARLY = SECOND // 20  # that a frame waits for the request that it belongs to, which stands behind it where clocks differ a little
MOST_OPEN, MOST_LINGERING, MOST_EARLY, MOST_GRANTS = 100_000, 4096, 1024, 20_000
THIRD_PARTY, ALL_PARTIES = 0x2000, 0x1000  # flags of a TPRLO
HEAD = 64  # bytes of data that are kept
TIME_LEFT = {Kind.FCP: 10 * SECOND, Kind.NVME: 10 * SECOND}  # that an answer may take; others 2 s (E_D_TOV)


@dataclass
class Scope:
    """What the captures can show: ports with both directions, and addresses that sent something."""

    two_way: set[int] = field(default_factory=set)
    sources: set[int] = field(default_factory=set)
    until: int = 0  # the last moment of the captures

    def shows_answers(self, it: Exchange) -> bool:
        return it.responder in self.sources or not self.two_way.isdisjoint(it.views)


@dataclass
class Grant:
    """An address that a switch granted to an ENode."""

    vlan: int
    address: int
    enode: bytes
    name: bytes
    switch: bytes
    moment: int
    place: tuple[int, int]


def logged_out_by(it: Exchange) -> set[int]:
    """Between whom a login or logout ends what is open: its two ends; of a TPRLO the third party and its responder, or all who are with that (FC-LS-2)."""
    flags = number(it.request[6:8]) if it.command == "TPRLO" and len(it.request) >= 20 else 0
    if flags & ALL_PARTIES:
        return {it.responder}
    return {number(it.request[17:20]), it.responder} if flags & THIRD_PARTY else {it.originator, it.responder}


@dataclass
class Engine:
    """Takes frames in the order of time; `ended` gets each exchange once, when nothing more is to come."""

    ended: Callable[[Exchange], None]
    scope: Scope = field(default_factory=Scope)
    live: "OrderedDict[Key, Exchange]" = field(default_factory=OrderedDict)
    well: "OrderedDict[Key, int]" = field(default_factory=OrderedDict)  # ended ones that linger, until when
    amiss: "OrderedDict[Key, int]" = field(default_factory=OrderedDict)  # and those that linger longer
    early: "OrderedDict[Key, list[FcFrame]]" = field(default_factory=OrderedDict)  # frames without a request, yet
    names: dict[int, bytes] = field(default_factory=dict)  # port names of addresses
    grants: list[Grant] = field(default_factory=list)
    clock: int = 0
    due: int = 0  # when those that linger are looked at again
    strays: Counter[str] = field(default_factory=Counter)  # frames of exchanges whose begin isn't there, that say nothing of their own
    crowded: int = 0  # open exchanges that were given up for want of room

    def take(self, frame: FcFrame) -> None:
        if frame.moment > self.clock:
            self.clock = frame.moment
        if self.clock >= self.due:
            self.flush()
            self.due = self.clock + FLUSHES
        if frame.is_data and self.more_data(frame):
            return
        key, exchange = self.find(frame)
        if frame.role.is_request and (exchange is None or self.is_anew(exchange, frame)):
            if exchange is not None:
                is_at_once = frame.moment - exchange.began < AT_ONCE and frame.payload[:256] != exchange.request
                self.close(key, End.NOT_CAPTURED if is_at_once else End.UNANSWERED)
            self.add(key, self.begin(key, frame), frame)
            for it in self.early.pop(key, []):
                if key in self.live:
                    self.add(key, self.live[key], it)
        elif exchange is not None:
            self.add(key, exchange, frame)
        else:
            self.wait(key, frame)

    def more_data(self, frame: FcFrame) -> bool:
        """Takes data of an open exchange that come in their order, as most frames of a capture do; all others go the longer way."""
        is_back = bool(frame.f_ctl & FROM_RESPONDER)
        ends = (frame.d_id, frame.s_id) if is_back else (frame.s_id, frame.d_id)
        exchange = self.live.get((frame.vlan, b"", *ends, frame.ox_id))
        view = exchange.views.get(frame.port) if exchange is not None else None
        sequences = exchange.sequences if exchange is not None else None
        sequence = sequences.get((is_back, frame.seq_id)) if sequences is not None else None
        if exchange is None or view is None or sequences is None or sequence is None or not frame.is_intact:
            return False
        if sequence.last + 1 != frame.seq_cnt or sequence.is_ended or sequence.r_ctl != frame.r_ctl or len(sequence.counts.ends) != 1:
            return False
        exchange.frames += 1
        exchange.until, exchange.last = max(exchange.until, frame.moment), (frame.port, frame.number)
        view.kinds["data"] = view.kinds.get("data", 0) + 1
        view.longest = max(view.longest, frame.length)
        sequence.last, sequence.counts.ends[0] = frame.seq_cnt, frame.seq_cnt + 1
        if frame.f_ctl & END_SEQUENCE:
            del sequences[is_back, frame.seq_id]
        self.take_data(exchange, frame)
        return True

    def add(self, key: Key, exchange: Exchange, frame: FcFrame) -> None:
        self.note_frame(exchange, frame)
        self.take_into(key, exchange, frame)

    def wait(self, key: Key, frame: FcFrame) -> None:
        """A frame of an exchange that isn't open waits a little for its request."""
        self.early.setdefault(key, []).append(frame)
        if len(self.early) > MOST_EARLY or len(self.early[key]) > HEAD:
            self.give_up(next(iter(self.early)))

    def give_up(self, key: Key) -> None:
        """The frames that waited have no request in the capture."""
        for frame in self.early.pop(key):
            exchange = self.live.get(key) or self.half(key, frame)
            if exchange is not None:
                self.add(key, exchange, frame)

    def take_all(self, frames: Iterable[FcFrame]) -> "Engine":
        for frame in frames:
            self.take(frame)
        self.finish()
        return self

    # ---- which exchange

    def key_of(self, frame: FcFrame, is_from_responder: bool) -> Key:
        if frame.enode:
            return frame.vlan, frame.enode, 0, 0, frame.ox_id
        ends = (frame.d_id, frame.s_id) if is_from_responder else (frame.s_id, frame.d_id)
        return frame.vlan, b"", *ends, frame.ox_id

    def find(self, frame: FcFrame) -> tuple[Key, Optional[Exchange]]:
        """The exchange of a frame, by what it is; of data and ABTS by F_CTL, or else by which of the two is open."""
        if frame.role.is_request or frame.role.is_reply:
            key = self.key_of(frame, frame.role.is_reply)
            return key, self.live.get(key)
        key = self.key_of(frame, frame.is_from_responder)
        if key not in self.live:
            other = self.key_of(frame, not frame.is_from_responder)
            if other in self.live:
                key = other
        return key, self.live.get(key)

    @staticmethod
    def is_anew(exchange: Exchange, frame: FcFrame) -> bool:
        """A request that begins another exchange with the same numbers, and isn't a further sight of the same one."""
        view = exchange.views.get(frame.port)
        sights = view.kinds.get("request", 0) + view.kinds.get("command", 0) if view is not None else 0
        is_turned = sights == 1 and frame.is_from_switch and not exchange.is_from_switch  # both N_Ports are on this port
        return sights > 0 and not is_turned or exchange.request != frame.payload[:256] or frame.moment - exchange.began > 2 * SECOND

    def begin(self, key: Key, frame: FcFrame) -> Exchange:
        if len(self.live) >= MOST_OPEN:
            self.crowded += 1
            self.close(next(iter(self.live)), None)
        exchange = self.live[key] = opened(frame)
        told = concerned(frame)
        if told is not None:
            self.mark(told, frame)
        if exchange.command in ("PLOGI", "LOGO", "PRLO", "TPRLO", "FLOGI"):
            self.log_out(exchange)
        if exchange.command in ("PLOGI", "PDISC") and len(frame.payload) >= 28:
            self.names[frame.s_id] = frame.payload[20:28]
        return exchange

    def half(self, key: Key, frame: FcFrame) -> Optional[Exchange]:
        """An exchange that is met in its middle; only what tells how it ends is one."""
        says_more = frame.role.is_reply and frame.role.word not in ("XFER_RDY", "ACK_1", "ACK_0") or frame.role.word == "ABTS"
        if not says_more:
            self.strays[frame.role.word] += 1
            return None
        made = Exchange(kind_of(frame), UNKNOWN, key[2], key[3], frame.ox_id, frame.vlan, frame.moment, frame.place, frame.enode)
        self.live[key] = made
        return made

    # ---- what a frame adds

    def note_frame(self, exchange: Exchange, frame: FcFrame) -> None:
        """Counts a frame, by port and by sequence."""
        exchange.frames += 1
        exchange.until, exchange.last = max(exchange.until, frame.moment), frame.place
        view = exchange.views.get(frame.port)
        if view is None:
            view = exchange.views[frame.port] = View()
        word = frame.role.word
        view.kinds[word] = view.kinds.get(word, 0) + 1
        view.longest = max(view.longest, frame.length)
        if not frame.is_intact:
            exchange.broken += (frame.place,)
            exchange.broken_by_host += not frame.is_from_switch
        if frame.is_from_responder and frame.rx_id != 0xFFFF:
            exchange.rx_id = frame.rx_id
        if not frame.enode and frame.type in (FCP, NVME, ELS, 0x20):
            self.note_sequence(exchange, frame)

    @staticmethod
    def note_sequence(exchange: Exchange, frame: FcFrame) -> None:
        """The frame's place in its sequence; a sequence that is whole is forgotten."""
        key = (frame.is_from_responder, frame.seq_id)
        sequences = exchange.sequences
        sequence = sequences.get(key) if sequences is not None else None
        if sequence is None or sequence.r_ctl != frame.r_ctl or sequence.is_ended and not sequence.holes:
            if frame.ends_sequence:  # it is the whole of it
                if sequences is not None:
                    sequences.pop(key, None)
                return
            if sequences is None:
                sequences = exchange.sequences = {}
            sequence = sequences[key] = Sequence(frame.r_ctl, frame.seq_cnt)
        sequence.counts.add(frame.seq_cnt, frame.seq_cnt + 1)
        sequence.first, sequence.last = min(sequence.first, frame.seq_cnt), max(sequence.last, frame.seq_cnt)
        sequence.is_ended = sequence.is_ended or frame.ends_sequence
        if sequences is not None and sequence.is_ended and not sequence.holes:
            del sequences[key]

    def take_into(self, key: Key, exchange: Exchange, frame: FcFrame) -> None:
        """What a frame means for its exchange."""
        if frame.r_ctl & 0xF0 == 0xC0:
            take_link_control(exchange, frame)
            if exchange.end is End.RETURNED:
                self.answered(key, exchange, frame)
        elif frame.type == 0x00:
            before = exchange.end
            take_basic(exchange, frame)
            if exchange.end is not before and exchange.end is not End.ABORT_UNANSWERED:
                self.linger(key, exchange)
        elif frame.type in (FCP, NVME):
            self.take_fcp(key, exchange, frame)
        elif frame.role.is_reply:
            self.take_reply(key, exchange, frame)

    def take_fcp(self, key: Key, exchange: Exchange, frame: FcFrame) -> None:
        if frame.r_ctl == DATA:
            self.take_data(exchange, frame)
        elif frame.r_ctl in (RESPONSE, EXTENDED) and exchange.status is None:
            if frame.type == FCP:
                take_response(exchange, frame.payload)
            else:
                exchange.end, exchange.says = End.DONE, "response"
            exchange.reply = frame.payload[:256]
            self.answered(key, exchange, frame)

    @staticmethod
    def take_data(exchange: Exchange, frame: FcFrame) -> None:
        """Data at its offset; what a receiver throws away for its check sequence didn't come."""
        if not frame.is_intact:
            return
        view = exchange.views[frame.port]
        if view.data is NO_BYTES:
            view.data = Spans()
        if exchange.data is NO_BYTES:
            exchange.data = Spans()
        offset = frame.parameter if frame.f_ctl & HAS_OFFSET else view.data.ends[-1] if view.data.ends else 0
        view.data.add(offset, offset + frame.size)
        view.data_frames += 1
        exchange.data.add(offset, offset + frame.size)
        if offset == 0 and not exchange.head:
            exchange.head = frame.payload[:HEAD]

    def take_reply(self, key: Key, exchange: Exchange, frame: FcFrame) -> None:
        """An answer of link services or CT, in one frame or several."""
        if exchange.answer is None:
            exchange.reply = frame.payload
            if frame.type == ELS:
                take_els_reply(exchange, frame.payload)
                self.learn(exchange, frame)
            elif frame.r_ctl == CT_REPLY:
                take_ct_reply(exchange, frame.payload)
        elif frame.place not in (exchange.answer,) and len(exchange.reply) < 16384 and frame.port == exchange.answer[0]:
            exchange.reply += frame.payload
        if frame.type == 0x20 and (frame.ends_sequence or frame.f_ctl & LAST_SEQUENCE):
            exchange.end = End.REJECTED if exchange.codes else End.DONE
        self.answered(key, exchange, frame)

    def answered(self, key: Key, exchange: Exchange, frame: FcFrame) -> None:
        if exchange.answer is None:
            exchange.answer, exchange.answered = frame.place, frame.moment
        if exchange.end is not None:
            self.linger(key, exchange)

    def learn(self, exchange: Exchange, frame: FcFrame) -> None:
        """Which port name an address has, by accepts of logins."""
        if exchange.end is not End.DONE:
            return
        if exchange.command in ("FLOGI", "FDISC") and len(exchange.request) >= 28:
            self.names[frame.d_id] = exchange.request[20:28]
            if frame.enode and len(self.grants) < MOST_GRANTS:
                self.grants.append(Grant(frame.vlan, frame.d_id, frame.enode, exchange.request[20:28], frame.switch, frame.moment, frame.place))
        elif exchange.command == "PLOGI" and len(frame.payload) >= 28:
            self.names[frame.s_id] = frame.payload[20:28]

    def mark(self, told: tuple[str, int, int], frame: FcFrame) -> None:
        """Notes a REC, SRR or RRQ in the exchange that it is about."""
        word, originator, ox_id = told
        pairs = [(originator, frame.d_id), (originator, frame.s_id)] if originator else [(frame.s_id, frame.d_id), (frame.d_id, frame.s_id)]
        for ends in pairs:
            found = self.live.get((frame.vlan, b"", *ends, ox_id))
            if found is not None:
                found.marks += (f"{word} in {place_text(frame.place)}",)
                return

    def log_out(self, exchange: Exchange) -> None:
        """A login anew or a logout ends what is open between the two."""
        if exchange.kind is Kind.FIP:
            return
        whom = logged_out_by(exchange)
        own = [key for key, it in self.live.items() if it is not exchange and it.end is None and it.kind in (Kind.FCP, Kind.NVME) and whom <= {it.originator, it.responder}]
        for key in own:
            self.live[key].marks += (f"{exchange.command} in {place_text(exchange.first)}",)
            self.close(key, End.LOGGED_OUT)

    # ---- the end

    def linger(self, key: Key, exchange: Exchange) -> None:
        """An ended exchange stays for late copies on other ports; where something is amiss, for the abort that may follow."""
        is_well = exchange.end is End.DONE and not exchange.lacks
        self.well.pop(key, None)
        self.amiss.pop(key, None)
        waiting = self.well if is_well else self.amiss
        waiting[key] = self.clock + (LINGERS if is_well else LINGERS_AMISS)
        if len(waiting) > MOST_LINGERING:
            self.close(next(iter(waiting)), None)

    def flush(self) -> None:
        """Hands on those that lingered long enough."""
        for waiting in (self.well, self.amiss):
            while waiting:
                key = next(iter(waiting))
                if waiting[key] > self.clock:
                    break
                self.close(key, None)
        while self.early:
            key = next(iter(self.early))
            if self.early[key][0].moment + EARLY > self.clock:
                break
            self.give_up(key)

    def close(self, key: Key, end: Optional[End]) -> None:
        exchange = self.live.pop(key)
        self.well.pop(key, None)
        self.amiss.pop(key, None)
        if exchange.end is None and exchange.answer is not None and exchange.kind is Kind.CT:
            exchange.says += ", of which the last frame lacks"
        if exchange.end is None:
            exchange.end = end or End.OPEN
        if exchange.end in (End.UNANSWERED, End.OPEN) and not self.scope.shows_answers(exchange):
            exchange.end = End.NOT_CAPTURED
        self.ended(exchange)

    def finish(self) -> None:
        """The capture's end: what is open has no answer, unless one may come yet."""
        for key in list(self.early):
            self.give_up(key)
        for key in list(self.live):
            it = self.live[key]
            left = max(self.clock, self.scope.until) - it.began
            is_late = left > TIME_LEFT.get(it.kind, 2 * SECOND)
            self.close(key, End.UNANSWERED if is_late else End.OPEN)


__all__ = ["Engine", "Grant", "Scope"]
