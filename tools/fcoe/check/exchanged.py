"""Exchanges of frames that the rules of `look check` look at: the request, what followed it, and how it ended."""
from dataclasses import dataclass, field
from typing import Hashable, Optional

from ..frames.heard import LOGIN, LOGIN_REPLY, Fc
from .shown import Shown

RESPONDER, LAST_SEQUENCE, END_SEQUENCE = 0x800000, 0x100000, 0x080000
REQUESTS = (0x22, 0x02, 0x06)  # R_CTL of what begins an exchange: a link service, a CT_IU, an FCP command
ANSWERS_TO_ABTS, ACKNOWLEDGES = ("BA_ACC", "BA_RJT"), 0xC0
LOGIN_SIZE = 116  # bytes of a PLOGI and of its accept
UNANSWERED = ("LOGO", "TEST")  # who has no login may not answer the one, and nobody answers the other


@dataclass(eq=False)
class Exchange:
    """The frames of an exchange: the request, what followed it, and the frame that ended it."""

    request: Shown
    frames: list[Shown] = field(default_factory=list)
    reply: Optional[Shown] = None
    ended: Optional[Shown] = None
    aborted: Optional[Shown] = None
    reused: Optional[Shown] = None  # a further request with its OX_ID while it was open
    surplus: list[Shown] = field(default_factory=list)  # further ends of it that are no copies
    settled: Optional[Shown] = None  # the answer to its ABTS


def exchange_key(it: Shown) -> Optional[Hashable]:
    """What the frames of an exchange have in common: who began it, with whom, and its OX_ID."""
    heard, fc = it.heard, it.heard.fc
    if fc is None or fc.end < fc.payload_at:
        return None
    if heard.is_fip:
        return ("fip", heard.source if heard.operation == LOGIN else heard.destination, fc.ox_id)
    here, there = (fc.d_id, fc.s_id) if fc.f_ctl & RESPONDER else (fc.s_id, fc.d_id)
    return (here, there, fc.ox_id)


def is_request(it: Shown) -> bool:
    """Begins an exchange."""
    heard, fc = it.heard, it.heard.fc
    if heard.is_fip:
        return heard.operation == LOGIN and fc is not None
    return fc is not None and fc.r_ctl in REQUESTS and not fc.f_ctl & RESPONDER and fc.seq_cnt == 0


def is_end(it: Shown) -> bool:
    """Ends its exchange: the last frame of a reply, a response of FCP, or the answer to an ABTS."""
    heard, fc = it.heard, it.heard.fc
    if fc is None:
        return False
    if heard.is_fip:
        return heard.operation == LOGIN_REPLY
    if fc.kind == 0:
        return fc.r_ctl in (0x84, 0x85)
    return (fc.is_reply or fc.r_ctl == 0x07) and bool(fc.f_ctl & END_SEQUENCE)


def is_copy(it: Shown, other: Shown) -> bool:
    """The same FC frame once more, as the switch sends on what one N_Port of a host sent to another."""
    fc, sent = it.heard.fc, other.heard.fc
    return it.is_switch and not other.is_switch and fc is not None and sent is not None and fc.data[fc.at : fc.end] == sent.data[sent.at : sent.end]


def is_alike(it: Shown, other: Shown) -> bool:
    """The same FC frame once more."""
    fc, sent = it.heard.fc, other.heard.fc
    return fc is not None and sent is not None and fc.data[fc.at : fc.end] == sent.data[sent.at : sent.end]


class Exchanges:
    """All exchanges of some frames."""

    def __init__(self) -> None:
        self.all: list[Exchange] = []
        self.open: dict[Hashable, Exchange] = {}
        self.of_frame: dict[int, Exchange] = {}
        self.by_ends: dict[tuple[int, int], list[Exchange]] = {}  # in FCoE, by S_ID and D_ID
        self.since_logout: dict[frozenset[int], list[Exchange]] = {}  # in FCoE, by both addresses
        self.by_pair: dict[frozenset[int], list[Exchange]] = {}  # of PLOGI, PRLI and LOGO, by both addresses
        self.accepts: dict[frozenset[int], list[Shown]] = {}  # of PLOGIs, whose requests may be missing

    def begin(self, it: Shown, key: Hashable) -> Exchange:
        if it.heard.kind == "LOGO":
            self.log_out(it)
        found = self.open.get(key)
        if found and not found.ended and not found.reused:
            found.reused = it
        made = self.open[key] = Exchange(it)
        self.all.append(made)
        if it.heard.is_fcoe and it.fc:
            self.by_ends.setdefault((it.fc.s_id, it.fc.d_id), []).append(made)
            self.since_logout.setdefault(frozenset((it.fc.s_id, it.fc.d_id)), []).append(made)
        if it.heard.kind in ("PLOGI", "PRLI", "LOGO") and it.heard.is_fcoe and it.fc:
            self.by_pair.setdefault(frozenset((it.fc.s_id, it.fc.d_id)), []).append(made)
        return made

    def note_accept(self, it: Shown) -> None:
        """An LS_ACC that is as long as a PLOGI's or PDISC's says that one was accepted, where its request isn't in the capture."""
        fc = it.heard.fc
        if fc is not None and it.heard.is_fcoe and fc.r_ctl == 0x23 and len(fc.payload) >= LOGIN_SIZE and fc.payload[:1] == b"\x02":
            self.accepts.setdefault(frozenset((fc.s_id, fc.d_id)), []).append(it)

    def was_accepted(self, fc: Fc, since: int, at: int) -> bool:
        """An accept of a PLOGI between both ends of a frame stands between two places."""
        return any(since < it.at < at for it in self.accepts.get(frozenset((fc.s_id, fc.d_id)), []))

    def between(self, fc: Fc, kind: str, at: int) -> list[Exchange]:
        """The exchanges of a kind between both ends of a frame, before it."""
        return [it for it in self.asked(fc, kind) if it.request.at < at]

    def asked(self, fc: Fc, kind: str) -> list[Exchange]:
        """The same, whenever they are."""
        return [it for it in self.by_pair.get(frozenset((fc.s_id, fc.d_id)), []) if it.request.heard.kind == kind]

    def log_out(self, it: Shown) -> None:
        """A LOGO ends the exchanges between both N_Ports."""
        fc = it.heard.fc
        some = self.since_logout.pop(frozenset((fc.s_id, fc.d_id)), []) if fc else []
        for one in some:
            if not one.ended and self.open.get(exchange_key(one.request)) is one:
                one.ended = it

    def take(self, it: Shown) -> None:
        key = exchange_key(it)
        self.note_accept(it)
        if key is None:
            return
        found = self.open.get(key)
        if found is not None and any(is_copy(it, one) for one in found.frames[-3:]):
            self.of_frame[it.at] = found
            return
        if is_request(it):
            found = self.begin(it, key)
        if found is None:
            return
        self.of_frame[it.at] = found
        is_doubled = is_end(it) and any(is_alike(it, one) for one in found.frames)
        found.frames.append(it)
        fc = it.heard.fc
        is_reply = fc is not None and bool(fc.f_ctl & RESPONDER) if it.heard.is_fcoe else it.heard.operation == LOGIN_REPLY
        if is_reply and found.reply is None and not (it.heard.kind in ANSWERS_TO_ABTS or fc and fc.r_ctl & 0xF0 == ACKNOWLEDGES):
            found.reply = it
        if it.heard.kind == "ABTS":
            found.aborted = it
        if it.heard.kind in ANSWERS_TO_ABTS:
            found.settled = it
        if is_end(it):
            if found.ended is not None and not is_doubled:
                found.surplus.append(it)
            found.ended = it
