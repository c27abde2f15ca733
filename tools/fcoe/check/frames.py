"""Rules on each frame: Ethernet, tag, FCoE, delimiters, check sequence, F_CTL, counts, sizes (IEEE 802.3, 802.1Q, FC-BB-5, FC-FS-3)."""
from collections import Counter
from dataclasses import dataclass, field
from typing import Iterator, Optional

from ..frames.fields import DELIMITERS, delimiter
from ..frames.heard import EOFN, EOFT, SOFI3, SOFN3, Fc, fc_check, fcid, number
from .exchanged import END_SEQUENCE, RESPONDER
from .rules import ONE_WAY, Fault, Group, Tally, want
from .shown import Shown
from .talk import Talk

SHORTEST, LONGEST_PAYLOAD = 60, 2112
FIRST_SEQUENCE, INITIATIVE, OFFSET_HELD, FILL = 0x200000, 0x010000, 0x000008, 3
SOFI2 = 0x2D
SOFS = {code for code, name in DELIMITERS.items() if name.startswith("SOF")}
EOFS = {code for code, name in DELIMITERS.items() if name.startswith("EOF")}
RULES = Group("frames")


def is_padded(it: Shown) -> bool:
    """FIP with bytes behind its list, up to the shortest frame."""
    heard = it.heard
    return heard.is_fip and it.is_whole and len(heard.data) == SHORTEST > heard.at + 10 + sum(len(one.data) for one in heard.descriptors)


@RULES.rule("ethernet-padding", "IEEE 802.3, minimum frame size", "Frames are padded to 60 bytes.")
def padding(talk: Talk, tally: Tally) -> None:
    """A capture on the sending host has its frames before they are padded."""
    short = [it for it in talk.own if it.is_whole and len(it.heard.data) < SHORTEST]
    padded = any(is_padded(it) for it in talk.own)
    for it in short:
        if padded:
            tally.judge(it, Fault("length", f"{len(it.heard.data)} bytes", f"{SHORTEST}, as of other frames of this host"))
        else:
            tally.leave("a capture on the sending host has its frames before they are padded to 60 bytes", it)
    if not short:
        tally.held += [it for it in talk.own if it.is_whole]


@RULES.rule("tag-priority", "IEEE 802.1Q, priority", "FCoE of an ENode has one priority.", is_choice=True)
def tagged(talk: Talk, tally: Tally) -> None:
    """One priority for all FCoE of an ENode, so that the order is kept."""
    def priority(it: Shown) -> int:
        return it.heard.data[14] >> 5

    sent = [it for it, _ in talk.in_fcoe() if it.heard.at == 18]
    if sent:
        most = Counter(map(priority, sent)).most_common(1)[0][0]
        for it in sent:
            tally.usual(it, want("priority of the tag", priority(it), f"{most}, as in the other frames", priority(it) == most))


@RULES.rule("fcoe-form", "FC-BB-5, FCoE frame format", "Version 0, reserved bytes 0, a payload of 0 to 2112 bytes in words.")
def encapsulated(talk: Talk, tally: Tally) -> None:
    for it in talk.own:
        heard = it.heard
        if not heard.is_fcoe or not it.is_whole:
            continue
        size = len(heard.data) - heard.at - 14 - 8 - 24
        head = heard.data[heard.at : heard.at + 13]
        tally.judge(
            it,
            want("FC payload", f"{size} bytes", "0 to 2112 bytes, in words of four", 0 <= size <= LONGEST_PAYLOAD and size % 4 == 0),
            want("FCoE version", head[0] >> 4 if head else "none", 0),
            want("reserved bytes of FCoE", f"{head[0] & 15:x}{head[1:].hex()}" if head else "", "0" * 25) if size >= 0 else None,
            want("reserved bytes after EOF", heard.data[-3:].hex(), "000000"),
        )


def whole(talk: Talk) -> Iterator[tuple[Shown, Fc]]:
    return ((it, fc) for it, fc in talk.in_fcoe() if it.is_whole)


@RULES.rule("delimiter-codes", "FC-BB-5, FCoE frame format, SOF and EOF codes", "SOF and EOF have codes of the table.")
def delimited(talk: Talk, tally: Tally) -> None:
    for it, _ in whole(talk):
        start, end = it.heard.data[it.heard.at + 13], it.heard.data[it.heard.eof_at]
        tally.judge(it, want("SOF", f"{start:02x}", "a code of the table", start in SOFS), want("EOF", f"{end:02x}", "a code of the table", end in EOFS))


def sequence_key(fc: Fc) -> tuple[int, int, int, int, bool]:
    """What the frames of a sequence have in common."""
    return fc.s_id, fc.d_id, fc.ox_id, fc.data[fc.at + 12], bool(fc.f_ctl & RESPONDER)


@RULES.rule("sof", "FC-FS-3, frame delimiters, class 3", "SOFi3 stands on the first frame of a sequence, SOFn3 on the others.")
def started(talk: Talk, tally: Tally) -> None:
    """In class 3 SOFi3 stands on the first frame of a sequence, SOFn3 on the others."""
    running: dict[tuple[int, int, int, int, bool], int] = {}
    for it, fc in whole(talk):
        start = it.heard.data[it.heard.at + 13]
        key = sequence_key(fc)
        goes_on = key in running and fc.seq_cnt == running[key] + 1
        if start == SOFI3 and goes_on:  # or the last frame of a sequence before it is missing
            tally.lack(key, it, Fault("SOF", delimiter(start), f"{delimiter(SOFN3)}, as SEQ_CNT {fc.seq_cnt} says"))
        elif start in (SOFI3, SOFN3) and (goes_on or key not in running and fc.seq_cnt == 0):
            should = SOFN3 if goes_on else SOFI3
            tally.judge(it, want("SOF", delimiter(start), f"{delimiter(should)}, as SEQ_CNT {fc.seq_cnt} says", start == should))
        running[key] = fc.seq_cnt
        if fc.f_ctl & END_SEQUENCE:
            running.pop(key)


@RULES.rule("eof", "FC-FS-3, frame delimiters, class 3", "EOFt stands on the last frame of a sequence, EOFn on the others.")
def ended(talk: Talk, tally: Tally) -> None:
    """In class 3 EOFt stands on the last frame of a sequence, EOFn on the others."""
    for it, fc in whole(talk):
        start, end = it.heard.data[it.heard.at + 13], it.heard.data[it.heard.eof_at]
        if end in (EOFN, EOFT) and start in (SOFI3, SOFN3):
            should = EOFT if fc.f_ctl & END_SEQUENCE else EOFN
            tally.judge(it, want("EOF", delimiter(end), f"{delimiter(should)}, as F_CTL {fc.f_ctl:06x} says", end == should))


@RULES.rule("crc", "FC-FS-3, CRC", "The check sequence is right.")
def checked(talk: Talk, tally: Tally) -> None:
    """A check sequence that the Ethernet port fills in stands in no capture of the sending host."""
    wrong: list[tuple[Shown, str, str]] = []
    for it, fc in whole(talk):
        stands, should = it.heard.data[fc.end : fc.end + 4], fc_check(it.heard.data[fc.at : fc.end])
        if stands == should:
            tally.held.append(it)
        else:
            wrong.append((it, stands.hex(), should.hex()))
    for it, stood, right in wrong:
        if tally.held:
            tally.judge(it, Fault("CRC", stood, right))
        else:
            tally.leave("no frame of this host has its CRC: the Ethernet port fills it in after the capture", it)


@RULES.rule("f-ctl", "FC-FS-3, F_CTL", "A request comes from the exchange's originator in the first sequence, a reply from its responder.")
def controlled(talk: Talk, tally: Tally) -> None:
    """What F_CTL says of requests and replies."""
    for it, fc in whole(talk):
        bits = fc.f_ctl
        if fc.r_ctl in (0x22, 0x02, 0x06) and fc.seq_cnt == 0:
            tally.judge(it, want("F_CTL", f"{bits:06x}", "exchange originator, first sequence", not bits & RESPONDER and bool(bits & FIRST_SEQUENCE)))
        elif fc.r_ctl in (0x23, 0x03, 0x05, 0x07):
            tally.judge(it, want("F_CTL", f"{bits:06x}", "exchange responder", bool(bits & RESPONDER)))


@RULES.rule("f-ctl-initiative", "FC-FS-3, F_CTL, sequence initiative", "Sequence initiative goes over with the last frame of a sequence.", is_choice=True)
def initiative(talk: Talk, tally: Tally) -> None:
    for it, fc in whole(talk):
        if fc.f_ctl & INITIATIVE:
            tally.usual(it, want("F_CTL", f"{fc.f_ctl:06x}", "sequence initiative with the end of a sequence alone", bool(fc.f_ctl & END_SEQUENCE)))


@dataclass
class Counted:
    """A sequence under way: the SEQ_CNT that is due, and the relative offset, below 0 where none is told."""

    due: int
    offset: int = -1
    seen: set[int] = field(default_factory=set)  # of the frames before, so that one that stands twice is known

    def is_next(self, fc: Fc) -> bool:
        return self.offset >= 0 and bool(fc.f_ctl & OFFSET_HELD) and offset_of(fc) == self.offset


def offset_of(fc: Fc) -> int:
    """PARAMETER, which is the relative offset where F_CTL says so."""
    return number(fc.data[fc.at + 20 : fc.at + 24])


@RULES.rule("seq-cnt", "FC-FS-3, SEQ_CNT", "It begins at 0 with each side's first sequence of an exchange and goes up by one within a sequence.")
def counted(talk: Talk, tally: Tally) -> None:
    """SEQ_CNT of the frames of a sequence goes up by one; where the relative offset goes on, no frame is missing."""
    running: dict[tuple[int, int, int, int, bool], Counted] = {}
    for it, fc in whole(talk):
        key, start = sequence_key(fc), it.heard.data[it.heard.at + 13]
        due, mark = running.get(key), hash(it.heard.data)
        count = fc.seq_cnt
        if due is not None and mark in due.seen:
            tally.leave("the same frame twice in the capture", it)
            continue
        if start in (SOFI3, SOFI2) or due is None:
            is_reply = fc.r_ctl in (0x23, 0x03) and fc.kind in (0x01, 0x20)  # the only sequence of its responder
            if (fc.f_ctl & FIRST_SEQUENCE or is_reply) and start in (SOFI3, SOFI2):
                tally.judge(it, want("SEQ_CNT", count, 0))
        elif count > due.due and not due.is_next(fc):
            tally.leave(f"SEQ_CNT {count} after {due.due - 1}: frames may be missing from the capture", it)
        else:
            tally.judge(it, want("SEQ_CNT", count, due.due))
            count = due.due
        size = len(fc.payload) - (fc.f_ctl & FILL)
        seen = due.seen if due is not None and start not in (SOFI3, SOFI2) else set[int]()
        running[key] = Counted((count + 1) & 0xFFFF, offset_of(fc) + size if fc.f_ctl & OFFSET_HELD else -1, seen)
        seen.add(mark)
        if fc.f_ctl & END_SEQUENCE:
            running.pop(key)


def size_in(payload: bytes) -> Optional[int]:
    """The receive size in a login's payload: that of class 3, or else the common one."""
    if len(payload) < 116:
        return None
    third = number(payload[74:76]) & 0xFFF if payload[68] & 0x80 else 0
    return third or number(payload[10:12]) & 0xFFF


def sizes(talk: Talk, by_switch: bool, tally: Tally) -> None:
    """Payloads of one side are no larger than what the other said it takes."""
    agreed: dict[tuple[int, int], int] = {}
    fabric: dict[int, int] = {}
    for it in talk.frames:
        fc = it.heard.fc
        if fc is None or not it.is_whole:
            continue
        is_login = it.heard.kind in ("PLOGI", "PDISC") or it.heard.kind == "LS_ACC" and len(fc.payload) >= 116
        size = size_in(fc.payload)
        if it.heard.is_fip and it.heard.kind in ("FLOGI accept", "FDISC accept") and size and not by_switch:
            fabric[fc.d_id] = size
        elif it.heard.is_fcoe and is_login and size:
            agreed[fc.s_id, fc.d_id] = size
        if it.heard.is_fcoe and it.is_switch == by_switch and not is_login:
            most = [one for one in (agreed.get((fc.d_id, fc.s_id)), fabric.get(fc.s_id)) if one]
            if most:
                fault = want("FC payload", f"{len(fc.payload)} bytes", f"{min(most)} bytes at most, as the login of {fcid(fc.d_id)} or of the fabric says", len(fc.payload) <= min(most))
                tally.lack((fc.s_id, fc.d_id), it, fault, missing=2)  # of a further login
            elif len(fc.payload) > 256 and not talk.is_two_way:
                tally.leave(ONE_WAY, it)


@RULES.rule("receive-size", "FC-LS-2, receive data field size", "Payloads are no larger than what the fabric and the other N_Port take.")
def sizes_sent(talk: Talk, tally: Tally) -> None:
    sizes(talk, False, tally)
