"""Rules on the fields of FC headers, and on delimiters of classes (FC-FS-3, FC-BB-5)."""
from typing import Iterator, Optional

from ..frames.fields import delimiter
from ..frames.heard import SOFI3, SOFN3, Fc, fc_check, fcid, number
from .exchanged import ACKNOWLEDGES, END_SEQUENCE, LAST_SEQUENCE, RESPONDER
from .rules import Group, Tally, want
from .shown import Shown
from .talk import Talk

SOFI2, SOFN2, EOFN, EOFT, EOFA = 0x2D, 0x35, 0x41, 0x42, 0x50
INITIATIVE, OFFSET_HELD = 0x010000, 0x000008
REQUESTS, REPLIES = (0x22, 0x02, 0x06), (0x23, 0x03, 0x07)
CONFIRM = 0x10  # FCP_CONF_REQ of an FCP_RSP
BASIC = {*range(0x80, 0x86), *range(0xC0, 0xC8)}
KNOWN = {*range(0x10), *range(0x20, 0x24), *range(0x30, 0x34), *range(0x40, 0x48), 0x50, 0x51, 0x52, *BASIC, *range(0xF0, 0xF8)}
OF_TYPE = {0x00: BASIC, 0x01: {*range(0x20, 0x24), *range(0x30, 0x34)}, 0x08: set(range(0x10)), 0x20: set(range(0x10))}
RESERVED_DF, ESP = 0x8C, 0x40
UNGIVEN = 0xFFFF
RULES = Group("headers")


def whole(talk: Talk) -> Iterator[tuple[Shown, Fc]]:
    return ((it, fc) for it, fc in talk.in_fcoe() if it.is_whole)


def has_class2(talk: Talk) -> bool:
    """The ENode offers class 2 in a FLOGI; or one may be missing, or is cut."""
    asked = [it for it in talk.logins if it.heard.login_kind == "FLOGI"]
    return not asked or any(not it.is_whole or len(it.known) >= 116 and it.known[52] & 0x80 for it in asked)


@RULES.rule("delimiter-class", "FC-BB-5, FCoE frame format; FC-FS-3, frame delimiters", "An N_Port's frames are of class 3, or of class 2 where it offers that, and end with EOFn or EOFt.")
def classed(talk: Talk, tally: Tally) -> None:
    starts = {SOFI3, SOFN3, *((SOFI2, SOFN2) if has_class2(talk) else ())}
    for it, fc in whole(talk):
        start, end = it.heard.data[it.heard.at + 13], it.heard.data[it.heard.eof_at]
        is_answer = start == SOFN2 and fc.r_ctl & 0xF0 == ACKNOWLEDGES  # of class 2 frames that came, which is their sender's doing
        is_sound = it.heard.data[fc.end : fc.end + 4] == fc_check(it.heard.data[fc.at : fc.end])
        tally.judge(
            it,
            want("SOF", delimiter(start), "of class 3, or of class 2 where the FLOGI offers it", start in starts or is_answer or delimiter(start) == f"{start:02x}"),
            want("EOF", delimiter(end), "EOFn or EOFt", end in (EOFN, EOFT) or delimiter(end) == f"{end:02x}" or end == EOFA and not is_sound),
        )


@RULES.rule("r-ctl", "FC-FS-3, R_CTL and TYPE", "R_CTL is one of the table, and one that its TYPE has.")
def routed(talk: Talk, tally: Tally) -> None:
    for it, fc in talk.in_fcoe():
        wanted = OF_TYPE.get(fc.kind)
        tally.judge(
            it,
            want("R_CTL", f"{fc.r_ctl:02x}", "one of the table", fc.r_ctl in KNOWN),
            want("R_CTL", f"{fc.r_ctl:02x}", f"one of TYPE {fc.kind:02x}", fc.r_ctl not in KNOWN or wanted is None or fc.r_ctl in wanted),
        )


def is_readable(it: Shown) -> bool:
    """What stands at the begin of the payload is what the frame is, so that no further header is before it."""
    return it.heard.kind not in ("ELS", "CT", "FCP", "BLS", "FCoE") and not it.heard.kind.startswith("FC type")


@RULES.rule("df-ctl", "FC-FS-3, DF_CTL", "DF_CTL has no reserved bit, and names no header that isn't there.")
def optional_headers(talk: Talk, tally: Tally) -> None:
    for it, fc in talk.in_fcoe():
        value = fc.data[fc.at + 13]
        fault = want("DF_CTL", f"{value:02x}", "00: no reserved bit, and no ESP header, as the payload begins with its command", not value & RESERVED_DF and not (value & ESP and is_readable(it)))
        tally.judge(it, fault)


@RULES.rule("d-id", "FC-FS-3, address identifiers", "D_ID names who gets a frame: it isn't 000000.")
def addressed(talk: Talk, tally: Tally) -> None:
    for it, fc in talk.in_fcoe():
        tally.judge(it, want("D_ID", fcid(fc.d_id), "an address", fc.d_id != 0))


@RULES.rule("f-ctl-request", "FC-FS-3, F_CTL, sequence initiative", "A request that wants an answer gives the sequence initiative away with its last frame.")
def hands_over(talk: Talk, tally: Tally) -> None:
    for it, fc in whole(talk):
        if fc.r_ctl in REQUESTS and fc.f_ctl & END_SEQUENCE and not fc.f_ctl & RESPONDER and it.heard.kind != "TEST":
            tally.judge(it, want("F_CTL", f"{fc.f_ctl:06x}", "sequence initiative (010000) given away", bool(fc.f_ctl & INITIATIVE)))


@RULES.rule("f-ctl-reply", "FC-FS-3, F_CTL, last sequence", "The answer to a link service, to CT or to a command is the last sequence of its exchange.")
def ends_exchange(talk: Talk, tally: Tally) -> None:
    for it, fc in whole(talk):
        is_confirmed = fc.r_ctl == 0x07 and len(fc.payload) > 10 and bool(fc.payload[10] & CONFIRM)
        if fc.r_ctl in REPLIES and fc.f_ctl & END_SEQUENCE and fc.f_ctl & RESPONDER and not is_confirmed and not (fc.kind == 0x08 and fc.r_ctl == 0x03):
            tally.judge(it, want("F_CTL", f"{fc.f_ctl:06x}", "last sequence (100000)", bool(fc.f_ctl & LAST_SEQUENCE)))


@RULES.rule("rx-id", "FC-FS-3, RX_ID", "Once its responder gave an RX_ID, it stays that of the exchange.", is_across=True)
def responder_id(talk: Talk, tally: Tally) -> None:
    for one in talk.exchanges.all:
        given: Optional[int] = None
        for it in one.frames:
            fc = it.heard.fc
            if fc is None or fc.kind == 0x00 or not it.heard.is_fcoe:
                continue
            if given is not None and not it.is_switch and not (fc.rx_id == UNGIVEN and not fc.f_ctl & RESPONDER):
                tally.judge(it, want("RX_ID", f"{fc.rx_id:04x}", f"{given:04x}, as in the frames before", fc.rx_id == given))
            if given is None and fc.rx_id != UNGIVEN and (fc.f_ctl & RESPONDER or not talk.is_two_way and it is not one.request):
                given = fc.rx_id


@RULES.rule("seq-id", "FC-FS-3, SEQ_ID", "All frames of a sequence have one SEQ_ID.")
def one_sequence(talk: Talk, tally: Tally) -> None:
    last: dict[tuple[int, int, int, bool], Shown] = {}
    for it, fc in whole(talk):
        key = (fc.s_id, fc.d_id, fc.ox_id, bool(fc.f_ctl & RESPONDER))
        before = last.get(key)
        was = before.heard.fc if before else None
        if was and before and it.heard.data[it.heard.at + 13] in (SOFN3, SOFN2) and goes_on(was, fc):
            mine, theirs = fc.data[fc.at + 12], was.data[was.at + 12]
            tally.judge(it, want("SEQ_ID", f"{mine:02x}", f"{theirs:02x}, as in frame {before.place}, whose sequence goes on", mine == theirs))
        last[key] = it


def goes_on(was: Fc, fc: Fc) -> bool:
    """The frame before didn't end its sequence, and SEQ_CNT and the relative offset go on where it ended."""
    if was.f_ctl & END_SEQUENCE or fc.seq_cnt != was.seq_cnt + 1:
        return False
    if not was.f_ctl & fc.f_ctl & OFFSET_HELD:
        return was.r_ctl == fc.r_ctl
    at = number(was.data[was.at + 20 : was.at + 24]) + len(was.payload) - (was.f_ctl & 3)
    return number(fc.data[fc.at + 20 : fc.at + 24]) == at


@RULES.rule("cs-ctl", "FC-FS-3, CS_CTL", "CS_CTL is 0 where nobody agreed on what it says.", is_choice=True)
def specific(talk: Talk, tally: Tally) -> None:
    for it, fc in talk.in_fcoe():
        tally.usual(it, want("CS_CTL", f"{fc.data[fc.at + 4]:02x}", "00"))


@RULES.rule("parameter", "FC-FS-3, PARAMETER", "PARAMETER of link services and CT is 0 where it is no relative offset.", is_choice=True)
def parameter(talk: Talk, tally: Tally) -> None:
    for it, fc in talk.in_fcoe():
        if fc.r_ctl in (0x22, 0x23, 0x02) and not fc.f_ctl & OFFSET_HELD and fc.kind in (0x01, 0x20):
            value = number(fc.data[fc.at + 20 : fc.at + 24])
            tally.usual(it, want("PARAMETER", f"{value:08x}", "00000000"))
