"""Rules on what an N_Port answers, and on what it says of itself (FC-LS-2, FC-FS-3)."""
from typing import Iterator, Optional

from ..frames.heard import Fc, fcid
from .exchanged import Exchange
from .habits import judge_names, names_of
from .login import LOGIN_SIZE, login_faults, port_faults
from .rules import Fault, Group, Tally, want
from .shown import Shown
from .talk import Talk

ACCEPT, REJECT = b"\x02", b"\x01"
PRLI_SIZE, ADISC_SIZE, RTV_SIZE, RLS_SIZE, REJECT_SIZE = 20, 28, 16, 28, 8
FCP_TYPE = 0x08
INITIATOR, TARGET = 0x20, 0x10  # functions of a PRLI's page
EXECUTED = 0x01
RULES = Group("answers", is_across=True)


def own_answers(talk: Talk, *kinds: str) -> Iterator[tuple[Shown, Fc, Exchange]]:
    """The ENode's accepts of link services of some kinds."""
    for one in talk.exchanges.all:
        if one.request.heard.kind in kinds and one.request.heard.is_fcoe and one.reply is not None and not one.reply.is_switch:
            fc = one.reply.fc
            if fc is not None and fc.payload[:1] == ACCEPT:
                yield one.reply, fc, one


def shaped(talk: Talk, size: int, kinds: tuple[str, ...], begin: bytes = b"") -> Iterator[tuple[Shown, Fc]]:
    """Accepts of some kinds; where their requests aren't in the capture those that look so."""
    seen = set()
    for it, fc, _ in own_answers(talk, *kinds):
        seen.add(it.at)
        yield it, fc
    for it, fc in talk.in_fcoe():
        is_shaped = fc.r_ctl == 0x23 and fc.payload.startswith(ACCEPT + begin) and len(fc.payload) >= size
        if is_shaped and it.at not in seen and it.at not in talk.exchanges.of_frame:
            yield it, fc


def sized(fc: Fc, size: int) -> Optional[Fault]:
    return want("payload", f"{len(fc.payload)} bytes", f"{size} bytes or more", len(fc.payload) >= size)


@RULES.rule("plogi-accept", "FC-LS-2, PLOGI and PDISC, LS_ACC", "The accept of a PLOGI or PDISC has the parameters and the names of the N_Port.")
def plogi_accept(talk: Talk, tally: Tally) -> None:
    for it, fc in shaped(talk, LOGIN_SIZE, ("PLOGI", "PDISC")):
        if len(fc.payload) < LOGIN_SIZE:
            tally.judge(it, sized(fc, LOGIN_SIZE))
            continue
        tally.judge(it, *login_faults(fc.payload), *port_faults(fc.payload))
        held = talk.login_of(fc.s_id, it.at, is_live=False)
        asked = held.request if held else None
        node = asked.known[28:36] if asked else b""
        if held and any(held.name):
            tally.lack(held, it, want("port name", fc.payload[20:28].hex(), held.name.hex()), missing=2)
        if node and held:
            tally.lack(held, it, want("node name", fc.payload[28:36].hex(), node.hex()), missing=2)
        if not talk.is_two_way:
            judge_names(talk, it, fc.s_id, (fc.payload[20:28], fc.payload[28:36]), tally)


def misshaped(talk: Talk) -> Iterator[tuple[Shown, Fc]]:
    """Accepts of 20 bytes that say so and have a page of FCP, whose request isn't in the capture, with another page length than a PRLI's."""
    for it, fc in talk.in_fcoe():
        content = fc.payload
        is_paged = fc.r_ctl == 0x23 and len(content) == PRLI_SIZE and content[:1] + content[2:5] == ACCEPT + b"\0\x14\x08"
        if is_paged and content[1] != 16 and it.at not in talk.exchanges.of_frame:
            yield it, fc


@RULES.rule("prli-accept", "FC-LS-2, PRLI, LS_ACC", "The accept of a PRLI has a page of its type with a response code, and with functions where it was executed.")
def prli_accept(talk: Talk, tally: Tally) -> None:
    for it, fc in (*shaped(talk, PRLI_SIZE, ("PRLI",), b"\x10"), *misshaped(talk)):
        content = fc.payload
        if len(content) < PRLI_SIZE:
            tally.judge(it, sized(fc, PRLI_SIZE))
            continue
        one = talk.exchanges.of_frame.get(it.at)
        wanted = one.request.known[4] if one and one.request.at != it.at and len(one.request.known) > 4 else content[4]
        code = content[6] & 0x0F
        tally.judge(
            it,
            want("page length", content[1], 16),
            want("TYPE of the page", f"{content[4]:02x}", f"{wanted:02x}, as asked", content[4] == wanted),
            want("response code", code, "1 to 8", 1 <= code <= 8),
            want("functions", f"{content[19]:02x}", "initiator (20) or target (10)", content[4] != FCP_TYPE or code != EXECUTED or bool(content[19] & (INITIATOR | TARGET))),
        )


@RULES.rule("prli-function", "FCP-4, PRLI, service parameter page; FC-LS-2, PRLI", "A PRLI names an FC-4 type, and for FCP whether the N_Port is initiator or target.")
def prli_function(talk: Talk, tally: Tally) -> None:
    for it, fc in talk.in_fcoe():
        content = fc.payload
        if it.heard.kind == "PRLI" and fc.r_ctl == 0x22 and len(content) >= PRLI_SIZE:
            is_fcp = content[4] == FCP_TYPE
            tally.judge(
                it,
                want("TYPE of the page", f"{content[4]:02x}", "an FC-4 type", content[4] > 3),
                want("functions", f"{content[19]:02x}", "initiator (20) or target (10)", not is_fcp or bool(content[19] & (INITIATOR | TARGET))),
            )


@RULES.rule("rtv-accept", "FC-LS-2, RTV, LS_ACC", "The answer to RTV has R_A_TOV and E_D_TOV, which aren't both 0.")
def rtv_accept(talk: Talk, tally: Tally) -> None:
    for it, fc, _ in own_answers(talk, "RTV"):
        content = fc.payload
        if len(content) < RTV_SIZE:
            tally.judge(it, sized(fc, RTV_SIZE))
        else:
            tally.judge(it, want("R_A_TOV and E_D_TOV", "both 0", "more than 0", any(content[4:12])))  # one may be what a switch left at 0


def named(talk: Talk, it: Shown, fc: Fc, tally: Tally) -> None:
    """Port name and address of an ADISC or of its accept are those of who sends it."""
    if len(fc.payload) < ADISC_SIZE:
        tally.judge(it, sized(fc, ADISC_SIZE))
        return
    tally.judge(it, want("address in the payload", fc.payload[25:28].hex(), fcid(fc.s_id)))
    held = talk.login_of(fc.s_id, it.at, is_live=False)
    if held and any(held.name):
        tally.lack(held, it, want("port name", fc.payload[8:16].hex(), held.name.hex()), missing=2)
    elif not talk.is_two_way:
        judge_names(talk, it, fc.s_id, (fc.payload[8:16], fc.payload[16:24]), tally)


@RULES.rule("adisc-accept", "FC-LS-2, ADISC, LS_ACC", "The answer to ADISC has the address and the names of the N_Port.")
def adisc_accept(talk: Talk, tally: Tally) -> None:
    for it, fc, _ in own_answers(talk, "ADISC"):
        named(talk, it, fc, tally)
    if not talk.is_two_way:
        adisc_alone(talk, tally)


def adisc_alone(talk: Talk, tally: Tally) -> None:
    """Accepts of 28 bytes that have a name of this host are those of ADISC, and no others' counts."""
    own = names_of(talk).all
    for it, fc in talk.in_fcoe():
        content = it.known
        if fc.r_ctl == 0x23 and len(content) == ADISC_SIZE and content[:1] == ACCEPT and any(own[name] > 1 and any(name) for name in (content[8:16], content[16:24])):
            named(talk, it, fc, tally)


@RULES.rule("adisc-own", "FC-LS-2, ADISC", "An ADISC has the address and the names of who sends it.")
def adisc(talk: Talk, tally: Tally) -> None:
    for it, fc in talk.in_fcoe():
        if it.heard.kind == "ADISC" and fc.r_ctl == 0x22:
            named(talk, it, fc, tally)


@RULES.rule("echo-accept", "FC-LS-2, ECHO, LS_ACC", "The answer to ECHO has its data.")
def echo_accept(talk: Talk, tally: Tally) -> None:
    for it, fc, one in own_answers(talk, "ECHO"):
        asked = one.request.payload
        if one.request.is_whole:
            tally.judge(it, want("data", fc.payload[4:12].hex() + "..", asked[4:12].hex() + "..", fc.payload[4:] == asked[4:]))


@RULES.rule("rls-accept", "FC-LS-2, RLS, LS_ACC", "The answer to RLS has six counts.")
def rls_accept(talk: Talk, tally: Tally) -> None:
    for it, fc, _ in own_answers(talk, "RLS"):
        tally.judge(it, sized(fc, RLS_SIZE))


@RULES.rule("ls-rjt", "FC-LS-2, LS_RJT", "An LS_RJT has 8 bytes and a reason.")
def rejects(talk: Talk, tally: Tally) -> None:
    for it, fc in talk.in_fcoe():
        if fc.kind == 0x01 and fc.r_ctl == 0x23 and fc.payload[:1] == REJECT:
            reason = fc.payload[5] if len(fc.payload) > 5 else 0
            tally.judge(it, sized(fc, REJECT_SIZE) or want("reason", f"{reason:02x}", "one of the table", reason > 0))


@RULES.rule("abts-accept", "FC-FS-3, BA_ACC", "A BA_ACC names OX_ID and RX_ID of its exchange.")
def abts_accept(talk: Talk, tally: Tally) -> None:
    for it, fc in talk.in_fcoe():
        if it.heard.kind == "BA_ACC" and len(fc.payload) >= 12:
            tally.judge(it, want("OX_ID in the payload", fc.payload[4:6].hex(), f"{fc.ox_id:04x}"))
