"""Rules on exchanges: OX_IDs, answers, ABTS, RSCN, LOGO, PLOGI and PRLI (FC-FS-3, FC-LS-2)."""
from typing import Iterator

from ..frames.heard import Fc, fcid
from .exchanged import UNANSWERED, Exchange
from .habits import judge_names
from .login import LOGO_SIZE, login_faults, port_faults
from .rules import LEFT, ONE_WAY, Fault, Group, Tally, want
from .shown import Shown
from .talk import Talk

E_D_TOV, R_A_TOV = 2_000, 10_000  # milliseconds: the usual ones
PATIENCE = 2 * R_A_TOV  # of a link service without an answer
QUERY_PATIENCE = 3 * R_A_TOV  # of a request of the name server
QUERIES = ("GA_NXT", "GPN_ID", "GNN_ID", "GFT_ID", "GFF_ID", "GID_PN", "GID_FT", "GPN_FT", "GNN_FT", "GID_PT", "ADISC", "PLOGI")
SOON = 10_000  # milliseconds after an RSCN within which a host that asks has asked
BLS_SIZES = {0x81: 0, 0x84: 12, 0x85: 4}
COUNTED = 20  # requests from which on a host's OX_IDs tell how it takes them
RULES = Group("exchanges", is_across=True)


def own_requests(talk: Talk, *r_ctls: int) -> Iterator[tuple[Exchange, Fc]]:
    for one in talk.exchanges.all:
        fc = one.request.fc
        if not one.request.is_switch and fc is not None and fc.r_ctl in r_ctls:
            yield one, fc


@RULES.rule("ox-id", "FC-FS-3, OX_ID", "An OX_ID isn't used anew while its exchange is open.")
def not_reused(talk: Talk, tally: Tally) -> None:
    """An OX_ID names one exchange of its originator with a responder while that is open."""
    for one, fc in own_requests(talk, 0x22, 0x02, 0x06):
        again = one.reused
        if not talk.is_two_way:
            tally.leave(ONE_WAY, one.request)
        elif again is None or one.settled or talk.gave_up(fc.s_id, one.request.clock, again.clock):
            tally.held.append(one.request)
        elif one.aborted and one.aborted.at < again.at:
            gap = again.clock - one.aborted.clock
            fault = want("OX_ID", f"{fc.ox_id:04x}, {gap / 1000:.1f} s after an ABTS (frame {one.aborted.place}) that isn't answered", "another, before R_A_TOV is over", gap >= R_A_TOV)
            tally.lack(one, again, fault)
        elif again.clock - one.request.clock > PATIENCE:
            tally.held.append(one.request)
        elif again.heard.data == one.request.heard.data and again.clock - one.request.clock < 1:
            tally.leave("the same frame twice in the capture", again)
        else:
            judge_reuse(talk, one, fc, again, tally)


def judge_reuse(talk: Talk, one: Exchange, fc: Fc, again: Shown, tally: Tally) -> None:
    """Two ends behind it show that both exchanges were open; where one end is there, that of the first may be missing."""
    after = talk.exchanges.of_frame.get(again.at)
    fault = Fault("OX_ID", f"{fc.ox_id:04x}", f"another: the exchange of frame {one.request.place} is open with it")
    if one.request.heard.kind in UNANSWERED:
        tally.leave(f"whoever gets a {one.request.heard.kind} (frame {one.request.place}) may not answer it", again)
    elif after is not None and after.surplus:
        tally.judge(again, fault)
    else:
        tally.lack(one, again, fault)


def ended_between(talk: Talk, one: Exchange, until: float) -> bool:
    """The login of an exchange's N_Port ended meanwhile, or a login with the other was given up."""
    fc = one.request.fc
    if fc is None:
        return True
    if talk.gave_up(fc.d_id if one.request.is_switch else fc.s_id, one.request.clock - E_D_TOV, until):  # it may be under way
        return True
    logos = talk.exchanges.by_pair.get(frozenset((fc.s_id, fc.d_id)), [])
    return any(it is not one and it.request.heard.kind == "LOGO" and one.request.clock <= it.request.clock <= until for it in logos)


@RULES.rule("exchange-ends", "FC-FS-3, exchanges; FC-LS-2, R_A_TOV (from memory)", "A link service or CT request without an answer is aborted.")
def never_ended(talk: Talk, tally: Tally) -> None:
    """A request of a link service or of CT that isn't answered is aborted behind twice R_A_TOV."""
    for one, fc in own_requests(talk, 0x22, 0x02):
        if one.request.heard.is_fip or one.request.heard.kind in UNANSWERED:
            continue
        until = one.request.clock + (QUERY_PATIENCE if fc.kind == 0x20 else PATIENCE)
        if not talk.is_two_way:
            tally.leave(ONE_WAY, one.request)
        elif one.reply or one.aborted or one.reused:
            tally.held.append(one.request)
        elif talk.end < until + E_D_TOV:
            tally.leave("no answer until the capture ends", one.request)
        elif ended_between(talk, one, until):
            tally.held.append(one.request)
        elif talk.moments(True, "RSCN").within(one.request.clock, until):
            tally.leave("an RSCN came meanwhile, behind which the ENode may know that nobody is there", one.request)
        else:
            fault = Fault("exchange", f"no answer and no ABTS until the capture ends, {(talk.end - one.request.clock) / 1000:.0f} s later", "an ABTS after twice R_A_TOV")
            tally.lack(one, one.request, fault, missing=2)


def asked_of_host(talk: Talk) -> Iterator[Exchange]:
    """Link services that others ask of the ENode's N_Ports, logged in when they come."""
    for one in talk.exchanges.all:
        fc = one.request.fc
        if one.request.is_switch and one.request.heard.is_fcoe and fc is not None and fc.r_ctl == 0x22 and one.request.heard.kind != "TEST":
            if talk.login_of(fc.d_id, one.request.at):
                yield one


def judge_answer(talk: Talk, one: Exchange, tally: Tally, should: str) -> None:
    """An answer within twice R_A_TOV, where nothing ended the login meanwhile."""
    until = one.request.clock + PATIENCE
    if one.reply and talk.longest_rest(one.request.clock, one.reply.clock) > PATIENCE:
        tally.leave("no frame of anybody between it and its answer: the capture may have a gap there", one.request)
    elif one.reply:
        tally.judge(one.reply, want("answer", f"{(one.reply.clock - one.request.clock) / 1000:.1f} s after frame {one.request.place}", "within twice R_A_TOV", one.reply.clock <= until))
    elif one.aborted or ended_between(talk, one, until):
        tally.leave("its login or its exchange ended before it was answered", one.request)
    elif talk.end < until:
        tally.leave("no answer until the capture ends", one.request)
    else:
        tally.lack(one, one.request, Fault("answer", "none", should))


@RULES.rule("els-answered", "FC-LS-2, link services", "A link service that asks an N_Port is answered.")
def answered(talk: Talk, tally: Tally) -> None:
    for one in asked_of_host(talk):
        if one.request.heard.kind != "RSCN":
            judge_answer(talk, one, tally, "an LS_ACC or LS_RJT within twice R_A_TOV")


@RULES.rule("rscn-answered", "FC-LS-2, RSCN", "An RSCN is answered.")
def rscn_answered(talk: Talk, tally: Tally) -> None:
    for one in asked_of_host(talk):
        if one.request.heard.kind == "RSCN":
            judge_answer(talk, one, tally, "an LS_ACC within twice R_A_TOV")


@RULES.rule("rscn-reply", "FC-LS-2, RSCN", "The answer is an LS_ACC or an LS_RJT.")
def rscn_reply(talk: Talk, tally: Tally) -> None:
    for one in asked_of_host(talk):
        if one.request.heard.kind == "RSCN" and one.reply and one.reply.fc:
            fc = one.reply.fc
            tally.judge(one.reply, want("payload", fc.payload.hex()[:24], "02000000 (LS_ACC), or an LS_RJT", fc.payload == b"\2\0\0\0" or fc.payload[:4] == b"\1\0\0\0"))


@RULES.rule("rscn-soon", "FC-LS-2, RSCN; FC-FS-3, E_D_TOV", "It comes within E_D_TOV.", is_choice=True)
def rscn_soon(talk: Talk, tally: Tally) -> None:
    for one in asked_of_host(talk):
        if one.request.heard.kind == "RSCN" and one.reply:
            gap = one.reply.clock - one.request.clock
            tally.usual(one.reply, want("answer to an RSCN", f"{gap / 1000:.1f} s after it", "within E_D_TOV", gap <= E_D_TOV))


@RULES.rule("rscn-heeded", "FC-LS-2, RSCN; FC-GS-6, queries", "A query of the name server or of the N_Port follows.", is_choice=True)
def rscn_heeded(talk: Talk, tally: Tally) -> None:
    """Who was told of a change asks what it is."""
    for one in asked_of_host(talk):
        if one.request.heard.kind != "RSCN" or not one.reply or one.reply.payload[:1] != b"\x02":
            continue
        after = talk.moments(False, *QUERIES).within(one.request.clock, one.request.clock + SOON)
        asked = next((it for it in after if it.at > one.request.at), None)
        if asked:
            tally.held.append(asked)
        elif talk.end < one.request.clock + SOON:
            tally.leave("the capture ends before", one.request)
        else:
            tally.leave(f"no query within {SOON // 1000} s after an RSCN: {LEFT}", one.request)


@RULES.rule("plogi-parameters", "FC-LS-2, PLOGI, service parameters", "Class 3, a receive size of 256 to 2112, the port name of its login.")
def plogi(talk: Talk, tally: Tally) -> None:
    for it, fc in talk.in_fcoe():
        if it.heard.kind == "PLOGI" and fc.r_ctl == 0x22 and it.is_whole:
            if len(fc.payload) < 116:
                tally.judge(it, Fault("payload", f"{len(fc.payload)} bytes", "116 bytes"))
            else:
                held = talk.grant_of(it.heard.source, it.at)
                tally.judge(it, *login_faults(fc.payload), *port_faults(fc.payload))
                if held and any(held.name):
                    tally.lack(held, it, want("port name", fc.payload[20:28].hex(), held.name.hex()), missing=2)
                elif not talk.is_two_way:
                    judge_names(talk, it, fc.s_id, (fc.payload[20:28], fc.payload[28:36]), tally)


def logged(talk: Talk, it: Shown, fc: Fc) -> tuple[bool, bool]:
    """Whether a PLOGI between both ends stands before a frame, and whether it was accepted; both since the grant of the address."""
    grant = talk.login_of(fc.s_id, it.at, is_live=False)
    since = grant.granted.at if grant else -1
    ended = [one.request.at for one in talk.exchanges.between(fc, "LOGO", it.at)]
    since = max([since, *ended])
    asked = [one for one in talk.exchanges.between(fc, "PLOGI", it.at) if one.request.at > since]
    is_told = talk.exchanges.was_accepted(fc, since, it.at)
    return bool(asked) or is_told, is_told or any(is_accepted(one, it) for one in asked)  # of two that cross one is rejected


def is_accepted(one: Exchange, it: Shown) -> bool:
    """Accepted before a frame."""
    return one.reply is not None and one.reply.at < it.at and one.reply.payload[:1] == b"\x02"


def judge_alone(talk: Talk, it: Shown, fc: Fc, tally: Tally, missing: int = 1) -> None:
    """Of a host's direction alone: behind its FLOGI, and its LOGO to the other, a PLOGI or the accept of one stands before a frame; `missing` frames else."""
    login = next((one for one in reversed(talk.logins) if one.heard.login_kind == "FLOGI" and one.at < it.at), None)
    if login is None:
        tally.leave(ONE_WAY, it)
        return
    logos = [one.request for one in talk.exchanges.between(fc, "LOGO", it.at) if one.request.at > login.at]
    since = logos[-1] if logos else login
    asked = [one.request for one in talk.exchanges.asked(fc, "PLOGI") if one.request.at > since.at]
    if any(one.at < it.at for one in asked) or talk.exchanges.was_accepted(fc, since.at, it.at):
        tally.held.append(it)
        return
    is_soon = any(one.clock - it.clock < E_D_TOV for one in asked)  # it comes behind, so that none is missing before
    fault = Fault("N_Port login", f"none since the {since.heard.kind} in frame {since.place}", f"a PLOGI between {fcid(fc.s_id)} and {fcid(fc.d_id)}")
    tally.lack((fc.s_id, fc.d_id, since.at), it, fault, missing=2 if is_soon else missing)


def behind_plogi(talk: Talk, it: Shown, fc: Fc, tally: Tally) -> None:
    """Judges that an N_Port login stands before a frame."""
    if not talk.is_two_way:
        judge_alone(talk, it, fc, tally)
        return
    asked, accepted = logged(talk, it, fc)
    if accepted:
        tally.held.append(it)
    elif not talk.grant_of(it.heard.source, it.at):
        tally.leave("the login of its N_Port isn't in the capture", it)
    else:
        fault = Fault("N_Port login", "a PLOGI that isn't accepted" if asked else "none", f"an accepted PLOGI between {fcid(fc.s_id)} and {fcid(fc.d_id)}")
        if is_refused(talk, it, fc):
            tally.judge(it, fault)
        else:
            tally.lack((fc.s_id, fc.d_id, talk.grant_of(it.heard.source, it.at)), it, fault, missing=1 if asked else 2)


def is_refused(talk: Talk, it: Shown, fc: Fc) -> bool:
    """The latest PLOGI between both ends was rejected before a frame, and no other is open."""
    asked = talk.exchanges.between(fc, "PLOGI", it.at)
    return bool(asked) and all(one.reply is not None and one.reply.at < it.at and one.reply.payload[:1] == b"\x01" for one in asked[-2:])


@RULES.rule("prli-after-plogi", "FC-LS-2, PRLI", "PRLI goes out after an accepted PLOGI.")
def prli_behind_plogi(talk: Talk, tally: Tally) -> None:
    for one, fc in own_requests(talk, 0x22):
        if one.request.heard.kind == "PRLI":
            behind_plogi(talk, one.request, fc, tally)


@RULES.rule("prli-form", "FC-LS-2, PRLI, service parameter page", "Pages have 16 bytes, and the length counts them.")
def prli_form(talk: Talk, tally: Tally) -> None:
    for it, fc in talk.in_fcoe():
        if it.heard.kind == "PRLI" and fc.r_ctl == 0x22:
            payload = fc.payload
            size = int.from_bytes(payload[2:4], "big")
            tally.judge(
                it,
                want("page length", payload[1] if len(payload) > 1 else None, 16),
                want("payload length", size, "4 and 16 for each page, and no more than the payload", 20 <= size <= len(payload) and size % 16 == 4),
            )


@RULES.rule("fcp-after-prli", "FC-LS-2, PRLI, image pairs", "FCP commands go out after an accepted PRLI.", is_choice=True)
def command_behind_prli(talk: Talk, tally: Tally) -> None:
    """FCP commands want an image pair, which a PRLI of either end makes; or something that no frame shows."""
    for one, fc in own_requests(talk, 0x06):
        if fc.kind != 0x08:
            continue
        it = one.request
        asked = talk.exchanges.between(fc, "PRLI", it.at)
        if any(is_accepted(two, it) for two in asked) or asked and not talk.is_two_way:
            tally.held.append(it)
        elif not talk.grant_of(it.heard.source, it.at):
            tally.leave("the login of its N_Port isn't in the capture", it)
        else:
            tally.usual(it, Fault("process login", "a PRLI that isn't accepted" if asked else "none", f"an accepted PRLI between {fcid(fc.s_id)} and {fcid(fc.d_id)}"))


@RULES.rule("logo-form", "FC-LS-2, LOGO", "A LOGO in FCoE has address and port name of who sends it.")
def logo(talk: Talk, tally: Tally) -> None:
    """A LOGO to an N_Port or a service names the N_Port that sends it."""
    for it, fc in talk.in_fcoe():
        if it.heard.kind == "LOGO" and fc.r_ctl == 0x22 and it.is_whole:
            payload = fc.payload
            if len(payload) < LOGO_SIZE:
                tally.judge(it, Fault("payload", f"{len(payload)} bytes", f"{LOGO_SIZE} bytes"))
                continue
            held = talk.login_of(fc.s_id, it.at)
            tally.judge(
                it,
                want("address in the payload", payload[5:8].hex(), fcid(fc.s_id)),
            )
            if held and any(held.name):
                tally.lack(held, it, want("port name", payload[8:16].hex(), held.name.hex()), missing=2)
            elif not talk.is_two_way:
                judge_names(talk, it, fc.s_id, (payload[8:16], b""), tally)


@RULES.rule("abts-form", "FC-FS-3, ABTS, BA_ACC, BA_RJT", "An ABTS has no payload, BA_ACC 12 bytes, BA_RJT 4.")
def aborts(talk: Talk, tally: Tally) -> None:
    """An ABTS names an exchange that was there, and has no payload; its answers have their sizes."""
    for it, fc in talk.in_fcoe():
        if fc.kind != 0 or fc.r_ctl not in BLS_SIZES or not it.is_whole:
            continue
        size = BLS_SIZES[fc.r_ctl]
        tally.judge(it, want("payload", f"{len(fc.payload)} bytes", f"{size} bytes", len(fc.payload) == size))


def is_unused(talk: Talk, it: Shown, ox_id: int) -> bool:
    """Whether an ENode whose OX_IDs go up one by one hadn't come to this one before a frame."""
    used = [fc.ox_id for one, fc in own_requests(talk, 0x22, 0x02, 0x06) if one.request.at < it.at and one.request.heard.is_fcoe]
    steps = [two - one for one, two in zip(used, used[1:])]
    goes_up = len(steps) >= COUNTED and sum(0 < step <= 2 for step in steps) > 0.9 * len(steps)
    return goes_up and not min(used) - COUNTED <= ox_id <= max(used) + COUNTED


@RULES.rule("abts-exchange", "FC-FS-3, ABTS", "An ABTS is of an exchange that there is.")
def abts_known(talk: Talk, tally: Tally) -> None:
    for it, fc in talk.in_fcoe():
        if it.heard.kind == "ABTS":
            if it.at in talk.exchanges.of_frame:
                tally.held.append(it)
            elif not talk.grant_of(it.heard.source, it.at):
                tally.leave(ONE_WAY if not talk.is_two_way else "its exchange may have begun before the capture", it)
            elif is_unused(talk, it, fc.ox_id):
                tally.lack((fc.s_id, fc.d_id, fc.ox_id), it, Fault("OX_ID", f"{fc.ox_id:04x}", f"that of an exchange with {fcid(fc.d_id)}"))
            else:
                tally.leave("the request that it aborts may have been lost before it came to the tap", it)


@RULES.rule("abts-answered", "FC-FS-3, ABTS", "An ABTS is answered by BA_ACC or BA_RJT.")
def abts_answered(talk: Talk, tally: Tally) -> None:
    for it in talk.by_switch("ABTS"):
        fc = it.heard.fc
        if fc is None or not talk.login_of(fc.d_id, it.at):
            continue
        answers = talk.moments(False, "BA_ACC", "BA_RJT").within(it.clock, talk.end)
        reply = next((one for one in answers if one.at > it.at and one.fc and one.fc.ox_id == fc.ox_id and one.fc.d_id == fc.s_id), None)
        if reply:
            tally.judge(reply, want("answer", f"{(reply.clock - it.clock) / 1000:.1f} s after the ABTS", "within twice R_A_TOV", reply.clock - it.clock <= PATIENCE))
        elif talk.end - it.clock < PATIENCE or talk.gave_up(fc.d_id, it.clock, it.clock + PATIENCE):
            tally.leave("no answer until its login or the capture ends", it)
        else:
            tally.lack(talk.exchanges.of_frame.get(it.at, it), it, Fault("answer", "none", "a BA_ACC or BA_RJT"))
