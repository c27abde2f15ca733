"""Rules on the forwarder, where its frames are in the capture (FC-BB-5, FC-LS-2, FC-FS-3)."""

from ..frames.heard import ADVERTISE, ALL_ENODES, CLEAR, LOGIN_REPLY, VLAN_TELL, colons, fc_check, fcid, granted_in, number
from ..runs.configs import FPMA
from .alive import SURE
from .discovery import FROM_FORWARDER, SOLICITED, has_kinds
from .exchange import PATIENCE, R_A_TOV, ended_between
from .exchanged import RESPONDER
from .frames import sizes
from .rules import FCF, Fault, Group, Tally, want
from .shown import Shown, mac_in, period_in
from .talk import PERIODS, Talk

MESSAGES = {ADVERTISE: (1, 2, 4, 5, 12), CLEAR: (2, 4), VLAN_TELL: (2,)}
LATE = 1.5
RULES = Group("forwarder", FCF)


@RULES.rule("fcf-descriptors", "FC-BB-5, FIP operations", "Advertisements, notifications and Clear Virtual Links have their descriptors, each once.")
def described(talk: Talk, tally: Tally) -> None:
    for it in talk.theirs:
        if it.heard.operation in MESSAGES:
            tally.judge(it, has_kinds(it.heard, MESSAGES[it.heard.operation]))


@RULES.rule("fcf-mac", "FC-BB-5, FIP discovery", "Their MAC descriptor is their source.")
def of_mac(talk: Talk, tally: Tally) -> None:
    for it in talk.theirs:
        mac = mac_in(it.heard)
        if it.heard.operation in MESSAGES and mac:
            tally.judge(it, want("MAC descriptor", colons(mac), colons(it.heard.source)))


@RULES.rule("fcf-flags", "FC-BB-5, FIP discovery, flags S and F", "Advertisements have F, and S where they answer a solicitation.")
def addressed(talk: Talk, tally: Tally) -> None:
    """Advertisements go to all ENodes, and in answer to a solicitation with S to its sender."""
    for it in talk.advertisements:
        to_all = it.heard.destination == ALL_ENODES
        is_solicited = bool(it.heard.flags & SOLICITED)
        tally.judge(
            it,
            want("flag F", int(bool(it.heard.flags & FROM_FORWARDER)), 1),
            want("flag S", int(is_solicited), f"{int(not to_all)}, as it goes to {'all ENodes' if to_all else 'one ENode'}", is_solicited != to_all),
        )


@RULES.rule("fcf-padding", "FC-BB-5, FIP discovery, FCoE size", "A solicited advertisement has the size that was asked for.")
def padded(talk: Talk, tally: Tally) -> None:
    for it in talk.advertisements:
        if not it.heard.flags & SOLICITED:
            continue
        asked = [one for one in talk.of("Solicitation") if one.at < it.at and one.heard.source == it.heard.destination]
        size = asked[-1].heard.descriptor(6) if asked else None
        if size:
            length, wanted = it.port.frames.lengths[it.at], number(size.data[2:4])
            if length - it.heard.at < wanted <= length:
                tally.leave(f"{length} bytes with the Ethernet header, which may or may not count to the {wanted} that were asked for", it)
            else:
                tally.judge(it, want("length", f"{length} bytes", f"{wanted}, as was asked for", length >= wanted))


@RULES.rule("fcf-period", "FC-BB-5, FIP discovery, FKA_ADV_PERIOD", "An advertisement to all ENodes goes out each period.")
def spaced(talk: Talk, tally: Tally) -> None:
    last: dict[tuple[bytes, int], Shown] = {}
    for it in talk.advertisements:
        key = (it.heard.source, it.heard.vlan)
        if it.heard.destination != ALL_ENODES:
            continue
        before, period = last.get(key), period_in(it.heard)
        if before and period:
            gap = it.clock - before.clock
            if LATE * period[0] < gap <= PERIODS * period[0]:
                tally.leave(f"{gap / 1000:.1f} s without an advertisement, with a period of {period[0] / 1000:g} s: one may be missing from the capture", it)
            else:
                judge_gap(talk, before, it, period[0], tally)
        last[key] = it


def judge_gap(talk: Talk, before: Shown, it: Shown, period: int, tally: Tally) -> None:
    """Where nothing else came meanwhile, the link may have been down."""
    gap = it.clock - before.clock
    fault = want("time without an advertisement", f"{gap / 1000:.1f} s after frame {before.place}", f"one each {period / 1000:g} s", gap <= PERIODS * period)
    if fault and talk.longest_rest(before.clock, it.clock) > period:
        tally.leave(f"{fault.stands} without an advertisement, and {gap / 1000:.1f} s nearly without any frame: the link may have been down", it)
    elif fault and talk.moments(False, "VLAN request", "Solicitation").within(before.clock, it.clock):
        tally.leave(f"{fault.stands} without an advertisement, and an ENode began anew meanwhile: the link may have been down", it)
    else:
        tally.lack(("advertisement", it.at), it, fault, missing=2 if gap > SURE * period else 1)


@RULES.rule("fcf-vlans", "FC-BB-5, FIP VLAN discovery", "A notification names VLANs up to 4094, to the MAC that asked.")
def told_vlan(talk: Talk, tally: Tally) -> None:
    for it in talk.theirs:
        if it.heard.operation == VLAN_TELL:
            vlans = [number(one.data[2:4]) & 0xFFF for one in it.heard.descriptors if one.kind == 14]
            wrong = next((vlan for vlan in vlans if vlan > 4094), None)
            tally.judge(it, want("VLAN", wrong, "0 to 4094") if wrong else None, want("destination", colons(it.heard.destination), "the MAC that asked", not it.heard.destination[0] & 1))


@RULES.rule("fcf-fpma", "FC-BB-5, fabric-provided MAC addresses", "An accept has the FC-MAP and the address as its MAC.")
def granted(talk: Talk, tally: Tally) -> None:
    """The accept of a FLOGI or FDISC has the FPMA of its address."""
    for it in talk.theirs:
        address, mac = granted_in(it.heard), mac_in(it.heard)
        if address is None:
            continue
        if mac is None:
            tally.judge(it, Fault("descriptors", "no MAC", "a MAC descriptor"))
        elif mac[:2] == FPMA:
            tally.judge(it, want("MAC descriptor", colons(mac), f"the FC-MAP and {fcid(address)}", number(mac[3:]) == address))
        else:
            tally.leave("the MAC isn't of an FC-MAP (SPMA)", it)


@RULES.rule("fcf-replies", "FC-FS-3, OX_ID and F_CTL", "A reply in FIP has the OX_ID of a request, and is the responder's.")
def replied(talk: Talk, tally: Tally) -> None:
    """A reply has the OX_ID of a request and comes from its responder."""
    for it in talk.theirs:
        fc = it.heard.fc
        if it.heard.operation != LOGIN_REPLY or fc is None:
            continue
        waiting = [one for one in talk.logins if one.at < it.at and one.heard.source == it.heard.destination and one.heard.login_kind == it.heard.login_kind]
        known = {one.fc.ox_id for one in waiting if one.fc}
        if not waiting or it.clock - waiting[-1].clock > PATIENCE:
            tally.leave("its request isn't in the capture", it)
        else:
            tally.judge(it, want("F_CTL", f"{fc.f_ctl:06x}", "exchange responder", bool(fc.f_ctl & RESPONDER)))
            asked = f"that of a request, as {waiting[-1].fc.ox_id:04x}" if waiting[-1].fc else "that of a request"
            tally.lack(it, it, want("OX_ID", f"{fc.ox_id:04x}", asked, fc.ox_id in known))


@RULES.rule("fcf-addresses", "FC-LS-2, FLOGI, address assignment", "No address is granted to two ENodes at once.")
def distinct(talk: Talk, tally: Tally) -> None:
    for grant in talk.grants:
        twice = [it for it in talk.grants if it is not grant and it.address == grant.address and it.is_live(grant.granted.at) and it.enode != grant.enode]
        fault = Fault("address", fcid(grant.address), f"another: frame {twice[0].granted.place} granted it to {colons(twice[0].enode)}") if twice else None
        tally.lack(grant, grant.granted, fault, missing=2)


@RULES.rule("fcf-addresses-rest", "FC-FS-3, R_A_TOV (from memory)", "An address that ended goes to another port name after R_A_TOV alone.", is_choice=True)
def rested(talk: Talk, tally: Tally) -> None:
    """An address that ended goes to another port name after R_A_TOV alone."""
    for grant in talk.grants:
        before = [it for it in talk.grants if it.address == grant.address and it.ended and it.ended.at < grant.granted.at]
        if before and any(before[-1].name) and any(grant.name):
            other = before[-1].ended
            gap = grant.granted.clock - other.clock if other else 0
            tally.usual(grant.granted, want("address", f"{fcid(grant.address)} to another port name, {gap / 1000:.1f} s after its end", "R_A_TOV", before[-1].name == grant.name or gap >= R_A_TOV))


@RULES.rule("fcf-destination", "FC-BB-5, fabric-provided MAC addresses", "FCoE to an N_Port goes to the FC-MAP and its address.")
def delivered(talk: Talk, tally: Tally) -> None:
    """FCoE to an N_Port goes to its MAC."""
    for it in talk.theirs:
        fc = it.heard.fc
        if it.heard.is_fcoe and fc is not None and it.heard.destination[:2] == FPMA:
            tally.judge(it, want("destination", colons(it.heard.destination), f"the FC-MAP and the D_ID {fcid(fc.d_id)}", number(it.heard.destination[3:]) == fc.d_id))


@RULES.rule("fcf-crc", "FC-FS-3, CRC", "The check sequence is right.")
def checked(talk: Talk, tally: Tally) -> None:
    for it in talk.theirs:
        fc = it.heard.fc
        if it.heard.is_fcoe and fc is not None and it.is_whole:
            tally.judge(it, want("CRC", it.heard.data[fc.end : fc.end + 4].hex(), fc_check(it.heard.data[fc.at : fc.end]).hex()))


@RULES.rule("fcf-answers", "FC-LS-2; FC-GS-6", "Requests to FFFFFC and FFFFFD are answered.")
def answered(talk: Talk, tally: Tally) -> None:
    """Logins in FIP and requests to services are answered."""
    if not talk.theirs:
        return
    for one in talk.exchanges.all:
        it, fc = one.request, one.request.fc
        if it.is_switch or fc is None or not (it.heard.is_fip or fc.d_id in (0xFFFFFC, 0xFFFFFD)) or fc.r_ctl == 0x06:
            continue
        if one.reply or one.aborted:
            tally.held.append(it)
        elif talk.end - it.clock < PATIENCE or ended_between(talk, one, it.clock + PATIENCE):
            tally.leave("no answer until its login or the capture ends", it)
        else:
            judge_unanswered(talk, it, tally)


def judge_unanswered(talk: Talk, it: Shown, tally: Tally) -> None:
    """A request that came from nobody who is logged in may be dropped."""
    fc = it.heard.fc
    is_heard = it.heard.is_fip and not it.heard.destination[0] & 1 or fc is not None and talk.login_of(fc.s_id, it.at) is not None
    if is_heard and not it.heard.is_fip:
        tally.lack(it, it, Fault("answer", "none", "an accept or a reject"))
    else:
        tally.leave("whether it came to the forwarder", it)


@RULES.rule("fcf-receive-size", "FC-LS-2, receive data field size", "What comes to an N_Port is no larger than it takes, of the forwarder itself and of other N_Ports.")
def sizes_sent(talk: Talk, tally: Tally) -> None:
    sizes(talk, True, tally)
