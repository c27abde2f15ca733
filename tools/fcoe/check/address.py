"""Rules on MACs and addresses: used once granted, each with its frame, and not behind the end of a login (FC-BB-5, FC-LS-2)."""
from typing import Iterator

from ..frames.heard import LOGIN, colons, fcid, number
from ..runs.configs import FPMA
from .discovery import destination_of, shown, vlan_of
from .habits import agree, by_address, odd_macs, stretches
from .rules import ONE_WAY, Fault, Group, Tally, want
from .shown import Shown, mac_in
from .talk import Grant, Talk

IN_FLIGHT = 2000  # milliseconds (E_D_TOV) within which a frame may have crossed what ended its login
EARLIER = "the ENode may have logged in before the capture began"
COMMAND = 0x06  # R_CTL of an FCP command
RULES = Group("addresses", is_across=True)


def uses(talk: Talk) -> Iterator[Shown]:
    """Frames that the ENode sends as an N_Port: FCoE, and keep alives of VN_Ports."""
    return iter(talk.uses)


@RULES.rule("fpma-granted", "FC-BB-5, fabric-provided MAC addresses", "An N_Port sends from a MAC that was granted, and not before.")
def granted(talk: Talk, tally: Tally) -> None:
    if not talk.is_two_way:
        granted_alone(talk, tally)
        return
    for it in uses(talk):
        source = it.heard.source
        if talk.grant_of(source, it.at):
            tally.held.append(it)
        elif talk.began_before(it):
            tally.leave(EARLIER, it)
        else:
            judge_ungranted(talk, it, tally)


def granted_alone(talk: Talk, tally: Tally) -> None:
    """Of a host's direction alone: nothing before its FLOGI, and one MAC with each address while no other FLOGI comes."""
    first = next((it for it in talk.logins if it.heard.login_kind == "FLOGI"), None)
    for one in stretches(talk):
        odd = {at: mac for some in by_address(one).values() for at, mac in odd_macs(some).items()}
        for it in one.uses:
            source = colons(it.heard.source)
            if it.at in odd:
                tally.judge(it, Fault("source", source, f"{colons(odd[it.at])}, as in other frames of its address"))
            elif one.login is None and not talk.began_before(it):
                is_near = first is not None and first.clock - it.clock < IN_FLIGHT
                tally.lack("FLOGI", it, Fault("source", source, "nothing before a FLOGI"), missing=2 if is_near else 1)
            else:
                tally.leave(ONE_WAY, it)


def judge_ungranted(talk: Talk, it: Shown, tally: Tally) -> None:
    """A MAC that no grant of the capture gave: that of the ENode, one that is granted later on, or one whose grant is missing."""
    source = it.heard.source
    live = ", ".join(colons(grant.mac) for grant in talk.live(it.at)) or "none yet"
    fault = Fault("source", colons(source), f"a MAC that was granted ({live})")
    asked = any(one.at < it.at and one.heard.login_kind in ("FLOGI", "FDISC") for one in talk.logins)
    if source == talk.mac or any(one.mac == source for one in talk.grants):
        tally.judge(it, fault)
    else:
        tally.lack(source, it, fault, missing=1 if asked else 2)


def is_fpma(mac: bytes) -> bool:
    return mac[:2] == FPMA


@RULES.rule("source-mac", "FC-BB-5, fabric-provided MAC addresses", "The source of an FCoE frame is the FC-MAP and the S_ID, or the MAC that was granted with it.")
def beside_address(talk: Talk, tally: Tally) -> None:
    """The FC-MAP and the S_ID are the source; a MAC that isn't the fabric's is another matter."""
    for it, fc in talk.in_fcoe():
        source = it.heard.source
        if not fc.s_id:
            continue
        if is_fpma(source):
            tally.judge(it, want("source", colons(source), f"the FC-MAP and the S_ID, {colons(source[:3] + fc.s_id.to_bytes(3, 'big'))}", number(source[3:]) == fc.s_id))
        elif not talk.is_two_way:
            tally.leave("the MAC isn't of an FC-MAP: a MAC of the ENode's own (SPMA), which the capture doesn't show the grant of", it)
        else:
            held = [grant for grant in talk.live(it.at) if grant.mac == source and grant.address == fc.s_id]
            if held or not talk.began_before(it):
                tally.judge(it, want("source", colons(source), f"the MAC that was granted with {fcid(fc.s_id)}", bool(held)))


@RULES.rule("login-source", "FC-BB-5, FIP FLOGI", "Logins in FIP come from the ENode's MAC.")
def of_own(talk: Talk, tally: Tally) -> None:
    """FIP but keep alives of VN_Ports comes from the ENode's MAC, also behind the grant."""
    for it in talk.own:
        if it.heard.is_fip and it.heard.operation == LOGIN:
            mac = mac_in(it.heard)
            tally.judge(it, want("source", colons(it.heard.source), f"the ENode's MAC, not the {colons(mac) if mac else 'MAC'} of a VN_Port", not is_fpma(it.heard.source)))


def granted_uses(talk: Talk) -> Iterator[tuple[Shown, Grant]]:
    """Frames from a MAC that a grant of the capture gave, with the latest grant of it."""
    for it in uses(talk):
        found = talk.grant_of(it.heard.source, it.at)
        if found:
            yield it, found


@RULES.rule("fcoe-destination", "FC-BB-5, FCoE virtual links", "FCoE goes to the forwarder that granted the address.")
def to_forwarder(talk: Talk, tally: Tally) -> None:
    if not talk.is_two_way:
        agree(talk, tally, "destination", destination_of, shown)
        return
    for it, grant in granted_uses(talk):
        tally.judge(it, want("destination", colons(it.heard.destination), colons(grant.forwarder)))


@RULES.rule("fcoe-vlan", "FC-BB-5, FCoE virtual links; IEEE 802.1Q", "FCoE stays in the VLAN of its login.")
def in_vlan(talk: Talk, tally: Tally) -> None:
    """The VLAN of a login is that of all that follows."""
    if not talk.is_two_way:
        agree(talk, tally, "VLAN", vlan_of, shown)
        return
    for it, grant in granted_uses(talk):
        tally.judge(it, want("VLAN", it.heard.vlan, grant.granted.heard.vlan))


def behind(talk: Talk, tally: Tally, *whys: str) -> None:
    """Nothing goes out from a MAC whose login ended in one of these ways."""
    ends = [grant for grant in talk.grants if grant.ended and grant.why in whys]
    for grant in ends:
        late = next((it for it in uses(talk) if is_late(talk, grant, it)), None)
        if grant.ended is None:
            continue
        if late:
            fault = Fault("source", colons(late.heard.source), f"nothing from this MAC: {ENDED[grant.why]} in frame {grant.ended.place}")
            asked = any(grant.ended.at < one.at < late.at and one.heard.login_kind in ("FLOGI", "FDISC") for one in talk.logins)
            tally.lack(grant, late, fault, missing=1 if asked or grant.why.startswith("clear") else 2)  # the wire may have lost the Clear
        elif talk.end - grant.ended.clock >= IN_FLIGHT:
            tally.held.append(grant.ended)
        else:
            tally.leave("the capture ends within E_D_TOV", grant.ended)


ENDED = {
    "LOGO": "its LOGO was accepted",
    "clear link": "a Clear Virtual Links listed it",
    "clear link of all": "a Clear Virtual Links without a list ended all",
    "login": "a further FLOGI of its ENode was accepted",
}


def is_late(talk: Talk, grant: Grant, it: Shown) -> bool:
    """Sent from the MAC of a grant though it has ended, and not in flight."""
    ended = grant.ended
    if ended is None or it.heard.source != grant.mac or it.at < ended.at or it.clock - ended.clock < IN_FLIGHT:
        return False
    return talk.grant_of(grant.mac, it.at) is grant


@RULES.rule("end-by-logo", "FC-LS-2, LOGO; FC-BB-5, FIP LOGO", "Nothing comes from an address after its accepted LOGO.")
def behind_logo(talk: Talk, tally: Tally) -> None:
    behind(talk, tally, "LOGO")


@RULES.rule("end-by-clear", "FC-BB-5, FIP Clear Virtual Links", "Nothing comes from a VN_Port that a Clear Virtual Links listed, before it logs in anew.")
def behind_clear(talk: Talk, tally: Tally) -> None:
    behind(talk, tally, "clear link")


@RULES.rule("end-by-clear-of-all", "FC-BB-5, FIP Clear Virtual Links", "Nothing comes from any VN_Port of a forwarder after its Clear Virtual Links without a list.")
def behind_clear_of_all(talk: Talk, tally: Tally) -> None:
    behind(talk, tally, "clear link of all")


@RULES.rule("end-by-silence", "FC-BB-5, FIP discovery, FKA_ADV_PERIOD", "Two and a half periods without an advertisement end the logins at a forwarder.")
def behind_silence(talk: Talk, tally: Tally) -> None:
    """Two and a half periods without an advertisement end the logins at a forwarder."""
    for one in talk.silences:
        last, begin = one.last, one.begin + IN_FLIGHT
        macs = {grant.mac for grant in talk.live(last.at + 1) if grant.forwarder == last.heard.source}
        late = next((it for it in uses(talk) if begin < it.clock < one.end and it.heard.source in macs and not anew(talk, it, last)), None)
        if late and talk.longest_rest(last.clock, late.clock) >= one.begin - last.clock:
            tally.leave(f"no frame of anybody for {talk.longest_rest(last.clock, late.clock) / 1000:.1f} s before it: the capture may have a gap there", late)
        elif late:
            tally.lack(one, late, Fault("source", colons(late.heard.source), f"nothing from this MAC: its forwarder fell silent after frame {last.place}"), missing=2)
        elif macs and one.end > begin:
            tally.held.append(last)


def anew(talk: Talk, it: Shown, last: Shown) -> bool:
    found = talk.grant_of(it.heard.source, it.at)
    return found is not None and found.granted.at > last.at


@RULES.rule("end-by-login", "FC-LS-2, FLOGI", "A further FLOGI ends the earlier logins of its ENode.")
def behind_login(talk: Talk, tally: Tally) -> None:
    behind(talk, tally, "login")


@RULES.rule("login-anew", "FC-LS-2, FLOGI and PLOGI (from memory)", "Behind a login anew with the same address a PLOGI comes before FCP commands.")
def fresh(talk: Talk, tally: Tally) -> None:
    """Behind a further login an N_Port logs in to others anew: a PLOGI comes before FCP commands to the same address."""
    for grant in talk.grants:
        earlier = [one for one in talk.grants if one is not grant and one.ended and one.ended.at <= grant.granted.at and one.address == grant.address]
        if earlier:
            judge_fresh(talk, grant, tally)


def judge_fresh(talk: Talk, grant: Grant, tally: Tally) -> None:
    logged: set[int] = set()
    for it in talk.frames:
        fc = it.heard.fc
        if not grant.granted.at < it.at or grant.ended and it.at > grant.ended.at or fc is None or not it.heard.is_fcoe:
            continue
        there = fc.s_id if fc.d_id == grant.address else fc.d_id
        if it.heard.kind == "PLOGI" and grant.address in (fc.s_id, fc.d_id):
            logged.add(there)
        elif not it.is_switch and fc.r_ctl == COMMAND and fc.s_id == grant.address:
            fault = want("N_Port login", f"none with {fcid(there)} since the login anew in frame {grant.granted.place}", "a PLOGI first", there in logged)
            tally.lack((grant, there), it, fault, missing=2)
