"""Why a host that isn't logged in got no further: VLAN, discovery, FLOGI (FC-BB-5, FIP), by the first step that failed."""
from typing import Callable, Optional

from ..errors import counted
from ..frames.heard import colons
from ..frames.lldp import OFFER, without_fcoe
from ..runs.enodes import ASKED, FALLBACK, SOLICITED, TALKED, Seen
from ..runs.inputs import dcbx_of
from .answer import About, Answer, Severity, times
from .rivals import PART, rivals_on, switch_text

PADDED = "2,158 bytes"  # of a solicited advertisement, which a path without mini-jumbo frames loses
AVAILABLE, PATIENCE = 0x0004, 5000  # the flag A of an advertisement; milliseconds that a host may wait before its FLOGI
ONE_WAY = "where this capture holds the host's direction alone, capture both"
NO_FIP = "is FCoE on at the switch's port, is the FCoE VLAN allowed there, does a bridge between them pass 01:10:18:01:00:02 (All-FCF-MACs)?"
JUMBO = "each hop must carry them (mini-jumbo, an MTU of 2,500 is usual): the switch's port and its FCoE class, bridges, the host's Ethernet port"
Test = Callable[[Seen], Optional[Answer]]


def failed(seen: Seen, text: str, step: str, places: list[int]) -> Answer:
    """A host without a login."""
    port = seen.enode.port
    numbers = [(port.number, port.frames.number(at)) for at in places]
    clocks = [seen.clock(at) for at in places]
    answer = Answer(Severity.FAILED, text, step, port.number, seen.enode.label, min(clocks), max(clocks), numbers, about=About.ENTRY, enode=seen.enode.mac)
    fallback = len(seen.enode.all(FALLBACK))
    if fallback and places != seen.enode.all(FALLBACK):
        answer.followers.append(f"{counted(fallback, 'FLOGI')} in FCoE, without FIP: what Linux sends where FIP isn't answered")
    return answer


def in_vn2vn(seen: Seen) -> Optional[Answer]:
    talked = seen.enode.all(TALKED)
    if not talked or seen.enode.all("FLOGI"):
        return None
    step = 'set the host to fabric mode (Linux: MODE="fabric" in /etc/fcoe/cfg-ETH)'
    return failed(seen, "is in VN2VN mode: it looks for other hosts (FIP operation 5), not for a switch", step, talked)


def in_other_vlan(seen: Seen) -> Optional[Answer]:
    """Its solicitations and logins are in another VLAN than the switch's."""
    own, switch = seen.enode.vlans, seen.switch_vlan
    if not own or not switch or switch in own or seen.answered(SOLICITED, "FLOGI"):
        return None
    vlan, places = max(own.items(), key=lambda it: len(it[1]))
    does = "advertises in" if seen.said.vlan else "names in its VLAN notification"
    step = f"put the host's FCoE interface into VLAN {switch} (Linux: `fipvlan -c ETH` finds it), or allow its VLAN at the switch's port"
    if vlan == 0:
        return failed(seen, f"sends FCoE without a tag, the switch {does} VLAN {switch}", step, places)
    return failed(seen, f"sends in VLAN {vlan}, the switch {does} {switch}", step, places)


def unheard(seen: Seen) -> Optional[Answer]:
    """It sent FLOGIs in FIP, and none is answered."""
    logins = seen.enode.all("FLOGI")
    if not logins or seen.answered("FLOGI"):
        return None
    to = seen.enode.heard(logins[-1]).destination
    said = f"sent {counted(len(logins), 'FLOGI')} to {colons(to)}"
    if not seen.enode.port.replies:
        return failed(seen, f"{said} and nothing after {'it' if len(logins) == 1 else 'them'}; this capture has no frame of the switch", "capture both directions of the port: the switch's answer has the reason", logins)
    own = seen.look.run.config.mac
    if to != own:
        return elsewhere(seen, said, to, logins)
    step = "the switch's log for this port at that time" + ("" if seen.answered(ASKED, SOLICITED) else "; does a bridge drop FIP?")
    return failed(seen, f"{said}, the switch answered none", step, logins)


def elsewhere(seen: Seen, said: str, to: bytes, logins: list[int]) -> Answer:
    """It sent its FLOGIs to another MAC than the switch's: to another switch of its VLAN, or to nobody who advertises himself."""
    rivals, own = rivals_on(seen.look, seen.enode.port.number), colons(seen.look.run.config.mac)
    other = rivals.other(to) if rivals else None
    if rivals is None or other is None:
        return failed(seen, f"{said}, which isn't the switch's MAC ({own}), and nobody answered", "where the host has that MAC from: it logs in to the source of the advertisement that it chose", logins)
    text = f"{said} and none to this switch: {rivals.text}, {switch_text(rivals.own)} and {switch_text(other)}"
    answer = failed(seen, text, f"if {own} is its own: {PART}; `--fcf {colons(to)}` has what the other answered", logins)
    answer.followers.append(rivals.fabrics)
    return answer


def untagged(seen: Seen) -> Optional[Answer]:
    sent = seen.enode.vlans.get(0, [])
    if not sent or len(seen.enode.vlans) > 1 or seen.answered(ASKED, SOLICITED, "FLOGI"):
        return None
    step = f"FCoE goes over an interface of the FCoE VLAN (Linux: `fipvlan -c -s ETH` makes it); {ONE_WAY}"
    asked = seen.enode.all(ASKED)
    more = f"; it asked for VLANs {times(len(asked))}, nobody answered" if asked else ""
    return failed(seen, f"sends FCoE without a tag{more}", step, sent)


def advertised_to(seen: Seen) -> Optional[Answer]:
    """It solicited and was advertised to, and no FLOGI follows."""
    solicited = seen.answered(SOLICITED)
    if not solicited or seen.enode.all("FLOGI"):
        return None
    if not seen.said.flags & AVAILABLE:
        step = "why the switch takes no logins there: its port is down for FCoE, or its VSAN or fabric isn't up"
        return failed(seen, "solicited, was advertised to without the flag A (available for login), sent no FLOGI", step, solicited)
    last = seen.reply(solicited[-1])
    left = seen.enode.port.frames.milliseconds(-1) - last.clock if last else 0
    if left < PATIENCE:
        step = f"the capture ends {left / 1000:.1f} s after the advertisement: capture on; a host may wait some seconds before its FLOGI"
        return failed(seen, "solicited, was advertised to, sent no FLOGI yet", step, solicited)
    return failed(seen, f"solicited, was advertised to, sent no FLOGI: look whether {PADDED} come through", JUMBO, solicited)


def not_advertised_to(seen: Seen) -> Optional[Answer]:
    """It solicited, and no solicited advertisement came, though the switch is there."""
    solicited = seen.enode.all(SOLICITED)
    if not solicited or seen.answered(SOLICITED) or not (seen.said.to_all or seen.answered(ASKED)):
        return None
    said = f"solicited {times(len(solicited))}"
    if seen.said.to_all:
        return failed(seen, f"{said}; advertisements to all come, the answer to it doesn't: look whether {PADDED} come through", JUMBO, solicited)
    vlans = ", ".join(str(it) for it in sorted(seen.enode.vlans))
    return failed(seen, f"{said} in VLAN {vlans}, no advertisement came", "is FCoE on in that VLAN at the switch, and its VSAN or fabric up?", solicited)


def not_offered(seen: Seen) -> str:
    """That the port of the switch offers no FCoE by its DCBX; empty where it doesn't say so."""
    return without_fcoe([it for it in dcbx_of([seen.enode.port]) if it.source != seen.enode.mac])


def unanswered(seen: Seen) -> Optional[Answer]:
    """Nothing that it sent is answered."""
    asked, solicited, fallback = (seen.enode.all(it) for it in (ASKED, SOLICITED, FALLBACK))
    if seen.answered(ASKED, SOLICITED):
        return None
    step = f"{NO_FIP} {ONE_WAY[0].upper()}{ONE_WAY[1:]}"
    lacking = not_offered(seen)
    if lacking and (asked or solicited):
        return failed(seen, f"{'asked for VLANs' if asked else 'solicited'} {times(len(asked or solicited))}, nobody answered: {lacking}", OFFER, asked or solicited)
    if asked:
        return failed(seen, f"asked for VLANs {times(len(asked))}, nobody answered: FIP doesn't reach the switch", step, asked)
    if solicited:
        vlans = ", ".join(str(it) for it in sorted({seen.enode.heard(it).vlan for it in solicited}))
        return failed(seen, f"solicited {times(len(solicited))} in VLAN {vlans}, nobody answered: FIP doesn't reach a switch there", step, solicited)
    if fallback:
        return failed(seen, f"sent {counted(len(fallback), 'FLOGI')} in FCoE, without FIP; nobody answered", f"is FIP on at the host? {step}", fallback)
    return None


def told_alone(seen: Seen) -> Optional[Answer]:
    """It was told a VLAN, and solicited nowhere."""
    asked = seen.answered(ASKED)
    if not asked or seen.enode.all(SOLICITED, "FLOGI"):
        return None
    step = f"is the host's interface of VLAN {seen.said.told} there and up (Linux: `fipvlan -c -s ETH`), and was it captured too?"
    return failed(seen, f"was told VLAN {seen.said.told}, sent no solicitation", step, asked)


TESTS: list[Test] = [in_vn2vn, in_other_vlan, unheard, untagged, advertised_to, not_advertised_to, unanswered, told_alone]


def why_not_in(seen: Seen) -> Optional[Answer]:
    """The first step at which a host without a login stopped; of a login that was rejected none, since its codes say more."""
    is_rejected = any(it.verdict.startswith("rejected") for at in seen.enode.all("FLOGI") if (it := seen.reply(at)))
    if seen.is_in or is_rejected:
        return None
    return next((answer for test in TESTS if (answer := test(seen)) is not None), None)
