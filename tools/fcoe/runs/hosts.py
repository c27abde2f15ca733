"""Who is a host and who is a switch, by what each sends (FC-BB-5)."""
from typing import Iterable

from ..frames.heard import ADVERTISE, CLEAR, FABRIC_PORT, LOGIN, LOGIN_REPLY, SOLICIT, VLAN_REQUEST, VLAN_TELL, VN2VN, Heard, number

WELL_KNOWN = 0xFF0000  # addresses from here on are the fabric's services
FROM_FORWARDER = 0x0001  # the flag F of a solicitation or VLAN request, which forwarders set


def is_fabric_login(heard: Heard) -> bool:
    """A FLOGI or FDISC in FCoE, as hosts without FIP send it."""
    fc = heard.fc
    return heard.is_fcoe and fc is not None and (fc.kind, fc.r_ctl, fc.d_id) == (0x01, 0x22, FABRIC_PORT) and heard.kind in ("FLOGI", "FDISC")


def is_of_host(heard: Heard) -> bool:
    """What an ENode alone sends: a VLAN request, a solicitation, a login in FIP or FCoE, a message of VN2VN."""
    if heard.operation in (VLAN_REQUEST, SOLICIT):
        return not heard.flags & FROM_FORWARDER
    if heard.operation is not None and heard.operation[0] == VN2VN:
        return True
    return heard.operation == LOGIN and heard.login_kind is not None or is_fabric_login(heard)


def is_to_granted(heard: Heard, fc_map: bytes) -> bool:
    """FCoE to the MAC that was granted with the address it goes to (FPMA); services have none."""
    fc = heard.fc
    if not heard.is_fcoe or fc is None or heard.destination[:3] != fc_map or heard.source[:3] == fc_map:
        return False
    return number(heard.destination[3:]) == fc.d_id < WELL_KNOWN


def switches_in(frames: Iterable[Heard], chosen: set[bytes], fc_map: bytes) -> set[bytes]:
    """The MACs of switches: those that were chosen or found, those that advertise themselves, and those that answer or send to granted MACs and
    do nothing that a host does."""
    advertising, answering, hosts = set(), set(), set()
    for it in frames:
        if it.operation == ADVERTISE:
            advertising.add(it.source)
        elif it.operation in (LOGIN_REPLY, VLAN_TELL, CLEAR) or is_to_granted(it, fc_map):
            answering.add(it.source)
        elif is_of_host(it):
            hosts.add(it.source)
    return advertising | (answering - hosts) | chosen
