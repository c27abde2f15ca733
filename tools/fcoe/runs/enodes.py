"""What each ENode of the captures asked for, and what the switch answered to it: the facts that answers rest on."""
from dataclasses import dataclass, field
from typing import Iterator, Optional

from ..frames.heard import ADVERTISE, ALL_ENODES, KEEP_ALIVE, LOGIN, SOLICIT, VLAN_REQUEST, VLAN_TELL, Heard, colons, login_names, number
from .hosts import is_fabric_login, is_of_host
from .inputs import Port
from .looking import Look
from .replies import Reply

ASKED, SOLICITED, TALKED, FALLBACK = "VLAN request", "Solicitation", "VN2VN", "login in FCoE"


@dataclass
class Enode:
    """A host's port as it shows itself on the wire: places of its requests in the records of its port, by kind."""

    port: Port
    mac: bytes
    name: bytes = b""
    requests: dict[str, list[int]] = field(default_factory=dict)
    vlans: dict[int, list[int]] = field(default_factory=dict)  # of solicitations and logins, by their tag
    keeps_alive: bool = False  # it sends keep alives behind a request, as it does once it has a login

    def all(self, *kinds: str) -> list[int]:
        """The places of the requests of some kinds, in their order."""
        return sorted(at for kind in kinds for at in self.requests.get(kind, []))

    def heard(self, at: int) -> Heard:
        return self.port.frames.heard(at)

    @property
    def label(self) -> str:
        """The port name, or else the MAC."""
        return colons(self.name) if self.name else f"the host {colons(self.mac)}"


def kind_of(heard: Heard) -> Optional[str]:
    """The kind of a request of an ENode."""
    if is_fabric_login(heard):
        return FALLBACK
    if heard.operation in (VLAN_REQUEST, SOLICIT) or heard.operation == LOGIN and heard.login_kind:
        return heard.kind
    return TALKED if is_of_host(heard) else None


def enodes_of(ports: list[Port]) -> list[Enode]:
    """The ENodes of all ports, each in the order of its first request."""
    found: dict[tuple[int, bytes], Enode] = {}
    for port in ports:
        for at in port.host_messages:
            heard = port.frames.heard(at)
            kind = kind_of(heard) if heard.is_fabric else None
            if heard.operation == KEEP_ALIVE and (port.number, heard.source) in found:
                found[port.number, heard.source].keeps_alive = True
            if kind is None:
                continue
            one = found.setdefault((port.number, heard.source), Enode(port, heard.source))
            one.requests.setdefault(kind, []).append(at)
            if kind != ASKED:
                one.vlans.setdefault(heard.vlan, []).append(at)
            names = login_names(heard) if heard.kind in ("FLOGI", "FDISC") else None
            if names and not one.name:
                one.name = names[0]
    return list(found.values())


@dataclass
class Said:
    """What a port hears of the switch, beside replies."""

    vlan: Optional[int] = None  # in which it advertises
    told: Optional[int] = None  # which its VLAN notification names
    to_all: list[int] = field(default_factory=list)  # advertisements to all ENodes
    flags: int = 0  # of its latest solicited advertisement


def said_on(port: Port, mac: bytes) -> Said:
    """What the switch with this MAC says on a port."""
    said = Said()
    for at in port.switch_messages:
        heard = port.frames.heard(at)
        vlan = heard.descriptor(14) if heard.operation == VLAN_TELL else None
        if vlan is not None and len(vlan.data) >= 4:
            said.told = number(vlan.data[2:4]) & 0xFFF
        if heard.operation == ADVERTISE and heard.source == mac:
            said.vlan = heard.vlan
            if heard.destination == ALL_ENODES:
                said.to_all.append(at)
            else:
                said.flags = heard.flags
    return said


@dataclass
class Seen:
    """An ENode with what the switch said to it."""

    look: Look
    enode: Enode
    said: Said

    def reply(self, at: int) -> Optional[Reply]:
        return self.look.replies.get((self.enode.port.number, at))

    def answered(self, *kinds: str) -> list[int]:
        """Requests of these kinds that have a reply."""
        return [at for at in self.enode.all(*kinds) if self.reply(at)]

    def clock(self, at: int) -> int:
        return self.enode.port.frames.milliseconds(at)

    @property
    def is_in(self) -> bool:
        """The switch granted it an address: an accept is there, the host uses one, or keeps its login alive where the capture has the host's side alone."""
        if self.enode.keeps_alive and not self.enode.port.replies:
            return True
        return any((self.enode.port.number, at) in self.look.grants for at in self.enode.all("FLOGI", "FDISC"))

    @property
    def switch_vlan(self) -> Optional[int]:
        """The VLAN that the switch names or advertises in, on this port or on another."""
        return self.said.vlan or self.said.told


def seen_of(look: Look) -> Iterator[Seen]:
    """All ENodes of captures, with what the switch said."""
    said = {port.number: said_on(port, look.run.config.mac) for port in look.captured}
    for enode in enodes_of(look.captured):
        yield Seen(look, enode, said[enode.port.number])
