"""What the switch of the captures said to each request of a host, in the journal's words."""
from dataclasses import dataclass
from typing import Optional

from ..frames.heard import ADVERTISE, VLAN_TELL, Heard, fcid, granted_in
from .inputs import Port
from .pairs import replies_of
from .readdress import Request

VENDORS = 0xFF  # the reason of a reject whose meaning is in the vendor's byte


@dataclass
class Reply:
    """A reply of the switch: where it stands in its port's records, its number as Wireshark shows it, its moment in milliseconds, and its verdict."""

    at: int
    number: int
    clock: int
    verdict: str


def verdict_of(reply: Heard) -> str:
    """What a reply of the switch decides, as a journal would spell it, with the switch's own address."""
    if reply.operation in (ADVERTISE, VLAN_TELL):
        return "advertised" if reply.operation == ADVERTISE else "vlans"
    fc = reply.fc
    if fc is None:
        return reply.kind
    address, payload = granted_in(reply), fc.payload
    if address is not None:
        return f"granted {fcid(address)}"
    if fc.kind == 0x20:
        return f"refused {payload[13]:02x} {payload[14]:02x}" if fc.command == 0x8001 and len(payload) >= 15 else "answered"
    if payload[:1] == b"\x01" and len(payload) >= 7:
        return f"rejected {payload[5]:02x} {payload[6]:02x}" + (f" {payload[7]:02x}" if payload[5] == VENDORS and len(payload) >= 8 else "")
    return "accepted"


def replies_to(ports: list[Port], mac: bytes) -> dict[Request, Reply]:
    """The switch's reply to each request that it answered, by port and place of the request in the port's records."""
    found: dict[Request, Reply] = {}
    for port in ports:
        for asked, at in replies_of(port, mac).items():
            frames = port.frames
            found[(port.number, asked)] = Reply(at, frames.number(at), frames.milliseconds(at), verdict_of(frames.heard(at)))
    return found


def answered_request(found: dict[Request, Reply], port: int, at: int) -> Optional[int]:
    """The place of the request that this frame of the switch answers."""
    return next((asked for (number, asked), it in found.items() if number == port and it.at == at), None)
