"""Which reply of a capture answers which request, and what was asked in an exchange."""
from itertools import accumulate
from typing import Hashable, Iterator, Optional, TypeVar

from ..frames.heard import LOGIN, LOGIN_REPLY, NAME_SERVER, SOLICIT, VLAN_REQUEST, VLAN_TELL, ADVERTISE, CONTROLLER, FABRIC_PORT, Fc, Heard
from .inputs import Port

Place = tuple[int, int]  # of a frame: moment, and place in its capture
Moment = tuple[int, int, int]  # of a frame among those of all ports: moment, port, and place in its capture
K = TypeVar("K", bound=Hashable)
SERVICES = (NAME_SERVER, CONTROLLER, FABRIC_PORT)


def asks(heard: Heard) -> Optional[tuple[object, ...]]:
    """What a reply to this request has in common with it: its key, or none where it is no request to the switch."""
    if heard.operation in (VLAN_REQUEST, SOLICIT):
        return (heard.operation[0], heard.source)
    if heard.operation == LOGIN and heard.fc:
        return (2, heard.source, heard.fc.ox_id)
    fc = heard.fc
    if heard.is_fcoe and fc and fc.d_id in SERVICES and (fc.kind, fc.r_ctl) in ((0x01, 0x22), (0x20, 0x02)):
        return (fc.kind, fc.d_id, fc.s_id, fc.ox_id)
    return None


def answers(heard: Heard) -> Optional[tuple[object, ...]]:
    """The key of the request that this frame of the switch answers; parts of one reply but its first have none."""
    if heard.operation in (VLAN_TELL, ADVERTISE) and not heard.destination[0] % 2:
        return (4 if heard.operation == VLAN_TELL else 1, heard.destination)
    if heard.operation == LOGIN_REPLY and heard.fc:
        return (2, heard.destination, heard.fc.ox_id)
    fc = heard.fc
    if heard.is_fcoe and fc and fc.is_reply and fc.s_id in SERVICES and fc.seq_cnt == 0:
        return (fc.kind, fc.s_id, fc.d_id, fc.ox_id)
    return None


def matched(requests: list[Place], replies: list[Place]) -> dict[int, int]:
    """Which of the replies with one key answers which of the requests: as many in their order; else each the latest request before it."""
    if len(requests) == len(replies):
        return {a[1]: b[1] for a, b in zip(requests, replies)}
    found: dict[int, int] = {}
    for moment, place in replies:
        earlier = [it for it in requests if it[0] <= moment and it[1] not in found]
        if earlier:
            found[earlier[-1][1]] = place
    return found


def other_forwarders(port: Port, mac: bytes) -> set[bytes]:
    """Further forwarders on the port, whose replies in FIP aren't those of the switch that is looked at."""
    found = {it.source for at in port.frames.messages() for it in [port.frames.heard(at)] if it.operation == ADVERTISE}
    return found - {mac} if mac in found else set()


def replies_of(port: Port, mac: bytes) -> dict[int, int]:
    """For each request of a host, by its place in the port's records, the place of the reply of the switch with this MAC."""
    others = other_forwarders(port, mac)
    asked: dict[tuple[object, ...], list[Place]] = {}
    told: dict[tuple[object, ...], list[Place]] = {}
    frames = port.frames
    for at in port.host_messages:
        key = asks(frames.heard(at))
        if key is not None:
            asked.setdefault(key, []).append((frames.moments[at], at))
    for at in port.switch_messages:
        heard = frames.heard(at)
        key = None if heard.is_fip and heard.source in others else answers(heard)
        if key is not None:
            told.setdefault(key, []).append((frames.moments[at], at))
    found: dict[int, int] = {}
    for key, requests in asked.items():
        found.update(matched(requests, told.get(key, [])))
    return found


class Exchanges:
    """What was asked in each exchange, and how much of a reply went by already."""

    def __init__(self) -> None:
        self.commands: dict[tuple[int, int, int], int] = {}
        self.offsets: dict[tuple[int, int, int], int] = {}

    def hear(self, fc: Fc) -> tuple[Optional[int], int]:
        """The command that a reply answers, and where in the reply its payload begins."""
        here, back = (fc.s_id, fc.d_id, fc.ox_id), (fc.d_id, fc.s_id, fc.ox_id)
        if not fc.is_reply:
            if fc.command is not None and fc.r_ctl in (0x22, 0x02):
                self.commands[here] = fc.command
            return None, 0
        offset = self.offsets.get(here, 0) if fc.seq_cnt else 0
        self.offsets[here] = offset + len(fc.payload)
        return self.commands.get(back), offset


def in_order(ports: list[Port]) -> Iterator[tuple[Moment, Port, int]]:
    """The messages of all ports by time, which doesn't go back within a port."""
    found: list[tuple[Moment, Port, int]] = []
    for port in ports:
        times: Iterator[int] = accumulate(port.frames.moments, max)
        told = port.frames.is_message_at()
        found += [((moment, port.number, at), port, at) for at, (moment, is_told) in enumerate(zip(times, told)) if is_told]
    yield from sorted(found, key=lambda it: it[0])
