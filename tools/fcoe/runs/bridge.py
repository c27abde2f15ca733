"""A FIP snooping bridge worked over captures: the way of each frame, and who is bound where (docs/BRIDGE.md has the rules)."""
from dataclasses import dataclass
from enum import Enum
from typing import Optional

from ..frames.columns import Record
from ..frames.heard import ADVERTISE, ALL_ENODES, ALL_FCFS, CLEAR, KEEP_ALIVE, LOGIN, LOGIN_REPLY, SOLICIT, TAG_TYPE, VLAN_REQUEST, VLAN_TELL, Fc, Heard, number
from ..frames.sound import is_sound_fc, is_sound_fcoe, is_sound_fip
from .configs import Config

FROM_FORWARDER = 0x0001  # the flag F
LEAST_ACCEPT = 116  # bytes of payload of a login's accept
OF_FORWARDER = (ADVERTISE, LOGIN_REPLY, CLEAR, VLAN_TELL)
OF_ENODE = (LOGIN, KEEP_ALIVE, VLAN_REQUEST)
UNTAGGED = (VLAN_REQUEST, VLAN_TELL)  # what may come without a tag
UPLINK = 1


class Side(Enum):
    """Where a frame goes."""

    UP = "up to port 1"
    DOWN = "down to a port"
    ALL = "to all ENode ports"
    DROPPED = "dropped"


@dataclass(frozen=True)
class Way:
    """Where a frame goes: of one that goes down the port, of one that is dropped the rule."""

    side: Side
    port: int = 0
    rule: str = ""

    def __str__(self) -> str:
        if self.side is Side.DROPPED:
            return f"dropped {self.rule}"
        return f"down to port {self.port}" if self.side is Side.DOWN else str(self.side.value)

    def ports(self, count: int) -> list[int]:
        """On which of the bridge's ports it is sent."""
        if self.side is Side.ALL:
            return list(range(UPLINK + 1, count + 1))
        return {Side.UP: [UPLINK], Side.DOWN: [self.port]}.get(self.side, [])


UP, TO_ALL = Way(Side.UP), Way(Side.ALL)


def dropped(rule: str) -> Way:
    return Way(Side.DROPPED, rule=rule)


@dataclass(frozen=True)
class Binding:
    """A granted MAC's port, its ENode and its address."""

    port: int
    enode: bytes
    address: int


@dataclass(frozen=True)
class Change:
    """A binding that was made, or that ended and why."""

    mac: bytes
    binding: Binding
    why: str = ""


@dataclass(frozen=True)
class Vx:
    """A Vx_Port descriptor."""

    mac: bytes
    address: int


def vx_ports(heard: Heard) -> list[Vx]:
    return [Vx(it.data[2:8], number(it.data[9:12])) for it in heard.descriptors if it.kind == 11]


def is_port_alive(heard: Heard) -> bool:
    """The keep alive of a VN_Port."""
    return heard.operation == KEEP_ALIVE and heard.descriptor(11) is not None


def is_accept(fc: Fc) -> bool:
    """The FC frame of a reply accepts: its lengths are right, and its command is LS_ACC."""
    return is_sound_fc(fc.end - fc.at) and len(fc.payload) >= 4 and fc.payload[0] == 2


def is_own(heard: Heard, binding: Binding) -> bool:
    """An ENode's frame has the address that is bound to its source; a VN_Port's keep alive the MAC too."""
    if heard.is_fcoe:
        return heard.fc is not None and heard.fc.s_id == binding.address
    return vx_ports(heard)[:1] == [Vx(heard.source, binding.address)]


def ends(heard: Heard, mac: bytes, binding: Binding, grant: Optional[Vx]) -> bool:
    """A message that goes down to the ENode of a binding ends it."""
    if heard.operation == CLEAR:
        listed = vx_ports(heard)
        return not listed or any(it.mac == mac for it in listed)
    if heard.login_kind == "LOGO":
        fc = heard.fc
        return fc is not None and is_accept(fc) and len(fc.payload) < LEAST_ACCEPT and fc.d_id == binding.address
    return heard.login_kind == "FLOGI" and grant is not None


def why_ended(heard: Heard) -> str:
    """What such a message is."""
    if heard.operation == CLEAR:
        return "a clear link message"
    return "its logout" if heard.login_kind == "LOGO" else "a FLOGI of its ENode"


class Bridge:
    """Homes and bindings, as what passed made them."""

    def __init__(self, config: Config) -> None:
        self.config = config
        self.homes: dict[bytes, int] = {}
        self.bound: dict[bytes, Binding] = {}

    # the way of a frame

    def way(self, port: int, frame: Record, heard: Heard) -> Way:
        """Where a frame goes that comes on a port; nothing changes by it."""
        if len(frame.data) < frame.length:
            return dropped("truncated")
        if len(frame.data) < (18 if heard.ethertype == TAG_TYPE and heard.at == 14 else 14):
            return dropped("eth-short")
        if not heard.is_fabric:
            return dropped("ethertype")
        if heard.is_fip and not is_sound_fip(heard):
            return dropped("fip-fault")
        if heard.is_fcoe and not is_sound_fcoe(heard):
            return dropped("fcoe-fault")
        if heard.vlan != self.config.vlan and not (heard.is_fip and heard.operation in UNTAGGED and not heard.vlan):
            return dropped("vlan")
        return self.down(heard) if port == UPLINK else self.up(port, heard)

    def up(self, port: int, heard: Heard) -> Way:
        """From an ENode's port."""
        is_solicited = heard.operation == SOLICIT and bool(heard.flags & FROM_FORWARDER)
        if heard.is_fip and (heard.operation in OF_FORWARDER or is_solicited):
            return dropped("role")
        if heard.destination != self.config.mac and not (heard.is_fip and heard.destination == ALL_FCFS):
            return dropped("dest")
        if heard.is_fip and not is_port_alive(heard):
            has_moved = any(it.enode == heard.source and it.port != port for it in self.bound.values())
            return dropped("moved") if has_moved else UP
        binding = self.bound.get(heard.source)
        if binding is None or binding.port != port:
            return dropped("unbound")
        return UP if is_own(heard, binding) else dropped("source")

    def down(self, heard: Heard) -> Way:
        """From the forwarder's side."""
        if heard.source != self.config.mac:
            return dropped("not-fcf")
        if heard.is_fip:
            if heard.operation in OF_ENODE or heard.operation == SOLICIT and not heard.flags & FROM_FORWARDER:
                return dropped("role")
            if heard.destination == ALL_ENODES:
                return TO_ALL
            home = self.homes.get(heard.destination)
            return dropped("no-home") if home is None else Way(Side.DOWN, home)
        binding = self.bound.get(heard.destination)
        if binding is None:
            return dropped("unbound")
        return Way(Side.DOWN, binding.port) if heard.fc is not None and heard.fc.d_id == binding.address else dropped("address")

    # what it learns

    def learn(self, port: int, heard: Heard, way: Way) -> list[Change]:
        """Takes note of a frame that passed; which bindings ended, and which was made."""
        if not heard.is_fip:
            return []
        if way.side is Side.UP and not is_port_alive(heard):
            self.homes[heard.source] = port
        return self.told(heard, way.port) if way.side is Side.DOWN else []

    def told(self, heard: Heard, port: int) -> list[Change]:
        """What a message does that went down to an ENode."""
        grant = self.grant(heard)
        ended = {mac: it for mac, it in self.bound.items() if it.enode == heard.destination and ends(heard, mac, it, grant)}
        for mac in ended:
            del self.bound[mac]
        changes = [Change(mac, it, why_ended(heard)) for mac, it in ended.items()]
        if grant is None:
            return changes
        mac, made = grant.mac, Binding(port, heard.destination, grant.address)
        before = ended.get(mac, self.bound.get(mac))
        if before == made:
            changes = [it for it in changes if it.mac != mac]
        elif mac in self.bound:
            changes.append(Change(mac, self.bound[mac], "its MAC was granted anew"))
        self.bound[mac] = made
        return changes if before == made else [*changes, Change(mac, made)]

    def grant(self, heard: Heard) -> Optional[Vx]:
        """What an accept of a FLOGI or FDISC grants: a MAC of the FC-MAP and the address."""
        said = heard.descriptor(2)
        if heard.operation != LOGIN_REPLY or heard.login_kind == "LOGO" or said is None or heard.fc is None or not is_accept(heard.fc):
            return None
        found = Vx(said.data[2:8], heard.fc.d_id)
        is_login = len(heard.fc.payload) >= LEAST_ACCEPT
        return found if is_login and found.mac == self.config.fc_map + found.address.to_bytes(3, "big") else None
