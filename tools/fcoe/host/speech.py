"""The frames that a host says (FC-BB-5, FC-FS-3, FC-LS-2, FC-GS-6, FCP-4)."""
import struct
from dataclasses import dataclass
from typing import Optional

from ..frames.heard import ALL_FCFS, CONTROLLER, FABRIC_PORT, FCOE_TYPE, FIP_TYPE, NAME_SERVER, SOFI3, EOFT, TAG_TYPE, fc_check

SHORTEST = 60  # of an Ethernet frame, without its check sequence
RECEIVE = 2112  # the receive size of a host
FCOE_SIZE = 2158  # the largest FCoE frame, as a solicitation says it
FP = 0x8000  # a fabric-provided MAC is asked for
REQUEST, REPLY, ABORT = 0x290000, 0x990000, 0x090000  # F_CTL
ELS_REQUEST, ELS_REPLY, CT_REQUEST = 0x22, 0x23, 0x02  # R_CTL
NONE = 0xFFFF  # an RX_ID that isn't given yet
FLOGI, FDISC, PLOGI, PRLI, LOGO, RRQ, SCR, ADISC, ECHO = 0x04, 0x51, 0x03, 0x20, 0x05, 0x12, 0x62, 0x52, 0x10


@dataclass(frozen=True)
class Names:
    """What an ENode is called."""

    mac: bytes
    port: bytes
    node: bytes


def three(address: int) -> bytes:
    return address.to_bytes(3, "big")


def ethernet(to: bytes, source: bytes, vlan: int, kind: int, body: bytes, priority: int = 3) -> bytes:
    """A frame; VLAN 0 is no tag."""
    tag = struct.pack(">HH", TAG_TYPE, priority << 13 | vlan) if vlan else b""
    return (to + source + tag + struct.pack(">H", kind) + body).ljust(SHORTEST, b"\0")


# ---- FIP


def fip(operation: tuple[int, int], flags: int, *descriptors: bytes) -> bytes:
    listed = b"".join(descriptors)
    return struct.pack(">HHBBHH", 0x1000, operation[0], 0, operation[1], len(listed) // 4, flags) + listed


def descriptor(kind: int, data: bytes) -> bytes:
    return bytes([kind, (len(data) + 2) // 4]) + data


def mac_descriptor(mac: bytes) -> bytes:
    return descriptor(2, mac)


def vlan_request(names: Names) -> bytes:
    return ethernet(ALL_FCFS, names.mac, 0, FIP_TYPE, fip((4, 1), 0, mac_descriptor(names.mac)))


def solicitation(names: Names, vlan: int, to: bytes = ALL_FCFS) -> bytes:
    listed = mac_descriptor(names.mac), descriptor(4, bytes(2) + names.node), descriptor(6, struct.pack(">H", FCOE_SIZE))
    return ethernet(to, names.mac, vlan, FIP_TYPE, fip((1, 1), FP, *listed))


def keep_alive(names: Names, vlan: int, forwarder: bytes) -> bytes:
    return ethernet(forwarder, names.mac, vlan, FIP_TYPE, fip((3, 1), 0, mac_descriptor(names.mac)))


def port_keep_alive(names: Names, vlan: int, forwarder: bytes, mac: bytes, address: int, name: bytes) -> bytes:
    own = descriptor(11, mac + b"\0" + three(address) + name)
    return ethernet(forwarder, mac, vlan, FIP_TYPE, fip((3, 1), 0, mac_descriptor(names.mac), own))


# ---- FC frames


@dataclass(frozen=True)
class Head:
    """What an FC header says, but for its addresses."""

    r_ctl: int
    kind: int
    f_ctl: int
    ox_id: int
    rx_id: int = NONE
    sequence: int = 0
    count: int = 0
    offset: int = 0

    def bytes_of(self, to: int, source: int) -> bytes:
        first = bytes([self.r_ctl]) + three(to) + b"\0" + three(source) + bytes([self.kind]) + three(self.f_ctl)
        return first + struct.pack(">BBHHHI", self.sequence, 0, self.count, self.ox_id, self.rx_id, self.offset)


def fcoe(to: bytes, source: bytes, vlan: int, frame: bytes, edges: tuple[int, int] = (SOFI3, EOFT)) -> bytes:
    frame += bytes(-len(frame) % 4)
    body = bytes(13) + bytes([edges[0]]) + frame + fc_check(frame) + bytes([edges[1], 0, 0, 0])
    return ethernet(to, source, vlan, FCOE_TYPE, body)


def login_payload(command: int, port: bytes, node: bytes, receive: int = RECEIVE) -> bytes:
    """FLOGI, FDISC, PLOGI, or the accept of a PLOGI."""
    is_fabric = command in (FLOGI, FDISC)
    rest = (0, 0, 0) if is_fabric else (0xFF, 0x1F, 2000)
    common = struct.pack(">HHHHHHI", 0x2020, 0x000A, 0 if command == FDISC else 0x8000, receive, *rest)
    third = struct.pack(">H14x", 0x8800) if is_fabric else struct.pack(">HHHHHHHH", 0x8800, 0, 0, receive, 0xFF, 0, 1, 0)
    return bytes([command, 0, 0, 0]) + common + port + node + bytes(32) + third + bytes(32)


def fabric_login(names: Names, vlan: int, forwarder: bytes, command: int, ox_id: int, name: Optional[tuple[bytes, bytes]] = None, flags: int = FP) -> bytes:
    """FLOGI or FDISC in FIP."""
    port, node = name or (names.port, names.node)
    frame = Head(ELS_REQUEST, 0x01, REQUEST, ox_id).bytes_of(FABRIC_PORT, 0) + login_payload(command, port, node)
    listed = descriptor(7 if command == FLOGI else 8, bytes(2) + frame), mac_descriptor(bytes(6))
    return ethernet(forwarder, names.mac, vlan, FIP_TYPE, fip((2, 1), flags, *listed))


def fabric_logout(names: Names, vlan: int, forwarder: bytes, ox_id: int, address: int, mac: bytes, name: bytes) -> bytes:
    """LOGO in FIP."""
    frame = Head(ELS_REQUEST, 0x01, REQUEST, ox_id).bytes_of(FABRIC_PORT, address) + logout(address, name)
    return ethernet(forwarder, names.mac, vlan, FIP_TYPE, fip((2, 1), FP, descriptor(9, bytes(2) + frame), mac_descriptor(mac)))


def process_login(command: int, functions: int) -> bytes:
    """PRLI, or with 02 its accept, for FCP."""
    return bytes([command, 0x10, 0, 0x14, 0x08, 0, 0x20 | (command == 0x02), 0]) + struct.pack(">III", 0, 0, functions)


def ct(command: int, data: bytes) -> bytes:
    return bytes.fromhex("01000000fc020000") + struct.pack(">HHI", command, 0, 0) + data


def types(address: int) -> bytes:
    """RFT_ID: FCP, and CT of generic services."""
    return ct(0x0217, b"\0" + three(address) + struct.pack(">II24x", 0x100, 1))


def features(address: int, functions: int) -> bytes:
    """RFF_ID of FCP: 1 is a target, 2 an initiator."""
    return ct(0x021F, b"\0" + three(address) + bytes([0, 0, functions, 0x08]))


def all_with_fcp() -> bytes:
    """GPN_FT."""
    return ct(0x0172, bytes([0, 0, 0, 0x08]))


def names_answered(payload: bytes) -> dict[int, bytes]:
    """Port names by address, in the accept of a GPN_FT."""
    found: dict[int, bytes] = {}
    for at in range(16, len(payload) - 15, 16):
        found[int.from_bytes(payload[at + 1 : at + 4], "big")] = payload[at + 8 : at + 16]
        if payload[at] & 0x80:
            break
    return found


def logout(address: int, name: bytes) -> bytes:
    return bytes([LOGO, 0, 0, 0, 0]) + three(address) + name


def address_discovery(command: int, address: int, port: bytes, node: bytes) -> bytes:
    """ADISC, or with 02 its accept."""
    return bytes([command, 0, 0, 0, 0, 0, 0, 0]) + port + node + b"\0" + three(address)


def rejected(reason: int, explanation: int) -> bytes:
    return bytes([1, 0, 0, 0, 0, reason, explanation, 0])


def recovery(address: int, ox_id: int, rx_id: int) -> bytes:
    """RRQ."""
    return bytes([RRQ, 0, 0, 0, 0]) + three(address) + struct.pack(">HH", ox_id, rx_id)


def abort_accept(ox_id: int, rx_id: int) -> bytes:
    """The payload of a BA_ACC."""
    return struct.pack(">IHHHH", 0, ox_id, rx_id, 0, 0xFFFF)


def storage_command(cdb: bytes, length: int, writes: bool) -> bytes:
    """FCP_CMND to LUN 0."""
    return bytes(11) + bytes([0x01 if writes else 0x02]) + cdb.ljust(16, b"\0") + struct.pack(">I", length)


def scr() -> bytes:
    return bytes([SCR, 0, 0, 0, 0, 0, 0, 3])


def accept() -> bytes:
    return bytes([2, 0, 0, 0])


SERVICES = (NAME_SERVER, CONTROLLER, FABRIC_PORT)
