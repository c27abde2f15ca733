"""Frames of FCoE byte by byte, and captures of them: written from the standards alone, so that cases and tests have bytes that no code of the tools made."""
import struct
import zlib
from dataclasses import dataclass
from pathlib import Path
from typing import Iterable, Optional

ALL_ENODES, ALL_FCFS = bytes.fromhex("011018010001"), bytes.fromhex("011018010002")
FABRIC, CONTROLLER, NAMES = 0xFFFFFE, 0xFFFFFD, 0xFFFFFC
FIP, FCOE, TAG = 0x8914, 0x8906, 0x8100
REQUEST, REPLY = 0x290000, 0x980000  # F_CTL of a request of one frame, and of its answer
SECOND = 1_000_000_000


def ethernet(to: bytes, source: bytes, kind: int, body: bytes, vlan: Optional[int] = None, priority: int = 3, least: int = 60) -> bytes:
    """An Ethernet frame without its check sequence, padded to 60 bytes, or as its host hands it to the port (0)."""
    tag = struct.pack(">HH", TAG, priority << 13 | vlan) if vlan is not None else b""
    return (to + source + tag + struct.pack(">H", kind) + body).ljust(least, b"\0")


# ---- FC


@dataclass
class Head:
    """An FC header."""

    r_ctl: int
    d_id: int
    s_id: int
    kind: int
    f_ctl: int
    ox_id: int
    rx_id: int = 0xFFFF
    seq_id: int = 0
    seq_cnt: int = 0
    parameter: int = 0

    def bytes(self) -> bytes:
        head = bytes([self.r_ctl]) + self.d_id.to_bytes(3, "big") + b"\0" + self.s_id.to_bytes(3, "big") + bytes([self.kind]) + self.f_ctl.to_bytes(3, "big")
        return head + struct.pack(">BBHHHI", self.seq_id, 0, self.seq_cnt, self.ox_id, self.rx_id, self.parameter)


def fc(head: Head, payload: bytes) -> bytes:
    """An FC frame without check sequence; payload is filled to a word."""
    return head.bytes() + payload + bytes(-len(payload) % 4)


def fcoe(frame: bytes, is_first: bool = True, is_last: bool = True, crc: Optional[bytes] = None) -> bytes:
    """The body of an FCoE frame."""
    check = zlib.crc32(frame).to_bytes(4, "little") if crc is None else crc
    return bytes(13) + bytes([0x2E if is_first else 0x36]) + frame + check + bytes([0x42 if is_last else 0x41, 0, 0, 0])


# ---- FIP


def fip(operation: tuple[int, int], flags: int, descriptors: Iterable[bytes]) -> bytes:
    told = b"".join(descriptors)
    return struct.pack(">BBHBBHH", 0x10, 0, operation[0], 0, operation[1], len(told) // 4, flags) + told


def descriptor(kind: int, body: bytes) -> bytes:
    """A FIP descriptor; its length is in words."""
    return bytes([kind, (len(body) + 2) // 4]) + body


def mac_of(mac: bytes) -> bytes:
    return b"\x02\x02" + mac


def name_of(name: bytes) -> bytes:
    return b"\x04\x03\0\0" + name


def size_of(size: int = 2158) -> bytes:
    return b"\x06\x01" + size.to_bytes(2, "big")


def priority_of(value: int) -> bytes:
    return bytes([1, 1, 0, value])


def fabric_of(name: bytes, fc_map: bytes, vf_id: int = 0) -> bytes:
    return b"\x05\x04" + vf_id.to_bytes(2, "big") + b"\0" + fc_map + name


def period_of(milliseconds: int, is_quiet: bool = False) -> bytes:
    return bytes([12, 2, 0, is_quiet]) + milliseconds.to_bytes(4, "big")


def port_of(mac: bytes, address: int, name: bytes) -> bytes:
    return b"\x0b\x05" + mac + b"\0" + address.to_bytes(3, "big") + name


def vlan_of(vlan: int) -> bytes:
    return b"\x0e\x01" + vlan.to_bytes(2, "big")


def login_of(kind: int, frame: bytes) -> bytes:
    """FLOGI (7), FDISC (8) or LOGO (9) with an FC frame."""
    return bytes([kind, (4 + len(frame)) // 4, 0, 0]) + frame


# ---- link services


def login(code: int, port: bytes, node: bytes, features: int = 0x8800, size: int = 2112, times: tuple[int, int] = (0, 2000), class2: bytes = bytes(16)) -> bytes:
    """The 116 bytes of FLOGI, FDISC, PLOGI and of their accepts."""
    common = struct.pack(">HHHHII", 0x2020, 10, features, size, *times)
    class3 = struct.pack(">HHHHHHHH", 0x8000, 0, 0, size, 255, 0, 1, 0)  # 255 concurrent sequences, one an exchange
    return bytes([code, 0, 0, 0]) + common + port + node + bytes(16) + class2 + class3 + bytes(32)


def rejected(reason: int, explanation: int, vendor: int = 0) -> bytes:
    return bytes([1, 0, 0, 0, 0, reason, explanation, vendor])


ACCEPTED = b"\x02\0\0\0"


def process_login(code: int, flags: int, parameters: int) -> bytes:
    """PRLI (0x20) or its accept (0x02) of FCP: flags 2000 establishes an image pair, with 100 and more the answer in an accept."""
    return struct.pack(">BBHBBHIII", code, 0x10, 20, 8, 0, flags, 0, 0, parameters)


def ct(code: int, body: bytes, size: int = 0, revision: int = 1) -> bytes:
    return bytes([revision, 0, 0, 0, 0xFC, 2, 0, 0]) + struct.pack(">HHBBBB", code, size, 0, 0, 0, 0) + body


def ct_rejected(reason: int, explanation: int, revision: int = 1) -> bytes:
    return bytes([revision, 0, 0, 0, 0xFC, 2, 0, 0]) + struct.pack(">HHBBBB", 0x8001, 0, 0, reason, explanation, 0)


# ---- FCP


def command(lun: int, cdb: bytes, size: int, direction: int, management: int = 0) -> bytes:
    """FCP_CMND; direction 2 reads, 1 writes."""
    return struct.pack(">BB6xBBBB", 0, lun, 0, 0, management, direction) + cdb.ljust(16, b"\0") + struct.pack(">I", size)


def response(status: int = 0, residual: int = 0, sense: Optional[tuple[int, int, int]] = None) -> bytes:
    """FCP_RSP; a residual is what came less."""
    data = bytes([0x70, 0, sense[0], 0, 0, 0, 0, 10, 0, 0, 0, 0, sense[1], sense[2], 0, 0, 0, 0]) if sense else b""
    flags = (8 if residual else 0) | (2 if sense else 0)
    return bytes(10) + bytes([flags, status]) + struct.pack(">III", residual, len(data), 0) + data


# ---- captures


@dataclass
class Packet:
    """A frame at a moment, in nanoseconds."""

    moment: int
    data: bytes
    length: int = 0
    interface: int = 0


def write_pcap(name: Path, packets: Iterable[Packet], order: str = "<", is_nano: bool = False, link: int = 1) -> Path:
    unit = 1 if is_nano else 1000
    parts = [struct.pack(order + "IHHiIII", 0xA1B23C4D if is_nano else 0xA1B2C3D4, 2, 4, 0, 0, 262144, link)]
    for it in packets:
        parts.append(struct.pack(order + "IIII", it.moment // SECOND, it.moment % SECOND // unit, len(it.data), it.length or len(it.data)) + it.data)
    name.write_bytes(b"".join(parts))
    return name


def block(kind: int, body: bytes) -> bytes:
    body += bytes(-len(body) % 4)
    return struct.pack("<II", kind, len(body) + 12) + body + struct.pack("<I", len(body) + 12)


def write_pcapng(name: Path, packets: Iterable[Packet], interfaces: Iterable[tuple[str, int]]) -> Path:
    """A pcapng file with interfaces of some names and link types."""
    parts = [block(0x0A0D0D0A, struct.pack("<IHHq", 0x1A2B3C4D, 1, 0, -1))]
    for label, link in interfaces:
        told = label.encode()
        options = struct.pack("<HH", 2, len(told)) + told + bytes(-len(told) % 4) + struct.pack("<HHB3x", 9, 1, 9) + bytes(4)
        parts.append(block(1, struct.pack("<HHI", link, 0, 262144) + options))
    for it in packets:
        head = struct.pack("<IIIII", it.interface, it.moment >> 32, it.moment & 0xFFFFFFFF, len(it.data), it.length or len(it.data))
        parts.append(block(6, head + it.data))
    name.write_bytes(b"".join(parts))
    return name
