"""Captures as mirrors and taps bring them: one wrapping in another, cut on the way, a check sequence of one direction alone; and single directions that show retries."""
import struct
import zlib
from pathlib import Path
from typing import Callable

import wire
from kinds import Case, kind, well_used
from kinds_of_forms import lldp, of_direction, tunnel
from sessions import Host, Switch
Wrap = Callable[[Case, bytes], bytes]


def geneve_of(case: Case, data: bytes) -> bytes:
    """Ethernet in Geneve, with options or without them."""
    words = case.lot.randrange(3)
    head = struct.pack(">BBHI", words, 0, 0x6558, case.lot.randrange(1 << 24) << 8) + bytes(4 * words)
    return tunnel(case.lot, 17, struct.pack(">HHHH", 40000, 6081, 8 + len(head) + len(data), 0) + head + data)


def vxlan_of(case: Case, data: bytes) -> bytes:
    return tunnel(case.lot, 17, struct.pack(">HHHHII", 50000, 4789, 16 + len(data), 0, 0x08000000, 42 << 8) + data)


def erspan_of(case: Case, data: bytes, is_cut: bool = False) -> bytes:
    """ERSPAN II; its bit T tells of a frame that was cut."""
    return tunnel(case.lot, 47, struct.pack(">HHI", 0x1000, 0x88BE, case.lot.randrange(1 << 20)) + struct.pack(">HHI", 0x1000 | 100, 0x0005 | is_cut << 10, 5) + data)


def erspan3_of(case: Case, data: bytes) -> bytes:
    """ERSPAN III with the eight bytes of a platform behind its head."""
    head = struct.pack(">HHI", 0x1000, 0x22EB, case.lot.randrange(1 << 20)) + struct.pack(">HHIHH", 0x2000 | 100, 1, 7, 0, 1)
    return tunnel(case.lot, 47, head + bytes(8) + data)


def tagged_gre6_of(case: Case, data: bytes) -> bytes:
    """Ethernet in GRE in IPv6, in a frame with a tag."""
    inner = struct.pack(">HH", 0, 0x6558) + data
    packet = struct.pack(">IHBB", 6 << 28, len(inner), 47, 64) + case.lot.randbytes(32) + inner
    return wire.ethernet(case.lot.randbytes(6), case.lot.randbytes(6), 0x86DD, packet, 77)


def outer_tag_of(_: Case, data: bytes) -> bytes:
    return data[:12] + struct.pack(">HH", 0x88A8, 2 << 13 | 900) + data[12:]


def with_sequence_of(_: Case, data: bytes) -> bytes:
    return data + zlib.crc32(data).to_bytes(4, "little")


def vn_tag_of(case: Case, data: bytes) -> bytes:
    return data[:12] + struct.pack(">HI", 0x8926, case.lot.randrange(1 << 30)) + data[12:]


NESTED: list[tuple[str, list[Wrap]]] = [
    ("ERSPAN II in VXLAN", [erspan_of, vxlan_of]),
    ("a second VLAN tag in ERSPAN II", [outer_tag_of, erspan_of]),
    ("VN-Tag in ERSPAN III", [vn_tag_of, erspan3_of]),
    ("VXLAN in a second VLAN tag", [vxlan_of, outer_tag_of]),
    ("Geneve in GRE", [geneve_of, tagged_gre6_of]),
]


def wrapped(seed: int, folder: Path, *wraps: Wrap) -> list[Path]:
    """A session in which all is well, in a mirror."""
    case = well_used(seed)
    for it in case.s.packets[1]:
        for wrap in wraps:
            it.data = wrap(case, it.data)
    return case.written(folder)


@kind(r"\d+ frames of FIP and FCoE stand in Geneve", is_well=True)
def geneve(seed: int, folder: Path) -> list[Path]:
    return wrapped(seed, folder, geneve_of)


@kind(r"\d+ frames of FIP and FCoE stand in VN-Tag", is_well=True)
def vn_tag(seed: int, folder: Path) -> list[Path]:
    return wrapped(seed, folder, vn_tag_of)


@kind(r"\d+ frames of FIP and FCoE stand in GRE", is_well=True)
def gre_in_ipv6(seed: int, folder: Path) -> list[Path]:
    return wrapped(seed, folder, tagged_gre6_of)


@kind("|".join(rf"\d+ frames of FIP and FCoE stand in {words}: " for words, _ in NESTED), is_well=True)
def nested(seed: int, folder: Path) -> list[Path]:
    """One wrapping in another, by the seed."""
    return wrapped(seed, folder, *NESTED[seed % len(NESTED)][1])


@kind(r"\d+ frames end with the Ethernet check sequence", is_well=True)
def mirror_with_fcs(seed: int, folder: Path) -> list[Path]:
    """A mirror that travels and keeps the check sequence of the frame inside."""
    outer: list[Wrap] = [vxlan_of, erspan_of]
    return wrapped(seed, folder, with_sequence_of, outer[seed % 2])


@kind(r"\d+ frames end with the Ethernet check sequence", is_well=True)
def fcs_of_one_way(seed: int, folder: Path) -> list[Path]:
    """An adapter that keeps the check sequence of what it receives, and has none of what it sends."""
    case = well_used(seed)
    for it in case.s.packets[1]:
        if it.data[6:12] == case.s.switch.mac:
            it.data += zlib.crc32(it.data).to_bytes(4, "little")
    return case.written(folder)


@kind(r"cut by (the mirror|.* or by a mirror)", is_well=True)
def mirror_cut(seed: int, folder: Path) -> list[Path]:
    """A mirror that cuts long frames, and says so."""
    case = well_used(seed)
    size = case.lot.choice([128, 256, 512])
    for it in case.s.packets[1]:
        it.data = erspan_of(case, it.data[:size], len(it.data) > size)
    return case.written(folder)


@kind(r"sent \d FLOGIs to .* and nothing after them; this capture has no frame of the switch; capture both directions")
def oneway_retries(seed: int, folder: Path) -> list[Path]:
    """The host's direction alone: what it does again and again is there, though no answer is."""
    case = Case(seed)
    case.beside = 0
    case.s.discover(case.h)
    for _ in range(case.lot.randrange(4, 9)):
        case.s.reject(case.h, case.s.flogi(case.h), (0x09, 0x29, 0))
        case.s.wait(case.lot.choice([2, 4]))
    of_direction(case, True)
    return case.written(folder)


@kind(r"asked for VLANs \d times, nobody answered: the DCBX of .* names iSCSI \(priority 4\), no FCoE; PFC on priority 4; let that port of the switch offer FCoE")
def dcbx_beside(seed: int, folder: Path) -> list[Path]:
    """A host asks for VLANs, and the switch's DCBX, which names no FCoE, says why nobody answers."""
    case = Case(seed)
    case.beside = 0
    for _ in range(case.lot.randrange(3, 9)):
        case.s.put(1, lldp(case.s.switch.mac, [(4, 2, 3260)], 1 << 4))
        case.s.ask_vlan(case.h, is_answered=False)
        case.s.put(1, lldp(case.h.mac, [(3, 1, 0x8906), (3, 1, 0x8914)], 1 << 3))
        case.s.wait(case.lot.choice([5, 30]))
    return case.written(folder)



@kind("", is_well=True)
def priority_tag_of_host(seed: int, folder: Path) -> list[Path]:
    """VLAN discovery with a priority tag of the host alone: the switch answers without one, or the other way round."""
    case = Case(seed)
    case.s.ask_vlan(case.h, tag=0 if seed % 2 else None, is_answered=False)
    told = wire.fip((4, 2), 0, [wire.mac_of(case.s.switch.mac), wire.vlan_of(case.s.switch.vlan)])
    case.s.down(case.h, wire.FIP, told, vlan=None if seed % 2 else 0)
    case.s.tick()
    case.s.log_in(case.h, asks=False)
    case.s.register(case.h, (case.d,))
    case.s.meet(case.h, case.d)
    case.s.use(case.h, case.d)
    case.live(20)
    return case.written(folder)


@kind(r"in VLAN \d+, another fabric than that of VLAN \d+ on this port, the switch .* (rejects its FLOGI \d times: LS_RJT 03 0d|leaves its FLOGI unanswered \d times)")
def three_vlans(seed: int, folder: Path) -> list[Path]:
    """Three fabrics on one port: a host is in one, rejected in another, and unheard in the third; an answer each."""
    case = well_used(seed, 1)
    one, first = case.s.switch, case.h
    others = [Switch.drawn(case.lot, one.vlan + it) for it in (1, case.lot.choice([2, 100]))]
    for _ in range(case.lot.randrange(3, 6)):
        for at, other in enumerate(others):
            case.s.switch = other
            host = Host(first.mac, first.name, first.node, first.address, first.ox_id)
            case.s.discover(host)
            ox_id = case.s.flogi(host)
            if at == 0:
                case.s.reject(host, ox_id, (0x03, 0x0D, 0))
            first.ox_id = host.ox_id
        case.s.switch = one
        case.s.live(one.period / 1000, first)
    return case.written(folder)
