"""Captures in odd forms: several interfaces, travelling mirrors, further tags, LLDP alone."""
import random
import struct
import zlib
from pathlib import Path

import wire
from kinds import Case, kind, well_used
from wire import SECOND, Packet


@kind(r"tun0 .*no Ethernet, left out", is_well=True)
def multi_if(seed: int, folder: Path) -> list[Path]:
    """Two Ethernet interfaces and a raw IP one."""
    case = well_used(seed)
    packets = list(case.s.packets[1])
    bare = bytes.fromhex("450000140000000040010000c0a80001c0a80002")
    packets += [Packet(packets[at].moment + 5, bare, 0, 2) for at in range(0, len(packets), 7)]
    packets += [Packet(packets[3].moment + 9, wire.ethernet(b"\xff" * 6, case.d.mac, 0x0806, bytes(28)), 0, 1)]
    packets.sort(key=lambda it: it.moment)
    return [wire.write_pcapng(folder / "all.pcapng", packets, [("eth0", 1), ("eth1", 1), ("tun0", 101)])]


def tunnel(lot: random.Random, protocol: int, inner: bytes) -> bytes:
    """An IPv4 packet in Ethernet."""
    head = struct.pack(">BBHHHBBH4s4s", 0x45, 0, 20 + len(inner), lot.randrange(65536), 0, 64, protocol, 0, lot.randbytes(4), lot.randbytes(4))
    total = sum(struct.unpack(">10H", head))
    check = 0xFFFF - (total - 1) % 0xFFFF - 1  # the complement of a sum whose carries come back in
    return wire.ethernet(lot.randbytes(6), lot.randbytes(6), 0x0800, head[:10] + struct.pack(">H", check) + head[12:] + inner)


@kind(r"\d+ frames of FIP and FCoE stand in ERSPAN I", is_well=True)
def erspan2(seed: int, folder: Path) -> list[Path]:
    """ERSPAN I, II or III by the seed."""
    case = well_used(seed)
    out = []
    for at, it in enumerate(case.s.packets[1]):
        which = seed % 3
        if which == 0:
            head = struct.pack(">HH", 0x0000, 0x88BE)
        elif which == 1:
            head = struct.pack(">HHI", 0x1000, 0x88BE, at) + struct.pack(">HHI", 0x1000 | 100, 0x0801, 5)
        else:
            head = struct.pack(">HHI", 0x1000, 0x22EB, at) + struct.pack(">HHIHH", 0x2000 | 100, 1, at, 0, 0)
        out.append(Packet(it.moment, tunnel(case.lot, 47, head + it.data)))
    case.s.packets[1] = out
    return case.written(folder)


@kind(r"\d+ frames of FIP and FCoE stand in VXLAN", is_well=True)
def vxlan_wrapped(seed: int, folder: Path) -> list[Path]:
    case = well_used(seed)
    case.s.packets[1] = [
        Packet(it.moment, tunnel(case.lot, 17, struct.pack(">HHHH", 50000, 4789, 16 + len(it.data), 0) + bytes([8, 0, 0, 0, 0, 0, 42, 0]) + it.data)) for it in case.s.packets[1]
    ]
    return case.written(folder)


@kind(r"\d+ frames of FIP and FCoE stand in GRE", is_well=True)
def gre_bridged(seed: int, folder: Path) -> list[Path]:
    """Ethernet in GRE (NVGRE), by the seed with key, sequence number or check sum."""
    case = well_used(seed)
    flags = case.lot.choice([0x0000, 0x2000, 0x3000, 0xB000])
    more = 4 * bin(flags).count("1")
    case.s.packets[1] = [Packet(it.moment, tunnel(case.lot, 47, struct.pack(">HH", flags, 0x6558) + bytes(more) + it.data)) for it in case.s.packets[1]]
    return case.written(folder)


@kind(r"\d+ frames of FIP and FCoE stand in MPLS", is_well=True)
def mpls(seed: int, folder: Path) -> list[Path]:
    """A pseudowire: one to three labels, with a control word or without one."""
    case = well_used(seed)
    labels = [case.lot.randrange(16, 1 << 20) for _ in range(case.lot.randrange(1, 4))]
    stack = b"".join(struct.pack(">I", it << 12 | (at == len(labels) - 1) << 8 | 64) for at, it in enumerate(labels))
    word = case.lot.choice([b"", bytes(4)])
    case.s.packets[1] = [Packet(it.moment, wire.ethernet(case.lot.randbytes(6), case.lot.randbytes(6), 0x8847, stack + word + it.data)) for it in case.s.packets[1]]
    return case.written(folder)


@kind(r"\d+ frames of FIP and FCoE stand in LLC/SNAP", is_well=True)
def snap(seed: int, folder: Path) -> list[Path]:
    """What is short enough for a length field stands behind LLC and SNAP."""
    case = well_used(seed)
    for it in case.s.packets[1]:
        if len(it.data) < 1500:
            it.data = it.data[:12] + struct.pack(">H", len(it.data) - 6) + bytes.fromhex("aaaa03000000") + it.data[12:]
    return case.written(folder)


@kind(r"\d+ frames of FIP and FCoE stand in a second VLAN tag", is_well=True)
def qinq(seed: int, folder: Path) -> list[Path]:
    case = well_used(seed)
    outer = struct.pack(">HH", case.lot.choice([0x88A8, 0x88A8, 0x9100]), 0x2000 | case.lot.randrange(2, 4000))
    case.s.packets[1] = [Packet(it.moment, it.data[:12] + outer + it.data[12:]) for it in case.s.packets[1]]
    return case.written(folder)


def tlv(kind_: int, body: bytes) -> bytes:
    return struct.pack(">H", kind_ << 9 | len(body)) + body


def lldp(mac: bytes, applications: list[tuple[int, int, int]], pfc: int) -> bytes:
    """An LLDP frame with DCBX of IEEE: applications as (priority, selector, protocol)."""
    told = tlv(1, b"\x04" + mac) + tlv(2, b"\x05Eth1/7") + tlv(3, b"\0\x78")
    table = b"".join(bytes([priority << 5 | selector]) + struct.pack(">H", protocol) for priority, selector, protocol in applications)
    told += tlv(127, b"\x00\x80\xc2\x0c\0" + table) + tlv(127, b"\x00\x80\xc2\x0b" + bytes([8, pfc])) + tlv(0, b"")
    return wire.ethernet(bytes.fromhex("0180c200000e"), mac, 0x88CC, told)


@kind(r"DCBX of .* names iSCSI \(priority 4\), no FCoE", is_refused=True)
def no_dcbx(seed: int, folder: Path) -> list[Path]:
    """LLDP alone: the switch's DCBX names iSCSI, and no FCoE."""
    case = Case(seed)
    case.beside = 0
    for _ in range(case.lot.randrange(3, 9)):
        case.s.put(1, lldp(case.s.switch.mac, [(4, 2, 3260)], 1 << 4))
        case.s.tick()
        case.s.put(1, lldp(case.h.mac, [(3, 1, 0x8906), (3, 1, 0x8914)], 1 << 3))
        case.s.wait(30)
    return case.written(folder)


@kind(r"names iSCSI \(priority 4\), no FCoE; PFC on priority 4; ETS gives (40|60|100) % to priority 4", is_refused=True)
def no_share(seed: int, folder: Path) -> list[Path]:
    """DCBX of IEEE or of CEE with ETS, in which FCoE has no class."""
    case = Case(seed)
    case.beside = 0
    share = case.lot.choice([40, 60, 100])
    classes, shares = bytes([0x00, 0x00, 0x10, 0x00]), bytes([100 - share, share]) + bytes(6)
    ieee = tlv(127, b"\x00\x80\xc2\x09\x02" + classes + shares + bytes(8)) + tlv(127, b"\x00\x80\xc2\x0b\x08\x10") + tlv(127, b"\x00\x80\xc2\x0c\0\x82" + struct.pack(">H", 3260))
    head = bytes([0, 0, 0x80, 0])
    features = tlv(2, head + classes + shares + b"\x08") + tlv(3, head + b"\x10\x08") + tlv(4, head + struct.pack(">HBHB", 3260, 1, 0, 0x10))
    told = tlv(1, b"\x04" + case.s.switch.mac) + tlv(2, b"\x05Eth1/7") + tlv(3, b"\0\x78") + (tlv(127, b"\x00\x1b\x21\x02" + features) if seed % 2 else ieee) + tlv(0, b"")
    for _ in range(case.lot.randrange(3, 9)):
        case.s.put(1, wire.ethernet(bytes.fromhex("0180c200000e"), case.s.switch.mac, 0x88CC, told))
        case.s.wait(30)
    return case.written(folder)


@kind(r"no frame of anybody from .* \((60|120) min\)", is_well=True)
def clock_jump(seed: int, folder: Path) -> list[Path]:
    """An hour without any frame."""
    case = well_used(seed, 20)
    case.s.now += case.lot.choice([1, 2]) * 3600 * SECOND
    case.s.use(case.h, case.d)
    case.live(30)
    return case.written(folder)


@kind(r"\d+ frames stand twice", is_well=True)
def doubled(seed: int, folder: Path) -> list[Path]:
    """Every frame twice: both sides of a bridge in one file."""
    case = well_used(seed)
    case.s.packets[1] = [Packet(it.moment + (3000 if at else 0), it.data) for it in case.s.packets[1] for at in (0, 1)]
    case.s.packets[1].sort(key=lambda it: it.moment)
    return case.written(folder)


@kind(r"\d+ frames end with the Ethernet check sequence", is_well=True)
def with_fcs(seed: int, folder: Path) -> list[Path]:
    """The tap keeps the Ethernet check sequence."""
    case = well_used(seed)
    case.s.packets[1] = [Packet(it.moment, it.data + zlib.crc32(it.data).to_bytes(4, "little")) for it in case.s.packets[1]]
    return case.written(folder)


@kind("", is_well=True)
def priority_tag(seed: int, folder: Path) -> list[Path]:
    """VLAN discovery with a priority tag, VLAN 0."""
    case = Case(seed)
    case.s.ask_vlan(case.h, tag=0)
    case.s.log_in(case.h, asks=False)
    case.s.register(case.h, (case.d,))
    case.s.meet(case.h, case.d)
    case.s.use(case.h, case.d)
    case.live(20)
    return case.written(folder)


@kind(r"the switch's frames are [\d.]+ ms too early, which is taken out", is_well=True)
def skew(seed: int, folder: Path) -> list[Path]:
    """Two adapters, one a direction, whose clocks differ."""
    case = well_used(seed)
    off = case.lot.choice([300_000, 1_000_000, 3_000_000, 20_000_000])
    mac = case.s.switch.mac
    for it in case.s.packets[1]:
        it.moment -= off if it.data[6:12] == mac else 0
    case.s.packets[1].sort(key=lambda it: it.moment)
    return case.written(folder)


@kind("", is_well=True)
def nano_big(seed: int, folder: Path) -> list[Path]:
    case = well_used(seed)
    return [wire.write_pcap(folder / "nano.pcap", case.s.packets[1], ">", True)]


@kind(r"no FIP or FCoE frame has a VLAN tag", is_refused=True)
def vlan_stripped(seed: int, folder: Path) -> list[Path]:
    case = well_used(seed)
    case.s.packets[1] = [Packet(it.moment, it.data[:12] + it.data[16:] if it.data[12:14] == b"\x81\0" else it.data) for it in case.s.packets[1]]
    return case.written(folder)


def of_direction(case: Case, is_up: bool) -> None:
    mac = case.s.switch.mac
    case.s.packets[1] = [it for it in case.s.packets[1] if (it.data[6:12] == mac) != is_up]


@kind(r"the captures hold the hosts' direction alone", is_well=True)
def oneway_up(seed: int, folder: Path) -> list[Path]:
    """The host's direction alone, of a session with nothing wrong."""
    case = well_used(seed)
    of_direction(case, True)
    return case.written(folder)


@kind(r"\d of FLOGI reject 09 29 \(insufficient resources\) to", is_refused=True)
def oneway_down(seed: int, folder: Path) -> list[Path]:
    """The switch's direction alone: its rejects are there."""
    case = Case(seed)
    case.beside = 0
    case.s.discover(case.h)
    for _ in range(case.lot.randrange(3, 6)):
        case.s.reject(case.h, case.s.flogi(case.h), (0x09, 0x29, 0))
        case.s.wait(2)
        case.s.advertise(case.h)
    of_direction(case, False)
    return case.written(folder)


@kind(r"logged in before the capture began", r"of a login that is older than the capture", is_well=True)
def mid_session(seed: int, folder: Path) -> list[Path]:
    """The capture began late."""
    case = well_used(seed)
    login = next(at for at, it in enumerate(case.s.packets[1]) if it.data[16:18] == b"\x89\x06")
    case.s.packets[1] = case.s.packets[1][login + 14 :]
    return case.written(folder)


@kind(r"cut by the (capture|snap length)", is_well=True)
def snaplen(seed: int, folder: Path) -> list[Path]:
    case = well_used(seed)
    size = case.lot.choice([68, 96, 128])
    case.s.packets[1] = [Packet(it.moment, it.data[:size], len(it.data)) for it in case.s.packets[1]]
    return case.written(folder)
