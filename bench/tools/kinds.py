"""Captures of kinds of failures and of odd situations, each drawn by lot: what an answer has to say of it, and that nothing else may stand beside it."""
import random
import struct
from dataclasses import dataclass, field
from pathlib import Path
from typing import Callable

import wire
from sessions import Disk, Host, Session, Switch
from wire import ALL_ENODES, ALL_FCFS, FCOE, FIP, NAMES, REQUEST, Head

Make = Callable[[int, Path], list[Path]]
KINDS: dict[str, "Kind"] = {}


@dataclass
class Kind:
    """A kind of capture: `cause` stands in one of the first two answers (with its next step); every answer, notes too, matches it or `also`."""

    name: str
    make: Make
    cause: str
    also: list[str] = field(default_factory=list)
    is_well: bool = False
    is_refused: bool = False  # nothing can be looked at, and the refusal has the cause


def kind(cause: str, *also: str, is_well: bool = False, is_refused: bool = False) -> Callable[[Make], Make]:
    def taken(make: Make) -> Make:
        name = make.__name__
        KINDS[name] = Kind(name, make, cause, list(also), is_well, is_refused)
        return make

    return taken


class Case:
    """A host, a disk and the fabric between them; by some seeds another host beside them, with which nothing is wrong."""

    def __init__(self, seed: int, ports: tuple[int, ...] = (1,)) -> None:
        self.beside = {3: 1, 4: 3}.get(seed % 5, 0)  # at which port that other host is
        self.s = Session.drawn(seed)
        self.s.captured = set(ports)
        self.h, self.d = Host.drawn(self.s.lot), Disk.drawn(self.s.lot)
        self.lot = self.s.lot

    def in_and_known(self) -> None:
        """The host is logged in, and knows the disk."""
        if 2 in self.s.captured:
            self.s.log_in(self.d)
            self.s.register(self.d, is_target=True)
        self.s.log_in(self.h)
        self.s.register(self.h, (self.d,))

    def live(self, seconds: float) -> None:
        self.s.live(seconds, *((self.h, self.d) if 2 in self.s.captured else (self.h,)))

    def join(self) -> None:
        """The other host: on the same port behind a bridge, or on one of its own, over the same time."""
        first, last = (min(it.moment for some in self.s.packets.values() for it in some), max(it.moment for some in self.s.packets.values() for it in some))
        lot = random.Random(self.h.mac)
        own = Session(lot, self.s.first, first + lot.randrange(5_000_000), captured={self.beside})
        host, disk = Host.drawn(lot, self.h.address ^ 0x0500), Disk.drawn(lot)
        host.port = self.beside
        own.log_in(host)
        own.register(host, (disk,))
        own.meet(host, disk)
        own.use(host, disk)
        own.live((last - own.now) / 10**9, host)
        more = [it for it in own.packets[self.beside] if self.beside != 1 or it.data[:6] != ALL_ENODES]
        self.s.packets[self.beside] = sorted(self.s.packets.get(self.beside, []) + more, key=lambda it: it.moment)

    def written(self, folder: Path) -> list[Path]:
        if self.beside:
            self.join()
        return [wire.write_pcap(folder / f"port{port}.pcap", packets) for port, packets in sorted(self.s.packets.items())]


def well_used(seed: int, seconds: float = 40) -> Case:
    case = Case(seed)
    case.beside = 0
    case.in_and_known()
    case.s.meet(case.h, case.d)
    case.s.use(case.h, case.d)
    case.live(seconds)
    return case


# ---- behind the login


@kind(r"data of \d+ reads from .* never came, though each ends with GOOD: .*2,158 bytes")
def io_no_jumbo(seed: int, folder: Path) -> list[Path]:
    """Large frames of the disk don't come to the host's port, small ones do."""
    case = Case(seed)
    case.in_and_known()
    case.s.meet(case.h, case.d)
    case.s.report_luns(case.h, case.d, [0])
    case.s.inquire(case.h, case.d)
    for _ in range(case.lot.randrange(3, 9)):
        case.s.read(case.h, case.d, case.lot.choice([4, 8, 16]), how="no data")
        case.live(case.lot.uniform(1, 9))
    return case.written(folder)


@kind(r"data of \d+ reads .* never came.*came in at port 2 and never went out at port 1")
def io_no_jumbo_both(seed: int, folder: Path) -> list[Path]:
    """Both ports are captured: the disk's large frames come in at its port, and go out at the host's never."""
    case = Case(seed, (1, 2))
    case.in_and_known()
    case.s.meet(case.h, case.d)
    case.s.report_luns(case.h, case.d, [0])
    case.s.inquire(case.h, case.d)
    for _ in range(case.lot.randrange(3, 9)):
        case.s.read(case.h, case.d, case.lot.choice([4, 8, 16]), how="no data")
        case.live(case.lot.uniform(1, 5))
    return case.written(folder)


@kind(r"shows it no unit: REPORT LUNS lists LUN 0 alone, and INQUIRY says that no unit is there.*masking")
def lun_masked(seed: int, folder: Path) -> list[Path]:
    case = Case(seed)
    case.in_and_known()
    case.s.meet(case.h, case.d)
    for _ in range(case.lot.randrange(1, 4)):
        case.s.report_luns(case.h, case.d, [0])
        case.s.inquire(case.h, case.d, 0x7F)
        case.live(2)
    case.live(20)
    return case.written(folder)


@kind(r"its PLOGI to .* comes back (twice|\d times): F_RJT")
def plogi_gone(seed: int, folder: Path) -> list[Path]:
    """The switch sends PLOGIs back."""
    case = Case(seed)
    case.in_and_known()
    s, h, d = case.s, case.h, case.d
    reason = case.lot.choice([0x01, 0x03, 0x04, 0x1A])
    for _ in range(case.lot.randrange(2, 6)):
        ox_id = s.plogi(h, d, is_silent=True)
        s.to_host(h, Head(0xC3, h.address, d.address, 1, 0x980000, ox_id, parameter=1 << 24 | reason << 16), b"")
        case.live(case.lot.uniform(2, 6))
    return case.written(folder)


@kind(r"its PLOGI to .* finds no answer")
def plogi_silent(seed: int, folder: Path) -> list[Path]:
    case = Case(seed)
    case.in_and_known()
    for _ in range(case.lot.randrange(3, 6)):
        case.s.plogi(case.h, case.d, is_silent=True)
        case.live(case.lot.choice([2, 4, 10]))
    case.live(21)
    return case.written(folder)


@kind(r"its PRLI to .* is rejected (twice|\d times): LS_.*no SCSI between")
def prli_reject(seed: int, folder: Path) -> list[Path]:
    case = Case(seed)
    case.in_and_known()
    codes = case.lot.choice([(0x09, 0x2C, 0), (0x0B, 0x00, 0), (0x03, 0x00, 0), (0x09, 0x00, 0x41)])
    answer = wire.rejected(*codes) if seed % 2 else wire.process_login(2, case.lot.choice([0x0400, 0x0500, 0x0800]), 0)
    for _ in range(case.lot.randrange(2, 5)):
        case.s.plogi(case.h, case.d)
        case.s.prli(case.h, case.d, answer)
        case.live(case.lot.uniform(1, 4))
    return case.written(folder)


@kind(r"\d+ FC frames between it and .* have a wrong check sequence")
def bad_crc(seed: int, folder: Path) -> list[Path]:
    case = Case(seed)
    case.in_and_known()
    case.s.meet(case.h, case.d)
    case.s.report_luns(case.h, case.d, [0, 1])
    for _ in range(case.lot.randrange(3, 8)):
        case.s.read(case.h, case.d, case.lot.choice([1, 4, 8]), how="bad crc")
        case.live(case.lot.uniform(1, 3))
    return case.written(folder)


@kind(r"\d commands to LUN [01] with RESERVATION CONFLICT.*reservation")
def reservation(seed: int, folder: Path) -> list[Path]:
    case = Case(seed)
    case.in_and_known()
    case.s.meet(case.h, case.d)
    case.s.report_luns(case.h, case.d, [0, 1])
    case.s.inquire(case.h, case.d)
    lun = case.lot.choice([0, 1])
    for _ in range(case.lot.randrange(4, 9)):
        act = case.s.read if case.lot.random() < 0.5 else case.s.write
        act(case.h, case.d, lun=lun, answer=wire.response(0x18))
        case.live(0.5)
    case.live(10)
    return case.written(folder)


@kind(r"it sends [\d,]+ PFC pauses for priority [34] .*hold the other side still")
def pfc_storm(seed: int, folder: Path) -> list[Path]:
    """A host that sends PFC pauses without end."""
    case = well_used(seed, 5)
    priority = case.lot.choice([3, 3, 4])
    for _ in range(case.lot.randrange(600, 1400)):
        body = struct.pack(">HH", 0x0101, 1 << priority) + b"".join(b"\xff\xff" if it == priority else b"\0\0" for it in range(8))
        case.s.put(1, wire.ethernet(bytes.fromhex("0180c2000001"), case.h.mac, 0x8808, body))
        case.s.now += int(case.lot.uniform(0.3, 2) * 1_000_000)
    case.live(10)
    return case.written(folder)


# ---- discovery and login


@kind(r"solicitations go to the wrong address.*01:10:18:01:00:01, should be 01:10:18:01:00:02")
def wrong_multicast(seed: int, folder: Path) -> list[Path]:
    """A host that solicits at All-ENode-MACs."""
    case = Case(seed)
    for _ in range(case.lot.randrange(3, 7)):
        case.s.solicit(case.h, to=wire.ALL_ENODES)
        case.s.advertise(case.h)
        case.s.wait(case.lot.choice([2, 4, 8]))
    return case.written(folder)


@kind(r"in VLAN \d+, another fabric than that of VLAN \d+ on this port, the switch .* rejects its FLOGI \d times: LS_RJT 03 0d")
def two_vlans(seed: int, folder: Path) -> list[Path]:
    """Two fabrics on one port: one login in each VLAN is tried, one is rejected."""
    case = well_used(seed, 1)
    one, first = case.s.switch, case.h
    other = Switch.drawn(case.lot, one.vlan + case.lot.choice([1, 100]))
    host = Host(first.mac, first.name, first.node, first.address, first.ox_id)
    case.s.switch = other
    for _ in range(case.lot.randrange(3, 6)):
        case.s.discover(host)
        case.s.reject(host, case.s.flogi(host), (0x03, 0x0D, 0))
        case.s.switch = one
        case.s.live(one.period / 1000, first)
        case.s.switch = other
    return case.written(folder)


@kind(r"replies don't fit its requests.*OX_ID 8\w+, should be .*FLOGI accept, \d+ frames")
def flogi_storm(seed: int, folder: Path) -> list[Path]:
    """Each accept has another OX_ID than its FLOGI."""
    case = Case(seed)
    case.s.discover(case.h)
    for _ in range(case.lot.randrange(40, 120)):
        ox_id = case.s.flogi(case.h)
        case.s.accept(case.h, ox_id ^ 0x8000)
        case.s.wait(0.2)
    return case.written(folder)


@kind(r"no keep alive of its VN_Port for .*the switch cleared it.*this VN_Port")
def vn_ka_missing(seed: int, folder: Path) -> list[Path]:
    """Keep alives of a virtual N_Port lack, and the switch clears it alone."""
    case = Case(seed)
    s, h = case.s, case.h
    s.switch.accept_features |= 0x2000
    case.in_and_known()
    virtual = Host(h.mac, b"\x28" + h.name[1:], b"\x29" + h.node[1:], h.address + 1)
    ox_id = s.fdisc(h, virtual)
    virtual.ox_id = 0
    one = s.switch
    payload = wire.login(2, one.name, one.fabric, one.accept_features, 2112, (one.r_a_tov, 2000))
    frame = wire.fc(Head(0x23, virtual.address, wire.FABRIC, 1, one.reply_f_ctl, ox_id), payload)
    s.down(h, FIP, wire.fip((2, 2), one.flags & 0x8000, [wire.login_of(8, frame), wire.mac_of(s.granted(virtual))]))
    s.meet(h, case.d)
    s.live(case.lot.choice([231, 240]), h)
    s.clear(h, [virtual])
    s.live(30, h)
    return case.written(folder)


@kind("", is_well=True)
def d_bit(seed: int, folder: Path) -> list[Path]:
    """The switch wants no keep alives."""
    case = Case(seed)
    case.s.switch.is_quiet = True
    case.in_and_known()
    case.s.meet(case.h, case.d)
    case.s.use(case.h, case.d)
    case.live(70)
    return case.written(folder)


@kind("", is_well=True)
def clean_address(seed: int, folder: Path) -> list[Path]:
    """What is left to the responder: clean address, continuously increasing offset."""
    case = Case(seed)
    case.s.switch.accept_features, case.s.switch.server_features = 0xB000, 0x8800
    case.in_and_known()
    case.s.meet(case.h, case.d)
    case.s.use(case.h, case.d)
    case.live(30)
    return case.written(folder)


@kind(r"rejected \d FLOGIs, ff 00 \(vendor specific, vendor's (21|42)\)")
def vendor_rjt(seed: int, folder: Path) -> list[Path]:
    case = Case(seed)
    case.s.discover(case.h)
    vendors = case.lot.choice([0x21, 0x42])
    for _ in range(case.lot.randrange(2, 6)):
        case.s.reject(case.h, case.s.flogi(case.h), (0xFF, 0, vendors))
        case.s.wait(2)
    return case.written(folder)


@kind(r"keep alives name another MAC than its own.*00:00:00:00:00:01, should be")
def ka_wrong_descriptor(seed: int, folder: Path) -> list[Path]:
    """The MAC in the keep alive is another."""
    case = Case(seed)
    s, h = case.s, case.h
    s.discover(h)
    for _ in range(3):
        s.accept(h, s.flogi(h))
        s.register(h, (case.d,))
        end = s.now + int(2.6 * s.switch.period * 1_000_000)
        while s.now < end:
            s.wait(s.switch.period / 1000)
            s.up(h, FIP, wire.fip((3, 1), 0, [wire.mac_of(bytes(5) + b"\1")]))
        s.clear(h, [])
        s.wait(1)
    return case.written(folder)


@kind(r"two switches of different fabrics advertise in VLAN.*priority 10\), which rejected \d FLOGIs.*never tried")
def priority_beaten(seed: int, folder: Path) -> list[Path]:
    """Two switches of two fabrics in one VLAN; the host takes the lower priority, and is rejected there."""
    case = Case(seed)
    s, h = case.s, case.h
    s.switch.priority = 10
    other = Switch.drawn(case.lot, s.switch.vlan)
    other.priority = 200
    s.ask_vlan(h)
    s.solicit(h)
    s.answer_solicitation(h)
    s.answer_solicitation(h, other)
    for _ in range(case.lot.randrange(3, 6)):
        s.reject(h, s.flogi(h), (0x09, 0x0D, 0))
        s.wait(3)
        s.advertise(h)
        s.advertise(h, other)
    return case.written(folder)


@kind(r"the switch cleared its login \d times, first 2.0 s after its accept")
def clear_flap(seed: int, folder: Path) -> list[Path]:
    case = Case(seed)
    s, h = case.s, case.h
    s.discover(h)
    for _ in range(case.lot.randrange(3, 6)):
        s.accept(h, s.flogi(h))
        s.register(h, (case.d,))
        s.live(2, h)
        s.clear(h, [h])
        s.wait(1.5)
    return case.written(folder)


@kind(r"sends in VLAN \d+, the switch advertises in \d+")
def second_vlan(seed: int, folder: Path) -> list[Path]:
    """The host solicits in another VLAN than the notification names."""
    case = Case(seed)
    s, h = case.s, case.h
    wrong = s.switch.vlan + case.lot.choice([1, 10])
    for _ in range(case.lot.randrange(3, 6)):
        s.ask_vlan(h)
        s.up(h, FIP, wire.fip((1, 1), 0x8000, [wire.mac_of(h.mac), wire.name_of(h.node), wire.size_of()]), to=ALL_FCFS, vlan=wrong)
        s.wait(4)
        s.advertise(h)
    return case.written(folder)


@kind(r"the name server lists no target to it: GID_FT .*zone")
def lun_zoning(seed: int, folder: Path) -> list[Path]:
    """The name server lists no target: not zoned."""
    case = Case(seed)
    s, h = case.s, case.h
    s.log_in(h)
    s.register(h)
    own = h.address.to_bytes(3, "big")
    for _ in range(case.lot.randrange(2, 5)):
        answer = wire.ct(0x8002, b"\x80" + own) if seed % 2 else wire.ct_rejected(9, 7)
        s.ask(h, NAMES, wire.ct(0x0171, bytes([0, 0, 0, 8])), answer, kind=0x20)
        s.live(5, h)
    s.live(20, h)
    return case.written(folder)


@kind(r"sends no RSCN to .* of .*which it owes")
def rscn_missing(seed: int, folder: Path) -> list[Path]:
    """A disk comes later on a port that is captured; the host watches, and no RSCN is sent."""
    case = Case(seed, (1, 2))
    s = case.s
    s.log_in(case.h)
    s.register(case.h)
    s.live(10, case.h)
    s.log_in(case.d)
    s.register(case.d, is_target=True)
    case.live(60)
    return case.written(folder)


@kind(r"with the FC-MAP 0e:fc:00; the switch's is 0e:fc:0a")
def wrong_fpma(seed: int, folder: Path) -> list[Path]:
    """The host sends with an FC-MAP of its own."""
    case = Case(seed)
    s, h = case.s, case.h
    s.switch.fc_map = bytes.fromhex("0efc0a")
    s.log_in(h)
    own = bytes.fromhex("0efc00") + h.address.to_bytes(3, "big")
    for _ in range(case.lot.randrange(3, 8)):
        body = wire.fcoe(wire.fc(Head(0x22, NAMES, h.address, 1, REQUEST, s.next_ox(h)), wire.login(3, h.name, h.node)))
        s.up(h, FCOE, body, source=own)
        s.live(2, h)
    return case.written(folder)


@kind(r"\d+ port names logged in \(\d+ of them within", is_well=True)
def boot_storm(seed: int, folder: Path) -> list[Path]:
    """Many hosts at once, and all come in."""
    case = Case(seed)
    hosts = [Host.drawn(case.lot, 0x010000 + 256 * it) for it in range(1, case.lot.choice([24, 48]) + 1)]
    for it in hosts:
        case.s.solicit(it)
    for it in hosts:
        case.s.answer_solicitation(it)
    asked = [(it, case.s.flogi(it)) for it in hosts]
    for host, ox_id in asked:
        case.s.accept(host, ox_id)
    case.s.live(12, *hosts)
    return case.written(folder)


@kind(r"keep alives don't come from the right MAC.*source 0e:fc:.*, should be")
def ka_wrong_mac(seed: int, folder: Path) -> list[Path]:
    """Keep alives from the FPMA; the switch clears."""
    case = Case(seed)
    s, h = case.s, case.h
    s.discover(h)
    for _ in range(3):
        s.accept(h, s.flogi(h))
        s.register(h, (case.d,))
        end = s.now + int(2.6 * s.switch.period * 1_000_000)
        while s.now < end:
            s.wait(s.switch.period / 1000)
            s.keep_alive(h, source=s.granted(h))
        s.clear(h, [])
        s.wait(1)
    return case.written(folder)


@kind(r"no NPIV at this port.*features in the accept, frame \d+ 1000, should be 2000.*FDISC")
def npiv_off(seed: int, folder: Path) -> list[Path]:
    case = Case(seed)
    s, h = case.s, case.h
    s.switch.accept_features = 0x1000
    case.in_and_known()
    virtual = Host(h.mac, b"\x28" + h.name[1:], b"\x29" + h.node[1:], h.address + 1)
    codes = case.lot.choice([(0x0B, 0x00, 0), (0x09, 0x29, 0), (0x0B, 0x2C, 0)])
    for _ in range(case.lot.randrange(2, 5)):
        s.reject(h, s.fdisc(h, virtual), codes, 8)
        s.live(3, h)
    s.meet(h, case.d)
    s.use(h, case.d, 2)
    s.live(20, h)
    return case.written(folder)


@kind(r"two hosts have one MAC in VLAN \d+: .* share one FC-MAP", r"two switches of different fabrics advertise in VLAN")
def same_map(seed: int, folder: Path) -> list[Path]:
    """Two fabrics with one FC-MAP on one VLAN: both grant the same address, so two hosts have one MAC."""
    case = Case(seed)
    s, one = case.s, case.s.switch
    other = Switch.drawn(case.lot, one.vlan)
    host = Host.drawn(case.lot, case.h.address)
    for it, switch in ((case.h, one), (host, other)):
        s.ask_vlan(it)
        s.solicit(it)
        s.answer_solicitation(it, one)
        s.answer_solicitation(it, other)
        s.switch = switch
        s.accept(it, s.flogi(it))
        s.register(it, (case.d,))
    for _ in range(4):
        s.switch = one
        s.live(4, case.h)
        s.switch = other
        s.live(4, host)
    return case.written(folder)


@kind(r"the switch cleared its login once")
def clear_all(seed: int, folder: Path) -> list[Path]:
    """The switch clears with an empty list, and the host is gone."""
    case = well_used(seed, 12)
    case.s.clear(case.h, [])
    for _ in range(30_000 // case.s.switch.period + 1):
        case.s.wait(case.s.switch.period / 1000)
        case.s.advertise(case.h)
    return case.written(folder)
