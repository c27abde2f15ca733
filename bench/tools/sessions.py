"""Hosts, switches and disks that speak on a wire, each as its vendor might: sessions for captures, with every choice that the standards leave drawn by lot."""
import random
from dataclasses import dataclass, field
from typing import Optional

import wire
from wire import ALL_ENODES, ALL_FCFS, CONTROLLER, FABRIC, FCOE, FIP, NAMES, REPLY, REQUEST, Head, Packet

MS = 1_000_000
HOST_VENDORS = [bytes.fromhex(it) for it in ("0090fa", "00c0dd", "0025b5", "001b21", "3464a9")]
SWITCH_VENDORS = [bytes.fromhex(it) for it in ("00051e", "002a6a", "c4f57c", "8c604f")]
TARGET_VENDORS = ["50060e80", "5006016b", "21000024", "500a0980"]


@dataclass
class Switch:
    """A switch: its names, and what the standards leave to it."""

    mac: bytes
    name: bytes
    fabric: bytes
    vlan: int
    fc_map: bytes = bytes.fromhex("0efc00")
    priority: int = 128
    period: int = 8000
    is_quiet: bool = False  # the D bit: hosts needn't send keep alives
    accept_features: int = 0x1000  # of a FLOGI
    server_features: int = 0x8800
    server_size: int = 2112
    r_a_tov: int = 10000
    class2: bytes = bytes(16)
    reply_f_ctl: int = REPLY
    picks_rx: bool = False
    flags: int = 0x8000
    rejects_with_mac: bool = False
    vf_id: int = 0

    @classmethod
    def drawn(cls, lot: random.Random, vlan: Optional[int] = None) -> "Switch":
        mac = lot.choice(SWITCH_VENDORS) + lot.randbytes(3)
        name = bytes([0x10, 0]) + mac
        made = cls(mac, name, lot.choice([name, bytes([0x20, 0]) + mac, bytes.fromhex("100000059b") + lot.randbytes(3)]), vlan or lot.randrange(2, 4000))
        made.priority, made.period = lot.choice([1, 64, 128, 200]), lot.choice([8000, 8000, 4000, 20000])
        made.accept_features = 0x1000 | lot.choice([0, 0x2000, 0x2000]) | lot.choice([0, 0x8000])
        made.server_features, made.server_size = lot.choice([0x8800, 0x8000, 0x0800, 0]), lot.choice([2112, 2048, 2112])
        made.r_a_tov, made.class2 = lot.choice([10000, 10000, 12000]), lot.choice([bytes(16), bytes.fromhex("8000") + bytes(14)])
        made.reply_f_ctl, made.picks_rx = lot.choice([0x980000, 0x990000]), lot.random() < 0.5
        made.flags, made.vf_id = lot.choice([0x8000, 0xC000]), 0
        made.rejects_with_mac = lot.random() < 0.5
        return made


@dataclass
class Host:
    """A host's port: an ENode with its port name, and the address that it is granted."""

    mac: bytes
    name: bytes
    node: bytes
    address: int
    ox_id: int = 0
    port: int = 1  # of the switch, which is a capture

    @classmethod
    def drawn(cls, lot: random.Random, address: Optional[int] = None) -> "Host":
        mac = lot.choice(HOST_VENDORS) + lot.randbytes(3)
        return cls(mac, bytes([lot.choice([0x10, 0x20, 0x21]), 0]) + mac, bytes([0x20, 0]) + mac, address or lot.randrange(1, 0xEF) << 16 | lot.randrange(1, 200) << 8, lot.choice([0, 0x100, 0x4A0]))


@dataclass
class Disk(Host):
    """A target's port; it is heard where its port is captured too."""

    @classmethod
    def drawn(cls, lot: random.Random, address: Optional[int] = None) -> "Disk":
        name = bytes.fromhex(lot.choice(TARGET_VENDORS)) + lot.randbytes(4)
        mac = bytes.fromhex("00a098") + lot.randbytes(3)
        return cls(mac, name, name, address or lot.randrange(1, 0xEF) << 16 | lot.randrange(1, 200) << 8, 0, 2)


@dataclass
class Session:
    """A fabric in use: what is said goes into the captures of its ports."""

    lot: random.Random
    switch: Switch
    now: int = 0
    packets: dict[int, list[Packet]] = field(default_factory=dict)
    captured: set[int] = field(default_factory=lambda: {1})  # ports
    first: Switch = field(init=False)  # the switch that it began with
    beats: dict[tuple[bytes, bool], int] = field(default_factory=dict)  # when a host's next keep alive is due: of its ENode, and of its VN_Port

    def __post_init__(self) -> None:
        self.first = self.switch

    @classmethod
    def drawn(cls, seed: int, vlan: Optional[int] = None) -> "Session":
        lot = random.Random(seed)
        begin = 1_700_000_000 * 10**9 + lot.randrange(10**15)
        return cls(lot, Switch.drawn(lot, vlan), begin)

    # ---- time and frames

    def wait(self, seconds: float) -> None:
        self.now += int(seconds * 10**9)

    def put(self, port: int, data: bytes) -> None:
        if port in self.captured:
            self.packets.setdefault(port, []).append(Packet(self.now, data))

    def tick(self, low: float = 0.05, high: float = 2.0) -> None:
        """A little time, in milliseconds."""
        self.now += int(self.lot.uniform(low, high) * MS)

    def up(self, host: Host, kind: int, body: bytes, to: Optional[bytes] = None, source: Optional[bytes] = None, vlan: object = True, priority: int = 3) -> None:
        """A frame of a host to the switch."""
        tag = self.switch.vlan if vlan is True else vlan
        self.put(host.port, wire.ethernet(to or self.switch.mac, source or host.mac, kind, body, tag, priority))  # type: ignore[arg-type]

    def down(self, host: Host, kind: int, body: bytes, to: Optional[bytes] = None, source: Optional[bytes] = None, vlan: object = True) -> None:
        """A frame of the switch to a host."""
        tag = self.switch.vlan if vlan is True else vlan
        self.put(host.port, wire.ethernet(to or host.mac, source or self.switch.mac, kind, body, tag))  # type: ignore[arg-type]

    def granted(self, host: Host) -> bytes:
        return self.switch.fc_map + host.address.to_bytes(3, "big")

    def next_ox(self, host: Host) -> int:
        host.ox_id = (host.ox_id + 1) % 0xFFFF
        return host.ox_id

    # ---- discovery

    def ask_vlan(self, host: Host, tag: Optional[int] = None, is_answered: bool = True) -> None:
        self.up(host, FIP, wire.fip((4, 1), 0, [wire.mac_of(host.mac)]), to=ALL_FCFS, vlan=tag)
        self.tick()
        if is_answered:
            self.down(host, FIP, wire.fip((4, 2), 0, [wire.mac_of(self.switch.mac), wire.vlan_of(self.switch.vlan)]), vlan=tag)
            self.tick()

    def solicit(self, host: Host, to: bytes = ALL_FCFS) -> None:
        self.up(host, FIP, wire.fip((1, 1), self.switch.flags, [wire.mac_of(host.mac), wire.name_of(host.node), wire.size_of()]), to=to)
        self.tick()

    def advert(self, switch: Optional[Switch] = None, is_solicited: bool = False) -> bytes:
        one = switch or self.switch
        told = [wire.priority_of(one.priority), wire.mac_of(one.mac), wire.name_of(one.name), wire.fabric_of(one.fabric, one.fc_map, one.vf_id)]
        told.append(wire.period_of(one.period, one.is_quiet))
        return wire.fip((1, 2), one.flags | 5 | (2 if is_solicited else 0), told)

    def advertise(self, host: Host, switch: Optional[Switch] = None) -> None:
        """An advertisement to all."""
        one = switch or self.switch
        self.down(host, FIP, self.advert(one), to=ALL_ENODES, source=one.mac, vlan=one.vlan)

    def answer_solicitation(self, host: Host, switch: Optional[Switch] = None) -> None:
        one = switch or self.switch
        self.down(host, FIP, self.advert(one, True).ljust(2158, b"\0"), source=one.mac, vlan=one.vlan)
        self.tick()

    def discover(self, host: Host, asks: bool = True) -> None:
        if asks:
            self.ask_vlan(host)
        self.solicit(host)
        self.answer_solicitation(host)
        self.advertise(host)
        self.tick()

    # ---- logins in FIP

    def flogi(self, host: Host, ox_id: Optional[int] = None) -> int:
        ox_id = self.next_ox(host) if ox_id is None else ox_id
        payload = wire.login(4, host.name, host.node, 0x8800)
        frame = wire.fc(Head(0x22, FABRIC, 0, 1, REQUEST, ox_id), payload)
        self.up(host, FIP, wire.fip((2, 1), self.switch.flags & 0x8000, [wire.login_of(7, frame), wire.mac_of(bytes(6))]))
        self.tick()
        return ox_id

    def accept(self, host: Host, ox_id: int, kind: int = 7, features: Optional[int] = None) -> None:
        one = self.switch
        payload = wire.login(2, one.name[:1] + b"\1" + one.name[2:], one.fabric, one.accept_features if features is None else features, 2112, (one.r_a_tov, 2000), one.class2)
        frame = wire.fc(Head(0x23, host.address, FABRIC, 1, one.reply_f_ctl, ox_id, (0x8000 + ox_id) % 0xFFFF if one.picks_rx else 0xFFFF), payload)
        self.down(host, FIP, wire.fip((2, 2), one.flags & 0x8000, [wire.login_of(kind, frame), wire.mac_of(self.granted(host))]))
        self.beats = {key: moment for key, moment in self.beats.items() if key[0] != host.mac}
        self.tick()

    def reject(self, host: Host, ox_id: int, codes: tuple[int, int, int], kind: int = 7) -> None:
        frame = wire.fc(Head(0x23, 0, FABRIC, 1, self.switch.reply_f_ctl, ox_id), wire.rejected(*codes))
        told = [wire.login_of(kind, frame)] + ([wire.mac_of(bytes(6))] if self.switch.rejects_with_mac else [])
        self.down(host, FIP, wire.fip((2, 2), self.switch.flags & 0x8000, told))
        self.tick()

    def fdisc(self, host: Host, virtual: Host) -> int:
        ox_id = self.next_ox(host)
        frame = wire.fc(Head(0x22, FABRIC, 0, 1, REQUEST, ox_id), wire.login(0x51, virtual.name, virtual.node, 0x0800))
        self.up(host, FIP, wire.fip((2, 1), self.switch.flags & 0x8000, [wire.login_of(8, frame), wire.mac_of(bytes(6))]))
        self.tick()
        return ox_id

    def log_in(self, host: Host, asks: bool = True) -> None:
        """Discovery, FLOGI and its accept."""
        self.discover(host, asks)
        self.accept(host, self.flogi(host))

    def keep_alive(self, host: Host, source: Optional[bytes] = None) -> None:
        self.up(host, FIP, wire.fip((3, 1), 0, [wire.mac_of(host.mac)]), source=source)

    def port_alive(self, host: Host, mac: Optional[bytes] = None) -> None:
        told = [wire.mac_of(host.mac), wire.port_of(mac or self.granted(host), host.address, host.name)]
        self.up(host, FIP, wire.fip((3, 1), 0, told), source=self.granted(host))

    def clear(self, host: Host, ports: list[Host]) -> None:
        told = [wire.mac_of(self.switch.mac), wire.name_of(self.switch.name)] + [wire.port_of(self.granted(it), it.address, it.name) for it in ports]
        self.down(host, FIP, wire.fip((3, 2), 0, told))

    def live(self, seconds: float, *hosts: Host, virtual: tuple[Host, ...] = ()) -> None:
        """Keep alives and advertisements while time goes by; `virtual` are further N_Ports of the first host."""
        period, end = self.switch.period * MS, self.now + int(seconds * 10**9)
        while True:
            due = [(self.beats.setdefault((it.mac, is_port), self.now + (80 * 10**9 if is_port else period)), at, is_port) for at, it in enumerate(hosts) for is_port in (False, True)]
            moment, at, is_port = min(due)
            if moment > end:
                break
            self.now, host = max(self.now, moment), hosts[at]
            self.beats[host.mac, is_port] = moment + (80 * 10**9 if is_port else period)
            if not is_port:
                self.advertise(host)
                self.tick()
            if not self.switch.is_quiet:
                (self.port_alive if is_port else self.keep_alive)(host)
                for it in virtual if is_port and at == 0 else ():
                    self.virtual_alive(host, it)
                self.tick()
        self.now = max(self.now, end)

    def virtual_alive(self, host: Host, virtual: Host) -> None:
        told = [wire.mac_of(host.mac), wire.port_of(self.granted(virtual), virtual.address, virtual.name)]
        self.up(host, FIP, wire.fip((3, 1), 0, told), source=self.granted(virtual))

    # ---- FC frames

    def from_host(self, host: Host, head: Head, payload: bytes, is_first: bool = True, is_last: bool = True, peer: Optional[Host] = None, crc: Optional[bytes] = None) -> None:
        """An FC frame of a host, and its copy on the peer's port."""
        body = wire.fcoe(wire.fc(head, payload), is_first, is_last, crc)
        self.up(host, FCOE, body, source=self.granted(host))
        if peer is not None and peer.port != host.port:
            self.now += 4000
            self.down(peer, FCOE, body, to=self.granted(peer))

    def to_host(self, host: Host, head: Head, payload: bytes, is_first: bool = True, is_last: bool = True, peer: Optional[Host] = None, crc: Optional[bytes] = None) -> None:
        """An FC frame to a host, of a service or of a peer whose port may be captured."""
        body = wire.fcoe(wire.fc(head, payload), is_first, is_last, crc)
        if peer is not None and peer.port != host.port:
            self.up(peer, FCOE, body, source=self.granted(peer))
            self.now += 4000
        self.down(host, FCOE, body, to=self.granted(host))

    def ask(self, host: Host, to: int, payload: bytes, answer: Optional[bytes], kind: int = 1, peer: Optional[Host] = None) -> int:
        """A link service or CT request of a host, and its answer where there is one."""
        ox_id, one = self.next_ox(host), self.switch
        request = Head(0x22 if kind == 1 else 2, to, host.address, kind, REQUEST, ox_id, seq_id=self.lot.randrange(256))
        self.from_host(host, request, payload, peer=peer)
        self.tick()
        if answer is not None:
            rx_id = self.lot.randrange(1, 0xFFFE) if one.picks_rx else 0xFFFF
            reply = Head(0x23 if kind == 1 else 3, host.address, to, kind, one.reply_f_ctl, ox_id, rx_id)
            self.to_host(host, reply, answer, peer=peer)
            self.tick()
        return ox_id

    # ---- services

    def register(self, host: Host, peers: tuple[Host, ...] = (), is_target: bool = False) -> None:
        """A login to the name server, registrations, a request for targets, and SCR."""
        one = self.switch
        accept = wire.login(2, bytes([0x25, 0xFC]) + one.name[2:], one.fabric, one.server_features, one.server_size, (255 << 16 | 0x1F, 2000))
        self.ask(host, NAMES, wire.login(3, host.name, host.node), accept)
        address = host.address.to_bytes(4, "big")
        types = bytes([0, 0, 1, 0]) + bytes(28)
        for code, body in ((0x0213, address + host.node), (0x0217, address + types), (0x021F, address + bytes([0, 0, 1 if is_target else 2, 8]))):
            self.ask(host, NAMES, wire.ct(code, body), wire.ct(0x8002, b""), kind=0x20)
        if is_target:
            return
        self.ask(host, CONTROLLER, bytes([0x62, 0, 0, 0, 0, 0, 0, 3]), wire.ACCEPTED)
        listed = [it.address.to_bytes(3, "big") for it in (*peers, host)]
        self.lot.shuffle(listed)
        answer = b"".join(bytes([0x80 if at == len(listed) - 1 else 0]) + it for at, it in enumerate(listed))
        self.ask(host, NAMES, wire.ct(0x0171, bytes([0, 0, 0, 8])), wire.ct(0x8002, answer), kind=0x20)

    # ---- with a peer

    def plogi(self, host: Host, disk: Host, answer: Optional[bytes] = None, is_silent: bool = False) -> int:
        accept = None if is_silent else answer if answer is not None else wire.login(2, disk.name, disk.node, 0x8800)
        return self.ask(host, disk.address, wire.login(3, host.name, host.node), accept, peer=disk)

    def prli(self, host: Host, disk: Host, answer: Optional[bytes] = None) -> int:
        done = wire.process_login(2, 0x2100, 0x12)
        return self.ask(host, disk.address, wire.process_login(0x20, 0x2000, 0x22), answer if answer is not None else done, peer=disk)

    def meet(self, host: Host, disk: Host) -> None:
        self.plogi(host, disk)
        self.prli(host, disk)

    def fcp(self, host: Host, disk: Host, cdb: bytes, reads: bytes = b"", writes: bytes = b"", answer: Optional[bytes] = None, lun: int = 0, size: Optional[int] = None, how: str = "") -> int:
        """A SCSI command with its data and its response. `how`: `no data` of a read gets lost, `bad crc`, `silent`, `hole`."""
        # pylint: disable=too-many-locals
        ox_id = self.next_ox(host)
        wanted = size if size is not None else len(reads) or len(writes)
        direction = 2 if reads or (size and not writes) else 1 if writes else 0
        self.from_host(host, Head(6, disk.address, host.address, 8, REQUEST, ox_id), wire.command(lun, cdb, wanted, direction), peer=disk)
        self.tick(0.02, 0.4)
        if how == "silent":
            return ox_id
        rx_id = self.lot.randrange(1, 0xFFFE)
        if writes:
            ready = (0).to_bytes(4, "big") + len(writes).to_bytes(4, "big") + bytes(4)
            self.to_host(host, Head(5, host.address, disk.address, 8, 0x890000, ox_id, rx_id), ready, peer=disk)
            self.send_data(host, disk, writes, ox_id, rx_id, True, how)
        elif reads:
            self.send_data(host, disk, reads, ox_id, rx_id, False, how)
        residual = wanted - len(reads) if direction == 2 and answer is None and how != "no data" else 0
        status = answer if answer is not None else wire.response(residual=residual)
        self.to_host(host, Head(7, host.address, disk.address, 8, self.switch.reply_f_ctl, ox_id, rx_id, seq_id=1), status, peer=disk)
        self.tick(0.02, 0.4)
        return ox_id

    def send_data(self, host: Host, disk: Host, data: bytes, ox_id: int, rx_id: int, is_up: bool, how: str) -> None:
        # pylint: disable=too-many-locals
        ends = (disk.address, host.address) if is_up else (host.address, disk.address)
        count = -(-len(data) // 2048)
        for at in range(count):
            piece, is_last = data[2048 * at : 2048 * at + 2048], at == count - 1
            f_ctl = (0 if is_up else 0x800000) | (0x080000 if is_last else 0) | 8
            head = Head(1, *ends, 8, f_ctl, ox_id, rx_id, 0, at, 2048 * at)
            crc = self.lot.randbytes(4) if how == "bad crc" else None
            if how == "hole" and at == count // 2:
                continue
            if how == "no data":
                if disk.port in self.captured and disk.port != host.port:
                    self.up(disk, FCOE, wire.fcoe(wire.fc(head, piece), at == 0, is_last), source=self.granted(disk))
                continue
            (self.from_host if is_up else self.to_host)(host, head, piece, at == 0, is_last, disk, crc)
            self.tick(0.01, 0.03)

    # ---- SCSI

    def inquire(self, host: Host, disk: Host, kind: int = 0, lun: int = 0) -> None:
        data = bytes([kind, 0, 5, 2, 31, 0, 0, 2]) + b"VENDOR  DISK            0001"
        self.fcp(host, disk, bytes([0x12, 0, 0, 0, 36, 0]), reads=data, lun=lun)

    def report_luns(self, host: Host, disk: Host, luns: list[int]) -> None:
        data = (8 * len(luns)).to_bytes(4, "big") + bytes(4) + b"".join(bytes([0, it]) + bytes(6) for it in luns)
        self.fcp(host, disk, bytes([0xA0]) + bytes(5) + (4096).to_bytes(4, "big") + bytes(2), reads=data, size=4096)

    def read(self, host: Host, disk: Host, blocks: int = 8, lun: int = 0, how: str = "", answer: Optional[bytes] = None) -> int:
        lba = self.lot.randrange(1 << 20)
        data = b"" if answer is not None else self.lot.randbytes(512 * blocks)
        cdb = bytes([0x28, 0]) + lba.to_bytes(4, "big") + bytes([0]) + blocks.to_bytes(2, "big") + b"\0"
        return self.fcp(host, disk, cdb, reads=data, answer=answer, lun=lun, size=512 * blocks, how=how)

    def write(self, host: Host, disk: Host, blocks: int = 8, lun: int = 0, how: str = "", answer: Optional[bytes] = None) -> int:
        lba = self.lot.randrange(1 << 20)
        cdb = bytes([0x2A, 0]) + lba.to_bytes(4, "big") + bytes([0]) + blocks.to_bytes(2, "big") + b"\0"
        if answer is not None:
            return self.fcp(host, disk, cdb, answer=answer, lun=lun, size=512 * blocks)
        return self.fcp(host, disk, cdb, writes=self.lot.randbytes(512 * blocks), lun=lun, how=how)

    def use(self, host: Host, disk: Host, count: int = 6) -> None:
        """A disk that is found and used, with nothing wrong."""
        self.report_luns(host, disk, [0, 1])
        self.inquire(host, disk)
        self.fcp(host, disk, bytes(6))
        for _ in range(count):
            self.read(host, disk, self.lot.choice([1, 8, 64]))
            self.write(host, disk, self.lot.choice([1, 8, 16]))

    def all_well(self, host: Host, disk: Host, seconds: float = 30) -> None:
        """A whole session with nothing wrong."""
        if disk.port in self.captured and disk.port != host.port:
            self.log_in(disk)
            self.register(disk, is_target=True)
        self.log_in(host)
        self.register(host, (disk,))
        self.meet(host, disk)
        self.use(host, disk)
        self.live(seconds, *((host, disk) if disk.port in self.captured and disk.port != host.port else (host,)))
