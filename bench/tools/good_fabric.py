"""A fabric in virtual time: a world with its clock, cables that a capture is taken of, and a switch that keeps the standards (FC-BB-5, FC-LS-2, FC-GS-6).

It is there to have right conversations in which everything that the standards leave open is drawn by lot; the forwarder that is proved is another one."""
import heapq
import random
import struct
from dataclasses import dataclass, field
from typing import Callable, Optional

import machine  # pylint: disable=unused-import # it sets the path for what follows

from fcoe.frames.columns import Record
from fcoe.frames.heard import ALL_ENODES, CONTROLLER, FABRIC_PORT, FIP_TYPE, KEEP_ALIVE, LOGIN, NAME_SERVER, SOLICIT, VLAN_REQUEST, Fc, Heard, hear, number
from fcoe.host.enode import ENode
from fcoe.host.speech import Head, descriptor, ethernet, fcoe, fip, mac_descriptor, three

SECOND = 1_000_000_000
BEGIN = 1_700_000_000 * SECOND
PERIODS = 2.5
ACK, SOFI2, SOFN2, SOFI3, EOFN, EOFT = 0xC0, 0x2D, 0x35, 0x2E, 0x41, 0x42
ACCEPTED = 0x990000  # F_CTL of an answer


class World:
    """Virtual time: what is due when, and all that is drawn by lot."""

    def __init__(self, seed: object) -> None:
        self.random = random.Random(seed)
        self.now, self.count = 0.0, 0
        self.heap: list[tuple[float, int, Callable[[], None]]] = []
        self.hosts: list[ENode] = []

    def after(self, seconds: float, call: Callable[[], None]) -> None:
        self.count += 1
        heapq.heappush(self.heap, (self.now + seconds, self.count, call))

    def chance(self, share: float) -> bool:
        return self.random.random() < share

    def run(self, until: float) -> None:
        while True:
            due = [it.timers.heap[0][0] for it in self.hosts if it.timers.heap]
            due += [self.heap[0][0]] if self.heap else []
            if not due or min(due) > until:
                return
            self.now = max(self.now, min(due))
            while self.heap and self.heap[0][0] <= self.now:
                heapq.heappop(self.heap)[2]()
            for it in self.hosts:
                it.timers.run()


@dataclass
class Cable:
    """A host's link, of which a capture is taken at some place between both ends; what is lost is lost before it or behind it."""

    world: World
    number: int
    fabric: "Fabric"
    host: Optional[ENode] = None
    loss: float = 0.0
    twice: float = 0.0
    place: float = 0.0  # of the capture: 0 is the host's end, 1 the switch's
    delay: float = 0.00002
    is_up: bool = True
    tape: list[Record] = field(default_factory=list)
    free: list[float] = field(default_factory=lambda: [0.0, 0.0])  # when each direction is free again: nothing is overtaken

    def carry(self, frame: bytes, to_host: bool, take: Callable[[bytes], None]) -> None:
        if not self.is_up:
            return
        arrives = self.free[to_host] = max(self.world.now + self.delay * (1 + self.world.random.random()), self.free[to_host] + 0.000001)
        share = 1 - self.place if to_host else self.place
        captured = self.world.now + (arrives - self.world.now) * share
        is_lost, is_seen = self.world.chance(self.loss), True
        if is_lost:
            is_seen = self.world.random.random() > share
        for _ in range(2 if self.world.chance(self.twice) else 1):
            if is_seen:
                self.world.after(captured - self.world.now, lambda: self.keep(frame))
            if not is_lost:
                self.world.after(arrives - self.world.now, lambda: take(frame))

    def keep(self, frame: bytes) -> None:
        moment = BEGIN + int(self.world.now * SECOND)
        self.tape.append(Record(moment, frame, len(frame), len(self.tape) + 1))

    def from_host(self, frame: bytes) -> None:
        self.carry(frame, False, lambda it: self.fabric.take(self, it))

    def to_host(self, frame: bytes) -> None:
        self.carry(frame, True, lambda it: self.host.take(it) if self.host is not None and self.is_up else None)


@dataclass
class Entry:
    """A login at the switch."""

    cable: Cable
    enode: bytes
    address: int
    name: bytes
    node: bytes
    vlan: int
    heard: float
    types: bytes = bytes(32)
    has_names: bool = False
    watches: bool = False


@dataclass
class Ways:
    """What a switch chooses."""

    mac: bytes = bytes.fromhex("00051e000002")
    vlans: tuple[int, ...] = (100,)
    fc_map: bytes = bytes.fromhex("0efc00")
    priority: int = 128
    period: float = 8.0
    is_quiet: bool = False  # D: no keep alives are owed
    answers: float = 0.001  # seconds until it answers, at most
    reuses: bool = False  # gives an address that is free again to anybody at once
    rejects: float = 0.0
    area_notices: bool = False
    class2: bool = False
    vlan_first: bool = False


class Fabric:
    """A switch with its name server and its fabric controller."""

    def __init__(self, world: World, ways: Ways) -> None:
        self.world, self.ways = world, ways
        self.cables: list[Cable] = []
        self.entries: list[Entry] = []
        self.free = [0x010100 + it for it in range(64)]
        self.last_ox_id, self.is_silent = 0, False
        self.forwarded: dict[int, float] = {}
        world.after(world.random.random() * ways.period, self.advertise)
        world.after(1.0, self.expire)

    def plug(self, place: float, loss: float, twice: float) -> Cable:
        made = Cable(self.world, len(self.cables) + 1, self, place=place, loss=loss, twice=twice, delay=10 ** self.world.random.uniform(-5.5, -3.3))
        self.cables.append(made)
        return made

    def soon(self, call: Callable[[], None]) -> None:
        self.world.after(self.world.random.random() * self.ways.answers, call)

    # ---- FIP

    def advertisement(self, to: bytes, size: int, vlan: int) -> bytes:
        ways = self.ways
        flags = 0x8005 | (0 if to == ALL_ENODES else 2)
        listed = (
            descriptor(1, bytes([0, ways.priority])),
            mac_descriptor(ways.mac),
            descriptor(4, bytes(2) + b"\x10\x00" + ways.mac),
            descriptor(5, bytes(3) + ways.fc_map + b"\x10\x00" + ways.mac),
            descriptor(12, bytes([0, ways.is_quiet]) + struct.pack(">I", int(1000 * ways.period))),
        )
        frame = ethernet(to, ways.mac, vlan, FIP_TYPE, fip((1, 2), flags, *listed))
        return frame.ljust(size + (4 if vlan else 0), b"\0") if size else frame

    def advertise(self) -> None:
        if not self.is_silent:
            for cable in self.cables:
                for vlan in self.ways.vlans:
                    cable.to_host(self.advertisement(ALL_ENODES, 0, vlan))
        self.world.after(self.ways.period * self.world.random.uniform(0.97, 1.01), self.advertise)

    def take(self, cable: Cable, frame: bytes) -> None:
        heard = hear(frame)
        if heard.is_fip:
            if not self.is_silent:
                self.take_fip(cable, heard)
        elif heard.is_fcoe and heard.fc is not None:
            self.take_fcoe(cable, heard, heard.fc)

    def take_fip(self, cable: Cable, heard: Heard) -> None:
        ways = self.ways
        if heard.operation == VLAN_REQUEST:
            listed = [mac_descriptor(ways.mac), *(descriptor(14, struct.pack(">H", it)) for it in ways.vlans)]
            told = ethernet(heard.source, ways.mac, 0, FIP_TYPE, fip((4, 2), 1, *listed))
            self.soon(lambda: cable.to_host(told))
        elif heard.operation == SOLICIT and heard.vlan in ways.vlans:
            size = heard.descriptor(6)
            made = self.advertisement(heard.source, number(size.data[2:4]) if size else 0, heard.vlan)
            self.soon(lambda: cable.to_host(made))
        elif heard.operation == LOGIN and heard.fc is not None and heard.destination == ways.mac:
            self.soon(lambda: self.take_login(cable, heard))
        elif heard.operation == KEEP_ALIVE:
            for it in self.entries:
                if it.cable is cable and heard.source in (it.enode, self.mac_of(it.address)):
                    it.heard = self.world.now

    def mac_of(self, address: int) -> bytes:
        return self.ways.fc_map + three(address)

    def reply(self, cable: Cable, heard: Heard, kind: int, address: int, payload: bytes, mac: bytes) -> None:
        assert heard.fc is not None
        frame = Head(0x23, 0x01, 0x980000 if self.world.chance(0.5) else ACCEPTED, heard.fc.ox_id, 0xFFFF if self.world.chance(0.5) else 0x100).bytes_of(address, FABRIC_PORT) + payload
        listed = [descriptor(kind, bytes(2) + frame), *([mac_descriptor(mac)] if mac else [])]
        cable.to_host(ethernet(heard.source, self.ways.mac, heard.vlan, FIP_TYPE, fip((2, 2), 0x8000, *listed)))

    def take_login(self, cable: Cable, heard: Heard) -> None:
        """FLOGI, FDISC or LOGO: a further FLOGI ends what its ENode had."""
        fc, kind = heard.fc, heard.login_kind
        assert fc is not None
        if kind == "LOGO":
            found = next((it for it in self.entries if it.address == fc.s_id and it.cable is cable), None)
            if found:
                self.leave(found)
            self.reply(cable, heard, 9, fc.s_id, b"\x02\0\0\0", b"")
            return
        name, node = fc.payload[20:28], fc.payload[28:36]
        if self.world.chance(self.ways.rejects):
            self.reply(cable, heard, 7 if kind == "FLOGI" else 8, 0, bytes([1, 0, 0, 0, 0, 5, 0, 0]), b"")
            return
        for it in list(self.entries):
            if it.name == name or kind == "FLOGI" and it.enode == heard.source:
                self.leave(it)
        address = self.free.pop(0)
        mac = self.mac_of(address)
        payload = bytes([2, 0, 0, 0]) + fc.payload[4:8] + struct.pack(">HHHI", 0x3800 if kind == "FLOGI" else 0x1800, 2112, 0, 0)[:10]
        payload = payload.ljust(20, b"\0") + b"\x20\x00" + self.ways.mac + b"\x10\x00" + self.ways.mac + bytes(16)
        payload = payload.ljust(52, b"\0") + (b"\x80\0" if self.ways.class2 else b"\0\0") + bytes(14) + b"\x88\0" + bytes(14) + bytes(32)
        self.reply(cable, heard, 7 if kind == "FLOGI" else 8, address, payload, mac)
        self.entries.append(Entry(cable, heard.source, address, name, node, heard.vlan, self.world.now))

    def leave(self, it: Entry) -> None:
        self.entries.remove(it)
        if self.ways.reuses:
            self.free.insert(0, it.address)
        else:
            self.world.after(30.0, lambda: self.free.append(it.address))
        self.notify(it.address)

    def expire(self) -> None:
        """Logins that fell silent are cleared."""
        for it in list(self.entries):
            if not self.ways.is_quiet and self.world.now - it.heard > PERIODS * max(self.ways.period, 0) + 0.5 and it.heard >= 0:
                self.clear(it.cable, [it])
        self.world.after(1.0, self.expire)

    def clear(self, cable: Cable, listed: list[Entry], is_all: bool = False) -> None:
        """Clear Virtual Links."""
        if not listed:
            return
        ports = [] if is_all else [descriptor(11, self.mac_of(it.address) + b"\0" + three(it.address) + it.name) for it in listed]
        parts = [mac_descriptor(self.ways.mac), descriptor(4, bytes(2) + b"\x10\x00" + self.ways.mac), *ports]
        for it in listed:
            self.leave(it)
        cable.to_host(ethernet(listed[0].enode, self.ways.mac, listed[0].vlan, FIP_TYPE, fip((3, 2), 1, *parts)))

    # ---- FCoE

    def say(self, it: Entry, head: Head, source: int, payload: bytes, edges: tuple[int, int] = (SOFI3, EOFT)) -> None:
        it.cable.to_host(fcoe(self.mac_of(it.address), self.ways.mac, it.vlan, head.bytes_of(it.address, source) + payload, edges))

    def take_fcoe(self, cable: Cable, heard: Heard, fc: Fc) -> None:
        sender = next((it for it in self.entries if it.address == fc.s_id and it.cable is cable and self.mac_of(it.address) == heard.source), None)
        if sender is None or heard.destination != self.ways.mac or heard.vlan != sender.vlan:
            return
        there = next((it for it in self.entries if it.address == fc.d_id), None)
        if there is not None:
            data = heard.data
            tag = struct.pack(">HH", 0x8100, int.from_bytes(data[14:16], "big") & 0xE000 | there.vlan)
            made = self.mac_of(fc.d_id) + self.ways.mac + tag + b"\x89\x06" + data[heard.at :]
            self.soon_forward(there, made)
        elif fc.r_ctl & 0xF0 == 0xC0 or fc.kind == 0 and fc.r_ctl != 0x81:
            return
        else:
            start = heard.data[heard.at + 13]
            if start in (SOFI2, SOFN2):
                self.acknowledge(sender, fc)
            asker = sender
            self.soon(lambda: self.serve(asker, fc, start == SOFI2))

    def soon_forward(self, there: Entry, frame: bytes) -> None:
        """Sent on, none before another one to the same link."""
        self.forwarded[there.cable.number] = moment = max(self.world.now + self.world.random.random() * 0.0001, self.forwarded.get(there.cable.number, 0.0)) + 0.000001
        self.world.after(moment - self.world.now, lambda: there.cable.to_host(frame))

    def acknowledge(self, it: Entry, fc: Fc) -> None:
        """ACK_1 of class 2."""
        head = Head(ACK, 0, 0x980000, fc.ox_id, 0xFFFF, fc.data[fc.at + 12], fc.seq_cnt, 1)
        self.say(it, head, fc.d_id, b"", (SOFN2, EOFT))

    def serve(self, it: Entry, fc: Fc, is_class2: bool) -> None:
        """Link services and queries to the fabric's services."""
        if it not in self.entries:
            return
        edges = (SOFI2, EOFN) if is_class2 else (SOFI3, EOFT)
        rx_id = 0xFFFF if self.world.chance(0.5) else self.world.random.randrange(0xFFFF)
        if fc.kind == 0x20 and fc.d_id == NAME_SERVER:
            payload = self.query(it, fc)
            self.say(it, Head(0x03, 0x20, ACCEPTED, fc.ox_id, rx_id), fc.d_id, payload, edges)
        elif fc.kind == 0x01 and fc.r_ctl == 0x22:
            self.say(it, Head(0x23, 0x01, ACCEPTED, fc.ox_id, rx_id), fc.d_id, self.service(it, fc), edges)
        elif fc.r_ctl == 0x81:
            accept = struct.pack(">IHHHH", 0, fc.ox_id, rx_id, 0, 0xFFFF)
            self.say(it, Head(0x84, 0, ACCEPTED, fc.ox_id, rx_id), fc.d_id, accept)

    def service(self, it: Entry, fc: Fc) -> bytes:
        command = fc.payload[0]
        if command == 0x03:
            it.has_names = it.has_names or fc.d_id == NAME_SERVER
            third = b"\x88\0" + bytes(4) + b"\x08\x40" + b"\0\xff\0\0\0\1\0\0"
            head = bytes([2, 0, 0, 0]) + fc.payload[4:8] + struct.pack(">HHHHI", 0x8000, 2112, 255, 0x1F, 2000)
            return head + b"\x25\x00" + self.ways.mac + b"\x10\x00" + self.ways.mac + bytes(16) + (b"\x80\0" + bytes(4) + b"\x08\x40" + bytes(8) if self.ways.class2 else bytes(16)) + third + bytes(32)
        if command == 0x62 and fc.d_id == CONTROLLER:
            it.watches = True
            return b"\x02\0\0\0"
        if command == 0x05:
            it.has_names = it.has_names and fc.d_id != NAME_SERVER
            return b"\x02\0\0\0"
        return bytes([1, 0, 0, 0, 0, 0x0B, 0, 0])

    def query(self, it: Entry, fc: Fc) -> bytes:
        command, rest = fc.command, fc.payload[16:]
        accept, empty = bytes.fromhex("01000000fc020000") + struct.pack(">HHI", 0x8002, 0, 0), bytes.fromhex("01000000fc020000") + struct.pack(">HHBBBB", 0x8001, 0, 0, 9, 7, 0)
        others = [one for one in self.entries if one.types[2] & 1]
        if command == 0x0217:
            it.types = rest[4:36]
            self.notify(it.address)
        elif command in (0x0172, 0x0171) and others:
            rows = [bytes([0x80 * (one is others[-1])]) + three(one.address) + (bytes(4) + one.name if command == 0x0172 else b"") for one in others]
            return accept + b"".join(rows)
        elif command == 0x0112:
            found = next((one for one in self.entries if one.address == number(rest[1:4])), None)
            return accept + found.name if found else empty
        elif command is not None and command >> 8 != 2:
            return empty
        return accept

    def notify(self, address: int) -> None:
        """RSCN to all who asked for it."""
        for it in self.entries:
            if it.watches and it.address != address:
                self.last_ox_id = self.last_ox_id % 0xFFF0 + 1
                page = (bytes([2]) + bytes(3) if self.world.chance(0.5) else bytes([1]) + three(address & 0xFFFF00)) if self.ways.area_notices else b"\0" + three(address)
                head = Head(0x22, 0x01, 0x290000, self.last_ox_id)
                self.soon(lambda it=it, head=head, page=page: self.say(it, head, CONTROLLER, bytes([0x61, 4, 0, 8]) + page))  # type: ignore[misc]
