"""Loads with a size: captures of hosts and a configuration, the same bytes for the same words."""
import pathlib
import random
import struct
from dataclasses import dataclass
from typing import BinaryIO, Callable, Iterator, NamedTuple

from ..errors import Refused
from ..frames.heard import CONTROLLER, NAME_SERVER, colons, fc_check
from ..frames.limits import MOST_BYTES, MOST_FRAMES, MOST_SPAN
from ..host import speech
from ..host.speech import FDISC, FLOGI, Head, Names

FORWARDER, VLAN, FC_MAP, FIRST = bytes.fromhex("00051e000002"), 100, bytes.fromhex("0efc00"), 0x010100
NODE_PORTS = 6  # N_Ports of an ENode
START, WINDOW = 1_000_000, 10  # milliseconds
BEAT, PERIOD = 5_000, 8_000  # between keep alives of an ENode, and what the forwarder advertises
PORT_BEAT = 90_000  # between keep alives of an N_Port (FC-BB-5, FIP keep alive)
QUICK_BEAT, QUICK_PERIOD = 400, 1_000  # where some fall silent
AGAIN = 2_000  # between the tries of a login that is rejected
AT_ONCE = 100  # logins, and registrations, of a window of a storm
SHARE = 10  # each tenth is rejected, or falls silent
LOST = 0.01
MOST_PORTS, MOST_LOGINS, PER_PORT = 64, 1_000, 100
HEAD = struct.pack("<IHHIIII", 0xA1B2C3D4, 2, 4, 0, 0, 65535, 1)
RECORD = 16
ELS, CT = 0x01, 0x20
FC_AT, TRAILER = 32, b"\x42\0\0\0"  # where the FC frame begins, and EOFt with what is reserved behind it


@dataclass(frozen=True)
class Size:
    """What a load is asked to be."""

    frames: int = 20_000
    ports: int = 8
    logins: int = 240
    seed: int = 1
    payload: int = 32
    rate: int = 10_000  # data frames a second
    storm: bool = False
    reject: bool = False
    silent: bool = False
    loss: bool = False

    @property
    def limit(self) -> int:
        """How many logins the forwarder takes."""
        return self.logins - max(1, self.logins // SHARE) if self.reject else self.logins

    @property
    def per_window(self) -> int:
        return max(1, self.rate * WINDOW // 1000)


class Made(NamedTuple):
    """A frame of a load: its port from 0, its moment, and what it is."""

    port: int
    moment: int
    kind: str  # login, alive, service or data
    frame: bytes


@dataclass(frozen=True)
class NPort:
    """An N_Port of a load."""

    number: int
    port: int
    node: int
    is_first: bool  # by FLOGI

    @property
    def mac(self) -> bytes:
        return mac_of(self.node)

    @property
    def name(self) -> bytes:
        return (0x2000_001B_0000_0000 + self.number).to_bytes(8, "big")


def mac_of(node: int) -> bytes:
    return (0x001B_2100_0000 + node).to_bytes(6, "big")


def node_name(node: int) -> bytes:
    return (0x1000_001B_2100_0000 + node).to_bytes(8, "big")


def front_of(address: int) -> bytes:
    """Of an FCoE frame of this address, all before its FC frame."""
    return speech.fcoe(FORWARDER, FC_MAP + speech.three(address), VLAN, b"")[:FC_AT]


def check_size(size: Size) -> None:
    """Refuses what passes the forwarder's limits."""
    bounds = (
        ("--ports", size.ports, 1, MOST_PORTS, "ports"),
        ("--logins", size.logins, 2, min(MOST_LOGINS, PER_PORT * size.ports), f"logins, and {PER_PORT} a port"),
        ("--frames", size.frames, size.logins, MOST_FRAMES, "frames, and each login is one"),
        ("--size", size.payload, 8, speech.RECEIVE, "bytes of payload"),
        ("--rate", size.rate, 100, 1_000_000, "data frames a second"),
    )
    for word, value, least, most, what in bounds:
        if not least <= value <= most:
            raise Refused(f"{word} {value}: wants {least:,} to {most:,} {what}")
    if size.frames * (size.payload + 80) > MOST_BYTES:
        raise Refused(f"--frames {size.frames} --size {size.payload}: passes 1 GiB, the limit of a run")
    if WINDOW * (size.logins * 6 + size.frames // size.per_window) > MOST_SPAN:
        raise Refused(f"--frames {size.frames} --rate {size.rate}: passes six hours, the limit of a run")


def ports_of(size: Size) -> list[NPort]:
    """All N_Ports, in the order in which they are granted their addresses."""
    made: list[NPort] = []
    node = -1
    for port in range(size.ports):
        for place, number in enumerate(range(port * size.logins // size.ports, (port + 1) * size.logins // size.ports)):
            node += place % NODE_PORTS == 0
            made.append(NPort(number, port, node, place % NODE_PORTS == 0))
    return sorted(made, key=lambda it: not it.is_first) if size.storm else made


class Load:
    """The frames of a load, in the order of time."""

    def __init__(self, size: Size) -> None:
        check_size(size)
        self.size = size
        self.ports = ports_of(size)
        self.addresses = {it: FIRST + place for place, it in enumerate(self.ports[: size.limit])}
        self.random = random.Random(size.seed)
        self.moment = START
        self.exchange = 0
        self.filling = bytes(size.payload - 8 + -size.payload % 4)
        self.senders = [(it.port, front_of(address), address.to_bytes(3, "big")) for it, address in self.addresses.items()]

    def configuration(self) -> str:
        size = self.size
        lines = [f"fcf-mac {colons(FORWARDER)}", f"vlan {VLAN}", "window 10", f"period {QUICK_PERIOD if size.silent else PERIOD}"]
        lines += [f"limit {size.limit}", f"pool {max(256, size.logins)}"]
        return "\n".join(lines + ["zone all " + " ".join(colons(it.name) for it in sorted(self.ports, key=lambda it: it.number)), ""])

    # ---- frames

    def next_exchange(self) -> int:
        self.exchange = self.exchange % 0x7FFF + 1
        return self.exchange

    def login(self, it: NPort) -> Made:
        names = Names(it.mac, it.name, node_name(it.node))
        return Made(it.port, self.moment, "login", speech.fabric_login(names, VLAN, FORWARDER, FLOGI if it.is_first else FDISC, self.next_exchange()))

    def alive(self, it: NPort) -> Made:
        return Made(it.port, self.moment, "alive", speech.keep_alive(Names(it.mac, it.name, b""), VLAN, FORWARDER))

    def port_alive(self, it: NPort) -> Made:
        """That of an N_Port: without it its login ends, whatever it sends."""
        address = self.addresses[it]
        frame = speech.port_keep_alive(Names(it.mac, it.name, b""), VLAN, FORWARDER, FC_MAP + speech.three(address), address, it.name)
        return Made(it.port, self.moment, "alive", frame)

    def framed(self, it: NPort, to: int, head: Head, payload: bytes) -> bytes:
        address = self.addresses[it]
        return speech.fcoe(FORWARDER, FC_MAP + speech.three(address), VLAN, head.bytes_of(to, address) + payload)

    def service(self, it: NPort, to: int, head: Head, payload: bytes) -> Made:
        return Made(it.port, self.moment, "service", self.framed(it, to, head, payload))

    def data(self, number: int) -> Made:
        """A data frame between two N_Ports that were granted an address; its payload begins with its number."""
        count = len(self.senders)
        first = int(self.random.random() * count)
        port, front, source = self.senders[first]
        to = FIRST + (first + 1 + int(self.random.random() * (count - 1))) % count
        head = b"\x06" + to.to_bytes(3, "big") + b"\0" + source + struct.pack(">IIHHI", 0x08380000, 0, number % 0x8000, speech.NONE, 0)
        frame = head + number.to_bytes(8, "big") + self.filling
        return Made(port, self.moment, "data", b"".join((front, frame, fc_check(frame), TRAILER)))

    # ---- the course

    def frames(self) -> Iterator[Made]:
        """So many frames as were asked for; with loss some are left out, and others follow."""
        left = self.size.frames
        for it in self.course():
            if self.size.loss and it.kind in ("data", "alive") and self.random.random() < LOST:
                continue
            yield it
            left -= 1
            if not left:
                return

    def course(self) -> Iterator[Made]:
        yield from self.logins()
        if self.size.storm:
            yield from self.registrations()
        yield from self.traffic()

    def logins(self) -> Iterator[Made]:
        """Each login has a window of its own; in a storm a hundred share one."""
        for place, it in enumerate(self.ports):
            yield self.login(it)
            is_last = place + 1 < len(self.ports) and self.ports[place + 1].is_first != it.is_first
            if not self.size.storm or place % AT_ONCE == AT_ONCE - 1 or is_last:
                self.moment += WINDOW
        self.moment += WINDOW

    def registrations(self) -> Iterator[Made]:
        """Each N_Port logs in at the name server, asks to be told of changes, and then registers, of which all the others are told."""
        payloads: tuple[tuple[int, int, int, Callable[[NPort], bytes]], ...] = (
            (NAME_SERVER, speech.ELS_REQUEST, ELS, lambda it: speech.login_payload(speech.PLOGI, it.name, node_name(it.node))),
            (CONTROLLER, speech.ELS_REQUEST, ELS, lambda it: speech.scr()),
            (NAME_SERVER, speech.CT_REQUEST, CT, lambda it: speech.types(self.addresses[it])),
        )
        for to, r_ctl, kind, payload in payloads:
            for place, it in enumerate(self.addresses):
                yield self.service(it, to, Head(r_ctl, kind, speech.REQUEST, self.next_exchange()), payload(it))
                if place % AT_ONCE == AT_ONCE - 1:
                    self.moment += WINDOW
            self.moment += WINDOW

    def traffic(self) -> Iterator[Made]:
        """Data frames, keep alives of the ENodes and of their N_Ports, and the tries of those that were rejected."""
        speaking = [it for it in self.addresses if not self.size.silent or it.node % SHARE != SHARE - 1]
        beating = [it for it in speaking if it.is_first]
        beat, port_beat, again = self.moment, self.moment + PORT_BEAT, self.moment + AGAIN
        number = 0
        while True:
            if self.moment >= beat:
                yield from map(self.alive, beating)
                beat += QUICK_BEAT if self.size.silent else BEAT
            if self.moment >= port_beat:
                yield from map(self.port_alive, speaking)
                port_beat += PORT_BEAT
            if self.moment >= again:
                yield from map(self.login, self.ports[self.size.limit :])
                again += AGAIN
            for _ in range(self.size.per_window):
                yield self.data(number)
                number += 1
            self.moment += WINDOW


def write_load(load: Load, folder: pathlib.Path) -> int:
    """Writes fabric.conf and in1.pcap, in2.pcap ..; how many bytes the captures have."""
    folder.mkdir(parents=True, exist_ok=True)
    (folder / "fabric.conf").write_text(load.configuration(), encoding="ascii")
    outs: list[BinaryIO] = [open(folder / f"in{port}.pcap", "wb") for port in range(1, load.size.ports + 1)]  # pylint: disable=consider-using-with
    try:
        for out in outs:
            out.write(HEAD)
        for it in load.frames():
            length = len(it.frame)
            outs[it.port].write(struct.pack("<IIII", it.moment // 1000, it.moment % 1000 * 1000, length, length) + it.frame)
        return sum(out.tell() for out in outs)
    finally:
        for out in outs:
            out.close()
