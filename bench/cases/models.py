"""Models of `snoop` and `enode`, to compare the programs with: written from the standards and from what is asked of the two commands, and not
from the code or its definitions. A bridge keeps its whole history here and looks back in it, as its rules are said; it is slow on purpose."""
import struct
import zlib
from dataclasses import dataclass, field
from typing import Any, Iterable, Optional

import wire
from captures import Fault, Forwarder, Record, capture_of, records_of
from wire import descriptor

ALL_ENODES = bytes.fromhex("011018010001")
ALL_FCFS = bytes.fromhex("011018010002")
FIP, FCOE = 0x8914, 0x8906
MOST_SPAN = 21_600_000

Way = tuple[Any, ...]  # ("up",), ("down", port), ("all",) or ("dropped", rule)

# ---- frames


@dataclass
class Eth:
    dst: bytes
    src: bytes
    vlan: int  # 0 without a tag
    kind: int
    body: bytes


def read_eth(data: bytes) -> Optional[Eth]:
    """The Ethernet frame, with one tag at most; None where it is too short."""
    if len(data) < 14 or data[12:14] == b"\x81\x00" and len(data) < 18:
        return None
    at, vlan = 12, 0
    if data[12:14] == b"\x81\x00":
        at, vlan = 16, int.from_bytes(data[14:16], "big") % 4096
    return Eth(data[:6], data[6:12], vlan, int.from_bytes(data[at : at + 2], "big"), data[at + 2 :])


# A message's name, the descriptors that it must have, those that it may have once, and the one that may be repeated.
LOGINS = (7, 8, 9)
MESSAGES: dict[tuple[int, int], tuple[str, tuple[Any, ...], tuple[int, ...], int]] = {
    (1, 1): ("solicit", (2, 4, 6), (), 0),
    (1, 2): ("advertise", (1, 2, 4, 5, 12), (), 0),
    (2, 1): ("login", (LOGINS, 2), (), 0),
    (2, 2): ("reply", (LOGINS,), (2,), 0),
    (3, 1): ("keep", (2,), (11,), 0),
    (3, 2): ("clear", (2, 4), (), 11),
    (4, 1): ("vlan-ask", (2,), (4,), 0),
    (4, 2): ("vlan-tell", (2,), (), 14),
}
WORDS: dict[int, Optional[int]] = {1: 1, 2: 2, 4: 3, 5: 4, 6: 1, 7: None, 8: None, 9: None, 11: 5, 12: 2, 14: 1}  # None: at least 7


@dataclass
class VxPort:
    mac: bytes
    address: int
    name: bytes


def vx_port(data: bytes) -> VxPort:
    return VxPort(data[2:8], int.from_bytes(data[9:12], "big"), data[12:20])


@dataclass
class Message:
    """A FIP message: its name, flags, and its descriptors by type, those that repeat as a list."""

    name: str
    flags: int
    once: dict[int, bytes] = field(default_factory=dict)
    many: list[bytes] = field(default_factory=list)

    def has(self, flag: str) -> bool:
        return bool(self.flags & {"FP": 0x8000, "SP": 0x4000, "A": 4, "S": 2, "F": 1}[flag])

    @property
    def mac(self) -> Optional[bytes]:
        return self.once[2][2:8] if 2 in self.once else None

    @property
    def login(self) -> tuple[int, bytes]:
        """The type of the login's descriptor, and the FC frame in it."""
        return next((kind, self.once[kind][4:]) for kind in LOGINS if kind in self.once)

    @property
    def port(self) -> Optional[VxPort]:
        return vx_port(self.once[11]) if 11 in self.once else None


def read_fip(body: bytes) -> Optional[Message]:
    """The message, or None where it has a fault."""
    if len(body) < 10 or body[0] >> 4 != 1:
        return None
    row = MESSAGES.get((int.from_bytes(body[2:4], "big"), body[5]))
    end = 10 + 4 * int.from_bytes(body[6:8], "big")
    if row is None or end > len(body):
        return None
    name, needed, optional, repeated = row
    said, at = Message(name, int.from_bytes(body[8:10], "big")), 10
    single = {kind for it in (*needed, *optional) for kind in (it if isinstance(it, tuple) else (it,))}
    while at < end:
        kind, words = body[at], body[at + 1]
        data = body[at : at + 4 * words]
        if words == 0 or at + 4 * words > end:
            return None
        at += 4 * words
        if kind >= 128:
            continue
        if kind not in WORDS or (words < 7 if WORDS[kind] is None else words != WORDS[kind]):
            return None
        if kind in single:
            if kind in said.once or kind in LOGINS and any(it in said.once for it in LOGINS):
                return None
            said.once[kind] = data
        elif kind == repeated:
            said.many.append(data)
    for it in needed:
        if not any(kind in said.once for kind in (it if isinstance(it, tuple) else (it,))):
            return None
    return said


@dataclass
class Fc:
    r_ctl: int
    d_id: int
    s_id: int
    kind: int
    ox_id: int
    payload: bytes


def read_fc(data: bytes) -> Optional[Fc]:
    """The FC frame, or None where it has a fault."""
    if len(data) < 24 or len(data) % 4 or len(data) > 24 + 2112:
        return None
    return Fc(data[0], int.from_bytes(data[1:4], "big"), int.from_bytes(data[5:8], "big"), data[8], int.from_bytes(data[16:18], "big"), data[24:])


def read_fcoe(body: bytes) -> Optional[Fc]:
    """The FC frame of a FCoE body, or None where it has a fault."""
    if not 46 <= len(body) <= 2158 or (len(body) - 46) % 4 or body[0] >> 4:
        return None
    if body[13] not in (0x2E, 0x36, 0x2D, 0x35, 0x28) or body[-4] not in (0x41, 0x42, 0x49, 0x50):
        return None
    if struct.pack("<I", zlib.crc32(body[14:-8])) != body[-8:-4]:
        return None
    return read_fc(body[14:-8])


def accepted(data: bytes) -> tuple[str, int]:
    """What the FC frame of a reply accepts, "login" or "other", and its D_ID, or "" and 0; a login's accept has 116 bytes of payload at least."""
    frame = read_fc(data)
    if frame is None or len(frame.payload) < 4 or frame.payload[0] != 2:
        return "", 0
    return ("login" if len(frame.payload) >= 116 else "other"), frame.d_id


# ---- the bridge


@dataclass
class Handled:
    port: int
    eth: Eth
    message: Message
    way: Way


@dataclass
class Binding:
    port: int
    enode: bytes
    address: int


class Bridge:
    """A FIP snooping bridge."""

    def __init__(self, forwarder: Forwarder) -> None:
        self.forwarder = forwarder
        self.history: list[Handled] = []
        self.granted: list[bytes] = []

    def home(self, mac: bytes) -> Optional[int]:
        for it in reversed(self.history):
            if it.way == ("up",) and it.eth.src == mac and not is_port_alive(it.message):
                return it.port
        return None

    def grant(self, it: Handled) -> Optional[tuple[bytes, int, bool]]:
        """The MAC and the address that an entry grants, and whether by an answer to a FLOGI."""
        if it.message.name != "reply" or it.message.mac is None:
            return None
        kind, frame = it.message.login
        what, address = accepted(frame)
        if kind not in (7, 8) or what != "login" or it.message.mac != self.forwarder.fc_map + address.to_bytes(3, "big"):
            return None
        return it.message.mac, address, kind == 7

    def ends(self, it: Handled, mac: bytes, binding: Binding) -> bool:
        if it.way[0] != "down" or it.eth.dst != binding.enode:
            return False
        if it.message.name == "clear":
            return not it.message.many or any(vx_port(data).mac == mac for data in it.message.many)
        if it.message.name != "reply":
            return False
        kind, frame = it.message.login
        if kind == 9:
            return accepted(frame) == ("other", binding.address)
        found = self.grant(it)
        return found is not None and found[2]

    def bound(self, mac: bytes) -> Optional[Binding]:
        for place in range(len(self.history) - 1, -1, -1):
            it = self.history[place]
            found = self.grant(it) if it.way[0] == "down" else None
            if found and found[0] == mac:
                binding = Binding(it.way[1], it.eth.dst, found[1])
                return None if any(self.ends(after, mac, binding) for after in self.history[place + 1 :]) else binding
        return None

    def bindings(self) -> dict[bytes, Binding]:
        return {mac: found for mac in self.granted if (found := self.bound(mac))}

    def moved(self, enode: bytes, port: int) -> bool:
        return any(it.enode == enode and it.port != port for it in self.bindings().values())

    def way(self, port: int, caught: Record) -> tuple[Way, Optional[Eth], Optional[Message]]:
        """The way of a frame, with its Ethernet frame and its message where they can be read."""
        eth = read_eth(caught.data) if caught.whole else None
        if not caught.whole:
            return ("dropped", "truncated"), None, None
        if eth is None:
            return ("dropped", "eth-short"), None, None
        if eth.kind not in (FIP, FCOE):
            return ("dropped", "ethertype"), eth, None
        message = read_fip(eth.body) if eth.kind == FIP else None
        frame = read_fcoe(eth.body) if eth.kind == FCOE else None
        if eth.kind == FIP and message is None:
            return ("dropped", "fip-fault"), eth, None
        if eth.kind == FCOE and frame is None:
            return ("dropped", "fcoe-fault"), eth, None
        untagged = message is not None and message.name in ("vlan-ask", "vlan-tell") and eth.vlan == 0
        if eth.vlan != self.forwarder.vlan and not untagged:
            return ("dropped", "vlan"), eth, message
        way = self.down(eth, message, frame) if port == 1 else self.up(port, eth, message, frame)
        return way, eth, message

    def up(self, port: int, eth: Eth, message: Optional[Message], frame: Optional[Fc]) -> Way:
        if message and is_of_forwarder(message):
            return "dropped", "role"
        if eth.dst != self.forwarder.mac and not (message and eth.dst == ALL_FCFS):
            return "dropped", "dest"
        if message and not is_port_alive(message):
            return ("dropped", "moved") if self.moved(eth.src, port) else ("up",)
        binding = self.bound(eth.src)
        if binding is None or binding.port != port:
            return "dropped", "unbound"
        if frame:
            is_own = frame.s_id == binding.address
        else:
            vx = message.port if message else None
            is_own = vx is not None and vx.address == binding.address and vx.mac == eth.src
        return ("up",) if is_own else ("dropped", "source")

    def down(self, eth: Eth, message: Optional[Message], frame: Optional[Fc]) -> Way:
        if eth.src != self.forwarder.mac:
            return "dropped", "not-fcf"
        if message:
            if message.name in ("login", "keep", "vlan-ask") or message.name == "solicit" and not message.has("F"):
                return "dropped", "role"
            if eth.dst == ALL_ENODES:
                return ("all",)
            home = self.home(eth.dst)
            return ("dropped", "no-home") if home is None else ("down", home)
        binding = self.bound(eth.dst)
        if binding is None:
            return "dropped", "unbound"
        return ("down", binding.port) if frame and frame.d_id == binding.address else ("dropped", "address")

    def frame(self, port: int, caught: Record) -> Way:
        way, eth, message = self.way(port, caught)
        if eth is not None and message is not None and way[0] != "dropped":  # no rule looks back at data or at what was dropped
            entry = Handled(port, eth, message, way)
            self.history.append(entry)
            found = self.grant(entry) if way[0] == "down" else None
            if found and found[0] not in self.granted:
                self.granted.append(found[0])
        return way


def is_port_alive(message: Message) -> bool:
    return message.name == "keep" and message.port is not None


def is_of_forwarder(message: Message) -> bool:
    return message.name in ("advertise", "reply", "clear", "vlan-tell") or message.name == "solicit" and message.has("F")


def ports_of(way: Way, count: int) -> list[int]:
    """The ports to which a way leads, of so many."""
    return {"up": [1], "down": list(way[1:]), "all": list(range(2, count + 1)), "dropped": []}[way[0]]


def arrivals(captures: Iterable[list[Record]]) -> list[tuple[int, int, Record]]:
    """The frames of the captures of ports 1, 2 .. as (port, index, record), by moment, then port, then index."""
    frames = [(port, index, it) for port, records in enumerate(captures, 1) for index, it in enumerate(records)]
    return sorted(frames, key=lambda it: (it[2].moment, it[0], it[1]))


def snoop(forwarder: Forwarder, files: list[bytes]) -> tuple[str, list[bytes]]:
    """What `snoop` makes of the captures' bytes: its line and its outputs. A Fault where it ends otherwise."""
    frames = arrivals([records_of(file, port) for port, file in enumerate(files, 1)])
    if frames and frames[-1][2].moment - frames[0][2].moment > MOST_SPAN:
        raise Fault(6, f"limit span {MOST_SPAN}")
    bridge, passed = Bridge(forwarder), 0
    outs: list[list[tuple[int, bytes]]] = [[] for _ in files]
    for port, _, caught in frames:
        way = bridge.frame(port, caught)
        passed += way[0] != "dropped"
        for to in ports_of(way, len(files)):
            outs[to - 1].append((caught.moment, caught.data))
    return f"passed {passed} dropped {len(frames) - passed}", [capture_of(out) for out in outs]


# ---- the node


def ethernet(dst: bytes, src: bytes, vlan: Optional[int], body: bytes) -> bytes:
    """A frame of FIP; a VLAN of None leaves the tag out."""
    return wire.ethernet(dst, src, FIP, body, vlan, priority=0)


def fip(operation: int, subcode: int, flags: int, *descriptors: bytes) -> bytes:
    return wire.fip((operation, subcode), flags, descriptors)


@dataclass
class Node:
    start: int
    mac: bytes
    name: bytes
    node: bytes
    phase: str = "asking"
    due: int = 0  # but while it is up
    vlan: int = 0
    ox_id: int = 0
    kept: bytes = b""
    fc_map: bytes = b""
    period: int = 0
    address: int = 0
    node_due: int = 0
    port_due: int = 0
    heard: int = 0

    def __post_init__(self) -> None:
        self.sent: list[tuple[int, bytes]] = []
        self.ask(self.start)

    # what it sends

    def send(self, now: int, frame: bytes) -> None:
        self.sent.append((now, frame))

    def ask(self, now: int) -> None:
        self.send(now, ethernet(ALL_FCFS, self.mac, None, fip(4, 1, 0, descriptor(2, self.mac))))
        self.phase, self.due = "asking", now + 1000

    def look(self, now: int) -> None:
        body = fip(1, 1, 0x8000, descriptor(2, self.mac), descriptor(4, b"\0\0" + self.node), descriptor(6, struct.pack(">H", 2158)))
        self.send(now, ethernet(ALL_FCFS, self.mac, self.vlan, body))
        self.phase, self.due = "looking", now + 1000

    def log_in(self, now: int) -> None:
        self.ox_id = 1 if self.ox_id == 65534 else self.ox_id + 1
        head = bytes.fromhex("22fffffe 00000000 01290000 00000000") + struct.pack(">H", self.ox_id) + bytes.fromhex("ffff 00000000")
        load = bytes.fromhex("04000000 20200000 80000840 00000000 00000000") + self.name + self.node
        load += bytes(32) + b"\x80" + bytes(15) + bytes(32)
        body = fip(2, 1, 0x8000, descriptor(7, b"\0\0" + head + load), descriptor(2, bytes(6)))
        self.send(now, ethernet(self.kept, self.mac, self.vlan, body))
        self.phase, self.due = "logging", now + 2000

    def keep_node(self, now: int) -> None:
        self.send(now, ethernet(self.kept, self.mac, self.vlan, fip(3, 1, 0, descriptor(2, self.mac))))
        self.node_due = now + self.period

    def keep_port(self, now: int) -> None:
        port = descriptor(11, self.granted + b"\0" + self.address.to_bytes(3, "big") + self.name)
        self.send(now, ethernet(self.kept, self.granted, self.vlan, fip(3, 1, 0, descriptor(2, self.mac), port)))
        self.port_due = now + 90_000

    # what it is given

    @property
    def granted(self) -> bytes:
        return self.fc_map + self.address.to_bytes(3, "big")

    @property
    def silent(self) -> int:
        """The least moment m with 2 * (m - heard) > 5 * period."""
        return self.heard + 5 * self.period // 2 + 1

    def next_due(self) -> int:
        return min(self.node_due, self.port_due, self.silent) if self.phase == "up" else self.due

    def timer(self) -> None:
        now = self.next_due()
        if self.phase == "asking":
            self.ask(now)
        elif self.phase == "looking":
            self.look(now)
        elif self.phase == "logging":
            self.log_in(now)
        elif now == self.silent:
            self.look(now)
        else:
            if now == self.node_due:
                self.keep_node(now)
            if now == self.port_due:
                self.keep_port(now)

    def frame(self, now: int, caught: Record) -> None:
        eth = read_eth(caught.data) if caught.whole else None
        if eth is None or eth.kind != FIP or eth.dst not in (self.mac, ALL_ENODES):
            return
        message = read_fip(eth.body)
        if message is not None:
            {"asking": self.told, "looking": self.found, "logging": self.answered, "up": self.kept_up}[self.phase](now, eth, message)

    def told(self, now: int, eth: Eth, message: Message) -> None:
        if message.name != "vlan-tell" or eth.dst != self.mac or eth.vlan:
            return
        numbers = [int.from_bytes(data[2:4], "big") % 4096 for data in message.many]
        numbers = [it for it in numbers if 1 <= it <= 4094]
        if numbers:
            self.vlan = numbers[0]
            self.look(now)

    def found(self, now: int, eth: Eth, message: Message) -> None:
        if message.name != "advertise" or eth.dst != self.mac or eth.vlan != self.vlan or eth.src != message.mac:
            return
        quiet, period = message.once[12][3] & 1, int.from_bytes(message.once[12][4:8], "big")
        if all(message.has(flag) for flag in ("A", "S", "F", "FP")) and not quiet and 250 <= period <= 90_000:
            self.kept, self.fc_map, self.period = eth.src, message.once[5][5:8], period
            self.log_in(now)

    def answered(self, now: int, eth: Eth, message: Message) -> None:
        if message.name != "reply" or eth.dst != self.mac or eth.vlan != self.vlan or eth.src != self.kept or message.mac is None:
            return
        kind, data = message.login
        frame, (what, address) = read_fc(data), accepted(data)
        if frame is None or kind != 7 or what != "login" or (frame.r_ctl, frame.kind, frame.ox_id) != (0x23, 0x01, self.ox_id):
            return
        if 1 <= address <= 0xFEFFFF and message.mac == self.fc_map + address.to_bytes(3, "big"):
            self.phase, self.address = "up", address
            self.node_due, self.port_due, self.heard = now + self.period, now + 90_000, now

    def kept_up(self, now: int, eth: Eth, message: Message) -> None:
        if eth.vlan != self.vlan or eth.src != self.kept:
            return
        if message.name == "advertise":
            self.heard = now
        elif message.name == "clear" and eth.dst == self.mac:
            mine = VxPort(self.granted, self.address, self.name)
            if not message.many or any(vx_port(data) == mine for data in message.many):
                self.look(now)

    def until(self, now: int) -> None:
        """The timers whose moment isn't above this one."""
        while self.next_due() <= now:
            self.timer()

    @property
    def line(self) -> str:
        return f"up {self.address:06x} {self.granted.hex()}" if self.phase == "up" else self.phase


def enode(start: int, mac: bytes, name: bytes, node: bytes, file: bytes) -> tuple[str, bytes]:
    """What `enode` makes of a capture's bytes: its line and its output. A Fault where it ends otherwise."""
    records = records_of(file)
    if records and records[-1].moment > start + MOST_SPAN:
        raise Fault(6, f"limit span {MOST_SPAN}")
    machine = Node(start, mac, name, node)
    for it in records:
        if it.moment >= start:
            machine.until(it.moment)
            machine.frame(it.moment, it)
    return machine.line, capture_of(machine.sent)
