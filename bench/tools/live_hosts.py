"""Network namespaces with hosts for bench/tools/test_live.py: a host speaks as the Linux initiator of the demo did, with a MAC and names of its own."""
import contextlib
import ctypes
import os
import pathlib
import select
import struct
import subprocess
import threading
import time
from dataclasses import dataclass, field
from typing import Callable, Iterator, Optional

from machine import TOP

from fcoe.frames.captures import classic
from fcoe.frames.heard import CONTROLLER, NAME_SERVER, Heard, fc_check, granted_in, hear
from fcoe.live.wires import Wire

PREFIX = "wegcapho"
FABRIC = f"{PREFIX}-{os.getpid()}-f"
OWN = FABRIC[:-1]  # what the names of this process's namespaces begin with
LINUX_MAC, LINUX_FPMA, LINUX_ADDRESS = bytes.fromhex("001b2100000a"), bytes.fromhex("0efc00010101"), bytes.fromhex("00010101")
FCF = bytes.fromhex("00051e000002")
PATIENCE = 30.0  # seconds that an answer may take on a free machine
KEEP_ALIVE = 4.0  # seconds
CLONE_NEWNET = 0x40000000
FITS = Callable[[Heard], bool]


class Failed(AssertionError):
    """What a test found otherwise than its sentence says."""


def wanted(what: str, holds: object) -> None:
    if not holds:
        raise Failed(what)


def scaled(seconds: float) -> float:
    """So many seconds, and more of them where the machine is busy with other work."""
    return seconds * max(1.0, os.getloadavg()[0] / (os.cpu_count() or 1))


def ip(*words: str) -> None:
    """Calls `ip`; what it says is part of the failure."""
    ran = subprocess.run(["ip", *words], capture_output=True, text=True, check=False)
    wanted(f"ip {' '.join(words)}: {ran.stderr.strip()}", ran.returncode == 0)


def namespace_of(number: int) -> str:
    return f"{OWN}{number}"


def remove_stale() -> None:
    """Removes the namespaces of processes that were killed."""
    for path in pathlib.Path("/run/netns").glob(f"{PREFIX}-*-*"):
        if not pathlib.Path(f"/proc/{path.name.split('-')[1]}").exists():
            subprocess.run(["ip", "netns", "del", path.name], capture_output=True, check=False)


@contextlib.contextmanager
def inside(namespace: str) -> Iterator[None]:
    """What is opened meanwhile is of a network namespace."""
    libc = ctypes.CDLL(None, use_errno=True)
    with open("/proc/self/ns/net", "rb") as own, open(f"/run/netns/{namespace}", "rb") as other:
        wanted(f"setns: {os.strerror(ctypes.get_errno())}", libc.setns(other.fileno(), CLONE_NEWNET) == 0)
        try:
            yield
        finally:
            libc.setns(own.fileno(), CLONE_NEWNET)


def quiet(namespace: str, name: str) -> None:
    """The system sends nothing of its own there."""
    words = ["ip", "netns", "exec", namespace, "sysctl", "-qw", f"net.ipv6.conf.{name}.disable_ipv6=1"]
    subprocess.run(words, check=True, capture_output=True)


@contextlib.contextmanager
def wires(count: int) -> Iterator[list[str]]:
    """A namespace for the forwarder with port1, port2 .., and one for each host with eth0 at the other end; all are taken away again."""
    names = [FABRIC, *map(namespace_of, range(1, count + 1))]
    remove_stale()
    try:
        for name in names:
            ip("netns", "add", name)
        for number in range(1, count + 1):
            host, port = namespace_of(number), f"port{number}"
            ip("-n", FABRIC, "link", "add", port, "mtu", "2500", "type", "veth", "peer", "name", "eth0", "mtu", "2500", "netns", host)
            quiet(FABRIC, port)
            quiet(host, "eth0")
            ip("-n", FABRIC, "link", "set", port, "up")
            ip("-n", host, "link", "set", "eth0", "up")
        yield [f"port{number}" for number in range(1, count + 1)]
    finally:
        for name in names:
            subprocess.run(["ip", "netns", "del", name], capture_output=True, check=False)


# ---- what a host says


def spoken() -> dict[tuple[str, Optional[int]], bytes]:
    """The last frame of each kind and destination that the demo's initiator sent."""
    found: dict[tuple[str, Optional[int]], bytes] = {}
    for it in classic(str(TOP / "demo/initiator.pcap")).records:
        heard = hear(it.data)
        found[heard.kind, heard.fc.d_id if heard.fc else None] = it.data
    return found


SPOKEN = spoken()


def checked(frame: bytes) -> bytes:
    """A frame with the check sequence that its FC frame has."""
    heard = hear(frame)
    if not heard.is_fcoe or heard.fc is None:
        return frame
    return frame[: heard.fc.end] + fc_check(frame[heard.fc.at : heard.fc.end]) + frame[heard.fc.end + 4 :]


@dataclass
class NPort:
    """A login: its address and its granted MAC."""

    address: int
    mac: bytes
    name: bytes


@dataclass
class Host:
    """A host in a namespace, with what it sent and what came to it."""

    number: int
    sent: list[bytes] = field(default_factory=list)
    came: list[bytes] = field(default_factory=list)
    notices: list[int] = field(default_factory=list)  # addresses that RSCNs named
    ports: list[NPort] = field(default_factory=list)
    records: bool = True  # whether `sent` and `came` are kept
    mac: bytes = b""  # with it the host is in this process's own namespace

    def __post_init__(self) -> None:
        with contextlib.nullcontext() if self.mac else inside(namespace_of(self.number)):
            self.wire = Wire("eth0")
        self.turn = threading.Lock()  # of a frame that is sent
        self.mac = self.mac or bytes([2, 0, 0, 0, 0x10, self.number])

    def close(self) -> None:
        self.wire.close()

    # ---- frames

    def send(self, frame: bytes) -> None:
        with self.turn:
            self.wire.send(frame)
            if self.records:
                self.sent.append(frame)

    def say(self, kind: str, to: Optional[int] = None, port: Optional[NPort] = None, name: bytes = b"") -> None:
        """Sends what Linux said of a kind, with this host's MAC, names and address."""
        frame = SPOKEN[kind, to].replace(LINUX_MAC, self.mac)
        if name:
            frame = frame.replace(b"\x21\x01" + self.mac, name)
        if port is not None:
            frame = frame.replace(LINUX_FPMA, port.mac).replace(LINUX_ADDRESS, b"\0" + port.address.to_bytes(3, "big"))
            frame = frame.replace(b"\x20\0" + self.mac, port.name)
        self.send(checked(frame))

    def next(self, seconds: float) -> Optional[Heard]:
        """The next frame that comes; an RSCN is noted and accepted."""
        if not select.select([self.wire], [], [], max(0.0, seconds))[0]:
            return None
        frame = self.wire.receive().frame
        if self.records:
            self.came.append(frame)
        heard = hear(frame)
        if heard.kind == "RSCN" and heard.fc is not None:
            self.notices.append(int.from_bytes(heard.fc.payload[5:8], "big"))
            self.accept(heard)
        return heard

    def accept(self, heard: Heard) -> None:
        """The LS_ACC to an RSCN, as Linux sends it."""
        port = next((it for it in self.ports if heard.fc and it.address == heard.fc.d_id), None)
        if port is None or heard.fc is None:
            return
        frame = bytearray(SPOKEN["LS_ACC", CONTROLLER])
        frame[6:12] = port.mac
        own = hear(bytes(frame)).fc
        assert own is not None
        frame[own.at + 5 : own.at + 8] = port.address.to_bytes(3, "big")
        frame[own.at + 16 : own.at + 20] = heard.data[heard.fc.at + 16 : heard.fc.at + 20]
        self.send(checked(bytes(frame)))

    def wait(self, what: str, fits: FITS) -> Heard:
        """The next frame that fits; others go by."""
        patience = scaled(PATIENCE)
        end = time.monotonic() + patience
        while (left := end - time.monotonic()) > 0:
            heard = self.next(left)
            if heard is not None and fits(heard):
                return heard
        raise Failed(f"host {self.number}: no {what} within {patience:.0f} s")

    def drain(self, seconds: float = 0.3) -> None:
        """Takes what comes until nothing more does."""
        while self.next(seconds) is not None:
            pass

    # ---- what a host does

    def find(self) -> None:
        """Asks for the VLAN, and solicits an advertisement."""
        self.say("VLAN request")
        vlan = self.wait("VLAN notification", lambda it: it.kind == "VLAN notification")
        tag = vlan.descriptor(14)
        wanted("the notification names VLAN 100", tag is not None and tag.data[2:4] == b"\0\x64")
        self.say("Solicitation")
        self.wait("advertisement", lambda it: it.kind == "Advertisement" and it.destination == self.mac)

    def log_in(self, kind: str = "FLOGI", name: bytes = b"") -> NPort:
        """FLOGI, or FDISC with a port name."""
        self.say(kind, 0xFFFFFE, name=name)
        heard = self.wait(f"accept of the {kind}", lambda it: it.kind == f"{kind} accept")
        address, mac = granted_in(heard), heard.descriptor(2)
        wanted(f"the accept of the {kind} has an address and a MAC", address is not None and mac is not None)
        assert address is not None and mac is not None
        self.ports.append(NPort(address, mac.data[2:8], name or b"\x20\0" + self.mac))
        return self.ports[-1]

    def enter(self, port: NPort) -> None:
        """Logs in at the name server, registers, and asks to be told of changes."""
        self.say("PLOGI", NAME_SERVER, port)
        self.wait("accept of the PLOGI", lambda it: it.kind == "LS_ACC" and it.fc is not None and it.fc.s_id == NAME_SERVER)
        for kind in ("RFT_ID", "RFF_ID"):
            self.say(kind, NAME_SERVER, port)
            self.wait(f"accept of the {kind}", lambda it: it.kind == "CT accept")
        self.say("SCR", CONTROLLER, port)
        self.wait("accept of the SCR", lambda it: it.kind == "LS_ACC" and it.fc is not None and it.fc.s_id == CONTROLLER)

    def others(self, port: NPort) -> dict[int, bytes]:
        """What the name server says of N_Ports with FCP: port names by address (GPN_FT)."""
        self.say("GPN_FT", NAME_SERVER, port)
        heard = self.wait("answer to the GPN_FT", lambda it: it.kind == "CT accept")
        assert heard.fc is not None
        rows, found = heard.fc.payload[16:], {}
        for at in range(0, len(rows) - 15, 16):
            found[int.from_bytes(rows[at + 1 : at + 4], "big")] = rows[at + 8 : at + 16]
            if rows[at] & 0x80:
                break
        return found

    def start(self) -> NPort:
        """All that a host does before its first command."""
        self.find()
        port = self.log_in()
        self.enter(port)
        return port

    def keep_alive(self) -> None:
        self.say("Keep alive")

    def data_frame(self, port: NPort, to: int, exchange: int, payload: bytes) -> bytes:
        """A data frame of FCP, unsolicited."""
        head = bytes([0x01]) + to.to_bytes(3, "big") + b"\0" + port.address.to_bytes(3, "big") + bytes([0x08, 0x29, 0, 0]) + bytes(4)
        fc = head + struct.pack(">HHI", exchange, 0xFFFF, 0) + payload
        return FCF + port.mac + bytes.fromhex("810000648906") + bytes(13) + b"\x2e" + fc + fc_check(fc) + b"\x42\0\0\0"

    def echo(self, port: NPort, seconds: float) -> int:
        """Sends each data frame back to its sender, and keeps itself alive; how many came."""
        count, end, alive = 0, time.monotonic() + seconds, time.monotonic()
        while (now := time.monotonic()) < end:
            if now - alive > KEEP_ALIVE:
                self.keep_alive()
                alive = now
            heard = self.next(min(1.0, end - now))
            if heard is not None and heard.destination == port.mac and heard.fc is not None and heard.fc.kind == 0x08:
                self.hand(port, heard.fc.s_id, heard.fc.ox_id, heard.fc.payload)
                count += 1
        return count

    def hand(self, port: NPort, to: int, exchange: int, payload: bytes) -> None:
        self.send(self.data_frame(port, to, exchange, payload))

    def data(self, port: NPort, exchange: int) -> bytes:
        """The payload of a data frame to this login."""
        heard = self.wait(f"data frame {exchange}", lambda it: it.destination == port.mac and it.fc is not None and it.fc.kind == 0x08 and it.fc.ox_id == exchange)
        assert heard.fc is not None
        wanted("a data frame has the right check sequence", fc_check(heard.data[heard.fc.at : heard.fc.end]) == heard.data[heard.fc.end : heard.fc.end + 4])
        return heard.fc.payload

    def log_out(self, port: NPort) -> None:
        self.say("LOGO", 0xFFFFFE, port)
        self.ports.remove(port)


@contextlib.contextmanager
def kept_alive(hosts: list[Host]) -> Iterator[None]:
    """Keep alives of these hosts go out each second meanwhile."""
    ended = threading.Event()

    def beat() -> None:
        while not ended.wait(1):
            for host in hosts:
                host.keep_alive()

    beating = threading.Thread(target=beat, daemon=True)
    beating.start()
    try:
        yield
    finally:
        ended.set()
        beating.join()
