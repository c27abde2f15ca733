"""The stage of a scene: a session of `live` whose first port is the host's wire, which can be bent, and whose second is the peer's."""
import heapq
import random
import socket
import struct
import time
from collections import Counter
from dataclasses import dataclass, field
from typing import Callable, Optional

from ..frames.captures import HEAD
from ..frames.heard import Heard, colons, hear
from ..host.enode import ENode, Manner
from ..host.speech import Names
from ..live.feeding import Options, Session
from ..live.sessions import Folder
from ..live.wires import Arrived, Wire
from .changes import from_mac
from .script import Astray, Bend, OtherMac, Setup, World, changed

TURN = 0.05  # seconds of silence before a mark, which is also how exactly frames are late
PEER = Names(bytes.fromhex("020000002002"), bytes.fromhex("2000020000002002"), bytes.fromhex("1000020000002002"))
WIRE = "wire.pcap"


@dataclass(frozen=True)
class Event:
    """A frame on the host's wire."""

    moment: float  # seconds since the scene began
    from_host: bool
    heard: Heard


@dataclass
class Active:
    """A bend that is on, and how many frames it has met."""

    bend: Bend
    met: int = 0

    @property
    def is_over(self) -> bool:
        return self.bend.most is not None and self.met >= self.bend.most


@dataclass
class Bending:
    """How the host's wire is bent now."""

    world: World
    seed: str
    active: list[Active] = field(default_factory=list)
    counted: int = 0  # frames that were bent
    rolled: Counter[tuple[str, bool]] = field(default_factory=Counter)

    def begin(self, bend: Bend) -> None:
        self.active.append(Active(bend))
        if isinstance(bend, OtherMac):
            self.world.shown = bend.mac

    def straighten(self) -> None:
        self.active.clear()
        self.world.shown = self.world.forwarder

    def bent(self, frame: bytes, from_host: bool) -> list[tuple[float, bytes]]:
        """What becomes of a frame: the bends go over it one behind the other."""
        found = [(0.0, frame)]
        for it in list(self.active):
            if it.bend.from_host == from_host and not isinstance(it.bend, (Astray, OtherMac)):
                found = [(late + more, piece) for late, was in found for more, piece in self.by(it, was)]
        if from_host and self.world.shown != self.world.forwarder and frame[:6] == self.world.forwarder:
            found = []  # nobody has that MAC now
        self.counted += found != [(0.0, frame)]
        return [(late, self.masked(piece, from_host)) for late, piece in found]

    def by(self, active: Active, frame: bytes) -> list[tuple[float, bytes]]:
        if active.is_over or not active.bend.like.fits(hear(frame), self.world):
            return [(0.0, frame)]
        active.met += 1
        return active.bend.bent(frame, self.roll(hear(frame).kind, active.bend.from_host))

    def roll(self, kind: str, from_host: bool) -> float:
        """A number of the seed for the Nth frame of a kind, so that a run doesn't hang on what else is sent between."""
        self.rolled[kind, from_host] += 1
        return random.Random(f"{self.seed} {kind} {from_host} {self.rolled[kind, from_host]}").random()

    def masked(self, frame: bytes, from_host: bool) -> bytes:
        """The forwarder's MAC as the wire has it."""
        own, shown = self.world.forwarder, self.world.shown
        if own == shown:
            return frame
        if from_host:
            return changed(frame, 0, own) if frame[:6] == shown else frame
        return from_mac(shown)(frame) if frame[6:12] == own else frame

    def astray(self, frame: bytes) -> Optional[bytes]:
        """A frame to the peer as it arrives at the host too, if it does."""
        heard = hear(frame)
        for it in self.active:
            if isinstance(it.bend, Astray) and it.bend.like.fits(heard, self.world):
                self.counted += 1
                return changed(frame, 0, self.world.mac) if heard.is_fip else frame
        return None


class HostWire(Wire):
    """The host's wire, with what was on it kept in a capture."""

    def __init__(self, name: str, folder: Folder, bending: Bending, note: Callable[[bool, Heard], None]) -> None:
        super().__init__(name)
        self.bending, self.note = bending, note
        self.path = str(folder.path / WIRE)
        self.kept: list[tuple[int, bytes]] = []
        self.late: list[tuple[float, int, bytes]] = []
        self.again: list[Arrived] = []
        self.heard_too: Callable[[bytes], None] = lambda _: None  # by a second forwarder
        self.count = 0

    def keep(self, frame: bytes, moment: int) -> None:
        self.kept.append((moment, frame))

    def receive(self) -> Arrived:
        """The next frame of the host that isn't lost."""
        while not self.again:
            came = super().receive()
            self.keep(came.frame, came.moment)
            self.note(True, hear(came.frame))
            self.again = [Arrived(it, len(it), came.moment) for _, it in self.bending.bent(came.frame, True)]
            for it in self.again:
                self.heard_too(it.frame)
        return self.again.pop(0)

    def send(self, frame: bytes) -> None:
        for seconds, piece in self.bending.bent(frame, False):
            if seconds:
                self.count += 1
                heapq.heappush(self.late, (time.monotonic() + seconds, self.count, piece))
            else:
                self.hand(piece)

    def hand(self, frame: bytes) -> None:
        """Sends a frame to the host now."""
        self.keep(frame, time.time_ns())
        super().send(frame)
        self.note(False, hear(frame))

    def push(self) -> None:
        """Sends what was late until now."""
        while self.late and self.late[0][0] <= time.monotonic():
            self.hand(heapq.heappop(self.late)[2])

    def close(self) -> None:
        """Writes the capture by its moments: those of the host's frames are the kernel's, before they were taken."""
        with open(self.path, "wb") as file:
            file.write(HEAD)
            for moment, frame in sorted(self.kept, key=lambda it: it[0]):
                file.write(struct.pack("<IIII", moment // 1_000_000_000, moment % 1_000_000_000, len(frame), len(frame)) + frame)
        super().close()


class PeerWire(Wire):
    """The wire of the peer, a host within this process: two ends of a socket."""

    def __init__(self, bending: Bending, host_wire: HostWire) -> None:  # pylint: disable=super-init-not-called
        self.socket, self.other = socket.socketpair(socket.AF_UNIX, socket.SOCK_DGRAM)
        self.socket.setblocking(False)
        self.peer: Optional[ENode] = None
        self.bending, self.host_wire = bending, host_wire

    def receive(self) -> Arrived:
        frame = self.socket.recv(65535)
        return Arrived(frame, len(frame), time.time_ns())

    def say(self, frame: bytes) -> None:
        self.other.send(frame)

    def send(self, frame: bytes) -> None:
        stray = self.bending.astray(frame)
        if stray is not None:
            self.host_wire.hand(stray)
        if self.peer is not None:
            self.peer.take(frame)

    def lost(self) -> int:
        return 0

    def close(self) -> None:
        self.socket.close()
        self.other.close()


class Stage(Session):
    """A session, with something done at each of its turns."""

    def __init__(self, program: str, folder: Folder, wires: dict[str, Wire], each_turn: Callable[[], None]) -> None:
        self.each_turn = each_turn
        super().__init__(program, folder, wires, Options(mark=TURN, every=0))

    def turn(self) -> None:
        super().turn()
        if not self.asked_to_end:
            self.each_turn()


def configuration(setup: Setup, names: list[bytes]) -> str:
    """The forwarder's configuration, in which the host's names are zoned with the peer."""
    lines = ["fcf-mac 00:05:1e:00:00:02", "vlan 100", "window 10", f"period {setup.period}", f"limit {setup.limit}"]
    if setup.fc_map:
        lines.append(f"fc-map {setup.fc_map}")
    alone, together = (" ".join(map(colons, it)) for it in (names, [*names, PEER.port]))
    if names and setup.rezoned:
        first, then = ("together", "alone") if setup.zoned else ("alone", "together")
        moment = time.time_ns() // 1_000_000 + int(1000 * setup.rezoned)
        lines += [f"zone alone {alone}", f"zone together {together}", f"zoneset first {first}", f"zoneset then {then}"]
        lines += ["activate first 0", f"activate then {moment}"]
    elif names or setup.zoned:
        lines.append(f"zone scene {together if setup.zoned else alone}")
    return "\n".join(lines) + "\n"


def peer_of(setup: Setup, wire: PeerWire) -> ENode:
    """A target that keeps the standards, or an initiator."""
    made = ENode(PEER, Manner(setup.peer_role, receive=setup.receive), wire.say)
    wire.peer = made
    return made
