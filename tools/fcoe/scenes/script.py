"""What a scene says. All of it is values: a laboratory writes scenes of its own with these, and names their file with --more."""
from dataclasses import dataclass, field
from typing import Callable, Optional, Protocol, Union

from ..frames.heard import Heard
from ..host.enode import ENode

FORWARDER, SECOND, VLAN = bytes.fromhex("00051e000002"), bytes.fromhex("00051e0000ee"), 100
Place = Union[int, str, None]  # an address, "peer", or "host", which is the N_Port of its FLOGI


@dataclass
class World:
    """What has been seen so far."""

    vlan: int = VLAN
    forwarder: bytes = FORWARDER
    shown: bytes = FORWARDER  # the forwarder's MAC as the wire has it now
    fc_map: bytes = bytes.fromhex("0efc00")
    mac: bytes = b""  # of the host's ENode
    granted: dict[int, bytes] = field(default_factory=dict)  # addresses and MACs of the host
    names: list[bytes] = field(default_factory=list)  # port names of the host's logins
    said: list[Heard] = field(default_factory=list)  # by the host
    told: list[Heard] = field(default_factory=list)  # to the host
    peer: Optional[ENode] = None

    last_peer: int = 0
    last_host: int = 0

    @property
    def peer_address(self) -> int:
        """The peer's address, or that which it had last; 0 before its login."""
        if self.peer is not None and self.peer.ports:
            self.last_peer = self.peer.ports[0].address
        return self.last_peer

    def address(self, place: Place) -> Optional[int]:
        return self.peer_address if place == "peer" else self.last_host if place == "host" else place if isinstance(place, int) else None

    def note_said(self, heard: Heard) -> None:
        self.said.append(heard)
        if heard.is_fip and heard.operation is not None and heard.descriptor(2) is not None and not self.mac:
            self.mac = heard.source
        if heard.kind in ("FLOGI", "FDISC") and heard.fc is not None and heard.fc.payload[20:28] not in self.names:
            self.names.append(heard.fc.payload[20:28])

    def note_told(self, heard: Heard) -> None:
        """What arrived at the host: grants, and their end."""
        self.told.append(heard)
        mac = heard.descriptor(2)
        if heard.kind in ("FLOGI accept", "FDISC accept") and heard.fc is not None and mac is not None:
            if heard.kind == "FLOGI accept":
                self.granted.clear()
                self.last_host = heard.fc.d_id
            self.granted[heard.fc.d_id] = mac.data[2:8]
        if heard.kind == "Clear links":
            listed = [int.from_bytes(it.data[9:12], "big") for it in heard.descriptors if it.kind == 11]
            for address in listed or list(self.granted):
                self.granted.pop(address, None)


@dataclass(frozen=True)
class Like:
    """Frames that are meant: by kind, by the addresses of their FC frame, by their destination, and by a test of their own."""

    kinds: tuple[str, ...] = ()
    to: Place = None
    of: Place = None
    to_all: Optional[bool] = None  # multicast
    is_fcoe: Optional[bool] = None
    test: Optional[Callable[[Heard, World], bool]] = None
    words: str = ""

    def fits(self, heard: Heard, world: World) -> bool:
        if not heard.is_fabric or self.kinds and heard.kind not in self.kinds:
            return False
        if self.is_fcoe is not None and heard.is_fcoe != self.is_fcoe:
            return False
        if self.to_all is not None and bool(heard.destination[0] & 1) != self.to_all:
            return False
        for place, found in ((self.to, heard.fc and heard.fc.d_id), (self.of, heard.fc and heard.fc.s_id)):
            if place is not None and found != world.address(place):
                return False
        return self.test is None or self.test(heard, world)

    def __str__(self) -> str:
        to = "" if self.to is None else f" to {self.to:06X}" if isinstance(self.to, int) else f" to the {self.to}"
        return self.words or (" or ".join(self.kinds) or ("FCoE" if self.is_fcoe else "any frame")) + to


def kind(*kinds: str, **more: object) -> Like:
    return Like(kinds, **more)  # type: ignore[arg-type]


ANY, FCOE = Like(words="any frame"), Like(is_fcoe=True, words="FCoE")


@dataclass(frozen=True)
class Holds:
    """What is asked of a frame of the host beside its kind."""

    words: str
    test: Callable[[Heard, World], bool]


# ---- bends of the wire


Change = Callable[[bytes], bytes]


class Bend(Protocol):
    """What becomes of a frame: each with the seconds that it's late. `roll` is a number of the scene's seed."""

    @property
    def like(self) -> Like: ...

    @property
    def most(self) -> Optional[int]: ...

    @property
    def from_host(self) -> bool: ...

    def bent(self, frame: bytes, roll: float) -> list[tuple[float, bytes]]: ...


@dataclass(frozen=True)
class Lose:
    """Frames are lost: all, the first so many, or a share by the seed."""

    like: Like = ANY
    most: Optional[int] = None
    from_host: bool = False
    share: float = 1.0

    def bent(self, frame: bytes, roll: float) -> list[tuple[float, bytes]]:
        return [] if roll < self.share else [(0.0, frame)]

    def __str__(self) -> str:
        much = f"{self.share:.0%} of " if self.share < 1 else f"the next {self.most}: " if self.most else ""
        return f"lost {'from' if self.from_host else 'to'} the host: {much}{self.like}"


@dataclass(frozen=True)
class Late:
    """Frames arrive late."""

    seconds: float
    like: Like = ANY
    most: Optional[int] = None
    from_host: bool = False

    def bent(self, frame: bytes, _roll: float) -> list[tuple[float, bytes]]:
        return [(self.seconds, frame)]

    def __str__(self) -> str:
        return f"late by {self.seconds:g} s: {self.like}"


@dataclass(frozen=True)
class Twice:
    """Frames arrive twice."""

    like: Like = ANY
    most: Optional[int] = None
    from_host: bool = False

    def bent(self, frame: bytes, _roll: float) -> list[tuple[float, bytes]]:
        return [(0.0, frame), (0.0, frame)]

    def __str__(self) -> str:
        return f"twice: {self.like}"


@dataclass(frozen=True)
class Rewrite:
    """A field is another; with `beside` the frame itself arrives too, behind the rewritten one."""

    change: Change
    words: str
    like: Like = ANY
    most: Optional[int] = None
    from_host: bool = False
    beside: bool = False

    def bent(self, frame: bytes, _roll: float) -> list[tuple[float, bytes]]:
        return [(0.0, self.change(frame)), *([(0.0, frame)] if self.beside else [])]

    def __str__(self) -> str:
        return f"{self.like}: {self.words}"


@dataclass(frozen=True)
class Again:
    """Frames are rewritten, and each comes again each so many seconds, so often in all."""

    change: Change
    words: str
    seconds: float
    count: int
    like: Like = ANY
    most: Optional[int] = None
    from_host: bool = False

    def bent(self, frame: bytes, _roll: float) -> list[tuple[float, bytes]]:
        return [(turn * self.seconds, self.change(frame)) for turn in range(self.count)]

    def __str__(self) -> str:
        return f"{self.like}: {self.words}, each {self.seconds:g} s"


@dataclass(frozen=True)
class Astray:
    """Frames to the peer arrive at the host too; FIP with the host's MAC as destination."""

    like: Like
    most: Optional[int] = None
    from_host: bool = False

    def bent(self, frame: bytes, _roll: float) -> list[tuple[float, bytes]]:
        return [(0.0, frame)]

    def __str__(self) -> str:
        return f"astray to the host: the peer's {self.like}"


@dataclass(frozen=True)
class OtherMac:
    """The forwarder has another MAC, both ways."""

    mac: bytes
    like: Like = ANY
    most: Optional[int] = None
    from_host: bool = False

    def bent(self, frame: bytes, _roll: float) -> list[tuple[float, bytes]]:
        return [(0.0, frame)]

    def __str__(self) -> str:
        return f"the forwarder's MAC is {self.mac.hex(':')}"


# ---- steps


@dataclass(frozen=True)
class Want:
    """So many frames like this come from the host in time, with what holds of each, and none of another kind before."""

    like: Like
    within: float
    holds: tuple[Holds, ...] = ()
    count: int = 1
    without: Optional[Like] = None

    def __str__(self) -> str:
        times = f"{self.count} x " if self.count > 1 else ""
        more = f", {', '.join(it.words for it in self.holds)}" if self.holds else ""
        return f"{times}{self.like} within {self.within:g} s{more}" + (f", and no {self.without} before" if self.without else "")


@dataclass(frozen=True)
class All:
    """One frame of each comes in time, in any order."""

    likes: tuple[Like, ...]
    within: float
    holds: tuple[Holds, ...] = ()

    def __str__(self) -> str:
        return f"{', '.join(map(str, self.likes))}, in any order, within {self.within:g} s"


@dataclass(frozen=True)
class Never:
    """No frame like this comes; the first `grace` seconds don't count, and it's over once a frame like `until` comes."""

    like: Like
    seconds: float
    grace: float = 0.0
    until: Optional[Like] = None

    def __str__(self) -> str:
        return f"no {self.like} for {self.seconds:g} s" + (f" after {self.grace:g} s" if self.grace else "") + (f", before {self.until}" if self.until else "")


@dataclass(frozen=True)
class Spaced:
    """So many frames, each so many seconds behind the one before."""

    like: Like
    count: int
    least: float
    most: float

    def __str__(self) -> str:
        return f"{self.count} x {self.like}, {self.least:g} to {self.most:g} s apart"


@dataclass(frozen=True)
class Wait:
    """Nothing is asked for a while."""

    seconds: float

    def __str__(self) -> str:
        return f"{self.seconds:g} s go by"


@dataclass(frozen=True)
class Begin:
    """The wire is bent from now on."""

    bend: Bend

    def __str__(self) -> str:
        return str(self.bend)


@dataclass(frozen=True)
class Straight:
    """The wire is as it was."""

    def __str__(self) -> str:
        return "the wire is straight again"


@dataclass(frozen=True)
class Peer:
    """The peer does something."""

    words: str
    does: Callable[[ENode], None]

    def __str__(self) -> str:
        return f"the peer {self.words}"


@dataclass(frozen=True)
class EndHost:
    """The host is told to end."""

    def __str__(self) -> str:
        return "the host is told to end"


Step = Union[Want, All, Never, Spaced, Wait, Begin, Straight, Peer, EndHost]


@dataclass(frozen=True)
class Setup:
    """What the forwarder is told, and who is there."""

    period: int = 1000
    limit: int = 240
    fc_map: str = ""
    peer: str = "later"  # "there" before the host begins, "later" where a step starts it, "none"
    zoned: bool = True  # the peer with the host
    rezoned: float = 0.0  # seconds behind which it's the other way, by a zone set that is activated then; 0 is never
    receive: int = 2112  # of the peer
    peer_role: str = "target"  # or "initiator", where the host is the target
    second: tuple[str, ...] = ()  # lines of the configuration of a second forwarder that is real too; none without them
    bends: tuple[Bend, ...] = ()  # from the beginning on


@dataclass(frozen=True)
class Scene:
    """A scene: its name, what it shows, the standard that asks for it, and its steps."""

    name: str
    title: str
    source: str
    steps: tuple[Step, ...]
    setup: Setup = Setup()
    needs: frozenset[str] = frozenset()  # npiv, commands, end, vlans, target

    @property
    def seconds(self) -> float:
        """How long it may take at most."""
        return sum(map(seconds_of, self.steps))


def seconds_of(step: Step) -> float:
    """How long a step may take at most."""
    if isinstance(step, (Want, All)):
        return step.within
    if isinstance(step, Never):
        return step.grace + step.seconds
    if isinstance(step, Spaced):
        return step.count * (step.most + 1)
    return step.seconds if isinstance(step, Wait) else 0.0


def changed(frame: bytes, at: int, data: bytes) -> bytes:
    return frame[:at] + data + frame[at + len(data) :]
