"""What a journal says of the fabric, entry by entry: who is logged in, what is registered, who watches, and which frames an entry sends."""
from array import array
from dataclasses import dataclass, field
from typing import Iterator, Optional

from ..errors import Refused
from ..frames.columns import MILLISECOND, Frames, Record
from ..frames.heard import ALL_ENODES, Heard, fcid, login_names, number, rscn_in
from .configs import Config
from .journals import Entry, Frame, Tick
from .program import Run

PORT_PERIOD = 90000  # a VN_Port's keep alives, in milliseconds (FC-BB-5)
ANSWERED = {"vlans", "advertised", "granted", "rejected", "logout", "ns-login", "ns-logout", "watching", "registered", "refused", "answered"}
NO_TYPES = bytes(32)


def types_of(told: bytes) -> list[int]:
    """The FC-4 types of a map of 32 bytes (FC-GS-6)."""
    words = [number(told[at : at + 4]) for at in range(0, 32, 4)]
    return [32 * at + bit for at, word in enumerate(words) for bit in range(32) if word >> bit & 1]


@dataclass
class Login:
    """A login of an N_Port from its grant to its end."""

    address: int
    port: int
    enode: bytes
    name: bytes
    node: bytes
    since: int
    granted_by: int
    granted_frame: tuple[int, int]
    is_fdisc: bool
    parent: Optional[int] = None
    until: Optional[int] = None
    why: str = ""
    ended_by: Optional[int] = None
    node_heard: int = 0
    port_heard: int = 0
    server: Optional[int] = None
    watch: int = 0
    node_name: bytes = b""
    types: bytes = NO_TYPES
    features: dict[int, int] = field(default_factory=dict)
    symbol: bytes = b""
    node_symbol: bytes = b""

    def mac(self, config: Config) -> bytes:
        """The granted MAC (FPMA)."""
        return config.fc_map + self.address.to_bytes(3, "big")

    @property
    def type_numbers(self) -> list[int]:
        return types_of(self.types)

    def is_live(self, clock: int) -> bool:
        return self.since <= clock and (self.until is None or clock < self.until)


def erase(login: Login) -> None:
    login.node_name, login.types, login.features, login.symbol, login.node_symbol = login.node, NO_TYPES, {}, b"", b""


def register(login: Login, command: int, body: bytes) -> None:
    """A registration that the name server took (FC-GS-6); `body` is what stands behind the preamble."""
    if command == 0x0213:
        login.node_name = body[4:12]
    elif command == 0x0217:
        login.types = body[4:36]
    elif command == 0x0218:
        login.symbol = body[5 : 5 + body[4]]
    elif command == 0x021F:
        login.features = {**login.features, body[7]: body[6] & 0x0F}
    elif command == 0x0239:
        login.node_symbol = body[9 : 9 + body[8]]
    elif command == 0x0300:
        erase(login)


class Fabric:
    """The logins of a journal, as they stand behind the entries that were taken."""

    def __init__(self, config: Config) -> None:
        self.config = config
        self.clock: Optional[int] = None
        self.live: dict[int, Login] = {}
        self.logins: list[Login] = []
        self.by_address: dict[int, list[Login]] = {}
        self.lists: dict[bytes, set[str]] = {}
        for zone, members in config.zones.items():
            for name in members:
                self.lists.setdefault(name, set()).add(zone)

    def active_zones(self, clock: int, name: bytes) -> set[str]:
        """The active zones that list a port name."""
        return self.lists.get(name, set()) & set(self.config.active(clock)[1])

    def joined(self, watchers: list[Login], clock: int, name: bytes) -> list[Login]:
        """The watchers that an active zone joins with a port name."""
        zones = self.active_zones(clock, name)
        return [it for it in watchers if it.name != name and not zones.isdisjoint(self.lists.get(it.name, ()))]

    def of_address(self, address: int) -> list[Login]:
        """The logins that held an address, in order."""
        return self.by_address.get(address, [])

    def watchers(self) -> list[Login]:
        return [self.live[it] for it in sorted(self.live) if self.live[it].watch in (1, 3)]

    def end(self, login: Login, clock: int, why: str, entry: int) -> Login:
        login.until, login.why, login.ended_by = clock, why, entry
        return self.live.pop(login.address)

    def grant(self, entry: Frame, heard: Heard, place: int) -> list[Login]:
        """Takes a grant; gives the logins that it affects, ended ones first."""
        address, names = entry.address, login_names(heard)
        if address is None or names is None:
            raise Refused(f"port {entry.port}, index {entry.index}: the journal grants an address to what is no login: these files aren't of one run")
        own = [self.live[it] for it in sorted(self.live) if (self.live[it].port, self.live[it].enode) == (entry.port, heard.source)]
        is_fdisc = heard.login_kind == "FDISC"
        ended = [] if is_fdisc else [self.end(it, entry.clock, "its ENode logged in again (FLOGI)", place) for it in own]
        login = Login(address, entry.port, heard.source, *names, entry.clock, place, (entry.port, entry.index), is_fdisc)
        login.parent = next((it.address for it in own if not it.is_fdisc), None) if is_fdisc else None
        login.port_heard, login.node_name = entry.clock, names[1]
        self.live[address] = login
        self.logins.append(login)
        self.by_address.setdefault(address, []).append(login)
        for it in self.live.values():
            if (it.port, it.enode) == (entry.port, heard.source):
                it.node_heard = entry.clock
        return ended + [login]

    def silence(self, login: Login, clock: int) -> str:
        """Why a tick ended a login."""
        node, port = clock - login.node_heard, clock - login.port_heard
        if 2 * node > 5 * self.config.period:
            return f"silent: no keep alive of its ENode for {node / 1000:.1f} s"
        return f"silent: no keep alive of its VN_Port for {port / 1000:.1f} s"

    def heard_again(self, entry: Frame, heard: Heard) -> None:
        if entry.address is not None and entry.address in self.live:
            self.live[entry.address].port_heard = entry.clock
        elif entry.address is None:
            for it in self.live.values():
                if (it.port, it.enode) == (entry.port, heard.source):
                    it.node_heard = entry.clock

    def serve(self, entry: Frame, heard: Heard) -> list[Login]:
        """What a service took; gives the login whose types or features it changed."""
        login = self.live.get(heard.fc.s_id) if heard.fc else None
        if login is None or heard.fc is None:
            return []
        before = (login.types, {it: value for it, value in login.features.items() if value})
        if entry.word == "ns-login":
            login.server = min(number(heard.fc.payload[10:12]) & 0xFFF, 2112) // 4 * 4
        elif entry.word == "ns-logout":
            login.server = None
        elif entry.word == "watching":
            login.watch = int(entry.words[1]) % 255
        elif entry.word == "registered":
            register(login, heard.fc.command or 0, heard.fc.payload[16:])
        after = (login.types, {it: value for it, value in login.features.items() if value})
        return [login] if entry.word == "registered" and before != after else []

    def take(self, entry: Entry, heard: Optional[Heard], place: int) -> list[Login]:
        """Takes an entry; gives the logins whose state it changed, in the order in which others are told."""
        self.clock = entry.clock
        if isinstance(entry, Tick):
            gone = [self.live[it] for it in entry.ended if it in self.live]
            return [self.end(it, entry.clock, self.silence(it, entry.clock), place) for it in gone]
        if heard is None:
            return []
        if entry.word == "granted":
            return self.grant(entry, heard, place)
        if entry.word == "logout" and entry.address in self.live:
            return [self.end(self.live[entry.address], entry.clock, "LOGO", place)]
        if entry.word == "alive":
            self.heard_again(entry, heard)
        return self.serve(entry, heard)

    def notices(self, before: Optional[int], affected: list[Login], is_tick: bool) -> Iterator[tuple[int, int, int]]:
        """Port, address and affected address of each state change, in order; `before` is the clock in front of the entry."""
        watchers = self.watchers() if affected else []
        for it in affected:
            yield from ((w.port, w.address, it.address) for w in self.joined(watchers, before or 0, it.name))
        if not is_tick or before is None or self.clock is None or not any(before < moment <= self.clock for _, moment in self.config.activations):
            return
        watchers = self.watchers()
        for address in sorted(self.live):
            name = self.live[address].name
            was, now = ({it.address for it in self.joined(watchers, clock, name)} for clock in (before, self.clock))
            yield from ((w.port, w.address, address) for w in watchers if w.address in was ^ now)


# ---- which frames an entry sends


Output = tuple[int, int]  # a frame that was sent: its port, and its place in that port's output


@dataclass(slots=True)
class Sent:
    """A frame that was sent: its port, its place in the output, and which entry sent it."""

    port: int
    place: int
    frames: Frames
    entry: int

    @property
    def record(self) -> Record:
        return self.frames.record(self.place)

    @property
    def heard(self) -> Heard:
        return self.frames.heard(self.place)

    @property
    def like(self) -> Heard:
        """A frame that is like it: of data its ends and kind alone are right."""
        return self.frames.like(self.place)

    @property
    def milliseconds(self) -> int:
        return self.frames.milliseconds(self.place)


class SentFrames:
    """The frames that each entry sends, in order: of a forwarded frame its place in the output is kept, of others the frames."""

    def __init__(self, run: Run) -> None:
        self.run = run
        self.forwarded = array("I", bytes(4 * len(run.entries)))
        self.others: dict[int, list[Output]] = {}

    def sent(self, it: Output, place: int) -> Sent:
        return Sent(*it, self.run.outputs[it[0] - 1], place)

    def __getitem__(self, place: int) -> list[Sent]:
        entries = self.run.entries
        if entries.verdicts[entries.said[place]].startswith("forwarded "):
            return [self.sent((int(entries.frame(place).words[1]), self.forwarded[place]), place)]
        return [self.sent(it, place) for it in self.others.get(place, [])]

    def own(self) -> Iterator[Sent]:
        """The frames that the forwarder made itself: all but those that it forwarded."""
        for place, some in self.others.items():
            yield from (self.sent(it, place) for it in some)


class Sender:
    """Takes the sent frames of all ports apart, entry by entry, in the order in which they were written."""

    def __init__(self, run: Run) -> None:
        self.outputs = run.outputs
        self.next = [0] * len(run.outputs)
        self.is_checked = bool(run.checked)  # by `replay`, byte by byte

    def is_due(self, port: int, clock: int) -> bool:
        """The next frame of a port was sent at this clock."""
        if not 0 < port <= len(self.outputs):
            return False
        moments, at = self.outputs[port - 1].moments, self.next[port - 1]
        return at < len(moments) and moments[at] // MILLISECOND == clock

    def pop(self, port: int) -> Output:
        at = self.next[port - 1]
        self.next[port - 1] = at + 1
        return port, at

    def one(self, port: int, clock: int, wanted: str) -> Output:
        if not self.is_due(port, clock):
            raise Refused(f"output of port {port}: lacks {wanted} at {clock}: these files aren't of one run; `fcoe_tool replay` tells the first byte")
        return self.pop(port)

    def heard(self, it: Output) -> Heard:
        return self.outputs[it[0] - 1].heard(it[1])

    def answer(self, entry: Frame) -> list[Output]:
        """What answers a frame on its port."""
        if entry.word not in ANSWERED:
            return []
        sent = [self.one(entry.port, entry.clock, f"the reply to index {entry.index}")]
        while entry.word == "answered" and (fc := self.heard(sent[-1]).fc) and not fc.f_ctl & 0x100000:
            sent.append(self.one(entry.port, entry.clock, f"a part of the reply to index {entry.index}"))
        return sent

    def all_like(self, clock: int, kind: str, most: int) -> list[Output]:
        """The frames of a kind that stand next on each port."""
        sent = []
        for port in range(1, len(self.outputs) + 1):
            left, frames = most, self.outputs[port - 1]
            while left and self.is_due(port, clock) and frames.is_fip(self.next[port - 1]):
                front = frames.heard(self.next[port - 1])
                if front.kind != kind or kind == "Advertisement" and front.destination != ALL_ENODES:
                    break
                sent.append(self.pop(port))
                left -= 1
        return sent

    def told(self, clock: int, notices: Iterator[tuple[int, int, int]]) -> list[Output]:
        """The state changes, each of which is the one that is due."""
        sent = []
        for port, watcher, affected in notices:
            it = self.one(port, clock, "a state change")
            if not self.is_checked and rscn_in(self.outputs[port - 1].data(it[1])) != (watcher, affected):
                raise Refused(f"output of port {port}: record {it[1]} isn't the state change of {fcid(affected)}: these files aren't of one run")
            sent.append(it)
        return sent

    def check_end(self) -> None:
        for port, (frames, at) in enumerate(zip(self.outputs, self.next), 1):
            if at < len(frames):
                raise Refused(f"output of port {port}: {len(frames) - at} frames too many, from record {at} on: these files aren't of one run")


def step(fabric: Fabric, sender: Sender, run: Run, place: int) -> list[Output]:
    """Takes an entry but a forwarded frame's, and gives the frames that it sends."""
    entry, before = run.entries[place], fabric.clock
    if isinstance(entry, Tick):
        affected = fabric.take(entry, None, place)
        sent = sender.all_like(entry.clock, "Clear links", -1)
        sent += sender.told(entry.clock, fabric.notices(before, affected, True))
        return sent + sender.all_like(entry.clock, "Advertisement", 1)
    heard = run.ports[entry.port - 1].host(entry.index)
    sent = sender.answer(entry)
    affected = fabric.take(entry, heard, place)
    return sent + sender.told(entry.clock, fabric.notices(before, affected, False))


@dataclass
class Walk:
    """A run walked from its begin to its end."""

    fabric: Fabric
    sent: SentFrames


QUIET = {"dropped", "noted"}  # verdicts of frames that send nothing and change nothing


def walking(run: Run, fabric: Fabric, sender: Sender, sent: SentFrames) -> Iterator[int]:
    """Walks a run entry by entry, and gives the place of each behind it; refuses files that aren't of one run."""
    words = [it.split(" ") for it in run.entries.verdicts]
    targets = [int(it[1]) if it[0] == "forwarded" else 0 for it in words]
    is_quiet = [it[0] in QUIET for it in words]
    clock = None
    for place, (moment, said) in enumerate(zip(run.entries.clocks, run.entries.said)):
        target = targets[said]
        if target:
            if not sender.is_due(target, moment):
                sender.one(target, moment, "a forwarded frame")
            sent.forwarded[place] = sender.next[target - 1]
            sender.next[target - 1] += 1
        elif not is_quiet[said]:
            fabric.clock = clock
            some = step(fabric, sender, run, place)
            if some:
                sent.others[place] = some
        clock = moment
        yield place
    fabric.clock = clock


def walk(run: Run) -> Walk:
    """Which frames each entry sends; refuses files that aren't of one run."""
    fabric, sender, sent = Fabric(run.config), Sender(run), SentFrames(run)
    for _ in walking(run, fabric, sender, sent):
        pass
    sender.check_end()
    return Walk(fabric, sent)


def fabric_at(run: Run, last: int) -> Fabric:
    """The fabric behind so many entries."""
    fabric = Fabric(run.config)
    quiet = [it.split(" ")[0] in QUIET or it.startswith("forwarded ") for it in run.entries.verdicts]
    for place in range(last):
        if not quiet[run.entries.said[place]]:
            entry = run.entries[place]
            heard = run.ports[entry.port - 1].host(entry.index) if isinstance(entry, Frame) else None
            fabric.take(entry, heard, place)
    return fabric
