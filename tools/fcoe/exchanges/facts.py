"""What exchanges show of each pair of N_Ports: the facts that answers rest on, in room that follows the pairs and not the exchanges."""
from collections import Counter
from dataclasses import dataclass, field
from typing import Iterable, Iterator, Optional

from ..runs.inputs import Port
from .command import scope_of
from .engine import Engine, Grant
from .exchange import End, Exchange, Kind, Place
from .frame import frames_in
from .reading import number
from .scsi import INQUIRY, REPORT_LUNS
from .statistics import Statistics

LISTED = 200  # frames of a group that are named
MOST = 20_000  # groups of failures; further ones aren't told apart
SERVICE = 0xFF0000  # addresses from here on are the fabric's
LARGE = 1518  # bytes of the longest Ethernet frame that every hop carries
Pair = tuple[int, int]


@dataclass
class Group:
    """Exchanges that ended alike: how many, when, and where the first of them stand."""

    first: Exchange
    count: int = 0
    since: int = 0  # nanoseconds since 1970
    until: int = 0
    places: list[Place] = field(default_factory=list)
    commands: Counter[str] = field(default_factory=Counter)

    def add(self, it: Exchange) -> None:
        self.since = min(self.since, it.began) if self.count else it.began
        self.count += 1
        self.until = max(self.until, it.answered or it.until or it.began)
        self.commands[it.command] += 1
        if len(self.places) < LISTED:
            self.places.append(it.first)


@dataclass
class Loss:
    """Transfers that were said to be done and of which data lacks."""

    reads: bool
    first: Exchange
    count: int = 0
    nothing: int = 0  # of which no byte came
    least: int = 0  # the shortest of them, in bytes
    wanted: int = 0
    came: int = 0
    since: int = 0
    until: int = 0
    places: list[Place] = field(default_factory=list)
    holes: list[str] = field(default_factory=list)
    whole_at: Counter[int] = field(default_factory=Counter)  # ports that saw all data of them

    def add(self, it: Exchange) -> None:
        self.since = min(self.since, it.began) if self.count else it.began
        self.count += 1
        self.nothing += not it.arrived
        self.least = min(self.least or it.due, it.due)
        self.wanted += it.due
        self.came += it.arrived
        self.until = max(self.until, it.until)
        for port, view in it.views.items():
            if view.data.total >= it.due:
                self.whole_at[port] += 1
        if len(self.places) < LISTED:
            self.places.append(it.first)
            self.holes += it.holes[: max(8 - len(self.holes), 0)]


@dataclass
class PairFacts:
    """What an originator and a responder had to do with each other."""

    groups: dict[tuple[str, End, str, str], Group] = field(default_factory=dict)  # by step or command, end, answer, LUN
    done: Counter[str] = field(default_factory=Counter)  # what ended well, by step or command
    last_done: dict[str, int] = field(default_factory=dict)  # and when the last of it ended
    luns: Optional[list[int]] = None  # of the latest REPORT LUNS; none where it never came whole
    absent: set[str] = field(default_factory=set)  # LUNs of which INQUIRY says that no unit is there
    present: set[str] = field(default_factory=set)
    at: list[Place] = field(default_factory=list)  # of REPORT LUNS and INQUIRY
    moved: int = 0  # transfers of data that came whole
    longest: int = 0  # the longest data frame that came in such
    losses: dict[bool, Loss] = field(default_factory=dict)  # by reads
    started: int = 0  # the first exchange
    ended: int = 0  # the last one

    def failed(self, *steps: str) -> list[Group]:
        """The groups of these steps that didn't end well."""
        return [it for (step, end, _, _), it in self.groups.items() if step in steps and end not in (End.DONE, End.OPEN, End.NOT_CAPTURED)]


@dataclass
class Logout:
    """A LOGO, PRLO or TPRLO between N_Ports, or a LOGO or new login at the fabric."""

    word: str
    moment: int
    of: int
    to: int
    place: Place


@dataclass
class Broken:
    """Frames with a wrong check sequence of exchanges from one address to another, as one port saw them."""

    count: int = 0
    places: list[Place] = field(default_factory=list)
    since: int = 0
    until: int = 0
    commands: Counter[str] = field(default_factory=Counter)


@dataclass
class Facts:
    """What all exchanges of captures show."""

    pairs: dict[Pair, PairFacts] = field(default_factory=dict)
    fip: dict[tuple[int, int, bytes], PairFacts] = field(default_factory=dict)  # logins in FIP, by port, VLAN and ENode
    grants: list[Grant] = field(default_factory=list)
    names: dict[int, bytes] = field(default_factory=dict)
    logouts: list[Logout] = field(default_factory=list)
    answering: set[int] = field(default_factory=set)  # addresses that answered something
    broken: dict[tuple[int, int, int], Broken] = field(default_factory=dict)  # by originator, responder, port
    roles: dict[int, int] = field(default_factory=dict)  # the features that ports registered for SCSI: 1 target, 2 initiator
    listings: dict[int, "Listing"] = field(default_factory=dict)  # what the name server listed to an address, the latest
    notices: dict[int, int] = field(default_factory=dict)  # when an address was sent an RSCN last
    statistics: Statistics = field(default_factory=Statistics)
    until: int = 0  # the last moment of the captures
    crowded: int = 0

    def with_peers(self) -> Iterator[tuple[Pair, PairFacts]]:
        """Pairs of N_Ports, without the fabric's services."""
        return ((pair, it) for pair, it in self.pairs.items() if max(*pair) < SERVICE and min(*pair) > 0)

    def between(self, one: int, other: int) -> list[PairFacts]:
        """Both directions of a pair."""
        return [self.pairs[it] for it in ((one, other), (other, one)) if it in self.pairs]

    def done(self, one: int, other: int, step: str) -> int:
        """When such a step between the two ended well last; 0 where none did."""
        return max((it.last_done.get(step, 0) for it in self.between(one, other)), default=0)


@dataclass
class Listing:
    """What the name server answered to a request for N_Ports."""

    command: str
    place: Place
    moment: int
    others: list[int]  # addresses without the asker's own
    says: str = ""
    count: int = 1


def step_of(it: Exchange) -> str:
    """A link service by its name; all commands of SCSI are one step, as those of CT are."""
    return "SCSI" if it.kind is Kind.FCP and not it.management else it.command


def luns_in(data: bytes) -> list[int]:
    """The LUNs of REPORT LUNS, as far as they were kept."""
    count = min(number(data[:4]) // 8, (len(data) - 8) // 8)
    return [number(data[8 + 8 * at : 10 + 8 * at]) & 0x3FFF for at in range(count)]


def listed_in(it: Exchange) -> Optional[list[int]]:
    """The addresses that an accept of GID_FT, GPN_FT, GNN_FT or GID_PT lists, without the asker's."""
    size = {"GID_FT": 4, "GID_PT": 4, "GPN_FT": 16, "GNN_FT": 16}.get(it.command)
    if size is None:
        return None
    rest = it.reply[16:]
    found = [number(rest[at + 1 : at + 4]) for at in range(0, len(rest) - size + 1, size)]
    return [address for address in found if address != it.originator]


class Gathered:
    """Takes ended exchanges into facts."""

    def __init__(self, facts: Facts) -> None:
        self.facts = facts
        self.room = MOST

    def take(self, it: Exchange) -> None:
        facts = self.facts
        facts.statistics.add(it)
        facts.until = max(facts.until, it.until)
        if it.is_half:
            return
        pair = self.pair_of(it)
        pair.ended = max(pair.ended, it.until)
        step, end = step_of(it), it.end or End.OPEN
        if it.answer is not None:
            facts.answering.add(it.responder)
        if end is End.DONE:
            pair.done[step] += 1
            pair.last_done[step] = max(pair.last_done.get(step, 0), it.until)
            self.take_done(pair, it)
        else:
            self.take_failed(pair, step, end, it)
        if it.broken and not (it.end is End.DONE and it.broken_by_host == len(it.broken)):  # what is taken all the same was captured before its adapter made it whole
            self.take_broken(it)
        if it.command == "RFF_ID" and len(it.request) >= 24 and it.request[23] == 0x08:
            facts.roles[number(it.request[17:20])] = it.request[22] & 3
        if it.command == "RSCN":
            facts.notices[it.responder] = max(facts.notices.get(it.responder, 0), it.began)
        if it.command in ("LOGO", "PRLO", "TPRLO") and it.kind in (Kind.ELS, Kind.FIP):
            facts.logouts.append(Logout(it.command, it.began, it.originator, it.responder, it.first))
        if it.kind is Kind.CT:
            self.take_listing(it, end)

    def pair_of(self, it: Exchange) -> PairFacts:
        """What is known of the two, which of a login in FIP are the ENode and the fabric."""
        facts = self.facts
        if it.kind is Kind.FIP:
            return facts.fip.setdefault((it.first[0], it.vlan, it.enode), PairFacts(started=it.began))
        return facts.pairs.get(it.pair) or facts.pairs.setdefault(it.pair, PairFacts(started=it.began))

    def take_failed(self, pair: PairFacts, step: str, end: End, it: Exchange) -> None:
        key = (step, end, it.says, it.lun)
        if key not in pair.groups:
            if not self.room:
                self.facts.crowded += 1
                return
            self.room -= 1
            pair.groups[key] = Group(it)
        pair.groups[key].add(it)

    @staticmethod
    def take_done(pair: PairFacts, it: Exchange) -> None:
        """What an exchange that ended well tells of LUNs and of data."""
        if it.lacks and not it.broken:
            pair.losses.setdefault(it.reads, Loss(it.reads, it)).add(it)
        elif it.came:
            pair.moved += 1
            pair.longest = max([pair.longest, *(view.longest for view in it.views.values())])
        operation = it.cdb[0] if it.kind is Kind.FCP and it.cdb and not it.management else None
        if operation == REPORT_LUNS and it.head:
            pair.luns = luns_in(it.head)
            pair.at.append(it.first)
        elif operation == INQUIRY and it.head and not it.cdb[1] & 1:
            (pair.absent if it.head[0] >> 5 == 3 else pair.present).add(it.lun)
            pair.at.append(it.first)
        del pair.at[8:]

    def take_broken(self, it: Exchange) -> None:
        for port, number_ in it.broken:
            found = self.facts.broken.setdefault((*it.pair, port), Broken(since=it.began))
            found.count += 1
            found.until = it.until
            found.commands[it.command] += 1
            if len(found.places) < LISTED:
                found.places.append((port, number_))

    def take_listing(self, it: Exchange, end: End) -> None:
        others = listed_in(it) if end is End.DONE else [] if end is End.REJECTED and it.command in ("GID_FT", "GPN_FT", "GNN_FT", "GID_PT") else None
        if others is None:
            return
        before = self.facts.listings.get(it.originator)
        count = before.count + 1 if before and before.others == others else 1
        self.facts.listings[it.originator] = Listing(it.command, it.first, it.began, others, it.says if end is End.REJECTED else "", count)


def facts_of(ports: Iterable[Port], switches: set[bytes]) -> Facts:
    """The facts of captures, by one way through them."""
    ports, facts = list(ports), Facts()
    engine = Engine(Gathered(facts).take, scope_of(ports))
    engine.take_all(frames_in(ports, switches))
    facts.names, facts.grants = engine.names, engine.grants
    facts.until = max([facts.until, *(port.frames.moments[-1] for port in ports if port.frames)])
    facts.crowded += engine.crowded
    return facts
