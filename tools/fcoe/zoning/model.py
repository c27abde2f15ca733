"""A zoning as a switch has it, whoever made the switch: members, zones, zone sets and names, each with its place in a file."""
import re
from dataclasses import dataclass, field
from enum import Enum
from itertools import combinations
from typing import Optional

from ..errors import Refused

WWN = r"(?:[0-9A-Fa-f]{2}:){7}[0-9A-Fa-f]{2}"
MOST_PAIRS = 500_000  # as many as a thousand N_Ports make: a forwarder has no more
Pair = tuple[str, str]  # two WWPNs that reach each other, the lesser first


class Kind(Enum):
    """What a member is named by."""

    WWPN = "WWPN"
    NODE = "WWNN"
    FABRIC_PORT = "port name of the fabric's port (fwwn)"
    FCID = "FCID"
    INTERFACE = "interface"
    DOMAIN_PORT = "domain and port"
    SYMBOLIC = "symbolic node name"
    IP = "IP address"
    ALIAS = "alias"
    DEVICE_ALIAS = "device-alias"


class Role(Enum):
    """What a member is in a zone whose members don't all reach each other."""

    ANY = ""
    INITIATOR = "init"
    TARGET = "target"
    PRINCIPAL = "principal"
    PEER = "peer"


class Which(Enum):
    """Which of a switch's zonings a printing shows."""

    FULL = "defined"
    ACTIVE = "active"


class Vendor(Enum):
    """Whose words a file has."""

    NXOS = "nxos"
    FOS = "fos"
    CONFIG = "config"


@dataclass(frozen=True)
class Place:
    """A line of a file, from 1."""

    file: str
    line: int

    def __str__(self) -> str:
        return f"{self.file}, line {self.line}"


@dataclass(frozen=True)
class Member:
    """A member as a file has it: its kind, and what names it (WWNs in lower case, an FCID as six digits)."""

    kind: Kind
    value: str
    place: Place
    role: Role = Role.ANY
    lun: str = ""
    called: str = ""

    def __str__(self) -> str:
        words = f"{self.kind.value} {self.value}" + (f" LUN {self.lun}" if self.lun else "")
        return words + (f" ({self.role.value})" if self.role is not Role.ANY else "")


@dataclass
class Zone:
    """A printing of a zone."""

    name: str
    place: Place
    members: list[Member] = field(default_factory=list)
    is_starred: bool = False
    is_plain: bool = False  # smart zoning is disabled for it


@dataclass
class ZoneSet:
    """A printing of a zone set: the names of its zones."""

    name: str
    place: Place
    zones: list[str] = field(default_factory=list)
    is_active: bool = False


@dataclass
class Database:
    """What is printed of a switch's defined zoning, or of its active one; a zone may be printed several times."""

    zones: dict[str, list[Zone]] = field(default_factory=dict)
    sets: dict[str, list[ZoneSet]] = field(default_factory=dict)

    def add_zone(self, zone: Zone) -> None:
        self.zones.setdefault(zone.name, []).append(zone)

    def add_set(self, one: ZoneSet) -> None:
        self.sets.setdefault(one.name, []).append(one)

    @property
    def is_empty(self) -> bool:
        return not self.zones and not self.sets


@dataclass
class Zoning:
    """All that files say of one fabric: of one VSAN, or of a Brocade fabric."""

    full: Database = field(default_factory=Database)
    active: Database = field(default_factory=Database)
    aliases: dict[tuple[Kind, str], list[Zone]] = field(default_factory=dict)
    active_name: Optional[str] = None
    default_permit: Optional[Place] = None

    def database(self, which: Which) -> Database:
        return self.full if which is Which.FULL else self.active

    def add_alias(self, kind: Kind, alias: Zone) -> None:
        self.aliases.setdefault((kind, alias.name), []).append(alias)

    @property
    def is_empty(self) -> bool:
        return self.full.is_empty and self.active.is_empty


@dataclass(frozen=True)
class LoginRow:
    """An N_Port in a switch's list of logins; what the list doesn't say is empty."""

    wwpn: str
    place: Place
    fcid: Optional[int] = None
    port: str = ""
    wwnn: str = ""
    fabric_port: str = ""
    index: Optional[int] = None
    vsan: Optional[int] = None
    called: str = ""


@dataclass
class Reading:
    """All that one file says: zonings by VSAN (none of a fabric without), lists of logins, and what is to be said of it."""

    vendor: Vendor
    zonings: dict[Optional[int], Zoning] = field(default_factory=dict)
    device_aliases: list[Zone] = field(default_factory=list)
    logins: list[LoginRow] = field(default_factory=list)
    remarks: list[str] = field(default_factory=list)

    def zoning(self, vsan: Optional[int]) -> Zoning:
        return self.zonings.setdefault(vsan, Zoning())


@dataclass(frozen=True)
class Ends:
    """A WWPN in a zone, with its role and the names that it goes by there."""

    wwpn: str
    role: Role = Role.ANY
    called: tuple[str, ...] = ()


@dataclass
class Joined:
    """A zone whose members are all WWPNs."""

    name: str
    members: list[Ends]

    @property
    def is_plain(self) -> bool:
        """All members reach each other."""
        return all(it.role is Role.ANY for it in self.members)

    @property
    def wwpns(self) -> list[str]:
        return list(dict.fromkeys(it.wwpn for it in self.members))

    def joins(self, one: str, other: str) -> bool:
        """Lets two WWPNs reach each other."""
        ends = [[it for it in self.members if it.wwpn == wwpn] for wwpn in (one, other)]
        return one != other and any(may_speak(a.role, b.role) for a in ends[0] for b in ends[1])

    def count(self) -> int:
        """How many pairs there are at most."""
        return len(self.members) * (len(self.members) - 1) // 2

    def pairs(self) -> list[Pair]:
        """Who reaches whom, each pair once."""
        refuse_many(self.count(), f"zone {self.name} of {len(self.members)} members")
        if self.is_plain:
            return [pair_of(*it) for it in combinations(self.wwpns, 2)]
        found = [pair_of(a.wwpn, b.wwpn) for a, b in combinations(self.members, 2) if a.wwpn != b.wwpn and may_speak(a.role, b.role)]
        return list(dict.fromkeys(found))


@dataclass
class Plan:
    """Zones that are active together, of WWPNs alone: what a run can be given."""

    name: Optional[str]
    zones: list[Joined]
    about: str = ""
    names: dict[str, tuple[str, ...]] = field(default_factory=dict)  # of WWPNs by all aliases of the files, also of those that are in no zone

    def pairs(self) -> dict[Pair, list[str]]:
        """Who reaches whom, and the zones that join them."""
        found: dict[Pair, list[str]] = {}
        refuse_many(sum(it.count() for it in self.zones), f"zoning of {len(self.zones)} zones")
        for zone in self.zones:
            for pair in zone.pairs():
                found.setdefault(pair, []).append(zone.name)
        return found

    def joining(self, one: str, other: str) -> list[str]:
        """The zones that let two WWPNs reach each other."""
        return [it.name for it in self.zones if it.joins(one, other)]

    def zones_of(self) -> dict[str, list[str]]:
        """The zones of each WWPN."""
        found: dict[str, list[str]] = {}
        for zone in self.zones:
            for wwpn in zone.wwpns:
                found.setdefault(wwpn, []).append(zone.name)
        return found

    def called(self) -> dict[str, list[str]]:
        """The names that each WWPN goes by."""
        found: dict[str, list[str]] = {}
        for zone in self.zones:
            for member in zone.members:
                some = found.setdefault(member.wwpn, [])
                some += [it for it in member.called if it not in some]
        return found


def refuse_many(count: int, what: str) -> None:
    """Refuses more pairs than can be looked at one by one."""
    if count > MOST_PAIRS:
        raise Refused(f"a {what} has {count:,} pairs that may reach each other, of which {MOST_PAIRS:,} at most can be looked at: take fewer zones (--set, --vsan)")


def may_speak(one: Role, other: Role) -> bool:
    """Initiators don't reach each other, nor do targets, principals, or peers; who has no role reaches all."""
    return one is not other or one is Role.ANY


def pair_of(one: str, other: str) -> Pair:
    return (one, other) if one < other else (other, one)


def wwn_of(word: str) -> str:
    return word.lower()


def is_wwn(word: str) -> bool:
    return re.fullmatch(WWN, word) is not None
