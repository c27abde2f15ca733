"""Zonings as lines of this forwarder's configuration: read, and written with its limits (crates/fab_config/README.md)."""
import re
from dataclasses import dataclass, field
from typing import Iterable, Optional

from ..errors import Refused, counted
from .lines import Account, Line, Use
from .model import WWN, Kind, Member, Pair, Plan, Reading, Vendor, Zone, ZoneSet

ZONES, MEMBERS, SETS, LISTED = 1000, 20000, 64, 4000
NAME = re.compile(r"[A-Za-z][-A-Za-z0-9$^_]{0,63}")
KEYS = ("fcf-mac", "vlan", "switch", "fc-map", "domain", "pool", "priority", "period", "window", "limit")
NOBODY = "10:00:00:00:00:00:00:00"


def read_config_zones(lines: list[Line]) -> Reading:
    """The zones of a configuration, or of lines that may stand in one."""
    account, reading = Account(lines), Reading(Vendor.CONFIG)
    zoning = reading.zoning(None)
    activations: list[str] = []
    for line in lines:
        words = line.text.split()
        if not words or line.text.startswith("#"):
            line.use = Use.FIELD if words else Use.BLANK
        elif words[0] == "zone" and len(words) > 2 and all(re.fullmatch(WWN, it) for it in words[2:]):
            zoning.full.add_zone(Zone(words[1], line.place, [Member(Kind.WWPN, it.lower(), line.place) for it in words[2:]]))
            line.use = Use.MEMBER
        elif words[0] == "zoneset" and len(words) > 2:
            zoning.full.add_set(ZoneSet(words[1], line.place, words[2:]))
            line.use = Use.MEMBER
        elif words[0] == "activate" and len(words) == 3:
            activations.append(words[1])
            line.use = Use.HEAD
        elif words[0] in KEYS:
            line.use = Use.FIELD
        else:
            account.fault(line, "is no line of a configuration: docs/COMMANDS.md has its keys")
    account.close()
    zoning.active_name = activations[-1] if activations else None
    if not activations and zoning.full.zones:
        zoning.full.sets.clear()  # without an activation every zone is active
    if len(activations) > 1:
        reading.remarks.append(f"{lines[0].place.file}: activates {len(activations)} zone sets one after the other; the last, {zoning.active_name}, is taken")
    return reading


# ---- written


@dataclass
class Lines:
    """Zones as a configuration has them, and what is to be said of them."""

    zones: dict[str, list[str]] = field(default_factory=dict)
    sets: dict[str, list[str]] = field(default_factory=dict)
    remarks: list[str] = field(default_factory=list)

    def text(self) -> list[str]:
        """The lines."""
        found = [f"zone {name} {' '.join(members)}" for name, members in self.zones.items()]
        return found + [f"zoneset {name} {' '.join(zones)}" for name, zones in self.sets.items()]

    def excess(self) -> Optional[str]:
        """The limit of a configuration that these lines pass."""
        for count, most, what in (
            (len(self.zones), ZONES, "zones"),
            (sum(len(it) for it in self.zones.values()), MEMBERS, "members of zones"),
            (len(self.sets), SETS, "zone sets"),
            (sum(len(it) for it in self.sets.values()), LISTED, "zones of zone sets"),
        ):
            if count > most:
                return f"{count} {what}: a configuration has at most {most}"
        return None


def spelled(name: str, used: Iterable[str]) -> str:
    """A name that the configuration takes and that isn't used yet: a letter, and letters, digits and -$^_, 64 at most."""
    wanted = re.sub(r"[^-A-Za-z0-9$^_]", "_", name)
    wanted = (wanted if re.match(r"[A-Za-z]", wanted) else f"z_{wanted}")[:64]
    found, number = wanted, 1
    while found in used:
        number += 1
        found = f"{wanted[: 63 - len(str(number))]}_{number}"
    return found


class Writer:
    """Writes plans, a zone set each; zones that are the same stand once."""

    def __init__(self) -> None:
        self.lines = Lines()
        self.known: dict[tuple[str, tuple[str, ...]], str] = {}

    def add(self, name: str, members: list[str]) -> str:
        """A zone, or the one that is the same; gives its name."""
        key = (name, tuple(members))
        if key not in self.known:
            own = spelled(name, self.lines.zones)
            self.known[key] = own
            self.lines.zones[own] = members
            if own != name:
                self.lines.remarks.append(f"zone {name} is written as {own}: " + ("the configuration doesn't take that name" if not NAME.fullmatch(name) else "another zone has that name"))
        return self.known[key]

    def add_pairs(self, name: str, pairs: list[Pair]) -> list[str]:
        """A zone for each pair that may speak, where the members don't all reach each other."""
        made = []
        for number, pair in enumerate(pairs, 1):
            key = (name, pair)
            if key not in self.known:
                self.known[key] = spelled(f"{name[: 62 - len(str(number))]}-{number}", self.lines.zones)
                self.lines.zones[self.known[key]] = list(pair)
            made.append(self.known[key])
        return made

    def put(self, plan: Plan, wanted: Optional[str] = None) -> Optional[str]:
        """The zones of a plan, as a zone set where it has a name; gives the name."""
        written: list[str] = []
        for zone in plan.zones:
            if not zone.members:
                continue
            if zone.is_plain:
                written.append(self.add(zone.name, zone.wwpns))
                continue
            pairs = zone.pairs()
            is_one = len(pairs) == 1 and len(zone.wwpns) == 2  # whose members all reach each other, whatever their roles
            written += [self.add(zone.name, zone.wwpns)] if is_one else self.add_pairs(zone.name, pairs) if pairs else [self.add(zone.name, zone.wwpns[:1])]
            alone = [it for it in zone.wwpns if not any(it in pair for pair in pairs)]
            if len(pairs) > 1 or alone:
                made = f"{counted(len(pairs), 'zone')} of a pair{' each' if len(pairs) > 1 else ''}"
                self.lines.remarks.append(f"zone {zone.name}: its members don't all reach each other: {made}" + (f"; {', '.join(alone)} reaches nobody by it" if alone else ""))
        name = wanted or plan.name
        if name is None:
            return None
        own = spelled(name, self.lines.sets)
        if own != name:
            self.lines.remarks.append(f"zone set {name} is written as {own}")
        self.lines.sets[own] = list(dict.fromkeys(written)) or [self.add("nobody", [NOBODY])]
        return own


def config_lines(plans: list[Plan], active: Optional[str]) -> tuple[list[str], list[str]]:
    """The lines of zone sets, of which one may be active from the beginning, and what is to be said of them; refuses what passes a limit."""
    writer = Writer()
    names = {plan.name: writer.put(plan) for plan in plans}
    excess = writer.lines.excess()
    if excess:
        raise Refused(f"{excess}: take one zone set (--set), or one VSAN (--vsan)")
    lines = writer.lines.text()
    if active is not None and names.get(active):
        lines.append(f"activate {names[active]} 0")
    return lines, writer.lines.remarks
