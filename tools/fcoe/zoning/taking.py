"""Which zones of a switch's zoning are taken, and as what: each of its members ends in a zone, in a remark or in a refusal."""
from dataclasses import dataclass, field
from typing import Optional

from ..errors import Refused, counted, note
from .lines import Faults
from .model import Database, Ends, Joined, LoginRow, Plan, Reading, Vendor, Which, Zone, Zoning
from .reading import SHAPES, merged, read_file, zoning_of
from .resolve import Known, Resolver, same


@dataclass
class Wanted:
    """What the user says of a zoning: its files, and what of them is taken."""

    files: list[str]
    vsan: Optional[int] = None
    set: Optional[str] = None
    prefer: Which = Which.ACTIVE
    is_skipping: bool = False


@dataclass
class Taken:
    """A plan, and what is to be said of how it was taken."""

    plan: Plan
    remarks: list[str] = field(default_factory=list)
    vendor: Vendor = Vendor.CONFIG
    others: list[str] = field(default_factory=list)


@dataclass
class Choice:
    """The zones that are taken, by name, of one of the two databases."""

    name: Optional[str]
    zones: list[str]
    database: Database
    about: str


def zones_of_set(database: Database, name: str) -> list[str]:
    """The zones of a zone set, however often it is printed."""
    printings = [it for it in database.sets[name] if it.zones] or database.sets[name]
    for it in printings[1:]:
        if set(it.zones) != set(printings[0].zones):
            raise Refused(f"{printings[0].place} and {it.place}: zone set {name} has other zones in each: keep the one that counts")
    return list(dict.fromkeys(printings[0].zones))


def choice_of(zoning: Zoning, wanted: Wanted) -> Choice:
    """The zone set that was named; else the active one, or the only one."""
    order = [wanted.prefer, Which.FULL if wanted.prefer is Which.ACTIVE else Which.ACTIVE]
    if wanted.set is not None:
        for which in order:
            if wanted.set in zoning.database(which).sets:
                return Choice(wanted.set, zones_of_set(zoning.database(which), wanted.set), zoning.database(which), f"the {which.value} zone set {wanted.set}, as --set says")
        there = ", ".join(dict.fromkeys([*zoning.full.sets, *zoning.active.sets])) or "none"
        raise Refused(f"{wanted.files[0]}: has no zone set {wanted.set}; it has {there}")
    for which in order:
        database = zoning.database(which)
        if not database.is_empty:
            return only_choice(database, zoning, which, wanted.files[0])
    if zoning.default_permit is not None:
        return Choice(None, [], zoning.full, "no zone: the default zone permits")
    raise Refused(f"{wanted.files[0]}: no zone is in it: it wants the output of {SHAPES}")


def only_choice(database: Database, zoning: Zoning, which: Which, file: str) -> Choice:
    """The zone set of a database that has one, the active one of several, or all its zones where it has none."""
    names = list(database.sets)
    if not names:
        return Choice(zoning.active_name if which is Which.ACTIVE else None, list(database.zones), database, f"all {counted(len(database.zones), which.value + ' zone')}, which stand in no zone set")
    if len(names) > 1 and zoning.active_name not in names:
        raise Refused(f"{file}: has the zone sets {', '.join(names)}, and none of them is active: choose one with --set")
    name = names[0] if len(names) == 1 else str(zoning.active_name)
    word = which.value if which is Which.ACTIVE or name != zoning.active_name else f"{which.value} (and activated)"
    return Choice(name, zones_of_set(database, name), database, f"the {word} zone set {name}")


class Taker:
    """Takes the zones of a choice, and accounts for each of their members."""

    def __init__(self, resolver: Resolver) -> None:
        self.resolver = resolver

    def zone(self, printings: list[Zone]) -> Joined:
        found = [self.ends(it) for it in printings]
        for printing, ends in zip(printings[1:], found[1:]):
            if not same(found[0], ends):
                self.resolver.faults.append(f"{printings[0].place} and {printing.place}: zone {printing.name} has other members in each: keep the one that counts")
        return Joined(printings[0].name, found[0])

    def ends(self, zone: Zone) -> list[Ends]:
        found: dict[tuple[str, str], Ends] = {}
        twice = 0
        for member in zone.members:
            for it in self.resolver.ends(member, zone.name):
                key = (it.wwpn, it.role.value)
                twice += key in found
                known = found.get(key)
                found[key] = Ends(it.wwpn, it.role, tuple(dict.fromkeys([*(known.called if known else ()), *it.called])))
        if twice:
            self.resolver.remarks.append(f"{zone.place}: zone {zone.name} has {counted(twice, 'member')} twice, under several names")
        if not found:
            self.resolver.remarks.append(f"{zone.place}: zone {zone.name} has no member{' that can be said' if zone.members else ''}: it joins nobody")
        return list(found.values())


def with_default(plan: Plan, zoning: Zoning, known: Known, vendor: Vendor, resolver: Resolver) -> None:
    """A default zone that permits is a zone of those that logged in and are in no other."""
    place = zoning.default_permit
    if place is None or vendor is Vendor.FOS and plan.zones:
        return
    zoned = plan.zones_of()
    rest = [it for it in known.wwpns if it not in zoned]
    if not known.rows:
        resolver.faults.append(f"{place}: the default zone permits, so whoever is in no zone reaches the others that are in none: name captures or `--logins FILE`, so that they are known")
    elif rest:
        plan.zones.append(Joined("default_zone", [Ends(it) for it in rest]))
        resolver.remarks.append(f"{place}: the default zone permits: zone default_zone has the {len(rest)} N_Ports that logged in and are in no zone")


def members_of(zones: list[Zone], zoning: Zoning) -> frozenset[str]:
    """The members of a zone's printings as they stand, aliases of WWPNs as those."""
    found: set[str] = set()
    for it in (member for zone in zones for member in zone.members):
        printings = zoning.aliases.get((it.kind, it.value), [])
        found |= {one.value for printing in printings for one in printing.members} if printings else {it.value}
    return frozenset(found)


def apart(zoning: Zoning) -> list[str]:
    """How the defined zoning differs from the active one of the same name: what the next activation would change."""
    name = zoning.active_name
    if name is None or name not in zoning.full.sets or zoning.active.is_empty:
        return []
    defined = {it: members_of(zoning.full.zones.get(it, []), zoning) for one in zoning.full.sets[name] for it in one.zones}
    active = {it: members_of(zones, zoning) for it, zones in zoning.active.zones.items()}
    more, less = sorted(set(defined) - set(active)), sorted(set(active) - set(defined))
    other = sorted(it for it in set(defined) & set(active) if defined[it] != active[it])
    words = [f"{text} {', '.join(some[:4])}{' ..' if len(some) > 4 else ''}" for text, some in (("defined alone:", more), ("active alone:", less), ("with other members:", other)) if some]
    return [f"{name}: the defined zone set and the active one differ, {'; '.join(words)}: activating it would change that"] if words else []


def loose(choice: Choice) -> list[str]:
    """Zones that stand in no zone set: they aren't taken."""
    sets = [it for some in choice.database.sets.values() for it in some]
    listed = {zone for one in sets for zone in one.zones} | set(choice.zones)
    return [f"{zones[0].place}: zone {name} stands in no zone set, and isn't taken" for name, zones in choice.database.zones.items() if name not in listed]


def plan_of(reading: Reading, zoning: Zoning, choice: Choice, known: Known, is_skipping: bool) -> Taken:
    """The zones of a choice as a plan; refuses members that can't be said, unless they are to be skipped."""
    resolver = Resolver(zoning, known, reading.vendor)
    resolver.remarks += apart(zoning) + loose(choice)
    taker = Taker(resolver)
    plan = Plan(choice.name, [], choice.about, resolver.named())
    for name in choice.zones:
        if name in choice.database.zones:
            plan.zones.append(taker.zone(choice.database.zones[name]))
        else:
            resolver.faults.append(f"{choice.database.sets[choice.name or ''][0].place}: zone {name} of zone set {choice.name} isn't in these files: add the output that has it (`show zone`, `zoneshow`)")
    with_default(plan, zoning, known, reading.vendor, resolver)
    if resolver.faults and not is_skipping:
        more = f"{counted(len(resolver.faults), 'place')} that can't be said: each is named above; --skip goes on without them"
        raise Faults([*resolver.faults, more] if len(resolver.faults) > 1 else [f"{resolver.faults[0]}; --skip goes on without it"])
    remarks = reading.remarks + list(dict.fromkeys(resolver.remarks)) + [f"left out: {it}" for it in resolver.faults]
    return Taken(plan, remarks, reading.vendor, [it for it in dict.fromkeys([*zoning.full.sets, *zoning.active.sets]) if it != choice.name])


def take(wanted: Wanted, rows: list[LoginRow]) -> Taken:
    """The zones that files say, as a plan."""
    reading = merged(read_file(it) for it in wanted.files)
    zoning = zoning_of(reading, wanted.vsan, wanted.files)
    choice = choice_of(zoning, wanted)
    taken = plan_of(reading, zoning, choice, Known([*reading.logins, *rows]), wanted.is_skipping)
    taken.remarks.insert(0, f"{', '.join(wanted.files)}: {choice.about}, {counted(len(taken.plan.zones), 'zone')}")
    return taken


def take_all(wanted: Wanted, rows: list[LoginRow]) -> tuple[list[Taken], Optional[str]]:
    """Each zone set that is defined, and the name of the one that is active."""
    reading = merged(read_file(it) for it in wanted.files)
    zoning = zoning_of(reading, wanted.vsan, wanted.files)
    found = []
    for name in zoning.full.sets or zoning.active.sets:
        own = Wanted(wanted.files, wanted.vsan, name, Which.FULL, wanted.is_skipping)
        found.append(plan_of(reading, zoning, choice_of(zoning, own), Known([*reading.logins, *rows]), wanted.is_skipping))
    if not found:
        raise Refused(f"{wanted.files[0]}: has no zone set: leave out --all")
    return found, zoning.active_name


def say_all(remarks: list[str]) -> None:
    for it in dict.fromkeys(remarks):
        note(it)
