"""Members as WWPNs: by the aliases of the zoning, and by logins of captures or of a switch's lists."""
from dataclasses import dataclass, field
from typing import Iterable, Optional

from ..errors import counted
from ..numerals import hexadecimal, told
from .model import Ends, Kind, LoginRow, Member, Role, Vendor, Zone, Zoning

DEEPEST = 50  # aliases that stand one in the other: no switch takes two
LISTS = "name captures that hold its login, or the switch's list of logins (`--logins FILE`)"
NEXT = {
    Kind.NODE: LISTS,
    Kind.FABRIC_PORT: LISTS,
    Kind.FCID: LISTS,
    Kind.INTERFACE: "give the output of `show flogi database` (`--logins FILE`), which has the interface of each WWPN, or zone it by pwwn",
    Kind.DOMAIN_PORT: "give the output of `nsshow` or `switchshow` (`--logins FILE`), which has the index of each port, or zone it by WWN",
    Kind.SYMBOLIC: "this forwarder has no iSCSI: zone it by pwwn",
    Kind.IP: "this forwarder has no iSCSI: zone it by pwwn",
    Kind.ALIAS: "its lines are missing: add the output of `show fcalias` or `alishow` (a further `--from FILE`)",
    Kind.DEVICE_ALIAS: "its line is missing: add the output of `show device-alias database` (a further `--from FILE`)",
}


class Known:
    """N_Ports that are known by their logins."""

    def __init__(self, rows: Iterable[LoginRow]) -> None:
        self.rows = list(rows)

    @property
    def wwpns(self) -> list[str]:
        return list(dict.fromkeys(it.wwpn for it in self.rows))

    def fits(self, row: LoginRow, member: Member) -> bool:
        """A member that isn't a WWPN names this login."""
        kind, value = member.kind, member.value
        if kind is Kind.FCID:
            return row.fcid == hexadecimal(value)
        if kind is Kind.NODE:
            return row.wwnn == value
        if kind is Kind.FABRIC_PORT:
            return row.fabric_port == value
        if kind is Kind.INTERFACE:
            return row.port.lower() == value.split()[0].lower()
        if kind is Kind.DOMAIN_PORT and row.index is not None and row.fcid is not None:
            return (row.fcid >> 16, row.index) == tuple(map(told, value.split(",")))
        return kind in (Kind.ALIAS, Kind.DEVICE_ALIAS) and row.called == value

    def of(self, member: Member) -> list[str]:
        return list(dict.fromkeys(it.wwpn for it in self.rows if self.fits(it, member)))

    def of_node(self, wwn: str) -> list[str]:
        """The ports of a node whose name stands where a port's may stand."""
        if any(it.wwpn == wwn for it in self.rows):
            return []
        return list(dict.fromkeys(it.wwpn for it in self.rows if it.wwnn == wwn))


@dataclass
class Resolver:
    """Turns members into WWPNs; what it can't turn is a fault, and what it chose a remark: each member ends in one or the other, or in a zone."""

    zoning: Zoning
    known: Known
    vendor: Vendor
    faults: list[str] = field(default_factory=list)
    remarks: list[str] = field(default_factory=list)
    told: set[tuple[Kind, str]] = field(default_factory=set)
    under: list[tuple[Kind, str]] = field(default_factory=list)  # the aliases that stand in each other, outermost first
    known_aliases: dict[tuple[Kind, str, str], list[Ends]] = field(default_factory=dict)  # what they stand for in a zone
    names: Optional[dict[str, tuple[str, ...]]] = None  # the aliases of one WWPN alone, by that, once they were asked for

    def named(self) -> dict[str, tuple[str, ...]]:
        """The names of WWPNs by the aliases of all files, for zonings that print WWNs alone (the effective one)."""
        if self.names is None:
            found: dict[str, dict[str, None]] = {}
            for (_, name), printings in self.zoning.aliases.items():
                members = {it.value for printing in printings for it in printing.members}
                if len(members) == 1 and all(it.kind is Kind.WWPN for printing in printings for it in printing.members):
                    found.setdefault(members.pop(), {})[name] = None
            self.names = {own: tuple(names) for own, names in found.items()}
        return self.names

    def ends(self, member: Member, zone: str) -> list[Ends]:
        """The WWPNs of a member, or none with a fault."""
        called = (member.called,) if member.called and member.kind is Kind.WWPN else ()
        if member.kind is Kind.WWPN:
            return self.of_wwpn(member, zone, called)
        key = (member.kind, member.value)
        if key in self.zoning.aliases:
            return [Ends(it.wwpn, member.role if it.role is Role.ANY else it.role, it.called) for it in self.alias_in(member, zone)]
        found = self.known.of(member)
        if not found or member.kind is Kind.FCID and len(found) > 1:
            why = f"had by {' and '.join(found)} one after the other: zone it by pwwn" if found else NEXT[member.kind]
            self.faults.append(f"{member.place}: zone {zone}: member {member} can't be said by a WWPN: {why}")
            return []
        self.say(member, f"{member} is {', '.join(found)}, by the logins")
        if member.lun:
            self.say_lun(member, found[0])
        names = (member.value,) if member.kind in (Kind.ALIAS, Kind.DEVICE_ALIAS) else ()
        return [Ends(it, member.role, names) for it in found]

    def say(self, member: Member, words: str) -> None:
        """Once for each member that several zones have."""
        if (member.kind, member.value) not in self.told:
            self.told.add((member.kind, member.value))
            self.remarks.append(f"{member.place}: {words}")

    def say_lun(self, member: Member, wwpn: str) -> None:
        self.remarks.append(f"{member.place}: LUN {member.lun} of {wwpn}: zones of this forwarder hold for all LUNs of a port")

    def of_wwpn(self, member: Member, zone: str, called: tuple[str, ...]) -> list[Ends]:
        if member.lun:
            self.say_lun(member, member.value)
        ports = self.known.of_node(member.value) if self.vendor is Vendor.FOS else []
        if ports:
            self.say(member, f"{member.value} of zone {zone} is the name of a node: its {counted(len(ports), 'port')} {', '.join(ports)} by the logins")
            return [Ends(it, member.role, called) for it in ports]
        return [Ends(member.value, member.role, called if called or self.under else self.named().get(member.value, ()))]

    def alias_in(self, member: Member, zone: str) -> list[Ends]:
        """What an alias stands for in a zone; nothing where it leads to itself, or too deep."""
        key = (member.kind, member.value)
        if key in self.under or len(self.under) == DEEPEST:
            round_about = " by way of " + ", ".join(value for _, value in self.under[self.under.index(key) + 1 :]) if key in self.under and self.under[-1] != key else ""
            self.fault_once(f"{member.place}: {member.kind.value} {member.value} " + (f"has itself as a member{round_about}" if key in self.under else f"stands in {DEEPEST} others, one in the other"))
            return []
        known = (*key, zone)
        if known not in self.known_aliases:
            self.under.append(key)
            self.known_aliases[known] = self.of_alias(member, self.zoning.aliases[key], zone)
            self.under.pop()
        return self.known_aliases[known]

    def of_alias(self, member: Member, printings: list[Zone], zone: str) -> list[Ends]:
        """What an alias stands for; printed several times, it says the same."""
        found = [self.printed(it, member, zone) for it in printings]
        apart = next((at for at, it in enumerate(found) if {e.wwpn for e in it} != {e.wwpn for e in found[0]}), None)
        if apart is not None:
            self.fault_once(f"{printings[0].place} and {printings[apart].place}: {member.kind.value} {member.value} stands for other members in each: keep the one that counts")
        if not any(it.members for it in printings):
            self.remarks.append(f"{printings[0].place}: {member.kind.value} {member.value} of zone {zone} has no members")
        return found[0]

    def printed(self, alias: Zone, member: Member, zone: str) -> list[Ends]:
        ends = [Ends(e.wwpn, it.role, (member.value, *e.called)) for it in alias.members for e in self.ends(it, zone)]
        is_nested = any((it.kind, it.value) in self.zoning.aliases for it in alias.members)
        return each_once(ends) if is_nested else ends

    def fault_once(self, words: str) -> None:
        if words not in self.faults:
            self.faults.append(words)


def each_once(ends: list[Ends]) -> list[Ends]:
    """Ends with all the names that they go by: aliases in aliases may lead to one by many ways."""
    found: dict[tuple[str, Role], dict[str, None]] = {}
    for it in ends:
        found.setdefault((it.wwpn, it.role), {}).update(dict.fromkeys(it.called))
    return [Ends(wwpn, role, tuple(called)) for (wwpn, role), called in found.items()]


def same(one: list[Ends], other: list[Ends]) -> bool:
    """Two printings of a zone join the same."""
    return {(it.wwpn, it.role) for it in one} == {(it.wwpn, it.role) for it in other}


def called_of(ends: list[Ends]) -> Optional[str]:
    return next((name for it in ends for name in it.called), None)
