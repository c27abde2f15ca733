"""A plan as the commands that make it on a switch."""
from typing import Callable, Optional

from ..errors import Refused
from .config import spelled
from .model import Joined, Plan, Role, Vendor

FOS_LIST = 16  # members of one command of FOS: the rest is added by further ones
# a principal is the storage by custom, so that commands of one vendor come back from the other's as they were
ROLE_WORDS = {Role.INITIATOR: "init", Role.PRINCIPAL: "target", Role.TARGET: "target", Role.PEER: "init", Role.ANY: "both"}


def nxos_commands(plan: Plan, vsan: Optional[int]) -> tuple[list[str], list[str]]:
    """The commands of NX-OS; zones whose members don't all reach each other are smart zones."""
    if vsan is None:
        raise Refused("--to nxos: wants --vsan N, the VSAN of the zones")
    lines, remarks = ["configure terminal"], list[str]()
    if not all(it.is_plain for it in plan.zones):
        lines.append(f"zone smart-zoning enable vsan {vsan}")
    for zone in plan.zones:
        lines.append(f"zone name {zone.name} vsan {vsan}")
        is_plain = zone.is_plain
        lines += [f"  member pwwn {it.wwpn}" + ("" if is_plain else f" {ROLE_WORDS[it.role]}") for it in zone.members]
        if any(it.role in (Role.PRINCIPAL, Role.PEER) for it in zone.members):
            remarks.append(f"zone {zone.name}: a peer zone is a smart zone here: principals are target, peers are init")
    name = plan.name or "zones"
    lines.append(f"zoneset name {name} vsan {vsan}")
    lines += [f"  member {it.name}" for it in plan.zones]
    return [*lines, f"zoneset activate name {name} vsan {vsan}", "end"], remarks


def listed(words: list[str]) -> str:
    return "; ".join(words)


def in_parts(make: str, add: str, name: str, words: list[str]) -> list[str]:
    """A command that makes a thing of the first words, and further ones that add the rest."""
    parts = [words[at : at + FOS_LIST] for at in range(0, len(words), FOS_LIST)]
    return [f'{add if at else make} "{name}", "{listed(part)}"' for at, part in enumerate(parts)]


def fos_zone(zone: Joined, remarks: list[str]) -> list[str]:
    """A zone, or a peer zone where the members don't all reach each other."""
    if zone.is_plain:
        return in_parts("zonecreate", "zoneadd", zone.name, zone.wwpns)
    roles = {it.role for it in zone.members}
    if Role.ANY in roles:
        remarks.append(f"zone {zone.name}: some of its members reach all others and some don't, which a peer zone can't say: a zone for each pair")
        return [it for number, pair in enumerate(zone.pairs(), 1) for it in in_parts("zonecreate", "zoneadd", f"{zone.name[:58]}_{number}", list(pair))]
    first = [it.wwpn for it in zone.members if it.role in (Role.PRINCIPAL, Role.TARGET)]
    second = [it.wwpn for it in zone.members if it.role in (Role.PEER, Role.INITIATOR)]
    if Role.TARGET in roles or Role.INITIATOR in roles:
        remarks.append(f"zone {zone.name}: a smart zone is a peer zone here: targets are principals, initiators are peers")
    return [f'zone --create -peerzone "{zone.name}" -principal "{listed(first)}" -members "{listed(second)}"'] if first and second else []


def fos_commands(plan: Plan, _: Optional[int]) -> tuple[list[str], list[str]]:
    """The commands of FOS."""
    lines: list[str] = []
    remarks: list[str] = []
    made: list[str] = []
    for zone in plan.zones:
        some = fos_zone(zone, remarks)
        lines += some
        for it in some:
            name = it.split('"')[1]
            if name not in made:
                made.append(name)
        if not some:
            remarks.append(f"zone {zone.name} joins nobody and isn't written")
    name = plan.name or "zones"
    return [*lines, *in_parts("cfgcreate", "cfgadd", name, made), f'cfgenable "{name}"'], remarks


def renamed(plan: Plan) -> tuple[Plan, list[str]]:
    """Names as the switches take them, each its own, and what was changed; zones without members are left out, and said."""
    remarks: list[str] = []
    used: list[str] = []
    zones = []
    for zone in plan.zones:
        if not zone.members:
            remarks.append(f"zone {zone.name} has no member and isn't written")
            continue
        name = spelled(zone.name, used)
        used.append(name)
        if name != zone.name:
            remarks.append(f"zone {zone.name} is written as {name}")
        zones.append(Joined(name, zone.members))
    return Plan(spelled(plan.name, ()) if plan.name else None, zones, plan.about), remarks


COMMANDS: dict[Vendor, Callable[[Plan, Optional[int]], tuple[list[str], list[str]]]] = {Vendor.NXOS: nxos_commands, Vendor.FOS: fos_commands}


def commands(vendor: Vendor, plan: Plan, vsan: Optional[int]) -> tuple[list[str], list[str]]:
    """The commands that make a plan, and what is to be said of them."""
    own, remarks = renamed(plan)
    if not own.zones:
        raise Refused("no zone has a member: nothing to write")
    lines, more = COMMANDS[vendor](own, vsan)
    return lines, remarks + more
