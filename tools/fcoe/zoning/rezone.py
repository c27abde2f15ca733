"""Runs over the same captures with other zones: those of a switch, and those that are planned."""
import os
import re
from dataclasses import replace
from typing import Optional

from ..answers.views import number_of, switch_address
from ..errors import Refused, counted
from ..frames.heard import colons, granted_in, login_names
from ..runs.compare import compare
from ..runs.configs import Config, octets
from ..runs.fabric import walk
from ..runs.inputs import Inputs
from ..runs.looking import Look
from ..runs.program import run_program
from .config import Lines, Writer
from .model import Ends, Joined, LoginRow, Place, Plan
from .taking import Taken, Wanted, take

BEGIN = 0  # the moment of an activation from the beginning


def fabric_ports(look: Look) -> dict[int, str]:
    """The name of the fabric's port for each address that the switch granted in these captures."""
    found = {}
    for port in look.captured:
        for at in port.switch_messages:
            heard = port.frames.heard(at)
            address, names = granted_in(heard), login_names(heard)
            if address is not None and names is not None:
                found[address] = colons(names[0])
    return found


def rows_of(look: Look) -> list[LoginRow]:
    """The logins of captures, with the addresses that the switch granted."""
    ports = fabric_ports(look)
    rows = []
    for it in look.walk.fabric.logins:
        address = switch_address(look, it)
        place = Place(look.ports[it.port - 1].label, number_of(look, look.run.entries[it.granted_by]) or 0)
        rows.append(LoginRow(colons(it.name), place, address, f"port {it.port}", colons(it.node), ports.get(address, "") if address is not None else ""))
    return rows


def plan_of(config: Config, clock: int) -> Plan:
    """The zones of a configuration that are active at a moment."""
    name, zones = config.active(clock)
    return Plan(name, [Joined(zone, [Ends(colons(it)) for it in members]) for zone, members in zones.items()], f"zone set {name}" if name else "every zone of the configuration")


def spoken_in(plan: Plan, names: set[str]) -> Plan:
    """A plan of those alone who logged in: the others matter to no frame of a run."""
    zones = [Joined(zone.name, [it for it in zone.members if it.wwpn in names]) for zone in plan.zones]
    return Plan(plan.name, [it for it in zones if len(it.wwpns) > 1], plan.about)


def lines_of(plans: list[Plan], look: Look) -> Lines:
    """The lines of plans, a zone set each; beyond the limits of a configuration they are those of whoever logged in."""
    names = {colons(it.name) for it in look.walk.fabric.logins}
    for some in (plans, [spoken_in(it, names) for it in plans]):
        writer = Writer()
        for number, plan in enumerate(some):
            writer.put(plan, plan.name or f"zones_{number}")
        excess = writer.lines.excess()
        if not excess:
            if some is not plans:
                writer.lines.remarks.append("the zones pass the limits of a configuration: the run has those of WWPNs that logged in, as the others matter to no frame")
            return writer.lines
    raise Refused(f"{excess}, also of those alone who logged in: take fewer zones or captures")


def with_lines(look: Look, lines: Lines, moments: list[int]) -> Inputs:
    """What a run is over where these lines say its zones, a set active from each moment on."""
    activations = list(zip(lines.sets, moments))
    kept = [it for it in look.inputs.text.split("\n") if it.strip() and not re.match(r"(zone|zoneset|activate)\s", it)]
    text = "\n".join([*kept, *lines.text(), *(f"activate {it} {moment}" for it, moment in activations)]) + "\n"
    zones = {zone: [octets(it) for it in members] for zone, members in lines.zones.items()}
    config = replace(look.inputs.config, zones=zones, sets=dict(lines.sets), activations=activations)
    details = [it for it in look.inputs.details if not it.startswith(("one zone of ", "no zone: ", "zones: "))]
    derived = [it for it in look.inputs.derived if not it.startswith("zones: ")]
    return replace(look.inputs, ports=look.ports, config=config, text=text, remarks=look.inputs.remarks + lines.remarks, derived=derived, details=details, are_zones_known=True)


def rezoned(look: Look, plans: list[tuple[Plan, int]], room: str, name: str) -> Look:
    """A run over the same captures in which these plans are active one after the other, each from its moment on."""
    if not look.program:
        raise Refused("--journal: other zones want a run of their own: leave --journal out, and name the hosts' captures")
    lines = lines_of([plan for plan, _ in plans], look)
    inputs = with_lines(look, lines, [moment for _, moment in plans])
    folder = os.path.join(room, name)
    os.mkdir(folder)
    run = run_program(look.program, inputs, folder)
    return Look(inputs, look.captured, run, walk(run), look.grants, look.turns, look.program)


def with_zoning(look: Look, wanted: Wanted, rows: list[LoginRow], room: str) -> Look:
    """The captures with the zones of a switch."""
    taken = taken_of(wanted, rows, look)
    found = rezoned(look, [(taken.plan, BEGIN)], room, "zoned")
    found.compared = compare(found.run, found.walk)
    found.inputs.remarks += taken.remarks
    return found


def taken_of(wanted: Wanted, rows: list[LoginRow], look: Optional[Look]) -> Taken:
    """The zones of files, their members resolved by the logins of lists and of captures."""
    return take(wanted, [*rows, *(rows_of(look) if look else [])])


def amount(frames: int, size: int) -> str:
    return f"{counted(frames, 'frame')}, {counted(size, 'byte')}"
