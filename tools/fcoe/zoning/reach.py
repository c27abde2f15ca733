"""Who reaches whom at a moment, by which zone, and why two don't, in one line."""
from typing import Optional

from ..answers.views import Row, address_of, busiest, fabric_of, first_clock
from ..errors import Refused
from ..frames.heard import colons, fcid
from ..moments import short, stamp
from ..runs.fabric import Login
from ..runs.looking import Look
from .model import Pair, Plan, pair_of
from .rezone import plan_of


def reach(look: Look, clock: int) -> Row:
    """The N_Ports that are logged in at a moment, and which zones join each two of them."""
    plan = plan_of(look.run.config, clock)
    live = sorted(fabric_of(look, clock).live.values(), key=lambda it: it.address)
    rows: list[Row] = [{"wwpn": colons(it.name), "fcid": fcid(it.address), "address": address_of(look, it), "port": it.port} for it in live]
    names = [row["wwpn"] for row in rows]
    return {"at": clock, "set": plan.name, "ports": rows, "pairs": pair_rows(plan, names), "absent": [it for it in plan.zones_of() if it not in names]}


def reach_of(plan: Plan) -> Row:
    """The same of a zoning alone: all its members."""
    names = sorted(plan.zones_of())
    called = plan.called()
    rows = [{"wwpn": it, "fcid": None, "port": None, "called": called.get(it, [])} for it in names]
    return {"at": None, "set": plan.name, "ports": rows, "pairs": pair_rows(plan, names), "absent": []}


def pair_rows(plan: Plan, names: list[str]) -> list[Row]:
    """Each two of these names that zones join."""
    known = set(names)
    return [{"wwpns": list(pair), "zones": zones} for pair, zones in plan.pairs().items() if set(pair) <= known]


def known_names(look: Optional[Look], plan: Plan) -> dict[str, str]:
    """WWPNs by what a user may call them: the WWPN, an alias, an address."""
    found = {it: it for it in plan.zones_of()}
    for wwpn, names in [*plan.names.items(), *plan.called().items()]:
        found.update({it.lower(): wwpn for it in names})
    for login in look.walk.fabric.logins if look else []:
        found.update({colons(login.name): colons(login.name), fcid(login.address): colons(login.name)})
    return found


def wwpn_of(word: str, look: Optional[Look], plan: Plan) -> str:
    """The WWPN that a word of the command line names."""
    key = word.lower().removeprefix("0x")
    found = known_names(look, plan).get(key)
    if found is None and not len(key.split(":")) == 8:
        raise Refused(f"why not {word}: wants a WWPN, an address of the run or a name of the zoning: `look logins` has them")
    return found or key


def together(one: list[Login], other: list[Login]) -> Optional[int]:
    """The last moment from which on both were logged in."""
    moments = [max(a.since, b.since) for a in one for b in other if a.is_live(max(a.since, b.since)) and b.is_live(max(a.since, b.since))]
    return max(moments, default=None)


def zone_words(pair: Pair, plan: Plan) -> str:
    """Why no zone joins two: where each of them is."""
    zones = plan.zones_of()
    where = [f"{it} is in {', '.join(zones[it]) if it in zones else 'no zone'}" for it in pair]
    both = [it for it in zones.get(pair[0], []) if it in zones.get(pair[1], [])]
    if both:
        return f"zone {', '.join(both)} has both, and doesn't let them reach each other (init and target, principal and peer)"
    return f"no zone{f' of {plan.name}' if plan.name else ''} has both: {'; '.join(where)}"


def why_not_by(plan: Plan, one: str, other: str) -> Row:
    """The answer by a zoning alone."""
    pair = pair_of(one, other)
    zones = plan.joining(*pair)
    line = f"{one} and {other} reach each other where both are logged in: zone {', '.join(zones)}" if zones else f"{one} and {other} don't reach each other: {zone_words((one, other), plan)}"
    return {"wwpns": [one, other], "reach": bool(zones), "zones": zones, "at": None, "line": line}


def state_of(name: str, logins: list[Login], clock: int, first: int) -> Optional[str]:
    """Why a name isn't logged in at a moment; none where it is."""
    if any(it.is_live(clock) for it in logins):
        return None
    before = [it for it in logins if it.until is not None and it.until <= clock]
    if before:
        return f"{name} isn't logged in: its login ended {short(before[-1].until, first)} ({before[-1].why})"
    behind = [it for it in logins if it.since > clock]
    return f"{name} isn't logged in yet: it is from {short(behind[0].since, first)} on" if behind else f"{name} never logged in in these captures"


def why_not(look: Look, one: str, other: str, clock: Optional[int]) -> Row:
    """Whether two reach each other at a moment, and why not; without a moment, the last from which on both were logged in."""
    if one == other:
        raise Refused(f"why not {one} {other}: is one name twice")
    own = {it: [login for login in look.walk.fabric.logins if colons(login.name) == it] for it in (one, other)}
    if clock is None:
        both = together(own[one], own[other])
        clock = both if both is not None else busiest(look)
    first, plan = first_clock(look), plan_of(look.run.config, clock)
    zones = plan.joining(one, other)
    causes = [it for it in (state_of(name, own[name], clock, first) for name in (one, other)) if it]
    if not zones:
        causes.append(zone_words((one, other), plan))
    line = f"at {short(clock, first)} {one} and {other} "
    if causes:
        line += f"don't reach each other: {'; '.join(causes)}"
    else:
        held = {name: next(it for it in logins if it.is_live(clock)) for name, logins in own.items()}
        where = " and ".join(f"{fcid(it.address)} on port {it.port}" for it in held.values())
        line += f"reach each other: zone {', '.join(zones)}; they are {where}"
    return {"wwpns": [one, other], "reach": not causes, "zones": zones, "at": clock, "moment": stamp(clock), "line": line}
