"""Views of a run: logins, names, zones and counts, as values that become text or JSON."""
from array import array
from collections import Counter
from typing import Any, Iterable, Optional, Sequence

from ..errors import Refused
from ..errors import counted as plural
from ..frames.columns import MILLISECOND
from ..frames.heard import Heard, colons, fcid
from ..frames.places import place_of
from ..runs.fabric import Fabric, Login, fabric_at
from ..runs.journals import TICK, Entry, Frame, code_rows, counted, row_of
from ..runs.looking import Look
from ..runs.program import alike, shown_at_end
from ..runs.windows import is_otherwise, near_changes, otherwise
from .answer import row_of as row_of_answer
from .answering import answers_of
from .logins import cleared_first
from .beside import switch_frame, switch_verdict
from .rejects import step_of
from .traffic import NOISE, address_text, both

Row = dict[str, Any]
ALIVE = "A keep alive of an ENode or a VN_Port that has a login."


def first_clock(look: Look) -> int:
    """When the captures begin, in milliseconds."""
    return min((port.frames.milliseconds(0) for port in look.ports if port.frames), default=0)


def entries_until(look: Look, clock: Optional[int]) -> int:
    """How many entries there are up to a moment."""
    if clock is None:
        return len(look.run.entries)
    return look.run.entries.until(clock)


def number_of(look: Look, entry: Optional[Entry]) -> Optional[int]:
    """A frame's number as Wireshark shows it in the user's file."""
    return look.ports[entry.port - 1].frame_number(entry.index) if isinstance(entry, Frame) else None


def switch_address(look: Look, login: Login) -> Optional[int]:
    """What the switch of the capture granted to this login."""
    port, index = login.granted_frame
    found = look.grants.get((port, look.ports[port - 1].hosts[index]))
    return found[0] if found else None


def address_of(look: Look, login: Login) -> str:
    """A login's address as the captures have it, with the run's where it is another."""
    return address_text(look.on_switch(login), login.address)


def parent_on_switch(look: Look, login: Login) -> Optional[str]:
    """The address that the switch granted to the ENode's own login, of one by FDISC."""
    if login.parent is None or not look.grants:
        return None
    own = [it for it in look.walk.fabric.logins if (it.address, it.enode, it.port) == (login.parent, login.enode, login.port) and it.since <= login.since]
    return fcid(look.on_switch(own[-1])) if own else None


def login_row(look: Look, login: Login) -> Row:
    first = look.run.entries[login.granted_by]
    last = look.run.entries[login.ended_by] if login.ended_by is not None else None
    return {
        "port": login.port,
        "fcid": fcid(login.address),
        "wwpn": colons(login.name),
        "wwnn": colons(login.node),
        "fpma": colons(login.mac(look.run.config)),
        "enode": colons(login.enode),
        "kind": "FDISC" if login.is_fdisc else "FLOGI",
        "parent": fcid(login.parent) if login.parent is not None else None,
        "switch": switch_verdict(look, *login.granted_frame),
        "switch_frame": switch_frame(look, *login.granted_frame),
        "switch_fcid": fcid(it) if (it := switch_address(look, login)) is not None else None,
        "switch_parent": parent_on_switch(look, login),
        "from": login.since,
        "from_frame": number_of(look, first),
        "to": login.until,
        "to_frame": number_of(look, last),
        "why": login.why or "logged in at the end",
        **ended_by_switch(look, login),
    }


def ended_by_switch(look: Look, login: Login) -> Row:
    """How a login ended that the switch cleared."""
    place = cleared_first(look, login) if look.captured[login.port - 1].replies else None
    if place is None:
        return {}
    frames = look.captured[login.port - 1].frames
    return {"to": frames.milliseconds(place), "to_frame": frames.number(place), "why": "the switch cleared it (Clear links)"}


def logins(look: Look, clock: Optional[int]) -> list[Row]:
    """All logins over time, or those at a moment."""
    return [login_row(look, it) for it in look.walk.fabric.logins if clock is None or it.is_live(clock)]


def refused_logins(look: Look) -> list[Row]:
    """Logins that were rejected."""
    found = []
    for _, entry in look.run.entries.with_words("rejected"):
        heard = look.ports[entry.port - 1].host(entry.index)
        if heard.is_fip and heard.fc is not None:
            payload = heard.fc.payload
            name = colons(payload[20:28]) if heard.kind != "LOGO" else colons(payload[8:16])
            row: Row = {"port": entry.port, "frame": number_of(look, entry), "request": heard.kind, "wwpn": name, "clock": entry.clock, "verdict": entry.verdict}
            found.append({**row, "switch": switch_verdict(look, entry.port, entry.index), "switch_frame": switch_frame(look, entry.port, entry.index)})
    return found


def name_row(login: Login) -> Row:
    return {
        "fcid": fcid(login.address),
        "port": login.port,
        "wwpn": colons(login.name),
        "wwnn": colons(login.node_name),
        "types": login.type_numbers,
        "features": {str(it): value for it, value in sorted(login.features.items()) if value},
        "symbolic_port_name": login.symbol.decode("latin-1"),
        "symbolic_node_name": login.node_symbol.decode("latin-1"),
        "receive_size": login.server or 0,
        "watching": login.watch,
        "enode": colons(login.enode),
        "node": colons(login.node),
        "node_heard": login.node_heard,
        "port_heard": login.port_heard,
        "map": login.types.hex(),
    }


def fabric_of(look: Look, clock: Optional[int]) -> Fabric:
    return look.walk.fabric if clock is None else fabric_at(look.run, entries_until(look, clock))


def names(look: Look, clock: Optional[int]) -> list[Row]:
    """The name server's entries at a moment, or at the end."""
    live = fabric_of(look, clock).live
    return [{**name_row(live[it]), "address": address_of(look, live[it])} for it in sorted(live)]


def busiest(look: Look) -> int:
    """The first moment at which most N_Ports were logged in."""
    changes = sorted([(it.since, 1) for it in look.walk.fabric.logins] + [(it.until, -1) for it in look.walk.fabric.logins if it.until is not None])
    live, most, found = 0, 0, 0
    for clock, change in changes:
        live += change
        if live > most:
            most, found = live, clock
    return found


def zones(look: Look, clock: Optional[int]) -> Row:
    """The active zones at a moment, or at the end; of each member the address under which it is logged in."""
    last = look.run.entries[-1].clock if look.run.entries else 0
    moment = clock if clock is not None else last
    held = {it.name: it for it in fabric_of(look, clock).live.values()}
    active, found = look.run.config.active(moment)
    had = {it.name: address_of(look, it) for it in look.walk.fabric.logins if it.since <= moment}
    rows: list[Row] = []
    for name, members in found.items():
        logged = [(it, held.get(it)) for it in members]
        own = [{"wwpn": colons(it), "fcid": fcid(one.address) if one else None, "address": address_of(look, one) if one else None, "had": had.get(it)} for it, one in logged]
        rows.append({"zone": name, "members": own})
    return {"at": moment, "set": active, "zones": rows}


def show_lines(look: Look) -> list[str]:
    """The lines of `show`, told by these views: both must agree."""
    found = [f"entries {len(look.run.entries)}"]
    if look.run.entries:
        found.append(f"clock {look.run.entries[-1].clock}")
    for row in names(look, None):
        words = [row["fcid"], row["wwpn"], row["wwnn"], row["port"], row["enode"], row["node_heard"], row["port_heard"], row["receive_size"], row["watching"]]
        found.append("login " + " ".join(str(it).replace(":", "") for it in words))
        if row["types"]:
            found.append(f"types {row['fcid']} {row['map']}")
    return found


def check_with_show(look: Look) -> None:
    """These views say what `show` says of the run, word by word."""
    own, said = show_lines(look), shown_at_end(look.program, look.run)
    if own != said:
        apart = next((b for a, b in zip(own, said) if a != b), "its end")
        raise Refused(f"{look.ports[0].file}: `show` has '{apart}', which these views have otherwise: keep the run with --keep and report it")


# ---- summary


def counts(look: Look) -> dict[int, dict[str, int]]:
    """How often each verdict stands, by port."""
    found: dict[int, Counter[str]] = {port.number: Counter() for port in look.ports}
    entries = look.run.entries
    for (port, said), count in Counter(zip(entries.ports, entries.said)).items():
        if said != TICK:
            found[port][counted(entries.verdicts[said])] += count
    return {port: dict(some.most_common()) for port, some in found.items()}


def meaning_of(verdict: str) -> str:
    """What a verdict is, as counts have it: keep alives of both kinds are one word."""
    row = row_of(verdict)
    return ALIVE if verdict == "alive" else row.meaning if row else ""


def is_trouble(verdict: str) -> bool:
    return verdict.split(" ")[0] in ("dropped", "rejected", "refused")


def troubles(look: Look) -> list[Row]:
    """Each kind of drop, reject and refusal: rule, place in the frame, how often, where, and what to look at next."""
    entries = look.run.entries
    found: "dict[int, array[int]]" = {}
    for place in entries.places(is_trouble):
        found.setdefault(entries.said[place], array("I")).append(place)
    rows = []
    ranked = sorted(((entries.verdicts[said], places) for said, places in found.items()), key=lambda it: (it[0] == NOISE, it[0].split(" ")[0] == "dropped", -len(it[1]), it[0]))
    for verdict, places in ranked:
        row, kinds, first = row_of(verdict), alike(look.run, places), entries.frame(places[0])
        heard = look.ports[first.port - 1].host(first.index)
        rows.append(
            {
                "verdict": verdict,
                "count": len(places),
                "ports": sorted({entries.ports[it] for it in places}),
                "kinds": dict(summed((it.kind, it.count) for it in kinds).most_common(4)),
                "frames": [[entries.ports[it], number_of(look, entries.frame(it))] for it in places[:8]],
                "meaning": row.meaning if row else "",
                "standard": row.standard if row else "",
                "look": step_of(look, verdict, look.request_of(first.port, first.index)),
                "place": place_of(verdict, look.captured[first.port - 1].host(first.index)),
                "hints": code_rows(verdict, heard.kind) + hints(look, verdict, kinds, places) + window_hints(look, verdict, places),
            }
        )
    return rows


def summed(counts_of: Iterable[tuple[str, int]]) -> Counter[str]:
    """How often each word stands, in the order in which they come."""
    found: Counter[str] = Counter()
    for word, count in counts_of:
        found[word] += count
    return found


def strangers(look: Look, verdict: str, places: Sequence[int]) -> set[tuple[int, int]]:
    """The ends of frames that nobody here was granted: the run's address, and that of the captures."""
    ever, found, entries = {it.address for it in look.walk.fabric.logins}, set(), look.run.entries
    seen: set[tuple[int, int, int]] = set()  # of frames that are alike, their port and what they are like
    for place in places:
        port, at = look.request_of(entries.ports[place], entries.indexes[place])
        key = port, look.captured[port - 1].frames.flow_of[at], look.ports[port - 1].frames.flow_of[at]
        if key in seen:
            continue
        seen.add(key)
        captured, run = (heard.fc for heard in both(look, entries.frame(place)))
        if captured is not None and run is not None:
            pair = (run.s_id, captured.s_id) if verdict == "dropped source-login" else (run.d_id, captured.d_id)
            if pair[0] not in ever:
                found.add(pair)
    return found


def hints(look: Look, verdict: str, kinds: list[Heard], places: Sequence[int]) -> list[str]:
    """What these captures tell beside the rule."""
    found = []
    if verdict in ("dropped source-login", "dropped dest-login"):
        never = sorted(strangers(look, verdict, places))
        if never:
            told = ", ".join(address_text(captured, run) for run, captured in never[:4])
            found.append(f"no login in these captures was granted {told}: it logged in before the capture began, or on a port that wasn't captured")
    if verdict == "dropped zone":
        found += zone_hints(look, kinds)
    if verdict == "dropped vlan":
        tags = sorted({it.vlan for it in kinds})
        found.append(f"the frames have the VLAN {', '.join(map(str, tags))}; the fabric's is {look.run.config.vlan}")
    return found


def zone_hints(look: Look, kinds: list[Heard]) -> list[str]:
    """The pairs of port names that no zone joins, the most frequent first."""
    known = {it.address: colons(it.name) for it in look.walk.fabric.logins}
    pairs = summed((f"{known.get(fc.s_id, fcid(fc.s_id))} to {known.get(fc.d_id, fcid(fc.d_id))}", it.count) for it in kinds for fc in [it.fc] if fc is not None)
    return [f"{pair}: {plural(count, 'frame')}" for pair, count in pairs.most_common(3)] + ([f"and {len(pairs) - 3} more pairs"] if len(pairs) > 3 else [])


def window_hints(look: Look, verdict: str, places: Sequence[int]) -> list[str]:
    """How many of these frames another order within their window would judge otherwise."""
    window_rules = ("source-login", "dest-login", "keepalive-unknown")
    if not any(rule in verdict for rule in window_rules) and not verdict.startswith("refused"):
        return []
    entries, own = look.run.entries, []
    for place in near_changes(look.run, look.walk, places):
        entry = entries.frame(place)
        if is_otherwise(look.run, look.walk, entry, place):
            own.append(entry)
    if not own:
        return []
    where = ", ".join(f"{it.port}/{number_of(look, it)}" for it in own[:8])
    return [f"{len(own)} by the window: the grant or the end stands in the same window on another port ({where}): {otherwise(look.run.config.window)} decides otherwise"]


def answers(look: Look) -> list[Row]:
    """The answers, worst first."""
    return [row_of_answer(it) for it in answers_of(look)]


def summary(look: Look) -> Row:
    """What a person reads first."""
    run = look.run
    return {
        "ports": [{"port": it.number, "file": it.label, "hosts": len(it.hosts), "switch": len(it.replies)} for it in look.ports],
        "from": first_clock(look),
        "to": max((max(port.frames.moments) // MILLISECOND for port in look.ports if port.frames), default=0),
        "clock": run.entries.clocks[-1] if run.entries else None,
        "switch": colons(run.config.mac),
        "vlan": run.config.vlan,
        "printed": run.printed,
        "checked": run.checked,
        "runs": look.turns,
        "assumed": look.inputs.remarks + look.inputs.details,
        "answers": answers(look),
        "logins": logins(look, None),
        "rejected_logins": refused_logins(look),
        "zones": zones(look, None),
        "verdicts": counts(look),
        "troubles": troubles(look),
    }
