"""Why a frame has its verdict: the rule, both ends, what granted and ended them, and whether the window decided."""
from dataclasses import dataclass
from typing import Any, Optional

from ..errors import Refused
from ..frames.fields import fields_of
from ..frames.heard import Heard, colons, fcid, is_login, login_names
from ..frames.places import place_of
from ..runs.journals import Frame, code_rows, row_of
from ..runs.looking import Look
from ..runs.replies import answered_request
from ..runs.steps import next_step
from ..runs.windows import ends_of, gap_of, in_window, login_of, logins_near, otherwise
from .beside import switch_frame, switch_verdict
from .rejects import NAME_HELD, holder_text, step_of
from .views import login_row

Row = dict[str, Any]


@dataclass
class Asked:
    """The frame that is asked about."""

    entry: Frame
    place: int
    heard: Heard


def find(look: Look, port: int, number: int, is_index: bool) -> Asked:
    """The entry of a frame, by its number as Wireshark shows it, or by the journal's INDEX."""
    if not 1 <= port <= len(look.ports):
        raise Refused(f"why {port} {number}: there are the ports 1 to {len(look.ports)}, a capture or an interface each")
    here = look.ports[port - 1]
    at = here.frames.at_number(number) if not is_index else (here.hosts[number] if number < len(here.hosts) else None)
    if at is None:
        raise Refused(f"why {port} {number}: {here.label} has no such frame")
    index = here.index(at)
    if index is None:
        asked = answered_request(look.replies, port, at)
        index = here.index(asked) if asked is not None else None
    if index is None:
        raise Refused(f"why {port} {number}: frame {number} of {here.label} is the switch's own: `look` compares it with the forwarder's (see the comparison)")
    place = look.run.entries.place_of(port, index)
    if place is None:
        raise Refused(f"why {port} {number}: the journal has no entry for it")
    return Asked(look.run.entries.frame(place), place, here.host(index))


def window_notes(look: Look, asked: Asked, address: int, role: str) -> list[str]:
    """Whether a grant or an end of a login stands in the frame's window on another port."""
    found = []
    near = [it for login in logins_near(look.walk, address, asked.place) for it in in_window(look.run, asked.entry, login)]
    for what, place, other in near:
        gap = gap_of(look.run, asked.entry, other)
        when = f"{abs(gap) / 1_000_000:.3f} ms {'before' if gap >= 0 else 'after'} it"
        number = look.ports[other.port - 1].frame_number(other.index)
        text = f"the {what} of {fcid(address)} ({role}) stands in the same window of {look.run.config.window} ms on port {other.port} (frame {number}), captured {when}"
        if (gap >= 0) != (place < asked.place):
            text += f", judged the other way round: {otherwise(look.run.config.window)} would decide otherwise"
        else:
            text += ", judged in that order"
        found.append(text)
    return found


def end_row(look: Look, asked: Asked, role: str, address: int, captured: int) -> Row:
    """One end of a frame, by the run's address and by that of the capture."""
    return {**end_of(look, asked, role, address), "captured": fcid(captured)}


def end_of(look: Look, asked: Asked, role: str, address: int) -> Row:
    if address >= 0xFF0000:
        names = {0xFFFFFC: "name server", 0xFFFFFD: "fabric controller", 0xFFFFFE: "fabric port"}
        return {"role": role, "fcid": fcid(address), "service": names.get(address, "well-known address"), "login": None, "state": "a service of the fabric"}
    login = login_of(look.walk, address, asked.place)
    if login is None:
        return {"role": role, "fcid": fcid(address), "login": None, "state": "no login of these captures was ever granted this address"}
    if login.granted_by > asked.place:
        state = "granted later"
    elif login.ended_by is not None and login.ended_by < asked.place:
        state = f"ended before: {login.why}"
    else:
        state = "logged in"
    return {"role": role, "fcid": fcid(address), "login": login_row(look, login), "state": state, "notes": window_notes(look, asked, address, role)}


def zone_row(look: Look, asked: Asked, ends: list[Row]) -> Optional[Row]:
    """The zones of both names at the frame's clock."""
    found = [it["login"]["wwpn"] for it in ends if it["login"]]
    if len(found) < 2 or asked.entry.words[:2] != ["dropped", "zone"]:
        return None
    active, zones = look.run.config.active(asked.entry.clock)
    of = {name: [zone for zone, members in zones.items() if name in {colons(it) for it in members}] for name in found}
    return {"set": active, "zones": of}


def sent_rows(look: Look, asked: Asked) -> list[Row]:
    return [{"port": it.port, "kind": it.heard.kind, "to": colons(it.heard.destination)} for it in look.walk.sent[asked.place]]


def held_by(look: Look, asked: Asked) -> list[str]:
    """The addresses that the frame's ENode holds at it."""
    found = []
    for it in look.walk.fabric.logins:
        is_live = it.granted_by < asked.place and (it.ended_by is None or it.ended_by >= asked.place)
        if is_live and (it.port, it.enode) == (asked.entry.port, asked.heard.source):
            found.append(fcid(it.address))
    return found


def holder_of(look: Look, asked: Asked) -> Optional[str]:
    """Which login holds the name of a login that this forwarder or the switch rejected for its name."""
    names = login_names(asked.heard) if is_login(asked.heard) else None
    said = switch_verdict(look, asked.entry.port, asked.entry.index)
    if names is None or NAME_HELD not in (asked.entry.verdict, said) or not any(names[0]):
        return None
    return holder_text(look, names[0], look.request_of(asked.entry.port, asked.entry.index), asked.entry.clock)


def here(step: str) -> str:
    """A step as this view says it, which is itself what others send to."""
    return step.replace(": `look why`", "").replace(" (`look why`)", "")


def why_of(look: Look, asked: Asked) -> Row:
    """Why a frame has its verdict."""
    entry, heard = asked.entry, asked.heard
    port = look.ports[entry.port - 1]
    record, row = port.record(entry.index), row_of(entry.verdict)
    said = look.captured[entry.port - 1].host(entry.index)
    ends = [end_row(look, asked, role, address, captured) for (role, address), (_, captured) in zip(ends_of(heard), ends_of(said))]
    return {
        "port": entry.port,
        "file": port.label,
        "frame": record.number,
        "index": entry.index,
        "captured": record.milliseconds,
        "window": entry.clock,
        "kind": heard.kind,
        "verdict": entry.verdict,
        "meaning": row.meaning if row else "",
        "standard": row.standard if row else "",
        "switch": switch_verdict(look, entry.port, entry.index),
        "switch_frame": switch_frame(look, entry.port, entry.index),
        "holder": holder_of(look, asked),
        "look": next_step(entry.verdict, heard) if entry.verdict == NAME_HELD else here(step_of(look, entry.verdict, look.request_of(entry.port, entry.index))),
        "codes": code_rows(entry.verdict, heard.kind),
        "place": place_of(entry.verdict, said),
        "ends": ends,
        "zones": zone_row(look, asked, ends),
        "enode_holds": held_by(look, asked),
        "sent": sent_rows(look, asked),
        "fields": fields_of(heard),
    }


def why(look: Look, port: int, number: int, is_index: bool = False) -> Row:
    """Why the frame with this number has its verdict."""
    return why_of(look, find(look, port, number, is_index))
