"""What a planned zoning would change: who loses and gains whom, over two runs of the same captures, or by the zonings alone."""
from array import array
from bisect import bisect_left
from dataclasses import dataclass, field
from typing import Any, Optional

from ..answers.views import Row, busiest, first_clock
from ..errors import Refused
from ..frames.heard import colons, fcid, number
from ..numerals import hexadecimal
from ..runs.compare import read_reply
from ..runs.fabric import Login
from ..runs.journals import TICK, Entries, Frame
from ..runs.looking import Look
from .model import Pair, Plan, pair_of
from .rezone import BEGIN, plan_of, rezoned

Zones = dict[Pair, list[str]]


@dataclass
class Talk:
    """What two N_Ports said to each other in the captures."""

    frames: int = 0
    bytes: int = 0
    last: Optional[int] = None
    dropped: int = 0  # frames that went by the zones that were, and are dropped by those that are planned
    passed: int = 0  # frames that were dropped by zone, and would go

    def hear(self, size: int, clock: int) -> None:
        self.frames, self.bytes, self.last = self.frames + 1, self.bytes + size, clock


@dataclass
class Change:
    """Two zonings, and with captures the runs by each: `planned` from its moment on, and `told` where the change is heard."""

    was: Plan
    planned: Plan
    at: Optional[int] = None
    run_was: Optional[Look] = None
    run_planned: Optional[Look] = None
    run_told: Optional[Look] = None
    told_at: Optional[int] = None
    was_pairs: Zones = field(default_factory=dict)


def span(look: Look) -> tuple[int, int]:
    """From when to when the captures are."""
    return first_clock(look), look.run.entries[-1].clock if look.run.entries else 0


def change_of(look: Look, was: Optional[Plan], planned: Plan, at: Optional[int], room: str) -> Change:
    """Runs over the captures by the zones that were and by those that are planned."""
    begin, end = span(look)
    if at is not None and not begin <= at <= end:
        raise Refused("--at: is no moment of these captures: `look logins` has their times")
    old = rezoned(look, [(was, BEGIN)], room, "was") if was else look
    told_at = at if at is not None else min(busiest(old) + old.run.config.window, end)
    before = plan_of(old.run.config, told_at)
    told = rezoned(old, [(before, BEGIN), (planned, told_at)], room, "told")
    new = told if at is not None else rezoned(old, [(planned, BEGIN)], room, "planned")
    return Change(was or before, planned, at, old, new, told, told_at, joined_by(old, was, at))


def joined_by(old: Look, was: Optional[Plan], at: Optional[int]) -> Zones:
    """Who reached whom by the zones that were: at the moment of the change, or at any of the captures."""
    begin, end = span(old)
    config = old.run.config
    found: Zones = {}
    moments = [begin, *(moment for _, moment in config.activations if begin < moment <= end)] if at is None else [at]
    for moment in moments:
        for pair, zones in (was or plan_of(config, moment)).pairs().items():
            found[pair] = list(dict.fromkeys([*found.get(pair, []), *zones]))
    return found


def alone(was: Plan, planned: Plan) -> Change:
    """Two zonings without a capture."""
    return Change(was, planned, was_pairs=was.pairs())


# ---- conversations


class Holders:
    """Who held each address last, asked for places of the journal that rise."""

    def __init__(self, look: Look) -> None:
        self.logins = sorted(look.walk.fabric.logins, key=lambda it: it.granted_by)
        self.next = 0
        self.held: dict[int, Login] = {}

    def at(self, place: int) -> dict[int, Login]:
        while self.next < len(self.logins) and self.logins[self.next].granted_by <= place:
            login = self.logins[self.next]
            self.held[login.address] = login
            self.next += 1
        return self.held


def is_zoned(verdict: str) -> bool:
    """Source and destination of the frame are logged in: only the zones decided."""
    return verdict.startswith("forwarded ") or verdict == "dropped zone"


class Verdicts:
    """The verdicts of a journal by port and INDEX."""

    def __init__(self, entries: Entries) -> None:
        self.entries = entries
        self.places: dict[int, "array[int]"] = {}
        for place, (port, said) in enumerate(zip(entries.ports, entries.said)):
            if said != TICK:
                self.places.setdefault(port, array("I")).append(place)

    def place(self, entry: Frame) -> int:
        """The place of a frame of another journal over the same captures."""
        return self.places[entry.port][entry.index]

    def of(self, entry: Frame) -> str:
        return self.entries.verdicts[self.entries.said[self.place(entry)]]


def talks(change: Change) -> dict[Pair, Talk]:
    """What each two N_Ports said, and which of it the plan changes."""
    look, planned = change.run_was, change.run_planned
    if look is None or planned is None:
        return {}
    entries, new, holders = look.run.entries, Verdicts(planned.run.entries), Holders(look)
    found: dict[Pair, Talk] = {}
    for place in entries.places(is_zoned):
        entry, held = entries.frame(place), holders.at(place)
        port = look.ports[entry.port - 1]
        fc = port.like(entry.index).fc
        if fc is None or fc.s_id not in held or fc.d_id not in held:
            raise Refused(f"{port.label}: index {entry.index} of the journal has ends that nobody holds: keep the run with --keep and report it")
        talk = found.setdefault(pair_of(colons(held[fc.s_id].name), colons(held[fc.d_id].name)), Talk())
        verdict, at = new.of(entry), port.hosts[entry.index]
        if entry.word == "forwarded":
            talk.hear(port.frames.lengths[at], port.frames.milliseconds(at))
            talk.dropped += verdict == "dropped zone"
        else:
            talk.passed += verdict.startswith("forwarded ")
    return found


def lacking(pair: Pair, zones: list[str], planned: Plan) -> list[Row]:
    """Which planned zone lacks whom: those of the names that joined the pair, else all that have one of the two."""
    own = {zone.name: zone.wwpns for zone in planned.zones}
    names = [it for it in zones if it in own] or [it for it, members in own.items() if any(wwpn in members for wwpn in pair)]
    rows = [{"zone": it, "lacks": [wwpn for wwpn in pair if wwpn not in own[it]]} for it in names]
    return [it for it in rows if it["lacks"]]


def pair_row(pair: Pair, zones: list[str], talk: Talk) -> Row:
    return {"wwpns": list(pair), "frames": talk.frames, "bytes": talk.bytes, "last": talk.last, "dropped": talk.dropped, "would_go": talk.passed, "zones": zones}


def lost_rows(change: Change, said: dict[Pair, Talk], new: Zones) -> list[Row]:
    """Pairs that lose each other, the most talkative first; with where each of the two stands in the plan."""
    zones_of = change.planned.zones_of()
    rows = []
    for pair, zones in change.was_pairs.items():
        if pair not in new:
            row = pair_row(pair, zones, said.get(pair, Talk()))
            rows.append({**row, "planned": {it: zones_of.get(it, []) for it in pair}, "lacking": lacking(pair, zones, change.planned)})
    return sorted(rows, key=lambda it: (-it["frames"], it["wwpns"]))


def gained_rows(change: Change, said: dict[Pair, Talk], new: Zones) -> list[Row]:
    """Pairs that gain each other, those first who tried already."""
    rows = [pair_row(pair, zones, said.get(pair, Talk())) for pair, zones in new.items() if pair not in change.was_pairs]
    return sorted(rows, key=lambda it: (-it["would_go"], it["wwpns"]))


# ---- what hosts hear


def notices(change: Change) -> list[Row]:
    """The RSCNs that each host gets at the moment of the change: of whom."""
    look, at = change.run_told, change.told_at
    if look is None or at is None:
        return []
    entries = look.run.entries
    place = next((it for it in range(bisect_left(entries.clocks, at), len(entries)) if entries.said[it] == TICK), None)
    if place is None:
        return []
    held = {it.address: it for it in look.walk.fabric.logins if it.granted_by < place}
    config, clock = look.run.config, look.run.entries[place].clock
    found: dict[int, list[str]] = {}
    for sent in look.walk.sent[place]:
        fc = sent.heard.fc
        if sent.heard.kind != "RSCN" or fc is None:
            continue
        told, of = held[fc.d_id], held[number(fc.payload[5:8])]
        if bool(config.joined(at - 1, told.name, of.name)) != bool(config.joined(clock, told.name, of.name)):
            found.setdefault(fc.d_id, []).append(colons(of.name))
    return [{"wwpn": colons(held[it].name), "fcid": fcid(it), "port": held[it].port, "of": names} for it, names in found.items()]


def listed(look: Look, place: int) -> Optional[set[str]]:
    """The addresses that an answer of the name server has; none where it refused."""
    entry = look.run.entries[place]
    if not isinstance(entry, Frame) or entry.word not in ("answered", "refused"):
        return None
    fc = look.ports[entry.port - 1].host(entry.index).fc
    sent = [it.heard for it in look.walk.sent[place] if it.heard.kind != "RSCN"]
    if entry.word == "refused" or not sent or fc is None:
        return set()
    fields = read_reply(sent, fc.command)
    if "FCID" in fields:
        return {fields["FCID"]}
    if "N_Ports" not in fields:
        return {f"{fc.payload[17:20].hex()}"}
    return {it.split(" ")[0] for it in fields["N_Ports"].split(", ") if it}


def answers(change: Change) -> list[Row]:
    """Queries whose answers lack somebody by the plan: who asked what, how often, and who is missing."""
    old, new = change.run_was, change.run_planned
    if old is None or new is None:
        return []
    verdicts, holders = Verdicts(new.run.entries), Holders(old)
    found: dict[tuple[str, str], dict[str, Any]] = {}
    for place, entry in old.run.entries.with_words("answered"):
        held = holders.at(place)
        heard = old.ports[entry.port - 1].host(entry.index)
        before, behind = listed(old, place), listed(new, verdicts.place(entry))
        if not before or behind is None or heard.fc is None or before <= behind:
            continue
        name = colons(held[heard.fc.s_id].name) if heard.fc.s_id in held else fcid(heard.fc.s_id)
        row = found.setdefault((name, heard.kind), {"wwpn": name, "query": heard.kind, "count": 0, "lacks": []})
        row["count"] += 1
        gone = [colons(held[hexadecimal(it)].name) if hexadecimal(it) in held else it for it in sorted(before - behind)]
        row["lacks"] += [it for it in gone if it not in row["lacks"]]
    return list(found.values())


# ---- what stands out in the plan


def logged_in(change: Change) -> set[str]:
    return {colons(it.name) for it in change.run_was.walk.fabric.logins} if change.run_was else set()


def renamed(change: Change) -> list[Row]:
    """WWPNs that go by other names in the plan, or by several."""
    old, new = change.was.called(), change.planned.called()
    rows = []
    for wwpn in [*old, *(it for it in new if it not in old)]:
        names, others = old.get(wwpn, []), new.get(wwpn, [])
        if names and others and set(names) != set(others) or len(others) > 1:
            rows.append({"wwpn": wwpn, "was": names, "planned": others})
    return rows


def whatif(change: Change) -> Row:
    """All that the plan changes, and what stands out in it."""
    new, said, live = change.planned.pairs(), talks(change), logged_in(change)
    lost = lost_rows(change, said, new)
    found: Row = {
        "at": change.at,
        "was": change.was.about,
        "planned": change.planned.about,
        "cut": [it for it in lost if it["frames"]],
        "lost_silent": [it for it in lost if not it["frames"]],
        "gained": gained_rows(change, said, new),
        "renamed": renamed(change),
        "has_captures": change.run_was is not None,
    }
    if change.run_was is None or change.run_planned is None:
        return found
    found.update(
        {
            "told_at": change.told_at,
            "first": first_clock(change.run_was),
            "checked": [change.run_was.run.checked, change.run_planned.run.checked],
            "notices": notices(change),
            "answers": answers(change),
            "silent_pairs": [{"wwpns": list(pair), "zones": zones} for pair, zones in new.items() if not said.get(pair, Talk()).frames and set(pair) <= live],
            "never_logged_in": [{"wwpn": wwpn, "zones": zones} for wwpn, zones in change.planned.zones_of().items() if wwpn not in live],
            "alone": [{"zone": it.name, "wwpn": some[0]} for it in change.planned.zones if len(some := [name for name in it.wwpns if name in live]) == 1],
        }
    )
    return found


def is_cut(found: Row) -> bool:
    """Somebody who spoke is cut off; without captures, anybody who could have."""
    return bool(found["cut"]) or not found["has_captures"] and bool(found["lost_silent"])
