"""What the switch's own answers tell of its configuration: a limit of logins, and who isn't zoned together."""
from collections import Counter
from dataclasses import dataclass, field
from itertools import combinations
from typing import Iterator, Optional

from ..errors import counted
from ..frames.fields import LISTED
from ..frames.heard import CLEAR, Heard, colons, fcid, login_names, number
from .compare import parts
from .hosts import WELL_KNOWN
from .inputs import Inputs, Port
from .readdress import Request
from .replies import Reply, replies_to
from .steps import NO_ROOM

NO_TYPES = "refused 09 07"
RFT_ID, RFF_ID = 0x0217, 0x021F
SCSI, INITIATOR = 0x08, 2  # an FC-4 type, and a feature of it that a port registers
MOST_NAMES = 40  # of which zones are derived
Pair = frozenset[bytes]


@dataclass
class Told:
    """A message of the captures in the order of time: what a host asked, with the switch's reply, or what the switch said by itself."""

    port: Port
    at: int
    heard: Heard
    reply: Optional[Reply] = None


def in_time(ports: list[Port], replies: dict[Request, Reply]) -> Iterator[Told]:
    """Requests with a reply, at the moment of the reply, and the switch's clear link messages."""
    found: list[tuple[int, int, int, Told]] = []
    for port in ports:
        frames = port.frames
        for at in port.host_messages:
            reply = replies.get((port.number, at))
            if reply is not None:
                found.append((frames.moments[reply.at], port.number, at, Told(port, at, frames.heard(at), reply)))
        for at in port.switch_messages:
            if frames.heard(at).operation == CLEAR:
                found.append((frames.moments[at], port.number, at, Told(port, at, frames.heard(at))))
    for _, _, _, told in sorted(found, key=lambda it: it[:3]):
        yield told


class Live:
    """Who is logged in at the switch, by its own answers."""

    def __init__(self) -> None:
        self.names: dict[tuple[int, bytes], list[bytes]] = {}
        self.holders: dict[int, bytes] = {}  # names by the switch's addresses

    def count(self) -> int:
        return sum(map(len, self.names.values()))

    def take(self, told: Told) -> None:
        heard, verdict = told.heard, told.reply.verdict if told.reply else ""
        if told.reply is None:
            self.names.pop((told.port.number, heard.destination), None)
            return
        key, names = (told.port.number, heard.source), login_names(heard)
        if verdict.startswith("granted") and names:
            if heard.kind == "FLOGI":
                self.names[key] = []
            self.names.setdefault(key, []).append(names[0])
            self.holders[int(verdict.split(" ")[1], 16)] = names[0]
        elif heard.is_fip and heard.kind == "LOGO" and verdict == "accepted" and heard.fc:
            for own in self.names.values():
                own[:] = [it for it in own if it != heard.fc.payload[8:16]]


def limit_of(told: list[Told]) -> Optional[int]:
    """How many logins the switch takes: as many as are live at each reject for want of room, and more than at each grant."""
    live, full, free = Live(), list[int](), list[int]()
    for it in told:
        if it.reply is not None and it.reply.verdict == NO_ROOM and it.heard.kind in ("FLOGI", "FDISC"):
            full.append(live.count())
        live.take(it)
        if it.reply is not None and it.reply.verdict.startswith("granted"):
            free.append(live.count())
    found = min(full, default=0)
    return found if found >= 1 and all(it <= found for it in free) else None


def has_type(types: bytes, kind: int) -> bool:
    """Whether a type is in a map of RFT_ID."""
    return bool(number(types[4 * (kind >> 5) : 4 * (kind >> 5) + 4]) >> (kind & 31) & 1)


def listed(port: Port, reply: Reply, size: int) -> tuple[set[int], bool]:
    """The addresses of an answer of the name server, and whether the capture has it up to its last entry (FC-GS-6)."""
    payload = b"".join(it.fc.payload for it in parts(port, reply.at) if it.fc)[16:]
    entries = [payload[at : at + size] for at in range(0, len(payload) - size + 1, size)]
    return {number(it[1:4]) for it in entries}, not payload or bool(entries) and entries[-1][0] >= 0x80


@dataclass
class Evidence:
    """Which names the switch lets see each other, and which it doesn't, with the reason."""

    joined: set[Pair] = field(default_factory=set)
    apart: dict[Pair, str] = field(default_factory=dict)
    initiators: set[bytes] = field(default_factory=set)  # which are in no zone with each other, by custom

    def split(self) -> dict[Pair, str]:
        return {pair: why for pair, why in self.apart.items() if pair not in self.joined}


def from_lists(told: list[Told], found: Evidence) -> dict[int, bytes]:
    """What the name server's answers list; gives the names by address."""
    live, types = Live(), dict[bytes, bytes]()
    for it in told:
        live.take(it)
        fc, verdict = it.heard.fc, it.reply.verdict if it.reply else ""
        asker = live.holders.get(fc.s_id) if fc is not None else None
        if fc is None or asker is None or it.reply is None or not it.heard.is_fcoe:
            continue
        if fc.command == RFT_ID and verdict == "answered":
            types[asker] = fc.payload[20:52]
        if fc.command == RFF_ID and fc.payload[22:24] == bytes([INITIATOR, SCSI]):
            found.initiators.add(asker)
        if fc.command not in LISTED or verdict not in ("answered", NO_TYPES) or len(fc.payload) < 20:
            continue
        addresses, is_whole = listed(it.port, it.reply, LISTED[fc.command]) if verdict == "answered" else (set[int](), True)
        seen = {live.holders.get(one) for one in addresses}
        here = {name for own in live.names.values() for name in own}
        for name, own_types in types.items():
            if name != asker and name in here and has_type(own_types, fc.payload[19]):
                if name in seen:
                    found.joined.add(frozenset((asker, name)))
                elif is_whole:
                    found.apart.setdefault(frozenset((asker, name)), f"the switch's answer to {it.heard.kind} of {fcid(fc.s_id)} doesn't list it")
    return live.holders


def from_data(ports: list[Port], switches: set[bytes], holders: dict[int, bytes], found: Evidence) -> None:
    """What the switch sent on, and which PLOGIs it didn't."""
    went = {(it.heard.fc.s_id, it.heard.fc.d_id) for port in ports for it in port.frames.used() if it.heard.source in switches and it.heard.is_fcoe and it.heard.fc}
    for s_id, d_id in went:
        if s_id in holders and d_id in holders:
            found.joined.add(frozenset((holders[s_id], holders[d_id])))
    can_show = {name for port in ports if port.replies for at in port.host_messages for name in (login_names(port.frames.heard(at)) or ())[:1]}
    for port in ports:
        for at in port.host_messages:
            heard = port.frames.heard(at)
            fc = heard.fc
            if heard.kind == "PLOGI" and heard.is_fcoe and fc and fc.d_id < WELL_KNOWN and (fc.s_id, fc.d_id) not in went:
                names = holders.get(fc.s_id), holders.get(fc.d_id)
                if names[0] and names[1] and names[1] in can_show:
                    found.apart.setdefault(frozenset((names[0], names[1])), f"the switch didn't send on the PLOGI of {fcid(fc.s_id)} to {fcid(fc.d_id)}")


def groups_of(names: list[bytes], apart: set[Pair]) -> list[list[bytes]]:
    """Zones in which nobody is with whom he is apart from, and everybody else together."""
    made: list[list[bytes]] = []
    for one, other in combinations(names, 2):
        pair = frozenset((one, other))
        if pair in apart or any(one in it and other in it for it in made):
            continue
        group = [one, other]
        group += [it for it in names if it not in group and not any(frozenset((it, own)) in apart for own in group)]
        made.append([it for it in names if it in group])
    return made


def ordinal(count: int) -> str:
    return {1: "first", 2: "second", 3: "third"}.get(count, f"{count}th")


def with_zones(inputs: Inputs, split: dict[Pair, str], initiators: set[bytes]) -> None:
    """Puts zones in place of the one of all names. That initiators alone are apart is as usual, and no answer."""
    names = sorted({name for members in inputs.config.zones.values() for name in members})
    groups = groups_of(names, set(split))
    inputs.config.zones = {f"seen{place}": members for place, members in enumerate(groups, 1)}
    lines = [it for it in inputs.text.splitlines() if not it.startswith("zone ")]
    lines += [f"zone {name} " + " ".join(colons(it) for it in members) for name, members in inputs.config.zones.items()]
    inputs.text = "\n".join(lines) + "\n"
    told = {pair: why for pair, why in split.items() if not pair <= initiators}
    for some, said in ((told, inputs.derived), ({} if told else split, inputs.details)):
        if some:
            pair, why = next(iter(some.items()))
            more = f", and {counted(len(some) - 1, 'more pair')}" if len(some) > 1 else ""
            said.append(f"zones: {' and '.join(colons(it) for it in sorted(pair))} are apart, since {why}{more}")


def derive(inputs: Inputs, has_zones: bool) -> None:
    """Takes into the configuration what the switch's answers tell and its advertisements don't; each is said. What was given stays."""
    replies = replies_to(inputs.ports, inputs.config.mac)
    if not inputs.is_drawn or not replies:
        return
    told = list(in_time(inputs.ports, replies))
    limit = limit_of(told)
    if limit is not None:
        lines = [it for it in inputs.text.splitlines() if not it.startswith("limit ")]
        inputs.text = "\n".join([*lines, f"limit {limit}"]) + "\n"
        inputs.details.append(f"limit {limit}, since the switch rejected the {ordinal(limit + 1)} login with 09 29 (insufficient resources)")
    evidence = Evidence()
    holders = from_lists(told, evidence)
    from_data(inputs.ports, inputs.switches, holders, evidence)
    split = evidence.split()
    if split and not has_zones and 2 <= len(Counter(name for members in inputs.config.zones.values() for name in members)) <= MOST_NAMES:
        with_zones(inputs, split, evidence.initiators)
    inputs.details += inputs.derived
