"""Answers on logins that were rejected: by the codes, by the switch's room for logins, by who else advertises itself, by who has the name."""
from collections import Counter
from dataclasses import dataclass
from typing import Iterable, Iterator, Optional

from ..errors import counted
from ..frames.codes import spelled
from ..frames.heard import colons, fcid, login_names
from ..moments import short
from ..runs.compare import followers_text
from ..runs.enodes import Seen
from ..runs.fabric import Login
from ..runs.journals import Frame
from ..runs.looking import Look
from ..runs.readdress import Request
from ..runs.steps import NO_ROOM, next_step
from .answer import FEW, About, Answer, Severity
from .logins import beats_of, cleared_at, last_heard, real
from .rivals import PART, Rivals, rivals_on, switch_text

NAME_HELD = "rejected 03 00"
LISTS = "`show flogi database`, `switchshow`"
Group = tuple[int, bytes, str, str]  # port, port name, kind and verdict of requests


def entries_of(look: Look, wanted: Iterable[Request]) -> dict[Request, Frame]:
    """The journal's entries of some requests."""
    some, found, entries = set(wanted), {}, look.run.entries
    for place in entries.places(lambda verdict: verdict.startswith(("granted", "rejected", "dropped"))) if some else ():
        request = look.request_of(entries.ports[place], entries.indexes[place])
        if request in some:
            found[request] = entries.frame(place)
    return found


def holder_text(look: Look, name: bytes, request: Request, clock: int) -> str:
    """Which login holds a name at a moment, and when it ends if it stays silent."""
    places = {look.request_of(*it.granted_frame): it for it in look.walk.fabric.logins}
    own = [it for place, it in places.items() if it.name == name and place != request and it.is_live(clock)]
    if not own:
        return "no login of these captures holds the name: it is on a port that wasn't captured, or is older than the capture"
    it = own[-1]
    address = look.on_switch(it)
    heard = last_heard(beats_of(look), it, clock)
    ends = heard + look.run.config.period * 5 // 2
    return (
        f"the name is held by {fcid(address)} on port {it.port} (ENode {colons(it.enode)}, since {short(it.since, clock)}, "
        f"heard last {short(heard, clock)}): it ends by its LOGO, by a FLOGI of its ENode, or by silence at {short(ends, clock)}"
    )


def rejects_in(all_seen: list[Seen]) -> dict[Group, list[Request]]:
    """The FLOGIs and FDISCs that the switch rejected, by port, port name, kind and verdict."""
    found: dict[Group, list[Request]] = {}
    for seen in all_seen:
        for at in seen.enode.all("FLOGI", "FDISC"):
            reply, names = seen.reply(at), login_names(seen.enode.heard(at))
            if reply and names and reply.verdict.startswith("rejected"):
                found.setdefault((seen.enode.port.number, names[0], seen.enode.heard(at).kind, reply.verdict), []).append((seen.enode.port.number, at))
    return found


def span_of(look: Look, requests: list[Request]) -> tuple[int, int, list[tuple[int, int]]]:
    """The first moment, the last one, and where the frames stand in the user's files."""
    frames = [(look.captured[port - 1].frames, at) for port, at in requests]
    clocks = [it.milliseconds(at) for it, at in frames]
    return min(clocks), max(clocks), [(port, it.number(at)) for (port, _), (it, at) in zip(requests, frames)]


def here_text(verdicts: list[str]) -> str:
    """What this forwarder does with the first of the same requests."""
    first = verdicts[0] if verdicts else ""
    if first.startswith("granted"):
        return "; a right switch would grant it"
    return f"; a right switch would answer {spelled(first)}" if first else ""


def step_of(look: Look, verdict: str, request: Request) -> str:
    """What to look at next after a request's verdict, by its codes and by what the captures have shown."""
    frames = look.captured[request[0] - 1].frames
    heard = frames.heard(request[1])
    names = login_names(heard) if heard.kind in ("FLOGI", "FDISC") else None
    if names and verdict == NAME_HELD:
        return holder_text(look, names[0], request, frames.milliseconds(request[1])) if any(names[0]) else "the port name is 0: the host's driver"
    if names and verdict == NO_ROOM:
        return room_of(look, request).step(heard.kind)
    return next_step(verdict, heard)


@dataclass
class Room:
    """The logins that the switch had granted when it had no room for another: those on the port, by kind, and how many on others."""

    own: Counter[str]
    others: int
    captures: int

    @property
    def text(self) -> str:
        """How many it grants; empty where the captures don't show a grant."""
        kinds = " + ".join(counted(count, kind) for kind, count in sorted(self.own.items(), reverse=True))
        on_others = f"{counted(self.others, 'login')} on other ports" if self.others else ""
        here = f"{counted(self.own.total(), 'login')} here ({kinds})" if self.own else ""
        return " and ".join(it for it in (here, on_others) if it)

    def step(self, kind: str) -> str:
        told = "this capture doesn't show which" if self.captures == 1 else "these captures don't show which"
        if not self.own and not self.others:
            return f"the switch's list of logins ({LISTS}) beside its limit and that of the port" + (", and whether the port takes NPIV" if kind == "FDISC" else "")
        if not self.own:
            return f"raise the switch's limit of logins, or end one ({LISTS}): the port had none"
        if kind == "FDISC" and "FDISC" not in self.own:
            return f"whether the port takes NPIV, and its limit of logins beside the switch's ({LISTS})"
        return f"raise the port's limit of logins (NPIV), or the switch's: {told} ({LISTS} list the logins)"


def room_of(look: Look, request: Request) -> Room:
    """The logins of the switch at a request."""
    port, at = request
    clock = look.captured[port - 1].frames.milliseconds(at)
    own, others = Counter[str](), 0
    for it in real(look, look.walk.fabric.logins):
        ended = cleared_at(look, it, it.since)
        if not it.is_live(clock) or ended is not None and ended <= clock or look.request_of(*it.granted_frame) == request:
            continue
        own["FDISC" if it.is_fdisc else "FLOGI"] += it.port == port
        others += it.port != port
    return Room(+own, others, len(look.captured))


def followers_of(look: Look, requests: list[Request]) -> list[str]:
    """What this forwarder tells of logins that the switch rejected, in one line."""
    told = [*look.compared.notices, *look.compared.answers] if look.compared else []
    some = [it for it in told if it.follows and look.request_of(it.follows.port, it.follows.index) in requests]
    return [followers_text(some)] if some else []


@dataclass
class Refusal:
    """Requests of one port name that the switch rejected alike."""

    look: Look
    port: int
    name: bytes
    kind: str
    verdict: str
    requests: list[Request]
    here: list[str]  # what this forwarder does with them

    @property
    def got_in(self) -> bool:
        return bool(self.grants())

    def grants(self) -> list[int]:
        """Where the port name was granted what it asked for."""
        own = [at for number_, at in self.look.grants if number_ == self.port]
        frames = self.look.captured[self.port - 1].frames
        return [at for at in own if (names := login_names(frames.heard(at))) and names[0] == self.name]

    @property
    def is_over(self) -> bool:
        """It was granted that later: a switch may say that it's busy, or know the name for a while."""
        return any(at > self.requests[-1][1] for at in self.grants())

    @property
    def text(self) -> str:
        return f"rejected {counted(len(self.requests), self.kind)}, {spelled(self.verdict)[len('rejected '):]}"

    @property
    def beside(self) -> str:
        return "" if set(self.here) == {self.verdict} else here_text(self.here)

    def strange(self) -> Optional[Rivals]:
        """The switches in its VLAN, where they are of several fabrics and the host tried this one alone."""
        rivals = rivals_on(self.look, self.port)
        port = self.look.captured[self.port - 1]
        source = port.frames.heard(self.requests[0][1]).source
        heard = (port.frames.heard(at) for at in port.host_messages)
        tried = {it.destination for it in heard if it.source == source and it.kind == self.kind}
        return rivals if rivals and rivals.are_apart and not any(rivals.other(it) for it in tried) else None

    def answer(self) -> Answer:
        """What was rejected, and what to do next: first whether the switch is the host's own."""
        step, rivals = step_of(self.look, self.verdict, self.requests[0]), None if self.got_in else self.strange()
        followers = followers_of(self.look, self.requests)
        said = f"the switch {self.text}{self.beside}"
        if rivals is not None:
            others = " and ".join(switch_text(it) for it in rivals.others)
            said = f"{rivals.text}; the host logs in to {switch_text(rivals.own)}, which {self.text}, and never tried {others}"
            step = f"if {' or '.join(colons(it.mac) for it in rivals.others)} is its own: {PART}; only if {colons(rivals.own.mac)} is: {step}"
            followers = [rivals.fabrics, *followers]
        elif self.verdict == NO_ROOM and (room := room_of(self.look, self.requests[0]).text):
            said += f"; it grants {room}"
        text = f"got in, though {said[:1].lower()}{said[1:]} before" if self.is_over else said if self.got_in else f"got no login: {said}"
        made = Answer(Severity.NOTED if self.is_over else Severity.FAILED, text, step, self.port, colons(self.name), *span_of(self.look, self.requests), followers)
        port, at = self.requests[0]
        made.about, made.enode = About.FURTHER if self.kind == "FDISC" else About.ENTRY, self.look.captured[port - 1].frames.heard(at).source
        return made


def refusals_of(look: Look, all_seen: list[Seen]) -> list[Refusal]:
    groups = rejects_in(all_seen)
    own = entries_of(look, [it for some in groups.values() for it in some])
    return [Refusal(look, *group, requests, [own[it].verdict for it in requests if it in own]) for group, requests in groups.items()]


def rejected(look: Look, all_seen: list[Seen]) -> Iterator[Answer]:
    """Logins that the switch rejected, the reason first; those on one port for which it had no room together."""
    late: dict[tuple[int, str], list[Refusal]] = {}
    for it in refusals_of(look, all_seen):
        if it.verdict == NO_ROOM and not it.got_in and not it.strange():
            late.setdefault((it.port, it.kind), []).append(it)
        else:
            yield it.answer()
    for some in late.values():
        room = room_of(look, some[0].requests[0])
        if len(some) > 1 and room.text:
            yield too_late(look, some, room)
        else:
            yield from (it.answer() for it in some)


def too_late(look: Look, some: list[Refusal], room: Room) -> Answer:
    """Port names for which the switch had no room."""
    first, requests = some[0], [request for it in some for request in it.requests]
    names = [colons(it.name) for it in some]
    whose = f"{', '.join(names[:-1])} and {names[-1]}" if len(names) <= FEW else f"{len(names)} port names"
    text = f"the switch grants {room.text}; {whose} come too late: it rejected {counted(len(requests), first.kind)}, {spelled(first.verdict)[len('rejected '):]}"
    followers = [f"{name}: {counted(len(it.requests), it.kind)}" for name, it in zip(names, some)] if len(names) > FEW else []
    return Answer(Severity.FAILED, text + first.beside, room.step(first.kind), first.port, "", *span_of(look, requests), followers + followers_of(look, requests))


def rejected_here(look: Look, all_seen: list[Seen]) -> Iterator[Answer]:
    """Logins that this forwarder rejects, of hosts of which the captures don't tell what the switch said."""
    groups: dict[Group, list[Request]] = {}
    places = {(seen.enode.port.number, at): seen.enode.heard(at) for seen in all_seen for at in seen.enode.all("FLOGI", "FDISC") if not seen.reply(at)}
    for request, entry in entries_of(look, places).items():
        heard = places[request]
        names = login_names(heard)
        if entry.word == "rejected" and names and request not in look.grants:
            groups.setdefault((entry.port, names[0], heard.kind, entry.verdict), []).append(request)
    for (port, name, kind, verdict), requests in groups.items():
        span = span_of(look, requests)
        text = f"a right switch would reject {counted(len(requests), kind)}, {spelled(verdict)[len('rejected '):]}; the switch's answer isn't in the captures"
        yield Answer(Severity.FAILED, text, step_of(look, verdict, requests[0]), port, colons(name), *span)


@dataclass
class Shared:
    """A port name that two hosts use at the same time: the login that had it, and who asks for it too."""

    login: Login
    seen: Seen
    requests: list[Request]

    def answer(self, look: Look) -> Answer:
        port, mac = self.seen.enode.port.number, self.seen.enode.mac
        since, until, numbers = span_of(look, self.requests)
        reply = self.seen.reply(self.requests[0][1])
        said = f"; the switch's answer to the latter: {spelled(reply.verdict)}" if reply else ""
        text = f"two hosts use this port name at once: {colons(self.login.enode)} on port {self.login.port}, and from {short(since, since)} on {colons(mac)} on port {port}{said}"
        step = "which of the two it belongs to; give the other a WWPN of its own (a cloned machine, a virtual N_Port that was copied)"
        return Answer(Severity.FAILED, text, step, port, colons(self.login.name), since, until, numbers)


def shared(look: Look, all_seen: list[Seen]) -> Iterator[Shared]:
    """Port names for which a second host asks while the first goes on with its own login."""
    beats = beats_of(look)
    for seen in all_seen:
        asked: dict[bytes, list[int]] = {}
        for at in seen.enode.all("FLOGI", "FDISC"):
            names = login_names(seen.enode.heard(at))
            if names:
                asked.setdefault(names[0], []).append(at)
        for name, places in asked.items():
            clock = seen.clock(places[0])
            had = (it for it in look.walk.fabric.logins if it.name == name and it.enode != seen.enode.mac and not it.is_fdisc and it.is_live(clock))
            login = next((it for it in had if max(beats.get((it.port, it.enode), [0])) > clock), None)
            if login is not None:
                yield Shared(login, seen, [(seen.enode.port.number, at) for at in places])
