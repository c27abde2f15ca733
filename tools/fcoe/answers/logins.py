"""Answers on logins that ended: by silence, by the switch, by another of their ENode."""
from dataclasses import dataclass
from itertools import accumulate, islice
from typing import Iterable, Iterator, Optional

from ..errors import counted
from ..frames.columns import MILLISECOND
from ..frames.heard import ALL_ENODES, CLEAR, KEEP_ALIVE, LOGIN, Heard, colons, fcid, number
from ..moments import short
from ..runs.fabric import Login
from ..runs.inputs import Port
from ..runs.looking import Look
from .answer import About, Answer, Severity, times

GAP_PERIODS, LEAST_GAP, LONG_GAP = 4, 60_000, 600_000  # periods and milliseconds without any frame that are the capture's
PORT_PERIOD, SILENT = 90_000, 2  # milliseconds between the keep alives of a VN_Port; periods without one, from which on a clear link message follows from that
VX_PORT = 11  # the descriptor of a clear link message that names a VN_Port
HEEDED = 500  # milliseconds: Linux heeds no shorter advertised period
Edge = tuple[int, int, int]  # of a time without frames: milliseconds, port and place of the frame there
Rest = tuple[Edge, Edge]
BEFORE, BEHIND = (-1 << 62, 0, 0), (1 << 62, 0, 0)  # the captures
AGAIN = "its ENode logged in again (FLOGI)"


def beats_of(look: Look) -> dict[tuple[int, bytes], list[int]]:
    """When each ENode was heard, by its logins and keep alives, as the captures have it."""
    found: dict[tuple[int, bytes], list[int]] = {}
    for port in look.captured:
        for at in port.host_messages:
            heard = port.frames.heard(at)
            if heard.is_fip and heard.operation in (LOGIN, KEEP_ALIVE):
                found.setdefault((port.number, heard.source), []).append(port.frames.milliseconds(at))
    return found


def last_heard(beats: dict[tuple[int, bytes], list[int]], login: Login, clock: int) -> int:
    """When the ENode of a login was heard last before a moment."""
    return max((it for it in beats.get((login.port, login.enode), []) if it < clock), default=login.since)


def real(look: Look, logins: Iterable[Login]) -> list[Login]:
    """The logins that the switch granted too, as far as its answers are there."""
    return [it for it in logins if look.replied(it) is not False]


def is_cleared(heard: Heard, login: Login, address: int) -> bool:
    """A clear link message to a login's ENode ends this login: one without a list ends all, one with a list those that it names (FC-BB-5)."""
    if heard.operation != CLEAR or heard.destination not in (login.enode, ALL_ENODES):
        return False
    listed = [number(it.data[9:12]) for it in heard.descriptors if it.kind == VX_PORT and len(it.data) >= 12]
    return address in listed or not listed and heard.destination == login.enode


def clear_of(look: Look, login: Login, clock: int) -> Optional[int]:
    """The place of the switch's first message that clears a login, from a moment on."""
    port, address = look.captured[login.port - 1], look.on_switch(login)
    own = (at for at in port.switch_messages if is_cleared(port.frames.heard(at), login, address))
    return next((it for it in own if port.frames.milliseconds(it) >= clock), None)


def cleared_at(look: Look, login: Login, clock: int) -> Optional[int]:
    """When the switch cleared a login, from a moment on."""
    place = clear_of(look, login, clock)
    return look.captured[login.port - 1].frames.milliseconds(place) if place is not None else None


def cleared_first(look: Look, login: Login) -> Optional[int]:
    """The place of the switch's message that cleared a login, where that was its end."""
    place = clear_of(look, login, login.since)
    if place is None or login.until is not None and look.captured[login.port - 1].frames.milliseconds(place) >= login.until:
        return None
    return place


@dataclass
class Gap:
    """A time without any frame of anybody: of the capture or of its clock, not of a host. In milliseconds."""

    since: int
    until: int
    frames: list[tuple[int, int]]

    @property
    def text(self) -> str:
        return f"no frame of anybody from {short(self.since, self.since)} to {short(self.until, self.since)} ({minutes(self.until - self.since)}): the capture has a gap there, or its clock jumped; so nobody is said to have been silent then"


def minutes(milliseconds: int) -> str:
    return f"{milliseconds / 60000:.0f} min" if milliseconds >= 120_000 else f"{milliseconds / 1000:.0f} s"


def gaps_of(look: Look) -> list[Gap]:
    """The times without any frame at any port, of several periods, in which the switch should have advertised; without its frames, of ten minutes."""
    has_switch = any(it.replies for it in look.captured)
    least = max(GAP_PERIODS * look.run.config.period, LEAST_GAP) if has_switch else LONG_GAP
    common: list[Rest] = [(BEFORE, BEHIND)]
    for port in look.captured:
        own = rests_of(port, least)
        common = [(max(one[0], other[0]), min(one[1], other[1])) for one in common for other in own]
        common = [it for it in common if it[1][0] - it[0][0] >= least]
    between = [it for it in common if it[0] != BEFORE and it[1] != BEHIND]
    return [Gap(since[0], until[0], [(port, look.captured[port - 1].frames.number(at)) for _, port, at in (since, until)]) for since, until in between]


def rests_of(port: Port, least: int) -> list[Rest]:
    """The times without any frame at a port, with those before its first and behind its last."""
    moments = port.frames.moments
    clocks = [it // MILLISECOND for it in (moments[0], max(moments))] if moments else []
    if not clocks:
        return [(BEFORE, BEHIND)]
    long = least * MILLISECOND - MILLISECOND  # in whole milliseconds it may be long enough
    latest: Iterator[int] = accumulate(moments, max)
    places = [at for at, (one, other) in enumerate(zip(latest, islice(moments, 1, None)), 1) if other - one > long]
    inner = [((max(moments[:at]) // MILLISECOND, port.number, at - 1), (moments[at] // MILLISECOND, port.number, at)) for at in places]
    return [(BEFORE, (clocks[0], port.number, 0)), *inner, ((clocks[1], port.number, len(moments) - 1), BEHIND)]


def gaps(look: Look) -> Iterator[Answer]:
    """Times without any frame."""
    step = "how it was captured then: files in a ring of which one lacks, a `tcpdump` that was stopped, a clock that was set"
    for it in gaps_of(look):
        yield Answer(Severity.NOTED, it.text, step, None, "", it.since, it.until, it.frames)


@dataclass
class Silence:
    """A login whose host fell silent: when it was heard last, when its login ends by that, and why."""

    login: Login
    heard: int
    ends: int
    why: str

    @property
    def port(self) -> int:
        return self.login.port

    @property
    def enode(self) -> bytes:
        return self.login.enode

    @property
    def is_of_port(self) -> bool:
        """Of its VN_Port, not of its ENode."""
        return "VN_Port" in self.why

    def period(self, look: Look) -> int:
        return PORT_PERIOD if self.is_of_port else look.run.config.period


def lapsed_logins(look: Look) -> list[Silence]:
    """The logins that no keep alive held up though none was due: the switch wants none (D), or nobody at all was captured then."""
    if look.run.config.is_quiet:
        return all_silent(look)
    times_off = gaps_of(look)
    return [it for it in all_silent(look) if any(gap.since < it.ends and it.heard <= gap.since for gap in times_off)] if times_off else []


def silent_logins(look: Look) -> list[Silence]:
    """The logins whose host fell silent, and not because the switch had cleared them."""
    lapsed = {id(it.login) for it in lapsed_logins(look)}
    return [it for it in all_silent(look) if id(it.login) not in lapsed and not is_freed(look, it)]


def is_freed(look: Look, it: Silence) -> bool:
    """The switch cleared the login while no keep alive lacked: from then on none is owed."""
    place = cleared_first(look, it.login)
    return place is not None and look.captured[it.port - 1].frames.milliseconds(place) - it.heard < SILENT * it.period(look)


def all_silent(look: Look) -> list[Silence]:
    """The logins that ended by silence, and those that stay live only because no frame of a host comes after them."""
    end = max((it.frames.milliseconds(-1) for it in look.captured if it.frames), default=0)
    found, beats = [], beats_of(look)
    for it in real(look, look.walk.fabric.logins):
        heard = last_heard(beats, it, it.until or end + 1)
        if it.why.startswith("silent"):
            found.append(Silence(it, heard, it.until or end, it.why.removeprefix("silent: ")))
        elif it.until is None and 2 * (end - heard) > 5 * look.run.config.period:
            why = f"no keep alive of its ENode for {(end - heard) / 1000:.1f} s, up to the end of the captures"
            found.append(Silence(it, heard, heard + look.run.config.period * 5 // 2, why))
    return found


def silent_text(look: Look, it: Silence) -> str:
    """What a login's silence is, and what the switch did."""
    port, period = look.captured[it.port - 1], look.run.config.period
    clear = cleared_at(look, it.login, it.heard)
    said = f"fell silent: {it.why} (the period is {period} ms), so its login {fcid(look.on_switch(it.login))} ends {short(it.ends, it.heard)}"
    if clear is not None:
        return f"{said}; the switch cleared it {short(clear, it.heard)}"
    return said + ("; the switch sent no clear link message" if port.replies else "")


def by_period(look: Look, own: list[Silence]) -> Answer:
    """Logins that fell silent by a period that Linux doesn't heed."""
    text = f"the switch advertises a period of {look.run.config.period} ms, and Linux heeds none below {HEEDED} ms: {counted(len(own), 'login')} fell silent by it"
    followers = [f"{colons(it.login.name)} (port {it.port}): {it.why}" for it in own]
    return Answer(Severity.LOST, text, "set the switch's keep alive period (FKA_ADV_Period) to 8,000 ms", None, "", own[0].ends, own[-1].ends, followers=followers)


def silent(look: Look) -> Iterator[Answer]:
    """Logins that ended by silence; those of a period that Linux doesn't heed together."""
    own = silent_logins(look)
    if own and look.run.config.period < HEEDED:
        yield by_period(look, own)
        return
    groups: dict[tuple[int, bytes], list[Silence]] = {}
    for it in own:
        groups.setdefault((it.port, it.enode), []).append(it)
    for some in groups.values():
        step = "what the host did then: its link, its driver, its load; a bridge that loses its keep alives"
        if some[0].is_of_port:
            step = "the host's driver: it owes a keep alive of this VN_Port each 90 s, beside those of its ENode"
        followers = [f"{colons(it.login.name)}: {it.why}" for it in some[1:]]
        made = Answer(Severity.LOST, silent_text(look, some[0]), step, some[0].port, colons(some[0].login.name), some[0].heard, some[-1].ends, followers=followers)
        made.about, made.enode = About.ALIVE, some[0].enode
        yield made


def is_used(look: Look, login: Login) -> bool:
    """The host sends from the MAC that the switch granted to it, or keeps its login alive."""
    mac = look.inputs.fc_map + look.on_switch(login).to_bytes(3, "big")
    used = look.captured[login.port - 1].frames.used()
    return any(it.heard.source == mac or it.heard.source == login.enode and it.heard.operation == KEEP_ALIVE for it in used)


def ends_of(look: Look, logins: list[Login]) -> list[tuple[int, int]]:
    """The frames that ended logins, where they stand in the user's files."""
    entries = [look.run.entries.frame(it.ended_by) for it in logins if it.ended_by is not None]
    return [(it.port, look.ports[it.port - 1].frame_number(it.index)) for it in entries]


def unused(look: Look, logins: list[Login]) -> Answer:
    """A host that is granted an address again and again, and takes none."""
    first, granted = logins[0], fcid(look.on_switch(logins[0]))
    text = f"was granted {granted} {times(len(logins) + 1)} and never used it: the accept doesn't reach the host, or the host refuses it"
    step = "the accept's fields (`look compare`): FPMA, fabric port bit, receive size, OX_ID; a capture at the host, whether it arrives there"
    return Answer(Severity.FAILED, text, step, first.port, colons(first.name), first.since, logins[-1].until)


@dataclass
class Cleared:
    """A login that the switch cleared though this forwarder goes on with it: when, and which keep alives of its ENode stand before that."""

    login: Login
    at: int
    number: int  # of the clear link message, as Wireshark shows it
    beats: list[int]
    is_taken: bool  # this forwarder takes each of them as a keep alive of that login


def cleared_logins(look: Look) -> list[Cleared]:
    """The logins that the switch cleared while they were live here."""
    beats, taken, found = beats_of(look), taken_beats(look), []
    with_node = {id(it) for it in look.walk.fabric.logins if it.is_fdisc and is_with_node(look, it)}
    by_silence = {id(it.login) for it in silent_logins(look)}
    for it in real(look, look.walk.fabric.logins):
        frames, place = look.captured[it.port - 1].frames, cleared_first(look, it)
        at = frames.milliseconds(place) if place is not None else 0
        if place is not None and not (it.is_fdisc and (it.why.startswith("silent") or id(it) in with_node)) and id(it) not in by_silence:
            own = [beat for beat in beats.get((it.port, it.enode), []) if it.since + look.run.config.window < beat < at]
            found.append(Cleared(it, at, frames.number(place), own, all((it.port, it.enode, beat) in taken for beat in own)))
    return found


def is_with_node(look: Look, login: Login) -> bool:
    """A further N_Port that was cleared by the message that cleared its ENode's own login."""
    place = cleared_first(look, login)
    own = (it for it in look.walk.fabric.logins if (it.port, it.enode) == (login.port, login.enode) and not it.is_fdisc)
    return place is not None and any(cleared_first(look, it) == place for it in own)


def taken_beats(look: Look) -> set[tuple[int, bytes, int]]:
    """The keep alives that this forwarder takes: port, ENode and moment of each."""
    found, entries = set(), look.run.entries
    for place in entries.places(lambda verdict: verdict.startswith("alive")):
        port, at = look.request_of(entries.ports[place], entries.indexes[place])
        frames = look.captured[port - 1].frames
        found.add((port, frames.heard(at).source, frames.milliseconds(at)))
    return found


def why_cleared(some: list[Cleared], period: int) -> tuple[str, str]:
    """Why the switch cleared a host's logins, by when it did and by the host's keep alives; and what to do next."""
    log = "the switch's log at that time: why it cleared the link (its port, its VSAN or fabric, a limit)"
    if not all(it.beats and 2 * (it.at - it.beats[-1]) < 5 * period for it in some):
        return "", log
    if not all(2 * period <= it.at - it.login.since <= 4 * period for it in some):
        last = (some[0].at - some[0].beats[-1]) / 1000
        return f", though the host's keep alives stand in this capture up to {last:.1f} s before", f"whether they reach the switch (capture at its port too); {log}"
    beats = sum(len(it.beats) for it in some)
    text = f", as if it heard no keep alive: {counted(beats, 'keep alive')} of the host {'stands' if beats == 1 else 'stand'} in this capture before that"
    if not all(it.is_taken for it in some):
        return f"{text}, and a right switch wouldn't take all of them", f"the keep alives themselves (`look fields`, `look check`); {log}"
    text += ", well formed, to the switch's MAC and in its VLAN: probably they are lost on the way"
    step = "the path of its keep alives from where this was captured to the switch: a bridge, FIP snooping or a filter may lose FIP to the switch's own MAC"
    return text, f"{step}; capture at the switch's port too"


def cleared(look: Look) -> Iterator[Answer]:
    """Logins that the switch cleared."""
    groups: dict[tuple[int, bytes], list[Cleared]] = {}
    for it in cleared_logins(look):
        groups.setdefault((it.login.port, it.login.name), []).append(it)
    for (port, name), some in groups.items():
        lasted, period = some[0].at - some[0].login.since, look.run.config.period
        why, step = why_cleared(some, period)
        after = f"{lasted / 1000:.1f} s after its accept ({lasted / period:.1f} periods of {period} ms)"
        text = f"the switch cleared its login {times(len(some))}{', first' if len(some) > 1 else ','} {after}{why}"
        places = [(port, it.number) for it in some]
        yield Answer(Severity.LOST, text, step, port, colons(name), some[0].at, some[-1].at, places, about=About.ALIVE, enode=some[0].login.enode)


def again(look: Look, told: set[tuple[int, bytes]]) -> Iterator[Answer]:
    """Logins that their ENode made again without a LOGO; of hosts of which other answers tell why none."""
    groups: dict[tuple[int, bytes], list[Login]] = {}
    for it in real(look, (it for it in look.walk.fabric.logins if it.why == AGAIN and not it.is_fdisc and (it.port, it.enode) not in told)):
        groups.setdefault((it.port, it.name), []).append(it)
    for (port, name), logins in groups.items():
        if not is_used(look, logins[0]):
            if look.captured[port - 1].replies:
                yield unused(look, logins)
            continue
        text = f"logged in again {times(len(logins))} without a LOGO: {'it' if len(logins) == 1 else 'each'} ends the login before, and those of its further N_Ports"
        step = "the host's log at that time: its link went down and up, or its driver began anew"
        severity = Severity.LOST if len(logins) > 1 else Severity.NOTED  # a link that went down once
        yield Answer(severity, text, step, port, colons(name), logins[0].until, logins[-1].until, ends_of(look, logins))
