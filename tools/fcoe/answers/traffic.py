"""Answers on frames: those that were dropped, and those that the switch answered otherwise."""
from array import array
from dataclasses import dataclass, field
from typing import Iterator, Optional

from ..errors import counted
from ..exchanges.exchange import End
from ..exchanges.facts import Facts
from ..frames.codes import spelled
from ..frames.heard import KEEP_ALIVE, Heard, colons, fcid, is_login
from ..runs.compare import Compared
from ..runs.hosts import WELL_KNOWN
from ..runs.fabric import Login
from ..runs.journals import Frame, row_of
from ..runs.looking import Look
from ..runs.pairs import asks
from ..runs.readdress import Request
from ..runs.steps import next_step
from .answer import About, Answer, Severity, times
from .who import SERVICES

OUTSIDE = ("fip-operation", "fcoe-class", "service-address", "self")  # what other switches may do more with than the run does (docs/DECISIONS.md)
NOISE, CUT = "dropped ethertype", "dropped truncated"
OF_LOGINS = ("dropped source-login", "dropped dest-login", "dropped keepalive-unknown", "dropped source-mac")  # where a login lacks
SCSI, TARGET = 0x08, 1  # an FC-4 type, and a feature of it that a port registers
LISTED = 1000  # frames of an answer that are named
STORM, STORM_TIME = 10, 1000  # logins within so many milliseconds that are a storm
SHOWN = 3  # differences that an answer each is made of
ASTRAY = {  # what to do about frames from another MAC than was granted, by whether their FC-MAP alone is another
    False: "the host's driver: it must send from the MAC that the accept grants; are the flags FP and SP of its FLOGI right (`look fields`)?",
    True: "the host's adapter or driver: it must take the FC-MAP of the switch's advertisements (0e:fc:00 may be fixed there), or set the switch to the host's FC-MAP",
}
UNASKED = {"Clear links": "clear link message", "RSCN": "RSCN", "Advertisement": "advertisement"}


@dataclass
class Drops:
    """Frames of one rule between the same two ends, with addresses as the captures have them."""

    verdict: str
    port: int
    ends: tuple[str, str]
    heard: Heard  # the first
    never: Optional[int] = None  # an end that nobody here was granted
    is_there: bool = False  # the switch granted it
    is_older: bool = False  # keep alives of a login from before the capture
    source: bytes = b""  # the MAC that it was sent from, where its sender was granted another
    granted: bytes = b""  # that other one
    enode: bytes = b""  # and the MAC of its ENode
    places: "array[int]" = field(default_factory=lambda: array("I"))  # in the journal


def is_owed(look: Look, it: Compared, lapsed: set[tuple[int, bytes]]) -> bool:
    """An RSCN that a right switch sends too. Where zones are assumed, it's owed of a target alone: who else is zoned with the host isn't known."""
    _, _, told, _, of = it.request.split(" ")
    ends = [login_of(look, int(word, 16), it.clock) for word in (told, of)]
    if any(one is not None and (one.port, one.enode) in lapsed for one in ends):
        return False
    whom, who = ends
    if it.switch != "missing" or whom is None or who is None or look.inputs.are_zones_known:
        return True
    return whom.enode != who.enode and bool(who.features.get(SCSI, 0) & TARGET)


def login_of(look: Look, address: int, clock: int) -> Optional[Login]:
    """Who held an address of the run at a moment, or last before it."""
    held = [one for one in look.walk.fabric.logins if one.address == address and one.since <= clock + look.run.config.window]
    return held[-1] if held else None


@dataclass
class Explained:
    """What other answers tell of, and is therefore no answer of its own: hosts without a login, by port and MAC; requests that were rejected; hosts
    whose logins ended, by silence, by the switch, or by another host of their name; hosts that send from another MAC than they were granted."""

    hosts: set[tuple[int, bytes]] = field(default_factory=set)
    requests: set[Request] = field(default_factory=set)
    ended: set[tuple[int, bytes]] = field(default_factory=set)
    astray: set[tuple[int, bytes]] = field(default_factory=set)
    others: set[bytes] = field(default_factory=set)  # further switches, whose frames the run can't judge
    vlans: set[int] = field(default_factory=set)  # and their VLANs, where those are others
    lapsed: set[tuple[int, bytes]] = field(default_factory=set)  # hosts whose logins the run alone ended
    listed: set[int] = field(default_factory=set)  # addresses to which the name server lists nobody
    met: set[int] = field(default_factory=set)  # addresses without a login here, of which exchanges tell all the same
    cut: set[int] = field(default_factory=set)  # ports where the capture cut logins, so that nobody is known there

    def has(self, look: Look, it: Compared) -> bool:
        """Whether a difference is told of."""
        if it.request.startswith("Clear links to "):
            whose = (it.port, bytes.fromhex(it.request.rsplit(" ", 1)[1].replace(":", "")))
            return whose in self.ended or whose in self.lapsed
        if it.request.startswith("RSCN to "):
            return not is_owed(look, it, self.lapsed)
        if it.index < 0:
            return False
        request = look.request_of(it.port, it.index)
        if (it.port, look.captured[it.port - 1].frames.like(request[1]).source) in self.lapsed:
            return True
        captured = look.captured[it.port - 1].frames.like(request[1])
        if self.others and (it.request == "VLAN request" or captured.destination in self.others):  # one of several switches answers it
            return True
        asker = look.captured[it.port - 1].frames.like(request[1]).fc
        if asker is not None and asker.kind == 0x20 and asker.s_id in self.listed:
            return True
        return request in self.requests or (it.port, look.captured[it.port - 1].frames.like(request[1]).source) in self.hosts


class Directory:
    """Which logins stand behind the run's addresses, and which addresses the switch alone granted."""

    def __init__(self, look: Look) -> None:
        self.fc_map = look.inputs.fc_map
        self.logins = {it.address: it for it in look.walk.fabric.logins}
        self.switch_alone = {old for old, new in look.grants.values() if new is None}
        followed = [look.request_of(it.port, it.index) for it in look.compared.answers if it.follows] if look.compared else []
        self.held_here = {look.grants[it][0] for it in followed if it in look.grants}  # addresses that the run lacks because it granted what the switch rejected
        self.granted = {(port, look.captured[port - 1].frames.heard(at).source) for port, at in look.grants}

    def of(self, address: int, said: int) -> str:
        """A name, or else the address as the captures have it."""
        if address >= WELL_KNOWN:
            return fcid(address)
        return colons(self.logins[address].name) if address in self.logins else address_text(said, address)


def address_text(captured: int, run: int) -> str:
    """An address as the user's capture has it, with the run's where it is another."""
    return fcid(captured) if captured == run else f"{fcid(captured)} ({fcid(run)} in the run)"


def both(look: Look, entry: Frame) -> tuple[Heard, Heard]:
    """A frame as it was captured, and as the run has it; of data its ends and kind alone are right."""
    port, at = look.request_of(entry.port, entry.index)
    return look.captured[port - 1].frames.like(at), look.ports[port - 1].frames.like(at)


def is_between_logins(known: Directory, run: Heard) -> bool:
    """Both ends of a frame of FCoE are logged in."""
    return run.fc is not None and run.is_fcoe and run.fc.s_id in known.logins and run.fc.d_id in known.logins


def drops_of(known: Directory, explained: Explained, entry: Frame, said: Heard, run: Heard) -> Optional[Drops]:
    """Of which drops a frame is, as it was captured and as the run has it; none where another answer tells of its host."""
    sender = entry.port, said.source
    if said.destination in explained.others or said.is_fabric and said.vlan in explained.vlans:
        return None
    if sender in explained.hosts or sender in explained.lapsed or sender in explained.ended and entry.verdict == "dropped keepalive-unknown":
        return None
    made = Drops(entry.verdict, entry.port, ("", ""), run)
    if entry.verdict == CUT:
        return made
    if entry.port in explained.cut and entry.verdict in OF_LOGINS and not is_between_logins(known, run):
        return None
    made.is_older = entry.verdict == "dropped keepalive-unknown" and not any(it.port == entry.port and (it.enode == said.source or said.source[:3] == known.fc_map) for it in known.logins.values())
    if made.is_older and any(port == entry.port for port, _ in known.granted):
        return None
    if not said.is_fcoe or said.fc is None or run.fc is None:
        return made
    login = known.logins.get(run.fc.s_id)
    if login and entry.verdict == "dropped source-login" and (login.port, login.enode) in explained.ended:
        return None
    made.ends = known.of(run.fc.s_id, said.fc.s_id), known.of(run.fc.d_id, said.fc.d_id)
    lost = {"dropped source-login": (run.fc.s_id, said.fc.s_id), "dropped dest-login": (run.fc.d_id, said.fc.d_id)}.get(entry.verdict)
    if lost and lost[0] not in known.logins:
        if lost[1] in explained.met:
            return None
        if lost[1] in known.held_here:
            return None
        made.never, made.is_there = lost[1], lost[1] in known.switch_alone
    granted = known.fc_map + said.fc.s_id.to_bytes(3, "big")
    if login and entry.verdict == "dropped source-mac" and (login.enode == said.source or said.source[3:] == granted[3:]):
        made.source, made.granted, made.enode = said.source, granted, login.enode
        explained.astray.add((login.port, login.enode))
    return made


def dropped(look: Look, explained: Explained) -> list[Drops]:
    """Drops by rule, port and ends; without noise, and without frames of hosts that another answer tells of."""
    known, entries = Directory(look), look.run.entries
    found: dict[tuple[str, int, tuple[str, str]], Drops] = {}
    alike: dict[tuple[int, int, int, int], Optional[Drops]] = {}  # of frames that are alike, by verdict, port and what they are like
    for place in entries.places(lambda verdict: verdict.startswith("dropped") and verdict != NOISE):
        port, at = look.request_of(entries.ports[place], entries.indexes[place])
        captured, run = look.captured[port - 1].frames, look.ports[port - 1].frames
        key = (entries.said[place], port, captured.flow_of[at], run.flow_of[at])
        if key not in alike:
            own = drops_of(known, explained, entries.frame(place), captured.like(at), run.like(at))
            alike[key] = found.setdefault((own.verdict, own.port, own.ends), own) if own else None
        drops_there = alike[key]
        if drops_there is not None:
            drops_there.places.append(place)
    return list(found.values())


def meaning_of(verdict: str) -> str:
    """What a rule drops, within a sentence."""
    row = row_of(verdict)
    return f"{row.meaning[:1].lower()}{row.meaning[1:].rstrip('.')}" if row else verdict.removeprefix("dropped ")


def astray_text(it: Drops) -> str:
    """From which MAC frames were sent, beside the one that was granted."""
    if it.source[3:] == it.granted[3:]:
        own, granted = colons(it.source), colons(it.granted)
        return f"sent from {own}, with the FC-MAP {own[:8]}; the switch's is {granted[:8]}, and it granted {granted}"
    return f"sent from the ENode's MAC {colons(it.source)} (as with SPMA), not from the granted {colons(it.granted)} (FPMA)"


def drop_text(it: Drops) -> tuple[Severity, str, str]:
    """What a drop is, and what to do next."""
    count, rule = counted(len(it.places), "frame"), it.verdict.removeprefix("dropped ")
    from_to = f" from {it.ends[0]} to {it.ends[1]}" if it.ends[0] else ""
    if it.never is not None and it.is_there:
        return Severity.NOTED, f"{count}{from_to}: the switch granted {fcid(it.never)}, which a right switch wouldn't", "`look logins` has both verdicts"
    if it.granted:
        return Severity.DROPPED, f"{count}{from_to} not sent on by a right switch ({rule}): {astray_text(it)}", ASTRAY[it.source[3:] == it.granted[3:]]
    if it.verdict == "dropped dest-login" and it.never is not None:
        return Severity.NOTED, f"{count}{from_to}, which isn't in these captures", "add the capture of its port, to see what becomes of them"
    if it.verdict == "dropped source-login" and it.never is not None:
        return Severity.NOTED, f"{count}{from_to}: {fcid(it.never)} logged in before the capture began", "begin the capture before the host logs in"
    if it.verdict == "dropped zone":
        return Severity.DROPPED, f"{count}{from_to} dropped: no active zone joins the two", "a zone with both port names in the active zone set (`look zones`)"
    if rule == "service-frame" and it.heard.kind == "ABTS":
        return Severity.NOTED, f"{count}{from_to} aborts what found no answer in time (ABTS): what a switch does with it isn't judged here", ""
    if rule in OUTSIDE:
        return Severity.NOTED, f"{count}{from_to} ({it.heard.kind}), {meaning_of(it.verdict)}: what a switch does with them isn't judged here", ""
    if it.verdict == CUT:
        return Severity.NOTED, f"{count} cut by the capture (snap length) or by a mirror: what they say isn't judged, and where logins are among them nothing that hangs on these", "capture whole frames: `tcpdump -s 0`; a mirror without truncation"
    if it.is_older:
        return Severity.NOTED, f"{count} of a login that is older than the capture (keep alives)", "begin the capture before the host logs in"
    if it.verdict in ("dropped dest-login", "dropped keepalive-unknown"):
        return Severity.NOTED, f"{count}{from_to} after the end of the login ({rule})", "`look why` of the first tells what ended it, and whether the window did"
    return Severity.DROPPED, f"{count}{from_to} dropped by {rule}: {meaning_of(it.verdict)}", next_step(it.verdict, it.heard) or "`look why` of the first"


def at_switch(look: Look, it: Drops) -> str:
    """What the switch made of the requests among frames from another MAC than it granted."""
    entries, port = look.run.entries, look.captured[it.port - 1]
    requests = [look.request_of(it.port, entries.indexes[place]) for place in it.places]
    asked = [request for request in requests if asks(port.frames.heard(request[1]))] if port.replies else []
    if not asked:
        return ""
    kinds = {port.frames.heard(request[1]).kind for request in asked}
    answered, what = sum(request in look.replies for request in asked), counted(len(asked), kinds.pop() if len(kinds) == 1 else "request")
    if not answered:
        return f"; the real switch answered none of the {what} either"
    return f"; the real switch answered {'all' if answered == len(asked) else answered} of the {what}"


def anew(look: Look, it: Drops) -> str:
    """How their host logs in again and again."""
    since = [one.since for one in look.walk.fabric.logins if (one.port, one.enode) == (it.port, it.enode) and not one.is_fdisc]
    gaps = [after - before for before, after in zip(since, since[1:])]
    if not gaps:
        return ""
    is_steady = len(gaps) > 1 and 10 * (max(gaps) - min(gaps)) <= max(gaps)
    each = f"{sum(gaps) / len(gaps) / 1000:.0f} s"
    return f", and the host logs in anew each {each}" if is_steady else f", and the host logged in anew {times(len(gaps))}" + (f", {each} later" if len(gaps) == 1 else "")


def enode_of(look: Look, it: Drops) -> bytes:
    """The ENode that FIP frames are of, also where they come from a MAC that was granted to it."""
    port, at = look.request_of(it.port, look.run.entries.indexes[it.places[0]])
    source = look.captured[port - 1].frames.heard(at).source
    granted = {look.inputs.fc_map + look.on_switch(one).to_bytes(3, "big"): one.enode for one in look.walk.fabric.logins if one.port == it.port}
    return granted.get(source, source)


def drop_answer(look: Look, it: Drops) -> Answer:
    """Drops between the same two ends."""
    entries, (severity, text, step) = look.run.entries, drop_text(it)
    if it.granted:
        text += at_switch(look, it) + anew(look, it)
    numbers = [(it.port, look.ports[it.port - 1].frame_number(entries.indexes[place])) for place in it.places[:LISTED]]
    made = Answer(severity, text, step, it.port, "", entries.clocks[it.places[0]], entries.clocks[it.places[-1]], numbers, more=len(it.places) - len(numbers))
    if it.heard.is_fip:
        made.about, made.enode = About.ALIVE if it.heard.operation == KEEP_ALIVE else About.ENTRY, enode_of(look, it)
    return made


def ends_text(some: list[Drops]) -> str:
    """Between how many ends, or on how many ports, drops of one rule are."""
    strangers = {it.never for it in some if it.never is not None}
    if some[0].is_there:
        return f"with {counted(len(strangers), 'address', 'es')} that the switch alone granted"
    if strangers:
        whose = "to {} outside these captures" if some[0].verdict == "dropped dest-login" else "from {} with a login older than the capture"
        return whose.format(counted(len(strangers), "address", "es"))
    return f"between {len(some)} pairs of ends" if some[0].ends[0] else f"on {len(some)} ports"


def as_one(look: Look, some: list[Drops]) -> Answer:
    """Drops of one rule between many ends as one answer, those with most frames under it."""
    some = sorted(some, key=lambda it: -len(it.places))
    most, verdict = drop_answer(look, some[0]), some[0].verdict
    rule, total = verdict.removeprefix("dropped "), sum(len(it.places) for it in some)
    clocks = [look.run.entries.clocks[place] for it in some for place in (it.places[0], it.places[-1])]
    text = f"{counted(total, 'frame')} {ends_text(some)} " + ("" if rule in OUTSIDE else f"dropped by {rule}")
    text += "" if some[0].never is not None else f"({meaning_of(verdict)}): what a switch does with them isn't judged here" if rule in OUTSIDE else f": {meaning_of(verdict)}"
    followers = [drop_text(it)[1] for it in some]
    return Answer(most.severity, text, most.step, None, "", min(clocks), max(clocks), most.frames, followers, more=total - len(most.frames))


def drops(look: Look, explained: Explained) -> Iterator[Answer]:
    """Each kind of drop; of a rule that drops between many ends one answer."""
    entries = look.run.entries
    apart = {(it.port, it.index) for it in look.compared.forwards if it.switch == "sent on"} if look.compared else set()
    reasons: dict[tuple[str, bool, bool], list[Drops]] = {}
    for it in dropped(look, explained):  # what the switch sent on all the same stands among differences
        it.places = array("I", (place for place in it.places if (it.port, entries.indexes[place]) not in apart))
        if it.places:
            reasons.setdefault((it.verdict, it.never is None, it.is_there), []).append(it)
    for some in reasons.values():
        yield from [drop_answer(look, it) for it in some] if len(some) <= SHOWN else [as_one(look, some)]


def difference_text(it: Compared) -> str:
    """The first field that differs, or that none answered."""
    if not it.differences:
        return ""
    first = next((one for one in it.differences if not one.note), it.differences[0])
    more = len(it.differences) - 1
    return f"{first.field}: {spelled(first.switch)[:60]} there, {spelled(first.forwarder)[:60]} here" + (f", and {counted(more, 'field')} more" if more else "")


def unanswered(look: Look, some: list[Compared]) -> tuple[str, str]:
    """What requests are that the switch left unanswered, and the port name that sent them where it is one."""
    captured = [look.captured[it.port - 1].frames.heard(look.request_of(it.port, it.index)[1]) for it in some]
    run = [look.ports[it.port - 1].frames.heard(look.request_of(it.port, it.index)[1]) for it in some]
    names = {it.address: colons(it.name) for it in look.walk.fabric.logins}
    services = {f"{SERVICES.get(it.fc.d_id, 'the address')} ({fcid(it.fc.d_id)})" for it in captured if it.is_fcoe and it.fc}
    senders = {names.get(it.fc.s_id, "") for it in run if it.is_fcoe and it.fc}
    to = f" to {' and '.join(sorted(services))}" if services else ""
    text = f"the switch left {counted(len(some), some[0].request)}{to} unanswered; a right switch would answer {spelled(some[0].forwarder)}"
    return text, senders.pop() if len(senders) == 1 else ""


def owed_text(look: Look, it: Compared) -> str:
    """A message that the switch owes: of an RSCN who is to be told of whom."""
    words = it.request.split(" ")
    if words[0] != "RSCN":
        return it.request[:1].lower() + it.request[1:]
    known = Directory(look)
    told, of = (int(words[at], 16) for at in (2, 4))
    switch = {new: old for old, new in look.grants.values() if new is not None}
    whom = [f"{known.of(address, switch.get(address, address))} ({fcid(switch.get(address, address))})" for address in (told, of)]
    return f"RSCN to {whom[0]}, which asked for them (SCR), of {whom[1]}, which logged in, out, or registered anew"


def differences(look: Look, explained: Explained) -> Iterator[Answer]:
    """What the switch answered otherwise, alike ones together; what follows from another answer isn't among them."""
    if look.compared is None:
        return
    groups: dict[tuple[str, str], list[Compared]] = {}
    for it in look.compared.all():
        if it.state == "different" and not explained.has(look, it):
            groups.setdefault((it.request.split(" to ")[0], difference_text(it)), []).append(it)
    ranked = sorted(groups.items(), key=lambda it: -len(it[1]))
    for (request, difference), some in ranked[:SHOWN]:
        numbers = [(it.port, it.frame) for it in some if it.frame]
        text, step, name = f"the switch answers {counted(len(some), request)} otherwise: {difference}", "`look compare` has each, field by field", ""
        unasked = next((word for begin, word in UNASKED.items() if request.startswith(begin)), None) if some[0].index < 0 else None
        if unasked:
            text = f"{counted(len(some), unasked)} differ: {difference}"
            if some[0].switch == "missing":
                text = f"the switch sends no {owed_text(look, some[0])}" + (f", nor {len(some) - 1} more" if len(some) > 1 else "") + ", which it owes"
            elif some[0].forwarder == "none":
                text = f"the switch sends {counted(len(some), unasked)} for which these captures show no reason"
        if some[0].switch == "no answer" and some[0].index >= 0:
            (text, name), step = unanswered(look, some), "the switch's log at that time; does the request reach it, and is that service up for this port?"
        yield Answer(Severity.DIFFERENT, text, step, some[0].port, name, some[0].clock, some[-1].clock, numbers)
    if len(ranked) > SHOWN:
        yield Answer(Severity.DIFFERENT, f"and {len(ranked) - SHOWN} more kinds of differences from the switch", "`look compare`")


def commands_text(facts: Facts) -> str:
    """What became of SCSI commands; empty where there are none."""
    count = sum(it.count for (kind, *_), it in facts.statistics.sums.items() if kind == "FCP")
    done = sum(it.ends[End.DONE.value] for (kind, *_), it in facts.statistics.sums.items() if kind == "FCP")
    if not count:
        return ""
    unseen = sum(it.ends[End.NOT_CAPTURED.value] + it.ends[End.OPEN.value] for (kind, *_), it in facts.statistics.sums.items() if kind == "FCP")
    words = "each done" if done == count else "whose answers aren't captured" if unseen == count else f"{done:,} of them done"
    return f"{counted(count, 'SCSI command')}, {words}"


def cut_logins(look: Look) -> set[int]:
    """The ports where the capture cut a login request, so that the run knows nobody there."""
    return {it.number for it in look.captured if it.tidy.cut and any(is_login(it.frames.heard(at)) and not it.frames.is_whole(at) for at in it.host_messages)}


def storm_text(look: Look) -> str:
    """That many logged in at once."""
    since = sorted(it.since for it in look.walk.fabric.logins)
    most, begin = 0, 0
    for at, clock in enumerate(since):
        while clock - since[begin] > STORM_TIME:
            begin += 1
        most = max(most, at - begin + 1)
    return f" ({most} of them within {STORM_TIME / 1000:.0f} s)" if most >= STORM else ""


def well(look: Look, facts: Facts) -> Answer:
    """What went well, in one line."""
    names, run = {it.name for it in look.walk.fabric.logins}, look.run
    went = len(run.entries.places(lambda verdict: verdict.startswith("forwarded")))
    told = commands_text(facts) or (f"{counted(went, 'data frame')} went on" if went else "")
    came = f"{counted(len(names), 'port name')} {'logged in' if look.compared is not None else 'asked to log in'}{storm_text(look)}"
    if not names:
        came = "the logins are cut, so who logged in can't be told" if cut_logins(look) else "no login is in these captures"
    said = came + (f", {told}" if told else "") + ("; no login was rejected, none fell silent" if look.compared is not None and names else "")
    if look.compared is not None:
        equal = sum(1 for it in look.compared.all() if it.state == "equal")
        said += f"; {counted(equal, 'answer')} of the switch as the standards have {'it' if equal == 1 else 'them'}" if equal else ""
    return Answer(Severity.WELL, said)
