"""Answers behind the login: why a host that is logged in doesn't reach its storage, by what exchanges show; one test a cause, in one list."""
from collections import Counter
from dataclasses import dataclass, field
from typing import Callable, Iterable, Iterator, Union

from ..errors import counted
from ..exchanges.engine import Grant
from ..exchanges.exchange import End, Place
from ..exchanges.facts import LARGE, Facts, Group, Loss, Pair, PairFacts
from ..frames.columns import MILLISECOND
from ..frames.heard import colons, fcid
from ..frames.pauses import Pauses
from ..runs.inputs import Port
from .answer import Answer, Severity, times

SECOND = 1_000_000_000
GOT_OVER = 10 * SECOND  # that two N_Ports may quarrel before they are logged in with each other
STORM_OF_PAUSES, MUCH = 50, 0.2  # pauses, and their share of time, from which on they are told
OFTEN, STORM = 3, 10  # from which counts on a status is told, and one that hosts get over
BAD_KEYS = {3: "MEDIUM ERROR", 4: "HARDWARE ERROR", 7: "DATA PROTECT", 11: "ABORTED COMMAND"}
AT_TARGET = "the target's log and its list of hosts: which of them it lets in, on which of its ports"
FIND_TARGET = "whether the target is logged in at the switch (`show fcns database`, `nsshow`, `look names`), and a capture at its port"


@dataclass
class Span:
    """Exchanges that are told of, and when."""

    count: int
    since: int
    until: int
    places: list[Place]


Told = Union[Group, Loss, Span]


@dataclass
class Behind:
    """What the tests stand on: the facts, the port of each host's address, and the pairs that are told of already."""

    facts: Facts
    ports: dict[int, int] = field(default_factory=dict)  # of an address, where its ENode is
    logins: list[tuple[int, bytes]] = field(default_factory=list)  # when port names logged in, in milliseconds
    vlan: int = 0  # of the fabric that is looked at
    others: dict[bytes, int] = field(default_factory=dict)  # further switches, and the VLAN of each
    vlans: dict[int, set[bytes]] = field(default_factory=dict)  # further VLANs in which switches advertise, and which
    pauses: list[tuple[Port, Pauses]] = field(default_factory=list)
    told: set[Pair] = field(default_factory=set)
    switches: set[bytes] = field(default_factory=set)
    doubles: set[bytes] = field(default_factory=set)  # ENodes of which it is told that they share a MAC
    listed: set[int] = field(default_factory=set)  # addresses of which it is told that the name server lists nobody to them

    def whom(self, address: int) -> str:
        """A port by its name, with its address."""
        name = self.facts.names.get(address)
        return f"{colons(name)} ({fcid(address)})" if name else fcid(address)

    def answer(self, severity: Severity, pair: Pair, text: str, step: str, *groups: "Told") -> Answer:
        """An answer on a pair, of its originator."""
        self.told.add(pair)
        name = self.facts.names.get(pair[0])
        places = sorted({place for it in groups for place in it.places})
        since, until = min(it.since for it in groups), max(it.until for it in groups)
        count = sum(it.count for it in groups)
        port = self.ports.get(pair[0], places[0][0] if places else None)
        label = colons(name) if name else f"the host {fcid(pair[0])}"
        return Answer(severity, text, step, port, label, since // MILLISECOND, until // MILLISECOND, places, more=max(count - len(places), 0))


Cause = Callable[[Behind], Iterator[Answer]]


def got_over(facts: Facts, pair: Pair, step: str, since: int) -> bool:
    """The two did it all the same, shortly before, or later."""
    return facts.done(*pair, step) >= since - GOT_OVER


def by_end(groups: Iterable[Group], *ends: End) -> list[Group]:
    return [it for it in groups if it.first.end in ends]


def summed(groups: list[Group]) -> int:
    return sum(it.count for it in groups)


def answers_in(groups: list[Group]) -> str:
    """The answers of groups, the most frequent first."""
    counts: Counter[str] = Counter()
    for it in groups:
        counts[it.first.says] += it.count
    return " and ".join(words if len(counts) == 1 else f"{count} {words}" for words, count in counts.most_common(3))


# ---- login with the target

RETURNED_STEPS = {
    0x01: "nobody holds that address at the switch now: " + FIND_TARGET,
    0x03: "the switch says that the port isn't there for the moment: " + FIND_TARGET,
    0x04: "the switch says that the port is gone for good: " + FIND_TARGET,
    0x16: "the target wants a login first: whether its accept reached this host",
    0x1A: "the switch has no path to it: the links between switches, and zoning of the two",
}
REJECTED_STEPS = {0x05: "the target is busy: its load, its number of logins", 0x0E: "the target is at another login with it: whether that one ends"}


def login_steps(behind: Behind, pair: Pair, facts: PairFacts, step: str) -> Iterator[Answer]:
    """PLOGIs or PRLIs that came back, were rejected, or found no answer."""
    groups = [it for it in facts.failed(step) if not got_over(behind.facts, pair, step, it.since)]
    if not groups:
        return
    whom = behind.whom(pair[1])
    back, said_no = by_end(groups, End.RETURNED), by_end(groups, End.REJECTED)
    silent = by_end(groups, End.UNANSWERED, End.ABORTED, End.ABORT_REJECTED, End.ABORT_UNANSWERED, End.LOGGED_OUT)
    if back:
        text = f"its {step} to {whom} comes back {times(summed(back))}: {answers_in(back)}"
        yield behind.answer(Severity.BLOCKED, pair, text, RETURNED_STEPS.get(back[0].first.codes[0], f"what the code says; {FIND_TARGET}"), *back)
    if said_no:
        is_service = step == "PRLI"
        text = f"its {step} to {whom} is rejected {times(summed(said_no))}: {answers_in(said_no)}"
        if is_service:
            text += "; so there is no SCSI between the two"
        own = REJECTED_STEPS.get(said_no[0].first.codes[0]) if step == "PLOGI" else None
        other = "whether that port is a target at all (a host's port, a port in another mode); " if is_service else ""
        yield behind.answer(Severity.BLOCKED, pair, text, own or other + AT_TARGET, *said_no)
    if summed(silent) >= 2 and not back and not said_no:
        count = summed(silent)
        text = f"its {step} to {whom} finds no answer, {count} of them in {(max(it.until for it in silent) - min(it.since for it in silent)) / SECOND:.0f} s"
        yield behind.answer(Severity.BLOCKED, pair, text, "where it gets lost: " + FIND_TARGET, *silent)


def target_gone(behind: Behind) -> Iterator[Answer]:
    """A target that logged out, while its initiator goes on."""
    for logout in behind.facts.logouts:
        for pair, facts in behind.facts.with_peers():
            is_of_it = pair[1] == logout.of and (logout.to == pair[0] or logout.to >= 0xFFFFFC)
            later = [it for it in facts.failed("PLOGI", "PRLI", "SCSI", "ADISC") if it.since >= logout.moment] if is_of_it and pair not in behind.told else []
            if summed(later) < OFTEN or behind.facts.done(*pair, "PLOGI") > logout.moment:
                continue
            kinds = Counter[str]()
            for it in later:
                kinds.update(it.commands)
            what = ", ".join(f"{count} {word}" for word, count in kinds.most_common(3))
            text = f"goes on to ask {behind.whom(logout.of)}, which logged out before ({logout.word} in {logout.place[0]}/{logout.place[1]}): {what} without success"
            yield behind.answer(Severity.BLOCKED, pair, text, "why the target logged out (its log), and why this host isn't told: its SCR, the RSCN owed to it", *later)


def plogi(behind: Behind) -> Iterator[Answer]:
    for pair, facts in behind.facts.with_peers():
        if pair not in behind.told:
            yield from login_steps(behind, pair, facts, "PLOGI")


def prli(behind: Behind) -> Iterator[Answer]:
    for pair, facts in behind.facts.with_peers():
        if pair not in behind.told:
            yield from login_steps(behind, pair, facts, "PRLI")


def nobody_listed(behind: Behind) -> Iterator[Answer]:
    """The name server lists no other port to an initiator, which therefore asks nobody."""
    facts = behind.facts
    met = {address for pair, _ in facts.with_peers() for address in pair}
    for asker, listing in facts.listings.items():
        if listing.others or asker in met or facts.roles.get(asker) == 1:
            continue
        name = facts.names.get(asker, b"")
        if facts.notices.get(asker, 0) > listing.moment or any(clock > listing.moment // MILLISECOND and one != name for clock, one in behind.logins):
            continue  # others came later, of which an RSCN tells it
        said = listing.says or "a list without others"
        text = f"the name server lists no target to it: {listing.command} {times(listing.count)}, {said}; so it asks nobody for a disk"
        step = "a zone with this host and its target in the active zone set, and whether the target is logged in and registered (`show fcns database`, `nsshow`)"
        label = colons(name) if name else fcid(asker)
        behind.listed.add(asker)
        port = behind.ports.get(asker, listing.place[0])
        severity = Severity.BLOCKED if listing.count > 1 else Severity.NOTED  # a host that asks once may be the first in its fabric
        yield Answer(severity, text, step, port, label, listing.moment // MILLISECOND, listing.moment // MILLISECOND, [listing.place])


# ---- SCSI


def masked(behind: Behind) -> Iterator[Answer]:
    """The target shows this host no unit: LUN 0 alone or none, with no device behind it."""
    for pair, facts in behind.facts.with_peers():
        luns = facts.luns
        if pair in behind.told or luns is None or any(luns) or facts.present or not (facts.absent or luns == []):
            continue
        listed = "no LUN" if not luns else "LUN 0 alone"
        text = f"{behind.whom(pair[1])} shows it no unit: REPORT LUNS lists {listed}" + (", and INQUIRY says that no unit is there (7f)" if facts.absent else "")
        step = "LUN masking at the target: which LUNs are mapped to this host's port name (host group, initiator group, ACL)"
        yield behind.answer(Severity.BLOCKED, pair, text, step, Span(len(facts.at), facts.started, facts.ended, facts.at))


STATUS_STEPS = {
    0x18: "which host holds the reservation (`sg_persist -r`, `sg_persist -k`; a cluster, a backup, a host that died with it), and whether it is to be given up",
    0x08: "the load of the target, and its queue depth beside those of all hosts",
    0x28: "the queue depth of this host beside the target's queue: lower it (`queue_depth`), or spread the load",
    0x40: "which host or cluster member aborted the tasks of others",
}


def status(behind: Behind) -> Iterator[Answer]:
    """Commands that ended with RESERVATION CONFLICT, BUSY, TASK SET FULL and the like."""
    for pair, facts in behind.facts.with_peers():
        by_status: dict[int, list[Group]] = {}
        for it in facts.failed("SCSI"):
            if it.first.status in STATUS_STEPS and it.first.end is End.FAILED:
                by_status.setdefault(it.first.status, []).append(it)
        for code, groups in by_status.items():
            count = summed(groups)
            if count < OFTEN and facts.done["SCSI"] > 10 * count:
                continue
            luns = sorted({it.first.lun for it in groups})
            commands = sum((it.commands for it in groups), Counter[str]())
            what = ", ".join(f"{number} {word}" for word, number in commands.most_common(3))
            where = f"LUN {', '.join(luns[:4])}" if luns else "it"
            text = f"{behind.whom(pair[1])} answers {counted(count, 'command')} to {where} with {groups[0].first.says.split(',')[0]}: {what}"
            yield behind.answer(Severity.BLOCKED, pair, text, STATUS_STEPS[code], *groups)


def sense(behind: Behind) -> Iterator[Answer]:
    """CHECK CONDITIONs that hosts don't get over: NOT READY, errors of the medium, storms of UNIT ATTENTION."""
    for pair, facts in behind.facts.with_peers():
        for it in facts.failed("SCSI"):
            key = it.first.codes[0] if it.first.status == 2 and it.first.codes else None
            is_told = key == 2 and it.count >= OFTEN or key == 6 and it.count >= STORM or key in BAD_KEYS
            if not is_told:
                continue
            what = ", ".join(f"{number} {word}" for word, number in it.commands.most_common(3))
            says = it.first.says.removeprefix("CHECK CONDITION, ")
            text = f"{behind.whom(pair[1])} answers {counted(it.count, 'command')} to LUN {it.first.lun} with {says}: {what}"
            steps = {2: "the unit at the target: whether it is online, and by which port it may be asked (ALUA)", 6: "what resets or changes the target again and again: its log at that time"}
            yield behind.answer(Severity.BLOCKED, pair, text, steps.get(key or 0, "the unit at the target, and its log at that time"), it)


# ---- data


def hop_text(loss: Loss) -> str:
    """Between which ports data gets lost, where both are captured."""
    whole = [it for it, count in loss.whole_at.items() if count == loss.count]
    short = sorted(set(loss.first.views) - set(whole))
    if not whole or not short:
        return ""
    return f"; they came in at port {whole[0]} and never went out at port {short[0]}, so they are lost between the two: at the switch, or on the way to it"


def lost_data(behind: Behind) -> Iterator[Answer]:
    """Transfers that are said to be done and whose data didn't come: large frames alone, or some."""
    for pair, facts in behind.facts.with_peers():
        for reads, loss in facts.losses.items():
            word = "read" if reads else "write"
            whole = behind.facts.pairs[pair].moved
            if loss.nothing == loss.count and loss.count >= 2 and facts.longest <= LARGE and loss.least > facts.longest // 2:
                text = f"the data of {counted(loss.count, word)} {'from' if reads else 'to'} {behind.whom(pair[1])} never came, though each ends with GOOD"
                text += f": {loss.wanted:,} bytes in frames of up to 2,158 bytes, while frames of up to {facts.longest} bytes come" if facts.longest else ""
                text += hop_text(loss)
                step = "each hop must carry frames of 2,158 bytes (mini-jumbo, an MTU of 2,500): the ports and the FCoE class of the switch, bridges, the host's Ethernet port"
                yield behind.answer(Severity.BLOCKED, pair, text, step, loss)
            elif loss.count >= OFTEN and 20 * loss.count > whole:
                holes = f" (first: {loss.holes[0]})" if loss.holes else ""
                text = f"data of {counted(loss.count, word)} {'from' if reads else 'to'} {behind.whom(pair[1])} lacks: {loss.wanted - loss.came:,} of {loss.wanted:,} bytes{holes}"
                text += hop_text(loss)
                step = "whether the capture lost them (`tcpdump` says how many the kernel dropped) or the network did: drops and CRC errors at each hop, PFC for the FCoE class"
                yield behind.answer(Severity.DROPPED, pair, text, step, loss)


def bad_check(behind: Behind) -> Iterator[Answer]:
    """FC frames with a wrong check sequence, by pair and port."""
    for (originator, responder, port), it in behind.facts.broken.items():
        pair = (originator, responder)
        commands = ", ".join(f"{number} in {word}" for word, number in it.commands.most_common(3))
        text = f"{counted(it.count, 'FC frame')} between it and {behind.whom(responder)} {'has' if it.count == 1 else 'have'} a wrong check sequence (CRC) at port {port}: {commands}; who takes them throws them away"
        step = "what changes frames on their way: a bridge or an appliance that rewrites them, a bad link (CRC counters of each hop), a driver that computes the CRC itself"
        name = behind.facts.names.get(originator)
        behind.told.add(pair)
        label = colons(name) if name else fcid(originator)
        yield Answer(Severity.DROPPED if it.count < 3 else Severity.BLOCKED, text, step, port, label, it.since // MILLISECOND, it.until // MILLISECOND, it.places, more=it.count - len(it.places))


def timed_out(behind: Behind) -> Iterator[Answer]:
    """Commands without an answer, and those that were aborted."""
    for pair, facts in behind.facts.with_peers():
        if pair in behind.told:
            continue
        groups = by_end(facts.failed("SCSI"), End.UNANSWERED, End.ABORTED, End.ABORT_REJECTED, End.ABORT_UNANSWERED)
        count = summed(groups)
        if count < 2 or facts.done["SCSI"] > 100 * count:
            continue
        aborted = summed(by_end(groups, End.ABORTED, End.ABORT_REJECTED, End.ABORT_UNANSWERED))
        commands = sum((it.commands for it in groups), Counter[str]())
        what = ", ".join(f"{number} {word}" for word, number in commands.most_common(3))
        text = f"{behind.whom(pair[1])} doesn't answer {counted(count, 'command')} ({what})" + (f"; the host aborted {aborted} of them (ABTS)" if aborted else "")
        yield behind.answer(Severity.BLOCKED, pair, text, "whether they reach the target (a capture at its port), and its log and load at that time", *groups)


# ---- beside the exchanges

SLOW = "why it takes frames so slowly: its adapter, its PCIe slot, its driver, a load on it; all who send to it wait, and others behind the same ports with them"
CONGESTED = "where the switch is congested: the slow receiver behind it (pause counters by port, `show interface priority-flow-control`)"


def other_fabric(behind: Behind) -> Iterator[Answer]:
    """Logins in the VLAN of another fabric on the same port, that its switch rejects or leaves unanswered."""
    for (port, vlan, enode), facts in behind.facts.fip.items():
        macs = sorted(map(colons, behind.vlans.get(vlan, ())))
        groups = facts.failed("FLOGI") if vlan != behind.vlan and macs and not facts.done["FLOGI"] else []
        rejected, silent = by_end(groups, End.REJECTED), by_end(groups, End.UNANSWERED)
        for some, words in ((rejected, f"rejects its FLOGI {times(summed(rejected))}: {answers_in(rejected)}"), (silent, f"leaves its FLOGI unanswered {times(summed(silent))}")):
            text = f"in VLAN {vlan}, another fabric than that of VLAN {behind.vlan} on this port, the switch {' or '.join(macs)} {words}"
            look = next((f"`--fcf {colons(mac)}` looks at that fabric" for mac in behind.vlans.get(vlan, ()) if mac in behind.others), f"a capture of that VLAN alone (`tshark -Y 'vlan.id == {vlan}' -w OUT`) is looked at for itself")
            if some:
                yield in_fabric(some, text, f"{look}; whether this host is to log in there at all", port, enode)


def in_fabric(some: list[Group], text: str, step: str, port: int, enode: bytes) -> Answer:
    """What befell logins of an ENode."""
    places = [place for it in some for place in it.places]
    since, until = min(it.since for it in some) // MILLISECOND, max(it.until for it in some) // MILLISECOND
    return Answer(Severity.FAILED, text, step, port, colons(some[0].first.request[20:28] or enode), since, until, places)


def one_mac(behind: Behind) -> Iterator[Answer]:
    """Two hosts with one MAC: two fabrics in one VLAN that granted the same address, with one FC-MAP."""
    first: dict[tuple[int, int], Grant] = {}
    told: set[tuple[bytes, bytes]] = set()
    for it in behind.facts.grants:
        before = first.setdefault((it.vlan, it.address), it)
        if before.enode == it.enode or before.switch == it.switch or (before.enode, it.enode) in told:
            continue
        told.add((before.enode, it.enode))
        text = f"two hosts have one MAC in VLAN {it.vlan}: {colons(before.switch)} granted {fcid(it.address)} to {colons(before.name)}, and {colons(it.switch)} granted it to {colons(it.name)}; so two fabrics share one FC-MAP there"
        step = "an FC-MAP of its own for each fabric, or a VLAN of its own; frames to that MAC reach one of the two"
        behind.doubles |= {before.enode, it.enode}
        yield Answer(Severity.FAILED, text, step, it.place[0], "", before.moment // MILLISECOND, it.moment // MILLISECOND, [before.place, it.place])


def pauses_text(it: Pauses, whose: str) -> str:
    what = "pauses" if it.priority < 0 else f"PFC pauses for priority {it.priority}"
    seconds = (it.until - it.since) / SECOND
    return f"{whose} sends {it.count:,} {what} in {seconds:.1f} s, which hold the other side still {100 * it.share:.0f} % of that time (at 10 Gb/s): a slow drain"


def held_still(behind: Behind) -> Iterator[Answer]:
    """Pauses that hold the other side still for much of the time."""
    for port, it in behind.pauses:
        if it.count < STORM_OF_PAUSES or it.share < MUCH:
            continue
        is_switch = it.source in behind.switches
        name = next((grant.name for grant in behind.facts.grants if grant.enode == it.source), b"")
        text = pauses_text(it, "the switch" if is_switch else "it" if name else f"the station {colons(it.source)}")
        places = [(port.number, port.frames.number(at)) for at in it.places]
        answer = Answer(Severity.BLOCKED, text, CONGESTED if is_switch else SLOW, port.number, colons(name) if name else "", frames=places, more=it.count - len(places))
        answer.since, answer.until = it.since // MILLISECOND, it.until // MILLISECOND
        yield answer


# what explains most first: a login that fails explains that nothing follows it
CAUSES: list[Cause] = [one_mac, other_fabric, held_still, target_gone, plogi, prli, nobody_listed, masked, bad_check, lost_data, status, sense, timed_out]


def behind_login(behind: Behind) -> list[Answer]:
    """What exchanges show to be amiss, by cause."""
    return [it for cause in CAUSES for it in cause(behind)]
