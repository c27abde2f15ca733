"""All answers of a look, worst first: for the terminal, for JSON and for the report."""
from typing import Optional

from ..frames.heard import number
from ..frames.pauses import pauses_in
from ..runs.configs import forwarders, is_advertisement, vlans_of
from ..runs.enodes import seen_of
from ..runs.looking import Look
from ..exchanges.exchange import End
from ..exchanges.facts import SERVICE, Facts, facts_of
from ..runs.inputs import Port
from .answer import Answer, Severity, grouped
from .behind import Behind, behind_login
from .broken import explained_by_rules
from .discovery import why_not_in
from .logins import again, cleared, cleared_logins, gaps, lapsed_logins, silent, silent_logins
from .rejects import rejected, rejected_here, rejects_in, shared
from .rivals import several
from .traffic import Explained, cut_logins, differences, drops, well


def address_ports(ports: list[Port]) -> dict[int, int]:
    """At which port the ENode of each address is, by what hosts send."""
    found: dict[int, int] = {}
    for port in ports:
        for flow in port.frames.used():
            fc = flow.heard.fc
            if flow.heard.is_fcoe and fc is not None and number(flow.heard.source[3:]) == fc.s_id:
                found.setdefault(fc.s_id, port.number)
    return found


def one_way(look: Look, facts: Facts) -> list[Answer]:
    """That the captures hold the hosts' direction alone, where requests to N_Ports went out whose answers aren't here."""
    asked = [it for it in facts.statistics.sums.items() if it[0][0] in ("FCP", "ELS") and it[0][3] < SERVICE and it[1].ends[End.NOT_CAPTURED.value]]
    if any(it.replies for it in look.captured) or not asked or facts.answering:
        return []
    count = sum(found.ends[End.NOT_CAPTURED.value] for _, found in asked)
    text = f"the captures hold the hosts' direction alone: {count} requests to other ports are in them, and no answer"
    return [Answer(Severity.NOTED, text, "capture both directions of the port: what the switch and the targets answer isn't here")]


def behind_of(look: Look) -> Behind:
    """What the captures show behind the login, and beside it."""
    made = Behind(facts_of(look.captured, look.inputs.switches), address_ports(look.captured))
    made.logins = [(it.since, it.name) for it in look.walk.fabric.logins]
    made.vlan, made.switches = look.run.config.vlan, look.inputs.switches
    known = forwarders([flow.heard for port in look.captured for flow in port.frames.used() if is_advertisement(flow.heard)])
    made.others = {mac: it.vlan for mac, it in known.items() if mac != look.run.config.mac}
    for mac in known:
        for vlan in vlans_of([flow.heard for port in look.captured for flow in port.frames.used()], mac) - {made.vlan}:
            made.vlans.setdefault(vlan, set()).add(mac)
    made.pauses = [(port, it) for port in look.captured for it in pauses_in(port.frames)]
    return made


def lapsed_sources(look: Look) -> set[tuple[int, bytes]]:
    """Ports and MACs of hosts whose logins the run ended though no keep alive was due: what it makes of them later says nothing."""
    found = lapsed_logins(look)
    macs = {(it.port, it.enode) for it in found}
    return macs | {(it.port, look.inputs.fc_map + look.on_switch(it).to_bytes(3, "big")) for it in look.walk.fabric.logins if (it.port, it.enode) in macs}


def answers_of(look: Look) -> list[Answer]:
    """What to know first, worst first; one that says that all is well where nothing is amiss."""
    everyone, behind = list(seen_of(look)), behind_of(look)
    found: list[Answer] = []
    told = Explained(requests={it for some in rejects_in(everyone).values() for it in some})
    for seen in everyone:
        answer: Optional[Answer] = why_not_in(seen)
        if answer is not None:
            found.append(answer)
            told.hosts.add((seen.enode.port.number, seen.enode.mac))
    found += rejected(look, everyone)
    found += rejected_here(look, [it for it in everyone if (it.enode.port.number, it.enode.mac) not in told.hosts])
    by_switch = {(it.login.port, it.login.enode) for it in cleared_logins(look)}
    told.others = set(behind.others)
    told.vlans = set(behind.vlans)
    told.lapsed, told.cut = lapsed_sources(look), cut_logins(look)
    told.ended = by_switch | {(it.port, it.enode) for it in silent_logins(look)}
    for twice in shared(look, everyone):
        found.append(twice.answer(look))
        told.requests |= set(twice.requests)
        told.ended |= {(twice.login.port, twice.login.enode), (twice.seen.enode.port.number, twice.seen.enode.mac)}
    found += behind_login(behind)
    told.listed, told.met = behind.listed, behind.facts.answering | {pair[1] for pair in behind.told}
    if one_way(look, behind.facts):
        told.met |= {pair[1] for pair, _ in behind.facts.with_peers()}
    own = list(drops(look, told))
    found += [*silent(look), *cleared(look), *again(look, told.astray | by_switch), *differences(look, told), *own]
    found += [Answer(Severity.NOTED, it, "whether that is as planned; `--zone`, `--zoning` or `--config` take other zones") for it in look.inputs.derived]
    found += [*gaps(look), *one_way(look, behind.facts)]
    told_of = {line for it in found for line in it.followers}
    found += [it for it in several(look) if not told_of.intersection(it.followers)]
    if not any(it.severity < Severity.NOTED for it in found):
        found.append(well(look, behind.facts))
    found = grouped(explained_by_rules(look, found))
    found.sort(key=lambda it: (it.severity if it.severity != Severity.WELL else Severity.NOTED - 0.5, -it.count))
    return found
