"""Rules of the standards that are broken and explain a failure: they stand above what follows from them (`look check` has all of them)."""
from dataclasses import dataclass
from typing import Iterator, Optional

from ..check.command import GROUPS
from ..check.rules import ENODE, FCF, Fault, Rule, Tally, held_against
from ..check.shown import Shown
from ..check.talk import Talk, talks_on, whole_of
from ..errors import counted
from ..runs.inputs import Port
from ..runs.looking import Look
from .answer import About, Answer, Severity

FOLLOWERS = 6
DRIVER = "the host's driver: what it sends there (`look fields`, `look check`)"
SWITCH = "the switch's software: what it answers there (`look check`); its log, and its vendor"
BRIDGE = "a bridge that rewrites frames on the way, or the host's driver (`look check`)"


@dataclass(frozen=True)
class Reason:
    """A rule that explains troubles of some kind when it is broken: what is wrong in plain words, and what to do next."""

    rule: str
    about: tuple[About, ...]
    text: str
    step: str


ENTRY, ALIVE, FURTHER = (About.ENTRY,), (About.ALIVE,), (About.FURTHER,)
REASONS = [
    Reason("vlan-request-destination", ENTRY, "its VLAN requests go to the wrong address", DRIVER),
    Reason("vlan-request-mac", ENTRY, "its VLAN requests name another MAC than they come from", BRIDGE),
    Reason("solicitation-destination", ENTRY, "its solicitations go to the wrong address, where no switch listens", DRIVER),
    Reason("solicitation-mac", ENTRY, "its solicitations name another MAC than they come from", BRIDGE),
    Reason("solicitation-descriptors", ENTRY, "its solicitations lack a descriptor, or have one twice", DRIVER),
    Reason("solicitation-role", ENTRY, "its solicitations say that they are a switch's", DRIVER),
    Reason("login-destination", ENTRY, "its logins don't go to the switch's own MAC", DRIVER),
    Reason("login-source", ENTRY, "its logins don't come from its own MAC", BRIDGE),
    Reason("login-descriptors", ENTRY, "its logins lack a descriptor, or have one twice", DRIVER),
    Reason("login-header", ENTRY, "the FC header of its logins is wrong", DRIVER),
    Reason("login-address", ENTRY, "its logins come with an address, though they ask for one", DRIVER),
    Reason("login-parameters", ENTRY, "the service parameters of its logins are wrong", DRIVER),
    Reason("fcf-mac", ENTRY, "the switch's messages name another MAC than they come from", SWITCH),
    Reason("fcf-replies", ENTRY, "the switch's replies don't fit its requests, so the host can't take them", SWITCH),
    Reason("fcf-fpma", ENTRY, "the switch grants a MAC that doesn't go with the address", SWITCH),
    Reason("fdisc-after-flogi", FURTHER, "the switch offers no NPIV at this port: the accept of its FLOGI grants one address alone", "NPIV at the switch's port or for the whole switch (`feature npiv`, `portcfgnpivport`)"),
    Reason("alive-mac", ALIVE, "its keep alives name another MAC than its own, so the switch takes none", DRIVER),
    Reason("alive-source", ALIVE, "its keep alives don't come from the right MAC, so the switch hears none", DRIVER),
    Reason("alive-descriptors", ALIVE, "its keep alives lack a descriptor, so the switch takes none", DRIVER),
    Reason("alive-port", ALIVE, "the keep alives of its VN_Port name another port", DRIVER),
    Reason("alive-destination", ALIVE, "its keep alives don't go to the switch of its login", DRIVER),
]


def rules_by_name() -> dict[str, Rule]:
    return {rule.name: rule for group in GROUPS for rule in group.rules}


class Standards:
    """Holds the frames of hosts in trouble against the rules that may explain it."""

    def __init__(self, look: Look) -> None:
        self.look, self.rules = look, rules_by_name()
        self.talks: dict[int, dict[bytes, Talk]] = {}
        self.tallies: dict[tuple[int, bytes, str], Tally] = {}

    def talk_of(self, port: Port, mac: bytes) -> Optional[Talk]:
        if port.number not in self.talks:
            self.talks[port.number] = {it.mac: it for it in talks_on(port)}
        return self.talks[port.number].get(mac)

    def tally(self, port: Port, mac: bytes, rule: Rule) -> Optional[Tally]:
        """What is found of a rule on an ENode; of a rule on the switch, on all that it sends at the port."""
        whose = mac if rule.who == ENODE else b""
        key = (port.number, whose, rule.name)
        if key not in self.tallies:
            talk = self.talk_of(port, mac) if whose else whole_of(port, self.look.run.config.mac) if port.replies else None
            if talk is None:
                return None
            self.tallies[key] = held_against(rule, talk)
        return self.tallies[key]

    def broken(self, port: Port, mac: bytes, about: set[About]) -> Iterator[tuple[Reason, list[tuple[Shown, Fault]]]]:
        """The reasons that hold, each with its frames."""
        for reason in REASONS:
            rule = self.rules.get(reason.rule)
            tally = self.tally(port, mac, rule) if rule is not None and not about.isdisjoint(reason.about) else None
            faults = [(it, fault) for it, fault in tally.broken if rule is None or rule.who != FCF or it.heard.destination == mac] if tally else []
            if faults:
                yield reason, faults


def reason_answer(reason: Reason, faults: list[tuple[Shown, Fault]], explained: list[Answer]) -> Answer:
    """A broken rule, with what follows from it."""
    (first, fault), last = faults[0], faults[-1][0]
    kinds = f"{counted(len(faults), 'frame')} like that" if len(faults) > 1 else "one frame"
    text = f"{reason.text}: {fault.field} {fault.stands}, should be {fault.should} ({first.heard.kind}, {kinds})"
    made = Answer(min(it.severity for it in explained), text, reason.step, explained[0].port, next((it.wwpn for it in explained if it.wwpn), ""))
    port = first.port.number
    made.frames = [(port, it.number) for it, _ in faults[:200]]
    made.more = len(faults) - len(made.frames)
    made.since, made.until = round(first.clock), round(last.clock)
    made.followers = [f"so: {it.text}" for it in explained][:FOLLOWERS]
    return made


def explained_by_rules(look: Look, found: list[Answer]) -> list[Answer]:
    """The answers, those that a broken rule explains under it."""
    troubles: dict[tuple[int, bytes], list[Answer]] = {}
    for it in found:
        if it.about is not None and it.enode and it.port is not None and it.severity < Severity.NOTED:
            troubles.setdefault((it.port, it.enode), []).append(it)
    standards, gone, made = Standards(look), set[int](), []
    for (number, mac), answers in troubles.items():
        port = look.captured[number - 1]
        about = {it.about for it in answers if it.about is not None}
        for reason, faults in standards.broken(port, mac, about):
            own = [it for it in answers if it.about in reason.about and id(it) not in gone]
            if own:
                made.append(reason_answer(reason, faults, own))
                gone |= {id(it) for it in own}
    return made + [it for it in found if id(it) not in gone]
