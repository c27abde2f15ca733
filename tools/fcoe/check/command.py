"""`look check`: the rules over captures, and what is said of them."""
import os
from dataclasses import dataclass, field
from itertools import groupby
from typing import Any, Iterator, Optional, Sequence

from ..errors import counted
from ..frames.captures import classic, write_classic
from ..frames.columns import Record
from ..frames.heard import colons
from ..moments import short
from ..progress import PROGRESS
from ..provenance import origin_text
from ..runs.inputs import Port
from ..runs.looking import Look
from ..runs.merge import view_of
from ..terminal import Colour, folded, painted
from ..waivers import Waiver, today
from . import address, alive, answers, discovery, exchange, forwarder, frames, headers, login, names, storage
from .rules import BROKEN, ENODE, FCF, HELD, OPEN, STATES, UNSEEN, Group, Rule, Tally, held_against
from .shown import Shown
from .talk import Talk, shown_of, talks_on, whole_of

GROUPS: list[Group] = [it.RULES for it in (discovery, login, address, alive, frames, headers, exchange, answers, storage, names, forwarder)]
COLOURS = {BROKEN: Colour.BAD, OPEN: Colour.MIND, HELD: Colour.GOOD, UNSEEN: Colour.NOISE}
SHOWN = 5  # frames of a rule that a terminal shows
LEFT_OUT = "{} of commands are left out, as each is alike to one that is looked at, so counts are of fewer frames"
Row = dict[str, Any]


@dataclass
class Found:
    """A rule, whom it was held against, and what was found."""

    rule: Rule
    group: str
    talk: Talk
    tally: Tally

    @property
    def who(self) -> str:
        return f"{self.rule.who} {self.talk.label}"


@dataclass
class Checked:
    """All rules over all hosts and forwarders of captures."""

    found: list[Found] = field(default_factory=list)
    ports: list[Port] = field(default_factory=list)
    waivers: list[Waiver] = field(default_factory=list)
    origin: dict[str, Any] = field(default_factory=dict)

    def waiver(self, it: Found) -> Optional[Waiver]:
        """What accepts a broken rule for a while."""
        return next((one for one in self.waivers if one.name == it.rule.name and one.holds(today())), None)

    def counts(self) -> dict[str, int]:
        states = [it.tally.state for it in self.found]
        return {state: states.count(state) for state in STATES}

    @property
    def is_broken(self) -> bool:
        """A rule is broken that no waiver accepts."""
        return any(it.tally.broken and self.waiver(it) is None for it in self.found)

    def by_whom(self) -> Iterator[tuple[Talk, list[Found]]]:
        for _, some in groupby(self.found, key=lambda it: id(it.talk)):
            rows = list(some)
            yield rows[0].talk, rows


def judged(talk: Talk, who: str) -> Iterator[Found]:
    """All rules on somebody over a talk."""
    for group in GROUPS:
        for rule in group.rules:
            if rule.who == who:
                yield Found(rule, group.name, talk, held_against(rule, talk))


def check(ports: Sequence[Port]) -> Checked:
    """Holds the frames of all ports against the rules: those of each ENode, and of the forwarder where its frames are there."""
    found = Checked(ports=list(ports))
    for port in ports:
        shown = list(shown_of(port))
        for talk in talks_on(port, shown):
            PROGRESS.say(f"port {port.number}: {talk.label} is held against the rules")
            found.found += judged(talk, ENODE)
        if port.replies:
            mac = next((it.heard.source for it in port.frames.used() if it.heard.is_fabric and port_sends(port, it.heard.source)), b"")
            found.found += judged(whole_of(port, mac, shown), FCF)
    return found


def port_sends(port: Port, mac: bytes) -> bool:
    """The switch's own MAC on a port."""
    return any(port.frames.heard(at).source == mac for at in port.switch_messages[:1] or port.replies[:1])


def of_session(look: Look, room: str) -> list[Port]:
    """The ports of a run in both directions: a frame that was sent stands behind its cause, and its number, below 0, is that in its output."""
    made = []
    for port in look.ports:
        name, sent, numbers = os.path.join(room, f"both{port.number}.pcap"), 0, []
        records: list[Record] = []
        for record, _ in view_of(look, port.number):
            sent -= not record.number
            numbers.append(record.number or sent)
            records.append(record)
        write_classic(name, records)
        both = Port(port.number, port.label, port.file, classic(name).frames)
        both.frames.numbers = numbers
        both.divide(look.inputs.switches)
        made.append(both)
    return made


def frame_row(it: Optional[Shown]) -> Row:
    """Where a frame stands."""
    return {"frame": abs(it.number), "is_sent": it.number < 0, "clock": round(it.clock, 3), "kind": it.heard.kind} if it else {"frame": None, "is_sent": False, "clock": None, "kind": None}


def cited_row(rule: Rule) -> Row:
    """What a rule asks, and where; none of the clauses was looked up for this."""
    return {"source": rule.source, "clauses": rule.clauses, "word": rule.word, "is_from_memory": True, "text": rule.text, "is_choice": rule.is_choice}


def row_of(it: Found) -> Row:
    """A rule and what was found, as data."""
    rule, talk, tally = it.rule, it.talk, it.tally
    return {
        "rule": rule.name,
        "group": it.group,
        "who": rule.who,
        **cited_row(rule),
        "port": talk.port.number,
        "host": talk.label,
        "mac": colons(talk.mac),
        "state": tally.state,
        "held": len(tally.held),
        "broken": [{**frame_row(shown), "field": fault.field, "stands": fault.stands, "should": fault.should} for shown, fault in tally.broken],
        "open": [{**frame_row(shown), "why": why} for shown, why in tally.left],
    }


def capture_row(port: Port) -> Row:
    """What the tap did to a capture, and what of it couldn't be taken out."""
    tidy = port.tidy
    return {"port": port.number, "capture": port.label, "found": tidy.lines, "cut": tidy.cut, "missing": [it.what for it in tidy.holes], "is_order_guessed": tidy.is_askew, "left_out": port.left_out}


def as_data(found: Checked) -> Row:
    rules = [{**row_of(it), "waiver": waiver_row(found.waiver(it)) if it.tally.broken else None} for it in found.found]
    return {"origin": found.origin, "captures": [capture_row(it) for it in found.ports], "counts": found.counts(), "rules": rules}


def waiver_row(waiver: Optional[Waiver]) -> Optional[Row]:
    return {"until": waiver.until, "reason": waiver.reason} if waiver else None


KEPT = {"who": str, "host": str, "rule": str, "port": int, "state": str}  # what of an earlier report is read


def key_of(row: Row) -> tuple[str, str, str, int]:
    """What a rule's row in two reports have in common."""
    return row["who"], row["host"], row["rule"], row["port"]


def changes(found: Checked, before: list[Row]) -> list[Row]:
    """The rules whose state is another than in an earlier report; one that isn't there counts as not seen."""
    was = {key_of(it): it["state"] for it in before}
    rows = as_data(found)["rules"]
    now = {key_of(it) for it in rows}
    gone = [{**it, "was": it["state"], "state": UNSEEN, "broken": []} for it in before if key_of(it) not in now and it["state"] != UNSEEN]
    return [{**it, "was": was.get(key_of(it), UNSEEN)} for it in rows if it["state"] != was.get(key_of(it), UNSEEN)] + gone


def is_worse(rows: list[Row]) -> bool:
    """A rule is broken that wasn't, and that no waiver accepts."""
    return any(it["state"] == BROKEN and not it.get("waiver") for it in rows)


def changes_text(rows: list[Row]) -> list[str]:
    """What changed, what is broken now first."""
    lines = []
    for it in sorted(rows, key=lambda one: STATES.index(one["state"])):
        first = (it.get("broken") or [{}])[0]
        where = f": frame {first['frame']}: {first['field']} {first['stands']}, should be {first['should']}" if first else ""
        lines += folded(f"{it['state']}, was {it['was']}: {it['rule']}: {it['who']} {it['host']}{where}", "")
    return lines or ["nothing changed"]


def spot(talk: Talk, it: Shown) -> str:
    """A frame as texts name it."""
    return f"{talk.port.number}/{it.number}" if it.number > 0 else f"out{talk.port.number}/{-it.number}"


def broken_text(it: Found, first: int, waiver: Optional[Waiver] = None) -> list[str]:
    accepted = f" (accepted until {waiver.until}: {waiver.reason})" if waiver else ""
    lines = [painted(line, COLOURS[BROKEN]) for line in folded(f"broken: {it.rule.name}: {it.rule.text} [{it.rule.cited}]{accepted}", "  ")]
    for shown, fault in it.tally.broken[:SHOWN]:
        lines += folded(f"{spot(it.talk, shown)} {short(int(shown.clock), first)} {shown.heard.kind}: {fault.field} {fault.stands}, should be {fault.should}", "    ")
    more = len(it.tally.broken) - SHOWN
    return lines + ([f"    and {more} more (--json)"] if more > 0 else [])


def whys(it: Found) -> Iterator[str]:
    """Why a rule can't be told, each reason once with its frames."""
    told: dict[str, list[str]] = {}
    for shown, why in it.tally.left:
        told.setdefault(why, []).extend([spot(it.talk, shown)] if shown else [])
    for why, places in told.items():
        yield why + (f" ({', '.join(places[:3])}{f' and {len(places) - 3} more' if len(places) > 3 else ''})" if places else "")


def open_text(some: list[Found], is_all: bool) -> list[str]:
    """Rules that can't be told: those of one reason in one line."""
    lines: list[str] = []
    alike: dict[tuple[str, ...], list[Found]] = {}
    for it in some:
        alike.setdefault(tuple(sorted({why for _, why in it.tally.left})), []).append(it)
    for reasons, rows in alike.items():
        if len(rows) > 1 and len(reasons) == 1 and not is_all:
            lines += folded(f"can't be told: {', '.join(it.rule.name for it in rows)}: {reasons[0]}", "  ")
            continue
        for it in rows:
            told = list(whys(it))
            lines += folded(f"can't be told: {it.rule.name}: {'; '.join(told[:2])}{f'; and {len(told) - 2} more' if len(told) > 2 else ''}", "  ")
    return lines


def held_text(some: list[Found], is_all: bool) -> list[str]:
    lines = []
    for group, rows in groupby(some, key=lambda it: it.group):
        found = list(rows)
        if is_all:
            lines += [f"  held: {it.rule.name} ({counted(len(it.tally.held), 'frame')}): {it.rule.text} [{it.rule.cited}]" for it in found]
        else:
            lines.append(f"  held: {group}: {counted(len(found), 'rule')}")
    return lines


def unseen_text(some: list[Found], is_all: bool) -> list[str]:
    if is_all:
        return [f"  not seen: {it.rule.name}: {it.rule.text} [{it.rule.cited}]" for it in some]
    return folded(f"not seen: {', '.join(it.rule.name for it in some)}", "  ") if some else []


def text_of(found: Checked, is_all: bool = False) -> list[str]:
    """For a terminal: what the tap did, what is broken, what can't be told, and what was held by groups."""
    lines = [origin_text(found.origin)] if found.origin else []
    lines += [line for port in found.ports for said in port.tidy.lines for line in folded(f"port {port.number}: {said}", "")]
    lines += [line for port in found.ports if port.left_out for line in folded(f"port {port.number}: {LEFT_OUT.format(counted(port.left_out, 'frame'))}", "")]
    for talk, rows in found.by_whom():
        first = int(talk.frames[0].clock) if talk.frames else 0
        directions = "both directions" if talk.is_two_way else "its direction alone"
        lines.append(painted(f"port {talk.port.number}, {rows[0].who} ({colons(talk.mac)}), {directions}", Colour.HEAD))
        of = {state: [it for it in rows if it.tally.state == state] for state in STATES}
        for it in of[BROKEN]:
            lines += broken_text(it, first, found.waiver(it))
        lines += [*open_text(of[OPEN], is_all), *held_text(of[HELD], is_all), *unseen_text(of[UNSEEN], is_all)]
    lines.append(sums_text(found))
    return lines


def sums_text(found: Checked) -> str:
    return ", ".join(f"{count} {state}" for state, count in found.counts().items())


def rules_text() -> list[str]:
    """All rules with their sources."""
    lines = []
    for group in GROUPS:
        lines.append(group.name)
        lines += [f"  {it.name} ({it.who}{', a choice' if it.is_choice else ''}): {it.text} [{it.cited}]" for it in group.rules]
    return [*lines, "clauses and words (shall, should, may) are from memory: none was looked up for a rule (--json has the clauses' numbers, as far as they are known)"]


def rules_data() -> list[Row]:
    return [{"rule": it.name, "group": group.name, "who": it.who, **cited_row(it)} for group in GROUPS for it in group.rules]
