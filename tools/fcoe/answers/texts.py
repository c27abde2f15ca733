"""Views as text: what a person reads in a terminal."""
from collections import Counter
from dataclasses import dataclass
from itertools import accumulate
from typing import Any, Callable, Collection, Iterable, Optional

from ..frames.codes import spelled, type_text
from ..frames.places import text_of
from ..moments import short, stamp
from ..runs.compare import Compared, Comparison, by_kind, followers_text, states_in, totals
from ..runs.looking import Look
from ..terminal import Colour, folded, painted, width
from .traffic import NOISE
from .views import Row, first_clock, is_trouble, meaning_of

LISTED = 12  # rows of one kind that a terminal shows
SUMMARISED = 30  # logins that the summary shows
ANSWERED = 5  # answers that stand on top
UNGRANTED = ("rejected", "no answer")
# frames of switches that are beside no answer here, in words
BESIDE: dict[str, Callable[[Comparison], "Counter[str]"]] = {
    "Frames of the switch that fit no request, by OX_ID and addresses": lambda it: it.others,
    "Frames of further switches or VLANs, which are beside nothing here": lambda it: it.elsewhere,
}
COLOURS = {"failed": Colour.BAD, "blocked": Colour.BAD, "lost": Colour.BAD, "dropped": Colour.MIND, "different": Colour.MIND, "well": Colour.GOOD}


def table(heads: list[str], rows: Iterable[list[Any]], indent: str = "  ") -> list[str]:
    """Columns under their heads; those that a terminal has no room for stand below each row, by their heads."""
    cells = [[("-" if it is None else str(it)) for it in row] for row in rows]
    widths = [max([len(head)] + [len(row[at]) for row in cells]) for at, head in enumerate(heads)]
    ends = accumulate((it + 2 for it in widths), initial=len(indent) - 2)
    fit = max(sum(it <= width() for it in ends) - 1, 1)
    lines = []
    for at, row in enumerate([heads, *cells]):
        lines.append(indent + "  ".join(it.ljust(size) for it, size in zip(row[:fit], widths)).rstrip())
        rest = [f"{head}: {it}" for head, it in zip(heads[fit:], row[fit:]) if at and it not in ("-", "")]
        lines += folded("; ".join(rest), indent + "    ") if rest else []
    return lines


def answer_text(row: Row, first: int) -> list[str]:
    """An answer: of whom, what, when and where; the next step; what follows from it."""
    whom = row["wwpn"] or ""
    whom += (" " if whom else "") + (f"(port {row['port']})" if whom else f"port {row['port']}") if row["port"] is not None else ""
    when = ""
    if row["from"] is not None:
        when = short(row["from"], first) + (f" to {short(row['to'], first)}" if row["to"] != row["from"] else "")
    where = ", ".join(f"{port}/{number}" for port, number in row["frames"][:3]) + (" .." if row["count"] > 3 else "")
    told = "; ".join(it for it in (when, f"port/frame {where}" if where else "") if it)
    said = f"{whom}: {row['text']}" if whom else row["text"]
    lines = folded(said + (f" [{told}]" if told else ""), "  ")
    if row["severity"] in COLOURS:
        lines = [painted(it, COLOURS[row["severity"]]) for it in lines]
    if row["next"]:
        lines += folded(f"next: {row['next']}", "    ")
    followers = row["followers"]
    lines += [part for it in followers[:2] for part in folded(f"with it: {it}", "    ")]
    return lines + ([f"    and {len(followers) - 2} more (--json)"] if len(followers) > 2 else [])


def answers_text(rows: list[Row], first: int, most: Optional[int] = ANSWERED) -> list[str]:
    """The answer on top: a few lines, worst first."""
    lines, told = list[str](), set[str]()
    for row in rows[:most]:  # a step that several have stands once
        lines += answer_text({**row, "next": "as above"} if row["next"] and row["next"] in told else row, first)
        told.add(row["next"])
    return lines + ([f"  and {len(rows) - most} more (look answers)"] if most is not None and len(rows) > most else [])


@dataclass
class Line:
    """A line of logins: a login, or requests of one name that were rejected alike."""

    port: int
    wwpn: str
    by: str
    switch: str
    here: str
    since: int
    until: Optional[int]
    why: str
    row: Row
    count: int = 1

    def cells(self, first: int) -> list[Any]:
        by = self.by + (f" ×{self.count}" if self.count > 1 else "")
        return [self.port, self.wwpn, by, self.switch or None, self.here, short(self.since, first), short(self.until, first), self.why]


def login_line(row: Row) -> Line:
    """A login, or a reject, as a line."""
    if "verdict" in row:
        return Line(row["port"], row["wwpn"], row["request"], spelled(row["switch"] or ""), spelled(row["verdict"]), row["clock"], row["clock"], "", row)
    by, switch = f"FDISC of {row['switch_parent'] or row['parent']}" if row["kind"] == "FDISC" else "FLOGI", row["switch"] or ""
    why = "" if switch.startswith(UNGRANTED) else row["why"]
    return Line(row["port"], row["wwpn"], by, spelled(switch), f"granted {row['fcid']}", row["from"], row["to"], why, row)


def lines_of(rows: list[Row]) -> list[Line]:
    """Lines in the order of time, rejects that are alike as one."""
    lines: list[Line] = []
    alike: dict[tuple[Any, ...], Line] = {}
    for line in sorted((login_line(row) for row in rows), key=lambda it: it.since):
        key = (line.port, line.wwpn, line.by, line.switch, line.here)
        if line.switch.startswith(UNGRANTED) or line.here.startswith(UNGRANTED):
            if key in alike:
                alike[key].count, alike[key].until = alike[key].count + 1, line.until
                continue
            alike[key] = line
        lines.append(line)
    return lines


def logins_text(rows: list[Row], first: int, most: Optional[int] = None) -> list[str]:
    """Logins over time, rejected ones among them: what the switch said, beside this forwarder; at most so many rows."""
    if not rows:
        return ["  nobody"]
    if any("verdict" in row or row["switch_frame"] or row["switch"] not in (None, f"granted {row['fcid']}") for row in rows):
        lines = lines_of(rows)
        table_lines = table(["port", "WWPN", "by", "switch", "this forwarder", "from", "to", "why it ended"], [it.cells(first) for it in lines[:most]])
    else:
        lines = [login_line(row) for row in rows]
        cells = [[row["port"], row["fcid"], row["wwpn"], row["fpma"], it.by, short(it.since, first), short(it.until, first), it.why] for row, it in zip(rows[:most], lines)]
        table_lines = table(["port", "FCID", "WWPN", "FPMA", "by", "from", "to", "why it ended"], cells)
    return table_lines + ([f"  and {len(lines) - most} more (look logins)"] if most is not None and len(lines) > most else [])


def names_text(rows: list[Row]) -> list[str]:
    """The name server's entries."""
    if not rows:
        return ["  nobody is logged in at that moment (--at takes another)"]
    cells = []
    for row in rows:
        types = ", ".join(type_text(it, row["features"].get(str(it))) for it in row["types"])
        cells.append([row["address"], row["port"], row["wwpn"], row["wwnn"], types or None, row["receive_size"] or None, row["watching"] or None, row["symbolic_port_name"] or None])
    return table(["FCID", "port", "WWPN", "WWNN", "FC-4 types:features", "receive size", "SCR", "symbolic port name"], cells)


def zones_text(found: Row, most: Optional[int] = None) -> list[str]:
    """The active zones, at most so many; a star stands before who is logged in."""
    lines = [f"  zone set {found['set']}" if found["set"] else "  no zone set is activated: every zone is active"]
    for zone in found["zones"][:most]:
        lines.append(f"  zone {zone['zone']}")
        for member in zone["members"][:LISTED]:
            had = f" [had FCID {member['had']}]" if member["had"] else ""
            lines.append(f"    * {member['wwpn']} [FCID {member['address']}]" if member["fcid"] else f"      {member['wwpn']}{had}")
        if len(zone["members"]) > LISTED:
            lines.append(f"      and {len(zone['members']) - LISTED} more")
    if most is not None and len(found["zones"]) > most:
        lines.append(f"  and {len(found['zones']) - most} more zones (look zones)")
    return lines if found["zones"] else lines + ["  no zone is active: nobody reaches anybody"]


def gloss(word: str) -> str:
    """What a verdict is; of drops, rejects and refusals it stands among them."""
    return "" if is_trouble(word) else meaning_of(word)


def verdicts_text(counts: dict[int, dict[str, int]]) -> list[str]:
    """Counts of verdicts by port."""
    words: dict[str, int] = {}
    for some in counts.values():
        for word, count in some.items():
            words[word] = words.get(word, 0) + count
    heads = ["verdict", *(f"port {it}" for it in counts), "in all", "what it is"]
    return table(heads, ([spelled(word), *(counts[it].get(word, "") for it in counts), total, gloss(word)] for word, total in sorted(words.items(), key=lambda it: (it[0] == NOISE, -it[1], it[0]))))


def troubles_text(rows: list[Row], told: Collection[Optional[str]] = ()) -> list[str]:
    """Each kind of drop, reject and refusal; steps that were told above are left out."""
    lines: list[str] = []
    for row in rows:
        where = ", ".join(f"{port}/{number}" for port, number in row["frames"])
        kinds = ", ".join(f"{count} {kind}" for kind, count in row["kinds"].items())
        more = " .." if row["count"] > len(row["frames"]) else ""
        own = folded(f"{spelled(row['verdict'])}  ×{row['count']}  ({kinds}; port/frame {where}{more})", "  ")
        if row["verdict"] == NOISE:
            lines += [painted(it, Colour.NOISE) for it in own]
            continue
        own += folded(f"{row['meaning']} [{row['standard']}]", "    ") if row["meaning"] else []
        own += folded(f"in the first: {text_of(row['place'])}", "    ") if row["place"] else []
        lines += own + [line for hint in row["hints"] for line in folded(hint, "    ")]
        lines += folded(f"look next at: {row['look']}", "    ") if row["look"] and row["look"] not in told else []
    return lines or ["  nothing was dropped, rejected or refused"]


def together(some: list[Compared]) -> list[list[Compared]]:
    """Those together that differ alike, whatever frame and port."""
    groups: dict[tuple[Any, ...], list[Compared]] = {}
    for it in some:
        key = (it.request, it.switch, it.forwarder, *((one.field, one.switch, one.forwarder, one.note) for one in it.differences))
        groups.setdefault(key, []).append(it)
    return list(groups.values())


def answer_lines(some: list[Compared], first: int, is_short: bool) -> list[str]:
    """What differs, of frames that differ alike: the first of them, and how many there are; choices are left out where it is short."""
    it = some[0]
    where = f"port {it.port}" + (f", frame {it.frame}" if it.frame else "")
    more = f" ×{len(some)}, the last {short(some[-1].clock, first)}" if len(some) > 1 else ""
    lines = folded(f"{where}, {short(it.clock, first)}{more}: {it.request}: switch {spelled(it.switch)}, forwarder {spelled(it.forwarder)}", "  ")
    for difference in [one for one in it.differences if not is_short or one.is_open or not one.note]:
        note = f"  ({difference.note})" if difference.note else ""
        lines += folded(f"{difference.field}: switch {spelled(difference.switch)[:120]} | forwarder {spelled(difference.forwarder)[:120]}{note}", "    ")
    return lines


def compare_text(found: Optional[Comparison], first: int, is_short: bool = False) -> list[str]:
    """The comparison with the switch, differences first; choices are left out of a short one."""
    if found is None:
        return ["  the captures hold no frame of the switch: nothing to compare with"]
    sums = totals(found)
    states = states_in(sums)
    lines = ["  " + ", ".join(f"{sums[state]} {words}" for state, words in states.items())]
    lines += table(["request", *states], ([kind, *(some[state] for state in states)] for kind, some in by_kind(found).items()))
    beyond: list[str] = []
    for title, state in (("Differences", "different"), ("Choices", "choice"), ("Open", "open")):
        groups = together([it for it in found.all() if it.state == state])
        if groups and is_short and state != "different":
            beyond.append({"choice": "where a choice is left open", "open": "what can't be told"}[state])
            continue
        if groups:
            lines.append(f" {title}")
        for some in groups[:LISTED]:
            lines += answer_lines(some, first, is_short)
            followers = [it for it in found.notices if any(it.follows is one for one in some)]
            lines += [f"    {followers_text(followers)}"] if followers else []
        if len(groups) > LISTED:
            lines.append(f"  and {sum(map(len, groups[LISTED:]))} more (--json, --report)")
    lines += [f" `look compare` has each of them, field by field: {' and '.join(beyond)}"] if beyond else []
    if found.forwarded:
        lines.append(" Data frames: " + ", ".join(f"{count} {word}" for word, count in found.forwarded.most_common()))
    beside = {words: counts_of(found) for words, counts_of in BESIDE.items()}
    return lines + [f" {words}: " + ", ".join(f"{count} {word}" for word, count in counts.most_common(6)) for words, counts in beside.items() if counts]


def compare_json(found: Optional[Comparison]) -> Any:
    if found is None:
        return None
    rows = []
    for it in found.all():
        differences = [{"field": d.field, "switch": d.switch, "forwarder": d.forwarder, "why": d.note or None} for d in it.differences]
        rows.append({"port": it.port, "frame": it.frame, "clock": it.clock, "request": it.request, "switch": it.switch, "forwarder": it.forwarder, "state": it.state, "differences": differences})
    return {"totals": dict(totals(found)), "answers": rows, "forwarded": dict(found.forwarded), "others": dict(found.others), "elsewhere": dict(found.elsewhere)}


def titled(title: str, lines: list[str]) -> list[str]:
    return ["", painted(title, Colour.HEAD), *lines]


def summary_text(look: Look, found: Row) -> list[str]:
    """The answer that a person reads in a minute: what matters first, what was on the wire besides last."""
    first = first_clock(look)
    hosts, switch = sum(it["hosts"] for it in found["ports"]), sum(it["switch"] for it in found["ports"])
    lines = [painted("Answer", Colour.HEAD), *answers_text(found["answers"], first)]
    lines += titled("Logins", logins_text(found["logins"] + found["rejected_logins"], first, SUMMARISED))
    lines += titled("The switch's answers beside this forwarder's", compare_text(look.compared, first, is_short=True))
    lines += titled("Dropped, rejected, refused by this forwarder", troubles_text(found["troubles"], {it["next"] for it in found["answers"][:ANSWERED]}))
    lines += titled("Verdicts", verdicts_text(found["verdicts"]))
    lines += titled("Zones at the end", zones_text(found["zones"], LISTED // 3))
    lines += ["", f"{hosts} frames of hosts and {switch} of the switch, {stamp(found['from'])} to {stamp(found['to'])} (UTC)"]
    return lines + ([f"run: {found['printed']}; replay: {found['checked']}"] if found["printed"] else [])


def end_lines(end: Row, first: int) -> list[str]:
    """An end of a frame: its address as the capture has it, and the run's where it is another."""
    fcid = end["captured"] if end["captured"] == end["fcid"] else f"{end['captured']} ({end['fcid']} in the run)"
    if end["login"] is None:
        return [f"  {end['role']} {fcid}: {end.get('service') or end['state']}"]
    it = end["login"]
    lines = [f"  {end['role']} {fcid}: {end['state']}; WWPN {it['wwpn']}, port {it['port']}, ENode {it['enode']}"]
    lines.append(f"    granted {short(it['from'], first)} by {it['kind']} (port {it['port']}, frame {it['from_frame']})")
    if it["to"] is not None:
        by = f", frame {it['to_frame']}" if it["to_frame"] else ", a tick"
        lines.append(f"    ended {short(it['to'], first)}: {it['why']}{by}")
    return lines + [f"    window: {note}" for note in end["notes"]]


def why_text(found: Row) -> list[str]:
    """Why a frame has its verdict."""
    first = found["captured"]
    lines = [f"port {found['port']}, frame {found['frame']} of {found['file']} (INDEX {found['index']} of the journal), {stamp(first)} UTC, window {short(found['window'], first)}"]
    if found["switch"]:
        at = f" (frame {found['switch_frame']})" if found["switch_frame"] else ""
        lines.append(f"the switch: {spelled(found['switch'])}{at}")
    lines += [f"{found['kind']}: {spelled(found['verdict'])}", f"  {found['meaning']} [{found['standard']}]"]
    lines += [f"  codes: {it}" for it in found["codes"]]
    lines += [f"  {found['holder']}"] if found["holder"] else []
    if found["place"]:
        lines.append(f"  where: {text_of(found['place'])}")
    for end in found["ends"]:
        lines += end_lines(end, first)
    if found["zones"]:
        lines.append(f"  zone set {found['zones']['set'] or '(all zones)'}: " + "; ".join(f"{name} is in {', '.join(zones) or 'no active zone'}" for name, zones in found["zones"]["zones"].items()))
    if found["sent"]:
        lines.append("  sent: " + ", ".join(f"{it['kind']} on port {it['port']}" for it in found["sent"]))
    if found["look"]:
        lines.append(f"  look next at: {found['look']}")
    return lines
