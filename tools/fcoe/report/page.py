"""A report to look at: one file of HTML, which opens without a network."""
import base64
import gzip
import pathlib
import re
from html import escape
from typing import Any, Callable

from ..answers.texts import BESIDE, UNGRANTED, Line, lines_of, together
from ..answers.traffic import NOISE
from ..answers.views import Row, busiest, counts, first_clock, meaning_of, names, summary, zones
from ..errors import Refused, counted
from ..files import write_whole
from ..frames.codes import spelled, type_text
from ..frames.places import text_of
from ..moments import short, stamp
from ..numerals import whole
from ..printing import as_json
from ..runs.compare import STATES, by_kind, states_in, totals
from ..runs.journals import counted as rule_of
from ..runs.looking import Look
from .check import check_rows
from .exchanges import exchange_rows
from .frames import frames_of_page, rules_of
from .ladder import LEGEND
from .zoning import reach_rows, whatif_rows

FOLDER = pathlib.Path(__file__).resolve().parent
TITLED = 3  # files that a title names
CARDS = 8  # ports up to which each has a card
LISTED = 500  # differences that the page lists
MARKS = 3  # parts of the scale of the logins' bars


def title_of(look: Look) -> str:
    """The captures, in a title's length."""
    labels = [port.label for port in look.ports]
    more = len(labels) - TITLED
    return ", ".join(labels) if more <= 0 else f"{', '.join(labels[:TITLED])} and {counted(more, 'more capture')}"


def span_of(look: Look) -> tuple[int, int]:
    """The first clock of the run, and how long it is."""
    clocks = look.run.entries.clocks
    return (clocks[0], max(clocks[-1] - clocks[0], 1)) if clocks else (0, 1)


def login_row(it: Line, first: int, span: int) -> Row:
    """A login or a reject with its bar, in hundredths of the run."""
    begin, end = (100 * (clock - first) / span for clock in (it.since, it.until if it.until is not None else first + span))
    is_in = not it.switch.startswith(UNGRANTED) and not it.here.startswith(UNGRANTED)
    track = {"kind": it.by.split(" ")[0] if is_in else "rejected", "left": round(min(begin, 99.5), 2), "width": round(max(end - begin, 0.5), 2)}
    frame = it.row.get("from_frame", it.row.get("frame"))
    return {**vars(it), **track, "at": short(it.since, first), "till": short(it.until, first) if it.until is not None else "", "frame": frame}


def login_rows(look: Look, found: Row) -> Row:
    """Logins and rejects in the order of time, and the scale above them."""
    first, span = span_of(look)
    rows = [login_row(it, first, span) for it in lines_of(found["logins"] + found["rejected_logins"])]
    marks = [{"left": 100 * part / MARKS, "text": short(first + span * part // MARKS, first)} for part in range(MARKS)]
    return {"rows": rows, "marks": marks, "has_switch": any(it["switch"] for it in rows)}


def verdict_rows(look: Look) -> list[Row]:
    """Counts of verdicts by port, with what each says; other traffic comes last."""
    by_port = counts(look)
    words: dict[str, int] = {}
    for some in by_port.values():
        for verdict, count in some.items():
            words[verdict] = words.get(verdict, 0) + count
    most = max((count for verdict, count in words.items() if verdict != NOISE), default=1)
    found = []
    for verdict, count in sorted(words.items(), key=lambda it: (it[0] == NOISE, -it[1], it[0])):
        kind = "noise" if verdict == NOISE else verdict.split(" ")[0]
        share = min(round(100 * count / most, 1), 100)
        found.append({"verdict": verdict, "kind": kind, "count": count, "share": share, "ports": [some.get(verdict, 0) for some in by_port.values()], "meaning": meaning_of(verdict)})
    return found


def trouble_rows(found: Row) -> list[Row]:
    """Drops, rejects and refusals; other traffic comes last."""
    rows = [{**it, "rule": rule_of(it["verdict"]), "where": text_of(it["place"]), "kind": "noise" if it["verdict"] == NOISE else it["verdict"].split(" ")[0]} for it in found["troubles"]]
    return sorted(rows, key=lambda it: bool(it["kind"] == "noise"))


def comparison_rows(look: Look) -> Any:
    """The comparison with the switch: what differs alike is one row, the worst first."""
    found = look.compared
    if found is None:
        return None
    worst, first = list(reversed(STATES)), first_clock(look)
    groups = sorted(together([it for it in found.all() if it.differences]), key=lambda some: worst.index(some[0].state))
    apart = [{"first": some[0], "count": len(some), "at": short(some[0].clock, first), "last": short(some[-1].clock, first)} for some in groups[:LISTED]]
    sums = totals(found)
    states = states_in(sums)
    kinds = [{"kind": kind, "states": [some[state] for state in states]} for kind, some in by_kind(found).items()]
    return {"kinds": kinds, "apart": apart, "more": max(len(groups) - LISTED, 0), "states": states, "totals": sums, "forwarded": found.forwarded, "beside": [(words, some(found)) for words, some in BESIDE.items()]}


def answer_rows(found: Row) -> list[Row]:
    """The answers on top, with their times."""
    return [{**it, "at": short(it["from"], found["from"]), "till": short(it["to"], found["from"]) if it["to"] != it["from"] else ""} for it in found["answers"]]


def linker(look: Look, safe: Callable[[str], Any]) -> Callable[[str], Any]:
    """Makes each port/frame of a text that is a frame of these captures lead to its row, and shows words between backquotes as code."""
    def led(found: re.Match[str]) -> str:
        port, number = whole(found[1], 1, len(look.ports)), whole(found[2])
        is_there = port is not None and number is not None and look.ports[port - 1].frames.at_number(number) is not None
        return f'<a class="frame" href="#?at={found[0]}">{found[0]}</a>' if is_there else found[0]

    def linked(text: str) -> Any:
        return safe(re.sub(r"`([^`]+)`", r"<code>\1</code>", re.sub(r"\b(\d+)/(\d+)\b", led, escape(text))))

    return linked


def packed(value: Any) -> str:
    """A value as the page carries it: JSON, packed with gzip, in base64."""
    text = as_json(value, separators=(",", ":"))
    return base64.b64encode(gzip.compress(text.encode("utf-8"), 9, mtime=0)).decode("ascii")


def values_of(look: Look) -> Row:
    """What the template shows."""
    found = summary(look)
    frames = frames_of_page(look)
    return {
        "title": title_of(look),
        "found": found,
        "begin": stamp(found["from"]),
        "end": stamp(found["to"]),
        "is_folded": len(look.ports) > CARDS,
        "answers": answer_rows(found),
        "logins": login_rows(look, found),
        "verdicts": verdict_rows(look),
        "ports": [port.number for port in look.ports],
        "troubles": trouble_rows(found),
        "zones": zones(look, None),
        "comparison": comparison_rows(look),
        "legend": {word: text for word, text, _ in LEGEND},
        "frames": packed(frames),
        "shown": len(frames["columns"]["pair"]),
        "in_all": frames["in_all"],
        "rules": rules_of(look),
        "names": names(look, busiest(look)),
        "busiest": stamp(busiest(look)),
        "reach": reach_rows(look),
        "whatif": whatif_rows(look),
        "checks": check_rows(look, found["from"]),
        "exchanges": exchange_rows(look, found["from"]),
    }


def write_report(look: Look, name: str) -> None:
    """Writes the report."""
    try:
        import jinja2  # pylint: disable=import-outside-toplevel
        import markupsafe  # pylint: disable=import-outside-toplevel
    except ImportError:
        raise Refused("--report wants jinja2 (apt-get install python3-jinja2)") from None
    room = jinja2.Environment(loader=jinja2.FileSystemLoader(FOLDER), autoescape=True, trim_blocks=True, lstrip_blocks=True, undefined=jinja2.StrictUndefined)
    room.filters.update(spelled=spelled, type_text=type_text)
    room.filters["linked"] = linker(look, markupsafe.Markup)
    text = room.get_template("page.html.j2").render(values_of(look))
    write_whole(name, text)
