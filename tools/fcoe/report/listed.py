"""The frames of hosts as data: a row each, for jq, pandas and spreadsheets."""
import csv
import re
import sys
from dataclasses import dataclass, field
from typing import Any, Callable, Iterable, Iterator, Optional

from ..answers.views import first_clock
from ..answers.who import SERVICES, Names
from ..errors import Refused, meant
from ..frames.columns import MILLISECOND
from ..frames.heard import fcid
from ..frames.places import place_of, text_of
from ..moments import Part, stamp
from ..printing import as_json
from ..runs.inputs import Port
from ..runs.journals import TICK, Frame
from ..runs.looking import Look
from ..runs.pairs import asks

COLUMNS = ("port", "frame", "index", "moment", "kind", "ox_id", "s_id", "d_id", "source_wwpn", "destination_wwpn", "verdict", "place", "switch")
EITHER = {"wwpn": ("source_wwpn", "destination_wwpn"), "fcid": ("s_id", "d_id")}  # words of a condition for either end
Row = dict[str, Any]


@dataclass
class Condition:
    """What a row must be: a column, how it is compared, and with what."""

    columns: tuple[str, ...]
    sign: str
    value: str

    def holds(self, row: Row) -> bool:
        return self.fits(*("" if row[it] is None else str(row[it]) for it in self.columns))

    def fits(self, *cells: str) -> bool:
        """`=` compares whole words from the first on, so that `dropped` is every drop; `~` looks for a part."""
        value = self.value
        if self.sign == "~":
            return any(value in it for it in cells)
        return any(it == value or bool(value) and it.startswith(value + " ") for it in cells) == (self.sign == "=")


def condition(text: str) -> Condition:
    """A condition of the command line."""
    found = re.fullmatch(r"\s*(\w+)\s*(!=|=|~)\s*(.*?)\s*", text)
    if found is None:
        raise Refused(f"--where '{text}': wants COLUMN=VALUE, COLUMN!=VALUE or COLUMN~PART, as 'verdict=dropped zone'")
    if found[1] not in (*COLUMNS, *EITHER):
        raise Refused(f"--where '{text}': no column {found[1]}{meant(found[1], (*COLUMNS, *EITHER)) or ': there are ' + ', '.join((*COLUMNS, *EITHER))}")
    return Condition(EITHER.get(found[1], (found[1],)), found[2], found[3])


@dataclass
class Wanted:
    """Which rows are wanted."""

    conditions: list[Condition] = field(default_factory=list)
    port: Optional[int] = None
    part: Part = field(default_factory=Part)

    def places(self, look: Look) -> Iterator[int]:
        """The entries of frames that may be wanted, by port, time and verdict."""
        entries = look.run.entries
        begin, end = self.part.within(first_clock(look))
        of_verdict = [it for it in self.conditions if it.columns == ("verdict",)]
        some = [at != TICK and all(it.fits(verdict) for it in of_verdict) for at, verdict in enumerate(entries.verdicts)]
        for place, said in enumerate(entries.said):
            port = entries.ports[place]
            if some[said] and self.port in (None, port):
                moment = look.ports[port - 1].moment(entries.indexes[place]) / MILLISECOND
                if begin <= moment <= end:
                    yield place


@dataclass
class Listing:
    """Makes the rows of frames."""

    look: Look
    names: Names

    def ends_of(self, port: Port, at: int) -> tuple[Optional[str], Optional[str], Optional[str]]:
        """OX_ID, S_ID and D_ID."""
        like = port.frames.like(at)
        if like.fc is None:
            return None, None, None
        ox_id = port.frames.bytes_at(at, like.fc.at + 16, 2)
        return ox_id.hex(), fcid(like.fc.s_id), fcid(like.fc.d_id)

    def said_by_switch(self, entry: Frame, port: Port, at: int) -> Optional[str]:
        """What the switch of the captures did with a frame: its verdict in the journal's words, `no answer`, or whether it sent the frame on."""
        captured = self.look.captured[entry.port - 1]
        reply = self.look.replies.get((entry.port, at))
        if reply is not None:
            return reply.verdict
        if not captured.replies:
            return None
        like = port.frames.like(at)
        if asks(like) is not None:
            return "no answer"
        went = self.look.compared.went if self.look.compared else None
        if went is None or not like.is_fcoe or like.fc is None or like.fc.d_id >= 0xFF0000:
            return None
        if went.has(entry.port, at):
            return "sent on"
        shows = [self.look.ports[int(entry.words[1]) - 1]] if entry.word == "forwarded" else self.look.ports
        return "not sent on" if all(it.replies for it in shows) else None

    def row(self, place: int) -> Row:
        """A frame of a host."""
        entry = self.look.run.entries.frame(place)
        port = self.look.ports[entry.port - 1]
        at = port.hosts[entry.index]
        like = port.frames.like(at)
        names = [it if ":" in it else None for it in self.names.ends(entry.port, like, place)]
        where = text_of(place_of(entry.verdict, port.frames.heard(at))) if entry.word == "dropped" else ""
        cells = (entry.port, port.frames.number(at), entry.index, port.frames.moments[at], like.kind, *self.ends_of(port, at), *names, entry.verdict, where or None)
        return dict(zip(COLUMNS, (*cells, self.said_by_switch(entry, port, at))))


def rows(look: Look, wanted: Wanted) -> Iterator[Row]:
    """The rows that are wanted, in the journal's order."""
    listing = Listing(look, Names(look))
    for place in wanted.places(look):
        row = listing.row(place)
        if all(it.holds(row) for it in wanted.conditions):
            yield row


# ---- forms


def in_json(found: Iterable[Row]) -> Iterator[str]:
    """One array, an object a line."""
    before = "[\n "
    for row in found:
        yield before + as_json(row)
        before = ",\n "
    yield "\n]\n" if before != "[\n " else "[]\n"


def as_jsonl(found: Iterable[Row]) -> Iterator[str]:
    """An object a line."""
    return (as_json(row) + "\n" for row in found)


def as_text(found: Iterable[Row]) -> Iterator[str]:
    """Columns for a terminal."""
    shape = "{:>8}  {:<23}  {:<18}  {:<4}  {:<6}  {:<6}  {:<23}  {:<23}  {:<24}  {}"
    heads = ("frame", "moment", "kind", "OX", "S_ID", "D_ID", "source", "destination", "verdict", "switch")
    yield shape.format(*heads).rstrip() + "\n"
    for it in found:
        ends = [it[name] or "-" for name in ("ox_id", "s_id", "d_id", "source_wwpn")]
        to = it["destination_wwpn"] or SERVICES.get(int(it["d_id"] or "0", 16), "-")
        yield shape.format(f"{it['port']}/{it['frame']}", stamp(it["moment"] // MILLISECOND), it["kind"], *ends, to, it["verdict"], it["switch"] or "").rstrip() + "\n"


def write_csv(found: Iterable[Row], columns: Iterable[str] = COLUMNS) -> None:
    """A line of heads, and a line a row."""
    writer = csv.DictWriter(sys.stdout, list(columns), lineterminator="\n")
    writer.writeheader()
    writer.writerows(found)


FORMS: dict[str, Callable[[Iterable[Row]], Iterator[str]]] = {"json": in_json, "jsonl": as_jsonl, "text": as_text}


def write(found: Iterable[Row], form: str, columns: Iterable[str] = COLUMNS) -> None:
    """Writes rows as they come."""
    if form == "csv":
        write_csv(found, columns)
    else:
        sys.stdout.writelines(FORMS[form](found))


# ---- the journal

ENTRY_COLUMNS = ("clock", "port", "index", "verdict", "word", "rest")


def entry_rows(look: Look) -> Iterator[Row]:
    """The entries of the journal: of a tick the port is 0 and `rest` has the addresses whose logins it ended."""
    for entry in look.run.entries:
        if isinstance(entry, Frame):
            word, _, rest = entry.verdict.partition(" ")
            cells: tuple[Any, ...] = (entry.clock, entry.port, entry.index, entry.verdict, word, rest or None)
        else:
            cells = (entry.clock, 0, None, "tick", "tick", " ".join(map(fcid, entry.ended)) or None)
        yield dict(zip(ENTRY_COLUMNS, cells))


def entry_text(it: Row) -> str:
    """An entry's line, as the journal has it."""
    words = (it["clock"], it["port"] or None, it["index"], it["verdict"], it["rest"] if it["word"] == "tick" else None)
    return " ".join(str(word) for word in words if word is not None) + "\n"


def write_entries(look: Look, form: str) -> None:
    """Writes the journal's entries."""
    found = entry_rows(look)
    if form == "text":
        sys.stdout.writelines(map(entry_text, found))
    else:
        write(found, form, ENTRY_COLUMNS)
