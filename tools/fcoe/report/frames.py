"""The report's table of frames, as data: frames of hosts with their verdicts, the switch's own, and what the ladder draws of them."""
import base64
from array import array
from heapq import nsmallest
from itertools import accumulate, compress
from typing import Any, Iterator

from ..answers.texts import why_text
from ..answers.traffic import NOISE
from ..answers.views import first_clock, is_trouble
from ..answers.who import Names
from ..answers.why import Asked, why_of
from ..frames.codes import spelled
from ..frames.columns import Record
from ..frames.fields import fields_of, in_line
from ..frames.heard import Heard, colons
from ..runs.fabric import ANSWERED, Sent
from ..runs.inputs import Port
from ..runs.journals import TICK, Frame, Tick, counted, rows
from ..runs.looking import Look
from ..runs.pairs import Moment
from .ladder import Arrow, Node, Picture, silent
from .listed import Listing

DATA_BYTES, OTHER_BYTES = 128, 1024  # bytes of a frame that the page keeps
READING = 800  # letters of a frame's reading
TOLD = 1000  # troubles of which the page tells both ends
MOST = 60000  # frames in the table; of data frames that went on the later ones are left out
SWITCH = "the switch's"  # in place of the verdict of a frame that the switch sent

Place = tuple[int, int]  # of a frame: its port, and its place in the port's capture


class Words:
    """Words that repeat stand once in the page."""

    def __init__(self) -> None:
        self.places: dict[str, int] = {}

    def of(self, text: str) -> int:
        return self.places.setdefault(text, len(self.places))


def kept_bytes(record: Record, heard: Heard) -> str:
    """The bytes of a frame that the page keeps."""
    is_data = heard.is_fcoe and heard.fc is not None and heard.fc.kind not in (0x01, 0x20)
    size = DATA_BYTES if is_data or not heard.is_fabric else OTHER_BYTES
    return base64.b64encode(record.data[:size]).decode("ascii")


def replies_text(sent: list[Sent], entry: Frame) -> str:
    """What was sent because of a frame, in words."""
    found = []
    for it in sent[:6]:
        is_reply = entry.word in ANSWERED and it.heard.kind != "RSCN"
        found.append(f"{it.heard.kind} on port {it.port}" + (f": {in_line(fields_of(it.heard))[:600]}" if is_reply else ""))
    more = len(sent) - len(found)
    return "\n".join(found + ([f"and {more} more"] if more > 0 else []))


def trouble_text(look: Look, asked: Asked) -> str:
    """Why a frame was dropped, rejected or refused, in words."""
    return "\n".join(it.strip() for it in why_text(why_of(look, asked))[3:])


def entries_of(look: Look) -> dict[int, "array[int]"]:
    """For each port the entry of each frame of a host, by its INDEX."""
    found = {port.number: array("I", bytes(4 * len(port.hosts))) for port in look.ports}
    entries = look.run.entries
    for place, (number, index) in enumerate(zip(entries.ports, entries.indexes)):
        if number != TICK:
            found[number][index] = place
    return found


def is_quiet(verdict: str) -> bool:
    """Of data frames that went on, and of other traffic: what a table that is full can do without."""
    return verdict == NOISE or verdict.startswith("forwarded")


class Table:
    """The rows of the page's table, by the order of time, and the arrows of each."""

    def __init__(self, look: Look) -> None:
        self.look, self.words, self.known = look, Words(), Names(look)
        self.listing = Listing(look, self.known)
        self.first, self.told = first_clock(look), 0
        self.entry_of = entries_of(look)
        self.frames = self.chosen()
        self.arrows: dict[int, list[Arrow]] = {}
        self.silent: dict[int, str] = {}
        self.nodes = self.take_entries()
        self.line = {node: at for at, node in enumerate(self.nodes)}

    def telling(self, port: Port) -> bytearray:
        """Which frames of a port tell most: messages, and data frames that were dropped."""
        entries, found = self.look.run.entries, bytearray(port.frames.is_message_at())
        is_told = [not is_quiet(it) for it in entries.verdicts]
        for at, place in zip(port.hosts, self.entry_of[port.number]):
            if is_told[entries.said[place]]:
                found[at] = 1
        return found

    def chosen(self) -> list[tuple[Port, int]]:
        """The frames that stand in the table, by time: those that tell most, and of the others the first."""
        ports = {port.number: port for port in self.look.ports}
        telling = {number: self.telling(port) for number, port in ports.items()}

        def moments(wanted: int) -> Iterator[Moment]:
            for number, port in ports.items():
                times: Iterator[int] = accumulate(port.frames.moments, max)
                own = ((moment, number, at) for at, moment in enumerate(times))
                yield from compress(own, (it == wanted for it in telling[number]))

        found = nsmallest(MOST, moments(1))
        found += nsmallest(MOST - len(found), moments(0))
        return [(ports[number], at) for _, number, at in sorted(found)]

    def take_entries(self) -> list[Node]:
        """The arrows of each entry that is a tick, or a frame of the table; gives the ladder's lines."""
        picture, entries = Picture(self.look), self.look.run.entries
        wanted = {self.entry_of[port.number][index] for port, at in self.frames if (index := port.index(at)) is not None}
        for place, said in enumerate(entries.said):
            if said != TICK and place not in wanted:
                continue
            entry = entries[place]
            self.arrows[place] = [it for it in picture.take(place, entry) if isinstance(it, Arrow)]
            if isinstance(entry, Tick) and entry.ended:
                self.silent[place] = silent(entry)
        return picture.nodes

    def arrow(self, it: Arrow) -> list[int]:
        """An arrow as the page has it: its line, and its text."""
        return [self.line[it.node], self.words.of(it.text)]

    def common(self, port: Port, at: int, heard: Heard, ends: tuple[str, str]) -> dict[str, Any]:
        """What each frame has, whoever sent it."""
        record = port.frames.record(at)
        reading = in_line(fields_of(heard))[:READING]
        words = {"kind": self.words.of(heard.kind), "source": self.words.of(ends[0]), "target": self.words.of(ends[1])}
        return {"port": port.number, "frame": record.number, "time": record.milliseconds - self.first, **words, "size": record.length, "bytes": kept_bytes(record, heard), "reading": reading}

    def why(self, entry: Frame, place: int, heard: Heard) -> str:
        """Why a frame was dropped, rejected or refused, in words; of the first ones."""
        if not is_trouble(entry.verdict) or not heard.is_fabric or self.told >= TOLD:
            return ""
        self.told += 1
        return trouble_text(self.look, Asked(entry, place, heard))

    def of_host(self, port: Port, at: int, index: int) -> dict[str, Any]:
        """A frame of a host."""
        place, heard = self.entry_of[port.number][index], port.frames.heard(at)
        entry = self.look.run.entries.frame(place)
        inward, *sent = self.arrows[place]
        return {
            **self.common(port, at, heard, self.known.ends(port.number, heard, place)),
            "verdict": self.words.of(entry.verdict),
            "answer": self.words.of(spelled(self.listing.said_by_switch(entry, port, at) or "")),
            "why": self.why(entry, place, heard),
            "sent": replies_text(self.look.walk.sent[place], entry),
            "entry": place,
            "clock": entry.clock - self.first,
            "line": self.line[inward.node],
            "label": self.words.of(inward.text),
            "arrows": [self.arrow(one) for one in sent],
        }

    def of_switch(self, port: Port, at: int) -> dict[str, Any]:
        """A frame of the switch: it has no verdict, and no arrow."""
        heard, entry = port.frames.heard(at), self.known.entry_at(port.frames.milliseconds(at))
        return {
            **self.common(port, at, heard, self.known.ends_of_switch(port.number, heard, entry)),
            "verdict": self.words.of(SWITCH),
            "answer": self.words.of(""),
            "why": "",
            "sent": "",
            "entry": -1,
            "clock": 0,
            "line": -1,
            "label": self.words.of(""),
            "arrows": [],
        }

    def row(self, port: Port, at: int) -> dict[str, Any]:
        index = port.index(at)
        return self.of_switch(port, at) if index is None else self.of_host(port, at, index)

    def columns(self) -> dict[str, Any]:
        """All that the page's script reads."""
        made = [self.row(port, at) for port, at in self.frames]
        place: dict[Place, int] = {(port.number, at): row for row, (port, at) in enumerate(self.frames)}
        pair = [-1] * len(made)
        for request, reply in self.look.replies.items():
            row, answer = place.get(request), place.get((request[0], reply.at))
            if row is not None and answer is not None:
                pair[row], pair[answer] = answer, row
        columns = {name: [row[name] for row in made] for name in (made[0] if made else [])}
        return {"columns": {**columns, "pair": pair}, "ticks": self.ticks(), "lines": self.lines(), "words": list(self.words.places), "first": self.first}

    def ticks(self) -> list[dict[str, Any]]:
        """The ticks that end logins or send."""
        found, entries = [], self.look.run.entries
        for place, some in self.arrows.items():
            if entries.said[place] == TICK and (some or place in self.silent):
                arrows = [self.arrow(it) for it in some]
                found.append({"entry": place, "clock": entries.clocks[place] - self.first, "text": self.silent.get(place, ""), "arrows": arrows})
        return found

    def lines(self) -> list[list[Any]]:
        """The lines of the ladder: port, MAC and port name of each ENode."""
        return [[port, colons(mac), self.known.of_enode.get((port, mac), "")] for port, mac in self.nodes]


def frames_of_page(look: Look) -> dict[str, Any]:
    """The table of frames and the ladder's arrows; what each word of a verdict means."""
    found = Table(look).columns()
    in_all = sum(len(port.frames) for port in look.ports)
    said = {it: text for it in look.run.entries.verdicts if (text := spelled(it)) != it}
    return {**found, "spelled": said, "meanings": {word: row.meaning for word, row in rows().items()}, "switch": SWITCH, "noise": NOISE, "in_all": in_all}


def rules_of(look: Look) -> list[str]:
    """The verdicts that the table can be filtered by."""
    return sorted({counted(it) for it in look.run.entries.verdicts[TICK + 1 :]}) + ([SWITCH] if any(port.replies for port in look.ports) else [])
