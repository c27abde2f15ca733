"""A run as a picture, time downwards: one line for each ENode, the forwarder in the middle."""
from collections import Counter
from dataclasses import dataclass
from html import escape
from typing import Iterable, Iterator, Optional, Union

from ..answers.traffic import NOISE
from ..frames.heard import Heard, fcid
from ..moments import Part, stamp
from ..runs.fabric import Login, Sent
from ..runs.journals import Entry, Frame, Tick
from ..runs.looking import Look

COLUMN, ROW, TOP, LEFT = 300, 26, 140, 170
COLOURS = {"dropped": "#b3261e", "rejected": "#b35900", "refused": "#b35900", "sent": "#1a5fb4", "taken": "#26a269", "tick": "#6b3fa0"}
LEGEND = (
    ("taken", "heard, and taken", ""),
    ("sent", "sent by the forwarder", ""),
    ("rejected", "rejected, refused", ""),
    ("dropped", "dropped, with its rule", "3 3"),
    ("tick", "logins ended by silence", "5 4"),
)
Node = tuple[int, bytes]  # port, MAC of the ENode


@dataclass
class Arrow:
    """Frames of one kind that follow each other."""

    clock: int
    node: Node
    inward: bool
    text: str
    why: str = ""
    count: int = 1

    def like(self, other: "Row") -> bool:
        return isinstance(other, Arrow) and (self.node, self.inward, self.text, self.why) == (other.node, other.inward, other.text, other.why)


Row = Union[Arrow, Tick]


def label(heard: Heard, inward: bool) -> str:
    """The kind of a frame, and the other end of one between N_Ports."""
    fc = heard.fc
    other = (fc.d_id if inward else fc.s_id) if fc is not None and heard.is_fcoe else 0xFFFFFF
    return heard.kind if other >= 0xFF0000 else f"{heard.kind} {'to' if inward else 'from'} {fcid(other)}"


class Picture:
    """The rows of a picture."""

    def __init__(self, look: Look) -> None:
        self.look = look
        self.owner: dict[Node, Node] = {}  # port and granted MAC: the ENode that holds it
        self.nodes: list[Node] = []
        self.ended: dict[int, list[Login]] = {}
        for login in look.walk.fabric.logins:
            if login.ended_by is not None:
                self.ended.setdefault(login.ended_by, []).append(login)
        self.granted = {it.granted_by: it for it in look.walk.fabric.logins}

    def node(self, port: int, mac: bytes) -> Node:
        """The ENode of a MAC behind a port: itself, or who holds it as a granted MAC."""
        found = self.owner.get((port, mac), (port, mac))
        if found not in self.nodes:
            self.nodes.append(found)
        return found

    def heard(self, entry: Frame) -> Arrow:
        heard = self.look.ports[entry.port - 1].like(entry.index)
        node = self.node(entry.port, heard.source)
        return Arrow(entry.clock, node, True, label(heard, True), "" if entry.word == "forwarded" else entry.verdict)

    def sent(self, it: Sent, clock: int) -> list[Arrow]:
        heard = it.like
        is_to_all = heard.destination[0] % 2
        nodes = [node for node in self.nodes if node[0] == it.port] if is_to_all else [self.node(it.port, heard.destination)]
        return [Arrow(clock, node, False, label(heard, False)) for node in nodes]

    def change(self, place: int) -> None:
        """Takes the logins that an entry makes and ends."""
        config = self.look.run.config
        for login in self.ended.get(place, []):
            self.owner.pop((login.port, login.mac(config)), None)
        login_made = self.granted.get(place)
        if login_made is not None:
            self.owner[(login_made.port, login_made.mac(config))] = (login_made.port, login_made.enode)

    def take(self, place: int, entry: Entry) -> list[Row]:
        """The rows of an entry: what was heard or ended by silence, and what was sent."""
        found: list[Row] = [self.heard(entry)] if isinstance(entry, Frame) else [entry] if entry.ended else []
        for it in self.look.walk.sent[place]:
            found += self.sent(it, entry.clock)
        self.change(place)
        return found


def merged(rows: Iterable[Row], noise: "Counter[str]") -> list[Row]:
    """The rows without other traffic, whose number is counted; like rows that are neighbours then are one."""
    found: list[Row] = []
    for row in rows:
        if isinstance(row, Arrow) and row.why == NOISE:
            noise[row.why] += row.count
        elif found and isinstance(row, Arrow) and row.like(found[-1]):
            last = found[-1]
            assert isinstance(last, Arrow)
            last.count += row.count
        else:
            found.append(row)
    return found


def clock_text(clock: int, first: int) -> str:
    """Clock time, and seconds since the first arrow."""
    day = stamp(clock)
    return f"{day[11:22] if len(day) > 12 else day}  +{(clock - first) / 1000:.2f} s"


def ordered(nodes: list[Node], rows: list[Row]) -> list[Optional[Node]]:
    """The lines from left to right; none is the forwarder."""
    used = {row.node for row in rows if isinstance(row, Arrow)}
    heard = [it for it in nodes if it in used]
    ports = sorted({port for port, _ in heard})
    half = ports[: (len(ports) + 1) // 2]
    if len(ports) == 1:
        left, right = heard[: (len(heard) + 1) // 2], heard[(len(heard) + 1) // 2 :]
    else:
        left, right = [it for it in heard if it[0] in half], [it for it in heard if it[0] not in half]
    return [*reversed(left), None, *right]


def heads(look: Look, order: list[Optional[Node]], place: dict[Optional[Node], int], height: int) -> Iterator[str]:
    names: dict[Node, str] = {}
    for login in look.walk.fabric.logins:
        names.setdefault((login.port, login.enode), login.name.hex(":"))
    yield from titles(order, place, height, "forwarder", names)


def titles(order: list[Optional[Node]], place: dict[Optional[Node], int], height: int, middle: str, names: dict[Node, str]) -> Iterator[str]:
    """A line for each ENode and one for the middle, with their names."""
    for node in order:
        x, title = place[node], middle if node is None else f"port {node[0]} · {node[1].hex(':')}"
        yield f'<line x1="{x}" y1="{TOP - 24}" x2="{x}" y2="{height - ROW}" stroke="#9a9996" stroke-width="{3 if node is None else 1.5}"/>'
        yield f'<text x="{x}" y="{TOP - 48}" text-anchor="middle" font-weight="bold">{escape(title)}</text>'
        if node in names and node is not None:
            yield f'<text x="{x}" y="{TOP - 32}" text-anchor="middle" fill="#5e5c64" font-size="11">{names[node]}</text>'


def legend(width: int, said: str, words: tuple[tuple[str, str, str], ...] = LEGEND) -> Iterator[str]:
    """What the colours mean, and what isn't drawn."""
    x, y = 10, 22
    for word, text, dash in words:
        size = 44 + 7 * len(text)
        if x + size > width and x > 10:
            x, y = 10, y + 18
        yield f'<line x1="{x}" y1="{y - 4}" x2="{x + 26}" y2="{y - 4}" stroke="{COLOURS[word]}" stroke-width="2" stroke-dasharray="{dash}"/>'
        yield f'<text x="{x + 32}" y="{y}" fill="{COLOURS[word]}" font-size="11">{escape(text)}</text>'
        x += size
    yield f'<text x="10" y="{y + 22}" fill="#5e5c64" font-size="11">{escape(said)}</text>'


def about(look: Look, first: int, noise: "Counter[str]") -> str:
    """When the picture begins, and what it leaves out."""
    said = f"begins {stamp(first)}{' UTC' if first >= 10**11 else ''}; times are those of the windows ({look.run.config.window} ms)"
    return said + "".join(f"; not drawn: {count} {why}" for why, count in noise.items())


def framed(width: int, height: int) -> Iterator[str]:
    yield f'<svg xmlns="http://www.w3.org/2000/svg" viewBox="0 0 {width} {height}" width="{width}" height="{height}" font-family="DejaVu Sans, Helvetica, sans-serif" font-size="12">'
    yield f'<rect width="{width}" height="{height}" fill="#ffffff"/>'
    yield '<defs><marker id="head" viewBox="0 0 8 8" refX="8" refY="4" markerWidth="8" markerHeight="8" orient="auto"><path d="M0 0 L8 4 L0 8 z" fill="context-stroke"/></marker></defs>'


def drawing(look: Look, part: Part = Part()) -> Iterator[str]:
    """The lines of the picture, of a part of time, whose seconds count from the first arrow."""
    picture, noise = Picture(look), Counter[str]()
    merged_rows = merged((row for at, entry in enumerate(look.run.entries) for row in picture.take(at, entry)), noise)
    first = merged_rows[0].clock if merged_rows else 0
    begin, end = part.within(first)
    rows = [row for row in merged_rows if begin <= row.clock <= end]
    order = ordered(picture.nodes, rows)
    place: dict[Optional[Node], int] = {node: LEFT + COLUMN // 2 + COLUMN * at for at, node in enumerate(order)}
    width, height = LEFT + COLUMN * len(order), TOP + ROW * (len(rows) + 2)
    yield from framed(width, height)
    yield from legend(width, about(look, first, noise))
    yield from heads(look, order, place, height)
    yield from body(rows, first, place, width)
    yield "</svg>"


def body(rows: list[Row], first: int, place: dict[Optional[Node], int], width: int) -> Iterator[str]:
    """The rows, each clock at the left of its first."""
    shown = None
    for at, row in enumerate(rows):
        y = TOP + ROW * at
        if row.clock != shown:
            yield f'<text x="10" y="{y + 4}" fill="#5e5c64" font-size="11" xml:space="preserve">{clock_text(row.clock, first)}</text>'
            shown = row.clock
        yield from ended(row, y, place, width) if isinstance(row, Tick) else drawn(row, y, place)


def silent(tick: Tick) -> str:
    """Which logins a tick ends."""
    return "silent: " + " ".join(fcid(it) for it in tick.ended[:8]) + (f" and {len(tick.ended) - 8} more" if len(tick.ended) > 8 else "")


def ended(tick: Tick, y: int, place: dict[Optional[Node], int], width: int) -> Iterator[str]:
    colour = COLOURS["tick"]
    yield f'<line x1="{LEFT}" y1="{y}" x2="{width - 20}" y2="{y}" stroke="{colour}" stroke-dasharray="5 4"/>'
    yield f'<text x="{place[None] + 8}" y="{y - 4}" fill="{colour}" font-weight="bold">{silent(tick)}</text>'


def drawn(row: Arrow, y: int, place: dict[Optional[Node], int]) -> Iterator[str]:
    word = row.why.split(" ")[0]
    colour = COLOURS.get(word, COLOURS["taken"]) if row.inward or word else COLOURS["sent"]
    ends = (place[row.node], place[None]) if row.inward else (place[None], place[row.node])
    times = f" ×{row.count}" if row.count > 1 else ""
    text = escape(f"{row.text}{times}" + (f" · {row.why}" if row.why else ""))
    dash = ' stroke-dasharray="3 3"' if word == "dropped" else ""
    yield f'<line x1="{ends[0]}" y1="{y}" x2="{ends[1]}" y2="{y}" stroke="{colour}" stroke-width="1.5"{dash} marker-end="url(#head)"/>'
    near = place[None] + (COLUMN // 2 if place[row.node] > place[None] else -COLUMN // 2)
    yield f'<text x="{near}" y="{y - 5}" text-anchor="middle" fill="{colour}" stroke="#ffffff" stroke-width="3" paint-order="stroke">{text}</text>'
