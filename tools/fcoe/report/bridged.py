"""What crossed a bridge as a picture, time downwards: one line for each ENode behind its port, port 1 in the middle."""
from collections import Counter
from dataclasses import dataclass
from typing import Iterator, Optional

from ..frames.heard import hear
from ..moments import stamp
from .ladder import COLUMN, LEFT, ROW, TOP, Arrow, Node, Row, body, framed, label, legend, merged, ordered, titles


@dataclass
class Crossed:
    """A frame with the port on which it came, the ENode that sends it or is to get it behind its port, and its way; no ENode where it is for all."""

    moment: int
    port: int
    node: Optional[Node]
    data: bytes
    rule: str  # of a frame that was dropped


def rows_of(frames: list[Crossed]) -> tuple[list[Node], list[Row]]:
    """The ENodes in the order in which they come, and an arrow for each frame, like neighbours as one."""
    nodes: list[Node] = []
    rows: list[Row] = []
    for it in frames:
        if it.node is not None and it.node not in nodes:
            nodes.append(it.node)
        heard, inward = hear(it.data), it.port > 1
        for node in nodes if it.node is None else [it.node]:
            rows.append(Arrow(it.moment, node, inward, label(heard, inward), f"dropped {it.rule}" if it.rule else ""))
    return nodes, rows


def drawing(frames: list[Crossed]) -> Iterator[str]:
    """The lines of the picture."""
    nodes, found = rows_of(frames)
    noise = Counter[str]()
    rows = merged(found, noise)
    first = rows[0].clock if rows else 0
    order = ordered(nodes, rows)
    place: dict[Optional[Node], int] = {node: LEFT + COLUMN // 2 + COLUMN * at for at, node in enumerate(order)}
    width, height = LEFT + COLUMN * len(order), TOP + ROW * (len(rows) + 2)
    said = f"begins {stamp(first)}{' UTC' if first >= 10**11 else ''}" + "".join(f"; not drawn: {count} {why}" for why, count in noise.items())
    words = (("taken", "passed up", ""), ("sent", "passed down", ""), ("dropped", "dropped, with its rule", "3 3"))
    yield from framed(width, height)
    yield from legend(width, said, words)
    yield from titles(order, place, height, "port 1, the forwarder's", {})
    yield from body(rows, first, place, width)
    yield "</svg>"
