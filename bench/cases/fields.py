#!/usr/bin/env python3
"""fields.py ONE OTHER: compares the FIP frames of two captures field by field: of each kind of message the first of each capture.

A driver writer gives what his node sent as ONE and what `enode` sent as OTHER. A line is a field that differs, with its value in each; the
MACs, names and OX_IDs differ where the nodes do. Behind a kind stand how many frames of it each capture has."""
import pathlib
import sys
from typing import Iterable, Iterator, Optional

HERE = pathlib.Path(__file__).resolve().parent
sys.path[:0] = [str(HERE), str(HERE.parents[1] / "tools")]
from captures import Record, read
from fcoe.frames.message_fields import compared, shown
from models import FIP, read_eth, read_fip

KINDS = {"vlan-ask": "VLAN request", "solicit": "solicitation", "keep": "keep alive", "vlan-tell": "VLAN notification"}
COMMANDS = {7: "FLOGI", 8: "FDISC", 9: "LOGO"}


def kind_of(data: bytes) -> Optional[str]:
    """The kind of a FIP frame, or None."""
    eth = read_eth(data)
    message = read_fip(eth.body) if eth and eth.kind == FIP else None
    if message is None:
        return None
    if message.name in ("login", "reply"):
        kind, frame = message.login
        answer = {1: " reject", 2: " accept"}.get(frame[24] if len(frame) > 24 else 0, " reply") if message.name == "reply" else ""
        return COMMANDS[kind] + answer
    if message.name == "keep" and message.port:
        return "VN_Port keep alive"
    return KINDS.get(message.name, message.name)


def firsts(records: Iterable[Record]) -> dict[str, tuple[bytes, int]]:
    """The first frame of each kind, and how many there are."""
    found: dict[str, tuple[bytes, int]] = {}
    for it in records:
        kind = kind_of(it.data)
        if kind:
            frame, count = found.get(kind, (it.data, 0))
            found[kind] = frame, count + 1
    return found


def table(one: Iterable[Record], other: Iterable[Record]) -> Iterator[str]:
    """The lines of a comparison of two lists of records."""
    left, right = firsts(one), firsts(other)
    for kind in [*left, *(it for it in right if it not in left)]:
        counts = [found.get(kind, (b"", 0))[1] for found in (left, right)]
        yield f"{kind}: {counts[0]} and {counts[1]}"
        if kind in left and kind in right:
            for name, a, b in compared(left[kind][0], right[kind][0]):
                yield f"  {name}: {shown(a)}, {shown(b)}"


if __name__ == "__main__":
    if len(sys.argv) != 3:
        sys.exit(__doc__)
    print("\n".join(table(read(pathlib.Path(sys.argv[1])), read(pathlib.Path(sys.argv[2])))))
