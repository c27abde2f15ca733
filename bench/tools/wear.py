"""What laboratories do to captures: check sequences kept, frames twice, two clocks, a snap length, frames that the tap lost, a late begin, a clock that jumps."""
import random
import zlib
from dataclasses import replace
from typing import Callable

import machine  # pylint: disable=unused-import # it sets the path for what follows

from fcoe.frames.columns import Record
from fcoe.frames.heard import hear

Tape = list[Record]
Wear = Callable[[Tape, random.Random], Tape]
MICROSECOND = 1000


def numbered(tape: Tape) -> Tape:
    return [replace(it, number=at) for at, it in enumerate(tape, 1)]


def ordered(tape: Tape) -> Tape:
    return numbered(sorted(tape, key=lambda it: it.moment))


def is_switch(it: Record, switch: bytes) -> bool:
    return it.data[6:12] == switch


def switch_of(tape: Tape) -> bytes:
    """The MAC that advertises itself."""
    return next((it.data[6:12] for it in tape if hear(it.data).kind in ("Advertisement", "FLOGI accept", "VLAN notification")), b"")


def with_sequences(tape: Tape, _: random.Random) -> Tape:
    """Each frame with its Ethernet check sequence."""
    return [replace(it, data=it.data + zlib.crc32(it.data).to_bytes(4, "little"), length=it.length + 4) for it in tape]


def twice(tape: Tape, lot: random.Random) -> Tape:
    """Each frame twice, as a mirror of both sides of a port gives them."""
    return ordered([one for it in tape for one in (it, replace(it, moment=it.moment + lot.randrange(20 * MICROSECOND)))])


def late(moment: int) -> Wear:
    """The frames of hosts later (below 0 earlier) by so many nanoseconds."""
    return lambda tape, _: ordered([it if is_switch(it, switch_of(tape)) else replace(it, moment=it.moment + moment) for it in tape])


def rough(tape: Tape, _: random.Random) -> Tape:
    """Times of whole milliseconds, those of the switch rounded down."""
    switch = switch_of(tape)
    return ordered([replace(it, moment=it.moment // 1_000_000 * 1_000_000 + (0 if is_switch(it, switch) else 400_000)) for it in tape])


def snapped(size: int) -> Wear:
    return lambda tape, _: [replace(it, data=it.data[:size]) for it in tape]


def lost(share: float) -> Wear:
    """The tap loses frames."""
    return lambda tape, lot: numbered([it for it in tape if lot.random() >= share])


def begun_late(share: float) -> Wear:
    return lambda tape, _: numbered(tape[int(len(tape) * share) :])


def ended_early(share: float) -> Wear:
    return lambda tape, _: numbered(tape[: int(len(tape) * share)])


def of_hosts(tape: Tape, _: random.Random) -> Tape:
    """The hosts' direction alone."""
    switch = switch_of(tape)
    return numbered([it for it in tape if not is_switch(it, switch)])


def jumped(seconds: int) -> Wear:
    """The clock jumps ahead once, or nothing was captured for so long."""

    def worn(tape: Tape, lot: random.Random) -> Tape:
        place = lot.randrange(len(tape) // 4, 3 * len(tape) // 4)
        return [replace(it, moment=it.moment + (seconds * 1_000_000_000 if at >= place else 0)) for at, it in enumerate(tape)]

    return worn


WEARS: dict[str, Wear] = {
    "as it is": lambda tape, _: tape,
    "check sequences": with_sequences,
    "twice": twice,
    "0.5 ms late": late(500_000),
    "0.5 ms early": late(-500_000),
    "milliseconds": rough,
    "snap 64": snapped(64),
    "snap 96": snapped(96),
    "snap 128": snapped(128),
    "1% lost": lost(0.01),
    "0.2% lost": lost(0.002),
    "begins late": begun_late(0.3),
    "ends early": ended_early(0.6),
    "hosts alone": of_hosts,
    "an hour's jump": jumped(3600),
}
