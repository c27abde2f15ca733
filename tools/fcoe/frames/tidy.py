"""Captures as laboratories have them: what the tap did is found first, said, and taken out where that can be done.

Ethernet check sequences that the tap kept, copies of a mirror of both sides, and the lag between two directions that were captured with two clocks are taken
out. Frames that are cut, and frames that are missing, can only be said: what hangs on them can't be told."""
import struct
import zlib
from array import array
from bisect import bisect_left
from collections import Counter
from dataclasses import dataclass, field
from typing import Callable, Iterable, Optional, Sequence

from ..errors import counted
from .columns import MILLISECOND, Flow, Frames
from .heard import ADVERTISE, ALL_ENODES, SOLICIT, VLAN_REQUEST, Heard, hear, number
from .order import RESPONDER, Ordered, in_order

SEQUENCE = 4  # bytes of an Ethernet check sequence
MOST_HAVE_IT, MIRRORED = 0.5, 0.4  # shares of frames from which on all were captured so
COPIED_WITHIN = 2 * MILLISECOND
GENERATION = 4096  # frames behind which copies are no longer looked for
END_SEQUENCE, OFFSET_HELD = 0x080000, 0x000008  # F_CTL
LATE, REGULAR = 1.6, 4  # periods without an advertisement, and how many come on time around it, for one to be missing
DATA = 0x01  # R_CTL of FCP data
SEQUENCED = struct.Struct(">IBxHH2xI")  # of an FC header from TYPE on: TYPE and F_CTL, SEQ_ID, SEQ_CNT, OX_ID, parameter


@dataclass(frozen=True)
class Hole:
    """Frames that are missing: at which place of the capture it's seen, whose they are, and in words."""

    at: int
    is_switch: bool
    what: str


@dataclass
class Tidy:
    """What was found of a capture."""

    lines: list[str] = field(default_factory=list)  # to be said on top
    holes: list[Hole] = field(default_factory=list)
    cut: int = 0
    is_askew: bool = False  # the order of both directions is guessed: answers stood before their requests, by no one lag
    accounted: int = 0  # frames whose loss would be seen


# ---- check sequences of Ethernet


def has_sequence(data: bytes) -> bool:
    """Whether the last four bytes are the check sequence of those before."""
    return len(data) > 18 and zlib.crc32(data[:-SEQUENCE]) == int.from_bytes(data[-SEQUENCE:], "little")


def without_sequence(flow: Flow) -> Flow:
    return Flow(hear(flow.heard.data[:-SEQUENCE]), flow.is_message)


def strip_sequences(frames: Frames, lines: list[str]) -> None:
    """Takes check sequences off, by flows: those of one direction may be there alone."""
    counts = Counter(frames.flow_of)
    firsts: dict[int, int] = {}
    for at, flow in enumerate(frames.flow_of):
        firsts.setdefault(flow, at)
    whole = [it for it, at in firsts.items() if frames.is_whole(at) and frames.flows[it].heard.is_fabric]
    found = {it for it in whole if has_sequence(frames.flows[it].heard.data)}
    if not found or sum(counts[it] for it in found) < MOST_HAVE_IT * sum(counts[it] for it in whole):
        return
    every = {it for it, at in firsts.items() if has_sequence(frames.flows[it].heard.data)}
    frames.flows = [without_sequence(it) if number_ in every else it for number_, it in enumerate(frames.flows)]
    stripped = 0
    for at, flow in enumerate(frames.flow_of):
        is_whole = frames.is_whole(at)
        if flow in every or not is_whole and flow not in whole:
            frames.lengths[at] -= SEQUENCE
            frames.sizes[at] = min(frames.sizes[at], frames.lengths[at])
            stripped += is_whole
    frames.decoded.clear()
    frames.alike = None
    lines.append(f"{counted(stripped, 'frame')} end with the Ethernet check sequence, which the tap kept: taken off")


# ---- copies


def copies_of(frames: Frames) -> "array[int]":
    """The places of frames that are copies of one just before: each second of those that are alike."""
    found, last, before = array("I"), dict[bytes, int](), dict[bytes, int]()
    for at, flow in enumerate(frames.flow_of):
        if not frames.flows[flow].heard.is_fabric:
            continue
        data, moment = frames.data(at), frames.moments[at]
        seen = last.get(data, before.get(data))
        if seen is not None and abs(moment - seen) <= COPIED_WITHIN:
            found.append(at)
            last.pop(data, None)
            before.pop(data, None)
        else:
            last[data] = moment
        if len(last) >= GENERATION:
            before, last = last, {}
    return found


def of_fabric(frames: Frames) -> int:
    return sum(count for flow, count in Counter(frames.flow_of).items() if frames.flows[flow].heard.is_fabric)


def without_copies(frames: Frames, lines: list[str]) -> Frames:
    """The frames without the copies of a mirror that has both sides of a port; a few alike frames are no mirror."""
    whole = of_fabric(frames)
    copies = copies_of(frames) if whole and is_likely_mirrored(frames) else array("I")
    if not copies or len(copies) < MIRRORED * whole:
        return frames
    gone = set(copies)
    lines.append(f"{counted(len(gone), 'frame')} stand twice, as a mirror of both sides gives them: the copies are taken out")
    return frames.part([at for at in range(len(frames)) if at not in gone])


def is_likely_mirrored(frames: Frames) -> bool:
    """By the first frames alone, so that a long capture isn't read for nothing."""
    some = frames.part(range(min(len(frames), GENERATION)))
    return len(copies_of(some)) >= MIRRORED * of_fabric(some) > 0


# ---- what is missing


@dataclass
class DataFlow:
    """Data frames of FCP that are alike up to TYPE: where their FC header begins, and whose they are."""

    at: int
    ends: tuple[int, int]
    is_switch: bool

    @classmethod
    def of(cls, heard: Heard, switches: set[bytes]) -> "Optional[DataFlow]":
        fc = heard.fc if heard.is_fcoe else None
        return cls(fc.at, (fc.s_id, fc.d_id), heard.source in switches) if fc is not None and fc.kind == 0x08 and fc.r_ctl & 0x0F == DATA else None


def is_hole(expected: tuple[int, int], seq_cnt: int, offset: int) -> bool:
    """SEQ_CNT is past what is expected, and so is the relative offset, where there is one."""
    return seq_cnt > expected[0] and (expected[1] < 0 or offset != expected[1])


def sequence_holes(frames: Frames, switches: set[bytes], found: Tidy) -> None:
    """SEQ_CNT that jumps within a sequence, where the relative offset jumps with it."""
    running: dict[tuple[int, int, int, int, int], tuple[int, int]] = {}
    flows = [DataFlow.of(it.heard, switches) for it in frames.flows]
    for at, flow in enumerate(flows[it] for it in frames.flow_of):
        if flow is None:
            continue
        control, seq_id, seq_cnt, ox_id, parameter = SEQUENCED.unpack(frames.bytes_at(at, flow.at + 8, SEQUENCED.size))
        key = (*flow.ends, ox_id, seq_id, control & RESPONDER)
        offset = parameter if control & OFFSET_HELD else -1
        before = running.get(key)
        if before is not None and 0 < seq_cnt < before[0]:
            continue  # it stands twice
        if before is not None:
            if is_hole(before, seq_cnt, offset):
                found.holes.append(Hole(at, flow.is_switch, f"SEQ_CNT goes from {before[0] - 1} to {seq_cnt} in frame {frames.number(at)}"))
            else:
                found.accounted += 1
        if control & END_SEQUENCE:
            running.pop(key, None)
        else:
            running[key] = seq_cnt + 1, offset + frames.lengths[at] - flow.at - 32 - (control & 3) if offset >= 0 else -1


def advertisement_holes(frames: Frames, switches: set[bytes], found: Tidy) -> None:
    """An advertisement that fails, where those around it come on time, and no host begins anew between, whose link was down."""
    told: dict[tuple[bytes, int], list[tuple[int, int]]] = {}
    period, begins = 0, list[int]()
    for at in frames.messages():
        heard = frames.heard(at)
        if heard.operation in (VLAN_REQUEST, SOLICIT):
            begins.append(at)
        if heard.operation == ADVERTISE and heard.destination == ALL_ENODES:
            told.setdefault((heard.source, heard.vlan), []).append((at, frames.moments[at]))
            part = heard.descriptor(12)
            period = number(part.data[4:8]) * MILLISECOND if part and len(part.data) >= 8 else period
    for (source, _), some in told.items():
        gaps = [two[1] - one[1] for one, two in zip(some, some[1:])]
        late = [it for it, gap in enumerate(gaps) if period and LATE * period < gap < 4 * period and bisect_left(begins, some[it][0]) == bisect_left(begins, some[it + 1][0])]
        found.accounted += len(gaps) - len(late)
        if late and len(gaps) - len(late) >= REGULAR * len(late):
            found.holes += [Hole(some[it + 1][0], source in switches, f"an advertisement fails before frame {frames.number(some[it + 1][0])}") for it in late]


def find_holes(frames: Frames, switches: set[bytes], found: Tidy) -> None:
    """What is missing, with its first sign said."""
    sequence_holes(frames, switches, found)
    advertisement_holes(frames, switches, found)
    found.holes.sort(key=lambda it: it.at)
    if found.holes:
        found.lines.append(f"frames are missing, seen in {counted(len(found.holes), 'place')} (first: {found.holes[0].what})")


def tidied(frames: Frames, find: Callable[[Iterable[Heard]], set[bytes]]) -> tuple[Frames, Tidy]:
    """The frames as they were on the wire, as far as that can be told, and what was found; `find` tells the switches of frames."""
    found = Tidy()
    if not any(it.heard.is_fabric for it in frames.flows):
        return frames, found
    strip_sequences(frames, found.lines)
    made = without_copies(frames, found.lines)
    switches = find(made.telling())
    ordered: Ordered = in_order(made, switches)
    if ordered.line:
        found.lines.append(ordered.line)
    found.is_askew = ordered.is_guessed
    found.cut = sum(size < length for size, length in zip(ordered.frames.sizes, ordered.frames.lengths))
    find_holes(ordered.frames, switches, found)
    return ordered.frames, found


def holes_between(found: Tidy, begin: int, end: int) -> Sequence[Hole]:
    """The holes that are seen between two places."""
    places = [it.at for it in found.holes]
    return found.holes[bisect_left(places, begin) : bisect_left(places, end)]
