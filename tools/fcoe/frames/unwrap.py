"""FIP and FCoE inside something else: mirrors that travel (ERSPAN, GRE, VXLAN, Geneve), further tags (802.1ad, VN-Tag), MPLS, LLC/SNAP."""
from collections import Counter
from dataclasses import dataclass
from typing import Callable, Iterator, Optional

from .columns import Frames, Record
from .heard import FCOE_TYPE, FIP_TYPE, TAG_TYPE, number

IPV4, IPV6, MPLS, VN_TAG = 0x0800, 0x86DD, (0x8847, 0x8848), 0x8926
OUTER_TAGS = (0x88A8, 0x9100, 0x9200)
GRE, UDP = 47, 17
BRIDGED, ERSPAN, ERSPAN_III = 0x6558, 0x88BE, 0x22EB  # protocols of GRE
VXLAN_PORTS, GENEVE_PORT = (4789, 4790, 8472), 6081
SNAP = bytes.fromhex("aaaa03000000")
CUT = 0x0400  # bit T of ERSPAN: the mirror cut the frame
LONGEST = 2176  # bytes of an FCoE frame with a tag; one that a mirror cut may have had so many
LAYERS = 6  # that are unwrapped at most
Inner = Optional[tuple[str, bytes]]  # what was around it, and the Ethernet frame inside
BY_MIRROR = ", cut"  # behind what was around a frame that its mirror cut


def is_fabric(data: bytes) -> bool:
    """FIP or FCoE, with a tag or without one."""
    kind = number(data[12:14])
    return (number(data[16:18]) if kind == TAG_TYPE else kind) in (FIP_TYPE, FCOE_TYPE)


def in_gre(body: bytes) -> Inner:
    """The Ethernet frame in GRE: ERSPAN of three kinds, or a bridged one."""
    if len(body) < 4:
        return None
    flags, protocol = number(body[:2]), number(body[2:4])
    at = 4 + sum(4 for bit in (0x8000, 0x2000, 0x1000) if flags & bit)  # check sum, key, sequence number
    if protocol == BRIDGED:
        return "GRE", body[at:]
    cut = BY_MIRROR if number(body[at + 2 : at + 4]) & CUT else ""
    if protocol == ERSPAN:
        return ("ERSPAN II" + cut, body[at + 8 :]) if flags & 0x1000 else ("ERSPAN I", body[at:])
    if protocol == ERSPAN_III and len(body) > at + 12:
        return "ERSPAN III" + cut, body[at + 12 + (8 if body[at + 11] & 1 else 0) :]
    return None


def in_udp(body: bytes) -> Inner:
    port = number(body[2:4])
    if port in VXLAN_PORTS:
        return "VXLAN", body[16:]
    if port == GENEVE_PORT and len(body) > 16 and number(body[10:12]) == BRIDGED:
        return "Geneve", body[16 + 4 * (body[8] & 0x3F) :]
    return None


def in_ip(body: bytes) -> Inner:
    """What GRE or UDP carries; without the padding of the frame around it. Fragments aren't put together."""
    if len(body) < 20:
        return None
    if body[0] >> 4 == 4:
        begin, end, protocol = 4 * (body[0] & 0x0F), number(body[2:4]), body[9]
        if number(body[6:8]) & 0x1FFF:
            return None
    else:
        begin, end, protocol = 40, 40 + number(body[4:6]), body[6]
    inner = body[begin:end] if end > begin else body[begin:]
    return in_gre(inner) if protocol == GRE else in_udp(inner) if protocol == UDP else None


def in_mpls(body: bytes) -> Inner:
    """The Ethernet frame behind the labels, and behind a control word where there is one."""
    at = 0
    while at + 4 <= len(body):
        at += 4
        if body[at - 2] & 1:
            return "MPLS", body[at + 4 :] if body[at : at + 4] == bytes(4) else body[at:]
    return None


def peeled(data: bytes) -> Inner:
    """A frame without the outermost of what is around FIP or FCoE."""
    if len(data) < 18:
        return None
    kind, at = number(data[12:14]), 14
    if kind in OUTER_TAGS or kind == TAG_TYPE and number(data[16:18]) in (TAG_TYPE, *OUTER_TAGS):
        return "a second VLAN tag", data[:12] + data[16:]
    if kind == VN_TAG:
        return "VN-Tag", data[:12] + data[18:]
    if kind < 0x0600 and data[14:20] == SNAP:
        return "LLC/SNAP", data[:12] + data[20:22] + data[22 : 14 + kind]
    if kind == TAG_TYPE:
        kind, at = number(data[16:18]), 18
    if kind in (IPV4, IPV6):
        return in_ip(data[at:])
    return in_mpls(data[at:]) if kind in MPLS else None


@dataclass(frozen=True)
class Inside:
    """The FIP or FCoE frame inside a frame, and what is around it."""

    around: str
    data: bytes
    is_cut: bool  # by the mirror


def inside(data: bytes) -> Optional[Inside]:
    """None where there is nothing around a frame, or nothing inside."""
    around: list[str] = []
    while len(around) < LAYERS and not is_fabric(data):
        found = peeled(data)
        if found is None:
            return None
        around.append(found[0])
        data = found[1]
    if not around or not is_fabric(data) or len(data) < 14:
        return None
    words = [it.removesuffix(BY_MIRROR) for it in reversed(around)]
    return Inside(" in ".join(words), data, any(it.endswith(BY_MIRROR) for it in around))


def may_wrap(data: bytes) -> bool:
    """A frame whose Ethertype may carry another."""
    kind = number(data[12:14])
    inner = number(data[16:18]) if kind == TAG_TYPE else kind
    return inner in (IPV4, IPV6, TAG_TYPE, VN_TAG, *MPLS, *OUTER_TAGS) or kind in (VN_TAG, *OUTER_TAGS) or kind < 0x0600 and data[14:17] == SNAP[:3]


def unwrapped(frames: Frames, rewrite: Callable[[Frames, Iterator[Record]], Frames]) -> tuple[Frames, list[str]]:
    """The frames with what is inside others in place of those, and what was around them, with counts; `rewrite` makes frames of records."""
    wrapping = [may_wrap(it.heard.data) for it in frames.flows]
    if not any(wrapping):
        return frames, []
    counts: Counter[str] = Counter()
    cut = 0
    for at, flow in enumerate(frames.flow_of):
        found = inside(frames.data(at)) if wrapping[flow] else None
        if found is not None:
            counts[found.around] += 1
            cut += found.is_cut
    if not counts:
        return frames, []

    def records() -> Iterator[Record]:
        for at, flow in enumerate(frames.flow_of):
            record = frames.record(at)
            found = inside(record.data) if wrapping[flow] else None
            if found is not None:
                whole = max(record.length - len(record.data), 0) + len(found.data)
                record.length = max(whole, LONGEST) if found.is_cut else whole
                record.data = found.data
            yield record

    made = rewrite(frames, records())
    made.is_mirror_cut = cut > 0
    return made, [f"{count:,} frames of FIP and FCoE stand in {around}: they are taken out of it" for around, count in sorted(counts.items())]
