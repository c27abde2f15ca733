"""FC frames of captures in the order of time: their headers and as much of their payload as says what they are."""
import heapq
import struct
import zlib
from dataclasses import dataclass
from functools import lru_cache
from operator import attrgetter
from typing import Iterable, Iterator, Optional

from ..frames.heard import LOGIN, LOGIN_REPLY, Heard
from ..runs.inputs import Port
from .codes import LINK_CONTROL

HEADER = struct.Struct(">B3sB3sB3sBBHHHI")  # R_CTL, D_ID, CS_CTL, S_ID, TYPE, F_CTL, SEQ_ID, DF_CTL, SEQ_CNT, OX_ID, RX_ID, parameter
REST = struct.Struct(">3sBBHHHI")  # of the header behind TYPE
HEAD, TAIL = 14, 8  # bytes of FCoE before the FC header, and behind the payload (check sequence, EOF and reserved bytes)
BLS, ELS, FCP, CT, NVME = 0x00, 0x01, 0x08, 0x20, 0x28  # TYPE
COMMAND, READY, DATA, RESPONSE, EXTENDED = 0x06, 0x05, 0x01, 0x07, 0x08  # R_CTL of FCP and NVMe
ELS_REQUEST, ELS_REPLY, CT_REQUEST, CT_REPLY = 0x22, 0x23, 0x02, 0x03
ABTS, BA_ACC, BA_RJT = 0x81, 0x84, 0x85
REQUESTS = {(ELS, ELS_REQUEST), (CT, CT_REQUEST), (FCP, COMMAND), (NVME, COMMAND)}
REPLIES = {(ELS, ELS_REPLY), (CT, CT_REPLY), *((kind, r_ctl) for kind in (FCP, NVME) for r_ctl in (READY, RESPONSE, EXTENDED))}
BASIC = {ABTS: "ABTS", BA_ACC: "BA_ACC", BA_RJT: "BA_RJT"}
OF_FCP = {COMMAND: "command", READY: "XFER_RDY", DATA: "data", RESPONSE: "response", EXTENDED: "response"}
KEPT = 2112  # bytes of a payload that are looked into; of data fewer
KEPT_OF_DATA = 64
FROM_RESPONDER, LAST_SEQUENCE, END_SEQUENCE, HAS_OFFSET, FILL = 0x800000, 0x100000, 0x080000, 0x000008, 0x000003  # in F_CTL


@dataclass(slots=True, frozen=True)
class Role:
    """What a frame is for its exchange, by TYPE and R_CTL."""

    word: str
    is_request: bool  # the first frame of an exchange
    is_reply: bool  # what only the responder sends, or the fabric in its place


@lru_cache(maxsize=None)
def role_of(kind: int, r_ctl: int) -> Role:
    if r_ctl in LINK_CONTROL:
        return Role(LINK_CONTROL[r_ctl], (kind, r_ctl) in REQUESTS, True)
    is_request = (kind, r_ctl) in REQUESTS
    if kind == BLS:
        word = BASIC.get(r_ctl, "BLS")
    elif kind in (FCP, NVME):
        word = OF_FCP.get(r_ctl & 0x0F, "other")
    else:
        word = "request" if is_request else "reply"
    return Role(word, is_request, (kind, r_ctl) in REPLIES)


OTHER = role_of(0xFF, 0x00)


@dataclass(slots=True)
class FcFrame:
    """An FC frame as an exchange sees it. `enode` is the host's MAC of a frame in FIP, whose addresses don't tell hosts apart."""

    port: int
    number: int
    moment: int
    vlan: int
    is_from_switch: bool
    length: int  # of the whole frame on the wire
    r_ctl: int
    d_id: int
    s_id: int
    type: int
    f_ctl: int
    seq_id: int = 0
    seq_cnt: int = 0
    ox_id: int = 0
    rx_id: int = 0xFFFF
    parameter: int = 0
    size: int = 0  # of the payload
    payload: bytes = b""  # as much of it as is looked into
    is_intact: bool = True  # its check sequence is right, as far as the frame is there
    is_cut: bool = False  # by the snap length
    enode: bytes = b""
    is_data: bool = False  # of FCP or NVMe
    role: Role = OTHER
    switch: bytes = b""  # the MAC of the switch that sent a frame in FIP

    @property
    def place(self) -> tuple[int, int]:
        return self.port, self.number

    @property
    def is_from_responder(self) -> bool:
        return bool(self.f_ctl & FROM_RESPONDER)

    @property
    def ends_sequence(self) -> bool:
        return bool(self.f_ctl & END_SEQUENCE)

    @property
    def is_last(self) -> bool:
        """The last frame of its exchange."""
        return self.f_ctl & (LAST_SEQUENCE | END_SEQUENCE) == LAST_SEQUENCE | END_SEQUENCE


def frame_of(header: bytes, port: int, number: int, moment: int, heard: Heard, is_from_switch: bool) -> FcFrame:
    """A frame by the 24 bytes of its FC header; what isn't in them is the caller's."""
    values = HEADER.unpack(header)
    d_id, s_id, f_ctl = (int.from_bytes(values[at], "big") for at in (1, 3, 5))
    seq_cnt, ox_id, rx_id, parameter = values[8:]
    found = FcFrame(port, number, moment, heard.vlan, is_from_switch, 0, values[0], d_id, s_id, values[4], f_ctl)
    found.role = role_of(found.type, found.r_ctl)
    found.seq_id, found.seq_cnt, found.ox_id, found.rx_id, found.parameter = values[6], seq_cnt, ox_id, rx_id, parameter
    return found


@dataclass(slots=True)
class FlowHead:
    """What frames that are alike up to TYPE have in common."""

    like: Heard
    is_from_switch: bool
    begin: int = 0  # of the FC header
    r_ctl: int = 0
    d_id: int = 0
    s_id: int = 0
    type: int = 0
    is_data: bool = False
    role: Role = OTHER

    @classmethod
    def of(cls, heard: Heard, is_from_switch: bool) -> "FlowHead":
        made, begin = cls(heard, is_from_switch), heard.at + HEAD
        head = heard.data[begin : begin + 9]
        if heard.is_fcoe and len(head) == 9:
            made.begin, made.r_ctl, made.type = begin, head[0], head[8]
            made.d_id, made.s_id = int.from_bytes(head[1:4], "big"), int.from_bytes(head[5:8], "big")
            made.role = role_of(made.type, made.r_ctl)
            made.is_data = made.type in (FCP, NVME) and made.r_ctl & 0x0F == DATA
        return made


def in_fcoe(port: Port, at: int, head: FlowHead) -> Optional[FcFrame]:
    """The FC frame in an FCoE frame; all at once, since most frames of a capture come here."""
    # pylint: disable=too-many-locals
    frames, begin = port.frames, head.begin
    data, whole = frames.data(at), frames.lengths[at]
    if not begin or len(data) < begin + 24:
        return None
    f_ctl, seq_id, _, seq_cnt, ox_id, rx_id, parameter = REST.unpack_from(data, begin + 9)
    control = int.from_bytes(f_ctl, "big")
    size = max(whole - begin - 24 - TAIL - (control & FILL), 0)
    is_cut = whole > len(data)
    end = min(begin + 24 + min(size, KEPT_OF_DATA if head.is_data else KEPT), len(data))
    payload = b"" if head.is_data and parameter else data[begin + 24 : end]
    is_intact = is_cut or zlib.crc32(memoryview(data)[begin:-TAIL]) == int.from_bytes(data[-TAIL:-4], "little")
    ends = (head.r_ctl, head.d_id, head.s_id, head.type, control, seq_id, seq_cnt, ox_id, rx_id, parameter, size, payload)
    return FcFrame(port.number, frames.number(at), frames.moments[at], head.like.vlan, head.is_from_switch, whole, *ends, is_intact, is_cut, b"", head.is_data, head.role)


def in_fip(port: Port, at: int, is_from_switch: bool) -> Optional[FcFrame]:
    """The link service in a FIP frame; its hosts are told apart by their MAC."""
    heard = port.frames.heard(at)
    if heard.operation not in (LOGIN, LOGIN_REPLY) or heard.fc is None or heard.fc.end - heard.fc.at < 28:
        return None
    fc = heard.fc
    found = frame_of(heard.data[fc.at : fc.at + 24], port.number, port.frames.number(at), port.frames.moments[at], heard, is_from_switch)
    found.payload, found.length = fc.payload, port.frames.lengths[at]
    found.size, found.enode = len(found.payload), heard.source if heard.operation == LOGIN else heard.destination
    found.switch = heard.source if heard.operation == LOGIN_REPLY else b""
    return found


def frames_of(port: Port, switches: set[bytes]) -> Iterator[FcFrame]:
    """The FC frames of a port, in the order of its capture."""
    flows = [FlowHead.of(it.heard, it.heard.source in switches) for it in port.frames.flows]
    for at, flow in enumerate(port.frames.flow_of):
        head = flows[flow]
        found = in_fcoe(port, at, head) if head.begin else in_fip(port, at, head.is_from_switch) if head.like.is_fip else None
        if found is not None:
            yield found


def frames_in(ports: Iterable[Port], switches: set[bytes]) -> Iterable[FcFrame]:
    """The FC frames of all ports in the order of time, each port's in its own."""
    every = [frames_of(port, switches) for port in ports]
    return every[0] if len(every) == 1 else heapq.merge(*every, key=attrgetter("moment"))
