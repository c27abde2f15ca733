"""Captures that `look check` must leave in peace: one change each in the run of faults.py, which the standards allow, or which is the tap's doing."""
from dataclasses import dataclass
from typing import Callable

from check_edits import Edit, Pick, Tape, all_of, before, body, drop, fc_frame, in_fcoe, ordered, payload, put
from fault_edits import answer_to, each_of_host, rebuilt, tagged
from faults import ALIVE, ECHO, LOGIN, PLOGI, SOLICITS, VLANS
from fcoe.frames.columns import Record
from fcoe.frames.heard import hear


@dataclass(frozen=True)
class Control:
    """What is done, and the change."""

    name: str
    what: str
    change: Edit


def crossing(tape: Tape) -> Tape:
    """The other N_Port sends its PLOGI at the same moment, and is rejected by the one with the lower name; its own is accepted."""
    at = PLOGI.place(tape)
    own = hear(tape[at].data)
    assert own.fc is not None
    d_id, s_id, moment = own.fc.d_id, own.fc.s_id, tape[at].moment
    theirs = own.fc.payload[:20] + b"\x20\0\0\x1b\x21\0\0\x0b" + b"\x10\0\0\x1b\x21\0\0\x0b" + own.fc.payload[36:]
    asked = in_fcoe(own.destination, own.source, fc_frame(0x22, (s_id, d_id), 0x01, 0x290000, 0x4321, theirs))
    rejected = in_fcoe(own.source, own.destination, fc_frame(0x23, (d_id, s_id), 0x01, 0x990000, 0x4321, b"\1\0\0\0\0\x09\x29\0"))
    rejected = rejected[:14] + tape[at].data[14:16] + rejected[16:]  # the tag of the host's own frames
    made = [Record(moment + place, data.ljust(60, b"\0"), max(len(data), 60), 0) for place, data in ((1000, asked), (2000, rejected))]
    return ordered([*tape, *made])


def since(seconds: float) -> Edit:
    return lambda tape: [it for it in tape if it.moment - tape[0].moment >= seconds * 1e9]


def copied(pick: Pick) -> Edit:
    """A frame stands twice in the capture."""

    def edit(tape: Tape) -> Tape:
        at = pick.place(tape)
        return [*tape[: at + 1], Record(tape[at].moment + 2000, tape[at].data, tape[at].length, 0), *tape[at + 1 :]]

    return edit


def padded(data: bytes) -> bytes:
    return data.ljust(60, b"\0")


def priority(of: int) -> Callable[[bytes], bytes]:
    """The tag with another priority."""
    return lambda data: data[:14] + bytes([data[14] & 0x1F | of << 5]) + data[15:] if data[12:14] == b"\x81\0" else data


CONTROLS = [
    Control("ok-vendor", "a solicitation with a descriptor of a vendor's own (F0)", rebuilt(SOLICITS, lambda it: [*it, b"\xf0\3\x00\x1b\x21\0\0\0\0\0\0\0"])),
    Control("ok-credit", "FLOGI: BB credit 0", put(LOGIN, payload(6), b"\0\0")),
    Control("ok-class2", "FLOGI offers class 2 too", put(LOGIN, payload(52), b"\x80\0\0\0\0\0\x08\0\0\1\0\1\0\1\0\0")),
    Control("ok-fp-sp", "solicitation and FLOGI with FP and SP", all_of(put(SOLICITS, body(8), b"\xc0\0"), put(LOGIN, body(8), b"\xc0\0"))),
    Control("ok-padded", "all frames of the host have 60 bytes at least", each_of_host(padded)),
    Control("ok-lost-ka", "a keep alive isn't in the capture", drop(ALIVE)),
    Control("ok-lost-adv", "an advertisement isn't in the capture", drop(Pick("Advertisement", 5, True))),
    Control("ok-priority", "all tags with priority 5", each_of_host(priority(5))),
    Control("ok-vreq-tag0", "VLAN request with a priority tag (VLAN 0)", tagged(VLANS, b"\x81\0\x60\0")),
    Control("ok-twice", "the accept of the FLOGI is captured twice", copied(Pick("FLOGI accept", 0, True))),
    Control("ok-rjt", "an ECHO is rejected (0B, 00)", answer_to(ECHO, lambda _: b"\1\0\0\0\0\x0b\0\0")),
    Control("ok-logo-lost", "the accept of a LOGO in FIP isn't in the capture", drop(Pick("LOGO accept", 0, True))),
    Control("ok-cross", "both ends send PLOGI at once: the lower name's is rejected, the other accepted", crossing),
    Control("ok-cut-front", "the capture begins behind the login", since(30.0)),
    Control("ok-cut-end", "the capture ends amid the discovery of targets", before(4.8806)),
]
