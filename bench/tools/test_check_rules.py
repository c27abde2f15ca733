"""Rules of `look check` say no more and no less than the standards: what each has to find, to leave open and to leave in peace, one frame changed each."""
from typing import Any, NamedTuple

import pytest
from check_edits import SWITCH, Edit, Pick, Tape, add, all_of, before, body, cut, frame, header, payload, put, resized, with_data
from checking import BROKEN, HELD, OPEN, said_of, states
from controls import since
from fault_edits import in_exchange, rebuilt
from faults import ALIVE, LOGIN, OTHER, RNN, SOLICITS, VLANS
from good_runs import base_tapes

from fcoe.frames.captures import write_classic

BASE = base_tapes()["initiator"]
NEXT = bytes.fromhex("00051e0000ee")  # another forwarder
SOLICITED = Pick("Advertisement", 1, True)
CLASS_2 = b"\x80\0\0\0\0\0\x08\0\0\1\0\1\0\1\0\0"


def nothing(tape: Tape) -> Tape:
    return tape


def longer(pick: Pick, count: int) -> Edit:
    """A frame with so many bytes of 0 more."""

    def edit(tape: Tape) -> Tape:
        at = pick.place(tape)
        return [*tape[:at], with_data(tape[at], tape[at].data + bytes(count)), *tape[at + 1 :]]

    return edit


def told_of(mac: bytes) -> Edit:
    """A forwarder that advertises itself once."""

    def edit(tape: Tape) -> Tape:
        data = tape[Pick("Advertisement", 0, True).place(tape)].data
        return add(6.0, data[:6] + mac + data[12:])(tape)

    return edit


def command(code: int, size: int) -> Edit:
    """RNN_ID becomes another request of the name server, with so many bytes behind its preamble."""
    return resized(RNN, lambda it: it[:8] + code.to_bytes(2, "big") + it[10:16] + (it[16:] + bytes(64))[:size])


class Row(NamedTuple):
    """A rule, what is done, and what it says then."""

    rule: str
    what: str
    change: Edit
    state: str
    seconds: float = 12.0


SIZES = {"RPN_ID": (0x0212, 12), "RCS_ID": (0x0214, 8), "RPT_ID": (0x021A, 8), "GSPN_ID": (0x0118, 4), "GSNN_NN": (0x0139, 8), "GPT_ID": (0x011A, 4)}
ROWS = [
    *(Row(rule, "nothing", nothing, HELD) for rule in ("fip-lists", "vlan-request-destination", "solicitation-destination", "login-parameters", "fpma-granted")),
    *(Row(rule, "nothing", nothing, HELD) for rule in ("alive-destination", "f-ctl-request", "seq-cnt", "plogi-parameters")),
    Row("fip-lists", "an FC-MAP descriptor of 12 bytes", rebuilt(SOLICITS, lambda it: [*it, b"\3\3" + bytes(10)]), BROKEN),
    Row("fip-lists", "a Vendor_ID descriptor of 8 bytes", rebuilt(SOLICITS, lambda it: [*it, b"\x0d\2" + bytes(6)]), BROKEN),
    Row("vlan-request-destination", "to a MAC that is no forwarder's", put(VLANS, frame(0), OTHER), BROKEN),
    Row("vlan-request-destination", "to the forwarder", put(VLANS, frame(0), SWITCH), HELD),
    Row("solicitation-destination", "to a MAC that is no forwarder's", put(SOLICITS, frame(0), OTHER), BROKEN),
    Row("solicitation-destination", "to the forwarder", put(SOLICITS, frame(0), SWITCH), HELD),
    Row("login-parameters", "a host of class 2 alone", put(LOGIN, payload(52), CLASS_2 + bytes(16)), HELD),
    Row("login-parameters", "a port name of no format", put(LOGIN, payload(20), b"\x80"), BROKEN),
    Row("fpma-granted", "the capture begins between the accepts of FLOGI and FDISC", since(4.877), OPEN),
    Row("alive-destination", "to a MAC that is no forwarder's", put(ALIVE, frame(0), OTHER), BROKEN, 60.0),
    Row("alive-destination", "to a forwarder that advertised itself", all_of(told_of(NEXT), put(ALIVE, frame(0), NEXT)), OPEN, 60.0),
    Row("seq-cnt", "the answer to a link service begins at 5", put(Pick("LS_ACC"), header(14), b"\0\5"), BROKEN, 40.0),
    *(Row(rule, "as long as was asked for without the header of Ethernet", longer(SOLICITED, 14), HELD) for rule in ("forwarder-size", "fcf-padding")),
    *(Row(rule, "as long as was asked for with the header of Ethernet", nothing, OPEN) for rule in ("forwarder-size", "fcf-padding")),
    *(Row(rule, "too short either way", cut(SOLICITED, 5), BROKEN) for rule in ("forwarder-size", "fcf-padding")),
    *(Row("ct-size", f"{name} of its size", command(code, size), HELD) for name, (code, size) in SIZES.items()),
    *(Row("ct-size", f"{name} a word short", command(code, size - 4), BROKEN) for name, (code, size) in SIZES.items()),
    Row("login-flags", "FP and SP", put(LOGIN, body(8), b"\xc0\0"), HELD),
]


@pytest.mark.parametrize("row", ROWS, ids=lambda it: f"{it.rule}: {it.what}")
def test_row(row: Row) -> None:
    found = states(row.change(before(row.seconds)(BASE)))
    assert row.rule in found.get(row.state, set()), {state: row.rule in rules for state, rules in found.items()}


def test_the_frame_that_jumps_is_named(tmp_path: Any) -> None:
    """A jump of SEQ_CNT where the relative offset goes on is the frame's own, and the one behind it is none's."""
    file = str(tmp_path / "jump.pcap")
    write_classic(file, in_exchange("FCP_DATA", 14, b"\0\x0b", 3, at_least=2)(before(60.0)(BASE)))
    said, _ = said_of([file])
    assert [it["broken"][0]["stands"] for it in said["rules"] if it["rule"] == "seq-cnt"] == ["11"]
