"""Faults of hosts, one change each in a run that is right else, with the rule of `look check` that must notice each.

The run is good_runs.base_tapes(): seven minutes of an initiator with a second N_Port, a target and another initiator at one forwarder."""
from dataclasses import dataclass

from check_edits import SWITCH, Edit, Pick, Tape, add, again, all_of, body, checked, cut, descriptor, drop, each, frame, header, move, payload, put, resized
from check_edits import behind_fc as behind
from fault_edits import (
    Command, all_tagged, answer_to, at_once, at_target, before_frame, bytes_at, every, in_exchange, late_answer, more_alive, only, own_abts, part, rebuilt, reused, slower, tagged, unanswered, without_exchange,
)  # fmt: skip
from fcoe.frames.heard import hear

INITIATOR, TARGET, OTHER = (bytes.fromhex(it) for it in ("001b2100000a", "001b2100000b", "00051e000009"))
ALL_ENODES, ALL_FCFS = bytes.fromhex("011018010001"), bytes.fromhex("011018010002")
FIRST, SECOND = bytes.fromhex("0efc00010101"), bytes.fromhex("0efc00010102")
FREE = b"\xc8"  # a type of descriptor that receivers skip


@dataclass(frozen=True)
class Fault:
    """What a host does, the change, the rules of which one must notice it, and whose link it's on."""

    name: str
    what: str
    rules: str
    change: Edit
    base: str = "initiator"
    is_open: bool = False  # the standards leave it, or say should: a rule may say that it can't be told


LOGIN, FDISC, SOLICITS, VLANS = Pick("FLOGI"), Pick("FDISC"), Pick("Solicitation"), Pick("VLAN request")
ALIVE, PORT_ALIVE, CMND, DATA = Pick("Keep alive", 4), Pick("VN_Port keep alive"), Pick("FCP_CMND", 20), Pick("FCP_DATA", 12)
SCR, RFT, RNN, GPN = Pick("SCR"), Pick("RFT_ID"), Pick("RNN_ID"), Pick("GPN_FT")
PLOGI, PRLI = Pick("PLOGI", 0, behind=4.8805), Pick("PRLI")
RSCN, ECHO, RTV, ADISC = (Pick(kind, 0, True) for kind in ("RSCN", "ECHO", "RTV", "ADISC"))
FOREIGN = Pick("PLOGI", 0, True, behind=38.0)  # of the other initiator to this one
FOREIGN_PRLI = Pick("PRLI", 0, True, behind=38.0)
ABTS_COME = Pick("ABTS", 0, True)


FIP = [
    Fault("vreq-dst", "VLAN request to All-ENode-MACs", "vlan-request-destination", put(VLANS, frame(0), ALL_ENODES)),
    Fault("vreq-no-mac", "VLAN request without a MAC descriptor", "vlan-request-descriptors", put(VLANS, descriptor(2, 0), FREE)),
    Fault("vreq-mac", "VLAN request names another MAC", "vlan-request-mac", put(VLANS, descriptor(2, 2), OTHER)),
    Fault("vreq-f", "VLAN request with F, as a forwarder's", "fip-flags", put(VLANS, body(8), b"\0\1")),
    Fault("vreq-tagged", "VLAN request with the tag of the FCoE VLAN", "vlan-request-tag", tagged(VLANS, b"\x81\0\x60\x64"), is_open=True),
    Fault("sol-size-0", "solicitation: Max FCoE size 0", "solicitation-size", put(SOLICITS, descriptor(6, 2), b"\0\0")),
    Fault("sol-size-256", "solicitation: Max FCoE size 256, FLOGI with 2048", "solicitation-size", put(SOLICITS, descriptor(6, 2), b"\1\0")),
    Fault("sol-size-65535", "solicitation: Max FCoE size 65535", "solicitation-size", put(SOLICITS, descriptor(6, 2), b"\xff\xff")),
    Fault("sol-no-size", "solicitation without Max FCoE size", "solicitation-descriptors", put(SOLICITS, descriptor(6, 0), FREE)),
    Fault("sol-no-name", "solicitation without a name", "solicitation-descriptors", put(SOLICITS, descriptor(4, 0), FREE)),
    Fault("sol-no-mac", "solicitation without a MAC descriptor", "solicitation-descriptors", put(SOLICITS, descriptor(2, 0), FREE)),
    Fault("sol-order", "solicitation: size, name, MAC", "fip-order", rebuilt(SOLICITS, lambda it: it[::-1])),
    Fault("sol-twice", "solicitation: MAC descriptor twice", "solicitation-descriptors", rebuilt(SOLICITS, lambda it: [it[0], *it])),
    Fault("sol-critical", "solicitation with a critical descriptor that has no place there (12)", "fip-surplus", rebuilt(SOLICITS, lambda it: [*it, b"\x0c\2\0\0\0\0\x1f\x40"])),
    Fault("sol-unknown", "solicitation with a critical descriptor of no type (7F)", "fip-surplus", rebuilt(SOLICITS, lambda it: [*it, b"\x7f\2\0\0\0\0\0\0"])),
    Fault("sol-flags", "solicitation without FP and SP", "solicitation-flags", put(SOLICITS, body(8), b"\0\0")),
    Fault("sol-f", "solicitation with F", "solicitation-role", put(SOLICITS, body(8), b"\x80\1")),
    Fault("sol-as", "solicitation with A and S", "fip-flags", put(SOLICITS, body(8), b"\x80\6")),
    Fault("sol-reserved-flags", "solicitation with reserved flags (0FF0)", "fip-flags", put(SOLICITS, body(8), b"\x8f\xf0")),
    Fault("sol-version", "solicitation: FIP version 2", "fip-version", put(SOLICITS, body(0), b"\x20")),
    Fault("sol-reserved", "solicitation: reserved byte of the header", "fip-reserved", put(SOLICITS, body(4), b"\1")),
    Fault("sol-list-short", "solicitation: the list is a word short", "solicitation-descriptors fip-lists", put(SOLICITS, body(6), b"\0\5")),
    Fault("sol-list-long", "solicitation: the list is a word long", "fip-lists", put(SOLICITS, body(6), b"\0\7")),
    Fault("sol-desc-length", "solicitation: name descriptor of 4 words", "fip-lists", put(SOLICITS, descriptor(4, 1), b"\4")),
    Fault("sol-name-0", "solicitation: node name 0", "solicitation-name", put(SOLICITS, descriptor(4, 4), bytes(8))),
    Fault("sol-name-other", "solicitation: another node name than in FLOGI", "solicitation-name-own", put(SOLICITS, descriptor(4, 11), b"\x77"), is_open=True),
    Fault("sol-src", "solicitation from another MAC than its descriptor's", "solicitation-mac", put(SOLICITS, descriptor(2, 2), OTHER)),
    Fault("sol-dst", "solicitation to All-ENode-MACs", "solicitation-destination", put(SOLICITS, frame(0), ALL_ENODES)),
    Fault("sol-broadcast", "solicitation to the broadcast address", "solicitation-destination", put(SOLICITS, frame(0), b"\xff" * 6)),
    Fault("sol-vlan", "solicitation and FLOGI in VLAN 200, told was 100", "forwarder-known", all_of(put(SOLICITS, frame(14), b"\x60\xc8"), put(LOGIN, frame(14), b"\x60\xc8"))),
    Fault("flogi-unsolicited", "FLOGI without any solicitation", "forwarder-size", drop(SOLICITS, Pick("Advertisement", 0, True, 4.5))),
    Fault("flogi-before-adv", "FLOGI before any advertisement", "forwarder-known forwarder-size", all_of(drop(Pick("Advertisement", 0, True)), move(Pick("Advertisement", 0, True), 6.0))),
    Fault("flogi-unavailable", "FLOGI though the forwarder's A is clear", "forwarder-available", all_of(*(put(Pick("Advertisement", it, True), body(8), it and b"\x80\3" or b"\x80\1") for it in (0, 1)))),
    Fault("flogi-unpadded", "FLOGI though the solicited advertisement came cut", "forwarder-size", cut(Pick("Advertisement", 1, True), 2000)),
    Fault("flogi-no-common", "FLOGI with FP at a forwarder that has SP alone", "forwarder-macs", all_of(*(put(Pick("Advertisement", it, True), body(8), it and b"\x40\7" or b"\x40\5") for it in (0, 1)))),
    Fault("alive-version", "keep alive: FIP version 2", "fip-version", put(ALIVE, body(0), b"\x20")),
    Fault("alive-reserved", "keep alive: reserved byte", "fip-reserved", put(ALIVE, body(1), b"\1")),
    Fault("alive-flags", "keep alive with F", "fip-flags", put(ALIVE, body(8), b"\0\1")),
    Fault("flogi-list-long", "FLOGI: the list is a word long", "fip-lists", put(LOGIN, body(6), b"\0\x27")),
    Fault("flogi-critical", "FLOGI with a critical descriptor that has no place there (1)", "fip-surplus", rebuilt(LOGIN, lambda it: [*it, b"\1\1\0\1"])),
]
LOGINS = [
    Fault("flogi-dst", "FLOGI to All-FCF-MACs", "login-destination", put(LOGIN, frame(0), ALL_FCFS)),
    Fault("flogi-other-fcf", "FLOGI to a MAC that never advertised itself", "forwarder-known", put(LOGIN, frame(0), OTHER)),
    Fault("flogi-vlan", "FLOGI in another VLAN than its forwarder", "forwarder-known", put(LOGIN, frame(14), b"\x60\xc8")),
    Fault("flogi-src", "FLOGI from an FPMA", "login-source", put(LOGIN, frame(6), FIRST)),
    Fault("flogi-flags", "FLOGI without FP and SP", "login-flags", put(LOGIN, body(8), b"\0\0")),
    Fault("flogi-no-mac", "FLOGI without a MAC descriptor", "login-descriptors", put(LOGIN, descriptor(2, 0), FREE)),
    Fault("flogi-order", "FLOGI: the MAC before the FLOGI descriptor", "fip-order", rebuilt(LOGIN, lambda it: it[::-1])),
    Fault("flogi-twice", "FLOGI descriptor twice", "login-descriptors", rebuilt(LOGIN, lambda it: [it[0], *it])),
    Fault("flogi-mac-set", "FLOGI with FP alone proposes a MAC", "login-mac-proposed", put(LOGIN, descriptor(2, 2), INITIATOR), is_open=True),
    Fault("flogi-sid", "FLOGI with S_ID 010101", "login-address", put(LOGIN, header(5), b"\1\1\1")),
    Fault("flogi-did", "FLOGI to FFFFFC", "login-header", put(LOGIN, header(1), b"\xff\xff\xfc")),
    Fault("flogi-rctl", "FLOGI with R_CTL 02", "login-header", put(LOGIN, header(0), b"\2")),
    Fault("flogi-type", "FLOGI with TYPE 08", "login-header", put(LOGIN, header(8), b"\x08")),
    Fault("flogi-rxid", "FLOGI with RX_ID 0000", "login-header", put(LOGIN, header(18), b"\0\0")),
    Fault("flogi-fctl", "FLOGI as the exchange's responder", "login-header", put(LOGIN, header(9), b"\xa9")),
    Fault("flogi-class3", "FLOGI: neither class 2 nor 3", "login-parameters", put(LOGIN, payload(68), b"\0\0")),
    Fault("flogi-size-small", "FLOGI: receive size 128", "login-parameters", put(LOGIN, payload(10), b"\0\x80")),
    Fault("flogi-size-big", "FLOGI: receive size 2116", "login-parameters", put(LOGIN, payload(10), b"\x08\x44")),
    Fault("flogi-size-odd", "FLOGI: receive size 2110", "login-parameters", put(LOGIN, payload(10), b"\x08\x3e")),
    Fault("flogi-fport", "FLOGI with the bit of an F_Port", "login-parameters", put(LOGIN, payload(8), b"\x90\0")),
    Fault("flogi-wwpn-0", "FLOGI: port name 0", "login-parameters", put(LOGIN, payload(20), bytes(8))),
    Fault("flogi-wwnn-0", "FLOGI: node name 0", "login-parameters", put(LOGIN, payload(28), bytes(8))),
    Fault("flogi-name-form", "FLOGI: port name of no format (NAA 8)", "login-parameters", put(LOGIN, payload(20), b"\x80")),
    Fault("flogi-credit", "FLOGI: BB credit 65535", "", put(LOGIN, payload(6), b"\xff\xff"), is_open=True),
    Fault("flogi-version", "FLOGI: lowest version above the highest", "login-versions", put(LOGIN, payload(4), b"\x09\x20"), is_open=True),
    Fault("flogi-short", "FLOGI payload of 112 bytes", "login-parameters", rebuilt(LOGIN, lambda it: [bytes([7, it[0][1] - 1]) + it[0][2:-4], it[1]])),
    Fault("flogi-at-once", "FLOGI again 0.5 ms after the first, unanswered, same OX_ID", "login-again", again(LOGIN, 4.8757), is_open=True),
    Fault("fdisc-sid", "FDISC with the S_ID of the first login", "login-address", put(FDISC, header(5), b"\1\1\1")),
    Fault("fdisc-src", "FDISC from the granted MAC", "login-source", put(FDISC, frame(6), FIRST)),
    Fault("fdisc-cmd", "FDISC descriptor with a FLOGI payload", "login-header", put(FDISC, payload(0), b"\4")),
    Fault("fdisc-flags", "FDISC without FP and SP", "login-flags", put(FDISC, body(8), b"\0\0")),
    Fault("fdisc-dst", "FDISC to All-FCF-MACs", "login-destination", put(FDISC, frame(0), ALL_FCFS)),
    Fault("fdisc-size", "FDISC: receive size 128", "login-parameters", put(FDISC, payload(10), b"\0\x80")),
    Fault("fdisc-first", "FDISC before any FLOGI", "fdisc-after-flogi", only(lambda it, seconds: it.kind not in ("FLOGI", "FLOGI accept") or seconds > 60)),
    Fault("fdisc-wwpn", "FDISC with the port name of the FLOGI", "fdisc-name", put(FDISC, payload(20), b"\x20\0")),
    Fault("fdisc-no-npiv", "FDISC though the accept grants one address alone", "fdisc-after-flogi", put(Pick("FLOGI accept", 0, True), payload(8), b"\x18\0")),
    Fault("logo-sid", "LOGO in FIP with S_ID 0", "logo-names", put(Pick("LOGO", 3, behind=288.0, s_id=0x010102), header(5), bytes(3))),
    Fault("logo-mac", "LOGO in FIP names another MAC", "logo-names", put(Pick("LOGO", 3, behind=288.0, s_id=0x010102), descriptor(2, 2), OTHER)),
    Fault("logo-wwpn", "LOGO in FIP with another port name", "logo-names", put(Pick("LOGO", 3, behind=288.0, s_id=0x010102), payload(8), b"\x77")),
    Fault("logo-address", "LOGO in FIP with another address in its payload", "logo-names", put(Pick("LOGO", 3, behind=288.0, s_id=0x010102), payload(5), b"\1\1\7")),
    Fault("logo-in-fcoe", "LOGO to FFFFFE in FCoE, not in FIP", "login-in-fip", put(Pick("LOGO", 2, behind=288.0, s_id=0x010102), header(1), b"\xff\xff\xfe")),
]


def fallback(tape: Tape) -> Tape:
    """A FLOGI in FCoE beside FIP's."""
    like = hear(tape[Pick("PLOGI").place(tape)].data)
    assert like.fc is not None
    start = SWITCH + INITIATOR + like.data[12 : like.fc.at]
    asked = hear(tape[LOGIN.place(tape)].data).fc
    assert asked is not None
    content = asked.data[asked.at : asked.payload_at + 116]
    return add(20.0, checked(start + content + bytes(4) + b"\x42\0\0\0"))(tape)


ADDRESSES = [
    Fault("src-enode", "FCoE from the ENode's MAC", "fpma-granted source-mac", put(CMND, frame(6), INITIATOR)),
    Fault("src-map", "FCoE with FC-MAP 0efc01 (granted 0efc00)", "fpma-granted source-mac", put(CMND, frame(8), b"\1")),
    Fault("src-npiv", "S_ID 010101 from the MAC of 010102", "source-mac", put(Pick("FCP_CMND", 20, s_id=0x010101), frame(6), SECOND)),
    Fault("sid-wrong", "FCoE with an S_ID that isn't its own", "source-mac", put(CMND, header(5), b"\1\1\7")),
    Fault("before-grant", "PLOGI to the name server before the FLOGI's accept", "fpma-granted", move(Pick("PLOGI"), 4.8755)),
    Fault("before-flogi", "PLOGI to the name server before any FLOGI", "fpma-granted", move(Pick("PLOGI"), 4.7)),
    Fault("fcoe-vlan", "FCoE in another VLAN than the login", "fcoe-vlan", put(CMND, frame(14), b"\x60\xc8")),
    Fault("fcoe-untagged", "FCoE without a tag", "fcoe-vlan", tagged(CMND, b"")),
    Fault("fcoe-dst", "FCoE to another MAC than its forwarder's", "fcoe-destination", put(CMND, frame(0), OTHER)),
    Fault("fcoe-to-fpma", "FCoE straight to the peer's FPMA", "fcoe-destination", put(CMND, frame(0), bytes.fromhex("0efc00010100"))),
    Fault("after-logo", "FCoE five seconds after its accepted LOGO", "end-by-logo", again(Pick("FCP_CMND", 40, s_id=0x010102), 293.6)),
    Fault("after-clear", "FCoE goes on after Clear Virtual Links", "end-by-clear end-by-clear-of-all", again(Pick("FCP_CMND", 40, s_id=0x010101), 303.0)),
    Fault("after-clear-all", "FCoE goes on after a Clear without a list", "end-by-clear-of-all", again(Pick("FCP_CMND", 3, s_id=0x010105), 323.0)),
    Fault("after-silence", "FCoE goes on though the forwarder fell silent", "end-by-silence", again(Pick("FCP_CMND", 3, s_id=0x010108), 398.0)),
    Fault("flogi-in-fcoe", "FLOGI in FCoE, though FIP is answered", "login-in-fip", fallback),
    Fault("login-anew", "commands with the address of before behind a login anew", "end-by-clear login-anew end-by-clear-of-all", again(Pick("FCP_CMND", 40, s_id=0x010101), 310.0)),
    Fault("multicast-src", "FCoE from a multicast MAC", "fpma-granted source-mac", put(CMND, frame(6), b"\x0f")),
]
ALIVES = [
    Fault("ka-none", "no keep alive at all", "alive-enode-period", every("Keep alive")),
    Fault("ka-slow-2", "a keep alive each 2 periods", "alive-enode-period", slower("Keep alive", 2)),
    Fault("ka-slow-3", "a keep alive each 3 periods", "alive-enode-period", slower("Keep alive", 3)),
    Fault("ka-dst", "keep alives to All-FCF-MACs", "alive-destination", each("Keep alive", frame(0), ALL_FCFS)),
    Fault("ka-vlan", "keep alives in VLAN 200", "alive-vlan", all_tagged("Keep alive", b"\x81\0\x60\xc8")),
    Fault("ka-untagged", "keep alives without a tag", "alive-vlan", all_tagged("Keep alive", b"")),
    Fault("ka-mac", "keep alives name another MAC", "alive-mac", each("Keep alive", descriptor(2, 2), OTHER)),
    Fault("ka-src", "keep alives of the ENode from the granted MAC", "alive-source", put(ALIVE, frame(6), FIRST)),
    Fault("ka-no-mac", "keep alive without a MAC descriptor", "alive-descriptors", put(ALIVE, descriptor(2, 0), FREE)),
    Fault("ka-surplus", "keep alive with a name descriptor", "fip-surplus", rebuilt(ALIVE, lambda it: [*it, b"\4\3\0\0" + bytes(8)])),
    Fault("vnka-none", "no keep alive of VN_Ports", "alive-port-period", every("VN_Port keep alive")),
    Fault("vnka-slow-2", "a VN_Port keep alive each 180 s", "alive-port-period", drop(Pick("VN_Port keep alive", 2), Pick("VN_Port keep alive", 3), Pick("VN_Port keep alive", 0), Pick("VN_Port keep alive", 1))),
    Fault("vnka-src", "VN_Port keep alives from the ENode's MAC", "alive-source", put(PORT_ALIVE, frame(6), INITIATOR)),
    Fault("vnka-vx", "VN_Port keep alives without a Vx_Port descriptor", "alive-source alive-port-period alive-descriptors", each("VN_Port keep alive", descriptor(11, 0), FREE)),
    Fault("vnka-fcid", "VN_Port keep alive with another address", "alive-port", put(PORT_ALIVE, descriptor(11, 9), b"\1\1\7")),
    Fault("vnka-wwpn", "VN_Port keep alive with another port name", "alive-port", put(PORT_ALIVE, descriptor(11, 12), b"\x77")),
    Fault("vnka-mac", "VN_Port keep alive names another ENode", "alive-mac", put(PORT_ALIVE, descriptor(2, 2), OTHER)),
    Fault("vnka-vlan", "VN_Port keep alive in VLAN 200", "alive-vlan fcoe-vlan", tagged(PORT_ALIVE, b"\x81\0\x60\xc8")),
    Fault("vnka-dst", "VN_Port keep alive to another MAC", "alive-destination", put(PORT_ALIVE, frame(0), OTHER)),
    Fault("ka-fast", "ten keep alives a period", "alive-often", more_alive(0.8), is_open=True),
    Fault("ka-quiet", "keep alives though the forwarder set D", "alive-quiet", each("Advertisement", descriptor(12, 3), b"\1", True), is_open=True),
    Fault("silence", "stays logged in though advertisements cease for 5 periods", "end-by-silence", only(lambda it, seconds: it.kind != "Advertisement" or not 110 < seconds < 160)),
    Fault("ka-reserved", "keep alive: reserved bytes of the Vx_Port descriptor", "fip-reserved", put(PORT_ALIVE, descriptor(11, 8), b"\1")),
]
FRAMES = [
    Fault("crc", "a wrong CRC", "crc", put(CMND, behind(0), b"\0\0\0\0", is_checked=False)),
    Fault("sof-i2", "SOFi2, though class 2 isn't agreed", "delimiter-class", put(CMND, body(13), b"\x2d")),
    Fault("sof-f", "SOFf, of switches alone", "delimiter-class", put(CMND, body(13), b"\x28")),
    Fault("sof-n3", "SOFn3 on the first frame of a sequence", "sof", put(CMND, body(13), b"\x36")),
    Fault("sof-i3", "SOFi3 on a further frame of a sequence", "sof", all_of(*(in_exchange("FCP_DATA", -1, b"\x2e", it, at_least=1) for it in range(3)))),
    Fault("sof-bad", "a SOF that is no code", "delimiter-codes", put(CMND, body(13), b"\x99")),
    Fault("eof-n", "EOFn on the last frame of a sequence", "eof", put(CMND, behind(4), b"\x41")),
    Fault("eof-t", "EOFt on a frame that isn't the last", "eof", in_exchange("FCP_DATA", 24 + 1024 + 4, b"\x42", 2)),
    Fault("eof-a", "EOFa on a good frame", "delimiter-class", put(CMND, behind(4), b"\x50")),
    Fault("eof-ni", "EOFni sent by an end device", "delimiter-class", put(CMND, behind(4), b"\x49")),
    Fault("eof-bad", "an EOF that is no code", "delimiter-codes", put(CMND, behind(4), b"\x99")),
    Fault("fcoe-version", "FCoE version 1", "fcoe-form", put(CMND, body(0), b"\x10")),
    Fault("fcoe-reserved", "reserved bytes of FCoE", "fcoe-form", put(CMND, body(3), b"\1")),
    Fault("fcoe-trailer", "reserved bytes behind EOF", "fcoe-form", put(CMND, behind(5), b"\1")),
    Fault("fcoe-long", "an FC payload of 2116 bytes", "fcoe-form receive-size", resized(DATA, lambda it: it.ljust(2116, b"\0"))),
    Fault("fcoe-words", "an FC payload that isn't in words", "fcoe-form", resized(DATA, lambda it: it[:-2])),
    Fault("receive-size", "more payload than the peer's PLOGI takes", "receive-size", resized(DATA, lambda it: it.ljust(1400, b"\0"))),
    Fault("padding", "a frame of 36 bytes, others padded", "ethernet-padding", cut(ALIVE, 24)),
    Fault("seq-back", "SEQ_CNT repeated within a sequence", "seq-cnt", in_exchange("FCP_DATA", 14, b"\0\1", 3, at_least=2)),
    Fault("seq-jump", "SEQ_CNT jumps by two within a sequence", "seq-cnt", in_exchange("FCP_DATA", 14, b"\0\x0b", 3, at_least=2)),
    Fault("seq-first", "SEQ_CNT 5 on the single frame of a request", "seq-cnt", put(CMND, header(14), b"\0\5")),
    Fault("seq-id", "SEQ_ID changes within a sequence", "seq-id", in_exchange("FCP_DATA", 12, b"\x77", 3, at_least=2)),
    Fault("fctl-context", "a request marked as the responder's", "f-ctl", put(CMND, header(9), b"\xa9")),
    Fault("fctl-reply", "a reply marked as the originator's", "f-ctl", put(Pick("LS_ACC", 0, behind=68.0), header(9), b"\x19")),
    Fault("fctl-first", "a request that isn't of the first sequence", "f-ctl", put(CMND, header(9), b"\x09")),
    Fault("fctl-initiative", "a request that keeps the initiative", "f-ctl-request", put(CMND, header(9), b"\x28")),
    Fault("fctl-end", "a request without end of sequence", "eof f-ctl-request", put(CMND, header(9), b"\x21")),
    Fault("fctl-last", "the single answer isn't the exchange's last sequence", "f-ctl-reply", put(Pick("LS_ACC", 0, behind=68.0), header(9), b"\x89")),
    Fault("rctl-els", "SCR with R_CTL 23", "f-ctl", put(SCR, header(0), b"\x23")),
    Fault("rctl-bad", "SCR with an R_CTL that is none (5A)", "r-ctl", put(SCR, header(0), b"\x5a")),
    Fault("type-els", "a link service with TYPE 00", "r-ctl", put(SCR, header(8), b"\0")),
    Fault("type-fcp", "an FCP command with TYPE 01", "r-ctl", put(CMND, header(8), b"\1")),
    Fault("df-ctl", "DF_CTL names an ESP header that isn't there", "df-ctl", put(CMND, header(13), b"\x40")),
    Fault("df-reserved", "DF_CTL with a reserved bit", "df-ctl", put(CMND, header(13), b"\x80")),
    Fault("cs-ctl", "CS_CTL set", "cs-ctl", put(CMND, header(4), b"\x11"), is_open=True),
    Fault("did-reserved", "D_ID 000000", "d-id", put(SCR, header(1), bytes(3))),
    Fault("param", "relative offset of FCP_DATA is wrong", "fcp-offset", in_exchange("FCP_DATA", 20, b"\0\0\x7f\0", 3, at_least=2)),
    Fault("rx-id", "RX_ID changes within an exchange", "rx-id", in_exchange("FCP_DATA", 18, b"\x12\x34", 3, at_least=2)),
    Fault("rx-id-reply", "a target's RX_ID changes within an exchange", "rx-id", put(Pick("FCP_RSP", 40), header(18), b"\x12\x34"), "target"),
    Fault("tag-priority", "FCoE with priority 3, one frame with 5", "tag-priority", put(CMND, frame(14), b"\xa0\x64"), is_open=True),
    Fault("param-els", "PARAMETER of a link service without relative offset", "parameter", put(SCR, header(20), b"\0\0\0\1"), is_open=True),
    Fault("short-fcoe", "an FCoE frame cut behind its header", "fcoe-form", cut(CMND, 40)),
]
EXCHANGES = [
    Fault("plogi-first", "PLOGI to the peer drops out: PRLI and commands go on", "prli-after-plogi", without_exchange(PLOGI)),
    Fault("data-no-plogi", "FCP commands without PLOGI and PRLI", "fcp-after-plogi", all_of(without_exchange(PLOGI), without_exchange(PRLI))),
    Fault("prli-early", "PRLI before the PLOGI between both", "prli-after-plogi", move(PRLI, 4.8806)),
    Fault("plogi-rejected", "PRLI behind a rejected PLOGI", "prli-after-plogi", answer_to(PLOGI, lambda _: b"\1\0\0\0\0\3\0\0")),
    Fault("cmnd-early", "FCP_CMND before PRLI", "fcp-after-prli", without_exchange(PRLI), is_open=True),
    Fault("plogi-wwpn", "PLOGI with another port name than the login's", "plogi-parameters", put(PLOGI, payload(20), b"\x20\7")),
    Fault("plogi-class3", "PLOGI: neither class 2 nor 3", "plogi-parameters", put(PLOGI, payload(68), b"\0\0")),
    Fault("plogi-size", "PLOGI: receive size 100", "plogi-parameters", put(PLOGI, payload(10), b"\0\x64")),
    Fault("plogi-class3-size", "PLOGI: receive size 4000 in class 3", "plogi-parameters", put(PLOGI, payload(74), b"\x0f\xa0")),
    Fault("plogi-sequences", "PLOGI: 0 concurrent sequences in class 3", "plogi-parameters", put(PLOGI, payload(76), b"\0\0")),
    Fault("plogi-open", "PLOGI: 0 open sequences an exchange in class 3", "plogi-parameters", put(PLOGI, payload(80), b"\0\0")),
    Fault("plogi-short", "PLOGI payload of 112 bytes", "plogi-parameters", resized(PLOGI, lambda it: it[:112])),
    Fault("plogi-acc-class3", "PLOGI's LS_ACC: neither class 2 nor 3", "plogi-accept", answer_to(FOREIGN, bytes_at(68, b"\0\0"))),
    Fault("plogi-acc-name", "PLOGI's LS_ACC with another port name", "plogi-accept", answer_to(FOREIGN, bytes_at(20, b"\x20\7"))),
    Fault("plogi-acc-size", "PLOGI's LS_ACC: receive size 100", "plogi-accept", answer_to(FOREIGN, bytes_at(10, b"\0\x64"))),
    Fault("plogi-acc-short", "PLOGI's LS_ACC of 4 bytes", "plogi-accept", answer_to(FOREIGN, lambda it: it[:4])),
    Fault("pdisc-acc-name", "PDISC's LS_ACC with another node name", "plogi-accept", answer_to(Pick("PDISC", 0, True), bytes_at(28, b"\x10\7"))),
    Fault("prli-page", "PRLI: page length 8", "prli-form", put(PRLI, payload(1), b"\x08")),
    Fault("prli-length", "PRLI: payload length 200", "prli-form", put(PRLI, payload(2), b"\0\xc8")),
    Fault("prli-function", "PRLI: neither initiator nor target", "prli-function", put(PRLI, payload(19), b"\2")),
    Fault("prli-type", "PRLI: TYPE 00 of its page", "prli-function", put(PRLI, payload(4), b"\0")),
    Fault("prli-acc-code", "PRLI's LS_ACC: response code 0", "prli-accept", answer_to(FOREIGN_PRLI, bytes_at(6, b"\x20"))),
    Fault("prli-acc-length", "PRLI's LS_ACC: page length 8", "prli-accept", answer_to(FOREIGN_PRLI, bytes_at(1, b"\x08"))),
    Fault("prli-acc-type", "PRLI's LS_ACC of another type", "prli-accept", answer_to(FOREIGN_PRLI, bytes_at(4, b"\x20"))),
    Fault("ox-reuse", "OX_ID of an open exchange in a new command", "ox-id", reused(40)),
    Fault("ox-accept", "LS_ACC to an RSCN with another OX_ID", "rscn-answered", put(Pick("LS_ACC", 0, behind=38.8), header(16), b"\x77\x77")),
    Fault("rscn-silent", "an RSCN isn't accepted", "rscn-answered", unanswered(RSCN)),
    Fault("rscn-late", "RSCN accepted after 3 s", "rscn-soon", late_answer(RSCN, 3.0), is_open=True),
    Fault("rscn-later", "RSCN accepted after 25 s", "rscn-answered", late_answer(RSCN, 25.0)),
    Fault("rscn-payload", "RSCN answered by an LS_ACC of 2 words", "rscn-reply", answer_to(RSCN, lambda it: it + bytes(4))),
    Fault("rscn-word", "RSCN answered by a link service that is no answer", "rscn-reply", answer_to(RSCN, lambda it: b"\3\0\0\0")),
    Fault("rscn-unheeded", "no query behind an RSCN", "rscn-heeded", only(lambda it, seconds: it.kind not in ("GPN_FT",) or seconds < 38), is_open=True),
    Fault("logo-silent", "the peer's LOGO isn't answered", "els-answered", unanswered(Pick("LOGO", 0, True))),
    Fault("plogi-silent", "the peer's PLOGI isn't answered", "els-answered", unanswered(FOREIGN)),
    Fault("rtv-silent", "RTV isn't answered", "els-answered", unanswered(RTV)),
    Fault("rtv-values", "RTV's answer: R_A_TOV and E_D_TOV 0", "rtv-accept", answer_to(RTV, bytes_at(4, bytes(8)))),
    Fault("rtv-short", "RTV's answer of 4 bytes", "rtv-accept", answer_to(RTV, lambda it: it[:4])),
    Fault("adisc-values", "ADISC's answer with another address and name", "adisc-accept", answer_to(ADISC, bytes_at(8, b"\x20\7"))),
    Fault("adisc-address", "ADISC's answer with another address", "adisc-accept", answer_to(ADISC, bytes_at(25, b"\1\1\7"))),
    Fault("adisc-own", "ADISC with another port name", "adisc-own", put(Pick("ADISC"), payload(8), b"\x20\7")),
    Fault("echo-other", "ECHO's answer with other data", "echo-accept", answer_to(ECHO, bytes_at(8, b"\x55"))),
    Fault("rls-short", "RLS's answer of 4 bytes", "rls-accept", answer_to(Pick("RLS", 0, True), lambda it: it[:4])),
    Fault("rjt-code", "REC answered by an LS_RJT of reason 00", "ls-rjt", answer_to(Pick("REC", 0, True), bytes_at(5, b"\0"))),
    Fault("rjt-short", "LS_RJT of 4 bytes", "ls-rjt", answer_to(Pick("REC", 0, True), lambda it: it[:4])),
    Fault("abts-none", "an unanswered ECHO isn't aborted", "exchange-ends", unanswered(Pick("ECHO"))),
    Fault("abts-payload", "BA_ACC of 16 bytes", "abts-form", resized(Pick("BA_ACC"), lambda it: it + bytes(4))),
    Fault("abts-ids", "BA_ACC with another OX_ID in its payload", "abts-accept", put(Pick("BA_ACC"), payload(4), b"\x77\x77")),
    Fault("abts-silent", "an ABTS to the host isn't answered", "abts-answered", unanswered(ABTS_COME)),
    Fault("abts-unknown", "ABTS of an exchange that never was", "abts-exchange", own_abts(None, 30.0)),
    Fault("abts-content", "ABTS with a payload", "abts-form", all_of(unanswered(Pick("ECHO")), own_abts(Pick("ECHO"), 20.5, bytes(4)))),
    Fault("abts-at-once", "an OX_ID anew 1 s behind its ABTS, without an answer", "ox-id", all_of(unanswered(Pick("ECHO")), own_abts(Pick("ECHO"), 20.0), at_once(Pick("ECHO"), 21.0))),
    Fault("logo-form", "LOGO in FCoE with another address", "logo-form", put(Pick("LOGO", 1, behind=288.0, s_id=0x010102), payload(5), b"\1\1\7")),
    Fault("logo-name", "LOGO in FCoE with another port name", "logo-form", put(Pick("LOGO", 1, behind=288.0, s_id=0x010102), payload(8), b"\x77")),
    Fault("logo-short", "LOGO in FCoE of 12 bytes", "logo-form", resized(Pick("LOGO", 1, behind=288.0, s_id=0x010102), lambda it: it[:12])),
]
STORAGE = [
    Fault("data-early", "FCP_DATA before FCP_XFER_RDY", "fcp-ready", before_frame(part("FCP_DATA", 5, True), part("FCP_XFER_RDY", 5, True))),
    Fault("data-unasked", "FCP_DATA without FCP_XFER_RDY", "fcp-ready", drop(part("FCP_XFER_RDY", 5, True))),
    Fault("data-burst", "more FCP_DATA than FCP_XFER_RDY asked for", "fcp-ready", put(part("FCP_XFER_RDY", 5, True), payload(4), b"\0\0\0\x04")),
    Fault("data-offset", "FCP_DATA of another offset than FCP_XFER_RDY asked for", "fcp-ready fcp-offset", put(part("FCP_DATA", 5, True), header(20), b"\0\0\x7f\0")),
    Fault("fcp-dl", "FCP_CMND with FCP_DL 0, data are written all the same", "fcp-dl", put(part("FCP_CMND", 5, True), payload(28), bytes(4))),
    Fault("fcp-dl-less", "more data are written than FCP_DL says", "fcp-dl", put(part("FCP_CMND", 6, True, 2048), payload(28), b"\0\0\0\x08")),
    Fault("data-read", "FCP_DATA out in a command that reads", "fcp-direction", put(part("FCP_CMND", 6, True), payload(11), b"\2")),
    Fault("rsp-waited", "no FCP_RSP comes, and the initiator doesn't abort", "fcp-ends", drop(part("FCP_RSP", 5, True))),
    Fault("cmnd-short", "FCP_CMND of 24 bytes", "fcp-command", resized(part("FCP_CMND", 5), lambda it: it[:24])),
    Fault("cmnd-class", "FCP_CMND with both RDDATA and WRDATA", "fcp-command", put(part("FCP_CMND", 5), payload(11), b"\3")),
    Fault("cmnd-longer", "FCP_CMND whose CDB is longer than its payload", "fcp-command", put(part("FCP_CMND", 5), payload(11), b"\x42")),
    Fault("cmnd-manage", "two task management functions in one FCP_CMND", "fcp-command", put(Command("FCP_CMND", 1, managed=True), payload(10), b"\x30")),
    Fault("cmnd-attribute", "FCP_CMND with a task attribute that is none (3)", "fcp-command", put(part("FCP_CMND", 5), payload(9), b"\3"), ),
    Fault("cmnd-behind-logo", "a command behind the host's own LOGO to the target", "fcp-after-plogi end-by-logo", again(Pick("FCP_CMND", 40, s_id=0x010102), 288.5738)),
    Fault("rsp-none", "the target sends no FCP_RSP", "fcp-response", drop(at_target("FCP_RSP", 2, False)), "target"),
    Fault("rsp-early", "the target's FCP_RSP comes before its data", "fcp-response-early", before_frame(at_target("FCP_RSP", 8, False, 512), at_target("FCP_DATA", 8, False, 512)), "target"),
    Fault("rsp-short", "the target's FCP_RSP of 12 bytes", "fcp-response-form", resized(at_target("FCP_RSP", 8), lambda it: it[:12]), "target"),
    Fault("rsp-sense", "FCP_RSP whose sense data are longer than its payload", "fcp-response-form", put(at_target("FCP_RSP", 8), payload(10), b"\2\2\0\0\0\0\0\0\1\0"), "target"),
    Fault("rsp-residual", "FCP_RSP with a residual that isn't there", "fcp-residual", put(at_target("FCP_RSP", 9, False, 512), payload(10), b"\x08\0\0\0\1\0"), "target"),
    Fault("ready-more", "FCP_XFER_RDY asks for more than FCP_DL", "fcp-ready-form", put(at_target("FCP_XFER_RDY", 5, True), payload(4), b"\0\x7f\0\0"), "target"),
    Fault("ready-offset", "FCP_XFER_RDY of an offset behind FCP_DL", "fcp-ready-form", put(at_target("FCP_XFER_RDY", 5, True), payload(0), b"\0\x7f\0\0"), "target"),
    Fault("ready-short", "FCP_XFER_RDY of 8 bytes", "fcp-ready-form", resized(at_target("FCP_XFER_RDY", 5, True), lambda it: it[:8]), "target"),
    Fault("read-more", "the target sends more than FCP_DL", "fcp-dl", put(at_target("FCP_CMND", 9, False, 512), payload(28), b"\0\0\0\x08"), "target"),
    Fault("read-offset", "the target's data have a wrong offset", "fcp-offset", put(at_target("FCP_DATA", 9, False, 512), header(20), b"\0\0\x7f\0"), "target"),
    Fault("read-unasked", "the target sends data for a command that writes", "fcp-direction", put(at_target("FCP_CMND", 9, False, 512), payload(11), b"\1"), "target"),
    Fault("target-rscn", "the target doesn't accept RSCNs", "rscn-answered", all_of(*(unanswered(Pick("RSCN", it, True)) for it in range(3))), "target"),
    Fault("target-plogi", "the target's LS_ACC of PLOGI: receive size 100", "plogi-accept", answer_to(Pick("PLOGI", 0, True), bytes_at(10, b"\0\x64")), "target"),
    Fault("target-prli", "the target's LS_ACC of PRLI: response code 0", "prli-accept", answer_to(Pick("PRLI", 0, True), bytes_at(6, b"\x20")), "target"),
    Fault("target-class3", "the target's LS_ACC of PLOGI: receive size 4000 in class 3", "plogi-accept", answer_to(Pick("PLOGI", 0, True), bytes_at(74, b"\x0f\xa0")), "target"),
    Fault("target-silent", "the target doesn't answer a PRLI", "els-answered", unanswered(Pick("PRLI", 0, True)), "target"),
    Fault("target-function", "the target's LS_ACC of PRLI has no function", "prli-accept", answer_to(Pick("PRLI", 0, True), bytes_at(19, b"\2")), "target"),
]
SERVICES = [
    Fault("ns-no-plogi", "name server without PLOGI", "ns-login", without_exchange(Pick("PLOGI"))),
    Fault("ns-rejected", "name server behind a rejected PLOGI", "ns-login", answer_to(Pick("PLOGI"), lambda _: b"\1\0\0\0\0\3\0\0")),
    Fault("ct-type", "CT request with GS type FA", "ct-preamble", put(RFT, payload(4), b"\xfa")),
    Fault("ct-subtype", "CT request with subtype 01", "ct-preamble", put(RFT, payload(5), b"\1")),
    Fault("ct-revision", "CT revision 0", "ct-preamble", put(RFT, payload(0), b"\0")),
    Fault("ct-in-id", "CT request with an IN_ID", "ct-preamble", put(RFT, payload(1), b"\1\1\1")),
    Fault("ct-reason", "CT request with a reason", "ct-preamble", put(RFT, payload(13), b"\1")),
    Fault("ct-short", "RFT_ID without the last words of its map", "ct-size", resized(RFT, lambda it: it[:-8])),
    Fault("ct-symbolic", "RSPN_ID: length byte 200, 18 bytes there", "ct-size", put(Pick("RSPN_ID"), payload(20), b"\xc8")),
    Fault("ct-command", "CT request with a command that is none", "ct-command", put(GPN, payload(8), b"\x7a\xbc"), is_open=True),
    Fault("gpn-short", "GPN_FT without its last word", "ct-size", resized(GPN, lambda it: it[:16])),
    Fault("rff-short", "RFF_ID without its last word", "ct-size", resized(Pick("RFF_ID"), lambda it: it[:20])),
    Fault("rft-other", "RFT_ID for another's address", "register-own", put(RFT, payload(17), b"\1\1\7"), is_open=True),
    Fault("rft-none", "RFT_ID isn't sent, RFF_ID and PRLI go on", "register-order", every("RFT_ID"), is_open=True),
    Fault("reg-none", "no registration at all", "register-types", every("RFT_ID, RFF_ID, RNN_ID, RSNN_NN, RSPN_ID"), is_open=True),
    Fault("rft-empty", "RFT_ID with an empty map", "register-order", put(RFT, payload(20), bytes(32)), is_open=True),
    Fault("rnn-name", "RNN_ID with another node name than the FLOGI's", "register-names", put(RNN, payload(27), b"\x77"), is_open=True),
    Fault("scr-none", "SCR isn't sent", "scr-sent", every("SCR"), is_open=True),
    Fault("scr-function", "SCR with function 7", "scr-function", put(SCR, payload(7), b"\7")),
    Fault("scr-dst", "SCR to the name server", "scr-destination", put(SCR, header(1), b"\xff\xff\xfc")),
    Fault("scr-short", "SCR of 4 bytes", "scr-function", resized(SCR, lambda it: it[:4])),
    Fault("gpn-type", "GPN_FT with reserved bytes set", "ct-reserved", put(GPN, payload(16), b"\1"), is_open=True),
    Fault("rsnn-name", "RSNN_NN of a node name that isn't registered", "register-node-name", put(Pick("RSNN_NN"), payload(16), b"\x77"), is_open=True),
]
FAULTS: list[Fault] = [*FIP, *LOGINS, *ADDRESSES, *ALIVES, *FRAMES, *EXCHANGES, *STORAGE, *SERVICES]
