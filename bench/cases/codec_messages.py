"""The cases of messages and frames, with what their answers must say: part of bench/cases/codec_cases."""
import zlib

import codec_judge as judge
from case_lines import Cases, changed, one

ASK = bytes.fromhex("100000040001000200000202001b2100000a") + bytes(28)
TELL = bytes.fromhex("10000004000200030000020200051e0000020e010064") + bytes(24)
ADVERTISE = bytes.fromhex("100000010002000c800701010080020200051e00000204030000100000051e00000205040000000efc00100000051e0000020c02000000001f40")
TURNED = bytes.fromhex("100000010002000c80070c02000000001f4005040000000efc00100000051e00000204030000100000051e000002020200051e00000201010080")
FLOGI = bytes.fromhex(
    "100000020001002680000724000022fffffe0000000001290000000000000001ffff0000000004000000202000008000084000000000000000002000001b2100000a"
    "1000001b2100000a00000000000000000000000000000000000000000000000000000000000000008000" + "00" * 46 + "0202000000000000"
)
ACCEPT = bytes.fromhex(
    "10000002000200268000072400002301010000fffffe01980000000000000001ffff0000000002000000202000003000084000002710000007d0200100051e000002"
    "100000051e00000200000000000000000000000000000000000000000000000000000000000000008800" + "00" * 46 + "02020efc00010100"
)
LS_ACC = ACCEPT[38:154]
ROWS = bytes.fromhex("0200000001000000000b2c0005000000000101002000001b2100000a62000000000000036104000800010100")
UNTAGGED = bytes.fromhex("011018010002001b2100000a89141000")
TAGGED = bytes.fromhex("0efc0001010100051e000002810060648906002e")
FCOE = bytes.fromhex("000000000000000000000000002e2201010100fffffd01290000000000000000ffff000000006104000800010100ec6918ec42000000")
FRAME = bytes.fromhex("2201010100fffffd01290000070300021234fffe000000056104000800010100")
NAME = bytes.fromhex("2000001b2100000a")


def fip(cases: Cases) -> None:
    cases.section("FC-BB-5: FIP messages")
    cases.test("a_vlan_request_is_read", "the VLAN request of the worked example, with its padding")
    cases.judged("fip", ASK, "=vlan-request mac=00:1b:21:00:00:0a written=" + ASK[:18].hex())
    cases.test("a_vlan_notification_is_read", "the notification that answers it: one VLAN")
    cases.judged("fip", TELL, "=vlan-notification mac=00:05:1e:00:00:02 vlan=100 written=" + TELL[:22].hex())
    cases.test("descriptors_stand_in_any_order", "an advertisement, and the same with its descriptors turned round")
    said = (
        "=advertise solicited=yes available=yes from-fcf=yes fp=yes priority=128 mac=00:05:1e:00:00:02 switch=100000051e000002"
        " fc-map=0efc00 fabric=100000051e000002 quiet=no period=8000 written="
    )
    cases.judged("fip", ADVERTISE, said + "same")
    cases.judged("fip", TURNED, said + ADVERTISE.hex())
    cases.test("a_login_and_its_accept_are_read", "a fabric login, and its accept, which grants a MAC")
    cases.judged("fip", FLOGI, f"=FLOGI request fp=yes frame={FLOGI[14:154].hex()} mac=00:00:00:00:00:00 written=same")
    cases.judged("fip", ACCEPT, f"=FLOGI reply fp=yes frame={ACCEPT[14:154].hex()} granted=0e:fc:00:01:01:00 written=same")
    cases.test("descriptor_of_length_zero", "no descriptor has length 0")
    cases.judged("fip", changed(ASK, (11, 0)), "error DescLength { at: 10 }")
    cases.test("descriptor_length_table", "a length byte of the login gets another value")
    lengths = [(11, 0, 10), (11, 1, 10), (11, 6, 10), (11, 7, 38), (11, 35, 150), (11, 36, None), (11, 37, 158), (11, 38, "Missing { kind: 2 }")]
    lengths += [(11, 39, 10), (11, 255, 10), (155, 0, 154), (155, 1, 154), (155, 2, None), (155, 3, 154), (155, 255, 154)]
    for place, value, want in lengths:
        text = "FLOGI request" if want is None else f"error {want}" if isinstance(want, str) else f"error DescLength {{ at: {want} }}"
        cases.judged("fip", changed(FLOGI, (place, value)), text)
    for words, want in [(0, "Missing { kind: 7 }"), (36, "Missing { kind: 2 }"), (37, "DescLength { at: 154 }"), (38, None), (39, "ListLength"), (65535, "ListLength")]:
        body = changed(FLOGI, (6, words >> 8), (7, words & 255))
        cases.judged("fip", body, "FLOGI request" if want is None else f"error {want}")
    cases.test("fip.the_first_fault_is_told", "each fault before those of later tests")
    cases.judged("fip", ASK[:9], "error Short")
    cases.judged("fip", changed(ASK, (0, 0x20), (5, 9)), "error Version")
    cases.judged("fip", changed(ASK, (0, 0x1F), (5, 9)), "error Operation")
    cases.judged("fip", changed(ASK, (0, 0x1F), (5, 1)), "vlan-request")
    cases.judged("fip", changed(ASK, (0, 0x1F), (5, 1), (7, 10)), "error ListLength")
    cases.test("types_that_are_skipped_and_types_that_are_not", "the last word of a VLAN request of four words, behind and before its MAC descriptor")
    rows = [(128, 1, None), (255, 1, None), (14, 1, None), (127, 1, "Critical { at: 18, kind: 127 }"), (3, 1, "Critical { at: 18, kind: 3 }")]
    rows += [(128, 0, "DescLength { at: 18 }"), (3, 0, "DescLength { at: 18 }")]
    for kind, words, want in rows:
        body = changed(ASK, (7, 4), (18, kind), (19, words), (22, 200), (23, 1))
        cases.judged("fip", body, "vlan-request" if want is None else f"error {want}")
    cases.judged("fip", changed(ASK, (7, 3), (10, 130), (11, 1), (12, 0), (13, 0), (14, 2), (15, 2)), "vlan-request")
    cases.test("a_second_of_one_type_is_a_double", "a second MAC descriptor")
    cases.judged("fip", changed(ASK, (7, 4), (18, 2), (19, 2)), "error Double { at: 18 }")
    cases.test("the_writer_writes_the_examples", "what the writer makes of the examples, without padding")
    cases.judged("fip", ASK[:18], "written=same")
    cases.judged("fip", TELL[:22], "written=same")
    cases.judged("fip", ADVERTISE, "written=same")
    cases.test("the_writer_writes_a_login_and_its_accept", "written as they stand in the example")
    cases.judged("fip", FLOGI, "written=same")
    cases.judged("fip", ACCEPT, "written=same")
    cases.test("a_clear_is_written_and_read", "a clear of one Vx_Port")
    clear = bytes.fromhex("100000030002000a0000020200051e00000204030000100000051e0000020b050efc00010100000101002000001b2100000a")
    cases.judged("fip", clear, "=clear mac=00:05:1e:00:00:02 switch=100000051e000002 port=0e:fc:00:01:01:00,010100,2000001b2100000a written=same")
    cases.test("fip.a_fault_has_a_text", "an unknown type below 128")
    cases.judged("fip", changed(ASK, (7, 4), (18, 100), (19, 1)), "Critical { at: 18, kind: 100 }: the descriptor at byte 18 has the unknown type 100")


def els(cases: Cases) -> None:
    cases.section("FC-LS-2: link services")
    said = (
        "=LS_ACC of a login features=3000 size=2112 ra-tov=10000 ed-tov=2000 port=200100051e000002 node=100000051e000002 class-3=88" + "00" * 15
        + " offers-class-3=yes n-port-ids=no n-port-ids-granted=yes f-port=yes receive-size=2112 written=same"
    )
    cases.test("an_accept_of_a_login_is_written_and_read", "the accept of a fabric login on port 1")
    cases.judged("els", LS_ACC, said)
    cases.test("each_login_has_its_command", "FLOGI, FDISC and PLOGI with the same parameters")
    for command, name in [(0x04, "FLOGI"), (0x51, "FDISC"), (0x03, "PLOGI")]:
        cases.judged("els", changed(LS_ACC, (0, command)), said.replace("LS_ACC of a login", name))
    cases.test("the_other_rows_are_written", "an accept, a reject, a logout, a registration and a state change, written as they stand")
    for start, end in [(0, 4), (4, 12), (12, 28), (28, 36), (36, 44)]:
        cases.judged("els", ROWS[start:end], "written=same")
    cases.test("the_other_rows_are_read", "the same, read")
    cases.judged("els", ROWS[12:28], "=LOGO address=010100 name=2000001b2100000a written=same")
    cases.judged("els", ROWS[4:12], "=LS_RJT reason=0b explanation=2c written=same")
    cases.judged("els", ROWS[28:36], "=SCR function=3 written=same")
    cases.judged("els", ROWS[36:], "=RSCN pages=00010100 written=same")
    cases.test("each_command_needs_its_bytes", "the least bytes of each command, and one less")
    least = [(0x04, 116, "FLOGI "), (0x51, 116, "FDISC "), (0x03, 116, "PLOGI "), (0x02, 4, "LS_ACC written"), (0x01, 8, "LS_RJT "), (0x05, 16, "LOGO ")]
    least += [(0x62, 8, "SCR "), (0x61, 8, "RSCN "), (0x78, 4, "other ")]
    for command, size, name in least:
        payload = changed(bytes(117), (0, command), (1, 4), (3, 8))
        cases.judged("els", payload[:size], name)
        cases.judged("els", payload[: size - 1], "error Short")
    cases.judged("els", b"", "error Short")
    cases.judged("els", LS_ACC[:115], "LS_ACC written")
    cases.judged("els", LS_ACC, "LS_ACC of a login")
    cases.test("pages_of_a_state_change_are_tested", "a page length and a length of a state change")
    rows = [(4, 8, "RSCN"), (4, 12, "RSCN"), (4, 16, "error Page"), (4, 10, "error Page"), (4, 4, "error Page"), (4, 0, "error Page")]
    for page, low, want in rows + [(8, 8, "error Page"), (0, 8, "error Page")]:
        cases.judged("els", bytes([0x61, page, 0, low, 0, 1, 1, 0, 0, 2, 2, 0, 7]), want)
    cases.judged("els", bytes([0x61, 4, 1, 8, 0, 1, 1, 0]), "error Page")
    cases.test("receive_sizes_are_whole_words", "the receive size of a login, and what a service may send then")
    for size, want in [(0, 0), (255, 252), (256, 256), (2111, 2108), (2113, 2112), (4095, 2112)]:
        cases.judged("els", changed(LS_ACC, (10, size >> 8), (11, size & 255)), f" size={size} ", f" receive-size={want} ")
    cases.test("els.a_fault_has_a_text", "of a payload that is too short")
    cases.judged("els", b"\x04", "=error Short: the payload is shorter than its command needs")


def ct_head(code: int) -> bytes:
    return bytes([1, 0, 0, 0, 0xFC, 2, 0, 0, code >> 8, code & 255, 0, 0, 0, 0, 0, 0])


def ct_row(cases: Cases, code: int, body: bytes, said: str) -> None:
    """A request, also with a byte more, and one that lacks its last byte."""
    payload = ct_head(code) + body
    cases.judged("ct", payload, f"={said} written=same")
    cases.judged("ct", payload + b"\xff", f"={said} written={payload.hex()}")
    cases.judged("ct", payload[:-1], "error Size")


A = bytes([0, 1, 2, 3])  # an address, as requests have it
PORT_NAME = NAME.hex()
TYPES = bytes([0, 0, 1, 0]) + bytes(27) + b"\x01"
CT_ACCEPT = ct_head(0x8002)


def ct(cases: Cases) -> None:
    cases.section("FC-GS-6: requests to the name server, and its answers")
    for section in (queries, registrations, ct_faults, maps, short_answers, long_answers):
        section(cases)


def queries(cases: Cases) -> None:
    cases.test("queries_are_read_and_written", "queries for an address and for a port name")
    for code, word in [(0x100, "GA_NXT"), (0x112, "GPN_ID"), (0x113, "GNN_ID"), (0x117, "GFT_ID"), (0x11F, "GFF_ID")]:
        ct_row(cases, code, A, f"{word} address=010203")
    ct_row(cases, 0x121, NAME, f"GID_PN port={PORT_NAME}")
    cases.test("queries_by_type_are_read_and_written", "queries for a type, whose byte is the last, and for a port type, whose byte is the first")
    for code, word in [(0x171, "GID_FT"), (0x172, "GPN_FT"), (0x173, "GNN_FT")]:
        ct_row(cases, code, bytes([0, 0, 0, 8]), f"{word} type=8")
    ct_row(cases, 0x1A1, bytes([0x7F, 0, 0, 0]), "GID_PT port-type=127")


def registrations(cases: Cases) -> None:
    cases.test("registrations_are_read_and_written", "a node name, types, a feature, and their end")
    ct_row(cases, 0x213, A + NAME, f"RNN_ID address=010203 node={PORT_NAME}")
    ct_row(cases, 0x217, A + TYPES, "RFT_ID address=010203 types=,8,224 zero=no")
    ct_row(cases, 0x21F, A + bytes([0, 0, 2, 8]), "RFF_ID address=010203 feature=2 type=8")
    ct_row(cases, 0x300, A, "DA_ID address=010203")
    cases.test("symbols_are_read_and_written", "the symbolic names of a port and of a node")
    ct_row(cases, 0x218, A + b"\x03abc", "RSPN_ID address=010203 symbol=616263")
    ct_row(cases, 0x239, NAME + b"\x03abc", f"RSNN_NN node={PORT_NAME} symbol=616263")
    cases.test("a_symbol_is_filled_up_to_a_word", "a symbol of four bytes is written with three more")
    symbol = ct_head(0x218) + bytes([0, 0, 0, 1, 4]) + b"port"
    cases.judged("ct", symbol, f"=RSPN_ID address=000001 symbol=706f7274 written={(symbol + bytes(3)).hex()}")


def ct_faults(cases: Cases) -> None:
    cases.test("ct.the_first_fault_is_told", "each fault before those of later tests")
    payload = ct_head(0x100)
    cases.judged("ct", payload, "error Size")
    cases.judged("ct", changed(payload, (5, 3)), "error NotNameServer")
    cases.judged("ct", changed(payload, (4, 0xFA)), "error NotNameServer")
    cases.judged("ct", changed(payload, (4, 0xFA))[:15], "error Short")
    cases.test("a_code_outside_the_table_is_unknown", "codes beside those of the table")
    for code in [0, 0x101, 0x111, 0x118, 0x120, 0x170, 0x1A2, 0x212, 0x301, 0x8001]:
        cases.judged("ct", ct_head(code), f"unknown code={code:04x} ")
    cases.test("the_rest_of_the_preamble_is_free", "a registration whose reserved bytes are 9")
    free = bytes([2, 9, 9, 9, 0xFC, 2, 9, 9, 2, 0x1F, 9, 9, 9, 9, 9, 9, 9, 1, 2, 3, 9, 9, 0xF2, 8])
    cases.judged("ct", free, "RFF_ID address=010203 feature=2 type=8 ")


def maps(cases: Cases) -> None:
    cases.test("maps_are_looked_into", "the types and the features of maps: each that is named is there, and no other")
    cases.judged("ct", ct_head(0x217) + A + bytes([0, 0, 1, 0]) + bytes(24) + bytes([0x80, 0, 0, 1]), " types=,8,224,255 zero=no ")
    cases.judged("ct", ct_head(0x217) + A + bytes(32), " types= zero=yes ")
    features = bytes(4) + bytes([0, 0, 0, 0x32]) + bytes(116) + bytes([0xF0, 0, 0, 0])
    cases.case("tell features " + features.hex(), "=features= 8=2 9=3 255=15", "=answer " + (CT_ACCEPT + features).hex())
    cases.test("ct.a_fault_has_a_text", "of a payload that is for another service")
    cases.judged("ct", changed(ct_head(0x100), (5, 3)), "=error NotNameServer: the payload isn't for the name server")
    cases.test("a_reject_has_its_reason_and_explanation", "reason 9, explanation 2")
    cases.case("tell reject 9 2", "=answer " + bytes([1, 0, 0, 0, 0xFC, 2, 0, 0, 0x80, 1, 0, 0, 0, 9, 2, 0]).hex())


def short_answers(cases: Cases) -> None:
    cases.test("short_answers", "an accept without more, with an address, a name, types and features")
    cases.case("tell done", "=answer " + CT_ACCEPT.hex())
    cases.case("tell port 010203", "=answer " + (CT_ACCEPT + A).hex())
    cases.case("tell name " + NAME.hex(), "=answer " + (CT_ACCEPT + NAME).hex())
    cases.case("tell types " + TYPES.hex(), "=answer " + (CT_ACCEPT + TYPES).hex())
    features = bytes(7) + b"\x02" + bytes(116) + bytes([0xF0, 0, 0, 0])
    cases.case("tell features " + features.hex(), "=features= 8=2 255=15", "=answer " + (CT_ACCEPT + features).hex())


def long_answers(cases: Cases) -> None:
    cases.test("a_list_of_70_addresses_marks_the_last", "70 addresses from 010000 on")
    entries = b"".join(bytes([0x80 if n == 69 else 0, 1, 0, n]) for n in range(70))
    cases.case("tell addresses 70", "=answer " + (CT_ACCEPT + entries).hex())
    cases.test("names_stand_behind_reserved_bytes", "two addresses with their names")
    entries = bytes([0, 1, 1, 0, 0, 0, 0, 0]) + NAME + bytes([0x80, 2, 3, 4, 0, 0, 0, 0]) + NAME
    cases.case(f"tell names 010100 {PORT_NAME} 020304 {PORT_NAME}", "=answer " + (CT_ACCEPT + entries).hex())
    cases.test("the_next_port_has_620_bytes", "all that is known of a port")
    want = bytearray(620)
    want[:4] = bytes([1, 1, 2, 3])
    want[4:12] = NAME
    want[12:17] = b"\x04port"
    want[268:276] = bytes.fromhex("1000001b2100000a")
    want[276] = 255
    want[277:532] = b"n" * 255
    want[559], want[562], want[591] = 8, 1, 1
    want[608:616] = bytes.fromhex("200100051e000002")
    line = f"tell next 010203 {PORT_NAME} {b'port'.hex()} 1000001b2100000a {(b'n' * 255).hex()} {TYPES.hex()} 200100051e000002"
    cases.case(line, "=answer " + (CT_ACCEPT + bytes(want)).hex())


def frames(cases: Cases) -> None:
    for section in (ethernet_frames, fc_frames, fcoe_faults, fcoe_bodies, check_sequences):
        section(cases)


def ethernet_frames(cases: Cases) -> None:
    cases.section("802.1Q: Ethernet frames")
    cases.test("a_frame_without_a_tag_is_read", "the head of a VLAN request")
    cases.judged("eth", UNTAGGED, "eth dst=01:10:18:01:00:02 src=00:1b:21:00:00:0a vlan=0 type=8914 body=1000 ")
    cases.test("a_tag_is_read", "priority 3, VLAN 100")
    cases.judged("eth", TAGGED, " tag=6064 vlan=100 type=8906 body=002e ")
    cases.test("too_few_bytes_are_refused", "14 bytes without a tag, 18 with one")
    for data, fits in [(UNTAGGED[:13], False), (UNTAGGED[:14], True), (TAGGED[:14], False), (TAGGED[:17], False), (TAGGED[:18], True)]:
        cases.judged("eth", data, "eth dst=" if fits else "error Short")
    cases.test("a_frame_is_written_with_its_pad", "zeros until it has 60 bytes")
    cases.judged("eth", TAGGED, " written=" + (TAGGED + bytes(40)).hex())
    cases.test("ethernet.a_fault_has_a_text", "of a frame that is too short")
    cases.judged("eth", b"", "=error Short: the frame is shorter than its Ethernet header")


def fc_frames(cases: Cases) -> None:
    cases.section("FC-FS-3: frames of Fibre Channel")
    cases.test("each_field_is_read_at_its_place", "a state change from the fabric controller")
    said = "=fc r-ctl=22 d-id=010101 cs-ctl=00 s-id=fffffd type=01 f-ctl=290000 seq-id=07 df-ctl=03 seq-cnt=2 ox-id=1234 rx-id=fffe parameter=5"
    cases.judged("fc", FRAME, said + " payload=6104000800010100 written=same")
    cases.test("a_frame_is_written_as_it_was_read", "byte by byte")
    cases.judged("fc", FRAME, "written=same")
    cases.test("frames.the_first_fault_is_told", "short before odd before long")
    for size, want in [(23, "error Short"), (24, "fc "), (25, "error Odd"), (2136, "fc "), (2137, "error Odd"), (2140, "error Long")]:
        cases.add(f"fill {size} 00")
        cases.case("fc @", "=" + judge.fc(bytes(size)), want)
    cases.test("a_long_payload_is_cut", "at 256 bytes")
    cases.case("pieces 296 256", "=pieces 0-256 256-296,last")
    cases.case("pieces 256 256", "=pieces 0-256,last")
    cases.test("frames.a_fault_has_a_text", "of a payload that is too long")
    cases.add("fill 2140 00")
    cases.case("fc @", "=error Long: the payload has more than 2112 bytes")


def fcoe_faults(cases: Cases) -> None:
    cases.section("FC-BB-5: bodies of FCoE")
    cases.test("a_state_change_is_read_and_written", "a state change to 010101 between SOFi3 and EOFt")
    cases.judged("fcoe", FCOE, "fcoe sof=2e eof=42 ", " d-id=010101 ", " payload=6104000800010100 written=same")
    cases.test("faults_come_in_their_order", "the CRC, the end, the start, the version, the length, each before those that came before")
    body = changed(FCOE, (49, 0))
    cases.judged("fcoe", body, f"error Crc {{ found: {0x001869EC}, made: {0xEC1869EC} }}")
    body = changed(body, (50, 0x43))
    cases.judged("fcoe", body, "error Eof")
    body = changed(body, (13, 0x2F))
    cases.judged("fcoe", body, "error Sof")
    body = changed(body, (0, 0x10))
    cases.judged("fcoe", body, "error Version")
    cases.judged("fcoe", body[:53], "error Length")


def fcoe_bodies(cases: Cases) -> None:
    cases.test("the_shortest_and_the_longest_body", "no payload, and one of 2112 bytes")
    short = bytes(13) + b"\x28" + bytes(24) + bytes.fromhex("20cac1a3") + b"\x50" + bytes(3)
    cases.judged("fcoe", short, "fcoe sof=28 eof=50 ")
    cases.judged("fcoe", short[:45], "error Length")
    for size, want in [(2158, "fcoe sof=36 eof=41 "), (2159, "error Length"), (2162, "error Length")]:
        data = bytes(13) + b"\x36" + bytes(2136) + bytes.fromhex("be2526cc") + b"\x41" + bytes(size - 2155)
        cases.add("hex " + data[:14].hex())
        cases.add("fill 2136 00")
        cases.case(f"fcoe {data[2150:].hex()}", "=" + judge.fcoe(data), want)
    cases.test("the_delimiters_are_those_of_the_table", "each code of a start, and each of an end")
    for code in range(256):
        cases.judged("fcoe", changed(FCOE, (13, code)), "fcoe " if code in (0x28, 0x2D, 0x2E, 0x35, 0x36) else "error Sof")
        cases.judged("fcoe", changed(FCOE, (50, code)), "fcoe " if code in (0x41, 0x42, 0x49, 0x50) else "error Eof")
    cases.test("fcoe.a_fault_has_a_text", "of a CRC")
    cases.judged("fcoe", changed(FCOE, (49, 0)), ": the CRC is 001869ec and should be ec1869ec")


def check_sequences(cases: Cases) -> None:
    cases.section("FC-FS-3: the CRC")
    cases.test("the_published_values", "of the digits 1 to 9, of abc and of no bytes")
    for data, want in [(b"123456789", 0xCBF43926), (b"abc", 0x352441C2), (b"", 0)]:
        cases.case("crc " + one(data), f"crc={want:08x} ", f"=crc={zlib.crc32(data):08x} in a frame={zlib.crc32(data).to_bytes(4, 'little').hex()}")
    cases.test("the_least_significant_byte_comes_first", "in a frame")
    cases.case("crc " + b"123456789".hex(), " in a frame=2639f4cb")
