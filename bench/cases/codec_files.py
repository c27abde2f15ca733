"""The cases of captures, of the configuration and of values, with what their answers must say: part of bench/cases/codec_cases."""
import zlib

from case_lines import Cases, changed, one

AMPLE = (1_073_741_824, 200_000)
LITTLE = bytes.fromhex("d4c3b2a1020004000000000000000000ffff000001000000")
BIG_NANO = bytes.fromhex("a1b23c4d0002000409090909080808080000000000000001")
VLAN_REQUEST = bytes.fromhex("0110180100020200000000018914100000040001000200000202020000000001") + bytes(28)
LITTLE_HEADS = bytes.fromhex(
    "0a0d0d0a1c0000004d3c2b1a01000000ffffffffffffffff1c0000000100000014000000010000000000000014000000060000005c000000000000000000000040420f003c0000003c000000"
)
BIG_HEADS = bytes.fromhex(
    "0a0d0d0a0000001c1a2b3c4d00010000ffffffffffffffff0000001c0000000100000014000100000000000000000014000000060000005c0000000000000000000f42400000003c0000003c"
)
SMALL = bytes.fromhex(
    "0a0d0d0a1c0000004d3c2b1a01000000ffffffffffffffff1c000000010000001c0000000100000000000000090001000900"
    "00001c0000000600000024000000000000000000000040420f0004000000050000000102030424000000"
)


TOO_LONG = bytes.fromhex("01000000000000000000010001000000")  # a record's head


def captures(cases: Cases) -> None:
    cases.section("libpcap: captures")
    for section in (heads, records_read, captures_of_faults, faults_kept, captures_within_limits, captures_written):
        section(cases)


def heads(cases: Cases) -> None:
    cases.test("heads_are_told_apart", "the magics of both byte orders and units, versions and link types")
    low = bytes.fromhex("020004000000000000000000ffff000001000000")
    high = bytes.fromhex("000200040000000000000000" + "0000ffff00000001")
    version = bytes([2, 0, 3]) + bytes(17)
    link = bytes([2, 0, 4]) + bytes(14) + bytes([1, 0, 0])
    rows = [("d4c3b2a1", low, "=head big=no nano=no"), ("4d3cb2a1", low, "=head big=no nano=yes"), ("a1b2c3d4", high, "=head big=yes nano=no")]
    rows += [("a1b23c4d", high, "=head big=yes nano=yes"), ("a1b2c3d5", low, "error BadMagic"), ("d4c3b2a1", high, "error BadVersion")]
    for magic, rest, want in rows + [("d4c3b2a1", version, "error BadVersion"), ("d4c3b2a1", link, "error NotEthernet")]:
        cases.case("pcap-head " + magic + rest.hex(), want)
    cases.case("pcap-head " + LITTLE[:23].hex(), "error Short")


def records_read(cases: Cases) -> None:
    cases.test("big_endian_nanoseconds", "258 s and 501,999,999 ns; then a record that lies before it and was stored in part; by fetches of 1, 7 and 5000 bytes")
    data = BIG_NANO + bytes.fromhex("000001021debe97f0000000300000003070809" + "000001010000000000000001000000" + "6405")
    for step in (1, 7, 5000):
        records = ["=record moment=258501 whole=yes bytes=070809", "=record moment=258501 whole=no bytes=05"]
        cases.case(f"pcap {data.hex()} {step} {AMPLE[0]} {AMPLE[1]}", *records, f"left bytes={AMPLE[0] - 60} frames=199998 ")
    cases.test("the_longest_record_is_read", "65,535 bytes")
    cases.add("hex " + (LITTLE + bytes.fromhex("0100000000000000ffff0000ffff0000")).hex())
    cases.add("fill 65535 07")
    crc = zlib.crc32(b"\x07" * 65535)
    cases.case(f"pcap @ 5000 {AMPLE[0]} {AMPLE[1]}", f"=record moment=1000 whole=yes bytes=65535-bytes,crc={crc:08x}", f"left bytes={AMPLE[0] - 24 - 65551} ")


def captures_of_faults(cases: Cases) -> None:
    cases.test("errors_are_told_in_words", "no magic, a cut record at 176, and one at 40 that is too long")
    cases.case(f"pcap {'00' * 24} 5000 {AMPLE[0]} 1", "=error Head(BadMagic): the first 4 bytes are no magic of a capture")
    cases.add("capture head")
    cases.add("capture 1000 " + "00" * 136)
    cases.case(f"pcap 01 5000 {AMPLE[0]} 9", "=error Cut { at: 176 }: the record at 176 is cut")
    cases.add("capture head")
    cases.add("capture 1000 -")
    cases.case(f"pcap {TOO_LONG.hex()} 5000 {AMPLE[0]} 9", "=error TooLong { at: 40, len: 65536 }: the record at 40 stores 65536 bytes, more than 65535")


def faults_kept(cases: Cases) -> None:
    cases.test("pcap.the_first_fault_is_told_and_kept", "a cut record, the limits, and a record that is too long; asked once more the reader fetches nothing")
    record = bytes.fromhex("01000000000000000300000003000000070809")
    long = TOO_LONG + bytes(3)
    rows = [(record, 15, 100, 1, "Cut { at: 24 }"), (record, 18, 100, 1, "Cut { at: 24 }"), (record, 18, 18, 0, "Bytes"), (record, 19, 18, 0, "Bytes")]
    rows += [(record, 19, 19, 0, "Frames"), (record, 18, 19, 0, "Frames"), (long, 16, 18, 0, "TooLong { at: 24, len: 65536 }")]
    for tail, given, left, count, want in rows:
        wants = (f"error {want}: ", f"again: error {want}: ", "=fetches for it: 0", f"left bytes={left} frames={count} ")
        cases.case(f"pcap {(LITTLE + tail[:given]).hex()} 5000 {24 + left} {count}", *wants)


def captures_within_limits(cases: Cases) -> None:
    cases.test("a_small_budget_is_told_before_a_fetch", "23 bytes are left where a head has 24; and a head that is cut leaves the budget as it is")
    cases.case(f"pcap {LITTLE.hex()} 5000 23 1", "error Bytes", "=left bytes=23 frames=1 fetches=0")
    cases.case(f"pcap {LITTLE[1:].hex()} 5000 24 1", "error Head(Short)", "left bytes=24 frames=1 ")
    cases.test("one_fetch_serves_many_records", "100 records, one a second: two fetches")
    cases.add("capture head")
    for second in range(100):
        cases.add(f"capture {second * 1000} 010203")
    wants = tuple(f"=record moment={second * 1000} whole=yes bytes=010203" for second in range(100))
    cases.case(f"pcap @ 5000 {AMPLE[0]} {AMPLE[1]}", *wants, f"=left bytes={AMPLE[0] - 24 - 1900} frames=199900 fetches=2")


def captures_written(cases: Cases) -> None:
    cases.test("a_capture_is_written", "a frame at 1 s, and a byte at the last moment that a record can have")
    cases.add("capture head")
    cases.add("capture 1000 " + "00" * 60)
    cases.add("capture 4294967295999 09")
    want = LITTLE + bytes([1, 0, 0, 0, 0, 0, 0, 0, 60, 0, 0, 0, 60, 0, 0, 0]) + bytes(60)
    want += bytes([255, 255, 255, 255, 0x58, 0x3E, 0x0F, 0, 1, 0, 0, 0, 1, 0, 0, 0, 9])
    cases.case("bytes @", f"=length=117 bytes={want.hex()}")


def ng(cases: Cases, held: tuple[str, ...], data: str, limits: str, *wants: str) -> None:
    """A file that is read whole, and the same packet by packet: the same packets, the same end, and a fault that is kept."""
    for word in ("pcapng", "stream"):
        for line in held:
            cases.add(line)
        if word == "stream":
            ended = "end fetches=" if not any(want.startswith("error") for want in wants) else "fetches for it: 0"
            wants = (*(want for want in wants if want.startswith(("=original=", "original=", "error"))), ended)
        cases.case(f"{word} {data} {limits}", *wants)


NG_LITTLE = LITTLE_HEADS + VLAN_REQUEST + bytes([92, 0, 0, 0])
NG_BIG = BIG_HEADS + VLAN_REQUEST + bytes([0, 0, 0, 92])
NG_OTHER = bytes([5, 0, 0, 0, 12, 0, 0, 0, 12, 0, 0, 0])  # a block of another kind
ALL = f"{AMPLE[0]} {AMPLE[1]}"
UNTOUCHED = f"left bytes={AMPLE[0]} frames={AMPLE[1]} "


def pcapng(cases: Cases) -> None:
    cases.section("pcapng: captures")
    for section in (ng_requests, ng_first_faults, ng_limits, ng_sections, ng_other_blocks, ng_converted, ng_streams):
        section(cases)


def ng_requests(cases: Cases) -> None:
    cases.test("pcapng_of_one_vlan_request", "in both byte orders, by fetches of 1, 7 and 5000 bytes")
    for data in (NG_LITTLE, NG_BIG):
        for step in (1, 7, 5000):
            record = f"=original=60 face=0 record moment=1000 whole=yes bytes={VLAN_REQUEST.hex()}"
            ng(cases, (), data.hex(), f"{step} {ALL}", record, f"left bytes={AMPLE[0] - 140} frames=199999 ")
    cases.test("pcapng_with_an_unknown_interface", "interface 1, where the section has one; nothing is taken from the limits")
    ng(cases, (), changed(NG_LITTLE, (56, 1)).hex(), f"5000 {ALL}", "error Fault { at: 48, why: Interface }", UNTOUCHED)


def ng_first_faults(cases: Cases) -> None:
    cases.test("the_first_test_that_holds_is_told", "a fault of one test, and one of a later test")
    rows = [((0, 11), (8, 0), 0, "Section"), ((8, 0x4E), (4, 29), 0, "Order"), ((4, 29), (12, 2), 0, "Length"), ((4, 24), (12, 2), 0, "Length")]
    rows += [((32, 16), (46, 5), 28, "Length"), ((60, 28), (64, 1), 56, "Length"), ((60, 40), (64, 1), 56, "Cut"), ((24, 29), (12, 2), 0, "Length")]
    rows += [((76, 5), (64, 1), 56, "Length"), ((12, 2), (36, 2), 0, "Version"), ((56, 3), (64, 1), 56, "Simple"), ((46, 5), (64, 1), 28, "Options")]
    rows += [((64, 1), (36, 2), 56, "Interface"), ((36, 2), (48, 10), 56, "Link"), ((48, 10), (71, 60), 56, "Resolution"), ((48, 0x83), (71, 60), 56, "Resolution")]
    for first, second, at, why in rows + [((44, 14), (71, 60), 56, "Offset"), ((71, 60), (80, 0), 56, "Time")]:
        ng(cases, (), changed(SMALL, first, second).hex(), f"5000 {ALL}", f"error Fault {{ at: {at}, why: {why} }}", UNTOUCHED)


def ng_limits(cases: Cases) -> None:
    cases.test("limits_stand_between_the_tests", "bytes before the cut, and frames behind it")
    rows = [(27, 0, 92, "error Limit(Bytes)"), (91, 0, 80, "error Limit(Bytes)"), (92, 0, 80, "error Fault { at: 56, why: Cut }"), (92, 0, 92, "error Limit(Frames)")]
    for left, count, given, want in rows + [(92, 1, 92, "=original=5 face=0 record moment=1 whole=no bytes=01020304")]:
        ng(cases, (), SMALL[:given].hex(), f"5000 {left} {count}", want)
    cases.test("a_file_cut_at_each_of_its_lengths", "only behind a block it is whole")
    for given in range(92):
        at = 0 if given < 29 else 28 if given < 57 else 56
        want = "as pcap " if given in (28, 56) else f"error Fault {{ at: {at}, why: Cut }}"
        ng(cases, (), one(SMALL[:given]), f"5000 {ALL}", want)


def ng_sections(cases: Cases) -> None:
    cases.test("sections_units_and_other_blocks", "a section in nanoseconds, another block, and a big-endian section in microseconds")
    wants = ("=original=5 face=0 record moment=1 whole=no bytes=01020304", f"=original=60 face=0 record moment=1000 whole=yes bytes={VLAN_REQUEST.hex()}")
    ng(cases, (), (SMALL + NG_OTHER + NG_BIG).hex(), f"5000 {ALL}", *wants)
    cases.add("# a second section has no interface of the first")
    short = SMALL + BIG_HEADS[:28] + bytes([0, 0, 0, 6]) + BIG_HEADS[52:] + VLAN_REQUEST + bytes([0, 0, 0, 92])
    ng(cases, (), short.hex(), f"5000 {ALL}", "error Fault { at: 120, why: Interface }")


def ng_other_blocks(cases: Cases) -> None:
    cases.test("a_block_of_another_kind_goes_by", "its length twice, and all its bytes; by fetches of 7 and 5000 bytes")
    rows = [(12, 12, 12, None), (12, 16, 12, "Length"), (16, 16, 16, None), (16, 12, 16, "Length"), (16, 16, 15, "Cut"), (4096, 4096, 4096, None)]
    rows += [(4096, 4092, 4096, "Length"), (4096, 4096, 4095, "Cut"), (4096, 4096, 1000, "Cut"), (4097, 4097, 4096, "Length")]
    for size, second, given, why in rows:
        block = (b"\x05\0\0\0" + size.to_bytes(4, "little") + bytes(min(size - 12, 4084)) + second.to_bytes(4, "little"))[:given]
        for step in (7, 5000):
            zeros = min(len(block) - 8, min(size - 12, 4084))
            held = ("hex " + (SMALL + block[:8]).hex(), f"fill {zeros} 00")
            want = "as pcap " if why is None else f"error Fault {{ at: 92, why: {why} }}"
            ng(cases, held, block[8 + zeros :].hex() or "-", f"{step} {ALL}", want)


def ng_converted(cases: Cases) -> None:
    cases.test("a_packet_of_65536_bytes_is_too_long", "and one of 65,535 is not")
    for stored, want in [(65535, "original=65535 face=0 record moment=1 whole=yes"), (65536, "error Fault { at: 56, why: Long }")]:
        size = (32 + 65536).to_bytes(4, "little")
        held = ("hex " + (SMALL[:60] + size + SMALL[64:76] + 2 * stored.to_bytes(4, "little")).hex(), "fill 65536 00")
        ng(cases, held, size.hex(), f"5000 {ALL}", want)
    cases.test("a_file_is_converted", "to a capture in microseconds (the file that is written is told by a test)")
    want = LITTLE + bytes([0, 0, 0, 0, 0xE8, 3, 0, 0, 4, 0, 0, 0, 5, 0, 0, 0, 1, 2, 3, 4])
    ng(cases, (), SMALL.hex(), f"5000 {ALL}", "=as pcap " + want.hex())


def ng_streams(cases: Cases) -> None:
    cases.test("a_stream_waits_for_no_byte", "two packets and a block of another kind between them, by fetches that end with the first packet")
    packet = "original=5 face=0 record moment=1 whole=no bytes=01020304"
    both = SMALL + NG_OTHER + SMALL[56:]
    for step, fetches in ((92, (1, 2, 3)), (48, (2, 3, 4)), (104, (1, 2, 3)), (5000, (1, 1, 2))):
        answer = f"{packet}\nfetches={fetches[0]}\n{packet}\nfetches={fetches[1]}\nend fetches={fetches[2]}"
        cases.case(f"stream {both.hex()} {step} {ALL}", "==" + answer)
    cases.test("a_fetch_of_a_stream_fails", "each in turn: the packets before it are given, and the fault is told again")
    fault = "error Read(Failed): the file could not be read"
    for most in range(21):
        said = [f"{packet}\nfetches={at}" for at in (14, 20) if at <= most]
        cases.case(f"stream {both.hex()} 7 {ALL} {most}", "==" + "\n".join([*said, fault, "again: " + fault, "fetches for it: 0"]))


FIRST = "fcf-mac 0e:fc:00:00:00:0a\nvlan 100\n"
MEMBER = " 10:00:00:00:00:00:00:01"


def text(cases: Cases, words: str) -> None:
    """Adds a text: by its lines where each is printed as it is."""
    lines = words.split("\n")
    if words.isascii() and not lines[-1] and all(line.isprintable() for line in lines):
        for line in lines[:-1]:
            cases.add(f"text {line}")
    elif words:
        cases.add("hex " + words.encode().hex())


def taken(cases: Cases, line: str = "config @") -> None:
    cases.case(line, "=read again: same")


def refused(cases: Cases, line: int, why: str) -> None:
    texts = {
        "Long": "the text has more than 1048576 bytes",
        "Ascii": "a byte is no printed sign, space or tab",
        "Key": "the first word is no key",
        "Twice": "the key or the name stands a second time",
        "Value": "the words behind the key are not what it takes",
        "Limit": "there is one zone, member, zone set or activation too many",
        "Missing": "a required key is missing",
    }
    cases.case("config @", f"=error Fault(ConfigFault {{ line: {line}, why: {why} }}): line {line}: {texts[why]}")


def config(cases: Cases) -> None:
    cases.section("The configuration")
    cases.test("defaults_stand_for_what_no_line_says", "the least text, and all its values as they are written")
    text(cases, FIRST)
    wants = ["fcf-mac 0e:fc:00:00:00:0a", "vlan 100", "switch 10:00:0e:fc:00:00:00:0a", "fc-map 0e:fc:00", "domain 1", "pool 256", "priority 128"]
    wants += ["period 8000", "window 100", "limit 240"]
    cases.case("config @", "==" + "\n".join(wants + ["read again: same"]))
    cases.test("every_key_is_read_and_written", "a remark, an empty line, tabs, carriage returns and digits in upper case")
    full = (
        "# \u00e9 anything\r\n\n vlan\t100\r\nfcf-mac 0E:fC:00:00:00:0a\nlimit 1000\nwindow 10\nperiod 250\npriority 0\npool 60000\ndomain 239\nfc-map 0e:FC:ff\n"
        "switch 10:00:00:05:1E:00:00:02\nzone z 10:00:00:1b:21:00:00:0a 10:00:00:1b:21:00:00:0b 10:00:00:1b:21:00:00:0a\n"
        "zone y-$^_9 10:00:00:1b:21:00:00:0c\nzoneset s1 y-$^_9 z z\nzoneset s2 z\nactivate s2 0\nactivate s1 4294967295999"
    )
    written = (
        "fcf-mac 0e:fc:00:00:00:0a\nvlan 100\nswitch 10:00:00:05:1e:00:00:02\nfc-map 0e:fc:ff\ndomain 239\npool 60000\npriority 0\nperiod 250\nwindow 10\n"
        "limit 1000\nzone z 10:00:00:1b:21:00:00:0a 10:00:00:1b:21:00:00:0b\nzone y-$^_9 10:00:00:1b:21:00:00:0c\nzoneset s1 y-$^_9 z\nzoneset s2 z\n"
        "activate s2 0\nactivate s1 4294967295999\n"
    )
    text(cases, full)
    cases.case("config @", "==" + written + "read again: same")
    cases.test("config.the_first_fault_is_told", "texts, and the line and the cause of their first fault")
    rows = [("", 1, "Missing"), ("vlan 100\n", 2, "Missing"), ("fcf-mac 0e:fc:00:00:00:0a\n\n", 3, "Missing"), ("vlan 0\n", 1, "Value")]
    rows += [("vlan 4095\n", 1, "Value"), ("vlan 010\n", 1, "Value"), ("vlan 1 2\n", 1, "Value"), ("vlan\n", 1, "Value"), ("vlan 1\nvlan x\n", 2, "Twice")]
    rows += [("vlan 1\nvlan 1\n", 2, "Twice"), ("vlan 1\x7f\n", 1, "Ascii"), ("vlan\r 1\n", 1, "Ascii"), ("  \n", 1, "Key"), (" # remark\n", 1, "Key")]
    rows += [("Vlan 1\n", 1, "Key"), ("fcf-mac 0f:fc:00:00:00:0a\n", 1, "Value"), ("fcf-mac 00:00:00:00:00:00\n", 1, "Value")]
    rows += [("fcf-mac 0e:fc:00:00:00\n", 1, "Value"), ("fc-map 0e:fd:00\n", 1, "Value"), ("zone 1z 10:00:00:1b:21:00:00:0a\n", 1, "Value")]
    for words, line, why in rows + [("zone z\n", 1, "Value"), ("zone z 10:00:00:1b:21:00:00:0a\nzone z\n", 2, "Twice"), ("zoneset s z\n", 1, "Value")]:
        text(cases, words)
        refused(cases, line, why)
    mac = "fcf-mac 00:05:1e:00:00:02\n"
    for name, says, words, line, why in [
        ("key_given_twice", "a VLAN twice", mac + "vlan 100\nvlan 100\n", 3, "Twice"),
        ("required_key_missing", "no VLAN", mac, 2, "Missing"),
        ("vlan_out_of_range", "VLAN 5000", mac + "vlan 5000\n", 2, "Value"),
        ("activation_of_an_unknown_set", "s9 is no zone set", mac + "vlan 100\nactivate s9 0\n", 3, "Value"),
    ]:
        cases.test(name, says)
        text(cases, words)
        refused(cases, line, why)
    cases.test("each_number_has_its_range", "a line at each end of its range, behind a zone set that is active from 7 on")
    active = "zone z 10:00:00:00:00:00:00:01\nzoneset s z\nactivate s 7\n"
    good = "vlan 1,vlan 4094,fc-map 0e:fc:00,fc-map 0e:fc:ff,domain 1,domain 239,pool 1,pool 60000,priority 0,priority 255,period 250,period 90000,window 10"
    good += ",window 1000,limit 1,limit 1000,activate s 8,activate s 4294967295999"
    bad = "fc-map 0e:fb:ff,fc-map 0e:fd:00,domain 0,domain 240,pool 0,pool 60001,priority 256,period 249,period 90001,window 9,window 1001,limit 0,limit 1001"
    bad += ",limit 18446744073709551617,activate s 6,activate s 7,activate s 4294967296000,activate t 8"
    for line in good.split(",") + bad.split(","):
        head = "fcf-mac 0e:fc:00:00:00:0a\n\n" if line.startswith("vlan") else FIRST
        text(cases, head + active + line + "\n")
        if line in good.split(","):
            cases.case("config @", "=" + line, "=read again: same")
        else:
            refused(cases, 6, "Value")
    limits(cases)


def limits(cases: Cases) -> None:
    """Texts at a limit, and one line more."""

    def both(name: str, says: str, lines: list[str], more: str, line: int) -> None:
        cases.test(name, says)
        for beyond in (False, True):
            text(cases, FIRST)
            for each in lines:
                cases.add(each)
            if beyond:
                cases.add("text " + more)
                refused(cases, line, "Limit")
            else:
                taken(cases)

    hundred = "".join(f" 10:00:00:00:00:00:00:{high}{low}" for high in range(10) for low in range(10))
    zone, zones = f"zone y{MEMBER}", "".join(f" z{n}" for n in range(100))
    both("one_thousand_zones_may_stand", "and one more may not", [f"each 1000 zone z%{MEMBER}"], zone, 1003)
    both("twenty_thousand_members_may_stand", "in 200 zones", [f"each 200 zone z%{hundred}"], zone, 203)
    both("sixty_four_zone_sets_may_stand", "of one zone", [f"each 1 zone z%{MEMBER}", "each 64 zoneset s% z0"], "zoneset t z0", 68)
    sets = [f"each 100 zone z%{MEMBER}", f"each 40 zoneset s%{zones}"]
    both("zone_sets_may_list_four_thousand_zones", "40 sets of 100 zones", sets, "zoneset t z0", 143)
    acts = [f"each 1 zone z%{MEMBER}", "each 1 zoneset s% z0", "each 64 activate s0 %"]
    both("sixty_four_activations_may_stand", "of one set", acts, "activate s0 64", 69)
    cases.test("a_name_has_64_signs_at_most", "a zone's name of 64 signs, and one of 65")
    text(cases, f"{FIRST}zone z{'_' * 63}{MEMBER}\n")
    taken(cases)
    text(cases, f"{FIRST}zone z{'_' * 64}{MEMBER}\n")
    refused(cases, 3, "Value")
    cases.test("a_text_has_1048576_bytes_at_most", "a long remark, and one byte more")
    for count in (1_048_576, 1_048_577):
        text(cases, FIRST)
        cases.add("hex 23")
        cases.add(f"fill {count - len(FIRST) - 1} 78")
        if count == 1_048_576:
            taken(cases)
        else:
            refused(cases, 0, "Long")
    cases.test("faults_have_texts", "of a fault in line 3, where it can stand there (a long text has its fault in line 0)")
    for line, why in [("\u00e9", "Ascii"), ("zones", "Key"), ("vlan 100", "Twice"), ("limit", "Value")]:
        text(cases, f"{FIRST}{line}\n")
        refused(cases, 3, why)


def values(cases: Cases) -> None:
    cases.section("Values")
    cases.test("names_are_spelled_in_lower_case", "MACs, names and addresses")
    for word in ("001b2100000a", "0123456789af", "ffffffffffff"):
        cases.case("mac " + ":".join(word[i : i + 2] for i in range(0, 12, 2)).upper(), "=" + word)
    for word in ("2000001b2100000a", "0000000000000000", "fedcba9876543210"):
        cases.case("name " + ":".join(word[i : i + 2] for i in range(0, 16, 2)), "=" + word)
    for word in ("010100", "fffffe", "0abcde"):
        cases.case(f"address {int(word, 16)}", f"=value={int(word, 16)} text={word}")
    cases.test("ports_are_1_to_64", "by number, and by place")
    for number, want in [(0, "=no port"), (1, "=port=1 place=0"), (64, "=port=64 place=63"), (65, "=no port")]:
        cases.case(f"port {number}", want)
    for place, number in [(0, 1), (7, 8), (63, 64)]:
        cases.case(f"place {place}", f"=port={number} place={place}")
    cases.test("fields_are_read_high_byte_first", "at a place of ten bytes")
    data = "0001abcdef2345678910"
    cases.case(f"fields {data} 1", f"u16={0x01AB} u24={0x01ABCD} u32={0x01ABCDEF} ", " mac=01:ab:cd:ef:23:45 ")
    cases.case(f"fields {data} 2", " address=abcdef ", " name=abcdef2345678910")
    cases.test("addresses_have_24_bits", "0, FFFFFF and 1000000")
    cases.case("address 0", "=value=0 text=000000")
    cases.case(f"address {0xFFFFFF}", f"=value={0xFFFFFF} text=ffffff")
    cases.case(f"address {0x1000000}", "=no address")
