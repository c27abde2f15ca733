"""The worked examples of the codecs that aren't printed as digits (crates/examples/specs), and frames of `make`: part of bench/cases/codec_cases."""
import codec_judge as judge
import made_loads
from case_lines import Cases

MAC_A, MAC_B = bytes.fromhex("001b2100000a"), bytes.fromhex("001b2100000b")
FORWARDER = bytes.fromhex("00051e000002")
NAME_A = bytes.fromhex("2000001b2100000a")
RISING = bytes(range(1, 116))


def big(value: int, count: int = 8) -> bytes:
    return value.to_bytes(count, "big")


def fields(cases: Cases) -> None:
    cases.test("examples.Fields", "every field of a login payload has its place: behind the command bytes that rise from 1 on")
    said = "features=0809 size=2571 ra-tov=202182159 ed-tov=269554195 port=1415161718191a1b node=1c1d1e1f20212223 class-3=4445464748494a4b4c4d4e4f50515253 "
    for command, name in [(4, "FLOGI"), (0x51, "FDISC"), (3, "PLOGI"), (2, "LS_ACC of a login")]:
        written = bytes([command, 0, 0, 0, 0x20, 0x20, 0, 0]) + bytes(range(8, 36)) + bytes(32) + bytes(range(68, 84)) + bytes(32)
        cases.judged("els", bytes([command]) + RISING, f"{name} {said}", "written=" + written.hex())
    cases.judged("els", bytes([3]) + bytes(9) + b"\xfa\xbc" + bytes(104), " size=2748 ")
    for command in (4, 0x51, 3):
        cases.judged("els", bytes([command]) + bytes(114), "error Short")
    for data, want in [(b"\x10\0\0\0", "other command=10"), (b"\x10\0\0", "error Short"), (b"", "error Short")]:
        cases.judged("els", data, want)
    for data in ("050000000001020314151617" + "18191a1b", "6200000000000003", "0100000000092900"):
        cases.judged("els", bytes.fromhex(data), "written=same")


def payloads(cases: Cases) -> None:
    cases.test("examples.Payloads.header", "every field of a header has its place; too short stands before not a multiple of 4, and that before too long")
    said = "r-ctl=22 d-id=010203 cs-ctl=04 s-id=050607 type=08 f-ctl=090a0b seq-id=0c df-ctl=0d seq-cnt=3599 ox-id=1011 rx-id=1213 parameter=336926231 payload=-"
    cases.judged("fc", bytes([0x22]) + bytes(range(1, 24)), said)
    for length, why in [(23, "Short"), (24 + 2114, "Odd"), (24 + 2116, "Long")]:
        cases.judged("fc", bytes(length), f"error {why}")
    cases.test("examples.Payloads.services", "link services at the edges of their layouts")
    rows = [(b"\5" + bytes(14), "error Short")]
    rows += [(bytes([5, 0, 0, 0, 0xFF, 1, 2, 3]) + NAME_A + b"\t", "LOGO address=010203 name=" + NAME_A.hex())]
    rows += [(b"\x62" + bytes(6), "error Short"), (bytes([1, 0, 0, 0, 4, 5, 6, 7]), "LS_RJT reason=05 explanation=06"), (b"\x61\4\0\4" + bytes(4), "error Page")]
    rows += [(b"\x61\4\0\x0c" + bytes(4), "error Page"), (b"\x61\4\0\x0a" + bytes(8), "error Page"), (b"\x61\x08\0\x0c" + bytes(8), "error Page")]
    rows += [(b"\x61\4\0\x0c" + bytes.fromhex("00010100000101010707"), "RSCN pages=0001010000010101"), (b"\2" + bytes(114), "LS_ACC"), (b"\2" + bytes(115), "LS_ACC of a login")]
    for data, want in rows:
        cases.judged("els", data, want)
    for size, served in [(0x0840, 2112), (0x0841, 2112), (0x0844, 2112), (0x0FFF, 2112), (0x8101, 256), (0x0103, 256), (0x0104, 260)]:
        cases.judged("els", bytes([3]) + bytes(9) + big(size, 2) + bytes(104), f"receive-size={served}")
    cases.test("examples.Payloads.fip", "FIP messages with descriptors in any order, and bytes that are reserved")
    rows = [("100000040002000400000e0130640202" + MAC_A.hex() + "0e01f001", f"vlan-notification mac={MAC_A.hex(':')} vlan=100 vlan=1")]
    rows.append((f"100000030002000a00000202{FORWARDER.hex()}04030909{big(0x1234).hex()}0b05{MAC_A.hex()}09010203{NAME_A.hex()}",
                 f"clear mac={FORWARDER.hex(':')} switch={big(0x1234).hex()} port={MAC_A.hex(':')},010203,{NAME_A.hex()}"))
    rows.append((f"100000010002000c80040c020901000001f405040909090efc01{big(0x5678).hex()}04030909{big(0x1234).hex()}0202{FORWARDER.hex()}0101097f",
                 "advertise solicited=no available=yes from-fcf=no fp=yes priority=127 "))
    rows.append((f"100000010001000680020601086e04030909{big(0x1234).hex()}0202{MAC_A.hex()}", f"solicit from-fcf=no fp=yes mac={MAC_A.hex(':')} node={big(0x1234).hex()} size=2158"))
    for digits, want in rows:
        cases.judged("fip", bytes.fromhex(digits), want)


def descriptors(cases: Cases) -> None:
    cases.test("examples.Descriptors", "keep alives with more descriptors: unknown, of a wrong length, twice, and missing")

    def alive(words: int, more: bytes, own: bytes = b"\2\2" + MAC_A) -> bytes:
        return bytes([0x10, 0, 0, 3, 0, 1, 0, words, 0, 0]) + own + more

    rows = [(alive(3, bytes([200, 1, 0, 0])), "keep-alive mac="), (alive(3, bytes([100, 1, 0, 0])), "error Critical { at: 18, kind: 100 }")]
    rows += [(alive(2, b"", b"\2\0" + MAC_A), "error DescLength { at: 10 }"), (alive(3, bytes([11, 5, 0, 0]) + bytes(16)), "error DescLength { at: 18 }")]
    rows += [(alive(4, bytes([200, 1, 0, 0])), "error ListLength"), (alive(4, b"\2\2" + MAC_A), "error Double { at: 18 }")]
    rows += [(alive(1, b"", bytes([200, 1, 0, 0])), "error Missing { kind: 2 }"), (alive(4, bytes([14, 1, 0, 1, 14, 1, 0, 2])), "keep-alive mac=")]
    for data, want in rows:
        cases.judged("fip", data, want)


def loads(cases: Cases) -> None:
    cases.test("made", "frames of the loads of `make 1`, `make 2` and `make 3`: of port 1 one of each kind, and of each port some data frames")
    kinds: set[str] = set()
    for number in (1, 2, 3):
        for _, port, index, frame in made_loads.load(number, made_loads.MOST):
            kind = made_loads.verdict_of(port, frame).split(" ")[0]
            if kind not in kinds or index >= made_loads.MOST - 2:
                kinds.add(kind)
                cases.case("frame " + frame.hex(), *("=" + line for line in judge.frame(frame)))


def examples(cases: Cases) -> None:
    cases.section("The worked examples that aren't printed as digits, and frames of `make`")
    for part in (fields, payloads, descriptors, loads):
        part(cases)
