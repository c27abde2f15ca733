"""Makes a folder of small captures, as people have them, from the demo and from `make`: for bench/tools/test_look.py, and to try tools/look on."""
import gzip
import pathlib
import struct
import subprocess
import sys
from typing import Callable, Optional

from machine import TOP

from fcoe.frames.captures import classic, write_classic
from fcoe.frames.columns import Record
from fcoe.frames.heard import Heard, fc_check, hear

DEMO = TOP / "demo"
PAIR = [str(DEMO / "initiator.pcap"), str(DEMO / "target.pcap")]
SWITCH = bytes.fromhex("00051e000002")
Edit = Callable[[list[Record]], list[Record]]


def call(words: list[str], folder: pathlib.Path) -> str:
    ran = subprocess.run(words, cwd=folder, capture_output=True, text=True, check=False)
    if ran.returncode:
        raise SystemExit(f"{' '.join(words)}: {ran.stdout}{ran.stderr}")
    return ran.stdout


def with_link(name: pathlib.Path, link: int, out: pathlib.Path) -> None:
    """The same bytes under another link type."""
    data = bytearray(name.read_bytes())
    struct.pack_into("<I", data, 20, link)
    out.write_bytes(bytes(data))


def untagged(record: Record) -> Record:
    """As a VLAN interface gives it."""
    if record.data[12:14] != b"\x81\x00":
        return record
    return Record(record.moment, record.data[:12] + record.data[16:], record.length - 4, record.number)


def big_endian(name: pathlib.Path, out: pathlib.Path) -> None:
    """The same capture in the other byte order, in microseconds."""
    with open(out, "wb") as file:
        file.write(struct.pack(">IHHiIII", 0xA1B2C3D4, 2, 4, 0, 0, 65535, 1))
        for it in classic(str(name)).records:
            file.write(struct.pack(">IIII", it.moment // 10**9, it.moment % 10**9 // 1000, len(it.data), it.length) + it.data)


def changed(record: Record, at: int, new: bytes) -> Record:
    """A record with other bytes at a place, and the check sequence that FCoE then has."""
    data = bytearray(record.data)
    data[at : at + len(new)] = new
    heard = hear(bytes(data))
    if heard.is_fcoe and heard.fc:
        data[heard.fc.end : heard.fc.end + 4] = fc_check(bytes(data[heard.fc.at : heard.fc.end]))
    return Record(record.moment, bytes(data), record.length, record.number)


def first_like(records: list[Record], fits: Callable[[Heard], bool]) -> int:
    """The first frame of the switch that is like this."""
    return next(at for at, it in enumerate(records) if it.data[6:12] == SWITCH and fits(hear(it.data)))


def with_new(fits: Callable[[Heard], bool], place: Callable[[Heard], int], new: bytes) -> Edit:
    def edit(records: list[Record]) -> list[Record]:
        at = first_like(records, fits)
        return [*records[:at], changed(records[at], place(hear(records[at].data)), new), *records[at + 1 :]]

    return edit


def without(fits: Callable[[Heard], bool]) -> Edit:
    def edit(records: list[Record]) -> list[Record]:
        at = first_like(records, fits)
        return records[:at] + records[at + 1 :]

    return edit


def twice(fits: Callable[[Heard], bool]) -> Edit:
    def edit(records: list[Record]) -> list[Record]:
        at = first_like(records, fits)
        return records[: at + 1] + records[at:]

    return edit


def kind(word: str) -> Callable[[Heard], bool]:
    return lambda it: it.kind == word


def payload(offset: int) -> Callable[[Heard], int]:
    return lambda it: it.fc.payload_at + offset if it.fc else 0


def descriptor(number: int, offset: int) -> Callable[[Heard], int]:
    def place(heard: Heard) -> int:
        found = heard.descriptor(number)
        assert found is not None
        return found.at + offset

    return place


def is_list(heard: Heard) -> bool:
    """An answer to GPN_FT."""
    return heard.kind == "CT accept" and heard.fc is not None and len(heard.fc.payload) >= 32 and heard.fc.payload[16] in (0, 0x80)


def broken(records: list[Record]) -> list[Record]:
    """A reply whose check sequence is wrong."""
    at = first_like(records, kind("LS_ACC"))
    data = bytearray(records[at].data)
    data[-8] ^= 1
    return [*records[:at], Record(records[at].moment, bytes(data), len(data), at), *records[at + 1 :]]


# what was put in by hand, a difference of each kind: the edit of the switch's frames, and what `look compare` must say
EDITS: dict[str, tuple[Edit, str, str]] = {
    "features": (with_new(kind("FLOGI accept"), payload(8), b"\x10\x02"), "FLOGI", "features"),
    "r_a_tov": (with_new(kind("FLOGI accept"), payload(12), b"\0\0\x4e\x20"), "FLOGI", "R_A_TOV"),
    "e_d_tov": (with_new(kind("FLOGI accept"), payload(16), b"\0\0\x03\xe8"), "FLOGI", "E_D_TOV"),
    "class_3": (with_new(kind("FLOGI accept"), payload(68), b"\0\0"), "FLOGI", "class 3"),
    "receive_size": (with_new(kind("LS_ACC"), payload(10), b"\x04\0"), "PLOGI", "receive size"),
    "reason": (with_new(kind("LS_RJT"), payload(5), b"\x03"), "ECHO", "reason"),
    "ct_reason": (with_new(kind("CT reject"), payload(14), b"\x05"), "CT", "explanation"),
    "name_answer": (with_new(is_list, payload(17), b"\x01\x01\x77"), "GPN_FT", "N_Ports"),
    "rscn_missing": (without(kind("RSCN")), "RSCN to", "RSCN"),
    "rscn_twice": (twice(kind("RSCN")), "RSCN to", "RSCN"),
    "no_answer": (without(kind("CT accept")), "RNN_ID", "answer"),
    "priority": (with_new(lambda it: it.kind == "Advertisement" and it.destination[0] == 1, descriptor(1, 3), b"\x07"), "Advertisement to all", "FIP priority"),
    "d_bit": (with_new(lambda it: it.kind == "Advertisement" and it.destination[0] == 1, descriptor(12, 3), b"\x01"), "Advertisement to all", "FKA D bit"),
    "fc_map": (with_new(lambda it: it.kind == "Advertisement" and it.destination[0] == 0, descriptor(5, 5), b"\x0e\xfc\x07"), "Solicitation", "FC-MAP"),
    "solicited_flag": (with_new(lambda it: it.kind == "Advertisement" and it.destination[0] == 0, lambda it: it.at + 8, b"\x80\x05"), "Solicitation", "FIP flags"),
    "vlan": (with_new(kind("VLAN notification"), descriptor(14, 2), b"\0\xc8"), "VLAN request", "VLAN"),
    "granted_mac": (with_new(kind("FLOGI accept"), descriptor(2, 2), b"\x0e\xfc\x01"), "FLOGI", "FIP MAC"),
    "check_sequence": (broken, "PLOGI", "check sequence"),
    "not_forwarded": (without(lambda it: it.kind == "FCP_CMND"), "FCP_CMND", "forwarding"),
}


def both_ways(folder: pathlib.Path, look: list[str]) -> None:
    """The demo as a capture in both directions: each port's, and all in one file."""
    for port in (1, 2):
        call([*look, "merge", "--quiet", "--port", str(port), f"both{port}.pcapng", *PAIR], folder)
    call([*look, "merge", "--quiet", "--together", "one.pcapng", *PAIR], folder)
    call(["editcap", "-F", "nsecpcap", "one.pcapng", "one.pcap"], folder)


def forms(folder: pathlib.Path) -> None:
    """Other forms of the same captures."""
    one = classic(str(folder / "one.pcap")).records
    initiator = DEMO / "initiator.pcap"
    for name in ("one.pcap", "one.pcapng"):
        (folder / f"{name}.gz").write_bytes(gzip.compress((folder / name).read_bytes(), 6, mtime=0))
    write_classic(str(folder / "vlan_interface.pcap"), [untagged(it) for it in one])
    with_link(initiator, 113, folder / "any.pcap")
    with_link(initiator, 276, folder / "any2.pcap")
    big_endian(initiator, folder / "big_endian.pcap")
    call(["mergecap", "-I", "none", "-w", "two_interfaces.pcapng", str(initiator), str(DEMO / "target.pcap")], folder)
    call(["mergecap", "-I", "none", "-w", "one_way_interfaces.pcapng", "host.pcap", "switch.pcap"], folder)
    whole = (folder / "one.pcap").read_bytes()
    (folder / "cut.pcap").write_bytes(whole[:-7])
    (folder / "cut_head.pcap").write_bytes(whole[:20])
    whole = (folder / "one.pcapng").read_bytes()
    (folder / "cut.pcapng").write_bytes(whole[: len(whole) * 3 // 4])
    call(["editcap", "-F", "pcap", "-s", "60", str(initiator), "snap.pcap"], folder)
    back = classic(str(initiator)).records
    back[40], back[41] = back[41], back[40]
    write_classic(str(folder / "back.pcap"), back)


def odd(folder: pathlib.Path) -> None:
    """What is no capture, or not enough of one."""
    (folder / "empty.pcap").write_bytes(b"")
    (folder / "text.pcap").write_text("no capture\n", encoding="ascii")
    (folder / "packed.pcap").write_bytes(b"\x28\xb5\x2f\xfd\0\0\0\0")
    (folder / "folder.pcap").mkdir()
    noise = [it for it in classic(str(DEMO / "initiator.pcap")).records if it.data[12:14] == b"\x86\xdd"]
    write_classic(str(folder / "noise.pcap"), noise)


def directions(folder: pathlib.Path) -> None:
    """One direction of the first port alone."""
    call(["editcap", "-F", "nsecpcap", "both1.pcapng", "both1.pcap"], folder)
    both = classic(str(folder / "both1.pcap")).records
    write_classic(str(folder / "host.pcap"), [it for it in both if it.data[6:12] != SWITCH])
    write_classic(str(folder / "switch.pcap"), [it for it in both if it.data[6:12] == SWITCH])


def silent(folder: pathlib.Path) -> None:
    """A host that stops its keep alives after a while, and goes on with nothing but noise; the switch doesn't mind."""
    both = classic(str(folder / "both1.pcap")).records
    stop = both[0].moment + 40 * 10**9
    write_classic(str(folder / "silent.pcap"), [it for it in both if it.moment < stop or it.data[6:12] == SWITCH or it.data[12:14] == b"\x86\xdd"])


def two_forwarders(folder: pathlib.Path) -> None:
    """A second forwarder on the wire, which advertises itself with a worse priority, in front of each advertisement of the first."""
    other, both = bytes.fromhex("000dec000009"), []
    for record in classic(str(folder / "one.pcap")).records:
        heard = hear(record.data)
        if heard.kind == "Advertisement":
            data = bytearray(record.data)
            data[6:12] = other
            for number, at, new in ((1, 3, b"\xc8"), (2, 2, other), (4, 6, other), (5, 10, other)):
                place = descriptor(number, at)(heard)
                data[place : place + len(new)] = new
            both.append(Record(record.moment, bytes(data), len(data), 0))
        both.append(record)
    write_classic(str(folder / "two_forwarders.pcap"), both)


def late(folder: pathlib.Path) -> None:
    """A capture that began behind the logins."""
    one = classic(str(folder / "one.pcap")).records
    begin = next(at for at, it in enumerate(one) if hear(it.data).kind == "FCP_CMND")
    end = next(at for at, it in enumerate(one) if at > begin and hear(it.data).kind == "FDISC")
    write_classic(str(folder / "late.pcap"), one[begin:end])


def other_switches(folder: pathlib.Path) -> None:
    """Another switch's addresses: of another domain, and such as this forwarder grants to others."""
    tool = str(TOP / "tools" / "readdress")
    call([tool, "one.pcap", "domain101.pcap", "01=65"], folder)
    call([tool, "one.pcap", "area7f.pcap", "010100=017f00", "010101=017f01", "010102=017f22"], folder)
    call([tool, "one.pcap", "exchanged.pcap", "010100=010101", "010101=010102", "010102=010100"], folder)
    call([tool, "one.pcap", "other_mac.pcap", "00:05:1e:00:00:02=00:0d:ec:12:34:56", "01=65"], folder)
    for name in ("initiator", "target"):
        call([tool, str(DEMO / f"{name}.pcap"), f"{name}101.pcap", "010100=650040", "010101=650041", "010102=6500ef"], folder)


def make_all(folder: pathlib.Path, look: list[str], program: Optional[str]) -> None:
    """All captures of the folder."""
    both_ways(folder, look)
    directions(folder)
    silent(folder)
    two_forwarders(folder)
    late(folder)
    forms(folder)
    odd(folder)
    other_switches(folder)
    one = classic(str(folder / "one.pcap")).records
    for name, row in EDITS.items():
        edit: Edit = row[0]
        write_classic(str(folder / f"edit_{name}.pcap"), edit(one))
    if program is not None:
        call([program, "make", "1", "make.conf", *(f"make{it}.pcap" for it in range(1, 9))], folder)


if __name__ == "__main__":
    if len(sys.argv) != 3:
        raise SystemExit("words: look_captures.py FOLDER PROGRAM: makes the captures there; FOLDER is empty")
    made = pathlib.Path(sys.argv[1])
    made.mkdir(exist_ok=True)
    make_all(made, [str(TOP / "tools" / "look"), "--program", sys.argv[2]], sys.argv[2])
    print(f"{len(list(made.iterdir()))} files in {made}")
