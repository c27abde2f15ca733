"""Makes captures of logins that fail, of each kind one, frame by frame: for bench/tools/test_look_answers.py, and to try tools/look on."""
import pathlib
import sys
from dataclasses import dataclass, field
from typing import Callable

import wire
from machine import TOP
from wire import descriptor, mac_of, name_of

from fcoe.frames.captures import classic, write_classic as write_classic
from fcoe.frames.columns import Record
from fcoe.frames.heard import ALL_ENODES, ALL_FCFS, fc_check, hear

SWITCH, SWITCH_NAME = bytes.fromhex("00051e000002"), bytes.fromhex("100000051e000002")
FC_MAP, FALLBACK = b"\x0e\xfc\x00", bytes.fromhex("0efc00fffffe")
ALL_VN2VN = bytes.fromhex("011018010004")
START = 1_795_734_176 * 10**9
SECOND = 10**9
FIP, FCOE = b"\x89\x14", b"\x89\x06"


def fip(operation: int, subcode: int, *descriptors: bytes, flags: int = 0x8000) -> bytes:
    return wire.fip((operation, subcode), flags, descriptors)


def header(r_ctl: int, d_id: int, s_id: int, kind: int, ox_id: int, f_ctl: int = wire.REQUEST) -> bytes:
    """An FC header of one frame (FC-FS-3)."""
    return wire.Head(r_ctl, d_id, s_id, kind, f_ctl, ox_id).bytes()


def ct(command: int, reason: int = 0, explanation: int = 0) -> bytes:
    """The preamble of a CT_IU to the name server (FC-GS-6)."""
    return b"\x01\0\0\0\xfc\x02\0\0" + command.to_bytes(2, "big") + bytes([0, 0, 0, reason, explanation, 0])


def demo_login() -> bytes:
    """The payload of a Linux host's FLOGI."""
    heard = (hear(it.data) for it in classic(str(TOP / "demo" / "initiator.pcap")).records)
    found = next(it for it in heard if it.kind == "FLOGI" and it.fc)
    assert found.fc is not None
    return found.fc.payload


PAYLOAD = demo_login()


@dataclass
class Host:
    """A host, by its MAC and names."""

    number: int

    @property
    def mac(self) -> bytes:
        return bytes.fromhex("001b2100000a")[:5] + bytes([self.number])

    @property
    def name(self) -> bytes:
        return bytes.fromhex("2000001b21000000")[:7] + bytes([self.number])

    def login(self, command: int = 4, name: bytes = b"") -> bytes:
        """The payload of a FLOGI or FDISC."""
        own = name or self.name
        return bytes([command]) + PAYLOAD[1:20] + own + b"\x10" + own[1:] + PAYLOAD[36:]


@dataclass
class Wire:
    """What goes over a port, in both directions."""

    vlan: int = 100
    clock: int = START
    fc_map: bytes = FC_MAP  # the switch's
    records: list[Record] = field(default_factory=list)

    def wait(self, seconds: float) -> None:
        self.clock += int(seconds * SECOND)

    def send(self, source: bytes, destination: bytes, kind: bytes, body: bytes, vlan: int = -1) -> None:
        """A frame, a millisecond behind the one before; a VLAN of 0 is no tag."""
        vlan = self.vlan if vlan < 0 else vlan
        tag = b"\x81\x00" + vlan.to_bytes(2, "big") if vlan else b""
        self.clock += 1_000_000
        data = destination + source + tag + kind + body
        self.records.append(Record(self.clock, data, len(data), len(self.records) + 1))

    def ask(self, host: Host) -> None:
        self.send(host.mac, ALL_FCFS, FIP, fip(4, 1, mac_of(host.mac)), 0)

    def tell(self, host: Host, vlan: int = 100) -> None:
        self.send(SWITCH, host.mac, FIP, fip(4, 2, mac_of(SWITCH), descriptor(14, vlan.to_bytes(2, "big")), flags=0), 0)

    def solicit(self, host: Host, vlan: int = -1) -> None:
        self.send(host.mac, ALL_FCFS, FIP, fip(1, 1, mac_of(host.mac), name_of(b"\x10" + host.name[1:]), descriptor(6, b"\x08\x6e")), vlan)

    def advertise(self, to: bytes, flags: int = 0x8005, period: int = 8000, vlan: int = -1, by: bytes = SWITCH) -> None:
        """An advertisement, padded and solicited where it answers a host."""
        flags |= 0 if to == ALL_ENODES else 2
        name, priority = (SWITCH_NAME, b"\0\x80") if by == SWITCH else (b"\x10\0" + by, b"\0\xc8")
        fabric = descriptor(5, b"\0\0\0" + self.fc_map + name)
        body = fip(1, 2, descriptor(1, priority), mac_of(by), name_of(name), fabric, descriptor(12, b"\0\0" + period.to_bytes(4, "big")), flags=flags)
        self.send(by, to, FIP, body + (bytes(2158 - len(body)) if to != ALL_ENODES else b""), vlan)

    def clear(self, host: Host) -> None:
        """The switch clears the links of a host."""
        self.send(SWITCH, host.mac, FIP, fip(3, 2, mac_of(SWITCH), name_of(SWITCH_NAME), flags=0))

    def flogi(self, host: Host, ox_id: int, kind: int = 7, name: bytes = b"", size: int = 2112) -> None:
        said = host.login(4 if kind == 7 else 0x51, name)
        login = header(0x22, 0xFFFFFE, 0, 1, ox_id) + said[:10] + size.to_bytes(2, "big") + said[12:]
        self.send(host.mac, SWITCH, FIP, fip(2, 1, descriptor(kind, b"\0\0" + login), mac_of(bytes(6))))

    def accept(self, host: Host, ox_id: int, address: int, kind: int = 7) -> None:
        payload = b"\x02\0\0\0" + PAYLOAD[4:8] + b"\x30\0\x08\x40" + bytes.fromhex("00002710000007d0") + SWITCH_NAME * 2 + PAYLOAD[36:]
        reply = header(0x23, address, 0xFFFFFE, 1, ox_id, 0x990000) + payload
        self.send(SWITCH, host.mac, FIP, fip(2, 2, descriptor(kind, b"\0\0" + reply), mac_of(self.fc_map + address.to_bytes(3, "big"))))

    def reject(self, host: Host, ox_id: int, reason: int, explanation: int, kind: int = 7) -> None:
        reply = header(0x23, 0, 0xFFFFFE, 1, ox_id, 0x990000) + bytes([1, 0, 0, 0, 0, reason, explanation, 0])
        self.send(SWITCH, host.mac, FIP, fip(2, 2, descriptor(kind, b"\0\0" + reply)))

    def keep_alive(self, host: Host) -> None:
        self.send(host.mac, SWITCH, FIP, fip(3, 1, mac_of(host.mac), flags=0))

    def logout(self, host: Host, ox_id: int, address: int) -> None:
        login = header(0x22, 0xFFFFFE, address, 1, ox_id) + b"\5\0\0\0\0" + address.to_bytes(3, "big") + host.name
        self.send(host.mac, SWITCH, FIP, fip(2, 1, descriptor(9, b"\0\0" + login), mac_of(FC_MAP + address.to_bytes(3, "big"))))
        accept = header(0x23, address, 0xFFFFFE, 1, ox_id, 0x990000) + b"\2\0\0\0"
        self.send(SWITCH, host.mac, FIP, fip(2, 2, descriptor(9, b"\0\0" + accept)))

    def fcoe(self, source: bytes, destination: bytes, frame: bytes, vlan: int = -1) -> None:
        """An FC frame in FCoE, SOFi3 and EOFt."""
        self.send(source, destination, FCOE, bytes(13) + b"\x2e" + frame + fc_check(frame) + b"\x42\0\0\0", vlan)

    def fallback(self, host: Host, ox_id: int, vlan: int = -1) -> None:
        """A FLOGI in FCoE, as Linux sends it where FIP isn't answered."""
        self.fcoe(host.mac, FALLBACK, header(0x22, 0xFFFFFE, 0, 1, ox_id) + host.login(), vlan)

    def service(self, address: int, to: int, kind: int, ox_id: int, payload: bytes) -> None:
        """A request of a host to a service or to another host."""
        r_ctl = 0x02 if kind == 0x20 else 0x22
        self.fcoe(FC_MAP + address.to_bytes(3, "big"), SWITCH, header(r_ctl, to, address, kind, ox_id) + payload)

    def serve(self, address: int, kind: int, ox_id: int, payload: bytes, by: int = 0xFFFFFC) -> None:
        """The reply of the name server, or of another service."""
        r_ctl = 0x03 if kind == 0x20 else 0x23
        self.fcoe(SWITCH, FC_MAP + address.to_bytes(3, "big"), header(r_ctl, address, by, kind, ox_id, 0x990000) + payload)

    def register(self, host: Host, address: int) -> None:
        """PLOGI to the name server, and FCP as its type."""
        self.service(address, 0xFFFFFC, 1, 0x11, host.login(3))
        self.serve(address, 1, 0x11, b"\x02\0\0\0" + PAYLOAD[4:8] + b"\0\0\x08\x40" + bytes(8) + SWITCH_NAME * 2 + PAYLOAD[36:])
        self.service(address, 0xFFFFFC, 0x20, 0x12, ct(0x0217) + b"\0" + address.to_bytes(3, "big") + b"\0\0\1" + bytes(29))
        self.serve(address, 0x20, 0x12, ct(0x8002))

    def watch(self, address: int) -> None:
        """SCR: all state changes are told to it."""
        self.service(address, 0xFFFFFD, 1, 0x13, b"\x62\0\0\0\0\0\0\3")
        self.serve(address, 1, 0x13, b"\2\0\0\0", 0xFFFFFD)

    def discover(self, host: Host, period: int = 8000) -> None:
        """VLAN and switch are found."""
        self.ask(host)
        self.tell(host)
        self.wait(0.5)
        self.solicit(host)
        self.advertise(host.mac, period=period)

    def log_in(self, host: Host, ox_id: int, address: int, period: int = 8000) -> None:
        self.discover(host, period)
        self.wait(1)
        self.flogi(host, ox_id)
        self.accept(host, ox_id, address)

    def stay(self, host: Host, seconds: int, each: int = 8, period: int = 8000) -> None:
        """Keep alives and advertisements for so long."""
        for _ in range(seconds // each):
            self.wait(each)
            self.advertise(ALL_ENODES, period=period)
            self.keep_alive(host)

    def idle(self, seconds: int, each: int = 8, period: int = 8000) -> None:
        """Advertisements alone for so long."""
        for _ in range(seconds // each):
            self.wait(each)
            self.advertise(ALL_ENODES, period=period)


A, B = Host(0x0A), Host(0x0B)


def no_fip() -> list[Wire]:
    """Nobody answers FIP: VLAN requests, a solicitation, and Linux's FLOGIs in FCoE."""
    wire = Wire()
    wire.ask(A)
    wire.wait(2)
    wire.ask(A)
    wire.wait(1)
    wire.solicit(A)
    for number in range(16):
        wire.wait(2)
        wire.fallback(A, number + 1)
    return [wire]


def untagged() -> list[Wire]:
    wire = Wire(vlan=0)
    wire.ask(A)
    wire.wait(2)
    wire.solicit(A)
    for number in range(4):
        wire.wait(2)
        wire.fallback(A, number + 1)
    return [wire]


def vlan200() -> list[Wire]:
    """The host is in VLAN 200, the switch in 100."""
    wire = Wire()
    wire.ask(A)
    wire.tell(A)
    for number in range(3):
        wire.wait(2)
        wire.solicit(A, 200)
        wire.advertise(ALL_ENODES)
        wire.fallback(A, number + 1, 200)
    return [wire]


def vn2vn() -> list[Wire]:
    wire = Wire()
    own = descriptor(11, FC_MAP + b"\0\x12\x34" + b"\0\0\x12\x34" + A.name)
    for subcode in (1, 1, 3, 5, 5, 5, 5):
        wire.wait(1)
        wire.send(A.mac, ALL_VN2VN, FIP, fip(5, subcode, mac_of(A.mac), name_of(b"\x10" + A.name[1:]), own))
    return [wire]


def no_jumbo() -> list[Wire]:
    """The solicited advertisement is on the wire, and no FLOGI follows."""
    wire = Wire()
    for _ in range(4):
        wire.discover(A)
        wire.wait(8)
        wire.advertise(ALL_ENODES)
    return [wire]


def no_answer_padded() -> list[Wire]:
    """Advertisements to all come, the padded ones don't."""
    wire = Wire()
    wire.ask(A)
    wire.tell(A)
    for _ in range(3):
        wire.wait(4)
        wire.solicit(A)
        wire.advertise(ALL_ENODES)
    return [wire]


def limit() -> list[Wire]:
    """The switch takes one login, and rejects the second host's FLOGIs."""
    one, two = Wire(), Wire(clock=START + SECOND // 2)
    one.log_in(A, 1, 0x650100)
    one.stay(A, 40)
    two.discover(B)
    for number in range(12):
        two.wait(2)
        two.flogi(B, number + 1)
        two.reject(B, number + 1, 0x09, 0x29)
    return [one, two]


def name_held() -> list[Wire]:
    """A host moves to another port, and its login on the first still holds the name."""
    one, two = Wire(), Wire(clock=START + 12 * SECOND)
    one.log_in(A, 1, 0x650100)
    one.stay(A, 8)
    one.idle(24)
    moved = Host(0x1A)
    two.discover(moved)
    two.wait(1)
    two.flogi(moved, 1, name=A.name)
    two.reject(moved, 1, 0x03, 0x00)
    two.idle(8)
    return [one, two]


def name_elsewhere() -> list[Wire]:
    """The switch says that the name is held, and nobody here holds it."""
    wire = Wire()
    wire.discover(A)
    wire.wait(1)
    wire.flogi(A, 1)
    wire.reject(A, 1, 0x03, 0x00)
    wire.idle(8)
    return [wire]


def short_period() -> list[Wire]:
    """The switch wants a keep alive each 250 ms, the host sends one each 8 s."""
    wire = Wire()
    wire.log_in(A, 1, 0x010100, period=250)
    wire.stay(A, 24, period=250)
    return [wire]


def silence() -> list[Wire]:
    wire = Wire()
    wire.log_in(A, 1, 0x010100)
    wire.stay(A, 16)
    wire.idle(40)
    return [wire]


def relogin() -> list[Wire]:
    wire = Wire()
    wire.log_in(A, 1, 0x010100)
    for number in range(3):
        wire.stay(A, 16)
        wire.flogi(A, number + 2)
        wire.accept(A, number + 2, 0x010100)
    wire.stay(A, 16)
    return [wire]


def unheard() -> list[Wire]:
    """FLOGIs that the switch doesn't answer."""
    wire = Wire()
    wire.discover(A)
    for number in range(3):
        wire.wait(2)
        wire.flogi(A, number + 1)
        wire.advertise(ALL_ENODES)
    return [wire]


def not_available() -> list[Wire]:
    """The switch's advertisements lack the flag A."""
    wire = Wire()
    for _ in range(3):
        wire.wait(4)
        wire.solicit(A)
        wire.advertise(A.mac, flags=0x8001)
    wire.idle(8)
    return [wire]


def not_zoned() -> list[Wire]:
    """Two hosts log in and register; the name server lists neither to the other, and a PLOGI isn't sent on."""
    one, two = Wire(), Wire(clock=START + SECOND // 2)
    one.log_in(A, 1, 0x010100)
    two.log_in(B, 1, 0x010101)
    one.wait(1)
    two.wait(1)
    one.register(A, 0x010100)
    two.register(B, 0x010101)
    one.wait(3)
    one.service(0x010100, 0xFFFFFC, 0x20, 0x13, ct(0x0172) + b"\0\0\0\x08")
    one.serve(0x010100, 0x20, 0x13, ct(0x8002) + b"\x80\1\1\0" + bytes(4) + A.name)
    one.service(0x010100, 0x010101, 1, 0x14, A.login(3))
    two.wait(3)
    two.keep_alive(B)
    return [one, two]


def unused() -> list[Wire]:
    """Accepts that the host doesn't take: it asks again, and sends from no granted MAC."""
    wire = Wire()
    wire.discover(A)
    for number in range(6):
        wire.wait(2)
        wire.flogi(A, number + 1)
        wire.accept(A, number + 1, 0x650100)
    wire.idle(8)
    return [wire]


def busy() -> list[Wire]:
    """The switch rejects FDISCs, as it is busy."""
    wire = Wire()
    wire.log_in(A, 1, 0x650100)
    for number in range(5):
        wire.stay(A, 8)
        wire.flogi(A, number + 2, 8, Host(0x0C).name)
        wire.reject(A, number + 2, 0x05, 0x00, 8)
    wire.stay(A, 8)
    return [wire]


def watched() -> list[Wire]:
    """The switch rejects a host's FLOGIs as it is busy, while another watches for state changes."""
    one, two = Wire(), Wire(clock=START + 8 * SECOND)
    one.log_in(A, 1, 0x010100)
    one.register(A, 0x010100)
    one.watch(0x010100)
    one.stay(A, 48)
    two.discover(B)
    for number in range(3):
        two.wait(4)
        two.flogi(B, number + 1)
        two.reject(B, number + 1, 0x05, 0x00)
    two.idle(32)
    return [one, two]


def own_mac() -> list[Wire]:
    """The host is granted an FPMA, and sends from its ENode's MAC, as with SPMA."""
    wire = Wire()
    wire.log_in(A, 1, 0x650100)
    for number in range(5):
        wire.wait(2)
        wire.fcoe(A.mac, SWITCH, header(0x22, 0xFFFFFC, 0x650100, 1, 0x11 + number) + A.login(3))
    wire.stay(A, 16)
    return [wire]


def no_server() -> list[Wire]:
    """The name server answers no PLOGI, so the host logs out."""
    wire = Wire()
    wire.log_in(A, 1, 0x650100)
    for number in range(4):
        wire.wait(4)
        wire.service(0x650100, 0xFFFFFC, 1, 0x11 + number, A.login(3))
        wire.advertise(ALL_ENODES)
        wire.keep_alive(A)
    wire.logout(A, 0x30, 0x650100)
    return [wire]


def cloned() -> list[Wire]:
    """Two hosts on two ports have one port name, and the switch grants it to both."""
    one, two = Wire(), Wire(clock=START + 20 * SECOND)
    one.log_in(A, 1, 0x650100)
    one.register(A, 0x650100)
    one.stay(A, 40)
    clone = Host(0x1A)
    two.discover(clone)
    two.wait(1)
    two.flogi(clone, 1, name=A.name)
    two.accept(clone, 1, 0x660100)
    two.register(A, 0x660100)
    two.stay(clone, 24)
    return [one, two]


def sends_on() -> list[Wire]:
    """A host's keep alives stop, and its data goes on behind the end of its login."""
    one, two = Wire(), Wire(clock=START + SECOND // 2)
    one.log_in(A, 1, 0x650100)
    two.log_in(B, 1, 0x650101)
    one.stay(A, 8)
    two.stay(B, 56)
    for number in range(20):
        one.wait(2)
        one.service(0x650100, 0x650101, 8, 0x100 + number, bytes(32))
    return [one, two]


def other_map() -> list[Wire]:
    """The switch's FC-MAP is 0e:fc:05, and the host sends with 0e:fc:00."""
    wire = Wire(fc_map=b"\x0e\xfc\5")
    wire.discover(A)
    for turn in range(3):
        wire.wait(1)
        wire.flogi(A, turn + 1)
        wire.accept(A, turn + 1, 0x2A0100)
        for number in range(4):
            wire.service(0x2A0100, 0xFFFFFC, 1, 0x10 * turn + number, A.login(3))
            wire.wait(4)
            wire.keep_alive(A)
    return [wire]


def other_fabric() -> list[Wire]:
    """Two switches of two fabrics are in one VLAN, and the one that the host takes doesn't let it in."""
    wire, other = Wire(), bytes.fromhex("000dec000009")
    wire.ask(A)
    wire.tell(A)
    wire.solicit(A)
    for by in (other, SWITCH):
        wire.advertise(A.mac, by=by)
    for number in range(6):
        wire.wait(4)
        wire.flogi(A, number + 1)
        wire.reject(A, number + 1, 0x09, 0x0D)
        wire.advertise(ALL_ENODES, by=other)
    return [wire]


def lost_keep_alives() -> list[Wire]:
    """The host's keep alives don't reach the switch, which clears its links."""
    wire = Wire()
    wire.discover(A)
    for turn in range(3):
        wire.wait(1)
        wire.flogi(A, turn + 1)
        wire.accept(A, turn + 1, 0x010A00)
        wire.register(A, 0x010A00)
        wire.stay(A, 16)
        wire.wait(4)
        wire.clear(A)
    return [wire]


def receive_size() -> list[Wire]:
    """The host's Ethernet port has an MTU of 1,500, so its receive size is below 2,112, which the switch wants."""
    wire = Wire()
    wire.discover(A)
    for number in range(3):
        wire.wait(2)
        wire.flogi(A, number + 1, size=1424)
        wire.reject(A, number + 1, 0x03, 0x07)
    return [wire]


def virtual_limit() -> list[Wire]:
    """A host's virtual N_Ports beyond those that the switch takes on a port."""
    wire = Wire()
    wire.log_in(A, 1, 0x650100)
    for number in range(1, 5):
        wire.stay(A, 8)
        wire.flogi(A, number + 1, 8, Host(0x20 + number).name)
        if number < 4:
            wire.accept(A, number + 1, 0x650100 + number, 8)
        else:
            wire.reject(A, number + 1, 0x09, 0x29, 8)
    return [wire]


FAILURES: dict[str, Callable[[], list[Wire]]] = {
    it.__name__: it
    for it in (
        *(no_fip, untagged, vlan200, vn2vn, no_jumbo, no_answer_padded, limit, name_held, name_elsewhere, short_period, silence, relogin, unheard),
        *(not_available, not_zoned, unused, busy, watched, own_mac, no_server, cloned, sends_on, other_map, other_fabric, lost_keep_alives, receive_size),
        virtual_limit,
    )
}


def make_failures(folder: pathlib.Path) -> dict[str, list[str]]:
    """The captures of each kind, by its name."""
    found = {}
    for name, made in FAILURES.items():
        files = []
        for number, wire in enumerate(made(), 1):
            files.append(f"{name}{number}.pcap")
            write_classic(str(folder / files[-1]), wire.records)
        found[name] = files
    return found


if __name__ == "__main__":
    if len(sys.argv) != 2:
        raise SystemExit("words: look_failures.py FOLDER: makes the captures there")
    place = pathlib.Path(sys.argv[1])
    place.mkdir(exist_ok=True)
    for title, made_files in make_failures(place).items():
        print(title, *made_files)
