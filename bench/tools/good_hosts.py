"""Hosts in virtual time: those of tools/fcoe_host, with what the standards leave open drawn by lot (FC-BB-5, FC-FS-3, FC-LS-2, FC-GS-6, FCP-4)."""
import struct
from dataclasses import dataclass
from typing import Callable, Optional

from good_fabric import ACK, EOFN, EOFT, SOFI2, SOFI3, SOFN2, Cable, World

from fcoe.frames.heard import NAME_SERVER, TAG_TYPE, Fc, Heard, hear, number
from fcoe.host import speech
from fcoe.host.asking import Asked
from fcoe.host.enode import ENode, Manner
from fcoe.host.nport import NPort, Peer
from fcoe.host.speech import Head, Names, descriptor, three
from fcoe.host.storage import Storage
from fcoe.host.timers import Timers

BOTH = 0x32  # initiator and target, in a PRLI


@dataclass
class Choices:
    """What a host chooses, each as the standards allow."""

    static_vlan: int = 0  # asks for no VLAN
    request_tag: bool = False  # a tag with VLAN 0 and a priority on the VLAN request
    priority: int = 3
    pads: int = 60  # the shortest frame of the capture: 60, or none where it's taken before the port pads
    vendor: bool = False  # descriptors of a vendor's own
    solicits: int = 0x8000  # FP and SP
    proposes: bool = False  # the FLOGI with FP names the ENode's MAC, which says nothing
    priority_of_all: bool = False
    class2: str = ""  # "" none, "too" offered, "alone" without class 3
    credit: int = 0
    features: int = 0x8000
    receive: int = 2112
    largest: int = 2048
    ox_ids: str = "next"  # "next", "any", "least": which OX_ID is taken
    counts_on: bool = False  # SEQ_CNT goes on in a further sequence of an exchange
    rx_ids: bool = True  # a responder gives RX_IDs
    fixed_sequence: bool = False  # SEQ_ID 0 throughout
    els_seconds: float = 20.0
    ct_seconds: float = 20.0
    tells_late: float = 0.0  # seconds until an RSCN is accepted
    heeds: str = "GPN_FT"  # what follows an RSCN: GPN_FT, GPN_ID, ADISC, nothing
    beat: float = 1.0  # of the period
    crosses: bool = True
    functions: int = 0  # 0 as its role says
    bursts: int = 0  # bytes that a target asks for at once
    retries_rrq: bool = True
    acts: int = 0  # further things that it does
    registers_more: bool = False
    keeps_chosen: bool = False  # keeps alive the forwarder that it has just chosen


class VariedStorage(Storage):
    """FCP with several bursts, sizes, and outcomes."""

    port: "VariedPort"
    writing: "dict[tuple[int, int], Waiting]"  # type: ignore[assignment]

    def next(self, address: int) -> None:
        world, host = self.port.world, self.port.host
        if address not in self.port.peers:
            return
        size = world.random.choice([0, 4, 36, 512, 2048, 4096, 9000, 65536]) // 4 * 4
        kind = world.random.choice(["read", "write", "none", "manage"])
        flags = {"read": 0x02, "write": 0x01}.get(kind, 0) if size else 0
        cdb = {"read": b"\x28", "write": b"\x2a"}.get(kind, b"\0").ljust(16, b"\0")
        payload = bytes(8) + bytes([0, 0, 0x10 if kind == "manage" else 0, flags]) + cdb + struct.pack(">I", size if flags else 0)
        self.port.ask(Asked(address, 0x08, payload, lambda _: None, 4.0))
        host.timers.set(("command", self.port.name, address), host.manner.every * world.random.uniform(0.2, 2), lambda: self.next(address))

    def send_data(self, fc: Fc, offset: int, length: int) -> None:
        self.burst(fc, 0x000008, offset, length, is_back=False)

    def most_to(self, address: int) -> int:
        """Bytes of data in a frame."""
        peer = self.port.peers.get(address)
        return min(self.port.choices.largest, (peer.receive if peer else 256), 2112) // 4 * 4

    def burst(self, fc: Fc, bits: int, offset: int, length: int, is_back: bool) -> int:
        """A sequence of data, in frames that the other takes; the next SEQ_CNT."""
        most = self.most_to(fc.s_id)
        begin = self.port.count_of(fc) if self.port.choices.counts_on else 0
        sequence = self.port.next_sequence()
        for count, at in enumerate(range(offset, offset + length, most)):
            size = min(most, offset + length - at)
            f_ctl = bits | -size % 4 | (0 if at + size < offset + length else 0x080000 if is_back else 0x090000)
            head = Head(0x01, 0x08, f_ctl, fc.ox_id, fc.rx_id if not is_back else self.port.rx_id(fc), sequence, begin + count, at)
            self.port.send(fc.s_id, head, bytes(size + -size % 4), (SOFI3 if not count else 0x36, EOFT if at + size >= offset + length else EOFN))
            self.port.counts[self.port.key(fc)] = begin + count + 1
        return begin

    def take_command(self, fc: Fc) -> None:
        peer = self.port.peers.get(fc.s_id)
        if peer is None or not peer.is_logged_in:
            self.port.refuse(fc)
            return
        wanted, flags = number(fc.payload[28:32]), fc.payload[11] & 3
        self.port.counts.pop(self.port.key(fc), None)
        if self.port.world.chance(0.05):
            self.fail(fc, wanted if flags else 0)
        elif flags & 1:
            self.writing[fc.s_id, fc.ox_id] = made = Waiting(wanted)
            self.ready(fc, made)
        elif flags & 2:
            size = self.port.world.random.choice([wanted, wanted, min(wanted, 36)])
            if size:
                self.burst(fc, 0x800008, 0, size, is_back=True)
            self.respond(fc, wanted - size)
        else:
            self.respond(fc)

    def ready(self, fc: Fc, held: "Waiting") -> None:
        size = min(held.left, self.port.choices.bursts or held.left)
        held.asked = size
        head = Head(0x05, 0x08, 0x890000, fc.ox_id, self.port.rx_id(fc), self.port.next_sequence(), self.port.count_of(fc))
        self.port.send(fc.s_id, head, struct.pack(">III", held.offset, size, 0))

    def take_data(self, fc: Fc) -> None:
        held = self.writing[fc.s_id, fc.ox_id]
        size = len(fc.payload) - (fc.f_ctl & 3)
        held.left, held.offset, held.asked = held.left - size, held.offset + size, held.asked - size
        if held.left <= 0:
            del self.writing[fc.s_id, fc.ox_id]
            self.respond(fc)
        elif held.asked <= 0:
            self.ready(fc, held)

    def fail(self, fc: Fc, left: int) -> None:
        """CHECK CONDITION with sense data."""
        sense = bytes([0x70, 0, 6, 0, 0, 0, 10, 0, 0, 0, 0, 0x29, 0, 0, 0, 0, 0, 0])
        payload = bytes(10) + bytes([0x02 | (8 if left else 0), 2]) + struct.pack(">III", left, len(sense), 0) + sense
        self.answer(fc, payload)

    def respond(self, fc: Fc, left: int = 0) -> None:
        manages = fc.r_ctl == 0x06 and fc.payload[10]
        payload = bytes(10) + bytes([(1 if manages else 0) | (8 if left else 0), 0]) + struct.pack(">III", left, 0, 8 if manages else 0) + (bytes(8) if manages else b"")
        self.answer(fc, payload)

    def answer(self, fc: Fc, payload: bytes) -> None:
        fill = -len(payload) % 4
        head = Head(0x07, 0x08, 0x990000 | fill, fc.ox_id, self.port.rx_id(fc), self.port.next_sequence(), self.port.count_of(fc))
        self.port.send(fc.s_id, head, payload + bytes(fill))


class Waiting:
    """A write that a target takes in bursts."""

    def __init__(self, left: int) -> None:
        self.left, self.offset, self.asked = left, 0, 0


class VariedPort(NPort):
    """An N_Port with choices."""

    host: "VariedHost"
    world: World
    choices: Choices

    def __init__(self, host: "VariedHost", address: int, mac: bytes, names: tuple[bytes, bytes], command: int) -> None:
        super().__init__(host, address, mac, names, command)
        self.world, self.choices = host.world, host.choices
        self.storage = VariedStorage(self)
        self.counts: dict[tuple[int, int], int] = {}
        self.sequence = 0

    @property
    def functions(self) -> int:
        return self.choices.functions or super().functions

    def key(self, fc: Fc) -> tuple[int, int]:
        return fc.s_id, fc.ox_id

    def rx_id(self, fc: Fc) -> int:
        return (fc.ox_id * 7 + 3) & 0xFFFE if self.choices.rx_ids else 0xFFFF

    def count_of(self, fc: Fc) -> int:
        if not self.choices.counts_on:
            return 0
        found = self.counts.get(self.key(fc), 0)
        self.counts[self.key(fc)] = found + 1
        return found

    def next_sequence(self) -> int:
        if not self.choices.fixed_sequence:
            self.sequence = (self.sequence + 1) & 0xFF
        return self.sequence

    def send(self, to: int, head: Head, payload: bytes, edges: tuple[int, int] = (SOFI3, EOFT)) -> None:
        if self.choices.class2 == "alone":
            edges = (SOFN2 if edges[0] == 0x36 else SOFI2, EOFN)
        super().send(to, head, payload, edges)

    def ask(self, asked: Asked) -> int:
        asked.seconds = {0x01: self.choices.els_seconds, 0x20: self.choices.ct_seconds}.get(asked.kind, asked.seconds)
        return super().ask(asked)

    def reply(self, fc: Fc, payload: bytes) -> None:
        head = Head(0x23, 0x01, 0x990000 if self.choices.rx_ids else 0x980000, fc.ox_id, self.rx_id(fc))
        self.send(fc.s_id, head, payload)

    # ---- what comes

    def take(self, heard: Heard) -> None:
        fc = heard.fc
        if fc is not None and fc.r_ctl & 0xF0 == 0xC0:
            return
        if fc is not None and fc.d_id == self.address and heard.data[heard.at + 13] in (SOFI2, SOFN2):
            bits = 0x580000 if fc.f_ctl & 0x800000 else 0xD80000
            super().send(fc.s_id, Head(ACK, 0, bits & 0xC00000 | 0x180000 & 0x080000, fc.ox_id, fc.rx_id, fc.data[fc.at + 12], fc.seq_cnt, 1), b"", (SOFN2, EOFT))
        super().take(heard)

    def take_login(self, fc: Fc) -> bytes:
        """Both ends may log in at once: the one with the greater name goes on with its own."""
        own = next((ox_id for ox_id, it in self.open.items() if it.to == fc.s_id and it.kind == 0x01 and it.payload[0] == speech.PLOGI), None)
        if self.choices.crosses and own is not None:
            if self.name > fc.payload[20:28]:
                return speech.rejected(0x03, 0x29)
            return self.accepted(fc)
        if fc.s_id in self.peers:
            self.forget(fc.s_id)
        return self.accepted(fc)

    def accepted(self, fc: Fc) -> bytes:
        peer = self.peers.setdefault(fc.s_id, Peer(fc.s_id))
        peer.receive, peer.is_logged_in = max(256, number(fc.payload[74:76]) & 0xFFF), True
        return self.host.dressed_login(speech.login_payload(2, *self.names, receive=self.choices.receive), True)

    def entered(self, address: int, heard: Heard) -> None:
        peer = self.peers.get(address)
        if peer is not None and peer.is_logged_in and heard.kind == "LS_RJT":
            self.ask(Asked(address, 0x01, speech.process_login(speech.PRLI, self.functions), lambda it: self.process(address, it)))
            return  # the other's PLOGI was accepted
        super().entered(address, heard)

    def take_change(self, fc: Fc) -> Optional[bytes]:
        choices = self.choices
        if choices.tells_late:
            late = self.world.random.random() * choices.tells_late
            self.host.timers.set(("late", fc.ox_id), late, lambda: self.reply(fc, speech.accept()) if self in self.host.ports else None)
            return None
        if choices.heeds == "nothing":
            return speech.accept()
        if choices.heeds == "ADISC":
            for address, it in list(self.peers.items()):
                if it.is_logged_in:
                    self.ask(Asked(address, 0x01, speech.address_discovery(speech.ADISC, self.address, *self.names), lambda _: None, tries=9))
            return speech.accept()
        is_served = not any(it.to == NAME_SERVER and it.kind == 0x01 for it in self.open.values())  # its PLOGI there was answered
        if choices.heeds == "GPN_ID" and fc.payload[4] == 0 and is_served:
            self.ask(Asked(NAME_SERVER, 0x20, speech.ct(0x0112, b"\0" + fc.payload[5:8]), lambda _: None))
        return super().take_change(fc)

    def take_request(self, fc: Fc) -> None:
        answers: dict[int, Callable[[], Optional[bytes]]] = {
            0x50: lambda: self.host.dressed_login(speech.login_payload(2, *self.names, receive=self.choices.receive), True) if fc.s_id in self.peers else speech.rejected(3, 0x1E),
            0x0E: lambda: b"\2\0\0\0" + struct.pack(">III", 10000, 2000, 0),
            0x0F: lambda: b"\2\0\0\0" + bytes(24),
            0x21: self.take_process_logout,
            0x13: lambda: speech.rejected(0x03, 0x17),
            0x11: lambda: None,
        }
        found = answers.get(fc.payload[0] if fc.payload else -1)
        if found is None:
            super().take_request(fc)
            return
        payload = found()
        if payload is not None:
            self.reply(fc, payload)

    def take_process_logout(self) -> bytes:
        return bytes([2, 0x10, 0, 0x14, 8, 0, 0x01, 0]) + bytes(12)

    # ---- what it does beside

    def act(self) -> None:
        """One of the things that an N_Port may do at any time."""
        logged = [it for it, peer in self.peers.items() if peer.is_logged_in]
        if not logged:
            return
        address = self.world.random.choice(logged)
        self.asks_service(address, self.world.random.randrange(8))

    def services(self) -> list[bytes]:
        """Link services that may be asked at any time; nothing is LOGO."""
        return [
            speech.address_discovery(speech.ADISC, self.address, *self.names),
            self.host.dressed_login(speech.login_payload(0x50, *self.names, receive=self.choices.receive), True),
            bytes([0x0E, 0, 0, 0]),
            bytes([0x0F, 0, 0, 0, 0]) + three(self.address),
            bytes([0x10, 0, 0, 0]) + bytes(16),
            bytes([0x13, 0, 0, 0, 0]) + three(self.address) + struct.pack(">HH", 0x1234, 0xFFFF),
            bytes([0x11, 0, 0, 0]) + bytes(8),
            b"",
        ]

    def asks_service(self, address: int, which: int) -> None:
        content = self.services()[which]
        if not content:
            self.leave_peer(address)
        elif content[0] == 0x11:  # TEST has no answer
            self.send(address, Head(0x22, 0x01, 0x290000, self.host.next_ox_id()), content)
        else:
            self.ask(Asked(address, 0x01, content, lambda _: None, tries=9))

    def leave_peer(self, address: int) -> None:
        """LOGO, and a PLOGI later."""
        self.forget(address)
        self.ask(Asked(address, 0x01, speech.logout(self.address, self.name), lambda _: None, tries=9))
        self.host.timers.set(("again", self.name, address), self.world.random.uniform(1, 5), lambda: self.enter_again(address))

    def enter_again(self, address: int) -> None:
        if self in self.host.ports and address in self.knows and address not in self.peers:
            self.enter(address)

    def enter(self, address: int) -> None:
        self.forget(address)
        self.peers[address] = Peer(address)
        payload = self.host.dressed_login(speech.login_payload(speech.PLOGI, *self.names, receive=self.choices.receive), True)
        self.ask(Asked(address, 0x01, payload, lambda heard: self.entered(address, heard)))

    def start(self) -> None:
        payload = self.host.dressed_login(speech.login_payload(speech.PLOGI, *self.names), True)
        self.ask(Asked(NAME_SERVER, 0x01, payload, self.registers))

    def registers(self, heard: Heard) -> None:
        if self.choices.registers_more and heard.kind == "LS_ACC":
            symbol = b"a host of the bench"
            for command, data in (
                (0x0213, b"\0" + three(self.address) + self.names[1]),
                (0x0239, self.names[1] + bytes([len(symbol)]) + symbol),
                (0x0218, b"\0" + three(self.address) + bytes([len(symbol)]) + symbol),
            ):
                self.ask(Asked(NAME_SERVER, 0x20, speech.ct(command, data), lambda _: None))
        super().registers(heard)


class VariedHost(ENode):
    """A host with choices, in virtual time."""

    def __init__(self, world: World, cable: Cable, names: Names, manner: Manner, choices: Choices) -> None:
        super().__init__(names, manner, self.dress)
        self.world, self.cable, self.choices = world, cable, choices
        self.timers = Timers(lambda: world.now)
        self.port_type = VariedPort
        self.used: dict[int, float] = {}
        cable.host = self
        world.hosts.append(self)

    def dressed_login(self, payload: bytes, is_port: bool) -> bytes:
        """Classes, credit and features as chosen."""
        made, choices = bytearray(payload), self.choices
        made[6:8] = struct.pack(">H", choices.credit)
        if choices.class2:
            made[52:54] = b"\x88\x00" if not is_port else b"\x80\x00"
            made[58:60] = struct.pack(">H", choices.receive)
            made[60:62] = b"\0\xff"
            made[64:66] = b"\0\1"
        if choices.class2 == "alone":
            made[68:84] = bytes(16)
        made[8:10] = struct.pack(">H", number(made[8:10]) | (choices.features if is_port else 0))
        made[10:12] = struct.pack(">H", choices.receive)
        return bytes(made)

    def dress(self, frame: bytes) -> None:
        """The frame as this host sends it."""
        heard, choices = hear(frame), self.choices
        made = frame
        if heard.is_fip:
            made = self.dressed_fip(frame, heard)
        if made[12:14] == b"\x81\x00":
            made = made[:14] + struct.pack(">H", number(made[14:16]) & 0x0FFF | choices.priority << 13) + made[16:]
        elif heard.is_fip and choices.request_tag:
            made = made[:12] + struct.pack(">HH", TAG_TYPE, choices.priority << 13) + made[12:]
        least = choices.pads
        if not least and heard.is_fip:
            told = hear(made)
            made = made[: told.at + 10 + sum(len(it.data) for it in told.descriptors)]
        self.cable.from_host(made.ljust(least, b"\0"))

    def dressed_fip(self, frame: bytes, heard: Heard) -> bytes:
        """Flags, payloads and further descriptors of FIP as chosen."""
        choices, parts, flags = self.choices, [], heard.flags
        for it in heard.descriptors:
            data = it.data
            if it.kind in (7, 8):
                data = data[:28] + self.dressed_login(data[28:], False)
            elif it.kind == 2 and choices.proposes and heard.kind in ("FLOGI", "FDISC"):
                data = b"\2\2" + self.names.mac
            parts.append(data)
        if heard.kind == "Solicitation":
            flags = choices.solicits
        if choices.vendor and heard.kind in ("Solicitation", "VLAN request", "FLOGI"):
            parts.append(descriptor(0xF1, bytes(2) + b"bench.."[:4]))
        body = speech.fip(heard.operation or (0, 0), flags, *parts)
        return (frame[: heard.at] + body).ljust(60, b"\0")

    def next_ox_id(self) -> int:
        ways = self.choices.ox_ids
        open_now = {it for port in self.ports for it in port.open} | {it.ox_id for it in self.wishes}
        held = {it for it, since in self.used.items() if self.world.now - since < 60}
        if ways == "any":
            made = next(it for it in iter(lambda: self.world.random.randrange(0xFFFF), None) if it not in open_now | held)
        elif ways == "least":
            made = next(it for it in range(0xFFFF) if it not in open_now and not self.is_resting(it))
        else:
            made = super().next_ox_id()
        self.used[made] = self.world.now
        return made

    def is_resting(self, ox_id: int) -> bool:
        """An aborted exchange's OX_ID rests for R_A_TOV, or one whose answer isn't waited for."""
        return any((port.name, ox_id) in self.timers.calls for port in self.ports) or self.world.now - self.used.get(ox_id, -99) < 0.5

    def start(self) -> None:
        if self.choices.static_vlan:
            super().start()
            self.timers.drop("ask")
            self.stand.vlan = self.choices.static_vlan
            self.look()
        else:
            super().start()

    def ask(self) -> None:
        if not self.choices.static_vlan:
            super().ask()

    def keep_alive(self) -> None:
        super().keep_alive()
        if "keep alive" in self.timers.calls and self.stand.forwarder is not None:
            self.timers.set("keep alive", self.stand.forwarder.period * self.choices.beat * self.world.random.uniform(0.95, 1.0), self.keep_alive)


def drawn(world: World, vlan: int, has_class2: bool) -> Choices:
    """Choices by lot."""
    lot = world.random
    made = Choices()
    made.static_vlan = vlan if world.chance(0.15) else 0
    made.request_tag, made.priority, made.pads = world.chance(0.2), lot.choice([0, 3, 3, 4]), lot.choice([60, 60, 0])
    made.vendor, made.solicits, made.proposes = world.chance(0.15), lot.choice([0x8000, 0x8000, 0xC000]), world.chance(0.2)
    made.class2 = lot.choice(["", "too", "alone"]) if has_class2 else lot.choice(["", "", "too"])
    made.credit, made.features = lot.choice([0, 3, 10, 65535]), lot.choice([0x8000, 0x8800, 0x8002])
    made.receive, made.largest = lot.choice([256, 512, 1024, 2048, 2112]), lot.choice([256, 1024, 2048, 2112])
    made.ox_ids, made.counts_on = lot.choice(["next", "any", "least"]), world.chance(0.3)
    made.rx_ids, made.fixed_sequence = world.chance(0.6), world.chance(0.2)
    made.els_seconds, made.ct_seconds = lot.choice([20.0, 22.0, 24.0]), lot.choice([20.0, 22.0, 30.0])
    made.tells_late, made.heeds = lot.choice([0.0, 0.0, 1.5, 12.0]), lot.choice(["GPN_FT", "GPN_ID", "ADISC", "nothing"])
    made.beat, made.crosses = lot.choice([1.0, 0.9, 0.5]), world.chance(0.8)
    made.functions, made.bursts = lot.choice([0, 0, BOTH]), lot.choice([0, 2048, 4096, 16384])
    made.acts, made.registers_more = lot.choice([0, 2, 5, 12]), world.chance(0.5)
    return made
