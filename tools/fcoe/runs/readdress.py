"""Addresses of a capture rewritten, in every field that holds one, with the granted MACs and the check sequences."""
import os
import zlib
from bisect import bisect_right
from dataclasses import replace
from itertools import accumulate
from typing import Callable, Iterator, Optional

from ..errors import Refused
from ..frames.captures import write_rows
from ..frames.columns import Record
from ..frames.fields import LISTED
from ..frames.heard import KEEP_ALIVE, LOGIN, LOGIN_REPLY, Fc, Heard, fc_check, granted_in, hear, is_login, login_names, number
from .configs import Config
from .inputs import Port, read_anew
from .pairs import Exchanges, Moment, in_order, replies_of

WELL_KNOWN = 0xFF0000
ELS_PLACES = {0x05: (5,), 0x52: (5, 25), 0x12: (5,), 0x13: (5,), 0x0F: (5,)}  # LOGO, ADISC, RRQ, REC, RLS
CT_FIRST = {0x0100, 0x0112, 0x0113, 0x0117, 0x011F, 0x0213, 0x0217, 0x0218, 0x021F, 0x0300}
HEADER = 9  # bytes of an FC header up to TYPE
Change = Callable[[int], int]
FcMaps = tuple[bytes, bytes]  # of the captures, and of the run


def payload_places(fc: Fc, asked: Optional[int], offset: int) -> Iterator[int]:
    """Where in a payload addresses stand."""
    payload, command = fc.payload, fc.command
    if fc.kind == 0x01 and fc.r_ctl == 0x22 and command == 0x61:
        yield from range(5, len(payload) - 2, 4)
    elif fc.kind == 0x01 and fc.r_ctl == 0x22 and command is not None:
        yield from ELS_PLACES.get(command, ())
    elif fc.kind == 0x01 and command == 0x02 and asked == 0x52:
        yield from ELS_PLACES[0x52]
    elif fc.kind == 0x20 and fc.r_ctl == 0x02 and command in CT_FIRST:
        yield 17
    elif fc.kind == 0x20 and fc.r_ctl == 0x03 and asked is not None and (offset or command == 0x8002):
        if asked in LISTED:
            size = LISTED[asked]
            first = 16 if offset == 0 else (-(offset - 16)) % size
            yield from range(first + 1, len(payload) - 2, size)
        elif asked in (0x0100, 0x0121) and offset == 0:
            yield 17


def address_places(heard: Heard, asked: Optional[int], offset: int) -> Iterator[int]:
    """Where in a frame addresses of three bytes stand."""
    fc = heard.fc
    if fc is not None:
        yield from (fc.at + 1, fc.at + 5)
        yield from (fc.payload_at + it for it in payload_places(fc, asked, offset) if it + 3 <= len(fc.payload))
    for it in heard.descriptors:
        if it.kind == 11 and len(it.data) >= 20:
            yield it.at + 9


def mac_places(heard: Heard) -> Iterator[int]:
    """Where in a frame MACs stand that may be granted ones."""
    yield from (0, 6)
    for it in heard.descriptors:
        if it.kind in (2, 11) and len(it.data) >= 8 and heard.operation in (LOGIN, LOGIN_REPLY, KEEP_ALIVE, (3, 2)):
            yield it.at + 2


def renamed(heard: Heard, change: Change, fc_maps: FcMaps, asked: Optional[int] = None, offset: int = 0) -> bytes:
    """The frame with other addresses; a wrong check sequence stays as wrong as it was."""
    data, fc = bytearray(heard.data), heard.fc
    if not heard.is_fabric:
        return heard.data
    for at in mac_places(heard):
        if data[at : at + 3] == fc_maps[0] and at + 6 <= len(data):
            data[at : at + 6] = fc_maps[1] + change(number(bytes(data[at + 3 : at + 6]))).to_bytes(3, "big")
    for at in address_places(heard, asked, offset):
        data[at : at + 3] = change(number(bytes(data[at : at + 3]))).to_bytes(3, "big")
    if heard.is_fcoe and fc is not None:
        old, new = fc_check(heard.data[fc.at : fc.end]), fc_check(bytes(data[fc.at : fc.end]))
        wrong = bytes(a ^ b for a, b in zip(heard.data[fc.end : fc.end + 4], old))
        data[fc.end : fc.end + 4] = bytes(a ^ b for a, b in zip(wrong, new))
    return bytes(data)


def is_whole(record: Record) -> bool:
    return record.length == len(record.data)


# ---- from the switch's grants to those of a run

Request = tuple[int, int]  # port, place in its records


def said_of_names(port: Port) -> dict[bytes, list[tuple[int, Optional[int]]]]:
    """Where each port name shows itself in a port's messages, and under which address; none where it logs in."""
    found: dict[bytes, list[tuple[int, Optional[int]]]] = {}
    for at in port.host_messages:
        heard = port.frames.heard(at)
        names = login_names(heard)
        vx = heard.descriptor(11)
        if is_login(heard) and names:
            found.setdefault(names[0], []).append((at, None))
        elif heard.operation == KEEP_ALIVE and vx:
            found.setdefault(vx.data[12:20], []).append((at, number(vx.data[9:12])))
        elif names and heard.kind in ("PLOGI", "LS_ACC") and heard.is_fcoe and heard.fc and len(heard.fc.payload) >= 116:
            found.setdefault(names[0], []).append((at, heard.fc.s_id))
    return found


def told_by(said: list[tuple[int, Optional[int]]], begin: int) -> Optional[int]:
    """The address under which a port name shows itself behind a place, before it logs in again."""
    place = bisect_right(said, begin, key=lambda it: it[0])
    return said[place][1] if place < len(said) else None


def grants_seen(ports: list[Port], mac: bytes) -> dict[Request, int]:
    """The address that the switch granted to each login request: from its accept, or else from what the host sends later."""
    seen: dict[Request, int] = {}
    for port in ports:
        replies, said = replies_of(port, mac), said_of_names(port)
        for at in port.host_messages:
            heard = port.frames.heard(at)
            names = login_names(heard) if is_login(heard) else None
            if names is None:
                continue
            if at in replies:
                address = granted_in(port.frames.heard(replies[at]))
            else:
                address = told_by(said[names[0]], at) if heard.destination == mac else None
            if address is not None:
                seen[(port.number, at)] = address
    return seen


class Mapping:
    """Addresses of the switch to those of the run, as time goes on."""

    def __init__(self, config: Config, grants: dict[Request, tuple[int, Optional[int]]], used: set[int]) -> None:
        self.config, self.grants = config, grants
        self.now: dict[int, int] = {}
        self.history: dict[int, list[tuple[Moment, int]]] = {}  # of an address: from when on it is which
        self.strangers: dict[int, int] = {}
        self.free_domain = next(it for it in range(0xEE, 0, -1) if it != config.domain and it not in used)

    def stranger(self, address: int) -> int:
        """Whom no run granted an address must not have one that it grants to somebody else."""
        return (self.free_domain << 16) + (address & 0xFFFF) if self.config.in_pool(address) else address

    def of(self, address: int) -> int:
        """What an address is now."""
        return self.found(address, self.now.get(address))

    def found(self, address: int, known: Optional[int]) -> int:
        if address >= WELL_KNOWN or address == 0:
            return address
        if known is not None:
            return known
        moved = self.stranger(address)
        if moved != address:
            self.strangers[address] = moved
        return moved

    def at(self, address: int, moment: Moment) -> int:
        """What an address was at a moment."""
        own = self.history.get(address, [])
        place = bisect_right(own, moment, key=lambda it: it[0])
        return self.found(address, own[place - 1][1] if place else None)

    def is_kept(self, address: int, moment: Moment) -> bool:
        """From this moment on an address is what it was in the capture."""
        own = self.history.get(address)
        if address >= WELL_KNOWN or address == 0 or not own:
            return self.stranger(address) == address or address >= WELL_KNOWN
        return own[0][0] < moment and all(value == address for _, value in own)

    def put(self, address: int, value: int, moment: Moment) -> None:
        self.now[address] = value
        self.history.setdefault(address, []).append((moment, value))

    def pass_by(self, request: Request, moment: Moment) -> None:
        """From this login on its address is the run's."""
        if request not in self.grants:
            return
        old, new = self.grants[request]
        for other in [it for it, value in self.now.items() if value == new]:
            self.put(other, self.stranger(other), moment)
        self.put(old, self.stranger(old) if new is None else new, moment)


def domains_of(ports: list[Port]) -> set[int]:
    return {address >> 16 for port in ports for it in port.frames.telling() if it.fc for address in (it.fc.s_id, it.fc.d_id)}


class MovedFlow:
    """How data frames that are alike change as time goes on: what stands before their payload, and the check sequence."""

    def __init__(self, heard: Heard, mapping: Mapping, fc_maps: FcMaps) -> None:
        self.heard, self.mapping, self.fc_maps = heard, mapping, fc_maps
        self.moments = sorted({moment for it in addresses_in(heard, fc_maps[0]) for moment, _ in mapping.history.get(it, [])})
        self.fronts: dict[int, bytes] = {}
        self.deltas: dict[tuple[int, int], int] = {}
        self.begin = heard.fc.at if heard.fc else len(heard.data)
        self.old = heard.data[: self.begin + HEADER]

    def front(self, epoch: int, moment: Moment) -> bytes:
        if epoch not in self.fronts:
            self.fronts[epoch] = renamed(self.heard, lambda it: self.mapping.at(it, moment), self.fc_maps)[: len(self.old)]
        return self.fronts[epoch]

    def delta(self, epoch: int, front: bytes, size: int) -> int:
        """By which the check sequence of a frame of this size changes: it is linear."""
        if (epoch, size) not in self.deltas:
            rest = bytes(size - 8 - len(self.old))
            self.deltas[epoch, size] = zlib.crc32(self.old[self.begin :] + rest) ^ zlib.crc32(front[self.begin :] + rest)
        return self.deltas[epoch, size]

    def moved(self, data: bytes, moment: Moment) -> bytes:
        """A frame with the addresses of this moment; a wrong check sequence stays as wrong as it was."""
        epoch = bisect_right(self.moments, moment)
        front = self.front(epoch, moment)
        if front == self.old:
            return data
        end = len(data) - 8
        if self.heard.fc is None or end < len(front):
            return front + data[len(front) :]
        check = int.from_bytes(data[end : end + 4], "little") ^ self.delta(epoch, front, len(data))
        return front + data[len(front) : end] + check.to_bytes(4, "little") + data[end + 4 :]


def addresses_in(heard: Heard, fc_map: bytes) -> set[int]:
    """The addresses of a data frame: in its header and in granted MACs."""
    found = {number(mac[3:]) for mac in (heard.destination, heard.source) if mac[:3] == fc_map}
    return found | ({heard.fc.s_id, heard.fc.d_id} if heard.fc else set())


def moved_messages(ports: list[Port], mapping: Mapping, fc_maps: FcMaps) -> dict[int, dict[int, bytes]]:
    """The messages of each port that change, by their places."""
    exchanges = Exchanges()
    found: dict[int, dict[int, bytes]] = {port.number: {} for port in ports}
    for moment, port, at in in_order(ports):
        heard = port.frames.heard(at)
        mapping.pass_by((port.number, at), moment)
        asked, offset = exchanges.hear(heard.fc) if heard.is_fcoe and heard.fc else (None, 0)
        if port.frames.is_whole(at):
            data = renamed(heard, mapping.of, fc_maps, asked, offset)
            if data != heard.data:
                found[port.number][at] = data
    return found


def moved_flows(port: Port, mapping: Mapping, fc_maps: FcMaps) -> list[Optional[MovedFlow]]:
    """How the data frames of each flow change; none where they stay."""
    frames = port.frames
    first = {flow: at for at, flow in zip(range(len(frames) - 1, -1, -1), reversed(frames.flow_of))}
    found: list[Optional[MovedFlow]] = []
    for place, it in enumerate(frames.flows):
        begin = (frames.moments[first[place]], port.number, first[place]) if place in first else None
        is_kept = begin is None or it.is_message or not it.heard.is_fabric
        if not is_kept and begin is not None:
            is_kept = fc_maps[0] == fc_maps[1] and all(mapping.is_kept(address, begin) for address in addresses_in(it.heard, fc_maps[0]))
        found.append(None if is_kept else MovedFlow(it.heard, mapping, fc_maps))
    return found


def moved_frames(port: Port, messages: dict[int, bytes], flows: list[Optional[MovedFlow]]) -> Iterator[bytes]:
    """The frames of a port with other addresses."""
    frames, take = port.frames, port.frames.source.take
    latest: Iterator[int] = accumulate(frames.moments, max)
    columns = zip(frames.flow_of, latest, frames.places, frames.sizes, frames.lengths)
    for at, (flow, greatest, place, size, length) in enumerate(columns):
        moving = flows[flow]
        if moving is not None and size == length:
            yield moving.moved(take(place, size), (greatest, port.number, at))
        else:
            yield messages.get(at) or take(place, size)


def moved_port(port: Port, messages: dict[int, bytes], flows: list[Optional[MovedFlow]], room: str) -> Port:
    """A port with other addresses, where any of its frames changes."""
    if not messages and not any(flows):
        return port
    name = os.path.join(room, f"moved{len(os.listdir(room))}")
    write_rows(name, zip(port.frames.moments, port.frames.lengths, moved_frames(port, messages, flows)))
    return replace(port, frames=read_anew(port.frames, name))


def readdressed(ports: list[Port], config: Config, grants: dict[Request, tuple[int, Optional[int]]], fc_map: bytes, room: str) -> tuple[list[Port], dict[int, int]]:
    """The ports with the switch's addresses rewritten to those of a run, in both directions; and which were moved out of the run's way."""
    mapping, fc_maps = Mapping(config, grants, domains_of(ports)), (fc_map, config.fc_map)
    messages = moved_messages(ports, mapping, fc_maps)
    made = [moved_port(port, messages[port.number], moved_flows(port, mapping, fc_maps), room) for port in ports]
    return made, mapping.strangers


# ---- by pairs of words


def pairs_of(words: list[str]) -> tuple[Change, dict[bytes, bytes]]:
    """What OLD=NEW pairs change: addresses of six digits, domains of two, and MACs."""
    whole: dict[int, int] = {}
    domains: dict[int, int] = {}
    macs: dict[bytes, bytes] = {}
    for word in words:
        old, _, new = word.partition("=")
        try:
            a, b = bytes.fromhex(old.replace(":", "")), bytes.fromhex(new.replace(":", ""))
        except ValueError:
            a, b = b"", b"-"
        if len(a) != len(b) or len(a) not in (1, 3, 6):
            raise Refused(f"{word}: wants OLD=NEW with addresses (010100=650040), domains (01=65) or MACs")
        if len(a) == 6:
            macs[a] = b
        elif len(a) == 3:
            whole[number(a)] = number(b)
        else:
            domains[a[0]] = b[0]

    def change(address: int) -> int:
        if address >= WELL_KNOWN:
            return address
        return whole.get(address, (domains.get(address >> 16, address >> 16) << 16) + (address & 0xFFFF))

    return change, macs


def with_macs(data: bytes, macs: dict[bytes, bytes]) -> bytes:
    """The frame with other MACs, in its head and in FIP's descriptors."""
    heard, made = hear(data), bytearray(data)
    for at in [0, 6, *(it.at + 2 for it in heard.descriptors if it.kind == 2)]:
        made[at : at + 6] = macs.get(bytes(made[at : at + 6]), bytes(made[at : at + 6]))
    return bytes(made)
