"""FCP of an N_Port: an initiator's commands, and a target that answers them (FCP-4)."""
from __future__ import annotations

import struct
from dataclasses import dataclass
from typing import TYPE_CHECKING

from ..frames.heard import EOFN, EOFT, SOFI3, SOFN3, Fc
from . import speech
from .asking import Asked
from .speech import Head

if TYPE_CHECKING:
    from .nport import NPort

INITIATOR, TARGET = 0x22, 0x12  # functions in a PRLI
IS_TARGET = 0x10
UNDER = 0x08  # FCP_RESID_UNDER
ENDED = 4.0  # seconds that a command has
INQUIRY, WRITE = bytes([0x12, 0, 0, 0, 36, 0]), bytes([0x2A, 0, 0, 0, 0, 0, 0, 0, 8, 0])
WRITTEN = 4096
LARGEST = 2048  # of a data frame's payload
DATA, READY, COMMAND, RESPONSE = 0x01, 0x05, 0x06, 0x07  # R_CTL
SHORTEST = {READY: 8, COMMAND: 32}  # bytes of payload that are read
MOST_DATA = 1 << 20  # bytes that one command is answered with
FCP_TYPE = 0x08
MIDDLE, LAST = 0x000008, 0x090008  # F_CTL of an initiator's data frames: relative offset; end of sequence, initiative
BACK_DATA, BACK_LAST, BACK_READY, BACK_RESPONSE = 0x800008, 0x880008, 0x890000, 0x990000


@dataclass
class Writing:
    """A write that a target takes."""

    left: int


class Storage:
    """What an N_Port does in FCP."""

    def __init__(self, port: "NPort") -> None:
        self.port = port
        self.writing: dict[tuple[int, int], Writing] = {}
        self.turn = 0
        self.done = 0  # commands that ended well

    # ---- an initiator

    def begin(self, address: int, functions: int) -> None:
        """Commands begin at a target."""
        if functions & IS_TARGET and self.port.host.manner.every:
            self.next(address)

    def next(self, address: int) -> None:
        if address not in self.port.peers:
            return
        self.turn += 1
        payload = speech.storage_command(INQUIRY, 36, False) if self.turn % 2 else speech.storage_command(WRITE, WRITTEN, True)
        self.port.ask(Asked(address, FCP_TYPE, payload, lambda _: None, ENDED))
        self.port.host.timers.set(("command", self.port.name, address), self.port.host.manner.every, lambda: self.next(address))

    def forget(self, address: int) -> None:
        self.port.host.timers.drop(("command", self.port.name, address))
        for key in [it for it in self.writing if it[0] == address]:
            del self.writing[key]

    def end(self) -> None:
        for address in list(self.port.peers):
            self.forget(address)

    def take(self, fc: Fc) -> None:
        kind = fc.r_ctl & 0x0F
        if len(fc.payload) < SHORTEST.get(kind, 0):
            return  # cut: whoever sent it asks again
        if kind == COMMAND:
            self.take_command(fc)
        elif kind == DATA and (fc.s_id, fc.ox_id) in self.writing:
            self.take_data(fc)
        elif kind == READY and fc.ox_id in self.port.open:
            offset, length = struct.unpack(">II", fc.payload[:8])
            self.send_data(fc, offset, length)
        elif kind == RESPONSE and self.port.open.pop(fc.ox_id, None) is not None:
            self.port.host.timers.drop((self.port.name, fc.ox_id))
            self.done += 1

    def send_data(self, fc: Fc, offset: int, length: int) -> None:
        """The data that a target asks for, in frames that it takes."""
        peer = self.port.peers.get(fc.s_id)
        size = LARGEST if peer is None or self.port.host.has("receive-size") else min(LARGEST, peer.receive - peer.receive % 4)
        length = min(length, MOST_DATA, (1 << 32) - offset)
        places = range(offset, offset + length, max(size, 4))
        for count, at in enumerate(places):
            is_last = at + size >= offset + length
            head = Head(DATA, FCP_TYPE, LAST if is_last else MIDDLE, fc.ox_id, fc.rx_id, 1, count, at)
            edges = (SOFN3 if count else SOFI3, EOFT if is_last else EOFN)
            self.port.send(fc.s_id, head, bytes(min(size, offset + length - at)), edges)

    # ---- a target

    def take_command(self, fc: Fc) -> None:
        peer = self.port.peers.get(fc.s_id)
        if peer is None or not peer.is_logged_in:
            self.port.refuse(fc)
        elif fc.payload[11] & 0x01:
            self.writing[fc.s_id, fc.ox_id] = Writing(struct.unpack(">I", fc.payload[28:32])[0])
            payload = struct.pack(">III", 0, self.writing[fc.s_id, fc.ox_id].left, 0)
            self.port.send(fc.s_id, Head(READY, FCP_TYPE, BACK_READY, fc.ox_id, 1), payload)
        elif fc.payload[11] & 0x02:
            wanted = struct.unpack(">I", fc.payload[28:32])[0]
            size = min(wanted, LARGEST, peer.receive)
            self.port.send(fc.s_id, Head(DATA, FCP_TYPE, BACK_LAST, fc.ox_id, 1), bytes(size))
            self.respond(fc, wanted - size)
        else:
            self.respond(fc)

    def take_data(self, fc: Fc) -> None:
        held = self.writing[fc.s_id, fc.ox_id]
        held.left -= len(fc.payload)
        if held.left <= 0:
            del self.writing[fc.s_id, fc.ox_id]
            self.respond(fc)

    def respond(self, fc: Fc, left: int = 0) -> None:
        """FCP_RSP: good, with what wasn't sent of the data as residual."""
        payload = bytes(10) + bytes([UNDER if left else 0, 0]) + left.to_bytes(4, "big") + bytes(8)
        self.port.send(fc.s_id, Head(RESPONSE, FCP_TYPE, BACK_RESPONSE, fc.ox_id, 1, 1), payload)

    def abort(self, fc: Fc) -> None:
        self.writing.pop((fc.s_id, fc.ox_id), None)
