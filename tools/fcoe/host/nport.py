"""An N_Port: its exchanges, the services that it uses, and the N_Ports that it logs in at (FC-FS-3, FC-LS-2, FC-GS-6)."""
from __future__ import annotations

from dataclasses import dataclass
from typing import TYPE_CHECKING, Callable, Optional

from ..frames.heard import BLS, CONTROLLER, EOFT, NAME_SERVER, SOFI3, Fc, Heard, fc_check, fcid
from . import speech
from .asking import Asked
from .speech import ABORT, CT_REQUEST, ELS_REPLY, ELS_REQUEST, NONE, REPLY, REQUEST, Head
from .storage import INITIATOR, TARGET, Storage

if TYPE_CHECKING:
    from .enode import ENode

QUALIFIED = 10.0  # R_A_TOV, behind which an aborted exchange's OX_ID is free (FC-FS-3)
BUSY_AGAIN, QUERY, RETURN = 3.0, 0.05, 2.0
TRIES = 3
BUSY = (0x03, 0x05, 0x09)  # reasons of an LS_RJT behind which a PLOGI is tried again
ELS_TYPE, CT_TYPE, FCP_TYPE, BLS_TYPE = 0x01, 0x20, 0x08, 0x00


@dataclass
class Peer:
    """An N_Port that this one has to do with."""

    address: int
    receive: int = 256
    is_logged_in: bool = False
    functions: int = 0  # of its PRLI, or of its accept
    is_stale: bool = False


class NPort:
    """A login of its host."""

    def __init__(self, host: "ENode", address: int, mac: bytes, names: tuple[bytes, bytes], command: int) -> None:
        self.host, self.address, self.mac, self.names, self.command = host, address, mac, names, command
        self.open: dict[int, Asked] = {}
        self.peers: dict[int, Peer] = {}
        self.knows: dict[int, bytes] = {}
        self.storage = Storage(self)

    @property
    def name(self) -> bytes:
        return self.names[0]

    @property
    def functions(self) -> int:
        return TARGET if self.host.manner.role == "target" else INITIATOR

    # ---- what is sent

    def send(self, to: int, head: Head, payload: bytes, edges: tuple[int, int] = (SOFI3, EOFT)) -> None:
        forwarder, host = self.host.stand.forwarder, self.host
        if forwarder is not None:
            source = host.names.mac if host.has("enode-mac") else self.mac
            host.send(speech.fcoe(forwarder.mac, source, host.stand.vlan, head.bytes_of(to, self.address) + payload, edges))

    def ask(self, asked: Asked) -> int:
        """Sends a request in an exchange of its own, and aborts it where it isn't answered in time."""
        ox_id = self.host.next_ox_id()
        self.open[ox_id] = asked
        asked.tries += 1
        r_ctl = {ELS_TYPE: ELS_REQUEST, CT_TYPE: CT_REQUEST, FCP_TYPE: 0x06}[asked.kind]
        self.send(asked.to, Head(r_ctl, asked.kind, REQUEST, ox_id), asked.payload)
        self.host.timers.set((self.name, ox_id), asked.seconds, lambda: self.is_late(ox_id))
        return ox_id

    def is_late(self, ox_id: int) -> None:
        """An exchange that isn't answered is aborted; a link service or a request of the name server is tried again."""
        if ox_id not in self.open:
            return
        asked = self.open.pop(ox_id)
        self.send(asked.to, Head(0x81, BLS_TYPE, ABORT, ox_id), b"")
        self.host.timers.set((self.name, ox_id), QUALIFIED, lambda: self.qualified(asked.to, ox_id))
        if asked.kind != FCP_TYPE and asked.tries < TRIES and not self.host.has("els-once"):
            self.ask(asked)

    def qualified(self, to: int, ox_id: int) -> None:
        """RRQ, which frees the OX_ID at the other end."""
        if to < speech.SERVICES[0] and self.peers.get(to, Peer(to)).is_logged_in:
            self.ask(Asked(to, ELS_TYPE, speech.recovery(self.address, ox_id, NONE), lambda _: None, tries=TRIES))

    def reply(self, fc: Fc, payload: bytes) -> None:
        """The answer to a link service."""
        self.send(fc.s_id, Head(ELS_REPLY, ELS_TYPE, REPLY, fc.ox_id, fc.rx_id), payload)

    # ---- its life

    def start(self) -> None:
        """PLOGI at the name server, registrations, SCR, and a query."""
        payload = speech.login_payload(speech.PLOGI, *self.names)
        self.ask(Asked(NAME_SERVER, ELS_TYPE, payload, self.registers))

    def registers(self, heard: Heard) -> None:
        if is_accept(heard):
            self.ask(Asked(NAME_SERVER, CT_TYPE, speech.types(self.address), self.has_types))

    def has_types(self, _: Heard) -> None:
        self.ask(Asked(NAME_SERVER, CT_TYPE, speech.features(self.address, 1 if self.functions == TARGET else 2), self.has_features))

    def has_features(self, _: Heard) -> None:
        self.ask(Asked(CONTROLLER, ELS_TYPE, speech.scr(), lambda _: self.query()))

    def query(self) -> None:
        """Who else is there."""
        if self.functions == INITIATOR:
            self.ask(Asked(NAME_SERVER, CT_TYPE, speech.all_with_fcp(), self.learns))

    def end(self) -> None:
        """The login is over: nothing is sent any more."""
        for ox_id in self.open:
            self.host.timers.drop((self.name, ox_id))
        self.host.timers.drop(("port alive", self.name))
        self.host.timers.drop(("query", self.name))
        self.storage.end()
        self.open.clear()
        self.peers.clear()

    def leave(self) -> None:
        """LOGO to those that it is logged in at."""
        for address in [*(it.address for it in self.peers.values() if it.is_logged_in), NAME_SERVER]:
            self.send(address, Head(ELS_REQUEST, ELS_TYPE, REQUEST, self.host.next_ox_id()), speech.logout(self.address, self.name))

    # ---- other N_Ports

    def learns(self, heard: Heard) -> None:
        """The name server's answer: those who are new are logged in at, those who went are forgotten."""
        assert heard.fc is not None
        self.knows = speech.names_answered(heard.fc.payload) if heard.kind == "CT accept" else {}
        for address in [it for it in self.peers if it not in self.knows]:
            self.forget(address)
        for address in self.knows:
            if address != self.address and (address not in self.peers or self.peers[address].is_stale):
                self.enter(address)

    def forget(self, address: int) -> None:
        """What is open with an N_Port that went ends."""
        self.peers.pop(address, None)
        self.storage.forget(address)
        for ox_id in [it for it, asked in self.open.items() if asked.to == address]:
            self.host.timers.drop((self.name, ox_id))
            del self.open[ox_id]

    def enter(self, address: int) -> None:
        """PLOGI at an N_Port."""
        self.forget(address)
        self.peers[address] = Peer(address)
        if self.host.has("no-plogi"):
            self.storage.begin(address, TARGET)
        self.ask(Asked(address, ELS_TYPE, speech.login_payload(speech.PLOGI, *self.names), lambda heard: self.entered(address, heard)))

    def entered(self, address: int, heard: Heard) -> None:
        peer = self.peers.get(address)
        assert heard.fc is not None
        if peer is None:
            return
        if is_accept(heard) or self.host.has("refused-goes-on"):
            peer.is_logged_in, peer.receive = True, receive_in(heard.fc.payload)
            self.ask(Asked(address, ELS_TYPE, speech.process_login(speech.PRLI, self.functions), lambda it: self.process(address, it)))
        else:
            del self.peers[address]
            if len(heard.fc.payload) > 5 and heard.fc.payload[5] in BUSY:
                self.host.timers.set(("enter", self.name, address), BUSY_AGAIN, lambda: self.again(address))

    def again(self, address: int) -> None:
        if address in self.knows and address not in self.peers:
            self.enter(address)

    def process(self, address: int, heard: Heard) -> None:
        """The answer to a PRLI: commands begin at a target."""
        assert heard.fc is not None
        if is_accept(heard) and address in self.peers:
            self.peers[address].functions = heard.fc.payload[19] if len(heard.fc.payload) >= 20 else 0
            self.storage.begin(address, self.peers[address].functions)

    # ---- what comes

    def take(self, heard: Heard) -> None:
        fc, forwarder = heard.fc, self.host.stand.forwarder
        if fc is None or forwarder is None or (fc.d_id != self.address and not self.host.has("astray")):
            return
        if fc_check(heard.data[fc.at : fc.end]) != heard.data[fc.end : fc.end + 4] and not self.host.has("crc"):
            return
        if fc.kind == FCP_TYPE:
            self.storage.take(fc)
        elif fc.kind == BLS_TYPE:
            self.take_basic(fc)
        elif fc.is_reply:
            self.take_reply(heard, fc)
        elif fc.kind == ELS_TYPE and fc.r_ctl == ELS_REQUEST:
            self.take_request(fc)

    def take_reply(self, heard: Heard, fc: Fc) -> None:
        asked = self.open.get(fc.ox_id)
        if asked is not None and asked.to == fc.s_id:
            self.host.timers.drop((self.name, fc.ox_id))
            del self.open[fc.ox_id]
            asked.answered(heard)

    def take_basic(self, fc: Fc) -> None:
        if BLS.get(fc.r_ctl) == "ABTS" and not self.host.has("no-abort-answer"):
            self.storage.abort(fc)
            self.send(fc.s_id, Head(0x84, BLS_TYPE, REPLY, fc.ox_id, fc.rx_id), speech.abort_accept(fc.ox_id, fc.rx_id))

    def take_request(self, fc: Fc) -> None:
        """A link service of another N_Port, or of the fabric."""
        answers: dict[int, Callable[[Fc], Optional[bytes]]] = {
            0x61: self.take_change,
            speech.PLOGI: self.take_login,
            speech.PRLI: self.take_process,
            speech.LOGO: self.take_logout,
            speech.ADISC: lambda it: speech.address_discovery(2, self.address, *self.names) if it.s_id in self.peers else speech.rejected(0x03, 0x1E),
            speech.ECHO: lambda it: speech.accept() + it.payload[4:],
            speech.RRQ: lambda _: speech.accept(),
        }
        answer = answers.get(fc.command if fc.command is not None else -1)
        if answer is not None:
            payload = answer(fc)
            if payload is not None:
                self.reply(fc, payload)
        elif not self.host.has("no-reject"):
            self.reply(fc, speech.rejected(0x0B, 0x00))

    def take_change(self, fc: Fc) -> Optional[bytes]:
        """An RSCN: it is accepted, and the name server is asked anew."""
        if fc.s_id != CONTROLLER:
            return speech.rejected(0x03, 0)
        for at in range(4, len(fc.payload) - 3, 4):
            peer = self.peers.get(int.from_bytes(fc.payload[at + 1 : at + 4], "big"))
            if peer is not None:
                peer.is_stale = True
        if not self.host.has("no-query"):
            self.host.timers.set(("query", self.name), QUERY, self.query)
        return None if self.host.has("no-rscn-accept") else speech.accept()

    def take_login(self, fc: Fc) -> bytes:
        refusal = self.host.manner.refuses
        if refusal is not None:
            return speech.rejected(*refusal)
        if fc.s_id in self.peers:
            self.forget(fc.s_id)
        self.peers[fc.s_id] = Peer(fc.s_id, receive_in(fc.payload), True)
        return speech.login_payload(2, *self.names, receive=self.host.manner.receive)

    def take_process(self, fc: Fc) -> bytes:
        peer, refusal = self.peers.get(fc.s_id), self.host.manner.refuses_process
        if peer is None or not peer.is_logged_in:
            return speech.rejected(0x03, 0x1E)
        if refusal is not None:
            return speech.rejected(*refusal)
        peer.functions = fc.payload[19] if len(fc.payload) >= 20 else 0
        return speech.process_login(2, self.functions)

    def take_logout(self, fc: Fc) -> bytes:
        self.host.tell(f"LOGO of {fcid(fc.s_id)}")
        self.forget(fc.s_id)
        if self.functions == INITIATOR:
            self.host.timers.set(("enter", self.name, fc.s_id), RETURN, lambda: self.again(fc.s_id))
        return speech.accept()

    def refuse(self, fc: Fc) -> None:
        """LOGO to an N_Port that sends without a login (FC-LS-2)."""
        self.ask(Asked(fc.s_id, ELS_TYPE, speech.logout(self.address, self.name), lambda _: None, tries=TRIES))


def is_accept(heard: Heard) -> bool:
    return heard.kind == "LS_ACC"


def receive_in(payload: bytes) -> int:
    """The receive size in the payload of a PLOGI or its accept: that of class 3."""
    return max(256, int.from_bytes(payload[74:76], "big") & 0xFFF) if len(payload) >= 76 else 256
