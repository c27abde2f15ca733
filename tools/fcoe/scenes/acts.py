"""What the peer does in scenes."""
from typing import Callable

from ..host.asking import Asked
from ..host.enode import ENode
from ..host.speech import ABORT, ADISC, ECHO, PLOGI, Head, accept, address_discovery, login_payload, logout, three
from .script import Peer

ELS, BLS = 0x01, 0x00
STRANGE = 0x77  # a link service that nobody knows
RTV, RLS, REC, PRLO, PDISC = 0x0E, 0x0F, 0x13, 0x21, 0x50
OPEN_NOWHERE = 0x7ABC  # an OX_ID that no exchange has
TEXT = bytes(range(16))


def partners(peer: ENode) -> list[int]:
    """The addresses that are logged in at the peer."""
    return [address for port in peer.ports for address, it in port.peers.items() if it.is_logged_in]


def refuses(reason: int, explanation: int) -> Callable[[ENode], None]:
    def act(peer: ENode) -> None:
        peer.manner.refuses = (reason, explanation)

    return act


def refuses_process(reason: int, explanation: int) -> Callable[[ENode], None]:
    def act(peer: ENode) -> None:
        peer.manner.refuses_process = (reason, explanation)

    return act


def falls_silent(peer: ENode) -> None:
    peer.is_mute = True


def asks(payload: bytes) -> Callable[[ENode], None]:
    def act(peer: ENode) -> None:
        for address in partners(peer):
            peer.ports[0].ask(Asked(address, ELS, payload, lambda _: None, tries=9))

    return act


def logs_out(peer: ENode) -> None:
    """LOGO to its partners, not to the fabric."""
    port = peer.ports[0]
    for address in partners(peer):
        port.forget(address)
        port.ask(Asked(address, ELS, logout(port.address, port.name), lambda _: None, tries=9))


def aborts(peer: ENode) -> None:
    for address in partners(peer):
        peer.ports[0].send(address, Head(0x81, BLS, ABORT, OPEN_NOWHERE), b"")


def asks_own(make: Callable[[ENode], bytes]) -> Callable[[ENode], None]:
    """A link service that names the peer itself."""

    def act(peer: ENode) -> None:
        asks(make(peer))(peer)

    return act


def aborts_open(peer: ENode) -> None:
    """ABTS of the latest command, or of one that was."""
    port = peer.ports[0]
    for address in partners(peer):
        ox_id = max((it for it, asked in port.open.items() if asked.to == address), default=peer.last_ox_id)
        port.send(address, Head(0x81, BLS, ABORT, ox_id), b"")


def own_names(peer: ENode) -> tuple[int, bytes, bytes]:
    port = peer.ports[0]
    return port.address, port.names[0], port.names[1]


STARTS = Peer("logs in", ENode.start)
STOPS = Peer("logs out at the fabric", ENode.stop)
FALLS_SILENT = Peer("sends no keep alives any more", falls_silent)
REFUSES = Peer("rejects PLOGIs (03 00)", refuses(0x03, 0x00))
REFUSES_PRLI = Peer("rejects PRLIs (03 00)", refuses_process(0x03, 0x00))
LOGS_OUT = Peer("sends LOGO to the host", logs_out)
ECHOES = Peer("sends ECHO", asks(bytes([ECHO, 0, 0, 0]) + TEXT))
ASKS_STRANGE = Peer("sends a link service that isn't known (77)", asks(bytes([STRANGE]) + accept()[1:]))
ABORTS = Peer("sends ABTS of an exchange that isn't open", aborts)
ABORTS_OPEN = Peer("sends ABTS of its latest command", aborts_open)
ASKS_ADISC = Peer("sends ADISC", asks_own(lambda peer: address_discovery(ADISC, *own_names(peer))))
ASKS_PDISC = Peer("sends PDISC", asks_own(lambda peer: login_payload(PDISC, *own_names(peer)[1:])))
ASKS_PLOGI = Peer("sends PLOGI", asks_own(lambda peer: login_payload(PLOGI, *own_names(peer)[1:])))
ASKS_RTV = Peer("sends RTV", asks(bytes([RTV, 0, 0, 0])))
ASKS_RLS = Peer("sends RLS", asks_own(lambda peer: bytes([RLS, 0, 0, 0, 0]) + three(own_names(peer)[0])))
ASKS_REC = Peer("sends REC", asks_own(lambda peer: bytes([REC, 0, 0, 0, 0]) + three(own_names(peer)[0]) + OPEN_NOWHERE.to_bytes(2, "big") + b"\xff\xff"))
PROCESS_LOGS_OUT = Peer("sends PRLO", asks(bytes([PRLO, 0x10, 0, 0x14, 0x08, 0, 0, 0]) + bytes(12)))
