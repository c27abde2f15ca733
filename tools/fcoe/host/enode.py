"""An ENode: it asks for the VLAN, finds a forwarder, logs in, keeps its logins alive, and hears when they end (FC-BB-5, FIP)."""
import time
from dataclasses import dataclass, field
from typing import Callable, Optional

from ..frames.heard import ADVERTISE, ALL_ENODES, ALL_FCFS, CLEAR, LOGIN_REPLY, VLAN_TELL, Heard, colons, granted_in, hear, number
from .nport import NPort
from .speech import FCOE_SIZE, FDISC, FLOGI, FP, Names, fabric_login, fabric_logout, keep_alive, port_keep_alive, solicitation, three, vlan_request
from .timers import Timers

ASK_AGAIN, LOGIN_AGAIN, REJECTED_AGAIN, GATHER = 1.0, 2.0, 3.0, 0.3  # seconds; the standards leave all but E_D_TOV open
LOGIN_TRIES = 4
PORT_PERIOD = 90.0  # seconds between keep alives of a VN_Port (FC-BB-5, FIP keep alive)
AVAILABLE, SOLICITED, IS_FORWARDER = 0x0004, 0x0002, 0x0001  # flags of an advertisement
CRITICAL = 128  # types of descriptors below it are critical
KNOWN = range(1, 15)
TAG_LENGTH = 4
FIRST_MAP = bytes.fromhex("0efc00")


@dataclass
class Forwarder:
    """A forwarder that advertised itself."""

    mac: bytes
    fc_map: bytes
    priority: int
    period: float
    quiet: bool


@dataclass
class Wish:
    """A login that is asked for: FLOGI or FDISC, and its names."""

    command: int
    port: bytes
    node: bytes
    ox_id: int = 0
    tries: int = 0


@dataclass
class Manner:
    """How a host behaves."""

    role: str = "initiator"
    further: tuple[bytes, ...] = ()  # port names of N_Ports by NPIV
    faults: frozenset[str] = frozenset()
    receive: int = 2112
    refuses: Optional[tuple[int, int]] = None  # PLOGIs are rejected with this reason and explanation
    refuses_process: Optional[tuple[int, int]] = None  # PRLIs are
    every: float = 0.5  # seconds between commands; none where it's 0


@dataclass
class Stand:
    """Where a host stands."""

    vlan: int = 0
    phase: str = "silent"
    forwarder: Optional[Forwarder] = None
    found: dict[bytes, Forwarder] = field(default_factory=dict)


class ENode:
    """A host on one wire; it is handed what comes, and hands on what it sends."""

    def __init__(self, names: Names, manner: Manner, send: Callable[[bytes], None], tell: Callable[[str], None] = lambda _: None) -> None:
        self.names, self.manner, self.send, self.tell = names, manner, send, tell
        self.timers = Timers(time.monotonic)
        self.stand = Stand()
        self.ports: list[NPort] = []
        self.port_type: type[NPort] = NPort  # of what its logins become
        self.wishes: list[Wish] = []
        self.last_ox_id = 0
        self.is_mute = False  # sends no keep alives any more

    def has(self, fault: str) -> bool:
        return fault in self.manner.faults

    def next_ox_id(self) -> int:
        if not self.has("same-ox-id") or not self.last_ox_id:
            self.last_ox_id = self.last_ox_id % 0xFFFE + 1
        return self.last_ox_id

    # ---- what comes

    def take(self, frame: bytes) -> None:
        heard = hear(frame)
        if heard.is_fip and heard.destination in (self.names.mac, ALL_ENODES):
            if self.is_sound(heard):
                self.take_fip(heard)
        elif heard.is_fcoe and heard.vlan == self.stand.vlan:
            for port in list(self.ports):
                if heard.destination == port.mac or self.has("astray"):
                    port.take(heard)

    def is_sound(self, heard: Heard) -> bool:
        """A message with a critical descriptor that isn't known is discarded."""
        return self.has("critical") or all(it.kind >= CRITICAL or it.kind in KNOWN for it in heard.descriptors)

    def take_fip(self, heard: Heard) -> None:
        if heard.operation == VLAN_TELL and self.stand.phase == "asking":
            self.take_vlan(heard)
        elif heard.operation == ADVERTISE and heard.vlan == self.stand.vlan:
            self.take_advertisement(heard)
        elif heard.operation == LOGIN_REPLY and heard.vlan == self.stand.vlan:
            self.take_reply(heard)
        elif heard.operation == CLEAR and heard.vlan == self.stand.vlan:
            self.take_clear(heard)

    # ---- the VLAN

    def start(self) -> None:
        self.stand = Stand(phase="asking")
        self.ask()

    def ask(self) -> None:
        self.send(vlan_request(self.names))
        if not self.has("asks-once"):
            self.timers.set("ask", ASK_AGAIN, self.ask)

    def take_vlan(self, heard: Heard) -> None:
        told = [number(it.data[2:4]) & 0xFFF for it in heard.descriptors if it.kind == 14]
        fitting = [it for it in told if 1 <= it <= 4094]
        if heard.vlan == 0 and fitting:
            self.timers.drop("ask")
            self.stand.vlan = 1 if self.has("any-vlan") else fitting[0]
            self.tell(f"VLAN {self.stand.vlan}")
            self.look()

    # ---- the forwarder

    def look(self) -> None:
        """Looks for a forwarder, with no login."""
        self.timers.drop("silence")
        self.timers.drop("keep alive")
        self.stand.phase, self.stand.forwarder = "looking", None
        self.stand.found.clear()
        self.solicit()

    def solicit(self) -> None:
        self.send(solicitation(self.names, self.stand.vlan))
        if not self.has("solicits-once"):
            self.timers.set("solicit", ASK_AGAIN, self.solicit)

    def take_advertisement(self, heard: Heard) -> None:
        found = forwarder_in(heard)
        if found is None:
            return
        if self.stand.forwarder is not None and found.mac == self.stand.forwarder.mac:
            self.hears(found)
        if self.stand.phase == "looking":
            if self.fits(heard):
                self.stand.found[found.mac] = found
                if "choose" not in self.timers.calls:
                    self.timers.set("choose", GATHER, self.choose)
            elif heard.destination == ALL_ENODES and not self.has("solicits-once"):
                self.send(solicitation(self.names, self.stand.vlan, found.mac))

    def fits(self, heard: Heard) -> bool:
        """A forwarder that may be logged in at: it is available, grants MACs, and its frames of full size arrive."""
        flags = FP | IS_FORWARDER | (0 if self.has("unavailable") else AVAILABLE)
        sized = len(heard.data) - TAG_LENGTH >= FCOE_SIZE or self.has("unpadded")
        solicited = heard.destination == self.names.mac and heard.flags & SOLICITED and sized or self.has("unsolicited")
        return bool(solicited) and heard.flags & flags == flags

    def choose(self) -> None:
        """The forwarder with the least priority number (FC-BB-5: the highest priority)."""
        by = (lambda it: -it.priority) if self.has("priority") else (lambda it: it.priority)
        self.timers.drop("solicit")
        chosen = min(self.stand.found.values(), key=by)
        self.stand.forwarder, self.stand.phase = chosen, "logging"
        self.tell(f"forwarder {colons(chosen.mac)}")
        self.hears(chosen)
        self.wishes = [Wish(FLOGI, self.names.port, self.names.node)]
        self.log_in(self.wishes[0])

    def hears(self, found: Forwarder) -> None:
        """The forwarder is there; its period may have changed."""
        now = self.stand.forwarder
        assert now is not None
        if found.period != now.period and self.ports:
            now.period = found.period
            self.keep_alive()
        now.quiet = found.quiet
        if not self.has("silence"):
            self.timers.set("silence", (1.3 if self.has("impatient") else 2.5) * now.period, self.is_gone)

    def is_gone(self) -> None:
        self.tell("the forwarder is silent")
        self.end_all()
        self.look()

    def end_all(self) -> None:
        for port in self.ports:
            port.end()
        for wish in self.wishes:
            self.timers.drop(("login", wish.port))
        self.ports.clear()
        self.wishes.clear()

    # ---- logins

    def log_in(self, wish: Wish) -> None:
        """FLOGI or FDISC, and again where it isn't answered; then the forwarder is looked for anew."""
        forwarder = self.stand.forwarder
        assert forwarder is not None
        if wish.tries >= LOGIN_TRIES and wish.command == FLOGI:
            self.end_all()
            self.look()
            return
        wish.tries, wish.ox_id = wish.tries + 1, self.next_ox_id()
        flags = 0 if self.has("no-fp") else FP
        self.send(fabric_login(self.names, self.stand.vlan, forwarder.mac, wish.command, wish.ox_id, (wish.port, wish.node), flags))
        if not self.has("flogi-once"):
            self.timers.set(("login", wish.port), LOGIN_AGAIN, lambda: self.log_in(wish))

    def take_reply(self, heard: Heard) -> None:
        forwarder, fc = self.stand.forwarder, heard.fc
        if forwarder is None or fc is None or heard.source != forwarder.mac:
            return
        wish = next((it for it in self.wishes if it.ox_id == fc.ox_id and heard.login_kind in ("FLOGI", "FDISC")), None)
        if wish is None:
            return
        address, mac = granted_in(heard), heard.descriptor(2)
        if address is None:
            self.is_rejected(wish, fc.payload)
        elif mac is not None and mac.data[2:8] == forwarder.fc_map + three(address):
            self.is_granted(wish, address, mac.data[2:8])

    def is_rejected(self, wish: Wish, payload: bytes) -> None:
        self.tell(f"rejected: {payload[5:7].hex(' ')}")
        wish.tries = 0
        self.timers.set(("login", wish.port), REJECTED_AGAIN, lambda: self.log_in(wish))
        if self.has("rejected-goes-on"):
            self.timers.drop(("login", wish.port))
            self.is_granted(wish, 0x010155, FIRST_MAP + three(0x010155))

    def is_granted(self, wish: Wish, address: int, mac: bytes) -> None:
        """A login stands; behind the first one keep alives begin, and the logins by NPIV."""
        self.timers.drop(("login", wish.port))
        self.wishes.remove(wish)
        if self.has("fc-map"):
            mac = FIRST_MAP + three(address)
        port = self.port_type(self, address, mac, (wish.port, wish.node), wish.command)
        self.ports.append(port)
        self.tell(f"up {address:06x} {colons(mac)} {colons(wish.port)}")
        if wish.command == FLOGI:
            self.stand.phase = "up"
            self.keep_alive()
            for name in self.manner.further:
                self.wishes.append(Wish(FDISC, name, bytes([0x10]) + name[1:]))
                self.log_in(self.wishes[-1])
        self.timers.set(("port alive", port.name), PORT_PERIOD, lambda: self.port_alive(port))
        port.start()

    # ---- staying there

    def keep_alive(self) -> None:
        forwarder = self.stand.forwarder
        if forwarder is None or not self.ports:
            return
        to = ALL_FCFS if self.has("keep-alive-group") else forwarder.mac
        if not forwarder.quiet and not self.is_mute and not self.has("no-keep-alive"):
            self.send(keep_alive(self.names, self.stand.vlan, to))
        self.timers.set("keep alive", 8.0 if self.has("own-period") else forwarder.period, self.keep_alive)

    def port_alive(self, port: NPort) -> None:
        forwarder = self.stand.forwarder
        if forwarder is None or port not in self.ports:
            return
        if not forwarder.quiet and not self.has("no-keep-alive") and not self.is_mute:
            self.send(port_keep_alive(self.names, self.stand.vlan, forwarder.mac, port.mac, port.address, port.name))
        self.timers.set(("port alive", port.name), PORT_PERIOD, lambda: self.port_alive(port))

    def take_clear(self, heard: Heard) -> None:
        """Clear Virtual Links of the forwarder that is logged in at: all N_Ports where none is listed."""
        mac, forwarder = heard.descriptor(2), self.stand.forwarder
        if forwarder is None or mac is None or heard.source != forwarder.mac or mac.data[2:8] != forwarder.mac or self.has("clear-ignored"):
            return
        listed = {it.data[2:20] for it in heard.descriptors if it.kind == 11}
        is_whole = not listed or self.has("clear-of-all")
        ended = [it for it in self.ports if is_whole or it.mac + b"\0" + three(it.address) + it.name in listed]
        if is_whole or any(it.command == FLOGI for it in ended):
            self.tell("the forwarder cleared the link")
            self.end_all()
            self.look()
            return
        for port in ended:
            port.end()
            self.ports.remove(port)
            self.wishes.append(Wish(FDISC, *port.names))
            self.log_in(self.wishes[-1])

    def lose_link(self) -> None:
        """With the link all logins are over."""
        self.tell("the link is down")
        self.end_all()
        self.timers.clear()
        self.stand = Stand()

    def stop(self) -> None:
        """Logs out, N_Ports by NPIV first."""
        forwarder = self.stand.forwarder
        for port in reversed(self.ports):
            if forwarder is not None and not self.has("no-logout"):
                port.leave()
                self.send(fabric_logout(self.names, self.stand.vlan, forwarder.mac, self.next_ox_id(), port.address, port.mac, port.name))
        self.end_all()
        self.timers.clear()
        self.stand = Stand()


def forwarder_in(heard: Heard) -> Optional[Forwarder]:
    """Who advertises itself here, where all that it needs stands there."""
    priority, mac, fabric, period = (heard.descriptor(it) for it in (1, 2, 5, 12))
    if priority is None or mac is None or fabric is None or period is None or mac.data[2:8] != heard.source:
        return None
    seconds = number(period.data[4:8]) / 1000
    return Forwarder(heard.source, fabric.data[5:8], priority.data[3], seconds, bool(period.data[3] & 1)) if 0.25 <= seconds <= 90 else None
