"""What ENodes and the switch said to each other on a port, in order, with exchanges and grants: what the rules of `look check` are judged over."""
from dataclasses import dataclass
from functools import cached_property
from itertools import accumulate
from typing import Any, Hashable, Iterator, Optional

from ..frames.columns import MILLISECOND
from ..frames.heard import ADVERTISE, ALL_ENODES, CLEAR, KEEP_ALIVE, LOGIN, LOGIN_REPLY, Fc, Heard, colons, granted_in, login_names
from ..progress import PROGRESS
from ..runs.configs import FPMA
from ..runs.enodes import enodes_of
from ..runs.inputs import Port
from .exchanged import UNANSWERED, Exchange, Exchanges
from .shown import Shown, Timed, mac_in, period_in, vx_in
from .sieve import Sieve

SIFTED = 20_000  # frames of a port from which on alike ones are left out
KEPT = 50_000  # frames that are looked at, up to which they stay decoded
LATE, REGULAR = 1.6, 4  # periods without a keep alive, and how many come on time for each that doesn't, for one to be lost
SERVICES, PROMPT = 0xFF0000, 10_000  # addresses of the fabric's services, and milliseconds within which these answer
PERIODS = 2.5  # advertised periods of silence that end a link (FC-BB-5)
ENDS = ("FLOGI", "Solicitation", "VLAN request", "Clear links")  # in FIP: with these a login of an ENode is over
AT_ONCE = 2_000  # milliseconds within which what has another OX_ID answers a request


@dataclass(eq=False)
class Grant:
    """An address that a switch granted, until it ended."""

    enode: bytes
    address: int
    mac: bytes
    granted: Shown
    request: Optional[Shown]
    name: bytes
    ended: Optional[Shown] = None
    why: str = ""

    def is_live(self, at: int) -> bool:
        return self.granted.at < at and (self.ended is None or at < self.ended.at)

    @property
    def forwarder(self) -> bytes:
        return self.granted.heard.source


@dataclass(frozen=True)
class Sign:
    """That frames are missing from the capture, or were lost on the wire: in words, and of what, where that is one exchange or login."""

    what: str
    of: Hashable = None
    is_wire: bool = False  # the wire lost it, so that whoever sent it, or should have, behaves so


@dataclass(frozen=True)
class Silence:
    """A forwarder without an advertisement: the last one, the moment at which links end by it, and when it came back or the capture ends."""

    last: Shown
    begin: float
    end: float


USUAL_MAP = FPMA + bytes(1)


class Talk:
    """The frames between an ENode and the switch on a port; or all frames of the fabric on a port."""

    def __init__(self, port: Port, mac: bytes, name: bytes, frames: list[Shown]) -> None:
        self.port, self.mac, self.name, self.frames = port, mac, name, frames
        self.own = [it for it in frames if not it.is_switch]
        self.theirs = [it for it in frames if it.is_switch]
        self.grants: list[Grant] = []
        self.by_mac: dict[bytes, list[Grant]] = {}
        self.by_address: dict[int, list[Grant]] = {}
        self.told: dict[Hashable, Any] = {}  # what rules of one subject have in common
        for it in frames:
            self.take(it)

    @property
    def label(self) -> str:
        return colons(self.name) if self.name else colons(self.mac)

    @cached_property
    def is_two_way(self) -> bool:
        """The capture has what the switch sends to it, too; what goes to all ENodes may be heard anywhere."""
        return any(not it.heard.destination[0] & 1 for it in self.theirs)

    @property
    def end(self) -> float:
        """The last moment of the capture."""
        return self.port.frames.moments[len(self.port.frames) - 1] / MILLISECOND

    @cached_property
    def exchanges(self) -> Exchanges:
        found = Exchanges()
        for it in self.frames:
            found.take(it)
        return found

    @cached_property
    def kinds(self) -> dict[tuple[str, bool], list[Shown]]:
        """The frames by their kinds, and by whether the switch sent them."""
        found: dict[tuple[str, bool], list[Shown]] = {}
        for it in self.frames:
            found.setdefault((it.heard.kind, it.is_switch), []).append(it)
        return found

    def sent(self, is_switch: bool, kinds: tuple[str, ...]) -> list[Shown]:
        some = [self.kinds.get((it, is_switch), []) for it in kinds]
        return some[0] if len(some) == 1 else sorted((it for one in some for it in one), key=lambda it: it.at)

    def of(self, *kinds: str) -> list[Shown]:
        """The ENode's frames of some kinds."""
        return self.sent(False, kinds)

    def by_switch(self, *kinds: str) -> list[Shown]:
        return self.sent(True, kinds)

    @cached_property
    def timed(self) -> Timed:
        return Timed(self.frames)

    @cached_property
    def turns(self) -> Timed:
        """What ends logins, or begins them anew."""
        return Timed([it for it in self.frames if it.heard.is_fip and (it.heard.kind in ENDS or it.heard.kind == "LOGO")])

    def moments(self, is_switch: bool, *kinds: str) -> Timed:
        """The frames of some kinds, found by their moments."""
        found: Timed = self.told.get((is_switch, *kinds)) or Timed(self.sent(is_switch, kinds))
        self.told[is_switch, *kinds] = found
        return found

    def within(self, begin: float, end: float) -> list[Shown]:
        """The frames between two moments."""
        return self.timed.within(begin, end)

    def longest_rest(self, begin: float, end: float) -> float:
        """The longest time between two moments in which no frame stands, in milliseconds."""
        clocks = [it.clock for it in self.within(begin, end)]
        return max((two - one for one, two in zip(clocks, clocks[1:])), default=0)

    @cached_property
    def logins(self) -> list[Shown]:
        """The ENode's FLOGIs, FDISCs and LOGOs in FIP."""
        return [it for it in self.own if it.heard.operation == LOGIN]

    def in_fcoe(self) -> Iterator[tuple[Shown, Fc]]:
        """The ENode's frames in FCoE."""
        for it in self.own_fcoe:
            fc = it.heard.fc
            if fc is not None:
                yield it, fc

    @cached_property
    def uses(self) -> list[Shown]:
        """What the ENode sends as an N_Port: FCoE, and keep alives of VN_Ports."""
        return [it for it in self.own if it.heard.is_fcoe and it.fc is not None and it.fc.s_id or it.heard.kind == "VN_Port keep alive" and it.heard.source != self.mac]

    @cached_property
    def own_fcoe(self) -> list[Shown]:
        return [it for it in self.own if it.heard.is_fcoe]

    def take(self, it: Shown) -> None:
        """Takes what grants and ends addresses."""
        heard = it.heard
        if not it.is_switch or not heard.is_fip:
            return
        address = granted_in(heard)
        if address is not None:
            self.grant(it, address)
        elif heard.operation == LOGIN_REPLY and heard.login_kind == "LOGO" and it.payload[:1] == b"\x02":
            asked = self.request_of(it)
            for grant in self.live(it.at, heard.destination) if asked and asked.fc else []:
                if asked and asked.fc and grant.address == asked.fc.s_id:
                    grant.ended, grant.why = it, "LOGO"
        elif heard.operation == CLEAR:
            listed = [mac for mac, _, _ in vx_in(heard)]
            for grant in self.live(it.at, None if heard.destination[0] & 1 else heard.destination):
                if grant.forwarder == heard.source and (not listed or grant.mac in listed):
                    grant.ended, grant.why = it, "clear link of all" if not listed else "clear link"

    def grant(self, it: Shown, address: int) -> None:
        asked = self.request_of(it)
        if asked is not None and any(one.request is asked and one.address == address for one in self.grants):
            return  # the same accept once more
        names = login_names(asked.heard) if asked and asked.is_whole else None
        if it.heard.login_kind == "FLOGI" and not self.is_second(it, asked):
            for grant in self.live(it.at, it.heard.destination):
                grant.ended, grant.why = it, "login"
        mac = mac_in(it.heard) or self.fc_map(it) + address.to_bytes(3, "big")
        made = Grant(it.heard.destination, address, mac, it, asked, names[0] if names else b"")
        self.grants.append(made)
        self.by_mac.setdefault(mac, []).append(made)
        self.by_address.setdefault(address, []).append(made)

    def is_second(self, it: Shown, asked: Optional[Shown]) -> bool:
        """A further accept of a FLOGI that came twice, which its ENode may have taken for nothing."""
        return asked is not None and any(one.request is not None and one.request.heard.data == asked.heard.data and it.clock - one.granted.clock < 2_000 for one in self.grants)

    def fc_map(self, it: Shown) -> bytes:
        """That of the forwarder that sent a frame, as it advertised it before; the usual one where it didn't."""
        told = next((one.heard.descriptor(5) for one in reversed(self.theirs) if one.at < it.at and one.heard.source == it.heard.source and one.heard.descriptor(5)), None)
        return told.data[5:8] if told and len(told.data) >= 8 else USUAL_MAP

    def request_of(self, it: Shown) -> Optional[Shown]:
        """The request in FIP that this frame answers."""
        fc = it.heard.fc
        earlier = (asked for asked in reversed(self.logins) if asked.at < it.at and asked.heard.source == it.heard.destination)
        return next((asked for asked in earlier if asked.fc and fc and asked.fc.ox_id == fc.ox_id), None)

    def live(self, at: int, enode: Optional[bytes] = None) -> list[Grant]:
        """The grants that are live before a frame."""
        return [it for it in self.grants if it.is_live(at) and enode in (None, it.enode)]

    def grant_of(self, mac: bytes, at: int) -> Optional[Grant]:
        """The latest grant of a MAC before a frame, whether or not it has ended."""
        return next((it for it in reversed(self.by_mac.get(mac, [])) if it.granted.at < at), None)

    def login_of(self, address: int, at: int, *, is_live: bool = True) -> Optional[Grant]:
        """The grant of an address that is live before a frame; or else the latest one, whether or not it has ended."""
        some = self.by_address.get(address, [])
        if is_live:
            return next((it for it in some if it.is_live(at)), None)
        return next((it for it in reversed(some) if it.granted.at < at), None)

    @cached_property
    def advertisements(self) -> list[Shown]:
        return [it for it in self.theirs if it.heard.operation == ADVERTISE]

    def advertised(self, at: int, forwarder: Optional[bytes] = None) -> Optional[Shown]:
        """The latest advertisement of a forwarder before a frame."""
        return next((it for it in reversed(self.advertisements) if it.at < at and forwarder in (None, it.heard.source)), None)

    def began_before(self, it: Shown) -> bool:
        """The ENode may have logged in before the capture began: no accepted FLOGI stands before this frame, nor a discovery with a FLOGI at the
        begin of all that it sent."""
        if self.begun["grant"] < it.at:
            return False
        first = next(iter(self.own), it)
        return first.heard.kind != "VLAN request" and (first.heard.kind != "Solicitation" or self.begun["FLOGI"] >= it.at)

    @cached_property
    def begun(self) -> dict[str, int]:
        """Where the first grant of a FLOGI stands, and the first FLOGI; behind all frames where there is none."""
        none = len(self.port.frames) + 1
        grants = (it.granted.at for it in self.grants if it.granted.heard.login_kind == "FLOGI")
        return {"grant": next(grants, none), "FLOGI": next((it.at for it in self.of("FLOGI")), none)}

    @cached_property
    def silences(self) -> list[Silence]:
        """Where a forwarder fell silent for two and a half periods: from which advertisement on, from when on, and until when."""
        by_forwarder: dict[tuple[bytes, int], list[Shown]] = {}
        for it in self.advertisements:
            by_forwarder.setdefault((it.heard.source, it.heard.vlan), []).append(it)
        found = []
        for some in by_forwarder.values():
            if not any(it.heard.destination == ALL_ENODES for it in some):
                continue
            for it, after in zip(some, [*some[1:], None]):
                period, until = period_in(it.heard), after.clock if after else self.end
                if period and until - it.clock > PERIODS * period[0]:
                    found.append(Silence(it, it.clock + PERIODS * period[0], until))
        return found

    @cached_property
    def accounted(self) -> int:
        """Frames whose loss would be seen: those of sequences and discovery, and of exchanges that were answered."""
        beats = sum(it.heard.kind == "Keep alive" for it in self.own)
        return self.port.tidy.accounted + self.port.left_out * self.is_two_way + beats + sum(len(it.frames) for it in self.exchanges.all if it.reply is not None)

    @cached_property
    def signs(self) -> list[Sign]:
        """That frames are missing, or were lost on the wire."""
        found = [Sign(it.what) for it in self.port.tidy.holes]
        if self.port.tidy.is_askew:
            found.append(Sign("the order of both directions is a guess"))
        return [*found, *self.signs_of_exchanges(), *self.signs_of_beats(), *self.signs_of_rests()]

    def signs_of_exchanges(self) -> Iterator[Sign]:
        """An ABTS, or the same request once more, says that something was lost; so does an answer without its request."""
        asked: dict[Hashable, Exchange] = {}
        for one in self.exchanges.all:
            fc = one.request.heard.fc
            if one.aborted is not None and (one.reply is None or one.reply.at > one.aborted.at):
                yield Sign(f"an exchange was aborted in frame {one.aborted.place}", one, True)
            if fc is None or one.reply is not None or not self.is_two_way or one.request.heard.kind in UNANSWERED:
                continue
            if self.gave_up(fc.d_id if one.request.is_switch else fc.s_id, one.request.clock - 2_000, one.request.clock + 2_000):
                continue
            key = (fc.s_id, fc.d_id, fc.r_ctl, one.request.heard.kind)
            if key in asked:
                yield Sign(f"the {one.request.heard.kind} of frame {asked[key].request.place} isn't answered", asked[key], True)
            asked[key] = one
        for it in self.frames:
            fc = it.heard.fc
            is_alone = fc is not None and it.heard.is_fcoe and fc.is_reply and it.at not in self.exchanges.of_frame
            if fc is not None and is_alone and self.is_known(fc, it) and not self.is_misnumbered(fc, it):
                yield Sign(f"frame {it.place} answers a request that isn't there", it.at)

    def is_misnumbered(self, fc: Fc, it: Shown) -> bool:
        """An answer with another OX_ID than a request that has none: no sign of loss."""
        for one in reversed(self.exchanges.by_ends.get((fc.d_id, fc.s_id), [])):
            if one.request.at < it.at and (one.reply is None or it.clock - one.request.clock >= AT_ONCE):
                return it.clock - one.request.clock < AT_ONCE
        return False

    def is_known(self, fc: Fc, it: Shown) -> bool:
        """One of both ends logged in at the fabric within the capture, more than R_A_TOV ago; or a service answers, which does so at once, long behind the begin."""
        if fc.s_id >= SERVICES and self.is_two_way and it.clock - self.frames[0].clock > PROMPT:
            return True
        return any(one.granted.clock < it.clock - 20_000 and one.address in (fc.s_id, fc.d_id) for one in self.grants)

    def signs_of_beats(self) -> Iterator[Sign]:
        """A keep alive that fails, where those around it come on time."""
        some = [it for it in self.own if it.heard.kind == "Keep alive"]
        told = self.advertised(len(self.port.frames))
        period = period_in(told.heard) if told else None
        if not period or not period[0]:
            return
        gaps = [(it, it.clock - before.clock) for before, it in zip(some, some[1:]) if before.heard.destination == it.heard.destination]
        late = [it for it, gap in gaps if LATE * period[0] < gap < 4 * period[0]]
        if len(gaps) - len(late) >= REGULAR * len(late):
            yield from (Sign(f"a keep alive fails before frame {it.place}", ("beat", it.at)) for it in late)

    def signs_of_rests(self) -> Iterator[Sign]:
        """A time without any frame of anybody, in which an advertisement fails too: the capture's gap, or its clock's jump."""
        told = self.advertised(len(self.port.frames))
        period = period_in(told.heard) if told else None
        if period is None or not period[0] or not self.is_two_way:
            return
        moments = self.port.frames.moments
        for at, (one, two) in enumerate(zip(moments, moments[1:]), 1):
            if two - one > LATE * period[0] * MILLISECOND:
                yield Sign(f"no frame of anybody for {(two - one) / MILLISECOND / 1000:.1f} s before frame {self.port.frames.number(at)}")

    def gave_up(self, address: int, begin: float, end: float) -> bool:
        """The ENode or its forwarder ended the login of an address meanwhile: by FLOGI, LOGO, Clear Virtual Links, a solicitation or silence."""
        if any(it.begin <= end and begin <= it.end for it in self.silences):
            return True
        return any(it.heard.kind in ENDS or it.fc is not None and it.fc.s_id == address for it in self.turns.within(begin, end))


Told = dict[bytes, list[tuple[int, bytes]]]  # of a MAC: places in the capture, and the ENode that has it from there on


class Owners:
    """Which ENode uses a MAC in FCoE: by grants, or else by keep alives and LOGOs."""

    def __init__(self, port: Port) -> None:
        self.enodes = {it.mac for it in enodes_of([port])}
        self.granted: Told = {}
        self.named: Told = {}
        self.fc_map = USUAL_MAP
        for at in port.frames.messages():
            heard = port.frames.heard(at)
            if heard.is_fip:
                self.take(at, heard)
        self.enodes -= set(self.granted)

    def take(self, at: int, heard: Heard) -> None:
        mac, address, fabric = mac_in(heard), granted_in(heard), heard.descriptor(5)
        if fabric is not None and len(fabric.data) >= 8:
            self.fc_map = fabric.data[5:8]
        if address is not None:
            self.enodes.add(heard.destination)
            self.granted.setdefault(mac or self.fc_map + address.to_bytes(3, "big"), []).append((at, heard.destination))
        elif heard.kind == "VN_Port keep alive" and mac and mac != heard.source:
            self.named.setdefault(heard.source, []).append((at, mac))
        elif heard.operation == KEEP_ALIVE and heard.kind != "VN_Port keep alive":
            self.enodes.add(heard.source)
        elif heard.operation == LOGIN and heard.login_kind == "LOGO" and mac:
            self.named.setdefault(mac, []).append((at, heard.source))

    def owner(self, mac: bytes, at: int) -> bytes:
        """The ENode behind a MAC at a place of the capture."""
        if mac in self.enodes:
            return mac
        told = self.granted.get(mac) or [it for it in self.named.get(mac, []) if not self.enodes or it[1] in self.enodes]
        if told:
            return next((enode for place, enode in reversed(told) if place <= at), told[0][1])
        return next(iter(self.enodes)) if len(self.enodes) == 1 else mac


def shown_of(port: Port) -> Iterator[Shown]:
    """The frames of a fabric on a port, in their order; in a long capture without most of those that are alike."""
    frames = port.frames
    is_ours = [it.heard.is_fabric for it in frames.flows]
    own = {frames.flow_of[at] for at in port.replies}
    sieve = Sieve(frames, any(not frames.flows[it].heard.destination[0] & 1 for it in own))
    taken = sieve.sifted() if len(frames) > SIFTED else b"\1" * len(frames)
    port.left_out = sieve.left_out
    keep = sum(taken) <= KEPT
    times: Iterator[int] = accumulate(frames.moments, max)
    for at, moment in enumerate(times):
        flow = frames.flow_of[at]
        if taken[at] and is_ours[flow]:
            it = Shown(port, at, moment / MILLISECOND, flow in own)
            yield it.keep() if keep else it
        if at % 4096 == 0:
            PROGRESS.say(f"{port.label}: {at:,} frames decoded")


def talks_on(port: Port, shown: Optional[list[Shown]] = None) -> list[Talk]:
    """What each ENode of a port and the switch said to each other."""
    owners, frames = Owners(port), list(shown_of(port)) if shown is None else shown
    by_enode: dict[bytes, list[Shown]] = {}
    for it in frames:
        if not it.is_switch:
            by_enode.setdefault(owners.owner(it.heard.source, it.at), [])
    for it in frames:
        if it.is_switch and it.heard.destination[0] & 1:
            for some in by_enode.values():
                some.append(it)
        else:
            mac = it.heard.destination if it.is_switch else it.heard.source
            by_enode.get(owners.owner(mac, it.at), []).append(it)
    names = {it.mac: it.name for it in enodes_of([port])}
    return [Talk(port, mac, names.get(mac, b""), some) for mac, some in by_enode.items()]


def whole_of(port: Port, mac: bytes, shown: Optional[list[Shown]] = None) -> Talk:
    """All frames of the fabric on a port, as rules on the switch are judged over."""
    return Talk(port, mac, b"", list(shown_of(port)) if shown is None else shown)
