"""What an ENode's own frames say of it, where a capture has its direction alone: where its logins went, which MAC and which name each address has."""
from collections import Counter
from dataclasses import dataclass, field
from typing import Callable, Hashable, Optional

from ..frames.heard import Fc
from .exchanged import LOGIN_SIZE
from .rules import ONE_WAY, Fault, Tally
from .shown import Shown, vx_in
from .talk import Talk

MANY = 4  # times as many frames say so as say otherwise
FEW = 3  # frames that say otherwise, behind which it may be another login that isn't there
AT_ONCE = 2_000  # milliseconds (E_D_TOV) within which no unanswered request is sent anew
PORT, NODE = slice(20, 28), slice(28, 36)  # names in the payload of a login
Say = Callable[[Shown], Hashable]


@dataclass
class Stretch:
    """What an ENode sent from one of its FLOGIs to the next; the first one, before any, has no login."""

    login: Optional[Shown]
    uses: list[Shown] = field(default_factory=list)  # FCoE, and keep alives of VN_Ports
    alive: list[Shown] = field(default_factory=list)  # keep alives of the ENode

    @property
    def all(self) -> list[Shown]:
        return [*self.uses, *self.alive]

    @property
    def is_prompt(self) -> bool:
        """What needs the login comes sooner behind it than a further FLOGI would, so that none is missing between."""
        return self.login is not None and any(it.clock - self.login.clock < AT_ONCE for it in self.uses)


def stretches(talk: Talk) -> list[Stretch]:
    """All of what an ENode sent, by its FLOGIs."""
    found: list[Stretch] = talk.told.get("stretches") or list(told_stretches(talk))
    talk.told["stretches"] = found
    return found


def told_stretches(talk: Talk) -> list[Stretch]:
    uses, made = {id(it) for it in talk.uses}, [Stretch(None)]
    for it in talk.own:
        if it.heard.is_fip and it.heard.kind == "FLOGI":
            made.append(Stretch(it))
        elif id(it) in uses:
            made[-1].uses.append(it)
        elif it.heard.kind == "Keep alive":
            made[-1].alive.append(it)
    return made


@dataclass
class Lot:
    """What some frames say: how many say what, and where they stand."""

    counts: Counter[Hashable] = field(default_factory=Counter)
    first: dict[Hashable, int] = field(default_factory=dict)
    last: dict[Hashable, int] = field(default_factory=dict)

    def take(self, at: int, value: Hashable) -> None:
        self.counts[value] += 1
        self.first.setdefault(value, at)
        self.last[value] = at

    def is_odd(self, at: int, value: Hashable, usual: Hashable) -> bool:
        """A frame says otherwise than many others, of which some stand before it and some behind it."""
        return value != usual and usual in self.counts and self.first[usual] < at < self.last[usual] and self.counts[usual] >= MANY * self.counts[value]


def lot_of(some: list[Shown], say: Say) -> Lot:
    made = Lot()
    for it in some:
        made.take(it.at, say(it))
    return made


def agree(talk: Talk, tally: Tally, name: str, say: Say, show: Callable[[Hashable], str]) -> None:
    """Each frame of an N_Port is as the FLOGI of its time: one that isn't, among many that are, or none that is, though keep alives are."""
    known = {say(one.login) for one in stretches(talk) if one.login}
    for one in stretches(talk):
        if one.login is None:
            for it in one.uses:
                tally.leave(ONE_WAY, it)
            continue
        due, lot, alive = say(one.login), lot_of(one.uses, say), lot_of(one.alive, say)
        is_whole = due not in lot.counts and set(alive.counts) == {due}  # keep alives go where the FLOGI did
        for it in one.uses:
            value = say(it)
            fault = Fault(name, show(value), f"{show(due)}, as of the FLOGI in frame {one.login.place}")
            if value == due:
                tally.held.append(it)
            elif value in known:  # of another login that goes on
                tally.leave(ONE_WAY, it)
            elif lot.is_odd(it.at, value, due) and lot.counts[value] <= FEW:
                tally.judge(it, fault)
            elif is_whole:
                tally.lack(("stretch", one.login.at), it, fault, missing=2 if one.is_prompt else 1)
            else:
                tally.leave(ONE_WAY, it)


def strayed(one: Stretch, say: Say) -> Optional[Hashable]:
    """Where all that follows a FLOGI goes, keep alives and FCoE alike, where that is elsewhere."""
    if one.login is None or not one.uses or not one.alive:
        return None
    there = {say(it) for it in one.all}
    return next(iter(there)) if len(there) == 1 and say(one.login) not in there else None


def by_address(one: Stretch) -> dict[int, list[Shown]]:
    """Frames of FCoE by their S_ID."""
    found: dict[int, list[Shown]] = {}
    for it in one.uses:
        if it.fc is not None and it.heard.is_fcoe:
            found.setdefault(it.fc.s_id, []).append(it)
    return found


def odd_macs(some: list[Shown]) -> dict[int, bytes]:
    """Where a frame of an address came from another MAC than many of its time: by its place, theirs."""
    lot = lot_of(some, lambda it: it.heard.source)
    usual = lot.counts.most_common(1)[0][0]
    return {it.at: usual for it in some if isinstance(usual, bytes) and lot.is_odd(it.at, it.heard.source, usual)}


def mac_before(talk: Talk, address: int, at: int) -> Optional[bytes]:
    """The MAC with which an address was used last."""
    return next((it.heard.source for it in reversed(talk.own_fcoe) if it.at < at and it.fc is not None and it.fc.s_id == address), None)


def told_names(it: Shown, fc: Optional[Fc]) -> list[tuple[int, bytes, bytes]]:
    """What a frame says of an address: its port name and, where that is there, its node name."""
    content = it.known
    if it.heard.kind == "VN_Port keep alive" and it.is_whole:
        return [(address, name, b"") for _, address, name in vx_in(it.heard)]
    if fc is None or not it.heard.is_fcoe and it.heard.kind != "LOGO":
        return []
    if len(content) >= LOGIN_SIZE and fc.r_ctl in (0x22, 0x23):
        return [(fc.s_id, content[PORT], content[NODE])]
    if it.heard.kind == "LOGO" and len(content) >= 16:
        return [(fc.s_id, content[8:16], b"")]
    return [(fc.s_id, content[8:16], content[16:24])] if it.heard.kind == "ADISC" and len(content) >= 28 else []


class Names:
    """The names that an ENode's frames tell, of each address and of all."""

    def __init__(self, talk: Talk) -> None:
        self.of: dict[tuple[int, bool], Counter[bytes]] = {}  # by address; port names, or node names
        self.all: Counter[bytes] = Counter()
        for it in talk.own:
            if it.heard.login_kind in ("FLOGI", "FDISC") and len(it.known) >= LOGIN_SIZE:
                self.all.update((it.known[PORT], it.known[NODE]))
            for address, port, node in told_names(it, it.fc):
                for is_node, name in enumerate((port, node)):
                    self.of.setdefault((address, bool(is_node)), Counter())[name] += 1
                    self.all[name] += 1

    def usual(self, address: int, name: bytes, is_node: bool = False) -> Optional[bytes]:
        """The name of an address, where a frame says one that no other frame does."""
        some = self.of.get((address, is_node), Counter())
        most = max(((count, it) for it, count in some.items() if any(it)), default=(0, b""))
        return most[1] if most[0] >= 2 and most[1] != name and any(name) and self.all[name] <= 1 else None


def names_of(talk: Talk) -> Names:
    found: Names = talk.told.get("names") or Names(talk)
    talk.told["names"] = found
    return found


def judge_names(talk: Talk, it: Shown, address: int, told: tuple[bytes, bytes], tally: Tally) -> None:
    """The names in a frame are those that the others of its address say; a node name may be left out."""
    names = names_of(talk)
    usual = [names.usual(address, name, bool(is_node)) for is_node, name in enumerate(told)]
    faults = [Fault(what, name.hex(), f"{should.hex()}, as in other frames of this address") for what, name, should in zip(("port name", "node name"), told, usual) if should]
    if faults:
        tally.lack(("name", it.at), it, *faults, missing=2)
    else:
        tally.leave(ONE_WAY, it)
