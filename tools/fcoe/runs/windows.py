"""Whether the window of a run decided over a frame: the order of frames of several ports within one window is free (docs/JOURNAL.md)."""
from typing import Iterator, Optional, Sequence

from ..frames.heard import Heard, fcid
from .fabric import Login, Walk
from .journals import Frame
from .program import Run
from .readdress import CT_FIRST

E_D_TOV = 2000  # milliseconds


def login_of(walk: Walk, address: int, place: int) -> Optional[Login]:
    """The login that holds an address at an entry, or held it last before, or else gets it next."""
    own = walk.fabric.of_address(address)
    before = [it for it in own if it.granted_by <= place]
    return before[-1] if before else (own[0] if own else None)


def logins_near(walk: Walk, address: int, place: int) -> list[Login]:
    """The logins of an address that may matter at an entry: the one that holds or held it, and the one that gets it next."""
    own = walk.fabric.of_address(address)
    before, behind = [it for it in own if it.granted_by <= place], [it for it in own if it.granted_by > place]
    return before[-1:] + behind[:1]


def ends_of(heard: Heard) -> list[tuple[str, int]]:
    """The ends of a frame that may be N_Ports, each with its role, and the address that a query asks for."""
    fc, vx = heard.fc, heard.descriptor(11)
    if heard.is_fcoe and fc is not None:
        asked = int.from_bytes(fc.payload[17:20], "big") if fc.kind == 0x20 and fc.command in CT_FIRST and len(fc.payload) >= 20 else fc.s_id
        return [("source", fc.s_id), ("destination", fc.d_id)] + ([("asked for", asked)] if asked != fc.s_id else [])
    if fc is not None and fc.s_id:
        return [("source", fc.s_id)]
    return [("source", int.from_bytes(vx.data[9:12], "big"))] if vx and len(vx.data) >= 12 else []


def in_window(run: Run, entry: Frame, login: Login) -> Iterator[tuple[str, int, Frame]]:
    """The grant and the end of a login, where they stand in the frame's window on another port."""
    for what, place in (("grant", login.granted_by), ("end", login.ended_by)):
        other = run.entries[place] if place is not None else None
        if place is not None and isinstance(other, Frame) and other.clock == entry.clock and other.port != entry.port:
            yield what, place, other


def gap_of(run: Run, entry: Frame, other: Frame) -> int:
    """Nanoseconds from another frame to this one, as they were captured."""
    return run.ports[entry.port - 1].moment(entry.index) - run.ports[other.port - 1].moment(other.index)


def is_otherwise(run: Run, walk: Walk, entry: Frame, place: int) -> bool:
    """A grant or an end in the frame's window was captured on the other side of it than it was judged."""
    for _, address in ends_of(run.ports[entry.port - 1].like(entry.index)):
        for login in logins_near(walk, address, place):
            for _, there, other in in_window(run, entry, login):
                if (gap_of(run, entry, other) >= 0) != (there < place):
                    return True
    return False


def at_its_end(walk: Walk, entry: Frame, heard: Heard, place: int) -> str:
    """Which login ended so near to a frame that a switch may have had it on its way; empty where none did."""
    is_late = entry.verdict in ("dropped source-login", "dropped dest-login")
    for _, address in ends_of(heard) if is_late or heard.kind == "LOGO" else ():
        login = login_of(walk, address, place)
        gap = login.until - entry.clock if login is not None and login.until is not None else E_D_TOV + 1
        if (-E_D_TOV <= gap <= 0) if is_late else (0 <= gap <= E_D_TOV):
            return f"the login of {fcid(address)} ended {abs(gap)} ms {'before' if is_late else 'behind'} it, within E_D_TOV: what was on its way then may be taken or left"
    return ""


def near_changes(run: Run, walk: Walk, places: Sequence[int]) -> list[int]:
    """The entries that stand in a window in which a login begins or ends."""
    clocks = {run.entries.clocks[it] for login in walk.fabric.logins for it in (login.granted_by, login.ended_by) if it is not None}
    return [it for it in places if run.entries.clocks[it] in clocks]


def otherwise(window: int) -> str:
    """What would decide otherwise over frames of one window."""
    return "`--window 10` or one capture for all ports (--together)" if window > 10 else "one capture for all ports (--together)"
