"""Switches that advertise themselves in one VLAN: which of them is the run's, which a host tried, and what tells them apart."""
from dataclasses import dataclass
from typing import Iterator, Optional

from ..frames.heard import colons
from ..runs.configs import Advertised, forwarders, is_advertisement
from ..runs.looking import Look
from .answer import Answer, Severity

COUNTS = {2: "two", 3: "three", 4: "four"}
PART = "part the VLANs, or set the priorities (a host takes the lowest value)"


def level_of(it: Advertised) -> str:
    return f"priority {it.priority if it.priority is not None else 'unknown'}"


def switch_text(it: Advertised) -> str:
    return f"{colons(it.mac)} ({level_of(it)})"


@dataclass
class Rivals:
    """The run's switch as a port hears it, and those that advertise themselves in its VLAN too."""

    own: Advertised
    others: list[Advertised]

    @property
    def are_apart(self) -> bool:
        """They are of several fabrics."""
        fabrics = {it.fabric for it in (self.own, *self.others)}
        return None not in fabrics and len(fabrics) > 1

    @property
    def text(self) -> str:
        count = 1 + len(self.others)
        whose = " of different fabrics" if self.are_apart else " of one fabric" if len({it.fabric for it in (self.own, *self.others)}) == 1 and self.own.fabric else ""
        return f"{COUNTS.get(count, count)} switches{whose} advertise in VLAN {self.own.vlan}"

    @property
    def fabrics(self) -> str:
        """Of which fabric each is."""
        return ", ".join(f"{colons(it.mac)} is of fabric {colons(it.fabric) if it.fabric else 'unknown'}" for it in (self.own, *self.others))

    def other(self, mac: bytes) -> Optional[Advertised]:
        return next((it for it in self.others if it.mac == mac), None)


def rivals_on(look: Look, port: int) -> Optional[Rivals]:
    """The switches that advertise themselves on a port in the VLAN of the run's, where there are several."""
    known = forwarders([it.heard for it in look.captured[port - 1].frames.used() if is_advertisement(it.heard)])
    own = known.get(look.run.config.mac)
    if own is None:
        return None
    others = [it for mac, it in sorted(known.items()) if mac != own.mac and it.vlan == own.vlan]
    return Rivals(own, others) if others else None


def several(look: Look) -> Iterator[Answer]:
    """Ports on which several switches advertise themselves."""
    for port in look.captured:
        rivals = rivals_on(look, port.number)
        if rivals is not None:
            told = " and ".join(switch_text(it) for it in (rivals.own, *rivals.others))
            step = f"{PART}; `--fcf MAC` looks at another of them" if rivals.are_apart else "`--fcf MAC` looks at another of them"
            yield Answer(Severity.NOTED, f"{rivals.text}: {told}", step, port.number, followers=[rivals.fabrics])
