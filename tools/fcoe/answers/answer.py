"""The answer on top: what a person wants to know of captures first, worst first, each with the next step."""
import re
from dataclasses import dataclass, field
from enum import Enum, IntEnum
from typing import Any, Optional


FEW = 3  # hosts of which the same is said one by one


class Severity(IntEnum):
    """How bad it is, worst first."""

    FAILED = 1  # a host has no login
    BLOCKED = 2  # a host is logged in, and can't use its storage
    LOST = 3  # a login ended, though nobody closed it
    DROPPED = 4  # frames didn't arrive
    DIFFERENT = 5  # the switch answered otherwise than the standards say
    NOTED = 6  # what the captures don't show, or what was taken from them
    WELL = 7  # nothing amiss


class About(Enum):
    """What is in trouble, where a broken rule may explain it."""

    ENTRY = "discovery and login"
    FURTHER = "further N_Ports of a host"
    ALIVE = "keep alives"


@dataclass
class Answer:
    """One thing to know: what it is, of whom, when, and what to do next."""

    severity: Severity
    text: str
    step: str = ""
    port: Optional[int] = None
    wwpn: str = ""  # the port name, or the MAC where no login told it
    since: Optional[int] = None  # milliseconds since 1970, of the first frame and the last
    until: Optional[int] = None
    frames: list[tuple[int, int]] = field(default_factory=list)  # port, and the number as Wireshark shows it
    followers: list[str] = field(default_factory=list)  # what follows from it, one line each
    more: int = 0  # frames beyond those that are listed
    about: Optional[About] = None
    enode: bytes = b""  # the host's MAC, where what is in trouble is told

    @property
    def count(self) -> int:
        return len(self.frames) + self.more


def row_of(it: Answer) -> dict[str, Any]:
    """An answer as JSON and the report have it."""
    return {
        "severity": it.severity.name.lower(),
        "text": it.text,
        "next": it.step or None,
        "port": it.port,
        "wwpn": it.wwpn or None,
        "from": it.since,
        "to": it.until,
        "count": it.count,
        "frames": [list(place) for place in it.frames[:8]],
        "followers": it.followers,
    }


def grouped(found: list[Answer]) -> list[Answer]:
    """Answers that say the same of more than a few hosts as one, with the hosts under it."""
    groups: dict[tuple[object, ...], list[Answer]] = {}
    for it in found:
        words = re.sub(r"\b(once|twice|[\d.]+)(?= |$)", "#", it.text)
        groups.setdefault((it.severity, re.sub(r"(#[^#]*?)s\b", r"\1", words), it.step) if it.wwpn else (id(it),), []).append(it)
    return [it for some in groups.values() for it in (some if len(some) <= FEW else [as_one(some)])]


def as_one(some: list[Answer]) -> Answer:
    """What is said of several hosts alike, in the words of the first."""
    first, frames = some[0], [place for it in some for place in it.frames]
    hosts = [f"{it.wwpn} (port {it.port})" + (f": {it.text}" if it.text != first.text else "") for it in some]
    since, until = [it.since for it in some if it.since is not None], [it.until for it in some if it.until is not None]
    text = f"{len(some)} hosts alike; the first, {first.wwpn} on port {first.port}: {first.text}"
    return Answer(first.severity, text, first.step, None, "", min(since, default=None), max(until, default=None), frames, hosts, sum(it.more for it in some))


def times(count: int) -> str:
    """How often, in words."""
    return {1: "once", 2: "twice"}.get(count, f"{count} times")
