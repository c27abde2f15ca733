"""Has a scene played: its steps one behind the other, over what is on the host's wire."""
import time
from dataclasses import dataclass, field
from typing import Callable, Optional

from ..frames.heard import Heard, fcid
from .script import All, Begin, EndHost, Like, Never, Peer, Scene, Spaced, Step, Straight, Wait, Want, World
from .stage import Bending, Event

READY = 20.0  # seconds that the peer has to be there
REMEMBERED = 3  # frames that a failure names


@dataclass
class Played:
    """A step, and how it went."""

    words: str
    held: Optional[bool] = None  # None where it wasn't come to
    at: float = 0.0
    what: str = ""


@dataclass
class Under:
    """The step that is under way."""

    begun: float
    place: int  # of the first event that counts
    found: list[Event] = field(default_factory=list)
    left: list[Like] = field(default_factory=list)


class Director:
    """Plays a scene, a turn at a time."""

    def __init__(self, scene: Scene, world: World, bending: Bending, slack: float, ends: dict[str, Callable[[], None]]) -> None:
        self.scene, self.world, self.bending, self.slack, self.ends = scene, world, bending, slack, ends
        self.begun = time.monotonic()
        self.events: list[Event] = []
        self.played = [Played(str(it)) for it in scene.steps]
        self.number = -1
        self.under = Under(0.0, 0)

    # ---- what is on the wire

    def note(self, from_host: bool, heard: Heard) -> None:
        if heard.is_fabric:
            self.events.append(Event(time.monotonic() - self.begun, from_host, heard))
            (self.world.note_said if from_host else self.world.note_told)(heard)

    # ---- its course

    def begin(self) -> None:
        """The host begins now."""
        self.begun, self.events[:] = time.monotonic(), []
        for it in self.scene.setup.bends:
            self.bending.begin(it)
        self.go_on(0)

    def go_on(self, place: int) -> None:
        self.number += 1
        self.under = Under(time.monotonic() - self.begun, place)
        if self.number < len(self.scene.steps):
            step = self.scene.steps[self.number]
            self.under.left = list(step.likes) if isinstance(step, All) else []

    @property
    def is_over(self) -> bool:
        return self.number >= len(self.scene.steps) or any(it.held is False for it in self.played)

    def turn(self) -> None:
        """Plays on as far as what is there allows."""
        while 0 <= self.number and not self.is_over:
            before = self.number
            self.look(self.scene.steps[before])
            if self.number == before:
                return

    def end(self, held: bool, what: str, place: Optional[int] = None) -> None:
        """The step is over; the next one counts from this event on."""
        played = self.played[self.number]
        played.held, played.at, played.what = held, time.monotonic() - self.begun, what
        if held:
            self.go_on(self.under.place if place is None else place)

    def look(self, step: Step) -> None:
        if isinstance(step, (Begin, Straight, Peer, EndHost)):
            self.act(step)
        elif isinstance(step, Wait):
            if self.passed() >= step.seconds:
                self.end(True, "", len(self.events))
        elif isinstance(step, Never):
            self.look_never(step)
        elif isinstance(step, All):
            self.look_all(step)
        elif isinstance(step, Spaced):
            self.look_spaced(step)
        else:
            self.look_want(step)

    def act(self, step: Step) -> None:
        if isinstance(step, Begin):
            self.bending.begin(step.bend)
        elif isinstance(step, Straight):
            self.bending.straighten()
        elif isinstance(step, Peer) and self.world.peer is not None:
            step.does(self.world.peer)
        elif isinstance(step, EndHost):
            self.ends["host"]()
        self.end(True, "")

    def passed(self) -> float:
        return time.monotonic() - self.begun - self.under.begun

    def new(self) -> list[tuple[int, Event]]:
        """The host's frames that the step hasn't seen yet."""
        found = [(at, it) for at, it in enumerate(self.events[self.under.place :], self.under.place) if it.from_host]
        self.under.place = len(self.events)
        return found

    # ---- what is looked for

    def look_want(self, step: Want) -> None:
        for at, it in self.new():
            if step.like.fits(it.heard, self.world):
                wrong = [holds.words for holds in step.holds if not holds.test(it.heard, self.world)]
                if wrong:
                    return self.end(False, f"{told(it)}: it isn't so that: {', '.join(wrong)}")
                self.under.found.append(it)
                if len(self.under.found) == step.count:
                    return self.end(True, told(it), at + 1)
            elif step.without is not None and step.without.fits(it.heard, self.world):
                return self.end(False, f"{told(it)} came before")
        if self.passed() > step.within * self.slack:
            count = f"{len(self.under.found)} of {step.count} came" if step.count > 1 else "none came"
            self.end(False, f"{count} within {step.within * self.slack:g} s; the host's last: {self.last()}")
        return None

    def look_all(self, step: All) -> None:
        for at, it in self.new():
            fitting = next((like for like in self.under.left if like.fits(it.heard, self.world)), None)
            if fitting is not None:
                wrong = [holds.words for holds in step.holds if not holds.test(it.heard, self.world)]
                if wrong:
                    return self.end(False, f"{told(it)}: it isn't so that: {', '.join(wrong)}")
                self.under.left.remove(fitting)
                if not self.under.left:
                    return self.end(True, told(it), at + 1)
        if self.passed() > step.within * self.slack:
            self.end(False, f"not seen: {', '.join(map(str, self.under.left))}; the host's last: {self.last()}")
        return None

    def look_never(self, step: Never) -> None:
        for at, it in self.new():
            if step.until is not None and step.until.fits(it.heard, self.world):
                return self.end(True, told(it), at)
            if it.moment >= self.under.begun + step.grace * self.slack and step.like.fits(it.heard, self.world):
                return self.end(False, f"{told(it)} came")
        if self.passed() > step.grace * self.slack + step.seconds:
            self.end(True, "")
        return None

    def look_spaced(self, step: Spaced) -> None:
        for at, it in self.new():
            if step.like.fits(it.heard, self.world):
                before = self.under.found[-1].moment if self.under.found else None
                if before is not None and not step.least <= it.moment - before <= step.most * self.slack:
                    return self.end(False, f"{told(it)}: {it.moment - before:.2f} s after the one before")
                self.under.found.append(it)
                if len(self.under.found) == step.count:
                    spaces = [two.moment - one.moment for one, two in zip(self.under.found, self.under.found[1:])]
                    return self.end(True, f"{min(spaces):.2f} to {max(spaces):.2f} s apart", at + 1)
        since = self.under.found[-1].moment if self.under.found else self.under.begun
        if time.monotonic() - self.begun - since > (step.most + 1.0) * self.slack:
            self.end(False, f"no further {step.like} for {time.monotonic() - self.begun - since:.1f} s; the host's last: {self.last()}")
        return None

    def last(self) -> str:
        found = [told(it) for it in self.events if it.from_host][-REMEMBERED:]
        return ", ".join(found) or "nothing"


def told(event: Event) -> str:
    """A frame in words: kind, addresses, moment."""
    fc = event.heard.fc
    ends = f" {fcid(fc.s_id)} to {fcid(fc.d_id)}" if fc is not None and event.heard.is_fcoe else ""
    return f"{event.heard.kind}{ends} at {event.moment:.2f} s"
