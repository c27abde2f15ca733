"""How far a long work is, by the seconds of a processor that it took: a line that is written over on a terminal, one each half minute elsewhere."""
import contextlib
import os
import pathlib
import time
from typing import Iterator

from fcoe.errors import note
from fcoe.progress import PROGRESS

EACH = 30.0  # seconds between two lines that stay
TICKS = os.sysconf("SC_CLK_TCK")


def processor_seconds(pid: int) -> float:
    """What a process and all that it began took so far."""
    parents: dict[int, int] = {}
    ticks: dict[int, int] = {}
    for path in pathlib.Path("/proc").glob("[0-9]*/stat"):
        with contextlib.suppress(OSError, ValueError):
            words = path.read_text(encoding="ascii", errors="replace").rpartition(")")[2].split()
            number = int(path.parent.name)
            parents[number], ticks[number] = int(words[1]), sum(map(int, words[11:15]))
    found, new = {pid}, {pid}
    while new:
        new = {it for it, parent in parents.items() if parent in new} - found
        found |= new
    return sum(ticks.get(it, 0) for it in found) / TICKS


def spell(seconds: float) -> str:
    """So many minutes and seconds."""
    minutes, rest = divmod(round(seconds), 60)
    return f"{minutes} min {rest} s" if minutes else f"{rest} s"


class Step:
    """A step of the work: what it does, how long it may take, and how long it took."""

    def __init__(self, what: str, expected: float) -> None:
        self.what, self.expected, self.seconds = what, expected, 0.0
        self.begun = self.last = time.monotonic()

    def shown(self, seconds: float) -> None:
        """Says how far it is."""
        self.seconds = max(self.seconds, seconds)
        now = time.monotonic()
        text = f"{self.what}: {round(self.seconds)} of about {round(self.expected)} s of processor time{self.left(now - self.begun)}"
        if PROGRESS.is_wanted:
            PROGRESS.say(text)
        elif now - self.last >= EACH:
            self.last = now
            note(text)

    def left(self, passed: float) -> str:
        """How long the rest takes by the clock, where the machine goes on as it did."""
        rest = self.expected - self.seconds
        if rest <= 0:
            return "; it takes longer than was expected"
        return f"; {spell(rest * passed / self.seconds)} more at this pace" if self.seconds >= 1 else ""


@contextlib.contextmanager
def step(verb: str, what: str, expected: float) -> Iterator[Step]:
    """Says what is done, how far it is, and how long it took."""
    note(f"{verb} {what}: about {spell(expected)} of processor time, longer by the clock where the machine is busy")
    made = Step(verb, expected)
    yield made
    note(f"{verb}: done after {spell(time.monotonic() - made.begun)}, {round(made.seconds)} s of processor time")
