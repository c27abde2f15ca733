"""How long exchanges took, in room that doesn't grow with their count."""
import math
from collections import Counter
from dataclasses import dataclass, field

STEPS = 64  # buckets for each doubling: a quantile is right to one part in a hundred


@dataclass
class Times:
    """Durations in nanoseconds by buckets that grow with them; the greatest and the sum are exact."""

    buckets: Counter[int] = field(default_factory=Counter)
    count: int = 0
    total: int = 0
    greatest: int = 0
    at_greatest: tuple[int, int] = (0, 0)  # port and frame of the exchange that took longest

    def add(self, duration: int, frame: tuple[int, int]) -> None:
        duration = max(duration, 0)
        self.buckets[int(math.log2(duration + 1) * STEPS)] += 1
        self.count += 1
        self.total += duration
        if duration >= self.greatest:
            self.greatest, self.at_greatest = duration, frame

    def quantile(self, part: float) -> int:
        """The duration that so large a part doesn't exceed."""
        want, seen = math.ceil(part * self.count), 0
        for bucket in sorted(self.buckets):
            seen += self.buckets[bucket]
            if seen >= want:
                return min(int(2 ** ((bucket + 0.5) / STEPS)), self.greatest)
        return self.greatest


def duration_text(nanoseconds: int) -> str:
    """A duration as people say it."""
    for unit, size in (("s", 1_000_000_000), ("ms", 1_000_000), ("us", 1000)):
        if nanoseconds >= size:
            return f"{nanoseconds / size:.3g} {unit}" if nanoseconds < 1000 * size else f"{nanoseconds // size} {unit}"
    return f"{nanoseconds} ns"
