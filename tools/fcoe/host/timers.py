"""Timers by name."""
import heapq
from typing import Callable, Hashable

Call = Callable[[], None]


class Timers:
    """What is due when; a timer that is set again is due at the later moment alone."""

    def __init__(self, clock: Callable[[], float]) -> None:
        self.clock = clock
        self.heap: list[tuple[float, int, Hashable]] = []
        self.calls: dict[Hashable, tuple[int, Call]] = {}
        self.count = 0

    def set(self, key: Hashable, seconds: float, call: Call) -> None:
        self.count += 1
        self.calls[key] = (self.count, call)
        heapq.heappush(self.heap, (self.clock() + seconds, self.count, key))

    def drop(self, key: Hashable) -> None:
        self.calls.pop(key, None)

    def clear(self) -> None:
        self.heap.clear()
        self.calls.clear()

    def run(self) -> None:
        """Does what is due."""
        now = self.clock()
        while self.heap and self.heap[0][0] <= now:
            _, number, key = heapq.heappop(self.heap)
            held = self.calls.get(key)
            if held is not None and held[0] == number:
                del self.calls[key]
                held[1]()

    def left(self, most: float) -> float:
        """Seconds until something is due, and no more than this."""
        return min(most, max(0.0, self.heap[0][0] - self.clock())) if self.heap else most
