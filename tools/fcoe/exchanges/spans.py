"""Which numbers of a range were seen: bytes of a transfer by their offset, frames of a sequence by their SEQ_CNT."""
from bisect import bisect_right

NONE: list[int] = []  # of ranges that are empty yet, which most stay: never added to


class Spans:
    """Ranges that don't touch, in order; what comes in order stays one range, however long it is."""

    __slots__ = ("begins", "ends")

    def __init__(self) -> None:
        self.begins = self.ends = NONE

    def add(self, begin: int, end: int) -> bool:
        """Takes a range; tells whether any of it is new."""
        if begin >= end:
            return False
        if not self.ends:
            self.begins, self.ends = [begin], [end]
            return True
        if self.begins[-1] <= begin <= self.ends[-1]:  # the usual case: behind all that came
            is_new = end > self.ends[-1]
            self.ends[-1] = max(end, self.ends[-1])
            return is_new
        at = bisect_right(self.begins, begin)
        if at and self.ends[at - 1] >= end:
            return False
        if at and self.ends[at - 1] >= begin:
            at, begin = at - 1, self.begins[at - 1]
        last = at
        while last < len(self.begins) and self.begins[last] <= end:
            end = max(end, self.ends[last])
            last += 1
        self.begins[at:last], self.ends[at:last] = [begin], [end]
        return True

    @property
    def total(self) -> int:
        return sum(self.ends) - sum(self.begins)

    def lacking(self, begin: int, end: int) -> list[tuple[int, int]]:
        """The parts of a range that weren't seen."""
        if len(self.ends) == 1 and self.begins[0] <= begin and end <= self.ends[0]:
            return []
        found = []
        for first, last in zip(self.begins, self.ends):
            if first >= end:
                break
            if first > begin:
                found.append((begin, first))
            begin = max(begin, last)
        return found + ([(begin, end)] if begin < end else [])
