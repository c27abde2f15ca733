"""What ended exchanges come to: how many, how they ended, how long they took, by command, LUN and target."""
from collections import Counter
from dataclasses import dataclass, field
from typing import Iterable

from .exchange import End, Exchange, Kind
from .times import Times

MOST = 4096  # groups; further ones are one
Group = tuple[Kind, str, str, int]  # kind, command, LUN, responder


@dataclass
class Sum:
    """Exchanges of one kind, command, LUN and responder."""

    count: int = 0
    ends: Counter[str] = field(default_factory=Counter)
    says: Counter[str] = field(default_factory=Counter)  # the answers other than that it is done
    times: Times = field(default_factory=Times)
    moved: int = 0  # bytes of data
    lacking: int = 0  # bytes


@dataclass
class Statistics:
    """The sums of all exchanges."""

    sums: dict[Group, Sum] = field(default_factory=dict)
    crowded: int = 0  # exchanges that are in no group of their own

    def add(self, it: Exchange) -> None:
        found = self.sums.get((it.kind, it.command, it.lun, it.responder)) or self.added(it)
        found.count += 1
        end = it.end or End.OPEN
        found.ends[end] += 1
        if end in (End.REJECTED, End.RETURNED, End.FAILED, End.ABORT_REJECTED) and (it.says in found.says or len(found.says) < 16):
            found.says[it.says] += 1
        if it.took is not None and end in (End.DONE, End.FAILED, End.REJECTED, End.RETURNED):
            found.times.add(it.took, it.first)
        found.moved += it.came
        found.lacking += it.lacks

    def added(self, it: Exchange) -> Sum:
        """The sum of a group that wasn't met yet."""
        group = (it.kind, it.command, it.lun, it.responder)
        if len(self.sums) >= MOST:
            self.crowded += 1
            group = (it.kind, "others", "", 0)
        if group not in self.sums:
            self.sums[group] = Sum()
        return self.sums[group]

    def ranked(self) -> Iterable[tuple[Group, Sum]]:
        """By kind, responder, LUN, and then by count."""
        order = {kind: at for at, kind in enumerate(Kind)}
        return sorted(self.sums.items(), key=lambda it: (order[it[0][0]], it[0][3], it[0][2], -it[1].count, it[0][1]))
