"""The report's section of exchanges: which of them didn't end well, how long commands took, and the sums."""
import math
from dataclasses import dataclass, field
from typing import Any

from ..exchanges.command import scope_of
from ..exchanges.engine import Engine
from ..exchanges.exchange import End, Exchange, Kind
from ..exchanges.frame import frames_in
from ..exchanges.reading import place_text
from ..exchanges.statistics import Group, Statistics, Sum
from ..exchanges.table import asked_text, ended_text, name_of
from ..exchanges.times import duration_text
from ..frames.columns import MILLISECOND
from ..frames.heard import fcid
from ..moments import short
from ..runs.looking import Look

Row = dict[str, Any]
AMISS, WELL = 400, 200  # exchanges that the page lists: of those that are amiss, and of the others the first
SUMS, PLOTTED = 200, 24  # commands that have a line of sums, and of which the times are drawn
DECADES = ((1_000, "1 us"), (10_000, "10 us"), (100_000, "100 us"), (1_000_000, "1 ms"), (10_000_000, "10 ms"), (100_000_000, "100 ms"), (1_000_000_000, "1 s"), (10_000_000_000, "10 s"))


@dataclass
class Kept:
    """Exchanges as they end, as far as the page has room for them, and their sums."""

    statistics: Statistics = field(default_factory=Statistics)
    amiss: list[Exchange] = field(default_factory=list)
    well: list[Exchange] = field(default_factory=list)
    left: int = 0

    def take(self, it: Exchange) -> None:
        self.statistics.add(it)
        is_well = it.end is End.DONE and not it.lacks and not it.broken
        own, most = (self.well, WELL) if is_well else (self.amiss, AMISS)
        if len(own) < most:
            own.append(it)
        else:
            self.left += 1


def exchange_row(it: Exchange, first: int, names: dict[int, bytes]) -> Row:
    """An exchange as the page's table has it."""
    ends = [name_of(address, names) or fcid(address) for address in it.pair]
    is_well = it.end is End.DONE and not it.lacks and not it.broken
    return {
        "spot": place_text(it.first),
        "at": short(it.began // MILLISECOND, first),
        "ox_id": f"{it.ox_id:04x}",
        "from": ends[0],
        "to": ends[1],
        "asked": asked_text(it),
        "took": duration_text(it.took) if it.took is not None else "",
        "ended": ended_text(it),
        "is_well": is_well,
    }


def sum_row(group: Group, found: Sum, names: dict[int, bytes]) -> Row:
    """The sums of a command at a LUN of a target."""
    kind, command, lun, responder = group
    times = found.times
    durations = [duration_text(it) for it in (times.quantile(0.5), times.quantile(0.99), times.greatest)] if times.count else ["", "", ""]
    ends = ", ".join(f"{end} {count}" for end, count in found.ends.most_common())
    says = "".join(f"; {count} {words}" for words, count in found.says.most_common(3))
    where = place_text(times.at_greatest) if times.count else ""
    return {"kind": str(kind), "asked": command, "lun": lun, "of": name_of(responder, names) or fcid(responder), "count": found.count, "times": durations, "where": where, "ended": ends + says}


def place_of(nanoseconds: int) -> float:
    """Where a duration stands on the plot's scale, in hundredths: by its logarithm, from 1 us to 10 s."""
    low, high = (math.log10(it[0]) for it in (DECADES[0], DECADES[-1]))
    return round(min(max(100 * (math.log10(max(nanoseconds, 1)) - low) / (high - low), 0), 100), 2)


def plot_row(group: Group, found: Sum, names: dict[int, bytes]) -> Row:
    """A command's line in the plot: its median, the 99 % and the greatest."""
    _, command, lun, responder = group
    times = [found.times.quantile(0.5), found.times.quantile(0.99), found.times.greatest]
    middle, most, last = map(place_of, times)
    words = ", ".join(f"{word} {duration_text(it)}" for word, it in zip(("median", "99 %", "greatest"), times))
    label = f"{command}{f' LUN {lun}' if lun else ''}"
    return {"label": label, "of": name_of(responder, names) or fcid(responder), "count": found.count, "middle": middle, "most": most, "last": last, "words": words}


def exchange_rows(look: Look, first: int) -> Row:
    """What the section shows."""
    kept = Kept()
    engine = Engine(kept.take, scope_of(look.captured))
    engine.take_all(frames_in(look.captured, look.inputs.switches))
    ranked = list(kept.statistics.ranked())
    timed = sorted((it for it in ranked if it[0][0] in (Kind.FCP, Kind.NVME) and it[1].times.count), key=lambda it: -it[1].count)
    busiest = {it[0] for it in timed[:PLOTTED]}
    return {
        "listed": [exchange_row(it, first, engine.names) for it in sorted(kept.amiss + kept.well, key=lambda it: it.began)],
        "left": kept.left,
        "amiss": len(kept.amiss),
        "sums": [sum_row(*it, engine.names) for it in ranked[:SUMS]],
        "more_sums": max(len(ranked) - SUMS, 0),
        "plot": [plot_row(*it, engine.names) for it in ranked if it[0] in busiest],
        "marks": [{"left": place_of(it), "text": text} for it, text in DECADES],
    }
