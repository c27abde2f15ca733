"""The exchange table: a row an exchange, and sums with times; for a terminal, as JSON and as CSV."""
import csv
import heapq
from typing import Any, Iterator, Optional, TextIO

from ..frames.columns import MILLISECOND
from ..frames.heard import colons, fcid
from ..moments import stamp
from ..printing import as_json
from .exchange import End, Exchange
from .reading import place_text
from .statistics import Group, Statistics, Sum
from .times import duration_text

Row = dict[str, Any]
WAITING = 20_000  # exchanges that wait to be written in the order of their begin
SERVICES = {0xFFFFFC: "name server", 0xFFFFFD: "fabric controller", 0xFFFFFE: "fabric port", 0xFFFFFA: "management server"}
COLUMNS = (
    "kind",
    "command",
    "originator",
    "responder",
    "originator_wwpn",
    "responder_wwpn",
    "ox_id",
    "rx_id",
    "vlan",
    "began",
    "first_frame",
    "answered",
    "answer_frame",
    "took_ns",
    "end",
    "answer",
    "lun",
    "reads",
    "writes",
    "wanted",
    "came",
    "lacking",
    "residual",
    "frames",
    "missing_frames",
    "bad_crc",
    "marks",
)


def name_of(address: int, names: dict[int, bytes]) -> Optional[str]:
    return SERVICES.get(address) or (colons(names[address]) if address in names else None)


def row_of(it: Exchange, names: dict[int, bytes]) -> Row:
    """An exchange as data."""
    cells = (
        it.kind.value,
        it.command,
        fcid(it.originator),
        fcid(it.responder),
        colons(it.enode) if it.enode else name_of(it.originator, names),
        name_of(it.responder, names),
        f"{it.ox_id:04x}",
        f"{it.rx_id:04x}",
        it.vlan or None,
        it.began,
        place_text(it.first),
        it.answered,
        place_text(it.answer) if it.answer else None,
        it.took,
        (it.end or End.OPEN).value,
        it.says or None,
        it.lun or None,
        it.reads,
        it.writes,
        it.wanted if it.reads or it.writes else None,
        it.came if it.reads or it.writes else None,
        it.lacks or None,
        it.residual or None,
        it.frames,
        "; ".join(it.holes) or None,
        ", ".join(map(place_text, it.broken)) or None,
        "; ".join(it.marks) or None,
    )
    return dict(zip(COLUMNS, cells))


SHAPE = "  {:<23}  {:>8}  {:<4}  {:<7} {:<7} {:<24} {:>8}  {}"
HEADS = SHAPE.format("began", "frame", "OX", "from", "to", "asked", "took", "how it ended")


def asked_text(it: Exchange) -> str:
    lun = f" LUN {it.lun}" if it.lun else ""
    size = f" {it.wanted}" if it.wanted else ""
    return f"{it.command}{lun}{size}"


def ended_text(it: Exchange) -> str:
    """How it ended, and what is amiss of it."""
    end = it.end or End.OPEN
    words = [it.says or end.value] if end is not End.ABORT_UNANSWERED else [end.value]
    if it.lacks:
        words.append(f"{it.came} of {it.due} bytes seen")
    words += [f"lacks {hole}" for hole in it.holes[:3]]
    words += [f"wrong check sequence in {len(it.broken)} of its frames"] if it.broken else []
    return "; ".join([*words, *it.marks[:4]])


def line_of(it: Exchange) -> str:
    """An exchange as a line."""
    took = duration_text(it.took) if it.took is not None else "-"
    cells = (stamp(it.began // MILLISECOND), place_text(it.first), f"{it.ox_id:04x}", fcid(it.originator), fcid(it.responder), asked_text(it), took)
    return SHAPE.format(*cells, ended_text(it))


# ---- sums


def sum_row(group: Group, found: Sum, names: dict[int, bytes]) -> Row:
    """Sums as data; times in nanoseconds."""
    kind, command, lun, responder = group
    times = found.times
    return {
        "kind": kind,
        "command": command,
        "lun": lun or None,
        "responder": fcid(responder),
        "responder_wwpn": name_of(responder, names),
        "count": found.count,
        "ends": dict(found.ends.most_common()),
        "answers": dict(found.says.most_common()),
        "bytes": found.moved,
        "lacking": found.lacking,
        "median_ns": times.quantile(0.5) if times.count else None,
        "p99_ns": times.quantile(0.99) if times.count else None,
        "greatest_ns": times.greatest if times.count else None,
        "greatest_frame": place_text(times.at_greatest) if times.count else None,
    }


SUM_SHAPE = "  {:<6} {:<24} {:<4} {:<24} {:>7}  {:>8} {:>8} {:>8} {:>9}  {}"
SUM_HEADS = SUM_SHAPE.format("kind", "asked", "LUN", "of", "count", "median", "99 %", "greatest", "in frame", "how they ended")


def sum_lines(statistics: Statistics, names: dict[int, bytes]) -> Iterator[str]:
    """The sums as lines."""
    yield SUM_HEADS
    for group, found in statistics.ranked():
        kind, command, lun, responder = group
        times = found.times
        told = [duration_text(it) for it in (times.quantile(0.5), times.quantile(0.99), times.greatest)] if times.count else ["-"] * 3
        ends = ", ".join(f"{end} {count}" for end, count in found.ends.most_common())
        says = "".join(f"; {count} {words}" for words, count in found.says.most_common(3))
        of = name_of(responder, names) or fcid(responder)
        where = place_text(times.at_greatest) if times.count else "-"
        yield SUM_SHAPE.format(kind, command, lun, of, found.count, *told, where, ends + says)
    if statistics.crowded:
        yield f"  {statistics.crowded} exchanges of further commands, LUNs and targets are summed as `others`"


# ---- writing rows as they come


class Rows:
    """Writes exchanges in one form: by their begin, as far as the room for those that wait for earlier ones goes."""

    def __init__(self, out: TextIO, form: str) -> None:
        self.out, self.form, self.count, self.taken = out, form, 0, 0
        self.waiting: list[tuple[int, int, Exchange]] = []
        self.csv = csv.DictWriter(out, list(COLUMNS), lineterminator="\n") if form == "csv" else None
        if self.csv is not None:
            self.csv.writeheader()
        elif form == "text":
            out.write(HEADS.rstrip() + "\n")

    def add(self, it: Exchange, names: dict[int, bytes]) -> None:
        self.taken += 1
        heapq.heappush(self.waiting, (it.began, self.taken, it))
        if len(self.waiting) > WAITING:
            self.write(heapq.heappop(self.waiting)[2], names)

    def write(self, it: Exchange, names: dict[int, bytes]) -> None:
        self.count += 1
        if self.form == "text":
            self.out.write(line_of(it).rstrip() + "\n")
        elif self.csv is not None:
            self.csv.writerow(row_of(it, names))
        elif self.form == "jsonl":
            self.out.write(as_json(row_of(it, names)) + "\n")
        else:
            self.out.write((",\n  " if self.count > 1 else '{"exchanges": [\n  ') + as_json(row_of(it, names)))

    def end(self, statistics: Statistics, names: dict[int, bytes]) -> None:
        """What waits, and the sums behind it; CSV and JSON lines have rows alone."""
        while self.waiting:
            self.write(heapq.heappop(self.waiting)[2], names)
        if self.form == "text":
            self.out.write("\n" + "\n".join(sum_lines(statistics, names)) + "\n")
        elif self.form == "json":
            sums = ",\n  ".join(as_json(sum_row(*it, names)) for it in statistics.ranked())
            self.out.write(("\n" if self.count else '{"exchanges": [') + f'],\n "sums": [\n  {sums}\n]}}\n')
