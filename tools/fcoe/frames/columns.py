"""A capture as columns: of each frame its moment, where it stands in its file and what it is like; its bytes are read when they are wanted."""
import os
import weakref
from array import array
from collections import Counter
from dataclasses import dataclass, field, replace
from itertools import compress, islice
from operator import itemgetter
from typing import Callable, Generic, Iterable, Iterator, Optional, Sequence, TypeVar, Union, overload

from ..errors import Refused
from ..files import plain
from ..progress import PROGRESS
from .heard import FCOE_TYPE, FIP_TYPE, TAG_TYPE, Heard, hear, number
from .limits import BOTH, MOST_BYTES, MOST_FRAMES, refuse

MILLISECOND = 1_000_000
LAST = 10**9 << 32  # nanoseconds since 1970: no classic capture goes on so long
SCANNED, PIECE = 1 << 20, 1 << 17  # bytes that are read at once, of a file from its begin to its end and of one where frames are wanted
BATCH = 4096  # rows that go into the columns at once
KEPT = 100_000  # messages that stay decoded
FIP = FIP_TYPE.to_bytes(2, "big")
TAGGED, BARE = 41, 37  # bytes of a frame up to TYPE of its FC header, with a tag and without one
BEHIND = 23  # and from there to the end of the least FCoE frame
MESSAGES = (0x01, 0x20)  # TYPE of link services and of CT

Row = tuple[int, int, bytes, int, int, int]  # of a record: nanoseconds, place in the file, bytes that hold it and where in them, size, length
T = TypeVar("T")


@dataclass(slots=True)
class Record:
    """A captured frame: nanoseconds, what is there of it, how long it was, its number in the file (as Wireshark counts), its interface."""

    moment: int
    data: bytes
    length: int
    number: int
    interface: int = 0

    @property
    def milliseconds(self) -> int:
        return self.moment // MILLISECOND


class Source:
    """A file that is read by pieces."""

    def __init__(self, name: str, shown: Optional[str] = None) -> None:
        self.name, self.shown = name, shown or name
        self.file = plain(name)
        weakref.finalize(self, os.close, self.file)
        self.size = os.fstat(self.file).st_size
        self.begin, self.piece = 0, b""

    def read(self, place: int, size: int) -> bytes:
        """So many bytes from a place on; fewer at the end of the file, so that a length that is spoiled takes no room."""
        return os.pread(self.file, max(min(size, self.size - place), 0), place)

    def take(self, place: int, size: int) -> bytes:
        """Bytes that were there when the file was opened."""
        at = place - self.begin
        if at < 0 or at + size > len(self.piece):
            self.begin, self.piece, at = place, self.read(place, max(size, PIECE)), 0
            if len(self.piece) < size:
                raise Refused(f"{self.shown}: became shorter while it was read: copy it, and look at the copy")
        return self.piece[at : at + size]


@dataclass
class Flow:
    """Frames that are alike up to TYPE of their FC header: the first of them, and whether each is a message that is read on its own."""

    heard: Heard
    is_message: bool


class Listed(Sequence[T], Generic[T]):
    """A sequence whose items are made when they are asked for."""

    def __init__(self, count: int, item: Callable[[int], T]) -> None:
        self.places, self.item = range(count), item

    def __len__(self) -> int:
        return len(self.places)

    @overload
    def __getitem__(self, at: int) -> T: ...

    @overload
    def __getitem__(self, at: slice) -> list[T]: ...

    def __getitem__(self, at: Union[int, slice]) -> Union[T, list[T]]:
        if isinstance(at, slice):
            return [self.item(it) for it in self.places[at]]
        return self.item(self.places[at])

    def __iter__(self) -> Iterator[T]:
        return map(self.item, self.places)


def front_size(kind: bytes) -> int:
    """How many bytes of a frame tell what it is like, by those from its Ethertype on."""
    is_tagged = number(kind[:2]) == TAG_TYPE
    of_fabric = number(kind[4:] if is_tagged else kind[:2]) in (FIP_TYPE, FCOE_TYPE)
    if of_fabric:
        return TAGGED if is_tagged else BARE
    return 18 if is_tagged else 14


def is_message(heard: Heard) -> bool:
    """FIP, and link services and CT in FCoE."""
    return heard.is_fip or heard.is_fcoe and heard.fc is not None and heard.fc.kind in MESSAGES


@dataclass
class Frames:
    """The frames of a file or of a part of it, in columns. Those that the forwarder sent are plain: without flows."""

    source: Source
    moments: "array[int]" = field(default_factory=lambda: array("q"))
    places: "array[int]" = field(default_factory=lambda: array("Q"))
    sizes: "array[int]" = field(default_factory=lambda: array("I"))
    lengths: "array[int]" = field(default_factory=lambda: array("I"))
    flow_of: "array[int]" = field(default_factory=lambda: array("I"))
    flows: list[Flow] = field(default_factory=list)
    numbers: Sequence[int] = ()  # in the file; none where they are 1, 2, ..
    interfaces: Sequence[int] = ()  # none where there is one
    decoded: dict[int, Heard] = field(default_factory=dict, repr=False)
    told: Optional["array[int]"] = None  # the places of messages, once they were asked for
    alike: Optional[list[Heard]] = None  # the first of each other frames that are alike, once they were asked for
    size: int = 0  # bytes of all frames, while they are read
    is_mirror_cut: bool = False  # frames are cut by a mirror, which doesn't tell how long they were

    def __len__(self) -> int:
        return len(self.moments)

    def fill(self, rows: Iterable[Row], is_plain: bool = False) -> None:
        """Takes the records of a file; plain ones aren't told apart."""
        columns = (self.moments, self.places, self.sizes, self.lengths, self.flow_of)
        taken: Iterator[tuple[int, ...]] = map(itemgetter(0, 1, 4, 5), rows) if is_plain else self.told_apart(rows)
        while some := list(islice(taken, BATCH)):
            rows_by_column = list(zip(*some))
            self.check_moments(rows_by_column[0])
            for column, values in zip(columns, rows_by_column):
                column.extend(values)
            if not is_plain:
                self.check_limits(sum(rows_by_column[2]))
            PROGRESS.say(f"{self.source.shown}: {len(self):,} frames read, {100 * self.places[-1] // self.source.size} % of the file")

    def check_moments(self, moments: Sequence[int]) -> None:
        """Refuses moments that no classic capture can have."""
        if min(moments) < 0 or max(moments) >= LAST:
            at = next(at for at, it in enumerate(moments) if not 0 <= it < LAST)
            raise Refused(f"{self.source.shown}: frame {len(self) + at + 1} has a time before 1970 or behind 2106: look at the clock of its interface (if_tsresol and if_tsoffset of pcapng)")

    def check_limits(self, size: int) -> None:
        """Refuses more than `run` takes; where a switch's own frames are here, these may be as much again."""
        self.size += size
        if len(self) <= MOST_FRAMES and self.size <= MOST_BYTES:
            return
        most = BOTH if any(it.heard.is_of_switch for it in self.flows) else 1
        if len(self) > most * MOST_FRAMES:
            refuse(self.source.shown, "limit frames", MOST_FRAMES)
        if self.size > most * MOST_BYTES:
            refuse(self.source.shown, "limit bytes", MOST_BYTES)

    def told_apart(self, rows: Iterable[Row]) -> Iterator[tuple[int, ...]]:
        """Moment, place, size and length of records, and the number of their flow."""
        fronts: dict[bytes, int] = {}
        known: dict[object, int] = {}
        for moment, place, data, at, size, length in rows:
            kind = data[at + 12 : at + 18]
            front = fronts.get(kind)
            if front is None:
                front = fronts[kind] = front_size(kind)
            if size >= front + BEHIND:
                key: object = data[at : at + front]
            else:  # told apart whole, as what is read of it depends on its length
                key = (size, data[at : at + size])
            flow = known.get(key)
            if flow is None:
                flow = known[key] = len(self.flows)
                heard = hear(data[at : at + size])
                self.flows.append(Flow(heard, is_message(heard)))
            yield moment, place, size, length, flow

    def data(self, at: int) -> bytes:
        return self.source.take(self.places[at], self.sizes[at])

    def is_whole(self, at: int) -> bool:
        return self.lengths[at] == self.sizes[at]

    def bytes_at(self, at: int, begin: int, size: int) -> bytes:
        """Some bytes of a frame, as far as they are there."""
        return self.source.take(self.places[at] + begin, max(min(size, self.sizes[at] - begin), 0))

    def is_fip(self, at: int) -> bool:
        """FIP, told without reading the frame further."""
        kind = self.bytes_at(at, 12, 6)
        return FIP in (kind[:2], kind[4:])

    def number(self, at: int) -> int:
        """A frame's number as Wireshark shows it."""
        return self.numbers[at] if self.numbers else at + 1

    def at_number(self, number_: int) -> Optional[int]:
        """The place of the frame with this number."""
        if self.numbers:
            return self.numbers.index(number_) if number_ in self.numbers else None
        return number_ - 1 if 0 < number_ <= len(self) else None

    def milliseconds(self, at: int) -> int:
        return self.moments[at] // MILLISECOND

    def record(self, at: int) -> Record:
        return Record(self.moments[at], self.data(at), self.lengths[at], self.number(at), self.interfaces[at] if self.interfaces else 0)

    def like(self, at: int) -> Heard:
        """A frame that is like this one up to TYPE of its FC header; a message itself."""
        flow = self.flows[self.flow_of[at]] if self.flow_of else None
        return self.heard(at) if flow is None or flow.is_message else flow.heard

    def heard(self, at: int) -> Heard:
        """What a frame is."""
        found = self.decoded.get(at)
        if found is None:
            found = hear(self.data(at))
            if len(self.decoded) < KEPT and is_message(found):
                self.decoded[at] = found
        return found

    @property
    def records(self) -> Listed[Record]:
        return Listed(len(self), self.record)

    def is_message_at(self) -> Iterator[bool]:
        """Whether each frame is a message: FIP, link services and CT."""
        told = [it.is_message for it in self.flows]
        return map(told.__getitem__, self.flow_of)

    def messages(self) -> "array[int]":
        """The places of messages."""
        if self.told is None:
            self.told = array("I", compress(range(len(self)), self.is_message_at()))
        return self.told

    def used(self) -> list[Flow]:
        """The kinds of frames that are here."""
        return [self.flows[it] for it in sorted(set(self.flow_of))]

    def telling(self) -> list[Heard]:
        """Each message, and of other frames the first of those that are alike, with their count."""
        if self.alike is None:
            counts = sorted(Counter(self.flow_of).items())
            self.alike = [replace(self.flows[flow].heard, count=count) for flow, count in counts if not self.flows[flow].is_message]
        return [*map(self.heard, self.messages()), *self.alike]

    def part(self, chosen: Sequence[int]) -> "Frames":
        """Some of these frames."""

        def some(kind: str, values: Sequence[int]) -> "array[int]":
            return array(kind, (values[at] for at in chosen))

        numbers = array("I", (self.number(at) for at in chosen))
        interfaces = some("I", self.interfaces) if self.interfaces else ()
        columns = (some("q", self.moments), some("Q", self.places), some("I", self.sizes), some("I", self.lengths), some("I", self.flow_of))
        return Frames(self.source, *columns, self.flows, numbers, interfaces, is_mirror_cut=self.is_mirror_cut)
