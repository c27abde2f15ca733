"""Journals in both formats (docs/JOURNAL.md), and the rows of that page."""
import pathlib
import re
from array import array
from bisect import bisect_right
from dataclasses import dataclass
from functools import lru_cache
from typing import Callable, Iterator, Optional, Sequence, Union, overload

from ..errors import Refused
from ..files import lines_of
from ..numerals import told
from ..progress import PROGRESS

PAGE = pathlib.Path(__file__).resolve().parents[3] / "docs" / "JOURNAL.md"


@dataclass(slots=True)
class Tick:
    """The clock moves, and logins end."""

    clock: int
    ended: list[int]


@dataclass(slots=True)
class Frame:
    """A frame of a port and its verdict."""

    clock: int
    port: int
    index: int
    verdict: str

    @property
    def word(self) -> str:
        return self.verdict.split(" ")[0]

    @property
    def words(self) -> list[str]:
        return self.verdict.split(" ")

    @property
    def address(self) -> Optional[int]:
        """The address behind `granted`, `logout` or `alive`."""
        words = self.words
        return int(words[1], 16) if words[0] in ("granted", "logout", "alive") and len(words) > 1 else None


Entry = Union[Tick, Frame]
TICK = 0  # the number of a tick among verdicts, and its port
LATEST, MOST_PORTS, LAST_INDEX = 10**14, 64, (1 << 32) - 1  # of clocks, which no capture passes, of ports and of indexes
ADDRESS = re.compile(r"[0-9a-f]{6}")
NUMBERS = re.compile(rb"[0-9]{1,14} [0-9]{1,2} [0-9]{1,9} ")  # clock, port and index of a line of format 2
# what stands in a verdict for the words in capitals of docs/JOURNAL.md
PARTS = {"ADDRESS": ADDRESS.pattern, "REASON": "[0-9a-f]{2}", "EXPLANATION": "[0-9a-f]{2}", "FUNCTION": "[0-9]{1,3}", "PORT": "[1-9][0-9]?", "NUMBER": "[0-9]{1,5}"}


class Entries(Sequence[Entry]):
    """The entries of a journal in columns; each is made when it is asked for."""

    def __init__(self) -> None:
        self.clocks = array("q")
        self.ports = array("B")
        self.indexes = array("I")
        self.said = array("I")  # the number of the verdict
        self.verdicts = ["tick"]
        self.numbers = {"tick": TICK}
        self.ended: dict[int, list[int]] = {}  # the addresses of ticks that end logins, by their places

    def __len__(self) -> int:
        return len(self.clocks)

    @overload
    def __getitem__(self, place: int) -> Entry: ...

    @overload
    def __getitem__(self, place: slice) -> list[Entry]: ...

    def __getitem__(self, place: Union[int, slice]) -> Union[Entry, list[Entry]]:
        if isinstance(place, slice):
            return [self.at(it) for it in range(*place.indices(len(self)))]
        return self.at(place if place >= 0 else place + len(self))

    def __iter__(self) -> Iterator[Entry]:
        return map(self.at, range(len(self)))

    def at(self, place: int) -> Entry:
        said = self.said[place]
        if said == TICK:
            return Tick(self.clocks[place], self.ended.get(place, []))
        return Frame(self.clocks[place], self.ports[place], self.indexes[place], self.verdicts[said])

    def frame(self, place: int) -> Frame:
        """The entry of a frame."""
        return Frame(self.clocks[place], self.ports[place], self.indexes[place], self.verdicts[self.said[place]])

    def places(self, wanted: Callable[[str], bool]) -> list[int]:
        """The places of the frames whose verdict is wanted."""
        some = [at != TICK and wanted(verdict) for at, verdict in enumerate(self.verdicts)]
        return [place for place, said in enumerate(self.said) if some[said]]

    def with_words(self, *words: str) -> list[tuple[int, Frame]]:
        """The frames whose verdict begins with one of these words, with their places."""
        return [(it, self.frame(it)) for it in self.places(lambda verdict: verdict.split(" ")[0] in words)]

    def place_of(self, port: int, index: int) -> Optional[int]:
        """The place of a port's frame."""
        return next((place for place, it in enumerate(zip(self.ports, self.indexes)) if it == (port, index)), None)

    def until(self, clock: int) -> int:
        """How many entries there are up to a moment."""
        return bisect_right(self.clocks, clock)

    def add(self, entry: Entry) -> None:
        if isinstance(entry, Tick):
            if entry.ended:
                self.ended[len(self.clocks)] = entry.ended
            self.put(entry.clock, TICK, 0, TICK)
        else:
            said = self.numbers.setdefault(entry.verdict, len(self.verdicts))
            if said == len(self.verdicts):
                self.verdicts.append(entry.verdict)
            self.put(entry.clock, entry.port, entry.index, said)

    def put(self, clock: int, port: int, index: int, said: int) -> None:
        self.clocks.append(clock)
        self.ports.append(port)
        self.indexes.append(index)
        self.said.append(said)


def entry_of(words: list[str], clock: Optional[int], is_second: bool) -> Entry:
    """The entry of a line's words, in format 2 where is_second, and else in format 1."""
    if is_second:
        clock, words = told(words[0], 0, LATEST), words[1:]
        if words[0] == "tick":
            return Tick(clock, [address_of(it) for it in words[1:]])
    elif words[0] == "tick":
        return Tick(told(words[1], 0, LATEST), [address_of(it) for it in words[2:]])
    verdict = " ".join(words[2:])
    if clock is None or not verdicts().fullmatch(verdict):
        raise ValueError
    return Frame(clock, told(words[0], 0, MOST_PORTS), told(words[1], 0, LAST_INDEX), verdict)


def address_of(word: str) -> int:
    """An address of a line; ValueError where it's none."""
    if not ADDRESS.fullmatch(word):
        raise ValueError(word)
    return int(word, 16)


def read_journal(name: str) -> Entries:
    """The entries of a journal, in order."""
    entries = Entries()
    known: dict[bytes, int] = {}  # verdicts that were met, with the line's end
    clock: Optional[int] = None
    is_second = False
    for number, line in enumerate(lines_of(name), 1):
        if number == 1 and line.removesuffix(b"\n") == b"journal 2":
            is_second = True
            continue
        words = line.split(b" ", 3)
        if not number % 100_000:
            PROGRESS.say(f"{number:,} lines of the journal read")
        said = known.get(words[3]) if is_second and len(words) == 4 else None
        try:
            if said is not None and NUMBERS.match(line):
                clock = int(words[0])
                entries.put(clock, int(words[1]), int(words[2]), said)
                continue
            entry = entry_of(line.decode("latin-1").removesuffix("\n").split(" "), clock, is_second)
            entries.add(entry)
        except (ValueError, IndexError, OverflowError):
            raise Refused(f"{name}: line {number} is no line of a journal: name the journal that `run` wrote") from None
        clock = entry.clock
        if isinstance(entry, Frame) and len(words) == 4:
            known[words[3]] = entries.said[-1]
    return entries


@dataclass
class Row:
    """What docs/JOURNAL.md says of a word: the meaning, the standard, what was sent (of verdicts), what to look at next."""

    meaning: str
    standard: str
    look: str


def table_of(title: str) -> list[list[str]]:
    """The rows of a table of that page that are of verdicts or rules."""
    section = re.search(rf"^## {title}$(.*?)(?=^## |\Z)", PAGE.read_text(encoding="utf-8"), re.M | re.S)
    rows_there = [[it.strip() for it in line.strip().strip("|").split("|")] for line in (section[1].splitlines() if section else [])]
    return [it for it in rows_there if len(it) >= 4 and it[0].startswith("`")]


@lru_cache(maxsize=1)
def rows() -> dict[str, Row]:
    """The rows of docs/JOURNAL.md: a verdict by its word, a rule of dropping by `dropped` and its word, a code by the word, the codes."""
    found: dict[str, Row] = {}
    for title, before in (("Verdicts", ""), ("Rules of dropping", "dropped ")):
        for cells in table_of(title):
            word = before + cells[0].strip("`").split(" ")[0]
            found[word] = Row(cells[1], cells[2], cells[-1])
    return found


@lru_cache(maxsize=1)
def verdicts() -> "re.Pattern[str]":
    """All verdicts that docs/JOURNAL.md has."""
    found: list[str] = []
    for title, before in (("Verdicts", ""), ("Rules of dropping", "dropped ")):
        for cells in table_of(title):
            words = (before + cells[0].strip("`")).split(" ")
            if words[1:2] != ["RULE"]:
                found.append(" ".join(PARTS.get(it, re.escape(it)) for it in words))
    return re.compile("|".join(found))


@lru_cache(maxsize=1)
def codes() -> dict[str, list[tuple[str, str]]]:
    """The rows of the tables of rejects: `rejected 0b 2c` or `refused 09 10`, each with request and reason."""
    found: dict[str, list[tuple[str, str]]] = {}
    section = re.search(r"^## Codes of rejects$(.*?)(?=^## |\Z)", PAGE.read_text(encoding="utf-8"), re.M | re.S)
    for line in section[1].splitlines() if section else []:
        cells = [it.strip() for it in line.strip().strip("|").split("|")]
        if len(cells) == 3 and cells[1].startswith("`"):
            found.setdefault("rejected " + cells[1].strip("`"), []).append((cells[0], cells[2]))
        if len(cells) == 2 and cells[0].startswith("`"):
            found.setdefault("refused " + cells[0].strip("`"), []).append(("a request to the name server", cells[1]))
    return found


def code_rows(verdict: str, request: str) -> list[str]:
    """What the codes of a reject say, of this request where its rows tell them apart."""
    found = codes().get(verdict, [])
    own = [reason for asked, reason in found if request in asked.replace(",", " ").split()]
    others = [reason for asked, reason in found if asked.startswith(("any other", "a request"))]
    return own or others or [f"{asked}: {reason}" for asked, reason in found]


def row_of(verdict: str) -> Optional[Row]:
    """The row of a verdict."""
    words = verdict.split(" ")
    return rows().get(" ".join(words[:2]) if words[0] == "dropped" else words[0])


def counted(verdict: str) -> str:
    """A verdict as counts group it: addresses left out, codes and rules kept."""
    words = verdict.split(" ")
    if words[0] == "dropped":
        return " ".join(words[:2])
    return verdict if words[0] in ("rejected", "refused", "watching") else words[0]
