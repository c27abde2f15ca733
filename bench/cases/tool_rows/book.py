"""A book of cases: the lines that the program reads, and beside each what it must print.

An answer that is known is written down here from its bytes, in the program's own notation; so the stored answers are compared with what
was asserted, and not with what the program once said. One that isn't known beforehand is `Told`: the judge looks only whether it is there, or
gives what it says to a function."""
import struct
import zlib
from dataclasses import dataclass, field
from typing import Callable, Iterable, Optional, Union

import captures

HEAD = captures.HEAD
TEXT = frozenset(b"\n") | frozenset(range(32, 127))
Judge = Callable[[Optional[bytes]], bool]


@dataclass
class Told:
    """A file that is printed, and of which a judge says whether it is right; without a judge any is."""

    name: str
    judge: Optional[Judge] = None


@dataclass
class Front:
    """A file that is a front of another one; a judge says whether so many bytes of it are right, None where there is no such file."""

    name: str
    whole: int
    judge: Callable[[Optional[int]], bool]


@dataclass
class Ended:
    """A line that is printed and a status; a judge says whether they are right."""

    judge: Callable[[bytes, int], bool]


Answer = Union[str, Told, Front, Ended]


def digits(data: bytes) -> str:
    """Bytes in hexadecimal digits, eight zeros and more at their end as a number."""
    kept = data.rstrip(b"\0")
    zeros = len(data) - len(kept)
    if zeros < 8:
        kept, zeros = data, 0
    return (kept.hex() or "-") + (f" +{zeros}" if zeros else "")


def records(data: bytes) -> Optional[list[tuple[int, int, bytes]]]:
    """The records of a capture of the plain form, all of them whole; None where it is none."""
    if not data.startswith(HEAD):
        return None
    found = [(seconds, micros, frame) for seconds, micros, original, frame in captures.whole_records(data) if len(frame) == original]
    return found if len(data) == len(HEAD) + sum(16 + len(it[2]) for it in found) else None


def lines_of(mark: str, data: bytes) -> list[str]:
    """The lines of a text behind a mark."""
    if not data:
        return []
    text = data.decode("latin-1")
    return [mark + line for line in text.removesuffix("\n").split("\n")] + ([] if text.endswith("\n") else [" ."])


def pieces_of(data: bytes) -> tuple[str, list[str]]:
    """The kind of a file and its pieces, as the program prints them."""
    rows = records(data)
    if rows is not None:
        return "capture", [f" @ {seconds} {micros} {digits(frame)}" for seconds, micros, frame in rows]
    if all(byte in TEXT for byte in data):
        return "file", lines_of(" | ", data)
    return "file", [f" = {digits(data)}"]


def bytes_of(pieces: Iterable[str]) -> bytes:
    """The bytes of pieces that the program printed, without a head."""
    data = b""
    for piece in pieces:
        words = piece.split()
        if piece.startswith(" | "):
            data += piece[3:].encode("latin-1") + b"\n"
        elif piece == " .":
            data = data[:-1]
        else:
            zeros = bytes(int(words.pop()[1:])) if words[-1].startswith("+") else b""
            frame = (b"" if words[-1] == "-" else bytes.fromhex(words[-1])) + zeros
            data += struct.pack("<IIII", int(words[1]), int(words[2]), len(frame), len(frame)) + frame if words[0] == "@" else frame
    return data


def word_of(word: str) -> str:
    """A word of a command; in quotes where it is empty or has a space."""
    return word if word and " " not in word else "'" + word.replace(" ", "_") + "'"


@dataclass
class Book:
    lines: list[str] = field(default_factory=list)
    answers: list[Answer] = field(default_factory=list)
    shelf: dict[str, bytes] = field(default_factory=dict)
    names: dict[bytes, str] = field(default_factory=dict)
    cases: list[str] = field(default_factory=list)
    runs: int = 0
    made: int = 0

    def _both(self, line: str) -> None:
        self.lines.append(line)
        self.answers.append(line)

    # ---- files

    def file(self, name: str, data: bytes, pieces: Optional[list[str]] = None) -> str:
        """A file that later cases take, by its bytes; by pieces where that is shorter."""
        if self.shelf.get(name) == data:
            return name
        if pieces is None:
            kind, plain = pieces_of(data)
            self.lines += [f"{kind} {name}"] + plain
        else:
            self.lines += [f"file {name}"] + pieces
        self._shelve(name, data)
        return name

    def _shelve(self, name: str, data: bytes) -> None:
        if self.names.get(self.shelf.get(name, data)) == name:
            del self.names[self.shelf.get(name, data)]
        self.shelf[name] = data
        self.names.setdefault(data, name)

    def part(self, name: str, other: str, start: int, end: int) -> str:
        """A file that is a part of an earlier one."""
        return self.file(name, self.shelf[other][start:end], [f" < {other} {start} {end}"])

    def changed(self, name: str, other: str, places: dict[int, int]) -> str:
        """An earlier file with other bytes at these places."""
        data = bytearray(self.shelf[other])
        for place, byte in places.items():
            data[place] = byte
        return self.file(name, bytes(data), [f" < {other}"] + [f" ! {place} {byte:02x}" for place, byte in places.items()])

    def joined(self, name: str, *parts: Union[bytes, tuple[str, int, int], str]) -> str:
        """A file of bytes, of parts of earlier files and of whole ones."""
        data, pieces = b"", []
        for part in parts:
            if isinstance(part, bytes):
                data += part
                pieces += [f" = {digits(part)}"]
            elif isinstance(part, str):
                data += self.shelf[part]
                pieces += [f" < {part}"]
            else:
                data += self.shelf[part[0]][part[1] : part[2]]
                pieces += [f" < {part[0]} {part[1]} {part[2]}"]
        return self.file(name, data, pieces)

    # ---- cases

    def title(self, text: str) -> None:
        """A comment above the cases of a subject."""
        self._both("")
        self._both(f"## {text}")

    def case(self, name: str, shows: str = "") -> None:
        """The next case: its store is empty."""
        self._both("")
        self._both(f"# {name}: {shows}" if shows else f"# {name}")
        self.cases.append(name)

    def given(self, **files: Union[str, bytes]) -> None:
        """These files of the shelf are stored, by their names or by their bytes."""
        words = []
        for name, file in files.items():
            if isinstance(file, bytes):
                self.made += file not in self.names
                file = self.names.get(file) or self.file(f"{name.lower()}-{self.made}", file)
            words.append(f"{name}={file}")
        self._both("with " + " ".join(words))

    def fail(self, call: int) -> None:
        self._both(f"fail {call}")

    def room(self, count: int) -> None:
        self._both(f"room {count}")

    def run(self, words: Iterable[str], said: Union[str, bytes], status: int) -> None:
        """A command, what it prints, and its status."""
        self._both("$ " + " ".join(map(word_of, words)))
        self.answers += lines_of("> ", said.encode() if isinstance(said, str) else said) + [f"status {status}"]
        self.runs += 1

    def run_told(self, words: Iterable[str], judge: Callable[[bytes, int], bool]) -> None:
        """A command of which a judge looks at the text and the status."""
        self._both("$ " + " ".join(map(word_of, words)))
        self.answers.append(Ended(judge))
        self.runs += 1

    def see(self, **files: Optional[bytes]) -> None:
        """These files of the store have these bytes, or aren't there."""
        self.lines.append("see " + " ".join(files))
        for name, data in files.items():
            if data is None:
                self.answers.append(f"none {name}")
            else:
                kind, pieces = pieces_of(data)
                self.answers += [f"{kind} {name}"] + pieces

    def see_told(self, name: str, judge: Optional[Judge] = None) -> None:
        """A file of which a judge looks at the bytes."""
        self.lines.append(f"see {name}")
        self.answers.append(Told(name, judge))

    def sum(self, **files: Union[bytes, tuple[int, int], None]) -> None:
        """These files have this length and check sequence, by their bytes or as numbers."""
        self.lines.append("sum " + " ".join(files))
        for name, data in files.items():
            if data is None:
                self.answers.append(f"none {name}")
                continue
            length, check = (len(data), zlib.crc32(data)) if isinstance(data, bytes) else data
            self.answers.append(f"sum {name} {length} bytes, CRC {check:08x}")

    def front(self, name: str, other: str, judge: Callable[[Optional[int]], bool]) -> None:
        """A file that is a front of one of the shelf."""
        self.lines.append(f"front {name}={other}")
        self.answers.append(Front(name, len(self.shelf[other]), judge))

    def keep(self, **files: tuple[str, bytes]) -> None:
        """Files of the store that are kept under these names, with their bytes."""
        self._both("keep " + " ".join(f"{file}={name}" for file, (name, _) in files.items()))
        for file, (_, data) in files.items():
            self._shelve(file, data)
