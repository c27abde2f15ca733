"""Worked journals: what nodes send, the journal that a fabric must make of it, and each frame that it must send.

`worked.txt` has them line by line: `= ` is a line of the configuration, `=. ` a piece of one, `> ` a frame of a node (moment, port, name, and
then the bytes `n`, `s` and `t` of its text), `< ` one that the fabric sends, and anything else a line of the journal in format 1. A number
behind the bytes makes so many frames of as many nodes, and a `+` before a name is the frame of a node as it goes on. `frames.txt` and `replies.txt`
have the frames by name, by the layouts of the standards, as texts: `.` is a zero byte, `z` are sixteen of them, `p` is the port, and `k` the check
sequence of what stands behind the FCoE header."""
import pathlib
import struct
import zlib
from dataclasses import dataclass, field

from .book import HEAD

HERE = pathlib.Path(__file__).resolve().parent


def texts_of(name: str) -> dict[str, str]:
    """The frames of a file by name."""
    found: dict[str, str] = {}
    at = ""
    for line in (HERE / name).read_text(encoding="ascii").splitlines():
        if line.startswith("#") or not line:
            continue
        if line.startswith(" "):
            found[at] += line
        else:
            at = line
            found[at] = ""
    return found


NODES, FABRIC = texts_of("frames.txt"), texts_of("replies.txt")


def _journals() -> dict[str, list[str]]:
    found: dict[str, list[str]] = {}
    at: list[str] = []
    for line in (HERE / "worked.txt").read_text(encoding="ascii").splitlines():
        if line.startswith("["):
            at = found[line.strip("[]")] = []
        elif line and not line.startswith("#"):
            at.append(line)
    return found


JOURNALS = _journals()


def frame_of(text: str, n: int, s: int, t: int, port: int) -> bytes:
    """The bytes of the text of a frame."""
    data, high = bytearray(), ""
    for sign in text:
        if sign in "0123456789abcdef":
            high += sign
            if len(high) == 2:
                data.append(int(high, 16))
                high = ""
        elif sign != " ":
            data += {".": b"\0", "z": bytes(16), "n": bytes([n]), "s": bytes([s]), "t": bytes([t]), "p": bytes([port])}.get(
                sign
            ) or struct.pack("<I", zlib.crc32(data[32:]))
    return bytes(data)


def named(name: str, n: int = 0, s: int = 0, t: int = 0, port: int = 1, sent: bool = False) -> bytes:
    """The frame of a name: a node's, or one that the fabric sends."""
    if sent and name.startswith("+"):
        return frame_of("0efc000101t 00051e000002", n, s, t, port) + frame_of(NODES[name[1:]], n, s, t, port)[12:]
    return frame_of((FABRIC if sent else NODES)[name], n, s, t, port)


@dataclass
class Timed:
    moment: int
    port: int
    data: bytes


def capture(frames: list[Timed], port: int) -> bytes:
    """The capture of a port."""
    rows = [it for it in frames if it.port == port]
    return HEAD + b"".join(record(it.moment, it.data) for it in rows)


def record(moment: int, data: bytes) -> bytes:
    return struct.pack("<IIII", moment // 1000, moment % 1000 * 1000, len(data), len(data)) + data


@dataclass
class Worked:
    config: str = ""
    frames: list[Timed] = field(default_factory=list)
    journal: str = ""
    sent: list[Timed] = field(default_factory=list)

    @property
    def second(self) -> str:
        """The journal in format 2: each line begins with the clock."""
        text, clock = "journal 2\n", ""
        for line in self.journal.splitlines():
            words = line.split(" ")
            if words[0] == "tick":
                clock = words[1]
                line = " ".join(["tick"] + words[2:])
            text += f"{clock} {line}\n"
        return text

    @property
    def entries(self) -> int:
        return len(self.journal.splitlines())

    @property
    def line(self) -> str:
        """What `run` prints."""
        return f"frames {len(self.frames)} entries {self.entries}\n"

    def came(self, port: int) -> bytes:
        return capture(self.frames, port)

    def left(self, port: int) -> bytes:
        return capture(self.sent, port)


def _put(rows: list[Timed], line: str, sent: bool) -> None:
    words = line.split()
    moment, port, name = int(words[0]), int(words[1]), words[2]
    n, s, t = ([int(word, 16) for word in words[3:6]] + [0, 0, 0])[:3]
    for more in range(int(words[6]) if len(words) > 6 else 1):
        rows.append(Timed(moment, port, named(name, n + more, s + more, t, port, sent)))


def worked(*texts: str) -> Worked:
    """The worked journal of these texts, one behind the other: names of those of the file, or lines."""
    made = Worked()
    for text in texts:
        for line in JOURNALS[text] if text in JOURNALS else text.splitlines():
            if line.startswith("=. "):
                made.config += line[3:] + " "
            elif line.startswith("= "):
                made.config += line[2:] + "\n"
            elif line.startswith("> "):
                _put(made.frames, line[2:], False)
            elif line.startswith("< "):
                _put(made.sent, line[2:], True)
            elif line:
                made.journal += line + "\n"
    return made
