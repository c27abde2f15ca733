"""The lines of a terminal's log or of a file: prompts, echoed commands and pagers told from what a switch prints."""
import re
from dataclasses import dataclass, field
from enum import Enum
from typing import Optional

from ..errors import Refused, counted
from ..files import bytes_of
from .model import WWN, Place

PROMPT = re.compile(r"^(?P<host>[\w.:@/~\-]+(?:\((?P<mode>[\w.\-/:]*)\))?)[#>](?: +(?P<command>\S.*)|(?P<glued>[a-z]\S* .*)|) *$")
CONTROL = re.compile(r"\x1b\[[0-9;?]*[A-Za-z]|\x1b[=>]|[\x00\x07\x0e\x0f]")
PAGER = re.compile(r"^\s*(?:--\s*[Mm]ore\s*--|<--- More --->|Type <CR> .*to continue.*)\s*(?:\(\d+%\))?\s*")
# commands whose output is read, by the beginnings of their words
LIKE_A_MEMBER = re.compile(rf"{WWN}|^\s*(?:\*\s*)?(?:(?:member|pwwn|nwwn|fwwn|symbolic-nodename|ip-address)\s|fcid\s+(?:0x)?[0-9a-f]{{6}}\b|domain-id\s+\d)", re.I)
READ = ("zone", "device-al", "fcal", "flogi", "fcns", "fcoe", "run", "start", "cfg", "ali", "nsshow", "nscam", "nsall", "switchsh", "defzone")


class Use(Enum):
    """What became of a line."""

    BLANK = "blank"
    PROMPT = "prompt or command"
    HEAD = "head of a zone, a zone set or an alias"
    MEMBER = "member"
    LOGIN = "row of a list of logins"
    FIELD = "a comment, a key of another thing, or what is said further of the line above"
    NOTE = "known, and says nothing of who reaches whom"
    OTHER = "nothing of zones"


@dataclass
class Line:
    """A line as it is read: its place, its text without control signs, and the command whose output it is."""

    place: Place
    text: str
    command: str = ""
    mode: str = ""
    is_prompt: bool = False
    use: Optional[Use] = None

    @property
    def indent(self) -> int:
        shown = self.text.expandtabs(8)
        return len(shown) - len(shown.lstrip())

    @property
    def is_read(self) -> bool:
        """It stands behind no prompt, or behind a command whose output is read."""
        return not self.command or any(word.startswith(READ) for word in re.split(r"[\s|]+", self.command.lower()))


def overtyped(text: str) -> str:
    """A line without what a terminal wiped: backspaces, and what a carriage return wrote over."""
    if "\b" in text:
        kept: list[str] = []
        for sign in text:
            if sign != "\b":
                kept.append(sign)
            elif kept:
                kept.pop()
        text = "".join(kept)
    return text.rstrip("\r").rsplit("\r", 1)[-1]


def lines_of(name: str) -> list[Line]:
    """The lines of a file, each with the command that it stands behind."""
    data = bytes_of(name)
    if data[:2] in (b"\xff\xfe", b"\xfe\xff"):
        text = data.decode("utf-16", errors="replace")
    else:
        text = data.removeprefix(b"\xef\xbb\xbf").decode("utf-8", errors="replace")
    found: list[Line] = []
    command = mode = ""
    for number, raw in enumerate(text.split("\n"), 1):
        shown = PAGER.sub("", overtyped(CONTROL.sub("", raw))).rstrip()
        line = Line(Place(name, number), shown, command, mode)
        prompt = PROMPT.match(shown)
        if prompt:
            command, mode = (prompt["command"] or prompt["glued"] or "").strip(), prompt["mode"] or ""
            line.is_prompt, line.command, line.mode = True, command, mode
        found.append(line)
    if found and not found[-1].text:
        found.pop()
    return found


@dataclass
class Account:
    """What became of each line; a line that could be a member is taken or refused, and never gone past."""

    lines: list[Line]
    faults: list[str] = field(default_factory=list)

    def fault(self, line: Line, why: str) -> None:
        line.use = Use.OTHER
        self.faults.append(f"{line.place}: '{line.text.strip()[:80]}': {why}")

    def other(self, line: Line) -> None:
        """A line that is nothing of zones; one that looks like a member is a fault."""
        if line.is_read and LIKE_A_MEMBER.search(line.text):
            self.fault(line, "may be a member, and is no line of a list that is read: take it out, or put the head of its zone before it")
        else:
            line.use = Use.OTHER

    def close(self) -> list[str]:
        """Refuses faults, and says which lines were gone past."""
        if self.faults:
            raise Faults(self.faults)
        left = [it for it in self.lines if it.use is None or it.is_read and it.use in (Use.BLANK, Use.NOTE, Use.OTHER) and LIKE_A_MEMBER.search(it.text)]
        if left:
            raise Refused(f"{left[0].place}: '{left[0].text.strip()}' may be a member, and would be gone past: that is a fault of this tool: take the line out, and report it")
        passed = [it for it in self.lines if it.use is Use.OTHER]
        return [spans(passed)] if passed else []


class Faults(Refused):
    """Several refusals, a line each."""

    def __init__(self, faults: list[str]) -> None:
        super().__init__("; ".join(faults))
        self.faults = faults

    @property
    def lines(self) -> list[str]:
        return self.faults


def spans(lines: list[Line]) -> str:
    """Which lines of a file were gone past, with the text of the first."""
    runs: list[list[int]] = []
    for it in lines:
        if runs and it.place.line == runs[-1][1] + 1:
            runs[-1][1] += 1
        else:
            runs.append([it.place.line, it.place.line])
    shown = ", ".join(str(a) if a == b else f"{a}-{b}" for a, b in runs[:6]) + (" .." if len(runs) > 6 else "")
    return f"{lines[0].place.file}: {counted(len(lines), 'line')} of other things gone past ({shown}; the first is '{lines[0].text.strip()[:50]}')"
