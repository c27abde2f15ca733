"""What a tool refuses and what it notes, and the statuses by which it ends (start.py)."""
import errno
import sys
from difflib import get_close_matches
from typing import Iterable

from .printing import say_aside
from .progress import PROGRESS

FOUND, COULD_NOT, FAULT, INTERRUPTED = 1, 2, 70, 130


class Refused(Exception):
    """Said in one line, which names the file and the next step."""

    @property
    def lines(self) -> list[str]:
        return [str(self)]


NEXT = {
    errno.ENOENT: "look at its spelling and its folder",
    errno.EACCES: "copy it to where you may read and write (tcpdump writes as another user)",
    errno.ENOSPC: "free some room on that disk; TMPDIR names another folder for what a run writes",
    errno.EISDIR: "name a file in it",
}


def counted(count: int, word: str, more: str = "s") -> str:
    """A number and its word, in the plural where there are several."""
    return f"{count} {word}{'' if count == 1 else more}"


def meant(word: str, known: Iterable[str]) -> str:
    """A question with what was likely meant, or nothing."""
    found = get_close_matches(word, list(known), 1, 0.7)
    return f": did you mean {found[0]}?" if found else ""


def tool_name() -> str:
    return sys.argv[0].rsplit("/", 1)[-1]


def note(text: str) -> None:
    """What the tool assumed, on standard error."""
    PROGRESS.clear()
    say_aside([f"{tool_name()}: {text}"])
