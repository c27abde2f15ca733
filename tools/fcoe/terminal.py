"""How text stands on a terminal: folded to its width, and in colours where it is one."""
import os
import shutil
import sys
import textwrap
from enum import Enum

from .printing import Shown, own


class Colour(Enum):
    """Colours by their meaning, as a terminal takes them."""

    BAD = "31"
    MIND = "33"
    GOOD = "32"
    HEAD = "1"
    NOISE = "90"


def is_terminal() -> bool:
    return sys.stdout.isatty()


def painted(text: str, colour: Colour) -> str:
    """In colour on a terminal; elsewhere, and where NO_COLOR is set, as it is."""
    if not is_terminal() or not isinstance(sys.stdout, Shown) or os.environ.get("NO_COLOR") or os.environ.get("TERM") == "dumb":
        return text
    return own(f"[{colour.value}m") + text + own("[0m")


def width() -> int:
    """The columns of the terminal; elsewhere more than any line has, so that each stays one line."""
    return shutil.get_terminal_size().columns if is_terminal() else 100_000


def folded(text: str, indent: str = "") -> list[str]:
    """A line in as many as the terminal needs, further ones indented by two more columns."""
    wide = max(width(), 40)
    return textwrap.wrap(text, wide, initial_indent=indent, subsequent_indent=indent + "  ", break_long_words=False, break_on_hyphens=False) or [""]
