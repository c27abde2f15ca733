"""Numbers as people and files write them: ASCII digits, as many as the number wants, between bounds."""
import re
from typing import Optional

from .errors import Refused

MOST = (1 << 63) - 1
DECIMAL = re.compile(r"[0-9]{1,19}")
HEXADECIMAL = re.compile(r"[0-9A-Fa-f]{1,16}")
FRACTION = re.compile(r"[0-9]{0,12}(?:\.[0-9]{0,12})?")


def whole(word: str, least: int = 0, most: int = MOST) -> Optional[int]:
    """The number of a word; none where it isn't one between the bounds."""
    if not DECIMAL.fullmatch(word):
        return None
    found = int(word)
    return found if least <= found <= most else None


def told(word: str, least: int = 0, most: int = MOST) -> int:
    """The number of a word of a file; ValueError where it isn't one between the bounds."""
    found = whole(word, least, most)
    if found is None:
        raise ValueError(word)
    return found


def hexadecimal(word: str) -> int:
    """The number of hexadecimal digits; ValueError where they are none."""
    if not HEXADECIMAL.fullmatch(word):
        raise ValueError(word)
    return int(word, 16)


def wanted(word: str, what: str, least: int, most: int) -> int:
    """The number of a word, which is refused where it isn't one between the bounds."""
    found = whole(word, least, most)
    if found is None:
        raise Refused(f"{what} {shortened(word)}: wants {least} to {most}")
    return found


def shortened(word: str) -> str:
    """A word as a refusal says it."""
    return word if len(word) <= 40 else f"{word[:40]}.. ({len(word)} signs)"


def signed(word: str) -> int:
    """A number of a command line, where it may have a sign; ValueError where it's none."""
    found = whole(word.removeprefix("-"))
    if found is None:
        raise ValueError(word)
    return found * (-1 if word.startswith("-") else 1)


def seconds(word: str) -> float:
    """Seconds, or another number with a fraction, of a command line; ValueError where it's none."""
    digits = word.removeprefix("-")
    if not FRACTION.fullmatch(digits) or digits in ("", "."):
        raise ValueError(word)
    return -float(digits) if word.startswith("-") else float(digits)
