"""Moments as people say them."""
import re
from dataclasses import dataclass
from datetime import datetime, timedelta, timezone
from typing import Optional

from .errors import Refused
from .numerals import seconds, shortened, wanted

DAY = 86_400_000
FIRST_DATE, LAST_DATE = 10**11, 253_402_300_799_999  # milliseconds: before is a capture that was made, not recorded; behind is no date
SECONDS = re.compile(r"[0-9]{1,9}|[0-9]{0,9}\.[0-9]{1,9}")
DIGITS = re.compile(r"[0-9]+")
BEHIND = re.compile(r"\+([0-9]{1,12}(?:\.[0-9]{1,9})?)")


def stamp(clock: Optional[int]) -> str:
    """Milliseconds since 1970 as a date and time, in UTC."""
    if clock is None:
        return "-"
    if not FIRST_DATE <= clock <= LAST_DATE:
        return f"{clock / 1000:.3f} s"
    return (datetime(1970, 1, 1, tzinfo=timezone.utc) + timedelta(milliseconds=clock)).strftime("%Y-%m-%d %H:%M:%S.%f")[:-3]


def short(clock: Optional[int], first: int) -> str:
    """The time of day, where the date is said elsewhere."""
    return stamp(clock) if clock is None or not FIRST_DATE <= clock <= LAST_DATE or clock // DAY != first // DAY else stamp(clock)[11:]


@dataclass
class Part:
    """A part of time, by the words of `--from` and `--to`: moments, or seconds behind the first of what is shown."""

    begin: Optional[str] = None
    end: Optional[str] = None

    def clock(self, option: str, word: str, first: int) -> float:
        if SECONDS.fullmatch(word):
            return first + 1000 * seconds(word)
        return moment_of(word, first, option)

    def within(self, first: int) -> tuple[float, float]:
        """Its begin and its end, in milliseconds."""
        begin = self.clock("--from", self.begin, first) if self.begin is not None else float("-inf")
        return begin, self.clock("--to", self.end, first) if self.end is not None else float("inf")


def moment_of(word: str, first: int, option: str = "--at") -> int:
    """Milliseconds since 1970, of a word: `+S` seconds behind the first frame, a date and time, a time of its day, or milliseconds."""
    if behind := BEHIND.fullmatch(word):
        return first + int(seconds(behind[1]) * 1000)
    if DIGITS.fullmatch(word):
        return wanted(word, option, 0, LAST_DATE)
    text = word.replace("T", " ").rstrip("Z")
    if re.fullmatch(r"[0-9]{2}:[0-9]{2}:[0-9]{2}(\.[0-9]{1,9})?", text):
        text = f"{stamp(first)[:10]} {text}"
    try:
        found = datetime.fromisoformat(text.strip()).replace(tzinfo=timezone.utc)
    except (ValueError, OverflowError):
        raise Refused(f"{option} {shortened(word)}: wants +SECONDS after the first frame, a date and time (UTC), or milliseconds as the journal has them") from None
    return int(found.timestamp() * 1000)
