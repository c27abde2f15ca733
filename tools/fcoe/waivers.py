"""What is known and accepted for a while: a file of waivers, and an earlier report that a new one is compared with."""
import time
from dataclasses import dataclass
from typing import Any, Iterable, Mapping

from .errors import Refused
from .files import json_of, text_of

FORM = "wants `RULE UNTIL REASON`, as `alive-enode-period 2027-01-31 our driver, mended in its next version`"


@dataclass(frozen=True)
class Waiver:
    """A rule or a scene that may fail until a day, and why."""

    name: str
    until: str
    reason: str

    def holds(self, day: str) -> bool:
        return day <= self.until


def is_day(text: str) -> bool:
    try:
        time.strptime(text, "%Y-%m-%d")
    except ValueError:
        return False
    return len(text) == 10


def read_waivers(name: str, known: Iterable[str]) -> list[Waiver]:
    """The waivers of a file: a line each, `#` begins a remark."""
    names, found = set(known), []
    for number, line in enumerate(text_of(name).splitlines(), 1):
        words = line.split("#")[0].split(maxsplit=2)
        if not words:
            continue
        if len(words) < 3 or not is_day(words[1]):
            raise Refused(f"{name}: line {number}: {FORM}")
        if words[0] not in names:
            raise Refused(f"{name}: line {number}: {words[0]}: no such rule or scene")
        found.append(Waiver(words[0], words[1], words[2]))
    return found


def today() -> str:
    return time.strftime("%Y-%m-%d", time.gmtime())


def read_baseline(name: str, key: str, kinds: Mapping[str, type]) -> list[dict[str, Any]]:
    """The rows of an earlier report that was written with --json, each of which has these fields."""
    try:
        said = json_of(name)
    except ValueError as why:
        raise Refused(f"{name}: no JSON ({why}): write a baseline with --json") from why
    rows = said.get(key) if isinstance(said, dict) else None
    if not isinstance(rows, list) or not all(isinstance(it, dict) and all(isinstance(it.get(field), kind) for field, kind in kinds.items()) for it in rows):
        raise Refused(f"{name}: has no list `{key}` as this command writes it: write a baseline with --json of this command")
    return rows
