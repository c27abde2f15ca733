"""judge_kinds.py [KIND ..] [--seeds N] [--show]: how `look` answers captures of each kind, strictly counted. A line a capture that isn't right, a line a kind, and the count.

Right is a capture whose cause stands within the first two answers (of one in which nothing is wrong: in a line on top, if it is odd), with no answer beside it that misleads, notes
among them. --show prints all that is said.
"""
import os
import pathlib
import re
import sys
import tempfile
from typing import Any

HERE = pathlib.Path(__file__).resolve().parent
sys.path[:0] = [str(HERE), str(HERE.parent / "cases"), str(HERE.parent / "program"), str(HERE.parent.parent / "tools")]

# pylint: disable=wrong-import-position
import kinds_of_commands  # pylint: disable=unused-import
import kinds_of_forms  # pylint: disable=unused-import
import kinds_of_mirrors  # pylint: disable=unused-import
from fcoe.answers import views
from fcoe.errors import Refused
from fcoe.runs.inputs import Options
from fcoe.runs.looking import look
from kinds import KINDS, Kind
from machine import program

FIRST = 2  # answers, within which the cause is
ALWAYS = r"^zones: .* are apart, since the switch's answer"  # of a host beside the others, which is right
NEVER = r"multiple N_Port_IDs asked|answers? nothing here|frames are missing|fIP|fCoE|this forwarder (grants|answers)|frame were"  # what no capture of these wants said
Row = dict[str, Any]


def answers(captures: list[pathlib.Path]) -> tuple[list[Row], list[str]]:
    """The rows of `look answers`, and what it says on top or in refusing."""
    with tempfile.TemporaryDirectory() as room:
        try:
            seen = look([str(it) for it in captures], Options(), str(program()), room)
        except Refused as refused:
            return [], [str(refused)]
        return views.answers(seen), seen.inputs.remarks


def fault(kind: Kind, rows: list[Row], told: list[str]) -> str:
    """What is wrong with the answers; empty where they are right."""
    if kind.is_refused:
        return "" if not rows and re.search(kind.cause, told[0]) else f"should be refused with the cause: {told}"
    if not rows:
        return f"refused: {told[0]}"
    said = [(it["severity"], "; ".join([it["text"], *it["followers"], it["next"] or ""])) for it in rows]
    on_top = [text for _, text in said[:FIRST]] + (told if kind.is_well else [])
    if not any(re.search(kind.cause, text, re.S) for text in on_top):
        return f"the cause isn't in: {on_top}"
    for severity, text in said:
        if not (kind.is_well and severity == "well") and not any(re.search(it, text, re.S) for it in [kind.cause or "$^", ALWAYS, *kind.also]):
            return f"misleads: {severity}: {text}"
        if kind.is_well and severity not in ("noted", "well"):
            return f"a false alarm: {severity}: {text}"
    bad = next((text for text in [*told, *(text for _, text in said)] if re.search(NEVER, text)), "")
    return f"says: {bad}" if bad else ""


def judged(name: str, seed: int, shows: bool = False) -> str:
    kind = KINDS[name]
    with tempfile.TemporaryDirectory() as folder:
        rows, told = answers(kind.make(seed, pathlib.Path(folder)))
        if shows:
            print(f"{name} {seed}", *(f"  on top: {it}" for it in told), *(f"  {it['severity']}: {it['wwpn']}: {it['text']} | {it['followers']} | {it['next']}" for it in rows), sep="\n")
        return fault(kind, rows, told)


def main(words: list[str]) -> int:
    seeds = int(words[words.index("--seeds") + 1]) if "--seeds" in words else 5
    names = [it for it in words if it in KINDS] or sorted(KINDS)
    right = whole = 0
    for name in names:
        found = [judged(name, seed, "--show" in words) for seed in range(seeds)]
        own = sum(not it for it in found)
        right, whole = right + own, whole + (own == seeds)
        print(f"{name}: {own} of {seeds}", *(f"  {seed}: {it}" for seed, it in enumerate(found) if it), sep="\n", flush=True)
    print(f"{right} of {seeds * len(names)} captures right, {whole} of {len(names)} kinds in all of theirs")
    return 0 if whole == len(names) else 1


if __name__ == "__main__":
    os.environ.setdefault("TZ", "UTC")
    sys.exit(main(sys.argv[1:]))
