"""`look check` over tapes, within this process, for the tests of its rules."""
import contextlib
import io
import json
import pathlib
import tempfile
from typing import Any

from machine import TOOLS, script

from fcoe.frames.captures import write_classic
from fcoe.frames.columns import Record

LOOK = str(TOOLS / "look")
BROKEN, OPEN, HELD = "broken", "can't be told", "held"


def said_of(files: list[str]) -> tuple[dict[str, Any], int]:
    """What `look check --json` says of captures, and its status."""
    said = io.StringIO()
    with contextlib.redirect_stdout(said):
        status = script("tools/look").run(["check", "--quiet", "--json", *files])
    found: dict[str, Any] = json.loads(said.getvalue())
    return found, status


def states(tape: list[Record]) -> dict[str, set[str]]:
    """The rules by the states in which `look check` finds them over a tape."""
    with tempfile.TemporaryDirectory() as room:
        file = str(pathlib.Path(room) / "tape.pcap")
        write_classic(file, tape)
        said, _ = said_of([file])
    found: dict[str, set[str]] = {}
    for it in said["rules"]:
        found.setdefault(it["state"], set()).add(it["rule"])
    return found


def verdict(rules: str, found: dict[str, set[str]], before: dict[str, set[str]]) -> str:
    """Whether a fault was found by one of its rules, by others (amiss), told as open (hinted), or missed."""
    blamed = found.get(BROKEN, set())
    new = found.get(OPEN, set()) - before.get(OPEN, set())
    return "found" if set(rules.split()) & blamed else "amiss" if blamed else "hinted" if new else "missed"
