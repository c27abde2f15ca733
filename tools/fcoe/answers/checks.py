"""What `replay` and `show` print, as data; and whether something is amiss."""
import os
from dataclasses import dataclass
from typing import Any

from ..errors import FOUND, Refused
from ..numerals import told, whole
from ..runs.fabric import types_of
from ..runs.looking import Look
from ..runs.program import say
from .answer import Severity
from .answering import answers_of

Said = dict[str, Any]
NAMED = {"login": ("fcid", "wwpn", "wwnn", "port", "enode", "node_heard", "port_heard", "receive_size", "watching")}
NUMBERS = ("port", "node_heard", "port_heard", "receive_size", "watching")


def login_of(words: list[str]) -> Said:
    """A login's line of `show`, with colons in names and MACs."""
    row: Said = dict(zip(NAMED["login"], words))
    for name in ("wwpn", "wwnn", "enode"):
        row[name] = bytes.fromhex(row[name]).hex(":")
    return {**row, **{it: told(row[it]) for it in NUMBERS}, "types": [], "map": bytes(32).hex()}


def shown(lines: list[str]) -> Said:
    """The lines of `show`."""
    found: Said = {"entries": 0, "clock": None, "logins": []}
    for line in lines:
        word, *rest = line.split()
        if word in ("entries", "clock"):
            found[word] = told(rest[0])
        elif word == "login":
            found["logins"].append(login_of(rest))
        elif word == "types":
            login = next(it for it in found["logins"] if it["fcid"] == rest[0])
            login.update(types=types_of(bytes.fromhex(rest[1])), map=rest[1])
    return found


def fault_of(printed: str) -> Said:
    """The fault that a line tells: of what, where, and why."""
    word, *rest = printed.split()
    at = [it for it in map(whole, rest) if it is not None]
    return {"fault": word, "at": at, "why": " ".join(rest[len(at) :]) or None}


def said_of(command: str, lines: list[str]) -> Said:
    """What the lines of a run without a fault say; ValueError where they aren't that program's."""
    try:
        word, number, *_ = lines[0].split()
        if word != ("entries" if command == "show" else "legal"):
            raise ValueError(word)
        return shown(lines) if command == "show" else {"entries": told(number)}
    except (IndexError, KeyError, StopIteration):
        raise ValueError from None


@dataclass
class Called:
    """What `replay` or `show` said: its status, its lines, and these as data."""

    status: int
    lines: list[str]
    said: Said


def called(program: str, command: str, files: list[str]) -> Called:
    """What `replay` or `show` says over files that exist."""
    for name in files:
        if not os.path.exists(name):
            raise Refused(f"{name}: No such file or directory: look at its spelling and its folder")
    ran = say([program, command, *files], os.getcwd())
    lines = ran.stdout.splitlines()
    printed = lines[0] if lines else ""
    said: Said = {"command": command, "status": ran.returncode, "printed": printed}
    if ran.returncode == 0:
        try:
            return Called(0, lines, {**said, **said_of(command, lines)})
        except ValueError:
            raise Refused(f"{program}: prints what `{command}` of fcoe_tool doesn't: build one by tools/install, and name that") from None
    if ran.returncode == FOUND and len(lines) == 1:
        return Called(FOUND, lines, {**said, **fault_of(printed)})
    last = (ran.stderr.strip().splitlines() or [printed])[-1]
    raise Refused(f"`fcoe_tool {command}` ended with status {ran.returncode} ({last}): docs/COMMANDS.md has what that means")


def is_amiss(look: Look) -> bool:
    """Whether an answer is worse than a note."""
    return any(it.severity < Severity.NOTED for it in answers_of(look))
