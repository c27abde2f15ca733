"""All scenes, by name; those of a laboratory's own files too."""
import os
import runpy
import traceback
from typing import Any, Optional

from ..errors import Refused, meant
from . import clearing, discovery, exchanges, forwarders, keeping, logins, services, targets, vlans, whole
from .holding import FIRST, FLOGI
from .script import Scene, Wait, Want

MODULES = (vlans, discovery, forwarders, logins, keeping, clearing, services, exchanges, targets, whole)
LEARN = Scene("names", "The host's port names are learned.", "", (Want(FLOGI, 2 * FIRST), Wait(4)))


def line_of(why: BaseException, file: str) -> Optional[int]:
    """Where in the file an exception came from."""
    if isinstance(why, SyntaxError):
        return why.lineno
    steps = [it for it in traceback.extract_tb(why.__traceback__) if it.filename == file]
    return steps[-1].lineno if steps else None


def run_file(file: str) -> dict[str, Any]:
    """What a file of scenes defines; a fault in it is its writer's."""
    if os.path.isdir(file):
        raise Refused(f"{file}: a folder: name the file with scenes in it")
    try:
        return runpy.run_path(file)
    except (OSError, Refused):
        raise
    except (Exception, SystemExit) as why:  # pylint: disable=broad-exception-caught
        line = line_of(why, file)
        raise Refused(f"{file}" + (f", line {line}" if line else "") + f": {type(why).__name__}: {why}") from None


def scenes_of(more: list[str]) -> dict[str, Scene]:
    """The scenes that are there, and those of these files, each of which has a SCENES."""
    found = {it.name: it for module in MODULES for it in module.SCENES}
    for file in more:
        own = run_file(file).get("SCENES")
        if not isinstance(own, (tuple, list)) or not own or not all(isinstance(it, Scene) for it in own):
            raise Refused(f"{file}: has no SCENES, a tuple of Scene: docs/SCENES.md shows one")
        found.update({it.name: it for it in own})
    return found


def chosen(found: dict[str, Scene], named: list[str]) -> list[Scene]:
    for name in named:
        if name not in found:
            raise Refused(f"--scene {name}: no such scene{meant(name, found) or ': `scenes --list` has them'}")
    return [it for it in found.values() if not named or it.name in named]
