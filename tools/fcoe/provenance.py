"""Where a report comes from: what made it, when, of which files. So two reports can be told apart, and one can be made again."""
import hashlib
import pathlib
import platform
import re
import subprocess
import time
from functools import cache
from typing import Any, Iterable, Optional

TOP = pathlib.Path(__file__).resolve().parents[2]
PIECE = 1 << 20
VERSION = re.compile(r"^## (\d+\.\d+\.\d+)", re.M)


def version_of() -> Optional[str]:
    """The version of program and tools, where the list of changes is beside them."""
    changes = TOP / "CHANGELOG.md"
    found = VERSION.search(changes.read_text(encoding="utf-8")) if changes.is_file() else None
    return found[1] if found else None


@cache
def commit_of() -> Optional[str]:
    """The commit of a working tree, with a plus where something was changed since."""
    words = ["git", "-C", str(TOP), "describe", "--always", "--dirty=+", "--abbrev=12", "--exclude=*"]
    try:
        ran = subprocess.run(words, capture_output=True, text=True, check=False, timeout=20)
    except (OSError, subprocess.SubprocessError):
        return None
    return ran.stdout.strip() or None if ran.returncode == 0 else None


def sum_of(name: str) -> dict[str, Any]:
    """A file with its size and its SHA-256; what is no plain file has none."""
    path = pathlib.Path(name)
    if not path.is_file():
        return {"file": name, "bytes": None, "sha256": None}
    summed, size = hashlib.sha256(), 0
    with path.open("rb") as file:
        while piece := file.read(PIECE):
            summed.update(piece)
            size += len(piece)
    return {"file": name, "bytes": size, "sha256": summed.hexdigest()}


def origin(tool: str, files: Iterable[str], **more: Any) -> dict[str, Any]:
    """What made a report, when, of which files, and whatever else decides what it says."""
    return {
        "tool": tool,
        "version": version_of(),
        "commit": commit_of(),
        "date": time.strftime("%Y-%m-%dT%H:%M:%SZ", time.gmtime()),
        "system": f"{platform.system()} {platform.release()}, Python {platform.python_version()}",
        "files": [sum_of(it) for it in files],
        **more,
    }


def origin_text(found: dict[str, Any]) -> str:
    """The same in a line."""
    made = " ".join(it for it in (found["tool"], found["version"], f"commit {found['commit']}" if found["commit"] else None) if it)
    sums = ", ".join(f"{pathlib.Path(it['file']).name} {it['sha256'][:16]}" for it in found["files"] if it["sha256"])
    return f"{made}, {found['date']}" + (f"; {sums}" if sums else "")
