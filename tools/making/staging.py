"""What is installed: the program, the tools of python with their package and the page that they read, man pages, and the completion in bash."""
import os
import pathlib
import re
import shutil
import subprocess
from dataclasses import dataclass

from fcoe.errors import Refused

from .building import Build

TOP = pathlib.Path(__file__).resolve().parents[2]
PROVED = TOP / "crates/fcoe_tool/out/fcoe_tool"
PROGRAM = "fcoe_tool"
TOOLS = ("look", "zones", "annotate", "bound", "ladder", "readdress", "live", "scenes", "fcoe_host", "load", "vm")
PAGES = ("docs/JOURNAL.md",)  # that the tools read
HOME = "share/wegcapho"  # of all files; what stands elsewhere are links to them
MADE = "MADE"  # how the program was made


@dataclass(frozen=True)
class Program:
    """A built program, and how it was made."""

    file: pathlib.Path
    how: str


def program_of(named: str | None) -> Program:
    """The program that is named; else the one that `rt run` proved, where no source is newer; else one that is built without proving it."""
    if named:
        return checked(Program(pathlib.Path(named), "named by --program: neither proved nor built here"))
    if PROVED.exists() and not any(it.stat().st_mtime > PROVED.stat().st_mtime for it in TOP.glob("crates/*/src/**/*.rt")):
        return checked(Program(PROVED, "the program that was proved here, by `rt run`"))
    return checked(Program(Build(TOP / "crates/fcoe_tool").made(), "an unproved build of these sources, by tools/build"))


def checked(it: Program) -> Program:
    """Refuses what doesn't run as the program does."""
    if not it.file.is_file() or not os.access(it.file, os.X_OK):
        raise Refused(f"{it.file}: no program: name a built fcoe_tool")
    try:
        ran = subprocess.run([it.file.resolve(), "--version"], stdin=subprocess.DEVNULL, capture_output=True, timeout=60, check=False)
    except (OSError, subprocess.TimeoutExpired) as why:
        raise Refused(f"{it.file}: doesn't run here ({why}): name a built fcoe_tool") from None
    if ran.returncode or not ran.stdout.startswith(PROGRAM.encode()):
        raise Refused(f"{it.file}: is no fcoe_tool: `--version` ends with status {ran.returncode}")
    return it


def completed() -> list[str]:
    """The commands that the completion knows."""
    text = (TOP / "tools/completion.bash").read_text(encoding="utf-8")
    return [name for line in re.findall(r"^complete .*-F \w+ (.*)$", text, re.M) for name in line.split()]


def man_pages() -> list[str]:
    return sorted(it.name for it in (TOP / "man").glob("*.1"))


def sources() -> list[tuple[str, str]]:
    """The files that are copied: where each stands here, and where below HOME."""
    package = [str(it.relative_to(TOP)) for it in sorted((TOP / "tools/fcoe").rglob("*")) if it.is_file() and "__pycache__" not in it.parts]
    own = [*package, *(f"tools/{it}" for it in TOOLS), *PAGES]
    return [*((it, it) for it in own), *((f"man/{it}", f"man/{it}") for it in man_pages()), ("tools/completion.bash", "completion.bash")]


def links() -> dict[str, str]:
    """Each link below a prefix, and what it leads to below HOME."""
    found = {f"bin/{it}": f"tools/{it}" for it in TOOLS} | {f"bin/{PROGRAM}": f"bin/{PROGRAM}"}
    found |= {f"share/man/man1/{it}": f"man/{it}" for it in man_pages()}
    return found | {f"share/bash-completion/completions/{it}": "completion.bash" for it in completed()}


def lead(link: str, target: str) -> str:
    """What a link below a prefix says: the way to HOME from where it stands."""
    return os.path.relpath(f"{HOME}/{target}", os.path.dirname(link))


def stage(home: pathlib.Path, program: Program) -> None:
    """Writes all files of HOME."""
    for source, there in sources():
        (home / there).parent.mkdir(parents=True, exist_ok=True)
        shutil.copyfile(TOP / source, home / there)
        (home / there).chmod(0o755 if os.access(TOP / source, os.X_OK) else 0o644)
    (home / "bin").mkdir()
    shutil.copyfile(program.file, home / "bin" / PROGRAM)
    (home / "bin" / PROGRAM).chmod(0o755)
    (home / MADE).write_text(f"{program.how}\n", encoding="utf-8")
    for folder in (home, *(it for it in home.rglob("*") if it.is_dir())):
        folder.chmod(0o755)
