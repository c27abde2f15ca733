"""The program, run in a folder of its own and checked by its own `replay`."""
import os
import pathlib
import re
import shutil
import subprocess
from collections import Counter
from dataclasses import dataclass, replace
from typing import Optional, Sequence

from ..errors import Refused
from ..frames import limits
from ..frames.captures import called, classic, write_frames
from ..frames.columns import MILLISECOND, Frames
from ..frames.heard import Heard
from ..numerals import whole
from ..progress import PROGRESS
from .configs import Config
from .inputs import Inputs, Port
from .journals import TICK, Entries, read_journal

TOP = pathlib.Path(__file__).resolve().parents[3]
BUILT = TOP / "crates" / "fcoe_tool" / "out" / "fcoe_tool"
INSTALLED = TOP / "bin" / "fcoe_tool"  # where these tools are installed
RAN = re.compile(r"frames [0-9]+ entries [0-9]+")  # what `run` prints


@dataclass
class Run:
    """What the program did with the frames of hosts."""

    config: Config
    ports: list[Port]
    entries: Entries
    outputs: list[Frames]
    printed: str = ""
    checked: str = ""
    folder: str = ""


def alike(run: Run, places: Sequence[int]) -> list[Heard]:
    """What the frames of these entries are, in their order: each message, and of other frames the first of those that are alike, with their count."""
    entries, counts = run.entries, Counter[tuple[int, int]]()
    shown: dict[tuple[int, int], Heard] = {}
    for place in places:
        number, frames = entries.ports[place], run.ports[entries.ports[place] - 1].frames
        at = run.ports[number - 1].hosts[entries.indexes[place]]
        flow = frames.flow_of[at]
        key = (number, -1 - at) if frames.flows[flow].is_message else (number, flow)
        counts[key] += 1
        if key not in shown:
            shown[key] = frames.like(at)
    return [replace(shown[key], count=count) for key, count in counts.items()]


def program_of(named: Optional[str]) -> str:
    """The program: as named, by FCOE_TOOL, the one that was installed with these tools, on PATH, or where `rt run` leaves it."""
    for word in (named, os.environ.get("FCOE_TOOL")):
        if word:
            if not os.access(word, os.X_OK) or os.path.isdir(word):
                raise Refused(f"{word}: no program: `tools/install ~/.local` builds one")
            return os.path.realpath(word)
    found = str(INSTALLED) if INSTALLED.exists() else shutil.which("fcoe_tool") or (str(BUILT) if BUILT.exists() else None)
    if not found:
        raise Refused("no fcoe_tool on PATH: `tools/install ~/.local` builds it; or name it with --program or FCOE_TOOL")
    return os.path.realpath(found)


def say(words: list[str], folder: str) -> "subprocess.CompletedProcess[str]":
    return called(words, folder)


def why_refused(printed: str, inputs: Inputs, folder: str) -> str:
    """A refusal of the program with its file and the next step."""
    words = printed.split()
    if words[:1] == ["capture"] and len(words) == 4 and (port := whole(words[1], 1, len(inputs.ports))):
        return f"{inputs.ports[port - 1].label}: capture {' '.join(words[2:])}: cut it before that byte"
    lines = inputs.text.split("\n")
    if words[:1] == ["config"] and len(words) == 3 and (number := whole(words[1], 0, len(lines))) is not None:
        line = lines[number - 1] if number else ""
        return f"configuration, line {words[1]} ({line.strip()[:60]}): {words[2]}: docs/COMMANDS.md has the table of keys"
    for word, next_step in limits.NEXT.items():
        if printed.startswith(word):
            return f"{inputs.ports[0].file}: {printed}: {next_step}"
    if not printed:
        return f"{inputs.ports[0].file}: the program printed nothing: look whether it is fcoe_tool (`--version` tells), or build it by tools/install"
    return f"{folder}: the program printed '{printed}': look whether the disk is full"


def names_of(count: int, with_outputs: bool = True) -> list[str]:
    pairs = [(f"in{it}.pcap", f"out{it}.pcap") for it in range(1, count + 1)]
    return [name for pair in pairs for name in (pair if with_outputs else pair[:1])]


def run_program(program: str, inputs: Inputs, folder: str) -> Run:
    """Runs the program over the ports' frames of hosts, and has `replay` check what it wrote."""
    with open(os.path.join(folder, "fabric.conf"), "w", encoding="latin-1") as file:
        file.write(inputs.text)
    for port in inputs.ports:
        write_frames(os.path.join(folder, f"in{port.number}.pcap"), port.frames, port.hosts)
    names = names_of(len(inputs.ports))
    count = sum(len(port.hosts) for port in inputs.ports)
    PROGRESS.say(f"the forwarder runs over {count:,} frames of hosts")
    ran = say([program, "run", "fabric.conf", "journal", *names], folder)
    printed = ran.stdout.strip()
    if ran.returncode or not RAN.fullmatch(printed):
        raise Refused(why_refused(printed if ran.returncode else "", inputs, folder))
    PROGRESS.say(f"`replay` checks the run over {count:,} frames")
    checked = say([program, "replay", "fabric.conf", "journal", *names], folder)
    if checked.returncode or checked.stdout.strip() != f"legal {printed.split()[-1]}":
        raise Refused(f"{folder}: `replay` says '{checked.stdout.strip()}' of this run: keep its files with --keep and report it")
    outputs = [classic(os.path.join(folder, f"out{it.number}.pcap"), f"what port {it.number} is sent", True).frames for it in inputs.ports]
    entries = read_journal(os.path.join(folder, "journal"))
    return Run(inputs.config, inputs.ports, entries, outputs, printed, checked.stdout.strip(), folder)


def shown_at_end(program: str, run: Run) -> list[str]:
    """The lines of `show`."""
    ran = say([program, "show", "fabric.conf", "journal", *names_of(len(run.ports), False)], run.folder)
    if ran.returncode:
        raise Refused(f"{run.folder}: `show` says '{ran.stdout.strip()}'")
    return ran.stdout.splitlines()


Told = list[tuple[int, int]]  # of the frames of a port: INDEX and clock


def told_by_port(entries: Entries) -> dict[int, Told]:
    """What a journal says of each port's frames."""
    found: dict[int, Told] = {}
    for port, index, clock, said in zip(entries.ports, entries.indexes, entries.clocks, entries.said):
        if said != TICK:
            found.setdefault(port, []).append((index, clock))
    return found


def fits(told: Told, moments: list[int], window: int) -> bool:
    """The frames of a port are these records, by number and time (milliseconds that don't go back)."""
    if len(told) != len(moments):
        return False
    greatest = 0
    for place, ((index, clock), moment) in enumerate(zip(told, moments)):
        greatest = max(greatest, moment)
        if index != place or clock != greatest - greatest % window:
            return False
    return True


def moments_of(port: Port) -> list[int]:
    """The milliseconds of a port's frames of hosts."""
    moments = port.frames.moments
    return [moments[at] // MILLISECOND for at in port.hosts]


def check_fits(run: Run, names: list[str]) -> None:
    """Refuses files that don't belong together."""
    by_port = told_by_port(run.entries)
    onto = [int(it.split(" ")[1]) for it in run.entries.verdicts if it.startswith("forwarded ")]
    wrong = [it for it in [*by_port, *onto] if it > len(run.ports)]
    if wrong:
        raise Refused(f"{names[0]}: has frames of port {min(wrong)}, of which no capture is named: name the captures as for `run`")
    for port in run.ports:
        if not fits(by_port.get(port.number, []), moments_of(port), run.config.window):
            raise Refused(f"{names[0]}: is no journal of {port.label} as port {port.number}: name the files in the order of `run`; `fcoe_tool replay` tells the line")


def port_of(entries: Entries, port: Port, switches: set[bytes], window: int, wanted: Optional[int]) -> int:
    """Which port of a journal a capture is of, by number and time: all its frames, or those that hosts sent."""
    by_port = told_by_port(entries)
    nobody: set[bytes] = set()
    for own in (nobody, switches):
        port.divide(own)
        moments = moments_of(port)
        found = [it for it, told in by_port.items() if fits(told, moments, window) and wanted in (None, it)]
        if len(found) > 1:
            raise Refused(f"{port.label}: the capture may be that of the ports {', '.join(map(str, found))}: name one")
        if found:
            return found[0]
    if not port.frames and (wanted or 1) not in by_port:
        return wanted or 1
    raise Refused(f"{port.label}: the journal has no port with just these frames: name the capture that `run` was given, or one with both directions")
