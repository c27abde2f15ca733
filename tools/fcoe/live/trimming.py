"""`look trim FOLDER`: of a recording that was cut off, what is whole, as a folder that `replay` accepts.

A session writes IN, then the journal, then OUT: so it is whole up to the last line of the journal that has all its frames in OUT.
"""
import pathlib
import shutil
from typing import Sequence

from ..errors import Refused
from ..files import check_plain, opened
from ..frames.captures import classic
from ..frames.columns import Frames
from ..printing import say
from ..runs.configs import read_config
from ..runs.fabric import Fabric, Sender, SentFrames, walking
from ..runs.inputs import Port
from ..runs.journals import TICK, Entries, read_journal
from ..runs.program import Run, names_of, program_of
from ..runs.program import say as run_program
from .sessions import Folder, is_running, told_of

HEAD = 24  # bytes of a capture before its first record
PIECE = 1 << 20
TRIES = 70  # lines that are left out one by one: an advertisement on each port may lack, which no line tells


def copied(source: pathlib.Path, to: pathlib.Path, size: int) -> None:
    """Copies the first bytes of a file."""
    with opened(source) as file, open(to, "wb") as out:
        while size > 0 and (piece := file.read(min(size, PIECE))):
            out.write(piece)
            size -= len(piece)


def line_ends(path: pathlib.Path) -> list[int]:
    """Where the lines of a journal end."""
    ends, at = [0], 0
    with opened(path) as file:
        while line := file.readline(PIECE):
            at += len(line)
            if line.endswith(b"\n"):
                ends.append(at)
    return ends


def end_of(frames: Frames, count: int) -> int:
    """Where the first frames of a capture end; of one that hasn't as many, where it ends."""
    count = min(count, len(frames))
    return frames.places[count - 1] + frames.sizes[count - 1] if count else HEAD


def heard(entries: Entries, count: int, ports: int) -> list[int]:
    """How many frames of each port the first entries have."""
    found = [0] * ports
    for port, said in zip(entries.ports[:count], entries.said[:count]):
        if said != TICK and port <= ports:
            found[port - 1] += 1
    return found


def whole(run: Run) -> int:
    """How many entries have their frames in IN and all that they send in OUT."""
    for place, (port, index, said) in enumerate(zip(run.entries.ports, run.entries.indexes, run.entries.said)):
        if said != TICK and (port > len(run.ports) or index >= len(run.ports[port - 1].frames)):
            return place
    count = 0
    try:
        for place in walking(run, Fabric(run.config), Sender(run), SentFrames(run)):
            count = place + 1
    except Refused:
        pass
    return count


def sent(run: Run, count: int) -> Sequence[int]:
    """How many frames of each output the first entries sent."""
    sender = Sender(run)
    for place in walking(run, Fabric(run.config), sender, SentFrames(run)):
        if place + 1 >= count:
            break
    return sender.next if count else [0] * len(run.outputs)


def run_of(folder: Folder, journal: pathlib.Path, ports: int) -> Run:
    """What is there of a session, with the whole lines of its journal."""
    config = read_config(str(folder.config))
    made = []
    for number in range(1, ports + 1):
        port = Port(number, folder.heard(number).name, str(folder.heard(number)), classic(str(folder.heard(number))).frames)
        port.divide(set())
        made.append(port)
    outputs = [classic(str(folder.sent(it)), is_plain=True).frames for it in range(1, ports + 1)]
    return Run(config, made, read_journal(str(journal)), outputs)


def write(run: Run, folder: Folder, to: Folder, count: int, ends: list[int]) -> None:
    """Writes the first entries with what they took and sent; a journal of format 1 has no line before them."""
    copied(folder.journal, to.journal, ends[count + len(ends) - 1 - len(run.entries)])
    ins, outs = heard(run.entries, count, len(run.ports)), sent(run, count)
    for number, (port, out) in enumerate(zip(run.ports, run.outputs), 1):
        copied(folder.heard(number), to.heard(number), end_of(port.frames, ins[number - 1]))
        copied(folder.sent(number), to.sent(number), end_of(out, outs[number - 1]))


def trim(words: list[str]) -> int:
    """Writes FOLDER.whole beside a session's folder."""
    if len(words) != 1:
        raise Refused("words: look trim FOLDER: the folder of a session of `live` that was cut off")
    folder, to = Folder(pathlib.Path(words[0])), Folder(pathlib.Path(words[0].rstrip("/") + ".whole"))
    ports = len(told_of(folder).interfaces)
    if is_running(folder):
        raise Refused(f"{folder.path}: the session runs: it can be trimmed once it has ended")
    check_plain([folder.config, *folder.pairs(ports)])
    program, ends = program_of(None), line_ends(folder.journal)
    if len(ends) == 1:
        raise Refused(f"{folder.journal}: has no whole line: nothing of this recording is whole")
    to.path.mkdir()
    for source, path in ((folder.config, to.config), (folder.told, to.told)):
        shutil.copyfile(source, path)
    copied(folder.journal, to.journal, ends[-1])
    run = run_of(folder, to.journal, ports)
    most = whole(run)
    for count in range(most, max(most - TRIES, -1), -1):
        write(run, folder, to, count, ends)
        ran = run_program([program, "replay", "fabric.conf", "journal", *names_of(ports)], str(to.path))
        if not ran.returncode:
            left = len(run.entries) - count
            say([f"{to.path}: {count} entries are whole, {left} left out; replay: {ran.stdout.strip()}"])
            return 0
    raise Refused(f"{to.path}: `replay` says '{ran.stdout.strip()}' of what seems whole: keep {folder.path} and report it")
