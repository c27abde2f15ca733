"""A host's view of a port: what it sent and what the forwarder sent, each sent frame a microsecond behind its cause; and verdicts as packet comments."""
import os
import shutil
from typing import Any, Iterable

from ..errors import Refused
from ..files import renamed
from ..frames.captures import called, last_line, refuse_inputs, write_classic
from ..frames.columns import Record
from ..frames.heard import hear
from ..frames.spool import unpacked
from ..printing import visible
from .fabric import Sent
from .inputs import Port
from .journals import Entries, Frame
from .looking import Look

MICROSECOND = 1000
AT_ONCE = 1000  # comments of one run of editcap, whose command line has a limit


def causes(look: Look) -> list[int]:
    """The moment of each entry: that of its frame, and of a tick its clock; within a port they don't go back."""
    greatest = [0] * (len(look.ports) + 1)
    found = []
    for entry in look.run.entries:
        if isinstance(entry, Frame):
            greatest[entry.port] = max(greatest[entry.port], look.ports[entry.port - 1].moment(entry.index))
            found.append(greatest[entry.port])
        else:
            found.append(entry.clock * 1_000_000)
    return found


def view_of(look: Look, port: int) -> list[tuple[Record, str]]:
    """The frames of a port in both directions, with a comment each."""
    moments = causes(look)
    rows: list[tuple[tuple[int, int, int], Record, str]] = []
    for place, entry in enumerate(look.run.entries):
        if isinstance(entry, Frame) and entry.port == port:
            record = look.ports[port - 1].record(entry.index)
            rows.append(((moments[place], place, 0), Record(moments[place], record.data, record.length, record.number), entry.verdict))
        own: list[Sent] = [it for it in look.walk.sent[place] if it.port == port]
        for count, it in enumerate(own, 1):
            moment = moments[place] + count * MICROSECOND
            cause = f"sent by port {entry.port}, index {entry.index}" if isinstance(entry, Frame) else "sent at a tick"
            rows.append(((moment, place, count), Record(moment, it.record.data, it.record.length, 0), cause))
    rows.sort(key=lambda it: it[0])
    return [(record, comment) for _, record, comment in rows]


def with_comments(source: str, out: str, comments: Iterable[tuple[int, str]], room: str) -> None:
    """Copies a capture to a pcapng file with packet comments, by their frame numbers."""
    words = [f"{number}:{visible(text)}" for number, text in comments]
    here, turn = source, 0
    while turn == 0 or turn * AT_ONCE < len(words):
        there = os.path.join(room, f"commented{turn}")
        some = [word for it in words[turn * AT_ONCE : (turn + 1) * AT_ONCE] for word in ("-a", it)]
        ran = called(["editcap", "-F", "pcapng", *some, here, there])
        if ran.returncode:
            raise Refused(f"{source}: editcap: {last_line(ran)}")
        if here != source:
            os.remove(here)  # one copy at a time
        here, turn = there, turn + 1
    with renamed(out) as whole:
        shutil.copyfile(here, whole)


def annotate(port: Port, entries: Entries, number: int, out: str, room: str, answers: Iterable[tuple[int, str]] = ()) -> int:
    """Copies a port's file with the verdict as a comment of each frame that a host sent, and what is said of a frame with it; comments that are there stay."""
    told = zip(entries.ports, entries.indexes, entries.said)
    comments = {port.frame_number(index): entries.verdicts[said] for there, index, said in told if there == number}
    count = len(comments)
    for frame, text in answers:
        comments[frame] = f"{comments[frame]}; {text}" if frame in comments else text
    with_comments(unpacked(port.file, room), out, sorted(comments.items()), room)
    return count


def merge(look: Look, port: int, out: str, inputs: list[str], room: str) -> list[tuple[Record, str]]:
    """Writes the view of a port; gives its frames, each with its comment."""
    if not 1 <= port <= len(look.ports):
        raise Refused(f"--port {port}: there are the ports 1 to {len(look.ports)}")
    refuse_inputs(out, inputs)
    rows = view_of(look, port)
    plain = os.path.join(room, f"view{port}.pcap")
    write_classic(plain, [record for record, _ in rows])
    with_comments(plain, out, [(at, comment) for at, (_, comment) in enumerate(rows, 1)], room)
    return rows


def merged_row(record: Record, comment: str) -> dict[str, Any]:
    """A frame of a view, for JSON: nanoseconds, its number in the user's file where a host sent it, kind and comment."""
    return {"moment": record.moment, "frame": record.number or None, "sent": not record.number, "kind": hear(record.data).kind, "comment": comment}
