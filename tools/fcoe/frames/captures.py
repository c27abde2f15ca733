"""Captures as people have them: classic or pcapng, packed or not, one interface or several; and what is written for the program."""
import os
import shutil
import struct
import subprocess
from array import array
from collections import Counter
from dataclasses import dataclass, field
from typing import Iterable, Iterator, Optional, Sequence

from ..errors import Refused
from . import pcapng
from .columns import LAST, PIECE, SCANNED, Frames, Record, Row, Source
from .limits import MODIFIED, no_capture
from .spool import spooled, unpacked

# magic: byte order, and nanoseconds of a fraction's unit
ORDERS = {b"\xd4\xc3\xb2\xa1": ("<", 1000), b"\xa1\xb2\xc3\xd4": (">", 1000), b"\x4d\x3c\xb2\xa1": ("<", 1), b"\xa1\xb2\x3c\x4d": (">", 1)}
COOKED = {113: "captured with `-i any`", 276: "captured with `-i any`"}
HEAD = struct.pack("<IHHiIII", 0xA1B23C4D, 2, 4, 0, 0, 262144, 1)  # of a classic capture with nanoseconds
HINT = "apt-get install tshark"


@dataclass
class Capture:
    """A file's frames; what was met on the way is said in words. `file` is a plain file with it, also where it came through a pipe."""

    name: str
    frames: Frames
    file: str = ""
    interfaces: list[str] = field(default_factory=list)
    remarks: list[str] = field(default_factory=list)

    @property
    def records(self) -> list[Record]:
        return list(self.frames.records)


def check_link(link: int, shown: str) -> None:
    """Refuses frames that aren't Ethernet's."""
    if link != 1:
        how = COOKED.get(link, f"its link type is {link}")
        raise Refused(f"{shown}: no Ethernet frames: {how}; capture on the Ethernet port itself, as in `tcpdump -i eth0 -w FILE`")


def classic_rows(source: Source, order: str, unit: int, cuts: list[int]) -> Iterator[Row]:
    """The records of a classic capture; what comes behind a cut is left out, whose place is told."""
    unpack = struct.Struct(order + "IIII").unpack_from
    place, want = 24, SCANNED
    while place < source.size:
        asked, data, at = want, source.read(place, want), 0
        end, want = len(data) - 16, SCANNED
        while at <= end:
            seconds, fraction, stored, length = unpack(data, at)
            if at + stored > end:
                want = max(16 + stored, want)
                break
            at += 16 + stored
            yield seconds * 1_000_000_000 + fraction * unit, place + at - stored, data, at - stored, stored, length
        if not at and (len(data) < asked or place + want > source.size):
            cuts.append(place)
            return
        place += at


def classic(name: str, shown: Optional[str] = None, is_plain: bool = False) -> Capture:
    """The frames of a classic capture; plain ones aren't told apart."""
    shown = shown or name
    source = Source(name, shown)
    head = source.read(0, 24)
    if head[:4] not in ORDERS or len(head) < 24:
        raise Refused(f"{shown}: no classic capture (pcap)" if len(head) >= 24 else f"{shown}: cut in its head: no capture of {len(head)} bytes; capture it again")
    order, unit = ORDERS[head[:4]]
    check_link(struct.unpack_from(order + "I", head, 20)[0] & 0xFFFF, shown)
    capture, cuts = Capture(shown, Frames(source)), list[int]()
    capture.frames.fill(classic_rows(source, order, unit, cuts), is_plain)
    capture.remarks += [f"cut at byte {it}, after frame {len(capture.frames)}: the frames before it are taken" for it in cuts]
    return capture


def write_rows(name: str, rows: Iterable[tuple[int, int, bytes]]) -> None:
    """A classic capture with nanoseconds, of moments, lengths and bytes."""
    pack = struct.Struct("<IIII").pack
    with open(name, "wb", buffering=PIECE) as file:
        file.write(HEAD)
        for moment, length, data in rows:
            seconds, fraction = divmod(moment, 1_000_000_000)
            file.write(pack(seconds, fraction, len(data), length) + data)


def write_classic(name: str, records: Iterable[Record]) -> None:
    """A classic capture with nanoseconds; lengths are kept."""
    write_rows(name, ((min(it.moment, LAST - 1), it.length, it.data) for it in records))


def write_frames(name: str, frames: Frames, chosen: Sequence[int]) -> None:
    """Some frames as a classic capture with nanoseconds; lengths are kept."""
    pack, take = struct.Struct("<IIII").pack, frames.source.take
    moments, places, sizes, lengths = frames.moments, frames.places, frames.sizes, frames.lengths
    with open(name, "wb", buffering=PIECE) as file:
        write = file.write
        write(HEAD)
        for at in chosen:
            seconds, fraction = divmod(moments[at], 1_000_000_000)
            size = sizes[at]
            write(pack(seconds, fraction, size, lengths[at]))
            write(take(places[at], size))


def need(program: str) -> None:
    if not shutil.which(program):
        raise Refused(f"{program} isn't there ({HINT})")


def called(words: list[str], folder: Optional[str] = None) -> "subprocess.CompletedProcess[str]":
    """Runs a program; what it says is read whatever its bytes are."""
    need(words[0])
    return subprocess.run(words, cwd=folder, capture_output=True, encoding="utf-8", errors="backslashreplace", check=False)


def last_line(ran: "subprocess.CompletedProcess[str]") -> str:
    said = [line for line in ran.stderr.strip().splitlines() if "Running as user" not in line]
    return said[-1].strip() if said else f"status {ran.returncode}"


def ethernet_alone(reader: pcapng.Reader, frames: Frames, capture: Capture) -> list[int]:
    """Leaves out the frames of interfaces that aren't Ethernet's, where there are others; gives those that stay."""
    used = sorted(set(reader.interface_of))
    others = [it for it in used if reader.interfaces[it].link != 1]
    if not others or len(others) == len(used):
        for it in used:
            check_link(reader.interfaces[it].link, capture.name)
        return used
    counts = Counter(reader.interface_of)
    named = ", ".join(f"{reader.interfaces[it].name or it} (link type {reader.interfaces[it].link}, {counts[it]} frames)" for it in others)
    capture.remarks.append(f"{named}: no Ethernet, left out")
    chosen = [at for at, it in enumerate(reader.interface_of) if it not in others]
    capture.frames = frames.part(chosen)
    reader.interface_of = array("I", (reader.interface_of[at] for at in chosen))
    return [it for it in used if it not in others]


def saved(path: str, shown: str) -> Capture:
    """The frames of a pcapng file, each with its interface."""
    reader = pcapng.Reader(Source(path, shown))
    frames = Frames(reader.source)
    frames.fill(reader.rows())
    capture = Capture(shown, frames)
    used = ethernet_alone(reader, frames, capture)
    frames = capture.frames
    capture.interfaces = [reader.interfaces[it].name or str(it) for it in used]
    if len(used) > 1:
        number_of = {it: at for at, it in enumerate(used)}
        frames.interfaces = [number_of[it] for it in reader.interface_of]
    if reader.fault and not frames:
        raise Refused(f"{shown}: no packet can be read of it ({reader.fault}): capture or copy it again")
    if reader.fault:
        capture.remarks.append(f"cut after frame {len(frames)}: the frames before it are taken")
    return capture


def read_capture(name: str, room: str) -> Capture:
    """The frames of a capture of any form; `room` is a folder for what stands in between."""
    if os.path.isdir(name):
        raise Refused(f"{name}: a folder: name the captures in it")
    whole = spooled(name, room)
    path = unpacked(whole, room, name)
    with open(path, "rb") as file:
        magic = file.read(4)
    if not magic:
        raise Refused(f"{name}: empty: nothing was captured; look whether tcpdump could write, and capture again")
    if magic in ORDERS:
        found = classic(path, name)
    elif magic == pcapng.MAGIC:
        found = saved(path, name)
    elif magic in MODIFIED:
        there = os.path.join(room, f"read{len(os.listdir(room))}")
        ran = called(["editcap", "-F", "nsecpcap", path, there])
        if ran.returncode:
            raise Refused(f"{name}: editcap can't read it: {last_line(ran)}")
        found = classic(there, name)
    else:
        raise no_capture(name, magic)
    found.file = whole
    return found


def same_file(one: str, other: str) -> bool:
    return os.path.exists(one) and os.path.exists(other) and os.path.samefile(one, other)


def refuse_inputs(out: str, inputs: Iterable[str]) -> None:
    """An output that is an input would destroy it."""
    for name in inputs:
        if same_file(out, name):
            raise Refused(f"{out}: is the input {name} itself: name another output")
