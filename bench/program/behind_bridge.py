"""The demo's two hosts behind a FIP snooping bridge.

`run` gets what both hosts sent as the capture of one port. Its journal says which frame caused each frame that it sent, so both are put into
one order in which each answer stands behind its question, a millisecond between any two. The forwarder's frames of that order are port 1 of
`snoop`, the initiator's are port 2 and the target's port 3. All frames but those that are neither FIP nor FCoE must pass, unchanged and to
the side where they belong. Then a frame with a stolen source MAC is put in, once on the wrong port, once with the wrong S_ID, and once as it
was: the first two must be dropped, and no output may change. `run` over what came up through the bridge must decide as before. demo/bridge has the
captures of the first try.
"""
import pathlib
import struct
import subprocess
import zlib
from typing import NamedTuple, Optional

import models
from captures import Entry, Record, capture_of, forwarder_of, journal_of, merged, read, write
from machine import DEMO

Ordered = list[tuple[int, Record]]
CONFIG = DEMO / "fabric.conf"
HOSTS = ("initiator", "target")
# verdicts that send one frame to who asked, and those behind which state changes may go out
ONE = {"vlans", "advertised", "granted", "rejected", "logout", "ns-login", "ns-logout", "watching", "registered", "refused", "forwarded"}
TELLING = {"granted", "logout", "registered"}


def said(program: str, room: pathlib.Path, *words: object) -> str:
    job = subprocess.run([program, *map(str, words)], cwd=room, capture_output=True, text=True, check=False)
    if job.returncode:
        raise AssertionError(f"{words[0]} ended with {job.returncode}: {job.stdout.strip()} {job.stderr.strip()}")
    return job.stdout.strip()


# ---- one order of what the hosts and the forwarder sent


def is_notice(data: bytes) -> bool:
    """A state change (RSCN)."""
    return data[16:18] == b"\x89\x06" and data[32] == 0x22 and data[32 + 24] == 0x61


def is_last(data: bytes) -> bool:
    """The last frame of its sequence, by its end."""
    return data[-4] == 0x42


def caused(entry: Entry, queue: list[Record]) -> list[Record]:
    """Takes the frames from the queue that this entry sent."""
    sent: list[Record] = []

    def take() -> None:
        sent.append(queue.pop(0))

    def here() -> bool:
        return bool(queue) and queue[0].moment == entry.clock

    if entry.port == 0:
        while here() and (queue[0].data[:6] == models.ALL_ENODES or entry.words):
            take()
    elif entry.words[0] in ONE:
        take()
        while entry.words[0] in TELLING and here() and is_notice(queue[0].data):
            take()
    elif entry.words[0] == "answered":
        while not sent or not is_last(sent[-1].data):
            take()
    return sent


def ordered(entries: list[Entry], came: Ordered, queue: list[Record]) -> Ordered:
    """(side, record) in the order in which the forwarder took and sent them: side 0 is its own, the others are those of `came`."""
    order: Ordered = []
    for entry in entries:
        if entry.port:
            order.append(came[entry.index])
        order += [(0, it) for it in caused(entry, queue)]
    if queue:
        raise AssertionError(f"{len(queue)} frames of the forwarder have no cause in the journal")
    return order


def retimed(order: Ordered) -> list[list[Record]]:
    """The captures of the sides: each frame a millisecond behind the one before it at least, and else when it was sent."""
    sides: list[list[Record]] = [[], [], []]
    now = 0
    for side, it in order:
        now = max(now + 1, it.moment)
        sides[side].append(Record(now, it.data))
    return sides


# ---- through the bridge


def through(program: str, room: pathlib.Path, sides: list[list[Record]]) -> tuple[str, list[bytes]]:
    """What `snoop` prints over these captures, and its outputs."""
    room.mkdir(exist_ok=True)
    words: list[object] = ["snoop", CONFIG]
    for name, records in zip(("forwarder", *HOSTS), sides):
        write(room / f"{name}.pcap", records)
        words += [f"{name}.pcap", f"to-{name}.pcap"]
    line = said(program, room, *words)
    return line, [(room / f"to-{name}.pcap").read_bytes() for name in ("forwarder", *HOSTS)]


def rules(sides: list[list[Record]]) -> dict[str, int]:
    """How often each rule dropped a frame, by the model."""
    bridge = models.Bridge(forwarder_of(CONFIG.read_text()))
    found: dict[str, int] = {}
    for port, _, caught in models.arrivals(sides):
        way = bridge.frame(port, caught)
        if way[0] == "dropped":
            found[way[1]] = found.get(way[1], 0) + 1
    return found


def is_of_fabric(it: Record) -> bool:
    eth = models.read_eth(it.data)
    return eth is not None and eth.kind in (models.FIP, models.FCOE)


def with_frame(sides: list[list[Record]], side: int, it: Record) -> list[list[Record]]:
    """The captures with one more frame on a side, behind those of its moment."""
    return [merged([records, [it]]) if place == side else records for place, records in enumerate(sides)]


def with_source(data: bytes, s_id: int) -> bytes:
    """An FCoE frame with another S_ID and the check sequence that fits."""
    frame = bytearray(data[32:-8])
    frame[5:8] = s_id.to_bytes(3, "big")
    return data[:32] + frame + struct.pack("<I", zlib.crc32(frame)) + data[-4:]


class Checks:
    def __init__(self) -> None:
        self.wrong = 0

    def that(self, what: str, is_so: bool) -> None:
        if not is_so:
            self.wrong += 1
            print(f"  not so: {what}")


def show(what: str, line: str, sides: list[list[Record]]) -> None:
    found = ", ".join(f"{count} {rule}" for rule, count in sorted(rules(sides).items()))
    print(f"{what:46} {line:24} {found}", flush=True)


def tried(program: str, room: pathlib.Path) -> Optional[str]:
    checks = Checks()
    hosts = [read(DEMO / f"{name}.pcap") for name in HOSTS]
    came = sorted(((side, it) for side, records in enumerate(hosts, 1) for it in records), key=lambda pair: pair[1].moment)
    write(room / "hosts.pcap", [it for _, it in came])
    ran = said(program, room, "run", CONFIG, "journal", "hosts.pcap", "sent.pcap")
    entries = journal_of(room / "journal")
    sides = retimed(ordered(entries, came, read(room / "sent.pcap")))

    line, outs = through(program, room / "bridge", sides)
    for name in ("forwarder", *HOSTS):
        checks.that(f"demo/bridge/{name}.pcap is what comes on its port", (DEMO / f"bridge/{name}.pcap").read_bytes() == (room / f"bridge/{name}.pcap").read_bytes())
    show("both hosts behind the bridge", line, sides)
    noise = sum(not is_of_fabric(it) for records in sides for it in records)
    total = sum(map(len, sides))
    checks.that(f"all but the {noise} frames that are neither FIP nor FCoE pass", line == f"passed {total - noise} dropped {noise}")
    try_ways(checks, sides, outs, hosts)
    (room / "up.pcap").write_bytes(outs[0])
    again = said(program, room, "run", CONFIG, "journal-up", "up.pcap", "sent-up.pcap")
    checks.that("the forwarder decides as without the bridge", verdicts(room / "journal-up") == [it for it in verdicts(room / "journal") if it != "dropped ethertype"])
    print(f"{'run before and behind the bridge':46} {ran}, {again}")

    try_once_more(checks, program, room, sides, outs, (total - noise, noise))
    return "the bridge isn't as it should be" if checks.wrong else None


def try_ways(checks: Checks, sides: list[list[Record]], outs: list[bytes], hosts: list[list[Record]]) -> None:
    """Each side gets what is to it."""
    up = [it for it in merged(sides[1:]) if is_of_fabric(it)]
    checks.that("the forwarder gets them unchanged, in order", outs[0] == capture_of((it.moment, it.data) for it in up))
    for name, out, host in zip(HOSTS, outs[1:], hosts):
        own = [it for it in sides[0] if is_for(it, host)]
        checks.that(f"the {name} gets what is to it, unchanged, in order", out == capture_of((it.moment, it.data) for it in own))


class Again(NamedTuple):
    """A frame that comes once more: on which side, and the rule that drops it there, None where it passes."""

    what: str
    side: int
    data: bytes
    rule: Optional[str]


def try_once_more(checks: Checks, program: str, room: pathlib.Path, sides: list[list[Record]], outs: list[bytes], before: tuple[int, int]) -> None:
    """A command of the initiator again: on its port, on the target's, and with the target's S_ID."""
    passed, dropped = before
    command = next(sent for sent in sides[1] if sent.data[16:18] == b"\x89\x06" and sent.data[32] == 6 and sent.data[40] == 8)
    for number, it in enumerate((
        Again("a command of the initiator once more", 1, command.data, None),
        Again("the same on the target's port", 2, command.data, "unbound"),
        Again("the same on its port, with the target's S_ID", 1, with_source(command.data, 0x010100), "source"),
    )):
        more = with_frame(sides, it.side, Record(command.moment, it.data))
        line, now = through(program, room / f"again{number}", more)
        show(it.what, line, more)
        counts = f"passed {passed + (it.rule is None)} dropped {dropped + (it.rule is not None)}"
        checks.that(f"{it.what}: {counts}", line == counts)
        checks.that(f"{it.what}: it is dropped as {it.rule} by the model", it.rule is None or rules(more).get(it.rule) == 1)
        checks.that(f"{it.what}: no output changes", it.rule is None or now == outs)


def is_for(it: Record, host: list[Record]) -> bool:
    """The frame is to a MAC that the host sends from, or to all ENodes."""
    return it.data[:6] == models.ALL_ENODES or it.data[:6] in {sent.data[6:12] for sent in host}


def verdicts(path: pathlib.Path) -> list[str]:
    return [" ".join(it.words) for it in journal_of(path) if it.port]
