"""A forwarder on interfaces: what comes in goes to `fcoe_tool live` as one stream, and what that sends goes out."""
import contextlib
import errno
import os
import selectors
import shutil
import signal
import socket
import struct
import subprocess
import sys
import time
from collections import Counter, deque
from dataclasses import dataclass, field
from itertools import islice
from types import FrameType
from typing import Iterator, Optional

from ..errors import FAULT, Refused, note
from ..frames.limits import MOST_BYTES, MOST_FRAMES, MOST_SPAN
from ..frames.stream import MARK, head, packet
from ..printing import Shown
from .sessions import Folder, Running
from .wires import Clock, Wire

BATCH = 64  # frames of one port before the next port has its turn
HELD = 128 << 10  # bytes that wait for the program; behind them frames wait in the kernel
PIECE = 1 << 16
PIECES = 256  # that one call writes
CAPTURE_HEAD, RECORD_HEAD = 24, 16
# why a frame isn't sent: a word, and what to do
REFUSALS = {
    errno.EMSGSIZE: ("MTU", "`ip link set {} mtu 2500`"),
    errno.ENETDOWN: ("down", "`ip link set {} up`"),
    errno.ENOBUFS: ("no room", ""),
    errno.EAGAIN: ("no room", ""),
    errno.ENXIO: ("removed", ""),
    errno.ENODEV: ("removed", ""),
}
# what a session can take, and the share of it that is told
LIMITS = {"frames": MOST_FRAMES, "bytes of the stream": MOST_BYTES, "milliseconds": MOST_SPAN}
TOLD_AT = 0.8
ROOM = 2 * MOST_BYTES + 48 * MOST_FRAMES  # bytes of disk: each frame in IN and in OUT, their heads, and lines of the journal
# signals that end no session: those that can't be caught, that stop and go on, that nobody minds, and faults of the process itself, which would come again
OTHERS = {f"SIG{it}" for it in "KILL STOP TSTP TTIN TTOU CONT CHLD URG WINCH PIPE XFSZ SEGV BUS FPE ILL".split()}
PATIENCE = 30.0  # seconds that the program has to end behind the end of its stream


@dataclass
class Options:
    """How a session is run."""

    mark: float = 0.1  # seconds of silence before a mark
    every: float = 5.0  # seconds between two lines of statistics; none where it's 0
    seconds: Optional[float] = None
    keep_stream: bool = False


@dataclass
class Counts:
    """What was counted of a port."""

    came: int = 0
    lost: int = 0
    sent: int = 0
    refused: "Counter[str]" = field(default_factory=Counter)  # frames that weren't sent, by why


class Kept:
    """A file that is written without delay."""

    def __init__(self, path: str) -> None:
        self.path = path
        self.file = open(path, "wb", buffering=0)  # pylint: disable=consider-using-with

    def add(self, data: bytes) -> None:
        while data:
            data = data[self.file.write(data) :]

    def end(self) -> None:
        self.file.close()


class Way:
    """The way to the program, which never waits for it; the stream is kept in a file too where there is one."""

    def __init__(self, descriptor: int, copy: Optional[Kept]) -> None:
        os.set_blocking(descriptor, False)
        self.descriptor: Optional[int] = descriptor
        self.pieces: deque[bytes] = deque()
        self.size = 0
        self.copy = copy

    @property
    def is_full(self) -> bool:
        return self.size >= HELD

    def add(self, piece: bytes) -> None:
        self.pieces.append(piece)
        self.size += len(piece)

    def push(self) -> None:
        """Writes what the program takes now."""
        while self.pieces and self.descriptor is not None:
            first = list(islice(self.pieces, PIECES))
            try:
                done = os.writev(self.descriptor, first)
            except BlockingIOError:
                return
            self.forget(done)
            if self.copy:
                self.copy.add(b"".join(first)[:done])

    def forget(self, done: int) -> None:
        """Takes away what was written."""
        self.size -= done
        while self.pieces and done >= len(self.pieces[0]):
            done -= len(self.pieces.popleft())
        if done:
            self.pieces[0] = self.pieces[0][done:]

    def clear(self) -> None:
        self.pieces.clear()
        self.size = 0

    def end(self) -> None:
        if self.descriptor is not None:
            os.close(self.descriptor)
            self.descriptor = None
        if self.copy:
            self.copy.end()


class Port:
    """An interface, what was counted of it, and what the program sends there."""

    def __init__(self, number: int, name: str, wire: Wire, descriptor: int, kept: Kept) -> None:
        self.number, self.name, self.wire, self.descriptor, self.kept = number, name, wire, descriptor, kept
        self.counts = Counts()
        self.held = b""
        self.skip = CAPTURE_HEAD
        self.is_broken = self.is_removed = False
        self.emptied = 0  # when nothing waited last

    def taken(self, clock: Clock) -> list[bytes]:
        """The frames that wait, a batch at most, as packets of the stream. An interface that goes down is said."""
        packets: list[bytes] = []
        face, correction, asked = self.number - 1, clock.correction(), 0
        try:
            for _ in range(BATCH):
                asked = clock.now()
                frame, length, moment = self.wire.receive()
                packets.append(packet(face, clock.moment(moment, correction, self.emptied), frame, length))
        except BlockingIOError:
            self.emptied = asked
        except OSError as why:
            if not self.see_removed():
                note(f"{self.name}: {why.strerror}: the session goes on, and hears it again once it's up")
        self.counts.came += len(packets)
        return packets

    def pass_on(self) -> bool:
        """Keeps what the program sends, and then sends it; False at its end. What can't be kept isn't sent."""
        piece = os.read(self.descriptor, PIECE)
        if not self.is_broken:
            self.is_broken = True
            self.kept.add(piece)
            self.is_broken = False
            self.held += piece
            self.send_records()
        return bool(piece)

    def send_records(self) -> None:
        """Sends the frames of the whole records that are there."""
        at = 0
        while len(self.held) - at >= (self.skip or RECORD_HEAD):
            if self.skip:
                at, self.skip = at + self.skip, 0
                continue
            (stored,) = struct.unpack_from("<I", self.held, at + 8)
            behind = at + RECORD_HEAD + stored
            if behind > len(self.held):
                break
            self.send(self.held[at + RECORD_HEAD : behind])
            at = behind
        self.held = self.held[at:]

    def see_removed(self) -> bool:
        """Whether the interface was removed, which is said once."""
        if not self.is_removed and not self.wire.is_there():
            self.is_removed = True
            note(f"{self.name}: was removed: nothing is heard or sent there any more, also where one of its name is made again: begin a new session then")
        return self.is_removed

    def send(self, frame: bytes) -> None:
        """A frame that the interface refuses is lost as on a wire, and counted by why; its record stays."""
        try:
            self.wire.send(frame)
            self.counts.sent += 1
        except OSError as why:
            self.refuse(why.errno or 0, len(frame))

    def refuse(self, code: int, size: int) -> None:
        """Counts a frame that wasn't sent, and says why where that is new."""
        word, step = REFUSALS.get(code, (os.strerror(code), ""))
        if self.see_removed():
            word = "removed"
        elif word not in self.counts.refused:
            note(f"{self.name}: a frame of {size} bytes wasn't sent: {os.strerror(code)}" + (f": {step.format(self.name)}" if step else ""))
        self.counts.refused[word] += 1

    def end(self) -> None:
        self.wire.close()
        self.kept.end()
        os.close(self.descriptor)


@dataclass
class Ended:
    """How a session ended: the program's status and line, and why it was ended where a file of the session's own couldn't be written."""

    status: int
    line: str
    fault: str = ""


def refused_text(refused: "Counter[str]") -> str:
    """How many frames weren't sent, and why."""
    count = sum(refused.values())
    return f"{count} ({', '.join(f'{number} {word}' for word, number in refused.most_common())})" if count else "0"


def signal_name(number: int) -> str:
    """A signal's name; of those between SIGRTMIN and SIGRTMAX the system has none."""
    try:
        return signal.Signals(number).name
    except ValueError:
        return f"SIGRTMIN+{number - signal.SIGRTMIN}"


def check_room(folder: Folder, keeps_stream: bool) -> None:
    """Says where the disk has less than a session can take."""
    free, wanted = shutil.disk_usage(folder.path).free, ROOM + keeps_stream * MOST_BYTES
    if free < wanted:
        note(f"{folder.path}: its disk has {free >> 20:,} MiB free, and a session at its limits takes {wanted >> 20:,}: a full disk ends it, with status 4")


@contextlib.contextmanager
def alone(wires: dict[str, Wire]) -> Iterator[None]:
    """Takes interfaces for one session: by their indexes, and by names of sockets, which each network namespace has its own of."""
    with contextlib.ExitStack() as held:
        for name, wire in wires.items():
            lock = held.enter_context(socket.socket(socket.AF_UNIX, socket.SOCK_DGRAM))
            try:
                lock.bind(f"\0wegcapho-live-{wire.index}")
            except OSError:
                raise Refused(f"{name}: another session of `live` has it: two forwarders of one wire would both answer; end that one first") from None
        yield


class Session:
    """A session from its begin to its end."""

    def __init__(self, program: str, folder: Folder, wires: dict[str, Wire], options: Options) -> None:
        self.folder, self.options, self.clock = folder, options, Clock()
        self.selector = selectors.DefaultSelector()
        self.marks, self.asked_to_end, self.is_heard, self.fault, self.by = 0, 0, False, "", ""
        self.taken, self.nearly = 0, set[str]()
        self.ports: list[Port] = []
        for number in signal.valid_signals():
            if signal_name(number) not in OTHERS:
                signal.signal(number, self.asked)
        names = list(wires)
        self.running = Running(folder, names)
        stream, into = os.pipe()
        pipes = [os.pipe() for _ in names]
        self.process = self.started(program, stream, [write for _, write in pipes])
        for it in [stream, *(write for _, write in pipes)]:
            os.close(it)
        rows = enumerate(zip(wires.items(), pipes), 1)
        self.ports = [Port(at, name, wire, read, Kept(str(folder.sent(at)))) for at, ((name, wire), (read, _)) in rows]
        self.way = Way(into, Kept(str(folder.stream)) if options.keep_stream else None)
        self.way.add(head(names))
        self.open = len(self.ports)
        self.begun = self.last = self.said = time.monotonic()

    def started(self, program: str, stream: int, outs: list[int]) -> "subprocess.Popen[bytes]":
        """The program, in the session's folder; a Ctrl-C in the terminal isn't for it."""
        words = [program, "live", "fabric.conf", "journal", f"/dev/fd/{stream}"]
        for port, write in enumerate(outs, 1):
            words += [f"in{port}.pcap", f"/dev/fd/{write}"]
        return subprocess.Popen(words, cwd=self.folder.path, pass_fds=[stream, *outs], stdin=subprocess.DEVNULL, stdout=subprocess.PIPE, start_new_session=True)

    # ---- what comes in

    def take(self, port: Port) -> None:
        for it in port.taken(self.clock):
            self.way.add(it)
            self.taken += len(it)
            self.last = time.monotonic()

    def mark(self) -> None:
        """Where nothing came for a while, a frame that was on no wire says in the stream what time it is."""
        now = time.monotonic()
        if self.is_heard and now - self.last >= self.options.mark and not self.way.pieces:
            self.way.add(packet(0, self.clock.now(), MARK, len(MARK)))
            self.last, self.marks = now, self.marks + 1

    def see_limits(self) -> None:
        """Says once of each limit of a session that it is near."""
        frames = sum(it.counts.came for it in self.ports) + self.marks
        here = {"frames": frames, "bytes of the stream": self.taken, "milliseconds": int(1000 * (time.monotonic() - self.begun))}
        for what, most in LIMITS.items():
            if here[what] >= TOLD_AT * most and what not in self.nearly:
                self.nearly.add(what)
                note(f"{here[what]:,} of the {most:,} {what} that a session takes: it ends by itself there, with status 6")

    def hear(self, wanted: bool) -> None:
        """Begins or ceases to take frames of the interfaces."""
        if wanted != self.is_heard:
            self.is_heard = wanted
            for port in self.ports:
                if wanted:
                    self.selector.register(port.wire, selectors.EVENT_READ, lambda port=port: self.take(port))
                else:
                    self.selector.unregister(port.wire)

    # ---- what goes out

    def pass_on(self, port: Port) -> None:
        try:
            if not port.pass_on():
                self.selector.unregister(port.descriptor)
                self.open -= 1
        except OSError as why:
            self.fail(port.kept.path, why)

    def fail(self, path: str, why: OSError) -> None:
        """A file of the session's own that can't be written ends it."""
        self.fault = self.fault or f"{path}: {why.strerror}"
        self.stop(self.fault)

    # ---- the loop

    def push(self) -> None:
        """Hands on what waits for the program; one that has ended takes no more."""
        try:
            self.way.push()
        except BrokenPipeError:
            self.way.clear()
            self.stop("the program, which ended")
        except OSError as why:  # of the stream's copy
            self.way.copy = None
            self.fail(str(self.folder.stream), why)

    def stop(self, by: str) -> None:
        self.asked_to_end += 1
        self.by = self.by or by

    def wait_for_room(self, waits: bool) -> None:
        """Has the selector tell when the program takes more, where something waits for it."""
        if self.way.descriptor is None:
            return
        known = self.way.descriptor in self.selector.get_map()
        if waits and not known:
            self.selector.register(self.way.descriptor, selectors.EVENT_WRITE, lambda: None)
        elif not waits and known:
            self.selector.unregister(self.way.descriptor)

    def turn(self) -> None:
        """Waits for something to do, and does it."""
        self.wait_for_room(bool(self.way.pieces))
        left = self.options.mark - (time.monotonic() - self.last) if self.is_heard else 1.0
        for key, _ in self.selector.select(min(max(left, 0.0), 1.0)):
            key.data()
        self.mark()
        self.push()
        if not self.asked_to_end:
            self.hear(not self.way.is_full)
        elif self.way.descriptor is not None:
            self.hear(False)
            if not self.way.pieces:
                self.wait_for_room(False)
                self.way.end()

    def run(self) -> Ended:
        """Runs until the program has ended; the first Ctrl-C ends its stream, the second the program. What ends it stands in session.json."""
        try:
            return self.run_on()
        except BaseException as why:
            self.process.kill()
            self.running.end(FAULT, "", f"a fault of `live`: {type(why).__name__}")
            raise RuntimeError(f"the session was broken off: {type(why).__name__}: {why}") from why

    def run_on(self) -> Ended:
        wake, waker = socket.socketpair()
        waker.setblocking(False)
        signal.set_wakeup_fd(waker.fileno())
        self.selector.register(wake, selectors.EVENT_READ, lambda: wake.recv(64))
        for port in self.ports:
            self.selector.register(port.descriptor, selectors.EVENT_READ, lambda port=port: self.pass_on(port))
        if isinstance(sys.stderr, Shown):
            sys.stderr.is_dropping = True  # who doesn't read what is said doesn't hold up what is on the wire
        while self.open:
            self.turn()
            self.see_limits()
            now = time.monotonic()
            if self.options.seconds is not None and now - self.begun >= self.options.seconds and not self.asked_to_end:
                self.stop("--seconds")
            if self.options.every and now - self.said >= self.options.every:
                self.said = now
                self.count_lost()
                note(self.statistics())
        return self.ended()

    def asked(self, number: int, _frame: Optional[FrameType]) -> None:
        self.stop(signal_name(number))
        if self.asked_to_end > 1 and self.ports:  # the program runs
            self.process.terminate()

    def ended(self) -> Ended:
        """The program's line and status, once it has ended."""
        signal.set_wakeup_fd(-1)
        self.way.end()
        self.count_lost()
        for port in self.ports:
            port.end()
        try:
            line, _ = self.process.communicate(timeout=PATIENCE)
        except subprocess.TimeoutExpired:
            self.process.kill()
            line, _ = self.process.communicate()
        status = self.process.returncode
        ended = Ended(4 if self.fault and not status else status, line.decode("ascii", "replace").strip(), self.fault)
        self.running.end(ended.status, ended.line, self.by or "the program, which ended")
        return ended

    def count_lost(self) -> None:
        for port in self.ports:
            port.counts.lost += port.wire.lost()

    def by_port(self) -> list[list[object]]:
        """What was counted, a row a port."""
        return [[it.number, it.name, it.counts.came, it.counts.lost, it.counts.sent, refused_text(it.counts.refused)] for it in self.ports]

    def statistics(self) -> str:
        """What was counted, in one line."""
        total = [sum(values) for values in zip(*((it.counts.came, it.counts.sent, it.counts.lost) for it in self.ports))]
        refused = sum((it.counts.refused for it in self.ports), Counter[str]())
        waiting = f", {self.way.size >> 10} KiB wait for the program" if self.way.size > PIECE else ""
        return f"{time.monotonic() - self.begun:.0f} s: in {total[0]}, marks {self.marks}, out {total[1]}, lost {total[2]}, not sent {refused_text(refused)}{waiting}"
