"""A load through `live`, over a pair of interfaces for each port in network namespaces: frames a second, loss, latency."""
import contextlib
import json
import os
import pathlib
import select
import signal
import subprocess
import sys
import time
from dataclasses import asdict, dataclass, field
from typing import Iterator

from ..errors import Refused
from ..frames.heard import hear
from ..printing import as_json
from ..runs.program import TOP
from .loads import START, Load, Made, Size
from .rooms import MTU, ip, quiet, remove, remove_stale
from .sessions import Folder
from .wires import Wire

ANSWER, BEHIND, READY, ENDING = 10.0, 2.0, 60.0, 120.0  # seconds: for a login, behind the last frame, for the session's begin and end
DATA_TYPE, FC_AT = 0x08, 28  # of a frame whose tag the system took out


@contextlib.contextmanager
def room(ports: int) -> Iterator[tuple[str, str]]:
    """The forwarder's namespace with port1, port2 .., and the senders' with eth1, eth2 ..; both are taken away again."""
    names = f"scene-{os.getpid()}-lt", f"scene-{os.getpid()}-lh"
    remove_stale()
    try:
        for name in names:
            ip("netns", "add", name)
        for port in range(1, ports + 1):
            ip("-n", names[0], "link", "add", f"port{port}", "mtu", MTU, "type", "veth", "peer", "name", f"eth{port}", "mtu", MTU, "netns", names[1])
            for name, face in ((names[0], f"port{port}"), (names[1], f"eth{port}")):
                quiet(name, face)
                ip("-n", name, "link", "set", face, "up")
        yield names
    finally:
        for name in names:
            remove(name)


# ---- the sender, which is a process of its own


@dataclass
class Sent:
    """What was sent, and how long what came back took."""

    data: int = 0
    frames: int = 0
    came: int = 0
    seconds: float = 0.0
    took: list[float] = field(default_factory=list)


class Sender:
    """Sends a load at its moments, and takes what comes."""

    def __init__(self, load: Load) -> None:
        self.load, self.sent = load, Sent()
        self.wires = [Wire(f"eth{port}") for port in range(1, load.size.ports + 1)]
        self.poll = select.epoll()
        for wire in self.wires:
            self.poll.register(wire.fileno(), select.EPOLLIN)
        self.by_number = {wire.fileno(): wire for wire in self.wires}
        self.begun: dict[int, float] = {}
        self.replies = 0

    def take(self, seconds: float) -> None:
        """What comes within this time."""
        for number, _ in self.poll.poll(max(seconds, 0.0)):
            with contextlib.suppress(BlockingIOError):
                while True:
                    frame = self.by_number[number].socket.recv(4096)
                    now = time.perf_counter()
                    if frame[12:14] == b"\x89\x06" and frame[FC_AT + 8] == DATA_TYPE:
                        self.came(int.from_bytes(frame[FC_AT + 24 : FC_AT + 32], "big"), now)
                    elif frame[12:14] == b"\x89\x14":
                        self.replies += hear(frame).operation == (2, 2)

    def came(self, number: int, now: float) -> None:
        begun = self.begun.pop(number, None)
        if begun is not None:
            self.sent.came += 1
            self.sent.took.append(now - begun)

    def log_in(self, it: Made) -> None:
        """A login, and its answer: so addresses are granted in the load's order."""
        before, end = self.replies, time.monotonic() + ANSWER
        self.wires[it.port].send(it.frame)
        while self.replies == before and time.monotonic() < end:
            self.take(0.5)

    def send(self, it: Made) -> None:
        if it.kind == "data":
            self.begun[self.sent.data] = time.perf_counter()
            self.sent.data += 1
        self.wires[it.port].send(it.frame)

    def run(self) -> Sent:
        begun, first = 0.0, START
        logins = len(self.load.ports)
        for place, it in enumerate(self.load.frames()):
            if place < logins:
                self.log_in(it)
                continue
            if not begun:
                begun, first = time.monotonic(), it.moment
            due = begun + (it.moment - first) / 1000
            while (left := due - time.monotonic()) > 0:
                self.take(left)
            self.send(it)
            self.sent.frames += 1
            self.take(0)
        self.sent.seconds = time.monotonic() - begun
        end = time.monotonic() + BEHIND
        while (left := end - time.monotonic()) > 0:
            self.take(left)
        return self.sent


def send_job(text: str) -> None:
    """The sender's process: prints what it found as JSON."""
    sent = Sender(Load(Size(**json.loads(text)))).run()
    print(as_json(asdict(sent)))


# ---- the measurement


def verdicts(folder: Folder) -> dict[str, int]:
    """How often each verdict's first word stands in the journal."""
    found: dict[str, int] = {}
    with open(folder.journal, encoding="ascii") as file:
        for line in file:
            words = line.split()
            if len(words) > 3 and words[3:] != ["dropped", "ethertype"]:
                found[words[3]] = found.get(words[3], 0) + 1
    return found


def begin(tester: str, folder: Folder, config: pathlib.Path, ports: int, program: str) -> "subprocess.Popen[str]":
    """The session, once it hears."""
    options = ["--program", program, "--statistics=0", "--record", str(folder.path)]
    words = ["ip", "netns", "exec", tester, sys.executable, str(TOP / "tools/live"), *options, str(config), *(f"port{it}" for it in range(1, ports + 1))]
    process = subprocess.Popen(  # pylint: disable=consider-using-with
        words, stdout=subprocess.PIPE, stderr=subprocess.PIPE, text=True, start_new_session=True
    )
    end = time.monotonic() + READY
    while time.monotonic() < end and process.poll() is None:
        with contextlib.suppress(OSError):
            if folder.heard(1).stat().st_size > 24:  # the first mark
                return process
        time.sleep(0.05)
    process.kill()
    raise Refused(f"the session didn't begin: {process.communicate()[1].strip()}")


def measured(size: Size, configuration: str, path: pathlib.Path, program: str) -> str:
    """Sends the load through a session, which is recorded in the folder, and says what was measured."""
    path.mkdir(parents=True, exist_ok=True)
    config, folder = path / "load.conf", Folder(path.absolute() / "session")
    config.write_text(configuration, encoding="ascii")
    with room(size.ports) as (tester, senders):
        session = begin(tester, folder, config.absolute(), size.ports, program)
        try:
            words = ["ip", "netns", "exec", senders, sys.executable, str(TOP / "tools/load"), "--send", json.dumps(asdict(size))]
            ran = subprocess.run(words, capture_output=True, text=True, check=False)
        finally:
            session.send_signal(signal.SIGINT)
            out, err = session.communicate(timeout=ENDING)
    if ran.returncode or session.returncode:
        raise Refused(f"{path}: {ran.stderr.strip() or err.strip()}")
    return text_of(Sent(**json.loads(ran.stdout)), out.strip(), folder, lost_in(err))


def lost_in(err: str) -> int:
    """Frames that the ports had no room for, by the table of `live`."""
    rows = [line.split() for line in err.splitlines()]
    return sum(int(it[3]) for it in rows if len(it) == 6 and it[0].isdigit())


def text_of(sent: Sent, line: str, folder: Folder, lost: int) -> str:
    found, took = verdicts(folder), sorted(sent.took) or [0.0]
    forwarded = found.get("forwarded", 0)
    told = ", ".join(f"{count} {word}" for word, count in sorted(found.items(), key=lambda it: -it[1]))
    return (
        f"{line}; {sent.frames / max(sent.seconds, 0.001):.0f} frames a second over {sent.seconds:.1f} s\n"
        f"data frames: {sent.data} sent, {forwarded} forwarded, {sent.came} arrived, {lost} lost before the program, {forwarded - sent.came} after it\n"
        f"from sender to receiver: median {1e6 * took[len(took) // 2]:.0f}, 99% {1e6 * took[len(took) * 99 // 100]:.0f} microseconds\n"
        f"verdicts: {told}"
    )
