"""A fabric in a box: nodes (`enode`), bridges (`snoop`) and a forwarder (`run`) in a loop, until nothing new is sent.

Some nodes start within SPREAD milliseconds on 8 ports, with a bridge before each port of the forwarder or without one. In each round every program whose input has changed runs again over the whole of it; it is at rest when none has changed. Then every
node must have printed `up ADDRESS MAC`, with the address that the journal grants to its port name and its latest OX_ID; no address may have gone
to two; `replay` must accept the journal with the captures; and no bridge may have dropped a frame. It prints one line a box.

A frame of the forwarder bears the start of its window, up to a window before its request: it reaches the other side one window later.
"""
import pathlib
import shutil
import subprocess
import tempfile
import time
from concurrent.futures import ThreadPoolExecutor
from typing import Iterator, Optional

from captures import HEAD, journal_of, later, merged, read, write
from models import Fc, read_eth, read_fc, read_fip

PORTS, WINDOW, FIRST = 8, 10, 1_000_000  # milliseconds
MOST_ROUNDS = 50
CONFIG = f"fcf-mac 00:05:1e:00:00:02\nvlan 100\nwindow {WINDOW}\n"


def flogi_of(data: bytes) -> Optional[Fc]:
    """The FC frame of a FLOGI, or None."""
    eth = read_eth(data)
    message = read_fip(eth.body) if eth else None
    return read_fc(message.login[1]) if message and message.name == "login" and message.login[0] == 7 else None


class Step:
    """A program with its inputs and outputs, which runs again when an input has changed."""

    def __init__(self, words: list[str], ins: list[str], outs: list[str]) -> None:
        self.words, self.ins, self.outs, self.line = words, ins, outs, ""
        self.had: Optional[list[bytes]] = None

    def run(self, program: str, room: pathlib.Path) -> bool:
        """Whether it ran."""
        have = [(room / it).read_bytes() for it in self.ins]
        if have == self.had:
            return False
        job = subprocess.run([program, *self.words], cwd=room, capture_output=True, text=True, check=False)
        if job.returncode:
            raise AssertionError(f"{' '.join(self.words)} ended with {job.returncode}: {job.stdout.strip()} {job.stderr.strip()}")
        self.had, self.line = have, job.stdout.strip()
        return True


class Node:
    def __init__(self, number: int, count: int, spread: int) -> None:
        self.number, self.port = number, number % PORTS + 1
        self.start = FIRST + spread * number // max(1, count - 1)
        self.mac = (0x001B21000000 + number).to_bytes(6, "big")
        self.name = (0x2000001B21000000 + number).to_bytes(8, "big")
        self.node = (0x1000001B21000000 + number).to_bytes(8, "big")
        self.heard, self.sent = f"heard{number}", f"sent{number}"
        words = ["enode", str(self.start), self.mac.hex(":"), self.name.hex(":"), self.node.hex(":"), self.heard, self.sent]
        self.step = Step(words, [self.heard], [self.sent])


class Box:
    """The files of port p: what the forwarder takes is `in`, what it sends is `out`, and `far` is the same where it arrives."""

    def __init__(self, program: str, room: pathlib.Path, count: int, spread: int, bridged: bool) -> None:
        self.program, self.room, self.bridged = program, room, bridged
        (room / "conf").write_text(CONFIG)
        self.nodes = [Node(number, count, spread) for number in range(count)]
        self.behind = {port: [it for it in self.nodes if it.port == port] for port in range(1, PORTS + 1)}
        pairs = [word for port in range(1, PORTS + 1) for word in (f"in{port}", f"out{port}")]
        self.forwarder = Step(["run", "conf", "journal", *pairs], pairs[::2], pairs[1::2])
        self.bridges = [self.bridge(port) for port in self.behind if self.behind[port]] if bridged else []
        for name in [*pairs, *(f"far{port}" for port in self.behind), *(word for it in self.nodes for word in (it.heard, it.sent))]:
            (room / name).write_bytes(HEAD)

    def bridge(self, port: int) -> Step:
        behind = self.behind[port]
        ins = [f"far{port}", *(it.sent for it in behind)]
        outs = [f"in{port}", *(it.heard for it in behind)]
        return Step(["snoop", "conf", *(word for pair in zip(ins, outs) for word in pair)], ins, outs)

    def run(self, pool: ThreadPoolExecutor, steps: list[Step]) -> int:
        """How many of these ran."""

        def one(step: Step) -> bool:
            return step.run(self.program, self.room)

        return sum(pool.map(one, steps))

    def cross(self, pool: ThreadPoolExecutor) -> int:
        """Takes frames between the nodes and the forwarder; answers how many bridges ran. Where there is none, the nodes' frames together are
        the port's, and each of them hears all that the port sends."""
        if self.bridged:
            return self.run(pool, self.bridges)
        for port, behind in self.behind.items():
            write(self.room / f"in{port}", merged([read(self.room / it.sent) for it in behind]))
            for it in behind:
                shutil.copyfile(self.room / f"far{port}", self.room / it.heard)
        return 0

    def round(self, pool: ThreadPoolExecutor) -> int:
        """How many programs ran."""
        count = self.run(pool, [it.step for it in self.nodes]) + self.cross(pool)
        if self.forwarder.run(self.program, self.room):
            count += 1
            for port in self.behind:
                write(self.room / f"far{port}", later(read(self.room / f"out{port}"), WINDOW))
        return count + self.cross(pool)

    def rounds(self) -> int:
        """How many rounds it takes until nothing is new."""
        with ThreadPoolExecutor() as pool:
            for number in range(1, MOST_ROUNDS + 1):
                if not self.round(pool):
                    return number - 1
        raise AssertionError(f"not at rest after {MOST_ROUNDS} rounds")

    def granted(self) -> dict[bytes, tuple[str, int]]:
        """The last grant of the journal for each port name: the address, and the OX_ID of the FLOGI."""
        found: dict[bytes, tuple[str, int]] = {}
        captures = {port: read(self.room / f"in{port}") for port in self.behind}
        for entry in journal_of(self.room / "journal"):
            if entry.port and entry.words[0] == "granted":
                flogi = flogi_of(captures[entry.port][entry.index].data)
                if flogi:
                    found[flogi.payload[20:28]] = entry.words[1], flogi.ox_id
        return found

    def faults(self) -> Iterator[str]:
        """What isn't so."""
        granted = self.granted()
        for it in self.nodes:
            address, ox_id = granted.get(it.name, ("none", 0))
            if it.step.line != f"up {address} 0efc00{address}":
                yield f"node {it.number} printed '{it.step.line}', and was granted {address}"
            latest = [flogi.ox_id for record in read(self.room / it.sent) if (flogi := flogi_of(record.data))][-1:]
            if latest != [ox_id]:
                yield f"node {it.number} sent {latest} as its last OX_ID, and the grant is for {ox_id}"
        addresses = {address for address, _ in granted.values()}
        if len(addresses) != len(self.nodes):
            yield f"{len(addresses)} addresses of {len(self.nodes)} nodes"
        for bridge in self.bridges:
            if not bridge.line.endswith(" dropped 0"):
                yield f"a bridge {bridge.line}"
        said = self.replayed()
        if said != f"legal {self.forwarder.line.split()[-1]}":
            yield f"replay printed '{said}' of '{self.forwarder.line}'"

    def replayed(self) -> str:
        words = ["replay", *self.forwarder.words[1:]]
        return subprocess.run([self.program, *words], cwd=self.room, capture_output=True, text=True, check=False).stdout.strip()


def boxed(program: str, count: int, spread: int, bridged: bool) -> bool:
    """Whether all is so in one box."""
    room = pathlib.Path(tempfile.mkdtemp())
    try:
        begun = time.perf_counter()
        box = Box(program, room, count, spread, bridged)
        rounds = box.rounds()
        took = time.perf_counter() - begun
        faults = list(box.faults())
        up = sum(it.step.line.startswith("up ") for it in box.nodes)
        passed = sum(int(bridge.line.split()[1]) for bridge in box.bridges)
        print(f"{count:5} {'yes' if bridged else 'no':>6} {rounds:6} {up:4}  {box.forwarder.line:28} {box.replayed():12} {passed or '-':>8} {took:7.1f}", flush=True)
        for fault in faults[:5]:
            print(f"      {fault}")
        return not faults
    finally:
        shutil.rmtree(room)
