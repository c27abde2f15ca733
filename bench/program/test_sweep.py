"""Commands with each call of memory, and each reading and writing of a file, failing in turn.

The commands are `run` over the demo's beginning, over a first VLAN request, over a pool of two addresses and over three hosts (the worked journals of
bench/cases/tool_rows), `replay` and `show` of the three hosts, `live` over the demo's beginning, `snoop`, `enode`, `convert`, `migrate` and `make`.
A library that stands before the C library fails the Nth call (malloc, realloc; open, read and write of files; write of the printed line), or lets the Nth
read or write take one byte alone (a hundred of them). Each run must end with status 5, 3 or 4 and its line, and leave in its outputs beginnings of what the
undisturbed one writes (after status 3 whole windows of `run`, whole packets of `live`, and nothing of the others); after a short call it must end as the
undisturbed one does. `make` has so many calls that behind its first two hundred only some are tried.
"""
import os
import pathlib
import subprocess
from collections import Counter
from concurrent.futures import ThreadPoolExecutor
from typing import NamedTuple, Sequence

from captures import capture_of, read, write
from machine import DEMO, RoomCase, needs, program, slow, takes_preload
from preload import MEMORY, OPEN, library
from tool_rows.file_rows import pcapng
from tool_rows.live_rows import packet, stream
from tool_rows.worked import worked

COUNTS = r"""
static long left[6];
static const char *names[6] = {"SWEEP_ALLOC", "SWEEP_OPEN", "SWEEP_READ", "SWEEP_WRITE", "SWEEP_SHORT", "SWEEP_SAY"};

__attribute__((constructor)) static void begin(void) {
    for (int i = 0; i < 6; i++) left[i] = getenv(names[i]) ? atol(getenv(names[i])) : 0;
}

static int fails(int kind) { return left[kind] > 0 && --left[kind] == 0; }
static int no_memory(void) { return fails(0); }
static int no_file(const char *name) { return fails(1); }
"""
CALLS = r"""
ssize_t read(int file, void *into, size_t n) {
    if (file > 2 && fails(2)) { errno = EIO; return -1; }
    return REAL(read)(file, into, file > 2 && n > 1 && fails(4) ? 1 : n);
}

ssize_t write(int file, const void *from, size_t n) {
    if (fails(file > 2 ? 3 : 5)) { errno = EIO; return -1; }
    return REAL(write)(file, from, n > 1 && fails(4) ? 1 : n);
}
"""
SAID = {3: "read fault\n", 4: "write fault\n", 5: "no memory\n"}
# what a failing call may end a run with; a store that is refused memory fails as a store
ENDS: dict[str, set[int]] = {"SWEEP_ALLOC": {3, 4, 5}, "SWEEP_OPEN": {3, 4}, "SWEEP_READ": {3}, "SWEEP_WRITE": {4}, "SWEEP_SAY": {4}, "SWEEP_SHORT": set()}
CALM = 100  # so many undisturbed runs one after another end a sweep
DENSE = 200  # so many calls are all tried, also of a command that has many


CONFIG = DEMO / "fabric.conf"
HOSTS = ("initiator", "target")
# A VLAN notification, a solicited advertisement and the accept of the first FLOGI, to a node that starts at 1000.
TOLD = "001b2100000a00051e000002891410000004000200030000020200051e0000020e010064"
FOUND = "001b2100000a00051e000002810060648914100000010002000c800701010080020200051e00000204030000100000051e00000205040000000efc00100000051e0000020c02000000001f40"
ACCEPTED = (
    "001b2100000a00051e00000281006064891410000002000200268000072400002301010000fffffe01980000000000000001ffff00000000"
    "02000000202000003000084000002710000007d0200100051e000002100000051e000002" + "00" * 32 + "88" + "00" * 47 + "02020efc00010100"
)
NODE = ("00:1b:21:00:00:0a", "20:00:00:1b:21:00:00:0a", "10:00:00:1b:21:00:00:0a")
PERIOD = 8000  # of the forwarder that FOUND tells of


class Command(NamedTuple):
    """Words of the program, the folder that it runs in, the files that they name as outputs, whether a run over windows writes them as it goes, and
    whether it has many calls."""

    words: Sequence[object]
    room: pathlib.Path
    outputs: tuple[str, ...]
    goes_by_windows: bool = False
    has_many: bool = False

    @property
    def name(self) -> str:
        return f"{self.words[0]} in {self.room.name}"


Found = tuple[int, str, list[bytes]]


def heard() -> list[tuple[int, bytes]]:
    """What brings a node up, and the advertisements that keep it up until its N_Port's keep alive is due."""
    frames = [(1100, TOLD.ljust(120, "0")), (1200, FOUND.ljust(4352, "0")), (1300, ACCEPTED)]
    frames += [(moment, FOUND) for moment in range(1200 + PERIOD, 100000, PERIOD)]
    return [(moment, bytes.fromhex(text)) for moment, text in frames]


def begun(room: pathlib.Path) -> list[Command]:
    """`run` over the demo's beginning, and `snoop` over that and over what a forwarder sends to the first host."""
    for port, host in enumerate(HOSTS, 1):
        write(room / f"in{port}", read(DEMO / f"{host}.pcap")[:20])
    (room / "snooped").mkdir()
    ran = Command(["run", CONFIG, "journal", "in1", "out1", "in2", "out2"], room, ("journal", "out1", "out2"), True)
    snooped = ["snoop", CONFIG, "../forwarder", "up", "../in1", "down1", "../in2", "down2"]
    return [ran, Command(snooped, room / "snooped", ("up", "down1", "down2"))]


def lived(room: pathlib.Path) -> Command:
    """`live` over the demo's beginning, the frames of both hosts in the order of their times."""
    came = [(record, port) for port, host in enumerate(HOSTS, 1) for record in read(DEMO / f"{host}.pcap")[:20]]
    came.sort(key=lambda it: it[0].moment)
    (room / "stream").write_bytes(stream(2, [packet(port, record.moment, record.data) for record, port in came]))
    return Command(["live", CONFIG, "journal", "stream", "in1", "out1", "in2", "out2"], room, ("journal", "in1", "out1", "in2", "out2"), True)


def hosts(room: pathlib.Path, ports: int, *texts: str) -> Command:
    """`run` over a worked journal."""
    made = worked(*texts)
    (room / "config").write_text(made.config, encoding="ascii")
    words, outputs = ["run", "config", "journal"], ["journal"]
    for port in range(1, ports + 1):
        (room / f"in{port}").write_bytes(made.came(port))
        words += [f"in{port}", f"out{port}"]
        outputs.append(f"out{port}")
    return Command(words, room, tuple(outputs), True)


def copied(ran: Command, command: str) -> Command:
    """`replay` or `show` of what a run left, as it was named there."""
    words = ran.words if command == "replay" else [*ran.words[:3], *ran.words[3::2]]
    return Command([command, *words[1:]], ran.room, ())


def commands(tool: pathlib.Path, top: pathlib.Path) -> list[list[Command]]:
    """The commands, whose inputs are written, those of one folder beside each other."""
    rooms = {name: top / name for name in ("demo", "first", "pool", "three", "node", "pcapng", "old", "load", "live")}
    for room in rooms.values():
        room.mkdir()
    demo = begun(rooms["demo"])
    run(tool, demo[0])
    (rooms["demo"] / "out1").rename(rooms["demo"] / "forwarder")
    first = hosts(rooms["first"], 1, "plain", "> 1000 1 vlan-request 0a\n")
    pool = hosts(rooms["pool"], 3, "pool-of-two", "logged-in", "quarantine")
    three = hosts(rooms["three"], 3, "two-zones-and-a-target", "two-initiators-and-a-target")
    (rooms["node"] / "heard").write_bytes(capture_of(heard()))
    (rooms["pcapng"] / "in").write_bytes(pcapng("<"))
    (rooms["old"] / "old").write_text(worked("pool-of-two", "logged-in", "quarantine").journal, encoding="ascii")
    files = ("config", *(f"in{port}" for port in range(1, 9)))
    return [
        demo,
        [first],
        [lived(rooms["live"])],
        [pool],
        [three, copied(three, "replay"), copied(three, "show")],
        [Command(["enode", 1000, *NODE, "heard", "sent"], rooms["node"], ("sent",))],
        [Command(["convert", "in", "out"], rooms["pcapng"], ("out",)), Command(["migrate", "../old/old", "new"], rooms["old"], ("new",))],
        [Command(["make", 1, *files], rooms["load"], files, has_many=True)],
    ]


def run(tool: pathlib.Path, command: Command, disturbed: dict[str, str] | None = None) -> Found:
    """The status, the line, and what the outputs hold."""
    for name in command.outputs:
        (command.room / name).unlink(missing_ok=True)
    words = [str(tool), *map(str, command.words)]
    # a run that isn't over after a minute is a failure
    done = subprocess.run(words, cwd=command.room, env={**os.environ, **(disturbed or {})}, stdout=subprocess.PIPE, text=True, timeout=60, check=False)
    files = [command.room / name for name in command.outputs]
    return done.returncode, done.stdout, [it.read_bytes() if it.exists() else b"" for it in files]


def is_right(command: Command, kind: str, whole: Found, found: Found) -> bool:
    status, line, files = found
    if status not in ENDS[kind] or line != SAID[status] and not (kind == "SWEEP_SAY" and whole[1].startswith(line)):
        return False
    if status == 3 and not command.goes_by_windows:
        return not any(files)
    # after a fault of reading no line and no record is cut
    lines = status != 3 or not files[0] or files[0].endswith(b"\n")
    return lines and all(full.startswith(part) for part, full in zip(files, whole[2]))


def sweep(tool: pathlib.Path, shim: pathlib.Path, command: Command) -> int:
    """How many runs ended as none may."""
    whole = run(tool, command)
    told = [f"{command.name}, undisturbed: {whole[1].splitlines()[0]}, {[len(file) for file in whole[2]]} bytes"]
    wrong = 0
    for kind in ENDS:
        ends, calm, number, tried = Counter[int](), 0, 0, 0
        # at the end no call is left that could fail; a call before it may do without what it asked for
        while calm < (10 if command.has_many and ENDS[kind] else CALM):
            number += max(1, number // 20) if command.has_many and number >= DENSE else 1
            tried += 1
            found = run(tool, command, {"LD_PRELOAD": str(shim), kind: str(number)})
            calm = calm + 1 if found == whole else 0
            ends[found[0]] += 1
            if found != whole and not is_right(command, kind, whole, found):
                wrong += 1
                told.append(f"  {kind} {number}: status {found[0]}, {found[1]!r}, {[len(part) for part in found[2]]} bytes")
        if ENDS[kind]:
            tried, ends[0] = tried - calm, ends[0] - calm
        told.append(f"  {kind}: {tried} calls, " + ", ".join(f"{count} with status {status}" for status, count in sorted(ends.items()) if count))
    print("\n".join(told), flush=True)
    return wrong


def sweeps(tool: pathlib.Path, shim: pathlib.Path, row: list[Command]) -> int:
    """The commands of one folder; `replay` and `show` take what the first one leaves."""
    wrong = 0
    for command in row:
        if not command.outputs:
            run(tool, row[0])
        wrong += sweep(tool, shim, command)
    return wrong


@slow
@needs("gcc")
class Sweep(RoomCase):
    """Over all commands."""

    def test_each_call(self) -> None:
        if not takes_preload():
            self.skipTest("the program loads no library, so none can stand before the C library")
        tool, shim = pathlib.Path(program()), library(self.room, COUNTS, MEMORY, OPEN, CALLS)
        with ThreadPoolExecutor(2) as pool:
            done = [pool.submit(sweeps, tool, shim, row) for row in commands(tool, self.room)]
        self.assertEqual(sum(it.result() for it in done), 0, "what is printed above ended as no run may")
