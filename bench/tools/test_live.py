"""tools/live over network namespaces of its own making, with hosts that log in and exchange data frames, as root (iproute2, ethtool).

Behind each session `replay` accepts what was recorded, and `live` over the stream as a file leaves the same bytes.
"""
import contextlib
import json
import multiprocessing
import os
import pathlib
import re
import shutil
import signal
import subprocess
import sys
import tempfile
import threading
import time
import unittest
from dataclasses import dataclass, field
from typing import Any, Iterator, Optional

from live_files import again, begins, cut_off, ended_whole, said, stream_of
from live_hosts import FABRIC, Host, ip, kept_alive, scaled, wanted, wires
from machine import TOP, needs, program, root, slow

from fcoe.frames.captures import classic
from fcoe.frames.heard import hear

LIVE, LOOK = str(TOP / "tools/live"), str(TOP / "tools/look")
WITHIN = ["ip", "netns", "exec", FABRIC]


def config(zones: list[list[int]], *more: str) -> str:
    """A configuration in which each zone has the first port names of these hosts."""
    lines = ["fcf-mac 00:05:1e:00:00:02", "vlan 100", "window 10", *more]
    for place, members in enumerate(zones):
        lines.append(f"zone z{place} " + " ".join(f"20:00:02:00:00:00:10:{it:02x}" for it in members))
    return "\n".join(lines) + "\n"


@dataclass
class Session:
    """A session of tools/live."""

    program: str
    folder: pathlib.Path
    process: "subprocess.Popen[str]"
    ports: int

    def line(self, *words: str) -> str:
        ran = subprocess.run([LOOK, "--session", str(self.folder), *words], capture_output=True, text=True, check=False)
        wanted(f"look --session: {ran.stderr}", ran.returncode == 0)
        return ran.stdout

    def stand(self) -> Any:
        return json.loads(self.line("--json"))

    def own(self) -> int:
        """The process of the program."""
        with open(f"/proc/{self.process.pid}/task/{self.process.pid}/children", encoding="ascii") as file:
            return int(file.read().split()[0])

    def end(self, how: Optional[int] = signal.SIGINT, status: int = 0) -> tuple[str, str]:
        """Ends the session, and what it printed."""
        if how is not None:
            self.process.send_signal(how)
        out, err = self.process.communicate(timeout=scaled(60))
        wanted(f"status {self.process.returncode}, not {status}: {out}{err}", self.process.returncode == status)
        return out.strip(), err

    def lost(self, err: str) -> int:
        return sum(int(it) for it in re.findall(r"^  \d+ +port\d+ +\d+ +(\d+)", err, re.M))


@dataclass
class Bench:
    """What all tests take."""

    program: str
    room: pathlib.Path
    sessions: list[Session] = field(default_factory=list)

    def close(self) -> None:
        """Ends the sessions that a test that failed left."""
        for session in self.sessions:
            if session.process.poll() is None:
                session.process.kill()
                session.process.communicate()

    def conf(self, text: str) -> str:
        path = self.room / "fabric.conf"
        path.write_text(text, encoding="ascii")
        return str(path)

    def begin(self, text: str, ports: list[str], folder: Optional[pathlib.Path] = None, more: str = "--statistics=5") -> Session:
        """Begins a session and waits until it hears."""
        folder = folder or self.room / "session"
        words = [*WITHIN, LIVE, "--program", self.program, "--record", str(folder), more, self.conf(text), *ports]
        process = subprocess.Popen(words, stdout=subprocess.PIPE, stderr=subprocess.PIPE, text=True)  # pylint: disable=consider-using-with
        found = Session(self.program, folder, process, len(ports))
        self.sessions.append(found)
        end = time.monotonic() + scaled(60)
        while time.monotonic() < end and process.poll() is None:
            with contextlib.suppress(OSError):
                if (folder / "in1.pcap").stat().st_size > 24:  # the first mark
                    break
            time.sleep(0.05)
        return found

    def whole(self, session: Session, printed: str) -> None:
        """`replay` accepts a session, and its stream as a file leaves the same bytes."""
        ended_whole(session.folder, session.program, session.ports, printed)
        again(session.folder, session.program, session.ports)

    def refuse(self, *words: str, before: Optional[list[str]] = None) -> str:
        """Status 2, one line on standard error, nothing on standard output, no folder."""
        folder = self.room / "refused"
        ran = subprocess.run([*WITHIN, *(before or []), LIVE, "--program", self.program, "--record", str(folder), *words], capture_output=True, text=True, check=False)
        wanted(f"live {' '.join(words)}: {ran.returncode} {ran.stdout}{ran.stderr}", ran.returncode == 2 and not ran.stdout and ran.stderr.count("\n") == 1 and not folder.exists())
        return ran.stderr


# ---- tests


def refused(bench: Bench) -> str:
    conf = bench.conf(config([[1, 2]]))
    with wires(2):
        ip("-n", FABRIC, "link", "add", "br0", "type", "bridge")
        ip("-n", FABRIC, "link", "set", "port2", "master", "br0")
        tagged = subprocess.run(["ip", "-n", FABRIC, "link", "add", "link", "port1", "name", "port1.100", "type", "vlan", "id", "100"], capture_output=True, check=False)
        table = subprocess.run([*WITHIN, LIVE, "--list"], capture_output=True, text=True, check=True).stdout
        wanted(f"--list: {table}", re.search(r"^port1 .* can be a port$", table, re.M) and re.search(r"^port2 .* belongs to br0", table, re.M))
        wanted("no such interface", "no such interface: there are" in bench.refuse(conf, "port1", "port3"))
        wanted("an interface named twice", "named twice" in bench.refuse(conf, "port1", "port1"))
        wanted("one in a bridge", "`ip link set port2 nomaster`" in bench.refuse(conf, "port1", "port2"))
        if not tagged.returncode:  # a kernel without VLAN interfaces has none to refuse
            wanted("one of a VLAN", "name the Ethernet port below it" in bench.refuse(conf, "port1.100"))
        wanted("the loopback", "no Ethernet interface" in bench.refuse(conf, "lo"))
        wanted("without the right", "CAP_NET_RAW" in bench.refuse(conf, "port1", before=["setpriv", "--bounding-set", "-net_raw"]))
        offloads()
        for change, step in ((["mtu", "2179"], "`ip link set port1 mtu 2500`"), (["mtu", "2180"], ""), (["down"], "`ip link set port1 up`")):
            ip("-n", FABRIC, "link", "set", "port1", *change)
            reason = bench.refuse(conf, "port1", *([] if step else ["port3"]))
            wanted(f"port1 {' '.join(change)}: {reason}", step in reason if step else "port3: no such interface" in reason)
        ip("-n", FABRIC, "link", "set", "port1", "up")
        (bench.room / "used").mkdir()
        (bench.room / "used/journal").write_text("kept")
        wanted("a folder with files", "would overwrite" in bench.refuse("--record", str(bench.room / "used"), conf, "port1"))
        wanted("its files are as they were", (bench.room / "used/journal").read_text() == "kept")
    return f"no Ethernet, not there, twice, in a bridge, small MTU, down, no right, a used folder{'' if tagged.returncode else ', one VLAN'}: each with its next step"


def offloads() -> None:
    """The kernel's features are read as `ethtool` sets them, and one that changes frames is refused; veth itself has none of these."""
    said_of = "from fcoe.live import interfaces as it; "
    for state in ("on", "off"):
        subprocess.run([*WITHIN, "ethtool", "-K", "port1", "gro", state], check=True, capture_output=True)
        found = in_fabric(said_of + "print('rx-gro' in it.features('port1'))")
        wanted(f"gro {state} is read: {found}", found == str(state == "on"))
    for feature, name in (("rx-lro", "lro"), ("rx-gro-hw", "rx-gro-hw"), ("rx-fcs", "rx-fcs")):
        found = in_fabric(said_of + f"it.features = lambda name: {{'{feature}', 'rx-gro'}}; print(it.trouble('port1'))")
        wanted(f"{feature}: {found}", f"`ethtool -K port1 {name} off`" in found)


def in_fabric(text: str) -> str:
    """What a text in Python prints in the forwarder's namespace."""
    return subprocess.run([*WITHIN, sys.executable, "-c", text], env={**os.environ, "PYTHONPATH": str(TOP / "tools")}, check=True, capture_output=True, text=True).stdout.strip()


def two(bench: Bench) -> str:
    with wires(2) as ports:
        session = bench.begin(config([[1, 2]], "period 8000"), ports, more="--keep-stream")
        first, second = Host(1), Host(2)
        with kept_alive([first]):
            with kept_alive([second]):
                both_at_work(session, first, second)
            falls_silent(session, first, second)
        printed = ends_watched(session)
        bench.whole(session, printed)
        only_recorded(session, [first, second])
        wanted("a command of look behind it", "silent: " in session.line("logins", "--quiet"))
    return f"{len(first.sent) + len(second.sent)} frames of two hosts, {printed}"


def both_at_work(session: Session, first: Host, second: Host) -> None:
    """Two hosts log in, learn of each other, and exchange data; an N_Port by NPIV comes and goes, and is in no zone."""
    one, other = first.start(), second.start()
    first.drain()
    wanted("the first host is told of the second's login", first.notices and set(first.notices) == {other.address})
    wanted("the name server has the second host", first.others(one).get(other.address) == other.name)
    virtual = first.log_in("FDISC", b"\x21\x01" + first.mac)
    rows = [(it["fcid"], it["kind"], it["interface"]) for it in session.stand()["logins"]]
    expected = sorted([(one.address, "FLOGI", "port1"), (other.address, "FLOGI", "port2"), (virtual.address, "FDISC", "port1")])
    wanted(f"look --session while it runs: {rows}", rows == [(f"{address:06x}", kind, port) for address, kind, port in expected])
    for exchange in range(200):
        payload = os.urandom(64 if exchange % 2 else 2048)
        first.hand(one, other.address, exchange, payload)
        wanted("there", second.data(other, exchange) == payload)
        second.hand(other, one.address, exchange, payload[::-1])
        wanted("and back", first.data(one, exchange) == payload[::-1])
    first.hand(virtual, other.address, 999, b"nobody's zone has it")
    first.log_out(virtual)


def falls_silent(session: Session, first: Host, second: Host) -> None:
    """The second host, of which no keep alive comes any more, is logged out and told so; the first stays."""
    end = time.monotonic() + scaled(60)
    while "Clear links" not in [hear(it).kind for it in second.came]:
        wanted("a silent login is told to its ENode", time.monotonic() < end)
        second.drain()
        first.drain()
    stand = session.stand()
    last = stand["ended"][-1]
    wanted(f"who is silent is logged out: {last}", last["fcid"] == f"{second.ports[0].address:06x}" and "silent: no keep alive of its ENode for 20." in last["why"])
    wanted(f"the other isn't: {stand['logins']}", [it["fcid"] for it in stand["logins"]] == [f"{first.ports[0].address:06x}"])
    wanted(f"the last drop: {stand['drops']}", [it["verdict"] for it in stand["drops"]] == ["dropped zone"])


def ends_watched(session: Session) -> str:
    """`look --session --watch` shows a session until it ends."""
    with subprocess.Popen([LOOK, "--session", str(session.folder), "--watch"], stdout=subprocess.PIPE, text=True) as watching:
        assert watching.stdout is not None
        first = watching.stdout.readline()
        printed, err = session.end()
        shown = watching.communicate(timeout=scaled(60))[0]
    wanted(f"nothing is lost: {err}", session.lost(err) == 0)
    wanted(f"--watch shows it while it runs: {first}", "it runs" in first)
    wanted(f"and how it ended: {shown}", shown.count(f"ended with status 0: {printed}") == 1)
    return printed


def only_recorded(session: Session, hosts: list[Host]) -> None:
    """On the wires there was what OUT has and nothing else; IN has what hosts sent, and marks."""
    for host in hosts:
        host.drain()
        came, sent = begins(session.folder / f"out{host.number}.pcap"), [it for it in begins(session.folder / f"in{host.number}.pcap") if it[12:14] != b"\x88\xb5"]
        wanted(f"what came to host {host.number} is what out{host.number}.pcap has", came == host.came)
        wanted(f"what host {host.number} sent is what in{host.number}.pcap has", sent == host.sent)


def flood(number: int, frame: bytes, seconds: float, told: Any) -> None:
    """Sends a frame as fast as it can."""
    host, count, end = Host(number, records=False), 0, time.monotonic() + seconds
    while time.monotonic() < end:
        for _ in range(100):
            with contextlib.suppress(OSError):
                host.wire.send(frame)
                count += 1
    told.put(count)


def eight(bench: Bench) -> str:
    change = 1000 * int(time.time() + scaled(15))  # seven hosts have logged in by then
    sets = ["zoneset open z0 z1 z2 z3", "zoneset closed z2 z3", f"activate open {change - 3_600_000}", f"activate closed {change}"]
    text = config([[it, it + 1] for it in range(1, 8, 2)], "period 90000") + "\n".join(sets) + "\n"
    with wires(8) as ports:
        session = bench.begin(text, ports)
        hosts = [Host(it) for it in range(1, 9)]
        for host in hosts[:7]:
            host.start()
        wanted("seven are logged in", len(session.stand()["logins"]) == 7)
        while time.time() * 1000 < change + 2000:
            exchange_by_pairs(hosts[:7])
        at_change(session, change)
        for own, other in ((hosts[0], hosts[1]), (hosts[1], hosts[0])):
            wanted(f"host {own.number} is told that the other left its zone: {own.notices}", own.notices[-1:] == [other.ports[0].address])
        took, count = beside_flood(hosts, hosts[4].data_frame(hosts[4].ports[0], hosts[5].ports[0].address, 1, bytes(64)))
        wanted("eight are logged in", len(session.stand()["logins"]) == 8)
        printed, err = session.end()
        others = [int(it[2]) for it in re.findall(r"^  (\d) +(port\d) +\d+ +(\d+)", err, re.M) if it[0] != "5"]
        wanted(f"only of the flood anything is lost: {err}", len(others) == 7 and sum(others) == 0)
        bench.whole(session, printed)
    return f"{printed}; a login took {took:.2f} s (seven requests) beside a flood of {count} frames in ten seconds, of which {session.lost(err)} were lost"


def exchange_by_pairs(hosts: list[Host]) -> None:
    """A data frame each way on the pairs 1 and 2, 5 and 6; all take what comes."""
    for left, right in ((hosts[0], hosts[1]), (hosts[4], hosts[5])):
        left.hand(left.ports[0], right.ports[0].address, 1, bytes(100))
        right.hand(right.ports[0], left.ports[0].address, 1, bytes(100))
    for host in hosts:
        host.drain(0.005)


def beside_flood(hosts: list[Host], frame: bytes) -> tuple[float, int]:
    """The last host starts while the fifth floods: seconds that it took, and how many frames were sent."""
    queue: Any = multiprocessing.Queue()
    flooding = multiprocessing.Process(target=flood, args=(5, frame, 10.0, queue))
    flooding.start()
    time.sleep(3)
    begun = time.monotonic()
    hosts[7].start()
    took = time.monotonic() - begun
    wanted("the flood still goes on", flooding.is_alive())
    count = int(queue.get(timeout=scaled(30)))
    flooding.join()
    time.sleep(1)
    return took, count


def at_change(session: Session, change: int) -> None:
    """Data frames of the pair that the new set leaves out are forwarded before the change and dropped behind it; those of another pair go on."""
    words: dict[str, set[str]] = {"before": set(), "behind": set(), "pair": set()}
    for line in (session.folder / "journal").read_text(encoding="ascii").split("\n")[1:-1]:
        clock, port, *rest = line.split(" ")
        if port in ("1", "2") and rest[1] in ("forwarded", "dropped") and "ethertype" not in rest:
            words["before" if int(clock) < change else "behind"].add(" ".join(rest[1:]))
        if port in ("5", "6") and rest[1] in ("forwarded", "dropped"):
            words["pair"].add(rest[1])
    wanted(f"the zone set changes: {words}", words == {"before": {"forwarded 1", "forwarded 2"}, "behind": {"dropped zone"}, "pair": {"forwarded"}})


@dataclass
class Traffic:
    """Two hosts that exchange data frames until told otherwise."""

    hosts: list[Host]
    exchange: int = 0

    def flow_until(self, feeder: "subprocess.Popen[str]") -> None:
        """Exchanges until the session has ended, for a minute at most on a free machine."""
        until = time.monotonic() + scaled(60)
        while time.monotonic() < until and feeder.poll() is None:
            self.flow(0.1)

    def flow(self, seconds: float) -> None:
        first, second = self.hosts
        until = time.monotonic() + seconds
        while time.monotonic() < until:
            for _ in range(20):
                first.hand(first.ports[0], second.ports[0].address, self.exchange % 65536, bytes(1000))
                second.hand(second.ports[0], first.ports[0].address, self.exchange % 65536, bytes(1000))
                self.exchange += 1
            first.drain(0.001)
            second.drain(0.001)


@contextlib.contextmanager
def flowing(bench: Bench, folder: Optional[pathlib.Path] = None) -> Iterator[tuple[Session, Traffic]]:
    """A session of two hosts that are logged in."""
    with wires(2) as ports:
        session = bench.begin(config([[1, 2]], "period 90000"), ports, folder)
        hosts = [Host(1), Host(2)]
        for host in hosts:
            host.start()
        yield session, Traffic(hosts)


def ended(bench: Bench) -> str:
    with wires(1) as ports:
        session = bench.begin("fcf-mac 00:05:1e:00:00:02\nvlan 0\n", ports)
        printed, err = session.end(None, 1)
        wanted(f"a faulty configuration: {printed} {err}", printed == "config 2 value" and "docs/COMMANDS.md" in err and not session.folder.exists())
    with flowing(bench) as (session, traffic):
        traffic.flow(1)
        ip("-n", FABRIC, "link", "set", "port2", "down")
        time.sleep(0.5)
        ip("-n", FABRIC, "link", "set", "port2", "up")
        time.sleep(2)  # the system tells of a link once a second
        first, second = traffic.hosts
        first.drain()
        second.hand(second.ports[0], first.ports[0].address, 77, b"heard again.")
        wanted("a port that was down is heard again", first.data(first.ports[0], 77) == b"heard again.")
        printed, err = session.end(signal.SIGTERM)
        wanted(f"it's told that a port was down: {err}", "port2: Network is down" in err)
        bench.whole(session, printed)
    return f"a faulty configuration, a port that was down, {printed}"


def killed(bench: Bench) -> str:
    told = []
    for whom in ("program", "feeder"):
        folder = bench.room / f"killed-{whom}"
        with flowing(bench, folder) as (session, traffic):
            traffic.flow(2)
            own, feeder = session.own(), session.process
            killer = threading.Timer(0.7, os.kill, (own if whom == "program" else feeder.pid, signal.SIGKILL))
            killer.start()
            traffic.flow_until(feeder)
            killer.join()
            if whom == "program":
                _, err = session.end(None, 128 + 9)
                wanted(f"the signal is told: {err}", "signal 9" in err)
            else:
                session.end(None, -9)
                while pathlib.Path(f"/proc/{own}").exists():
                    time.sleep(0.05)
            wanted("it doesn't seem to run", not session.stand()["running"])
            told.append(f"{whom}: {cut_off(folder, bench.program, 2)}")
    return "; ".join(told)


def full(bench: Bench) -> str:
    disk = bench.room / "disk"
    disk.mkdir()
    subprocess.run(["mount", "-t", "tmpfs", "-o", "size=3m", "none", str(disk)], check=True)
    try:
        with flowing(bench, disk / "session") as (session, traffic):
            traffic.flow_until(session.process)
            _, err = session.end(None, 4)
            wanted(f"the next step is told: {err}", "free some room" in err)
            first = cut_off(disk / "session", bench.program, 2)
        shutil.rmtree(disk / "session")
        for size in (40, 120, 160):
            subprocess.run(["mount", "-o", f"remount,size={size}k", str(disk)], check=True)
            alone = filled(bench, disk / f"alone{size}")
            shutil.rmtree(disk / f"alone{size}")
        return f"the session: {first}; `live` alone, {size} KiB: {alone}"
    finally:
        subprocess.run(["umount", str(disk)], check=True)


def filled(bench: Bench, folder: pathlib.Path) -> str:
    """`live` itself on a full disk, over the demo's two captures."""
    folder.mkdir()
    stream = bench.room / "demo.pcapng"
    captures = [classic(str(TOP / f"demo/{name}.pcap")).records for name in ("initiator", "target")]
    places = sorted(((port, index) for port, records in enumerate(captures, 1) for index in range(len(records))), key=lambda it: captures[it[0] - 1][it[1]].moment)
    stream_of(stream, captures, places)
    shutil.copy(TOP / "demo/fabric.conf", folder / "fabric.conf")
    status, line = said(bench.program, folder, "live", "fabric.conf", "journal", str(stream), "in1.pcap", "out1.pcap", "in2.pcap", "out2.pcap")
    wanted(f"a full disk: {status} {line}", (status, line) == (4, "write fault"))
    return cut_off(folder, bench.program, 2)


@root
@needs("ip", "sysctl")
class Live(unittest.TestCase):
    """Sessions; what is left of one that failed is ended."""

    def setUp(self) -> None:
        room = self.enterContext(tempfile.TemporaryDirectory(dir="/var/tmp", prefix="wegcapho-"))
        self.bench = Bench(program(), pathlib.Path(room))
        self.addCleanup(self.bench.close)

    def test_log_in_and_exchange(self) -> None:
        """Two hosts log in and exchange data both ways; the session ends by Ctrl-C, and what was on the wires is what it recorded."""
        with flowing(self.bench) as (session, traffic):
            first, second = traffic.hosts
            for exchange in range(20):
                payload = os.urandom(64 if exchange % 2 else 2048)
                first.hand(first.ports[0], second.ports[0].address, exchange, payload)
                wanted("there", second.data(second.ports[0], exchange) == payload)
                second.hand(second.ports[0], first.ports[0].address, exchange, payload[::-1])
                wanted("and back", first.data(first.ports[0], exchange) == payload[::-1])
            self.assertEqual([it["interface"] for it in session.stand()["logins"]], ["port1", "port2"])
            printed, _ = session.end()
            self.bench.whole(session, printed)
            only_recorded(session, traffic.hosts)

    @slow
    @needs("ethtool", "setpriv")
    def test_refused(self) -> None:
        """What can be no port is refused with its reason, and nothing is written."""
        refused(self.bench)

    @slow
    def test_two(self) -> None:
        """VLAN, solicitation, FLOGI, NPIV, name server, RSCN, data both ways, silence; `look --session` while it runs and after it."""
        two(self.bench)

    @slow
    def test_eight(self) -> None:
        """A zone set that changes while data flows, and a host that floods for ten seconds while another logs in."""
        eight(self.bench)

    @slow
    def test_ended(self) -> None:
        """A faulty configuration, an interface that goes down and comes back, SIGTERM."""
        ended(self.bench)

    @slow
    def test_killed(self) -> None:
        """The program, and then the feeder, ended by SIGKILL while data flows: what stands is a beginning."""
        killed(self.bench)

    @slow
    def test_full(self) -> None:
        """A disk that has no more room while data flows: what stands is a beginning."""
        full(self.bench)
