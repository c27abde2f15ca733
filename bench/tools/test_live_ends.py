"""What ends a session of tools/live and what doesn't, and what it warns of: standard error that nobody reads, signals, limits, ports that go, a second session, a clock that is set."""
import argparse
import contextlib
import json
import os
import pathlib
import shutil
import signal
import subprocess
import sys
import time
from typing import Iterator

import pytest
from machine import TOOLS, program, root

from fcoe.live import feeding, sessions, wires

SPACE = f"live-ends-{os.getpid()}"
LIVE = ["ip", "netns", "exec", SPACE, sys.executable, str(TOOLS / "live")]
SECOND = 10**9
# `live` with limits that a session soon reaches
NEARLY = f"""
import runpy, sys
sys.path.insert(0, {str(TOOLS)!r})
sys.argv[0] = {str(TOOLS / 'live')!r}
import fcoe.start
from fcoe.live import feeding
feeding.LIMITS.update({{"frames": 40, "bytes of the stream": 200, "milliseconds": 3000}})
runpy.run_path(sys.argv[0], run_name="__main__")
"""
CONFIG = "fcf-mac 00:05:1e:00:00:02\nvlan 100\nwindow 10\nperiod 250\n"


def ip(*words: str) -> None:
    subprocess.run(["ip", *words], check=True)


@contextlib.contextmanager
def space() -> Iterator[None]:
    """A network namespace with port1 and port2."""
    ip("netns", "add", SPACE)
    try:
        for port in ("1", "2"):
            ip("-n", SPACE, "link", "add", f"port{port}", "mtu", "2500", "type", "veth", "peer", "name", f"host{port}", "mtu", "2500")
            for name in (f"port{port}", f"host{port}"):
                ip("-n", SPACE, "link", "set", name, "up")
        yield
    finally:
        ip("netns", "del", SPACE)


@contextlib.contextmanager
def session(folder: pathlib.Path, *words: str, live: list[str] = LIVE) -> Iterator["subprocess.Popen[bytes]"]:
    """A session that has begun."""
    (folder / "c.conf").write_text(CONFIG, encoding="ascii")
    words = (*live, "--program", program(), "--record", str(folder / "s"), *words, str(folder / "c.conf"), "port1", "port2")
    with subprocess.Popen(words, stdout=subprocess.PIPE, stderr=subprocess.PIPE) as process:
        for _ in range(600):
            if (folder / "s/in1.pcap").exists() and (folder / "s/in1.pcap").stat().st_size > 100:
                break
            time.sleep(0.1)
        try:
            yield process
        finally:
            process.kill()


def told(folder: pathlib.Path) -> tuple[object, object]:
    """The status and what ended it, by session.json."""
    said = json.loads((folder / "s/session.json").read_text(encoding="utf-8"))
    return said["status"], said["by"]


@root
@pytest.mark.parametrize("how", ["stands still", "goes"])
def test_standard_error_that_nobody_reads(how: str, tmp_path: pathlib.Path) -> None:
    """Four kilobytes of statistics are soon there; the session goes on to its end."""
    with space(), session(tmp_path, "--statistics", "0.001", "--seconds", "6") as process:
        assert process.stderr is not None and process.stdout is not None
        if how == "goes":
            process.stderr.close()
        assert process.stdout.read().startswith(b"frames ")
        assert process.wait() == 0 and told(tmp_path) == (0, "--seconds")


@root
@pytest.mark.parametrize("name", ["SIGUSR1", "SIGQUIT", "SIGTERM", "SIGALRM", "SIGABRT", "SIGRTMIN", "SIGRTMIN+5", "SIGRTMAX"])
def test_signals_are_told(name: str, tmp_path: pathlib.Path) -> None:
    known, _, more = name.partition("+")
    with space(), session(tmp_path) as process:
        process.send_signal(getattr(signal, known) + int(more or 0))
        process.communicate()
        assert process.returncode == 0 and told(tmp_path) == (0, name)


@root
def test_ports_that_go_and_that_are_taken(tmp_path: pathlib.Path) -> None:
    """A second session is refused; a port that is down or removed is told, and each frame that wasn't sent."""
    with space(), session(tmp_path, "--seconds", "8") as process:
        again = subprocess.run([*LIVE, "--program", program(), "--record", str(tmp_path / "again"), str(tmp_path / "c.conf"), "port2"], capture_output=True, text=True, check=False)
        assert again.returncode == 2 and "port2: another session of `live` has it" in again.stderr and not (tmp_path / "again").exists()
        ip("-n", SPACE, "link", "set", "port1", "down")
        ip("-n", SPACE, "link", "del", "port2")
        err = process.communicate()[1].decode()
        assert process.returncode == 0, err
        assert "port1: Network is down" in err and "port2: was removed" in err and " down)" in err.splitlines()[-3], err


@root
def test_why_a_frame_was_not_sent(tmp_path: pathlib.Path) -> None:
    """The advertisement that a host asked for has the size of its frames, which the port no longer takes."""
    host = ["ip", "netns", "exec", SPACE, sys.executable, str(TOOLS / "fcoe_host"), "--seconds", "5", "--mac", "00:1b:21:00:00:0a", "host1"]
    with space(), session(tmp_path) as process:
        ip("-n", SPACE, "link", "set", "port1", "mtu", "1500")
        subprocess.run(host, capture_output=True, check=False)
        process.terminate()
        err = process.communicate()[1].decode()
        assert "Message too long: `ip link set port1 mtu 2500`" in err and " MTU)" in err.splitlines()[-3], err


@root
def test_limits_that_are_near_are_told(tmp_path: pathlib.Path) -> None:
    """80% of each limit, once."""
    with space(), session(tmp_path, "--mark", "10", "--seconds", "4", live=[*LIVE[:5], "-c", NEARLY]) as process:
        said = process.communicate()[1].decode()
        assert process.returncode == 0, said
    for limit in ("40 frames", "200 bytes of the stream", "3,000 milliseconds"):
        assert said.count(f"of the {limit} that a session takes: it ends by itself there") == 1, said


@pytest.mark.parametrize("free, lines", [(4 << 20, 1), (feeding.ROOM, 0)])
def test_a_disk_with_less_than_a_session_can_take(free: int, lines: int, monkeypatch: pytest.MonkeyPatch, capsys: pytest.CaptureFixture[str], tmp_path: pathlib.Path) -> None:
    monkeypatch.setattr(shutil, "disk_usage", lambda _: argparse.Namespace(free=free))
    feeding.check_room(sessions.Folder(tmp_path), False)
    assert capsys.readouterr().err.count(f"has {free >> 20} MiB free") == lines


@root
def test_what_cannot_be_caught_is_told_by_who_reads(tmp_path: pathlib.Path) -> None:
    with space(), session(tmp_path) as process:
        process.kill()
        process.communicate()
    assert told(tmp_path) == (None, "")
    look = subprocess.run([sys.executable, TOOLS / "look", "--session", str(tmp_path / "s")], capture_output=True, text=True, check=False)
    assert look.returncode == 0 and "it was ended before it could say how" in look.stdout, look.stderr


# ---- the clock


class Waiting:
    """A wire on which frames wait, stamped by the system's clock."""

    def __init__(self, stamps: list[int]) -> None:
        self.stamps = stamps

    def receive(self) -> wires.Arrived:
        if not self.stamps:
            raise BlockingIOError
        return wires.Arrived(bytes(14), 14, self.stamps.pop(0))


@pytest.mark.parametrize("step", [-3600, 3600, -30, 30])
@pytest.mark.parametrize("is_late", [False, True])
def test_a_clock_that_is_set(step: int, is_late: bool, monkeypatch: pytest.MonkeyPatch, tmp_path: pathlib.Path) -> None:
    """The moment of a frame that waited over the step, or that came behind it and before the clock was asked, stays where it was."""
    even, ahead = [5_000 * SECOND], [1_700_000_000 * SECOND]
    monkeypatch.setattr(time, "monotonic_ns", lambda: even[0])
    monkeypatch.setattr(time, "time_ns", lambda: even[0] + ahead[0])
    clock, wire, kept = wires.Clock(), Waiting([]), feeding.Kept(str(tmp_path / "out"))
    port = feeding.Port(1, "port1", wire, os.open(os.devnull, os.O_RDONLY), kept)  # type: ignore[arg-type]
    assert not port.taken(clock)
    first, before = clock.now(), time.time_ns()
    even[0] += SECOND // 100
    wire.stamps.append(before + step * SECOND if is_late else before)
    if not is_late:
        ahead[0] += step * SECOND
    packets = port.taken(clock)
    high, low = (int.from_bytes(packets[0][at : at + 4], "little") for at in (12, 16))
    assert first <= high << 32 | low <= clock.now()
    kept.end()
    os.close(port.descriptor)
