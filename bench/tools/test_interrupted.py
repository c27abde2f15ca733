"""Ctrl-C at any moment from a tool's first on, here and where it is installed: it ends by the signal, or with status 130 and one line, and shows no traceback."""
import os
import pathlib
import shutil
import signal
import subprocess
import time
from typing import Iterator

import pytest

from installation import TOP, install, open_folder
from machine import program as built

DEMO = TOP / "demo"
RUN = "fabric.conf journal initiator.pcap out1.pcap target.pcap out2.pcap"
# what takes a while, or goes through all that a tool loads; {} is a folder of the run
WORDS = {
    "look": "check initiator.pcap target.pcap",
    "zones": "--to fos --from zonings/nxos_active.txt",
    "annotate": "fabric.conf journal initiator.pcap {}/told.pcapng 1",
    "bound": "fabric.conf bridge/forwarder.pcap to1.pcap bridge/initiator.pcap to2.pcap bridge/target.pcap to3.pcap",
    "ladder": RUN,
    "readdress": "initiator.pcap {}/moved.pcap 01=65",
    "live": "fabric.conf nosuch0",
    "scenes": "--list",
    "fcoe_host": "--list",
    "load": "--frames 4000 --ports 2 --logins 4 {}/load",
    "install": "--program {}/fcoe_tool {}/usr",
    "build": "{}/nowhere {}/made",
    "release": "{}/nowhere",
    "vm": "{}/nowhere end",
}
EACH, FEW = range(0, 301, 5), range(0, 301, 60)  # milliseconds behind the tool's first


@pytest.fixture(scope="module")
def room() -> Iterator[pathlib.Path]:
    yield from open_folder()


@pytest.fixture(scope="module")
def prefix(room: pathlib.Path) -> pathlib.Path:
    assert install(room / "usr", "--program", built()).returncode == 0
    return room / "usr"


def begun(tool: pathlib.Path, room: pathlib.Path) -> "subprocess.Popen[str]":
    """A tool that begins to run, whatever the tests themselves make of interrupts."""
    shutil.copy(built(), room / "fcoe_tool")
    env = {**os.environ, "PATH": f"/usr/bin:{os.environ['PATH']}", "FCOE_TOOL": str(room / "fcoe_tool")}
    words: list[str | pathlib.Path] = [tool, *WORDS[tool.name].replace("{}", str(room)).split()]
    return subprocess.Popen(  # pylint: disable=subprocess-popen-preexec-fn # no other thread runs while a tool begins
        words, cwd=DEMO, env=env, stdin=subprocess.DEVNULL, stdout=subprocess.DEVNULL, stderr=subprocess.PIPE, text=True,
        preexec_fn=lambda: signal.signal(signal.SIGINT, signal.SIG_DFL),
    )


def interrupted(tool: pathlib.Path, delay: int, room: pathlib.Path) -> tuple[int, str]:
    """The status of a tool that is interrupted so many milliseconds behind its begin, and what it says."""
    with begun(tool, room) as job:
        time.sleep(delay / 1000)
        job.send_signal(signal.SIGINT)
        said = job.communicate(timeout=60)[1]
    return job.returncode, said


def is_ended_well(tool: pathlib.Path, status: int, said: str) -> bool:
    """Ended by the signal, by itself before, or with its line; nothing is shown of where it was."""
    is_quiet = not any(it in said for it in ("Traceback", "KeyboardInterrupt", "Exception", 'File "'))
    return is_quiet and (status in (0, 1, 2, -signal.SIGINT) or status == 130 and said.endswith(f"{tool.name}: stopped\n"))


def not_well(tool: pathlib.Path, delays: range, room: pathlib.Path) -> list[tuple[int, int, str]]:
    ends = [(delay, *interrupted(tool, delay, room)) for delay in delays]
    assert any(status in (130, -signal.SIGINT) for _, status, _ in ends)  # some were interrupted
    return [it for it in ends if not is_ended_well(tool, *it[1:])]


def test_each_script_is_tried() -> None:
    scripts = {it.name for it in (TOP / "tools").iterdir() if it.is_file() and os.access(it, os.X_OK)}
    assert scripts == {*WORDS}


@pytest.mark.parametrize("delays", [FEW, pytest.param(EACH, marks=pytest.mark.slow)], ids=["some moments", "each moment"])
@pytest.mark.parametrize("tool", WORDS)
def test_an_interrupt_shows_no_traceback(tool: str, delays: range, tmp_path: pathlib.Path) -> None:
    assert not not_well(TOP / "tools" / tool, delays, tmp_path)


@pytest.mark.parametrize("delays", [FEW, pytest.param(EACH, marks=pytest.mark.slow)], ids=["some moments", "each moment"])
def test_installed_ones_too(prefix: pathlib.Path, delays: range, tmp_path: pathlib.Path) -> None:
    for tool in sorted((prefix / "bin").iterdir()):
        assert tool.name == "fcoe_tool" or not not_well(tool, delays, tmp_path), tool
