"""tools/scenes over tools/fcoe_host in network namespaces, as root; what makes a verdict is tried without them."""
import concurrent.futures
import json
import os
import pathlib
import re
import signal
import subprocess
import sys
import tempfile
import time
import unittest
import xml.etree.ElementTree as tree
from types import SimpleNamespace
from typing import Any, Optional
from unittest import mock

from live_hosts import wanted
from machine import TOP, program, root, slow

from fcoe.host.faults import FAULTS
from fcoe.live.rooms import HOST_MAC, PREFIX
from fcoe.scenes.catalogue import scenes_of
from fcoe.scenes.director import Played
from fcoe.scenes.playing import Outcome, Play

SCENES, HOST, PAGE = str(TOP / "tools/scenes"), str(TOP / "tools/fcoe_host"), TOP / "docs/SCENES.md"
FIRST, SECOND = f"20:00:{HOST_MAC}", f"21:01:{HOST_MAC}"
BLOCK = re.compile(r"^```\w*\n(.*?)^```$", re.S | re.M)
BESIDE, TURNS = 3, 3
SLACK = "2"
# the scene that finds a fault, and words of the step that isn't held
FINDS = {
    "asks-once": ("vlan-asked-again", "3 x VLAN request"),
    "any-vlan": ("vlan-asked", "in the VLAN that was told"),
    "solicits-once": ("solicited-again", "3 x Solicitation"),
    "unpadded": ("cut-advertisement", "no FLOGI or FDISC"),
    "unsolicited": ("advertised-to-all", "no FLOGI or FDISC"),
    "unavailable": ("not-available", "no FLOGI or FDISC"),
    "priority": ("worse-forwarder", "to the forwarder's MAC"),
    "critical": ("unknown-critical", "no FLOGI or FDISC"),
    "no-fp": ("login", "with the FP flag"),
    "flogi-once": ("flogi-lost", "2 x FLOGI"),
    "same-ox-id": ("flogi-lost", "with an OX_ID of its own"),
    "enode-mac": ("login", "from the MAC granted with its S_ID"),
    "fc-map": ("fc-map", "from the MAC granted with its S_ID"),
    "rejected-goes-on": ("rejected", "no FCoE"),
    "no-keep-alive": ("keep-alive", "Keep alive within"),
    "own-period": ("keep-alive", "6 x Keep alive"),
    "keep-alive-group": ("keep-alive", "to the forwarder's MAC"),
    "silence": ("forwarder-silent", "solicitation or VLAN request"),
    "impatient": ("advertisement-lost", "no new beginning"),
    "clear-ignored": ("link-cleared", "new beginning"),
    "clear-of-all": ("link-of-another", "no new beginning"),
    "no-rscn-accept": ("told-of-login", "LS_ACC to the RSCN"),
    "no-query": ("told-of-login", "query of the name server within"),
    "no-plogi": ("commands", "FCP_CMND"),
    "refused-goes-on": ("peer-refuses", "no PRLI or FCP to the peer"),
    "receive-size": ("small-frames", "512 bytes of payload at most"),
    "crc": ("notice-broken", "no LS_ACC to the RSCN"),
    "no-reject": ("strange-service", "LS_RJT to the peer"),
    "no-abort-answer": ("abort", "BA_ACC or BA_RJT"),
    "no-logout": ("logout", "LOGO in FIP"),
    "astray": ("astray", "no answer to a frame for another"),
    "els-once": ("peer-login-lost", "PLOGI to the peer"),
}


def scenes(tool: str, room: pathlib.Path, *words: str, status: int = 0) -> str:
    """What `scenes` prints."""
    ran = subprocess.run([SCENES, "--program", tool, "--slack", SLACK, "--record", str(room), *words], capture_output=True, text=True, check=False)
    wanted(f"scenes {' '.join(words)}: status {ran.returncode}: {ran.stdout[-3000:]}{ran.stderr[-3000:]}", ran.returncode == status)
    return ran.stdout


# ---- parts


def right(tool: str, room: pathlib.Path) -> str:
    """All scenes over the host as it is, as initiator and as target: passed in each run."""
    count = len(scenes_of([]))
    for turn in range(TURNS):
        said = scenes(tool, room / f"right{turn}", "--jobs", str(BESIDE))
        wanted(f"all scenes are passed: {said}", count >= 100 and said.strip().endswith(f"{count} scenes: {count} passed"))
    return f"{count} scenes, {TURNS} times"


def with_fault(tool: str, room: pathlib.Path, fault: str) -> str:
    """The step that finds a fault."""
    scene, words = FINDS[fault]
    command = f"{sys.executable} {HOST} eth0 --npiv {SECOND} --fault {fault}"
    given = ["--program", tool, "--record", str(room / fault), "--scene", scene, "--host", command, "--port-name", FIRST, "--port-name", SECOND, "--json"]
    ran = subprocess.run([SCENES, *given], capture_output=True, text=True, check=False)
    found: dict[str, Any] = json.loads(ran.stdout)["scenes"][0]
    is_found = ran.returncode == 1 and found["verdict"] == "failed" and words in found["why"]
    return f"{'' if is_found else 'NOT FOUND: '}{fault}: {scene} {found['verdict']}: {found['why']}"


def faults(tool: str, room: pathlib.Path) -> str:
    wanted(f"each fault has its scene: {sorted(set(FAULTS) ^ set(FINDS))}", set(FAULTS) == set(FINDS))
    with concurrent.futures.ThreadPoolExecutor(BESIDE) as pool:
        lines = []
        for line in pool.map(lambda it: with_fault(tool, room, it), FAULTS):
            lines.append(line)
            print(f"  {line}", flush=True)
    wanted("each fault is found", not any(it.startswith("NOT FOUND") for it in lines))
    return f"{len(FAULTS)} faults are found"


OWN = '''
from fcoe.scenes.holding import FABRIC_LOGIN, FIRST, FLOGI, TOLD
from fcoe.scenes.script import Late, Scene, Setup, Want

SCENES = (
    Scene("mine", "A scene of one's own.", "a laboratory's rule", (Want(FLOGI, FIRST, FABRIC_LOGIN),), Setup(bends=(Late(0.5, TOLD),))),
    Scene("mine-too", "One that isn't passed.", "a laboratory's rule", (Want(TOLD, 1),)),
)
'''


def own(tool: str, room: pathlib.Path) -> str:
    file, junit = room / "mine.py", room / "junit.xml"
    file.write_text(OWN, encoding="utf-8")
    words = ["--more", str(file), "--scene", "mine", "--scene", "mine-too", "--scene", "second-port", "--without", "npiv", "--json", "--junit", str(junit)]
    found = {it["scene"]: it["verdict"] for it in json.loads(scenes(tool, room / "own", *words, status=1))["scenes"]}
    wanted(f"verdicts: {found}", found == {"mine": "passed", "mine-too": "failed", "second-port": "skipped"})
    suite = tree.parse(junit).getroot()
    wanted("JUnit XML counts them", [suite.get(it) for it in ("tests", "failures", "skipped", "errors")] == ["3", "1", "1", "0"])
    said = scenes(tool, room / "short", "--scene", "keep-alive", "--timeout", "2", status=1)
    wanted(f"a scene that is ended is no fault of the host: {said}", "--timeout" in said and said.strip().endswith("1 scene: 1 unable"))
    for wrong, says in ((["--scene", "lgin"], "did you mean"), (["--jobs", "0"], "--jobs wants"), (["nowhere0"], "no such interface")):
        ran = subprocess.run([SCENES, "--program", tool, "--record", str(room / "wrong"), *wrong], capture_output=True, text=True, check=False)
        wanted(f"{wrong}: {ran.stderr}", ran.returncode == 2 and says in ran.stderr and ran.stderr.count("\n") == 1)
    return "scenes of one's own, JSON, JUnit XML, words"


def left(tool: str, room: pathlib.Path) -> str:
    for number in (signal.SIGINT, signal.SIGTERM):
        folder = room / f"left{number}"
        words = [SCENES, "--program", tool, "--record", str(folder), "--scene", "keep-alive", "--scene", "all-twice"]
        with subprocess.Popen(words, stdout=subprocess.PIPE, stderr=subprocess.PIPE, text=True) as it:
            end = time.monotonic() + 240
            while time.monotonic() < end and b"up" not in b"".join(path.read_bytes() for path in folder.glob("keep-alive/host.log")):
                time.sleep(0.1)
            it.send_signal(number)
            said = it.communicate(timeout=120)[0]
            wanted(f"status {it.returncode}: {said}", it.returncode == 130 and "stopped" in said)
            names = [path.name for path in pathlib.Path("/run/netns").glob(f"{PREFIX}-{it.pid}-*")]
        wanted(f"namespaces are left: {names}", not names)
        alive = [path for path in pathlib.Path("/proc").glob("[0-9]*/cmdline") if str(folder).encode() in read(path)]
        wanted(f"processes are left: {alive}", not alive)
        wanted("what ran left its folder", (folder / "keep-alive/result.json").exists())
    return "Ctrl-C and SIGTERM leave nothing"


def read(path: pathlib.Path) -> bytes:
    try:
        return path.read_bytes()
    except OSError:
        return b""


def within(namespace: str, tool: str, room: pathlib.Path, script: str) -> tuple[int, str]:
    """The status of a script in a namespace, and all that it says."""
    around = {**os.environ, "PATH": f"{TOP}/tools:{os.environ['PATH']}", "FCOE_TOOL": tool}
    words = ["ip", "netns", "exec", namespace, "sh", "-ec", script]
    ran = subprocess.run(words, cwd=room, env=around, stdout=subprocess.PIPE, stderr=subprocess.STDOUT, text=True, check=False)
    return ran.returncode, ran.stdout


def tap(tool: str, room: pathlib.Path) -> str:
    blocks = BLOCK.findall(PAGE.read_text(encoding="utf-8"))
    made, tried = (next((it for it in blocks if words in it), "") for words in ("ip tuntap add", "fcoe_host --tap"))
    wanted("docs/SCENES.md has the words for a tap device", made and tried)
    name = f"{PREFIX}-{os.getpid()}-tap"
    subprocess.run(["ip", "netns", "add", name], check=True)
    try:
        status, said = within(name, tool, room, made + tried)
        wanted(f"the page's words: status {status}: {said}", status == 0 and said.strip().endswith("2 scenes: 2 passed"))
        status, said = within(name, tool, room, "scenes tap0 --record wrong --scene login --start nothing-here")
        wanted(f"a command that isn't there: status {status}: {said}", status == 2 and "ended with status 127" in said)
        status, said = within(name, tool, room, "fcoe_host --tap lo || fcoe_host --tap nowhere0")
        wanted(f"no tap device: status {status}: {said}", status == 2 and "no Ethernet interface" in said and "no such interface" in said)
        alive = subprocess.run(["ip", "netns", "pids", name], capture_output=True, text=True, check=False).stdout.split()
        wanted(f"processes are left: {alive}", not alive)
    finally:
        subprocess.run(["ip", "netns", "del", name], check=False)
    return "a host at the other end of a tap device, by the page's words"


# ---- tests


def steps(*held: Optional[bool]) -> list[Played]:
    return [Played(f"step {place}", it, what="came not" if it is False else "") for place, it in enumerate(held)]


# status and line of the session, what replay says, whether the scene ended it, what it lacked, its steps; and the verdict with words of its reason
VERDICTS: tuple[tuple[int, str, str, bool, str, list[Played], str, str], ...] = (
    (0, "frames 3 entries 9", "legal 9", True, "", steps(True, True), "passed", ""),
    (0, "frames 3 entries 9", "legal 9", True, "", steps(True, False, None), "failed", "step 1: came not"),
    (0, "frames 3 entries 9", "legal 9", True, "longer than 2 s (--timeout)", steps(True, None), "unable", "longer than 2 s (--timeout)"),
    (0, "frames 3 entries 9", "legal 9", False, "", steps(True, True), "stopped", "it was stopped"),
    (0, "frames 3 entries 9", "journal 4 verdict", True, "", steps(True, True), "unable", "replay says 'journal 4 verdict'"),
    (4, "write fault", "legal 9", True, "", steps(True, True), "unable", "the forwarder ended with status 4: write fault"),
)


class Verdicts(unittest.TestCase):
    """Without a session."""

    def test_verdicts(self) -> None:
        for status, line, replay, is_ours, lacked, played, verdict, why in VERDICTS:
            with self.subTest(why or verdict), mock.patch("fcoe.scenes.playing.replayed", return_value=replay):
                found = Outcome("scene", steps=played)
                job = SimpleNamespace(program="fcoe_tool", checks=False)
                heard = SimpleNamespace(events=[SimpleNamespace(from_host=True)])
                play: Any = SimpleNamespace(job=job, folder=SimpleNamespace(path=pathlib.Path()), is_ours=is_ours, why=lacked, director=heard)
                Play.judge(play, found, status, line)
                self.assertEqual((found.verdict, found.why), (verdict, why))

    def test_a_fault_has_its_scene(self) -> None:
        self.assertEqual(set(FAULTS), set(FINDS))
        self.assertEqual({it for it, _ in FINDS.values()} - set(scenes_of([])), set())


@root
class Scenes(unittest.TestCase):
    """Over the host of tools/fcoe_host."""

    def setUp(self) -> None:
        self.room = pathlib.Path(self.enterContext(tempfile.TemporaryDirectory(dir="/var/tmp", prefix="scenes-")))

    def test_one(self) -> None:
        """A host that keeps the standards passes a scene, and a fault of it is found."""
        said = scenes(program(), self.room / "right", "--scene", "login", "--scene", "vlan-asked")
        self.assertTrue(said.strip().endswith("2 scenes: 2 passed"), said)
        line = with_fault(program(), self.room, "enode-mac")
        self.assertFalse(line.startswith("NOT FOUND"), line)

    @slow
    def test_right(self) -> None:
        """The host as it is passes all scenes."""
        right(program(), self.room)

    @slow
    def test_faults(self) -> None:
        """Each fault that can be planted in the host is found by its scene, by the step that is said in FINDS."""
        faults(program(), self.room)

    @slow
    def test_own(self) -> None:
        """Scenes of one's own, JSON and JUnit XML, words that don't fit."""
        own(program(), self.room)

    @slow
    def test_left(self) -> None:
        """Ctrl-C and SIGTERM leave neither namespace nor process, and the folder of what ran."""
        left(program(), self.room)

    @slow
    def test_tap(self) -> None:
        """The words of docs/SCENES.md for a tap device, with the host at its other end; commands that can't begin one."""
        tap(program(), self.room)
