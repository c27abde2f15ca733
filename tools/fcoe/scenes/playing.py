"""One scene, from its session's begin to what was found in it."""
import json
import pathlib
import signal
import subprocess
import sys
import time
from dataclasses import asdict, dataclass, field
from typing import Any, Optional

from ..frames.heard import colons
from ..live.interfaces import check
from ..live.sessions import new_folder
from ..runs.program import TOP
from ..provenance import origin
from .beside import FOLDER, Beside, SecondWire
from .director import READY, Director, Played
from .hosts import Host, Tried
from .script import Scene, World
from .stage import WIRE, Bending, HostWire, PeerWire, Stage, configuration, peer_of

LOOK = str(TOP / "tools/look")
PR_SET_PDEATHSIG = 1
PASSED, FAILED, BROKEN, UNABLE, SKIPPED, STOPPED = "passed", "failed", "broken", "unable", "skipped", "stopped"


@dataclass
class Job:
    """What a scene is played with."""

    folder: str
    program: str
    tried: Tried
    names: list[str] = field(default_factory=list)
    seed: int = 1
    slack: float = 1.0
    timeout: float = 300.0
    checks: bool = True
    name: str = ""  # of the host, and its driver, as told
    driver: str = ""


@dataclass
class Outcome:
    """How a scene went."""

    scene: str
    title: str = ""
    source: str = ""
    verdict: str = UNABLE
    why: str = ""
    seconds: float = 0.0
    steps: list[Played] = field(default_factory=list)
    broken: list[str] = field(default_factory=list)  # rules that `look check` found broken
    rules: dict[str, int] = field(default_factory=dict)
    unchecked: str = ""  # why `look check` found nothing
    replay: str = ""
    last_heard: Optional[float] = None  # seconds into the scene
    bent: int = 0
    names: list[str] = field(default_factory=list)
    folder: str = ""
    origin: dict[str, Any] = field(default_factory=dict)


def origin_of(job: Job, files: list[str]) -> dict[str, Any]:
    """What decides what a scene comes to."""
    return origin("scenes", [job.program, *files], seed=job.seed, slack=job.slack, host=job.name or None, driver=job.driver or None, start=job.tried.start or job.tried.command)


class Play:
    """A scene while it's played."""

    def __init__(self, scene: Scene, job: Job) -> None:
        self.scene, self.job = scene, job
        self.folder = new_folder(job.folder)
        self.world = World()
        self.bending = Bending(self.world, f"{job.seed} {scene.name}")
        self.host = Host(job.tried, str(self.folder.path / "host.log"))
        self.director = Director(scene, self.world, self.bending, job.slack, {"host": self.host.stop})
        self.wire = HostWire(job.tried.interface, self.folder, self.bending, self.director.note)
        self.peer_wire = PeerWire(self.bending, self.wire)
        self.world.peer = peer_of(scene.setup, self.peer_wire) if scene.setup.peer != "none" else None
        names = [bytes.fromhex(it.replace(":", "")) for it in job.names]
        self.folder.config.write_text(configuration(scene.setup, names), encoding="ascii")
        self.second = Beside(job.program, self.folder.path, scene.setup, SecondWire(self.bending, self.wire)) if scene.setup.second else None
        self.stage = Stage(job.program, self.folder, {job.tried.interface: self.wire, "peer": self.peer_wire}, self.turn)
        if self.second is not None:
            self.second.begin(self.stage)
        self.begun, self.is_begun, self.why = time.monotonic(), False, ""
        self.is_ours = False  # ended by the scene itself
        if scene.setup.peer == "there" and self.world.peer is not None:
            self.world.peer.start()

    def turn(self) -> None:
        """What is done between two turns of the session."""
        self.wire.push()
        if self.second is not None:
            self.second.step()
        if self.world.peer is not None:
            self.world.peer.timers.run()
        passed = time.monotonic() - self.begun
        if not self.is_begun:
            if self.is_ready():
                self.is_begun = True
                self.host.start()
                self.director.begin()
            elif passed > READY * self.job.slack:
                self.end("the peer couldn't log in")
            return
        self.director.turn()
        if self.director.is_over:
            self.end("")
        elif self.host.trouble:
            self.end(f"{self.host.trouble}: host.log has what it said{self.heard_last()}")
        elif passed > self.job.timeout:
            self.end(f"longer than {self.job.timeout:g} s (--timeout)")

    def is_ready(self) -> bool:
        """The peer is there, where the scene wants it to be."""
        peer = self.world.peer
        return self.scene.setup.peer != "there" or peer is not None and bool(peer.ports) and not peer.ports[0].open

    def end(self, why: str) -> None:
        self.why, self.is_ours = why, True
        self.stage.stop("its scene")

    def heard_last(self) -> str:
        """When the host was last heard, in words."""
        last = next((it.moment for it in reversed(self.director.events) if it.from_host), None)
        return ", and no frame came from it" if last is None else f", and it was last heard at {last:.1f} s"

    def run(self) -> Outcome:
        try:
            ended = self.stage.run()
        finally:
            self.host.end()
            self.peer_wire.close()
            second = self.end_second()
        found = Outcome(self.scene.name, self.scene.title, self.scene.source, folder=str(self.folder.path))
        found.seconds, found.steps = round(time.monotonic() - self.begun, 2), self.director.played
        found.last_heard = next((round(it.moment, 2) for it in reversed(self.director.events) if it.from_host), None)
        found.names, found.bent = [colons(it) for it in self.world.names], self.bending.counted
        self.judge(found, ended.status, ended.line)
        if second and found.verdict != UNABLE:
            found.verdict, found.why = UNABLE, second
        return found

    def end_second(self) -> str:
        """Ends the second forwarder, where there is one; in words what is amiss with it."""
        if self.second is None:
            return ""
        ended, folder = self.second.finish(), self.folder.path / FOLDER
        said = replayed(self.job.program, folder, 1)
        if ended.status:
            return f"the second forwarder ended with status {ended.status}: {ended.line}"
        return "" if said == f"legal {ended.line.split()[-1]}" else f"replay of the second forwarder says '{said}'"

    def judge(self, found: Outcome, status: int, line: str) -> None:
        """The verdict."""
        found.replay = replayed(self.job.program, self.folder.path)
        failed = next((it for it in found.steps if it.held is False), None)
        if status:
            found.why = f"the forwarder ended with status {status}: {line}"
        elif found.replay != f"legal {line.split()[-1]}":
            found.why = f"replay says '{found.replay}'"
        elif not self.is_ours:
            found.verdict, found.why = STOPPED, "it was stopped"
        elif failed is not None and not any(it.from_host for it in self.director.events):
            found.why = "no frame came from the host"
        elif failed is not None:
            found.verdict, found.why = FAILED, f"{failed.words}: {failed.what}"
        elif self.why:
            found.why = self.why  # what the scene itself lacked is no fault of the host
        else:
            found.verdict = PASSED
        if self.job.checks:
            self.check_rules(found)

    def check_rules(self, found: Outcome) -> None:
        """What `look check` says of the wire; a rule that the host broke breaks a scene that passed else."""
        said = looked(self.folder.path, found)
        (self.folder.path / "check.json").write_text(json.dumps(said, indent=1) + "\n", encoding="utf-8")
        if found.broken and found.verdict == PASSED:
            found.verdict, found.why = BROKEN, "; ".join(found.broken)


def replayed(program: str, folder: pathlib.Path, ports: int = 2) -> str:
    words = [program, "replay", "fabric.conf", "journal", *(f"{it}{port}.pcap" for port in range(1, ports + 1) for it in ("in", "out"))]
    return subprocess.run(words, cwd=folder, capture_output=True, text=True, check=False).stdout.strip()


def looked(folder: pathlib.Path, found: Outcome) -> Any:
    """The rules of `look check` over the wire's capture."""
    ran = subprocess.run([sys.executable, LOOK, "check", "--json", WIRE], cwd=folder, capture_output=True, text=True, check=False)
    try:
        said = json.loads(ran.stdout)
    except ValueError:
        found.unchecked = ran.stderr.strip().rpartition("\n")[2] or f"status {ran.returncode}"
        return {"error": found.unchecked}
    count_rules(said, found)
    return said


def count_rules(said: Any, found: Outcome) -> None:
    """How many rules on an ENode were held, broken, not seen; those that were broken with their first frame."""
    for rule in said["rules"]:
        if rule["who"] == "ENode":
            found.rules[rule["state"]] = found.rules.get(rule["state"], 0) + 1
            if rule["state"] == "broken":
                found.broken.append(broken_text(rule))


def broken_text(rule: dict[str, Any]) -> str:
    first = rule["broken"][0]
    return f"{rule['rule']}: {rule['text']} [{rule['source']}]: frame {first['frame']}: {first['field']} {first['stands']}, should be {first['should']}"


def die_with_parent() -> None:
    """SIGTERM comes where the tester is killed."""
    import ctypes  # pylint: disable=import-outside-toplevel

    ctypes.CDLL(None).prctl(PR_SET_PDEATHSIG, signal.SIGTERM)


def play(scene: Scene, job: Job) -> Outcome:
    """Plays a scene, and leaves result.json in its folder."""
    die_with_parent()
    check([job.tried.interface])
    found = Play(scene, job).run()
    found.origin = origin_of(job, [str(pathlib.Path(job.folder) / WIRE)])
    (pathlib.Path(job.folder) / "result.json").write_text(json.dumps(asdict(found), indent=1) + "\n", encoding="utf-8")
    return found


def job_of(text: str) -> tuple[str, list[str], Job]:
    """The scene's name, files of scenes, and the job, as the tester hands them to its children."""
    said = json.loads(text)
    words: dict[str, Any] = said["job"]
    words["tried"] = Tried(**words["tried"])
    return said["scene"], said["more"], Job(**words)


def outcome_of(folder: str, scene: Scene, why: str) -> Outcome:
    """What a scene's child left; else why there is nothing."""
    path = pathlib.Path(folder) / "result.json"
    if not path.is_file():
        return Outcome(scene.name, scene.title, scene.source, UNABLE, why, folder=folder)
    said: dict[str, Any] = json.loads(path.read_text(encoding="utf-8"))
    steps: list[dict[str, Any]] = said.pop("steps")
    return Outcome(**said, steps=[Played(**it) for it in steps])


def skipped(scene: Scene, lacking: Optional[str]) -> Outcome:
    return Outcome(scene.name, scene.title, scene.source, SKIPPED, f"needs {lacking}")
