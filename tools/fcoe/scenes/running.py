"""Runs scenes, a few side by side where each has a room of its own; nothing is left behind."""
import contextlib
import json
import pathlib
import signal
import subprocess
import sys
import time
from dataclasses import asdict, dataclass, replace
from types import FrameType
from typing import Callable, Iterator, Optional

from ..live.rooms import PORT, remove_stale, room
from ..runs.program import TOP
from .catalogue import LEARN
from .hosts import Tried
from .playing import STOPPED, UNABLE, Job, Outcome, outcome_of, skipped
from .script import Scene

TOOL = str(TOP / "tools/scenes")
ENDING = 60.0  # seconds that a scene that is stopped has to end
LOOKS = 0.1


class Stopped(KeyboardInterrupt):
    """Ctrl-C, or SIGTERM."""


@dataclass
class Plan:
    """What is run, and how."""

    scenes: list[Scene]
    job: Job
    folder: pathlib.Path
    more: list[str]
    jobs: int = 1
    without: frozenset[str] = frozenset()
    in_rooms: bool = True


@dataclass
class Running:
    """A scene under way."""

    scene: Scene
    folder: str
    process: "subprocess.Popen[str]"
    closing: contextlib.ExitStack


class Runner:
    """Runs the scenes of a plan."""

    def __init__(self, plan: Plan, tell: Callable[[Outcome], None]) -> None:
        self.plan, self.tell = plan, tell
        self.running: list[Running] = []
        self.outcomes: dict[str, Outcome] = {}
        self.number = 0

    def begin(self, scene: Scene) -> None:
        """Begins a scene, in a room of its own."""
        self.number += 1
        closing = contextlib.ExitStack()
        before: list[str] = []
        tried = self.plan.job.tried
        if self.plan.in_rooms:
            tester, host = closing.enter_context(room(self.number))
            tried = replace(tried, interface=PORT, namespace=host, command=tried.target if tried.target and "target" in scene.needs else tried.command)
            before = ["ip", "netns", "exec", tester]
        folder = str(self.plan.folder / scene.name)
        said = {"scene": scene.name, "more": self.plan.more, "job": asdict(replace(self.plan.job, folder=folder, tried=tried))}
        words = [*before, sys.executable, TOOL, "--play", json.dumps(said)]
        process = subprocess.Popen(  # pylint: disable=consider-using-with
            words, stdin=subprocess.DEVNULL, stdout=subprocess.PIPE, stderr=subprocess.STDOUT, text=True, start_new_session=True
        )
        self.running.append(Running(scene, folder, process, closing))

    def ended(self, it: Running, is_stopped: bool = False) -> None:
        """Takes a scene's outcome, and its room away. One that was stopped at its begin has left none."""
        said = it.process.communicate()[0].strip()
        it.closing.close()
        self.running.remove(it)
        found = outcome_of(it.folder, it.scene, said.rpartition("\n")[2] or f"status {it.process.returncode}")
        if is_stopped and found.verdict == UNABLE:
            found.verdict, found.why = STOPPED, "it was stopped"
        self.outcomes[it.scene.name] = found
        self.tell(found)

    def lacking(self, scene: Scene) -> Optional[str]:
        """What a scene needs that isn't there."""
        return next((it for it in sorted(scene.needs) if it in self.plan.without), None)

    def run(self) -> list[Outcome]:
        """Runs all of them; Ctrl-C ends those that run."""
        waiting = []
        for scene in self.plan.scenes:
            lacking = self.lacking(scene)
            if lacking is None:
                waiting.append(scene)
            else:
                self.outcomes[scene.name] = skipped(scene, lacking)
        waiting.sort(key=lambda it: -it.seconds if self.plan.jobs > 1 else 0)
        try:
            while waiting or self.running:
                while waiting and len(self.running) < self.plan.jobs:
                    self.begin(waiting.pop(0))
                time.sleep(LOOKS)
                for it in [it for it in self.running if it.process.poll() is not None]:
                    self.ended(it)
        finally:
            self.stop()
        return [self.outcomes[it.name] for it in self.plan.scenes if it.name in self.outcomes]

    def stop(self) -> None:
        """Ends what still runs."""
        for it in self.running:
            it.process.terminate()
        for it in list(self.running):
            with contextlib.suppress(subprocess.TimeoutExpired):
                it.process.wait(ENDING)
            if it.process.poll() is None:
                it.process.kill()
            self.ended(it, is_stopped=True)


@contextlib.contextmanager
def stoppable() -> Iterator[None]:
    """Ctrl-C and SIGTERM end what is done meanwhile, once."""

    def stop(number: int, _frame: Optional[FrameType]) -> None:
        signal.signal(number, signal.SIG_IGN)
        raise Stopped

    numbers = (signal.SIGINT, signal.SIGTERM, signal.SIGHUP)
    before = [signal.signal(it, stop) for it in numbers]
    try:
        yield
    finally:
        for number, was in zip(numbers, before):
            signal.signal(number, was)


def learned(plan: Plan) -> Outcome:
    """The host's port names, by a login without zones."""
    remove_stale()
    return Runner(replace(plan, scenes=[LEARN], jobs=1, job=replace(plan.job, checks=False)), lambda _: None).run()[0]


__all__ = ["Plan", "Runner", "Stopped", "Tried", "learned", "stoppable"]
