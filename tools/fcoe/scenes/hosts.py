"""The host that is tried: begun before each scene, and ended behind it."""
import contextlib
import os
import shlex
import signal
import subprocess
from dataclasses import dataclass
from typing import IO, Optional

ENDING = 10.0  # seconds that a host has to log out


@dataclass
class Tried:
    """How the host is begun and ended."""

    interface: str  # the tester's
    namespace: str = ""  # of the host; none where it is on a wire
    command: str = ""  # that is the host, in its namespace
    start: str = ""  # that begins the host on the wire
    stop: str = ""
    target: str = ""  # the command as a target, where that is another one

    @property
    def can_end(self) -> bool:
        return bool(self.command or self.stop)


class Host:
    """A host of one scene."""

    def __init__(self, tried: Tried, log: str) -> None:
        self.tried = tried
        self.log: IO[bytes] = open(log, "wb")  # pylint: disable=consider-using-with
        self.is_told = False  # to end
        self.process: Optional["subprocess.Popen[bytes]"] = None  # the host itself
        self.begun: Optional["subprocess.Popen[bytes]"] = None  # the command that begins it
        self.stopping: Optional["subprocess.Popen[bytes]"] = None  # the command that ends it

    def run(self, words: list[str]) -> "subprocess.Popen[bytes]":
        return subprocess.Popen(words, stdin=subprocess.DEVNULL, stdout=self.log, stderr=self.log, start_new_session=True)

    def start(self) -> None:
        """Begins it: its command, the command that begins it, or its link anew."""
        if self.tried.command:
            self.process = self.run(["ip", "netns", "exec", self.tried.namespace, *shlex.split(self.tried.command)])
        else:
            link = f"ip link set dev {shlex.quote(self.tried.interface)}"
            self.begun = self.run(["sh", "-c", self.tried.start or f"{link} down; sleep 1; {link} up"])

    def stop(self) -> None:
        """Tells it to end, once."""
        self.is_told = True
        if self.process is not None:
            if self.process.poll() is None:
                self.process.send_signal(signal.SIGTERM)
        elif self.tried.stop and self.stopping is None:
            self.stopping = self.run(["sh", "-c", self.tried.stop])

    def end(self) -> None:
        """Sees to it that it has ended, and each command of it."""
        self.stop()
        for it in (self.process, self.stopping):
            if it is not None:
                ended(it)
        if self.begun is not None:
            if self.tried.start:
                tell_group(self.begun, signal.SIGTERM)
            ended(self.begun)
        self.log.close()

    @property
    def trouble(self) -> str:
        """Why it isn't there, where it ended by itself, or couldn't be begun."""
        if self.is_told:
            return ""
        if self.process is not None:
            code = self.process.poll()
            return f"the host ended with status {code}" if code not in (None, 0) else ""
        code = status_of(self.begun) if self.begun is not None else None
        return f"the command that begins the host ended with status {code}" if code else ""


def status_of(it: "subprocess.Popen[bytes]") -> Optional[int]:
    """The status of a command that has ended; its number isn't given back yet, so that its group can still be told."""
    if it.returncode is not None:
        return it.returncode
    ended_so = os.waitid(os.P_PID, it.pid, os.WEXITED | os.WNOHANG | os.WNOWAIT)
    return ended_so.si_status if ended_so is not None else None


def tell_group(it: "subprocess.Popen[bytes]", number: signal.Signals) -> None:
    """Sends a signal to a command, and to what it began."""
    with contextlib.suppress(ProcessLookupError):
        os.killpg(it.pid, number)


def ended(it: "subprocess.Popen[bytes]") -> None:
    """Waits for a command, and ends it where it goes on."""
    try:
        it.wait(ENDING)
    except subprocess.TimeoutExpired:
        tell_group(it, signal.SIGKILL)
        it.wait()
