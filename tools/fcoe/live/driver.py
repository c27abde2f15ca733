"""A host on an interface of Linux."""
import select
import signal
import time
from types import FrameType
from typing import Optional

from ..errors import note
from ..host.enode import ENode
from .interfaces import said
from .wires import Wire


class Driver:
    """Runs a host until it is told to end, which it does by logging out. With its link its logins go, and it begins anew once the link is there."""

    def __init__(self, name: str, wire: Wire, host: ENode) -> None:
        self.name, self.wire, self.host, self.is_ending, self.is_up = name, wire, host, False, False
        for number in (signal.SIGINT, signal.SIGTERM, signal.SIGHUP):
            signal.signal(number, self.asked)

    def asked(self, _number: int, _frame: Optional[FrameType]) -> None:
        self.is_ending = True

    def take(self) -> None:
        """Hands on the frames that wait."""
        try:
            while not self.is_ending:
                self.hand_on(self.wire.receive().frame)
        except OSError:  # nothing waits, or the interface is down
            pass

    def hand_on(self, frame: bytes) -> None:
        """Hands on a frame; a host outlives what a wire brings, also a frame by which it shows a fault of its own."""
        try:
            self.host.take(frame)
        except OSError:
            raise
        except Exception as why:  # pylint: disable=broad-exception-caught
            note(f"a fault of this host: {type(why).__name__}: {why}: it goes on; report it with this frame: {frame[:200].hex()}")

    def see_link(self) -> None:
        """Notices that the link came or went."""
        is_up = said(self.name, "carrier") != "0"
        if is_up and not self.is_up:
            self.host.start()
        elif self.is_up and not is_up:
            self.host.lose_link()
        self.is_up = is_up

    def run(self, seconds: Optional[float]) -> None:
        end = None if seconds is None else time.monotonic() + seconds
        while not self.is_ending and (end is None or time.monotonic() < end):
            select.select([self.wire], [], [], self.host.timers.left(0.1))
            self.see_link()
            self.take()
            self.host.timers.run()
        self.host.stop()
