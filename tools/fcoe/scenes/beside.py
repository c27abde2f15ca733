"""A second forwarder on the host's wire, which is as real as the first: a program of its own, served at each turn of the first one's session."""
import pathlib
import selectors
import time

from ..live.feeding import Ended, Options, Session
from ..live.sessions import new_folder
from .script import SECOND, Setup
from .stage import TURN, Bending, HostWire, PeerWire

FOLDER, PATIENCE = "second", 10.0


class SecondWire(PeerWire):
    """What the second forwarder hears of the host's wire, and what it sends there, over which the bends go too."""

    def __init__(self, bending: Bending, host_wire: HostWire) -> None:
        super().__init__(bending, host_wire)
        host_wire.heard_too = self.hear

    def hear(self, frame: bytes) -> None:
        """What goes to all forwarders, or to this one."""
        if frame[0] & 1 or frame[:6] == SECOND:
            self.say(frame)

    def send(self, frame: bytes) -> None:
        self.host_wire.send(frame)


def configured(setup: Setup) -> str:
    """The second forwarder's configuration: what a scene says of it, beside what both have in common."""
    mac = ":".join(f"{it:02x}" for it in SECOND)
    return "\n".join((f"fcf-mac {mac}", "vlan 100", "window 10", f"period {setup.period}", *setup.second)) + "\n"


class Beside(Session):
    """The second forwarder's session, whose loop is the first one's."""

    def __init__(self, program: str, path: pathlib.Path, setup: Setup, wire: SecondWire) -> None:
        folder = new_folder(str(path / FOLDER))
        folder.config.write_text(configured(setup), encoding="ascii")
        super().__init__(program, folder, {"second": wire}, Options(mark=TURN, every=0))
        self.selector.close()

    def begin(self, first: Session) -> None:
        """The first session's selector serves this one too."""
        self.selector = first.selector
        for port in self.ports:
            self.selector.register(port.descriptor, selectors.EVENT_READ, lambda port=port: self.pass_on(port))
        self.hear(True)

    def step(self) -> None:
        """What is done at each turn of the first session."""
        self.mark()
        self.push()
        self.wait_for_room(bool(self.way.pieces))

    def finish(self) -> Ended:
        """Ends the stream, and waits for the program."""
        until = time.monotonic() + PATIENCE
        while self.way.pieces and time.monotonic() < until:
            self.push()
            time.sleep(0.01)
        self.way.end()
        for port in self.ports:
            while port.pass_on():
                pass
        return self.ended()
