"""The look itself: captures, a run over them, and addresses rewritten until the run's grants stand still."""
import os
from dataclasses import dataclass, field, replace
from functools import cached_property
from typing import Any, Optional

from ..errors import Refused, counted
from ..files import text_of
from ..frames.captures import classic
from .compare import Comparison, compare
from .configs import config_in
from .derived import derive
from .fabric import Login, Walk, walk
from .inputs import Inputs, Options, Port, gather
from .journals import read_journal
from .program import Run, check_fits, run_program
from .readdress import Request, grants_seen, readdressed
from .replies import Reply, replies_to

TURNS = 12
PLENTY = 100_000  # data frames, from which on the grants are found without them
Grants = dict[Request, tuple[int, Optional[int]]]


@dataclass
class Look:
    """All that is known of captures that were looked at."""

    inputs: Inputs
    captured: list[Port]
    run: Run
    walk: Walk
    grants: Grants
    turns: int
    program: str
    compared: Optional[Comparison] = None
    whatif: Optional[dict[str, Any]] = None  # what a planned zoning would change, where it was asked

    @property
    def ports(self) -> list[Port]:
        """The ports with the run's addresses."""
        return self.run.ports

    @cached_property
    def replies(self) -> dict[Request, Reply]:
        """What the switch replied to each request, with its own addresses."""
        return replies_to(self.captured, self.run.config.mac)

    def request_of(self, port: int, index: int) -> Request:
        """Where the frame stands that the journal calls by this index."""
        return port, self.ports[port - 1].hosts[index]

    def on_switch(self, login: Login) -> int:
        """The address of a login as the captures have it."""
        found = self.grants.get(self.request_of(*login.granted_frame))
        return found[0] if found else login.address

    def replied(self, login: Login) -> Optional[bool]:
        """Whether the switch granted this login too; nothing where the captures don't have its answer."""
        request = self.request_of(*login.granted_frame)
        reply = self.replies.get(request)
        if reply is None:
            return True if request in self.grants else False if self.captured[login.port - 1].replies else None
        return reply.verdict.startswith("granted")

    def moved(self) -> dict[int, list[int]]:
        """The run's addresses for each of the switch's, where they differ."""
        found: dict[int, list[int]] = {}
        for old, new in self.grants.values():
            if new is not None and old != new and new not in found.setdefault(old, []):
                found[old].append(new)
        return {old: new for old, new in found.items() if new}


def granted_by(run: Run, seen: dict[Request, int]) -> Grants:
    """For each login request the switch's address, and the run's."""
    granted = [it for _, it in run.entries.with_words("granted")]
    places = {(it.port, run.ports[it.port - 1].hosts[it.index]): it.address for it in granted}
    return {request: (old, places.get(request)) for request, old in seen.items()}


@dataclass
class Settling:
    """What is known on the way to grants that stand still: those of the switch, the run's as they were found last, and in how many runs."""

    program: str
    inputs: Inputs
    room: str
    seen: dict[Request, int]
    grants: Grants
    turns: int = 0
    strangers: dict[int, int] = field(default_factory=dict)

    def run(self, ports: list[Port], seen: dict[Request, int], grants: Grants) -> tuple[Run, Grants]:
        """A run over ports with the switch's addresses rewritten; and what it granted."""
        folder = os.path.join(self.room, f"run{len(os.listdir(self.room))}")
        os.mkdir(folder)
        made = ports
        if seen:
            made, self.strangers = readdressed(ports, self.inputs.config, grants, self.inputs.fc_map, self.room)
        run = run_program(self.program, replace(self.inputs, ports=made), folder)
        return run, granted_by(run, seen)

    def settle_messages(self, ports: list[Port]) -> None:
        """Finds the grants by the messages alone, as data frames decide nothing over them."""
        light = [of_messages(port, self.inputs.switches) for port in ports]
        place = {port.number: {at: place for place, at in enumerate(port.frames.messages())} for port in ports}
        seen = {(port, place[port][at]): old for (port, at), old in self.seen.items()}
        while self.turns < TURNS:
            self.turns += 1
            before = {(port, place[port][at]): pair for (port, at), pair in self.grants.items()}
            _, made = self.run(light, seen, before)
            if made == before:
                self.turns -= 1  # the run over all frames is this one
                return
            self.grants = {request: made[request[0], place[request[0]][request[1]]] for request in self.grants}


def of_messages(port: Port, switches: set[bytes]) -> Port:
    """A port without data frames."""
    made = replace(port, frames=port.frames.part(port.frames.messages()))
    made.divide(switches)
    return made


def settle(program: str, inputs: Inputs, room: str) -> tuple[Run, Grants, int]:
    """Runs the program over the captures with the switch's addresses rewritten to the run's own, until the run's grants stand still."""
    captured = inputs.ports
    seen = grants_seen(captured, inputs.config.mac)
    found = Settling(program, inputs, room, seen, {request: (old, old) for request, old in seen.items()})
    if seen and sum(len(port.frames) - len(port.frames.messages()) for port in captured) > PLENTY:
        found.settle_messages(captured)
    while found.turns < TURNS:
        found.turns += 1
        run, made = found.run(captured, seen, found.grants)
        if made == found.grants:
            inputs.ports = run.ports
            if found.strangers:
                pairs = ", ".join(f"{old:06x} as {new:06x}" for old, new in sorted(found.strangers.items())[:6])
                inputs.details.append(f"{counted(len(found.strangers), 'address', 'es')} that nobody here was granted would be the run's own: moved out of its way ({pairs})")
            return run, made, found.turns
        found.grants = made
    raise Refused(f"{captured[0].file}: the run's grants don't stand still after {TURNS} turns: look at one host at a time (tshark -Y 'eth.addr == MAC' -w OUT)")


def look(names: list[str], options: Options, program: str, room: str) -> Look:
    """Looks at captures."""
    inputs = gather(names, room, options)
    derive(inputs, bool(options.zones))
    captured = inputs.ports
    run, grants, turns = settle(program, inputs, room)
    walked = walk(run)
    result = Look(inputs, captured, run, walked, grants, turns, program)
    result.compared = compare(run, walked)
    moved = result.moved()
    if moved:
        inputs.details.append(f"{moved_text(moved)}, granted MACs and check sequences too: found in {counted(turns, 'run')}")
    return result


def moved_text(moved: dict[int, list[int]]) -> str:
    """Which addresses of the switch are others in the run."""
    pairs = ", ".join(f"{old:06x} as {new[0]:06x}" for old, new in sorted(moved.items())[:6]) + (" .." if len(moved) > 6 else "")
    stand, them = ("stands", "it") if len(moved) == 1 else ("stand", "them")
    return f"{counted(len(moved), 'address', 'es')} of the switch {stand} in the run as this forwarder grants {them} ({pairs})"


def of_run(config: str, journal: str, names: list[str]) -> Look:
    """A run that exists: its files as `run` took and wrote them, checked to belong together."""
    if len(names) < 2 or len(names) % 2:
        raise Refused(f"{journal}: --journal wants the captures as for `run`: IN OUT [IN OUT ..]")
    ports = []
    for number, name in enumerate(names[0::2], 1):
        port = Port(number, name, name, classic(name).frames)
        port.divide(set())
        ports.append(port)
    text = text_of(config)
    settings = config_in(config, text)
    run = Run(settings, ports, read_journal(journal), [classic(name, is_plain=True).frames for name in names[1::2]])
    check_fits(run, [journal])
    inputs = Inputs(ports, settings, text, [f"the run of {journal}, as --journal says"], {settings.mac}, False)
    return Look(inputs, ports, run, walk(run), {}, 0, "")
