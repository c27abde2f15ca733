"""`look exchanges`: every exchange of captures, without a forwarder."""
import sys
from itertools import chain
from typing import Optional

from ..frames.columns import MILLISECOND
from ..errors import counted
from ..runs.inputs import Inputs, Port
from ..moments import Part
from .engine import Engine, Scope
from .exchange import Exchange
from .frame import frames_in
from .statistics import Statistics
from .table import Rows


def scope_of(ports: list[Port]) -> Scope:
    """What these captures can show: known before the first frame is read, by the kinds of frames that are there."""
    addresses = (it.heard.fc.s_id for it in chain.from_iterable(port.frames.flows for port in ports) if it.heard.is_fcoe and it.heard.fc)
    return Scope({it.number for it in ports if it.replies and it.hosts}, set(addresses), max((it.frames.moments[-1] for it in ports if it.frames), default=0))


def first_clock(ports: list[Port]) -> int:
    return min((it.frames.moments[0] for it in ports if it.frames), default=0) // MILLISECOND


def write_exchanges(inputs: Inputs, ports: list[Port], form: str, part: Optional[Part] = None) -> list[str]:
    """Writes the exchanges in the order in which they end, and their sums; gives what a reader must know besides."""
    rows, sums = Rows(sys.stdout, form), Statistics()
    begin, end = (part or Part()).within(first_clock(ports))

    def ended(it: Exchange) -> None:
        if begin <= it.began / MILLISECOND <= end:
            sums.add(it)
            rows.add(it, engine.names)

    engine = Engine(ended, scope_of(ports))
    engine.take_all(frames_in(ports, inputs.switches))
    rows.end(sums, engine.names)
    said = []
    if engine.strays:
        told = ", ".join(f"{count} of {word}" for word, count in engine.strays.most_common())
        said.append(f"{counted(engine.strays.total(), 'frame')} of exchanges that began before the capture ({told})")
    if engine.crowded:
        said.append(f"{counted(engine.crowded, 'exchange')} given up while still open: more than 100,000 were open at once")
    return said
