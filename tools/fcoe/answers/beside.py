"""What the switch of the captures made of each frame of a host, beside the journal's verdict."""
from typing import Optional

from ..frames.heard import fcid
from ..runs.forwards import data_ends
from ..runs.looking import Look
from ..runs.pairs import asks


def switch_verdict(look: Look, port: int, index: int) -> Optional[str]:
    """What the switch answered to a frame or did with it, in the journal's words and with its own address; nothing where the captures don't show it."""
    request = look.request_of(port, index)
    reply = look.replies.get(request)
    if reply is not None:
        return reply.verdict
    if request in look.grants:
        return f"granted {fcid(look.grants[request][0])}"
    own = look.captured[port - 1]
    heard = own.frames.like(request[1])
    if data_ends(heard) is not None:
        return data_verdict(look, request)
    return "no answer" if own.replies and asks(heard) is not None else None


def data_verdict(look: Look, request: tuple[int, int]) -> Optional[str]:
    """Whether the switch sent a data frame on, where the capture of its destination's port shows that."""
    if look.compared is None or look.compared.went is None:
        return None
    if look.compared.went.has(*request):
        return "sent on"
    fc = look.ports[request[0] - 1].frames.like(request[1]).fc
    owners = look.walk.fabric.of_address(fc.d_id) if fc else []
    return "not sent on" if any(look.captured[it.port - 1].replies for it in owners) else None


def switch_frame(look: Look, port: int, index: int) -> Optional[int]:
    """The number of the switch's answer to a frame, as Wireshark shows it."""
    reply = look.replies.get(look.request_of(port, index))
    return reply.number if reply else None
