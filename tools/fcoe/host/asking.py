"""A request of an N_Port that waits for its answer."""
from dataclasses import dataclass
from typing import Callable

from ..frames.heard import Heard

ANSWERED = 20.0  # seconds that a link service has: 2 x R_A_TOV (FC-LS-2)
Answered = Callable[[Heard], None]


@dataclass
class Asked:
    """To whom it goes, its TYPE, its payload, and what is done with the answer."""

    to: int
    kind: int
    payload: bytes
    answered: Answered
    seconds: float = ANSWERED
    tries: int = 0
