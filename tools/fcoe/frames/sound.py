"""Whether the body of a FIP or FCoE frame has no fault (FC-BB-5, FC-FS-3): those for which docs/JOURNAL.md has the rules `fip-..` and `fcoe-..`."""
from dataclasses import dataclass
from typing import Optional

from .fields import DELIMITERS
from .heard import ADVERTISE, CLEAR, KEEP_ALIVE, LOGIN, LOGIN_REPLY, LOGINS, SOLICIT, VLAN_REQUEST, VLAN_TELL, Heard, fc_check, number

HEAD = 10  # bytes of the FIP header
SKIPPED = 128  # the first type of descriptors that a reader may skip
FC_HEAD, MOST_PAYLOAD = 24, 2112
FCOE_AROUND = 22  # bytes around an FC frame: version, reserved, SOF; CRC, EOF, reserved
SIZES = {1: 4, 2: 8, 4: 12, 5: 16, 6: 4, 11: 20, 12: 8, 14: 4}  # bytes of a descriptor; a login has 28 at least
LEAST_LOGIN = 28
ONE_LOGIN = frozenset(LOGINS)


@dataclass(frozen=True)
class Form:
    """The descriptors of a message: of each set one must be there, further ones may be there once, and one may be repeated."""

    needed: tuple[frozenset[int], ...]
    optional: frozenset[int] = frozenset()
    repeated: Optional[int] = None

    @property
    def single(self) -> frozenset[int]:
        return self.optional.union(*self.needed)


def of(*kinds: int) -> tuple[frozenset[int], ...]:
    return tuple(frozenset({it}) for it in kinds)


FORMS = {
    SOLICIT: Form(of(2, 4, 6)),
    ADVERTISE: Form(of(1, 2, 4, 5, 12)),
    LOGIN: Form((ONE_LOGIN, *of(2))),
    LOGIN_REPLY: Form((ONE_LOGIN,), frozenset({2})),
    KEEP_ALIVE: Form(of(2), frozenset({11})),
    CLEAR: Form(of(2, 4), repeated=11),
    VLAN_REQUEST: Form(of(2), frozenset({4})),
    VLAN_TELL: Form(of(2), repeated=14),
}


def is_sized(kind: int, size: int) -> bool:
    """A descriptor of a known type has its type's length."""
    return size >= LEAST_LOGIN if kind in LOGINS else size == SIZES.get(kind)


def is_sound_fip(heard: Heard) -> bool:
    """A message of FIP without a fault: version, operation, list, and each descriptor of the operation as often as it may stand there."""
    data, at = heard.data, heard.at
    form = FORMS.get(heard.operation) if heard.operation else None
    if form is None or data[at] >> 4 != 1:
        return False
    end = at + HEAD + 4 * number(data[at + 6 : at + 8])
    if end > len(data) or at + HEAD + sum(4 * it.data[1] for it in heard.descriptors) != end:
        return False
    known = [it for it in heard.descriptors if it.kind < SKIPPED]
    if not all(is_sized(it.kind, len(it.data)) for it in known):
        return False
    kinds = [it.kind for it in known]
    is_double = any(kinds.count(it) > 1 for it in form.single) or sum(it in ONE_LOGIN & form.single for it in kinds) > 1
    return not is_double and all(any(it in some for it in kinds) for some in form.needed)


def is_sound_fc(size: int) -> bool:
    """The length of an FC frame without SOF, CRC and EOF."""
    return FC_HEAD <= size <= FC_HEAD + MOST_PAYLOAD and size % 4 == 0


def is_sound_fcoe(heard: Heard) -> bool:
    """An FCoE body without a fault: length, version, delimiters and check sequence."""
    data, at, fc = heard.data, heard.at, heard.fc
    if fc is None or not is_sound_fc(len(data) - at - FCOE_AROUND) or data[at] >> 4:
        return False
    start, end = (DELIMITERS.get(data[it], "") for it in (at + 13, heard.eof_at))
    return start.startswith("SOF") and end.startswith("EOF") and data[fc.end : fc.end + 4] == fc_check(data[fc.at : fc.end])
