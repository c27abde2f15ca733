"""The order of the frames of both directions of a link: what two clocks, or times that are told roughly, did to it is undone."""
from array import array
from bisect import bisect
from dataclasses import dataclass
from itertools import accumulate
from typing import Hashable, Iterator, Optional

from .columns import MILLISECOND, Frames
from .heard import LOGIN_REPLY, Fc, Heard, granted_in

RESPONDER = 0x800000  # F_CTL
MANY_BACK = 0.2  # the share of answers before their requests from which on it's the clocks' doing
FEW = 3  # and how many they are at least, where they are a smaller share
LOOKED_AT = 20_000  # frames of which data are compared with what asked for them
QUESTIONS = (0x22, 0x23, 0x02, 0x03)  # R_CTL of link services and CT, and of their replies
DATA, READY, COMMAND, RESPONSE = 0x01, 0x05, 0x06, 0x07  # R_CTL of FCP
LOGIN_SIZE = 116  # bytes of a PLOGI's accept
SERVICES = 0xFFFFF0  # addresses from which on they are well-known
STEP = 1000  # nanoseconds that a reply is behind its request, once the lag is taken out
NEAR = 20 * MILLISECOND  # and by which it stands before it at most, where few do
WITHIN = 2000 * MILLISECOND  # in which a reply counts as that of a request


@dataclass(frozen=True)
class Pair:
    """A frame that another one of the other direction brought about: it's later than that."""

    cause: int
    effect: int
    by_switch: bool  # the cause is the switch's
    is_reply: bool = False  # nobody answers what he wasn't asked
    is_grant: bool = False  # nobody knows an address before it's granted


def question_key(heard: Heard) -> Optional[tuple[Hashable, bool]]:
    """What a request and its reply have in common, and whether this is the reply."""
    fc = heard.fc
    if fc is None:
        return None
    if heard.is_fip:
        is_reply = heard.operation == LOGIN_REPLY
        return ("fip", heard.destination if is_reply else heard.source, heard.login_kind, fc.ox_id), is_reply
    if not heard.is_fcoe or fc.r_ctl not in QUESTIONS:
        return None
    is_reply = bool(fc.f_ctl & RESPONDER)
    ends = (fc.d_id, fc.s_id) if is_reply else (fc.s_id, fc.d_id)
    return (*ends, fc.ox_id, fc.kind), is_reply


def questions(frames: Frames, switches: set[bytes]) -> Iterator[Pair]:
    """Requests of logins, link services and CT with their replies, where each has one."""
    asked, replied = dict[Hashable, list[int]](), dict[Hashable, list[int]]()
    for at in frames.messages():
        found = question_key(frames.heard(at))
        if found:
            (replied if found[1] else asked).setdefault(found[0], []).append(at)
    for key, places in asked.items():
        others = replied.get(key, [])
        if len(others) == len(places):
            yield from (Pair(one, two, frames.heard(one).source in switches, True) for one, two in zip(places, others))


def transfers(frames: Frames, switches: set[bytes], most: int) -> Iterator[Pair]:
    """FCP: responses to commands, and data that a target asked for; of the first frames alone, where they tell as much."""
    found: dict[tuple[int, int, int, bool], tuple[list[int], list[int]]] = {}
    for at, flow in enumerate(frames.flow_of[:most]):
        fc = frames.flows[flow].heard.fc if frames.flows[flow].heard.is_fcoe else None
        if fc is None or fc.kind != 0x08 or fc.r_ctl & 0x0F not in (DATA, READY, COMMAND, RESPONSE):
            continue
        head = Fc(frames.bytes_at(at, 0, fc.payload_at), fc.at, fc.payload_at)
        kind, is_back = fc.r_ctl & 0x0F, bool(head.f_ctl & RESPONDER)
        if kind == DATA and (is_back or head.seq_cnt):
            continue
        ends = (head.d_id, head.s_id) if is_back else (head.s_id, head.d_id)
        pair = found.setdefault((*ends, head.ox_id, kind in (COMMAND, RESPONSE)), ([], []))
        pair[kind in (RESPONSE, DATA)].append(at)
    for (*_, is_reply), (causes, effects) in found.items():
        if len(causes) == len(effects):
            yield from (Pair(one, two, frames.flows[frames.flow_of[one]].heard.source in switches, bool(is_reply)) for one, two in zip(causes, effects))


def firsts(frames: Frames) -> Iterator[Pair]:
    """What a host does once it was let in: its first frame as an N_Port behind the accept of its FLOGI or FDISC, and of a PRLI or CT behind that of a PLOGI."""
    granted, used = dict[Hashable, int](), dict[Hashable, int]()
    for at in frames.messages():
        heard, fc = frames.heard(at), frames.heard(at).fc
        if fc is None:
            continue
        if heard.is_fip:
            if granted_in(heard) is not None:
                granted.setdefault(fc.d_id, at)
            continue
        used.setdefault(fc.s_id, at)
        if heard.kind == "LS_ACC" and len(fc.payload) >= LOGIN_SIZE:
            granted.setdefault((fc.d_id, fc.s_id), at)
        elif fc.r_ctl in (0x22, 0x02) and heard.kind != "PLOGI":
            used.setdefault((fc.s_id, fc.d_id), at)
    yield from (Pair(at, used[key], True, is_grant=isinstance(key, int)) for key, at in granted.items() if key in used)


def wanted_by(heard: Heard) -> Optional[Hashable]:
    """What a frame can't go out without: the grant of its address, or the login that CT and PRLI want."""
    fc = heard.fc
    if fc is None or not heard.is_fcoe:
        return None
    is_query = fc.r_ctl == 0x02 and fc.d_id >= SERVICES
    return (fc.s_id, fc.d_id) if is_query or heard.kind == "PRLI" and fc.r_ctl == 0x22 else fc.s_id if heard.kind == "PLOGI" else None


def given_by(heard: Heard) -> Optional[Hashable]:
    """What an accept grants."""
    fc = heard.fc
    if fc is None or granted_in(heard) is not None:
        return fc.d_id if fc else None
    return (fc.d_id, fc.s_id) if heard.kind == "LS_ACC" and len(fc.payload) >= LOGIN_SIZE else None


def entries(frames: Frames, asked: list[Pair]) -> Iterator[Pair]:
    """The same behind each login: what a host sends next behind its request, in the order of its own frames, comes behind the accept."""
    used: dict[Hashable, list[tuple[int, int]]] = {}
    for at in frames.messages():
        wants = wanted_by(frames.heard(at))
        if wants is not None:
            used.setdefault(wants, []).append((frames.moments[at], at))
    for it in asked:
        gives = given_by(frames.heard(it.effect))
        some = used.get(gives, []) if gives is not None else []
        place = bisect(some, (frames.moments[it.cause], it.cause))
        if place < len(some):
            yield Pair(it.effect, some[place][1], not it.by_switch, is_grant=isinstance(gives, int))


def across(frames: Frames, switches: set[bytes], most: int = LOOKED_AT) -> list[Pair]:
    """The pairs of both directions, no further apart than a reply is."""
    own = [it.heard.source in switches for it in frames.flows]
    moments, flows = frames.moments, frames.flow_of
    asked = list(questions(frames, switches))
    every = [*asked, *transfers(frames, switches, most), *dict.fromkeys((*firsts(frames), *entries(frames, asked)))]
    return [it for it in every if own[flows[it.cause]] != own[flows[it.effect]] and abs(moments[it.effect] - moments[it.cause]) < WITHIN]


def lag_of(frames: Frames, pairs: list[Pair]) -> Optional[int]:
    """Nanoseconds by which the switch's frames stand too early (below 0 the hosts' do); none where no lag explains all."""
    took = [(it.by_switch, frames.moments[it.effect] - frames.moments[it.cause]) for it in pairs]
    least = max((STEP - it for is_theirs, it in took if not is_theirs), default=-WITHIN)  # the switch's frames are put back by so much at least
    most = min((it - STEP for is_theirs, it in took if is_theirs), default=WITHIN)  # and at most
    if least <= STEP and most >= -STEP:
        return 0
    return None if least > most else least if least > 0 else most


def shifted(frames: Frames, switches: set[bytes], lag: int) -> Frames:
    """The frames with those of one direction later by the lag, in the order of time again."""
    late = [(it.heard.source in switches) == (lag > 0) for it in frames.flows]
    moments = array("q", (moment + abs(lag) * late[flow] for moment, flow in zip(frames.moments, frames.flow_of)))
    order = sorted(range(len(moments)), key=moments.__getitem__)
    made = frames.part(order)
    made.moments = array("q", (moments[at] for at in order))
    return made


def by_causes(frames: Frames, switches: set[bytes], pairs: list[Pair]) -> tuple[Frames, bool]:
    """The frames of both directions, each in its order, so that nothing is before what brought it about; and whether that could be done."""
    own = [it.heard.source in switches for it in frames.flows]
    sides: list[list[int]] = [[], []]
    for at in sorted(range(len(frames)), key=frames.moments.__getitem__):
        sides[own[frames.flow_of[at]]].append(at)
    cause = {it.effect: it.cause for it in pairs}
    done, order, heads, is_sound = set[int](), list[int](), [0, 0], True
    while len(order) < len(frames):
        fronts = sorted((sides[it][heads[it]] for it in (0, 1) if heads[it] < len(sides[it])), key=frames.moments.__getitem__)
        free = next((at for at in fronts if cause.get(at, at) == at or cause[at] in done), None)
        is_sound = is_sound and free is not None
        taken = fronts[0] if free is None else free
        heads[own[frames.flow_of[taken]]] += 1
        done.add(taken)
        order.append(taken)
    made = frames.part(order)
    made.moments = array("q", accumulate(made.moments, max))
    return made, is_sound


def is_often_back(frames: Frames, pairs: list[Pair]) -> bool:
    """Of one direction's causes."""
    back = sum(frames.moments[it.effect] < frames.moments[it.cause] for it in pairs)
    return back >= MANY_BACK * len(pairs) > 0


@dataclass(frozen=True)
class Ordered:
    """The frames in their order, what was done in words, and whether the order is a guess."""

    frames: Frames
    line: str = ""
    is_guessed: bool = False


def in_order(frames: Frames, switches: set[bytes]) -> Ordered:
    """The frames with each answer behind its request. A few effects that stand before their causes are no matter of clocks, but where nobody can do so."""
    pairs = across(frames, switches) if switches else []
    back = [it for it in pairs if frames.moments[it.effect] < frames.moments[it.cause]]
    are_few = len(back) < FEW and len(back) < MANY_BACK * len(pairs)
    if not back or are_few and not any(it.is_reply or it.is_grant for it in back):
        return Ordered(frames)
    said = f"answers stand before their requests ({len(back)} of {len(pairs)})"
    lag = lag_of(frames, pairs)
    if lag:
        whose = "the switch's" if lag > 0 else "the hosts'"
        return Ordered(shifted(frames, switches, lag), f"{said}: {whose} frames are {abs(lag) / MILLISECOND:.3f} ms too early, which is taken out")
    return by_force(frames, switches, pairs, said)


def by_force(frames: Frames, switches: set[bytes], pairs: list[Pair], said: str) -> Ordered:
    """The order where no lag explains all: by replies where some stand before their requests, or by all causes where effects often do; else as it is."""
    replies = sum(it.is_reply and -NEAR < frames.moments[it.effect] - frames.moments[it.cause] < 0 for it in pairs)
    is_often = any(is_often_back(frames, [it for it in pairs if it.by_switch == side]) for side in (False, True))
    if not replies and not is_often:
        return Ordered(frames)
    every, is_guess = across(frames, switches, len(frames)), is_often or replies >= FEW
    some = every if is_guess else [it for it in every if it.is_reply and frames.moments[it.effect] > frames.moments[it.cause] - NEAR]
    made, is_sound = by_causes(frames, switches, some)
    return Ordered(made, f"{said}, by no one lag: each is put behind its request{'' if is_sound else ', as far as that can be done'}", is_guess or not is_sound)
