"""What the switch of the captures answered, beside what the forwarder answered to the same frames."""
import math
import re
from bisect import bisect_right
from collections import Counter
from dataclasses import dataclass, field
from typing import Iterator, Optional

from ..errors import counted as plural
from ..frames.fields import FABRIC_PORT, Fields, fields_of
from ..frames.heard import ADVERTISE, ALL_ENODES, CLEAR, Heard, colons, fcid, login_names, number
from .configs import Config, is_advertisement
from .fabric import ANSWERED, Sent, Walk
from .forwards import Marked, data_ends, data_entries, sent_on
from .inputs import Port
from .journals import Frame, counted
from .pairs import SERVICES, asks, replies_of
from .program import Run
from .windows import at_its_end, ends_of, is_otherwise, otherwise

Pair = tuple[int, int]  # addresses of two N_Ports
PROFILE = "this project's profile (docs/inside/DECISIONS.md)"
# fields in which a right switch may differ, and why
CHOICES = {
    "priority (802.1Q)": f"IEEE 802.1Q leaves it to the sender; {PROFILE} writes 3",
    "F_CTL": "FC-FS-3 leaves sequence initiative and the like to the responder; the profile writes 980000 on a last frame",
    "SEQ_ID": "FC-FS-3: the sender chooses it",
    "RX_ID": "FC-FS-3: the responder chooses it, FFFF says none",
    "CS_CTL": "FC-FS-3: a priority that the sender chooses",
    "Parameter": "FC-FS-3: has no meaning here",
    "B-B credit": "not used on a virtual link (FC-BB-5)",
    "features": f"FC-LS-2: what the responder supports; {PROFILE} offers NPIV, and nothing else",
    "versions": "FC-LS-2: any that both ports support",
    "R_A_TOV": f"FC-LS-2: the fabric's time-out, which hosts take over; {PROFILE} says 10,000 ms",
    "E_D_TOV": f"FC-LS-2: the fabric's time-out, which hosts take over; {PROFILE} says 2,000 ms",
    "concurrent sequences": "FC-LS-2: how many the port takes at once",
    "relative offset": "FC-LS-2: of which kinds of payload the port takes it",
    "receive size": "FC-LS-2: what the port takes, at least 256",
    "WWPN": f"the name of the fabric's port; {PROFILE} makes it of the switch name",
    "WWNN": "the switch name: `switch` in the configuration",
    "fabric port name": "the name of the fabric's port",
    "class 1": "classes that the fabric offers; the profile offers class 3 alone",
    "class 2": "classes that the fabric offers; the profile offers class 3 alone",
    "class 3": "FC-LS-2: further parameters of class 3 are the fabric's choice; that it is offered is not",
    "auxiliary class": "FC-LS-2: optional",
    "vendor": "FC-LS-2: the vendor's",
    "reason": f"FC-LS-2 and FC-GS-6 let several codes stand for one refusal; {PROFILE}: docs/JOURNAL.md, Codes of rejects",
    "explanation": f"FC-LS-2 and FC-GS-6 let several codes stand for one refusal; {PROFILE}: docs/JOURNAL.md, Codes of rejects",
    "CT revision": "FC-GS-6: 01 to 03 stand for editions",
    "CT size": "FC-GS-6: how much is left, optional",
    "order of N_Ports": f"FC-GS-6 has no order; {PROFILE} lists them by address",
    "class of service": "FC-GS-6: as the login had it",
    "FKA period": "the administrator's: `period` in the configuration",
    "FKA D bit": "FC-BB-5: whether the switch wants keep alives is its choice",
    "FIP priority": "the administrator's: `priority` in the configuration",
    "VF_ID": "virtual fabrics aren't in the profile, which writes 0",
    "fabric name": f"the fabric's name; {PROFILE} takes the switch name",
}
FLAGS_OFFERED = "FC-BB-5 has FP and SP by what the fabric offers, and F of use in discovery alone; the profile offers FP"
PADDED = 2140  # bytes of the least advertisement that shows what a padded one is to show
TOLD = "the reason may be at a port that wasn't captured; and FC-LS-2 lets a switch tell more of its ports"
# differences that the profile makes in the list of descriptors
NO_MAC = f"{PROFILE}: rejects and the accept of a LOGO have no MAC descriptor"


@dataclass
class Difference:
    """A field that differs; `note` says why that may be, and is empty where it must not be. Where the captures or the run don't tell
    enough to say which is right, `is_open`."""

    field: str
    switch: str
    forwarder: str
    note: str = ""
    is_open: bool = False


@dataclass
class Compared:
    """A request of a host with both answers."""

    port: int
    frame: int
    index: int
    clock: int
    request: str
    switch: str
    forwarder: str
    differences: list[Difference] = field(default_factory=list)
    follows: Optional["Compared"] = None  # the difference that this one comes of

    @property
    def state(self) -> str:
        """equal, choice, open, follows or different."""
        if not self.differences:
            return "equal"
        if self.follows is not None:
            return "follows"
        if not all(it.note for it in self.differences):
            return "different"
        return "open" if any(it.is_open for it in self.differences) else "choice"


@dataclass
class Comparison:
    """All that was compared."""

    answers: list[Compared] = field(default_factory=list)
    forwarded: Counter[str] = field(default_factory=Counter)
    forwards: list[Compared] = field(default_factory=list)
    notices: list[Compared] = field(default_factory=list)
    advertisements: list[Compared] = field(default_factory=list)
    others: Counter[str] = field(default_factory=Counter)  # frames of the switch that fit no request
    elsewhere: Counter[str] = field(default_factory=Counter)  # and those of further switches, or in further VLANs
    went: Optional[Marked] = None  # the data frames that the switch sent on

    def all(self) -> list[Compared]:
        return [*self.answers, *self.forwards, *self.notices, *self.advertisements]


def unknown_bits(features: str) -> str:
    """The bits of a features word that have no name."""
    found = re.search(r"\b[0-9a-f]{4}$", features)
    return found[0] if found else ""


def note_of(name: str, kind: str, switch: str, forwarder: str) -> str:
    if name == "class 3" and (switch[:1] in "01234567") != (forwarder[:1] in "01234567"):
        return ""
    is_list = name == "VLAN" and set(forwarder.split(", ")) <= set(switch.split(", "))
    if kind.startswith("VLAN") and (is_list or name == "descriptors" and switch.startswith(forwarder) and set(switch[len(forwarder) :].split(", ")) <= {"", "VLAN"}):
        return "FC-BB-5: a switch names each VLAN in which it has a fabric for this host"
    if name in ("VLAN tag", "priority (802.1Q)") and kind.startswith("VLAN"):
        return "IEEE 802.1Q: VLAN 0 is a priority without a VLAN"
    if name == "features" and ((FABRIC_PORT in switch) != (FABRIC_PORT in forwarder) or unknown_bits(switch) != unknown_bits(forwarder)):
        return ""
    if name == "FIP flags":
        apart = set(switch.split()) ^ set(forwarder.split()) - {"none"}
        return FLAGS_OFFERED if apart <= ({"FP", "SP"} if kind.startswith("Advertisement") else {"FP", "SP", "F"}) else ""
    if name == "bytes with padding" and min(int(switch), int(forwarder)) >= PADDED:
        return "FC-BB-5: padded to the host's Max_FCoE_Size, counted with the Ethernet head or without it"
    if name in ("descriptors", "FIP MAC") and ("reject" in kind or kind.startswith("LOGO")):
        return NO_MAC
    return CHOICES.get(name, "")


def differing(switch: Fields, forwarder: Fields, kind: str) -> list[Difference]:
    """The fields in which two frames differ."""
    found = []
    for name in [*switch, *(it for it in forwarder if it not in switch)]:
        a, b = switch.get(name, "isn't there"), forwarder.get(name, "isn't there")
        if a != b:
            found.append(Difference(name, a, b, note_of(name, kind, a, b)))
    if any(it.field == "message" for it in found):
        return [Difference(it.field, it.switch, it.forwarder) for it in found if it.field in ("message", "reason", "explanation")]
    listed = [it for it in found if it.field == "N_Ports"]
    return [it for it in found if not (listed and it.field == "order of N_Ports")]


def parts(port: Port, at: int) -> list[Heard]:
    """The frames of a reply of the switch that begins there: the further ones count up."""
    frames = port.frames
    first = frames.heard(at)
    found = [first]
    if first.fc is None or not first.is_fcoe or first.fc.kind != 0x20 or first.fc.f_ctl & 0x100000:
        return found
    key = (first.fc.s_id, first.fc.d_id, first.fc.ox_id)
    behind = bisect_right(port.switch_messages, at)
    for heard in (frames.heard(it) for it in port.switch_messages[behind:]):
        fc = heard.fc
        if heard.is_fcoe and fc and (fc.s_id, fc.d_id, fc.ox_id) == key and fc.seq_cnt == len(found):
            found.append(heard)
            if fc.f_ctl & 0x100000:
                break
    return found


def read_reply(frames: list[Heard], asked: Optional[int]) -> Fields:
    """The fields of a reply of one frame or several."""
    first, last = frames[0], frames[-1]
    payload = b"".join(it.fc.payload for it in frames if it.fc) if len(frames) > 1 else None
    fields = fields_of(first, asked, payload)
    if len(frames) > 1 and last.fc is not None:
        fields["frames"], fields["F_CTL"], fields["EOF"] = str(len(frames)), f"{last.fc.f_ctl:06x}", "of the last"
        for name in ("check sequence", "SOF"):
            fields.pop(name, None)
    if first.operation == ADVERTISE:
        fields["bytes with padding"] = str(len(first.data) - first.at)
    return fields


def both_answers(port: Port, at: int, reply: Optional[int], sent: list[Sent], entry: Frame) -> Compared:
    """A request's two answers."""
    frames = port.frames
    heard = frames.heard(at)
    asked = heard.fc.command if heard.is_fcoe and heard.fc else None
    real = parts(port, reply) if reply is not None else []
    ours = [it.heard for it in sent]
    answer = Compared(port.number, frames.number(at), entry.index, frames.milliseconds(at), heard.kind, real[0].kind if real else "no answer", ours[0].kind if ours else f"no answer ({entry.verdict})")
    if real and ours:
        answer.differences = differing(read_reply(real, asked), read_reply(ours, asked), answer.switch)
    elif real or ours:
        answer.differences = [Difference("answer", answer.switch, answer.forwarder)]
    return answer


def explain(answer: Compared, cause: tuple[str, bool]) -> None:
    """Says of each difference that isn't a choice of its own why it may be, and whether that leaves it open."""
    for it in answer.differences:
        if not it.note:
            it.note, it.is_open = cause


def cause_of(run: Run, walk: Walk, place: int) -> tuple[str, bool]:
    """Why the forwarder's answer to a frame may differ from that of a right switch: the profile, the window, or logins that weren't captured."""
    entry = run.entries[place]
    if not isinstance(entry, Frame):
        return "", False
    heard = run.ports[entry.port - 1].like(entry.index)
    ends = {role: address for role, address in ends_of(heard) if address < 0xFF0000}
    lost = {"dropped source-login": "source", "dropped dest-login": "destination", "refused 09 01": "asked for"}.get(entry.verdict)
    if lost in ends and not walk.fabric.of_address(ends[lost]):
        return f"{fcid(ends[lost])} wasn't seen to log in: before the capture began, or on a port that wasn't captured", True
    if is_otherwise(run, walk, entry, place):
        return f"by the window: {otherwise(run.config.window)} decides otherwise", True
    ended = at_its_end(walk, entry, heard, place)
    if ended:
        return ended, True
    return profile_note(entry, heard), False


def profile_note(entry: Frame, heard: Heard) -> str:
    """What a switch may offer that isn't in the profile."""
    if entry.verdict in ("dropped fcoe-class", "rejected 0b 00") and (heard.is_fcoe or heard.kind in ("FLOGI", "FDISC")):
        return f"{PROFILE}: class 3 alone, and no further link services"
    if entry.verdict == "dropped service-address":
        return f"{PROFILE}: the services at FFFFFC and FFFFFD alone answer"
    if heard.is_fcoe and entry.verdict in ("rejected 0b 2c", "refused 0b 00"):
        return f"{PROFILE}: further link services and name server commands aren't supported"
    return ""


def message_entries(run: Run) -> Iterator[tuple[int, Frame]]:
    """The entries of FIP, link services and CT, with their places."""
    told = [set(port.host_messages) for port in run.ports]
    entries = run.entries
    for place, (port, index) in enumerate(zip(entries.ports, entries.indexes)):
        if port and run.ports[port - 1].hosts[index] in told[port - 1]:
            yield place, entries.frame(place)


def note_strangers(walk: Walk, answer: Compared) -> None:
    """N_Ports that only the switch lists, and that nobody logged in as here, aren't in the captures: which list is right can't be told."""
    for it in answer.differences:
        here, there = set(it.forwarder.split(", ")) - {""}, set(it.switch.split(", "))
        more = sorted(there - here)
        if it.field == "N_Ports" and here <= there and not any(walk.fabric.of_address(int(one[:6], 16)) for one in more):
            it.note, it.is_open = f"{more[0]} wasn't captured{'' if len(more) == 1 else f', nor {len(more) - 1} more'}", True


@dataclass
class Registration:
    """A registration of FC-4 types, from its request to the switch's answer."""

    address: int
    asked: int
    answered: float


def registrations(run: Run, pairs: dict[int, dict[int, int]]) -> list[Registration]:
    """What N_Ports registered, as the captures have it."""
    found = []
    for port in run.ports:
        moments = port.frames.moments
        for at in port.host_messages:
            heard, reply = port.frames.heard(at), pairs[port.number].get(at)
            if heard.kind == "RFT_ID" and heard.fc is not None:
                found.append(Registration(heard.fc.s_id, moments[at], moments[reply] if reply is not None else math.inf))
    return found


def note_pending(known: list[Registration], answer: Compared, asked: int, answered: int) -> None:
    """N_Ports that the switch doesn't list yet, as it takes their registrations in these very moments: both lists are right."""
    pending = {fcid(own.address) for own in known if own.asked < answered and own.answered > asked}
    for it in answer.differences:
        here, there = (set(some.split(", ")) - {"", "none"} for some in (it.forwarder, it.switch))
        late = {one for one in here - there if one[:6] in pending}
        if it.field == "N_Ports" and there < here and late == here - there:
            it.note, it.is_open = f"the switch answered the registration of {min(late)} while it answered this", True


def compare_answers(run: Run, walk: Walk, found: Comparison) -> Marked:
    """Each request to the switch; gives the places of the switch's frames that are replies."""
    pairs = {port.number: replies_of(port, run.config.mac) for port in run.ports}
    used, known = Marked(run.ports), registrations(run, pairs)
    for place, entry in message_entries(run):
        port = run.ports[entry.port - 1]
        at = port.hosts[entry.index]
        if not port.replies or asks(port.frames.heard(at)) is None:
            continue
        reply = pairs[entry.port].get(at)
        sent = [it for it in walk.sent[place] if it.port == entry.port and it.heard.kind != "RSCN"] if entry.word in ANSWERED else []
        if reply is not None:
            used.add(entry.port, reply)
        answer = both_answers(port, at, reply, sent, entry)
        if not port.frames.is_whole(at) or reply is not None and not port.frames.is_whole(reply):
            explain(answer, ("the capture cut the frame (snap length)", True))
        if answer.differences:
            note_strangers(walk, answer)
            if reply is not None:
                note_pending(known, answer, port.frames.moments[at], port.frames.moments[reply])
            explain(answer, cause_of(run, walk, place))
        found.answers.append(answer)
    return used


def forwarding(port: Port, at: int, was_sent: bool, entry: Frame) -> Compared:
    """A data frame that one of the two sent on."""
    frames, words = port.frames, ("sent on" if was_sent else "not sent on", entry.verdict)
    return Compared(entry.port, frames.number(at), entry.index, frames.milliseconds(at), frames.like(at).kind, *words, [Difference("forwarding", *words)])


@dataclass
class Forwarded:
    """A data frame that one of the two sent on: the difference, its entry and its pair of addresses."""

    answer: Compared
    place: int
    entry: Frame
    pair: Optional[Pair]


def forwards(run: Run, found: Comparison, went: Marked) -> tuple[list[Forwarded], set[Optional[Pair]]]:
    """The data frames that only one of the two sent on, and the pairs of which the switch sent on some."""
    can_show = {port.number for port in run.ports if port.replies}
    targets = [int(it.split(" ")[1]) if it.startswith("forwarded ") else None for it in run.entries.verdicts]
    apart, seen = list[Forwarded](), set[Optional[Pair]]()
    for place, port, at in data_entries(run):
        was_sent, target = went.has(port.number, at), targets[run.entries.said[place]]
        pair = pair_of(port, at)
        if was_sent:
            seen.add(pair)
        if target is not None and not was_sent and target not in can_show:
            found.forwarded["can't be told: no frames of the switch in that port's capture"] += 1
        elif was_sent == (target is not None):
            found.forwarded["sent on by both" if was_sent else "sent on by none of the two"] += 1
        else:
            entry = run.entries.frame(place)
            found.forwarded["sent on by the switch alone" if was_sent else "sent on by the forwarder alone"] += 1
            apart.append(Forwarded(forwarding(port, at, was_sent, entry), place, entry, pair))
    return apart, seen


def compare_forwards(run: Run, walk: Walk, found: Comparison, used: Marked) -> None:
    """Each data frame: whether the switch sent it on, where the capture can show that."""
    found.went = sent_on(run, used)
    apart, seen = forwards(run, found, found.went)
    for it in apart:
        explain(it.answer, cause_of(run, walk, it.place))
        explain(it.answer, (zone_note(run.config, it.entry, it.pair in seen), True))
        found.forwards.append(it.answer)


def pair_of(port: Port, at: int) -> Optional[Pair]:
    """The two addresses of a data frame, whichever sent it."""
    ends = data_ends(port.frames.flows[port.frames.flow_of[at]].heard)
    return (min(ends[1:3]), max(ends[1:3])) if ends is not None else None


def zone_note(config: Config, entry: Frame, is_joined: bool) -> str:
    """A frame that our zones let pass may have met others on the switch, unless it sent on others of the pair."""
    if entry.word != "forwarded":
        return ""
    if is_joined:
        return "other frames of this pair went on, so it isn't zones: a login may have ended on the switch before, or the capture lost the frame"
    return "the switch may have other zones: --zone or --config names them" if len(config.zones) == 1 else ""


def affected(heard: Heard) -> list[int]:
    payload = heard.fc.payload if heard.fc else b""
    return [number(payload[at + 1 : at + 4]) for at in range(4, len(payload) - 3, 4)]


Told = tuple[int, int, int]  # port, who is told, of which address


def notice(told: Told) -> str:
    return f"RSCN to {fcid(told[1])} of {fcid(told[2])}"


def told_by_switch(run: Run, used: Marked) -> dict[Told, list[tuple[int, int]]]:
    """The state changes of the switch: moment and frame number."""
    told: dict[Told, list[tuple[int, int]]] = {}
    for port in run.ports:
        for at in port.switch_messages:
            heard = port.frames.heard(at)
            if heard.kind == "RSCN" and heard.fc:
                used.add(port.number, at)
                for address in affected(heard):
                    told.setdefault((port.number, heard.fc.d_id, address), []).append((port.frames.milliseconds(at), port.frames.number(at)))
    return told


def nearest(moments: list[tuple[int, int]], clock: int, within: int = 10_000) -> Optional[int]:
    """The place of the moment that is nearest to a clock."""
    best = min(range(len(moments)), key=lambda it: abs(moments[it][0] - clock), default=None)
    return best if best is not None and abs(moments[best][0] - clock) <= within else None


def compare_notices(run: Run, walk: Walk, found: Comparison, used: Marked) -> None:
    """State changes: those that are missing, and those that are too many."""
    told = told_by_switch(run, used)
    for sent in [it for it in walk.sent.own() if it.heard.kind == "RSCN" and it.heard.fc]:
        port, fc = run.ports[sent.port - 1], sent.heard.fc
        if fc is None or not port.replies:
            continue
        key = (sent.port, fc.d_id, affected(sent.heard)[0])
        place = nearest(told.get(key, []), sent.milliseconds)
        answer = Compared(sent.port, 0, -1, sent.milliseconds, notice(key), "sent", "sent")
        if place is None:
            answer.switch, answer.differences = "missing", [Difference("RSCN", "missing", "sent")]
        else:
            answer.frame = told[key].pop(place)[1]
        found.notices.append(answer)
    for key, rest in told.items():
        apart = Difference("RSCN", "too many", "none", TOLD, True)
        found.notices += [Compared(key[0], frame, -1, moment, notice(key), "sent", "none", [apart]) for moment, frame in rest]


def cleared(port: Port, at: int, left: list[Sent]) -> Compared:
    """A clear link message of the switch, beside the forwarder's to the same ENode, which is taken from what is left."""
    heard, number_, clock = port.frames.heard(at), port.frames.number(at), port.frames.milliseconds(at)
    what = f"Clear links to {colons(heard.destination)}"
    same = next((it for it in left if it.heard.destination == heard.destination), None)
    if same is None:
        return Compared(port.number, number_, -1, clock, what, "sent", "none", [Difference("Clear links", "sent", "none")])
    left.remove(same)
    apart = differing(read_reply([heard], None), read_reply([same.heard], None), what)
    return Compared(port.number, number_, -1, clock, what, "sent", "sent", apart)


def compare_clears(run: Run, walk: Walk, found: Comparison, used: Marked) -> None:
    """Clear virtual links, by ENode."""
    ours = [it for it in walk.sent.own() if it.heard.operation == CLEAR]
    for port in run.ports:
        real = [at for at in port.switch_messages if port.frames.heard(at).operation == CLEAR]
        for at in real:
            used.add(port.number, at)
        left = [it for it in ours if it.port == port.number]
        found.notices += [cleared(port, at, left) for at in real]
        for it in left if port.replies else []:
            what = f"Clear links to {colons(it.heard.destination)}"
            found.notices.append(Compared(port.number, 0, -1, it.milliseconds, what, "missing", "sent", [Difference("Clear links", "missing", "sent")]))


def is_phantom(it: Compared) -> bool:
    """A login that the switch rejected, and this forwarder granted."""
    return it.request in ("FLOGI", "FDISC") and it.switch.endswith(" reject") and it.forwarder.endswith(" accept")


def mark_followers(run: Run, walk: Walk, found: Comparison) -> None:
    """RSCNs and clear link messages that tell of a login which the switch rejected follow from that, and so do rejects of a name that it holds here."""
    causes = {(it.port, it.index): it for it in found.answers if is_phantom(it)}
    outside = {(it.port, run.ports[it.port - 1].host(it.index).source) for it in found.answers if it.request == "FLOGI" and it.forwarder == "FLOGI reject" and it.state == "choice"}
    for it in found.answers if outside else ():
        if it.request == "FDISC" and (it.port, run.ports[it.port - 1].host(it.index).source) in outside:
            explain(it, (f"{PROFILE}: the FLOGI of its ENode is rejected here", False))
    for it in found.answers if causes else ():
        if it.request in ("FLOGI", "FDISC") and it.forwarder.endswith(" reject") and it.state == "different":
            names = login_names(run.ports[it.port - 1].host(it.index))
            it.follows = next((causes[login.granted_frame] for login in walk.fabric.logins if names and login.name == names[0] and login.granted_frame in causes), None)
    for login in walk.fabric.logins if causes else ():
        cause = causes.get(login.granted_frame)
        about = (fcid(login.address),) if login.is_fdisc else (fcid(login.address), colons(login.enode))
        for it in found.notices if cause else ():
            if it.switch == "missing" and it.request.endswith(about) and login.since <= it.clock <= (login.until or it.clock):
                it.follows = cause


def compare_advertisements(run: Run, walk: Walk, found: Comparison, used: Marked) -> None:
    """Advertisements to all ENodes: each spelling of the switch once, beside the forwarder's."""
    ours = next((it.heard for it in walk.sent.own() if is_advertisement(it.heard) and it.heard.destination == ALL_ENODES), None)
    for port in run.ports:
        seen: set[bytes] = set()
        for at in port.switch_messages:
            heard = port.frames.heard(at)
            if not is_advertisement(heard) or heard.destination != ALL_ENODES:
                continue
            used.add(port.number, at)
            if heard.data in seen or heard.source != run.config.mac or heard.vlan not in (0, run.config.vlan):
                continue
            seen.add(heard.data)
            answer = Compared(port.number, port.frames.number(at), -1, port.frames.milliseconds(at), "Advertisement to all", "sent", "sent" if ours else "none yet (no period passed)")
            answer.differences = differing(read_reply([heard], None), read_reply([ours], None), "Advertisement") if ours else []
            if not port.frames.is_whole(at):
                explain(answer, ("the capture cut the frame (snap length)", True))
            found.advertisements.append(answer)


def compare(run: Run, walk: Walk) -> Optional[Comparison]:
    """The comparison, where the captures hold frames of the switch."""
    if not any(port.replies for port in run.ports):
        return None
    found = Comparison()
    used = compare_answers(run, walk, found)
    compare_forwards(run, walk, found, used)
    compare_notices(run, walk, found, used)
    compare_clears(run, walk, found, used)
    mark_followers(run, walk, found)
    compare_advertisements(run, walk, found, used)
    for port in run.ports:
        for at in port.replies:
            if not used.has(port.number, at):
                heard = port.frames.like(at)
                fc = heard.fc
                if heard.is_fabric and not (fc and heard.is_fcoe and (fc.s_id not in SERVICES or fc.seq_cnt)):  # exchanges between N_Ports have a table of their own
                    is_own = heard.source == run.config.mac and heard.vlan in (0, run.config.vlan)
                    (found.others if is_own else found.elsewhere)[heard.kind] += 1
    return found


# the states in words, from good to bad
STATES = {"equal": "equal", "choice": "differ where a choice is left open", "open": "can't be told from these captures", "follows": "follow from a difference", "different": "differ"}


def totals(found: Comparison) -> Counter[str]:
    return Counter(it.state for it in found.all())


def states_in(sums: Counter[str]) -> dict[str, str]:
    """The states that are shown: that something follows only where it does."""
    return {state: words for state, words in STATES.items() if state != "follows" or sums[state]}


def followers_text(some: list[Compared]) -> str:
    """What follows from differences, in one line."""
    kinds = Counter("RSCN" if it.request.startswith("RSCN") else "clear link message" if it.index < 0 else f"reject of a {it.request}" for it in some)
    told = " and ".join(plural(count, kind) for kind, count in kinds.items())
    return f"{told} {'follows' if len(some) == 1 else 'follow'} from it"


def by_kind(found: Comparison) -> dict[str, Counter[str]]:
    """How many of each state for each kind of request."""
    kinds: dict[str, Counter[str]] = {}
    for it in found.all():
        kinds.setdefault(it.request.split(" to ")[0], Counter())[it.state] += 1
    return kinds


__all__ = ["STATES", "Compared", "Comparison", "Difference", "by_kind", "compare", "counted", "followers_text", "states_in", "totals"]
