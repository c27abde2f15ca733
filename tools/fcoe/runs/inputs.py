"""Ports from captures: interfaces taken apart, directions told apart, and the configuration found."""
import os
from array import array
from bisect import bisect_left, bisect_right
from collections import Counter
from dataclasses import dataclass, field
from itertools import accumulate, islice
from statistics import median
from typing import Iterator, Optional, Sequence

from ..errors import Refused, counted
from ..files import text_of
from ..frames.codes import in_words
from ..frames.lldp import LLDP_TYPE, OFFER, Told, told_in, without_fcoe
from ..frames.unwrap import unwrapped
from ..frames.captures import Capture, classic, read_capture, write_classic
from ..frames.columns import Frames, Listed, Record
from ..frames.heard import ADVERTISE, CLEAR, LOGIN_REPLY, TAG_TYPE, VLAN_REQUEST, VLAN_TELL, Heard, colons, hear
from ..frames.tidy import Tidy, tidied
from ..numerals import shortened, whole
from .configs import FPMA, Config, Drawn, config_in, draw, forwarders, octets
from .hosts import switches_in


@dataclass
class Port:
    """A port of the forwarder: all frames of its capture, and the places of those that hosts sent (the journal's INDEX counts these)."""

    number: int
    label: str
    file: str
    frames: Frames
    hosts: Sequence[int] = ()
    replies: Sequence[int] = ()
    host_messages: Sequence[int] = ()
    switch_messages: Sequence[int] = ()
    tidy: Tidy = field(default_factory=Tidy)
    left_out: int = 0  # frames that `look check` left out, as others are alike

    def divide(self, switches: set[bytes]) -> None:
        """Tells the switch's own frames from those of hosts, and FIP, link services and CT of both from data."""
        frames = self.frames
        own = [it.heard.source in switches for it in frames.flows]
        if any(own):
            self.hosts = array("I", (at for at, flow in enumerate(frames.flow_of) if not own[flow]))
            self.replies = array("I", (at for at, flow in enumerate(frames.flow_of) if own[flow]))
        else:
            self.hosts, self.replies = range(len(frames)), ()
        messages = frames.messages()
        self.host_messages = [at for at in messages if not own[frames.flow_of[at]]]
        self.switch_messages = [at for at in messages if own[frames.flow_of[at]]]

    @property
    def records(self) -> Listed[Record]:
        return self.frames.records

    @property
    def heard(self) -> Listed[Heard]:
        return Listed(len(self.frames), self.frames.heard)

    def host(self, index: int) -> Heard:
        """The frame that the journal calls by this index."""
        return self.frames.heard(self.hosts[index])

    def like(self, index: int) -> Heard:
        """A frame that is like that one: of data its ends and kind alone are right."""
        return self.frames.like(self.hosts[index])

    def record(self, index: int) -> Record:
        return self.frames.record(self.hosts[index])

    def moment(self, index: int) -> int:
        return self.frames.moments[self.hosts[index]]

    def frame_number(self, index: int) -> int:
        """The number that Wireshark shows of the frame that the journal calls by this index."""
        return self.frames.number(self.hosts[index])

    def index(self, at: int) -> Optional[int]:
        """What the journal calls a place of the capture; none where the frame is the switch's own."""
        index = bisect_left(self.hosts, at)
        return index if index < len(self.hosts) and self.hosts[index] == at else None


@dataclass
class Options:
    """What the user chose."""

    config: Optional[str] = None
    interface: Optional[str] = None
    switch: Optional[bytes] = None
    vlan: Optional[int] = None
    window: int = 10
    zones: list[str] = field(default_factory=list)
    is_together: bool = False


@dataclass
class Inputs:
    """What a run is over."""

    ports: list[Port]
    config: Config
    text: str
    remarks: list[str]  # what a reader must know before the answer
    switches: set[bytes]
    is_drawn: bool
    fc_map: bytes = FPMA + b"\0"  # of the captures, which --config may have otherwise
    derived: list[str] = field(default_factory=list)  # what the switch's own answers told of its zones
    details: list[str] = field(default_factory=list)  # what else was assumed
    are_zones_known: bool = False  # they were given, by words, a configuration or a switch's zoning


def remarks_on(port: Port) -> list[str]:
    """What stands out in a capture."""
    said, frames = [], port.frames
    back = [at for at, (a, b) in enumerate(zip(frames.moments, islice(frames.moments, 1, None)), 1) if b < a]
    if back:
        said.append(f"{port.label}: times go back {counted(len(back), 'time')} (first at frame {frames.number(back[0])}): a frame counts at the latest time so far; `reordercap` sorts a capture")
    short = [at for at, (size, length) in enumerate(zip(frames.sizes, frames.lengths)) if length > size]
    if short:
        who, step = ("mirror", "take the truncation (`mtu`) out of its session") if frames.is_mirror_cut else ("snap length", "capture with `-s 0`")
        said.append(f"{port.label}: {counted(len(short), 'frame')} cut by the {who} (first: frame {frames.number(short[0])}): {step}")
    return said


def of_interface(frames: Frames, place: int) -> Frames:
    """The frames of one interface."""
    if not frames.interfaces:
        return frames if place == 0 else frames.part(())
    return frames.part([at for at, it in enumerate(frames.interfaces) if it == place])


def chosen(capture: Capture, wanted: Optional[str]) -> list[tuple[str, Frames]]:
    """The frames of each interface that is taken, with a label."""
    names = capture.interfaces
    if wanted is not None:
        place = names.index(wanted) if wanted in names else whole(wanted, 0, max(len(names), 1) - 1)
        if place is None:
            raise Refused(f"{capture.name}: has no interface {shortened(wanted)}; it has {', '.join(names) or 'one without a name'} (numbers from 0)")
        return [(f"{capture.name}:{names[place] if names else place}", of_interface(capture.frames, place))]
    if len(names) < 2:
        return [(capture.name, capture.frames)]
    return [(f"{capture.name}:{name}", of_interface(capture.frames, place)) for place, name in enumerate(names)]


def is_one_way(part: Port, switches: set[bytes]) -> bool:
    """FIP and FCoE frames of switches alone."""
    told = part.frames.telling()
    return any(it.is_fabric for it in told) and all(it.source in switches or not it.is_fabric for it in told)


def divided(capture: Capture, wanted: Optional[str], remarks: list[str]) -> list[Port]:
    """The ports of a file: one for each interface, unless one holds only the switch's frames."""
    parts = [Port(0, label, capture.file, frames) for label, frames in chosen(capture, wanted)]
    if len(parts) > 1:
        known = set(forwarders([it for part in parts for it in part.frames.telling()]))
        if any(is_one_way(part, known) for part in parts):
            remarks.append(f"{capture.name}: {len(parts)} interfaces, of which one has no host's frames: all of them are one port")
            return [Port(0, capture.name, capture.file, capture.frames)]
        remarks.append(f"{capture.name}: {len(parts)} interfaces, each a port of its own (--interface NAME or NUMBER takes one)")
    return parts


def is_answered(heard: Heard) -> bool:
    """A frame that shows that a switch answers: its own, or one from a granted MAC."""
    return heard.operation in (ADVERTISE, LOGIN_REPLY, CLEAR) or heard.is_fcoe and heard.source[:2] == FPMA


def wants_tag(heard: Heard) -> bool:
    """FIP and FCoE without a tag, VLAN discovery aside."""
    return heard.is_fabric and heard.vlan == 0 and heard.operation not in (VLAN_REQUEST, VLAN_TELL)


def with_tags(frames: Frames, vlan: int) -> Iterator[Record]:
    """The frames with the tag of a VLAN put back."""
    tag = TAG_TYPE.to_bytes(2, "big") + vlan.to_bytes(2, "big")
    for it in frames.records:
        is_bare = wants_tag(hear(it.data))
        yield Record(it.moment, it.data[:12] + tag + it.data[12:], it.length + 4, it.number) if is_bare else it


def rewritten(frames: Frames, records: Iterator[Record], room: str) -> Frames:
    """The frames with other bytes, which stand in a file of the room; moments and numbers stay."""
    name = os.path.join(room, f"rewritten{len(os.listdir(room))}")
    write_classic(name, records)
    return read_anew(frames, name)


def read_anew(frames: Frames, name: str) -> Frames:
    """Frames whose bytes stand in another file."""
    made = classic(name).frames
    made.numbers, made.interfaces = frames.numbers, frames.interfaces
    return made


def check_tags(ports: list[Port], vlan: Optional[int], remarks: list[str], room: str) -> None:
    """FIP and FCoE frames without their tag are those of a VLAN interface."""
    for port in ports:
        of_fabric = [it for it in port.frames.telling() if it.is_fabric and it.operation not in (VLAN_REQUEST, VLAN_TELL)]
        if not of_fabric or not all(it.vlan == 0 for it in of_fabric):
            continue
        if vlan is None and not any(is_answered(it) for it in of_fabric):
            remarks.append(f"{port.label}: no FIP or FCoE frame has a VLAN tag, and none is answered: the host sends without one; `--vlan N`, where it was captured on the VLAN interface")
            continue
        if vlan is None:
            raise Refused(
                f"{port.label}: vlan: no FIP or FCoE frame has a VLAN tag: captured on the VLAN interface; "
                "capture on the Ethernet port below it (`ip -d link`), or look with `--vlan N`, which puts the tags back"
            )
        port.frames = rewritten(port.frames, with_tags(port.frames, vlan), room)
        remarks.append(f"{port.label}: the tag of VLAN {vlan} is put back, as --vlan says")


def together(ports: list[Port], remarks: list[str], room: str) -> list[Port]:
    """All captures as one port, in the order of time, so that the order of their frames is the captures' own."""
    moments = [it for port in ports for it in port.frames.moments]
    firsts = [0, *accumulate(len(port.frames) for port in ports)]
    name = os.path.join(room, f"together{len(os.listdir(room))}")

    def record(place: int) -> Record:
        number = bisect_right(firsts, place) - 1
        return ports[number].frames.record(place - firsts[number])

    write_classic(name, map(record, sorted(range(len(moments)), key=moments.__getitem__)))
    label = " + ".join(port.label for port in ports)
    remarks.append(f"{len(ports)} captures are one port, as --together says; frame numbers are those of their merged file (`mergecap -w`)")
    return [Port(1, label, ports[0].file, classic(name).frames)]


def beat_of(ports: list[Port]) -> int:
    """How often ENodes send keep alives, in milliseconds; 0 where that can't be told."""
    last: dict[tuple[int, bytes], int] = {}
    spans: list[int] = []
    for port in ports:
        for at in port.frames.messages():
            heard = port.frames.heard(at)
            if heard.kind == "Keep alive":
                key, clock = (port.number, heard.source), port.frames.milliseconds(at)
                if key in last:
                    spans.append(clock - last[key])
                last[key] = clock
    return round(median(spans) / 100) * 100 if spans else 0


def dcbx_of(ports: list[Port]) -> list[Told]:
    """What each port of LLDP says by DCBX, the latest of each."""
    found: dict[bytes, Told] = {}
    for port in ports:
        lldp = [it.heard.ethertype == LLDP_TYPE for it in port.frames.flows]
        places = [at for at, flow in enumerate(port.frames.flow_of) if lldp[flow]] if any(lldp) else []
        for told in (told_in(port.frames.data(at)) for at in places):
            if told is not None and told.has_dcbx:
                found[told.source] = told
    return list(found.values())


def without_fabric(name: str, ports: list[Port]) -> str:
    """Why nothing can be looked at in captures without FIP and FCoE, and what to do next."""
    lacking = without_fcoe(dcbx_of(ports))
    if lacking:
        return f"{name}: neither FIP nor FCoE frames (Ethertypes 8914, 8906), and {lacking}: {OFFER}, since hosts send nothing before that"
    return f"{name}: neither FIP nor FCoE frames (Ethertypes 8914, 8906): capture on the host's converged port, `tcpdump -i eth0 -s 0 -w FILE`"


def tidy_up(port: Port, remarks: list[str]) -> None:
    """What the tap did to a capture is found, and taken out where it can be."""
    port.frames, port.tidy = tidied(port.frames, lambda them: switches_in(them, set(), FPMA + b"\0"))
    remarks += [f"{port.label}: {it}" for it in port.tidy.lines]


def gather(names: list[str], room: str, options: Options) -> Inputs:
    """The ports of all captures, and the configuration that they tell or that was given."""
    remarks: list[str] = []
    ports: list[Port] = []
    for name in names:
        capture = read_capture(name, room)
        capture.frames, around = unwrapped(capture.frames, lambda frames, records: rewritten(frames, records, room))
        remarks += [f"{name}: {it}" for it in capture.remarks + around]
        ports += divided(capture, options.interface, remarks)
    for port in ports:
        tidy_up(port, remarks)
    if options.is_together and len(ports) > 1:
        ports = together(ports, remarks, room)
        tidy_up(ports[0], remarks)
    for number, port in enumerate(ports, 1):
        port.number = number
        remarks += remarks_on(port)
    if len(ports) > 64:
        raise Refused(f"{names[0]}: {len(ports)} ports in all, the forwarder has 64 at most: name fewer captures")
    check_tags(ports, options.vlan, remarks, room)
    frames = [it for port in ports for it in port.frames.telling()]
    if not any(it.is_fabric for it in frames):
        raise Refused(without_fabric(names[0], ports))
    drawn = draw(frames, options.switch, options.window, options.zones, beat_of(ports))
    inputs = Inputs(ports, drawn.config, "\n".join(drawn.lines) + "\n", remarks, set(), True, drawn.config.fc_map)
    inputs.are_zones_known = bool(options.zones)
    if options.config is not None:
        inputs.text = text_of(options.config)
        inputs.config, inputs.is_drawn = config_in(options.config, inputs.text), False
        inputs.are_zones_known = True
        check_config(inputs, drawn, options.config)
    else:
        remarks += drawn.remarks
        inputs.details += drawn.details
    chosen_macs = {it for it in (options.switch, inputs.config.mac) if it}
    inputs.switches = switches_in(frames, chosen_macs, drawn.config.fc_map)
    check_directions(inputs)
    return inputs


def check_config(inputs: Inputs, drawn: Drawn, name: str) -> None:
    """A configuration that was given for another switch drops everything: say so."""
    inputs.remarks.append(f"configuration {name}, as --config says")
    seen = drawn.config
    inputs.config.is_quiet = seen.is_quiet
    if inputs.config.mac != seen.mac:
        inputs.remarks.append(f"{name}: has fcf-mac {colons(inputs.config.mac)}, the captures have the switch {colons(seen.mac)}")
    if inputs.config.vlan != seen.vlan:
        inputs.remarks.append(f"{name}: has vlan {inputs.config.vlan}, the captures have VLAN {seen.vlan}")


def rejects_text(port: Port) -> str:
    """The rejects of logins in a direction that is alone, in words."""
    counts: Counter[str] = Counter()
    for heard in (port.frames.heard(at) for at in port.switch_messages):
        if heard.operation == LOGIN_REPLY and heard.kind.endswith(" reject") and heard.fc is not None and len(heard.fc.payload) >= 8:
            reason, explanation = heard.fc.payload[5:7]
            counts[f"{heard.kind} {reason:02x} {explanation:02x} ({in_words(reason, explanation)}) to {colons(heard.destination)}"] += 1
    return "".join(f", among them {count} of {what}" for what, count in counts.most_common(4))


def check_directions(inputs: Inputs) -> None:
    """Which frames are the switch's own; a port without a host's frames can't be looked at."""
    for port in inputs.ports:
        port.divide(inputs.switches)
        has_hosts = any(it.heard.is_fabric and it.heard.source not in inputs.switches for it in port.frames.used())
        if port.replies and not has_hosts:
            raise Refused(f"{port.label}: only the switch's own frames{rejects_text(port)}: merge it with the host's (`mergecap -w both.pcapng HOST SWITCH`) and look at that")
        if not has_hosts:
            inputs.remarks.append(f"{port.label}: no FIP or FCoE frame of a host")
        both = f", {len(port.replies)} of the switch (left out, compared with the forwarder's)" if port.replies else ", none of the switch"
        first, last = (port.frames.number(0), port.frames.number(len(port.frames) - 1)) if port.frames else (0, 0)
        inputs.details.append(f"port {port.number} is {port.label}, frames {first} to {last}: {len(port.hosts)} of hosts{both}")


def switch_mac(word: str) -> bytes:
    """A MAC of the command line."""
    try:
        mac = octets(word.replace("-", ":"))
    except ValueError:
        mac = b""
    if len(mac) != 6 or mac[0] % 2:
        raise Refused(f"--fcf {word}: wants the switch's MAC, as 00:05:1e:00:00:02: the source of advertisements in Wireshark (fip.opcode == 1)")
    return mac
