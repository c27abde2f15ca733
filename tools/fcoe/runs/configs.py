"""Configurations: read, and drawn from what captures hold."""
import re
from collections import Counter
from dataclasses import dataclass, field
from typing import Iterable, Optional

from ..errors import Refused, meant
from ..files import text_of
from ..frames.heard import ADVERTISE, LOGIN, LOGIN_REPLY, SOLICIT, VLAN_REQUEST, VLAN_TELL, Heard, colons, is_login, login_names, number
from ..numerals import told


LONGEST_PERIOD = 90000  # milliseconds, which the forwarder takes
FPMA = b"\x0e\xfc"  # how the MACs that fabrics grant begin, and those of their services


KEYS = ("fcf-mac", "vlan", "switch", "fc-map", "domain", "pool", "priority", "period", "window", "limit", "zone", "zoneset", "activate")
RANGES = {"vlan": (1, 4094), "domain": (1, 239), "pool": (1, 60000), "priority": (0, 255), "period": (250, 90000), "window": (10, 1000), "limit": (1, 1000)}
LAST_MOMENT = 4_294_967_295_999  # of an activation


@dataclass
class Config:
    """The values of a configuration that the tools need."""

    mac: bytes
    vlan: int
    fc_map: bytes = b"\x0e\xfc\x00"
    switch: bytes = b""
    domain: int = 1
    pool: int = 256
    priority: int = 128
    period: int = 8000
    window: int = 100
    zones: dict[str, list[bytes]] = field(default_factory=dict)
    sets: dict[str, list[str]] = field(default_factory=dict)
    activations: list[tuple[str, int]] = field(default_factory=list)
    is_quiet: bool = False  # the switch's advertisements say that it wants no keep alives (D)

    def active(self, clock: int) -> tuple[Optional[str], dict[str, list[bytes]]]:
        """The zone set that is active at a moment (none before the first activation), and the active zones."""
        last = next((name for name, moment in reversed(self.activations) if moment <= clock), None)
        if last is None:
            return None, self.zones
        return last, {name: self.zones[name] for name in self.sets.get(last, []) if name in self.zones}

    def joined(self, clock: int, one: bytes, other: bytes) -> list[str]:
        """The active zones that list both names."""
        return [name for name, members in self.active(clock)[1].items() if one != other and one in members and other in members]

    def in_pool(self, address: int) -> bool:
        first = (self.domain << 16) + 256
        return first <= address < first + self.pool


def octets(word: str, size: Optional[int] = None) -> bytes:
    """The bytes of a MAC or a name; ValueError where it's none of this size."""
    data = bytes.fromhex(word.replace(":", ""))
    if size is not None and len(data) != size:
        raise ValueError(word)
    return data


def ranged(word: str, key: str) -> int:
    """The number of a key; ValueError where it's none that the key may have."""
    return told(word, *RANGES[key])


def activation(words: list[str]) -> tuple[str, int]:
    return words[1], told(words[2], 0, LAST_MOMENT)


def read_config(name: str) -> Config:
    """The configuration of a file."""
    return config_in(name, text_of(name))


def config_in(name: str, text: str) -> Config:
    """The configuration that a text says; the program says what is wrong in one, line by line."""
    said: dict[str, list[str]] = {}
    config = Config(b"", 0)
    try:
        for number_, line in enumerate(text.split("\n"), 1):
            words = line.split()
            if not words or line.startswith("#"):
                continue
            if words[0] not in KEYS:
                raise Refused(f"{name}, line {number_}: no key {words[0]}{meant(words[0], KEYS) or ': docs/COMMANDS.md has the table of keys'}")
            if words[0] == "zone":
                config.zones[words[1]] = [octets(it, 8) for it in words[2:]]
            elif words[0] == "zoneset":
                config.sets[words[1]] = words[2:]
            elif words[0] == "activate":
                config.activations.append(activation(words))
            else:
                said[words[0]] = words[1:]
        config.mac, config.vlan = octets(said["fcf-mac"][0], 6), ranged(said["vlan"][0], "vlan")
        config.fc_map = octets(said.get("fc-map", ["0e:fc:00"])[0], 3)
        config.switch = octets(said["switch"][0], 8) if "switch" in said else b"\x10\x00" + config.mac
        for key in ("domain", "pool", "priority", "period", "window"):
            if key in said:
                setattr(config, key, ranged(said[key][0], key))
    except (KeyError, ValueError, IndexError):
        raise Refused(f"{name}: no configuration: `fcoe_tool run` tells the line; docs/COMMANDS.md has an example") from None
    return config


# ---- drawn from captures


@dataclass
class Drawn:
    """A configuration drawn from captures: its text, and what was assumed, one remark each, and what is of less weight."""

    lines: list[str]
    remarks: list[str]
    details: list[str]
    config: Config


@dataclass
class Advertised:
    """What a forwarder says of itself."""

    mac: bytes
    vlan: int
    priority: Optional[int]
    name: Optional[bytes]
    fc_map: Optional[bytes]
    period: Optional[int]
    fabric: Optional[bytes] = None
    is_quiet: bool = False  # the D bit


def advertised(heard: Heard) -> Advertised:
    """The values of an advertisement."""
    found = {it.kind: it.data for it in heard.descriptors}
    return Advertised(
        heard.source,
        heard.vlan,
        found[1][3] if len(found.get(1, b"")) >= 4 else None,
        found[4][4:12] if len(found.get(4, b"")) >= 12 else None,
        found[5][5:8] if len(found.get(5, b"")) >= 16 else None,
        number(found[12][4:8]) if len(found.get(12, b"")) >= 8 else None,
        found[5][8:16] if len(found.get(5, b"")) >= 16 else None,
        bool(found[12][3] & 1) if len(found.get(12, b"")) >= 8 else False,
    )


def is_advertisement(heard: Heard) -> bool:
    return heard.operation == ADVERTISE


def most(counts: "Counter[bytes]") -> Optional[bytes]:
    return min((it for it in counts if counts[it] == max(counts.values())), default=None)


def called_upon(frames: Iterable[Heard]) -> "Counter[bytes]":
    """To which MACs hosts send logins and FCoE frames, granted MACs and those of services (FPMAs) aside."""
    counts: "Counter[bytes]" = Counter()
    for it in frames:
        is_one = it.is_fabric and it.destination and not it.destination[0] % 2 and it.destination[:2] != FPMA
        if is_one and (it.is_fcoe or it.operation == LOGIN):
            counts[it.destination] += it.count
    return counts


def forwarders(frames: list[Heard]) -> dict[bytes, Advertised]:
    """The forwarders that advertise themselves, by MAC; the latest word counts, that to all ENodes first."""
    found: dict[bytes, Advertised] = {}
    for it in frames:
        if is_advertisement(it):
            found[it.source] = advertised(it)
    return found


def switch_of(frames: list[Heard], wanted: Optional[bytes]) -> tuple[Optional[bytes], str, dict[bytes, Advertised]]:
    """The forwarder's MAC, how it was found, and all that advertise themselves."""
    known = forwarders(frames)
    upon = called_upon(it for it in frames if it.source not in known)
    if wanted is not None:
        return wanted, "as --fcf says", known
    if known:
        used = {mac: upon[mac] for mac in known}
        best = min(known, key=lambda it: (-used[it], known[it].priority if known[it].priority is not None else 255, it))
        rest = [colons(it) for it in sorted(known) if it != best]
        themselves = "advertises itself" if len(rest) == 1 else "advertise themselves"
        more = f"; {len(rest)} more {themselves} ({', '.join(rest)}): --fcf MAC takes another" if rest else ""
        return best, f"from its advertisements{more}", known
    granted = Counter(it.source for it in frames if it.is_fip and it.operation == (2, 2))
    if granted:
        return most(granted), "as it answers logins; it doesn't advertise itself here", known
    found = most(upon)
    return found, "as hosts send to it; no frame of the switch is here", known


def vlan_told(frames: list[Heard]) -> Optional[int]:
    """The VLAN that a switch names in its VLAN notification."""
    found = (it.descriptor(14) for it in frames if it.operation == VLAN_TELL)
    return next((number(it.data[2:4]) & 0xFFF for it in found if it is not None and len(it.data) >= 4), None)


def vlan_of(frames: list[Heard], mac: bytes) -> Optional[int]:
    """The VLAN that the switch names, or else that of most frames to and from it, VLAN discovery aside."""
    said = vlan_told(frames)
    if said:
        return said
    counts: Counter[int] = Counter()
    for it in frames:
        if it.is_fabric and it.operation not in (VLAN_REQUEST, VLAN_TELL) and (mac in (it.source, it.destination) or it.operation == SOLICIT):
            counts[it.vlan] += it.count
    return max(counts, key=lambda it: (counts[it], it)) if counts else None


def vlans_of(frames: Iterable[Heard], mac: bytes) -> set[int]:
    """The VLANs in which a switch advertises itself."""
    return {it.vlan for it in frames if is_advertisement(it) and it.source == mac and it.vlan}


def busiest(frames: list[Heard], mac: bytes, vlans: set[int]) -> int:
    """Of several VLANs the one with most logins and FCoE frames to and from a switch, or else the least."""
    counts: Counter[int] = Counter()
    for it in frames:
        if it.vlan in vlans and mac in (it.source, it.destination) and (it.is_fcoe or it.operation in (LOGIN, LOGIN_REPLY)):
            counts[it.vlan] += it.count
    return min(vlans, key=lambda it: (-counts[it], it))


def map_of(frames: list[Heard]) -> Optional[bytes]:
    """The FC-MAP of the sources of FCoE frames: their first three bytes where the rest is the S_ID."""
    counts: Counter[bytes] = Counter()
    for it in frames:
        if it.is_fcoe and it.fc and number(it.source[3:]) == it.fc.s_id and it.source[:2] == FPMA:
            counts[it.source[:3]] += it.count
    return most(counts)


def port_names(frames: Iterable[Heard]) -> list[bytes]:
    """The port names of logins, in the order in which they were first seen."""
    found: dict[bytes, None] = {}
    for it in frames:
        names = login_names(it) if is_login(it) else None
        if names and any(names[0]):
            found.setdefault(names[0])
    return list(found)


def within(value: Optional[int], least: int, greatest: int, usual: int) -> int:
    return usual if value is None else min(max(value, least), greatest)


def zone_lines(zones: list[str], names: list[bytes]) -> tuple[list[str], str]:
    """The lines of zones: those that were given, or one of all names."""
    if zones:
        for it in zones:
            if not re.fullmatch(r"[A-Za-z][-A-Za-z0-9$^_]*( +([0-9A-Fa-f]{2}:){7}[0-9A-Fa-f]{2})+", it.strip()):
                raise Refused(f"--zone '{it}': wants a name and port names, as 'disks 21:00:00:1b:21:00:00:0a 21:00:00:1b:21:00:00:0b'")
        return [f"zone {it}" for it in zones], "zones as --zone says"
    if not names:
        return [], "no zone: no login was seen"
    whose = f"all {len(names)} port names" if len(names) > 1 else "the one port name"
    return ["zone all " + " ".join(colons(it) for it in names)], f"one zone of {whose} that logged in (--zone, --config: others)"


def values_drawn(frames: list[Heard], wanted: Optional[bytes], beat: int = 0) -> tuple[Config, str, Optional[Advertised], set[bytes]]:
    """The configuration without zones, how the switch was found, its advertisement, and all that advertise themselves."""
    mac, how, known = switch_of(frames, wanted)
    if mac is None:
        mac, how = b"\x00\x05\x1e\x00\x00\x02", "made up: neither advertisements nor frames to a forwarder are here"
    said, vlans = known.get(mac), vlans_of(frames, mac)
    if len(vlans) > 1:
        vlan = busiest(frames, mac, vlans)
        said = advertised([it for it in frames if is_advertisement(it) and it.source == mac and it.vlan == vlan][-1])
    config = Config(mac, (said.vlan if said and said.vlan else vlan_of(frames, mac)) or 1)
    config.fc_map = (said.fc_map if said else None) or map_of(frames) or config.fc_map
    config.switch = said.name if said and said.name and any(said.name) else b"\x10\x00" + mac
    config.is_quiet = bool(said and said.is_quiet)
    usual = max(min(beat, LONGEST_PERIOD), 8000)  # no advertisement: as the hosts' own keep alives come, where that is slower
    config.period = LONGEST_PERIOD if config.is_quiet else within(said.period if said else None, 250, LONGEST_PERIOD, usual)
    config.priority = within(said.priority if said else None, 0, 255, 128)
    return config, how, said, set(known) | {mac}


def draw(frames: list[Heard], wanted: Optional[bytes], window: int, zones: list[str], beat: int = 0) -> Drawn:
    """The configuration that the frames of all ports tell; `beat` is how often hosts send keep alives, in milliseconds."""
    config, how, said, switches = values_drawn(frames, wanted, beat)
    names = port_names(it for it in frames if it.source not in switches)
    added, about = zone_lines(zones, names)
    config.window = window
    lines = [f"fcf-mac {colons(config.mac)}", f"vlan {config.vlan}", f"switch {colons(config.switch)}", f"fc-map {colons(config.fc_map)}"]
    lines += [f"priority {config.priority}", f"period {config.period}", f"window {window}"]
    if len(names) > 200:
        config.pool = 4096
        lines += ["limit 1000", "pool 4096"]
    remarks = [f"switch {colons(config.mac)}, {how}", f"VLAN {config.vlan}, FC-MAP {colons(config.fc_map)}"]
    remarks[1] += f", period {config.period} ms, priority {config.priority}{'' if said else ' (no advertisement: as keep alives come)' if config.period == beat else ' (the defaults: no advertisement)'}"
    if config.is_quiet:
        remarks.append("the switch wants no keep alives (the D bit of its advertisements): hosts are right not to send any")
    elif said and said.period is not None and said.period != config.period:
        remarks.append(f"the advertised period of {said.period} ms is out of range (250 to 90000): {config.period} is taken")
    config.zones.update({name: [octets(word) for word in members] for _, name, *members in map(str.split, added)})
    return Drawn(lines + added, remarks, [f"window {window} ms", about], config)
