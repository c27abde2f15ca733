"""What the text of a configuration is to say, read by code of its own: for bench/cases/codec_cases. The grammar is that of docs/COMMANDS.md and of fab_config's README."""
import re
from typing import Optional

DEFAULTS = {"fc-map": 0x0EFC00, "domain": 1, "pool": 256, "priority": 128, "period": 8000, "window": 100, "limit": 240}
RANGES = {"vlan": (1, 4094), "domain": (1, 239), "pool": (1, 60000), "priority": (0, 255), "period": (250, 90000), "window": (10, 1000), "limit": (1, 1000)}
ORDER = ["fcf-mac", "vlan", "switch", "fc-map", "domain", "pool", "priority", "period", "window", "limit"]


class Fault(Exception):
    """A line, and why it is none."""

    def __init__(self, line: int, why: str) -> None:
        super().__init__(line, why)
        self.line, self.why = line, why


def octets(word: str, count: int) -> Optional[bytes]:
    return bytes.fromhex(word.replace(":", "")) if re.fullmatch("[0-9a-fA-F]{2}(:[0-9a-fA-F]{2}){%d}" % (count - 1), word) else None


def number(word: str, least: int, most: int) -> Optional[int]:
    return int(word) if re.fullmatch("0|[1-9][0-9]*", word) and least <= int(word) <= most else None


def value_of(key: str, words: list[str]) -> object:
    """The value of a key that stands once, or none."""
    if len(words) != 1:
        return None
    if key in RANGES:
        return number(words[0], *RANGES[key])
    data = octets(words[0], {"fcf-mac": 6, "switch": 8, "fc-map": 3}[key])
    if key == "fcf-mac" and data is not None and (data[0] % 2 or not any(data)):
        return None
    if key == "fc-map":
        return int.from_bytes(data, "big") if data is not None and data[:2] == b"\x0e\xfc" else None
    return data


class Reader:
    """What the lines so far say."""

    def __init__(self) -> None:
        self.once: dict[str, object] = {}
        self.zones: dict[str, list[bytes]] = {}
        self.sets: dict[str, list[str]] = {}
        self.activations: list[tuple[str, int]] = []

    def line(self, text: bytes) -> Optional[str]:
        """Takes a line, or tells why it is none."""
        if text[:1] in (b"", b"#"):
            return None
        if any(byte != 9 and not 32 <= byte <= 126 for byte in text):
            return "Ascii"
        words = re.split("[ \t]+", text.decode().strip(" \t"))
        key, values = words[0], words[1:]
        if key in ORDER:
            return self.put(key, values)
        return {"zone": self.zone, "zoneset": self.zone_set, "activate": self.activate}.get(key, lambda values: "Key")(values)

    def put(self, key: str, values: list[str]) -> Optional[str]:
        if key in self.once:
            return "Twice"
        value = value_of(key, values)
        if value is None:
            return "Value"
        self.once[key] = value
        return None

    def zone(self, values: list[str]) -> Optional[str]:
        if values and values[0] in self.zones:
            return "Twice"
        members = [octets(word, 8) for word in values[1:]]
        if not members or None in members or not is_name(values[0]):
            return "Value"
        new = list(dict.fromkeys(member for member in members if member is not None))
        if len(self.zones) == 1000 or sum(map(len, self.zones.values())) + len(new) > 20000:
            return "Limit"
        self.zones[values[0]] = new
        return None

    def zone_set(self, values: list[str]) -> Optional[str]:
        if values and values[0] in self.sets:
            return "Twice"
        if len(values) < 2 or not is_name(values[0]) or any(word not in self.zones for word in values[1:]):
            return "Value"
        new = list(dict.fromkeys(values[1:]))
        if len(self.sets) == 64 or sum(map(len, self.sets.values())) + len(new) > 4000:
            return "Limit"
        self.sets[values[0]] = new
        return None

    def activate(self, values: list[str]) -> Optional[str]:
        moment = number(values[1], 0, 4294967295999) if len(values) == 2 and values[0] in self.sets else None
        if moment is None or self.activations and moment <= self.activations[-1][1]:
            return "Value"
        if len(self.activations) == 64:
            return "Limit"
        self.activations.append((values[0], moment))
        return None

    def written(self) -> list[str]:
        """The lines that are written for what was read."""
        mac = self.once["fcf-mac"]
        assert isinstance(mac, bytes)
        lines = []
        for key in ORDER:
            value = self.once.get(key, DEFAULTS.get(key, b"\x10\0" + mac))
            if key == "fc-map":
                assert isinstance(value, int)
                value = value.to_bytes(3, "big")
            lines.append(f"{key} {value.hex(':') if isinstance(value, bytes) else value}")
        lines += [f"zone {name} " + " ".join(member.hex(":") for member in members) for name, members in self.zones.items()]
        lines += [f"zoneset {name} " + " ".join(zones) for name, zones in self.sets.items()]
        return lines + [f"activate {name} {moment}" for name, moment in self.activations]


def is_name(word: str) -> bool:
    return re.fullmatch("[A-Za-z][A-Za-z0-9$^_-]{0,63}", word) is not None


def read(text: bytes) -> list[str]:
    """The lines of the configuration of a text, or its first fault."""
    if len(text) > 1048576:
        raise Fault(0, "Long")
    lines = text.split(b"\n")
    if not lines[-1]:
        lines.pop()
    reader = Reader()
    for count, line in enumerate(lines, 1):
        why = reader.line(line[:-1] if line.endswith(b"\r") else line)
        if why:
            raise Fault(count, why)
    if not {"fcf-mac", "vlan"} <= set(reader.once):
        raise Fault(len(lines) + 1, "Missing")
    return reader.written()
