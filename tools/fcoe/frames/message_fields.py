"""FIP messages field by field, down to reserved bytes and padding: those of a host beside those of another, with the standard's rule for each field."""
from typing import Iterable, Iterator, Optional

from .heard import LOGINS, Heard, hear

HEADER = [("R_CTL", 1), ("D_ID", 3), ("CS_CTL", 1), ("S_ID", 3), ("TYPE", 1), ("F_CTL", 3), ("SEQ_ID", 1), ("DF_CTL", 1)]
HEADER += [("SEQ_CNT", 2), ("OX_ID", 2), ("RX_ID", 2), ("Parameter", 4)]
LOGIN = [("command", 4), ("versions", 2), ("credit", 2), ("features", 2), ("receive size", 2), ("R_A_TOV", 4), ("E_D_TOV", 4), ("port name", 8)]
LOGIN += [("node name", 8), ("class 1", 16), ("class 2", 16), ("class 3", 16), ("auxiliary", 16), ("vendor", 16)]
LOGOUT = [("command", 4), ("reserved", 1), ("address", 3), ("port name", 8)]
PARTS: dict[int, tuple[str, list[tuple[str, int]]]] = {
    2: ("MAC descriptor", [("MAC", 6)]),
    4: ("name descriptor", [("reserved", 2), ("name", 8)]),
    6: ("size descriptor", [("size", 2)]),
    11: ("Vx_Port descriptor", [("MAC", 6), ("reserved", 1), ("address", 3), ("port name", 8)]),
    14: ("VLAN descriptor", [("VLAN", 2)]),
}
FIP_HEADER = [("version", 1), ("reserved", 1), ("operation", 2), ("reserved after it", 1), ("subcode", 1), ("list length", 2), ("flags", 2)]
LENGTH_OF_LOGIN = 4 + 24 + 116
# what a field must be, by the last part of its name
RULES = {
    "destination": "FC-BB-5: All-FCF-MACs or the forwarder's MAC for VLAN requests and solicitations, the forwarder's MAC for the rest",
    "source": "FC-BB-5: the ENode's MAC",
    "tag": "IEEE 802.1Q: the FCoE VLAN; the priority is the sender's choice",
    "tag type": "IEEE 802.1Q: the FCoE VLAN's tag; a VLAN request may go without one",
    "version": "FC-BB-5: 1 in the upper half of the byte",
    "flags": "FC-BB-5: FP (8000) or SP (4000) in a solicitation and a login, for the kind of MAC; no forwarder heeds them in a VLAN request or a keep alive",
    "list length": "FC-BB-5: the descriptors' length in words of four bytes",
    "bytes after the list": "IEEE 802.3: padding to 60 bytes, which a capture inside the host doesn't have yet",
    "size": "FC-BB-5: the largest FCoE frame that the ENode takes, which the advertisement is padded to",
    "MAC": "FC-BB-5: the ENode's MAC; in a login zeros, where the fabric is to provide it",
    "D_ID": "FC-LS-2: FFFFFE",
    "S_ID": "FC-LS-2: 000000 in a FLOGI and an FDISC",
    "OX_ID": "FC-FS-3: the sender's choice, another in each exchange",
    "RX_ID": "FC-FS-3: FFFF in a request",
    "SEQ_ID": "FC-FS-3: the sender's choice",
    "F_CTL": "FC-FS-3: 290000 on the only frame of a request",
    "versions": "FC-LS-2: the versions that the port supports",
    "credit": "FC-BB-5: not used on a virtual link",
    "features": "FC-LS-2: 8000 asks for more than one address (NPIV)",
    "receive size": "FC-LS-2: 256 to 2112",
    "port name": "FC-LS-2: the host's own, not 0",
    "node name": "FC-LS-2: the host's own",
    "name": "FC-LS-2: the host's own",
    "class 1": "FC-LS-2: not valid over FCoE",
    "class 2": "FC-LS-2: optional",
    "class 3": "FC-LS-2: its first bit must be set; the further ones are the port's choice",
    "reserved": "reserved: 0, and no receiver tests it",
}

FREE = {"bytes after the list", "OX_ID", "SEQ_ID", "credit", "class 2", "reserved"}  # by the rules of these fields


def cut(data: bytes, parts: Iterable[tuple[str, int]], before: str = "") -> Iterator[tuple[str, bytes]]:
    at = 0
    for name, size in parts:
        yield before + name, data[at : at + size]
        at += size
    if at < len(data):
        yield before + "rest", data[at:]


def parts_of(kind: int, size: int) -> tuple[str, list[tuple[str, int]]]:
    """The name and the fields of a descriptor of this type and length."""
    if kind not in LOGINS:
        return PARTS.get(kind, (f"descriptor {kind}", []))
    payload = LOGOUT if kind == 9 else LOGIN if size >= LENGTH_OF_LOGIN else []
    return f"{LOGINS[kind]} descriptor", [("reserved", 2), *HEADER, *payload]


def fields_of(data: bytes) -> Iterator[tuple[str, bytes]]:
    """Name and bytes of each field of a FIP frame, in their order."""
    tagged = data[12:14] == b"\x81\x00"
    head = [("destination", 6), ("source", 6)] + [("tag type", 2), ("tag", 2)] * tagged + [("Ethertype", 2)]
    start = 18 if tagged else 14
    yield from cut(data[:start], head)
    body = data[start:]
    yield from cut(body[:10], FIP_HEADER)
    at, end = 10, min(len(body), 10 + 4 * int.from_bytes(body[6:8], "big"))
    while at + 2 <= end and body[at + 1]:
        part = body[at : at + 4 * body[at + 1]]
        name, parts = parts_of(body[at], len(part))
        yield f"{name}: type and length", part[:2]
        yield from cut(part[2:], parts, f"{name}: ")
        at += len(part)
    yield "bytes after the list", body[end:]


def compared(one: bytes, other: bytes) -> Iterator[tuple[str, Optional[bytes], Optional[bytes]]]:
    """Each field that differs, with its value in one and in the other."""
    left, right = dict(fields_of(one)), dict(fields_of(other))
    for name in [*left, *(it for it in right if it not in left)]:
        if left.get(name) != right.get(name):
            yield name, left.get(name), right.get(name)


def shown(value: Optional[bytes]) -> str:
    if value is None:
        return "none"
    return value.hex() if any(value) and len(value) <= 16 else f"{len(value)} bytes of 0" if not any(value) and len(value) > 8 else value.hex() or "no bytes"


def rule_of(name: str) -> str:
    """The standard's rule for a field."""
    last = name.rsplit(": ", 1)[-1]
    return RULES.get(last, "FC-BB-5: the message's own" if ": " not in name else "")


def is_choice(kind: str, name: str, value: Optional[bytes]) -> bool:
    """A field of a message in which the standards leave the host free, or which no forwarder heeds."""
    last = name.rsplit(": ", 1)[-1]
    if last == "class 3":
        return (value or b"\0")[0] >= 0x80
    return last in FREE or last == "flags" and kind not in ("Solicitation", "FLOGI")


def firsts(frames: Iterable[bytes]) -> dict[str, Heard]:
    """The first request of each kind."""
    found: dict[str, Heard] = {}
    for data in frames:
        heard = hear(data)
        if heard.is_fip:
            found.setdefault(heard.kind, heard)
    return found
