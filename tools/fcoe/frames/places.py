"""Where in a frame a verdict's cause stands: bytes of the frame from 0, and what is there."""
from typing import Any, Optional

from .heard import Heard, fc_check

Place = Optional[dict[str, Any]]


def part(heard: Heard, begin: int, size: int, what: str) -> Place:
    data = heard.data[begin : begin + size]
    return {"byte": begin, "bytes": max(len(data), 1), "what": what, "there": data.hex()}


def of_fip(heard: Heard, rule: str, number: Optional[int]) -> Place:
    """A place of a rule on FIP."""
    at = heard.at
    if rule in ("fip-length", "fip-critical", "fip-double") and number is not None:
        size = heard.data[at + number + 1] * 4 if at + number + 1 < len(heard.data) else 2
        return part(heard, at + number, min(max(size, 2), 24), f"the descriptor at {number} of the FIP body (type {heard.data[at + number] if at + number < len(heard.data) else '?'})")
    if rule == "fip-missing":
        return part(heard, at + 10, max(len(heard.data) - at - 10, 0), f"the descriptors, of which none has type {number}")
    found = {"fip-version": (0, 1, "version"), "fip-operation": (2, 4, "operation and subcode"), "fip-list": (6, 2, "length of the list, in words"), "fip-short": (0, 10, "header")}
    if rule in found:
        begin, size, what = found[rule]
        return part(heard, at + begin, size, what)
    mac = heard.descriptor(2)
    if rule == "fip-mac" and mac:
        return part(heard, mac.at + 2, 6, "MAC descriptor")
    vx = heard.descriptor(11)
    if rule == "keepalive-unknown":
        return part(heard, vx.at, 20, "Vx_Port descriptor") if vx else part(heard, 6, 6, "source MAC")
    return part(heard, at + 2, 4, "operation and subcode") if rule == "fip-role" else None


def of_fc(heard: Heard, rule: str) -> Place:
    """A place of a rule on FCoE and FC."""
    at, fc = heard.at, heard.fc
    if rule == "fcoe-version":
        return part(heard, at, 1, "version")
    if fc is None:
        return None
    if rule in ("fcoe-sof", "fcoe-class"):
        return part(heard, at + 13, 1, "SOF")
    if rule == "fcoe-eof":
        return part(heard, heard.eof_at, 1, "EOF")
    if rule == "fcoe-crc":
        return part(heard, fc.end, 4, f"check sequence; right is {fc_check(heard.data[fc.at:fc.end]).hex()}")
    if rule in ("source-login", "source-port"):
        return part(heard, fc.at + 5, 3, "S_ID")
    if rule in ("dest-login", "service-address", "self", "zone"):
        return part(heard, fc.at + 1, 3, "D_ID")
    if rule in ("service-frame", "els-kind"):
        return part(heard, fc.at, 24, "FC header")
    return part(heard, fc.payload_at, 24, "payload") if rule in ("els-short", "ct-short") else None


def place_of(verdict: str, heard: Heard) -> Place:
    """Where the cause of a drop stands."""
    words = verdict.split(" ")
    if words[0] != "dropped":
        return None
    rule, number = words[1], int(words[2]) if len(words) > 2 else None
    if rule == "vlan":
        return part(heard, 12, 4, "tag") if heard.at == 18 else part(heard, 12, 2, "Ethertype, without a tag before it")
    if rule in ("fip-dest", "fcoe-dest"):
        return part(heard, 0, 6, "destination MAC")
    if rule == "source-mac":
        return part(heard, 6, 6, "source MAC")
    if rule == "ethertype":
        return part(heard, heard.at - 2, 2, "Ethertype")
    if rule in ("truncated", "eth-short"):
        return part(heard, len(heard.data), 0, "end of what was captured")
    return of_fip(heard, rule, number) or of_fc(heard, rule)


def text_of(place: Place) -> str:
    if place is None:
        return ""
    there = f": {place['there'][:48]}{'..' if len(place['there']) > 48 else ''}" if place["there"] else ""
    return f"byte {place['byte']}, {place['what']}{there}"
