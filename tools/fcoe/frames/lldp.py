"""What LLDP says of FCoE: DCBX of IEEE 802.1Qaz and of its forerunner (CEE), by the TLVs for applications, PFC and ETS."""
from dataclasses import dataclass, field
from typing import Iterator, Optional

from .heard import FCOE_TYPE, FIP_TYPE, colons, number

LLDP_TYPE = 0x88CC
IEEE, CEE = bytes.fromhex("0080c2"), bytes.fromhex("001b21")
OFFER = "let that port of the switch offer FCoE (its DCBX application TLV for 8906 and 8914, its FCoE class)"
NAMES = {FCOE_TYPE: "FCoE", FIP_TYPE: "FIP", 3260: "iSCSI", 4420: "NVMe/TCP", 4791: "RoCEv2", 0x8915: "RoCE", 860: "iSCSI (860)"}


@dataclass
class Told:
    """What a port says of itself by DCBX."""

    source: bytes
    has_dcbx: bool = False
    applications: dict[int, int] = field(default_factory=dict)  # protocol (Ethertype or port), and its priority
    pfc: Optional[int] = None  # a bit a priority
    classes: bytes = b""  # the class of each priority (ETS)
    shares: bytes = b""  # and the hundredths of the link that each class has

    @property
    def names_fcoe(self) -> bool:
        return FCOE_TYPE in self.applications or FIP_TYPE in self.applications

    @property
    def text(self) -> str:
        """`iSCSI (priority 4), no FCoE; PFC on priority 4`."""
        own = [f"{NAMES.get(it, f'{it:04x}')} (priority {priority})" for it, priority in sorted(self.applications.items())]
        named = ", ".join(own) or "no application"
        lossless = ", ".join(str(bit) for bit in range(8) if (self.pfc or 0) >> bit & 1)
        paused = "" if self.pfc is None else f"; PFC on priority {lossless}" if lossless else "; PFC on no priority"
        return named + ("" if self.names_fcoe else ", no FCoE") + paused + self.ets_text

    @property
    def ets_text(self) -> str:
        """Which priorities have which share of the link, where a class is told."""
        by_class: dict[int, list[str]] = {}
        for priority, number_ in enumerate(self.classes):
            by_class.setdefault(number_, []).append(str(priority))
        given = [f"{self.shares[it]} % to priority {', '.join(some)}" for it, some in sorted(by_class.items(), reverse=True) if it < len(self.shares)]
        return f"; ETS gives {' and '.join(given)}" if given else ""


def tlvs(data: bytes, begin: int) -> Iterator[tuple[int, bytes]]:
    at = begin
    while at + 2 <= len(data):
        head = number(data[at : at + 2])
        if not head >> 9:
            return
        yield head >> 9, data[at + 2 : at + 2 + (head & 0x1FF)]
        at += 2 + (head & 0x1FF)


def take_ets(told: Told, body: bytes) -> None:
    """The classes of eight priorities, four bits each, and the shares of eight classes."""
    if len(body) >= 12:
        told.classes, told.shares = bytes(half for it in body[:4] for half in (it >> 4, it & 0x0F)), body[4:12]


def take_ieee(told: Told, subtype: int, body: bytes) -> None:
    if subtype == 0x09:
        take_ets(told, body[1:])
    elif subtype == 0x0C:
        for at in range(1, len(body) - 2, 3):
            told.applications[number(body[at + 1 : at + 3])] = body[at] >> 5
    elif subtype == 0x0B and len(body) >= 2:
        told.pfc = body[1]


def take_cee(told: Told, body: bytes) -> None:
    """The features inside the TLV of CEE: 2 is ETS, 3 PFC, 4 the applications, each with a map of priorities."""
    for kind, part in tlvs(body, 0):
        if kind == 2:
            take_ets(told, part[4:])
        if kind == 3 and len(part) >= 6:
            told.pfc = part[4]
        for at in range(4, len(part) - 5, 6) if kind == 4 else ():
            priority = next((bit for bit in range(8) if part[at + 5] >> bit & 1), 0)
            told.applications[number(part[at : at + 2])] = priority


def told_in(data: bytes) -> Optional[Told]:
    """What an LLDP frame says."""
    begin = 18 if number(data[12:14]) == 0x8100 else 14
    if number(data[begin - 2 : begin]) != LLDP_TYPE:
        return None
    told = Told(data[6:12])
    for kind, body in tlvs(data, begin):
        if kind != 127 or body[:3] not in (IEEE, CEE):
            continue
        if body[:3] == IEEE and body[3:4] in (b"\x0b", b"\x0c", b"\x09"):
            told.has_dcbx = True
            take_ieee(told, body[3], body[4:])
        elif body[:3] == CEE and body[3:4] == b"\x02":
            told.has_dcbx = True
            take_cee(told, body[4:])
    return told


def without_fcoe(all_told: list[Told]) -> str:
    """That a port's DCBX names no FCoE, in words; empty where none says so."""
    lacking = [it for it in all_told if it.has_dcbx and not it.names_fcoe]
    return "; ".join(f"the DCBX of {colons(it.source)} names {it.text}" for it in lacking)
