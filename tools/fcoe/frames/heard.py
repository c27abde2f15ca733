"""What a frame is: Ethernet, FIP, FCoE, and the FC frame in either (FC-BB-5, FC-FS-3, FC-LS-2, FC-GS-6)."""
import zlib
from dataclasses import dataclass, field
from typing import Iterator, Optional

FIP_TYPE, FCOE_TYPE, TAG_TYPE = 0x8914, 0x8906, 0x8100
ALL_ENODES, ALL_FCFS = bytes.fromhex("011018010001"), bytes.fromhex("011018010002")
FABRIC_PORT, CONTROLLER, NAME_SERVER = 0xFFFFFE, 0xFFFFFD, 0xFFFFFC
SOLICIT, ADVERTISE, LOGIN, LOGIN_REPLY = (1, 1), (1, 2), (2, 1), (2, 2)
KEEP_ALIVE, CLEAR, VLAN_REQUEST, VLAN_TELL = (3, 1), (3, 2), (4, 1), (4, 2)
VN2VN = 5  # the operation of ENodes among themselves, without a forwarder
FIP = {
    SOLICIT: "Solicitation",
    ADVERTISE: "Advertisement",
    LOGIN: "Login",
    LOGIN_REPLY: "Login reply",
    KEEP_ALIVE: "Keep alive",
    CLEAR: "Clear links",
    VLAN_REQUEST: "VLAN request",
    VLAN_TELL: "VLAN notification",
}
LOGINS = {7: "FLOGI", 8: "FDISC", 9: "LOGO"}
ELS = {
    0x01: "LS_RJT",
    0x02: "LS_ACC",
    0x03: "PLOGI",
    0x04: "FLOGI",
    0x05: "LOGO",
    0x0E: "RTV",
    0x0F: "RLS",
    0x10: "ECHO",
    0x11: "TEST",
    0x12: "RRQ",
    0x13: "REC",
    0x20: "PRLI",
    0x21: "PRLO",
    0x50: "PDISC",
    0x51: "FDISC",
    0x52: "ADISC",
    0x61: "RSCN",
    0x62: "SCR",
}
CT = {
    0x0100: "GA_NXT",
    0x0112: "GPN_ID",
    0x0113: "GNN_ID",
    0x0117: "GFT_ID",
    0x011F: "GFF_ID",
    0x0121: "GID_PN",
    0x0171: "GID_FT",
    0x0172: "GPN_FT",
    0x0173: "GNN_FT",
    0x01A1: "GID_PT",
    0x0213: "RNN_ID",
    0x0217: "RFT_ID",
    0x0218: "RSPN_ID",
    0x021F: "RFF_ID",
    0x0239: "RSNN_NN",
    0x0300: "DA_ID",
    0x8001: "CT reject",
    0x8002: "CT accept",
}
BLS = {0x80: "NOP", 0x81: "ABTS", 0x84: "BA_ACC", 0x85: "BA_RJT"}
FCP = {0x06: "FCP_CMND", 0x05: "FCP_XFER_RDY", 0x01: "FCP_DATA", 0x07: "FCP_RSP"}
SOFI3, SOFN3, EOFN, EOFT = 0x2E, 0x36, 0x41, 0x42


def number(data: bytes) -> int:
    return int.from_bytes(data, "big")


def fcid(address: int) -> str:
    """An address as the journal spells it."""
    return f"{address:06x}"


def colons(data: bytes) -> str:
    return data.hex(":")


@dataclass(slots=True)
class Fc:
    """An FC frame inside a frame: header at a place, payload up to another."""

    data: bytes
    at: int
    end: int

    def _field(self, place: int, size: int) -> int:
        return int.from_bytes(self.data[self.at + place : self.at + place + size], "big")

    @property
    def r_ctl(self) -> int:
        return self.data[self.at]

    @property
    def d_id(self) -> int:
        return self._field(1, 3)

    @property
    def s_id(self) -> int:
        return self._field(5, 3)

    @property
    def kind(self) -> int:
        """TYPE."""
        return self.data[self.at + 8]

    @property
    def f_ctl(self) -> int:
        return self._field(9, 3)

    @property
    def seq_cnt(self) -> int:
        return self._field(14, 2)

    @property
    def ox_id(self) -> int:
        return self._field(16, 2)

    @property
    def rx_id(self) -> int:
        return self._field(18, 2)

    @property
    def payload_at(self) -> int:
        return self.at + 24

    @property
    def payload(self) -> bytes:
        return self.data[self.at + 24 : self.end]

    @property
    def command(self) -> Optional[int]:
        """The command of a link service or of a CT_IU."""
        payload = self.payload
        if self.kind == 0x01 and payload:
            return payload[0]
        return number(payload[8:10]) if self.kind == 0x20 and len(payload) >= 16 else None

    @property
    def is_reply(self) -> bool:
        """A reply of a link service or of a CT_IU."""
        return (self.kind, self.r_ctl) in ((0x01, 0x23), (0x20, 0x03))


@dataclass(slots=True)
class Descriptor:
    """A descriptor of FIP, at its place in the frame."""

    kind: int
    at: int
    data: bytes


@dataclass(slots=True)
class Heard:
    """A frame as the tools see it; where it stands for frames that are alike, with their count."""

    data: bytes
    destination: bytes = b""
    source: bytes = b""
    vlan: int = 0
    ethertype: int = 0
    at: int = 14
    kind: str = "?"
    operation: Optional[tuple[int, int]] = None
    flags: int = 0
    descriptors: list[Descriptor] = field(default_factory=list)
    fc: Optional[Fc] = None
    count: int = 1

    @property
    def is_fip(self) -> bool:
        return self.ethertype == FIP_TYPE

    @property
    def is_fcoe(self) -> bool:
        return self.ethertype == FCOE_TYPE

    @property
    def is_of_switch(self) -> bool:
        """A message that a forwarder alone sends."""
        return self.operation in (ADVERTISE, LOGIN_REPLY, CLEAR, VLAN_TELL)

    @property
    def is_fabric(self) -> bool:
        """FIP or FCoE."""
        return self.is_fip or self.is_fcoe

    @property
    def login_kind(self) -> Optional[str]:
        """FLOGI, FDISC or LOGO in FIP, as its descriptor says."""
        return next((LOGINS[it.kind] for it in self.descriptors if it.kind in LOGINS), None)

    def descriptor(self, kind: int) -> Optional[Descriptor]:
        return next((it for it in self.descriptors if it.kind == kind), None)

    @property
    def eof_at(self) -> int:
        return len(self.data) - 4


def walked(data: bytes, body: int) -> Iterator[Descriptor]:
    """The descriptors of a FIP body that begins at this place, as far as they can be walked."""
    at, end = body + 10, min(len(data), body + 10 + 4 * number(data[body + 6 : body + 8]))
    while at + 2 <= end and data[at + 1]:
        yield Descriptor(data[at], at, data[at : at + 4 * data[at + 1]])
        at += 4 * data[at + 1]


def take_fip(heard: Heard) -> None:
    body = heard.data[heard.at :]
    heard.kind = "FIP"
    if len(body) < 10:
        return
    heard.operation, heard.flags = (number(body[2:4]), body[5]), number(body[8:10])
    heard.descriptors = list(walked(heard.data, heard.at))
    heard.kind = "VN2VN" if heard.operation[0] == VN2VN else FIP.get(heard.operation, "FIP")
    for it in heard.descriptors:
        if it.kind in LOGINS and heard.operation in (LOGIN, LOGIN_REPLY) and len(it.data) >= 28:
            heard.fc = Fc(heard.data, it.at + 4, it.at + len(it.data))
            heard.kind = LOGINS[it.kind] if heard.operation == LOGIN else f"{LOGINS[it.kind]} {reply_word(heard.fc)}"
    if heard.operation == KEEP_ALIVE and heard.descriptor(11):
        heard.kind = "VN_Port keep alive"


def reply_word(fc: Fc) -> str:
    return {1: "reject", 2: "accept"}.get(fc.payload[0] if fc.payload else 0, "reply")


def take_fcoe(heard: Heard) -> None:
    heard.kind = "FCoE"
    if len(heard.data) - heard.at < 46:
        return
    fc = Fc(heard.data, heard.at + 14, len(heard.data) - 8)
    heard.fc, heard.kind = fc, fc_kind(fc)


def fc_kind(fc: Fc) -> str:
    if fc.kind == 0x00:
        return BLS.get(fc.r_ctl, "BLS")
    if fc.kind == 0x01:
        return ELS.get(fc.command, "ELS") if fc.command is not None else "ELS"
    if fc.kind == 0x20:
        return CT.get(fc.command, "CT") if fc.command is not None else "CT"
    return FCP.get(fc.r_ctl & 0x0F, "FCP") if fc.kind == 0x08 else f"FC type {fc.kind:02x}"


def hear(data: bytes) -> Heard:
    """What a frame's bytes are."""
    heard = Heard(data)
    if len(data) < 14:
        heard.kind = "short frame"
        return heard
    heard.destination, heard.source, heard.ethertype = data[:6], data[6:12], number(data[12:14])
    if heard.ethertype == TAG_TYPE and len(data) >= 18:
        heard.vlan, heard.ethertype, heard.at = number(data[14:16]) & 0xFFF, number(data[16:18]), 18
    if heard.is_fip:
        take_fip(heard)
    elif heard.is_fcoe:
        take_fcoe(heard)
    else:
        heard.kind = f"Ethertype {heard.ethertype:04x}"
    return heard


def fc_check(data: bytes) -> bytes:
    """The check sequence of an FC frame, as it stands on the wire (FC-FS-3)."""
    return zlib.crc32(data).to_bytes(4, "little")


def rscn_in(data: bytes) -> Optional[tuple[int, int]]:
    """Who is told, and of which address, in an RSCN of one page in FCoE with a tag."""
    is_rscn = data[16:18] == b"\x89\x06" and data[32] == 0x22 and data[40] == 0x01 and data[56] == 0x61 if len(data) >= 72 else False
    return (number(data[33:36]), number(data[61:64])) if is_rscn else None


def login_names(heard: Heard) -> Optional[tuple[bytes, bytes]]:
    """Port name and node name of a login's payload."""
    if heard.fc is None or len(heard.fc.payload) < 36:
        return None
    return heard.fc.payload[20:28], heard.fc.payload[28:36]


def is_login(heard: Heard) -> bool:
    """A FLOGI or FDISC in FIP."""
    return heard.operation == LOGIN and heard.login_kind in ("FLOGI", "FDISC") and heard.fc is not None


def granted_in(heard: Heard) -> Optional[int]:
    """The address that this accept of a FLOGI or FDISC grants."""
    if heard.operation != LOGIN_REPLY or heard.login_kind not in ("FLOGI", "FDISC") or heard.fc is None:
        return None
    return heard.fc.d_id if heard.fc.payload[:1] == b"\x02" else None
