"""Codes in words: reasons and explanations of rejects (FC-LS-2, FC-GS-6), FC-4 types and their features."""
from typing import Iterable, Optional

LS_REASONS = {
    0x01: "invalid command",
    0x03: "logical error",
    0x05: "logical busy",
    0x07: "protocol error",
    0x09: "unable to perform",
    0x0B: "command not supported",
    0x0E: "command in progress",
    0xFF: "vendor specific",
}
LS_EXPLANATIONS = {
    0x01: "service parameters: options",
    0x03: "service parameters: initiator control",
    0x05: "service parameters: recipient control",
    0x07: "service parameters: receive size",
    0x09: "service parameters: concurrent sequences",
    0x0B: "service parameters: credit",
    0x0D: "invalid port name",
    0x0E: "invalid node or fabric name",
    0x0F: "invalid common service parameters",
    0x15: "invalid originator S_ID",
    0x17: "invalid OX_ID and RX_ID",
    0x19: "request in progress",
    0x1E: "N_Port login required",
    0x1F: "invalid N_Port_ID",
    0x29: "insufficient resources",
    0x2A: "unable to supply the data",
    0x2C: "request not supported",
    0x2D: "invalid payload length",
}
CT_REASONS = {
    0x01: "invalid command code",
    0x02: "invalid version level",
    0x03: "logical error",
    0x04: "invalid CT_IU size",
    0x05: "logical busy",
    0x07: "protocol error",
    0x09: "unable to perform",
    0x0B: "command not supported",
    0x0D: "server not available",
    0xFF: "vendor specific",
}
CT_EXPLANATIONS = {
    0x01: "N_Port_ID not registered",
    0x02: "port name not registered",
    0x03: "node name not registered",
    0x04: "class of service not registered",
    0x07: "FC-4 types not registered",
    0x08: "symbolic port name not registered",
    0x09: "symbolic node name not registered",
    0x0A: "port type not registered",
    0x10: "access denied",
    0x11: "unacceptable N_Port_ID",
    0x12: "data base empty",
}
FC4_TYPES = {0x05: "ip", 0x08: "scsi-fcp", 0x1B: "fc-sb", 0x1C: "fc-sb", 0x20: "ct", 0x28: "nvme"}
ROLES = {1: "target", 2: "initiator", 3: "both"}  # features of scsi-fcp and nvme (FC-GS-6, FC-4 features)

DESCRIPTORS = {1: "priority", 2: "MAC", 3: "FC-MAP", 4: "name", 5: "fabric", 6: "size", 7: "FLOGI", 8: "FDISC", 9: "LOGO", 10: "ELP", 11: "Vx_Port", 12: "period", 13: "vendor", 14: "VLAN"}


def descriptors_text(kinds: Iterable[int]) -> str:
    """Descriptors of FIP by their names, in their order (FC-BB-5)."""
    return ", ".join(DESCRIPTORS.get(it, str(it)) for it in kinds) or "none"


def in_words(reason: int, explanation: int, is_ct: bool = False) -> str:
    """What the codes of a reject say: the explanation, or else the reason."""
    reasons, explanations = (CT_REASONS, CT_EXPLANATIONS) if is_ct else (LS_REASONS, LS_EXPLANATIONS)
    return explanations.get(explanation) or reasons.get(reason) or "no meaning in the standard"


def spelled(verdict: str) -> str:
    """A verdict with the codes of a reject in words: `rejected 09 29 (insufficient resources)`."""
    words = verdict.split(" ")
    if words[0] not in ("rejected", "refused") or len(words) not in (3, 4):
        return verdict
    vendor = f", vendor's {words[3]}" if len(words) == 4 else ""
    return f"{' '.join(words[:3])} ({in_words(int(words[1], 16), int(words[2], 16), words[0] == 'refused')}{vendor})"


def type_text(kind: int, features: Optional[int]) -> str:
    """An FC-4 type with its features: `08:2 (scsi-fcp:initiator)`."""
    name, role = FC4_TYPES.get(kind), ROLES.get(features or 0) if kind in (0x08, 0x28) else None
    said = f"{kind:02x}" + (f":{features:x}" if features else "")
    return said + (f" ({name}{':' + role if role else ''})" if name else "")
