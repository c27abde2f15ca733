"""What requests and answers say: link services, CT, FCP and basic link services (FC-FS-3, FC-LS-2, FC-GS-6, FCP-4)."""
from typing import Optional

from ..frames.codes import CT_EXPLANATIONS, CT_REASONS, LS_EXPLANATIONS, LS_REASONS
from ..frames.heard import CT as CT_COMMANDS
from . import scsi
from .codes import BASIC_EXPLANATIONS, BASIC_REASONS, ELS, FCP_CODES, LINK_CONTROL, LINK_REJECTS, PRLI_ANSWERS, TASK_FLAGS
from .exchange import End, Exchange, Kind
from .frame import ABTS, BA_ACC, BA_RJT, CT, ELS as ELS_TYPE, ELS_REQUEST, FCP, NVME, FcFrame

KINDS = {ELS_TYPE: Kind.ELS, CT: Kind.CT, FCP: Kind.FCP, NVME: Kind.NVME}


def number(data: bytes) -> int:
    return int.from_bytes(data, "big")


# ---- requests


def kind_of(frame: FcFrame) -> Kind:
    return Kind.FIP if frame.enode else KINDS.get(frame.type, Kind.OTHER)


def els_name(payload: bytes) -> str:
    return ELS.get(payload[0], f"ELS {payload[0]:02x}") if payload else "ELS"


def ct_name(payload: bytes) -> str:
    code = number(payload[8:10])
    return CT_COMMANDS.get(code, f"CT {code:04x}") if len(payload) >= 10 else "CT"


def opened(frame: FcFrame) -> Exchange:
    """The exchange that a request begins."""
    kind = kind_of(frame)
    name = ct_name(frame.payload) if kind is Kind.CT else els_name(frame.payload) if kind in (Kind.ELS, Kind.FIP) else kind.value
    made = Exchange(kind, name, frame.s_id, frame.d_id, frame.ox_id, frame.vlan, frame.moment, frame.place, frame.enode, frame.is_from_switch)
    made.request = frame.payload[:256]
    if kind is Kind.FCP:
        take_command(made, frame.payload)
    elif kind is Kind.NVME:
        made.command = "NVMe command"
    return made


def take_command(made: Exchange, payload: bytes) -> None:
    """FCP_CMND: LUN, task attribute, task management, CDB, length of data."""
    if len(payload) < 28:
        made.command = "SCSI command"
        return
    made.lun, made.attribute, made.management = scsi.lun_text(payload[:8]), payload[9] & 7, payload[10]
    more = payload[11] >> 2 << 2
    made.reads, made.writes = bool(payload[11] & 2), bool(payload[11] & 1)
    made.cdb = payload[12 : 28 + more]
    made.wanted = number(payload[28 + more : 32 + more])
    flags = [name for bit, name in TASK_FLAGS.items() if made.management & bit] if made.management else []
    made.command = " + ".join(flags) if flags else scsi.command_name(made.cdb)


# ---- answers


def reject_text(word: str, codes: tuple[int, int, int], reasons: dict[int, str], explanations: dict[int, str]) -> str:
    """A reject with its codes in words, and the vendor's byte where there is one."""
    reason, explanation, vendor = codes
    words = [it for it in (reasons.get(reason, "no such reason"), explanations.get(explanation, "") if explanation else "") if it]
    own = f", vendor's {vendor:02x}" if vendor else ""
    return f"{word} {reason:02x} {explanation:02x} ({': '.join(words)}{own})"


def take_link_control(made: Exchange, frame: FcFrame) -> None:
    """F_RJT, P_RJT, F_BSY, P_BSY: the frame came back."""
    word = LINK_CONTROL[frame.r_ctl]
    if word.startswith("ACK"):
        return
    action, reason, vendor = frame.parameter >> 24, frame.parameter >> 16 & 0xFF, frame.parameter & 0xFF
    made.end, made.codes = End.RETURNED, (reason, action, vendor)
    own = f", vendor's {vendor:02x}" if vendor else ""
    made.says = f"{word} {reason:02x} ({LINK_REJECTS.get(reason, 'no such reason')}{own})" if word.endswith("RJT") else f"{word} (busy)"


def take_els_reply(made: Exchange, payload: bytes) -> None:
    """LS_ACC or LS_RJT; a PRLI's accept may say no as well."""
    if payload[:1] == b"\x01" and len(payload) >= 8:
        made.codes, made.end = (payload[5], payload[6], payload[7]), End.REJECTED
        made.says = reject_text("LS_RJT", made.codes, LS_REASONS, LS_EXPLANATIONS)
        return
    made.end, made.says = End.DONE, "LS_ACC"
    if made.command == "PRLI" and len(payload) >= 8:
        answer = payload[6] & 0x0F
        if answer not in (0, 1, 6):
            made.end, made.codes = End.REJECTED, (answer,)
        made.says = f"LS_ACC, {PRLI_ANSWERS.get(answer, f'answer {answer}')}"


def take_ct_reply(made: Exchange, payload: bytes) -> None:
    if number(payload[8:10]) != 0x8001:
        made.says = "accept"
        return
    made.codes = (payload[13], payload[14], payload[15]) if len(payload) >= 16 else (0, 0, 0)
    made.says = reject_text("reject", made.codes, CT_REASONS, CT_EXPLANATIONS)


def take_response(made: Exchange, payload: bytes) -> None:
    """FCP_RSP: status, residual, sense data, the answer to a task management function."""
    if len(payload) < 12:
        made.end, made.says = End.DONE, "FCP_RSP"
        return
    flags, made.status = payload[10], payload[11]
    if flags & 0x0C and len(payload) >= 16:
        made.residual = number(payload[12:16]) * (-1 if flags & 0x08 else 1)
    told = number(payload[20:24]) if flags & 0x01 else 0
    code = payload[27] if told >= 4 and len(payload) >= 28 else 0
    sense = scsi.sense_of(payload[24 + told :]) if flags & 0x02 else None
    words = [scsi.status_name(made.status)]
    if sense is not None:
        made.codes = sense
        words.append(scsi.sense_text(sense))
    if code or made.management:
        words.append(FCP_CODES.get(code, f"FCP_RSP code {code:02x}"))
    if made.residual:
        words.append(f"{abs(made.residual)} bytes {'more' if made.residual > 0 else 'less'} than asked")
    is_bad_code = code not in (0x00, 0x08)
    made.end, made.says = End.FAILED if made.status not in (0x00, 0x04) or is_bad_code else End.DONE, ", ".join(words)


def take_basic(made: Exchange, frame: FcFrame) -> None:
    """ABTS and its answers."""
    if frame.r_ctl == ABTS:
        made.marks += (f"ABTS in {place_text(frame.place)}",)
        made.end, made.aborted = End.ABORT_UNANSWERED, made.aborted or frame.moment
        made.abort = made.abort or frame.place
    elif frame.r_ctl == BA_ACC and made.aborted is not None:
        made.end, made.says = End.ABORTED, "aborted by ABTS, BA_ACC"
    elif frame.r_ctl == BA_RJT and made.aborted is not None:
        reason, explanation = (frame.payload[1], frame.payload[2]) if len(frame.payload) >= 3 else (0, 0)
        more = BASIC_EXPLANATIONS.get(explanation, f"{explanation:02x}")
        made.end, made.codes = End.ABORT_REJECTED, (reason, explanation)
        made.says = f"ABTS, BA_RJT {reason:02x} {explanation:02x} ({BASIC_REASONS.get(reason, 'no such reason')}{': ' + more if more else ''})"


def place_text(place: tuple[int, int]) -> str:
    return f"{place[0]}/{place[1]}"


def concerned(frame: FcFrame) -> Optional[tuple[str, int, int]]:
    """REC, SRR and RRQ tell of another exchange: the word, its originator (0 where it isn't told) and its OX_ID."""
    payload = frame.payload
    if frame.type != ELS_TYPE or frame.r_ctl != ELS_REQUEST or len(payload) < 10 or payload[0] not in (0x12, 0x13, 0x14):
        return None
    if payload[0] == 0x14:
        return "SRR", 0, number(payload[4:6])
    return ELS[payload[0]], number(payload[5:8]), number(payload[8:10])
