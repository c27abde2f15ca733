"""SCSI in words: commands, status, sense data, LUNs (SPC-4, SBC-3, SAM-5)."""
from typing import Optional

COMMANDS = {
    0x00: "TEST UNIT READY",
    0x01: "REWIND",
    0x03: "REQUEST SENSE",
    0x04: "FORMAT UNIT",
    0x07: "REASSIGN BLOCKS",
    0x08: "READ(6)",
    0x0A: "WRITE(6)",
    0x12: "INQUIRY",
    0x15: "MODE SELECT(6)",
    0x16: "RESERVE(6)",
    0x17: "RELEASE(6)",
    0x1A: "MODE SENSE(6)",
    0x1B: "START STOP UNIT",
    0x1C: "RECEIVE DIAGNOSTIC RESULTS",
    0x1D: "SEND DIAGNOSTIC",
    0x1E: "PREVENT ALLOW MEDIUM REMOVAL",
    0x25: "READ CAPACITY(10)",
    0x28: "READ(10)",
    0x2A: "WRITE(10)",
    0x2E: "WRITE AND VERIFY(10)",
    0x2F: "VERIFY(10)",
    0x34: "PRE-FETCH(10)",
    0x35: "SYNCHRONIZE CACHE(10)",
    0x37: "READ DEFECT DATA(10)",
    0x3B: "WRITE BUFFER",
    0x3C: "READ BUFFER",
    0x41: "WRITE SAME(10)",
    0x42: "UNMAP",
    0x4C: "LOG SELECT",
    0x4D: "LOG SENSE",
    0x55: "MODE SELECT(10)",
    0x56: "RESERVE(10)",
    0x57: "RELEASE(10)",
    0x5A: "MODE SENSE(10)",
    0x5E: "PERSISTENT RESERVE IN",
    0x5F: "PERSISTENT RESERVE OUT",
    0x83: "EXTENDED COPY",
    0x84: "RECEIVE COPY RESULTS",
    0x85: "ATA PASS-THROUGH(16)",
    0x88: "READ(16)",
    0x89: "COMPARE AND WRITE",
    0x8A: "WRITE(16)",
    0x8E: "WRITE AND VERIFY(16)",
    0x8F: "VERIFY(16)",
    0x91: "SYNCHRONIZE CACHE(16)",
    0x93: "WRITE SAME(16)",
    0xA0: "REPORT LUNS",
    0xA1: "ATA PASS-THROUGH(12)",
    0xA8: "READ(12)",
    0xAA: "WRITE(12)",
}
SERVICE_ACTIONS = {
    (0x9E, 0x10): "READ CAPACITY(16)",
    (0x9E, 0x12): "GET LBA STATUS",
    (0xA3, 0x05): "REPORT DEVICE IDENTIFICATION",
    (0xA3, 0x0A): "REPORT TARGET PORT GROUPS",
    (0xA3, 0x0C): "REPORT SUPPORTED OPERATION CODES",
    (0xA3, 0x0D): "REPORT SUPPORTED TASK MANAGEMENT FUNCTIONS",
    (0xA3, 0x0F): "REPORT TIMESTAMP",
    (0xA4, 0x0A): "SET TARGET PORT GROUPS",
    (0xA4, 0x0F): "SET TIMESTAMP",
}
TEST_UNIT_READY, INQUIRY, REPORT_LUNS = 0x00, 0x12, 0xA0
CHECK_CONDITION, BUSY, RESERVATION_CONFLICT, TASK_SET_FULL = 0x02, 0x08, 0x18, 0x28
STATUS = {
    0x00: "GOOD",
    0x02: "CHECK CONDITION",
    0x04: "CONDITION MET",
    0x08: "BUSY",
    0x10: "INTERMEDIATE",
    0x18: "RESERVATION CONFLICT",
    0x22: "COMMAND TERMINATED",
    0x28: "TASK SET FULL",
    0x30: "ACA ACTIVE",
    0x40: "TASK ABORTED",
}
SENSE_KEYS = (
    "NO SENSE",
    "RECOVERED ERROR",
    "NOT READY",
    "MEDIUM ERROR",
    "HARDWARE ERROR",
    "ILLEGAL REQUEST",
    "UNIT ATTENTION",
    "DATA PROTECT",
    "BLANK CHECK",
    "VENDOR SPECIFIC",
    "COPY ABORTED",
    "ABORTED COMMAND",
    "EQUAL",
    "VOLUME OVERFLOW",
    "MISCOMPARE",
    "COMPLETED",
)
NOT_READY, MEDIUM_ERROR, HARDWARE_ERROR, ILLEGAL_REQUEST, UNIT_ATTENTION, DATA_PROTECT, ABORTED_COMMAND = 2, 3, 4, 5, 6, 7, 11
ADDITIONAL = {
    (0x00, 0x00): "no additional sense",
    (0x00, 0x16): "operation in progress",
    (0x00, 0x1D): "ATA pass-through information available",
    (0x02, 0x00): "no seek complete",
    (0x03, 0x00): "peripheral device write fault",
    (0x04, 0x00): "logical unit not ready, cause not reportable",
    (0x04, 0x01): "logical unit is in process of becoming ready",
    (0x04, 0x02): "logical unit not ready, initializing command required",
    (0x04, 0x03): "logical unit not ready, manual intervention required",
    (0x04, 0x04): "logical unit not ready, format in progress",
    (0x04, 0x05): "logical unit not ready, rebuild in progress",
    (0x04, 0x07): "logical unit not ready, operation in progress",
    (0x04, 0x09): "logical unit not ready, self-test in progress",
    (0x04, 0x0A): "logical unit not accessible, asymmetric access state transition",
    (0x04, 0x0B): "logical unit not accessible, target port in standby state",
    (0x04, 0x0C): "logical unit not accessible, target port in unavailable state",
    (0x04, 0x11): "logical unit not ready, notify (enable spinup) required",
    (0x04, 0x12): "logical unit not ready, offline",
    (0x04, 0x1B): "logical unit not ready, sanitize in progress",
    (0x05, 0x00): "logical unit does not respond to selection",
    (0x08, 0x00): "logical unit communication failure",
    (0x08, 0x01): "logical unit communication time-out",
    (0x08, 0x03): "logical unit communication CRC error",
    (0x0B, 0x00): "warning",
    (0x0C, 0x00): "write error",
    (0x0C, 0x02): "write error, auto reallocation failed",
    (0x0E, 0x00): "invalid information unit",
    (0x0E, 0x03): "invalid field in command information unit",
    (0x10, 0x00): "ID CRC or ECC error",
    (0x10, 0x01): "logical block guard check failed",
    (0x10, 0x02): "logical block application tag check failed",
    (0x10, 0x03): "logical block reference tag check failed",
    (0x11, 0x00): "unrecovered read error",
    (0x11, 0x01): "read retries exhausted",
    (0x14, 0x00): "recorded entity not found",
    (0x15, 0x01): "mechanical positioning error",
    (0x19, 0x00): "defect list error",
    (0x1A, 0x00): "parameter list length error",
    (0x1B, 0x00): "synchronous data transfer error",
    (0x1D, 0x00): "miscompare during verify operation",
    (0x20, 0x00): "invalid command operation code",
    (0x20, 0x02): "access denied, no access rights",
    (0x20, 0x09): "access denied, invalid LU identifier",
    (0x21, 0x00): "logical block address out of range",
    (0x24, 0x00): "invalid field in CDB",
    (0x25, 0x00): "logical unit not supported",
    (0x26, 0x00): "invalid field in parameter list",
    (0x26, 0x01): "parameter not supported",
    (0x26, 0x02): "parameter value invalid",
    (0x26, 0x04): "invalid release of persistent reservation",
    (0x27, 0x00): "write protected",
    (0x27, 0x01): "hardware write protected",
    (0x27, 0x02): "logical unit software write protected",
    (0x27, 0x07): "space allocation failed write protect",
    (0x28, 0x00): "not ready to ready change, medium may have changed",
    (0x29, 0x00): "power on, reset, or bus device reset occurred",
    (0x29, 0x01): "power on occurred",
    (0x29, 0x02): "SCSI bus reset occurred",
    (0x29, 0x03): "bus device reset function occurred",
    (0x29, 0x04): "device internal reset",
    (0x29, 0x07): "I_T nexus loss occurred",
    (0x2A, 0x00): "parameters changed",
    (0x2A, 0x01): "mode parameters changed",
    (0x2A, 0x02): "log parameters changed",
    (0x2A, 0x03): "reservations preempted",
    (0x2A, 0x04): "reservations released",
    (0x2A, 0x05): "registrations preempted",
    (0x2A, 0x06): "asymmetric access state changed",
    (0x2A, 0x07): "implicit asymmetric access state transition failed",
    (0x2A, 0x08): "priority changed",
    (0x2A, 0x09): "capacity data has changed",
    (0x2C, 0x00): "command sequence error",
    (0x2F, 0x00): "commands cleared by another initiator",
    (0x2F, 0x01): "commands cleared by power loss notification",
    (0x30, 0x00): "incompatible medium installed",
    (0x31, 0x00): "medium format corrupted",
    (0x32, 0x00): "no defect spare location available",
    (0x35, 0x00): "enclosure services failure",
    (0x38, 0x07): "thin provisioning soft threshold reached",
    (0x39, 0x00): "saving parameters not supported",
    (0x3A, 0x00): "medium not present",
    (0x3E, 0x00): "logical unit has not self-configured yet",
    (0x3E, 0x01): "logical unit failure",
    (0x3E, 0x02): "timeout on logical unit",
    (0x3F, 0x00): "target operating conditions have changed",
    (0x3F, 0x01): "microcode has been changed",
    (0x3F, 0x03): "inquiry data has changed",
    (0x3F, 0x05): "device identifier changed",
    (0x3F, 0x0E): "reported LUNs data has changed",
    (0x44, 0x00): "internal target failure",
    (0x45, 0x00): "select or reselect failure",
    (0x47, 0x00): "SCSI parity error",
    (0x47, 0x01): "data phase CRC error detected",
    (0x48, 0x00): "initiator detected error message received",
    (0x49, 0x00): "invalid message error",
    (0x4B, 0x00): "data phase error",
    (0x4E, 0x00): "overlapped commands attempted",
    (0x53, 0x00): "media load or eject failed",
    (0x55, 0x00): "system resource failure",
    (0x55, 0x03): "insufficient resources",
    (0x55, 0x04): "insufficient registration resources",
    (0x5D, 0x00): "failure prediction threshold exceeded",
    (0x5E, 0x00): "low power condition on",
    (0x67, 0x00): "configuration failure",
    (0x67, 0x02): "configuration of incapable logical units failed",
    (0x74, 0x71): "logical unit access not authorized",
}


def command_name(cdb: bytes) -> str:
    """A command by its operation code, and its service action where it has one."""
    if not cdb:
        return "SCSI command"
    action = (cdb[0], cdb[1] & 0x1F) if len(cdb) > 1 else (cdb[0], 0)
    return SERVICE_ACTIONS.get(action) or COMMANDS.get(cdb[0]) or f"operation {cdb[0]:02x}"


def status_name(status: int) -> str:
    return STATUS.get(status, f"status {status:02x}")


def sense_of(data: bytes) -> Optional[tuple[int, int, int]]:
    """Sense key, ASC and ASCQ, in fixed form or as descriptors."""
    code = data[0] & 0x7F if data else 0
    if code in (0x72, 0x73) and len(data) >= 4:
        return data[1] & 0x0F, data[2], data[3]
    if code in (0x70, 0x71) and len(data) >= 3:
        asc, ascq = (data[12], data[13]) if len(data) >= 14 else (0, 0)
        return data[2] & 0x0F, asc, ascq
    return None


def sense_text(sense: tuple[int, int, int]) -> str:
    """`NOT READY 04/01 (logical unit is in process of becoming ready)`."""
    key, asc, ascq = sense
    words = ADDITIONAL.get((asc, ascq)) or ("the vendor's" if asc >= 0x80 or ascq >= 0x80 else "no name here")
    return f"{SENSE_KEYS[key]} {asc:02x}/{ascq:02x} ({words})"


def lun_text(lun: bytes) -> str:
    """A LUN as hosts number it; of further levels all its bytes."""
    if any(lun[2:]) or len(lun) < 2:
        return lun.hex()
    method = lun[0] >> 6
    if method == 0 and lun[0] == 0:
        return str(lun[1])
    return str((lun[0] & 0x3F) << 8 | lun[1]) if method in (0, 1) else lun[:2].hex()
