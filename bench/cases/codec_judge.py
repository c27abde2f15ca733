"""What each codec of the forwarder is to answer, read from the bytes by code of its own: for bench/cases/codec_cases, which compares it with the stored answers."""
import zlib
from typing import Callable, Optional

MOST_BYTES = 700


class Fault(Exception):
    """A fault by its name and its text."""


def spelled(data: bytes) -> str:
    if len(data) > MOST_BYTES:
        return f"{len(data)}-bytes,crc={zlib.crc32(data):08x}"
    return data.hex() or "-"


def mac(data: bytes) -> str:
    return data.hex(":")


def yes(value: object) -> str:
    return "yes" if value else "no"


def number(data: bytes) -> int:
    return int.from_bytes(data, "big")


def answer(read: Callable[[bytes], tuple[str, bytes]], data: bytes) -> str:
    """The line of an answer: what is read and what is written of it, or the fault."""
    try:
        said, written = read(data)
    except Fault as fault:
        return f"error {fault}"
    return f"{said} written=" + ("same" if written == data else spelled(written))


# ---- FIP (FC-BB-5)

# each message: its name, the types that it may have once, those that may stand often, and those that must stand
MESSAGES: dict[tuple[int, int], tuple[str, set[int], set[int], list[int]]] = {
    (1, 1): ("solicit", {2, 4, 6}, set(), [2, 4, 6]),
    (1, 2): ("advertise", {1, 2, 4, 5, 12}, set(), [1, 2, 4, 5, 12]),
    (2, 1): ("request", {2, 7, 8, 9}, set(), [7, 2]),
    (2, 2): ("reply", {2, 7, 8, 9}, set(), [7]),
    (3, 1): ("keep-alive", {2, 11}, set(), [2]),
    (3, 2): ("clear", {2, 4}, {11}, [2, 4]),
    (4, 1): ("vlan-request", {2, 4}, set(), [2]),
    (4, 2): ("vlan-notification", {2}, {14}, [2]),
}
WORDS = {1: 1, 2: 2, 4: 3, 5: 4, 6: 1, 11: 5, 12: 2, 14: 1}
LOGINS = {7: "FLOGI", 8: "FDISC", 9: "LOGO"}
TABLE = set(WORDS) | set(LOGINS)


def right_length(kind: int, words: int) -> bool:
    if kind in LOGINS:
        return 7 <= words <= 255
    return kind not in WORDS or WORDS[kind] == words


def walk(body: bytes, end: int, once: set[int], often: set[int]) -> list[tuple[int, bytes]]:
    found: list[tuple[int, bytes]] = []
    at = 10
    while at < end:
        kind, words = body[at], body[at + 1]
        if words == 0 or at + 4 * words > end or not right_length(kind, words):
            raise Fault(f"DescLength {{ at: {at} }}: the descriptor at byte {at} has a wrong length")
        if kind < 128 and kind not in TABLE:
            raise Fault(f"Critical {{ at: {at}, kind: {kind} }}: the descriptor at byte {at} has the unknown type {kind}")
        same = LOGINS if kind in LOGINS else {kind}
        if kind in once and any(before in same for before, _ in found):
            raise Fault(f"Double {{ at: {at} }}: the descriptor at byte {at} stands a second time")
        if kind in once | often:
            found.append((kind, body[at + 2 : at + 4 * words]))
        at += 4 * words
    return found


def descriptor(kind: int, data: bytes) -> bytes:
    return bytes([kind, (2 + len(data)) // 4]) + data


def port_text(data: bytes) -> str:
    return f" port={mac(data[:6])},{data[7:10].hex()},{data[10:18].hex()}"


def port_bytes(data: bytes) -> bytes:
    return descriptor(11, data[:6] + b"\0" + data[7:18])


def read_fip(body: bytes) -> tuple[str, bytes]:
    if len(body) < 10:
        raise Fault("Short: the body is shorter than the FIP header")
    if body[0] >> 4 != 1:
        raise Fault("Version: the FIP version isn't 1")
    code = (number(body[2:4]), body[5])
    if code not in MESSAGES:
        raise Fault("Operation: the operation and subcode are those of no FIP message")
    end = 10 + 4 * number(body[6:8])
    if end > len(body):
        raise Fault("ListLength: the descriptor list passes the end of the body")
    name, once, often, needed = MESSAGES[code]
    found = walk(body, end, once, often)
    kinds = [kind for kind, _ in found]
    for kind in needed:
        if not any(it in kinds for it in (LOGINS if kind == 7 else {kind})):
            raise Fault(f"Missing {{ kind: {kind} }}: a descriptor of type {kind} is missing")
    flags = number(body[8:10])
    said, written, kept = message(name, flags, found)
    made = b"" if written is None else bytes([0x10, 0, 0, code[0], 0, code[1]]) + (len(written) // 4).to_bytes(2, "big") + kept.to_bytes(2, "big") + written
    return said, made


def message(name: str, flags: int, found: list[tuple[int, bytes]]) -> tuple[str, Optional[bytes], int]:
    """What is said of a message, the descriptors as they are written, or none, and the flags."""
    first: dict[int, bytes] = {}
    for kind, data in found:
        first.setdefault(kind, data)
    fp, fcf = flags >> 15, flags & 1
    address = f" mac={mac(first[2][:6])}" if 2 in first else ""
    own = descriptor(2, first[2][:6]) if 2 in first else b""
    node = descriptor(4, b"\0\0" + first[4][2:10]) if 4 in first else b""
    if name == "solicit":
        said = f"solicit from-fcf={yes(fcf)} fp={yes(fp)}{address} node={first[4][2:10].hex()} size={number(first[6][:2])}"
        return said, own + node + descriptor(6, first[6][:2]), fp << 15 | fcf
    if name == "advertise":
        return advertise(flags, first)
    if name in ("request", "reply"):
        kind, frame = next((kind, data) for kind, data in found if kind in LOGINS)
        frame = frame[2:]
        said = f"{LOGINS[kind]} {name} fp={yes(fp)} frame={spelled(frame)}"
        said += address if name == "request" else f" granted={mac(first[2][:6]) if 2 in first else 'none'}"
        return said, descriptor(kind, b"\0\0" + frame) + own, fp << 15
    if name == "keep-alive":
        said = f"keep-alive{address}" + (port_text(first[11]) if 11 in first else "")
        return said, own + (port_bytes(first[11]) if 11 in first else b""), 0
    if name == "clear":
        ports = [data for kind, data in found if kind == 11]
        said = f"clear{address} switch={first[4][2:10].hex()}" + "".join(map(port_text, ports))
        return said, None if len(ports) > 100 else own + node + b"".join(map(port_bytes, ports)), 0
    if name == "vlan-request":
        return f"vlan-request{address}" + (f" node={first[4][2:10].hex()}" if 4 in first else ""), own + node, 0
    vlans = [number(data[:2]) & 0xFFF for kind, data in found if kind == 14]
    said = f"vlan-notification{address}" + "".join(f" vlan={vlan}" for vlan in vlans)
    return said, own + descriptor(14, vlans[0].to_bytes(2, "big")) if len(vlans) == 1 else None, 0


def advertise(flags: int, first: dict[int, bytes]) -> tuple[str, Optional[bytes], int]:
    solicited, available, fcf, fp = flags >> 1 & 1, flags >> 2 & 1, flags & 1, flags >> 15
    fabric, period = first[5], first[12]
    said = f"advertise solicited={yes(solicited)} available={yes(available)} from-fcf={yes(fcf)} fp={yes(fp)} priority={first[1][1]} mac={mac(first[2][:6])}"
    said += f" switch={first[4][2:10].hex()} fc-map={fabric[3:6].hex()} fabric={fabric[6:14].hex()} quiet={yes(period[1] & 1)} period={number(period[2:6])}"
    written = descriptor(1, b"\0" + first[1][1:2]) + descriptor(2, first[2][:6]) + descriptor(4, b"\0\0" + first[4][2:10])
    written += descriptor(5, b"\0\0\0" + fabric[3:14]) + descriptor(12, bytes([0, period[1] & 1]) + period[2:6])
    return said, written, flags & 0x8007


# ---- link services (FC-LS-2)

SHORT = "Short: the payload is shorter than its command needs"
PAGE = "Page: the state change doesn't have its pages whole"
PARMS = {0x04: "FLOGI", 0x51: "FDISC", 0x03: "PLOGI", 0x02: "LS_ACC of a login"}


def read_els(data: bytes) -> tuple[str, bytes]:
    if len(data) < 4:
        raise Fault(SHORT)
    command = data[0]
    if command == 0x02 and len(data) < 116:
        return "LS_ACC", bytes([2, 0, 0, 0])
    least = {0x04: 116, 0x51: 116, 0x03: 116, 0x01: 8, 0x05: 16, 0x62: 8, 0x61: 8}.get(command, 4)
    if len(data) < least:
        raise Fault(SHORT)
    if command in PARMS:
        return parms(data)
    if command == 0x01:
        return f"LS_RJT reason={data[5]:02x} explanation={data[6]:02x}", bytes([1, 0, 0, 0, 0, data[5], data[6], 0])
    if command == 0x05:
        return f"LOGO address={data[5:8].hex()} name={data[8:16].hex()}", bytes([5, 0, 0, 0, 0]) + data[5:16]
    if command == 0x62:
        return f"SCR function={data[7]}", bytes([0x62, 0, 0, 0, 0, 0, 0, data[7]])
    if command == 0x61:
        length = number(data[2:4])
        if data[1] != 4 or length % 4 or length < 8 or length > len(data):
            raise Fault(PAGE)
        pages = data[4:length]
        return f"RSCN pages={spelled(pages)}", data[:length] if len(pages) <= 1020 else b""
    return f"other command={command:02x}", b""


def parms(data: bytes) -> tuple[str, bytes]:
    features, size = number(data[8:10]), number(data[10:12]) & 0xFFF
    said = f"{PARMS[data[0]]} features={features:04x} size={size} ra-tov={number(data[12:16])} ed-tov={number(data[16:20])} port={data[20:28].hex()}"
    said += f" node={data[28:36].hex()} class-3={data[68:84].hex()} offers-class-3={yes(data[68] >> 7)} n-port-ids={yes(features >> 15 & 1)}"
    said += f" n-port-ids-granted={yes(features >> 13 & 1)} f-port={yes(features >> 12 & 1)} receive-size={min(size, 2112) // 4 * 4}"
    written = bytes([data[0], 0, 0, 0, 0x20, 0x20, 0, 0]) + data[8:10] + size.to_bytes(2, "big") + data[12:36] + bytes(32) + data[68:84] + bytes(32)
    return said, written


# ---- the name server (FC-GS-6)

BY_ADDRESS = {0x100: "GA_NXT", 0x112: "GPN_ID", 0x113: "GNN_ID", 0x117: "GFT_ID", 0x11F: "GFF_ID", 0x300: "DA_ID"}
BY_TYPE = {0x171: "GID_FT", 0x172: "GPN_FT", 0x173: "GNN_FT"}
SIZES = {0x121: 8, 0x1A1: 4, 0x213: 12, 0x217: 36, 0x218: 5, 0x21F: 8, 0x239: 9}


def read_ct(data: bytes) -> tuple[str, bytes]:
    if len(data) < 16:
        raise Fault("Short: the payload is shorter than its preamble")
    if data[4:6] != b"\xfc\x02":
        raise Fault("NotNameServer: the payload isn't for the name server")
    code, body = number(data[8:10]), data[16:]
    least = 4 if code in BY_ADDRESS or code in BY_TYPE else SIZES.get(code, 0)
    text_at = {0x218: 4, 0x239: 8}.get(code)
    if len(body) < least or text_at is not None and len(body) < least + body[text_at]:
        raise Fault("Size: the request is shorter than its command needs")
    row = request(code, body)
    if row is None:
        return f"unknown code={code:04x}", b""
    said, written = row
    return said, bytes([1, 0, 0, 0, 0xFC, 2, 0, 0, code >> 8, code & 255, 0, 0, 0, 0, 0, 0]) + written + bytes(-len(written) % 4)


def request(code: int, body: bytes) -> Optional[tuple[str, bytes]]:
    address = b"\0" + body[1:4]
    said = f" address={body[1:4].hex()}"
    if code in BY_ADDRESS:
        return BY_ADDRESS[code] + said, address
    if code in BY_TYPE:
        return f"{BY_TYPE[code]} type={body[3]}", bytes([0, 0, 0, body[3]])
    if code == 0x121:
        return f"GID_PN port={body[:8].hex()}", body[:8]
    if code == 0x1A1:
        return f"GID_PT port-type={body[0]}", bytes([body[0], 0, 0, 0])
    if code == 0x213:
        return f"RNN_ID{said} node={body[4:12].hex()}", address + body[4:12]
    if code == 0x217:
        words = [number(body[4 + 4 * n : 8 + 4 * n]) for n in range(8)]
        types = [kind for kind in range(256) if words[kind // 32] >> kind % 32 & 1]
        return f"RFT_ID{said} types=" + "".join(f",{kind}" for kind in types) + f" zero={yes(not types)}", address + body[4:36]
    if code == 0x218:
        return f"RSPN_ID{said} symbol={spelled(body[5 : 5 + body[4]])}", address + body[4 : 5 + body[4]]
    if code == 0x21F:
        return f"RFF_ID{said} feature={body[6] & 15} type={body[7]}", address + bytes([0, 0, body[6] & 15, body[7]])
    if code == 0x239:
        return f"RSNN_NN node={body[:8].hex()} symbol={spelled(body[9 : 9 + body[8]])}", body[: 9 + body[8]]
    return None


# ---- frames (802.1Q, FC-FS-3, FC-BB-5)


def read_eth(data: bytes) -> tuple[str, bytes]:
    tagged = data[12:14] == b"\x81\x00"
    head = 18 if tagged else 14
    if len(data) < head:
        raise Fault("Short: the frame is shorter than its Ethernet header")
    tag = f" tag={data[14:16].hex()} vlan={number(data[14:16]) & 0xFFF}" if tagged else " vlan=0"
    said = f"eth dst={mac(data[:6])} src={mac(data[6:12])}{tag} type={data[head - 2 : head].hex()} body={spelled(data[head:])}"
    return said, data + bytes(max(0, 60 - len(data)))


def fields_of(data: bytes) -> str:
    said = f" r-ctl={data[0]:02x} d-id={data[1:4].hex()} cs-ctl={data[4]:02x} s-id={data[5:8].hex()} type={data[8]:02x} f-ctl={data[9:12].hex()}"
    said += f" seq-id={data[12]:02x} df-ctl={data[13]:02x} seq-cnt={number(data[14:16])} ox-id={data[16:18].hex()} rx-id={data[18:20].hex()}"
    return said + f" parameter={number(data[20:24])} payload={spelled(data[24:])}"


def read_fc(data: bytes) -> tuple[str, bytes]:
    if len(data) < 24:
        raise Fault("Short: the frame is shorter than its header of 24 bytes")
    if len(data) % 4:
        raise Fault("Odd: the payload isn't a multiple of 4 bytes")
    if len(data) > 24 + 2112:
        raise Fault("Long: the payload has more than 2112 bytes")
    return "fc" + fields_of(data), data


def read_fcoe(data: bytes) -> tuple[str, bytes]:
    if not 46 <= len(data) <= 2158 or (len(data) - 46) % 4:
        raise Fault("Length: no FCoE frame has a body of this length")
    if data[0] >> 4:
        raise Fault("Version: the FCoE version isn't 0")
    if data[13] not in (0x28, 0x2D, 0x2E, 0x35, 0x36):
        raise Fault("Sof: the start of frame is unknown")
    if data[-4] not in (0x41, 0x42, 0x49, 0x50):
        raise Fault("Eof: the end of frame is unknown")
    frame = data[14:-8]
    found, made = int.from_bytes(data[-8:-4], "little"), zlib.crc32(frame)
    if found != made:
        raise Fault(f"Crc {{ found: {found}, made: {made} }}: the CRC is {found:08x} and should be {made:08x}")
    written = bytes(13) + data[13:14] + frame + data[-8:-3] + bytes(3)
    return f"fcoe sof={data[13]:02x} eof={data[-4]:02x}" + fields_of(frame), written


def fip(data: bytes) -> str:
    return answer(read_fip, data)


def els(data: bytes) -> str:
    return answer(read_els, data)


def ct(data: bytes) -> str:
    return answer(read_ct, data)


def eth(data: bytes) -> str:
    return answer(read_eth, data)


def fc(data: bytes) -> str:
    return answer(read_fc, data)


def fcoe(data: bytes) -> str:
    return answer(read_fcoe, data)


ANSWERS = {"fip": fip, "els": els, "ct": ct, "eth": eth, "fc": fc, "fcoe": fcoe}


def frame(data: bytes) -> list[str]:
    """The lines of a whole frame: its head, what is in its body, and what is in the payload of that."""
    lines = [eth(data)]
    head = 18 if data[12:14] == b"\x81\x00" else 14
    if len(data) < head:
        return lines
    kind, body = data[head - 2 : head], data[head:]
    if kind == b"\x89\x14":
        lines.append(fip(body))
    if kind == b"\x89\x06":
        lines.append(fcoe(body))
        if not lines[-1].startswith("error"):
            inner = body[14:-8]
            if inner[0] in (0x22, 0x23) and inner[8] == 1:
                lines.append(els(inner[24:]))
            if inner[0] == 2 and inner[8] == 0x20:
                lines.append(ct(inner[24:]))
    return lines
