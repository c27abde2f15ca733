"""The fields of a frame by name, as they are compared and shown (FC-BB-5, FC-FS-3, FC-LS-2, FC-GS-6)."""
from typing import Optional

from .codes import CT_EXPLANATIONS, CT_REASONS, LS_EXPLANATIONS, LS_REASONS, descriptors_text
from .heard import CT, ELS, EOFN, EOFT, LOGINS, SOFI3, SOFN3, Descriptor, Fc, Heard, colons, fc_check, fcid, number

Fields = dict[str, str]
FLAGS = {0x8000: "FP", 0x4000: "SP", 0x0004: "A", 0x0002: "S", 0x0001: "F"}
DELIMITERS = {SOFI3: "SOFi3", SOFN3: "SOFn3", EOFN: "EOFn", EOFT: "EOFt", 0x2D: "SOFi2", 0x35: "SOFn2", 0x28: "SOFf", 0x49: "EOFni", 0x50: "EOFa"}
# the features word of a login by its message (FC-LS-2): a FLOGI or FDISC, the fabric's accept of it, and between N_Ports a PLOGI and its accept
ASKED_OF_FABRIC = {0x8000: "multiple N_Port_IDs asked", 0x0800: "alternate B-B credit"}
FABRIC_PORT = "fabric port"
ACCEPTED_BY_FABRIC = {0x8000: "clean address", 0x2000: "multiple N_Port_IDs granted", 0x1000: FABRIC_PORT, 0x0800: "alternate B-B credit"}
BETWEEN_PORTS = {0x8000: "continuously increasing offset", 0x4000: "random offset", 0x2000: "vendor version", 0x1000: FABRIC_PORT, 0x0800: "alternate B-B credit"}
LISTED = {0x0171: 4, 0x01A1: 4, 0x0172: 16, 0x0173: 16}  # bytes of an entry in an answer of the name server


def flag_words(flags: int, names: dict[int, str]) -> str:
    words = [name for bit, name in names.items() if flags & bit]
    rest = flags & ~sum(names)
    return " ".join(words + ([f"{rest:04x}"] if rest else [])) or "none"


def delimiter(code: int) -> str:
    return DELIMITERS.get(code, f"{code:02x}")


def descriptor_fields(it: Descriptor) -> Fields:
    data = it.data
    if it.kind == 1 and len(data) >= 4:
        return {"FIP priority": str(data[3])}
    if it.kind == 2 and len(data) >= 8:
        return {"FIP MAC": colons(data[2:8])}
    if it.kind == 4 and len(data) >= 12:
        return {"FIP name": colons(data[4:12])}
    if it.kind == 5 and len(data) >= 16:
        return {"FC-MAP": colons(data[5:8]), "VF_ID": str(number(data[2:4])), "fabric name": colons(data[8:16])}
    if it.kind == 6 and len(data) >= 4:
        return {"FCoE size": str(number(data[2:4]))}
    if it.kind == 11 and len(data) >= 20:
        return {"VN_Port MAC": colons(data[2:8]), "VN_Port FCID": data[9:12].hex(), "VN_Port WWPN": colons(data[12:20])}
    if it.kind == 12 and len(data) >= 8:
        return {"FKA period": f"{number(data[4:8])} ms", "FKA D bit": str(data[3] & 1)}
    if it.kind == 14 and len(data) >= 4:
        return {"VLAN": str(number(data[2:4]) & 0xFFF)}
    return {f"descriptor {it.kind}": data[2:].hex()}


def merged(into: Fields, more: Fields) -> None:
    """Adds fields; a name that is there already has several values."""
    for name, value in more.items():
        into[name] = f"{into[name]}, {value}" if name in into else value


def header_fields(fc: Fc) -> Fields:
    data = fc.data[fc.at : fc.at + 24]
    return {
        "R_CTL": f"{fc.r_ctl:02x}",
        "D_ID": fcid(fc.d_id),
        "CS_CTL": f"{data[4]:02x}",
        "S_ID": fcid(fc.s_id),
        "TYPE": f"{fc.kind:02x}",
        "F_CTL": f"{fc.f_ctl:06x}",
        "SEQ_ID": f"{data[12]:02x}",
        "DF_CTL": f"{data[13]:02x}",
        "SEQ_CNT": str(fc.seq_cnt),
        "OX_ID": f"{fc.ox_id:04x}",
        "RX_ID": f"{fc.rx_id:04x}",
        "Parameter": data[20:24].hex(),
    }


def is_with_fabric(payload: bytes) -> bool:
    """A FLOGI, an FDISC or their accept, whose time-outs are the fabric's (FC-LS-2); the others are between N_Ports."""
    return payload[0] in (0x04, 0x51) or payload[0] == 0x02 and bool(number(payload[8:10]) & 0x1000)


def feature_names(payload: bytes) -> dict[int, str]:
    """What the bits of a login's features word mean in this message."""
    if not is_with_fabric(payload):
        return BETWEEN_PORTS
    return ACCEPTED_BY_FABRIC if payload[0] == 0x02 else ASKED_OF_FABRIC


def login_fields(payload: bytes) -> Fields:
    """A login's payload of 116 bytes."""
    if is_with_fabric(payload):
        times = {"R_A_TOV": str(number(payload[12:16]))}
    else:
        times = {"concurrent sequences": str(number(payload[12:14])), "relative offset": payload[14:16].hex()}
    found = {
        "versions": payload[4:6].hex(),
        "B-B credit": str(number(payload[6:8])),
        "features": flag_words(number(payload[8:10]), feature_names(payload)),
        "receive size": str(number(payload[10:12]) & 0xFFF),
        **times,
        "E_D_TOV": str(number(payload[16:20])),
        "WWPN": colons(payload[20:28]),
        "WWNN": colons(payload[28:36]),
    }
    for at, name in enumerate(("class 1", "class 2", "class 3", "auxiliary class")):
        found[name] = payload[36 + 16 * at : 52 + 16 * at].hex()
    found["vendor"] = payload[100:116].hex()
    return found


def els_fields(payload: bytes) -> Fields:
    if not payload:
        return {}
    found, command = {"command": ELS.get(payload[0], f"{payload[0]:02x}")}, payload[0]
    if command == 0x01 and len(payload) >= 8:
        found["reason"] = f"{payload[5]:02x} ({LS_REASONS.get(payload[5], '?')})"
        found["explanation"] = f"{payload[6]:02x} ({LS_EXPLANATIONS.get(payload[6], 'none')})"
    elif command in (0x02, 0x03, 0x04, 0x51) and len(payload) >= 116:
        found.update(login_fields(payload))
    elif command == 0x61:
        found["affected"] = ", ".join(payload[at + 1 : at + 4].hex() for at in range(4, len(payload) - 3, 4))
    elif command == 0x05 and len(payload) >= 16:
        found.update({"address": payload[5:8].hex(), "WWPN": colons(payload[8:16])})
    elif command == 0x62 and len(payload) >= 8:
        found["function"] = str(payload[7])
    elif len(payload) > 4:
        found["payload"] = payload[4:].hex()
    return found


def entry_text(data: bytes) -> str:
    """An entry of a list of addresses, with its name where it has one."""
    return data[1:4].hex() + (f" {colons(data[8:16])}" if len(data) == 16 else "")


def ct_fields(payload: bytes, asked: Optional[int]) -> Fields:
    if len(payload) < 16:
        return {}
    command = number(payload[8:10])
    found = {"CT command": CT.get(command, f"{command:04x}"), "CT revision": f"{payload[0]:02x}", "CT options": f"{payload[6]:02x}"}
    found["CT size"] = str(number(payload[10:12]))
    if command == 0x8001:
        found["reason"] = f"{payload[13]:02x} ({CT_REASONS.get(payload[13], '?')})"
        found["explanation"] = f"{payload[14]:02x} ({CT_EXPLANATIONS.get(payload[14], 'none')})"
        return found
    rest = payload[16:]
    if command == 0x8002 and asked in LISTED:
        size = LISTED[asked]
        entries = [entry_text(rest[at : at + size]) for at in range(0, len(rest) - size + 1, size)]
        found["N_Ports"] = ", ".join(sorted(entries))
        found["order of N_Ports"] = " ".join(it.split(" ")[0] for it in entries)
    elif command == 0x8002 and asked == 0x0100 and len(rest) >= 620:
        found.update(next_fields(rest))
    elif rest:
        found[f"{CT.get(asked or 0, 'CT')} answer" if command == 0x8002 else "CT request"] = rest.hex()
    return found


def next_fields(rest: bytes) -> Fields:
    """The answer to GA_NXT."""
    return {
        "port type": f"{rest[0]:02x}",
        "FCID": rest[1:4].hex(),
        "WWPN": colons(rest[4:12]),
        "symbolic port name": rest[13 : 13 + rest[12]].decode("latin-1"),
        "WWNN": colons(rest[268:276]),
        "symbolic node name": rest[277 : 277 + rest[276]].decode("latin-1"),
        "class of service": rest[556:560].hex(),
        "FC-4 types": rest[560:592].hex(),
        "fabric port name": colons(rest[608:616]),
    }


def fc_fields(fc: Fc, asked: Optional[int], payload: Optional[bytes] = None) -> Fields:
    """Header and payload; `payload` is that of all parts of a reply."""
    found, body = header_fields(fc), fc.payload if payload is None else payload
    if fc.kind == 0x01:
        found.update(els_fields(body))
    elif fc.kind == 0x20:
        found.update(ct_fields(body, asked))
    else:
        found["payload bytes"] = str(len(body))
    return found


def fields_of(heard: Heard, asked: Optional[int] = None, payload: Optional[bytes] = None) -> Fields:
    """All fields of a frame."""
    found: Fields = {"destination": colons(heard.destination), "source": colons(heard.source)}
    if heard.at == 18:
        found["VLAN tag"] = str(heard.vlan)
        found["priority (802.1Q)"] = str(heard.data[14] >> 5)
    if heard.is_fip:
        found["message"] = heard.kind
        found["FIP flags"] = flag_words(heard.flags, FLAGS)
        found["descriptors"] = descriptors_text(it.kind for it in heard.descriptors)
        for it in heard.descriptors:
            if it.kind in LOGINS and heard.fc is not None:
                merged(found, fc_fields(heard.fc, None))
            else:
                merged(found, descriptor_fields(it))
    elif heard.is_fcoe and heard.fc is not None:
        found["message"] = heard.kind
        found["SOF"], found["EOF"] = delimiter(heard.data[heard.at + 13]), delimiter(heard.data[heard.eof_at])
        found.update(fc_fields(heard.fc, asked, payload))
        right = heard.data[heard.fc.end : heard.fc.end + 4] == fc_check(heard.data[heard.fc.at : heard.fc.end])
        found["check sequence"] = "right" if right else "wrong"
    else:
        found["Ethertype"] = f"{heard.ethertype:04x}"
    return found


def in_line(fields: Fields, skip: tuple[str, ...] = ("destination", "source", "message")) -> str:
    """Fields in one line, as the report's table has them."""
    return "; ".join(f"{name} {value}" for name, value in fields.items() if name not in skip)
