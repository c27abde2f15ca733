"""Rules on the name server and the fabric controller (FC-GS-6, FC-LS-2)."""
from typing import Iterator

from ..frames.heard import CONTROLLER, CT, NAME_SERVER, Fc, fcid, number
from .exchange import behind_plogi
from .rules import Fault, Group, Tally, want
from .shown import Shown
from .talk import Talk

PREAMBLE = 16
# bytes behind the preamble of each request; of symbolic names up to their length byte
SIZES = {
    0x0100: 4, 0x0112: 4, 0x0113: 4, 0x0117: 4, 0x011F: 4, 0x0121: 8, 0x0171: 4, 0x0172: 4, 0x0173: 4, 0x01A1: 4,
    0x0213: 12, 0x0217: 36, 0x0218: 5, 0x021F: 8, 0x0239: 9, 0x0300: 4,
    0x0114: 4, 0x0118: 4, 0x011A: 4, 0x0131: 8, 0x0139: 8, 0x0212: 12, 0x0214: 8, 0x021A: 8,
}  # fmt: skip
KNOWN = {*SIZES, 0x0110, 0x0114, 0x0118, 0x011A, 0x011B, 0x011C, 0x011D, 0x011E, 0x0131, 0x0132, 0x0135, 0x0139, 0x01A2, 0x01B1, 0x01F1, 0x01F2, 0x0212, 0x0214, 0x021A, 0x021B, 0x021D, 0x0235}
LENGTH_AT = {0x0218: 4, 0x0239: 8}  # where the length of a symbolic name stands
OF_ADDRESS = (0x0213, 0x0217, 0x0218, 0x021F, 0x0300)
FUNCTIONS = (1, 2, 3, 255)
RULES = Group("services", is_across=True)


def requests(talk: Talk, *commands: int) -> Iterator[tuple[Shown, Fc, bytes]]:
    """CT requests to the name server, with what stands behind the preamble."""
    for it, fc in talk.in_fcoe():
        if fc.kind == 0x20 and fc.r_ctl == 0x02 and fc.d_id == NAME_SERVER and it.is_whole and len(fc.payload) >= PREAMBLE:
            if not commands or fc.command in commands:
                yield it, fc, fc.payload[PREAMBLE:]


@RULES.rule("ns-login", "FC-GS-6, name server; FC-LS-2, PLOGI", "Requests go to the name server after an accepted PLOGI to it.")
def behind_login(talk: Talk, tally: Tally) -> None:
    for it, fc, _ in requests(talk):
        behind_plogi(talk, it, fc, tally)


@RULES.rule("ct-preamble", "FC-GS-6, CT_IU preamble", "A request has IN_ID 0, the name server's type and subtype, no reason.")
def preamble(talk: Talk, tally: Tally) -> None:
    for it, fc in talk.in_fcoe():
        if fc.kind != 0x20 or fc.r_ctl != 0x02 or fc.d_id != NAME_SERVER or not it.is_whole:
            continue
        payload = fc.payload
        if len(payload) < PREAMBLE:
            tally.judge(it, Fault("CT preamble", f"{len(payload)} bytes", f"{PREAMBLE} bytes"))
            continue
        tally.judge(
            it,
            want("CT revision", f"{payload[0]:02x}", "01 or later", payload[0] > 0),
            want("IN_ID", payload[1:4].hex(), "000000"),
            want("GS type and subtype", payload[4:6].hex(), "fc02 (name server)", payload[4:6] == b"\xfc\x02"),
            want("reason and explanation", payload[13:15].hex(), "0000"),
        )


@RULES.rule("ct-size", "FC-GS-6, name server, requests", "A request has the bytes of its command, and a symbolic name those of its length.")
def sized(talk: Talk, tally: Tally) -> None:
    for it, fc, rest in requests(talk):
        size = SIZES.get(fc.command or 0)
        if size is None:
            continue
        if fc.command in LENGTH_AT and len(rest) >= size:
            size += rest[LENGTH_AT[fc.command or 0]]
        name = CT.get(fc.command or 0, f"{fc.command:04x}")
        tally.judge(it, want(f"bytes after the preamble of {name}", len(rest), f"{size} or more", len(rest) >= size))


@RULES.rule("register-own", "FC-GS-6, name server, registrations", "An N_Port registers its own address.", is_choice=True)
def own_address(talk: Talk, tally: Tally) -> None:
    for it, fc, rest in requests(talk, *OF_ADDRESS):
        if len(rest) >= 4:
            tally.usual(it, want("address", rest[1:4].hex(), f"{fcid(fc.s_id)}, its own", rest[1:4].hex() == fcid(fc.s_id)))


@RULES.rule("register-node-name", "FC-GS-6, RSNN_NN", "A symbolic node name is of a node name that is registered.", is_choice=True)
def node_name(talk: Talk, tally: Tally) -> None:
    """The node name of RSNN_NN is registered: by RNN_ID, or by the login to the name server."""
    asked = {it.at: rest for it, _, rest in requests(talk, 0x0239)}
    registered: dict[int, dict[bytes, None]] = {}  # by address, in their order
    for it, fc in talk.in_fcoe():
        known, payload = registered.setdefault(fc.s_id, {}), fc.payload
        if it.heard.kind == "PLOGI" and len(payload) >= 36:
            known[payload[28:36]] = None
        elif it.heard.kind == "RNN_ID" and len(payload) >= PREAMBLE + 12:
            known[payload[PREAMBLE + 4 : PREAMBLE + 12]] = None
        elif known and it.at in asked:
            name = asked[it.at][:8]
            tally.usual(it, want("node name", name.hex(), f"{' or '.join(it.hex() for it in known)}, as registered", name in known))


def types(rest: bytes) -> set[int]:
    """The FC-4 types of an RFT_ID."""
    return {32 * at + bit for at in range(8) for bit in range(32) if number(rest[4 + 4 * at : 8 + 4 * at]) >> bit & 1}


@RULES.rule("register-order", "FC-GS-6, RFT_ID and RFF_ID", "Features are registered after their FC-4 type.", is_choice=True)
def features_behind_types(talk: Talk, tally: Tally) -> None:
    told: dict[int, set[int]] = {}  # by address
    for it, fc, rest in requests(talk, 0x0217, 0x021F):
        registered = told.setdefault(fc.s_id, set())
        if fc.command == 0x0217 and len(rest) >= 36:
            registered |= types(rest)
        elif fc.command == 0x021F and len(rest) >= 8:
            tally.usual(it, want("FC-4 type of RFF_ID", f"{rest[7]:02x}", "one that RFT_ID registered before", rest[7] in registered))


@RULES.rule("register-types", "FC-GS-6, RFT_ID; FC-LS-2, PRLI", "The FC-4 types that are used are registered.", is_choice=True)
def types_used(talk: Talk, tally: Tally) -> None:
    """Whoever uses an FC-4 type by PRLI registers it."""
    by_address: dict[int, list[set[int]]] = {}
    for _, other, more in requests(talk, 0x0217):
        if len(more) >= 36:
            by_address.setdefault(other.s_id, []).append(types(more))
    for it, fc in talk.in_fcoe():
        if it.heard.kind != "PRLI" or fc.r_ctl != 0x22 or len(fc.payload) < 8:
            continue
        told = by_address.get(fc.s_id, [])
        if told or talk.grant_of(it.heard.source, it.at):
            tally.usual(it, want("FC-4 type of PRLI", f"{fc.payload[4]:02x}", "one that it registered by RFT_ID", any(fc.payload[4] in some for some in told)))


@RULES.rule("scr-function", "FC-LS-2, SCR", "SCR has a function of the table.")
def watched(talk: Talk, tally: Tally) -> None:
    for it, fc in talk.in_fcoe():
        if it.heard.kind == "SCR" and fc.r_ctl == 0x22:
            payload = fc.payload
            stands = payload[7] if len(payload) >= 8 else None
            tally.judge(it, want("function", stands, "1, 2, 3 or 255", stands in FUNCTIONS))


@RULES.rule("scr-destination", "FC-LS-2, SCR", "SCR goes to FFFFFD.")
def watched_at(talk: Talk, tally: Tally) -> None:
    for it, fc in talk.in_fcoe():
        if it.heard.kind == "SCR" and fc.r_ctl == 0x22:
            tally.judge(it, want("D_ID", fcid(fc.d_id), fcid(CONTROLLER)))


@RULES.rule("ct-command", "FC-GS-6, name server, requests", "A request has a command of the name server's.", is_choice=True)
def commanded(talk: Talk, tally: Tally) -> None:
    for it, fc, _ in requests(talk):
        command = fc.command or 0
        tally.usual(it, want("command", f"{command:04x}", "one that this tool knows", command in KNOWN))


@RULES.rule("ct-reserved", "FC-GS-6, name server, GPN_FT and GID_FT", "Reserved bytes are 0, and a domain or area is named where one is meant.", is_choice=True)
def reserved(talk: Talk, tally: Tally) -> None:
    for it, _, rest in requests(talk, 0x0171, 0x0172, 0x0173):
        if len(rest) >= 4:
            tally.usual(it, want("bytes before the FC-4 type", rest[:3].hex(), "000000"))


@RULES.rule("register-names", "FC-GS-6, RNN_ID", "RNN_ID registers the node name of the FLOGI or FDISC.", is_choice=True)
def own_node(talk: Talk, tally: Tally) -> None:
    known = {it.payload[28:36] for it in talk.logins if it.heard.login_kind in ("FLOGI", "FDISC") and len(it.known) >= 116}
    for it, _, rest in requests(talk, 0x0213):
        if known and len(rest) >= 12:
            tally.usual(it, want("node name", rest[4:12].hex(), " or ".join(one.hex() for one in sorted(known)), rest[4:12] in known))


@RULES.rule("scr-sent", "FC-LS-2, SCR", "An N_Port that uses others asks to be told of changes.", is_choice=True)
def watches(talk: Talk, tally: Tally) -> None:
    asked = {fc.s_id for it, fc in talk.in_fcoe() if it.heard.kind == "SCR"}
    for it, fc in talk.in_fcoe():
        if it.heard.kind == "PRLI" and fc.r_ctl == 0x22 and talk.grant_of(it.heard.source, it.at):
            tally.usual(it, want("SCR", f"none of {fcid(fc.s_id)} in the capture", "one", fc.s_id in asked))
