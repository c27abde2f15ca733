"""Rules on FLOGI, FDISC and LOGO in FIP (FC-BB-5, FC-LS-2)."""
from typing import Iterator, Optional

from ..frames.heard import FABRIC_PORT, LOGIN_REPLY, Fc, colons, fcid, number
from .discovery import BEHIND, FP, SOON, SP, has_kinds
from .habits import judge_names, mac_before
from .rules import CUT, LEFT, ONE_WAY, Fault, Group, Tally, want
from .shown import Shown, mac_in
from .talk import Talk

COMMANDS = {"FLOGI": 0x04, "FDISC": 0x51, "LOGO": 0x05}
DESCRIPTOR = {"FLOGI": 7, "FDISC": 8, "LOGO": 9}
MANY = 0x2000  # the feature of an accept that grants several addresses
LOGIN_SIZE, LOGO_SIZE = 116, 16
NAMINGS = (1, 2, 3, 4, 5, 6, 0xC, 0xD, 0xE, 0xF)  # NAA: IEEE, local, IP, registered, and those that hold an EUI-64
AT_ONCE = 100  # milliseconds behind a reject within which the same request is hardly another try
RULES = Group("fabric login")


def sent(talk: Talk, *kinds: str) -> Iterator[tuple[Shown, Fc]]:
    """The ENode's logins in FIP of some kinds."""
    for it in talk.logins:
        fc = it.heard.fc
        if it.heard.login_kind in kinds and fc is not None and it.is_whole:
            yield it, fc


@RULES.rule("login-in-fip", "FC-BB-5, FIP FLOGI, FDISC and LOGO (from memory)", "FLOGI, FDISC and the LOGO to FFFFFE go in FIP.")
def in_fip(talk: Talk, tally: Tally) -> None:
    for it, _ in sent(talk, "FLOGI", "FDISC", "LOGO"):
        tally.held.append(it)
    for it, fc in talk.in_fcoe():
        if fc.kind == 0x01 and fc.r_ctl == 0x22 and fc.d_id == FABRIC_PORT and it.heard.kind in COMMANDS:
            tally.judge(it, Fault("encapsulation", "FCoE", "FIP"))


@RULES.rule("login-destination", "FC-BB-5, FIP FLOGI", "They go to the forwarder's own MAC.")
def addressed(talk: Talk, tally: Tally) -> None:
    for it, _ in sent(talk, "FLOGI", "FDISC", "LOGO"):
        there = it.heard.destination
        tally.judge(it, want("destination", colons(there), "the forwarder's MAC", not there[0] & 1))


@RULES.rule("login-descriptors", "FC-BB-5, FIP operations", "They have their descriptor and a MAC descriptor, each once.")
def described(talk: Talk, tally: Tally) -> None:
    for it, _ in sent(talk, "FLOGI", "FDISC", "LOGO"):
        tally.judge(it, has_kinds(it.heard, (DESCRIPTOR[it.heard.login_kind or ""], 2)))


@RULES.rule("login-flags", "FC-BB-5, FIP FLOGI, flags FP and SP", "FLOGI and FDISC say by FP or SP who provides the MAC.")
def flagged(talk: Talk, tally: Tally) -> None:
    for it, _ in sent(talk, "FLOGI", "FDISC"):
        flags = it.heard.flags
        tally.judge(it, want("flags", f"{flags:04x}", "FP (8000) or SP (4000) set", bool(flags & (FP | SP))))


@RULES.rule("login-mac", "FC-BB-5, server-provided MAC addresses", "With SP alone the MAC descriptor has a MAC of one station.")
def proposed(talk: Talk, tally: Tally) -> None:
    """The MAC that is asked for where the ENode provides it itself."""
    for it, _ in sent(talk, "FLOGI", "FDISC"):
        mac = mac_in(it.heard)
        if mac is not None and it.heard.flags & SP and not it.heard.flags & FP:
            tally.judge(it, want("MAC descriptor", colons(mac), "a MAC of one station, which isn't 0", any(mac) and not mac[0] & 1))


def header_faults(it: Shown, fc: Fc) -> list[Optional[Fault]]:
    return [
        want("R_CTL", f"{fc.r_ctl:02x}", "22"),
        want("TYPE", f"{fc.kind:02x}", "01"),
        want("D_ID", fcid(fc.d_id), fcid(FABRIC_PORT)),
        want("F_CTL", f"{fc.f_ctl:06x}", "290000", fc.f_ctl & 0xF90000 == 0x290000),
        want("RX_ID", f"{fc.rx_id:04x}", "ffff"),
        want("SEQ_CNT", fc.seq_cnt, 0),
        want("command", fc.payload[:1].hex(), f"{COMMANDS[it.heard.login_kind or '']:02x}"),
    ]


@RULES.rule("login-header", "FC-LS-2, FLOGI, FDISC, LOGO; FC-FS-3, frame header", "R_CTL 22, TYPE 01, D_ID FFFFFE, the first and only frame of a request, RX_ID FFFF.")
def headed(talk: Talk, tally: Tally) -> None:
    for it, fc in sent(talk, "FLOGI", "FDISC", "LOGO"):
        tally.judge(it, *header_faults(it, fc))


@RULES.rule("login-address", "FC-LS-2, FLOGI and FDISC", "The S_ID of FLOGI and FDISC is 000000.")
def without_address(talk: Talk, tally: Tally) -> None:
    for it, fc in sent(talk, "FLOGI", "FDISC"):
        tally.judge(it, want("S_ID", fcid(fc.s_id), "000000"))


@RULES.rule("login-parameters", "FC-LS-2, service parameters", "Class 3, a receive size of 256 to 2112, port name and node name, not as a fabric port.")
def parameters(talk: Talk, tally: Tally) -> None:
    for it, fc in sent(talk, "FLOGI", "FDISC"):
        payload = fc.payload
        if len(payload) < LOGIN_SIZE:
            tally.judge(it, Fault("payload", f"{len(payload)} bytes", f"{LOGIN_SIZE} bytes"))
            continue
        tally.judge(it, *login_faults(payload), want("feature of a fabric port", f"{number(payload[8:10]) & 0x1000:04x}", "0000"))


def is_name(name: bytes) -> bool:
    """A name of a format (NAA) that FC-FS-3 has."""
    return any(name) and name[0] >> 4 in NAMINGS


def port_faults(payload: bytes) -> list[Optional[Fault]]:
    """What is wrong in the parameters of a PLOGI for class 3."""
    if not payload[68] & 0x80:
        return []
    size, sequences, each = (number(payload[at : at + 2]) for at in (74, 76, 80))
    return [
        want("receive size of class 3", size, "256 to 2112, in words of four bytes", 256 <= size <= 2112 and size % 4 == 0),
        want("concurrent sequences of class 3", sequences & 0xFF, "1 or more", bool(sequences & 0xFF)),
        want("open sequences an exchange", each & 0xFF, "1 or more", bool(each & 0xFF)),
    ]


def login_faults(payload: bytes) -> list[Optional[Fault]]:
    """What is wrong in the parameters of a FLOGI, FDISC or PLOGI."""
    size = number(payload[10:12]) & 0xFFF
    classes = payload[52] | payload[68]  # 2 and 3, which FCoE carries
    return [
        want("receive size", size, "256 to 2112, in words of four bytes", 256 <= size <= 2112 and size % 4 == 0),
        want("port name", payload[20:28].hex(), "a name of a format that there is, and not 0", is_name(payload[20:28])),
        want("node name", payload[28:36].hex(), "a name of a format that there is, and not 0", is_name(payload[28:36])),
        want("class 3", payload[68:70].hex(), "its first bit set, or that of class 2", bool(classes & 0x80)),
    ]


@RULES.rule("fdisc-after-flogi", "FC-LS-2, FDISC", "An FDISC goes out after an accepted FLOGI that grants several addresses.")
def first_flogi(talk: Talk, tally: Tally) -> None:
    """An FDISC goes out where the ENode has a login, and the fabric grants several addresses."""
    for it, _ in sent(talk, "FDISC"):
        live = [grant for grant in talk.live(it.at, talk.mac) if grant.granted.heard.login_kind == "FLOGI"]
        if not live and talk.began_before(it):
            tally.leave("the ENode may have logged in before the capture began", it)
            continue
        if not talk.is_two_way and any(one.at < it.at and one.heard.login_kind == "FLOGI" for one in talk.logins):
            tally.leave(ONE_WAY, it)
            continue
        if not live:
            asked = not talk.is_two_way or any(one.at < it.at and one.heard.login_kind == "FLOGI" for one in talk.logins)
            tally.lack("FLOGI", it, Fault("login of its ENode", "none", "an accepted FLOGI"), missing=1 if asked else 2)
            continue
        if not live[0].granted.is_whole:
            tally.leave(CUT, it)
            continue
        features = number(live[0].granted.payload[8:10])
        tally.judge(it, want(f"features in the accept, frame {live[0].granted.place}", f"{features:04x}", "2000 (several addresses) set", bool(features & MANY)))


@RULES.rule("logo-names", "FC-LS-2, LOGO; FC-BB-5, FIP LOGO", "A LOGO in FIP names its own address, MAC and port name.")
def logged_out(talk: Talk, tally: Tally) -> None:
    """A LOGO in FIP names one N_Port: address, MAC and port name."""
    for it, fc in sent(talk, "LOGO"):
        payload = fc.payload
        if len(payload) < LOGO_SIZE:
            tally.judge(it, Fault("payload", f"{len(payload)} bytes", f"{LOGO_SIZE} bytes"))
            continue
        held = talk.login_of(fc.s_id, it.at)
        mac = mac_in(it.heard)
        tally.judge(
            it,
            want("address in the payload", payload[5:8].hex(), f"{fcid(fc.s_id)}, its S_ID", payload[5:8].hex() == fcid(fc.s_id)),
            want("MAC descriptor", colons(mac), colons(held.mac)) if mac and held else None,
        )
        if held and any(held.name):
            tally.lack(held, it, want("port name", colons(payload[8:16]), colons(held.name)), missing=2)
        if not talk.is_two_way and mac:
            used = mac_before(talk, fc.s_id, it.at)
            tally.judge(it, want("MAC descriptor", colons(mac), f"{colons(used)}, from which the frames of this address came", mac == used) if used else None)
            judge_names(talk, it, fc.s_id, (payload[8:16], b""), tally)


@RULES.rule("login-again", "FC-BB-5, FIP FLOGI; FC-LS-2, FLOGI", "A FLOGI without an answer is repeated, and not at once.", is_choice=True)
def asked_again(talk: Talk, tally: Tally) -> None:
    """A FLOGI that isn't answered comes again, and not at once."""
    last: Optional[Shown] = None
    for it, fc in sent(talk, "FLOGI"):
        is_answered = last and any(last.at < one.at < it.at and one.heard.operation == LOGIN_REPLY for one in talk.theirs)
        if last and not is_answered and last.heard.destination == it.heard.destination and it.clock - last.clock < BEHIND:
            gap = round(it.clock - last.clock)
            tally.usual(it, want(f"FLOGI {fc.ox_id:04x} again after", f"{gap} ms", f"{SOON} ms or more", gap >= SOON))
        last = it


@RULES.rule("reject-heeded", "FC-LS-2, LS_RJT reasons", "A request that was rejected doesn't come again unchanged at once.", is_choice=True)
def again(talk: Talk, tally: Tally) -> None:
    """What follows a reject, by its reason: busy asks for another try, the others for another request."""
    for one in talk.exchanges.all:
        reply = one.reply
        if one.request.is_switch or reply is None or not is_reject(reply):
            continue
        same = next((it for it in talk.within(reply.clock, reply.clock + AT_ONCE) if it.at > reply.at and is_same(it, one.request)), None)
        if same is None:
            tally.held.append(reply)
        else:
            reason = reply.payload[5]
            tally.leave(f"the same request again {same.clock - reply.clock:.0f} ms after a reject with reason {reason:02x} (frame {reply.place}): {LEFT}", same)


def is_reject(it: Shown) -> bool:
    """An LS_RJT."""
    return it.fc is not None and it.fc.kind == 1 and it.payload[:1] == b"\x01" and len(it.payload) >= 8


def is_same(it: Shown, other: Shown) -> bool:
    """The same request, to the same N_Port."""
    fc, asked = it.heard.fc, other.heard.fc
    return fc is not None and asked is not None and (fc.r_ctl, fc.d_id, fc.s_id, fc.payload) == (asked.r_ctl, asked.d_id, asked.s_id, asked.payload)


@RULES.rule("fdisc-name", "FC-LS-2, FDISC", "Each N_Port of an ENode has a port name of its own.")
def other_name(talk: Talk, tally: Tally) -> None:
    for it, fc in sent(talk, "FDISC"):
        name = fc.payload[20:28]
        first = next((grant for grant in talk.live(it.at, talk.mac) if grant.granted.heard.login_kind == "FLOGI"), None)
        asked = next((one for one, _ in reversed(list(sent(talk, "FLOGI"))) if one.at < it.at), None)
        known = first.name if first else asked.known[20:28] if asked else b""
        if known:
            tally.judge(it, want("port name", colons(name), "another than that of the FLOGI", name != known))


@RULES.rule("login-mac-proposed", "FC-BB-5, FIP FLOGI, MAC descriptor", "With FP alone the MAC descriptor proposes none: it is 0.", is_choice=True)
def nothing_proposed(talk: Talk, tally: Tally) -> None:
    for it, _ in sent(talk, "FLOGI", "FDISC"):
        mac = mac_in(it.heard)
        if mac is not None and not it.heard.flags & SP:
            tally.usual(it, want("MAC descriptor", colons(mac), colons(bytes(6))))


@RULES.rule("login-versions", "FC-LS-2, common service parameters", "The lowest version is no greater than the highest.", is_choice=True)
def versions(talk: Talk, tally: Tally) -> None:
    for it, fc in sent(talk, "FLOGI", "FDISC"):
        if len(fc.payload) >= LOGIN_SIZE:
            highest, lowest = fc.payload[4], fc.payload[5]
            tally.usual(it, want("lowest version", f"{lowest:02x}", f"{highest:02x} at most, the highest", lowest <= highest))
