"""Rules on FIP in general, on VLAN requests, on solicitations, and on the choice of a forwarder (FC-BB-5, FIP)."""
from typing import Hashable, Iterator, Optional

from ..frames.codes import descriptors_text
from ..frames.heard import ADVERTISE, ALL_FCFS, KEEP_ALIVE, LOGIN, SOLICIT, VLAN_REQUEST, VLAN_TELL, Heard, colons, number
from .habits import strayed, stretches
from .rules import ONE_WAY, Fault, Group, Tally, want
from .shown import Shown, mac_in
from .talk import Talk

FP, SP, AVAILABLE, SOLICITED, FROM_FORWARDER = 0x8000, 0x4000, 0x0004, 0x0002, 0x0001
LENGTHS = {1: 4, 2: 8, 3: 8, 4: 12, 5: 16, 6: 4, 11: 20, 12: 8, 13: 12, 14: 4}  # bytes of each descriptor
RESERVED = {1: (2, 3), 4: (2, 4), 5: (4, 5), 7: (2, 4), 8: (2, 4), 9: (2, 4), 11: (8, 9), 12: (2, 3)}  # places in a descriptor
KINDS = {VLAN_REQUEST: (2,), SOLICIT: (2, 4, 6)}
LOGIN_KINDS, CRITICAL = (7, 8, 9), 128
OVERHEAD, LARGEST = 46, 2158  # of an FCoE PDU: beside the FC payload (header of FCoE, FC header, CRC, EOF), and with the largest one
SOON = 500  # milliseconds within which nobody usually asks again
BEHIND = 60_000  # milliseconds behind which a question is a new one
RULES = Group("discovery")


def fip_frames(talk: Talk) -> Iterator[Shown]:
    return (it for it in talk.own if it.heard.is_fip and it.is_whole and it.heard.operation)


@RULES.rule("fip-version", "FC-BB-5, FIP encapsulation", "FIP frames have version 1.")
def version(talk: Talk, tally: Tally) -> None:
    for it in fip_frames(talk):
        tally.judge(it, want("FIP version", it.heard.data[it.heard.at] >> 4, 1))


@RULES.rule("fip-lists", "FC-BB-5, FIP descriptors", "The list's length is that of its descriptors, and each descriptor has its type's length.")
def lists(talk: Talk, tally: Tally) -> None:
    for it in fip_frames(talk):
        heard, sizes = it.heard, [len(one.data) for one in it.heard.descriptors]
        length = 4 * number(heard.data[heard.at + 6 : heard.at + 8])
        wrong = next((one for one in heard.descriptors if LENGTHS.get(one.kind, len(one.data)) != len(one.data)), None)
        tally.judge(
            it,
            want("list length", length, sum(sizes)),
            want(f"length of descriptor {wrong.kind}", len(wrong.data), LENGTHS[wrong.kind]) if wrong else None,
        )


@RULES.rule("fip-order", "FC-BB-5, FIP operations", "Descriptors stand in the order of the operation's table; a vendor's own behind them.")
def in_order(talk: Talk, tally: Tally) -> None:
    for it in fip_frames(talk):
        order = order_of(it)
        found = [one.kind for one in it.heard.descriptors if one.kind in order]
        tally.judge(it, want("descriptors", descriptors_text(found), descriptors_text(sorted(found, key=order.index))))


@RULES.rule("fip-surplus", "FC-BB-5, FIP operations; FIP descriptors", "A message has no critical descriptor (type below 128) that its operation hasn't.")
def no_surplus(talk: Talk, tally: Tally) -> None:
    for it in fip_frames(talk):
        order = order_of(it)
        further = [one.kind for one in it.heard.descriptors if one.kind < CRITICAL and one.kind not in order]
        if order:
            tally.judge(it, want("further descriptors", descriptors_text(further), "none below 128", not further))


def order_of(it: Shown) -> tuple[int, ...]:
    """The descriptors of an ENode's operation, in their order."""
    heard = it.heard
    if heard.operation == LOGIN:
        return (next((one.kind for one in heard.descriptors if one.kind in LOGIN_KINDS), 7), 2)
    if heard.operation == KEEP_ALIVE:
        return (2, 11)
    return KINDS.get(heard.operation or (0, 0), ())


@RULES.rule("fip-flags", "FC-BB-5, FIP encapsulation, flags", "An ENode's message has FP and SP alone: no reserved flag, and none of a forwarder's.")
def flagged(talk: Talk, tally: Tally) -> None:
    for it in fip_frames(talk):
        allowed = FP | SP | (FROM_FORWARDER if it.heard.operation == SOLICIT else 0)  # F of a solicitation is a rule of its own
        tally.judge(it, want("flags", f"{it.heard.flags:04x}", "FP (8000) and SP (4000) at most", not it.heard.flags & ~allowed))


@RULES.rule("fip-reserved", "FC-BB-5, FIP encapsulation and descriptors", "Reserved bytes are sent as 0.")
def reserved(talk: Talk, tally: Tally) -> None:
    for it in fip_frames(talk):
        heard = it.heard
        head = heard.data[heard.at : heard.at + 10]
        faults = [want("reserved bytes of the FIP header", f"{head[0] & 15:x} {head[1]:02x} {head[4]:02x}", "0 00 00")]
        for one in heard.descriptors:
            begin, end = RESERVED.get(one.kind, (0, 0))
            faults.append(want(f"reserved bytes of descriptor {one.kind}", one.data[begin:end].hex(), bytes(end - begin).hex()))
        tally.judge(it, *faults)


def forwarders(talk: Talk) -> set[bytes]:
    """The MACs that are forwarders', as they say so or as the ENode logs in there."""
    found: set[bytes] = talk.told.get("forwarders") or {it.heard.source for it in talk.theirs if it.heard.is_fip} | {it.heard.destination for it in talk.logins if it.heard.is_fip}
    talk.told["forwarders"] = found
    return found


def to_forwarders(kind: str, talk: Talk, tally: Tally) -> None:
    """A MAC that isn't known for a forwarder's may be one's that fell silent before the capture began."""
    for it in talk.of(kind):
        there = it.heard.destination
        fault = Fault("destination", colons(there), f"{colons(ALL_FCFS)} (All-FCF-MACs) or a forwarder's MAC")
        if there == ALL_FCFS or there in forwarders(talk):
            tally.held.append(it)
        elif there[0] & 1:
            tally.judge(it, fault)
        elif talk.is_two_way and not talk.began_before(it):
            tally.lack(("forwarder", there), it, fault, missing=2)
        else:
            tally.leave(f"{colons(there)} may be a forwarder's that isn't in the capture", it)


@RULES.rule("vlan-request-destination", "FC-BB-5, FIP VLAN discovery", "A VLAN request goes to All-FCF-MACs or to a forwarder.")
def asks_forwarders(talk: Talk, tally: Tally) -> None:
    to_forwarders("VLAN request", talk, tally)



def has_kinds(heard: Heard, kinds: tuple[int, ...]) -> Optional[Fault]:
    """Each of these descriptors stands once; further ones that may be skipped (from 128 on) are free."""
    found = [it.kind for it in heard.descriptors]
    return want("descriptors", descriptors_text(found), descriptors_text(list(kinds)) + ", each once", all(found.count(it) == 1 for it in kinds))


def with_kinds(it: Shown) -> list[Optional[Fault]]:
    return [has_kinds(it.heard, KINDS[it.heard.operation])] if it.heard.operation in KINDS else []


RULES.each("vlan-request-descriptors", "FC-BB-5, FIP operations", "A VLAN request has a MAC descriptor.", "VLAN request")(with_kinds)


def of_mac(it: Shown) -> list[Optional[Fault]]:
    found = mac_in(it.heard)
    return [want("MAC descriptor", colons(found), colons(it.heard.source))] if found else []


RULES.each("vlan-request-mac", "FC-BB-5, FIP VLAN discovery", "Its MAC descriptor is its source.", "VLAN request")(of_mac)


def spaced(kind: str, answered_by: tuple[int, int], talk: Talk, tally: Tally) -> None:
    """A question that isn't answered is asked again, and not at once."""
    last: Optional[Shown] = None
    answers = [it.at for it in talk.theirs if it.heard.operation == answered_by]
    for it in talk.of(kind):
        if last and it.heard.vlan == last.heard.vlan and not any(last.at < at < it.at for at in answers) and it.clock - last.clock < BEHIND:
            gap = round(it.clock - last.clock)
            tally.usual(it, want("asked again after", f"{gap} ms", f"{SOON} ms or more", gap >= SOON))
        last = it


@RULES.rule("vlan-request-again", "FC-BB-5, FIP VLAN discovery", "A VLAN request without an answer is repeated, and not at once.", is_choice=True)
def asked_again(talk: Talk, tally: Tally) -> None:
    spaced("VLAN request", VLAN_TELL, talk, tally)


def told_vlans(talk: Talk, at: int) -> set[int]:
    """The VLANs that notifications to the ENode named before a frame."""
    return {number(one.data[2:4]) & 0xFFF for it in talk.theirs if it.heard.operation == VLAN_TELL and it.at < at for one in it.heard.descriptors if one.kind == 14}


@RULES.rule("vlan-told", "FC-BB-5, FIP VLAN discovery", "Solicitations go out in a VLAN that a notification named.", is_choice=True)
def in_told_vlan(talk: Talk, tally: Tally) -> None:
    for it in talk.of("Solicitation"):
        told = told_vlans(talk, it.at)
        if told:
            tally.usual(it, want("VLAN", it.heard.vlan, " or ".join(map(str, sorted(told))), it.heard.vlan in told))
        elif not talk.is_two_way:
            tally.leave(ONE_WAY, it)


@RULES.rule("solicitation-destination", "FC-BB-5, FIP discovery", "A solicitation goes to All-FCF-MACs or to a forwarder.")
def solicits_forwarders(talk: Talk, tally: Tally) -> None:
    to_forwarders("Solicitation", talk, tally)


RULES.each("solicitation-descriptors", "FC-BB-5, FIP operations", "A solicitation has MAC, name and size, each once.", "Solicitation")(with_kinds)
RULES.each("solicitation-mac", "FC-BB-5, FIP discovery", "Its MAC descriptor is its source.", "Solicitation")(of_mac)


@RULES.each("solicitation-role", "FC-BB-5, FIP discovery", "An ENode's solicitation has F clear.", "Solicitation")
def no_forwarder(it: Shown) -> list[Optional[Fault]]:
    return [want("flag F", it.heard.flags & FROM_FORWARDER, 0)]


@RULES.each("solicitation-flags", "FC-BB-5, FIP discovery", "It says by FP or SP which MACs the ENode can use.", "Solicitation")
def asks_for_mac(it: Shown) -> list[Optional[Fault]]:
    return [want("flags", f"{it.heard.flags:04x}", "FP (8000) or SP (4000) set", bool(it.heard.flags & (FP | SP)))]


@RULES.each("solicitation-name", "FC-BB-5, FIP discovery; FC-FS-3, names", "It has the ENode's node name.", "Solicitation")
def has_name(it: Shown) -> list[Optional[Fault]]:
    found = it.heard.descriptor(4)
    return [want("name descriptor", found.data[4:12].hex(), "a name that isn't 0", any(found.data[4:12]))] if found else []


@RULES.rule("solicitation-again", "FC-BB-5, FIP discovery", "A solicitation without an answer is repeated, and not at once.", is_choice=True)
def solicited_again(talk: Talk, tally: Tally) -> None:
    spaced("Solicitation", ADVERTISE, talk, tally)


@RULES.rule("forwarder-known", "FC-BB-5, FIP discovery", "A FLOGI goes to a forwarder that advertised itself in that VLAN.")
def known(talk: Talk, tally: Tally) -> None:
    for it in talk.of("FLOGI"):
        if it.heard.is_fip and talk.is_two_way:
            there = it.heard.destination
            is_known = any(one.at < it.at and one.heard.source == there and one.heard.vlan == it.heard.vlan for one in talk.advertisements)
            if is_known or any(one.at < it.at for one in talk.of("Solicitation")):
                known_else = any(one.heard.source == there for one in talk.advertisements)
                fault = want("destination", colons(there), "the MAC of a forwarder that advertised itself in this VLAN before", is_known)
                if known_else or there[0] & 1:  # it advertises itself later, or in another VLAN
                    tally.judge(it, fault)
                else:
                    tally.lack(there, it, fault)
            else:
                tally.leave("the capture may have begun after the advertisement", it)
    if not talk.is_two_way:
        known_alone(talk, tally)


def known_alone(talk: Talk, tally: Tally) -> None:
    """Of a host's direction alone: keep alives and FCoE go where the FLOGI went before them."""
    for one in stretches(talk):
        for name, say in (("destination", destination_of), ("VLAN", vlan_of)):
            there = strayed(one, say)
            if one.login is not None and there is not None:
                fault = Fault(name, shown(say(one.login)), f"{shown(there)}, where all keep alives and FCoE behind it go")
                tally.lack(("stretch", one.login.at), one.login, fault, missing=2 if one.is_prompt else 1)
            elif one.login is not None:
                tally.leave(ONE_WAY, one.login)


def destination_of(it: Shown) -> Hashable:
    return it.heard.destination


def vlan_of(it: Shown) -> Hashable:
    return it.heard.vlan


def shown(value: Hashable) -> str:
    return colons(value) if isinstance(value, bytes) else str(value)


def logins(talk: Talk, tally: Tally) -> Iterator[tuple[Shown, Shown]]:
    """Each FLOGI with the latest advertisement of the forwarder that it goes to, in its VLAN."""
    for it in talk.of("FLOGI"):
        if not it.heard.is_fip:
            continue
        found = talk.advertised(it.at, it.heard.destination)
        if found:
            yield it, found
        elif not talk.is_two_way:
            tally.leave(ONE_WAY, it)


def unasked(talk: Talk, tally: Tally) -> None:
    """Of a host's direction alone: FLOGIs behind a VLAN request and no solicitation."""
    for it in talk.of("FLOGI"):
        if it.heard.is_fip and begins_before(talk, it):
            asked = any(one.at < it.at for one in talk.of("Solicitation"))
            tally.lack("solicitation", it, want("solicitation before it", "none", "one, so that the forwarder answers with a whole frame", asked))


@RULES.rule("forwarder-available", "FC-BB-5, FIP discovery, flag A (from memory)", "A FLOGI goes to a forwarder that is available for login.")
def available(talk: Talk, tally: Tally) -> None:
    for it, told in logins(talk, tally):
        tally.judge(it, want(f"flag A of the advertisement in frame {told.place}", int(bool(told.heard.flags & AVAILABLE)), 1))


@RULES.rule("forwarder-macs", "FC-BB-5, FIP discovery, flags FP and SP", "A FLOGI asks for a kind of MAC that the forwarder has.")
def same_kind_of_mac(talk: Talk, tally: Tally) -> None:
    for it, told in logins(talk, tally):
        asked = it.heard.flags & (FP | SP)
        tally.judge(it, want("flags", f"{asked:04x}", f"one of those of the forwarder, {told.heard.flags & (FP | SP):04x} in frame {told.place}", bool(asked & told.heard.flags)))


@RULES.rule("forwarder-size", "FC-BB-5, FIP discovery, FCoE size (from memory)", "A FLOGI follows a solicited advertisement of the size that was asked for.")
def padded(talk: Talk, tally: Tally) -> None:
    """The forwarder answered a solicitation of this ENode with an advertisement of the size that was asked for."""
    if not talk.is_two_way:
        unasked(talk, tally)
    for it, _ in logins(talk, tally):
        asked = [one for one in talk.of("Solicitation") if one.at < it.at]
        answers = [one for one in talk.advertisements if one.at < it.at and one.heard.source == it.heard.destination and one.heard.flags & SOLICITED]
        size = asked[-1].heard.descriptor(6) if asked else None
        if not asked and not answers and not begins_before(talk, it):
            tally.leave("no solicitation stands before it in the capture", it)
            continue
        wanted = number(size.data[2:4]) if size else 0
        longest, head = max(((one.port.frames.lengths[one.at], one.heard.at) for one in answers), default=(0, 0))
        if longest - head < wanted <= longest:
            tally.leave(f"{longest} bytes with the Ethernet header, which may or may not count to the {wanted} that were asked for", it)
            continue
        fault = want("longest solicited advertisement before it", f"{longest} bytes" if longest else "none", f"{wanted} bytes as asked for", longest >= max(wanted, 1))
        if longest:
            tally.judge(it, fault)
        else:
            tally.lack(it.heard.destination, it, fault)


def begins_before(talk: Talk, it: Shown) -> bool:
    """The ENode's VLAN request stands before a frame, so that all of its discovery is in the capture."""
    return any(one.at < it.at for one in talk.of("VLAN request"))


@RULES.rule("forwarder-priority", "FC-BB-5, FIP discovery, priority", "Of several forwarders the one of the best priority is taken.", is_choice=True)
def best(talk: Talk, tally: Tally) -> None:
    """Of several forwarders the one with the highest priority, which is the least number."""
    for it, _ in logins(talk, tally):
        heard: dict[bytes, Heard] = {one.heard.source: one.heard for one in talk.advertisements if one.at < it.at and one.heard.vlan == it.heard.vlan}
        found = {mac: one.data[3] for mac, told in heard.items() if told.flags & AVAILABLE and (one := told.descriptor(1))}
        if it.heard.destination in found:
            least = min(found.values())
            tally.usual(it, want("priority of its forwarder", found[it.heard.destination], f"{least}, the best that advertises itself", found[it.heard.destination] == least))


@RULES.rule("solicitation-size", "FC-BB-5, FIP discovery, Max_FCoE_Size", "The size that a solicitation asks for fits the receive size of the FLOGI, and FCoE.")
def asked_size(talk: Talk, tally: Tally) -> None:
    login = next((it for it in talk.logins if it.heard.login_kind == "FLOGI" and len(it.known) >= 116), None)
    least = (number(login.payload[10:12]) & 0xFFF) + OVERHEAD if login and number(login.payload[10:12]) & 0xFFF >= 256 else 256 + OVERHEAD
    for it in talk.of("Solicitation"):
        found = it.heard.descriptor(6)
        if found is not None and len(found.data) >= 4:
            size = number(found.data[2:4])
            tally.judge(it, want("Max FCoE size", size, f"{min(least, LARGEST)} to {LARGEST}", min(least, LARGEST) <= size <= LARGEST))


@RULES.rule("solicitation-name-own", "FC-BB-5, FIP discovery; FC-LS-2, FLOGI", "The name of a solicitation is the node name of the FLOGI.", is_choice=True)
def own_name(talk: Talk, tally: Tally) -> None:
    known = {it.payload[28:36] for it in talk.logins if it.heard.login_kind == "FLOGI" and len(it.known) >= 116}
    for it in talk.of("Solicitation"):
        found = it.heard.descriptor(4)
        if found is not None and known:
            tally.usual(it, want("name", found.data[4:12].hex(), " or ".join(one.hex() for one in sorted(known)), found.data[4:12] in known))


@RULES.rule("vlan-request-tag", "FC-BB-5, FIP VLAN discovery", "A VLAN request has no tag, or one of VLAN 0.", is_choice=True)
def untagged(talk: Talk, tally: Tally) -> None:
    for it in talk.of("VLAN request"):
        tally.usual(it, want("VLAN", it.heard.vlan, 0))
