"""Rules on keep alives (FC-BB-5, FIP keep alive)."""
from typing import Callable, Hashable, Iterator, Optional

from ..frames.heard import KEEP_ALIVE, colons, fcid, number
from ..runs.configs import FPMA
from .discovery import destination_of, has_kinds, shown, vlan_of
from .habits import Say, judge_names, lot_of, stretches
from .rules import ONE_WAY, Fault, Group, Tally, want
from .shown import Shown, mac_in, period_in, vx_in
from .talk import PERIODS, Talk

PORT_PERIOD = 90_000  # FKA_VN_PERIOD in milliseconds
LATE = 1.5  # periods behind which one may be missing from the capture
SURE = 4.5  # periods without one, behind which it isn't two that are lost
OFTEN = 0.35  # periods from one to the next, below which that is more than asked for
IN_FLIGHT = 2_000  # milliseconds (E_D_TOV) within which a keep alive may have crossed what ended the login
HABIT = 4  # late keep alives, from which on it's no accident
BOTH = ("Keep alive", "VN_Port keep alive")
RULES = Group("keep alives")


@RULES.rule("alive-descriptors", "FC-BB-5, FIP operations", "An ENode's keep alive has a MAC descriptor, a VN_Port's a Vx_Port descriptor too.")
def described(talk: Talk, tally: Tally) -> None:
    for it in talk.of(*BOTH):
        kinds = (2, 11) if it.heard.kind == "VN_Port keep alive" else (2,)
        tally.judge(it, has_kinds(it.heard, kinds))


@RULES.rule("alive-source", "FC-BB-5, FIP keep alive", "An ENode's keep alive comes from the ENode's MAC, a VN_Port's from the VN_Port's.")
def sources(talk: Talk, tally: Tally) -> None:
    """That of an ENode comes from its MAC, that of a VN_Port from the VN_Port's."""
    for it in talk.of(*BOTH):
        ports = vx_in(it.heard)
        should = ports[0][0] if ports else mac_in(it.heard)
        if should is not None:
            tally.judge(it, want("source", colons(it.heard.source), colons(should)))


@RULES.rule("alive-mac", "FC-BB-5, FIP keep alive", "The MAC descriptor of both is the ENode's MAC.")
def enode_named(talk: Talk, tally: Tally) -> None:
    for it in talk.of(*BOTH):
        mac = mac_in(it.heard)
        if mac is not None and any(one.heard.operation and one.heard.operation != KEEP_ALIVE for one in talk.own):
            tally.judge(it, want("MAC descriptor", colons(mac), colons(talk.mac)))


@RULES.rule("alive-port", "FC-BB-5, FIP keep alive, Vx_Port descriptor", "A VN_Port's keep alive has the address and port name of its login.")
def port_named(talk: Talk, tally: Tally) -> None:
    """MAC, address and port name are those of the login."""
    for it in talk.of("VN_Port keep alive"):
        for mac, address, name in vx_in(it.heard):
            found = talk.grant_of(mac, it.at)
            fault = want("address", fcid(address), f"{fcid(number(mac[3:]))}, the end of its MAC", mac[:2] != FPMA or number(mac[3:]) == address)
            if fault:
                tally.judge(it, fault)
            elif found is None and not talk.is_two_way:
                judge_names(talk, it, address, (name, b""), tally)
            elif found is None:
                tally.leave("the grant of this MAC isn't in the capture", it)
            else:
                tally.judge(it, want("address", fcid(address), fcid(found.address)))
                if any(found.name):
                    tally.lack(found, it, want("port name", colons(name), colons(found.name)), missing=2)


@RULES.rule("alive-destination", "FC-BB-5, FIP keep alive", "Keep alives go to the forwarder of the login.")
def to_forwarder(talk: Talk, tally: Tally) -> None:
    if not talk.is_two_way:
        agree_alive(talk, tally, "destination", destination_of, shown)
    for it in talk.of(*BOTH):
        there = it.heard.destination
        ever = [grant for grant in talk.grants if grant.granted.at < it.at]
        held = {grant.forwarder for grant in ever if grant.ended is None or it.clock < grant.ended.clock + IN_FLIGHT}
        advertised = {one.heard.source for one in talk.advertisements if one.at < it.at}
        if there not in held and ever and (there in advertised or there in {grant.forwarder for grant in ever}):
            tally.leave(f"it goes to {colons(there)}, a forwarder that the ENode may log in at next, or whose logins have ended", it)
        elif ever:
            should = sorted(held or {grant.forwarder for grant in ever})
            tally.judge(it, want("destination", colons(there), " or ".join(map(colons, should)), there in held))
        else:
            tally.judge(it, want("destination", colons(there), "the forwarder's MAC", not there[0] & 1))


def agree_alive(talk: Talk, tally: Tally, name: str, say: Say, show: Callable[[Hashable], str]) -> None:
    """Keep alives of a host's direction alone are as the FLOGI of their time, as FCoE is: one that isn't, among many that are, or none that is."""
    known = {say(one.login) for one in stretches(talk) if one.login}
    for one in stretches(talk):
        some, lot = [it for it in one.all if it.heard.kind in BOTH], lot_of(one.all, say)
        due = say(one.login) if one.login else None
        is_whole = bool(some) and due in {say(it) for it in one.uses if it.heard.is_fcoe} and all(say(it) != due for it in some)
        for it in some:
            fault = want(name, show(say(it)), f"{show(due)}, as of the FLOGI in frame {one.login.place if one.login else ''}", say(it) == due)
            if one.login is None or fault and say(it) in known:
                tally.leave(ONE_WAY, it)
            elif fault is None or lot.is_odd(it.at, say(it), due):
                tally.judge(it, fault)
            elif is_whole:
                tally.lack(("stretch", one.login.at), it, fault, missing=2 if one.is_prompt else 1)


def spans(talk: Talk) -> Iterator[tuple[Shown, Optional[Shown], float]]:
    """When somebody of the ENode was logged in: from each accepted FLOGI to the end of its last login, or to a further FLOGI."""
    firsts = [it for it in talk.grants if it.granted.heard.login_kind == "FLOGI"]
    for grant, after in zip(firsts, [*firsts[1:], None]):
        until = after.granted.at if after else len(talk.port.frames)
        ends = [it.ended for it in talk.grants if grant.granted.at <= it.granted.at < until]
        last = max((it for it in ends if it), key=lambda it: it.at, default=None)
        ended = None if any(it is None for it in ends) else last
        yield grant.granted, ended, ended.clock if ended else talk.end


def advertised_period(talk: Talk, forwarder: bytes, begin: float, end: float) -> Optional[int]:
    """The longest period that a forwarder advertised up to the end of a gap, from the last one before it on; none where D says that no keep alive is owed."""
    told = [it for it in talk.advertisements if it.heard.source == forwarder and it.clock <= end]
    earlier = [it for it in told if it.clock <= begin][-1:]
    found = [period for it in earlier + [it for it in told if it.clock > begin] if (period := period_in(it.heard))]
    return None if not found or any(is_quiet for _, is_quiet in found) else max(period for period, _ in found)


def gaps(talk: Talk, tally: Tally, begin: Shown, end: float, beats: list[Shown], fixed: Optional[int] = None) -> None:
    """Judges the time between keep alives, from a login to its end; while the forwarder is silent none is owed."""
    last = begin
    late: list[tuple[Shown, float, int]] = []
    for it in [*beats, None]:
        clock, frame = it.clock if it else end, it or last
        silent = [one.begin for one in talk.silences if one.last.heard.source == begin.heard.source and one.begin < clock and last.clock < one.end]
        gap = min([clock, *silent]) - last.clock
        period = advertised_period(talk, begin.heard.source, last.clock, clock)
        period = fixed if fixed and period else period
        if period and gap > PERIODS * period:
            fault = Fault("time without a keep alive", f"{gap / 1000:.1f} s after frame {last.place}", f"one each {period / 1000:g} s")
            tally.lack(("beat", frame.at), frame, fault, missing=2 if gap > SURE * period else 1)
        elif period and gap > LATE * period:
            late.append((frame, gap, period))
        elif it and period:
            tally.held.append(it)
        last = frame
    judge_late(late, len(beats), tally)


def judge_late(late: list[tuple[Shown, float, int]], count: int, tally: Tally) -> None:
    """Keep alives each second period: one may be lost, but not each second one."""
    is_habit = len(late) >= HABIT and 2 * len(late) > count
    for shown, gap, period in late:
        if is_habit:
            tally.judge(shown, Fault("time between keep alives", f"{gap / 1000:.1f} s, and so {len(late)} times of {count}", f"one each {period / 1000:g} s"))
        else:
            tally.leave(f"{gap / 1000:.1f} s without a keep alive before frame {shown.place}, with a period of {period / 1000:g} s: one may be missing from the capture", shown)


@RULES.rule("alive-enode-period", "FC-BB-5, FIP keep alive, FKA_ADV_PERIOD", "While logged in an ENode sends one each advertised period.")
def enode_alive(talk: Talk, tally: Tally) -> None:
    if not talk.grants:
        for it in talk.of("Keep alive"):
            tally.leave(ONE_WAY if not talk.is_two_way else "no login is in the capture, so the period isn't known", it)
    for begin, ended, end in spans(talk):
        told = talk.advertised(begin.at, begin.heard.source)
        beats = [it for it in talk.of("Keep alive") if begin.at < it.at and (ended is None or it.at < ended.at)]
        if told is None:
            tally.leave("no advertisement with the period stands before the login", begin)
        else:
            gaps(talk, tally, begin, end, beats)


@RULES.rule("alive-port-period", "FC-BB-5, FIP keep alive, FKA_VN_PERIOD", "Each VN_Port sends one each 90 s.")
def port_alive(talk: Talk, tally: Tally) -> None:
    for grant in talk.grants:
        end = grant.ended.clock if grant.ended else talk.end
        beats = [it for it in talk.of("VN_Port keep alive") if it.heard.source == grant.mac and grant.granted.at < it.at and (grant.ended is None or it.at < grant.ended.at)]
        gaps(talk, tally, grant.granted, end, beats, PORT_PERIOD)
    if not talk.is_two_way:
        port_alive_alone(talk, tally)
    elif not talk.grants:
        for it in talk.of("VN_Port keep alive"):
            tally.leave("the grant isn't in the capture", it)


def port_alive_alone(talk: Talk, tally: Tally) -> None:
    """Of a host's direction alone: while a MAC is used and the ENode's keep alives go on, so that D isn't set. One that sends none of VN_Ports can't be told."""
    beats = list(talk.of("VN_Port keep alive"))
    for one in stretches(talk):
        breaks = [it.clock for it in talk.logins if it.heard.login_kind in ("FDISC", "LOGO")]
        for mac in dict.fromkeys(it.heard.source for it in one.uses if beats):
            judge_beats([it for it in one.uses if it.heard.source == mac], one.alive, breaks, tally)
    tally.left += [(it, ONE_WAY) for it in beats[:1]]


def judge_beats(uses: list[Shown], alive: list[Shown], breaks: list[float], tally: Tally) -> None:
    """Judges the time between the keep alives of a MAC from its first use to its last."""
    last = uses[0]
    for it in uses:
        if it.heard.kind != "VN_Port keep alive" and it is not uses[-1]:
            continue
        gap = it.clock - last.clock
        are_alive = sum(last.clock < one.clock < it.clock for one in alive) * PORT_PERIOD >= gap
        if gap > PERIODS * PORT_PERIOD and are_alive and not any(last.clock < clock < it.clock for clock in breaks):
            fault = Fault("time without a keep alive", f"{gap / 1000:.1f} s after frame {last.place}", f"one each {PORT_PERIOD / 1000:g} s")
            tally.lack(("beat", it.at), it, fault, missing=2 if gap > SURE * PORT_PERIOD else 1)
        last = it


@RULES.rule("alive-quiet", "FC-BB-5, FIP discovery, D bit", "None is sent while the forwarder says so by D.", is_choice=True)
def quiet(talk: Talk, tally: Tally) -> None:
    """With D set no keep alive is owed."""
    for told in talk.advertisements:
        period = period_in(told.heard)
        after = next((it.at for it in talk.advertisements if it.at > told.at and it.heard.source == told.heard.source), len(talk.port.frames))
        if period and period[1] and talk.live(told.at):
            sent = [it for it in talk.of(*BOTH) if told.at < it.at < after and it.heard.destination == told.heard.source]
            tally.usual(sent[0] if sent else told, want("keep alives after D", len(sent), 0))


@RULES.rule("alive-often", "FC-BB-5, FIP keep alive, FKA_ADV_PERIOD", "An ENode sends no more than two or three a period.", is_choice=True)
def often(talk: Talk, tally: Tally) -> None:
    beats = list(talk.of("Keep alive"))
    for before, it in zip(beats, beats[1:]):
        period = advertised_period(talk, it.heard.destination, before.clock, it.clock)
        if period and it.heard.destination == before.heard.destination and it.clock - before.clock < OFTEN * period:
            tally.usual(it, Fault("keep alives", f"one {(it.clock - before.clock) / 1000:.1f} s after frame {before.place}", f"one each {period / 1000:g} s"))
            return
    tally.held += beats[1:]


@RULES.rule("alive-vlan", "FC-BB-5, FIP keep alive; IEEE 802.1Q", "Keep alives go out in the VLAN of the login.")
def in_vlan(talk: Talk, tally: Tally) -> None:
    if not talk.is_two_way:
        agree_alive(talk, tally, "VLAN", vlan_of, shown)
    for it in talk.of(*BOTH):
        grant = next((one for one in reversed(talk.grants) if one.granted.at < it.at and one.forwarder == it.heard.destination), None)
        if grant is not None:
            tally.judge(it, want("VLAN", it.heard.vlan, grant.granted.heard.vlan))
