"""Rules on FCP, of initiators and of targets: commands, data, what asked for them, responses (FCP-4)."""
from dataclasses import dataclass, field
from typing import Iterator, Optional

from ..frames.heard import Fc, fcid, number
from .exchange import ended_between, judge_alone
from .exchanged import END_SEQUENCE, Exchange, is_alike
from .rules import CUT, ONE_WAY, Fault, Group, Tally, want
from .shown import Shown
from .talk import Talk

FCP, COMMAND, DATA, READY, RESPONSE = 0x08, 0x06, 0x01, 0x05, 0x07
WRITES, READS = 0x01, 0x02
COMMAND_SIZE, RESPONSE_SIZE, READY_SIZE, BOTH_SIZE = 32, 24, 12, 36
RESPONSE_HELD, SENSE_HELD, OVER, UNDER, CONFIRM = 0x01, 0x02, 0x04, 0x08, 0x10
OFFSET_HELD, FILL = 0x000008, 3  # F_CTL
ATTRIBUTES = (0, 1, 2, 4, 5)
NO_READY = 0x01  # a PRLI's function: writes begin without FCP_XFER_RDY
PATIENCE = 60_000  # milliseconds behind which a command that is open without an end was forgotten
RULES = Group("FCP", is_across=True)


def size_of(fc: Fc) -> int:
    """The bytes of data in a frame."""
    return max(len(fc.payload) - (fc.f_ctl & FILL), 0)


def offset_of(fc: Fc) -> Optional[int]:
    """Relative offset, where F_CTL says that PARAMETER is one."""
    return number(fc.data[fc.at + 20 : fc.at + 24]) if fc.f_ctl & OFFSET_HELD else None


@dataclass
class Task:
    """A command, and what followed it."""

    one: Exchange
    length: int
    flags: int
    manages: int
    out: list[tuple[Shown, Fc]] = field(default_factory=list)
    back: list[tuple[Shown, Fc]] = field(default_factory=list)
    ready: list[tuple[Shown, Fc]] = field(default_factory=list)
    behind: list[Shown] = field(default_factory=list)  # data and FCP_XFER_RDY behind the response: of a command that isn't there, or too late
    response: Optional[Shown] = None

    @property
    def is_plain(self) -> bool:
        """Data go in one direction, and none came behind the response."""
        return not self.manages and not self.behind and self.flags != READS | WRITES

    def take(self, it: Shown, fc: Fc, is_back: bool) -> None:
        kind = fc.r_ctl & 0x0F
        if self.response is not None and kind in (DATA, READY):
            self.behind.append(it)
        elif kind == DATA:
            (self.back if is_back else self.out).append((it, fc))
        elif kind == READY:
            self.ready.append((it, fc))
        elif kind == RESPONSE and self.response is None:
            self.response = it


def tasks(talk: Talk) -> list[Task]:
    """All commands whose FCP_CMND is there, whole, told once."""
    found: list[Task] = talk.told.get("tasks") or list(told_tasks(talk))
    talk.told["tasks"] = found
    return found


def told_tasks(talk: Talk) -> Iterator[Task]:
    for one in talk.exchanges.all:
        fc = one.request.fc
        if fc is None or fc.kind != FCP or fc.r_ctl != COMMAND or len(fc.payload) < COMMAND_SIZE or not one.request.is_whole:
            continue
        content = fc.payload
        made = Task(one, number(content[28:32]), content[11] & 3, content[10])
        for before, it in zip(one.frames, one.frames[1:]):
            if it.clock - before.clock > PATIENCE and talk.longest_rest(before.clock, it.clock) > PATIENCE:
                break  # the capture may have a gap there, in which another command took the OX_ID
            head = it.heard.fc
            if head is not None and head.kind == FCP:
                made.take(it, head, bool(head.f_ctl & 0x800000))
        yield made


def own(talk: Talk, r_ctl: int) -> Iterator[tuple[Shown, Fc]]:
    """The ENode's frames of FCP of one kind."""
    return ((it, fc) for it, fc in talk.in_fcoe() if fc.kind == FCP and fc.r_ctl == r_ctl)


@RULES.rule("fcp-command", "FCP-4, FCP_CMND IU", "FCP_CMND has the bytes of its CDB, one direction of data, one task management function, a task attribute of the table.")
def commanded(talk: Talk, tally: Tally) -> None:
    for it, fc in own(talk, COMMAND):
        content = fc.payload
        if len(content) < COMMAND_SIZE:
            tally.judge(it, Fault("payload", f"{len(content)} bytes", f"{COMMAND_SIZE} bytes or more"))
            continue
        wanted = COMMAND_SIZE + 4 * (content[11] >> 2)
        both = content[11] & (READS | WRITES) == READS | WRITES
        tally.judge(
            it,
            want("payload", f"{len(content)} bytes", f"{wanted} bytes, as its CDB is long", len(content) >= wanted),
            want("RDDATA and WRDATA", "both", f"one, or {BOTH_SIZE} bytes with the length of what is read", not both or len(content) >= BOTH_SIZE + 4 * (content[11] >> 2)),
            want("task management", f"{content[10]:02x}", "one function at most", content[10].bit_count() <= 1),
            want("task attribute", content[9] & 7, "0, 1, 2 or 4", content[9] & 7 in ATTRIBUTES),
        )


@RULES.rule("fcp-direction", "FCP-4, FCP_CMND IU, RDDATA and WRDATA", "Data go in the direction that FCP_CMND says.")
def directed(talk: Talk, tally: Tally) -> None:
    for task in tasks(talk):
        for some, bit, name in ((task.out, WRITES, "WRDATA"), (task.back, READS, "RDDATA")):
            for it, _ in some[:1]:
                if not it.is_switch:
                    tally.judge(it, want(name, "0", f"1: the command of frame {task.one.request.place} says no data in this direction", bool(task.flags & bit)))


@RULES.rule("fcp-dl", "FCP-4, FCP_CMND IU, FCP_DL", "No more data are sent than FCP_DL says.")
def within_length(talk: Talk, tally: Tally) -> None:
    for task in tasks(talk):
        for some in (task.out, task.back):
            for it, fc in some:
                at = offset_of(fc)
                if it.is_switch or at is None:
                    continue
                end = at + size_of(fc)
                tally.judge(it, want("end of the data", end, f"{task.length} at most, FCP_DL of frame {task.one.request.place}", end <= task.length))


def may_begin(talk: Talk, task: Task) -> bool:
    """A process login that says that writes begin without FCP_XFER_RDY, or one that isn't there."""
    fc = task.one.request.fc
    asked = talk.exchanges.between(fc, "PRLI", task.one.request.at) if fc else []
    told = [it for one in asked for it in (one.request, one.reply) if it is not None and len(it.payload) >= 20]
    return not told or any(not it.is_whole or it.payload[19] & NO_READY for it in told)


@RULES.rule("fcp-ready", "FCP-4, FCP_XFER_RDY IU", "Data are written once they are asked for, and no more than that.")
def asked_for(talk: Talk, tally: Tally) -> None:
    for task in tasks(talk):
        own_data = [(it, fc) for it, fc in task.out if not it.is_switch]
        if not own_data:
            continue
        if not talk.is_two_way:
            tally.leave(ONE_WAY, own_data[0][0])
        elif not all(it.is_whole for it, _ in task.ready):
            tally.leave(CUT, own_data[0][0])
        elif may_begin(talk, task):
            tally.leave("no PRLI is there, or it says that writes begin without FCP_XFER_RDY", own_data[0][0])
        else:
            judge_asked(task, own_data, tally)


def judge_asked(task: Task, own_data: list[tuple[Shown, Fc]], tally: Tally) -> None:
    """Each frame lies in what one FCP_XFER_RDY before it asked for; of a target that got a frame twice the next one may come early."""
    within: Optional[tuple[int, int]] = None  # the sequence that began in a burst, and the latest FCP_XFER_RDY then
    for it, fc in own_data:
        bursts = [(one, number(head.payload[:4]), number(head.payload[4:8])) for one, head in task.ready if one.at < it.at and len(head.payload) >= 8]
        at, sequence = offset_of(fc) or 0, fc.data[fc.at + 12]
        if not bursts:
            fault = Fault("FCP_DATA", "before any FCP_XFER_RDY", "behind one that asks for it")
            if task.ready:
                tally.judge(it, fault)
            else:
                tally.lack(task.one, it, fault)
            return
        ready, begin, size = bursts[-1]
        fault = Fault("FCP_DATA", f"bytes {at} to {at + size_of(fc)}", f"{begin} to {begin + size}, as FCP_XFER_RDY of frame {ready.place} asks")
        if any(first <= at and at + size_of(fc) <= first + count for _, first, count in bursts):
            within = sequence, ready.at
            tally.held.append(it)
        elif within == (sequence, ready.at) or begin <= at < begin + size:
            tally.judge(it, fault)
        else:
            tally.lack(task.one, it, fault)


@RULES.rule("fcp-ready-form", "FCP-4, FCP_XFER_RDY IU", "FCP_XFER_RDY has 12 bytes, and asks for data within FCP_DL.")
def ready_form(talk: Talk, tally: Tally) -> None:
    for it, fc in own(talk, READY):
        tally.judge(it, want("payload", f"{len(fc.payload)} bytes", f"{READY_SIZE} bytes", len(fc.payload) == READY_SIZE))
    for task in tasks(talk):
        for it, fc in task.ready:
            if not it.is_switch and len(fc.payload) >= 8:
                at, size = number(fc.payload[:4]), number(fc.payload[4:8])
                should = f"within FCP_DL, {task.length} in frame {task.one.request.place}"
                tally.judge(it, want("what is asked for", f"{size} bytes from {at} on", should, 0 < size and at + size <= task.length))


@RULES.rule("fcp-offset", "FCP-4, FCP_DATA IU; FC-FS-3, relative offset", "The relative offset goes up by the bytes of each frame of a sequence.")
def offsets(talk: Talk, tally: Tally) -> None:
    running: dict[tuple[int, int, int, int], tuple[int, int]] = {}
    for it, fc in own(talk, DATA):
        key = (fc.s_id, fc.d_id, fc.ox_id, fc.data[fc.at + 12])
        at, due = offset_of(fc), running.get(key)
        if at is not None and due is not None and fc.seq_cnt == due[0]:
            tally.judge(it, want("relative offset", at, due[1]))
        if at is not None:
            running[key] = (fc.seq_cnt + 1) & 0xFFFF, (due[1] if due and fc.seq_cnt == due[0] else at) + size_of(fc)
        if fc.f_ctl & END_SEQUENCE:
            running.pop(key, None)


@RULES.rule("fcp-response-form", "FCP-4, FCP_RSP IU", "FCP_RSP has 24 bytes, and those of what it says to be there; its residual is of one kind.")
def response_form(talk: Talk, tally: Tally) -> None:
    for it, fc in own(talk, RESPONSE):
        content = fc.payload
        if len(content) < RESPONSE_SIZE:
            tally.judge(it, Fault("payload", f"{len(content)} bytes", f"{RESPONSE_SIZE} bytes or more"))
            continue
        flags = content[10]
        sense, code = number(content[16:20]) if flags & SENSE_HELD else 0, number(content[20:24]) if flags & RESPONSE_HELD else 0
        tally.judge(
            it,
            want("payload", f"{len(content)} bytes", f"{RESPONSE_SIZE + sense + code} bytes, as its lengths say", len(content) >= RESPONSE_SIZE + sense + code),
            want("residual", f"{flags:02x}", "over or under", flags & (OVER | UNDER) != OVER | UNDER),
        )


@RULES.rule("fcp-residual", "FCP-4, FCP_RSP IU, FCP_RESID", "What FCP_DL says and what went over the wire differ by the residual.")
def residual(talk: Talk, tally: Tally) -> None:
    for task in tasks(talk):
        it = task.response
        if it is None or it.is_switch or len(it.payload) < RESPONSE_SIZE or it.payload[11] or not task.is_plain:
            continue
        flags, told = it.payload[10], number(it.payload[12:16])
        some = task.back if task.flags & READS else task.out
        moved = sum(size_of(fc) for _, fc in some)
        under = told if flags & UNDER else 0
        if not flags & OVER:
            fault = want("residual", under, f"{task.length - moved}: {moved} of {task.length} bytes went over", under == task.length - moved)
            if fault and any(not one.is_switch for one, _ in some):
                tally.lack(task.one, it, fault, missing=1)
            elif fault is None:
                tally.held.append(it)


@RULES.rule("fcp-response-early", "FCP-4, FCP_RSP IU", "FCP_RSP is the last frame of a command.")
def last_of_all(talk: Talk, tally: Tally) -> None:
    for task in tasks(talk):
        end = task.response
        if end is None or end.is_switch:
            continue
        late = next((it for it in task.behind if not it.is_switch and not any(is_alike(it, one) for one in task.one.frames if one.at < end.at)), None)
        tally.judge(end, want("FCP_RSP", f"before frame {late.place}", "behind all data") if late else None)


def open_until(talk: Talk, task: Task) -> Optional[str]:
    """Why a command without a response isn't looked at."""
    until = task.one.request.clock + PATIENCE
    if task.one.aborted or task.one.reused:
        return "its exchange was aborted, or its OX_ID is used anew"
    if talk.end < until:
        return "no response until the capture ends"
    return "its login ended" if ended_between(talk, task.one, until) else None


@RULES.rule("fcp-response", "FCP-4, FCP_RSP IU", "A target answers each command.")
def responded(talk: Talk, tally: Tally) -> None:
    for task in tasks(talk):
        fc = task.one.request.fc
        if not task.one.request.is_switch or fc is None or not talk.login_of(fc.d_id, task.one.request.at):
            continue
        why = open_until(talk, task)
        if task.response:
            tally.held.append(task.response)
        elif why:
            tally.leave(why, task.one.request)
        else:
            tally.lack(task.one, task.one.request, Fault("response", f"none in {PATIENCE // 1000} s", "FCP_RSP, or LOGO"))


@RULES.rule("fcp-ends", "FCP-4, error detection and recovery, ULP_TOV (from memory)", "An initiator aborts a command that isn't answered.")
def command_ends(talk: Talk, tally: Tally) -> None:
    for task in tasks(talk):
        if task.one.request.is_switch:
            continue
        why = open_until(talk, task)
        if not talk.is_two_way:
            tally.leave(ONE_WAY, task.one.request)
        elif task.response:
            tally.held.append(task.response)
        elif why:
            tally.leave(why, task.one.request)
        else:
            tally.lack(task.one, task.one.request, Fault("command", f"no FCP_RSP and no ABTS in {PATIENCE // 1000} s", "one of them"))


@RULES.rule("fcp-after-plogi", "FC-LS-2, PLOGI and LOGO", "FCP commands go to N_Ports with which a login stands: not behind a LOGO, nor without a PLOGI.")
def behind_login(talk: Talk, tally: Tally) -> None:
    for it, fc in own(talk, COMMAND):
        if not talk.is_two_way:
            judge_alone(talk, it, fc, tally, missing=1 if talk.exchanges.between(fc, "PRLI", it.at) else 2)
            continue
        if not talk.grant_of(it.heard.source, it.at):
            tally.leave("the login of its N_Port isn't in the capture", it)
            continue
        ended = [one.request for one in talk.exchanges.between(fc, "LOGO", it.at) if not one.request.is_switch or one.reply is not None and one.reply.at < it.at]
        grant = talk.grant_of(it.heard.source, it.at)
        since = max([one.at for one in ended] + [grant.granted.at if grant else -1])
        asked = [one for one in talk.exchanges.between(fc, "PLOGI", it.at) if one.request.at > since]
        why = f"a LOGO in frame {ended[-1].place}, and no PLOGI since" if ended else "none"
        fault = want("N_Port login", why, f"a PLOGI between {fcid(fc.s_id)} and {fcid(fc.d_id)}", bool(asked))
        tally.lack((fc.s_id, fc.d_id, since), it, fault, missing=2)
