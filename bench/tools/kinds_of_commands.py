"""Kinds of captures behind the login, as kinds.py has them: status and sense of SCSI, commands that time out, links that go down and up."""
from pathlib import Path

import wire
from kinds import Case, kind
from wire import Head


def known_disk(seed: int) -> Case:
    """A host that found its disk."""
    case = Case(seed)
    case.in_and_known()
    case.s.meet(case.h, case.d)
    case.s.report_luns(case.h, case.d, [0, 1])
    case.s.inquire(case.h, case.d)
    return case


def answered(case: Case, answer: bytes, count: int, between: float, well: int = 0) -> None:
    """Commands to a LUN that end so, and between them some that end well."""
    lun = case.lot.choice([0, 1])
    for _ in range(count):
        (case.s.read if case.lot.random() < 0.5 else case.s.write)(case.h, case.d, lun=lun, answer=answer)
        case.live(between)
        for _ in range(well):
            case.s.read(case.h, case.d, 1)
    case.live(10)


@kind(r"answers \d+ commands to LUN [01] with BUSY: .*the load of the target")
def busy(seed: int, folder: Path) -> list[Path]:
    case = known_disk(seed)
    answered(case, wire.response(0x08), case.lot.randrange(4, 12), case.lot.uniform(0.2, 3), seed % 2)
    return case.written(folder)


@kind(r"answers \d+ commands to LUN [01] with TASK SET FULL: .*queue depth of this host")
def task_set_full(seed: int, folder: Path) -> list[Path]:
    case = known_disk(seed)
    answered(case, wire.response(0x28), case.lot.randrange(4, 30), 0.05, seed % 3)
    return case.written(folder)


@kind(r"answers \d+ commands to LUN [01] with NOT READY 04/0[1-3].*whether it is online")
def not_ready(seed: int, folder: Path) -> list[Path]:
    """A unit that isn't ready: becoming so, wanting a command, or wanting a hand."""
    case = known_disk(seed)
    answered(case, wire.response(2, sense=(2, 4, case.lot.choice([1, 2, 3]))), case.lot.randrange(4, 12), case.lot.uniform(0.5, 2))
    return case.written(folder)


@kind(r"answers \d+ commands to LUN [01] with UNIT ATTENTION (29/0[0-3]|3f/0e|2a/09).*resets or changes the target again and again")
def unit_attention(seed: int, folder: Path) -> list[Path]:
    """A storm of them: a reset, a changed list of LUNs or capacity, again and again."""
    case = known_disk(seed)
    code = case.lot.choice([(0x29, 0), (0x29, 2), (0x3F, 0x0E), (0x2A, 9)])
    answered(case, wire.response(2, sense=(6, *code)), case.lot.randrange(12, 40), case.lot.uniform(0.1, 1), 1)
    return case.written(folder)


@kind(r"doesn't answer \d commands \((\d READ\(10\)|\d WRITE\(10\))+.*the host aborted \d of them \(ABTS\)")
def timed_out(seed: int, folder: Path) -> list[Path]:
    """Reads and writes without an answer, which the host aborts; some aborts are answered."""
    case = known_disk(seed)
    s, h, d = case.s, case.h, case.d
    for _ in range(case.lot.randrange(3, 7)):
        ox_id = (s.read if case.lot.random() < 0.7 else s.write)(h, d, how="silent")
        case.live(case.lot.choice([10, 30]))
        s.from_host(h, Head(0x81, d.address, h.address, 0, 0x090000, ox_id), b"")
        s.tick()
        if case.lot.random() < 0.7:
            s.to_host(h, Head(0x84, h.address, d.address, 0, 0x980000, ox_id, 0x77), bytes(4) + ox_id.to_bytes(2, "big") + b"\0\x77\0\0\xff\xff")
        s.tick()
    case.live(10)
    return case.written(folder)


@kind(r"logged in again \d times without a LOGO.*its link went down and up")
def link_flap(seed: int, folder: Path) -> list[Path]:
    """The host's link goes down and up: each time it begins with discovery."""
    case = Case(seed)
    case.in_and_known()
    for _ in range(case.lot.randrange(3, 7)):
        case.s.meet(case.h, case.d)
        case.s.use(case.h, case.d, 2)
        case.live(case.lot.uniform(3, 12))
        case.s.wait(case.lot.uniform(1, 4))
        case.s.log_in(case.h)
        case.s.register(case.h, (case.d,))
    case.s.meet(case.h, case.d)
    case.live(5)
    return case.written(folder)


@kind(r"the name server lists no target to it: GID_FT once", is_well=True)
def alone(seed: int, folder: Path) -> list[Path]:
    """An initiator that is the first in its fabric: it asks once, and nobody is there."""
    case = Case(seed)
    case.beside = 0
    case.s.log_in(case.h)
    case.s.register(case.h)
    case.live(case.lot.choice([20, 60, 200]))
    return case.written(folder)


@kind("", is_well=True)
def recovered(seed: int, folder: Path) -> list[Path]:
    """A single command that lost a frame: REC asks after it, SRR asks for its data again, and it ends well."""
    case = known_disk(seed)
    s, h, d = case.s, case.h, case.d
    s.use(h, d)
    ox_id = s.read(h, d, 8, how="silent")
    case.live(3)
    who = h.address.to_bytes(3, "big")
    s.ask(h, d.address, bytes([0x13, 0, 0, 0, 0]) + who + ox_id.to_bytes(2, "big") + b"\xff\xff", bytes([2, 0, 0, 0]) + ox_id.to_bytes(2, "big") + b"\x77\x77" + bytes(16), peer=d)
    s.ask(h, d.address, bytes([0x14, 0, 0, 0]) + ox_id.to_bytes(2, "big") + b"\xff\xff" + bytes(4) + b"\x01" + bytes(3), wire.ACCEPTED, peer=d)
    s.send_data(h, d, s.lot.randbytes(4096), ox_id, 0x7777, False, "")
    s.to_host(h, Head(7, h.address, d.address, 8, s.switch.reply_f_ctl, ox_id, 0x7777, seq_id=1), wire.response(), peer=d)
    s.tick()
    s.use(h, d, 3)
    case.live(20)
    return case.written(folder)
