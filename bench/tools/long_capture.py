"""Long captures in both directions: of one host the begin of good_runs' base, and behind it some of its commands again and again, with keep alives and
advertisements between; and of a load, whose commands have no answer and come to the N_Ports of the same link."""
import pathlib
import struct
from typing import Iterator

from check_edits import SECOND, SWITCH, Tape
from fault_edits import exchange_of, part

from fcoe.frames.captures import classic
from fcoe.frames.columns import Record
from fcoe.frames.heard import ALL_ENODES, fc_check, hear
from fcoe.live.loads import FC_MAP, FORWARDER, Load, Size, write_load

BEGIN, BEAT, PORT_BEAT = 36 * SECOND, 8 * SECOND, 80 * SECOND  # of the base; between keep alives and advertisements; between those of N_Ports
FCP = 0x08
GAP, PAUSE = 20_000, 60_000  # nanoseconds between frames, and behind a command
COMMANDS = ((5, True, 2048), (8, False, 512), (7, True, 1), (9, False, 1))  # which are sent again: the how manieth, whether it writes, bytes at least
OX_IDS = range(0x1000, 0x7000)
Cut = tuple[bytes, int, int]  # a frame, and where its FC frame begins and ends


def frames_of(tape: Tape, at: int) -> list[Cut]:
    """The frames of a command."""
    datas = [tape[it].data for it in exchange_of(tape, at)]
    return [(data, fc.at, fc.end) for data in datas if (fc := hear(data).fc)]


def renumbered(it: Cut, ox_id: int) -> bytes:
    data, at, end = it
    made = data[at : at + 16] + struct.pack(">H", ox_id) + data[at + 18 : end]
    return data[:at] + made + fc_check(made) + data[end + 4 :]


def beats(tape: Tape) -> tuple[list[bytes], list[bytes]]:
    """An advertisement with a keep alive of the ENode, and keep alives of its N_Ports."""
    told = next(it.data for it in tape if hear(it.data).kind == "Advertisement" and it.data[:6] == ALL_ENODES)
    alive = next(it.data for it in tape if hear(it.data).kind == "Keep alive")
    of_ports = {it.data[6:12]: it.data for it in tape if hear(it.data).kind == "VN_Port keep alive" and it.data[6:12] != SWITCH}
    return [told, alive], list(of_ports.values())


def courses(tape: Tape, begin: int) -> Iterator[tuple[int, bytes]]:
    """What follows the begin, each frame with how long before the next one."""
    commands = [frames_of(tape, part("FCP_CMND", *it).place(tape)) for it in COMMANDS]
    each, of_ports = beats(tape)
    moment, due, port_due, turn = begin, begin, begin + PORT_BEAT - BEGIN, 0
    while True:
        some = [renumbered(it, OX_IDS[turn % len(OX_IDS)]) for it in commands[turn % len(commands)]]
        if moment >= due:
            some, due = each + some, due + BEAT
        if moment >= port_due:
            some, port_due = of_ports + some, port_due + PORT_BEAT
        for data in some:
            yield moment, data
            moment += GAP
        moment, turn = moment + PAUSE, turn + 1


def long_capture(tape: Tape, count: int) -> Iterator[Record]:
    """So many frames."""
    first = [it for it in tape if it.moment - tape[0].moment < BEGIN]
    yield from first
    course = courses(tape, first[-1].moment + PAUSE)
    for (moment, data), _ in zip(course, range(count - len(first))):
        yield Record(moment, data, len(data), 0)


def load_capture(room: pathlib.Path, count: int) -> Iterator[Record]:
    """A load of one port, each of its data frames sent on to whom it goes."""
    write_load(Load(Size(frames=count // 2, ports=1, logins=30)), room / "load")
    for it in classic(str(room / "load" / "in1.pcap")).records:
        yield it
        fc = hear(it.data).fc
        if fc is not None and fc.kind == FCP:
            data = FC_MAP + fc.d_id.to_bytes(3, "big") + FORWARDER + it.data[12:]
            yield Record(it.moment + GAP, data, len(data), 0)
