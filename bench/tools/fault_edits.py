"""Further edits for faults.py and controls.py: lists of descriptors, tags, answers, exchanges, commands of FCP."""
from dataclasses import dataclass
from typing import Any, Callable, Optional

from check_edits import SWITCH, Edit, Pick, Tape, checked, drop_all, with_data

from fcoe.frames.columns import Record
from fcoe.frames.heard import Heard, hear


def every(kinds: str) -> Edit:
    """Drops each frame of some kinds, of the host."""
    return drop_all(*kinds.split(", "))


def rebuilt(pick: Pick, change: Callable[[Any], Any]) -> Edit:
    """A FIP frame with another list of descriptors."""

    def edit(tape: Tape) -> Tape:
        at = pick.place(tape)
        heard = hear(tape[at].data)
        parts = change([it.data for it in heard.descriptors])
        listed = b"".join(parts)
        head = bytearray(heard.data[: heard.at + 10])
        head[heard.at + 6 : heard.at + 8] = (len(listed) // 4).to_bytes(2, "big")
        return [*tape[:at], with_data(tape[at], (bytes(head) + listed).ljust(60, b"\0")), *tape[at + 1 :]]

    return edit


def only(keep: Callable[[Heard, float], bool]) -> Edit:
    """The frames of which something holds."""
    return lambda tape: [it for it in tape if keep(hear(it.data), (it.moment - tape[0].moment) / 1e9)]


def tagged(pick: Pick, tag: bytes) -> Edit:
    """A frame with another tag; none where it's empty."""

    def edit(tape: Tape) -> Tape:
        at = pick.place(tape)
        heard = hear(tape[at].data)
        made = heard.data[:12] + tag + heard.data[heard.at - 2 :]
        return [*tape[:at], with_data(tape[at], made), *tape[at + 1 :]]

    return edit


def all_tagged(kind: str, tag: bytes) -> Edit:
    """Each frame of a kind of the host with another tag."""

    def edit(tape: Tape) -> Tape:
        made = []
        for it in tape:
            heard = hear(it.data)
            is_meant = heard.kind == kind and heard.source != SWITCH
            made.append(with_data(it, heard.data[:12] + tag + heard.data[heard.at - 2 :]) if is_meant else it)
        return made

    return edit


def each_of_host(change: Callable[[bytes], bytes]) -> Edit:
    """Each frame of the host, changed."""
    return lambda tape: [it if hear(it.data).source == SWITCH else with_data(it, change(it.data)) for it in tape]


def more_alive(each_seconds: float) -> Edit:
    """The host's first keep alive once more each so many seconds."""

    def edit(tape: Tape) -> Tape:
        begin, end = (tape[Pick("Keep alive", nth).place(tape)] for nth in (0, 20))
        step = int(each_seconds * 1e9)
        made = [Record(moment, begin.data, begin.length, 0) for moment in range(begin.moment + step // 2, end.moment, step)]
        return sorted([*tape, *made], key=lambda it: it.moment)

    return edit


def slower(kind: str, step: int) -> Edit:
    """Each further frame of a kind is missing but one of so many."""

    def edit(tape: Tape) -> Tape:
        made, count = [], 0
        for it in tape:
            heard = hear(it.data)
            if heard.kind == kind and heard.source != SWITCH:
                count += 1
                if count % step:
                    continue
            made.append(it)
        return made

    return edit


def without_exchange(pick: Pick) -> Edit:
    """A request of the host, and all that belongs to its exchange, is missing."""

    def edit(tape: Tape) -> Tape:
        fc = hear(tape[pick.place(tape)].data).fc
        assert fc is not None
        ends = {fc.s_id, fc.d_id}

        ox_id = fc.ox_id

        def is_kept(it: Record) -> bool:
            one = hear(it.data)
            return not (one.is_fcoe and one.fc and {one.fc.s_id, one.fc.d_id} == ends and one.fc.ox_id == ox_id)

        return [it for it in tape if is_kept(it)]

    return edit


def unanswered(pick: Pick) -> Edit:
    """The answer to a request, of whichever side, is missing."""

    def edit(tape: Tape) -> Tape:
        at = pick.place(tape)
        fc = hear(tape[at].data).fc
        assert fc is not None

        asked = fc.s_id, fc.d_id, fc.ox_id

        def is_answer(it: Record) -> bool:
            one = hear(it.data)
            return bool(one.fc and (one.fc.d_id, one.fc.s_id, one.fc.ox_id) == asked and one.fc.f_ctl & 0x800000)

        place = next(number for number, it in enumerate(tape) if number > at and is_answer(it))
        return [*tape[:place], *tape[place + 1 :]]

    return edit


def answer_to(pick: Pick, change: Callable[[Any], Any]) -> Edit:
    """The payload of the answer to a request is another."""

    def edit(tape: Tape) -> Tape:
        at = pick.place(tape)
        fc = hear(tape[at].data).fc
        assert fc is not None
        for number in range(at + 1, len(tape)):
            one = hear(tape[number].data).fc
            if one and one.s_id == fc.d_id and one.d_id == fc.s_id and one.ox_id == fc.ox_id and one.f_ctl & 0x800000:
                data = tape[number].data
                made = checked(data[: one.payload_at] + change(one.payload) + data[one.end :])
                return [*tape[:number], with_data(tape[number], made.ljust(60, b"\0") if len(made) < 60 else made), *tape[number + 1 :]]
        raise SystemExit(f"no answer to {pick}")

    return edit


def bytes_at(place: int, new: bytes) -> Callable[[bytes], bytes]:
    return lambda content: content[:place] + new + content[place + len(new) :]


def late_answer(pick: Pick, seconds: float) -> Edit:
    """The answer to a request comes so much later."""

    def edit(tape: Tape) -> Tape:
        at = pick.place(tape)
        fc = hear(tape[at].data).fc
        assert fc is not None
        for number in range(at + 1, len(tape)):
            one = hear(tape[number].data).fc
            if one and one.s_id == fc.d_id and one.d_id == fc.s_id and one.ox_id == fc.ox_id and one.f_ctl & 0x800000:
                moved = Record(tape[number].moment + int(seconds * 1e9), tape[number].data, tape[number].length, 0)
                return sorted([*tape[:number], *tape[number + 1 :], moved], key=lambda it: it.moment)
        raise SystemExit(f"no answer to {pick}")

    return edit


def in_exchange(kind: str, place: int, new: bytes, nth: int = 0, by_switch: bool = False, at_least: int = 0) -> Edit:
    """A byte of the header of the Nth frame of a kind whose SEQ_CNT is so much at least."""

    def edit(tape: Tape) -> Tape:
        count = 0
        for at, it in enumerate(tape):
            heard = hear(it.data)
            if heard.kind == kind and (heard.source == SWITCH) == by_switch and heard.fc and heard.fc.seq_cnt >= at_least:
                if count == nth:
                    data = bytearray(it.data)
                    data[heard.fc.at + place : heard.fc.at + place + len(new)] = new
                    return [*tape[:at], with_data(it, checked(bytes(data))), *tape[at + 1 :]]
                count += 1
        raise SystemExit(f"no frame {kind}")

    return edit


def exchange_of(tape: Tape, at: int) -> list[int]:
    """The places of the frames of an exchange, from its request on."""
    fc = hear(tape[at].data).fc
    assert fc is not None
    found = [at]
    for place in range(at + 1, min(at + 60, len(tape))):
        one = hear(tape[place].data).fc
        if one and one.ox_id == fc.ox_id and {one.s_id, one.d_id} == {fc.s_id, fc.d_id}:
            found.append(place)
    return found


def renumbered(data: bytes, ox_id: int) -> bytes:
    fc = hear(data).fc
    assert fc is not None
    return checked(data[: fc.at + 16] + ox_id.to_bytes(2, "big") + data[fc.at + 18 :])


def reused(nth: int, s_id: int = 0x010101) -> Edit:
    """The next command has the OX_ID of one that is open."""

    def edit(tape: Tape) -> Tape:
        first = Pick("FCP_CMND", nth, s_id=s_id).place(tape)
        then = Pick("FCP_CMND", nth + 1, s_id=s_id).place(tape)
        asked = hear(tape[first].data).fc
        assert asked is not None
        moved, lag = exchange_of(tape, then), tape[then].moment - tape[first].moment - 100_000
        made = list(tape)
        for place in moved:
            data = renumbered(tape[place].data, asked.ox_id)
            made[place] = Record(tape[place].moment - lag, data, len(data), 0)
        return sorted(made, key=lambda it: it.moment)

    return edit


def own_abts(pick: Optional[Pick], seconds: float, content: bytes = b"") -> Edit:
    """The host aborts the exchange of a request, or one that never was, so many seconds behind it."""

    def edit(tape: Tape) -> Tape:
        at = (pick or Pick("FCP_CMND", 20, s_id=0x010101)).place(tape)
        data = tape[at].data
        fc = hear(data).fc
        assert fc is not None
        head = bytearray(data[fc.at : fc.payload_at])
        head[0], head[8], head[9:12] = 0x81, 0, b"\x09\0\0"
        if pick is None:
            head[16:18] = b"\x7a\xbc"
        made = checked(data[: fc.at] + bytes(head) + content + bytes(4) + b"\x42\0\0\0").ljust(60, b"\0")
        moment = tape[at].moment + int(seconds * 1e9)
        return sorted([*tape, Record(moment, made, len(made), 0)], key=lambda it: it.moment)

    return edit


def at_once(pick: Pick, seconds: float) -> Edit:
    """The next command has the OX_ID of a request of so many seconds before."""

    def edit(tape: Tape) -> Tape:
        at = pick.place(tape)
        fc = hear(tape[at].data).fc
        assert fc is not None
        for place in range(at, len(tape)):
            one = hear(tape[place].data)
            ends = one.fc and (one.fc.s_id, one.fc.d_id)
            if one.kind == "FCP_CMND" and one.source != SWITCH and ends == (fc.s_id, fc.d_id) and tape[place].moment > tape[at].moment + seconds * 1e9:
                made = list(tape)
                for number in exchange_of(tape, place):
                    data = renumbered(tape[number].data, fc.ox_id)
                    made[number] = Record(tape[number].moment, data, len(data), 0)
                return made
        raise SystemExit(f"no command behind {pick}")

    return edit


@dataclass(frozen=True)
class Command(Pick):
    """The Nth command that reads or writes so much at least, or the first frame of its exchange of this kind; `by_switch` where the host is the target."""

    writes: Optional[bool] = None
    size: int = 1
    managed: bool = False

    def place(self, tape: Tape) -> int:
        count = 0
        for at, it in enumerate(tape):
            heard = hear(it.data)
            if heard.kind != "FCP_CMND" or heard.fc is None or (heard.source == SWITCH) != self.by_switch or not self.fits_command(heard.fc.payload):
                continue
            count += 1
            if count > self.nth:
                return next(place for place in exchange_of(tape, at) if hear(tape[place].data).kind == self.kind)
        raise SystemExit(f"no command {self}")

    def fits_command(self, content: bytes) -> bool:
        if self.managed:
            return bool(content[10])
        length = int.from_bytes(content[28:32], "big")
        return not content[10] and (self.writes is None or bool(content[11] & (1 if self.writes else 2))) and length >= self.size


def part(kind: str, nth: int, writes: Optional[bool] = None, size: int = 1) -> Command:
    """A frame of a command of the initiator."""
    return Command(kind, nth, writes=writes, size=size)


def at_target(kind: str, nth: int, writes: Optional[bool] = None, size: int = 1) -> Command:
    """A frame of a command to the target."""
    return Command(kind, nth, True, writes=writes, size=size)


def before_frame(pick: Pick, other: Pick) -> Edit:
    """A frame just before another one."""

    def edit(tape: Tape) -> Tape:
        at, there = pick.place(tape), other.place(tape)
        moved = Record(tape[there].moment - 1000, tape[at].data, tape[at].length, 0)
        rest = [it for place, it in enumerate(tape) if place != at]
        return sorted([*rest, moved], key=lambda it: it.moment)

    return edit
