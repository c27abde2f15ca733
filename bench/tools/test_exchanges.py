"""Exchanges out of captures: against sessions that were made byte by byte, and beside tshark's reading of two Linux machines."""
import contextlib
import io
import json
import pathlib
import random
import shutil
import subprocess
import sys
import tempfile
from typing import Any, Callable

import pytest

HERE = pathlib.Path(__file__).resolve().parent
TOP = HERE.parent.parent
sys.path[:0] = [str(TOP / "tools"), str(HERE)]
# pylint: disable=wrong-import-position

import wire
from fcoe.exchanges.command import write_exchanges
from fcoe.exchanges.spans import Spans
from fcoe.exchanges.times import Times
from fcoe.runs.inputs import Options, gather
from sessions import Disk, Host, Session

Row = dict[str, Any]


def exchanges(*captures: pathlib.Path) -> tuple[list[Row], list[Row]]:
    """The rows and the sums of `look exchanges`."""
    out = io.StringIO()
    with tempfile.TemporaryDirectory() as room, contextlib.redirect_stdout(out):
        inputs = gather([str(it) for it in captures], room, Options())
        write_exchanges(inputs, inputs.ports, "json")
    found = json.loads(out.getvalue())
    return found["exchanges"], found["sums"]


class Made:
    """A host and a disk that is behind another port, or is captured too."""

    def __init__(self, seed: int, ports: set[int] | None = None) -> None:
        self.session = Session.drawn(seed)
        self.session.captured = ports or {1}
        self.host, self.disk = Host.drawn(self.session.lot), Disk.drawn(self.session.lot)
        if ports and 2 in ports:
            self.session.log_in(self.disk)
        self.session.log_in(self.host)

    def written(self, folder: pathlib.Path) -> list[pathlib.Path]:
        return [wire.write_pcap(folder / f"port{port}.pcap", packets) for port, packets in sorted(self.session.packets.items())]

    def last(self, folder: pathlib.Path) -> Row:
        return exchanges(*self.written(folder))[0][-1]


Act = Callable[[Session, Host, Disk], int | None]
ENDS: dict[str, tuple[Act, Row]] = {
    "read": (lambda s, h, d: s.read(h, d, 16, lun=3), {"command": "READ(10)", "lun": "3", "end": "done", "answer": "GOOD", "wanted": 8192, "came": 8192, "frames": 6}),
    "write": (lambda s, h, d: s.write(h, d, 16), {"command": "WRITE(10)", "end": "done", "wanted": 8192, "came": 8192, "writes": True, "frames": 7}),
    "under": (lambda s, h, d: s.report_luns(h, d, [0, 1]), {"command": "REPORT LUNS", "end": "done", "came": 24, "wanted": 4096, "lacking": None, "residual": -4072}),
    "conflict": (lambda s, h, d: s.read(h, d, answer=wire.response(0x18)), {"end": "failed", "answer": "RESERVATION CONFLICT"}),
    "sense": (
        lambda s, h, d: s.read(h, d, answer=wire.response(2, sense=(2, 4, 1))),
        {"end": "failed", "answer": "CHECK CONDITION, NOT READY 04/01 (logical unit is in process of becoming ready)"},
    ),
    "lost data": (lambda s, h, d: s.read(h, d, 16, how="no data"), {"end": "done", "came": 0, "lacking": 8192}),
    "hole": (lambda s, h, d: s.read(h, d, 16, how="hole"), {"end": "done", "lacking": 2048, "missing_frames": "SEQ_CNT 2 of SEQ_ID 00"}),
    "bad crc": (lambda s, h, d: s.read(h, d, 4, how="bad crc"), {"came": 0, "lacking": 2048, "answer": "GOOD"}),
    "PLOGI rejected": (lambda s, h, d: s.plogi(h, d, wire.rejected(9, 0x29, 7)), {"command": "PLOGI", "end": "rejected", "answer": "LS_RJT 09 29 (unable to perform: insufficient resources, vendor's 07)"}),
    "PRLI refused": (lambda s, h, d: s.prli(h, d, wire.process_login(2, 0x0400, 0)), {"command": "PRLI", "end": "rejected", "answer": "LS_ACC, no such service there"}),
}


@pytest.mark.parametrize("name", ENDS)
def test_how_an_exchange_ends(name: str, tmp_path: pathlib.Path) -> None:
    made = Made(len(name))
    act, want = ENDS[name]
    act(made.session, made.host, made.disk)
    row = made.last(tmp_path)
    assert {key: row[key] for key in want} == want


def test_an_exchange_that_both_ports_saw_is_one(tmp_path: pathlib.Path) -> None:
    made = Made(5, {1, 2})
    made.session.meet(made.host, made.disk)
    made.session.read(made.host, made.disk, 16)
    rows, sums = exchanges(*made.written(tmp_path))
    own = [it for it in rows if it["responder_wwpn"] == made.disk.name.hex(":")]
    assert [it["command"] for it in own] == ["PLOGI", "PRLI", "READ(10)"]
    assert own[-1]["came"] == 8192 and own[-1]["frames"] == 12
    assert [it["count"] for it in sums if it["command"] == "READ(10)"] == [1]


def test_an_abort_and_its_answer(tmp_path: pathlib.Path) -> None:
    made = Made(6)
    session, host, disk = made.session, made.host, made.disk
    ox_id = session.read(host, disk, how="silent")
    session.wait(10)
    session.from_host(host, wire.Head(0x81, disk.address, host.address, 0, 0x090000, ox_id), b"")
    session.tick()
    answer = wire.Head(0x84, host.address, disk.address, 0, 0x980000, ox_id, 0x77)
    session.to_host(host, answer, bytes([0, 0, 0, 0]) + ox_id.to_bytes(2, "big") + b"\0\x77\0\0\xff\xff")
    row = made.last(tmp_path)
    assert row["end"] == "aborted" and row["marks"].startswith("ABTS in 1/")


def recovery(word: int, host: Host, ox_id: int) -> bytes:
    """REC or SRR of an exchange of this host."""
    own = ox_id.to_bytes(2, "big") + b"\xff\xff"
    return bytes([0x13, 0, 0, 0, 0]) + host.address.to_bytes(3, "big") + own if word == 0x13 else bytes([0x14, 0, 0, 0]) + own + bytes(4) + b"\x01" + bytes(3)


@pytest.mark.parametrize("word, name", [(0x13, "REC"), (0x14, "SRR")])
def test_recovery_stands_at_its_exchange(word: int, name: str, tmp_path: pathlib.Path) -> None:
    """A REC or SRR is an exchange of its own, and stands at the command that it is about."""
    for seed in range(4):
        made = Made(seed)
        session, host, disk = made.session, made.host, made.disk
        ox_id = session.read(host, disk, how="silent")
        session.wait(3)
        session.ask(host, disk.address, recovery(word, host, ox_id), wire.ACCEPTED)
        rows = exchanges(*made.written(tmp_path))[0]
        command = next(it for it in rows if it["command"] == "READ(10)")
        own = next(it for it in rows if it["command"] == name)
        assert own["end"] == "done" and command["marks"] == f"{name} in {own['first_frame']}"


@pytest.mark.parametrize("flags, ends", [(0x0000, True), (0x1000, True), (0x2000, True), (0x2000, False)])
def test_a_third_party_logout_ends_what_is_open(flags: int, ends: bool, tmp_path: pathlib.Path) -> None:
    """TPRLO ends commands between its ends, of all parties, or of the third party that it has."""
    for seed in range(4):
        made = Made(seed)
        session, host, disk = made.session, made.host, made.disk
        session.read(host, disk, how="silent")
        third = host.address if ends else 0x7F7F7F
        page = bytes([8, 0]) + flags.to_bytes(2, "big") + bytes(8) + third.to_bytes(4, "big")
        session.ask(host, disk.address, bytes([0x24, 16, 0, 20]) + page, wire.ACCEPTED)
        rows = exchanges(*made.written(tmp_path))[0]
        command = next(it for it in rows if it["command"] == "READ(10)")
        own = next(it for it in rows if it["command"] == "TPRLO")
        assert own["end"] == "done"
        assert (command["end"], command["marks"]) == (("ended by a logout", f"TPRLO in {own['first_frame']}") if ends else ("open at the end", None))


def test_answers_before_their_requests(tmp_path: pathlib.Path) -> None:
    """Two clocks, of which one is behind by less than the wait."""
    made = Made(7)
    made.session.meet(made.host, made.disk)
    made.session.read(made.host, made.disk)
    for it in made.session.packets[1]:
        it.moment -= 5_000_000 if it.data[:6] == made.session.granted(made.host) else 0
    made.session.packets[1].sort(key=lambda it: it.moment)
    rows, _ = exchanges(*made.written(tmp_path))
    assert [(it["command"], it["end"]) for it in rows[-3:]] == [("PLOGI", "done"), ("PRLI", "done"), ("READ(10)", "done")]


def test_spans_are_what_a_set_is() -> None:
    lot = random.Random(1)
    for _ in range(200):
        spans, seen = Spans(), set[int]()
        for _ in range(lot.randrange(1, 30)):
            begin = lot.randrange(60)
            end = begin + lot.randrange(0, 9)
            own = set(range(begin, end))
            assert spans.add(begin, end) == bool(own - seen)
            seen |= own
        assert spans.total == len(seen)
        assert [it for pair in spans.lacking(0, 80) for it in range(*pair)] == [it for it in range(80) if it not in seen]


def test_quantiles_are_right_to_a_part_in_a_hundred() -> None:
    lot, times = random.Random(2), Times()
    own = sorted(int(lot.lognormvariate(13, 2)) for _ in range(5000))
    for it in own:
        times.add(it, (1, 1))
    for part in (0.5, 0.99):
        assert times.quantile(part) == pytest.approx(own[int(part * 5000) - 1], rel=0.012)
    assert times.greatest == own[-1]


# ---- beside tshark


def of_tshark(capture: pathlib.Path, kept: str, *fields: str) -> list[list[str]]:
    words = ["tshark", "-r", str(capture), "-Y", kept, "-T", "fields", *(word for it in fields for word in ("-e", it))]
    ran = subprocess.run(words, capture_output=True, text=True, check=True)
    return [line.split("\t") for line in ran.stdout.splitlines()]


@pytest.mark.skipif(not shutil.which("tshark"), reason="tshark isn't there")
def test_commands_and_status_are_those_of_tshark(tmp_path: pathlib.Path) -> None:
    """Of the captures of two Linux machines: LUN, operation code and length of each command, status of each response, offsets of data."""
    both = tmp_path / "both.pcapng"
    subprocess.run(["mergecap", "-w", str(both), str(TOP / "demo" / "initiator.pcap"), str(TOP / "demo" / "target.pcap")], check=True, capture_output=True)
    asked = of_tshark(both, "fc.r_ctl == 0x06", "fcp.lun", "fcp.dl", "fc.ox_id")
    told = of_tshark(both, "fc.r_ctl == 0x07", "fcp.status", "fcp.resid")
    rows, _ = exchanges(TOP / "demo" / "initiator.pcap", TOP / "demo" / "target.pcap")
    own = [it for it in rows if it["kind"] == "FCP"]
    assert [(it["lun"], it["wanted"] or 0, it["ox_id"]) for it in own] == [(str(int(lun, 0)), int(size, 0), f"{int(ox_id, 0):04x}") for lun, size, ox_id in asked]
    failed = sum(int(status, 0) != 0 for status, _ in told)
    assert sum(it["end"] == "failed" for it in own) == failed and len(own) == len(told)
    data = sum(int(size) - 24 for (size,) in of_tshark(both, "fc.r_ctl == 0x01", "frame.len") for size in [str(int(size) - 18 - 14 - 8)])
    assert sum(it["came"] or 0 for it in own) == data
