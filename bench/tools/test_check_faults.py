"""`look check` finds faults: each of faults.py is planted into a capture of both directions; and it says what it found in every form."""
import json
import os
import pathlib
import random
import subprocess
import xml.etree.ElementTree as ET
from typing import Any

import pytest
from check_edits import Pick, drop, frame, header, payload, put, resized
from check_edits import behind_fc as behind
from checking import BROKEN, LOOK, said_of, states, verdict
from fault_edits import in_exchange, part, reused
from faults import FAULTS, Fault
from faults_known import GIVEN, OTHERWISE
from good_runs import base_tapes
from long_capture import load_capture, long_capture
from machine import slow
from wear import WEARS

from fcoe.check import talk
from fcoe.frames.captures import write_classic

BASES = base_tapes()


def state_of(fault: Fault, wear: str, before: dict[str, set[str]]) -> str:
    found = states(WEARS[wear](fault.change(BASES[fault.base]), random.Random(1)))
    return verdict(fault.rules, found, before)


def table(some: list[Fault], wear: str) -> dict[str, str]:
    before = {name: states(WEARS[wear](tape, random.Random(1))) for name, tape in BASES.items()}
    assert not any(it.get(BROKEN) for it in before.values())
    return {it.name: state_of(it, wear, before[it.base]) for it in some}


def expected(it: Fault) -> str:
    return OTHERWISE.get(it.name) or ("hinted" if it.is_open else "found")


def test_names_are_distinct() -> None:
    names = {it.name for it in FAULTS}
    assert len(names) == len(FAULTS) >= 200 and GIVEN < names


def one_a_rule() -> list[Fault]:
    """Faults that are found, for each rule that one is found by; those of one rule first."""
    some: list[Fault] = []
    seen: set[str] = set()
    for it in sorted(FAULTS, key=lambda it: it.rules.count(" ")):
        rules = set(it.rules.split())
        if expected(it) == "found" and not rules <= seen:
            some.append(it)
            seen |= rules
    return some


def test_each_rule() -> None:
    some = one_a_rule()
    assert len(some) > 100
    assert table(some, "as it is") == {it.name: "found" for it in some}


@slow
def test_faults() -> None:
    assert table(FAULTS, "as it is") == {it.name: expected(it) for it in FAULTS}


LATE = {
    "crc": put(Pick("FCP_DATA", 100), behind(0), bytes(4), False),
    "eof": put(Pick("FCP_CMND", 180), behind(4), b"\x41"),
    "seq-cnt": in_exchange("FCP_DATA", 14, b"\0\0", 30, at_least=1),
    "fcp-offset": in_exchange("FCP_DATA", 20, b"\0\0\x7f\0", 31, at_least=1),
    "df-ctl": put(Pick("FCP_CMND", 181), header(13), b"\x40"),
    "fcp-command": put(Pick("FCP_CMND", 182), payload(9), b"\3"),
    "fcp-dl": put(part("FCP_CMND", 80, True), payload(28), b"\0\0\0\1"),
    "source-mac": put(Pick("FCP_CMND", 185), frame(6), b"\x0e\xfc\0\1\1\7"),
    "fcoe-vlan": put(Pick("FCP_CMND", 186), frame(14), b"\x60\xc8"),
    "receive-size": resized(Pick("FCP_DATA", 103), lambda it: it + bytes(1024)),
    "fcp-ready": drop(Pick("FCP_XFER_RDY", 80, True)),
    "f-ctl-request": in_exchange("FCP_CMND", 9, b"\x28\0\0", 187),
    "ox-id": reused(100, 0x010102),
}


def is_found_among_many(rule: str, monkeypatch: pytest.MonkeyPatch) -> bool:
    """A single fault among many commands that are alike is found, whether or not alike ones are left out."""
    tape = LATE[rule](list(long_capture(BASES["initiator"], 2500)))
    found = []
    for sifted in (0, len(tape)):
        monkeypatch.setattr(talk, "SIFTED", sifted)
        found.append(states(tape))
    return found[0] == found[1] and (rule in found[0].get(BROKEN, ()) or rule == "ox-id")


def test_long_capture(monkeypatch: pytest.MonkeyPatch) -> None:
    assert is_found_among_many("crc", monkeypatch) and is_found_among_many("ox-id", monkeypatch)


@slow
def test_long_captures(monkeypatch: pytest.MonkeyPatch) -> None:
    assert [it for it in LATE if not is_found_among_many(it, monkeypatch)] == []


def test_load(tmp_path: pathlib.Path, monkeypatch: pytest.MonkeyPatch) -> None:
    """Commands without an answer, which the switch sends on over the same link: what is left out changes no verdict."""
    tape, found = list(load_capture(tmp_path, 4_000)), []
    for sifted in (0, len(tape)):
        monkeypatch.setattr(talk, "SIFTED", sifted)
        found.append(states(put(Pick("FCP_CMND", 1_500), behind(0), bytes(4), False)(tape)))
    assert found[0] == found[1] and "crc" in found[0][BROKEN]


def is_bounded(file: str, seconds: float) -> bool:
    """`look check` stays within so many seconds of a processor and 200 MiB."""
    with subprocess.Popen([LOOK, "check", "--quiet", file], stdout=subprocess.DEVNULL) as ran:
        _, status, used = os.wait4(ran.pid, 0)
        ran.returncode = os.waitstatus_to_exitcode(status)
    return ran.returncode < 2 and used.ru_maxrss < 200 << 10 and used.ru_utime + used.ru_stime < seconds


def test_time_of_a_load(tmp_path: pathlib.Path) -> None:
    """Its time grows with the capture."""
    file = str(tmp_path / "both.pcap")
    write_classic(file, load_capture(tmp_path, 80_000))
    assert is_bounded(file, 10)


@slow
def test_a_million(tmp_path: pathlib.Path) -> None:
    for file, tape in (("long.pcap", long_capture(BASES["initiator"], 1_000_000)), ("load.pcap", load_capture(tmp_path, 1_000_000))):
        write_classic(str(tmp_path / file), tape)
        assert is_bounded(str(tmp_path / file), 60)


def test_outputs(tmp_path: pathlib.Path) -> None:
    """JUnit XML over a broken capture, and statuses."""
    fault = next(it for it in FAULTS if it.name == "crc")
    file, xml = str(tmp_path / "broken.pcap"), str(tmp_path / "check.xml")
    write_classic(file, fault.change(BASES[fault.base]))
    ran = subprocess.run([LOOK, "check", "--quiet", "--junit", xml, file], capture_output=True, text=True, check=False)
    assert ran.returncode == 1 and "  broken: crc:" in ran.stdout
    cases = list(ET.parse(xml).iter("testcase"))
    assert [it.get("name") for it in cases if it.find("failure") is not None] == ["crc"] and len(cases) > 80
    said: Any = said_of([file])[0]
    assert said["counts"][BROKEN] == 1
    gone = subprocess.run([LOOK, "check", "--quiet", str(tmp_path / "gone.pcap")], capture_output=True, text=True, check=False)
    assert gone.returncode == 2 and gone.stderr.count("\n") == 1


def test_baseline_and_waivers(tmp_path: pathlib.Path) -> None:
    """A report of before leaves what is new; a waiver keeps the status at 0 until its day; and each report says what made it."""
    tape, fault = BASES["initiator"][:400], next(it for it in FAULTS if it.name == "vreq-f")
    good, bad, was, waivers = (tmp_path / it for it in ("good.pcap", "bad.pcap", "was.json", "waivers"))
    write_classic(str(good), tape)
    write_classic(str(bad), fault.change(tape))
    ran = subprocess.run([LOOK, "check", "--quiet", "--json", str(good)], capture_output=True, text=True, check=False)
    was.write_text(ran.stdout)
    made = json.loads(ran.stdout)["origin"]
    assert ran.returncode == 0 and made["date"] and len(made["files"][0]["sha256"]) == 64
    new = subprocess.run([LOOK, "check", "--quiet", "--baseline", str(was), str(bad)], capture_output=True, text=True, check=False)
    assert new.returncode == 1 and new.stdout.startswith("broken, was held: fip-flags:")
    for day, status in (("2999-01-01", 0), ("2000-01-01", 1)):
        waivers.write_text(f"fip-flags {day} a known driver\n")
        assert subprocess.run([LOOK, "check", "--quiet", "--waivers", str(waivers), str(bad)], capture_output=True, check=False).returncode == status
    waivers.write_text("no-such-rule 2999-01-01 why\n")
    wrong = subprocess.run([LOOK, "check", "--quiet", "--waivers", str(waivers), str(bad)], capture_output=True, text=True, check=False)
    assert wrong.returncode == 2 and wrong.stderr.count("\n") == 1


def test_rules_have_faults() -> None:
    """Each rule on a host that may be broken has a fault that breaks it."""
    rules = {it.strip().split(" ")[0] for it in subprocess.run([LOOK, "check", "--rules"], capture_output=True, text=True, check=True).stdout.split("\n") if " (ENode)" in it}
    assert rules - {rule for it in FAULTS for rule in it.rules.split()} <= {"login-mac", "end-by-login"}
