"""What `look` answers first of each kind of capture (kinds.py): the cause within the first two, and nothing beside it that misleads; no alarm where nothing is wrong."""
import json
import os
import pathlib
import subprocess
import sys
import tempfile

import pytest

HERE = pathlib.Path(__file__).resolve().parent
sys.path[:0] = [str(HERE), str(HERE.parent / "cases"), str(HERE.parent / "program")]
# pylint: disable=wrong-import-position

import judge_kinds
from good_runs import good_run
from kinds import KINDS, Case
from machine import TOOLS, TOP

from fcoe.frames.captures import write_classic

DEMO = [TOP / "demo" / f"{name}.pcap" for name in ("initiator", "target")]
LAB = "FCOE_CAPTURES"  # a folder that holds folders of captures of machines with which nothing was wrong, `inK.pcap` of port K each


@pytest.mark.parametrize("seeds", [range(1), pytest.param(range(1, 5), marks=pytest.mark.slow)], ids=["as told", "4 of our own"])
@pytest.mark.parametrize("name", sorted(KINDS))
def test_captures_of_a_kind(name: str, seeds: range) -> None:
    assert [judge_kinds.judged(name, seed) for seed in seeds] == [""] * len(seeds)


def alarms(captures: list[pathlib.Path]) -> list[str]:
    """What is said to be amiss, or that nothing could be looked at."""
    rows, told = judge_kinds.answers(captures)
    return [f"{it['severity']}: {it['text']}" for it in rows if it["severity"] not in ("noted", "well")] if rows else told


def well_in_every_way(seed: int, folder: pathlib.Path) -> list[pathlib.Path]:
    """Nothing is wrong: one port or both, with whatever the standards leave to switches, hosts and disks."""
    case = Case(seed, (1, 2) if seed % 2 else (1,))
    if seed % 5 == 0:
        case.s.switch.is_quiet = True
    case.in_and_known()
    case.s.meet(case.h, case.d)
    case.s.use(case.h, case.d)
    case.live(case.lot.choice([20, 60, 200]))
    case.s.use(case.h, case.d, 3)
    return case.written(folder)


@pytest.mark.parametrize("seeds", [range(1000, 1005), pytest.param(range(1005, 1030), marks=pytest.mark.slow)], ids=["5", "25 more"])
def test_no_false_alarm_where_nothing_is_wrong(seeds: range, tmp_path: pathlib.Path) -> None:
    for seed in seeds:
        folder = tmp_path / str(seed)
        folder.mkdir()
        assert alarms(well_in_every_way(seed, folder)) == [], seed


@pytest.mark.parametrize("seed", [158, 573, 90625, 91925, 52267])
def test_no_false_alarm_over_right_runs(seed: int, tmp_path: pathlib.Path) -> None:
    """A name server that takes a registration while it answers a request; an initiator alone; a LOGO to the name server, and LOGOs between N_Ports of a host,
    while their logins end; a request that found no answer and is aborted."""
    file = tmp_path / "good.pcap"
    write_classic(str(file), good_run(seed).tape)
    assert alarms([file]) == []


@pytest.mark.parametrize("captures", [DEMO, DEMO[:1], DEMO[1:]], ids=["both", "initiator", "target"])
def test_no_false_alarm_over_two_linux_machines(captures: list[pathlib.Path]) -> None:
    assert alarms(captures) == []


@pytest.mark.skipif(LAB not in os.environ, reason=f"{LAB} names no folder")
def test_no_false_alarm_over_captures_of_a_laboratory() -> None:
    """A host that was switched off in one of them is said to have fallen silent, and nothing else."""
    for folder in {it.parent for it in pathlib.Path(os.environ[LAB]).rglob("in*.pcap")}:
        assert [it for it in alarms(sorted(folder.glob("in*.pcap"))) if "fell silent: no keep alive of its ENode" not in it] == [], folder


def test_the_command_says_the_same() -> None:
    with tempfile.TemporaryDirectory() as folder:
        captures = KINDS["bad_crc"].make(0, pathlib.Path(folder))
        ran = subprocess.run([str(TOOLS / "look"), "answers", "--json", *map(str, captures)], capture_output=True, text=True, check=True)
        assert json.loads(ran.stdout) == judge_kinds.answers(captures)[0]
