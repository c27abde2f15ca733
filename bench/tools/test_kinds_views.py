"""What the views beside the answer say of captures of kinds (kinds.py): logins, comparison, `look why`, comments, the report, and `look check`, which breaks no rule where nothing is wrong."""
import html
import json
import pathlib
import re
import shutil
import subprocess
import sys
from typing import Any

import pytest

HERE = pathlib.Path(__file__).resolve().parent
sys.path[:0] = [str(HERE), str(HERE.parent / "cases"), str(HERE.parent / "program")]
# pylint: disable=wrong-import-position

import judge_kinds
from kinds import KINDS, Case
from machine import TOOLS, program

from fcoe.check import command
from fcoe.runs.inputs import Options, gather

WELL = sorted(name for name, kind in KINDS.items() if kind.is_well)


def said(*words: str) -> str:
    """What `look` prints."""
    ran = subprocess.run([str(TOOLS / "look"), "--quiet", "--program", str(program()), *words], capture_output=True, text=True, check=True)
    return ran.stdout


def made(name: str, folder: pathlib.Path, seed: int = 0) -> list[str]:
    return [str(it) for it in KINDS[name].make(seed, folder)]


@pytest.mark.parametrize("seeds", [range(1), pytest.param(range(1, 10), marks=pytest.mark.slow)], ids=["one", "9 more"])
@pytest.mark.parametrize("name", WELL)
def test_no_rule_is_broken_where_nothing_is_wrong(name: str, seeds: range, tmp_path: pathlib.Path) -> None:
    for seed in seeds:
        folder, room = tmp_path / str(seed), tmp_path / f"room{seed}"
        folder.mkdir()
        room.mkdir()
        found = command.check(gather(made(name, folder, seed), str(room), Options()).ports)
        assert [(it.rule.name, seed, fault.stands) for _, rows in found.by_whom() for it in rows for _, fault in it.tally.broken] == []


def test_a_clear_link_is_the_end_of_a_login(tmp_path: pathlib.Path) -> None:
    """In `look logins`, in the report, and of one VN_Port alone where it names one."""
    rows = json.loads(said("logins", "--json", *made("clear_flap", tmp_path)))
    assert len(rows) >= 3 and {it["why"] for it in rows} == {"the switch cleared it (Clear links)"}
    captures = made("clear_all", tmp_path)
    said("--report", str(tmp_path / "report.html"), *captures)
    logins = (tmp_path / "report.html").read_text(encoding="utf-8").split('<section id="logins">')[1].split("</section>")[0]
    assert "the switch cleared it" in logins and "logged in at the end" not in logins
    rows = json.loads(said("logins", "--json", *made("vn_ka_missing", tmp_path)))
    assert [it["why"].partition(":")[0] for it in rows] == ["logged in at the end", "silent"]


@pytest.mark.parametrize(
    "name, words", [("three_vlans", "further switches or VLANs, which are beside nothing here: 8 VLAN"), ("flogi_storm", "that fit no request, by OX_ID and addresses: 66 FLOGI accept"), ("lun_masked", "")]
)
def test_frames_beside_the_comparison(name: str, words: str, tmp_path: pathlib.Path) -> None:
    """Frames of other fabrics aren't said to answer nothing, nor are those of exchanges between N_Ports."""
    text = said("compare", *made(name, tmp_path))
    assert words in text
    assert "answer no request" not in text and ("Frames of" in text) == bool(words)


@pytest.mark.skipif(not shutil.which("editcap") or not shutil.which("tshark"), reason="no tshark")
def test_comments_of_rejects_and_answers(tmp_path: pathlib.Path) -> None:
    """`annotate` writes the answer at its first frame, and the switch's reject at each."""
    captures = made("vendor_rjt", tmp_path)
    answer = json.loads(said("answers", "--json", *captures))[0]
    out = str(tmp_path / "told.pcapng")
    said("annotate", out, *captures)
    shown = subprocess.run(["tshark", "-r", out, "-T", "fields", "-e", "frame.number", "-e", "frame.comment"], capture_output=True, text=True, check=True).stdout
    comments = dict(line.partition("\t")[::2] for line in shown.splitlines())
    first = answer["frames"][0][1]
    assert comments[str(first)].endswith(answer["text"])
    rejects = [number for number, text in comments.items() if re.fullmatch(r"the switch: rejected ff 00 \(vendor specific, vendor's (21|42)\)", text)]
    assert [int(it) - 1 for it in rejects] == [number for _, number in answer["frames"]]


def test_why_sends_nobody_to_itself(tmp_path: pathlib.Path) -> None:
    captures = made("mid_session", tmp_path)
    rows: list[dict[str, Any]] = json.loads(said("frames", "--json", "--where", "verdict=dropped source-login", *captures))
    text = said("why", "1", str(rows[0]["frame"]), *captures)
    assert "look next at: " in text and "look why" not in text


@pytest.mark.parametrize("codes, words", [((0x0B, 0, 0), "whether that port of the switch takes hosts at all"), ((0x09, 0, 0), "whether that port of the switch, its VSAN and its fabric are up")])
def test_steps_after_a_reject(codes: tuple[int, int, int], words: str, tmp_path: pathlib.Path) -> None:
    """A FLOGI that is rejected sends to the switch's port, not to an FDISC or to a class of service first."""
    case = Case(0)
    case.beside = 0
    case.s.discover(case.h)
    for _ in range(3):
        case.s.reject(case.h, case.s.flogi(case.h), codes)
        case.s.wait(2)
        case.s.advertise(case.h)
    rows, _ = judge_kinds.answers(case.written(tmp_path))
    assert rows[0]["severity"] == "failed" and (rows[0]["next"] or "").startswith(words)


def test_many_hosts_without_a_broken_rule_are_a_line_of_the_report(tmp_path: pathlib.Path) -> None:
    said("--report", str(tmp_path / "report.html"), *made("boot_storm", tmp_path))
    check = html.unescape((tmp_path / "report.html").read_text(encoding="utf-8").split('<section id="check">')[1].split("</section>")[0])
    assert "<summary>" not in check and re.search(r"\d\d hosts and switches have no broken rule", check)
