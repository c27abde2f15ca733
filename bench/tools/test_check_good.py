"""`look check` calls nobody broken who is right: runs drawn by lot (good_runs), as they are and as laboratories have captures (wear), and what Linux sent."""
import random
from typing import Any

import pytest
from checking import BROKEN, said_of, states
from good_runs import good_run
from machine import DEMO as FOLDER
from machine import slow
from wear import WEARS

from fcoe.frames.captures import classic, write_classic

FEW, MANY = range(16), range(300)
DEMO = [str(FOLDER / f"{name}.pcap") for name in ("initiator", "target")]


def blamed(seed: int, wear: str) -> set[str]:
    """The rules that are called broken over a run; a switch that falls silent breaks its period."""
    run = good_run(seed)
    found = states(WEARS[wear](run.tape, random.Random(seed))).get(BROKEN, set())
    return found - ({"fcf-period"} if any(it.startswith("silence") for it in run.what) else set())


def of(seeds: "range", wear: str) -> dict[int, set[str]]:
    found = {seed: blamed(seed, wear) for seed in seeds}
    return {seed: rules for seed, rules in found.items() if rules}


def test_right_runs_few() -> None:
    assert of(FEW, "as it is") == {}


@pytest.mark.parametrize("number, wear", list(enumerate(WEARS)))
def test_worn_captures_few(number: int, wear: str) -> None:
    assert of(range(20 + 2 * number, 22 + 2 * number), wear) == {}


@slow
def test_right_runs() -> None:
    assert of(MANY, "as it is") == {}


@slow
@pytest.mark.parametrize("wear", WEARS)
def test_worn_captures(wear: str) -> None:
    assert of(range(300, 340), wear) == {}


@pytest.mark.parametrize("wear", WEARS)
@pytest.mark.parametrize("file", DEMO)
def test_linux(file: str, wear: str) -> None:
    tape = WEARS[wear](classic(file).records[:], random.Random(1))
    assert not states(tape).get(BROKEN)


def test_what_was_done_is_said(tmp_path: Any) -> None:
    """Check sequences, copies and a lag are named on top, and taken out."""
    run = good_run(3)
    for wear, words in (("check sequences", "check sequence"), ("twice", "stand twice"), ("0.5 ms late", "too early, which is taken out")):
        file = str(tmp_path / "worn.pcap")
        write_classic(file, WEARS[wear](run.tape, random.Random(3)))
        said, _ = said_of([file])
        assert any(words in it for it in said["captures"][0]["found"]), wear
