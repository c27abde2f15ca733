"""`look trim`: of a session that was cut anywhere, in the order in which it is written, what `replay` accepts is left."""
import json
import pathlib
import random
import subprocess
import sys

import pytest
from machine import TOOLS, TOP

PAIRS = ["in1.pcap", "out1.pcap", "in2.pcap", "out2.pcap"]


def recording(folder: pathlib.Path, program: str) -> None:
    """A session's folder, made by a run."""
    folder.mkdir()
    for at, name in enumerate(("initiator", "target"), 1):
        (folder / f"in{at}.pcap").write_bytes((TOP / f"demo/{name}.pcap").read_bytes())
    (folder / "fabric.conf").write_bytes((TOP / "demo/fabric.conf").read_bytes())
    subprocess.run([program, "run", "fabric.conf", "journal", *PAIRS], cwd=folder, check=True, stdout=subprocess.DEVNULL)
    (folder / "session.json").write_text(json.dumps({"interfaces": ["a", "b"], "begun": 1}), encoding="ascii")


@pytest.mark.parametrize("name", ["nothing", "half a line", "format 1"])
def test_journals_that_begin_otherwise(name: str, program: str, tmp_path: pathlib.Path) -> None:
    """Without a whole line there is nothing; a journal of format 1 has no line before its entries."""
    folder = tmp_path / "s"
    recording(folder, program)
    lines = (folder / "journal").read_text().splitlines()[1:]
    one = "".join(f"tick {it.replace(' tick', '', 1)}\n" if " tick" in it else f"{it.partition(' ')[2]}\n" for it in lines)
    (folder / "journal").write_text({"nothing": "", "half a line": "journ", "format 1": one}[name])
    ran = subprocess.run([sys.executable, TOOLS / "look", "trim", str(folder)], capture_output=True, text=True, check=False)
    if name == "format 1":
        assert ran.returncode == 0 and f"{len(lines)} entries are whole, 0 left out" in ran.stdout, ran.stderr
    else:
        assert ran.returncode == 2 and "nothing of this recording is whole" in ran.stderr and not (tmp_path / "s.whole").exists()


@pytest.mark.parametrize("seed", range(8))
def test_a_recording_that_was_cut(seed: int, program: str, tmp_path: pathlib.Path) -> None:
    rng = random.Random(seed)
    folder = tmp_path / "s"
    recording(folder, program)
    for name in ["journal", "out1.pcap", "out2.pcap"][: rng.randint(1, 3)] if seed % 2 else ["out1.pcap"]:
        data = (folder / name).read_bytes()
        (folder / name).write_bytes(data[: max(24, int(len(data) * rng.uniform(0.1, 1)))])
    ran = subprocess.run([sys.executable, TOOLS / "look", "trim", str(folder)], capture_output=True, text=True, check=False)
    assert ran.returncode == 0, ran.stderr
    again = subprocess.run([program, "replay", "fabric.conf", "journal", *PAIRS], cwd=tmp_path / "s.whole", capture_output=True, text=True, check=False)
    assert again.returncode == 0 and again.stdout.strip() in ran.stdout
    assert ran.stdout.startswith(f"{folder}.whole: ") and "entries are whole" in ran.stdout
    refused = subprocess.run([sys.executable, TOOLS / "look", "trim", str(folder)], capture_output=True, text=True, check=False)
    assert refused.returncode == 2 and "File exists" in refused.stderr


def test_a_whole_recording_stays_whole(program: str, tmp_path: pathlib.Path) -> None:
    folder = tmp_path / "s"
    recording(folder, program)
    ran = subprocess.run([sys.executable, TOOLS / "look", "trim", str(folder)], capture_output=True, text=True, check=True)
    assert "475 entries are whole" in ran.stdout, ran.stdout
    for name in ["journal", *PAIRS]:
        assert (tmp_path / "s.whole" / name).read_bytes() == (folder / name).read_bytes(), name
