"""bench/tools/fuzz finds nothing: some cases of a fixed seed; .ci/night runs ten thousand."""
import pathlib
import subprocess
import sys

import pytest

FUZZ = str(pathlib.Path(__file__).with_name("fuzz"))


@pytest.mark.parametrize("cases", [300, pytest.param(10_000, marks=pytest.mark.slow)])
def test_hostile_cases_end_in_a_line(program: str, cases: int) -> None:
    ran = subprocess.run([sys.executable, FUZZ, "--seed", "20", "--cases", str(cases), program], capture_output=True, text=True, check=False)
    assert ran.returncode == 0, ran.stdout + ran.stderr
    assert f"{cases} cases, 0 findings" in ran.stdout
