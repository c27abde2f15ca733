"""pytest over bench/: where the modules of the tests are, the marks, and fixtures.

`pytest bench -m "not slow and not browser"` is what `.ci/run` runs behind `rt ci`; bench/README.md says what each file needs and how long it takes.
"""
import pathlib
import sys
from typing import Iterator

import pytest

sys.path.insert(0, str(pathlib.Path(__file__).resolve().parent / "program"))
import machine  # pylint: disable=wrong-import-position

MARKS = {
    "slow": "takes more than half a minute: .ci/night runs it",
    "root": "makes network namespaces, as root",
    "browser": "opens pages in Chromium: .ci/night runs it",
}


def pytest_configure(config: pytest.Config) -> None:
    for name, says in MARKS.items():
        config.addinivalue_line("markers", f"{name}: {says}")


@pytest.fixture(scope="session", autouse=True)
def program() -> str:
    """A built fcoe_tool (machine.program), which FCOE_TOOL names for the tools."""
    return machine.program()


@pytest.fixture
def namespaces() -> Iterator[None]:
    """Skips a test where no network namespace can be made."""
    if machine.why_no_namespaces():
        pytest.skip(machine.why_no_namespaces())
    yield
