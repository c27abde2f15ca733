"""What the tests take of this machine: the program, the tools, other programs, rights; and the marks of tests.

Tests are classes of unittest that pytest collects, so that they run where pytest isn't installed too. A mark is pytest's; without pytest a test that is
marked `slow` or `browser` is left out.
"""
import atexit
import contextlib
import functools
import importlib.machinery
import importlib.util
import os
import pathlib
import shutil
import subprocess
import sys
import tempfile
import unittest
from typing import Any, Callable

TOP = pathlib.Path(__file__).resolve().parents[2]
TOOLS, DEMO = TOP / "tools", TOP / "demo"
PLACES = [str(TOP / it) for it in ("bench/cases", "bench/program", "bench/tools", "tools")]
sys.path[:0] = [it for it in PLACES if it not in sys.path]
sys.dont_write_bytecode = True
Wrapper = Callable[[Any], Any]


# ---- the program


def is_of_this_text(program: pathlib.Path) -> bool:
    """Whether a program is younger than all the code that it is built of."""
    made = program.stat().st_mtime
    return all(it.stat().st_mtime <= made for it in TOP.glob("crates/*/src/*.rt"))


@functools.cache
def program() -> str:
    """A built fcoe_tool: the one that FCOE_TOOL names, what `rt ci` or `rt run` left of this text, or one that is built now."""
    named = os.environ.get("FCOE_TOOL")
    left = TOP / "crates/fcoe_tool/out/fcoe_tool"
    if named:
        if not os.access(named, os.X_OK):
            raise FileNotFoundError(f"FCOE_TOOL names no program: {named}")
        found = os.path.realpath(named)
    elif os.access(left, os.X_OK) and is_of_this_text(left):
        found = str(left)
    else:
        found = built()
    os.environ["FCOE_TOOL"] = found
    return found


def built() -> str:
    """A program that is built unproved, in a minute or two, and removed at the end."""
    room = tempfile.mkdtemp(prefix="wegcapho-program-")
    atexit.register(shutil.rmtree, room, ignore_errors=True)
    made = os.path.join(room, "fcoe_tool")
    subprocess.run([str(TOP / "tools/build"), str(TOP / "crates/fcoe_tool"), made], check=True, stdout=subprocess.DEVNULL)
    return made


def takes_preload() -> bool:
    """Whether the program loads its libraries, so that one may stand before the C library."""
    shown = pathlib.Path(program()).read_bytes()
    return b"ld-linux" in shown[:4096]


# ---- tools as modules


@functools.cache
def script(place: str) -> Any:
    """A script without an ending, as a module: `tools/look`, `bench/cases/vectors`."""
    name = "script_" + place.replace("/", "_")
    loader = importlib.machinery.SourceFileLoader(name, str(TOP / place))
    spec = importlib.util.spec_from_loader(name, loader)
    assert spec is not None
    module = importlib.util.module_from_spec(spec)
    sys.modules[name] = module
    loader.exec_module(module)
    return module


# ---- marks, and what a test needs


def mark(name: str) -> Wrapper:
    """pytest's mark of that name; without pytest what bears it is left out."""
    try:
        import pytest  # pylint: disable=import-outside-toplevel
    except ImportError:
        return unittest.skip(f"{name}: run by .ci/night, which needs pytest")
    marked: Wrapper = getattr(pytest.mark, name)
    return marked


def needs(*programs: str) -> Wrapper:
    """A test that calls these programs is skipped where one isn't installed."""
    lacking = [it for it in programs if not shutil.which(it)]
    return unittest.skipIf(bool(lacking), f"not installed: {', '.join(lacking)}")


def needs_modules(*modules: str) -> Wrapper:
    """A test of what imports these is skipped where one isn't installed."""
    lacking = [it for it in modules if importlib.util.find_spec(it) is None]
    return unittest.skipIf(bool(lacking), f"no Python module {', '.join(lacking)}")


def needs_in_tools(*modules: str) -> Wrapper:
    """The same of the python3 on PATH, which runs the tools as programs."""
    ran = subprocess.run(["python3", "-c", f"import {', '.join(modules)}"], capture_output=True, check=False)
    return unittest.skipIf(bool(ran.returncode), f"the python3 on PATH has no module {', '.join(modules)}")


@functools.cache
def why_no_namespaces() -> str:
    """Why this process can make no network namespace with a pair of wires; nothing where it can."""
    if os.geteuid():
        return "not root"
    if not shutil.which("ip"):
        return "not installed: ip"
    name = f"wegcapho-{os.getpid()}-try"
    pair = ["ip", "-n", name, "link", "add", "one", "type", "veth", "peer", "name", "other"]
    ran = subprocess.run(["ip", "netns", "add", name], capture_output=True, text=True, check=False)
    if not ran.returncode:
        ran = subprocess.run(pair, capture_output=True, text=True, check=False)
        with contextlib.suppress(OSError):
            subprocess.run(["ip", "netns", "del", name], capture_output=True, check=False)
    return f"no network namespaces: {ran.stderr.strip()}" if ran.returncode else ""


slow = mark("slow")
browser = mark("browser")


def root(test: Any) -> Any:
    """A test that makes network namespaces, as root."""
    return unittest.skipIf(bool(why_no_namespaces()), why_no_namespaces())(mark("root")(test) if "pytest" in sys.modules else test)


class RoomCase(unittest.TestCase):
    """A test with a folder of its own."""

    def setUp(self) -> None:
        self.room = pathlib.Path(self.enterContext(tempfile.TemporaryDirectory(prefix="wegcapho-test-")))
