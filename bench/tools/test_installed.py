"""An installation: each tool runs from an empty folder, as another user; and one that fails leaves what was there."""
import compileall
import pathlib
import shutil
import sys
from typing import Iterator

import pytest

HERE = pathlib.Path(__file__).resolve().parent
TOP = HERE.parents[1]
sys.path[:0] = [str(HERE), str(TOP / "tools")]
# pylint: disable=wrong-import-position,redefined-outer-name
from installation import as_another, install, listing, open_folder
from machine import program as built
from making.putting import Prefix
from making.staging import TOOLS, Program

RUN = "initiator.pcap out1.pcap target.pcap out2.pcap"
SNOOP = "bridge/forwarder.pcap to1.pcap bridge/initiator.pcap to2.pcap bridge/target.pcap to3.pcap"
# a command, and what it prints somewhere
COMMANDS = [
    (f"fcoe_tool run fabric.conf journal {RUN}", "frames 315 entries 475"),
    (f"fcoe_tool snoop fabric.conf {SNOOP}", "passed 533 dropped 40"),
    ("look logins --quiet initiator.pcap target.pcap", "20:00:00:1b:21:00:00:0a"),
    ("look check --quiet initiator.pcap target.pcap", "held"),
    ("look fields --quiet initiator.pcap", "as `enode` sends them"),
    (f"look --quiet --config fabric.conf --journal journal --report report.html {RUN}", "login"),
    ("zones --from zonings/nxos_active.txt", "zone "),
    ("zones --to fos --from zonings/nxos_active.txt", "zonecreate"),
    (f"ladder fabric.conf journal {RUN}", "</svg>"),
    (f"bound fabric.conf {SNOOP}", "dropped: 40 ethertype"),
    ("annotate fabric.conf journal initiator.pcap told.pcapng", ""),
    ("readdress initiator.pcap moved.pcap 01=65", ""),
    ("live --list", "interface"),
    ("scenes --list", "scene"),
    ("fcoe_host --list", "fault"),
    ("load --frames 400 --ports 2 --logins 4 load", ""),
    ("vm --help", "vm FOLDER start"),
]


@pytest.fixture(scope="module")
def room() -> Iterator[pathlib.Path]:
    yield from open_folder()


@pytest.fixture(scope="module")
def prefix(room: pathlib.Path) -> pathlib.Path:
    """An installation, with a program that was neither proved nor built there, which it says."""
    ran = install(room / "usr", "--program", built())
    assert ran.returncode == 0, ran.stderr
    assert "neither proved nor built here" in ran.stdout
    return room / "usr"


@pytest.fixture(scope="module")
def empty(room: pathlib.Path) -> pathlib.Path:
    """A folder of a user, with the demo's files."""
    folder = room / "empty"
    shutil.copytree(TOP / "demo", folder)
    return folder


@pytest.mark.parametrize("command, says", COMMANDS, ids=[it.split()[0] + str(at) for at, (it, _) in enumerate(COMMANDS)])
def test_each_tool_runs(prefix: pathlib.Path, empty: pathlib.Path, command: str, says: str) -> None:
    if command.startswith("annotate") and not shutil.which("editcap"):
        pytest.skip("no editcap")
    if "--report" in command and as_another(empty, prefix, ["python3", "-c", "import jinja2"]).returncode:
        pytest.skip("the system's python3 has no jinja2")
    ran = as_another(empty, prefix, command.split())
    assert ran.returncode == 0, (command, ran.stdout[-300:], ran.stderr[-2000:])
    assert says in ran.stdout, ran.stdout[-2000:]


def test_all_that_is_installed_is_tried(prefix: pathlib.Path) -> None:
    """Each command has a line above, each link leads somewhere, and no file sends a user into the tests."""
    assert {command.split()[0] for command, _ in COMMANDS} == {*TOOLS, "fcoe_tool"} == {it.name for it in (prefix / "bin").iterdir()}
    links = [it for it in prefix.rglob("*") if it.is_symlink()]
    assert links and not [it for it in links if not it.exists() or pathlib.Path(it.readlink()).is_absolute()]
    files = [it for it in prefix.rglob("*") if it.is_file() and it.suffix != ".pyc" and it.name != "fcoe_tool"]
    assert not [it for it in files if "bench/" in it.read_text(encoding="utf-8")]


REFUSED = [
    (["--program", "/nowhere/fcoe_tool"], "no program"),
    (["--program", "/bin/ls"], "is no fcoe_tool"),
    (["--program", "/etc/passwd"], "no program"),
    (["--progam", "x"], "--program"),
    (["more"], "unrecognized"),
]


@pytest.mark.parametrize("words, says", REFUSED, ids=[" ".join(words) for words, _ in REFUSED])
def test_bad_words_leave_what_was_there(prefix: pathlib.Path, words: list[str], says: str) -> None:
    before = listing(prefix)
    ran = install(prefix, *words)
    assert (ran.returncode, ran.stderr.count("\n"), says in ran.stderr, ran.stdout) == (2, 1, True, ""), ran.stderr
    assert listing(prefix) == before


@pytest.mark.parametrize("name", ["bin/look", "share/man/man1/look.1", "bin"])
def test_a_file_of_somebody_else_stays(tmp_path: pathlib.Path, name: str) -> None:
    """As where PREFIX is /usr, which has another `look`."""
    (tmp_path / name).parent.mkdir(parents=True, exist_ok=True)
    (tmp_path / name).write_text("another's", encoding="utf-8")
    before = listing(tmp_path)
    ran = install(tmp_path, "--program", built())
    assert (ran.returncode, ran.stderr.count("\n"), str(tmp_path / name) in ran.stderr) == (2, 1, True), ran.stderr
    assert listing(tmp_path) == before


def older(prefix: pathlib.Path) -> None:
    """An installation of another day: other files, and a tool that there isn't any more."""
    home = prefix / "share/wegcapho"
    for folder in ("tools", "bin"):
        (home / folder).mkdir(parents=True)
    (prefix / "bin").mkdir()
    for name in ("look", "gone"):
        (home / "tools" / name).write_text("old", encoding="utf-8")
        (prefix / "bin" / name).symlink_to(f"../share/wegcapho/tools/{name}")
    (home / "LINKS").write_text("bin/look\nbin/gone\n", encoding="utf-8")


@pytest.mark.parametrize("why", [OSError, KeyboardInterrupt])
@pytest.mark.parametrize("fails", [0, 1, 9])
@pytest.mark.parametrize("is_there", [False, True])
def test_one_that_fails_leaves_what_was_there(tmp_path: pathlib.Path, monkeypatch: pytest.MonkeyPatch, why: type[BaseException], fails: int, is_there: bool) -> None:
    """Whichever step it is: the staging, or a link."""
    if is_there:
        older(tmp_path)
    before, count, real = listing(tmp_path), iter(range(100)), pathlib.Path.symlink_to

    def compiled(*_: object, **__: object) -> bool:
        if not fails:
            raise why
        return True

    def linked(path: pathlib.Path, to: str) -> None:
        if next(count) == fails - 1:
            raise why
        real(path, to)

    monkeypatch.setattr(compileall, "compile_dir", compiled)
    monkeypatch.setattr(pathlib.Path, "symlink_to", linked)
    with pytest.raises(why):
        Prefix(str(tmp_path)).put(Program(pathlib.Path(built()), "tried"))
    assert listing(tmp_path) == before


def test_an_older_one_is_replaced(tmp_path: pathlib.Path) -> None:
    """What it alone had is gone, and nothing of the change is left."""
    older(tmp_path)
    ran = install(tmp_path, "--program", built())
    assert ran.returncode == 0, ran.stderr
    assert not (tmp_path / "bin/gone").is_symlink() and (tmp_path / "bin/look").exists()
    assert not list(tmp_path.rglob(".*"))
