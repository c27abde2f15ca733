"""Words and files that once made a tool hang, end in a traceback, or write to its reader's terminal; and what all tools share."""
import bz2
import gzip
import json
import lzma
import os
import pathlib
import struct
import subprocess
import sys
from typing import Any, Callable

import pytest

TOP = pathlib.Path(__file__).resolve().parents[2]
sys.path[:0] = [str(TOP / "tools"), str(TOP / "bench/tools")]

from fcoe import files, numerals, printing  # pylint: disable=wrong-import-position
from fcoe.errors import Refused  # pylint: disable=wrong-import-position
from fcoe.frames import limits  # pylint: disable=wrong-import-position
from fcoe.moments import moment_of, stamp  # pylint: disable=wrong-import-position
from fuzz_cases import block, classic, option  # pylint: disable=wrong-import-position

INITIATOR, TARGET = str(TOP / "demo/initiator.pcap"), str(TOP / "demo/target.pcap")
ZONE = b"zone name a vsan 1\n  pwwn 20:00:00:1b:21:00:00:0a\n"
BIG = "9" * 5000
Ran = subprocess.CompletedProcess[str]


def run(folder: pathlib.Path, tool: str, *words: str, **more: Any) -> Ran:
    """A tool in a folder; its streams as text, whatever they are."""
    env = {**os.environ, **more.pop("env", {})}
    return subprocess.run([TOP / "tools" / tool, *words], cwd=folder, stdin=subprocess.DEVNULL, capture_output=True, encoding="latin-1", env=env, timeout=600, check=False, **more)


def is_clean(ran: Ran) -> bool:
    """No traceback, no fault of the tool's own, and no sign that a terminal obeys."""
    text = (ran.stdout + ran.stderr).encode("latin-1").decode("utf-8", "replace")
    return ran.returncode in (0, 1, 2) and "Traceback" not in text and not any(ord(it) < 32 and it != "\n" or 127 <= ord(it) < 160 for it in text)


# ---- zonings: the text, further words, the status

RING = b"Defined configuration:\n cfg: c z\n zone: z a\n alias: a b\n alias: b c\n alias: c a\n"
CHAIN = b"Defined configuration:\n cfg: c z\n zone: z a0\n" + b"".join(b" alias: a%d a%d; a%d\n" % (it, it + 1, it + 1) for it in range(5000)) + b" alias: a5000 20:00:00:1b:21:00:00:0a\n"
DEEP = b"Defined configuration:\n cfg: c z\n zone: z a0\n" + b"".join(b" alias: a%d a%d; a%d\n" % (it, it + 1, it + 1) for it in range(40)) + b" alias: a40 20:00:00:1b:21:00:00:0a\n"
ZONINGS: dict[str, tuple[bytes, int, str]] = {
    "what a pager left is wiped": (b"--More--" + b"\b" * 8 + b" " * 8 + b"\b" * 8 + ZONE, 0, ""),
    "a backspace alone": (b"a\bb\n\b", 2, "no zoning"),
    "a range of all VSANs and more": (b"zone default-zone permit vsan 1-3000000\n", 2, "line 1"),
    "a VSAN of many digits": (b"zone name a vsan " + BIG.encode() + b"\n  pwwn 20:00:00:1b:21:00:00:0a\n", 2, "a VSAN is 1 to 4094"),
    "aliases in a ring": (RING, 2, "has itself as a member by way of b, c"),
    "aliases too deep": (CHAIN, 2, "stands in 50 others"),
    "aliases that double": (DEEP, 0, ""),
    "a domain in hexadecimal": (b"zone name a vsan 1\n  member domain-id ab port-number 1\n", 2, ""),
    "control signs": (b"zone name a vsan 1\n  bogus \xc2\x9b5m\x1b]0;x\n", 2, "\\x9b5m\\x1b]0;x"),
    "UTF-16 with halves": (b"\xff\xfe" + b"z\0\x00\xd8", 2, ""),
}


@pytest.mark.parametrize("name", ZONINGS)
def test_zonings(name: str, tmp_path: pathlib.Path) -> None:
    text, status, said = ZONINGS[name]
    (tmp_path / "Z").write_bytes(text)
    ran = run(tmp_path, "zones", "--from", "Z")
    assert is_clean(ran) and ran.returncode == status, ran.stderr[-500:]
    assert said in ran.stderr


# ---- captures


def records(name: str) -> list[tuple[int, bytes]]:
    from fcoe.frames.captures import classic as read  # pylint: disable=import-outside-toplevel

    return [(it.moment, it.data) for it in read(name).records]


def pcapng(resolution: int, name: bytes = b"", offset: int = 0) -> bytes:
    """The demo's first frames, of an interface with this clock."""
    more = option("<", 2, name) + option("<", 9, bytes([resolution])) + option("<", 14, struct.pack("<q", offset)) + option("<", 0, b"")
    made = block("<", 0x0A0D0D0A, struct.pack("<IHHq", 0x1A2B3C4D, 1, 0, -1)) + block("<", 1, struct.pack("<HHI", 1, 0, 0) + more)
    for moment, data in records(INITIATOR)[:30]:
        made += block("<", 6, struct.pack("<IIIII", 0, moment >> 32, moment & 0xFFFFFFFF, len(data), len(data)) + data)
    return made


def flipped(data: bytes, at: int) -> bytes:
    return data[:at] + bytes([data[at] ^ 0x55]) + data[at + 1 :]


PLAIN = pathlib.Path(INITIATOR).read_bytes()
CAPTURES: dict[str, tuple[Callable[[], bytes], int, str]] = {
    "a clock of seconds": (lambda: pcapng(0), 2, "a time before 1970 or behind 2106"),
    "an offset of millennia": (lambda: pcapng(9, offset=2**62), 2, "a time before 1970 or behind 2106"),
    "an offset before 1970": (lambda: pcapng(9, offset=-(2**40)), 2, "a time before 1970 or behind 2106"),
    "an interface with a control sign": (lambda: pcapng(9, b"\x1b[5m\xc2\x9b"), 0, ""),
    "a spoiled .gz": (lambda: flipped(gzip.compress(PLAIN), 12), 2, "can't be unpacked"),
    "a spoiled .bz2": (lambda: flipped(bz2.compress(PLAIN), 300), 2, "can't be unpacked"),
    "a spoiled .xz": (lambda: flipped(lzma.compress(PLAIN), 300), 2, "can't be unpacked"),
    "more frames than run takes, packed": (lambda: gzip.compress(PLAIN[:24] + bytes(16 * 8_000_001), 1), 2, "limit frames 4000000"),
}


@pytest.mark.parametrize("name", CAPTURES)
def test_captures(name: str, tmp_path: pathlib.Path) -> None:
    made, status, said = CAPTURES[name]
    (tmp_path / "c").write_bytes(made())
    ran = run(tmp_path, "look", "c")
    assert is_clean(ran) and ran.returncode == status, ran.stderr[-500:]
    assert said in ran.stderr


def test_a_spoiled_tail_leaves_what_is_before(tmp_path: pathlib.Path) -> None:
    """Also several streams in one file."""
    (tmp_path / "c.xz").write_bytes(lzma.compress(PLAIN[:20000]) + lzma.compress(PLAIN[20000:]))
    assert run(tmp_path, "look", "frames", "--csv", "c.xz").stdout == run(tmp_path, "look", "frames", "--csv", INITIATOR).stdout
    (tmp_path / "c.gz").write_bytes(gzip.compress(PLAIN)[:-500])
    ran = run(tmp_path, "look", "c.gz")
    assert is_clean(ran) and ran.returncode == 0 and "the frames before are taken" in ran.stderr


# ---- words


@pytest.mark.parametrize("words", ["why ² 1", f"why 1 {BIG}", "--interface ²", f"--interface {BIG}", f"names --at {BIG}", f"names --at +{'9' * 400}", f"reach --at {'1' * 18}", "annotate OUT --port 99", "--window 1_0", "--vlan ٣"])
def test_numbers_that_are_none(words: str, tmp_path: pathlib.Path) -> None:
    ran = run(tmp_path, "look", *words.split(), INITIATOR)
    assert is_clean(ran) and ran.returncode == 2, ran.stderr[-500:]


def test_numbers() -> None:
    for word, number in {"0": 0, "42": 42, "007": 7, "²": None, "٣": None, "-1": None, "+1": None, "1_0": None, " 1": None, "": None, BIG: None}.items():
        assert numerals.whole(word) == number
    assert numerals.whole("65", 1, 64) is None
    assert stamp(10**17) == "100000000000000.000 s"
    for word in (BIG, "+" + BIG, "9999-99-99", "١٢:٠٠:٠٠"):
        with pytest.raises(Refused):
            moment_of(word, 0)


# ---- text out


def test_text_has_no_control_signs() -> None:
    assert printing.visible("a\x1b[5m\x07\x7f\x9b\r\udcff\ud800\n\t") == "a\\x1b[5m\\x07\\x7f\\x9b\\x0d\\xff\\ud800\n\t"
    assert printing.one_line("a\nb\tc") == "a\\x0ab\\x09c"
    text = printing.as_json({"a": "\x1b\x7f\x9b\ud800×"})
    assert text == '{"a": "\\u001b\\u007f\\u009b\\ud800×"}' and json.loads(text)["a"] == "\x1b\x7f\x9b\ud800×"


def test_names_that_are_no_utf_8(tmp_path: pathlib.Path) -> None:
    name = "a\udcff.pcap"
    (tmp_path / name).write_bytes(PLAIN)
    (tmp_path / "r.html").write_bytes(b"before")
    for words in (["--report", "r.html"], ["--json"], ["why", "1", "1"]):
        for encoding in ("utf-8:strict", "ascii"):
            ran = run(tmp_path, "look", *words, name, env={"PYTHONIOENCODING": encoding})
            assert is_clean(ran) and ran.returncode == 0, ran.stderr[-500:]
            assert "--json" not in words or json.loads(ran.stdout)
    assert "a\\xff.pcap" in (tmp_path / "r.html").read_text(encoding="utf-8")


def test_a_file_is_whole_or_as_it_was(tmp_path: pathlib.Path) -> None:
    path = tmp_path / "x"
    path.write_bytes(b"before")
    with pytest.raises(ValueError), files.renamed(path) as there:
        pathlib.Path(there).write_bytes(b"half")
        raise ValueError
    assert path.read_text() == "before" and os.listdir(tmp_path) == ["x"]
    files.write_whole(path, "a\x1b\udcff\n")
    assert path.read_text() == "a\\x1b\\xff\n" and os.listdir(tmp_path) == ["x"]


@pytest.mark.parametrize("field", [8, 12])
def test_a_length_that_is_spoiled_takes_no_room(field: int, tmp_path: pathlib.Path) -> None:
    """Of a record deep in the file: what is there of the frame, and how long it was."""
    place = 24
    for _ in range(40):
        place += 16 + int.from_bytes(PLAIN[place + 8 : place + 12], "little")
    (tmp_path / "c").write_bytes(PLAIN[: place + field] + (0xFFFFFFF0).to_bytes(4, "little") + PLAIN[place + field + 4 :])
    ran = subprocess.run(["bash", "-c", f"ulimit -v 400000; {TOP}/tools/look check c"], cwd=tmp_path, capture_output=True, text=True, check=False)
    assert ran.returncode in (0, 1) and "no memory" not in ran.stderr, ran.stderr


def test_what_comes_is_counted_in_any_pieces() -> None:
    frames = [(it, bytes(it)) for it in range(50)]
    packed = block("<", 0x0A0D0D0A, struct.pack("<IHHq", 0x1A2B3C4D, 1, 0, -1)) + block("<", 6, bytes(40)) * 3
    for data, expected in ((classic(frames), 50), (classic(frames, ">"), 50), (packed, 4)):
        for size in (1, 13, 24, 100, 10_000):
            count = limits.Count("it")
            for at in range(0, len(data), size):
                count.take(data[at : at + size])
            assert count.frames == expected and count.bytes <= sum(range(50)), (expected, size)


def test_what_is_no_capture_ends_at_once(tmp_path: pathlib.Path) -> None:
    """Devices and streams that never end, and what is packed and is none."""
    (tmp_path / "c.gz").write_bytes(gzip.compress(bytes(100 << 20), 1))
    for words, said in (("look /dev/zero", "a device"), ("look - </dev/zero", "no capture"), ("yes | {}look -", "no capture"), ("look c.gz", "no capture")):
        line = words.format(f"{TOP}/tools/") if "{}" in words else f"{TOP}/tools/{words}"
        ran = subprocess.run(["bash", "-c", line], cwd=tmp_path, capture_output=True, text=True, check=False, timeout=120)
        assert ran.returncode == 2 and said in ran.stderr and ran.stderr.count("\n") == 1, ran.stderr


def test_more_bytes_than_run_takes_are_told(monkeypatch: pytest.MonkeyPatch) -> None:
    monkeypatch.setattr(limits, "MOST_BYTES", 1000)
    with pytest.raises(Refused, match="limit bytes 1000"):
        limits.Count("it").take(classic([(0, bytes(700))] * 3))


# ---- how tools end


@pytest.mark.parametrize("line", ["look {} >/dev/full", "look nosuch 2>/dev/full", "look {} >&-", "look --help >/dev/full", "load --help >&-", "look - <&-", "look {} <&- >&- 2>&-", "zones --from {} >&-"])
def test_streams_that_are_closed_or_full(line: str, tmp_path: pathlib.Path) -> None:
    ran = subprocess.run(["bash", "-c", f"{TOP}/tools/{line.format(INITIATOR)}"], cwd=tmp_path, capture_output=True, text=True, check=False)
    assert ran.returncode == 2 and "Traceback" not in ran.stderr and ran.stderr.count("\n") <= 12, ran.stderr


BASELINES = {b"[" * 100_000: "nested too deep", b'{"rules": 7}': "has no list", b'{"rules": [{}]}': "has no list", b'{"rules": [{"who": [], "host": {}, "rule": 7, "port": "x", "state": []}]}': "has no list", b"7": "has no list", b"\xff": "no JSON"}


@pytest.mark.parametrize("text", BASELINES)
def test_earlier_reports_that_are_none(text: bytes, tmp_path: pathlib.Path) -> None:
    (tmp_path / "b.json").write_bytes(text)
    ran = run(tmp_path, "look", "check", "--baseline", "b.json", INITIATOR)
    assert is_clean(ran) and ran.returncode == 2 and BASELINES[text] in ran.stderr, ran.stderr


def test_a_fault_of_a_tool_is_a_line(tmp_path: pathlib.Path) -> None:
    """The line says what to send; --debug shows the place."""
    home = tmp_path / "tools"
    home.mkdir()
    (home / "fcoe").symlink_to(TOP / "tools/fcoe")
    (home / "bad").write_text("from fcoe.start import main_of\n\n\ndef run(words):\n    return 1 // len(words)\n\n\nmain_of(run)\n")
    for words, lines in (("", 1), ("--debug", 6)):
        ran = subprocess.run([sys.executable, home / "bad", *words.split()], capture_output=True, text=True, check=False)
        assert ran.returncode == 70 and "report it" in ran.stderr and ran.stderr.count("\n") >= lines
        assert ("Traceback" in ran.stderr) == bool(words)


@pytest.mark.parametrize("program", ["/bin/true", "/bin/cat", "/bin/echo"])
def test_another_program_than_ours(program: str, tmp_path: pathlib.Path) -> None:
    ran = run(tmp_path, "look", INITIATOR, env={"FCOE_TOOL": program})
    assert is_clean(ran) and ran.returncode == 2, ran.stderr
    for words in (f"replay --config C --journal C {INITIATOR} {TARGET}", f"show --config C --journal C {INITIATOR}"):
        (tmp_path / "C").write_bytes((TOP / "demo/fabric.conf").read_bytes())
        ran = run(tmp_path, "look", *words.split(), env={"FCOE_TOOL": program})
        assert is_clean(ran) and ran.returncode == 2, (words, ran.stderr)


@pytest.mark.parametrize("text", [b"def (:", b"1/0", b"raise SystemExit(3)", b"SCENES = 3"])
def test_files_of_scenes(text: bytes, tmp_path: pathlib.Path) -> None:
    (tmp_path / "more.py").write_bytes(text)
    ran = run(tmp_path, "scenes", "--list", "--more", "more.py")
    assert is_clean(ran) and ran.returncode == 2 and "more.py" in ran.stderr


# ---- sessions and runs that were changed


@pytest.fixture(name="session")
def session_of(tmp_path: pathlib.Path, program: str) -> pathlib.Path:
    """A session's folder, made by a run."""
    folder = tmp_path / "s"
    folder.mkdir()
    for at, name in ((1, INITIATOR), (2, TARGET)):
        (folder / f"in{at}.pcap").write_bytes(pathlib.Path(name).read_bytes())
    (folder / "fabric.conf").write_bytes((TOP / "demo/fabric.conf").read_bytes())
    subprocess.run([program, "run", "fabric.conf", "journal", "in1.pcap", "out1.pcap", "in2.pcap", "out2.pcap"], cwd=folder, check=True, stdout=subprocess.DEVNULL)
    (folder / "session.json").write_text(json.dumps({"interfaces": ["a", "b"], "begun": 1, "ended": 2, "status": 0, "line": "it"}))
    return folder


TOLD: list[tuple[Any, int]] = [(7, 2), ({"interfaces": 7}, 2), ({"interfaces": ["p"] * 1_000_000}, 2), ({"line": "\x1b[5m\ud800", "interfaces": ["../../etc/passwd", "b"]}, 0), ({"status": 10**30}, 2)]


@pytest.mark.parametrize("told, status", TOLD)
def test_what_a_session_tells(told: Any, status: int, session: pathlib.Path) -> None:
    (session / "session.json").write_text(json.dumps(told))
    for words in ("", "--json"):
        ran = run(session.parent, "look", "--session", "s", *words.split())
        assert is_clean(ran) and ran.returncode == status, ran.stderr[-500:]


CHANGED: dict[str, Callable[[bytes], bytes]] = {
    "an address that is none": lambda it: it.replace(b"granted 01", b"granted zz", 1),
    "a clock of 23 digits": lambda it: it + b"9" * 23 + b" tick\n",
    "a verdict that is none": lambda it: it.replace(b" vlans", b' =HYPERLINK("http://x","y")', 1),
    "a control sign": lambda it: it.replace(b" vlans", b" \x1b[5m", 1),
    "a port that isn't there": lambda it: it.replace(b"forwarded 2", b"forwarded 64"),
    "one line": lambda it: b"1" * (2 << 20),
}


@pytest.mark.parametrize("name", CHANGED)
def test_journals_that_were_changed(name: str, session: pathlib.Path) -> None:
    (session / "journal").write_bytes(CHANGED[name]((session / "journal").read_bytes()))
    run_of = ["--config", "fabric.conf", "--journal", "journal", "journal", "--csv", "in1.pcap", "out1.pcap", "in2.pcap", "out2.pcap"]
    for folder, words in ((session.parent, ["--session", "s"]), (session, run_of)):
        ran = run(folder, "look", *words)
        assert is_clean(ran) and (ran.returncode == 2 or "isn't there" in name), ran.stderr[-500:]


@pytest.mark.parametrize("name", ["journal", "in1.pcap", "fabric.conf", "session.json"])
def test_files_of_a_session_that_are_none(name: str, session: pathlib.Path) -> None:
    """A FIFO would be waited for."""
    (session / name).unlink()
    os.mkfifo(session / name)
    for words in ("--session s", "--session s names", "trim s"):
        assert run(session.parent, "look", *words.split()).returncode == 2, words
    assert not (session.parent / "s.whole").exists()


def test_a_window_of_nothing_and_a_capture_of_nothing(session: pathlib.Path) -> None:
    (session / "w0.conf").write_bytes((session / "fabric.conf").read_bytes() + b"window 0\n")
    (session / "none.pcap").write_bytes(classic([]))
    assert run(session, "look", "--config", "w0.conf", "--journal", "journal", "in1.pcap", "out1.pcap", "in2.pcap", "out2.pcap").returncode == 2
    for port in ("", "1"):
        ran = run(session, "annotate", "fabric.conf", "journal", "none.pcap", "OUT.pcapng", *port.split())
        assert is_clean(ran) and ran.returncode == 2, ran.stderr


# ---- a host


@pytest.mark.parametrize("role", ["initiator", "target"])
def test_a_host_outlives_what_a_wire_brings(role: str) -> None:
    """Frames of FCP that are cut anywhere, from one who is logged in."""
    from fcoe.frames.heard import Fc  # pylint: disable=import-outside-toplevel
    from fcoe.host.enode import ENode, Forwarder, Manner  # pylint: disable=import-outside-toplevel
    from fcoe.host.nport import NPort, Peer  # pylint: disable=import-outside-toplevel
    from fcoe.host.speech import Names  # pylint: disable=import-outside-toplevel

    sent: list[bytes] = []
    host = ENode(Names(bytes(6), bytes(8), bytes(8)), Manner(role), sent.append)
    host.stand.forwarder = Forwarder(bytes(6), b"\x0e\xfc\x00", 0, 8.0, False)
    port = NPort(host, 0x010100, b"\x0e\xfc\x00\x01\x01\x00", (bytes(8), bytes(8)), 7)
    for size in range(40):
        for kind in range(8):
            for byte in (0x00, 0x01, 0x02, 0xFF):
                data = bytes([kind, 1, 1, 0, 0, 1, 1, 1, 8]) + bytes(15) + bytes([byte]) * size
                port.peers[0x010101] = Peer(0x010101, is_logged_in=True)
                port.open[0] = None  # type: ignore[assignment]
                port.storage.take(Fc(data, 0, len(data)))
    assert max(map(len, sent)) < 2200
