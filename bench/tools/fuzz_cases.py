"""Cases for bench/tools/fuzz: words of a tool and the files that they name, made of good ones by grammar and by mutation. The same number makes the same case."""
import bz2
import gzip
import json
import lzma
import os
import pathlib
import random
import shutil
import struct
import subprocess
import sys
from dataclasses import dataclass, field
from typing import Callable

TOP = pathlib.Path(__file__).resolve().parents[2]
sys.path.insert(0, str(TOP / "tools"))

from fcoe.frames.captures import classic as read_classic  # pylint: disable=wrong-import-position
from fcoe.frames.heard import fc_check  # pylint: disable=wrong-import-position

DEMO = TOP / "demo"
ANYTHING: tuple[object, ...] = (None, 0, -1, 10**30, 1.5, "x", "\x1b[5m", "\ud800", [], {}, ["a"], [["a"]], {"a": 1}, True)  # that JSON can say
Wire = tuple[int, bytes]  # a moment in nanoseconds, and a frame
A, B = "20:00:00:1b:21:00:00:0a", "20:00:00:1b:21:00:00:0b"
# what makes a terminal do something; none is a sequence that a tool means itself
ESCAPES = ["\x1b]0;owned\x07", "\x1b[5m", "\x9b7m", "\x7f", "\x1bc", "\b\b\b", "\r", "\x00", "\x1b[2J", "\x85", "\u2028", "\ud800".encode("utf-8", "surrogatepass").decode("latin-1")]
NUMBERS = ["0", "1", "2", "-1", "64", "65", "4094", "4095", "65535", "4294967296", "9" * 19, "9" * 25, "9" * 5000, "²", "٣", "1_0", "0x10", "1e9", "+1", " 1", "", "1.5", ".", "nan", "inf"]
MOMENTS = [*NUMBERS, "+0", "+10", "+60.5", "+" + "9" * 12, "+" + "9" * 400, "23:04:00", "2026-11-26 23:04:00", "2026-11-26T23:04:00Z", "9999-12-31 23:59:59", "0001-01-01", "1" * 18, "99:99:99"]
COMMANDS = ["summary", "answers", "logins", "names", "zones", "reach", "compare", "check", "fields", "frames", "journal", "ladder", "exchanges", "whatif", "why", "merge", "annotate", "replay", "show"]


@dataclass
class Case:
    """What is called, over which files of its folder, and what comes in."""

    tool: str
    words: list[str]
    files: dict[str, bytes] = field(default_factory=dict)
    stdin: bytes = b""
    is_terminal: bool = False
    encoding: str = "utf-8"
    frames: list[bytes] = field(default_factory=list)  # for a host

    @property
    def size(self) -> int:
        return sum(map(len, self.files.values())) + len(self.stdin)


class Good:
    """What the cases are made of: the demo, a run over it, zonings and configurations."""

    def __init__(self, program: str, room: pathlib.Path) -> None:
        self.hosts = {name: [(it.moment, it.data) for it in read_classic(str(DEMO / f"{name}.pcap")).records] for name in ("initiator", "target")}
        self.bridge = [[(it.moment, it.data) for it in read_classic(str(DEMO / f"bridge/{name}.pcap")).records] for name in ("forwarder", "initiator", "target")]
        self.zonings = {it.name: it.read_bytes() for it in sorted((DEMO / "zonings").glob("*.txt"))}
        self.configs = [it.read_bytes() for it in sorted(DEMO.glob("*.conf"))]
        words = [program, "run", str(DEMO / "fabric.conf"), "journal"]
        for at, name in enumerate(("initiator", "target"), 1):
            (room / f"in{at}.pcap").write_bytes(classic(self.hosts[name][:60]))
            words += [f"in{at}.pcap", f"out{at}.pcap"]
        subprocess.run(words, cwd=room, check=True, stdout=subprocess.DEVNULL)
        self.run = {"fabric.conf": (DEMO / "fabric.conf").read_bytes(), **{it.name: it.read_bytes() for it in sorted(room.iterdir())}}
        lines = self.run["journal"].split(b"\n")[1:-1]
        self.journal_1 = b"".join(b"tick " + it.replace(b" tick", b"", 1) + b"\n" if b" tick" in it else it.split(b" ", 1)[1] + b"\n" for it in lines)


def either(rng: random.Random, good: list[str], hostile: list[str], share: float = 0.2) -> str:
    """Most often a word that is taken."""
    return rng.choice(hostile if rng.random() < share else good)


# ---- bytes


def bent(rng: random.Random, data: bytes, least: int = 1, most: int = 8) -> bytes:
    """Bytes with some changed, cut, doubled, put in or left out."""
    made = bytearray(data)
    for _ in range(rng.randint(least, most)):
        at = rng.randrange(len(made) + 1)
        match rng.randrange(8):
            case 0 | 1 if at < len(made):
                made[at] ^= 1 << rng.randrange(8)
            case 2 if at < len(made):
                made[at] = rng.choice((0, 1, 0x7F, 0x80, 0xFF, rng.randrange(256)))
            case 3:
                size = rng.choice((1, 2, 4))
                made[at : at + size] = rng.choice((b"\0", b"\xff", b"\x7f", b"\x80")) * size
            case 4:
                del made[at : at + rng.choice((1, 2, 4, 16, 100))]
            case 5:
                made[at:at] = bytes(rng.randrange(256) for _ in range(rng.choice((1, 2, 4, 16))))
            case 6:
                made[at:at] = made[at : at + rng.choice((4, 24, 200))]
            case 7:
                del made[at:]
    return bytes(made)


def bent_text(rng: random.Random, data: bytes) -> bytes:
    """Lines with some changed: words exchanged for hostile ones, lines doubled, left out, exchanged, joined; or other letters for all of it."""
    lines = data.split(b"\n")
    for _ in range(rng.choice((1, 1, 1, 2, 4))):
        at = rng.randrange(len(lines))
        words = lines[at].split(b" ")
        place = rng.randrange(len(words))
        match rng.randrange(9):
            case 0:
                words[place] = rng.choice(NUMBERS).encode()
            case 1:
                words[place] += rng.choice(ESCAPES).encode("utf-8", "surrogatepass")
            case 2:
                words[place] = rng.choice((b"", b"-", b"a" * 300, b"'", b'"', b"[", b";", A.encode(), b"1,1", b"x" * 70_000 if rng.random() < 0.05 else b"x"))
            case 3:
                lines.insert(at, lines[rng.randrange(len(lines))])
            case 4:
                del lines[at]
                lines = lines or [b""]
                continue
            case 5:
                other = rng.randrange(len(lines))
                lines[at], lines[other] = lines[other], lines[at]
                continue
            case 6:
                words = bent(rng, lines[at], 1, 3).split(b" ")
            case 7:
                rng.shuffle(words)
            case 8:
                words = words[:place] + [rng.choice(data.split() or [b""])] + words[place:]
        lines[at] = b" ".join(words)
    made = b"\n".join(lines)
    match rng.randrange(14):
        case 0:
            return b"\xff\xfe" + made.decode("latin-1").encode("utf-16-le")
        case 1:
            return b"\xef\xbb\xbf" + made.replace(b"\n", b"\r\n")
        case 2:
            return bent(rng, made)
    return made


# ---- frames and captures


def sealed(data: bytes) -> bytes:
    """A tagged FCoE frame with the check sequence that fits."""
    if data[16:18] != b"\x89\x06" or len(data) < 32 + 24 + 8:
        return data
    return data[:-8] + fc_check(data[32:-8]) + data[-4:]


def bent_frame(rng: random.Random, data: bytes) -> bytes:
    """A frame with other bytes, most often behind its head, and right check sequences: so it is read to its end."""
    head = 18 if rng.random() < 0.8 else 0
    tail = 8 if data[16:18] == b"\x89\x06" and rng.random() < 0.8 else 0
    end = max(len(data) - tail, head)
    body = bent(rng, data[head:end], 1, 5)
    if tail:
        body += bytes(-len(body[14:]) % 4)
    if rng.random() < 0.1:
        body = body.replace(b"fcoe v0", rng.choice(ESCAPES).encode("utf-8", "surrogatepass")[:7].ljust(7, b"x"))
    return sealed(data[:head] + body + data[end:])


def bent_wire(rng: random.Random, frames: list[Wire], share: float = 0.15) -> list[Wire]:
    """Frames of which some are spoilt, left out, doubled, or come at other moments."""
    made: list[Wire] = []
    shift = rng.choice((0,) * 20 + (-(10**18), 10**18, 3 * 10**9, -frames[0][0] if frames else 0))
    for moment, data in frames:
        roll = rng.random()
        if roll < share:
            data = bent_frame(rng, data)
        elif roll < share + 0.03:
            continue
        elif roll < share + 0.06:
            made.append((moment + shift, data))
        elif roll < share + 0.08:
            moment += rng.choice((-(10**10), 10**10, 10**9, -(10**8), -1, 10**15 if rng.random() < 0.05 else 1))
        elif roll < share + 0.085:
            data = rng.choice((b"", data[:13], data[:17], data[:31], data + bytes(70_000)))
        made.append((moment + shift, data))
    return made


def classic(frames: list[Wire], order: str = "<", nanoseconds: bool = True) -> bytes:
    unit = 1 if nanoseconds else 1000
    head = struct.pack(order + "IHHiIII", 0xA1B23C4D if nanoseconds else 0xA1B2C3D4, 2, 4, 0, 0, 262144, 1)
    return head + b"".join(struct.pack(order + "IIII", moment // 10**9 & 0xFFFFFFFF, moment % 10**9 // unit, len(data), len(data)) + data for moment, data in frames)


def block(order: str, kind: int, body: bytes) -> bytes:
    body += bytes(-len(body) % 4)
    return struct.pack(order + "II", kind, 12 + len(body)) + body + struct.pack(order + "I", 12 + len(body))


def option(order: str, code: int, value: bytes) -> bytes:
    return struct.pack(order + "HH", code, len(value)) + value + bytes(-len(value) % 4)


def pcapng(rng: random.Random, frames: list[Wire]) -> bytes:
    """A pcapng file: either order, one interface or several, with any name, resolution and offset."""
    order, count = rng.choice("<<<>"), rng.choice((1,) * 12 + (2, 2, 3, 70))
    made = [block(order, 0x0A0D0D0A, struct.pack(order + "IHHq", 0x1A2B3C4D, 1, 0, -1))]
    resolution = rng.choice((9,) * 12 + (6, 6, 6, 3, 0, 20, 127, 128 + 30, 255))
    for at in range(count):
        name = rng.choice((f"eth{at}", f"eth{at}{rng.choice(ESCAPES)}", "")).encode("utf-8", "surrogatepass")
        more = option(order, 14, struct.pack(order + "q", rng.choice((2**40, -(2**40), 2**62, 5)))) if rng.random() < 0.05 else b""
        made.append(block(order, 1, struct.pack(order + "HHI", rng.choice((1, 1, 1, 1, 1, 113)) if rng.random() < 0.1 else 1, 0, 0) + option(order, 2, name) + option(order, 9, bytes([resolution])) + more + option(order, 0, b"")))
    for moment, data in frames:
        ticks = moment // 1000 if resolution == 6 else moment
        made.append(block(order, 6, struct.pack(order + "IIIII", rng.randrange(count), ticks >> 32 & 0xFFFFFFFF, ticks & 0xFFFFFFFF, len(data), len(data)) + data))
        if rng.random() < 0.02:
            made.append(block(order, rng.choice((3, 2, 4, 5, 0x0BAD)), bent(rng, data)))
    return b"".join(made)


def program_packed(program: str, data: bytes) -> bytes:
    return subprocess.run([program, "-c"], input=data, stdout=subprocess.PIPE, check=True).stdout


def capture(rng: random.Random, frames: list[Wire]) -> tuple[str, bytes]:
    """A capture of any form, and an ending for its name."""
    frames = bent_wire(rng, frames)
    if rng.random() < 0.35:
        data = pcapng(rng, frames)
    else:
        data = classic(frames, rng.choice("<<<>"), rng.random() < 0.7)
    if rng.random() < 0.12:
        data = bent(rng, data, 1, 4)
    roll, ending = rng.random(), ".pcap"
    for at, (word, pack) in enumerate(PACKED.items()):
        if 0.03 * at <= roll < 0.03 * (at + 1) and (at < 3 or shutil.which(word)):
            data, ending = pack(data), f".pcap.{word}"
            data = bent(rng, data, 1, 3) if rng.random() < 0.6 else data
    return ending, data


PACKED: dict[str, Callable[[bytes], bytes]] = {
    "gz": gzip.compress,
    "bz2": bz2.compress,
    "xz": lzma.compress,
    "zstd": lambda data: program_packed("zstd", data),
    "lz4": lambda data: program_packed("lz4", data),
}


def some(rng: random.Random, frames: list[Wire]) -> list[Wire]:
    """The first frames, or some further on."""
    first = 0 if rng.random() < 0.8 else rng.randrange(len(frames))
    return frames[first : first + rng.choice((0, 1, 5, 20, 30, 40, 60))]


# ---- cases by tool


class Maker:
    """Makes the cases of a seed."""

    def __init__(self, good: Good, seed: int) -> None:
        self.good, self.seed = good, seed

    def case(self, number: int) -> Case:
        rng = random.Random(f"{self.seed}:{number}")
        kinds = [it for it, share in SHARES.items() for _ in range(share)]
        made = self.large(rng) if rng.random() < LARGE else rng.choice(kinds)(self, rng)
        if rng.random() < 0.08:
            made.words = self.bent_words(rng, made.words)
        if made.tool == "scenes" and not {"--list", "--scene"} & set(made.words):
            made.words.append("--list")  # which plays none
        made.is_terminal, made.encoding = rng.random() < 0.25, rng.choice(("utf-8",) * 9 + ("ascii",))
        return made

    @staticmethod
    def bent_words(rng: random.Random, words: list[str]) -> list[str]:
        """Words of which one is another one."""
        made = list(words)
        at = rng.randrange(len(made) + 1)
        made[at : at + rng.randrange(2)] = [rng.choice((*NUMBERS, *ESCAPES[:7], "--json", "--csv", "--bogus", "-", "--", "no such file", "a\udcff", "--help", "--debug"))]
        return [it.replace("\0", "") for it in made]

    def look(self, rng: random.Random) -> Case:
        """`look` over captures."""
        command = rng.choice(COMMANDS[:-5] if rng.random() < 0.8 else COMMANDS[:-2])
        files, names = dict[str, bytes](), list[str]()
        for name in rng.sample(("initiator", "target"), rng.choice((1, 1, 1, 2))):
            ending, data = capture(rng, some(rng, self.good.hosts[name]))
            called = name + rng.choice(("", "", "", rng.choice(ESCAPES[:7]), "\udcff")) + ending
            files[called] = data
            names.append(called)
        own = {"why": [either(rng, ["1", "1", "2"], NUMBERS), either(rng, ["1", "2", "5", "17"], NUMBERS)], "merge": ["OUT.pcapng"], "annotate": ["OUT.pcapng"]}.get(command, [])
        if command == "why" and rng.random() < 0.3:
            own = ["not", rng.choice((A, "010100", "host_a")), rng.choice((B, "010101", "x"))]
        words = [command, *own, *self.options(rng, files), *names]
        if command == "whatif":
            words += ["--planned", self.zoning_file(rng, files)]
        if command == "check" and rng.random() < 0.4:
            words += ["--baseline", self.told_file(rng, files)] if rng.random() < 0.5 else ["--waivers", self.waivers_file(rng, files)]
        return Case("look", words, files)

    def options(self, rng: random.Random, files: dict[str, bytes]) -> list[str]:
        """Some options of `look`."""
        files["c.conf"] = rng.choice(self.good.configs) if rng.random() < 0.7 else bent_text(rng, rng.choice(self.good.configs))
        choices: list[Callable[[], list[str]]] = [
            lambda: ["--json"],
            lambda: ["--config", "c.conf"],
            lambda: ["--at", either(rng, ["+1", "+10", "+60.5", "23:04:00"], MOMENTS)],
            lambda: ["--port", either(rng, ["1", "1", "2"], NUMBERS)],
            lambda: ["--from", either(rng, ["0", "5", "23:03:40"], MOMENTS)],
            lambda: ["--to", either(rng, ["50", "100.5", "23:05:00"], MOMENTS)],
            lambda: ["--window", either(rng, ["10", "100", "1000"], NUMBERS)],
            lambda: ["--vlan", either(rng, ["100"], NUMBERS)],
            lambda: ["--interface", either(rng, ["0", "eth0"], NUMBERS)],
            lambda: ["--together"],
            lambda: ["--fcf", either(rng, ["00:05:1e:00:00:02"], NUMBERS)],
            lambda: ["--zone", rng.choice((f"z {A} {B}", f"z\x1b[5m {A}", "z"))],
            lambda: ["--where", either(rng, ["verdict=dropped", "port=1", "kind~F"], ["bogus=1", "port=²", "=", "\x1b[5m=1"])],
            lambda: [rng.choice(("--jsonl", "--csv", "--check", "--index", "--all", "--quiet"))],
            lambda: ["--zoning", self.zoning_file(rng, files)],
            lambda: ["--report", "r.html"] if rng.random() < 0.3 else ["--junit", "r.xml"],
        ]
        return [word for made in rng.sample(choices, rng.choice((0, 0, 1, 1, 2, 3))) for word in made()]

    def zoning(self, rng: random.Random) -> bytes:
        name = rng.choice(list(self.good.zonings))
        data = self.good.zonings[name]
        if rng.random() < 0.1:
            data += self.good.zonings[rng.choice(list(self.good.zonings))]
        return bent_text(rng, data) if rng.random() < 0.6 else data

    def zoning_file(self, rng: random.Random, files: dict[str, bytes]) -> str:
        name = f"zoning{len(files)}.txt"
        files[name] = self.zoning(rng)
        return name

    def logins_file(self, rng: random.Random, files: dict[str, bytes]) -> str:
        name = f"logins{len(files)}.txt"
        data = self.good.zonings[rng.choice([it for it in self.good.zonings if "login" in it or "flogi" in it or "nsshow" in it] or list(self.good.zonings))]
        files[name] = bent_text(rng, data) if rng.random() < 0.5 else data
        return name

    def told_file(self, rng: random.Random, files: dict[str, bytes]) -> str:
        """A report of `look check`, whose fields may be anything."""
        row: dict[str, object] = {"who": "ENode", "host": "00:1b:21:00:00:0a", "rule": "alive-enode-period", "port": 1, "state": "broken", "broken": [{"frame": 1, "field": "f", "stands": "s", "should": "t"}]}
        for name in rng.sample(list(row), rng.choice((0, 0, 1, 2))):
            row[name] = rng.choice(ANYTHING)
        files["b.json"] = text = json.dumps({"rules": [row] * 2, "counts": rng.choice(ANYTHING)}).encode()
        if rng.random() < 0.3:
            files["b.json"] = rng.choice((bent(rng, text), bent(rng, text), b"[" * 50_000, b'{"rules": 7}', b'{"rules": [7]}', b""))
        return "b.json"

    def waivers_file(self, rng: random.Random, files: dict[str, bytes]) -> str:
        files["w.txt"] = bent_text(rng, b"# known\nalive-enode-period 2099-01-31 our driver\nct-size 2020-02-29 a reason\n")
        return "w.txt"

    def zones(self, rng: random.Random) -> Case:
        """`zones`, and the commands of `look` on zonings alone."""
        files: dict[str, bytes] = {}
        words = [word for _ in range(rng.choice((1, 1, 1, 2))) for word in ("--from", self.zoning_file(rng, files))]
        choices = [["--to", rng.choice(("nxos", "fos", "config", "x"))], ["--vsan", either(rng, ["100", "20", "10"], NUMBERS)], ["--set", rng.choice(("night", "ZS_A", "x"))], ["--all"], ["--skip"], ["--defined"], ["--logins", self.logins_file(rng, files)]]
        words += [word for made in rng.sample(choices, rng.choice((0, 1, 1, 2, 3))) for word in made]
        if rng.random() < 0.25:
            name, other = self.zoning_file(rng, files), self.zoning_file(rng, files)
            return Case("look", rng.choice((["reach", "--zoning", name], ["why", "not", A, B, "--zoning", name], ["whatif", "--was", name, "--planned", other])), files)
        return Case("zones", words, files)

    def run_files(self, rng: random.Random) -> dict[str, bytes]:
        """A run's files, of which one or another is spoilt."""
        files = dict(self.good.run)
        if rng.random() < 0.1:
            files["journal"] = self.good.journal_1
        for name in rng.sample(list(files), rng.choice((0, 0, 1, 1, 2))):
            files[name] = bent_text(rng, files[name]) if name in ("journal", "fabric.conf") else bent(rng, files[name])
        return files

    def recorded(self, rng: random.Random) -> Case:
        """Tools over a run that exists."""
        files = self.run_files(rng)
        pairs = ["in1.pcap", "out1.pcap", "in2.pcap", "out2.pcap"]
        tool = rng.choice(("look", "look", "ladder", "annotate", "readdress"))
        if tool == "look":
            command = rng.choice([it for it in COMMANDS if it not in ("why", "merge", "annotate", "whatif", "fields")])
            return Case("look", ["--config", "fabric.conf", "--journal", "journal", command, *self.options(rng, {}), *(pairs[0::2] if command == "show" else pairs)], files)
        if tool == "ladder":
            part = ["--from", either(rng, ["0", "5", "23:03:40"], MOMENTS)] if rng.random() < 0.3 else []
            return Case("ladder", [*part, "fabric.conf", "journal", *pairs], files)
        port = [either(rng, ["1", "2"], NUMBERS)] if rng.random() < 0.5 else []
        if tool == "annotate":
            return Case("annotate", ["fabric.conf", "journal", rng.choice(pairs), "OUT.pcapng", *port], files)
        pair = rng.choice(("01=65", "010100=650040", "00:05:1e:00:00:02=00:0d:ec:00:00:02", "01=", "=", "zz=01", "0101=02"))
        return Case("readdress", ["--grants", "fabric.conf", "journal", "in1.pcap", "OUT.pcap", *port] if rng.random() < 0.5 else ["in1.pcap", "OUT.pcap", pair], files)

    def session(self, rng: random.Random) -> Case:
        """`look --session` over a folder."""
        files = self.run_files(rng)
        said: dict[str, object] = {"interfaces": ["port1", "port2"], "begun": 1, "ended": 2, "status": 0, "line": "frames 1 entries 1"}
        for name in rng.sample(list(said), rng.choice((0, 0, 1, 2))):
            said[name] = rng.choice((*ANYTHING, ["p"] * 100, [rng.choice(ESCAPES)] * 2))
        text = json.dumps(said).encode()
        files["session.json"] = rng.choice((text, text, text, text, bent(rng, text), b"[" * 50_000, b"", b"7"))
        for name in rng.sample(list(files), rng.choice((0, 0, 0, 1))):
            del files[name]
        files = {f"s/{name}": data for name, data in files.items()}
        if rng.random() < 0.2:
            for name in rng.sample(list(files), rng.choice((0, 1, 2))):
                files[name] = files[name][: rng.randrange(len(files[name]) + 1)]
            return Case("look", ["trim", rng.choice(("s", "s", "s/", "."))], files)
        command = rng.choice(("", "--json", "answers", "frames --csv", "why 1 1", f"why 1 {rng.choice(NUMBERS)}", "names", "check", "exchanges --json")).split()
        return Case("look", ["--session", "s", *command], files)

    def bound(self, rng: random.Random) -> Case:
        """`bound` over a bridge's captures."""
        files = {"c.conf": (DEMO / "fabric.conf").read_bytes()}
        words = ["c.conf"]
        for at, frames in enumerate(self.good.bridge, 1):
            files[f"in{at}"] = classic(bent_wire(rng, frames[:60], 0.1))
            files[f"out{at}"] = classic(frames[:10]) if rng.random() < 0.5 else bent(rng, classic(frames[:10]))
            words += [f"in{at}", f"out{at}"]
        return Case("bound", [*rng.choice(("", "--drops", "--ladder x.svg")).split(), *words], files)

    def words(self, rng: random.Random) -> Case:
        """Tools by their words alone."""
        tool = rng.choice(("load", "live", "scenes", "fcoe_host", "look", "zones"))
        words: list[str] = []
        files = {"more.py": rng.choice((b"def (:", b"1/0", b"SCENES = 3", b"SCENES = ()", b"\xff", b"import sys; sys.exit(3)", b"raise SystemExit('\x1b[5m')")), "c.conf": rng.choice(self.good.configs)}
        match tool:
            case "load":
                words = ["L", "--frames", "300", *(word for it in rng.sample(("--ports", "--logins", "--size", "--seed"), 2) for word in (it, either(rng, ["2", "8", "40"], NUMBERS)))]
                words += rng.choice(("", "--storm", "--reject", "--silent", "--loss")).split()
            case "live":
                words = rng.choice((["--list"], ["c.conf", "nosuch0"], ["c.conf", rng.choice(ESCAPES[:7])], ["nosuch.conf", "nosuch0"], ["c.conf", "nosuch0", "--mark", rng.choice(NUMBERS)], ["--seconds", rng.choice(NUMBERS), "c.conf", "nosuch0"], words))
            case "scenes":
                words = rng.choice((["--list"], ["--list", "--more", "more.py"], ["--list", "--more", "."], ["--scene", "nosuch"], ["--jobs", rng.choice(NUMBERS), "--list"], ["--slack", rng.choice(NUMBERS), "--list"]))
            case "fcoe_host":
                words = rng.choice((["--list"], ["nosuch0"], ["nosuch0", "--mac", rng.choice(NUMBERS)], ["--fault", rng.choice(ESCAPES[:7]), "nosuch0"], words))
            case _:
                words = [rng.choice((*NUMBERS, *ESCAPES[:7], "--json", "frames", "why", "1", "--help", "--rules", "check", "-", "--from", "--to", "x")) for _ in range(rng.randrange(5))]
        return Case(tool, [it.replace("\0", "") for it in words], files, stdin=rng.choice((b"", b"x", classic([]))))

    def piped(self, rng: random.Random) -> Case:
        """`look -`: a capture comes in."""
        ending, data = capture(rng, some(rng, self.good.hosts["initiator"]))
        del ending
        return Case("look", [rng.choice(("check", "exchanges", "summary", "frames")), "-"], {}, stdin=data)

    def host(self, rng: random.Random) -> Case:
        """Frames that come to a host."""
        whole = rng.choice((0, 8, 8, 20))  # frames by which it gets in
        frames = [data for _, data in [*self.good.bridge[0][:whole], *bent_wire(rng, [*self.good.bridge[0][whole:60], *some(rng, self.good.hosts["initiator"])], 0.5)]]
        return Case("host", [rng.choice(("initiator", "target"))], frames=frames)


    def large(self, rng: random.Random) -> Case:
        """Few bytes that mean much, and many that mean little."""
        many = rng.choice((300, 3_000, 10_000))
        wwns = [f"20:00:00:1b:{it >> 16 & 255:02x}:{it >> 8 & 255:02x}:{it & 255:02x}:01" for it in range(many)]
        chain = "".join(f" alias: a{it} a{it + 1}; b{it + 1}\n alias: b{it} a{it + 1}; b{it + 1}\n" for it in range(rng.choice((10, 45, 200))))
        texts = [
            "zone name z vsan 1\n" + "".join(f"  member pwwn {it}\n" for it in wwns),
            f"Defined configuration:\n cfg: c z\n zone: z a0\n{chain}",
            f"Defined configuration:\n cfg: c z\n zone: z {';'.join(wwns)}\n",
            f"zone default-zone permit vsan 1-{rng.choice(NUMBERS)}\n",
            "".join(f"zone name z{it} vsan {it % 4094 + 1}\n  member pwwn {wwn}\n" for it, wwn in enumerate(wwns)),
            "zone name z vsan 1\n  member pwwn " + "2" * many * 30,
            "\b" * many * 10 + "zone name z vsan 1\n" + "x\b" * many,
            "switch# " + "show zone " * many,
            " " * many * 30 + "\n" + "\t" * many * 30,
            "; ".join("a" for _ in range(many)),
            f"zone z {' '.join(wwns)}\n",
        ]
        text = rng.choice(texts).encode()
        zones: list[list[str]] = [["--from", "z.txt"], ["--from", "z.txt", "--to", "fos"], ["--from", "z.txt", "--to", "nxos", "--vsan", "1"], ["--from", "z.txt", "--all"]]
        looks: list[list[str]] = [["reach", "--zoning", "z.txt"], ["whatif", "--was", "z.txt", "--planned", "z.txt"], ["why", "not", wwns[0], wwns[1], "--zoning", "z.txt"]]
        if rng.random() < 0.5:
            return Case("zones", rng.choice(zones), {"z.txt": text})
        if rng.random() < 0.4:
            return Case("look", rng.choice(looks), {"z.txt": text})
        first = self.good.hosts["initiator"][:40]
        last = first[-1][0]
        rows = [(last + it, rng.choice((b"", b"\0" * 60, first[it % 40][1]))) for it in range(many)]
        data = rng.choice((classic([*first, *rows]), pcapng(rng, [*first, *rows])))
        return Case("look", [rng.choice(("check", "exchanges", "summary", "frames", "ladder")), "c.gz"], {"c.gz": gzip.compress(data, 1)})


SHARES: dict[Callable[[Maker, random.Random], Case], int] = {Maker.look: 10, Maker.zones: 10, Maker.recorded: 7, Maker.session: 5, Maker.bound: 1, Maker.words: 3, Maker.piped: 2, Maker.host: 4}
LARGE = 0.004  # of all cases: each takes long


def written(case: Case, folder: pathlib.Path) -> None:
    """Writes a case's files."""
    for name, data in case.files.items():
        path = os.path.join(folder, name)
        os.makedirs(os.path.dirname(path), exist_ok=True)
        with open(path, "wb") as file:
            file.write(data)
