"""The program as a process over real files: words and statuses, standard streams, links, 64 ports, limits, signals, and `live` as a driver calls it."""
import os
import pathlib
import random
import resource
import signal
import struct
import subprocess
import time
from concurrent.futures import ThreadPoolExecutor
from typing import Iterable, Iterator

from captures import HEAD, records_of
from machine import DEMO, RoomCase, program, slow
from process_room import Ended, Room, by_shell, limited, wanted
from tool_rows.common import ASKED, CONFIG, NOTIFICATION, REQUEST, TOLD, record
from tool_rows.live_rows import packet, stream
from tool_rows.worked import worked

MOST = 4_000_000
MOST_BYTES = 2**30
BEFORE = b"what stood there before\n"


# ---- words and statuses


def words(room: Room) -> None:
    room.put(K=CONFIG, IN=REQUEST, LATE=REQUEST + record(30_000, 0, ASKED), MANY=HEAD + 200_001 * record(1, 0, b""))
    run: list[str | bytes] = ["run", "K", "J", "IN", "OUT"]
    room.must(0, "frames 1 entries 2\n", run)
    wanted("the files of the first run", room.has("J", b"journal 2\n1000 tick\n1000 1 0 vlans\n") and room.has("OUT", NOTIFICATION))
    room.must(0, "legal 2\n", ["replay"] + run[1:])
    room.put(J=BEFORE, OUT=BEFORE)
    room.must(1, "config 1 key\n", ["run", "J", "NEW", "IN", "OUT"])
    lines: list[list[str | bytes]] = [[], [""], ["run"], ["Run", "K", "J", "IN", "OUT"], ["help"], ["--help", "--version"], ["run", "K", "J", "IN", "IN"]]
    for bad in (b"\xff", b"OUT\xff", b"\xc3(", b"\xed\xa0\x80", b"\xf4\x90\x80\x80", b"\xc0\x80"):
        lines += [[bad], [bad, "K", "J", "IN", "OUT"], ["run", "K", "J", "IN", bad], run + [bad]]
    for line in lines:
        room.must(2, "words\n", line)
    room.must(3, "read fault\n", ["run", "MISSING", "J", "IN", "OUT"])
    room.must(3, "read fault\n", ["run", "K", "J", ".", "OUT"])
    room.must(6, "limit span 21600000\n", ["run", "K", "NEW", "LATE", "NEXT"])
    wanted("the outputs behind status 6", room.has("NEW", b"journal 2\n1000 tick\n1000 1 0 vlans\n") and room.has("NEXT", NOTIFICATION))
    wanted("the outputs are as they were", room.has("J", BEFORE) and room.has("OUT", BEFORE))
    room.must(4, "write fault\n", ["run", "K", "J", "IN", "missing/OUT"])
    wanted("no output was emptied", room.has("J", BEFORE) and room.has("OUT", BEFORE))
    room.must(5, "no memory\n", ["run", "K", "J", "MANY", "OUT"], first=limited(resource.RLIMIT_AS, 12 * 2**20))
    with open("/dev/full", "wb") as full:
        unsaid: list[list[str | bytes]] = [run, ["--help"], ["run"], ["run", "MISSING", "J", "IN", "OUT"]]
        for line in unsaid:
            room.must(4, "", line, say=full)
    room.must(4, "", run, first=lambda: os.close(1), say=None)
    wanted("the files where nothing could be printed", room.has("OUT", NOTIFICATION))
    for name in ("né", "a b", "-", "--help", "$(x)", "\n", "x" * 255):
        room.put(**{name: CONFIG})
        room.must(0, "frames 1 entries 2\n", ["run", name, "J", "IN", "OUT"])


# ---- standard streams, links, and the line on standard error

LOAD = [f"M{place}" for place in range(1, 9)]
NODE = ["00:1b:21:00:00:0a", "20:00:00:1b:21:00:00:0a", "10:00:00:1b:21:00:00:0a"]


def closed_streams(room: Room) -> int:
    """No file gets the line that can't be printed, whichever streams are closed."""
    room.put(K=CONFIG, IN=REQUEST, OLD=b"", NG=bytes.fromhex("0a0d0d0a1c0000004d3c2b1a01000000ffffffffffffffff1c000000"))
    lines = {
        "run K J IN OUT": ["J", "OUT"],
        "make 1 C " + " ".join(LOAD): ["C", *LOAD],
        "snoop K IN OUT IN2 OUT2": ["OUT", "OUT2"],
        "convert NG OUT": ["OUT"],
        "migrate OLD NEW": ["NEW"],
        "enode 0 " + " ".join(NODE) + " IN OUT": ["OUT"],
    }
    room.put(IN2=HEAD)
    tried = 0
    for words, outputs in lines.items():
        whole = by_shell(room, f"fcoe_tool {words}")
        wanted(f"{words}: {whole}", whole.status == 0)
        found = {name: (room.folder / name).read_bytes() for name in outputs}
        for closed in (">&-", "<&- >&-", "<&- >&- 2>&-", ">&- 2>&-"):
            wanted(f"{words} {closed}", by_shell(room, f"fcoe_tool {words} {closed}").status == 4)
            wanted(f"{words} {closed}: the files", all(room.has(name, data) for name, data in found.items()))
            tried += 1
        wanted(f"{words}: the other streams closed", by_shell(room, f"fcoe_tool {words} <&- 2>&-").status == 0)
    return tried


def shared_output(room: Room) -> int:
    """The standard output is one of the files: nothing is opened and nothing printed."""
    room.put(K=CONFIG, IN=REQUEST, IN2=HEAD, J=BEFORE, OUT=BEFORE, OUT2=BEFORE)
    kept = {"K": CONFIG, "IN": REQUEST, "J": BEFORE, "OUT": BEFORE, "OUT2": BEFORE}
    tried = 0
    for words in ("run K J IN OUT", "replay K J IN OUT", "snoop K IN OUT IN2 OUT2", "convert IN OUT", "show K J IN"):
        for name in words.split()[1:]:
            for into in (">>", "1<>"):
                ended = by_shell(room, f"fcoe_tool {words} {into}{name}")
                wanted(f"{words} {into}{name}: {ended}", (ended.status, ended.line) == (4, "") and name in ended.told)
                wanted(f"{words} {into}{name}: the files", all(room.has(it, data) for it, data in kept.items()))
                tried += 1
    for name in ("/dev/stdout", "/dev/fd/1", "/proc/self/fd/1"):
        ended = by_shell(room, f"fcoe_tool run K J IN {name} | cat")
        wanted(f"an output {name}: {ended}", ended.line == "write fault\n" and room.has("J", BEFORE))
        tried += 1
    wanted("/dev/null may stand twice", by_shell(room, "fcoe_tool run K NEW IN /dev/null >/dev/null").status == 0)
    return tried


def two_names(room: Room) -> int:
    """Two names of one file, which is there or isn't yet: no output is opened."""
    ways = ["./N", "folder/../N", "SOFT", "CHAIN", "ABSOLUTE", "elsewhere/N"]
    tried = 0
    for there in (False, True):
        for other in ways + ["HARD"] * there:
            for words in (f"run K N IN {other}", f"run K J IN N IN2 {other}", f"snoop K IN N IN2 {other}", "make 1 N " + " ".join(LOAD[:-1]) + f" {other}"):
                links(room, there)
                ended = by_shell(room, f"fcoe_tool {words}")
                wanted(f"{words}: {ended}", (ended.status, ended.line) == (4, "write fault\n") and "two names of one file" in ended.told)
                wanted(f"{words}: the files", room.has("N", BEFORE if there else None) and room.has("J", BEFORE))
                tried += 1
    links(room, False)
    os.symlink("LOOP", room.folder / "LOOP")
    wanted("a link to itself", by_shell(room, "fcoe_tool run K J IN LOOP").line == "write fault\n" and room.has("J", BEFORE))
    wanted("one name may be a link", by_shell(room, "fcoe_tool run K J IN SOFT").status == 0 and (room.folder / "N").is_file())
    wanted("a number is no name", by_shell(room, "fcoe_tool make 7 C ./7 " + " ".join(LOAD[1:])).line == "made 20000\n")
    wanted("a start is no name", by_shell(room, "fcoe_tool enode 0 " + " ".join(NODE) + " IN ./0").status == 0)
    return tried


def links(room: Room, there: bool) -> None:
    """The names that lead to N, which is there or isn't."""
    subprocess.run("rm -rf N HARD SOFT CHAIN ABSOLUTE LOOP folder elsewhere", shell=True, cwd=room.folder, check=True)
    room.put(K=CONFIG, IN=REQUEST, IN2=HEAD, J=BEFORE)
    (room.folder / "folder").mkdir()
    for name, target in {"SOFT": "N", "CHAIN": "folder/NEXT", "folder/NEXT": "../SOFT", "ABSOLUTE": str(room.folder / "N"), "elsewhere": "."}.items():
        os.symlink(target, room.folder / name)
    if there:
        room.put(N=BEFORE)
        os.link(room.folder / "N", room.folder / "HARD")


def told_lines(room: Room) -> None:
    room.put(K=CONFIG, IN=REQUEST, J=BEFORE, OUT=BEFORE)
    many_ports = " ".join(f"I{port} O{port}" for port in range(65))
    rows = {
        "run missing J IN OUT": "fcoe_tool: missing: no such file or folder\n",
        "run K J IN missing/OUT": "fcoe_tool: missing/OUT: no such file or folder\n",
        "run K J IN ./J": "fcoe_tool: two names of one file: J, ./J\n",
        f"run K J {many_ports}": "fcoe_tool: 65 ports, 64 at most\n",
        "rnu K J IN OUT": "fcoe_tool: rnu: no command; run?\n",
        "run K J IN IN": "fcoe_tool: IN is named twice\n",
        "live K J S I": "fcoe_tool: live: other words are wanted; see fcoe_tool --help\n",
        "": "fcoe_tool: no command; fcoe_tool --help lists them\n",
    }
    for words, told in rows.items():
        wanted(f"what is said of {words[:40]!r}", by_shell(room, f"fcoe_tool {words}").told == told)
    wanted("an output that can't be opened empties none", room.has("J", BEFORE) and room.has("OUT", BEFORE))


def told_names(room: Room) -> None:
    """No sign of a name that a terminal obeys gets there, and two names of one file are told also behind a fault of what is read."""
    room.put(K=CONFIG, IN=REQUEST, J=BEFORE)
    name = "a\x1b]0;b\x07\n\x7f\u009b\u202e\ufeff\U000e0041\\é名\u00a0c"
    shown = "a\\x1b]0;b\\x07\\x0a\\x7f\\x9b\\u{202e}\\u{feff}\\u{e0041}\\é名\u00a0c"
    lines: dict[tuple[str, ...], str] = {
        (name,): f"{shown}: no command; fcoe_tool --help lists them",
        ("convert", name, "OUT"): f"{shown}: no such file or folder",
        ("convert", name, name): f"{shown} is named twice",
        ("convert", name, f"./{name}"): f"{shown}: no such file or folder\nfcoe_tool: two names of one file: {shown}, ./{shown}",
        ("run", "K", name, "IN", f"./{name}"): f"two names of one file: {shown}, ./{shown}",
        ("run", "./J", "J", "IN", "OUT"): "two names of one file: ./J, J",
        ("run", "K", "J", "J", "OUT"): "J is named twice",
        ("convert", "IN", "./IN"): "two names of one file: IN, ./IN",
    }
    for words, told in lines.items():
        ended = room.ends(words)
        wanted(f"{words!r}: {ended}", ended.told == f"fcoe_tool: {told}\n")
    wanted("a configuration that is the journal too", room.ends(["run", "./J", "J", "IN", "OUT"])[:2] == (1, "config 1 key\n"))
    wanted("no file changed", room.has("J", BEFORE) and room.has("IN", REQUEST))


# ---- 64 ports


def asked(port: int) -> bytes:
    """A VLAN request of a port's own node."""
    return ASKED.replace(bytes.fromhex("001b2100000a"), bytes.fromhex("001b210001") + bytes([port]))


def answered(port: int) -> bytes:
    return TOLD.replace(bytes.fromhex("001b2100000a"), bytes.fromhex("001b210001") + bytes([port]))


def many(room: Room, count: int) -> tuple[list[str], dict[str, bytes]]:
    """The pairs of so many ports, whose captures are written, and what is left in the outputs."""
    room.put(K=CONFIG, **{f"I{port}": HEAD + record(1, 0, asked(port)) + record(1, 10_000 * port, b"") for port in range(1, count + 1)})
    left = {f"O{port}": HEAD + record(1, 0, answered(port)) for port in range(1, count + 1)}
    rows = [(1000 + 100 * (10 * port // 100), port, 1, "dropped eth-short") for port in range(1, count + 1)]
    rows += [(1000, port, 0, "vlans") for port in range(1, count + 1)]
    text, clock = "journal 2\n", 0
    for moment, port, index, verdict in sorted(rows):
        text += (f"{moment} tick\n" if moment != clock else "") + f"{moment} {port} {index} {verdict}\n"
        clock = moment
    return [word for port in range(1, count + 1) for word in (f"I{port}", f"O{port}")], {"J": text.encode(), **left}


def ports(room: Room) -> None:
    for count in (1, 2, 31, 32, 33, 63, 64):
        pairs, left = many(room, count)
        entries = left["J"].count(b"\n") - 1
        for name in left:
            room.put(**{name: 3 * BEFORE})
        room.must(0, f"frames {2 * count} entries {entries}\n", ["run", "K", "J", *pairs])
        for name, data in left.items():
            wanted(f"{name} of {count} ports", room.has(name, data))
        room.must(0, f"legal {entries}\n", ["replay", "K", "J", *pairs])
        clock = left["J"].splitlines()[-1].split()[0].decode()
        room.must(0, f"entries {entries}\nclock {clock}\n", ["show", "K", "J", *pairs[::2]])
        room.put(**{f"O{count}": left[f"O{count}"][:-1] + b"\1"})
        room.must(1, f"output {count} 99\n", ["replay", "K", "J", *pairs])
    room.put(**{f"O{port}": BEFORE for port in range(1, 66)}, I65=REQUEST)
    pairs = [word for port in range(1, 66) for word in (f"I{port}", f"O{port}")]
    room.must(2, "words\n", ["run", "K", "J", *pairs])
    wanted("65 ports open nothing", all(room.has(name, BEFORE) for name in pairs[1::2]))
    # the requests of all ports but that of the forwarder go up; records without a byte don't
    room.must(0, "passed 63 dropped 65\n", ["snoop", "K", *pairs[:128]])
    up = HEAD + b"".join(record(1, 0, asked(port)) for port in range(2, 65))
    wanted("the outputs of 64 pairs", room.has("O1", up) and all(room.has(name, HEAD) for name in pairs[3:128:2]))


def files(room: Room) -> None:
    pairs, left = many(room, 64)
    seen: dict[str, int] = {}
    for most in range(4, 140):
        for name in left:
            room.put(**{name: BEFORE})
        ended = room.ends(["run", "K", "J", *pairs], first=limited(resource.RLIMIT_NOFILE, most))
        seen[ended.line] = seen.get(ended.line, 0) + 1
        found = {name: (room.folder / name).read_bytes() for name in left}
        if ended.status == 3:
            wanted(f"{most} files: {ended}", ended.line == "read fault\n" and all(it == BEFORE for it in found.values()))
        elif ended.status == 4:
            wanted(f"{most} files: {ended}", ended.line == "write fault\n" and all(it == BEFORE or left[name].startswith(it) for name, it in found.items()))
        else:
            wanted(f"{most} files: {ended}", ended == Ended(0, f"frames 128 entries {left['J'].count(bytes([10])) - 1}\n", "") and found == left)
    wanted(f"each way to end: {seen}", len(seen) == 3)


# ---- limits


def hollow(path: pathlib.Path, count: int) -> None:
    """A capture of so many records of zeros alone: no byte, at moment 0. It takes no room on the disk."""
    path.write_bytes(HEAD)
    os.truncate(path, 24 + 16 * count)


def long_records(path: pathlib.Path, size: int) -> None:
    """A capture of so many bytes: records of 65,535 zeros and one that fills it, one in a window. Most of it takes no room on the disk."""
    with open(path, "wb") as out:
        out.write(HEAD)
        at, moment = 24, 0
        while at < size:
            length = min(65535, size - at - 16)
            length -= 16 if 0 < size - at - 16 - length < 16 else 0
            out.seek(at)
            out.write(struct.pack("<IIII", moment // 10, moment % 10 * 100_000, length, length))
            at, moment = at + 16 + length, moment + 1
        out.truncate(size)
    assert at == size


def heads_behind_a_journal(room: Room, byte: str) -> None:
    """Of the bytes that a journal leaves, each port's head takes 24 in its turn: a bad head of an earlier port comes before the limit at a later one."""
    room.put(BAD=bytes(24), OTHER=bytes(24), OUT1=BEFORE)
    for left, first, ended in (
        (23, "BAD", (6, byte)),
        (24, "BAD", (1, "capture 1 0 magic\n")),
        (30, "BAD", (1, "capture 1 0 magic\n")),
        (47, "ALL", (6, byte)),
        (48, "ALL", (1, "capture 2 0 magic\n")),
    ):
        os.truncate(room.folder / "OLD", MOST_BYTES - left)
        room.must(*ended, ["show", "K", "OLD", first, "OTHER"])
        room.must(*ended, ["replay", "K", "OLD", first, "OUT", "OTHER", "OUT1"])


def limits(room: Room) -> None:
    room.put(K=CONFIG, J=BEFORE)
    hollow(room.folder / "ALL", MOST)
    hollow(room.folder / "MORE", MOST + 1)
    hollow(room.folder / "HALF", MOST // 2)
    hollow(room.folder / "HALF1", MOST // 2 + 1)
    room.must(0, f"frames {MOST} entries {MOST + 1}\n", ["run", "K", "J", "ALL", "OUT"])
    with open(room.folder / "J", "rb") as lines:
        told = sum(line == b"0 1 %d dropped eth-short\n" % index for index, line in enumerate(lines, -2))
    wanted("a line for each record", told == MOST)
    room.must(0, f"legal {MOST + 1}\n", ["replay", "K", "J", "ALL", "OUT"])
    line = f"limit frames {MOST}\n"
    for captures in (["MORE"], ["HALF", "HALF1"]):
        room.put(J2=BEFORE)
        pairs = [word for port, name in enumerate(captures) for word in (name, f"OUT{port}")]
        room.must(6, line, ["run", "K", "J2", *pairs])
        wanted("no window is run", room.has("J2", b"journal 2\n") and room.has("OUT0", HEAD))
        room.must(6, line, ["replay", "K", "J", *pairs])
        room.must(6, line, ["show", "K", "J", *captures])
        if len(captures) == 2:
            room.put(OUT0=BEFORE)
            room.must(6, line, ["snoop", "K", *pairs])
            wanted("snoop opens no output", room.has("OUT0", BEFORE))
    (room.folder / "HALF").replace(room.folder / "HALF0")
    hollow(room.folder / "HALF1", MOST // 2)
    room.must(0, f"frames {MOST} entries {MOST + 1}\n", ["run", "K", "J2", "HALF0", "OUT0", "HALF1", "OUT1"])
    node = ["00:1b:21:00:00:0a", "20:00:00:1b:21:00:00:0a", "10:00:00:1b:21:00:00:0a"]
    room.must(6, line, ["enode", "1000", *node, "MORE", "SENT"])
    room.must(0, "asking\n", ["enode", "1000", *node, "ALL", "SENT"])
    section = struct.pack("<IIIHHqI", 0x0A0D0D0A, 28, 0x1A2B3C4D, 1, 0, -1, 28) + struct.pack("<IIHHII", 1, 20, 1, 0, 0, 20)
    packet = struct.pack("<IIIIIIII", 6, 32, 0, 0, 0, 0, 0, 32)
    for count, ended in ((MOST, (0, f"records {MOST}\n")), (MOST + 1, (6, line))):
        room.put(NG=section + count * packet)
        room.must(*ended, ["convert", "NG", "CLASSIC"])
    wanted("the records of a capture that was converted", (room.folder / "CLASSIC").stat().st_size == 24 + 16 * MOST)
    os.truncate(room.folder / "NG", 0)
    byte = f"limit bytes {MOST_BYTES}\n"
    long_records(room.folder / "LONG", MOST_BYTES)
    wanted("2^30 bytes are run", room.ends(["run", "K", "J2", "LONG", "OUT0"]).status == 0)
    long_records(room.folder / "LONG", MOST_BYTES + 1)
    room.must(6, byte, ["run", "K", "J2", "LONG", "OUT0"])
    for size, ended in ((MOST_BYTES, (1, "journal 1 text\n")), (MOST_BYTES + 1, (6, byte))):
        (room.folder / "OLD").write_bytes(b"")
        os.truncate(room.folder / "OLD", size)
        room.must(*ended, ["migrate", "OLD", "NEW"])
        wanted("migrate opens no output", room.has("NEW", None))
    room.must(6, byte, ["replay", "K", "OLD", "ALL", "OUT"])
    heads_behind_a_journal(room, byte)


# ---- signals, and two runs at once


def begin(room: Room, line: list[str]) -> "subprocess.Popen[bytes]":
    return subprocess.Popen([str(room.program), *line], cwd=room.folder, stdin=subprocess.DEVNULL, stdout=subprocess.PIPE, stderr=subprocess.STDOUT)


def size_of(room: Room, names: list[str]) -> int:
    return sum((room.folder / name).stat().st_size for name in names if (room.folder / name).exists())


def watched(room: Room, line: list[str], names: list[str], most: int, dice: random.Random) -> "subprocess.Popen[bytes]":
    """A command that has begun, and of whose outputs some part is written, or which has ended."""
    for name in names:
        room.put(**{name: BEFORE})
    job = begin(room, line)
    goal = dice.randrange(most)
    if dice.random() < 0.2:
        time.sleep(dice.random() / 100)
        return job
    while job.poll() is None and (size_of(room, names) < goal or all(room.has(name, BEFORE) for name in names[:1])):
        time.sleep(0.0003)
    return job


def stopped_runs(room: Room, line: list[str], names: list[str], said: str, runs: int, dice: random.Random) -> str:
    """Runs of a command that a signal ends: how many had written a part of some output."""
    room.must(0, said, line)  # type: ignore[arg-type]
    whole = {name: (room.folder / name).read_bytes() for name in names}
    counts = {"as they were": 0, "in part": 0, "whole": 0}
    for number in range(runs):
        job = watched(room, line, names, sum(map(len, whole.values())) or 1, dice)
        if number % 8 == 7:
            job.send_signal(signal.SIGSTOP)
            time.sleep(0.01)
            job.send_signal(signal.SIGCONT)
        else:
            job.send_signal((signal.SIGKILL, signal.SIGTERM, signal.SIGINT, signal.SIGHUP, signal.SIGPIPE)[number % 5])
        told = job.communicate()[0].decode()
        found = {name: (room.folder / name).read_bytes() for name in names}
        wrong = [name for name in names if found[name] != BEFORE and not whole[name].startswith(found[name])]
        wanted(f"{line[0]} that a signal ended with {job.returncode}: {wrong} are no beginnings", not wrong)
        wanted(f"{line[0]} that a signal ended with {job.returncode}: {told!r}", told in ("", said))
        if number % 8 == 7:
            wanted(f"{line[0]} that was held ended with {job.returncode}, {told!r}", job.returncode == 0 and told == said)
        # the line is printed once all is written
        wanted(f"{line[0]} printed its line over {[len(it) for it in found.values()]} bytes", not told or found == whole)
        kind = "whole" if found == whole else "as they were" if all(it == BEFORE for it in found.values()) else "in part"
        counts[kind] += 1
    return f"{line[0]} " + ", ".join(f"{count} {kind}" for kind, count in counts.items() if count)


NINE = ["config"] + [f"in{port}" for port in range(1, 9)]
PAIRS = [word for port in range(1, 9) for word in (f"in{port}", f"out{port}")]
LEFT = ["journal"] + PAIRS[1::2]


def stopped(room: Room) -> None:
    dice = random.Random(1)
    told = [stopped_runs(room, ["make", "1", *NINE], NINE, "made 20000\n", 40, dice)]
    room.must(0, "made 20000\n", ["make", "1", *NINE])
    run = ["run", "config", "journal", *PAIRS]
    told.append(stopped_runs(room, run, LEFT, "frames 20000 entries 20281\n", 80, dice))
    room.must(0, "frames 20000 entries 20281\n", run)  # type: ignore[arg-type]
    kept = {name: (room.folder / name).read_bytes() for name in NINE + LEFT}
    for line, said in ((["replay", *run[1:]], "legal 20281\n"), (["show", "config", "journal", *PAIRS[::2]], None)):
        for _ in range(10):
            job = begin(room, line)
            time.sleep(dice.random() / 10)
            job.kill()
            out = job.communicate()[0].decode()
            wanted(f"{line[0]} changed a file or told {out[:80]!r}", out == "" or said in (None, out))
        wanted(f"{line[0]} changed a file", all(room.has(name, data) for name, data in kept.items()))
    made = worked("plain", "> 1000 1 vlan-request 0a\n")
    rows = ["tick 1000"] + [f"1 {index} vlans" for index in range(100_000)]
    room.put(OLD="".join(f"{row}\n" for row in rows).encode(), K=made.config.encode(), ONE=HEAD + 100_000 * record(1, 0, ASKED))
    told.append(stopped_runs(room, ["migrate", "OLD", "NEW"], ["NEW"], "migrated 100001\n", 24, dice))
    node = ["enode", "1000", "00:1b:21:00:00:0a", "20:00:00:1b:21:00:00:0a", "10:00:00:1b:21:00:00:0a", "in1", "SENT"]
    said = room.ends(node).line  # type: ignore[arg-type]
    told.append(stopped_runs(room, node, ["SENT"], said, 16, dice))
    line = ["snoop", "config", *PAIRS]
    said = room.ends(line).line  # type: ignore[arg-type]
    told.append(stopped_runs(room, line, LEFT[1:], said, 24, dice))


def together(room: Room) -> None:
    dice = random.Random(2)
    room.must(0, "made 20000\n", ["make", "1", *NINE])
    run = ["run", "config", "journal", *PAIRS]
    said = "frames 20000 entries 20281\n"
    room.must(0, said, run)  # type: ignore[arg-type]
    whole = {name: (room.folder / name).read_bytes() for name in LEFT}
    for _ in range(10):
        jobs = [begin(room, run)]
        time.sleep(dice.random() / 10)
        jobs.append(begin(room, run))
        ends = [(job.communicate()[0].decode(), job.returncode) for job in jobs]
        wanted(f"two runs of the same words: {ends}", ends == 2 * [(said, 0)])
        wanted("the files of two runs of the same words are whole", all(room.has(name, data) for name, data in whole.items()))
    mixed = 0
    room.put(SHORT=CONFIG)
    other = ["run", "SHORT", "journal", *PAIRS]
    for _ in range(10):
        jobs = [begin(room, line) for line in dice.sample([run, other], 2)]
        wanted("two runs of different words end with status 0", [job.wait() for job in jobs] == [0, 0])
        for job in jobs:
            job.communicate()
        mixed += all(room.ends(["replay", config, *run[2:]]).status for config in ("config", "SHORT"))


# ---- live, as a driver calls it


DRIVEN = 60  # packets that are answered one by one
LIVED = ["J", "I1", "O1", "I2", "O2"]


def demo_packets() -> list[bytes]:
    """What came on both ports of the demo, by time."""
    rows = [(it.moment, port, it.data) for port, name in ((1, "initiator"), (2, "target")) for it in records_of((DEMO / f"{name}.pcap").read_bytes())]
    return [packet(port, moment, data) for moment, port, data in sorted(rows, key=lambda row: row[:2])]


def lived(source: str) -> list[str]:
    return ["live", str(DEMO / "fabric.conf"), "J", source, *LIVED[1:]]


def over_file(room: Room, data: bytes) -> tuple[str, dict[str, bytes]]:
    """What `live` prints and leaves over a stream that is a file."""
    room.put(S=data)
    ended = room.ends(lived("S"))  # type: ignore[arg-type]
    wanted(f"live over a file: {ended}", ended.status == 0 and not ended.told)
    return ended.line, {name: (room.folder / name).read_bytes() for name in LIVED}


def fed(room: Room, source: str, pieces: Iterable[bytes]) -> str:
    """What `live` prints over a stream that comes in pieces, by its standard input or by a FIFO."""
    with subprocess.Popen([room.program, *lived(source)], cwd=room.folder, stdin=subprocess.PIPE, stdout=subprocess.PIPE) as job:
        with open(room.folder / source, "wb") if source == "S" else job.stdin as way:  # type: ignore[union-attr]
            for piece in pieces:
                way.write(piece)
                way.flush()
        return job.stdout.read().decode()  # type: ignore[union-attr]


def answered_in_turn(room: Room, packets: list[bytes]) -> None:
    """A driver writes the next packet when the files hold what the stream so far leaves, and no more."""
    steps = [over_file(room, stream(2, packets[:count]))[1] for count in range(DRIVEN + 1)]
    for name in LIVED:
        room.put(**{name: BEFORE})

    def pieces() -> Iterator[bytes]:
        for count, piece in enumerate([stream(2, []), *packets[:DRIVEN]]):
            yield piece
            until = time.monotonic() + 60
            while not all(room.has(name, data) for name, data in steps[count].items()):
                wanted(f"packet {count} is answered before the next one is written", time.monotonic() < until)
                time.sleep(0.0005)

    said = fed(room, "/dev/stdin", pieces())
    wanted(f"a driver's session: {said}", said.startswith(f"frames {DRIVEN} "))


def driven(room: Room) -> None:
    dice = random.Random(3)
    packets = demo_packets()
    whole = stream(2, packets)
    line, left = over_file(room, whole)
    ends = sorted({0, len(whole), *(dice.randrange(len(whole)) for _ in range(400))})
    pieces = [whole[start:end] for start, end in zip(ends, ends[1:])]
    wanted("what is printed over a pipe", fed(room, "/dev/stdin", pieces) == line)
    wanted("over a pipe the files are those over a file", all(room.has(name, data) for name, data in left.items()))
    for name in (*LIVED, "S"):
        (room.folder / name).unlink()
        os.mkfifo(room.folder / name)
    with ThreadPoolExecutor(len(LIVED)) as readers:
        found = {name: readers.submit((room.folder / name).read_bytes) for name in LIVED}
        wanted("what is printed over FIFOs", fed(room, "S", pieces) == line)
        wanted("over FIFOs the files are those over a file", all(found[name].result() == data for name, data in left.items()))
    for name in (*LIVED, "S"):
        (room.folder / name).unlink()
    answered_in_turn(room, packets)


class Process(RoomCase):
    """Each in a folder of its own."""

    def place(self) -> Room:
        return Room(pathlib.Path(program()), self.room / "files")

    def test_words(self) -> None:
        """A process ends with each status, 0 to 6, and its line; words that aren't UTF-8 are no command."""
        words(self.place())

    def test_closed_streams(self) -> None:
        closed_streams(self.place())

    def test_shared_output(self) -> None:
        shared_output(self.place())

    def test_two_names(self) -> None:
        two_names(self.place())

    def test_told_lines(self) -> None:
        """What is said on standard error; an output that can't be opened empties none."""
        told_lines(self.place())

    def test_told_names(self) -> None:
        told_names(self.place())

    def test_ports(self) -> None:
        """`run` of 1 to 64 ports byte by byte, `replay` and `show` of what it left, `snoop` of 64 pairs, and 65 ports."""
        ports(self.place())

    def test_heads_behind_a_journal(self) -> None:
        """Want of room is told of the journal's bytes and of each port's head in its turn, at 2^30 bytes in all."""
        room = self.place()
        room.put(K=CONFIG, OLD=b"")
        hollow(room.folder / "ALL", 1)
        heads_behind_a_journal(room, f"limit bytes {MOST_BYTES}\n")

    def test_driven(self) -> None:
        """`live` over one stream as a file, as a pipe that brings it in pieces, and over FIFOs; and by a driver that waits for each answer."""
        driven(self.place())

    @slow
    def test_files(self) -> None:
        """`run` of 64 ports where a process may have only so many files open, for each number."""
        files(self.place())

    @slow
    def test_limits(self) -> None:
        """4,000,000 records are run and one more is refused, by each command that counts them; 2^30 bytes and one more."""
        limits(self.place())

    @slow
    def test_stopped(self) -> None:
        """Runs that a signal ends, or holds: each output is as it was, or a beginning of what the undisturbed run writes."""
        stopped(self.place())

    @slow
    def test_together(self) -> None:
        """Two runs at once on the same outputs: of the same words the files are whole once both have ended."""
        together(self.place())
