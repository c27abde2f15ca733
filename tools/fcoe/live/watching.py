"""A session of `live` as it stands: who is logged in, and what was dropped last and why. It reads what is there, and then what comes."""
import pathlib
import struct
import time
from collections import Counter, deque
from dataclasses import dataclass, field
from typing import Any, Iterator, Optional

from ..answers.texts import table
from ..errors import Refused
from ..errors import counted as plural
from ..files import LINE, check_plain, opened
from ..frames.heard import Heard, colons, fcid, hear
from ..frames.stream import MARK
from ..moments import short, stamp
from ..printing import as_json, own, say
from ..runs.configs import read_config
from ..runs.fabric import Fabric, Login
from ..runs.journals import Entry, Frame, Tick, entry_of, row_of
from ..terminal import is_terminal
from ..words import Parser
from .sessions import Folder, Told, is_running, told_of

CAPTURE_HEAD, RECORD_HEAD = 24, 16
# the verdicts behind which the fabric is another one, so that the frame has to be read
TELLING = {"granted", "logout", "alive", "ns-login", "ns-logout", "watching", "registered"}
TROUBLE = {"dropped", "rejected", "refused"}
LAST = 10
LONGEST = 65535  # bytes of a record
PIECE = 1 << 20


class Growing:
    """A file that grows: what came behind what was read."""

    def __init__(self, path: pathlib.Path) -> None:
        self.path, self.at, self.held = path, 0, b""

    def read(self) -> bool:
        """Reads on, a piece at most; False where nothing is new."""
        try:
            with opened(self.path) as file:
                file.seek(self.at)
                piece = file.read(PIECE)
        except FileNotFoundError:
            return False
        self.at += len(piece)
        self.held += piece
        return bool(piece)


class Journal(Growing):
    """The lines of a journal that are whole."""

    def lines(self) -> Iterator[str]:
        while self.read():
            whole, _, self.held = self.held.rpartition(b"\n")
            if len(self.held) > LINE:
                raise Refused(f"{self.path}: has a line of more than {LINE >> 20} MiB: that is no journal")
            yield from whole.decode("ascii", "replace").split("\n") if whole else ()


class Heads(Growing):
    """The frames of a classic capture of this host's own byte order, as `live` writes it."""

    def __init__(self, path: pathlib.Path) -> None:
        super().__init__(path)
        self.place = CAPTURE_HEAD

    def frame(self) -> Optional[bytes]:
        """The next frame, if its record is there whole."""
        while True:
            if len(self.held) >= self.place + RECORD_HEAD:
                (stored,) = struct.unpack_from("<I", self.held, self.place + 8)
                if stored > LONGEST:
                    raise Refused(f"{self.path}: has a record of {stored} bytes, which `live` writes none of")
                behind = self.place + RECORD_HEAD + stored
                if len(self.held) >= behind:
                    found = self.held[self.place + RECORD_HEAD : behind]
                    self.place = behind
                    return found
            self.held, self.place = self.held[self.place :], max(0, self.place - len(self.held))
            if not self.read():
                return None


@dataclass
class Drop:
    """A frame that was dropped, or a request that was rejected or refused."""

    entry: Frame
    heard: Heard


@dataclass
class Counted:
    frames: int = 0
    marks: int = 0
    forwarded: int = 0
    troubles: "Counter[str]" = field(default_factory=Counter)


class Watch:
    """What a session's journal and captures say so far."""

    def __init__(self, folder: Folder) -> None:
        self.folder = folder
        self.told: Told = told_of(folder)
        check_plain([folder.config])
        self.config = read_config(str(folder.config))
        self.fabric = Fabric(self.config)
        self.journal = Journal(folder.journal)
        self.captures = [Heads(folder.heard(port)) for port in range(1, len(self.told.interfaces) + 1)]
        self.last: deque[Drop] = deque(maxlen=LAST)
        self.counted = Counted()
        self.place = 0

    def follow(self) -> None:
        """Takes all that is new. A frame stands in its capture before its line stands in the journal."""
        self.told = told_of(self.folder)
        for line in self.journal.lines():
            if not line.startswith("journal "):
                self.take(self.entry(line))
                self.place += 1

    def entry(self, line: str) -> Entry:
        try:
            return entry_of(line.split(" "), None, True)
        except (ValueError, IndexError):
            raise Refused(f"{self.folder.journal}: '{line[:60]}' is no line of a journal: `fcoe_tool replay` tells more") from None

    def take(self, entry: Entry) -> None:
        if isinstance(entry, Tick):
            self.fabric.take(entry, None, self.place)
            return
        frame = self.captures[entry.port - 1].frame() if entry.port <= len(self.captures) else None
        if frame is None:
            raise Refused(f"{self.folder.journal}: has index {entry.index} of port {entry.port}, which in{entry.port}.pcap hasn't: these files aren't of one session")
        self.count(entry, frame)
        if entry.word in TELLING:
            self.fabric.take(entry, hear(frame), self.place)
        else:
            self.fabric.clock = entry.clock

    def count(self, entry: Frame, frame: bytes) -> None:
        self.counted.frames += 1
        self.counted.forwarded += entry.word == "forwarded"
        if frame == MARK:
            self.counted.marks += 1
        elif entry.word in TROUBLE:
            self.counted.troubles[" ".join(entry.words[:2]) if entry.word == "dropped" else entry.word] += 1
            if entry.verdict != "dropped ethertype":
                self.last.append(Drop(entry, hear(frame)))

    def name(self, port: int) -> str:
        return self.told.interfaces[port - 1]

    # ---- values

    def login_row(self, login: Login) -> dict[str, Any]:
        return {
            "port": login.port,
            "interface": self.name(login.port),
            "fcid": fcid(login.address),
            "wwpn": colons(login.name),
            "wwnn": colons(login.node),
            "fpma": colons(login.mac(self.config)),
            "kind": "FDISC" if login.is_fdisc else "FLOGI",
            "parent": fcid(login.parent) if login.parent is not None else None,
            "from": login.since,
            "heard": max(login.node_heard, login.port_heard),
            "types": login.type_numbers,
        }

    def drop_row(self, drop: Drop) -> dict[str, Any]:
        entry, heard, row = drop.entry, drop.heard, row_of(drop.entry.verdict)
        ends = f"{fcid(heard.fc.s_id)} to {fcid(heard.fc.d_id)}" if heard.is_fcoe and heard.fc else f"{colons(heard.source)} to {colons(heard.destination)}"
        return {
            "clock": entry.clock,
            "port": entry.port,
            "frame": entry.index + 1,
            "kind": heard.kind,
            "ends": ends,
            "verdict": entry.verdict,
            "meaning": row.meaning if row else "",
            "look": row.look if row and entry.word == "dropped" else "",
        }

    def value(self) -> dict[str, Any]:
        live, running = self.fabric.live, is_running(self.folder)
        ended = sorted((it for it in self.fabric.logins if it.until is not None), key=lambda it: it.until or 0)
        return {
            "folder": str(self.folder.path),
            "running": running,
            "status": self.told.status,
            "line": self.told.line,
            "by": self.told.by,
            "interfaces": self.told.interfaces,
            "clock": self.fabric.clock,
            "frames": self.counted.frames - self.counted.marks,
            "marks": self.counted.marks,
            "forwarded": self.counted.forwarded,
            "troubles": dict(self.counted.troubles.most_common()),
            "logins": [self.login_row(live[it]) for it in sorted(live)],
            "ended": [{**self.login_row(it), "to": it.until, "why": it.why} for it in ended[-LAST:]],
            "drops": [self.drop_row(it) for it in self.last],
        }


# ---- text


def state_text(found: dict[str, Any]) -> str:
    if found["running"]:
        return "it runs"
    if found["status"] is None:
        return "it was ended before it could say how: `fcoe_tool replay` tells where the files end"
    by = f", by {found['by']}" if found["by"] else ""
    return f"it ended with status {found['status']}{by}: {found['line']}"


def text(found: dict[str, Any]) -> list[str]:
    """What a person reads: the list of logins as a switch's `show flogi database`, who is gone, and the last drops."""
    clock = found["clock"] or 0
    lines = [f"{found['folder']}: {state_text(found)}; {stamp(found['clock'])} UTC, {plural(found['frames'], 'frame')} and {plural(found['marks'], 'mark')}, {found['forwarded']} forwarded"]
    rows = [
        [f"{it['port']} {it['interface']}", it["fcid"], it["wwpn"], it["wwnn"], f"FDISC of {it['parent']}" if it["parent"] else it["kind"], short(it["from"], clock), short(it["heard"], clock)]
        for it in found["logins"]
    ]
    lines += table(["port", "FCID", "port name", "node name", "by", "since", "last heard"], rows) if rows else ["  nobody is logged in"]
    lines.append(f"  {plural(len(rows), 'login')}")
    if found["ended"]:
        lines += ["ended last"] + [f"  {short(it['to'], clock)} {it['fcid']} {it['wwpn']} on port {it['port']}: {it['why']}" for it in found["ended"][-5:]]
    if found["troubles"]:
        lines.append("in all: " + ", ".join(f"{count} {word}" for word, count in found["troubles"].items()))
    if found["drops"]:
        lines.append("dropped, rejected or refused last")
    for it in found["drops"]:
        lines.append(f"  {short(it['clock'], clock)} port {it['port']}, frame {it['frame']}: {it['kind']}, {it['ends']}: {it['verdict']}")
        lines.append(f"    {it['meaning']}" + (f"; look next at: {it['look']}" if it["look"] else ""))
    return lines


# ---- the hook of `look`


def files_of(folder: Folder, words: list[str]) -> list[str]:
    """A command of `look` over a session that has ended: its words, and the session's files as those of a run."""
    if is_running(folder):
        raise Refused(f"{folder.path}: the session runs: `look --session {folder.path}` tells how it stands, and `look --session {folder.path} {words[0]}` works once it has ended")
    ports = len(told_of(folder).interfaces)
    check_plain([folder.config, folder.journal, *folder.pairs(ports)])
    return ["--config", str(folder.config), "--journal", str(folder.journal), *words, *folder.pairs(ports)]


def session(words: list[str]) -> Optional[list[str]]:
    """`look --session FOLDER`: says how the session stands; words for `look` where a command of it follows."""
    made = Parser(prog="look", add_help=False)
    made.add_argument("--session", required=True, metavar="FOLDER")
    made.add_argument("--watch", action="store_true")
    made.add_argument("--json", action="store_true")
    said, rest = made.parse_known_args(words)
    folder = Folder(pathlib.Path(said.session))
    if rest:
        if said.watch:
            made.error(f"--watch stands without {rest[0]}")
        return files_of(folder, rest + (["--json"] if said.json else []))
    watch = Watch(folder)
    while True:
        watch.follow()
        found = watch.value()
        if said.watch and is_terminal():
            print(own("[H") + own("[2J"), end="")
        if said.json:
            print(as_json(found, 1), flush=True)
        else:
            say(text(found), is_at_once=True)
        if not said.watch or not found["running"]:
            return None
        try:
            time.sleep(1)
        except KeyboardInterrupt:
            return None
