"""What a session of tools/live left, held against `replay` and against `live` over the same stream as a file."""
import pathlib
import subprocess
import tempfile
from dataclasses import dataclass
from typing import Iterable, Optional

from live_hosts import wanted

from fcoe.frames.captures import classic
from fcoe.frames.columns import Record
from fcoe.frames.stream import head, packet
from fcoe.live.sessions import Folder
from fcoe.runs.journals import Frame, read_journal

Place = tuple[int, int]  # of a frame: its port, and its number there from 0


def said(program: str, folder: pathlib.Path, *words: str) -> tuple[int, str]:
    """The status and the line of a command."""
    ran = subprocess.run([program, *words], cwd=folder, capture_output=True, text=True, check=False)
    return ran.returncode, ran.stdout.strip()


def replay(program: str, folder: pathlib.Path, ports: int) -> str:
    return said(program, folder, "replay", "fabric.conf", "journal", *(it.rpartition("/")[2] for it in Folder(folder).pairs(ports)))[1]


def begins(path: pathlib.Path) -> list[bytes]:
    """The frames of a capture's whole records."""
    return [it.data for it in classic(str(path)).records]


def ended_whole(folder: pathlib.Path, program: str, ports: int, printed: str) -> None:
    """The session's line counts its frames, and `replay` accepts it."""
    frames, entries = printed.split()[1::2]
    wanted(f"the program printed {printed!r}", printed == f"frames {frames} entries {entries}")
    wanted("as many frames as IN has", int(frames) == sum(len(begins(Folder(folder).heard(port))) for port in range(1, ports + 1)))
    found = replay(program, folder, ports)
    wanted(f"replay says {found!r}", found == f"legal {entries}")


def live_over(program: str, folder: pathlib.Path, stream: pathlib.Path, ports: int, room: pathlib.Path) -> None:
    """`live` over a stream that is a file."""
    pairs = [str(it) for port in range(1, ports + 1) for it in (room / f"in{port}.pcap", room / f"out{port}.pcap")]
    status, line = said(program, room, "live", str(folder / "fabric.conf"), "journal", str(stream), *pairs)
    wanted(f"live over the stream as a file: {status} {line!r}", status == 0)


def stream_of(path: pathlib.Path, captures: list[list[Record]], places: Iterable[Place]) -> None:
    """A stream of these frames in this order."""
    with open(path, "wb") as file:
        file.write(head(f"port{port}" for port in range(1, len(captures) + 1)))
        for port, index in places:
            it = captures[port - 1][index]
            file.write(packet(port - 1, it.moment, it.data, it.length))


def lined(journal: str) -> list[Place]:
    """The frames that have a line in a journal, in its order."""
    return [(it.port, it.index) for it in read_journal(journal) if isinstance(it, Frame)]


def again(folder: pathlib.Path, program: str, ports: int) -> None:
    """The session's stream as a file leaves the same bytes; where it wasn't kept, it's made of what came, in the journal's order."""
    with tempfile.TemporaryDirectory(dir="/var/tmp") as name:
        room = pathlib.Path(name)
        stream = Folder(folder).stream
        if not stream.exists():
            stream = room / "stream"
            captures = [classic(str(Folder(folder).heard(port))).records for port in range(1, ports + 1)]
            stream_of(stream, captures, lined(str(folder / "journal")))
        live_over(program, folder, stream, ports, room)
        for path in (Folder(folder).journal, *map(pathlib.Path, Folder(folder).pairs(ports))):
            wanted(f"{path.name} is the same over the stream as a file", path.read_bytes() == (room / path.name).read_bytes())


# ---- sessions that were cut off


@dataclass
class Cut:
    """What stands of a session that was cut off: the whole records, and the frames that have a whole line."""

    folder: Folder
    ports: int

    def __post_init__(self) -> None:
        self.captures = [classic(str(self.folder.heard(port))).records for port in range(1, self.ports + 1)]
        self.text = self.folder.journal.read_bytes()
        whole = self.text[: self.text.rfind(b"\n") + 1]
        with tempfile.NamedTemporaryFile(dir="/var/tmp") as file:
            file.write(whole)
            file.flush()
            self.places = lined(file.name)

    def last(self) -> Optional[Place]:
        """The frame that stands in IN and has no whole line: one at most."""
        judged = [0] * self.ports
        for port, index in self.places:
            wanted("the journal has each port's frames in order", index == judged[port - 1])
            judged[port - 1] += 1
        more = [(port, index) for port in range(1, self.ports + 1) for index in range(judged[port - 1], len(self.captures[port - 1]))]
        wanted("each line has its frame in IN", all(judged[port] <= len(self.captures[port]) for port in range(self.ports)))
        wanted(f"all but one frame of IN at most have a line: {more[:9]}", len(more) <= 1)
        return more[0] if more else None

    def over(self, program: str, places: list[Place], room: pathlib.Path) -> Folder:
        """What `live` leaves over these frames."""
        room.mkdir()
        stream_of(room / "stream", self.captures, places)
        live_over(program, self.folder.path, room / "stream", self.ports, room)
        return Folder(room)


def is_front(path: pathlib.Path, whole: pathlib.Path) -> bool:
    return whole.read_bytes().startswith(path.read_bytes())


def cut_off(path: pathlib.Path, program: str, ports: int) -> str:
    """IN, the journal and OUT are beginnings in this order: no line without its frame, nothing sent without its line. Says how far they go."""
    cut = Cut(Folder(path), ports)
    last = cut.last()
    with tempfile.TemporaryDirectory(dir="/var/tmp") as name:
        judged = cut.over(program, cut.places, pathlib.Path(name) / "judged")
        heard = cut.over(program, cut.places + ([last] if last else []), pathlib.Path(name) / "heard")
        wanted("the journal is the one of the frames that have a line, and then a beginning of the next frame's", cut.text.startswith(judged.journal.read_bytes()))
        wanted("the journal is a beginning of the one of all that came", is_front(cut.folder.journal, heard.journal))
        for port in range(1, ports + 1):
            wanted(f"in{port}.pcap is what came, and then a beginning of a record", cut.folder.heard(port).read_bytes().startswith(heard.heard(port).read_bytes()))
            wanted(f"out{port}.pcap is a beginning of what the journal's whole lines send", is_front(cut.folder.sent(port), judged.sent(port)))
    found = replay(program, path, ports)
    wanted(f"replay says {found!r}", found.split(" ")[0] in ("legal", "journal", "output", "capture"))
    return f"{sum(map(len, cut.captures))} frames in IN, {len(cut.places)} lines of frames, {sum(len(begins(cut.folder.sent(it))) for it in range(1, ports + 1))} frames in OUT, replay says '{found}'"
