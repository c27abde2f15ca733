"""The cases of crates/tool_cases over real files: what comes out is compared with the answers of its stdout.

What tool_cases shows of `fabric_tool` over stores in memory is so shown of the program: its process, its words, its statuses, and `FileDepot` in place of
`MemDepot`. A call of the store that fails is one of a file (open, read or write) that fails, by a library that stands before the C library, and a sink's
room is what it lets through to standard output.
"""
import os
import pathlib
import struct
import subprocess
import zlib

from machine import TOP, RoomCase, needs, program, takes_preload
from preload import OPEN, library
from tool_rows.book import HEAD, lines_of, pieces_of

CRATE = TOP / "crates/tool_cases"
COUNTS = r"""
static long left = -1, room = -1;

__attribute__((constructor)) static void begin(void) {
    if (getenv("CASE_FAIL")) left = atol(getenv("CASE_FAIL"));
    if (getenv("CASE_ROOM")) room = atol(getenv("CASE_ROOM"));
}

// The call of the number that was given, counted from 0 over all three, fails.
static int fails(void) { return left >= 0 && left-- == 0; }
static int no_file(const char *name) { return strcmp(name, "/dev/null") && fails(); } // a process holds its closed streams by it
"""
CALLS = r"""
ssize_t read(int file, void *into, size_t n) {
    if (file > 2 && fails()) { errno = EIO; return -1; }
    return REAL(read)(file, into, n);
}

ssize_t write(int file, const void *from, size_t n) {
    if (file > 2 && fails()) { errno = EIO; return -1; }
    if (file != 1 || room < 0) return REAL(write)(file, from, n);
    if (room == 0) { errno = ENOSPC; return -1; }
    n = n < (size_t)room ? n : (size_t)room;
    room -= n;
    return REAL(write)(file, from, n);
}
"""


def word_of(word: str) -> str:
    """A word of a command: one in quotes has `_` for each space."""
    return word.replace("'", "").replace("_", " ") if word.startswith("'") else word


class Cases:
    """The lines of cases, obeyed one after another; what crates/tool_cases/README.md says of them."""

    def __init__(self, program: pathlib.Path, shim: pathlib.Path, folder: pathlib.Path) -> None:
        self.program, self.shim, self.folder = program, shim, folder
        self.shelf: dict[str, bytes] = {}
        self.name, self.bytes = "", bytearray()
        self.disturbed: dict[str, str] = {}
        self.out: list[str] = []
        self.runs = 0

    def piece(self, piece: str) -> None:
        """One piece more of a file."""
        kind, words = piece[:1], piece[2:].split()
        if kind == "|":
            self.bytes += piece[2:].encode("latin-1") + b"\n"
        elif kind == ".":
            del self.bytes[-1:]
        elif kind in "@=":
            zeros = bytes(int(words.pop()[1:])) if words[-1].startswith("+") else b""
            data = (b"" if words[-1] == "-" else bytes.fromhex(words[-1])) + zeros
            self.bytes += (struct.pack("<IIII", int(words[0]), int(words[1]), len(data), len(data)) if kind == "@" else b"") + data
        elif kind == "<":
            data = self.shelf[words[0]]
            self.bytes += data if len(words) == 1 else data[int(words[1]) : int(words[2])]
        elif kind == "*":
            self.bytes += int(words[0]) * self.shelf[words[1]]
        else:
            self.bytes[int(words[0])] = int(words[1], 16)

    def file(self, name: str) -> bytes | None:
        path = self.folder / name
        return path.read_bytes() if path.exists() else None

    def obey(self, line: str) -> None:
        if line.startswith(" "):
            self.piece(line[1:])
            return
        if self.name:
            self.shelf[self.name], self.name = bytes(self.bytes), ""
        word, _, rest = line.partition(" ")
        if word in ("file", "capture"):
            self.name, self.bytes = rest, bytearray(HEAD if word == "capture" else b"")
        elif word in ("see", "sum", "front"):
            for name in rest.split():
                getattr(self, word)(name)
        else:
            self.out.append(line)
            self.prepare(word, rest)

    def prepare(self, word: str, rest: str) -> None:
        if not word:
            self.disturbed = {}
            for path in self.folder.iterdir():
                path.unlink()
        elif word in ("with", "keep"):
            for pair in rest.split():
                name, _, other = pair.partition("=")
                if word == "with":
                    (self.folder / name).write_bytes(self.shelf[other])
                else:
                    self.shelf[name] = self.file(other) or b""
        elif word in ("fail", "room"):
            self.disturbed[f"CASE_{word.upper()}"] = rest
        elif word == "$":
            self.run(rest)

    def run(self, line: str) -> None:
        words = [word_of(word) for word in line.split()]
        more = {"LD_PRELOAD": str(self.shim), **self.disturbed} if self.disturbed else {}
        done = subprocess.run([str(self.program), *words], cwd=self.folder, env={**os.environ, **more}, stdout=subprocess.PIPE, stderr=subprocess.DEVNULL, check=False)
        self.out += lines_of("> ", done.stdout) + [f"status {done.returncode}"]
        self.runs += 1

    def see(self, name: str) -> None:
        data = self.file(name)
        if data is None:
            self.out.append(f"none {name}")
        else:
            kind, pieces = pieces_of(data)
            self.out += [f"{kind} {name}"] + pieces

    def sum(self, name: str) -> None:
        data = self.file(name)
        self.out.append(f"none {name}" if data is None else f"sum {name} {len(data)} bytes, CRC {zlib.crc32(data):08x}")

    def front(self, pair: str) -> None:
        name, _, other = pair.partition("=")
        data, whole = self.file(name), self.shelf.get(other, b"")
        if data is None or not whole.startswith(data):
            self.out.append(f"none {name}" if data is None else f"other {name}")
        else:
            self.out.append(f"front {name} of {len(data)} of {len(whole)} bytes")


def answered(room: pathlib.Path) -> Cases:
    """The cases, all obeyed in a folder."""
    (room / "files").mkdir()
    cases = Cases(pathlib.Path(program()), library(room, COUNTS, OPEN, CALLS), room / "files")
    for line in (CRATE / "stdin").read_text(encoding="latin-1").splitlines():
        cases.obey(line)
    return cases


@needs("gcc")
class ToolFiles(RoomCase):
    """Over real files as over stores in memory."""

    def test_answers(self) -> None:
        if not takes_preload():
            self.skipTest("the program loads no library, so none can stand before the C library")
        cases = answered(self.room)
        wanted = (CRATE / "stdout").read_text(encoding="latin-1").split("\n")[:-1]
        for number, (found, line) in enumerate(zip(cases.out, wanted), 1):
            if found != line:
                case = next(it for it in reversed(cases.out[:number]) if it.startswith("#"))
                self.fail(f"{case}\n  line {number} says {found[:200]}\n  and its stored answer {line[:200]}")
        self.assertEqual(len(cases.out), len(wanted), "lines")
