"""The one way by which text leaves a tool: a sign that a terminal would obey is written out, whoever's it is; what the tool means itself is marked."""
import codecs
import contextlib
import errno
import io
import json
import os
import re
import select
import sys
from typing import Any, Iterable, Optional

KEY = os.urandom(8).hex()  # marks the tool's own sequences: no file and no frame can know it
# C0 but for the newline and the tab, DEL, C1, and halves of UTF-16, by which Python stands for bytes that aren't UTF-8
FOREIGN = re.compile(f"[\x00-\x08\x0b-\x1a\x1c-\x1f\x7f-\x9f\ud800-\udfff]|\x1b(?!{KEY})")
IN_JSON = re.compile("[\x7f-\x9f\ud800-\udfff]")  # what json.dumps leaves of these
PIPED = 4096  # bytes that a pipe with room takes without waiting


def written_out(found: "re.Match[str]") -> str:
    code = ord(found[0])
    if 0xDC80 <= code <= 0xDCFF:  # a byte of a name
        code -= 0xDC00
    return f"\\x{code:02x}" if code < 256 else f"\\u{code:04x}"


def visible(text: str) -> str:
    """Text with control signs written out, newlines and tabs aside."""
    return FOREIGN.sub(written_out, text)


def one_line(text: str) -> str:
    """Text that is one line, whatever is in it."""
    return visible(text).replace("\n", "\\x0a").replace("\t", "\\x09")


def unencodable(why: UnicodeError) -> tuple[str, int]:
    """What an encoding hasn't, as JSON writes it too."""
    if not isinstance(why, UnicodeEncodeError):
        raise why
    units = why.object[why.start : why.end].encode("utf-16-be", "surrogatepass")
    return "".join(f"\\u{units[at : at + 2].hex()}" for at in range(0, len(units), 2)), why.end


codecs.register_error("written out", unencodable)


def own(sequence: str) -> str:
    """An escape sequence that the tool itself means, of what stands behind ESC."""
    return f"\x1b{KEY}{sequence}"


class Shown(io.TextIOWrapper):
    """A standard stream: what is written goes through the filter, and what its encoding hasn't is written out too."""

    is_dropping = False  # what would have to wait is dropped
    fault: Optional[OSError] = None  # what could not be written

    @property
    def called(self) -> str:
        return "standard error" if self.fileno() == 2 else "standard output"

    def write(self, text: str) -> int:
        safe = visible(text).replace(f"\x1b{KEY}", "\x1b")
        if self.is_dropping:
            self.write_now(safe)
        else:
            self.named(super().write, safe)
        return len(text)

    def write_now(self, text: str) -> None:
        """Writes what is taken at once; a reader that stands still or has gone costs the rest."""
        data = text.encode(self.encoding, "written out")
        poll = select.poll()
        poll.register(self.fileno(), select.POLLOUT)
        for at in range(0, len(data), PIPED):
            if poll.poll(0) != [(self.fileno(), select.POLLOUT)]:
                return
            try:
                self.buffer.write(data[at : at + PIPED])
                self.buffer.flush()
            except OSError:
                return

    def flush(self) -> None:
        self.named(super().flush)
        if self.fault is not None:  # whoever wrote didn't mind
            raise self.fault

    def named(self, call: Any, *words: str) -> None:
        """A stream that can't be written is told by its name."""
        try:
            call(*words)
        except OSError as why:
            why.filename, self.fault = self.called, why
            raise


class Closed(io.TextIOBase):
    """Standard output where it was closed: whoever has something to say is told so."""

    is_asked = False

    def write(self, _: str) -> int:
        self.is_asked = True
        raise OSError(errno.EBADF, "closed", "standard output")

    def flush(self) -> None:
        if self.is_asked:
            raise OSError(errno.EBADF, "closed", "standard output")


class Mute(io.TextIOBase):
    """Standard error where it was closed."""

    def write(self, text: str) -> int:
        return len(text)


def shown(stream: Any) -> Shown:
    """A standard stream with the filter before it."""
    if isinstance(stream, Shown):
        return stream
    settings = {"encoding": stream.encoding, "errors": "written out", "line_buffering": stream.line_buffering, "write_through": stream.write_through}
    return Shown(stream.detach(), **settings)


def say(lines: Iterable[str], is_at_once: bool = False) -> None:
    """Prints lines, each of which stays one."""
    print("\n".join(map(one_line, lines)), flush=is_at_once)


def say_at_end(lines: Iterable[str]) -> None:
    """Prints lines that come too late to end anything: nobody may read them."""
    try:
        say(lines, is_at_once=True)
    except OSError:
        sys.stdout = Mute()  # type: ignore[assignment]


def say_aside(lines: Iterable[str]) -> None:
    """Prints lines on standard error; nobody may read them."""
    with contextlib.suppress(OSError):
        print("\n".join(map(one_line, lines)), file=sys.stderr, flush=True)


def as_json(value: Any, indent: Any = None, separators: Any = None) -> str:
    """A value as JSON: signs that a terminal obeys, and what isn't Unicode, stand in it as JSON writes them."""
    text = json.dumps(value, indent=indent, separators=separators, ensure_ascii=False)
    return IN_JSON.sub(lambda it: f"\\u{ord(it[0]):04x}", text)
