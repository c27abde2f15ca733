"""How far a long work is, on standard error where it is a terminal: one line that is written over, and gone at the end."""
import contextlib
import sys
import time

from .printing import one_line, own

LINE = own("[G") + own("[K")  # back to the line's begin, and the line wiped
PATIENCE, PAUSE = 1.0, 0.2  # seconds before the first line, and between two


class Progress:
    """The line of a tool."""

    def __init__(self) -> None:
        self.begin = self.last = time.monotonic()
        self.is_wanted = sys.stderr is not None and sys.stderr.isatty()
        self.is_shown = False

    def silence(self) -> None:
        self.is_wanted = False

    def say(self, text: str) -> None:
        """Says what goes on, where it takes long."""
        now = time.monotonic() if self.is_wanted else self.begin
        if now - self.begin >= PATIENCE and (now - self.last >= PAUSE or not self.is_shown):
            self.last, self.is_shown = now, True
            self.write(LINE + one_line(text))

    def clear(self) -> None:
        """Takes the line away, before another is written."""
        if self.is_shown:
            self.is_shown = False
            self.write(LINE)

    @staticmethod
    def write(text: str) -> None:
        with contextlib.suppress(OSError):
            sys.stderr.write(text)
            sys.stderr.flush()


PROGRESS = Progress()
