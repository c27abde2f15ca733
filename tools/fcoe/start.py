"""How a tool begins and ends. It is the first module that a tool loads.

The status is 0 where nothing is amiss, 1 where something was found that was asked for, 2 where the tool couldn't look, 70 where it has a fault of its
own, 130 behind Ctrl-C; but for 0 and 1 one line on standard error says why.
"""
import _signal  # type: ignore[import] # what `signal` stands on, without what that loads
import os
import sys

HOME = os.path.dirname(os.path.dirname(os.path.abspath(__file__)))
IS_PROGRAM = os.path.dirname(os.path.realpath(sys.argv[0])) == HOME  # else another program calls a tool's functions
# While Python itself begins, Ctrl-C waits: a tool's first line blocks it. From here until the tool runs it ends it as it ends any program.
if IS_PROGRAM and _signal.getsignal(_signal.SIGINT) is _signal.default_int_handler:
    _signal.signal(_signal.SIGINT, _signal.SIG_DFL)
if IS_PROGRAM:
    _signal.pthread_sigmask(_signal.SIG_UNBLOCK, {_signal.SIGINT})

# pylint: disable=wrong-import-position
import signal
import traceback
from types import FrameType, TracebackType
from typing import TYPE_CHECKING, Callable, NoReturn, Optional

from .errors import COULD_NOT, FAULT, INTERRUPTED, NEXT, Refused, note
from .printing import Closed, Mute, say_aside, shown
from .progress import PROGRESS

if TYPE_CHECKING:
    from sys import UnraisableHookArgs

DEBUG = "--debug"  # a word of each tool: shows where a fault of the tool is
CUT = 300  # signs of what an exception says
Run = Callable[[list[str]], Optional[int]]


def fill_descriptors() -> None:
    """Streams that were closed: no file takes their number, and nobody finds none."""
    for number in range(3):
        try:
            os.fstat(number)
        except OSError:
            os.open(os.devnull, os.O_RDWR)
    sys.stdout = shown(sys.stdout) if sys.stdout is not None else Closed()
    sys.stderr = shown(sys.stderr) if sys.stderr is not None else Mute()
    PROGRESS.is_wanted = PROGRESS.is_wanted or sys.stderr.isatty()


def place_of(why: BaseException) -> str:
    """Where an exception was raised: the last place of the tools' own."""
    steps = traceback.extract_tb(why.__traceback__)
    inside = [it for it in steps if os.path.abspath(it.filename).startswith(HOME)] or steps
    return f"{os.path.relpath(inside[-1].filename, HOME)}, line {inside[-1].lineno}" if inside else "nowhere"


def fault_text(why: BaseException) -> str:
    """A fault of the tool's own in one line."""
    said = str(why)[:CUT]
    what = type(why).__name__ + (f": {said}" if said else "")
    return f"a fault of this tool, not of your words: {what} ({place_of(why)}): report it with this line, the command and its files; {DEBUG} shows more"


def os_text(why: OSError) -> str:
    """What a system call says, with the next step."""
    step = NEXT.get(why.errno or 0)
    named = f"{why.filename}: " if why.filename is not None else ""
    return f"{named}{why.strerror or why}" + (f": {step}" if step else "")


def told(why: BaseException) -> int:
    """Says why a tool ends, and gives its status."""
    if isinstance(why, Refused):
        for line in why.lines:
            note(line)
        return COULD_NOT
    if isinstance(why, BrokenPipeError):  # a pager that was left
        return COULD_NOT
    if isinstance(why, KeyboardInterrupt):
        note("stopped")
        return INTERRUPTED
    if isinstance(why, OSError):
        note(os_text(why))
        return COULD_NOT
    if isinstance(why, MemoryError):
        note("no memory: that is more than this machine has room for: name fewer captures, or a part of them (`editcap -A -B`)")
        return COULD_NOT
    note(fault_text(why))
    return FAULT


def status_of(run: Run, words: list[str]) -> int:
    """The status of a tool's run, which may end by itself (`--help`)."""
    try:
        status = run(words)
    except SystemExit as why:
        status = why.code if isinstance(why.code, int) else int(why.code is not None)
    sys.stdout.flush()
    return status or 0


def ended(run: Run, words: list[str]) -> int:
    """The status of a tool's run; whatever goes wrong is one line on standard error."""
    is_debugging = DEBUG in words
    try:
        return status_of(run, [it for it in words if it != DEBUG])
    except BaseException as why:  # pylint: disable=broad-exception-caught
        PROGRESS.clear()
        if is_debugging:
            say_aside("".join(traceback.format_exception(why)).splitlines())
        return told(why)


def unexpected(_: type[BaseException], why: BaseException, __: Optional[TracebackType]) -> None:
    """What is raised while modules load."""
    os._exit(told(why))  # pylint: disable=protected-access


def unseen(it: "UnraisableHookArgs") -> None:
    """What is raised where no caller sees it, as while a value is taken away: an interrupt counts, and a fault is a line."""
    why = it.exc_value
    if why is not None and not isinstance(why, Exception):
        os._exit(told(why))  # pylint: disable=protected-access
    if why is not None:
        note(fault_text(why))


def interrupted(_number: int, _frame: Optional[FrameType]) -> NoReturn:
    """Ctrl-C ends what runs; a second one ends the process while that is put back."""
    signal.signal(signal.SIGINT, signal.SIG_DFL)
    raise KeyboardInterrupt


def leave(status: int) -> NoReturn:
    """Ends the process; what the standard streams still hold was told of, or is for nobody."""
    if signal.getsignal(signal.SIGINT) is not signal.SIG_IGN:
        signal.signal(signal.SIGINT, signal.SIG_DFL)
    PROGRESS.clear()
    for number, name in ((1, "stdout"), (2, "stderr")):
        try:
            getattr(sys, name).flush()
        except OSError:
            os.dup2(os.open(os.devnull, os.O_WRONLY), number)
            setattr(sys, name, Mute())
    sys.exit(status)


def main_of(run: Run, about: Optional[str] = None) -> NoReturn:
    """Runs a tool; `--help` says what it is about, where the tool hasn't help of its own."""
    words = sys.argv[1:]
    wants_help = about is not None and words[:1] in (["-h"], ["--help"])
    if signal.getsignal(signal.SIGINT) is signal.SIG_DFL:
        signal.signal(signal.SIGINT, interrupted)
    leave(ended(lambda some: print((about or "").strip()) if wants_help else run(some), words))


if IS_PROGRAM:
    fill_descriptors()
    sys.excepthook, sys.unraisablehook = unexpected, unseen
