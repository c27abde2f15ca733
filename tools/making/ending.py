"""SIGTERM and SIGHUP end a tool as Ctrl-C does: what it began is ended and put back."""
import signal
from types import FrameType
from typing import Optional


def stop(_number: int, _frame: Optional[FrameType]) -> None:
    raise KeyboardInterrupt


def ends_by_signal() -> None:
    for number in (signal.SIGTERM, signal.SIGHUP):
        signal.signal(number, stop)
