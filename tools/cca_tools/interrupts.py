"""What a run does at Ctrl-C, and how it ends if an import of the package fails.

A run that is interrupted ends with 130 and without a word, and one that crashes with 70: Python's own status of both is
1, which is the status of a verdict `no ..`. The scripts of tools/ have their own `crashed` and `interrupted`, since
they have to end in the same way if the package isn't there.
"""

from __future__ import annotations

import contextlib
import os
import signal
import sys
import threading
from collections.abc import Iterator
from types import FrameType, TracebackType

CRASH, INTERRUPTED = 70, 130
NO_THREAD = "can't start new thread"


def reason(fault: BaseException) -> str:
    """Why the system or Python failed to supply what a run needs; empty if the fault is the tool's own."""
    if isinstance(fault, OSError):
        return f"{fault.filename or 'the system'}: {fault.strerror or fault}"
    if isinstance(fault, EOFError):
        return "a module isn't whole: remove the folders __pycache__ of cca_tools"
    if isinstance(fault, (ImportError, MemoryError)) or str(fault) == NO_THREAD:
        return str(fault) or "too little memory"
    return ""


def crashed(kind: type[BaseException], fault: BaseException, trace: TracebackType | None) -> None:
    """Ends the process with 130 after Ctrl-C, else with 70, and says why."""
    try:
        if why := reason(fault):
            os.write(2, f"cca_tools can't start, so this is no answer: {why}\n".encode(errors="replace"))
        elif kind is not KeyboardInterrupt:
            sys.__excepthook__(kind, fault, trace)
            sys.stderr.flush()
    finally:
        os._exit(INTERRUPTED if kind is KeyboardInterrupt else CRASH)


def interrupted(number: int, frame: FrameType | None) -> None:
    """Ends the process at Ctrl-C, without a word."""
    os._exit(INTERRUPTED)


def take_over() -> None:
    """Has this process end as a run of a tool does."""
    sys.excepthook = crashed
    # (of a module that Python keeps, a full disk may take a part, which later runs would read)
    sys.dont_write_bytecode = True
    if signal.getsignal(signal.SIGINT) != signal.SIG_IGN:
        signal.signal(signal.SIGINT, interrupted)


@contextlib.contextmanager
def interruptible() -> Iterator[None]:
    """A block that Ctrl-C leaves by KeyboardInterrupt, so that it can clear away what it has made."""
    before = signal.getsignal(signal.SIGINT)
    if not callable(before) or threading.current_thread() is not threading.main_thread():
        yield
        return
    signal.signal(signal.SIGINT, signal.default_int_handler)
    try:
        yield
    finally:
        signal.signal(signal.SIGINT, before)


# `python3 -m cca_tools` and the command `cca-tools` import the package before they run it.
if sys.argv and os.path.basename(sys.argv[0]) in ("-m", "cca-tools"):
    take_over()
