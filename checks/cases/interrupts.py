"""Ctrl-C at the programs that tests start."""

from __future__ import annotations

import signal


def take_interrupts() -> None:
    """Lets a process be ended by Ctrl-C, also if the caller ignores that, as a job in the background does."""
    signal.signal(signal.SIGINT, signal.SIG_DFL)
