"""How far long work has come, where standard error is a terminal."""

from __future__ import annotations

import sys


def show(done: int, of: int, what: str) -> None:
    """Tells how many of how many are done, in place of what was told before. At the end the line is taken away."""
    if not sys.stderr.isatty():
        return
    print(f"\r{done} of {of} {what}\033[K" if done < of else "\r\033[K", end="", file=sys.stderr, flush=True)
