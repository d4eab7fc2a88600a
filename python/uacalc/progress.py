"""A progress bar on standard error, at a terminal alone."""

from __future__ import annotations

import sys
import time
from typing import Optional, TextIO

WIDTH = 30
EVERY = 0.1  # seconds between two drawings


class Progress:
    """A bar over a number of answers. Where the stream is no terminal, nothing is written."""

    def __init__(self, total: int, stream: Optional[TextIO] = None):
        self.total = total
        self.done = 0
        self._stream = sys.stderr if stream is None else stream
        self._begun = self._drawn = time.monotonic()
        self._shows = total > 1 and self._stream.isatty()
        self._has_drawn = False

    def step(self) -> None:
        """One answer more is there."""
        self.done += 1
        now = time.monotonic()
        if self._shows and now - self._drawn >= EVERY:
            self._drawn = now
            self._draw(now - self._begun)

    def _draw(self, seconds: float) -> None:
        filled = WIDTH * self.done // self.total
        left = seconds / self.done * (self.total - self.done)
        bar = "#" * filled + "." * (WIDTH - filled)
        self._stream.write(f"\r[{bar}] {self.done}/{self.total}, {left:.0f} s left ")
        self._stream.flush()
        self._has_drawn = True

    def close(self) -> None:
        """Wipes the bar out."""
        if self._has_drawn:
            self._stream.write("\r" + " " * (WIDTH + 40) + "\r")
            self._stream.flush()
            self._has_drawn = False
