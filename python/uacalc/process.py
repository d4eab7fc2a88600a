"""The program as a process: a script goes in, lines come out as they are written."""

from __future__ import annotations

import os
import shutil
import subprocess
import threading
from pathlib import Path
from typing import IO, Iterator, List, Optional, Union, cast

from .faults import ProgramError

PROGRAM = "UACALC"  # the variable of the environment that names the program
MOMENT = 0.5  # seconds that a program gets to end after its last line
BUILT = Path(__file__).resolve().parents[2] / "crates" / "uacalc" / "out" / "uacalc"


def find_program(program: Union[str, "os.PathLike[str]", None] = None) -> str:
    """The program: the one that is given, or that UACALC names, or `uacalc` on the path, or the one built beside this.

    `ProgramError` where there is none.
    """
    wanted = program or os.environ.get(PROGRAM)
    if wanted is None:
        wanted = shutil.which("uacalc") or BUILT
    found = shutil.which(str(wanted))
    if found is None:
        raise ProgramError(f"there is no program {wanted}: give its path, or set {PROGRAM}")
    return os.path.abspath(found)


class Process:
    """A run of the program on a script.

    `lines` tells its lines as they come; `end` waits for its end, and `kill` ends it. The time limit kills it, and
    `is_over_time` tells that it did.
    """

    def __init__(self, words: List[str], script: bytes, seconds: Optional[float]):
        self.is_over_time = False
        self._errors = b""
        try:
            self._process = subprocess.Popen(
                words, stdin=subprocess.PIPE, stdout=subprocess.PIPE, stderr=subprocess.PIPE
            )
        except OSError as error:
            raise ProgramError(f"{words[0]}: {error.strerror}") from error
        self._threads = [threading.Thread(target=self._feed, args=(script,)), threading.Thread(target=self._hear)]
        for thread in self._threads:
            thread.daemon = True
            thread.start()
        self._timer = None if seconds is None else threading.Timer(seconds, self._expire)
        if self._timer is not None:
            self._timer.daemon = True
            self._timer.start()

    def _feed(self, script: bytes) -> None:
        stream = cast(IO[bytes], self._process.stdin)
        try:
            stream.write(script)
            stream.close()
        except OSError:
            pass  # the program ended before it read all: its status says why

    def _hear(self) -> None:
        self._errors = cast(IO[bytes], self._process.stderr).read()

    def _expire(self) -> None:
        self.is_over_time = True
        self._process.kill()

    def lines(self) -> Iterator[bytes]:
        """The lines of its standard output, the last one perhaps without its LF."""
        return iter(cast(IO[bytes], self._process.stdout))

    def end(self) -> None:
        """Waits for the end; `ProgramError` where that is not the end of a run with all replies."""
        status = self._process.wait()
        for thread in self._threads:
            thread.join()
        self._close()
        if status != 0:
            message = self._errors.decode(errors="replace").strip()
            killed = f"the program was killed by signal {-status}" if status < 0 else "the program said nothing"
            raise ProgramError(message or killed, status)

    def has_failed(self) -> bool:
        """Whether the program has ended otherwise than well: it gets a moment to end, where it is at its end."""
        try:
            return self._process.wait(MOMENT) != 0
        except subprocess.TimeoutExpired:
            return False

    def kill(self) -> None:
        """Ends the process, if it runs."""
        if self._process.poll() is None:
            self._process.kill()
        self._process.wait()
        for thread in self._threads:
            thread.join()
        self._close()

    def _close(self) -> None:
        if self._timer is not None:
            self._timer.cancel()
        for stream in (self._process.stdin, self._process.stdout, self._process.stderr):
            if stream is not None:
                try:
                    stream.close()
                except OSError:
                    pass  # what could not be written before the end
