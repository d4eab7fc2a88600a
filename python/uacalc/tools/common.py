"""What the tools share: their words, their input and their output."""

from __future__ import annotations

import argparse
import sys
from pathlib import Path
from typing import List, Optional, Tuple

from ..faults import InputFault, ReplyFault, ScriptFault
from ..replies import Answer, Replies
from ..script import Script


def parser_of(tool: str, description: Optional[str]) -> argparse.ArgumentParser:
    """The parser of a tool's words."""
    return argparse.ArgumentParser(
        prog=f"uacalc {tool}", description=description, formatter_class=argparse.RawDescriptionHelpFormatter
    )


def read_input() -> bytes:
    """Standard input."""
    return sys.stdin.buffer.read()


def write_output(text: str) -> None:
    """Standard output."""
    sys.stdout.buffer.write(text.encode())
    sys.stdout.buffer.flush()


def add_script_option(parser: argparse.ArgumentParser) -> None:
    """The option that names the script that the replies answer."""
    parser.add_argument("--script", type=Path, metavar="FILE", help="the script that the input has the replies to")


def answered(script: Path, replies: bytes) -> List[Tuple[Script, int, Answer]]:
    """Each answer in the replies to a script, with the script and the number of its command."""
    try:
        text = script.read_bytes()
        read = Script.parse(text)
    except OSError as error:
        raise InputFault(str(error.strerror), str(script)) from None
    except ScriptFault as fault:
        raise InputFault(str(fault), f"{script}:") from None
    return [(read, number, answer) for number, answer in enumerate(Replies(read, replies.splitlines(True), text))]


def tell(tool: str, fault: Exception) -> int:
    """Tells on standard error what is wrong, and answers the status."""
    sys.stderr.write(f"{tool}: {fault}\n")
    return 1


FAULTS = (InputFault, ReplyFault, ScriptFault)
