"""The tools on the command line: python3 -m uacalc TOOL [WORD ..]"""

from __future__ import annotations

import sys
from importlib import import_module
from typing import List, Optional

from .tools.common import FAULTS, tell

TOOLS = {
    "check": "checks certificates, without the program",
    "con2dot": "draws congruence lattices, for Graphviz",
    "gap2script": "turns tables of GAP into a block",
    "mace2script": "turns models of Mace4 into blocks",
    "steps2term": "turns steps of replies into terms",
}


def usage() -> str:
    """The tools, a line for each."""
    lines = [f"  {tool:12} {what}" for tool, what in TOOLS.items()]
    return "\n".join(["usage: python3 -m uacalc TOOL [WORD ..]; --help after a tool tells its words", *lines, ""])


def main(words: Optional[List[str]] = None) -> int:
    """Runs a tool, and answers its status: 1 where its input is at fault, 2 where its words are."""
    tool, *rest = (sys.argv[1:] if words is None else words) or [""]
    if tool in ("-h", "--help"):
        sys.stdout.write(usage())
        return 0
    if tool not in TOOLS:
        sys.stderr.write(usage())
        return 2
    try:
        return int(import_module(f".tools.{tool}", __package__).run(rest))
    except FAULTS as fault:
        return tell(tool, fault)


if __name__ == "__main__":
    sys.exit(main())
