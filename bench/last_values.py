#!/usr/bin/env python3
"""Compares what the built program answers at those limits that are too large for a test: bench/last_values.py PROGRAM

Each case is a script, the words behind the program, and the status and the output that are wanted; its elapsed time is
printed. The first case that is answered otherwise is told, and the status is then 1. Takes up to 4 GiB.
"""

import itertools
import subprocess
import sys
import time

SCRIPT = 1 << 24
VALUES = 1 << 24
CELLS = 1 << 26
MEMBERS = 1_000_000


def padded(front, back, size):
    """A script of so many bytes: a comment between two texts."""
    return front + b"#" * (size - len(front) - len(back) - 1) + b"\n" + back


def scripts():
    """Of as many bytes as a script may have, and of one more."""
    front, back = b"algebra M size 2 op meet 2 = 0 0 0 1 end\n", b"eval M meet(x0, x1) [1 1]"
    yield "longest script", [], padded(front, back, SCRIPT), 0, b"value 1\n"
    yield "one byte more", [], padded(front, back, SCRIPT + 1), 7, b""
    yield "one byte more at the end", [], padded(front, back, SCRIPT) + b"\n", 7, b""
    values = b" 0" * (53**4 - 1) + b" 52"
    block = b"algebra T size 53 op f 4 =" + values + b" end "
    script = block + b"eval T f(x0, x0, x0, x0) [52] eval T f(x0, x0, x0, x1) [52 51]"
    yield "table of nearly 16 MiB", [], script, 0, b"value 52\nvalue 0\n"


def tables():
    """Products with as many values as an algebra may have, and with one more: the value is the second of four."""
    def second(size):
        return b"".join(b" %d" % b * size**2 for _ in range(size) for b in range(size))

    def factor(more):
        block = b"algebra A size 8\nop f 4 =" + second(8) + more + b"\nend\n"
        return block + b"make P product A A\neval P f(x1, x0, x1, x1) [63 0]"

    assert 64**4 == VALUES
    product = b"algebra P size 64\nop f 4 =" + second(64) + b"\nend\n"
    yield "16,777,216 values", [], factor(b""), 0, product + b"value 63\n"
    yield "one value more", [], factor(b"\nop c 0 = 0"), 0, b"error size 5:1\nerror unknown 6:6\n"


def vectors():
    """The widest vectors, of which a constant operation makes one."""
    script = b"algebra K size 2 op c 0 = 1 end close K %d" % CELLS
    out = b"closed 1\n[" + b"1 " * (CELLS - 1) + b"1] 0 c\n"
    for workers in ("1", "16"):
        yield f"width 67,108,864, workers {workers}", ["--budget", "1", "--workers", workers], script, 0, out


def closures():
    """The pairs of elements of a cycle of 1,000, as many as the greatest budget, and more than one less."""
    cycle = b" ".join(b"%d" % ((x + 1) % 1000) for x in range(1000))
    pairs = b" ".join(b"[0 %d]" % x for x in range(1000))
    script = b"version 2 algebra C size 1000 op next 1 = " + cycle + b" end close C 2 " + pairs + b" count"
    for budget, reply in ((MEMBERS, b"closed 1000000\n"), (MEMBERS - 1, b"exceeds 999999\n")):
        for workers in ("1", "16"):
            words = ["--budget", str(budget), "--workers", workers]
            yield f"1,000,000 members, budget {budget:,}, workers {workers}", words, script, 0, reply


def main():
    if len(sys.argv) != 2:
        sys.exit(__doc__)
    count = 0
    for name, words, script, status, out in itertools.chain(scripts(), tables(), vectors(), closures()):
        start = time.monotonic()
        run = subprocess.run([sys.argv[1], *words], input=script, stdout=subprocess.PIPE, stderr=subprocess.DEVNULL,
                             check=False)
        if (run.returncode, run.stdout) != (status, out):
            sys.exit(f"{name}: status {run.returncode}, {len(run.stdout)} bytes: {run.stdout[:200]!r}")
        count += 1
        print(f"{name:52} {time.monotonic() - start:7.2f} s  as wanted", flush=True)
    print(f"last values: {count} as wanted")


if __name__ == "__main__":
    main()
