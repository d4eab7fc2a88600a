#!/usr/bin/env python3
"""Times how a program reads scripts of 4, 8 and 16 MiB: bench/reading.py PROGRAM

Three kinds of scripts are made: large tables, many small blocks, and one command with many vectors.
For each, the processor time and the peak memory of the program are printed.
"""

import sys

from congruences import measured

SIZES = [1 << 22, 1 << 23, 1 << 24]


def padded(text, size):
    return text + "#" * (size - len(text))


def tables(size):
    """Blocks of 64 operations of arity 4 on 9 elements."""
    values = "0 " * 9**4
    pieces, length, blocks, operations = ["algebra A0 size 9\n"], 20, 0, 0
    while True:
        if operations == 64:
            blocks, operations = blocks + 1, 0
            pieces.append(f"end\nalgebra A{blocks} size 9\n")
        line = f"op f{operations} 4 = {values}\n"
        length += len(line) + 20
        if length > size:
            return padded("".join(pieces) + "end\n", size)
        pieces.append(line)
        operations += 1


def blocks(size):
    """Blocks of one operation on two elements."""
    pieces, length = [], 0
    while True:
        block = f"algebra B{len(pieces)} size 2\nop f 2 = 0 0 0 1\nend\n"
        if length + len(block) > size:
            return padded("".join(pieces), size)
        pieces.append(block)
        length += len(block)


def vectors(size):
    """One closure with as many vectors as fit."""
    head, tail = "algebra M size 2 op f 2 = 0 0 0 1 end close M 1 ", " count"
    return padded(head + "[0] " * ((size - len(head) - len(tail)) // 4) + tail, size)


def main():
    if len(sys.argv) != 2:
        sys.exit(__doc__)
    print("script      bytes   processor s   peak MiB")
    for make in (tables, blocks, vectors):
        for size in SIZES:
            _, seconds, memory = measured([sys.argv[1]], make(size).encode())
            print(f"{make.__name__:8} {size:8}   {seconds:11.2f}   {memory:8.0f}", flush=True)


if __name__ == "__main__":
    main()
