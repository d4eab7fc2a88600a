#!/usr/bin/env python3
"""Refuses memory to the built program, once at each of its allocations: bench/refused_memory.py PROGRAM

For each script the Nth allocation alone is refused, and then each from the Nth on, for N = 1, 2, .. until a run ends
before its Nth. A run is to end with status 0 and the whole output, or with status 6, the line of that status, and a
beginning of the output. All scripts are run with one worker, and those whose output does not depend on the workers with
four as well. The first run that ends otherwise is told, and the status is then 1. Needs Linux, glibc and a C compiler,
as `cc` or in CC.
"""

import os
import pathlib
import re
import subprocess
import sys
import tempfile

HERE = pathlib.Path(__file__).resolve().parent
LAST = 2**62
SECONDS = 60

MEET = "algebra M size 2 op meet 2 = 0 0 0 1 end\n"
LATTICE = "algebra L size 2 op meet 2 = 0 0 0 1 op join 2 = 0 1 1 1 end\n"
Z2 = "algebra Z2 size 2 op plus 2 = 0 1 1 0 end\n"
GROUPS = Z2 + "algebra Z4 size 4 op plus 2 = 0 1 2 3 1 2 3 0 2 3 0 1 3 0 1 2 end\n"
NAMED = "version 2 algebra N size 2 names (bot top) op meet 2 = bot bot bot top end\n"

# Scripts whose output is the same for every number of workers, and the words behind `--workers`.
FIXED = [
    (MEET + "close M 2 [0 1] [1 0] count", []),
    (MEET + "close M 2 [0 1] [1 0] least", []),
    (NAMED + "close N 2 [bot top] [top bot] least", []),
    (MEET + "member M 2 [0 1] [1 0] = [1 0]", []),
    (GROUPS + "free Z2 2 count free Z2 1 least", []),
    (GROUPS + "sub Z4 [2] ones Z4", []),
    (GROUPS + "hom Z4 Z2 [1] [1]", []),
    (NAMED + "eval N meet(x0, x1) [bot top] holds N meet(x0, x1) = meet(x1, x0) holds N x0 = x1", []),
    (GROUPS + "cg Z4 [0 2] con Z4", []),
    (GROUPS + "central Z2 |0 1| |0 1| |0|1|", []),
    (LATTICE + "comm L |0 1| |0 1| series L derived", []),
    (GROUPS + "comm Z2 |0 1| |0 1| series Z2 lower", []),
    (LATTICE + "types L", []),
    (NAMED + "make P product N N make Q quotient P |0 1|2 3| sub P [3]", []),
    (LATTICE + "make S sub L [0] make R reduct L (join)", []),
    (MEET + 'check M {"gens":[[0,1]],"kind":"member","steps":[["gen",0]],"target":[0,1],"width":2}', []),
    (MEET + 'check M {"gens":[[0,1]],"kind":"member","steps":[["gen",0]],"target":[1,1],"width":2}', []),
    (MEET + 'check M {"kind":1} check M {"kind":"member"}', []),
    (GROUPS + "close X 1 close Z2 1 [2] close Z2 2 [0] cg Z4 [0 1 2] make X quotient Z4 |0 1|2 3|", []),
    (GROUPS + LATTICE + "make X product Z2 L make Y sub L [] close L 67108864", []),
    (GROUPS + "close Z2 3 [1 0 0] [0 1 0] [0 0 1] count con Z4", ["--budget", "2"]),
]

# Scripts whose output may be another at each run with more than one worker.
VARYING = [
    (MEET + "close M 2 [0 1] [1 0]", []),
    (MEET + "cert close M 2 [0 1] [1 0]", []),
    (MEET + "member M 2 [0 1] [1 0] = [0 0] member M 2 [0 1] [1 0] = [1 1]", []),
    (MEET + "cert member M 2 [0 1] [1 0] = [0 0] cert member M 2 [0 1] [1 0] = [1 1]", []),
    (GROUPS + "free Z2 2", []),
    (GROUPS + "hom Z2 Z4 [1] [1]", []),
    (LATTICE + "central L |0 1| |0 1| |0|1|", []),
    (GROUPS + "cond Z2 maltsev cond Z2 minority", []),
    (LATTICE + "cond L majority cond L pixley", []),
    (GROUPS + "cert cond Z2 maltsev cert cond Z2 majority", []),
    (LATTICE + "nu L 3 cert nu L 3", []),
    (MEET + "condition M 2 (x y) = y condition M 2 (x y) = y (y x) = y", []),
    (MEET + "clone M 2 term total [0 0 0 1] clone M 1 term partial [0 1]", []),
    (GROUPS + "clone Z2 1 polynomial total [1 0]", []),
    (LATTICE + "jonsson L cert jonsson L", []),
    (GROUPS + "jonsson Z2 hm Z2", []),
    (GROUPS + "cert hm Z2", []),
    (GROUPS + "day Z2", []),
    (MEET + "day M", []),
    (GROUPS + "close Z2 3 [1 0 0] [0 1 0] [0 0 1]", ["--budget", "2"]),
    ("", ["--generate", "0", "--budget", "20"]),
]


def commands():
    """The first words of the commands in the grammar, and those that the scripts have."""
    language = (HERE.parent / "docs/LANGUAGE.md").read_text(encoding="utf-8")
    grammar = re.search(r"^command = (.*?)^question = ", language, re.MULTILINE | re.DOTALL)[1]
    named = set(re.findall(r'^(?:        \| )?"([a-z]+)"', grammar, re.MULTILINE))
    tried = set(" ".join(script for script, _ in FIXED + VARYING).split())
    return named, tried


def library(folder):
    """Compiles the library that refuses memory."""
    made = pathlib.Path(folder) / "refuse.so"
    compiler = os.environ.get("CC", "cc")
    subprocess.run([compiler, "-O1", "-shared", "-fPIC", "-o", made, HERE / "refuse.c"], check=True)
    return str(made)


def run(command, script, preload, refused):
    """The status, the output, the line on standard error, and whether memory was refused."""
    reads, writes = os.pipe()
    environment = {**os.environ, "LD_PRELOAD": preload, "REFUSE": f"{refused[0]} {refused[1]} {writes}"}
    try:
        ended = subprocess.run(command, input=script.encode(), capture_output=True, check=False, env=environment,
                               pass_fds=(writes,), timeout=SECONDS)
    finally:
        os.close(writes)
        told = os.read(reads, 1)
        os.close(reads)
    return ended.returncode, ended.stdout, ended.stderr, bool(told)


def is_as_wanted(ended, whole):
    """Whether the run wrote all, or ended for want of memory with a beginning of it."""
    status, out, line, _ = ended
    if status == 6:
        return whole.startswith(out) and line == b"out of memory\n"
    return (status, out, line) == (0, whole, b"")


def sweep(command, script, preload, last_of):
    """Refuses each allocation in turn. How many runs ended for want of memory, and with the whole output."""
    whole = run(command, script, preload, (0, 0))
    if whole[0] != 0 or whole[2] or whole[3]:
        sys.exit(f"{command}: {script!r}: {whole}")
    short, full = 0, 0
    for first in range(1, LAST):
        ended = run(command, script, preload, (first, last_of(first)))
        if not is_as_wanted(ended, whole[1]):
            refused = f"refused {first} to {last_of(first)}"
            sys.exit(f"{command}: {script!r}: {refused}: {ended}, not {whole}")
        if not ended[3]:
            return short, full
        short, full = short + (ended[0] == 6), full + (ended[0] == 0)
    return short, full


def main():
    if len(sys.argv) != 2:
        sys.exit(__doc__)
    named, tried = commands()
    if not named <= tried:
        sys.exit(f"no script for {named - tried}")
    cases = [("1", case) for case in FIXED + VARYING] + [("4", case) for case in FIXED]
    ways = [("one refused", lambda first: first), ("all from one on", lambda _: LAST)]
    with tempfile.TemporaryDirectory() as folder:
        preload = library(folder)
        for way, last_of in ways:
            for workers in ("1", "4"):
                counts = [
                    sweep([sys.argv[1], "--workers", workers, *words], script, preload, last_of)
                    for number, (script, words) in cases if number == workers
                ]
                short, full = map(sum, zip(*counts))
                print(f"{way}, workers {workers}: {len(counts)} scripts, {short + full} runs, "
                      f"{short} out of memory, {full} with the whole output", flush=True)


if __name__ == "__main__":
    main()
