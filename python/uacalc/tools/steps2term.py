"""Turns the steps of replies into terms: steps2term [--script FILE] [--step I] [--limit N] [--variables K] < REPLIES

With --script the input is all replies to that script, and each term that is told by steps comes on a line of its own, in
their order: of `yes`, of chains, of the matrix of `central` and of the clash of `hom`.

Without --script the input is the steps alone, or one reply `yes N` or `chain M` with its steps, and lines around it are
passed over. Several such replies are refused, since lines of other replies might be taken for them.

Generator I is written as the variable xI; in a polynomial in K variables, of a reply to `clone`, generator K + C is written
as the element C. A script tells K itself.
"""

from __future__ import annotations

import re
from argparse import Namespace
from typing import Any, List, Tuple

from ..answers import Chain, Clash, NotCentral, Yes
from ..faults import InputFault, Place
from ..reply_lines import Lines, Scope, counted, read_steps
from ..terms import LONGEST, Steps
from .common import add_script_option, answered, parser_of, read_input, write_output

HEAD = re.compile(rb"(yes|chain) ([0-9]{1,9})")
WITHOUT = (b"no", b"exceeds", b"error")


def steps_of(answer: Any) -> Tuple[Steps, ...]:
    """The steps that an answer has."""
    if isinstance(answer, Chain):
        return answer.terms
    if isinstance(answer, Clash):
        return answer.steps
    return (answer.steps,) if isinstance(answer, (Yes, NotCentral)) else ()


def steps_alone(replies: bytes, options: Namespace) -> List[Steps]:
    """The steps of the one reply in a text that has some, or of the text itself."""
    lines = [line.rstrip() + b"\n" for line in replies.splitlines()]
    heads = [place for place, line in enumerate(lines) if HEAD.fullmatch(line.rstrip())]
    scope = Scope(None)
    if len(heads) > 1:
        raise InputFault("several replies have steps: --script tells them apart", Place(heads[1] + 1, 1))
    if not heads:
        steps = [line for line in lines if line.strip()]
        if steps and steps[0].split()[0] in WITHOUT:
            raise InputFault(f"a reply `{steps[0].split()[0].decode()}` has no steps", Place(1, 1))
        return [read_steps(Lines(lines), scope, len(steps), None, options.variables)]
    reader = Lines(lines)
    for _ in range(heads[0]):
        reader.take("a line")
    word, number = reader.take("`yes N`").split(" ")
    if word == "yes":
        return [read_steps(reader, scope, int(number), None, options.variables)]
    if options.step is not None:
        raise InputFault("a chain has the steps of several terms", "--step")
    counts = range(int(number) + 1)
    return [read_steps(reader, scope, counted(reader, f"term {term} steps"), None) for term in counts]


def written(steps: Steps, options: Namespace) -> str:
    """The term of a step."""
    step = len(steps) - 1 if options.step is None else options.step
    if not 0 <= step < len(steps):
        raise InputFault(f"there is no step {step}: the last is {len(steps) - 1}", "--step")
    term = steps.term(step)
    if term.length() > options.limit:
        raise InputFault(f"the term has more than {options.limit} characters", "--limit")
    return term.text(options.limit) + "\n"


def run(words: List[str]) -> int:
    """Runs the tool, and answers its status."""
    parser = parser_of("steps2term", __doc__)
    add_script_option(parser)
    parser.add_argument("--step", type=int, help="the step whose term is printed, in place of the last")
    parser.add_argument("--limit", type=int, default=LONGEST, help=f"characters at most (else {LONGEST})")
    parser.add_argument("--variables", type=int, help="of a polynomial: generators from here on are elements")
    options = parser.parse_args(words)
    if options.variables is not None and options.variables < 0:
        raise InputFault("a polynomial has no fewer than 0 variables", "--variables")
    replies = read_input()
    if options.script:
        found = [steps for _, _, answer in answered(options.script, replies) for steps in steps_of(answer)]
        if options.step is not None and len(found) != 1:
            raise InputFault(f"the replies have {len(found)} terms", "--step")
    else:
        found = steps_alone(replies, options)
    write_output("".join(written(steps, options) for steps in found))
    return 0
