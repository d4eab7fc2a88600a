"""The program as a calculator: a method for each command, and answers as objects."""

from __future__ import annotations

import os
from typing import Any, List, NoReturn, Optional, Set, Tuple, Union

from .commands import Command
from .faults import CommandError, InputFault, ReplyFault, TimeLimit, UacalcError
from .limits import BUDGET, DEFAULT_BUDGET, JOBS, WORKERS
from .process import Process, find_program
from .progress import Progress
from .questions import Questions
from .replies import Answer, Replies
from .script import Script
from .tokens import latin


def bounded(value: int, what: str, high: int) -> int:
    """An option's number."""
    if type(value) is not int or not 1 <= value <= high:
        raise InputFault(f"{what} are {value!r}, and 1 to {high} are possible")
    return value


def separated(script: Script) -> Tuple[Script, Set[int]]:
    """The script with a question more after each `series` whose reply might run on into the next, and their numbers."""
    asked = Script()
    asked._version = script.version
    extra: Set[int] = set()
    count = 0
    previous: Optional[Command] = None
    for item in script.items:
        if isinstance(item, Command):
            if previous is not None and previous.word == "series" and item.word in ("cg", "comm"):
                asked.put(Command.made("sub", (previous.values[0], ())))
                extra.add(count)
                count += 1
            previous = item
            count += 1
        asked.put(item)
    return asked, extra


class Calculator(Questions):
    """The program, with its options.

    `program` is its path; where it is not given, the variable UACALC of the environment names it, or `uacalc` on the path
    or the one built in this repository is taken. `workers`, 1 to 16, share the work of one question; with one the same
    question always gets the same answer, byte by byte. `budget`, 1 to 1,000,000, is up to how many members of a closure,
    or congruences, an answer is exact. `jobs`, 1 to 16, with workers times jobs at most 16, are how many questions of a
    script are answered side by side. `seconds` is the time after which the process is ended.

    Each method asks one question in a process of its own. It raises `CommandError` where the question cannot be answered
    as it stands, `TimeLimit`, and `ProgramError` or `ReplyFault` where the program does not run as it should. For many
    questions, `run` answers a whole script in one process.
    """

    def __init__(
        self,
        program: Union[str, "os.PathLike[str]", None] = None,
        workers: int = 1,
        budget: int = DEFAULT_BUDGET,
        jobs: int = 1,
        seconds: Optional[float] = None,
    ):
        self.program = find_program(program)
        self.workers = bounded(workers, "workers", WORKERS)
        self.budget = bounded(budget, "a budget", BUDGET)
        self.jobs = bounded(jobs, "jobs", JOBS)
        bounded(workers * jobs, "workers times jobs", WORKERS)
        self.seconds = seconds

    def _words(self) -> List[str]:
        options = (("--workers", self.workers), ("--budget", self.budget), ("--jobs", self.jobs))
        return [self.program, *(word for option, number in options for word in (option, str(number)))]

    def run(self, script: Script, errors: str = "raise", progress: bool = True) -> List[Answer]:
        """The answers to the questions of a script, in their order, from one process.

        With `errors="keep"` a `CommandError` stands in the place of the answer; else the first is raised. With
        `progress` a bar is drawn on standard error while the answers come, at a terminal alone. Raises `TimeLimit`, with
        the answers that were whole by then, `ProgramError` and `ReplyFault`; never is a half answer among others.
        """
        asked, extra = separated(script)
        return self._run(asked, asked.text(), extra, errors, progress)

    def _run(self, asked: Script, text: str, extra: Set[int], errors: str, progress: bool) -> List[Answer]:
        """The answers to a script with this text, without the extra ones."""
        if errors not in ("raise", "keep"):
            raise InputFault("errors are to be raised or to be kept")
        process = Process(self._words(), text.encode("latin-1"), self.seconds)
        found: List[Answer] = []
        bar = Progress(len(asked) - len(extra)) if progress else None
        try:
            for number, answer in enumerate(Replies(asked, process.lines(), text, self.budget)):
                if isinstance(answer, CommandError) and errors == "raise":
                    raise answer
                if number not in extra:
                    found.append(answer)
                    if bar is not None:
                        bar.step()
            process.end()
        except UacalcError as error:
            self._explain(process, error, found)
        finally:
            process.kill()
            if bar is not None:
                bar.close()
        return found

    def _explain(self, process: Process, error: UacalcError, found: List[Answer]) -> NoReturn:
        """Raises what ended a run: the end of its time, else that of the program, else the error itself."""
        if process.is_over_time:
            raise TimeLimit(self.seconds or 0, found) from None
        if isinstance(error, ReplyFault) and process.has_failed():
            process.end()
        raise error

    def answers_to(self, text: Union[str, bytes], errors: str = "keep", progress: bool = True) -> List[Answer]:
        """The answers to the commands of a script that is written, as `run` tells them; `ScriptFault` where it is none.

        Places are those of the text. Where a `series` with `cg` or `comm` after it exceeds the budget, which partitions
        are its own cannot be told, and `ReplyFault` is raised.
        """
        return self._run(Script.parse(text), latin(text), set(), errors, progress)

    def ask(self, word: str, *values: Any, cert: bool = False) -> Answer:
        """The answer to one question, as `Script.ask` puts it."""
        script = Script()
        script.ask(word, *values, cert=cert)
        return self.run(script, progress=False)[0]
