"""Cases: questions to the built program, each with what it is to answer.

A file `cases/NAME.cases` has sections, each begun by a line `== TITLE`. Settings stand before the first section, for all
of them, and at the beginning of each, for that one:

    version 1           the script as it stands, without a line `version`; `version 2` puts that line before it. Without this
                        setting a case is tried plain and with `version 1` and `version 2` on its first line
    workers 1 2 16      the numbers of workers, each tried; these where nothing is said
    jobs 1 2 16         the numbers of jobs, each tried; without this setting the option is not given
    words --budget 3    other words for the program
    blocks groups       what stands before each command, `cases/groups.ua`; or `blocks` alone, and the text in lines below

Then comes a line that tells what the lines below it are:

    cases               `COMMAND => REPLY`, and the other lines of the reply below it
    words               `WORDS => REPLY`: the words for the program, which reads the blocks
    unread words        the same, where nothing is read: reading would fail
    refused words       words that are none, so that nothing is read and the status is 2
    faults              `TEXT => LINE:COLUMN KIND`: a text that is no script
    certificates        `NAME: QUESTION`: what is answered is a certificate, valid on the algebra NAME

A `~` in a question stands for a new line. In a reply `..` stands for anything, and a line `*` for any one line. What several
runs of one case with one worker write is the same, whatever the version and the number of jobs.

Scripts that are too long for a file are made here (`made`).
"""

import concurrent.futures
import dataclasses
import itertools
import os
import pathlib
import re
import shlex
import subprocess
import textwrap

FOLDER = pathlib.Path(__file__).resolve().parent / "cases"
KINDS = ("cases", "words", "unread words", "refused words", "faults", "certificates")
FRONTS = {"1": [""], "2": ["version 2\n"], "both": ["", "version 1 ", "version 2 "]}
# The words that a reply begins with, and no later line of it; docs/USAGE.md lists them.
FIRST = set("""closed exceeds yes no chain congruences types series ones central holds fails value map clash valid flaw cert
algebra error""".split())
COMMANDS = set("""close member free sub ones hom eval holds cg con central comm series types cond nu jonsson hm day condition
clone make check""".split())
USAGE = "usage: uacalc [--workers 1..16] [--budget 1..1000000] [--jobs 1..16] [--generate NUMBER]\n"


@dataclasses.dataclass(frozen=True)
class Section:
    """Questions of one kind, with the settings they are tried under."""

    title: str
    kind: str
    settings: dict
    lines: list

    def fronts(self):
        return FRONTS[self.settings.get("version", "both")]

    def options(self):
        """The words of each run: all numbers of workers, with all numbers of jobs."""
        words = self.settings.get("words", "").split()
        for workers in self.settings.get("workers", "1 2 16").split():
            for jobs in self.settings.get("jobs", "").split() or [None]:
                yield [*words, f"--workers={workers}", *([] if jobs is None else [f"--jobs={jobs}"])]


def below(lines, start):
    """The lines from here on that are indented, without what indents all of them, and where they end."""
    end = start
    while end < len(lines) and (not lines[end] or lines[end][0] == " "):
        end += 1
    return textwrap.dedent("\n".join(lines[start:end])).strip().splitlines(), end


def sections(file):
    """The sections of a file of cases."""
    lines = file.read_text(encoding="utf-8").splitlines()
    common, settings, title, at = {}, {}, "", 0
    while at < len(lines):
        line, at = lines[at], at + 1
        if line.startswith("== "):
            title, settings = line[3:], dict(common)
        elif line in KINDS:
            questions, at = below(lines, at)
            yield Section(f"{file.stem}, {title}", line, settings, questions)
        elif line and not line.startswith("#"):
            key, _, value = line.partition(" ")
            if key not in ("version", "workers", "jobs", "words", "blocks"):
                raise SystemExit(f"{file.name}: no setting: {line}")
            if key == "blocks" and value:
                value = (FOLDER / f"{value}.ua").read_text(encoding="utf-8")
            elif key == "blocks":
                block, at = below(lines, at)
                value = "\n".join(block) + "\n"
            (settings if title else common)[key] = value


def pairs(lines):
    """Each question with its reply, whose first line stands behind the arrow and the others below it."""
    found = []
    for line in lines:
        question, arrow, first = line.partition("=>")
        if arrow:
            found.append((question.strip().replace("~", "\n"), [first.strip()]))
        else:
            found[-1][1].append(line.strip())
    return [(question, "".join(f"{line}\n" for line in reply if line)) for question, reply in found]


def pattern(reply):
    """What a reply is to match."""
    lines = [".*" if line == "*" else re.escape(line).replace(r"\.\.", "(?s:.*)") for line in reply.splitlines()]
    return re.compile("".join(f"{line}\n" for line in lines))


def run(program, words, script):
    """What the program writes, says on standard error and ends with; where the script is None, reading fails."""
    source = {"input": script.encode()} if script is not None else {"stdin": os.open(FOLDER, os.O_RDONLY)}
    try:
        done = subprocess.run([program, *words], capture_output=True, check=False, **source)
    finally:
        if script is None:
            os.close(source["stdin"])
    return done.stdout.decode(), done.stderr.decode(), done.returncode


def answers(program, section, question, reply):
    """Whether a command is answered so behind each front, after all options."""
    alone = set()
    for words in section.options():
        for front in section.fronts():
            found, said, status = run(program, words, front + section.settings.get("blocks", "") + question + "\n")
            if (said, status) != ("", 0) or not pattern(reply).fullmatch(found):
                return f"{' '.join(words)}: {found}{said}"
            if "--workers=1" in words:
                alone.add(found)
    return "several replies of one worker" if len(alone) > 1 else None


def answers_words(program, section, words, reply):
    """Whether the blocks, or nothing, are answered so after these words."""
    script = section.settings["blocks"] if section.kind == "words" else None
    found, said, status = run(program, words.split(), script)
    return None if (said, status) == ("", 0) and pattern(reply).fullmatch(found) else found + said


def refuses_words(program, _, words, __):
    """Whether these words are refused, with nothing read."""
    found = run(program, shlex.split(words), None)
    return None if found == ("", USAGE, 2) else f"{found}"


def refuses(program, section, text, fault):
    """Whether a text is refused at this place, one line further down behind a line of its own."""
    line, _, rest = fault.partition(":")
    for front in section.fronts()[:1] if section.settings.get("version") else ["", "version 2\n"]:
        wanted = f"syntax {int(line) + front.count(chr(10))}:{rest}"
        found = run(program, [], front + text)
        if found != ("", wanted, 5):
            return f"{found}"
    return None


def certifies(program, section, question, _):
    """Whether what answers a question is valid on the algebra that is named before it, by one worker and by many."""
    name, _, question = question.partition(": ")
    blocks = section.settings["blocks"]
    for words in section.options():
        certificate = run(program, words, blocks + question)[0]
        found = run(program, words, f"{blocks}check {name} {certificate}")
        if found != ("valid\n", "", 0):
            return f"{' '.join(words)}: {certificate}{found}"
    return None


TRIALS = {
    "cases": answers,
    "words": answers_words,
    "unread words": answers_words,
    "refused words": refuses_words,
    "faults": refuses,
    "certificates": certifies,
}


def section_of(title, blocks):
    """A section of cases that are made here, tried with one worker."""
    return Section(title, "cases", {"blocks": blocks, "workers": "1", "version": "2"}, [])


def tables():
    """Whether operations are those of terms or polynomials. By sums modulo 2, those of three variables are the sums of some,
    and these and their complements. The Boolean algebra has all, of which every eighth is asked, and so has the greatest
    of two and the next element on three elements (E. L. Post, Introduction to a general theory of elementary propositions)."""
    sums = section_of("sums", "algebra S size 2 op plus 2 = 0 1 1 0 end\n")
    boolean = section_of("Boolean", "algebra B size 2 op and 2 = 0 0 0 1 op or 2 = 0 1 1 1 op not 1 = 1 0 end\n")
    post = section_of("Post", "algebra P size 3 op max 2 = 0 1 2 1 1 2 2 2 2 op next 1 = 1 2 0 end\n")
    odd = [tuple(bin(place & chosen).count("1") % 2 for place in range(8)) for chosen in range(8)]
    for values in itertools.product((0, 1), repeat=8):
        total = f"total [{' '.join(map(str, values))}]"
        is_sum, is_affine = values in odd, values in odd or tuple(1 - value for value in values) in odd
        yield sums, f"clone S 3 term {total}", "yes ..\n" if is_sum else "no ..\n"
        yield sums, f"clone S 3 polynomial {total}", "yes ..\n" if is_affine else "no ..\n"
        if values[:3] == (1, 0, 1):
            yield boolean, f"clone B 3 term {total}", "yes ..\n"
            yield boolean, f"clone B 3 polynomial {total}", "yes ..\n"
    for values in itertools.product((0, 1, 2), repeat=3):
        yield post, f"clone P 1 term total [{' '.join(map(str, values))}]", "yes ..\n"


def too_many():
    """Faults of texts that are too long for a file: a 65th parenthesis, and a 65th operation."""
    section = Section("one too many", "faults", {"version": "1"}, [])
    yield section, f"eval M {'f(' * 65}x0{')' * 65} []", "1:137 term\n"
    operations = "".join(f"\nop f{number:02} 0 = 1" for number in range(65))
    yield section, f"algebra M size 2{operations}", "66:1 word\n"


def trials():
    """Each question of each file, and of those made here: its section, the question and its reply."""
    yield from tables()
    yield from too_many()
    for file in sorted(FOLDER.glob("*.cases")):
        for section in sections(file):
            has_replies = section.kind not in ("refused words", "certificates")
            for question, reply in pairs(section.lines) if has_replies else [(line, "") for line in section.lines]:
                yield section, question, reply


def batches():
    """Commands on vectors of different lengths: as many as are answered together, fewer, and one more."""
    for count in (0, 1, 2, 63, 64, 65, 130):
        widths = [number % 7 for number in range(count)]
        commands = "".join(f"close M {width} count\n" for width in widths)
        replies = (f"error range {line}:9\n" if width == 0 else "closed 0\n" for line, width in enumerate(widths, 4))
        yield commands, "".join(replies)


def item(number):
    """A block, what is made of blocks before it or after it, or a command on one of them."""
    block, size = number * 7 % 77 * 13, number % 5 + 1
    return {
        0: f"algebra A{number} size {size} op f 0 = 0 end\n",
        4: f"make A{number} product A{block} A{block}\n",
        7: f"sub A{block} [{size}]\n",
        9: f"ones A{block}\n",
        11: f"ones A{max(number - 7, 0)}\n",
    }.get(number % 13, f"close A{block} 1 [{size}] count\n")


def made():
    """What each is called, its script, the words of its runs and its reply; where that is None, all runs are alike, and
    write something."""
    semilattice = (FOLDER / "semilattice.ua").read_text(encoding="utf-8")
    jobs = [["--workers=1"], ["--workers=1", "--jobs=2"], ["--workers=1", "--jobs=16"]]
    for commands, replies in batches():
        yield f"{commands.count('close')} commands", semilattice + commands, jobs, replies
    yield "a thousand items", "".join(map(item, range(1000))), jobs, None
    operations = "".join(f" op c{number} 0 = {number}" for number in range(64))
    yield "64 operations", f"algebra A size 64{operations} end eval A c63 []", [[]], "value 63\n"
    values = "".join(f" {(number + 1) % 65}" for number in range(65))
    term = "next(" * 64 + "x0" + ")" * 64
    yield "64 parentheses", f"algebra A size 65 op next 1 ={values} end eval A {term} [1]", [[]], "value 0\n"
    names = [f"the_longest_name_of_element_{number}" for number in range(1000, 2000)]
    block = f"version 2 algebra L size 1000 names ({' '.join(names)}) end "
    for name in (names[0], names[500], names[999]):
        yield name, f"{block}eval L x0 [{name}]", [[]], f"value {name}\n"
    zeros = [f"algebra Z{size} size {size} op f 4 ={' 0' * size**4} end\n" for size in (4, 5, 8, 9)]
    product = f"algebra P size 20\nop f 4 ={' 0' * 20**4}\nend\n"
    yield "a product with many values", f"{''.join(zeros)}make P product Z5 Z4", [[]], product
    yield "a product with too many values", f"{''.join(zeros)}make P product Z9 Z8", [[]], "error size 5:1\n"
    yield "other blanks", "close\tM\r\n2\r\n", [[]], "error unknown 1:7\n"
    yield "the longest script", " " * 2**24, [[]], ""


def answers_made(program, _, script, words, reply):
    """Whether a script that is made here is answered so."""
    found = {run(program, options, script) for options in words}
    (out, said, status), *others = found
    if others or (said, status) != ("", 0) or (not out if reply is None else out != reply):
        return f"{len(found)} replies, one of which is {out}{said}"
    return None


def begins_once(section, question, reply):
    """Whether the first line of a reply to a single command, and no other, begins with a word of first lines."""
    first, *others = [line for line in reply.splitlines() if line not in ("..", "*")] or [""]
    words = question.split()
    if section.kind != "cases" or sum(word in COMMANDS for word in words) != 1 or not first:
        return True
    is_first = first.split()[0] in FIRST or first[0] in "|{"
    return is_first and not any(line.split()[0] in FIRST for line in others)


def tried(program, trial):
    """The title of a trial, and how it goes wrong, or None."""
    if isinstance(trial[0], Section):
        section, question, _ = trial
        wrong = None if begins_once(*trial) else "its first word is not that of a first line alone"
        return f"{section.title}: {question}", wrong or TRIALS[section.kind](program, *trial)
    return trial[0], answers_made(program, *trial)


def try_all(program):
    """Tries all cases, as many at a time as there are processors, and tells those that are answered otherwise. Gives how
    many are answered as they should be, and how many are not."""
    asked = [*trials(), *made()]
    with concurrent.futures.ThreadPoolExecutor(os.cpu_count()) as pool:
        found = list(pool.map(lambda trial: tried(program, trial), asked))
    wrong = [(title, how) for title, how in found if how is not None]
    for title, how in wrong:
        print(f"{title}\n{textwrap.indent(how[:2000], '  ')}")
    return len(asked) - len(wrong), len(wrong)
