#!/usr/bin/env python3
"""run.py [OPTIONS] [FILE..] -- COMMAND: asks a program questions, and compares its answers with what the cases say.

The program reads a question a line, and writes an answer a line. A set of questions is a module ask_SET.py beside this one: `plain`, which any
implementation can answer (README.md), or the name of a program of this repository that answers more. Without files all of the set's are asked.
Answers that differ are told in one of these forms. If none is named, a terminal has a summary, and a file lines:

    --summary   by what is wrong, worst first, each with one example and its bytes
    --lines     a line for each, in the order of the files
    --json      a line of JSON for each
    --names     their names alone
    --junit     as JUnit has it, in XML

    --case NAME    asks this case alone: its name, or what a report calls it
    --known FILE   what is named there, a name a line, is no fault
    --ask SET      asks another set than `plain`

A program that ends early, or gives no answer for ten seconds, is started again at the next question. The exit status
is 1 if that happens, or if an answer differs that is neither known nor of a case marked `choice`.
"""

import argparse
import collections
import concurrent.futures as futures
import importlib
import os
import pathlib
import subprocess
import sys

sys.dont_write_bytecode = True

from read_cases import DATA, choices, read_cases  # noqa: E402

# The answer of a program that does not know a question.
UNKNOWN = "?"
MOST_SHOWN = 300
# How long a program may take for an answer to `plain`, in seconds, and how often it may end early.
SECONDS = 10
MOST_ENDS = 20
# The questions of `plain`, as export.py keeps them in an archive.
KEPT = DATA.parent / "cases.jsonl"
FORMS = ("summary", "lines", "json", "names", "junit")

Asked = collections.namedtuple("Asked", "file name questions is_choice")
# An answer to a question of a case, and which is wanted: None if it is not compared. There is none if the program ended.
Answered = collections.namedtuple("Answered", "case question answer wanted")
# How many answers there are, agree and are not compared; those that differ; how the program ended early, and how many
# questions are left then.
Outcome = collections.namedtuple("Outcome", "count agree skipped differing ends left")


def asked_of(name, paths=()):
    """What the set of this name asks of each case of the files."""
    files = importlib.import_module(f"ask_{name}").FILES
    for path in paths or [DATA / file for file in files]:
        chosen = choices(path)
        for case in read_cases(path):
            yield Asked(path.name, case[0], [*files[path.name](case, path.parent)], case[0] in chosen)


def lines_of(asked):
    return "".join(f"{question.words}\n" for it in asked for question in it.questions)


def shown(text):
    return text if len(text) <= MOST_SHOWN else f"{text[:MOST_SHOWN]}.. ({len(text)} characters)"


def answered(asked, answers):
    """Each question that has an answer, with it. The answers come in the order of the questions, and are None where the
    program ended."""
    answers = iter(answers)
    for it in asked:
        found = {}
        for question, answer in zip(it.questions, answers):
            found[question.engine] = answer or ""
            wanted = question.wanted
            if answer is None:
                wanted = getattr(wanted, "right", "")
            yield Answered(it, question, answer, wanted(found) if callable(wanted) else wanted)


def difference(it):
    """A line for an answer that is another than is wanted, or None."""
    if it.wanted in (None, it.answer):
        return None
    start = f"{it.case.file} {it.case.name} {it.question.engine}"
    if it.answer is None:
        return f"{start}: no answer to `{shown(it.question.words)}`"
    return f"{start}: wanted {shown(it.wanted)}, found {shown(it.answer)}"


def differences(asked, answers):
    """A line for each answer that is another than is wanted, or that is missing after these."""
    return (line for line in map(difference, answered(asked, [*answers, None])) if line)


def output_of(command, text, **how):
    """The lines that the program writes, and how it ended: None if it was too slow."""
    try:
        ran = subprocess.run(command, input=text, stdout=subprocess.PIPE, text=True, errors="replace", **how)
        return ran.stdout.split("\n")[:-1], ran.returncode
    except subprocess.TimeoutExpired as it:
        return (it.stdout or b"").decode(errors="replace").split("\n")[:-1], None


def answers_of(command, asked, **how):
    """Each question with what the program answers, and how it ended early each time. It is started again then, unless
    it has answered nothing at all."""
    lines, answers, ends = lines_of(asked).splitlines(True), [], []
    while len(answers) < len(lines) and len(ends) < MOST_ENDS and answers[:1] != [None]:
        said, status = output_of(command, "".join(lines[len(answers) :]), **how)
        answers += said
        if status or len(answers) < len(lines) and (status == 0 or not said):
            ends.append("no answer in time" if status is None else f"the program ended with status {status}")
            answers.append(None)
    return answered(asked, answers), ends


def ask(command, asked, **how):
    said, ends = answers_of(command, asked, **how)
    said = [*said]
    differing = [it for it in said if difference(it)]
    skipped = sum(it.wanted is None for it in said)
    count = sum(it.answer not in (None, UNKNOWN) for it in said)
    left = sum(len(it.questions) for it in asked) - len(said)
    return Outcome(count, len(said) - skipped - len(differing), skipped, differing, ends, left)


def ask_side_by_side(command, asked, **how):
    """The same, of as many processes as there are processors."""
    jobs = len(os.sched_getaffinity(0))
    with futures.ThreadPoolExecutor(jobs) as pool:
        shares = [*pool.map(lambda n: ask(command, asked[n::jobs], **how), range(jobs))]
    return Outcome(*(sum(parts[1:], parts[0]) for parts in zip(*shares)))


def options(words):
    parser = argparse.ArgumentParser(usage=__doc__.replace("%", "%%"), add_help=False)
    for form in FORMS:
        parser.add_argument(f"--{form}", dest="form", action="store_const", const=form)
    parser.set_defaults(form="summary" if sys.stdout.isatty() else "lines")
    parser.add_argument("--ask", default="plain")
    parser.add_argument("--case")
    parser.add_argument("--known", type=pathlib.Path)
    parser.add_argument("files", nargs="*", type=pathlib.Path)
    return parser.parse_args(words)


def main(*words):
    if "--" not in words or not words[words.index("--") + 1 :]:
        print(__doc__, file=sys.stderr)
        return 2
    at = words.index("--")
    told, command = options(words[:at]), words[at + 1 :]
    import report

    is_kept = told.ask == "plain" and KEPT.exists() and not told.files
    asked = [*(report.kept(KEPT) if is_kept else asked_of(told.ask, told.files))]
    asked = [it for it in asked if it.questions and (not told.case or report.is_named(it, told.case))]
    if not asked:
        sys.exit(f"there is no case {told.case}")
    known = set(told.known.read_text().split("\n")) if told.known else set()
    is_plain = told.ask == "plain"
    outcome = ask_side_by_side(command, asked, timeout=SECONDS if is_plain else None)
    told_of = report.FORMS[told.form](outcome, known, len(asked), is_plain)
    print(*told_of, sep="\n")
    return 1 if report.faults(outcome, known) or outcome.ends else 0


if __name__ == "__main__":
    sys.exit(main(*sys.argv[1:]))
