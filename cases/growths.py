"""What is asked with each growth of memory refused in turn (`refused QUESTION`), and the answers that are wanted.

An answer has how many growths the call asked for; what is answered with each of them refused, of equal answers after one another one; and after `then`
what is answered with none.
"""

import re

from questions import FAULTS, Question, hexed
from read_cases import read_parts
from streams import runs_of

OUT_OF_MEMORY = "out of memory"
# Words of questions on what is changed by calls: if memory runs out the same call is made again, and goes on as if nothing had been.
AGAIN = {"value-written", "encode-into", "by=validated", "cut-lines", "client-end", "server-end", "client-machine", "server-machine", "found"}
# Words of questions whose answers have the texts of errors where a column has their names.
SAYING_FAULTS = {"made", "spelled", "text-parse", "value-written"}
# What a column of numbers of growths has: a number, the least or the greatest.
COUNT = re.compile(r"(?P<least>\d*)(?P<range>\.\.)?(?P<most>\d*)")
# Longer questions are not asked so: each takes a run for each growth.
LONGEST = 3000


def growths_of(answer):
    """How many growths an answer says, or -1 if it says none."""
    count = answer.partition(" ")[0]
    return int(count) if count.isdigit() else -1


def is_usual(told, usual):
    """Whether this is the usual answer of calls that were made again, and may say where memory ran out. Of places that follow one another it may say the
    same apart."""
    told = told.replace(f"{OUT_OF_MEMORY} ", "")
    return told == usual or (", " in told and runs_of(run.split(" ", 1) for run in told.split(", ")) == usual)


def says_and_goes_on(told, usual):
    """Whether this says that memory ran out, and is the usual answer then."""
    return OUT_OF_MEMORY in told and is_usual(told, usual)


def is_refused(told, usual):
    """Whether this says that memory ran out, and nothing else."""
    return told == OUT_OF_MEMORY


def each_told(told, usual):
    """What is answered with one growth or another refused. A usual answer may have commas, if it has answers at places: those of another growth begin at
    the first place again."""
    between = f", (?={usual.split(' ')[0]} )" if ", " in usual else ", "
    return re.split(between, told) if told else []


def ask_refused(engine, words, usual, is_right=says_and_goes_on, least=0, most=None):
    """Asks with each growth refused. If none is, the answer is the usual one, a text or the engine's answer before; else a function says of each answer
    whether it is right. There are so many growths at least and at most, which may be functions of the answers so far."""
    name = f"{engine}, refused memory"

    def wanted(answers):
        first, last = (bound(answers) if callable(bound) else bound for bound in (least, most))
        plain = answers[engine] if usual is None else usual
        count, answer = growths_of(answers[name]), answers[name].partition(" ")[2]
        told = each_told(answer.removesuffix(f"then {plain}").strip(), plain)
        is_told = answer.endswith(f"then {plain}") and bool(told) == (count > 0) and all(is_right(it, plain) for it in told)
        if is_told and first <= count and (last is None or count <= last):
            return answers[name]
        return f"{first} growths or more, and at most {last}, each told, then {plain}"

    return Question(name, f"refused {words}", wanted)


def refused(question, counts=".."):
    """A question with each growth refused in turn, after the question itself: how many there may be is a column's."""
    engine, words, _ = question
    said = COUNT.fullmatch(counts)
    least = int(said["least"] or 0)
    most = int(said["most"]) if said["most"] else None if said["range"] else least
    goes_on = not AGAIN.isdisjoint(words.split(" "))
    return ask_refused(engine, words, None, is_usual if goes_on else is_refused, least, most)


def with_growths(questions, kinds):
    """The questions, and after each short one of these kinds the same with its growths refused."""
    for question in questions:
        yield question
        if question.words.split(" ")[0] in kinds and len(question.words) <= LONGEST:
            yield refused(question)


def spelled(column, folder):
    """Words in which each `<..>` stands for hexadecimal digits of bytes."""
    return re.sub(r"<(.*?)>", lambda it: hexed(read_parts(it[1], folder)), column)


def told(answer):
    """An answer with the texts of errors for the words of a column: of values as FAULTS has them, and of the types of a signature."""
    answer = re.sub("|".join(rf"\b{name}\b" for name in FAULTS), lambda it: FAULTS[it[0]], answer)
    answer = re.sub(r"\bbad (\d+)", r"no signature: it breaks at offset \1", answer)
    return answer.replace("too long", "the signature has more than 255 bytes")


def ask_made(case, folder):
    """A question, how many growths it takes, and its answer."""
    _, words, counts, answer = case
    answer = told(answer) if words.split(" ")[0] in SAYING_FAULTS else answer
    question = Question("asked", spelled(words, folder), spelled(answer, folder))
    yield question
    if counts:
        yield refused(question, counts)
