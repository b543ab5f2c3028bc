"""How run.py tells what differs, and the lines of JSON that keep the questions of `plain` in an archive."""

import collections
import functools
import itertools
import json
import re
import sys
from html import escape

from ask_plain import FILES, VERDICTS, FirstWords, SameBody, body_of, not_compared
from questions import Question
from read_cases import DATA
from run import Answered, Asked, asked_of, difference, shown

RULES = DATA.parent / "rules.json"
# How many bytes are shown on both sides of a fault's place.
AROUND = 24
# What is mended first comes first: it loses right messages, or those behind them.
ORDER = (
    STOPS := "gives no answer",
    REFUSES := "refuses what is right",
    WAITS := "waits for more of what is refused",
    CHANGES := "encodes another body",
    TAKES := "takes what is refused",
    OTHERWISE := "answers otherwise",
)
# How many groups a summary shows an example of, and how many characters it has for each other.
SHOWN, WIDTH = 4, 56
BY_HEX = ("text", "line")


def sections_of(name):
    """The sections of the D-Bus Specification that the comment at a file's head names."""
    head = re.match(r"(#.*\n)+", (DATA / name).read_text())[0].replace("\n# ", " ")
    named = re.search(r"D-Bus Specification,((?: and|,)? \"[^\"]+\")+", head)
    return re.findall(r'"([^"]+)"', named[0]) if named else []


@functools.cache
def rules():
    """The rule that each reason breaks, and its section: as an archive keeps them, or as the program explains them."""
    if RULES.exists():
        return json.loads(RULES.read_text())
    sys.path.insert(0, str(DATA.parent.parent / "bench"))
    import reasons

    return dict(reasons.rules())


def sections_for(it):
    """The sections of an answer's rule or, if there is none, of its file."""
    why = rule_of(it)
    return why[1:] if why else sections_of(it.case.file)


def rule_of(it):
    word, *rest = it.wanted.split(" ")
    return rules().get(rest[1], []) if word == "refused" else []


def name_of(it):
    return f"{it.case.file.removesuffix('.txt')}/{it.case.name}/{it.question.engine}"


def is_named(asked, name):
    """Whether a case has the name, or an answer to it is called so."""
    whole = f"{asked.file.removesuffix('.txt')}/{asked.name}"
    return name in (asked.name, whole) or name.startswith(f"{whole}/")


def lines():
    """A line of JSON for each question."""
    for name in FILES:
        for it in asked_of("plain", [DATA / name]):
            for question in it.questions:
                sections = sections_for(Answered(it, question, None, question.wanted.right))
                kind, *words = question.words.split(" ")
                case = {"name": f"{name.removesuffix('.txt')}/{it.name}/{question.engine}", "question": kind}
                hexed = [word for word in words if re.fullmatch("-|([0-9a-f]{2})+", word)]
                other = [word for word in words if word not in hexed]
                case["hex"] = hexed[-1].replace("-", "")
                case |= {"rule": hexed[0].replace("-", "")} if kind == "match" else {}
                case |= ({"with": other} if other else {}) | {"answer": question.wanted.right}
                case |= ({"sections": sections} if sections else {}) | ({"choice": True} if it.is_choice else {})
                yield json.dumps(case) + "\n"


def kept(path):
    """The cases of a file of such lines."""
    with open(path, encoding="utf-8") as file:
        records = map(json.loads, file)
        for (folder, name), found in itertools.groupby(records, lambda it: it["name"].split("/")[:2]):
            found = [*found]
            bodies = [body_of(bytes.fromhex(it["hex"])) for it in found if it["question"] == "again"]
            yield Asked(f"{folder}.txt", name, [question_of(it, bodies) for it in found], found[0].get("choice", False))


def question_of(record, bodies):
    engine, kind, other = record["name"].split("/")[2], record["question"], record.get("with", [])
    hexed = [record[it] or "-" for it in ("rule", "hex") if it in record]
    words = " ".join([kind, *(other + hexed if kind in BY_HEX else hexed + other)])
    if kind == "again":
        return Question(engine, words, SameBody(engine, bodies))
    answer = record["answer"]
    skipped = not_compared(bytes.fromhex(record["hex"]), answer) if kind == "message" else ()
    return Question(engine, words, FirstWords(engine, answer, skipped))


def is_fault(it, known):
    return not it.case.is_choice and name_of(it) not in known


def faults(outcome, known):
    return [it for it in outcome.differing if is_fault(it, known)]


def counts_of(outcome, known, cases, is_plain):
    chosen = sum(it.case.is_choice for it in outcome.differing)
    told = len(faults(outcome, known))
    if not is_plain:
        return f"{cases} cases, {outcome.count} questions, {len(outcome.differing)} differ"
    by = f"{told} differ, {chosen} by choice, {len(outcome.differing) - told - chosen} known"
    left = f", {outcome.left} not asked" if outcome.left else ""
    return f"{cases} cases: {outcome.agree} agree, {by}, {outcome.skipped} skipped{left}"


def in_lines(outcome, known, cases, is_plain):
    told = [it for it in outcome.differing if name_of(it) not in known]
    yield from (difference(it) + (" (choice)" if it.case.is_choice else "") for it in told)
    yield from (*outcome.ends, counts_of(outcome, known, cases, is_plain))


def names(outcome, known, *_):
    yield from map(name_of, faults(outcome, known))


def in_json(outcome, known, *_):
    for it in outcome.differing:
        what, why = kind_of(it)
        case = {"name": name_of(it), "what": what, "why": why, "sections": sections_for(it)}
        case |= {"question": it.question.words, "wanted": it.wanted, "found": it.answer}
        yield json.dumps(case | {"choice": it.case.is_choice, "known": name_of(it) in known})


def junit(outcome, known, cases, *_):
    told = faults(outcome, known)
    counts = f'tests="{outcome.agree + len(told)}" failures="{len(told)}" errors="{len(outcome.ends)}"'
    yield f'<testsuite name="dbus-cases" {counts}>'
    for it in told:
        yield f'<testcase classname="{it.case.file}" name="{name_of(it)}">'
        yield f'<failure message="{escape(difference(it))}"/></testcase>'
    yield from (f"<system-err>{it}</system-err>" for it in outcome.ends)
    yield "</testsuite>"


def verdict(answer):
    plain = answer.partition(":")[0].split(" ")[0]
    return next((it for it, words in VERDICTS.items() if plain == it or plain in words), "")


def kind_of(it):
    """What is wrong with an answer, and the reason, of the right answer or in the program's words."""
    kind, answer = it.question.words.split(" ")[0], it.answer
    if answer in (None, "aborted"):
        return STOPS, ""
    if kind == "again":
        return CHANGES, ""
    word, *rest = it.wanted.split(" ")
    why = rest[1] if word == "refused" else "the beginning of a message" if word == "partial" else f"{kind}: {word}"
    wanted, found = verdict(it.wanted), verdict(answer)
    if answer == "partial":
        return (REFUSES, "waits for more") if wanted == "yes" else (WAITS, why)
    if wanted == found or "" in (wanted, found):
        return OTHERWISE, why if wanted else kind
    return (REFUSES, re.sub(r"\d+", "N", answer.partition(":")[2].strip())) if wanted == "yes" else (TAKES, why)


def example(it):
    """The bytes of a question, with brackets where they are at fault."""
    kind, *words = it.question.words.split(" ")
    data = words[0] if kind not in BY_HEX else words[-1]
    place = re.match(r"refused (\d+)", it.wanted)
    at = 2 * min(int(place[1]) if place else 0, len(data) // 2)
    first, last = max(at - 2 * AROUND, 0), at + 2 * AROUND
    marked = f"{data[first:at]}[{data[at : at + 2]}]{data[at + 2 : last]}" if place else shown(data)
    return f"{kind} {'..' if place and first else ''}{marked}{'..' if place and last < len(data) else ''}"


def in_full(what, its, it):
    places = ", ".join(f'"{section}"' for section in sections_for(it))
    yield f"\n{what} ({len(its)} answers{'; ' if places else ''}{places})"
    yield from (f"    {rule}" for rule in rule_of(it)[:1])
    yield f"    for instance {name_of(it)}"
    yield f"    {example(it)}"
    yield f"    wanted {shown(it.wanted)}, found {shown(it.answer or 'no answer')}"


def summary(outcome, known, cases, is_plain):
    """What differs by what is wrong, worst first and then by how much: an example of each of the first, and then a line
    for each other."""
    found = collections.defaultdict(list)
    for it in faults(outcome, known):
        found[kind_of(it)].append(it)
    groups = sorted(found.items(), key=lambda item: (ORDER.index(item[0][0]), -len(item[1])))
    shortest = lambda its: min(its, key=lambda it: len(it.question.words))
    told = [(": ".join(filter(None, kind)), its, shortest(its)) for kind, its in groups]
    yield counts_of(outcome, known, cases, is_plain)
    yield from (f"{text}{f', {n} times' * (n > 1)}" for text, n in collections.Counter(outcome.ends).items())
    yield from ("\nMend first:",) if told else ()
    yield from itertools.chain(*(in_full(*it) for it in told[:SHOWN]))
    yield from ("\nThen these, of which --case shows more:\n",) if told[SHOWN:] else ()
    for what, its, it in told[SHOWN:]:
        yield f"{len(its):5} {what:{WIDTH}.{WIDTH}} {name_of(it).rpartition('/')[0]}"


FORMS = {"summary": summary, "lines": in_lines, "json": in_json, "names": names, "junit": junit}
