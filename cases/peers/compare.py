#!/usr/bin/env python3
"""compare.py: asks the programs of this folder about messages and values (cases/README.md), and writes docs/PEERS.md of how they answer."""

import collections
import concurrent.futures as futures
import itertools
import pathlib
import re
import subprocess
import sys

HERE = pathlib.Path(__file__).resolve().parent
ROOT = HERE.parent.parent
sys.dont_write_bytecode = True
sys.path[:0] = [str(HERE.parent), str(ROOT / "bench")]

from dialogues import told as told_of  # noqa: E402
from pages import item  # noqa: E402
from read_cases import DATA, read_bytes, read_cases  # noqa: E402
from rewritten import MESSAGES, VALUES, rewritten_of  # noqa: E402
from run import UNKNOWN, answers_of, asked_of  # noqa: E402

# The name of each peer, and its program and package: of C, or of Python.
IN_C = (("libdbus", "libdbus", "dbus-1"), ("GDBus", "gdbus", "gio-2.0"), ("sd-bus", "sdbus", "libsystemd"))
IN_PYTHON = (
    ("jeepney", "with_jeepney", "jeepney"),
    ("dbus-next", "with_dbus_next", "dbus_next"),
    ("dbus-fast", "with_dbus_fast", "dbus_fast"),
)
FLAGS = "-std=c11 -O2 -Wall -Wextra -D_DEFAULT_SOURCE".split()
PYTHONS = (sys.executable, "/usr/bin/python3")
BUSES = ("dbus-daemon", "dbus-broker")
# Our ends in whose place a peer can be.
OURS = {"server": "server user=1000( agrees=yes)?", "client": "client external=1000( asks=yes)?"}
# Dialogues that are about what is behind them.
BEHIND = ("reply_after", "line_after_begin", "line_after_ok")
MOST_NAMES = 4
LONGEST_RULE = 50

# An answer that differs: the case, the question's first word, whether it is as it was, and as rewritten, which was wanted and which was found.
Differs = collections.namedtuple("Differs", "name kind was is_now wanted found is_choice")


def output_of(*words):
    return subprocess.run(words, check=True, capture_output=True, text=True).stdout.strip()


def build(program, package, shared=("main.c",)):
    built = ROOT / "out" / "peers" / program
    built.parent.mkdir(parents=True, exist_ok=True)
    sources = [HERE / it for it in (f"{program}.c", *shared)]
    subprocess.run(["cc", *FLAGS, "-o", built, *sources, *output_of("pkg-config", "--cflags", "--libs", package).split()], check=True)
    return [str(built)]


def python_with(package):
    """A Python that has the package."""
    return next(it for it in PYTHONS if subprocess.run([it, "-c", f"import {package}"], capture_output=True).returncode == 0)


def peers():
    """The name, the version and the command line of each."""
    for name, program, package in IN_C:
        yield name, output_of("pkg-config", "--modversion", package), build(program, package)
    for name, program, package in IN_PYTHON:
        python = python_with(package)
        version = output_of(python, "-c", f"from importlib.metadata import version; print(version('{name}'))")
        yield name, version, [python, str(HERE / f"{program}.py")]


def judge(command, asked):
    """What differs, and how many refused inputs the peer waits behind, as they were and as rewritten."""
    said, ends = answers_of(command, asked, stderr=subprocess.DEVNULL)
    if ends:
        sys.exit(f"{command}: {ends[0]}")
    told, waits = [], [0, 0]
    for case, question, answer, wanted in said:
        was = not question.engine.endswith("rewritten")
        is_now = not was or f"{question.engine}, rewritten" not in [it.engine for it in case.questions]
        if wanted is None and answer == "partial":
            waits = [waits[0] + was, waits[1] + is_now]
        if wanted not in (None, answer):
            told.append(Differs(case.name, question.words.split(" ")[0], was, is_now, wanted, answer, case.is_choice))
    return told, waits


def taken(told):
    return [it for it in told if it.kind == "message" and it.wanted.startswith("refused") and it.found.startswith(("whole", "yes"))]


def missed(told):
    """Whole messages and fronts that are refused, as rewritten."""
    return [it for it in told if it.kind == "message" and it.is_now and not it.wanted.startswith("refused")]


def row(name, version, told, waits):
    counts = [sum(it.was for it in taken(told)), waits[0], sum(it.is_now for it in taken(told)), waits[1], len(missed(told))]
    counts += [sum(it.kind == "again" for it in told), sum(it.found == "aborted" for it in told)]
    return f"| {name} {version} | " + " | ".join(map(str, counts)) + " |"


def names_of(found):
    names = list(dict.fromkeys(f"`{it.name}`" for it in found))
    return ", ".join(names[:MOST_NAMES]) + (f" and {len(names) - MOST_NAMES} more" if len(names) > MOST_NAMES else "")


def said_of(name, words, found):
    """What a peer says of so many inputs, and the cases that they are of."""
    return item(f"**{name}**, {len(found)} inputs: {words} ({names_of(found)})")


def reason_of(it):
    _, place, reason = it.wanted.split(" ")
    reason = reason.partition("(")[0]
    return "ZeroSerial of a field" if reason == "ZeroSerial" and int(place) > 8 else reason


def taken_rows(results, is_chosen):
    """A line for each reason: how many inputs each peer takes that are refused for it, as rewritten, and one of them."""
    found = collections.defaultdict(lambda: {name: [] for name in results})
    for name, told in results.items():
        for it in taken(told):
            if it.is_now and it.is_choice == is_chosen:
                found[reason_of(it)][name].append(it)
    for why, by_peer in sorted(found.items()):
        first = next(its[0] for its in by_peer.values() if its)
        yield f"| {why} | {' | '.join(str(len(its) or '') for its in by_peer.values())} | `{first.name}` |"


def missed_rows(results, is_chosen):
    """A line for each way in which a peer refuses what is whole, or a front."""
    for name, told in results.items():
        found = collections.defaultdict(list)
        for it in missed(told):
            if it.is_choice == is_chosen:
                words = it.found.partition(":")[2].strip() or it.found
                found[re.sub(r"\d+", "N", words)].append(it)
        yield from (said_of(name, words, its) for words, its in found.items())


def lost_rows(results, is_chosen):
    """A line for each peer that encodes messages again with other bodies."""
    for name, told in results.items():
        found = [it for it in told if it.kind == "again" and it.is_choice == is_chosen]
        if found:
            yield said_of(name, "encodes another body", found)


def said_by_buses(file):
    """A line for each rule or line of which a bus says something else."""
    asked = [*asked_of("plain", [DATA / file])]
    python = python_with("jeepney")
    for its in zip(*([*answers_of([python, str(HERE / "with_bus.py"), bus], asked)[0]] for bus in BUSES)):
        if any(it.wanted not in (None, it.answer) for it in its):
            case, question = its[0][:2]
            text = bytes.fromhex(question.words.split(" ")[-1]).decode("latin1").replace("\t", "\\t")
            ours = question.wanted.right.split(" ")[0]
            theirs = [{"yes": "accepted", "no": "refused"}.get(word := it.answer.partition(":")[0], word) for it in its]
            shown = f"`{text}`" if len(text) < LONGEST_RULE else case.name
            yield f"| {shown} | {ours}{', *profile*' if case.is_choice else ''} | {' | '.join(theirs)} |"


def delivered_rows():
    """How many cases of matches.txt, in their first order, a bus can be asked, and a line for each
    that one delivers otherwise."""
    cases = asked_of("plain", [DATA / "matches.txt"])
    asked, python = [it._replace(questions=it.questions[:1]) for it in cases], python_with("jeepney")
    said = {bus: [*answers_of([python, str(HERE / "with_bus.py"), bus], asked)[0]] for bus in BUSES}
    yield f"{sum(it.answer != UNKNOWN for it in said[BUSES[0]])} of {len(asked)}"
    for bus, its in said.items():
        for it in (it for it in its if it.wanted not in (None, it.answer)):
            rule = bytes.fromhex(it.question.words.split(" ")[1].replace("-", "")).decode()
            yield f"| {bus} | `{rule}` | {it.question.wanted.right} | {it.answer} | `{it.case.name}` |"


def dialogues_of(side):
    """The dialogues in which a peer can take the place of that end: the name, the bytes that it is
    handed, what our end says, and whether it asks for descriptors."""
    for name, end, given, sent, _, status, _ in read_cases(DATA / "dialogues.txt"):
        asks = re.fullmatch(OURS[side], end)
        data, said = read_bytes(given or '""'), read_bytes(sent or '""')
        is_apt = side == "client" or asks and asks[1] or b"NEGOTIATE" not in data
        if asks and data and is_apt and not name.startswith(BEHIND):
            lines = said.split(b"\r\n")[side == "client" :]
            yield name, data, told_of([b"\r\n".join(lines)], status == "closed"), bool(asks[1])


def differs_at(wanted, found, asks, is_at_once):
    """The first word that is another, as it is wanted and as it is found."""
    if not asks:
        found = re.sub("NEGOTIATE_UNIX_FD.*", "BEGIN", found)
    if is_at_once:
        wanted, found = re.sub("NEGOTIATE_UNIX_FD ?", "", wanted) or "BEGIN", found.split(" ")[0]
        wanted = wanted.split(" ")[0]
    pairs = itertools.zip_longest(wanted.split(), found.split(), fillvalue="nothing")
    return next((pair for pair in pairs if pair[0] != pair[1]), None)


def dialogue_rows(side, commands):
    """A line for each way in which a peer answers a dialogue otherwise."""
    asked = [*dialogues_of(side)]
    lines = "".join(f"dialogue {data.hex()}\n" for _, data, *_ in asked)
    with futures.ThreadPoolExecutor(2) as pool:
        how = {"input": lines, "stdout": subprocess.PIPE, "stderr": subprocess.DEVNULL, "text": True}
        ran = pool.map(lambda command: subprocess.run(command, **how), commands.values())
    for peer, answers in zip(commands, ran):
        found, is_at_once = collections.defaultdict(list), side == "client" and peer == "sd-bus"
        for (name, _, wanted, asks), answer in zip(asked, answers.stdout.split("\n")):
            differs = differs_at(wanted, answer, asks or side == "server", is_at_once)
            found[differs].append(f"`{name}`")
        found.pop(None, None)
        for (was, now), names in found.items():
            yield item(f"**{peer}**, {now} in place of {was}: {', '.join(names)}")


def servers():
    python = [python_with("jeepney"), str(HERE / "with_bus.py")]
    yield from ((bus, [*python, bus]) for bus in BUSES)
    for name, program, package in IN_C[1:]:
        yield name, python + build(f"{program}_server", package, [])


def clients():
    names = [name for name, *_ in (*IN_C, *IN_PYTHON)]
    return {name: [python_with("dbus_fast"), str(HERE / "with_client.py"), name] for name in names}


def refused_inputs():
    """How many inputs are refused, as they were and as rewritten."""
    was = now = 0
    for file in (*MESSAGES, VALUES):
        for case in read_cases(DATA / file):
            for *_, it in rewritten_of(file, case):
                is_refused = not isinstance(it, str) and it.answer.startswith("refused")
                was, now = was + (is_refused and file != VALUES), now + is_refused
    return was, now


def main():
    asked = [*asked_of("plain", [DATA / file for file in (*MESSAGES, VALUES)])]
    rows, results = [], {}
    for name, version, command in peers():
        told, waits = judge(command, asked)
        results[name] = told
        rows.append(row(name, version, told, waits))
        print(rows[-1], flush=True)
    was, now = refused_inputs()
    tables = {"rows": rows, "faults": taken_rows(results, False), "choices": taken_rows(results, True)}
    tables["missed"] = [*missed_rows(results, False), *lost_rows(results, False)]
    tables["missed_choices"] = [*missed_rows(results, True), *lost_rows(results, True)]
    tables["rules"], tables["lines"] = said_by_buses("rules.txt"), said_by_buses("client_lines.txt")
    tables["servers"] = dialogue_rows("server", dict(servers()))
    tables["clients"] = dialogue_rows("client", clients())
    tables["delivered"], *tables["deliveries"] = delivered_rows()
    tables["buses"] = (" | ".join(f"{it} {re.search(r'[0-9][0-9.]*', output_of(it, '--version'))[0]}" for it in BUSES),)
    texts = {it: lines if isinstance(lines, str) else "\n".join(lines) for it, lines in tables.items()}
    page = (HERE / "page.md").read_text().format(was=was, now=now, **texts)
    (ROOT / "docs" / "PEERS.md").write_text(page)


if __name__ == "__main__":
    main()
