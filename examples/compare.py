#!/usr/bin/env python3
"""compare.py PROGRAM LISTERS LINERS SWAPPERS FILTERS BUILDER EXPLAINERS CHECKER..: compares what each CHECKER writes of messages with what `PROGRAM check` does.

The messages are the captures in samples/, whole and cut short, and those of the first messages of each capture of which one
byte is changed. Both the text and the exit status are compared. What each of LISTERS, which commas separate, writes of the captures is compared with
what `PROGRAM show` writes, and what each of LINERS writes of them with `PROGRAM json`; what each of SWAPPERS writes of them in either byte order, with `PROGRAM swap`; what each of FILTERS writes of them for a rule and owners of names, with `PROGRAM filter`. What BUILDER builds of the
parts of their messages has these parts, as `PROGRAM json` writes them. What each of EXPLAINERS writes of a message that is refused is what
`PROGRAM check --explain` does, but for the line of bytes. All but PROGRAM are run by the words in RUN, if it has any. The exit status is 1
if they differ.
"""

import collections
import itertools
import json
import os
import subprocess
import sys

# The words that run what is compared.
RUN = os.environ.get("RUN", "").split()
SAMPLES = ("session.dbus", "big-endian.dbus")
CHANGED_MESSAGES = 3
CHANGES = (0x01, 0x80, 0xFF)
# Match rules, each with owners of names.
RULES = (
    ("",),
    ("type='signal'",),
    ("type='method_call',member='Hello'",),
    ("sender='org.freedesktop.DBus', interface=org.freedesktop.DBus",),
    ("sender='org.example.Lab'",),
    ("sender='org.example.Lab'", "org.example.Go=:1.5", "org.example.Lab=:1.4"),
    ("path_namespace='/org/freedesktop'",),
    ("arg0namespace='org'",),
    ("arg0='it'\\''s',eavesdrop='true'",),
    ("type='signal',typ='error'",),
    ("member='A',member='B'",),
    ("path='/a',path_namespace='/'",),
    ("member='Hello",),
    ("type",),
)


def length_of(data):
    """How many bytes the message has that the bytes begin with."""
    order = "little" if data[:1] == b"l" else "big"
    body, fields = (int.from_bytes(data[at : at + 4], order) for at in (4, 12))
    return (16 + fields + 7) // 8 * 8 + body


def messages(data):
    """Those of a capture, one after another."""
    while data:
        yield data[: length_of(data)]
        data = data[length_of(data) :]


def inputs(folder):
    """Each with its name."""
    for sample in SAMPLES:
        data = capture(folder, sample)
        yield sample, data
        yield f"{sample}, cut short", data[:-1]
        for number, message in enumerate(itertools.islice(messages(data), CHANGED_MESSAGES), 1):
            for at, byte in enumerate(message):
                for change in CHANGES:
                    changed = message[:at] + bytes([byte ^ change]) + message[at + 1 :]
                    yield f"{sample}, message {number}, byte {at} changed by {change:#x}", changed


def capture(folder, sample):
    with open(os.path.join(folder, sample), "rb") as file:
        return file.read()


def answer(words, data):
    ran = subprocess.run(words, input=data, capture_output=True)
    return ran.stdout.decode(errors="replace").strip(), ran.returncode


def compare_lists(program, command, lister, folder):
    """How many lines the lister writes otherwise of the captures than the program's command."""
    differing = 0
    for sample in SAMPLES:
        data = capture(folder, sample)
        right, other = (answer(words, data)[0].split("\n") for words in ([program, command], [*RUN, lister]))
        differing += abs(len(right) - len(other)) + sum(a != b for a, b in zip(right, other))
        print(f"{sample}: {len(right)} lines listed by {command}, {differing} otherwise")
    return differing


def compare_swaps(program, swapper, folder):
    """How many swapped captures differ."""
    differing = 0
    for sample in SAMPLES:
        for order in "lB":
            data = capture(folder, sample)
            right, other = (
                subprocess.run([*words, order], input=data, capture_output=True).stdout
                for words in ([program, "swap", "--to"], [*RUN, swapper])
            )
            differing += right != other or not right
    print(f"{2 * len(SAMPLES)} captures swapped, {differing} otherwise")
    return differing


def compare_filters(program, filter_program, folder):
    """How many answers to rules differ: in what is written, in what is said of a refusal, and in the exit status."""
    differing, written = 0, 0
    for sample, (rule, *owners) in itertools.product(SAMPLES, RULES):
        data = capture(folder, sample)
        options = [word for owner in owners for word in ("--owner", owner)]
        right, other = (
            subprocess.run(words, input=data, capture_output=True)
            for words in ([program, "filter", *options, rule], [*RUN, filter_program, rule, *owners])
        )
        written += len(right.stdout) > 0
        if (right.stdout, right.stderr, right.returncode) != (other.stdout, other.stderr, other.returncode):
            differing += 1
            print(f"{sample}, {rule} with {owners}: {filter_program} says {other.stderr}, {other.returncode}, {program} {right.stderr}, {right.returncode}")
    print(f"{len(SAMPLES) * len(RULES)} times filtered, {written} times with an output, {differing} otherwise")
    return differing


def error_to(call):
    """The line of the error that answers a call."""
    error = {name: call[name] for name in ("order", "sender") if name in call}
    error |= {"type": "error", "flags": 1, "serial": 1, "error_name": "a.b", "reply_serial": call["serial"], "fields": [], "body": []}
    return {"destination" if name == "sender" else name: value for name, value in error.items()}


# What the builder is told, and what it makes of a line of a message.
BUILT = (
    (["again"], lambda line: line),
    (["serial", "77"], lambda line: line | {"serial": 77}),
    (["destination", "a.b"], lambda line: line | {"destination": "a.b"}),
    (["error", "a.b"], lambda line: error_to(line) if line["type"] == "method_call" else None),
)


def compare_builds(program, builder, folder):
    """How many built messages have other parts."""
    differing = built = 0
    for sample, (words, changed) in itertools.product(SAMPLES, BUILT):
        data = capture(folder, sample)
        made = subprocess.run([*RUN, builder, *words], input=data, capture_output=True).stdout
        before, after = ([json.loads(line) for line in answer([program, "json"], it)[0].split("\n")] for it in (data, made))
        right = list(filter(None, map(changed, before)))
        for line in right + after:
            for name in ("number", "offset", "length"):
                line.pop(name, None)
        differing += abs(len(right) - len(after)) + sum(a != b for a, b in zip(right, after)) + (words == ["again"] and made != data)
        built += len(right)
    print(f"{built} messages built, {differing} otherwise")
    return differing


def but_for_bytes(explanation):
    """The lines but for that of bytes, of which the program shows none that the fault does not need."""
    *lines, _, rule = explanation.split("\n")
    return [*lines, rule]


def compare_explained(program, explainer, folder):
    """How many refused messages are explained otherwise: those of which the input does not end."""
    differing = explained = 0
    for name, data in inputs(folder):
        refusal, _, right = answer([program, "check", "--explain"], data)[0].partition("\n")
        if refusal.startswith("refused at") and not refusal.endswith(": Truncated"):
            explained += 1
            other = subprocess.run([*RUN, explainer], input=data, capture_output=True).stdout.decode().rstrip("\n")
            if but_for_bytes(other) != but_for_bytes(right):
                differing += 1
                print(f"{name}: {program} explains {right}, {explainer} {other}")
    print(f"{explained} refused messages explained, {differing} otherwise")
    return differing + (explained == 0)


def main(program, listers, liners, swappers, filters, builder, explainers, *checkers):
    folder = os.path.join(os.path.dirname(os.path.abspath(__file__)), "..", "samples")
    kinds, differing = collections.Counter(), sum(compare_lists(program, "show", lister, folder) for lister in listers.split(","))
    differing += sum(compare_lists(program, "json", liner, folder) for liner in liners.split(","))
    differing += sum(compare_swaps(program, swapper, folder) for swapper in swappers.split(","))
    differing += sum(compare_filters(program, filter_program, folder) for filter_program in filters.split(","))
    differing += compare_builds(program, builder, folder)
    differing += sum(compare_explained(program, explainer, folder) for explainer in explainers.split(","))
    for name, data in inputs(folder):
        right = answer([program, "check"], data)
        kinds[right[0].split(" ")[-1] if right[1] else "ok"] += 1
        for checker in checkers:
            other = answer([*RUN, checker], data)
            if other != right:
                differing += 1
                print(f"{name}: {program} says {right}, {checker} says {other}")
    counts = ", ".join(f"{count} {kind}" for kind, count in sorted(kinds.items()))
    print(f"{sum(kinds.values())} inputs ({counts}), {len(checkers)} checkers: {differing} answers differ")
    return 1 if differing or not checkers else 0


if __name__ == "__main__":
    sys.exit(main(*sys.argv[1:]))
