#!/usr/bin/env python3
"""tables.py HABITS TEXTS LINES PROGRAM: compares the header's numbers with the crates' and the program's.

The numbers of message types, flags, header fields, answers, mechanisms, commands of lines, rooms and rules on indexes are those of the
crates' constants, and those of kinds of text are those of `kind_of` in dbus_c. The names of reasons, as HABITS prints them, are those of the header's constants. The version is the
program's. What TEXTS says of the cases of names and signatures, and LINES of those of a handshake's lines (cases/README.md), is what these
say. All but PROGRAM are run by the words in RUN, if it has any. The exit status is 1 if not.
"""

import os
import pathlib
import re
import subprocess
import sys

ROOT = pathlib.Path(__file__).resolve().parent.parent
sys.path.insert(0, str(ROOT / "cases"))
from read_cases import read_bytes, read_cases  # noqa: E402

# The words that run what is compared.
RUN = os.environ.get("RUN", "").split()
CONSTANTS = (
    ("TYPE_", "dbus_message_model/src/message_type.rt"),
    ("FLAG_", "dbus_message_model/src/flag.rt"),
    ("FIELD_", "dbus_message_model/src/field_code.rt"),
    ("EXTERNAL_", "dbus_c_auth/src/mechanisms.rt"),
    ("LINE_", "dbus_c/src/line_command.rt"),
)
ANSWERS = "dbus_c/src/answers.rt"
# What a caller has to have room for, and the crate's constant.
ROOMS = (("REPLY_ROOM", "dbus_c_auth/src/step.rt"), ("GUID_LENGTH", "dbus_c_auth/src/guid_text.rt"))
# The header's name of an answer that means the same as another.
ALIASES = {"OK": 0}
# How the header and the cases call the kinds that the crates call otherwise.
KINDS = {"Text": "STRING", "Path": "OBJECT_PATH", "Single": "SINGLE_TYPE"}
CASE_KINDS = {"text": "STRING", "path": "OBJECT_PATH"}


def upper(name):
    """The name of a constant for a name in CamelCase."""
    return re.sub(r"(?<=[a-z])(?=[A-Z])", "_", name).upper()


def header_numbers():
    text = (ROOT / "include" / "dbus_wire.h").read_text()
    return {name: int(number) for name, number in re.findall(r"\bDBUS_WIRE_(\w+) = (\d+)", text)}


def of_prefix(numbers, prefix):
    return {name.removeprefix(prefix): number for name, number in numbers.items() if name.startswith(prefix)}


def constants(path):
    text = (ROOT / "crates" / path).read_text()
    return {name: int(number) for name, number in re.findall(r"pub const (\w+): u\d+ = (\d+);", text)}


def room(path):
    return int(re.search(r"pub const \w+_ROOM: usize = (\d+);", (ROOT / "crates" / path).read_text())[1])


def kinds():
    text = (ROOT / "crates/dbus_c/src/texts.rt").read_text()
    return {KINDS.get(name, upper(name)): int(number) for number, name in re.findall(r"(\d+) => Some\(TextKind::(\w+)\)", text)}


def run(*words, given=""):
    return subprocess.run(words, input=given, capture_output=True, text=True, check=True).stdout.splitlines()


def text_cases(numbers):
    """Of each case the number of its kind, its bytes, and what is said of them."""
    data = ROOT / "cases/data"
    for _, kind, text, said in read_cases(data / "names.txt"):
        yield numbers[CASE_KINDS.get(kind, kind.upper())], text, said
    for _, text, signature, single, *_ in read_cases(data / "signatures.txt"):
        yield numbers["SIGNATURE"], text, signature
        yield numbers["SINGLE_TYPE"], text, single
    yield 0, '"a"', "no kind"
    yield max(numbers.values()) + 1, '"a"', "no kind"


def differing_texts(program, numbers):
    cases = [(kind, read_bytes(text), said) for kind, text, said in text_cases(numbers)]
    lines = run(*RUN, program, given="".join(f"{kind} {text.hex()}\n" for kind, text, _ in cases))
    accepted = ("unique", "well-known")
    right = ["accepted" if said in accepted else re.sub("^too long .*", "too long", said) for *_, said in cases]
    print(f"{len(cases)} texts checked")
    return [f"{kind} {text!r}: {line}, not {said}" for (kind, text, _), line, said in zip(cases, lines, right, strict=True) if line != said]


def words_of(meaning):
    """A case's meaning of a line, as LINES writes it: the command and its words."""
    command, _, rest = meaning.partition(" ")
    command = {"negotiate": "NEGOTIATE_UNIX_FD", "agree": "AGREE_UNIX_FD", "other": "other"}.get(command, command.upper())
    mechanism, has_response, response = rest.partition(" response ")
    if command == "REJECTED":
        words = [read_bytes(it) for it in rest.split(", ") if it]
    elif has_response:
        words = [read_bytes(mechanism), read_bytes(response).hex().encode()]
    else:
        words = [read_bytes(rest) if command == "ERROR" else read_bytes(rest).hex().encode()]
    return b" ".join([command.encode(), *(it for it in words if it)])


def line_cases():
    """Of each case the side, what it sends, and what LINES says of it, or of lines that are cut their lengths."""
    data = ROOT / "cases/data"
    for side in ("client", "server"):
        for _, text, meaning, _ in read_cases(data / f"{side}_lines.txt"):
            line = read_bytes(text)
            if text != "none" and len(line) <= 16382 and all(0 < it < 128 and it not in b"\r\n" for it in line):
                rest = b"messages" if meaning == "begin" else b"partial"
                yield side, line + b"\r\n", [b"%d %s" % (len(line) + 2, words_of(meaning)), rest + b", 0 bytes left"]
    for _, text, said in read_cases(data / "cut_lines.txt"):
        *lines, rest = said.split(", ")
        sizes = [int(it.removeprefix("line ")) + 2 for it in lines]
        left = len(read_bytes(text)) - sum(sizes)
        rest = re.sub("^partial .*", "partial", rest)
        yield "server", read_bytes(text), [*sizes, f"{rest}, {left} bytes left".encode()]


def is_said(told, right):
    """Whether a line of LINES is this one, with hexadecimal digits of either case, or is of a line of this length."""
    return int(told.split()[0]) == right if isinstance(right, int) else told.lower() == right.lower()


def differing_lines(program):
    wrong, count = [], 0
    for count, (side, sent, right) in enumerate(line_cases(), 1):
        told = subprocess.run([*RUN, program, side], input=sent, capture_output=True).stdout.splitlines()
        if len(told) != len(right) or not all(map(is_said, told, right)):
            wrong.append(f"{side} {sent[:99]!r}: {told}, not {right}")
    print(f"{count} texts of a handshake's lines checked")
    return wrong


def main(habits, texts, lines, program):
    numbers, wrong = header_numbers(), []

    def hold(what, one, other):
        if one != other:
            wrong.append(f"{what}: {sorted(one.items())} in the header, not {sorted(other.items())}")

    for prefix, path in CONSTANTS:
        hold(path, of_prefix(numbers, prefix), constants(path))
    answers = constants(ANSWERS) | ALIASES
    hold(ANSWERS, {name: numbers.get(name) for name in answers}, answers)
    rules = constants("dbus_c/src/given_limits.rt")
    hold("rules", of_prefix(numbers, "FDS_"), {"ANY": rules["ANY_INDEX"], "BELOW_COUNT": rules["INDEX_BELOW_COUNT"]})
    text_kinds = of_prefix(numbers, "TEXT_")
    hold("kinds of text", text_kinds, kinds())
    names = [line.split() for line in run(*RUN, habits)]
    for prefix in ("REASON_", "RULE_REASON_"):
        hold(prefix, of_prefix(numbers, prefix), {upper(name): int(number) for which, number, name in names if which == prefix})
    header = (ROOT / "include" / "dbus_wire.h").read_text()
    version = ".".join(re.findall(r"#define DBUS_WIRE_VERSION_[A-Z]+ (\d+)", header))
    if run(program, "--version")[0].split()[-1] != version:
        wrong.append(f"the header has the version {version}, not that of {program}")
    for name, path in ROOMS:
        hold(name, {name: int(re.search(rf"#define DBUS_WIRE_{name} (\d+)", header)[1])}, {name: room(path)})
    wrong += differing_texts(texts, text_kinds) + differing_lines(lines)
    print("\n".join(wrong) or "the header's numbers are the crates'")
    return 1 if wrong else 0


if __name__ == "__main__":
    sys.exit(main(*sys.argv[1:]))
