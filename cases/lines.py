#!/usr/bin/env python3
"""lines.py PROGRAM [FILE..]: writes the lines of `dbus-wire list` by itself, and says where the program's differ: of all whole messages of messages.txt and
printed.txt, of the captures of captures.txt, of the samples and of the files that are named, at several widths. The exit status is 1 if something differs.

The lines are as the manual page of dbus-wire describes them.
"""

import decimal
import itertools
import math
import pathlib
import re
import struct
import subprocess
import sys

sys.dont_write_bytecode = True

import captures  # noqa: E402
import seen  # noqa: E402
from read_cases import DATA, read_bytes, read_cases, read_parts  # noqa: E402

BUS = "org.freedesktop.DBus"
WIDTHS = (0, 1, 2, 20, 40, 49, 50, 57, 80, 100, 120, 200, 65535)
CALL, REPLY, ERROR, SIGNAL = range(1, 5)
SIGNED = {"n": 16, "i": 32, "x": 64}
BRACKETS = {"(": "()", "{": "{}", "v": "<>", "a": "[]"}
HIDDEN = [(0x80, 0x9F), (0xAD, 0xAD), (0x61C, 0x61C), (0x180E, 0x180E), (0x200B, 0x200F), (0x2028, 0x202E), (0x2060, 0x206F), (0xFEFF, 0xFEFF)]
HIDDEN += [(0xFFF9, 0xFFFB), (0xE0000, 0xE0FFF)]
WELL_KNOWN = re.compile(r"[A-Za-z_-][A-Za-z0-9_-]*(\.[A-Za-z_-][A-Za-z0-9_-]*)+")


def is_hidden(letter):
    return any(first <= ord(letter) <= last for first, last in HIDDEN)


def quoted(text):
    """A text in quotation marks, with its escapes."""
    plain = text.replace("\\", "\\\\").replace('"', '\\"')
    return '"' + "".join(f"\\x{ord(it):02x}" if ord(it) < 32 or ord(it) == 127 else it for it in plain) + '"'


def double(bits):
    """A DOUBLE in the fewest digits, in powers of ten from 10^16 on and below 10^-5."""
    number = struct.unpack("<d", struct.pack("<Q", bits))[0]
    if not math.isfinite(number):
        return "nan" if math.isnan(number) else "inf" if number > 0 else "-inf"
    sign, digits, power = decimal.Decimal(repr(number)).normalize().as_tuple()
    minus, digits = "-" * sign, "".join(map(str, digits))
    if number == 0:
        return minus + "0.0"
    point = len(digits) + power
    if power >= 0 and point <= 16:
        return f"{minus}{digits}{'0' * power}.0"
    if 0 < point <= 16:
        return f"{minus}{digits[:point]}.{digits[point:]}"
    if -5 < point <= 0:
        return f"{minus}0.{'0' * -point}{digits}"
    return f"{minus}{digits[0]}{'.' * (len(digits) > 1)}{digits[1:]}e{point - 1}"


class Message(seen.Message):
    """A whole message, and its values as a line has them."""

    def brief(self, kind):
        self.align(seen.ALIGNMENTS[kind[0]])
        if kind in seen.NUMBERS:
            number = self.number(seen.NUMBERS[kind])
            if kind == "b":
                return "true" if number else "false"
            return double(number) if kind == "d" else str(number - (number >> SIGNED[kind] - 1 << SIGNED[kind]) if kind in SIGNED else number)
        if kind in "sog":
            return quoted(self.text(seen.ALIGNMENTS[kind]).decode())
        if kind == "ay":
            return "0x" + self.bytes(self.number(4)).hex()
        return BRACKETS[kind[0]][0] + ", ".join(self.parts(kind)) + BRACKETS[kind[0]][1]

    def parts(self, kind):
        """The parts of a container."""
        if kind == "v":
            return self.all_of(self.text(1).decode())
        if kind[0] in "({":
            return self.all_of(kind[1:-1])
        length = self.number(4)
        self.align(seen.ALIGNMENTS[kind[1]])
        end, found = self.at + length, []
        while self.at < end:
            found.append(self.brief(kind[1:]))
        return found

    def all_of(self, types):
        found = []
        while types:
            first = seen.first_type(types)
            found.append(self.brief(first))
            types = types[len(first) :]
        return found

    def values(self):
        self.at = self.body
        return self.all_of(self.types)

    def kind(self):
        return self.data[1]

    def wants_reply(self):
        return self.kind() == CALL and not self.data[2] & 1

    def key(self):
        """Of a call its sender and its serial, of a reply those of the call that it is to."""
        if self.kind() == CALL:
            return self.named(seen.SENDER) or "", int.from_bytes(self.data[8:12], self.order)
        number = self.number_of(seen.REPLY_SERIAL)
        return self.named(seen.DESTINATION) or "", 0 if number == "none" else int(number)

    def strings(self):
        """The STRINGs that the body begins with."""
        self.at = self.body
        found = []
        for kind in self.types[: len(self.types) - len(self.types.lstrip("s"))]:
            self.align(seen.ALIGNMENTS[kind])
            found.append(self.text(seen.ALIGNMENTS[kind]).decode())
        return found

    def told_by_the_bus(self, member, types):
        """Whether it is a signal of the bus with this member and these types."""
        names = [self.named(it) for it in (seen.SENDER, seen.INTERFACE, seen.MEMBER)]
        return self.kind() == SIGNAL and names == [BUS, BUS, member] and self.types == types

    def departed(self):
        """The name that nobody has any more, as this signal of the bus says."""
        if not self.told_by_the_bus("NameOwnerChanged", "sss"):
            return None
        name, _, owner = self.strings()
        return None if owner else name

    def change(self):
        """A name, and who has it from now on, or else who lost it; as this signal of the bus says."""
        to = self.named(seen.DESTINATION)
        if self.told_by_the_bus("NameOwnerChanged", "sss"):
            name, _, owner = self.strings()
            return name, owner, None
        if to is not None and self.told_by_the_bus("NameAcquired", "s"):
            return *self.strings(), to, None
        if to is not None and self.told_by_the_bus("NameLost", "s"):
            return *self.strings(), None, to
        return None

    def replied(self, call):
        """The same as this reply to the call says."""
        to, member, asked = call.named(seen.DESTINATION), call.named(seen.MEMBER), call.strings()
        if self.kind() != REPLY or to is None:
            return None
        if to != BUS:
            name, owner = to, self.named(seen.SENDER)
        elif asked and member == "GetNameOwner":
            name, owner = asked[0], next(iter(self.strings()), None)
        elif asked and member == "RequestName" and self.types[:1] == "u" and self.values()[0] in ("1", "4"):
            name, owner = asked[0], self.named(seen.DESTINATION)
        else:
            return None
        return (name, owner, None) if (owner or "").startswith(":") else None

    def named(self, code):
        """The text of a header field, or None."""
        return next((self.data[slice(*place)].decode() for found, place, _ in self.fields if found == code), None)


def short(name, most):
    """A name of at most so many cells, but with its last element at least."""
    if len(name) <= most:
        return name
    ends = [name[at + 1 :] for at, letter in enumerate(name) if letter == "."]
    return "~" + next((it for it in ends if len(it) < most), ends[-1])


def may_answer(call, reply):
    """Whether the names let the sender of the reply answer the call."""
    sender, to = reply.named(seen.SENDER), call.named(seen.DESTINATION)
    return sender is None or to is None or sender in (BUS, to) or (to != BUS and to[:1] != ":")


def is_end(call, message):
    """Whether a message after a call is its reply, uses its serial again, or says that its sender left."""
    if message.kind() in (CALL, REPLY, ERROR):
        return message.key() == call.key() and (message.kind() == CALL or may_answer(call, message))
    return message.departed() == call.key()[0]


def answers(messages):
    """For each message the call that it answers: the one that wants a reply and that no message before it ended."""
    found = {}
    for n, call in enumerate(messages):
        if call.wants_reply():
            end = next((it for it in range(n + 1, len(messages)) if is_end(call, messages[it])), None)
            if end is not None and messages[end].kind() in (REPLY, ERROR):
                found[end] = n
    return found


def known_names(messages, calls):
    """After each message the name by which each connection is known."""
    owners, names = {}, {}
    for n, message in enumerate(messages):
        names.pop(message.departed(), None)
        said = message.replied(messages[calls[n]]) if n in calls else message.change()
        name, owner, loser = said or ("", None, None)
        if WELL_KNOWN.fullmatch(name) and len(name) < 256 and name != BUS:
            if loser is None or owners.get(name) == loser:
                owners[name] = owner
            names = {it: known for it, known in names.items() if owners.get(known) == it}
            if owner:
                names.setdefault(owner, name)
        yield dict(names)


def took(sent, replied):
    """How many milliseconds a reply took, if both times are known."""
    if sent is None or replied is None:
        return ""
    between = abs(replied - sent)
    return f" {'-' * (replied < sent)}{between // 10**6}.{between // 1000 % 1000:03} ms"


def clock(nanoseconds):
    seconds = nanoseconds // 10**9
    return f"{seconds // 3600 % 24:02}:{seconds // 60 % 60:02}:{seconds % 60:02}.{nanoseconds // 10**6 % 1000:03} "


def about(message, most, answered):
    """What a message is. `answered` is what is told of the call that it answers, if it is known."""
    kind, flags = message.data[1], message.data[2]
    interface = message.named(seen.INTERFACE)
    member = f"{short(interface, most)}." if interface is not None else ""
    member += f"{message.named(seen.MEMBER) or '-'}({message.types})"
    call = answered or f"serial {message.key()[1]}"
    if kind == CALL:
        return member + " no reply wanted" * (flags & 1)
    if kind == REPLY:
        return f"reply to {call}"
    if kind == ERROR:
        return f"error {short(message.named(seen.ERROR_NAME), most)} to {call}"
    return f"signal {member}" if kind == SIGNAL else f"type {kind} {member}"


def connection(name, known, width, most):
    """A connection by its own name, and the one by which it is known in brackets, if that fits."""
    room = max(0, most - len(name) - 2) if width else 255
    if known and len(short(known, room)) <= room:
        return f"{name}({short(known, room)})"
    return short(name, most)


def line_of(number, time, message, answered, known, width):
    """The line of a message."""
    data, most = message.data, max(6, min(30, width // 5 - 4)) if width else 255
    column = most if width else 20
    sender = message.named(seen.SENDER) or "-"
    destination = message.named(seen.DESTINATION) or ("*" if data[1] == SIGNAL else "-")
    names = [connection(it, known.get(it), width, most).ljust(column) for it in (sender, destination)]
    text = f"{number:4} {clock(time) if time is not None else ''}{len(data):5} {' > '.join(names)} {about(message, most, answered)}"
    values = ", ".join(message.values())
    shown = "".join(f"\\u{{{ord(it):x}}}" if is_hidden(it) else it for it in f"{text} {values}" if message.types) if message.types else text
    return cut(shown, width)


def cut(text, width):
    """A text as far as it fits so many cells; a character beyond ASCII takes two."""
    cells = [1 if ord(it) < 128 else 2 for it in text]
    if not width or sum(cells) <= width:
        return text
    at, left = 0, width - 1
    while cells[at] <= left:
        left -= cells[at]
        at += 1
    return text[:at] + "~"


def split(data):
    """The bytes of each message."""
    at = 0
    while at < len(data):
        order = "big" if data[at : at + 1] == b"B" else "little"
        body, fields = (int.from_bytes(data[at + it : at + it + 4], order) for it in (4, 12))
        size = 16 + fields + -fields % 8 + body
        yield data[at : at + size]
        at += size


def inputs(paths):
    """Files, each with a name."""
    whole = [it for case in read_cases(DATA / "messages.txt") if case[4].startswith("whole") and not case[1] for it in case[2:4]]
    yield "messages.txt", b"".join(map(read_bytes, whole))
    yield "printed.txt", b"".join(read_bytes(case[2]) for case in read_cases(DATA / "printed.txt"))
    for name, column, _, _, fault in read_cases(DATA / "captures.txt"):
        data = read_parts(column, DATA)
        if not fault and all(it in captures.MESSAGES for it in split(captures.read(data).data)):
            yield name, data
    samples = pathlib.Path(__file__).resolve().parent.parent / "samples"
    paths = [pathlib.Path(it) for it in paths] + sorted(it for it in samples.iterdir() if it.suffix in (".dbus", ".pcap", ".pcapng"))
    yield from ((it.name, it.read_bytes()) for it in paths)


def main(program, *paths):
    wrong, lines = [], 0
    for name, data in inputs(paths):
        given = captures.read(data)
        messages = list(split(given.data))
        # The packet of a message is that of its last byte. Raw messages have none.
        ends = itertools.accumulate(map(len, messages))
        times = [next((time for time, after in zip(given.times, given.ends) if end <= after), None) for end in ends]
        seen_messages = [*map(Message, messages)]
        answered = answers(seen_messages)
        known = [*known_names(seen_messages, answered)]
        calls = {n: (call, seen_messages[call].named(seen.MEMBER) or "-") for n, call in answered.items()}
        told = {n: f"#{call + 1} {member}{took(times[call], times[n])}" for n, (call, member) in calls.items()}
        for width in WIDTHS:
            wanted = [line_of(n + 1, time, it, told.get(n), known[n], width) for n, (time, it) in enumerate(zip(times, seen_messages))]
            ran = subprocess.run([program, "list", "--width", str(width)], input=data, capture_output=True)
            found = ran.stdout.decode().split("\n")[:-1]
            lines += len(wanted)
            wrong += [f"{name}, width {width}:\n{a}\n{b}" for a, b in zip(wanted, found) if a != b]
            if len(wanted) != len(found) or ran.returncode:
                wrong.append(f"{name}, width {width}: {len(found)} lines and not {len(wanted)}, status {ran.returncode} {ran.stderr}")
    print(*wrong[:20], f"{lines} lines, {len(wrong)} wrong", sep="\n")
    return 1 if wrong else 0


if __name__ == "__main__":
    sys.exit(main(*sys.argv[1:]))
