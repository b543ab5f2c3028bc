#!/usr/bin/env python3
"""rewritten.py [PROGRAM]: says how many cases of messages and values are rewritten as messages of a known type and of whole length, and how many cannot
be. It asks the program dbus-wire, if one is given, whether each has the answer that the rewriting says. README.md, "Rewritten messages", says how."""

import collections
import re
import subprocess
import sys

from read_cases import DATA, read_bytes, read_cases
from seen import ALIGNMENTS, NUMBERS, first_type
from streams import stated_length

MESSAGES = ("messages.txt", "faults.txt", "limits.txt", "descriptors.txt")
VALUES = "values.txt"
ORDERS = ("little", "big")
# A message that states more bytes is not filled up.
MOST = 1 << 16
LONGEST_FIELDS, LONGEST = 1 << 26, 1 << 27
METHOD_RETURN, REPLY_SERIAL, SIGNATURE = 2, 5, 8
REQUIRED = {1: {1, 3}, METHOD_RETURN: {REPLY_SERIAL}, 3: {4, REPLY_SERIAL}, 4: {1, 2, 3}}
# The type, and the text or number, of a field of which no more than the code is there.
FIELDS = {1: "o/", 2: "sa.b", 3: "sm", 4: "sa.b", REPLY_SERIAL: "u1", 6: "sa.b", 7: "sa.b", SIGNATURE: "g", 9: "u0"}
UNKNOWN_CODE, UNKNOWN_FIELD = 200, "s"
NAMES_WITH_DOTS = (2, 4, 6, 7)
# The reasons of faults that the stated lengths are a part of.
OF_LENGTHS = ("Overrun", "Trailing")
# What reading bytes by their types may come upon, if they are at fault.
BROKEN = (ValueError, IndexError, KeyError, RecursionError)

# A case in one byte order: its bytes and its answer; and why it is not rewritten or not of whole length, or "".
Rewritten = collections.namedtuple("Rewritten", "order data answer failed")


def order_of(data):
    return "big" if data[:1] == b"B" else "little"


def reply_field(order):
    return b"\5\1u\0" + (1).to_bytes(4, order)


def header(order, fields, body):
    """The first 16 bytes of a reply whose fields and body have these lengths."""
    first = b"B" if order == "big" else b"l"
    return first + b"\2\0\1" + b"".join(number.to_bytes(4, order) for number in (body, 1, fields))


class Draft:
    """A message's bytes, as far as they are given, read by their types. What is missing is put in, without a fault if that can be."""

    def __init__(self, data, reason):
        self.data, self.given, self.order, self.at = bytearray(data), len(data), order_of(data), 16
        self.is_fitted = reason not in OF_LENGTHS
        self.codes, self.types = set(), ""

    def put(self, data):
        """Puts these bytes here, if nothing is given from here on."""
        if self.at >= self.given:
            self.data[self.at :] = data

    def align(self, boundary):
        self.take(-self.at % boundary)

    def take(self, count, missing=b"\0"):
        """As many bytes, with what is missing of them, whose last byte goes on."""
        start, self.at = self.at, self.at + count
        if self.at > MOST:
            raise ValueError("too long")
        lacks = max(self.at - len(self.data), 0)
        self.data += (missing + missing[-1:] * lacks)[:lacks]
        return bytes(self.data[start : self.at])

    def number(self, width):
        self.align(width)
        return int.from_bytes(self.take(width), self.order)

    def state(self, place, number):
        self.data[place : place + 4] = number.to_bytes(4, self.order)

    def text(self, width, missing=b"a"):
        length = self.number(width)
        given = self.data[self.at : self.at + length]
        if missing == b".":
            missing = b"a" if b"." in given else b".a" if given.strip(b":") else b"a.a"
        text = self.take(length, missing)
        self.take(1)
        return text

    def value(self, type, missing=b"a"):
        """The text of the value, if it is one."""
        kind = type[0]
        self.align(ALIGNMENTS[kind])
        if kind in NUMBERS:
            self.take(NUMBERS[kind])
        elif kind in "sog":
            if kind == "o":
                self.put((1).to_bytes(4, self.order) + b"/\0")
            return self.text(ALIGNMENTS[kind], b"y" if kind == "g" else missing)
        elif kind == "v":
            self.put(b"\1y\0\0")
            self.values(self.text(1, b"y").decode())
        elif kind == "a":
            self.array(type[1:])
        else:
            self.values(type[1:-1])
        return b""

    def values(self, types):
        while types:
            first = first_type(types)
            self.value(first)
            types = types[len(first) :]

    def array(self, element):
        place, length = self.at, self.number(4)
        self.align(ALIGNMENTS[element[0]])
        start = self.at
        while self.at < start + length:
            self.value(element)
        if self.at > min(self.given, start + length) and self.is_fitted:
            self.state(place, self.at - start)

    def field(self):
        self.align(8)
        self.put(bytes([UNKNOWN_CODE]))
        code = self.number(1)
        self.codes.add(code)
        usual = FIELDS.get(code, UNKNOWN_FIELD)
        self.put(usual_value(usual[0], usual[1:], self.order))
        types = self.text(1, b"y").decode()
        if types == "g" and code == SIGNATURE:
            self.types = self.value("g").decode("latin1")
        elif types == "s" and code in NAMES_WITH_DOTS:
            self.value("s", b".")
        elif types == "u" and code == REPLY_SERIAL:
            self.align(4)
            self.take(4, b"\1")
        else:
            self.values(types)

    def is_over(self):
        """Whether more was put in than a part was stated to have."""
        return self.is_fitted and self.at > self.given

    def fields(self):
        """Reads the fields, of which the last one given is completed, and returns where they are stated to end."""
        end = 16 + int.from_bytes(self.data[12:16], self.order)
        while self.at < min(end, self.given):
            self.field()
        return end

    def fit(self, place, start, length):
        """Ends the part that starts there and is stated at a place to be so long, once all of it was read that is given. Its length becomes what
        was read; but no greater, if its fault is of lengths, and only if something was put in, since what comes next may be at fault."""
        if self.is_fitted or self.given < self.at < start + length:
            length = self.at - start
            self.state(place, length)
        del self.data[start + length :]
        self.at = start + length


def usual_value(type, text, order):
    """A field after its code."""
    if type == "u":
        return b"\1u\0" + int(text).to_bytes(4, order)
    return b"\1" + type.encode() + b"\0" + len(text).to_bytes(ALIGNMENTS[type], order) + text.encode() + b"\0"


def filled(data, reason):
    """A refused message, filled up to its stated length if that is not over MOST, and the codes of its fields."""
    if len(data) < 16:
        data += (header(order_of(data), 8, 0) + reply_field(order_of(data)))[len(data) :]
    draft, is_short = Draft(data, reason), len(data) < stated_length(data) <= MOST
    try:
        end = draft.fields()
        if draft.is_over() or is_short and len(data) < end:
            draft.fit(12, 16, end - 16)
        draft.align(8)
        body = draft.at
        draft.values(draft.types)
        is_short = is_short or draft.is_over()
        if is_short and reason != "Trailing":
            draft.fit(4, body, int.from_bytes(data[4:8], draft.order))
    except BROKEN:
        pass
    whole = bytes(draft.data)
    stated = stated_length(whole)
    return (whole + bytes(stated))[:stated] if is_short and len(data) <= stated <= MOST else data, draft.codes


def place_of(answer):
    """The place of what is refused, or -1."""
    return int(answer.split(" ")[1]) if answer.startswith("refused") else -1


def as_reply(data, codes, place):
    """The message as a reply, and by how many bytes its places move: a REPLY_SERIAL is put first, unless it has one. If that would take it over a
    limit, or no more than its first 16 bytes are there, only the type changes, or nothing if a field that is missing would be seen before the place."""
    order = order_of(data)
    fields, length = int.from_bytes(data[12:16], order), stated_length(data) if len(data) >= 16 else 0
    reply = data[:1] + bytes([METHOD_RETURN]) + data[2:]
    is_short = len(data) < 16 or len(data) == 16 < length
    if REPLY_SERIAL in codes or place < 16 and is_short:
        return reply, 0
    if is_short or fields + 8 > LONGEST_FIELDS or length + 8 > LONGEST:
        return data, 0
    return reply[:12] + (fields + 8).to_bytes(4, order) + reply_field(order) + reply[16:], 8


def moved(answer, by):
    word, *rest = answer.split(" ")
    return " ".join([word, str(int(rest[0]) + by), *rest[1:]]) if rest and int(rest[0]) >= 16 else answer


def rewritten(data, answer):
    """A message without limits and its answer, as README.md says."""
    word, *rest = answer.split(" ")
    reason = rest[1] if word == "refused" else ""
    whole, codes = filled(data, reason)
    if word == "refused":
        data = whole
    by = 0
    if data[1:2] != b"\0" and len(data) > 1 and not reason.startswith("FieldMissing") and not REQUIRED.get(data[1], {0}) <= codes:
        data, by = as_reply(data, codes, place_of(answer))
    is_cut = word == "refused" and len(data) < stated_length(data)
    return Rewritten(order_of(data), data, moved(answer, by), "it states over 64 KiB" if is_cut else "")


READING = re.compile(r"(done|partial|refused) ?(\d+)?(?: (\S+?))?(?: after \d+| .*)?")


def from_value(case, order):
    """A case of a value as a body: before it come bytes, so that it begins at its place, and around it are as many variants as are open."""
    _, types, settings, little, big, reading, _ = case
    numbers = {name: int(number) for name, _, number in (word.partition("=") for word in settings.split())}
    if {"message", "array", "depth", "fds"} & set(numbers):
        return "it has a limit of its own"
    types, column = read_bytes(types), read_bytes(little if order == "little" else big)
    first, around = numbers.get("at", 0), numbers.get("open", 0)
    variants = b"\1v\0" * (around - 1) + (bytes([len(types)]) + types + b"\0" if around else b"")
    before = b"\1" * ((first - len(variants)) % 8) + variants
    signature = b"y" * (len(before) - len(variants)) + (b"v" if around else types)
    if len(signature) > 255 or len(types) > 255:
        return "its signature would be over 255 bytes"
    word, place, reason = READING.fullmatch(reading).groups()
    body = before + (column[: int(place) - first] if word == "done" else column)
    length = len(body) if word == "done" else len(before) + numbers.get("end", first + len(column)) - first
    fields = reply_field(order) + b"\x08\1g\0" + bytes([len(signature)]) + signature + b"\0"
    head = header(order, len(fields), length) + fields
    start = head + bytes(-len(head) % 8)
    by = len(start) + len(before) - first
    answer = {"done": f"whole {len(start + body)}", "partial": "partial"}.get(word, f"refused {int(place or 0) + by} {reason}")
    return rewritten(start + body, answer)


def from_message(case, order):
    _, limits, little, big, answer = case
    if limits:
        return "it has a limit of its own"
    return rewritten(read_bytes(little if order == "little" else big), answer)


def rewritten_of(file, case):
    """What becomes of a case in each of its byte orders: the message, or why there is none."""
    columns = case[3:5] if file == VALUES else case[2:4]
    for order, column in zip(ORDERS, columns):
        if column:
            yield order, column, (from_value if file == VALUES else from_message)(case, order)


def lines_of(program, data, *options):
    return subprocess.run([program, "check", *options], input=data, capture_output=True).stdout.decode().splitlines()


def said_of(line, at):
    """What dbus-wire says of a message there, as an answer."""
    place, reason = re.match(r"refused at (\d+): (\S+)", line).groups()
    return f"refused {int(place) - at} {reason}"


def said_of_stream(program, asked):
    """An answer for each of these messages, which are one stream: it is dropped by its stated length if it is refused."""
    refused, at = {}, 0
    for line in lines_of(program, b"".join(it.data for it in asked), "--keep-going")[:-1]:
        start = int(line.rpartition(" ")[2])
        refused[start] = said_of(line, start)
    for it in asked:
        yield refused.get(at, f"whole {len(it.data)}")
        at += len(it.data)


def said_alone(program, it):
    answer = said_of(lines_of(program, it.data)[0], 0)
    return "partial" if answer == f"refused {len(it.data)} Truncated" else answer


def differences(program, asked):
    """A line for each message of which dbus-wire does not say what the rewriting says. Those that state no length are asked alone."""
    one_by_one = [it for it in asked if it[1].answer == "partial" or it[1].failed or 0 <= place_of(it[1].answer) < 16]
    stream = [it for it in asked if it not in one_by_one]
    said = [*said_of_stream(program, [it for _, it in stream]), *(said_alone(program, it) for _, it in one_by_one)]
    for (name, it), answer in zip(stream + one_by_one, said):
        if answer != it.answer:
            yield f"{name}: wanted {it.answer}, found {answer}: {it.data.hex()[:300]}"


def main(*words):
    counts, asked = collections.Counter(), []
    for file in (*MESSAGES, VALUES):
        for case in read_cases(DATA / file):
            for order, column, it in rewritten_of(file, case):
                failed = it if isinstance(it, str) else it.failed
                is_same = file != VALUES and not failed and it.data == read_bytes(column)
                counts["not rewritten: " + failed if failed else "as they were" if is_same else "rewritten"] += 1
                asked += [] if isinstance(it, str) else [(f"{file} {case[0]} {order}", it)]
    print(*(f"{count} {what}" for what, count in counts.items()), sep="\n")
    told = [*differences(words[0], asked)] if words else []
    if words:
        print(*told, f"{len(asked)} asked, {len(told)} differ", sep="\n")
    return 1 if told else 0


if __name__ == "__main__":
    sys.exit(main(*sys.argv[1:]))
