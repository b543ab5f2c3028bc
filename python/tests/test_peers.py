"""Compares what the module dbus_wire makes of messages with what other programs make of them:
`make test-python` runs it.

They are `dbus-wire`, which DBUS_WIRE_PROGRAM names, and jeepney and dbus-fast, if they are there
(on Debian the packages python3-jeepney and python3-dbus-fast).
"""

import ctypes
import io
import json
import math
import os
import random
import struct
import subprocess
import unittest
import warnings

from inputs import FIELDS, SAMPLES, captures, changed_messages, whole_cases
from random_values import BASIC, Values, parts_of

from dbus_wire import BadValue, Message, MessageType, NotAMessage, Variant, build, byteswap, messages, spell_body

# Their own warnings are not ours.
with warnings.catch_warnings():
    warnings.simplefilter("ignore")
    try:
        import jeepney.low_level as jeepney
    except ImportError:
        jeepney = None
    try:
        from dbus_fast import Variant as FastVariant
        from dbus_fast._private.unmarshaller import Unmarshaller
    except ImportError:
        Unmarshaller = None

PROGRAM = os.environ.get("DBUS_WIRE_PROGRAM")
needs_program = unittest.skipUnless(PROGRAM, "DBUS_WIRE_PROGRAM names no dbus-wire: what it writes is not compared")

TEXTS = ("path", "interface", "member", "error_name", "destination", "sender")


def run(*words, given):
    return subprocess.run([PROGRAM, *words], input=given, capture_output=True).stdout


def json_of(value):
    """The value as `dbus-wire json` writes it."""
    if isinstance(value, float) and not math.isfinite(value):
        return f"{ctypes.c_uint64.from_buffer(ctypes.c_double(value)).value:016x}"
    if isinstance(value, bytes):
        return value.hex()
    if isinstance(value, Variant):
        return {"type": value.signature, "value": json_of(value.value)}
    if isinstance(value, dict):
        value = list(value.items())
    return [json_of(part) for part in value] if isinstance(value, (list, tuple)) else value


def pcap_of(captured):
    """Messages, each with its time in nanoseconds, as a pcap file, of the link type of D-Bus."""
    head = struct.pack("<IHHiIII", 0xA1B23C4D, 2, 4, 0, 0, 1 << 27, 231)
    packets = ((*divmod(time, 10**9), bytes(message)) for message, time in captured)
    return head + b"".join(struct.pack("<4I", seconds, rest, len(data), len(data)) + data for seconds, rest, data in packets)


def line_of(number, offset, message):
    """The message as a line of `dbus-wire json` has it, without the header fields that have no
    name."""
    first = {"number": number, "offset": offset, "length": len(message.data), "order": message.order.value}
    kind = message.type.name.lower() if isinstance(message.type, MessageType) else message.type
    fields = {name: value for name in FIELDS if (value := getattr(message, name)) is not None}
    rest = {"unix_fds": message.unix_fds, "body": json_of(message.body)}
    return first | {"type": kind, "flags": int(message.flags), "serial": message.serial} | fields | rest


def text_of(line):
    """A line of JSON as a text in which 1, 1.0 and true differ, and 0.0 and -0.0."""
    return json.dumps(line, sort_keys=True)


class Lines(unittest.TestCase):
    def test_each_line_has_the_values(self):
        for name, data in captures().items():
            for message in messages(data):
                line = json.loads(message.to_json(7, 99))
                del line["fields"]
                self.assertEqual(text_of({"unix_fds": 0} | line), text_of(line_of(7, 99, message)), name)
        self.assertNotIn("time", line)
        # Each character takes six bytes of the line, which is more room than there is at first.
        message = build(MessageType.SIGNAL, 1, "s", "\1" * 3000, path="/", interface="a.b", member="C")
        self.assertEqual(json.loads(message.to_json())["body"], message.body)
        self.assertEqual(json.loads(message.to_json(time=1_000_000_005))["time"], "1.000000005")


class WithTheProgram(unittest.TestCase):
    @needs_program
    def test_each_value_is_that_of_json(self):
        for name, data in captures().items():
            offset, lines = 0, run("json", given=data).decode().split("\n")[:-1]
            found = list(messages(data))
            self.assertEqual(len(found), len(lines), name)
            for number, (message, line) in enumerate(zip(found, lines), 1):
                right = {"unix_fds": 0} | json.loads(line)
                del right["fields"]
                self.assertEqual(text_of(line_of(number, offset, message)), text_of(right), name)
                offset += len(message.data)

    @needs_program
    def test_each_line_is_that_of_json(self):
        for name, data in captures().items():
            offset, lines = 0, run("json", given=data).decode().split("\n")[:-1]
            for number, (message, line) in enumerate(zip(messages(data), lines), 1):
                self.assertEqual(message.to_json(number, offset), line, name)
                offset += len(message.data)

    @needs_program
    def test_lines_of_packets_have_their_times(self):
        found = list(messages(SAMPLES["session"]))
        times = [0, 999_999_999, 1_764_381_228_123_456_789, *range(10**9, 10**9 + len(found) - 3)]
        lines = run("json", given=pcap_of(zip(found, times))).decode().split("\n")[:-1]
        for number, (message, time, line) in enumerate(zip(found, times, lines), 1):
            self.assertEqual(message.to_json(number, json.loads(line)["offset"], time), line)
        self.assertEqual(len(lines), len(found))

    @needs_program
    def test_lines_are_encoded_to_their_messages(self):
        for name, data in captures().items():
            lines = "".join(f"{message.to_json()}\n" for message in messages(data))
            self.assertTrue(run("encode", given=lines.encode()) == data, name)

    @needs_program
    def test_changed_messages_have_the_fault_of_check(self):
        for data in changed_messages():
            right = run("check", given=data).decode().strip()
            try:
                count = len(list(messages(data)))
                self.assertEqual(f"ok {count} messages {len(data)} bytes", right)
            except NotAMessage as fault:
                self.assertEqual(str(fault), right)

    @needs_program
    def test_captures_are_swapped_as_by_swap(self):
        for name, data in captures().items():
            for order in "lB":
                swapped = b"".join(bytes(message.swapped(order)) for message in messages(data))
                self.assertTrue(swapped == run("swap", "--to", order, given=data), name)


def captured():
    """Each message of the samples, in both orders."""
    for sample in SAMPLES.values():
        for message in messages(sample):
            yield from (byteswap(message.data, order) for order in "lB")


def for_jeepney(value):
    """The value as jeepney has it: a variant is a pair."""
    if isinstance(value, Variant):
        return str(value.signature), for_jeepney(value.value)
    return of_parts(value, for_jeepney, tuple)


def for_dbus_fast(value):
    """The value as dbus-fast has it, but a variant as a pair: a struct is a list."""
    if isinstance(value, (Variant, FastVariant)):
        return str(value.signature), for_dbus_fast(value.value)
    return of_parts(value, for_dbus_fast, list)


def of_parts(value, part, struct):
    if isinstance(value, dict):
        return {key: part(it) for key, it in value.items()}
    if isinstance(value, tuple):
        return struct(part(it) for it in value)
    return [part(it) for it in value] if isinstance(value, list) else value


def header_of(message):
    """What both have of a header, with None for a text that is absent."""
    return [int(message.type), int(message.flags), message.serial, message.reply_serial, *(getattr(message, name) for name in TEXTS)]


def with_a_known_type(data):
    """The message, as a signal if its type is none that the specification names: neither reads
    those."""
    return data[:1] + bytes([data[1] if data[1] <= MessageType.SIGNAL else MessageType.SIGNAL]) + data[2:]


class Peer:
    """`read` reads a message's bytes, `value` gives a value of ours as it has it, and `header` and
    `body` what it read."""

    def test_captured_messages_have_the_same_header_and_values(self):
        for data in captured():
            ours, theirs = Message.parse(data), self.read(data)
            self.assertEqual([*header_of(ours), ours.signature or ""], self.header(theirs))
            self.assertEqual([self.value(value) for value in ours.body], self.body(theirs))

    def test_cases_have_the_same_values(self):
        compared = 0
        for name, data in whole_cases().items():
            try:
                theirs = self.read(with_a_known_type(data))
            except (ValueError, KeyError, IndexError, EOFError):
                # It knows no such header field, wants the descriptors, or wants some field.
                continue
            # Both keep one entry of each key.
            if "dict_that_repeats_a_key" not in name:
                self.assertEqual([self.value(value) for value in Message.parse(data).body], self.body(theirs), name)
                compared += 1
        self.assertGreater(compared, 150)


@unittest.skipUnless(jeepney, "jeepney is not there")
class Jeepney(Peer, unittest.TestCase):
    value = staticmethod(for_jeepney)

    def read(self, data):
        return jeepney.Message.from_buffer(data)

    def header(self, message):
        header, fields = message.header, {code.name: value for code, value in message.header.fields.items()}
        numbers = [header.message_type.value, header.flags.value, header.serial, fields.get("reply_serial")]
        return numbers + [fields.get(name) for name in TEXTS] + [fields.get("signature", "")]

    def body(self, message):
        return list(message.body)


def in_the_form_of_jeepney(one, value):
    """The value of a type in the one form of it that jeepney takes."""
    code, form = one[0], in_the_form_of_jeepney
    if code == "v":
        return value.signature, form(value.signature, value.value)
    if code in "({":
        return tuple(map(form, parts_of(one[1:-1]), value))
    if code != "a":
        return value
    if isinstance(value, (list, tuple)):
        return [form(one[1:], part) for part in value]
    return dict(form(one[1:], entry) for entry in value.items()) if one[1] == "{" else bytes(value)


@unittest.skipUnless(jeepney, "jeepney is not there")
class WhatJeepneyRefuses(unittest.TestCase):
    """What jeepney refuses to spell, the module refuses, but for

    * other forms of what it takes: a tuple for an array, a list for a struct or a dict entry, a bytearray or a memoryview
      for bytes, and a mapping that is no dict;
    * a UNIX_FD, for which it takes a descriptor and not its index, and a Variant, for which it takes a pair.
    """

    def test_what_is_spelled_is_spelled_by_jeepney(self):
        values, spelled = Values(random.Random(3), BASIC.replace("h", "")), 0
        for _ in range(10000):
            one, other = values.type(), values.type(1)
            value = values.choice([values.right(one), values.right(other), values.wrong(one)[0]])
            try:
                ours = spell_body(one, [value])
            except BadValue:
                continue
            theirs = jeepney.parse_signature(list(f"({one})"))
            self.assertEqual(theirs.serialise((in_the_form_of_jeepney(one, value),), 0, jeepney.Endianness.little), ours, one)
            spelled += 1
        self.assertGreater(spelled, 3000)


@unittest.skipUnless(Unmarshaller, "dbus-fast is not there")
class DbusFast(Peer, unittest.TestCase):
    value = staticmethod(for_dbus_fast)

    def read(self, data):
        return Unmarshaller(io.BytesIO(data)).unmarshall()

    def header(self, message):
        numbers = [message.message_type.value, message.flags.value, message.serial, message.reply_serial or None]
        return numbers + [getattr(message, name) or None for name in TEXTS] + [message.signature]

    def body(self, message):
        return [for_dbus_fast(value) for value in message.body]


if __name__ == "__main__":
    unittest.main()
