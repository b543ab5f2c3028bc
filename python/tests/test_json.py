"""Tests of what the module dbus_wire makes of lines of JSON: `make test-python` runs them.

The lines are those of the captures and of the cases of `encode` (cases/README.md).
"""

import json
import re
import unittest
from unittest import mock

from inputs import CASES, captures
from read_cases import read_cases, read_parts

from dbus_wire import BadJson, BadValue, HeaderField, Limits, Message, MessageType, build, messages
from dbus_wire import _library

REPLY = {"type": "method_return", "reply_serial": 1}


def one_line_cases():
    """The name, the line, the message and the refusal of each case of `encode` of one line and without options."""
    for name, words, given, _, written, told in read_cases(CASES / "encode.txt"):
        line = read_parts(given, CASES).removesuffix(b"\n")
        if words == "encode" and line.strip() and b"\n" not in line:
            yield name, line, read_parts(written, CASES), read_parts(told, CASES).decode()


class FromJson(unittest.TestCase):
    def test_each_line_is_read_back(self):
        for name, data in captures().items():
            for message in messages(data):
                line = message.to_json(7, 99, 5)
                self.assertEqual(Message.from_json(line, 0), message, name)
                self.assertEqual(Message.from_json(json.dumps(json.loads(line), indent=1).encode(), 0), message, name)

    def test_cases(self):
        found = list(one_line_cases())
        self.assertGreater(len(found), 80)
        self.assertGreater(sum(not told for *_, told in found), 10)
        for name, line, written, told in found:
            with self.subTest(name):
                if not told:
                    self.assertEqual(bytes(Message.from_json(line)), written)
                    continue
                with self.assertRaises(BadJson) as caught:
                    Message.from_json(line)
                self.assertEqual(str(caught.exception) + "\n", told.replace("line 1, ", ""))
                column, reason = re.fullmatch(r"refused at line 1, column (\d+): (\w+).*\n", told).groups()
                self.assertEqual((caught.exception.at + 1, caught.exception.reason), (int(column), reason))

    def test_serials(self):
        self.assertEqual([Message.from_json(json.dumps(REPLY), *serial).serial for serial in ((), (7,), (2**32 - 1,))], [1, 7, 2**32 - 1])
        self.assertEqual(Message.from_json(json.dumps(REPLY | {"serial": 5}), 0).serial, 5)
        self.assertEqual(self.refused(REPLY, 0).reason, "ZeroSerial")
        for serial in (-1, 2**32, 1.0):
            self.assertRaises(BadValue, Message.from_json, "{}", serial)

    def test_limits(self):
        line = json.dumps(REPLY)
        self.assertEqual(len(bytes(Message.from_json(line, limits=Limits(message=24)))), 24)
        self.assertEqual(self.refused(REPLY, limits=Limits(message=23)).reason, "MessageTooLong")

    def test_refusals(self):
        missing = self.refused({"type": 2})
        self.assertEqual((missing.at, missing.reason, missing.field), (0, "FieldMissing", HeaderField.REPLY_SERIAL))
        self.assertEqual(str(missing), "refused at column 1: FieldMissing(5)")
        for line, at in (("\ud800", 1), (b'{"a\xff', 3)):
            with self.assertRaises(BadJson) as caught:
                Message.from_json(line)
            self.assertEqual((caught.exception.at, caught.exception.reason, caught.exception.field), (at, "NotUtf8", None))
        # Each double is two bytes of the line and eight of the message, which is more room than there is at first.
        message = build(MessageType.SIGNAL, 1, "ad", [1] * 3000, path="/", interface="a.b", member="C")
        self.assertEqual(Message.from_json(message.to_json()), message)
        with mock.patch.object(_library.library, "dbus_wire_from_json", return_value=_library.NO_MEMORY):
            self.assertRaises(MemoryError, Message.from_json, "{}")

    def refused(self, members, *words, **named):
        with self.assertRaises(BadJson) as caught:
            Message.from_json(json.dumps(members), *words, **named)
        return caught.exception


if __name__ == "__main__":
    unittest.main()
