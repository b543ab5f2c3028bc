"""Tests of the module dbus_wire, over the library that DBUS_WIRE_LIBRARY names: `make test-python`
runs them.

What the module makes of the cases is compared with the answers in them (cases/README.md).
"""

import contextlib
import io
import os
import pickle
import queue
import re
import socket
import tempfile
import time
import unittest
from concurrent.futures import ThreadPoolExecutor
from unittest import mock

from inputs import FIELDS, ROOT, SAMPLES, changed_messages, message_cases, whole_cases
from read_cases import read_bytes, read_cases

import dbus_wire
from dbus_wire import (
    BadAddress,
    BadLine,
    BadRule,
    Bounds,
    Checker,
    Client,
    HeaderField,
    Limits,
    LineCommand,
    Message,
    MessageFlag,
    MessageType,
    NotAMessage,
    NotPassed,
    ObjectPath,
    Refused,
    Rule,
    RuleSet,
    Server,
    Signature,
    Status,
    Step,
    TextFault,
    TextKind,
    Truncated,
    Variant,
    Watch,
    WholeParts,
    build,
    byteswap,
    check_text,
    client_line,
    connect,
    explain,
    messages,
    parse_addresses,
    rebuild,
    server_line,
    spell_body,
    stated_length,
    whole_parts,
)
from dbus_wire import _library

SESSION = SAMPLES["session"]
CASES = ROOT / "cases/data"
CASE_KINDS = {"text": "STRING", "path": "OBJECT_PATH"}


def first_of(data, limits):
    return next(messages(data, limits))


def refusal(fault):
    return str(fault).replace("refused at ", "refused ").replace(":", "")


def answer_of(data, limits=None, read=Message.parse):
    """What is read of the bytes, as a case says it."""
    try:
        return f"whole {len(read(data, limits).data)}"
    except Truncated as fault:
        assert fault.at == len(data)
        return "partial"
    except Refused as fault:
        return refusal(fault)


def answer_in_pieces(data, length, limits=None):
    """What a checker says of the bytes in pieces of this length, as a case says it."""
    with Checker(limits) as checker:
        for at in range(0, len(data), length):
            try:
                end = checker.take(data[at : at + length])
            except Refused as fault:
                return refusal(fault)
            if end is not None:
                return f"whole {at + end}"
    return "partial"


def dictionaries(depth, last):
    """The bytes of dictionaries in one another, from 4 bytes after a boundary of 8, of which the
    innermost holds these bytes."""
    entry = b"\1" + (last if depth == 1 else bytes(3) + dictionaries(depth - 1, last))
    return len(entry).to_bytes(4, "little") + entry


def deep_message():
    """A message of a BYTE and a value of 63 containers in one another, all of them arrays of dict
    entries but one variant."""
    outer, inner = (b"a{y" * depth + last + b"}" * depth for depth, last in ((32, b"v"), (30, b"y")))
    body = bytes(4) + dictionaries(32, bytes([len(inner)]) + inner + b"\0" + dictionaries(30, b"\2"))
    fields = b"\x08\1g\0" + bytes([1 + len(outer)]) + b"y" + outer + b"\0"
    lengths = (len(body).to_bytes(4, "little"), (1).to_bytes(4, "little"), len(fields).to_bytes(4, "little"))
    return b"l\5\0\1" + b"".join(lengths) + fields + body


class Cases(unittest.TestCase):
    def test_parse_gives_the_answers(self):
        for name, limits, data, answer in message_cases():
            self.assertEqual(answer_of(data, limits), answer, name)

    def test_checkers_give_the_answers(self):
        for name, limits, data, answer in message_cases():
            for length in (1, 7, 4096):
                self.assertEqual(answer_in_pieces(data, length, limits), answer, name)

    def test_stated_lengths_are_those_of_the_messages(self):
        for name, data in whole_cases().items():
            self.assertEqual(stated_length(data[:16]), len(data), name)
            self.assertIsNone(stated_length(data[:15]), name)
        with self.assertRaises(Refused) as caught:
            stated_length(b"l\1\0\2")
        self.assertEqual(str(caught.exception), "refused at 3: Version")

    def test_values_of_each_type(self):
        cases = whole_cases()

        def body(name):
            return Message.parse(cases[f"messages: {name} l"]).body

        self.assertEqual(body("boolean"), [True])
        self.assertIs(body("boolean")[0], True)
        self.assertEqual(body("double_bytes_and_struct"), [1.0, b"\x00\xff", [], (1, 2)])
        self.assertEqual(repr(body("variant_of_a_byte")), "[Variant(signature=Signature('y'), value=7)]")
        least = 7 * 2.0**-1074
        entries, pair, index, text = body("dict_struct_index_and_text")
        self.assertEqual((entries, pair, text), ({"key": Variant(Signature("ay"), b"\1\2\3")}, (-1, least), ""))
        self.assertEqual(repr(index), "UnixFd(0)")
        self.assertEqual(f"{index}", "0")
        self.assertEqual(body("dict_that_repeats_a_key"), [[(1, 2), (1, 3)]])
        path, signature = body("error_with_a_body")
        self.assertEqual((repr(path), repr(signature)), ("ObjectPath('/b')", "Signature('ay')"))

    def test_a_deep_value_is_read(self):
        value, depth = Message.parse(deep_message()).body[1], 0
        while value != 2:
            value, depth = value.value if isinstance(value, Variant) else value[1], depth + 1
        self.assertEqual(depth, 63)

    def test_swapped_messages_have_the_same_values(self):
        for name, data in whole_cases().items():
            message = Message.parse(data)
            for order in "lB":
                swapped = message.swapped(order)
                self.assertEqual(swapped.order, order)
                self.assertEqual(repr(swapped.body), repr(message.body), name)
                self.assertEqual(swapped.swapped(message.order), message, name)

    def test_what_is_built_of_parts_has_them(self):
        names = [name for name in (*FIELDS, "order", "type", "flags", "unix_fds")]
        for name, data in whole_cases().items():
            message = Message.parse(data)
            parts = {part: getattr(message, part) for part in names}
            built = build(serial=77, body=message.body_bytes, **parts)
            self.assertEqual(({part: getattr(built, part) for part in names}, built.serial), (parts, 77), name)
            self.assertEqual(repr(built.body), repr(message.body), name)

    def test_a_message_that_is_not_changed_comes_back(self):
        session = list(messages(SESSION))
        self.assertEqual(len(session), 136)
        for message in (*session, *map(Message.parse, whole_cases().values())):
            self.assertEqual(rebuild(message).data, message.data)

    def test_a_message_that_is_changed_keeps_its_other_fields(self):
        for name, data in whole_cases().items():
            message = Message.parse(data)
            changed = rebuild(message, serial=77, sender=":1.7")
            self.assertEqual((changed.serial, changed.sender, changed.body_bytes), (77, ":1.7", message.body_bytes), name)
            others = [repr(part) for part in message.header_fields if part[0] != HeaderField.SENDER]
            self.assertEqual([repr(part) for part in changed.header_fields if part[0] != HeaderField.SENDER], others, name)
        signal = build(MessageType.SIGNAL, 1, path="/", interface="a.b", member="C", sender=":1.2")
        self.assertEqual([code for code, _ in rebuild(signal, sender=None, destination="a.b").header_fields], [1, 2, 3, 6])
        self.assertRaises(TypeError, rebuild, signal, order="B")
        self.assertRaises(Refused, rebuild, signal, path=None)

    def test_bodies_are_spelled_as_they_are(self):
        for name, data in whole_cases().items():
            message = Message.parse(data)
            self.assertEqual(spell_body(message.signature or "", message.body, message.order), message.body_bytes, name)

    def test_values_have_other_forms(self):
        pairs = [("k", Variant("(yai)", [1, (-1,)]))]
        self.assertEqual(spell_body("a{sv}", [{"k": Variant("(yai)", (1, [-1]))}]), spell_body("a{sv}", [pairs]))
        self.assertEqual(spell_body("ay", [[1, 2]], "B"), b"\0\0\0\2\1\2")

    def test_parts_of_no_message_are_refused(self):
        signal = {"type": MessageType.SIGNAL, "serial": 1, "path": "/", "interface": "a.b", "member": "C"}
        self.assertEqual(build(**signal).member, "C")
        for changed, reason in (
            ({"type": 0}, "Kind"),
            ({"type": 256}, "Overrun"),
            ({"serial": 0}, "ZeroSerial"),
            ({"path": "a"}, "Path of path"),
            ({"path": "/\udc80"}, "Path of path"),
            ({"sender": "a"}, "BusName of sender"),
            ({"member": None}, "FieldMissing(3)"),
            ({"signature": "y" * 256, "body": b""}, "Signature of signature"),
            ({"signature": "u", "body": bytes(3)}, "Overrun"),
            ({"body": b"\0"}, "Trailing"),
        ):
            with self.assertRaises(Refused) as caught:
                build(**signal | changed)
            self.assertEqual(str(caught.exception), f"refused at {caught.exception.at}: {reason}", changed)
        self.assertRaises(ValueError, build, **signal | {"serial": 1 << 32})
        self.assertRaises(Refused, build, **signal, limits=Limits(message=16))

    def test_texts_have_the_answers(self):
        for _, kind, text, answer in read_cases(CASES / "names.txt"):
            self.hold_text(TextKind[CASE_KINDS.get(kind, kind.upper())], text, answer)
        for _, text, signature, single, *_ in read_cases(CASES / "signatures.txt"):
            self.hold_text(TextKind.SIGNATURE, text, signature)
            self.hold_text(TextKind.SINGLE_TYPE, text, single)

    def hold_text(self, kind, text, answer):
        word, _, place = answer.rpartition(" ")
        faults = {"bad": lambda: TextFault(int(place)), "too long": lambda: TextFault(None)}
        self.assertEqual(check_text(kind, read_bytes(text)), faults[word]() if word in faults else None, (kind, text))


class Messages(unittest.TestCase):
    def test_header_fields(self):
        message = next(messages(SESSION))
        self.assertEqual(message.type, MessageType.SIGNAL)
        self.assertEqual(message.flags, MessageFlag.NO_REPLY_EXPECTED)
        self.assertEqual((message.serial, message.unix_fds, message.reply_serial, message.error_name), (2, 0, None, None))
        self.assertEqual(message.path, ObjectPath("/org/freedesktop/DBus"))
        self.assertEqual((message.interface, message.member), ("org.freedesktop.DBus", "NameAcquired"))
        self.assertEqual((message.sender, message.destination, message.signature), ("org.freedesktop.DBus", ":1.2", "s"))

    def test_header_fields_are_all_there(self):
        names = ("path", "interface", "member", "error_name", "reply_serial", "destination", "sender", "signature", "unix_fds")
        for name, data in whole_cases().items():
            message = Message.parse(data)
            known = {names[code - 1]: value for code, value in message.header_fields if code <= len(names)}
            self.assertEqual(known, {part: getattr(message, part) for part in names if part in known}, name)
            self.assertEqual([part for part in names[:8] if getattr(message, part) is not None and part not in known], [], name)
        unknown = Message.parse(whole_cases()["messages: unknown_fields_of_each_kind_of_value B"]).header_fields
        self.assertEqual(
            repr(unknown),
            "[(10, 'text'), (11, b'\\x01\\x02\\x03'), (12, Variant(signature=Signature('y'), value=7)), (13, (1, 2)), (14, {}), (15, True)]",
        )

    def test_unknown_types_and_flags_are_kept(self):
        cases = whole_cases()
        self.assertEqual(Message.parse(cases["messages: unknown_type_255 l"]).type, 255)
        self.assertEqual(int(Message.parse(cases["messages: all_flag_bits l"]).flags), 255)

    def test_bytes_that_may_be_written_are_copied(self):
        data = bytearray(SESSION[:169])
        message = Message.parse(memoryview(data))
        data[:] = bytes(169)
        self.assertEqual(message.body, [":1.2"])
        self.assertEqual(bytes(message), SESSION[:169])

    def test_messages_can_be_compared_and_pickled(self):
        message = Message.parse(SESSION[:169])
        self.assertEqual(len({message, Message.parse(SESSION[:169]), pickle.loads(pickle.dumps(message))}), 1)
        with self.assertRaises(AttributeError):
            message.serial = 3

    def test_parse_wants_exactly_one_message(self):
        for data, right in (
            (SESSION[:170], "refused at 169: Trailing"),
            (SESSION[:168], "refused at 168: Truncated"),
            (b"", "refused at 0: Truncated"),
        ):
            for call in (Message.parse, lambda data: byteswap(data, "B")):
                with self.assertRaises(NotAMessage) as caught:
                    call(data)
                self.assertEqual(str(caught.exception), right)

    def test_places_count_from_the_start_of_the_input(self):
        for rest, right in ((b"x", Refused), (SESSION[:20], Truncated)):
            found = []
            with self.assertRaises(right) as caught:
                found.extend(messages(SESSION + rest))
            self.assertEqual(caught.exception.at, len(SESSION) + (0 if right is Refused else 20))
            found = messages(SESSION + rest)
            self.assertEqual(sum(1 for _ in zip(range(136), found)), 136)

    def test_why_bytes_are_refused_is_explained(self):
        path = "/" + "a" * 2000
        signal = build(MessageType.SIGNAL, 7, "a{sv}", {"Title": Variant("s", "hi")}, path=path, interface="b.c", member="D").data
        found = explain(signal[:-1] + b"\1" + SESSION, number=2, offset=96)
        self.assertEqual(found.name, 'body[0]["Title"].value.variant')
        self.assertEqual(found.head, f"#2 l signal serial=7 flags=00 path={path} interface=b.c member=D signature=a{{sv}}")
        self.assertEqual(found.rule, 'a 0 follows a text (D-Bus Specification, "Marshaling (Wire Format)")')
        self.assertEqual((found.text.at, found.text.length), (len(signal) - 3, 2))
        self.assertEqual(str(found.fault), f"refused at {len(signal) - 1}: Nul")
        place = f"  message 2 at 96, byte {len(signal) - 1}: {found.name}, a text from byte {found.text.at} of stated length 2"
        first, second, _, last, end = str(found).split("\n")
        self.assertEqual((first, second, last, end), (place, f"  {found.head}", f"  {found.rule}", ""))
        self.assertEqual((explain(b"l\0").head, explain(b"l\0").text), (None, None))
        self.assertEqual(explain(signal, Limits(message=16)).name, "the length of the header fields")
        for data in (signal, signal + b"x", signal[:-1], b""):
            self.assertIsNone(explain(data), data)
            self.assertIsNone(whole_parts(data), data)

    def test_parts_before_a_fault(self):
        for order in "lB":
            body = ("hi", 7, {"A": Variant("s", "b")}, ["c", "d"])
            signal = build(MessageType.SIGNAL, 7, "sua{sv}as", *body, order=order, path="/a", interface="b.c", member="D")
            fields, values, data = signal.header_fields, signal.body, signal.data
            self.assertEqual(whole_parts(data[:-1] + b"\1"), WholeParts(fields, values[:3]))
            changed = (data[:at] + b"\xff" + data[at + 1 :] for at in range(16, len(data)))
            # What comes before the changed byte is as it was.
            at_it = [it for it in changed if (found := explain(it)) and data[: found.fault.at] == it[: found.fault.at]]
            found = [whole_parts(it) for it in at_it]
            self.assertEqual([it for it in found if it != WholeParts(fields[: len(it.header_fields)], values[: len(it.body)])], [])
            self.assertEqual({len(it.header_fields) for it in found}, set(range(len(fields) + 1)))
            self.assertEqual({len(it.body) for it in found}, {0, 1, 2, 3})
        self.assertEqual(whole_parts(b"l\0"), WholeParts([], []))

    def test_the_missing_field_is_reported(self):
        with self.assertRaises(Refused) as caught:
            Message.parse(b"l\1\0\1" + bytes(4) + b"\1" + bytes(7))
        self.assertEqual((caught.exception.reason, caught.exception.field), ("FieldMissing", HeaderField.PATH))
        self.assertEqual(str(pickle.loads(pickle.dumps(caught.exception))), "refused at 16: FieldMissing(1)")

    def test_wrong_arguments(self):
        self.assertRaises(TypeError, Message.parse, 3)
        self.assertRaises(TypeError, Message.parse, "l")
        self.assertRaises(ValueError, byteswap, SESSION[:169], "x")
        self.assertRaises(ValueError, check_text, 0, "a")
        self.assertRaises(ValueError, Limits, depth=-1)

    def test_texts_may_be_python_strings(self):
        self.assertIsNone(check_text(TextKind.STRING, "größer"))
        self.assertEqual(check_text(TextKind.STRING, "ö\ud800"), TextFault(3))
        self.assertEqual(check_text(TextKind.MEMBER, "a" * 256), TextFault(None))


class Streams(unittest.TestCase):
    def test_files_bytes_and_short_reads(self):
        class Short(io.BytesIO):
            def read(self, count=-1):
                return super().read(min(count, 5))

        right = list(messages(SESSION))
        self.assertEqual(b"".join(map(bytes, right)), SESSION)
        with open(ROOT / "samples/session.dbus", "rb", buffering=0) as raw:
            self.assertEqual(list(messages(raw)), right)
        self.assertEqual(list(messages(Short(SESSION))), right)
        self.assertEqual(list(messages(b"")), [])

    def test_a_message_comes_before_the_next_is_there(self):
        reader, writer = os.pipe()
        with open(reader, "rb") as source, open(writer, "wb", buffering=0) as sink:
            sink.write(SESSION[:169])
            self.assertEqual(next(messages(source)).body, [":1.2"])

    def test_a_file_that_does_not_block(self):
        class NotYet(io.RawIOBase):
            def readinto(self, room):
                return None

        self.assertRaises(BlockingIOError, next, messages(NotYet()))

    def test_limits(self):
        longest = max(len(message.data) for message in messages(SESSION))
        self.assertEqual(len(list(messages(SESSION, Limits(message=longest)))), 136)
        with self.assertRaises(Refused) as caught:
            list(messages(SESSION, Limits(message=longest - 1)))
        self.assertEqual(caught.exception.reason, "MessageTooLong")
        stream = io.BytesIO(SESSION)
        self.assertRaises(Refused, next, messages(stream, Limits(message=168)))
        self.assertEqual(stream.tell(), 16)
        self.assertEqual(len(list(messages(SESSION, Limits(message=1 << 70, array=1 << 32, depth=1 << 64)))), 136)
        self.assertEqual(Limits(), Limits(134217728, 67108864, 64, False))


class Checkers(unittest.TestCase):
    def test_the_messages_of_a_stream_in_pieces(self):
        for data in SAMPLES.values():
            for length in (1, 64, 4096):
                found, taken = [], 0
                with Checker() as checker:
                    for piece in (data[at : at + length] for at in range(0, len(data), length)):
                        while piece and (end := checker.take(piece)) is not None:
                            found.append(taken + end)
                            piece, taken = piece[end:], 0
                            checker.restart()
                        taken += len(piece)
                self.assertEqual((found, taken), ([len(message.data) for message in messages(data)], 0))

    def test_changed_messages_have_one_answer(self):
        for data in changed_messages():
            right = answer_of(data, read=first_of)
            for length in (1, 50, len(data)):
                self.assertEqual(answer_in_pieces(data, length), right)

    def test_it_stays_until_it_is_restarted(self):
        checker = Checker()
        self.assertEqual([checker.take(SESSION), checker.take(SESSION)], [169, 0])
        checker.restart()
        for _ in range(2):
            self.assertRaises(Refused, checker.take, b"x")
        checker.restart()
        self.assertIsNone(checker.take(b""))

    def test_a_closed_checker(self):
        with Checker() as checker:
            pass
        checker.close()
        self.assertRaises(ValueError, checker.take, b"l")
        self.assertRaises(ValueError, checker.restart)

    def test_checkers_are_freed(self):
        with mock.patch.object(dbus_wire._checker.library, "dbus_wire_checker_free", wraps=_library.library.dbus_wire_checker_free) as free:
            Checker()
            self.assertEqual(free.call_count, 1)
            with Checker() as checker:
                checker.close()
            del checker
            self.assertEqual(free.call_count, 2)

    def test_out_of_memory(self):
        with mock.patch.object(_library.library, "dbus_wire_checker_new", return_value=_library.NO_MEMORY):
            self.assertRaises(MemoryError, Checker)


class Rules(unittest.TestCase):
    def test_each_case_of_a_rule(self):
        for name, text, said in read_cases(CASES / "rules.txt"):
            with self.subTest(name):
                answer, *right = said.split(" ", 1)
                if answer == "accepted":
                    canonical = read_bytes(*right).decode("utf-8")
                    rule = Rule(read_bytes(text))
                    self.assertEqual((str(rule), str(Rule(canonical))), (canonical, canonical))
                else:
                    with self.assertRaises(BadRule) as caught:
                        Rule(read_bytes(text))
                    self.assertEqual(f"{caught.exception.at} {caught.exception.reason}", *right)

    def test_each_case_of_a_message(self):
        for name, text, owners, *columns, said in read_cases(CASES / "matches.txt"):
            with self.subTest(name), Rule(read_bytes(text)) as rule:
                for word in owners.split():
                    rule.set_owner(*word.split("="))
                for message in (Message.parse(read_bytes(column)) for column in columns if column):
                    self.assertEqual(rule.matches(message), said == "yes")

    def test_texts_that_are_no_rules(self):
        for text, fault in (("type", "rule refused at 4: NoEquals"), (b"arg0=\xff", "rule refused at 5: NotUtf8")):
            self.assertRaisesRegex(BadRule, fault, Rule, text)
        self.assertEqual(str(Rule("arg0=" + "x" * 1000)), f"arg0='{'x' * 1000}'")

    def test_owners_that_change(self):
        message = Message.parse(SESSION[:169])
        with Rule("sender='org.a.B'") as rule:
            for name, owner, matches in (
                ("org.a.C", message.sender, False),
                ("org.a.B", message.sender, True),
                ("org.a.B", ":1.7", False),
                ("org.a.B", message.sender, True),
                ("org.a.B", None, False),
            ):
                rule.set_owner(name, owner)
                self.assertEqual(rule.matches(message), matches)

    def test_owners_that_are_no_names(self):
        for name, owner in (("org.a.B\norg.a.C", ":1.1"), ("", ":1.1"), ("org.a.B", "b"), ("\ud800", None)):
            self.assertRaises(ValueError, Rule("").set_owner, name, owner)

    def test_a_closed_rule(self):
        with Rule("") as rule:
            pass
        rule.close()
        self.assertRaises(ValueError, rule.matches, Message.parse(SESSION[:169]))
        self.assertRaises(ValueError, str, rule)

    def test_out_of_memory(self):
        with mock.patch.object(_library.library, "dbus_wire_rules_add", return_value=_library.NO_MEMORY):
            self.assertRaises(MemoryError, Rule, "")

    def test_each_rule_of_a_set(self):
        captured = list(messages(io.BytesIO(SESSION)))
        texts = [text for name, text, said in read_cases(CASES / "rules.txt") if said.startswith("accepted")]
        with RuleSet() as rules:
            numbers = {rules.add(read_bytes(text)): Rule(read_bytes(text)) for text in texts}
            for number in list(numbers)[::3]:
                self.assertEqual(rules.text(number), str(numbers.pop(number)))
                rules.remove(number)
                self.assertRaises(KeyError, rules.remove, number)
            self.assertEqual(len(rules), len(numbers))
            for message in captured:
                self.assertEqual(set(rules.matching(message)), {number for number, rule in numbers.items() if rule.matches(message)})
                for rule in numbers.values():
                    # What matches may match.
                    self.assertLessEqual(rule.matches(message), rule.may_match(message, message.sender))
                self.assertEqual(
                    rules.may_match(message, message.sender),
                    any(rule.may_match(message, message.sender) for rule in numbers.values()),
                )
            rules.ask_as_bus()
            for message in captured:
                asked = {it for it, rule in numbers.items() if message.destination is None or "eavesdrop='true'" in str(rule)}
                self.assertEqual(set(rules.matching(message)), {it for it in asked if numbers[it].matches(message)})


class Handshakes(unittest.TestCase):
    GUID = "0123456789ABCDEF0123456789abcdef"

    def end_of(self, setup):
        """The end of a case; None of a client whose mechanisms no call asks for, as EXTERNAL twice."""
        kind, *words = re.findall(r'\w+(?:=(?:\d+\*)?"[^"]*"|=\S+)?', setup)
        given = dict(word.split("=", 1) if "=" in word else (word, "") for word in words)
        user = int(given.get("user") or given.get("external") or 0)
        bounds = Bounds(int(given["rejections"]), int(given["errors"])) if "errors" in given else None
        if kind == "server":
            user = user if "user" in given else None
            return Server(given.get("guid", self.GUID), user, anonymous="anonymous" in given, descriptors="agrees" in given, bounds=bounds)
        if [it for it in (word.split("=")[0] for word in words) if it not in ("asks", "rejections", "errors")] not in ([], ["external"], ["anonymous"], ["external", "anonymous"]):
            return None
        trace = read_bytes(given["anonymous"]) if "anonymous" in given else None
        user, reported = user if given.get("external") else None, given.get("external") == ""
        return Client(user=user, reported=reported, trace=trace, descriptors="asks" in given, bounds=bounds)

    def test_each_case_of_an_end(self):
        tried = 0
        for name, setup, received, sent, taken, status, state in read_cases(CASES / "dialogues.txt"):
            with self.subTest(name):
                end, rest = self.end_of(setup), read_bytes(received)
                if end is None:
                    continue
                tried += 1
                step = end.take() if isinstance(end, Client) else Step(0, b"", Status.TALKING)
                reply, counts = step.reply, []
                while step.status == Status.TALKING and rest:
                    step = end.take(rest)
                    reply, rest = reply + step.reply, rest[step.count :]
                    counts += [step.count] if step.count else []
                said = (reply, " + ".join(map(str, counts)) or "0", step.status.name.lower())
                self.assertEqual(said, (read_bytes(sent), taken, status))
                self.assertEqual(end.agreed, state.endswith(" agreed"))
        self.assertGreater(tried, 100)

    def shake(self, client, server, size):
        """Both ends, whose bytes come in pieces; and how many lines each sent."""
        to_server, to_client, lines = b"", b"", [0, 0]
        for _ in range(1000):
            at_client = client.take(to_client[:size])
            to_client, to_server = to_client[at_client.count :], to_server + at_client.reply
            at_server = server.take(to_server[:size])
            to_server, to_client = to_server[at_server.count :], to_client + at_server.reply
            lines = [lines[0] + at_client.reply.count(b"\n"), lines[1] + at_server.reply.count(b"\n")]
            if Status.TALKING not in (at_client.status, at_server.status):
                return at_client.status, at_server.status, lines
        self.fail("the ends do not come to an end")

    def test_a_watch(self):
        guid = b"0123456789abcdef" * 2
        watch = Watch()
        self.assertEqual(watch.client(b"\0AUTH EXTERNAL\r\n")[:2], (1, LineCommand.NUL))
        self.assertEqual(watch.client(b"AUTH EXTERNAL\r\nBEGIN\r\n")[:3], (15, LineCommand.AUTH, "EXTERNAL"))
        self.assertIsNone(watch.client(b"BEGIN\r\nl"))
        self.assertIsNone(watch.server(b"OK "))
        self.assertEqual(watch.server(b"OK " + guid + b"\r\n").command, LineCommand.OK)
        self.assertFalse(watch.has_begun)
        self.assertEqual(watch.client(b"BEGIN\r\nl").command, LineCommand.BEGIN)
        self.assertTrue(watch.has_begun)
        self.assertEqual((watch.client(b"l"), watch.server(b"l")), (None, None))

    def test_a_watch_of_all_lines_at_once(self):
        # sd-bus sends BEGIN in one write behind NEGOTIATE_UNIX_FD.
        lines = (b"\0", b"AUTH EXTERNAL\r\n", b"DATA\r\n", b"NEGOTIATE_UNIX_FD\r\n")
        watch, sent = Watch(), b"".join(lines) + b"BEGIN\r\nl"
        for line in lines:
            self.assertEqual(watch.client(sent).length, len(line))
            sent = sent[len(line) :]
        for answer in (b"DATA\r\n", b"OK " + b"f" * 32 + b"\r\n", b"AGREE_UNIX_FD\r\n"):
            self.assertIsNone(watch.client(sent))
            self.assertEqual(watch.server(answer).length, len(answer))
        self.assertEqual(watch.client(sent).command, LineCommand.BEGIN)

    def test_a_watch_refuses(self):
        for sent, command in ((b"BEGIN \r\n", LineCommand.BEGIN), (b"BEGIN\r\n", LineCommand.BEGIN), (b"OK\r\n", LineCommand.OTHER), (b"\n", None)):
            watch = Watch()
            watch.client(b"\0")
            for data in (sent, b"AUTH\r\n"):
                with self.assertRaises(NotPassed) as caught:
                    watch.client(data)
                self.assertEqual(caught.exception.line and caught.exception.line.command, command if data is sent else None)
        for answer, passes in ((b"AGREE_UNIX_FD", True), (b"ERROR", True), (b"REJECTED", False), (b"DATA", False), (b"OK " + b"0" * 32, False)):
            watch = Watch()
            for data in (b"\0", b"AUTH\r\n", b"NEGOTIATE_UNIX_FD\r\n"):
                watch.client(data)
            watch.server(b"OK " + b"f" * 32 + b"\r\n")
            with self.subTest(answer):
                with contextlib.nullcontext() if passes else self.assertRaises(NotPassed):
                    watch.server(answer + b"\r\n")
        self.assertRaises(NotPassed, Watch().client, b"AUTH\r\n")
        self.assertRaises(NotPassed, Watch().server, b"OK\r\n")

    def test_lines(self):
        self.assertEqual(client_line(b"AUTH  A 6C \r\nBEGIN"), (13, LineCommand.AUTH, "A", "6C", False))
        self.assertEqual(client_line(b"AUTH A 6c\r\n"), (11, LineCommand.AUTH, "A", "6c", True))
        self.assertEqual([client_line(it).is_exact for it in (b"BEGIN\r\n", b"BEGIN \r\n")], [True, False])
        self.assertEqual(server_line(b"REJECTED A  B\r\n"), (15, LineCommand.REJECTED, None, "A  B", False))
        self.assertEqual(server_line(b"BEGIN\r\n"), (7, LineCommand.OTHER, None, None, False))
        self.assertIsNone(client_line(b"BEGIN\r"))
        for data, at in ((b"A\n", 1), (b"A" * 16383, None)):
            with self.assertRaises(BadLine) as caught:
                client_line(data)
            self.assertEqual(caught.exception.at, at)

    def test_both_ends(self):
        begun = (Status.BEGUN, Status.BEGUN)
        for asked, offered, ends, lines in (
            ({"user": 1000}, {"user": 1000}, begun, [2, 1]),
            ({"reported": True}, {"user": 7}, begun, [3, 2]),
            ({"user": 1000, "trace": b"t" * 255}, {"user": 7, "anonymous": True}, begun, [3, 2]),
            ({"trace": b""}, {"anonymous": True}, begun, [2, 1]),
            ({"user": 7, "descriptors": True}, {"user": 7, "descriptors": True}, begun, [3, 2]),
            ({"user": 7, "descriptors": True}, {"user": 7}, begun, [3, 2]),
            ({"user": 7}, {"user": 7, "descriptors": True}, begun, [2, 1]),
        ):
            for size in (1, 5, 4096):
                with self.subTest(asked, size=size), Client(**asked) as client, Server(self.GUID, **offered) as server:
                    self.assertIsNone(client.guid)
                    self.assertEqual(self.shake(client, server, size), (*ends, lines))
                    self.assertEqual(client.guid, self.GUID.lower())
                    both = all("descriptors" in given for given in (asked, offered))
                    self.assertEqual((client.agreed, server.agreed), (both, both))
                    self.assertEqual((client.take(b"l\1").count, server.take(b"l\1").count), (0, 0))

    def test_hands_are_shaken_over_a_socket(self):
        here, there = socket.socketpair()
        with here, there, ThreadPoolExecutor(1) as pool, Client(user=7) as client, Server(self.GUID, 7) as server:
            serving = pool.submit(server.shake_hands, there)
            client.shake_hands(here)
            here.sendall(SESSION)
            serving.result(20)
            self.assertEqual(client.guid, self.GUID.lower())
            with there.makefile("rb") as file:
                self.assertEqual(next(messages(file)).body, [":1.2"])

    def test_hands_are_shaken_with_a_client_that_left(self):
        here, there = socket.socketpair()
        with there, Server(self.GUID, 7) as server:
            with here:
                server.take(b"\0AUTH EXTERNAL 37\r\n")
                here.sendall(b"BEGIN\r\n" + SESSION)
            server.shake_hands(there)
            self.assertEqual(server.take(b"l").status, Status.BEGUN)

    def test_hands_that_are_not_shaken(self):
        for ending, text in ((b"REJECTED\r\n", "the handshake failed"), (b"REJ", "the connection ended in the handshake")):
            here, there = socket.socketpair()
            with here, there, Client(user=7) as client:
                there.sendall(ending)
                there.shutdown(socket.SHUT_WR)
                self.assertRaisesRegex(ConnectionError, text, client.shake_hands, here)
                self.assertEqual(there.recv(100), b"\0AUTH EXTERNAL 37\r\n")

    def test_connections(self):
        with tempfile.TemporaryDirectory() as folder, socket.socket(socket.AF_UNIX) as listening:
            path, address = f"{folder}/bus", f"unix:path={folder}/bus"
            self.assertRaises(ConnectionError, Client(user=7).connect, address)
            listening.bind(path)
            listening.listen()
            for user, error in ((7, None), (8, ConnectionError)):
                with ThreadPoolExecutor(1) as pool, Client(user=7) as client, Server(self.GUID, user) as server:
                    serving = pool.submit(lambda: self.serve_one(listening, server))
                    if error:
                        self.assertRaises(error, client.connect, address)
                    else:
                        with client.connect(address) as connection:
                            connection.sendall(SESSION)
                    self.assertEqual(serving.result(20), b"" if error else SESSION)

    def test_addresses(self):
        first, second = parse_addresses("unix:path=/run/my%20bus,guid=" + self.GUID + ";tcp:host=%00%ff")
        self.assertEqual((first.transport, first.value("path"), first.value("host")), ("unix", b"/run/my bus", None))
        self.assertEqual((second.transport, second.value("host"), second.value("")), ("tcp", b"\0\xff", None))
        for name, text, answer in read_cases(CASES / "addresses.txt"):
            with self.subTest(name):
                if answer.startswith("refused"):
                    _, at, reason = answer.split()
                    said = f"^addresses refused at {at}: {reason}$"
                    self.assertRaisesRegex(BadAddress, said, parse_addresses, read_bytes(text))
                else:
                    self.assertEqual(len(parse_addresses(read_bytes(text))), read_bytes(answer[9:]).count(b";") + 1)

    def test_connections_by_addresses(self):
        with tempfile.TemporaryDirectory() as folder, mock.patch.dict(os.environ, XDG_RUNTIME_DIR=folder):
            name = f"dbus_wire {os.getpid()}"
            for path, address in (
                (f"{folder}/bus", "unix:runtime=yes"),
                (f"{folder}/my bus", f"tcp:host=x;unix:path={folder}/none;unix:path={folder}/my%20bus"),
                (f"\0{name}", f"unix:abstract={name.replace(' ', '%20')}"),
            ):
                with socket.socket(socket.AF_UNIX) as listening:
                    listening.bind(path)
                    listening.listen()
                    connect(address).close()
            both = f"unix:path={folder}/bus,abstract=x"
            for address in ("tcp:host=x", "unix:", "unix:runtime=no", both, "unix:path=/a%00b"):
                self.assertRaises(ConnectionError, connect, address)

    def serve_one(self, listening, server):
        """What a client sends after its handshake."""
        there, _ = listening.accept()
        with there, there.makefile("rb") as file:
            try:
                server.shake_hands(there)
            except ConnectionError:
                return b""
            return file.read()

    def test_ends_that_fail(self):
        with Client(user=1) as client:
            self.assertEqual(client.take().reply, b"\0AUTH EXTERNAL 31\r\n")
            self.assertEqual(client.take(b"REJECTED\r\n"), (10, b"", Status.CLOSED))
        with Server(self.GUID) as server:
            self.assertEqual(server.take(b"AUTH\r\n"), (0, b"", Status.CLOSED))
        with Client() as client:
            self.assertEqual(client.take(), (0, b"", Status.CLOSED))

    def test_ends_that_are_not_made(self):
        for guid in ("", "0" * 31, "0" * 33, "g" * 32, "\ud800" * 32):
            self.assertRaises(ValueError, Server, guid)
        self.assertRaises(ValueError, Client, trace=b"t" * 256)
        self.assertRaises(ValueError, Client, user=1, reported=True)
        self.assertRaises(ValueError, Server, self.GUID, 1 << 32)
        with mock.patch.object(_library.library, "dbus_wire_client_new", return_value=_library.NO_MEMORY):
            self.assertRaises(MemoryError, Client)

    def test_a_closed_end(self):
        with Client() as client:
            pass
        client.close()
        self.assertRaises(ValueError, client.take)
        self.assertRaises(ValueError, lambda: client.guid)


class Threads(unittest.TestCase):
    def test_messages_and_checkers_of_their_own(self):
        def work(_):
            with Checker() as checker:
                ends = [checker.take(message.data) == len(message.data) and checker.restart() for message in messages(SESSION)]
            return ends, [message.body for message in messages(SESSION)]

        with ThreadPoolExecutor(4) as pool:
            found = list(pool.map(work, range(8)))
        self.assertTrue(all(one == found[0] for one in found))

    def test_one_checker_and_one_message_that_threads_share(self):
        message, zeros = Message.parse(SESSION[:169]), 0
        with Checker() as checker:
            checker.take(message.data)

            def work(_):
                return [checker.take(SESSION) for _ in range(500)], message.body

            with ThreadPoolExecutor(4) as pool:
                for taken, body in pool.map(work, range(4)):
                    zeros += taken.count(0)
                    self.assertEqual(body, [":1.2"])
        self.assertEqual(zeros, 2000)

    def test_one_watch_with_a_thread_for_each_side(self):
        # BEGIN waits for the answers to all lines before it, however the two threads run.
        lines, answers = [b"AUTH EXTERNAL 37\r\n", *[b"DATA\r\n"] * 2000], [b"OK " + b"0" * 32 + b"\r\n", *[b"ERROR\r\n"] * 2000]

        def ask(watch, asked, answered):
            for line in lines:
                asked.put(watch.client(line))
            end = time.monotonic() + 20
            while not (begin := watch.client(b"BEGIN\r\n")) and time.monotonic() < end:
                pass
            return begin and begin.command, len(answered)

        def answer(watch, asked, answered):
            for line in answers:
                asked.get(timeout=20)
                answered.append(line)
                watch.server(line)

        for _ in range(8):
            watch, asked, answered = Watch(), queue.SimpleQueue(), []
            watch.client(b"\0")
            with ThreadPoolExecutor(2) as pool:
                sides = [pool.submit(side, watch, asked, answered) for side in (ask, answer)]
                self.assertEqual([side.result(60) for side in sides], [(LineCommand.BEGIN, len(answers)), None])
            self.assertTrue(watch.has_begun)

    def test_rules_that_threads_ask_at_once(self):
        rules = RuleSet()
        signals = rules.add("type='signal'")

        def ask(_):
            return [rules.matching(message) for message in messages(SESSION)], rules.text(signals)

        def change(_):
            rules.remove(rules.add("type='error',member='None'"))

        with ThreadPoolExecutor(8) as pool:
            found, changes = pool.map(ask, range(8)), pool.map(change, range(200))
            found = list(found)
            list(changes)
        self.assertTrue(any(found[0][0]) and all(one == found[0] for one in found))
        self.assertEqual((found[0][1], len(rules)), ("type='signal'", 1))
        rules.close()
        self.assertRaises(ValueError, rules.text, signals)


if __name__ == "__main__":
    unittest.main()
