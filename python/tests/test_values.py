"""Tests that no value is changed: what `spell_body` and `build` take is read again as it was, and
anything else is refused by a BadValue that leads to it. `make test-python` runs them."""

import pickle
import random
import unittest

from inputs import SAMPLES
from random_values import BASIC, Values, as_read, wrong_values

from dbus_wire import BadValue, Client, Limits, Message, MessageFlag, MessageType, ObjectPath, Server, Variant
from dbus_wire import build, byteswap, call, error_to, messages, rebuild, reply_to, signal, spell_body

SIGNAL = {"type": MessageType.SIGNAL, "serial": 1, "path": "/", "interface": "a.b", "member": "C"}
GUID = "0" * 32

# A signature, values that are not of it, and the path to the one that is not.
WRONG = (
    ("i", [1.5], "body[0]"),
    ("as", ["abc"], "body[0]"),
    ("ai", [b"ab"], "body[0]"),
    ("b", [1], "body[0]"),
    ("u", [True], "body[0]"),
    ("d", [(1 << 53) + 1], "body[0]"),
    ("sua{sas}", ["", 1, {"w": [], "x": [1]}], 'body[2]["x"][0]'),
    ("v", [Variant("a{sv}", {"it's": Variant("ai", [0, "1"])})], """body[0].value["it's"].value[1]"""),
    ("a{sv}", [{'say "x"': 1}], """body[0]['say "x"']"""),
    ("a{iu}", [{-1: 1, 2: -1}], "body[0][2]"),
    ("a{du}", [{0.5: -1}], "list(body[0].values())[0]"),
    ("a{su}", [{"a": 1, b"b": 1}], "list(body[0])[1]"),
    ("a{su}", [[("a", 1), ("b", -1)]], "body[0][1][1]"),
    ("a{su}", ["ab"], "body[0]"),
    ("a{su}", [["ab"]], "body[0][0]"),
    ("(su)", [("a",)], "body[0]"),
    ("((su))", [[{"a": 1, "b": 2}]], "body[0][0]"),
    ("v", [("u", 1)], "body[0]"),
    ("v", [Variant("uu", (1, 1))], "body[0].signature"),
    ("av", [[Variant(b"u", 1)]], "body[0][0].signature"),
    ("s", "a", "body"),
    ("y", b"a", "body"),
    ("ss", {"a": 1, "b": 2}, "body"),
    ("u", iter([1]), "body"),
    ("u", [], "body"),
    ("u", [1, 2], "body"),
    ("", [1], "body"),
    ("a", [], "signature"),
    ("{su}", [], "signature"),
    (b"s", ["a"], "signature"),
    (None, [], "signature"),
)


class WrongValues(unittest.TestCase):
    def refused(self, call, *arguments, **parts):
        with self.assertRaises(BadValue) as caught:
            call(*arguments, **parts)
        return caught.exception

    def test_paths(self):
        for signature, values, path in WRONG:
            with self.subTest(signature, values=values):
                self.assertEqual(self.refused(spell_body, signature, values).path, path)

    def test_texts(self):
        for signature, value, text in (
            ("i", 1.5, "body[0]: wanted an INT32 (an int from -2147483648 to 2147483647), given 1.5 (float)"),
            ("o", "/a/", "body[0]: wanted an OBJECT_PATH (a str as '/a/b'), given '/a/' (str), which breaks at its byte 3"),
            ("g", "y" * 256, f"body[0]: wanted a SIGNATURE (a str of complete types), given '{'y' * 27}...{'y' * 28}' (str), which is too long"),
            ("ay", "a", "body[0]: wanted an array of 'y' (a list or tuple, or bytes-like), given 'a' (str)"),
            ("(su)", (), "body[0]: wanted a tuple or list of 2, one for each type of 'su', given () (tuple)"),
        ):
            fault = self.refused(spell_body, signature, [value])
            self.assertEqual((str(fault), str(pickle.loads(pickle.dumps(fault)))), (text, text))
        self.assertLess(len(self.refused(spell_body, "s", [bytes(1 << 20)]).given), 100)

    def test_each_wrong_value_of_each_type(self):
        for one in (*BASIC, "v", "as", "ay", "a{sv}", "a(ii)", "(su)", "(s)"):
            for value in wrong_values(one):
                fault = self.refused(spell_body, one, [value])
                self.assertEqual((fault.path, eval("body[0]", {"body": [value]})), ("body[0]", value), one)

    def test_random_values_of_which_a_part_is_wrong(self):
        values = Values(random.Random(1))
        for number in range(2000):
            types = [values.type() for _ in range(values.random.randint(1, 3))]
            body, at = list(map(values.right, types)), values.random.randrange(len(types))
            body[at], bad = values.wrong(types[at])
            with self.subTest(number, types=types):
                fault = self.refused(spell_body, "".join(types), body, values.choice("lB"))
                self.assertIs(eval(fault.path, {"body": body}), bad, fault)
                self.assertTrue(fault.wanted and fault.given, fault)

    def test_containers_in_one_another(self):
        value, within = Variant("y", 1), []
        for _ in range(63):
            value = Variant("v", value)
        self.assertEqual(build(**SIGNAL, signature="v", body=spell_body("v", [value])).body, [value])
        fault = self.refused(spell_body, "v", [Variant("v", value)])
        self.assertEqual(fault.path, "body[0]" + 64 * ".value")
        within.append(Variant("av", within))
        self.assertEqual(self.refused(spell_body, "av", [within]).wanted, "at most 64 containers in one another")

    def test_an_array_that_is_too_long(self):
        data = bytes((1 << 26) + 1)
        self.assertEqual(len(spell_body("ay", [data[:-1]])), 4 + (1 << 26))
        self.assertEqual(self.refused(spell_body, "ay", [data]).wanted, "an array of at most 67108864 bytes")

    def test_arguments(self):
        call = Message.parse(SAMPLES["session"][:169])
        for name, value in (
            *(("path", value) for value in (3, b"/a", ["/"])),
            *(("serial", value) for value in (1.0, True, "1", -1, 1 << 32)),
            *(("unix_fds", value) for value in ("", 0.0, [], False)),
            ("reply_serial", ""),
            ("flags", "1"),
            ("sender", 1),
            ("body", "ab"),
            ("body", [1]),
        ):
            self.assertEqual(self.refused(build, **SIGNAL | {name: value}).path, name)
            self.assertEqual(self.refused(rebuild, call, **{name: value}).path, name)
        for path, make, *words in (
            ("order", lambda: byteswap(call.data, "x")),
            ("order", lambda: build(**SIGNAL, order=b"l")),
            ("type", lambda: build(**SIGNAL | {"type": "4"})),
            ("body[0]", lambda: build(MessageType.SIGNAL, 1, "u", "1", path="/", interface="a.b", member="C")),
            ("depth", lambda: Limits(depth=2.5)),
            ("array", lambda: Limits(array=True)),
            ("fds_below_count", lambda: Limits(fds_below_count="no")),
            ("user", lambda: Server(GUID, "")),
            ("user", lambda: Client(user=True)),
            ("anonymous", lambda: Server(GUID, anonymous="no")),
            ("reported", lambda: Client(reported="no")),
            ("guid", lambda: Server(0)),
            ("number", lambda: call.to_json(-1)),
            ("offset", lambda: call.to_json(1, 1 << 64)),
            ("time", lambda: call.to_json(time=1.5)),
        ):
            self.assertEqual(self.refused(make).path, path)
        self.assertRaises(TypeError, build, MessageType.SIGNAL, 1, "u", 1, body=b"")
        self.assertRaises(TypeError, Client, trace="")


class RightValues(unittest.TestCase):
    def test_random_values_are_read_as_they_were(self):
        values = Values(random.Random(2))
        for number in range(2000):
            types = [values.type() for _ in range(values.random.randint(0, 3))]
            body = list(map(values.right, types))
            built = build(4, 1, "".join(types), *body, path="/", interface="a.b", member="C", order=values.choice("lB"))
            with self.subTest(number, types=types):
                self.assertEqual(repr(built.body), repr(list(map(as_read, types, body))))

    def test_bodies_of_a_class_of_its_own(self):
        class Short(bytes):
            def __len__(self):
                return 1 << 30

        self.assertEqual(spell_body("ay", [Short(b"ab")]), b"\2\0\0\0ab")
        self.assertEqual(spell_body("s", [type("Text", (str,), {"encode": lambda self, *words: b"b"})("a")]), b"\1\0\0\0a\0")


class Calls(unittest.TestCase):
    def test_calls_and_signals(self):
        of_both = {"interface": "a.b", "destination": "c.d", "sender": ":1.7", "flags": 2}
        of_both |= {"order": "B", "unix_fds": 1, "limits": Limits()}
        right = build(MessageType.METHOD_CALL, 5, "su", "x", 1, path="/a", member="C", **of_both)
        self.assertEqual(call(5, "C", "su", "x", 1, path="/a", **of_both), right)
        self.assertEqual(call(5, "C", "su", body=right.body_bytes, path="/a", **of_both), right)
        interface = of_both.pop("interface")
        right = build(MessageType.SIGNAL, 5, "su", "x", 1, path="/a", interface=interface, member="C", **of_both)
        self.assertEqual(signal(5, "/a", "a.b", "C", "su", "x", 1, **of_both), right)
        self.assertEqual(Message.parse(right.data), right)
        self.assertRaises(TypeError, call, 5, "C")

    def test_a_message_that_is_made_is_the_one_that_is_read(self):
        class Text(str):
            pass

        made = call(5, Text("C"), Text("s"), Text("x"), path=Text("/a"), sender=Text(":1.7"), flags=129)
        read = Message.parse(made.data)
        self.assertEqual((repr(made), made), (repr(read), read))
        for name in ("path", "member", "sender", "signature", "type", "flags", "order"):
            self.assertIs(type(getattr(made, name)), type(getattr(read, name)), name)
        texts = ["", "a", "ab", "abc", "abcd", "\xe4", "\U0001f600", *map(str, range(90, 110))]
        for count in range(len(texts)):
            for order in "lB":
                values = [texts[count:], texts[:count], list(range(count)), [it / 3 for it in range(count)], count]
                self.assertEqual(signal(5, "/a", "a.b", "C", "asasaxadt", *values, order=order).body, values)


class Replies(unittest.TestCase):
    def test_replies(self):
        parts = {"path": "/a", "member": "C", "sender": ":1.7"}
        for order in "lB":
            call = build(MessageType.METHOD_CALL, 5, "s", "x", order=order, **parts)
            self.assertTrue(call.wants_reply)
            reply = reply_to(call, 6, "a{sv}u", {"Load": Variant("d", 0.5)}, 1)
            self.assertEqual(
                (reply.type, reply.order, reply.serial, reply.reply_serial, reply.destination), (MessageType.METHOD_RETURN, order, 6, 5, ":1.7")
            )
            self.assertEqual((reply.body, reply.flags, reply.wants_reply), ([{"Load": Variant("d", 0.5)}, 1], MessageFlag.NO_REPLY_EXPECTED, False))
            error = error_to(call, 6, "a.b.C", "s", "no", sender=":1.1", flags=0)
            self.assertEqual((error.type, error.reply_serial, error.error_name, error.body), (MessageType.ERROR, 5, "a.b.C", ["no"]))
            self.assertEqual((error.sender, error.flags), (":1.1", 0))
            self.assertEqual(reply_to(call, 6, call.signature, body=call.body_bytes).body, ["x"])
        self.assertIsNone(reply_to(build(MessageType.METHOD_CALL, 5, path="/", member="C"), 6).destination)
        self.assertRaises(TypeError, reply_to, call, 6, destined="a")
        self.assertRaises(BadValue, error_to, call, 6, 7)

    def test_which_messages_want_replies(self):
        found = [message.wants_reply for message in messages(SAMPLES["session"])]
        self.assertEqual(len(found), 136)
        for message in messages(SAMPLES["session"]):
            self.assertEqual(message.wants_reply, message.type == 1 and not message.flags & 1)
            self.assertIsInstance(message.path or ObjectPath("/"), ObjectPath)


if __name__ == "__main__":
    unittest.main()
