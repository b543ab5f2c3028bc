"""Tests that the extension module makes of all that it takes what the modules in Python make of it
by ctypes, and leaves the rest to them: `make test-python` runs them if it is there."""

import contextlib
import gc
import random
import sys
import tracemalloc
import unittest
from unittest import mock

from inputs import SAMPLES, whole_cases
from random_values import Index, Values

from dbus_wire import BadValue, Limits, Message, NotAMessage, ObjectPath, Variant
from dbus_wire import _building, _compiled, _messages, _spelling, build, messages, rebuild, spell_body

try:
    import _testcapi
except ImportError:
    _testcapi = None

HEADER = {"path": "/a", "interface": "a.b", "member": "C"}
# Values that it leaves to the modules in Python: of other types, and of none of their type.
LEFT = (
    *((code, value) for code in "ynqiuxth" for value in (1.0, "1", None, True, 1 << 64, -(1 << 63) - 1, Index(1))),
    *(("y", value) for value in (-1, 256)),
    *(("n", value) for value in (-(1 << 15) - 1, 1 << 15)),
    *(("q", value) for value in (-1, 1 << 16)),
    *(("i", value) for value in (-(1 << 31) - 1, 1 << 31)),
    *((code, value) for code in "uh" for value in (-1, 1 << 32)),
    *(("x", value) for value in (-(1 << 63) - 1, 1 << 63)),
    *(("t", value) for value in (-1, 1 << 64)),
    *(("b", value) for value in (1, 0, None)),
    *(("d", value) for value in (1, "1")),
    *(("s", value) for value in ("\0", "\ud800", b"a")),
    *(("o", value) for value in ("", "a", "/a/")),
    *(("g", value) for value in ("a", "{sv}", "y" * 256)),
    *(("v", value) for value in (1, Variant("ss", 1), Variant("", 1), Variant("\ud800", 1), Variant(b"s", "a"))),
    ("v", type("Of", (Variant,), {})("u", 1)),
    *(("as", value) for value in ("ab", {"a": 1}, iter("ab"), ["a", 1], type("Of", (list,), {})("ab"))),
    *(("ay", value) for value in (bytearray(b"a"), memoryview(b"a"), "a", [256])),
    *(("a{su}", value) for value in ({"a": -1}, {1: 1}, [("a",)], [("a", 1, 1)], ["ab"], type("Of", (dict,), {})(a=1))),
    *(("(su)", value) for value in (("a",), ("a", 1, 1), ("a", -1), "ab", {"a": 1})),
)


@contextlib.contextmanager
def by_ctypes():
    """Without the extension module."""
    with contextlib.ExitStack() as stack:
        for module in (_building, _messages, _spelling):
            stack.enter_context(mock.patch.object(module, "objects", None))
        yield


def told(call, *arguments, **parts):
    """What the call returns, or the error that it raises, as a text."""
    try:
        return call(*arguments, **parts)
    except (BadValue, NotAMessage) as error:
        return f"{type(error).__name__} {error}"


def both(call, *arguments, **parts):
    """The same with the extension module and without it."""
    found = told(call, *arguments, **parts)
    with by_ctypes():
        return repr(found), repr(told(call, *arguments, **parts))


def read(data, limits=None):
    """A message and all its values."""
    message = Message.parse(data, limits)
    return message, message.header_fields, message.body


@unittest.skipUnless(_compiled.objects, "there is no extension module")
class Objects(unittest.TestCase):
    def spelled(self, signature, values, order="l"):
        return _compiled.objects.spell(signature, values, ord(order))

    def test_random_values_are_the_same(self):
        values, taken = Values(random.Random(4)), 0
        for number in range(20000):
            types = [values.type(values.random.randint(0, 5)) for _ in range(values.random.randint(0, 3))]
            body, order = list(map(values.right, types)), values.choice("lB")
            if types and number % 4 == 0:
                at = values.random.randrange(len(types))
                body[at] = values.wrong(types[at])[0]
            signature = "".join(types)
            given = {**HEADER, "order": order, "sender": values.choice([None, ":1.7", "a"]), "flags": number % 256}
            with self.subTest(number, signature=signature):
                found, right = both(spell_body, signature, body, order)
                self.assertEqual(found, right)
                if (spelled := self.spelled(signature, body, order)) is None:
                    continue
                taken += 1
                self.assertEqual(repr(spelled), right)
                found, right = both(build, 4, number + 1, signature, body=spelled, **given)
                self.assertEqual(found, right)
                if given["sender"] != "a":
                    self.assertEqual(*both(read, build(4, number + 1, signature, *body, **given).data))
        self.assertGreater(taken, 6000)

    def test_captures_and_cases_are_the_same(self):
        captured = (message.data for capture in SAMPLES.values() for message in messages(capture))
        for data in (*whole_cases().values(), *captured):
            for given in (data, data[:-1], data + b"x", b"x" + data[1:]):
                self.assertEqual(_compiled.objects.parts_of(given, limits_at()) is None, given is not data)
                self.assertEqual(*both(read, given))
            message = Message.parse(data)
            fields = {"sender": ":1.2", "destination": None}
            for changes in ({}, fields, {"serial": 7, "path": None}, {"member": "a b"}):
                self.assertEqual(*both(rebuild, message, **changes))

    def test_what_is_left(self):
        for signature, value in LEFT:
            with self.subTest(signature, value=value):
                self.assertIsNone(self.spelled(signature, [value]))
                self.assertEqual(*both(spell_body, signature, [value]))
        bodies = (("u", []), ("u", [1, 1]), ("", [1]), ("u", {1: 1}))
        for signature, values in (*bodies, ("a", [1]), ("\ud800", [1]), (b"u", [1]), (None, [])):
            self.assertIsNone(self.spelled(signature, values))
            self.assertEqual(*both(spell_body, signature, values))

    def test_limits(self):
        for limits in (Limits(message=16), Limits(array=8), Limits(depth=3), Limits(message=1 << 40)):
            self.assertEqual(*both(build, 4, 1, "as", ["abcdef"], **HEADER, limits=limits))
            for capture in SAMPLES.values():
                self.assertEqual(*both(lambda: list(messages(capture, limits))))
        value, deepest = Variant("y", 1), None
        for depth in range(2, 66):
            deepest, value = value, Variant("v", value)
            self.assertEqual(self.spelled("v", [value]) is None, depth > 64)
        self.assertEqual(self.spelled("v", [deepest]), spell_body("v", [deepest]))
        within = []
        within.append(Variant("av", within))
        self.assertIsNone(self.spelled("av", [within]))
        data = bytes((1 << 26) + 1)
        self.assertIsNone(self.spelled("ay", [data]))
        self.assertEqual(len(self.spelled("ay", [data[:-1]])), 4 + (1 << 26))

    def test_nothing_is_kept(self):
        inner = Variant("(sxdai)", ("é", 1 << 40, 0.5, [1, -2]))
        large = Variant("a{sv}", {"k" * number: inner for number in range(1, 20)})
        left = (("v", [Variant("av", [Variant("u", -1)])]), ("a{sv}", [{"a": Variant("u", None)}]), ("su", ["a"]))
        row = (108, 4, 0, 1, None, 0, "/", "a.b", "C", None, None, "\ud800", None)
        made = build(4, 1, "vaog", large, [ObjectPath("/a")] * 50, "ss", **HEADER)

        def work():
            for _ in range(50):
                build(4, 1, "vaog", large, [ObjectPath("/a")] * 50, "ss", **HEADER, sender=":1.7")
                rebuild(made, sender=":1.8").header_fields
                read(made.data)
                for signature, values in left:
                    self.spelled(signature, values)
                for parts in (row, row[:4] + (-1,), (), made.body):
                    with contextlib.suppress(TypeError):
                        _compiled.objects.build(parts, b"", limits_at(), None)

        work()
        counts = []
        tracemalloc.start()
        for _ in range(3):
            work()
            gc.collect()
            counts.append((tracemalloc.get_traced_memory()[0], sys.getrefcount(Variant), sys.getrefcount(None)))
        tracemalloc.stop()
        for before, after in zip(counts[1], counts[2]):
            self.assertLess(after - before, 200)

    @unittest.skipUnless(_testcapi, "this Python cannot fail its allocations")
    def test_memory_that_runs_out(self):
        value = {"k": Variant("(sxdasai)", ("é", 1 << 40, 0.5, ["a" * 300], [1, -2]))}
        objects, data = _compiled.objects, build(4, 1, "a{sv}gh", value, "ss", 7, **HEADER).data
        row = (108, 4, 0, 1, None, 0, "/", "a.b", "C", None, None, None, None)
        calls = (
            (objects.spell, "a{sv}", [value], 108),
            (objects.build, row, b"", limits_at(), None),
            (objects.build, row, b"", limits_at(), build(4, 1, **HEADER).data),
            (objects.parts_of, data, limits_at()),
            (objects.values, data, False),
            (objects.values, data, True),
        )
        for call, *arguments in calls:
            right, failed = call(*arguments), 0
            for at in range(200):
                _testcapi.set_nomemory(at, at + 1)
                try:
                    found = call(*arguments)
                except MemoryError:
                    failed += 1
                else:
                    _testcapi.remove_mem_hooks()
                    self.assertIn(found, (right, None))
                finally:
                    _testcapi.remove_mem_hooks()
            self.assertGreater(failed, 0, call)


def limits_at():
    return _compiled.ctypes.addressof(_compiled.SPECIFICATION)


if __name__ == "__main__":
    unittest.main()
