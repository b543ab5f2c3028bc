"""Tests that the module dbus_wire has the numbers, structs and calls of include/dbus_wire.h, and
loads only such a library: `make test-python` runs them."""

import ctypes
import re
import unittest
from unittest import mock

from inputs import ROOT

from dbus_wire import HeaderField, LineCommand, MessageFlag, MessageType, TextKind, _library


class Header(unittest.TestCase):
    """The module's numbers, structs and calls are those of include/dbus_wire.h."""

    text = (ROOT / "include/dbus_wire.h").read_text()
    numbers = {name: int(number) for name, number in re.findall(r"\bDBUS_WIRE_(\w+) (?:= )?(\d+)", text)}

    def type_of(self, spelled):
        """What ctypes calls a type of C, which may have the name of what is of it after it."""
        if struct := re.search(r"struct dbus_wire_(\w+)( \*)?", spelled):
            found = getattr(_library, struct[1].title().replace("_", ""))
            return ctypes.POINTER(found) if struct[2] else found
        if "*" in spelled and ("uint8_t" in spelled or "void" in spelled):
            return ctypes.c_char_p if "uint8_t" in spelled or "const" in spelled else ctypes.c_void_p
        numbers = {"uint8_t": ctypes.c_uint8, "uint16_t": ctypes.c_uint16, "uint32_t": ctypes.c_uint32, "uint64_t": ctypes.c_uint64}
        found = {**numbers, "size_t": ctypes.c_size_t, "void": None}[spelled.split()[0]]
        return ctypes.POINTER(found) if "*" in spelled else found

    def test_numbers(self):
        for prefix, names in (("TYPE_", MessageType), ("FLAG_", MessageFlag), ("FIELD_", HeaderField), ("TEXT_", TextKind), ("LINE_", LineCommand)):
            right = {name.removeprefix(prefix): number for name, number in self.numbers.items() if name.startswith(prefix)}
            self.assertEqual({name: int(it) for name, it in names.__members__.items()}, right)
        mine = {name: number for name, number in vars(_library).items() if type(number) is int}
        self.assertEqual(mine, {name: self.numbers.get(name) for name in mine})
        self.assertEqual(_library.WRITTEN_FOR, tuple(self.numbers[f"VERSION_{part}"] for part in ("MAJOR", "MINOR", "PATCH")))

    def test_structs(self):
        declared = re.findall(r"(\d+) bytes\. \*/\nstruct dbus_wire_(\w+) \{(.*?)\n\};", self.text, re.DOTALL)
        self.assertEqual(len(declared), 27)
        self.assertEqual(len(declared), sum(isinstance(it, type(ctypes.Structure)) for it in vars(_library).values()))
        for size, name, fields in declared:
            lines = re.findall(r"^    (struct \w+|\w+_t|(?:const )?void \*) ?([\w, ]+)(?:\[(\d+)\])?;", fields, re.MULTILINE)
            types = [(names, self.type_of(kind), count) for kind, names, count in lines]
            right = [(field, it * int(count) if count else it) for names, it, count in types for field in names.split(", ")]
            struct = self.type_of(f"struct dbus_wire_{name}")
            self.assertEqual((list(struct._fields_), ctypes.sizeof(struct)), (right, int(size)), name)

    def test_calls(self):
        declared = re.findall(r"^(?:DBUS_WIRE_\w+ ?(?:\(\(.*\)\) )?)*(void|\w+_t) dbus_wire_(\w+)\(([^;{]*)\);", self.text, re.MULTILINE)
        calls = {name: (result, [it for it in re.split(r",\s+", text) if it != "void"]) for result, name, text in declared}
        for name, types in _library._CALLS.items():
            result, parameters = calls[name]
            self.assertEqual(types, (self.type_of(result), *map(self.type_of, parameters)), name)


class Loading(unittest.TestCase):
    def test_no_library(self):
        self.assertRaises(ImportError, _library._load, "/nonexistent")
        self.assertRaises(ImportError, _library._load, "libc.so.6")

    def test_a_library_of_another_version(self):
        for version in ((1, 1, 0), (0, 0, 0), (0, 2, 0), (0, 1, 1)):
            with mock.patch.object(_library, "WRITTEN_FOR", version):
                self.assertRaises(ImportError, _library._load, _library._path())


if __name__ == "__main__":
    unittest.main()
