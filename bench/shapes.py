#!/usr/bin/env python3
"""bench/shapes.py FOLDER: writes streams of messages, each of one shape, for measuring: FOLDER/NAME.dbus, of about 2 MB.
bench/shapes.py --search PROGRAM [COUNT [SEED]]: tries shapes that nobody thought of, as below.
bench/shapes.py --lost [COUNT [WINDOW]]: writes the input that costs `--resync` most, as below.

dictionaries: a signal PropertiesChanged with twelve properties; objects: 16 to 100 KB of these, as the answer of GetManagedObjects has
them, so that many messages are cut by the end of a reader's buffer; texts: an array of 200 texts; structs: an array of 100 structs
a(iiuxsb); bytes: an array of 32,000 bytes; doubles: an array of 1,000 doubles. All are in little endian.

FOLDER/NAME.long has one message of about 1 MB, of one text: an object path, or characters of two bytes.

FOLDER/NAME.worst has the most work a byte that a legal message asks for: one message of about 1 MB, an array of elements that are
small, or nested, or wide; `fields` has header fields of no meaning in its place, and `signed` many messages of 255 empty signatures.

The search fills an array of each of COUNT random types (200) with least values, counts by valgrind the instructions per
byte of PROGRAM's `check`, and prints the ten that cost most.

What is lost is a byte that is no message, and then, every 56 bytes of a window of 1 MiB or so many bytes, a message
that states all that is left of it: a reply whose body is an array of structs. Each of them is such a message without
its body, and the last one is cut, so each message fails at its end. With COUNT it is so many messages of a wrong
version, each a byte larger than the window, with such a body: all of the window is searched for each of them, and then
it is passed over by its size.
"""

import itertools
import random
import re
import struct
import subprocess
import sys
from pathlib import Path

from crate_list import ROOT

sys.path.insert(0, str(ROOT / "cases"))

from seen import ALIGNMENTS, first_type  # noqa: E402

FORMATS = {"y": "<B", "n": "<h", "q": "<H", "i": "<i", "u": "<I", "b": "<I", "x": "<q", "t": "<Q", "d": "<d"}
FIELDS = [(1, ("o", "/org/freedesktop/NetworkManager/Devices/2")), (2, ("s", "org.freedesktop.DBus.Properties"))]
FIELDS += [(3, ("s", "PropertiesChanged")), (7, ("s", ":1.7"))]
SIZE = 2_000_000


def parts_of(types):
    """The complete types of a signature."""
    while types:
        yield first_type(types)
        types = types[len(first_type(types)) :]


def align(out, alignment):
    out.extend(bytes(-len(out) % alignment))


def put_all(out, types, values):
    """Marshals a value for each type."""
    for one, value in zip(parts_of(types), values):
        put(out, one, value)


def put(out, one, value):
    """Marshals a value of one type; an offset counts from the start of `out`."""
    code = one[0]
    align(out, ALIGNMENTS[code])
    if code in FORMATS:
        out.extend(struct.pack(FORMATS[code], value))
    elif code in "so":
        out.extend(struct.pack("<I", len(value.encode())) + value.encode() + b"\0")
    elif code == "g":
        out.extend(bytes([len(value)]) + value.encode() + b"\0")
    elif code == "v":
        put(out, "g", value[0])
        put(out, value[0], value[1])
    elif code == "a":
        at = len(out)
        out.extend(bytes(4))
        align(out, ALIGNMENTS[one[1]])
        first = len(out)
        for item in value:
            put(out, one[1:], item)
        struct.pack_into("<I", out, at, len(out) - first)
    else:
        put_all(out, one[1:-1], value)


def header(types, length, more=b"", serial=1, fields=FIELDS, kind=4):
    out = bytearray(struct.pack("<cBBBII", b"l", kind, 0, 1, length, serial))
    put(out, "a(yv)", [*fields, (8, ("g", types))])
    if more:
        align(out, 8)
        out.extend(more)
        struct.pack_into("<I", out, 12, len(out) - 16)
    align(out, 8)
    return bytes(out)


def signal(serial, types, values, fields=FIELDS):
    body = bytearray()
    put_all(body, types, values)
    return header(types, len(body), b"", serial, fields) + bytes(body)


def properties():
    path = "/org/freedesktop/NetworkManager/"
    kinds = [
        lambda n: (f"Ip4Address{n}", ("u", random.getrandbits(32))),
        lambda n: (f"Interface{n}", ("s", f"wlan{n}")),
        lambda n: (f"Managed{n}", ("b", n % 2)),
        lambda n: (f"ActiveConnection{n}", ("o", f"{path}ActiveConnection/{n}")),
        lambda n: (f"AvailableConnections{n}", ("ao", [f"{path}Settings/{k}" for k in range(3)])),
        lambda n: (f"State{n}", ("(uu)", (100, 0))),
    ]
    return [random.choice(kinds)(n) for n in range(12)]


def managed_objects(count):
    return [(f"/org/freedesktop/NetworkManager/Devices/{n}", [(DEVICE, properties())]) for n in range(count)]


DEVICE = "org.freedesktop.NetworkManager.Device"
SHAPES = {
    "dictionaries": lambda n: signal(n, "sa{sv}as", (DEVICE, properties(), [])),
    "objects": lambda n: signal(n, "a{oa{sa{sv}}}", (managed_objects(random.randint(18, 110)),)),
    "texts": lambda n: signal(n, "as", ([f"com.example.Service{k}.name" for k in range(200)],)),
    "structs": lambda n: signal(n, "a(iiuxsb)", ([(k, -k, 3 * k, k * k, f"text{k}", k % 2) for k in range(100)],)),
    "bytes": lambda n: signal(n, "ay", (bytes(k % 251 for k in range(32_000)),)),
    "doubles": lambda n: signal(n, "ad", ([k / 2 for k in range(1_000)],)),
}
WORST_SIZE = 1_000_000


def array_message(types, alignment, unit, last=b""):
    """A signal whose body is a number and an array, of this type, of these bytes again and again, from a boundary of 8 on."""
    units = unit * (WORST_SIZE // len(unit)) + last
    body = bytearray(struct.pack("<II", 0, len(units)))
    align(body, alignment)
    body.extend(units)
    return header("u" + types, len(body)) + bytes(body)


def array_of(one, value, size=WORST_SIZE):
    """A signal whose body is a number and an array of like values of the type."""
    units, begun = bytearray(), {}
    # The bytes of a value depend on where it begins from a boundary of 8 on, so they come again.
    while len(units) % 8 not in begun:
        begun[len(units) % 8] = len(units)
        put(units, one, value)
    again = bytes(units[begun[len(units) % 8] :])
    units += again * (size // len(again))
    body = struct.pack("<II", 0, len(units)) + bytes(units)
    return header("ua" + one, len(body)) + body


def within(values, outer=30):
    """The values of a struct in so many others."""
    return values if outer == 0 else [within(values, outer - 1)]


NESTED = "(" * 31 + "a(" + "y" * 188 + ")" + ")" * 31
INNER = "(y" + "(" * 30 + "ay" + ")" * 30 + ")"
CHAINS = "(" + ("(" * 30 + "y" + ")" * 30) * 4 + ")"
AFTER = "(" * 31 + "y" + ")y" * 30 + ")"
PATH = struct.pack("<I", 1) + b"/\0"
NO_FIELD = b"\xc8\x01y\0\x07"
WORST = {
    "nested": lambda: array_message("a" + NESTED, 8, bytes(8)),
    "inner": lambda: array_message("a" + INNER, 8, bytes(16), bytes(12)),
    "chains": lambda: array_message("a" + CHAINS, 8, bytes(32), bytes(25)),
    "after": lambda: array_message("a" + AFTER, 8, bytes(32), bytes(31)),
    "wide": lambda: array_message("a(" + "y" * 248 + ")", 8, bytes(248)),
    "empty": lambda: array_message("aay", 4, bytes(4)),
    "deep": lambda: array_message("a" + "(a" * 31 + "y" + ")" * 31, 8, bytes(8)),
    "entries": lambda: array_message("a{y(y)}", 8, bytes(16), bytes(9)),
    "variants": lambda: array_message("av", 1, b"\x01y\0\0"),
    "chained": lambda: array_message("av", 1, b"\x01v\0" * 62 + b"\x01y\0\0"),
    "spelled": lambda: array_message("av", 1, bytes([253]) + b"a(" + b"y" * 250 + b")\0" + bytes(1) + bytes(8)),
    "signatures": lambda: array_message("ag", 1, bytes([254]) + b"y" * 254 + b"\0"),
    "unspelled": lambda: array_message("ag", 1, bytes(2)),
    "untyped": lambda: array_message("a" + "(" * 31 + "gggg" + ")" * 31, 8, bytes(8)),
    "rows": lambda: array_of("(gggg)", [""] * 4),
    "signed": lambda: signal(1, "g" * 255, [""] * 255) * (WORST_SIZE // 1_000),
    "mixed": lambda: array_of("(ggay)", ["", "", []]),
    "held": lambda: array_of("v", ("(ggg)", [""] * 3)),
    "lists": lambda: array_of("(" * 31 + "ayay" + ")" * 31, within([[], []])),
    "boxes": lambda: array_of("(" * 31 + "vv" + ")" * 31, within([("y", 0), ("y", 0)])),
    "shelves": lambda: array_of("(" * 31 + "av" + ")" * 31, within([[]])),
    "arrays": lambda: array_of("a" * 30 + "y", []),
    "texts": lambda: array_message("as", 4, bytes(8), bytes(5)),
    "paths": lambda: array_message("ao", 4, PATH + bytes(2), PATH),
    "booleans": lambda: array_message("ab", 4, bytes(4)),
    "fields": lambda: header("", 0, (NO_FIELD + bytes(3)) * (WORST_SIZE // 8) + NO_FIELD),
}


LONG = {
    "path": lambda: signal(1, "o", ["/org/freedesktop/devices/abcdefghijklmnopqrstuvwxyz_0123456789" * (WORST_SIZE // 62)]),
    "accents": lambda: signal(1, "s", ["\u00e9" * (WORST_SIZE // 2)]),
}
SEARCHED_SIZE = 200_000


def random_type(kinds, arrays, structs):
    """A complete type with at most so many basic types or variants in it, and so many arrays and structs around each of these."""
    choice = random.random()
    if choice < 0.2 and arrays:
        return "a" + random_type(kinds, arrays - 1, structs)
    if choice < 0.3 and arrays and structs and kinds > 1:
        return "a{" + random.choice("ybsg") + random_type(kinds - 1, arrays - 1, structs - 1) + "}"
    if choice < 0.7 and structs:
        outer = random.choice([1, 1, 1, 2, 4, structs])
        count = random.randint(1, kinds)
        inner = "".join(random_type(max(1, kinds // count), arrays, structs - outer) for _ in range(count))
        return "(" * outer + inner + ")" * outer
    return random.choice("ybuxdsoggv")


def least(one):
    """A value of the type with as few bytes as may be, but that an array has an element half of the time."""
    code = one[0]
    if code in "soagv":
        if code == "v":
            held = random_type(2, 1, 2) if random.random() < 0.5 else "y"
            return (held, least(held))
        if code == "a":
            return [least(one[1:])] if random.random() < 0.5 else []
        return "/" if code == "o" else ""
    if code not in "({":
        return 0
    return [least(it) for it in parts_of(one[1:-1])]


def instructions(program, message):
    words = ["valgrind", "--tool=callgrind", "--callgrind-out-file=/dev/null", program, "check"]
    counted = subprocess.run(words, input=message, capture_output=True, check=True)
    return int(re.search(rb"Collected : (\d+)", counted.stderr)[1])


def search(program, count=200, seed=7):
    random.seed(int(seed))
    fixed = instructions(program, b"")
    found = {}
    while len(found) < int(count):
        one = random_type(6, 31, 31)
        if one in found or len(one) > 250:
            continue
        message = array_of(one, least(one), SEARCHED_SIZE)
        found[one] = (instructions(program, message) - fixed) / len(message)
    for one, cost in sorted(found.items(), key=lambda it: -it[1])[:10]:
        print(f"{cost:8.1f} {one}")


LOST_FIELDS = bytes.fromhex("0501750001000000") + b"\x08\x01g\0\x10a(yyyyuua(yv)uu)\0"


def lost(room):
    """Messages within so many bytes that fail at their end."""
    end, head = (room - 55) // 56 * 56 + 4, len(LOST_FIELDS) + 18
    for at in range(0, end - 56, 56):
        body = end - at - head
        front = struct.pack("<4sIII", b"l\2\0\1", body, 1, len(LOST_FIELDS))
        yield front + LOST_FIELDS + b"\0\0" + struct.pack("<II", body - 8, 0)
    yield b"\0" * 60


def write_lost(count=None, window=1 << 20):
    """What is lost, or so many refused messages that are larger than the window."""
    body = b"".join(lost(int(window) - (1 if count is None else 20)))
    past = struct.pack("<4sIII", b"l\2\0\2", int(window) - 15, 1, 0) + body.ljust(int(window) - 15, b"\0")
    sys.stdout.buffer.write(b"X" + body if count is None else int(count) * past)


def streams():
    """The stream of each shape."""
    random.seed(7)
    for name, shape in SHAPES.items():
        stream, serials = b"", itertools.count(1)
        while len(stream) < SIZE:
            stream += shape(next(serials))
        yield name, stream


def main():
    if sys.argv[1] in ("--search", "--lost"):
        return (search if sys.argv[1] == "--search" else write_lost)(*sys.argv[2:])
    for ending, shapes in (("worst", WORST), ("long", LONG)):
        for name, shape in shapes.items():
            Path(sys.argv[1], f"{name}.{ending}").write_bytes(shape())
    for name, stream in streams():
        Path(sys.argv[1], f"{name}.dbus").write_bytes(stream)


if __name__ == "__main__":
    main()
