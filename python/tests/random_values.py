"""Random types and values: values that `spell_body` takes, and ones of which one part is wrong."""

import array
import collections
import decimal
import fractions
import operator
import pathlib
import types

from dbus_wire import MessageType, ObjectPath, Signature, UnixFd, Variant

INTEGERS = {
    "y": (0, 255),
    "n": (-(1 << 15), (1 << 15) - 1),
    "q": (0, (1 << 16) - 1),
    "i": (-(1 << 31), (1 << 31) - 1),
    "u": (0, (1 << 32) - 1),
    "x": (-(1 << 63), (1 << 63) - 1),
    "t": (0, (1 << 64) - 1),
    "h": (0, (1 << 32) - 1),
}
# Values of the other types that are no containers.
RIGHT = {
    "b": (True, False),
    "d": (0.0, -0.0, 1.5, 5e-324, float("inf"), 7, -(1 << 53), 1 << 80),
    "s": ("", "a", "größer", "it's", 'say "x"', "' and \"", "\n{}", "\U0001f600", ObjectPath("/a")),
    "o": ("/", "/a", "/a/b_1", ObjectPath("/c")),
    "g": ("", "s", "a{sv}", "(ii)ay", "y" * 255),
}
BASIC = "".join([*INTEGERS, *RIGHT])
# What is no text of the kind; of "." no signature of one complete type.
NO_TEXTS = {
    "s": ("\0", "a\0", "\ud800", b"a", bytearray(b"a")),
    "o": ("", "a", "/a/", "//", "/ö", "/a\0", b"/a", pathlib.PurePosixPath("/a")),
    "g": ("a", "(", "()", "{sv}", "z", "y" * 256, b"s"),
    ".": ("", "ss", "a", "{sv}", "y" * 256, b"s", None, 1),
}


class Index:
    """An integer by `__index__`, as those of NumPy are."""

    def __init__(self, number):
        self.number = number

    def __index__(self):
        return self.number


class NoText:
    """Its text cannot be told."""

    def __repr__(self):
        raise RuntimeError


def parts_of(signature):
    """The complete types of a signature."""
    found, begun, depth = [], 0, 0
    for at, code in enumerate(signature):
        depth += (code in "({") - (code in ")}")
        if depth == 0 and code != "a":
            found.append(signature[begun : at + 1])
            begun = at + 1
    return found


def wrong_values(one):
    """Values that the type does not take."""
    code = one[0]
    yield from (None, 1j, {1, 2}, range(2), iter([1]), (it for it in "ab"), object(), NoText(), len, collections.deque([1]))
    yield from (array.array("B", b"a"), decimal.Decimal(1), fractions.Fraction(1, 2))
    yield from NO_TEXTS.get(code, ("a", ""))
    if code in INTEGERS:
        least, greatest = INTEGERS[code]
        yield from (least - 1, greatest + 1, Index(greatest + 1), 10**5000, -(10**5000))
    else:
        yield from ((1 << 53) + 1, 10**400) if code == "d" else (0, 1, Index(1))
    yield from () if code == "d" else (1.5, 1.0, float("nan"))
    yield from () if code == "b" else (True, False)
    yield from (Variant, ("y", 1)) if code == "v" else (Variant("y", 1),)
    if one == "ay":
        yield from (memoryview(array.array("i", [1])), memoryview(array.array("b", [-1])), memoryview(b"abcd").cast("B", (2, 2)))
    else:
        yield from (b"ab", bytearray(b"ab"), memoryview(b"ab"))
    yield from () if one.startswith("a{") else ({}, {"a": 1}, types.MappingProxyType({}))
    if code in "({":
        count = len(parts_of(one[1:-1]))
        yield from ((), [1] * (count + 1), (1,) * (count - 1), "x" * count)
    elif code != "a":
        yield from ([], (), ["a"])


def dict_of(pairs):
    """The pairs as a dict, or None if that has not as many entries."""
    try:
        found = dict(pairs) if all(isinstance(pair, (tuple, list)) for pair in pairs) else {}
    except (TypeError, ValueError):
        return None
    return found if len(found) == len(pairs) else None


class Values:
    """Random types and values, which have these types without parts."""

    def __init__(self, random, basic=BASIC):
        self.random, self.basic = random, basic
        self.choice = random.choice

    def type(self, depth=3):
        """A complete type."""
        kind = self.choice("....v(a{") if depth else "."
        if kind == "(":
            return f"({''.join(self.type(depth - 1) for _ in range(self.random.randint(1, 3)))})"
        if kind == "{":
            return f"a{{{self.choice(self.basic)}{self.type(depth - 1)}}}"
        return {"v": "v", ".": self.choice(self.basic)}.get(kind) or "a" + self.type(depth - 1)

    def right(self, one):
        """A value that the type takes."""
        code = one[0]
        if code in INTEGERS:
            least, greatest = INTEGERS[code]
            number = self.choice([least, greatest, self.random.randint(least, greatest)])
            return self.choice([number, number, Index(number), MessageType.SIGNAL])
        if code in RIGHT:
            return self.choice(RIGHT[code])
        if code == "v":
            within = self.type(1)
            return Variant(within, self.right(within))
        if code in "({":
            return self.choice([tuple, list])(map(self.right, parts_of(one[1:-1])))
        return self.array(one[1:], [self.right(one[1:]) for _ in range(self.random.randint(0, 3))])

    def array(self, element, values):
        """An array of the values in one of its forms."""
        if element[0] == "{" and self.random.random() < 0.6 and (entries := dict_of(values)):
            return self.choice([entries, types.MappingProxyType(entries)])
        if element == "y" and self.random.random() < 0.6 and all(type(value) is int and value in range(256) for value in values):
            return self.choice([bytes, bytearray, lambda them: memoryview(bytes(them))])(values)
        return self.choice([tuple, list])(values)

    def wrong(self, one):
        """A value that the type does not take, and that part of it for which it does not."""
        code = one[0]
        if code not in "av({" or self.random.random() < 0.3:
            bad = self.choice(list(wrong_values(one)))
            return bad, bad
        if code == "v" and self.random.random() < 0.3:
            bad = self.choice(NO_TEXTS["."])
            return Variant(bad, 1), bad
        if code == "v":
            within = self.type(2)
            value, bad = self.wrong(within)
            return Variant(within, value), bad
        parts = parts_of(one[1:-1]) if code in "({" else [one[1:]] * self.random.randint(1, 3)
        at = self.random.randrange(len(parts))
        values = list(map(self.right, parts))
        values[at], bad = self.wrong(parts[at])
        if code == "a" and bad is not values[at]:
            return self.array(one[1:], values), bad
        return self.choice([tuple, list])(values), bad


def as_read(one, value):
    """What `Message.body` has of a value that the type takes."""
    code = one[0]
    if code in INTEGERS:
        return (UnixFd if code == "h" else int)(operator.index(value))
    if code in RIGHT:
        return {"b": bool, "d": float, "s": str.__str__, "o": ObjectPath, "g": Signature}[code](value)
    if code == "v":
        return Variant(Signature(value.signature), as_read(value.signature, value.value))
    if code in "({":
        return tuple(map(as_read, parts_of(one[1:-1]), value))
    if one == "ay":
        return bytes(map(operator.index, value))
    values = [as_read(one[1:], part) for part in (value if isinstance(value, (list, tuple)) else value.items())]
    entries = dict_of(values) if one[1] == "{" else None
    return values if entries is None else entries
