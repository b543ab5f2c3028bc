#!/usr/bin/env python3
"""typed.py AGAIN: random messages of the types that rust/examples/again.rs lists, which the module for Python builds, come back from AGAIN byte for
byte: it reads the body of each as values of Rust, and puts these again. DBUS_WIRE_LIBRARY names the library of the module. The exit status is 1 if
one comes back otherwise.
"""

import pathlib
import random
import re
import subprocess
import sys

ROOT = pathlib.Path(__file__).resolve().parent.parent
sys.path[:0] = [str(ROOT / "python"), str(ROOT / "python/tests")]
from dbus_wire import MessageType, Variant, build, messages  # noqa: E402
from random_values import Values, as_read, parts_of  # noqa: E402

# The signatures of the list.
LISTED = re.findall(r'^ +"([a-z(){}]*)" .*;$', (ROOT / "rust/examples/again.rs").read_text(), re.MULTILINE)
ROUNDS = 200


def in_order(value):
    """The value with the keys of its maps in order, as a BTreeMap has them, and each but once."""
    if isinstance(value, Variant):
        return Variant(value.signature, value.value)
    if isinstance(value, dict):
        return {key: in_order(value[key]) for key in sorted(value)}
    return type(value)(map(in_order, value)) if isinstance(value, (list, tuple)) else value


def as_map(one, value):
    """The value, in which what a map's type takes is a dict."""
    if one[0] in "({":
        return tuple(map(as_map, parts_of(one[1:-1]), value))
    if one[0] != "a" or isinstance(value, bytes):
        return value
    parts = [as_map(one[1:], part) for part in (value.items() if isinstance(value, dict) else value)]
    return dict(parts) if one[1] == "{" else parts


def random_message(values, signature):
    types = parts_of(signature)
    body = [in_order(as_map(one, as_read(one, values.right(one)))) for one in types]
    parts = {"path": "/", "interface": "a.b", "member": "C", "order": values.choice("lB")}
    return bytes(build(MessageType.SIGNAL, 7, signature or None, *body, **parts))


def main(again):
    values, differing = Values(random.Random(3)), 0
    given = [random_message(values, signature) for signature in LISTED for _ in range(ROUNDS)]
    ran = subprocess.run([again], input=b"".join(given), capture_output=True)
    made = [bytes(message) for message in messages(ran.stdout)]
    if ran.returncode or len(made) != len(given):
        sys.exit(f"{again} writes {len(made)} of {len(given)} messages, and says {ran.stderr.decode()!r}")
    for message, other in zip(given, made):
        if message != other:
            differing += 1
            print(f"{next(messages(message)).body} comes back as {next(messages(other)).body}")
    print(f"{len(given)} messages of {len(LISTED)} signatures read as values of Rust and made again, {differing} otherwise")
    return 1 if differing or len(LISTED) < 10 else 0


if __name__ == "__main__":
    sys.exit(main(*sys.argv[1:]))
