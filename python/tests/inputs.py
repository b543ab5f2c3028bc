"""The captures and the cases of messages that the tests of dbus_wire read."""

import os
import pathlib
import sys

ROOT = pathlib.Path(__file__).resolve().parent.parent.parent
sys.path.insert(0, str(ROOT / "cases"))
# The module that is installed, if one is, and else that of the repository.
sys.path.append(str(ROOT / "python"))
from read_cases import read_bytes, read_cases  # noqa: E402

from dbus_wire import Limits, messages  # noqa: E402

SAMPLES = {name: (ROOT / "samples" / f"{name}.dbus").read_bytes() for name in ("session", "big-endian")}
CASES = ROOT / "cases/data"
# That of a server of a test.
GUID = "0123456789abcdef" * 2
# What a Message names as it is in the header; `unix_fds` is 0 without that field.
FIELDS = ("path", "interface", "member", "error_name", "reply_serial", "destination", "sender", "signature")


def limits_of(column):
    """The limits of a case, or None if it has the specification's."""
    words = dict(word.split("=") for word in column.split())
    fds_below_count = words.pop("fds", None) == "below-count"
    return Limits(**{name: int(number) for name, number in words.items()}, fds_below_count=fds_below_count) if column else None


def message_cases():
    """The name, limits, bytes and answer of each case of messages in each order that it has."""
    for file in ("descriptors", "faults", "limits", "messages"):
        for name, limits, *columns, answer in read_cases(CASES / f"{file}.txt"):
            for column in filter(None, columns):
                yield f"{file}: {name}", limits_of(limits), read_bytes(column), answer


def whole_cases():
    """Each case that is one message within the specification's limits, under its name and its
    order."""
    whole = [(name, data) for name, limits, data, answer in message_cases() if limits is None and answer == f"whole {len(data)}"]
    return {f"{name} {data[:1].decode()}": data for name, data in whole}


def captures():
    """Each sample, and all whole cases as one capture."""
    return SAMPLES | {"cases": b"".join(whole_cases().values())}


def changed_messages():
    """The first messages of each sample with one byte changed."""
    for data in SAMPLES.values():
        for message in list(messages(data))[:2]:
            for at, byte in enumerate(message.data):
                for change in (0x01, 0x80, 0xFF):
                    yield message.data[:at] + bytes([byte ^ change]) + message.data[at + 1 :]


def try_swaps(test, bus, name, count):
    """Has the service of examples/ swap so many pairs of file descriptors, each the ends of a pipe."""
    for _ in range(count):
        pipe = os.pipe()
        test.assertEqual(bus.call(name, "/", name, "Swap", "hh", 0, 1, fds=pipe), [0, 1])
        os.write(bus.reply_fds[0], b"through both")
        test.assertEqual(os.read(bus.reply_fds[1], 100), b"through both")
        for fd in (*pipe, *bus.reply_fds):
            os.close(fd)
