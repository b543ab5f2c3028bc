#!/usr/bin/env python3
"""languages.py: microseconds of processor time of some messages that the module dbus_wire builds and reads, and that
jeepney and dbus-fast do, if these are there: the best of many rounds."""

import importlib.util
import io
import time
import timeit

from dbus_wire import Message, Variant, signal

TEXTS = [f"text number {it}" for it in range(100)]
# By a signature its values, with what makes a variant of its type and its value.
ROWS = {
    "su": lambda variant: ("x", 1),
    "a{sv}": lambda variant: ({f"Key{it}": variant("d", 0.5) for it in range(5)},),
    "as": lambda variant: (TEXTS,),
    "ay": lambda variant: (bytes(4096),),
}


def least(call):
    return min(timeit.repeat(call, number=20, repeat=200, timer=time.thread_time)) / 20 * 1e6


def of_dbus_wire(signature, values):
    return lambda: signal(7, "/org/a", "org.a.B", "C", signature, *values).data, lambda data: Message.parse(data).body


def of_jeepney(signature, values):
    from jeepney import DBusAddress, new_signal
    from jeepney.low_level import Parser

    address = DBusAddress("/org/a", interface="org.a.B")
    make = lambda: new_signal(address, "C", signature, values).serialise(serial=7)  # noqa: E731
    return make, lambda data: Parser().feed(data)[0].body


def of_dbus_fast(signature, values):
    from dbus_fast import Message, MessageType
    from dbus_fast._private.unmarshaller import Unmarshaller

    parts = {"path": "/org/a", "interface": "org.a.B", "member": "C", "signature": signature, "serial": 7}
    parts |= {"message_type": MessageType.SIGNAL, "body": list(values)}
    make = lambda: bytes(Message(**parts)._marshall(False))  # noqa: E731
    return make, lambda data: Unmarshaller(io.BytesIO(data)).unmarshall().body


def main():
    of = {"dbus_wire": (of_dbus_wire, Variant), "jeepney": (of_jeepney, lambda *pair: pair)}
    if importlib.util.find_spec("dbus_fast"):
        import dbus_fast

        of["dbus_fast"] = of_dbus_fast, dbus_fast.Variant
    for name, (functions, variant) in of.items():
        if importlib.util.find_spec(name):
            for one, values in ROWS.items():
                build, read = functions(one, values(variant))
                figures = least(build), least(lambda data=build(): read(data))
                print(f"{name:12} {one:6} build {figures[0]:7.1f}  read {figures[1]:7.1f}", flush=True)


if __name__ == "__main__":
    main()
