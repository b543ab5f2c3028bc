#!/usr/bin/env python3
"""Is the service org.example.Counter on the session bus: a method with an error of its own, two
properties, and two signals."""

from dbus_wire import Bus, ErrorReply, Method, Property, Signal

PATH, NAME = "/org/example/Counter", "org.example.Counter"


class Counter:
    value, label = 0, "none"

    def add(self, by: int) -> int:
        if self.value + by >= 1 << 32:
            raise ErrorReply("org.example.Error.Overflow", "the sum has over 32 bits")
        self.value += by
        bus.emit(PATH, NAME, "Changed", self.value)
        bus.changed(PATH, NAME, "Value")
        return self.value

    def set_label(self, label: str) -> None:
        self.label = label


bus, counter = Bus.session(), Counter()
members = {
    "Add": Method("u", "u", counter.add),
    "Changed": Signal("u"),
    "Value": Property("u", lambda: counter.value),
    "Label": Property("s", lambda: counter.label, counter.set_label),
}
bus.serve(PATH, NAME, members)
bus.request_name(NAME)
bus.run()
