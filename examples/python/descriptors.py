#!/usr/bin/env python3
"""Is the service org.example.Echo on the session bus: Swap returns two file descriptors in the
other order."""

from dbus_wire import Bus, Method

NAME = "org.example.Echo"


def swap(first: int, second: int) -> tuple[int, int]:
    bus.given_fds.extend(bus.asked_fds[it] for it in (second, first))
    return 0, 1


bus = Bus.session()
bus.serve("/", NAME, {"Swap": Method("hh", "hh", swap)})
bus.request_name(NAME)
bus.run()
