#!/usr/bin/env python3
"""Is the service org.example.Load on the session bus: Get returns this machine's load."""

import os

from dbus_wire import Bus, Method, Variant

bus = Bus.session()
get = Method("", "a{sv}", lambda: {"Load": Variant("d", os.getloadavg()[0])})
bus.serve("/org/example/Load", "org.example.Load", {"Get": get})
bus.request_name("org.example.Load")
bus.run()
