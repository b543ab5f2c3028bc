#!/usr/bin/env python3
"""Checks the D-Bus messages on standard input, and prints what `dbus-wire check` prints of them."""

import sys

from dbus_wire import NotAMessage, messages

count = length = 0
try:
    for message in messages(sys.stdin.buffer):
        count, length = count + 1, length + len(message.data)
    print(f"ok {count} messages {length} bytes")
except NotAMessage as fault:
    print(fault)
    sys.exit(1)
