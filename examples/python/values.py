#!/usr/bin/env python3
"""Prints a line for each D-Bus message on standard input: its serial, its member, its values."""

import sys

from dbus_wire import messages

for message in messages(sys.stdin.buffer):
    print(message.serial, message.member, message.body)
