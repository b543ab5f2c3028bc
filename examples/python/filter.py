#!/usr/bin/env python3
"""Writes those D-Bus messages on standard input that a match rule matches: `filter.py RULE`."""

import sys

from dbus_wire import Rule, messages

rule = Rule(sys.argv[1])
for message in messages(sys.stdin.buffer):
    if rule.matches(message):
        sys.stdout.buffer.write(bytes(message))
