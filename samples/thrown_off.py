#!/usr/bin/env python3
"""thrown_off.py: connects to the session bus, and sends a signal whose body is an array of one text, `["é"]`.

samples/thrown-off.sent is what it sent, as `socat -r` recorded it, by the dbus-fast 1.84.2 of Debian 12 (python3-dbus-fast) to dbus-daemon
1.14.10. The daemon then ended the connection, and the program ended with EOFError. README.md shows both commands.
"""

import asyncio

from dbus_fast import Message
from dbus_fast.aio import MessageBus


async def main():
    bus = await MessageBus().connect()
    await bus.send(Message.new_signal("/org/example/Tags", "org.example.Tags", "Changed", "as", [["é"]]))
    await bus.wait_for_disconnect()


asyncio.run(main())
