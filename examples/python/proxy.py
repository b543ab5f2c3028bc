#!/usr/bin/env python3
"""Stands between clients and a bus: `proxy.py deny|allow DOOR BUS RULE..` lets in clients of its own
user at the Unix socket DOOR, connects each to the bus at the addresses BUS, and passes messages on,
with their file descriptors, in both directions, each validated. It drops a SENDER that a client
names, as a bus does. With `deny`, what a client sends does not get through if one of the match rules
may match it; with `allow`, if none matches it with the SENDER that the bus writes. Then a call is
answered by the error org.freedesktop.DBus.Error.AccessDenied. Bytes that are no message end the
connection. If a name changes hands after the rules are asked, and before the bus routes the message,
this reaches the new owner: no proxy beside the bus can prevent it."""

from __future__ import annotations

import os
import select
import socket
import socketserver
import struct
import sys

from dbus_wire import Bounds, Bus, Client, ErrorReply, Link, Message, RuleSet, Server, connect, error_to, rebuild

DBUS = "org.freedesktop.DBus"
DENIED = f"{DBUS}.Error.AccessDenied"
POLICY, DOOR, BUS, *TEXTS = sys.argv[1:]


class Rules(RuleSet):
    """The rules, with the owners of all names, which the bus tells a connection of its own. They are
    known before a client's first message is looked at."""

    def __init__(self) -> None:
        super().__init__()
        for text in TEXTS:
            self.add(text)
        self.bus = Bus(BUS)
        self.bus.ask("AddMatch", "s", f"type='signal',sender='{DBUS}',member='NameOwnerChanged'")
        for name in self.bus.ask("ListNames")[0]:
            try:
                self.set_owner(name, *self.bus.ask("GetNameOwner", "s", name))
            except ErrorReply:
                self.set_owner(name, None)

    def let_through(self, message: Message, sender: str | None) -> bool:
        """Whether the policy lets the message through, of the client of this name."""
        self.hear()
        if POLICY == "allow":
            return bool(self.matching(rebuild(message, sender=sender)))
        return not self.may_match(message, sender)

    def hear(self) -> None:
        for signal in self.bus.heard():
            if signal.member == "NameOwnerChanged" and signal.sender == DBUS:
                name, _, owner = signal.body
                self.set_owner(name, owner)


def links(client: socket.socket) -> tuple[Link, Link]:
    """Those to the client and to the bus, which passes file descriptors if the client does."""
    peer = client.getsockopt(socket.SOL_SOCKET, socket.SO_PEERCRED, 12)
    if (user := struct.unpack("3i", peer)[1]) != os.getuid():
        raise PermissionError(f"a client of the user {user}")
    server = Link(client, Server(os.urandom(16).hex(), user, descriptors=True, bounds=Bounds(6, 6)))
    return server, Link(connect(BUS), Client(user=user, descriptors=server.agreed, bounds=Bounds(6, 6)))


def pass_messages(client: Link, bus: Link, rules: Rules) -> None:
    # The client's name, which the bus's first message has.
    name = None
    while True:
        for side in select.select((client, bus, rules.bus), (), ())[0]:
            if side is rules.bus:
                rules.hear()
                continue
            it = side.receive()
            if side is bus:
                name = name or it.message.destination
                client.send(it.message, it.fds)
            elif rules.let_through(it.message, name):
                bus.send(rebuild(it.message, sender=None), it.fds)
            elif it.message.wants_reply:
                client.send(error_to(it.message, 1 << 31, DENIED))
            it.close()


class Connection(socketserver.BaseRequestHandler):
    def handle(self) -> None:
        with Rules() as rules, rules.bus:
            client, bus = links(self.request)
            with bus.socket:
                pass_messages(client, bus, rules)


if POLICY not in ("deny", "allow"):
    sys.exit("deny or allow?")
socketserver.ThreadingUnixStreamServer(DOOR, Connection).serve_forever()
