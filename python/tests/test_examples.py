"""Tests of the programs in examples/python: `make test-python` runs them. A bus is one of this test,
or a dbus-daemon, if it is there."""

import os
import pathlib
import shutil
import socket
import subprocess
import sys
import tempfile
import threading
import time
import unittest

from inputs import GUID, ROOT, SAMPLES, try_swaps

import dbus_wire
from dbus_wire import Bus, Client, ErrorReply, MessageType, Rule, Server, Variant, build, messages, reply_to

EXAMPLES = ROOT / "examples/python"
DBUS = "org.freedesktop.DBus"
LAB, OTHER, LATE, ECHO = (f"org.example.{it}" for it in ("Lab", "Other", "Late", "Echo"))
# What stands for the unique name of a service that has the first two names.
OWN = ""
# What the proxy denies of these rules, or allows, and calls with whether they get through.
POLICIES = {
    "deny": (
        (
            f"destination='{LAB}',interface='{LAB}',member='Erase'",
            f"destination='{DBUS}',member='GetId'",
            f"destination='{LATE}'",
        ),
        (
            ({"member": "Read", "interface": LAB, "destination": LAB}, True),
            ({"member": "Erase", "interface": OTHER, "destination": LAB}, True),
            ({"member": "Erase", "interface": LAB, "destination": LAB}, False),
            ({"member": "Erase", "destination": LAB}, False),
            ({"member": "Erase", "interface": LAB, "destination": OWN}, False),
            ({"member": "Erase", "destination": OWN}, False),
            ({"member": "Erase", "interface": LAB, "destination": OTHER}, False),
            ({"member": "Erase", "destination": OTHER, "order": "B"}, False),
            ({"member": "Erase", "destination": OWN, "sender": DBUS}, False),
            ({"member": "GetId", "destination": DBUS}, False),
            ({"member": "GetId", "interface": DBUS}, False),
            ({"member": "GetId"}, False),
            # The service has this name from here on.
            ({"member": "Read", "interface": LAB, "destination": OWN}, True),
            ({"member": "Read", "interface": LAB, "destination": LATE}, False),
            ({"member": "Read", "interface": LAB, "destination": OWN}, False),
        ),
    ),
    "allow": (
        (
            f"destination='{DBUS}',interface='{DBUS}',member='Hello'",
            f"destination='{LAB}',interface='{LAB}',member='Read'",
            f"sender='{OTHER}',destination='{LAB}',member='Write'",
        ),
        (
            ({"member": "Read", "interface": LAB, "destination": LAB}, True),
            ({"member": "Read", "destination": LAB}, False),
            ({"member": "Read", "interface": LAB, "destination": OWN}, False),
            ({"member": "Read", "interface": LAB, "destination": OTHER}, False),
            ({"member": "Read", "interface": LAB}, False),
            ({"member": "Write", "interface": LAB, "destination": LAB}, False),
            ({"member": "Write", "interface": LAB, "destination": LAB, "sender": OWN}, False),
            ({"member": "Write", "interface": LAB, "destination": LAB, "sender": OTHER}, False),
            ({"member": "GetId", "destination": DBUS}, False),
        ),
    ),
}
# Another proxy that takes the same words, and the socket of a bus that is there.
PROXY, BUS = os.environ.get("DBUS_WIRE_PROXY"), os.environ.get("DBUS_WIRE_BUS")
# The module that this test has.
ENVIRONMENT = {**os.environ, "PYTHONPATH": str(pathlib.Path(dbus_wire.__file__).parent.parent)}


def run(name, *words, given=b""):
    ran = subprocess.run([sys.executable, EXAMPLES / name, *words], input=given, capture_output=True, env=ENVIRONMENT)
    return ran.stdout, ran.stderr.decode(), ran.returncode


def connected(path):
    """A connection to the socket, once it is there."""
    for _ in range(100):
        try:
            connection = socket.socket(socket.AF_UNIX)
            connection.settimeout(20)
            connection.connect(path)
            return connection
        except OSError:
            connection.close()
            time.sleep(0.1)
    raise TimeoutError(path)


def asked(connection, incoming, serial, member, *body, **parts):
    """The reply to a call, and the error's name."""
    call = build(MessageType.METHOD_CALL, serial, *body, member=member, **{"path": "/", **parts})
    connection.sendall(bytes(call))
    reply = next(message for message in incoming if message.reply_serial == serial)
    return reply.error_name or reply.body


class Filters(unittest.TestCase):
    def test_check(self):
        data = SAMPLES["session"]
        self.assertEqual(run("check.py", given=data), (f"ok 136 messages {len(data)} bytes\n".encode(), "", 0))
        self.assertEqual(run("check.py", given=data[:-1]), (f"refused at {len(data) - 1}: Truncated\n".encode(), "", 1))

    def test_values(self):
        written, said, status = run("values.py", given=SAMPLES["session"])
        right = [f"{message.serial} {message.member} {message.body}" for message in messages(SAMPLES["session"])]
        self.assertEqual((written.decode().splitlines(), said, status), (right, "", 0))

    def test_filter(self):
        text, data = "type='signal',member='NameAcquired'", SAMPLES["session"]
        with Rule(text) as rule:
            right = b"".join(bytes(message) for message in messages(data) if rule.matches(message))
        self.assertTrue(right)
        self.assertEqual(run("filter.py", text, given=data), (right, "", 0))


class AtABus(unittest.TestCase):
    def setUp(self):
        self.folder = tempfile.TemporaryDirectory()
        self.addCleanup(self.folder.cleanup)
        self.bus, self.door = (os.path.join(self.folder.name, name) for name in ("bus", "door"))

    def start(self, *words):
        """Starts a program, which ends with the test."""
        addresses = f"unix:path={self.folder.name}/none;tcp:host=x;unix:path={self.bus}"
        environment = {**ENVIRONMENT, "DBUS_SESSION_BUS_ADDRESS": addresses}
        program = subprocess.Popen(words, env=environment, stdout=subprocess.DEVNULL, stderr=subprocess.DEVNULL)
        self.addCleanup(program.wait)
        self.addCleanup(program.kill)

    def example(self, name, *words):
        self.start(sys.executable, EXAMPLES / name, *words)

    def proxy(self, policy, door, *rules, address=None):
        proxy = [PROXY] if PROXY else [sys.executable, EXAMPLES / "proxy.py"]
        self.start(*proxy, policy, door, address or f"unix:path={self.bus}", *rules)

    def listen(self):
        """A socket at which the bus of a test listens."""
        listening = socket.socket(socket.AF_UNIX)
        self.addCleanup(listening.close)
        listening.bind(self.bus)
        listening.listen()
        listening.settimeout(20)
        return listening

    def test_service(self):
        listening = self.listen()
        self.example("service.py")
        service, _ = listening.accept()
        with service:
            service.settimeout(20)
            Server(GUID, os.getuid()).shake_hands(service)
            with service.makefile("rb") as file:
                incoming = messages(file)
                requests = ("Hello", [], "s", ":1.1"), ("RequestName", ["org.example.Load", 4], "u", 1)
                for member, body, *values in requests:
                    call = next(incoming)
                    self.assertEqual((call.member, call.body), (member, body))
                    service.sendall(bytes(reply_to(call, 1, *values, sender=DBUS)))
                parts = {"path": "/org/example/Load", "sender": ":1.7"}
                [entries] = asked(service, incoming, 7, "Get", **parts)
                self.assertEqual(list(entries), ["Load"])
                self.assertIsInstance(entries["Load"].value, float)
                reply = asked(service, incoming, 8, "Take", "v", Variant("d", 1.0), **parts)
                self.assertEqual(reply, f"{DBUS}.Error.UnknownMethod")

    def test_clients_that_ask_for_descriptors(self):
        listening, address = self.listen(), f"unix:path={self.bus}"
        for words, member in (
            (("dbus-send", f"--peer={address}", "--type=signal", "/a", "b.c.Seen"), "Seen"),
            (("gdbus", "call", "--address", address, "--dest", "a.b", "--object-path", "/", "--method", "a.b.C"), "Hello"),
            (("busctl", f"--address={address}", "call", "a.b", "/", "a.b", "C"), "Hello"),
        ):
            for descriptors in (True, False) if shutil.which(words[0]) else ():
                with self.subTest(words[0], descriptors=descriptors):
                    self.start(*words)
                    client, _ = listening.accept()
                    with client, Server(GUID, os.getuid(), descriptors=descriptors) as server:
                        client.settimeout(20)
                        server.shake_hands(client)
                        with client.makefile("rb") as file:
                            self.assertEqual((server.agreed, next(messages(file)).member), (descriptors, member))

    def test_proxy(self):
        listening = self.listen()

        def answer(client):
            with client, client.makefile("rb") as file:
                Server(GUID, os.getuid()).shake_hands(client)
                for call in messages(file):
                    bodies = {"Hello": ("s", ":1.1"), "ListNames": ("as", []), "Sender": ("s", f"{call.sender}")}
                    body = bodies.get(call.member, (call.signature, *call.body))
                    client.sendall(bytes(reply_to(call, call.serial, *body, sender=DBUS)))

        def serve():
            # That of the client, and one by which the proxy asks for owners.
            asks, _ = listening.accept()
            asked_first = threading.Thread(target=answer, args=(asks,))
            asked_first.start()
            answer(listening.accept()[0])
            asked_first.join(20)

        answering = threading.Thread(target=serve)
        answering.start()
        self.proxy("deny", self.door, "member='Secret'", "arg0='secret'")
        with connected(self.door) as client:
            Client(user=os.getuid()).shake_hands(client)
            with client.makefile("rb") as file:
                incoming = messages(file)
                self.assertEqual(asked(client, incoming, 1, "A", "as", ["x"] * 50000), [["x"] * 50000])
                self.assertEqual(asked(client, incoming, 2, "Secret"), f"{DBUS}.Error.AccessDenied")
                self.assertEqual(asked(client, incoming, 3, "A", "s", "secret"), f"{DBUS}.Error.AccessDenied")
                self.assertEqual(asked(client, incoming, 4, "A", "s", "x"), ["x"])
                # A bus drops the SENDER that a client names, and so does the proxy.
                self.assertEqual(asked(client, incoming, 5, "Sender", sender=":1.7"), ["None"])
                # As many bytes as the proxy reads at first: with others left the connection would be reset.
                client.sendall(bytes(16))
                self.assertEqual(file.read(), b"")
        answering.join(20)
        self.assertFalse(answering.is_alive())

    @unittest.skipUnless(shutil.which("dbus-daemon"), "dbus-daemon is not there")
    def test_both_at_a_dbus_daemon(self):
        self.start("dbus-daemon", "--session", "--nofork", f"--address=unix:path={self.bus}")
        connected(self.bus).close()
        self.example("service.py")
        self.proxy("deny", self.door, "member='GetId'")
        with connected(self.door) as client:
            Client(user=os.getuid()).shake_hands(client)
            with client.makefile("rb") as file:
                incoming, to_bus = messages(file), {"destination": DBUS, "interface": DBUS}
                [own] = asked(client, incoming, 1, "Hello", **to_bus)
                self.assertEqual(own[:1], ":")
                self.assertEqual(asked(client, incoming, 2, "GetId", **to_bus), f"{DBUS}.Error.AccessDenied")
                for serial in range(3, 100):
                    if asked(client, incoming, serial, "NameHasOwner", "s", "org.example.Load", **to_bus) == [True]:
                        break
                    time.sleep(0.1)
                parts = {"path": "/org/example/Load", "destination": "org.example.Load"}
                [entries] = asked(client, incoming, 100, "Get", **parts)
                self.assertEqual(list(entries), ["Load"])

    @unittest.skipUnless(shutil.which("dbus-daemon"), "dbus-daemon is not there")
    def test_descriptors_through_a_proxy(self):
        self.start("dbus-daemon", "--session", "--nofork", f"--address=unix:path={self.bus}")
        connected(self.bus).close()
        self.example("descriptors.py")
        self.proxy("deny", self.door, "member='GetId'")
        connected(self.door).close()
        with Bus(f"unix:path={self.door}") as bus:
            while bus.ask("NameHasOwner", "s", ECHO) == [False]:
                time.sleep(0.1)
            self.assertRaises(ErrorReply, bus.ask, "GetId")
            try_swaps(self, bus, ECHO, 100)

    @unittest.skipUnless(BUS or shutil.which("dbus-daemon"), "dbus-daemon is not there")
    def test_ways_past_a_policy(self):
        bus, to_bus = BUS or self.bus, {"destination": DBUS, "interface": DBUS}
        address = f"unix:path={bus}"
        if not BUS:
            self.start("dbus-daemon", "--session", "--nofork", f"--address={address}")
        with connected(bus) as service, service.makefile("rb") as file:
            Client(user=os.getuid()).shake_hands(service)
            incoming = messages(file)
            [own] = asked(service, incoming, 1, "Hello", **to_bus)
            for serial, name in enumerate((LAB, OTHER), 2):
                asked(service, incoming, serial, "RequestName", "su", name, 0, **to_bus)
            for policy, (rules, calls) in POLICIES.items():
                door = self.door + policy
                self.proxy(policy, door, *rules, address=address)
                with connected(door) as client, client.makefile("rb") as replies:
                    Client(user=os.getuid()).shake_hands(client)
                    to_client = messages(replies)
                    asked(client, to_client, 1, "Hello", **to_bus)
                    for serial, (parts, is_passed) in enumerate(calls, 2):
                        parts = {key: value or own for key, value in parts.items()}
                        with self.subTest(policy, **parts):
                            if parts.get("destination") == LATE:
                                asked(service, incoming, 4, "RequestName", "su", LATE, 0, **to_bus)
                            client.sendall(bytes(build(MessageType.METHOD_CALL, serial, path="/", **parts)))
                            if is_passed:
                                call = next(message for message in incoming if message.member == parts["member"])
                                service.sendall(bytes(reply_to(call, 9, "s", "served")))
                            reply = next(message for message in to_client if message.reply_serial == serial)
                            self.assertEqual(reply.error_name, None if is_passed else f"{DBUS}.Error.AccessDenied")


if __name__ == "__main__":
    unittest.main()
