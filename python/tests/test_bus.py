"""Tests of connections and of objects that are served at a bus, which is a dbus-daemon. Callers are
busctl, gdbus, dbus-send, GDBus, jeepney, dbus-fast and the module itself, as far as they are there.
Services are those of examples/python, and those of the same names in the folders that the environment
variable DBUS_WIRE_EXAMPLES names, with colons between."""

import asyncio
import importlib.util
import itertools
import os
import pathlib
import shutil
import subprocess
import sys
import tempfile
import time
import unittest
import warnings

from inputs import GUID, ROOT, try_swaps

import dbus_wire
from dbus_wire import AsyncBus, Bus, Client, Connection, ErrorReply, Event, MessageType, Method, Refused
from dbus_wire import Server, Signal, Variant, call, reply_to

EXAMPLES = ROOT / "examples/python"
FOLDERS = [pathlib.Path(it) for it in os.environ.get("DBUS_WIRE_EXAMPLES", "").split(":") if it]
PATH, NAME, LOAD, ECHO = "/org/example/Counter", *(f"org.example.{it}" for it in ("Counter", "Load", "Echo"))
DBUS, ERROR = "org.freedesktop.DBus", "org.freedesktop.DBus.Error"
ID = pathlib.Path("/etc/machine-id")
MACHINE = ID.read_text().strip() if ID.exists() else ""
# Of each call the interface, the member, the types and values, and the reply or the error's name.
CALLS = (
    (NAME, "Add", ("u", 2), [2]),
    (None, "Add", ("u", 3), [5]),
    (NAME, "Add", ("u", (1 << 32) - 5), "org.example.Error.Overflow"),
    (NAME, "Add", ("i", 2), f"{ERROR}.InvalidArgs"),
    (NAME, "Add", (), f"{ERROR}.InvalidArgs"),
    (NAME, "Changed", (), f"{ERROR}.UnknownMethod"),
    ("org.example.Other", "Add", ("u", 2), f"{ERROR}.UnknownInterface"),
    (f"{DBUS}.Peer", "Ping", (), []),
    (f"{DBUS}.Peer", "GetMachineId", (), [MACHINE] if MACHINE else f"{ERROR}.Failed"),
    (f"{DBUS}.Properties", "Get", ("ss", NAME, "Value"), [Variant("u", 5)]),
    (f"{DBUS}.Properties", "Get", ("ss", NAME, "Add"), f"{ERROR}.UnknownProperty"),
    (f"{DBUS}.Properties", "Get", ("ss", "a.b", "Value"), f"{ERROR}.UnknownInterface"),
    (f"{DBUS}.Properties", "Set", ("ssv", NAME, "Label", Variant("s", "new")), []),
    (f"{DBUS}.Properties", "Set", ("ssv", NAME, "Label", Variant("u", 1)), f"{ERROR}.InvalidArgs"),
    (f"{DBUS}.Properties", "Set", ("ssv", NAME, "Value", Variant("u", 1)), f"{ERROR}.PropertyReadOnly"),
    (f"{DBUS}.Properties", "GetAll", ("s", NAME), [{"Value": Variant("u", 5), "Label": Variant("s", "new")}]),
)
WORDS = (
    (("busctl", "--user", "call", NAME, PATH, NAME, "Add", "u", "1"), "u 6\n"),
    (("busctl", "--user", "get-property", NAME, PATH, NAME, "Label"), 's "new"\n'),
    (("busctl", "--user", "call", NAME, PATH, f"{DBUS}.Peer", "Ping"), ""),
    (("gdbus", "call", "--session", "-d", NAME, "-o", PATH, "-m", f"{NAME}.Add", "1"), "(uint32 7,)\n"),
    (("gdbus", "call", "--session", "-d", NAME, "-o", PATH, "-m", f"{DBUS}.Peer.Ping"), "()\n"),
    (("dbus-send", "--print-reply=literal", f"--dest={NAME}", PATH, f"{NAME}.Add", "uint32:1"), "   uint32 8\n"),
)


def asked(bus, *words):
    try:
        return bus.call(*words)
    except ErrorReply as error:
        return error.name


def by_gdbus(address, by):
    with warnings.catch_warnings():
        warnings.simplefilter("ignore")
        from gi.repository import Gio, GLib

    flags = Gio.DBusConnectionFlags.AUTHENTICATION_CLIENT | Gio.DBusConnectionFlags.MESSAGE_BUS_CONNECTION
    bus = Gio.DBusConnection.new_for_address_sync(address, flags, None, None)
    given = GLib.Variant("(u)", (by,)), GLib.VariantType("(u)"), Gio.DBusCallFlags.NONE, -1, None
    return bus.call_sync(NAME, PATH, NAME, "Add", *given).unpack()[0]


def by_jeepney(address, by):
    from jeepney import DBusAddress, new_method_call
    from jeepney.io.blocking import open_dbus_connection

    with open_dbus_connection(address) as bus:
        return bus.send_and_get_reply(new_method_call(DBusAddress(PATH, NAME, NAME), "Add", "u", (by,))).body[0]


def by_dbus_fast(address, by):
    from dbus_fast import Message
    from dbus_fast.aio import MessageBus

    async def add():
        bus = await MessageBus(bus_address=address).connect()
        call = Message(destination=NAME, path=PATH, interface=NAME, member="Add", signature="u", body=[by])
        [total] = (await bus.call(call)).body
        bus.disconnect()
        return total

    return asyncio.run(add())


CALLERS = {"gi": by_gdbus, "jeepney": by_jeepney, "dbus_fast": by_dbus_fast}


def begun(*asked, descriptors=False, **settings):
    server = Connection(Server(GUID, os.getuid(), descriptors=descriptors), **settings)
    for line in (b"\0AUTH EXTERNAL\r\n", b"DATA\r\n", *asked, b"BEGIN\r\n"):
        while server.take(line).event == Event.UNSENT:
            server.unsent()
            line = b""
    return server


class Sides(unittest.TestCase):
    def test_two_sides(self):
        client = Connection(Client(user=os.getuid(), descriptors=True), calls=1)
        server = Connection(Server(GUID, os.getuid(), descriptors=True))
        to, back, told = b"", b"", []
        while len(told) < 2:
            for side, data in ((client, back), (server, to)):
                came = side.take(data)
                sent = side.unsent() if came.event in (Event.UNSENT, Event.BEGUN) else b""
                to, back = (to + sent, back[came.count :]) if side is client else (to[came.count :], back + sent)
                if came.event == Event.BEGUN:
                    told.append((side is client, came.agreed, came.guid))
        self.assertEqual(sorted(told), [(False, True, None), (True, True, GUID)])
        serial = client.call("a.b", 7)
        self.assertRaises(BlockingIOError, client.call, "a.b", 8)
        self.assertRaises(ValueError, client.call, "no name", 8)
        self.assertEqual([client.serial(), client.serial()], [serial + 1, serial + 2])
        asks = call(serial, "C", path="/", destination="a.b")
        data = to + bytes(asks)
        self.assertEqual(server.take(data[:20])[:3], (Event.WANTS, 0, len(data)))
        self.assertEqual(server.take(data)[:4], (Event.MESSAGE, len(data), len(data), None))
        reply = bytes(reply_to(asks, server.serial(), sender=":1.2"))
        self.assertEqual([client.take(reply).call for _ in range(2)], [7, None])
        self.assertEqual([client.give_up(client.call(None, 9)), client.give_up(serial)], [9, None])
        self.assertRaises(Refused, client.take, bytes(16))
        self.assertRaises(ConnectionError, client.take, reply)

    def test_descriptors(self):
        server = begun(b"NEGOTIATE_UNIX_FD\r\n", descriptors=True)
        own, data = os.pipe(), bytes(call(9, "C", "h", 0, path="/", unix_fds=1))
        self.assertEqual([server.keep_fd(fd, 0) for fd in own], [True, True])
        self.assertEqual([(server.take(data).unix_fds, server.fds(), server.fds())], [(1, [own[0]], [])])
        self.assertEqual((server.take(data).unix_fds, server.take(b"").event), (1, Event.WANTS))
        self.assertRaises(OSError, os.close, own[1])
        self.assertRaises(ConnectionError, server.take, data)
        self.assertEqual((server.keep_fd(own[0], 0), begun().keep_fd(os.dup(2), 0)), (False, False))
        self.assertRaises(OSError, os.close, own[0])

    def test_passed(self):
        server = begun(longest=100)
        short, long = (bytes(call(9, "C", "ay", bytes(count), path="/")) for count in (1, 1000))
        came = server.take(long[:16])
        self.assertEqual((came.event, came.count, came.wanted), (Event.PASSED, 0, len(long)))
        self.assertEqual((came.type, came.flags, came.serial), (MessageType.METHOD_CALL, 0, 9))
        self.assertEqual(server.take(long[:500])[:3], (Event.WANTS, 500, 16))
        self.assertEqual(server.take(long[500:] + short)[:3], (Event.MESSAGE, len(long + short) - 500, len(short)))


@unittest.skipUnless(shutil.which("dbus-daemon"), "dbus-daemon is not there")
class AtABus(unittest.TestCase):
    def setUp(self):
        folder = tempfile.TemporaryDirectory()
        self.addCleanup(folder.cleanup)
        self.address = f"unix:path={folder.name}/bus"
        self.environment = {**os.environ, "DBUS_SESSION_BUS_ADDRESS": self.address}
        self.environment["PYTHONPATH"] = str(pathlib.Path(dbus_wire.__file__).parent.parent)
        daemon = self.start("dbus-daemon", "--session", "--nofork", "--print-address", f"--address={self.address}")
        daemon.stdout.readline()

    def start(self, *words):
        program = subprocess.Popen(words, env=self.environment, stdout=subprocess.PIPE, text=True)
        for clean in (program.stdout.close, program.wait, program.kill):
            self.addCleanup(clean)
        return program

    def run_caller(self, *words):
        return subprocess.run(words, env=self.environment, capture_output=True, text=True)

    def bus(self):
        bus = Bus(self.address)
        self.addCleanup(bus.close)
        return bus

    def try_each(self, example, name, attempt):
        """Tries a bus at which that example has the name, one for each language."""
        bus = self.bus()
        for words in ((sys.executable, EXAMPLES / f"{example}.py"), *((it / example,) for it in FOLDERS)):
            with self.subTest(words[-1]):
                program = self.start(*words)
                self.wait_for(bus, name, True)
                try:
                    attempt(self.bus())
                finally:
                    program.kill()
                    self.wait_for(bus, name, False)

    def wait_for(self, bus, name, is_there):
        for _ in range(300):
            if bus.ask("NameHasOwner", "s", name) == [is_there]:
                return
            time.sleep(0.1)
        self.fail(name)

    def test_counters(self):
        self.try_each("counter", NAME, self.try_counter)

    def try_counter(self, bus):
        bus.ask("AddMatch", "s", f"path='{PATH}'")
        for interface, member, body, right in CALLS:
            with self.subTest(interface=interface, member=member, body=body):
                self.assertEqual(asked(bus, NAME, PATH, interface, member, *body), right)
        signals = [(it.member, it.body) for it in itertools.islice((it for it in bus if it.path == PATH), 5)]
        changed = "PropertiesChanged", [NAME, {"Value": Variant("u", 5)}, []]
        self.assertEqual(signals[2:4], [("Changed", [5]), changed])
        self.assertEqual(asked(bus, NAME, "/none", NAME, "Add", "u", 1), f"{ERROR}.UnknownObject")
        self.assertEqual(asked(bus, NAME, "/none", f"{DBUS}.Peer", "Ping"), [])
        [text] = bus.call(NAME, "/org", f"{DBUS}.Introspectable", "Introspect")
        self.assertIn('<node name="example"/>', text.replace("'", '"'))
        for words, right in WORDS:
            if shutil.which(words[0]):
                with self.subTest(words):
                    ran = self.run_caller(*words)
                    self.assertEqual((ran.stdout, ran.stderr), (right, ""))
        if shutil.which("busctl"):
            ran = self.run_caller("busctl", "--user", "introspect", NAME, PATH)
            self.assertRegex(ran.stdout, r"\.Add +method +u +u")
            self.assertRegex(ran.stdout, r"\.Label +property +s +\"new\" +.*writable")
        for name, add in CALLERS.items():
            if importlib.util.find_spec(name):
                [before] = bus.call(NAME, PATH, NAME, "Add", "u", 0)
                self.assertEqual(add(self.address, 7), before + 7)
        half = bytes(50 << 20)
        self.assertEqual(asked(bus, NAME, PATH, NAME, "Add", "ayay", half, half), f"{ERROR}.InvalidArgs")

    def test_services(self):
        self.try_each("service", LOAD, self.try_service)

    def try_service(self, bus):
        [entries] = bus.call(LOAD, "/org/example/Load", LOAD, "Get")
        self.assertIsInstance(entries["Load"].value, float)
        self.assertEqual(asked(bus, LOAD, "/org/example/Load", LOAD, "Set"), f"{ERROR}.UnknownMethod")

    def test_descriptors(self):
        self.try_each("descriptors", ECHO, self.try_descriptors)

    def try_descriptors(self, bus):
        try_swaps(self, bus, ECHO, 300)
        # No descriptor comes with the first call, and one with the second.
        self.assertEqual(asked(bus, ECHO, "/", ECHO, "Swap", "hh", 0, 1), f"{ERROR}.Failed")
        with self.assertRaises(ErrorReply):
            bus.call(ECHO, "/", ECHO, "Swap", "hh", 0, 1, fds=[0])
        if shutil.which("gdbus"):
            words = "gdbus", "call", "--session", "-d", ECHO, "-o", "/", "-m", f"{ECHO}.Swap", "handle 0", "handle 1"
            self.assertEqual(self.run_caller(*words).stdout, "(handle 0, handle 1)\n")

    def test_asyncio(self):
        async def half(number):
            await asyncio.sleep(0.1)
            bus.emit("/", LOAD, "Done", number)
            if number % 2:
                raise ErrorReply(f"{NAME}.Odd", "no half")
            return number // 2

        async def served():
            nonlocal bus
            bus, other = AsyncBus(self.address), AsyncBus(self.address)
            members = {"Half": Method("u", "u", half), "Same": Method("ay", "ay", lambda it: it), "Done": Signal("u")}
            bus.serve("/", LOAD, members)
            await bus.request_name(LOAD)
            with self.assertRaises(ConnectionError):
                await other.request_name(LOAD)
            await other.ask("AddMatch", "s", f"interface='{LOAD}'")
            calls = [("Half", "u", 6), ("Half", "u", 7), ("Same", "ay", bytes(20 << 20))]
            told = await asyncio.gather(*(other.call(LOAD, "/", LOAD, *it) for it in calls), return_exceptions=True)
            self.assertEqual((told[0], told[1].name, told[2]), ([3], f"{NAME}.Odd", [bytes(20 << 20)]))
            with self.assertRaises(asyncio.TimeoutError):
                await other.call(LOAD, "/", LOAD, "Half", "u", 8, timeout=0.01)
            signals = (it.body async for it in other if it.member == "Done")
            self.assertEqual([await signals.__anext__() for _ in range(3)], [[6], [7], [8]])
            bus.close()
            other.close()

        bus = None
        asyncio.run(served())

    def test_names(self):
        first, second = self.bus(), self.bus()
        first.request_name(NAME)
        first.request_name(NAME)
        self.assertRaises(ConnectionError, second.request_name, NAME)
        # It is called only once it runs.
        self.assertRaises(TimeoutError, second.call, NAME, PATH, NAME, "Add", "u", 1, timeout=0.1)


if __name__ == "__main__":
    unittest.main()
