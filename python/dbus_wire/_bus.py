"""Connections to a message bus over a Unix socket: one that blocks, and one for asyncio."""

from __future__ import annotations

import asyncio
import inspect
import itertools
import logging
import os
import select
import socket
import time
from collections import deque
from typing import Any, AsyncIterator, Awaitable, Callable, Generic, Iterator
from typing import List, Sequence, TypeVar

from ._addresses import connect
from ._building import call, error_to, reply_to, signal
from ._errors import NotAMessage
from ._handshake import Bounds, Client
from ._link import Incoming, Link
from ._messages import Message, MessageType
from ._served import DBUS, PROPERTIES, ErrorReply, Members, Objects

_Self = TypeVar("_Self", bound="_Side[Any]")
_Reply = TypeVar("_Reply")
_Send = Callable[[int], None]
_PATH = "/org/freedesktop/DBus"


class _Side(Generic[_Reply]):
    """What is common to a bus that blocks and one that does not."""

    asked: Message | None = None
    """The call that is answered."""
    asked_fds: Sequence[int] = ()
    """The file descriptors that came with it, which are closed after its reply. A value of type `h`
    is an index into them."""
    given_fds: list[int]
    """Those that are sent with its reply; they stay open."""

    def __init__(self, addresses: str) -> None:
        """Connects to the first of the addresses that takes a connection, as the user of this
        process. Raises what `connect` raises, and ConnectionError if the handshake fails."""
        client = Client(user=os.getuid(), descriptors=True, bounds=Bounds(6, 6))
        self._link = Link(connect(addresses), client)
        self._later, self._objects = deque[Incoming](), Objects(self.changed)
        self.given_fds = []
        parts: Any = {"path": _PATH, "interface": DBUS, "destination": DBUS}
        self._link.send(call(self._link.side.call(DBUS, 0), "Hello", **parts))
        [self.name] = _values_of(self._link.receive())

    @classmethod
    def session(cls: type[_Self]) -> _Self:
        """The session bus: of DBUS_SESSION_BUS_ADDRESS, or else in XDG_RUNTIME_DIR."""
        return cls(os.environ.get("DBUS_SESSION_BUS_ADDRESS") or "unix:runtime=yes")

    @classmethod
    def system(cls: type[_Self]) -> _Self:
        """The system bus: of DBUS_SYSTEM_BUS_ADDRESS, or else of the specification."""
        own = os.environ.get("DBUS_SYSTEM_BUS_ADDRESS")
        return cls(own or "unix:path=/var/run/dbus/system_bus_socket")

    def call(
        self,
        destination: str,
        path: str,
        interface: str | None,
        member: str,
        signature: str | None = None,
        *values: Any,
        timeout: float | None = None,
        fds: Sequence[int] = (),
    ) -> _Reply:
        """Calls a method, waits for the reply, and returns its values. Raises ErrorReply of an
        error, TimeoutError after so many seconds, ConnectionError once the bus is gone, and what
        `dbus_wire.call` raises. An AsyncBus has to be awaited, and closes the file descriptors of
        the reply."""
        parts: Any = {"path": path, "interface": interface, "unix_fds": len(fds)}
        words, parts["destination"] = (member, signature, *values), destination
        send: _Send = lambda it: self._send(call(it, *words, **parts), fds)
        return self._wait(destination, send, timeout)

    def ask(self, member: str, signature: str | None = None, *values: Any) -> _Reply:
        """Calls a method of the bus itself, such as AddMatch."""
        return self.call(DBUS, _PATH, DBUS, member, signature, *values)

    def serve(self, path: str, interface: str, members: Members) -> None:
        """Serves an interface of an object, which has Peer, Introspectable and Properties too."""
        self._objects.served.setdefault(path, {})[interface] = members

    def emit(self, path: str, interface: str, member: str, *values: Any, fds: Sequence[int] = ()) -> None:
        """Sends a signal of an object that is served, with these file descriptors."""
        gives = self._objects.served[path][interface][member].gives
        self._signal(fds, path, interface, member, gives, *values)

    def changed(self, path: str, interface: str, *names: str) -> None:
        """Sends PropertiesChanged, with the values of these properties. One that a caller sets
        needs none."""
        values: Any = interface, self._objects.values(path, interface, *names), []
        self._signal((), path, PROPERTIES, "PropertiesChanged", "sa{sv}as", *values)

    def _signal(self, fds: Sequence[int], *words: Any) -> None:
        serial = self._link.side.serial()
        self._send(signal(serial, *words, unix_fds=len(fds)), fds)

    def fileno(self) -> int:
        return self._link.fileno()

    def close(self) -> None:
        self._link.socket.close()
        while self._later:
            self._later.popleft().close()

    async def _answer(self, it: Incoming) -> None:
        asked, given = it.message, list[int]()
        self.asked, self.asked_fds, self.given_fds = asked, it.fds, given
        serial = self._link.side.serial()
        try:
            method = self._objects.method(asked)
            values = method.call(*asked.body)
            if inspect.isawaitable(values):
                values = await values
            words = method.gives, *method.values(values)
            reply = reply_to(asked, serial, *words, unix_fds=len(given))
        except ErrorReply as error:
            reply = error_to(asked, serial, error.name, "s", *error.values)
        except Exception as error:
            logging.getLogger(__name__).exception("the method %s failed", asked.member)
            text = f"{type(error).__name__}: {error}"
            reply = error_to(asked, serial, f"{DBUS}.Error.Failed", "s", text)
        if asked.wants_reply:
            self._send(reply, given if reply.unix_fds else ())
        it.close()

    def _send(self, message: Message, fds: Sequence[int] = ()) -> None:
        self._link.send(message, fds)

    def _wait(self, to: str, send: _Send, timeout: float | None) -> _Reply:
        raise NotImplementedError


class Bus(_Side[List[Any]]):
    """A connection to a message bus, for one thread:

        bus = Bus.session()
        bus.serve("/org/example/Lab", "org.example.Lab", {"Add": Method("uu", "u", lambda a, b: a + b)})
        bus.request_name("org.example.Lab")
        bus.run()

    Calls are answered within `run` and iteration alone: one that comes while `call` waits for its
    reply is answered later."""

    reply_fds: Sequence[int] = ()
    """The file descriptors that came with the reply to the last call. They stay open."""

    def _wait(self, to: str, send: _Send, timeout: float | None) -> list[Any]:
        serial = self._link.side.call(to, 0)
        end = None if timeout is None else time.monotonic() + timeout
        try:
            send(serial)
            while (it := self._link.receive(end)).call is None:
                self._later.append(it)
        finally:
            # It waits no longer, if no reply came.
            self._link.side.give_up(serial)
            self._link.socket.settimeout(None)
        self.reply_fds = it.fds
        return _values_of(it)

    def request_name(self, name: str) -> None:
        """Asks the bus for a name. Raises ConnectionError if another connection has it."""
        _check_owned(name, *self.ask("RequestName", "su", name, 4))

    def run(self) -> None:
        """Answers calls until the bus is gone."""
        for _ in self:
            pass

    def __iter__(self) -> Iterator[Message]:
        """The signals that come until the bus is gone. Calls are answered meanwhile."""
        try:
            while True:
                yield from self._next()
        except ConnectionError:
            return

    def heard(self) -> Iterator[Message]:
        """The signals that came so far. Calls are answered meanwhile."""
        while self._later or select.select([self], [], [], 0)[0]:
            yield from self._next()

    def _next(self) -> Iterator[Message]:
        it = self._later.popleft() if self._later else self._link.receive()
        if it.message.type == MessageType.METHOD_CALL:
            try:
                self._answer(it).send(None)
            except StopIteration:
                return
        if it.message.type == MessageType.SIGNAL:
            yield it.message
        it.close()

    def __enter__(self) -> Bus:
        return self

    def __exit__(self, *error: object) -> None:
        self.close()


class AsyncBus(_Side[Awaitable[List[Any]]]):
    """The same for asyncio, within a running loop. A method that is served may be awaited too; it
    looks at `asked`, `asked_fds` and `given_fds` before it first waits.

        bus = AsyncBus.session()
        [names] = await bus.ask("ListNames")
    """

    def __init__(self, addresses: str) -> None:
        """As of Bus: it blocks until the bus has said its name."""
        super().__init__(addresses)
        self._link.socket.setblocking(False)
        self._loop, self._numbers = asyncio.get_running_loop(), itertools.count()
        self._waiting: dict[int, asyncio.Future[Incoming]] = {}
        self._signals: asyncio.Queue[Message | None] = asyncio.Queue()
        self._tasks = set[asyncio.Task[None]]()
        self._unsent = deque[tuple[memoryview, list[int]]]()
        self._loop.add_reader(self, self._on_readable)

    async def _wait(self, to: str, send: _Send, timeout: float | None) -> list[Any]:
        number, waiting = next(self._numbers), self._loop.create_future()
        serial = self._link.side.call(to, number)
        self._waiting[number] = waiting
        try:
            send(serial)
            (it := await asyncio.wait_for(waiting, timeout)).close()
            return _values_of(it)
        finally:
            self._link.side.give_up(serial)
            del self._waiting[number]

    async def request_name(self, name: str) -> None:
        """Asks the bus for a name. Raises ConnectionError if another connection has it."""
        _check_owned(name, *await self.ask("RequestName", "su", name, 4))

    async def run(self) -> None:
        """Answers calls until the bus is gone. It does so without this too."""
        async for _ in self:
            pass

    async def __aiter__(self) -> AsyncIterator[Message]:
        """The signals that come until the bus is gone."""
        while (message := await self._signals.get()) is not None:
            yield message

    def close(self) -> None:
        self._loop.remove_reader(self)
        self._loop.remove_writer(self)
        super().close()
        for waiting in self._waiting.values():
            if not waiting.done():
                waiting.set_exception(ConnectionError("the bus ended the connection"))
        self._signals.put_nowait(None)

    def _on_readable(self) -> None:
        try:
            it = self._link.receive()
        except BlockingIOError:
            return
        except (OSError, NotAMessage):
            return self.close()
        if it.call is not None and not self._waiting[it.call].done():
            self._waiting[it.call].set_result(it)
        elif it.message.type == MessageType.METHOD_CALL:
            self._tasks.add(task := self._loop.create_task(self._answer(it)))
            task.add_done_callback(self._tasks.discard)
        else:
            it.close()
            if it.message.type == MessageType.SIGNAL:
                self._signals.put_nowait(it.message)

    def _send(self, message: Message, fds: Sequence[int] = ()) -> None:
        self._unsent.append((memoryview(bytes(message)), [os.dup(fd) for fd in fds]))
        self._on_writable()

    def _on_writable(self) -> None:
        try:
            while self._unsent:
                data, fds = self._unsent[0]
                sent = socket.send_fds(self._link.socket, [data], fds)
                self._unsent[0] = data[sent:], []
                for fd in fds:
                    os.close(fd)
                if sent == len(data):
                    self._unsent.popleft()
            self._loop.remove_writer(self)
        except BlockingIOError:
            self._loop.add_writer(self, self._on_writable)


def _values_of(reply: Incoming) -> list[Any]:
    if reply.message.type == MessageType.ERROR:
        raise ErrorReply(reply.message.error_name or "", *reply.message.body)
    return reply.message.body


def _check_owned(name: str, answer: int) -> None:
    # PRIMARY_OWNER and ALREADY_OWNER, since the flag DBUS_NAME_FLAG_DO_NOT_QUEUE was set.
    if answer not in (1, 4):
        raise ConnectionError(f"another connection has the name {name}")
