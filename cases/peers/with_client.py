#!/usr/bin/python3
"""with_client.py NAME: answers `dialogue BYTES`, the lines of a server, by what a client of that
library says after its AUTH with the user. It asks for descriptors. sd-bus sends all of its lines
before it reads one; so it is told whether it goes on, which is BEGIN, or closes."""

import concurrent.futures as futures
import socket
import subprocess
import sys
import tempfile

from dialogues import given_to, hear, talk, told

AIO = """import asyncio, {0}.aio
async def go(): await {0}.aio.MessageBus(bus_address="{1}", negotiate_unix_fd=True).connect()
asyncio.run(go())"""
JEEPNEY = """import jeepney.io.blocking as it
it.open_dbus_connection("{}", enable_fds=True, auth_timeout=60)"""
CALL = ["--dest=a.b", "--object-path=/", "--method=a.b.C"]
CLIENTS = {
    "libdbus": lambda address: ["dbus-send", f"--bus={address}", "/", "a.b.C"],
    "GDBus": lambda address: ["gdbus", "call", f"--address={address}", *CALL],
    "sd-bus": lambda address: ["busctl", f"--address={address}", "list"],
    "jeepney": lambda address: [sys.executable, "-c", JEEPNEY.format(address)],
    "dbus-next": lambda address: [sys.executable, "-c", AIO.format("dbus_next", address)],
    "dbus-fast": lambda address: [sys.executable, "-c", AIO.format("dbus_fast", address)],
}
# What is answered before the user is named, and how many lines sd-bus sends at once.
ASKED = {b"AUTH\r\n": b"REJECTED EXTERNAL\r\n", b"AUTH EXTERNAL\r\n": b"DATA\r\n"}
SECONDS_TO_START = 20
SECONDS_TO_END = 4
LINES_AT_ONCE = 4


def greet(end, said):
    """Answers until the client has named its user."""
    end.settimeout(SECONDS_TO_START)
    while not (lines := b"".join(said).lstrip(b"\0").splitlines(True)) or lines[-1] in ASKED:
        end.sendall(ASKED[lines[-1]]) if lines else None
        hear(end, said)
    if len(lines) == LINES_AT_ONCE:
        end.sendall(b"DATA\r\n")


def dialogue(name, data):
    said = []
    with tempfile.TemporaryDirectory() as room, socket.socket(socket.AF_UNIX) as listens:
        listens.bind(f"{room}/bus")
        listens.listen()
        told_nobody = {"stdout": subprocess.DEVNULL, "stderr": subprocess.DEVNULL}
        client = subprocess.Popen(CLIENTS[name](f"unix:path={room}/bus"), **told_nobody)
        end = listens.accept()[0]
        greet(end, said)
        is_at_once, said = b"BEGIN" in b"".join(said), []
        pieces = given_to(data) + [b"AGREE_UNIX_FD\r\n"] * is_at_once
        closes = talk(end, pieces, said, SECONDS_TO_END)
        client.kill()
        client.wait()
    return told([b"BEGIN\r\n"] if is_at_once and b"".join(said) else said, closes)


def main(name):
    with futures.ThreadPoolExecutor(6) as pool:
        asked = (bytes.fromhex(line.split()[1]) for line in sys.stdin)
        for answer in pool.map(lambda data: dialogue(name, data), asked):
            print(answer, flush=True)


if __name__ == "__main__":
    main(*sys.argv[1:])
