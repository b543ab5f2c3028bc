#!/usr/bin/python3
"""with_bus.py dbus-daemon | dbus-broker | PROGRAM: starts that bus, or a server at the address that it is given, and
answers `rule` by its AddMatch, and `match` by whether it delivers the message. Only signals without SENDER, DESTINATION
and UNIX_FDS can be asked of a bus, and messages of type 5 as such. `line client` is answered by what it replies to the
line in three of its states, and `dialogue BYTES` by what it replies to a client's bytes, both of root."""

import concurrent.futures as futures
import os
import pathlib
import re
import socket
import subprocess
import sys
import tempfile
import time

from dialogues import given_to, talk, told
from jeepney import DBusAddress, MessageType, new_method_call
from jeepney.io.blocking import open_dbus_connection
from jeepney.low_level import HeaderFields

sys.dont_write_bytecode = True
sys.path.insert(0, str(pathlib.Path(__file__).resolve().parent.parent))

from rewritten import Draft  # noqa: E402

CONFIG = """<busconfig><type>session</type><listen>unix:path={0}</listen><auth>EXTERNAL</auth>
<policy context="default"><allow send_destination="*"/><allow receive_sender="*"/></policy></busconfig>"""
LAUNCHED = {"dbus-daemon": "dbus-daemon --nofork --address=systemd:", "dbus-broker": "dbus-broker-launch --scope user"}
JOURNAL = pathlib.Path("/run/systemd/journal/socket")
BUS = DBusAddress("/org/freedesktop/DBus", bus_name="org.freedesktop.DBus", interface="org.freedesktop.DBus")
SIGNAL, UNKNOWN = 4, 5
# The key of a field that each signal has, and a field that is none of a case.
LACKING = {
    1: ("path", b"\1\1o\0", b"/X"),
    2: ("interface", b"\2\1s\0", b"X.X"),
    3: ("member", b"\3\1s\0", b"X"),
}
SET_BY_THE_BUS = {6, 7, 9}
LAST = b"LastOfAll\0"
# What takes a server to WaitingForAuth, WaitingForData and WaitingForBegin, and what it replies there to a line of each
# meaning: True is an answer to a mechanism.
BEFORE = ((), (b"AUTH EXTERNAL",), (b"AUTH EXTERNAL 30",))
TO_A_MECHANISM = ("DATA", "OK", "REJECTED")
MEANINGS = {
    (True, "ERROR", "ERROR"): "auth",
    ("closes", "closes", "waits"): "begin",
    ("ERROR", True, True): "cancel",
    ("ERROR", True, "ERROR"): "data",
    (True, True, True): "error",
    ("ERROR", "ERROR", "AGREE_UNIX_FD"): "negotiate",
    ("ERROR", "ERROR", "ERROR"): "other",
}


def start(name, room):
    """The bus or the server, which listens at the path."""
    if name not in LAUNCHED:
        return subprocess.Popen([name, f"unix:path={room}/bus"])
    config = room / "bus.conf"
    config.write_text(CONFIG.format(room / "bus"))
    listens = socket.socket(socket.AF_UNIX)
    listens.bind(str(room / "bus"))
    listens.listen()
    given = f"LISTEN_FDS=1 LISTEN_PID=$$ DBUS_SESSION_BUS_ADDRESS=unix:path={room}/bus"
    line = f"{given} exec {LAUNCHED[name]} --config-file={config} 3<&{listens.fileno()}"
    return subprocess.Popen(["sh", "-c", line], pass_fds=(listens.fileno(),), stderr=subprocess.DEVNULL)


def add_match(connection, rule):
    reply = connection.send_and_get_reply(new_method_call(BUS, "AddMatch", "s", (rule,)), timeout=3)
    if reply.header.message_type == MessageType.method_return:
        return "yes"
    return f"no: {reply.header.fields[HeaderFields.error_name].rpartition('.')[2]}: {reply.body[0]}".replace("\n", " ")


def as_signal(rule, data):
    """The message as a signal, to which the rule holds as to the message; or nothing."""
    draft = Draft(data, "")
    draft.fields()
    lacks = sorted({*LACKING} - draft.codes)
    keys = [LACKING[code][0] for code in lacks] + ["type"] * (data[1] == UNKNOWN)
    is_asked_for = any(re.search(rf"(^|,) *{key}", rule) for key in keys)
    if data[1] not in (SIGNAL, UNKNOWN) or draft.codes & SET_BY_THE_BUS or is_asked_for:
        return b""
    number = lambda count: count.to_bytes(4, draft.order)
    fields = [code + number(len(text)) + text + b"\0" for _, code, text in map(LACKING.get, lacks)]
    put = b"".join(it + b"\0" * (-len(it) % 8) for it in fields)
    length = int.from_bytes(data[12:16], draft.order)
    # The padding behind the last field is no part of the fields.
    length = len(put) + length if length or not lacks else len(put) - (-len(fields[-1]) % 8)
    return data[:1] + bytes([SIGNAL]) + data[2:12] + number(length) + put + data[16:]


def deliver(hears, sends, rule, data):
    """Whether who asks for the rule hears the message before a last one."""
    data = as_signal(rule, data)
    if not data or not add_match(hears, rule).startswith("yes"):
        return "?"
    hearer = DBusAddress("/", bus_name=hears.unique_name, interface="a.b")
    last = new_method_call(hearer, LAST[:-1].decode())
    sends.sock.sendall(data + last.serialise(serial=99))
    heard = b""
    hears.sock.settimeout(10)
    while LAST not in heard:
        heard += hears.sock.recv(1 << 16)
    return "yes" if heard.count(sends.unique_name.encode() + b"\0") > 1 else "no"


def reply_to(path, before, line):
    said = b""
    with socket.socket(socket.AF_UNIX) as server:
        server.settimeout(1)
        server.connect(path)
        server.sendall(b"\0" + b"".join(it + b"\r\n" for it in (*before, line)))
        try:
            while said.count(b"\r\n") <= len(before):
                if not (read := server.recv(1 << 16)):
                    return "closes"
                said += read
        except TimeoutError:
            return "waits"
        except ConnectionError:
            return "closes"
    word = said.split(b"\r\n")[len(before)].split(b" ")[0].decode()
    return word in TO_A_MECHANISM or word


def dialogue(path, data):
    said = []
    with socket.socket(socket.AF_UNIX) as server:
        server.connect(path)
        return told(said, talk(server, given_to(data), said))


def answer(address, kind, *words):
    if kind == "dialogue":
        return dialogue(address.partition("=")[2], bytes.fromhex(*words))
    if kind == "line" and words[0] == "client":
        line = bytes.fromhex(words[1].replace("-", ""))
        if not all(0 < byte < 128 for byte in line):
            return "?"
        return MEANINGS.get(tuple(reply_to(address.partition("=")[2], it, line) for it in BEFORE), "?")
    try:
        rule, *data = [bytes.fromhex(word.replace("-", "")) for word in words]
        with open_dbus_connection(address) as hears, open_dbus_connection(address) as sends:
            if kind == "rule":
                return add_match(hears, rule.decode())
            return deliver(hears, sends, rule.decode(), *data) if kind == "match" and len(data) == 1 else "?"
    except (ValueError, OSError, EOFError):
        return "?"


def main(name):
    if name == "dbus-broker" and not JOURNAL.parent.exists():
        # It does not start without a journal. A folder of its own hides that there is none.
        mounted = f'mount -t tmpfs none {JOURNAL.parent.parent} && mkdir {JOURNAL.parent} && exec "$@"'
        os.execvp("unshare", ["unshare", "-m", "sh", "-c", mounted, "sh", sys.executable, *sys.argv])
    with tempfile.TemporaryDirectory() as room:
        journal = socket.socket(socket.AF_UNIX, socket.SOCK_DGRAM)
        if not JOURNAL.exists():
            journal.bind(str(JOURNAL) if name == "dbus-broker" else f"{room}/journal")
        process = start(name, pathlib.Path(room))
        while not pathlib.Path(room, "bus").exists():
            time.sleep(0.01)
        with futures.ThreadPoolExecutor(16) as pool:
            address = f"unix:path={room}/bus"
            for said in pool.map(lambda line: answer(address, *line.split()), sys.stdin):
                print(said, flush=True)
        process.terminate()
        process.wait()


if __name__ == "__main__":
    main(*sys.argv[1:])
