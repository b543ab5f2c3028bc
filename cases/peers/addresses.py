#!/usr/bin/env python3
"""addresses.py [HOW-MANY [SEED]]: asks libdbus, GDBus, sd-bus and the library, by its module for Python, whether texts
are server addresses, and says where one answers otherwise than docs/PEERS.md ("Server addresses") has it: of HOW-MANY
texts, 10,000 if none is named, that are made of right and wrong parts, and of cases/data/addresses.txt. The exit status
is 1 if something differs. PYTHONPATH has to name the module and DBUS_WIRE_LIBRARY the library."""

import collections
import ctypes
import errno
import pathlib
import random
import re
import sys

sys.dont_write_bytecode = True
sys.path.insert(0, str(pathlib.Path(__file__).resolve().parent.parent))

from read_cases import DATA, read_bytes, read_cases  # noqa: E402

from dbus_wire import BadAddress, parse_addresses  # noqa: E402

# Right ones, and others.
TRANSPORTS = (b"unix", b"unix", b"foo"), (b"f~o", b"fo o", b"un%69x", b"a,b", b"a=b", b"")
KEYS = (b"path", b"path", b"abstract", b"guid", b"bar"), (b"pa%74h", b"b r", b"b:r", b"b~r", b"")
VALUES = (b"/no/bus", b"a*b", b"%2F%2a", b"%00", b""), (b"a b", b"a~", b"a=b", b"a:b", b"%", b"%2", b"%zz", b"\xc3\xa9")
GUIDS = (b"0123456789abcdefABCDEF0123456789", b"%30" + 31 * b"1"), (b"0123", b"%00", b"%zz")
PLAIN, ESCAPED = rb"[-0-9A-Za-z_/.\\*]", rb"%[0-9A-Fa-f]{2}"


def drawn_text(draw):
    """Addresses, with some of what stands between their parts left out or there twice."""
    some = lambda those: draw.choice(those[draw.random() < 0.06])
    mark = lambda it: it * draw.choice((0, 2) if draw.random() < 0.03 else (1,))
    text = b""
    for number in range(draw.choice((0, 1, 1, 1, 2, 2, 3))):
        text += mark(b";") * (number > 0) + some(TRANSPORTS) + mark(b":")
        for place in range(draw.choice((0, 1, 1, 2, 2, 3))):
            key = some(KEYS)
            text += mark(b",") * (place > 0) + key + mark(b"=") + some(GUIDS if key == b"guid" else VALUES)
        text += b"," * (draw.random() < 0.03)
    return text + b";" * (draw.random() < 0.03)


def value_of(text):
    return re.sub(rb"%(..)", lambda it: bytes.fromhex(it[1].decode()), text, flags=re.S)


def is_guid(text):
    return re.fullmatch(rb"[0-9A-Fa-f]{32}", text) is not None


def ours(text):
    """By the rules of the page, which are those of the specification and three of our own."""
    value = rb"(?:%b|%b)*" % (PLAIN, ESCAPED)
    pair = rb"%b+=%b" % (PLAIN, value)
    address = rb"%b+:(?:%b(?:,%b)*)?" % (PLAIN, pair, pair)
    if len(text) > 4096 or not re.fullmatch(rb"%b(?:;%b)*" % (address, address), text):
        return False
    for it in text.split(b";"):
        pairs = [pair.partition(b"=") for pair in it.partition(b":")[2].split(b",") if pair]
        if len({key for key, _, _ in pairs}) < len(pairs):
            return False
        if any(key == b"guid" and not is_guid(value_of(value)) for key, _, value in pairs):
            return False
    return True


def by_libdbus(text):
    """Names of any bytes, an empty transport, a comma behind pairs, a semicolon behind addresses; no empty value."""
    value = rb"(?:%b|%b)+" % (PLAIN, ESCAPED)
    pair = rb"[^=,;]+=%b" % value
    address = rb"[^:;]*:(?:%b(?:,%b)*,?)?" % (pair, pair)
    return re.fullmatch(rb"%b(?:;%b)*;?" % (address, address), text, re.S) is not None


def by_gdbus(text):
    """Names of any bytes, keys and values escaped or not, but no NUL; no empty one but a value."""
    piece = rb"(?:[^%%,;=]|%(?!00)[0-9A-Fa-f]{2})"
    value = rb"(?:[^%%,;]|%(?!00)[0-9A-Fa-f]{2})*"
    pair = rb"%b+=%b" % (piece, value)
    address = rb"[^:;]+:(?:%b(?:,%b)*)?" % (pair, pair)
    return re.fullmatch(rb"%b(?:;%b)*" % (address, address), text, re.S) is not None


def by_sd_bus(text):
    """It passes over what it does not know, up to the next comma of a pair, also behind a semicolon; and of a
    unix address it wants one alone of `path` and `abstract`, once, and a GUID if one is there."""
    at, keys = 0, (b"guid", b"path", b"abstract")
    while at < len(text):
        if text[at : at + 1] == b";":
            at += 1
            continue
        if not text.startswith(b"unix:", at):
            at = text.find(b";", at)
            if at < 0:
                return True
            continue
        at, found = at + 5, {}
        while at < len(text) and text[at : at + 1] != b";":
            key = next((it for it in keys if text.startswith(it + b"=", at)), None)
            end = re.compile(rb"[;,]|$" if key else rb",|$").search(text, at).start()
            if key:
                value = text[at + len(key) + 1 : end]
                if key in found or re.search(rb"%(?![0-9A-Fa-f]{2})", value):
                    return False
                found[key] = value_of(value).partition(b"\0")[0]
            at = end + (text[end : end + 1] == b",")
        if (b"path" in found) == (b"abstract" in found) or not is_guid(found.get(b"guid", 32 * b"0")):
            return False
    return True


def peers():
    """What each takes, by its library."""
    libdbus, gio, systemd = (ctypes.CDLL(it) for it in ("libdbus-1.so.3", "libgio-2.0.so.0", "libsystemd.so.0"))

    def libdbus_takes(text):
        entries, count = ctypes.c_void_p(), ctypes.c_int()
        if not libdbus.dbus_parse_address(text, ctypes.byref(entries), ctypes.byref(count), None):
            return False
        libdbus.dbus_address_entries_free(entries)
        return True

    def sd_bus_takes(text):
        bus = ctypes.c_void_p()
        systemd.sd_bus_new(ctypes.byref(bus))
        status = systemd.sd_bus_set_address(bus, text)
        if status >= 0:
            status = systemd.sd_bus_start(bus)
        systemd.sd_bus_unref(bus)
        return status != -errno.EINVAL

    return {"libdbus": libdbus_takes, "GDBus": lambda text: bool(gio.g_dbus_is_address(text)), "sd-bus": sd_bus_takes}


def taken_here(text):
    try:
        parse_addresses(text)
    except BadAddress:
        return False
    return True


def main(how_many=10_000, seed=0):
    draw, count = random.Random(seed), collections.Counter()
    texts = [read_bytes(it[1]) for it in read_cases(DATA / "addresses.txt")]
    texts += [drawn_text(draw) for _ in range(how_many)]
    asked = {"here": taken_here, **peers()}
    rules = {"here": ours, "libdbus": by_libdbus, "GDBus": by_gdbus, "sd-bus": by_sd_bus}
    for text in texts:
        if b"\0" in text:
            continue
        for name, takes in asked.items():
            found, wanted = takes(text), rules[name](text)
            count[name, found] += 1
            count[name, "otherwise than here"] += found != ours(text)
            if found != wanted:
                count["differs"] += 1
                print(f"{name} {'takes' if found else 'refuses'} {text!r}")
    for name in asked:
        taken, refused, otherwise = (count[name, it] for it in (True, False, "otherwise than here"))
        print(f"{name}: {taken} taken, {refused} refused, {otherwise} otherwise than here")
    print(f"{count['differs']} differ from docs/PEERS.md")
    return count["differs"] > 0


if __name__ == "__main__":
    sys.exit(main(*map(int, sys.argv[1:])))
