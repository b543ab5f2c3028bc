"""What is asked of the program dbus-wire: how it ends for words and an input, however many bytes come with a read."""

import re

from questions import Question, hexed, words_of
from read_cases import read_bytes, read_parts, read_words
from streams import SIZES as STREAM_SIZES
from streams import fault_of, stream_of

# The program's path, of which texts of usage say the name alone.
PROGRAM = "/usr/bin/dbus-wire"
# How many bytes its reader and both writers move a call: less and more than the first 16 bytes of a message, and than short messages. The first
# brings an input at once.
SIZES = (100000, 1, 3, 5, 7, 24, 28, 64, 100)
ORDERS = {"little": "l", "big": "B"}
OPTIONS = {"message": "--max-message", "array": "--max-array", "depth": "--max-depth", "fds": "--fds"}


def ended(status, first=b"", second=b"", read="read"):
    """How a run ends: its status, whether it read, and what it wrote."""
    return f"{status} {read} {hexed(first)} {hexed(second)}"


def spelled(words):
    """A command line as a question spells it."""
    return ",".join(word.encode().hex() for word in (PROGRAM, *words))


def ask_run(name, data, words, sizes, wanted):
    """Asks for runs of these words over an input."""
    for size in sizes:
        yield Question(f"{name} by {size}", f"run {hexed(data)} {spelled(words)} size={size}", wanted)


def ask_second(name, data, first, words, wanted):
    """Asks for a run of these words over what the first words make of an input, and wants how both runs end."""
    yield Question(name, f"run {hexed(data)} {spelled(first)};{spelled(words)} size={STREAM_SIZES[-1]}", wanted)


def ask_tool(case, folder):
    """A case of the program's own files."""
    _, words, column, status, *columns = case
    words = [read_parts(word, folder).decode() if word.startswith("@") else word for word in read_words(words)]
    data = read_parts(column, folder)
    wanted = ended(status, *(read_parts(it, folder) for it in columns), "unread" if data is None else "read")
    # If nothing is to be read, there is a byte that could be.
    yield from ask_run("run", b"\0" if data is None else data, words, SIZES, wanted)


def options_of(limits):
    """The options that say limits, as a column has these."""
    words = [limit.split("=") for limit in limits.split()]
    return [word for name, number in words for word in (OPTIONS[name], number)]


def joined(answers, engine):
    """The bytes that an engine gives of one message after the other."""
    return b"".join(bytes.fromhex(answer) for name, answer in answers.items() if name.startswith(f"{engine} of message"))


def ask_commands(stream, line):
    """Asks for runs of the commands over a stream, of which `check` writes this line."""
    data, options = stream.data, options_of(stream.limits)
    is_whole = stream.rest == "done"
    end = lambda first: ended(0, first) if is_whole else ended(1, first, line)
    checked = ended(0 if is_whole else 1, line)
    for n, message in enumerate(stream.messages, 1):
        yield Question(f"show of message {n}", f"show {hexed(message)} by=message number={n}", None)
        for order in ORDERS:
            yield Question(f"{order} of message {n}", f"encode {hexed(message)} order={order}", None)
    shown = lambda answers: end(joined(answers, "show"))
    yield from ask_run("check", data, ("check", *options), STREAM_SIZES, checked)
    yield from ask_run("show", data, ("show", *options), STREAM_SIZES, shown)
    yield from ask_run("filter", data, ("filter", *options, "--", ""), STREAM_SIZES, end(b"".join(stream.messages)))
    yield from ask_run("filter of none", data, ("filter", *options, "--", "sender=':0.0'"), STREAM_SIZES, end(b""))
    for order, letter in ORDERS.items():
        swap = ("swap", "--to", letter, *options)
        swapped = lambda answers, order=order: end(joined(answers, order))
        yield from ask_run(f"swap to {order}", data, swap, STREAM_SIZES, swapped)
        if is_whole:
            both = lambda answers, swapped=swapped: f"{swapped(answers)} {checked}"
            yield from ask_second(f"check of swap to {order}", data, swap, ("check", *options), both)
        if is_whole and len({message[0] for message in stream.messages}) == 1:
            back = ("swap", "--to", chr(data[0]), *options)
            both = lambda answers, swapped=swapped: f"{swapped(answers)} {ended(0, data)}"
            yield from ask_second(f"swap of swap to {order}", data, swap, back, both)


def ask_printed(case, _):
    _, _, data, text = case
    # As the first message.
    text = re.sub(rb"^#\d+", b"#1", read_bytes(text))
    yield from ask_run("show", read_bytes(data), ("show",), STREAM_SIZES, ended(0, text))


def ask_rule(case, _):
    _, text, answer = case
    text = read_bytes(text)
    word, _, told = answer.partition(" ")
    if word == "accepted":
        canonical = hexed(read_bytes(told))
        yield Question("parse_rule", f"rule {hexed(text)} {canonical}", f"{canonical} same")
        yield Question("parse_rule of the canonical text", f"rule {canonical} {hexed(text)}", f"{canonical} same")
        wanted = ended(0)
    else:
        at, reason = told.split(" ")
        yield Question("parse_rule", f"rule {hexed(text)}", fault_of(answer))
        wanted = ended(2, second=f"rule refused at {at}: {reason}\n".encode(), read="unread")
    yield from ask_run("filter", b"", ("filter", "--", text.decode()), STREAM_SIZES[:1], wanted)


def ask_addresses(case, _):
    _, text, answer = case
    text = read_bytes(text)
    word, _, told = answer.partition(" ")
    wanted = " ".join(map(hexed, read_bytes(told).split(b";"))) if word == "accepted" else fault_of(answer)
    yield Question("parse_addresses", f"addresses {hexed(text)}", wanted)


def ask_match(case, _):
    _, rule, owners, little, big, answer = case
    rule = read_bytes(rule)
    named = [word for owner in owners.split() for word in ("--owner", owner)]
    for order, data in zip(ORDERS, map(read_bytes, (little, big))):
        words = words_of("matches", hexed(data), hexed(rule), owners)
        yield Question(f"matches, matches_view in {order} endian", words, "true true" if answer == "yes" else "false false")
        for inverted, kept in (((), "yes"), (("--invert",), "no")):
            words = ("filter", *inverted, *named, "--", rule.decode())
            wanted = ended(0, data if answer == kept else b"")
            yield from ask_run(f"filter {' '.join(inverted)} in {order} endian", data, words, STREAM_SIZES[-1:], wanted)


def ask_stream(case, _):
    _, limits, column, line = case
    stream = stream_of(read_bytes(column), limits, line)
    yield from stream.ask_cuts(STREAM_SIZES)
    yield from stream.ask_readers()
    yield from ask_commands(stream, re.sub(r"^refused (\d+)", r"refused at \1:", line).encode() + b"\n")
