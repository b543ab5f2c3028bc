"""Streams of messages: what is asked of those that cut and read them, and of the commands of dbus-wire over them."""

import bisect
import itertools
import re

from questions import Question, hexed, words_of

# How many bytes come with a read, or in a piece.
SIZES = (1, 7, 24, 4096)
# Readers, and the call that gives the next message.
READERS = {"messages": "next", "lengths": "next", "raw": "next", "lent": "advance"}
# Of a longer stream only some splits in two are tried.
LONGEST = 600
# Calls after which a reader of raw messages is asked what it lends.
LENDING = ("advance", "kept")


def fault_of(told):
    """Why bytes are refused, as `REASON at offset PLACE`."""
    _, place, reason = told.split(" ")
    return f"{reason} at offset {place}"


def reader_of(reader, calls):
    """The settings that say a reader and its calls, each with what it answers. After a call that lends a message comes what is lent, after one that passed
    a message over how many bytes are done, and so in the end."""
    reader = reader.replace("lent", "raw")
    after = lambda call, answer: [call, "lent"] if reader == "raw" and call in LENDING else [call, "done"] if answer.startswith("passed") else [call]
    names = [*itertools.chain.from_iterable(itertools.starmap(after, calls)), "done"]
    return f"reader={reader} calls={','.join(names)}"


def answers_of(reader, calls, data):
    """What a reader says of these bytes in calls, each with what it answers: the length of the message that it gives, or why there is none. Of a message
    come its bytes, from readers that have them."""
    at, reader = 0, reader.replace("lent", "raw")
    for call, answer in calls:
        is_lending = reader == "raw" and call in LENDING
        if answer.isdigit():
            message = data[at : at + int(answer)]
            at += len(message)
            yield answer if reader in ("lengths", "file") else f"{answer} {hexed(message)}" if is_lending else hexed(message)
            continue
        if answer.startswith("passed "):
            at += int(answer.removeprefix("passed "))
            answer = f"passed {at}"
        elif answer in ("done", "none"):
            answer = "none"
        elif answer == "partial":
            answer = f"the bytes are no message: Truncated at offset {len(data) - at}"
        elif answer.startswith("refused "):
            answer = f"the bytes are no message: {fault_of(answer)}"
        yield f"{answer} -" if is_lending else answer


def runs_of(told):
    """Answers at places, each place with what is told there, as one answer: of equal ones after one another it has the first."""
    found = [next(group) for _, group in itertools.groupby(told, lambda it: it[1])]
    return ", ".join(f"{place} {text}" for place, text in found)


def stated_length(data):
    """The length that a message's first 16 bytes state."""
    order = "big" if data[:1] == b"B" else "little"
    number = lambda at: int.from_bytes(data[at : at + 4], order)
    return (16 + number(12) + 7) // 8 * 8 + number(4)


class Stream:
    """Bytes, the messages that they begin with, and what comes after these: `done`, `partial` or `refused OFFSET REASON`."""

    def __init__(self, data, limits, messages, rest, least=None, where=""):
        self.data, self.limits, self.messages, self.rest, self.where = data, limits, messages, rest, where
        # With how many bytes a fault is decided, if that is known.
        self.least = least
        # Where each message ends, and what is told of it and those before it.
        self.ends = [0, *itertools.accumulate(map(len, messages))]
        self.told = ["", *itertools.accumulate(f"{hexed(message)} " for message in messages)]

    def given(self, place=None, least=0):
        """How many messages the bytes up to a place give, and what comes after them, if this many bytes decide a fault."""
        place = len(self.data) if place is None else min(place, len(self.data))
        given = bisect.bisect(self.ends, place) - 1
        if self.rest.startswith("refused") and given == len(self.messages) and place >= least:
            return given, self.rest
        return given, "done" if self.ends[given] == place else "partial"

    def outcome(self, place=None, least=0):
        """What the bytes up to a place are decoded to."""
        given, rest = self.given(place, least)
        return f"{self.told[given]}{fault_of(rest) if rest.startswith('refused') else rest}"

    def cut(self, place=None, least=0):
        """What a cutter says that was handed the bytes up to a place: what it gave, what the last call answered, and whether the input may end there."""
        given, rest = self.given(place, least)
        if rest.startswith("refused"):
            said = f"the bytes are no message: {fault_of(rest)} {fault_of(rest)}"
        else:
            said = f"accepted accepted {self.ends[given]}" if rest == "done" else f"accepted partial {self.ends[given]} {self.ends[given]}"
        return f"gave {self.told[given]}{said}"

    def decided(self, answers):
        """How many bytes decide a fault: as decoding says, if nothing else does."""
        if self.least:
            return self.least
        place, _, outcome = answers[f"decode{self.where}"].rpartition(", ")[2].partition(" ")
        return int(place) if outcome == self.outcome() else len(self.data)

    def ask(self, engine, kind, wanted, *settings):
        return Question(f"{engine}{self.where}", words_of(kind, hexed(self.data), self.limits, *settings), wanted)

    def ask_places(self, engine, kind, step, told):
        """Asks for what is told at places this far apart, up to one that is the stream's length or more."""
        places = range(0, len(self.data) + step, step)

        def runs(answers):
            least = self.decided(answers)
            return runs_of((place, told(place, least)) for place in places)

        return self.ask(engine, kind, runs, f"to={places[-1]}", f"step={step}")

    def ask_cuts(self, sizes):
        """Asks what decoding makes of each front, and cutters of pieces."""
        yield self.ask_places("decode", "decode", 1, self.outcome)
        for size in sizes:
            yield self.ask_places(f"Cutter by {size}", "cut", size, self.cut)
        stride = 1 if len(self.data) <= LONGEST else len(self.data) // 40 + 1
        both = lambda place, least: f"{self.cut(place, least)} then {self.cut()}"
        yield self.ask_places("Cutter in two pieces", "cut-in-two", stride, both)

    def reads(self, answers, size):
        """How many reads of so many bytes a reader makes of it, the one that finds its end among them."""
        is_refused = self.rest.startswith("refused")
        count = self.decided(answers) if is_refused else len(self.data)
        return -(-count // size) + (0 if is_refused else 1)

    def calls_of(self, reader):
        """The calls that give each message, and what comes after them twice, each with what it answers."""
        return [(READERS[reader], it) for it in (*map(str, map(len, self.messages)), self.rest, self.rest)]

    def ask_reader(self, engine, reader, calls, wanted, *settings):
        """Asks what a reader gives in calls, each with what it answers; then come, as wanted, how many bytes it says that it gave, how many reads it made,
        and how many of these failed."""
        told = " ".join(answers_of(reader, calls, self.data))
        return self.ask(engine, "read", lambda answers: f"{told} {wanted(answers)}", reader_of(reader, calls), *settings)

    def ask_readers(self, readers=READERS, sizes=SIZES):
        """Asks what readers give, also once more."""
        for reader, size in itertools.product(readers, sizes):
            wanted = lambda answers, size=size: f"{self.ends[-1]} {self.reads(answers, size)} 0"
            yield self.ask_reader(f"reader of {reader} by {size}", reader, self.calls_of(reader), wanted, f"size={size}")


def messages_in(data, end):
    """The messages that a stream begins with, which lie before this place or end there."""
    messages, start = [], 0
    while len(data) - start >= 16 and start + stated_length(data[start:]) <= end:
        messages.append(data[start : start + stated_length(data[start:])])
        start += len(messages[-1])
    return messages


def stream_of(data, limits, line):
    """The stream of which `dbus-wire check` says this line, as a column has it."""
    refusal = re.fullmatch(r"refused (\d+) (\S+)", line)
    if not refusal or refusal[2] == "Truncated":
        return Stream(data, limits, messages_in(data, len(data)), "partial" if refusal else "done")
    at, reason = int(refusal[1]), refusal[2]
    # Only a byte order is refused at a message's first byte.
    messages = messages_in(data, at if reason == "ByteOrder" else at - 1)
    return Stream(data, limits, messages, f"refused {at - sum(map(len, messages))} {reason}")


# What comes after the bytes of a message, and changes nothing of what is made of them.
MORE = bytes.fromhex("00ff6c")


def ask_message(data, limits, answer, least, where):
    """Asks of the bytes of a case of a message as of a stream: with others after them unless more are wanted, and of readers without."""
    if answer == "partial":
        followed = alone = Stream(data, limits, [], "partial", where=where)
    elif answer.startswith("whole"):
        length = int(answer.removeprefix("whole "))
        message = data[:length].ljust(length, b"?")
        followed = Stream(data + MORE, limits, [message], "refused 0 ByteOrder", len(message) + 1, where)
        alone = Stream(data, limits, [message], "done", where=where)
    else:
        followed = Stream(data + MORE, limits, [], answer, least, where)
        alone = Stream(data, limits, [], answer, least, where)
    yield from followed.ask_cuts((1,))
    yield from alone.ask_readers(("messages", "lengths", "raw"), (1, 7, 4096))
