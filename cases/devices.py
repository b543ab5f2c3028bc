"""Devices of a few bytes a call, which fail, and memory that is refused: readers and cutters of streams, messages that are written, the handshake before
messages, and runs of dbus-wire."""

import bisect
import itertools
import re

from growths import ask_refused, growths_of, is_refused
from questions import Question, hexed, words_of
from read_cases import read_parts, read_words
from runs import ended, spelled
from streams import READERS, answers_of, reader_of, runs_of, stream_of

FAILED = "the device failed"
# How often a call of a reader is made, its name, and what each answers.
CALL = re.compile(r"(?:(\d+)\*)?(\w+): (.*)")
# How many growths its calls ask for, or how many at least.
GROWTHS = re.compile(r"growths=(\d+)(\.\.)?")
# Longer questions, of which no growths are stated, are not asked with memory refused: each takes a run for each growth.
LONGEST = 20_000
# How many bytes come with a read where memory is refused.
SIZES = (1, 7, 25, 1000)


def ask_reader(case, folder):
    """Calls of a reader in turn, over a device as the settings say."""
    _, column, device, reader, script, counts = case
    data, calls = read_parts(column, folder), []
    for times, call, answer in (CALL.fullmatch(it).groups() for it in script.split(", ")):
        calls += [(call, answer)] * int(times or 1)
    words = words_of("read", hexed(data), device, reader_of(reader, calls))
    usual = words_of(*answers_of(reader, calls, data), counts)
    yield Question("reader", words, usual)
    counted = GROWTHS.search(device)
    least, most = (int(counted[1]), None if counted[2] else int(counted[1])) if counted else (0, None)
    if counted or len(words) <= LONGEST:
        yield ask_refused("reader", words, usual, least=least, most=most)


def ask_failing_reads(stream):
    """Each read of one byte fails in turn: the call says so, nothing is kept that is whole, and the call made again goes on."""
    lengths, rest = [str(len(message)) for message in stream.messages], stream.rest
    reads = stream.reads({}, 1)
    for (reader, call), n in itertools.product(READERS.items(), range(1, reads + 1)):
        # How many messages came before that read.
        at = bisect.bisect(stream.ends, n - 1) - 1
        calls = [(call, it) for it in (*lengths[:at], FAILED, *lengths[at:], rest, rest)]
        if reader != "lengths":
            calls.insert(at + 1, ("kept", "none"))
            calls.append(("kept", "none" if rest == "done" else rest))
        wanted = lambda _: f"{stream.ends[-1]} {reads + 1} 1"
        yield stream.ask_reader(f"reader of {reader} whose read {n} fails", reader, calls, wanted, f"size=1 fails={n}")


def ask_refused_readers(stream, least):
    """Each growth of the readers is refused. That of messages asks for so many at least, one that copies for some, and the others for none if a message
    lies in their buffer."""
    for question, (reader, size) in zip(stream.ask_readers(READERS, SIZES), itertools.product(READERS, SIZES)):
        usual = question.wanted({})
        some = {"messages": least, "raw": len(stream.messages)}.get(reader, 0)
        lies = size > len(stream.data) and stream.rest != "partial"
        none = 0 if reader == "lengths" or (reader == "lent" and lies) else None
        yield ask_refused(question.engine, question.words, usual, least=some, most=none)


def ask_refused_pieces(stream, least):
    """Each growth of cutters is refused, in pieces of each size, and in two pieces. A piece that ends within a message takes one growth at most, the one
    that ends the first message so many at least, and a fault none."""
    data, cut = stream.data, lambda place: stream.cut(place, len(stream.data))
    for size in range(1, len(data) + 1):
        places = range(0, len(data) + size, size)
        words = words_of("cut", hexed(data), f"to={places[-1]} step={size}")
        yield ask_refused(f"Cutter by {size}", words, runs_of((place, cut(place)) for place in places), least=least)
    end = stream.ends[1] if stream.messages else len(data)
    for n in range(end):
        both = lambda size, n=n: words_of("cut-in-two", hexed(data[:size]), f"from={n} to={n}")
        front = ask_refused(f"Cutter of the first {n}", both(n), f"{n} {cut(n)} then {cut(n)}", most=1)
        more = lambda answers, front=front, count=1: growths_of(answers[front.engine]) + count
        yield front
        told = lambda size, n=n: f"{n} {cut(n)} then {cut(size)}"
        yield ask_refused(f"Cutter at {n} within a message", both(end - 1), told(end - 1), most=more)
        if stream.messages:
            ends = lambda answers, more=more: more(answers, count=least)
            yield ask_refused(f"Cutter at {n}", both(end), told(end), least=ends)
        else:
            same = lambda answers, more=more: more(answers, count=0)
            yield ask_refused(f"Cutter at {n} of a fault", both(end), told(end), least=same, most=same)


def ask_sent(message):
    """Each write of one byte fails in turn. Writing takes memory once, before anything is written."""
    size = len(message)
    words = f"send {hexed(message)} size=1"
    for n in range(1, size + 1):
        told = f"the device failed after {n - 1} bytes {hexed(message[: n - 1])} {n} 1"
        yield Question(f"write {n} fails", f"{words} fails={n}", told)
    usual = f"accepted {hexed(message)} {size} 0"
    yield Question("no write fails", f"{words} fails={size + 1}", usual)
    yield ask_refused("write", words, usual, least=1, most=1)


def ask_pieces(case, folder):
    _, column, line, least = case
    stream = stream_of(read_parts(column, folder), "", line)
    stream.least = len(stream.data)
    yield from ask_failing_reads(stream)
    yield from ask_refused_readers(stream, int(least))
    yield from ask_refused_pieces(stream, int(least))
    for message in stream.messages:
        yield from ask_sent(message)


def ask_passing(case, folder):
    """A handshake that a run lists is passed, or not if a read fails or memory is refused."""
    _, words, column, status, first, _ = case
    if status != "0":
        return
    side = "client" if "client" in words else "server"
    data = read_parts(column, folder)
    lines, size = map(int, re.search(rb"ok (\d+) lines (\d+) bytes", read_parts(first, folder)).groups())
    # The first byte after a server's lines says that no more of them come.
    reads = size + (side == "server")
    words = f"{side}-pass {hexed(data)} size=1"
    yield Question("pass", words, f"accepted {reads}")
    for n in range(1, reads + 1):
        yield Question(f"read {n} fails", f"{words} fails={n}", f"{FAILED} {n}")
    yield ask_refused("pass", words, f"accepted {reads}", is_refused, least=lines)


def ask_device(case, folder):
    """A run over devices as the settings say."""
    _, words, column, settings, status, first, second, told = case
    data = read_parts(column, folder)
    words = words_of("run", hexed(data), spelled(read_words(words)), settings, "told=all")
    read = ended(status, read_parts(first, folder), read_parts(second, folder), "unread" if told.startswith("reads 0 ") else "read")

    def wanted(answers):
        answer = answers["run"]
        # The column has one of the two counts.
        is_right = answer.startswith(f"{read} reads ") and (answer.endswith(f" {told}") or answer.startswith(f"{read} {told} written "))
        return answer if is_right else words_of(read, told)

    yield Question("run", words, wanted)


class Run:
    """A run, and how it ends."""

    def __init__(self, words, data, status, first, second):
        self.words, self.data, self.status, self.first, self.second = words, data, status, first, second

    def question(self, *settings):
        return words_of("run", hexed(self.data), spelled(self.words), "size=1", *settings)

    def usual(self):
        return ended(self.status, self.first, self.second)

    def is_front(self, answer, second):
        """Whether it failed, and wrote the first bytes of what it would have written."""
        words = answer.split(" ")
        if len(words) != 4:
            return False
        status, _, first, other = words
        return status == "3" and hexed(self.first).startswith(first.strip("-")) and other == hexed(second)

    def ask_failing(self):
        """Each read and each write fails in turn. A write that failed wrote nothing, and those before it one byte each."""
        for n in range(1, len(self.data) + 2):
            engine = f"read {n} fails"
            right = lambda answers, engine=engine: answers[engine] if self.is_front(answers[engine], b"read failed\n") else "a front"
            yield Question(engine, self.question(f"reader-fails={n}"), right)
        for n in range(1, len(self.first) + 1):
            yield Question(f"write {n} fails", self.question(f"first-fails={n}"), ended(3, self.first[: n - 1], b"write failed\n"))
        for n in range(1, len(self.second) + 1):
            yield Question(f"second write {n} fails", self.question(f"second-fails={n}"), ended(3, self.first, self.second[: n - 1]))
        last = [f"reader-fails={len(self.data) + 2}", f"first-fails={len(self.first) + 1}", f"second-fails={len(self.second) + 1}"]
        yield Question("no call fails", self.question(*last), self.usual())

    def ask_refused(self, least):
        right = lambda answer, _: self.is_front(answer, b"out of memory\n")
        for call in ("run_with", "run_within"):
            if call == "run_with" or not {"--explain", "--keep-going"} & {*self.words}:
                yield ask_refused(call, self.question(f"by={call}"), self.usual(), right, least=least)


def ask_failing(case, folder):
    """A run of which each read and each write fails in turn; and each growth, if the case says how many it asks for at least."""
    _, words, column, status, first, second, least = case
    data, first, second = (read_parts(it, folder) for it in (column, first, second))
    run = Run(read_words(words), data, status, first, second)
    yield from run.ask_failing()
    if least:
        yield from run.ask_refused(int(least))


def ask_copies(case, folder):
    """A run over copies of a message. One like those before takes no more memory, and three that come with one read take so many growths."""
    _, words, column, three = case
    message, words = read_parts(column, folder), read_words(words)
    by_size = lambda size, copies: f"refused {words_of('run', hexed(message * copies), spelled(words), f'size={size}', 'by=run_within')}"
    for size in (1, 1000):
        few, many = f"two by {size}", f"nine by {size}"
        same = lambda answers, few=few, many=many: answers[many] if growths_of(answers[many]) == growths_of(answers[few]) != -1 else "as many growths"
        yield Question(few, by_size(size, 2), None)
        yield Question(many, by_size(size, 9), same)
    whole = lambda answers: answers["three"] if growths_of(answers["three"]) == int(three) else f"{three} growths"
    if three:
        yield Question("three", by_size(1000, 3), whole)
