"""What is asked of the program `case_engines` on texts, values and messages: each call that reads or writes these."""

import re

from growths import ask_made, with_growths
from questions import FAULTS, Question, from_place, hexed, words_of
from read_cases import read_bytes
from seen import Message
from streams import runs_of, stated_length

# What comes after a case's bytes, and changes no answer.
MORE = bytes.fromhex("00ff6c")
ORDERS = ("little", "big")

# ---- Texts


def said(kind, verdict):
    """A verdict as the check of a kind says it: it has no place of what is too long, and no form of names."""
    what = "signature" if kind in ("signature", "single") else "name"
    if verdict.startswith("too long"):
        return f"the {what} has more than 255 bytes"
    if verdict.startswith("bad"):
        return f"no {what if what == 'signature' else 'such name'}: it breaks at offset {verdict.split(' ')[1]}"
    return "accepted"


def ask_text(kind, text, verdict):
    """What calls make of a text that has this verdict as one of a kind."""
    about = f"{kind} {hexed(text)}"
    place = int(verdict.split(" ")[-1]) if verdict[-1].isdigit() else None
    scanned = f"ended {len(text)}" if place is None else f"taken {place}"
    first = len(text) if place is None else place
    checked = "no check" if kind == "text" else said(kind, verdict)
    yield Question(f"text_break as {kind}", f"text {about}", verdict)
    yield Question(f"first_break, TextScan::step and the check of {kind}", f"text-calls {about}", f"{first} {scanned} {checked}")
    yield Question(f"TextScan::take as {kind}", f"text-in-two {about}", from_place(0, scanned))


def ask_name(case, _):
    _, kind, text, verdict = case
    yield from ask_text(kind, read_bytes(text), verdict)


def ask_signature(case, folder):
    yield from with_growths(ask_of_signature(case, folder), {"text-parse"})


def ask_of_signature(case, _):
    _, text, as_signature, as_single, types, alignment = case
    text = read_bytes(text)
    yield from ask_text("signature", text, as_signature)
    yield from ask_text("single", text, as_single)
    wanted = said("signature", as_signature) if types == "-" else f"{types} {types} {hexed(text)} types"
    yield Question("parse_signature", f"text-parse signature {hexed(text)}", wanted)
    wanted = said("single", as_single) if alignment == "-" else f"{alignment} {alignment} type"
    yield Question("parse_single", f"text-parse single {hexed(text)}", wanted)


# ---- Values

# What comes before a value, at which nobody looks, and after it.
BEFORE = b"\xaa"
AFTER = b"\xff"
# An end that is further away stays without bytes up to it.
FURTHEST = 5000
# What is asked with growths refused too, in one order.
GROWING = {"value", "value-written", "value-shown", "message", "encode", "encode-into", "build", "copy-all", "show"}
READ = re.compile(r"(?P<outcome>done (?P<end>\d+)|partial|refused \d+ \S+)(?: after (?P<after>\d+)| (?P<text>.*))?")


class Asked:
    """A case of a value in one order: the bytes up to its last, and what is wanted of reading."""

    def __init__(self, types, settings, order, column, reading):
        numbers = {name: int(number) for name, _, number in (word.partition("=") for word in settings.split())}
        self.types, self.order, self.settings = read_bytes(types), order, settings
        self.at = numbers.get("at", 0)
        self.data = BEFORE * self.at + read_bytes(column)
        self.end = numbers.get("end", len(self.data))
        self.is_limited = bool({"message", "array", "depth"} & set(numbers))
        self.read = READ.fullmatch(reading)
        self.outcome = self.read["outcome"]
        # How many bytes decide that.
        self.least = self.at + int(self.read["after"]) if self.read["after"] else len(self.data)

    def followed(self, end=0):
        """The bytes with others after them, some past this offset, unless more are wanted."""
        return self.data if self.outcome == "partial" else self.data + AFTER * (max(end - len(self.data), 0) + 9)

    def question(self, engine, kind, wanted, data=None, *more):
        place = () if "end=" in self.settings else (f"end={self.end}",)
        words = words_of(kind, hexed(self.types), hexed(data or self.data), f"order={self.order}", self.settings, *place, *more)
        return Question(f"{engine} in {self.order} endian", words, wanted)

    def ends(self, count=1):
        """What is wanted at each place of so many engines that say only where a value ends that ends there at the latest."""
        end = self.read["end"]
        said = lambda word: " ".join([word] * count)
        return from_place(self.at, said("none"), *((int(end), said(end)) if end else ()))

    def fronts(self):
        """What is wanted of each front of the bytes."""
        return from_place(self.at, "partial", *(() if self.outcome == "partial" else (self.least, self.outcome)))


def ask_reading(asked):
    followed = asked.followed(min(asked.end, FURTHEST))
    yield asked.question("get_within", "value", asked.outcome, followed)
    yield asked.question("get_within of fronts", "value-fronts", asked.fronts(), asked.followed())
    yield asked.question("get_within of fronts, below-count", "value-fronts", asked.fronts(), asked.followed(), "rule=below-count")
    yield asked.question("Values in two pieces", "value-checked", from_place(asked.at, asked.outcome))
    yield asked.question("Values byte by byte", "value-by-bytes", f"{asked.least} {asked.outcome}")
    if asked.read["end"]:
        yield asked.question("get_within up to each end", "value-ends", asked.ends())
    if asked.outcome != "partial" and asked.end <= FURTHEST:
        yield asked.question("validate_value, validate_values", "value-validated", asked.ends(2), followed, f"to={asked.end}")


def ask_writing(asked, writing):
    """What checks, writers and measures make of the value, and its text and that of a copy."""
    if writing == "-":
        yield asked.question("writing", "value-written", "none")
        return
    fault, is_size = FAULTS.get(writing), writing in ("ArrayTooLong", "TooLong")
    # How deep a value nests is a matter of checking it.
    checked = "accepted" if fault is None or is_size else fault
    put, size = (fault, fault) if is_size else (hexed(asked.data), str(len(asked.data)))
    words = ["0" if asked.outcome.endswith(" FdIndex") else "none"]
    words += [checked] if asked.is_limited else [checked, checked]
    words += [put, hexed(asked.data), size, str(len(asked.data)), str(len(asked.data))]
    yield asked.question("writing", "value-written", " ".join(words))
    engine = f"showing in {asked.order} endian"
    start = f"#1 l method_call serial=1 flags=00 path=/ member=M signature={asked.types.decode()}\n  "
    text = asked.read["text"] and hexed(f"{start}{asked.read['text']}\n".encode())

    def shown(answers):
        one = text or answers[engine].split(" ")[-1]
        return f"{one} {one}"

    yield asked.question("showing", "value-shown", shown)


def ask_value(case, _):
    _, types, settings, little, big, reading, writing = case
    for order, column in zip(ORDERS, (little, big)):
        asked = Asked(types, settings, order, column, reading)
        both = (*ask_reading(asked), *ask_writing(asked, writing))
        yield from with_growths(both, GROWING if order == ORDERS[0] else ())


# ---- Messages


def place_of(told, answer):
    """From which place on decoding answers so, if it does, by what is told at places."""
    for place, words in (run.split(" ", 1) for run in told.split(", ")):
        if f"{words} ".startswith(f"{answer} "):
            return int(place)
    return None


def ask_fronts(order, data, limits, answer, decides):
    """What each engine answers of each front of a message's bytes, with others after them. If the bytes are refused, and the last of them does not
    decide that, the one that does so for decoding has to do so for all."""
    word, *numbers = answer.split(" ")
    given = data if word == "partial" else data + MORE
    engine = f"decode_within, validate, stated_length, MessageView, Checker in {order} endian"
    is_stated = len(given) >= 16 and not (word == "refused" and int(numbers[0]) < 16)

    def told(place, least):
        is_decided = word != "partial" and place >= least
        front = answer if is_decided else "partial"
        validated = answer if is_decided and word == "whole" else "none"
        stated = f"states {stated_length(given)}" if is_stated and place >= 16 else "partial" if is_stated else front
        viewed = answer if is_decided else "truncated"
        if word == "whole" and place > len(data):
            viewed = f"refused {len(data)} Trailing"
        in_two = [] if is_decided else [answer]
        return " ".join([front, validated, stated, viewed, front, front, *in_two])

    def wanted(answers):
        least = len(data) if word == "whole" or decides else min(place_of(answers[engine], answer) or len(data), len(data))
        places = sorted({0, 16, least, len(data) + 1} & {*range(len(given) + 1)})
        return runs_of((place, told(place, least)) for place in places)

    yield Question(f"decode in {order} endian", words_of("message", hexed(given), limits), answer)
    yield Question(engine, words_of("fronts", hexed(given), limits), wanted)


def ask_whole(order, columns, limits):
    """What is made of a whole message, whose bytes are columns in both orders."""
    data = columns[order]
    other = columns["big" if order == "little" else "little"]

    def question(engine, kind, wanted, *settings, more=b""):
        return Question(f"{engine} in {order} endian", words_of(kind, hexed(data + more), limits, *settings), wanted)

    for wanted in ORDERS:
        yield question(f"encode, {wanted},", "encode", columns[wanted].hex(), f"order={wanted}")
        yield question(f"Message::new_within, {wanted},", "build", columns[wanted].hex(), f"order={wanted}")
    yield question("encode_into", "encode-into", f"{data.hex()} {data.hex()}", "-", f"order={order}")
    yield question("byteswap", "byteswap", other.hex(), more=MORE)
    message = Message(data)
    yield question("the names that Message gives, and Message::within", "names", f"{message.names()} within")
    yield question("copy_values", "copy-all", str(message.count()))
    yield question("the header that MessageView gives", "header", message.header())
    yield question("the values that MessageView gives", "see", message.values())
    yield question("show_message", "show", None, "by=message", "number=7", more=MORE)
    shown = f"show_message in {order} endian"
    yield question("show_validated", "show", lambda answers: answers[shown], "by=validated", "number=7", more=MORE)


def asker_of_messages(decides=False):
    def ask_message(case, _):
        _, limits, little, big, answer = case
        columns = dict(zip(ORDERS, (read_bytes(little), read_bytes(big))))
        for order, data in columns.items():
            asked = [*ask_fronts(order, data, limits, answer, decides)] if data else []
            if data and answer.startswith("whole"):
                asked += ask_whole(order, columns, limits)
            yield from with_growths(asked, GROWING if order == ORDERS[0] else ())

    return ask_message


def ask_printed(case, _):
    _, number, data, text = case
    for engine in ("message", "validated"):
        words = f"show {hexed(read_bytes(data))} by={engine} number={number}"
        yield Question(f"show, {engine}", words, hexed(read_bytes(text)))


def ask_match(case, _):
    """The two columns of bytes are one message."""
    little, big = read_bytes(case[3]), read_bytes(case[4])
    yield Question("encode in big endian", f"encode {hexed(little)} order=big", hexed(big))
    yield Question("encode in little endian", f"encode {hexed(big)} order=little", hexed(little))


FILES = {
    "names.txt": ask_name,
    "signatures.txt": ask_signature,
    "values.txt": ask_value,
    "messages.txt": asker_of_messages(),
    # The last byte decides each fault.
    "faults.txt": asker_of_messages(decides=True),
    "limits.txt": asker_of_messages(),
    "descriptors.txt": asker_of_messages(),
    "printed.txt": ask_printed,
    "matches.txt": ask_match,
    "made.txt": ask_made,
    "growths.txt": ask_made,
}
