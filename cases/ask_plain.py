"""What any implementation can be asked (README.md, "Questions"). An answer may be the first words alone of the right one, `yes` or `no`, or `?` if the
implementation does not know the question."""

import re

from handshakes import meaning_of
from questions import Question, hexed, words_of
from read_cases import read_bytes
from rewritten import MESSAGES, VALUES, order_of, rewritten_of
from run import UNKNOWN
from streams import stated_length

HEX = re.compile("([0-9a-f]{2})+")
# How the field begins that counts descriptors, which do not come with the bytes.
UNIX_FDS = b"\t\1u\0"
# The first words of answers that are also `yes`, or `no`.
VERDICTS = {"yes": ("whole", "accepted", "unique", "well-known", "yes"), "no": ("refused", "bad", "too", "partial", "no")}


def is_right(wanted, answer):
    """Whether an answer is the right one, its first words, or says yes or no to it, maybe with words of its own after a colon."""
    plain = answer.partition(":")[0]
    if plain in VERDICTS:
        return wanted.split(" ")[0] in VERDICTS[plain]
    return f"{wanted} ".startswith(f"{answer} ")


class FirstWords:
    """What is wanted of an engine: the first words of the right answer. Some answers are not compared."""

    def __init__(self, engine, right, not_compared=()):
        self.engine, self.right, self.not_compared = engine, right, not_compared

    def __call__(self, answers):
        answer = answers[self.engine]
        if answer in (UNKNOWN, "") or answer.partition(":")[0].split(" ")[0] in self.not_compared:
            return None
        return answer if is_right(self.right, answer) else self.right


class SameBody:
    """What is wanted of an engine that encodes a whole message again: the body that it has in the one order or the other."""

    def __init__(self, engine, bodies):
        self.engine, self.bodies = engine, bodies
        self.right = "a message of the body " + " or ".join(hexed(body) for _, body in bodies)

    def __call__(self, answers):
        answer = answers[self.engine]
        if answer in (UNKNOWN, "") or answer.startswith("no"):
            return None
        return answer if HEX.fullmatch(answer) and body_of(bytes.fromhex(answer)) in self.bodies else self.right


def question(engine, words, right, not_compared=()):
    return Question(engine, words, FirstWords(engine, right, not_compared))


def not_compared(data, answer):
    """The answers that are not compared: to wait for more of a refused front, and to refuse what has no descriptors."""
    is_front = answer.startswith("refused") and (len(data) < 16 or len(data) < stated_length(data))
    lacks = answer.startswith("whole") and (UNIX_FDS in data or b"h" in data)
    return ("partial",) if is_front else ("no", "refused") if lacks else ()


def ask_bytes(engine, data, limits, answer):
    return question(engine, words_of("message", hexed(data), limits), answer, not_compared(data, answer))


def body_of(data):
    """The bytes of a message's body, by the length that it states, and their order."""
    order = order_of(data)
    length = int.from_bytes(data[4:8], order)
    return order, data[len(data) - length :]


def ask_again(order, columns):
    engine = f"again in {order} endian"
    return Question(engine, f"again {hexed(columns[order])}", SameBody(engine, [body_of(data) for data in columns.values()]))


def asker_of(file):
    """The messages of a file as they are and rewritten."""

    def ask_message(case, _):
        columns = {}
        for order, column, it in rewritten_of(file, case):
            data = None if file == VALUES else read_bytes(column)
            if data is not None:
                yield ask_bytes(f"message in {order} endian", data, case[1], case[4])
            if not isinstance(it, str) and it.data != data:
                yield ask_bytes(f"message in {order} endian, rewritten", it.data, "", it.answer)
            # Descriptors do not come with bytes.
            if not isinstance(it, str) and it.answer.startswith("whole") and file != "descriptors.txt":
                columns[order] = it.data
        yield from (ask_again(order, columns) for order in columns)

    return ask_message


def ask_signature(case, _):
    for kind, verdict in (("signature", case[2]), ("single", case[3])):
        yield question(kind, f"text {kind} {hexed(read_bytes(case[1]))}", verdict)


def ask_name(case, _):
    _, kind, text, verdict = case
    yield question(kind, f"text {kind} {hexed(read_bytes(text))}", verdict)


def asker_of_texts(kind):
    def ask_text(case, _):
        _, text, answer = case
        wanted = answer if answer.startswith("refused") else f"accepted {hexed(read_bytes(answer.removeprefix('accepted ')))}"
        yield question(kind, f"{kind} {hexed(read_bytes(text))}", wanted)

    return ask_text


def ask_match(case, _):
    _, rule, owners, little, big, answer = case
    for order, data in (("little", read_bytes(little)), ("big", read_bytes(big))):
        yield question(f"match in {order} endian", words_of("match", hexed(read_bytes(rule)), hexed(data), owners), answer)


def asker_of_lines(sender):
    def ask_line(case, _):
        _, line, meaning, _ = case
        if line != "none":
            yield question("line", f"line {sender} {hexed(read_bytes(line))}", meaning_of(meaning))

    return ask_line


FILES = {
    **{file: asker_of(file) for file in (*MESSAGES, VALUES)},
    "signatures.txt": ask_signature,
    "names.txt": ask_name,
    "rules.txt": asker_of_texts("rule"),
    "matches.txt": ask_match,
    "addresses.txt": asker_of_texts("address"),
    "client_lines.txt": asker_of_lines("client"),
    "server_lines.txt": asker_of_lines("server"),
}
