"""What is seen of a whole message in its bytes, as the program `case_engines` says it. It reads the message by itself. D-Bus Specification,
"Marshaling (Wire Format)" and "Message Format"."""

from questions import hexed

NUMBERS = {"y": 1, "b": 4, "n": 2, "q": 2, "i": 4, "u": 4, "x": 8, "t": 8, "d": 8, "h": 4}
ALIGNMENTS = {**NUMBERS, "s": 4, "o": 4, "g": 1, "v": 1, "a": 4, "(": 8, "{": 8}
BRACKETS = {"(": ")", "{": "}"}
PATH, INTERFACE, MEMBER, ERROR_NAME, REPLY_SERIAL, DESTINATION, SENDER, SIGNATURE, UNIX_FDS = range(1, 10)


def first_type(types):
    """The first complete type of a signature."""
    if types[0] == "a":
        return "a" + first_type(types[1:])
    if types[0] not in BRACKETS:
        return types[0]
    at = 1
    while types[at] != BRACKETS[types[0]]:
        at += len(first_type(types[at:]))
    return types[: at + 1]


class Message:
    """A whole message, of which the bytes before `at` were read."""

    def __init__(self, data):
        self.data, self.order, self.at = data, "big" if data[:1] == b"B" else "little", 12
        end = 16 + self.number(4)
        # The code of each header field, where its text or number is, and what is seen of its value.
        self.fields = []
        while self.at < end:
            self.align(8)
            code, types = self.number(1), self.text(1).decode()
            place = self.place(types)
            self.fields.append((code, place, self.seen(types)))
        self.align(8)
        signature = next((place for code, place, _ in self.fields if code == SIGNATURE), None)
        self.types = self.data[slice(*signature)].decode() if signature else ""
        self.body = self.at

    def align(self, boundary):
        self.at += -self.at % boundary

    def bytes(self, count):
        self.at += count
        return self.data[self.at - count : self.at]

    def number(self, width):
        self.align(width)
        return int.from_bytes(self.bytes(width), self.order)

    def text(self, width):
        """A text after its length, which has this width."""
        text = self.bytes(self.number(width))
        self.at += 1
        return text

    def place(self, types):
        """Where the text or the number of the value begins and ends that comes next."""
        start = self.at + -self.at % ALIGNMENTS[types[0]]
        if types[0] in NUMBERS:
            return start, start + NUMBERS[types[0]]
        if types[0] not in "sog":
            return 0, 0
        width = ALIGNMENTS[types[0]]
        length = int.from_bytes(self.data[start : start + width], self.order)
        return start + width, start + width + length

    def seen(self, types):
        """Values of these types, each after its first code, and the offset where the last one ends."""
        words = []
        while types:
            first = first_type(types)
            words += [first[0], *self.value(first)]
            types = types[len(first) :]
        return [*words, str(self.at)]

    def value(self, type):
        self.align(ALIGNMENTS[type[0]])
        if type[0] in NUMBERS:
            return [type, str(self.number(NUMBERS[type]))]
        if type in "sog":
            return [type, hexed(self.text(ALIGNMENTS[type]))]
        if type == "v":
            return ["<", *self.seen(self.text(1).decode()), ")"]
        if type == "ay":
            return ["ay", hexed(self.bytes(self.number(4)))]
        if type[0] == "a":
            return self.array(type[1:])
        return [type[0], *self.seen(type[1:-1]), ")"]

    def array(self, element):
        """The type, the order, the bytes of numbers, how many bytes there are, each element, and how many bytes are left."""
        length = self.number(4)
        self.align(ALIGNMENTS[element[0]])
        end = self.at + length
        numbers = hexed(self.data[self.at : end]) if element in NUMBERS else "none"
        words = ["a", hexed(element.encode()), self.order.capitalize(), numbers, "[", str(length)]
        while self.at < end:
            words += self.value(element)
        return [*words, "]", "0"]

    def text_of(self, code):
        """The text of a header field."""
        return next((hexed(self.data[slice(*place)]) for found, place, _ in self.fields if found == code), "none")

    def number_of(self, code):
        """The number of a header field."""
        return next((str(int.from_bytes(self.data[slice(*place)], self.order)) for found, place, _ in self.fields if found == code), "none")

    def names(self):
        """The texts of the known header fields, then their numbers."""
        texts = (PATH, INTERFACE, MEMBER, ERROR_NAME, DESTINATION, SENDER, SIGNATURE)
        return " ".join([*map(self.text_of, texts), *map(self.number_of, (REPLY_SERIAL, UNIX_FDS))])

    def count(self):
        """How many values the body has."""
        types, count = self.types, 0
        while types:
            types, count = types[len(first_type(types)) :], count + 1
        return count

    def header(self):
        """The numbers and the texts of the header, of each value of the body its place and its text, and of two that are not there nothing."""
        order, kind, flags = self.order.capitalize(), self.data[1], self.data[2]
        serial = int.from_bytes(self.data[8:12], self.order)
        words = [order, kind, flags, serial, self.number_of(REPLY_SERIAL)]
        words += map(self.text_of, (PATH, INTERFACE, MEMBER, ERROR_NAME, DESTINATION, SENDER))
        self.at, types = self.body, self.types
        while types:
            first = first_type(types)
            start, end = self.place(first) if first in ("s", "o", "g") else (0, 0)
            words += [first[0], start, end - start, first[0], *([hexed(self.data[start:end])] if start else [])]
            self.value(first)
            types = types[len(first) :]
        return " ".join(str(word) for word in [*words, "none", "none"])

    def values(self):
        """The header fields and the values of the body, twice."""
        words = [word for code, _, seen in self.fields for word in ("field", str(code), *seen)]
        self.at = self.body
        seen = self.seen(self.types)
        return " ".join([*words, "body", *seen, "again", *seen])
