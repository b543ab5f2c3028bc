#!/usr/bin/env python3
"""refused_lines.py PROGRAM [LINES [SEED [WORD..]]]: reads changed lines of JSON by itself, and says where `PROGRAM encode --keep-going`, without
`--safe-integers`, with it and with `--explain`, or what the words run, tells another reason or column, or explains that otherwise. The lines are those
of json.txt, of encode.txt and of the samples, changed at random. The exit status is 1 if something differs.

What a line spells is as the manual page of dbus-wire describes it.
"""

import collections
import itertools
import math
import random
import re
import subprocess
import sys

sys.dont_write_bytecode = True
sys.setrecursionlimit(10000)

from lines import is_hidden  # noqa: E402
from read_cases import DATA, read_cases, read_parts  # noqa: E402

SPACE, MARKS = b" \t\n\r", b"{}[],:"
NUMBER = re.compile(rb"-?(0|[1-9][0-9]*)(\.[0-9]+)?([eE][+-]?[0-9]+)?")
WORD = re.compile(rb'[^ \t\n\r{}\[\],:]+')
ESCAPE = re.compile(r'\\(?:(["\\/bfnrt])|u([0-9a-fA-F]{4}))')
SHORT = dict(zip('"\\/bfnrt', '"\\/\b\f\n\r\t'))
WORDS = {b"true": ("bool", True), b"false": ("bool", False), b"null": ("null", None)}
RANGES = {"y": (0, 8), "n": (1, 16), "q": (0, 16), "i": (1, 32), "u": (0, 32), "h": (0, 32), "x": (1, 64), "t": (0, 64)}
TEXTS = {"s": "Text", "o": "Path", "g": "Signature"}
NAMES = {"path": (1, "o"), "interface": (2, "s"), "member": (3, "s"), "error_name": (4, "s"), "reply_serial": (5, "u"), "destination": (6, "s")}
NAMES |= {"sender": (7, "s"), "signature": (8, "g"), "unix_fds": (9, "u")}
PLAIN = {"number", "offset", "time", "length", "order", "type", "flags", "serial", "fields", "body"}
KINDS = {"method_call": 1, "method_return": 2, "error": 3, "signal": 4}
REQUIRED = {1: (1, 3), 2: (5,), 3: (4, 5), 4: (1, 2, 3)}
ELEMENTS = "[A-Za-z_][A-Za-z0-9_]*"
INTERFACE = rf"{ELEMENTS}(\.{ELEMENTS})+"
WELL_KNOWN = r"[A-Za-z_-][A-Za-z0-9_-]*(\.[A-Za-z_-][A-Za-z0-9_-]*)+"
KNOWN_TEXTS = {2: ("Interface", INTERFACE), 3: ("Member", ELEMENTS), 4: ("ErrorName", INTERFACE)}
KNOWN_TEXTS |= {code: ("BusName", rf"{WELL_KNOWN}|:[A-Za-z0-9_-]+(\.[A-Za-z0-9_-]+)+") for code in (6, 7)}
PATH = r"/|(/[A-Za-z0-9_]+)+"
DEPTH, LINE_DEPTH = 64, 130
GREATEST_SAFE = 9007199254740991
# Of each byte or two or three with which a character begins one of these is the rest.
RESTS = (b"", b"\x80", b"\x80\x80", b"\x80\x80\x80", b"\xa0\x80", b"\x90\x80\x80")

Node = collections.namedtuple("Node", "kind value at")
Member = collections.namedtuple("Member", "name at node")


class Refused(Exception):
    """A reason, and the place in bytes from 0."""


# Whether `--safe-integers` is among the words.
safe_integers = False


def refuse(at, reason):
    raise Refused(at, reason)


# ---- JSON


def unescaped(text):
    """The text of a string between its marks, or None."""
    if any(ord(it) < 32 for it in text):
        return None
    out, at = "", 0
    while at < len(text):
        if text[at] != "\\":
            out, at = out + text[at], at + 1
            continue
        found = ESCAPE.match(text, at)
        if not found:
            return None
        out, at = out + (SHORT[found[1]] if found[1] else chr(int(found[2], 16))), found.end()
    try:
        return out.encode("utf-16", "surrogatepass").decode("utf-16")
    except UnicodeDecodeError:
        return None


def lexemes(line):
    """The marks, strings and words of a line, each with its place, up to the first that is none."""
    at = 0
    while at < len(line):
        if line[at] in SPACE:
            at += 1
        elif line[at] in MARKS:
            yield chr(line[at]), None, at
            at += 1
        elif line[at] == 0x22:
            found = re.compile(rb'"((?:[^"\\]|\\.)*)"', re.S).match(line, at)
            text = unescaped(found[1].decode()) if found else None
            if text is None:
                yield "bad", None, at
                return
            yield "string", text, at
            at = found.end()
        else:
            word = WORD.match(line, at)[0]
            if word in WORDS:
                yield (*WORDS[word], at)
            elif NUMBER.fullmatch(word):
                yield "number", word.decode(), at
            else:
                yield "bad", None, at
                return
            at += len(word)


class Reader:
    """One JSON value of a line."""

    def __init__(self, line):
        self.left = collections.deque((*lexemes(line), ("end", None, len(line))))

    def bad(self, ahead=0):
        refuse(self.left[ahead][2], "NotJson")

    def next_is(self, mark):
        if self.left[0][0] == mark:
            self.left.popleft()
            return True
        return False

    def is_name(self):
        return self.left[0][0] == "string" and self.left[1][0] == ":"

    def whole(self):
        value = self.value(LINE_DEPTH)
        if self.left[0][0] == ",":
            self.bad(1)
        if self.left[0][0] != "end":
            self.bad()
        return value

    def value(self, depth):
        kind, value, at = self.left[0]
        if kind in ("number", "bool", "null") or kind == "string" and not self.is_name():
            self.left.popleft()
            return Node(kind, value, at)
        if kind not in ("[", "{") or depth == 0:
            self.bad()
        self.left.popleft()
        end = "]" if kind == "[" else "}"
        parts = []
        if self.next_is(end):
            return Node(kind, parts, at)
        while True:
            parts.append(self.value(depth - 1) if kind == "[" else self.member(depth - 1))
            if self.next_is(end):
                return Node(kind, parts, at)
            if not self.next_is(","):
                self.bad()

    def member(self, depth):
        if not self.is_name():
            self.bad()
        _, name, at = self.left.popleft()
        self.left.popleft()
        return Member(name, at, self.value(depth))


# ---- values


def types_of(text):
    """The types that a signature spells, or None."""

    def single(at, arrays, structs, is_element=False):
        if at >= len(text):
            raise ValueError
        letter = text[at]
        if letter in RANGES or letter in TEXTS or letter in "bdv":
            return letter, at + 1
        if letter == "a":
            if arrays == 32:
                raise ValueError
            inner, at = single(at + 1, arrays + 1, structs, True)
            return ("a", inner), at
        if letter == "(" or letter == "{" and is_element:
            if structs == 32:
                raise ValueError
            end, inner, at = ")" if letter == "(" else "}", [], at + 1
            while text[at : at + 1] != end:
                part, at = single(at, arrays, structs + 1)
                inner.append(part)
            if not inner or letter == "{" and (len(inner) != 2 or not isinstance(inner[0], str) or inner[0] == "v"):
                raise ValueError
            return (letter, *inner), at + 1
        raise ValueError

    types, at = [], 0
    if len(text.encode()) > 255:
        return None
    try:
        while at < len(text):
            kind, at = single(at, 0, 0)
            types.append(kind)
    except ValueError:
        return None
    return types


def is_integer(text):
    return re.fullmatch("0|-?[1-9][0-9]*", text)


def integer(node, kind):
    low, high = (-(1 << RANGES[kind][1] - 1), 1 << RANGES[kind][1] - 1) if RANGES[kind][0] else (0, 1 << RANGES[kind][1])
    if node.kind == "string" and kind in "xt":
        if not is_integer(node.value):
            refuse(node.at, "Digits")
    elif node.kind != "number":
        refuse(node.at, "Form")
    elif not is_integer(node.value):
        refuse(node.at, "NotInteger")
    if not low <= int(node.value) < high:
        refuse(node.at, "Range" if node.kind == "number" or node.value != "0" else "Digits")
    if safe_integers and kind in "xt" and node.kind == "number" and abs(int(node.value)) > GREATEST_SAFE:
        refuse(node.at, "MayBeRounded")
    return int(node.value)


def text(node, kind):
    if node.kind != "string":
        refuse(node.at, "Form")
    good = {"s": lambda it: "\0" not in it, "o": lambda it: re.fullmatch(PATH, it), "g": lambda it: types_of(it) is not None}[kind]
    if not good(node.value):
        refuse(node.at, TEXTS[kind])
    return node.value


def strange(node, names):
    """An object of members of these names, none twice."""
    if node.kind != "{":
        refuse(node.at, "Form")
    had = {}
    for name, at, value in node.value:
        if name not in names:
            refuse(at, "MemberUnknown")
        if name in had:
            refuse(at, "MemberTwice")
        had[name] = value
    return had


def typed(node, had):
    for name, reason in (("type", "TypeMissing"), ("value", "ValueMissing")):
        if name not in had:
            refuse(node.at, reason)
    if had["type"].kind != "string":
        refuse(had["type"].at, "Form")


def single(node):
    types = types_of(node.value)
    if types is None or len(types) != 1:
        refuse(node.at, "Signature")
    return types[0]


def double(node):
    if node.kind == "string":
        if not re.fullmatch("[0-9a-fA-F]{16}", node.value):
            refuse(node.at, "Digits")
    elif node.kind != "number":
        refuse(node.at, "Form")
    elif math.isinf(float(node.value)):
        refuse(node.at, "Range")


def value(node, kind, depth):
    letter = kind[0]
    if letter == "b":
        if node.kind != "bool":
            refuse(node.at, "Form")
    elif letter == "d":
        double(node)
    elif letter in RANGES:
        integer(node, letter)
    elif letter in TEXTS:
        text(node, letter)
    elif letter == "v":
        had = strange(node, ("type", "value"))
        typed(node, had)
        if depth == 0:
            refuse(node.at, "TooDeep")
        value(had["value"], single(had["type"]), depth - 1)
    elif letter == "{":
        if node.kind != "[":
            refuse(node.at, "Form")
        values(node, kind[1:], depth)
    elif depth == 0:
        refuse(node.at, "TooDeep")
    elif kind == ("a", "y"):
        if node.kind != "string":
            refuse(node.at, "Form")
        if not re.fullmatch("([0-9a-fA-F]{2})*", node.value):
            refuse(node.at, "Digits")
    elif node.kind != "[":
        refuse(node.at, "Form")
    elif letter == "a":
        for item in node.value:
            value(item, kind[1], depth - 1)
    else:
        values(node, kind[1:], depth - 1)


def values(node, types, depth):
    if node.kind != "[":
        refuse(node.at, "Form")
    if len(node.value) != len(types):
        refuse(node.at, "Count")
    for item, kind in zip(node.value, types):
        value(item, kind, depth)


# ---- messages


def head(members, number):
    if "order" in members:
        node = members["order"]
        if node.kind != "string":
            refuse(node.at, "Form")
        if node.value not in ("l", "B"):
            refuse(node.at, "Order")
    if "type" not in members:
        refuse(members[""].at, "TypeMissing")
    node = members["type"]
    if node.kind == "string" and node.value not in KINDS:
        refuse(node.at, "Kind")
    kind = KINDS[node.value] if node.kind == "string" else integer(node, "y")
    if "flags" in members:
        integer(members["flags"], "y")
    return kind, integer(members["serial"], "u") if "serial" in members else number


def known_value(node, code, kind):
    if code not in KNOWN_TEXTS:
        found = integer(node, kind) if kind == "u" else text(node, kind)
        if code == 5 and found == 0:
            refuse(node.at, "ZeroSerial")
        return found
    reason, form = KNOWN_TEXTS[code]
    if node.kind != "string":
        refuse(node.at, "Form")
    if len(node.value.encode()) > 255 or not re.fullmatch(form, node.value):
        refuse(node.at, reason)
    return node.value


def known_fields(whole):
    """The codes and values of the known header fields, in the order of their members."""
    for name, _, node in whole.value:
        if name in NAMES:
            code, kind = NAMES[name]
            yield code, known_value(node, code, kind)


def other_fields(node, end):
    """The places of the objects in `fields`, and the codes."""
    if node.kind != "[":
        refuse(node.at, "Form")
    following = 0
    for item in node.value:
        had = strange(item, ("code", "type", "value", "place"))
        if "code" not in had:
            refuse(item.at, "CodeMissing")
        code = integer(had["code"], "y")
        if 1 <= code <= 9:
            refuse(had["code"].at, "FieldKnown")
        typed(item, had)
        place = end
        if "place" in had:
            node = had["place"]
            if node.kind == "number" and is_integer(node.value) and not 0 <= int(node.value) <= end:
                refuse(node.at, "FieldPlace")
            place = integer(node, "u")
        value(had["value"], single(had["type"]), DEPTH - 3)
        if place < following:
            refuse(had["place"].at, "FieldPlace")
        end, following = end + 1, place + 1
        yield code, item


def message(whole, number):
    members = {"": whole} | strange(whole, PLAIN | NAMES.keys())
    kind, serial = head(members, number)
    known = list(known_fields(whole))
    others = list(other_fields(members["fields"], len(known))) if "fields" in members else []
    types = types_of(next((found for code, found in known if code == 8), ""))
    if "body" in members:
        values(members["body"], types, DEPTH)
    elif types:
        refuse(whole.at, "BodyMissing")
    rules(whole, members, kind, serial, known, others)


def rules(whole, members, kind, serial, known, others):
    """The rules of whole messages, in their order."""
    if kind == 0:
        refuse(members["type"].at, "Kind")
    if serial == 0:
        refuse(members["serial"].at, "ZeroSerial")
    for code, item in others:
        if code == 0:
            refuse(item.at, "FieldCode")
    for code in REQUIRED.get(kind, ()):
        if code not in [it[0] for it in known]:
            refuse(whole.at, f"FieldMissing({code})")


def is_utf8(text):
    try:
        text.decode()
    except UnicodeDecodeError:
        return False
    return True


def broken_utf8(line):
    """The first byte that no UTF-8 has after those before it, or the end, of a line that is not UTF-8; else None."""
    try:
        line.decode()
        return None
    except UnicodeDecodeError as fault:
        start = at = fault.start
    while at < len(line) and any(is_utf8(line[start : at + 1] + rest) for rest in RESTS):
        at += 1
    return at


def refusal(line, number):
    """The reason and the column of a line that is refused."""
    at = broken_utf8(line)
    if at is not None:
        return at + 1, "NotUtf8"
    try:
        message(Reader(line).whole(), number)
    except Refused as fault:
        return fault.args[0] + 1, fault.args[1]
    return None


# ---- changed lines

PIECES = b'0 -0 1 -1 255 256 65536 -32769 4294967296 9223372036854775808 -9223372036854775809 18446744073709551616 1.0 1e3 1e999 01 true null "1" "-5" "x"'.split()
PIECES += b'"" "zz" "7ff0000000000000" [] {} [1] ["a",1] "/" "/a" "a.b" "l" "B" "signal" "s" "su" "a{sv}" "\\u0000" "\\ud83d" "\\u00e9" NaN'.split()
PIECES += b'9007199254740991 9007199254740992 -9007199254740992 "9007199254740992" "-1" 18446744073709551615 "01"'.split()
PIECES += [b'{"type":"t","value":9007199254740992}', b'{"type":"x","value":"-9007199254740992"}', b'{"type":"x","value":-9007199254740992}']
PIECES += [b'{"type":"u","value":1}', b'{"value":"a","type":"s"}', b'{"type":"u"}', b'{"type":"u","value":-1}', b'{"type":"a","value":1}', b'{"type":1,"value":1}']
MEMBERS = [b'"order":"B"', b'"type":3', b'"type":9', b'"flags":256', b'"serial":0', b'"path":"/x"', b'"interface":"q"', b'"member":"M.M"', b'"error_name":"e"']
MEMBERS += [b'"reply_serial":0', b'"destination":":1.2"', b'"sender":"a"', b'"signature":"s"', b'"unix_fds":2', b'"body":["x"]', b'"x":1', b'"fields":[]']
MEMBERS += [b'"fields":[{"code":10,"type":"u","value":1,"place":0}]', b'"fields":[{"code":0,"type":"s","value":"x"},{"code":7,"type":"s","value":""}]']
MEMBERS += [b'"fields":[{"code":11,"type":"s","value":"x","place":1},{"code":10,"type":"u","value":1,"place":0}]', b'"fields":[{"code":11,"value":[]}]']
TOKEN = re.compile(rb'"(?:[^"\\]|\\.)*"|[^\s{}\[\],:"]+|[{}\[\],:]')


def changed(line, dice):
    for _ in range(dice.choice((1, 1, 1, 2, 3))):
        tokens = list(TOKEN.finditer(line))
        if not tokens:
            return line
        way, at = dice.random(), dice.randrange(len(line))
        one, two = sorted((dice.choice(tokens), dice.choice(tokens)), key=lambda it: it.start())
        if way < 0.02:
            line = line[:at] + bytes([dice.randrange(256)]) + line[at + 1 :]
        elif way < 0.05:
            line = line[:at] + line[at + dice.randrange(1, 9) :]
        elif way < 0.08:
            line = line[:at] + bytes([dice.choice(b' \t{}[]:,"\\0-.e1a\x7f\xff\xc3')]) + line[at:]
        elif way < 0.6:
            values = [it for it in tokens if it[0] not in MARKS and line[it.end() : it.end() + 1] != b":"]
            it = dice.choice(values or tokens)
            line = line[: it.start()] + dice.choice(PIECES) + line[it.end() :]
        elif way < 0.65 and one.end() <= two.start():
            line = line[: one.start()] + two[0] + line[one.end() : two.start()] + one[0] + line[two.end() :]
        elif way < 0.9:
            member = dice.choice(MEMBERS)
            line = line[:1] + member + b"," + line[1:] if dice.random() < 0.5 else line[:-1] + b"," + member + line[-1:]
        else:
            line = re.sub(rb"([,:\[{])", lambda it: it[1] + dice.choice((b"", b"", b" ", b"\t")), line)
    return line.replace(b"\n", b" ")


def lines_of(program):
    """Lines that `json` writes, and the inputs of the runs of `encode`."""
    for data in (read_parts(it[4], DATA) for it in read_cases(DATA / "json.txt")):
        yield from (data or b"").split(b"\n")[:40]
    for sample in sorted((DATA.parent.parent / "samples").glob("*.dbus")):
        ran = subprocess.run([program, "json"], input=sample.read_bytes(), stdout=subprocess.PIPE)
        yield from ran.stdout.split(b"\n")[:40]
    for row in read_cases(DATA / "encode.txt"):
        yield from (it for it in read_parts(row[2], DATA).split(b"\n")[:40] if len(it) < 2000)


def rules_of_reasons():
    """What the manual page says that has to be there, for each reason."""
    page = (DATA.parent.parent / "man" / "dbus-wire.1").read_text()
    rows = page.partition("\n.SS Rules of lines\n")[2].partition("\n.hy\n")[0].split("\n.TP\n.B ")[1:]
    said = {name: text.replace("\n", " ").strip() for name, _, text in (it.partition("\n") for it in rows)}
    return {name: text.replace("\\-", "-").replace("\\(dq", '"').replace("\\&", "") for name, text in said.items()}


def seen(part):
    """A part of a line as a terminal may get it."""
    letters = part.decode("utf-8", "replace")
    return "".join(f"\\x{ord(it):02x}" if it < " " or it == "\x7f" else f"\\u{{{ord(it):x}}}" if is_hidden(it) else it for it in letters)


def explanation(line, column, rule):
    before, there = seen(line[max(0, column - 41) : column - 1]), seen(line[column - 1 : column + 35])
    return f"\n  {before}{there}\n  {' ' * len(before)}^\n  {rule}"


def compared(lines, words):
    """Whether what the words run tells of the lines what is told here."""
    global safe_integers
    safe_integers = "--safe-integers" in words
    numbers = itertools.count(1)
    found = [refusal(it, next(numbers)) if it.strip(SPACE) else None for it in lines]
    ruled = rules_of_reasons() if "--explain" in words else {}
    explained = [explanation(lines[n], it[0], ruled[it[1]]) if it and ruled else "" for n, it in enumerate(found)]
    wanted = [f"refused at line {n}, column {it[0]}: {it[1]}{explained[n - 1]}" for n, it in enumerate(found, 1) if it]
    ran = subprocess.run(words, input=b"\n".join(lines) + b"\n", capture_output=True)
    told = re.split(r"\n(?=refused )", ran.stderr.decode().removesuffix("\n"))
    wrong = [f"{a}\n{b}\n{lines[int(re.search('[0-9]+', a)[0]) - 1]}" for a, b in zip(wanted, told) if a != b]
    reasons = collections.Counter(it[1] for it in found if it)
    print(*wrong[:20], *(f"{reason} {times}" for reason, times in sorted(reasons.items())), sep="\n")
    print(f"{len(lines)} lines, {len(wanted)} refused, {len(told)} told, {len(wrong)} differ")
    return not wrong and len(wanted) == len(told) and ran.returncode == (1 if wanted else 0)


def main(program, count=10000, seed=1, *words):
    dice = random.Random(int(seed))
    some = [it for it in lines_of(program) if it.strip()]
    lines = [changed(dice.choice(some), dice) for _ in range(int(count))]
    encode = [program, "encode", "--keep-going"]
    return 0 if all([compared(lines, it) for it in ([words] if words else (encode, [*encode, "--safe-integers"], [*encode, "--explain"]))]) else 1


if __name__ == "__main__":
    sys.exit(main(*sys.argv[1:]))
