"""What is asked of lines of the handshake, of both of its ends and of their state machines."""

import itertools
import re

from questions import Question, hexed, words_of
from read_cases import read_bytes

CRLF = b"\r\n"
# The GUID of a server if a case has none.
GUID = "0123456789abcdef0123456789abcdef"
# What the callers send once their end has begun: a reply to serial 1.
MESSAGE = bytes.fromhex("6c02010100000000010000000800000005017500010000 00")
# A line without its CR LF.
LINE = re.compile(rb"[\x01-\x09\x0b\x0c\x0e-\x7f]{0,16382}")
# A word of what a server is made of.
OF_SERVER = re.compile("guid=[0-9a-f]{32}|user=[0-9]+|anonymous=yes|agrees=yes|rejections=[0-9]+|errors=[0-9]+")
# A word of what a client is made of that is none of its mechanisms.
OF_CLIENT = re.compile("asks=yes|rejections=[0-9]+|errors=[0-9]+")
# What ends a state: the server's GUID that a client has, and that both agreed.
KNOWN = re.compile("( [0-9a-f]{32})?( agreed)?$")
# Bytes that are as many are only split near their ends.
LONG = 1000
# The settings that say in which pieces bytes are handed over: in one; byte by byte; and so that an empty piece comes after each byte.
WAYS = {"whole": "", "bytes": "size=1", "empty": "size=1 empty=yes"}


def meaning_of(column):
    """The meaning of a line, with its bytes as questions and answers spell them."""
    word, _, rest = column.partition(" ")
    if not rest:
        return word
    spelled = [hexed(read_bytes(items)) for items in re.split(" response |, ", rest)]
    return " ".join((word, *((spelled[0], "response", spelled[1]) if word == "auth" else spelled)))


def asker_of_lines(sender):
    def ask_line(case, _):
        _, line, meaning, written = case
        meaning = re.sub("^auth (.*) response", r"auth-by \1", meaning_of(meaning))
        if line != "none":
            yield Question("read", f"{sender}-line {hexed(read_bytes(line))}", meaning)
        if written == "unspellable":
            yield Question("write", f"{sender}-written {meaning}", "no line spells this")
            return
        spelled = read_bytes(written)
        yield Question("write", f"{sender}-written {meaning}", hexed(spelled + CRLF))
        words = f"cut-lines {hexed(spelled + CRLF)} {WAYS['empty']}"
        yield Question("cut what is written", words, f"0 line {hexed(spelled)} partial 0")
        yield Question("read what is written", f"{sender}-line {hexed(spelled)}", meaning)

    return ask_line


def splits_of(data):
    """From where to where bytes are split in two."""
    return [(0, len(data))] if len(data) < LONG else [(0, 2), (len(data) - 4, len(data))]


def cut_of(data, lines):
    """What a cutter says that gives these lines of bytes, and then what a column says."""
    at = 0
    for word, _, count in (it.rpartition(" ") for it in lines.split(", ")):
        if word == "line":
            yield f"line {hexed(data[at : at + int(count)])}"
            at += int(count) + len(CRLF)
        else:
            faults = {"too": "the line has more than 16,384 bytes", "bad byte": f"a byte that a line may not have, at offset {count}"}
            yield faults.get(word, f"{word} {count}")


def ask_cuts(case, _):
    _, column, lines = case
    data = read_bytes(column)
    told = " ".join(cut_of(data, lines))
    for first, last in splits_of(data):
        words = f"cut-lines {hexed(data)} from={first} to={last}"
        yield Question(f"in two from {first} on", words, f"{first} {told}")
    yield Question("byte by byte, and nothing between", f"cut-lines {hexed(data)} {WAYS['empty']}", f"0 {told}")


def mechanism_of(word):
    """A mechanism of a client: `external`, `external=USER` or `anonymous=TRACE`."""
    name, _, text = word.partition("=")
    return f"{name}:{text}" if name == "external" else f"{name}:{read_bytes(text).hex()}"


def settings_of(column):
    """The settings that say an end."""
    side, *words = column.split(" ")
    if side == "client":
        mechanisms = [mechanism_of(it) for it in words if not OF_CLIENT.fullmatch(it)]
        return words_of(f"mechanisms={','.join(mechanisms)}" if mechanisms else "", *filter(OF_CLIENT.fullmatch, words))
    assert side == "server" and all(map(OF_SERVER.fullmatch, words)), column
    return words_of(*words, "" if "guid=" in column else f"guid={GUID}")


def lines_in(side, data):
    """The lines that a machine is told of these bytes, up to one with a fault."""
    if side == "server" and data[:1] != b"\0":
        return []
    lines = data.removeprefix(b"\0").split(CRLF)[:-1]
    return [*itertools.takewhile(LINE.fullmatch, lines)]


def acts_of(side, sent, status):
    """What a machine says that it does, whose end sends these bytes in all."""
    lines = sent.removeprefix(b"\0").split(CRLF)[:-1]
    if side == "client" and status == "begun":
        assert lines.pop() == b"BEGIN"
    acts = {"begun": ["begin"], "closed": ["disconnect"]}
    return [*(hexed(line + CRLF) for line in lines), *acts.get(status, [])]


def variant_of(words):
    """The name of a variant, as a machine or a watch says it."""
    return "".join(map(str.capitalize, words.split(" ")))


def standing(side, state):
    """The status of an end or the state of a machine as it says it, in one word, of a client with the server's GUID; and whether both agreed."""
    guid, agreed = KNOWN.search(state).groups(default="")
    word = variant_of(KNOWN.sub("", state, count=1))
    return (f"{word}{guid or ' none'}" if side == "client" else word) + agreed


def ask_dialogue(case, _):
    _, end, column, sent, takes, status, state = case
    side, data, settings = end.split(" ")[0], read_bytes(column), settings_of(end)
    sent, known = read_bytes(sent), KNOWN.search(state)[0]
    about = words_of(f"{side}-end", hexed(data), settings)
    did = f"{hexed(sent)} {standing(side, status + known)}"
    each = "" if takes == "0" else takes.replace(" + ", " ")
    yield Question("in one piece", f"{about} taken=each", f"0 {did} {each}")
    # A line with a fault closes an end, and its machine does not hear of it.
    is_faulty = status == "closed" and state != "closed"
    taken = "" if is_faulty else "taken=all"
    did = words_of(did, "" if is_faulty else str(sum(map(int, takes.split(" + ")))))
    for way in ("bytes", "empty"):
        yield Question(f"by {way}", words_of(about, WAYS[way], taken), f"0 {did}")
    for first, last in splits_of(data):
        yield Question(f"in two from {first} on", words_of(about, taken, f"from={first} to={last}"), f"{first} {did}")
    # A machine has no bounds.
    if "errors=" in end:
        return
    lines = ",".join(line.hex() for line in lines_in(side, data))
    words = words_of(f"{side}-machine", settings, f"lines={lines}" if lines_in(side, data) else "")
    acts = acts_of(side, sent, "talking" if is_faulty else status)
    yield Question("machine", words, words_of(*acts, standing(side, state)))


def ask_handshake(case, _):
    _, client, server, by_client, by_server, client_ends, server_ends = case
    by_client, by_server = read_bytes(by_client), read_bytes(by_server)
    # Each takes what the other one sends before its message.
    sent = lambda data, ends: hexed(data + (MESSAGE if ends.startswith("begun") else b""))
    wanted = words_of(
        *(sent(by_client, client_ends), standing("client", client_ends), str(len(by_server))),
        *(sent(by_server, server_ends), standing("server", server_ends), str(len(by_client))),
    )
    for way, pieces in WAYS.items():
        words = words_of("handshake", f"message={MESSAGE.hex()}", settings_of(client), settings_of(server), pieces, "taken=all")
        yield Question(f"by {way}", words, wanted)


def ask_watch(case, _):
    _, column, becomes, state, unanswered, asked = case
    said = [it.partition(" ") for it in column.split(", ")]
    lines = ",".join(f"{side}:{read_bytes(items).hex()}" for side, _, items in said)
    told = map(variant_of, [*becomes.split(", "), state])
    yield Question("watch", f"watch lines={lines}", words_of(*told, unanswered, asked))
