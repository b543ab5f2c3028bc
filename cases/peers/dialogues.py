"""What the programs share that put a peer in the place of an end of a dialogue
(cases/data/dialogues.txt). The peer is of root, as its other end is."""

import re

# The dialogues' user, and another one, in hexadecimal; before them what root is there.
AS_ROOT = ((rb"\b30\b", b"39"), (b"31303030", b"30"), (b"31303031", b"31"))


def given_to(data):
    """The pieces of what a peer is handed, each of which is a line if it can be."""
    for user, other in AS_ROOT:
        data = re.sub(user, other, data)
    return re.findall(rb".*?\r\n|.+", data, re.S)


def hear(end, said):
    """Adds a line, or what comes in time, to what was said."""
    heard = b""
    try:
        while not heard.endswith(b"\r\n"):
            if not (read := end.recv(1 << 16)):
                raise ConnectionResetError
            heard += read
    except TimeoutError:
        pass
    finally:
        said.append(heard)


def talk(end, pieces, said, seconds=1):
    """Hands the pieces over, hears after each, and returns whether the peer closes."""
    end.settimeout(seconds)
    try:
        for piece in pieces:
            end.sendall(piece)
            hear(end, said)
        hear(end, said)
        return False
    except ConnectionError:
        return True


def told(said, closes):
    """The commands of lines up to BEGIN, and whether the end closes then."""
    lines = b"".join(said).lstrip(b"\0").split(b"\r\n")
    words = [line.split(b" ")[0].decode("latin1") for line in lines if line]
    words = words[: words.index("BEGIN") + 1] if "BEGIN" in words else words
    return " ".join(words + ["closes"] * closes) or "nothing"
