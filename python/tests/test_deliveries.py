"""Random deliveries of messages with file descriptors over a socket, from an encoder of its own:
each message has to come with its descriptors, however its bytes are cut. DBUS_WIRE_DELIVERIES is
how many are tried. `test_deliveries.py write` writes them, which other programs try."""

import os
import random
import socket
import struct
import sys
import threading
import unittest

from inputs import GUID

from dbus_wire import Client, Link, Server, Signature

COUNT, FILES = int(os.environ.get("DBUS_WIRE_DELIVERIES", "300")), 6


def padded(data, to):
    return data + bytes(-len(data) % to)


def spelled(order, serial, fds, text):
    """A METHOD_CALL, as "Message Format" has it, whose body is the text and an array of indexes."""
    put = (">" if order == b"B" else "<").__add__
    fields = b""
    for code, kind, value in ((1, b"o", b"/a"), (3, b"s", b"Take"), (8, b"g", b"sah"), (9, b"u", fds)):
        if code == 9 and not fds:
            continue
        start = padded(fields, 8) + bytes([code, 1]) + kind + b"\0"
        if kind == b"u":
            fields = start + struct.pack(put("I"), value)
        elif kind == b"g":
            fields = start + bytes([len(value)]) + value + b"\0"
        else:
            fields = start + struct.pack(put("I"), len(value)) + value + b"\0"
    body = padded(struct.pack(put("I"), len(text)) + text + b"\0", 4) + struct.pack(put("I"), 4 * fds)
    body += b"".join(struct.pack(put("I"), index) for index in range(fds))
    head = order + bytes([1, 0, 1]) + struct.pack(put("III"), len(body), serial, len(fields))
    return padded(head + fields, 8) + body


def pieces_of(chosen, sent):
    """Cuts the messages into random pieces, of which one that begins within a message may have some
    of its descriptors beside it, and the last one that does has the others."""
    data, cuts = b"".join(it[0] for it in sent), []
    ends = [sum(len(it[0]) for it in sent[: at + 1]) for at in range(len(sent))]
    for (message, fds), stop in zip(sent, ends):
        places = sorted(chosen.sample(range(stop - len(message), stop), chosen.randrange(1, 4)))
        for at, place in enumerate(places):
            count = len(fds) if at == len(places) - 1 else chosen.randrange(len(fds) + 1)
            cuts.append((place, fds[:count]))
            fds = fds[count:]
    pieces = [(0, [])] * (cuts[0][0] > 0) + cuts + [(len(data), [])]
    return [(data[start:stop], fds) for (start, fds), (stop, _) in zip(pieces, pieces[1:])]


def deliveries(files):
    """Messages, each with its descriptors, and the pieces in which they come."""
    for seed in range(COUNT):
        chosen, sent = random.Random(seed), []
        for serial in range(1, chosen.randrange(2, 6)):
            fds, text = chosen.choices(files, k=chosen.randrange(5)), b"x" * chosen.choice((0, 1, 9, 300, 5000))
            sent.append((spelled(chosen.choice((b"l", b"B")), serial, len(fds), text), fds))
        yield sent, pieces_of(chosen, sent)


def send(end, pieces):
    for piece, fds in pieces:
        done = socket.send_fds(end, [piece], fds) if fds else 0
        end.sendall(piece[done:])


def write(out):
    """Writes the deliveries, with the numbers of files for descriptors: a line `piece BYTES FILE..` for what
    is sent, and `message LENGTH FILE..` for what then has to come. The first piece is a client's handshake."""
    user = str(os.getuid()).encode().hex()
    started = f"\0AUTH EXTERNAL {user}\r\nNEGOTIATE_UNIX_FD\r\nBEGIN\r\n".encode("ascii")
    print("piece", started.hex(), file=out)
    for sent, pieces in deliveries(range(FILES)):
        for piece, files in pieces:
            print("piece", piece.hex(), *files, file=out)
        for message, files in sent:
            print("message", len(message), *files, file=out)


class Deliveries(unittest.TestCase):
    def test_deliveries(self):
        files = [os.memfd_create(str(at)) for at in range(FILES)]
        known = {fd: os.fstat(fd).st_ino for fd in files}
        ends, links = socket.socketpair(), []
        server = Server(GUID, os.getuid(), descriptors=True)
        accepting = threading.Thread(target=lambda: links.append(Link(ends[0], server)))
        accepting.start()
        client = Link(ends[1], Client(user=os.getuid(), descriptors=True))
        accepting.join()
        self.assertTrue(client.agreed and links[0].agreed)
        for number, (sent, pieces) in enumerate(deliveries(files)):
            sending = threading.Thread(target=send, args=(ends[1], pieces))
            sending.start()
            for message, fds in sent:
                it = links[0].receive()
                self.assertEqual((bytes(it.message), it.message.signature), (message, Signature("sah")), number)
                self.assertEqual([os.fstat(fd).st_ino for fd in it.fds], [known[fd] for fd in fds], number)
                it.close()
            sending.join()
        for it in (*ends, *map(os.fdopen, files)):
            it.close()


if __name__ == "__main__":
    if sys.argv[1:] == ["write"]:
        write(sys.stdout)
    else:
        unittest.main()
