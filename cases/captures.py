#!/usr/bin/env python3
"""captures.py [PROGRAM]: reads the cases of captures.txt by a reader of its own, and says which differ. It also asks the program dbus-wire, if one is
given, to check each; of each capture without a fault every front; and of four of these each byte changed in three ways; and each of all these once more
with --keep-going, if packets of it were cut. It compares what the program writes with what the reader finds, and of the runs of captured.txt with their
columns, and reads what `filter` and `swap` write of each capture. The exit status is 1 if something differs.

The reader is written from the descriptions of both formats ("PCAP Capture File Format", "PCAP Now Generic (pcapng) Capture File Format"), with the faults
as the manual page of dbus-wire names them.
"""

import collections
import concurrent.futures as futures
import os
import subprocess
import sys

sys.dont_write_bytecode = True

from read_cases import DATA, read_cases, read_parts, read_words  # noqa: E402

# What a file gives: the bytes of its D-Bus packets, the time of each in nanoseconds or None, how many bytes there are up to the end of each packet, the
# number of the packet of the last byte or None, the place and the reason of its fault, or (), and how many packets were passed over since they were cut, or
# since they are of another link type.
Given = collections.namedtuple("Given", "data times ends last fault cut others")
Interface = collections.namedtuple("Interface", "link_type most unit has_offset")

DBUS = 231
PCAP = {b"\xd4\xc3\xb2\xa1": ("little", 1000), b"\x4d\x3c\xb2\xa1": ("little", 1), b"\xa1\xb2\xc3\xd4": ("big", 1000), b"\xa1\xb2\x3c\x4d": ("big", 1)}
MARKS = {b"\x4d\x3c\x2b\x1a": "little", b"\x1a\x2b\x3c\x4d": "big"}
SECTION, INTERFACE, OBSOLETE, SIMPLE, ENHANCED = 0x0A0D0D0A, 1, 2, 3, 6
# The least bytes of the blocks that are looked at.
LEAST = {INTERFACE: 20, OBSOLETE: 32, SIMPLE: 16, ENHANCED: 32}
END, RESOLUTION, OFFSET = 0, 9, 14
# The first bytes of a message, which state its size, and the most bytes of its fields and of a message.
FRONT, FIELDS, MOST = 16, 2**26, 2**27
ORDERS = {0x6C: "little", 0x42: "big"}
# The messages of these captures, and how many bytes each has.
MESSAGES = [read_parts(it, DATA) for it in ("@return", "@big_return")]
MESSAGE = 24
# What a pcap file begins with that is written, and the last time that it can hold.
HEADER = bytes.fromhex("4d3cb2a1 0200 0400 00000000 00000000 00000008 e7000000")
LAST_TIME = 2**32 * 10**9 - 1
# The captures of which each byte is changed.
CHANGED = ("pcap_one", "big_pcap_one", "pcapng_one", "big_pcapng_one")


class Refused(Exception):
    """A fault: a place and a reason."""


def stated(front):
    """The size that a message states that begins so, or 0 if no message within the limits has it."""
    if front[0] not in ORDERS:
        return 0
    body, fields = (int.from_bytes(front[it : it + 4], ORDERS[front[0]]) for it in (4, 12))
    size = FRONT + fields + -fields % 8 + body
    return size if fields <= FIELDS and size <= MOST else 0


class Reader:
    """The bytes of a file, and what they gave so far."""

    def __init__(self, data, passes_cut):
        self.bytes, self.at, self.order, self.passes_cut, self.cut, self.others = data, 0, "little", passes_cut, 0, 0
        self.data, self.times, self.ends, self.last, self.interfaces, self.is_alone = b"", [], [], None, [], True

    def take(self, count):
        found = self.bytes[self.at : self.at + count]
        self.at += len(found)
        if len(found) < count:
            raise Refused(self.at, "Truncated")
        return found

    def number(self, head, at, size=4):
        return int.from_bytes(head[at : at + size], self.order)

    def hand_on(self, count, room, time):
        """Hands on a packet, unless it has fewer bytes than it states, while each packet before it was one message."""
        if self.is_alone and count:
            at = self.at
            wanted = FRONT if count < FRONT else stated(self.take(FRONT))
            self.at = at
            if count < wanted:
                return self.pass_cut(at, room)
            self.is_alone = count == wanted
        self.times.append(time)
        # A packet that the input ends within is handed on as far as it is there.
        part = self.bytes[self.at : self.at + count]
        self.data += part
        self.ends.append(len(self.data))
        self.last = len(self.times) if part else self.last
        self.take(count)
        self.take(room - count)

    def pass_cut(self, place, count):
        if not self.passes_cut:
            raise Refused(place, "PacketCut")
        self.cut += 1
        self.take(count)

    def is_done(self):
        return self.at == len(self.bytes)

    def read_pcap(self):
        head = self.take(24)
        self.order, unit = PCAP[head[:4]]
        if (self.number(head, 4, 2), self.number(head, 6, 2)) != (2, 4):
            raise Refused(4, "Version")
        if self.number(head, 20) != DBUS:
            raise Refused(20, "LinkType")
        while not self.is_done():
            at, head = self.at, self.take(16)
            seconds, fraction, captured, original = (self.number(head, it) for it in (0, 4, 8, 12))
            if captured > original:
                raise Refused(at + 12, "Lengths")
            if captured < original:
                self.pass_cut(at + 8, captured)
            else:
                self.hand_on(captured, captured, seconds * 10**9 + fraction * unit)

    def read_pcapng(self):
        self.read_section(self.at, self.take(24))
        while not self.is_done():
            at, head = self.at, self.take(8)
            kind, total = self.number(head, 0), self.number(head, 4)
            if kind == SECTION:
                self.read_section(at, head + self.take(16))
                continue
            if total % 4 or total < LEAST.get(kind, 12):
                raise Refused(at + 4, "BlockLength")
            if kind == INTERFACE:
                interface = self.read_interface(total - 20)
            elif kind in LEAST:
                self.read_packet(kind, total - LEAST[kind])
            else:
                self.take(total - 12)
            self.read_end(total)
            if kind == INTERFACE:
                if len(self.interfaces) == 64:
                    raise Refused(self.at - 4, "TooManyInterfaces")
                self.interfaces.append(interface)

    def read_end(self, total):
        if self.number(self.take(4), 0) != total:
            raise Refused(self.at - 4, "BlockLengths")

    def read_section(self, at, head):
        if head[8:12] not in MARKS:
            raise Refused(at + 8, "OrderMark")
        self.order, self.interfaces = MARKS[head[8:12]], []
        if (self.number(head, 12, 2), self.number(head, 14, 2)) not in ((1, 0), (1, 2)):
            raise Refused(at + 12, "Version")
        total = self.number(head, 4)
        if total % 4 or total < 28:
            raise Refused(at + 4, "BlockLength")
        self.take(total - 28)
        self.read_end(total)

    def read_interface(self, left):
        head = self.take(8)
        unit, has_offset = 6, False
        while left:
            option = self.take(4)
            code, size = self.number(option, 0, 2), self.number(option, 2, 2)
            left -= 4
            if code == END:
                self.take(left)
                break
            if size + -size % 4 > left or code == RESOLUTION and size != 1:
                raise Refused(self.at - 2, "OptionLength")
            value = self.take(size + -size % 4)
            left -= len(value)
            unit, has_offset = (value[0] if code == RESOLUTION else unit), has_offset or code == OFFSET
        return Interface(self.number(head, 0, 2), self.number(head, 4), unit, has_offset)

    def read_packet(self, kind, room):
        at, head = self.at, self.take(4 if kind == SIMPLE else 20)
        index = {ENHANCED: self.number(head, 0), OBSOLETE: self.number(head, 0, 2), SIMPLE: 0}[kind]
        if index >= len(self.interfaces):
            raise Refused(at, "NoInterface")
        interface, time, place = self.interfaces[index], None, at
        if kind == SIMPLE:
            original = self.number(head, 0)
            captured = min(original, interface.most or original)
        else:
            place, captured, original = at + 12, self.number(head, 12), self.number(head, 16)
            if interface.unit <= 9 and not interface.has_offset:
                time = ((self.number(head, 4) << 32) + self.number(head, 8)) * 10 ** (9 - interface.unit)
        if captured + -captured % 4 > room:
            raise Refused(place, "Lengths")
        if interface.link_type != DBUS:
            self.others += 1
            self.take(room)
            return
        if captured > original:
            raise Refused(place, "Lengths")
        if captured < original:
            self.pass_cut(place, room)
            return
        self.hand_on(captured, room, time if time is None or time < 2**64 else None)


def read(data, passes_cut=False):
    """What a file gives."""
    reader, fault = Reader(data, passes_cut), ()
    try:
        if data[:4] == b"\n\r\r\n":
            reader.read_pcapng()
        elif data[:4] in PCAP:
            reader.read_pcap()
        else:
            reader.data = data
    except Refused as it:
        fault = it.args
    return Given(reader.data, reader.times, reader.ends, reader.last, fault, reader.cut, reader.others)


def fronts(data):
    """The bytes up to each."""
    yield from (data[:it] for it in range(len(data)))


def changed(data):
    """The bytes with each in turn changed in its least bit, in its greatest, or in all."""
    for at, byte in enumerate(data):
        yield from (data[:at] + bytes([byte ^ it]) + data[at + 1 :] for it in (1, 0x80, 0xFF))


def checked(given):
    """What `check` writes, and how it ends, if the bytes of the packets are messages of the cases, the last of which may be cut. Of others this reader does
    not know whether they are messages: None."""
    size = len(given.data)
    pieces = [given.data[it : it + MESSAGE] for it in range(0, size, MESSAGE)]
    if not all(any(whole.startswith(it) for whole in MESSAGES) for it in pieces):
        return None
    is_cut = size % MESSAGE > 0
    packet = f" in packet {given.last}" if given.last else ""
    first = f"refused at {size}: Truncated{packet}\n" if is_cut else f"ok {size // MESSAGE} messages {size} bytes\n"
    counts = (given.cut, "cut"), (given.others, "non-D-Bus")
    second = "".join(f"capture: {count} {which} packet{'s' if count > 1 else ''} passed over\n" for count, which in counts if count)
    second += "capture refused at {}: {}\n".format(*given.fault) if given.fault else ""
    return first.encode(), second.encode(), 1 if is_cut or given.cut or given.fault else 0


def is_checked(program, data):
    """Whether `check` finds in a file what the reader does."""

    def answers(words, given):
        ran, wanted = subprocess.run([program, *words], input=data, capture_output=True), checked(given)
        return (ran.stdout, ran.stderr, ran.returncode) == wanted if wanted else ran.returncode in (0, 1)

    going_on = read(data, passes_cut=True)
    # A message that the input ends within is reported otherwise then.
    is_whole = len(going_on.data) % MESSAGE == 0
    return answers(["check"], read(data)) and (not going_on.cut or not is_whole or answers(["check", "--keep-going"], going_on))


def is_run(program, words, column, status, first, second):
    """Whether a run writes and returns what its columns say."""
    ran = subprocess.run([program, *read_words(words)], input=read_parts(column, DATA), capture_output=True)
    return (ran.returncode, ran.stdout, ran.stderr) == (int(status), read_parts(first, DATA), read_parts(second, DATA))


def written(given):
    """The pcap file that `filter` writes of all whole messages of a capture, and these alone."""
    file, whole = HEADER, given.data[: len(given.data) // MESSAGE * MESSAGE]
    for at in range(0, len(whole), MESSAGE):
        time = next((time for time, end in zip(given.times, given.ends) if end >= at + MESSAGE), None)
        seconds, fraction = divmod(min(time or 0, LAST_TIME), 10**9)
        file += b"".join(it.to_bytes(4, "little") for it in (seconds, fraction, MESSAGE, MESSAGE)) + whole[at : at + MESSAGE]
    return (file if whole and given.times else whole), whole


def is_written(program, data):
    """Whether `filter` and `swap` write what they read of a file of messages of the cases, and read what they wrote alike."""
    given = read(data)
    if checked(given) is None:
        return True

    def ran(words, data):
        return subprocess.run([program, *words], input=data, capture_output=True).stdout

    file, whole = written(given)
    nothing = ran(("filter", "type=error"), data), ran(("filter", "--limit", "0", "--check-rest", ""), data)
    both = [ran(("swap", "--to", "l"), it) for it in (data, ran(("swap", "--to", "B"), data))]
    return (
        ran(("filter", ""), data) == ran(("filter", ""), file) == file
        and ran(("filter", "--raw", ""), data) == ran(("filter", "--raw", ""), file) == whole
        and nothing == (HEADER if file != whole else b"",) * 2
        and both[0] == both[1]
        and ran(("swap", "--raw", "--to", "l"), data) == read(both[0]).data
        and read(both[0]).times == read(file).times
        and read(both[0]).fault == ()
    )


def main(program=None):
    cases, wrong = read_cases(DATA / "captures.txt"), []
    asked = []
    for name, column, times, size, *fault in cases:
        data = read_parts(column, DATA)
        given = read(data)
        told = (" ".join("none" if it is None else str(it) for it in given.times), str(len(given.data)), "refused {} {}".format(*given.fault) if given.fault else "")
        if told != (times, size, *fault):
            wrong.append(f"{name}: the reader finds {told}")
        asked.append((name, data))
        if not given.fault:
            asked += [(f"a front of {name}", it) for it in fronts(data)]
        if name in CHANGED:
            asked += [(f"{name}, changed", it) for it in changed(data)]
    if program:
        with futures.ThreadPoolExecutor(os.cpu_count()) as pool:
            answers = pool.map(lambda it: is_checked(program, it[1]), asked)
            wrong += [f"{name}: {data.hex()}" for (name, data), is_right in zip(asked, answers) if not is_right]
            named = [(name, read_parts(column, DATA)) for name, column, *_ in cases]
            answers = pool.map(lambda it: is_written(program, it[1]), named)
            wrong += [f"{name} is written otherwise" for (name, _), is_right in zip(named, answers) if not is_right]
        runs = read_cases(DATA / "captured.txt")
        wrong += [f"the run {name} differs" for name, *columns in runs if not is_run(program, *columns)]
        asked += runs
    print(*wrong[:20], f"{len(cases)} captures, {len(asked) if program else 0} runs, {len(wrong)} wrong", sep="\n")
    return 1 if wrong else 0


if __name__ == "__main__":
    sys.exit(main(*sys.argv[1:]))
