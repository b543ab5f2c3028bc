"""What is asked of the program `case_engines` on what cuts and reads streams, match rules, addresses, the handshake, runs of
dbus-wire, and all of these over devices that fail; and hostile inputs."""

from devices import ask_copies, ask_device, ask_failing, ask_passing, ask_pieces, ask_reader
from growths import ask_made
from handshakes import ask_cuts, ask_dialogue, ask_handshake, ask_watch, asker_of_lines
from read_cases import read_bytes
from runs import ORDERS, ask_addresses, ask_match, ask_printed, ask_rule, ask_stream, ask_tool
from streams import ask_message

COMMANDS = ("show", "json", "list", "check", "count", "calls", "swap", "filter", "encode")


def asker_of_messages(decides=False):
    """Of files in which the last byte of what is refused decides that, or may not."""

    def ask_both(case, _):
        _, limits, little, big, answer = case
        for order, data in zip(ORDERS, map(read_bytes, (little, big))):
            if data:
                yield from ask_message(data, limits, answer, len(data) if decides else None, f" in {order} endian")

    return ask_both


def ask_listed(case, folder):
    """A case of a handshake that is listed."""
    yield from ask_tool(case, folder)
    yield from ask_passing(case, folder)


FILES = {
    "messages.txt": asker_of_messages(),
    "faults.txt": asker_of_messages(decides=True),
    "limits.txt": asker_of_messages(),
    "descriptors.txt": asker_of_messages(),
    "streams.txt": ask_stream,
    "printed.txt": ask_printed,
    "rules.txt": ask_rule,
    "matches.txt": ask_match,
    "addresses.txt": ask_addresses,
    "client_lines.txt": asker_of_lines("client"),
    "server_lines.txt": asker_of_lines("server"),
    "cut_lines.txt": ask_cuts,
    "dialogues.txt": ask_dialogue,
    "handshakes.txt": ask_handshake,
    "watched.txt": ask_watch,
    "growths_of_lines.txt": ask_made,
    **{f"{command}.txt": ask_tool for command in ("words", *COMMANDS, "explained")},
    "handshake.txt": ask_listed,
    "readers.txt": ask_reader,
    "pieces.txt": ask_pieces,
    "devices.txt": ask_device,
    "failing.txt": ask_failing,
    "copies.txt": ask_copies,
    "hostile.txt": ask_made,
}
