#!/usr/bin/env python3
"""jeepney answers what it makes of messages."""

from answer import answer_lines
from jeepney.low_level import Parser


def read(data):
    parser = Parser()
    parser.add_data(data)
    message = parser.get_next_message()
    return message and (len(data) - parser.buf.bytes_buffered, message.serialise)


answer_lines(read)
