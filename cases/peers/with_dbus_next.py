#!/usr/bin/env python3
"""dbus-next answers what it makes of messages."""

import io

from answer import answer_lines
from dbus_next._private.unmarshaller import Unmarshaller


def read(data):
    stream = io.BytesIO(data)
    message = Unmarshaller(stream).unmarshall()
    return message and (stream.tell(), lambda: message._marshall(True))


answer_lines(read)
