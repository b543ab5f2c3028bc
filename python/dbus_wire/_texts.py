"""Texts: strings, object paths, names and signatures."""

from __future__ import annotations

import enum
from ctypes import byref
from dataclasses import dataclass

from ._library import OK, Bytes, TextChecked, as_bytes, library


class TextKind(enum.IntEnum):
    """The kinds of text. A name or a signature has at most 255 bytes."""

    STRING = 1
    OBJECT_PATH = 2
    INTERFACE = 3
    MEMBER = 4
    ERROR_NAME = 5
    BUS_NAME = 6
    SIGNATURE = 7
    SINGLE_TYPE = 8


@dataclass(frozen=True)
class TextFault:
    """Why a text is not of a kind."""

    at: int | None
    """Where it breaks: how long its longest prefix is with which some text of the kind begins, in
    bytes of UTF-8. None if it is too long, which comes first."""


def check_text(kind: TextKind, text: str | Bytes) -> TextFault | None:
    """None if the text is of the kind; otherwise why not. A `str` is checked as its UTF-8. Raises
    ValueError if there is no such kind."""
    data = text.encode("utf-8", "surrogatepass") if isinstance(text, str) else as_bytes(text)
    told = TextChecked()
    if library.dbus_wire_text_check(TextKind(kind), data, len(data), byref(told)) == OK:
        return None
    return TextFault(None if told.is_too_long else told.offset)
