"""Characters: how text from a program, a path or a log is made safe for a form.

A name may hold any character. Those that a terminal or a page would obey, that XML 1.0 forbids, or that turn the
direction of what stands beside them are written visibly, as ``\\x1b`` or ``\\u202e``, before anything else is done.
"""

from __future__ import annotations

import re
import unicodedata
from typing import List
from xml.sax import saxutils

_UNSAFE = re.compile(
    "[\x00-\x1f\x7f-\x9f\u061c\u200b-\u200f\u2028-\u202e\u2060-\u206f\ufeff\ufff9-\ufffb\ufffe\uffff\ud800-\udfff]"
)
CUT = ".."


def _escape(found: re.Match[str]) -> str:
    code = ord(found[0])
    return f"\\x{code:02x}" if code < 0x100 else f"\\u{code:04x}"


def visible(text: str) -> str:
    """Returns the text on one line, with each character that is obeyed rather than shown as an escape."""
    return _UNSAFE.sub(_escape, text)


def xml(text: str) -> str:
    """Returns the text for XML and HTML, for an element or an attribute in double quotes."""
    return saxutils.escape(visible(text), {'"': "&quot;", "'": "&#39;"})


def columns_of(text: str) -> int:
    """Returns how many columns the text takes where each letter has one width."""
    return sum(map(_columns_of_character, text))


def _columns_of_character(character: str) -> int:
    if unicodedata.combining(character):
        return 0
    return 2 if unicodedata.east_asian_width(character) in "WF" else 1


def shortened(text: str, room: int) -> str:
    """Returns the text in at most this many columns (3 at least), cut in its middle: the end of a name has the method."""
    if columns_of(text) <= room:
        return text
    ahead = (room - len(CUT)) // 3
    start, end = _start_of(text, ahead), _end_of(text, room - len(CUT) - ahead)
    return f"{start}{CUT}{end}"


def _start_of(text: str, room: int) -> str:
    taken = 0
    for place, character in enumerate(text):
        taken += _columns_of_character(character)
        if taken > room:
            return text[:place]
    return text


def _end_of(text: str, room: int) -> str:
    return _start_of(text[::-1], room)[::-1]


def shortened_at_end(text: str, room: int) -> str:
    """Returns the text in at most this many columns (3 at least), cut at its end: a line of source begins with what it does."""
    if columns_of(text) <= room:
        return text
    return _start_of(text, room - len(CUT)) + CUT


def wrapped(text: str, room: int) -> List[str]:
    """Returns the text in lines of at most this many columns (2 at least), broken at blanks where it can be."""
    lines: List[str] = []
    for word in text.split():
        if lines and columns_of(f"{lines[-1]} {word}") <= room:
            lines[-1] += f" {word}"
        else:
            lines += _pieces(word, room)
    return lines


def _pieces(word: str, room: int) -> List[str]:
    pieces = []
    while word:
        pieces.append(_start_of(word, room))
        word = word[len(pieces[-1]) :]
    return pieces
