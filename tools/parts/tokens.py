"""The tokens of a source, by docs/language.md, with their places in bytes counted from 0."""
import re
from typing import NamedTuple

WORDS = frozenset(
    "abort and await case do each else emit end every exit halt handle immediate in input inputoutput loop module not"
    " nothing or output pause positive present relation repeat run signal suspend sustain then tick times trap weak when".split()
)
MARKS = ("||", "=>", ";", "[", "]", "(", ")", ",", "/", ":", "#", ".")
TOKEN = re.compile(
    r"(?P<space>[ \t\n\f\r]+|%\{.*?\}%|%(?!\{)[^\n]*)|(?P<name>[A-Za-z][A-Za-z0-9_]*)|(?P<number>[0-9]+)"
    r"|(?P<mark>\|\||=>|[;\[\](),/:#.])",
    re.DOTALL,
)


class Unread(Exception):
    """A source that this reading does not follow; the program alone says what is wrong with one."""


class Token(NamedTuple):
    """A token: `name`, `number`, or its own text for a word or a mark."""

    kind: str
    text: str
    start: int
    end: int


def tokens_of(text, skips=False):
    """All tokens of a text, and an empty one at its end. A byte that begins none ends the reading, unless it is to be skipped."""
    found, at = [], 0
    while at < len(text):
        match = TOKEN.match(text, at)
        if not match:
            if not skips:
                raise Unread("no token at byte %d" % at, at)
            at += 1
            continue
        if match.lastgroup != "space":
            word = match.group()
            kind = match.lastgroup if match.lastgroup in ("name", "number") and word not in WORDS else word
            found.append(Token(kind, word, at, match.end()))
        at = match.end()
    return found + [Token("", "", len(text), len(text))]


def readable_tokens(text):
    """The tokens of a text up to its first byte that begins none, and an empty one there."""
    try:
        return tokens_of(text)
    except Unread as unread:
        return tokens_of(text[: unread.args[1]])


def line_and_column(text, at):
    """The line and the column of a byte, both from 1."""
    return text.count("\n", 0, at) + 1, at - text.rfind("\n", 0, at)


def byte_at(text, line, column):
    """The byte at a line and a column."""
    start = 0
    for _ in range(line - 1):
        start = text.index("\n", start) + 1
    return start + column - 1


def line_at(text, line):
    """A line of a text, without what ends it."""
    lines = text.split("\n")
    return lines[line - 1].rstrip("\r") if line <= len(lines) else ""
