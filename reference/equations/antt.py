"""antt text: how values are printed, and how the terms of a file of questions are read.

A term is read as a tuple of its head and its arguments, a list as a list, a number as a number.
"""

from __future__ import annotations

import re
from typing import Any, Iterable, Sequence

COLUMNS = 158

# ---------------------------------------------------------------- reading

WORD = re.compile(r"\s+|\[\]|[()\[\]]|[^\s()\[\]]+")


class Reader:
    """Reads one term."""

    def __init__(self, text: str) -> None:
        self.words = [word for word in WORD.findall(text) if not word.isspace()]
        self.at = 0

    def ahead(self) -> str:
        return self.words[self.at] if self.at < len(self.words) else ""

    def cons(self) -> Any:
        first = self.application()
        if self.ahead() != "∷":
            return first
        self.at += 1
        return [first] + self.cons()

    def application(self) -> Any:
        head = self.atom()
        arguments = []
        while self.ahead() not in ("", ")", "∷"):
            arguments.append(self.atom())
        if isinstance(head, tuple) or arguments:
            return (head if isinstance(head, tuple) else (head,)) + tuple(arguments)
        return (head,) if isinstance(head, str) else head

    def atom(self) -> Any:
        word = self.ahead()
        self.at += 1
        if word == "[]":
            return []
        if word == "(":
            inside = self.cons()
            assert self.ahead() == ")", self.words
            self.at += 1
            return inside
        return int(word) if word.isdigit() else word


def alone(value: Any) -> Any:
    """The value with words that take no argument as tuples of themselves."""
    if isinstance(value, str):
        return (value,)
    if isinstance(value, tuple):
        return (value[0],) + tuple(alone(part) for part in value[1:])
    if isinstance(value, list):
        return [alone(part) for part in value]
    return value


def read_term(text: str) -> Any:
    reader = Reader(text)
    value = alone(reader.cons())
    assert reader.at == len(reader.words), text
    return value


# ---------------------------------------------------------------- printing


def literal(text: bytes | str) -> str:
    """A string in quotes, with the escapes of antt."""
    out = []
    for byte in text.encode() if isinstance(text, str) else text:
        if byte in (34, 92):
            out.append("\\" + chr(byte))
        elif 32 <= byte <= 126:
            out.append(chr(byte))
        else:
            out.append({10: "\\n", 13: "\\r", 9: "\\t"}[byte])
    return '"%s"' % "".join(out)


def codes(text: bytes | str) -> str:
    """The list of the bytes of a text; bytes that no literal has stand as numbers."""
    data = text.encode() if isinstance(text, str) else text
    pieces: list[str] = []
    for part in re.findall(rb"[\t\n\r -~]+|[^\t\n\r -~]+", data):
        if re.fullmatch(rb"[\t\n\r -~]+", part):
            pieces.append("codes %s" % literal(part))
        else:
            pieces.append("(%s)" % " ∷ ".join([str(byte) for byte in part] + ["[]"]))
    return " ++ ".join(pieces) or "[]"


def inner(text: str) -> str:
    """The text as an argument: in parentheses where it has several words."""
    if " " not in text or (text.startswith("(") and closes(text)):
        return text
    return "(%s)" % text


def closes(text: str) -> bool:
    """Whether the first parenthesis closes at the end."""
    depth = 0
    quoted = False
    at = 0
    while at < len(text):
        char = text[at]
        if quoted:
            if char == "\\":
                at += 1
            elif char == '"':
                quoted = False
        elif char == '"':
            quoted = True
        elif char == "(":
            depth += 1
        elif char == ")":
            depth -= 1
            if depth == 0:
                return at == len(text) - 1
        at += 1
    return False


def apply(head: str, *arguments: Any) -> str:
    return " ".join([head] + [inner(str(argument)) for argument in arguments])


def is_joined(text: str) -> bool:
    """Whether the text has an operator outside of parentheses and strings."""
    bare = re.sub(r'"(?:[^"\\]|\\.)*"', "", text)
    while "(" in bare:
        shorter = re.sub(r"\([^()]*\)", "", bare)
        assert shorter != bare, text
        bare = shorter
    return "∷" in bare or "++" in bare


def listed(items: Iterable[str]) -> str:
    return "".join("%s ∷ " % (inner(item) if is_joined(item) else item) for item in items) + "[]"


def term(value: Any) -> str:
    """A tree of heads and arguments, lists and numbers."""
    if isinstance(value, tuple):
        return apply(str(value[0]), *[term(part) for part in value[1:]])
    if isinstance(value, list):
        return listed(term(part) for part in value)
    return str(value)


def bits(values: Iterable[bool]) -> str:
    return "".join("1" if value else "0" for value in values)


# ---------------------------------------------------------------- layout

PIECE = re.compile(r'[^\s"]*codes "(?:[^"\\]|\\.)*"[^\s"]*|(?:[^\s"]|"(?:[^"\\]|\\.)*")+')


def wrapped(text: str, indent: str = "    ", first: str = "") -> str:
    """The text in lines of at most COLUMNS columns. Only a line of one string may be longer."""
    lines: list[str] = []
    line = ""
    for piece in PIECE.findall(text):
        if line and len(line) + 1 + len(piece) > COLUMNS:
            lines.append(line)
            line = indent + piece
        else:
            line = line + " " + piece if line else first + piece
    return "\n".join(lines + [line])


def comment(text: str) -> list[str]:
    """The text as lines of comment."""
    return wrapped("-- " + text, "-- ").split("\n")


def definition(name: str, kind: str, value: str) -> str:
    return "abbrev %s : %s\n%s\n" % (name, kind, wrapped("%s = %s" % (name, value)))


def equation(name: str, left: str, right: str, unfolding: str = "", proof: str = "refl") -> str:
    """A lemma that both sides are equal, which holds by computation."""
    text = wrapped("%s : %s ≡ %s" % (name, left, right))
    if unfolding:
        text += "\nunfolding " + unfolding
    return "%s\n%s = %s\n" % (text, name, proof)


def rows(name: str, function: str, given: Sequence[str], answers: Sequence[str], unfolding: str = "") -> str:
    """A lemma on what a function answers: to what is given, or to each of several."""
    if len(given) == 1:
        return equation(name, "%s %s" % (function, inner(given[0])), answers[0], unfolding)
    return equation(name, "map %s (%s)" % (inner(function), listed(given)), listed(answers), unfolding)


# ---------------------------------------------------------------- imports


def is_used(name: str, text: str) -> bool:
    """Whether an imported name occurs; of an operator its first sign that is no place of an argument."""
    if "◌" in name:
        return name.strip("◌").split("◌")[0] in text
    return re.search(r"(?<![\w.-])%s(?![\w-])" % re.escape(name), text) is not None


def pruned(text: str) -> str:
    """The text of a file without imports that it does not use."""
    lines = text.split("\n")
    body = "\n".join(line for line in lines if not line.startswith(("use ", "--")))
    body = re.sub(r"(?m)^ *--.*$", "", body)
    out = []
    for line in lines:
        several = re.fullmatch(r"(use [^{]*\.)\{(.*)\}", line)
        renamed = re.fullmatch(r"use \S+ as (\w+)", line)
        if several:
            names = [name for name in several[2].split(", ") if is_used(name, body)]
            if names:
                out.append("%s{%s}" % (several[1], ", ".join(names)))
        elif not renamed or renamed[1] + "." in body:
            out.append(line)
    return "\n".join(out)
