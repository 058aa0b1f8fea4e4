"""Expressions of the C subset and of Verilog, their tokens, and the operators of netlists as expressions.

Stands for `Lexemes`, `Grammar`, `Names`, `Values`, `NetNames` and `Operators` (crates/net_expressions/specs/).
"""

from __future__ import annotations

import re
from typing import NoReturn, Any, Iterator, Optional, TYPE_CHECKING

from rules.text_faults import TextFault

if TYPE_CHECKING:
    from rules.kernel import Tree


NESTING = 200


SPACES = b" \t\n\x0c\r"


def cut(text: bytes, pattern: re.Pattern[Any], words: set[bytes], star_comments: bool) -> list[Any]:
    """Tokens as (kind, bytes, place); kind is 'name', 'bad', 'end' or the quoted word or mark."""
    tokens = []
    at = 0
    end = len(text)
    while at < end:
        byte = text[at]
        if byte in SPACES:
            at += 1
            continue
        if star_comments and text.startswith(b"/*", at):
            close = text.find(b"*/", at + 2)
            if close >= 0:
                at = close + 2
                continue
            tokens.append(("bad", b"", at))
            break  # the fault is here or before
        if not star_comments and text.startswith(b"//", at):
            close = text.find(b"\n", at)
            at = end if close < 0 else close
            continue
        match = pattern.match(text, at)
        if not match:
            tokens.append(("bad", text[at : at + 1], at))
            break
        word = match.group()
        if word[:1].isalpha() or word[:1] == b"_":
            kind = word.decode() if word in words else "name"
        else:
            kind = word.decode()
        tokens.append((kind, word, at))
        at = match.end()
    else:
        tokens.append(("end", b"", end))
    return tokens


class Parser:
    """Left to right with one token ahead; a token that cannot stand is the Syntax fault."""

    def __init__(self, tokens: list[Any], not_mark: str) -> None:
        self.tokens = tokens
        self.at = 0
        self.not_mark = not_mark

    def kind(self) -> str:
        return self.tokens[self.at][0]

    def fault(self) -> NoReturn:
        raise TextFault("Syntax", self.tokens[self.at][2])

    def take(self, kind: str) -> bytes:
        if self.tokens[self.at][0] != kind:
            self.fault()
        self.at += 1
        return self.tokens[self.at - 1][1]

    def take_all(self, *kinds: str) -> None:
        for kind in kinds:
            self.take(kind)

    def bit(self) -> Any:
        kind = self.kind()
        if kind in ("0", "1'b0"):
            self.at += 1
            return ("const", False)
        if kind in ("1", "1'b1"):
            self.at += 1
            return ("const", True)
        self.fault()

    def expr(self, depth: int = 0) -> Tree:
        parts = [self.conj(depth)]
        while self.kind() == "|":
            self.at += 1
            parts.append(self.conj(depth))
        return parts[0] if len(parts) == 1 else ("or", parts)

    def conj(self, depth: int) -> Tree:
        parts = [self.neg(depth)]
        while self.kind() == "&":
            self.at += 1
            parts.append(self.neg(depth))
        return parts[0] if len(parts) == 1 else ("and", parts)

    def neg(self, depth: int) -> Tree:
        kind = self.kind()
        if kind == "name":
            return ("name", self.take("name"))
        if kind in (self.not_mark, "(") and depth < NESTING:
            self.at += 1
            if kind == "(":
                inner = self.expr(depth + 1)
                self.take(")")
                return inner
            return ("not", self.neg(depth + 1))
        return self.bit()


def names_in(expr: Tree) -> Iterator[Any]:
    """The names of an expression in the order of the text."""
    if expr[0] == "name":
        yield expr[1]
    elif expr[0] == "not":
        yield from names_in(expr[1])
    elif expr[0] in ("and", "or"):
        for part in expr[1]:
            yield from names_in(part)


def value_of(expr: Tree, values: dict[bytes, bool]) -> bool:
    kind = expr[0]
    if kind == "name":
        return values[expr[1]]
    if kind == "const":
        return expr[1]
    if kind == "not":
        return not value_of(expr[1], values)
    if kind == "and":
        return all([value_of(part, values) for part in expr[1]])
    return any([value_of(part, values) for part in expr[1]])


class NotWritten(Exception):
    """The text is no text of the written form."""


def net_number(table: dict[bytes, int], name: bytes) -> int:
    if name not in table:
        raise NotWritten("no earlier net %r" % name)
    return table[name]


def gate_label(name: bytes, prefix: bytes, k: int) -> Optional[int]:
    """The carried wire, or None, of the name of gate k."""
    if name == prefix + b"g%d" % k:
        return None
    digits = name[len(prefix) + 1 :]
    if name.startswith(prefix + b"w") and digits.isdigit() and (digits == b"0" or digits[:1] != b"0"):
        return int(digits)
    raise NotWritten("gate %d is called %r" % (k, name))


def op_of(expr: Tree, table: dict[bytes, int]) -> Tree:
    kind = expr[0]
    if kind == "const":
        return ("const", expr[1])
    if kind == "name":
        return ("copy", net_number(table, expr[1]))
    if kind == "not" and expr[1][0] == "name":
        return ("not", net_number(table, expr[1][1]))
    if kind in ("and", "or") and len(expr[1]) == 2 and all(p[0] == "name" for p in expr[1]):
        return (kind,) + tuple(net_number(table, p[1]) for p in expr[1])
    raise NotWritten("no expression of a gate: %r" % (expr,))
