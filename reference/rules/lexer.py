"""Tokens of a source: words, marks, names and numbers, each with its bytes.

Stands for `Lexemes` and `Lexing` (crates/est_ast/specs/). A token is (kind, value, start, end), with the kind
"word", "mark", "ident" or "num".
"""

from __future__ import annotations

from typing import Any

from rules.refusals import static


U128 = (1 << 128) - 1


WORDS = frozenset(
    """abort and await case do each else emit end every exit halt
handle immediate in input inputoutput loop module not nothing or output pause
positive present relation repeat run signal suspend sustain then tick times trap
weak when""".split()
)


SPACES = frozenset((32, 9, 10, 12, 13))


LETTERS = frozenset(b"abcdefghijklmnopqrstuvwxyzABCDEFGHIJKLMNOPQRSTUVWXYZ")


DIGITS = frozenset(b"0123456789")


NAMEBYTES = LETTERS | DIGITS | frozenset(b"_")


ONE_MARKS = frozenset(b";[](),/:#.")


def lex(text: bytes) -> list[Any]:
    """The tokens of a text, or its first fault."""
    out: list[Any] = []
    i, n = 0, len(text)
    while i < n:
        b = text[i]
        if b in SPACES:
            i += 1
        elif b == 0x25:  # %
            if text[i + 1 : i + 2] == b"{":  # %{ always opens the second kind
                j = text.find(b"}%", i + 2)
                if j < 0:
                    raise static("OpenComment", i)
                i = j + 2
            else:
                j = text.find(b"\n", i)
                i = n if j < 0 else j
        elif b in LETTERS:
            j = i + 1
            while j < n and text[j] in NAMEBYTES:
                j += 1
            word = text[i:j].decode("ascii")
            out.append(("word" if word in WORDS else "ident", word, i, j))
            i = j
        elif b in DIGITS:
            j = i + 1
            while j < n and text[j] in DIGITS:
                j += 1
            digits = text[i:j].lstrip(b"0") or b"0"
            if len(digits) > 39 or int(digits) > U128:
                raise static("BigNumber", i)
            out.append(("num", int(digits), i, j))
            i = j
        elif text[i : i + 2] in (b"||", b"=>"):
            out.append(("mark", text[i : i + 2].decode(), i, i + 2))
            i += 2
        elif b in ONE_MARKS:
            out.append(("mark", chr(b), i, i + 1))
            i += 1
        else:
            raise static("BadByte", i)
    return out
