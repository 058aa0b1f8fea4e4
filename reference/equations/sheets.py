"""Files of questions: what a file of worked equations asks, without the answers.

A file of questions begins with the head of the worked file, which is copied. After a line of `=` come the questions, in
blocks that an empty line ends. A block has comments, which are copied, and lines `key: value`; a key may come again.
"""

from __future__ import annotations

import codecs
from pathlib import Path

FOLDER = Path(__file__).resolve().parent.parent / "questions"
RULE = "=" * 40


def unescaped(text: str) -> bytes:
    """The bytes that a text with escapes stands for."""
    return codecs.decode(text, "unicode_escape").encode("latin-1")


def escaped(data: bytes) -> str:
    return codecs.encode(data.decode("latin-1"), "unicode_escape").decode("ascii")


class Block:
    def __init__(self, lines: list[str]) -> None:
        self.comments = [line for line in lines if line.startswith("--")]
        self.pairs: list[tuple[str, str]] = []
        for line in lines:
            if not line.startswith("--"):
                key, _, value = line.partition(": ")
                self.pairs.append((key.rstrip(":"), value))

    def all(self, key: str) -> list[str]:
        return [value for name, value in self.pairs if name == key]

    def one(self, key: str) -> str:
        values = self.all(key)
        assert len(values) == 1, (key, self.pairs)
        return values[0]

    def has(self, key: str) -> bool:
        return bool(self.all(key))


class Sheet:
    def __init__(self, crate: str, name: str) -> None:
        text = (FOLDER / crate / (name + ".txt")).read_text()
        self.head, _, rest = text.partition(RULE + "\n")
        self.blocks = [Block(part.split("\n")) for part in rest.strip("\n").split("\n\n") if part]


def names_of(crate: str) -> list[str]:
    folder = FOLDER / crate
    return sorted(path.stem for path in folder.glob("*.txt")) if folder.is_dir() else []


def crates() -> list[str]:
    return sorted(path.name for path in FOLDER.iterdir() if path.is_dir())
