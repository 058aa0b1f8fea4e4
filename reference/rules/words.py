"""The words of a command line: which command they ask for, with which options and files.

Stands for `Commands`, `Readings` and `HelpTexts` (crates/cec_words/specs/, crates/cec_commands/specs/HelpTexts.antt);
docs/formats.md states the rules. Words are bytes. An option is given once, as `--name value` or `--name=value`; a value
after a space is not empty and does not begin with `-`.
"""

from __future__ import annotations

import re
from typing import Optional, Sequence, Union

Pick = Union[str, int]

COMMANDS = ("blif", "c", "verilog", "grc", "check", "run", "exec", "gen")
OPTIONS = {
    "blif": ("main", "pick"),
    "c": ("main", "pick"),
    "verilog": ("main", "pick"),
    "grc": ("main",),
    "check": ("main",),
    "run": ("via", "main", "pick"),
    "exec": ("via",),
    "gen": ("start", "branches", "run"),
}
FLAGS = {"blif": ("encode",), "run": ("encode",), "c": ("guard",)}
REQUIRED = {"run": ("via",), "exec": ("via",), "gen": ("start", "branches")}
FILES = {"blif": 1, "c": 1, "verilog": 1, "grc": 1, "check": 1, "run": 2, "exec": 2, "gen": 0}
EXEC_VIAS = ("blif", "c", "guard", "verilog")
RUN_VIAS = EXEC_VIAS + ("tri",)


class Asked:
    """What a command line asks for; `pick` is "first", "last" or a number."""

    def __init__(self, command: str) -> None:
        self.command = command
        self.files: list[bytes] = []
        self.main: Optional[bytes] = None
        self.pick: Pick = "first"
        self.via: str = ""
        self.encode = False
        self.guard = False
        self.start = 0
        self.branches = 0
        self.run: Optional[int] = None


def vias_of(command: str) -> tuple[str, ...]:
    return RUN_VIAS if command == "run" else EXEC_VIAS


def number(value: bytes) -> Optional[int]:
    """The value of decimal digits below 2^64."""
    if not re.fullmatch(rb"[0-9]+", value):
        return None
    value = value.lstrip(b"0") or b"0"
    if len(value) > 20 or int(value) >= 1 << 64:
        return None
    return int(value)


def set_option(asked: Asked, name: str, value: bytes) -> bool:
    """Sets an option, and says whether the value is one that the option takes."""
    if name == "main":
        asked.main = value
        return True
    if name == "via":
        asked.via = value.decode("latin-1")
        return asked.via in vias_of(asked.command)
    if name == "pick" and value in (b"first", b"last"):
        asked.pick = value.decode()
        return True
    n = number(value)
    if n is None:
        return False
    setattr(asked, name, n)
    if name == "branches":
        return 1 <= n <= 400
    if name == "run":
        return n <= 100000
    return True


def complete(asked: Asked, given: Sequence[str]) -> Optional[Asked]:
    """The command, where all that it needs is given and nothing that it forbids."""
    command = asked.command
    if len(asked.files) != FILES[command]:
        return None
    for name in REQUIRED.get(command, ()):
        if name not in given:
            return None
    if command == "run":
        if asked.encode and asked.via != "blif":
            return None
        if asked.via == "tri" and "pick" in given:
            return None
    return asked


def read_words(words: Sequence[bytes]) -> Optional[Asked]:
    """What the words ask for, or None where they are no command line."""
    if not words:
        return None
    if words[0] == b"--help":
        return Asked("help") if len(words) == 1 else None
    command = words[0].decode("latin-1")
    if command not in COMMANDS:
        return None
    options = OPTIONS[command]
    flags = FLAGS.get(command, ())
    asked = Asked(command)
    given: list[str] = []
    at = 1
    while at < len(words):
        word = words[at]
        at += 1
        if word[:1] not in (b"-", b""):
            asked.files.append(word)
            continue
        if word[:2] != b"--":
            return None
        option, equals, value = word[2:].partition(b"=")
        name = option.decode("latin-1")
        if not equals and name in flags:
            if name in given:
                return None
            given.append(name)
            setattr(asked, name, True)
            continue
        if name not in options or name in given:
            return None
        if equals:
            if not value:
                return None
        else:
            if at == len(words) or words[at][:1] in (b"-", b""):
                return None
            value = words[at]
            at += 1
        given.append(name)
        if not set_option(asked, name, value):
            return None
    return complete(asked, given)


def help_text() -> bytes:
    lines = [
        "cec blif [--main M] [--pick P] [--encode] FILE",
        "cec c [--main M] [--pick P] [--guard] FILE",
        "cec verilog [--main M] [--pick P] FILE",
        "cec grc [--main M] FILE",
        "cec check [--main M] FILE",
        "cec run --via %s [--main M] [--pick P] [--encode] FILE TRACE" % "|".join(RUN_VIAS),
        "cec exec --via %s TEXT TRACE" % "|".join(EXEC_VIAS),
        "cec gen --start N --branches N [--run N]",
    ]
    return "".join(line + "\n" for line in lines).encode()
