"""How a command ends: its status, and the line on standard error.

Stands for `Outcomes` and `Lines` (crates/cec_commands/specs/); docs/formats.md has the table of statuses.
"""

from __future__ import annotations

from typing import Any, Sequence

from rules.lexer import lex
from rules.refusals import Refusal
from rules.text_faults import TextFault
from rules.traces import TraceFault

STATUS = {
    "Done": 0,
    "Usage": 2,
    "FileFault": 3,
    "Static": 4,
    "Cyclic": 5,
    "Trace": 6,
    "BadText": 7,
    "Limit": 8,
    "WriteFault": 9,
    "NoMemory": 10,
    "NotConstructive": 12,
}

USAGE = b"usage, see cec --help"

STATIC_TEXT = {
    "BadByte": "bad byte",
    "OpenComment": "open comment",
    "BigNumber": "number too large",
    "Syntax": "syntax",
    "DuplicateModule": "module declared twice",
    "DuplicateSignal": "signal declared twice",
    "RelationName": "not an input",
    "UnknownModule": "unknown module",
    "UnknownSignal": "unknown signal",
    "UnknownTrap": "unknown trap",
    "BadRename": "bad renaming",
    "EmitInput": "input emitted",
    "BadCount": "bad count",
    "InstantLoop": "instantaneous loop",
}


class Outcome(Exception):
    """`kind` is a key of STATUS; `line` is the text after `cec: `; `data` is for comparisons."""

    def __init__(self, kind: str, line: bytes = b"", data: Any = None) -> None:
        Exception.__init__(self, kind, line)
        self.kind = kind
        self.line = line
        self.data = data

    def status(self) -> int:
        return STATUS[self.kind]


class Result:
    """What a call of the program answers."""

    def __init__(self, outcome: Outcome, out: bytes, err: bytes) -> None:
        self.outcome = outcome
        self.status = outcome.status()
        self.out = out
        self.err = err


def as_bytes(name: str | bytes) -> bytes:
    return name if isinstance(name, bytes) else name.encode()


def line_column(source: bytes, place: int) -> bytes:
    """The line is 1 plus the line feeds before the place, the column 1 plus the bytes since the last one."""
    before = source[:place]
    return b"%d:%d" % (1 + before.count(b"\n"), place - before.rfind(b"\n"))


def place_of(refusal: Refusal, source: bytes) -> int:
    """The byte at which a static fault begins."""
    fault, data = refusal.fault, refusal.data
    if fault in ("BadByte", "OpenComment", "BigNumber"):
        return data
    if fault == "Syntax":
        tokens = lex(source)
        return tokens[data][2] if data < len(tokens) else len(source)
    if fault in ("Recursive", "Unbound"):
        return data[0][0]
    return data[0]


def static_line(source: bytes, fault: str, place: int, names: Sequence[bytes] = ()) -> bytes:
    head = line_column(source, place) + b": "
    if fault == "Recursive":
        return head + b"recursive run" + b"".join(b" " + name for name in names)
    if fault == "Unbound":
        return head + b"unbound " + names[0]
    return head + STATIC_TEXT[fault].encode()


def refusal_outcome(refusal: Refusal, source: bytes) -> Outcome:
    fault, data = refusal.fault, refusal.data
    if refusal.kind == "Limit":
        return Outcome("Limit", b"limit: " + fault.lower().encode(), fault)
    if fault == "NoMain":
        return Outcome("Static", b"no module " + as_bytes(data), (fault,))
    names: list[bytes] = []
    if fault == "Recursive":
        names = [as_bytes(name) for name in data[1]]
    elif fault == "Unbound":
        names = [as_bytes(data[1])]
    return Outcome("Static", static_line(source, fault, place_of(refusal, source), names), (fault, data))


def trace_line(fault: TraceFault) -> bytes:
    kind, data = fault.kind, fault.data
    if kind == "BadByte":
        return b"byte %d: bad byte" % data[0]
    head = b"instant %d: " % data[0]
    if kind == "UnknownInput":
        return head + b"unknown input " + data[1]
    if kind == "Repeated":
        return head + b"repeated " + data[1]
    if kind == "BadReset":
        return head + b"bad reset"
    if kind == "OpenInstant":
        return head + b"open"
    return head + b"breaks relation %d" % data[1]


def text_line(fault: TextFault) -> bytes:
    kind, data = fault.kind, fault.data
    if kind == "Line":
        return b"line %d: not in the profile" % data
    if kind == "Syntax":
        return b"byte %d: syntax" % data
    if kind == "Loop":
        return b"loop: " + b" -> ".join(data)
    word = {
        "TwoDrivers": b"two drivers",
        "NoDriver": b"no driver",
        "Twice": b"declared twice",
        "Undeclared": b"undeclared",
        "Unset": b"unset",
        "Again": b"assigned twice",
        "Port": b"bad port",
    }[kind]
    return word + b": " + data


def err_line(text: bytes) -> bytes:
    return b"cec: " + text + b"\n"
