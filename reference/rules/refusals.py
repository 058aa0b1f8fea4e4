"""Why a source is refused.

Stands for `Refusals` (crates/est_front/specs/Refusals.antt): the first fault in the order of the passes, or a limit.
"""

from __future__ import annotations

from typing import Any


class Refusal(Exception):
    """A refusal of a source.

    kind   "Static", "Cyclic" or "Limit"
    fault  name of the fault or of the limit ("Syntax", "UnknownSignal", .., "Source", "Nesting", "Statements",
           "Signals", "Kernel", "Height", "Traps", "Instances", "Wires")
    data   BadByte, OpenComment, BigNumber: the byte place
           Syntax, Nesting: the number of the token
           Recursive: (span, [module names]); Unbound: (span, name)
           NoMain: the name (bytes); other static faults: the span (start, end)
           Cyclic: the names of the wires; other limits: None
    """

    def __init__(self, kind: str, fault: str, data: Any = None) -> None:
        Exception.__init__(self, kind, fault, data)
        self.kind = kind
        self.fault = fault
        self.data = data

    def __repr__(self) -> str:
        return "Refusal(%s, %s, %r)" % (self.kind, self.fault, self.data)


def static(fault: str, data: Any = None) -> Refusal:
    return Refusal("Static", fault, data)


def limit(name: str, data: Any = None) -> Refusal:
    return Refusal("Limit", name, data)
