"""Traces of events, and the line of a reaction.

Stands for `Traces`, `Items` and `Lines` (crates/run_trace_io/specs/); docs/formats.md states the rules. All names
are bytes.
"""

from __future__ import annotations

from typing import Any, Literal, Optional, Sequence, Union

SPACES = b" \t\n\x0c\r"
RESET = b"!reset"

Event = list[bool]
Item = Union[Event, Literal["reset"]]
# ("implies", a, b) or ("excludes", [a, b, ..]), with places in the list of the inputs
Relation = tuple[Any, ...]


class TraceFault(Exception):
    """BadByte(at) UnknownInput(n, name) Repeated(n, name) BadReset(n) OpenInstant(n) Breaks(n, k)"""

    def __init__(self, kind: str, *data: Any) -> None:
        Exception.__init__(self, kind, *data)
        self.kind = kind
        self.data = data

    def key(self) -> tuple[Any, ...]:
        return (self.kind,) + self.data


def meets(relation: Relation, event: Sequence[bool]) -> bool:
    if relation[0] == "implies":
        return event[relation[2]] or not event[relation[1]]
    return sum(1 for place in set(relation[1]) if event[place]) <= 1


def first_broken(relations: Sequence[Relation], event: Sequence[bool]) -> Optional[int]:
    """The least number, from 1, of a relation that the event breaks."""
    for number, relation in enumerate(relations, 1):
        if not meets(relation, event):
            return number
    return None


class TraceReader:
    """Reads items one after another; a fault stays."""

    def __init__(self, text: bytes, inputs: Sequence[bytes], relations: Sequence[Relation] = ()) -> None:
        self.text = text
        self.place = {name: j for j, name in enumerate(inputs)}
        self.relations = list(relations)
        self.resets = RESET not in self.place
        self.at = 0
        self.instant = 1
        self.fault: Optional[TraceFault] = None

    def next(self) -> Optional[Item]:
        if self.fault is None:
            try:
                return self.group()
            except TraceFault as fault:
                self.fault = fault
        raise self.fault

    def group(self) -> Optional[Item]:
        text, at = self.text, self.at
        event = [False] * len(self.place)
        names = 0
        is_reset = False
        while True:
            while at < len(text) and text[at] in SPACES:
                at += 1
            if at == len(text):
                if names:
                    raise TraceFault("OpenInstant", self.instant)
                self.at = at
                return None
            byte = text[at]
            if byte == 37:  # %
                line_end = text.find(b"\n", at)
                at = len(text) if line_end < 0 else line_end
                continue
            if byte == 59:  # ;
                self.at = at + 1
                if is_reset:
                    return "reset"
                broken = first_broken(self.relations, event)
                if broken is not None:
                    raise TraceFault("Breaks", self.instant, broken)
                self.instant += 1
                return event
            if not 33 <= byte <= 126:
                raise TraceFault("BadByte", at)
            start = at
            while at < len(text) and 33 <= text[at] <= 126 and text[at] not in b";%":
                at += 1
            name = text[start:at]
            names += 1
            if self.resets and (is_reset or name == RESET and names > 1):
                raise TraceFault("BadReset", self.instant)
            if self.resets and name == RESET:
                is_reset = True
            elif name not in self.place:
                raise TraceFault("UnknownInput", self.instant, name)
            elif event[self.place[name]]:
                raise TraceFault("Repeated", self.instant, name)
            else:
                event[self.place[name]] = True


def read_trace(
    text: bytes, inputs: Sequence[bytes], relations: Sequence[Relation] = ()
) -> tuple[list[Item], Optional[TraceFault]]:
    """All items, and the first fault."""
    reader = TraceReader(text, inputs, relations)
    items: list[Item] = []
    try:
        while True:
            item = reader.next()
            if item is None:
                return items, None
            items.append(item)
    except TraceFault as fault:
        return items, fault


def reaction_line(names: Sequence[bytes], present: Sequence[bool], word: Optional[bool]) -> bytes:
    """`word` is True for paused, False for ended, and None where the text has no `_paused`."""
    shown = b" ".join(name for name, bit in zip(names, present) if bit) or b"-"
    return shown + {True: b" | paused", False: b" | ended", None: b""}[word] + b"\n"
