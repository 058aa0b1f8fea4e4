"""Faults of names that need no walk: modules and signals declared twice, and relations.

Stands for `NameFaults` (crates/est_names/specs/).
"""

from __future__ import annotations

from typing import Any, Optional, TYPE_CHECKING

from rules.refusals import static

if TYPE_CHECKING:
    from rules.kernel import Tree


def substatements(s: Tree) -> list[Any]:
    """The statements directly in s, in the order in which they are written."""
    f = s[0]
    if f == "Await":
        return [s[3]] if s[3] is not None else []
    if f == "AwaitCase":
        return [p for _, p in s[2] if p is not None]
    if f == "Present":
        return [p for p in s[3:5] if p is not None]
    if f == "PresentCase":
        return [p for _, p in s[2] if p is not None] + ([s[3]] if s[3] is not None else [])
    if f in ("Loop", "LoopEach", "Group", "Suspend", "WeakAbort"):
        return [s[2]]
    if f in ("Every", "Signal"):
        return [s[3]]
    if f == "Repeat":
        return [s[4]]
    if f == "Abort":
        return [s[2]] + ([s[4]] if s[4] is not None else [])
    if f == "AbortCase":
        return [s[2]] + [p for _, p in s[3] if p is not None]
    if f == "Trap":
        return [s[3]] + ([s[4][1]] if s[4] is not None else [])
    if f in ("Seq", "Par"):
        return list(s[2])
    return []


class Table:
    """The module table: main is the place of the main module in the program."""

    def __init__(self, program: list[Any], main: int) -> None:
        self.program = program
        self.main = main
        self.by_name = {}
        for k, m in enumerate(program):
            self.by_name[m[1][0]] = k

    def find(self, name: str) -> Optional[int]:
        return self.by_name.get(name)


def check_modules(program: list[Any], main: Optional[bytes] = None) -> Table:
    """The modules by name, or the first fault: modules, the main module, then names by their places."""
    seen = set()
    for m in program:
        if m[1][0] in seen:
            raise static("DuplicateModule", m[1][1])
        seen.add(m[1][0])
    at = 0
    if main is not None:
        for k, m in enumerate(program):
            if m[1][0].encode() == main:
                at = k
                break
        else:
            raise static("NoMain", main)
    faults = []

    def twice(names: list[Any]) -> None:
        had = set()
        for text, span in names:
            if text in had:
                faults.append((span[0], "DuplicateSignal", span))
            had.add(text)

    for _, _, decls, body in program:
        twice([x for d in decls if d[0] != "Relation" for x in d[1]])
        given = set(x[0] for d in decls if d[0] in ("Input", "InputOutput") for x in d[1])
        for d in decls:
            if d[0] == "Relation":
                for r in d[1]:
                    for text, span in r[1:] if r[0] == "Implies" else r[1]:
                        if text not in given:
                            faults.append((span[0], "RelationName", span))
        todo = [body]
        while todo:
            s = todo.pop()
            if s[0] == "Signal":
                twice(s[2])
            todo.extend(substatements(s))
    if faults:
        _, name, span = min(faults)
        raise static(name, span)
    return Table(program, at)
