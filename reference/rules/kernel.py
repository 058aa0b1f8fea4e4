"""Kernel terms: their parts, sizes and heights.

Stands for `Terms`, `Sizes` and `Preorder` (crates/est_kernel/specs/). A term is a tuple: ("Nothing",) ("Pause",)
("Emit", s) ("Exit", k) ("Present", e, p, q) ("Suspend", e, p) ("Seq", p, q) ("Loop", span, p) ("Par", p, q)
("Trap", p) ("Local", s, p), and what a step leaves also ("Awake", e, p). A test is ("Tick",) ("Sig", s) ("Not", e)
("And", a, b) or ("Or", a, b).
"""

from __future__ import annotations

from typing import Any


Tree = tuple[Any, ...]

NOTHING = ("Nothing",)


NONE: frozenset[int] = frozenset()


def parts(t: Tree) -> tuple[Any, ...]:
    """The statements directly in a kernel statement, in the order of its children."""
    f = t[0]
    if f in ("Present", "Par", "Seq"):
        return t[-2:]
    if f in ("Suspend", "Loop", "Trap", "Local", "Awake"):
        return t[-1:]
    return ()


def test_size(e: Tree) -> int:
    """Number of nodes of a test."""
    if e[0] in ("Tick", "Sig"):
        return 1
    return 1 + sum(test_size(x) for x in e[1:])


def test_height(e: Tree) -> int:
    if e[0] in ("Tick", "Sig"):
        return 1
    return 1 + max(test_height(x) for x in e[1:])


def test_signals(e: Tree) -> list[int]:
    """The signals of a test, each once, in the order of first sight."""
    out = []
    todo = [e]
    while todo:
        x = todo.pop()
        if x[0] == "Sig":
            if x[1] not in out:
                out.append(x[1])
        elif x[0] != "Tick":
            todo.extend(reversed(x[1:]))
    return out


def size(body: Tree) -> int:
    """01: statement nodes plus test nodes."""
    n, todo = 0, [body]
    while todo:
        t = todo.pop()
        n += 1
        if t[0] in ("Present", "Suspend"):
            n += test_size(t[1])
        todo.extend(parts(t))
    return n


def height(body: Tree) -> int:
    """01: nodes on the longest way down, tests included."""
    best, todo = 0, [(body, 1)]
    while todo:
        t, d = todo.pop()
        best = max(best, d)
        if t[0] in ("Present", "Suspend"):
            best = max(best, d + test_height(t[1]))
        todo.extend((x, d + 1) for x in parts(t))
    return best
