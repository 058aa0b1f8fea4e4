"""Completion codes that a statement may have, whatever the statuses are, and loops that are instantaneous.

Stands for `StaticCodes` (crates/est_kernel/specs/) and `Faults` (crates/est_codes/specs/). The codes are those of
Berry, "The Constructive Semantics of Pure Esterel".
"""

from __future__ import annotations

from typing import Any, TYPE_CHECKING

from rules.kernel import NONE, parts

if TYPE_CHECKING:
    from rules.kernel import Tree


def trap_code(k: int) -> int:
    """The trap rule on one code."""
    return 0 if k in (0, 2) else 1 if k == 1 else k - 1


def trap_codes(codes: frozenset[int]) -> frozenset[int]:
    return frozenset(trap_code(k) for k in codes)


def max_codes(a: frozenset[int], b: frozenset[int]) -> frozenset[int]:
    """All maxima of a pair; empty if either is empty."""
    return frozenset(max(x, y) for x in a for y in b)


class InstantLoop(Exception):
    def __init__(self, span: Any) -> None:
        Exception.__init__(self, span)
        self.span = span


def static_codes(body: Tree) -> tuple[Any, ...]:
    """The codes of each statement by preorder number, started and resumed, and the places of the loops whose body has 0
    in its started codes."""
    ks: list[Any] = []
    kd: list[Any] = []
    bad = []

    def go(t: Tree) -> tuple[Any, ...]:
        at = len(ks)
        ks.append(None)
        kd.append(None)
        f = t[0]
        sub = [go(x) for x in parts(t)]
        if f in ("Nothing", "Emit"):
            s, d = frozenset([0]), NONE
        elif f == "Pause":
            s, d = frozenset([1]), frozenset([0])
        elif f == "Exit":
            s, d = frozenset([t[1]]), NONE
        elif f == "Present":
            (a, b), (c, e) = sub
            s, d = a | c, b | e
        elif f == "Suspend":
            ((a, b),) = sub
            s, d = a, (b | {1} if b else b)
        elif f == "Seq":
            (a, b), (c, e) = sub
            s = a if 0 not in a else (a - {0}) | c
            d = b - {0}
            if 0 in b:
                d = d | c
            if 0 in a or 0 in b:
                d = d | e
        elif f == "Loop":
            ((a, b),) = sub
            if 0 in a:
                bad.append(t[1])
            s = a - {0}
            d = b - {0}
            if 0 in b:
                d = d | (a - {0})
        elif f == "Par":
            (a, b), (c, e) = sub
            s = max_codes(a, c)
            if not b and not e:
                d = NONE
            else:
                r = b | {0} if (0 in a or 0 in b) else b
                q = e | {0} if (0 in c or 0 in e) else e
                d = max_codes(r, q)
        elif f == "Trap":
            ((a, b),) = sub
            s, d = trap_codes(a), trap_codes(b)
        else:
            ((a, b),) = sub
            s, d = a, b
        ks[at], kd[at] = s, d
        return s, d

    go(body)
    return ks, kd, bad


def codes(body: Tree) -> tuple[Any, ...]:
    """The codes of each statement by preorder number, started and resumed; InstantLoop has the least place of a loop
    that is instantaneous.
    """
    ks, kd, bad = static_codes(body)
    if bad:
        raise InstantLoop(min(bad))
    return ks, kd
