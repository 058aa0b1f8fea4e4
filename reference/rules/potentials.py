"""What a term must do and what it can do: Must, Can of a term that runs, and Can of a term that may run.

Stands for `Statuses` and `Potentials` (crates/est_kernel/specs/), after Berry, "The Constructive Semantics of Pure
Esterel". An environment is a dict from signals to True, False or None (unknown). The body of a local signal is
walked several times, so use these on small terms.
"""

from __future__ import annotations

from typing import Any, Optional, TYPE_CHECKING

from rules.codes import max_codes, trap_codes
from rules.kernel import NONE

if TYPE_CHECKING:
    from rules.kernel import Tree


def union(a: tuple[Any, ...], b: tuple[Any, ...]) -> tuple[Any, ...]:
    return (a[0] | b[0], a[1] | b[1])


def kleene(e: Tree, env: Any) -> Optional[bool]:
    """The value of a test in E: True, False or None (unknown)."""
    f = e[0]
    if f == "Tick":
        return True
    if f == "Sig":
        return env[e[1]]
    if f == "Not":
        v = kleene(e[1], env)
        return None if v is None else not v
    a, b = kleene(e[1], env), kleene(e[2], env)
    if f == "And":
        if a is False or b is False:
            return False
        return True if a and b else None
    if a or b:
        return True
    return False if a is False and b is False else None


def star(env: Any, s: int, v: Optional[bool]) -> dict[Any, Any]:
    """E*s+, E*s-, E*s?"""
    new = dict(env)
    new[s] = v
    return new


EMPTY = (NONE, NONE)


def local_env(s: int, p: Tree, env: Any) -> dict[int, Optional[bool]]:
    """The environment in which the body of a local signal is walked."""
    unknown = star(env, s, None)
    if s in must(p, unknown)[0]:
        return star(env, s, True)
    if s not in can(True, p, unknown)[0]:
        return star(env, s, False)
    return unknown


def must(t: Tree, env: Any) -> tuple[Any, ...]:
    """Must: (set of signals, set of codes)."""
    f = t[0]
    if f == "Nothing":
        return (NONE, frozenset([0]))
    if f == "Pause":
        return (NONE, frozenset([1]))
    if f == "Exit":
        return (NONE, frozenset([t[1]]))
    if f == "Emit":
        return (frozenset([t[1]]), frozenset([0]))
    if f == "Present":
        v = kleene(t[1], env)
        return must(t[2], env) if v is True else must(t[3], env) if v is False else EMPTY
    if f == "Suspend":
        return must(t[2], env)
    if f == "Loop":
        return must(t[2], env)
    if f == "Awake":
        v = kleene(t[1], env)
        if v is True:
            return (NONE, frozenset([1]))
        return must(t[2], env) if v is False else EMPTY
    if f == "Seq":
        a = must(t[1], env)
        if 0 not in a[1]:
            return a
        b = must(t[2], env)
        return (a[0] | b[0], b[1])
    if f == "Par":
        a, b = must(t[1], env), must(t[2], env)
        return (a[0] | b[0], max_codes(a[1], b[1]))
    if f == "Trap":
        a = must(t[1], env)
        return (a[0], trap_codes(a[1]))
    if f == "Local":
        a = must(t[2], local_env(t[1], t[2], env))
        return (a[0] - {t[1]}, a[1])
    raise AssertionError(f)


def can(plus: bool, t: Tree, env: Any) -> tuple[Any, ...]:
    """Can of a term that runs, where `plus`, or of one that may run."""
    f = t[0]
    if f in ("Nothing", "Pause", "Exit", "Emit"):
        return must(t, env)
    if f == "Present":
        v = kleene(t[1], env)
        if v is True:
            return can(plus, t[2], env)
        if v is False:
            return can(plus, t[3], env)
        return union(can(False, t[2], env), can(False, t[3], env))
    if f in ("Suspend", "Loop"):
        return can(plus, t[2], env)
    if f == "Awake":
        v = kleene(t[1], env)
        if v is True:
            return (NONE, frozenset([1]))
        if v is False:
            return can(plus, t[2], env)
        a = can(False, t[2], env)
        return (a[0], a[1] | {1})
    if f == "Seq":
        a = can(plus, t[1], env)
        if 0 not in a[1]:
            return a
        b = can(plus and 0 in must(t[1], env)[1], t[2], env)
        return (a[0] | b[0], (a[1] - {0}) | b[1])
    if f == "Par":
        a, b = can(plus, t[1], env), can(plus, t[2], env)
        return (a[0] | b[0], max_codes(a[1], b[1]))
    if f == "Trap":
        a = can(plus, t[1], env)
        return (a[0], trap_codes(a[1]))
    if f == "Local":
        s, p = t[1], t[2]
        if plus:
            a = can(True, p, local_env(s, p, env))
        else:
            unknown = star(env, s, None)
            if s not in can(False, p, unknown)[0]:
                a = can(False, p, star(env, s, False))
            else:
                a = can(False, p, unknown)
        return (a[0] - {s}, a[1])
    raise AssertionError(f)


def can_plus(t: Any, env: Any) -> Any:
    return can(True, t, env)


def can_unknown(t: Any, env: Any) -> Any:
    return can(False, t, env)
