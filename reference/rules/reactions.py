"""The constructive step, a reaction to an event, and runs.

Stands for `Steps` and `Reactions` (crates/est_kernel/specs/), after Berry, "The Constructive Semantics of Pure
Esterel".
"""

from __future__ import annotations

from typing import Any, TYPE_CHECKING

from rules.codes import trap_code
from rules.kernel import NONE, NOTHING
from rules.potentials import can, kleene, must, star

if TYPE_CHECKING:
    from rules.dismantling import KernelProgram
    from rules.kernel import Tree


def step(t: Tree, env: Any) -> Any:
    """The constructive step: (emitted signals, code, residual), or None."""
    f = t[0]
    if f == "Nothing":
        return (NONE, 0, NOTHING)
    if f == "Pause":
        return (NONE, 1, NOTHING)
    if f == "Exit":
        return (NONE, t[1], NOTHING)
    if f == "Emit":
        return (frozenset([t[1]]), 0, NOTHING)
    if f == "Present":
        v = kleene(t[1], env)
        assert v is not None
        return step(t[2] if v else t[3], env)
    if f == "Awake" and kleene(t[1], env):
        return (NONE, 1, t)
    if f in ("Suspend", "Awake"):
        a = step(t[2], env)
        if a is None:
            return None
        return (a[0], a[1], ("Awake", t[1], a[2]) if a[1] == 1 else NOTHING)
    if f == "Seq":
        a = step(t[1], env)
        if a is None:
            return None
        if a[1] != 0:
            return (a[0], a[1], ("Seq", a[2], t[2]) if a[1] == 1 else NOTHING)
        b = step(t[2], env)
        if b is None:
            return None
        return (a[0] | b[0], b[1], b[2])
    if f == "Loop":
        a = step(t[2], env)
        if a is None or a[1] == 0:
            return None
        return (a[0], a[1], ("Seq", a[2], t) if a[1] == 1 else NOTHING)
    if f == "Par":
        a, b = step(t[1], env), step(t[2], env)
        if a is None or b is None:
            return None
        k = max(a[1], b[1])
        return (a[0] | b[0], k, ("Par", a[2], b[2]) if k == 1 else NOTHING)
    if f == "Trap":
        a = step(t[1], env)
        if a is None:
            return None
        k = trap_code(a[1])
        return (a[0], k, ("Trap", a[2]) if k == 1 else NOTHING)
    if f == "Local":
        s, p = t[1], t[2]
        unknown = star(env, s, None)
        if s in must(p, unknown)[0]:
            a = step(p, star(env, s, True))
        elif s not in can(True, p, unknown)[0]:
            a = step(p, star(env, s, False))
        else:
            return None
        if a is None:
            return None
        return (a[0] - {s}, a[1], ("Local", s, a[2]) if a[1] == 1 else NOTHING)
    raise AssertionError(f)


def react(kp: KernelProgram, term: Tree, event: Any) -> Any:
    """A reaction: (a truth value for each outgoing signal, code, residual, emitted signals), or None.

    The event has a truth value for each given signal. The outgoing signals are decided one after another, each with the
    later ones as local signals.
    """
    env = {}
    given = set()
    for k in range(kp.inputs + kp.both):
        if k < kp.inputs:
            env[k] = bool(event[k])
        elif event[k]:
            env[k] = True
            given.add(k)
    outs = list(range(kp.inputs, kp.inputs + kp.both + kp.outputs))
    for j, o in enumerate(outs):
        if o in given:
            continue
        bound = term
        for x in reversed(outs[j + 1 :]):
            if x not in given:
                bound = ("Local", x, bound)
        unknown = star(env, o, None)
        if o in must(bound, unknown)[0]:
            env = star(env, o, True)
        elif o not in can(True, bound, unknown)[0]:
            env = star(env, o, False)
        else:
            return None
    a = step(term, env)
    if a is None:
        return None
    return ([env[o] for o in outs], a[1], a[2], a[0])


def run(kp: KernelProgram, items: Any) -> list[Any]:
    """The reactions over items, events and "reset": a list of (outputs, code), ended by None where there is none."""
    term = kp.body
    out: list[Any] = []
    for item in items:
        if item == "reset":
            term = kp.body
            continue
        a = react(kp, term, item)
        if a is None:
            out.append(None)
            return out
        out.append((a[0], a[1]))
        term = a[2]
    return out
