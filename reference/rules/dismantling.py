"""Kernel expansion: the kernel term of each derived statement, new signals, bad counts, and limits on the term.

Stands for `Kernels`, `Counts` and `Expansions` (crates/est_dismantle/specs/); docs/semantics.md has the table.
"""

from __future__ import annotations

from typing import Sequence, Any, Callable, Optional, TYPE_CHECKING

from rules.kernel import Tree
from rules.limits import MAX_HEIGHT, MAX_KERNEL, MAX_TRAPS
from rules.refusals import limit, static

if TYPE_CHECKING:
    from rules.expansion import Flat


class KernelProgram:
    """Signals in order: the inputs, those that are input and output (`both`), the outputs, the local ones."""

    def __init__(
        self, name: str, signals: list[str], inputs: int, both: int, outputs: int, relations: list[Any], body: Tree
    ) -> None:
        self.name = name
        self.signals = signals
        self.inputs = inputs
        self.both = both
        self.outputs = outputs
        self.relations = relations
        self.body = body


def given_signals(kp: Any) -> Any:
    """The inputs and those that are input and output, by number."""
    return list(range(kp.inputs + kp.both))


def outgoing_signals(kp: KernelProgram) -> list[int]:
    """Those that are input and output, and the outputs, by number."""
    return list(range(kp.inputs, kp.inputs + kp.both + kp.outputs))


def bad_counts(body: Tree) -> list[tuple[int, int]]:
    """The places of the counts that are 0 or above 255, in the order of the text."""
    found: list[Any] = []

    def bad(d: Tree) -> Optional[tuple[int, int]]:
        return d[2] if d[0] == "Count" and not 1 <= d[1] <= 255 else None

    todo = [body]  # a stack; items are statements or ('span', ..)
    while todo:
        s = todo.pop()
        if s is None:
            continue
        f = s[0]
        if f == "?":
            if bad(s[1]):
                found.append(bad(s[1]))
            continue
        if f == "Repeat":
            if not 1 <= s[2] <= 255:
                found.append(s[3])
            parts = [s[4]]
        elif f == "Await":
            parts = [("?", s[2]), s[3]]
        elif f in ("AwaitCase", "PresentCase"):
            parts = [p for _, p in s[2]] + list(s[3:])
        elif f == "Present":
            parts = [s[3], s[4]]
        elif f in ("Loop",):
            parts = [s[2]]
        elif f in ("LoopEach", "WeakAbort", "Suspend"):
            parts = [s[2], ("?", s[3])]
        elif f == "Every":
            parts = [("?", s[2]), s[3]]
        elif f == "Abort":
            parts = [s[2], ("?", s[3]), s[4]]
        elif f == "AbortCase":
            parts = [s[2]] + [p for _, p in s[3]]
        elif f == "Trap":
            parts = [s[2], s[3]]
        elif f == "Signal":
            parts = [s[3]]
        elif f in ("Seq", "Par"):
            parts = s[2]
        else:
            parts = []
        todo.extend(reversed(list(parts)))
    return found


Built = tuple[Tree, int, int, int]


class _TooLarge(Exception):
    pass


def dismantle(flat: Flat) -> KernelProgram:
    """The kernel program of a flat program.

    Built terms go with their measures: (term, size, height, traps), where traps is the greatest number of traps on
    a way down. Every built node is in the whole term at least once, so building may stop at the limit on the size.
    """
    bad = bad_counts(flat.body)
    if bad:
        raise static("BadCount", bad[0])
    signals = list(flat.signals)
    built = [0]

    def made(term: Tree, subs: Sequence[Built], trap: int = 0) -> Built:
        built[0] += 1
        size = 1
        height = 0
        traps = 0
        for m in subs:
            size += m[1]
            if m[2] > height:
                height = m[2]
            if m[3] > traps:
                traps = m[3]
        if built[0] > MAX_KERNEL or size > MAX_KERNEL:
            raise _TooLarge()
        return (term, size, height + 1, traps + trap)

    def nothing() -> Built:
        return made(("Nothing",), ())

    def pause() -> Built:
        return made(("Pause",), ())

    def emit(s: int) -> Built:
        return made(("Emit", s), ())

    def present(e: Built, p: Built, q: Built) -> Built:
        return made(("Present", e[0], p[0], q[0]), (e, p, q))

    def suspend(e: Built, p: Built) -> Built:
        return made(("Suspend", e[0], p[0]), (e, p))

    def loop(sp: tuple[int, int], p: Built) -> Built:
        return made(("Loop", sp, p[0]), (p,))

    def trap(p: Built) -> Built:
        return made(("Trap", p[0]), (p,), 1)

    def local(s: int, p: Built) -> Built:
        return made(("Local", s, p[0]), (p,))

    def right(form: str, parts: Sequence[Built]) -> Built:
        out = parts[-1]
        for p in reversed(parts[:-1]):
            out = made((form, p[0], out[0]), (p, out))
        return out

    def seq(*parts: Built) -> Built:
        return right("Seq", parts)

    def par(*parts: Built) -> Built:
        return right("Par", parts)

    # `traps` is the tuple of enclosing kernel traps, outermost first: True for a
    # source trap, or a fresh object for an internal one.
    def leave(traps: Any, mark: Any) -> Built:
        """exit to the innermost trap that is `mark`: 2 plus the Traps between."""
        for n, m in enumerate(reversed(traps)):
            if m is mark:
                return made(("Exit", 2 + n), ())
        raise AssertionError

    def test(e: Tree) -> Built:
        f = e[0]
        if f == "Tick":
            return made(("Tick",), ())
        if f == "Sig":
            return made(("Sig", e[1]), ())
        if f == "Not":
            x = test(e[1])
            return made(("Not", x[0]), (x,))
        return right(f, [test(x) for x in e[1]])

    def opt(s: Optional[Tree], traps: tuple[Any, ...]) -> Built:
        return nothing() if s is None else stmt(s, traps)

    def halt(sp: tuple[int, int]) -> Built:
        return loop(sp, pause())

    def await_(sp: tuple[int, int], d: Tree, traps: tuple[Any, ...]) -> Built:
        """await d, for a delay d."""
        if d[0] == "Immediate":
            t = object()
            inner = traps + (t,)
            return trap(loop(sp, seq(present(test(d[1]), leave(inner, t), nothing()), pause())))
        if d[0] == "Count":
            one = await_(sp, ("Plain", d[3]), traps)
            return seq(*[one] * d[1])
        t = object()
        inner = traps + (t,)
        return trap(loop(sp, seq(pause(), present(test(d[1]), leave(inner, t), nothing()))))

    def watcher(sp: tuple[int, int], e: Tree, traps: tuple[Any, ...], t: Any) -> Built:
        """loop pause; present e then exit T end end"""
        return loop(sp, seq(pause(), present(test(e), leave(traps, t), nothing())))

    def abort(sp: Any, p: Any, d: Tree, q: Any, has_do: bool, traps: Any) -> Built:
        """p and q are functions from enclosing traps to terms.  x is numbered by the caller."""
        t, n = object(), object()
        if d[0] == "Count" and d[1] == 1:
            d = ("Plain", d[3])
        if d[0] == "Count":
            x = d[4]
            e = d[3]
            if not has_do:
                i = traps + (t,)
                return trap(
                    local(
                        x,
                        par(
                            seq(suspend(test(("Sig", x)), p(i)), leave(i, t)),
                            seq(await_(sp, ("Count", d[1], d[2], e), i), emit(x), leave(i, t)),
                        ),
                    )
                )
            o = traps + (n,)
            i = o + (t,)
            first = trap(
                local(
                    x,
                    par(
                        seq(suspend(test(("Sig", x)), p(i)), leave(i, n)),
                        seq(await_(sp, ("Count", d[1], d[2], e), i), emit(x), leave(i, t)),
                    ),
                )
            )
            return trap(seq(first, q(o)))
        e = d[1]
        if d[0] == "Immediate":
            if not has_do:
                return present(test(e), nothing(), abort(sp, p, ("Plain", e), q, False, traps))
            o = traps + (n,)
            i = o + (t,)
            first = trap(
                present(test(e), leave(i, t), par(seq(suspend(test(e), p(i)), leave(i, n)), watcher(sp, e, i, t)))
            )
            return trap(seq(first, q(o)))
        if not has_do:
            i = traps + (t,)
            return trap(par(seq(suspend(test(e), p(i)), leave(i, t)), watcher(sp, e, i, t)))
        o = traps + (n,)
        i = o + (t,)
        first = trap(par(seq(suspend(test(e), p(i)), leave(i, n)), watcher(sp, e, i, t)))
        return trap(seq(first, q(o)))

    def numbered(d: Tree) -> Tree:
        """The new signal x of an abort by a count of 2 or more, in the order of the walk."""
        if d[0] == "Count" and d[1] >= 2:
            signals.append("x")
            return d + (len(signals) - 1,)
        return d

    def loop_each(sp: tuple[int, int], p: Callable[..., Any], d: Tree, traps: tuple[Any, ...]) -> Built:
        return loop(sp, abort(sp, lambda i: seq(p(i), halt(sp)), d, None, False, traps))

    def or_of(list_: list[Any]) -> Tree:
        events = [e for e, _ in list_]
        return events[0] if len(events) == 1 else ("Or", events)

    def present_case(list_: list[Any], other: Optional[Tree], traps: tuple[Any, ...]) -> Built:
        """The cases in their order, then the last else."""
        tests = []
        for e, p in list_:
            x = test(e)
            tests.append((x, opt(p, traps)))
        out = opt(other, traps)
        for x, p in reversed(tests):
            out = present(x, p, out)
        return out

    def stmt(s: Tree, traps: tuple[Any, ...]) -> Built:
        f, sp = s[0], s[1]
        if f == "Nothing":
            return nothing()
        if f == "Pause":
            return pause()
        if f == "Halt":
            return halt(sp)
        if f == "Emit":
            return emit(s[2])
        if f == "Sustain":
            return loop(sp, seq(emit(s[2]), pause()))
        if f == "Exit":
            k = s[2]
            for n, m in enumerate(reversed(traps)):
                if m is True:
                    if k == 0:
                        return made(("Exit", 2 + n), ())
                    k -= 1
            raise AssertionError
        if f == "Await":
            a = await_(sp, s[2], traps)
            return a if s[3] is None else seq(a, stmt(s[3], traps))
        if f == "AwaitCase":
            a = await_(sp, ("Plain", or_of(s[2])), traps)
            return seq(a, present_case(s[2], None, traps))
        if f == "Present":
            e = test(s[2])
            p = opt(s[3], traps)
            return present(e, p, opt(s[4], traps))
        if f == "PresentCase":
            return present_case(s[2], s[3], traps)
        if f == "Loop":
            return loop(sp, stmt(s[2], traps))
        if f == "LoopEach":
            d = numbered(s[3])
            return loop_each(sp, lambda i: stmt(s[2], i), d, traps)
        if f == "Every":
            d = s[2]
            a = await_(sp, d, traps)
            if d[0] == "Immediate":
                d = ("Plain", d[1])
            d = numbered(d)
            return seq(a, loop_each(sp, lambda i: stmt(s[3], i), d, traps))
        if f == "Repeat":
            p = stmt(s[4], traps)
            return seq(*[p] * s[2])
        if f == "Abort":
            d = numbered(s[3])
            return abort(sp, lambda i: stmt(s[2], i), d, lambda o: stmt(s[4], o), s[4] is not None, traps)
        if f == "AbortCase":
            return abort(
                sp, lambda i: stmt(s[2], i), ("Plain", or_of(s[3])), lambda o: present_case(s[3], None, o), True, traps
            )
        if f == "WeakAbort":
            t = object()
            i = traps + (t,)
            p = stmt(s[2], i)
            return trap(par(seq(p, leave(i, t)), seq(await_(sp, s[3], i), leave(i, t))))
        if f == "Suspend":
            e = s[3][1]
            if s[3][0] == "Immediate":
                t = object()
                i = traps + (t,)
                a = trap(loop(sp, present(test(e), pause(), leave(i, t))))
                return seq(a, suspend(test(e), stmt(s[2], traps)))
            return suspend(test(e), stmt(s[2], traps))
        if f == "Trap":
            if s[3] is None:
                return trap(stmt(s[2], traps + (True,)))
            after = object()
            o = traps + (after,)
            i = o + (True,)
            first = trap(seq(stmt(s[2], i), leave(i, after)))
            return trap(seq(first, stmt(s[3], o)))
        if f == "Signal":
            out = stmt(s[3], traps)
            for k in reversed(s[2]):
                out = local(k, out)
            return out
        if f in ("Seq", "Par"):
            parts = [stmt(x, traps) for x in s[2]]
            return right(f, parts)
        raise AssertionError(f)

    try:
        body = stmt(flat.body, ())
    except _TooLarge:
        raise limit("Kernel") from None
    if body[2] > MAX_HEIGHT:
        raise limit("Height")
    if body[3] > MAX_TRAPS:
        raise limit("Traps")
    return KernelProgram(flat.name, signals, flat.inputs, flat.both, flat.outputs, flat.relations, body[0])
