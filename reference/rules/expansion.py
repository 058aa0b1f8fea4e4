"""Flat programs: the body of a module for each `run` of it, signals and traps as numbers, and the first fault.

Stands for `Flattening`, `Scopes`, `Runs`, `Tests` and `Walks` (crates/est_expand/specs/).
"""

from __future__ import annotations

from typing import Any, Optional, TYPE_CHECKING

from rules.limits import MAX_DEPTH, MAX_SIGNALS, MAX_STATEMENTS
from rules.refusals import limit, static

if TYPE_CHECKING:
    from rules.kernel import Tree
    from rules.names import Table


class Flat:
    """A flat program. Signals are numbered: the inputs, those that are input and output, the outputs, the local ones.

    A relation is ("Implies", a, b) or ("Excludes", [a, b, ..]). Statements are tuples like those of the source, with
    numbers for names: ("Trap", span, p, q or None), and ("Exit", span, n) with the number of traps between.
    """

    def __init__(
        self, name: str, signals: list[str], inputs: int, both: int, outputs: int, relations: list[Any], body: Tree
    ) -> None:
        self.name = name
        self.signals = signals
        self.inputs = inputs
        self.both = both
        self.outputs = outputs
        self.relations = relations
        self.body = body


class Scope:
    """What the names of one module's body mean where the walk is."""

    def __init__(
        self, module: int, signals: dict[str, tuple[int, bool]], inputs: Any, traps: Tree, chain: tuple[Any, ...]
    ) -> None:
        self.module = module  # its place in the program
        self.signals = signals  # name -> (number, declared `input` in this module)
        self.traps = traps  # names of the enclosing traps of this module, outermost first
        self.chain = chain  # modules from the main one to this one

    def with_signals(self, pairs: list[Any]) -> Scope:
        new = dict(self.signals)
        for name, number in pairs:
            new[name] = (number, False)
        return Scope(self.module, new, None, self.traps, self.chain)

    def with_trap(self, name: str) -> Scope:
        return Scope(self.module, self.signals, None, self.traps + (name,), self.chain)


def interface(module: Tree) -> list[tuple[Tree, str]]:
    """The interface names of a module in declared order: (Name, kind)."""
    return [(x, d[0]) for d in module[2] if d[0] != "Relation" for x in d[1]]


def expand(program: list[Any], table: Table) -> Flat:
    """The flat form of a program, or the first fault of the walk."""
    main = program[table.main]
    face = interface(main)
    ins = [x for x, k in face if k == "Input"]
    both = [x for x, k in face if k == "InputOutput"]
    outs = [x for x, k in face if k == "Output"]
    names = [x[0] for x in ins + both + outs]
    number = {x: k for k, x in enumerate(names)}
    counted = [0, len(names)]  # statements met, signals counted
    if counted[1] > MAX_SIGNALS:
        raise limit("Signals")

    def rels() -> list[Any]:
        out: list[Any] = []
        for d in main[2]:
            if d[0] == "Relation":
                for r in d[1]:
                    if r[0] == "Implies":
                        out.append(("Implies", number[r[1][0]], number[r[2][0]]))
                    else:
                        out.append(("Excludes", [number[x[0]] for x in r[1]]))
        return out

    def add_signals(n: int) -> None:
        counted[1] += n
        if counted[1] > MAX_SIGNALS:
            raise limit("Signals")

    def signal(scope: Scope, name: Tree) -> tuple[int, bool]:
        got = scope.signals.get(name[0])
        if got is None:
            raise static("UnknownSignal", name[1])
        return got

    def expr(scope: Scope, e: Tree) -> Tree:
        f = e[0]
        if f == "Tick":
            return e
        if f == "Sig":
            return ("Sig", signal(scope, e[1])[0])
        if f in ("And", "Or"):
            return (f, [expr(scope, x) for x in e[1]])
        if f == "Not":
            return (f, expr(scope, e[1]))
        # brackets leave no trace
        return expr(scope, e[1])

    def delay(scope: Scope, d: Tree) -> Tree:
        return d[:-1] + (expr(scope, d[-1]),)

    def counted_delay(d: Tree) -> bool:
        return d[0] == "Count" and d[1] >= 2

    def maybe(scope: Scope, s: Optional[Tree], depth: int) -> Optional[Tree]:
        return None if s is None else stmt(scope, s, depth)

    def cases(scope: Scope, list_: list[Any], depth: int) -> list[Any]:
        out: list[Any] = []
        for e, p in list_:
            e2 = expr(scope, e)
            out.append((e2, maybe(scope, p, depth)))
        return out

    def emitted(scope: Scope, name: Tree) -> int:
        k, is_input = signal(scope, name)
        if is_input or k < len(ins):
            raise static("EmitInput", name[1])
        return k

    def stmt(scope: Scope, s: Tree, depth: int) -> Tree:
        """The flat form of a statement inside `depth` others."""
        f, span = s[0], s[1]
        counted[0] += 1
        if counted[0] > MAX_STATEMENTS:
            raise limit("Statements")
        if depth > MAX_DEPTH:
            raise limit("Height")
        if f == "Signal":
            add_signals(len(s[2]))
        elif f == "Abort" and counted_delay(s[3]):
            add_signals(1)
        elif f == "LoopEach" and counted_delay(s[3]):
            add_signals(1)
        elif f == "Every" and counted_delay(s[2]):
            add_signals(1)
        d = depth + 1
        if f in ("Nothing", "Pause", "Halt"):
            return s
        if f in ("Emit", "Sustain"):
            return (f, span, emitted(scope, s[2]))
        if f == "Exit":
            for n, name in enumerate(reversed(scope.traps)):
                if name == s[2][0]:
                    return (f, span, n)
            raise static("UnknownTrap", s[2][1])
        if f == "Await":
            e = delay(scope, s[2])
            return (f, span, e, maybe(scope, s[3], d))
        if f == "AwaitCase":
            return (f, span, cases(scope, s[2], d))
        if f == "Present":
            e = expr(scope, s[2])
            p = maybe(scope, s[3], d)
            return (f, span, e, p, maybe(scope, s[4], d))
        if f == "PresentCase":
            c = cases(scope, s[2], d)
            return (f, span, c, maybe(scope, s[3], d))
        if f == "Loop":
            return (f, span, stmt(scope, s[2], d))
        if f == "LoopEach":
            p = stmt(scope, s[2], d)
            return (f, span, p, delay(scope, s[3]))
        if f == "Every":
            e = delay(scope, s[2])
            return (f, span, e, stmt(scope, s[3], d))
        if f == "Repeat":
            return (f, span, s[2], s[3], stmt(scope, s[4], d))
        if f == "Abort":
            p = stmt(scope, s[2], d)
            e = delay(scope, s[3])
            return (f, span, p, e, maybe(scope, s[4], d))
        if f == "AbortCase":
            p = stmt(scope, s[2], d)
            return (f, span, p, cases(scope, s[3], d))
        if f in ("WeakAbort", "Suspend"):
            p = stmt(scope, s[2], d)
            return (f, span, p, delay(scope, s[3]))
        if f == "Trap":
            p = stmt(scope.with_trap(s[2][0]), s[3], d)
            q = None
            if s[4] is not None:
                if s[4][0][0] != s[2][0]:
                    raise static("UnknownTrap", s[4][0][1])
                q = stmt(scope, s[4][1], d)
            return (f, span, p, q)
        if f == "Signal":
            pairs = []
            for text, _ in s[2]:
                pairs.append((text, len(names)))
                names.append(text)
            p = stmt(scope.with_signals(pairs), s[3], d)
            return (f, span, [k for _, k in pairs], p)
        if f == "Run":
            return run(scope, s, d)
        if f in ("Seq", "Par"):
            out: list[Any] = []
            for x in s[2]:
                out.append(stmt(scope, x, d))
            return (f, span, out)
        if f == "Group":
            return stmt(scope, s[2], d)
        raise AssertionError(f)

    def run(scope: Scope, s: Tree, d: int) -> Tree:
        """The body of the module that is run, with what its names mean there."""
        name, rens = s[2], s[3]
        target = table.find(name[0])
        if target is None:
            raise static("UnknownModule", name[1])
        if target in scope.chain:
            raise static("Recursive", (name[1], [program[k][1][0] for k in scope.chain] + [name[0]]))
        face = interface(program[target])
        formals = set(x[0] for x, _ in face)
        bound = {}
        for actual, formal in rens:
            if formal[0] not in formals or formal[0] in bound:
                raise static("BadRename", formal[1])
            bound[formal[0]] = signal(scope, actual)[0]
        for x, _ in face:
            if x[0] not in bound:
                got = scope.signals.get(x[0])
                if got is None:
                    raise static("Unbound", (name[1], x[0]))
                bound[x[0]] = got[0]
        inner = {x[0]: (bound[x[0]], kind == "Input") for x, kind in face}
        return stmt(Scope(target, inner, None, (), scope.chain + (target,)), program[target][3], d)

    own = {x[0]: (number[x[0]], kind == "Input") for x, kind in face}
    body = stmt(Scope(table.main, own, None, (), (table.main,)), main[3], 0)
    return Flat(main[1][0], names, len(ins), len(both), len(outs), rels(), body)
