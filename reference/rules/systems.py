"""Systems of equations over wires, with their dependency edges: cycles, orders and solutions.

Stands for `Readings`, `Formulas` and `Orders` (crates/grc_graph/specs/) and for `LeastSolutions`
(crates/grc_ternary/specs/). A formula is ("c", bool) ("boot",) ("in", signal) ("w", wire) ("sel", path) ("not", f)
("and", [f..]) or ("or", [f..]).
"""

from __future__ import annotations

from typing import Any, Optional, TYPE_CHECKING

if TYPE_CHECKING:
    from rules.kernel import Tree
    from rules.orders import Drawn


def f_and(*fs: Tree) -> Tree:
    return ("and", list(fs))


def reads(f: Any, out: Any = None) -> Any:
    """The wires that a formula reads."""
    if out is None:
        out = set()
    if f[0] == "w":
        out.add(f[1])
    elif f[0] == "not":
        reads(f[1], out)
    elif f[0] in ("and", "or"):
        for x in f[1]:
            reads(x, out)
    return out


def ev3(f: Tree, v: Truths | list[int], boot: bool, holds: list[bool], event: list[bool]) -> int:
    """Kleene's value of a formula: 0 false, 1 unknown, 2 true."""
    t = f[0]
    if t == "w":
        return v[f[1]]
    if t == "and":
        out = 2
        for x in f[1]:
            y = ev3(x, v, boot, holds, event)
            if y < out:
                if not y:
                    return 0
                out = y
        return out
    if t == "or":
        out = 0
        for x in f[1]:
            y = ev3(x, v, boot, holds, event)
            if y > out:
                if y == 2:
                    return 2
                out = y
        return out
    if t == "not":
        return 2 - ev3(f[1], v, boot, holds, event)
    if t == "sel":
        return 2 if holds[f[1]] else 0
    if t == "in":
        x = event[f[1]]
        return 1 if x is None else 2 if x else 0
    if t == "boot":
        return 2 if boot else 0
    return 2 if f[1] else 0


def f_code(f: Tree) -> str:
    """Python text of the two-valued reading of a formula."""
    t = f[0]
    if t == "w":
        return "v[%d]" % f[1]
    if t in ("and", "or"):
        if not f[1]:
            return "True" if t == "and" else "False"
        return "(" + (" %s " % t).join(f_code(x) for x in f[1]) + ")"
    if t == "not":
        return "(not %s)" % f_code(f[1])
    if t == "sel":
        return "h[%d]" % f[1]
    if t == "in":
        return "x[%d]" % f[1]
    if t == "boot":
        return "b"
    return "True" if f[1] else "False"


def f_depth(f: Tree) -> int:
    """Nesting of f_code's text."""
    best, todo = 0, [(f, 1)]
    while todo:
        x, d = todo.pop()
        best = max(best, d)
        if x[0] == "not":
            todo.append((x[1], d + 1))
        elif x[0] in ("and", "or"):
            todo.extend((y, d + 1) for y in x[1])
    return best


class System:
    """Wires by number, with equations and with dependency edges in a sorted list of pairs."""

    count: int
    edges: list[tuple[int, int]]
    equations: list[Any]

    def wire_text(self, w: int) -> str:
        raise NotImplementedError

    def prepare(self) -> None:
        n = self.count
        self.succ: list[list[int]] = [[] for _ in range(n)]
        for a, b in self.edges:
            self.succ[a].append(b)
        self._scc()
        self._code: Any = None

    def _scc(self) -> None:
        """Tarjan without recursion.  comps: in an order where each edge goes to the
        same or a later component."""
        n, succ = self.count, self.succ
        index = [-1] * n
        low = [0] * n
        on = [False] * n
        stack, comps, k = [], [], 0
        for s in range(n):
            if index[s] >= 0:
                continue
            work = [(s, 0)]
            index[s] = low[s] = k
            k += 1
            stack.append(s)
            on[s] = True
            while work:
                u, at = work[-1]
                su = succ[u]
                if at < len(su):
                    work[-1] = (u, at + 1)
                    w = su[at]
                    if index[w] < 0:
                        index[w] = low[w] = k
                        k += 1
                        stack.append(w)
                        on[w] = True
                        work.append((w, 0))
                    elif on[w] and index[w] < low[u]:
                        low[u] = index[w]
                else:
                    work.pop()
                    if work and low[u] < low[work[-1][0]]:
                        low[work[-1][0]] = low[u]
                    if low[u] == index[u]:
                        comp = []
                        while True:
                            w = stack.pop()
                            on[w] = False
                            comp.append(w)
                            if w == u:
                                break
                        comps.append(comp)
        comps.reverse()
        self.comps = comps
        self.looped = [len(c) > 1 or c[0] in succ[c[0]] for c in comps]
        self.cyclic = any(self.looped)

    def closed_walk(self) -> Optional[list[int]]:
        """One closed walk of the edges as a list of wires, or None.  It is a shortest
        one through some wire of the first component that has one."""
        for comp, looped in zip(self.comps, self.looped):
            if not looped:
                continue
            inside = set(comp)
            start = min(comp)
            if start in self.succ[start]:
                return [start]
            before: dict[int, Any] = {start: None}
            todo = [start]
            for u in todo:
                for w in self.succ[u]:
                    if w == start:
                        out = [u]
                        while before[out[-1]] is not None:
                            out.append(before[out[-1]])
                        return out[::-1]
                    if w in inside and w not in before:
                        before[w] = u
                        todo.append(w)
        return None

    def is_closed_walk(self, texts: Any) -> Any:
        """Are these wire texts (as a shown list has them) a closed walk of the edges?"""
        number = {self.wire_text(w): w for w in range(self.count)}
        if not texts or any(t not in number for t in texts):
            return False
        ws = [number[t] for t in texts]
        return all(ws[k] in self.succ[ws[k - 1]] for k in range(len(ws)))

    def ranks(self) -> Any:
        """Ranks that grow along each edge, of an acyclic relation."""
        assert not self.cyclic
        rank = [0] * self.count
        for comp in self.comps:
            u = comp[0]
            for w in self.succ[u]:
                rank[w] = max(rank[w], rank[u] + 1)
        return rank

    def order(self, picker: Optional[Drawn] = None) -> list[int]:
        """An order of the edges. `picker` gives a place in the list of the ready wires, whose own order is free."""
        assert not self.cyclic
        pick = picker or (lambda ready: 0)
        left = [0] * self.count
        for a, b in self.edges:
            left[b] += 1
        ready = [w for w in range(self.count) if not left[w]]
        out = []
        while ready:
            w = ready.pop(pick(ready) % len(ready))
            out.append(w)
            for x in self.succ[w]:
                left[x] -= 1
                if not left[x]:
                    ready.append(x)
        return out

    def is_order(self, list_: list[int]) -> bool:
        """Whether a list has each wire once, and none before one that has an edge to it."""
        at = {w: k for k, w in enumerate(list_)}
        return len(list_) == self.count == len(at) and all(at[a] < at[b] for a, b in self.edges)

    def solve_along(self, list_: Any, boot: Any, holds: Any, event: Any) -> Any:
        """The two-valued solution, wire by wire along an order."""
        v = [1] * self.count
        for w in list_:
            v[w] = ev3(self.equations[w], v, boot, holds, event)
            assert v[w] != 1
        return [x == 2 for x in v]

    def solve3(self, boot: bool, holds: list[bool], event: list[bool], fixed: Any = None) -> list[int]:
        """The least three-valued solution (0 false, 1 unknown, 2 true).

        Component by component; inside one with a closed walk by a list of wires
        still to be looked at.  `fixed`: wire -> value, in place of its equation.
        """
        v = [1] * self.count
        eqs, succ = self.equations, self.succ
        for comp, looped in zip(self.comps, self.looped):
            if not looped:
                w = comp[0]
                if fixed and w in fixed:
                    v[w] = fixed[w]
                else:
                    v[w] = ev3(eqs[w], v, boot, holds, event)
                continue
            inside = set(comp)
            todo = list(comp)
            waiting = set(comp)
            while todo:
                w = todo.pop()
                waiting.discard(w)
                if v[w] != 1:
                    continue
                if fixed and w in fixed:
                    v[w] = fixed[w]
                else:
                    v[w] = ev3(eqs[w], v, boot, holds, event)
                if v[w] != 1:
                    for x in succ[w]:
                        if x in inside and v[x] == 1 and x not in waiting:
                            waiting.add(x)
                            todo.append(x)
        return v

    def solve2(self, boot: bool, holds: list[bool], event: list[bool]) -> list[bool]:
        """The one solution of an acyclic relation, by generated Python text."""
        if self._code is None:
            assert not self.cyclic
            self._code = []
            flat = [c[0] for c in self.comps]
            for k in range(0, len(flat), 1500):
                lines = ["def f(v, h, x, b):"]
                for w in flat[k : k + 1500]:
                    f = self.equations[w]
                    lines.append(" v[%d] = %s" % (w, f_code(f) if f_depth(f) <= 60 else "deep(%d, v, b, h, x)" % w))
                got: dict[str, Any] = {"deep": lambda w, v, b, h, x: ev3(self.equations[w], Truths(v), b, h, x) == 2}
                exec("\n".join(lines), got)
                self._code.append(got["f"])
        v: list[Any] = [None] * self.count
        for f in self._code:
            f(v, holds, event, boot)
        return v


class Truths:
    """A list of bools seen as three-valued numbers."""

    def __init__(self, v: list[bool]) -> None:
        self.v = v

    def __getitem__(self, w: int) -> int:
        return 2 if self.v[w] else 0
