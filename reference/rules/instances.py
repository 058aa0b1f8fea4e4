"""The statements of a body by preorder number, and which instances of them are live.

Stands for `Preorder` (crates/est_kernel/specs/), `Statements`, `Layers` and `Instances` (crates/grc_graph/specs/).
"""

from __future__ import annotations

from typing import Any, TYPE_CHECKING

from rules.codes import codes
from rules.kernel import parts, test_signals, test_size
from rules.limits import MAX_INSTANCES
from rules.refusals import limit

if TYPE_CHECKING:
    from rules.kernel import Tree


R = None  # the layer Resumed


class Body:
    """The statements of a kernel body by preorder number, with their codes."""

    def __init__(self, term: Tree) -> None:
        form: list[Any] = []
        kids: list[Any] = []
        parent: list[Any] = []
        which: list[Any] = []
        test: list[Any] = []
        arg: list[Any] = []
        terms: list[Any] = []
        todo = [(term, -1, 0)]
        while todo:
            t, up, j = todo.pop()
            b = len(form)
            f = t[0]
            form.append(f)
            terms.append(t)
            kids.append([])
            parent.append(up)
            which.append(j)
            test.append(t[1] if f in ("Present", "Suspend") else None)
            arg.append(t[1] if f in ("Emit", "Exit", "Local", "Loop") else None)
            if up >= 0:
                kids[up].append(b)
            sub = parts(t)
            for k in range(len(sub) - 1, -1, -1):
                todo.append((sub[k], b, k))
        self.term = term
        self.terms = terms
        self.form, self.kids, self.parent = form, kids, parent
        self.which, self.test, self.arg = which, test, arg
        n = self.n = len(form)
        after = [0] * n  # first path after the subtree
        for b in range(n - 1, -1, -1):
            after[b] = after[kids[b][-1]] if kids[b] else b + 1
        self.after = after
        # binder[b]: signal -> path of its binder, for the signals that b itself names
        self.binder: list[Any] = [None] * n
        scope: dict[Any, Any] = {}
        stack: list[Any] = []
        for b in range(n):
            while stack and stack[-1][0] <= b:
                _, s, old = stack.pop()
                if old is None:
                    del scope[s]
                else:
                    scope[s] = old
            f = form[b]
            if f == "Emit":
                self.binder[b] = {arg[b]: scope.get(arg[b])}
            elif test[b] is not None:
                self.binder[b] = {s: scope.get(s) for s in test_signals(test[b])}
            elif f == "Local":
                stack.append((after[b], arg[b], scope.get(arg[b])))
                scope[arg[b]] = b
        self.ks, self.kd = codes(term)  # may raise InstantLoop
        self.test_size = [0 if t is None else test_size(t) for t in test]

    def above(self, a: Any, b: Any) -> Any:
        """a is b or above b."""
        return a <= b < self.after[a]

    def steps(self, b: int) -> list[int]:
        out = []
        while b > 0:
            out.append(self.which[b])
            b = self.parent[b]
        return out[::-1]

    def path_text(self, b: int) -> str:
        """`.` if empty, else `.` and the number for each step."""
        return "".join(".%d" % k for k in self.steps(b)) or "."


def live_roots(body: Body, bound: int = MAX_INSTANCES) -> tuple[Any, ...]:
    """Which statements are resumed, and the roots from which each is started: the least such set."""
    n = body.n
    res = [False] * n
    roots: list[tuple[int, ...]] = [()] * n
    roots[0] = (0,)  # rule 1
    res[0] = bool(body.kd[0])  # rule 2
    total = 0
    for b in range(n):
        total += len(roots[b]) + res[b]
        if total > bound:
            raise limit("Instances")
        f = body.form[b]
        for j, c in enumerate(body.kids[b]):
            second = f == "Seq" and j == 1
            first = body.kids[b][0]
            rs: tuple[int, ...] = roots[b]
            if second and 0 not in body.ks[first]:
                rs = ()  # rule 3
            if res[b]:
                if body.kd[c] and (not second or 0 in body.ks[first] or 0 in body.kd[first]):
                    res[c] = True  # rule 4
                if (second and 0 in body.kd[first]) or (f == "Loop" and 0 in body.kd[c]):
                    rs = rs + (c,)  # rules 5, 6
            roots[c] = rs
    return res, roots
