"""The selection tree of the pauses, selections that are states, widths of encoded states, and resumption.

Stands for `SelectionTrees`, `Selections` and `Residuals` (crates/grc_graph/specs/) and for `EncodedCounts`
(crates/net_state_enc/specs/).
"""

from __future__ import annotations

from typing import Any, TYPE_CHECKING

from rules.kernel import NOTHING

if TYPE_CHECKING:
    from rules.instances import Body
    from rules.kernel import Tree


class SelectionTree:
    """nodes: (path, form, marks), form in 'leaf' 'excl' 'par' 'pass'; kids[path] the
    children in the tree; leaf_of[path] the number of a leaf, or absent."""

    def __init__(self, body: Body, res: list[bool]) -> None:
        self.body = body
        self.nodes = []
        self.leaf_path: list[Any] = []
        self.leaf_of = {}
        self.kids = {}
        for b in range(body.n):
            if not res[b]:
                continue
            f = body.form[b]
            marks: Any = None
            self.kids[b] = [c for c in body.kids[b] if res[c]]
            if f == "Pause":
                form = "leaf"
                self.leaf_of[b] = len(self.leaf_path)
                self.leaf_path.append(b)
            elif f in ("Seq", "Present"):
                form = "excl"
            elif f == "Par":
                form = "par"
                marks = tuple(0 in body.ks[c] or 0 in body.kd[c] for c in body.kids[b])
            else:
                form = "pass"
            self.nodes.append((b, form, marks))
        self.form = {b: (form, marks) for b, form, marks in self.nodes}
        self.leaves = len(self.leaf_path)

    def holds(self, selected: list[bool]) -> list[bool]:
        """Per path: does it hold a selected leaf?  selected: one bool per leaf."""
        h = [False] * self.body.n
        for k, b in enumerate(self.leaf_path):
            if selected[k]:
                while b >= 0 and not h[b]:
                    h[b] = True
                    b = self.body.parent[b]
        return h

    def well_formed(self, selected: list[bool]) -> bool:
        """Whether a selection is a state."""
        h = self.holds(selected)
        for b, form, marks in self.nodes:
            if form == "excl" and sum(h[c] for c in self.kids[b]) > 1:
                return False
            if form == "par" and h[b]:
                for c, m in zip(self.body.kids[b], marks):
                    if not h[c] and not m:
                        return False
        return True

    def count(self, b: Any = 0) -> Any:
        """The number of well-formed selections below node b that are not empty."""
        if b not in self.form:
            return 0
        form, marks = self.form[b]
        if form == "leaf":
            return 1
        if form in ("excl", "pass"):
            return sum(self.count(c) for c in self.kids[b])
        n, empty = 1, 1
        for c, m in zip(self.body.kids[b], marks):
            n *= self.count(c) + (1 if m else 0)
            empty *= 1 if m else 0
        return n - empty

    # -- widths of encoded states
    def core(self, b: int) -> int:
        while self.form[b][0] == "pass":
            b = self.kids[b][0]
        return b

    def excl_parts(self, b: int) -> list[int]:
        out = []
        for c in self.kids[b]:
            k = self.core(c)
            if self.form[k][0] == "excl":
                out.extend(self.excl_parts(k))
            else:
                out.append(k)
        return out

    def widths(self, b: int) -> tuple[int, int]:
        """The width of a state of node b that is not empty, and of one that may be, by the core of b."""
        b = self.core(b)
        form, marks = self.form[b]
        if form == "leaf":
            return (0, 1)
        if form == "excl":
            ps = self.excl_parts(b)
            if len(ps) == 1:
                return self.widths(ps[0])
            g = max(self.widths(p)[0] for p in ps)
            k = len(ps)
            return (bits_for(k) + g, bits_for(k + 1) + g)
        total, all_marked = 0, True
        for c, m in zip(self.body.kids[b], marks):
            if c not in self.form:
                continue
            w, v = self.widths(c)
            total += v if m else w
            all_marked = all_marked and m
        # "each branch in the tree marked" / "some branch not marked"
        return (total, total) if all_marked else (total, total + 1)

    def encoded_latches(self) -> int:
        """How many latches an encoded state has, the boot latch among them."""
        n = self.leaves
        if n == 0:
            return 1
        if n <= 1024:
            return 1 + min(n, self.widths(0)[1])
        return 1 + n


def bits_for(k: int) -> int:
    """The least b with 2^b >= k."""
    b = 0
    while (1 << b) < k:
        b += 1
    return b


def resume(body: Body, holds: list[bool], b: int = 0) -> Tree:
    """The term that the selected leaves stand for."""
    if not holds[b]:
        return NOTHING
    f, t, kids = body.form[b], body.terms[b], body.kids[b]
    if f == "Pause":
        return NOTHING
    if f == "Present":
        return resume(body, holds, kids[0] if holds[kids[0]] else kids[1])
    if f == "Suspend":
        return ("Awake", t[1], resume(body, holds, kids[0]))
    if f == "Seq":
        if holds[kids[0]]:
            return ("Seq", resume(body, holds, kids[0]), t[2])
        return resume(body, holds, kids[1])
    if f == "Loop":
        return ("Seq", resume(body, holds, kids[0]), t)
    if f == "Par":
        return ("Par", resume(body, holds, kids[0]), resume(body, holds, kids[1]))
    if f == "Trap":
        return ("Trap", resume(body, holds, kids[0]))
    if f == "Local":
        return ("Local", t[1], resume(body, holds, kids[0]))
    raise AssertionError(f)
