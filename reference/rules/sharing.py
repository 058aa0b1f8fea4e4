"""The graph of shared wires: instances of a statement whose starts no loop tells apart are one.

Stands for `SharedInstances`, `SharedWires` and `SharedGraphs` (crates/grc_share/specs/), over `graph`.
"""

from __future__ import annotations

from typing import Any, Optional, TYPE_CHECKING

from rules.instances import R
from rules.systems import System, Truths, ev3, f_and

if TYPE_CHECKING:
    from rules.graph import Graph
    from rules.kernel import Tree


class Shared(System):
    """The shared wires, edges and equations of a graph.

    full: None, or a closed walk of shared wires, and then nothing is shared. members[w]: the wires of shared wire
    w; of_wire[d]: the shared wire of wire d; inst: the instances of each shared instance; of_inst: the shared
    instance of each.
    """

    def __init__(self, g: Graph) -> None:
        self.g = g
        self._kept: dict[Any, Any] = {}
        body = g.body
        # loop bodies: strict[r] = c(r), the loop bodies strictly above; n[b] = those at or above
        self.c = [0] * body.n
        self.nb = [0] * body.n
        for b in range(body.n):
            up = body.parent[b]
            if up >= 0:
                self.c[b] = self.nb[up]
                self.nb[b] = self.c[b] + (body.form[up] == "Loop")
        # shared instances
        self.inst: list[Any] = []
        self.of_inst: list[Any] = []
        keys: dict[Any, int] = {}
        for i, (b, r) in enumerate(g.inst):
            place = (b, R) if r is R else (b, self.c[r])
            if place not in keys:
                keys[place] = len(self.inst)
                self.inst.append([])
            self.inst[keys[place]].append(i)
            self.of_inst.append(keys[place])
        # shared wires, in the order of the least member
        self.members: list[Any] = []
        self.of_wire: list[Any] = []
        key: dict[Any, int] = {}
        k: Any
        for d, w in enumerate(g.wires):
            if w[0] == "out":
                k = w
            elif w[0] == "st":
                b, r = g.inst[w[1]]
                k = ("st", b, self.nb[b] if r is R else self.c[r])
            elif w[0] == "go":
                k = ("go", self.of_inst[w[1]])
            else:
                k = ("end", self.of_inst[w[1]], w[2])
            if k not in key:
                key[k] = len(self.members)
                self.members.append([])
            self.members[key[k]].append(d)
            self.of_wire.append(key[k])
        self.count = len(self.members)
        self.edges = sorted(set((self.of_wire[a], self.of_wire[b]) for a, b in g.edges))
        self._equations()
        self.prepare()
        self.full = self.closed_walk()
        self.test_nodes = sum(body.test_size[g.inst[m[0]][0]] for m in self.inst if g.tests(*g.inst[m[0]]))

    def wire_text(self, w: Any) -> Any:
        """A shared wire has the name of its least member."""
        return self.g.wire_text(self.members[w][0])

    # -- equations
    def map(self, f: Tree) -> Tree:
        """A formula of the graph with shared wires for its wires."""
        if f[0] == "w":
            return ("w", self.of_wire[f[1]])
        if f[0] == "not":
            return ("not", self.map(f[1]))
        if f[0] in ("and", "or"):
            return (f[0], [self.map(x) for x in f[1]])
        return f

    def _equations(self) -> None:
        """go: the or of the members' equations, wires replaced by shared ones.
        end k of a Seq or Loop: each child's `end` is read together with the `go` of
        the own instance where the shared child has a member with another parent.
        Others: any member's equation, which all agree."""
        g = self.g
        eqs = []
        for ms in self.members:
            w = g.wires[ms[0]]
            if w[0] == "end":
                i = w[1]
                b, r = g.inst[i]
                f = self.map(g.end_formula(i, w[2]))
                for d in ms[1:]:
                    assert self.map(g.end_formula(g.wires[d][1], w[2])) == f
                if g.body.form[b] in ("Seq", "Loop"):
                    f = f_and(("w", self.of_wire[g.go[i]]), f)
                eqs.append(f)
            else:
                fs = []
                for d in ms:
                    f = self.map(g.equations[d])
                    if f not in fs:
                        fs.append(f)
                eqs.append(fs[0] if len(fs) == 1 else ("or", fs))
        self.equations = eqs

    def kept_sets(self, s: int) -> list[list[int]]:
        """Per parallel that encloses shared instance s: the shared instances that a
        member of s has there."""
        g, body = self.g, self.g.body
        out = []
        a = body.parent[g.inst[self.inst[s][0]][0]]
        while a >= 0:
            if body.form[a] == "Par":
                out.append(sorted(set(self.of_inst[g.instance_above(i, a)] for i in self.inst[s])))
            a = body.parent[a]
        return out

    def next_state(
        self, v: list[bool], boot: bool, holds: list[bool], selected: list[bool], event: list[bool]
    ) -> list[bool]:
        g, body, tree = self.g, self.g.body, self.g.tree
        out = [False] * tree.leaves

        def end1(s: int) -> bool:
            d = g.end[self.inst[s][0]].get(1)
            return d is not None and bool(v[self.of_wire[d]])

        known = {}

        def some_ends1(xs: tuple[Any, ...]) -> bool:
            if xs not in known:
                known[xs] = any(end1(x) for x in xs)
            return known[xs]

        def kept(s: int) -> bool:
            if s not in self._kept:
                self._kept[s] = [tuple(xs) for xs in self.kept_sets(s)]
            return all(some_ends1(xs) for xs in self._kept[s])

        for s, ms in enumerate(self.inst):
            b, r = g.inst[ms[0]]
            if not v[self.of_wire[g.go[ms[0]]]]:
                continue
            f = body.form[b]
            if f == "Pause" and r is not R and b in tree.leaf_of:
                if kept(s):
                    out[tree.leaf_of[b]] = True
            elif f == "Suspend" and r is R:
                if ev3(self.map(g.test_formula(ms[0])), Truths(v), boot, holds, event) == 2 and kept(s):
                    for c in range(b, body.after[b]):
                        if c in tree.leaf_of and selected[tree.leaf_of[c]]:
                            out[tree.leaf_of[c]] = True
        return out

    def answer(
        self, v: list[bool], boot: bool, selected: list[bool], event: list[bool], holds: Optional[list[bool]] = None
    ) -> tuple[Any, ...]:
        g = self.g
        if holds is None:
            holds = g.tree.holds(selected)
        root = g.at.get((0, 0)) if boot else g.at.get((0, R))
        code = 0
        if root is not None:
            for k, d in g.end[root].items():
                if v[self.of_wire[d]]:
                    code = k
        return (
            [bool(v[self.of_wire[g.out[s]]]) for s in g.outgoing],
            code,
            self.next_state(v, boot, holds, selected, event),
        )
