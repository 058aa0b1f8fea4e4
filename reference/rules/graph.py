"""The graph of a kernel program: instances, wires, their equations and edges, and the walk of an instant.

Stands for `Instances`, `Wires`, `Equations`, `Edges`, `Walk`, `Coherence` and `Nodes` (crates/grc_graph/specs/),
and for the listing (crates/grc_list/specs/). The form follows Potop-Butucaru, Edwards and Berry, "Compiling
Esterel".
"""

from __future__ import annotations

from typing import Any, Optional, TYPE_CHECKING

from rules.codes import InstantLoop, trap_code
from rules.dismantling import outgoing_signals
from rules.front import front
from rules.instances import Body, R, live_roots
from rules.kernel import size, test_signals
from rules.limits import MAX_WIRES
from rules.refusals import Refusal, limit, static
from rules.selection import SelectionTree
from rules.sharing import Shared
from rules.systems import System, Truths, ev3, f_and

if TYPE_CHECKING:
    from rules.dismantling import KernelProgram
    from rules.kernel import Tree


class Graph(System):
    """Instances, wires, edges, equations of a kernel program."""

    def __init__(self, kp: KernelProgram, body: Optional[Body] = None) -> None:
        self.kp = kp
        body = self.body = body or Body(kp.body)
        self.res, self.roots = live_roots(body)
        self.tree = SelectionTree(body, self.res)
        self.inputs = kp.inputs
        self.outgoing = outgoing_signals(kp)
        self.given_both = range(kp.inputs, kp.inputs + kp.both)
        # instances
        inst: list[Any] = []
        at: dict[Any, Any] = {}
        for b in range(body.n):
            if self.res[b]:
                at[b, R] = len(inst)
                inst.append((b, R))
            for r in self.roots[b]:
                at[b, r] = len(inst)
                inst.append((b, r))
        self.inst, self.at = inst, at
        # the limit on wires and on test nodes of live instances
        self.test_nodes = 0
        n = len(self.outgoing)
        for b, r in inst:
            ks = body.kd[b] if r is R else body.ks[b]
            n += 1 + len(ks) + (body.form[b] == "Local")
            if self.tests(b, r):
                self.test_nodes += body.test_size[b]
        if n + self.test_nodes > MAX_WIRES:
            raise limit("Wires")
        # wires
        wires: list[Any] = [("out", s) for s in self.outgoing]
        self.out = {s: k for k, s in enumerate(self.outgoing)}
        self.go, self.st, self.end = [], {}, []
        for i, (b, r) in enumerate(inst):
            self.go.append(len(wires))
            wires.append(("go", i))
            if body.form[b] == "Local":
                self.st[i] = len(wires)
                wires.append(("st", i))
            ends = {}
            for k in sorted(body.kd[b] if r is R else body.ks[b]):
                ends[k] = len(wires)
                wires.append(("end", i, k))
            self.end.append(ends)
        self.wires = wires
        self.count = len(wires)
        self.emits: dict[Any, Any] = {}  # status wire -> Emit instances
        for i, (b, r) in enumerate(inst):
            if body.form[b] == "Emit":
                self.emits.setdefault(self.status(i, body.arg[b]), []).append(i)
        self._edges()
        self._equations()
        self.prepare()

    def tests(self, b: int, r: Any) -> bool:
        """Is (b, r) a started Present or a resumed Suspend?"""
        return self.body.form[b] == ("Suspend" if r is R else "Present")

    # -- instances seen from an instance
    def parent_instance(self, i: int) -> Any:
        """The instance of the statement right above, or None."""
        b, r = self.inst[i]
        up = self.body.parent[b]
        if up < 0:
            return None
        return self.at[up, R if r == b else r]

    def instance_above(self, i: int, a: int) -> int:
        """The instance of the statement at path a above instance i."""
        r = self.inst[i][1]
        return self.at[a, r if r is not R and r <= a else R]

    def status(self, i: int, s: int) -> Any:
        """The status wire of signal s seen from instance i, None for an input."""
        if s < self.inputs:
            return None
        if s in self.out and self.body.binder[self.inst[i][0]][s] is None:
            return self.out[s]
        return self.st[self.instance_above(i, self.body.binder[self.inst[i][0]][s])]

    def child(self, i: int, j: int) -> Any:
        """The child j of instance i at the same layer, None if it is not live."""
        b, r = self.inst[i]
        return self.at.get((self.body.kids[b][j], r))

    def own_root(self, i: int) -> Any:
        """For a resumed Seq or Loop: its second part or body at its own root, or None."""
        b, r = self.inst[i]
        if r is not R:
            return None
        f = self.body.form[b]
        c = self.body.kids[b][1 if f == "Seq" else 0]
        return self.at.get((c, c))

    # -- edges
    def _edges(self) -> None:
        body, out = self.body, set()
        go, end = self.go, self.end

        def edge(a: Any, b: Any) -> None:
            if a is not None and b is not None:
                out.add((a, b))

        for i, (b, r) in enumerate(self.inst):
            f = body.form[b]
            kids = [self.child(i, j) for j in range(len(body.kids[b]))]
            mine = end[i]
            for j, c in enumerate(kids):  # go to a child at the same layer
                if c is not None and not (f == "Seq" and j == 1 and r is not R):
                    edge(go[i], go[c])
            if f == "Seq" and r is not R and kids[1] is not None:
                edge(end[kids[0]].get(0), go[kids[1]])
            own = self.own_root(i) if f in ("Seq", "Loop") else None
            if own is not None:  # rules 5 and 6
                edge(end[kids[0]].get(0), go[own])
            if f in ("Nothing", "Pause", "Emit", "Exit") or (f == "Par" and r is R):
                for k in mine:
                    edge(go[i], mine[k])
            if f == "Suspend" and r is R:
                edge(go[i], mine.get(1))
            # end k of a child to end k of the parent
            if f in ("Present", "Suspend", "Local"):
                for c in kids:
                    if c is not None:
                        for k in end[c]:
                            edge(end[c][k], mine.get(k))
            if f == "Seq":
                for c in (kids[1], own):
                    if c is not None:
                        for k in end[c]:
                            edge(end[c][k], mine.get(k))
            if f == "Loop" and own is not None:
                for k in end[own]:
                    edge(end[own][k], mine.get(k))
            if f in ("Seq", "Loop") and kids[0] is not None:
                for k in end[kids[0]]:
                    if k != 0:
                        edge(end[kids[0]][k], mine.get(k))
            if f == "Trap" and kids[0] is not None:
                for k in end[kids[0]]:
                    edge(end[kids[0]][k], mine.get(trap_code(k)))
            if f == "Par":
                for c in kids:
                    if c is not None:
                        for j in end[c]:
                            for k in mine:
                                if j <= k:
                                    edge(end[c][j], mine[k])
            if self.tests(b, r):
                for s in test_signals(body.test[b]):
                    w = self.status(i, s)
                    for c in kids:
                        if c is not None:
                            edge(w, go[c])
                    if f == "Suspend":
                        edge(w, mine.get(1))
            if f == "Emit":
                edge(go[i], self.status(i, body.arg[b]))
        self.edges = sorted(out)

    # -- equations
    def test_formula(self, i: int) -> Tree:
        def form(e: Tree) -> Tree:
            f = e[0]
            if f == "Tick":
                return ("c", True)
            if f == "Sig":
                w = self.status(i, e[1])
                return ("in", e[1]) if w is None else ("w", w)
            if f == "Not":
                return ("not", form(e[1]))
            return ("and" if f == "And" else "or", [form(e[1]), form(e[2])])

        return form(self.body.test[self.inst[i][0]])

    def end_wire(self, i: Any, k: int) -> Tree:
        """`end k` of instance i as a formula; false where it does not exist."""
        if i is None or k not in self.end[i]:
            return ("c", False)
        return ("w", self.end[i][k])

    def go_formula(self, i: int) -> Tree:
        b, r = self.inst[i]
        body = self.body
        up = body.parent[b]
        if up < 0:
            return ("boot",) if r is not R else ("sel", 0)
        f = body.form[up]
        p = self.parent_instance(i)
        if r == b:  # at its own root
            return self.end_wire(self.at[body.kids[up][0], R], 0)
        parent = ("w", self.go[p])
        if r is not R:
            if f == "Present":
                t = self.test_formula(p)
                return f_and(parent, t if body.which[b] == 0 else ("not", t))
            if f == "Seq" and body.which[b] == 1:
                return self.end_wire(self.at[body.kids[up][0], r], 0)
            return parent
        if f in ("Present", "Seq", "Par"):
            return f_and(parent, ("sel", b))
        if f == "Suspend":
            return f_and(parent, ("not", self.test_formula(p)))
        return parent

    def end_formula(self, i: int, k: int) -> Tree:
        b, r = self.inst[i]
        body = self.body
        f = body.form[b]
        own = self.own_root(i) if f in ("Seq", "Loop") else None
        kids = [self.child(i, j) for j in range(len(body.kids[b]))]
        go = ("w", self.go[i])
        if f in ("Nothing", "Pause", "Emit", "Exit"):
            return go
        if f in ("Present", "Local") or (f == "Suspend" and r is not R):
            return ("or", [self.end_wire(c, k) for c in kids])
        if f == "Suspend":
            out = [self.end_wire(kids[0], k)]
            if k == 1:
                out.append(f_and(go, self.test_formula(i)))
            return ("or", out)
        if f == "Seq":
            out = [self.end_wire(kids[1], k), self.end_wire(own, k)]
            if k != 0:
                out.append(self.end_wire(kids[0], k))
            return ("or", out)
        if f == "Loop":
            assert k != 0
            return ("or", [self.end_wire(kids[0], k), self.end_wire(own, k)])
        if f == "Trap":
            return ("or", [self.end_wire(kids[0], j) for j in self.end[kids[0]] if trap_code(j) == k])
        assert f == "Par"

        def branch(n: int, j: int) -> Tree:
            w = self.end_wire(kids[n], j)
            if r is not R:
                return w
            sel = ("sel", body.kids[b][n])
            if j == 0:
                return ("or", [f_and(sel, w), f_and(("not", sel), go)])
            return f_and(sel, w)

        upto = sorted(set(j for c in kids if c is not None for j in self.end[c]) | {0})
        u = [("or", [branch(n, j) for j in upto if j <= k]) for n in (0, 1)]
        return ("and", u + [("or", [branch(0, k), branch(1, k)])])

    def _equations(self) -> None:
        eqs = []
        for w in self.wires:
            if w[0] == "go":
                eqs.append(self.go_formula(w[1]))
            elif w[0] == "end":
                eqs.append(self.end_formula(w[1], w[2]))
            else:
                fs = [("w", self.go[i]) for i in self.emits.get(len(eqs), ())]
                if w[0] == "out" and w[1] in self.given_both:
                    fs.append(("in", w[1]))
                eqs.append(("or", fs))
        self.equations = eqs

    # -- next state
    def next_state(
        self, v: list[bool], boot: bool, holds: list[bool], selected: list[bool], event: list[bool]
    ) -> list[bool]:
        """Kept leaves, from the true wires (v: list of bools)."""
        body = self.body
        keeps = [False] * len(self.inst)  # Kept(i): every enclosing parallel ends with 1
        out = [False] * self.tree.leaves
        for i, (b, r) in enumerate(self.inst):
            p = self.parent_instance(i)
            if p is None:
                keeps[i] = True
            else:
                k = keeps[p]
                if k and body.form[self.inst[p][0]] == "Par":
                    k = 1 in self.end[p] and bool(v[self.end[p][1]])
                keeps[i] = k
            if not v[self.go[i]] or not keeps[i]:
                continue
            f = body.form[b]
            if f == "Pause" and r is not R and b in self.tree.leaf_of:
                out[self.tree.leaf_of[b]] = True
            elif f == "Suspend" and r is R and ev3(self.test_formula(i), Truths(v), boot, holds, event) == 2:
                for c in range(b, body.after[b]):
                    if c in self.tree.leaf_of and selected[self.tree.leaf_of[c]]:
                        out[self.tree.leaf_of[c]] = True
        return out

    def answer(
        self, v: list[bool], boot: bool, selected: list[bool], event: list[bool], holds: Optional[list[bool]] = None
    ) -> tuple[Any, ...]:
        """(outgoing statuses, code, next selection) from the true wires."""
        if holds is None:
            holds = self.tree.holds(selected)
        root = self.at.get((0, 0)) if boot else self.at.get((0, R))
        code = 0
        if root is not None:
            for k, w in self.end[root].items():
                if v[w]:
                    code = k
        return ([bool(v[self.out[s]]) for s in self.outgoing], code, self.next_state(v, boot, holds, selected, event))

    # -- texts
    def instance_text(self, i: int) -> str:
        b, r = self.inst[i]
        return "%s %s" % (self.body.path_text(b), "r" if r is R else "s " + self.body.path_text(r))

    def wire_text(self, w: int) -> str:
        x = self.wires[w]
        if x[0] == "out":
            return "out " + self.kp.signals[x[1]]
        if x[0] == "go":
            return "go " + self.instance_text(x[1])
        if x[0] == "st":
            b = self.inst[x[1]][0]
            return "st %s %s" % (self.instance_text(x[1]), self.kp.signals[self.body.arg[b]])
        return "end %s %d" % (self.instance_text(x[1]), x[2])

    def listing(self) -> bytes:
        out = ["grc 1"]
        for b, form, marks in self.tree.nodes:
            line = "%s %s" % (form, self.body.path_text(b))
            if form == "par":
                line += " " + "".join("1" if m else "0" for m in marks)
            out.append(line)
        for w in range(self.count):
            out.append("w%d %s" % (w, self.wire_text(w)))
        return "".join(x + "\n" for x in out).encode()

    def check_line(self) -> str:
        return "%s: %d nodes, %d pauses, %d instances, %d wires" % (
            self.kp.name,
            size(self.kp.body),
            self.tree.leaves,
            len(self.inst),
            self.count,
        )

    def node_of(self, i: Any) -> Any:
        """The node of an instance."""
        b, r = self.inst[i]
        f = self.body.form[b]
        if f == "Pause" and r is not R:
            return ("Enter", i)
        if self.tests(b, r):
            return ("Test", i)
        if r is R and f in ("Present", "Seq"):
            return ("Switch", i)
        if f == "Par":
            return ("Sync", i) if r is R else ("Fork", self.child(i, 0), self.child(i, 1))
        if f == "Emit":
            return ("Emit", i, self.status(i, self.body.arg[b]))
        if f == "Local":
            return ("Define", i, self.st[i])
        if f == "Exit":
            return ("Exit", i, self.body.arg[b])
        return ("Through", i)

    # -- the walk under given statuses
    def walk(self, boot: bool, selected: list[bool], event: list[bool], status: dict[int, bool]) -> tuple[Any, ...]:
        """status: dict from status wires (out, st) to bool.

        Answers (codes: reached instance -> code, emitted status wires, code, kept leaves).
        """
        body, holds = self.body, self.tree.holds(selected)
        reached: dict[Any, Any] = {}
        emitted: set[Any] = set()

        def value(i: int) -> bool:
            f = self.test_formula(i)

            def ev(f: Tree) -> bool:
                t = f[0]
                if t == "c":
                    return f[1]
                if t == "in":
                    return bool(event[f[1]])
                if t == "w":
                    return status[f[1]]
                if t == "not":
                    return not ev(f[1])
                if t == "and":
                    return all([ev(x) for x in f[1]])
                return any([ev(x) for x in f[1]])

            return ev(f)

        def below(b: Any) -> Any:
            return set(l for c, l in self.tree.leaf_of.items() if body.above(b, c) and selected[l])

        def go(i: int) -> tuple[Any, ...]:
            assert i not in reached, "walked twice"
            reached[i] = None
            code, kept = visit(i)
            if code != 1:
                kept = set()
            reached[i] = code
            return code, kept

        def visit(i: int) -> tuple[Any, ...]:
            b, r = self.inst[i]
            f = body.form[b]
            kids = body.kids[b]
            if r is not R:

                def sub(j: int) -> Any:
                    return go(self.at[kids[j], r])

                if f == "Nothing":
                    return 0, set()
                if f == "Emit":
                    emitted.add(self.status(i, body.arg[b]))
                    return 0, set()
                if f == "Exit":
                    return body.arg[b], set()
                if f == "Pause":
                    return 1, ({self.tree.leaf_of[b]} if b in self.tree.leaf_of else set())
                if f == "Present":
                    return sub(0 if value(i) else 1)
                if f in ("Suspend", "Local"):
                    return sub(0)
                if f == "Loop":
                    k, kept = sub(0)
                    assert k != 0
                    return k, kept
                if f == "Trap":
                    k, kept = sub(0)
                    return trap_code(k), kept
                if f == "Seq":
                    k, kept = sub(0)
                    if k != 0:
                        return k, kept
                    return sub(1)
                (k0, a), (k1, c) = sub(0), sub(1)
                return max(k0, k1), a | c

            def part(j: int) -> Any:
                return go(self.at[kids[j], R])

            if f == "Pause":
                return 0, set()
            if f == "Present":
                return part(0 if holds[kids[0]] else 1)
            if f == "Suspend":
                if value(i):
                    return 1, below(b)
                return part(0)
            if f == "Seq":
                if holds[kids[0]]:
                    k, kept = part(0)
                    if k == 0:
                        return go(self.at[kids[1], kids[1]])
                    return k, kept
                return part(1)
            if f == "Loop":
                k, kept = part(0)
                if k == 0:
                    k, kept = go(self.at[kids[0], kids[0]])
                    assert k != 0
                return k, kept
            if f == "Par":
                code, kept = 0, set()
                for j in (0, 1):
                    if holds[kids[j]]:
                        k, more = part(j)
                        code = max(code, k)
                        kept |= more
                return code, kept
            k, kept = part(0)
            return (trap_code(k) if f == "Trap" else k), kept

        if boot:
            code, kept = go(self.at[0, 0])
        elif any(selected):
            code, kept = go(self.at[0, R])
        else:
            code, kept = 0, set()
        return reached, emitted, code, kept

    def coherent(self, status: Any, emitted: Any, event: Any) -> Any:
        """Each status is that of its status wire, or is given."""
        for w, v in status.items():
            x = w in emitted
            if self.wires[w][0] == "out" and self.wires[w][1] in self.given_both:
                x = x or bool(event[self.wires[w][1]])
            if x != v:
                return False
        return True

    def status_wires(self) -> list[int]:
        return [w for w, x in enumerate(self.wires) if x[0] in ("out", "st")]


def graph_of_program(kp: KernelProgram) -> Graph:
    """codes, copies, select, build, with their refusals in this order."""
    try:
        body = Body(kp.body)
    except InstantLoop as e:
        raise static("InstantLoop", e.span) from None
    return Graph(kp, body)


class Compiled:
    """program, graph, and, for ease of use, codes, live, tree, wires,
    edges, test_nodes, cycle (None or wire texts), shared()."""

    def __init__(self, program: KernelProgram, graph: Graph) -> None:
        self.program = program
        self.graph = graph
        self.codes = (graph.body.ks, graph.body.kd)
        self.live = graph.inst
        self.tree = graph.tree
        self.wires = graph.wires
        self.edges = graph.edges
        self.test_nodes = graph.test_nodes
        walk = graph.closed_walk()
        self.cycle = None if walk is None else [graph.wire_text(w) for w in walk]
        self._shared: Any = None

    def shared(self) -> Shared:
        if self._shared is None:
            self._shared = Shared(self.graph)
        return self._shared


def graph_of(text: bytes, main: Any = None) -> Compiled:
    """The graph of a source, with cycles or without."""
    kp = front(text, main)
    return Compiled(kp, graph_of_program(kp))


def compile(text: Any, main: Any = None) -> Any:
    """The graph of a source without cycles."""
    c = graph_of(text, main)
    if c.cycle is not None:
        raise Refusal("Cyclic", "Cyclic", c.cycle)
    return c
