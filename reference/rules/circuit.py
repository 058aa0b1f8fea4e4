"""A second reading of the graph, apart from `graph`: instances, selection tree, wires, edges, and a plain netlist.

Stands for `Layers`, `Instances`, `SelectionTrees`, `Wires`, `Edges` and `Equations` (crates/grc_graph/specs/), for
`Generated` (crates/net_gen/specs/), for the regions of guarded texts (crates/grc_regions/specs/) and for the widths of
encoded states (crates/net_state_enc/specs/EncodedCounts.antt). The two readings check one another in the tests.
"""

from __future__ import annotations

from typing import Any, Optional, Sequence, TYPE_CHECKING

from rules.netlist import Net

if TYPE_CHECKING:
    from rules.dismantling import KernelProgram
    from rules.kernel import Tree


RESUMED = -1

Instance = tuple[int, int]


BOTH = ("Present", "Seq", "Par")


class TooMany(Exception):
    pass


def as_bytes(name: str) -> bytes:
    return name if isinstance(name, bytes) else name.encode()


def trap_rule(k: int) -> int:
    return 0 if k in (0, 2) else 1 if k == 1 else k - 1


def maxima(a: set[int], b: set[int]) -> set[int]:
    return {max(x, y) for x in a for y in b}


class Shape:
    def __init__(self, kp: KernelProgram, limits: bool = True) -> None:
        self.kp = kp
        self.name = as_bytes(kp.name)
        self.names = [as_bytes(name) for name in kp.signals]
        self.limits = limits
        self.table_statements()
        self.find_codes()
        self.instant = [
            self.term[n][1] for n in range(len(self.form)) if self.form[n] == "Loop" and 0 in self.ks[self.kids[n][0]]
        ]
        if self.instant:
            return
        self.find_instances()
        self.make_tree()
        self.make_wires()
        self.make_edges()

    # ---- statements in preorder
    def table_statements(self) -> None:
        self.form: list[Any] = []
        self.term: list[Any] = []
        self.parent: list[Any] = []
        self.number: list[Any] = []
        self.kids: list[Any] = []
        stack = [(self.kp.body, -1, 0)]
        while stack:
            term, parent, number = stack.pop()
            n = len(self.form)
            self.form.append(term[0])
            self.term.append(term)
            self.parent.append(parent)
            self.number.append(number)
            self.kids.append([])
            if parent >= 0:
                self.kids[parent].append(n)
            parts = {
                "Present": term[2:],
                "Suspend": term[2:],
                "Seq": term[1:],
                "Loop": term[2:],
                "Par": term[1:],
                "Trap": term[1:],
                "Local": term[2:],
            }.get(term[0], ())
            for k in range(len(parts) - 1, -1, -1):
                stack.append((parts[k], n, k))
        count = len(self.form)
        self.after = [0] * count
        for n in range(count - 1, -1, -1):
            self.after[n] = self.after[self.kids[n][-1]] if self.kids[n] else n + 1
        # the nearest binder of each signal at each statement that needs one, by a walk
        self.binder: dict[Any, Any] = {}
        scope: dict[Any, Any] = {}
        undo: list[Any] = []
        for n in range(count):
            while undo and self.after[undo[-1][0]] <= n:
                _, s, old = undo.pop()
                if old is None:
                    del scope[s]
                else:
                    scope[s] = old
            form = self.form[n]
            if form == "Local":
                s = self.term[n][1]
                undo.append((n, s, scope.get(s)))
                scope[s] = n
            elif form == "Emit":
                self.binder[n, self.term[n][1]] = scope.get(self.term[n][1])
            elif form in ("Present", "Suspend"):
                for s in self.signals_of(self.term[n][1]):
                    self.binder[n, s] = scope.get(s)

    def signals_of(self, test: Tree) -> list[int]:
        if test[0] == "Sig":
            return [test[1]]
        if test[0] == "Tick":
            return []
        return [s for part in test[1:] for s in self.signals_of(part)]

    def test_size(self, test: Tree) -> int:
        if test[0] in ("Sig", "Tick"):
            return 1
        return 1 + sum(self.test_size(part) for part in test[1:])

    def find_codes(self) -> None:
        count = len(self.form)
        self.ks: list[Any] = [None] * count
        self.kd: list[Any] = [None] * count
        for n in range(count - 1, -1, -1):
            form, term = self.form[n], self.term[n]
            s = [self.ks[c] for c in self.kids[n]]
            d = [self.kd[c] for c in self.kids[n]]
            if form in ("Nothing", "Emit"):
                ks, kd = {0}, set()
            elif form == "Pause":
                ks, kd = {1}, {0}
            elif form == "Exit":
                ks, kd = {term[1]}, set()
            elif form == "Present":
                ks, kd = s[0] | s[1], d[0] | d[1]
            elif form == "Suspend":
                ks, kd = s[0], d[0] | {1} if d[0] else set()
            elif form == "Seq":
                ks = s[0] if 0 not in s[0] else s[0] - {0} | s[1]
                kd = d[0] - {0}
                if 0 in d[0]:
                    kd = kd | s[1]
                if 0 in s[0] or 0 in d[0]:
                    kd = kd | d[1]
            elif form == "Loop":
                ks = s[0] - {0}
                kd = d[0] - {0}
                if 0 in d[0]:
                    kd = kd | s[0] - {0}
            elif form == "Par":
                ks = maxima(s[0], s[1])
                if not d[0] and not d[1]:
                    kd = set()
                else:
                    r = [d[i] | ({0} if 0 in s[i] or 0 in d[i] else set()) for i in (0, 1)]
                    kd = maxima(r[0], r[1])
            elif form == "Trap":
                ks = {trap_rule(k) for k in s[0]}
                kd = {trap_rule(k) for k in d[0]}
            else:
                ks, kd = s[0], d[0]
            self.ks[n], self.kd[n] = ks, kd

    # ---- instances
    def find_instances(self) -> None:
        live = set()
        todo = []

        def add(n: int, root: int) -> None:
            if (n, root) not in live:
                live.add((n, root))
                todo.append((n, root))
                if self.limits and len(live) > 131072:
                    raise TooMany("Instances")

        add(0, 0)
        if self.kd[0]:
            add(0, RESUMED)
        while todo:
            n, root = todo.pop()
            form, kids = self.form[n], self.kids[n]
            if root != RESUMED:
                for k, c in enumerate(kids):
                    if form != "Seq" or k == 0 or 0 in self.ks[kids[0]]:
                        add(c, root)
            else:
                for k, c in enumerate(kids):
                    if self.kd[c] and (form != "Seq" or k == 0 or 0 in self.ks[kids[0]] or 0 in self.kd[kids[0]]):
                        add(c, RESUMED)
                if form == "Seq" and 0 in self.kd[kids[0]]:
                    add(kids[1], kids[1])
                if form == "Loop" and 0 in self.kd[kids[0]]:
                    add(kids[0], kids[0])
        self.live = sorted(live)
        self.is_live: set[Instance] = live

    def codes(self, i: Instance) -> set[int]:
        return self.kd[i[0]] if i[1] == RESUMED else self.ks[i[0]]

    def above(self, b: int, root: int) -> tuple[int, int]:
        """The instance of the statement b that is at or above a statement at that root."""
        return (b, root) if root != RESUMED and root <= b < self.after[root] else (b, RESUMED)

    def parent_of(self, i: Instance) -> Any:
        return None if i[0] == 0 else self.above(self.parent[i[0]], i[1])

    # ---- the selection tree
    def make_tree(self) -> None:
        self.tree = [n for n in range(len(self.form)) if (n, RESUMED) in self.is_live]
        self.leaf = {n: k for k, n in enumerate(n for n in self.tree if self.form[n] == "Pause")}

    def tree_kids(self, n: int) -> list[int]:
        return [c for c in self.kids[n] if (c, RESUMED) in self.is_live]

    def marked(self, c: int) -> bool:
        return 0 in self.ks[c] or 0 in self.kd[c]

    # ---- wires
    def make_wires(self) -> None:
        kp = self.kp
        self.out_first = kp.inputs
        self.wires: list[Any] = [("out", s) for s in range(kp.inputs, kp.inputs + kp.both + kp.outputs)]
        for i in self.live:
            self.wires.append(("go", i))
            if self.form[i[0]] == "Local":
                self.wires.append(("st", i))
            for k in sorted(self.codes(i)):
                self.wires.append(("end", i, k))
        self.index: dict[Any, int] = {w: n for n, w in enumerate(self.wires)}
        self.test_nodes = sum(self.test_size(self.term[i[0]][1]) for i in self.live if self.tests(i))

    def tests(self, i: Instance) -> bool:
        form = self.form[i[0]]
        return form == "Present" and i[1] != RESUMED or form == "Suspend" and i[1] == RESUMED

    def status(self, s: int, i: Instance) -> Any:
        """The status wire of a signal seen from the instance, or None for an input."""
        kp = self.kp
        if s < kp.inputs:
            return None
        if s < kp.inputs + kp.both + kp.outputs:
            return self.index["out", s]
        return self.index["st", self.above(self.binder[i[0], s], i[1])]

    def path_text(self, n: int) -> str:
        steps = []
        while n > 0:
            steps.append(".%d" % self.number[n])
            n = self.parent[n]
        return "".join(reversed(steps)) or "."

    def wire_text(self, w: int) -> bytes:
        wire = self.wires[w]
        if wire[0] == "out":
            return b"out " + self.names[wire[1]]
        n, root = wire[1]
        layer = "r" if root == RESUMED else "s " + self.path_text(root)
        place = "%s %s" % (self.path_text(n), layer)
        if wire[0] == "st":
            return b"st " + place.encode() + b" " + self.names[self.term[n][1]]
        if wire[0] == "go":
            return b"go " + place.encode()
        return ("end %s %d" % (place, wire[2])).encode()

    def make_edges(self) -> None:
        index = self.index
        edges = set()

        def edge(a: Any, b: Any) -> None:
            if a in index and b in index:
                edges.add((index[a], index[b]))

        for i in self.live:
            n, root = i
            form, kids = self.form[n], self.kids[n]
            go = ("go", i)
            for k, c in enumerate(kids):
                child = (c, root)
                if child not in self.is_live:
                    continue
                if not (form == "Seq" and k == 1 and root != RESUMED):
                    edge(go, ("go", child))
            if form == "Seq":
                if root != RESUMED:
                    edge(("end", (kids[0], root), 0), ("go", (kids[1], root)))
                else:
                    edge(("end", (kids[0], RESUMED), 0), ("go", (kids[1], kids[1])))
            if form == "Loop" and root == RESUMED:
                edge(("end", (kids[0], RESUMED), 0), ("go", (kids[0], kids[0])))
            if form in ("Nothing", "Pause", "Emit", "Exit") or form == "Par" and root == RESUMED:
                for k in self.codes(i):
                    edge(go, ("end", i, k))
            if form == "Suspend" and root == RESUMED:
                edge(go, ("end", i, 1))
            # ends of the children
            children = [(k, (c, root)) for k, c in enumerate(kids)]
            if root == RESUMED and form == "Seq":
                children.append((1, (kids[1], kids[1])))
            if root == RESUMED and form == "Loop":
                children.append((2, (kids[0], kids[0])))  # 2: restarted
            for k, child in children:
                if child not in self.is_live:
                    continue
                for j in self.codes(child):
                    end = ("end", child, j)
                    if form in ("Present", "Suspend", "Local"):
                        edge(end, ("end", i, j))
                    elif form == "Seq" and (k == 1 or j != 0):
                        edge(end, ("end", i, j))
                    elif form == "Loop" and (k == 2 or j != 0):
                        edge(end, ("end", i, j))
                    elif form == "Trap":
                        edge(end, ("end", i, trap_rule(j)))
                    elif form == "Par":
                        for m in self.codes(i):
                            if j <= m:
                                edge(end, ("end", i, m))
            if self.tests(i):
                for s in self.signals_of(self.term[n][1]):
                    st = self.status(s, i)
                    if st is None:
                        continue
                    st = self.wires[st]
                    for c in kids:
                        edge(st, ("go", (c, root)))
                    if form == "Suspend":
                        edge(st, ("end", i, 1))
            if form == "Emit":
                edge(go, self.wires[self.status(self.term[n][1], i)])
        self.edges = sorted(edges)

    # ---- order and cycle
    def order(self) -> Optional[list[int]]:
        return topological(len(self.wires), self.edges)

    # ---- a netlist with one carrying gate per wire
    def generate(self) -> Any:
        """The netlist along an order of the dependency relation, or None where the edges have a closed walk."""
        order = self.order()
        return None if order is None else self.net_along(order)

    def circuit(self) -> Net:
        """The same equations with all wires placed first, so gates may read later ones."""
        return self.net_along(None)

    def net_along(self, order: Optional[list[int]]) -> Net:
        kp = self.kp
        given = kp.inputs + kp.both
        leaves = len(self.leaf)
        first = given + 1 + leaves
        gates: list[Any] = []

        def gate(*op: Any) -> int:
            gates.append([op, None])
            return first + len(gates) - 1

        boot = given
        latch = {n: given + 1 + k for n, k in self.leaf.items()}
        value: list[Any] = [None] * len(self.wires)  # the net of each placed wire
        FALSE = gate("const", False)
        TRUE = gate("const", True)

        def any_of(parts: Sequence[Any]) -> Any:
            parts = [p for p in parts if p is not None and p != FALSE]
            if not parts:
                return FALSE
            while len(parts) > 1:
                parts = [
                    gate("or", parts[k], parts[k + 1]) if k + 1 < len(parts) else parts[k]
                    for k in range(0, len(parts), 2)
                ]
            return parts[0]

        def both(a: Any, b: Any) -> Any:
            if a == FALSE or b == FALSE:
                return FALSE
            return b if a == TRUE else a if b == TRUE else gate("and", a, b)

        selected: dict[int, int] = {}
        for n in reversed(self.tree):
            if self.form[n] == "Pause":
                selected[n] = latch[n]
            else:
                selected[n] = any_of([selected[c] for c in self.tree_kids(n)])
        unselected: dict[int, int] = {}

        def wire(*name: Any) -> Any:
            w = self.index.get(name)
            return None if w is None else value[w]

        def test_net(test: Tree, i: Instance) -> int:
            if test[0] == "Tick":
                return TRUE
            if test[0] == "Sig":
                st = self.status(test[1], i)
                return test[1] if st is None else value[st]
            if test[0] == "Not":
                return gate("not", test_net(test[1], i))
            return gate(test[0].lower(), test_net(test[1], i), test_net(test[2], i))

        tested: dict[Instance, Any] = {}

        def test_of(i: Instance) -> int:
            if i not in tested:
                tested[i] = test_net(self.term[i[0]][1], i)
            return tested[i]

        refused: dict[Instance, Any] = {}

        def not_test(i: Instance) -> int:
            if i not in refused:
                refused[i] = gate("not", test_of(i))
            return refused[i]

        emits: dict[Any, Any] = {}
        for i in self.live:
            if self.form[i[0]] == "Emit":
                emits.setdefault(self.status(self.term[i[0]][1], i), []).append(i)

        upto: dict[Any, Any] = {}

        def branch(i: Instance, c: int, j: int) -> Any:
            """Bi(j) of the Par instance i."""
            net = wire("end", (c, i[1]), j)
            if i[1] == RESUMED and j == 0:
                if (c, RESUMED) not in self.is_live:
                    return wire("go", i)
                if c not in unselected:
                    unselected[c] = gate("not", selected[c])
                return any_of([net, both(wire("go", i), unselected[c])])
            return net

        def upto_net(i: Instance, c: int, k: int) -> Any:
            if k < 0:
                return None
            if (i, c, k) not in upto:
                upto[i, c, k] = any_of([upto_net(i, c, k - 1), branch_net(i, c, k)])
            return upto[i, c, k]

        branches: dict[Any, Any] = {}

        def branch_net(i: Instance, c: int, k: int) -> Any:
            if (i, c, k) not in branches:
                branches[i, c, k] = branch(i, c, k)
            return branches[i, c, k]

        def equation(w: int) -> Any:
            name = self.wires[w]
            if name[0] in ("out", "st"):
                parts = [wire("go", i) for i in emits.get(w, [])]
                if name[0] == "out" and name[1] < given:
                    parts.append(name[1])
                return any_of(parts)
            i = name[1]
            n, root = i
            if name[0] == "go":
                if n == 0:
                    return boot if root == 0 else selected[0]
                p = self.parent_of(i)
                form = self.form[p[0]]
                if root == n:
                    first_part = self.kids[p[0]][0]
                    return wire("end", (first_part, RESUMED), 0)
                go = wire("go", p)
                if root != RESUMED:
                    if form == "Present":
                        return both(go, test_of(p) if self.number[n] == 0 else not_test(p))
                    if form == "Seq" and self.number[n] == 1:
                        return wire("end", (self.kids[p[0]][0], root), 0)
                    return go
                if form in BOTH:
                    return both(go, selected[n])
                if form == "Suspend":
                    return both(go, not_test(p))
                return go
            k = name[2]
            form, kids = self.form[n], self.kids[n]
            go = wire("go", i)
            if not kids:
                return go
            parts = [wire("end", (c, root), k) for c in kids]
            if form == "Suspend" and root == RESUMED and k == 1:
                parts.append(both(go, test_of(i)))
            elif form == "Seq":
                if k == 0:
                    parts[0] = None
                if root == RESUMED:
                    parts.append(wire("end", (kids[1], kids[1]), k))
            elif form == "Loop" and root == RESUMED:
                parts.append(wire("end", (kids[0], kids[0]), k))
            elif form == "Trap":
                parts = [
                    wire("end", (kids[0], root), j) for j in sorted(self.codes((kids[0], root))) if trap_rule(j) == k
                ]
            elif form == "Par":
                ends = any_of([branch_net(i, c, k) for c in kids])
                sides = [upto_net(i, c, k) for c in kids]
                return both(both(any_of([sides[0]]), any_of([sides[1]])), ends)
            return any_of(parts)

        if order is None:
            for w in range(len(self.wires)):
                value[w] = gate("copy", None)
                gates[-1][1] = w
            for w in range(len(self.wires)):
                gates[value[w] - first][0] = ("copy", equation(w))
        for w in order or ():
            net = equation(w)
            value[w] = gate("copy", net)
            gates[-1][1] = w

        kept: dict[Any, Any] = {}

        def kept_net(i: Any) -> int:
            chain = []
            while i is not None and i not in kept:
                chain.append(i)
                i = self.parent_of(i)
            for i in reversed(chain):
                p = self.parent_of(i)
                if p is None:
                    kept[i] = TRUE
                elif self.form[p[0]] == "Par":
                    kept[i] = both(kept[p], any_of([wire("end", p, 1)]))
                else:
                    kept[i] = kept[p]
            return kept[chain[0]] if chain else kept[i]

        started: dict[Any, Any] = {}
        for n, root in self.live:
            if root != RESUMED and self.form[n] == "Pause":
                started.setdefault(n, []).append((n, root))
        hold: dict[int, Any] = {-1: FALSE}
        for n in self.tree:
            above = hold[self.parent[n]] if n else FALSE
            if self.form[n] == "Suspend":
                i = (n, RESUMED)
                above = any_of([above, both(both(wire("go", i), test_of(i)), kept_net(i))])
            hold[n] = above
        latches: list[Any] = [(True, FALSE)]
        for n in self.leaf:
            parts = [both(wire("go", i), kept_net(i)) for i in started.get(n, [])]
            parts.append(both(latch[n], hold[n]))
            latches.append((False, any_of(parts)))
        paused = any_of([wire("end", (0, 0), 1), wire("end", (0, RESUMED), 1)])
        outputs = [
            (self.names[s], value[self.index["out", s]]) for s in range(kp.inputs, kp.inputs + kp.both + kp.outputs)
        ]
        result = Net(
            self.name,
            [self.names[s] for s in range(given)],
            outputs,
            paused,
            latches,
            [(tuple(op), w) for op, w in gates],
        )
        return result

    # ---- heads and regions
    def head_of(self, i: Instance) -> tuple[int, int]:
        if i[1] != RESUMED:
            return (i[1], i[1])
        n = i[0]
        while n != 0 and self.form[self.parent[n]] != "Par":
            n = self.parent[n]
        return (n, RESUMED)

    def regions(self) -> tuple[dict[int, tuple[int, int]], dict[tuple[int, int], int]]:
        """(wire -> head, head -> wire of its go), wires by number."""
        region, go_wire = {}, {}
        for w, wire in enumerate(self.wires):
            if wire[0] in ("go", "end"):
                head = self.head_of(wire[1])
                if wire[0] == "go" and head == wire[1]:
                    go_wire[head] = w
                else:
                    region[w] = head
        return region, go_wire

    # ---- widths of encoded states
    def encoded_latches(self) -> int:
        leaves = len(self.leaf)
        if leaves == 0:
            return 1
        if leaves > 1024:
            return 1 + leaves
        return 1 + min(leaves, self.widths(self.tree[0])[1])

    def widths(self, n: int) -> tuple[int, int]:
        """The width of a state of the node that is not empty, and of one that may be."""
        while self.form[n] in ("Loop", "Suspend", "Trap", "Local"):
            n = self.tree_kids(n)[0]
        form = self.form[n]
        if form == "Pause":
            return 0, 1
        if form == "Par":
            marks = [self.marked(c) for c in self.tree_kids(n)]
            both = [self.widths(c) for c in self.tree_kids(n)]
            if all(marks):
                total = sum(v for _, v in both)
                return total, total
            total = sum(v if m else w for m, (w, v) in zip(marks, both))
            return total, total + 1
        parts = []
        stack = [n]
        while stack:  # flatten exclusive cores into one list of parts
            m = stack.pop()
            while self.form[m] in ("Loop", "Suspend", "Trap", "Local"):
                m = self.tree_kids(m)[0]
            if self.form[m] in ("Seq", "Present"):
                stack.extend(reversed(self.tree_kids(m)))
            else:
                parts.append(m)
        both = [self.widths(c) for c in parts]
        if len(both) == 1:
            return both[0]
        greatest = max(w for w, _ in both)

        def bits(k: int) -> int:
            return (k - 1).bit_length()

        return bits(len(both)) + greatest, bits(len(both) + 1) + greatest


def topological(count: int, edges: list[tuple[int, int]]) -> Optional[list[int]]:
    """An order with no wire before one that has an edge to it, or None."""
    after: list[list[int]] = [[] for _ in range(count)]
    waiting = [0] * count
    for a, b in edges:
        after[a].append(b)
        waiting[b] += 1
    ready = [w for w in range(count) if waiting[w] == 0]
    ready.reverse()
    order = []
    while ready:
        w = ready.pop()
        order.append(w)
        for b in after[w]:
            waiting[b] -= 1
            if waiting[b] == 0:
                ready.append(b)
    return order if len(order) == count else None
