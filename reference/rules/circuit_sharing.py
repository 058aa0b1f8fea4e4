"""Wires that are one in texts: instances of a statement whose starts no loop tells apart.

Stands for `SharedInstances` and `SharedWires` (crates/grc_share/specs/), over `circuit`.
"""

from __future__ import annotations

from typing import Any, TYPE_CHECKING

from rules.circuit import RESUMED, topological

if TYPE_CHECKING:
    from rules.circuit import Shape
    from rules.kernel import Tree


class Sharing:
    """Classes of instances and of wires, and the edges between classes."""

    def __init__(self, shape: Shape) -> None:
        self.shape = shape
        form, parent = shape.form, shape.parent
        count = len(form)
        # c(r): paths of loop bodies strictly above r; n(b): paths of loop bodies at or above b
        self.n = [0] * count
        self.c = [0] * count
        for b in range(count):
            if b:
                self.c[b] = self.n[parent[b]]
            self.n[b] = self.c[b] + (1 if b and form[parent[b]] == "Loop" else 0)

        def instance_class(i: tuple[int, int]) -> tuple[Any, ...]:
            return (i[0], "r") if i[1] == RESUMED else (i[0], self.c[i[1]])

        def status_class(i: tuple[int, int]) -> tuple[int, int]:
            # a number for started ones; the resumed one joins c(r) = n(b)
            return (i[0], self.n[i[0]] if i[1] == RESUMED else self.c[i[1]])

        def wire_class(wire: Tree) -> Tree:
            if wire[0] == "out":
                return wire
            if wire[0] == "st":
                return ("st", status_class(wire[1]))
            return (wire[0], instance_class(wire[1])) + wire[2:]

        self.number: dict[Any, Any] = {}
        self.members: list[Any] = []
        self.of = []
        for w, wire in enumerate(shape.wires):
            key = wire_class(wire)
            if key not in self.number:
                self.number[key] = len(self.members)
                self.members.append([])
            self.of.append(self.number[key])
            self.members[self.of[w]].append(w)
        self.edges = sorted({(self.of[a], self.of[b]) for a, b in shape.edges})
        self.order = topological(len(self.members), self.edges)
        self.full = self.order is None
        seen = set()
        self.test_nodes = 0
        for i in shape.live:
            key = instance_class(i)
            if shape.tests(i) and key not in seen:
                self.test_nodes += shape.test_size(shape.term[i[0]][1])
            seen.add(key)
        self.instances = len(seen)
