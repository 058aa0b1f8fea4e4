"""Worked equations of the crate grc_graph: wires, edges, values of equations, walks, live instances and selection
trees.

A block of `Examples` asks about one term. A `case` has the selected leaves (`-` for the first instant), the event
and a value for each wire. A block of `InstanceExamples` has `states`: selections, a bit for each leaf.
"""

from __future__ import annotations

from typing import Any, Callable, Optional

from equations.antt import apply, bits, codes, definition, equation, inner, listed, read_term, wrapped
from equations.kernels import kernel_of, shown
from equations.sheets import Block, Sheet
from rules.dismantling import KernelProgram
from rules.graph import Graph
from rules.kernel import Tree
from rules.selection import resume
from rules.systems import Truths, ev3

UNFOLDING = "listed codes_below"


def graph_of(t: Tree, inputs: int = 1, both: int = 1, outputs: int = 2) -> Graph:
    names = ["s%d" % n for n in range(inputs + both + outputs)]
    return Graph(KernelProgram("", names, inputs, both, outputs, [], t))


def layer(root: Optional[int]) -> str:
    return "Resumed" if root is None else "(Started %d)" % root


def wire(g: Graph, w: int) -> str:
    """A wire by its short name: `r` and `s` let an instance run, `re` and `se` are its ends."""
    form = g.wires[w]
    if form[0] == "out":
        return "Out %d" % form[1]
    b, root = g.inst[form[1]]
    if form[0] == "st":
        return "StatusOf %d %s" % (b, layer(root))
    if form[0] == "go":
        return "r %d" % b if root is None else "s %d %d" % (b, root)
    return "re %d %d" % (b, form[2]) if root is None else "se %d %d %d" % (b, root, form[2])


def edges_text(g: Graph) -> str:
    """The edges of each wire in one list."""
    ends: dict[int, list[int]] = {}
    for a, b in g.edges:
        ends.setdefault(a, []).append(b)
    parts = ["from %s (%s)" % (inner(wire(g, a)), listed(wire(g, b) for b in bs)) for a, bs in ends.items()]
    return " ++ ".join(parts) or "[]"


class Case:
    """One row: a state, an event and a value for each wire, as texts."""

    def __init__(self, text: str) -> None:
        state, self.event, self.values = text.split(" ")
        self.first = state == "-"
        self.selected = [] if self.first else [int(n) for n in state.split(",")]

    def given(self) -> str:
        return "given %s (%s) (%s)" % (inner(listed(map(str, self.selected))), codes(self.event), codes(self.values))

    def shown(self, g: Graph) -> str:
        values, following, emitted, code, kept, left = self.answer(g)
        rest = "None" if left is None else apply("Some", left)
        texts = [codes(bits(x)) for x in (values, following, emitted)]
        return apply("shown", *texts, code, codes(bits(kept)), rest)

    def answer(self, g: Graph) -> tuple[list[bool], list[bool], list[bool], int, list[bool], Optional[str]]:
        leaves = g.tree.leaf_path
        selected = [leaf in self.selected for leaf in leaves]
        holds = g.tree.holds(selected)
        event = [char == "1" for char in self.event]
        v = [char == "1" for char in self.values]
        values = [ev3(f, Truths(v), self.first, holds, event) == 2 for f in g.equations]
        following = g.next_state(v, self.first, holds, selected, event)
        status = {w: v[w] for w in g.status_wires()}
        _, emitted, code, kept = g.walk(self.first, selected, event, status)
        outs = [g.out[s] in emitted for s in g.outgoing]
        left = None if self.first else shown(resume(g.body, holds))
        return values, following, outs, code, [k in kept for k in range(len(leaves))], left


def example(block: Block) -> list[str]:
    name = block.one("name")
    t = kernel_of(read_term(block.one("term")))
    g = graph_of(t)
    out = [definition(name, "Term", shown(t))]
    out.append(equation(name + "_wires", "graph_wires " + name, listed(wire(g, w) for w in range(g.count)), UNFOLDING))
    same = "same_edges (edges (graph_spots %s)) (%s)" % (name, edges_text(g))
    out.append(equation(name + "_edges", same, "true", UNFOLDING))
    cases = [Case(text) for text in block.all("case")]
    lines = ["%s_cases : map (seen %s %s) (" % (name, name, inner(listed(map(str, g.tree.leaf_path))))]
    lines += [wrapped(case.given() + " ∷", "    ", "    ") for case in cases]
    lines.append("    []) ≡ (")
    lines += [wrapped(case.shown(g) + " ∷", "    ", "    ") for case in cases]
    lines += ["    [])", "unfolding " + UNFOLDING, "%s_cases = refl" % name]
    out.append("\n".join(lines) + "\n")
    return out


def instance(g: Graph, i: int) -> str:
    b, root = g.inst[i]
    return "resumed %d" % b if root is None else "started %d %d" % (b, root)


def tree_node(g: Graph, b: int, form: str, marks: Any) -> str:
    after = sum(1 for path, _, _ in g.tree.nodes if path < g.body.after[b])
    if form == "leaf":
        return "node %d %d (Leaf %d)" % (b, after, g.tree.leaf_of[b])
    if form == "par":
        return "node %d %d %s" % (b, after, apply("(Parallel", *["true" if m else "false" for m in marks]) + ")")
    return "node %d %d %s" % (b, after, {"excl": "Exclusive", "pass": "Passing"}[form])


def instances(block: Block) -> list[str]:
    name = block.one("name")
    t = kernel_of(read_term(block.one("term")))
    g = graph_of(t)
    given = block.one("states").split(" ") if block.one("states") != "-" else [""]
    states = [g.tree.well_formed([char == "1" for char in bits_]) for bits_ in given]
    return [
        definition(name, "Term", shown(t)),
        equation(name + "_instances", "body_instances " + name, listed(instance(g, i) for i in range(len(g.inst)))),
        equation(name + "_tree", "body_tree " + name, listed(tree_node(g, *node) for node in g.tree.nodes)),
        equation(
            name + "_states",
            "map (states %s) (%s)" % (name, listed(codes(bits_) for bits_ in given)),
            "bits " + inner(codes(bits(states))),
        ),
    ]


FILES: dict[str, Callable[[Block], list[str]]] = {"Examples": example, "InstanceExamples": instances}


def file_text(name: str) -> str:
    sheet = Sheet("grc_graph", name)
    return sheet.head + "\n".join(text for block in sheet.blocks for text in FILES[name](block))
