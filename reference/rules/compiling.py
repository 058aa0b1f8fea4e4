"""From the bytes of a source to its graph, or to its first refusal.

Stands for `Compiling` and `Refusals` (crates/cec_compile/specs/). The order of refusals is that of the passes: the
front, the limit on instances, instantaneous loops, the limit on wires, cycles of the dependency relation.
"""

from __future__ import annotations

from typing import Callable, Optional

from rules.circuit import Shape, TooMany
from rules.circuit_sharing import Sharing
from rules.dismantling import dismantle
from rules.encoder import encode
from rules.expansion import Flat
from rules.front import flat_program, front
from rules.guarded_c import write_guarded
from rules.blif import write_blif
from rules.c_subset import write_c
from rules.kernel import Tree
from rules.limits import MAX_WIRES
from rules.outcomes import Outcome, refusal_outcome, static_line
from rules.refusals import Refusal
from rules.simplification import carry, simplify
from rules.text_faults import find_cycle
from rules.traces import Relation
from rules.verilog import write_verilog

Change = Callable[[Flat], Flat]


class Compiled:
    """A source's kernel program, its graph, and the names and relations of its interface.

    `change` makes another flat program of that of the source, before anything else.
    """

    def __init__(
        self, source: bytes, main: Optional[bytes], cyclic_ok: bool = False, change: Optional[Change] = None
    ) -> None:
        try:
            self.kp = dismantle(change(flat_program(source, main))) if change else front(source, main)
        except Refusal as refusal:
            raise refusal_outcome(refusal, source)
        try:
            shape = self.shape = Shape(self.kp)
        except TooMany:
            raise Outcome("Limit", b"limit: instances", "Instances")
        if shape.instant:
            place = min(span[0] for span in shape.instant)
            raise Outcome("Static", static_line(source, "InstantLoop", place), ("InstantLoop", place))
        if len(shape.wires) + shape.test_nodes > MAX_WIRES:
            raise Outcome("Limit", b"limit: wires", "Wires")
        if not cyclic_ok and shape.order() is None:
            cycle = cycle_of(shape)
            names = [shape.wire_text(w) for w in cycle]
            raise Outcome("Cyclic", b"cyclic: " + b" -> ".join(names), (shape, cycle))
        given = self.kp.inputs + self.kp.both
        self.in_names = shape.names[:given]
        self.out_names = shape.names[self.kp.inputs : given + self.kp.outputs]
        self.relations: list[Relation] = [
            ("implies", r[1], r[2]) if r[0] == "Implies" else ("excludes", r[1]) for r in self.kp.relations
        ]


def compile_source(source: bytes, main: Optional[bytes] = None, cyclic_ok: bool = False) -> Compiled:
    return Compiled(source, main, cyclic_ok)


def cycle_of(shape: Shape) -> list[int]:
    """A closed walk of the dependency relation of a graph that has one."""
    uses: dict[int, list[int]] = {a: [] for a in range(len(shape.wires))}
    for a, b in shape.edges:
        uses[a].append(b)
    _, cycle = find_cycle(uses)
    assert cycle is not None
    return cycle


def term_size(term: Tree) -> int:
    """The nodes of a kernel term, tests included."""
    total = 0
    stack = [term]
    while stack:
        for part in stack.pop():
            if isinstance(part, tuple) and part and isinstance(part[0], str):
                stack.append(part)
        total += 1
    return total


def check_line(done: Compiled) -> bytes:
    shape = done.shape
    sizes = (term_size(done.kp.body), len(shape.leaf), len(shape.live), len(shape.wires))
    return b"%s: %d nodes, %d pauses, %d instances, %d wires\n" % ((shape.name,) + sizes)


def listing(shape: Shape) -> bytes:
    """The text of `cec grc`: the nodes of the selection tree, then the wires."""
    lines = [b"grc 1"]
    for n in shape.tree:
        path = shape.path_text(n).encode()
        form = shape.form[n]
        if form == "Pause":
            lines.append(b"leaf " + path)
        elif form in ("Seq", "Present"):
            lines.append(b"excl " + path)
        elif form == "Par":
            lines.append(b"par " + path + b" %d%d" % tuple(shape.marked(c) for c in shape.kids[n]))
        else:
            lines.append(b"pass " + path)
    for w in range(len(shape.wires)):
        lines.append(b"w%d " % w + shape.wire_text(w))
    return b"".join(line + b"\n" for line in lines)


def text_of(done: Compiled, via: str, encoded: bool = False) -> bytes:
    """A text of the source. Which gates there are is free: these are of a plain netlist of the reference's own."""
    net = done.shape.generate()
    if via != "guard":
        sharing = Sharing(done.shape)
        if not sharing.full:
            net = carry(net, sharing.members, sharing.order)
    net = simplify(net)
    if encoded:
        net = encode(net, done.shape)
    if via == "blif":
        return write_blif(net)
    if via == "c":
        return write_c(net)
    if via == "verilog":
        return write_verilog(net)
    return write_guarded(net, *done.shape.regions())
