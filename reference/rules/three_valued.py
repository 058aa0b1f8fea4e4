"""Runs of programs over graphs, with cycles or without, and over the tables of Must and Can.

Stands for `LeastSolutions` (crates/grc_ternary/specs/) and for the runs of crates/grc_ternary_run/specs/.
"""

from __future__ import annotations

from typing import Optional, Any, TYPE_CHECKING

from rules.graph import graph_of_program
from rules.reactions import run
from rules.refusals import Refusal
from rules.sharing import Shared

if TYPE_CHECKING:
    from rules.dismantling import KernelProgram
    from rules.graph import Graph


class NotConstructive(Exception):
    """The number of the instant, from 1, the names of the unknown wires, and the answers of the instants before."""

    def __init__(self, instant: int, wires: Any, answers: list[Any]) -> None:
        Exception.__init__(self, instant, wires)
        self.instant, self.wires, self.answers = instant, wires, answers


class Runner:
    """Runs a graph: by "tri", the least solution of any graph, by "graph", that of one without cycles, or by
    "shared", the graph of shared wires where it has no cycle.
    """

    def __init__(self, g: Graph, via: str = "tri") -> None:
        self.g = g
        self.via = via
        self.system: Any = g
        self.reactions = 0
        if via == "shared":
            s = Shared(g)
            if s.full is None:
                self.system = s
        if via != "tri" and g.cyclic:
            raise Refusal("Cyclic", "Cyclic", [g.wire_text(w) for w in g.closed_walk() or []])
        self.reset()

    def reset(self) -> None:
        self.boot = True
        self.selected = [False] * self.g.tree.leaves

    def react(self, event: Any) -> Any:
        """(outgoing statuses, code), or a list of unknown wires where not constructive."""
        s, holds = self.system, self.g.tree.holds(self.selected)
        if self.via == "tri" and s.cyclic:
            v3 = s.solve3(self.boot, holds, event)
            unknown = [w for w in range(s.count) if v3[w] == 1]
            if unknown:
                return unknown
            v = [x == 2 for x in v3]
        elif self.reactions < 4:  # few reactions: no text is generated
            self.reactions += 1
            v = [x == 2 for x in s.solve3(self.boot, holds, event)]
        else:
            v = s.solve2(self.boot, holds, event)
        outs, code, nxt = s.answer(v, self.boot, self.selected, event, holds)
        self.values = v
        self.boot, self.selected = False, nxt
        return outs, code


def run_program(kp: KernelProgram, items: Any, via: str = "tri", graph: Optional[Graph] = None) -> list[Any]:
    """The answers over items: (outgoing statuses, code) for each event.

    `via` is "tri", "graph" or "shared" (see Runner), or "terms", by the tables of Must and Can, which is slow. Raises
    NotConstructive where there is no reaction, and Refusal where the source is refused.
    """
    if via == "terms":
        out = run(kp, items)
        if out and out[-1] is None:
            raise NotConstructive(len(out), None, out[:-1])
        return out
    g = graph or graph_of_program(kp)
    runner = Runner(g, via)
    out = []
    for item in items:
        if isinstance(item, str) and item == "reset":
            runner.reset()
            continue
        a = runner.react(item)
        if isinstance(a, list):
            raise NotConstructive(len(out) + 1, [g.wire_text(w) for w in a], out)
        out.append(a)
    return out


def tri_react(g: Any, boot: Any, selected: Any, event: Any) -> Any:
    """One reaction: ((outgoing, code, next state), []), or None and the unknown wires."""
    holds = g.tree.holds(selected)
    v = g.solve3(boot, holds, event)
    unknown = [w for w in range(g.count) if v[w] == 1]
    if unknown:
        return None, unknown
    return g.answer([x == 2 for x in v], boot, selected, event, holds), []
