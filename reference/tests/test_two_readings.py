"""The parts of the reference that were written apart agree: both graphs, and runs by every meaning."""

from __future__ import annotations

import random
import unittest
from typing import Any

from fuzzing.sources import event_items, source
from rules.circuit import Shape
from rules.circuit_runs import TriMachine
from rules.circuit_sharing import Sharing
from rules.compiling import Compiled, check_line, compile_source, listing
from rules.dismantling import KernelProgram
from rules.graph import Graph, graph_of_program
from rules.kernel import Tree, parts, size
from rules.netlist import NetMachine
from rules.outcomes import Outcome
from rules.sharing import Shared
from rules.three_valued import NotConstructive, run_program

ROUNDS = 60


def depth_of_locals(t: Tree) -> int:
    return (t[0] == "Local") + max([depth_of_locals(part) for part in parts(t)] or [0])


def compiled(number: int) -> Compiled | None:
    rng = random.Random("readings/%d" % number)
    try:
        return compile_source(source(rng, rng.choice([2, 4, 6, 10]), 0), None, True)
    except Outcome:
        return None


def answers(kp: KernelProgram, items: list[Any], via: str) -> Any:
    try:
        return run_program(kp, items, via)
    except NotConstructive as stop:
        return (stop.instant, stop.answers)


class TwoReadings(unittest.TestCase):
    def test_graphs(self) -> None:
        for number in range(ROUNDS):
            done = compiled(number)
            if done is None:
                continue
            g, shape = graph_of_program(done.kp), done.shape
            self.assertEqual(g.listing(), listing(shape))
            self.assertEqual(g.check_line().encode() + b"\n", check_line(done))
            self.assertEqual(g.edges, shape.edges)
            self.assertEqual(g.cyclic, shape.order() is None)
            self.assertEqual(g.tree.encoded_latches(), shape.encoded_latches())
            self.check_sharing(g, shape)

    def check_sharing(self, g: Graph, shape: Shape) -> None:
        if g.cyclic:
            return
        one, other = Shared(g), Sharing(shape)
        self.assertEqual(one.members, other.members)
        self.assertEqual(one.edges, other.edges)
        self.assertEqual(one.full is not None, other.full)

    def test_runs(self) -> None:
        for number in range(ROUNDS):
            done = compiled(number)
            if done is None:
                continue
            items = event_items(random.Random(number), 6, done.relations, len(done.in_names))
            graph = graph_of_program(done.kp)
            expected = answers(done.kp, list(items), "tri")
            vias = [] if graph.cyclic else ["graph", "shared"]
            small = size(done.kp.body) <= 30 and depth_of_locals(done.kp.body) + len(done.out_names) <= 3
            for via in vias + (["terms"] if small else []):
                self.assertEqual(answers(done.kp, list(items), via), expected, (number, via))
            if not graph.cyclic:
                self.check_machines(done, items, expected)

    def check_machines(self, done: Compiled, items: list[Any], expected: Any) -> None:
        machines: list[Any] = [NetMachine(done.shape.generate()), TriMachine(done.shape)]
        for machine in machines:
            got = []
            for item in items:
                if item == "reset":
                    machine.reset()
                else:
                    answer = machine.react(item)
                    assert answer is not None
                    got.append((list(map(bool, answer[0])), int(answer[1])))
            self.assertEqual(got, [(list(map(bool, outputs)), code) for outputs, code in expected])
