"""Runs of a circuit with cycles: the least solution of its gates by Kleene's tables.

Stands for `LeastSolutions` (crates/grc_ternary/specs/).
"""

from __future__ import annotations

from typing import Sequence, Any, Optional, TYPE_CHECKING

if TYPE_CHECKING:
    from rules.circuit import Shape
    from rules.kernel import Tree


class TriMachine:
    """A circuit whose gates may read later ones; a value that is not known is None."""

    def __init__(self, shape: Shape) -> None:
        self.net = shape.circuit()
        self.first = self.net.first_gate()
        self.readers: dict[Any, Any] = {}
        for k, (op, _) in enumerate(self.net.gates):
            if op[0] != "const":
                for operand in set(op[1:]):
                    self.readers.setdefault(operand, []).append(k)
        self.reset()

    def reset(self) -> None:
        self.state: list[Any] = [init for init, _ in self.net.latches]
        self.unknown: list[Any] = []

    def gate_value(self, op: Tree, values: list[Optional[bool]]) -> Optional[bool]:
        kind = op[0]
        if kind == "const":
            return op[1]
        a = values[op[1]]
        if kind == "copy":
            return a
        if kind == "not":
            return None if a is None else not a
        b = values[op[2]]
        if kind == "and":
            if a is False or b is False:
                return False
            return None if a is None or b is None else True
        if a is True or b is True:
            return True
        return None if a is None or b is None else False

    def react(self, inputs: Sequence[bool]) -> Any:
        """(outputs, paused), or None with the unknown wires in self.unknown; the state then stays."""
        gates, first = self.net.gates, self.first
        values = [bool(bit) for bit in inputs] + list(self.state) + [None] * len(gates)
        todo = list(range(len(gates) - 1, -1, -1))
        while todo:
            k = todo.pop()
            if values[first + k] is None:
                got = self.gate_value(gates[k][0], values)
                if got is not None:
                    values[first + k] = got
                    todo.extend(self.readers.get(first + k, ()))
        self.unknown = sorted(w for k, (_, w) in enumerate(gates) if w is not None and values[first + k] is None)
        if self.unknown:
            return None
        self.values = values
        self.state = [values[source] for _, source in self.net.latches]
        return [values[n] for _, n in self.net.outputs], values[self.net.paused]
