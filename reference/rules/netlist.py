"""Netlists: gates of two inputs and latches, and their values.

Stands for `Netlists`, `Gates` and `Runs` (crates/net_ir/specs/), and for the names that texts give to a net's
parts (crates/net_expressions/specs/NetNames.antt). Nets are numbered: the inputs, the latches, the gates. A gate
is an operator, ("const", bool) ("copy", n) ("not", n) ("and", a, b) or ("or", a, b), and the wire that it carries,
or None.
"""

from __future__ import annotations

from typing import Optional, Sequence, Any, Callable, TYPE_CHECKING

if TYPE_CHECKING:
    from rules.kernel import Tree


class Net:
    def __init__(
        self,
        name: bytes,
        inputs: list[bytes],
        outputs: list[tuple[bytes, int]],
        paused: int,
        latches: list[tuple[bool, int]],
        gates: list[Any],
    ) -> None:
        self.name = name
        self.inputs = list(inputs)  # names
        self.outputs = list(outputs)  # (name, net)
        self.paused = paused
        self.latches = list(latches)  # (init, from)
        self.gates = list(gates)  # (op, wire)

    def first_gate(self) -> int:
        return len(self.inputs) + len(self.latches)

    def invariant(self) -> None:
        first = self.first_gate()
        total = first + len(self.gates)
        for k, (op, _) in enumerate(self.gates):
            assert op[0] == "const" or all(operand < first + k for operand in op[1:])
        assert self.paused < total
        assert all(net < total for _, net in self.outputs)
        assert all(net < total for _, net in self.latches)
        wires = [w for _, w in self.gates if w is not None]
        assert len(wires) == len(set(wires))


def gate_value(op: Tree, values: list[bool]) -> bool:
    if op[0] == "const":
        return op[1]
    if op[0] == "copy":
        return values[op[1]]
    if op[0] == "not":
        return not values[op[1]]
    if op[0] == "and":
        return values[op[1]] and values[op[2]]
    return values[op[1]] or values[op[2]]


class NetMachine:
    def __init__(self, net: Net) -> None:
        self.net = net
        self.reset()

    def reset(self) -> None:
        self.state = [init for init, _ in self.net.latches]
        self.values: Optional[list[bool]] = None

    def react(self, inputs: Sequence[bool]) -> tuple[Any, ...]:
        values = [bool(bit) for bit in inputs] + list(self.state)
        for op, _ in self.net.gates:
            values.append(gate_value(op, values))
        self.values = values
        self.state = [values[source] for _, source in self.net.latches]
        return [values[n] for _, n in self.net.outputs], values[self.net.paused]


def run_net(net: Net, items: list[list[Any]]) -> list[Any]:
    """Per event the outputs and paused."""
    machine = NetMachine(net)
    answers = []
    for item in items:
        if item == "reset":
            machine.reset()
        else:
            answers.append(machine.react(item))
    return answers


def letter_names(net: Net, prefix: bytes, input_form: Callable[..., Any]) -> list[bytes]:
    """The names of all nets; gates are gK or wN after the prefix."""
    names = [input_form(j, name) for j, name in enumerate(net.inputs)]
    names += [prefix + b"s%d" % j for j in range(len(net.latches))]
    for k, (_, wire) in enumerate(net.gates):
        names.append(prefix + (b"g%d" % k if wire is None else b"w%d" % wire))
    return names


def gate_text(op: Tree, names: list[bytes], not_mark: bytes, zero: bytes, one: bytes) -> bytes:
    if op[0] == "const":
        return one if op[1] else zero
    if op[0] == "copy":
        return names[op[1]]
    if op[0] == "not":
        return not_mark + names[op[1]]
    return names[op[1]] + (b" & " if op[0] == "and" else b" | ") + names[op[2]]


def worked_net() -> Net:
    """The netlist of the worked examples: one input, a latch that reads the second of two gates."""
    return Net(b"T", [b"A"], [(b"O", 2)], 1, [(False, 3)], [(("and", 0, 1), None), (("not", 2), None)])
