"""States in fewer latches: a code for the selections of the tree, and the netlist over it.

Stands for `EncodedCounts` (crates/net_state_enc/specs/), which fixes how many latches there are. The code itself
is free.
"""

from __future__ import annotations

from typing import Any, TYPE_CHECKING

from rules.netlist import Net

if TYPE_CHECKING:
    from rules.circuit import Shape


def code_of(shape: Shape, n: int, empty: bool) -> tuple[Any, ...]:
    """A code of the selections below the tree node n: (bits, leaves).

    bits: per code bit the set of leaves of which one selected makes it 1.
    leaves: leaf -> list of (bit number, wanted value) that together say that it is selected.
    empty: whether the code must also tell the empty selection, which has all bits 0."""
    while shape.form[n] in ("Loop", "Suspend", "Trap", "Local"):
        n = shape.tree_kids(n)[0]
    if shape.form[n] == "Pause":
        leaf = shape.leaf[n]
        return ([{leaf}], {leaf: [(0, True)]}) if empty else ([], {leaf: []})
    if shape.form[n] == "Par":
        kids = shape.tree_kids(n)
        marks = [shape.marked(c) for c in kids]
        bits: list[Any] = []
        leaves: dict[Any, Any] = {}
        head = []
        if not all(marks) and empty:
            bits.append(set())
            head = [(0, True)]
        for c, mark in zip(kids, marks):
            sub, conditions = code_of(shape, c, mark)
            for leaf, needs in conditions.items():
                leaves[leaf] = head + [(len(bits) + b, v) for b, v in needs]
            bits += sub
        if head:
            bits[0] = set(leaves)
        return bits, leaves
    parts = []
    stack = [n]
    while stack:
        m = stack.pop()
        while shape.form[m] in ("Loop", "Suspend", "Trap", "Local"):
            m = shape.tree_kids(m)[0]
        if shape.form[m] in ("Seq", "Present"):
            stack.extend(reversed(shape.tree_kids(m)))
        else:
            parts.append(m)
    if len(parts) == 1:
        return code_of(shape, parts[0], empty)
    width = (len(parts) - (0 if empty else 1)).bit_length()
    bits = [set() for _ in range(width)]
    leaves = {}
    for k, part in enumerate(parts):
        number = k + 1 if empty else k
        sub, conditions = code_of(shape, part, False)
        while len(bits) < width + len(sub):
            bits.append(set())
        for b, some in enumerate(sub):
            bits[width + b] |= some
        for b in range(width):
            if number >> b & 1:
                bits[b] |= set(conditions)
        head = [(b, bool(number >> b & 1)) for b in range(width)]
        for leaf, needs in conditions.items():
            leaves[leaf] = head + [(width + b, v) for b, v in needs]
    return bits, leaves


def encode(net: Net, shape: Shape) -> Net:
    """The net with the state in a code."""
    count = len(shape.leaf)
    if count == 0 or shape.encoded_latches() == 1 + count:
        return net
    bits, leaves = code_of(shape, shape.tree[0], True)
    assert len(bits) + 1 == shape.encoded_latches()
    ins = len(net.inputs)
    first = ins + 1 + len(bits)
    gates = []

    def gate(*op: int | str) -> int:
        gates.append((op, None))
        return first + len(gates) - 1

    inverse = {}
    memo = {}

    def literal(b: int, value: bool) -> int:
        if value:
            return ins + 1 + b
        if b not in inverse:
            inverse[b] = gate("not", ins + 1 + b)
        return inverse[b]

    def conjunction(needs: Any) -> int:
        needs = tuple(needs)
        if needs not in memo:
            memo[needs] = (
                literal(*needs[0]) if len(needs) == 1 else gate("and", conjunction(needs[:-1]), literal(*needs[-1]))
            )
        return memo[needs]

    to = list(range(ins + 1)) + [conjunction(leaves[k]) for k in range(count)]
    for op, wire in net.gates:
        gates.append((op if op[0] == "const" else (op[0],) + tuple(to[n] for n in op[1:]), wire))
        to.append(first + len(gates) - 1)
    latches = [(net.latches[0][0], to[net.latches[0][1]])]
    for some in bits:
        nets_of = [to[net.latches[1 + leaf][1]] for leaf in sorted(some)]
        value = nets_of[0]
        for other in nets_of[1:]:
            value = gate("or", value, other)
        latches.append((False, value))
    return Net(net.name, net.inputs, [(name, to[n]) for name, n in net.outputs], to[net.paused], latches, gates)
