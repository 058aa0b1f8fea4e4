"""Netlists in which nothing is left to simplify, and one way to get there.

Stands for `Rules`, `SimpleNets` and `SameRuns` (crates/net_simp/specs/).
"""

from __future__ import annotations

from typing import Any, Optional, TYPE_CHECKING

from rules.netlist import Net

if TYPE_CHECKING:
    from rules.kernel import Tree


def simplified_violations(net: Net) -> list[Any]:
    """What is left to simplify, one text each."""
    first = net.first_gate()
    found = []
    seen: dict[Any, Any] = {}
    used = {source for _, source in net.latches} | {source for _, source in net.outputs}
    used.add(net.paused)
    for op, _ in net.gates:
        if op[0] != "const":
            used.update(op[1:])

    def free(n: int) -> bool:
        return n >= first

    for k, (op, wire) in enumerate(net.gates):
        if wire is not None:
            continue
        if op in seen:
            found.append("gates %d and %d have the same op %s" % (seen[op], k, op))
        seen.setdefault(op, k)
        if op[0] == "copy":
            found.append("gate %d is a Copy" % k)
        if op[0] in ("and", "or", "not"):
            for operand in op[1:]:
                if free(operand) and net.gates[operand - first][0][0] in ("copy", "const"):
                    found.append("gate %d has an operand that is a Copy or a Const" % k)
        if op[0] in ("and", "or") and op[1] == op[2]:
            found.append("gate %d has one operand twice" % k)
        if first + k not in used:
            found.append("gate %d is not used" % k)
    return found


def simplify(net: Net) -> Net:
    """A net in which nothing is left to simplify, with the same runs and the same carried gates in order."""
    first = net.first_gate()
    gates = []  # new gates
    to = list(range(first))  # old net -> new net
    seen = {}

    def const(bit: bool) -> int:
        return put(("const", bit))

    def put(op: Tree) -> int:
        if op not in seen:
            gates.append((op, None))
            seen[op] = first + len(gates) - 1
        return seen[op]

    def root(n: int) -> int:
        """Through Copy gates, carried ones too."""
        while n >= first and gates[n - first][0][0] == "copy":
            n = gates[n - first][0][1]
        return n

    def known(n: int) -> Optional[bool]:
        return gates[n - first][0][1] if n >= first and gates[n - first][0][0] == "const" else None

    def free(op: Tree) -> int:
        """The new net of an op that carries no wire."""
        if op[0] == "const":
            return put(op)
        a = root(op[1])
        ka = known(a)
        if op[0] == "copy":
            return a
        if op[0] == "not":
            return put(("not", a)) if ka is None else const(not ka)
        b = root(op[2])
        kb = known(b)
        absorbing = op[0] == "or"  # the value that decides the gate
        if ka is absorbing or kb is absorbing:
            return const(absorbing)
        if ka is not None:
            return b
        if kb is not None or a == b:
            return a
        return put((op[0], a, b))

    for op, wire in net.gates:
        new = op if op[0] == "const" else (op[0],) + tuple(to[n] for n in op[1:])
        if wire is None:
            to.append(free(new))
        else:
            if new[0] == "copy" and new[1] >= first and gates[new[1] - first][0][0] == "const":
                new = gates[new[1] - first][0]
            gates.append((new, wire))
            to.append(first + len(gates) - 1)
    # unused gates that carry no wire go away
    used = {to[s] for _, s in net.latches} | {to[s] for _, s in net.outputs} | {to[net.paused]}
    keep = [False] * len(gates)
    for k in range(len(gates) - 1, -1, -1):
        op, wire = gates[k]
        keep[k] = wire is not None or first + k in used
        if keep[k] and op[0] != "const":
            used.update(op[1:])
    place = list(range(first))
    kept: list[Any] = []
    for k, (op, wire) in enumerate(gates):
        place.append(first + len(kept))
        if keep[k]:
            kept.append((op if op[0] == "const" else (op[0],) + tuple(place[n] for n in op[1:]), wire))

    def final(n: int) -> int:
        return place[to[n]]

    return Net(
        net.name,
        net.inputs,
        [(name, final(n)) for name, n in net.outputs],
        final(net.paused),
        [(init, final(n)) for init, n in net.latches],
        kept,
    )


def carry(net: Net, groups: list[list[int]], order: Any) -> Net:
    """The net with no carrying gates but new ones at its end: wire w is the or of the old wires
    groups[w]; they come in the given order."""
    first = net.first_gate()
    gate_of = {w: first + k for k, (_, w) in enumerate(net.gates) if w is not None}
    gates: list[Any] = [(op, None) for op, _ in net.gates]
    for w in order:
        value = gate_of[groups[w][0]]
        for d in groups[w][1:]:
            gates.append((("or", value, gate_of[d]), None))
            value = first + len(gates) - 1
        gates.append((("copy", value), w))
    return Net(net.name, net.inputs, net.outputs, net.paused, net.latches, gates)
