"""Guarded C: blocks of assignments that a call may skip, the rules on names there, and the text of a netlist.

Stands for `Grammar`, `Names` and `Machine` (crates/csub_guard/specs/), `Owners` and `Blocks`
(crates/csub_guard_blocks/specs/).
"""

from __future__ import annotations

from typing import Any, Optional, TYPE_CHECKING

from rules.c_subset import CRunner, c_lines, check_twice, gate_line, parse_c
from rules.expressions import names_in
from rules.text_faults import TEXT_LIMIT, TextFault

if TYPE_CHECKING:
    from rules.c_subset import CProgram
    from rules.kernel import Tree
    from rules.netlist import Net


def read_guarded(text: bytes) -> CProgram:
    if len(text) > TEXT_LIMIT:
        raise TextFault("TooLong")
    prog = parse_c(text, True)
    declared = check_twice(prog)
    local = set(prog.locals)

    def undeclared(expr: Tree) -> None:
        for used in names_in(expr):
            if used not in declared:
                raise TextFault("Undeclared", used)

    for item in prog.body:
        if item[0] == "assign":
            if item[1] not in declared or item[1].startswith(b"I_"):
                raise TextFault("Undeclared", item[1])
            undeclared(item[2])
        else:
            if item[1] not in local:
                raise TextFault("Undeclared", item[1])
            for _, name, expr in item[2] + item[3]:
                if name not in local:
                    raise TextFault("Undeclared", name)
                undeclared(expr)
    undeclared(prog.answer)

    # Again: the second place of a local, unless the two places are the two halves of one block
    place: dict[bytes, Any] = {}
    for number, item in enumerate(prog.body):
        if item[0] == "assign":
            if item[1] in local:
                if item[1] in place:
                    raise TextFault("Again", item[1])
                place[item[1]] = ("out",)
        else:
            for half in (0, 1):
                for _, name, _ in item[2 + half]:
                    if name not in place:
                        place[name] = (number, half)
                    elif place[name] == (number, 0) and half == 1:
                        place[name] = (number, "both")
                    else:
                        raise TextFault("Again", name)

    # Unset: what was assigned before each read
    outside = set()  # locals assigned earlier outside blocks
    both = set()  # locals assigned earlier in both halves of one block
    half_set = set()  # (name of the block's test, half, local)

    def unset(expr: Tree, test: Optional[bytes] = None, half: Optional[int] = None) -> None:
        for used in names_in(expr):
            if (
                used in local
                and used not in outside
                and used not in both
                and (test is None or (test, half, used) not in half_set)
            ):
                raise TextFault("Unset", used)

    for item in prog.body:
        if item[0] == "assign":
            unset(item[2])
            if item[1] in local:
                outside.add(item[1])
        else:
            test = item[1]
            if test not in outside:
                raise TextFault("Unset", test)
            in_first = {name for _, name, _ in item[2]}
            for half in (0, 1):
                for _, name, expr in item[2 + half]:
                    unset(expr, test, half)
                    half_set.add((test, half, name))
                    if half == 1 and name in in_first:
                        both.add(name)
    unset(prog.answer)
    return prog


class GuardedRunner(CRunner):
    pass


def owners(
    net: Net, region: dict[int, tuple[int, int]], go_wire: dict[tuple[int, int], int]
) -> tuple[list[Any], list[bool], dict[int, int]]:
    """For each gate the head that it belongs to, or None, and whether it is inner.

    region: dict wire -> head, for the wires that lie in a region.  go_wire: dict head -> wire."""
    first = net.first_gate()
    gate_of = {wire: k for k, (_, wire) in enumerate(net.gates) if wire is not None}
    uses: list[list[int]] = [[] for _ in net.gates]  # the using gates; -1 for another use
    for k, (op, _) in enumerate(net.gates):
        if op[0] != "const":
            for operand in op[1:]:
                if operand >= first:
                    uses[operand - first].append(k)
    for source in [s for _, s in net.latches] + [s for _, s in net.outputs] + [net.paused]:
        if source >= first:
            uses[source - first].append(-1)
    owner: list[Any] = [None] * len(net.gates)
    for k in range(len(net.gates) - 1, -1, -1):
        wire = net.gates[k][1]
        if wire is not None:
            head = region.get(wire)
        else:
            heads = {None if u < 0 else owner[u] for u in uses[k]}
            head = heads.pop() if len(heads) == 1 else None
        if head is not None and k > gate_of[go_wire[head]]:
            owner[k] = head
    inner = [
        owner[k] is not None and all(u >= 0 and owner[u] == owner[k] for u in uses[k]) for k in range(len(net.gates))
    ]
    return owner, inner, gate_of


def guarded_lines(
    net: Net, names: list[bytes], region: dict[int, tuple[int, int]], go_wire: dict[tuple[int, int], int]
) -> list[bytes]:
    owner, inner, gate_of = owners(net, region, go_wire)
    first = net.first_gate()
    lines = []
    k = 0
    while k < len(net.gates):
        if owner[k] is None:
            lines.append(gate_line(net, names, k))
            k += 1
            continue
        end = k
        while end < len(net.gates) and owner[end] == owner[k]:
            end += 1
        lines.append(b"if (%s) {" % names[first + gate_of[go_wire[owner[k]]]])
        lines += [gate_line(net, names, g) for g in range(k, end)]
        outer = [g for g in range(k, end) if not inner[g]]
        if outer:
            lines.append(b"} else {")
            lines += [b"%s = 0;" % names[first + g] for g in outer]
        lines.append(b"}")
        k = end
    return lines


def write_guarded(net: Net, region: dict[int, tuple[int, int]], go_wire: dict[tuple[int, int], int]) -> bytes:
    return c_lines(net, lambda names: guarded_lines(net, names, region, go_wire))
