"""A text that the program wrote, against everything that such a text must keep.

It is of its profile, and exactly the written form of the netlist that it holds. Inputs, outputs and `_paused` come
in order. There is a latch for each pause and one more, or the encoded number. There are at most 16 gates for each
wire and each test node of a live instance, one gate carries each wire, in an order of the dependency relation, and
nothing is left to simplify. Over random events and resets the outputs, `_paused` and every carried wire have the
values of the graph.
"""

from __future__ import annotations

import random
from typing import Any, Optional, Sequence

from fuzzing.sources import event_items
from rules.blif import net_of_blif, read_blif, write_blif
from rules.c_subset import net_of_c, read_c, write_c
from rules.circuit_sharing import Sharing
from rules.compiling import Compiled, compile_source
from rules.expressions import NotWritten
from rules.guarded_c import owners, read_guarded, write_guarded
from rules.netlist import Net, NetMachine
from rules.outcomes import Outcome
from rules.simplification import simplified_violations
from rules.text_faults import TextFault
from rules.texts import TextMachine, open_text
from rules.verilog import net_of_verilog, read_verilog, write_verilog

GATES_FOR_EACH = 16
GATES_FOR_CODES = 64


class Difference(Exception):
    pass


class Wires:
    """The wires that a text carries: the members of each, the edges between them, and what they are counted by."""

    def __init__(self, members: list[list[int]], edges: Sequence[tuple[int, int]], size: int) -> None:
        self.members = members
        self.edges = edges
        self.size = size


def need(condition: object, text: str, *data: Any) -> None:
    if not condition:
        raise Difference(text % data if data else text)


def first_difference(got: bytes, want: bytes) -> str:
    """Where two texts part, by lines."""
    a, b = got.split(b"\n"), want.split(b"\n")
    for k in range(max(len(a), len(b))):
        x = a[k] if k < len(a) else None
        y = b[k] if k < len(b) else None
        if x != y:
            return "line %d is %r and should be %r" % (k + 1, x, y)
    return "same"


def written_net(kind: str, text: bytes, name: bytes) -> Net:
    if kind == "blif":
        return net_of_blif(read_blif(text))
    if kind == "c":
        return net_of_c(read_c(text), name)
    if kind == "guard":
        return net_of_c(read_guarded(text), name)
    return net_of_verilog(read_verilog(text))


def net_of_text(kind: str, text: bytes, name: bytes, done: Optional[Compiled] = None) -> Net:
    """The net of a written text; the text must be exactly the written form of it."""
    try:
        net = written_net(kind, text, name)
        net.invariant()
    except TextFault as fault:
        raise Difference("the text is not of its profile: %s %r" % fault.key())
    except NotWritten as fault:
        raise Difference("not the written form: %s" % fault)
    except AssertionError:
        raise Difference("the net breaks its invariant")
    if kind == "guard":
        assert done is not None
        region, go_wire = done.shape.regions()
        carried = {w for _, w in net.gates if w is not None}
        missing = [w for w in go_wire.values() if w not in carried]
        need(not missing, "the go wires %s are not carried", missing)
        again = write_guarded(net, region, go_wire)
    else:
        again = {"blif": write_blif, "c": write_c, "verilog": write_verilog}[kind](net)
    need(again == text, "not the written form: %s", first_difference(text, again))
    return net


def wires_of(done: Compiled, net: Net, kind: str) -> list[Wires]:
    """The wires that the net may carry: the shared ones, or each wire of the graph."""
    shape = done.shape
    found = {w for _, w in net.gates if w is not None}
    sharing = Sharing(shape)
    choices = []
    if not sharing.full and kind != "guard" and found == set(range(len(sharing.members))):
        choices.append(Wires(sharing.members, sharing.edges, len(sharing.members) + sharing.test_nodes))
    if found == set(range(len(shape.wires))):
        choices.append(Wires([[w] for w in sorted(found)], shape.edges, len(shape.wires) + shape.test_nodes))
    need(choices, "%d wires are carried: neither the %d of the graph nor the shared ones", len(found), len(shape.wires))
    return choices


def check_order(net: Net, edges: Sequence[tuple[int, int]]) -> None:
    place = {w: k for k, (_, w) in enumerate(net.gates) if w is not None}
    for a, b in edges:
        need(place[a] < place[b], "wire %d has an edge to wire %d and is assigned after it", a, b)


def check_shape(done: Compiled, net: Net, encoded: bool) -> None:
    shape = done.shape
    need(net.name == shape.name, "the name is %r and not %r", net.name, shape.name)
    need(net.inputs == done.in_names, "inputs %r, not %r", net.inputs, done.in_names)
    got = [name for name, _ in net.outputs]
    need(got == done.out_names, "outputs %r, not %r", got, done.out_names)
    latches = shape.encoded_latches() if encoded else 1 + len(shape.leaf)
    need(len(net.latches) == latches, "%d latches, not %d", len(net.latches), latches)
    need(net.latches[0][0], "latch 0 is not the boot latch")
    if not encoded:
        need(not any(init for init, _ in net.latches[1:]), "the first values of the latches")


def chosen_wires(done: Compiled, net: Net, kind: str, encoded: bool) -> Wires:
    choices = wires_of(done, net, kind)
    extra = GATES_FOR_CODES * len(done.shape.tree) * len(net.latches) if encoded else 0
    problem = Difference("no wires")
    for choice in choices:
        try:
            if not encoded:
                check_order(net, choice.edges)
            bound = GATES_FOR_EACH * choice.size + extra
            need(len(net.gates) <= bound, "%d gates, more than %d", len(net.gates), bound)
            return choice
        except Difference as difference:
            problem = difference
    raise problem


class Runs:
    """The text, the netlist that it holds and the source, side by side."""

    def __init__(self, done: Compiled, net: Net, wires: Wires, kind: str, text: bytes, encoded: bool) -> None:
        self.done, self.net, self.wires, self.kind, self.encoded = done, net, wires, kind, encoded
        self.runner: TextMachine = open_text(kind, text)
        own = done.shape.generate()
        self.own = NetMachine(own)
        self.place = {w: own.first_gate() + k for k, (_, w) in enumerate(own.gates) if w is not None}
        self.held = NetMachine(net)
        self.instant = 0
        if kind == "guard":
            region, go_wire = done.shape.regions()
            self.owner, self.inner, self.gate_of = owners(net, region, go_wire)
            self.go_wire = go_wire
            lines = write_c(net).split(b"\n")
            self.plain = sum(1 for line in lines if b" = " in line and not line.startswith(b"static"))

    def reset(self) -> None:
        for machine in (self.runner, self.own, self.held):
            machine.reset()

    def react(self, event: list[bool]) -> None:
        self.instant += 1
        n = self.instant
        outputs, paused = self.own.react(event)
        self.runner.react(event)
        self.held.react(event)
        own_state, held_state = self.own.state, self.held.state
        need(self.encoded or held_state == own_state, "event %d: the latches hold %r, not %r", n, held_state, own_state)
        need(held_state[0] == own_state[0], "event %d: latch 0 is not the boot latch", n)
        got = list(map(bool, self.runner.outputs))
        need(got == list(map(bool, outputs)), "event %d: outputs %r, not %r", n, got, outputs)
        need(bool(self.runner.word) == bool(paused), "event %d: paused %r, not %r", n, self.runner.word, paused)
        if self.kind == "guard":
            self.check_count()
        else:
            self.check_wires()

    def check_count(self) -> None:
        """The assignments of a call: all except those of gates that only a block at rest uses."""
        first = self.net.first_gate()
        values = self.held.values
        assert values is not None
        idle = 0
        for k, owner in enumerate(self.owner):
            idle += self.inner[k] and not values[first + self.gate_of[self.go_wire[owner]]]
        count = getattr(self.runner, "count")
        need(count == self.plain - idle, "event %d: count %d, not %d", self.instant, count, self.plain - idle)

    def check_wires(self) -> None:
        prefix = b"_" if self.kind == "blif" else b""
        values = self.own.values
        assert values is not None
        for w, members in enumerate(self.wires.members):
            value = any(values[self.place[d]] for d in members)
            got = self.runner.value(prefix + b"w%d" % w)
            name = self.done.shape.wire_text(members[0]).decode()
            need(bool(got) == bool(value), "event %d: wire w%d (%s) is %r, not %r", self.instant, w, name, got, value)


def check_text(
    kind: str,
    source: bytes,
    text: bytes,
    main: Optional[bytes] = None,
    encoded: bool = False,
    events: int = 40,
    seed: int = 1,
) -> None:
    """Raises Difference where the text is none that may stand for the source."""
    try:
        done = compile_source(source, main)
    except Outcome as outcome:
        raise Difference("the source is refused: %s" % outcome.line.decode("latin-1"))
    net = net_of_text(kind, text, done.shape.name, done)
    check_shape(done, net, encoded)
    wires = chosen_wires(done, net, kind, encoded)
    if not encoded:
        broken = simplified_violations(net)
        need(not broken, "not simplified: %s", broken[:1])
    runs = Runs(done, net, wires, kind, text, encoded)
    for item in event_items(random.Random(seed), events, done.relations, len(done.in_names)):
        if isinstance(item, str):
            runs.reset()
        else:
            runs.react(item)
