"""What `cec-opt --source` answers about a source whose dependencies have a cycle, against the least solutions of its graph, and
what `cec-prove` says of it where it is not constructive.

A trace to an instant that is not constructive is run again, exactly. Of a text, random events compare it with the reactions of the
source, and where the state space is small, a search over all states and events looks for an instant that is not constructive.
"""

from __future__ import annotations

import itertools
import random
import re
from typing import Optional

from fuzzing.embedded import check_calls, net_of_embedded
from fuzzing.sources import event_items
from fuzzing.written import Difference, need, net_of_text
from rules.circuit_runs import TriMachine
from rules.command import SourceRunner
from rules.compiling import Compiled
from rules.cycles import cycle_counts
from rules.embedded_c import Layout
from rules.optimizer import BAD_COMPONENT, Asked, component_line
from rules.outcomes import Outcome
from rules.simplification import simplified_violations
from rules.texts import open_text
from rules.traces import first_broken, read_trace

EVENTS = 60
# A search over at most this number of states, and of events in each of them.
STATES, CHOICES = 400, 64
DONE, LIMIT, STUCK, UNDECIDED = 0, 8, 12, 21
COUNTS = re.compile(rb"(.*): constructive, (\d+) components, (\d+) cuts\n\1: (\d+) inputs, (\d+) outputs, (\d+) latches, (\d+) gates, depth (\d+)\n")
Answer = tuple[bytes, bytes, int]


def events_of(done: Compiled) -> list[tuple[bool, ...]]:
    """The events that meet the relations, or none where they are many."""
    count = len(done.in_names)
    if 2**count > CHOICES:
        return []
    every = itertools.product((False, True), repeat=count)
    return [event for event in every if first_broken(done.relations, event) is None]


def stuck_state(done: Compiled) -> Optional[bool]:
    """Whether some events lead to an instant that is not constructive; none where the search is too large."""
    machine = TriMachine(done.shape)
    events = events_of(done)
    if not events:
        return None
    todo, seen = [tuple(machine.state)], {tuple(machine.state)}
    while todo:
        state = todo.pop()
        for event in events:
            machine.state = list(state)
            if machine.react(event) is None:
                return True
            after = tuple(machine.state)
            if after not in seen:
                seen.add(after)
                todo.append(after)
        if len(seen) > STATES:
            return None
    return False


def stuck_line(done: Compiled, trace: bytes) -> bytes:
    """The line about a trace that meets the relations, and whose last event is the first one that is not constructive."""
    items, fault = read_trace(trace, done.in_names, done.relations)
    need(fault is None and items and "reset" not in items, "not a trace of events")
    runner = SourceRunner(done, "tri")
    for number, item in enumerate(items, 1):
        try:
            runner.react(item)
        except Outcome as outcome:
            need(number == len(items), "instant %d of %d is not constructive", number, len(items))
            return outcome.line
    raise Difference("each instant of the trace is constructive")


def check_stuck(done: Compiled, got: Answer) -> None:
    """The line is that of the trace."""
    out, err, _ = got
    due = stuck_line(done, out)
    need(err == b"cec-opt: " + due + b"\n", "the line is %r, not %r", err, due)


def check_net(kind: str, done: Compiled, written: bytes, seed: int = 1) -> None:
    """A written text does what the source does, and is simplified."""
    net = net_of_text(kind, written, done.shape.name)
    need(net.inputs == done.in_names, "inputs %r, not %r", net.inputs, done.in_names)
    need([name for name, _ in net.outputs] == done.out_names, "outputs %r", net.outputs)
    need(not simplified_violations(net), "not simplified")
    runner, other = SourceRunner(done, "tri"), open_text(kind, written)
    rng = random.Random(seed)
    for instant, item in enumerate(event_items(rng, EVENTS, done.relations, len(done.in_names))):
        if isinstance(item, str):
            runner.machine.reset()
            other.reset()
            continue
        try:
            runner.react(item)
        except Outcome as outcome:
            raise Difference("a text, but item %d is not constructive: %s" % (instant, outcome.line.decode()))
        other.react(item)
        shown = (list(map(bool, other.outputs)), bool(other.word))
        need(shown == (list(map(bool, runner.outputs)), bool(runner.word)), "item %d: other values are shown", instant)


def check_counts(done: Compiled, out: bytes) -> None:
    """The lines of `check`: the cycles, counted, and the interface of the netlist."""
    lines = COUNTS.fullmatch(out)
    need(lines is not None, "not the lines of counts")
    assert lines is not None
    due = cycle_counts(len(done.shape.wires), done.shape.edges)
    need((int(lines[2]), int(lines[3])) == due, "%d components and %d cuts", *due)
    given = (done.shape.name, len(done.in_names), len(done.out_names) + 1)
    need((lines[1], int(lines[4]), int(lines[5])) == given, "another interface than %r", given)


def check_component(done: Compiled, component: bytes, written: bytes, layout: Layout) -> None:
    """An embedded text does what the source does."""
    net = net_of_embedded(written, component, layout, done.in_names, done.out_names)
    if net is None:
        return
    need(net.inputs == done.in_names, "inputs %r, not %r", net.inputs, done.in_names)
    need([name for name, _ in net.outputs] == done.out_names, "outputs %r", net.outputs)
    need(not simplified_violations(net), "not simplified")
    check_calls(written, net, component, layout, [SourceRunner(done, "tri") for _ in range(2)], done.relations)


def check_answer(asked: Asked, done: Compiled, got: Answer) -> None:
    """Raises Difference where the answer about a source with a cycle is none that may come."""
    out, err, status = got
    command = asked.command
    stuck = stuck_state(done)
    line = component_line(asked.component, done.in_names + done.out_names) if asked.component is not None else None
    need(status not in (DONE, BAD_COMPONENT) or (status == DONE) == (line is None), "status %r", status)
    if status == STUCK:
        check_stuck(done, got)
        need(stuck is not False, "no events lead to an instant that is not constructive")
    elif status == DONE:
        need(not err, "stderr %r", err)
        need(not stuck, "some events lead to an instant that is not constructive")
        if asked.component is not None:
            check_component(done, asked.component, out, asked.layout)
        elif command == b"check":
            check_counts(done, out)
        else:
            check_net(command.decode(), done, out)
    elif status == BAD_COMPONENT:
        need(not out and err == b"cec-opt: " + (line or b"") + b"\n", "stderr %r, not %r", err, line)
        need(not stuck, "some events lead to an instant that is not constructive")
    elif status == UNDECIDED:
        need(not out and err.startswith(b"cec-opt: undecided: "), "stderr %r", err)
        need(stuck is None, "undecided, though the state space is small")
    else:
        need(status == LIMIT and not out and err.startswith(b"cec-opt: limit: nets: "), "status %r", status)
