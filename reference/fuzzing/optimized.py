"""What `cec-opt` answers, against its rules: the faults exactly, and of a text that it writes what every such text
keeps.
"""

from __future__ import annotations

import random
import re
from typing import Optional, Sequence

from fuzzing.cases import Case
from fuzzing.constructive import check_answer
from fuzzing.embedded import check_calls, net_of_embedded
from fuzzing.sources import event_items
from fuzzing.written import Difference, need, net_of_text
from rules.blif import Blif, read_blif
from rules.compiling import compile_source, text_of
from rules.embedded_c import Layout
from rules.netlist import Net
from rules.optimizer import (
    ABOUT,
    BAD_COMPONENT,
    FILE_FAULT,
    LIMIT,
    STATIC,
    Asked,
    Refused,
    asked_of,
    circuit_of,
    component_line,
    gates_at_most,
    numbered_relations,
    plain_outputs,
)
from rules.outcomes import Outcome
from rules.simplification import simplified_violations
from rules.text_faults import is_loop
from rules.texts import open_text
from rules.traces import Relation

EVENTS = 40
# What a latch weighs in gates where the lighter one of two circuits of a source is written.
LATCH = 4
COUNTS = re.compile(rb"(.*): (\d+) inputs, (\d+) outputs, (\d+) latches, (\d+) gates, depth (\d+)\n")
Answer = tuple[bytes, bytes, int]


def unseen(net: Net) -> list[int]:
    """The latches and gates, by their nets, that no output shows, not even through latches."""
    inputs, first = len(net.inputs), net.first_gate()
    seen: set[int] = set()
    todo = [source for _, source in net.outputs] + [net.paused]
    while todo:
        n = todo.pop()
        if n in seen:
            continue
        seen.add(n)
        if n >= first:
            op = net.gates[n - first][0]
            todo += [] if op[0] == "const" else list(op[1:])
        elif n >= inputs:
            todo.append(net.latches[n - inputs][1])
    return [n for n in range(inputs, first + len(net.gates)) if n not in seen]


def depth(net: Net) -> int:
    depths = [0] * net.first_gate()
    for op, _ in net.gates:
        below = [depths[n] for n in op[1:]] if op[0] != "const" else []
        depths.append(max(below, default=0) + (op[0] not in ("const", "copy")))
    return max(depths, default=0)


def need_no_larger(blif: Blif, latches: int, gates: int, is_source: bool) -> None:
    """No more latches and no more gates; for a source, whose state may be in a code, no more weight."""
    if is_source:
        most = LATCH * len(blif.latches) + gates_at_most(blif)
        need(LATCH * latches + gates <= most, "%d latches and %d gates weigh over %d", latches, gates, most)
        return
    need(latches <= len(blif.latches), "%d latches of %d", latches, len(blif.latches))
    need(gates <= gates_at_most(blif), "%d gates", gates)


def need_small(blif: Blif, net: Net, is_source: bool) -> None:
    """The interface of the text, no more than its size, and nothing left to simplify."""
    need(net.inputs == blif.inputs, "inputs %r, not %r", net.inputs, blif.inputs)
    need([name for name, _ in net.outputs] == plain_outputs(blif), "outputs %r", net.outputs)
    need_no_larger(blif, len(net.latches), len(net.gates), is_source)
    broken = simplified_violations(net)
    need(not broken, "not simplified: %s", broken[:1])
    need(not unseen(net), "nothing shows the nets %r", unseen(net)[:3])


def check_embedded(
    text: bytes,
    component: bytes,
    written: bytes,
    is_source: bool = False,
    layout: Layout = Layout(),
    relations: Sequence[Relation] = (),
) -> None:
    """Raises Difference where a written embedded text is none that may stand for the text."""
    blif, _ = circuit_of(text)
    net = net_of_embedded(written, component, layout, blif.inputs, plain_outputs(blif))
    if net is not None:
        need_small(blif, net, is_source)
        check_calls(written, net, component, layout, [circuit_of(text)[1] for _ in range(2)], relations)


def check_text(
    kind: str, text: bytes, written: bytes, seed: int = 1, is_source: bool = False, relations: Sequence[Relation] = ()
) -> None:
    """Raises Difference where a written text is none that may stand for the text."""
    blif, runner = circuit_of(text)
    net = net_of_text(kind, written, blif.name)
    need(net.name == blif.name, "the name is %r and not %r", net.name, blif.name)
    need_small(blif, net, is_source)
    need(all(wire is None for _, wire in net.gates), "a gate carries a wire")
    other = open_text(kind, written)
    rng = random.Random(seed)
    instant = 0
    for item in event_items(rng, EVENTS, relations, len(blif.inputs)):
        if isinstance(item, str):
            runner.reset()
            other.reset()
            continue
        instant += 1
        runner.react(item)
        other.react(item)
        shown = (list(map(bool, other.outputs)), bool(other.word))
        need(shown == (runner.outputs, bool(runner.word)), "event %d: other values are shown", instant)


def check_counts(text: bytes, out: bytes, is_source: bool = False) -> None:
    blif, _ = circuit_of(text)
    lines = COUNTS.findall(out)
    need(len(lines) == 2 and b"".join(out.splitlines(True)) == out and out.count(b"\n") == 2, "not two lines of counts")
    before, after = ([int(number) for number in line[1:]] for line in lines)
    need(all(line[0] == blif.name for line in lines), "another name")
    given = [len(blif.inputs), len(blif.outputs), len(blif.latches)]
    need(before[:3] == given, "the first line has %r, not %r", before[:3], given)
    need(before[3] <= gates_at_most(blif), "%d gates", before[3])
    need(after[:2] == before[:2], "the interface differs")
    need_no_larger(blif, after[2], after[3], is_source)
    need(is_source or after[2] <= before[2] and after[3] <= before[3], "the second netlist is larger")


def text_asked(case: Case, asked: Asked) -> bytes:
    """The text that is made smaller: the file, or what the source in it compiles to."""
    assert asked.file is not None
    if asked.file not in case.files:
        raise Refused(FILE_FAULT, b"cannot read " + asked.file)
    text = case.files[asked.file]
    if asked.is_source:
        return text_of(compile_source(text, asked.main), "blif")
    circuit_of(text)
    return text


def judge(case: Case, got: Answer) -> tuple[str, Optional[str]]:
    """The outcome that is due, and what is amiss."""
    out, err, status = got
    try:
        asked = asked_of(case.words)
        if asked.file is None:
            told = (ABOUT[asked.command], b"", 0)
            return "Done", None if got == told else "what it writes about itself"
        text = text_asked(case, asked)
        relations = numbered_relations(circuit_of(text)[0], asked) if asked.given else []
        if asked.component is not None:
            need_component(asked.component, text)
    except Refused as refused:
        return "Refused", judge_refusal(case, refused, got)
    except Outcome as outcome:
        if outcome.kind == "Cyclic":
            return judge_cyclic(case, asked, got)
        return "Refused", judge_source(outcome, asked.file or b"", got)
    if status != 0 or err:
        return "Done", "status %r, err %r" % (status, err)
    try:
        if asked.component is not None:
            check_embedded(text, asked.component, out, asked.is_source, asked.layout, relations)
        elif asked.command == b"check":
            check_counts(text, out, asked.is_source)
        else:
            check_text(asked.command.decode(), text, out, is_source=asked.is_source, relations=relations)
    except Difference as difference:
        return "Done", "text: %s" % difference
    return "Done", None


def need_component(component: bytes, text: bytes) -> None:
    """Raises Refused where the circuit of a text has no embedded text under a name."""
    blif, _ = circuit_of(text)
    line = component_line(component, blif.inputs + plain_outputs(blif))
    if line is not None:
        raise Refused(BAD_COMPONENT, line)


def judge_cyclic(case: Case, asked: Asked, got: Answer) -> tuple[str, Optional[str]]:
    """A source whose dependencies have a cycle."""
    assert asked.file is not None
    kind = {0: "Constructive", BAD_COMPONENT: "Constructive", 12: "NotConstructive"}.get(got[2], "Undecided")
    try:
        check_answer(asked, compile_source(case.files[asked.file], asked.main, cyclic_ok=True), got)
    except Difference as difference:
        return kind, "cycle: %s" % difference
    return kind, None


def judge_source(outcome: Outcome, file: bytes, got: Answer) -> Optional[str]:
    """A source that does not compile, for another cause than a cycle."""
    out, err, status = got
    due = STATIC if outcome.kind == "Static" else LIMIT
    if status != due:
        return "status %r, not %r" % (status, due)
    if out:
        return "stdout"
    line = b"cec: " + outcome.line if due == STATIC else b"cec-opt: a limit is passed, see cec check " + file
    return None if err == line + b"\n" else "stderr"


def judge_refusal(case: Case, refused: Refused, got: Answer) -> Optional[str]:
    out, err, status = got
    if status != refused.status:
        return "status %r, not %r" % (status, refused.status)
    if out:
        return "stdout"
    if err == b"cec-opt: " + refused.line + b"\n":
        return None
    head = b"cec-opt: loop: "
    if refused.names and err.startswith(head) and err.endswith(b"\n"):
        names = err[len(head) : -1].split(b" -> ")
        return None if is_loop(read_blif(case.files[asked_of(case.words).file or b""]).uses(), names) else "not a loop"
    return "stderr"
