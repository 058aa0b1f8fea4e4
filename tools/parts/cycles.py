"""A cycle of dependencies as the program shows it, in signals and statements of the source, and the pauses that break it."""
import re
from typing import NamedTuple

from listing import lies_in, parent, wire_of
from places import agrees, by_paths, kernel_of
from program import CYCLIC, DONE
from source import all_statements, modules_of
from syntax import asked
from tokens import Unread


class Step(NamedTuple):
    """A step of a cycle, or what stays unknown: what happens, of which signal, and the kernel statement at which it does."""

    kind: str
    signal: tuple
    kernel: object


class Cure(NamedTuple):
    """A place where a change breaks the cycle: the statement there, its module, and whether a weak abort, not a pause, does it."""

    statement: object
    module: str
    is_weak: bool = False


def without_emissions(text):
    """A source of the same tree in which no signal is emitted, so no cycle is in it; for comparing trees."""
    pieces, at = [], 0
    for module in modules_of(text):
        for statement in all_statements(module.body):
            if statement.form in ("emit", "sustain"):
                pieces.append(text[at : statement.start])
                pieces.append("nothing" if statement.form == "emit" else "[ loop nothing; pause end ]")
                at = statement.end
    return "".join(pieces) + text[at:]


def compared_kernels(text, main):
    """The kernel statements of a cyclic source by their paths, where they are those of the program's listing; else none."""
    try:
        bare = without_emissions(text)
        answer = asked(bare, main, "grc")
        body = kernel_of(text, main)
    except Unread:
        return None
    return by_paths(body) if answer.status == DONE and agrees(body, answer.out.decode("latin-1")) else None


def wires_in(line):
    """The wires of a line about a cycle; none where the line is another."""
    match = re.fullmatch(r"cec: cyclic: (.*)", line.strip())
    wires = [wire_of(text) for text in match[1].split(" -> ")] if match else []
    return wires if wires and None not in wires else None


def steps_of(wires, kernels):
    """The steps of a cycle: tests of signals, emissions, and ends that let what stands behind them start."""
    found = []
    for here, there in zip(wires, wires[1:] + wires[:1]):
        if here.kind in ("out", "st"):
            # What a status lets run is a part of the test, or the end of a suspension.
            above = kernels.get(there.path if there.kind == "end" else parent(there.path))
            signal = next((it for it in above.signals if it[1] == here.what), None) if above else None
            if signal is None:
                return None
            found.append(Step("test", signal, above))
        elif there.kind in ("out", "st"):
            emission = kernels.get(here.path)
            if emission is None or emission.form != "Emit":
                return None
            found.append(Step("emission", emission.signals[0], emission))
        elif here.kind == "end" and there.kind == "go":
            above = kernels.get(parent(here.path) or ".")
            found.append(Step("again" if above and above.form == "Loop" else "then", (), kernels.get(there.path)))
    return found if all(step.kernel is not None for step in found) else None


def unknown_of(wires, kernels):
    """What stays unknown in an instant that is not constructive: for each unknown signal its tests, and its emissions that may
    happen, each with the name that the signal has there."""
    starts = {wire.path for wire in wires if wire.kind == "go"}
    found = []
    for status in (wire for wire in wires if wire.kind in ("out", "st")):
        # A signal is told from others of its name by what its binder, or the interface, says. A count has no name in the source.
        scope, meant = ".", (status.what, status.what)
        if status.kind == "st":
            scope, binder = status.path, kernels.get(status.path)
            if binder is None or binder.form != "Local" or binder.origin.statement.form != "signal":
                continue
            meant = binder.signals[0][1:]
        named = [(path, it, signal) for path, it in kernels.items() if lies_in(path, scope) for signal in it.signals if signal[1:] == meant]
        found += [Step("test", signal, it) for _, it, signal in named if it.form in ("Present", "Suspend")]
        found += [Step("emission", signal, it) for path, it, signal in named if it.form == "Emit" and path in starts]
    return found


def cures_of(text, main, modules_in_cycle):
    """The places where one `pause;`, or `weak abort` for `abort`, makes the program accept the source, each of them asked."""
    found = []
    for module in modules_of(text):
        if module.name.name not in modules_in_cycle:
            continue
        for statement in all_statements(module.body):
            if statement.form in ("sequence", "parallel"):
                continue
            if statement.form == "abort" and asked(text[: statement.start] + "weak " + text[statement.start :], main).status == DONE:
                found.append(Cure(statement, module.name.name, True))
            answer = asked(text[: statement.start] + "pause; " + text[statement.start :], main)
            if answer.status == DONE:
                found.append(Cure(statement, module.name.name))
            elif answer.status != CYCLIC and not answer.err.startswith(b"cec: "):
                return found
    return found
