"""An embedded C text that `cec-opt c --embed` wrote, against everything that such a text must keep.

It is exactly the written form of the netlist that it holds, and keeps the rules on names. Over random calls on two
instances, resets among them, each instance shows what its own events and resets make of the circuit, or of the source.
That is asked of the reference's reading of the text, and, where gcc is installed, of the text compiled by gcc.
Definitions are taken with the declarations of the netlist that they hold. Declarations alone are compared with the
interface.
"""

from __future__ import annotations

import os
import random
import shutil
import subprocess
import tempfile
from pathlib import Path
from typing import Any, Optional, Protocol, Sequence

from fuzzing.sources import event_items
from fuzzing.written import Difference, first_difference, need
from rules.embedded_c import (
    DECLARATIONS,
    DEFINITIONS,
    HEADER,
    Component,
    Layout,
    NotEmbedded,
    is_sound,
    read_embedded,
    run_calls,
    write_embedded,
)
from rules.netlist import Net

CALLS = 40
# An instance, and the values of its inputs, or None for a reset.
Call = tuple[int, Optional[Sequence[bool]]]
Shown = tuple[int, list[bool], bool]
FLAGS = ("-std=c99", "-Wall", "-Wextra", "-Wconversion", "-pedantic", "-Werror")
MAIN = """#include "%(name)s.h"
#include <stdio.h>

static %(name)s_t instances[2];
static %(name)s_inputs_t given;
static %(name)s_outputs_t shown;

int main(void)
{
    int byte;
    while ((byte = getchar()) != EOF) {
        %(name)s_t *const own = &instances[byte == '1'];
        if (getchar() == 'r') {
            %(name)s_reset(own);
        } else {
%(reads)s
            const bool running = %(name)s_react(own, &given, &shown);
%(prints)s
            printf("%%d\\n", (int)running);
        }
    }
    return 0;
}
"""


class Runner(Protocol):
    """What runs a circuit or a source, one item after another."""

    @property
    def outputs(self) -> list[bool]:
        ...

    @property
    def word(self) -> Any:
        ...

    def reset(self) -> None:
        ...

    def react(self, event: Sequence[bool]) -> None:
        ...


def net_of_embedded(
    written: bytes, name: bytes, layout: Layout, inputs: Sequence[bytes], outputs: Sequence[bytes]
) -> Optional[Net]:
    """The net of an embedded text; the text must be exactly the written form of it, under this name and in this layout.
    None of declarations, which must have this interface."""
    try:
        component = read_embedded(written, name, layout)
    except NotEmbedded as fault:
        raise Difference("no embedded text: %s" % fault)
    if layout.file == DECLARATIONS:
        need(list(inputs) == component.inputs, "inputs %r, not %r", component.inputs, inputs)
        need(list(outputs) == component.outputs, "outputs %r, not %r", component.outputs, outputs)
        latches = [(False, 0) for _ in component.states]
        net = Net(name, component.inputs, [(it, 0) for it in component.outputs], 0, latches, [])
    else:
        with_interface(component, layout, inputs)
        need(is_sound(component), "the text breaks the rules on names")
        net = net_of_component(component)
    again = write_embedded(net, name, layout)
    need(written == again, "not the written form: %s", first_difference(written, again))
    return None if layout.file == DECLARATIONS else net


def with_interface(component: Component, layout: Layout, inputs: Sequence[bytes]) -> None:
    """Gives definitions the inputs of the text that they are of, and the outputs that they set."""
    if layout.file == DEFINITIONS:
        component.inputs, component.outputs = list(inputs), [name for name, _ in component.shown]


def net_of_component(component: Component) -> Net:
    """The net whose latches, gates and outputs are the states, locals and outputs of a component."""
    places = [(b"in", name) for name in component.inputs] + [(b"self", name) for name, _ in component.states]
    next_count = len(component.states) + 1
    gates, kept = component.locals[:-next_count], component.locals[-next_count:]
    places += [(b"", name) for name, _ in gates]
    numbers = {place: n for n, place in enumerate(places)}

    def op_of(value: Any) -> Any:
        if isinstance(value, bool):
            return ("const", value)
        kind = {"": "copy", "!": "not", "&": "and", "|": "or"}[value[0]]
        return (kind, *(numbers[place] for place in value[1:]))

    read = [numbers[value[1]] for _, value in kept]
    return Net(
        component.name,
        component.inputs,
        [(name, numbers[place]) for name, place in component.shown],
        read[-1],
        [(init, source) for (_, init), source in zip(component.states, read)],
        [(op_of(value), None) for _, value in gates],
    )


def drawn_calls(rng: random.Random, relations: Sequence[Any], inputs: int) -> list[Call]:
    """Calls on two instances in any order, each of which is reset first; the events of each meet the relations."""
    items = [event_items(rng, CALLS, relations, inputs) for _ in range(2)]
    calls: list[Call] = [(1, None), (0, None)]
    while items[0] or items[1]:
        instance = rng.choice([k for k in range(2) if items[k]])
        item = items[instance].pop(0)
        calls.append((instance, None if isinstance(item, str) else item))
    return calls


def expected(runners: Sequence[Runner], calls: Sequence[Call]) -> list[Shown]:
    """What runners show of calls, one runner for each instance."""
    shown = []
    for instance, item in calls:
        if item is None:
            runners[instance].reset()
        else:
            runners[instance].react(item)
            shown.append((instance, list(map(bool, runners[instance].outputs)), bool(runners[instance].word)))
    return shown


def compiled(files: dict[str, bytes], component: Component, calls: Sequence[Call]) -> Optional[list[Shown]]:
    """What files show of calls as gcc compiles them, without a warning; none where gcc is missing."""
    if shutil.which("gcc") is None:
        return None
    name = os.fsdecode(component.name)
    reads = "\n".join("            given.%s = getchar() == '1';" % os.fsdecode(it) for it in component.inputs)
    prints = "\n".join("            putchar(shown.%s ? '1' : '0');" % os.fsdecode(it) for it in component.outputs)
    with tempfile.TemporaryDirectory() as room:
        for file, text in files.items():
            (Path(room) / file).write_bytes(text)
        (Path(room) / "call.c").write_text(MAIN % {"name": name, "reads": reads, "prints": prints})
        words = ["gcc", *FLAGS, "-O1", "call.c", *[it for it in files if it.endswith(".c")], "-o", "call"]
        made = subprocess.run(words, cwd=room, capture_output=True, text=True, check=False)
        need(made.returncode == 0, "gcc says %s", made.stderr[:500])
        said = "".join("%d%s" % (k, "r" if item is None else "e" + "".join("01"[b] for b in item)) for k, item in calls)
        lines = subprocess.run([room + "/call"], input=said, capture_output=True, text=True, check=False).stdout.split()
    instances = [k for k, item in calls if item is not None]
    need(len(lines) == len(instances), "%d lines of the compiled text", len(lines))
    return [(k, [bit == "1" for bit in line[:-1]], line[-1] == "1") for k, line in zip(instances, lines)]


def files_of(written: bytes, net: Net, name: bytes, layout: Layout) -> dict[str, bytes]:
    """The files of a component, by their names: definitions come with the declarations of their net."""
    stem = os.fsdecode(name)
    if layout.file == HEADER:
        return {stem + ".h": written}
    return {stem + ".h": write_embedded(net, name, Layout(layout.packed, DECLARATIONS)), stem + "_own.c": written}


def check_calls(
    written: bytes,
    net: Net,
    name: bytes,
    layout: Layout,
    runners: Sequence[Runner],
    relations: Sequence[Any] = (),
    seed: int = 1,
) -> None:
    """Over random calls on two instances the text of this net shows what the runners show, one for each instance."""
    component = read_embedded(written, name, layout)
    with_interface(component, layout, net.inputs)
    calls = drawn_calls(random.Random(seed), relations, len(component.inputs))
    due = expected(runners, calls)
    need(run_calls(component, calls) == due, "other values are shown")
    by_gcc = compiled(files_of(written, net, name, layout), component, calls)
    need(by_gcc is None or by_gcc == due, "other values are shown by the compiled text")
