"""Worked equations on kernels: three-valued walks (est_ternary), least solutions (grc_ternary), shared graphs
(grc_share), and encoded states (net_state_enc).

A block asks about one term. Statuses are `+`, `-` and `?`, a state is the selected leaves, or `-` for the first
instant.
"""

from __future__ import annotations

from typing import Any, Callable, Optional

from equations.antt import apply, bits, codes, definition, equation, inner, listed, read_term
from equations.graphs import UNFOLDING, graph_of
from equations.kernels import environment, event_of, kernel_of, shown
from equations.sheets import Block, Sheet
from rules.dismantling import KernelProgram
from rules.graph import Graph
from rules.kernel import Tree
from rules.potentials import can, must, star
from rules.reactions import react
from rules.selection import resume
from rules.sharing import Shared
from rules.systems import ev3

SIGNALS = CODES = range(7)
SIGN = {True: "+", False: "-", None: "?"}


def signs(statuses: Any) -> str:
    return "".join(SIGN[status] for status in statuses)


# ---------------------------------------------------------------- est_ternary


def walked(t: Tree, runs: Optional[bool], env: dict[int, Optional[bool]]) -> str:
    """The statuses of the signals and of the codes of a term that runs, may run, or does not run."""

    def status(element: int, part: int) -> Optional[bool]:
        if runs is False:
            return False
        if runs is True and element in must(t, env)[part]:
            return True
        return None if element in can(runs is True, t, env)[part] else False

    return signs(status(s, 0) for s in SIGNALS) + "/" + signs(status(k, 1) for k in CODES)


def solved(t: Tree, env: dict[int, Optional[bool]], outputs: list[int]) -> str:
    """The outputs one after another, each with the later ones as local signals."""
    for j, o in enumerate(outputs):
        bound = t
        for later in reversed(outputs[j + 1 :]):
            bound = ("Local", later, bound)
        unknown = star(env, o, None)
        decided: Optional[bool] = None
        if o in must(bound, unknown)[0]:
            decided = True
        elif o not in can(True, bound, unknown)[0]:
            decided = False
        env = star(env, o, decided)
    return signs(env[o] for o in outputs)


def ternary_block(block: Block) -> list[str]:
    name = block.one("name")
    t = kernel_of(read_term(block.one("term")))
    out = [definition(name, "Term", shown(t))]
    for key, runs in (("runs", True), ("may_run", None), ("silent", False)):
        for env in block.all(key):
            answer = codes(walked(t, runs, environment(env)))
            out.append(equation("%s_%s" % (name, key), "%s %s (%s)" % (key, name, codes(env)), answer))
    for env in block.all("solved"):
        answer = codes(solved(t, environment(env), [2, 3]))
        out.append(equation(name + "_solved", "outputs %s (%s)" % (name, codes(env)), answer))
    return out


# ---------------------------------------------------------------- states of graphs


class State:
    """A state of a graph from its text: the first instant, or the leaves that are selected."""

    def __init__(self, g: Graph, text: str) -> None:
        self.first = text == "-"
        self.leaves = [] if self.first or not text else [int(n) for n in text.split(",")]
        self.selected = [leaf in self.leaves for leaf in g.tree.leaf_path]
        self.holds = g.tree.holds(self.selected)

    def shown(self) -> str:
        return "Initial" if self.first else "(selecting (%s))" % listed(map(str, self.leaves))


# ---------------------------------------------------------------- grc_ternary


def rounds(g: Graph, state: State, event: list[bool]) -> tuple[int, list[int]]:
    """How many rounds reach the least solution, where each wire gets the status of its formula in the round before."""
    values = [1] * g.count
    count = 0
    while True:
        following = [ev3(f, values, state.first, state.holds, event) for f in g.equations]
        if following == values:
            return count, values
        values = following
        count += 1


def solution_block(block: Block) -> list[str]:
    name = block.one("name")
    inputs, outputs = (int(n) for n in block.one("interface").split(" "))
    t = kernel_of(read_term(block.one("term")))
    g = graph_of(t, inputs, 0, outputs)
    out = [definition(name, "Program", "program %d %d %s" % (inputs, outputs, inner(shown(t))))]
    for number, case in enumerate(block.all("case")):
        text, events = case.split(" ")
        state, event = State(g, text), event_of(events)
        count, values = rounds(g, state, event)
        assert values == g.solve3(state.first, state.holds, event)
        statuses = codes("".join("-?+"[value] for value in values))
        label = "%s_%d" % (name, number)
        given = "%s %s (%s)" % (name, state.shown(), codes(events))
        out.append(equation(label + "_reached", "reached %s %d" % (given, count), "(%s, true)" % statuses, UNFOLDING))
        term = t if state.first else resume(g.body, state.holds)
        answer = react(KernelProgram("", [], inputs, 0, outputs, [], t), term, event)
        right = "None" if answer is None else apply("Some", codes("%s/%d" % (bits(answer[0]), answer[1])))
        out.append(equation(label + "_answer", "answer " + given, right))
    return out


# ---------------------------------------------------------------- grc_share


def numbers(values: Any) -> str:
    return listed(str(n) for n in values)


def sharing_block(block: Block) -> list[str]:
    name = block.one("name")
    t = kernel_of(read_term(block.one("term")))
    shared = Shared(graph_of(t))
    ends: dict[int, list[int]] = {}
    for a, b in shared.edges:
        ends.setdefault(a, []).append(b)
    pairs = " ++ ".join("from %d (%s)" % (a, numbers(bs)) for a, bs in ends.items()) or "[]"
    return [
        definition(name, "Term", shown(t)),
        equation(name + "_wires", "numbers " + name, numbers(shared.of_wire), "numbers"),
        equation(name + "_edges", "same_pairs (pairs %s) (%s)" % (name, pairs), "true", "pairs"),
    ]


def reaction_block(block: Block) -> list[str]:
    name = block.one("name")
    t = kernel_of(read_term(block.one("term")))
    g = graph_of(t)
    shared = Shared(g)
    out = [definition(name, "Term", shown(t))]
    for key in ("first", "second"):
        text, events = block.one(key).split(" ")
        state, event = State(g, text), event_of(events)
        values = shared.solve3(state.first, state.holds, event)
        assert 1 not in values
        true = [w for w, value in enumerate(values) if value == 2]
        following = shared.next_state([v == 2 for v in values], state.first, state.holds, state.selected, event)
        kept = [leaf for leaf, bit in zip(g.tree.leaf_path, following) if bit]
        left = "reacts %s %s (bits (%s)) (%s) (%s)" % (name, state.shown(), codes(events), numbers(true), numbers(kept))
        out.append(equation("%s_%s" % (name, key), left, "true", "reacts"))
    return out


# ---------------------------------------------------------------- net_state_enc


def widths_block(block: Block) -> list[str]:
    name, text = block.one("name"), block.one("term")
    value = read_term(text)
    t: Tree
    if value[0] == "pauses":
        t = kernel_of(value[2])
        for _ in range(value[1]):
            t = ("Seq", ("Pause",), t)
    else:
        t = kernel_of(value)
        text = shown(t)
    tree = graph_of(t, 0, 0, 7).tree
    out = [definition(name, "Term", text)]
    counts = [tree.encoded_latches(), tree.leaves]
    if tree.leaves == 0:
        return out + [equation(name + "_counts", "counts " + name, numbers(counts))]
    core = tree.core(0)
    parts = len(tree.excl_parts(core)) if tree.form[core][0] == "excl" else 1
    return out + [equation(name + "_widths", "widths " + name, numbers(counts + list(tree.widths(0)) + [parts]))]


FILES: dict[tuple[str, str], Callable[[Block], list[str]]] = {
    ("est_ternary", "Equations"): ternary_block,
    ("grc_ternary", "Equations"): solution_block,
    ("grc_share", "DrawnKernels"): sharing_block,
    ("grc_share", "DrawnReactions"): reaction_block,
    ("net_state_enc", "WorkedWidths"): widths_block,
}


def file_text(crate: str, name: str) -> str:
    sheet = Sheet(crate, name)
    return sheet.head + "\n".join(text for block in sheet.blocks for text in FILES[crate, name](block))
